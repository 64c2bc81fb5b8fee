/* Cogarrune: schema tables for card lists, as verified software. The calls of crates/exports for C.
 *
 * Link crates/exports/out/libexports.a (`rt lib` in crates/exports). The library has no state, allocates nothing, and calls nothing but
 * memcpy, memmove and memset. It may be used from several threads as long as they share no `out` and no `work`. A call takes up to
 * COGARRUNE_STACK_BYTES bytes of stack.
 *
 * Slices. Each is a pointer and a length; a length counts bytes for `uint8_t` and words for `uint32_t`. A pointer must be good for
 * its length: to read for classes and inputs, to read and write for `out` and `work`. With length 0 it must still not be null. `out` and
 * `work` overlap nothing else. Classes and inputs may have any bytes and any length.
 *
 * Sizes. Every call picks one of three sets of limits by its first argument. Any other number counts as COGARRUNE_STANDARD. What reads
 * at one size reads, under the same classes, at every larger one.
 *
 *     size                  rules, labels, starts, types   nodes   levels   working words
 *     COGARRUNE_SMALL                                 16     256       16          12,288
 *     COGARRUNE_STANDARD                              64   1,024       64          16,384
 *     COGARRUNE_LARGE                                128   2,048       64          32,768
 *
 * Type numbers run below the limit on types. A table that is written keeps the limits of its call, so it reads at the same size.
 *
 * Classes. Every call is lent, after its size, a class for each byte from 00 to FF in order: 0 if the byte is never in a name, 1 if it is
 * not first in one, 2 if it stands anywhere. All names of the call's inputs are read under them. A table that is written has no names but
 * those of the inputs, so it reads under the same classes. Classes load if
 *     - there are 256, each is 0, 1 or 2, and at least one is 2;
 *     - bytes 00 to 20 (hexadecimal) and ( ) | , * + ? ! < > / = have class 0.
 * Every other byte may have any class, also # " & and 7F to FF. Classes that do not load are refusal 18, whatever the inputs are.
 * COGARRUNE_ASCII_CLASSES, below, load.
 *
 * Names are equal when they agree after A to Z become a to z: these 26 bytes, whatever their classes, and no others. A table of two labels
 * with equal names is refused (6); a document is let in or not whatever its letters' case. A table that is written spells each name as
 * it was met first: as the old table does, also where that label has no rule there; else as the addition does, a document's name as its
 * first node of that name. cogarrune_label_name and cogarrune_pages give a name as its own table spells it.
 *
 * Documents. Directly before a document a call takes its format: COGARRUNE_DOCUMENT_FILE or COGARRUNE_XML_TEXT. Any other number counts as
 * COGARRUNE_DOCUMENT_FILE. The format is never guessed from the bytes. XML text is start tags, end tags and empty-element tags as XML 1.0
 * writes them, with white space (20, 09, 0D, 0A) around them and behind a name in a tag. Nothing else is taken: no attributes, text,
 * comments, declarations or references, and no byte order mark. A name ends at white space, / or >. An end tag has the bytes of the
 * innermost open element's name, so </CARD> does not end <card>. Limits, classes and the equality of names are those of document files. A
 * file and a text of the same nodes, neither too long (2), are both read or neither is; if both are, every call answers alike.
 *
 * Text. A rule of tag 13 is for text: its nodes may hold text. A node of tag 32 does hold text; no node of XML text does. A rule 12 takes
 * only nodes without text, a rule 13 both. In every other way the two tags of a rule, and those of a node, are read alike. A table that is
 * written has a rule 13 where a rule 13 of the inputs, or a node 32 of a document, stands behind it: one whose own content is not none
 * once it is reduced, of a type that is reached. Kinds do not look at text: a rule 12 and a rule 13 of one type and label are two rules.
 *
 * Pages. cogarrune_pages writes on printed pages any table that reads: its rules as they are read, in the order of the file, nothing
 * reduced or sorted, and nothing but rules. A page is 60 rows of 72 columns, and a column is a byte. The type, as t0, stands in columns 1
 * to 3, the name in 5 to 27, the content in 29 to 72: (,) is a sequence, (|) a choice, () empty, ! none, and *, +, ? behind an operand are
 * any number of, one or more of, optional. A # behind all of it marks a rule for text. A longer text goes on in further rows of its own
 * columns, each row filled first. A rule takes as many rows as its longest text, also over a page's end. Each row is padded with spaces
 * and ends in a line feed (0A): 73 bytes, so a page is 4,380. Blank rows, padded too, fill the last page. Without rules there is no page.
 * The three texts of a rule, without the padding and joined with a space, are the lister's text for that rule.
 *
 * Working memory. Every call is lent `work`, of at least as many words as its size needs, with any content. Afterwards just these words
 * are zero, with every refusal too (18 included), and words beyond are as they came. With fewer words the call answers refusal 1 and
 * changes none.
 *
 * Answers. Every answer is one number: refusal x 2^32 + value. The refusal is 0, or the first fault found; then the value is 0, and
 * nothing is written to `out`. First 1 is tried, then 18, then the inputs one after the other: 2, and field by field, front to back, 3 to
 * 12. XML text, after 2, is tried tag by tag, front to back, each tag as a whole: 16, 17, 5, 11. It is never 3, 4 or 12, and no bytes
 * at all are 11. After the inputs come a caller's label number (8), then 13, 14 and 15, of which a sample can have 14 and 15, and pages 15
 * alone. So the order is not that of the numbers.
 */
#ifndef COGARRUNE_H
#define COGARRUNE_H

#include <stddef.h>
#include <stdint.h>

#ifdef __cplusplus
extern "C" {
#endif

/* The sizes. */
enum cogarrune_size { COGARRUNE_SMALL = 0, COGARRUNE_STANDARD = 1, COGARRUNE_LARGE = 2 };

/* What a document is read as. */
enum cogarrune_format { COGARRUNE_DOCUMENT_FILE = 0, COGARRUNE_XML_TEXT = 1 };

/* Words that a call of each size needs. */
#define COGARRUNE_WORDS_SMALL 12288
#define COGARRUNE_WORDS_STANDARD 16384
#define COGARRUNE_WORDS_LARGE 32768

/* Stack that a thread should leave for a call: twice what the hardest inputs known take (tests/stack/run). */
#define COGARRUNE_STACK_BYTES 1048576

/* No input is longer, and no table written. An output of this many bytes is never too short for a table. */
#define COGARRUNE_MOST_BYTES 32768

/* Pages may be longer than any table. At each size no table takes more bytes on pages than these, and some take as many: 19, 39 and 42
 * pages. An output of this many bytes is never too short for the pages of a table. */
#define COGARRUNE_PAGES_BYTES_SMALL 83220
#define COGARRUNE_PAGES_BYTES_STANDARD 170820
#define COGARRUNE_PAGES_BYTES_LARGE 183960

/* The classes of plain ASCII names: letters and _ anywhere, digits, - and . not first, no other byte. They load. To lend them:
 *     static const uint8_t classes[256] = COGARRUNE_ASCII_CLASSES; */
#define COGARRUNE_ASCII_CLASSES                                             \
    {                                                                       \
        0, 0, 0, 0, 0, 0, 0, 0, 0, 0, 0, 0, 0, 0, 0, 0, /* 00 */            \
        0, 0, 0, 0, 0, 0, 0, 0, 0, 0, 0, 0, 0, 0, 0, 0, /* 10 */            \
        0, 0, 0, 0, 0, 0, 0, 0, 0, 0, 0, 0, 0, 1, 1, 0, /* 20: - . */       \
        1, 1, 1, 1, 1, 1, 1, 1, 1, 1, 0, 0, 0, 0, 0, 0, /* 30: 0 to 9 */    \
        0, 2, 2, 2, 2, 2, 2, 2, 2, 2, 2, 2, 2, 2, 2, 2, /* 40: A to O */    \
        2, 2, 2, 2, 2, 2, 2, 2, 2, 2, 2, 0, 0, 0, 0, 2, /* 50: P to Z, _ */ \
        0, 2, 2, 2, 2, 2, 2, 2, 2, 2, 2, 2, 2, 2, 2, 2, /* 60: a to o */    \
        2, 2, 2, 2, 2, 2, 2, 2, 2, 2, 2, 0, 0, 0, 0, 0, /* 70: p to z */    \
        0, 0, 0, 0, 0, 0, 0, 0, 0, 0, 0, 0, 0, 0, 0, 0, /* 80 */            \
        0, 0, 0, 0, 0, 0, 0, 0, 0, 0, 0, 0, 0, 0, 0, 0, /* 90 */            \
        0, 0, 0, 0, 0, 0, 0, 0, 0, 0, 0, 0, 0, 0, 0, 0, /* A0 */            \
        0, 0, 0, 0, 0, 0, 0, 0, 0, 0, 0, 0, 0, 0, 0, 0, /* B0 */            \
        0, 0, 0, 0, 0, 0, 0, 0, 0, 0, 0, 0, 0, 0, 0, 0, /* C0 */            \
        0, 0, 0, 0, 0, 0, 0, 0, 0, 0, 0, 0, 0, 0, 0, 0, /* D0 */            \
        0, 0, 0, 0, 0, 0, 0, 0, 0, 0, 0, 0, 0, 0, 0, 0, /* E0 */            \
        0, 0, 0, 0, 0, 0, 0, 0, 0, 0, 0, 0, 0, 0, 0, 0  /* F0 */            \
    }

/* Why a call turned its input back, in the order in which the reasons are tried. */
enum cogarrune_refusal {
    COGARRUNE_WORK_TOO_SHORT = 1,    /* fewer words are lent than the size needs */
    COGARRUNE_BAD_CLASSES = 18,      /* the classes do not load */
    COGARRUNE_INPUT_TOO_LONG = 2,    /* an input is longer than 32,768 bytes */
    COGARRUNE_FIELD_PAST_END = 3,    /* a field runs past the input's end, or the input stops before an end field */
    COGARRUNE_BAD_FIELD = 4,         /* a tag is foreign or out of order, or its length is not one of its own */
    COGARRUNE_BAD_TEXT = 16,         /* XML text has a byte outside names that is not taken there, or stops inside a tag */
    COGARRUNE_BAD_END_TAG = 17,      /* an end tag of XML text has not the bytes of the innermost open element's name, or none is open */
    COGARRUNE_BAD_NAME = 5,          /* a name has a byte of class 0, its first is not of class 2, or it has 0 or over 63 (XML text) */
    COGARRUNE_REPEATED = 6,          /* a label name (up to letter case) or a start type repeats an earlier one */
    COGARRUNE_TOO_MANY = 7,          /* a label, start or rule more than the size allows */
    COGARRUNE_OUT_OF_RANGE = 8,      /* a start or rule type not below the size's limit, or a label number not among the labels */
    COGARRUNE_BAD_CONTENT = 9,       /* a content is not exactly one expression, or names a type not below the size's limit */
    COGARRUNE_NESTED_TOO_DEEP = 10,  /* a content nests more than 32 deep */
    COGARRUNE_BAD_TREE = 11,         /* a node too many, too many children, too deep, after the tree is complete, or an end before it is */
    COGARRUNE_BYTES_AFTER_END = 12,  /* bytes follow the end field */
    COGARRUNE_NO_DOCUMENT = 13,      /* the united tables derive no document */
    COGARRUNE_RESULT_TOO_LARGE = 14, /* the sample or the result breaks a limit of table files of that size */
    COGARRUNE_OUTPUT_TOO_SHORT = 15  /* `out` is shorter than what is to be written */
};

/* The two halves of an answer. */
static inline uint32_t cogarrune_refusal_of(uint64_t answer) { return (uint32_t)(answer >> 32); }
static inline uint32_t cogarrune_value_of(uint64_t answer) { return (uint32_t)answer; }

/* Where a name stands in its table, from the value of cogarrune_label_name. */
static inline size_t cogarrune_name_offset(uint32_t value) { return value >> 16; }
static inline size_t cogarrune_name_length(uint32_t value) { return value & 0xFFFF; }

/* Words that a call of a size needs. */
static inline size_t cogarrune_words_of(uint32_t size) {
    return size == COGARRUNE_SMALL ? COGARRUNE_WORDS_SMALL : size == COGARRUNE_LARGE ? COGARRUNE_WORDS_LARGE : COGARRUNE_WORDS_STANDARD;
}

/* Bytes that the pages of a table take at most at a size. */
static inline size_t cogarrune_pages_bytes_of(uint32_t size) {
    return size == COGARRUNE_SMALL   ? COGARRUNE_PAGES_BYTES_SMALL
           : size == COGARRUNE_LARGE ? COGARRUNE_PAGES_BYTES_LARGE
                                     : COGARRUNE_PAGES_BYTES_STANDARD;
}

/* Does a table read? Value 1. */
uint64_t cogarrune_table_reads(uint32_t size, const uint8_t *classes, size_t classes_length, const uint8_t *table, size_t table_length,
                               uint32_t *work, size_t work_length);

/* Does a document read? Value 1. */
uint64_t cogarrune_document_reads(uint32_t size, const uint8_t *classes, size_t classes_length, uint32_t format, const uint8_t *document,
                                  size_t document_length, uint32_t *work, size_t work_length);

/* The name of a label, counted from 0, as a part of the table's own bytes. Value: offset x 65,536 + length. */
uint64_t cogarrune_label_name(uint32_t size, const uint8_t *classes, size_t classes_length, const uint8_t *table, size_t table_length,
                              size_t label, uint32_t *work, size_t work_length);

/* Does the table let in the document? Value 1 for yes, 0 for no. A name that the table does not know means no. */
uint64_t cogarrune_lets_in(uint32_t size, const uint8_t *classes, size_t classes_length, const uint8_t *table, size_t table_length,
                           uint32_t format, const uint8_t *document, size_t document_length, uint32_t *work, size_t work_length);

/* Is the table local: has no label two rules? Value 1 for yes, 0 for no. */
uint64_t cogarrune_is_local(uint32_t size, const uint8_t *classes, size_t classes_length, const uint8_t *table, size_t table_length,
                            uint32_t *work, size_t work_length);

/* Is the table single-type: neither among its starts nor within one content do two types have rules with one label, and no two
 * rules share type and label? Value 1 for yes, 0 for no. */
uint64_t cogarrune_is_single_type(uint32_t size, const uint8_t *classes, size_t classes_length, const uint8_t *table,
                                  size_t table_length, uint32_t *work, size_t work_length);

/* Writes the sample table of a document: a type for each path of names, and of the children of its nodes the choice of their sequences, in
 * which a run of two or more neighbours of one name is one or more of its type. The sample lets in the document. Value: how many bytes of
 * `out` it takes; bytes past them stay as they came. */
uint64_t cogarrune_sample(uint32_t size, const uint8_t *classes, size_t classes_length, uint32_t format, const uint8_t *document,
                          size_t document_length, uint8_t *out, size_t out_length, uint32_t *work, size_t work_length);

/* Writes the least local (or single-type) table that lets in all that the old table and the addition let in. Value as for
 * cogarrune_sample. A document is added through its sample: the result lets in all that the sample lets in, the document among them, and
 * is least over the old table and the sample.
 *
 * A result can be widened again. As long as every call gives a table, the stages don't matter: in whatever order the additions come, and
 * also as one table that lets in just what they do, the last result lets in the same documents and is least over the first table and
 * all of them. Its bytes may differ, since types and labels are numbered as they are met. Widening a result by the empty table,
 * 1F 00 00, changes no document let in. */
uint64_t cogarrune_widen_local_by_table(uint32_t size, const uint8_t *classes, size_t classes_length, const uint8_t *old,
                                        size_t old_length, const uint8_t *addition, size_t addition_length, uint8_t *out,
                                        size_t out_length, uint32_t *work, size_t work_length);
uint64_t cogarrune_widen_local_by_document(uint32_t size, const uint8_t *classes, size_t classes_length, const uint8_t *old,
                                           size_t old_length, uint32_t format, const uint8_t *document, size_t document_length,
                                           uint8_t *out, size_t out_length, uint32_t *work, size_t work_length);
uint64_t cogarrune_widen_single_type_by_table(uint32_t size, const uint8_t *classes, size_t classes_length, const uint8_t *old,
                                              size_t old_length, const uint8_t *addition, size_t addition_length, uint8_t *out,
                                              size_t out_length, uint32_t *work, size_t work_length);
uint64_t cogarrune_widen_single_type_by_document(uint32_t size, const uint8_t *classes, size_t classes_length, const uint8_t *old,
                                                 size_t old_length, uint32_t format, const uint8_t *document, size_t document_length,
                                                 uint8_t *out, size_t out_length, uint32_t *work, size_t work_length);

/* Writes the pages of a table, as under Pages above. Value: how many bytes of `out` they take, 4,380 for each page; bytes past them stay as
 * they came. It can be above COGARRUNE_MOST_BYTES; of a table without rules it is 0, and an output of length 0 will do. */
uint64_t cogarrune_pages(uint32_t size, const uint8_t *classes, size_t classes_length, const uint8_t *table, size_t table_length,
                         uint8_t *out, size_t out_length, uint32_t *work, size_t work_length);

#ifdef __cplusplus
}
#endif

#endif
