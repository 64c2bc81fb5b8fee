/* Membership in plain C, with nothing proved: the floor that tests/speed/run measures the library against. Written from document 01 and,
 * for XML text, Card 2, with the library's own algorithm. The nodes are gone through from the last to the first, with a stack of type sets
 * in the working words: a node takes the sets of its children from the top and leaves its own. For each rule of a node's label the content
 * is walked over once for each child. Compiled once for each size, whose number is FLOOR_SIZE, so that its limits are constants.
 * tests/speed/agrees holds its answers against the library's. */
#include "floor.h"

#include <string.h>

#include "../../include/cogarrune.h"

/* The limits of the size, a set of types, and the call's name. */
#if FLOOR_SIZE == 0
enum { TYPES = 16, MOST_NODES = 256, MOST_LEVELS = 16, WORDS = COGARRUNE_WORDS_SMALL };
typedef uint64_t type_set;
#define LETS_IN_OF_SIZE floor_lets_in_small
#elif FLOOR_SIZE == 1
enum { TYPES = 64, MOST_NODES = 1024, MOST_LEVELS = 64, WORDS = COGARRUNE_WORDS_STANDARD };
typedef uint64_t type_set;
#define LETS_IN_OF_SIZE floor_lets_in_standard
#else
enum { TYPES = 128, MOST_NODES = 2048, MOST_LEVELS = 64, WORDS = COGARRUNE_WORDS_LARGE };
__extension__ typedef unsigned __int128 type_set;
#define LETS_IN_OF_SIZE floor_lets_in_large
#endif

enum { SET_WORDS = sizeof(type_set) / sizeof(uint32_t) };
enum { MOST_LABELS = TYPES, MOST_STARTS = TYPES, MOST_RULES = TYPES };
enum { CLASSES = 256, NAME_BYTES = 63, CONTENT_BYTES = 1024, NESTING = 32, MOST_CHILDREN = 200 };
enum { LABEL_TAG = 0x10, START_TAG = 0x11, RULE_TAG = 0x12, TEXT_RULE_TAG = 0x13, TABLE_END = 0x1F };
enum { NODE_TAG = 0x30, TEXT_NODE_TAG = 0x32, DOCUMENT_END = 0x3F };
enum { NONE, EMPTY, TYPE, SEQUENCE, CHOICE, ANY_NUMBER, ONE_OR_MORE, OPTIONAL };

/* Keys of names, and what ends a chain: no label and no rule has this number. */
enum { KEYS = 64, NO_MORE = TYPES };

/* Marks are cleared by so many bytes, which divide CONTENT_BYTES. */
enum { STEP = 16 };

struct field {
    unsigned tag;
    size_t size;
    const uint8_t *value;
};

struct label {
    const uint8_t *name;
    uint8_t size;
    uint8_t next; /* the next label whose name has the same key */
};

struct rule {
    const uint8_t *content;
    uint16_t size;
    uint8_t type;
    uint8_t nullable; /* the content has the word of no types */
    uint8_t text;     /* its nodes may hold text: 1, else 0 */
    uint8_t next;     /* the next rule of the same label */
};

struct table {
    size_t labels, starts, rules;
    type_set start_types;
    uint8_t first_label[KEYS];            /* of each key */
    uint8_t first_rule[MOST_LABELS + 1];  /* of each label; NO_MORE, the label of an unknown name, has none */
    struct label label[MOST_LABELS];
    struct rule rule[MOST_RULES];
};

struct node {
    uint8_t label; /* NO_MORE for an unknown name */
    uint8_t children;
    uint8_t text; /* it holds text: 1, else 0 */
};

/* A document while it is read. For each open level, outermost first, `coming` has how many nodes are still to come there; XML text does
 * not use it, and its levels are the elements that are open. */
struct document {
    size_t nodes, levels;
    struct node node[MOST_NODES];
    uint8_t coming[MOST_LEVELS + 1];
};

/* An element of XML text whose end tag is still to come: its name, and its place among the nodes. */
struct open {
    const uint8_t *name;
    uint16_t place;
    uint8_t size;
};

/* A tag of XML text. */
struct tag {
    const uint8_t *name;
    size_t size;
    unsigned closes; /* 1 for an end tag, else 0 */
    unsigned empty;  /* 1 for an empty-element tag, else 0 */
};

/* Whether classes load: 256 of them, each 0, 1 or 2, some of them 2, and 0 for the bytes that are in no name. */
static int loads(const uint8_t *classes, size_t length) {
    static const uint8_t signs[] = {'(', ')', '|', ',', '*', '+', '?', '!', '<', '>', '/', '='};
    uint8_t above = 0, letters = 0, never = 0;
    if (length != CLASSES) return 0;
    for (size_t i = 0; i < CLASSES; i++) {
        above |= classes[i] > 2;
        letters |= classes[i] == 2;
    }
    for (size_t i = 0; i <= ' '; i++) never |= classes[i];
    for (size_t i = 0; i < sizeof signs; i++) never |= classes[signs[i]];
    return !above && letters && !never;
}

/* Whether bytes, one at least, are a name under classes that load. */
static int is_name(const uint8_t *classes, const uint8_t *name, size_t size) {
    if (classes[name[0]] != 2) return 0;
    for (size_t i = 1; i < size; i++)
        if (classes[name[i]] == 0) return 0;
    return 1;
}

/* A to Z become a to z; every other byte stays. */
static uint8_t small_letter(uint8_t byte) { return byte >= 'A' && byte <= 'Z' ? (uint8_t)(byte + ('a' - 'A')) : byte; }

/* Whether names of the same length are equal, up to letter case. Only bytes that differ are looked at further, and of
 * these only those whose last five bits agree. */
static int same_name(const uint8_t *one, const uint8_t *other, size_t size) {
    for (size_t i = 0; i < size; i++)
        if (one[i] != other[i] && ((one[i] ^ other[i]) % 32 || small_letter(one[i]) != small_letter(other[i]))) return 0;
    return 1;
}

/* A number that equal names have in common: the bit in which a letter differs from its capital is set in both bytes. */
static unsigned key_of(const uint8_t *name, size_t size) {
    const unsigned either = 'a' - 'A';
    return ((name[0] | either) + 7u * (name[size / 2] | either) + (unsigned)size) % KEYS;
}

/* The label that has a name, NO_MORE where none has. */
static unsigned label_of(const struct table *table, const uint8_t *name, size_t size) {
    unsigned label = table->first_label[key_of(name, size)];
    while (label != NO_MORE && (table->label[label].size != size || !same_name(table->label[label].name, name, size)))
        label = table->label[label].next;
    return label;
}

/* The field at a place, which goes on past it; 0 where the input ends before the field does. */
static int next_field(struct field *field, const uint8_t **at, const uint8_t *end) {
    const uint8_t *from = *at;
    if (end - from < 3) return 0;
    field->tag = from[0];
    field->size = (size_t)from[1] << 8 | from[2];
    field->value = from + 3;
    if ((size_t)(end - field->value) < field->size) return 0;
    *at = field->value + field->size;
    return 1;
}

static unsigned read_label(struct table *table, const uint8_t *classes, const struct field *field) {
    const uint8_t *name = field->value;
    size_t size = field->size;
    if (table->starts != 0 || table->rules != 0 || size < 1 || size > NAME_BYTES) return COGARRUNE_BAD_FIELD;
    if (!is_name(classes, name, size)) return COGARRUNE_BAD_NAME;
    if (label_of(table, name, size) != NO_MORE) return COGARRUNE_REPEATED;
    if (table->labels == MOST_LABELS) return COGARRUNE_TOO_MANY;
    unsigned key = key_of(name, size);
    table->label[table->labels] = (struct label){name, (uint8_t)size, table->first_label[key]};
    table->first_label[key] = (uint8_t)table->labels++;
    return 0;
}

static unsigned read_start(struct table *table, const struct field *field) {
    if (table->rules != 0 || field->size != 1) return COGARRUNE_BAD_FIELD;
    unsigned type = field->value[0];
    if (type < TYPES && (table->start_types >> type & 1)) return COGARRUNE_REPEATED;
    if (table->starts == MOST_STARTS) return COGARRUNE_TOO_MANY;
    if (type >= TYPES) return COGARRUNE_OUT_OF_RANGE;
    table->start_types |= (type_set)1 << type;
    table->starts++;
    return 0;
}

/* An expression that was read: the place after it (NULL where none stands there), how deep it nests, and whether it has the word of no
 * types. */
struct extent {
    const uint8_t *next;
    uint16_t nesting;
    uint16_t nullable;
};

static struct extent read_expression(const uint8_t *at, const uint8_t *end);

/* The operands of a sequence or a choice, from its count on. */
static struct extent read_operands(unsigned operator, const uint8_t *at, const uint8_t *end) {
    struct extent all = {NULL, 0, operator == SEQUENCE};
    if (at == end || *at < 2) return all;
    unsigned left = *at++;
    for (; left > 0; left--) {
        struct extent one = read_expression(at, end);
        if (one.next == NULL) return one;
        at = one.next;
        if (one.nesting > all.nesting) all.nesting = one.nesting;
        all.nullable = operator == SEQUENCE ? all.nullable & one.nullable : all.nullable | one.nullable;
    }
    all.next = at;
    all.nesting++;
    return all;
}

static struct extent read_expression(const uint8_t *at, const uint8_t *end) {
    struct extent nowhere = {NULL, 0, 0};
    if (at == end) return nowhere;
    unsigned operator = *at++;
    switch (operator) {
    case NONE:
    case EMPTY: return (struct extent){at, 1, operator == EMPTY};
    case TYPE: return at < end && *at < TYPES ? (struct extent){at + 1, 1, 0} : nowhere;
    case SEQUENCE:
    case CHOICE: return read_operands(operator, at, end);
    case ANY_NUMBER:
    case ONE_OR_MORE:
    case OPTIONAL: {
        struct extent part = read_expression(at, end);
        part.nesting++;
        if (operator != ONE_OR_MORE) part.nullable = 1;
        return part;
    }
    default: return nowhere;
    }
}

static unsigned read_rule(struct table *table, const struct field *field) {
    if (field->size < 3 || field->size > CONTENT_BYTES + 2) return COGARRUNE_BAD_FIELD;
    const uint8_t *content = field->value + 2, *end = field->value + field->size;
    unsigned type = field->value[0], label = field->value[1];
    if (table->rules == MOST_RULES) return COGARRUNE_TOO_MANY;
    if (type >= TYPES || label >= table->labels) return COGARRUNE_OUT_OF_RANGE;
    struct extent whole = read_expression(content, end);
    if (whole.next != end) return COGARRUNE_BAD_CONTENT;
    if (whole.nesting > NESTING) return COGARRUNE_NESTED_TOO_DEEP;
    table->rule[table->rules] = (struct rule){content, (uint16_t)(field->size - 2), (uint8_t)type, (uint8_t)whole.nullable,
                                              field->tag == TEXT_RULE_TAG, table->first_rule[label]};
    table->first_rule[label] = (uint8_t)table->rules++;
    return 0;
}

static unsigned read_table_field(struct table *table, const uint8_t *classes, const struct field *field) {
    switch (field->tag) {
    case LABEL_TAG: return read_label(table, classes, field);
    case START_TAG: return read_start(table, field);
    case RULE_TAG:
    case TEXT_RULE_TAG: return read_rule(table, field);
    default: return COGARRUNE_BAD_FIELD;
    }
}

/* Reads a table under classes that load: 0, or why it is turned back. */
static unsigned read_table(struct table *table, const uint8_t *classes, const uint8_t *bytes, size_t length) {
    const uint8_t *at = bytes, *end = bytes + length;
    struct field field;
    if (length > COGARRUNE_MOST_BYTES) return COGARRUNE_INPUT_TOO_LONG;
    table->labels = table->starts = table->rules = 0;
    table->start_types = 0;
    memset(table->first_label, NO_MORE, sizeof table->first_label);
    memset(table->first_rule, NO_MORE, sizeof table->first_rule);
    for (;;) {
        if (!next_field(&field, &at, end)) return COGARRUNE_FIELD_PAST_END;
        if (field.tag == TABLE_END) break;
        unsigned refusal = read_table_field(table, classes, &field);
        if (refusal != 0) return refusal;
    }
    if (field.size != 0) return COGARRUNE_BAD_FIELD;
    return at == end ? 0 : COGARRUNE_BYTES_AFTER_END;
}

static unsigned read_node(struct document *document, const uint8_t *classes, const struct field *field, const struct table *table) {
    unsigned text = field->tag == TEXT_NODE_TAG;
    if ((field->tag != NODE_TAG && !text) || field->size < 2 || field->size > NAME_BYTES + 1) return COGARRUNE_BAD_FIELD;
    unsigned children = field->value[0];
    const uint8_t *name = field->value + 1;
    size_t size = field->size - 1, levels = document->levels;
    if (!is_name(classes, name, size)) return COGARRUNE_BAD_NAME;
    if (document->nodes == MOST_NODES || children > MOST_CHILDREN || levels > MOST_LEVELS || levels == 0) return COGARRUNE_BAD_TREE;
    document->node[document->nodes++] = (struct node){(uint8_t)label_of(table, name, size), (uint8_t)children, (uint8_t)text};
    document->coming[levels - 1]--;
    if (children != 0)
        document->coming[levels++] = (uint8_t)children;
    else
        while (levels > 0 && document->coming[levels - 1] == 0) levels--;
    document->levels = levels;
    return 0;
}

/* Reads a document file under classes that load, with the labels that a table has for its names: 0, or why it is turned back. */
static unsigned read_file(struct document *document, const uint8_t *classes, const uint8_t *at, const uint8_t *end,
                          const struct table *table) {
    struct field field;
    document->nodes = 0;
    document->levels = 1;
    document->coming[0] = 1;
    for (;;) {
        if (!next_field(&field, &at, end)) return COGARRUNE_FIELD_PAST_END;
        if (field.tag == DOCUMENT_END) break;
        unsigned refusal = read_node(document, classes, &field, table);
        if (refusal != 0) return refusal;
    }
    if (field.size != 0) return COGARRUNE_BAD_FIELD;
    if (document->levels != 0) return COGARRUNE_BAD_TREE;
    return at == end ? 0 : COGARRUNE_BYTES_AFTER_END;
}

/* White space, and what else ends a name; 0 for all other bytes. */
enum { WHITE = 1, SIGN = 2 };
static const uint8_t sorts[256] = {[' '] = WHITE, ['\t'] = WHITE, ['\r'] = WHITE, ['\n'] = WHITE, ['/'] = SIGN, ['>'] = SIGN};

static const uint8_t *past_white(const uint8_t *at, const uint8_t *end) {
    while (at < end && sorts[*at] == WHITE) at++;
    return at;
}

/* The tag at a place, which goes on past it; 0 where no whole tag of the three kinds stands there. */
static int next_tag(struct tag *tag, const uint8_t **at, const uint8_t *end) {
    const uint8_t *from = *at;
    if (*from++ != '<') return 0;
    tag->closes = from < end && *from == '/';
    from += tag->closes;
    tag->name = from;
    while (from < end && sorts[*from] == 0) from++;
    tag->size = (size_t)(from - tag->name);
    from = past_white(from, end);
    tag->empty = from < end && *from == '/' && !tag->closes;
    from += tag->empty;
    if (from == end || *from != '>') return 0;
    *at = from + 1;
    return 1;
}

/* Reads a start tag or an empty-element tag while elements are open. */
static unsigned read_element(struct document *document, const uint8_t *classes, struct open *open, const struct tag *tag,
                             const struct table *table) {
    size_t place = document->nodes, levels = document->levels;
    struct node *parent = levels != 0 ? &document->node[open[levels - 1].place] : NULL;
    if (tag->size < 1 || tag->size > NAME_BYTES || !is_name(classes, tag->name, tag->size)) return COGARRUNE_BAD_NAME;
    if (place == MOST_NODES || levels == MOST_LEVELS || (parent != NULL ? parent->children == MOST_CHILDREN : place != 0))
        return COGARRUNE_BAD_TREE;
    if (parent != NULL) parent->children++;
    document->node[document->nodes++] = (struct node){(uint8_t)label_of(table, tag->name, tag->size), 0, 0};
    if (!tag->empty) open[document->levels++] = (struct open){tag->name, (uint16_t)place, (uint8_t)tag->size};
    return 0;
}

/* Reads an end tag while elements are open: it names the innermost, byte for byte. */
static unsigned read_end(struct document *document, const struct open *open, const struct tag *tag) {
    if (document->levels == 0) return COGARRUNE_BAD_END_TAG;
    const struct open *innermost = &open[document->levels - 1];
    if (innermost->size != tag->size || memcmp(innermost->name, tag->name, tag->size) != 0) return COGARRUNE_BAD_END_TAG;
    document->levels--;
    return 0;
}

/* Reads XML text, as read_file does a document file. */
static unsigned read_text(struct document *document, const uint8_t *classes, const uint8_t *at, const uint8_t *end,
                          const struct table *table) {
    struct open open[MOST_LEVELS];
    struct tag tag;
    document->nodes = document->levels = 0;
    for (at = past_white(at, end); at < end; at = past_white(at, end)) {
        if (!next_tag(&tag, &at, end)) return COGARRUNE_BAD_TEXT;
        unsigned refusal = tag.closes ? read_end(document, open, &tag) : read_element(document, classes, open, &tag, table);
        if (refusal != 0) return refusal;
    }
    return document->levels != 0 || document->nodes == 0 ? COGARRUNE_BAD_TREE : 0;
}

/* Reads a document of either format. */
static unsigned read_document(struct document *document, const uint8_t *classes, uint32_t format, const uint8_t *bytes, size_t length,
                              const struct table *table) {
    if (length > COGARRUNE_MOST_BYTES) return COGARRUNE_INPUT_TOO_LONG;
    if (format == COGARRUNE_XML_TEXT) return read_text(document, classes, bytes, bytes + length, table);
    return read_file(document, classes, bytes, bytes + length, table);
}

/* What the walk over an expression gives back: the place after it, whether it has the word of no types, and whether the children so far,
 * the last one included, can end it. */
struct passed {
    size_t next;
    uint32_t nullable;
    uint32_t ends;
};

/* One child's walk over the expression at a place. `types` are the child's; `incoming` is 1 where the child may begin the expression, else
 * 0; a mark, at an expression's first byte, is 1 where the children before can end that expression, else 0. */
static struct passed pass(const uint8_t *content, size_t at, uint8_t *marks, uint32_t incoming, type_set types);

/* The same over a type. */
static inline struct passed pass_type(const uint8_t *content, size_t at, uint32_t incoming, type_set types) {
    return (struct passed){at + 2, 0, incoming & (uint32_t)(types >> content[at + 1])};
}

/* The same over an operand. Most operands are types. */
static inline struct passed pass_operand(const uint8_t *content, size_t at, uint8_t *marks, uint32_t incoming, type_set types) {
    if (content[at] == TYPE) return pass_type(content, at, incoming, types);
    return pass(content, at, marks, incoming, types);
}

/* The same over any number of, one or more of, or optional. */
static inline struct passed pass_under(const uint8_t *content, size_t at, uint8_t *marks, uint32_t incoming, type_set types) {
    unsigned operator = content[at];
    if (operator != OPTIONAL) incoming |= marks[at + 1];
    struct passed part = pass_operand(content, at + 1, marks, incoming, types);
    marks[at + 1] = (uint8_t)part.ends;
    if (operator != ONE_OR_MORE) part.nullable = 1;
    return part;
}

/* The same over a sequence. */
static struct passed pass_in_turn(const uint8_t *content, size_t at, uint8_t *marks, uint32_t incoming, type_set types) {
    struct passed all = {at + 2, 1, 0};
    for (unsigned left = content[at + 1]; left > 0; left--) {
        size_t place = all.next;
        uint32_t went_on = marks[place];
        struct passed one = content[place] >= ANY_NUMBER ? pass_under(content, place, marks, incoming, types)
                                                         : pass_operand(content, place, marks, incoming, types);
        marks[place] = (uint8_t)one.ends;
        all.next = one.next;
        all.nullable &= one.nullable;
        all.ends = (all.ends & one.nullable) | one.ends;
        incoming = (incoming & one.nullable) | went_on;
    }
    return all;
}

/* The same over a choice. */
static struct passed pass_each(const uint8_t *content, size_t at, uint8_t *marks, uint32_t incoming, type_set types) {
    struct passed any = {at + 2, 0, 0};
    for (unsigned left = content[at + 1]; left > 0; left--) {
        struct passed one = pass_operand(content, any.next, marks, incoming, types);
        any.next = one.next;
        any.nullable |= one.nullable;
        any.ends |= one.ends;
    }
    return any;
}

static struct passed pass(const uint8_t *content, size_t at, uint8_t *marks, uint32_t incoming, type_set types) {
    unsigned operator = content[at];
    if (operator >= ANY_NUMBER) return pass_under(content, at, marks, incoming, types);
    if (operator == SEQUENCE) return pass_in_turn(content, at, marks, incoming, types);
    if (operator == CHOICE) return pass_each(content, at, marks, incoming, types);
    if (operator == TYPE) return pass_type(content, at, incoming, types);
    return (struct passed){at + 1, operator == EMPTY, 0};
}

/* The set at some words: loaded and stored in one piece, or a load would wait for two stores. */
static type_set set_at(const uint32_t *words) {
    type_set set;
    memcpy(&set, words, sizeof set);
    return set;
}

static void put_set(uint32_t *words, type_set set) { memcpy(words, &set, sizeof set); }

/* Whether the content of a rule matches so many children, one at least, whose sets stand from `sets` on. */
static uint32_t matches(const struct rule *rule, const uint32_t *sets, size_t children) {
    uint8_t marks[CONTENT_BYTES];
    for (size_t i = 0; i < rule->size; i += STEP) memset(marks + i, 0, STEP);
    uint32_t ends = pass(rule->content, 0, marks, 1, set_at(sets)).ends;
    for (size_t i = 1; i < children; i++) ends = pass(rule->content, 0, marks, 0, set_at(sets + SET_WORDS * i)).ends;
    return ends;
}

/* The types that derive a node, whose children's sets stand from `sets` on. A node with text takes rules for text alone. */
static type_set types_of(const struct table *table, struct node node, const uint32_t *sets) {
    type_set types = 0;
    for (unsigned i = table->first_rule[node.label]; i != NO_MORE; i = table->rule[i].next) {
        const struct rule *rule = &table->rule[i];
        if (node.text > rule->text) continue;
        type_set fits = node.children == 0 ? rule->nullable : matches(rule, sets, node.children);
        types |= fits << rule->type;
    }
    return types;
}

/* Whether the table lets in the document. */
static unsigned decide(const struct table *table, const struct document *document, uint32_t *work) {
    uint32_t *top = work + SET_WORDS * document->nodes;
    for (size_t i = document->nodes; i > 0; i--) {
        struct node node = document->node[i - 1];
        type_set types = types_of(table, node, top);
        top += SET_WORDS * (size_t)node.children;
        top -= SET_WORDS;
        put_set(top, types);
    }
    return (set_at(top) & table->start_types) != 0;
}

static uint64_t read_and_decide(const uint8_t *classes, size_t classes_length, const uint8_t *table_bytes, size_t table_length,
                                uint32_t format, const uint8_t *document_bytes, size_t document_length, uint32_t *work) {
    struct table table;
    struct document document;
    uint64_t refusal = loads(classes, classes_length) ? 0 : COGARRUNE_BAD_CLASSES;
    if (refusal == 0) refusal = read_table(&table, classes, table_bytes, table_length);
    if (refusal == 0) refusal = read_document(&document, classes, format, document_bytes, document_length, &table);
    return refusal != 0 ? refusal << 32 : decide(&table, &document, work);
}

uint64_t LETS_IN_OF_SIZE(const uint8_t *classes, size_t classes_length, const uint8_t *table, size_t table_length,
                         uint32_t format, const uint8_t *document, size_t document_length, uint32_t *work, size_t work_length) {
    if (work_length < WORDS) return (uint64_t)COGARRUNE_WORK_TOO_SHORT << 32;
    uint64_t answer = read_and_decide(classes, classes_length, table, table_length, format, document, document_length, work);
    memset(work, 0, WORDS * sizeof *work);
    return answer;
}

#if FLOOR_SIZE == 1
uint64_t floor_lets_in(uint32_t size, const uint8_t *classes, size_t classes_length, const uint8_t *table, size_t table_length,
                       uint32_t format, const uint8_t *document, size_t document_length, uint32_t *work, size_t work_length) {
    floor_call *call = size == COGARRUNE_SMALL ? floor_lets_in_small
                       : size == COGARRUNE_LARGE ? floor_lets_in_large
                                                 : floor_lets_in_standard;
    return call(classes, classes_length, table, table_length, format, document, document_length, work, work_length);
}
#endif
