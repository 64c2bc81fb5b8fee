/* Does a table let in a document? lets_in TABLE DOCUMENT, or lets_in --xml TABLE TEXT for a document as XML text. Prints yes, no or
 * refused N.
 *
 *     (cd crates/exports && rt lib)
 *     cc -Iinclude -o lets_in examples/c/lets_in.c crates/exports/out/libexports.a
 *     ./lets_in examples/cards/old.tbl examples/cards/new.doc
 *     ./lets_in --xml examples/xml/old.tbl examples/xml/list.xml
 */
#include <stdio.h>
#include <string.h>

#include "cogarrune.h"

/* One byte more than an input may have, so that a longer file is refused and not cut. */
static uint8_t table[COGARRUNE_MOST_BYTES + 1], document[COGARRUNE_MOST_BYTES + 1];
static uint32_t work[COGARRUNE_WORDS_STANDARD];

/* Which bytes names have. Other letters, say bytes above 7F, are other classes. */
static const uint8_t classes[256] = COGARRUNE_ASCII_CLASSES;

/* The bytes of a file; a file that cannot be read counts as no bytes. */
static size_t read_file(const char *path, uint8_t *bytes) {
    FILE *file = fopen(path, "rb");
    if (file == NULL) return 0;
    size_t length = fread(bytes, 1, COGARRUNE_MOST_BYTES + 1, file);
    fclose(file);
    return length;
}

int main(int count, char **arguments) {
    int xml = count > 1 && strcmp(arguments[1], "--xml") == 0;
    if (count != 3 + xml) {
        fprintf(stderr, "usage: lets_in [--xml] TABLE DOCUMENT\n");
        return 2;
    }
    /* The caller says what the document is; no byte of it is looked at for that. */
    uint32_t format = xml ? COGARRUNE_XML_TEXT : COGARRUNE_DOCUMENT_FILE;
    size_t table_length = read_file(arguments[1 + xml], table);
    size_t document_length = read_file(arguments[2 + xml], document);
    uint64_t answer = cogarrune_lets_in(COGARRUNE_STANDARD, classes, sizeof classes, table, table_length, format, document,
                                        document_length, work, COGARRUNE_WORDS_STANDARD);
    if (cogarrune_refusal_of(answer) != 0) {
        printf("refused %u\n", cogarrune_refusal_of(answer));
        return 2;
    }
    printf(cogarrune_value_of(answer) == 1 ? "yes\n" : "no\n");
    return cogarrune_value_of(answer) == 1 ? 0 : 1;
}
