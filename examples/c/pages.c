/* A table on printed pages: pages TABLE prints them to standard output, or one line refused N.
 *
 *     (cd crates/exports && rt lib)
 *     cc -Iinclude -o pages examples/c/pages.c crates/exports/out/libexports.a
 *     ./pages examples/cards/old.tbl
 */
#include <stdio.h>

#include "cogarrune.h"

/* One byte more than an input may have, so that a longer file is refused and not cut. */
static uint8_t table[COGARRUNE_MOST_BYTES + 1];

/* As many bytes as the pages of any table take, so that there is always room. */
static uint8_t out[COGARRUNE_PAGES_BYTES_STANDARD];
static uint32_t work[COGARRUNE_WORDS_STANDARD];

/* Which bytes names have. Other letters, say bytes above 7F, are other classes. */
static const uint8_t classes[256] = COGARRUNE_ASCII_CLASSES;

/* The bytes of a file; a file that cannot be read counts as no bytes. */
static size_t read_file(const char *path, uint8_t *bytes) {
    FILE *file = fopen(path, "rb");
    if (file == NULL) return 0;
    size_t length = fread(bytes, 1, COGARRUNE_MOST_BYTES + 1, file);
    fclose(file);
    return length;
}

int main(int count, char **arguments) {
    if (count != 2) {
        fprintf(stderr, "usage: pages TABLE\n");
        return 2;
    }
    size_t table_length = read_file(arguments[1], table);
    uint64_t answer = cogarrune_pages(COGARRUNE_STANDARD, classes, sizeof classes, table, table_length, out, sizeof out, work,
                                      COGARRUNE_WORDS_STANDARD);
    if (cogarrune_refusal_of(answer) != 0) {
        printf("refused %u\n", cogarrune_refusal_of(answer));
        return 2;
    }
    fwrite(out, 1, cogarrune_value_of(answer), stdout);
    return 0;
}
