/* The stack that a call takes. It runs on a thread of its own, whose stack was painted before; what is no longer paint was used. */
#include <pthread.h>
#include <stddef.h>
#include <stdint.h>
#include <string.h>
#include <sys/mman.h>

#include "cogarrune.h"

#define ROOM ((size_t)4 << 20)
#define PAINT 0xA5

struct call {
    uint32_t size, format;
    int number; /* as in tests/second_validator; 0 does nothing */
    const uint8_t *classes, *first, *second;
    size_t classes_length, first_length, second_length, label;
};

static uint8_t out[COGARRUNE_PAGES_BYTES_LARGE]; /* enough for any table too */
static uint32_t work[COGARRUNE_WORDS_LARGE];

#define LENT c->size, c->classes, c->classes_length
#define FIRST LENT, c->first, c->first_length
#define DOCUMENT LENT, c->format, c->first, c->first_length
#define TWO_TABLES FIRST, c->second, c->second_length
#define AND_DOCUMENT FIRST, c->format, c->second, c->second_length
#define OUT out, sizeof out
#define WORK work, cogarrune_words_of(c->size)

static void *run(void *given)
{
    const struct call *c = given;
    switch (c->number) {
    case 1: cogarrune_table_reads(FIRST, WORK); break;
    case 2: cogarrune_document_reads(DOCUMENT, WORK); break;
    case 3: cogarrune_label_name(FIRST, c->label, WORK); break;
    case 4: cogarrune_lets_in(AND_DOCUMENT, WORK); break;
    case 5: cogarrune_is_local(FIRST, WORK); break;
    case 6: cogarrune_is_single_type(FIRST, WORK); break;
    case 7: cogarrune_sample(DOCUMENT, OUT, WORK); break;
    case 8: cogarrune_widen_local_by_table(TWO_TABLES, OUT, WORK); break;
    case 9: cogarrune_widen_local_by_document(AND_DOCUMENT, OUT, WORK); break;
    case 10: cogarrune_widen_single_type_by_table(TWO_TABLES, OUT, WORK); break;
    case 11: cogarrune_widen_single_type_by_document(AND_DOCUMENT, OUT, WORK); break;
    case 12: cogarrune_pages(FIRST, OUT, WORK); break;
    }
    return NULL;
}

/* Bytes of stack, with those that the thread itself takes; 0 if no thread could be made. */
size_t stack_of(uint32_t size, int number, const uint8_t *classes, size_t classes_length, const uint8_t *first, size_t first_length,
                const uint8_t *second, size_t second_length, size_t label, uint32_t format)
{
    struct call call = { size, format, number, classes, first, second, classes_length, first_length, second_length, label };
    uint8_t *stack = mmap(NULL, ROOM, PROT_READ | PROT_WRITE, MAP_PRIVATE | MAP_ANONYMOUS, -1, 0);
    pthread_attr_t attributes;
    pthread_t thread;
    size_t clean = 0;
    if (stack == MAP_FAILED || pthread_attr_init(&attributes) != 0 || pthread_attr_setstack(&attributes, stack, ROOM) != 0)
        return 0;
    memset(stack, PAINT, ROOM);
    if (pthread_create(&thread, &attributes, run, &call) != 0 || pthread_join(thread, NULL) != 0)
        return 0;
    while (clean < ROOM && stack[clean] == PAINT)
        clean++;
    munmap(stack, ROOM);
    return ROOM - clean;
}
