/* A floor to measure the library against: its call lets_in in plain C, with nothing proved (floor.c). */
#ifndef FLOOR_H
#define FLOOR_H

#include <stddef.h>
#include <stdint.h>

/* As cogarrune_lets_in of include/cogarrune.h, in its answers and in what it leaves in the working words. */
uint64_t floor_lets_in(uint32_t size, const uint8_t *classes, size_t classes_length, const uint8_t *table, size_t table_length,
                       uint32_t format, const uint8_t *document, size_t document_length, uint32_t *work, size_t work_length);

/* The same at each size. */
typedef uint64_t floor_call(const uint8_t *classes, size_t classes_length, const uint8_t *table, size_t table_length, uint32_t format,
                            const uint8_t *document, size_t document_length, uint32_t *work, size_t work_length);
floor_call floor_lets_in_small, floor_lets_in_standard, floor_lets_in_large;

#endif
