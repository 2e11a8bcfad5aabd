/* An array of up to 268,431,360 values on the heap of gcflip_heap.h, where an object has at most 65,535 fields. It is an object with a reference
 * to each of its chunks. Each chunk has 4,096 fields, and the last one has the rest, so a field behind the end is one that the last chunk does
 * not have. Copy chunked.h and chunked.c, and change the kinds as you need them.
 *
 * Each call returns a number of gcflip_answers.h. If it is not the one for success, all slots but the scratch slot are unchanged.
 * Where chunked_new or chunked_put returns GCFLIP_NO_MEMORY, collector steps shorten the log, and the call can be made again. */
#ifndef CHUNKED_H
#define CHUNKED_H

#include <gcflip_heap.h>

enum { CHUNKED_FIELDS = 4096, CHUNKED_MOST_CHUNKS = 65535, CHUNKED_KIND = 240, CHUNKED_CHUNK_KIND = 241 };

/* Returns the words that an array of `length` values takes. */
uint64_t chunked_words(uint32_t length);

/* Puts a new array of `length` values, all nil, into slot d: GCFLIP_MADE. GCFLIP_FULL if the heap has no room for it; then
 * chunked_words says how much is wanted. GCFLIP_OUT_OF_RANGE if it is too long. Uses slots scratch and scratch + 1. */
uint32_t chunked_new(gcflip_heap *heap, uint8_t m, uint8_t d, uint32_t length, uint8_t scratch);

/* Writes the number of values of the array in slot s to `length`: GCFLIP_DONE or GCFLIP_NO_OBJECT. Uses slot scratch. */
uint32_t chunked_length(gcflip_heap *heap, uint8_t m, uint8_t s, uint8_t scratch, uint32_t *length);

/* Reads value i of the array in slot s into slot d, as gcflip_heap_get reads a field. Uses slot scratch, which may be d. */
uint32_t chunked_get(gcflip_heap *heap, uint8_t m, uint8_t d, uint8_t s, uint32_t i, uint8_t scratch, uint64_t *number);

/* Writes the value of slot t to place i of the array in slot s, as gcflip_heap_put writes a field. Uses slot scratch. */
uint32_t chunked_put(gcflip_heap *heap, uint8_t m, uint8_t s, uint32_t i, uint8_t t, uint8_t scratch);

#endif
