/* A list of entries in the heap: the program's own data. */
#ifndef LIST_H
#define LIST_H

#include "heap.h"

/* The most words that an entry takes together with its name. */
enum { WORDS_OF_AN_ENTRY = 2 + FIELDS + 2 + 2 };

void append_entry(struct heap *heap, uint32_t number);

/* Unlinks the second entry, the fourth, and so on, which makes them garbage. */
void unlink_each_second(struct heap *heap);

/* Returns whether the entries have the numbers 0, `step`, 2 * `step` and so on, the names for these numbers, and the right links. */
bool is_whole(const struct heap *heap, uint32_t step);

#endif
