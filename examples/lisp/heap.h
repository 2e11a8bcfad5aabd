/* The layer over the heap: gcflip_heap, or gcflip_beside with a collector's thread (heap_calls.h).
 *
 * The Lisp's values are in slots and in fields of objects, and nowhere else. Functions take slots, and no C variable ever holds
 * a reference. So the collector may move all objects at any time.
 *
 * Each allocation first pays for itself with collector steps; README.md derives the pace. If the collector has a thread, each allocation is a
 * safepoint instead. A call that runs out of memory ends in an error of the Lisp (errors.h). */
#ifndef HEAP_H
#define HEAP_H

#include "values.h"
#include <stdbool.h>
#include <stdint.h>
#include <stdio.h>

/* Integers have 63 bits. */
#define LEAST_INTEGER (-MOST_INTEGER - 1)
#define MOST_INTEGER INT64_C(0x3fffffffffffffff)

enum { LEAST_HEAP = 1, MOST_FIELDS = 65535, MOST_RECORDED_HEAP = 1048576 };

#define MOST_HEAP UINT32_MAX

/* Opens the heap. Writes a trace of all that happens on it, unless `trace` is NULL; the heap has then at most MOST_RECORDED_HEAP words.
 * If `is_beside`, a thread of its own collects; then there is no trace. Returns whether there is memory for the heap. */
bool open_heap(uint32_t words, FILE *trace, bool is_beside);

void close_heap(void);

/* Returns the number of words of the heap. No list without a circle has that many pairs. */
uint32_t heap_size(void);

/* ---- Values in slots */

enum type type_of(enum slot slot);

void move(enum slot to, enum slot from);

void clear(enum slot slot);

/* Returns whether both hold the empty list, equal integers, or one object. */
bool same(enum slot first, enum slot second);

void set_integer(enum slot slot, int64_t integer);

int64_t integer_in(enum slot slot);

/* ---- Extra roots, as a stack of values. A heap has one extra root for each two words, at most 1048576 */

/* Returns whether the heap has extra roots: it has none if its run is recorded. */
bool has_extra_roots(void);

void push_root(enum slot value);

/* Returns false if there is no value left. */
bool pop_root(enum slot to);

void clear_roots(void);

/* ---- Objects */

/* Makes an object with this many fields, all empty, or all 0 if it is raw. */
void make(enum slot to, enum type type, uint32_t fields);

void make_raw(enum slot to, enum type type, uint32_t fields);

uint32_t field_count(enum slot object);

/* Reads a field into the slot, and returns its type. */
enum type get(enum slot to, enum slot object, uint32_t field);

void put(enum slot object, uint32_t field, enum slot value);

/* The same for a field with a number below 2^63. */
uint64_t get_word(enum slot object, uint32_t field);

void put_word(enum slot object, uint32_t field, uint64_t word);

/* Copies all fields of an object into the first fields of another one. */
void copy_all_fields(enum slot to, enum slot from);

/* ---- Addresses: the identity of an object, until the next flip */

uint32_t address_of(enum slot object);

/* Puts the address to which the last flip moved the object that was at this one. Returns false if it died. Call it in a function for
 * `after_each_flip`. */
bool follow(uint32_t *address);

/* Puts a reference to the object at this address into the slot. The address must have been told or followed since the last flip. The object may be one that
 * nothing else refers to: it stays if the slot, or an object that can be reached, refers to it at the next flip. */
void refer(enum slot to, uint32_t address);

/* Adds a function that is called after each flip. It may change no slot, and make no object. */
void after_each_flip(void (*function)(void));

/* ---- Collecting */

/* Lets the collector's thread stop the program here, if there is such a thread and it asks. Each allocation is a safepoint too. */
void safepoint(void);

/* ---- Room */

/* Sets aside room for the REPL: from now on, allocations leave it free. Returns whether there is that much room. */
bool reserve_room(void);

/* After an allocation that found the heap full, lets the next expression use this room, unless a whole collection frees enough of
 * it again. Call it between expressions. */
void restore_room(void);

/* Prints what was allocated and collected. */
void print_heap_totals(FILE *file);

#endif
