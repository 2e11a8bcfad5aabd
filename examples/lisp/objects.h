/* Pairs, lists, strings and symbols: objects of the heap with fields of their own. */
#ifndef OBJECTS_H
#define OBJECTS_H

#include "values.h"
#include <stdbool.h>
#include <stddef.h>
#include <stdint.h>

/* ---- Constants */

/* Makes the constants and the empty table of symbols. */
void make_constants(void);

void set_boolean(enum slot slot, bool truth);

/* Returns whether the value counts as true: all but #f do. */
bool is_true(enum slot slot);

/* ---- Pairs and lists */

void make_pair(enum slot to, enum slot first, enum slot rest);

/* Makes a pair whose first element is at this position of a text, unless that is 0. */
void make_pair_at(enum slot to, enum slot first, enum slot rest, uint64_t position);

/* Appends an element to a list. `list` and `last` hold its first and its last pair, or nothing. */
void append_at(enum slot list, enum slot last, enum slot element, uint64_t position);

/* Returns the length of a list, or -1 if the value is not a list or contains itself. Uses slot D. */
int64_t list_length(enum slot list);

/* ---- Strings */

enum { BYTES_PER_WORD = 7, MOST_BYTES = 65534 * BYTES_PER_WORD };

/* Makes a string of at most MOST_BYTES bytes. */
void make_string(enum slot to, const char *bytes, size_t length);

size_t string_length(enum slot string);

/* Copies the bytes from this one on. */
void copy_string(char *bytes, enum slot string, size_t from, size_t length);

bool equal_strings(enum slot first, enum slot second);

/* ---- Symbols */

/* Finds or makes the symbol with this spelling. Uses slots B, C and D. */
void intern(enum slot to, const char *bytes, size_t length);

/* The same for a name in C. */
void intern_name(enum slot to, const char *name);

#endif
