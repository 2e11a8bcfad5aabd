/* Writes values as text. */
#ifndef PRINT_H
#define PRINT_H

#include "values.h"
#include <stdbool.h>
#include <stdio.h>

/* Writes a value. If `quoted`, strings are in quotes, as the reader reads them. Uses PENDING and ITEM. */
void print(FILE *file, enum slot value, bool quoted);

/* Writes at most the beginning of a value, for messages. Needs no room in the heap. Uses PENDING and ITEM. */
void print_short(FILE *file, enum slot value);

#endif
