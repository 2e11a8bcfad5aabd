/* Reads text into values: lists, symbols, integers, strings. */
#ifndef READ_H
#define READ_H

#include "values.h"
#include <stdbool.h>
#include <stdint.h>
#include <stdio.h>

/* A text to be read: a file, or a string of C. */
struct source {
    FILE *file;
    const char *string;
    unsigned text;      /* its number in positions */
    bool is_terminal;   /* prints prompts */
    bool is_inside;     /* the reader is inside an expression */
    int held;           /* the character that was read ahead and not taken, or NOTHING_HELD */
    unsigned long line; /* the line of the next character, counted from 1 */
    unsigned long column;
};

struct source source_of_file(FILE *file, const char *name, bool is_terminal);

struct source source_of_string(const char *string, const char *name);

/* Reads the next expression into VALUE, and puts it into a new pair in PLACE. Returns false at the end of the text. Ends in an error
 * if the text there is not an expression. */
bool read_expression(struct source *source);

/* Skips the rest of the line. */
void skip_line(struct source *source);

#endif
