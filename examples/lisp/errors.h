/* Errors of a Lisp program: a line that says where and what, and a jump back to the REPL.
 *
 * The jump leaves nothing to clean up: C variables hold no references, and the frames of the Lisp are objects, which are garbage as
 * soon as no slot refers to them. */
#ifndef ERRORS_H
#define ERRORS_H

#include "values.h"
#include <setjmp.h>
#include <stdint.h>

/* Where errors jump to. */
extern jmp_buf error_target;

enum { NO_ERROR = 0, PROGRAM_ERROR, EXIT_WANTED };

/* ---- Positions in texts. 0 is none. */

/* Adds a text, so that positions may be in it. Returns its number. */
unsigned add_text(const char *name);

uint64_t position_of(unsigned text, unsigned long line, unsigned long column);

/* Returns the position of a pair's first element, or 0 if the reader did not make the pair. */
uint64_t position_at(enum slot place);

/* ---- Errors */

/* Ends in an error at the current expression, or at the call of the running function. */
_Noreturn void fail(const char *format, ...);

/* The same with the slot's value after the message. */
_Noreturn void fail_about(enum slot slot, const char *format, ...);

/* Ends in an error at this position. */
_Noreturn void fail_at(uint64_t position, const char *format, ...);

/* From here on, errors are at the expression in this place. */
void set_error_place(enum slot place);

#endif
