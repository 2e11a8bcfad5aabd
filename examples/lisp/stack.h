/* The evaluator's stack. Its frames say what to do next with a value. They lie in extra roots of the heap. If a run is recorded, they
 * are objects instead, since a trace has no extra root. Only stack.c knows of the two. */
#ifndef STACK_H
#define STACK_H

#include "values.h"
#include <stdint.h>

/* Pushes a frame that continues in this environment after PLACE. A CALL_FRAME also keeps ARGUMENTS, CALL and the number of a field. */
void push_frame(enum type type, uint32_t field);

/* Pops the top frame, and returns its type, or EMPTY if there is none. Restores ENVIRONMENT and PLACE, and for a CALL_FRAME also ARGUMENTS,
 * CALL and the number of the field. */
enum type pop_frame(uint32_t *field);

void clear_stack(void);

#endif
