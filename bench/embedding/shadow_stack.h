/* A shadow stack, which a runtime in C keeps beside C's own stack for a collector that looks there for roots. */
#ifndef SHADOW_STACK_H
#define SHADOW_STACK_H

#include <stdbool.h>
#include <stdint.h>

/* The values below `top` are on the stack. */
typedef struct shadow_stack {
    uint64_t *values;
    uint32_t end, top;
} shadow_stack;

/* Copies the value to the top. Returns false if the stack is full. */
bool shadow_push(shadow_stack *stack, const uint64_t *value);

/* Moves the value at the top there, and clears its place. Returns false if the stack is empty. */
bool shadow_pop(shadow_stack *stack, uint64_t *value);

#endif
