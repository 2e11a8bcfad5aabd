/* The shadow stack as a library: a file of its own, so that no call is inlined. */
#include "shadow_stack.h"

bool shadow_push(shadow_stack *stack, const uint64_t *value)
{
    if (stack->top == stack->end)
        return false;
    stack->values[stack->top++] = *value;
    return true;
}

bool shadow_pop(shadow_stack *stack, uint64_t *value)
{
    if (stack->top == 0)
        return false;
    *value = stack->values[--stack->top];
    stack->values[stack->top] = 0;
    return true;
}
