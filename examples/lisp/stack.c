/* The two ways to keep frames: in extra roots, and as a chain of objects. */
#include "stack.h"
#include "heap.h"

enum { TYPES = 256 };

/* All frames have the first three fields; a CALL_FRAME has all of them. */
enum { BELOW, FRAME_ENVIRONMENT, FRAME_PLACE, FRAME_FIELDS, FRAME_ARGUMENTS = FRAME_FIELDS, FRAME_FIELD, FRAME_CALL, CALL_FRAME_FIELDS };

/* ---- Frames in extra roots: the values, and above them a number, which is the type plus 256 times the number of the field */

static void push_values(enum type type, uint32_t field)
{
    push_root(ENVIRONMENT);
    push_root(PLACE);
    if (type == CALL_FRAME) {
        push_root(ARGUMENTS);
        push_root(CALL);
    }
    set_integer(WORD, (int64_t)type + (int64_t)field * TYPES);
    push_root(WORD);
}

static enum type pop_values(uint32_t *field)
{
    if (!pop_root(WORD))
        return EMPTY;
    int64_t number = integer_in(WORD);
    enum type type = (enum type)(number % TYPES);
    *field = (uint32_t)(number / TYPES);
    if (type == CALL_FRAME) {
        pop_root(CALL);
        pop_root(ARGUMENTS);
    }
    pop_root(PLACE);
    pop_root(ENVIRONMENT);
    return type;
}

/* ---- Frames as objects, each with the frame below; STACK refers to the top frame */

static void push_object(enum type type, uint32_t field)
{
    make(FRAME, type, type == CALL_FRAME ? CALL_FRAME_FIELDS : FRAME_FIELDS);
    put(FRAME, BELOW, STACK);
    put(FRAME, FRAME_ENVIRONMENT, ENVIRONMENT);
    put(FRAME, FRAME_PLACE, PLACE);
    move(STACK, FRAME);
    if (type == CALL_FRAME) {
        put(FRAME, FRAME_ARGUMENTS, ARGUMENTS);
        put_word(FRAME, FRAME_FIELD, field);
        put(FRAME, FRAME_CALL, CALL);
    }
}

static enum type pop_object(uint32_t *field)
{
    enum type type = type_of(STACK);
    if (type == EMPTY)
        return EMPTY;
    move(FRAME, STACK);
    get(STACK, FRAME, BELOW);
    get(ENVIRONMENT, FRAME, FRAME_ENVIRONMENT);
    get(PLACE, FRAME, FRAME_PLACE);
    if (type == CALL_FRAME) {
        *field = (uint32_t)get_word(FRAME, FRAME_FIELD);
        get(ARGUMENTS, FRAME, FRAME_ARGUMENTS);
        get(CALL, FRAME, FRAME_CALL);
    }
    return type;
}

/* ---- Either */

void push_frame(enum type type, uint32_t field)
{
    if (has_extra_roots())
        push_values(type, field);
    else
        push_object(type, field);
}

enum type pop_frame(uint32_t *field)
{
    return has_extra_roots() ? pop_values(field) : pop_object(field);
}

void clear_stack(void)
{
    if (has_extra_roots())
        clear_roots();
    clear(STACK);
    clear(FRAME);
}
