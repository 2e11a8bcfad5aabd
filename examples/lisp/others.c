/* The other functions: comparisons of any values, output, and control. */
#include "errors.h"
#include "heap.h"
#include "objects.h"
#include "primitives.h"
#include "print.h"
#include <stdio.h>

static enum next do_is_eq(void)
{
    argument(A, 0);
    argument(B, 1);
    return return_boolean(same(A, B));
}

/* Compares the values in slots A and B. Of two pairs, compares only that both are pairs. */
static bool look_equal(void)
{
    enum type type = type_of(A);
    if (type != type_of(B))
        return false;
    if (type == STRING)
        return equal_strings(A, B);
    return type == PAIR || same(A, B);
}

/* Puts the next two values to compare into slots A and B. */
static void take_pending(void)
{
    get(A, PENDING, FIRST);
    get(PENDING, PENDING, REST);
    get(B, PENDING, FIRST);
    get(PENDING, PENDING, REST);
}

/* Adds a field of the pairs in slots A and B to the list of values to compare. */
static void add_pending(uint32_t field)
{
    get(C, B, field);
    make_pair(PENDING, C, PENDING);
    get(C, A, field);
    make_pair(PENDING, C, PENDING);
}

static enum next do_is_equal(void)
{
    bool are_equal = true;
    argument(B, 1);
    clear(PENDING);
    make_pair(PENDING, B, PENDING);
    argument(A, 0);
    make_pair(PENDING, A, PENDING);
    while (are_equal && type_of(PENDING) == PAIR) {
        if (is_interrupted)
            fail("interrupted");
        take_pending();
        are_equal = look_equal();
        if (are_equal && type_of(A) == PAIR) {
            add_pending(REST);
            add_pending(FIRST);
        }
    }
    clear(PENDING);
    return return_boolean(are_equal);
}

static enum next do_not(void)
{
    argument(A, 0);
    return return_boolean(!is_true(A));
}

static enum next do_is_boolean(void)
{
    enum type type = argument(A, 0);
    return return_boolean(type == TRUE || type == FALSE);
}

static enum next do_is_procedure(void)
{
    enum type type = argument(A, 0);
    return return_boolean(type == CLOSURE || type == PRIMITIVE);
}

static enum next do_display(void)
{
    argument(A, 0);
    print(stdout, A, false);
    return return_nothing();
}

static enum next do_write(void)
{
    argument(A, 0);
    print(stdout, A, true);
    return return_nothing();
}

static enum next do_newline(void)
{
    putchar('\n');
    return return_nothing();
}

/* (error TEXT) or (error TEXT VALUE) */
static enum next do_error(void)
{
    uint32_t given = argument_count();
    char text[200];
    typed_argument(A, 0, STRING, "a string");
    size_t length = string_length(A) < sizeof text ? string_length(A) : sizeof text - 1;
    copy_string(text, A, 0, length);
    text[length] = 0;
    if (given == 1)
        fail("%s", text);
    argument(B, 1);
    fail_about(B, "%s", text);
}

static enum next do_exit(void)
{
    longjmp(error_target, EXIT_WANTED);
}

/* (apply FUNCTION LIST): makes the scope of that call. */
static enum next do_apply(void)
{
    argument(A, 1);
    int64_t length = list_length(A);
    if (length < 0)
        fail_about(A, "apply expects a list, but found");
    if (length > ANY_NUMBER - 1)
        fail("a call has at most %d arguments", ANY_NUMBER - 1);
    make(B, SCOPE, FIRST_VALUE + (uint32_t)length);
    argument(C, 0);
    put(B, OPERATOR, C);
    uint32_t field = FIRST_VALUE;
    for (enum type type = type_of(A); type == PAIR; type = get(A, A, REST)) {
        get(C, A, FIRST);
        put(B, field++, C);
    }
    move(ARGUMENTS, B);
    return APPLY;
}

const struct primitive other_primitives[] = {
    {"eq?", 2, 2, do_is_eq},
    {"equal?", 2, 2, do_is_equal},
    {"not", 1, 1, do_not},
    {"boolean?", 1, 1, do_is_boolean},
    {"procedure?", 1, 1, do_is_procedure},
    {"display", 1, 1, do_display},
    {"write", 1, 1, do_write},
    {"newline", 0, 0, do_newline},
    {"error", 1, 2, do_error},
    {"exit", 0, 0, do_exit},
    {"apply", 2, 2, do_apply},
    {NULL, 0, 0, NULL},
};
