/* Functions of pairs and lists. */
#include "errors.h"
#include "heap.h"
#include "objects.h"
#include "primitives.h"

static enum next do_cons(void)
{
    argument(A, 0);
    argument(B, 1);
    make_pair(VALUE, A, B);
    return RETURN;
}

static enum next read_pair(uint32_t field)
{
    typed_argument(A, 0, PAIR, "a pair");
    get(VALUE, A, field);
    return RETURN;
}

static enum next do_car(void)
{
    return read_pair(FIRST);
}

static enum next do_cdr(void)
{
    return read_pair(REST);
}

static enum next write_pair(uint32_t field)
{
    typed_argument(A, 0, PAIR, "a pair");
    argument(B, 1);
    put(A, field, B);
    return return_nothing();
}

static enum next do_set_car(void)
{
    return write_pair(FIRST);
}

static enum next do_set_cdr(void)
{
    return write_pair(REST);
}

static enum next do_list(void)
{
    uint32_t given = argument_count();
    clear(VALUE);
    for (uint32_t i = given; i > 0; i--) {
        argument(A, i - 1);
        make_pair(VALUE, A, VALUE);
    }
    return RETURN;
}

/* Puts a list into slot A, and returns its length. */
static int64_t list_argument(uint32_t number)
{
    argument(A, number);
    int64_t length = list_length(A);
    if (length < 0)
        fail_about(A, "%s expects a list, but found", running_name());
    return length;
}

static enum next do_length(void)
{
    return return_integer(list_argument(0));
}

static enum next do_reverse(void)
{
    list_argument(0);
    clear(VALUE);
    for (enum type type = type_of(A); type == PAIR; type = get(A, A, REST)) {
        get(B, A, FIRST);
        make_pair(VALUE, B, VALUE);
    }
    return RETURN;
}

/* Copies all lists but the last, which the result shares. */
static enum next do_append(void)
{
    uint32_t given = argument_count();
    clear(VALUE);
    for (uint32_t i = 0; i + 1 < given; i++) {
        list_argument(i);
        for (enum type type = type_of(A); type == PAIR; type = get(A, A, REST)) {
            get(B, A, FIRST);
            append_at(VALUE, C, B, 0);
        }
    }
    if (given == 0)
        return RETURN;
    argument(A, given - 1);
    if (type_of(VALUE) == EMPTY)
        return return_slot(A);
    put(C, REST, A);
    return RETURN;
}

static enum next do_is_pair(void)
{
    return return_boolean(argument(A, 0) == PAIR);
}

static enum next do_is_null(void)
{
    return return_boolean(argument(A, 0) == EMPTY);
}

const struct primitive list_primitives[] = {
    {"cons", 2, 2, do_cons},        {"car", 1, 1, do_car},          {"cdr", 1, 1, do_cdr},
    {"set-car!", 2, 2, do_set_car}, {"set-cdr!", 2, 2, do_set_cdr}, {"list", 0, ANY_NUMBER, do_list},
    {"length", 1, 1, do_length},    {"reverse", 1, 1, do_reverse},  {"append", 0, ANY_NUMBER, do_append},
    {"pair?", 1, 1, do_is_pair},    {"null?", 1, 1, do_is_null},    {NULL, 0, 0, NULL},
};
