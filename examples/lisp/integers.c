/* Functions of integers. A result that does not fit in 63 bits is an error. */
#include "errors.h"
#include "heap.h"
#include "primitives.h"

static bool is_in_range(int64_t integer)
{
    return LEAST_INTEGER <= integer && integer <= MOST_INTEGER;
}

static _Noreturn void fail_out_of_range(void)
{
    fail("the result of %s is out of range: integers have 63 bits", running_name());
}

/* Sums and differences of integers of 63 bits have at most 64 bits. */
static int64_t checked(int64_t integer)
{
    if (!is_in_range(integer))
        fail_out_of_range();
    return integer;
}

static int64_t product(int64_t first, int64_t second)
{
    int64_t result = 0;
    if (__builtin_mul_overflow(first, second, &result))
        fail_out_of_range();
    return checked(result);
}

static enum next do_plus(void)
{
    uint32_t given = argument_count();
    int64_t result = 0;
    for (uint32_t i = 0; i < given; i++)
        result = checked(result + integer_argument(i));
    return return_integer(result);
}

static enum next do_minus(void)
{
    uint32_t given = argument_count();
    int64_t result = integer_argument(0);
    if (given == 1)
        return return_integer(checked(-result));
    for (uint32_t i = 1; i < given; i++)
        result = checked(result - integer_argument(i));
    return return_integer(result);
}

static enum next do_times(void)
{
    uint32_t given = argument_count();
    int64_t result = 1;
    for (uint32_t i = 0; i < given; i++)
        result = product(result, integer_argument(i));
    return return_integer(result);
}

/* Returns the second argument, which must not be 0. */
static int64_t divisor(void)
{
    int64_t integer = integer_argument(1);
    if (integer == 0)
        fail("%s by 0", running_name());
    return integer;
}

static enum next do_quotient(void)
{
    int64_t dividend = integer_argument(0);
    return return_integer(checked(dividend / divisor()));
}

static enum next do_remainder(void)
{
    int64_t dividend = integer_argument(0);
    return return_integer(dividend % divisor());
}

enum { LESS = 1, EQUAL = 2, GREATER = 4 };

/* Returns whether each two neighbouring arguments are in one of these orders. */
static enum next compare(int orders)
{
    uint32_t given = argument_count();
    bool holds = true;
    int64_t before = integer_argument(0);
    for (uint32_t i = 1; i < given; i++) {
        int64_t integer = integer_argument(i);
        int order = before < integer ? LESS : before == integer ? EQUAL : GREATER;
        holds = holds && (order & orders) != 0;
        before = integer;
    }
    return return_boolean(holds);
}

static enum next do_equal(void)
{
    return compare(EQUAL);
}

static enum next do_less(void)
{
    return compare(LESS);
}

static enum next do_greater(void)
{
    return compare(GREATER);
}

static enum next do_at_most(void)
{
    return compare(LESS | EQUAL);
}

static enum next do_at_least(void)
{
    return compare(GREATER | EQUAL);
}

static enum next do_is_integer(void)
{
    return return_boolean(argument(A, 0) == INTEGER);
}

const struct primitive integer_primitives[] = {
    {"+", 0, ANY_NUMBER, do_plus},      {"-", 1, ANY_NUMBER, do_minus},    {"*", 0, ANY_NUMBER, do_times},
    {"quotient", 2, 2, do_quotient},    {"remainder", 2, 2, do_remainder}, {"=", 1, ANY_NUMBER, do_equal},
    {"<", 1, ANY_NUMBER, do_less},      {">", 1, ANY_NUMBER, do_greater},  {"<=", 1, ANY_NUMBER, do_at_most},
    {">=", 1, ANY_NUMBER, do_at_least}, {"integer?", 1, 1, do_is_integer}, {NULL, 0, 0, NULL},
};
