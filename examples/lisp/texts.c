/* Functions of strings and symbols. A string is a raw object, so the collector copies its bytes and never looks at them. */
#include "errors.h"
#include "heap.h"
#include "objects.h"
#include "primitives.h"
#include <inttypes.h>
#include <string.h>

static char text[MOST_BYTES];

/* Appends a string argument to the text. Returns the length of both. */
static size_t add_argument(uint32_t number, size_t length)
{
    typed_argument(A, number, STRING, "a string");
    size_t added = string_length(A);
    if (added > MOST_BYTES - length)
        fail("%s: a string has at most %d bytes", running_name(), MOST_BYTES);
    copy_string(text + length, A, 0, added);
    return length + added;
}

static enum next return_text(size_t length)
{
    make_string(VALUE, text, length);
    return RETURN;
}

static enum next do_string_append(void)
{
    uint32_t given = argument_count();
    size_t length = 0;
    for (uint32_t i = 0; i < given; i++)
        length = add_argument(i, length);
    return return_text(length);
}

static enum next do_string_length(void)
{
    typed_argument(A, 0, STRING, "a string");
    return return_integer((int64_t)string_length(A));
}

static enum next do_substring(void)
{
    int64_t from = integer_argument(1), to = integer_argument(2);
    typed_argument(A, 0, STRING, "a string");
    int64_t length = (int64_t)string_length(A);
    if (from < 0 || to < from || length < to)
        fail("substring expects 0 <= start <= end <= %" PRId64 ", but found %" PRId64 " and %" PRId64, length, from, to);
    copy_string(text, A, (size_t)from, (size_t)(to - from));
    return return_text((size_t)(to - from));
}

static enum next do_string_equal(void)
{
    typed_argument(A, 0, STRING, "a string");
    typed_argument(B, 1, STRING, "a string");
    return return_boolean(equal_strings(A, B));
}

static enum next do_number_to_string(void)
{
    return return_text((size_t)snprintf(text, sizeof text, "%" PRId64, integer_argument(0)));
}

static enum next do_symbol_to_string(void)
{
    typed_argument(A, 0, SYMBOL, "a symbol");
    get(VALUE, A, SPELLING);
    return RETURN;
}

static enum next do_string_to_symbol(void)
{
    intern(VALUE, text, add_argument(0, 0));
    return RETURN;
}

static enum next do_is_string(void)
{
    return return_boolean(argument(A, 0) == STRING);
}

static enum next do_is_symbol(void)
{
    return return_boolean(argument(A, 0) == SYMBOL);
}

const struct primitive text_primitives[] = {
    {"string-append", 0, ANY_NUMBER, do_string_append},
    {"string-length", 1, 1, do_string_length},
    {"substring", 3, 3, do_substring},
    {"string=?", 2, 2, do_string_equal},
    {"number->string", 1, 1, do_number_to_string},
    {"symbol->string", 1, 1, do_symbol_to_string},
    {"string->symbol", 1, 1, do_string_to_symbol},
    {"string?", 1, 1, do_is_string},
    {"symbol?", 1, 1, do_is_symbol},
    {NULL, 0, 0, NULL},
};
