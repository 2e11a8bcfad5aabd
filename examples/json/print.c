/* The printer. */
#include "json.h"

#include <inttypes.h>

static bool is_sorted;
static int blanks, depth;

/* ---- Members in the order of their names: Shell's sort, which needs no memory */

static bool is_less(hp_root object, uint32_t i, uint32_t j)
{
    hp_array_get(&heap, NAME, object, 2 * i);
    hp_array_get(&heap, OTHER_NAME, object, 2 * j);
    return text_order(NAME, OTHER_NAME) < 0;
}

static void swap(hp_root object, uint32_t i, uint32_t j)
{
    for (uint32_t part = 0; part < 2; part++) {
        hp_array_get(&heap, MEMBER, object, 2 * i + part);
        hp_array_get(&heap, OTHER_MEMBER, object, 2 * j + part);
        hp_array_put(&heap, object, 2 * i + part, OTHER_MEMBER);
        hp_array_put(&heap, object, 2 * j + part, MEMBER);
    }
}

static void sort_members(hp_root object)
{
    uint32_t count = hp_array_length(&heap, object) / 2;
    for (uint32_t gap = count / 2; gap > 0; gap = gap == 2 ? 1 : (uint32_t)(gap * (uint64_t)5 / 11))
        for (uint32_t i = gap; i < count; i++)
            for (uint32_t k = i; k >= gap && is_less(object, k, k - gap); k -= gap)
                swap(object, k, k - gap);
}

/* ---- Single values */

static void print_text(hp_root s)
{
    static const char escaped[] = "\"\\\b\f\n\r\t", signs[] = "\"\\bfnrt";
    static block text;
    text_read(&text, s);
    putchar('"');
    for (size_t i = 0; i < text.length; i++) {
        unsigned char byte = (unsigned char)text.bytes[i];
        const char *found = byte != 0 ? strchr(escaped, byte) : NULL;
        if (found != NULL)
            printf("\\%c", signs[found - escaped]);
        else if (byte < 0x20)
            printf("\\u%04x", byte);
        else
            putchar(byte);
    }
    putchar('"');
}

/* Prints the fewest digits, at most 17, to which the double can be rounded so that they are read as the same one. */
static void print_double(double real)
{
    enum { MOST_DIGITS = 17, LEAST_EXPONENT = -4, MOST_EXPONENT = 15 };
    char text[40];
    int behind = -1, exponent; /* the digits behind the first one */
    do
        snprintf(text, sizeof text, "%.*e", ++behind, real);
    while (strtod(text, NULL) != real && behind + 1 < MOST_DIGITS);
    exponent = (int)strtol(strchr(text, 'e') + 1, NULL, 10);
    if (exponent < LEAST_EXPONENT || exponent > MOST_EXPONENT)
        fputs(text, stdout);
    else
        printf("%.*f", behind > exponent ? behind - exponent : 1, real);
}

static void print_single(void)
{
    hp_value value = hp_look(&heap, VALUE);
    if (value.type == HP_NIL)
        fputs("null", stdout);
    else if (value.type == HP_SPECIAL)
        fputs(value.special == TRUE_VALUE ? "true" : "false", stdout);
    else if (value.type == HP_INT)
        printf("%" PRId64, value.integer);
    else if (value.type == HP_DOUBLE || value.kind == HP_KIND_BOX)
        print_double(hp_double(&heap, VALUE));
    else
        print_text(VALUE);
}

/* ---- Containers */

static void new_line(void)
{
    if (blanks >= 0)
        printf("\n%*s", blanks * depth, "");
}

/* Begins to print the container in VALUE. */
static void open_container(void)
{
    bool is_object = hp_is(&heap, VALUE, OBJECT);
    for (int i = 0; i < LEVEL; i++)
        hp_set_int(&heap, hp_push(&heap), 0);
    hp_copy(&heap, level(CONTAINER), VALUE);
    if (is_object && is_sorted)
        sort_members(level(CONTAINER));
    putchar(is_object ? '{' : '[');
    depth++;
}

/* Prints what is before the next value of the innermost container, and puts the value into VALUE. Returns false at the container's end. */
static bool next_value(void)
{
    hp_root container = level(CONTAINER);
    uint32_t next = (uint32_t)hp_look(&heap, level(NUMBER)).integer;
    if (next == hp_array_length(&heap, container))
        return false;
    if (next > 0)
        putchar(',');
    new_line();
    if (hp_is(&heap, container, OBJECT)) {
        hp_array_get(&heap, NAME, container, next++);
        print_text(NAME);
        fputs(blanks < 0 ? ":" : ": ", stdout);
    }
    hp_array_get(&heap, VALUE, container, next);
    hp_set_int(&heap, level(NUMBER), next + 1);
    return true;
}

static void close_container(void)
{
    bool is_object = hp_is(&heap, level(CONTAINER), OBJECT), is_empty = hp_look(&heap, level(NUMBER)).integer == 0;
    hp_drop(&heap, LEVEL);
    depth--;
    if (!is_empty)
        new_line();
    putchar(is_object ? '}' : ']');
}

void print(bool sorted, int indent)
{
    is_sorted = sorted;
    blanks = indent;
    do {
        if (hp_is(&heap, VALUE, ARRAY) || hp_is(&heap, VALUE, OBJECT))
            open_container();
        else
            print_single();
        while (depth > 0 && !next_value())
            close_container();
    } while (depth > 0);
    putchar('\n');
}
