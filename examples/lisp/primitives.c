/* Makes, finds and calls the functions written in C. */
#include "primitives.h"
#include "errors.h"
#include "heap.h"
#include "objects.h"

static const struct primitive *const families[] = {list_primitives, integer_primitives, text_primitives, hashtable_primitives, weak_pair_primitives, other_primitives};

enum { FAMILIES = sizeof families / sizeof families[0], MOST_OF_A_FAMILY = 64 };

static const struct primitive *running;
static uint32_t arguments;

/* A function's number says its family and its place there. */
static const struct primitive *primitive_of(enum slot function)
{
    uint64_t number = get_word(function, PRIMITIVE_NUMBER);
    return &families[number / MOST_OF_A_FAMILY][number % MOST_OF_A_FAMILY];
}

void make_primitives(void)
{
    for (int family = 0; family < FAMILIES; family++)
        for (int i = 0; families[family][i].name != NULL; i++) {
            make(VALUE, PRIMITIVE, PRIMITIVE_FIELDS);
            put_word(VALUE, PRIMITIVE_NUMBER, (uint64_t)(family * MOST_OF_A_FAMILY + i));
            intern_name(A, families[family][i].name);
            put(A, SYMBOL_VALUE, VALUE);
        }
}

const char *name_of_primitive(enum slot function)
{
    return primitive_of(function)->name;
}

const char *running_name(void)
{
    return running->name;
}

enum next call_primitive(uint32_t given)
{
    running = primitive_of(FUNCTION);
    arguments = given;
    uint32_t least = running->least, most = running->most;
    if (given < least || given > most)
        fail("expected %s%u argument%s, but found %u, for %s", most == ANY_NUMBER ? "at least " : "", given < least ? least : most,
             (given < least ? least : most) == 1 ? "" : "s", given, running->name);
    return running->function();
}

/* ---- For the functions themselves */

uint32_t argument_count(void)
{
    return arguments;
}

enum type argument(enum slot to, uint32_t number)
{
    return get(to, ARGUMENTS, FIRST_VALUE + number);
}

void typed_argument(enum slot to, uint32_t number, enum type type, const char *expected)
{
    if (argument(to, number) != type)
        fail_about(to, "%s expects %s, but found", running_name(), expected);
}

int64_t integer_argument(uint32_t number)
{
    typed_argument(A, number, INTEGER, "an integer");
    return integer_in(A);
}

enum next return_slot(enum slot slot)
{
    move(VALUE, slot);
    return RETURN;
}

enum next return_integer(int64_t integer)
{
    set_integer(VALUE, integer);
    return RETURN;
}

enum next return_boolean(bool truth)
{
    set_boolean(VALUE, truth);
    return RETURN;
}

enum next return_nothing(void)
{
    return return_slot(NO_VALUE);
}
