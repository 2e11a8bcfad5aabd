/* The functions written in C. */
#ifndef PRIMITIVES_H
#define PRIMITIVES_H

#include "evaluate.h"
#include "values.h"
#include <stdbool.h>
#include <stdint.h>

/* A function in C: sets VALUE, and returns what comes next. Its arguments are in the scope in ARGUMENTS. */
typedef enum next primitive(void);

struct primitive {
    const char *name;
    uint32_t least; /* how many arguments it takes */
    uint32_t most;
    primitive *function;
};

enum { ANY_NUMBER = 65535 - FIRST_VALUE };

/* The functions, each list with an empty one at its end. */
extern const struct primitive list_primitives[], integer_primitives[], text_primitives[], hashtable_primitives[], weak_pair_primitives[], other_primitives[];

/* Makes the functions, and sets the variables of their names. */
void make_primitives(void);

/* Calls the function in FUNCTION with this many arguments. */
enum next call_primitive(uint32_t given);

const char *name_of_primitive(enum slot function);

/* ---- For the functions themselves */

/* Returns the name of the running function. */
const char *running_name(void);

uint32_t argument_count(void);

/* Puts an argument, counted from 0, into the slot, and returns its type. */
enum type argument(enum slot to, uint32_t number);

/* The same, but ends in an error if it has another type. */
void typed_argument(enum slot to, uint32_t number, enum type type, const char *expected);

int64_t integer_argument(uint32_t number);

/* These return the function's value. */
enum next return_slot(enum slot slot);
enum next return_integer(int64_t integer);
enum next return_boolean(bool truth);
enum next return_nothing(void);

#endif
