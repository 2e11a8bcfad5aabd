/* What the files of minivm share: the heap, the kinds of its objects, the registers, errors, and the program in codes. */
#ifndef MINIVM_H
#define MINIVM_H

#include "herbpond_arrays.h"

extern hp vm;

/* A text is one of bytes. A table is [count, keys, values] with two arrays. The truth values are the specials 0 and 1. */
enum kind { TEXT, ARRAY, TABLE, KINDS };

/* The registers that the files use while they work on an object. Only NO_MEMORY_TEXT keeps a value from one instruction to the next. */
enum registers { KEYS, VALUES, KEY, OLD_KEYS, OLD_VALUES, WORK_REGISTERS, NO_MEMORY_TEXT = WORK_REGISTERS };

/* ---- The program in codes (compile.c) */

enum code {
    CONSTANT, INTEGER, NIL, TRUE, FALSE, GET, SET, POP, ADD, SUBTRACT, MULTIPLY, DIVIDE, REMAINDER, LESS, AT_MOST, EQUAL, UNEQUAL, NOT, JUMP,
    JUMP_IF_FALSE, CALL, GUARDED_CALL, RETURN, NEW_ARRAY, NEW_TABLE, INDEX, SET_INDEX, LENGTH, PUSH, PRINT, SHOW
};

enum { MOST_CODES = 65536, MOST_FUNCTIONS = 256, MOST_LOCALS = 64, MOST_NAME = 32 };

typedef struct function {
    char name[MOST_NAME];
    int32_t start; /* its first code, or -1 before it is compiled */
    uint32_t arity;
} function;

extern int32_t codes[MOST_CODES];
extern function functions[MOST_FUNCTIONS];

/* Compiles a text, whose constants are pushed on the stack. Returns the number of its main function. Ends minivm at an error of syntax. */
int32_t compile(const char *text);

/* ---- The machine (machine.c) */

/* Runs a function without arguments. Returns whether it ended without an error; otherwise writes the error to standard error. */
bool run(int32_t main_function);

/* Ends the running function with this error, which the innermost pcall returns. */
_Noreturn void fail(const char *form, ...);

/* The hook of the heap: a lack of room is an error of the program, and any other answer a mistake of minivm. */
void heap_failed(hp *h, uint32_t answer, const char *call);

/* ---- Texts and tables (table.c) */

/* Makes a text of these bytes, or of s followed by t. More than GCFLIP_MOST_BYTES are an error of the program. */
void text_new(hp_root d, const char *bytes, size_t length);
void text_join(hp_root d, hp_root s, hp_root t);

bool values_equal(hp_root s, hp_root t);
void table_new(hp_root d);
void table_set(hp_root s, hp_root key, hp_root value);
/* Puts the value of the key into d, or nil if the table has no such key. */
void table_get(hp_root d, hp_root s, hp_root key);

#endif
