/* Lisp values: the slots that hold them, their types, and the fields of each type. */
#ifndef VALUES_H
#define VALUES_H

/* The slots of the one mutator, which are the only roots: 0 to 15 are its own, and 16 to 31 would be shared if there were several. */
enum slot {
    /* The evaluator's registers. */
    PLACE,       /* the pair whose first element is evaluated */
    EXPRESSION,  /* that element */
    VALUE,       /* the value of the expression before it */
    ENVIRONMENT, /* the innermost scope, or nil */
    STACK,       /* the top frame, or nil, if frames are objects */
    FRAME,       /* the last of these frames that was pushed or popped */
    ARGUMENTS,   /* the scope that is filled for a call */
    CALL,        /* the place of that call */
    FUNCTION,    /* the called function */
    SEARCHED,    /* the scope in which a variable is looked up */

    /* For one function's own use. A function that calls another one and goes on with these says which it may change. */
    A,
    B,
    C,
    D,

    /* Any function of objects.h, print.h and errors.h may change these. Each read or written word changes WORD. */
    MADE,
    WORD,

    /* Constants, and the table of symbols. */
    SYMBOLS = 16,
    TRUE_VALUE,
    FALSE_VALUE,
    NO_VALUE,

    /* The table of functions that wait for the death of an object. */
    FINALIZERS,

    /* For the rewriting of let. */
    BINDINGS,
    BODY,
    NAMES,
    LAST_NAME,
    EXPRESSIONS,
    LAST_EXPRESSION,

    /* For the unfinished work of the reader, the printer and equal?. */
    PENDING,
    ITEM,
    OTHER,

    SLOTS
};

/* An object's kind is its type. The empty list is nil, and an integer is a number; neither is an object. */
enum type {
    PAIR,
    SYMBOL,
    STRING, /* raw: the number of bytes, and then 7 bytes in each word */
    CLOSURE,
    PRIMITIVE,
    TRUE,
    FALSE,
    NOTHING, /* stands for no value, for example of a variable that is not set yet */
    SCOPE,   /* the variables of a function that was called */
    TABLE,   /* of symbols */
    HASHTABLE,
    CELLS,   /* of a hashtable: its keys and values */
    WEAK_PAIR,
    OPEN,    /* a list that is being read */
    LOCAL,   /* a variable in a program: the value of a scope */
    GLOBAL,  /* the same: the value of a symbol */

    /* Frames: what to do next with a value. */
    IF_FRAME,
    COND_FRAME,
    AND_FRAME,
    OR_FRAME,
    SEQUENCE_FRAME,
    DEFINE_FRAME,
    ASSIGN_FRAME,
    CALL_FRAME,

    EMPTY = 256,
    INTEGER
};

/* A pair that the reader made also has the position of its first element in the text. */
enum { FIRST, REST, PAIR_FIELDS, POSITION = PAIR_FIELDS, READ_PAIR_FIELDS };

enum { SPELLING, SYMBOL_VALUE, KEYWORD, SYMBOL_FIELDS };

enum { PARAMETERS, CLOSURE_BODY, CLOSURE_SCOPE, ARITY, CLOSURE_NAME, CLOSURE_FIELDS };

enum { PRIMITIVE_NUMBER, PRIMITIVE_FIELDS };

/* A variable's address is the number of its field plus 65536 times the number of scopes between. A GLOBAL has only the name. */
enum { VARIABLE_NAME, GLOBAL_FIELDS, ADDRESS = GLOBAL_FIELDS, LOCAL_FIELDS, ONE_SCOPE = 65536 };

/* While a call's arguments are evaluated, the operator is in the place of the names. */
enum { ENCLOSING, VARIABLES, OPERATOR = VARIABLES, FIRST_VALUE };

#endif
