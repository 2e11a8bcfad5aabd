/* The evaluator: a machine whose registers are slots. Its stack is in stack.c.
 *
 * It evaluates the first element of the pair in PLACE. If it has to evaluate something else first, it pushes a frame that says what to
 * do with the value. An expression in tail position pushes no frame. So a loop by tail calls takes constant room, and only the heap
 * and its extra roots bound the depth of all other calls: nothing here calls itself. */
#include "evaluate.h"
#include "errors.h"
#include "heap.h"
#include "objects.h"
#include "primitives.h"
#include "stack.h"
#include "syntax.h"

volatile sig_atomic_t is_interrupted;

static enum next return_value(enum slot slot)
{
    move(VALUE, slot);
    return RETURN;
}

/* ---- Variables */

/* Finds the variable of the symbol in EXPRESSION. Returns its address, and puts its scope into SEARCHED. Returns 0 if no scope has it;
 * it is then global. Uses slots C and D. */
static uint32_t find_variable(void)
{
    uint32_t address = FIRST_VALUE;
    move(SEARCHED, ENVIRONMENT);
    for (enum type scope = type_of(SEARCHED); scope == SCOPE; scope = get(SEARCHED, SEARCHED, ENCLOSING)) {
        uint32_t here = address;
        enum type names = get(C, SEARCHED, VARIABLES);
        for (; names == PAIR; names = get(C, C, REST), here++) {
            get(D, C, FIRST);
            if (same(D, EXPRESSION))
                return here;
        }
        if (names == SYMBOL && same(C, EXPRESSION))
            return here;
        address += ONE_SCOPE;
    }
    return 0;
}

/* Rewrites the symbol in EXPRESSION, so that its variable is looked up only once: the scopes around a place in a program always have the
 * same names. */
static enum type rewrite_variable(void)
{
    if (keyword_of(EXPRESSION) != NO_KEYWORD)
        fail_in(keyword_of(EXPRESSION));
    uint32_t address = find_variable();
    make(A, address == 0 ? GLOBAL : LOCAL, address == 0 ? GLOBAL_FIELDS : LOCAL_FIELDS);
    put(A, VARIABLE_NAME, EXPRESSION);
    if (address != 0)
        put_word(A, ADDRESS, address);
    put(PLACE, FIRST, A);
    move(EXPRESSION, A);
    return address == 0 ? GLOBAL : LOCAL;
}

static void read_global(void)
{
    get(A, EXPRESSION, VARIABLE_NAME);
    if (get(VALUE, A, SYMBOL_VALUE) == NOTHING)
        fail_about(A, "nothing is defined as");
}

static void read_local(void)
{
    uint64_t address = get_word(EXPRESSION, ADDRESS);
    move(SEARCHED, ENVIRONMENT);
    for (; address >= ONE_SCOPE; address -= ONE_SCOPE)
        get(SEARCHED, SEARCHED, ENCLOSING);
    if (get(VALUE, SEARCHED, (uint32_t)address) == NOTHING) {
        get(A, EXPRESSION, VARIABLE_NAME);
        fail_about(A, "no value yet for");
    }
}

/* Gives the function in VALUE a name, if it has none. */
static void name_function(enum slot name)
{
    if (type_of(VALUE) == CLOSURE && get(WORD, VALUE, CLOSURE_NAME) == EMPTY)
        put(VALUE, CLOSURE_NAME, name);
}

/* ---- Forms that evaluate something first */

/* Continues with the elements of the list in PLACE, and leaves the value of the last. */
static enum next go_through(void)
{
    if (get(A, PLACE, REST) == PAIR)
        push_frame(SEQUENCE_FRAME, 0);
    return EVALUATE;
}

static enum next resume_sequence(void)
{
    get(PLACE, PLACE, REST);
    return go_through();
}

static enum next start_sequence(enum keyword keyword)
{
    check_form(keyword, 0, MOST_FIELDS);
    return get(PLACE, EXPRESSION, REST) == PAIR ? go_through() : return_value(NO_VALUE);
}

static enum next start_if(void)
{
    check_form(IF, 2, 3);
    get(PLACE, EXPRESSION, REST);
    push_frame(IF_FRAME, 0);
    return EVALUATE;
}

static enum next resume_if(void)
{
    get(PLACE, PLACE, REST);
    if (is_true(VALUE) || get(PLACE, PLACE, REST) == PAIR)
        return EVALUATE;
    return return_value(NO_VALUE);
}

/* Continues with the clauses from PLACE on. */
static enum next try_clauses(void)
{
    if (type_of(PLACE) != PAIR)
        return return_value(NO_VALUE);
    if (get(A, PLACE, FIRST) != PAIR || list_length(A) < 1)
        fail_in(COND);
    get(B, A, FIRST);
    if (keyword_of(B) == ELSE) {
        if (get(B, A, REST) != PAIR)
            fail_in(COND);
        move(PLACE, B);
        return go_through();
    }
    push_frame(COND_FRAME, 0);
    move(PLACE, A);
    return EVALUATE;
}

static enum next resume_cond(void)
{
    if (is_true(VALUE)) {
        get(A, PLACE, FIRST);
        return get(PLACE, A, REST) == PAIR ? go_through() : RETURN;
    }
    get(PLACE, PLACE, REST);
    return try_clauses();
}

static enum next start_cond(void)
{
    check_form(COND, 1, MOST_FIELDS);
    get(PLACE, EXPRESSION, REST);
    return try_clauses();
}

/* Continues with the elements of the list in PLACE until one decides. */
static enum next go_through_until(enum type frame)
{
    if (get(A, PLACE, REST) == PAIR)
        push_frame(frame, 0);
    return EVALUATE;
}

static enum next start_and_or(enum keyword keyword)
{
    check_form(keyword, 0, MOST_FIELDS);
    if (get(PLACE, EXPRESSION, REST) == PAIR)
        return go_through_until(keyword == AND ? AND_FRAME : OR_FRAME);
    return return_value(keyword == AND ? TRUE_VALUE : FALSE_VALUE);
}

static enum next resume_and_or(enum type frame)
{
    if (is_true(VALUE) == (frame == OR_FRAME))
        return RETURN;
    get(PLACE, PLACE, REST);
    return go_through_until(frame);
}

/* ---- Definitions and assignments */

static enum next start_define(void)
{
    if (type_of(ENVIRONMENT) != EMPTY)
        fail("expected an expression: definitions stand outside of functions, or first in a body");
    rewrite_definition();
    get(PLACE, EXPRESSION, REST);
    get(A, PLACE, FIRST);
    if (keyword_of(A) != NO_KEYWORD)
        fail_about(A, "expected the name of a variable, but found the keyword");
    push_frame(DEFINE_FRAME, 0);
    get(PLACE, PLACE, REST);
    return EVALUATE;
}

static enum next resume_define(void)
{
    get(A, PLACE, FIRST);
    name_function(A);
    put(A, SYMBOL_VALUE, VALUE);
    return return_value(NO_VALUE);
}

static enum next start_set(void)
{
    check_form(SET, 2, 2);
    get(PLACE, EXPRESSION, REST);
    if (get(A, PLACE, FIRST) != SYMBOL)
        fail_in(SET);
    push_frame(ASSIGN_FRAME, 0);
    get(PLACE, PLACE, REST);
    return EVALUATE;
}

static enum next resume_set(void)
{
    get(EXPRESSION, PLACE, FIRST);
    name_function(EXPRESSION);
    uint32_t address = find_variable();
    if (address == 0 && get(A, EXPRESSION, SYMBOL_VALUE) == NOTHING)
        fail_about(EXPRESSION, "nothing is defined as");
    if (address == 0)
        put(EXPRESSION, SYMBOL_VALUE, VALUE);
    else
        put(SEARCHED, address % ONE_SCOPE, VALUE);
    return return_value(NO_VALUE);
}

/* ---- Functions */

/* A function's arity as a number: twice the number of its names, and 1 more if the last name takes a list of all other arguments. */
static uint64_t arity_of_names(enum slot names)
{
    uint64_t count = 0;
    move(C, names);
    enum type type = type_of(C);
    for (; type == PAIR; type = get(C, C, REST), count++)
        if (get(D, C, FIRST) != SYMBOL || keyword_of(D) != NO_KEYWORD)
            fail_about(D, "expected a name for an argument, but found");
    if (type != EMPTY && (type != SYMBOL || keyword_of(C) != NO_KEYWORD))
        fail_about(C, "expected a name for the other arguments, but found");
    return 2 * count + (type == SYMBOL);
}

static enum next start_lambda(void)
{
    check_form(LAMBDA, 2, MOST_FIELDS);
    get(A, EXPRESSION, REST);
    rewrite_body();
    get(B, A, FIRST);
    uint64_t arity = arity_of_names(B);
    make(VALUE, CLOSURE, CLOSURE_FIELDS);
    put(VALUE, PARAMETERS, B);
    get(B, A, REST);
    put(VALUE, CLOSURE_BODY, B);
    put(VALUE, CLOSURE_SCOPE, ENVIRONMENT);
    put_word(VALUE, ARITY, arity);
    return RETURN;
}

/* Replaces the scope in ARGUMENTS by one with `names` values and then a list of all others. */
static void collect_others(uint32_t given, uint32_t names)
{
    clear(A);
    for (uint32_t i = given; i > names; i--) {
        get(B, ARGUMENTS, FIRST_VALUE + i - 1);
        make_pair(A, B, A);
    }
    make(B, SCOPE, FIRST_VALUE + names + 1);
    for (uint32_t i = 0; i < names; i++) {
        get(C, ARGUMENTS, FIRST_VALUE + i);
        put(B, FIRST_VALUE + i, C);
    }
    put(B, FIRST_VALUE + names, A);
    move(ARGUMENTS, B);
}

static _Noreturn void fail_in_call(uint32_t given, uint32_t names, bool takes_others)
{
    fail_about(FUNCTION, "expected %s%u argument%s, but found %u, for", takes_others ? "at least " : "", names, names == 1 ? "" : "s",
               given);
}

/* Enters the body of the function in FUNCTION: the arguments become its innermost scope. */
static enum next enter(uint32_t given)
{
    uint64_t arity = get_word(FUNCTION, ARITY);
    uint32_t names = (uint32_t)(arity / 2);
    bool takes_others = arity % 2 == 1;
    if (given < names || (given > names && !takes_others))
        fail_in_call(given, names, takes_others);
    if (takes_others)
        collect_others(given, names);
    get(A, FUNCTION, CLOSURE_SCOPE);
    put(ARGUMENTS, ENCLOSING, A);
    get(A, FUNCTION, PARAMETERS);
    put(ARGUMENTS, VARIABLES, A);
    move(ENVIRONMENT, ARGUMENTS);
    get(PLACE, FUNCTION, CLOSURE_BODY);
    return go_through();
}

static enum next apply(void)
{
    enum type type = get(FUNCTION, ARGUMENTS, OPERATOR);
    uint32_t given = field_count(ARGUMENTS) - FIRST_VALUE;
    set_error_place(CALL);
    if (type != CLOSURE && type != PRIMITIVE)
        fail_about(FUNCTION, "expected a function to call, but found");
    enum next next = type == CLOSURE ? enter(given) : call_primitive(given);
    set_error_place(PLACE);
    return next;
}

/* ---- Calls */

/* Evaluates an expression that needs no frame. */
static void evaluate_atom(enum type type)
{
    if (type == SYMBOL)
        type = rewrite_variable();
    if (type == GLOBAL)
        read_global();
    else if (type == LOCAL)
        read_local();
    else if (type == EMPTY)
        fail("expected an expression, but found (): '() is the empty list");
    else
        move(VALUE, EXPRESSION);
}

/* Evaluates the elements of a call from PLACE on, and writes their values to ARGUMENTS from this field on. */
static enum next evaluate_elements(uint32_t field)
{
    for (enum type rest = type_of(PLACE); rest == PAIR; rest = get(PLACE, PLACE, REST)) {
        enum type type = get(EXPRESSION, PLACE, FIRST);
        if (type == PAIR) {
            push_frame(CALL_FRAME, field);
            return EVALUATE;
        }
        evaluate_atom(type);
        put(ARGUMENTS, field, VALUE);
        field++;
    }
    return APPLY;
}

static enum next resume_call(uint32_t field)
{
    put(ARGUMENTS, field, VALUE);
    get(PLACE, PLACE, REST);
    return evaluate_elements(field + 1);
}

static enum next start_call(void)
{
    int64_t elements = list_length(EXPRESSION);
    if (elements < 0)
        fail("expected a call, but found a list that ends in a .");
    if (elements > ANY_NUMBER)
        fail("a call has at most %d arguments", ANY_NUMBER - 1);
    make(ARGUMENTS, SCOPE, OPERATOR + (uint32_t)elements);
    move(CALL, PLACE);
    move(PLACE, EXPRESSION);
    return evaluate_elements(OPERATOR);
}

/* ---- The machine */

static enum next rewritten(void (*rewrite)(void))
{
    rewrite();
    return EVALUATE;
}

static enum next start_form(enum keyword keyword)
{
    switch (keyword) {
    case QUOTE:
        check_form(QUOTE, 1, 1);
        get(A, EXPRESSION, REST);
        get(VALUE, A, FIRST);
        return RETURN;
    case IF:
        return start_if();
    case COND:
        return start_cond();
    case AND:
    case OR:
        return start_and_or(keyword);
    case BEGIN:
        return start_sequence(BEGIN);
    case LAMBDA:
        return start_lambda();
    case DEFINE:
        return start_define();
    case SET:
        return start_set();
    case LET:
        return rewritten(rewrite_let);
    case LET_STAR:
        return rewritten(rewrite_let_star);
    case LETREC:
        return rewritten(rewrite_letrec);
    default:
        fail_in(keyword);
    }
}

static enum next start_expression(void)
{
    enum type type = get(EXPRESSION, PLACE, FIRST);
    if (type != PAIR) {
        evaluate_atom(type);
        return RETURN;
    }
    enum keyword keyword = get(A, EXPRESSION, FIRST) == SYMBOL ? keyword_of(A) : NO_KEYWORD;
    return keyword == NO_KEYWORD ? start_call() : start_form(keyword);
}

static enum next resume(void)
{
    uint32_t field = 0;
    enum type frame = pop_frame(&field);
    switch (frame) {
    case EMPTY:
        return FINISHED;
    case IF_FRAME:
        return resume_if();
    case COND_FRAME:
        return resume_cond();
    case AND_FRAME:
    case OR_FRAME:
        return resume_and_or(frame);
    case SEQUENCE_FRAME:
        return resume_sequence();
    case DEFINE_FRAME:
        return resume_define();
    case ASSIGN_FRAME:
        return resume_set();
    default:
        return resume_call(field);
    }
}

void clear_registers(void)
{
    for (enum slot slot = PLACE; slot <= WORD; slot++)
        clear(slot);
    for (enum slot slot = BINDINGS; slot < SLOTS; slot++)
        clear(slot);
    clear_stack();
    set_error_place(PLACE);
}

void evaluate(void)
{
    enum next next = EVALUATE;
    clear_stack();
    clear(ENVIRONMENT);
    is_interrupted = 0;
    while (next != FINISHED) {
        if (is_interrupted && next == EVALUATE)
            fail("interrupted");
        safepoint();
        next = next == EVALUATE ? start_expression() : next == APPLY ? apply() : resume();
    }
}
