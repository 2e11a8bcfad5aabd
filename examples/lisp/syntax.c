/* Rewrites forms into calls of lambda. New pairs have the position of the form, so that errors still say where.
 *
 * While a form is rewritten, its bindings are two lists, from NAMES to LAST_NAME and from EXPRESSIONS to LAST_EXPRESSION. */
#include "syntax.h"
#include "errors.h"
#include "heap.h"
#include "objects.h"
#include <stdbool.h>

struct form {
    const char *name;
    const char *usage;
};

static const struct form forms[KEYWORDS] = {
    [QUOTE] = {"quote", "(quote VALUE)"},
    [IF] = {"if", "(if TEST THEN) or (if TEST THEN ELSE)"},
    [COND] = {"cond", "(cond (TEST EXPRESSION ...) ... (else EXPRESSION ...))"},
    [AND] = {"and", "(and EXPRESSION ...)"},
    [OR] = {"or", "(or EXPRESSION ...)"},
    [BEGIN] = {"begin", "(begin EXPRESSION ...)"},
    [LAMBDA] = {"lambda", "(lambda (NAME ...) EXPRESSION ...)"},
    [DEFINE] = {"define", "(define NAME EXPRESSION) or (define (NAME NAME ...) EXPRESSION ...)"},
    [SET] = {"set!", "(set! NAME EXPRESSION)"},
    [LET] = {"let", "(let ((NAME EXPRESSION) ...) EXPRESSION ...), perhaps with a name behind the let"},
    [LET_STAR] = {"let*", "(let* ((NAME EXPRESSION) ...) EXPRESSION ...)"},
    [LETREC] = {"letrec", "(letrec ((NAME EXPRESSION) ...) EXPRESSION ...)"},
    [ELSE] = {"else", "a cond around (else EXPRESSION ...)"},
};

void make_keywords(void)
{
    for (int keyword = QUOTE; keyword < KEYWORDS; keyword++) {
        intern_name(A, forms[keyword].name);
        put_word(A, KEYWORD, (uint64_t)keyword);
    }
}

enum keyword keyword_of(enum slot value)
{
    bool is_keyword = type_of(value) == SYMBOL && get(WORD, value, KEYWORD) == INTEGER;
    return is_keyword ? (enum keyword)integer_in(WORD) : NO_KEYWORD;
}

void fail_in(enum keyword keyword)
{
    fail("expected %s", forms[keyword].usage);
}

void check_form(enum keyword keyword, int64_t least, int64_t most)
{
    int64_t elements = list_length(EXPRESSION) - 1;
    if (elements < least || elements > most)
        fail_in(keyword);
}

/* ---- Building forms */

/* Makes a pair of the new form. */
static void make_part(enum slot to, enum slot first, enum slot rest)
{
    make_pair_at(to, first, rest, position_at(PLACE));
}

/* Makes a list of one element. */
static void make_list_of(enum slot to, enum slot element)
{
    move(D, element);
    clear(to);
    make_part(to, D, to);
}

/* Puts a keyword at the front of a list. */
static void make_form(enum slot to, enum keyword keyword, enum slot rest)
{
    move(A, rest);
    intern_name(C, forms[keyword].name);
    make_part(to, C, A);
}

/* Makes (lambda NAMES . BODY). */
static void make_lambda(enum slot to)
{
    make_part(A, NAMES, BODY);
    make_form(to, LAMBDA, A);
}

static void replace_expression(enum slot form)
{
    put(PLACE, FIRST, form);
}

/* Makes ((lambda NAMES . BODY) . EXPRESSIONS), and puts it into the place of the form. */
static void replace_by_call(void)
{
    make_lambda(A);
    make_part(A, A, EXPRESSIONS);
    replace_expression(A);
}

/* ---- Bindings */

/* Splits BINDINGS, ((NAME EXPRESSION) ...), into two lists. */
static void split_bindings(enum keyword keyword)
{
    clear(NAMES);
    clear(EXPRESSIONS);
    enum type type = type_of(BINDINGS);
    for (; type == PAIR; type = get(BINDINGS, BINDINGS, REST)) {
        bool is_binding = get(A, BINDINGS, FIRST) == PAIR && list_length(A) == 2;
        if (!is_binding || get(B, A, FIRST) != SYMBOL)
            fail_in(keyword);
        append_at(NAMES, LAST_NAME, B, position_at(A));
        get(A, A, REST);
        get(B, A, FIRST);
        append_at(EXPRESSIONS, LAST_EXPRESSION, B, position_at(A));
    }
    if (type != EMPTY)
        fail_in(keyword);
}

/* (let NAME BINDINGS . BODY) becomes ((letrec ((NAME (lambda NAMES . BODY))) NAME) . EXPRESSIONS). OTHER has the name. */
static void rewrite_named_let(void)
{
    check_form(LET, 3, MOST_FIELDS);
    get(BINDINGS, A, FIRST);
    get(BODY, A, REST);
    split_bindings(LET);
    make_lambda(B);
    make_list_of(B, B);
    make_part(B, OTHER, B);
    make_list_of(B, B);
    make_list_of(A, OTHER);
    make_part(A, B, A);
    make_form(A, LETREC, A);
    make_part(A, A, EXPRESSIONS);
    replace_expression(A);
}

/* (let BINDINGS . BODY) becomes ((lambda NAMES . BODY) . EXPRESSIONS). */
void rewrite_let(void)
{
    check_form(LET, 2, MOST_FIELDS);
    get(B, EXPRESSION, REST);
    enum type type = get(OTHER, B, FIRST);
    get(A, B, REST);
    if (type == SYMBOL) {
        rewrite_named_let();
        return;
    }
    move(BINDINGS, OTHER);
    move(BODY, A);
    split_bindings(LET);
    replace_by_call();
}

/* (let* (FIRST . OTHERS) . BODY) becomes (let (FIRST) (let* OTHERS . BODY)), or a let if there is at most one binding. */
void rewrite_let_star(void)
{
    check_form(LET_STAR, 2, MOST_FIELDS);
    get(A, EXPRESSION, REST);
    get(BODY, A, REST);
    get(BINDINGS, A, FIRST);
    int64_t bindings = list_length(BINDINGS);
    if (bindings < 0)
        fail_in(LET_STAR);
    if (bindings > 1) {
        get(B, BINDINGS, REST);
        make_part(A, B, BODY);
        make_form(A, LET_STAR, A);
        make_list_of(BODY, A);
        get(B, BINDINGS, FIRST);
        make_list_of(BINDINGS, B);
    }
    make_part(A, BINDINGS, BODY);
    make_form(A, LET, A);
    replace_expression(A);
}

/* Appends (set! NAME EXPRESSION) for each binding to the list from PENDING to ITEM. */
static void append_assignments(void)
{
    move(OTHER, NAMES);
    move(BINDINGS, EXPRESSIONS);
    for (enum type type = type_of(OTHER); type == PAIR; type = get(OTHER, OTHER, REST)) {
        uint64_t position = position_at(BINDINGS);
        get(B, BINDINGS, FIRST);
        clear(C);
        make_pair_at(B, B, C, position);
        get(C, OTHER, FIRST);
        make_pair_at(B, C, B, position);
        make_form(B, SET, B);
        append_at(PENDING, ITEM, B, position);
        get(BINDINGS, BINDINGS, REST);
    }
}

/* Makes EXPRESSIONS a list with one NOTHING value for each name. */
static void forget_expressions(void)
{
    clear(EXPRESSIONS);
    move(OTHER, NAMES);
    for (enum type type = type_of(OTHER); type == PAIR; type = get(OTHER, OTHER, REST))
        append_at(EXPRESSIONS, LAST_EXPRESSION, NO_VALUE, 0);
}

/* (letrec BINDINGS . BODY) becomes ((lambda NAMES (set! NAME EXPRESSION) ... (let () . BODY)) nothing ...). */
void rewrite_letrec(void)
{
    check_form(LETREC, 2, MOST_FIELDS);
    get(A, EXPRESSION, REST);
    get(BINDINGS, A, FIRST);
    get(BODY, A, REST);
    split_bindings(LETREC);
    clear(PENDING);
    append_assignments();
    forget_expressions();
    clear(A);
    make_part(A, A, BODY);
    make_form(B, LET, A);
    append_at(PENDING, ITEM, B, position_at(PLACE));
    move(BODY, PENDING);
    replace_by_call();
}

/* ---- Definitions */

/* Checks the definition in slot B. (define (NAME . NAMES) . BODY) becomes (define NAME (lambda NAMES . BODY)). */
static void simplify_definition(void)
{
    int64_t length = list_length(B);
    if (length < 3)
        fail_in(DEFINE);
    get(C, B, REST);
    enum type type = get(OTHER, C, FIRST);
    if (type == PAIR) {
        get(BODY, C, REST);
        get(NAMES, OTHER, REST);
        type = get(OTHER, OTHER, FIRST);
        make_lambda(B);
        make_list_of(B, B);
        make_part(B, OTHER, B);
        make_form(B, DEFINE, B);
        length = 3;
    }
    if (type != SYMBOL || length != 3)
        fail_in(DEFINE);
}

void rewrite_definition(void)
{
    move(B, EXPRESSION);
    simplify_definition();
    replace_expression(B);
    move(EXPRESSION, B);
}

/* Returns whether the body in EXPRESSIONS begins with a definition, and puts that into slot B. */
static bool begins_with_definition(void)
{
    bool is_form = type_of(EXPRESSIONS) == PAIR && get(B, EXPRESSIONS, FIRST) == PAIR;
    return is_form && get(C, B, FIRST) == SYMBOL && keyword_of(C) == DEFINE;
}

void rewrite_body(void)
{
    get(EXPRESSIONS, A, REST);
    if (!begins_with_definition())
        return;
    move(PENDING, A);
    clear(BINDINGS);
    while (begins_with_definition()) {
        simplify_definition();
        get(B, B, REST);
        append_at(BINDINGS, LAST_NAME, B, position_at(EXPRESSIONS));
        get(EXPRESSIONS, EXPRESSIONS, REST);
    }
    if (type_of(EXPRESSIONS) != PAIR)
        fail("expected an expression behind the definitions of a body");
    make_part(A, BINDINGS, EXPRESSIONS);
    make_form(A, LETREC, A);
    make_list_of(A, A);
    put(PENDING, REST, A);
    move(A, PENDING);
}
