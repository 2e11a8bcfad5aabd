/* The compiler: from the text to codes in one pass, without a tree. */
#include "minivm.h"

#include <ctype.h>

int32_t codes[MOST_CODES];
function functions[MOST_FUNCTIONS];

static int32_t code_count, function_count, local_count;
static char locals[MOST_LOCALS][MOST_NAME];

/* The text, and how far it is read. The token at which the compiler is; of a string it has no marks. */
static const char *start, *at;
static char token[4096];
static size_t token_length;
static enum { END, NUMBER, NAME, STRING, SIGN } sort;

static _Noreturn void syntax_error(const char *what)
{
    int line = 1;
    for (const char *p = start; p < at; p++)
        line += *p == '\n';
    fprintf(stderr, "minivm: line %d, at '%s': %s\n", line, token, what);
    exit(2);
}

/* ---- Tokens */

/* Adds to the token the letter at which the text is read, and those behind it that are in a name or a number. */
static void take_letters(bool all)
{
    do {
        if (token_length + 1 == sizeof token)
            syntax_error("the word is too long");
        token[token_length++] = *at++;
        token[token_length] = 0;
    } while (all && (isalnum((unsigned char)*at) || *at == '_'));
}

/* Moves to the next token. */
static void next(void)
{
    while (isspace((unsigned char)*at) || *at == '#')
        at += *at == '#' ? strcspn(at, "\n") : 1;
    token[token_length = 0] = 0;
    if (*at == 0) {
        sort = END;
    } else if (isalnum((unsigned char)*at) || *at == '_') {
        sort = isdigit((unsigned char)*at) ? NUMBER : NAME;
        take_letters(true);
    } else if (*at == '"') {
        sort = STRING;
        for (at++; *at != '"';) {
            if (*at == 0)
                syntax_error("a string has no end");
            take_letters(false);
        }
        at++;
    } else {
        bool may_be_two = strchr("=!<", *at) != NULL;
        sort = SIGN;
        take_letters(false);
        if (may_be_two && *at == '=')
            take_letters(false);
    }
}

static bool sees(const char *text)
{
    return sort != STRING && strcmp(token, text) == 0;
}

static bool takes(const char *text)
{
    bool is = sees(text);
    if (is)
        next();
    return is;
}

static void wants(const char *text)
{
    char what[32];
    snprintf(what, sizeof what, "a %s is missing", text);
    if (!takes(text))
        syntax_error(what);
}

/* ---- Names and codes */

static int32_t emit(int32_t code)
{
    if (code_count == MOST_CODES)
        syntax_error("the program is too long");
    codes[code_count] = code;
    return code_count++;
}

/* Emits a code with an operand. Returns the place of the operand. */
static int32_t emit_with(enum code code, int32_t operand)
{
    emit(code);
    return emit(operand);
}

static void copy_name(char *name)
{
    if (token_length >= MOST_NAME)
        syntax_error("a name has at most 31 letters");
    memcpy(name, token, token_length + 1);
}

/* Copies the name at which the compiler is, and moves behind it. */
static void take_name(char *name)
{
    copy_name(name);
    next();
}

static void new_local(const char *name)
{
    if (local_count == MOST_LOCALS)
        syntax_error("too many variables");
    memcpy(locals[local_count++], name, MOST_NAME);
}

/* Returns the number of the variable, or -1 if there is none. */
static int32_t local_named(const char *name)
{
    int32_t i = local_count - 1;
    while (i >= 0 && strcmp(locals[i], name) != 0)
        i--;
    return i;
}

static int32_t function_named(const char *name)
{
    for (int32_t i = 0; i < function_count; i++)
        if (strcmp(functions[i].name, name) == 0)
            return i;
    if (function_count == MOST_FUNCTIONS)
        syntax_error("too many functions");
    functions[function_count].start = -1;
    memcpy(functions[function_count].name, name, MOST_NAME);
    return function_count++;
}

/* ---- Expressions */

static void expression(int level);

/* Compiles expressions up to the sign that ends their list. Returns how many there are, and emits `each` behind each one, unless it is negative. */
static uint32_t expressions(const char *end, int32_t each)
{
    uint32_t count = 0;
    while (!sees(end)) {
        expression(0);
        if (each >= 0)
            emit(each);
        count++;
        if (!takes(","))
            break;
    }
    wants(end);
    return count;
}

/* Compiles a call of this name, behind its bracket. */
static void call(const char *name)
{
    static const struct {
        const char *name;
        enum code code;
        uint32_t arguments;
    } known[] = {{"len", LENGTH, 1}, {"push", PUSH, 2}, {"str", SHOW, 1}, {"print", PRINT, 1}};
    char argument[MOST_NAME];
    if (strcmp(name, "pcall") == 0) {
        take_name(argument);
        wants(")");
        emit_with(GUARDED_CALL, function_named(argument));
        return;
    }
    uint32_t count = expressions(")", -1);
    for (size_t i = 0; i < sizeof known / sizeof *known; i++)
        if (strcmp(known[i].name, name) == 0) {
            if (known[i].arguments != count)
                syntax_error("another number of arguments");
            emit(known[i].code);
            return;
        }
    emit_with(CALL, function_named(name));
    emit((int32_t)count);
}

/* Compiles what begins with a name. */
static void named(void)
{
    char name[MOST_NAME];
    take_name(name);
    if (strcmp(name, "nil") == 0)
        emit(NIL);
    else if (strcmp(name, "true") == 0)
        emit(TRUE);
    else if (strcmp(name, "false") == 0)
        emit(FALSE);
    else if (takes("("))
        call(name);
    else if (local_named(name) >= 0)
        emit_with(GET, local_named(name));
    else
        syntax_error("there is no such variable");
}

static void primary(void)
{
    if (sort == NUMBER) {
        long long number = strtoll(token, NULL, 10);
        if (token_length > 10 || number > INT32_MAX || strspn(token, "0123456789") != token_length)
            syntax_error("a number in the text is at most 2147483647");
        emit_with(INTEGER, (int32_t)number);
        next();
    } else if (sort == STRING) {
        emit_with(CONSTANT, (int32_t)vm.stack.top);
        text_new(hp_push(&vm), token, token_length);
        next();
    } else if (sort == NAME) {
        named();
    } else if (takes("(")) {
        expression(0);
        wants(")");
    } else if (takes("-")) {
        emit_with(INTEGER, 0);
        primary();
        emit(SUBTRACT);
    } else if (takes("!")) {
        primary();
        emit(NOT);
    } else if (takes("[")) {
        emit(NEW_ARRAY);
        expressions("]", PUSH);
    } else if (takes("{")) {
        wants("}");
        emit(NEW_TABLE);
    } else {
        syntax_error("an expression is missing");
    }
    while (takes("[")) {
        expression(0);
        wants("]");
        if (takes("=")) {
            expression(0);
            emit(SET_INDEX);
            return;
        }
        emit(INDEX);
    }
}

/* A sign between two operands, and how much it binds. */
static const struct sign {
    const char *text;
    int level;
    enum code code;
} signs[] = {{"==", 1, EQUAL}, {"!=", 1, UNEQUAL}, {"<", 2, LESS}, {"<=", 2, AT_MOST}, {"+", 3, ADD}, {"-", 3, SUBTRACT}, {"*", 4, MULTIPLY}, {"/", 4, DIVIDE}, {"%", 4, REMAINDER}};

/* Takes a sign that binds more than this level. Returns NULL if there is none. */
static const struct sign *sign_above(int level)
{
    for (size_t i = 0; i < sizeof signs / sizeof *signs; i++)
        if (signs[i].level > level && takes(signs[i].text))
            return &signs[i];
    return NULL;
}

/* Compiles an expression whose signs bind more than this level. */
static void expression(int level)
{
    const struct sign *sign;
    primary();
    while ((sign = sign_above(level)) != NULL) {
        expression(sign->level);
        emit(sign->code);
    }
}

/* ---- Statements */

static void statement(void);

static void block(void)
{
    int32_t outer = local_count;
    wants("{");
    while (!takes("}"))
        statement();
    for (; local_count > outer; local_count--)
        emit(POP);
}

static void if_statement(void)
{
    expression(0);
    int32_t skip = emit_with(JUMP_IF_FALSE, 0);
    block();
    if (takes("else")) {
        int32_t end = emit_with(JUMP, 0);
        codes[skip] = code_count;
        block();
        skip = end;
    }
    codes[skip] = code_count;
}

static void while_statement(void)
{
    int32_t again = code_count;
    expression(0);
    int32_t end = emit_with(JUMP_IF_FALSE, 0);
    block();
    emit_with(JUMP, again);
    codes[end] = code_count;
}

/* Returns whether one = follows the token. */
static bool assignment_follows(void)
{
    const char *p = at + strspn(at, " \t\r\n");
    return p[0] == '=' && p[1] != '=';
}

static void statement(void)
{
    char name[MOST_NAME];
    if (takes("let")) {
        take_name(name);
        wants("=");
        expression(0);
        new_local(name); /* its value stays on the stack */
    } else if (takes("if")) {
        if_statement();
    } else if (takes("while")) {
        while_statement();
    } else if (takes("return")) {
        if (sees("}"))
            emit(NIL);
        else
            expression(0);
        emit(RETURN);
    } else if (sort == NAME && local_named(token) >= 0 && assignment_follows()) {
        int32_t index = local_named(token);
        next();
        wants("=");
        expression(0);
        emit_with(SET, index);
    } else {
        expression(0);
        emit(POP);
    }
}

/* Compiles a function behind the word fn. */
static void function_text(void)
{
    char name[MOST_NAME];
    copy_name(name);
    function *f = &functions[function_named(name)];
    if (f->start >= 0)
        syntax_error("there are two such functions");
    next();
    wants("(");
    for (local_count = 0; sort == NAME;) {
        take_name(name);
        new_local(name);
        if (!takes(","))
            break;
    }
    wants(")");
    f->arity = (uint32_t)local_count;
    f->start = code_count;
    block();
    emit(NIL);
    emit(RETURN);
}

int32_t compile(const char *text)
{
    static char name[MOST_NAME] = "the program";
    start = at = text;
    next();
    while (takes("fn"))
        function_text();
    int32_t main_function = function_named(name);
    local_count = 0;
    functions[main_function].start = code_count;
    while (sort != END)
        statement();
    emit(NIL);
    emit(RETURN);
    for (int32_t i = 0; i < function_count; i++)
        if (functions[i].start < 0) {
            fprintf(stderr, "minivm: there is no function %s\n", functions[i].name);
            exit(2);
        }
    return main_function;
}
