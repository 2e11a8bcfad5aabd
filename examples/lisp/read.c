/* The reader. The open lists are a chain of pairs in PENDING, so that no nesting is too deep for C's stack. */
#include "read.h"
#include "errors.h"
#include "heap.h"
#include "objects.h"
#include <ctype.h>
#include <inttypes.h>
#include <string.h>

enum { NOTHING_HELD = -2, MOST_NAME = 255 };

/* The fields of an OPEN object in PENDING: the outer one, the elements so far, and where it began. */
enum { OUTER, LIST, LAST, STATE, BEGAN, OPEN_FIELDS };

enum state { IN_LIST, AFTER_DOT, AFTER_TAIL, AFTER_QUOTE };

static char text[MOST_BYTES];

/* ---- Characters */

struct source source_of_file(FILE *file, const char *name, bool is_terminal)
{
    return (struct source){file, NULL, add_text(name), is_terminal, false, NOTHING_HELD, 1, 1};
}

struct source source_of_string(const char *string, const char *name)
{
    return (struct source){NULL, string, add_text(name), false, false, NOTHING_HELD, 1, 1};
}

static int next_of(struct source *source)
{
    if (source->file != NULL)
        return getc(source->file);
    return *source->string == 0 ? EOF : (unsigned char)*source->string++;
}

static int peek(struct source *source)
{
    if (source->held == NOTHING_HELD) {
        if (source->is_terminal && source->column == 1) {
            fputs(source->is_inside ? "... " : "> ", stdout);
            fflush(stdout);
        }
        source->held = next_of(source);
    }
    return source->held;
}

/* Takes a character. A column is a character of UTF-8. */
static int take(struct source *source)
{
    int character = peek(source);
    source->held = NOTHING_HELD;
    if (character == '\n') {
        source->line++;
        source->column = 1;
    } else if (character != EOF && (character & 0xc0) != 0x80) {
        source->column++;
    }
    return character;
}

void skip_line(struct source *source)
{
    while (peek(source) != '\n' && peek(source) != EOF)
        take(source);
}

static uint64_t position_in(const struct source *source)
{
    return position_of(source->text, source->line, source->column);
}

static void skip_blanks(struct source *source)
{
    while (isspace(peek(source)) || peek(source) == ';') {
        if (peek(source) == ';')
            skip_line(source);
        else
            take(source);
    }
}

static bool is_delimiter(int character)
{
    return character == EOF || isspace(character) || strchr("()'\";", character) != NULL;
}

/* ---- Atoms */

/* Returns the byte for the escape after a \. */
static int take_escape(struct source *source)
{
    static const char escapes[] = "nt\"\\", meant[] = "\n\t\"\\";
    uint64_t position = position_in(source);
    int escape = take(source);
    const char *found = escape > 0 ? strchr(escapes, escape) : NULL;
    if (found == NULL)
        fail_at(position, "expected n, t, \" or \\ behind a \\ in a string");
    return meant[found - escapes];
}

static void read_string(struct source *source, uint64_t position)
{
    size_t length = 0;
    for (take(source); peek(source) != '"';) {
        int character = take(source);
        if (character == EOF)
            fail_at(position, "the text ends inside the string that begins here: a \" is missing");
        if (length == MOST_BYTES)
            fail_at(position, "a string has at most %d bytes", MOST_BYTES);
        text[length++] = (char)(character == '\\' ? take_escape(source) : character);
    }
    take(source);
    make_string(VALUE, text, length);
}

static bool is_integer(const char *word)
{
    const char *digits = *word == '-' || *word == '+' ? word + 1 : word;
    return *digits != 0 && strspn(digits, "0123456789") == strlen(digits);
}

/* Adds up the digits as a negative number, since negative integers reach further by one. */
static void set_spelled_integer(const char *word, uint64_t position)
{
    bool is_negative = *word == '-', fits = true;
    int64_t integer = 0;
    for (const char *at = is_negative || *word == '+' ? word + 1 : word; *at != 0 && fits; at++) {
        int digit = *at - '0';
        fits = integer >= (LEAST_INTEGER + digit) / 10;
        integer = fits ? 10 * integer - digit : 0;
    }
    if (!fits || (!is_negative && integer == LEAST_INTEGER))
        fail_at(position, "%s is out of range: integers are %" PRId64 " to %" PRId64, word, LEAST_INTEGER, MOST_INTEGER);
    set_integer(VALUE, is_negative ? integer : -integer);
}

/* Reads up to the next delimiter. */
static size_t read_word(struct source *source, uint64_t position)
{
    size_t length = 0;
    while (!is_delimiter(peek(source))) {
        if (length == MOST_NAME)
            fail_at(position, "a name or a number has at most %d bytes", MOST_NAME);
        text[length++] = (char)take(source);
    }
    text[length] = 0;
    return length;
}

/* Sets VALUE to the integer, the symbol, #t or #f that a word spells. */
static void set_spelled(size_t length, uint64_t position)
{
    if (is_integer(text))
        set_spelled_integer(text, position);
    else if (strcmp(text, "#t") == 0 || strcmp(text, "#f") == 0)
        set_boolean(VALUE, text[1] == 't');
    else if (strchr("#`,", text[0]) != NULL)
        fail_at(position, "expected an expression, but found %s", text);
    else
        intern(VALUE, text, length);
}

/* ---- Open lists and quotes */

static void open_at(enum state state, uint64_t position)
{
    make(ITEM, OPEN, OPEN_FIELDS);
    put(ITEM, OUTER, PENDING);
    put_word(ITEM, STATE, state);
    put_word(ITEM, BEGAN, position);
    move(PENDING, ITEM);
}

static enum state pending_state(void)
{
    return (enum state)get_word(PENDING, STATE);
}

static void add_to_list(uint64_t position)
{
    get(A, PENDING, LIST);
    get(B, PENDING, LAST);
    append_at(A, B, VALUE, position);
    put(PENDING, LIST, A);
    put(PENDING, LAST, B);
}

static void add_tail(void)
{
    get(B, PENDING, LAST);
    put(B, REST, VALUE);
    put_word(PENDING, STATE, AFTER_TAIL);
}

/* Puts VALUE into a list after the symbol quote. */
static void quote_value(uint64_t position)
{
    clear(A);
    make_pair_at(VALUE, VALUE, A, position);
    intern_name(A, "quote");
    make_pair_at(VALUE, A, VALUE, get_word(PENDING, BEGAN));
}

/* Adds VALUE, which began at this position, to the innermost open list or quote. Returns true if it is the whole expression. Sets the
 * position to where that began. */
static bool add_value(uint64_t *position)
{
    while (type_of(PENDING) == OPEN && pending_state() == AFTER_QUOTE) {
        quote_value(*position);
        *position = get_word(PENDING, BEGAN);
        get(PENDING, PENDING, OUTER);
    }
    if (type_of(PENDING) != OPEN)
        return true;
    if (pending_state() == AFTER_TAIL)
        fail_at(*position, "expected a ) behind the one expression that follows a .");
    if (pending_state() == AFTER_DOT)
        add_tail();
    else
        add_to_list(*position);
    return false;
}

/* Takes a ), and puts the list that it closes into VALUE. Returns where the list began. */
static uint64_t close_list(struct source *source)
{
    uint64_t position = position_in(source);
    take(source);
    if (type_of(PENDING) != OPEN)
        fail_at(position, "expected an expression, but found a ) without a (");
    if (pending_state() == AFTER_QUOTE || pending_state() == AFTER_DOT)
        fail_at(position, "expected an expression behind the %c, but found a )", pending_state() == AFTER_DOT ? '.' : '\'');
    position = get_word(PENDING, BEGAN);
    get(VALUE, PENDING, LIST);
    get(PENDING, PENDING, OUTER);
    return position;
}

static void take_dot(uint64_t position)
{
    bool is_behind_element = type_of(PENDING) == OPEN && pending_state() == IN_LIST && get(A, PENDING, LIST) == PAIR;
    if (!is_behind_element)
        fail_at(position, "expected an expression, but found a .");
    put_word(PENDING, STATE, AFTER_DOT);
}

static _Noreturn void fail_at_end(void)
{
    bool is_list = pending_state() != AFTER_QUOTE;
    fail_at(get_word(PENDING, BEGAN), is_list ? "the text ends inside the list that begins here: a ) is missing"
                                              : "the text ends behind this ': an expression is missing");
}

/* ---- Expressions */

/* Reads the next token. Returns true if it completes a value, which is then in VALUE. Sets the position to where that began. */
static bool read_token(struct source *source, uint64_t *position)
{
    skip_blanks(source);
    *position = position_in(source);
    int character = peek(source);
    if (character == EOF)
        fail_at_end();
    if (character == '(' || character == '\'') {
        take(source);
        open_at(character == '(' ? IN_LIST : AFTER_QUOTE, *position);
        return false;
    }
    if (character == ')') {
        *position = close_list(source);
        return true;
    }
    if (character == '"') {
        read_string(source, *position);
        return true;
    }
    if (character == 0)
        fail_at(*position, "expected an expression, but found a byte 0");
    size_t length = read_word(source, *position);
    bool is_dot = strcmp(text, ".") == 0;
    if (is_dot)
        take_dot(*position);
    else
        set_spelled(length, *position);
    return !is_dot;
}

bool read_expression(struct source *source)
{
    uint64_t position;
    source->is_inside = false;
    clear(PENDING);
    skip_blanks(source);
    if (peek(source) == EOF)
        return false;
    source->is_inside = true;
    while (!read_token(source, &position) || !add_value(&position))
        continue;
    clear(A);
    make_pair_at(PLACE, VALUE, A, position);
    source->is_inside = false;
    return true;
}
