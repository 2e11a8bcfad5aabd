/* Writes values as text. The unfinished lists are a list in PENDING, so that no nesting is too deep for C's stack. */
#include "print.h"
#include "heap.h"
#include "objects.h"
#include "primitives.h"
#include <inttypes.h>

enum { SHORT_LENGTH = 8, SHORT_BYTES = 40 };

/* ---- Atoms */

static void print_byte(FILE *file, int byte, bool quoted)
{
    static const char written[] = "\n\t\"\\", escapes[] = "nt\"\\";
    for (int i = 0; quoted && written[i] != 0; i++)
        if (byte == written[i]) {
            fprintf(file, "\\%c", escapes[i]);
            return;
        }
    fputc(byte, file);
}

/* Writes at most `most` bytes of a string. */
static void print_bytes(FILE *file, enum slot string, bool quoted, size_t most)
{
    char bytes[BYTES_PER_WORD];
    size_t length = string_length(string);
    for (size_t at = 0; at < length && at < most; at += BYTES_PER_WORD) {
        size_t part = length - at < BYTES_PER_WORD ? length - at : BYTES_PER_WORD;
        copy_string(bytes, string, at, part);
        for (size_t i = 0; i < part; i++)
            print_byte(file, (unsigned char)bytes[i], quoted);
    }
    if (length > most)
        fputs("...", file);
}

static void print_string(FILE *file, enum slot string, bool quoted, size_t most)
{
    if (quoted)
        fputc('"', file);
    print_bytes(file, string, quoted, most);
    if (quoted)
        fputc('"', file);
}

static void print_symbol(FILE *file, enum slot symbol, size_t most)
{
    get(WORD, symbol, SPELLING);
    move(MADE, WORD);
    print_bytes(file, MADE, false, most);
}

static void print_closure(FILE *file, enum slot closure, size_t most)
{
    bool is_named = get(MADE, closure, CLOSURE_NAME) == SYMBOL;
    fputs(is_named ? "#<function " : "#<function", file);
    if (is_named)
        print_symbol(file, MADE, most);
    fputc('>', file);
}

/* Writes a value that is not a pair. */
static void print_atom(FILE *file, enum slot value, bool quoted, size_t most)
{
    enum type type = type_of(value);
    if (type == INTEGER)
        fprintf(file, "%" PRId64, integer_in(value));
    else if (type == STRING)
        print_string(file, value, quoted, most);
    else if (type == SYMBOL)
        print_symbol(file, value, most);
    else if (type == CLOSURE)
        print_closure(file, value, most);
    else if (type == PRIMITIVE)
        fprintf(file, "#<function %s>", name_of_primitive(value));
    else if (type == HASHTABLE)
        fputs("#<hashtable>", file);
    else if (type == WEAK_PAIR)
        fputs("#<weak pair>", file);
    else
        fputs(type == EMPTY ? "()" : type == TRUE ? "#t" : type == FALSE ? "#f" : "#<no value>", file);
}

/* ---- Lists */

/* Continues after an element of the innermost list: writes the text before the next element, or the list's end. Puts the next element into
 * ITEM, and returns whether there is one. */
static bool go_on(FILE *file, bool quoted)
{
    enum type type = get(ITEM, PENDING, FIRST);
    type = get(ITEM, ITEM, REST);
    if (type == PAIR) {
        put(PENDING, FIRST, ITEM);
        get(ITEM, ITEM, FIRST);
        fputc(' ', file);
        return true;
    }
    if (type != EMPTY) {
        fputs(" . ", file);
        print_atom(file, ITEM, quoted, MOST_BYTES);
    }
    fputc(')', file);
    get(PENDING, PENDING, REST);
    return false;
}

/* Writes the value in ITEM. A value with more elements than the heap has words contains itself. */
static void print_item(FILE *file, bool quoted)
{
    for (uint32_t elements = 0; elements < heap_size(); elements++) {
        if (type_of(ITEM) == PAIR) {
            fputc('(', file);
            make_pair(PENDING, ITEM, PENDING);
            get(ITEM, ITEM, FIRST);
            continue;
        }
        print_atom(file, ITEM, quoted, MOST_BYTES);
        do {
            if (type_of(PENDING) == EMPTY)
                return;
        } while (!go_on(file, quoted));
    }
    fputs(" ...", file);
}

void print(FILE *file, enum slot value, bool quoted)
{
    move(ITEM, value);
    clear(PENDING);
    print_item(file, quoted);
    clear(PENDING);
}

void print_short(FILE *file, enum slot value)
{
    if (type_of(value) != PAIR) {
        print_atom(file, value, true, SHORT_BYTES);
        return;
    }
    fputc('(', file);
    move(PENDING, value);
    enum type type = PAIR;
    for (int i = 0; type == PAIR && i < SHORT_LENGTH; i++, type = get(PENDING, PENDING, REST)) {
        if (i > 0)
            fputc(' ', file);
        if (get(ITEM, PENDING, FIRST) == PAIR)
            fputs("(...)", file);
        else
            print_atom(file, ITEM, true, SHORT_BYTES);
    }
    fputs(type == PAIR ? " ..." : type == EMPTY ? "" : " . ...", file);
    fputc(')', file);
    clear(PENDING);
}
