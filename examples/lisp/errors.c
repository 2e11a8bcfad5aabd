/* Writes the line of an error, and jumps to the REPL. */
#include "errors.h"
#include "heap.h"
#include "print.h"
#include <inttypes.h>
#include <stdarg.h>
#include <stdio.h>

enum { MOST_TEXTS = 256, TEXT_SHIFT = 52, LINE_SHIFT = 20 };

jmp_buf error_target;

static const char *names[MOST_TEXTS];
static unsigned texts;
static enum slot error_place = PLACE;

/* ---- Positions */

unsigned add_text(const char *name)
{
    unsigned text = texts < MOST_TEXTS ? texts++ : MOST_TEXTS - 1;
    names[text] = name;
    return text;
}

static uint64_t at_most(uint64_t number, unsigned bits)
{
    uint64_t most = (UINT64_C(1) << bits) - 1;
    return number < most ? number : most;
}

uint64_t position_of(unsigned text, unsigned long line, unsigned long column)
{
    return (uint64_t)text << TEXT_SHIFT | at_most(line, TEXT_SHIFT - LINE_SHIFT) << LINE_SHIFT | at_most(column, LINE_SHIFT);
}

uint64_t position_at(enum slot place)
{
    bool was_read = type_of(place) == PAIR && field_count(place) == READ_PAIR_FIELDS;
    return was_read ? get_word(place, POSITION) : 0;
}

static void print_position(uint64_t position)
{
    if (position != 0) {
        const char *name = names[position >> TEXT_SHIFT];
        uint64_t line = position >> LINE_SHIFT & ((UINT64_C(1) << (TEXT_SHIFT - LINE_SHIFT)) - 1);
        uint64_t column = position & ((UINT64_C(1) << LINE_SHIFT) - 1);
        fprintf(stderr, "%s, line %" PRIu64 ", column %" PRIu64 ": ", name, line, column);
    }
}

/* ---- Errors */

void set_error_place(enum slot place)
{
    error_place = place;
}

static void print_error(uint64_t position, const char *format, va_list arguments)
{
    fflush(stdout);
    fputs("error: ", stderr);
    print_position(position);
    vfprintf(stderr, format, arguments);
}

static _Noreturn void leave(void)
{
    fputc('\n', stderr);
    longjmp(error_target, PROGRAM_ERROR);
}

void fail(const char *format, ...)
{
    va_list arguments;
    va_start(arguments, format);
    print_error(position_at(error_place), format, arguments);
    va_end(arguments);
    leave();
}

void fail_about(enum slot slot, const char *format, ...)
{
    va_list arguments;
    va_start(arguments, format);
    print_error(position_at(error_place), format, arguments);
    va_end(arguments);
    fputc(' ', stderr);
    print_short(stderr, slot);
    leave();
}

void fail_at(uint64_t position, const char *format, ...)
{
    va_list arguments;
    va_start(arguments, format);
    print_error(position, format, arguments);
    va_end(arguments);
    leave();
}
