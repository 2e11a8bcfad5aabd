/* lisp [--heap WORDS] [--beside | --record FILE] [--pauses] [FILE ...]
 *
 * Runs the files one after the other. Without files, reads expressions from standard input and prints their values. The status is 0,
 * 1 after an error of a program, and 2 if the options are wrong or the Lisp cannot start. */
#define _POSIX_C_SOURCE 200809L
#include "errors.h"
#include "evaluate.h"
#include "hashtables.h"
#include "heap.h"
#include "objects.h"
#include "pauses.h"
#include "prelude.h"
#include "primitives.h"
#include "print.h"
#include "read.h"
#include "syntax.h"
#include "weak_pairs.h"
#include <errno.h>
#include <signal.h>
#include <stdlib.h>
#include <string.h>
#include <unistd.h>

enum { WORDS_BY_DEFAULT = 262144 };

enum outcome { GOES_ON, ENDED, FAILED, LEFT };

struct options {
    uint32_t words;
    const char *trace;
    bool is_beside;
    bool measures;
    char **files; /* ends with NULL */
};

static _Noreturn void end(const char *why, const char *about)
{
    fprintf(stderr, "lisp: %s%s\n", why, about);
    exit(2);
}

/* ---- Options */

static uint32_t read_words(const char *word)
{
    char *behind = NULL;
    unsigned long words = word == NULL ? 0 : strtoul(word, &behind, 10);
    if (words < LEAST_HEAP || words > MOST_HEAP || *behind != 0 || *word == '-')
        end("--heap takes a number of words, 1 to 4294967295", "");
    return (uint32_t)words;
}

static struct options read_options(char **words)
{
    struct options options = {WORDS_BY_DEFAULT, NULL, false, false, NULL};
    for (; *words != NULL && strncmp(*words, "--", 2) == 0; words++) {
        if (strcmp(*words, "--pauses") == 0)
            options.measures = true;
        else if (strcmp(*words, "--beside") == 0)
            options.is_beside = true;
        else if (strcmp(*words, "--heap") == 0)
            options.words = read_words(*++words);
        else if (strcmp(*words, "--record") == 0 && words[1] != NULL)
            options.trace = *++words;
        else
            end("lisp [--heap WORDS] [--beside | --record FILE] [--pauses] [FILE ...], and not ", *words);
    }
    if (options.trace != NULL && options.words > MOST_RECORDED_HEAP)
        end("--record takes a heap of at most 1048576 words", "");
    if (options.trace != NULL && options.is_beside)
        end("--record does not go with --beside: a trace has no collector's thread", "");
    options.files = words;
    return options;
}

/* ---- Running texts */

/* Reads and evaluates the next expression. */
static enum outcome run_one(struct source *source, bool prints)
{
    int why = setjmp(error_target);
    if (why == EXIT_WANTED)
        return LEFT;
    if (why == PROGRAM_ERROR)
        return FAILED;
    clear_registers();
    restore_room();
    if (!read_expression(source))
        return ENDED;
    evaluate();
    if (prints && type_of(VALUE) != NOTHING) {
        print(stdout, VALUE, true);
        putchar('\n');
    }
    return GOES_ON;
}

/* Runs a text up to its end or its first error. */
static enum outcome run(struct source *source)
{
    enum outcome outcome = GOES_ON;
    while (outcome == GOES_ON)
        outcome = run_one(source, false);
    return outcome;
}

static enum outcome run_file(const char *name)
{
    FILE *file = fopen(name, "r");
    if (file == NULL) {
        fprintf(stderr, "lisp: %s: %s\n", name, strerror(errno));
        return FAILED;
    }
    struct source source = source_of_file(file, name, false);
    enum outcome outcome = run(&source);
    fclose(file);
    return outcome;
}

static void interrupt(int signal_number)
{
    (void)signal_number;
    is_interrupted = 1;
}

/* Reads expressions from standard input, and prints their values. Continues after an error. */
static enum outcome run_repl(void)
{
    struct source source = source_of_file(stdin, "input", isatty(0) && isatty(1));
    struct sigaction action = {.sa_handler = interrupt, .sa_flags = SA_RESTART};
    enum outcome outcome = GOES_ON;
    sigaction(SIGINT, &action, NULL);
    while (outcome == GOES_ON || outcome == FAILED) {
        outcome = run_one(&source, true);
        if (outcome == FAILED && source.is_inside)
            skip_line(&source);
    }
    return outcome;
}

static enum outcome run_all(char **files)
{
    enum outcome outcome = *files == NULL ? run_repl() : ENDED;
    for (; *files != NULL && outcome == ENDED; files++)
        outcome = run_file(*files);
    return outcome;
}

/* ---- The Lisp itself */

/* Makes everything that a program needs before it begins. Returns whether the heap has room for it. */
static bool make_lisp(void)
{
    if (setjmp(error_target) != NO_ERROR)
        return false;
    make_constants();
    make_keywords();
    make_primitives();
    make_finalizers();
    follow_weak_pairs();
    struct source source = source_of_string(prelude, "prelude");
    return run(&source) == ENDED && reserve_room();
}

/* Returns whether everything written to the stream was delivered. */
static bool is_written(FILE *file, const char *name)
{
    bool failed = fflush(file) != 0 || ferror(file);
    if (failed)
        fprintf(stderr, "lisp: cannot write %s\n", name);
    return !failed;
}

int main(int count, char **words)
{
    (void)count;
    struct options options = read_options(words + 1);
    FILE *trace = options.trace == NULL ? NULL : fopen(options.trace, "w");
    if (options.trace != NULL && trace == NULL)
        end("cannot write ", options.trace);
    if (!open_heap(options.words, trace, options.is_beside))
        end("out of memory: the system has none for the heap", "");
    if (!make_lisp())
        end("the heap is too small for the Lisp itself", "");
    if (options.measures)
        measure_pauses();
    enum outcome outcome = run_all(options.files);
    bool are_written = is_written(stdout, "the output") && (trace == NULL || is_written(trace, options.trace));
    if (options.measures) {
        print_pauses(stderr);
        print_heap_totals(stderr);
    }
    close_heap();
    if (trace != NULL)
        fclose(trace);
    return outcome != FAILED && are_written ? 0 : 1;
}
