/* The times of calls on the heap: a histogram of all calls, the longest call of each kind, and the minimum mutator utilisation, which is the
 * least share of any window of time that was left to the program. Calls below a microsecond do not count against it. */
#ifndef PAUSES_H
#define PAUSES_H

#include <stdbool.h>
#include <stddef.h>
#include <stdint.h>
#include <stdio.h>

/* The times of the calls of one function. */
struct call_times {
    const char *name;
    uint64_t calls;
    uint64_t longest; /* nanoseconds */
    uint32_t flipped; /* the pairs of the flip that the longest call made, or 0 */
    struct call_times *next;
};

/* Starts the measurement of calls. */
void measure_pauses(void);

void begin_pause(void);

/* Counts a call, which made a flip of this many pairs, or none. */
void end_pause(struct call_times *times, uint32_t flipped);

/* Makes a call on the heap, and measures its time. */
#define TIME_CALL(answer, call, ...)                             \
    do {                                                         \
        static struct call_times times = {#call, 0, 0, 0, NULL}; \
        begin_pause();                                           \
        (answer) = call(__VA_ARGS__);                            \
        end_pause(&times, 0);                                    \
    } while (0)

void print_pauses(FILE *file);

#endif
