/* What the programs share that measure single calls of the heap: an answer that has to come, and a clock. */
#ifndef GCFLIP_TIMED_CALLS_H
#define GCFLIP_TIMED_CALLS_H

#include <stdio.h>
#include <stdlib.h>
#include <time.h>

#include "gcflip_heap.h"

/* Ends the program, unless the call gave the answer that is wanted. */
static void must(uint32_t answer, uint32_t wanted, const char *call)
{
    if (answer != wanted) {
        fprintf(stderr, "%s: %s\n", call, gcflip_answer_name(answer));
        exit(1);
    }
}

/* Returns the microseconds of this clock. */
static double microseconds(clockid_t clock)
{
    struct timespec now;
    clock_gettime(clock, &now);
    return now.tv_sec * 1e6 + now.tv_nsec / 1e3;
}

#endif
