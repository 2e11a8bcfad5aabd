/* Measures a push and a pop of a frame, the same as copies by place, and those of a shadow stack: push_pop [TURNS]. Each turn pushes and pops VALUES
 * values. Prints the least processor time of all turns, for one push with its pop. A profiler can count the instructions of `on_frame`, `by_copies`,
 * `by_copies_alone` and `on_shadow_stack`. */
#include "gcflip_heap.h"
#include "shadow_stack.h"
#include <stdio.h>
#include <stdlib.h>
#include <time.h>

enum {
    VALUES = 100000,
    SLOT = 16, /* the place of the slot whose value is pushed, and which takes it back: mutator 0's first */
    STACK = 32 /* the place of the first extra root of a heap with one mutator */
};

static gcflip_heap heap = GCFLIP_NO_HEAP;
static gcflip_frame frame = {0, VALUES, 0, 0};
static uint64_t values[VALUES], value = 15;
static shadow_stack shadow = {values, VALUES, 0};

static __attribute__((noinline)) void on_frame(void)
{
    for (uint32_t k = 0; k < VALUES; k++)
        if (gcflip_heap_frame_push(&heap, 0, 0, &frame) != GCFLIP_DONE)
            abort();
    for (uint32_t k = 0; k < VALUES; k++)
        if (gcflip_heap_frame_pop(&heap, 0, 0, &frame) != GCFLIP_DONE)
            abort();
}

/* A pop that leaves its root nil, as a pop of a frame does. */
static __attribute__((noinline)) void by_copies(void)
{
    uint32_t top = 0;

    for (; top < VALUES; top++)
        if (gcflip_copy(&heap, STACK + top, SLOT) != GCFLIP_DONE)
            abort();
    for (; top > 0; top--)
        if (gcflip_copy(&heap, SLOT, STACK + top - 1) != GCFLIP_DONE || gcflip_set_nil(&heap, STACK + top - 1) != GCFLIP_DONE)
            abort();
}

/* A pop that leaves the value in its root, for a trim to clear. */
static __attribute__((noinline)) void by_copies_alone(void)
{
    uint32_t top = 0;

    for (; top < VALUES; top++)
        if (gcflip_copy(&heap, STACK + top, SLOT) != GCFLIP_DONE)
            abort();
    for (; top > 0; top--)
        if (gcflip_copy(&heap, SLOT, STACK + top - 1) != GCFLIP_DONE)
            abort();
}

static __attribute__((noinline)) void on_shadow_stack(void)
{
    for (uint32_t k = 0; k < VALUES; k++)
        if (!shadow_push(&shadow, &value))
            abort();
    for (uint32_t k = 0; k < VALUES; k++)
        if (!shadow_pop(&shadow, &value))
            abort();
}

/* Returns the nanoseconds of processor time that one push with its pop takes. */
static double took(void (*turn)(void))
{
    struct timespec start, end;
    clock_gettime(CLOCK_PROCESS_CPUTIME_ID, &start);
    turn();
    clock_gettime(CLOCK_PROCESS_CPUTIME_ID, &end);
    return ((double)(end.tv_sec - start.tv_sec) * 1e9 + (double)(end.tv_nsec - start.tv_nsec)) / VALUES;
}

static double least(void (*turn)(void), long turns)
{
    double least = took(turn);
    for (long k = 1; k < turns; k++) {
        double now = took(turn);
        least = now < least ? now : least;
    }
    return least;
}

int main(int count, char **words)
{
    long turns = count > 1 ? atol(words[1]) : 100;
    gcflip_options options = gcflip_options_default(64, 1);
    options.extra_roots = VALUES;
    if (gcflip_heap_open(&heap, &options) != GCFLIP_DONE || gcflip_heap_set_number(&heap, 0, 0, 7) != GCFLIP_DONE)
        return 1;
    printf("frame %.1f ns, ", least(on_frame, turns));
    printf("copies with a pop that clears %.1f ns, ", least(by_copies, turns));
    printf("copies alone %.1f ns, ", least(by_copies_alone, turns));
    printf("shadow stack %.1f ns\n", least(on_shadow_stack, turns));
    return gcflip_heap_close(&heap) != GCFLIP_DONE;
}
