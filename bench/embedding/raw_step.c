/* Measures the step that copies the longest raw object: raw_step [STEPS]
 *
 * A collection copies a raw object of 65,535 fields in one step, and the standing checker compares it. Does so STEPS times, 300 by default, and copies and
 * compares as many bytes as often by memcpy and memcmp. Prints the least time of each. */
#include <string.h>

#include "timed_calls.h"

enum { FIELDS = 65535, WORDS = FIELDS + 2, SIZE = 3 * WORDS, RAW = 16 };

static gcflip_heap heap = GCFLIP_NO_HEAP;

/* Begins a collection, and returns the microseconds of the step that copies the object. Flips afterwards. */
static double step(void)
{
    gcflip_work work = {0, 0, 0, 0, 0};
    double taken;
    must(gcflip_heap_step_begin(&heap), GCFLIP_BEGUN, "step_begin");
    taken = microseconds(CLOCK_MONOTONIC);
    must(gcflip_heap_work(&heap, 1, &work), GCFLIP_DONE, "work");
    taken = microseconds(CLOCK_MONOTONIC) - taken;
    must(work.last, GCFLIP_COPIED, "work");
    must(gcflip_heap_work(&heap, UINT32_MAX, &work), GCFLIP_DONE, "work");
    must(work.last, GCFLIP_FLIPPED, "work");
    return taken;
}

/* Returns the microseconds of a memcpy and a memcmp of as many bytes. */
static double copy(void)
{
    static char from[8 * WORDS], to[8 * WORDS];
    double taken;
    memset(from, 1, sizeof from);
    taken = microseconds(CLOCK_MONOTONIC);
    memcpy(to, from, sizeof to);
    must((uint32_t)memcmp(from, to, sizeof to), 0, "memcmp");
    return microseconds(CLOCK_MONOTONIC) - taken;
}

int main(int count, char **words)
{
    gcflip_options options = gcflip_options_default(SIZE, 1);
    int steps = count > 1 ? atoi(words[1]) : 300;
    double least_step = 1e30, least_copy = 1e30;
    must(gcflip_heap_open(&heap, &options), GCFLIP_DONE, "open");
    must(gcflip_heap_touch(&heap), GCFLIP_DONE, "touch");
    must(gcflip_new_raw(&heap, RAW, 1, FIELDS), GCFLIP_MADE, "new_raw");
    for (int i = 0; i < steps; i++) {
        double of_step = step(), of_copy = copy();
        least_step = of_step < least_step ? of_step : least_step;
        least_copy = of_copy < least_copy ? of_copy : least_copy;
    }
    must(gcflip_heap_close(&heap), GCFLIP_DONE, "close");
    printf("the step %.1f us, memcpy and memcmp %.1f us\n", least_step, least_copy);
    return 0;
}
