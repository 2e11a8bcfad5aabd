/* A heap whose roots are named by their places, and what a refused call on it leaves alone. The program that includes this has defined MUTATORS and EXTRA: the
 * numbers of the heap's mutators and of its extra roots. */
#ifndef BY_PLACES_H
#define BY_PLACES_H

#include "one_heap.h"
#include <string.h>

enum { SLOTS = 16 + 16 * MUTATORS, PLACES = SLOTS + EXTRA };

/* Numbers that are no places. */
static const uint32_t beyond[] = {PLACES, PLACES + 1, 256, 65536, 1u << 31, UINT32_MAX};

static void open_heap(uint32_t size, uint8_t checking)
{
    open_heap_with(size, MUTATORS, EXTRA, checking);
}

struct picture {
    uint64_t words[64], roots[PLACES];
    size_t logged[MUTATORS];
};

static void draw(struct picture *picture)
{
    memset(picture, 0, sizeof *picture);
    EXPECT(gcflip_heap_counts(&heap, &counts) == GCFLIP_DONE);
    EXPECT(gcflip_heap_image(&heap, picture->words, counts.end, picture->roots, PLACES) == GCFLIP_DONE);
    for (uint8_t m = 0; m < MUTATORS; m++)
        EXPECT(gcflip_heap_log_length(&heap, m, &picture->logged[m]) == GCFLIP_DONE);
}

/* Makes calls that are refused, those of the first kind for each number beyond the places. They change nothing, whether a collection is open or not. */
static void expect_unchanged(void (*refused_places)(uint32_t), void (*refused_numbers)(void))
{
    static struct picture before, after;
    for (int is_open = 0; is_open < 2; is_open++) {
        draw(&before);
        for (size_t k = 0; k < COUNT(beyond); k++)
            refused_places(beyond[k]);
        refused_numbers();
        draw(&after);
        EXPECT(memcmp(&before, &after, sizeof before) == 0);
        if (!is_open)
            EXPECT(gcflip_heap_step_begin(&heap) == GCFLIP_BEGUN);
    }
}

#endif
