/* How often a collector's thread stops the mutator for one flip: once to copy the objects of all roots, and once more to flip, however many roots there are.
   What the roots reach takes more steps than the collector performs while it holds the mutator. A mutator that writes meanwhile stops more often, for its log. */
#include "expect.h"
#include "gcflip_thread.h"
#include <stdbool.h>

enum { WORDS = 1 << 18, LISTED = 20000, MOST_EXTRA = 1000, NUMBER = 0, LIST = 1, FIRST = 2 };

static gcflip_thread *thread;
static gcflip_mutator *mutator;

/* A list of LISTED objects in root LIST, and an object of its own in each root from FIRST on, whose second field is the place. */
static void make_objects(uint32_t roots, bool raw)
{
    for (uint32_t k = 0; k < LISTED; k++) {
        EXPECT(gcflip_beside_new(mutator, FIRST, 1, 1) == GCFLIP_MADE);
        EXPECT(gcflip_beside_put(mutator, FIRST, 0, LIST) == GCFLIP_DONE);
        EXPECT(gcflip_beside_copy(mutator, LIST, FIRST) == GCFLIP_DONE);
    }
    for (uint32_t k = FIRST; k < roots; k++) {
        EXPECT((raw ? gcflip_beside_new_raw : gcflip_beside_new)(mutator, k, 1, 2) == GCFLIP_MADE);
        EXPECT(gcflip_beside_set_number(mutator, NUMBER, k) == GCFLIP_DONE);
        EXPECT(gcflip_beside_put(mutator, k, 1, NUMBER) == GCFLIP_DONE);
    }
}

static void expect_objects(uint32_t roots)
{
    uint64_t number = 0;

    EXPECT(gcflip_beside_room(mutator) == WORDS - 1 - 3 * LISTED - 4 * (roots - FIRST));
    for (uint32_t k = FIRST; k < roots; k++)
        EXPECT(gcflip_beside_get(mutator, NUMBER, k, 1, &number) == GCFLIP_NUMBER && number == k);
}

static void few_stops(uint32_t extra_roots, bool raw)
{
    uint32_t roots = GCFLIP_BESIDE_ROOTS + extra_roots;
    gcflip_thread_counts counts;
    gcflip_pace pace = gcflip_pace_default();

    EXPECT(gcflip_thread_open(&thread, WORDS, extra_roots, &pace) == GCFLIP_DONE);
    mutator = gcflip_thread_mutator(thread);
    EXPECT(gcflip_beside_roots(mutator) == roots);
    make_objects(roots, raw);
    for (uint64_t flip = 1; flip <= 3; flip++) {
        EXPECT(gcflip_thread_collect(thread) == GCFLIP_FLIPPED);
        gcflip_thread_read(thread, &counts);
        EXPECT(counts.flips == flip && counts.failed == 0);
        EXPECT(counts.most_stops == 2 && counts.stops == 2 * flip);
        expect_objects(roots);
    }
    gcflip_thread_close(thread);
}

/* What is copied in few steps is copied at the first stop. */
static void one_stop(void)
{
    gcflip_thread_counts counts;
    gcflip_pace pace = gcflip_pace_default();

    EXPECT(gcflip_thread_open(&thread, WORDS, MOST_EXTRA, &pace) == GCFLIP_DONE);
    mutator = gcflip_thread_mutator(thread);
    EXPECT(gcflip_beside_new(mutator, GCFLIP_BESIDE_ROOTS + MOST_EXTRA - 1, 1, 2) == GCFLIP_MADE);
    EXPECT(gcflip_thread_collect(thread) == GCFLIP_FLIPPED);
    gcflip_thread_read(thread, &counts);
    EXPECT(counts.flips == 1 && counts.most_stops == 1 && counts.stops == 1);
    gcflip_thread_close(thread);
}

/* The flips after which a run has to have seen a stop for a log. Where both threads share a busy processor, the mutator writes little beside the collector. */
enum { FLIPS = 10, MOST_FLIPS = 1000 };

/* A mutator that goes on to write while its heap is copied stops for its log too, and each collection ends all the same. */
static void stops_for_logs(void)
{
    gcflip_thread_counts counts = {0};
    gcflip_pace pace = gcflip_pace_default();

    pace.factor = 100;
    pace.least = 0;
    EXPECT(gcflip_thread_open(&thread, WORDS, 0, &pace) == GCFLIP_DONE);
    mutator = gcflip_thread_mutator(thread);
    make_objects(FIRST, false);
    EXPECT(gcflip_beside_copy(mutator, FIRST, LIST) == GCFLIP_DONE);
    while (counts.flips < FLIPS || (counts.most_stops <= 2 && counts.flips < MOST_FLIPS)) {
        for (uint32_t k = 0; k < 1000; k++) {
            EXPECT(gcflip_beside_get(mutator, NUMBER, LIST, 0, &(uint64_t){0}) >= GCFLIP_NIL);
            EXPECT(gcflip_beside_put(mutator, FIRST, 0, NUMBER) == GCFLIP_DONE);
            EXPECT(gcflip_thread_safepoint(thread) == GCFLIP_DONE);
        }
        gcflip_thread_read(thread, &counts);
    }
    EXPECT(counts.failed == 0 && counts.most_stops > 2);
    EXPECT(gcflip_thread_collect(thread) == GCFLIP_FLIPPED);
    expect_objects(FIRST);
    gcflip_thread_close(thread);
}

/* A heap is closed at any point of a collection, and its thread ends. */
static void closes_anywhere(void)
{
    gcflip_pace pace = gcflip_pace_default();

    pace.factor = 100;
    pace.least = 0;
    for (uint32_t writes = 0; writes < 300; writes++) {
        EXPECT(gcflip_thread_open(&thread, 1 << 14, 0, &pace) == GCFLIP_DONE);
        mutator = gcflip_thread_mutator(thread);
        EXPECT(gcflip_beside_new(mutator, LIST, 1, 1000) == GCFLIP_MADE);
        for (uint32_t k = 0; k < 7 * writes; k++) {
            EXPECT(gcflip_beside_put(mutator, LIST, k % 1000, LIST) == GCFLIP_DONE);
            EXPECT(gcflip_thread_safepoint(thread) == GCFLIP_DONE);
        }
        gcflip_thread_close(thread);
    }
}

int main(void)
{
    few_stops(0, false);
    few_stops(0, true);
    few_stops(MOST_EXTRA, false);
    few_stops(MOST_EXTRA, true);
    one_stop();
    stops_for_logs();
    closes_anywhere();
    return 0;
}
