/* A program with a collector's thread: it keeps 64 trees, makes them anew one after the other, and prints how long it ever waited at a safepoint.

   beside [TURNS]. Each turn makes a tree of 255 objects, which takes 1,020 words; the tree that it replaces becomes garbage. */
#include "gcflip_thread.h"

#include <inttypes.h>
#include <stdio.h>
#include <stdlib.h>

/* 64 trees take 65,280 words, and the row that has them 66, so a quarter of the heap is live. */
enum { WORDS = 1 << 18, TREES = 64, DEPTH = 7, KIND_ROW = 1, KIND_NODE = 2 };

/* The roots of the program: the row of trees, a number that is read, and one that is written. From STACK on each level of a tree has one. */
enum { ROW, READ, NUMBER, STACK };

static gcflip_thread *thread;
static gcflip_mutator *mutator;

static void fail(const char *call, uint32_t answer)
{
    fprintf(stderr, "%s: %" PRIu32 ": %s\n", call, answer, gcflip_answer_text(answer));
    exit(1);
}

static void expect(const char *call, uint32_t answer, uint32_t wanted)
{
    if (answer != wanted) {
        fail(call, answer);
    }
}

/* Makes an object. It has two words more than fields, for which the program waits if they are not free. This is a safepoint. */
static void make(uint32_t d, uint32_t kind, uint32_t count)
{
    expect("reserve", gcflip_thread_reserve(thread, count + 2), GCFLIP_DONE);
    expect("new", gcflip_beside_new(mutator, d, kind, count), GCFLIP_MADE);
}

/* Makes a tree of this depth in the root of its level. */
static void make_tree(uint32_t depth)
{
    uint32_t here = STACK + depth;

    make(here, KIND_NODE, 2);
    if (depth == 0) {
        expect("put", gcflip_beside_put(mutator, here, 0, NUMBER), GCFLIP_DONE);
        return;
    }
    for (uint32_t side = 0; side < 2; side++) {
        make_tree(depth - 1);
        expect("put", gcflip_beside_put(mutator, here, side, here - 1), GCFLIP_DONE);
    }
}

/* Returns the sum of the numbers in the leaves of the tree in the root of this level. */
static uint64_t sum(uint32_t depth)
{
    uint32_t here = STACK + depth;
    uint64_t number = 0, together = 0;

    if (depth == 0) {
        expect("get", gcflip_beside_get(mutator, READ, here, 0, &number), GCFLIP_NUMBER);
        return number;
    }
    for (uint32_t side = 0; side < 2; side++) {
        expect("get", gcflip_beside_get(mutator, here - 1, here, side, &number), GCFLIP_OBJECT);
        together += sum(depth - 1);
    }
    return together;
}

int main(int count, char **words)
{
    uint64_t turns = count > 1 ? strtoull(words[1], NULL, 10) : 20000, wanted = 0, found = 0, number;
    gcflip_thread_counts counts;
    gcflip_pace pace = gcflip_pace_default();

    expect("open", gcflip_thread_open(&thread, WORDS, 0, &pace), GCFLIP_DONE);
    mutator = gcflip_thread_mutator(thread);
    make(ROW, KIND_ROW, TREES);
    for (uint64_t turn = 0; turn < turns; turn++) {
        expect("set_number", gcflip_beside_set_number(mutator, NUMBER, turn), GCFLIP_DONE);
        make_tree(DEPTH);
        expect("put", gcflip_beside_put(mutator, ROW, (uint32_t)(turn % TREES), STACK + DEPTH), GCFLIP_DONE);
    }
    for (uint64_t k = 0; k < TREES && k < turns; k++) {
        expect("get", gcflip_beside_get(mutator, STACK + DEPTH, ROW, (uint32_t)k, &number), GCFLIP_OBJECT);
        found += sum(DEPTH);
        wanted += (turns - 1 - (turns - 1 - k) % TREES) << DEPTH;
    }
    gcflip_thread_read(thread, &counts);
    gcflip_thread_close(thread);
    printf("trees: %" PRIu64 ", sum of the last ones: %" PRIu64 "\n", turns, found);
    printf("flips: %" PRIu64 ", stops: %" PRIu64 "\n", counts.flips, counts.stops);
    printf("waited at safepoints: %.3f ms, longest wait: %.3f ms\n", (double)counts.waited / 1e6, (double)counts.longest_wait / 1e6);
    return found == wanted ? 0 : 1;
}
