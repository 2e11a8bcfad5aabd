/* When a collector's thread begins, that it sleeps while nothing is due, and that a program which allocates as fast as it can waits for it and never finds
   the heap full, unless its live objects fill it, also if it reserves room for objects of any size. */
#define _POSIX_C_SOURCE 200809L
#include "expect.h"
#include "gcflip_thread.h"
#include <stdbool.h>
#include <time.h>

enum { NEWEST = 0, LIST = 1, NUMBER = 2, READ = 3 };

static gcflip_thread *thread;
static gcflip_mutator *mutator;
static gcflip_thread_counts counts;

static void open_with(uint32_t size, uint32_t factor, uint32_t least)
{
    gcflip_pace pace = gcflip_pace_default();

    pace.factor = factor;
    pace.least = least;
    EXPECT(gcflip_thread_open(&thread, size, 0, &pace) == GCFLIP_DONE);
    mutator = gcflip_thread_mutator(thread);
}

static void sleeps(long milliseconds)
{
    struct timespec time = {0, milliseconds * 1000000};

    nanosleep(&time, NULL);
}

/* Makes garbage: objects of this many words, each with a safepoint. */
static void make_garbage(uint32_t objects, uint32_t words)
{
    for (uint32_t k = 0; k < objects; k++) {
        EXPECT(gcflip_beside_new(mutator, NEWEST, 1, words - 2) == GCFLIP_MADE);
        EXPECT(gcflip_thread_safepoint(thread) == GCFLIP_DONE);
    }
}

/* Puts objects of 4 words in front of the list. Each has its number in field 1. Returns how many were made before the heap was full. */
static uint32_t lengthen(uint32_t objects)
{
    for (uint32_t k = 0; k < objects; k++) {
        if (gcflip_beside_new(mutator, NEWEST, 2, 2) == GCFLIP_FULL)
            return k;
        EXPECT(gcflip_beside_set_number(mutator, NUMBER, k) == GCFLIP_DONE);
        EXPECT(gcflip_beside_put(mutator, NEWEST, 0, LIST) == GCFLIP_DONE);
        EXPECT(gcflip_beside_put(mutator, NEWEST, 1, NUMBER) == GCFLIP_DONE);
        EXPECT(gcflip_beside_copy(mutator, LIST, NEWEST) == GCFLIP_DONE);
        EXPECT(gcflip_thread_safepoint(thread) == GCFLIP_DONE);
    }
    return objects;
}

static void expect_list(uint32_t objects)
{
    uint64_t number;

    EXPECT(gcflip_beside_copy(mutator, READ, LIST) == GCFLIP_DONE);
    for (uint32_t k = objects; k-- > 0;) {
        EXPECT(gcflip_beside_get(mutator, NUMBER, READ, 1, &number) == GCFLIP_NUMBER && number == k);
        EXPECT(gcflip_beside_get(mutator, READ, READ, 0, &number) == (k == 0 ? GCFLIP_NIL : GCFLIP_OBJECT));
    }
}

/* No collection is under way: the mutator is not stopped. */
static void expect_rest(uint64_t flips)
{
    sleeps(20);
    EXPECT(gcflip_thread_safepoint(thread) == GCFLIP_DONE);
    gcflip_thread_read(thread, &counts);
    EXPECT(counts.flips == flips && counts.failed == 0 && counts.throttled == 0 && counts.stops == counts.flips);
}

/* A call that reserves nothing is a safepoint too. */
static uint32_t safepoint_by_reserve(gcflip_thread *stopped)
{
    return gcflip_thread_reserve(stopped, 0);
}

/* A collection is under way, and flips while the program makes safepoints by this call. */
static void expect_flip_by(uint32_t (*safepoint)(gcflip_thread *), uint64_t flips)
{
    for (int k = 0; k < 10000; k++) {
        EXPECT(safepoint(thread) == GCFLIP_DONE);
        gcflip_thread_read(thread, &counts);
        if (counts.flips == flips)
            return;
        sleeps(1);
    }
    EXPECT(false);
}

static void expect_flip(uint64_t flips)
{
    expect_flip_by(gcflip_thread_safepoint, flips);
}

/* In a heap of 1,000 words half of the room is used up at word 500, which comes before `least`. Word 0 is always in use. An object takes 2 words at least.
   Nothing is allocated during the first collection. So the next one begins once an eighth of the heap is left, at word 875. */
static void begins_halfway(void)
{
    open_with(1000, 200, 65536);
    make_garbage(62, 8);
    make_garbage(1, 2);
    EXPECT(1000 - gcflip_beside_room(mutator) == 499);
    expect_rest(0);
    make_garbage(1, 2);
    expect_flip(1);
    EXPECT(1000 - gcflip_beside_room(mutator) == 3);
    make_garbage(108, 8);
    make_garbage(1, 7);
    EXPECT(1000 - gcflip_beside_room(mutator) == 874);
    expect_rest(1);
    make_garbage(1, 2);
    expect_flip(2);
    gcflip_thread_close(thread);
}

/* After a flip that left 401 words in use, a factor of 300 begins at 1,203 words. */
static void begins_by_factor(void)
{
    open_with(1 << 16, 300, 0);
    EXPECT(gcflip_beside_new(mutator, NEWEST, 2, 398) == GCFLIP_MADE);
    EXPECT(gcflip_thread_collect(thread) == GCFLIP_FLIPPED);
    EXPECT((1 << 16) - gcflip_beside_room(mutator) == 401);
    EXPECT(gcflip_beside_copy(mutator, LIST, NEWEST) == GCFLIP_DONE);
    make_garbage(200, 4);
    EXPECT((1 << 16) - gcflip_beside_room(mutator) == 1201);
    expect_rest(1);
    make_garbage(1, 2);
    expect_flip(2);
    gcflip_thread_close(thread);
}

/* Below `least` no collection begins. */
static void begins_at_least(void)
{
    open_with(1 << 16, 100, 1001);
    make_garbage(124, 8);
    EXPECT((1 << 16) - gcflip_beside_room(mutator) == 993);
    expect_rest(0);
    make_garbage(1, 8);
    expect_flip(1);
    gcflip_thread_close(thread);
}

static double processor_time(void)
{
    struct timespec time;

    clock_gettime(CLOCK_PROCESS_CPUTIME_ID, &time);
    return (double)time.tv_sec + (double)time.tv_nsec / 1e9;
}

/* The collector sleeps while nothing is due, and while the mutator that it asks makes no safepoint. */
static void sleeps_while_idle(void)
{
    double begun;

    open_with(1 << 16, 100, 1001);
    for (int asked = 0; asked < 2; asked++) {
        if (asked)
            make_garbage(126, 8);
        sleeps(10);
        begun = processor_time();
        sleeps(300);
        EXPECT(processor_time() - begun < 0.1);
    }
    gcflip_thread_close(thread);
}

/* By ThreadSanitizer the program is slower than the collector, whose archive has no such checks, so that it need not wait for it. */
#ifdef __SANITIZE_THREAD__
enum { IS_SLOW = 1 };
#else
enum { IS_SLOW = 0 };
#endif

/* Allocates as fast as it can. So many of the heap's 64ths are live, in a list. */
static void never_full(uint32_t live)
{
    uint32_t size = 1 << 18, objects = size / 64 * live / 4;

    open_with(size, 200, 65536);
    EXPECT(lengthen(objects) == objects);
    for (uint32_t k = 0; k < 300000; k++) {
        EXPECT(gcflip_beside_new(mutator, NEWEST, 1, 2) == GCFLIP_MADE);
        EXPECT(gcflip_beside_put(mutator, NEWEST, 0, LIST) == GCFLIP_DONE);
        EXPECT(gcflip_thread_safepoint(thread) == GCFLIP_DONE);
    }
    expect_list(objects);
    gcflip_thread_read(thread, &counts);
    EXPECT(counts.flips > 3 && counts.failed == 0);
    EXPECT(live < 48 || IS_SLOW || counts.throttled > 0);
    EXPECT(counts.longest_wait > 0 && counts.longest_wait <= counts.waited);
    gcflip_thread_close(thread);
}

/* Live objects fill the heap: then it is full, also after a flip. Once half of them die, the program goes on. */
static void full(void)
{
    uint64_t number;
    uint32_t made;

    open_with(1 << 12, 200, 65536);
    made = lengthen(1 << 12);
    EXPECT(made < (1 << 12) / 4 && made > (1 << 12) / 4 - 8);
    EXPECT(gcflip_thread_collect(thread) == GCFLIP_FLIPPED);
    EXPECT(gcflip_beside_new(mutator, NEWEST, 2, (1 << 12) - 4 * made) == GCFLIP_FULL);
    expect_list(made);
    for (uint32_t k = 0; k < made / 2; k++)
        EXPECT(gcflip_beside_get(mutator, LIST, LIST, 0, &number) == GCFLIP_OBJECT);
    EXPECT(gcflip_beside_set_nil(mutator, NEWEST) == GCFLIP_DONE);
    EXPECT(gcflip_thread_collect(thread) == GCFLIP_FLIPPED);
    EXPECT(gcflip_thread_collect(thread) == GCFLIP_FLIPPED);
    make_garbage(3000, 4);
    expect_list(made - made / 2);
    gcflip_thread_close(thread);
}

/* Each third flip checks both spaces whole. A record of options of another size, or a heap that open refuses, is refused. */
static void checks_whole(void)
{
    gcflip_beside_options options = gcflip_beside_options_default(1 << 12);
    gcflip_pace pace = gcflip_pace_default();
    gcflip_flip_checks checks;

    options.extra_roots = 1;
    options.whole_each = 3;
    for (uint32_t wrong = 0; wrong < 4; wrong++) {
        gcflip_beside_options refused = options;

        refused.bytes -= wrong == 0;
        refused.bytes += wrong == 1;
        refused.size = wrong == 2 ? 0 : refused.size;
        refused.extra_roots = wrong == 3 ? 1048577 : refused.extra_roots;
        EXPECT(gcflip_thread_open_with(&thread, &refused, &pace) == GCFLIP_OUT_OF_RANGE && !thread);
    }
    EXPECT(gcflip_thread_open_with(&thread, &options, &pace) == GCFLIP_DONE);
    mutator = gcflip_thread_mutator(thread);
    EXPECT(gcflip_beside_roots(mutator) == GCFLIP_BESIDE_ROOTS + 1);
    EXPECT(lengthen(100) == 100);
    for (uint64_t flips = 0; flips < 10; flips++) {
        gcflip_thread_flip_checks(thread, &checks);
        EXPECT(checks.along == flips - flips / 3 && checks.whole == flips / 3);
        EXPECT(gcflip_thread_collect(thread) == GCFLIP_FLIPPED);
        expect_list(100);
    }
    gcflip_thread_close(thread);
}

/* Makes garbage, without a safepoint, until at most so many words are free. */
static void fill(uint32_t left)
{
    EXPECT(gcflip_beside_set_nil(mutator, NEWEST) == GCFLIP_DONE);
    while (gcflip_beside_room(mutator) > left)
        EXPECT(gcflip_beside_new(mutator, NEWEST, 1, 0) == GCFLIP_MADE);
    EXPECT(gcflip_beside_set_nil(mutator, NEWEST) == GCFLIP_DONE);
}

/* Where enough words are free, nothing is collected. Where garbage takes them, it goes, and what is live stays. */
static void reserves_what_garbage_takes(void)
{
    uint32_t size = 1 << 14, free_words = size - 1 - 4 * 100;

    open_with(size, 10000, size);
    EXPECT(lengthen(100) == 100);
    EXPECT(gcflip_beside_room(mutator) == free_words);
    EXPECT(gcflip_thread_reserve(thread, 0) == GCFLIP_DONE && gcflip_thread_reserve(thread, free_words) == GCFLIP_DONE);
    gcflip_thread_read(thread, &counts);
    EXPECT(counts.flips == 0 && counts.throttled == 0);
    for (uint64_t flips = 1; flips < 5; flips++) {
        fill(1);
        EXPECT(gcflip_thread_reserve(thread, free_words) == GCFLIP_DONE && gcflip_beside_room(mutator) == free_words);
        gcflip_thread_read(thread, &counts);
        EXPECT(counts.flips >= flips && counts.throttled >= flips && counts.longest_wait > 0);
        EXPECT(gcflip_beside_new(mutator, NEWEST, 1, free_words - 2) == GCFLIP_MADE);
        expect_list(100);
    }
    gcflip_thread_close(thread);
}

/* A collection that is under way may have copied what dies before the call. So another one follows, and then all words are free. It begins where half of
   the room is used up. */
static void reserves_what_dies_meanwhile(void)
{
    uint32_t size = 1 << 18;

    for (int round = 0; round < 10; round++) {
        open_with(size, 10000, size);
        EXPECT(lengthen(size / 16) == size / 16);
        fill(size / 2 - 2);
        do {
            EXPECT(gcflip_thread_safepoint(thread) == GCFLIP_DONE);
            gcflip_thread_read(thread, &counts);
        } while (counts.stops == 0);
        EXPECT(gcflip_beside_clear(mutator, 0, GCFLIP_BESIDE_ROOTS) == GCFLIP_DONE);
        EXPECT(gcflip_thread_reserve(thread, size - 1) == GCFLIP_DONE && gcflip_beside_room(mutator) == size - 1);
        gcflip_thread_close(thread);
    }
}

/* Live objects leave too few words: the heap is full, after a collection, and as it was. */
static void reserves_no_more_than_there_is(void)
{
    uint32_t size = 1 << 12, made, free_words;
    uint64_t flips;

    open_with(size, 200, 65536);
    made = lengthen(size);
    free_words = size - 1 - 4 * made;
    EXPECT(gcflip_beside_set_nil(mutator, NEWEST) == GCFLIP_DONE);
    for (int round = 0; round < 3; round++) {
        gcflip_thread_read(thread, &counts);
        flips = counts.flips;
        EXPECT(gcflip_thread_reserve(thread, round == 0 ? free_words + 1 : round == 1 ? size : UINT32_MAX) == GCFLIP_FULL);
        gcflip_thread_read(thread, &counts);
        EXPECT(counts.flips > flips && counts.failed == 0 && gcflip_beside_room(mutator) == free_words);
        EXPECT(gcflip_thread_reserve(thread, free_words) == GCFLIP_DONE);
        expect_list(made);
    }
    gcflip_thread_close(thread);
}

/* In the function that is called after a flip no collection comes, so that there is room or there is none. */
static void reserves_at_once(void *argument)
{
    uint32_t free_words = gcflip_beside_room(mutator);

    EXPECT(gcflip_thread_reserve(thread, free_words) == GCFLIP_DONE && gcflip_thread_reserve(thread, free_words + 1) == GCFLIP_FULL);
    EXPECT(gcflip_beside_room(mutator) == free_words);
    ++*(int *)argument;
}

/* A program whose safepoints all reserve is stopped, and its collections begin and flip. */
static void reserves_at_safepoints(void)
{
    open_with(1000, 200, 65536);
    for (uint64_t flips = 1; flips < 4; flips++) {
        fill(100);
        expect_flip_by(safepoint_by_reserve, flips);
    }
    gcflip_thread_close(thread);
}

static void reserves_within_a_flip(void)
{
    int calls = 0;

    open_with(1 << 12, 200, 65536);
    gcflip_thread_on_flip(thread, reserves_at_once, &calls);
    EXPECT(gcflip_thread_collect(thread) == GCFLIP_FLIPPED && calls == 1);
    gcflip_thread_close(thread);
}

int main(void)
{
    checks_whole();
    begins_halfway();
    begins_by_factor();
    begins_at_least();
    sleeps_while_idle();
    never_full(0);
    never_full(16);
    never_full(32);
    never_full(48);
    full();
    reserves_what_garbage_takes();
    reserves_what_dies_meanwhile();
    reserves_no_more_than_there_is();
    reserves_at_safepoints();
    reserves_within_a_flip();
    return 0;
}
