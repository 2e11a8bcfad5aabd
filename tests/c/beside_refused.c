/* A collector's thread whose flip finds no memory: the program is told, keeps its objects, and a later flip succeeds. Each allocation of a whole run is refused
   in turn, in either thread: nothing is lost. Links its own allocation functions, which both threads call. */
#define _POSIX_C_SOURCE 200809L
#include "expect.h"
#include "gcflip_thread.h"
#include <gcflip_allocator.h>
#include <stdbool.h>
#include <time.h>

enum { WORDS = 4096, EXTRA = 100, LAST = GCFLIP_BESIDE_ROOTS + EXTRA - 1 };

/* Blocks as large as half a space are refused alone, those that `prepare` makes and a flip does not. */
enum { LARGE = 4 * WORDS };

static _Atomic bool refuses, refuses_large;
static _Atomic long blocks;

/* Of each thread's requests, one is refused, or none. */
enum { COLLECTORS, PROGRAMS };

static _Thread_local int caller; /* the program's thread says so */
static _Atomic long requests[2], refused_one[2];
static _Atomic bool has_refused;

static bool is_refused(void)
{
    bool found = ++requests[caller] == refused_one[caller];

    has_refused = has_refused || found;
    return found || refuses;
}

static struct gcflip_memory memory_at(void *at)
{
    static char nowhere;
    struct gcflip_memory memory = {at != NULL, at ? at : &nowhere};
    return memory;
}

struct gcflip_memory rattle_alloc(size_t size, size_t alignment)
{
    void *at = is_refused() || (refuses_large && size >= LARGE) ? NULL : malloc(size ? size : alignment);
    blocks += at != NULL;
    return memory_at(at);
}

struct gcflip_memory rattle_realloc(void *old, size_t used, size_t size, size_t alignment)
{
    (void)used;
    return memory_at(is_refused() ? NULL : realloc(old, size ? size : alignment));
}

void rattle_dealloc(void *old)
{
    blocks -= 1;
    free(old);
}

static gcflip_thread *thread;

static void sleeps(long milliseconds)
{
    struct timespec time = {0, milliseconds * 1000000};

    nanosleep(&time, NULL);
}

static void expect_object(void)
{
    gcflip_mutator *mutator = gcflip_thread_mutator(thread);
    uint64_t number = 0;

    EXPECT(gcflip_beside_get(mutator, 2, LAST, 1, &number) == GCFLIP_NUMBER && number == 7);
}

static void opening(void)
{
    gcflip_thread *opened = thread;
    gcflip_pace pace = gcflip_pace_default();

    EXPECT(gcflip_thread_open(&opened, 0, 0, &pace) == GCFLIP_OUT_OF_RANGE && opened == NULL);
    EXPECT(gcflip_thread_open(&opened, WORDS, 1048577, &pace) == GCFLIP_OUT_OF_RANGE && opened == NULL);
    pace.factor = 99;
    EXPECT(gcflip_thread_open(&opened, WORDS, 0, &pace) == GCFLIP_OUT_OF_RANGE && opened == NULL);
    pace.factor = 10001;
    EXPECT(gcflip_thread_open(&opened, WORDS, 0, &pace) == GCFLIP_OUT_OF_RANGE && opened == NULL);
    pace.factor = 100;
    refuses = true;
    EXPECT(gcflip_thread_open(&opened, WORDS, EXTRA, &pace) == GCFLIP_NO_MEMORY && opened == NULL);
    refuses = false;
    EXPECT(blocks == 0);
}

/* Makes garbage until the heap is full, with a safepoint for each object. */
static void fill(void)
{
    gcflip_mutator *mutator = gcflip_thread_mutator(thread);

    while (gcflip_beside_new(mutator, 3, 1, 2) == GCFLIP_MADE)
        EXPECT(gcflip_thread_safepoint(thread) == GCFLIP_DONE);
}

/* The memory of the next flip cannot be made: a mutator that waits for the collector's steps is let go, and finds the heap full. */
static void lets_go_without_memory(void)
{
    gcflip_thread_counts counts;
    uint64_t failed;

    gcflip_thread_read(thread, &counts);
    failed = counts.failed;
    refuses_large = true;
    /* a flip whose memory was made before, if there is one, succeeds */
    gcflip_thread_collect(thread);
    fill();
    gcflip_thread_read(thread, &counts);
    EXPECT(counts.failed > failed);
    EXPECT(gcflip_thread_collect(thread) == GCFLIP_NO_MEMORY);
    refuses_large = false;
    expect_object();
    EXPECT(gcflip_thread_collect(thread) == GCFLIP_FLIPPED);
    expect_object();
}

/* A collection fails while the program makes no safepoint, and so does not see it. A call that waits for a flip begins another one, and comes back. */
static void fails_unseen(void)
{
    gcflip_mutator *mutator = gcflip_thread_mutator(thread);
    gcflip_thread_counts counts;
    uint64_t failed;

    for (int reserves = 0; reserves < 2; reserves++) {
        refuses_large = true;
        /* a flip whose memory was made before, if there is one, succeeds */
        gcflip_thread_collect(thread);
        gcflip_thread_read(thread, &counts);
        failed = counts.failed;
        while (gcflip_beside_new(mutator, 3, 1, 2) == GCFLIP_MADE)
            ;
        /* the collection is called for here, and fails */
        EXPECT(gcflip_thread_try_safepoint(thread) != GCFLIP_PARKED);
        do {
            sleeps(1);
            gcflip_thread_read(thread, &counts);
        } while (counts.failed == failed);
        EXPECT((reserves ? gcflip_thread_reserve(thread, WORDS / 2) : gcflip_thread_collect(thread)) == GCFLIP_NO_MEMORY);
        expect_object();
        refuses_large = false;
        EXPECT((reserves ? gcflip_thread_reserve(thread, WORDS / 2) : gcflip_thread_collect(thread)) == (reserves ? GCFLIP_DONE : GCFLIP_FLIPPED));
        EXPECT(gcflip_beside_room(mutator) >= WORDS / 2);
        expect_object();
    }
}

/* A flip for which memory runs out leaves what its collection has copied, and the next flip keeps it. So a call that reserves room waits for another one. */
static void reserves_after_a_failed_flip(void)
{
    gcflip_pace pace = gcflip_pace_default();
    gcflip_mutator *mutator;

    EXPECT(gcflip_thread_open(&thread, WORDS, 0, &pace) == GCFLIP_DONE);
    mutator = gcflip_thread_mutator(thread);
    EXPECT(gcflip_beside_new(mutator, 3, 1, 100) == GCFLIP_MADE);
    refuses = true;
    EXPECT(gcflip_thread_collect(thread) == GCFLIP_NO_MEMORY);
    refuses = false;
    EXPECT(gcflip_beside_set_nil(mutator, 3) == GCFLIP_DONE);
    EXPECT(gcflip_thread_reserve(thread, WORDS - 1) == GCFLIP_DONE && gcflip_beside_room(mutator) == WORDS - 1);
    gcflip_thread_close(thread);
    EXPECT(blocks == 0);
}

/* ---- Each allocation of a run refused in turn */

/* Copying a list of LISTED objects takes more steps than the collector performs at a stop. So the program goes on to write meanwhile, and its log grows. No
   collection begins before the list has its LISTED_WORDS, so that a slow machine makes no more requests in a run than a fast one. */
enum { SMALL = 1 << 14, LISTED = 1200, LISTED_WORDS = 4 * LISTED, LIST = 4, NEWEST = 5, NUMBER = 6, READ = 7 };

/* A run ends after FLIPS flips. It goes on, up to MOST_FLIPS, while the program has made no request: it then wrote nothing while the collector copied. */
enum { FLIPS = 4, MOST_FLIPS = 64 };

/* After so many writes the program sleeps, so that the collector's thread gets its turn on a busy machine and by valgrind. */
enum { WRITES = 256 };

/* Writes the value of root t into field i of the object in root s, which had `before`. If memory runs out for the log, that is still there, and the put
   succeeds when it is retried. */
static void put(gcflip_mutator *mutator, uint32_t s, uint32_t i, uint32_t t, uint32_t seen, uint64_t before)
{
    uint32_t answer = gcflip_beside_put(mutator, s, i, t);
    gcflip_view view = {0};

    if (answer == GCFLIP_NO_MEMORY) {
        EXPECT(has_refused);
        EXPECT(gcflip_beside_peek(mutator, s, i, &view) == seen && view.number == before);
        answer = gcflip_beside_put(mutator, s, i, t);
    }
    EXPECT(answer == GCFLIP_DONE);
}

/* Makes an object in root NEWEST. If the heap is full, a flip makes room, unless memory runs out for it, once. */
static void make(gcflip_mutator *mutator)
{
    while (gcflip_beside_new(mutator, NEWEST, 1, 2) == GCFLIP_FULL)
        EXPECT(gcflip_thread_collect(thread) == GCFLIP_FLIPPED || has_refused);
}

/* Makes the list. Each object has its number in field 1. */
static void make_list(gcflip_mutator *mutator)
{
    for (uint64_t k = 0; k < LISTED; k++) {
        make(mutator);
        EXPECT(gcflip_beside_set_number(mutator, NUMBER, k) == GCFLIP_DONE);
        put(mutator, NEWEST, 0, LIST, GCFLIP_NIL, 0);
        put(mutator, NEWEST, 1, NUMBER, GCFLIP_NIL, 0);
        EXPECT(gcflip_beside_copy(mutator, LIST, NEWEST) == GCFLIP_DONE);
        EXPECT(gcflip_thread_safepoint(thread) == GCFLIP_DONE);
    }
}

/* The list is as it was made, but for the first object, whose number is this one. */
static void expect_list(gcflip_mutator *mutator, uint64_t first)
{
    uint64_t number;

    EXPECT(gcflip_beside_copy(mutator, READ, LIST) == GCFLIP_DONE);
    for (uint64_t k = LISTED; k-- > 0;) {
        EXPECT(gcflip_beside_get(mutator, NUMBER, READ, 1, &number) == GCFLIP_NUMBER && number == (k == LISTED - 1 ? first : k));
        EXPECT(gcflip_beside_get(mutator, READ, READ, 0, &number) == (k == 0 ? GCFLIP_NIL : GCFLIP_OBJECT));
    }
}

/* Whether a run with so many flips ends. */
static bool has_run(uint64_t flips)
{
    return flips >= MOST_FLIPS || (flips >= FLIPS && requests[PROGRAMS] > 0);
}

/* Opens a heap whose collections follow one another, of which each second flip checks both spaces whole. Writes into the list and makes garbage until some
   of them have flipped. The request with this number is refused to this thread. Returns whether there was one. */
static bool runs_without(int refused, long request)
{
    gcflip_beside_options options = gcflip_beside_options_default(SMALL);
    gcflip_pace pace = gcflip_pace_default();
    gcflip_thread_counts counts = {0};
    gcflip_mutator *mutator;
    uint64_t written = LISTED - 1;
    uint32_t answer;

    options.whole_each = 2;
    pace.factor = 100;
    pace.least = LISTED_WORDS;
    has_refused = false;
    requests[COLLECTORS] = requests[PROGRAMS] = 0;
    refused_one[refused] = request;
    answer = gcflip_thread_open_with(&thread, &options, &pace);
    if (answer == GCFLIP_DONE) {
        mutator = gcflip_thread_mutator(thread);
        make_list(mutator);
        while (!has_run(counts.flips)) {
            EXPECT(gcflip_beside_set_number(mutator, NUMBER, written + 1) == GCFLIP_DONE);
            put(mutator, LIST, 1, NUMBER, GCFLIP_NUMBER, written);
            written++;
            if (written % 64 == 0)
                make(mutator);
            if (written % WRITES == 0)
                sleeps(1);
            EXPECT(gcflip_thread_safepoint(thread) == GCFLIP_DONE);
            gcflip_thread_read(thread, &counts);
        }
        EXPECT(counts.failed <= has_refused);
        expect_list(mutator, written);
        EXPECT(gcflip_thread_collect(thread) == GCFLIP_FLIPPED || (has_refused && gcflip_thread_collect(thread) == GCFLIP_FLIPPED));
        expect_list(mutator, written);
        gcflip_thread_close(thread);
    }
    EXPECT(answer == GCFLIP_DONE || (answer == GCFLIP_NO_MEMORY && has_refused && thread == NULL));
    refused_one[refused] = 0;
    EXPECT(blocks == 0);
    return has_refused;
}

/* How many requests a run makes depends on how the threads take turns, so several runs in a row have to make fewer. The collector's thread makes two for
   each flip at least: the moved roots, and the space of the next flip. */
static void refused_in_turn(void)
{
    for (int refused = COLLECTORS; refused <= PROGRAMS; refused++) {
        long found = 0;

        for (long request = 1, without = 0; without < 3; request++) {
            bool has_met = runs_without(refused, request);

            found += has_met;
            without = has_met ? 0 : without + 1;
        }
        EXPECT(found >= (refused == COLLECTORS ? 2 * FLIPS : 1));
    }
}

int main(void)
{
    gcflip_thread_counts counts;
    gcflip_mutator *mutator;
    gcflip_pace pace = gcflip_pace_default();

    caller = PROGRAMS;
    opening();
    EXPECT(gcflip_thread_open(&thread, WORDS, EXTRA, &pace) == GCFLIP_DONE);
    mutator = gcflip_thread_mutator(thread);
    EXPECT(gcflip_beside_new(mutator, LAST, 1, 2) == GCFLIP_MADE);
    EXPECT(gcflip_beside_set_number(mutator, 1, 7) == GCFLIP_DONE);
    EXPECT(gcflip_beside_put(mutator, LAST, 1, 1) == GCFLIP_DONE);
    EXPECT(gcflip_beside_new(mutator, 3, 1, 100) == GCFLIP_MADE);
    EXPECT(gcflip_beside_set_nil(mutator, 3) == GCFLIP_DONE);
    for (uint64_t k = 1; k <= 3; k++) {
        refuses = true;
        EXPECT(gcflip_thread_collect(thread) == GCFLIP_NO_MEMORY);
        refuses = false;
        gcflip_thread_read(thread, &counts);
        EXPECT(counts.flips == 0 && counts.failed == k);
        EXPECT(gcflip_beside_room(mutator) == WORDS - 1 - 4 - 102);
        expect_object();
        EXPECT(gcflip_thread_safepoint(thread) == GCFLIP_DONE);
    }
    EXPECT(gcflip_thread_collect(thread) == GCFLIP_FLIPPED);
    gcflip_thread_read(thread, &counts);
    EXPECT(counts.flips == 1 && counts.failed == 3 && counts.stops >= 4);
    EXPECT(counts.longest_wait > 0 && counts.longest_wait <= counts.waited);
    expect_object();
    /* the object that only root 3 had may have a replica, since the collection began with it */
    EXPECT(gcflip_thread_collect(thread) == GCFLIP_FLIPPED);
    EXPECT(gcflip_beside_room(mutator) == WORDS - 1 - 4);
    expect_object();
    lets_go_without_memory();
    fails_unseen();
    gcflip_thread_close(thread);
    EXPECT(blocks == 0);
    reserves_after_a_failed_flip();
    refused_in_turn();
    return 0;
}
