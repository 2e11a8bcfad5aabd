/* A heap with a collector's thread that grows: where a call that reserves room finds too little, and at a flip after one that left more than half of it in use.
   It stops at the most words that it may have, and keeps its size and its objects where the system refuses a larger space. Links its own allocation functions,
   which both threads call. */
#define _POSIX_C_SOURCE 200809L
#include "expect.h"
#include "gcflip_thread.h"
#include <gcflip_allocator.h>
#include <stdbool.h>
#include <stdint.h>
#include <time.h>

/* The words of a heap at its opening, and those of an object of the list. Word 0 is always in use. */
enum { WORDS = 4096, CELL = 4, NEWEST = 0, LIST = 1, NUMBER = 2, READ = 3, KEPT = 4 };

/* ---- Allocation */

/* Larger blocks are refused. A space has a block of eight bytes for each word, and none that is larger. */
enum { BYTES = 8 };

static _Atomic size_t largest = SIZE_MAX;

/* The requests for blocks that only a space with more words than a heap at its opening needs. */
static _Atomic long large_requests;
static _Atomic long blocks, requests, refused_one;
static _Atomic bool has_refused;

static bool is_refused(size_t size)
{
    bool found = ++requests == refused_one;

    large_requests += size > BYTES * WORDS;
    has_refused = has_refused || found;
    return found || size > largest;
}

static struct gcflip_memory memory_at(void *at)
{
    static char nowhere;
    struct gcflip_memory memory = {at != NULL, at ? at : &nowhere};

    return memory;
}

struct gcflip_memory rattle_alloc(size_t size, size_t alignment)
{
    void *at = is_refused(size) ? NULL : malloc(size ? size : alignment);

    blocks += at != NULL;
    return memory_at(at);
}

struct gcflip_memory rattle_realloc(void *old, size_t used, size_t size, size_t alignment)
{
    (void)used;
    return memory_at(is_refused(size) ? NULL : realloc(old, size ? size : alignment));
}

void rattle_dealloc(void *old)
{
    blocks--;
    free(old);
}

/* ---- The heap */

static gcflip_thread *thread;
static gcflip_mutator *mutator;
static gcflip_thread_counts counts;
static uint32_t length; /* of the list */

static void sleeps(long milliseconds)
{
    struct timespec time = {0, milliseconds * 1000000};

    nanosleep(&time, NULL);
}

static void open_words(uint32_t size)
{
    gcflip_pace pace = gcflip_pace_default();

    EXPECT(gcflip_thread_open(&thread, size, 0, &pace) == GCFLIP_DONE);
    mutator = gcflip_thread_mutator(thread);
    length = 0;
    EXPECT(gcflip_thread_size(thread) == size);
}

static void close_heap(void)
{
    gcflip_thread_close(thread);
    EXPECT(blocks == 0);
}

static uint32_t in_use(void)
{
    return gcflip_thread_size(thread) - gcflip_beside_room(mutator);
}

/* Nothing has failed, and so many collections have flipped. */
static void expect_flips(uint64_t flips)
{
    gcflip_thread_read(thread, &counts);
    EXPECT(counts.flips == flips && counts.failed == 0);
}

static void collect(void)
{
    EXPECT(gcflip_thread_collect(thread) == GCFLIP_FLIPPED);
}

/* Writes the value of root t into field i of the newest object. If memory runs out for the log, the put succeeds when it is retried. */
static void put(uint32_t i, uint32_t t)
{
    uint32_t answer = gcflip_beside_put(mutator, NEWEST, i, t);

    if (answer == GCFLIP_NO_MEMORY) {
        EXPECT(has_refused);
        answer = gcflip_beside_put(mutator, NEWEST, i, t);
    }
    EXPECT(answer == GCFLIP_DONE);
}

/* Puts an object in front of the list, for which there is room. Its number is the length of the list behind it. */
static void lengthen(void)
{
    EXPECT(gcflip_beside_new(mutator, NEWEST, 2, CELL - 2) == GCFLIP_MADE);
    EXPECT(gcflip_beside_set_number(mutator, NUMBER, length) == GCFLIP_DONE);
    put(0, LIST);
    put(1, NUMBER);
    EXPECT(gcflip_beside_copy(mutator, LIST, NEWEST) == GCFLIP_DONE);
    EXPECT(gcflip_beside_set_nil(mutator, NEWEST) == GCFLIP_DONE);
    length++;
}

/* Lengthens the list by so many objects, and reserves the room for each. Returns false if the heap is full before. */
static bool lengthen_by(uint32_t objects)
{
    for (uint32_t k = 0; k < objects; k++) {
        uint32_t answer = gcflip_thread_reserve(thread, CELL);

        if (answer == GCFLIP_FULL)
            return false;
        EXPECT(answer == GCFLIP_DONE);
        lengthen();
    }
    return true;
}

static void expect_list(void)
{
    uint64_t number;

    EXPECT(gcflip_beside_copy(mutator, READ, LIST) == GCFLIP_DONE);
    for (uint32_t k = length; k-- > 0;) {
        EXPECT(gcflip_beside_get(mutator, NUMBER, READ, 1, &number) == GCFLIP_NUMBER && number == k);
        EXPECT(gcflip_beside_get(mutator, READ, READ, 0, &number) == (k == 0 ? GCFLIP_NIL : GCFLIP_OBJECT));
    }
}

/* The list fills the heap, whose size is this one. That is so for each call that reserves, and nothing is lost. */
static void expect_full(uint32_t size)
{
    uint32_t left;

    for (int round = 0; round < 3; round++) {
        EXPECT(gcflip_thread_reserve(thread, round == 2 ? UINT32_MAX : CELL) == GCFLIP_FULL);
        EXPECT(gcflip_thread_size(thread) == size && in_use() == 1 + CELL * length);
        left = gcflip_beside_room(mutator);
        EXPECT(left < CELL && gcflip_thread_reserve(thread, left) == GCFLIP_DONE);
        expect_list();
    }
    gcflip_thread_read(thread, &counts);
    EXPECT(counts.failed == 0);
}

/* Keeps an object alone, so that so many words are in use. */
static void use(uint32_t words)
{
    EXPECT(gcflip_beside_clear(mutator, 0, GCFLIP_BESIDE_ROOTS) == GCFLIP_DONE);
    EXPECT(gcflip_beside_new(mutator, KEPT, 1, words - 3) == GCFLIP_MADE);
    EXPECT(in_use() == words);
}

/* Makes garbage, with a safepoint for each object of so many words. */
static void make_garbage(uint32_t objects, uint32_t words)
{
    for (uint32_t k = 0; k < objects; k++) {
        EXPECT(gcflip_beside_new(mutator, READ, 1, words - 2) == GCFLIP_MADE);
        EXPECT(gcflip_beside_set_nil(mutator, READ) == GCFLIP_DONE);
        EXPECT(gcflip_thread_safepoint(thread) == GCFLIP_DONE);
    }
}

/* ---- Room that is reserved */

/* The size of the heap after the last flip, and how often it has grown. */
static struct {
    uint32_t last;
    uint32_t growths;
} sizes;

/* The heap keeps its size, or has twice as many words, and those that were reserved. In here it does not grow. */
static void follow(void *nothing)
{
    uint32_t size = gcflip_thread_size(thread), left = gcflip_beside_room(mutator);

    (void)nothing;
    EXPECT(size == sizes.last || size == 2 * sizes.last || size == 2 * sizes.last + CELL);
    EXPECT(left < size && gcflip_thread_reserve(thread, left) == GCFLIP_DONE && gcflip_thread_reserve(thread, left + 1) == GCFLIP_FULL);
    EXPECT(gcflip_thread_size(thread) == size && gcflip_beside_room(mutator) == left);
    sizes.growths += size != sizes.last;
    sizes.last = size;
}

/* A list that takes eight times the words of the heap at its opening never finds it full. */
static void outgrows_the_opening(void)
{
    open_words(WORDS);
    gcflip_thread_growing(thread, 64 * WORDS);
    sizes.last = WORDS;
    sizes.growths = 0;
    gcflip_thread_on_flip(thread, follow, NULL);
    EXPECT(lengthen_by(8 * WORDS / CELL));
    expect_list();
    EXPECT(sizes.growths >= 3 && gcflip_thread_size(thread) == sizes.last && sizes.last > 8 * WORDS && sizes.last <= 32 * WORDS);
    gcflip_thread_read(thread, &counts);
    EXPECT(counts.failed == 0 && counts.flips >= sizes.growths);
    collect();
    collect();
    EXPECT(in_use() == 1 + CELL * length);
    expect_list();
    close_heap();
}

/* The heap stops at the most words. Half of the list dies, and the program goes on. */
static void stops_at_most(uint32_t most)
{
    uint64_t number;
    uint32_t dead;

    open_words(WORDS);
    gcflip_thread_growing(thread, most);
    EXPECT(!lengthen_by(most));
    expect_full(most);
    for (dead = 0; dead < length / 2; dead++)
        EXPECT(gcflip_beside_get(mutator, LIST, LIST, 0, &number) == GCFLIP_OBJECT);
    length -= dead;
    EXPECT(gcflip_beside_set_nil(mutator, READ) == GCFLIP_DONE);
    EXPECT(gcflip_thread_reserve(thread, CELL * dead) == GCFLIP_DONE);
    for (uint32_t k = 0; k < most; k++) {
        EXPECT(gcflip_thread_reserve(thread, CELL) == GCFLIP_DONE);
        EXPECT(gcflip_beside_new(mutator, NEWEST, 1, CELL - 2) == GCFLIP_MADE);
    }
    EXPECT(gcflip_thread_size(thread) == most);
    expect_list();
    close_heap();
}

/* A heap that may not grow has its size for good, as one that was never allowed to. */
static void keeps_its_size(void)
{
    static const uint32_t mosts[] = {0, 1, WORDS - 1, WORDS};

    for (size_t k = 0; k <= COUNT(mosts); k++) {
        open_words(WORDS);
        if (k < COUNT(mosts))
            gcflip_thread_growing(thread, mosts[k]);
        EXPECT(!lengthen_by(WORDS));
        expect_full(WORDS);
        collect();
        EXPECT(gcflip_thread_size(thread) == WORDS);
        close_heap();
    }
}

/* The larger space has twice the words of the heap, and those that are reserved, or the most. One flip is enough. */
static void takes_so_many_words(void)
{
    open_words(WORDS);
    gcflip_thread_growing(thread, 100 * WORDS);
    EXPECT(gcflip_thread_reserve(thread, WORDS - 1) == GCFLIP_DONE);
    expect_flips(0);
    EXPECT(gcflip_thread_reserve(thread, 10 * WORDS) == GCFLIP_DONE);
    EXPECT(gcflip_thread_size(thread) == 12 * WORDS && in_use() == 1);
    expect_flips(1);
    EXPECT(gcflip_beside_new(mutator, LIST, 1, 10 * WORDS - 2) == GCFLIP_MADE);
    EXPECT(gcflip_thread_reserve(thread, 2 * WORDS) == GCFLIP_DONE && gcflip_thread_size(thread) == 26 * WORDS);
    expect_flips(3);
    EXPECT(gcflip_thread_reserve(thread, UINT32_MAX) == GCFLIP_FULL && gcflip_thread_size(thread) == 100 * WORDS);
    EXPECT(in_use() == 1 + 10 * WORDS);
    expect_flips(5);
    close_heap();
    open_words(WORDS);
    gcflip_thread_growing(thread, 3 * WORDS);
    EXPECT(gcflip_thread_reserve(thread, 3 * WORDS - 1) == GCFLIP_DONE && gcflip_thread_size(thread) == 3 * WORDS);
    expect_flips(1);
    EXPECT(gcflip_thread_reserve(thread, 3 * WORDS) == GCFLIP_FULL && gcflip_thread_size(thread) == 3 * WORDS);
    close_heap();
}

/* The collection that is under way keeps its space, and the next one takes a larger one. The first begins where half of the room is used up, at a safepoint. */
static void grows_after_one_under_way(void)
{
    open_words(WORDS);
    use(WORDS / 2 + 2);
    EXPECT(gcflip_thread_try_safepoint(thread) == GCFLIP_DONE || gcflip_thread_safepoint(thread) == GCFLIP_DONE);
    gcflip_thread_growing(thread, 64 * WORDS);
    EXPECT(gcflip_thread_reserve(thread, 2 * WORDS) == GCFLIP_DONE);
    EXPECT(gcflip_thread_size(thread) == 4 * WORDS && in_use() == WORDS / 2 + 2);
    gcflip_thread_read(thread, &counts);
    EXPECT(counts.flips == 2 && counts.failed == 0);
    close_heap();
}

/* A program that collects where it finds the heap full goes on too: a flip that leaves it full lets the next one take a larger space. */
static void grows_where_it_is_full(void)
{
    open_words(WORDS);
    gcflip_thread_growing(thread, 64 * WORDS);
    for (uint32_t k = 0; k < 8 * WORDS / CELL; k++) {
        for (int tries = 0; gcflip_beside_room(mutator) < CELL; tries++) {
            EXPECT(tries < 2);
            collect();
        }
        lengthen();
    }
    expect_list();
    EXPECT(gcflip_thread_size(thread) > 8 * WORDS && gcflip_thread_size(thread) <= 32 * WORDS);
    close_heap();
}

/* Fills a heap that has fewer words than this with one object, which lives on. */
enum { FILLED = 8 * WORDS };

static void fill(void *nothing)
{
    (void)nothing;
    if (gcflip_thread_size(thread) < FILLED)
        EXPECT(gcflip_beside_new(mutator, READ, 1, gcflip_beside_room(mutator) - 2) == GCFLIP_MADE);
}

/* Where the program itself takes the room after the flip, the heap grows on, from 4,096 words by 3, 7 and 15 times as many. */
static void grows_on(void)
{
    open_words(WORDS);
    gcflip_thread_growing(thread, 64 * WORDS);
    gcflip_thread_on_flip(thread, fill, NULL);
    EXPECT(gcflip_thread_reserve(thread, WORDS) == GCFLIP_DONE);
    EXPECT(gcflip_thread_size(thread) == 15 * WORDS && in_use() < FILLED);
    expect_flips(3);
    close_heap();
}

/* ---- Growth at a flip */

/* A flip after which more than half of the heap is in use makes the next one take a larger space. Half of it is not more. */
static void grows_at_a_flip(void)
{
    for (uint32_t more = 0; more < 2; more++) {
        open_words(WORDS);
        gcflip_thread_growing(thread, 64 * WORDS);
        use(WORDS / 2 + more);
        collect();
        EXPECT(gcflip_thread_size(thread) == WORDS && in_use() == WORDS / 2 + more);
        for (int flip = 0; flip < 3; flip++) {
            collect();
            EXPECT(gcflip_thread_size(thread) == (more ? 2 * WORDS : WORDS) && in_use() == WORDS / 2 + more);
        }
        close_heap();
    }
}

/* At a flip too, the heap stops at the most. */
static void stops_at_a_flip(void)
{
    open_words(WORDS);
    gcflip_thread_growing(thread, WORDS + 10);
    use(3000);
    for (int flip = 0; flip < 4; flip++) {
        collect();
        EXPECT(gcflip_thread_size(thread) == (flip == 0 ? WORDS : WORDS + 10) && in_use() == 3000);
    }
    close_heap();
}

/* Goes through a flip by safepoints that do not wait. Some time passes while the mutator has stopped. */
static void flip_slowly(uint64_t flips)
{
    for (int tries = 0; gcflip_beside_flips(mutator) != flips; tries++) {
        EXPECT(tries < 1000);
        gcflip_thread_try_safepoint(thread);
        sleeps(20);
    }
}

/* The larger space is made after the flip, and not only once a collection is called for. The collector waits until the mutator has gone on, and then makes
   this space alone. */
static void makes_the_space_beforehand(void)
{
    open_words(WORDS);
    gcflip_thread_growing(thread, 64 * WORDS);
    use(3000);
    large_requests = 0;
    flip_slowly(1);
    for (int k = 0; k < 10000 && large_requests == 0; k++)
        sleeps(1);
    EXPECT(large_requests > 0);
    EXPECT(gcflip_thread_size(thread) == WORDS);
    close_heap();
}

/* A heap that may grow from now on does so at the next flip, if the last one left more than half of it in use, though its next space is made. And one that
   may not grow any more keeps its size, though a larger space is made. */
static void changes_its_mind(void)
{
    for (int grows = 0; grows < 2; grows++) {
        open_words(WORDS);
        gcflip_thread_growing(thread, grows ? 0 : 64 * WORDS);
        use(3000);
        large_requests = 0;
        collect();
        for (int k = 0; k < (grows ? 20 : 10000) && large_requests == 0; k++)
            sleeps(1);
        EXPECT((large_requests == 0) == grows);
        gcflip_thread_growing(thread, grows ? 64 * WORDS : 0);
        collect();
        EXPECT(gcflip_thread_size(thread) == (grows ? 2 * WORDS : WORDS) && in_use() == 3000);
        collect();
        EXPECT(gcflip_thread_size(thread) == (grows ? 2 * WORDS : WORDS) && in_use() == 3000);
        expect_flips(3);
        close_heap();
    }
}

/* A program whose safepoints do not wait goes through the flip too. While it has stopped, the size is that of before. */
static void grows_at_a_try(void)
{
    bool has_flipped = false, has_stopped;

    open_words(WORDS);
    gcflip_thread_growing(thread, 64 * WORDS);
    use(3000);
    collect();
    make_garbage(60, 8);
    EXPECT(gcflip_thread_size(thread) == WORDS);
    expect_flips(1);
    for (int k = 0; k < 10000 && !has_flipped; k++) {
        if (gcflip_beside_room(mutator) > 32)
            EXPECT(gcflip_beside_new(mutator, READ, 1, 14) == GCFLIP_MADE);
        has_stopped = gcflip_thread_try_safepoint(thread) == GCFLIP_PARKED;
        has_flipped = gcflip_beside_flips(mutator) == 2;
        sleeps(1);
        EXPECT(!has_stopped || (gcflip_thread_size(thread) == WORDS && gcflip_beside_room(mutator) == 0));
    }
    EXPECT(has_flipped && gcflip_thread_size(thread) == 2 * WORDS);
    EXPECT(in_use() >= 3000 && in_use() < WORDS);
    close_heap();
}

/* ---- The pace */

/* No collection is under way: the mutator is not stopped. */
static void expect_rest(uint64_t flips)
{
    sleeps(20);
    EXPECT(gcflip_thread_safepoint(thread) == GCFLIP_DONE);
    sleeps(20);
    EXPECT(gcflip_thread_safepoint(thread) == GCFLIP_DONE);
    expect_flips(flips);
    EXPECT(gcflip_beside_flips(mutator) == flips);
}

/* A collection is under way, and flips while the program makes safepoints. */
static void expect_flip(uint64_t flips)
{
    for (int k = 0; k < 10000; k++) {
        EXPECT(gcflip_thread_safepoint(thread) == GCFLIP_DONE);
        gcflip_thread_read(thread, &counts);
        if (counts.flips == flips)
            return;
        sleeps(1);
    }
    EXPECT(false);
}

/* A heap that grew to 2,000 words begins where half of its own room is used up, at word 1,000, or once an eighth of its words is left, at word 1,750. That
   comes later than in a heap of 1,000 words, which begins at word 500. */
static void the_pace_follows(void)
{
    open_words(1000);
    gcflip_thread_growing(thread, 2000);
    EXPECT(gcflip_thread_reserve(thread, 1500) == GCFLIP_DONE);
    EXPECT(gcflip_thread_size(thread) == 2000 && in_use() == 1);
    make_garbage(124, 8);
    make_garbage(1, 6);
    EXPECT(in_use() == 999);
    expect_rest(1);
    make_garbage(1, 2);
    expect_flip(2);
    EXPECT(gcflip_thread_size(thread) == 2000 && in_use() == 1);
    make_garbage(218, 8);
    make_garbage(1, 4);
    EXPECT(in_use() == 1749);
    expect_rest(2);
    make_garbage(1, 2);
    expect_flip(3);
    close_heap();
}

/* A heap that may not grow any more goes to a larger space all the same, if a collection has begun with that. No later space is smaller, and the next one is
   made at once. Returns whether the threads were in time for both. */
static bool changes_its_mind_meanwhile(void)
{
    uint32_t answer = GCFLIP_NOT_YET;

    open_words(WORDS);
    gcflip_thread_growing(thread, 64 * WORDS);
    use(3000);
    collect();
    EXPECT(gcflip_beside_new(mutator, READ, 1, 600) == GCFLIP_MADE);
    EXPECT(gcflip_beside_set_nil(mutator, READ) == GCFLIP_DONE);
    EXPECT(gcflip_thread_safepoint(thread) == GCFLIP_DONE);
    sleeps(20);
    gcflip_thread_growing(thread, 0);
    flip_slowly(2);
    if (gcflip_thread_size(thread) == 2 * WORDS) {
        EXPECT(gcflip_beside_new(mutator, NEWEST, 1, 2000) == GCFLIP_MADE);
        largest = BYTES * WORDS;
        answer = gcflip_thread_collect(thread);
        largest = SIZE_MAX;
        EXPECT(answer == GCFLIP_FLIPPED || answer == GCFLIP_NO_MEMORY);
        collect();
        EXPECT(gcflip_thread_size(thread) == 2 * WORDS && in_use() == 5002);
    }
    close_heap();
    return answer == GCFLIP_FLIPPED;
}

/* ---- Memory that is refused */

/* While no larger space can be had, the heap is full at its size, and its flips go on, also where more than half of it is in use. Later it grows. */
static void keeps_on_without_memory(void)
{
    open_words(WORDS);
    gcflip_thread_growing(thread, 64 * WORDS);
    largest = BYTES * WORDS;
    EXPECT(!lengthen_by(WORDS));
    expect_full(WORDS);
    for (int flip = 0; flip < 3; flip++) {
        collect();
        EXPECT(gcflip_thread_size(thread) == WORDS);
        expect_list();
    }
    largest = SIZE_MAX;
    EXPECT(lengthen_by(WORDS));
    EXPECT(gcflip_thread_size(thread) > WORDS);
    expect_list();
    gcflip_thread_read(thread, &counts);
    EXPECT(counts.failed == 0);
    close_heap();
}

/* A heap that has grown keeps its size where the system refuses a space larger than that one. */
static void keeps_what_it_grew_to(void)
{
    open_words(WORDS);
    gcflip_thread_growing(thread, 64 * WORDS);
    EXPECT(gcflip_thread_reserve(thread, WORDS) == GCFLIP_DONE && gcflip_thread_size(thread) == 3 * WORDS);
    largest = BYTES * 3 * WORDS;
    EXPECT(!lengthen_by(WORDS));
    expect_full(3 * WORDS);
    largest = SIZE_MAX;
    close_heap();
}

/* If the system refuses a larger space, the one that was made serves, though there is no memory for another one either. */
static void takes_what_was_made(void)
{
    open_words(WORDS);
    gcflip_thread_growing(thread, 64 * WORDS);
    use(1500);
    largest = BYTES * WORDS / 2;
    EXPECT(gcflip_thread_reserve(thread, 3000) == GCFLIP_FULL);
    EXPECT(gcflip_thread_size(thread) == WORDS && in_use() == 1500);
    expect_flips(1);
    largest = SIZE_MAX;
    EXPECT(gcflip_thread_reserve(thread, 3000) == GCFLIP_DONE && gcflip_thread_size(thread) == 2 * WORDS + 3000);
    close_heap();
}

/* Garbage that a flip did not free, because memory ran out for it, does not make the heap grow. */
static void fails_without_growth(void)
{
    open_words(WORDS);
    gcflip_thread_growing(thread, 64 * WORDS);
    use(500);
    EXPECT(gcflip_beside_new(mutator, READ, 1, 2500) == GCFLIP_MADE);
    EXPECT(gcflip_beside_set_nil(mutator, READ) == GCFLIP_DONE);
    largest = 0;
    EXPECT(gcflip_thread_collect(thread) == GCFLIP_NO_MEMORY);
    largest = SIZE_MAX;
    for (int flip = 0; flip < 2; flip++) {
        collect();
        EXPECT(gcflip_thread_size(thread) == WORDS);
    }
    EXPECT(in_use() == 500);
    close_heap();
}

/* Makes the list in a heap of few words, which grows. One request is refused. The call that meets that is retried once. Returns whether one was. */
static bool runs_without(long request)
{
    enum { FEW = 256, LISTED = 4 * FEW / CELL };
    gcflip_pace pace = gcflip_pace_default();
    uint32_t answer;

    has_refused = false;
    requests = 0;
    refused_one = request;
    answer = gcflip_thread_open(&thread, FEW, 0, &pace);
    EXPECT(answer == GCFLIP_DONE || (answer == GCFLIP_NO_MEMORY && has_refused && thread == NULL));
    if (answer == GCFLIP_DONE) {
        mutator = gcflip_thread_mutator(thread);
        length = 0;
        gcflip_thread_growing(thread, 64 * FEW);
        for (uint32_t k = 0, failed = 0; k < LISTED; k++) {
            while ((answer = gcflip_thread_reserve(thread, CELL)) != GCFLIP_DONE)
                EXPECT((answer == GCFLIP_NO_MEMORY || answer == GCFLIP_FULL) && has_refused && ++failed == 1);
            lengthen();
        }
        expect_list();
        EXPECT(gcflip_thread_size(thread) > 4 * FEW);
        EXPECT(gcflip_thread_collect(thread) == GCFLIP_FLIPPED || (has_refused && gcflip_thread_collect(thread) == GCFLIP_FLIPPED));
        expect_list();
        gcflip_thread_close(thread);
    }
    refused_one = 0;
    EXPECT(blocks == 0);
    return has_refused;
}

/* Each request of a run is refused in turn. How many there are depends on how the threads take turns, so several runs in a row have to make fewer. */
static void refused_in_turn(void)
{
    long found = 0;

    for (long request = 1, without = 0; without < 3; request++) {
        bool has_met = runs_without(request);

        found += has_met;
        without = has_met ? 0 : without + 1;
    }
    EXPECT(found > 20);
}

int main(void)
{
    outgrows_the_opening();
    stops_at_most(3 * WORDS);
    stops_at_most(WORDS + 1);
    keeps_its_size();
    takes_so_many_words();
    grows_after_one_under_way();
    grows_where_it_is_full();
    grows_on();
    grows_at_a_flip();
    stops_at_a_flip();
    makes_the_space_beforehand();
    changes_its_mind();
    for (int tries = 1; !changes_its_mind_meanwhile(); tries++)
        EXPECT(tries < 100);
    grows_at_a_try();
    the_pace_follows();
    keeps_on_without_memory();
    keeps_what_it_grew_to();
    takes_what_was_made();
    fails_without_growth();
    refused_in_turn();
    return 0;
}
