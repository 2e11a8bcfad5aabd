/* Tests the pace of collector steps: the number of steps that are due, by rows worked by hand, and programs that call paced work alone. */
#include "expect.h"
#include "gcflip_heap.h"
#include "open_heap.h"
#include <stdbool.h>
#include <string.h>

enum { KIND = 7, G0 = 16, G1 = 17, LIVE = 500 };

static gcflip_heap heap = GCFLIP_NO_HEAP;
static gcflip_pace pace;
static gcflip_work work;
static gcflip_counts counts;
static uint64_t number;
static uint32_t flips, most_logged;

static void read_counts(void)
{
    EXPECT(gcflip_heap_counts(&heap, &counts) == GCFLIP_DONE);
}

/* A pace that does not bound the words of a call. */
static gcflip_pace pace_of(uint32_t factor, uint32_t rate, uint32_t least, uint32_t left, uint32_t end, uint32_t logged)
{
    gcflip_pace made = {factor, rate, least, 0, left, end, logged, 0, 0};
    return made;
}

/* The steps that are due on a heap of 200 words with these counts. */
static uint32_t due(gcflip_pace of, uint32_t end, bool is_open, uint32_t scan_place, uint32_t logged, uint32_t wanted)
{
    gcflip_counts c = {200, end, 200 - end, 1, 0, is_open, is_open ? 200 : 0, 0, scan_place, 0, logged, 0};
    return gcflip_pace_due(&of, &c, wanted);
}

/* A collection begins at 60 words, which are twice the 30 that the last flip left; at `least`, if that is more; and at the latest at
 * 115 words, halfway from 30 to 200. */
static void beginnings(void)
{
    EXPECT(due(pace_of(200, 0, 10, 30, 50, 3), 59, false, 0, 0, 0) == 0);
    EXPECT(due(pace_of(200, 0, 10, 30, 50, 3), 60, false, 0, 0, 0) == 1);
    EXPECT(due(pace_of(200, 9, 10, 30, 1, 0), 199, false, 0, 0, 0) == 1);
    EXPECT(due(pace_of(200, 0, 80, 30, 50, 0), 79, false, 0, 0, 0) == 0);
    EXPECT(due(pace_of(200, 0, 80, 30, 50, 0), 80, false, 0, 0, 0) == 1);
    EXPECT(due(pace_of(200, 0, 500, 30, 50, 0), 114, false, 0, 0, 0) == 0);
    EXPECT(due(pace_of(200, 0, 500, 30, 50, 0), 115, false, 0, 0, 0) == 1);
    EXPECT(due(pace_of(10000, 0, 0, 30, 50, 0), 114, false, 0, 0, 0) == 0);
    EXPECT(due(pace_of(10000, 0, 0, 30, 50, 0), 115, false, 0, 0, 0) == 1);
    EXPECT(due(pace_of(100, 0, 10, 30, 50, 0), 30, false, 0, 0, 0) == 1);
    EXPECT(due(pace_of(150, 0, 10, 33, 50, 0), 48, false, 0, 0, 0) == 0); /* 49.5 is rounded down */
    EXPECT(due(pace_of(150, 0, 10, 33, 50, 0), 49, false, 0, 0, 0) == 1);
    /* no room: the begin, 58 words, and the flip */
    EXPECT(due(pace_of(200, 0, 10, 30, 50, 3), 59, false, 0, 0, 140) == 0);
    EXPECT(due(pace_of(200, 0, 10, 30, 50, 3), 59, false, 0, 0, 141) == 60);
    EXPECT(due(pace_of(200, 0, 10, 30, 50, 3), 59, false, 0, 0, UINT32_MAX) == 60);
    EXPECT(due(pace_of(200, 0, 10, 30, 50, 3), 200, false, 0, 0, 0) == 201);
}

/* With one word allocated and two entries logged, and 10 words, 5 entries and the flip left: 16 steps left, 149 words free. */
static void rates(void)
{
    EXPECT(due(pace_of(200, 0, 10, 30, 50, 3), 51, true, 41, 5, 0) == 6);    /* 3 times 2 */
    EXPECT(due(pace_of(200, 0, 10, 30, 50, 3), 51, true, 41, 5, 144) == 15); /* 3 times 2 + 16 / 5 */
    EXPECT(due(pace_of(200, 0, 10, 30, 50, 3), 51, true, 41, 5, 146) == 16); /* 3 times 2 + 16 / 3, and no more than are left */
    EXPECT(due(pace_of(200, 0, 10, 30, 50, 3), 51, true, 41, 5, 149) == 16);
    EXPECT(due(pace_of(200, 1, 10, 30, 50, 3), 51, true, 41, 5, 0) == 3);
    EXPECT(due(pace_of(200, 4, 10, 30, 50, 3), 51, true, 41, 5, 146) == 12);
    EXPECT(due(pace_of(200, UINT32_MAX, 10, 30, 50, 3), 51, true, 41, 5, 0) == 16);
    /* nothing spent; counts that fell since the call before */
    EXPECT(due(pace_of(200, 0, 10, 30, 50, 3), 50, true, 41, 3, 0) == 0);
    EXPECT(due(pace_of(200, 0, 10, 30, 50, 3), 50, true, 41, 3, 150) == 13);
    EXPECT(due(pace_of(200, 0, 10, 30, 50, 3), 40, true, 1, 0, 0) == 0);
    EXPECT(due(pace_of(200, 0, 10, 30, 50, 3), 40, true, 1, 4, 0) == 2);
}

/* The same counts with steps that are owed: they are due as well while a collection is open and there is room. */
static void debts(void)
{
    gcflip_pace of = {200, 0, 10, 64, 30, 50, 3, 7, 0};
    EXPECT(due(of, 51, true, 41, 5, 0) == 13);    /* 7 + 3 times 2 */
    EXPECT(due(of, 51, true, 41, 5, 144) == 16);  /* 7 + 3 times 2 + 16 / 5, and no more than are left */
    EXPECT(due(of, 50, true, 41, 3, 0) == 7);     /* nothing spent */
    EXPECT(due(of, 50, true, 48, 3, 0) == 6);     /* 2 words, 3 entries and the flip are left */
    EXPECT(due(of, 51, true, 41, 5, 149) == 16);  /* no room */
    EXPECT(due(of, 59, false, 0, 0, 0) == 0);
    EXPECT(due(of, 60, false, 0, 0, 0) == 1);
    EXPECT(due(of, 59, false, 0, 0, 141) == 60);
    of.rate = 1;
    EXPECT(due(of, 51, true, 41, 5, 0) == 10);
    of.owed = UINT32_MAX;
    EXPECT(due(of, 51, true, 41, 5, 0) == 16);
}

/* The same counts, with looks at extra roots that are left: 32 of them count as a word that is left, and those that are new as one that is spent. */
static void looks(void)
{
    gcflip_pace of = pace_of(200, 0, 10, 30, 50, 3);
    gcflip_counts c = {200, 51, 149, 1, 1000, 1, 200, 0, 41, 0, 5, 33};
    of.roots = 32;
    EXPECT(gcflip_pace_due(&of, &c, 0) == 8);    /* 3 and a unit times 2 */
    EXPECT(gcflip_pace_due(&of, &c, 144) == 18); /* 4 times 2 + 18 / 5, and no more than are left */
    EXPECT(gcflip_pace_due(&of, &c, 140) == 16); /* 4 times 2 + 18 / 9 */
    EXPECT(gcflip_pace_due(&of, &c, 149) == 18); /* no room */
    c.roots_left = 32;
    EXPECT(gcflip_pace_due(&of, &c, 0) == 6);
    of.roots = 1;
    EXPECT(gcflip_pace_due(&of, &c, 0) == 6); /* 32 looks are one unit, as one look is */
    of.roots = 0;
    EXPECT(gcflip_pace_due(&of, &c, 0) == 8);
    of.roots = 500;
    EXPECT(gcflip_pace_due(&of, &c, 0) == 6 && gcflip_pace_due(&of, &c, 149) == 17); /* fewer than before */
    c.is_open = 0;
    c.scan_place = c.logged = 0;
    EXPECT(gcflip_pace_due(&of, &c, 149) == 53); /* the begin, 50 words, a unit and the flip */
}

/* Counts that no heap has: its end is below the scan pointer. No word is left to scan, but the entries and the flip are. */
static void end_below_the_scan_pointer(void)
{
    EXPECT(due(pace_of(200, 0, 10, 30, 50, 3), 40, true, 41, 5, 0) == 4); /* 2 entries times 2, where 6 steps are left */
    EXPECT(due(pace_of(200, 9, 10, 30, 50, 3), 40, true, 41, 5, 0) == 6);
    EXPECT(due(pace_of(200, 0, 10, 30, 50, 3), 40, true, UINT32_MAX, 5, 160) == 6); /* no room */
    EXPECT(due(pace_of(200, 0, 10, 30, 50, 3), 40, true, UINT32_MAX, 3, 0) == 0);   /* nothing spent */
    EXPECT(due(pace_of(200, 0, 10, 30, 50, 3), 40, false, 41, 0, 160) == 1);
}

/* The largest counts: no sum or product wraps, and the result is cut off. */
static void largest_counts(void)
{
    const gcflip_pace all = {10000, UINT32_MAX, UINT32_MAX, UINT32_MAX, UINT32_MAX, 0, 0, UINT32_MAX, 0};
    gcflip_counts c = {UINT32_MAX, UINT32_MAX, 0, 16, 0, 1, UINT32_MAX, 1, 1, 0, UINT32_MAX, UINT32_MAX};
    EXPECT(gcflip_pace_due(&all, &c, 0) == UINT32_MAX);
    c.free = 1;
    EXPECT(gcflip_pace_due(&all, &c, 0) == UINT32_MAX);
    c.is_open = 0;
    EXPECT(gcflip_pace_due(&all, &c, 0) == 1);
    c.end = UINT32_MAX - 1;
    EXPECT(gcflip_pace_due(&all, &c, 0) == 0);
}

static bool is_pace(uint32_t left, uint32_t end, uint32_t logged)
{
    return pace.left == left && pace.end == end && pace.logged == logged;
}

/* Each step of a collection of one object with one field, which takes words 1 to 3 of 11. */
static void one_collection(void)
{
    const gcflip_work none = {0, 0, 0, 0, 0};
    EXPECT(open_plain_heap(&heap, 11, 2) == GCFLIP_DONE);
    pace = gcflip_pace_default();
    EXPECT(pace.factor == 200 && pace.rate == 0 && pace.least == 65536 && pace.words == 1024 && pace.owed == 0 && is_pace(1, 1, 0));
    EXPECT(gcflip_heap_new_object(&heap, 0, G0, KIND, 1) == GCFLIP_MADE);
    EXPECT(gcflip_heap_work_paced(&heap, &pace, 0, &work) == GCFLIP_DONE && memcmp(&work, &none, sizeof work) == 0);
    EXPECT(is_pace(1, 4, 0));
    EXPECT(gcflip_heap_new_object(&heap, 0, G1, KIND, 0) == GCFLIP_MADE);
    EXPECT(gcflip_heap_work_paced(&heap, &pace, 0, &work) == GCFLIP_DONE && work.steps == 1 && work.last == GCFLIP_BEGUN);
    EXPECT(is_pace(1, 6, 0));
    EXPECT(gcflip_heap_set_nil(&heap, 0, G1) == GCFLIP_DONE);
    EXPECT(gcflip_heap_work_paced(&heap, &pace, 0, &work) == GCFLIP_DONE && work.steps == 0);
    /* one entry; 7 steps left and 5 words free: 1 times 2 + 7 / 5 */
    EXPECT(gcflip_heap_put(&heap, 1, G0, 0, 2) == GCFLIP_DONE);
    EXPECT(gcflip_heap_work_paced(&heap, &pace, 0, &work) == GCFLIP_DONE);
    EXPECT(work.steps == 3 && work.copied == 3 && work.last == GCFLIP_PASSED && is_pace(1, 6, 1));
    EXPECT(gcflip_heap_work_paced(&heap, &pace, 4, &work) == GCFLIP_DONE && work.steps == 0);
    EXPECT(gcflip_heap_work_paced(&heap, &pace, 5, &work) == GCFLIP_DONE);
    EXPECT(work.steps == 2 && work.last == GCFLIP_FLIPPED && work.pairs == 1 && is_pace(4, 4, 0));
    /* a whole collection for want of room */
    EXPECT(gcflip_heap_work_paced(&heap, &pace, 7, &work) == GCFLIP_DONE);
    EXPECT(work.steps == 5 && work.last == GCFLIP_FLIPPED && is_pace(4, 4, 0));
    EXPECT(gcflip_heap_close(&heap) == GCFLIP_DONE);
}

static void refusals(void)
{
    const gcflip_pace wrong[] = {{99, 0, 0, 5, 1, 1, 0, 2, 3}, {10001, 0, 0, 5, 1, 1, 0, 2, 3}, {0, 0, 0, 5, 1, 1, 0, 2, 3}, {UINT32_MAX, 0, 0, 5, 1, 1, 0, 2, 3}};
    const gcflip_work before = {77, 77, 77, 77, 77};
    work = before;
    pace = wrong[0];
    EXPECT(gcflip_heap_pace(&heap, &pace) == GCFLIP_CLOSED);
    EXPECT(gcflip_heap_work_paced(&heap, &pace, 1, &work) == GCFLIP_CLOSED && memcmp(&work, &before, sizeof work) == 0);
    EXPECT(open_plain_heap(&heap, 16, 1) == GCFLIP_DONE);
    EXPECT(gcflip_heap_new_object(&heap, 0, G0, KIND, 1) == GCFLIP_MADE);
    for (size_t i = 0; i < sizeof wrong / sizeof *wrong; i++) {
        pace = wrong[i];
        EXPECT(gcflip_heap_pace(&heap, &pace) == GCFLIP_OUT_OF_RANGE && memcmp(&pace, &wrong[i], sizeof pace) == 0);
        EXPECT(gcflip_heap_work_paced(&heap, &pace, UINT32_MAX, &work) == GCFLIP_OUT_OF_RANGE);
        EXPECT(memcmp(&pace, &wrong[i], sizeof pace) == 0 && memcmp(&work, &before, sizeof work) == 0);
    }
    EXPECT(gcflip_heap_step_give_up(&heap) == GCFLIP_IDLE);
    pace = pace_of(100, 1, 2, 77, 77, 77);
    pace.words = 3;
    pace.owed = 77;
    EXPECT(gcflip_heap_pace(&heap, &pace) == GCFLIP_DONE && pace.factor == 100 && pace.rate == 1 && pace.least == 2 && is_pace(4, 4, 0));
    EXPECT(pace.words == 3 && pace.owed == 0);
    pace.factor = 10000;
    EXPECT(gcflip_heap_step_begin(&heap) == GCFLIP_BEGUN && gcflip_heap_put(&heap, 0, G0, 0, 1) == GCFLIP_DONE);
    EXPECT(gcflip_heap_pace(&heap, &pace) == GCFLIP_DONE && is_pace(4, 4, 1));
    EXPECT(gcflip_heap_close(&heap) == GCFLIP_DONE);
}

/* Expects a call that left so many of the steps that were due. */
static void expect_call(uint32_t wanted, uint32_t steps, uint32_t copied, uint32_t last, uint32_t owed)
{
    EXPECT(gcflip_heap_work_paced(&heap, &pace, wanted, &work) == GCFLIP_DONE);
    EXPECT(work.steps == steps && work.copied == copied && work.last == last && pace.owed == owed);
}

/* Opens a heap of 200 words with four objects of ten words, and a collection on it, whose new space has this many words: 41 steps are left. */
static void begin_with_four(uint32_t size, uint32_t words)
{
    EXPECT(open_plain_heap(&heap, 200, 1) == GCFLIP_DONE);
    for (uint8_t slot = 0; slot < 4; slot++)
        EXPECT(gcflip_heap_new_object(&heap, 0, slot, KIND, 8) == GCFLIP_MADE);
    EXPECT(gcflip_heap_step_begin_sized(&heap, size) == GCFLIP_BEGUN);
    pace = gcflip_pace_default();
    pace.words = words;
    EXPECT(gcflip_heap_pace(&heap, &pace) == GCFLIP_DONE && is_pace(41, 41, 0));
}

/* Calls that are bounded leave the other steps to the next calls, each step once. */
static void calls_that_owe(void)
{
    begin_with_four(200, 10);
    expect_call(0, 0, 0, 0, 0);
    expect_call(159, 1, 10, GCFLIP_COPIED, 40); /* no room: all 41 are due */
    expect_call(0, 1, 10, GCFLIP_COPIED, 39);
    expect_call(0, 1, 10, GCFLIP_COPIED, 38);
    EXPECT(gcflip_heap_put_number(&heap, 0, 0, 0, 4, 5) == GCFLIP_DONE); /* 1 times 2 more */
    expect_call(0, 1, 10, GCFLIP_COPIED, 39);
    EXPECT(is_pace(41, 41, 1));
    expect_call(0, 10, 0, GCFLIP_SCANNED, 29); /* 36 steps for the fields and behind them, 1 for the entry, and the flip */
    expect_call(0, 10, 0, GCFLIP_SCANNED, 19);
    expect_call(0, 10, 0, GCFLIP_SCANNED, 9);
    expect_call(0, 8, 0, GCFLIP_FLIPPED, 0);
    EXPECT(work.pairs == 4 && is_pace(41, 41, 0));
    /* a whole collection for want of room, in three calls */
    expect_call(159, 2, 10, GCFLIP_COPIED, 40);
    pace.words = 11;
    expect_call(159, 2, 20, GCFLIP_COPIED, 39);
    pace.words = 0;
    expect_call(0, 38, 10, GCFLIP_FLIPPED, 0);
    EXPECT(gcflip_heap_close(&heap) == GCFLIP_DONE);
    /* a new debt takes the place of the one before */
    begin_with_four(200, 1);
    pace.owed = 3;
    expect_call(0, 1, 10, GCFLIP_COPIED, 2);
    expect_call(0, 1, 10, GCFLIP_COPIED, 1);
    expect_call(0, 1, 10, GCFLIP_COPIED, 0);
    expect_call(0, 0, 0, 0, 0);
    pace.owed = 5;
    EXPECT(gcflip_heap_step_give_up(&heap) == GCFLIP_DROPPED);
    expect_call(0, 0, 0, 0, 0);
    EXPECT(gcflip_heap_close(&heap) == GCFLIP_DONE);
    /* the third object finds no room */
    begin_with_four(30, 21);
    expect_call(159, 3, 20, GCFLIP_NO_ROOM, 0);
    EXPECT(gcflip_heap_close(&heap) == GCFLIP_DONE);
}

/* Returns whether the call was bounded by the words of the pace: it performed as many steps, or copied as many words. */
static bool took_its_words(void)
{
    return pace.words > 0 && (work.steps >= pace.words || work.copied >= pace.words);
}

/* Performs paced work, and checks that it performs or owes as many steps as are due, unless it flipped, and that it leaves no more log entries
 * than it promises. */
static void paced(uint32_t wanted)
{
    uint32_t steps, left;
    read_counts();
    left = counts.end - counts.scan_place + counts.logged + 1;
    if (counts.logged > most_logged)
        most_logged = counts.logged;
    steps = gcflip_pace_due(&pace, &counts, wanted);
    EXPECT(gcflip_heap_work_paced(&heap, &pace, wanted, &work) == GCFLIP_DONE && work.last != GCFLIP_NO_ROOM);
    EXPECT(work.steps + pace.owed == steps || (work.last == GCFLIP_FLIPPED && work.steps < steps && pace.owed == 0));
    EXPECT(pace.owed == 0 || took_its_words());
    flips += work.last == GCFLIP_FLIPPED;
    if (steps > 0 && wanted >= counts.free)
        EXPECT(work.last == GCFLIP_FLIPPED || took_its_words()); /* the steps that are left are enough */
    read_counts();
    EXPECT(counts.logged + work.steps <= left);
}

/* Puts a list of this many pairs into slot G0, each with its number. */
static void make_list(uint32_t length)
{
    EXPECT(gcflip_heap_set_nil(&heap, 0, G0) == GCFLIP_DONE);
    for (uint32_t i = 1; i <= length; i++) {
        paced(4);
        EXPECT(gcflip_heap_set_number(&heap, 0, 1, i) == GCFLIP_DONE);
        EXPECT(gcflip_heap_new_pair(&heap, 0, 3, KIND, 1, G0) == GCFLIP_MADE);
        EXPECT(gcflip_heap_move(&heap, 0, G0, 3) == GCFLIP_DONE);
    }
    EXPECT(gcflip_heap_set_nil(&heap, 0, 3) == GCFLIP_DONE);
}

/* Turns the list of slot G0 round, so that each of its objects is made again and the old ones become garbage. */
static void reverse_list(uint32_t length)
{
    EXPECT(gcflip_heap_set_nil(&heap, 0, 2) == GCFLIP_DONE);
    for (uint32_t i = 0; i < length; i++) {
        paced(4);
        EXPECT(gcflip_heap_get(&heap, 0, 1, G0, 0, &number) == GCFLIP_NUMBER);
        EXPECT(gcflip_heap_new_object(&heap, 0, 3, KIND, 2) == GCFLIP_MADE);
        EXPECT(gcflip_heap_put(&heap, 0, 3, 0, 1) == GCFLIP_DONE && gcflip_heap_put(&heap, 0, 3, 1, 2) == GCFLIP_DONE);
        EXPECT(gcflip_heap_move(&heap, 0, 2, 3) == GCFLIP_DONE);
        gcflip_heap_get(&heap, 0, G0, G0, 1, &number);
    }
    EXPECT(gcflip_heap_move(&heap, 0, G0, 2) == GCFLIP_DONE);
    EXPECT(gcflip_heap_set_nil(&heap, 0, 2) == GCFLIP_DONE && gcflip_heap_set_nil(&heap, 0, 3) == GCFLIP_DONE);
}

/* Reads the list: its numbers rise or fall from `first` on. */
static void expect_list(uint32_t length, uint32_t first, bool rises)
{
    EXPECT(gcflip_heap_move(&heap, 0, 4, G0) == GCFLIP_DONE);
    for (uint32_t i = 0; i < length; i++) {
        EXPECT(gcflip_heap_get(&heap, 0, 5, 4, 0, &number) == GCFLIP_NUMBER && number == (rises ? first + i : first - i));
        gcflip_heap_get(&heap, 0, 4, 4, 1, &number);
    }
    EXPECT(gcflip_heap_set_nil(&heap, 0, 4) == GCFLIP_DONE);
}

/* A program that allocates 100 times what it keeps, on a heap of this many times 2000 words: it never lacks room. */
static void allocate(uint32_t size, gcflip_pace of)
{
    EXPECT(open_plain_heap(&heap, size, 1) == GCFLIP_DONE);
    pace = of;
    flips = most_logged = 0;
    make_list(LIVE);
    for (uint32_t round = 0; round < 100; round++) {
        expect_list(LIVE, round % 2 ? 1 : LIVE, round % 2);
        reverse_list(LIVE);
    }
    EXPECT(flips >= 200000 / size && most_logged < size);
    EXPECT(gcflip_heap_close(&heap) == GCFLIP_DONE);
}

/* 32,000 puts to one field, with a collection open at each: the log never has more entries than the heap had words at the begin. */
static void put_again_and_again(gcflip_pace of)
{
    EXPECT(open_plain_heap(&heap, 100000, 1) == GCFLIP_DONE);
    pace = of;
    make_list(LIVE);
    EXPECT(gcflip_heap_pace(&heap, &pace) == GCFLIP_DONE);
    flips = most_logged = 0;
    for (uint32_t i = 0; i < 32000; i++) {
        read_counts();
        if (!counts.is_open)
            EXPECT(gcflip_heap_step_begin(&heap) == GCFLIP_BEGUN);
        EXPECT(gcflip_heap_put_number(&heap, 0, G0, 0, 1, i) == GCFLIP_DONE);
        paced(0);
    }
    EXPECT(flips >= 32000 / (4 * LIVE) && most_logged <= 1 + 4 * LIVE);
    EXPECT(gcflip_heap_get(&heap, 0, 5, G0, 0, &number) == GCFLIP_NUMBER && number == 31999);
    EXPECT(gcflip_heap_close(&heap) == GCFLIP_DONE);
}

/* Paced work ends a collection whenever there is no room, wherever the collection stands, and however many steps were made before. */
static void no_room_anywhere(void)
{
    EXPECT(open_plain_heap(&heap, 3000, 2) == GCFLIP_DONE);
    pace = gcflip_pace_default();
    pace.words = 0; /* no bound: one call is enough */
    make_list(20);
    for (uint32_t steps = 1; steps < 110; steps++) {
        EXPECT(gcflip_heap_work(&heap, steps, &work) == GCFLIP_DONE);
        EXPECT(gcflip_heap_put_number(&heap, 1, G0, 0, 1, 20) == GCFLIP_DONE);
        EXPECT(gcflip_heap_new_object(&heap, 0, 2, KIND, steps % 5) == GCFLIP_MADE);
        paced(UINT32_MAX);
        EXPECT(work.last == GCFLIP_FLIPPED);
    }
    expect_list(20, 20, false);
    EXPECT(gcflip_heap_close(&heap) == GCFLIP_DONE);
}

/* ---- Long objects */

enum { ARRAYS = 200, ARRAY = 500, BOUND = 64, GARBAGE = 3, CALLS = 40000 };

static gcflip_work reports[CALLS];
static uint32_t calls, most_owed;

/* Does what gcflip_heap_work_paced does, by the calls that the header names. */
static void paced_by_hand(uint32_t wanted)
{
    const gcflip_work none = {0, 0, 0, 0, 0};
    uint32_t steps;
    read_counts();
    steps = gcflip_pace_due(&pace, &counts, wanted);
    work = none;
    if (steps > 0)
        EXPECT(gcflip_heap_work_within(&heap, steps < pace.words ? steps : pace.words, pace.words, &work) == GCFLIP_DONE);
    read_counts();
    if (work.last == GCFLIP_FLIPPED)
        pace.left = counts.end;
    pace.end = counts.end;
    pace.logged = counts.logged;
    pace.owed = took_its_words() && work.last != GCFLIP_FLIPPED ? steps - work.steps : 0;
}

/* A program that keeps an array of long arrays, and makes garbage. No call performs more steps than the pace allows, its replicas take at most one
 * array more, and the collection flips before the room is used up. The calls of the second run are made by hand, and report the same. */
static void long_objects(void (*perform)(uint32_t wanted), bool is_first)
{
    uint32_t ends_by_words = 0;
    EXPECT(open_plain_heap(&heap, 5 * ARRAYS * ARRAY / 2, 1) == GCFLIP_DONE);
    EXPECT(gcflip_heap_new_object(&heap, 0, 0, KIND, ARRAYS) == GCFLIP_MADE);
    for (uint16_t i = 0; i < ARRAYS; i++) {
        EXPECT(gcflip_heap_new_object(&heap, 0, 1, KIND, ARRAY - 2) == GCFLIP_MADE);
        EXPECT(gcflip_heap_put_number(&heap, 0, 1, ARRAY - 3, 2, i) == GCFLIP_DONE && gcflip_heap_put(&heap, 0, 0, i, 1) == GCFLIP_DONE);
    }
    pace = gcflip_pace_default();
    pace.words = BOUND;
    EXPECT(gcflip_heap_pace(&heap, &pace) == GCFLIP_DONE);
    flips = most_owed = 0;
    for (calls = 0; calls < CALLS; calls++) {
        perform(GARBAGE + 2);
        EXPECT(work.steps <= BOUND && work.copied < BOUND + ARRAY);
        ends_by_words += work.copied >= BOUND;
        if (pace.owed > most_owed)
            most_owed = pace.owed;
        if (is_first)
            reports[calls] = work;
        EXPECT(memcmp(&reports[calls], &work, sizeof work) == 0);
        EXPECT(gcflip_heap_new_object(&heap, 0, 2, KIND, GARBAGE) == GCFLIP_MADE); /* there is room */
        EXPECT(gcflip_heap_get(&heap, 0, 1, 0, (uint16_t)(calls % ARRAYS), &number) == GCFLIP_OBJECT);
        EXPECT(gcflip_heap_put(&heap, 0, 0, (uint16_t)(calls % ARRAYS), 1) == GCFLIP_DONE);
    }
    EXPECT(ends_by_words >= ARRAYS && most_owed > 0);
    EXPECT(gcflip_heap_close(&heap) == GCFLIP_DONE);
}

/* ---- Calls with a bound that find the room that they want */

enum { LONG = 500, STORES = 8, ROOTS = 200, TURNS = 60000 };

/* What a program does between two calls, and the bound of a call beside the law's: `most` is the work over the room when a collection begins, at most. */
struct load {
    uint32_t size, words, entries, roots, most;
};

/* The least bound that the law bounded_calls_find_room names for this load. */
static uint32_t bound_of(struct load load)
{
    const uint32_t stores = load.roots > 0 ? STORES : 0;
    return (4 * load.most + 2) * load.words + load.entries + stores + (stores + 31) / 32 + load.roots + 1;
}

/* Returns whether the law speaks of a cycle that begins with what the last flip left. */
static bool is_light(struct load load)
{
    const uint32_t units = load.roots > 0 ? (load.roots + 31) / 32 + (STORES + 31) / 32 : 0;
    return (load.most + 1) * (pace.left + 2 * load.words) + 2 * units + load.size <= load.most * load.size;
}

/* Opens a heap of which half of the live words are long objects, and half are objects of as many words as the program allocates between two calls.
 * Returns how many of the latter there are. */
static uint16_t open_loaded(struct load load)
{
    const uint32_t live = (load.most - 1) * load.size / (load.most + 1) / 2;
    const uint16_t longs = (uint16_t)(live / 2 / LONG), shorts = (uint16_t)(live / 2 / load.words);
    gcflip_options options = gcflip_options_default(load.size, 1);
    options.extra_roots = load.roots;
    EXPECT(gcflip_heap_open(&heap, &options) == GCFLIP_DONE);
    EXPECT(gcflip_heap_new_object(&heap, 0, 0, KIND, shorts) == GCFLIP_MADE);
    EXPECT(gcflip_heap_new_object(&heap, 0, 1, KIND, longs) == GCFLIP_MADE);
    for (uint16_t i = 0; i < longs; i++) {
        EXPECT(gcflip_heap_new_object(&heap, 0, 2, KIND, LONG - 2) == GCFLIP_MADE);
        EXPECT(gcflip_heap_put(&heap, 0, 1, i, 2) == GCFLIP_DONE);
    }
    for (uint32_t k = 0; k < load.roots; k++)
        EXPECT(gcflip_heap_root_store(&heap, 0, k, 1) == GCFLIP_DONE);
    EXPECT(gcflip_heap_set_nil(&heap, 0, 2) == GCFLIP_DONE);
    return shorts;
}

/* Plays the program until a call finds no more room than it wants and does not end the collection, and returns the number of turns. A call that finds no
 * room in a cycle of which the law does not speak ends the run as well. Each call leaves at most as many looks as there are extra roots. */
static uint32_t turns_with_room(struct load load, gcflip_pace of)
{
    const uint16_t shorts = open_loaded(load);
    uint32_t turn, free;
    pace = of;
    EXPECT(gcflip_heap_pace(&heap, &pace) == GCFLIP_DONE);
    flips = 0;
    for (turn = 0; turn < TURNS; turn++) {
        EXPECT(is_light(load));
        EXPECT(gcflip_heap_new_object(&heap, 0, 2, KIND, (uint16_t)(load.words - 2)) == GCFLIP_MADE);
        EXPECT(gcflip_heap_put(&heap, 0, 0, (uint16_t)(turn % shorts), 2) == GCFLIP_DONE);
        for (uint32_t i = 1; i < load.entries; i++)
            EXPECT(gcflip_heap_put(&heap, 0, 0, (uint16_t)((turn + i) % shorts), 2) == GCFLIP_DONE);
        for (uint32_t i = 0; load.roots > 0 && i < STORES; i++)
            EXPECT(gcflip_heap_root_store(&heap, 0, (turn + i) % load.roots, i % 2 ? 1 : 2) == GCFLIP_DONE);
        free = gcflip_room(&heap);
        EXPECT(gcflip_heap_work_paced(&heap, &pace, load.words, &work) == GCFLIP_DONE && work.last != GCFLIP_NO_ROOM);
        flips += work.last == GCFLIP_FLIPPED;
        if (free <= load.words && work.last != GCFLIP_FLIPPED)
            break;
        read_counts();
        EXPECT(counts.roots_left <= load.roots);
    }
    EXPECT(gcflip_heap_close(&heap) == GCFLIP_DONE);
    return turn;
}

/* With the bound that the law names each call finds more room than it wants, or it ends the collection. With a bound of fewer units than the program
 * allocates words, a call soon finds less. */
static void calls_find_room(struct load load)
{
    gcflip_pace of = gcflip_pace_default();
    of.words = bound_of(load);
    EXPECT(turns_with_room(load, of) == TURNS && flips >= 10);
    of.words = load.words / 2;
    EXPECT(turns_with_room(load, of) < TURNS);
}

int main(void)
{
    beginnings();
    rates();
    debts();
    looks();
    end_below_the_scan_pointer();
    largest_counts();
    refusals();
    one_collection();
    allocate(4200, pace_of(200, 0, 0, 1, 1, 0));
    allocate(5000, gcflip_pace_default());
    allocate(20000, gcflip_pace_default());
    allocate(20000, pace_of(100, 0, 0, 1, 1, 0));
    allocate(20000, pace_of(150, 8, 0, 1, 1, 0));
    allocate(100000, pace_of(400, 0, 0, 1, 1, 0));
    put_again_and_again(gcflip_pace_default());
    put_again_and_again(pace_of(200, 2, 0, 1, 1, 0));
    no_room_anywhere();
    calls_that_owe();
    long_objects(paced, true);
    EXPECT(flips >= 2);
    long_objects(paced_by_hand, false);
    calls_find_room((struct load){40000, 20, 10, 0, 2});
    calls_find_room((struct load){40000, 20, 10, 0, 3});
    calls_find_room((struct load){40000, 20, 10, ROOTS, 2});
    /* loads of which the law says that the default bound is enough */
    EXPECT(bound_of((struct load){40000, 60, 400, 0, 2}) <= gcflip_pace_default().words);
    EXPECT(turns_with_room((struct load){40000, 60, 400, 0, 2}, gcflip_pace_default()) == TURNS && flips >= 10);
    EXPECT(bound_of((struct load){40000, 40, 300, ROOTS, 2}) <= gcflip_pace_default().words);
    EXPECT(turns_with_room((struct load){40000, 40, 300, ROOTS, 2}, gcflip_pace_default()) == TURNS && flips >= 10);
    return 0;
}
