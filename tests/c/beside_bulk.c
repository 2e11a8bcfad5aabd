/* The calls of gcflip_beside.h that perform many commands at once: their replies, what they refuse, frames in extra roots, a safepoint that does not wait,
   and each allocation of the log refused in turn. Links its own allocation functions instead of the library's. */
#define _POSIX_C_SOURCE 200809L
#include "both_ends.h"
#include "expect.h"
#include "gcflip_thread.h"
#include "own_allocator.h"
#include <string.h>
#include <time.h>

enum { WORDS = 256, EXTRA = 8, FIRST = GCFLIP_BESIDE_ROOTS, ROOTS = FIRST + EXTRA };

#define KEPT 0x5a5a5a5a5a5a5a5aull
#define LARGEST ((1ull << 63) - 1)

static uint64_t words[4];
static gcflip_view view;
static gcflip_frame frame;

static void open_both(uint32_t size)
{
    fail_allocation(0);
    EXPECT(gcflip_beside_open(&mutator, &collector, size, EXTRA) == GCFLIP_DONE);
}

static void close_both(void)
{
    EXPECT(gcflip_beside_close_mutator(&mutator) == GCFLIP_DONE);
    EXPECT(gcflip_beside_close_collector(&collector) == GCFLIP_DONE);
    EXPECT(blocks_in_use() == 0);
}

/* The collector has copied what roots refer to, so that writes are logged from now on. */
static void begin_to_copy(void)
{
    take();
    EXPECT(gcflip_beside_place_roots(&collector) == GCFLIP_DONE);
    EXPECT(gcflip_beside_go(&collector) == GCFLIP_DONE);
    EXPECT(gcflip_beside_resume(&mutator) == GCFLIP_DONE);
    EXPECT(gcflip_beside_work(&collector, MANY) == GCFLIP_CLEAN);
}

static void collect(uint32_t size)
{
    take();
    EXPECT(gcflip_beside_finish(&collector) == GCFLIP_FLIPPED);
    EXPECT(gcflip_beside_resume(&mutator) == GCFLIP_DONE);
    EXPECT(gcflip_beside_prepare(&collector, size) == GCFLIP_DONE);
}

/* Field i of root s holds this number. */
static void expect_number(uint32_t s, uint32_t i, uint64_t n)
{
    EXPECT(gcflip_beside_peek(&mutator, s, i, &view) == GCFLIP_NUMBER && view.number == n && view.kind == 0 && view.count == 0);
}

static void expect_root(uint32_t p, uint64_t n)
{
    EXPECT(gcflip_beside_look(&mutator, p, &view) == GCFLIP_NUMBER && view.number == n);
}

static void expect_nil(uint32_t p)
{
    EXPECT(gcflip_beside_look(&mutator, p, &view) == GCFLIP_NIL);
}

/* ---- What is refused */

/* Each call returns this answer, also if an argument is out of range, and writes nothing. */
static void expect_refused(uint32_t answer)
{
    static const uint32_t fields[2] = {0, 1};
    gcflip_frame before = {0, 4, 2, 3};

    frame = before;
    words[0] = words[1] = KEPT;
    view = (gcflip_view){1, 2, KEPT};
    EXPECT(gcflip_beside_peek(&mutator, 0, 0, &view) == answer);
    EXPECT(gcflip_beside_clear(&mutator, 0, 1) == answer);
    EXPECT(gcflip_beside_clear(&mutator, 1, 0) == answer);
    EXPECT(gcflip_beside_new_from(&mutator, 0, 1, fields, 2) == answer);
    EXPECT(gcflip_beside_gather(&mutator, 0, 1, 2, 3) == answer);
    EXPECT(gcflip_beside_spread(&mutator, 1, 0, 2) == answer);
    EXPECT(gcflip_beside_fill(&mutator, 0, 0, 1, 1) == answer);
    EXPECT(gcflip_beside_copy_fields(&mutator, 0, 0, 0, 1, 1) == answer);
    EXPECT(gcflip_beside_raw_read(&mutator, 0, 0, words, 2) == answer);
    EXPECT(gcflip_beside_raw_write(&mutator, 0, 0, words, 1) == answer);
    EXPECT(gcflip_beside_frame_push(&mutator, 0, &frame) == answer);
    EXPECT(gcflip_beside_frame_pop(&mutator, 0, &frame) == answer);
    EXPECT(gcflip_beside_frame_trim(&mutator, &frame, 1) == answer);
    EXPECT(words[0] == KEPT && words[1] == KEPT && view.kind == 1 && view.count == 2 && view.number == KEPT);
    EXPECT(memcmp(&frame, &before, sizeof frame) == 0);
}

/* A frame with these numbers is out of range, and stays as it is. */
static void expect_no_frame(uint32_t first, uint32_t end, uint32_t top, uint32_t high)
{
    gcflip_frame before = {first, end, top, high};

    frame = before;
    EXPECT(gcflip_beside_frame_push(&mutator, 0, &frame) == GCFLIP_OUT_OF_RANGE);
    EXPECT(gcflip_beside_frame_pop(&mutator, 0, &frame) == GCFLIP_OUT_OF_RANGE);
    EXPECT(gcflip_beside_frame_trim(&mutator, &frame, 1) == GCFLIP_OUT_OF_RANGE);
    EXPECT(memcmp(&frame, &before, sizeof frame) == 0);
}

static void out_of_range(void)
{
    static uint32_t fields[65536] = {0, ROOTS};
    gcflip_frame before = {0, EXTRA, 1, 1};

    view = (gcflip_view){1, 2, KEPT};
    words[0] = KEPT;
    EXPECT(gcflip_beside_peek(&mutator, ROOTS, 0, &view) == GCFLIP_OUT_OF_RANGE);
    EXPECT(gcflip_beside_clear(&mutator, 1, 0) == GCFLIP_OUT_OF_RANGE);
    EXPECT(gcflip_beside_clear(&mutator, 0, ROOTS + 1) == GCFLIP_OUT_OF_RANGE);
    EXPECT(gcflip_beside_clear(&mutator, UINT32_MAX, UINT32_MAX) == GCFLIP_OUT_OF_RANGE);
    EXPECT(gcflip_beside_new_from(&mutator, ROOTS, 1, fields, 1) == GCFLIP_OUT_OF_RANGE);
    EXPECT(gcflip_beside_new_from(&mutator, 0, 256, fields, 1) == GCFLIP_OUT_OF_RANGE);
    EXPECT(gcflip_beside_new_from(&mutator, 0, 1, fields, 2) == GCFLIP_OUT_OF_RANGE);
    fields[1] = 0;
    EXPECT(gcflip_beside_new_from(&mutator, 0, 1, fields, 65536) == GCFLIP_OUT_OF_RANGE);
    EXPECT(gcflip_beside_gather(&mutator, ROOTS, 1, 0, 1) == GCFLIP_OUT_OF_RANGE);
    EXPECT(gcflip_beside_gather(&mutator, 0, 256, 0, 1) == GCFLIP_OUT_OF_RANGE);
    EXPECT(gcflip_beside_gather(&mutator, 0, 1, 0, ROOTS + 1) == GCFLIP_OUT_OF_RANGE);
    EXPECT(gcflip_beside_gather(&mutator, 0, 1, UINT32_MAX, 2) == GCFLIP_OUT_OF_RANGE);
    EXPECT(gcflip_beside_gather(&mutator, 0, 1, ROOTS + 1, 0) == GCFLIP_OUT_OF_RANGE);
    EXPECT(gcflip_beside_gather(&mutator, 0, 1, 0, 65536) == GCFLIP_OUT_OF_RANGE);
    EXPECT(gcflip_beside_spread(&mutator, 0, ROOTS, 1) == GCFLIP_OUT_OF_RANGE);
    EXPECT(gcflip_beside_spread(&mutator, ROOTS, 0, 1) == GCFLIP_OUT_OF_RANGE);
    EXPECT(gcflip_beside_spread(&mutator, UINT32_MAX, 0, 2) == GCFLIP_OUT_OF_RANGE);
    EXPECT(gcflip_beside_spread(&mutator, 0, 1, 2) == GCFLIP_OUT_OF_RANGE);
    EXPECT(gcflip_beside_fill(&mutator, ROOTS, 0, 1, 0) == GCFLIP_OUT_OF_RANGE);
    EXPECT(gcflip_beside_fill(&mutator, 0, 0, 1, ROOTS) == GCFLIP_OUT_OF_RANGE);
    EXPECT(gcflip_beside_fill(&mutator, 0, 1, 0, 0) == GCFLIP_OUT_OF_RANGE);
    EXPECT(gcflip_beside_copy_fields(&mutator, ROOTS, 0, 0, 0, 1) == GCFLIP_OUT_OF_RANGE);
    EXPECT(gcflip_beside_copy_fields(&mutator, 0, 0, ROOTS, 0, 1) == GCFLIP_OUT_OF_RANGE);
    EXPECT(gcflip_beside_raw_read(&mutator, ROOTS, 0, words, 1) == GCFLIP_OUT_OF_RANGE);
    EXPECT(gcflip_beside_raw_write(&mutator, ROOTS, 0, words, 1) == GCFLIP_OUT_OF_RANGE);
    EXPECT(words[0] == KEPT && view.kind == 1 && view.count == 2 && view.number == KEPT);
    expect_no_frame(2, EXTRA, 1, 2);
    expect_no_frame(0, 3, 4, 3);
    expect_no_frame(0, 3, 1, 4);
    expect_no_frame(0, EXTRA + 1, 1, 1);
    expect_no_frame(0, UINT32_MAX, 1, 1);
    frame = before;
    EXPECT(gcflip_beside_frame_push(&mutator, ROOTS, &frame) == GCFLIP_OUT_OF_RANGE);
    EXPECT(gcflip_beside_frame_pop(&mutator, ROOTS, &frame) == GCFLIP_OUT_OF_RANGE);
    EXPECT(memcmp(&frame, &before, sizeof frame) == 0);
    for (uint32_t p = 0; p < ROOTS; p++)
        expect_nil(p);
}

/* ---- The replies, worked by hand */

static void roots_in_rows(void)
{
    static const uint32_t fields[4] = {1, 3, ROOTS - 1, 1};
    static const uint32_t none[1] = {0};

    open_both(WORDS);
    out_of_range();
    for (uint32_t p = 1; p < 5; p++)
        EXPECT(gcflip_beside_set_number(&mutator, p, 10 * p) == GCFLIP_DONE);
    EXPECT(gcflip_beside_set_number(&mutator, ROOTS - 1, 7) == GCFLIP_DONE);
    EXPECT(gcflip_beside_new_from(&mutator, 0, 9, fields, 4) == GCFLIP_MADE);
    EXPECT(gcflip_beside_room(&mutator) == WORDS - 1 - 6);
    EXPECT(gcflip_beside_look(&mutator, 0, &view) == GCFLIP_OBJECT && view.kind == 9 && view.count == 4);
    expect_number(0, 0, 10);
    expect_number(0, 1, 30);
    expect_number(0, 2, 7);
    expect_number(0, 3, 10);
    /* root 3 is set before its value is taken, so field 2 refers to the object itself */
    EXPECT(gcflip_beside_gather(&mutator, 3, 8, 1, 4) == GCFLIP_MADE);
    expect_number(3, 0, 10);
    expect_number(3, 1, 20);
    EXPECT(gcflip_beside_peek(&mutator, 3, 2, &view) == GCFLIP_OBJECT && view.kind == 8 && view.count == 4 && view.number == 0);
    expect_number(3, 3, 40);
    EXPECT(gcflip_beside_new_from(&mutator, 5, 1, none, 0) == GCFLIP_MADE);
    EXPECT(gcflip_beside_gather(&mutator, 6, 1, ROOTS, 0) == GCFLIP_MADE);
    EXPECT(gcflip_beside_room(&mutator) == WORDS - 1 - 6 - 6 - 2 - 2);
    EXPECT(gcflip_beside_spread(&mutator, FIRST, 3, 4) == GCFLIP_DONE);
    expect_root(FIRST, 10);
    expect_root(FIRST + 1, 20);
    EXPECT(gcflip_beside_same(&mutator, FIRST + 2, 3) == GCFLIP_SAME);
    expect_root(FIRST + 3, 40);
    expect_nil(FIRST + 4);
    EXPECT(gcflip_beside_spread(&mutator, FIRST, 3, 5) == GCFLIP_NO_FIELD);
    EXPECT(gcflip_beside_spread(&mutator, FIRST, 1, 0) == GCFLIP_NO_OBJECT);
    EXPECT(gcflip_beside_spread(&mutator, FIRST, 8, 1) == GCFLIP_NO_OBJECT);
    EXPECT(gcflip_beside_spread(&mutator, 3, 3, 0) == GCFLIP_DONE);
    EXPECT(gcflip_beside_clear(&mutator, FIRST + 1, FIRST + 3) == GCFLIP_DONE);
    expect_root(FIRST, 10);
    expect_nil(FIRST + 1);
    expect_nil(FIRST + 2);
    expect_root(FIRST + 3, 40);
    EXPECT(gcflip_beside_clear(&mutator, FIRST, FIRST) == GCFLIP_DONE);
    expect_root(FIRST, 10);
    EXPECT(gcflip_beside_peek(&mutator, 3, 4, &view) == GCFLIP_NO_FIELD);
    EXPECT(gcflip_beside_peek(&mutator, 3, UINT32_MAX, &view) == GCFLIP_NO_FIELD);
    EXPECT(gcflip_beside_peek(&mutator, 8, 0, &view) == GCFLIP_NO_OBJECT);
    collect(WORDS);
    expect_number(0, 2, 7);
    EXPECT(gcflip_beside_spread(&mutator, FIRST, 3, 4) == GCFLIP_DONE && gcflip_beside_same(&mutator, FIRST + 2, 3) == GCFLIP_SAME);
    EXPECT(gcflip_beside_clear(&mutator, 0, ROOTS) == GCFLIP_DONE);
    for (uint32_t p = 0; p < ROOTS; p++)
        expect_nil(p);
    /* 239 words are free, and an object takes its fields and two */
    EXPECT(gcflip_beside_room(&mutator) == 239);
    EXPECT(gcflip_beside_new(&mutator, 0, 1, 232) == GCFLIP_MADE);
    EXPECT(gcflip_beside_gather(&mutator, 1, 1, 0, 4) == GCFLIP_FULL && gcflip_beside_new_from(&mutator, 1, 1, fields, 4) == GCFLIP_FULL);
    expect_nil(1);
    EXPECT(gcflip_beside_gather(&mutator, 1, 1, 0, 3) == GCFLIP_MADE && gcflip_beside_room(&mutator) == 0);
    close_both();
}

static void fields_in_rows(void)
{
    open_both(WORDS);
    EXPECT(gcflip_beside_new(&mutator, 0, 1, 5) == GCFLIP_MADE);
    EXPECT(gcflip_beside_new_raw(&mutator, 1, 2, 4) == GCFLIP_MADE);
    EXPECT(gcflip_beside_set_number(&mutator, 2, LARGEST) == GCFLIP_DONE);
    EXPECT(gcflip_beside_fill(&mutator, 0, 1, 3, 2) == GCFLIP_DONE);
    EXPECT(gcflip_beside_peek(&mutator, 0, 0, &view) == GCFLIP_NIL);
    expect_number(0, 1, LARGEST);
    expect_number(0, 2, LARGEST);
    EXPECT(gcflip_beside_peek(&mutator, 0, 3, &view) == GCFLIP_NIL);
    EXPECT(gcflip_beside_fill(&mutator, 0, 4, 6, 2) == GCFLIP_NO_FIELD);
    EXPECT(gcflip_beside_fill(&mutator, 0, UINT32_MAX, UINT32_MAX, 2) == GCFLIP_NO_FIELD);
    EXPECT(gcflip_beside_peek(&mutator, 0, 4, &view) == GCFLIP_NIL);
    EXPECT(gcflip_beside_fill(&mutator, 2, 0, 0, 2) == GCFLIP_NO_OBJECT);
    EXPECT(gcflip_beside_fill(&mutator, 1, 0, 2, 0) == GCFLIP_NO_NUMBER);
    EXPECT(gcflip_beside_fill(&mutator, 1, 0, 4, 2) == GCFLIP_DONE);
    expect_number(1, 3, LARGEST);
    words[0] = 1;
    words[1] = LARGEST - 1;
    words[2] = 3;
    EXPECT(gcflip_beside_raw_write(&mutator, 1, 1, words, 3) == GCFLIP_DONE);
    words[0] = words[1] = words[2] = words[3] = 0;
    EXPECT(gcflip_beside_raw_read(&mutator, 1, 0, words, 4) == GCFLIP_DONE);
    EXPECT(words[0] == LARGEST && words[1] == 1 && words[2] == LARGEST - 1 && words[3] == 3);
    words[0] = KEPT;
    EXPECT(gcflip_beside_raw_read(&mutator, 1, 4, words, 1) == GCFLIP_NO_FIELD);
    EXPECT(gcflip_beside_raw_read(&mutator, 1, 2, words, 3) == GCFLIP_NO_FIELD);
    EXPECT(gcflip_beside_raw_read(&mutator, 1, UINT32_MAX, words, 1) == GCFLIP_NO_FIELD);
    EXPECT(gcflip_beside_raw_read(&mutator, 0, 0, words, 1) == GCFLIP_NO_OBJECT);
    EXPECT(gcflip_beside_raw_read(&mutator, 2, 0, words, 0) == GCFLIP_NO_OBJECT);
    EXPECT(words[0] == KEPT);
    EXPECT(gcflip_beside_raw_read(&mutator, 1, 4, words, 0) == GCFLIP_DONE);
    words[0] = 5;
    words[1] = LARGEST + 1;
    EXPECT(gcflip_beside_raw_write(&mutator, 1, 0, words, 2) == GCFLIP_NO_NUMBER);
    expect_number(1, 0, LARGEST);
    EXPECT(gcflip_beside_raw_write(&mutator, 1, 3, words, 2) == GCFLIP_NO_FIELD);
    EXPECT(gcflip_beside_raw_write(&mutator, 0, 0, words, 1) == GCFLIP_NO_OBJECT);
    EXPECT(gcflip_beside_raw_write(&mutator, 1, 4, words, 0) == GCFLIP_DONE);
    close_both();
}

static void copies(void)
{
    open_both(WORDS);
    for (uint32_t p = 0; p < 4; p++)
        EXPECT(gcflip_beside_set_number(&mutator, p, 10 + p) == GCFLIP_DONE);
    EXPECT(gcflip_beside_gather(&mutator, 4, 1, 0, 4) == GCFLIP_MADE); /* 10 11 12 13 */
    EXPECT(gcflip_beside_new_raw(&mutator, 5, 2, 3) == GCFLIP_MADE);
    EXPECT(gcflip_beside_copy_fields(&mutator, 5, 0, 4, 1, 3) == GCFLIP_DONE);
    expect_number(5, 0, 11);
    expect_number(5, 1, 12);
    expect_number(5, 2, 13);
    /* within one object, upwards: each field is read as it was written */
    EXPECT(gcflip_beside_copy_fields(&mutator, 4, 1, 4, 0, 3) == GCFLIP_DONE);
    for (uint32_t i = 0; i < 4; i++)
        expect_number(4, i, 10);
    EXPECT(gcflip_beside_copy_fields(&mutator, 4, 0, 5, 1, 2) == GCFLIP_DONE);
    expect_number(4, 0, 12);
    expect_number(4, 1, 13);
    expect_number(4, 2, 10);
    EXPECT(gcflip_beside_put(&mutator, 4, 3, 4) == GCFLIP_DONE);
    EXPECT(gcflip_beside_copy_fields(&mutator, 5, 0, 4, 2, 2) == GCFLIP_NO_NUMBER);
    expect_number(5, 0, 11);
    EXPECT(gcflip_beside_copy_fields(&mutator, 5, 0, 4, 2, 1) == GCFLIP_DONE);
    expect_number(5, 0, 10);
    EXPECT(gcflip_beside_copy_fields(&mutator, 5, 2, 4, 0, 2) == GCFLIP_NO_FIELD);
    EXPECT(gcflip_beside_copy_fields(&mutator, 4, 0, 5, 2, 2) == GCFLIP_NO_FIELD);
    EXPECT(gcflip_beside_copy_fields(&mutator, 4, UINT32_MAX, 5, 0, UINT32_MAX) == GCFLIP_NO_FIELD);
    EXPECT(gcflip_beside_copy_fields(&mutator, 0, 0, 5, 0, 0) == GCFLIP_NO_OBJECT);
    EXPECT(gcflip_beside_copy_fields(&mutator, 5, 0, 6, 0, 0) == GCFLIP_NO_OBJECT);
    EXPECT(gcflip_beside_copy_fields(&mutator, 4, 4, 5, 3, 0) == GCFLIP_DONE);
    /* the roots are as they were */
    for (uint32_t p = 0; p < 4; p++)
        expect_root(p, 10 + p);
    close_both();
}

/* A stack in the extra roots 1 to 3, which are at places FIRST + 1 and so on. */
static void frames(void)
{
    open_both(WORDS);
    for (uint32_t p = FIRST; p < ROOTS; p++)
        EXPECT(gcflip_beside_set_number(&mutator, p, 100 + p) == GCFLIP_DONE);
    frame = (gcflip_frame){1, 4, 1, 0};
    EXPECT(gcflip_beside_frame_pop(&mutator, 0, &frame) == GCFLIP_FRAME_EMPTY);
    EXPECT(frame.top == 1 && frame.high == 0);
    for (uint32_t k = 0; k < 3; k++) {
        EXPECT(gcflip_beside_set_number(&mutator, 0, k) == GCFLIP_DONE);
        EXPECT(gcflip_beside_frame_push(&mutator, 0, &frame) == GCFLIP_DONE);
        EXPECT(frame.top == k + 2 && frame.high == k + 2);
        expect_root(FIRST + 1 + k, k);
    }
    EXPECT(gcflip_beside_frame_push(&mutator, 0, &frame) == GCFLIP_FRAME_FULL);
    EXPECT(frame.top == 4 && frame.high == 4);
    EXPECT(gcflip_beside_frame_pop(&mutator, 5, &frame) == GCFLIP_DONE);
    EXPECT(frame.first == 1 && frame.end == 4 && frame.top == 3 && frame.high == 3);
    expect_root(5, 2);
    expect_nil(FIRST + 3);
    /* the program drops two values at once, and the last one is cleared first */
    frame.top = 1;
    EXPECT(gcflip_beside_frame_trim(&mutator, &frame, 0) == GCFLIP_DONE && frame.high == 3);
    EXPECT(gcflip_beside_frame_trim(&mutator, &frame, 1) == GCFLIP_DONE && frame.high == 2 && frame.top == 1);
    expect_nil(FIRST + 2);
    expect_root(FIRST + 1, 0);
    EXPECT(gcflip_beside_frame_push(&mutator, 5, &frame) == GCFLIP_DONE && frame.top == 2 && frame.high == 2);
    expect_root(FIRST + 1, 2);
    frame.high = 4;
    EXPECT(gcflip_beside_frame_pop(&mutator, 6, &frame) == GCFLIP_DONE && frame.top == 1 && frame.high == 4);
    EXPECT(gcflip_beside_frame_trim(&mutator, &frame, UINT32_MAX) == GCFLIP_DONE && frame.high == 1);
    for (uint32_t p = FIRST + 1; p < FIRST + 4; p++)
        expect_nil(p);
    expect_root(FIRST, 100 + FIRST);
    expect_root(FIRST + 4, 100 + FIRST + 4);
    close_both();
}

/* ---- While the collector copies */

/* What was written before the copies were made, and after it, stands after two flips. */
static void logged_writes(void)
{
    open_both(WORDS);
    EXPECT(gcflip_beside_new(&mutator, 0, 1, 4) == GCFLIP_MADE && gcflip_beside_new_raw(&mutator, 1, 2, 4) == GCFLIP_MADE);
    begin_to_copy();
    EXPECT(gcflip_beside_fill(&mutator, 0, 0, 2, 1) == GCFLIP_DONE);
    words[0] = 21;
    words[1] = 22;
    EXPECT(gcflip_beside_raw_write(&mutator, 1, 2, words, 2) == GCFLIP_DONE);
    EXPECT(gcflip_beside_copy_fields(&mutator, 0, 2, 1, 2, 2) == GCFLIP_DONE);
    EXPECT(gcflip_beside_gather(&mutator, 2, 3, 0, 3) == GCFLIP_MADE);
    for (int flip = 0; flip < 2; flip++) {
        collect(WORDS);
        EXPECT(gcflip_beside_spread(&mutator, 4, 0, 4) == GCFLIP_DONE);
        EXPECT(gcflip_beside_same(&mutator, 4, 1) == GCFLIP_SAME && gcflip_beside_same(&mutator, 5, 1) == GCFLIP_SAME);
        expect_root(6, 21);
        expect_root(7, 22);
        EXPECT(gcflip_beside_raw_read(&mutator, 1, 0, words, 4) == GCFLIP_DONE && words[0] == 0 && words[1] == 0 && words[2] == 21 && words[3] == 22);
        EXPECT(gcflip_beside_spread(&mutator, 4, 2, 3) == GCFLIP_DONE);
        EXPECT(gcflip_beside_same(&mutator, 4, 0) == GCFLIP_SAME && gcflip_beside_same(&mutator, 5, 1) == GCFLIP_SAME && gcflip_beside_same(&mutator, 6, 2) == GCFLIP_SAME);
        EXPECT(gcflip_beside_clear(&mutator, 4, 8) == GCFLIP_DONE);
    }
    close_both();
}

static uint32_t written(uint64_t k)
{
    static const uint32_t fields[2] = {0, 1};

    words[0] = words[1] = k;
    switch (k % 5) {
    case 0: return gcflip_beside_raw_write(&mutator, 1, 0, words, 2);
    case 1: return gcflip_beside_fill(&mutator, 1, 0, 2, 2);
    case 2: return gcflip_beside_copy_fields(&mutator, 1, 0, 3, 0, 2);
    case 3: return gcflip_beside_gather(&mutator, 4, 1, 0, 2);
    default: return gcflip_beside_new_from(&mutator, 4, 1, fields, 2);
    }
}

/* Each growth of the log refused: the call then changes nothing, neither fields nor room, and is performed when it is made again. */
static void refused_logs(void)
{
    long failures = 0;

    open_both(1 << 12);
    EXPECT(gcflip_beside_new_raw(&mutator, 1, 2, 2) == GCFLIP_MADE && gcflip_beside_new_raw(&mutator, 3, 2, 2) == GCFLIP_MADE);
    EXPECT(gcflip_beside_set_number(&mutator, 2, 77) == GCFLIP_DONE);
    begin_to_copy();
    for (uint64_t k = 0; k < 1000; k++) {
        uint64_t before[2], after[2];
        uint32_t room = gcflip_beside_room(&mutator), answer;

        EXPECT(gcflip_beside_raw_read(&mutator, 1, 0, before, 2) == GCFLIP_DONE);
        fail_allocation(1);
        answer = written(k);
        if (has_failed()) {
            EXPECT(answer == GCFLIP_NO_MEMORY && gcflip_beside_room(&mutator) == room);
            EXPECT(gcflip_beside_raw_read(&mutator, 1, 0, after, 2) == GCFLIP_DONE && before[0] == after[0] && before[1] == after[1]);
            failures++;
            fail_allocation(0);
            answer = written(k);
        }
        fail_allocation(0);
        EXPECT(answer == (k % 5 < 3 ? GCFLIP_DONE : GCFLIP_MADE));
        EXPECT(gcflip_beside_raw_read(&mutator, 1, 0, after, 2) == GCFLIP_DONE);
        EXPECT(k % 5 > 2 || (after[0] == (k % 5 == 0 ? k : k % 5 == 1 ? 77 : 0) && after[1] == after[0]));
    }
    EXPECT(failures > 0);
    close_both();
}

/* ---- A safepoint that does not wait */

/* Leaves the processor to the collector's thread for two milliseconds. */
static void sleeps(void)
{
    struct timespec time = {0, 2000000};

    nanosleep(&time, NULL);
}

/* The mutator has stopped. Once the collector has let it go on, a safepoint that does not wait lets it run. */
static void goes_on_later(gcflip_thread *thread)
{
    uint32_t tries = 0;

    do {
        sleeps();
        EXPECT(tries++ < 5000);
    } while (gcflip_thread_try_safepoint(thread) == GCFLIP_PARKED);
}

static void safepoints_that_do_not_wait(uint32_t turns)
{
    gcflip_thread *thread;
    gcflip_pace pace = gcflip_pace_default();
    gcflip_thread_counts counts;
    uint64_t parked = 0, ahead = 0;

    pace.factor = 100;
    pace.least = 0;
    EXPECT(gcflip_thread_open(&thread, 1 << 14, EXTRA, &pace) == GCFLIP_DONE);
    EXPECT(gcflip_beside_new(gcflip_thread_mutator(thread), 0, 1, 1000) == GCFLIP_MADE);
    for (uint32_t k = 0; k < turns; k++) {
        uint32_t answer = gcflip_thread_try_safepoint(thread), made;

        EXPECT(answer == GCFLIP_DONE || answer == GCFLIP_PARKED || answer == GCFLIP_NOT_YET);
        parked += answer == GCFLIP_PARKED;
        ahead += answer == GCFLIP_NOT_YET;
        /* a busy machine may let the mutator alone run until the heap is full, and the collector would never ask it to stop */
        if (answer == GCFLIP_NOT_YET && ahead % 1024 == 1)
            sleeps();
        if (answer == GCFLIP_PARKED) {
            EXPECT(gcflip_beside_set_nil(gcflip_thread_mutator(thread), 1) == GCFLIP_PARKED && gcflip_beside_room(gcflip_thread_mutator(thread)) == 0);
            if (parked % 64 == 1)
                goes_on_later(thread);
            else if (k % 7 == 0)
                EXPECT(gcflip_thread_safepoint(thread) == GCFLIP_DONE);
            else if (k % 7 == 1)
                EXPECT(gcflip_thread_collect(thread) == GCFLIP_FLIPPED);
            else
                continue;
        }
        made = gcflip_beside_new(gcflip_thread_mutator(thread), 1, 1, 2);
        EXPECT(made == GCFLIP_MADE || made == GCFLIP_FULL);
        if (made == GCFLIP_FULL)
            EXPECT(gcflip_thread_collect(thread) == GCFLIP_FLIPPED);
        else
            EXPECT(gcflip_beside_put(gcflip_thread_mutator(thread), 0, k % 1000, 1) == GCFLIP_DONE);
    }
    gcflip_thread_read(thread, &counts);
    EXPECT(counts.flips > 0 && counts.failed == 0 && counts.stops > 0);
    EXPECT(parked > 0 && ahead > 0);
    while (gcflip_thread_try_safepoint(thread) == GCFLIP_PARKED) {
    }
    EXPECT(gcflip_beside_look(gcflip_thread_mutator(thread), 0, &view) == GCFLIP_OBJECT && view.count == 1000);
    gcflip_thread_close(thread);
}

/* An argument says how many turns the last part takes. */
int main(int count, char **words)
{
    expect_refused(GCFLIP_CLOSED);
    open_both(WORDS);
    take();
    expect_refused(GCFLIP_PARKED);
    close_both();
    roots_in_rows();
    fields_in_rows();
    copies();
    frames();
    logged_writes();
    refused_logs();
    EXPECT(blocks_in_use() == 0 && bytes_in_use() == 0);
    /* two threads allocate there, and the counts are not theirs */
    safepoints_that_do_not_wait(count > 1 ? (uint32_t)strtoul(words[1], NULL, 10) : 400000);
    return 0;
}
