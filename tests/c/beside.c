/* Each answer of the calls of gcflip_beside.h, in one thread that has both ends; extra roots over flips; a close in each order and at each stage; and each
   allocation refused in turn. Links its own allocation functions instead of the library's. */
#include "both_ends.h"
#include "expect.h"
#include "gcflip_beside.h"
#include "own_allocator.h"
#include <stdbool.h>

enum { WORDS = 256, MOST_EXTRA = 1048576 };

#define KEPT 0x5a5a5a5a5a5a5a5aull
#define KEPT_32 0x5a5a5a5au

static uint64_t number;
static gcflip_view view;
static gcflip_flip_checks checks;
static uint32_t heap_words; /* the size with which the heap was opened */

static void open_with(uint32_t words, uint32_t extra_roots)
{
    heap_words = words;
    fail_allocation(0);
    EXPECT(gcflip_beside_open(&mutator, &collector, words, extra_roots) == GCFLIP_DONE);
}

/* Opens a heap of which each flip with this number checks both spaces whole. */
static void open_checked(uint32_t words, uint32_t extra_roots, uint32_t whole_each)
{
    gcflip_beside_options options = gcflip_beside_options_default(words);

    options.extra_roots = extra_roots;
    options.whole_each = whole_each;
    heap_words = words;
    fail_allocation(0);
    EXPECT(gcflip_beside_open_with(&mutator, &collector, &options) == GCFLIP_DONE);
}

static void open_both(uint32_t words)
{
    open_with(words, 0);
}

static void close_both(void)
{
    EXPECT(gcflip_beside_close_mutator(&mutator) == GCFLIP_DONE);
    EXPECT(gcflip_beside_close_collector(&collector) == GCFLIP_DONE);
    EXPECT(blocks_in_use() == 0);
}

/* An object of kind 1 in root 0, whose field 1 has the number 7. */
static void make_one(void)
{
    EXPECT(gcflip_beside_new(&mutator, 0, 1, 2) == GCFLIP_MADE);
    EXPECT(gcflip_beside_set_number(&mutator, 1, 7) == GCFLIP_DONE);
    EXPECT(gcflip_beside_put(&mutator, 0, 1, 1) == GCFLIP_DONE);
}

static void expect_one(void)
{
    EXPECT(gcflip_beside_get(&mutator, 2, 0, 1, &number) == GCFLIP_NUMBER && number == 7);
    EXPECT(gcflip_beside_look(&mutator, 0, &view) == GCFLIP_OBJECT && view.kind == 1 && view.count == 2 && view.number == 0);
}

/* Lets the mutator go on after a flip, and makes the memory of the next one. */
static void go_on(void)
{
    EXPECT(gcflip_beside_resume(&mutator) == GCFLIP_DONE);
    EXPECT(gcflip_beside_prepare(&collector, heap_words) == GCFLIP_DONE);
}

/* Ends the collection while the mutator waits, which then goes on. */
static void collect(void)
{
    take();
    EXPECT(gcflip_beside_finish(&collector) == GCFLIP_FLIPPED);
    go_on();
}

/* The collector copies the objects of the roots, and lets the mutator go on. No write was logged before, so nothing was due. */
static void begin_to_copy(void)
{
    take();
    EXPECT(gcflip_beside_work(&collector, 1) == GCFLIP_CLEAN);
    EXPECT(gcflip_beside_place_roots(&collector) == GCFLIP_DONE);
    EXPECT(gcflip_beside_go(&collector) == GCFLIP_DONE);
    EXPECT(gcflip_beside_resume(&mutator) == GCFLIP_DONE);
}

/* Every command returns this answer, and changes none of its outputs. */
static void expect_refused(uint32_t answer)
{
    number = KEPT;
    view = (gcflip_view){KEPT_32, KEPT_32, KEPT};
    EXPECT(gcflip_beside_new(&mutator, 0, 1, 2) == answer);
    EXPECT(gcflip_beside_new_raw(&mutator, 0, 1, 2) == answer);
    EXPECT(gcflip_beside_set_number(&mutator, 0, 1) == answer);
    EXPECT(gcflip_beside_set_nil(&mutator, 0) == answer);
    EXPECT(gcflip_beside_copy(&mutator, 0, 1) == answer);
    EXPECT(gcflip_beside_get(&mutator, 0, 1, 0, &number) == answer);
    EXPECT(gcflip_beside_put(&mutator, 0, 0, 1) == answer);
    EXPECT(gcflip_beside_put_number(&mutator, 0, 0, 1) == answer);
    EXPECT(gcflip_beside_put_nil(&mutator, 0, 0) == answer);
    EXPECT(gcflip_beside_new_pair(&mutator, 0, 1, 2, 3) == answer);
    EXPECT(gcflip_beside_same(&mutator, 0, 1) == answer);
    EXPECT(gcflip_beside_look(&mutator, 0, &view) == answer);
    /* also where an argument is out of range */
    EXPECT(gcflip_beside_set_nil(&mutator, 32) == answer);
    EXPECT(gcflip_beside_room(&mutator) == 0);
    EXPECT(gcflip_beside_roots(&mutator) == 0);
    EXPECT(number == KEPT && view.kind == KEPT_32 && view.count == KEPT_32 && view.number == KEPT);
}

static void closed_handles(void)
{
    expect_refused(GCFLIP_CLOSED);
    EXPECT(gcflip_beside_safepoint(&mutator) == GCFLIP_CLOSED);
    EXPECT(gcflip_beside_resume(&mutator) == GCFLIP_CLOSED);
    EXPECT(gcflip_beside_close_mutator(&mutator) == GCFLIP_CLOSED);
    EXPECT(gcflip_beside_work(&collector, 1) == GCFLIP_CLOSED);
    EXPECT(gcflip_beside_work(&collector, 0) == GCFLIP_CLOSED);
    EXPECT(gcflip_beside_prepare(&collector, WORDS) == GCFLIP_CLOSED);
    EXPECT(gcflip_beside_prepare(&collector, 0) == GCFLIP_CLOSED);
    EXPECT(gcflip_beside_ask(&collector) == GCFLIP_CLOSED);
    EXPECT(gcflip_beside_take(&collector) == GCFLIP_CLOSED);
    EXPECT(gcflip_beside_go(&collector) == GCFLIP_CLOSED);
    EXPECT(gcflip_beside_place_roots(&collector) == GCFLIP_CLOSED);
    EXPECT(gcflip_beside_flip(&collector) == GCFLIP_CLOSED);
    EXPECT(gcflip_beside_finish(&collector) == GCFLIP_CLOSED);
    EXPECT(gcflip_beside_close_collector(&collector) == GCFLIP_CLOSED);
}

/* An open that is refused gives no handle an end. */
static void expect_unopened(uint32_t words, uint32_t extra_roots, uint32_t answer)
{
    EXPECT(gcflip_beside_open(&mutator, &collector, words, extra_roots) == answer);
    EXPECT(!mutator.at && !collector.at && blocks_in_use() == 0);
}

static void expect_nil_roots(uint32_t count)
{
    EXPECT(gcflip_beside_roots(&mutator) == count);
    for (uint32_t k = 0; k < count; k++)
        EXPECT(gcflip_beside_look(&mutator, k, &view) == GCFLIP_NIL && view.kind == 0 && view.count == 0 && view.number == 0);
    EXPECT(gcflip_beside_look(&mutator, count, &view) == GCFLIP_OUT_OF_RANGE);
}

static void opening(void)
{
    expect_unopened(0, 0, GCFLIP_OUT_OF_RANGE);
    expect_unopened(0, 1, GCFLIP_OUT_OF_RANGE);
    expect_unopened(WORDS, MOST_EXTRA + 1, GCFLIP_OUT_OF_RANGE);
    expect_unopened(WORDS, UINT32_MAX, GCFLIP_OUT_OF_RANGE);
    open_both(WORDS);
    EXPECT(gcflip_beside_open(&mutator, &collector, WORDS, 0) == GCFLIP_OPEN);
    EXPECT(gcflip_beside_open(&mutator, &collector, 0, 0) == GCFLIP_OPEN);
    EXPECT(gcflip_beside_open(&mutator, &collector, WORDS, UINT32_MAX) == GCFLIP_OPEN);
    EXPECT(gcflip_beside_room(&mutator) == WORDS - 1);
    expect_nil_roots(GCFLIP_BESIDE_ROOTS);
    EXPECT(gcflip_beside_close_mutator(&mutator) == GCFLIP_DONE);
    EXPECT(gcflip_beside_open(&mutator, &collector, WORDS, 0) == GCFLIP_OPEN);
    EXPECT(gcflip_beside_close_collector(&collector) == GCFLIP_DONE);
    EXPECT(blocks_in_use() == 0);
    open_both(WORDS);
    EXPECT(gcflip_beside_close_collector(&collector) == GCFLIP_DONE);
    EXPECT(gcflip_beside_open(&mutator, &collector, WORDS, 0) == GCFLIP_OPEN);
    EXPECT(gcflip_beside_close_mutator(&mutator) == GCFLIP_DONE);
    EXPECT(blocks_in_use() == 0);
    open_with(WORDS, 1);
    expect_nil_roots(33);
    close_both();
    open_with(WORDS, MOST_EXTRA);
    expect_nil_roots(32 + MOST_EXTRA);
    close_both();
}

/* The operands of each command that are out of range, and nothing changes. No root has the place `none`, which follows that of the last root. */
static void out_of_range(uint32_t none)
{
    number = KEPT;
    view = (gcflip_view){KEPT_32, KEPT_32, KEPT};
    EXPECT(gcflip_beside_new(&mutator, none, 1, 2) == GCFLIP_OUT_OF_RANGE);
    EXPECT(gcflip_beside_new(&mutator, 0, 256, 2) == GCFLIP_OUT_OF_RANGE);
    EXPECT(gcflip_beside_new(&mutator, 0, 1, 65536) == GCFLIP_OUT_OF_RANGE);
    EXPECT(gcflip_beside_new_raw(&mutator, UINT32_MAX, 1, 2) == GCFLIP_OUT_OF_RANGE);
    EXPECT(gcflip_beside_new_raw(&mutator, 0, 256, 2) == GCFLIP_OUT_OF_RANGE);
    EXPECT(gcflip_beside_new_raw(&mutator, 0, 1, 65536) == GCFLIP_OUT_OF_RANGE);
    EXPECT(gcflip_beside_set_number(&mutator, none, 1) == GCFLIP_OUT_OF_RANGE);
    EXPECT(gcflip_beside_set_number(&mutator, 0, 1ull << 63) == GCFLIP_OUT_OF_RANGE);
    EXPECT(gcflip_beside_set_nil(&mutator, none) == GCFLIP_OUT_OF_RANGE);
    EXPECT(gcflip_beside_copy(&mutator, none, 0) == GCFLIP_OUT_OF_RANGE);
    EXPECT(gcflip_beside_copy(&mutator, 0, none) == GCFLIP_OUT_OF_RANGE);
    EXPECT(gcflip_beside_get(&mutator, none, 0, 0, &number) == GCFLIP_OUT_OF_RANGE);
    EXPECT(gcflip_beside_get(&mutator, 0, 256, 0, &number) == GCFLIP_OUT_OF_RANGE);
    EXPECT(gcflip_beside_put(&mutator, none, 0, 0) == GCFLIP_OUT_OF_RANGE);
    EXPECT(gcflip_beside_put(&mutator, 0, 0, none) == GCFLIP_OUT_OF_RANGE);
    EXPECT(gcflip_beside_put_number(&mutator, none, 0, 1) == GCFLIP_OUT_OF_RANGE);
    EXPECT(gcflip_beside_put_number(&mutator, 0, 0, 1ull << 63) == GCFLIP_OUT_OF_RANGE);
    EXPECT(gcflip_beside_put_nil(&mutator, none, 0) == GCFLIP_OUT_OF_RANGE);
    EXPECT(gcflip_beside_new_pair(&mutator, none, 1, 0, 0) == GCFLIP_OUT_OF_RANGE);
    EXPECT(gcflip_beside_new_pair(&mutator, 0, 256, 0, 0) == GCFLIP_OUT_OF_RANGE);
    EXPECT(gcflip_beside_new_pair(&mutator, 0, 1, none, 0) == GCFLIP_OUT_OF_RANGE);
    EXPECT(gcflip_beside_new_pair(&mutator, 0, 1, 0, none) == GCFLIP_OUT_OF_RANGE);
    EXPECT(gcflip_beside_same(&mutator, none, 0) == GCFLIP_OUT_OF_RANGE);
    EXPECT(gcflip_beside_same(&mutator, 0, none) == GCFLIP_OUT_OF_RANGE);
    EXPECT(gcflip_beside_look(&mutator, none, &view) == GCFLIP_OUT_OF_RANGE);
    EXPECT(number == KEPT && view.kind == KEPT_32 && view.count == KEPT_32 && view.number == KEPT);
    EXPECT(gcflip_beside_work(&collector, 0) == GCFLIP_OUT_OF_RANGE);
    EXPECT(gcflip_beside_prepare(&collector, 0) == GCFLIP_OUT_OF_RANGE);
}

/* The replies of the commands, at the edges of their operands. The values are worked by hand: an object takes its fields and two words. */
static void commands(void)
{
    open_both(WORDS);
    out_of_range(32);
    expect_nil_roots(32);
    make_one();
    EXPECT(gcflip_beside_room(&mutator) == WORDS - 1 - 4);
    expect_one();
    EXPECT(gcflip_beside_new_raw(&mutator, 31, 255, 3) == GCFLIP_MADE);
    EXPECT(gcflip_beside_room(&mutator) == WORDS - 1 - 4 - 5);
    EXPECT(gcflip_beside_look(&mutator, 31, &view) == GCFLIP_RAW_OBJECT && view.kind == 255 && view.count == 3);
    EXPECT(gcflip_beside_get(&mutator, 5, 31, 2, &number) == GCFLIP_NUMBER && number == 0);
    EXPECT(gcflip_beside_set_number(&mutator, 16, (1ull << 63) - 1) == GCFLIP_DONE);
    EXPECT(gcflip_beside_look(&mutator, 16, &view) == GCFLIP_NUMBER && view.number == (1ull << 63) - 1);
    EXPECT(gcflip_beside_put(&mutator, 31, 0, 16) == GCFLIP_DONE);
    EXPECT(gcflip_beside_get(&mutator, 5, 31, 0, &number) == GCFLIP_NUMBER && number == (1ull << 63) - 1);
    EXPECT(gcflip_beside_put(&mutator, 31, 0, 0) == GCFLIP_NO_NUMBER);
    EXPECT(gcflip_beside_put(&mutator, 31, 3, 16) == GCFLIP_NO_FIELD);
    EXPECT(gcflip_beside_put(&mutator, 0, 65536, 16) == GCFLIP_NO_FIELD);
    EXPECT(gcflip_beside_put(&mutator, 0, UINT32_MAX, 16) == GCFLIP_NO_FIELD);
    EXPECT(gcflip_beside_put(&mutator, 16, 0, 16) == GCFLIP_NO_OBJECT);
    EXPECT(gcflip_beside_put(&mutator, 16, 65536, 16) == GCFLIP_NO_OBJECT);
    EXPECT(gcflip_beside_put(&mutator, 0, 0, 31) == GCFLIP_DONE);
    number = KEPT;
    EXPECT(gcflip_beside_get(&mutator, 6, 0, 0, &number) == GCFLIP_OBJECT);
    EXPECT(gcflip_beside_get(&mutator, 7, 0, 2, &number) == GCFLIP_NO_FIELD);
    EXPECT(gcflip_beside_get(&mutator, 7, 0, 65536 + 1, &number) == GCFLIP_NO_FIELD);
    EXPECT(gcflip_beside_get(&mutator, 7, 7, 0, &number) == GCFLIP_NO_OBJECT);
    EXPECT(gcflip_beside_same(&mutator, 6, 31) == GCFLIP_SAME);
    EXPECT(gcflip_beside_same(&mutator, 6, 0) == GCFLIP_NOT_SAME);
    EXPECT(gcflip_beside_same(&mutator, 7, 8) == GCFLIP_SAME);
    EXPECT(gcflip_beside_set_nil(&mutator, 6) == GCFLIP_DONE);
    EXPECT(gcflip_beside_put(&mutator, 0, 0, 6) == GCFLIP_DONE);
    EXPECT(gcflip_beside_get(&mutator, 8, 0, 0, &number) == GCFLIP_NIL && number == KEPT);
    EXPECT(gcflip_beside_copy(&mutator, 9, 0) == GCFLIP_DONE);
    EXPECT(gcflip_beside_same(&mutator, 9, 0) == GCFLIP_SAME);
    EXPECT(gcflip_beside_new(&mutator, 10, 1, WORDS - 12 + 1) == GCFLIP_FULL);
    EXPECT(gcflip_beside_look(&mutator, 10, &view) == GCFLIP_NIL);
    EXPECT(gcflip_beside_new(&mutator, 10, 1, WORDS - 12) == GCFLIP_MADE);
    EXPECT(gcflip_beside_room(&mutator) == 0);
    EXPECT(gcflip_beside_new(&mutator, 11, 1, 0) == GCFLIP_FULL);
    close_both();
}

/* Numbers and nil that no root holds, and pairs. Values are worked by hand. */
static void values_and_pairs(void)
{
    open_with(16, 1);
    expect_nil_roots(33);
    EXPECT(gcflip_beside_set_number(&mutator, 1, 5) == GCFLIP_DONE);
    EXPECT(gcflip_beside_new_pair(&mutator, 32, 9, 1, 2) == GCFLIP_MADE);
    EXPECT(gcflip_beside_room(&mutator) == 15 - 4);
    EXPECT(gcflip_beside_look(&mutator, 32, &view) == GCFLIP_OBJECT && view.kind == 9 && view.count == 2);
    EXPECT(gcflip_beside_get(&mutator, 3, 32, 0, &number) == GCFLIP_NUMBER && number == 5);
    EXPECT(gcflip_beside_get(&mutator, 3, 32, 1, &number) == GCFLIP_NIL);
    /* a field that takes the value of the pair's own root refers to the pair; the other one takes the pair in root 32 */
    EXPECT(gcflip_beside_new_pair(&mutator, 4, 255, 4, 32) == GCFLIP_MADE);
    EXPECT(gcflip_beside_get(&mutator, 3, 4, 0, &number) == GCFLIP_OBJECT && gcflip_beside_same(&mutator, 3, 4) == GCFLIP_SAME);
    EXPECT(gcflip_beside_get(&mutator, 3, 4, 1, &number) == GCFLIP_OBJECT && gcflip_beside_same(&mutator, 3, 32) == GCFLIP_SAME);
    EXPECT(gcflip_beside_new_raw(&mutator, 5, 1, 2) == GCFLIP_MADE);
    EXPECT(gcflip_beside_room(&mutator) == 15 - 4 - 4 - 4);
    EXPECT(gcflip_beside_new_pair(&mutator, 3, 1, 1, 1) == GCFLIP_FULL);
    EXPECT(gcflip_beside_same(&mutator, 3, 32) == GCFLIP_SAME);
    EXPECT(gcflip_beside_put_number(&mutator, 5, 1, (1ull << 63) - 1) == GCFLIP_DONE);
    EXPECT(gcflip_beside_get(&mutator, 6, 5, 1, &number) == GCFLIP_NUMBER && number == (1ull << 63) - 1);
    EXPECT(gcflip_beside_put_nil(&mutator, 5, 1) == GCFLIP_NO_NUMBER);
    EXPECT(gcflip_beside_put_nil(&mutator, 5, 2) == GCFLIP_NO_FIELD);
    EXPECT(gcflip_beside_put_number(&mutator, 5, 2, 1) == GCFLIP_NO_FIELD);
    EXPECT(gcflip_beside_put_number(&mutator, 4, 65536, 1) == GCFLIP_NO_FIELD);
    EXPECT(gcflip_beside_put_nil(&mutator, 4, UINT32_MAX) == GCFLIP_NO_FIELD);
    EXPECT(gcflip_beside_put_number(&mutator, 1, 0, 1) == GCFLIP_NO_OBJECT);
    EXPECT(gcflip_beside_put_nil(&mutator, 2, 0) == GCFLIP_NO_OBJECT);
    begin_to_copy();
    EXPECT(gcflip_beside_work(&collector, MANY) == GCFLIP_CLEAN);
    /* the collector has copied all three objects, and these writes are logged */
    EXPECT(gcflip_beside_put_number(&mutator, 32, 1, 77) == GCFLIP_DONE);
    EXPECT(gcflip_beside_put_nil(&mutator, 4, 1) == GCFLIP_DONE);
    for (int flip = 0; flip < 2; flip++) {
        collect();
        EXPECT(gcflip_beside_get(&mutator, 3, 32, 1, &number) == GCFLIP_NUMBER && number == 77);
        EXPECT(gcflip_beside_get(&mutator, 3, 4, 1, &number) == GCFLIP_NIL);
        EXPECT(gcflip_beside_get(&mutator, 3, 4, 0, &number) == GCFLIP_OBJECT && gcflip_beside_same(&mutator, 3, 4) == GCFLIP_SAME);
        EXPECT(gcflip_beside_get(&mutator, 6, 5, 1, &number) == GCFLIP_NUMBER && number == (1ull << 63) - 1);
        EXPECT(gcflip_beside_look(&mutator, 1, &view) == GCFLIP_NUMBER && view.number == 5);
        EXPECT(gcflip_beside_set_nil(&mutator, 3) == GCFLIP_DONE && gcflip_beside_set_nil(&mutator, 6) == GCFLIP_DONE);
        EXPECT(gcflip_beside_room(&mutator) == 15 - 4 - 4 - 4);
    }
    close_both();
}

/* Pairs that are made, and values that are put, while the collector copies: with each allocation of the log refused. A pair is then not made, and no root or
   field changes. */
static void refused_pairs(void)
{
    long failures = 0;

    open_both(4096);
    make_one();
    begin_to_copy();
    for (uint64_t k = 0; k < 600; k++) {
        uint32_t room = gcflip_beside_room(&mutator), answer;

        fail_allocation(1);
        answer = k % 3 == 0 ? gcflip_beside_new_pair(&mutator, 3, 2, 0, 1) : k % 3 == 1 ? gcflip_beside_put_number(&mutator, 0, 0, k) : gcflip_beside_put_nil(&mutator, 0, 0);
        if (has_failed()) {
            fail_allocation(0);
            EXPECT(answer == GCFLIP_NO_MEMORY && gcflip_beside_room(&mutator) == room);
            EXPECT(gcflip_beside_get(&mutator, 2, 0, 0, &number) == (k % 3 == 2 ? GCFLIP_NUMBER : GCFLIP_NIL) && (k % 3 != 2 || number == k - 1));
            EXPECT(gcflip_beside_look(&mutator, 3, &view) == (k == 0 ? GCFLIP_NIL : GCFLIP_OBJECT));
            failures++;
            answer = k % 3 == 0 ? gcflip_beside_new_pair(&mutator, 3, 2, 0, 1) : k % 3 == 1 ? gcflip_beside_put_number(&mutator, 0, 0, k) : gcflip_beside_put_nil(&mutator, 0, 0);
        }
        fail_allocation(0);
        EXPECT(answer == (k % 3 == 0 ? GCFLIP_MADE : GCFLIP_DONE));
    }
    EXPECT(failures > 0);
    EXPECT(gcflip_beside_room(&mutator) == 4095 - 4 - 200 * 4);
    collect();
    EXPECT(gcflip_beside_get(&mutator, 2, 0, 0, &number) == GCFLIP_NIL);
    EXPECT(gcflip_beside_get(&mutator, 2, 3, 0, &number) == GCFLIP_OBJECT && gcflip_beside_same(&mutator, 2, 0) == GCFLIP_SAME);
    EXPECT(gcflip_beside_get(&mutator, 2, 3, 1, &number) == GCFLIP_NUMBER && number == 7);
    close_both();
}

/* Each command on the last extra root, whose place is 36, with slots and with other extra roots; over a flip beside, and one while the mutator waits. */
static void extra_roots(void)
{
    open_with(WORDS, 5);
    out_of_range(37);
    expect_nil_roots(37);
    make_one();
    EXPECT(gcflip_beside_new(&mutator, 36, 3, 2) == GCFLIP_MADE);
    EXPECT(gcflip_beside_new_raw(&mutator, 35, 4, 1) == GCFLIP_MADE);
    EXPECT(gcflip_beside_set_number(&mutator, 34, 9) == GCFLIP_DONE);
    EXPECT(gcflip_beside_put(&mutator, 35, 0, 34) == GCFLIP_DONE);
    EXPECT(gcflip_beside_put(&mutator, 36, 1, 35) == GCFLIP_DONE);
    EXPECT(gcflip_beside_put(&mutator, 35, 0, 36) == GCFLIP_NO_NUMBER);
    EXPECT(gcflip_beside_set_nil(&mutator, 35) == GCFLIP_DONE);
    EXPECT(gcflip_beside_copy(&mutator, 33, 36) == GCFLIP_DONE);
    begin_to_copy();
    EXPECT(gcflip_beside_work(&collector, MANY) == GCFLIP_CLEAN);
    /* a write of a field, and one of an extra root, that the collector has copied */
    EXPECT(gcflip_beside_put(&mutator, 36, 0, 0) == GCFLIP_DONE);
    EXPECT(gcflip_beside_set_nil(&mutator, 33) == GCFLIP_DONE);
    for (int flip = 0; flip < 2; flip++) {
        collect();
        EXPECT(gcflip_beside_roots(&mutator) == 37);
        EXPECT(gcflip_beside_look(&mutator, 36, &view) == GCFLIP_OBJECT && view.kind == 3 && view.count == 2);
        EXPECT(gcflip_beside_look(&mutator, 35, &view) == GCFLIP_NIL);
        EXPECT(gcflip_beside_look(&mutator, 34, &view) == GCFLIP_NUMBER && view.number == 9);
        EXPECT(gcflip_beside_look(&mutator, 33, &view) == GCFLIP_NIL);
        EXPECT(gcflip_beside_look(&mutator, 32, &view) == GCFLIP_NIL);
        EXPECT(gcflip_beside_get(&mutator, 33, 36, 1, &number) == GCFLIP_OBJECT);
        EXPECT(gcflip_beside_look(&mutator, 33, &view) == GCFLIP_RAW_OBJECT && view.kind == 4 && view.count == 1);
        EXPECT(gcflip_beside_get(&mutator, 32, 33, 0, &number) == GCFLIP_NUMBER && number == 9);
        EXPECT(gcflip_beside_same(&mutator, 32, 34) == GCFLIP_SAME);
        EXPECT(gcflip_beside_same(&mutator, 33, 36) == GCFLIP_NOT_SAME);
        EXPECT(gcflip_beside_get(&mutator, 33, 36, 0, &number) == GCFLIP_OBJECT);
        EXPECT(gcflip_beside_same(&mutator, 33, 0) == GCFLIP_SAME);
        EXPECT(gcflip_beside_get(&mutator, 33, 36, 2, &number) == GCFLIP_NO_FIELD);
        EXPECT(gcflip_beside_get(&mutator, 33, 34, 0, &number) == GCFLIP_NO_OBJECT);
        EXPECT(gcflip_beside_set_nil(&mutator, 32) == GCFLIP_DONE && gcflip_beside_set_nil(&mutator, 33) == GCFLIP_DONE);
        expect_one();
    }
    /* 255 words without the 4 of the object in root 0, the 4 of the one in root 36, and the 3 of the raw one */
    EXPECT(gcflip_beside_room(&mutator) == WORDS - 1 - 4 - 4 - 3);
    close_both();
}

/* 10,000 extra roots. Each third one refers to an object of its own with one field, each third to that of the root before, and the others hold numbers. */
static void many_extra_roots(void)
{
    enum { EXTRA = 10000, FIRST = 32, OBJECTS = (EXTRA + 2) / 3 };

    open_with(1 << 16, EXTRA);
    for (uint32_t k = 0; k < EXTRA; k++) {
        EXPECT(gcflip_beside_set_number(&mutator, 0, k) == GCFLIP_DONE);
        if (k % 3 == 0) {
            EXPECT(gcflip_beside_new(&mutator, FIRST + k, 1, 1) == GCFLIP_MADE);
            EXPECT(gcflip_beside_put(&mutator, FIRST + k, 0, 0) == GCFLIP_DONE);
        } else {
            EXPECT(gcflip_beside_copy(&mutator, FIRST + k, k % 3 == 1 ? FIRST + k - 1 : 0) == GCFLIP_DONE);
        }
    }
    for (int flip = 0; flip < 2; flip++) {
        collect();
        EXPECT(gcflip_beside_roots(&mutator) == FIRST + EXTRA);
        EXPECT(gcflip_beside_room(&mutator) == (1 << 16) - 1 - 3 * OBJECTS);
        for (uint32_t k = 0; k < EXTRA; k++) {
            if (k % 3 == 2)
                EXPECT(gcflip_beside_look(&mutator, FIRST + k, &view) == GCFLIP_NUMBER && view.number == k);
            else
                EXPECT(gcflip_beside_get(&mutator, 1, FIRST + k, 0, &number) == GCFLIP_NUMBER && number == k - k % 3);
            if (k % 3 == 1)
                EXPECT(gcflip_beside_same(&mutator, FIRST + k, FIRST + k - 1) == GCFLIP_SAME);
        }
        EXPECT(gcflip_beside_look(&mutator, FIRST + EXTRA, &view) == GCFLIP_OUT_OF_RANGE);
    }
    close_both();
}

/* The stages of a handshake, with each call that comes too early. */
static void handshakes(void)
{
    open_both(WORDS);
    make_one();
    EXPECT(gcflip_beside_safepoint(&mutator) == GCFLIP_DONE);
    EXPECT(gcflip_beside_resume(&mutator) == GCFLIP_DONE);
    EXPECT(gcflip_beside_take(&collector) == GCFLIP_NOT_YET);
    EXPECT(gcflip_beside_place_roots(&collector) == GCFLIP_NOT_YET);
    EXPECT(gcflip_beside_flip(&collector) == GCFLIP_NOT_YET);
    EXPECT(gcflip_beside_finish(&collector) == GCFLIP_NOT_YET);
    EXPECT(gcflip_beside_go(&collector) == GCFLIP_DONE);
    EXPECT(gcflip_beside_ask(&collector) == GCFLIP_DONE);
    EXPECT(gcflip_beside_ask(&collector) == GCFLIP_DONE);
    EXPECT(gcflip_beside_take(&collector) == GCFLIP_NOT_YET);
    EXPECT(gcflip_beside_place_roots(&collector) == GCFLIP_NOT_YET);
    EXPECT(gcflip_beside_flip(&collector) == GCFLIP_NOT_YET);
    EXPECT(gcflip_beside_finish(&collector) == GCFLIP_NOT_YET);
    expect_one();
    EXPECT(gcflip_beside_safepoint(&mutator) == GCFLIP_PARKED);
    EXPECT(gcflip_beside_safepoint(&mutator) == GCFLIP_PARKED);
    EXPECT(gcflip_beside_resume(&mutator) == GCFLIP_NOT_YET);
    expect_refused(GCFLIP_PARKED);
    EXPECT(gcflip_beside_take(&collector) == GCFLIP_DONE);
    EXPECT(gcflip_beside_take(&collector) == GCFLIP_DONE);
    EXPECT(gcflip_beside_ask(&collector) == GCFLIP_DONE);
    EXPECT(gcflip_beside_resume(&mutator) == GCFLIP_NOT_YET);
    EXPECT(gcflip_beside_go(&collector) == GCFLIP_DONE);
    EXPECT(gcflip_beside_ask(&collector) == GCFLIP_NOT_YET);
    EXPECT(gcflip_beside_resume(&mutator) == GCFLIP_DONE);
    expect_one();
    close_both();
}

/* The collection that flips takes one step at a time. The object in root 0 is kept, the one that only root 3 had dies. */
static void flips(void)
{
    uint32_t answer, steps = 0;

    open_both(WORDS);
    make_one();
    EXPECT(gcflip_beside_new(&mutator, 3, 2, 10) == GCFLIP_MADE);
    EXPECT(gcflip_beside_set_nil(&mutator, 3) == GCFLIP_DONE);
    EXPECT(gcflip_beside_room(&mutator) == WORDS - 1 - 4 - 12);
    take();
    /* the object in root 0 has no replica, and no step gives it one */
    EXPECT(gcflip_beside_flip(&collector) == GCFLIP_NOT_READY);
    EXPECT(gcflip_beside_work(&collector, 1) == GCFLIP_CLEAN);
    EXPECT(gcflip_beside_flip(&collector) == GCFLIP_NOT_READY);
    fail_allocation(1);
    EXPECT(gcflip_beside_place_roots(&collector) == GCFLIP_DONE && gcflip_beside_place_roots(&collector) == GCFLIP_DONE && !has_failed());
    fail_allocation(0);
    while ((answer = gcflip_beside_flip(&collector)) == GCFLIP_NOT_READY) {
        EXPECT(gcflip_beside_work(&collector, 1) == GCFLIP_DONE && steps++ < WORDS);
    }
    EXPECT(answer == GCFLIP_FLIPPED);
    EXPECT(gcflip_beside_flip(&collector) == GCFLIP_NOT_YET);
    expect_refused(GCFLIP_PARKED);
    go_on();
    EXPECT(gcflip_beside_room(&mutator) == WORDS - 1 - 4);
    expect_one();
    collect();
    expect_one();
    close_both();
}

/* The fields of a raw object that a root refers to are copied with it, so that one step is left, which goes over them. */
static void raw_roots(void)
{
    open_both(WORDS);
    for (uint32_t d = 0; d < 3; d++) {
        EXPECT(gcflip_beside_new_raw(&mutator, d, 1, 3) == GCFLIP_MADE);
        EXPECT(gcflip_beside_set_number(&mutator, 9, 70 + d) == GCFLIP_DONE);
        EXPECT(gcflip_beside_put(&mutator, d, 2, 9) == GCFLIP_DONE);
    }
    take();
    EXPECT(gcflip_beside_place_roots(&collector) == GCFLIP_DONE);
    EXPECT(gcflip_beside_work(&collector, 3) == GCFLIP_DONE);
    EXPECT(gcflip_beside_work(&collector, 1) == GCFLIP_CLEAN);
    EXPECT(gcflip_beside_flip(&collector) == GCFLIP_FLIPPED);
    EXPECT(gcflip_beside_resume(&mutator) == GCFLIP_DONE);
    for (uint32_t d = 0; d < 3; d++) {
        EXPECT(gcflip_beside_get(&mutator, 9, d, 0, &number) == GCFLIP_NUMBER && number == 0);
        EXPECT(gcflip_beside_get(&mutator, 9, d, 2, &number) == GCFLIP_NUMBER && number == 70 + d);
    }
    close_both();
}

/* The mutator has stopped, and the collector tries to take it, which has this answer. Then the mutator goes on. */
static void try_to_take(uint32_t answer)
{
    EXPECT(gcflip_beside_ask(&collector) == GCFLIP_DONE);
    EXPECT(gcflip_beside_safepoint(&mutator) == GCFLIP_PARKED);
    EXPECT(gcflip_beside_take(&collector) == answer);
    EXPECT(gcflip_beside_flip(&collector) == (answer == GCFLIP_DONE ? GCFLIP_NOT_READY : GCFLIP_NOT_YET));
    EXPECT(gcflip_beside_go(&collector) == GCFLIP_DONE);
    EXPECT(gcflip_beside_resume(&mutator) == GCFLIP_DONE);
}

/* The collector takes the log while replicas are left to scan, and no second one before the entries of the first are applied. Steps apply them first. */
static void takes_logs_early(void)
{
    enum { ENTRIES = 5 };

    open_both(WORDS);
    make_one();
    begin_to_copy();
    try_to_take(GCFLIP_DONE);
    for (uint64_t k = 0; k < ENTRIES; k++) {
        EXPECT(gcflip_beside_set_number(&mutator, 1, 7 + k % 2) == GCFLIP_DONE);
        EXPECT(gcflip_beside_put(&mutator, 0, 1, 1) == GCFLIP_DONE);
    }
    try_to_take(GCFLIP_DONE);
    for (uint32_t left = ENTRIES; left > 0; left--) {
        try_to_take(GCFLIP_NOT_YET);
        EXPECT(gcflip_beside_work(&collector, 1) == GCFLIP_DONE);
    }
    try_to_take(GCFLIP_DONE);
    EXPECT(gcflip_beside_work(&collector, MANY) == GCFLIP_CLEAN);
    take();
    EXPECT(gcflip_beside_flip(&collector) == GCFLIP_FLIPPED);
    go_on();
    expect_one();
    close_both();
}

/* Copying begins while the collector holds the mutator, and goes on beside it. */
static void copies_beside(void)
{
    open_both(WORDS);
    make_one();
    begin_to_copy();
    EXPECT(gcflip_beside_work(&collector, 1) == GCFLIP_DONE);
    EXPECT(gcflip_beside_work(&collector, MANY) == GCFLIP_CLEAN);
    EXPECT(gcflip_beside_set_number(&mutator, 1, 8) == GCFLIP_DONE);
    EXPECT(gcflip_beside_put(&mutator, 0, 0, 1) == GCFLIP_DONE);
    EXPECT(gcflip_beside_ask(&collector) == GCFLIP_DONE);
    EXPECT(gcflip_beside_safepoint(&mutator) == GCFLIP_PARKED);
    EXPECT(gcflip_beside_take(&collector) == GCFLIP_DONE);
    /* the field that was logged is due */
    EXPECT(gcflip_beside_flip(&collector) == GCFLIP_NOT_READY);
    EXPECT(gcflip_beside_work(&collector, MANY) == GCFLIP_CLEAN);
    EXPECT(gcflip_beside_flip(&collector) == GCFLIP_FLIPPED);
    EXPECT(gcflip_beside_resume(&mutator) == GCFLIP_DONE);
    EXPECT(gcflip_beside_get(&mutator, 2, 0, 0, &number) == GCFLIP_NUMBER && number == 8);
    expect_one();
    close_both();
}

/* Leads both ends to a stage: 0 beside each other, 1 asked, 2 stopped, 3 held, 4 held with the object in root 0 copied, 5 let go. */
static void lead_to(int stage)
{
    open_both(WORDS);
    make_one();
    if (stage >= 1)
        EXPECT(gcflip_beside_ask(&collector) == GCFLIP_DONE);
    if (stage >= 2)
        EXPECT(gcflip_beside_safepoint(&mutator) == GCFLIP_PARKED);
    if (stage >= 3)
        EXPECT(gcflip_beside_take(&collector) == GCFLIP_DONE);
    if (stage >= 4)
        EXPECT(gcflip_beside_place_roots(&collector) == GCFLIP_DONE);
    if (stage >= 5)
        EXPECT(gcflip_beside_finish(&collector) == GCFLIP_FLIPPED);
}

/* A close in each order at each stage. After the collector's, the mutator has its objects and is never asked again. */
static void closes(void)
{
    for (int stage = 0; stage <= 5; stage++) {
        lead_to(stage);
        close_both();
        lead_to(stage);
        EXPECT(gcflip_beside_close_collector(&collector) == GCFLIP_DONE && !collector.at);
        EXPECT(gcflip_beside_resume(&mutator) == GCFLIP_DONE);
        expect_one();
        EXPECT(gcflip_beside_safepoint(&mutator) == GCFLIP_DONE);
        EXPECT(gcflip_beside_new(&mutator, 4, 1, 1) == GCFLIP_MADE);
        EXPECT(gcflip_beside_close_mutator(&mutator) == GCFLIP_DONE && !mutator.at);
        EXPECT(blocks_in_use() == 0);
        /* `go` withdraws at each stage too, and another handshake is possible */
        lead_to(stage);
        EXPECT(gcflip_beside_go(&collector) == GCFLIP_DONE);
        EXPECT(gcflip_beside_resume(&mutator) == GCFLIP_DONE);
        expect_one();
        if (stage >= 5)
            EXPECT(gcflip_beside_prepare(&collector, WORDS) == GCFLIP_DONE);
        collect();
        expect_one();
        close_both();
    }
}

static void expect_checks(uint64_t along, uint64_t whole)
{
    checks = (gcflip_flip_checks){KEPT, KEPT};
    EXPECT(gcflip_beside_flip_checks(&collector, &checks) == GCFLIP_DONE);
    EXPECT(checks.along == along && checks.whole == whole);
}

/* Each flip with the number of the option checks both spaces whole, counted from the last one that did. */
static void whole_checks(void)
{
    enum { FLIPS = 13 };

    checks = (gcflip_flip_checks){KEPT, KEPT};
    EXPECT(gcflip_beside_flip_checks(&collector, &checks) == GCFLIP_CLOSED && checks.along == KEPT && checks.whole == KEPT);
    for (uint32_t each = 0; each < 5; each++) {
        gcflip_beside_options options = gcflip_beside_options_default(WORDS);

        EXPECT(options.bytes == 16 && options.size == WORDS && options.extra_roots == 0 && options.whole_each == 0);
        options.extra_roots = 3;
        options.whole_each = each;
        heap_words = WORDS;
        for (uint32_t wrong = 0; wrong < 40; wrong += 4) {
            options.bytes = wrong;
            if (wrong != 16)
                EXPECT(gcflip_beside_open_with(&mutator, &collector, &options) == GCFLIP_OUT_OF_RANGE && !mutator.at && !collector.at);
        }
        options.bytes = 16;
        EXPECT(gcflip_beside_open_with(&mutator, &collector, &options) == GCFLIP_DONE);
        EXPECT(gcflip_beside_open_with(&mutator, &collector, &options) == GCFLIP_OPEN);
        options.bytes = 15;
        EXPECT(gcflip_beside_open_with(&mutator, &collector, &options) == GCFLIP_OPEN);
        expect_nil_roots(35);
        make_one();
        for (uint32_t flip = 1; flip <= FLIPS; flip++) {
            take();
            expect_checks(each == 0 ? flip - 1 : flip - 1 - (flip - 1) / each, each == 0 ? 0 : (flip - 1) / each);
            EXPECT(gcflip_beside_place_roots(&collector) == GCFLIP_DONE);
            EXPECT(gcflip_beside_work(&collector, MANY) == GCFLIP_CLEAN);
            EXPECT((flip % 2 ? gcflip_beside_flip : gcflip_beside_finish)(&collector) == GCFLIP_FLIPPED);
            go_on();
            expect_one();
        }
        expect_checks(each == 0 ? FLIPS : FLIPS - FLIPS / each, each == 0 ? 0 : FLIPS / each);
        close_both();
    }
    /* a size and a number of extra roots are refused as open refuses them */
    for (int k = 0; k < 2; k++) {
        gcflip_beside_options options = gcflip_beside_options_default(k ? WORDS : 0);

        options.extra_roots = k ? MOST_EXTRA + 1 : 0;
        EXPECT(gcflip_beside_open_with(&mutator, &collector, &options) == GCFLIP_OUT_OF_RANGE && !mutator.at && !collector.at);
    }
}

/* Each allocation of a call refused in turn. Nothing is lost, and the call then succeeds. */
static void refused_open(void)
{
    for (long n = 1;; n++) {
        fail_allocation(n);
        if (gcflip_beside_open(&mutator, &collector, WORDS, 5) == GCFLIP_DONE) {
            EXPECT(!has_failed() && n > 4);
            break;
        }
        EXPECT(has_failed() && !mutator.at && !collector.at && blocks_in_use() == 0);
    }
    expect_nil_roots(37);
    close_both();
}

/* A put needs no memory where it is not logged. */
static void put_without_memory(void)
{
    for (int k = 0; k < 100; k++) {
        fail_allocation(1);
        EXPECT(gcflip_beside_put(&mutator, 0, 0, 1) == GCFLIP_DONE && !has_failed());
        fail_allocation(0);
    }
}

/* A put is logged, and so needs memory, once the collector has begun to copy, and no longer than up to its flip. */
static void refused_put(void)
{
    long failures = 0;

    open_both(WORDS);
    make_one();
    put_without_memory();
    begin_to_copy();
    /* field 0 has the number before the one that is put */
    EXPECT(gcflip_beside_set_number(&mutator, 1, 99) == GCFLIP_DONE);
    EXPECT(gcflip_beside_put(&mutator, 0, 0, 1) == GCFLIP_DONE);
    for (uint64_t k = 0; k < 100; k++) {
        uint32_t answer;

        EXPECT(gcflip_beside_set_number(&mutator, 1, 100 + k) == GCFLIP_DONE);
        fail_allocation(1);
        answer = gcflip_beside_put(&mutator, 0, 0, 1);
        if (has_failed()) {
            fail_allocation(0);
            EXPECT(answer == GCFLIP_NO_MEMORY);
            EXPECT(gcflip_beside_get(&mutator, 2, 0, 0, &number) == GCFLIP_NUMBER && number == 100 + k - 1);
            failures++;
            answer = gcflip_beside_put(&mutator, 0, 0, 1);
        }
        EXPECT(answer == GCFLIP_DONE);
    }
    fail_allocation(0);
    EXPECT(failures > 0);
    collect();
    EXPECT(gcflip_beside_get(&mutator, 2, 0, 0, &number) == GCFLIP_NUMBER && number == 199);
    put_without_memory();
    close_both();
}

/* Where memory runs out for a flip, the mutator keeps all its roots, and the flip is not counted. The last extra one, whose place is 36, refers to the object
   too. */
static void refused_flip(uint32_t (*call)(gcflip_collector *), uint32_t whole_each)
{
    open_checked(WORDS, 5, whole_each);
    make_one();
    EXPECT(gcflip_beside_copy(&mutator, 36, 0) == GCFLIP_DONE);
    take();
    for (long n = 1;; n++) {
        uint32_t answer;

        fail_allocation(n);
        while ((answer = call(&collector)) == GCFLIP_NOT_READY) {
            EXPECT(gcflip_beside_place_roots(&collector) == GCFLIP_DONE);
            EXPECT(gcflip_beside_work(&collector, MANY) == GCFLIP_CLEAN);
        }
        if (answer == GCFLIP_FLIPPED) {
            /* the moved roots; the words of both spaces and the pairs too, where they are checked whole */
            EXPECT(!has_failed() && n > (whole_each ? 4 : 1));
            expect_checks(!whole_each, whole_each);
            break;
        }
        EXPECT(answer == GCFLIP_NO_MEMORY && has_failed());
        EXPECT(gcflip_beside_resume(&mutator) == GCFLIP_NOT_YET);
        expect_checks(0, 0);
        if (n % 2) {
            /* the mutator goes on in the same space meanwhile */
            fail_allocation(0);
            EXPECT(gcflip_beside_go(&collector) == GCFLIP_DONE);
            EXPECT(gcflip_beside_resume(&mutator) == GCFLIP_DONE);
            expect_one();
            EXPECT(gcflip_beside_same(&mutator, 36, 0) == GCFLIP_SAME);
            take();
        }
    }
    EXPECT(gcflip_beside_resume(&mutator) == GCFLIP_DONE);
    expect_one();
    EXPECT(gcflip_beside_roots(&mutator) == 37 && gcflip_beside_same(&mutator, 36, 0) == GCFLIP_SAME);
    close_both();
}

/* Each allocation of a prepare refused in turn: the collection is unchanged, and the call then succeeds. */
static void refused_prepare(void)
{
    open_both(WORDS);
    make_one();
    take();
    EXPECT(gcflip_beside_finish(&collector) == GCFLIP_FLIPPED);
    EXPECT(gcflip_beside_resume(&mutator) == GCFLIP_DONE);
    /* the new space has one word, so that the object has no room */
    take();
    EXPECT(gcflip_beside_place_roots(&collector) == GCFLIP_NO_ROOM);
    EXPECT(gcflip_beside_go(&collector) == GCFLIP_DONE);
    EXPECT(gcflip_beside_resume(&mutator) == GCFLIP_DONE);
    for (long n = 1;; n++) {
        uint32_t answer;

        fail_allocation(n);
        answer = gcflip_beside_prepare(&collector, 2 * WORDS);
        if (answer == GCFLIP_DONE) {
            EXPECT(!has_failed() && n > 4);
            break;
        }
        EXPECT(answer == GCFLIP_NO_MEMORY && has_failed());
        EXPECT(gcflip_beside_work(&collector, 1) == GCFLIP_NO_ROOM);
        expect_one();
    }
    fail_allocation(0);
    take();
    EXPECT(gcflip_beside_finish(&collector) == GCFLIP_FLIPPED);
    EXPECT(gcflip_beside_resume(&mutator) == GCFLIP_DONE);
    EXPECT(gcflip_beside_room(&mutator) == 2 * WORDS - 1 - 4);
    expect_one();
    close_both();
}

/* A flip puts the memory of the old heap aside, and the prepare behind it frees that. So after each prepare the heap has as many bytes as before. */
static void memory_of_flips(void)
{
    size_t first = 0;

    open_both(1 << 16);
    make_one();
    for (int flip = 0; flip < 10; flip++) {
        size_t before, after;

        take();
        EXPECT(gcflip_beside_place_roots(&collector) == GCFLIP_DONE && gcflip_beside_work(&collector, MANY) == GCFLIP_CLEAN);
        before = bytes_in_use();
        EXPECT(gcflip_beside_flip(&collector) == GCFLIP_FLIPPED);
        /* the moved roots may take other bytes than the old ones */
        after = bytes_in_use();
        EXPECT(after + 1024 > before && before + 1024 > after);
        go_on();
        if (flip == 0)
            first = bytes_in_use();
        EXPECT(flip == 0 || bytes_in_use() == first);
    }
    /* two spaces of cells, each with a bit a word for its starts, and zeros from which the next one is made; claims of two bytes a word for both, and those of
       the last flip, which tell where objects went; less than 3 bytes a word for the checker's tables, and less than 8 KiB of other blocks */
    EXPECT(first < (3 * 8 + 3 * 2 + 3) * (1 << 16) + 2 * (1 << 13) + 8192);
    close_both();
}

/* A heap whose objects take 4 words gets more words at a flip, and then fewer, down to the 5 that it needs. With 4 there is no room. */
static void sizes(void)
{
    static const uint32_t words[] = {2 * WORDS, 1 << 16, 100, 5, WORDS};

    open_both(WORDS);
    make_one();
    for (size_t k = 0; k < sizeof words / sizeof words[0]; k++) {
        EXPECT(gcflip_beside_prepare(&collector, words[k]) == GCFLIP_DONE);
        take();
        EXPECT(gcflip_beside_finish(&collector) == GCFLIP_FLIPPED);
        EXPECT(gcflip_beside_resume(&mutator) == GCFLIP_DONE);
        EXPECT(gcflip_beside_room(&mutator) == words[k] - 1 - 4);
        expect_one();
    }
    EXPECT(gcflip_beside_prepare(&collector, 4) == GCFLIP_DONE);
    take();
    EXPECT(gcflip_beside_finish(&collector) == GCFLIP_NOT_READY);
    EXPECT(gcflip_beside_prepare(&collector, WORDS) == GCFLIP_NOT_YET);
    EXPECT(gcflip_beside_go(&collector) == GCFLIP_DONE);
    EXPECT(gcflip_beside_prepare(&collector, WORDS) == GCFLIP_DONE);
    EXPECT(gcflip_beside_resume(&mutator) == GCFLIP_DONE);
    EXPECT(gcflip_beside_ask(&collector) == GCFLIP_DONE);
    EXPECT(gcflip_beside_prepare(&collector, WORDS) == GCFLIP_NOT_YET);
    EXPECT(gcflip_beside_go(&collector) == GCFLIP_DONE);
    collect();
    expect_one();
    close_both();
}

/* A collection that has copied an object, and has a field to bring up to date, begins anew. It copies the object again, and has the field. */
static void begins_anew(void)
{
    open_both(WORDS);
    make_one();
    begin_to_copy();
    EXPECT(gcflip_beside_set_number(&mutator, 1, 8) == GCFLIP_DONE);
    EXPECT(gcflip_beside_put(&mutator, 0, 0, 1) == GCFLIP_DONE);
    take();
    EXPECT(gcflip_beside_go(&collector) == GCFLIP_DONE);
    EXPECT(gcflip_beside_resume(&mutator) == GCFLIP_DONE);
    EXPECT(gcflip_beside_prepare(&collector, 2 * WORDS) == GCFLIP_DONE);
    EXPECT(gcflip_beside_work(&collector, 1) == GCFLIP_CLEAN);
    take();
    EXPECT(gcflip_beside_flip(&collector) == GCFLIP_NOT_READY);
    EXPECT(gcflip_beside_finish(&collector) == GCFLIP_FLIPPED);
    go_on();
    EXPECT(gcflip_beside_room(&mutator) == 2 * WORDS - 1 - 4);
    EXPECT(gcflip_beside_get(&mutator, 2, 0, 0, &number) == GCFLIP_NUMBER && number == 8);
    expect_one();
    close_both();
}

int main(void)
{
    closed_handles();
    opening();
    commands();
    values_and_pairs();
    extra_roots();
    many_extra_roots();
    handshakes();
    flips();
    raw_roots();
    takes_logs_early();
    copies_beside();
    closes();
    whole_checks();
    refused_open();
    refused_put();
    refused_pairs();
    for (uint32_t whole_each = 0; whole_each < 2; whole_each++) {
        refused_flip(gcflip_beside_flip, whole_each);
        refused_flip(gcflip_beside_finish, whole_each);
    }
    refused_prepare();
    memory_of_flips();
    sizes();
    begins_anew();
    closed_handles();
    EXPECT(blocks_in_use() == 0 && bytes_in_use() == 0);
    return 0;
}
