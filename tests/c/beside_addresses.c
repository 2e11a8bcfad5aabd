/* The calls of gcflip_beside.h by address, in one thread that has both ends: what they tell, what they refuse, and what they tell after each flip. */
#include "both_ends.h"
#include "expect.h"
#include "gcflip_beside.h"
#include <stdbool.h>

enum { WORDS = 256, EXTRA = 4, LAST = GCFLIP_BESIDE_ROOTS + EXTRA - 1 };

#define KEPT 0x5a5a5a5a5a5a5a5aull
#define KEPT_32 0x5a5a5a5au

static gcflip_view view;
static uint32_t address;

static void open_both(uint32_t words)
{
    EXPECT(gcflip_beside_open(&mutator, &collector, words, EXTRA) == GCFLIP_DONE);
}

static void close_both(void)
{
    EXPECT(gcflip_beside_close_mutator(&mutator) == GCFLIP_DONE);
    EXPECT(gcflip_beside_close_collector(&collector) == GCFLIP_DONE);
}

/* The mutator, which the collector holds, goes on without a flip. */
static void let_go(void)
{
    EXPECT(gcflip_beside_go(&collector) == GCFLIP_DONE);
    EXPECT(gcflip_beside_resume(&mutator) == GCFLIP_DONE);
}

/* The mutator goes through a flip to a space of this size. */
static void flip(uint32_t words)
{
    uint64_t flips = gcflip_beside_flips(&mutator);

    EXPECT(gcflip_beside_prepare(&collector, words) == GCFLIP_DONE);
    take();
    EXPECT(gcflip_beside_finish(&collector) == GCFLIP_FLIPPED);
    EXPECT(gcflip_beside_resume(&mutator) == GCFLIP_DONE);
    EXPECT(gcflip_beside_flips(&mutator) == flips + 1);
}

/* The object of root s is at this address. */
static void expect_address(uint32_t s, uint32_t wanted)
{
    address = KEPT_32;
    EXPECT(gcflip_beside_address(&mutator, s, &address) == GCFLIP_DONE && address == wanted);
}

/* Root s refers to no object. */
static void expect_no_address(uint32_t s)
{
    address = KEPT_32;
    EXPECT(gcflip_beside_address(&mutator, s, &address) == GCFLIP_NO_OBJECT && address == KEPT_32);
}

static void expect_moved(uint32_t old, uint32_t wanted)
{
    address = KEPT_32;
    EXPECT(gcflip_beside_moved(&mutator, old, &address) == GCFLIP_DONE && address == wanted);
}

static void expect_died(uint32_t old)
{
    address = KEPT_32;
    EXPECT(gcflip_beside_moved(&mutator, old, &address) == GCFLIP_NO_OBJECT && address == KEPT_32);
}

/* No object had this address before the flip. */
static void expect_any(uint32_t old)
{
    uint32_t answer = gcflip_beside_moved(&mutator, old, &address);

    EXPECT(answer == GCFLIP_DONE || answer == GCFLIP_NO_OBJECT);
}

static void expect_view(uint32_t kind, uint32_t count, uint64_t number)
{
    EXPECT(view.kind == kind && view.count == count && view.number == number);
}

/* ---- What is refused */

/* Each call that writes something has left it as it was. */
static void expect_kept(void)
{
    EXPECT(address == KEPT_32 && view.kind == KEPT_32 && view.count == KEPT_32 && view.number == KEPT);
}

static void set_kept(void)
{
    address = KEPT_32;
    view = (gcflip_view){KEPT_32, KEPT_32, KEPT};
}

/* Each call returns this answer, also for a place that no root has, and writes nothing. */
static void expect_refused(uint32_t answer)
{
    set_kept();
    EXPECT(gcflip_beside_address(&mutator, 0, &address) == answer);
    EXPECT(gcflip_beside_address(&mutator, LAST + 1, &address) == answer);
    EXPECT(gcflip_beside_moved(&mutator, 1, &address) == answer);
    EXPECT(gcflip_beside_refer(&mutator, 0, 1) == answer);
    EXPECT(gcflip_beside_refer(&mutator, UINT32_MAX, 1) == answer);
    EXPECT(gcflip_beside_object_at(&mutator, 1, &view) == answer);
    EXPECT(gcflip_beside_field_at(&mutator, 1, 0, &view) == answer);
    EXPECT(gcflip_beside_flips(&mutator) == 0);
    expect_kept();
}

static void refusals(void)
{
    expect_refused(GCFLIP_CLOSED);
    open_both(WORDS);
    EXPECT(gcflip_beside_new(&mutator, 0, 1, 2) == GCFLIP_MADE);
    set_kept();
    EXPECT(gcflip_beside_address(&mutator, LAST + 1, &address) == GCFLIP_OUT_OF_RANGE);
    EXPECT(gcflip_beside_address(&mutator, UINT32_MAX, &address) == GCFLIP_OUT_OF_RANGE);
    EXPECT(gcflip_beside_refer(&mutator, LAST + 1, 1) == GCFLIP_OUT_OF_RANGE);
    EXPECT(gcflip_beside_refer(&mutator, UINT32_MAX, 1) == GCFLIP_OUT_OF_RANGE);
    /* no flip has been */
    EXPECT(gcflip_beside_moved(&mutator, 1, &address) == GCFLIP_OUT_OF_RANGE);
    EXPECT(gcflip_beside_moved(&mutator, UINT32_MAX, &address) == GCFLIP_OUT_OF_RANGE);
    expect_kept();
    /* the mutator has stopped, is held, and has been let go */
    EXPECT(gcflip_beside_ask(&collector) == GCFLIP_DONE);
    expect_address(0, 1);
    EXPECT(gcflip_beside_safepoint(&mutator) == GCFLIP_PARKED);
    expect_refused(GCFLIP_PARKED);
    EXPECT(gcflip_beside_take(&collector) == GCFLIP_DONE);
    expect_refused(GCFLIP_PARKED);
    EXPECT(gcflip_beside_go(&collector) == GCFLIP_DONE);
    expect_refused(GCFLIP_PARKED);
    EXPECT(gcflip_beside_resume(&mutator) == GCFLIP_DONE);
    expect_address(0, 1);
    close_both();
    expect_refused(GCFLIP_CLOSED);
}

/* ---- What they tell */

/* Three objects in a row: at 1 one of kind 1 with fields 7, a reference to the second, and nil; at 6 a raw one with fields 0 and 2^63 - 1; at 10 one without
   fields. Roots 0, 4 and LAST refer to them. */
static void make_three(void)
{
    EXPECT(gcflip_beside_new(&mutator, 0, 1, 3) == GCFLIP_MADE);
    EXPECT(gcflip_beside_new_raw(&mutator, 4, 255, 2) == GCFLIP_MADE);
    EXPECT(gcflip_beside_new(&mutator, LAST, 2, 0) == GCFLIP_MADE);
    EXPECT(gcflip_beside_put_number(&mutator, 0, 0, 7) == GCFLIP_DONE);
    EXPECT(gcflip_beside_put(&mutator, 0, 1, 4) == GCFLIP_DONE);
    EXPECT(gcflip_beside_put_number(&mutator, 4, 1, (1ull << 63) - 1) == GCFLIP_DONE);
}

/* The fields of these objects, of which the second is at `raw`. */
static void expect_fields(uint32_t first, uint32_t raw)
{
    EXPECT(gcflip_beside_field_at(&mutator, first, 0, &view) == GCFLIP_NUMBER);
    expect_view(0, 0, 7);
    EXPECT(gcflip_beside_field_at(&mutator, first, 1, &view) == GCFLIP_RAW_OBJECT);
    expect_view(255, 2, raw);
    EXPECT(gcflip_beside_field_at(&mutator, first, 2, &view) == GCFLIP_NIL);
    expect_view(0, 0, 0);
    EXPECT(gcflip_beside_field_at(&mutator, raw, 0, &view) == GCFLIP_NUMBER);
    expect_view(0, 0, 0);
    EXPECT(gcflip_beside_field_at(&mutator, raw, 1, &view) == GCFLIP_NUMBER);
    expect_view(0, 0, (1ull << 63) - 1);
}

/* At each place a reference is made exactly where an object starts, and a root keeps its value elsewhere. */
static void expect_starts(const uint32_t *starts, size_t count)
{
    size_t met = 0;

    for (uint32_t a = 0; a < WORDS + 10; a++) {
        bool is_start = met < count && a == starts[met];

        EXPECT(gcflip_beside_set_number(&mutator, 9, a) == GCFLIP_DONE);
        EXPECT(gcflip_beside_refer(&mutator, 9, a) == (is_start ? GCFLIP_DONE : GCFLIP_NO_OBJECT));
        EXPECT(gcflip_beside_look(&mutator, 9, &view) == (is_start ? GCFLIP_OBJECT : GCFLIP_NUMBER) || (is_start && view.kind == 255));
        if (is_start) {
            expect_address(9, a);
            met++;
        }
        EXPECT((gcflip_beside_object_at(&mutator, a, &view) != GCFLIP_NIL) == is_start);
    }
    EXPECT(met == count);
    EXPECT(gcflip_beside_set_nil(&mutator, 9) == GCFLIP_DONE);
}

static void tells(void)
{
    static const uint32_t starts[] = {1, 6, 10};

    open_both(WORDS);
    expect_no_address(0);
    expect_starts(NULL, 0);
    EXPECT(gcflip_beside_object_at(&mutator, 1, &view) == GCFLIP_NIL);
    expect_view(0, 0, 0);
    make_three();
    expect_address(0, 1);
    expect_address(4, 6);
    expect_address(LAST, 10);
    EXPECT(gcflip_beside_set_number(&mutator, 5, 6) == GCFLIP_DONE);
    expect_no_address(5);
    expect_no_address(LAST - 1);
    EXPECT(gcflip_beside_object_at(&mutator, 1, &view) == GCFLIP_OBJECT);
    expect_view(1, 3, 0);
    EXPECT(gcflip_beside_object_at(&mutator, 6, &view) == GCFLIP_RAW_OBJECT);
    expect_view(255, 2, 0);
    EXPECT(gcflip_beside_object_at(&mutator, 10, &view) == GCFLIP_OBJECT);
    expect_view(2, 0, 0);
    expect_fields(1, 6);
    EXPECT(gcflip_beside_put(&mutator, 0, 1, 0) == GCFLIP_DONE);
    EXPECT(gcflip_beside_field_at(&mutator, 1, 1, &view) == GCFLIP_OBJECT);
    expect_view(1, 3, 1);
    expect_starts(starts, COUNT(starts));
    set_kept();
    EXPECT(gcflip_beside_field_at(&mutator, 1, 3, &view) == GCFLIP_NO_FIELD);
    EXPECT(gcflip_beside_field_at(&mutator, 1, 65536, &view) == GCFLIP_NO_FIELD);
    EXPECT(gcflip_beside_field_at(&mutator, 1, 65536 + 1, &view) == GCFLIP_NO_FIELD);
    EXPECT(gcflip_beside_field_at(&mutator, 6, 2, &view) == GCFLIP_NO_FIELD);
    EXPECT(gcflip_beside_field_at(&mutator, 10, 0, &view) == GCFLIP_NO_FIELD);
    EXPECT(gcflip_beside_field_at(&mutator, 6, UINT32_MAX, &view) == GCFLIP_NO_FIELD);
    expect_kept();
    EXPECT(gcflip_beside_field_at(&mutator, 2, 0, &view) == GCFLIP_NIL);
    expect_view(0, 0, 0);
    EXPECT(gcflip_beside_field_at(&mutator, UINT32_MAX, 0, &view) == GCFLIP_NIL);
    EXPECT(gcflip_beside_object_at(&mutator, UINT32_MAX, &view) == GCFLIP_NIL);
    EXPECT(gcflip_beside_refer(&mutator, 9, UINT32_MAX) == GCFLIP_NO_OBJECT);
    EXPECT(gcflip_beside_refer(&mutator, 9, 1u << 31) == GCFLIP_NO_OBJECT);
    /* one object has two references, and each root takes one */
    EXPECT(gcflip_beside_refer(&mutator, LAST, 1) == GCFLIP_DONE && gcflip_beside_same(&mutator, 0, LAST) == GCFLIP_SAME);
    EXPECT(gcflip_beside_refer(&mutator, 31, 10) == GCFLIP_DONE && gcflip_beside_same(&mutator, 31, LAST) == GCFLIP_NOT_SAME);
    EXPECT(gcflip_beside_look(&mutator, 31, &view) == GCFLIP_OBJECT && view.kind == 2);
    close_both();
}

/* ---- After flips */

/* The object in the middle of three dies, and the last one moves to its place. Whether the first one moves says its replica's place, which is 1 or behind
   the other one. */
static void follows(void)
{
    uint32_t first, last;

    open_both(WORDS);
    make_three();
    EXPECT(gcflip_beside_put_nil(&mutator, 0, 1) == GCFLIP_DONE);
    EXPECT(gcflip_beside_set_nil(&mutator, 4) == GCFLIP_DONE);
    EXPECT(gcflip_beside_flips(&mutator) == 0);
    flip(WORDS);
    EXPECT(gcflip_beside_address(&mutator, 0, &first) == GCFLIP_DONE && gcflip_beside_address(&mutator, LAST, &last) == GCFLIP_DONE);
    EXPECT((first == 1 && last == 6) || (last == 1 && first == 3));
    expect_moved(1, first);
    expect_died(6);
    expect_moved(10, last);
    expect_any(0);
    expect_any(2);
    expect_any(WORDS);
    expect_any(UINT32_MAX);
    EXPECT(gcflip_beside_object_at(&mutator, first, &view) == GCFLIP_OBJECT);
    expect_view(1, 3, 0);
    EXPECT(gcflip_beside_object_at(&mutator, last, &view) == GCFLIP_OBJECT);
    expect_view(2, 0, 0);
    /* it tells the same until the next flip: after commands, work, and a stop without a flip */
    EXPECT(gcflip_beside_new(&mutator, 4, 3, 6) == GCFLIP_MADE);
    EXPECT(gcflip_beside_put(&mutator, 0, 2, 4) == GCFLIP_DONE);
    EXPECT(gcflip_beside_prepare(&collector, WORDS) == GCFLIP_DONE);
    take();
    EXPECT(gcflip_beside_place_roots(&collector) == GCFLIP_DONE);
    let_go();
    EXPECT(gcflip_beside_flips(&mutator) == 1);
    expect_moved(1, first);
    expect_died(6);
    expect_moved(10, last);
    EXPECT(gcflip_beside_refer(&mutator, 5, last) == GCFLIP_DONE && gcflip_beside_same(&mutator, 5, LAST) == GCFLIP_SAME);
    close_both();
}

/* An object to which only an address leads is fetched while it is there: it then survives, and dies after it is dropped again. */
static void fetches(void)
{
    open_both(WORDS);
    EXPECT(gcflip_beside_new(&mutator, 0, 1, 1) == GCFLIP_MADE);
    EXPECT(gcflip_beside_put_number(&mutator, 0, 0, 9) == GCFLIP_DONE);
    EXPECT(gcflip_beside_set_nil(&mutator, 0) == GCFLIP_DONE);
    EXPECT(gcflip_beside_refer(&mutator, 3, 1) == GCFLIP_DONE);
    flip(WORDS);
    expect_moved(1, 1);
    EXPECT(gcflip_beside_peek(&mutator, 3, 0, &view) == GCFLIP_NUMBER && view.number == 9);
    EXPECT(gcflip_beside_set_nil(&mutator, 3) == GCFLIP_DONE);
    EXPECT(gcflip_beside_refer(&mutator, LAST, 1) == GCFLIP_DONE);
    EXPECT(gcflip_beside_set_nil(&mutator, LAST) == GCFLIP_DONE);
    flip(WORDS);
    expect_died(1);
    EXPECT(gcflip_beside_refer(&mutator, 3, 1) == GCFLIP_NO_OBJECT);
    EXPECT(gcflip_beside_object_at(&mutator, 1, &view) == GCFLIP_NIL);
    close_both();
}

/* Objects over flips to larger and smaller spaces, each with its number in its field. Every other one dies at the first flip. */
static void sizes(void)
{
    enum { OBJECTS = 20 };
    static const uint32_t sizes[] = {400, 64, 31, 1000, 31};
    uint32_t at[OBJECTS], heap_size = WORDS;

    open_both(heap_size);
    for (uint32_t k = 0; k < OBJECTS; k++) {
        EXPECT(gcflip_beside_new(&mutator, k, 1, 1) == GCFLIP_MADE);
        EXPECT(gcflip_beside_put_number(&mutator, k, 0, k) == GCFLIP_DONE);
        EXPECT(gcflip_beside_address(&mutator, k, &at[k]) == GCFLIP_DONE && at[k] == 1 + 3 * k);
    }
    for (uint32_t k = 1; k < OBJECTS; k += 2)
        EXPECT(gcflip_beside_set_nil(&mutator, k) == GCFLIP_DONE);
    for (size_t f = 0; f < COUNT(sizes); f++) {
        flip(sizes[f]);
        EXPECT(gcflip_beside_room(&mutator) == sizes[f] - 31);
        for (uint32_t k = 0; k < OBJECTS; k++) {
            if (k % 2 == 1 && f == 0)
                expect_died(at[k]);
            if (k % 2 == 1)
                continue;
            EXPECT(gcflip_beside_moved(&mutator, at[k], &at[k]) == GCFLIP_DONE);
            expect_address(k, at[k]);
            EXPECT(gcflip_beside_field_at(&mutator, at[k], 0, &view) == GCFLIP_NUMBER && view.number == k);
        }
        EXPECT(gcflip_beside_object_at(&mutator, sizes[f], &view) == GCFLIP_NIL);
        EXPECT(gcflip_beside_refer(&mutator, 31, sizes[f]) == GCFLIP_NO_OBJECT);
        expect_any(heap_size);
        heap_size = sizes[f];
    }
    EXPECT(gcflip_beside_flips(&mutator) == COUNT(sizes));
    close_both();
}

/* A heap of its own begins anew, also on the same handle. */
static void opens_again(void)
{
    open_both(WORDS);
    EXPECT(gcflip_beside_new(&mutator, 0, 1, 1) == GCFLIP_MADE);
    flip(WORDS);
    expect_moved(1, 1);
    close_both();
    open_both(WORDS);
    EXPECT(gcflip_beside_flips(&mutator) == 0);
    EXPECT(gcflip_beside_moved(&mutator, 1, &address) == GCFLIP_OUT_OF_RANGE);
    expect_starts(NULL, 0);
    EXPECT(gcflip_beside_close_collector(&collector) == GCFLIP_DONE);
    /* a mutator without a collector has all calls still */
    EXPECT(gcflip_beside_new(&mutator, 0, 1, 1) == GCFLIP_MADE);
    expect_address(0, 1);
    EXPECT(gcflip_beside_refer(&mutator, 1, 1) == GCFLIP_DONE);
    EXPECT(gcflip_beside_close_mutator(&mutator) == GCFLIP_DONE);
}

int main(void)
{
    refusals();
    tells();
    follows();
    fetches();
    sizes();
    opens_again();
    return 0;
}
