/* Tests what a call that reserves room answers and leaves: with room at once, after a collection, after two, in vain, and where a collection cannot end. Also
 * whole collections, safepoints, and a heap that frees the space that waits. */
#include "expect.h"
#include "gcflip_heap.h"
#include <string.h>

enum { KIND = 3, WORDS = 64 };

static gcflip_heap heap = GCFLIP_NO_HEAP;
static gcflip_view view;
static gcflip_work work;
static gcflip_counts counts;
static gcflip_pace pace;

static void open_heap(uint8_t checking)
{
    gcflip_options options = gcflip_options_default(WORDS, 1);
    options.checking = checking;
    EXPECT(gcflip_heap_open(&heap, &options) == GCFLIP_DONE);
    pace = gcflip_pace_default();
}

static void close_heap(void)
{
    EXPECT(gcflip_heap_close(&heap) == GCFLIP_DONE && heap.at == NULL);
}

/* Expects this answer, that it is the right one for the room that is left, and that the pace remembers the heap. */
static void reserves(uint32_t words, uint32_t answer)
{
    EXPECT(gcflip_reserve(&heap, &pace, words, &work) == answer);
    EXPECT((gcflip_room(&heap) >= words) == (answer == GCFLIP_DONE));
    EXPECT(gcflip_heap_counts(&heap, &counts) == GCFLIP_DONE && (answer == GCFLIP_STARVED || (pace.end == counts.end && pace.logged == counts.logged)));
}

/* There is room: no step is performed, unless the pace wants one. */
static void room_at_once(uint8_t checking)
{
    open_heap(checking);
    EXPECT(gcflip_reserve(&heap, &pace, 10, &work) == GCFLIP_DONE && work.steps == 0 && work.last == GCFLIP_DONE && work.looks == 0 && work.copied == 0);
    EXPECT(gcflip_heap_counts(&heap, &counts) == GCFLIP_DONE && counts.is_open == 0);
    reserves(0, GCFLIP_DONE);
    reserves(63, GCFLIP_DONE);
    close_heap();
}

/* An object of 42 words is all there is. As long as it lives, a collection is in vain. */
static void in_vain(uint8_t checking)
{
    open_heap(checking);
    EXPECT(gcflip_new(&heap, 0, KIND, 40) == GCFLIP_MADE);
    EXPECT(gcflip_reserve(&heap, &pace, 22, &work) == GCFLIP_FULL && work.last == GCFLIP_FLIPPED && work.pairs == 1);
    EXPECT(gcflip_room(&heap) == 21 && gcflip_peek(&heap, 0, 39, &view) == GCFLIP_NIL && pace.left == 43 && pace.owed == 0);
    reserves(21, GCFLIP_DONE);
    reserves(UINT32_MAX, GCFLIP_FULL);
    EXPECT(gcflip_set_nil(&heap, 0) == GCFLIP_DONE);
    reserves(22, GCFLIP_DONE);
    EXPECT(gcflip_room(&heap) == 63 && work.last == GCFLIP_FLIPPED && work.pairs == 0);
    reserves(64, GCFLIP_FULL);
    close_heap();
}

/* An object that died after a collection began is copied by it, so that it takes one more to have its room. */
static void two_collections(uint8_t checking)
{
    open_heap(checking);
    EXPECT(gcflip_new(&heap, 0, KIND, 40) == GCFLIP_MADE && gcflip_heap_step_begin(&heap) == GCFLIP_BEGUN);
    EXPECT(gcflip_heap_step_roots(&heap) == GCFLIP_COPIED && gcflip_set_nil(&heap, 0) == GCFLIP_DONE);
    EXPECT(gcflip_reserve(&heap, &pace, 22, &work) == GCFLIP_DONE && gcflip_room(&heap) == 63);
    EXPECT(work.last == GCFLIP_FLIPPED && work.pairs == 0 && work.steps > 40);
    close_heap();
}

/* The new space of the open collection is too small, so that no collection ends, until it is given up. */
static void too_small(uint8_t checking)
{
    open_heap(checking);
    EXPECT(gcflip_new(&heap, 0, KIND, 40) == GCFLIP_MADE && gcflip_heap_step_begin_sized(&heap, 8) == GCFLIP_BEGUN);
    EXPECT(gcflip_reserve(&heap, &pace, 22, &work) == GCFLIP_STARVED && work.last == GCFLIP_NO_ROOM);
    reserves(21, GCFLIP_DONE);
    EXPECT(gcflip_heap_step_give_up(&heap) == GCFLIP_DROPPED && gcflip_set_nil(&heap, 0) == GCFLIP_DONE);
    reserves(22, GCFLIP_DONE);
    close_heap();
}

/* A whole collection frees what is garbage when it begins, also what an open one has copied already. */
static void collects(uint8_t checking)
{
    open_heap(checking);
    EXPECT(gcflip_collect(&heap, &work) == GCFLIP_DONE && work.last == GCFLIP_FLIPPED && work.pairs == 0 && work.copied == 0);
    EXPECT(gcflip_new(&heap, 0, KIND, 40) == GCFLIP_MADE && gcflip_new(&heap, 1, KIND, 3) == GCFLIP_MADE && gcflip_heap_step_begin(&heap) == GCFLIP_BEGUN);
    EXPECT(gcflip_heap_step_roots(&heap) == GCFLIP_COPIED && gcflip_set_nil(&heap, 0) == GCFLIP_DONE);
    EXPECT(gcflip_collect(&heap, &work) == GCFLIP_DONE && work.last == GCFLIP_FLIPPED && work.pairs == 1 && gcflip_room(&heap) == 58);
    EXPECT(work.copied == 10 && gcflip_look(&heap, 1, &view) == GCFLIP_OBJECT && view.count == 3); /* the object with three fields, twice */
    EXPECT(gcflip_heap_counts(&heap, &counts) == GCFLIP_DONE && counts.is_open == 0);
    EXPECT(gcflip_heap_step_begin_sized(&heap, 4) == GCFLIP_BEGUN);
    EXPECT(gcflip_collect(&heap, &work) == GCFLIP_NO_ROOM && work.last == GCFLIP_NO_ROOM && gcflip_room(&heap) == 58);
    EXPECT(gcflip_heap_step_give_up(&heap) == GCFLIP_DROPPED && gcflip_collect(&heap, &work) == GCFLIP_DONE && work.pairs == 1);
    close_heap();
}

/* What a flip left is freed, unless a collection is open. The heap stays, and the next collection allocates its space. */
static void releases(uint8_t checking)
{
    uint32_t to = 77;
    open_heap(checking);
    EXPECT(gcflip_release(&heap) == GCFLIP_DONE && gcflip_new(&heap, 0, KIND, 3) == GCFLIP_MADE);
    EXPECT(gcflip_collect(&heap, &work) == GCFLIP_DONE && gcflip_moved(&heap, 1, &to) == GCFLIP_DONE && to == 1);
    EXPECT(gcflip_release(&heap) == GCFLIP_DONE && gcflip_moved(&heap, 1, &to) == GCFLIP_OUT_OF_RANGE);
    EXPECT(gcflip_peek(&heap, 0, 2, &view) == GCFLIP_NIL && gcflip_heap_step_begin(&heap) == GCFLIP_BEGUN);
    EXPECT(gcflip_release(&heap) == GCFLIP_BUSY && gcflip_collect(&heap, &work) == GCFLIP_DONE && work.pairs == 1);
    EXPECT(gcflip_moved(&heap, 1, &to) == GCFLIP_DONE && gcflip_heap_touch(&heap) == GCFLIP_DONE && gcflip_release(&heap) == GCFLIP_DONE);
    close_heap();
}

/* A safepoint performs the steps that are due and no others. */
static void safepoints(uint8_t checking)
{
    gcflip_flip_checks checks = {0, 0};
    open_heap(checking);
    pace.least = 0;
    EXPECT(gcflip_safepoint(&heap, &pace) == GCFLIP_DONE && gcflip_heap_counts(&heap, &counts) == GCFLIP_DONE && counts.is_open == 0);
    EXPECT(gcflip_new(&heap, 0, KIND, 20) == GCFLIP_MADE && gcflip_safepoint(&heap, &pace) == GCFLIP_DONE);
    EXPECT(gcflip_heap_counts(&heap, &counts) == GCFLIP_DONE && gcflip_heap_flip_checks(&heap, &checks) == GCFLIP_DONE);
    EXPECT(counts.is_open + checks.along + checks.whole >= 1 && pace.end == counts.end);
    pace.factor = 99;
    EXPECT(gcflip_safepoint(&heap, &pace) == GCFLIP_OUT_OF_RANGE);
    close_heap();
    EXPECT(gcflip_safepoint(&heap, &pace) == GCFLIP_CLOSED);
}

/* A refused call changes nothing, neither the pace nor the report. */
static void refused(void)
{
    const gcflip_work before = {7, 7, 7, 7, 7};
    gcflip_pace wrong = gcflip_pace_default(), same;
    wrong.factor = 99;
    same = wrong;
    work = before;
    EXPECT(gcflip_reserve(&heap, &wrong, 1, &work) == GCFLIP_CLOSED);
    EXPECT(gcflip_collect(&heap, &work) == GCFLIP_CLOSED && gcflip_release(&heap) == GCFLIP_CLOSED && memcmp(&work, &before, sizeof work) == 0);
    open_heap(GCFLIP_ALONG);
    EXPECT(gcflip_new(&heap, 0, KIND, 40) == GCFLIP_MADE);
    EXPECT(gcflip_reserve(&heap, &wrong, 60, &work) == GCFLIP_OUT_OF_RANGE && gcflip_room(&heap) == 21);
    EXPECT(memcmp(&work, &before, sizeof work) == 0 && memcmp(&wrong, &same, sizeof wrong) == 0);
    EXPECT(gcflip_heap_counts(&heap, &counts) == GCFLIP_DONE && counts.is_open == 0);
    close_heap();
}

int main(void)
{
    for (uint8_t checking = GCFLIP_ALONG; checking <= GCFLIP_AT_FLIP; checking++) {
        room_at_once(checking);
        in_vain(checking);
        two_collections(checking);
        too_small(checking);
        collects(checking);
        releases(checking);
        safepoints(checking);
    }
    refused();
    return 0;
}
