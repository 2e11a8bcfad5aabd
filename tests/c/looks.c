/* Tests how calls of work count looks at extra roots: 32 that find no step are a unit, and counts tell how many are left. All numbers were
 * worked by hand from the comments of gcflip_heap.h. */
#include "expect.h"
#include "gcflip_heap.h"

enum { KIND = 3, ROOTS = 1000, UNIT = 32, OBJECT = 0 };

static gcflip_heap heap = GCFLIP_NO_HEAP;
static gcflip_work work;
static gcflip_counts counts;
static gcflip_pace pace;

static void close_heap(void)
{
    EXPECT(gcflip_heap_close(&heap) == GCFLIP_DONE);
}

static uint32_t left(void)
{
    EXPECT(gcflip_heap_counts(&heap, &counts) == GCFLIP_DONE);
    return counts.roots_left;
}

static void store(uint32_t k)
{
    EXPECT(gcflip_heap_root_store(&heap, 0, k, OBJECT) == GCFLIP_DONE);
}

/* Opens a heap in which this many extra roots and a slot refer to one object with so many fields. */
static void open_heap(uint32_t roots, uint16_t fields)
{
    gcflip_options options = gcflip_options_default(4096, 1);
    options.extra_roots = ROOTS;
    EXPECT(gcflip_heap_open(&heap, &options) == GCFLIP_DONE && left() == 0);
    EXPECT(gcflip_heap_new_object(&heap, 0, OBJECT, KIND, fields) == GCFLIP_MADE);
    for (uint32_t k = 0; k < roots; k++)
        store(k);
    EXPECT(left() == roots);
}

/* Begins a collection, and copies the object, to which a slot refers. */
static void begin(void)
{
    EXPECT(gcflip_heap_step_begin(&heap) == GCFLIP_BEGUN);
    EXPECT(gcflip_heap_work(&heap, 1, &work) == GCFLIP_DONE && work.last == GCFLIP_COPIED && work.looks == 0);
}

/* Expects what a call of work reports. Each look leaves one less, and after a flip none is done. */
static void expect_work(uint32_t most, uint32_t steps, uint32_t looks, uint32_t last)
{
    const uint32_t before = left();
    EXPECT(gcflip_heap_work(&heap, most, &work) == GCFLIP_DONE);
    EXPECT(work.steps == steps && work.looks == looks && work.last == last && work.pairs == (last == GCFLIP_FLIPPED));
    EXPECT(left() == (last == GCFLIP_FLIPPED ? ROOTS : before - looks));
}

/* 1000 looks are 31 units, and 8 looks that find a step. */
static void one_unit_a_call(void)
{
    open_heap(ROOTS, 0);
    expect_work(1, 1, 0, GCFLIP_BEGUN);
    expect_work(1, 1, 0, GCFLIP_COPIED);
    for (int call = 0; call < 31; call++)
        expect_work(1, 0, UNIT, GCFLIP_DONE);
    EXPECT(left() == 8 && work.copied == 0);
    expect_work(1, 1, 8, GCFLIP_PASSED);
    expect_work(1, 1, 0, GCFLIP_FLIPPED);
    close_heap();
}

static void many_units_a_call(void)
{
    open_heap(ROOTS, 0);
    begin();
    expect_work(10, 0, 10 * UNIT, GCFLIP_DONE);
    expect_work(20, 0, 20 * UNIT, GCFLIP_DONE);
    expect_work(2, 1, UNIT + 8, GCFLIP_PASSED);
    expect_work(2, 1, 0, GCFLIP_FLIPPED);
    /* begin, roots, 31 units of looks, scan: the flip is the next unit */
    expect_work(34, 3, ROOTS, GCFLIP_PASSED);
    expect_work(1, 1, 0, GCFLIP_FLIPPED);
    expect_work(UINT32_MAX, 4, ROOTS, GCFLIP_FLIPPED);
    close_heap();
}

static void expect_number(uint32_t k, uint64_t number)
{
    const gcflip_seen seen = gcflip_look_seen(&heap, (uint32_t)gcflip_heap_root_count(1) + k);
    EXPECT(seen.answer == GCFLIP_NUMBER && seen.number == number);
}

/* A root is looked at again if it was written since. To write it twice costs one look, and to read it none. */
static void roots_that_are_written(void)
{
    open_heap(ROOTS, 0);
    begin();
    store(500);
    EXPECT(left() == ROOTS); /* nobody has looked at it yet */
    expect_work(32, 1, ROOTS, GCFLIP_PASSED);
    EXPECT(left() == 0);
    store(5);
    EXPECT(left() == 1);
    store(5);
    EXPECT(left() == 1);
    store(999);
    EXPECT(left() == 2);
    EXPECT(gcflip_heap_root_load(&heap, 0, 1, 7) == GCFLIP_DONE && gcflip_heap_move(&heap, 0, 2, 1) == GCFLIP_DONE && left() == 2);
    EXPECT(gcflip_heap_root_clear(&heap, 4, 8) == GCFLIP_DONE && left() == 5); /* 4 to 7, of which 5 is counted */
    EXPECT(gcflip_copy(&heap, (uint32_t)gcflip_heap_root_count(1) + 100, 16) == GCFLIP_DONE && left() == 6);
    /* a number and nil ask for a look as a reference does */
    EXPECT(gcflip_set_number(&heap, (uint32_t)gcflip_heap_root_count(1) + 200, 9) == GCFLIP_DONE && left() == 7);
    EXPECT(gcflip_set_nil(&heap, (uint32_t)gcflip_heap_root_count(1) + 300) == GCFLIP_DONE && left() == 8);
    EXPECT(gcflip_set_number(&heap, (uint32_t)gcflip_heap_root_count(1) + 300, 8) == GCFLIP_DONE && left() == 8);
    EXPECT(gcflip_set_nil(&heap, (uint32_t)gcflip_heap_root_count(1) + 400) == GCFLIP_DONE && left() == 9);
    expect_work(1, 1, 9, GCFLIP_FLIPPED);
    expect_number(200, 9);
    expect_number(300, 8);
    EXPECT(gcflip_look_seen(&heap, (uint32_t)gcflip_heap_root_count(1) + 400).answer == GCFLIP_NIL);
    EXPECT(gcflip_look_seen(&heap, (uint32_t)gcflip_heap_root_count(1) + 401).answer == GCFLIP_OBJECT);
    close_heap();
}

/* A call that takes 32 looks, with a store between two calls, comes to the end: each but the first leaves 31 less. */
static void stores_between_calls(void)
{
    open_heap(ROOTS, 0);
    begin();
    for (int call = 0; call < 32; call++) {
        store(0);
        EXPECT(left() == (call == 0 ? ROOTS : (uint32_t)(ROOTS - UNIT - 31 * (call - 1) + 1)));
        expect_work(1, 0, UNIT, GCFLIP_DONE);
    }
    EXPECT(left() == 7);
    store(0);
    expect_work(1, 1, 8, GCFLIP_PASSED);
    store(0);
    expect_work(1, 1, 1, GCFLIP_FLIPPED);
    close_heap();
}

/* Roots above the last one in use cost no look. For each look that finds nil, and for each look of a row, the last root in use is not in use any more, if it
   is nil. A row begins behind the second look of a search. */
static void roots_in_use(void)
{
    open_heap(100, 0);
    store(149);
    EXPECT(left() == 150);
    EXPECT(gcflip_heap_root_clear(&heap, 149, 150) == GCFLIP_DONE && left() == 150);
    EXPECT(gcflip_heap_root_clear(&heap, 0, 1) == GCFLIP_DONE);
    begin();
    /* 100 to 149 are nil, and root 0 is: the look at root 1 alone takes none of them from the end */
    EXPECT(gcflip_heap_work(&heap, 1, &work) == GCFLIP_DONE && work.steps == 0 && work.looks == UNIT && left() == 150 - UNIT - (UNIT - 1));
    EXPECT(gcflip_heap_work(&heap, 100, &work) == GCFLIP_DONE && work.last == GCFLIP_FLIPPED && work.looks == 100 - UNIT);
    EXPECT(left() == 100);
    EXPECT(gcflip_heap_root_clear(&heap, 0, ROOTS) == GCFLIP_DONE && left() == 100);
    EXPECT(gcflip_heap_set_nil(&heap, 0, OBJECT) == GCFLIP_DONE);
    EXPECT(gcflip_heap_work(&heap, 100, &work) == GCFLIP_DONE && work.last == GCFLIP_FLIPPED && work.looks == 100 && left() == 0);
    close_heap();
}

/* A collection that is given up leaves its looks to the next one. */
static void given_up(void)
{
    open_heap(ROOTS, 0);
    begin();
    expect_work(7, 0, 7 * UNIT, GCFLIP_DONE);
    EXPECT(gcflip_heap_step_give_up(&heap) == GCFLIP_DROPPED && left() == ROOTS);
    begin();
    EXPECT(left() == ROOTS);
    close_heap();
}

/* Exact calls look at as many roots as they need. */
static void exact_calls(void)
{
    gcflip_step step = {0, 0};
    open_heap(ROOTS, 0);
    begin();
    EXPECT(gcflip_heap_useful(&heap, &step) == GCFLIP_DONE && step.name == GCFLIP_STEP_SCAN && left() == 0);
    store(3);
    EXPECT(gcflip_heap_step_roots(&heap) == GCFLIP_CLEAN && left() == 0);
    EXPECT(gcflip_heap_step_scan(&heap) == GCFLIP_PASSED);
    store(3);
    EXPECT(gcflip_heap_step_flip(&heap, &work.pairs) == GCFLIP_FLIPPED && work.pairs == 1 && left() == ROOTS);
    /* looks take all units, and a size or a bound for the words changes nothing about that */
    EXPECT(gcflip_heap_work_sized(&heap, 2, 100, &work) == GCFLIP_DONE && work.steps == 2 && work.last == GCFLIP_COPIED);
    EXPECT(gcflip_heap_work_sized(&heap, 2, 100, &work) == GCFLIP_DONE && work.steps == 0 && work.looks == 2 * UNIT && work.last == GCFLIP_DONE);
    EXPECT(gcflip_heap_work_within(&heap, 3, 0, &work) == GCFLIP_DONE && work.steps == 0 && work.looks == 3 * UNIT && work.last == GCFLIP_DONE);
    EXPECT(left() == ROOTS - 5 * UNIT);
    close_heap();
}

/* Opens a heap with an object of ten words, for which a collection takes eleven steps, and begins one. */
static void begin_paced(uint32_t words)
{
    open_heap(ROOTS, 8);
    EXPECT(gcflip_heap_step_begin(&heap) == GCFLIP_BEGUN);
    pace = gcflip_pace_default();
    pace.words = words;
    EXPECT(gcflip_heap_pace(&heap, &pace) == GCFLIP_DONE);
}

static void expect_paced(uint32_t wanted, uint32_t steps, uint32_t looks, uint32_t last, uint32_t owed)
{
    EXPECT(gcflip_heap_counts(&heap, &counts) == GCFLIP_DONE);
    const uint32_t due = gcflip_pace_due(&pace, &counts, wanted), most = due < pace.words ? due : pace.words;
    EXPECT(gcflip_heap_work_paced(&heap, &pace, wanted, &work) == GCFLIP_DONE);
    EXPECT(work.steps == steps && work.looks == looks && work.last == last && pace.owed == owed && pace.roots == left());
    EXPECT(steps + (pace.words == 0 ? 0 : looks / UNIT) + owed == due || last == GCFLIP_FLIPPED);
    EXPECT(pace.words == 0 || (steps <= most && looks <= UNIT * most && looks <= 2 * pace.words));
}

/* Each call takes looks in the place of all steps that are due. Each unit of them is one that is not owed any more. */
static void expect_only_looks(int calls, uint32_t looks)
{
    for (int call = 0; call < calls; call++) {
        EXPECT(gcflip_heap_counts(&heap, &counts) == GCFLIP_DONE);
        expect_paced(0, 0, looks, GCFLIP_DONE, gcflip_pace_due(&pace, &counts, 0) - looks / UNIT);
    }
}

/* With a bound, looks take the place of steps. 43 steps are left at first: 10 for the object, 32 units for 1000 looks, and the flip. */
static void bounded_pace(void)
{
    /* the words of the object end the first call; eight looks are no unit, so the steps stay owed until fewer are left */
    begin_paced(4);
    expect_paced(UINT32_MAX, 1, 0, GCFLIP_COPIED, 42);
    expect_only_looks(124, 8);
    EXPECT(pace.owed == 12);
    expect_paced(0, 4, 8, GCFLIP_SCANNED, 8);
    expect_paced(0, 4, 0, GCFLIP_SCANNED, 4);
    expect_paced(0, 2, 0, GCFLIP_FLIPPED, 0);
    close_heap();
    /* six units and 8 looks are 200 looks */
    begin_paced(100);
    expect_paced(UINT32_MAX, 1, 200, GCFLIP_COPIED, 36);
    expect_only_looks(3, 200);
    EXPECT(pace.owed == 18);
    expect_paced(0, 10, 200, GCFLIP_FLIPPED, 0);
    close_heap();
    /* with fewer units than the bound allows looks, there are no more units than steps due */
    begin_paced(1000);
    pace.owed = 11;
    expect_paced(0, 1, 10 * UNIT, GCFLIP_COPIED, 0);
    for (int call = 0; call < 2; call++) {
        pace.owed = 10;
        expect_paced(0, 0, 10 * UNIT, GCFLIP_DONE, 0);
    }
    pace.owed = 10;
    expect_paced(0, 9, UNIT + 8, GCFLIP_PASSED, 0);
    pace.owed = 1;
    expect_paced(0, 1, 0, GCFLIP_FLIPPED, 0);
    close_heap();
}

/* Stores to roots that were looked at are paid for as puts are: each unit of looks that they ask for by a step. */
static void stores_are_paid_for(void)
{
    begin_paced(1000);
    pace.rate = 1;
    /* the object, 31 units of looks, and 8 looks with a step */
    EXPECT(gcflip_heap_work(&heap, 33, &work) == GCFLIP_DONE && work.steps == 2 && work.looks == ROOTS && left() == 0);
    expect_paced(0, 0, 0, GCFLIP_DONE, 0);
    store(7);
    expect_paced(0, 1, 1, GCFLIP_SCANNED, 0);
    for (uint32_t k = 0; k < UNIT + 1; k++)
        store(k);
    expect_paced(0, 1, UNIT + 1, GCFLIP_SCANNED, 0);
    expect_paced(0, 0, 0, GCFLIP_DONE, 0);
    /* a root that another call looked at again is not paid for */
    store(7);
    EXPECT(gcflip_heap_work(&heap, 1, &work) == GCFLIP_DONE && work.looks == 1);
    expect_paced(0, 0, 0, GCFLIP_DONE, 0);
    close_heap();
}

/* Without a bound, a call performs the steps that are due, and takes the looks that they need. */
static void unbounded_pace(void)
{
    begin_paced(0);
    pace.owed = 3;
    expect_paced(0, 3, ROOTS, GCFLIP_SCANNED, 0);
    expect_paced(UINT32_MAX, 8, 0, GCFLIP_FLIPPED, 0);
    close_heap();
    begin_paced(0);
    expect_paced(UINT32_MAX, 11, ROOTS, GCFLIP_FLIPPED, 0);
    close_heap();
}

int main(void)
{
    one_unit_a_call();
    many_units_a_call();
    roots_that_are_written();
    stores_between_calls();
    roots_in_use();
    given_up();
    exact_calls();
    bounded_pace();
    stores_are_paid_for();
    unbounded_pace();
    return 0;
}
