/* Records `work` and prints the replies to the recorded events: record_work RECORD. On a second heap, one call of the library
   performs the same work, and reports the same. */
#include "expect.h"
#include "gcflip_heap.h"
#include "own_allocator.h"
#include <string.h>

static gcflip_heap at_once = GCFLIP_NO_HEAP;

/* The options of both heaps. Their flips allocate, since they check both spaces whole. */
static gcflip_options options_of_both(void)
{
    gcflip_options options = gcflip_options_default(64, 2);
    options.checking = GCFLIP_AT_FLIP;
    return options;
}

/* Performs the work in one call. Comes before the include that records. */
static uint32_t work_at_once(uint32_t most, gcflip_work *work)
{
    return gcflip_heap_work(&at_once, most, work);
}

static void open_at_once(void)
{
    const gcflip_options options = options_of_both();
    EXPECT(gcflip_heap_open(&at_once, &options) == GCFLIP_DONE);
    EXPECT(gcflip_heap_new_object(&at_once, 0, 16, 1, 2) == GCFLIP_MADE);
    EXPECT(gcflip_heap_new_object(&at_once, 1, 0, 2, 1) == GCFLIP_MADE);
    EXPECT(gcflip_heap_put(&at_once, 1, 16, 1, 0) == GCFLIP_DONE);
}

static uint32_t write_at_once(uint8_t t)
{
    return gcflip_heap_put(&at_once, 1, 16, 0, t);
}

static void close_at_once(void)
{
    EXPECT(gcflip_heap_close(&at_once) == GCFLIP_DONE);
}

#include "gcflip_record.h"

FILE *gcflip_trace;

static gcflip_heap heap = GCFLIP_NO_HEAP;

/* Performs the same work on both heaps, with the allocation of this number failing. */
static void work(uint32_t most, uint32_t last, long failing)
{
    gcflip_work recorded, other;
    fail_allocation(failing);
    EXPECT(gcflip_heap_work(&heap, most, &recorded) == GCFLIP_DONE);
    fail_allocation(failing);
    EXPECT(work_at_once(most, &other) == GCFLIP_DONE);
    fail_allocation(0);
    EXPECT(memcmp(&recorded, &other, sizeof recorded) == 0 && recorded.last == last);
}

int main(int count, char **names)
{
    static const uint8_t fields[] = {6, 16, 7};
    const gcflip_options options = options_of_both();
    gcflip_work none;
    EXPECT(count == 2);
    gcflip_trace = fopen(names[1], "w");
    EXPECT(gcflip_heap_work(&heap, 1, &none) == GCFLIP_CLOSED);
    EXPECT(gcflip_heap_open(&heap, &options) == GCFLIP_DONE);
    EXPECT(gcflip_heap_work(&heap, 0, &none) == GCFLIP_OUT_OF_RANGE);
    open_at_once();
    gcflip_heap_new_object(&heap, 0, 16, 1, 2);
    gcflip_heap_new_object(&heap, 1, 0, 2, 1);
    gcflip_heap_put(&heap, 1, 16, 1, 0);
    fail_allocation(1);
    EXPECT(gcflip_heap_work(&heap, 1, &none) == GCFLIP_NO_MEMORY);
    work(1, GCFLIP_BEGUN, 0);
    work(3, GCFLIP_SCANNED, 0); /* both roots, and a field */
    EXPECT(gcflip_heap_put(&heap, 1, 16, 0, 0) == GCFLIP_DONE && write_at_once(0) == GCFLIP_DONE);
    work(100, GCFLIP_APPLIED, 1); /* all but the flip, whose first allocation fails */
    work(100, GCFLIP_FLIPPED, 0);
    work(100, GCFLIP_FLIPPED, 0);
    gcflip_heap_step_begin_sized(&heap, 3);
    EXPECT(gcflip_heap_work(&heap, 100, &none) == GCFLIP_DONE && none.steps == 1 && none.last == GCFLIP_NO_ROOM);
    gcflip_heap_step_give_up(&heap);
    EXPECT(gcflip_heap_work_sized(&heap, 100, 0, &none) == GCFLIP_OUT_OF_RANGE);
    EXPECT(gcflip_heap_work_sized(&heap, 100, 3, &none) == GCFLIP_DONE && none.steps == 2 && none.last == GCFLIP_NO_ROOM);
    gcflip_heap_step_give_up(&heap);
    EXPECT(gcflip_heap_work_within(&heap, 0, 9, &none) == GCFLIP_OUT_OF_RANGE);
    EXPECT(gcflip_heap_work_within(&heap, 100, 1, &none) == GCFLIP_DONE && none.steps == 2 && none.copied == 4 && none.last == GCFLIP_COPIED);
    gcflip_heap_step_give_up(&heap);
    /* calls that are several commands; the last finds no room, and is then one command */
    EXPECT(gcflip_heap_put_number(&heap, 1, 16, 0, 5, 9) == GCFLIP_DONE);
    EXPECT(gcflip_heap_new_pair(&heap, 1, 6, 3, 16, 5) == GCFLIP_MADE);
    EXPECT(gcflip_heap_new_from(&heap, 1, 7, 3, fields, 3) == GCFLIP_MADE);
    EXPECT(gcflip_heap_new_raw(&heap, 1, 7, 4, 45) == GCFLIP_MADE);
    EXPECT(gcflip_heap_new_pair(&heap, 1, 7, 3, 16, 5) == GCFLIP_FULL);
    EXPECT(gcflip_heap_new_from(&heap, 1, 7, 3, fields, 3) == GCFLIP_FULL);
    EXPECT(fclose(gcflip_trace) == 0);
    gcflip_trace = NULL;
    EXPECT(gcflip_heap_close(&heap) == GCFLIP_DONE);
    close_at_once();
    return 0;
}
