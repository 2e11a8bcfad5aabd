/* The memory that waits for the next collections, counted by the allocation functions of this program: a heap that shrank gives it back, and a begin
   whose memory is refused while spare room waits asks once more. A room takes 8 bytes for each of its words, and a list of logs. */
#include "expect.h"
#include "gcflip_heap.h"
#include "own_allocator.h"

enum { SLICE = 32768, SMALL = 2 * SLICE, LARGE = 6 * SLICE, CELLS = 64, LIST_BYTES = 256, OTHERS = 3 };

static gcflip_heap heap = GCFLIP_NO_HEAP;
static gcflip_work work;

static void open_heap(uint32_t words, uint8_t checking)
{
    gcflip_options options = gcflip_options_default(words, 1);
    options.checking = checking;
    EXPECT(gcflip_heap_open(&heap, &options) == GCFLIP_DONE);
}

static void close_heap(void)
{
    EXPECT(gcflip_heap_close(&heap) == GCFLIP_DONE && bytes_in_use() == 0);
}

/* Returns whether the heap takes so many words more than these bytes, apart from lists of logs. */
static int takes(size_t before, long words)
{
    const long more = (long)bytes_in_use() - (long)before - 8 * words;
    return -OTHERS * LIST_BYTES <= more && more <= OTHERS * LIST_BYTES;
}

static void keep_cells(void)
{
    for (int k = 0; k < CELLS; k++) {
        EXPECT(gcflip_heap_new_pair(&heap, 0, 2, 1, 0, 1) == GCFLIP_MADE);
        EXPECT(gcflip_heap_move(&heap, 0, 0, 2) == GCFLIP_DONE);
    }
}

static void work_to_the_flip(void)
{
    do
        EXPECT(gcflip_heap_work(&heap, 16, &work) == GCFLIP_DONE && work.last != GCFLIP_NO_ROOM);
    while (work.last != GCFLIP_FLIPPED);
}

/* ---- A heap that shrank */

/* Opens a small heap that has become large, beside its small old space, and touches the room of its next collection. Returns the bytes before that. */
static size_t touched_large_heap(uint8_t checking)
{
    open_heap(SMALL, checking);
    keep_cells();
    EXPECT(gcflip_heap_step_begin_sized(&heap, LARGE) == GCFLIP_BEGUN);
    work_to_the_flip();
    const size_t before = bytes_in_use();
    EXPECT(gcflip_heap_touch(&heap) == GCFLIP_DONE);
    EXPECT(takes(before, LARGE));
    return before;
}

/* Each call of work gives back a slice of the room that was touched, until none is left. */
static void shrink_by_slices(void)
{
    const size_t before = touched_large_heap(GCFLIP_ALONG);
    EXPECT(gcflip_heap_step_begin_sized(&heap, SMALL) == GCFLIP_BEGUN);
    EXPECT(takes(before, LARGE)); /* it took the small old space */
    for (long slices = 1; slices <= LARGE / SLICE; slices++) {
        EXPECT(gcflip_heap_work(&heap, 1, &work) == GCFLIP_DONE && work.last != GCFLIP_FLIPPED);
        EXPECT(takes(before, LARGE - slices * SLICE));
    }
    work_to_the_flip();
    EXPECT(takes(before, 0));
    /* The large old space leaves too, where a collection of the small heap begins beside it. */
    EXPECT(gcflip_heap_step_begin_sized(&heap, SMALL) == GCFLIP_BEGUN);
    EXPECT(takes(before, SMALL));
    work_to_the_flip();
    EXPECT(takes(before, SMALL - LARGE));
    close_heap();
}

/* The flip of a heap that is checked whole gives back all at once. */
static void shrink_at_the_flip(void)
{
    const size_t before = touched_large_heap(GCFLIP_AT_FLIP);
    uint32_t pairs = 0;
    EXPECT(gcflip_heap_step_begin_sized(&heap, SMALL) == GCFLIP_BEGUN);
    while (gcflip_heap_step_roots(&heap) != GCFLIP_CLEAN)
        ;
    while (gcflip_heap_step_scan(&heap) != GCFLIP_CLEAN)
        ;
    EXPECT(takes(before, LARGE));
    EXPECT(gcflip_heap_step_flip(&heap, &pairs) == GCFLIP_FLIPPED && pairs == CELLS);
    EXPECT(takes(before, 0));
    close_heap();
}

/* ---- A begin whose memory is refused */

/* Spare room of the heap's size waits, and a collection of another size takes new room. Each of its allocations is refused once, in turn. */
static void begin_once_more(uint32_t size, uint8_t checking)
{
    long n = 0;
    do {
        open_heap(size, checking);
        EXPECT(gcflip_heap_touch(&heap) == GCFLIP_DONE);
        const size_t before = bytes_in_use();
        fail_allocation(++n);
        EXPECT(gcflip_heap_step_begin_sized(&heap, size - 1) == GCFLIP_BEGUN);
        /* If one was refused, the spare room is freed. Otherwise it waits to leave. */
        EXPECT(takes(before, has_failed() ? -1 : (long)size - 1));
        close_heap();
    } while (has_failed());
    fail_allocation(0);
    EXPECT(n == 3); /* a space and a list of logs */
}

int main(void)
{
    static const uint32_t SIZES[] = {64, 1001, 4096, 300001, 1 << 20};
    shrink_by_slices();
    shrink_at_the_flip();
    for (size_t k = 0; k < COUNT(SIZES); k++) {
        begin_once_more(SIZES[k], GCFLIP_ALONG);
        begin_once_more(SIZES[k], GCFLIP_AT_FLIP);
    }
    return 0;
}
