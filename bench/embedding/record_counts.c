/* Records what a program asks of its heap, for tools/pace_model: a line of counts for each interval of COUNTS_WORDS words that it allocates, in the file
 * COUNTS_FILE. record_counts links this file with a program by the linker's option --wrap, so that the program itself stays as it is.
 *
 * A line has the words allocated and the most that one call asked for. It has the numbers of calls that read, write, move and make. Then it has the
 * entries logged, the words live when the interval began, and the steps that copy them. The last number is the steps that the interval adds: those of
 * its objects that live at its end.
 *
 * For that a collection is open in each interval, brought up to date at both ends, and given up. No work of the program's own is performed. So nothing
 * moves, and the heap has to have room for all that the program ever allocates. */
#include "gcflip_heap.h"
#include <inttypes.h>
#include <stdbool.h>
#include <stdio.h>
#include <stdlib.h>

static struct {
    uint64_t words, most, reads, writes, moves, makes;
} seen;
static uint64_t live_words, live_steps;
static bool has_begun;

static void fail(const char *what)
{
    fprintf(stderr, "record_counts: %s\n", what);
    exit(1);
}

static uint64_t interval(void)
{
    static uint64_t words;
    const char *told = getenv("COUNTS_WORDS");
    if (words == 0)
        words = told ? strtoull(told, NULL, 10) : UINT64_MAX;
    return words;
}

static FILE *counts_file(void)
{
    static FILE *file;
    const char *name = getenv("COUNTS_FILE");
    if (file == NULL)
        file = fopen(name ? name : "/dev/stdout", "w");
    if (file == NULL)
        fail("COUNTS_FILE cannot be written");
    return file;
}

static gcflip_counts counts_of(gcflip_heap *heap)
{
    gcflip_counts counts = {0, 0, 0, 0, 0, 0, 0, 0, 0, 0, 0, 0};
    if (gcflip_heap_counts(heap, &counts) != GCFLIP_DONE || counts.mutators != 1)
        fail("no heap, or not one mutator");
    return counts;
}

/* Brings the open collection up to date, and returns the steps that this took, without those that apply entries. */
static uint64_t steps_until_ready(gcflip_heap *heap)
{
    uint64_t steps = 0;
    for (bool is_ready = false; !is_ready;) {
        uint32_t reply;
        while (gcflip_heap_step_roots(heap) == GCFLIP_COPIED)
            steps++;
        while ((reply = gcflip_heap_step_scan(heap)) == GCFLIP_SCANNED || reply == GCFLIP_PASSED)
            steps++;
        if (reply != GCFLIP_CLEAN)
            fail("a scan without room");
        reply = gcflip_heap_step_apply(heap, 0);
        is_ready = reply == GCFLIP_CLEAN && gcflip_heap_step_roots(heap) == GCFLIP_CLEAN;
    }
    return steps;
}

static void begin_interval(gcflip_heap *heap)
{
    if (gcflip_heap_step_begin(heap) != GCFLIP_BEGUN)
        fail("no collection begins");
    live_steps = steps_until_ready(heap);
    live_words = counts_of(heap).new_end - 1;
    has_begun = true;
}

static void end_interval(gcflip_heap *heap)
{
    uint64_t logged = counts_of(heap).logged, added = steps_until_ready(heap);
    fprintf(counts_file(), "%" PRIu64 " %" PRIu64 " %" PRIu64 " %" PRIu64 " %" PRIu64 " %" PRIu64 " %" PRIu64 " %" PRIu64 " %" PRIu64 " %" PRIu64 "\n", seen.words,
            seen.most, seen.reads, seen.writes, seen.moves, seen.makes, logged, live_words, live_steps, added);
    seen.words = seen.most = seen.reads = seen.writes = seen.moves = seen.makes = 0;
    if (gcflip_heap_step_give_up(heap) != GCFLIP_DROPPED)
        fail("no collection is open");
}

/* Counts an allocation of this many fields. The interval before it ends if it has its words. */
static void count_object(gcflip_heap *heap, size_t fields)
{
    uint64_t words = fields + 2;
    if (has_begun && seen.words >= interval())
        end_interval(heap), has_begun = false;
    if (!has_begun)
        begin_interval(heap);
    seen.words += words;
    seen.most = words > seen.most ? words : seen.most;
    seen.makes++;
}

static uint32_t made(uint32_t reply)
{
    if (reply == GCFLIP_FULL)
        fail("the heap is full: it has to have room for all objects of the run");
    return reply;
}

/* The call in the program, and the library's own. */
#define WRAPPED(name, parameters, arguments, count)      \
    uint32_t __real_gcflip_heap_##name parameters;       \
    uint32_t __wrap_gcflip_heap_##name parameters;       \
    uint32_t __wrap_gcflip_heap_##name parameters        \
    {                                                    \
        count;                                           \
        return __real_gcflip_heap_##name arguments;      \
    }
#define MADE(name, parameters, arguments, fields)        \
    uint32_t __real_gcflip_heap_##name parameters;       \
    uint32_t __wrap_gcflip_heap_##name parameters;       \
    uint32_t __wrap_gcflip_heap_##name parameters        \
    {                                                    \
        count_object(heap, fields);                      \
        return made(__real_gcflip_heap_##name arguments);\
    }
/* The program's own work, of which none is performed. */
#define NO_WORK(name, parameters)                        \
    uint32_t __wrap_gcflip_heap_##name parameters;       \
    uint32_t __wrap_gcflip_heap_##name parameters        \
    {                                                    \
        *work = (gcflip_work){0, 0, 0, 0, 0};               \
        return GCFLIP_DONE;                              \
    }
#define SLOT gcflip_heap *heap, uint8_t m, uint8_t d
#define READ_SLOT const gcflip_heap *heap, uint8_t m, uint8_t d

MADE(new_object, (SLOT, uint8_t kind, uint16_t count), (heap, m, d, kind, count), count)
MADE(new_raw, (SLOT, uint8_t kind, uint16_t count), (heap, m, d, kind, count), count)
MADE(new_pair, (SLOT, uint8_t kind, uint8_t s, uint8_t t), (heap, m, d, kind, s, t), 2)
MADE(new_from, (SLOT, uint8_t kind, const uint8_t *fields, size_t count), (heap, m, d, kind, fields, count), count)
MADE(new_with, (SLOT, uint8_t kind, uint8_t t, const gcflip_field *fields, size_t count), (heap, m, d, kind, t, fields, count), count)
WRAPPED(get, (gcflip_heap *heap, uint8_t m, uint8_t d, uint8_t s, uint16_t i, uint64_t *number), (heap, m, d, s, i, number), seen.reads++)
WRAPPED(look, (READ_SLOT, gcflip_view *view), (heap, m, d, view), seen.reads++)
WRAPPED(raw_read, (READ_SLOT, uint16_t first, uint64_t *words, size_t count), (heap, m, d, first, words, count), seen.reads++)
WRAPPED(put, (SLOT, uint16_t i, uint8_t t), (heap, m, d, i, t), seen.writes++)
WRAPPED(put_number, (SLOT, uint16_t i, uint8_t t, uint64_t n), (heap, m, d, i, t, n), seen.writes++)
WRAPPED(put_nil, (SLOT, uint16_t i, uint8_t t), (heap, m, d, i, t), seen.writes++)
WRAPPED(raw_write, (SLOT, uint16_t first, uint8_t t, const uint64_t *words, size_t count), (heap, m, d, first, t, words, count), seen.writes++)
WRAPPED(copy_fields, (SLOT, uint16_t to, uint8_t s, uint16_t from, uint8_t t, uint16_t count), (heap, m, d, to, s, from, t, count), seen.writes++)
WRAPPED(set_number, (SLOT, uint64_t n), (heap, m, d, n), seen.moves++)
WRAPPED(set_nil, (SLOT), (heap, m, d), seen.moves++)
WRAPPED(move, (SLOT, uint8_t s), (heap, m, d, s), seen.moves++)
WRAPPED(same, (READ_SLOT, uint8_t t), (heap, m, d, t), seen.moves++)
WRAPPED(root_load, (SLOT, uint32_t k), (heap, m, d, k), seen.moves++)
WRAPPED(root_store, (gcflip_heap *heap, uint8_t m, uint32_t k, uint8_t s), (heap, m, k, s), seen.moves++)
WRAPPED(frame_push, (SLOT, gcflip_frame *frame), (heap, m, d, frame), seen.moves++)
WRAPPED(frame_pop, (SLOT, gcflip_frame *frame), (heap, m, d, frame), seen.moves++)
WRAPPED(close, (gcflip_heap *heap), (heap), if (has_begun) end_interval(heap); has_begun = false)
NO_WORK(work, (gcflip_heap *heap, uint32_t most, gcflip_work *work))
NO_WORK(work_sized, (gcflip_heap *heap, uint32_t most, uint32_t size, gcflip_work *work))
NO_WORK(work_within, (gcflip_heap *heap, uint32_t most, uint32_t words, gcflip_work *work))
NO_WORK(work_paced, (gcflip_heap *heap, gcflip_pace *pace, uint32_t wanted, gcflip_work *work))
