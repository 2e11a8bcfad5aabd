/* Pages of memory: pages touch|slices|release|rest. A heap that was touched meets no page for the first time in its first collection. A heap that became
 * smaller gives its old space back in slices, or what is left of it where a collection begins or a flip checks both spaces whole. A release gives back the pages that no object takes. */
#define _GNU_SOURCE
#include "expect.h"
#include "gcflip_heap.h"
#include <malloc.h>
#include <string.h>
#include <sys/prctl.h>
#include <sys/resource.h>
#include <unistd.h>

enum { LARGE = 1 << 21, SMALL = 1 << 12, CELL_WORDS = 4, PAGE_WORDS = 512, SLICE_PAGES = 64, FEW = 64 };

static gcflip_heap heap = GCFLIP_NO_HEAP;

static long faults(void)
{
    struct rusage usage;
    EXPECT(getrusage(RUSAGE_SELF, &usage) == 0);
    return usage.ru_minflt;
}

/* The pages of memory that the process has. */
static long resident(void)
{
    long all = 0, here = 0;
    FILE *file = fopen("/proc/self/statm", "r");
    EXPECT(file != NULL && fscanf(file, "%ld %ld", &all, &here) == 2);
    fclose(file);
    return here;
}

static void open_checked(uint32_t words, uint32_t checking)
{
    gcflip_options options = gcflip_options_default(words, 1);
    options.checking = checking;
    EXPECT(gcflip_heap_open(&heap, &options) == GCFLIP_DONE);
}

static void open_heap(uint32_t words)
{
    open_checked(words, GCFLIP_ALONG);
}

/* Keeps so many cells in a list. */
static void keep_cells(uint32_t cells)
{
    for (uint32_t k = 0; k < cells; k++) {
        EXPECT(gcflip_heap_new_pair(&heap, 0, 2, 1, 0, 1) == GCFLIP_MADE);
        EXPECT(gcflip_heap_move(&heap, 0, 0, 2) == GCFLIP_DONE);
    }
}

/* Performs calls of work up to the flip, and returns the largest number of pages that one of them gave back. */
static long collect(uint32_t size)
{
    gcflip_work work = {0, 0, 0, 0, 0};
    long most = 0;
    while (work.last != GCFLIP_FLIPPED) {
        long before = resident();
        EXPECT(gcflip_heap_work_sized(&heap, 16, size, &work) == GCFLIP_DONE && work.last != GCFLIP_NO_ROOM);
        long given = before - resident();
        most = given > most ? given : most;
    }
    return most;
}

/* How many pages the first collection of a heap with half a million words alive meets for the first time. */
static long met(int is_touched)
{
    uint32_t address = 7;
    open_heap(LARGE);
    if (is_touched)
        EXPECT(gcflip_heap_touch(&heap) == GCFLIP_DONE);
    EXPECT(gcflip_heap_moved(&heap, 1, &address) == GCFLIP_OUT_OF_RANGE && address == 7);
    keep_cells(LARGE / 4 / CELL_WORDS);
    long before = faults();
    collect(LARGE);
    long found = faults() - before;
    EXPECT(gcflip_heap_touch(&heap) == GCFLIP_DONE);
    EXPECT(gcflip_heap_moved(&heap, 1, &address) == GCFLIP_DONE || address == 7);
    EXPECT(gcflip_heap_step_begin(&heap) == GCFLIP_BEGUN && gcflip_heap_touch(&heap) == GCFLIP_DONE);
    EXPECT(gcflip_heap_close(&heap) == GCFLIP_DONE);
    return found;
}

/* The same for a heap that grew in a collection before, and was touched then. The old space of that collection is too small for the next one. */
static long met_after_growth(void)
{
    open_heap(LARGE / 2);
    keep_cells(FEW);
    collect(LARGE);
    EXPECT(gcflip_heap_touch(&heap) == GCFLIP_DONE);
    keep_cells(LARGE / 4 / CELL_WORDS);
    long before = faults();
    collect(LARGE);
    long found = faults() - before;
    EXPECT(gcflip_heap_close(&heap) == GCFLIP_DONE);
    return found;
}

/* A heap that is touched twice meets no page the second time. */
static void touch_twice(void)
{
    open_heap(LARGE);
    EXPECT(gcflip_heap_touch(&heap) == GCFLIP_DONE);
    long pages = resident(), before = faults();
    EXPECT(gcflip_heap_touch(&heap) == GCFLIP_DONE);
    EXPECT(resident() - pages <= FEW && faults() - before <= FEW);
    EXPECT(gcflip_heap_close(&heap) == GCFLIP_DONE);
}

static void touch(void)
{
    long pages = LARGE / 4 / PAGE_WORDS;
    EXPECT(gcflip_heap_touch(&heap) == GCFLIP_CLOSED);
    touch_twice();
    EXPECT(met(0) >= pages);
    EXPECT(met(1) <= FEW);
    EXPECT(met_after_growth() <= FEW);
}

static void slices(void)
{
    gcflip_work work = {0, 0, 0, 0, 0};
    open_heap(LARGE);
    EXPECT(gcflip_heap_touch(&heap) == GCFLIP_DONE);
    keep_cells(FEW);
    collect(SMALL); /* the heap is small from here on, and its old space is large */
    keep_cells(FEW);
    long before = resident();
    EXPECT(gcflip_heap_work_sized(&heap, 1, SMALL, &work) == GCFLIP_DONE && work.last == GCFLIP_BEGUN);
    for (long slice = 0; slice < 2 * LARGE / PAGE_WORDS / SLICE_PAGES; slice++) {
        long now = resident();
        EXPECT(gcflip_heap_work_sized(&heap, 1, SMALL, &work) == GCFLIP_DONE);
        EXPECT(now - resident() <= SLICE_PAGES + FEW);
    }
    EXPECT(before - resident() >= LARGE / PAGE_WORDS - FEW);
    EXPECT(gcflip_heap_close(&heap) == GCFLIP_DONE);
}

/* A small heap whose large old space leaves from here on, in a collection that has begun. */
static void begin_small(uint32_t checking)
{
    open_checked(LARGE, checking);
    EXPECT(gcflip_heap_touch(&heap) == GCFLIP_DONE);
    keep_cells(FEW);
    collect(SMALL);
    EXPECT(gcflip_heap_step_begin_sized(&heap, SMALL) == GCFLIP_BEGUN);
}

/* Performs single steps, none of which gives memory back in slices, until the collection is ready. */
static void make_ready(void)
{
    while (gcflip_heap_step_roots(&heap) != GCFLIP_CLEAN)
        ;
    while (gcflip_heap_step_scan(&heap) != GCFLIP_CLEAN)
        ;
}

static void rest(void)
{
    begin_small(GCFLIP_ALONG);
    long before = resident();
    EXPECT(gcflip_heap_step_give_up(&heap) == GCFLIP_DROPPED);
    EXPECT(before - resident() <= FEW);
    EXPECT(gcflip_heap_step_begin_sized(&heap, SMALL) == GCFLIP_BEGUN);
    EXPECT(before - resident() >= LARGE / PAGE_WORDS - FEW);
    EXPECT(gcflip_heap_close(&heap) == GCFLIP_DONE);

    uint32_t pairs = 0;
    begin_small(GCFLIP_AT_FLIP);
    make_ready();
    before = resident();
    EXPECT(gcflip_heap_step_flip(&heap, &pairs) == GCFLIP_FLIPPED && pairs == FEW);
    EXPECT(before - resident() >= LARGE / PAGE_WORDS - FEW);
    EXPECT(gcflip_heap_close(&heap) == GCFLIP_DONE);
}

/* Pages behind the end go back, and the next collection's space with them. The list stays, and the heap can be filled again. */
static void releases(uint32_t words)
{
    uint32_t cells = LARGE / 8 / CELL_WORDS, made = 0;
    gcflip_work work = {0, 0, 0, 0, 0};
    open_heap(words);
    EXPECT(gcflip_heap_touch(&heap) == GCFLIP_DONE);
    keep_cells(cells);
    long before = resident();
    EXPECT(gcflip_release(&heap) == GCFLIP_DONE);
    EXPECT(before - resident() >= (2 * words - cells * CELL_WORDS) / PAGE_WORDS - FEW);
    before = resident();
    EXPECT(gcflip_release(&heap) == GCFLIP_DONE && gcflip_room(&heap) == words - 1 - cells * CELL_WORDS);
    EXPECT(resident() - before <= FEW);
    while (gcflip_heap_new_pair(&heap, 0, 3, 1, 0, 1) == GCFLIP_MADE)
        made++;
    EXPECT(made == (words - 1) / CELL_WORDS - cells && gcflip_collect(&heap, &work) == GCFLIP_DONE && work.pairs == cells + 1);
    for (uint32_t k = 0; k < cells; k++)
        EXPECT(gcflip_get_seen(&heap, 16, 16, 0).answer == (k + 1 < cells ? GCFLIP_OBJECT : GCFLIP_NIL));
    EXPECT(gcflip_heap_close(&heap) == GCFLIP_DONE && gcflip_release(&heap) == GCFLIP_CLOSED);
}

int main(int count, char **words)
{
    EXPECT(count == 2);
    EXPECT(prctl(PR_SET_THP_DISABLE, 1, 0, 0, 0) == 0); /* else one fault brings many pages */
    EXPECT(mallopt(M_MMAP_THRESHOLD, 1 << 20) == 1);    /* else glibc keeps large blocks once one was freed */
    if (strcmp(words[1], "touch") == 0)
        touch();
    else if (strcmp(words[1], "slices") == 0)
        slices();
    else if (strcmp(words[1], "release") == 0)
        for (uint32_t less = 0; less < 4; less++) /* blocks that end in a page or with one */
            releases(LARGE - less);
    else
        rest();
    return 0;
}
