/* The heap of a test, what calls on it write, and how it is opened and closed. */
#ifndef ONE_HEAP_H
#define ONE_HEAP_H

#include "expect.h"
#include "gcflip_heap.h"

static gcflip_heap heap = GCFLIP_NO_HEAP;
static gcflip_view view;
static uint64_t number;
static gcflip_work work;
static gcflip_counts counts;

static inline void open_heap_with(uint32_t size, uint8_t mutators, uint32_t extra_roots, uint8_t checking)
{
    gcflip_options options = gcflip_options_default(size, mutators);
    options.extra_roots = extra_roots;
    options.checking = checking;
    EXPECT(gcflip_heap_open(&heap, &options) == GCFLIP_DONE && heap.at != NULL);
}

static void close_heap(void)
{
    EXPECT(gcflip_heap_close(&heap) == GCFLIP_DONE && heap.at == NULL);
}

#endif
