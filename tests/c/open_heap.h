/* Opens a heap without extra roots. A program that records includes this file after gcflip_record.h. */
#ifndef OPEN_HEAP_H
#define OPEN_HEAP_H

static inline uint32_t open_plain_heap(gcflip_heap *heap, uint32_t size, uint8_t mutators)
{
    const gcflip_options options = gcflip_options_default(size, mutators);
    return gcflip_heap_open(heap, &options);
}

#endif
