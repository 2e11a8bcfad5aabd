/* The allocation functions of the libraries, defined by the program that includes this file: they count blocks and bytes,
   and one of them can be made to fail. */
#ifndef OWN_ALLOCATOR_H
#define OWN_ALLOCATOR_H

#include <gcflip_allocator.h>
#include <stdbool.h>
#include <stddef.h>
#include <stdlib.h>

static long requests, failing;
static long blocks;
static size_t bytes;
static bool failed, fail_all;

/* A header with its size precedes each block. */
union header {
    size_t size;
    max_align_t aligned;
};

/* Makes the n-th allocation from now on fail, or none if n is 0. */
static inline void fail_allocation(long n)
{
    requests = 0;
    failing = n;
    failed = fail_all = false;
}

/* Makes each allocation from now on fail. */
static inline void fail_allocations(void)
{
    fail_allocation(1);
    fail_all = true;
}

static inline bool has_failed(void)
{
    return failed;
}

static inline long blocks_in_use(void)
{
    return blocks;
}

/* Returns the number of bytes that were allocated and not freed. */
static inline size_t bytes_in_use(void)
{
    return bytes;
}

static bool fails(void)
{
    requests++;
    if (requests == failing)
        failed = true;
    return requests == failing || fail_all;
}

/* Returns the block after its header, or a failure. */
static struct gcflip_memory memory_behind(union header *header, size_t size)
{
    static char nowhere;
    struct gcflip_memory memory = {header != NULL, &nowhere};
    if (header) {
        header->size = size;
        bytes += size;
        memory.at = header + 1;
    }
    return memory;
}

struct gcflip_memory rattle_alloc(size_t size, size_t alignment)
{
    union header *header = fails() ? NULL : (union header *)malloc(sizeof *header + size);
    (void)alignment;
    blocks += header != NULL;
    return memory_behind(header, size);
}

struct gcflip_memory rattle_realloc(void *old, size_t used, size_t size, size_t alignment)
{
    union header *header = (union header *)old - 1;
    size_t old_size = header->size;
    (void)used;
    (void)alignment;
    header = fails() ? NULL : (union header *)realloc(header, sizeof *header + size);
    bytes -= header ? old_size : 0;
    return memory_behind(header, size);
}

void rattle_dealloc(void *old)
{
    union header *header = (union header *)old - 1;
    blocks--;
    bytes -= header->size;
    free(header);
}

#endif
