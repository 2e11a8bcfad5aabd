/* The blocks that a test's own allocation functions have given out, for tests that find the heap's memory. */
#ifndef KNOWN_BLOCKS_H
#define KNOWN_BLOCKS_H

#include "expect.h"
#include <stddef.h>

enum { BLOCKS = 64 };

/* A place without a block has no address. */
static struct {
    void *at;
    size_t size;
} blocks[BLOCKS];

/* Returns the place of the block that begins at this address, or for NULL one without a block. */
static size_t slot_of(const void *at)
{
    size_t slot = 0;
    while (blocks[slot].at != at)
        EXPECT(++slot < BLOCKS);
    return slot;
}

static void know_block(size_t slot, void *at, size_t size)
{
    blocks[slot].at = at;
    blocks[slot].size = size;
}

/* Ends the program if a block is left. */
static void expect_no_block(void)
{
    for (size_t slot = 0; slot < BLOCKS; slot++)
        EXPECT(blocks[slot].at == NULL);
}

#endif
