/* Tests the allocator of bindings/c/examples/huge_pages.c, which is linked with it: huge_pages [plain]. Its large blocks begin where a huge page can,
 * and all blocks keep what they hold. With a word it also tests what sanitizers and valgrind do otherwise: a block that becomes smaller stays where
 * it is, and a size that no system has is refused. */
#include "expect.h"
#include <gcflip_allocator.h>
#include <stdbool.h>
#include <stdint.h>
#include <string.h>

enum { HUGE_PAGE = 2 << 20, SMALL_ALIGNMENT = 16, FILLED = 0xA5 };

static const size_t SIZES[] = {0, 1, 4096, HUGE_PAGE - 1, HUGE_PAGE, HUGE_PAGE + 1, 5 << 20};
static const size_t NO_SYSTEM_HAS = SIZE_MAX / 4;

static bool is_multiple(const void *at, size_t alignment)
{
    return (uintptr_t)at % alignment == 0;
}

/* Returns a new block whose bytes are filled. */
static unsigned char *filled(size_t size)
{
    struct gcflip_memory memory = rattle_alloc(size, SMALL_ALIGNMENT);
    EXPECT(memory.ok && memory.at != NULL && is_multiple(memory.at, size < HUGE_PAGE ? SMALL_ALIGNMENT : HUGE_PAGE));
    memset(memory.at, FILLED, size);
    return memory.at;
}

static void expect_filled(const unsigned char *block, size_t size)
{
    for (size_t i = 0; i < size; i++)
        EXPECT(block[i] == FILLED);
}

/* Makes a block of one size, then of another, and frees it. All of it can be written. */
static void resized(size_t from, size_t to)
{
    size_t used = from < to ? from : to;
    struct gcflip_memory memory = rattle_realloc(filled(from), used, to, SMALL_ALIGNMENT);
    EXPECT(memory.ok && memory.at != NULL && is_multiple(memory.at, from < to && HUGE_PAGE <= to ? HUGE_PAGE : SMALL_ALIGNMENT));
    expect_filled(memory.at, used);
    memset(memory.at, 0, to);
    rattle_dealloc(memory.at);
}

/* Makes a large block smaller in steps, as a space that is given back. */
static void stays(void)
{
    unsigned char *block = filled(5 << 20);
    for (size_t size = 5 << 20; size > 0; size -= 1 << 18) {
        struct gcflip_memory memory = rattle_realloc(block, size, size, SMALL_ALIGNMENT);
        EXPECT(memory.ok && (memory.at == block || size < HUGE_PAGE));
        block = memory.at;
    }
    rattle_dealloc(block);
}

/* A refusal has an address, and leaves the old block as it is. */
static void refused(size_t size)
{
    unsigned char *block = filled(size);
    struct gcflip_memory memory = rattle_alloc(NO_SYSTEM_HAS, SMALL_ALIGNMENT);
    EXPECT(!memory.ok && memory.at != NULL);
    memory = rattle_realloc(block, size, NO_SYSTEM_HAS, SMALL_ALIGNMENT);
    EXPECT(!memory.ok && memory.at != NULL);
    expect_filled(block, size);
    rattle_dealloc(block);
}

int main(int count, char **words)
{
    (void)words;
    for (size_t i = 0; i < COUNT(SIZES); i++)
        for (size_t j = 0; j < COUNT(SIZES); j++)
            resized(SIZES[i], SIZES[j]);
    if (count > 1) {
        stays();
        refused(1);
        refused(HUGE_PAGE);
    }
    return 0;
}
