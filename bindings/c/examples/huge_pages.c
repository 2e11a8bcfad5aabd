/* An allocator that asks Linux for huge pages, of 2 MiB each, where the libraries want a block of that size or more. All other blocks are malloc's.
 * It pays for heaps above 64 MiB: a collector reads and writes all over both spaces, and the processor finds a word sooner in few large pages than
 * in many of 4 KiB. bench/embedding/README.md has figures. Compile it with the program, before the archive:
 *
 *     cc program.c huge_pages.c libgcflip.a
 *
 * It asks in vain where /sys/kernel/mm/transparent_hugepage/enabled says `never`. The first write to a huge page waits until the system has cleared
 * 2 MiB. So a program whose pauses have to be short calls gcflip_heap_touch after gcflip_heap_open. */
#define _DEFAULT_SOURCE /* for madvise */
#include <gcflip_allocator.h>
#include <malloc.h>
#include <stdbool.h>
#include <stdint.h>
#include <stdlib.h>
#include <string.h>
#include <sys/mman.h>

static const size_t HUGE_PAGE = (size_t)2 << 20, SMALL_PAGE = 4096;

/* Returns the block at this address, or a refusal if it is NULL. */
static struct gcflip_memory memory_at(void *at)
{
    static char nowhere;
    struct gcflip_memory memory = {at != NULL, at ? at : &nowhere};
    return memory;
}

/* A block of 0 bytes needs an address of its own too. */
static size_t at_least_one(size_t size)
{
    return size ? size : 1;
}

/* Returns a block that begins where a huge page can, or NULL. realloc and free take it. If the system does not give huge pages, it has small ones. */
static void *huge_block(size_t size)
{
    void *at = NULL;
    if (posix_memalign(&at, HUGE_PAGE, size) != 0)
        return NULL;
    (void)madvise(at, size, MADV_HUGEPAGE);
    return at;
}

/* Returns such a block with the first `used` bytes of another one, which is then freed. Returns NULL, and leaves the other one, if there is no memory. */
static void *huge_block_from(void *old, size_t used, size_t size)
{
    void *at = huge_block(size);
    if (at != NULL) {
        memcpy(at, old, used < size ? used : size);
        free(old);
    }
    return at;
}

/* Whether this block begins where a huge page can, and has so many bytes already. */
static bool is_huge_block(void *at, size_t size)
{
    return (uintptr_t)at % HUGE_PAGE == 0 && size <= malloc_usable_size(at);
}

struct gcflip_memory rattle_alloc(size_t size, size_t alignment)
{
    (void)alignment;
    return memory_at(size < HUGE_PAGE ? malloc(at_least_one(size)) : huge_block(size));
}

/* Gives the pages behind the first `used` bytes of a block back to the system. At most one huge page falls into small ones. */
static void give_pages_back(char *at, size_t used, size_t size)
{
    size_t first = (used + SMALL_PAGE - 1) / SMALL_PAGE * SMALL_PAGE, end = size / SMALL_PAGE * SMALL_PAGE;
    if (first < end)
        (void)madvise(at + first, end - first, MADV_DONTNEED);
}

/* Makes such a block smaller, where it is. If it keeps all its pages, those go back that it does not use: gcflip_release asks for that. */
static void *smaller_block(void *old, size_t used, size_t size)
{
    bool keeps_pages = malloc_usable_size(old) - size < 2 * SMALL_PAGE;
    void *at = realloc(old, size);
    if (at == old && keeps_pages)
        give_pages_back(at, used, size);
    return at;
}

/* A large block that becomes smaller stays where it is, since a space that is given back in slices becomes smaller many times. */
struct gcflip_memory rattle_realloc(void *old, size_t used, size_t size, size_t alignment)
{
    (void)alignment;
    if (size < HUGE_PAGE)
        return memory_at(realloc(old, at_least_one(size)));
    return memory_at(is_huge_block(old, size) ? smaller_block(old, used, size) : huge_block_from(old, used, size));
}

void rattle_dealloc(void *old)
{
    free(old);
}
