/* Live objects at the far end of a heap of 2^32 - 1 words: far BLOCKS. Prints the address of one of them.
 *
 * Garbage fills the first BLOCKS blocks of 65536 words, each with one raw object. All of these blocks have the same words, so they can share memory:
 * this program's allocator maps them to few pages, and the tables that the checkers keep of them as well. BLOCKS is a multiple of SHARED. */
#define _GNU_SOURCE
#include "expect.h"
#include "gcflip_allocator.h"
#include "gcflip_heap.h"
#include "open_heap.h"
#include <sys/mman.h>
#include <unistd.h>

enum { WORDS_OF_BLOCK = 65536, SHARED = 64, CELLS = 100000, LIST = 16, CELL = 0, VALUE = 1, SEEN = 2, MOST_BLOCKS = 64 };
static const size_t LARGE = (size_t)1 << 27;

static gcflip_heap heap = GCFLIP_NO_HEAP;
static gcflip_counts counts;
static gcflip_work work;
static uint64_t number;
/* The blocks that share memory. */
static size_t blocks;

static struct {
    void *at;
    size_t size;
} mapped[MOST_BLOCKS];

/* Returns how many bits a large block has for each word of the heap: a space 64; the standing checker's originals 16, its codes 2 and its starts 1. Its
 * epochs have an eighth of a bit, and are no large block. */
static size_t bits_of(size_t size)
{
    size_t bits = 16;
    if (size == sizeof(uint64_t) * UINT32_MAX)
        return 64;
    while (bits > 0 && size != bits << 29)
        bits = bits == 16 ? 2 : bits - 1;
    EXPECT(bits > 0);
    return bits;
}

static void map(char *at, size_t size, int flags, int file)
{
    EXPECT(size == 0 || mmap(at, size, PROT_READ | PROT_WRITE, flags | MAP_FIXED | MAP_NORESERVE, file, 0) == at);
}

static void *large(size_t size)
{
    size_t bits = bits_of(size), shared = SHARED * WORDS_OF_BLOCK / 8 * bits, all = blocks * WORDS_OF_BLOCK / 8 * bits, slot = 0;
    char *at = mmap(NULL, size, PROT_NONE, MAP_PRIVATE | MAP_ANONYMOUS | MAP_NORESERVE, -1, 0);
    int file = memfd_create("blocks", 0);
    EXPECT(at != MAP_FAILED && file >= 0 && ftruncate(file, (off_t)shared) == 0);
    for (size_t start = 0; start < all; start += shared)
        map(at + start, shared, MAP_SHARED, file);
    map(at + all, size - all, MAP_PRIVATE | MAP_ANONYMOUS, -1);
    close(file);
    while (mapped[slot].at != NULL)
        slot++;
    EXPECT(slot < MOST_BLOCKS);
    mapped[slot].at = at;
    mapped[slot].size = size;
    return at;
}

struct gcflip_memory rattle_alloc(size_t size, size_t alignment)
{
    static char nowhere;
    void *at = size >= LARGE ? large(size) : malloc(size + 1);
    struct gcflip_memory memory = {at != NULL, at != NULL ? at : &nowhere};
    (void)alignment;
    return memory;
}

struct gcflip_memory rattle_realloc(void *old, size_t used, size_t size, size_t alignment)
{
    struct gcflip_memory memory = {false, old};
    (void)used, (void)alignment;
    for (size_t slot = 0; slot < MOST_BLOCKS; slot++)
        EXPECT(mapped[slot].at != old);
    EXPECT(size < LARGE);
    void *at = realloc(old, size + 1);
    if (at != NULL) {
        memory.ok = true;
        memory.at = at;
    }
    return memory;
}

void rattle_dealloc(void *old)
{
    for (size_t slot = 0; slot < MOST_BLOCKS; slot++)
        if (mapped[slot].at == old) {
            EXPECT(munmap(old, mapped[slot].size) == 0);
            mapped[slot].at = NULL;
            return;
        }
    free(old);
}

/* Expects the cells of the list, whose first number is `first`. */
static void expect_list(uint64_t first)
{
    EXPECT(gcflip_heap_move(&heap, 0, CELL, LIST) == GCFLIP_DONE);
    for (uint32_t k = CELLS; k > 0; k--) {
        EXPECT(gcflip_heap_get(&heap, 0, SEEN, CELL, 0, &number) == GCFLIP_NUMBER && number == (k == CELLS ? first : k - 1));
        EXPECT(gcflip_heap_get(&heap, 0, CELL, CELL, 1, &number) == (k == 1 ? GCFLIP_NIL : GCFLIP_OBJECT));
    }
}

/* Finishes the open collection, and expects its list. */
static void finish(uint32_t size, uint64_t first)
{
    EXPECT(gcflip_heap_work(&heap, UINT32_MAX, &work) == GCFLIP_DONE && work.last == GCFLIP_FLIPPED && work.pairs == CELLS);
    EXPECT(gcflip_heap_counts(&heap, &counts) == GCFLIP_DONE && counts.size == size && counts.end == 1 + 4 * CELLS);
    expect_list(first);
}

int main(int count, char **words)
{
    gcflip_log_entry entry;
    EXPECT(count == 2);
    blocks = strtoul(words[1], NULL, 10);
    EXPECT(blocks % SHARED == 0 && blocks + SHARED <= WORDS_OF_BLOCK);
    EXPECT(open_plain_heap(&heap, UINT32_MAX, 1) == GCFLIP_DONE);
    for (size_t block = 0; block < blocks; block++)
        EXPECT(gcflip_heap_new_raw(&heap, 0, CELL, 0, WORDS_OF_BLOCK - 2) == GCFLIP_MADE);
    for (uint32_t k = 0; k < CELLS; k++) {
        EXPECT(gcflip_heap_set_number(&heap, 0, VALUE, k) == GCFLIP_DONE);
        EXPECT(gcflip_heap_new_pair(&heap, 0, CELL, 1, VALUE, LIST) == GCFLIP_MADE);
        EXPECT(gcflip_heap_move(&heap, 0, LIST, CELL) == GCFLIP_DONE);
    }
    EXPECT(gcflip_heap_set_nil(&heap, 0, CELL) == GCFLIP_DONE);
    EXPECT(gcflip_heap_counts(&heap, &counts) == GCFLIP_DONE);
    const size_t end = counts.end;
    EXPECT(end == 1 + blocks * WORDS_OF_BLOCK + 4 * CELLS);
    expect_list(CELLS - 1);

    EXPECT(gcflip_heap_step_begin_sized(&heap, 4 * CELLS + 1) == GCFLIP_BEGUN);
    EXPECT(gcflip_heap_work(&heap, CELLS, &work) == GCFLIP_DONE && work.steps == CELLS);
    EXPECT(gcflip_heap_put_number(&heap, 0, LIST, 0, VALUE, 77) == GCFLIP_DONE);
    EXPECT(gcflip_heap_log_entry(&heap, 0, 0, &entry) == GCFLIP_DONE && entry.object == end - 4);
    printf("address=%u\n", entry.object);
    finish(4 * CELLS + 1, 77);

    blocks = 0;
    EXPECT(gcflip_heap_step_begin_sized(&heap, UINT32_MAX) == GCFLIP_BEGUN);
    finish(UINT32_MAX, 77);
    EXPECT(gcflip_heap_close(&heap) == GCFLIP_DONE);
    for (size_t slot = 0; slot < MOST_BLOCKS; slot++)
        EXPECT(mapped[slot].at == NULL);
    return 0;
}
