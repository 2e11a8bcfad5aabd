/* A heap of 1048576 words with 200000 objects, and a log of 600000 entries: what small heaps do not show. With COUNTED, this program
   counts the library's blocks and bytes. Without, the library's own allocator is used, and a sanitizer finds blocks that are lost. */
#include "expect.h"
#include "gcflip_heap.h"
#include "open_heap.h"
#ifdef COUNTED
#include "own_allocator.h"
static bool counting(void) { return true; }
#else
static bool counting(void) { return false; }
static long blocks_in_use(void) { return 0; }
static size_t bytes_in_use(void) { return 0; }
#endif

enum { WORDS = 1 << 20, CELLS = 200000, PUTS = 600000, END = 1 + 4 * CELLS, ROOTS = 32, LIST = 16, ROUNDS = 3 };

static gcflip_heap heap = GCFLIP_NO_HEAP;
static gcflip_counts counts;
static gcflip_work work;
static gcflip_log_entry entry;
static size_t length;
static uint64_t number, words[WORDS], roots[ROOTS];

/* Makes a list of cells in a shared slot: a number and the rest. */
static void fill(void)
{
    uint32_t i;
    for (i = 0; i < CELLS; i++) {
        EXPECT(gcflip_heap_set_number(&heap, 0, 1, i) == GCFLIP_DONE);
        EXPECT(gcflip_heap_new_pair(&heap, 0, 0, 1, 1, LIST) == GCFLIP_MADE);
        EXPECT(gcflip_heap_move(&heap, 0, LIST, 0) == GCFLIP_DONE);
    }
    EXPECT(gcflip_heap_set_nil(&heap, 0, 0) == GCFLIP_DONE);
}

/* Checks the numbers of the list. The first one was written again. */
static void expect_list(uint64_t first)
{
    uint32_t i;
    EXPECT(gcflip_heap_move(&heap, 0, 2, LIST) == GCFLIP_DONE);
    for (i = CELLS; i > 0; i--) {
        EXPECT(gcflip_heap_get(&heap, 0, 3, 2, 0, &number) == GCFLIP_NUMBER && number == (i == CELLS ? first : i - 1));
        EXPECT(gcflip_heap_get(&heap, 0, 2, 2, 1, &number) == (i == 1 ? GCFLIP_NIL : GCFLIP_OBJECT));
    }
}

/* Makes each call that reads. None of them may keep a block. */
static void read_all(uint32_t end, size_t logged)
{
    long blocks = blocks_in_use();
    size_t bytes = bytes_in_use();
    EXPECT(gcflip_heap_counts(&heap, &counts) == GCFLIP_DONE && counts.end == end && counts.size == WORDS);
    EXPECT(gcflip_heap_log_length(&heap, 0, &length) == GCFLIP_DONE && length == logged);
    if (logged > 0)
        EXPECT(gcflip_heap_log_entry(&heap, 0, logged - 1, &entry) == GCFLIP_DONE && entry.field == 0);
    EXPECT(gcflip_heap_image(&heap, words, end, roots, ROOTS) == GCFLIP_DONE && words[0] == 0 && roots[0] % 2 == 0);
    if (counts.is_open)
        EXPECT(gcflip_heap_new_words(&heap, words, counts.new_end) == GCFLIP_DONE && words[0] == 0);
    EXPECT(blocks_in_use() == blocks && bytes_in_use() == bytes);
}

/* Collects while the first cell is written again and again. One call performs all steps: one for the root, three for each cell, one
   for each log entry, and the flip. */
static void collect(uint64_t first)
{
    uint32_t i;
    EXPECT(gcflip_heap_step_begin(&heap) == GCFLIP_BEGUN);
    for (i = 0; i < PUTS; i++)
        EXPECT(gcflip_heap_put_number(&heap, 0, LIST, 0, 1, first) == GCFLIP_DONE);
    read_all(END, PUTS);
    EXPECT(gcflip_heap_work(&heap, UINT32_MAX, &work) == GCFLIP_DONE);
    EXPECT(work.last == GCFLIP_FLIPPED && work.pairs == CELLS && work.copied == 4 * CELLS);
    EXPECT(work.steps == 1 + 3 * CELLS + PUTS + 1);
    read_all(END, 0);
}

/* Collects ROUNDS times. The first flip keeps the old space, and less than a twentieth as much for logs; no later one keeps more. */
static void collect_again(void)
{
    size_t space = counting() ? 8 * (size_t)WORDS : 0, bytes = bytes_in_use();
    collect(CELLS + 1);
    size_t kept = bytes_in_use();
    long blocks = blocks_in_use();
    EXPECT(bytes + space <= kept && kept <= bytes + space + space / 20);
    for (uint32_t i = 2; i <= ROUNDS; i++) {
        collect(CELLS + i);
        EXPECT(blocks_in_use() == blocks && bytes_in_use() == kept);
    }
}

int main(void)
{
    EXPECT(open_plain_heap(&heap, WORDS, 1) == GCFLIP_DONE);
    fill();
    read_all(END, 0);
    collect_again();
    expect_list(CELLS + ROUNDS);
    EXPECT(gcflip_heap_close(&heap) == GCFLIP_DONE && blocks_in_use() == 0 && bytes_in_use() == 0);
    return 0;
}
