/* Gives up three collections that have a replica of each object: count_give_up pairs CELLS, or count_give_up raw WORDS. The fourth flips, by the
   standing checker alone. The heap has a list of CELLS pairs, or WORDS words with raw objects in a table. The instructions of giving up, and those
   of the step that makes the next collection's first replica, tell whether they grow with the number of replicas or with the heap. */
#include "expect.h"
#include "gcflip_heap.h"
#include "open_heap.h"
#include <string.h>

enum { CELL = 4, LIST = 1, TABLE = 1, RAW_WORDS = 1000 };

static gcflip_heap heap = GCFLIP_NO_HEAP;

static uint32_t fill_with_pairs(uint32_t cells)
{
    uint32_t i;
    EXPECT(open_plain_heap(&heap, CELL * cells + 1, 1) == GCFLIP_DONE);
    for (i = 0; i < cells; i++) {
        EXPECT(gcflip_heap_new_pair(&heap, 0, 0, 1, 2, LIST) == GCFLIP_MADE);
        EXPECT(gcflip_heap_move(&heap, 0, LIST, 0) == GCFLIP_DONE);
    }
    return cells;
}

/* All words but the last few hold the table and its raw objects. */
static uint32_t fill_with_raws(uint32_t words)
{
    uint32_t i, raws = words / (RAW_WORDS + 1) - 1;
    EXPECT(open_plain_heap(&heap, words, 1) == GCFLIP_DONE);
    EXPECT(gcflip_heap_new_object(&heap, 0, TABLE, 1, (uint16_t)raws) == GCFLIP_MADE);
    for (i = 0; i < raws; i++) {
        EXPECT(gcflip_heap_new_raw(&heap, 0, 0, 2, RAW_WORDS - 2) == GCFLIP_MADE);
        EXPECT(gcflip_heap_put(&heap, 0, TABLE, (uint16_t)i, 0) == GCFLIP_DONE);
    }
    EXPECT(gcflip_heap_set_nil(&heap, 0, 0) == GCFLIP_DONE);
    return 1 + raws;
}

static void replicate(void)
{
    EXPECT(gcflip_heap_step_begin(&heap) == GCFLIP_BEGUN && gcflip_heap_step_roots(&heap) == GCFLIP_COPIED);
    while (gcflip_heap_step_scan(&heap) != GCFLIP_CLEAN)
        ;
}

int main(int count, char **arguments)
{
    uint32_t i, objects, pairs = 0;
    gcflip_flip_checks checks;
    EXPECT(count == 3);
    uint32_t number = (uint32_t)strtoul(arguments[2], NULL, 10);
    objects = strcmp(arguments[1], "raw") == 0 ? fill_with_raws(number) : fill_with_pairs(number);
    for (i = 0; i < 3; i++) {
        replicate();
        EXPECT(gcflip_heap_step_give_up(&heap) == GCFLIP_DROPPED);
    }
    replicate();
    EXPECT(gcflip_heap_step_flip(&heap, &pairs) == GCFLIP_FLIPPED && pairs == objects);
    EXPECT(gcflip_heap_flip_checks(&heap, &checks) == GCFLIP_DONE && checks.along == 1 && checks.whole == 0);
    EXPECT(gcflip_heap_close(&heap) == GCFLIP_DONE);
    return 0;
}
