/* Performs useful steps while all 272 roots refer to objects with replicas: count_work STEPS. It makes STEPS calls of one step, and then
   one call of STEPS steps. The instructions that it executes tell whether each step looks at all roots again. */
#include "expect.h"
#include "gcflip_heap.h"
#include "open_heap.h"

enum { WORDS = 1 << 16, CELLS = 8000, MUTATORS = 16, SLOTS = 32, LIST = 16 };

static gcflip_heap heap = GCFLIP_NO_HEAP;
static gcflip_work work = {0, 0, 0, 0, 0};

static void fill(void)
{
    uint8_t m, slot;
    uint32_t i;
    EXPECT(open_plain_heap(&heap, WORDS, MUTATORS) == GCFLIP_DONE);
    for (i = 0; i < CELLS; i++) {
        EXPECT(gcflip_heap_new_pair(&heap, 0, 0, 1, 1, LIST) == GCFLIP_MADE);
        EXPECT(gcflip_heap_move(&heap, 0, LIST, 0) == GCFLIP_DONE);
    }
    for (m = 0; m < MUTATORS; m++)
        for (slot = 0; slot < SLOTS; slot++)
            EXPECT(gcflip_heap_move(&heap, m, slot, LIST) == GCFLIP_DONE);
}

static void perform(uint32_t most)
{
    EXPECT(gcflip_heap_work(&heap, most, &work) == GCFLIP_DONE && work.steps == most);
    EXPECT(work.last == GCFLIP_SCANNED || work.last == GCFLIP_PASSED);
}

int main(int count, char **arguments)
{
    uint32_t i, steps = count > 1 ? (uint32_t)strtoul(arguments[1], NULL, 10) : 1;
    fill();
    EXPECT(gcflip_heap_step_begin(&heap) == GCFLIP_BEGUN && gcflip_heap_step_roots(&heap) == GCFLIP_COPIED);
    for (i = 0; i < steps; i++)
        perform(1);
    perform(steps);
    EXPECT(gcflip_heap_close(&heap) == GCFLIP_DONE);
    return 0;
}
