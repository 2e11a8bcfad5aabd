/* A collection of many extra roots, for a tool that counts the reads of the blocks with the roots: root_reads CHECKING END [COMMANDS]. Performs all
 * steps before the flip by calls of one step each. COMMANDS says what writes slots before each: `moves` slot 0, or `numbers` slots 0 and 1. Then END says whether the
 * collection is given up (0) or flips (1). Prints how often `work` was called, and how often a command read a root. */
#include "expect.h"
#include "gcflip_heap.h"

enum { MANY = 65536 };

static gcflip_heap heap = GCFLIP_NO_HEAP;

int main(int count, char **words)
{
    gcflip_options options = gcflip_options_default(4 * MANY, 1);
    gcflip_frame stack = {0, MANY, 0, 0};
    gcflip_work work = {0, 0, 0, 0, 0};
    gcflip_counts counts = {0, 0, 0, 0, 0, 0, 0, 0, 0, 0, 0, 0};
    unsigned calls = 0, reads = 0;
    uint32_t pairs = 0;
    EXPECT(count >= 3);
    options.extra_roots = MANY;
    options.checking = (uint8_t)atoi(words[1]);
    EXPECT(gcflip_heap_open(&heap, &options) == GCFLIP_DONE);
    for (unsigned k = 0; k < MANY; k++, reads++) {
        EXPECT(gcflip_heap_new_object(&heap, 0, 0, 1, 0) == GCFLIP_MADE);
        EXPECT(gcflip_heap_frame_push(&heap, 0, 0, &stack) == GCFLIP_DONE);
    }
    EXPECT(gcflip_heap_step_begin(&heap) == GCFLIP_BEGUN);
    for (; calls < 2 * MANY; calls++) { /* each object is copied by one step and passed by another */
        if (count > 3 && words[3][0] == 'n')
            EXPECT(gcflip_heap_set_number(&heap, 0, 0, calls) == GCFLIP_DONE && gcflip_heap_set_nil(&heap, 0, 1) == GCFLIP_DONE);
        else if (count > 3) {
            EXPECT(gcflip_heap_move(&heap, 0, 0, 1) == GCFLIP_DONE);
            reads++;
        }
        EXPECT(gcflip_heap_work(&heap, 1, &work) == GCFLIP_DONE && work.last == (calls < MANY ? GCFLIP_COPIED : GCFLIP_PASSED));
    }
    EXPECT(gcflip_heap_counts(&heap, &counts) == GCFLIP_DONE && counts.scan_place == counts.new_end);
    if (atoi(words[2]) == 1)
        EXPECT(gcflip_heap_step_flip(&heap, &pairs) == GCFLIP_FLIPPED && pairs == MANY);
    else
        EXPECT(gcflip_heap_step_give_up(&heap) == GCFLIP_DROPPED);
    EXPECT(gcflip_heap_close(&heap) == GCFLIP_DONE);
    printf("%u %u\n", calls, reads);
    return 0;
}
