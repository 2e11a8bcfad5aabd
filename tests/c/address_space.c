/* Tries what fits into little address space: address_space SIZE SMALLER CHECKING. Opens a heap of SIZE words, begins a collection of that size, and
 * one of SMALLER words that flips. Prints the answers in words, up to an open that fails. */
#include "expect.h"
#include "gcflip_heap.h"

static void tell(uint32_t answer)
{
    puts(gcflip_answer_name(answer));
}

int main(int count, char **words)
{
    gcflip_heap heap = GCFLIP_NO_HEAP;
    gcflip_work work = {0, 0, 0, 0, 0};
    EXPECT(count == 4);
    gcflip_options options = gcflip_options_default((uint32_t)strtoul(words[1], NULL, 10), 1);
    options.checking = (uint8_t)strtoul(words[3], NULL, 10);
    uint32_t answer = gcflip_heap_open(&heap, &options);
    tell(answer);
    if (answer != GCFLIP_DONE)
        return 0;
    EXPECT(gcflip_heap_new_object(&heap, 0, 0, 1, 1) == GCFLIP_MADE);
    answer = gcflip_heap_step_begin(&heap);
    tell(answer);
    EXPECT(answer == GCFLIP_NO_MEMORY || gcflip_heap_step_give_up(&heap) == GCFLIP_DROPPED);
    tell(gcflip_heap_step_begin_sized(&heap, (uint32_t)strtoul(words[2], NULL, 10)));
    EXPECT(gcflip_heap_work(&heap, 100, &work) == GCFLIP_DONE);
    tell(work.last);
    EXPECT(gcflip_heap_close(&heap) == GCFLIP_DONE);
    return 0;
}
