/* Asks a heap for what the test of bench/embedding/record_counts.c counts by hand. Linked with the recorder, no work is performed. */
#include "expect.h"
#include "gcflip_heap.h"
#include "open_heap.h"

enum { FIRST, SECOND, RAW, COPY, NUMBER, KIND = 1, WORDS = 100 };

int main(void)
{
    gcflip_heap heap = GCFLIP_NO_HEAP;
    gcflip_view view = {0, 0, 0};
    gcflip_work work = {7, 7, 7, 7, 7};
    uint64_t number = 0;

    EXPECT(open_plain_heap(&heap, WORDS, 1) == GCFLIP_DONE);
    /* Two objects of 4 words: the first interval. */
    EXPECT(gcflip_heap_new_object(&heap, 0, FIRST, KIND, 2) == GCFLIP_MADE);
    EXPECT(gcflip_heap_new_object(&heap, 0, SECOND, KIND, 2) == GCFLIP_MADE);
    EXPECT(gcflip_heap_put(&heap, 0, FIRST, 0, SECOND) == GCFLIP_DONE);
    EXPECT(gcflip_heap_put_number(&heap, 0, FIRST, 1, NUMBER, 5) == GCFLIP_DONE);
    EXPECT(gcflip_heap_get(&heap, 0, COPY, FIRST, 0, &number) == GCFLIP_OBJECT);
    EXPECT(gcflip_heap_look(&heap, 0, COPY, &view) == GCFLIP_OBJECT);
    EXPECT(gcflip_heap_move(&heap, 0, COPY, FIRST) == GCFLIP_DONE);
    EXPECT(gcflip_heap_work(&heap, 100, &work) == GCFLIP_DONE && work.steps == 0);
    /* A raw object of 5 words in the second interval, where all but the second object become garbage. */
    EXPECT(gcflip_heap_new_raw(&heap, 0, RAW, KIND, 3) == GCFLIP_MADE);
    EXPECT(gcflip_heap_set_nil(&heap, 0, FIRST) == GCFLIP_DONE);
    EXPECT(gcflip_heap_set_nil(&heap, 0, COPY) == GCFLIP_DONE);
    EXPECT(gcflip_heap_new_pair(&heap, 0, FIRST, KIND, SECOND, NUMBER) == GCFLIP_MADE);
    /* The third interval begins with the second object, the pair and the raw object. */
    EXPECT(gcflip_heap_new_object(&heap, 0, FIRST, KIND, 0) == GCFLIP_MADE);
    EXPECT(gcflip_heap_close(&heap) == GCFLIP_DONE);
    return 0;
}
