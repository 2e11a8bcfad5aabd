/* Tests the limits that docs/CALLS.md tells, which are its arguments: limits WORDS MUTATORS OWN SHARED EXTRA_ROOTS FIELDS KINDS BITS TEXT.
 * What each allows is done, and one more is refused. */
#include "expect.h"
#include "gcflip_heap.h"
#include <string.h>

static gcflip_heap heap = GCFLIP_NO_HEAP;
static gcflip_view view;

/* Returns the answer to opening a heap, which is closed again. */
static uint32_t opened(uint32_t size, uint64_t mutators, uint64_t extra_roots)
{
    gcflip_options options = gcflip_options_default(size, (uint8_t)mutators);
    options.extra_roots = (uint32_t)extra_roots;
    uint32_t answer = gcflip_heap_open(&heap, &options);
    EXPECT(answer != GCFLIP_DONE || gcflip_heap_close(&heap) == GCFLIP_DONE);
    return answer;
}

/* A heap may have this many words, and no number of 32 bits is larger. */
static void sizes(uint64_t words)
{
    EXPECT(words == UINT32_MAX);
    uint32_t answer = opened((uint32_t)words, 1, 0);
    EXPECT(answer == GCFLIP_DONE || answer == GCFLIP_NO_MEMORY);
}

static void open_for(uint64_t mutators)
{
    const gcflip_options options = gcflip_options_default(1 << 20, (uint8_t)mutators);
    EXPECT(gcflip_heap_open(&heap, &options) == GCFLIP_DONE);
}

/* All slots of all mutators hold their own numbers. */
static void slots(uint64_t mutators, uint64_t own, uint64_t shared)
{
    open_for(mutators);
    for (uint64_t m = 0; m < mutators; m++)
        for (uint64_t s = 0; s < own + (m == 0 ? shared : 0); s++)
            EXPECT(gcflip_heap_set_number(&heap, (uint8_t)m, (uint8_t)s, 1000 * m + s) == GCFLIP_DONE);
    for (uint64_t m = 0; m < mutators; m++)
        for (uint64_t s = 0; s < own + shared; s++)
            EXPECT(gcflip_heap_look(&heap, (uint8_t)m, (uint8_t)s, &view) == GCFLIP_NUMBER && view.number == (s < own ? 1000 * m + s : s));
    EXPECT(gcflip_heap_look(&heap, 0, (uint8_t)(own + shared), &view) == GCFLIP_OUT_OF_RANGE);
    EXPECT(gcflip_heap_look(&heap, (uint8_t)mutators, 0, &view) == GCFLIP_OUT_OF_RANGE);
    EXPECT(gcflip_heap_close(&heap) == GCFLIP_DONE);
}

static void objects(uint64_t fields, uint64_t kinds, uint64_t bits)
{
    static uint8_t from[1 << 17];
    open_for(1);
    EXPECT(gcflip_heap_new_object(&heap, 0, 0, (uint8_t)(kinds - 1), (uint16_t)fields) == GCFLIP_MADE);
    EXPECT(gcflip_heap_look(&heap, 0, 0, &view) == GCFLIP_OBJECT && view.kind == kinds - 1 && view.count == fields);
    EXPECT(gcflip_heap_new_from(&heap, 0, 0, 1, from, fields) == GCFLIP_MADE);
    EXPECT(gcflip_heap_new_from(&heap, 0, 0, 1, from, fields + 1) == GCFLIP_OUT_OF_RANGE);
    EXPECT(gcflip_heap_set_number(&heap, 0, 0, ((uint64_t)1 << bits) - 1) == GCFLIP_DONE);
    EXPECT(gcflip_heap_set_number(&heap, 0, 0, (uint64_t)1 << bits) == GCFLIP_OUT_OF_RANGE);
    EXPECT(gcflip_heap_close(&heap) == GCFLIP_DONE);
}

/* A text of this many bytes is read, though it is no pair text. */
static void texts(uint64_t most)
{
    uint8_t *text = malloc(most + 1);
    gcflip_verdict verdict = {0, 0, 0, 0};
    EXPECT(text != NULL);
    memset(text, 'x', most + 1);
    EXPECT(gcflip_check_text(text, most, &verdict) == GCFLIP_ENDS_EARLY);
    EXPECT(gcflip_check_text(text, most + 1, &verdict) == GCFLIP_TOO_LARGE);
    free(text);
}

int main(int count, char **words)
{
    uint64_t told[10] = {0};
    EXPECT(count == COUNT(told));
    for (int i = 1; i < count; i++)
        told[i] = strtoull(words[i], NULL, 10);
    sizes(told[1]);
    EXPECT(opened(8, told[2], 0) == GCFLIP_DONE && opened(8, told[2] + 1, 0) == GCFLIP_OUT_OF_RANGE);
    slots(told[2], told[3], told[4]);
    EXPECT(opened(8, 1, told[5]) == GCFLIP_DONE && opened(8, 1, told[5] + 1) == GCFLIP_OUT_OF_RANGE);
    objects(told[6], told[7], told[8]);
    texts(told[9]);
    return 0;
}
