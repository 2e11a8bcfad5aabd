/* Tests chunked.c: lengths at the borders of chunks, an array longer than any object, through collections, and refusals. */
#include "chunked.h"
#include "expect.h"

enum { ARRAY = 0, VALUE = 1, OTHER = 2, SCRATCH = 10, WORDS = 1 << 20 };

static gcflip_heap heap = GCFLIP_NO_HEAP;
static uint64_t number;

static void open_heap(uint32_t words)
{
    const gcflip_options options = gcflip_options_default(words, 1);
    EXPECT(gcflip_heap_open(&heap, &options) == GCFLIP_DONE);
}

static uint32_t words_in_use(void)
{
    gcflip_counts counts = {0, 0, 0, 0, 0, 0, 0, 0, 0, 0, 0, 0};
    EXPECT(gcflip_heap_counts(&heap, &counts) == GCFLIP_DONE);
    return counts.end - 1;
}

static uint32_t length_of(uint8_t s)
{
    uint32_t length = UINT32_MAX;
    EXPECT(chunked_length(&heap, 0, s, SCRATCH, &length) == GCFLIP_DONE);
    return length;
}

static void put_number(uint32_t i, uint64_t n)
{
    EXPECT(gcflip_heap_set_number(&heap, 0, VALUE, n) == GCFLIP_DONE);
    EXPECT(chunked_put(&heap, 0, ARRAY, i, VALUE, SCRATCH) == GCFLIP_DONE);
}

static void expect_number(uint32_t i, uint64_t n)
{
    EXPECT(chunked_get(&heap, 0, OTHER, ARRAY, i, SCRATCH, &number) == GCFLIP_NUMBER && number == n);
    EXPECT(chunked_get(&heap, 0, SCRATCH, ARRAY, i, SCRATCH, &number) == GCFLIP_NUMBER && number == n);
}

/* An array of this length takes the words that are told, its values are nil, and nothing is behind them. */
static void one_length(uint32_t length)
{
    open_heap(20000);
    EXPECT(chunked_new(&heap, 0, ARRAY, length, SCRATCH) == GCFLIP_MADE);
    EXPECT(words_in_use() == chunked_words(length) && length_of(ARRAY) == length);
    for (uint32_t i = 0; i < length; i++)
        EXPECT(chunked_get(&heap, 0, OTHER, ARRAY, i, SCRATCH, &number) == GCFLIP_NIL);
    EXPECT(gcflip_heap_set_number(&heap, 0, OTHER, 5) == GCFLIP_DONE);
    EXPECT(chunked_get(&heap, 0, OTHER, ARRAY, length, SCRATCH, &number) == GCFLIP_NO_FIELD);
    EXPECT(chunked_get(&heap, 0, OTHER, ARRAY, UINT32_MAX, SCRATCH, &number) == GCFLIP_NO_FIELD);
    EXPECT(chunked_get(&heap, 0, OTHER, ARRAY, 65536 * CHUNKED_FIELDS, SCRATCH, &number) == GCFLIP_NO_FIELD);
    EXPECT(chunked_put(&heap, 0, ARRAY, length, OTHER, SCRATCH) == GCFLIP_NO_FIELD);
    EXPECT(gcflip_heap_get(&heap, 0, SCRATCH, OTHER, 0, &number) == GCFLIP_NO_OBJECT); /* OTHER keeps its number */
    for (uint32_t i = 0; i < length; i++)
        put_number(i, 3 * i);
    for (uint32_t i = 0; i < length; i++)
        expect_number(i, 3 * i);
    EXPECT(gcflip_heap_close(&heap) == GCFLIP_DONE);
}

/* 200,000 values, most of them numbers and some references, written and read while a collection goes on. */
static void through_collections(void)
{
    enum { LENGTH = 200000 };
    gcflip_work work = {0, 0, 0, 0, 0};
    uint32_t flips = 0;
    open_heap(WORDS);
    EXPECT(chunked_new(&heap, 0, ARRAY, LENGTH, SCRATCH) == GCFLIP_MADE);
    EXPECT(gcflip_heap_new_pair(&heap, 0, OTHER, 1, ARRAY, ARRAY) == GCFLIP_MADE);
    EXPECT(chunked_put(&heap, 0, ARRAY, LENGTH / 2, OTHER, SCRATCH) == GCFLIP_DONE);
    for (uint32_t round = 0; round < 3; round++) {
        for (uint32_t i = round; i < LENGTH; i += 3) {
            if (i != LENGTH / 2)
                put_number(i, 7 * (uint64_t)i);
            EXPECT(gcflip_heap_work(&heap, 5, &work) == GCFLIP_DONE && work.last != GCFLIP_NO_ROOM);
            flips += work.last == GCFLIP_FLIPPED;
        }
    }
    EXPECT(flips > 1 && length_of(ARRAY) == LENGTH);
    for (uint32_t i = 0; i < LENGTH; i++)
        if (i != LENGTH / 2)
            expect_number(i, 7 * (uint64_t)i);
    EXPECT(chunked_get(&heap, 0, OTHER, ARRAY, LENGTH / 2, SCRATCH, &number) == GCFLIP_OBJECT);
    EXPECT(gcflip_heap_get(&heap, 0, OTHER, OTHER, 1, &number) == GCFLIP_OBJECT && gcflip_heap_same(&heap, 0, OTHER, ARRAY) == GCFLIP_SAME);
    EXPECT(gcflip_heap_close(&heap) == GCFLIP_DONE);
}

static void refusals(void)
{
    uint32_t length = 77;
    EXPECT(chunked_new(&heap, 0, ARRAY, 1, SCRATCH) == GCFLIP_CLOSED && chunked_length(&heap, 0, ARRAY, SCRATCH, &length) == GCFLIP_CLOSED);
    EXPECT(chunked_get(&heap, 0, OTHER, ARRAY, 0, SCRATCH, &number) == GCFLIP_CLOSED);
    open_heap(5000);
    EXPECT(gcflip_heap_set_number(&heap, 0, ARRAY, 9) == GCFLIP_DONE);
    EXPECT(chunked_new(&heap, 0, ARRAY, UINT32_MAX, SCRATCH) == GCFLIP_OUT_OF_RANGE);
    EXPECT(chunked_words(4990) == 4998 && chunked_new(&heap, 0, ARRAY, 4992, SCRATCH) == GCFLIP_FULL && words_in_use() == 0);
    EXPECT(chunked_length(&heap, 0, ARRAY, SCRATCH, &length) == GCFLIP_NO_OBJECT && length == 77);
    EXPECT(chunked_get(&heap, 0, OTHER, ARRAY, 0, SCRATCH, &number) == GCFLIP_NO_OBJECT);
    EXPECT(chunked_put(&heap, 0, ARRAY, 0, OTHER, SCRATCH) == GCFLIP_NO_OBJECT);
    EXPECT(chunked_new(&heap, 0, ARRAY, 1, 31) == GCFLIP_OUT_OF_RANGE); /* slot 32 is none */
    EXPECT(chunked_new(&heap, 0, ARRAY, 4900, SCRATCH) == GCFLIP_MADE && length_of(ARRAY) == 4900);
    EXPECT(gcflip_heap_close(&heap) == GCFLIP_DONE);
}

int main(void)
{
    static const uint32_t lengths[] = {0, 1, CHUNKED_FIELDS - 1, CHUNKED_FIELDS, CHUNKED_FIELDS + 1, 2 * CHUNKED_FIELDS, 9000};
    EXPECT(chunked_words(0) == 2 && chunked_words(1) == 6 && chunked_words(4096) == 4101 && chunked_words(4097) == 4105);
    for (size_t k = 0; k < COUNT(lengths); k++)
        one_length(lengths[k]);
    through_collections();
    refusals();
    return 0;
}
