/* Tests the test for adapters, with pairs that the adapter adds: a heap of words. An object is a word 2 * length + 2^32 * kind, then its fields. An odd
   field is a reference: the number of its object's first word, times 8, plus 1. Words behind the end are no part of the heap. */
#include "one_collection.h"

static const char *kind_name(void *given, uint32_t kind)
{
    (void)given;
    return kind == 3 ? "cons" : NULL;
}

static uint64_t heap_before[] = {6 + ((uint64_t)1 << 32), 33, 10, 20, 2 + ((uint64_t)2 << 32), 40};
static uint64_t heap_after[] = {6 + ((uint64_t)1 << 32), 33, 10, 20, 2 + ((uint64_t)2 << 32), 40, 99};
enum { USED = 6 };

static bool read_heap(gcflip_snapshot *snapshot, const uint64_t *heap)
{
    for (int fields = 0; fields < 2; fields++)
        for (uint64_t at = 0; at < USED;) {
            uint64_t length = heap[at] % ((uint64_t)1 << 32) / 2, kind = heap[at] >> 32;
            if (heap[at] % 2 != 0 || length > USED - at - 1 || kind > 251)
                return false;
            if (fields == 0)
                gcflip_snapshot_object(snapshot, 8 * at + 1, (uint32_t)kind, length);
            for (uint64_t i = 0; fields == 1 && i < length; i++) {
                uint64_t word = heap[at + 1 + i];
                word = word % 2 == 1 ? gcflip_snapshot_reference(snapshot, word) : gcflip_snapshot_constant(snapshot, word);
                gcflip_snapshot_set(snapshot, gcflip_snapshot_find(snapshot, 8 * at + 1), i, word);
            }
            at += 1 + length;
        }
    gcflip_snapshot_root(snapshot, gcflip_snapshot_reference(snapshot, 1));
    return true;
}

static bool read_again(void *given, gcflip_collection *collection)
{
    bool lax = *(const bool *)given, whole = read_heap(after, heap_after);
    if (!lax)
        gcflip_collection_pair(collection, 33, 33); /* without this pair, the heap as it is gets no yes */
    gcflip_collection_pair(collection, 1, 1);
    return whole;
}

/* Reads words as one object at its own address, and leaves out the last one. There is another object far behind it. */
static bool read_less(void *given, gcflip_collection *collection)
{
    uint64_t first = (uint64_t)(uintptr_t)heap_after;
    (void)given;
    gcflip_snapshot_words(after, first, 3, heap_after, USED);
    gcflip_snapshot_object(after, first + 4096, 0, 0);
    gcflip_snapshot_root(after, gcflip_snapshot_reference(after, first));
    gcflip_collection_pair(collection, 8, first);
    return true;
}

/* Reads all words as one object. */
static bool read_all(void *given, gcflip_collection *collection)
{
    (void)given;
    gcflip_snapshot_words(after, 16, 3, heap_after, USED + 1);
    gcflip_snapshot_root(after, gcflip_snapshot_reference(after, 16));
    gcflip_collection_pair(collection, 8, 16);
    return true;
}

#define HINT "hint: constants that are old addresses: 1, first "

static void expect_line(const char *text, const char *first, const char *second)
{
    const char *found = strstr(text, first), *end = found ? strchr(found, '\n') : NULL, *other = found ? strstr(found, second) : NULL;
    EXPECT(found != NULL && other != NULL && other < end);
}

/* What is printed of a spared bit, and of a heap that is refused without a flip. */
static void self_test_lines(void)
{
    const gcflip_names names = {.kind = kind_name};
    const gcflip_range range = {heap_after, 7};
    gcflip_self_test test = {.ranges = &range, .range_count = 1, .seed = 1, .read = read_less, .names = &names};
    char *text;
    size_t length;
    FILE *file = open_memstream(&text, &length);
    empty();
    gcflip_snapshot_words(before, 8, 3, heap_before, USED);
    gcflip_snapshot_root(before, gcflip_snapshot_reference(before, 8));
    gcflip_self_test_counts counts = gcflip_collection_self_test(c, &test, file);
    EXPECT(counts.accepted && counts.flipped == 448 && counts.refused == 384 && counts.explained == 0 && counts.unexplained == 64);
    const gcflip_range read = {heap_after, USED};
    test.ranges = &read;
    counts = gcflip_collection_self_test(c, &test, file);
    EXPECT(counts.accepted && counts.flipped == 384 && counts.refused == 384);
    EXPECT(gcflip_collection_check(c, &verdict) == GCFLIP_YES); /* the heap as it is was read again */
    test.ranges = &range;
    test.read = read_all;
    gcflip_snapshot_clear(before);
    gcflip_snapshot_words(before, 8, 3, heap_after, 7);
    gcflip_snapshot_object(before, 99, 4, 0); /* the last word of the heap is 99 */
    gcflip_snapshot_root(before, gcflip_snapshot_reference(before, 8));
    counts = gcflip_collection_self_test(c, &test, file);
    EXPECT(counts.accepted && counts.flipped == 448 && counts.refused == 448);
    heap_after[0]++;
    counts = gcflip_collection_self_test(c, &test, file);
    heap_after[0]--;
    EXPECT(!counts.accepted && counts.flipped == 0 && counts.refused == 0 && counts.explained == 0 && counts.unexplained == 0);
    fclose(file);
    expect_line(text, "spared for no reason: bit 63 of the word at 0x", ", 48 bytes behind 0x");
    expect_line(text, "spared for no reason: bit 63 of the word at 0x", " (cons, 6 words)");
    expect_line(text, HINT, "field 6 of 0x10 (cons, 7 words): 0x63 (kind 4, 0 fields)");
    EXPECT(strstr(strstr(text, HINT) + 1, HINT) == NULL); /* once */
    expect_line(text, "no bits were flipped: ", "without a flip, the heap gets no yes");
    free(text);
}

static const char *reason(void *given, const uint64_t *word, unsigned bit)
{
    (void)given, (void)bit;
    return word == heap_after + USED ? "behind the end" : NULL;
}

static void self_test(void)
{
    bool lax = false;
    const gcflip_range ranges[] = {{heap_after, 2}, {heap_after + 2, 5}};
    gcflip_self_test test = {.given = &lax, .ranges = ranges, .range_count = 2, .seed = 1, .read = read_again, .reason = reason};
    char *text;
    size_t length;
    empty();
    EXPECT(read_heap(before, heap_before));
    FILE *file = open_memstream(&text, &length);
    gcflip_self_test_counts counts = gcflip_collection_self_test(c, &test, file);
    EXPECT(counts.flipped == 448 && counts.refused == 384 && counts.explained == 64 && counts.unexplained == 0);
    test.infers = lax = true;
    test.flips = 7;
    test.reason = NULL;
    counts = gcflip_collection_self_test(c, &test, file); /* one bit of each word */
    EXPECT(counts.flipped == 7 && counts.refused == 6 && counts.explained == 0 && counts.unexplained == 1);
    EXPECT(heap_after[1] == 33 && heap_after[6] == 99);
    fclose(file);
    EXPECT(strncmp(text, "spared 64: behind the end\nflipped 448 bits: refused 384, explained 64, unexplained 0\nspared for no reason: bit ",
                   strlen("spared 64: behind the end\nflipped 448 bits: refused 384, explained 64, unexplained 0\nspared for no reason: bit ")) == 0);
    free(text);
}

int main(void)
{
    open_collection();
    self_test();
    self_test_lines();
    gcflip_collection_close(c);
    return 0;
}
