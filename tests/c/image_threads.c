/* Threads check collections at once, each with a collection of the library of its own: lists that move, a reference that the collector forgets, the self-test, a
 * text, the poison. With the word `shared`, they take one collection, which is a race: helgrind has to report it. */
#include <gcflip_images.h>

#include "expect.h"
#include <pthread.h>
#include <string.h>

enum { THREADS = 3, MOST = 120, ROUNDS = 20 };

/* A heap of pairs: a reference to the next one, and a number. The spaces have pairs at the same places. */
struct heap {
    gcflip_collection *collection;
    uint64_t spaces[2][2 * MOST], *space;
    size_t pairs;
    uint64_t root;
    FILE *file;
};

static uint64_t address_of(const uint64_t *pair)
{
    return (uint64_t)(uintptr_t)pair;
}

static void read_heap(void *given, gcflip_snapshot *snapshot)
{
    const struct heap *heap = given;
    uint64_t from = address_of(heap->space), at;
    gcflip_snapshot_root(snapshot, gcflip_snapshot_reference(snapshot, heap->root));
    while ((at = gcflip_snapshot_next(snapshot, from, from + 16 * heap->pairs, 16)) != 0) {
        const uint64_t *pair = heap->space + (at - from) / 8;
        uint32_t place = gcflip_snapshot_object(snapshot, at, 1, 2);
        gcflip_snapshot_set(snapshot, place, 0, gcflip_snapshot_reference(snapshot, pair[0]));
        gcflip_snapshot_set(snapshot, place, 1, gcflip_snapshot_constant(snapshot, pair[1]));
    }
}

static void fill(struct heap *heap, size_t pairs)
{
    heap->space = heap->spaces[0];
    heap->pairs = pairs;
    heap->root = address_of(heap->space);
    for (size_t i = 0; i < pairs; i++) {
        heap->space[2 * i] = i + 1 < pairs ? address_of(heap->space + 2 * i + 2) : 0;
        heap->space[2 * i + 1] = ((uint64_t)1 << 63) + i % 3;
    }
}

/* Copies the pairs to the other space. The reference in the pair `forgotten` is not updated. */
static void collect(struct heap *heap, size_t forgotten)
{
    uint64_t *other = heap->space == heap->spaces[0] ? heap->spaces[1] : heap->spaces[0];
    uint64_t moved = address_of(other) - address_of(heap->space);
    memcpy(other, heap->space, sizeof heap->spaces[0]);
    for (size_t i = 0; i < heap->pairs; i++)
        other[2 * i] += other[2 * i] != 0 && i != forgotten ? moved : 0;
    heap->root += moved;
    heap->space = other;
}

static void test(struct heap *heap)
{
    const gcflip_range range = {heap->space, 2 * heap->pairs}, left = {heap->space == heap->spaces[0] ? heap->spaces[1] : heap->spaces[0], 2 * heap->pairs};
    const gcflip_self_test flips = {.ranges = &range, .range_count = 1, .flips = 30, .seed = 1};
    gcflip_self_test_counts counts = gcflip_collection_self_test(heap->collection, &flips, heap->file);
    EXPECT(counts.flipped == 30 && counts.refused == 30);
    EXPECT(gcflip_collection_write(heap->collection, heap->file) == GCFLIP_WROTE_PAIR);
    EXPECT(gcflip_collection_poison(heap->collection, &left, 1) == GCFLIP_POISONED && left.words[0] == 0xDBDBDBDBDBDBDBDB);
}

static void *work(void *given)
{
    struct heap *heap = given;
    const gcflip_adapter adapter = {.given = heap, .read_before = read_heap, .read_after = read_heap, .infers = true};
    for (size_t round = 0; round < ROUNDS; round++) {
        bool is_wrong = round % 4 == 3;
        fill(heap, MOST - 5 * round);
        EXPECT(gcflip_collection_begin(heap->collection, &adapter, heap->file));
        collect(heap, is_wrong ? 2 : MOST);
        EXPECT(gcflip_collection_end(heap->collection, heap->file) == (is_wrong ? GCFLIP_REFUSED : GCFLIP_YES));
        EXPECT(is_wrong || gcflip_collection_pairs(heap->collection) == heap->pairs + 3); /* three constants are no numbers of an image */
        if (round == 4)
            test(heap);
    }
    return NULL;
}

/* Uses a collection that other threads use, too. Nothing is expected of it. */
static void *race(void *given)
{
    struct heap *heap = given;
    for (size_t i = 0; i < 100; i++)
        gcflip_snapshot_clear(gcflip_before(heap->collection));
    return NULL;
}

int main(int count, char **words)
{
    static struct heap heaps[THREADS];
    pthread_t threads[THREADS];
    bool is_shared = count > 1 && strcmp(words[1], "shared") == 0;
    for (size_t i = 0; i < THREADS; i++) {
        heaps[i].collection = is_shared && i > 0 ? heaps[0].collection : gcflip_collection_open();
        heaps[i].file = tmpfile();
        EXPECT(heaps[i].collection != NULL && heaps[i].file != NULL);
    }
    for (size_t i = 0; i < THREADS; i++)
        EXPECT(pthread_create(&threads[i], NULL, is_shared ? race : work, &heaps[i]) == 0);
    for (size_t i = 0; i < THREADS; i++)
        EXPECT(pthread_join(threads[i], NULL) == 0);
    for (size_t i = 0; i < THREADS; i++) {
        if (!is_shared || i == 0)
            gcflip_collection_close(heaps[i].collection);
        fclose(heaps[i].file);
    }
    return 0;
}
