/* Tests gcflip_images for a nursery: the words that it writes meet the premise of the law of crates/gc_nursery, and its verdict on the young
   objects is that of gcflip_check on the whole heap, in which each old object is its own replica. */
#include "expect.h"
#include "gcflip_images.h"
#include <string.h>

enum { OLD = 40, YOUNG = 60, MOST_FIELDS = 4, MOST_WORDS = 1 + (OLD + YOUNG) * (2 + MOST_FIELDS), ROOTS = 12, HEAPS = 60 };
enum { PLAIN_HEADER = 16777216, RAW_HEADER = 50331648 };

#define FIRST_FIXED ((uint64_t)1 << 62)

static gcflip_collection *c;
static uint64_t state = 45;

static uint64_t chosen(uint64_t below)
{
    state = state * 6364136223846793005u + 1442695040888963407u;
    return (state >> 33) % below;
}

/* ---- A heap of words: old objects below the base, young ones from there. A word is 0, an odd number or twice an address. */

struct heap {
    uint64_t words[MOST_WORDS], roots[ROOTS];
    uint32_t starts[OLD + YOUNG], count, base, end;
};

/* A field of an old object that refers to a young one. */
struct remembered {
    uint32_t at[OLD * MOST_FIELDS], count;
};

static struct heap before, after;
static struct remembered set;
static uint32_t forward[MOST_WORDS];
static gcflip_pair pairs[OLD + YOUNG];
static size_t old_pairs, all_pairs;

static bool is_reference(uint64_t word)
{
    return word != 0 && word % 2 == 0;
}

static bool is_young(uint64_t word)
{
    return is_reference(word) && word / 2 >= before.base;
}

static uint32_t length_at(const struct heap *heap, uint32_t at)
{
    return (uint32_t)(heap->words[at] % 65536);
}

static bool is_raw(const struct heap *heap, uint32_t at)
{
    return heap->words[at] >= RAW_HEADER;
}

static void add_object(struct heap *heap)
{
    uint64_t length = chosen(MOST_FIELDS + 1);
    heap->starts[heap->count++] = heap->end;
    heap->words[heap->end] = (chosen(8) == 0 ? RAW_HEADER : PLAIN_HEADER) + 65536 * chosen(5) + length;
    heap->words[heap->end + 1] = 0;
    heap->end += 2 + (uint32_t)length;
}

/* A number below 2^62, among them the least and the greatest. */
static uint64_t number(void)
{
    static const uint64_t edges[] = {0, 1, ((uint64_t)1 << 61) - 1, (uint64_t)1 << 61, FIRST_FIXED - 1};
    return 2 * (chosen(2) ? edges[chosen(5)] : chosen(1000)) + 1;
}

static uint64_t value(const struct heap *heap)
{
    switch (chosen(4)) {
    case 0: return 0;
    case 1: return number();
    default: return 2 * (uint64_t)heap->starts[chosen(heap->count)];
    }
}

static void make_heap(void)
{
    memset(&before, 0, sizeof before);
    before.end = 1;
    for (int i = 0; i < OLD; i++)
        add_object(&before);
    before.base = before.end;
    for (int i = 0; i < YOUNG; i++)
        add_object(&before);
    set.count = 0;
    for (uint32_t k = 0; k < before.count; k++)
        for (uint32_t at = before.starts[k], i = 0; i < length_at(&before, at); i++) {
            before.words[at + 2 + i] = is_raw(&before, at) ? number() : value(&before);
            if (k < OLD && !is_raw(&before, at) && is_young(before.words[at + 2 + i]))
                set.at[set.count++] = at + 2 + i;
        }
    for (int i = 0; i < ROOTS; i++)
        before.roots[i] = value(&before);
}

/* ---- A minor collection. */

static uint64_t moved(uint64_t word)
{
    if (!is_young(word))
        return word;
    uint32_t at = (uint32_t)(word / 2);
    if (forward[at] == 0) {
        forward[at] = after.end;
        after.starts[after.count++] = after.end;
        memcpy(after.words + after.end, before.words + at, (2 + length_at(&before, at)) * sizeof *after.words);
        after.end += 2 + length_at(&before, at);
    }
    return 2 * (uint64_t)forward[at];
}

static int by_new_address(const void *a, const void *b)
{
    uint32_t x = ((const gcflip_pair *)a)->new_address, y = ((const gcflip_pair *)b)->new_address;
    return (x > y) - (x < y);
}

static void collect(void)
{
    memset(forward, 0, sizeof forward);
    after = before;
    after.count = OLD;
    after.end = before.base;
    for (uint32_t i = 0; i < set.count; i++)
        after.words[set.at[i]] = moved(before.words[set.at[i]]);
    for (int i = 0; i < ROOTS; i++)
        after.roots[i] = moved(before.roots[i]);
    for (uint32_t k = OLD; k < after.count; k++)
        for (uint32_t at = after.starts[k], i = 0; i < length_at(&after, at) && !is_raw(&after, at); i++)
            after.words[at + 2 + i] = moved(after.words[at + 2 + i]);
    old_pairs = all_pairs = 0;
    for (; old_pairs < OLD; old_pairs++)
        pairs[old_pairs] = (gcflip_pair){before.starts[old_pairs], before.starts[old_pairs]};
    all_pairs = old_pairs;
    for (uint32_t k = OLD; k < before.count; k++)
        if (forward[before.starts[k]] != 0)
            pairs[all_pairs++] = (gcflip_pair){before.starts[k], forward[before.starts[k]]};
    qsort(pairs + old_pairs, all_pairs - old_pairs, sizeof *pairs, by_new_address);
}

/* ---- The verdicts. */

static bool whole_is_certified(void)
{
    gcflip_verdict verdict = {0, 0, 0, 0};
    gcflip_image old = {MOST_WORDS, before.end, true, before.words, before.roots, ROOTS};
    gcflip_image new = {MOST_WORDS, after.end, true, after.words, after.roots, ROOTS};
    uint32_t answer = gcflip_check_images(&old, &new, pairs, all_pairs, &verdict);
    EXPECT(answer == GCFLIP_YES || answer == GCFLIP_REFUSED);
    return answer == GCFLIP_YES;
}

/* The runtime's address of an object, and its word for a number. */
static uint64_t address_of(uint64_t at)
{
    return 4096 + 8 * at;
}

static uint64_t constant_of(uint64_t n)
{
    return n < (uint64_t)1 << 61 ? n : n | ~(FIRST_FIXED - 1);
}

static uint64_t word_in(gcflip_snapshot *snapshot, uint64_t word)
{
    if (word % 2 == 1)
        return gcflip_snapshot_constant(snapshot, constant_of(word / 2));
    if (is_reference(word) && !is_young(word))
        return gcflip_snapshot_fixed(snapshot, address_of(word / 2));
    return gcflip_snapshot_reference(snapshot, word ? address_of(word / 2) : 0);
}

static void read_young(gcflip_snapshot *snapshot, const struct heap *heap)
{
    for (uint32_t k = OLD; k < heap->count; k++) {
        uint32_t at = heap->starts[k], kind = (uint32_t)(heap->words[at] / 65536 % 256);
        if (is_raw(heap, at))
            gcflip_snapshot_words(snapshot, address_of(at), kind, heap->words + at + 2, length_at(heap, at));
        else
            gcflip_snapshot_object(snapshot, address_of(at), kind, length_at(heap, at));
    }
    for (uint32_t k = OLD; k < heap->count; k++)
        for (uint32_t at = heap->starts[k], i = 0; i < length_at(heap, at) && !is_raw(heap, at); i++)
            gcflip_snapshot_set(snapshot, gcflip_snapshot_find(snapshot, address_of(at)), i, word_in(snapshot, heap->words[at + 2 + i]));
    for (uint32_t i = 0; i < set.count; i++)
        gcflip_snapshot_root(snapshot, word_in(snapshot, heap->words[set.at[i]]));
    for (int i = 0; i < ROOTS; i++)
        gcflip_snapshot_root(snapshot, word_in(snapshot, heap->roots[i]));
}

static bool young_is_certified(void)
{
    gcflip_verdict verdict = {0, 0, 0, 0};
    gcflip_collection_clear(c);
    read_young(gcflip_before(c), &before);
    read_young(gcflip_after(c), &after);
    for (size_t i = old_pairs; i < all_pairs; i++)
        gcflip_collection_pair(c, address_of(pairs[i].old_address), address_of(pairs[i].new_address));
    uint32_t answer = gcflip_collection_check(c, &verdict);
    EXPECT(answer == GCFLIP_YES || answer == GCFLIP_REFUSED);
    return answer == GCFLIP_YES;
}

/* ---- The premise, `IsEncoded`: each word of a field and of a root is a value, and a number from 2^62 on stands for one old object alone. */

static void expect_encoded_word(const gcflip_image *image, uint64_t found, uint64_t word)
{
    if (is_reference(word) && !is_young(word))
        EXPECT(found == 2 * (FIRST_FIXED + address_of(word / 2)) + 1);
    else if (word % 2 == 1)
        EXPECT(found == word && found / 2 < FIRST_FIXED);
    else
        EXPECT(found % 2 == 0 && found / 2 < image->end && (found == 0) == (word == 0));
}

static void expect_encoded(const gcflip_snapshot *snapshot, const struct heap *heap)
{
    gcflip_image image = gcflip_snapshot_image(snapshot);
    uint32_t place = 1;
    for (uint32_t k = OLD; k < heap->count; k++) {
        uint32_t at = heap->starts[k];
        EXPECT(gcflip_snapshot_find(snapshot, address_of(at)) == place && image.words[place] == heap->words[at]);
        for (uint32_t i = 0; i < length_at(heap, at); i++) {
            uint64_t found = image.words[place + 2 + i], word = heap->words[at + 2 + i];
            if (is_raw(heap, at))
                EXPECT(found == word);
            else
                expect_encoded_word(&image, found, word);
            if (!is_raw(heap, at) && is_young(word)) /* counted from the base */
                EXPECT(found / 2 == word / 2 - before.base + 1);
        }
        place += 2 + length_at(heap, at);
    }
    EXPECT(place == image.end && image.root_count == set.count + ROOTS);
    for (uint32_t i = 0; i < set.count; i++)
        expect_encoded_word(&image, image.roots[i], heap->words[set.at[i]]);
    for (int i = 0; i < ROOTS; i++)
        expect_encoded_word(&image, image.roots[set.count + i], heap->roots[i]);
}

/* ---- Whole and small agree, whatever word is wrong. */

static size_t refused;

static void spoil(uint64_t *word, uint64_t wrong)
{
    uint64_t right = *word;
    *word = wrong;
    bool whole = whole_is_certified();
    EXPECT(young_is_certified() == whole && whole == (wrong == right));
    refused += !whole;
    *word = right;
}

static void spoil_words(void)
{
    for (uint32_t k = OLD; k < after.count; k++) {
        uint32_t at = after.starts[k], length = length_at(&after, at);
        spoil(&after.words[at], after.words[at] ^ 65536);
        if (length != 0)
            spoil(&after.words[at + 2 + chosen(length)], is_raw(&after, at) ? number() : value(&after));
    }
    for (uint32_t i = 0; i < set.count; i++)
        spoil(&after.words[set.at[i]], value(&after));
    for (int i = 0; i < ROOTS; i++)
        spoil(&after.roots[i], value(&after));
}

/* A field that the write barrier forgot: the snapshots do not have it, so the answer is yes, but the whole heap is wrong. An adapter that
   scans the old objects has the field as a root, and is refused. */
static size_t forgotten;

static void forget_fields(void)
{
    for (uint32_t i = 0; i < set.count; i++) {
        struct remembered all = set;
        uint32_t at = set.at[i];
        set.at[i] = set.at[--set.count];
        collect();
        bool is_stale = forward[before.words[at] / 2] != before.words[at] / 2;
        EXPECT(young_is_certified() && whole_is_certified() != is_stale);
        set = all;
        EXPECT(young_is_certified() != is_stale);
        forgotten += is_stale;
    }
    collect();
}

int main(void)
{
    c = gcflip_collection_open();
    EXPECT(c != NULL);
    for (int i = 0; i < HEAPS; i++) {
        make_heap();
        collect();
        EXPECT(whole_is_certified() && young_is_certified());
        expect_encoded(gcflip_before(c), &before);
        expect_encoded(gcflip_after(c), &after);
        spoil_words();
        forget_fields();
    }
    EXPECT(refused > 4000 && forgotten > 500);
    gcflip_collection_close(c);
    return 0;
}
