/* Header words and ends that other code spoiled, in both spaces, while no collection is open and after each step of three collections: what
   gcflip_heap_check, gcflip_heap_image and gcflip_heap_new_words find. Defines the allocation functions: a page that cannot be read lies in
   front of each block, and one behind it. So a call that reads outside of a space ends the program. */
#define _GNU_SOURCE
#include "expect.h"
#include "gcflip_allocator.h"
#include "gcflip_heap.h"
#include "known_blocks.h"
#include <string.h>
#include <sys/mman.h>

enum { PAGE = 4096, ROOTS = 4, MOST_OBJECTS = 32, LIST = 0, FIRST_HEADER = 16777216, NO_HEADER = FIRST_HEADER - 1 };

static gcflip_heap heap = GCFLIP_NO_HEAP;
static gcflip_counts counts;

/* ---- The allocator, which knows its blocks */

/* The bytes between the beginning of a block of this size and the page behind it. */
static size_t used_bytes(size_t size)
{
    return (size + 15) / 16 * 16;
}

/* The bytes of the pages that the block takes. */
static size_t page_bytes(size_t size)
{
    return (used_bytes(size) + PAGE - 1) / PAGE * PAGE;
}

/* A block ends where the page behind it begins, if its size is a multiple of 16. All its words are 0. */
struct gcflip_memory rattle_alloc(size_t size, size_t alignment)
{
    struct gcflip_memory memory = {true, NULL};
    char *mapped = mmap(NULL, page_bytes(size) + 2 * PAGE, PROT_NONE, MAP_PRIVATE | MAP_ANONYMOUS, -1, 0);
    (void)alignment;
    EXPECT(mapped != MAP_FAILED);
    EXPECT(mprotect(mapped + PAGE, page_bytes(size), PROT_READ | PROT_WRITE) == 0);
    memory.at = mapped + PAGE + page_bytes(size) - used_bytes(size);
    know_block(slot_of(NULL), memory.at, size);
    return memory;
}

void rattle_dealloc(void *old)
{
    size_t slot = slot_of(old), size = blocks[slot].size;
    EXPECT(munmap((char *)old + used_bytes(size) - page_bytes(size) - PAGE, page_bytes(size) + 2 * PAGE) == 0);
    know_block(slot, NULL, 0);
}

struct gcflip_memory rattle_realloc(void *old, size_t used, size_t size, size_t alignment)
{
    struct gcflip_memory memory = rattle_alloc(size, alignment);
    memcpy(memory.at, old, used < size ? used : size);
    rattle_dealloc(old);
    return memory;
}

/* ---- Spaces, as they lie in memory. All have different sizes */

struct space {
    uint64_t *words; /* its words */
    uint64_t *end;   /* where the heap keeps their number */
    uint32_t size, starts[MOST_OBJECTS], objects;
};

static struct space old_space, new_space;

static uint64_t *block_of(uint32_t size)
{
    uint64_t *found = NULL;
    for (size_t slot = 0; slot < BLOCKS; slot++)
        if (blocks[slot].at != NULL && blocks[slot].size == 8 * (size_t)size) {
            EXPECT(found == NULL);
            found = blocks[slot].at;
        }
    EXPECT(found != NULL);
    return found;
}

/* Returns where the heap keeps the end of a space: between the address of its words and the number of words that it has room for. */
static uint64_t *end_kept(const struct space *space, uint32_t end)
{
    uint64_t *row = heap.at, *found = NULL;
    size_t count = blocks[slot_of(heap.at)].size / 8;
    for (size_t k = 1; k + 1 < count; k++)
        if (row[k] == end && row[k - 1] == (uint64_t)(uintptr_t)space->words && row[k + 1] == space->size) {
            EXPECT(found == NULL);
            found = &row[k];
        }
    EXPECT(found != NULL);
    return found;
}

/* Finds the space of this size with these words up to its end, and walks over its objects. */
static void find_space(struct space *space, uint32_t size, const uint64_t *row, uint32_t end)
{
    space->size = size;
    space->words = block_of(size);
    space->end = end_kept(space, end);
    space->objects = 0;
    for (uint32_t at = 1; at < end; at += 2 + (uint32_t)(row[at] & 0xFFFF)) {
        EXPECT(space->words[at] == row[at] && space->objects < MOST_OBJECTS);
        space->starts[space->objects++] = at;
    }
}

/* ---- What the calls find */

enum damage { IN_OLD, IN_NEW };

/* The heap as it is, and what the calls under test write. */
static uint64_t *words, *roots, *new_words, *seen_words, *seen_roots;
static size_t root_count;

static uint64_t *row_of(size_t count)
{
    return rattle_alloc(8 * count, 8).at;
}

/* Copies the heap, and finds both spaces. */
static void find_heap(void)
{
    EXPECT(gcflip_heap_counts(&heap, &counts) == GCFLIP_DONE);
    root_count = gcflip_heap_root_count(2) + ROOTS;
    words = row_of(counts.end), seen_words = row_of(counts.end), new_words = row_of(counts.new_end);
    roots = row_of(root_count), seen_roots = row_of(root_count);
    EXPECT(gcflip_heap_image(&heap, words, counts.end, roots, root_count) == GCFLIP_DONE);
    find_space(&old_space, counts.size, words, counts.end);
    new_space.objects = 0;
    if (counts.is_open) {
        EXPECT(gcflip_heap_new_words(&heap, new_words, counts.new_end) == GCFLIP_DONE);
        find_space(&new_space, counts.new_size, new_words, counts.new_end);
    }
}

static void forget_heap(void)
{
    uint64_t *rows[] = {words, roots, new_words, seen_words, seen_roots};
    for (size_t k = 0; k < COUNT(rows); k++)
        rattle_dealloc(rows[k]);
}

static bool holds_only(const uint64_t *row, size_t count, uint64_t word)
{
    while (count > 0 && row[count - 1] == word)
        count--;
    return count == 0;
}

static void fill(uint64_t *row, size_t count)
{
    memset(row, 0xEE, 8 * count);
}

static const uint64_t FILLED = 0xEEEEEEEEEEEEEEEE;

/* An image shows the old space, unless that is damaged; then it writes nothing. */
static void expect_image(enum damage damage)
{
    fill(seen_words, counts.end);
    fill(seen_roots, root_count);
    uint32_t answer = gcflip_heap_image(&heap, seen_words, counts.end, seen_roots, root_count);
    if (damage == IN_OLD) {
        EXPECT(answer == GCFLIP_DAMAGED);
        EXPECT(holds_only(seen_words, counts.end, FILLED) && holds_only(seen_roots, root_count, FILLED));
    } else {
        EXPECT(answer == GCFLIP_DONE);
        EXPECT(memcmp(seen_words, words, 8 * (size_t)counts.end) == 0 && memcmp(seen_roots, roots, 8 * root_count) == 0);
    }
}

/* The same for the new space, if a collection is open. */
static void expect_new_words(enum damage damage)
{
    uint64_t *seen = row_of(counts.new_end);
    fill(seen, counts.new_end);
    uint32_t answer = gcflip_heap_new_words(&heap, seen, counts.new_end);
    if (counts.is_open && damage != IN_NEW) {
        EXPECT(answer == GCFLIP_DONE && memcmp(seen, new_words, 8 * (size_t)counts.new_end) == 0);
    } else {
        EXPECT(answer == (counts.is_open ? GCFLIP_DAMAGED : GCFLIP_OUT_OF_RANGE));
        EXPECT(holds_only(seen, counts.new_end, FILLED));
    }
    rattle_dealloc(seen);
}

/* A check tells where the damage is, if a collection is open; otherwise it has nothing to check. */
static void expect_check(enum damage damage, uint64_t place)
{
    const gcflip_verdict before = {77, 77, 77, 77};
    gcflip_verdict verdict = before;
    uint32_t answer = gcflip_heap_check(&heap, &verdict);
    if (counts.is_open) {
        EXPECT(answer == GCFLIP_REFUSED && verdict.refusal == (damage == IN_OLD ? GCFLIP_OLD_SHAPE : GCFLIP_NEW_SHAPE));
        EXPECT(verdict.place == place && verdict.pairs == 0 && verdict.field == 0);
    } else {
        EXPECT(answer == GCFLIP_IDLE && memcmp(&verdict, &before, sizeof before) == 0);
    }
}

/* ---- Damage */

/* Spoils a word, tries the calls, and puts the word back. */
static void spoil(uint64_t *at, uint64_t word, enum damage damage, uint64_t place)
{
    const uint64_t before = *at;
    *at = word;
    expect_image(damage);
    expect_new_words(damage);
    expect_check(damage, place);
    *at = before;
}

/* The header of an object that runs one word past the end, or that no space has room for. */
static uint64_t too_long(uint64_t header, uint64_t fields)
{
    return header - (header & 0xFFFF) + fields;
}

static void spoil_headers(const struct space *space, uint32_t end, enum damage damage)
{
    for (uint32_t k = 0; k < space->objects; k++) {
        uint32_t at = space->starts[k];
        uint64_t *header = &space->words[at];
        spoil(header, 0, damage, at);
        spoil(header, NO_HEADER, damage, at);
        spoil(header, UINT64_MAX, damage, at);
        spoil(header, too_long(*header, end - at - 1), damage, at);
        spoil(header, too_long(*header, 65535), damage, at);
    }
    spoil(&space->words[0], 1, damage, 0);
    spoil(&space->words[0], UINT64_MAX, damage, 0);
}

/* An end within the last object, one behind the end where no object lies, and ends that no space of this size has. */
static void spoil_end(const struct space *space, uint32_t end, enum damage damage)
{
    const uint64_t none[] = {0, (uint64_t)space->size + 1, UINT32_MAX, (uint64_t)UINT32_MAX + 1, (uint64_t)UINT32_MAX + 1 + end, UINT64_MAX, (uint64_t)1 << 61};
    for (size_t k = 0; k < COUNT(none); k++)
        spoil(space->end, none[k], damage, 0);
    if (space->objects > 0)
        spoil(space->end, end - 1, damage, space->starts[space->objects - 1]);
    space->words[end] = 0;
    spoil(space->end, end + 1, damage, end);
}

/* Ends that cut off whole objects leave words that are shaped. A check of an open collection still does not say yes. */
static void cut(const struct space *space)
{
    const uint64_t before = *space->end;
    gcflip_verdict verdict;
    for (uint32_t k = 0; k < space->objects; k++) {
        *space->end = space->starts[k];
        uint32_t answer = gcflip_heap_check(&heap, &verdict);
        EXPECT(answer == (counts.is_open ? GCFLIP_REFUSED : GCFLIP_IDLE) || (counts.is_open && answer == GCFLIP_NOT_READY));
        (void)gcflip_heap_image(&heap, seen_words, counts.end, seen_roots, root_count);
        *space->end = before;
    }
}

static void damage_heap(void)
{
    find_heap();
    spoil_headers(&old_space, counts.end, IN_OLD);
    spoil_end(&old_space, counts.end, IN_OLD);
    cut(&old_space);
    if (counts.is_open) {
        spoil_headers(&new_space, counts.new_end, IN_NEW);
        spoil_end(&new_space, counts.new_end, IN_NEW);
        cut(&new_space);
    }
    forget_heap();
}

/* ---- The heap that is damaged */

/* A list of pairs, from a slot and from an extra root, with an empty object and a raw one in it. */
static void fill_heap(void)
{
    for (uint64_t k = 0; k < 6; k++) {
        EXPECT(gcflip_heap_new_object(&heap, 0, 1, 2, k == 3 ? 0 : 1) == GCFLIP_MADE);
        EXPECT(gcflip_heap_new_pair(&heap, 0, 2, 1, 1, LIST) == GCFLIP_MADE);
        EXPECT(gcflip_heap_move(&heap, 0, LIST, 2) == GCFLIP_DONE);
    }
    EXPECT(gcflip_heap_new_raw(&heap, 1, 2, 3, 5) == GCFLIP_MADE);
    EXPECT(gcflip_heap_put_number(&heap, 1, 2, 4, 3, FIRST_HEADER) == GCFLIP_DONE);
    EXPECT(gcflip_heap_root_store(&heap, 1, ROOTS - 1, 2) == GCFLIP_DONE);
}

/* Collects by single steps with a write between them, and damages the heap after each. Returns the last reply. */
static uint32_t collect(uint32_t size, int steps)
{
    gcflip_work work = {0, 0, 0, 0, 0};
    EXPECT(gcflip_heap_step_begin_sized(&heap, size) == GCFLIP_BEGUN);
    for (int k = 0; k < steps; k++) {
        damage_heap();
        if (k == 5)
            EXPECT(gcflip_heap_put_number(&heap, 0, LIST, 0, 3, 7) == GCFLIP_DONE);
        EXPECT(gcflip_heap_work(&heap, 1, &work) == GCFLIP_DONE && work.steps == 1);
        if (work.last == GCFLIP_FLIPPED)
            return work.last;
    }
    EXPECT(gcflip_heap_step_give_up(&heap) == GCFLIP_DROPPED);
    return GCFLIP_DROPPED;
}

/* The damage is put back each time, so the heap goes on as if nothing had been. */
static void try_checking(uint8_t checking)
{
    enum { SIZE = 128, ALL = 1000 };
    gcflip_options options = gcflip_options_default(SIZE, 2);
    gcflip_verdict verdict;
    options.extra_roots = ROOTS;
    options.checking = checking;
    EXPECT(gcflip_heap_open(&heap, &options) == GCFLIP_DONE);
    damage_heap();
    fill_heap();
    damage_heap();
    EXPECT(collect(SIZE + 32, 20) == GCFLIP_DROPPED);
    damage_heap();
    EXPECT(collect(SIZE + 64, ALL) == GCFLIP_FLIPPED);
    damage_heap();
    EXPECT(collect(SIZE + 96, ALL) == GCFLIP_FLIPPED);
    damage_heap();
    EXPECT(gcflip_heap_check(&heap, &verdict) == GCFLIP_IDLE);
    EXPECT(gcflip_heap_close(&heap) == GCFLIP_DONE);
}

int main(void)
{
    try_checking(GCFLIP_ALONG);
    try_checking(GCFLIP_AT_FLIP);
    expect_no_block();
    return 0;
}
