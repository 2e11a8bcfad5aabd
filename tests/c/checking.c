/* The ways of checking a flip: which checker accepts it, what gcflip_heap_check finds, and who sees a write that nobody told. Defines the
   allocation functions, so that it can write into the heap's memory. */
#include "expect.h"
#include "gcflip_allocator.h"
#include "gcflip_heap.h"
#include "known_blocks.h"
#include <stdlib.h>
#include <string.h>

enum { WORDS = 4096, ROOTS = 100, FLIPS = 200, LIST = 16 };

static gcflip_heap heap = GCFLIP_NO_HEAP;
static gcflip_work work;
static gcflip_counts counts;
static gcflip_verdict verdict;
static uint64_t number, state = 1;

/* ---- The allocator, which knows its blocks */

/* A block is zeroed, so that no word of a freed one is found in it. */
struct gcflip_memory rattle_alloc(size_t size, size_t alignment)
{
    size_t slot = slot_of(NULL);
    struct gcflip_memory memory = {true, calloc(1, size + 1)};
    (void)alignment;
    EXPECT(memory.at != NULL);
    know_block(slot, memory.at, size);
    return memory;
}

struct gcflip_memory rattle_realloc(void *old, size_t used, size_t size, size_t alignment)
{
    size_t slot = slot_of(old);
    struct gcflip_memory memory = {true, realloc(old, size + 1)};
    (void)used, (void)alignment;
    EXPECT(memory.at != NULL);
    know_block(slot, memory.at, size);
    return memory;
}

void rattle_dealloc(void *old)
{
    know_block(slot_of(old), NULL, 0);
    free(old);
}

/* Writes `next` over each word `word` in the heap's memory, and returns how many there were. */
static unsigned overwrite(uint64_t word, uint64_t next)
{
    unsigned found = 0;
    for (size_t slot = 0; slot < BLOCKS; slot++)
        for (size_t place = 0; blocks[slot].at != NULL && place + 8 <= blocks[slot].size; place += 8) {
            char *at = (char *)blocks[slot].at + place;
            if (memcmp(at, &word, 8) == 0) {
                memcpy(at, &next, 8);
                found++;
            }
        }
    return found;
}

/* ---- Opening */

static gcflip_options options_of(uint8_t checking, uint32_t whole_each)
{
    gcflip_options options = gcflip_options_default(WORDS, 2);
    options.extra_roots = ROOTS;
    options.checking = checking;
    options.whole_each = whole_each;
    return options;
}

static void open_heap(uint8_t checking, uint32_t whole_each)
{
    const gcflip_options options = options_of(checking, whole_each);
    EXPECT(gcflip_heap_open(&heap, &options) == GCFLIP_DONE);
}

static void close_heap(void)
{
    EXPECT(gcflip_heap_close(&heap) == GCFLIP_DONE);
}

static void opening(void)
{
    gcflip_options options = gcflip_options_default(WORDS, 2);
    EXPECT(options.bytes == sizeof options && options.checking == GCFLIP_ALONG && options.whole_each == 0);
    options.checking = 2;
    EXPECT(gcflip_heap_open(&heap, &options) == GCFLIP_OUT_OF_RANGE);
    options.checking = 255;
    EXPECT(gcflip_heap_open(&heap, &options) == GCFLIP_OUT_OF_RANGE);
    options = options_of(GCFLIP_AT_FLIP, UINT32_MAX);
    EXPECT(gcflip_heap_open(&heap, &options) == GCFLIP_DONE);
    close_heap();
    /* The record of the library before, which ended with the mutators. */
    options = options_of(GCFLIP_ALONG, 0);
    options.bytes = 16;
    EXPECT(gcflip_heap_open(&heap, &options) == GCFLIP_OUT_OF_RANGE && heap.at == NULL);
}

/* ---- Random commands */

static uint32_t below(uint32_t limit)
{
    state = state * 6364136223846793005u + 1442695040888963407u;
    return (uint32_t)(state >> 33) % limit;
}

static void command(void)
{
    static uint8_t fields[20];
    static gcflip_field mixed[20];
    uint8_t m = (uint8_t)below(2), d = (uint8_t)below(32), s = (uint8_t)below(32), t = (uint8_t)below(32);
    uint32_t answer = GCFLIP_DONE;
    switch (below(13)) {
    case 0: answer = gcflip_heap_new_object(&heap, m, d, 1, (uint16_t)below(20)); break;
    case 1: answer = gcflip_heap_new_raw(&heap, m, d, 2, (uint16_t)below(20)); break;
    case 2: answer = gcflip_heap_new_pair(&heap, m, d, 3, s, t); break;
    case 3:
        for (size_t i = 0; i < sizeof fields; i++)
            fields[i] = (uint8_t)below(32);
        answer = gcflip_heap_new_from(&heap, m, d, 4, fields, below(20));
        break;
    case 4: answer = gcflip_heap_set_number(&heap, m, d, below(1000)); break;
    case 5: answer = gcflip_heap_get(&heap, m, d, s, (uint16_t)below(4), &number); break;
    case 6: answer = gcflip_heap_move(&heap, m, d, s); break;
    case 7: answer = gcflip_heap_root_store(&heap, m, below(ROOTS), s); break;
    case 8: answer = gcflip_heap_root_load(&heap, m, d, below(ROOTS)); break;
    case 9: answer = gcflip_heap_put_number(&heap, m, s, (uint16_t)below(4), t, below(1000)); break;
    case 10: answer = t == d || t == s ? GCFLIP_DONE : gcflip_heap_copy_fields(&heap, m, d, (uint16_t)below(4), s, (uint16_t)below(4), t, (uint16_t)below(4)); break;
    case 11:
        for (size_t i = 0; i < COUNT(mixed); i++) {
            mixed[i].holds = below(3);
            mixed[i].value = below(32);
        }
        answer = t == d ? GCFLIP_DONE : gcflip_heap_new_with(&heap, m, d, 5, t, mixed, below(20));
        break;
    default: answer = gcflip_heap_put(&heap, m, s, (uint16_t)below(4), t); break;
    }
    EXPECT(!GCFLIP_IS_REFUSED(answer));
    if (answer == GCFLIP_FULL) {
        EXPECT(gcflip_heap_root_clear(&heap, 0, ROOTS) == GCFLIP_DONE);
        for (uint8_t slot = 0; slot < 32; slot++)
            EXPECT(gcflip_heap_set_nil(&heap, m, slot) == GCFLIP_DONE);
    }
}

/* Performs steps, now and then on a larger new space, and now and then gives a collection up. Returns whether it flipped. */
static bool collect(void)
{
    uint32_t size = below(8) == 0 ? WORDS + below(WORDS) : WORDS;
    EXPECT(gcflip_heap_counts(&heap, &counts) == GCFLIP_DONE);
    if (counts.is_open && below(400) == 0) {
        EXPECT(gcflip_heap_step_give_up(&heap) == GCFLIP_DROPPED);
        return false;
    }
    EXPECT(gcflip_heap_work_sized(&heap, 1 + below(20), size > counts.size ? size : counts.size, &work) == GCFLIP_DONE);
    EXPECT(work.last != GCFLIP_NO_ROOM && work.last != GCFLIP_FLIP_REFUSED);
    return work.last == GCFLIP_FLIPPED;
}

/* Checks the heap, and whether the next flip agrees. */
static void check(void)
{
    const gcflip_verdict before = {77, 77, 77, 77};
    uint32_t answer, pairs = 0;
    verdict = before;
    answer = gcflip_heap_check(&heap, &verdict);
    EXPECT(gcflip_heap_counts(&heap, &counts) == GCFLIP_DONE);
    if (answer == GCFLIP_YES) {
        EXPECT(counts.is_open && verdict.refusal == 0 && verdict.place == 0 && verdict.field == 0);
        EXPECT(gcflip_heap_step_flip(&heap, &pairs) == GCFLIP_FLIPPED && pairs == verdict.pairs);
    } else {
        EXPECT(answer == (counts.is_open ? GCFLIP_NOT_READY : GCFLIP_IDLE) && memcmp(&verdict, &before, sizeof before) == 0);
        EXPECT(gcflip_heap_step_flip(&heap, &pairs) == answer && pairs == 0);
    }
}

/* Which checker accepts the flips of a random program. With `whole_each`, no more than that number less one in a row are accepted along. */
static void random_program(uint8_t checking, uint32_t whole_each)
{
    gcflip_flip_checks checks = {77, 77};
    uint64_t flips = 0, along = 0;
    open_heap(checking, whole_each);
    EXPECT(gcflip_heap_flip_checks(&heap, &checks) == GCFLIP_DONE && checks.along == 0 && checks.whole == 0);
    while (flips < FLIPS) {
        for (uint32_t i = below(8); i > 0; i--)
            command();
        if (!collect())
            continue;
        flips++;
        along += whole_each == 0 || flips % whole_each != 0;
        EXPECT(gcflip_heap_flip_checks(&heap, &checks) == GCFLIP_DONE && checks.along + checks.whole == flips);
        EXPECT(checks.along == (checking == GCFLIP_ALONG ? along : 0));
    }
    close_heap();
    EXPECT(gcflip_heap_flip_checks(&heap, &checks) == GCFLIP_CLOSED && checks.along + checks.whole == FLIPS);
}

static void checks_of_a_random_program(void)
{
    open_heap(GCFLIP_ALONG, 0);
    for (int i = 0; i < 20000; i++) {
        command();
        if (below(3) == 0)
            collect();
        if (below(3) == 0)
            check();
    }
    close_heap();
    EXPECT(gcflip_heap_check(&heap, &verdict) == GCFLIP_CLOSED);
}

/* ---- A write that nobody told */

static const uint64_t SEEN = 1234567891, WRITTEN = 1234567899;

/* Prepares a ready collection of a pair with the number SEEN and an empty object, and lets C write into one of its spaces. */
static void write_into(uint8_t checking, uint32_t whole_each)
{
    open_heap(checking, whole_each);
    EXPECT(gcflip_heap_new_pair(&heap, 0, LIST, 1, 0, 0) == GCFLIP_MADE);
    EXPECT(gcflip_heap_put_number(&heap, 0, LIST, 1, 0, SEEN) == GCFLIP_DONE);
    EXPECT(gcflip_heap_set_nil(&heap, 0, 0) == GCFLIP_DONE);
    /* A begin, a root, two fields and the pass to the next replica. */
    EXPECT(gcflip_heap_work(&heap, 5, &work) == GCFLIP_DONE && work.last == GCFLIP_PASSED && work.steps == 5);
    EXPECT(gcflip_heap_check(&heap, &verdict) == GCFLIP_YES && verdict.pairs == 1);
    /* Both spaces have the number now. Only the first one changes, which is the old space. */
    unsigned changed = overwrite(2 * SEEN + 1, 2 * WRITTEN + 1);
    EXPECT(changed == 2);
    for (size_t slot = BLOCKS; slot-- > 0;) /* put it back in one of them */
        for (size_t place = 0; changed == 2 && blocks[slot].at != NULL && place + 8 <= blocks[slot].size; place += 8) {
            uint64_t word;
            memcpy(&word, (char *)blocks[slot].at + place, 8);
            if (word == 2 * WRITTEN + 1) {
                word = 2 * SEEN + 1;
                memcpy((char *)blocks[slot].at + place, &word, 8);
                changed = 1;
            }
        }
    EXPECT(changed == 1);
}

static void foreign_writes(void)
{
    uint32_t pairs = 77;
    /* A whole check sees it, and says where. */
    write_into(GCFLIP_ALONG, 0);
    EXPECT(gcflip_heap_check(&heap, &verdict) == GCFLIP_REFUSED);
    EXPECT(verdict.refusal == GCFLIP_FIELD_DIFFERS && verdict.place == 0 && verdict.field == 1 && verdict.pairs == 0);
    /* The checker that went along has seen the field before, and does not see the write. */
    EXPECT(gcflip_heap_step_flip(&heap, &pairs) == GCFLIP_FLIPPED && pairs == 1);
    close_heap();
    /* A flip that checks both spaces whole sees it. */
    pairs = 77;
    write_into(GCFLIP_AT_FLIP, 0);
    EXPECT(gcflip_heap_step_flip(&heap, &pairs) == GCFLIP_FLIP_REFUSED && pairs == 77);
    close_heap();
    write_into(GCFLIP_ALONG, 1);
    EXPECT(gcflip_heap_step_flip(&heap, &pairs) == GCFLIP_FLIP_REFUSED && pairs == 77);
    close_heap();
}

int main(void)
{
    opening();
    random_program(GCFLIP_ALONG, 0);
    random_program(GCFLIP_AT_FLIP, 0);
    random_program(GCFLIP_AT_FLIP, 7);
    random_program(GCFLIP_ALONG, 1);
    random_program(GCFLIP_ALONG, 3);
    random_program(GCFLIP_ALONG, UINT32_MAX);
    checks_of_a_random_program();
    foreign_writes();
    expect_no_block();
    return 0;
}
