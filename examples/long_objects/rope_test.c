/* Tests rope.c: random joins and appends beside the same texts in C, a text longer than any object, through collections, and refusals. */
#include "rope.h"
#include "expect.h"
#include <string.h>

enum { TEXTS = 6, MOST = 400000, SCRATCH = 7, NUMBER = 6, WORDS = 1 << 20 };

static gcflip_heap heap = GCFLIP_NO_HEAP;
static const rope_user user = {&heap, 0, SCRATCH};

/* The text of slot k. */
static uint8_t text[TEXTS][MOST], read[MOST];
static uint64_t length[TEXTS];
static uint32_t random_state = 1, flips;

static uint32_t random_below(uint32_t end)
{
    random_state = random_state * 1664525 + 1013904223;
    return (uint32_t)((uint64_t)random_state * end >> 32);
}

static void open_heap(uint32_t words)
{
    const gcflip_options options = gcflip_options_default(words, 1);
    EXPECT(gcflip_heap_open(&heap, &options) == GCFLIP_DONE);
}

static void work(uint32_t most)
{
    gcflip_work made = {0, 0, 0, 0, 0};
    EXPECT(gcflip_heap_work(&heap, most, &made) == GCFLIP_DONE && made.last != GCFLIP_NO_ROOM);
    flips += made.last == GCFLIP_FLIPPED;
}

/* Makes the call again after a whole collection if the heap is full. */
#define MAKE(call)                            \
    do {                                      \
        uint32_t answer_ = (call);            \
        if (answer_ == GCFLIP_FULL) {         \
            work(UINT32_MAX);                 \
            work(UINT32_MAX);                 \
            answer_ = (call);                 \
        }                                     \
        EXPECT(answer_ == GCFLIP_DONE);       \
    } while (0)

static void fill(uint8_t *bytes, uint64_t count)
{
    for (uint64_t i = 0; i < count; i++)
        bytes[i] = (uint8_t)random_below(256);
}

/* Returns 64 times the bytes of a rope in an image plus its height, and checks that each of its nodes is as rope.h tells. */
static uint64_t checked_rope(const uint64_t *words, uint64_t address)
{
    const uint64_t *fields = words + address + 2;
    if (words[address] >> 25 & 1) {
        EXPECT(fields[0] > 0 && fields[0] <= ROPE_MOST);
        return 64 * fields[0];
    }
    uint64_t left = checked_rope(words, fields[0] / 2), right = checked_rope(words, fields[1] / 2);
    uint64_t lower = left % 64 < right % 64 ? left % 64 : right % 64, higher = left % 64 + right % 64 - lower;
    EXPECT(higher <= lower + 1 && fields[2] / 2 == left / 64 && fields[3] / 2 == 64 * (left / 64 + right / 64) + higher + 1);
    return fields[3] / 2;
}

/* The rope of slot k has the text, and its nodes are as they should be. */
static void expect_text(uint8_t k)
{
    static uint64_t words[WORDS], roots[32];
    gcflip_counts counts = {0, 0, 0, 0, 0, 0, 0, 0, 0, 0, 0, 0};
    uint64_t found = 0;
    uint32_t height = 0, address = 0;
    EXPECT(rope_measure(&user, k, &found, &height) == GCFLIP_DONE && found == length[k]);
    EXPECT(rope_read(&user, k, 0, read, found) == GCFLIP_DONE && memcmp(read, text[k], found) == 0);
    if (found == 0)
        return;
    EXPECT(gcflip_heap_counts(&heap, &counts) == GCFLIP_DONE && gcflip_heap_image(&heap, words, counts.end, roots, 32) == GCFLIP_DONE);
    EXPECT(gcflip_heap_address(&heap, 0, k, &address) == GCFLIP_DONE && checked_rope(words, address) == 64 * found + height);
}

/* A call that succeeded let go of all that its slots held. */
static void expect_nil_left(void)
{
    gcflip_view view = {0, 0, 0};
    for (uint8_t slot = SCRATCH; slot < SCRATCH + ROPE_SLOTS; slot++)
        EXPECT(gcflip_heap_look(&heap, 0, slot, &view) == GCFLIP_NIL);
}

static void expect_piece(uint8_t k)
{
    uint64_t first = random_below((uint32_t)length[k] + 1), count = random_below((uint32_t)(length[k] - first) + 1);
    EXPECT(rope_read(&user, k, first, read, count) == GCFLIP_DONE && memcmp(read, text[k] + first, count) == 0);
    memset(read, 1, 2);
    EXPECT(rope_read(&user, k, first, read, length[k] - first + 1) == GCFLIP_NO_FIELD && read[0] == 1 && read[1] == 1);
}

static void append(uint8_t d, uint8_t s, uint64_t count)
{
    static uint8_t bytes[MOST];
    if (length[s] + count > MOST)
        return;
    fill(bytes, count);
    MAKE(rope_append(&user, d, s, bytes, count));
    expect_nil_left();
    memmove(text[d], text[s], length[s]);
    memcpy(text[d] + length[s], bytes, count);
    length[d] = length[s] + count;
}

static void concatenate(uint8_t d, uint8_t s, uint8_t t)
{
    static uint8_t both[MOST];
    uint64_t sum = length[s] + length[t];
    if (sum > MOST)
        return;
    memcpy(both, text[s], length[s]);
    memcpy(both + length[s], text[t], length[t]);
    MAKE(rope_concatenate(&user, d, s, t));
    expect_nil_left();
    memcpy(text[d], both, sum);
    length[d] = sum;
}

static void random_texts(uint32_t turns, uint32_t longest)
{
    open_heap(WORDS);
    memset(length, 0, sizeof length);
    for (uint32_t turn = 0; turn < turns; turn++) {
        uint8_t d = (uint8_t)random_below(TEXTS), s = (uint8_t)random_below(TEXTS), t = (uint8_t)random_below(TEXTS);
        switch (random_below(8)) {
        case 0:
            EXPECT(gcflip_heap_set_nil(&heap, 0, d) == GCFLIP_DONE);
            length[d] = 0;
            break;
        case 1: case 2: case 3:
            append(d, s, random_below(longest));
            break;
        default:
            concatenate(d, s, t);
        }
        expect_piece(d);
        work(1 + random_below(200));
        if (turn % 16 == 0)
            expect_text(s);
    }
    for (uint8_t k = 0; k < TEXTS; k++)
        expect_text(k);
    EXPECT(flips > 2);
    EXPECT(gcflip_heap_close(&heap) == GCFLIP_DONE);
}

/* Leaves one by one at either end: the rope stays as low as its leaves allow. */
static void at_one_end(bool at_the_left)
{
    uint64_t found = 0;
    uint32_t height = 0;
    uint8_t bytes[ROPE_MOST];
    open_heap(WORDS);
    for (uint32_t k = 0; k < 100; k++) {
        memset(bytes, (int)k, ROPE_MOST);
        EXPECT(rope_append(&user, 1, NUMBER, bytes, ROPE_MOST) == GCFLIP_DONE);
        EXPECT(rope_concatenate(&user, 0, at_the_left ? 1 : 0, at_the_left ? 0 : 1) == GCFLIP_DONE);
    }
    EXPECT(rope_measure(&user, 0, &found, &height) == GCFLIP_DONE && found == 100 * ROPE_MOST && height >= 7 && height <= 9);
    for (uint32_t k = 0; k < 100; k++) {
        EXPECT(rope_read(&user, 0, k * ROPE_MOST, bytes, ROPE_MOST) == GCFLIP_DONE);
        EXPECT(bytes[0] == (at_the_left ? 99 - k : k) && bytes[ROPE_MOST - 1] == bytes[0]);
    }
    EXPECT(gcflip_heap_close(&heap) == GCFLIP_DONE);
}

/* A text of 2^40 bytes, made of itself by 30 joins. */
static void a_very_long_text(void)
{
    uint64_t found = 0;
    uint32_t height = 0;
    uint8_t bytes[1024], end[4];
    open_heap(WORDS);
    fill(bytes, sizeof bytes);
    EXPECT(rope_append(&user, 0, 0, bytes, sizeof bytes) == GCFLIP_DONE);
    for (uint32_t k = 0; k < 30; k++)
        EXPECT(rope_concatenate(&user, 0, 0, 0) == GCFLIP_DONE);
    EXPECT(rope_measure(&user, 0, &found, &height) == GCFLIP_DONE && found == (uint64_t)1 << 40);
    EXPECT(rope_read(&user, 0, ((uint64_t)1 << 40) - 2, end, 2) == GCFLIP_DONE && memcmp(end, bytes + 1022, 2) == 0);
    EXPECT(rope_read(&user, 0, ((uint64_t)1 << 39) - 2, end, 4) == GCFLIP_DONE);
    EXPECT(memcmp(end, bytes + 1022, 2) == 0 && memcmp(end + 2, bytes, 2) == 0);
    EXPECT(gcflip_heap_close(&heap) == GCFLIP_DONE);
}

static void refusals(void)
{
    uint64_t found = 77;
    uint32_t height = 77;
    uint8_t bytes[ROPE_MOST] = {0};
    EXPECT(rope_append(&user, 0, 0, bytes, 1) == GCFLIP_CLOSED && rope_measure(&user, 0, &found, &height) == GCFLIP_CLOSED);
    open_heap(100);
    EXPECT(rope_append(&user, 0, 0, bytes, 10) == GCFLIP_DONE);
    EXPECT(gcflip_heap_move(&heap, 0, 1, 0) == GCFLIP_DONE);
    EXPECT(gcflip_heap_set_number(&heap, 0, NUMBER, 3) == GCFLIP_DONE);
    EXPECT(rope_measure(&user, NUMBER, &found, &height) == GCFLIP_NO_OBJECT && found == 77 && height == 77);
    EXPECT(rope_concatenate(&user, 0, 0, NUMBER) == GCFLIP_NO_OBJECT && rope_append(&user, 0, NUMBER, bytes, 1) == GCFLIP_NO_OBJECT);
    EXPECT(rope_read(&user, NUMBER, 0, bytes, 1) == GCFLIP_NO_OBJECT && rope_read(&user, 0, 11, bytes, 0) == GCFLIP_NO_FIELD);
    EXPECT(rope_read(&user, 0, UINT64_MAX, bytes, 2) == GCFLIP_NO_FIELD && rope_read(&user, 0, 2, bytes, UINT64_MAX) == GCFLIP_NO_FIELD);
    EXPECT(gcflip_heap_same(&heap, 0, 0, 1) == GCFLIP_SAME);
    EXPECT(gcflip_heap_close(&heap) == GCFLIP_DONE);
}

/* A leaf of 10 bytes takes 5 words, a whole leaf 515, and a node 6. With word 0 that is 527. */
static void full_heaps(void)
{
    uint8_t bytes[ROPE_MOST] = {0};
    for (uint32_t words = 515; words <= 527; words++) {
        open_heap(words);
        EXPECT(rope_append(&user, 0, 0, bytes, 10) == GCFLIP_DONE);
        EXPECT(gcflip_heap_move(&heap, 0, 1, 0) == GCFLIP_DONE);
        EXPECT(rope_append(&user, 0, 0, bytes, ROPE_MOST) == (words < 527 ? GCFLIP_FULL : GCFLIP_DONE));
        EXPECT(gcflip_heap_same(&heap, 0, 0, 1) == (words < 527 ? GCFLIP_SAME : GCFLIP_NOT_SAME));
        EXPECT(gcflip_heap_close(&heap) == GCFLIP_DONE);
    }
}

int main(void)
{
    random_texts(600, 300);
    random_texts(400, 30000);
    at_one_end(false);
    at_one_end(true);
    a_very_long_text();
    full_heaps();
    refusals();
    return 0;
}
