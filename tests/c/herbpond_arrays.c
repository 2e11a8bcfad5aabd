/* Tests herbpond_arrays.h: arrays and vectors of many lengths with a model, how many words they take, each refusal, full heaps, and refused memory. */
#include "own_allocator.h"
#include "expect.h"
#include "herbpond_arrays.h"
#include "one_interpreter.h"

enum { ARRAY, VALUE, FOUND, OTHER, KIND = 9, PART = 4096 };

/* Expects that no register of the layer keeps a value. */
static void expect_forgotten(void)
{
    gcflip_view view;
    for (uint32_t place = 29; place < 32; place++)
        EXPECT(gcflip_look(&h.heap, place, &view) == GCFLIP_NIL);
}

static void push_int(int64_t integer)
{
    hp_set_int(&h, VALUE, integer);
    hp_array_push(&h, ARRAY, VALUE);
}

static int64_t int_at(uint32_t i)
{
    hp_array_get(&h, FOUND, ARRAY, i);
    EXPECT(hp_look(&h, FOUND).type == HP_INT);
    return hp_look(&h, FOUND).integer;
}

/* Expects that the array has the numbers first, first + 1 and so on. */
static void expect_row(uint32_t length, int64_t first)
{
    EXPECT(hp_array_length(&h, ARRAY) == length);
    for (uint32_t i = 0; i < length; i++)
        EXPECT(int_at(i) == first + i);
}

/* ---- Lengths. An array takes 4 words, and each other object two more than it has fields */

static uint32_t words_of(uint32_t length)
{
    uint32_t parts = (length + PART - 1) / PART;
    return length == 0 ? 4 : length <= PART ? 4 + length + 2 : 4 + parts + 2 + parts * (PART + 2);
}

static void new_array(uint32_t length)
{
    uint32_t end = hp_counts(&h).end;
    hp_array_new(&h, ARRAY, KIND, length);
    EXPECT(hp_counts(&h).end == end + words_of(length) && hp_is(&h, ARRAY, KIND) && hp_array_length(&h, ARRAY) == length);
    expect_forgotten();
    for (uint32_t i = 0; i < length; i++) {
        hp_array_get(&h, FOUND, ARRAY, i);
        EXPECT(hp_look(&h, FOUND).type == HP_NIL);
        hp_set_int(&h, VALUE, 5 + i);
        hp_array_put(&h, ARRAY, i, VALUE);
    }
    expect_row(length, 5);
    for (uint32_t i = length; i < length + 20; i++)
        push_int(5 + i);
    expect_row(length + 20, 5);
    hp_collect(&h);
    expect_row(length + 20, 5);
    hp_set_nil(&h, ARRAY);
    hp_collect(&h);
    EXPECT(hp_counts(&h).end == 1);
}

static void lengths(void)
{
    const uint32_t all[] = {0, 1, 2, 7, 8, 9, 4075, 4076, 4077, 4095, 4096, 4097, 8191, 8192, 8193, 32767, 32768, 32769, 65535, 65536, 300000};
    hp_open(&h, 2000000, 4, hook);
    for (size_t i = 0; i < COUNT(all); i++)
        new_array(all[i]);
    /* no part is longer than others */
    hp_array_new(&h, ARRAY, KIND, 3000);
    hp_array_push(&h, ARRAY, VALUE);
    EXPECT(hp_counts(&h).end == 1 + words_of(3000) + PART + 2);
    hp_close(&h);
}

/* A push that finds no room in the array doubles its part, of 8 fields first, and from 4,096 elements on adds a part of 4,096. */
static void pushes(void)
{
    const uint32_t places = 40 * PART;
    hp_open(&h, 3000000, 4, hook);
    hp_array_new(&h, ARRAY, KIND, 0);
    for (uint32_t i = 0; i < places; i++) {
        uint32_t end = hp_counts(&h).end, more = 0;
        uint64_t flips = h.stats.flips;
        push_int(i);
        if (i < PART && (i == 0 || (i >= 8 && (i & (i - 1)) == 0)))
            more = (i == 0 ? 8 : 2 * i) + 2;
        if (i >= PART && i % PART == 0)
            more = PART + 2;
        if (i == PART || i == 8 * PART || i == 16 * PART || i == 32 * PART) /* another spine, of 8, 16, 32 and 64 fields */
            more += (i == PART ? 8 : 2 * i / PART) + 2;
        EXPECT(h.stats.flips != flips || hp_counts(&h).end == end + more);
    }
    expect_forgotten();
    expect_row(places, 0);
    hp_close(&h);
}

/* ---- Random calls on an array of integers and references, with a model, while collections go on */

enum { MOST = 20000 };
static int64_t model[MOST];

static void random_calls(void)
{
    uint32_t length = 0;
    hp_open(&h, 120000, 4, hook);
    h.pace.least = 0;
    hp_array_new(&h, ARRAY, KIND, 0);
    for (uint32_t n = 0; n < 300000; n++) {
        uint32_t i = length == 0 ? 0 : (uint32_t)(random_bits() % length);
        int64_t number = (int64_t)(random_bits() >> 4);
        if (random_bits() % 2 == 0) { /* an object stands for its number */
            hp_new(&h, VALUE, 1, 1);
            hp_put_int(&h, VALUE, 0, number);
        } else
            hp_set_int(&h, VALUE, number);
        if (length < MOST && random_bits() % 8 == 0) {
            hp_array_push(&h, ARRAY, VALUE);
            model[length++] = number;
        } else if (length > 0 && random_bits() % 2 == 0) {
            hp_array_put(&h, ARRAY, i, VALUE);
            model[i] = number;
        } else if (length > 0) {
            hp_array_get(&h, FOUND, ARRAY, i);
            EXPECT((hp_look(&h, FOUND).type == HP_INT ? hp_look(&h, FOUND).integer : hp_field(&h, FOUND, 0).integer) == model[i]);
        }
        EXPECT(hp_array_length(&h, ARRAY) == length);
    }
    EXPECT(h.stats.flips > 5 && length == MOST);
    hp_close(&h);
}

/* ---- Roots that are one, refusals, and lacks */

static void one_root(void)
{
    hp_open(&h, 100000, 4, hook);
    hp_array_new(&h, ARRAY, KIND, 5000);
    hp_array_put(&h, ARRAY, 4999, ARRAY);
    hp_array_push(&h, ARRAY, ARRAY);
    hp_array_get(&h, FOUND, ARRAY, 4999);
    hp_array_get(&h, OTHER, ARRAY, 5000);
    EXPECT(hp_same(&h, FOUND, ARRAY) && hp_same(&h, OTHER, ARRAY));
    hp_array_get(&h, ARRAY, ARRAY, 4998);
    EXPECT(hp_look(&h, ARRAY).type == HP_NIL && hp_array_length(&h, FOUND) == 5001);
    hp_close(&h);
}

static void refusals(void)
{
    hp_open(&h, 100000, 4, hook);
    hp_set_int(&h, VALUE, 3);
    hp_array_new(&h, ARRAY, KIND, 2);
    FAILS(hp_array_new(&h, OTHER, 256, 1), GCFLIP_OUT_OF_RANGE, "hp_array_new");
    FAILS(hp_array_new(&h, OTHER, KIND, 65535 * 4096 + 1), GCFLIP_OUT_OF_RANGE, "hp_array_new");
    FAILS(hp_array_new(&h, HP_STACK(0), KIND, 1), GCFLIP_OUT_OF_RANGE, "hp_array_new");
    FAILS(hp_array_new(&h, 29, KIND, 1), GCFLIP_OUT_OF_RANGE, "hp_array_new");
    FAILS(hp_array_new(&h, OTHER, KIND, 65535 * 4096), GCFLIP_FULL, "hp_reserve");
    FAILS(hp_array_get(&h, FOUND, ARRAY, 2), GCFLIP_NO_FIELD, "hp_array_get");
    FAILS(hp_array_get(&h, FOUND, ARRAY, UINT32_MAX), GCFLIP_NO_FIELD, "hp_array_get");
    FAILS(hp_array_get(&h, 31, ARRAY, 0), GCFLIP_OUT_OF_RANGE, "hp_array_get");
    FAILS(hp_array_put(&h, ARRAY, 2, VALUE), GCFLIP_NO_FIELD, "hp_array_put");
    FAILS(hp_array_put(&h, ARRAY, 0, 30), GCFLIP_OUT_OF_RANGE, "hp_array_put");
    FAILS(hp_array_push(&h, ARRAY, HP_STACK(0)), GCFLIP_OUT_OF_RANGE, "hp_array_push");
    FAILS(hp_array_push(&h, 29, VALUE), GCFLIP_OUT_OF_RANGE, "hp_field");
    FAILS(hp_array_length(&h, VALUE), GCFLIP_NO_OBJECT, "hp_field");
    FAILS(hp_array_push(&h, OTHER, VALUE), GCFLIP_NO_OBJECT, "hp_field");
    /* an object that is no array. What would be its spine has a number and a part of two fields */
    hp_new(&h, OTHER, KIND, 2);
    FAILS(hp_array_length(&h, OTHER), GCFLIP_NO_NUMBER, "hp_array_length");
    hp_put_int(&h, OTHER, 0, 5000);
    hp_put(&h, OTHER, 1, ARRAY);
    FAILS(hp_array_put(&h, OTHER, 4, VALUE), GCFLIP_NO_OBJECT, "hp_array_put");
    FAILS(hp_array_put(&h, OTHER, 4998, VALUE), GCFLIP_NO_FIELD, "hp_array_put");
    expect_forgotten();
    EXPECT(hp_array_length(&h, ARRAY) == 2 && hp_look(&h, FOUND).type == HP_NIL);
    hp_array_get(&h, FOUND, ARRAY, 0);
    EXPECT(hp_look(&h, FOUND).type == HP_NIL);
    hp_close(&h);
}

/* Pushes until the heap is full, and expects that the push that failed has changed nothing. */
static void fill(void)
{
    for (uint32_t i = 0;; i++) {
        EXPECT(i < 100000);
        push_int(i);
    }
}

static void full_heap(uint32_t words, uint32_t length)
{
    hp_open(&h, words, 4, hook);
    hp_array_new(&h, ARRAY, KIND, 0);
    FAILS(fill(), GCFLIP_FULL, "hp_reserve");
    expect_row(length, 0);
    expect_forgotten();
    hp_collect(&h);
    expect_row(length, 0);
    hp_close(&h);
}

/* No array is longer than 65,535 parts. This one has one part alone, which is the last but one, and its length says that the others are there. */
static void longest(void)
{
    hp_open(&h, 300000, 4, hook);
    hp_new(&h, ARRAY, KIND, 2);
    hp_new(&h, OTHER, 253, 65535);
    hp_put(&h, ARRAY, 1, OTHER);
    hp_put_int(&h, ARRAY, 0, 65534 * 4096);
    push_int(1);
    EXPECT(hp_array_length(&h, ARRAY) == 65534 * 4096 + 1 && int_at(65534 * 4096) == 1 && hp_field(&h, OTHER, 65534).count == 4096);
    hp_put_int(&h, ARRAY, 0, 65535 * 4096);
    FAILS(push_int(2), GCFLIP_FULL, "hp_array_push");
    EXPECT(hp_array_length(&h, ARRAY) == 65535 * 4096);
    /* twice as many parts as these are too many for an object */
    hp_new(&h, OTHER, 253, 40000);
    hp_put(&h, ARRAY, 1, OTHER);
    hp_put_int(&h, ARRAY, 0, 40000 * 4096);
    push_int(3);
    EXPECT(hp_array_length(&h, ARRAY) == 40000 * 4096 + 1 && int_at(40000 * 4096) == 3 && hp_field(&h, ARRAY, 1).count == 65535);
    hp_close(&h);
}

/* ---- Refused memory: a log that cannot grow gives the collection up, and no element is lost */

static void refused(void)
{
    hp_open(&h, 60000, 4, hook);
    hp_array_new(&h, ARRAY, KIND, 0);
    for (uint32_t i = 0; i < 9000; i++) {
        if (i % 16 == 0 && !hp_counts(&h).is_open)
            EXPECT(gcflip_heap_step_begin(&h.heap) == GCFLIP_BEGUN);
        fail_allocation(1);
        push_int(i);
        fail_allocation(0);
    }
    expect_row(9000, 0);
    hp_collect(&h);
    expect_row(9000, 0);
    hp_close(&h);
    EXPECT(blocks_in_use() == 0);
}

/* ---- Vectors of words */

enum { VECTOR, OTHER_VECTOR, NUMBERS, LONG = 3000, LONGEST = GCFLIP_MOST_WORDS };

static uint64_t wanted[LONGEST], read[LONGEST];

static void expect_words(uint32_t count)
{
    EXPECT(hp_words_length(&h, VECTOR) == count && hp_look(&h, VECTOR).kind == KIND);
    memset(read, 0xa5, sizeof read);
    hp_words_read(&h, VECTOR, 0, read, count);
    EXPECT(memcmp(read, wanted, count * sizeof *read) == 0);
}

static void make_vector(uint32_t count)
{
    uint32_t end = hp_counts(&h).end;
    hp_new_words(&h, VECTOR, KIND, count);
    EXPECT(hp_counts(&h).end == end + 2 + count + (count + 62) / 63);
    memset(wanted, 0, sizeof wanted);
    expect_words(count);
    for (uint32_t k = 0; k < count; k++)
        wanted[k] = UINT64_MAX - k * 0x9e3779b97f4a7c15u;
    hp_words_write(&h, VECTOR, 0, wanted, count);
    expect_words(count);
    FAILS(hp_words_read(&h, VECTOR, 1, read, count), GCFLIP_NO_FIELD, "hp_words_read");
    FAILS(hp_words_write(&h, VECTOR, count, wanted, 1), GCFLIP_NO_FIELD, "hp_words_write");
    hp_words_read(&h, VECTOR, count, NULL, 0);
    hp_words_write(&h, VECTOR, count, NULL, 0);
    expect_words(count);
}

/* A write of some words, while a collection is open whose log cannot grow. If the log has no room, the collection is given up. Returns whether it was. */
static bool write_some(uint32_t at, uint32_t count)
{
    for (uint32_t k = 0; k < count; k++)
        wanted[at + k] ^= 1ull << 63 | k;
    if (!hp_counts(&h).is_open)
        EXPECT(gcflip_heap_step_begin(&h.heap) == GCFLIP_BEGUN);
    fail_allocation(1);
    hp_words_write(&h, VECTOR, at, wanted + at, count);
    fail_allocation(0);
    expect_words(LONG);
    return !hp_counts(&h).is_open;
}

static void vectors(void)
{
    const uint32_t counts[] = {0, 1, 2, 62, 63, 64, 125, 126, 127, 300, LONGEST};
    double half = 0.5, found = 0;
    hp_open(&h, 200000, 4, hook);
    for (size_t i = 0; i < COUNT(counts); i++)
        make_vector(counts[i]);
    make_vector(LONG);
    write_some(0, 1);
    write_some(62, 3);
    EXPECT(write_some(10, LONG - 10)); /* three segments of the log */
    memcpy(wanted + 7, &half, sizeof half);
    hp_words_write(&h, VECTOR, 7, wanted + 7, 1);
    hp_collect(&h);
    expect_words(LONG);
    hp_words_read(&h, VECTOR, 7, read, 1);
    memcpy(&found, read, sizeof found);
    EXPECT(found == 0.5);
    hp_new(&h, OTHER_VECTOR, KIND, 3);
    hp_set_int(&h, NUMBERS, 5);
    for (hp_root s = OTHER_VECTOR; s <= NUMBERS; s++) {
        FAILS((void)hp_words_length(&h, s), GCFLIP_NO_OBJECT, "hp_words_length");
        FAILS(hp_words_read(&h, s, 0, read, 0), GCFLIP_NO_OBJECT, "hp_words_read");
        FAILS(hp_words_write(&h, s, 0, read, 0), GCFLIP_NO_OBJECT, "hp_words_write");
    }
    FAILS(hp_new_words(&h, VECTOR, KIND, LONGEST + 1), GCFLIP_OUT_OF_RANGE, "hp_new_words");
    FAILS(hp_new_words(&h, VECTOR, KIND, UINT32_MAX), GCFLIP_OUT_OF_RANGE, "hp_new_words");
    FAILS(hp_new_words(&h, VECTOR, KIND, 63u << 26), GCFLIP_OUT_OF_RANGE, "hp_new_words"); /* 2^32 fields */
    FAILS(hp_new_words(&h, VECTOR, 256, 1), GCFLIP_OUT_OF_RANGE, "hp_new_words");
    expect_words(LONG);
    hp_close(&h);
    hp_open(&h, 100, 4, hook);
    FAILS(hp_new_words(&h, VECTOR, KIND, 97), GCFLIP_FULL, "hp_reserve");
    hp_new_words(&h, VECTOR, KIND, 95); /* 97 fields, and 2 words more: all but word 0 */
    EXPECT(hp_words_length(&h, VECTOR) == 95 && hp_counts(&h).end == 100);
    hp_close(&h);
}

int main(void)
{
    lengths();
    pushes();
    random_calls();
    one_root();
    refusals();
    /* word 0, the array, and parts of 8 and 16 fields */
    full_heap(1 + 4 + 10 + 18 - 1, 8);
    full_heap(1 + 4 + 10 + 18, 16);
    /* two parts of 4,096 fields and a spine of 8 */
    full_heap(1 + 4 + 4098 + 10 + 4098 - 1, 4096);
    full_heap(1 + 4 + 4098 + 10 + 4098, 8192);
    longest();
    refused();
    vectors();
    return 0;
}
