/* Tests vectors of 64-bit words in raw objects: how their fields are spelled, each place within a vector, each answer, and vectors that are written while a
 * collection is open. Tests the same of the numbers in their fields, many at once. */

enum { KIND = 3, MUTATORS = 2, EXTRA = 4, STEPS = 3, MOST = 200 };

#include "by_places.h"

static uint64_t words[GCFLIP_MOST_WORDS + 1], found[GCFLIP_MOST_WORDS + 1], wanted[GCFLIP_MOST_WORDS + 1];
static const uint64_t five = 5;

/* Fills `words` with numbers of which those with the top bit are as many as the others, and whose ends are the extremes. */
static void fill_words(void)
{
    uint64_t state = 1;
    for (size_t i = 0; i < COUNT(words); i++) {
        state = state * 6364136223846793005u + 1442695040888963407u;
        words[i] = i % 7 == 0 ? UINT64_MAX : i % 7 == 3 ? 1ull << 63 : state;
    }
}

/* Expects that root s refers to a vector with these words. */
static void has_words(uint32_t s, const uint64_t *expected, uint32_t count)
{
    for (uint32_t i = 0; i <= count; i++)
        found[i] = 77;
    EXPECT(gcflip_words_read(&heap, s, 0, found, count) == GCFLIP_DONE && memcmp(found, expected, 8 * count) == 0 && found[count] == 77);
    EXPECT(gcflip_words_read(&heap, s, 0, found, count + 1) == GCFLIP_NO_FIELD && found[count] == 77);
}

/* The number that field i of the vector with these words has. */
static uint64_t field_of(const uint64_t *vector, uint32_t count, uint32_t i)
{
    uint64_t tops = 0;
    if (i < count)
        return vector[i] & ~(1ull << 63);
    for (uint32_t k = 63 * (i - count); k < count && k < 63 * (i - count) + 63; k++)
        tops |= vector[k] >> 63 << (k - 63 * (i - count));
    return tops;
}

/* Expects that root s refers to an object of KIND that is spelled as the vector with these words. */
static void is_spelled(uint32_t s, const uint64_t *expected, uint32_t count)
{
    const uint32_t fields = GCFLIP_WORD_FIELDS(count);
    EXPECT(gcflip_look(&heap, s, &view) == GCFLIP_RAW_OBJECT && view.kind == KIND && view.count == fields);
    for (uint32_t i = 0; i < fields; i++)
        EXPECT(gcflip_peek(&heap, s, i, &view) == GCFLIP_NUMBER && view.number == field_of(expected, count, i));
    has_words(s, expected, count);
}

/* A vector of this length: 0 at first, written whole, and each part of it read. */
static void whole(uint32_t count)
{
    open_heap(2 * MOST, GCFLIP_ALONG);
    memset(wanted, 0, 8 * count);
    EXPECT(gcflip_new_raw(&heap, 16, KIND, GCFLIP_WORD_FIELDS(count)) == GCFLIP_MADE);
    is_spelled(16, wanted, count);
    EXPECT(gcflip_words_write(&heap, 1, 16, 0, words, count) == GCFLIP_DONE);
    is_spelled(16, words, count);
    for (uint32_t at = 0; at <= count; at++)
        for (uint32_t n = 0; n <= count - at; n += 1 + n / 9) {
            found[n] = 77;
            EXPECT(gcflip_words_read(&heap, 16, at, found, n) == GCFLIP_DONE && memcmp(found, words + at, 8 * n) == 0 && found[n] == 77);
        }
    close_heap();
}

/* Other words over parts of a vector of this length, between two others. The words behind those that are passed differ from those of the vector. */
static void parts(uint32_t count)
{
    open_heap(3 * MOST, GCFLIP_ALONG);
    EXPECT(gcflip_new_raw(&heap, 0, KIND, GCFLIP_WORD_FIELDS(9)) == GCFLIP_MADE && gcflip_words_write(&heap, 0, 0, 0, words + 300, 9) == GCFLIP_DONE);
    EXPECT(gcflip_new_raw(&heap, 16, KIND, GCFLIP_WORD_FIELDS(count)) == GCFLIP_MADE && gcflip_words_write(&heap, 0, 16, 0, words, count) == GCFLIP_DONE);
    EXPECT(gcflip_new_raw(&heap, 1, KIND, GCFLIP_WORD_FIELDS(9)) == GCFLIP_MADE && gcflip_words_write(&heap, 0, 1, 0, words + 400, 9) == GCFLIP_DONE);
    memcpy(wanted, words, 8 * count);
    for (uint32_t at = 0; at <= count; at += 1 + at / 5)
        for (uint32_t n = 0; n <= count - at; n += 1 + n / 3) {
            const uint64_t *const over = words + 500 + at + n;
            memcpy(wanted + at, over, 8 * n);
            EXPECT(gcflip_words_write(&heap, 1, 16, at, over, n) == GCFLIP_DONE);
            is_spelled(16, wanted, count);
        }
    is_spelled(0, words + 300, 9);
    is_spelled(1, words + 400, 9);
    close_heap();
}

/* The longest vector. */
static void longest(void)
{
    open_heap(70000, GCFLIP_ALONG);
    EXPECT(GCFLIP_WORD_FIELDS(GCFLIP_MOST_WORDS) == 65535 && gcflip_new_raw(&heap, 0, KIND, 65535) == GCFLIP_MADE);
    EXPECT(gcflip_heap_step_begin(&heap) == GCFLIP_BEGUN);
    EXPECT(gcflip_words_write(&heap, 1, 0, 0, words + 1, GCFLIP_MOST_WORDS) == GCFLIP_DONE);
    is_spelled(0, words + 1, GCFLIP_MOST_WORDS);
    EXPECT(gcflip_heap_work(&heap, 500000, &work) == GCFLIP_DONE && work.last == GCFLIP_FLIPPED);
    is_spelled(0, words + 1, GCFLIP_MOST_WORDS);
    EXPECT(gcflip_words_write(&heap, 0, 0, 0, words, GCFLIP_MOST_WORDS + 1) == GCFLIP_NO_FIELD);
    EXPECT(gcflip_words_write(&heap, 0, 0, 1, words, GCFLIP_MOST_WORDS) == GCFLIP_NO_FIELD);
    has_words(0, words + 1, GCFLIP_MOST_WORDS);
    close_heap();
}

/* Objects with one field more than a vector needs, and bits of the fields that are none of a vector's: they stay. */
static void made_otherwise(void)
{
    static const uint64_t ones[2] = {UINT64_MAX, UINT64_MAX};
    open_heap(3 * MOST, GCFLIP_ALONG);
    EXPECT(gcflip_new_raw(&heap, 0, KIND, 1) == GCFLIP_MADE && gcflip_put_number(&heap, 0, 0, 0, 5) == GCFLIP_DONE);
    has_words(0, words, 0);
    EXPECT(gcflip_new_raw(&heap, 1, KIND, 65) == GCFLIP_MADE && gcflip_put_number(&heap, 0, 1, 64, 5) == GCFLIP_DONE);
    EXPECT(gcflip_words_write(&heap, 0, 1, 0, words, 63) == GCFLIP_DONE);
    has_words(1, words, 63);
    EXPECT(gcflip_get(&heap, 15, 1, 64, &number) == GCFLIP_NUMBER && number == 5);
    EXPECT(gcflip_new_raw(&heap, 2, KIND, 4) == GCFLIP_MADE && gcflip_put_number(&heap, 0, 2, 3, 0x7ffffffffffffff5) == GCFLIP_DONE);
    EXPECT(gcflip_words_read(&heap, 2, 0, found, 3) == GCFLIP_DONE && found[0] == 1ull << 63 && found[1] == 0 && found[2] == 1ull << 63);
    EXPECT(gcflip_words_write(&heap, 0, 2, 1, ones, 1) == GCFLIP_DONE);
    EXPECT(gcflip_peek(&heap, 2, 3, &view) == GCFLIP_NUMBER && view.number == 0x7ffffffffffffff7);
    EXPECT(gcflip_peek(&heap, 2, 0, &view) == GCFLIP_NUMBER && view.number == 0);
    close_heap();
}

/* Doubles, whose bits are words. */
static void doubles(void)
{
    static const double sums[] = {0.5, -0.0, -1e300, 3.25, -2.5};
    double again[COUNT(sums)];
    uint64_t bits[COUNT(sums)];
    open_heap(64, GCFLIP_ALONG);
    memcpy(bits, sums, sizeof bits);
    EXPECT(gcflip_new_raw(&heap, 0, KIND, GCFLIP_WORD_FIELDS(COUNT(sums))) == GCFLIP_MADE);
    EXPECT(gcflip_words_write(&heap, 0, 0, 0, bits, COUNT(bits)) == GCFLIP_DONE);
    EXPECT(gcflip_heap_work(&heap, 1000, &work) == GCFLIP_DONE && work.last == GCFLIP_FLIPPED);
    EXPECT(gcflip_words_read(&heap, 0, 0, bits, COUNT(bits)) == GCFLIP_DONE);
    memcpy(again, bits, sizeof again);
    EXPECT(memcmp(again, sums, sizeof again) == 0);
    close_heap();
}

static void refused_places(uint32_t p)
{
    found[0] = 77;
    EXPECT(gcflip_words_read(&heap, p, 0, found, 1) == GCFLIP_OUT_OF_RANGE && found[0] == 77);
    EXPECT(gcflip_words_write(&heap, 0, p, 0, words, 1) == GCFLIP_OUT_OF_RANGE && gcflip_words_write(&heap, p, 16, 0, words + 1, 1) == GCFLIP_OUT_OF_RANGE);
    EXPECT(gcflip_raw_read(&heap, p, 0, found, 1) == GCFLIP_OUT_OF_RANGE && found[0] == 77);
    EXPECT(gcflip_raw_write(&heap, 0, p, 0, &five, 1) == GCFLIP_OUT_OF_RANGE && gcflip_raw_write(&heap, p, 16, 0, &five, 1) == GCFLIP_OUT_OF_RANGE);
}

static void refused_raws(void)
{
    const uint64_t large[] = {5, 1ull << 63};
    found[0] = 77;
    for (uint32_t p = 0; p < 3; p++) {
        EXPECT(gcflip_raw_read(&heap, p, 0, found, 0) == GCFLIP_NO_OBJECT && gcflip_raw_read(&heap, p, 0, found, 1) == GCFLIP_NO_OBJECT);
        EXPECT(gcflip_raw_write(&heap, 0, p, 0, &five, 0) == GCFLIP_NO_OBJECT && gcflip_raw_write(&heap, 0, p, 0, large, 2) == GCFLIP_NO_OBJECT);
    }
    EXPECT(gcflip_raw_read(&heap, 16, 0, found, 32) == GCFLIP_NO_FIELD && gcflip_raw_read(&heap, 16, 31, found, 1) == GCFLIP_NO_FIELD);
    EXPECT(gcflip_raw_read(&heap, 16, 32, found, 0) == GCFLIP_NO_FIELD && gcflip_raw_read(&heap, 16, 65536, found, 1) == GCFLIP_NO_FIELD);
    EXPECT(gcflip_raw_read(&heap, 16, UINT32_MAX, found, 1) == GCFLIP_NO_FIELD && found[0] == 77);
    EXPECT(gcflip_raw_write(&heap, 0, 16, 30, large, 2) == GCFLIP_NO_FIELD && gcflip_raw_write(&heap, 0, 16, 32, large, 0) == GCFLIP_NO_FIELD);
    EXPECT(gcflip_raw_write(&heap, 0, 16, 65536, &five, 1) == GCFLIP_NO_FIELD && gcflip_raw_write(&heap, 0, 16, UINT32_MAX, &five, 1) == GCFLIP_NO_FIELD);
    EXPECT(gcflip_raw_write(&heap, 0, 16, 29, large, 2) == GCFLIP_NO_NUMBER && gcflip_raw_write(&heap, 0, 16, 30, large + 1, 1) == GCFLIP_NO_NUMBER);
    EXPECT(gcflip_raw_write(&heap, MUTATORS, 16, 0, &five, 1) == GCFLIP_OUT_OF_RANGE && gcflip_raw_write(&heap, 256, 16, 0, &five, 1) == GCFLIP_OUT_OF_RANGE);
}

static void refused_numbers(void)
{
    refused_raws();
    for (uint32_t p = 0; p < 3; p++) { /* nil, a number, an object that is not raw */
        EXPECT(gcflip_words_read(&heap, p, 0, found, 0) == GCFLIP_NO_OBJECT && gcflip_words_read(&heap, p, 0, found, 1) == GCFLIP_NO_OBJECT);
        EXPECT(gcflip_words_write(&heap, 0, p, 0, words, 0) == GCFLIP_NO_OBJECT && gcflip_words_write(&heap, 0, p, 0, words + 1, 1) == GCFLIP_NO_OBJECT);
    }
    EXPECT(gcflip_words_read(&heap, 16, 0, found, 31) == GCFLIP_NO_FIELD && gcflip_words_read(&heap, 16, 1, found, 30) == GCFLIP_NO_FIELD);
    EXPECT(gcflip_words_read(&heap, 16, 31, found, 0) == GCFLIP_NO_FIELD && gcflip_words_read(&heap, 16, UINT32_MAX, found, 1) == GCFLIP_NO_FIELD);
    EXPECT(gcflip_words_write(&heap, 0, 16, 0, words + 1, 31) == GCFLIP_NO_FIELD && gcflip_words_write(&heap, 0, 16, 30, words, 1) == GCFLIP_NO_FIELD);
    EXPECT(gcflip_words_write(&heap, 0, 16, 31, words, 0) == GCFLIP_NO_FIELD && gcflip_words_write(&heap, 0, 16, UINT32_MAX, words, 1) == GCFLIP_NO_FIELD);
    EXPECT(gcflip_words_write(&heap, MUTATORS, 16, 0, words + 1, 1) == GCFLIP_OUT_OF_RANGE && found[0] == 77);
}

static void refusals(void)
{
    open_heap(60, GCFLIP_ALONG);
    EXPECT(gcflip_new_raw(&heap, 16, KIND, GCFLIP_WORD_FIELDS(30)) == GCFLIP_MADE && gcflip_words_write(&heap, 0, 16, 0, words, 30) == GCFLIP_DONE);
    EXPECT(gcflip_set_number(&heap, 1, 5) == GCFLIP_DONE && gcflip_new(&heap, 2, KIND, 1) == GCFLIP_MADE);
    expect_unchanged(refused_places, refused_numbers);
    has_words(16, words, 30);
    close_heap();
}

/* While a collection is open that has made so many steps, each field that changes is logged in the mutator's log, in order, and a flip sees them. */
static void while_open(uint8_t checking, uint32_t steps)
{
    static const uint16_t fields[] = {60, 61, 62, 63, 64, 65, 70, 71};
    gcflip_log_entry entry;
    size_t logged = 77;
    open_heap(MOST, checking);
    EXPECT(gcflip_new_raw(&heap, 16, KIND, GCFLIP_WORD_FIELDS(70)) == GCFLIP_MADE && gcflip_words_write(&heap, 0, 16, 0, words, 70) == GCFLIP_DONE); /* at 1 */
    EXPECT(gcflip_heap_step_begin(&heap) == GCFLIP_BEGUN);
    for (uint32_t k = 0; k < steps; k++)
        EXPECT(gcflip_heap_work(&heap, 1, &work) == GCFLIP_DONE && work.last != GCFLIP_FLIPPED);
    memcpy(wanted, words, 8 * 70);
    memcpy(wanted + 60, words + 101, 8 * 6);
    EXPECT(gcflip_words_write(&heap, 1, 16, 60, words + 101, 6) == GCFLIP_DONE && gcflip_words_write(&heap, 0, 16, 70, words, 0) == GCFLIP_DONE);
    EXPECT(gcflip_heap_log_length(&heap, 0, &logged) == GCFLIP_DONE && logged == 0);
    EXPECT(gcflip_heap_log_length(&heap, 1, &logged) == GCFLIP_DONE && logged == COUNT(fields));
    for (size_t k = 0; k < COUNT(fields); k++)
        EXPECT(gcflip_heap_log_entry(&heap, 1, k, &entry) == GCFLIP_DONE && entry.object == 1 && entry.field == fields[k]);
    is_spelled(16, wanted, 70);
    EXPECT(gcflip_heap_work(&heap, 1000, &work) == GCFLIP_DONE && work.last == GCFLIP_FLIPPED && work.pairs == 1);
    is_spelled(16, wanted, 70);
    EXPECT(gcflip_words_write(&heap, 0, 16, 60, words + 60, 6) == GCFLIP_DONE);
    is_spelled(16, words, 70);
    close_heap();
}

/* Numbers below 2^63, in each part of an object with so many fields. */
static void raws(uint32_t count)
{
    open_heap(2 * MOST, GCFLIP_ALONG);
    EXPECT(gcflip_new_raw(&heap, 16, KIND, count) == GCFLIP_MADE && gcflip_look(&heap, 0, &view) == GCFLIP_NIL);
    for (uint32_t at = 0; at <= count; at++)
        for (uint32_t n = 0; n <= count - at; n += 1 + n / 5) {
            for (uint32_t i = 0; i < count; i++)
                wanted[i] = words[i] >> 1;
            EXPECT(gcflip_raw_write(&heap, 0, 16, 0, wanted, count) == GCFLIP_DONE);
            for (uint32_t i = at; i < at + n; i++)
                wanted[i] = words[i + MOST] >> 1;
            EXPECT(gcflip_raw_write(&heap, 1, 16, at, wanted + at, n) == GCFLIP_DONE);
            for (uint32_t i = 0; i < count; i++)
                EXPECT(gcflip_peek(&heap, 16, i, &view) == GCFLIP_NUMBER && view.number == wanted[i]);
            found[n] = 77;
            EXPECT(gcflip_raw_read(&heap, 16, at, found, n) == GCFLIP_DONE && memcmp(found, wanted + at, 8 * n) == 0 && found[n] == 77);
        }
    EXPECT(gcflip_look(&heap, 0, &view) == GCFLIP_NIL && gcflip_look(&heap, 16, &view) == GCFLIP_RAW_OBJECT && view.kind == KIND && view.count == count);
    close_heap();
}

/* While a collection is open that has made so many steps, each number is logged in the mutator's log, in order, and a flip sees them. */
static void raws_while_open(uint8_t checking, uint32_t steps)
{
    const uint64_t three[] = {7, 0, (1ull << 63) - 1};
    gcflip_log_entry entry;
    size_t logged = 77;
    open_heap(MOST, checking);
    EXPECT(gcflip_new_raw(&heap, 16, KIND, 9) == GCFLIP_MADE); /* at 1 */
    EXPECT(gcflip_heap_step_begin(&heap) == GCFLIP_BEGUN);
    for (uint32_t k = 0; k < steps; k++)
        EXPECT(gcflip_heap_work(&heap, 1, &work) == GCFLIP_DONE && work.last != GCFLIP_FLIPPED);
    EXPECT(gcflip_raw_write(&heap, 1, 16, 6, three, 3) == GCFLIP_DONE && gcflip_raw_write(&heap, 0, 16, 9, three, 0) == GCFLIP_DONE);
    EXPECT(gcflip_heap_log_length(&heap, 0, &logged) == GCFLIP_DONE && logged == 0);
    EXPECT(gcflip_heap_log_length(&heap, 1, &logged) == GCFLIP_DONE && logged == 3);
    for (uint16_t k = 0; k < 3; k++)
        EXPECT(gcflip_heap_log_entry(&heap, 1, k, &entry) == GCFLIP_DONE && entry.object == 1 && entry.field == 6u + k);
    EXPECT(gcflip_heap_work(&heap, 1000, &work) == GCFLIP_DONE && work.last == GCFLIP_FLIPPED && work.pairs == 1);
    EXPECT(gcflip_raw_read(&heap, 16, 6, found, 3) == GCFLIP_DONE && memcmp(found, three, sizeof three) == 0);
    EXPECT(gcflip_raw_read(&heap, 16, 5, found, 1) == GCFLIP_DONE && found[0] == 0);
    close_heap();
}

/* A handle without a heap, before it is opened and after it is closed. */
static void closed(void)
{
    found[0] = 77;
    for (size_t k = 0; k < COUNT(beyond); k++) {
        const uint32_t p = beyond[k];
        EXPECT(gcflip_words_read(&heap, p, p, found, 1) == GCFLIP_CLOSED && gcflip_words_write(&heap, p, p, p, words, 1) == GCFLIP_CLOSED);
        EXPECT(gcflip_raw_read(&heap, p, p, found, 1) == GCFLIP_CLOSED && gcflip_raw_write(&heap, p, p, p, &five, 1) == GCFLIP_CLOSED);
    }
    EXPECT(heap.at == NULL && found[0] == 77);
}

int main(void)
{
    static const uint32_t counts_of[] = {0, 1, 2, 61, 62, 63, 64, 65, 125, 126, 127, 128, 130};
    fill_words();
    closed();
    for (size_t k = 0; k < COUNT(counts_of); k++)
        whole(counts_of[k]);
    for (size_t k = 0; k < COUNT(counts_of); k++) {
        parts(counts_of[k]);
        raws(counts_of[k]);
    }
    longest();
    made_otherwise();
    doubles();
    refusals();
    for (uint8_t checking = GCFLIP_ALONG; checking <= GCFLIP_AT_FLIP; checking++)
        for (uint32_t steps = 0; steps < STEPS; steps++) {
            while_open(checking, steps);
            raws_while_open(checking, steps);
        }
    closed();
    return 0;
}
