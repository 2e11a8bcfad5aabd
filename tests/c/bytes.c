/* Tests texts of bytes in raw objects: each length and each place within a text, each answer, and texts that are made, joined, parted and written while a
 * collection is open. */

enum { KIND = 3, MUTATORS = 2, EXTRA = 4, STEPS = 3 };

#include "by_places.h"

static uint8_t bytes[GCFLIP_MOST_BYTES + 1], found[GCFLIP_MOST_BYTES + 1];
static uint32_t length;
static int32_t order;

/* Fills `bytes` with numbers of which those with the highest bit are as many as the others. */
static void fill_bytes(void)
{
    uint32_t state = 1;
    for (size_t i = 0; i < sizeof bytes; i++) {
        state = state * 1664525 + 1013904223;
        bytes[i] = (uint8_t)(state >> 24);
    }
}

/* Expects that root s refers to a text with these bytes. */
static void has_bytes(uint32_t s, const uint8_t *wanted, uint32_t count)
{
    length = UINT32_MAX;
    EXPECT(gcflip_bytes_length(&heap, s, &length) == GCFLIP_DONE && length == count);
    memset(found, 77, count + 1);
    EXPECT(gcflip_bytes_read(&heap, s, 0, found, count) == GCFLIP_DONE && memcmp(found, wanted, count) == 0 && found[count] == 77);
}

/* The number that field i of the text with these bytes has. */
static uint64_t field_of(const uint8_t *text, uint32_t count, uint32_t i)
{
    uint64_t wanted = 7 * i + 7 >= count ? (uint64_t)(count - 7 * i) << 56 : 0;
    for (uint32_t k = 7 * i; k < count && k < 7 * i + 7; k++)
        wanted += (uint64_t)text[k] << 8 * (k - 7 * i);
    return wanted;
}

/* Expects that root s refers to an object of KIND that is spelled as the text with these bytes. */
static void is_spelled(uint32_t s, const uint8_t *wanted, uint32_t count)
{
    const uint32_t fields = (count + 6) / 7;
    EXPECT(gcflip_look(&heap, s, &view) == GCFLIP_RAW_OBJECT && view.kind == KIND && view.count == fields);
    for (uint32_t i = 0; i < fields; i++)
        EXPECT(gcflip_peek(&heap, s, i, &view) == GCFLIP_NUMBER && view.number == field_of(wanted, count, i));
    has_bytes(s, wanted, count);
}

/* Texts of this length: how their fields are spelled, and each part of them. */
static void spelled(uint32_t count)
{
    const uint32_t fields = (count + 6) / 7;
    open_heap(64, GCFLIP_ALONG);
    EXPECT(gcflip_new_bytes(&heap, 0, 16, KIND, bytes, count) == GCFLIP_MADE && gcflip_room(&heap) == 63 - fields - 2);
    is_spelled(16, bytes, count);
    for (uint32_t at = 0; at <= count; at++)
        for (uint32_t n = 0; n <= count - at; n++) {
            memset(found, 77, n + 1);
            EXPECT(gcflip_bytes_read(&heap, 16, at, found, n) == GCFLIP_DONE && memcmp(found, bytes + at, n) == 0 && found[n] == 77);
        }
    close_heap();
}

/* The longest text. */
static void longest(void)
{
    open_heap(70000, GCFLIP_ALONG);
    EXPECT(gcflip_new_bytes(&heap, 1, 0, KIND, bytes, GCFLIP_MOST_BYTES) == GCFLIP_MADE);
    has_bytes(0, bytes, GCFLIP_MOST_BYTES);
    EXPECT(gcflip_look(&heap, 0, &view) == GCFLIP_RAW_OBJECT && view.count == 65535);
    EXPECT(gcflip_new_bytes(&heap, 1, 1, KIND, bytes, GCFLIP_MOST_BYTES) == GCFLIP_FULL && gcflip_look(&heap, 1, &view) == GCFLIP_NIL);
    EXPECT(gcflip_new_bytes(&heap, 1, 1, KIND, bytes, GCFLIP_MOST_BYTES + 1) == GCFLIP_OUT_OF_RANGE);
    EXPECT(gcflip_heap_work(&heap, 200000, &work) == GCFLIP_DONE && work.last == GCFLIP_FLIPPED);
    has_bytes(0, bytes, GCFLIP_MOST_BYTES);
    close_heap();
}

static int sign(int n)
{
    return (n > 0) - (n < 0);
}

/* Compares two texts as the C library compares arrays. */
static void compared(const uint8_t *one, uint32_t n, const uint8_t *other, uint32_t m)
{
    const int first = memcmp(one, other, n < m ? n : m);
    const int wanted = first != 0 ? sign(first) : sign((int)n - (int)m);
    EXPECT(gcflip_new_bytes(&heap, 0, 0, KIND, one, n) == GCFLIP_MADE && gcflip_new_bytes(&heap, 0, 1, 255 - KIND, other, m) == GCFLIP_MADE);
    order = 77;
    EXPECT(gcflip_bytes_compare(&heap, 0, 1, &order) == GCFLIP_DONE && order == wanted);
    EXPECT(gcflip_bytes_same(&heap, 0, 1) == (wanted == 0 ? GCFLIP_SAME : GCFLIP_NOT_SAME));
}

/* Each pair of lengths, the same bytes but for one, and bytes of which the signed order would be another one. */
static void orders(void)
{
    static uint8_t other[32];
    for (uint32_t n = 0; n <= 24; n++)
        for (uint32_t m = 0; m <= 24; m++) {
            open_heap(64, GCFLIP_ALONG);
            compared(bytes, n, bytes, m);
            close_heap();
        }
    for (uint32_t at = 0; at < 22; at++)
        for (uint32_t n = 20; n <= 22; n++) {
            memcpy(other, bytes, 22);
            other[at] ^= 0x80;
            open_heap(64, GCFLIP_ALONG);
            compared(bytes, 22, other, n);
            close_heap();
        }
}

/* Each two lengths joined, and each part of a text: the result in a root of its own, or in that of a source. */
static void joins_and_parts(void)
{
    for (uint32_t n = 0; n <= 24; n++)
        for (uint32_t m = 0; m <= 24; m++)
            for (uint32_t d = 0; d < 3; d++) {
                open_heap(64, GCFLIP_ALONG);
                EXPECT(gcflip_new_bytes(&heap, 0, 0, 1, bytes, n) == GCFLIP_MADE && gcflip_new_bytes(&heap, 0, 1, 2, bytes + n, m) == GCFLIP_MADE);
                EXPECT(gcflip_bytes_join(&heap, 1, d, KIND, 0, 1) == GCFLIP_MADE);
                has_bytes(d, bytes, n + m);
                EXPECT(gcflip_look(&heap, d, &view) == GCFLIP_RAW_OBJECT && view.kind == KIND && view.count == (n + m + 6) / 7);
                if (d != 0)
                    has_bytes(0, bytes, n);
                if (d != 1)
                    has_bytes(1, bytes + n, m);
                close_heap();
            }
    for (uint32_t at = 0; at <= 24; at++)
        for (uint32_t n = 0; n <= 24 - at; n++)
            for (uint32_t d = 0; d < 2; d++) {
                open_heap(64, GCFLIP_ALONG);
                EXPECT(gcflip_new_bytes(&heap, 0, 0, 1, bytes, 24) == GCFLIP_MADE && gcflip_bytes_part(&heap, 1, d, KIND, 0, at, n) == GCFLIP_MADE);
                has_bytes(d, bytes + at, n);
                if (d != 0)
                    has_bytes(0, bytes, 24);
                close_heap();
            }
    open_heap(64, GCFLIP_ALONG);
    EXPECT(gcflip_new_bytes(&heap, 0, 0, 1, bytes, 20) == GCFLIP_MADE && gcflip_bytes_join(&heap, 0, 0, KIND, 0, 0) == GCFLIP_MADE);
    EXPECT(gcflip_bytes_part(&heap, 0, 1, KIND, 0, 20, 20) == GCFLIP_MADE);
    has_bytes(1, bytes, 20);
    close_heap();
    open_heap(70000, GCFLIP_ALONG);
    EXPECT(gcflip_new_bytes(&heap, 0, 0, 1, bytes, GCFLIP_MOST_BYTES - 8) == GCFLIP_MADE && gcflip_new_bytes(&heap, 0, 1, 1, bytes, 8) == GCFLIP_MADE);
    EXPECT(gcflip_bytes_join(&heap, 0, 2, KIND, 0, 1) == GCFLIP_FULL && gcflip_look(&heap, 2, &view) == GCFLIP_NIL);
    EXPECT(gcflip_bytes_part(&heap, 0, 2, KIND, 0, 0, GCFLIP_MOST_BYTES - 8) == GCFLIP_FULL && gcflip_look(&heap, 2, &view) == GCFLIP_NIL);
    EXPECT(gcflip_bytes_same(&heap, 0, 1) == GCFLIP_NOT_SAME);
    EXPECT(gcflip_new_bytes(&heap, 0, 1, 1, bytes, 9) == GCFLIP_MADE && gcflip_bytes_join(&heap, 0, 2, KIND, 0, 1) == GCFLIP_OUT_OF_RANGE);
    close_heap();
}

/* Other bytes over each part of texts of this length, between two others. The bytes behind those that are passed differ from those of the text. */
static void written(uint32_t count)
{
    static uint8_t wanted[64];
    for (uint32_t at = 0; at <= count; at++)
        for (uint32_t n = 0; n <= count - at; n++) {
            open_heap(64, GCFLIP_ALONG);
            EXPECT(gcflip_new_bytes(&heap, 0, 0, KIND, bytes + 90, 9) == GCFLIP_MADE && gcflip_new_bytes(&heap, 0, 16, KIND, bytes, count) == GCFLIP_MADE);
            EXPECT(gcflip_new_bytes(&heap, 0, 1, KIND, bytes + 80, 9) == GCFLIP_MADE);
            memcpy(wanted, bytes, count);
            memcpy(wanted + at, bytes + 40, n);
            EXPECT(gcflip_bytes_write(&heap, 1, 16, at, bytes + 40, n) == GCFLIP_DONE);
            is_spelled(16, wanted, count);
            is_spelled(0, bytes + 90, 9);
            is_spelled(1, bytes + 80, 9);
            EXPECT(gcflip_bytes_write(&heap, 0, 16, 0, bytes, count) == GCFLIP_DONE);
            is_spelled(16, bytes, count);
            close_heap();
        }
}

/* The longest text, written whole. */
static void written_whole(void)
{
    open_heap(70000, GCFLIP_ALONG);
    EXPECT(gcflip_new_bytes(&heap, 1, 0, KIND, bytes, GCFLIP_MOST_BYTES) == GCFLIP_MADE);
    EXPECT(gcflip_heap_step_begin(&heap) == GCFLIP_BEGUN);
    EXPECT(gcflip_bytes_write(&heap, 1, 0, 0, bytes + 1, GCFLIP_MOST_BYTES) == GCFLIP_DONE);
    is_spelled(0, bytes + 1, GCFLIP_MOST_BYTES);
    EXPECT(gcflip_heap_work(&heap, 500000, &work) == GCFLIP_DONE && work.last == GCFLIP_FLIPPED);
    is_spelled(0, bytes + 1, GCFLIP_MOST_BYTES);
    EXPECT(gcflip_bytes_write(&heap, 0, 0, 0, bytes, GCFLIP_MOST_BYTES + 1) == GCFLIP_OUT_OF_RANGE);
    EXPECT(gcflip_bytes_write(&heap, 0, 0, 1, bytes, GCFLIP_MOST_BYTES) == GCFLIP_NO_FIELD);
    has_bytes(0, bytes + 1, GCFLIP_MOST_BYTES);
    close_heap();
}

/* A text that was made otherwise, with bits that are none of its bytes: the fields that change lose them, and the others keep them. */
static void written_otherwise(void)
{
    static const uint64_t odd[] = {(1ull << 63) - 1, (1ull << 63) - 1, (1ull << 62) + 5, (2ull << 56) + (1ull << 56) - 1};
    open_heap(64, GCFLIP_ALONG);
    EXPECT(gcflip_new_raw(&heap, 0, KIND, COUNT(odd)) == GCFLIP_MADE);
    for (uint32_t i = 0; i < COUNT(odd); i++)
        EXPECT(gcflip_put_number(&heap, 0, 0, i, odd[i]) == GCFLIP_DONE);
    EXPECT(gcflip_bytes_write(&heap, 0, 0, 8, (const uint8_t *)"ab", 2) == GCFLIP_DONE);
    EXPECT(gcflip_get(&heap, 15, 0, 0, &number) == GCFLIP_NUMBER && number == odd[0]);
    EXPECT(gcflip_peek(&heap, 0, 1, &view) == GCFLIP_NUMBER && view.number == 0xffffffff6261ff);
    EXPECT(gcflip_peek(&heap, 0, 2, &view) == GCFLIP_NUMBER && view.number == odd[2]);
    EXPECT(gcflip_peek(&heap, 0, 3, &view) == GCFLIP_NUMBER && view.number == odd[3]);
    EXPECT(gcflip_bytes_write(&heap, 0, 0, 22, (const uint8_t *)"c", 1) == GCFLIP_DONE);
    EXPECT(gcflip_peek(&heap, 0, 2, &view) == GCFLIP_NUMBER && view.number == odd[2]);
    EXPECT(gcflip_peek(&heap, 0, 3, &view) == GCFLIP_NUMBER && view.number == (2ull << 56) + 0x63ff);
    has_bytes(0, (const uint8_t *)"\xff\xff\xff\xff\xff\xff\xff\xff" "ab\xff\xff\xff\xff\x05\0\0\0\0\0\0\xff" "c", 23);
    close_heap();
}

/* Raw objects that were made otherwise: only the last field tells whether one is a text, and no other bit above the bytes counts. */
static void made_otherwise(void)
{
    static const uint64_t wrong[] = {0, 255, (1ull << 56) - 1, 8ull << 56, 9ull << 56, 16ull << 56, 127ull << 56};
    open_heap(64, GCFLIP_ALONG);
    EXPECT(gcflip_new_raw(&heap, 0, KIND, 2) == GCFLIP_MADE);
    length = 77;
    for (size_t k = 0; k < COUNT(wrong); k++) {
        EXPECT(gcflip_put_number(&heap, 0, 0, 1, wrong[k]) == GCFLIP_DONE);
        EXPECT(gcflip_bytes_length(&heap, 0, &length) == GCFLIP_NO_OBJECT && length == 77);
        EXPECT(gcflip_bytes_read(&heap, 0, 0, found, 0) == GCFLIP_NO_OBJECT);
    }
    EXPECT(gcflip_put_number(&heap, 0, 0, 0, (1ull << 63) - 1) == GCFLIP_DONE);
    EXPECT(gcflip_put_number(&heap, 0, 0, 1, (1ull << 56) + 0xfffffe) == GCFLIP_DONE);
    has_bytes(0, (const uint8_t *)"\xff\xff\xff\xff\xff\xff\xff\xfe", 8);
    EXPECT(gcflip_new_bytes(&heap, 0, 1, KIND, (const uint8_t *)"\xff\xff\xff\xff\xff\xff\xff\xfe", 8) == GCFLIP_MADE);
    EXPECT(gcflip_bytes_same(&heap, 0, 1) == GCFLIP_SAME);
    EXPECT(gcflip_bytes_compare(&heap, 0, 1, &order) == GCFLIP_DONE && order == 0);
    EXPECT(gcflip_new_raw(&heap, 2, KIND, 0) == GCFLIP_MADE);
    has_bytes(2, bytes, 0);
    close_heap();
}

static void refused_places(uint32_t p)
{
    length = 77;
    order = 77;
    memset(found, 77, 2);
    EXPECT(gcflip_new_bytes(&heap, 0, p, KIND, bytes, 1) == GCFLIP_OUT_OF_RANGE && gcflip_new_bytes(&heap, p, 0, KIND, bytes, 1) == GCFLIP_OUT_OF_RANGE);
    EXPECT(gcflip_bytes_length(&heap, p, &length) == GCFLIP_OUT_OF_RANGE && gcflip_bytes_read(&heap, p, 0, found, 1) == GCFLIP_OUT_OF_RANGE);
    EXPECT(gcflip_bytes_same(&heap, p, 16) == GCFLIP_OUT_OF_RANGE && gcflip_bytes_same(&heap, 16, p) == GCFLIP_OUT_OF_RANGE);
    EXPECT(gcflip_bytes_compare(&heap, p, 16, &order) == GCFLIP_OUT_OF_RANGE && gcflip_bytes_compare(&heap, 16, p, &order) == GCFLIP_OUT_OF_RANGE);
    EXPECT(gcflip_bytes_join(&heap, 0, p, KIND, 16, 16) == GCFLIP_OUT_OF_RANGE && gcflip_bytes_join(&heap, p, 0, KIND, 16, 16) == GCFLIP_OUT_OF_RANGE);
    EXPECT(gcflip_bytes_join(&heap, 0, 0, KIND, p, 16) == GCFLIP_OUT_OF_RANGE && gcflip_bytes_join(&heap, 0, 0, KIND, 16, p) == GCFLIP_OUT_OF_RANGE);
    EXPECT(gcflip_bytes_part(&heap, 0, p, KIND, 16, 0, 1) == GCFLIP_OUT_OF_RANGE && gcflip_bytes_part(&heap, p, 0, KIND, 16, 0, 1) == GCFLIP_OUT_OF_RANGE);
    EXPECT(gcflip_bytes_part(&heap, 0, 0, KIND, p, 0, 1) == GCFLIP_OUT_OF_RANGE);
    EXPECT(gcflip_bytes_write(&heap, 0, p, 0, bytes, 1) == GCFLIP_OUT_OF_RANGE && gcflip_bytes_write(&heap, p, 16, 0, bytes + 1, 1) == GCFLIP_OUT_OF_RANGE);
    EXPECT(length == 77 && order == 77 && found[0] == 77);
}

static void refused_numbers(void)
{
    EXPECT(gcflip_new_bytes(&heap, MUTATORS, 0, KIND, bytes, 1) == GCFLIP_OUT_OF_RANGE && gcflip_new_bytes(&heap, 0, 0, 256, bytes, 1) == GCFLIP_OUT_OF_RANGE);
    EXPECT(gcflip_new_bytes(&heap, 0, 0, UINT32_MAX, bytes, 1) == GCFLIP_OUT_OF_RANGE);
    EXPECT(gcflip_new_bytes(&heap, 0, 0, KIND, bytes, GCFLIP_MOST_BYTES + 1) == GCFLIP_OUT_OF_RANGE);
    EXPECT(gcflip_new_bytes(&heap, 0, 0, KIND, bytes, GCFLIP_MOST_BYTES) == GCFLIP_FULL);
    length = 77;
    order = 77;
    memset(found, 77, 31);
    for (uint32_t p = 0; p < 3; p++) { /* nil, a number, an object that is not raw */
        EXPECT(gcflip_bytes_length(&heap, p, &length) == GCFLIP_NO_OBJECT && gcflip_bytes_read(&heap, p, 0, found, 0) == GCFLIP_NO_OBJECT);
        EXPECT(gcflip_bytes_same(&heap, p, 16) == GCFLIP_NO_OBJECT && gcflip_bytes_same(&heap, 16, p) == GCFLIP_NO_OBJECT);
        EXPECT(gcflip_bytes_compare(&heap, p, 16, &order) == GCFLIP_NO_OBJECT && gcflip_bytes_compare(&heap, 16, p, &order) == GCFLIP_NO_OBJECT);
        EXPECT(gcflip_bytes_join(&heap, 0, 0, KIND, p, 16) == GCFLIP_NO_OBJECT && gcflip_bytes_join(&heap, 0, 0, KIND, 16, p) == GCFLIP_NO_OBJECT);
        EXPECT(gcflip_bytes_part(&heap, 0, 0, KIND, p, 0, 0) == GCFLIP_NO_OBJECT);
        EXPECT(gcflip_bytes_write(&heap, 0, p, 0, bytes, 0) == GCFLIP_NO_OBJECT && gcflip_bytes_write(&heap, 0, p, 0, bytes + 1, 1) == GCFLIP_NO_OBJECT);
    }
    EXPECT(gcflip_bytes_part(&heap, 0, 0, KIND, 16, 0, 31) == GCFLIP_NO_FIELD && gcflip_bytes_part(&heap, 0, 0, KIND, 16, 31, 0) == GCFLIP_NO_FIELD);
    EXPECT(gcflip_bytes_part(&heap, 0, 0, KIND, 16, 1, UINT32_MAX) == GCFLIP_NO_FIELD);
    EXPECT(gcflip_bytes_part(&heap, 0, 0, KIND, 16, UINT32_MAX, 1) == GCFLIP_NO_FIELD);
    EXPECT(gcflip_bytes_write(&heap, 0, 16, 0, bytes + 1, 31) == GCFLIP_NO_FIELD && gcflip_bytes_write(&heap, 0, 16, 30, bytes, 1) == GCFLIP_NO_FIELD);
    EXPECT(gcflip_bytes_write(&heap, 0, 16, 31, bytes, 0) == GCFLIP_NO_FIELD && gcflip_bytes_write(&heap, 0, 16, UINT32_MAX, bytes, 1) == GCFLIP_NO_FIELD);
    EXPECT(gcflip_bytes_write(&heap, 0, 16, 0, bytes + 1, GCFLIP_MOST_BYTES) == GCFLIP_NO_FIELD);
    EXPECT(gcflip_bytes_write(&heap, 0, 16, 0, bytes, GCFLIP_MOST_BYTES + 1) == GCFLIP_OUT_OF_RANGE);
    EXPECT(gcflip_bytes_write(&heap, MUTATORS, 16, 0, bytes + 1, 1) == GCFLIP_OUT_OF_RANGE);
    EXPECT(gcflip_bytes_join(&heap, 0, 0, 256, 16, 16) == GCFLIP_OUT_OF_RANGE && gcflip_bytes_join(&heap, MUTATORS, 0, KIND, 16, 16) == GCFLIP_OUT_OF_RANGE);
    EXPECT(gcflip_bytes_part(&heap, 0, 0, 256, 16, 0, 1) == GCFLIP_OUT_OF_RANGE);
    EXPECT(gcflip_bytes_part(&heap, MUTATORS, 0, KIND, 16, 0, 1) == GCFLIP_OUT_OF_RANGE);
    EXPECT(gcflip_bytes_read(&heap, 16, 0, found, 31) == GCFLIP_NO_FIELD && gcflip_bytes_read(&heap, 16, 1, found, 30) == GCFLIP_NO_FIELD);
    EXPECT(gcflip_bytes_read(&heap, 16, 31, found, 0) == GCFLIP_NO_FIELD && gcflip_bytes_read(&heap, 16, UINT32_MAX, found, 1) == GCFLIP_NO_FIELD);
    EXPECT(length == 77 && order == 77 && found[0] == 77 && found[30] == 77);
}

static void refusals(void)
{
    open_heap(60, GCFLIP_ALONG);
    EXPECT(gcflip_new_bytes(&heap, 0, 16, KIND, bytes, 30) == GCFLIP_MADE);
    EXPECT(gcflip_set_number(&heap, 1, 5) == GCFLIP_DONE && gcflip_new(&heap, 2, KIND, 1) == GCFLIP_MADE);
    expect_unchanged(refused_places, refused_numbers);
    has_bytes(16, bytes, 30);
    close_heap();
}

/* While a collection is open that has made so many steps, each field is logged in the mutator's log, in order, and a flip sees them. */
static void while_open(uint8_t checking, uint32_t steps)
{
    static uint8_t changed[50];
    gcflip_log_entry entry;
    size_t logged = 77;
    open_heap(160, checking);
    EXPECT(gcflip_new_bytes(&heap, 0, 16, KIND, bytes, 50) == GCFLIP_MADE); /* at 1 */
    EXPECT(gcflip_heap_step_begin(&heap) == GCFLIP_BEGUN);
    for (uint32_t k = 0; k < steps; k++)
        EXPECT(gcflip_heap_work(&heap, 1, &work) == GCFLIP_DONE && work.last != GCFLIP_FLIPPED);
    EXPECT(gcflip_new_bytes(&heap, 1, SLOTS, KIND, bytes + 7, 20) == GCFLIP_MADE); /* at 11 */
    EXPECT(gcflip_heap_log_length(&heap, 1, &logged) == GCFLIP_DONE && logged == 3);
    for (size_t k = 0; k < 3; k++)
        EXPECT(gcflip_heap_log_entry(&heap, 1, k, &entry) == GCFLIP_DONE && entry.object == 11 && entry.field == k);
    memcpy(changed, bytes, 50);
    memcpy(changed + 5, bytes + 100, 12);
    EXPECT(gcflip_bytes_write(&heap, 1, 16, 5, bytes + 100, 12) == GCFLIP_DONE && gcflip_bytes_write(&heap, 0, 16, 50, bytes, 0) == GCFLIP_DONE);
    EXPECT(gcflip_heap_log_length(&heap, 0, &logged) == GCFLIP_DONE && logged == 0);
    EXPECT(gcflip_heap_log_length(&heap, 1, &logged) == GCFLIP_DONE && logged == 6);
    for (size_t k = 3; k < 6; k++)
        EXPECT(gcflip_heap_log_entry(&heap, 1, k, &entry) == GCFLIP_DONE && entry.object == 1 && entry.field == k - 3);
    EXPECT(gcflip_bytes_join(&heap, 0, 0, KIND, 16, SLOTS) == GCFLIP_MADE && gcflip_bytes_part(&heap, 0, 1, KIND, 0, 45, 20) == GCFLIP_MADE);
    is_spelled(16, changed, 50);
    has_bytes(SLOTS, bytes + 7, 20);
    EXPECT(gcflip_heap_work(&heap, 1000, &work) == GCFLIP_DONE && work.last == GCFLIP_FLIPPED && work.pairs == 4);
    is_spelled(16, changed, 50);
    EXPECT(gcflip_bytes_write(&heap, 0, 16, 5, bytes + 5, 12) == GCFLIP_DONE);
    is_spelled(16, bytes, 50);
    has_bytes(SLOTS, bytes + 7, 20);
    EXPECT(gcflip_bytes_read(&heap, 0, 50, found, 20) == GCFLIP_DONE && memcmp(found, bytes + 7, 20) == 0);
    EXPECT(gcflip_bytes_read(&heap, 1, 0, found, 20) == GCFLIP_DONE && memcmp(found, bytes + 45, 5) == 0 && memcmp(found + 5, bytes + 7, 15) == 0);
    close_heap();
}

/* A handle without a heap, before it is opened and after it is closed. */
static void closed(void)
{
    length = 77;
    order = 77;
    memset(found, 77, 1);
    for (size_t k = 0; k < COUNT(beyond); k++) {
        const uint32_t p = beyond[k];
        EXPECT(gcflip_new_bytes(&heap, p, p, p, bytes, 1) == GCFLIP_CLOSED && gcflip_bytes_length(&heap, p, &length) == GCFLIP_CLOSED);
        EXPECT(gcflip_bytes_read(&heap, p, p, found, 1) == GCFLIP_CLOSED && gcflip_bytes_same(&heap, p, p) == GCFLIP_CLOSED);
        EXPECT(gcflip_bytes_compare(&heap, p, p, &order) == GCFLIP_CLOSED && gcflip_bytes_join(&heap, p, p, p, p, p) == GCFLIP_CLOSED);
        EXPECT(gcflip_bytes_part(&heap, p, p, p, p, p, p) == GCFLIP_CLOSED && gcflip_bytes_write(&heap, p, p, p, bytes, 1) == GCFLIP_CLOSED);
    }
    EXPECT(heap.at == NULL && length == 77 && order == 77 && found[0] == 77);
}

int main(void)
{
    fill_bytes();
    closed();
    for (uint32_t count = 0; count <= 30; count++)
        spelled(count);
    longest();
    orders();
    joins_and_parts();
    for (uint32_t count = 0; count <= 24; count++)
        written(count);
    written_whole();
    written_otherwise();
    made_otherwise();
    refusals();
    for (uint8_t checking = GCFLIP_ALONG; checking <= GCFLIP_AT_FLIP; checking++)
        for (uint32_t steps = 0; steps < STEPS; steps++)
            while_open(checking, steps);
    closed();
    return 0;
}
