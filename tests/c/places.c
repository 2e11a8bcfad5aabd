/* Tests the commands on roots by their places, with each answer but that of a failed allocation: which root a place is, which numbers are out of range or
 * name no field, whose log has an entry, and that a collection sees what they write. */

enum { KIND = 3, MUTATORS = 3, EXTRA = 8 };

#include "by_places.h"

/* Expects that the root at place p holds this number. */
static void holds(uint32_t p, uint64_t wanted)
{
    EXPECT(gcflip_look(&heap, p, &view) == GCFLIP_NUMBER && view.number == wanted && view.kind == 0 && view.count == 0);
}

/* Returns the slot by which mutator m names the root at place p: first its own, then the shared ones. */
static uint8_t slot_of(uint32_t p)
{
    return (uint8_t)(p < 16 ? 16 + p : p % 16);
}

static uint8_t mutator_of(uint32_t p)
{
    return (uint8_t)(p < 16 ? 0 : p / 16 - 1);
}

/* Each place is the root with that number in an image, and the slot or the extra root that the header says. */
static void roots(void)
{
    uint64_t words[1], image[PLACES];
    open_heap(64, GCFLIP_ALONG);
    EXPECT(gcflip_heap_root_count(MUTATORS) == SLOTS);
    for (uint32_t p = 0; p < PLACES; p++)
        EXPECT(gcflip_set_number(&heap, p, 1000 + p) == GCFLIP_DONE);
    EXPECT(gcflip_heap_image(&heap, words, 1, image, PLACES) == GCFLIP_DONE);
    for (uint32_t p = 0; p < PLACES; p++) {
        holds(p, 1000 + p);
        EXPECT(image[p] == 2 * (1000 + p) + 1);
    }
    for (uint32_t p = 0; p < SLOTS; p++)
        EXPECT(gcflip_heap_look(&heap, mutator_of(p), slot_of(p), &view) == GCFLIP_NUMBER && view.number == 1000 + p);
    for (uint32_t k = 0; k < EXTRA; k++) {
        EXPECT(gcflip_heap_root_load(&heap, 1, 0, k) == GCFLIP_DONE);
        holds(32, 1000 + SLOTS + k);
    }
    for (uint32_t p = 0; p < SLOTS; p++) {
        EXPECT(gcflip_heap_set_number(&heap, mutator_of(p), slot_of(p), 2000 + p) == GCFLIP_DONE);
        holds(p, 2000 + p);
    }
    close_heap();
}

/* No place is cut to 8 bits: with 16 mutators, 255 and 256 are slots of two of them. */
static void many_slots(void)
{
    open_heap_with(8, 16, 0, GCFLIP_ALONG);
    EXPECT(gcflip_set_number(&heap, 255, 5) == GCFLIP_DONE && gcflip_set_number(&heap, 256, 6) == GCFLIP_DONE);
    EXPECT(gcflip_heap_look(&heap, 14, 15, &view) == GCFLIP_NUMBER && view.number == 5);
    EXPECT(gcflip_heap_look(&heap, 15, 0, &view) == GCFLIP_NUMBER && view.number == 6);
    EXPECT(gcflip_look(&heap, 0, &view) == GCFLIP_NIL);
    EXPECT(gcflip_copy(&heap, 271, 256) == GCFLIP_DONE && gcflip_copy(&heap, 272, 256) == GCFLIP_OUT_OF_RANGE);
    holds(271, 6);
    close_heap();
    open_heap_with(8, 1, 0, GCFLIP_ALONG);
    EXPECT(gcflip_set_number(&heap, 31, 7) == GCFLIP_DONE && gcflip_set_number(&heap, 32, 7) == GCFLIP_OUT_OF_RANGE);
    EXPECT(gcflip_heap_look(&heap, 0, 15, &view) == GCFLIP_NUMBER && view.number == 7);
    EXPECT(gcflip_look(&heap, 16, &view) == GCFLIP_NIL && gcflip_look(&heap, 15, &view) == GCFLIP_NIL);
    /* slots of mutators that the heap has not */
    EXPECT(gcflip_look(&heap, 255, &view) == GCFLIP_OUT_OF_RANGE && gcflip_look(&heap, 256, &view) == GCFLIP_OUT_OF_RANGE);
    EXPECT(gcflip_set_nil(&heap, 255) == GCFLIP_OUT_OF_RANGE && gcflip_copy(&heap, 256, 31) == GCFLIP_OUT_OF_RANGE && gcflip_copy(&heap, 31, 47) == GCFLIP_OUT_OF_RANGE);
    close_heap();
    open_heap_with(8, 1, 1048576, GCFLIP_ALONG);
    EXPECT(gcflip_set_number(&heap, 1048607, 8) == GCFLIP_DONE && gcflip_set_number(&heap, 1048608, 8) == GCFLIP_OUT_OF_RANGE);
    EXPECT(gcflip_heap_root_load(&heap, 0, 0, 1048575) == GCFLIP_DONE);
    holds(16, 8);
    close_heap();
}

/* Expects what a call returns. */
static void returns(gcflip_seen seen, uint32_t answer, uint32_t kind, uint32_t count, uint64_t told)
{
    EXPECT(sizeof seen == 16 && seen.answer == answer && seen.kind == kind && seen.count == count && seen.number == told);
}

/* Expects that a peek gives this answer and sees this; where it gives no value, that it leaves the output alone, and returns none. */
static void sees(uint32_t s, uint32_t i, uint32_t answer, uint32_t kind, uint32_t count, uint64_t seen)
{
    int is_value = answer >= GCFLIP_NIL;
    view = (gcflip_view){77, 77, 77};
    EXPECT(gcflip_peek(&heap, s, i, &view) == answer && view.kind == kind && view.count == count && view.number == seen);
    returns(gcflip_peek_seen(&heap, s, i), answer, is_value ? kind : 0, is_value ? count : 0, is_value ? seen : 0);
}

/* Each reply, with roots of all three sorts. */
static void replies(void)
{
    const uint32_t shared = 2, own = 16 + 16 + 3, extra = SLOTS + 4;
    open_heap(20, GCFLIP_ALONG);
    EXPECT(gcflip_new(&heap, extra, KIND, 2) == GCFLIP_MADE);
    EXPECT(gcflip_look(&heap, extra, &view) == GCFLIP_OBJECT && view.kind == KIND && view.count == 2 && view.number == 0);
    EXPECT(gcflip_look(&heap, own, &view) == GCFLIP_NIL && view.kind == 0 && view.count == 0 && view.number == 0);
    EXPECT(gcflip_copy(&heap, own, extra) == GCFLIP_DONE);
    EXPECT(gcflip_same(&heap, own, extra) == GCFLIP_SAME && gcflip_same(&heap, own, shared) == GCFLIP_NOT_SAME);
    EXPECT(gcflip_set_number(&heap, shared, 9223372036854775807u) == GCFLIP_DONE);
    EXPECT(gcflip_put(&heap, 0, own, 0, shared) == GCFLIP_DONE && gcflip_put(&heap, 2, extra, 1, own) == GCFLIP_DONE);
    sees(extra, 1, GCFLIP_OBJECT, KIND, 2, 0);
    sees(extra, 0, GCFLIP_NUMBER, 0, 0, 9223372036854775807u);
    number = 77;
    EXPECT(gcflip_get(&heap, SLOTS, extra, 1, &number) == GCFLIP_OBJECT && number == 77);
    EXPECT(gcflip_same(&heap, SLOTS, own) == GCFLIP_SAME);
    EXPECT(gcflip_get(&heap, 63, own, 0, &number) == GCFLIP_NUMBER && number == 9223372036854775807u);
    holds(63, number);
    EXPECT(gcflip_put(&heap, 1, own, 0, 0) == GCFLIP_DONE);
    number = 77;
    EXPECT(gcflip_get(&heap, 63, own, 0, &number) == GCFLIP_NIL && number == 77);
    EXPECT(gcflip_look(&heap, 63, &view) == GCFLIP_NIL);
    sees(own, 0, GCFLIP_NIL, 0, 0, 0);
    EXPECT(gcflip_get(&heap, 63, shared, 0, &number) == GCFLIP_NO_OBJECT && gcflip_put(&heap, 0, shared, 0, own) == GCFLIP_NO_OBJECT);
    EXPECT(gcflip_get(&heap, 63, own, 2, &number) == GCFLIP_NO_FIELD && gcflip_put(&heap, 0, own, 2, own) == GCFLIP_NO_FIELD);
    sees(shared, 0, GCFLIP_NO_OBJECT, 77, 77, 77);
    sees(63, 0, GCFLIP_NO_OBJECT, 77, 77, 77); /* nil */
    sees(own, 2, GCFLIP_NO_FIELD, 77, 77, 77);
    EXPECT(gcflip_heap_new_raw(&heap, 0, 0, KIND, 1) == GCFLIP_MADE);
    EXPECT(gcflip_look(&heap, 16, &view) == GCFLIP_RAW_OBJECT && view.kind == KIND && view.count == 1);
    EXPECT(gcflip_put(&heap, 0, 16, 0, own) == GCFLIP_NO_NUMBER && gcflip_put(&heap, 0, 16, 0, shared) == GCFLIP_DONE);
    EXPECT(gcflip_get(&heap, 63, 16, 0, &number) == GCFLIP_NUMBER && number == 9223372036854775807u);
    EXPECT(gcflip_put(&heap, 0, own, 0, 16) == GCFLIP_DONE);
    number = 77;
    EXPECT(gcflip_get(&heap, 63, own, 0, &number) == GCFLIP_OBJECT && number == 77); /* raw, which get does not show */
    sees(own, 0, GCFLIP_RAW_OBJECT, KIND, 1, 0);
    EXPECT(gcflip_peek(&heap, own, 0, &view) == GCFLIP_RAW_OBJECT && gcflip_peek(&heap, own, 1, &view) == GCFLIP_OBJECT);
    EXPECT(gcflip_peek(&heap, shared, 0, &view) == GCFLIP_NO_OBJECT && gcflip_peek(&heap, own, 2, &view) == GCFLIP_NO_FIELD);
    EXPECT(gcflip_put_nil(&heap, 0, 16, 0) == GCFLIP_NO_NUMBER && gcflip_put_nil(&heap, 0, shared, 0) == GCFLIP_NO_OBJECT);
    EXPECT(gcflip_put_nil(&heap, 0, own, 2) == GCFLIP_NO_FIELD && gcflip_put_number(&heap, 0, own, 2, 5) == GCFLIP_NO_FIELD);
    EXPECT(gcflip_put_number(&heap, 0, shared, 0, 5) == GCFLIP_NO_OBJECT);
    sees(16, 0, GCFLIP_NUMBER, 0, 0, 9223372036854775807u);
    EXPECT(gcflip_get(&heap, own, own, 1, &number) == GCFLIP_OBJECT && gcflip_same(&heap, own, extra) == GCFLIP_SAME);
    EXPECT(gcflip_new(&heap, extra, KIND, 11) == GCFLIP_FULL && gcflip_same(&heap, own, extra) == GCFLIP_SAME);
    EXPECT(gcflip_new(&heap, extra, 255, 10) == GCFLIP_MADE && gcflip_look(&heap, extra, &view) == GCFLIP_OBJECT);
    EXPECT(view.kind == 255 && view.count == 10 && gcflip_new(&heap, 0, 0, 0) == GCFLIP_FULL);
    close_heap();
}

/* A range of roots becomes nil, across slots of several mutators and extra roots, and no other root. */
static void cleared(void)
{
    const uint32_t ranges[][2] = {{0, 0}, {5, 6}, {14, 18}, {30, SLOTS + 2}, {SLOTS + 3, SLOTS + 3}, {0, SLOTS + 8}};
    open_heap_with(20, (SLOTS - 16) / 16, 8, GCFLIP_ALONG);
    for (size_t k = 0; k < COUNT(ranges); k++) {
        for (uint32_t p = 0; p < SLOTS + 8; p++)
            EXPECT(gcflip_set_number(&heap, p, p) == GCFLIP_DONE);
        EXPECT(gcflip_clear(&heap, ranges[k][0], ranges[k][1]) == GCFLIP_DONE);
        for (uint32_t p = 0; p < SLOTS + 8; p++) {
            int is_nil = p >= ranges[k][0] && p < ranges[k][1];
            returns(gcflip_look_seen(&heap, p), is_nil ? GCFLIP_NIL : GCFLIP_NUMBER, 0, 0, is_nil ? 0 : p);
        }
    }
    EXPECT(gcflip_set_number(&heap, 4, 9) == GCFLIP_DONE);
    EXPECT(gcflip_clear(&heap, 5, 4) == GCFLIP_OUT_OF_RANGE && gcflip_clear(&heap, 0, SLOTS + 9) == GCFLIP_OUT_OF_RANGE);
    EXPECT(gcflip_clear(&heap, SLOTS + 9, SLOTS + 9) == GCFLIP_OUT_OF_RANGE && gcflip_clear(&heap, UINT32_MAX, UINT32_MAX) == GCFLIP_OUT_OF_RANGE);
    EXPECT(gcflip_clear(&heap, SLOTS + 8, SLOTS + 8) == GCFLIP_DONE && gcflip_clear(&heap, 0, UINT32_MAX) == GCFLIP_OUT_OF_RANGE);
    returns(gcflip_look_seen(&heap, 4), GCFLIP_NUMBER, 0, 0, 9);
    /* a reference that is gone keeps nothing alive, also while a collection is open */
    EXPECT(gcflip_new(&heap, SLOTS + 7, KIND, 3) == GCFLIP_MADE && gcflip_copy(&heap, 3, SLOTS + 7) == GCFLIP_DONE);
    EXPECT(gcflip_heap_step_begin(&heap) == GCFLIP_BEGUN && gcflip_clear(&heap, 0, SLOTS + 8) == GCFLIP_DONE);
    EXPECT(gcflip_heap_work(&heap, 1000, &work) == GCFLIP_DONE && work.last == GCFLIP_FLIPPED && gcflip_room(&heap) == 19);
    close_heap();
    EXPECT(gcflip_clear(&heap, 0, 0) == GCFLIP_CLOSED && gcflip_clear(&heap, 1, 0) == GCFLIP_CLOSED);
}

/* What a look and a get return. A get does not tell of an object, and d takes the value. */
static void returned(void)
{
    const uint32_t number_max = SLOTS + 1, pair = 20, raw = 3, d = SLOTS + 5;
    open_heap(20, GCFLIP_ALONG);
    EXPECT(gcflip_set_number(&heap, number_max, 9223372036854775807u) == GCFLIP_DONE && gcflip_new(&heap, pair, 255, 3) == GCFLIP_MADE);
    EXPECT(gcflip_new_raw(&heap, raw, KIND, 2) == GCFLIP_MADE && gcflip_put(&heap, 0, pair, 0, number_max) == GCFLIP_DONE);
    EXPECT(gcflip_put(&heap, 0, pair, 1, raw) == GCFLIP_DONE && gcflip_put_number(&heap, 0, raw, 1, 9) == GCFLIP_DONE);
    returns(gcflip_look_seen(&heap, d), GCFLIP_NIL, 0, 0, 0);
    returns(gcflip_look_seen(&heap, number_max), GCFLIP_NUMBER, 0, 0, 9223372036854775807u);
    returns(gcflip_look_seen(&heap, pair), GCFLIP_OBJECT, 255, 3, 0);
    returns(gcflip_look_seen(&heap, raw), GCFLIP_RAW_OBJECT, KIND, 2, 0);
    EXPECT(gcflip_put(&heap, 1, raw, 0, number_max) == GCFLIP_DONE && gcflip_new(&heap, 4, 7, 1) == GCFLIP_MADE && gcflip_put(&heap, 1, 4, 0, pair) == GCFLIP_DONE);
    returns(gcflip_peek_seen(&heap, pair, 0), GCFLIP_NUMBER, 0, 0, 9223372036854775807u);
    returns(gcflip_peek_seen(&heap, pair, 1), GCFLIP_RAW_OBJECT, KIND, 2, 0);
    returns(gcflip_peek_seen(&heap, pair, 2), GCFLIP_NIL, 0, 0, 0);
    returns(gcflip_peek_seen(&heap, pair, 3), GCFLIP_NO_FIELD, 0, 0, 0);
    returns(gcflip_peek_seen(&heap, 4, 0), GCFLIP_OBJECT, 255, 3, 0);
    returns(gcflip_peek_seen(&heap, number_max, 0), GCFLIP_NO_OBJECT, 0, 0, 0);
    returns(gcflip_field_at_seen(&heap, 1, 0), GCFLIP_NUMBER, 0, 0, 9223372036854775807u);
    returns(gcflip_field_at_seen(&heap, 1, 1), GCFLIP_RAW_OBJECT, KIND, 2, 6);
    returns(gcflip_field_at_seen(&heap, 1, 2), GCFLIP_NIL, 0, 0, 0);
    returns(gcflip_field_at_seen(&heap, 1, 3), GCFLIP_NO_FIELD, 0, 0, 0);
    returns(gcflip_field_at_seen(&heap, 10, 0), GCFLIP_OBJECT, 255, 3, 1);
    returns(gcflip_get_seen(&heap, d, pair, 0), GCFLIP_NUMBER, 0, 0, 9223372036854775807u);
    EXPECT(gcflip_same(&heap, d, number_max) == GCFLIP_SAME);
    returns(gcflip_get_seen(&heap, d, pair, 1), GCFLIP_OBJECT, 0, 0, 0); /* raw, which get does not show */
    EXPECT(gcflip_same(&heap, d, raw) == GCFLIP_SAME);
    returns(gcflip_get_seen(&heap, d, d, 1), GCFLIP_NUMBER, 0, 0, 9);
    returns(gcflip_get_seen(&heap, d, pair, 3), GCFLIP_NO_FIELD, 0, 0, 0);
    returns(gcflip_get_seen(&heap, d, pair, 65536), GCFLIP_NO_FIELD, 0, 0, 0);
    returns(gcflip_get_seen(&heap, d, d, 0), GCFLIP_NO_OBJECT, 0, 0, 0);
    holds(d, 9);
    returns(gcflip_get_seen(&heap, d, pair, 2), GCFLIP_NIL, 0, 0, 0);
    EXPECT(gcflip_look(&heap, d, &view) == GCFLIP_NIL);
    close_heap();
}

/* Each number beyond the last place, for each operand. An output is left alone. */
static void refused_places(uint32_t p)
{
    returns(gcflip_get_seen(&heap, p, 0, 1), GCFLIP_OUT_OF_RANGE, 0, 0, 0);
    returns(gcflip_get_seen(&heap, 2, p, 1), GCFLIP_OUT_OF_RANGE, 0, 0, 0);
    returns(gcflip_peek_seen(&heap, p, 1), GCFLIP_OUT_OF_RANGE, 0, 0, 0);
    returns(gcflip_look_seen(&heap, p), GCFLIP_OUT_OF_RANGE, 0, 0, 0);
    const gcflip_view before = {77, 77, 77};
    view = before;
    number = 77;
    EXPECT(gcflip_new(&heap, p, KIND, 0) == GCFLIP_OUT_OF_RANGE);
    EXPECT(gcflip_set_number(&heap, p, 5) == GCFLIP_OUT_OF_RANGE);
    EXPECT(gcflip_set_nil(&heap, p) == GCFLIP_OUT_OF_RANGE && gcflip_peek(&heap, p, 1, &view) == GCFLIP_OUT_OF_RANGE);
    EXPECT(gcflip_put_number(&heap, 0, p, 0, 5) == GCFLIP_OUT_OF_RANGE && gcflip_put_nil(&heap, 0, p, 0) == GCFLIP_OUT_OF_RANGE);
    EXPECT(gcflip_copy(&heap, p, 0) == GCFLIP_OUT_OF_RANGE && gcflip_copy(&heap, 0, p) == GCFLIP_OUT_OF_RANGE);
    EXPECT(gcflip_copy(&heap, p, p) == GCFLIP_OUT_OF_RANGE && gcflip_same(&heap, p, p) == GCFLIP_OUT_OF_RANGE);
    EXPECT(gcflip_get(&heap, p, 0, 1, &number) == GCFLIP_OUT_OF_RANGE && gcflip_get(&heap, 2, p, 1, &number) == GCFLIP_OUT_OF_RANGE);
    EXPECT(gcflip_put(&heap, 0, p, 0, 0) == GCFLIP_OUT_OF_RANGE && gcflip_put(&heap, 0, 0, 0, p) == GCFLIP_OUT_OF_RANGE);
    EXPECT(gcflip_same(&heap, p, 0) == GCFLIP_OUT_OF_RANGE && gcflip_same(&heap, 0, p) == GCFLIP_OUT_OF_RANGE);
    EXPECT(gcflip_look(&heap, p, &view) == GCFLIP_OUT_OF_RANGE);
    EXPECT(number == 77 && memcmp(&view, &before, sizeof view) == 0);
}

/* Kinds, counts, numbers and mutators that there are not. */
static void refused_numbers(void)
{
    EXPECT(gcflip_new(&heap, 0, 256, 0) == GCFLIP_OUT_OF_RANGE && gcflip_new(&heap, 0, UINT32_MAX, 0) == GCFLIP_OUT_OF_RANGE);
    EXPECT(gcflip_new(&heap, 0, 0, 65536) == GCFLIP_OUT_OF_RANGE && gcflip_new(&heap, 0, 0, UINT32_MAX) == GCFLIP_OUT_OF_RANGE);
    EXPECT(gcflip_set_number(&heap, 0, 1ull << 63) == GCFLIP_OUT_OF_RANGE && gcflip_set_number(&heap, 0, UINT64_MAX) == GCFLIP_OUT_OF_RANGE);
    EXPECT(gcflip_put(&heap, MUTATORS, 0, 0, 0) == GCFLIP_OUT_OF_RANGE && gcflip_put(&heap, 255, 0, 0, 0) == GCFLIP_OUT_OF_RANGE);
    EXPECT(gcflip_put(&heap, 256, 0, 0, 0) == GCFLIP_OUT_OF_RANGE && gcflip_put(&heap, UINT32_MAX, 0, 0, 0) == GCFLIP_OUT_OF_RANGE);
    EXPECT(gcflip_put_number(&heap, 0, 0, 0, 1ull << 63) == GCFLIP_OUT_OF_RANGE && gcflip_put_number(&heap, 0, 0, 0, UINT64_MAX) == GCFLIP_OUT_OF_RANGE);
    EXPECT(gcflip_put_number(&heap, MUTATORS, 0, 0, 5) == GCFLIP_OUT_OF_RANGE && gcflip_put_number(&heap, 256, 0, 0, 5) == GCFLIP_OUT_OF_RANGE);
    EXPECT(gcflip_put_nil(&heap, MUTATORS, 0, 0) == GCFLIP_OUT_OF_RANGE && gcflip_put_nil(&heap, UINT32_MAX, 0, 0) == GCFLIP_OUT_OF_RANGE);
    EXPECT(gcflip_new(&heap, 0, 0, 65535) == GCFLIP_FULL);
}

/* Refused calls change nothing, whether a collection is open or not. The root at place 0 refers to an object with two fields. */
static void refusals(void)
{
    open_heap(64, GCFLIP_ALONG);
    EXPECT(gcflip_new(&heap, 0, KIND, 2) == GCFLIP_MADE && gcflip_set_number(&heap, PLACES - 1, 6) == GCFLIP_DONE);
    EXPECT(gcflip_put(&heap, 0, 0, 1, PLACES - 1) == GCFLIP_DONE);
    expect_unchanged(refused_places, refused_numbers);
    close_heap();
}

/* No number of a field is cut to 16 bits: 65534 is the last one, and 65536 is not field 0. */
static void long_object(void)
{
    static const uint32_t none[] = {65535, 65536, 65537, 131070, 1u << 31, UINT32_MAX};
    open_heap_with(70000, 1, 1, GCFLIP_ALONG);
    EXPECT(gcflip_new(&heap, 32, KIND, 65535) == GCFLIP_MADE);
    EXPECT(gcflip_look(&heap, 32, &view) == GCFLIP_OBJECT && view.count == 65535);
    EXPECT(gcflip_set_number(&heap, 0, 5) == GCFLIP_DONE && gcflip_set_number(&heap, 1, 6) == GCFLIP_DONE);
    EXPECT(gcflip_put(&heap, 0, 32, 65534, 0) == GCFLIP_DONE && gcflip_put(&heap, 0, 32, 0, 0) == GCFLIP_DONE);
    for (size_t k = 0; k < COUNT(none); k++) {
        number = 77;
        EXPECT(gcflip_get(&heap, 1, 32, none[k], &number) == GCFLIP_NO_FIELD && number == 77);
        EXPECT(gcflip_put(&heap, 0, 32, none[k], 1) == GCFLIP_NO_FIELD && gcflip_put_number(&heap, 0, 32, none[k], 1) == GCFLIP_NO_FIELD);
        EXPECT(gcflip_put_nil(&heap, 0, 32, none[k]) == GCFLIP_NO_FIELD && gcflip_put_nil(&heap, 0, 0, none[k]) == GCFLIP_NO_OBJECT);
        sees(32, none[k], GCFLIP_NO_FIELD, 77, 77, 77);
        EXPECT(gcflip_get(&heap, 1, 0, none[k], &number) == GCFLIP_NO_OBJECT && gcflip_put(&heap, 0, 0, none[k], 1) == GCFLIP_NO_OBJECT);
        holds(1, 6);
    }
    EXPECT(gcflip_get(&heap, 2, 32, 65534, &number) == GCFLIP_NUMBER && number == 5);
    EXPECT(gcflip_get(&heap, 2, 32, 0, &number) == GCFLIP_NUMBER && number == 5);
    EXPECT(gcflip_get(&heap, 2, 32, 1, &number) == GCFLIP_NIL);
    EXPECT(gcflip_put_number(&heap, 0, 32, 65533, 9) == GCFLIP_DONE);
    sees(32, 65533, GCFLIP_NUMBER, 0, 0, 9);
    sees(32, 65534, GCFLIP_NUMBER, 0, 0, 5);
    EXPECT(gcflip_heap_step_begin(&heap) == GCFLIP_BEGUN);
    EXPECT(gcflip_put(&heap, 0, 32, UINT32_MAX, 1) == GCFLIP_NO_FIELD && gcflip_put(&heap, 0, 32, 65534, 1) == GCFLIP_DONE);
    gcflip_log_entry entry = {0, 0};
    EXPECT(gcflip_heap_log_entry(&heap, 0, 0, &entry) == GCFLIP_DONE && entry.field == 65534);
    EXPECT(gcflip_heap_log_entry(&heap, 0, 1, &entry) == GCFLIP_OUT_OF_RANGE);
    close_heap();
}

/* Expects that mutator m's log ends with this field, as its entry `length` - 1. */
static void logged(uint8_t m, size_t length, uint32_t field)
{
    size_t found = 77;
    gcflip_log_entry entry = {0, 0};
    EXPECT(gcflip_heap_log_length(&heap, m, &found) == GCFLIP_DONE && found == length);
    EXPECT(gcflip_heap_log_entry(&heap, m, length - 1, &entry) == GCFLIP_DONE && entry.object == 1 && entry.field == field);
}

/* An entry goes to the log of the mutator that is named, whoever's the roots are, and none where nothing was written. */
static void logs(void)
{
    size_t length = 77;
    open_heap(64, GCFLIP_ALONG);
    EXPECT(gcflip_new(&heap, 16, KIND, 3) == GCFLIP_MADE); /* in a slot of mutator 0 */
    EXPECT(gcflip_copy(&heap, PLACES - 1, 16) == GCFLIP_DONE);
    EXPECT(gcflip_put(&heap, 1, 16, 0, 16) == GCFLIP_DONE);
    EXPECT(gcflip_heap_step_begin(&heap) == GCFLIP_BEGUN);
    EXPECT(gcflip_put(&heap, 2, 16, 0, 17) == GCFLIP_DONE);
    logged(2, 1, 0);
    EXPECT(gcflip_put(&heap, 1, PLACES - 1, 2, 16) == GCFLIP_DONE);
    logged(1, 1, 2);
    EXPECT(gcflip_put(&heap, 2, PLACES - 1, 1, 48) == GCFLIP_DONE);
    logged(2, 2, 1);
    EXPECT(gcflip_put(&heap, 0, 16, 3, 17) == GCFLIP_NO_FIELD && gcflip_put(&heap, 0, 17, 0, 17) == GCFLIP_NO_OBJECT);
    EXPECT(gcflip_heap_log_length(&heap, 0, &length) == GCFLIP_DONE && length == 0);
    EXPECT(gcflip_put(&heap, 0, 16, 0, 17) == GCFLIP_DONE);
    logged(0, 1, 0);
    EXPECT(gcflip_heap_step_apply(&heap, 1) == GCFLIP_APPLIED && gcflip_heap_step_apply(&heap, 1) == GCFLIP_CLEAN);
    close_heap();
}

/* Puts of nil and of numbers change their field and no root, whatever the roots hold, and log it where `m` says. */
static void values(uint8_t checking)
{
    static const uint32_t objects[] = {0, 1, 15, 16, 33, SLOTS, PLACES - 1};
    static struct picture before, after;
    open_heap(64, checking);
    EXPECT(gcflip_new(&heap, 2, KIND, 2) == GCFLIP_MADE); /* at 1, with the raw object at 5 */
    EXPECT(gcflip_heap_new_raw(&heap, 0, 0, KIND, 2) == GCFLIP_MADE);
    for (uint32_t p = 0; p < PLACES; p++)
        if (p != 2 && p != 16)
            EXPECT(p % 3 == 0 ? gcflip_copy(&heap, p, 2) == GCFLIP_DONE : p % 3 == 1 ? gcflip_set_number(&heap, p, p) == GCFLIP_DONE : gcflip_set_nil(&heap, p) == GCFLIP_DONE);
    for (int is_open = 0; is_open < 2; is_open++) {
        for (size_t k = 0; k < COUNT(objects); k++) {
            const uint32_t p = objects[k];
            const uint32_t made = p % 3 == 0 || p == 16 ? GCFLIP_DONE : GCFLIP_NO_OBJECT;
            draw(&before);
            EXPECT(gcflip_put_number(&heap, 1, p, 1, 40 + k) == made);
            EXPECT(made != GCFLIP_DONE || (gcflip_peek(&heap, p, 1, &view) == GCFLIP_NUMBER && view.number == 40 + k));
            EXPECT(gcflip_put_nil(&heap, 2, p, 1) == (p == 16 ? GCFLIP_NO_NUMBER : made));
            EXPECT(made != GCFLIP_DONE || gcflip_peek(&heap, p, 1, &view) == (p == 16 ? GCFLIP_NUMBER : GCFLIP_NIL));
            draw(&after);
            EXPECT(memcmp(before.roots, after.roots, sizeof before.roots) == 0);
            EXPECT(after.logged[0] == 0 && after.logged[1] == before.logged[1] + (is_open && made == GCFLIP_DONE));
            EXPECT(after.logged[2] == before.logged[2] + (is_open && made == GCFLIP_DONE && p != 16));
        }
        if (!is_open)
            EXPECT(gcflip_heap_step_begin(&heap) == GCFLIP_BEGUN);
    }
    EXPECT(gcflip_heap_work(&heap, 1000, &work) == GCFLIP_DONE && work.last == GCFLIP_FLIPPED && work.pairs == 2);
    EXPECT(gcflip_peek(&heap, 2, 1, &view) == GCFLIP_NIL && gcflip_peek(&heap, 16, 1, &view) == GCFLIP_NUMBER && view.number == 43);
    close_heap();
}

/* A walk over the heap meets each object once, also those that no root reaches, and no other address has one. */
static void walk(uint8_t checking)
{
    uint32_t met = 0;
    open_heap_with(64, 1, 0, checking);
    EXPECT(gcflip_object_at(&heap, 1, &view) == GCFLIP_NIL && view.kind == 0 && view.count == 0 && view.number == 0);
    EXPECT(gcflip_new(&heap, 0, KIND, 3) == GCFLIP_MADE && gcflip_heap_new_raw(&heap, 0, 0, 255, 2) == GCFLIP_MADE);
    EXPECT(gcflip_new(&heap, 0, KIND + 1, 0) == GCFLIP_MADE); /* the first one is garbage now */
    EXPECT(gcflip_object_at(&heap, 1, &view) == GCFLIP_OBJECT && view.kind == KIND && view.count == 3 && view.number == 0);
    EXPECT(gcflip_object_at(&heap, 6, &view) == GCFLIP_RAW_OBJECT && view.kind == 255 && view.count == 2);
    EXPECT(gcflip_object_at(&heap, 10, &view) == GCFLIP_OBJECT && view.kind == KIND + 1 && view.count == 0);
    returns(gcflip_object_at_seen(&heap, 1), GCFLIP_OBJECT, KIND, 3, 0);
    returns(gcflip_object_at_seen(&heap, 6), GCFLIP_RAW_OBJECT, 255, 2, 0);
    returns(gcflip_object_at_seen(&heap, UINT32_MAX), GCFLIP_NIL, 0, 0, 0);
    for (uint32_t a = 0; a < 70; a++) {
        met += gcflip_object_at(&heap, a, &view) != GCFLIP_NIL;
        EXPECT((gcflip_object_at_seen(&heap, a).answer == GCFLIP_NIL) == (a != 1 && a != 6 && a != 10));
    }
    EXPECT(met == 3 && gcflip_object_at(&heap, UINT32_MAX, &view) == GCFLIP_NIL && gcflip_object_at(&heap, 1u << 31, &view) == GCFLIP_NIL);
    EXPECT(gcflip_heap_work(&heap, 1000, &work) == GCFLIP_DONE && work.last == GCFLIP_FLIPPED);
    met = 0;
    EXPECT(gcflip_heap_counts(&heap, &counts) == GCFLIP_DONE && counts.end == 7);
    for (uint32_t a = 1; a < counts.end; a += view.count + 2, met++)
        EXPECT(gcflip_object_at(&heap, a, &view) != GCFLIP_NIL);
    EXPECT(met == 2);
    close_heap();
}

/* The room is what no object takes, in a new heap all but one word. */
static void room(void)
{
    open_heap_with(20, 1, 0, GCFLIP_ALONG);
    EXPECT(gcflip_room(&heap) == 19 && gcflip_new(&heap, 0, KIND, 3) == GCFLIP_MADE && gcflip_room(&heap) == 14);
    EXPECT(gcflip_words_of(3) == 5 && gcflip_words_of(0) == 2 && gcflip_words_of(65535) == 65537);
    EXPECT(gcflip_heap_step_begin(&heap) == GCFLIP_BEGUN && gcflip_room(&heap) == 14);
    EXPECT(gcflip_new(&heap, 0, KIND, 13) == GCFLIP_FULL && gcflip_room(&heap) == 14);
    EXPECT(gcflip_new(&heap, 0, KIND, 12) == GCFLIP_MADE && gcflip_room(&heap) == 0);
    close_heap();
}

/* Performs useful steps until only the flip is left. */
static void make_ready(void)
{
    gcflip_step step = {0, 0};
    for (;;) {
        EXPECT(gcflip_heap_useful(&heap, &step) == GCFLIP_DONE);
        if (step.name == GCFLIP_STEP_FLIP)
            return;
        EXPECT(gcflip_heap_work(&heap, 1, &work) == GCFLIP_DONE && work.last != GCFLIP_FLIPPED && work.last != GCFLIP_NO_ROOM);
    }
}

/* A put of a number, or a root that becomes nil or a number, leaves a collection that is ready ready once its entries are applied, and no search of the roots
 * begins again. The objects without other references die. */
static void values_while_ready(uint32_t d, uint8_t checking)
{
    uint32_t pairs = 77;
    open_heap(128, checking);
    EXPECT(gcflip_new(&heap, d, KIND, 2) == GCFLIP_MADE && gcflip_copy(&heap, 1, d) == GCFLIP_DONE);
    EXPECT(gcflip_heap_step_begin(&heap) == GCFLIP_BEGUN);
    make_ready();
    EXPECT(gcflip_heap_counts(&heap, &counts) == GCFLIP_DONE && counts.roots_left == 0);
    EXPECT(gcflip_put_number(&heap, 0, d, 1, 5) == GCFLIP_DONE && gcflip_put_nil(&heap, 1, d, 0) == GCFLIP_DONE);
    EXPECT(gcflip_heap_counts(&heap, &counts) == GCFLIP_DONE && counts.roots_left == 0 && counts.logged == 2);
    EXPECT(gcflip_heap_step_flip(&heap, &pairs) == GCFLIP_NOT_READY && gcflip_heap_step_apply(&heap, 0) == GCFLIP_APPLIED);
    EXPECT(gcflip_heap_step_apply(&heap, 1) == GCFLIP_APPLIED && gcflip_heap_step_flip(&heap, &pairs) == GCFLIP_FLIPPED && pairs == 1);
    sees(d, 1, GCFLIP_NUMBER, 0, 0, 5);
    EXPECT(gcflip_set_nil(&heap, 1) == GCFLIP_DONE && gcflip_set_nil(&heap, d) == GCFLIP_DONE && gcflip_look(&heap, d, &view) == GCFLIP_NIL);
    EXPECT(gcflip_room(&heap) == 123);
    EXPECT(gcflip_heap_work(&heap, 1000, &work) == GCFLIP_DONE && work.last == GCFLIP_FLIPPED && work.pairs == 0);
    EXPECT(gcflip_room(&heap) == 127);
    close_heap();
}

/* Flips, after what a command wrote has its replica. */
static void flip_with_one_more(void)
{
    uint32_t pairs = 77;
    EXPECT(gcflip_heap_step_flip(&heap, &pairs) == GCFLIP_NOT_READY && pairs == 77);
    make_ready();
    EXPECT(gcflip_heap_step_flip(&heap, &pairs) == GCFLIP_FLIPPED && pairs > 0);
}

/* A collection that is ready is not ready any more once a command writes a reference without a replica into root d, and the object survives. */
static void written_while_ready(uint32_t d, uint8_t checking)
{
    open_heap(128, checking);
    EXPECT(gcflip_set_number(&heap, 1, 5) == GCFLIP_DONE);
    EXPECT(gcflip_heap_step_begin(&heap) == GCFLIP_BEGUN);
    make_ready();
    EXPECT(gcflip_new(&heap, d, KIND, 2) == GCFLIP_MADE && gcflip_put(&heap, 0, d, 1, 1) == GCFLIP_DONE);
    flip_with_one_more();
    EXPECT(gcflip_get(&heap, 2, d, 1, &number) == GCFLIP_NUMBER && number == 5);
    EXPECT(gcflip_new(&heap, 3, KIND, 1) == GCFLIP_MADE && gcflip_put(&heap, 0, d, 0, 3) == GCFLIP_DONE && gcflip_put(&heap, 0, 3, 0, 1) == GCFLIP_DONE);
    EXPECT(gcflip_copy(&heap, PLACES - 2, 3) == GCFLIP_DONE && gcflip_set_number(&heap, 3, 0) == GCFLIP_DONE);
    for (int round = 0; round < 2; round++) {
        EXPECT(gcflip_heap_step_begin(&heap) == GCFLIP_BEGUN);
        make_ready();
        EXPECT(gcflip_new(&heap, 4, KIND, 1) == GCFLIP_MADE && gcflip_put(&heap, 1, 4, 0, 1) == GCFLIP_DONE);
        if (round == 0)
            EXPECT(gcflip_copy(&heap, d, 4) == GCFLIP_DONE && gcflip_set_number(&heap, 4, 6) == GCFLIP_DONE);
        else
            EXPECT(gcflip_get(&heap, 4, d, 0, &number) == GCFLIP_NUMBER && gcflip_new(&heap, d, KIND + 1, 0) == GCFLIP_MADE);
        flip_with_one_more();
    }
    EXPECT(gcflip_look(&heap, d, &view) == GCFLIP_OBJECT && view.kind == KIND + 1 && view.count == 0);
    EXPECT(gcflip_get(&heap, d, PLACES - 2, 0, &number) == GCFLIP_NUMBER && number == 5);
    close_heap();
}

/* A get of an object that has no replica yet writes its reference into root d. */
static void got_while_open(uint32_t d, uint8_t checking)
{
    open_heap(128, checking);
    EXPECT(gcflip_new(&heap, 0, KIND, 1) == GCFLIP_MADE && gcflip_new(&heap, 1, KIND + 1, 0) == GCFLIP_MADE);
    EXPECT(gcflip_put(&heap, 0, 0, 0, 1) == GCFLIP_DONE && gcflip_set_number(&heap, 1, 0) == GCFLIP_DONE);
    EXPECT(gcflip_heap_step_begin(&heap) == GCFLIP_BEGUN);
    EXPECT(gcflip_heap_step_roots(&heap) == GCFLIP_COPIED && gcflip_heap_step_roots(&heap) == GCFLIP_CLEAN);
    EXPECT(gcflip_get(&heap, d, 0, 0, &number) == GCFLIP_OBJECT && gcflip_put(&heap, 2, 0, 0, 1) == GCFLIP_DONE);
    EXPECT(gcflip_heap_step_roots(&heap) == GCFLIP_COPIED);
    make_ready();
    EXPECT(gcflip_set_number(&heap, 0, 0) == GCFLIP_DONE);
    uint32_t pairs = 77;
    EXPECT(gcflip_heap_step_flip(&heap, &pairs) == GCFLIP_FLIPPED && pairs == 2);
    EXPECT(gcflip_look(&heap, d, &view) == GCFLIP_OBJECT && view.kind == KIND + 1 && view.count == 0);
    EXPECT(gcflip_heap_work(&heap, 100, &work) == GCFLIP_DONE && work.last == GCFLIP_FLIPPED && work.pairs == 1);
    EXPECT(gcflip_look(&heap, d, &view) == GCFLIP_OBJECT && view.kind == KIND + 1);
    close_heap();
}

static void collections(uint8_t checking)
{
    static const uint32_t written[] = {9, 15, 16, 31, 32, SLOTS - 1, SLOTS, SLOTS + 3, PLACES - 1};
    for (size_t k = 0; k < COUNT(written); k++) {
        written_while_ready(written[k], checking);
        got_while_open(written[k], checking);
        values_while_ready(written[k], checking);
    }
}

/* Without a heap there is no place, and each call says so first. */
static void closed(void)
{
    const gcflip_view before = {77, 77, 77};
    const uint32_t places[] = {0, UINT32_MAX};
    view = before;
    number = 77;
    for (size_t k = 0; k < COUNT(places); k++) {
        const uint32_t p = places[k];
        EXPECT(gcflip_new(&heap, p, p, p) == GCFLIP_CLOSED);
        EXPECT(gcflip_set_number(&heap, p, UINT64_MAX) == GCFLIP_CLOSED);
        EXPECT(gcflip_set_nil(&heap, p) == GCFLIP_CLOSED);
        EXPECT(gcflip_copy(&heap, p, p) == GCFLIP_CLOSED);
        EXPECT(gcflip_peek(&heap, p, p, &view) == GCFLIP_CLOSED);
        EXPECT(gcflip_put_number(&heap, p, p, p, UINT64_MAX) == GCFLIP_CLOSED);
        EXPECT(gcflip_put_nil(&heap, p, p, p) == GCFLIP_CLOSED);
        EXPECT(gcflip_get(&heap, p, p, p, &number) == GCFLIP_CLOSED);
        EXPECT(gcflip_put(&heap, p, p, p, p) == GCFLIP_CLOSED);
        EXPECT(gcflip_same(&heap, p, p) == GCFLIP_CLOSED);
        EXPECT(gcflip_look(&heap, p, &view) == GCFLIP_CLOSED);
        EXPECT(gcflip_object_at(&heap, p, &view) == GCFLIP_CLOSED);
        returns(gcflip_get_seen(&heap, p, p, p), GCFLIP_CLOSED, 0, 0, 0);
        returns(gcflip_peek_seen(&heap, p, p), GCFLIP_CLOSED, 0, 0, 0);
        returns(gcflip_look_seen(&heap, p), GCFLIP_CLOSED, 0, 0, 0);
        returns(gcflip_object_at_seen(&heap, p), GCFLIP_CLOSED, 0, 0, 0);
        returns(gcflip_field_at_seen(&heap, p, p), GCFLIP_CLOSED, 0, 0, 0);
    }
    EXPECT(number == 77 && memcmp(&view, &before, sizeof view) == 0 && heap.at == NULL && gcflip_room(&heap) == 0);
}

int main(void)
{
    closed();
    roots();
    many_slots();
    replies();
    cleared();
    returned();
    refusals();
    long_object();
    logs();
    room();
    walk(GCFLIP_ALONG);
    walk(GCFLIP_AT_FLIP);
    values(GCFLIP_ALONG);
    values(GCFLIP_AT_FLIP);
    collections(GCFLIP_ALONG);
    collections(GCFLIP_AT_FLIP);
    closed();
    return 0;
}
