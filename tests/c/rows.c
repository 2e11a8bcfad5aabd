/* Tests the commands by places that make an object of several roots, or set several roots to the fields of one, and those on addresses: each answer, which roots
 * they read and write, and whose log has the fields. */

enum { KIND = 3, MUTATORS = 2, EXTRA = 8 };

#include "by_places.h"

/* Gives each root the number 100 + its place. */
static void number_roots(void)
{
    for (uint32_t p = 0; p < PLACES; p++)
        EXPECT(gcflip_set_number(&heap, p, 100 + p) == GCFLIP_DONE);
}

/* Expects that the root at place p holds this number. */
static void holds(uint32_t p, uint64_t wanted)
{
    EXPECT(gcflip_look(&heap, p, &view) == GCFLIP_NUMBER && view.number == wanted);
}

/* Expects that the root at place p refers to an object of this kind with so many fields. */
static void refers(uint32_t p, uint32_t answer, uint32_t kind, uint32_t count)
{
    EXPECT(gcflip_look(&heap, p, &view) == answer && view.kind == kind && view.count == count);
}

/* Expects that field i of the object in root p holds this number. */
static void has(uint32_t p, uint32_t i, uint64_t wanted)
{
    EXPECT(gcflip_peek(&heap, p, i, &view) == GCFLIP_NUMBER && view.number == wanted);
}

/* Raw objects in roots of each sort. Their fields are 0, and take numbers alone. */
static void raw(void)
{
    static const uint32_t roots[] = {0, 15, 16, SLOTS - 1, SLOTS, PLACES - 1};
    open_heap(40, GCFLIP_ALONG);
    for (size_t k = 0; k < COUNT(roots); k++) {
        EXPECT(gcflip_new_raw(&heap, roots[k], 255 - (uint32_t)k, 3) == GCFLIP_MADE);
        refers(roots[k], GCFLIP_RAW_OBJECT, 255 - (uint32_t)k, 3);
        has(roots[k], 2, 0);
        EXPECT(gcflip_put_nil(&heap, 0, roots[k], 2) == GCFLIP_NO_NUMBER);
    }
    EXPECT(gcflip_room(&heap) == 39 - 5 * COUNT(roots));
    EXPECT(gcflip_new_raw(&heap, 0, 0, 8) == GCFLIP_FULL && gcflip_room(&heap) == 9);
    refers(0, GCFLIP_RAW_OBJECT, 255, 3);
    EXPECT(gcflip_new_raw(&heap, 0, 0, 7) == GCFLIP_MADE && gcflip_room(&heap) == 0);
    number = 1;
    EXPECT(gcflip_get(&heap, 0, 0, 6, &number) == GCFLIP_NUMBER && number == 0);
    close_heap();
}

/* Objects of two roots, of a list of roots, and of a range of them. */
static void made(void)
{
    static const uint32_t fields[] = {PLACES - 1, 0, 17, 0};
    open_heap(120, GCFLIP_ALONG);
    number_roots();
    EXPECT(gcflip_new_pair(&heap, 0, 5, KIND, 33, SLOTS + 1) == GCFLIP_MADE);
    refers(5, GCFLIP_OBJECT, KIND, 2);
    has(5, 0, 133);
    has(5, 1, 100 + SLOTS + 1);
    EXPECT(gcflip_new_from(&heap, 1, SLOTS + 7, KIND + 1, fields, COUNT(fields)) == GCFLIP_MADE);
    refers(SLOTS + 7, GCFLIP_OBJECT, KIND + 1, 4);
    /* Root PLACES - 1 is SLOTS + 7: it was set first. */
    EXPECT(gcflip_peek(&heap, SLOTS + 7, 0, &view) == GCFLIP_OBJECT && view.kind == KIND + 1 && view.count == 4);
    has(SLOTS + 7, 1, 100);
    has(SLOTS + 7, 2, 117);
    has(SLOTS + 7, 3, 100);
    EXPECT(gcflip_gather(&heap, 0, 1, KIND + 2, SLOTS - 2, 5) == GCFLIP_MADE);
    refers(1, GCFLIP_OBJECT, KIND + 2, 5);
    for (uint32_t i = 0; i < 5; i++)
        has(1, i, 100 + SLOTS - 2 + i);
    EXPECT(gcflip_gather(&heap, 0, SLOTS - 1, 255, 0, PLACES) == GCFLIP_MADE);
    for (uint32_t i = 2; i < PLACES - 1; i++)
        if (i == 5 || i == SLOTS - 1)
            EXPECT(gcflip_peek(&heap, SLOTS - 1, i, &view) == GCFLIP_OBJECT && view.kind == (i == 5 ? KIND : 255));
        else
            has(SLOTS - 1, i, 100 + i);
    close_heap();
}

/* Objects without a field, and one that finds no room, which leaves all as it was. */
static void ends(void)
{
    open_heap(16, GCFLIP_ALONG);
    number_roots();
    EXPECT(gcflip_new_from(&heap, 0, 0, KIND, beyond, 0) == GCFLIP_MADE && gcflip_gather(&heap, 0, 1, KIND, PLACES, 0) == GCFLIP_MADE);
    refers(0, GCFLIP_OBJECT, KIND, 0);
    refers(1, GCFLIP_OBJECT, KIND, 0);
    EXPECT(gcflip_gather(&heap, 0, 2, KIND, 40, 10) == GCFLIP_FULL && gcflip_room(&heap) == 11);
    holds(2, 102);
    EXPECT(gcflip_gather(&heap, 0, 2, KIND, 40, 5) == GCFLIP_MADE && gcflip_new_pair(&heap, 0, 3, KIND, 0, 0) == GCFLIP_MADE);
    EXPECT(gcflip_new_pair(&heap, 0, 4, KIND, 0, 0) == GCFLIP_FULL && gcflip_new_from(&heap, 0, 4, KIND, beyond, 0) == GCFLIP_FULL && gcflip_room(&heap) == 0);
    holds(4, 104);
    close_heap();
}

/* Roots that take the fields of an object, also of a raw one, up to the last root. */
static void spreads(void)
{
    open_heap(60, GCFLIP_ALONG);
    number_roots();
    EXPECT(gcflip_gather(&heap, 0, 16, KIND, 17, 4) == GCFLIP_MADE && gcflip_put_nil(&heap, 0, 16, 1) == GCFLIP_DONE);
    EXPECT(gcflip_copy(&heap, 2, 16) == GCFLIP_DONE && gcflip_put(&heap, 0, 16, 2, 2) == GCFLIP_DONE);
    EXPECT(gcflip_spread(&heap, PLACES - 4, 16, 4) == GCFLIP_DONE);
    holds(PLACES - 4, 117);
    EXPECT(gcflip_look(&heap, PLACES - 3, &view) == GCFLIP_NIL && gcflip_same(&heap, PLACES - 2, 16) == GCFLIP_SAME);
    holds(PLACES - 1, 120);
    holds(PLACES - 5, 100 + PLACES - 5);
    EXPECT(gcflip_spread(&heap, 15, 16, 1) == GCFLIP_DONE && gcflip_spread(&heap, 17, 16, 2) == GCFLIP_DONE);
    holds(15, 117);
    EXPECT(gcflip_look(&heap, 18, &view) == GCFLIP_NIL);
    holds(19, 119);
    EXPECT(gcflip_spread(&heap, 0, 16, 5) == GCFLIP_NO_FIELD && gcflip_spread(&heap, 0, 1, 0) == GCFLIP_NO_OBJECT);
    EXPECT(gcflip_spread(&heap, 0, 18, 1) == GCFLIP_NO_OBJECT && gcflip_spread(&heap, 0, 16, 0) == GCFLIP_DONE);
    holds(0, 100);
    EXPECT(gcflip_new_raw(&heap, 40, KIND, 2) == GCFLIP_MADE && gcflip_put_number(&heap, 0, 40, 1, 9223372036854775807u) == GCFLIP_DONE);
    EXPECT(gcflip_spread(&heap, 5, 40, 2) == GCFLIP_DONE && gcflip_spread(&heap, 7, 40, 3) == GCFLIP_NO_FIELD);
    holds(5, 0);
    holds(6, 9223372036854775807u);
    holds(7, 107);
    close_heap();
}

/* Each number beyond the last place, for each operand. */
static void refused_places(uint32_t p)
{
    const uint32_t last[] = {0, 1, p};
    EXPECT(gcflip_new_raw(&heap, p, KIND, 1) == GCFLIP_OUT_OF_RANGE);
    EXPECT(gcflip_new_pair(&heap, 0, p, KIND, 0, 0) == GCFLIP_OUT_OF_RANGE && gcflip_new_pair(&heap, 0, 0, KIND, p, 0) == GCFLIP_OUT_OF_RANGE);
    EXPECT(gcflip_new_pair(&heap, 0, 0, KIND, 0, p) == GCFLIP_OUT_OF_RANGE);
    EXPECT(gcflip_new_from(&heap, 0, p, KIND, last, 2) == GCFLIP_OUT_OF_RANGE && gcflip_new_from(&heap, 0, 0, KIND, last, 3) == GCFLIP_OUT_OF_RANGE);
    EXPECT(gcflip_gather(&heap, 0, p, KIND, 0, 1) == GCFLIP_OUT_OF_RANGE && gcflip_gather(&heap, 0, 0, KIND, p, 1) == GCFLIP_OUT_OF_RANGE);
    EXPECT(gcflip_spread(&heap, 1, p, 1) == GCFLIP_OUT_OF_RANGE && gcflip_spread(&heap, p, 0, 1) == GCFLIP_OUT_OF_RANGE);
    EXPECT(gcflip_gather(&heap, 0, 0, KIND, 1, p) == GCFLIP_OUT_OF_RANGE && gcflip_spread(&heap, 1, 0, p) == GCFLIP_OUT_OF_RANGE);
}

/* Kinds, counts, ranges and mutators that there are not, and a root that is among those that it would set. */
static void refused_numbers(void)
{
    static const uint32_t fields[65536];
    EXPECT(gcflip_new_raw(&heap, 0, 256, 0) == GCFLIP_OUT_OF_RANGE && gcflip_new_raw(&heap, 0, 0, 65536) == GCFLIP_OUT_OF_RANGE);
    EXPECT(gcflip_new_raw(&heap, 0, 0, 65535) == GCFLIP_FULL);
    EXPECT(gcflip_new_pair(&heap, 0, 0, 256, 0, 0) == GCFLIP_OUT_OF_RANGE && gcflip_new_from(&heap, 0, 0, 256, fields, 1) == GCFLIP_OUT_OF_RANGE);
    EXPECT(gcflip_gather(&heap, 0, 0, UINT32_MAX, 0, 1) == GCFLIP_OUT_OF_RANGE);
    EXPECT(gcflip_new_from(&heap, 0, 0, KIND, fields, 65536) == GCFLIP_OUT_OF_RANGE && gcflip_gather(&heap, 0, 0, KIND, 0, 65536) == GCFLIP_OUT_OF_RANGE);
    EXPECT(gcflip_new_pair(&heap, MUTATORS, 0, KIND, 0, 0) == GCFLIP_OUT_OF_RANGE && gcflip_new_pair(&heap, 256, 0, KIND, 0, 0) == GCFLIP_OUT_OF_RANGE);
    EXPECT(gcflip_new_from(&heap, MUTATORS, 0, KIND, fields, 1) == GCFLIP_OUT_OF_RANGE);
    EXPECT(gcflip_gather(&heap, MUTATORS, 0, KIND, 0, 1) == GCFLIP_OUT_OF_RANGE && gcflip_gather(&heap, UINT32_MAX, 0, KIND, 0, 1) == GCFLIP_OUT_OF_RANGE);
    EXPECT(gcflip_gather(&heap, 0, 0, KIND, PLACES, 1) == GCFLIP_OUT_OF_RANGE && gcflip_gather(&heap, 0, 0, KIND, PLACES - 1, 2) == GCFLIP_OUT_OF_RANGE);
    EXPECT(gcflip_spread(&heap, PLACES, 0, 1) == GCFLIP_OUT_OF_RANGE && gcflip_spread(&heap, PLACES - 1, 0, 2) == GCFLIP_OUT_OF_RANGE);
    EXPECT(gcflip_spread(&heap, 0, 0, 1) == GCFLIP_OUT_OF_RANGE && gcflip_spread(&heap, 0, 1, 2) == GCFLIP_OUT_OF_RANGE);
    EXPECT(gcflip_spread(&heap, 3, 0, 3) == GCFLIP_NO_FIELD && gcflip_spread(&heap, 3, 7, 1) == GCFLIP_NO_OBJECT);
}

/* Refused calls change nothing, whether a collection is open or not. Root 0 refers to an object with two fields. */
static void refusals(void)
{
    open_heap(64, GCFLIP_ALONG);
    EXPECT(gcflip_new(&heap, 0, KIND, 2) == GCFLIP_MADE && gcflip_put_number(&heap, 0, 0, 1, 5) == GCFLIP_DONE);
    expect_unchanged(refused_places, refused_numbers);
    close_heap();
}

/* Expects that mutator m's log ends with so many fields of this object. */
static void logged(uint8_t m, size_t length, uint32_t object, uint32_t count)
{
    gcflip_log_entry entry = {0, 0};
    size_t found = 0;
    EXPECT(gcflip_heap_log_length(&heap, m, &found) == GCFLIP_DONE && found == length);
    for (uint32_t i = 0; i < count; i++)
        EXPECT(gcflip_heap_log_entry(&heap, m, length - count + i, &entry) == GCFLIP_DONE && entry.object == object && entry.field == i);
}

/* The log of the mutator that is named takes the fields, whoever's the roots are. A raw object, and roots that take fields, are logged nowhere. The flip keeps what
 * the objects refer to. */
static void while_open(uint8_t checking)
{
    static const uint32_t fields[] = {40, 2, 17};
    uint32_t at = 0;
    open_heap(80, checking);
    EXPECT(gcflip_new(&heap, 2, KIND, 1) == GCFLIP_MADE && gcflip_put_number(&heap, 0, 2, 0, 7) == GCFLIP_DONE); /* at 1 */
    EXPECT(gcflip_heap_step_begin(&heap) == GCFLIP_BEGUN);
    EXPECT(gcflip_new_pair(&heap, 1, SLOTS, KIND, 2, 16) == GCFLIP_MADE); /* at 4 */
    logged(1, 2, 4, 2);
    EXPECT(gcflip_new_from(&heap, 0, 33, KIND, fields, COUNT(fields)) == GCFLIP_MADE); /* at 8 */
    logged(0, 3, 8, 3);
    EXPECT(gcflip_gather(&heap, 1, SLOTS + 1, KIND, 1, 2) == GCFLIP_MADE); /* at 13 */
    logged(1, 4, 13, 2);
    EXPECT(gcflip_new_raw(&heap, 3, KIND, 2) == GCFLIP_MADE && gcflip_spread(&heap, SLOTS + 2, SLOTS, 2) == GCFLIP_DONE);
    logged(0, 3, 8, 3);
    logged(1, 4, 13, 2);
    EXPECT(gcflip_same(&heap, SLOTS + 2, 2) == GCFLIP_SAME && gcflip_set_nil(&heap, 2) == GCFLIP_DONE);
    EXPECT(gcflip_heap_work(&heap, 1000, &work) == GCFLIP_DONE && work.last == GCFLIP_FLIPPED && work.pairs == 5);
    EXPECT(gcflip_spread(&heap, 20, SLOTS, 1) == GCFLIP_DONE && gcflip_same(&heap, 20, SLOTS + 2) == GCFLIP_SAME);
    has(20, 0, 7);
    EXPECT(gcflip_spread(&heap, 21, 33, 3) == GCFLIP_DONE && gcflip_same(&heap, 22, 20) == GCFLIP_SAME);
    EXPECT(gcflip_spread(&heap, 24, SLOTS + 1, 2) == GCFLIP_DONE && gcflip_same(&heap, 25, 20) == GCFLIP_SAME);
    EXPECT(gcflip_heap_address(&heap, 0, 4, &at) == GCFLIP_DONE && at != 0); /* slot 4 of mutator 0 is root 20 */
    close_heap();
}

/* Addresses of objects in roots of each sort, where the flip moved them, and references by them. */
static void addresses(uint8_t checking)
{
    static const uint32_t roots[] = {0, 17, SLOTS, PLACES - 1};
    uint32_t at = 77;
    open_heap(40, checking);
    EXPECT(gcflip_new(&heap, 1, KIND, 3) == GCFLIP_MADE); /* at 1, and then dead */
    for (uint32_t k = 0; k < COUNT(roots); k++) {
        EXPECT(gcflip_address(&heap, roots[k], &at) == GCFLIP_NO_OBJECT && at == 77);
        EXPECT(gcflip_new(&heap, roots[k], KIND + k, 1) == GCFLIP_MADE); /* at 6, 9, 12, 15 */
        EXPECT(gcflip_address(&heap, roots[k], &at) == GCFLIP_DONE && at == 6 + 3 * k);
        EXPECT(gcflip_refer(&heap, 2, at) == GCFLIP_DONE && gcflip_same(&heap, 2, roots[k]) == GCFLIP_SAME);
        at = 77;
    }
    EXPECT(gcflip_refer(&heap, PLACES - 2, 9) == GCFLIP_DONE && gcflip_same(&heap, PLACES - 2, 17) == GCFLIP_SAME);
    EXPECT(gcflip_refer(&heap, 2, 7) == GCFLIP_NO_OBJECT && gcflip_refer(&heap, 2, 18) == GCFLIP_NO_OBJECT && gcflip_refer(&heap, 2, UINT32_MAX) == GCFLIP_NO_OBJECT);
    EXPECT(gcflip_same(&heap, 2, PLACES - 1) == GCFLIP_SAME);
    for (size_t k = 0; k < COUNT(beyond); k++)
        EXPECT(gcflip_address(&heap, beyond[k], &at) == GCFLIP_OUT_OF_RANGE && gcflip_refer(&heap, beyond[k], 6) == GCFLIP_OUT_OF_RANGE && at == 77);
    EXPECT(gcflip_moved(&heap, 6, &at) == GCFLIP_OUT_OF_RANGE && at == 77 && gcflip_set_nil(&heap, 1) == GCFLIP_DONE);
    EXPECT(gcflip_heap_work(&heap, 1000, &work) == GCFLIP_DONE && work.last == GCFLIP_FLIPPED && work.pairs == 4);
    EXPECT(gcflip_moved(&heap, 1, &at) == GCFLIP_NO_OBJECT && at == 77);
    for (uint32_t k = 0; k < COUNT(roots); k++) {
        uint32_t now = 0;
        EXPECT(gcflip_moved(&heap, 6 + 3 * k, &at) == GCFLIP_DONE && gcflip_address(&heap, roots[k], &now) == GCFLIP_DONE && at == now);
    }
    close_heap();
}

/* A root that takes a reference by an address while a collection is ready makes it search for a replica once more. */
static void referred_while_ready(uint32_t d, uint8_t checking)
{
    uint32_t pairs = 77;
    open_heap(40, checking);
    EXPECT(gcflip_new(&heap, 0, KIND, 1) == GCFLIP_MADE && gcflip_new(&heap, 0, KIND + 1, 1) == GCFLIP_MADE); /* at 1, dead, and at 4 */
    EXPECT(gcflip_heap_step_begin(&heap) == GCFLIP_BEGUN);
    EXPECT(gcflip_heap_step_roots(&heap) == GCFLIP_COPIED && gcflip_heap_step_scan(&heap) == GCFLIP_SCANNED && gcflip_heap_step_scan(&heap) == GCFLIP_PASSED);
    EXPECT(gcflip_heap_step_roots(&heap) == GCFLIP_CLEAN && gcflip_refer(&heap, d, 1) == GCFLIP_DONE);
    EXPECT(gcflip_heap_step_flip(&heap, &pairs) == GCFLIP_NOT_READY && pairs == 77);
    EXPECT(gcflip_heap_work(&heap, 1000, &work) == GCFLIP_DONE && work.last == GCFLIP_FLIPPED && work.pairs == 2);
    refers(d, GCFLIP_OBJECT, KIND, 1);
    close_heap();
}

/* A handle without a heap, before it is opened and after it is closed. */
static void closed(void)
{
    static const uint32_t numbers[] = {0, 255, UINT32_MAX};
    uint32_t at = 77;
    for (size_t k = 0; k < COUNT(numbers); k++) {
        const uint32_t p = numbers[k];
        EXPECT(gcflip_new_raw(&heap, p, p, p) == GCFLIP_CLOSED && gcflip_new_pair(&heap, p, p, p, p, p) == GCFLIP_CLOSED);
        EXPECT(gcflip_new_from(&heap, p, p, p, numbers, COUNT(numbers)) == GCFLIP_CLOSED && gcflip_gather(&heap, p, p, p, p, p) == GCFLIP_CLOSED);
        EXPECT(gcflip_spread(&heap, p, p, p) == GCFLIP_CLOSED && gcflip_refer(&heap, p, p) == GCFLIP_CLOSED);
        EXPECT(gcflip_address(&heap, p, &at) == GCFLIP_CLOSED && gcflip_moved(&heap, p, &at) == GCFLIP_CLOSED);
    }
    EXPECT(heap.at == NULL && at == 77);
}

int main(void)
{
    closed();
    raw();
    made();
    ends();
    spreads();
    refusals();
    for (uint8_t checking = GCFLIP_ALONG; checking <= GCFLIP_AT_FLIP; checking++) {
        while_open(checking);
        addresses(checking);
        referred_while_ready(3, checking);
        referred_while_ready(SLOTS - 1, checking);
        referred_while_ready(SLOTS, checking);
        referred_while_ready(PLACES - 1, checking);
    }
    closed();
    return 0;
}
