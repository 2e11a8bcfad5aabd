/* Tests the calls by places that write several fields, or one without a root for its value, with each answer: objects whose fields take numbers and roots'
 * values, copies of fields, one value for many fields, a put that cannot lack memory; and a field that is read by its object's address. */

enum { KIND = 3, MUTATORS = 2, EXTRA = 4 };

#include "by_places.h"

/* Expects that field i of the object in root s holds this number. */
static void has(uint32_t s, uint32_t i, uint64_t wanted)
{
    EXPECT(gcflip_peek(&heap, s, i, &view) == GCFLIP_NUMBER && view.number == wanted);
}

static void has_nil(uint32_t s, uint32_t i)
{
    EXPECT(gcflip_peek(&heap, s, i, &view) == GCFLIP_NIL);
}

/* Expects that it refers to the object that root t refers to. Root 15 takes the value. */
static void has_object(uint32_t s, uint32_t i, uint32_t t)
{
    EXPECT(gcflip_get(&heap, 15, s, i, &number) == GCFLIP_OBJECT && gcflip_same(&heap, 15, t) == GCFLIP_SAME);
}

/* Expects that root p holds this number. */
static void holds(uint32_t p, uint64_t wanted)
{
    EXPECT(gcflip_look(&heap, p, &view) == GCFLIP_NUMBER && view.number == wanted);
}

/* Puts the numbers 100 on into the roots. */
static void number_roots(void)
{
    for (uint32_t p = 0; p < PLACES; p++)
        EXPECT(gcflip_set_number(&heap, p, 100 + p) == GCFLIP_DONE);
}

/* Makes an object with these numbers in root d. */
static void make_numbers(uint32_t d, uint32_t count, uint64_t first)
{
    EXPECT(gcflip_new(&heap, d, KIND, count) == GCFLIP_MADE);
    for (uint32_t i = 0; i < count; i++)
        EXPECT(gcflip_put_number(&heap, 0, d, i, first + i) == GCFLIP_DONE);
}

/* Fields take nil, numbers, and the values of roots of all three sorts; no root but the object's changes, also not those beside it. */
static void made_with(uint32_t d)
{
    const uint32_t extra = SLOTS + 1;
    const gcflip_field fields[] = {{GCFLIP_FIELD_ROOT, d},     {GCFLIP_FIELD_NUMBER, 9223372036854775807u}, {GCFLIP_FIELD_NIL, UINT64_MAX},
                                   {GCFLIP_FIELD_ROOT, extra}, {GCFLIP_FIELD_NUMBER, 0},                   {GCFLIP_FIELD_ROOT, 5}};
    open_heap(40, GCFLIP_ALONG);
    number_roots();
    EXPECT(gcflip_new_with(&heap, 1, d, KIND, fields, COUNT(fields)) == GCFLIP_MADE && gcflip_room(&heap) == 31);
    for (uint32_t p = 0; p < PLACES; p++)
        if (p != d)
            holds(p, 100 + p);
    EXPECT(gcflip_look(&heap, d, &view) == GCFLIP_OBJECT && view.kind == KIND && view.count == 6);
    EXPECT(gcflip_peek(&heap, d, 0, &view) == GCFLIP_OBJECT && view.kind == KIND && view.count == 6); /* root d was set first */
    has(d, 1, 9223372036854775807u);
    has_nil(d, 2);
    if (d != extra)
        has(d, 3, 100 + extra);
    has(d, 4, 0);
    if (d != 5)
        has(d, 5, 105);
    EXPECT(gcflip_new_with(&heap, 0, d, 255, fields, 0) == GCFLIP_MADE && gcflip_room(&heap) == 29);
    EXPECT(gcflip_new_with(&heap, 0, 2, KIND, fields + 1, 1) == GCFLIP_MADE && gcflip_room(&heap) == 26);
    close_heap();
}

/* A heap that is full keeps the root, and asks for no look at it. */
static void full_with(void)
{
    static const gcflip_field fields[] = {{GCFLIP_FIELD_NUMBER, 5}, {GCFLIP_FIELD_NUMBER, 6}};
    open_heap(4, GCFLIP_ALONG);
    EXPECT(gcflip_new_with(&heap, 0, SLOTS + 3, KIND, fields, 2) == GCFLIP_FULL && gcflip_new_with(&heap, 0, 0, KIND, fields, 2) == GCFLIP_FULL);
    EXPECT(gcflip_look(&heap, SLOTS + 3, &view) == GCFLIP_NIL && gcflip_room(&heap) == 3);
    EXPECT(gcflip_heap_counts(&heap, &counts) == GCFLIP_DONE && counts.roots_left == 0);
    EXPECT(gcflip_new(&heap, SLOTS + 3, KIND, 2) == GCFLIP_FULL && gcflip_new_raw(&heap, SLOTS + 3, KIND, 2) == GCFLIP_FULL);
    EXPECT(gcflip_new_pair(&heap, 0, SLOTS + 3, KIND, 0, 0) == GCFLIP_FULL && gcflip_gather(&heap, 0, SLOTS + 3, KIND, 0, 2) == GCFLIP_FULL);
    EXPECT(gcflip_get(&heap, SLOTS + 3, 0, 0, &number) == GCFLIP_NO_OBJECT && gcflip_refer(&heap, SLOTS + 3, 1) == GCFLIP_NO_OBJECT);
    EXPECT(gcflip_new(&heap, 0, KIND, 1) == GCFLIP_MADE && gcflip_get(&heap, SLOTS + 3, 0, 1, &number) == GCFLIP_NO_FIELD);
    EXPECT(gcflip_heap_counts(&heap, &counts) == GCFLIP_DONE && counts.roots_left == 0);
    EXPECT(gcflip_get(&heap, SLOTS + 1, 0, 0, &number) == GCFLIP_NIL);
    EXPECT(gcflip_heap_counts(&heap, &counts) == GCFLIP_DONE && counts.roots_left == 2); /* extra roots 0 and 1 may be in use */
    close_heap();
}

/* Copies between two objects, and within one in both directions: upwards, a field that was written is read as it was written. */
static void copies(void)
{
    const uint32_t one = 16, other = SLOTS;
    open_heap(80, GCFLIP_ALONG);
    make_numbers(one, 5, 10);
    make_numbers(other, 4, 20);
    EXPECT(gcflip_put_nil(&heap, 0, other, 1) == GCFLIP_DONE && gcflip_put(&heap, 0, other, 2, one) == GCFLIP_DONE);
    EXPECT(gcflip_copy_fields(&heap, 0, one, 1, other, 0, 3) == GCFLIP_DONE);
    has(one, 0, 10);
    has(one, 1, 20);
    has_nil(one, 2);
    has_object(one, 3, one);
    has(one, 4, 14);
    make_numbers(one, 5, 10);
    EXPECT(gcflip_copy_fields(&heap, 1, one, 0, one, 2, 3) == GCFLIP_DONE); /* downwards: 12 13 14 13 14 */
    has(one, 0, 12);
    has(one, 1, 13);
    has(one, 2, 14);
    has(one, 3, 13);
    EXPECT(gcflip_copy_fields(&heap, 0, one, 1, one, 0, 3) == GCFLIP_DONE); /* upwards: 12 12 12 12 14 */
    for (uint32_t i = 0; i < 4; i++)
        has(one, i, 12);
    has(one, 4, 14);
    close_heap();
}

/* Copies from and to raw objects, and each answer but that of a failed allocation. */
static void raw_copies(void)
{
    const uint32_t raw = 1, plain = 17;
    open_heap(60, GCFLIP_ALONG);
    EXPECT(gcflip_new_raw(&heap, raw, KIND, 3) == GCFLIP_MADE);
    make_numbers(plain, 4, 30);
    EXPECT(gcflip_put_number(&heap, 0, raw, 2, 9223372036854775807u) == GCFLIP_DONE);
    EXPECT(gcflip_copy_fields(&heap, 0, plain, 3, raw, 2, 1) == GCFLIP_DONE && gcflip_copy_fields(&heap, 0, raw, 0, plain, 1, 2) == GCFLIP_DONE);
    has(plain, 3, 9223372036854775807u);
    has(raw, 0, 31);
    has(raw, 1, 32);
    has(raw, 2, 9223372036854775807u);
    EXPECT(gcflip_copy_fields(&heap, 0, raw, 1, raw, 0, 2) == GCFLIP_DONE);
    has(raw, 2, 31);
    EXPECT(gcflip_put_nil(&heap, 0, plain, 2) == GCFLIP_DONE && gcflip_copy_fields(&heap, 0, raw, 0, plain, 1, 2) == GCFLIP_NO_NUMBER);
    EXPECT(gcflip_put(&heap, 0, plain, 2, raw) == GCFLIP_DONE && gcflip_copy_fields(&heap, 0, raw, 0, plain, 1, 2) == GCFLIP_NO_NUMBER);
    for (uint32_t i = 0; i < 3; i++)
        has(raw, i, 31);
    EXPECT(gcflip_copy_fields(&heap, 0, raw, 0, plain, 0, 2) == GCFLIP_DONE);
    has(raw, 0, 30);
    EXPECT(gcflip_copy_fields(&heap, 0, plain, 2, raw, 0, 3) == GCFLIP_NO_FIELD && gcflip_copy_fields(&heap, 0, plain, 0, raw, 1, 3) == GCFLIP_NO_FIELD);
    EXPECT(gcflip_copy_fields(&heap, 0, plain, 5, raw, 0, 0) == GCFLIP_NO_FIELD && gcflip_copy_fields(&heap, 0, plain, 0, raw, 4, 0) == GCFLIP_NO_FIELD);
    EXPECT(gcflip_copy_fields(&heap, 0, plain, UINT32_MAX, raw, 0, 2) == GCFLIP_NO_FIELD && gcflip_copy_fields(&heap, 0, plain, 0, raw, UINT32_MAX, 2) == GCFLIP_NO_FIELD);
    EXPECT(gcflip_copy_fields(&heap, 0, plain, 0, raw, 0, 65536) == GCFLIP_NO_FIELD && gcflip_copy_fields(&heap, 0, plain, 65536, raw, 65536, 1) == GCFLIP_NO_FIELD);
    EXPECT(gcflip_copy_fields(&heap, 0, plain, 0, raw, 0, UINT32_MAX) == GCFLIP_NO_FIELD);
    EXPECT(gcflip_copy_fields(&heap, 0, plain, 4, raw, 3, 0) == GCFLIP_DONE);
    EXPECT(gcflip_copy_fields(&heap, 0, 2, 0, plain, 0, 0) == GCFLIP_NO_OBJECT && gcflip_copy_fields(&heap, 0, plain, 0, 2, 0, 0) == GCFLIP_NO_OBJECT);
    EXPECT(gcflip_set_number(&heap, 2, 2) == GCFLIP_DONE && gcflip_copy_fields(&heap, 0, 2, 0, plain, 0, 1) == GCFLIP_NO_OBJECT);
    close_heap();
}

/* One value for a range of fields, of a plain and of a raw object. */
static void fills(void)
{
    open_heap(60, GCFLIP_ALONG);
    make_numbers(16, 5, 10);
    EXPECT(gcflip_fill(&heap, 0, 16, 1, 4, 16) == GCFLIP_DONE);
    has(16, 0, 10);
    for (uint32_t i = 1; i < 4; i++)
        has_object(16, i, 16);
    has(16, 4, 14);
    EXPECT(gcflip_fill(&heap, 1, 16, 4, 5, 3) == GCFLIP_DONE && gcflip_fill(&heap, 0, 16, 3, 3, 3) == GCFLIP_DONE && gcflip_fill(&heap, 0, 16, 5, 5, 3) == GCFLIP_DONE);
    has_nil(16, 4);
    has_object(16, 3, 16);
    EXPECT(gcflip_fill(&heap, 0, 16, 5, 6, 3) == GCFLIP_NO_FIELD && gcflip_fill(&heap, 0, 16, 0, 6, 3) == GCFLIP_NO_FIELD);
    EXPECT(gcflip_fill(&heap, 0, 16, 6, 6, 3) == GCFLIP_NO_FIELD && gcflip_fill(&heap, 0, 16, 0, 65537, 3) == GCFLIP_NO_FIELD);
    EXPECT(gcflip_fill(&heap, 0, 16, 65536, 65536, 3) == GCFLIP_NO_FIELD && gcflip_fill(&heap, 0, 16, 0, UINT32_MAX, 3) == GCFLIP_NO_FIELD);
    has(16, 0, 10);
    EXPECT(gcflip_fill(&heap, 0, 3, 0, 0, 16) == GCFLIP_NO_OBJECT && gcflip_set_number(&heap, 3, 7) == GCFLIP_DONE && gcflip_fill(&heap, 0, 3, 0, 1, 16) == GCFLIP_NO_OBJECT);
    EXPECT(gcflip_new_raw(&heap, 17, KIND, 3) == GCFLIP_MADE && gcflip_fill(&heap, 0, 17, 1, 3, 3) == GCFLIP_DONE);
    has(17, 0, 0);
    has(17, 1, 7);
    has(17, 2, 7);
    EXPECT(gcflip_fill(&heap, 0, 17, 0, 3, 4) == GCFLIP_NO_NUMBER && gcflip_fill(&heap, 0, 17, 0, 1, 16) == GCFLIP_NO_NUMBER);
    EXPECT(gcflip_fill(&heap, 0, 17, 0, 4, 4) == GCFLIP_NO_FIELD);
    has(17, 0, 0);
    close_heap();
}

/* A put that cannot lack memory does what a put does. Where there is memory, an open collection stays open. */
static void sure_puts(void)
{
    size_t length = 77;
    open_heap(40, GCFLIP_ALONG);
    make_numbers(16, 2, 10);
    EXPECT(gcflip_new_raw(&heap, 17, KIND, 1) == GCFLIP_MADE && gcflip_heap_step_begin(&heap) == GCFLIP_BEGUN);
    EXPECT(gcflip_put_sure(&heap, 1, 16, 1, 17) == GCFLIP_DONE && gcflip_heap_log_length(&heap, 1, &length) == GCFLIP_DONE && length == 1);
    EXPECT(gcflip_heap_counts(&heap, &counts) == GCFLIP_DONE && counts.is_open == 1);
    EXPECT(gcflip_peek(&heap, 16, 1, &view) == GCFLIP_RAW_OBJECT);
    EXPECT(gcflip_put_sure(&heap, 0, 16, 2, 17) == GCFLIP_NO_FIELD && gcflip_put_sure(&heap, 0, 16, 65536, 17) == GCFLIP_NO_FIELD);
    EXPECT(gcflip_put_sure(&heap, 0, 3, 0, 17) == GCFLIP_NO_OBJECT && gcflip_put_sure(&heap, 0, 17, 0, 3) == GCFLIP_NO_NUMBER);
    EXPECT(gcflip_heap_counts(&heap, &counts) == GCFLIP_DONE && counts.is_open == 1 && counts.logged == 1);
    close_heap();
}

/* Expects what a read of a field by its object's address returns, and that the other call writes the same. */
static void field_is(uint32_t address, uint32_t i, uint32_t answer, uint32_t kind, uint32_t count, uint64_t number)
{
    gcflip_seen seen = gcflip_field_at_seen(&heap, address, i);
    EXPECT(seen.answer == answer && seen.kind == kind && seen.count == count && seen.number == number);
    view = (gcflip_view){77, 77, 77};
    EXPECT(gcflip_field_at(&heap, address, i, &view) == answer);
    EXPECT(answer == GCFLIP_NO_FIELD ? view.kind == 77 && view.count == 77 && view.number == 77 : view.kind == kind && view.count == count && view.number == number);
}

/* Fields by the address of their object, which need no root. */
static void fields_at(uint8_t checking)
{
    open_heap(40, checking);
    EXPECT(gcflip_field_at(&heap, 1, 0, &view) == GCFLIP_NIL && view.kind == 0 && view.count == 0 && view.number == 0);
    make_numbers(0, 3, 10); /* at 1 */
    EXPECT(gcflip_new_raw(&heap, 1, 255, 2) == GCFLIP_MADE); /* at 6 */
    EXPECT(gcflip_put(&heap, 0, 0, 1, 1) == GCFLIP_DONE && gcflip_put_nil(&heap, 0, 0, 2) == GCFLIP_DONE && gcflip_put_number(&heap, 0, 1, 1, 9223372036854775807u) == GCFLIP_DONE);
    EXPECT(gcflip_field_at(&heap, 1, 0, &view) == GCFLIP_NUMBER && view.number == 10 && view.kind == 0 && view.count == 0);
    EXPECT(gcflip_field_at(&heap, 1, 1, &view) == GCFLIP_RAW_OBJECT && view.kind == 255 && view.count == 2 && view.number == 6);
    EXPECT(gcflip_put(&heap, 0, 0, 1, 0) == GCFLIP_DONE && gcflip_field_at(&heap, 1, 1, &view) == GCFLIP_OBJECT);
    EXPECT(view.kind == KIND && view.count == 3 && view.number == 1);
    EXPECT(gcflip_field_at(&heap, 1, 2, &view) == GCFLIP_NIL && view.kind == 0 && view.count == 0 && view.number == 0);
    EXPECT(gcflip_field_at(&heap, 6, 0, &view) == GCFLIP_NUMBER && view.number == 0);
    EXPECT(gcflip_field_at(&heap, 6, 1, &view) == GCFLIP_NUMBER && view.number == 9223372036854775807u);
    field_is(1, 0, GCFLIP_NUMBER, 0, 0, 10);
    field_is(1, 1, GCFLIP_OBJECT, KIND, 3, 1);
    field_is(1, 2, GCFLIP_NIL, 0, 0, 0);
    field_is(1, 3, GCFLIP_NO_FIELD, 0, 0, 0);
    field_is(6, 1, GCFLIP_NUMBER, 0, 0, 9223372036854775807u);
    field_is(6, 65536, GCFLIP_NO_FIELD, 0, 0, 0);
    field_is(2, 0, GCFLIP_NIL, 0, 0, 0);
    EXPECT(gcflip_put(&heap, 0, 0, 2, 1) == GCFLIP_DONE);
    field_is(1, 2, GCFLIP_RAW_OBJECT, 255, 2, 6);
    EXPECT(gcflip_put_nil(&heap, 0, 0, 2) == GCFLIP_DONE);
    view = (gcflip_view){77, 77, 77};
    EXPECT(gcflip_field_at(&heap, 1, 3, &view) == GCFLIP_NO_FIELD && gcflip_field_at(&heap, 6, 2, &view) == GCFLIP_NO_FIELD);
    EXPECT(gcflip_field_at(&heap, 1, 65536, &view) == GCFLIP_NO_FIELD && gcflip_field_at(&heap, 6, UINT32_MAX, &view) == GCFLIP_NO_FIELD);
    EXPECT(view.kind == 77 && view.count == 77 && view.number == 77);
    for (uint32_t a = 0; a < 41; a++)
        if (a != 1 && a != 6)
            EXPECT(gcflip_field_at(&heap, a, 0, &view) == GCFLIP_NIL && view.number == 0);
    EXPECT(gcflip_field_at(&heap, UINT32_MAX, 0, &view) == GCFLIP_NIL && gcflip_field_at(&heap, 1u << 31, UINT32_MAX, &view) == GCFLIP_NIL);
    close_heap();
}

/* While a collection is open, each call logs the fields that it writes in its mutator's log, in order, and a flip sees them. */
static void while_open(uint8_t checking)
{
    static const gcflip_field fields[] = {{GCFLIP_FIELD_NUMBER, 5}, {GCFLIP_FIELD_NIL, 0}, {GCFLIP_FIELD_ROOT, 16}};
    static const uint32_t objects[] = {14, 14, 1, 1, 8, 8, 8};
    static const uint16_t numbers[] = {0, 2, 1, 2, 0, 1, 2};
    gcflip_log_entry entry;
    size_t length = 77;
    open_heap(80, checking);
    make_numbers(16, 5, 10); /* at 1 */
    make_numbers(17, 4, 20); /* at 8 */
    EXPECT(gcflip_heap_step_begin(&heap) == GCFLIP_BEGUN);
    while (gcflip_heap_step_roots(&heap) == GCFLIP_COPIED)
        ;
    while (gcflip_heap_step_scan(&heap) != GCFLIP_CLEAN)
        ;
    EXPECT(gcflip_new_with(&heap, 1, SLOTS, KIND, fields, COUNT(fields)) == GCFLIP_MADE); /* at 14 */
    EXPECT(gcflip_copy_fields(&heap, 1, 16, 1, 17, 0, 2) == GCFLIP_DONE && gcflip_fill(&heap, 1, 17, 0, 3, SLOTS) == GCFLIP_DONE);
    EXPECT(gcflip_heap_log_length(&heap, 1, &length) == GCFLIP_DONE && length == COUNT(objects));
    for (size_t k = 0; k < COUNT(objects); k++)
        EXPECT(gcflip_heap_log_entry(&heap, 1, k, &entry) == GCFLIP_DONE && entry.object == objects[k] && entry.field == numbers[k]);
    EXPECT(gcflip_heap_log_length(&heap, 0, &length) == GCFLIP_DONE && length == 0);
    EXPECT(gcflip_heap_work(&heap, 1000, &work) == GCFLIP_DONE && work.last == GCFLIP_FLIPPED && work.pairs == 3);
    has(SLOTS, 0, 5);
    has_nil(SLOTS, 1);
    has_object(SLOTS, 2, 16);
    has(16, 0, 10);
    has(16, 1, 20);
    has(16, 2, 21);
    has(16, 3, 13);
    for (uint32_t i = 0; i < 3; i++)
        has_object(17, i, SLOTS);
    has(17, 3, 23);
    close_heap();
}

static void refused_places(uint32_t p)
{
    const gcflip_field fields[] = {{GCFLIP_FIELD_NUMBER, 5}, {GCFLIP_FIELD_ROOT, p}};
    EXPECT(gcflip_new_with(&heap, 0, p, KIND, fields, 1) == GCFLIP_OUT_OF_RANGE && gcflip_new_with(&heap, 0, 3, KIND, fields, 2) == GCFLIP_OUT_OF_RANGE);
    EXPECT(gcflip_copy_fields(&heap, 0, p, 0, 16, 0, 1) == GCFLIP_OUT_OF_RANGE && gcflip_copy_fields(&heap, 0, 16, 0, p, 0, 1) == GCFLIP_OUT_OF_RANGE);
    EXPECT(gcflip_fill(&heap, 0, p, 0, 1, 16) == GCFLIP_OUT_OF_RANGE && gcflip_fill(&heap, 0, 16, 0, 1, p) == GCFLIP_OUT_OF_RANGE);
    EXPECT(gcflip_put_sure(&heap, 0, p, 0, 16) == GCFLIP_OUT_OF_RANGE && gcflip_put_sure(&heap, 0, 16, 0, p) == GCFLIP_OUT_OF_RANGE);
    EXPECT(gcflip_new_with(&heap, p, 3, KIND, fields, 1) == GCFLIP_OUT_OF_RANGE && gcflip_copy_fields(&heap, p, 16, 0, 16, 1, 1) == GCFLIP_OUT_OF_RANGE);
    EXPECT(gcflip_fill(&heap, p, 16, 0, 1, 16) == GCFLIP_OUT_OF_RANGE && gcflip_put_sure(&heap, p, 16, 0, 16) == GCFLIP_OUT_OF_RANGE);
}

static void refused_numbers(void)
{
    static const gcflip_field most[65536] = {{GCFLIP_FIELD_NIL, 0}};
    static const gcflip_field wrong[][2] = {{{GCFLIP_FIELD_NUMBER, 5}, {GCFLIP_FIELD_NUMBER, 1ull << 63}}, {{GCFLIP_FIELD_ROOT, 0}, {3, 0}},
                                            {{GCFLIP_FIELD_ROOT, 0}, {UINT32_MAX, 0}}, {{GCFLIP_FIELD_NIL, 0}, {GCFLIP_FIELD_ROOT, 1ull << 32}},
                                            {{GCFLIP_FIELD_NIL, 0}, {GCFLIP_FIELD_NUMBER, UINT64_MAX}}};
    for (size_t k = 0; k < COUNT(wrong); k++)
        EXPECT(gcflip_new_with(&heap, 0, 3, KIND, wrong[k], 2) == GCFLIP_OUT_OF_RANGE);
    EXPECT(gcflip_new_with(&heap, 0, 3, 256, most, 1) == GCFLIP_OUT_OF_RANGE && gcflip_new_with(&heap, 0, 3, UINT32_MAX, most, 1) == GCFLIP_OUT_OF_RANGE);
    EXPECT(gcflip_new_with(&heap, 0, 3, KIND, most, 65536) == GCFLIP_OUT_OF_RANGE && gcflip_new_with(&heap, 0, 3, KIND, most, 65535) == GCFLIP_FULL);
    EXPECT(gcflip_new_with(&heap, MUTATORS, 3, KIND, most, 1) == GCFLIP_OUT_OF_RANGE && gcflip_put_sure(&heap, MUTATORS, 16, 0, 16) == GCFLIP_OUT_OF_RANGE);
    EXPECT(gcflip_fill(&heap, MUTATORS, 16, 0, 1, 16) == GCFLIP_OUT_OF_RANGE && gcflip_copy_fields(&heap, MUTATORS, 16, 0, 16, 1, 1) == GCFLIP_OUT_OF_RANGE);
    EXPECT(gcflip_fill(&heap, 0, 16, 1, 0, 16) == GCFLIP_OUT_OF_RANGE && gcflip_fill(&heap, 0, 16, UINT32_MAX, 2, 16) == GCFLIP_OUT_OF_RANGE);
}

static void refusals(void)
{
    open_heap(30, GCFLIP_ALONG);
    number_roots();
    make_numbers(16, 2, 10);
    expect_unchanged(refused_places, refused_numbers);
    close_heap();
}

/* A handle without a heap, before it is opened and after it is closed. */
static void closed(void)
{
    static const uint32_t numbers[] = {0, 255, UINT32_MAX};
    static const gcflip_field fields[] = {{3, 0}};
    view = (gcflip_view){77, 77, 77};
    for (size_t k = 0; k < COUNT(numbers); k++) {
        const uint32_t p = numbers[k];
        EXPECT(gcflip_new_with(&heap, p, p, p, fields, 1) == GCFLIP_CLOSED && gcflip_copy_fields(&heap, p, p, p, p, p, p) == GCFLIP_CLOSED);
        EXPECT(gcflip_fill(&heap, p, p, p, p, p) == GCFLIP_CLOSED && gcflip_put_sure(&heap, p, p, p, p) == GCFLIP_CLOSED);
        EXPECT(gcflip_field_at(&heap, p, p, &view) == GCFLIP_CLOSED);
    }
    EXPECT(heap.at == NULL && view.kind == 77 && view.count == 77 && view.number == 77);
}

int main(void)
{
    closed();
    for (uint32_t d = 0; d < PLACES; d++)
        made_with(d);
    full_with();
    copies();
    raw_copies();
    fills();
    sure_puts();
    refusals();
    for (uint8_t checking = GCFLIP_ALONG; checking <= GCFLIP_AT_FLIP; checking++) {
        fields_at(checking);
        while_open(checking);
    }
    closed();
    return 0;
}
