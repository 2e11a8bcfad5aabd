/* Random commands and steps on heaps whose checker goes along, with a check of both spaces whole at each 100th flip: soak SECONDS SEED. Prints figures as
 * NAME=NUMBER. tests/long/run soak runs it.
 *
 * Beside the heap there is the same graph of objects in C, with a number for each object, which is also what field 0 of the object holds. All replies
 * are compared with it, each object that is reached is recognized by its number, and now and then an image of the heap is compared with the
 * whole graph. A heap is closed after two million commands, and one of another size is opened. The standing checker is never lost: the
 * heap tells so many flips along, and so many whole ones, as the program expects. */
#include "one_heap.h"
#include <stdbool.h>
#include <string.h>
#include <time.h>

enum { NIL = 0, WHOLE_EACH = 100, MOST_OBJECTS = 1 << 16, MOST_EXTRA = 1000, MOST_VALUES = 16 + 16 * 16 + MOST_EXTRA, LONGEST = 700, EACH_SESSION = 2000000 };
/* Own slots for numbers alone, and shared ones for large objects, through which most others are reached. */
enum { NUMBER = 15, SEEN = 14, FREE_SLOTS = 14, ANCHORS = 28, ANCHOR_COUNT = 4, FREE_SHARED = ANCHORS - 16 };

/* A value as the heap's words have it, with the number of an object in place of its address. */
typedef uint64_t value;

typedef struct object {
    value *fields; /* NULL if no object has this number */
    uint32_t count;
    uint8_t kind;
    bool is_raw, is_marked;
} object;

static object objects[MOST_OBJECTS];
static uint32_t unused[MOST_OBJECTS], unused_count, reached[MOST_OBJECTS];
static value values[MOST_VALUES]; /* of the slots as an image has them, and of the extra roots */
static uint64_t words_read[LONGEST];
static uint8_t mutators;
static uint32_t size, extra, session_flips, flips;
static uint64_t state, commands, compared, sessions, checks, dropped, whole;

static uint32_t below(uint32_t end)
{
    state += 11400714819323198485u;
    uint64_t mixed = (state ^ state >> 30) * 13787848793156543929u;
    mixed = (mixed ^ mixed >> 27) * 10723151780598845931u;
    return (uint32_t)((mixed ^ mixed >> 31) >> 32) % end;
}

static bool is_reference(value v)
{
    return v != NIL && v % 2 == 0;
}

static value *value_of(uint8_t m, uint8_t s)
{
    return &values[s < 16 ? 16 + 16 * m + s : s - 16];
}

static value *extra_value(uint32_t k)
{
    return &values[gcflip_heap_root_count(mutators) + k];
}

static uint32_t value_count(void)
{
    return (uint32_t)gcflip_heap_root_count(mutators) + extra;
}

/* ---- The graph */

static void forget_unreached(void)
{
    uint32_t count = 0;
    for (uint32_t k = 0; k < value_count(); k++) {
        if (is_reference(values[k]) && !objects[values[k] / 2].is_marked) {
            objects[values[k] / 2].is_marked = true;
            reached[count++] = (uint32_t)(values[k] / 2);
        }
    }
    while (count > 0) {
        object *o = &objects[reached[--count]];
        for (uint32_t i = 0; i < o->count && !o->is_raw; i++) {
            value v = o->fields[i];
            if (is_reference(v) && !objects[v / 2].is_marked) {
                objects[v / 2].is_marked = true;
                reached[count++] = (uint32_t)(v / 2);
            }
        }
    }
    unused_count = 0;
    for (uint32_t k = MOST_OBJECTS - 1; k > 0; k--) {
        if (!objects[k].is_marked) {
            free(objects[k].fields);
            objects[k].fields = NULL;
            unused[unused_count++] = k;
        }
        objects[k].is_marked = false;
    }
}

static uint32_t new_number(void)
{
    if (unused_count == 0)
        forget_unreached();
    EXPECT(unused_count > 0);
    return unused[--unused_count];
}

static object *remember(uint32_t n, uint8_t kind, bool is_raw, uint32_t count)
{
    object *o = &objects[n];
    free(o->fields);
    o->fields = calloc(count + 1, sizeof *o->fields);
    EXPECT(o->fields != NULL);
    o->kind = kind;
    o->is_raw = is_raw;
    o->count = count;
    return o;
}

/* Compares an image of the heap with all that the graph reaches. */
static void compare_all(void)
{
    static uint32_t at[MOST_OBJECTS];
    uint32_t count = 0;
    size_t roots = value_count();
    EXPECT(gcflip_heap_counts(&heap, &counts) == GCFLIP_DONE);
    uint64_t *words = calloc(counts.end, sizeof *words), *image_roots = calloc(roots, sizeof *image_roots);
    EXPECT(words != NULL && image_roots != NULL && gcflip_heap_image(&heap, words, counts.end, image_roots, roots) == GCFLIP_DONE);
    memset(at, 0, sizeof at);
    for (size_t k = 0; k <= roots + count; k++) {
        /* the roots, and then the objects that were reached */
        const object *o = k < roots ? NULL : &objects[reached[k - roots]];
        if (k == roots + count)
            break;
        for (uint32_t i = 0; i < (o ? o->count : 1); i++) {
            value v = o ? o->fields[i] : values[k];
            uint64_t word = o ? words[at[reached[k - roots]] + 2 + i] : image_roots[k];
            if (o && o->is_raw) {
                EXPECT(2 * word + 1 == v);
            } else if (!is_reference(v)) {
                EXPECT(word == v);
            } else {
                const object *target = &objects[v / 2];
                EXPECT(word % 2 == 0 && word > 0 && word / 2 < counts.end && (at[v / 2] == 0 || at[v / 2] == word / 2));
                if (at[v / 2] == 0) {
                    at[v / 2] = (uint32_t)(word / 2);
                    reached[count++] = (uint32_t)(v / 2);
                    EXPECT(words[word / 2] == 16777216u + 65536u * target->kind + target->count + (target->is_raw ? 33554432u : 0));
                }
            }
        }
    }
    free(words);
    free(image_roots);
    compared++;
}

/* ---- Steps */

static void flipped(uint32_t last)
{
    gcflip_flip_checks told = {0, 0};
    EXPECT(last != GCFLIP_FLIP_REFUSED);
    if (last != GCFLIP_FLIPPED)
        return;
    session_flips++;
    flips++;
    EXPECT(gcflip_heap_flip_checks(&heap, &told) == GCFLIP_DONE);
    EXPECT(told.whole == session_flips / WHOLE_EACH && told.along == session_flips - told.whole);
    whole += session_flips % WHOLE_EACH == 0;
    if (below(50) == 0)
        compare_all();
}

static uint32_t work_on(uint32_t most)
{
    EXPECT(gcflip_heap_work(&heap, most, &work) == GCFLIP_DONE && work.steps <= most && (work.steps > 0 || work.looks > 0));
    flipped(work.last);
    return work.last;
}

static void give_up(void)
{
    uint32_t answer = gcflip_heap_step_give_up(&heap);
    EXPECT(answer == GCFLIP_DROPPED || answer == GCFLIP_IDLE);
    dropped += answer == GCFLIP_DROPPED;
}

/* Begins with a new space of any size, and works until it has no room or flips. */
static void another_size(void)
{
    uint32_t answer = gcflip_heap_step_begin_sized(&heap, 1 + below(2 * size));
    EXPECT(answer == GCFLIP_BEGUN || answer == GCFLIP_BUSY);
    if (answer == GCFLIP_BEGUN && work_on(UINT32_MAX) == GCFLIP_NO_ROOM)
        give_up();
    EXPECT(gcflip_heap_counts(&heap, &counts) == GCFLIP_DONE);
    if (!counts.is_open && counts.size != size) {
        EXPECT(gcflip_heap_step_begin_sized(&heap, size) == GCFLIP_BEGUN);
        EXPECT(work_on(UINT32_MAX) == GCFLIP_FLIPPED);
    }
}

/* If the collection is ready for its flip, a check of both spaces whole says yes, and changes nothing. */
static void check_if_ready(void)
{
    gcflip_step step = {0, 0};
    gcflip_verdict verdict = {0, 0, 0, 0};
    EXPECT(gcflip_heap_useful(&heap, &step) == GCFLIP_DONE);
    if (step.name == GCFLIP_STEP_FLIP) {
        EXPECT(gcflip_heap_check(&heap, &verdict) == GCFLIP_YES);
        checks++;
    }
}

static void single_step(void)
{
    uint32_t pairs = 0, answer = GCFLIP_IDLE;
    switch (below(5)) {
    case 0:
        answer = gcflip_heap_step_begin(&heap);
        EXPECT(answer == GCFLIP_BEGUN || answer == GCFLIP_BUSY);
        return;
    case 1:
        answer = gcflip_heap_step_roots(&heap);
        break;
    case 2:
        answer = gcflip_heap_step_scan(&heap);
        break;
    case 3:
        answer = gcflip_heap_step_apply(&heap, (uint8_t)below(mutators));
        break;
    default:
        answer = gcflip_heap_step_flip(&heap, &pairs);
        flipped(answer);
    }
    EXPECT(!GCFLIP_IS_REFUSED(answer) && answer != GCFLIP_NO_ROOM);
}

/* Makes room for an object. If live data fill the heap, most roots let go of theirs. */
static void make_room(uint32_t words)
{
    EXPECT(gcflip_heap_counts(&heap, &counts) == GCFLIP_DONE);
    for (uint32_t turn = 0; counts.free < words; turn++) {
        EXPECT(turn < 5);
        if (turn > 0) {
            for (uint8_t m = 0; m < mutators; m++) {
                for (uint8_t s = 0; s < 32; s++) {
                    EXPECT(gcflip_heap_set_nil(&heap, m, s) == GCFLIP_DONE);
                    *value_of(m, s) = NIL;
                }
            }
            EXPECT(gcflip_heap_root_clear(&heap, 0, extra) == GCFLIP_DONE);
            for (uint32_t k = 0; k < extra; k++)
                *extra_value(k) = NIL;
        }
        EXPECT(work_on(UINT32_MAX) == GCFLIP_FLIPPED);
        EXPECT(work_on(UINT32_MAX) == GCFLIP_FLIPPED);
        EXPECT(gcflip_heap_counts(&heap, &counts) == GCFLIP_DONE);
    }
}

/* ---- Commands */

static uint8_t any_slot(void)
{
    uint8_t slot = (uint8_t)below(FREE_SLOTS + FREE_SHARED);
    return slot < FREE_SLOTS ? slot : (uint8_t)(slot + 16 - FREE_SLOTS);
}

/* Returns a slot to read, or one whose object is read or written. */
static uint8_t any_source(void)
{
    return below(2) == 0 ? any_slot() : (uint8_t)(ANCHORS + below(ANCHOR_COUNT));
}

static void set_number(uint8_t m, uint64_t n)
{
    EXPECT(gcflip_heap_set_number(&heap, m, NUMBER, n) == GCFLIP_DONE);
    *value_of(m, NUMBER) = 2 * n + 1;
}

/* The slot refers to what the graph says. */
static void recognize(uint8_t m, uint8_t s)
{
    value v = *value_of(m, s);
    uint32_t answer = gcflip_heap_look(&heap, m, s, &view);
    if (!is_reference(v)) {
        EXPECT(answer == (v == NIL ? GCFLIP_NIL : GCFLIP_NUMBER) && view.number == v / 2);
        return;
    }
    const object *o = &objects[v / 2];
    EXPECT(answer == (o->is_raw ? GCFLIP_RAW_OBJECT : GCFLIP_OBJECT) && view.kind == o->kind && view.count == o->count);
    EXPECT(gcflip_heap_get(&heap, m, SEEN, s, 0, &number) == GCFLIP_NUMBER && number == v / 2);
    *value_of(m, SEEN) = 2 * number + 1;
}

static void make(uint8_t m, uint8_t d, uint32_t count, bool is_raw)
{
    uint32_t n = new_number(), kind = below(4);
    make_room(count + 2);
    set_number(m, n);
    EXPECT((is_raw ? gcflip_heap_new_raw : gcflip_heap_new_object)(&heap, m, d, (uint8_t)kind, (uint16_t)count) == GCFLIP_MADE);
    object *o = remember(n, (uint8_t)kind, is_raw, count);
    for (uint32_t i = 0; i < count; i++)
        o->fields[i] = is_raw ? 1 : NIL;
    EXPECT(gcflip_heap_put(&heap, m, d, 0, NUMBER) == GCFLIP_DONE);
    o->fields[0] = 2 * (value)n + 1;
    *value_of(m, d) = 2 * (value)n;
}

/* An object whose fields take the values of slots: two of them by new_pair, or as many as there are. Slot d is set first. */
static void make_from(uint8_t m, uint8_t d)
{
    uint8_t fields[9] = {NUMBER};
    uint32_t n = new_number(), count = below(2) == 0 ? 2 : 1 + below(9);
    make_room(count + 2);
    set_number(m, n);
    for (uint32_t i = 1; i < count; i++)
        fields[i] = any_slot();
    uint32_t answer = count == 2 && below(2) == 0 ? gcflip_heap_new_pair(&heap, m, d, 7, NUMBER, fields[1]) : gcflip_heap_new_from(&heap, m, d, 7, fields, count);
    EXPECT(answer == GCFLIP_MADE);
    object *o = remember(n, 7, false, count);
    *value_of(m, d) = 2 * (value)n;
    for (uint32_t i = 0; i < count; i++)
        o->fields[i] = *value_of(m, fields[i]);
}

static void put(uint8_t m, uint8_t s, uint8_t t)
{
    value v = *value_of(m, s), written = *value_of(m, t);
    object *o = is_reference(v) ? &objects[v / 2] : NULL;
    uint32_t i = o == NULL ? 0 : 1 + below(o->count);
    uint32_t answer = gcflip_heap_put(&heap, m, s, (uint16_t)i, t);
    if (o == NULL) {
        EXPECT(answer == GCFLIP_NO_OBJECT);
    } else if (i == o->count) {
        EXPECT(answer == GCFLIP_NO_FIELD);
    } else if (o->is_raw && written % 2 == 0) {
        EXPECT(answer == GCFLIP_NO_NUMBER);
    } else {
        EXPECT(answer == GCFLIP_DONE);
        o->fields[i] = written;
    }
}

static void get(uint8_t m, uint8_t d, uint8_t s)
{
    value v = *value_of(m, s);
    const object *o = is_reference(v) ? &objects[v / 2] : NULL;
    uint32_t i = o == NULL ? 0 : below(o->count + 1);
    uint32_t answer = gcflip_heap_get(&heap, m, d, s, (uint16_t)i, &number);
    if (o == NULL || i == o->count) {
        EXPECT(answer == (o == NULL ? GCFLIP_NO_OBJECT : GCFLIP_NO_FIELD));
        return;
    }
    EXPECT(answer == (o->fields[i] == NIL ? GCFLIP_NIL : is_reference(o->fields[i]) ? GCFLIP_OBJECT : GCFLIP_NUMBER));
    EXPECT(answer != GCFLIP_NUMBER || number == o->fields[i] / 2);
    *value_of(m, d) = o->fields[i];
    recognize(m, d);
}

/* Writes numbers behind field 0 of a raw object at once, and reads them all. */
static void raw_words(uint8_t m, uint8_t s)
{
    uint64_t written[LONGEST] = {0};
    value v = *value_of(m, s);
    object *o = is_reference(v) ? &objects[v / 2] : NULL;
    if (o == NULL || !o->is_raw) {
        EXPECT(gcflip_heap_raw_write(&heap, m, s, 0, NUMBER, written, 1) == GCFLIP_NO_OBJECT);
        return;
    }
    uint32_t first = 1 + below(o->count), count = below(o->count - first + 1);
    for (uint32_t i = 0; i < count; i++)
        written[i] = (uint64_t)below(UINT32_MAX) << below(32);
    bool has_wrong = count > 0 && below(10) == 0;
    if (has_wrong)
        written[below(count)] = (uint64_t)1 << 63;
    EXPECT(gcflip_heap_raw_write(&heap, m, s, (uint16_t)first, NUMBER, written, count) == (has_wrong ? GCFLIP_NO_NUMBER : GCFLIP_DONE));
    for (uint32_t i = 0; i < count && !has_wrong; i++)
        o->fields[first + i] = *value_of(m, NUMBER) = 2 * written[i] + 1;
    EXPECT(gcflip_heap_raw_read(&heap, m, s, 0, words_read, o->count) == GCFLIP_DONE);
    for (uint32_t i = 0; i < o->count; i++)
        EXPECT(2 * words_read[i] + 1 == o->fields[i]);
}

static void use_extra_root(uint8_t m, uint8_t s)
{
    if (extra == 0)
        return;
    uint32_t k = below(extra);
    switch (below(5)) {
    case 0: case 1:
        EXPECT(gcflip_heap_root_store(&heap, m, k, s) == GCFLIP_DONE);
        *extra_value(k) = *value_of(m, s);
        break;
    case 2: case 3:
        EXPECT(gcflip_heap_root_load(&heap, m, s, k) == GCFLIP_DONE);
        *value_of(m, s) = *extra_value(k);
        recognize(m, s);
        break;
    default:
        EXPECT(gcflip_heap_root_clear(&heap, k, k + (extra - k < 20 ? extra - k : 20)) == GCFLIP_DONE);
        for (uint32_t j = k; j < extra && j < k + 20; j++)
            *extra_value(j) = NIL;
    }
}

static uint32_t any_length(void)
{
    uint32_t longest = size / 100 < LONGEST ? size / 100 : LONGEST;
    return below(20) == 0 ? 1 + below(longest) : 1 + below(6);
}

static void make_anchors(void)
{
    for (uint8_t s = ANCHORS; s < ANCHORS + ANCHOR_COUNT; s++)
        if (*value_of(0, s) == NIL)
            make(0, s, 2 + size / 200, false);
}

static void command(void)
{
    uint8_t m = (uint8_t)below(mutators), d = any_slot(), s = any_source();
    make_anchors();
    commands++;
    switch (below(26)) {
    case 24: case 25:
        make(m, d, any_length(), below(4) == 0);
        put(m, (uint8_t)(ANCHORS + below(ANCHOR_COUNT)), d);
        break;
    case 0: case 1:
        make(m, d, any_length(), below(4) == 0);
        break;
    case 2: case 3:
        make_from(m, d);
        break;
    case 4:
        EXPECT(gcflip_heap_set_nil(&heap, m, d) == GCFLIP_DONE);
        *value_of(m, d) = NIL;
        break;
    case 5: case 6:
        EXPECT(gcflip_heap_move(&heap, m, d, s) == GCFLIP_DONE);
        *value_of(m, d) = *value_of(m, s);
        break;
    case 7:
        EXPECT(gcflip_heap_same(&heap, m, d, s) == (*value_of(m, d) == *value_of(m, s) ? GCFLIP_SAME : GCFLIP_NOT_SAME));
        break;
    case 8: case 9: case 10: case 11:
        get(m, d, s);
        break;
    case 12: case 13: case 14: case 15:
        put(m, s, d);
        break;
    case 16:
        raw_words(m, s);
        break;
    case 17: case 18:
        use_extra_root(m, s);
        break;
    case 19:
        recognize(m, s);
        break;
    case 20:
        if (below(2000) == 0)
            another_size();
        else if (below(2000) == 0)
            give_up();
        else
            single_step();
        break;
    default:
        if (work_on(1 + below(100)) != GCFLIP_FLIPPED)
            check_if_ready();
    }
}

/* One heap, until it has had its commands or the time is over. */
static void session(time_t end)
{
    gcflip_options options = gcflip_options_default(2000u << below(8), (uint8_t)(1 + below(16)));
    options.extra_roots = below(2) == 0 ? 0 : 1 + below(MOST_EXTRA);
    options.whole_each = WHOLE_EACH;
    size = options.size;
    mutators = options.mutators;
    extra = options.extra_roots;
    session_flips = 0;
    memset(values, 0, sizeof values);
    forget_unreached();
    EXPECT(gcflip_heap_open(&heap, &options) == GCFLIP_DONE);
    for (uint32_t n = 0; n < EACH_SESSION && (n % 1000 != 0 || time(NULL) < end); n++)
        command();
    compare_all();
    close_heap();
    sessions++;
}

int main(int count, char **words)
{
    time_t end = time(NULL) + (count > 1 ? atol(words[1]) : 1);
    state = count > 2 ? strtoull(words[2], NULL, 10) : 1;
    do
        session(end);
    while (time(NULL) < end);
    memset(values, 0, sizeof values);
    forget_unreached();
    printf("commands=%llu flips=%u whole=%llu images=%llu checks=%llu given_up=%llu heaps=%llu\n", (unsigned long long)commands, flips,
           (unsigned long long)whole, (unsigned long long)compared, (unsigned long long)checks, (unsigned long long)dropped, (unsigned long long)sessions);
    return 0;
}
