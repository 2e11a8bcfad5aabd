/* Tests the calls of gcflip_images that make adapters short: references to objects that are placed later, tracing, arrays of words, a checked
   collection in two calls, the self-test by its adapter, and padding. Expected words and lines follow from the header. */
#include "expect.h"
#include "gcflip_images.h"
#include <string.h>

#define NUMBER(n) (2 * (uint64_t)(n) + 1)
#define IS_DOUBTFUL(word) ((word) % 2 == 0 && (word) >= (uint64_t)1 << 33)

static gcflip_collection *c;
static gcflip_snapshot *old_view, *new_view;
static gcflip_verdict verdict;

static void empty(void)
{
    gcflip_collection_clear(c);
    memset(&verdict, 255, sizeof verdict);
}

static bool is_verdict(uint32_t refusal, uint32_t pairs, uint64_t place, uint64_t field)
{
    return verdict.refusal == refusal && verdict.pairs == pairs && verdict.place == place && verdict.field == field;
}

static void expect_yes(uint32_t pairs)
{
    EXPECT(gcflip_collection_check(c, &verdict) == GCFLIP_YES);
    EXPECT(is_verdict(0, pairs, 0, 0));
}

static void expect_refused(uint32_t refusal, uint64_t place, uint64_t field)
{
    EXPECT(gcflip_collection_check(c, &verdict) == GCFLIP_REFUSED);
    EXPECT(is_verdict(refusal, 0, place, field));
}

static void expect_fault(uint32_t fault)
{
    EXPECT(gcflip_collection_check(c, &verdict) == GCFLIP_FAULTY);
    EXPECT(gcflip_collection_fault(c) == fault);
}

static uint64_t word_at(const gcflip_snapshot *snapshot, uint64_t place)
{
    return gcflip_snapshot_image(snapshot).words[place];
}

static uint64_t root_at(const gcflip_snapshot *snapshot, size_t root)
{
    return gcflip_snapshot_image(snapshot).roots[root];
}

/* Expects that this was printed, and frees it. */
static void expect_printed(char *printed, const char *wanted)
{
    if (strcmp(printed, wanted) != 0)
        fprintf(stderr, "%s", printed);
    EXPECT(strcmp(printed, wanted) == 0);
    free(printed);
}

static void expect_told(const char *wanted)
{
    char *text;
    size_t length;
    FILE *file = open_memstream(&text, &length);
    gcflip_collection_explain(c, NULL, file);
    fclose(file);
    expect_printed(text, wanted);
}

/* ---- References to objects that are placed later. */

/* A root and both fields of an object refer to two objects that are placed afterwards, at `first` and `second`. */
static void write_ahead(gcflip_snapshot *snapshot, uint64_t first, uint64_t second)
{
    gcflip_snapshot_root(snapshot, gcflip_snapshot_reference(snapshot, second));
    uint32_t at = gcflip_snapshot_object(snapshot, 100, 1, 2);
    gcflip_snapshot_set(snapshot, at, 0, gcflip_snapshot_reference(snapshot, first));
    gcflip_snapshot_set(snapshot, at, 1, gcflip_snapshot_reference(snapshot, second));
    gcflip_snapshot_root(snapshot, gcflip_snapshot_reference(snapshot, 100));
    gcflip_snapshot_object(snapshot, first, 2, 0);
    gcflip_snapshot_object(snapshot, second, 2, 0);
}

static void add_pairs(uint64_t first, uint64_t second)
{
    gcflip_collection_pair(c, 100, 100);
    gcflip_collection_pair(c, 200, first);
    gcflip_collection_pair(c, 300, second);
}

static void ahead(void)
{
    for (int infers = 0; infers < 2; infers++) {
        empty();
        write_ahead(old_view, 200, 300);
        write_ahead(new_view, 400, 500);
        EXPECT(IS_DOUBTFUL(word_at(old_view, 3)) && IS_DOUBTFUL(root_at(old_view, 0)));
        EXPECT(word_at(old_view, 3) != word_at(old_view, 4));
        add_pairs(400, 500);
        EXPECT((infers ? gcflip_collection_infer(c, &verdict) : gcflip_collection_check(c, &verdict)) == GCFLIP_YES && is_verdict(0, 3, 0, 0));
        EXPECT(word_at(old_view, 3) == 2 * 5 && word_at(old_view, 4) == 2 * 7 && root_at(old_view, 0) == 2 * 7 && root_at(old_view, 1) == 2);
        EXPECT(word_at(new_view, 3) == 2 * 5 && word_at(new_view, 4) == 2 * 7 && root_at(new_view, 0) == 2 * 7);
    }
    empty();
    write_ahead(old_view, 200, 300);
    write_ahead(new_view, 500, 400); /* with the pairs of the other order */
    add_pairs(400, 500);
    expect_refused(GCFLIP_FIELD_DIFFERS, 0, 0);
}

/* Where no object is ever placed, also where one is placed beside the address, the word stays doubtful. */
static void never_placed(void)
{
    static const uint64_t near[] = {199, 201, 204, 208, 192};
    for (size_t i = 0; i < COUNT(near); i++)
        for (int infers = 0; infers < 2; infers++) {
            empty();
            for (int side = 0; side < 2; side++) {
                gcflip_snapshot *snapshot = side == 0 ? old_view : new_view;
                gcflip_snapshot_root(snapshot, gcflip_snapshot_reference(snapshot, 200));
                gcflip_snapshot_object(snapshot, near[i], 1, 1);
                gcflip_snapshot_set(snapshot, 1, 0, 0);
            }
            EXPECT((infers ? gcflip_collection_infer(c, &verdict) : gcflip_collection_check(c, &verdict)) == GCFLIP_REFUSED);
            EXPECT(is_verdict(GCFLIP_ROOT_DIFFERS, 0, 0, 0) && IS_DOUBTFUL(root_at(old_view, 0)) && IS_DOUBTFUL(root_at(new_view, 0)));
            expect_told("refused 10 RootDiffers 0\n  root 0\n  before 0xc8: no object starts there\n  after  0xc8: no object starts there\n");
        }
    empty();
    write_ahead(old_view, 200, 300);
    gcflip_snapshot_clear(new_view);
    gcflip_snapshot_object(new_view, 100, 1, 2);
    gcflip_snapshot_set(new_view, 1, 0, gcflip_snapshot_reference(new_view, 200)); /* the collector did not update it */
    gcflip_snapshot_set(new_view, 1, 1, gcflip_snapshot_reference(new_view, 500));
    gcflip_snapshot_object(new_view, 400, 2, 0);
    gcflip_snapshot_object(new_view, 500, 2, 0);
    gcflip_snapshot_root(new_view, gcflip_snapshot_reference(new_view, 500));
    gcflip_snapshot_root(new_view, gcflip_snapshot_reference(new_view, 100));
    add_pairs(400, 500);
    expect_refused(GCFLIP_FIELD_DIFFERS, 0, 0);
    gcflip_snapshot_object(new_view, 200, 2, 0); /* an object after the check, without a pair */
    expect_refused(GCFLIP_FIELD_DIFFERS, 0, 0);
    EXPECT(word_at(new_view, 3) == 2 * 9);
}

/* A doubt of the caller's own stays one, whatever is placed at its word. */
static void own_doubts_stay(void)
{
    empty();
    for (int side = 0; side < 2; side++) {
        gcflip_snapshot *snapshot = side == 0 ? old_view : new_view;
        gcflip_snapshot_root(snapshot, gcflip_snapshot_doubtful(snapshot, 100, "no object starts there"));
        gcflip_snapshot_object(snapshot, 100, 1, 0);
    }
    gcflip_collection_pair(c, 100, 100);
    expect_refused(GCFLIP_ROOT_DIFFERS, 0, 0);
    EXPECT(gcflip_snapshot_doubts(old_view, NULL, NULL) == 1);
    EXPECT(gcflip_snapshot_next(old_view, 0, UINT64_MAX, 1) == 0);
}

/* A word that the caller keeps can be set after the object was placed, after a check, and in several fields. */
static void kept_words(void)
{
    uint64_t words[2];
    empty();
    for (int side = 0; side < 2; side++) {
        gcflip_snapshot *snapshot = side == 0 ? old_view : new_view;
        words[side] = gcflip_snapshot_reference(snapshot, 200);
        EXPECT(gcflip_snapshot_reference(snapshot, 208) != words[side]);
        EXPECT(gcflip_snapshot_object(snapshot, 100, 1, 3) == 1 && gcflip_snapshot_object(snapshot, 200, 2, 0) == 6);
        gcflip_snapshot_set(snapshot, 1, 0, words[side]);
        gcflip_snapshot_set(snapshot, 1, 1, words[side]);
        gcflip_snapshot_set(snapshot, 1, 2, 0);
    }
    gcflip_collection_pair(c, 100, 100);
    gcflip_collection_pair(c, 200, 200);
    expect_yes(2);
    EXPECT(word_at(old_view, 3) == 2 * 6 && word_at(old_view, 4) == 2 * 6 && word_at(old_view, 5) == 0);
    gcflip_snapshot_set(old_view, 1, 2, words[0]);
    expect_refused(GCFLIP_FIELD_DIFFERS, 0, 2);
    gcflip_snapshot_set(new_view, 1, 2, words[1]);
    gcflip_snapshot_root(old_view, words[0]);
    gcflip_snapshot_root(new_view, words[1]);
    expect_yes(2);
    EXPECT(word_at(new_view, 5) == 2 * 6 && root_at(new_view, 0) == 2 * 6);
}

/* Fields of a long object. */
static void ahead_in_parts(void)
{
    empty();
    for (int side = 0; side < 2; side++) {
        gcflip_snapshot *snapshot = side == 0 ? old_view : new_view;
        uint32_t at = gcflip_snapshot_object(snapshot, 100, 1, 70000);
        for (uint64_t i = 0; i < 70000; i++)
            gcflip_snapshot_set(snapshot, at, i, i % 35000 == 34999 ? gcflip_snapshot_reference(snapshot, 200 + i) : 0);
        gcflip_snapshot_object(snapshot, 200 + 69999, 3, 0);
        gcflip_snapshot_object(snapshot, 200 + 34999, 2, 0);
    }
    gcflip_collection_pair(c, 100, 100);
    gcflip_collection_pair(c, 200 + 34999, 200 + 34999);
    gcflip_collection_pair(c, 200 + 69999, 200 + 69999);
    EXPECT(gcflip_snapshot_doubts(old_view, NULL, NULL) == 0);
    expect_yes(3 + 3);
    gcflip_snapshot_set(new_view, 1, 69999, gcflip_snapshot_reference(new_view, 200 + 34999));
    expect_refused(GCFLIP_FIELD_DIFFERS, 3, 69999 - 65536);
}

/* Pointers into an object that is placed later. */
static void insides_ahead(void)
{
    for (uint32_t offset = 24; offset <= 32; offset += 8) {
        empty();
        for (int side = 0; side < 2; side++) {
            gcflip_snapshot *snapshot = side == 0 ? old_view : new_view;
            uint64_t address = side == 0 ? 1000 : 2000;
            gcflip_snapshot_root(snapshot, gcflip_snapshot_inside(snapshot, address, side == 0 ? 24 : offset));
            gcflip_snapshot_root(snapshot, gcflip_snapshot_inside(snapshot, address, 16));
            EXPECT(IS_DOUBTFUL(root_at(snapshot, 0)) && IS_DOUBTFUL(root_at(snapshot, 1)) && root_at(snapshot, 0) != root_at(snapshot, 1));
            EXPECT(gcflip_snapshot_doubts(snapshot, NULL, NULL) == 2);
            EXPECT(gcflip_snapshot_next(snapshot, 0, UINT64_MAX, 1) == address && gcflip_snapshot_next(snapshot, 0, UINT64_MAX, 1) == 0);
            gcflip_snapshot_object(snapshot, address, 1, 0);
            EXPECT(gcflip_snapshot_doubts(snapshot, NULL, NULL) == 0);
            gcflip_snapshot_root(snapshot, gcflip_snapshot_inside(snapshot, address, 16));
        }
        gcflip_collection_pair(c, 1000, 2000);
        if (offset == 24) {
            expect_yes(3);
            EXPECT(root_at(old_view, 1) == root_at(old_view, 2) && root_at(old_view, 0) != root_at(old_view, 1));
            EXPECT(word_at(old_view, root_at(old_view, 0) / 2 + 2) == NUMBER(24) && word_at(old_view, root_at(old_view, 0) / 2 + 3) == 2);
            expect_yes(3); /* no object is added twice */
        } else {
            expect_refused(GCFLIP_ROOT_DIFFERS, 0, 0);
        }
    }
    empty();
    gcflip_snapshot_root(old_view, gcflip_snapshot_inside(old_view, 0, 8));
    gcflip_snapshot_reference(old_view, 24);
    EXPECT(gcflip_snapshot_next(old_view, 0, UINT64_MAX, 1) == 24 && gcflip_snapshot_next(old_view, 0, UINT64_MAX, 1) == 0);
    EXPECT(gcflip_snapshot_doubts(old_view, NULL, NULL) == 1);
}

/* Many pointers ahead: the image, which had no larger one before it, grows while they become references. */
static void many_insides_ahead(void)
{
    enum { MANY = 5000 };
    gcflip_collection *own = gcflip_collection_open();
    EXPECT(own != NULL);
    for (int side = 0; side < 2; side++) {
        gcflip_snapshot *snapshot = side == 0 ? gcflip_before(own) : gcflip_after(own);
        uint32_t at = gcflip_snapshot_object(snapshot, 8, 1, MANY);
        for (uint32_t i = 0; i < MANY; i++)
            gcflip_snapshot_set(snapshot, at, i, gcflip_snapshot_inside(snapshot, 16, i));
        gcflip_snapshot_object(snapshot, 16, 2, 0);
    }
    gcflip_collection_pair(own, 8, 8);
    gcflip_collection_pair(own, 16, 16);
    EXPECT(gcflip_collection_check(own, &verdict) == GCFLIP_YES && is_verdict(0, 2 + MANY, 0, 0));
    gcflip_collection_close(own);
}

/* What one collection met is not what the next one met. */
static void cleared(void)
{
    for (int side = 0; side < 2; side++) {
        gcflip_snapshot *snapshot = side == 0 ? old_view : new_view;
        empty();
        gcflip_snapshot_reference(snapshot, 300);
        gcflip_snapshot_reference(snapshot, 200);
        gcflip_snapshot_clear(snapshot);
        EXPECT(gcflip_snapshot_next(snapshot, 0, UINT64_MAX, 1) == 0);
        gcflip_snapshot_root(snapshot, gcflip_snapshot_reference(snapshot, 200));
        EXPECT(gcflip_snapshot_next(snapshot, 0, UINT64_MAX, 1) == 200);
        gcflip_snapshot_clear(snapshot);
        gcflip_snapshot_reference(snapshot, 304);
        gcflip_snapshot_root(snapshot, gcflip_snapshot_reference(snapshot, 200));
        EXPECT(gcflip_snapshot_object(snapshot, 304, 1, 0) == 1 && gcflip_snapshot_object(snapshot, 200, 1, 0) == 3);
        gcflip_collection_infer(c, &verdict);
        EXPECT(root_at(snapshot, 0) == 2 * 3);
        EXPECT(gcflip_snapshot_next(snapshot, 0, UINT64_MAX, 1) == 0);
    }
}

/* A look at one snapshot, a text and an explanation, without a check before. */
static void without_a_check(void)
{
    char *text;
    size_t length;
    empty();
    write_ahead(old_view, 200, 300);
    gcflip_snapshot_set(old_view, 1, 0, gcflip_snapshot_reference(old_view, 204));
    FILE *file = open_memstream(&text, &length);
    EXPECT(gcflip_snapshot_doubts(old_view, NULL, file) == 1);
    fclose(file);
    expect_printed(text, "doubtful words: 1, fields that were never set: 0\n  field 0 of 0x64 (kind 1, 2 fields) is 0xcc: no object starts there\n");
    expect_told("no verdict: no check was made\n  in the snapshot before, field 0 of 0x64 (kind 1, 2 fields) is 0xcc: no object starts there\n");
    gcflip_snapshot_object(old_view, 204, 1, 0);
    EXPECT(gcflip_snapshot_doubts(old_view, NULL, NULL) == 0);
    file = open_memstream(&text, &length);
    EXPECT(gcflip_collection_write(c, file) == GCFLIP_WROTE_PAIR);
    fclose(file);
    expect_printed(text, "heappair 2\nold 11 11\n0\n16842754\n0\n18\n14\n16908288\n0\n16908288\n0\n16842752\n0\nroots 2\n14\n2\n"
                         "new 1 1\n0\nroots 0\npairs 0\nend\n");
    gcflip_snapshot_root(old_view, gcflip_snapshot_reference(old_view, 600));
    gcflip_snapshot_object(old_view, 600, 1, 0);
    gcflip_snapshot_object(old_view, 200, 1, 0);
    expect_fault(GCFLIP_FAULT_TWICE);
    expect_told("no verdict: two objects at one address: 0xc8, in the snapshot before\n");
}

/* ---- Tracing. */

static uint64_t next_of(gcflip_snapshot *snapshot)
{
    return gcflip_snapshot_next(snapshot, 0, UINT64_MAX, 1);
}

/* Each address is returned once, in the order in which they were met. */
static void met_once(void)
{
    empty();
    EXPECT(next_of(old_view) == 0);
    gcflip_snapshot_object(old_view, 8, 1, 2);
    gcflip_snapshot_reference(old_view, 8);
    gcflip_snapshot_reference(old_view, 0);
    EXPECT(next_of(old_view) == 0);
    gcflip_snapshot_reference(old_view, 40);
    gcflip_snapshot_reference(old_view, 24);
    gcflip_snapshot_reference(old_view, 40);
    gcflip_snapshot_reference(old_view, 32);
    gcflip_snapshot_object(old_view, 24, 1, 0); /* placed before its turn */
    EXPECT(next_of(old_view) == 40);
    gcflip_snapshot_reference(old_view, 40); /* not placed, and met again */
    gcflip_snapshot_reference(old_view, 16);
    EXPECT(next_of(old_view) == 32 && next_of(old_view) == 16 && next_of(old_view) == 0 && next_of(old_view) == 0);
    gcflip_snapshot_reference(old_view, 40);
    EXPECT(next_of(old_view) == 0 && next_of(new_view) == 0);
    gcflip_snapshot_reference(old_view, UINT64_MAX);
    gcflip_snapshot_reference(old_view, 48);
    gcflip_snapshot_object(old_view, 8, 1, 2);
    EXPECT(gcflip_collection_fault(c) == GCFLIP_FAULT_TWICE && next_of(old_view) == 0);
}

/* The targets of weak references, too, where they are not placed. */
static void met_weakly(void)
{
    empty();
    uint32_t at = gcflip_snapshot_object(old_view, 8, 1, 3);
    gcflip_snapshot_set_weak(old_view, at, 0, 0);
    gcflip_snapshot_set_weak(old_view, at, 1, 8);
    gcflip_snapshot_set_weak(old_view, at, 2, 64);
    gcflip_snapshot_weak_root(old_view, 56);
    gcflip_snapshot_weak_root(old_view, 64);
    gcflip_snapshot_inside(old_view, 48, 8);
    EXPECT(next_of(old_view) == 64 && next_of(old_view) == 56 && next_of(old_view) == 48 && next_of(old_view) == 0);
    gcflip_snapshot_set_weak(old_view, at, 3, 72); /* there is no such field */
    EXPECT(next_of(old_view) == 0 && gcflip_collection_fault(c) == GCFLIP_FAULT_FIELD);
}

static void bounds(void)
{
    static const uint64_t from[] = {100, 104, 101, 96, 0}, to[] = {125, 124, 126, 96, UINT64_MAX}, alignment[] = {8, 4, 8, 1, 0};
    static const uint64_t wanted[][8] = {{108, 124}, {104, 108}, {109, 125}, {0}, {0}};
    static const uint64_t addresses[] = {96, 99, 104, 108, 109, 124, 125, 132};
    for (size_t i = 0; i < COUNT(from); i++) {
        empty();
        for (size_t k = 0; k < COUNT(addresses); k++)
            gcflip_snapshot_reference(new_view, addresses[k]);
        for (size_t k = 0; wanted[i][k] != 0; k++)
            EXPECT(gcflip_snapshot_next(new_view, from[i], to[i], alignment[i]) == wanted[i][k]);
        EXPECT(gcflip_snapshot_next(new_view, from[i], to[i], alignment[i]) == 0);
        EXPECT(next_of(new_view) == 0); /* the others were passed over */
    }
}

/* ---- A heap of words: an object is its length, 2 for each field, and its fields. A field is 0, an odd number, or the address of an object. */

enum { SPACE = 16 };

static uint64_t old_space[SPACE], new_space[SPACE], heap_roots[2];
static size_t reads, words_seen;

static uint64_t word_of(gcflip_snapshot *snapshot, uint64_t word)
{
    words_seen++;
    return word % 2 == 0 ? gcflip_snapshot_reference(snapshot, word) : gcflip_snapshot_constant(snapshot, word);
}

static uint64_t address_of(const void *at)
{
    return (uint64_t)(uintptr_t)at;
}

static uint64_t *space_of(const gcflip_snapshot *snapshot)
{
    return snapshot == old_view ? old_space : new_space;
}

static void trace(void *given, gcflip_snapshot *snapshot)
{
    const uint64_t *space = space_of(snapshot);
    reads += *(const size_t *)given;
    gcflip_snapshot_roots(snapshot, heap_roots, 2, word_of);
    for (uint64_t at; (at = gcflip_snapshot_next(snapshot, address_of(space), address_of(space + SPACE), 8)) != 0;) {
        const uint64_t *object = (const uint64_t *)(uintptr_t)at;
        if (object[0] % 2 != 0 || object[0] / 2 > (uint64_t)(space + SPACE - object - 1))
            continue;
        gcflip_snapshot_set_words(snapshot, gcflip_snapshot_object(snapshot, at, 3, object[0] / 2), 0, object + 1, object[0] / 2, word_of);
    }
}

static const char *root_name(void *given, uint64_t root)
{
    return *(const size_t *)given == 1 && root == 1 ? "the list" : NULL;
}

static const char *kind_name(void *given, uint32_t kind)
{
    (void)given;
    return kind == 3 ? "cons" : NULL;
}

static size_t one = 1;
static const gcflip_names names = {.given = &one, .root = root_name, .kind = kind_name};
static const gcflip_adapter tracer = {&one, trace, trace, true, false, &names};

/* Writes a cycle of two cells with a third one behind them, from some word of a space on, and makes the second root refer to it. */
static void write_cycle(uint64_t *space, size_t first)
{
    const uint64_t words[] = {4, 1, address_of(space + first + 3), 4, address_of(space + first), address_of(space + first + 6), 2, 9};
    memset(space, 0, SPACE * sizeof *space);
    memcpy(space + first, words, sizeof words);
    heap_roots[0] = 5;
    heap_roots[1] = address_of(space + first);
}

/* Begins with a cycle, and has it copied. */
static void begin_cycle(const gcflip_adapter *adapter)
{
    write_cycle(old_space, 1);
    EXPECT(gcflip_collection_begin(c, adapter, stdout));
    write_cycle(new_space, 5);
}

/* Ends, and expects that this is printed. */
static uint32_t end_told(const char *wanted)
{
    char *text;
    size_t length;
    FILE *file = open_memstream(&text, &length);
    uint32_t answer = gcflip_collection_end(c, file);
    fclose(file);
    expect_printed(text, wanted);
    return answer;
}

static void traced_collections(void)
{
    empty();
    for (int again = 0; again < 2; again++) {
        reads = 0;
        begin_cycle(&tracer);
        EXPECT(reads == 1 && gcflip_snapshot_image(old_view).end == 12 && gcflip_snapshot_image(new_view).end == 1);
        EXPECT(end_told("yes 3\n") == GCFLIP_YES);
        EXPECT(reads == 2 && gcflip_collection_pairs(c) == 3);
    }
    begin_cycle(&tracer);
    new_space[12] = 11;
    EXPECT(gcflip_collection_end(c, NULL) == GCFLIP_REFUSED);
    begin_cycle(&tracer);
    heap_roots[1] = address_of(old_space + 1); /* the collector did not update it */
    char wanted[300];
    snprintf(wanted, sizeof wanted, "refused 10 RootDiffers 1\n  the list\n"
                                    "  before 0x%llx (cons, 2 fields)\n  after  0x%llx: no object starts there\n"
                                    "  that is still the old address; no pair has the object before\n",
             (unsigned long long)address_of(old_space + 1), (unsigned long long)address_of(old_space + 1));
    EXPECT(end_told(wanted) == GCFLIP_REFUSED);
    begin_cycle(&tracer);
    new_space[7] += 4; /* into the middle of an object */
    EXPECT(gcflip_collection_end(c, NULL) == GCFLIP_REFUSED);
}

/* ---- A collection in two calls. */

static void read_given_pairs(void *given, gcflip_snapshot *snapshot)
{
    trace(given, snapshot);
    for (size_t at = 1; at < 9; at += 3)
        gcflip_collection_pair(c, address_of(old_space + at), address_of(new_space + at + 4));
}

static void read_nothing(void *given, gcflip_snapshot *snapshot)
{
    (void)given, (void)snapshot;
}

static void read_twice(void *given, gcflip_snapshot *snapshot)
{
    trace(given, snapshot);
    trace(given, snapshot);
    gcflip_snapshot_object(snapshot, 0, 252, 0);
}

static void collections_with_pairs(void)
{
    gcflip_adapter adapter = {.given = &one, .read_before = trace, .read_after = read_given_pairs};
    begin_cycle(&adapter);
    EXPECT(end_told("yes 3\n") == GCFLIP_YES);
    begin_cycle(&adapter);
    adapter.read_after = read_nothing; /* the collection has a copy */
    EXPECT(gcflip_collection_end(c, NULL) == GCFLIP_YES);
    adapter.read_after = trace;
    begin_cycle(&adapter);
    EXPECT(gcflip_collection_end(c, NULL) == GCFLIP_REFUSED); /* no pairs, and none are inferred */
}

/* An end needs a begin of its own. */
static void ends_without_begin(void)
{
    empty();
    reads = 0;
    EXPECT(end_told("") == GCFLIP_NOT_BEGUN);
    begin_cycle(&tracer);
    EXPECT(end_told("yes 3\n") == GCFLIP_YES && end_told("") == GCFLIP_NOT_BEGUN);
    begin_cycle(&tracer);
    gcflip_collection_clear(c);
    EXPECT(end_told("") == GCFLIP_NOT_BEGUN && reads == 3);
    EXPECT(strcmp(gcflip_answer_name(end_told("")), "not begun") == 0);
}

/* Begins with a heap whose last cell refers to no object. */
static bool begin_broken(gcflip_adapter *adapter, FILE *file)
{
    write_cycle(old_space, 1);
    old_space[8] = 8 * 1000;
    return gcflip_collection_begin(c, adapter, file);
}

static void begins_with_doubts(void)
{
    gcflip_adapter adapter = tracer;
    char *text, wanted[200];
    size_t length;
    FILE *file = open_memstream(&text, &length);
    EXPECT(!begin_broken(&adapter, file));
    fclose(file);
    snprintf(wanted, sizeof wanted, "doubtful words: 1, fields that were never set: 0\n"
                                    "  field 0 of 0x%llx (cons, 1 field) is 0x1f40: no object starts there\n", (unsigned long long)address_of(old_space + 7));
    expect_printed(text, wanted);
    EXPECT(!begin_broken(&adapter, NULL));
    write_cycle(new_space, 5);
    new_space[12] = 8 * 1000;
    EXPECT(gcflip_collection_end(c, NULL) == GCFLIP_REFUSED); /* it checks all the same */
    adapter.has_garbage = true;
    file = open_memstream(&text, &length);
    EXPECT(begin_broken(&adapter, file));
    fclose(file);
    expect_printed(text, wanted);
    write_cycle(new_space, 5);
    EXPECT(gcflip_collection_end(c, NULL) == GCFLIP_REFUSED);
    adapter.read_before = read_twice;
    EXPECT(!begin_broken(&adapter, NULL) && gcflip_collection_fault(c) == GCFLIP_FAULT_KIND);
    EXPECT(gcflip_collection_end(c, NULL) == GCFLIP_FAULTY);
    begin_cycle(&tracer); /* the fault is gone */
    EXPECT(gcflip_collection_end(c, NULL) == GCFLIP_YES);
}

/* A function that cannot go on adds a root with a reason, behind this many words that lead to no object. */
static void read_to_a_fault(void *given, gcflip_snapshot *snapshot)
{
    for (size_t i = 0; i < *(const size_t *)given; i++)
        gcflip_snapshot_root(snapshot, gcflip_snapshot_reference(snapshot, 8 * (1 + i)));
    gcflip_snapshot_root(snapshot, gcflip_snapshot_doubtful(snapshot, 4660, "the walk ended here"));
}

static void read_as_many_nils(void *given, gcflip_snapshot *snapshot)
{
    for (size_t i = 0; i < *(const size_t *)given; i++)
        gcflip_snapshot_root(snapshot, 0);
}

/* The reason is printed in whichever snapshot it is, before all references to no object. */
static void reasons_below_root_count(void)
{
    static const char some[] = "refused 3 RootCount\n  2 roots before, 3 after\n"
                               "  in the snapshot after, root 2 is 0x1234: the walk ended here\n"
                               "  in the snapshot after, root 0 is 0x8: no object starts there\n"
                               "  in the snapshot after, root 1 is 0x10: no object starts there\n";
    size_t count = 2;
    gcflip_adapter adapter = {.given = &count, .read_before = read_as_many_nils, .read_after = read_to_a_fault};
    for (int infers = 0; infers < 2; infers++) {
        adapter.infers = infers;
        EXPECT(gcflip_collection_begin(c, &adapter, stdout) && end_told(some) == GCFLIP_REFUSED);
    }
    count = 20;
    char *text;
    size_t length, lines = 0;
    EXPECT(gcflip_collection_begin(c, &adapter, stdout) && gcflip_collection_end(c, NULL) == GCFLIP_REFUSED);
    FILE *file = open_memstream(&text, &length);
    gcflip_collection_explain(c, NULL, file);
    fclose(file);
    for (size_t i = 0; i < length; i++)
        lines += text[i] == '\n';
    EXPECT(lines == 2 + 8 && strstr(text, "after\n  in the snapshot after, root 20 is 0x1234: the walk ended here\n") != NULL);
    free(text);
    count = 1;
    adapter.read_before = read_to_a_fault;
    adapter.read_after = read_as_many_nils;
    file = open_memstream(&text, &length);
    EXPECT(!gcflip_collection_begin(c, &adapter, file));
    fclose(file);
    expect_printed(text, "doubtful words: 2, fields that were never set: 0\n  root 1 is 0x1234: the walk ended here\n"
                         "  root 0 is 0x8: no object starts there\n");
    EXPECT(end_told("refused 3 RootCount\n  2 roots before, 1 after\n"
                    "  in the snapshot before, root 1 is 0x1234: the walk ended here\n"
                    "  in the snapshot before, root 0 is 0x8: no object starts there\n") == GCFLIP_REFUSED);
}

/* ---- A heap whose references have the type, and not its objects: an object is two words, and a reference is its address with the type above. */

enum { TYPE_AT = 48, CELL = 1, BOX = 2 };

static uint64_t typed(const void *at, uint64_t type)
{
    return address_of(at) | type << TYPE_AT;
}

/* A cell has two references, and a box has two words. The object at an address without a type makes two types of one object a fault. */
static void trace_typed(void *given, gcflip_snapshot *snapshot)
{
    uint64_t *space = space_of(snapshot);
    (void)given;
    gcflip_snapshot_root(snapshot, gcflip_snapshot_reference(snapshot, heap_roots[0]));
    for (uint64_t at; (at = gcflip_snapshot_next(snapshot, 0, UINT64_MAX, 8)) != 0;) {
        uint64_t address = at & (((uint64_t)1 << TYPE_AT) - 1), type = at >> TYPE_AT;
        const uint64_t *object = (const uint64_t *)(uintptr_t)address;
        if (address < address_of(space) || address > address_of(space + SPACE - 2) || type < CELL || type > BOX)
            continue;
        gcflip_snapshot_object(snapshot, address, (uint32_t)type, 0);
        if (type == BOX)
            gcflip_snapshot_words(snapshot, at, BOX, object, 2);
        else
            gcflip_snapshot_set_words(snapshot, gcflip_snapshot_object(snapshot, at, CELL, 2), 0, object, 2, gcflip_snapshot_reference);
    }
}

/* Writes a cell that refers to itself and to a box with the same words. */
static void write_typed(uint64_t *space)
{
    memset(space, 0, SPACE * sizeof *space);
    heap_roots[0] = typed(space + 4, CELL);
    space[4] = typed(space + 4, CELL);
    space[5] = typed(space + 8, BOX);
    space[8] = space[9] = 7;
}

static void types_in_references(void)
{
    const gcflip_adapter adapter = {.read_before = trace_typed, .read_after = trace_typed, .infers = true};
    uint64_t *const space = new_space;
    const struct {
        size_t word;
        uint64_t becomes;
        uint32_t answer;
    } cases[] = {{0, 0, GCFLIP_YES},
                 {5, typed(space + 8, CELL), GCFLIP_REFUSED},     /* of another type */
                 {5, typed(space + 8, 3), GCFLIP_REFUSED},        /* of no type */
                 {5, typed(space + 8, 0), GCFLIP_REFUSED},
                 {5, typed(space + 4, BOX), GCFLIP_FAULTY},       /* two types of one object */
                 {5, typed(old_space + 8, BOX), GCFLIP_REFUSED},  /* not forwarded */
                 {5, typed(space + 6, BOX), GCFLIP_REFUSED},      /* another object of this type */
                 {4, typed(space + 8, CELL), GCFLIP_FAULTY},
                 {4, (uint64_t)CELL << TYPE_AT, GCFLIP_REFUSED},  /* address 0 with a type */
                 {4, 0, GCFLIP_REFUSED}};
    for (size_t i = 0; i < COUNT(cases); i++) {
        write_typed(old_space);
        EXPECT(gcflip_collection_begin(c, &adapter, stdout) && gcflip_snapshot_find(old_view, typed(old_space + 4, CELL)) != 0);
        write_typed(space);
        space[cases[i].word] = cases[i].becomes;
        EXPECT(gcflip_collection_end(c, NULL) == cases[i].answer);
        EXPECT(cases[i].answer != GCFLIP_FAULTY || gcflip_collection_fault(c) == GCFLIP_FAULT_TWICE);
    }
    write_typed(old_space);
    heap_roots[0] = (uint64_t)BOX << TYPE_AT; /* a root that was never set is no nil */
    EXPECT(!gcflip_collection_begin(c, &adapter, NULL) && gcflip_snapshot_doubts(old_view, NULL, NULL) == 1);
}

/* ---- Arrays of words. */

static void arrays(void)
{
    static const unsigned char bytes[] = {0, 3, 0, 0, 0, 0, 0, 0, 0, 5, 0, 0, 0, 0, 0, 0, 1, 7, 0, 0, 0, 0, 0, 0, 0};
    empty();
    words_seen = 0;
    uint32_t at = gcflip_snapshot_object(old_view, 8, 1, 5);
    gcflip_snapshot_set_words(old_view, at, 1, bytes + 1, 3, word_of);
    EXPECT(words_seen == 3 && gcflip_snapshot_doubts(old_view, NULL, NULL) == 2);
    EXPECT(word_at(old_view, at + 3) == NUMBER(3) && word_at(old_view, at + 4) == NUMBER(5 + ((uint64_t)1 << 56)) && word_at(old_view, at + 5) == NUMBER(7));
    gcflip_snapshot_set_words(old_view, at, 5, NULL, 0, word_of);
    gcflip_snapshot_roots(old_view, NULL, 0, word_of);
    gcflip_snapshot_roots(old_view, bytes + 1, 1, word_of);
    gcflip_snapshot_roots(old_view, bytes + 17, 1, word_of);
    EXPECT(root_at(old_view, 0) == NUMBER(3) && root_at(old_view, 1) == NUMBER(7) && gcflip_snapshot_image(old_view).root_count == 2);
    EXPECT(gcflip_collection_fault(c) == GCFLIP_NO_FAULT && words_seen == 5);
    gcflip_snapshot_set_words(old_view, at, 4, bytes + 1, 3, word_of);
    EXPECT(words_seen == 7 && word_at(old_view, at + 6) == NUMBER(3)); /* it stopped at the field that is none */
    expect_fault(GCFLIP_FAULT_FIELD);
    gcflip_snapshot_set_words(old_view, at, 0, bytes + 1, 3, word_of);
    gcflip_snapshot_roots(old_view, bytes + 1, 3, word_of);
    EXPECT(words_seen == 7 && gcflip_snapshot_image(old_view).root_count == 2);
}

static void wrong_arrays(void)
{
    static const uint64_t words[] = {1, 3};
    const uint64_t first[] = {2, UINT64_MAX, UINT64_MAX - 1, (uint64_t)1 << 32};
    for (size_t i = 0; i < COUNT(first); i++) {
        empty();
        gcflip_snapshot_set_words(old_view, gcflip_snapshot_object(old_view, 8, 1, 2), first[i], words, 2, word_of);
        expect_fault(GCFLIP_FAULT_FIELD);
    }
    empty();
    gcflip_snapshot_set_words(old_view, 0, 0, words, 2, word_of);
    expect_fault(GCFLIP_FAULT_FIELD);
    empty();
    gcflip_snapshot_set_words(old_view, gcflip_snapshot_words(old_view, 8, 1, words, 2), 0, words, 2, word_of);
    expect_fault(GCFLIP_FAULT_FIELD);
}

/* ---- The self-test. */

static gcflip_self_test_counts tested(const gcflip_self_test *test, const char *wanted)
{
    char *text;
    size_t length;
    FILE *file = open_memstream(&text, &length);
    gcflip_self_test_counts counts = gcflip_collection_self_test(c, test, file);
    fclose(file);
    expect_printed(text, wanted);
    return counts;
}

/* The object that starts at an address or nearest below it. */
static void nearest(void)
{
    uint64_t start = 3;
    empty();
    EXPECT(gcflip_snapshot_nearest(old_view, UINT64_MAX, &start) == 0 && start == 3);
    gcflip_snapshot_object(old_view, 0, 1, 0); /* has no address */
    gcflip_snapshot_constant(old_view, (uint64_t)1 << 62); /* objects of the library's own have none either */
    uint32_t large = gcflip_snapshot_object(old_view, 4000, 1, 70000);
    gcflip_snapshot_inside(old_view, 4000, 2000);
    EXPECT(gcflip_snapshot_nearest(old_view, 3999, &start) == 0 && start == 3);
    uint32_t small = gcflip_snapshot_object(old_view, 1000, 1, 2);
    const struct {
        uint64_t address, start;
        uint32_t place;
    } cases[] = {{1000, 1000, small}, {1001, 1000, small}, {3999, 1000, small}, {4000, 4000, large}, {40000, 4000, large}, {UINT64_MAX, 4000, large}};
    EXPECT(large != 0 && small != 0 && small != large);
    for (size_t i = 0; i < COUNT(cases); i++)
        EXPECT(gcflip_snapshot_nearest(old_view, cases[i].address, &start) == cases[i].place && start == cases[i].start);
    EXPECT(gcflip_snapshot_nearest(old_view, 999, &start) == 0 && gcflip_snapshot_nearest(new_view, 4000, &start) == 0);
}

/* The bounds of the old space are those of the hints: a constant into the middle of an object is found with them alone. */
static void self_tests_with_bounds(void)
{
    const gcflip_range range = {new_space + 5, 1};
    gcflip_self_test test = {.ranges = &range, .range_count = 1};
    begin_cycle(&tracer);
    EXPECT(gcflip_collection_end(c, NULL) == GCFLIP_YES);
    tested(&test, "flipped 64 bits: refused 64, explained 0, unexplained 0\n");
    test.from = 5;
    test.to = 6;
    tested(&test, "flipped 64 bits: refused 64, explained 0, unexplained 0\n"
                  "hint: constants that are old addresses: 1, first root 0: 0x5\n");
}

/* No object is named for the word in front of the first one, whose address has no tag. */
static void spared_in_front(void)
{
    const gcflip_range range = {new_space + 4, 1};
    const gcflip_self_test test = {.ranges = &range, .range_count = 1};
    char wanted[9000] = "";
    begin_cycle(&tracer);
    EXPECT(gcflip_collection_end(c, NULL) == GCFLIP_YES);
    for (unsigned bit = 0; bit < 64; bit++) {
        size_t used = strlen(wanted);
        snprintf(wanted + used, sizeof wanted - used, "spared for no reason: bit %u of the word at 0x%llx\n", bit, (unsigned long long)address_of(new_space + 4));
    }
    strcat(wanted, "flipped 64 bits: refused 0, explained 0, unexplained 64\n");
    EXPECT(tested(&test, wanted).unexplained == 64);
}

static bool read_as_it_was(void *given, gcflip_collection *collection)
{
    trace(given, gcflip_after(collection));
    gcflip_snapshot_object(gcflip_after(collection), 8, 9, 0);
    return true;
}

/* Without a function that reads, the test uses the adapter: its function, whether it infers, and its names, if the test has none. */
static void self_tests_by_adapter(void)
{
    const gcflip_range range = {new_space + 5, 9};
    gcflip_self_test test = {.ranges = &range, .range_count = 1};
    gcflip_adapter with_pairs = {.given = &one, .read_before = trace, .read_after = read_given_pairs};
    char wanted[9000] = "";
    empty();
    gcflip_self_test_counts counts = tested(&test, "no bits were flipped: without a flip, the heap gets no yes\n");
    EXPECT(!counts.accepted && counts.flipped == 0);
    for (unsigned bit = 0; bit < 64; bit++) {
        unsigned long long word = address_of(new_space + 13), object = address_of(new_space + 11);
        size_t used = strlen(wanted);
        snprintf(wanted + used, sizeof wanted - used, "spared for no reason: bit %u of the word at 0x%llx, 16 bytes behind 0x%llx (cons, 1 field)\n",
                 bit, word, object);
    }
    strcat(wanted, "flipped 576 bits: refused 512, explained 0, unexplained 64\n");
    for (int infers = 0; infers < 2; infers++) {
        with_pairs.names = &names;
        begin_cycle(infers ? &tracer : &with_pairs);
        EXPECT(gcflip_collection_end(c, NULL) == GCFLIP_YES);
        counts = tested(&test, wanted);
        EXPECT(counts.accepted && counts.refused == 512 && counts.unexplained == 64);
    }
    const gcflip_range less = {new_space + 5, 8};
    test.ranges = &less;
    counts = tested(&test, "flipped 512 bits: refused 512, explained 0, unexplained 0\n");
    test.read = read_as_it_was; /* its own function, and what belongs to it */
    test.given = &one;
    EXPECT(!tested(&test, "no bits were flipped: without a flip, the heap gets no yes\n").accepted);
    test.infers = true;
    counts = tested(&test, "flipped 512 bits: refused 512, explained 0, unexplained 0\n");
    EXPECT(counts.accepted && gcflip_snapshot_find(new_view, 8) != 0);
    gcflip_collection_clear(c);
    test.read = NULL; /* the adapter is gone, which could read this heap */
    write_cycle(old_space, 1);
    trace(&one, old_view);
    write_cycle(new_space, 5);
    EXPECT(!tested(&test, "no bits were flipped: without a flip, the heap gets no yes\n").accepted);
    with_pairs.read_after = trace; /* adds no pairs, and none are inferred */
    begin_cycle(&with_pairs);
    EXPECT(gcflip_collection_end(c, NULL) == GCFLIP_REFUSED);
    EXPECT(!tested(&test, "no bits were flipped: without a flip, the heap gets no yes\n").accepted);
}

/* ---- Padding: a string in a word of its own, and another one somewhere. */

static uint64_t text_words[4];
static size_t text_length, text_first;
static uint64_t other_address, tag;

static void read_text(void *given, gcflip_snapshot *snapshot)
{
    const char *bytes = (const char *)text_words + text_first;
    (void)given;
    gcflip_snapshot_object(snapshot, 0, 6, 0); /* has no address */
    gcflip_snapshot_bytes(snapshot, address_of(bytes) + tag, 4, bytes, text_length);
    gcflip_snapshot_object(snapshot, other_address, 5, 1);
    gcflip_snapshot_set(snapshot, gcflip_snapshot_find(snapshot, other_address), 0, gcflip_snapshot_constant(snapshot, ((uint64_t)1 << 62) + 1)); /* an object of the library's own */
    gcflip_snapshot_root(snapshot, gcflip_snapshot_reference(snapshot, address_of(bytes) + tag));
    gcflip_snapshot_root(snapshot, gcflip_snapshot_inside(snapshot, other_address, 3));
}

static const gcflip_adapter text_adapter = {.read_before = read_text, .read_after = read_text, .infers = true};

static const char *own_reason(void *given, const uint64_t *word, unsigned bit)
{
    return given != NULL && word == text_words + 1 && bit == 63 ? given : NULL;
}

/* A string of so many bytes, from a byte of four words on, in a heap of this alignment. Returns how many bits are explained. */
static size_t explained(size_t first, size_t length, uint64_t alignment)
{
    const gcflip_range range = {text_words, 4};
    const gcflip_self_test test = {.ranges = &range, .range_count = 1};
    char *text;
    size_t size;
    FILE *file = open_memstream(&text, &size);
    text_first = first;
    text_length = length;
    other_address = address_of(text_words + 4) + alignment + tag;
    EXPECT(gcflip_collection_begin(c, &text_adapter, file) && gcflip_collection_end(c, NULL) == GCFLIP_YES);
    gcflip_self_test_counts counts = gcflip_collection_self_test(c, &test, file);
    fclose(file);
    EXPECT(counts.accepted && counts.refused == 8 * length && counts.explained + counts.unexplained == 8 * (32 - length));
    EXPECT((strstr(text, ": padding behind a byte string\n") != NULL) == (counts.explained != 0));
    char *lost = strstr(text, "spared for no reason: bit 0 of the word at");
    EXPECT(lost != NULL || counts.unexplained < 32);
    free(text);
    return counts.explained;
}

static void padding(void)
{
    EXPECT(explained(8, 5, 8) == 8 * 3 && explained(8, 1, 8) == 8 * 7 && explained(8, 9, 16) == 8 * 7);
    EXPECT(explained(8, 8, 8) == 0 && explained(8, 0, 8) == 0 && explained(8, 16, 32) == 0);
    EXPECT(explained(8, 5, 4) == 8 * 3 && explained(8, 1, 4) == 8 * 3 && explained(8, 1, 2) == 8 * 1 && explained(8, 1, 1) == 0);
    EXPECT(explained(12, 1, 8) == 8 * 3 && explained(10, 3, 8) == 8 * 1 && explained(9, 3, 8) == 0); /* the address of the string counts */
    tag = 3;
    EXPECT(explained(8, 5, 8) == 8 * 3 && explained(8, 1, 8) == 8 * 7 && explained(8, 1, 4) == 8 * 3 && explained(8, 1, 1) == 0);
    tag = 0;
    const gcflip_range range = {text_words + 1, 1};
    char own[] = "a reason of the adapter's own";
    gcflip_self_test test = {.given = own, .ranges = &range, .range_count = 1, .reason = own_reason};
    EXPECT(explained(8, 5, 8) == 8 * 3);
    EXPECT(tested(&test, "spared 23: padding behind a byte string\nspared 1: a reason of the adapter's own\n"
                         "flipped 64 bits: refused 40, explained 24, unexplained 0\n").explained == 24);
    const gcflip_range behind = {text_words + 2, 1};
    test.ranges = &behind;
    char *text;
    size_t size;
    FILE *file = open_memstream(&text, &size);
    EXPECT(gcflip_collection_self_test(c, &test, file).unexplained == 64);
    fclose(file);
    free(text);
    EXPECT(explained(0, 4, 8) == 8 * 4); /* and none behind the string that was there before */
}

int main(void)
{
    c = gcflip_collection_open();
    EXPECT(c != NULL);
    old_view = gcflip_before(c);
    new_view = gcflip_after(c);
    ahead();
    never_placed();
    own_doubts_stay();
    kept_words();
    ahead_in_parts();
    insides_ahead();
    many_insides_ahead();
    cleared();
    without_a_check();
    met_once();
    met_weakly();
    bounds();
    arrays();
    wrong_arrays();
    traced_collections();
    collections_with_pairs();
    ends_without_begin();
    begins_with_doubts();
    reasons_below_root_count();
    types_in_references();
    nearest();
    self_tests_with_bounds();
    spared_in_front();
    self_tests_by_adapter();
    padding();
    gcflip_collection_close(c);
    return 0;
}
