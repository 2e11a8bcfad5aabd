/* Tests gcflip_images: encodings, the map, parts, bytes, pointers into objects, weak references and texts. Expected words follow from the header
   and docs/FORMATS.md. */
#include "one_collection.h"

#define NUMBER(n) (2 * (uint64_t)(n) + 1)
#define IS_DOUBTFUL(word) ((word) % 2 == 0 && (word) >= (uint64_t)1 << 33)

static void expect_fault(uint32_t fault)
{
    EXPECT(gcflip_collection_check(c, &verdict) == GCFLIP_FAULTY);
    EXPECT(gcflip_collection_infer(c, &verdict) == GCFLIP_FAULTY);
    EXPECT(gcflip_collection_fault(c) == fault);
    EXPECT(gcflip_collection_write(c, stdout) == GCFLIP_WROTE_NOTHING);
}

static uint64_t word_at(const gcflip_snapshot *snapshot, uint64_t place)
{
    return gcflip_snapshot_image(snapshot).words[place];
}

/* ---- Words. */

static void constants(void)
{
    static const uint64_t words[] = {0, 1, 2, ((uint64_t)1 << 61) - 1, (uint64_t)1 << 61, (uint64_t)1 << 62, (uint64_t)1 << 63,
                                     UINT64_MAX - ((uint64_t)1 << 61), UINT64_MAX - ((uint64_t)1 << 61) + 1, UINT64_MAX - 1, UINT64_MAX};
    enum { COUNT = sizeof words / sizeof words[0] };
    uint64_t found[COUNT];
    empty();
    for (int i = 0; i < COUNT; i++)
        found[i] = gcflip_snapshot_constant(before, words[i]);
    EXPECT(found[0] == NUMBER(0) && found[1] == NUMBER(1) && found[2] == NUMBER(2));
    EXPECT(found[3] == NUMBER(((uint64_t)1 << 61) - 1));
    EXPECT(found[4] == 2 * 1 && found[5] == 2 * 4 && found[6] == 2 * 7 && found[7] == 2 * 10); /* each takes three words */
    EXPECT(word_at(before, 1) == 50331648 + 65536 * 255 + 1 && word_at(before, 3) == (uint64_t)1 << 61);
    EXPECT(found[8] == NUMBER((uint64_t)1 << 61));
    EXPECT(found[9] == NUMBER(((uint64_t)1 << 62) - 2) && found[10] == NUMBER(((uint64_t)1 << 62) - 1)); /* -2 and -1 */
    for (int i = 0; i < COUNT; i++) {
        EXPECT(gcflip_snapshot_constant(before, words[i]) == found[i]);
        for (int k = 0; k < i; k++)
            EXPECT(found[i] != found[k]);
        /* The premise for a nursery: a reference to an old object is a number that no constant is. */
        EXPECT(found[i] % 2 == 0 || found[i] < gcflip_snapshot_fixed(before, 0));
    }
    EXPECT(gcflip_snapshot_fixed(before, 0) == NUMBER((uint64_t)1 << 62));
    EXPECT(gcflip_snapshot_fixed(before, 4096) == NUMBER(((uint64_t)1 << 62) + 4096));
    EXPECT(gcflip_snapshot_fixed(before, ((uint64_t)1 << 62) - 1) == UINT64_MAX);
    EXPECT(IS_DOUBTFUL(gcflip_snapshot_fixed(before, (uint64_t)1 << 62)));
}

static void references(void)
{
    empty();
    EXPECT(gcflip_snapshot_object(before, 1000, 0, 2) == 1);
    EXPECT(gcflip_snapshot_object(before, 1024, 251, 0) == 5);
    EXPECT(gcflip_snapshot_object(before, 0, 7, 0) == 7);
    EXPECT(gcflip_snapshot_find(before, 1024) == 5 && gcflip_snapshot_find(before, 1025) == 0 && gcflip_snapshot_find(before, 0) == 0);
    EXPECT(gcflip_snapshot_reference(before, 0) == 0);
    EXPECT(gcflip_snapshot_reference(before, 1000) == 2 && gcflip_snapshot_reference(before, 1024) == 10);
    EXPECT(IS_DOUBTFUL(gcflip_snapshot_reference(before, 1008)) && IS_DOUBTFUL(gcflip_snapshot_reference(before, 1001)));
    EXPECT(word_at(before, 1) == 16777218 && word_at(before, 5) == 16777216 + 65536 * 251);
    EXPECT(gcflip_snapshot_image(before).end == 9);
}

static void bytes(void)
{
    uint64_t last = 0;
    empty();
    EXPECT(gcflip_snapshot_bytes(before, 8, 1, "123456789", 9) == 1);
    EXPECT(word_at(before, 1) == 50331648 + 65536 + 3 && word_at(before, 3) == 9);
    memcpy(&last, "9", 1);
    EXPECT(word_at(before, 5) == last);
    EXPECT(gcflip_snapshot_bytes(before, 16, 1, NULL, 0) == 6 && word_at(before, 6) == 50331648 + 65536 + 1 && word_at(before, 8) == 0);
    EXPECT(gcflip_snapshot_bytes(before, 24, 1, "12345678", 8) == 9 && word_at(before, 9) == 50331648 + 65536 + 2);
}

/* ---- Lists of two objects. */

static void lists(void)
{
    list();
    expect_yes(3);
    EXPECT(gcflip_collection_pairs(c) == 3);
    EXPECT(gcflip_collection_has_replica(c, 300) && !gcflip_collection_has_replica(c, 100));
    gcflip_snapshot_object(after, 500, 4, 0);
    EXPECT(!gcflip_collection_has_replica(c, 500)); /* the last check did not know it */
    expect_yes(3);
    EXPECT(gcflip_collection_has_replica(c, 400) && !gcflip_collection_has_replica(c, 500));
    EXPECT(gcflip_collection_infer(c, &verdict) == GCFLIP_YES && is_verdict(0, 3, 0, 0));
    expect_refused(GCFLIP_ROOT_DIFFERS, 0, 0); /* pairs that were added are forgotten */
    list();
    gcflip_collection_pair(c, 300, 400); /* no object of the snapshot before: its old address is 0, below that of the other pair of 400 */
    expect_refused(GCFLIP_OLD_NOT_START, 1, 0);
    list();
    gcflip_collection_pair(c, 200, 401);
    expect_refused(GCFLIP_NEW_NOT_START, 0, 0);
    list();
    gcflip_snapshot_object(after, 500, 4, 1);
    gcflip_collection_pair(c, 200, 500);
    expect_refused(GCFLIP_TWICE, 3, 0); /* behind the pair of the constant */
    list();
    gcflip_snapshot_set(after, gcflip_snapshot_find(after, 400), 0, gcflip_snapshot_constant(after, (uint64_t)1 << 62));
    expect_refused(GCFLIP_FIELD_DIFFERS, 1, 0);
}

static void never_set(void)
{
    empty();
    gcflip_snapshot_object(before, 100, 0, 1);
    gcflip_snapshot_object(after, 100, 0, 1);
    gcflip_collection_pair(c, 100, 100);
    expect_refused(GCFLIP_FIELD_DIFFERS, 0, 0);
}

static void faults(void)
{
    empty();
    EXPECT(gcflip_snapshot_object(before, 8, 0, 0) == 1 && gcflip_snapshot_object(before, 8, 0, 0) == 0);
    expect_fault(GCFLIP_FAULT_TWICE);
    EXPECT(gcflip_snapshot_object(before, 16, 0, 0) == 0);
    empty();
    EXPECT(gcflip_snapshot_object(after, 8, 252, 0) == 0);
    expect_fault(GCFLIP_FAULT_KIND);
    empty();
    EXPECT(gcflip_snapshot_object(after, 8, 0, (uint64_t)65535 * 32768 + 1) == 0);
    expect_fault(GCFLIP_FAULT_TOO_LARGE);
    empty();
    gcflip_snapshot_set(after, gcflip_snapshot_object(after, 8, 0, 1), 1, 0);
    expect_fault(GCFLIP_FAULT_FIELD);
    empty();
    gcflip_snapshot_set(before, 3, 0, 0);
    expect_fault(GCFLIP_FAULT_FIELD);
    empty();
    gcflip_snapshot_set(before, gcflip_snapshot_bytes(before, 8, 0, "x", 1), 0, 0);
    expect_fault(GCFLIP_FAULT_FIELD);
    empty();
    expect_yes(0);
}

/* ---- Objects in parts. */

static void parts(void)
{
    static uint64_t words[LARGE];
    empty();
    EXPECT(write_large(before, 1000) == 1 && write_large(after, 2000) == 1);
    EXPECT(word_at(before, 1) == 16777216 + 65536 * 9 + 3 && word_at(before, 3) == 2 * 6 && word_at(before, 4) == 2 * (6 + 32770));
    EXPECT(word_at(before, 6) == 16777216 + 65536 * 254 + 32768 && word_at(before, 6 + 2 * 32770) == 16777216 + 65536 * 254 + 4464);
    gcflip_collection_pair(c, 1000, 2000);
    expect_yes(4);
    gcflip_snapshot_set(after, 1, 40000, gcflip_snapshot_constant(after, 7));
    expect_refused(GCFLIP_FIELD_DIFFERS, 2, 40000 - 32768);
    empty();
    words[69999] = 5;
    EXPECT(gcflip_snapshot_words(before, 1000, 9, words, LARGE) == 1);
    words[69999] = 6;
    EXPECT(gcflip_snapshot_words(after, 2000, 9, words, LARGE) == 1);
    EXPECT(word_at(before, 6) == 50331648 + 65536 * 254 + 32768);
    gcflip_collection_pair(c, 1000, 2000);
    expect_refused(GCFLIP_FIELD_DIFFERS, 3, 69999 - 65536);
}

/* ---- Pointers into objects. */

static void write_inside(gcflip_snapshot *snapshot, uint64_t address, uint32_t offset)
{
    gcflip_snapshot_object(snapshot, address, 1, 0);
    gcflip_snapshot_root(snapshot, gcflip_snapshot_inside(snapshot, address, offset));
    gcflip_snapshot_root(snapshot, gcflip_snapshot_inside(snapshot, address, offset));
    gcflip_snapshot_root(snapshot, gcflip_snapshot_inside(snapshot, address, 16));
}

static void insides(void)
{
    for (int again = 0; again < 2; again++) {
        empty();
        write_inside(before, 1000, 24);
        write_inside(after, 2000, 24);
        EXPECT(gcflip_snapshot_image(before).roots[0] == 2 * 3 && gcflip_snapshot_image(before).roots[1] == 2 * 3);
        EXPECT(word_at(before, 3) == 16777216 + 65536 * 253 + 2 && word_at(before, 5) == NUMBER(24) && word_at(before, 6) == 2);
        gcflip_collection_pair(c, 1000, 2000);
        expect_yes(3);
    }
    empty();
    write_inside(before, 1000, 24);
    write_inside(after, 2000, 32);
    gcflip_collection_pair(c, 1000, 2000);
    expect_refused(GCFLIP_ROOT_DIFFERS, 0, 0);
    EXPECT(IS_DOUBTFUL(gcflip_snapshot_inside(before, 999, 0)));
}

/* ---- Weak references. */

static void weak(void)
{
    for (int infers = 0; infers < 2; infers++) {
        EXPECT(weak_answer(200, 200, 200, true, infers) == GCFLIP_YES && is_verdict(0, 2, 0, 0));
        EXPECT(weak_answer(200, 200, 0, true, infers) == GCFLIP_YES && is_verdict(0, 2, 0, 0));
        EXPECT(weak_answer(0, 0, 0, false, infers) == GCFLIP_YES && is_verdict(0, 1, 0, 0));
        EXPECT(weak_answer(0, 200, 200, true, infers) == GCFLIP_FAULTY && gcflip_collection_fault(c) == GCFLIP_FAULT_WEAK);
        EXPECT(weak_answer(200, 0, 200, true, infers) == GCFLIP_FAULTY && gcflip_collection_fault(c) == GCFLIP_FAULT_WEAK);
        EXPECT(weak_answer(0, 200, 0, true, infers) == GCFLIP_FAULTY && gcflip_collection_fault(c) == GCFLIP_FAULT_WEAK);
        EXPECT(weak_answer(200, 200, 0, false, infers) == GCFLIP_REFUSED); /* they refer to what is gone */
        EXPECT(weak_answer(100, 200, 200, true, infers) == GCFLIP_REFUSED); /* to another object */
        /* The collector updated neither, and both still have the address 200. */
        EXPECT(weak_answer(OLD_TARGET, 200, 200, true, infers) == GCFLIP_REFUSED && is_verdict(GCFLIP_FIELD_DIFFERS, 0, 0, 0));
        EXPECT(weak_answer(200, OLD_TARGET, 200, true, infers) == GCFLIP_REFUSED && is_verdict(GCFLIP_ROOT_DIFFERS, 0, 1, 0));
    }
}

/* A weak reference that only one snapshot has as such corresponds to nothing. */
static void weak_in_one_snapshot(void)
{
    for (int side = 0; side < 2; side++) {
        empty();
        for (int i = 0; i < 2; i++) {
            gcflip_snapshot *snapshot = i == 0 ? before : after;
            uint32_t at = gcflip_snapshot_object(snapshot, 100, 1, 1);
            if (i == side)
                gcflip_snapshot_set_weak(snapshot, at, 0, 0);
            else
                gcflip_snapshot_set(snapshot, at, 0, 0);
        }
        gcflip_collection_pair(c, 100, 100);
        expect_refused(GCFLIP_FIELD_DIFFERS, 0, 0);
    }
}

/* An object whose field is a weak reference to the other one, and both are roots. */
static void write_weak_pair(gcflip_snapshot *snapshot, uint64_t shift)
{
    uint32_t at = gcflip_snapshot_object(snapshot, 100 + shift, 1, 70000);
    for (uint64_t i = 0; i < 70000; i++)
        gcflip_snapshot_set(snapshot, at, i, 0);
    gcflip_snapshot_object(snapshot, 200 + shift, 2, 0);
    gcflip_snapshot_set_weak(snapshot, at, 40000, 200 + shift);
    gcflip_snapshot_root(snapshot, gcflip_snapshot_reference(snapshot, 100 + shift));
    gcflip_snapshot_root(snapshot, gcflip_snapshot_reference(snapshot, 200 + shift));
}

static void begin_weak_pairs(void)
{
    empty();
    write_weak_pair(before, 0);
    write_weak_pair(after, 1000);
}

static uint32_t inferred(void)
{
    return gcflip_collection_infer(c, &verdict);
}

/* The last word of a field counts, also if an earlier one was a weak reference, and also after a check. */
static void weak_references_taken_back(void)
{
    begin_weak_pairs();
    gcflip_snapshot_set_weak(after, 1, 40000, 0);
    EXPECT(inferred() == GCFLIP_FAULTY && gcflip_collection_fault(c) == GCFLIP_FAULT_WEAK);
    begin_weak_pairs();
    gcflip_snapshot_set_weak(after, 1, 40000, 0);
    gcflip_snapshot_set_weak(after, 1, 40000, 1200); /* it is not cleared any more */
    EXPECT(inferred() == GCFLIP_YES);
    gcflip_snapshot_set(after, 1, 40000, 0);
    EXPECT(inferred() == GCFLIP_REFUSED && is_verdict(GCFLIP_FIELD_DIFFERS, 0, 2, 7232)); /* only one snapshot has a weak reference there */
    gcflip_snapshot_set(before, 1, 40000, 0);
    EXPECT(inferred() == GCFLIP_YES);
    gcflip_snapshot_set(before, 1, 40000, gcflip_snapshot_reference(before, 200));
    EXPECT(inferred() == GCFLIP_REFUSED && is_verdict(GCFLIP_FIELD_DIFFERS, 0, 2, 7232));
    gcflip_snapshot_set(after, 1, 40000, gcflip_snapshot_reference(after, 1200));
    EXPECT(inferred() == GCFLIP_YES);
    gcflip_snapshot_set_weak(before, 1, 40000, 200);
    gcflip_snapshot_set_weak(after, 1, 40000, 1200);
    EXPECT(inferred() == GCFLIP_YES);
    gcflip_snapshot_set_weak(after, 1, 40000, 0);
    EXPECT(inferred() == GCFLIP_FAULTY && gcflip_collection_fault(c) == GCFLIP_FAULT_WEAK);
    for (int side = 0; side < 2; side++) { /* taken back in one snapshot alone, before any check */
        begin_weak_pairs();
        gcflip_snapshot_set(side == 0 ? before : after, 1, 40000, 0);
        EXPECT(inferred() == GCFLIP_REFUSED && is_verdict(GCFLIP_FIELD_DIFFERS, 0, 2, 7232));
    }
    begin_weak_pairs();
    gcflip_snapshot_set_weak(after, 1, 40000, 0);
    gcflip_snapshot_set(after, 1, 40000, gcflip_snapshot_reference(after, 1200)); /* it is no weak reference that was cleared */
    EXPECT(inferred() == GCFLIP_REFUSED && is_verdict(GCFLIP_FIELD_DIFFERS, 0, 2, 7232));
    begin_weak_pairs();
    gcflip_snapshot_set_weak(after, 1, 40000, 0);
    gcflip_snapshot_set_weak(before, 1, 40000, 0); /* a finaliser keeps the target, and the collector clears the reference all the same */
    EXPECT(inferred() == GCFLIP_YES);
    empty();
    gcflip_snapshot_set_weak(before, gcflip_snapshot_object(before, 100, 1, 2), 0, 999);
    EXPECT(gcflip_snapshot_doubts(before, NULL, NULL) == 2); /* no object is at 999, and a field was never set */
    gcflip_snapshot_set(before, 1, 0, 0);
    gcflip_snapshot_set(before, 1, 1, 0);
    EXPECT(gcflip_snapshot_doubts(before, NULL, NULL) == 0);
}

/* ---- Texts. */

static uint32_t written(char **text, size_t *length)
{
    FILE *file = open_memstream(text, length);
    uint32_t wrote = gcflip_collection_write(c, file);
    fclose(file);
    return wrote;
}

static void write_roots(size_t count, size_t differs)
{
    empty();
    for (int i = 0; i < 2; i++) {
        gcflip_snapshot *snapshot = i == 0 ? before : after;
        gcflip_snapshot_object(snapshot, 100, 5, 0);
        for (size_t k = 0; k < count; k++)
            gcflip_snapshot_root(snapshot, i == 1 && k == differs ? 0 : gcflip_snapshot_reference(snapshot, 100));
    }
    gcflip_collection_pair(c, 100, 100);
}

static void expect_text(uint32_t answer, uint32_t refusal, uint32_t pairs, uint64_t place, uint64_t field)
{
    char *text;
    size_t length;
    EXPECT(written(&text, &length) == GCFLIP_WROTE_PAIR);
    EXPECT(gcflip_check_text((const uint8_t *)text, length, &verdict) == answer);
    EXPECT(is_verdict(refusal, pairs, place, field));
    free(text);
}

static void texts(void)
{
    char *text;
    size_t length;
    empty();
    gcflip_snapshot_object(before, 100, 6, 1);
    gcflip_snapshot_set(before, 1, 0, gcflip_snapshot_reference(before, 0));
    gcflip_snapshot_root(before, gcflip_snapshot_reference(before, 100));
    gcflip_snapshot_object(after, 100, 6, 1);
    gcflip_snapshot_set(after, 1, 0, gcflip_snapshot_constant(after, 7));
    gcflip_snapshot_root(after, gcflip_snapshot_reference(after, 100));
    gcflip_collection_pair(c, 100, 100);
    expect_refused(GCFLIP_FIELD_DIFFERS, 0, 0);
    EXPECT(written(&text, &length) == GCFLIP_WROTE_PAIR);
    EXPECT(strcmp(text, "heappair 2\nold 4 4\n0\n17170433\n0\n0\nroots 1\n2\nnew 4 4\n0\n17170433\n0\n15\nroots 1\n2\npairs 1\n1 1\nend\n") == 0);
    free(text);
    list();
    expect_yes(3);
    expect_text(GCFLIP_YES, 0, 3, 0, 0);
    write_roots(272, 272);
    expect_yes(1);
    expect_text(GCFLIP_YES, 0, 1, 0, 0);
    write_roots(273, 273);
    expect_yes(1);
    expect_text(GCFLIP_YES, 0, 2, 0, 0);
    write_roots(273, 272);
    expect_refused(GCFLIP_ROOT_DIFFERS, 272, 0);
    expect_text(GCFLIP_REFUSED, GCFLIP_FIELD_DIFFERS, 0, 0, 272);
    write_roots(70000, 65536);
    expect_refused(GCFLIP_ROOT_DIFFERS, 65536, 0);
    expect_text(GCFLIP_REFUSED, GCFLIP_FIELD_DIFFERS, 0, 1, 1);
}

/* In a text with 273 roots, which are fields of an object of 275 words in front, references are moved by as many words, and words of raw
   objects stay. */
static void moved_text(void)
{
    static const uint64_t words[] = {123456};
    char *text;
    size_t length;
    write_roots(273, 273);
    gcflip_snapshot_words(before, 200, 7, words, 1);
    expect_yes(1);
    EXPECT(written(&text, &length) == GCFLIP_WROTE_PAIR);
    EXPECT(strstr(text, "\n552\n552\n") != NULL && strstr(text, "\n123456\nroots 1\n2\n") != NULL && strstr(text, "\npairs 2\n1 1\n276 276\n") != NULL);
    free(text);
}

/* Word 0, 15 objects of 65536 words, one of 32768 and one of 32767 are the 1048576 words that fit. */
static void largest_text(void)
{
    static const uint64_t words[65534];
    for (uint64_t last = 32765; last < 32768; last++) {
        char *text;
        size_t length;
        empty();
        for (int i = 0; i < 2; i++) {
            gcflip_snapshot *snapshot = i == 0 ? before : after;
            for (uint64_t k = 0; k < 15; k++)
                gcflip_snapshot_words(snapshot, 8 + k, 0, words, 65534);
            gcflip_snapshot_words(snapshot, 100, 0, words, 32766);
            gcflip_snapshot_words(snapshot, 101, 0, words, last);
        }
        expect_yes(0);
        bool fits = gcflip_snapshot_image(before).end <= 1048576;
        EXPECT(fits == (last == 32765));
        EXPECT(written(&text, &length) == (fits ? GCFLIP_WROTE_PAIR : GCFLIP_WROTE_IMAGES));
        EXPECT(strncmp(text, fits ? "heappair 2\n" : "heapimages 1\n", 11) == 0 && strcmp(text + length - 5, "\nend\n") == 0);
        free(text);
    }
}

/* ---- What docs/CERTIFY.md says of single cases. */

/* An ephemeron at 100, and 300 after, with a key at 200 and data at 250, which a root keeps alive. The fields for the data are set after the
   collection, in both snapshots. Returns the answer. */
static uint32_t ephemeron_answer(bool key_lives, bool data_cleared)
{
    empty();
    for (int i = 0; i < 2; i++) {
        gcflip_snapshot *snapshot = i == 0 ? before : after;
        uint64_t shift = i == 0 ? 0 : 200;
        gcflip_snapshot_object(snapshot, 100 + shift, 1, 2);
        if (i == 0 || key_lives)
            gcflip_snapshot_object(snapshot, 200 + shift, 2, 0);
        gcflip_snapshot_object(snapshot, 250 + shift, 3, 0);
        gcflip_snapshot_set_weak(snapshot, gcflip_snapshot_find(snapshot, 100 + shift), 0, i == 0 || key_lives ? 200 + shift : 0);
        gcflip_snapshot_root(snapshot, gcflip_snapshot_reference(snapshot, 100 + shift));
        gcflip_snapshot_root(snapshot, gcflip_snapshot_reference(snapshot, 250 + shift));
    }
    gcflip_snapshot_set(before, gcflip_snapshot_find(before, 100), 1, key_lives ? gcflip_snapshot_reference(before, 250) : 0);
    gcflip_snapshot_set(after, gcflip_snapshot_find(after, 300), 1, data_cleared ? 0 : gcflip_snapshot_reference(after, 450));
    gcflip_collection_pair(c, 100, 300);
    gcflip_collection_pair(c, 250, 450);
    if (key_lives)
        gcflip_collection_pair(c, 200, 400);
    return gcflip_collection_check(c, &verdict);
}

static void ephemerons(void)
{
    EXPECT(ephemeron_answer(true, false) == GCFLIP_YES && verdict.pairs == 3);
    EXPECT(ephemeron_answer(false, true) == GCFLIP_YES && verdict.pairs == 2);
    EXPECT(ephemeron_answer(true, true) == GCFLIP_REFUSED && is_verdict(GCFLIP_FIELD_DIFFERS, 0, 0, 1));
    EXPECT(ephemeron_answer(false, false) == GCFLIP_REFUSED && is_verdict(GCFLIP_FIELD_DIFFERS, 0, 0, 1));
}

/* A large object stays at its address, and a small one that it refers to moves. */
static void staying(void)
{
    empty();
    for (int i = 0; i < 2; i++) {
        gcflip_snapshot *snapshot = i == 0 ? before : after;
        uint64_t moving = i == 0 ? 200 : 300;
        uint32_t at = gcflip_snapshot_object(snapshot, 100, 1, 1);
        gcflip_snapshot_object(snapshot, moving, 2, 0);
        gcflip_snapshot_set(snapshot, at, 0, gcflip_snapshot_reference(snapshot, moving));
        gcflip_snapshot_root(snapshot, gcflip_snapshot_reference(snapshot, 100));
    }
    gcflip_collection_pair(c, 100, 100);
    gcflip_collection_pair(c, 200, 300);
    expect_yes(2);
}

/* With an argument, leaves out the largest texts, which take a minute under valgrind. */
int main(int count, char **arguments)
{
    (void)arguments;
    open_collection();
    constants();
    references();
    bytes();
    lists();
    never_set();
    faults();
    parts();
    insides();
    weak();
    weak_in_one_snapshot();
    weak_references_taken_back();
    texts();
    moved_text();
    if (count == 1)
        largest_text();
    ephemerons();
    staying();
    gcflip_collection_close(c);
    gcflip_collection_close(NULL);
    return 0;
}
