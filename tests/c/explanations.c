/* Tests what gcflip_images prints: explanations of verdicts and faults, doubtful words, constants that are old addresses, and paths. Expected lines
   follow from the header. */
#include "one_collection.h"

/* ---- What is printed. */

static const char *root_name(void *given, uint64_t root)
{
    (void)given;
    return root == 0 ? "the global `all`" : NULL;
}

static const char *kind_name(void *given, uint32_t kind)
{
    (void)given;
    return kind == 3 ? "cons" : NULL;
}

static const char *field_name(void *given, uint64_t address, uint32_t kind, uint64_t field)
{
    (void)given;
    if (kind == 3 && address == 2000 && field == 1)
        return "the tail of the first cell";
    return kind == 3 && field == 0 ? "head" : NULL;
}

/* Expects that this was printed, and frees it. */
static void expect_printed(char *printed, const char *wanted)
{
    if (strcmp(printed, wanted) != 0)
        fprintf(stderr, "%s", printed);
    EXPECT(strcmp(printed, wanted) == 0);
    free(printed);
}

static void expect_told(const char *wanted, bool named)
{
    const gcflip_names names = {.root = root_name, .kind = kind_name, .field = field_name};
    char *text;
    size_t length;
    FILE *file = open_memstream(&text, &length);
    gcflip_collection_explain(c, named ? &names : NULL, file);
    fclose(file);
    expect_printed(text, wanted);
}

static void explanations(void)
{
    list();
    expect_yes(3);
    expect_told("yes 3\n", true);
    gcflip_snapshot_set(after, 1, 0, gcflip_snapshot_reference(after, 404));
    expect_refused(GCFLIP_FIELD_DIFFERS, 0, 0);
    expect_told("refused 9 FieldDiffers 0 0\n  the object 0x64 (cons, 2 fields) with the replica 0x12c (cons, 2 fields)\n  head\n"
                "  before 0xc8 (kind 4, 1 field)\n  after  0x194: no object starts there\n"
                "  no object started there before the collection either; the replica of the object before is 0x190 (kind 4, 1 field)\n  reached by the global `all`\n", true);
    list();
    gcflip_snapshot_set(after, 5, 0, gcflip_snapshot_fixed(after, 4096));
    expect_refused(GCFLIP_FIELD_DIFFERS, 1, 0);
    expect_told("refused 9 FieldDiffers 1 0\n  the object 0xc8 (kind 4, 1 field) with the replica 0x190 (kind 4, 1 field)\n  field 0\n"
                "  before the constant 0x8000000000000000\n  after  0x1000, which does not move\n  reached by root 0 . field 0\n", false);
    list();
    gcflip_snapshot_root(before, gcflip_snapshot_constant(before, UINT64_MAX));
    gcflip_snapshot_root(after, 0);
    expect_refused(GCFLIP_ROOT_DIFFERS, 1, 0);
    expect_told("refused 10 RootDiffers 1\n  root 1\n  before the constant 0xffffffffffffffff\n  after  nil\n", true);
    gcflip_snapshot_root(after, 0);
    expect_refused(GCFLIP_ROOT_COUNT, 0, 0);
    expect_told("refused 3 RootCount\n  2 roots before, 3 after\n", true);
    EXPECT(weak_answer(200, OLD_TARGET, 200, true, false) == GCFLIP_REFUSED);
    expect_told("refused 10 RootDiffers 1\n  root 1\n  before 0xc8 (kind 2, 0 fields)\n  after  0xc8: no object starts there\n"
                "  that is still the old address; the replica of the object before is 0x4b0 (kind 2, 0 fields)\n", true);
    EXPECT(weak_answer(0, 200, 200, true, false) == GCFLIP_FAULTY);
    expect_told("no verdict: a weak reference was cleared, and its target has a replica: field 0 of 0x64 (kind 1, 1 field) was 0xc8 (kind 2, 0 fields)\n", true);
    EXPECT(weak_answer(200, 0, 200, true, false) == GCFLIP_FAULTY);
    expect_told("no verdict: a weak reference was cleared, and its target has a replica: root 1 was 0xc8 (kind 2, 0 fields)\n", true);
    gcflip_snapshot_clear(before);
    expect_told("no verdict: a weak reference was cleared, and its target has a replica: root 1 was no object\n", true);
    EXPECT(weak_answer(0, 200, 0, true, true) == GCFLIP_FAULTY);
    gcflip_snapshot_clear(before);
    expect_told("no verdict: a weak reference was cleared, and its target has a replica: field 0 of no object was no object\n", true);
    empty();
    write_large(before, 1000);
    write_large(after, 2000);
    gcflip_collection_pair(c, 1000, 2000);
    gcflip_snapshot_set(after, 1, 40000, gcflip_snapshot_constant(after, 7));
    expect_refused(GCFLIP_FIELD_DIFFERS, 2, 7232);
    expect_told("refused 9 FieldDiffers 2 7232\n  the object the part from field 32768 of 0x3e8 (kind 9, 70000 fields) with the replica "
                "the part from field 32768 of 0x7d0 (kind 9, 70000 fields)\n  field 40000\n  before the constant 0x9c40\n"
                "  after  the constant 0x7\n  reached by root 0\n", false);
}

static const char *object_name(void *given, const gcflip_snapshot *snapshot, uint64_t address, uint32_t kind)
{
    EXPECT(given == NULL && (kind == 3 || kind == 4));
    return kind == 4 ? NULL : snapshot == before && address == 100 ? "the list before" : snapshot == after && address == 300 ? "the list after" : NULL;
}

/* Expects this about the list, whose first field has another word now, given by its address. There are more objects, at 500 and 700 before and at 500,
   600 and 700 after. Those at 700 are a pair, and those at 500 if `has_pair`. */
static void expect_target(uint64_t now, bool has_pair, const char *wanted)
{
    char whole[800], *text;
    size_t length;
    const gcflip_names names = {.kind = kind_name, .object = object_name};
    list();
    gcflip_snapshot_object(before, 500, 4, 0);
    gcflip_snapshot_object(after, 500, 4, 0);
    gcflip_snapshot_set(after, gcflip_snapshot_object(after, 600, 4, 1), 0, 0);
    gcflip_snapshot_set(before, gcflip_snapshot_object(before, 700, 4, 1), 0, 0);
    gcflip_snapshot_set(after, gcflip_snapshot_object(after, 700, 4, 1), 0, 0);
    gcflip_collection_pair(c, 700, 700);
    if (has_pair)
        gcflip_collection_pair(c, 500, 500);
    gcflip_snapshot_set(after, 1, 0, gcflip_snapshot_reference(after, now));
    expect_refused(GCFLIP_FIELD_DIFFERS, 0, 0);
    FILE *file = open_memstream(&text, &length);
    gcflip_collection_explain(c, &names, file);
    fclose(file);
    snprintf(whole, sizeof whole, "refused 9 FieldDiffers 0 0\n  the object 0x64 (the list before: cons, 2 fields) with the replica 0x12c (the list after: cons, 2 fields)\n"
                                  "  field 0\n  before 0xc8 (kind 4, 1 field)\n  after  %s  reached by root 0\n", wanted);
    expect_printed(text, whole);
}

/* Expects these lines about a word of gcflip_snapshot_doubtful, in a field that referred to the object at 200. */
static void expect_own_doubt(uint64_t word, const char *wanted)
{
    char whole[400];
    list();
    gcflip_snapshot_set(after, 1, 0, gcflip_snapshot_doubtful(after, word, "in the nursery"));
    expect_refused(GCFLIP_FIELD_DIFFERS, 0, 0);
    snprintf(whole, sizeof whole, "refused 9 FieldDiffers 0 0\n  the object 0x64 (cons, 2 fields) with the replica 0x12c (cons, 2 fields)\n  head\n"
                                  "  before 0xc8 (kind 4, 1 field)\n  after  0x%x: in the nursery\n%s  reached by the global `all`\n", (unsigned)word, wanted);
    expect_told(whole, true);
}

/* What became of the object at 200, whose replica is at 400. */
static void targets_explained(void)
{
    expect_own_doubt(200, "  that is still the old address; the replica of the object before is 0x190 (kind 4, 1 field)\n");
    expect_own_doubt(7, "");
    expect_target(0, true, "nil\n");
    expect_target(200, true, "0xc8: no object starts there\n  that is still the old address; the replica of the object before is 0x190 (kind 4, 1 field)\n");
    expect_target(100, true, "0x64: no object starts there\n  that is the old address of another object, 0x64 (the list before: cons, 2 fields)"
                             "; the replica of the object before is 0x190 (kind 4, 1 field)\n");
    expect_target(204, true, "0xcc: no object starts there\n  no object started there before the collection either"
                             "; the replica of the object before is 0x190 (kind 4, 1 field)\n");
    expect_target(500, true, "0x1f4 (kind 4, 0 fields)\n  that is the replica of another object, 0x1f4 (kind 4, 0 fields)"
                             "; the replica of the object before is 0x190 (kind 4, 1 field)\n");
    expect_target(600, true, "0x258 (kind 4, 1 field)\n  the object was copied twice: 0x190 (kind 4, 1 field) and 0x258 (kind 4, 1 field)\n"
                             "  objects with references to two copies: 1\n");
    expect_target(700, true, "0x2bc (kind 4, 1 field)\n  that is the replica of another object, 0x2bc (kind 4, 1 field)"
                             "; the replica of the object before is 0x190 (kind 4, 1 field)\n");
    expect_target(500, false, "0x1f4 (kind 4, 0 fields)\n  that is no replica; the replica of the object before is 0x190 (kind 4, 1 field)\n");
}

/* Places an object without fields, and returns a reference to it. */
static uint64_t small(gcflip_snapshot *snapshot, uint64_t address, uint32_t kind)
{
    gcflip_snapshot_object(snapshot, address, kind, 0);
    return gcflip_snapshot_reference(snapshot, address);
}

/* Writes a cell, a root each for three small objects, a long object, raw words, and an object with `length` fields, in both snapshots alike. */
static void write_with_copies(gcflip_snapshot *snapshot, uint64_t cell, const uint64_t *fields, const uint64_t *roots, uint64_t of_long, uint64_t raw, uint64_t length)
{
    uint32_t at = gcflip_snapshot_object(snapshot, cell, 3, 6);
    for (uint64_t i = 0; i < 6; i++)
        gcflip_snapshot_set(snapshot, at, i, fields[i]);
    gcflip_snapshot_root(snapshot, gcflip_snapshot_reference(snapshot, cell));
    for (uint64_t i = 0; i < 3; i++)
        gcflip_snapshot_root(snapshot, roots[i]);
    gcflip_snapshot_set(snapshot, write_large(snapshot, cell + 8), 40000, of_long);
    gcflip_snapshot_words(snapshot, cell + 16, 5, &raw, 1);
    at = gcflip_snapshot_object(snapshot, cell + 24, 5, length);
    for (uint64_t i = 0; i < length; i++)
        gcflip_snapshot_set(snapshot, at, i, 0);
}

/* Each object with a second copy counts once, whether a root, a field or a field of a part refers to that. `d` has none: a field refers to an object of
   another kind, and a raw word only looks like a reference. `f` has no first copy. */
static void copies_counted(void)
{
    empty();
    uint64_t a = small(before, 100, 4), b = small(before, 108, 5), d = small(before, 116, 6), e = small(before, 124, 8), f = small(before, 132, 9), g = small(before, 140, 10);
    uint64_t a1 = small(after, 300, 4), a2 = small(after, 304, 4), a3 = small(after, 308, 4), b1 = small(after, 320, 5), b2 = small(after, 324, 5);
    uint64_t d1 = small(after, 330, 6), d2 = small(after, 334, 7), d3 = small(after, 338, 6), e2 = small(after, 344, 8), f1 = small(after, 350, 9), g2 = small(after, 364, 10);
    small(after, 340, 8);
    small(after, 360, 10);
    write_with_copies(before, 2000, (uint64_t[]){a, a, d, a, f, g}, (uint64_t[]){b, a, d}, e, d, 1);
    write_with_copies(after, 3000, (uint64_t[]){a2, a1, d2, b1, f1, g2}, (uint64_t[]){b2, a3, d1}, e2, d3, 0);
    const uint64_t pairs[][2] = {{100, 300}, {108, 320}, {116, 330}, {124, 340}, {140, 360}, {2000, 3000}, {2008, 3008}, {2016, 3016}, {2024, 3024}};
    for (size_t i = 0; i < COUNT(pairs); i++)
        gcflip_collection_pair(c, pairs[i][0], pairs[i][1]);
    EXPECT(gcflip_collection_check(c, &verdict) == GCFLIP_REFUSED);
    gcflip_snapshot_root(before, a); /* one more than the snapshot after has */
    expect_told("refused 9 FieldDiffers 5 0\n  the object 0x7d0 (cons, 6 fields) with the replica 0xbb8 (cons, 6 fields)\n  head\n"
                "  before 0x64 (kind 4, 0 fields)\n  after  0x130 (kind 4, 0 fields)\n"
                "  the object was copied twice: 0x12c (kind 4, 0 fields) and 0x130 (kind 4, 0 fields)\n"
                "  the first copy is reached by the global `all` . the tail of the first cell\n"
                "  objects with references to two copies: 4\n  reached by the global `all`\n", true);
}

/* A raw object in parts has words, and not fields. */
static void long_raw_objects_have_words(void)
{
    static const uint64_t words[LARGE];
    empty();
    gcflip_snapshot_words(before, 1000, 9, words, LARGE);
    gcflip_snapshot_object(after, 2000, 9, 1);
    gcflip_snapshot_set(after, 1, 0, 0);
    gcflip_snapshot_root(before, 0);
    gcflip_snapshot_root(after, 0);
    gcflip_collection_pair(c, 1000, 2000);
    expect_refused(GCFLIP_HEADER_DIFFERS, 0, 0);
    expect_told("refused 8 HeaderDiffers 0\n  the object 0x3e8 (kind 9, 70000 words) with the replica 0x7d0 (kind 9, 1 field)\n  header\n"
                "  before kind 9, 70000 words\n  after  kind 9, 1 field\n  the kind is the same, the length is 69999 less, words became fields\n", false);
}

/* Expects these lines about an object with two fields, whose replica has this kind and this length. */
static void expect_header(uint32_t kind, uint64_t length, bool is_raw, const char *wanted)
{
    static const uint64_t words[3];
    char whole[400];
    empty();
    uint32_t place = gcflip_snapshot_object(before, 100, 3, 2);
    gcflip_snapshot_set(before, place, 0, 0);
    gcflip_snapshot_set(before, place, 1, 0);
    gcflip_snapshot_root(before, gcflip_snapshot_reference(before, 100));
    place = is_raw ? gcflip_snapshot_words(after, 300, kind, words, length) : gcflip_snapshot_object(after, 300, kind, length);
    for (uint64_t i = 0; i < length && !is_raw; i++)
        gcflip_snapshot_set(after, place, i, 0);
    gcflip_snapshot_root(after, gcflip_snapshot_reference(after, 300));
    EXPECT(gcflip_collection_infer(c, &verdict) == GCFLIP_REFUSED && is_verdict(GCFLIP_HEADER_DIFFERS, 0, 0, 0));
    snprintf(whole, sizeof whole, "refused 8 HeaderDiffers 0\n  the object 0x64 (cons, 2 fields) with the replica 0x12c (%s  reached by the global `all`\n", wanted);
    expect_told(whole, true);
}

/* Both headers in words, and what became of the kind and of the length. */
static void headers_explained(void)
{
    static const uint64_t many[LARGE];
    expect_header(4, 2, false, "kind 4, 2 fields)\n  header\n  before kind 3 (cons), 2 fields\n  after  kind 4, 2 fields\n  the kind is another one, the length is the same\n");
    expect_header(3, 1, false, "cons, 1 field)\n  header\n  before kind 3 (cons), 2 fields\n  after  kind 3 (cons), 1 field\n  the kind is the same, the length is 1 less\n");
    expect_header(3, 2, true, "cons, 2 words)\n  header\n  before kind 3 (cons), 2 fields\n  after  kind 3 (cons), 2 words\n"
                              "  the kind is the same, the length is the same, fields became words\n");
    expect_header(0, 3, true, "kind 0, 3 words)\n  header\n  before kind 3 (cons), 2 fields\n  after  kind 0, 3 words\n"
                              "  the kind is another one, the length is 1 more, fields became words\n");
    empty(); /* a part differs, and the whole is told of */
    gcflip_snapshot_words(before, 1000, 9, many, LARGE);
    gcflip_snapshot_words(after, 2000, 9, many, LARGE - 1);
    gcflip_collection_pair(c, 1000, 2000);
    expect_refused(GCFLIP_HEADER_DIFFERS, 3, 0);
    expect_told("refused 8 HeaderDiffers 3\n  the object the part from field 65536 of 0x3e8 (kind 9, 70000 words) with the replica the part from field 65536 of 0x7d0 "
                "(kind 9, 69999 words)\n  header\n  before kind 9, 70000 words\n  after  kind 9, 69999 words\n  the kind is the same, the length is 1 less\n", false);
}

/* Constants and pointers into objects have no header of the runtime's. */
static void own_headers_explained(void)
{
    empty();
    gcflip_snapshot_root(before, gcflip_snapshot_constant(before, (uint64_t)1 << 63));
    gcflip_snapshot_object(after, 300, 3, 0);
    gcflip_snapshot_root(after, gcflip_snapshot_reference(after, 300));
    EXPECT(gcflip_collection_infer(c, &verdict) == GCFLIP_REFUSED && is_verdict(GCFLIP_HEADER_DIFFERS, 0, 0, 0));
    expect_told("refused 8 HeaderDiffers 0\n  the object the constant 0x8000000000000000 with the replica 0x12c (cons, 0 fields)\n  header\n"
                "  before a constant and no object\n  after  kind 3 (cons), 0 fields\n  reached by the global `all`\n", true);
    empty();
    gcflip_snapshot_object(before, 100, 3, 0);
    gcflip_snapshot_root(before, gcflip_snapshot_reference(before, 100));
    gcflip_snapshot_root(after, gcflip_snapshot_constant(after, (uint64_t)1 << 63));
    EXPECT(gcflip_collection_infer(c, &verdict) == GCFLIP_REFUSED && is_verdict(GCFLIP_HEADER_DIFFERS, 0, 0, 0));
    expect_told("refused 8 HeaderDiffers 0\n  the object 0x64 (cons, 0 fields) with the replica the constant 0x8000000000000000\n  header\n"
                "  before kind 3 (cons), 0 fields\n  after  a constant and no object\n  reached by the global `all`\n", true);
    empty();
    gcflip_snapshot_object(before, 100, 3, 0);
    gcflip_snapshot_root(before, gcflip_snapshot_inside(before, 100, 8));
    gcflip_snapshot_object(after, 300, 3, 0);
    gcflip_snapshot_root(after, gcflip_snapshot_reference(after, 300));
    EXPECT(gcflip_collection_infer(c, &verdict) == GCFLIP_REFUSED && is_verdict(GCFLIP_HEADER_DIFFERS, 0, 0, 0));
    expect_told("refused 8 HeaderDiffers 0\n  the object byte 8 of 0x64 (cons, 0 fields) with the replica 0x12c (cons, 0 fields)\n  header\n"
                "  before a pointer into an object\n  after  kind 3 (cons), 0 fields\n  reached by the global `all`\n", true);
}

/* Refusals of the list of pairs name the pair, or the earlier one. */
static void pairs_explained(void)
{
    list();
    gcflip_collection_pair(c, 100, 404);
    gcflip_collection_pair(c, 108, 300);
    expect_refused(GCFLIP_NEW_NOT_START, 0, 0);
    expect_told("refused 5 NewNotStart 0\n  the first pair that was added without both objects: 0x64 (cons, 2 fields), with the replica 0x194, where no object starts\n", true);
    list();
    gcflip_collection_pair(c, 108, 300);
    expect_refused(GCFLIP_OLD_NOT_START, 0, 0); /* two pairs have one new address, and this one has the old address 0 */
    expect_told("refused 4 OldNotStart 0\n  the first pair that was added without both objects: 0x6c, where no object starts, with the replica 0x12c (cons, 2 fields)\n", true);
    list();
    gcflip_snapshot_object(after, 500, 4, 1);
    gcflip_collection_pair(c, 200, 500);
    expect_refused(GCFLIP_TWICE, 3, 0);
    expect_told("refused 7 Twice 3\n  the object 0xc8 (kind 4, 1 field) with the replica 0x1f4 (kind 4, 1 field)\n"
                "  another replica of it is 0x190 (kind 4, 1 field)\n  reached by the global `all` . head\n", true);
    list();
    gcflip_snapshot_object(before, 500, 4, 1);
    gcflip_collection_pair(c, 500, 400);
    expect_refused(GCFLIP_NOT_RISING, 2, 0); /* by new addresses: 300, 400 of 200, 400 of 500, and the constant */
    expect_told("refused 6 NotRising 2\n  the object 0x1f4 (kind 4, 1 field) with the replica 0x190 (kind 4, 1 field)\n"
                "  another object with this replica is 0xc8 (kind 4, 1 field)\n", false);
}

/* Without a verdict: why, and where the doubtful words are. No verdict is written. */
static void without_verdict(void)
{
    const gcflip_verdict unwritten = {7, 7, 7, 7};
    empty();
    expect_told("no verdict: no check was made\n", true);
    verdict = unwritten;
    list();
    verdict = unwritten;
    gcflip_snapshot_set(after, 1, 0, gcflip_snapshot_reference(after, 404));
    gcflip_snapshot_root(before, gcflip_snapshot_doubtful(before, 9, "a word of the stack that no map describes"));
    gcflip_snapshot_object(after, 400, 4, 1);
    EXPECT(gcflip_collection_check(c, &verdict) == GCFLIP_FAULTY && is_verdict(7, 7, 7, 7));
    expect_told("no verdict: two objects at one address: 0x190, in the snapshot after\n"
                "  in the snapshot before, root 1 is 0x9: a word of the stack that no map describes\n"
                "  in the snapshot after, head of 0x12c (cons, 2 fields) is 0x194: no object starts there\n", true);
    list();
    expect_yes(3);
    gcflip_snapshot_object(before, 100, 3, 2); /* after the check; and the first fault stays */
    gcflip_snapshot_set(before, 1, 2, 0);
    gcflip_snapshot_object(before, 500, 252, 0);
    expect_told("no verdict: two objects at one address: 0x64, in the snapshot before\n", true);
    list();
    gcflip_snapshot_set(before, 1, 2, 0);
    expect_told("no verdict: a field that the object does not have: field 2 of 0x64, in the snapshot before\n", true);
    list();
    gcflip_snapshot_set(after, gcflip_snapshot_find(after, 404), 1, 0);
    expect_told("no verdict: a field that the object does not have: field 1 where no object is, in the snapshot after\n", true);
    list();
    gcflip_snapshot_object(before, 500, 252, 0);
    expect_told("no verdict: a kind of 252 or more: 0x1f4, in the snapshot before\n", true);
    for (int infers = 0; infers < 2; infers++) {
        EXPECT(weak_answer(0, 200, 200, true, infers) == GCFLIP_FAULTY);
        verdict = unwritten;
        EXPECT((infers ? gcflip_collection_infer(c, &verdict) : gcflip_collection_check(c, &verdict)) == GCFLIP_FAULTY);
        EXPECT(is_verdict(7, 7, 7, 7));
    }
    EXPECT(strcmp(gcflip_answer_name(gcflip_collection_check(c, &verdict)), "faulty") == 0);
    empty();
    write_large(before, 1000);
    gcflip_snapshot_set(before, 1, 40000, gcflip_snapshot_reference(before, 1001));
    for (uint64_t i = 0; i < 12; i++)
        gcflip_snapshot_set(before, 1, 40001 + i, gcflip_snapshot_reference(before, 1002 + i));
    gcflip_snapshot_object(before, 1000, 9, 0);
    char *text;
    size_t length, lines = 0;
    FILE *file = open_memstream(&text, &length);
    gcflip_collection_explain(c, NULL, file);
    fclose(file);
    for (size_t i = 0; i < length; i++)
        lines += text[i] == '\n';
    EXPECT(lines == 9 && strstr(text, "  in the snapshot before, field 40007 of 0x3e8 (kind 9, 70000 fields) is 0x3f0: no object starts there\n") != NULL);
    free(text);
}

static void expect_doubts(gcflip_snapshot *snapshot, size_t count, const char *wanted)
{
    const gcflip_names names = {.root = root_name, .kind = kind_name, .field = field_name};
    char *text;
    size_t length;
    FILE *file = open_memstream(&text, &length);
    EXPECT(gcflip_snapshot_doubts(snapshot, NULL, NULL) == count);
    EXPECT(gcflip_snapshot_doubts(snapshot, &names, file) == count);
    fclose(file);
    expect_printed(text, wanted);
}

/* A snapshot alone: doubtful words, fields that were never set, and weak references to no object, each with its place. */
static void doubts_of_a_snapshot(void)
{
    list();
    expect_doubts(before, 0, "");
    gcflip_snapshot_set(before, 1, 0, gcflip_snapshot_reference(before, 204));
    gcflip_snapshot_object(before, 500, 3, 2);
    gcflip_snapshot_set(before, gcflip_snapshot_find(before, 500), 0, 0);
    gcflip_snapshot_root(before, gcflip_snapshot_inside(before, 301, 8));
    gcflip_snapshot_doubtful(before, 7, "a word that nobody keeps");
    const char *wanted = "doubtful words: 2, fields that were never set: 1\n  root 1 is 0x12d: no object starts there, into which this points\n"
                         "  head of 0x64 (cons, 2 fields) is 0xcc: no object starts there\n  field 1 of 0x1f4 (cons, 2 fields) was never set\n";
    expect_doubts(before, 3, wanted);
    EXPECT(gcflip_collection_check(c, &verdict) == GCFLIP_REFUSED);
    expect_doubts(before, 3, wanted); /* also after a check */
    expect_doubts(after, 0, "");
    gcflip_snapshot_object(before, 500, 3, 0); /* a fault is one more */
    EXPECT(gcflip_snapshot_doubts(before, NULL, NULL) == 4);
    empty();
    gcflip_snapshot_object(after, 500, 252, 2);
    expect_doubts(after, 1, "a kind of 252 or more: 0x1f4\ndoubtful words: 0, fields that were never set: 0\n");
}

static void weak_doubts_of_a_snapshot(void)
{
    for (int asked = 0; asked < 2; asked++) {
        EXPECT(weak_answer(200, 200, 0, true, asked) == GCFLIP_YES);
        expect_doubts(before, 0, "");
        empty();
        write_weak(before, 0, 200, 204, 200, false);
        write_weak(after, 0, 0, 0, 0, false);
        gcflip_snapshot_weak_root(before, 0);
        gcflip_snapshot_weak_root(after, 0);
        gcflip_collection_pair(c, 100, 100);
        EXPECT(!asked || gcflip_collection_check(c, &verdict) == GCFLIP_REFUSED); /* the strong root */
        if (asked) /* both weak references were cleared */
            expect_doubts(before, 1, "doubtful words: 1, fields that were never set: 0\n  root 2 is 0xc8: no object starts there\n");
        else
            expect_doubts(before, 3, "doubtful words: 3, fields that were never set: 0\n  root 1 is 0xcc: no object starts there\n"
                                       "  root 2 is 0xc8: no object starts there\n  field 0 of 0x64 (kind 1, 1 field) is 0xc8: no object starts there\n");
    }
}

/* All are counted, and eight are printed. In a long object, fields have their own numbers. */
static void many_doubts_of_a_snapshot(void)
{
    char *text;
    size_t length, lines = 0;
    empty();
    write_large(before, 1000);
    for (uint64_t i = 0; i < 12; i++)
        gcflip_snapshot_set(before, 1, 40000 + i, gcflip_snapshot_reference(before, 1002 + i));
    gcflip_snapshot_object(before, 2000, 9, 65536);
    FILE *file = open_memstream(&text, &length);
    EXPECT(gcflip_snapshot_doubts(before, NULL, file) == 12 + 65536);
    fclose(file);
    for (size_t i = 0; i < length; i++)
        lines += text[i] == '\n';
    EXPECT(lines == 9 && strncmp(text, "doubtful words: 12, fields that were never set: 65536\n  field 40000 of 0x3e8 (kind 9, 70000 fields) is ", 100) == 0);
    EXPECT(strstr(text, "  field 40007 of 0x3e8") != NULL && strstr(text, "  field 40008 of 0x3e8") == NULL);
    free(text);
}

static void expect_addresses(uint64_t from, uint64_t to, size_t count, const char *wanted)
{
    const gcflip_names names = {.root = root_name, .kind = kind_name, .field = field_name};
    char *text;
    size_t length;
    FILE *file = open_memstream(&text, &length);
    EXPECT(gcflip_collection_old_addresses(c, from, to, NULL, NULL) == count);
    EXPECT(gcflip_collection_old_addresses(c, from, to, &names, file) == count);
    fclose(file);
    expect_printed(text, wanted);
}

#define LINES_OF_CELLS HINT(3) "field 1 of 0x12c (cons, 2 fields): 0xc8 (kind 4, 1 field)\n"
#define HINT(count) "hint: constants that are old addresses: " #count ", first "

/* Words of the snapshot after that are addresses of the snapshot before. */
static void addresses_of_the_snapshot_before(void)
{
    static const uint64_t words[] = {201, 200, 101, 100}, high = ((uint64_t)1 << 63) + 8;
    list();
    expect_yes(3);
    expect_addresses(0, 0, 0, ""); /* references, and constants that are none */
    gcflip_snapshot_set(before, 1, 1, gcflip_snapshot_constant(before, 200));
    gcflip_snapshot_set(after, 1, 1, gcflip_snapshot_constant(after, 200));
    expect_yes(3);
    expect_addresses(0, 0, 1, HINT(1) "field 1 of 0x12c (cons, 2 fields): 0xc8 (kind 4, 1 field)\n");
    gcflip_snapshot_words(after, 600, 3, words, 4); /* cells, too */
    expect_addresses(0, 0, 3, HINT(3) "field 1 of 0x12c (cons, 2 fields): 0xc8 (kind 4, 1 field)\n");
    gcflip_snapshot_root(after, gcflip_snapshot_constant(after, 300)); /* that of a copy */
    gcflip_snapshot_root(after, gcflip_snapshot_fixed(after, 404));
    gcflip_snapshot_root(after, gcflip_snapshot_fixed(after, 200));
    expect_addresses(0, 0, 4, LINES_OF_CELLS HINT(1) "root 3: 0xc8 (kind 4, 1 field)\n");
    expect_addresses(100, 101, 4, LINES_OF_CELLS HINT(1) "root 3: 0xc8 (kind 4, 1 field)\n"); /* no word is counted twice */
    expect_addresses(300, 404, 5, LINES_OF_CELLS HINT(2) "root 1: 0x12c\n");
    expect_addresses(301, 405, 5, LINES_OF_CELLS HINT(2) "root 2: 0x194\n");
    expect_addresses(405, 300, 4, LINES_OF_CELLS HINT(1) "root 3: 0xc8 (kind 4, 1 field)\n");
    list();
    gcflip_snapshot_words(after, 600, 3, words, 4);
    expect_addresses(0, 0, 2, HINT(2) "field 1 of 0x258 (cons, 4 words): 0xc8 (kind 4, 1 field)\n");
    gcflip_snapshot_set(after, gcflip_snapshot_find(after, 400), 0, gcflip_snapshot_constant(after, 100));
    expect_addresses(0, 0, 3, HINT(2) "field 1 of 0x258 (cons, 4 words): 0xc8 (kind 4, 1 field)\n" /* a line for each kind */
                              HINT(1) "field 0 of 0x190 (kind 4, 1 field): 0x64 (cons, 2 fields)\n");
    empty();
    gcflip_snapshot_object(before, high, 4, 0);
    gcflip_snapshot_object(before, UINT64_MAX - 7, 4, 0);
    gcflip_snapshot_root(after, gcflip_snapshot_constant(after, high));
    gcflip_snapshot_root(after, gcflip_snapshot_constant(after, UINT64_MAX - 7));
    gcflip_snapshot_root(after, gcflip_snapshot_doubtful(after, high, "none"));
    gcflip_snapshot_root(after, 0);
    expect_addresses(0, 0, 2, HINT(2) "the global `all`: 0x8000000000000008 (kind 4, 0 fields)\n");
}

/* An address in two fields of 32 bits, the lower half first. */
static void halves_of_an_address(void)
{
    const uint64_t address = ((uint64_t)5 << 32) + 16;
    static const uint64_t fields[] = {5, 16, 5, 16, 16, 5, 16};
    empty();
    gcflip_snapshot_object(before, address, 4, 0);
    gcflip_snapshot_object(before, 24, 4, 0);
    uint32_t at = gcflip_snapshot_object(after, 40, 3, 12);
    for (uint64_t i = 0; i < 7; i++)
        gcflip_snapshot_set(after, at, i, gcflip_snapshot_constant(after, fields[i]));
    gcflip_snapshot_set(after, at, 7, gcflip_snapshot_reference(after, 40)); /* between 16 and 5 */
    gcflip_snapshot_set(after, at, 8, gcflip_snapshot_constant(after, 5));
    gcflip_snapshot_set(after, at, 9, gcflip_snapshot_constant(after, 24)); /* a whole address, and 0 behind it is no half */
    gcflip_snapshot_set(after, at, 10, gcflip_snapshot_constant(after, 0));
    gcflip_snapshot_set(after, at, 11, gcflip_snapshot_constant(after, 1));
    gcflip_snapshot_words(after, 400, 5, fields, 7); /* words have no halves */
    expect_addresses(0, 0, 3, HINT(3) "field 1 of 0x28 (cons, 12 fields): 0x500000010 (kind 4, 0 fields)\n");
    expect_addresses(address - 8, address + 1, 3, HINT(3) "field 1 of 0x28 (cons, 12 fields): 0x500000010 (kind 4, 0 fields)\n");
    empty();
    gcflip_snapshot_object(before, address, 4, 0);
    at = gcflip_snapshot_object(after, 40, 3, 65536);
    for (uint64_t i = 0; i < 65536; i++)
        gcflip_snapshot_set(after, at, i, gcflip_snapshot_constant(after, i % 2 == 0 ? 1 : 2));
    gcflip_snapshot_set(after, at, 40001, gcflip_snapshot_constant(after, address));
    expect_addresses(0, 0, 1, HINT(1) "field 40001 of 0x28 (cons, 65536 fields): 0x500000010 (kind 4, 0 fields)\n");
}

/* Paths: through a part of a long object, and along a list. */
static void paths(void)
{
    empty();
    for (int i = 0; i < 2; i++) {
        gcflip_snapshot *snapshot = i == 0 ? before : after;
        uint32_t at = write_large(snapshot, 1000);
        for (uint64_t k = 0; k < 5; k++) {
            gcflip_snapshot_object(snapshot, 2000 + k, 3, 2);
        }
        for (uint64_t k = 0; k < 5; k++) {
            uint32_t cell = gcflip_snapshot_find(snapshot, 2000 + k);
            bool by_head = k == 3; /* the last cell is the head of the one before */
            gcflip_snapshot_set(snapshot, cell, by_head, gcflip_snapshot_constant(snapshot, k == 4 ? (uint64_t)i : k));
            gcflip_snapshot_set(snapshot, cell, !by_head, gcflip_snapshot_reference(snapshot, k == 4 ? 0 : 2001 + k));
        }
        gcflip_snapshot_set(snapshot, at, 40000, gcflip_snapshot_reference(snapshot, 2000));
    }
    EXPECT(gcflip_collection_infer(c, &verdict) == GCFLIP_REFUSED && verdict.refusal == GCFLIP_FIELD_DIFFERS);
    expect_told("refused 9 FieldDiffers 8 0\n  the object 0x7d4 (cons, 2 fields) with the replica 0x7d4 (cons, 2 fields)\n  head\n"
                "  before the constant 0x0\n  after  the constant 0x1\n  reached by the global `all` . field 40000 . the tail of the first cell (3 times) . head\n", true);
}

int main(void)
{
    open_collection();
    explanations();
    targets_explained();
    copies_counted();
    long_raw_objects_have_words();
    headers_explained();
    own_headers_explained();
    pairs_explained();
    without_verdict();
    doubts_of_a_snapshot();
    weak_doubts_of_a_snapshot();
    many_doubts_of_a_snapshot();
    addresses_of_the_snapshot_before();
    halves_of_an_address();
    paths();
    gcflip_collection_close(c);
    return 0;
}
