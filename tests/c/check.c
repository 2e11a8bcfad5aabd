/* Tests gcflip_check: each verdict, each answer except that of a failed allocation, and empty arrays. Tests gcflip_infer
   and gcflip_path. */
#include "expect.h"
#include "gcflip.h"
#include <string.h>
#include <sys/mman.h>

enum { HEADER = 16842753, TWO_FIELDS = 16842754, OTHER_KIND = 16908289, RAW_HEADER = 50331649 };

/* Three objects with one field each. The first refers to the third, which holds the number 7, and the second is
   garbage. */
static uint64_t old_words[] = {0, HEADER, 0, 14, HEADER, 0, 15, HEADER, 0, 15};
static uint64_t old_roots[] = {2, 0};
static uint64_t new_words[] = {0, HEADER, 0, 8, HEADER, 0, 15};
static uint64_t new_roots[] = {2, 0};
static gcflip_pair pairs[] = {{1, 1}, {7, 4}};
static gcflip_image old_image, new_image;
static gcflip_verdict verdict;

static void set_up(void)
{
    old_image = (gcflip_image){16, COUNT(old_words), false, old_words, old_roots, COUNT(old_roots)};
    new_image = (gcflip_image){16, COUNT(new_words), false, new_words, new_roots, COUNT(new_roots)};
    memset(&verdict, 255, sizeof verdict);
}

static uint32_t check(void)
{
    return gcflip_check_images(&old_image, &new_image, pairs, COUNT(pairs), &verdict);
}

static bool is_verdict(uint32_t refusal, uint32_t pair_count, uint64_t place, uint64_t field)
{
    return verdict.refusal == refusal && verdict.pairs == pair_count && verdict.place == place && verdict.field == field;
}

static void yes(void)
{
    set_up();
    EXPECT(check() == GCFLIP_YES && is_verdict(0, 2, 0, 0));
}

static void expect_refusal(uint32_t refusal, uint64_t place, uint64_t field)
{
    EXPECT(check() == GCFLIP_REFUSED);
    EXPECT(is_verdict(refusal, 0, place, field));
    set_up();
}

static void refusals(void)
{
    set_up();
    old_words[4] = TWO_FIELDS; /* the walk continues at word 8, which is not a header */
    expect_refusal(GCFLIP_OLD_SHAPE, 8, 0);
    old_words[4] = HEADER;
    new_image.end = 6; /* the last field is cut off */
    expect_refusal(GCFLIP_NEW_SHAPE, 4, 0);
    new_image.size = 4; /* the end is greater */
    expect_refusal(GCFLIP_NEW_SHAPE, 0, 0);
    new_image.root_count = 1;
    expect_refusal(GCFLIP_ROOT_COUNT, 0, 0);
    pairs[1].old_address = 5; /* a link */
    expect_refusal(GCFLIP_OLD_NOT_START, 1, 0);
    pairs[1].old_address = UINT32_MAX;
    expect_refusal(GCFLIP_OLD_NOT_START, 1, 0);
    pairs[1] = (gcflip_pair){7, 6};
    expect_refusal(GCFLIP_NEW_NOT_START, 1, 0);
    pairs[1] = (gcflip_pair){7, 1};
    expect_refusal(GCFLIP_NOT_RISING, 1, 0);
    pairs[1] = (gcflip_pair){1, 4};
    expect_refusal(GCFLIP_TWICE, 1, 0);
    pairs[1] = (gcflip_pair){7, 4};
    new_words[4] = OTHER_KIND;
    expect_refusal(GCFLIP_HEADER_DIFFERS, 1, 0);
    new_words[4] = HEADER;
    new_words[6] = 17; /* the number 8 */
    expect_refusal(GCFLIP_FIELD_DIFFERS, 1, 0);
    new_words[6] = 15;
    pairs[1].old_address = 4; /* the garbage is paired, and the third object is not */
    expect_refusal(GCFLIP_FIELD_DIFFERS, 0, 0);
    pairs[1].old_address = 7;
    new_roots[1] = 8;
    expect_refusal(GCFLIP_ROOT_DIFFERS, 1, 0);
    new_roots[1] = 0;
}

static void a_later_field_differs(void)
{
    static const uint64_t old_two[] = {0, TWO_FIELDS, 0, 3, 5}, new_two[] = {0, TWO_FIELDS, 0, 3, 7};
    const gcflip_pair pair[] = {{1, 1}};
    const gcflip_image old_space = {8, 5, false, old_two, NULL, 0}, new_space = {8, 5, false, new_two, NULL, 0};
    EXPECT(gcflip_check_images(&old_space, &new_space, pair, 1, &verdict) == GCFLIP_REFUSED);
    EXPECT(is_verdict(GCFLIP_FIELD_DIFFERS, 0, 0, 1));
}

/* A raw object's word is a plain number, here one that would be a reference. If raw headers are not valid, the word is
   not a header. */
static void raw_objects(void)
{
    static const uint64_t words[] = {0, RAW_HEADER, 0, 18};
    static const uint64_t roots[] = {2};
    const gcflip_pair pair[] = {{1, 1}};
    const gcflip_image raw = {9, 4, true, words, roots, 1}, other = {9, 4, false, words, roots, 1};
    EXPECT(gcflip_check_images(&raw, &raw, pair, 1, &verdict) == GCFLIP_YES && is_verdict(0, 1, 0, 0));
    EXPECT(gcflip_check_images(&other, &raw, pair, 1, &verdict) == GCFLIP_REFUSED);
    EXPECT(is_verdict(GCFLIP_OLD_SHAPE, 0, 1, 0));
    EXPECT(gcflip_check_images(&raw, &other, pair, 1, &verdict) == GCFLIP_REFUSED);
    EXPECT(is_verdict(GCFLIP_NEW_SHAPE, 0, 1, 0));
}

static void empty_rows(void)
{
    static const uint64_t reserved[] = {0};
    const gcflip_image empty = {1, 1, false, reserved, NULL, 0}, nothing = {1, 0, false, NULL, NULL, 0};
    EXPECT(gcflip_check_images(&empty, &empty, NULL, 0, &verdict) == GCFLIP_YES && is_verdict(0, 0, 0, 0));
    EXPECT(gcflip_check_images(&nothing, &empty, NULL, 0, &verdict) == GCFLIP_REFUSED);
    EXPECT(is_verdict(GCFLIP_OLD_SHAPE, 0, 0, 0));
    EXPECT(gcflip_check_images(&empty, &nothing, NULL, 0, &verdict) == GCFLIP_REFUSED);
    EXPECT(is_verdict(GCFLIP_NEW_SHAPE, 0, 0, 0));
    EXPECT(gcflip_check(1, 1, true, reserved, 1, reserved, 0, 1, 1, true, reserved, 1, reserved, 0, pairs, 0, &verdict) ==
           GCFLIP_YES);
}

/* Fewer or more words than `end` says. */
static void other_counts_of_words(void)
{
    for (size_t count = 8; count <= 10; count++) {
        uint32_t answer = gcflip_check(16, 9, false, old_words, count, old_roots, 2, 16, 7, false, new_words, 7, new_roots, 2,
                                       pairs, 2, &verdict);
        EXPECT(answer == GCFLIP_REFUSED && verdict.refusal == GCFLIP_OLD_SHAPE);
    }
}

/* 2^32 pairs, which take 32 GiB of addresses and no memory. With one pair fewer, the check runs and refuses the first pair. */
static void too_many_pairs(void)
{
    const size_t count = (size_t)UINT32_MAX + 1;
    const gcflip_pair *many = (const gcflip_pair *)mmap(NULL, count * sizeof *many, PROT_READ, MAP_PRIVATE | MAP_ANONYMOUS | MAP_NORESERVE, -1, 0);
    EXPECT(many != MAP_FAILED);
    set_up();
    EXPECT(gcflip_check_images(&old_image, &new_image, many, count, &verdict) == GCFLIP_TOO_MANY);
    EXPECT(is_verdict(UINT32_MAX, UINT32_MAX, UINT64_MAX, UINT64_MAX)); /* as it was */
    EXPECT(gcflip_check_images(&old_image, &new_image, many, count - 1, &verdict) == GCFLIP_REFUSED);
    EXPECT(is_verdict(GCFLIP_OLD_NOT_START, 0, 0, 0));
    munmap((void *)many, count * sizeof *many);
}

/* Infers the pairs of the images. Returns whether the answer and the number of pairs are these. */
static bool infers(uint32_t answer, size_t number)
{
    gcflip_pair found[4] = {{90, 91}, {92, 93}, {94, 95}, {96, 97}};
    size_t count = 99;
    bool is = gcflip_infer_images(&old_image, &new_image, found, COUNT(found), &count, &verdict) == answer && count == number;
    for (size_t k = 0; k < COUNT(pairs); k++)
        is = is && (k >= number || (found[k].old_address == pairs[k].old_address && found[k].new_address == pairs[k].new_address));
    return is && found[number].old_address == 90 + 2 * number;
}

static void inferred(void)
{
    set_up();
    EXPECT(infers(GCFLIP_YES, 2) && is_verdict(0, 2, 0, 0));
    new_words[6] = 17; /* the number of the third object is 8 */
    EXPECT(infers(GCFLIP_REFUSED, 2) && is_verdict(GCFLIP_FIELD_DIFFERS, 0, 1, 0));
    new_words[6] = 15;
    new_words[3] = 2; /* the first object refers to itself, and so the third has no replica */
    EXPECT(infers(GCFLIP_REFUSED, 1) && is_verdict(GCFLIP_FIELD_DIFFERS, 0, 0, 0));
    new_words[3] = 8;
    old_roots[1] = new_roots[1] = 2; /* the same object twice is one pair */
    EXPECT(infers(GCFLIP_YES, 2));
    old_roots[1] = 8; /* garbage before: it shares the replica of the first object */
    EXPECT(infers(GCFLIP_REFUSED, 2) && is_verdict(GCFLIP_ROOT_DIFFERS, 0, 1, 0));
    old_roots[1] = new_roots[1] = 0;
    new_image.end = 6; /* no pairs of an image without a shape */
    EXPECT(infers(GCFLIP_REFUSED, 0) && is_verdict(GCFLIP_NEW_SHAPE, 0, 4, 0));
    set_up();
    new_image.root_count = 1;
    EXPECT(infers(GCFLIP_REFUSED, 0) && is_verdict(GCFLIP_ROOT_COUNT, 0, 0, 0));
}

/* Without room for both pairs, nothing is written. */
static void no_room_for_pairs(void)
{
    for (size_t room = 0; room < 2; room++) {
        gcflip_pair found[1] = {{90, 91}};
        size_t count = 99;
        set_up();
        EXPECT(gcflip_infer_images(&old_image, &new_image, found, room, &count, &verdict) == GCFLIP_TOO_MANY);
        EXPECT(count == 99 && found[0].old_address == 90 && found[0].new_address == 91);
        EXPECT(is_verdict(UINT32_MAX, UINT32_MAX, UINT64_MAX, UINT64_MAX));
    }
}

/* Returns whether the shortest path to the address begins at this root and has these fields. */
static bool leads(uint32_t address, uint64_t root, const uint64_t *wanted, size_t length)
{
    uint64_t place = 99, fields[4] = {90, 91, 92, 93};
    size_t count = 99;
    bool is = gcflip_path_in(&old_image, address, &place, fields, COUNT(fields), &count) == GCFLIP_YES && place == root && count == length;
    for (size_t i = 0; i < COUNT(fields); i++)
        is = is && fields[i] == (i < length ? wanted[i] : 90 + i);
    return is;
}

static bool leads_nowhere(uint32_t address)
{
    uint64_t place = 99, fields[4] = {90, 91, 92, 93};
    size_t count = 99;
    bool is = gcflip_path_in(&old_image, address, &place, fields, COUNT(fields), &count) == GCFLIP_NO_PATH;
    return is && place == 99 && count == 99 && fields[0] == 90;
}

/* A space of four objects: 1 refers to 5 and to 13, 5 refers to 9, 9 refers to 13, and the raw object at 13 has a word that would be a
   reference to 1. Root 1 refers to 1. */
static void paths(void)
{
    static uint64_t words[17] = {0, 16777218, 0, 10, 26, 16777218, 0, 18, 0, 16777218, 0, 26, 0, 50331650, 0, 2, 18};
    static uint64_t roots[2] = {7, 2};
    old_image = (gcflip_image){20, 17, true, words, roots, 2};
    EXPECT(leads(1, 1, NULL, 0));
    EXPECT(leads(5, 1, (const uint64_t[]){0}, 1));
    EXPECT(leads(9, 1, (const uint64_t[]){0, 0}, 2));
    EXPECT(leads(13, 1, (const uint64_t[]){1}, 1)); /* shorter than 0, 0, 0 */
    EXPECT(leads_nowhere(2) && leads_nowhere(0) && leads_nowhere(UINT32_MAX));
    words[4] = 2; /* now only the long path leads to 13, and 1 refers to itself */
    EXPECT(leads(13, 1, (const uint64_t[]){0, 0, 0}, 3) && leads(1, 1, NULL, 0));
    words[12] = 200; /* no object starts at 100, but a path finds a reference to it */
    EXPECT(leads(100, 1, (const uint64_t[]){0, 0, 1}, 3));
    roots[1] = 18; /* 1 and 5 are garbage, although the raw object has a word like a reference to 1 */
    EXPECT(leads(9, 1, NULL, 0) && leads_nowhere(1) && leads_nowhere(5));
    roots[0] = 18; /* the first of two roots */
    EXPECT(leads(9, 0, NULL, 0));
    words[9] = 0; /* no header: the image is not shaped */
    EXPECT(leads_nowhere(9));
}

/* Without room for the fields, only their number is written. */
static void no_room_for_fields(void)
{
    static const uint64_t words[8] = {0, 16777217, 0, 8, 16777217, 0, 2, 0};
    static const uint64_t roots[1] = {2};
    const gcflip_image image = {8, 7, false, words, roots, 1};
    uint64_t place = 99;
    size_t count = 99;
    EXPECT(gcflip_path_in(&image, 4, &place, NULL, 0, &count) == GCFLIP_LONG_PATH);
    EXPECT(count == 1 && place == 99);
}

static void names(void)
{
    EXPECT(strcmp(gcflip_refusal_name(GCFLIP_OLD_SHAPE), "OldShape") == 0);
    EXPECT(strcmp(gcflip_refusal_name(GCFLIP_ROOT_DIFFERS), "RootDiffers") == 0);
    EXPECT(strcmp(gcflip_refusal_name(0), "") == 0 && strcmp(gcflip_refusal_name(11), "") == 0);
}

int main(void)
{
    yes();
    refusals();
    yes();
    a_later_field_differs();
    raw_objects();
    empty_rows();
    other_counts_of_words();
    too_many_pairs();
    inferred();
    no_room_for_pairs();
    paths();
    no_room_for_fields();
    names();
    return 0;
}
