/* Tests the test for adapters on a heap whose references have two tags: 1 for a pair, 2 for a function. Other words are constants. An object is a
   header, which is 256 times the number of fields plus the tag, and its fields. Expected lines follow from the header.

   self_tests sums: the adapter compares a sum of an address, which is 0 for the address 2^64 - 8, and reads there. */
#include "expect.h"
#include "gcflip_images.h"
#include <string.h>

enum { WORDS = 4000, PAIR = 1, FUNCTION = 2 };

static uint64_t old_space[WORDS], new_space[WORDS];
static uint64_t root;
static size_t used;       /* words of either space */
static bool by_sums, lax; /* a lax adapter does not read the upper 24 bits of a header */
static gcflip_collection *c;

static uint64_t address_of(const void *at)
{
    return (uint64_t)(uintptr_t)at;
}

static uint64_t word_of(gcflip_snapshot *snapshot, uint64_t word)
{
    bool is_reference = word % 4 == PAIR || word % 4 == FUNCTION;
    return is_reference ? gcflip_snapshot_reference(snapshot, word) : gcflip_snapshot_constant(snapshot, word);
}

/* Whether so many bytes from this address on lie between the bounds. */
static bool has_bytes(uint64_t from, uint64_t to, uint64_t address, uint64_t bytes)
{
    if (by_sums)
        return address >= from && !(address + bytes > to);
    return address >= from && address <= to && to - address >= bytes;
}

static void read_object(gcflip_snapshot *snapshot, uint64_t from, uint64_t to, uint64_t reference)
{
    uint64_t address = reference - reference % 4;
    if (address % 8 != 0 || !has_bytes(from, to, address, 8))
        return;
    const uint64_t *object = (const uint64_t *)(uintptr_t)address;
    uint64_t length = lax ? object[0] << 24 >> 32 : object[0] >> 8;
    if (object[0] % 256 != reference % 4 || length > WORDS || !has_bytes(from, to, address, 8 + 8 * length))
        return;
    gcflip_snapshot_set_words(snapshot, gcflip_snapshot_object(snapshot, reference, (uint32_t)(reference % 4), length), 0, object + 1, length, word_of);
}

/* With two tags no bounds and no alignment fit all references. */
static void read_heap(void *given, gcflip_snapshot *snapshot)
{
    const uint64_t *space = snapshot == gcflip_before(c) ? old_space : new_space;
    (void)given;
    gcflip_snapshot_root(snapshot, word_of(snapshot, root));
    for (uint64_t at; (at = gcflip_snapshot_next(snapshot, 0, UINT64_MAX, 1)) != 0;)
        read_object(snapshot, address_of(space), address_of(space + used), at);
}

static const char *kind_name(void *given, uint32_t kind)
{
    (void)given;
    return kind == PAIR ? "pair" : kind == FUNCTION ? "function" : NULL;
}

static const gcflip_names names = {.kind = kind_name};
static const gcflip_adapter adapter = {.read_before = read_heap, .read_after = read_heap, .infers = true, .names = &names};

/* Writes a list of so many pairs, and a function at its end, whose field is -5. A small negative number is near 2^64. */
static void write_list(uint64_t *space, size_t pairs)
{
    for (size_t i = 0; i < pairs; i++) {
        space[3 * i] = 2 * 256 + PAIR;
        space[3 * i + 1] = 3;
        space[3 * i + 2] = address_of(space + 3 * i + 3) + (i + 1 < pairs ? PAIR : FUNCTION);
    }
    space[3 * pairs] = 256 + FUNCTION;
    space[3 * pairs + 1] = (uint64_t)-5;
    used = 3 * pairs + 2;
    root = address_of(space) + PAIR;
}

static void collect(size_t pairs)
{
    write_list(old_space, pairs);
    EXPECT(gcflip_collection_begin(c, &adapter, stdout));
    write_list(new_space, pairs);
    EXPECT(gcflip_collection_end(c, NULL) == GCFLIP_YES);
}

/* Runs a self-test, and returns what it printed. */
static char *printed_by(const gcflip_self_test *test, gcflip_self_test_counts *counts)
{
    char *text;
    size_t length;
    FILE *file = open_memstream(&text, &length);
    *counts = gcflip_collection_self_test(c, test, file);
    fclose(file);
    return text;
}

/* Each bit of the number -5 is flipped. With one of the lower two it is a reference to 2^64 - 8. */
static void near_the_top(FILE *bits)
{
    collect(1);
    const gcflip_range range = {new_space, used};
    const gcflip_self_test test = {.ranges = &range, .range_count = 1, .bits = bits};
    gcflip_self_test_counts counts;
    free(printed_by(&test, &counts));
    EXPECT(counts.accepted && counts.flipped == 64 * 5 && counts.refused == counts.flipped);
}

static void expect_line(const char *text, const char *format, unsigned bit, size_t word, size_t before, size_t behind)
{
    char line[300];
    snprintf(line, sizeof line, format, bit, (void *)(new_space + word), (unsigned long long)address_of(new_space) + before,
             (unsigned long long)address_of(new_space) + behind);
    if (strstr(text, line) == NULL)
        fprintf(stderr, "wanted %sprinted %s", line, text);
    EXPECT(strstr(text, line) != NULL);
}

/* The word of a tagged object's header has the object's address. What lies in front of it is named, too. */
static void tagged_objects_are_named(void)
{
    collect(1);
    lax = true;
    const gcflip_range range = {new_space, used};
    const gcflip_self_test test = {.ranges = &range, .range_count = 1};
    gcflip_self_test_counts counts;
    char *text = printed_by(&test, &counts);
    lax = false;
    EXPECT(counts.accepted && counts.unexplained == 2 * 24);
    expect_line(text, "spared for no reason: bit %u of the word at %p, 1 byte before 0x%llx (pair, 2 fields)\n", 40, 0, PAIR, 0);
    expect_line(text, "spared for no reason: bit %u of the word at %p, 2 bytes before 0x%llx (function, 1 field), 23 bytes behind 0x%llx (pair, 2 fields)\n", 63, 3,
                24 + FUNCTION, PAIR);
    free(text);
}

/* The one function at the end of a thousand pairs is read again, though only 20 bits are flipped. */
static void each_kind_is_read_again(void)
{
    enum { PAIRS = 1000, FLIPS = 20 };
    collect(PAIRS);
    gcflip_range range = {new_space, used};
    char *bits, wanted[100];
    size_t length, lines = 0;
    FILE *file = open_memstream(&bits, &length);
    gcflip_self_test test = {.ranges = &range, .range_count = 1, .flips = FLIPS, .seed = 1, .bits = file};
    gcflip_self_test_counts counts;
    char *text = printed_by(&test, &counts);
    fclose(file);
    for (const char *at = bits; *at != 0; at++)
        lines += *at == '\n';
    snprintf(wanted, sizeof wanted, " of the word at %p\n", (void *)(new_space + 3 * PAIRS));
    EXPECT(counts.flipped == FLIPS && counts.refused == FLIPS && lines == FLIPS && strstr(bits, wanted) != NULL);
    EXPECT(strstr(text, "no bits were flipped") == NULL);
    free(text);
    free(bits);
    range.count = 3 * PAIRS; /* the function lies behind it */
    test.bits = NULL;
    text = printed_by(&test, &counts);
    EXPECT(counts.flipped == FLIPS && strstr(text, "no bits were flipped of objects of one kind, which the ranges do not have: function\n") != NULL);
    free(text);
}

static bool is_filled(const uint64_t *words, size_t count, unsigned byte)
{
    for (size_t i = 0; i < 8 * count; i++)
        if (((const unsigned char *)words)[i] != byte)
            return false;
    return true;
}

/* A root that neither side knows has the old address, and the answer is yes. After the poison it refers to no object. */
static void poison(void)
{
    static uint64_t other[4];
    const gcflip_range ranges[] = {{other, 4}, {old_space, WORDS}, {NULL, 0}}, both[] = {{other, 4}, {new_space + 2, 2}};
    gcflip_collection_clear(c);
    EXPECT(gcflip_collection_poison(c, ranges, 3) == GCFLIP_POISON_WITHOUT_YES);
    collect(2);
    const uint64_t *unknown_root = old_space + 3;
    EXPECT(*unknown_root == 2 * 256 + PAIR);
    EXPECT(gcflip_collection_poison(c, both, 2) == GCFLIP_POISON_IN_USE); /* the second pair starts in it */
    EXPECT(*unknown_root == 2 * 256 + PAIR && is_filled(other, 4, 0) && new_space[3] == 2 * 256 + PAIR);
    EXPECT(gcflip_collection_poison(c, ranges, 3) == GCFLIP_POISONED);
    EXPECT(is_filled(other, 4, 0xDB) && is_filled(old_space, WORDS, 0xDB) && *unknown_root == 0xDBDBDBDBDBDBDBDB);
    EXPECT(new_space[3] == 2 * 256 + PAIR && new_space[6] == 256 + FUNCTION);
    write_list(old_space, 2);
    EXPECT(gcflip_collection_begin(c, &adapter, stdout) && gcflip_collection_poison(c, ranges, 3) == GCFLIP_POISON_WITHOUT_YES);
    write_list(new_space, 2);
    new_space[1] += 4;
    EXPECT(gcflip_collection_end(c, NULL) == GCFLIP_REFUSED);
    EXPECT(gcflip_collection_poison(c, ranges, 3) == GCFLIP_POISON_WITHOUT_YES && *unknown_root == 2 * 256 + PAIR);
}

int main(int count, char **arguments)
{
    by_sums = count > 1 && strcmp(arguments[1], "sums") == 0;
    c = gcflip_collection_open();
    EXPECT(c != NULL);
    near_the_top(by_sums ? stdout : NULL);
    tagged_objects_are_named();
    each_kind_is_read_again();
    poison();
    gcflip_collection_close(c);
    return 0;
}
