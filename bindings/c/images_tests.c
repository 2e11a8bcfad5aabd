/* The tests of an adapter: flipped bits, and the poison in the old space. */
#include "images_inside.h"
#include <inttypes.h>
#include <string.h>

enum { MOST_REASONS = 64 };

struct reasons {
    const char *texts[MOST_REASONS];
    size_t counts[MOST_REASONS];
    size_t used;
};

/* Counts a reason. Returns false if there are too many. */
static bool is_counted(struct reasons *reasons, const char *text)
{
    size_t i = 0;
    while (i < reasons->used && strcmp(reasons->texts[i], text) != 0)
        i++;
    if (i == MOST_REASONS)
        return false;
    if (i == reasons->used)
        reasons->texts[reasons->used++] = text;
    reasons->counts[i]++;
    return true;
}

/* A test that is being run. */
struct run {
    gcflip_collection *collection;
    const gcflip_self_test *test;
    FILE *file;
    uint64_t state; /* of the random numbers */
    struct reasons reasons;
    gcflip_self_test_counts counts;
};

static uint64_t random_below(struct run *run, uint64_t count)
{
    run->state = run->state * 6364136223846793005u + 1442695040888963407u;
    return (run->state >> 33) % count;
}

static uint64_t bits_of(const gcflip_self_test *test)
{
    uint64_t bits = 0;
    for (size_t i = 0; i < test->range_count; i++)
        bits += 64 * (uint64_t)test->ranges[i].count;
    return bits;
}

static uint64_t *word_with(const gcflip_self_test *test, uint64_t bit)
{
    size_t i = 0;
    for (; bit / 64 >= test->ranges[i].count; i++)
        bit -= 64 * (uint64_t)test->ranges[i].count;
    return test->ranges[i].words + bit / 64;
}

/* Returns the word of the ranges at this address of the memory, or NULL. Compares differences, because a sum might be 2^64 or more. */
static uint64_t *word_at_address(const gcflip_self_test *test, uint64_t address)
{
    for (size_t i = 0; i < test->range_count; i++) {
        uint64_t first = (uint64_t)(uintptr_t)test->ranges[i].words;
        if (address >= first && (address - first) / 8 < test->ranges[i].count)
            return test->ranges[i].words + (address - first) / 8;
    }
    return NULL;
}

/* Reads the heap again and asks. */
static bool is_refused(gcflip_collection *c, const gcflip_self_test *test)
{
    gcflip_verdict verdict = {0, 0, 0, 0};
    gcflip_snapshot_clear(&c->after);
    c->given_count = c->pair_count = 0;
    c->has_stray = false;
    if (test->read == NULL || !test->read(test->given, c))
        return true;
    return (test->infers ? gcflip_collection_infer(c, &verdict) : gcflip_collection_check(c, &verdict)) != GCFLIP_YES;
}

/* Prints where a bit is that was spared for no reason: the object that starts in this word, whose address then has a tag, and the nearest one that
   starts below, if it reaches there. */
static void print_spared(const struct run *run, const uint64_t *word, unsigned bit)
{
    const gcflip_snapshot *after = &run->collection->after;
    uint64_t address = (uint64_t)(uintptr_t)word, start = 0;
    fprintf(run->file, "spared for no reason: bit %u of the word at %p", bit, (const void *)word);
    const struct object *nearest = gcflip_inside_object(after, gcflip_snapshot_nearest(after, address + 7, &start));
    if (nearest != NULL && start > address) {
        fprintf(run->file, ", %" PRIu64 " byte%s before ", start - address, start - address == 1 ? "" : "s");
        gcflip_inside_print_object(after, run->test->names, nearest->place, run->file);
        nearest = gcflip_inside_object(after, gcflip_snapshot_nearest(after, address, &start));
    }
    if (nearest != NULL && start <= address && address - start <= 8 * (nearest->length + 2)) {
        fprintf(run->file, ", %" PRIu64 " bytes behind ", address - start);
        gcflip_inside_print_object(after, run->test->names, nearest->place, run->file);
    }
    fprintf(run->file, "\n");
}

/* The greatest power of two, up to 8, that divides the distances of all objects. An address may have a tag, or be that of a field. */
static uint64_t alignment_of(const gcflip_snapshot *snapshot)
{
    uint64_t first = 0, bits = 8;
    for (size_t i = 0; i < snapshot->object_count; i++)
        if (snapshot->objects[i].owner == 0 && snapshot->objects[i].form != CONSTANT && snapshot->objects[i].address != 0) {
            first = first == 0 ? snapshot->objects[i].address : first;
            bits |= first ^ snapshot->objects[i].address;
        }
    return bits & (0 - bits);
}

/* Whether a byte is behind a byte string, and before the next place where an object could start. */
static bool is_padding(const gcflip_snapshot *snapshot, uint64_t byte)
{
    uint64_t alignment = alignment_of(snapshot);
    for (size_t i = 0; i < snapshot->byte_end_count; i++) {
        uint64_t end = snapshot->byte_ends[i];
        if (end <= byte && byte - end < (0 - end) % alignment)
            return true;
    }
    return false;
}

/* Returns why a bit was spared, or NULL if there is no reason. */
static const char *reason_of(const gcflip_collection *c, const gcflip_self_test *test, const uint64_t *word, unsigned bit)
{
    const char *reason = test->reason ? test->reason(test->given, word, bit) : NULL;
    if (reason == NULL && is_padding(&c->after, (uint64_t)(uintptr_t)word + bit / 8))
        return "padding behind a byte string";
    return reason;
}

static bool read_by_adapter(void *given, gcflip_collection *c)
{
    (void)given;
    c->adapter.read_after(c->adapter.given, &c->after);
    return true;
}

/* Returns the test, with the adapter of the collection if it has no function of its own that reads. */
static gcflip_self_test completed(const gcflip_collection *c, const gcflip_self_test *test)
{
    gcflip_self_test whole = *test;
    if (test->read != NULL || !c->has_adapter)
        return whole;
    whole.read = read_by_adapter;
    whole.infers = c->adapter.infers;
    if (test->names == NULL)
        whole.names = c->adapter.names;
    return whole;
}

/* Flips a bit, reads, and puts it right again. */
static void flip(struct run *run, uint64_t *word, unsigned bit)
{
    const gcflip_self_test *test = run->test;
    if (test->bits != NULL) {
        fprintf(test->bits, "bit %u of the word at %p\n", bit, (void *)word);
        fflush(test->bits);
    }
    *word ^= (uint64_t)1 << bit;
    bool refused = is_refused(run->collection, test);
    *word ^= (uint64_t)1 << bit;
    run->counts.flipped++;
    run->counts.refused += refused;
    if (refused)
        return;
    const char *reason = reason_of(run->collection, test, word, bit);
    if (reason != NULL && is_counted(&run->reasons, reason)) {
        run->counts.explained++;
    } else {
        run->counts.unexplained++;
        print_spared(run, word, bit);
    }
}

/* Flips so many bits, spread over all. */
static void flip_spread(struct run *run, uint64_t flips)
{
    uint64_t bits = bits_of(run->test), width = flips == 0 ? 0 : bits / flips;
    for (uint64_t i = 0; i < flips; i++) {
        uint64_t bit = i * width + random_below(run, width);
        flip(run, word_with(run->test, bit), (unsigned)(bit % 64));
    }
}

/* ---- Kinds. A few words of one object of each kind, so that no kind is left out that has few objects. */

enum { WORDS_OF_A_KIND = 8, OBJECTS_LOOKED_AT = 64 };

/* One object of each kind that lies in the ranges, and how many objects of the kind there are, up to 64. Those behind them are not looked at. */
struct kinds {
    struct {
        uint64_t address, length; /* 0 if none lies in the ranges */
        uint32_t objects;
    } of[GCFLIP_KINDS];
};

/* An address with a tag lies in the same word as one without it. */
static void find_kinds(const gcflip_snapshot *snapshot, const gcflip_self_test *test, struct kinds *kinds)
{
    memset(kinds, 0, sizeof *kinds);
    for (size_t i = 0; i < snapshot->object_count; i++) {
        const struct object *object = &snapshot->objects[i];
        uint64_t kind = snapshot->words[object->place] / 65536 % 256;
        if (kind >= GCFLIP_KINDS || object->address == 0 || object->length == 0 || kinds->of[kind].objects == OBJECTS_LOOKED_AT)
            continue;
        kinds->of[kind].objects++;
        if (kinds->of[kind].length != 0 || word_at_address(test, object->address) == NULL)
            continue;
        kinds->of[kind].address = object->address - object->address % 8;
        kinds->of[kind].length = object->length;
    }
}

/* Flips a bit of a first word of each kind, then of a second one, and so on, but no more than `most` bits. Returns how many it flipped. */
static uint64_t flip_kinds(struct run *run, const struct kinds *kinds, uint64_t most)
{
    uint64_t flips = 0;
    for (uint64_t i = 0; i < GCFLIP_KINDS * WORDS_OF_A_KIND && flips < most; i++) {
        uint64_t kind = i % GCFLIP_KINDS, number = i / GCFLIP_KINDS;
        bool has_word = number < kinds->of[kind].length;
        uint64_t *word = has_word ? word_at_address(run->test, kinds->of[kind].address + 8 * number) : NULL;
        if (word == NULL)
            continue;
        flip(run, word, (unsigned)random_below(run, 64));
        flips++;
    }
    return flips;
}

/* Prints the kinds of which no bit was flipped, if there are others. */
static void print_missed(const struct run *run, const struct kinds *kinds)
{
    size_t found = 0;
    for (size_t i = 0; i < GCFLIP_KINDS; i++)
        found += kinds->of[i].length != 0;
    for (uint64_t i = 0; i < GCFLIP_KINDS && found != 0; i++)
        if (kinds->of[i].objects != 0 && kinds->of[i].length == 0) {
            fprintf(run->file, "no bits were flipped of objects of one kind, which the ranges do not have: ");
            gcflip_inside_print_kind(run->test->names, i, run->file);
            fprintf(run->file, "\n");
        }
}

/* Flips so many bits. At most half of them are those of single objects. */
static void flip_some(struct run *run, uint64_t flips)
{
    struct kinds kinds;
    find_kinds(&run->collection->after, run->test, &kinds);
    uint64_t of_kinds = flip_kinds(run, &kinds, flips / 2);
    flip_spread(run, flips - of_kinds);
    print_missed(run, &kinds);
}

static void flip_all(struct run *run)
{
    uint64_t bits = bits_of(run->test);
    for (uint64_t bit = 0; bit < bits; bit++)
        flip(run, word_with(run->test, bit), (unsigned)(bit % 64));
}

gcflip_self_test_counts gcflip_collection_self_test(gcflip_collection *c, const gcflip_self_test *given_test, FILE *file)
{
    const gcflip_self_test whole = completed(c, given_test), *test = &whole;
    struct run run;
    memset(&run, 0, sizeof run);
    run.collection = c;
    run.test = test;
    run.file = file;
    run.state = test->seed | 1;
    run.counts.accepted = !is_refused(c, test);
    if (!run.counts.accepted) {
        fprintf(file, "no bits were flipped: without a flip, the heap gets no yes\n");
        return run.counts;
    }
    if (test->flips != 0 && test->flips < bits_of(test))
        flip_some(&run, test->flips);
    else
        flip_all(&run);
    for (size_t i = 0; i < run.reasons.used; i++)
        fprintf(file, "spared %zu: %s\n", run.reasons.counts[i], run.reasons.texts[i]);
    fprintf(file, "flipped %zu bits: refused %zu, explained %zu, unexplained %zu\n", run.counts.flipped, run.counts.refused, run.counts.explained,
            run.counts.unexplained);
    run.counts.accepted = !is_refused(c, test);
    gcflip_collection_old_addresses(c, test->from, test->to, test->names, file);
    return run.counts;
}

/* ---- Poison. */

/* Whether an object of the snapshot after starts in one of the ranges. */
static bool is_in_use(const gcflip_snapshot *after, const gcflip_self_test *ranges)
{
    for (size_t i = 0; i < after->object_count; i++) {
        const struct object *object = &after->objects[i];
        bool has_address = object->owner == 0 && object->form != CONSTANT && object->address != 0;
        if (has_address && word_at_address(ranges, object->address) != NULL)
            return true;
    }
    return false;
}

uint32_t gcflip_collection_poison(const gcflip_collection *c, const gcflip_range *ranges, size_t range_count)
{
    const gcflip_self_test filled = {.ranges = ranges, .range_count = range_count};
    if (!c->is_asked || c->answer != GCFLIP_YES || gcflip_collection_fault(c) != GCFLIP_NO_FAULT)
        return GCFLIP_POISON_WITHOUT_YES;
    if (is_in_use(&c->after, &filled))
        return GCFLIP_POISON_IN_USE;
    for (size_t i = 0; i < range_count; i++)
        if (ranges[i].count != 0)
            memset(ranges[i].words, GCFLIP_POISON_BYTE, ranges[i].count * sizeof *ranges[i].words);
    return GCFLIP_POISONED;
}
