/* Writes both snapshots and the pairs as a text, which other programs read. */
#include "images_inside.h"
#include <inttypes.h>

enum { TEXT_WORDS = 1048576, TEXT_PAIRS = 524287, TEXT_ROOTS = 272 };

/* How many objects in front have the roots as fields, in a pair text. */
static size_t packs_of(const gcflip_snapshot *snapshot)
{
    return snapshot->root_count <= TEXT_ROOTS ? 0 : (snapshot->root_count + MOST_FIELDS - 1) / MOST_FIELDS;
}

static uint64_t words_in_front(const gcflip_snapshot *snapshot)
{
    return packs_of(snapshot) == 0 ? 0 : 2 * packs_of(snapshot) + snapshot->root_count;
}

static uint64_t moved(uint64_t word, uint64_t up)
{
    return word % 2 == 0 && word != 0 && word < FIRST_DOUBT ? word + 2 * up : word;
}

static void write_packs(const gcflip_snapshot *snapshot, uint64_t up, FILE *file)
{
    for (size_t i = 0; i < packs_of(snapshot); i++) {
        size_t first = i * MOST_FIELDS, count = snapshot->root_count - first < MOST_FIELDS ? snapshot->root_count - first : MOST_FIELDS;
        fprintf(file, "%" PRIu64 "\n0\n", (uint64_t)PLAIN_HEADER + 65536 * GCFLIP_KIND_ROOTS + count);
        for (size_t k = 0; k < count; k++)
            fprintf(file, "%" PRIu64 "\n", moved(snapshot->roots[first + k], up));
    }
}

/* Writes an image. With `up`, that many words lie in front of its objects, for the roots. */
static void write_snapshot(const gcflip_snapshot *snapshot, const char *name, uint64_t up, FILE *file)
{
    fprintf(file, "%s %" PRIu64 " %" PRIu64 "\n0\n", name, snapshot->end + up, snapshot->end + up);
    if (up != 0)
        write_packs(snapshot, up, file);
    for (uint64_t at = 1; at < snapshot->end;) {
        uint64_t header = snapshot->words[at], length = header % 65536;
        fprintf(file, "%" PRIu64 "\n0\n", header);
        for (uint64_t i = 0; i < length; i++)
            fprintf(file, "%" PRIu64 "\n", header < RAW_HEADER ? moved(snapshot->words[at + 2 + i], up) : snapshot->words[at + 2 + i]);
        at += 2 + length;
    }
    if (up == 0) {
        fprintf(file, "roots %zu\n", snapshot->root_count);
        for (size_t i = 0; i < snapshot->root_count; i++)
            fprintf(file, "%" PRIu64 "\n", snapshot->roots[i]);
        return;
    }
    fprintf(file, "roots %zu\n", packs_of(snapshot));
    for (size_t i = 0; i < packs_of(snapshot); i++)
        fprintf(file, "%" PRIu64 "\n", 2 * (1 + (uint64_t)i * (MOST_FIELDS + 2)));
}

static void write_pairs(const gcflip_collection *c, FILE *file)
{
    uint64_t old_up = words_in_front(&c->before), new_up = words_in_front(&c->after);
    size_t old_packs = packs_of(&c->before), new_packs = packs_of(&c->after), packs = old_packs < new_packs ? old_packs : new_packs;
    fprintf(file, "pairs %zu\n", packs + c->pair_count);
    for (size_t i = 0; i < packs; i++)
        fprintf(file, "%zu %zu\n", 1 + i * (MOST_FIELDS + 2), 1 + i * (MOST_FIELDS + 2));
    for (size_t i = 0; i < c->pair_count; i++) {
        gcflip_pair pair = c->pairs[i];
        uint64_t old = pair.old_address ? pair.old_address + old_up : 0, new = pair.new_address ? pair.new_address + new_up : 0;
        fprintf(file, "%" PRIu64 " %" PRIu64 "\n", old, new);
    }
}

static bool fits_pair_text(const gcflip_collection *c)
{
    size_t old_packs = packs_of(&c->before), new_packs = packs_of(&c->after);
    return c->before.end + words_in_front(&c->before) <= TEXT_WORDS && c->after.end + words_in_front(&c->after) <= TEXT_WORDS
           && c->pair_count + (old_packs < new_packs ? old_packs : new_packs) <= TEXT_PAIRS;
}

uint32_t gcflip_collection_write(gcflip_collection *c, FILE *file)
{
    gcflip_inside_resolve(&c->before);
    gcflip_inside_resolve(&c->after);
    if (gcflip_collection_fault(c) != GCFLIP_NO_FAULT)
        return GCFLIP_WROTE_NOTHING;
    bool pair = fits_pair_text(c);
    fprintf(file, pair ? "heappair 2\n" : "heapimages 1\n");
    write_snapshot(&c->before, "old", pair ? words_in_front(&c->before) : 0, file);
    write_snapshot(&c->after, "new", pair ? words_in_front(&c->after) : 0, file);
    if (pair)
        write_pairs(c, file);
    fprintf(file, "end\n");
    if (fflush(file) != 0 || ferror(file))
        return GCFLIP_WROTE_NOTHING;
    return pair ? GCFLIP_WROTE_PAIR : GCFLIP_WROTE_IMAGES;
}
