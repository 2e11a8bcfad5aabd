#include "certificate.h"
#include <inttypes.h>
#include <stdlib.h>
#include <string.h>

/* An even word above all references. It is not a value, so it corresponds to no word. */
#define STRAY ((uint64_t)2 << 32)

/* Returns the place of an object in the words of its space. It is the object's address in the image. */
static uint32_t address_in(const struct space *space, const struct object *object)
{
    return (uint32_t)((const uint64_t *)object - space->words);
}

/* Returns whether a reference leads to a word of the space other than word 0. */
static bool is_inside(const struct space *space, value reference)
{
    uintptr_t at = (uintptr_t)object_of(reference), start = (uintptr_t)space->words;
    return at > start && at < start + space->end * sizeof(uint64_t) && (at - start) % sizeof(uint64_t) == 0;
}

/* Returns the word of an image for a value: 0 for nil, 2n+1 for the number n, 2a for a reference to address a. */
static uint64_t word_of(const struct space *space, value value)
{
    if (value == NIL)
        return 0;
    if (!is_reference(value))
        return value + 1;
    return is_inside(space, value) ? 2 * (uint64_t)address_in(space, object_of(value)) : STRAY;
}

/* Returns the header of an object in an image, or 0, which is not a header, if the object does not fit into an image. */
static uint64_t header_of(const struct object *object)
{
    uint64_t first = object->kind == TEXT ? 50331648 : 16777216; /* a text is a raw object */
    if (object->kind > 255 || object->length > 65535)
        return 0;
    return first + 65536 * object->kind + object->length;
}

/* Writes the words of an object from its address on. Leaves out the link, since no check reads it. */
static void write_object(uint64_t *words, const struct space *space, const struct object *object)
{
    words[0] = header_of(object);
    for (uint32_t i = 0; i < object->length; i++)
        words[2 + i] = object->kind == TEXT ? object->fields[i] : word_of(space, object->fields[i]);
}

static gcflip_image image_of(const struct heap *heap)
{
    const struct space *space = &heap->space;
    uint64_t *words = memory(space->end, sizeof *words), *roots = memory(ROOTS, sizeof *roots);
    for (uint32_t at = 1; at < space->end; at += words_of(object_at(space, at)))
        write_object(words + at, space, object_at(space, at));
    for (int i = 0; i < ROOTS; i++)
        roots[i] = word_of(space, heap->roots[i]);
    gcflip_image image = {space->size, space->end, true, words, roots, ROOTS};
    return image;
}

struct certificate new_certificate(const struct heap *old, const struct heap *new)
{
    uint32_t most = (new->space.end + 1) / 2; /* an object takes at least two words */
    struct certificate made = {image_of(old), image_of(new), memory(most, sizeof(gcflip_pair)), 0};
    for (uint32_t at = 1; at < new->space.end; at += words_of(object_at(&new->space, at))) {
        gcflip_pair pair = {address_in(&old->space, object_at(&new->space, at)->link), at};
        made.pairs[made.pair_count++] = pair;
    }
    return made;
}

static void free_image(const gcflip_image *image)
{
    free((void *)image->words);
    free((void *)image->roots);
}

void free_certificate(const struct certificate *certificate)
{
    free_image(&certificate->old);
    free_image(&certificate->new);
    free(certificate->pairs);
}

static void write_words(FILE *file, const uint64_t *words, size_t count)
{
    for (size_t i = 0; i < count; i++)
        fprintf(file, "%" PRIu64 "\n", words[i]);
}

/* The most roots of a pair text, and the most fields of an object. */
enum { MOST_ROOTS = 272, MOST_FIELDS = 65535 };

/* Returns the number of objects that have to take roots as their fields, so that the other roots and one for each of these objects are few
 * enough for a text. */
static size_t packs_for(size_t roots)
{
    size_t packs = 0;
    while (roots > MOST_ROOTS - packs + packs * MOST_FIELDS)
        packs++;
    return packs;
}

/* Returns the place of the root that is field 0 of object i, if there are `packs` objects, or the number of roots. */
static size_t first_root(const gcflip_image *image, size_t packs, size_t i)
{
    size_t place = MOST_ROOTS - packs + i * MOST_FIELDS;
    return place < image->root_count ? place : image->root_count;
}

/* Returns the address of object i of those that take roots. They stand behind the image's own objects. */
static uint32_t pack_address(const gcflip_image *image, size_t packs, size_t i)
{
    return image->end + (uint32_t)(2 * i + first_root(image, packs, i) - first_root(image, packs, 0));
}

static void write_pack(FILE *file, const gcflip_image *image, size_t packs, size_t i)
{
    size_t place = first_root(image, packs, i), count = first_root(image, packs, i + 1) - place;
    fprintf(file, "%zu\n0\n", 16777216 + count);
    write_words(file, image->roots + place, count);
}

static void write_image(FILE *file, const char *name, const gcflip_image *image, size_t packs)
{
    uint32_t end = pack_address(image, packs, packs);
    size_t kept = first_root(image, packs, 0);
    fprintf(file, "%s %" PRIu32 " %" PRIu32 "\n", name, image->size < end ? end : image->size, end);
    write_words(file, image->words, image->end);
    for (size_t i = 0; i < packs; i++)
        write_pack(file, image, packs, i);
    fprintf(file, "roots %zu\n", kept + packs);
    write_words(file, image->roots, kept);
    for (size_t i = 0; i < packs; i++)
        fprintf(file, "%" PRIu64 "\n", 2 * (uint64_t)pack_address(image, packs, i));
}

void write_certificate(FILE *file, const struct certificate *certificate)
{
    const gcflip_image *old = &certificate->old, *new = &certificate->new;
    size_t packs = packs_for(old->root_count > new->root_count ? old->root_count : new->root_count);
    fprintf(file, "heappair 2\n");
    write_image(file, "old", old, packs);
    write_image(file, "new", new, packs);
    fprintf(file, "pairs %zu\n", certificate->pair_count + packs);
    for (uint32_t i = 0; i < certificate->pair_count; i++)
        fprintf(file, "%" PRIu32 " %" PRIu32 "\n", certificate->pairs[i].old_address, certificate->pairs[i].new_address);
    for (size_t i = 0; i < packs; i++)
        fprintf(file, "%" PRIu32 " %" PRIu32 "\n", pack_address(old, packs, i), pack_address(new, packs, i));
    fprintf(file, "end\n");
}

/* ---- Verdicts */

static void print_line(const gcflip_verdict *verdict)
{
    if (verdict->refusal == 0)
        printf("yes %" PRIu32, verdict->pairs);
    else
        printf("refused %" PRIu32 " %s", verdict->refusal, gcflip_refusal_name(verdict->refusal));
    if (verdict->refusal != 0 && verdict->refusal != GCFLIP_ROOT_COUNT)
        printf(" %" PRIu64, verdict->place);
    if (verdict->refusal == GCFLIP_FIELD_DIFFERS)
        printf(" %" PRIu64, verdict->field);
    printf("\n");
}

static void print_object(const struct object *object)
{
    if (object->kind == TEXT)
        printf("the text \"%s\"", (const char *)object->fields);
    else
        printf("the entry of \"%s\"", (const char *)object_of(object->fields[NAME])->fields);
}

/* Says what is wrong with a replica, after the name of its original. */
static void print_fault(const gcflip_verdict *verdict, const struct object *original)
{
    static const char *const fields[] = {"name", "number", "next", "previous"};
    if (verdict->refusal == GCFLIP_TWICE)
        printf(" has a second replica\n");
    else if (verdict->refusal == GCFLIP_HEADER_DIFFERS)
        printf(" has a replica of another kind or length\n");
    else if (verdict->refusal == GCFLIP_FIELD_DIFFERS)
        printf(" has a replica with another %s\n", original->kind == TEXT ? "word" : fields[verdict->field]);
    else
        printf(" has a replica at a wrong place\n");
}

void print_verdict(const struct heap *old, const struct certificate *certificate, const gcflip_verdict *verdict)
{
    static const char *const roots[] = {"count", "first", "last"};
    print_line(verdict);
    if (verdict->refusal == GCFLIP_ROOT_DIFFERS) {
        printf("the root %s differs\n", roots[verdict->place]);
    } else if (verdict->refusal > GCFLIP_OLD_NOT_START) {
        const struct object *original = object_at(&old->space, certificate->pairs[verdict->place].old_address);
        print_object(original);
        print_fault(verdict, original);
    }
}
