/* Collects the list of examples/certify with a bug of its collector, and prints what gcflip_images says of it: planted_bugs BUG WAY.

   There are three entries, 0, 2 and 4. BUG is field, twice, root or length, as for examples/certify, or none. With the way `pairs` the adapter adds the
   pairs that the collector's links have, and with `infer` they are inferred. */
#include "certificate.h"
#include "expect.h"
#include "gcflip_images.h"
#include "list.h"
#include <string.h>

static gcflip_collection *c;
static bool infers;

static uint64_t address_of(const struct object *object)
{
    return (uint64_t)(uintptr_t)object;
}

static uint64_t word_of(gcflip_snapshot *snapshot, uint64_t word)
{
    if (word == NIL || is_reference(word))
        return gcflip_snapshot_reference(snapshot, word - NIL);
    return gcflip_snapshot_constant(snapshot, word);
}

static void read_heap(gcflip_snapshot *snapshot, const struct heap *heap)
{
    gcflip_snapshot_roots(snapshot, heap->roots, ROOTS, word_of);
    for (uint32_t at = 1; at < heap->space.end; at += words_of(object_at(&heap->space, at))) {
        const struct object *object = object_at(&heap->space, at);
        if (object->kind == TEXT)
            gcflip_snapshot_words(snapshot, address_of(object), TEXT, object->fields, object->length);
        else
            gcflip_snapshot_set_words(snapshot, gcflip_snapshot_object(snapshot, address_of(object), ENTRY, FIELDS), 0, object->fields, FIELDS, word_of);
    }
}

static const char *root_name(void *given, uint64_t root)
{
    static const char *const names[] = {"count", "first", "last"};
    (void)given;
    return names[root];
}

static const char *kind_name(void *given, uint32_t kind)
{
    (void)given;
    return kind == TEXT ? "text" : "entry";
}

static const char *field_name(void *given, uint64_t address, uint32_t kind, uint64_t field)
{
    static const char *const names[] = {"name", "number", "next", "previous"};
    (void)given, (void)address;
    return kind == ENTRY ? names[field] : NULL;
}

/* An entry has the name of its text. A text that the collector made too short has none. The old space is whole. */
static const char *object_name(void *given, const gcflip_snapshot *snapshot, uint64_t address, uint32_t kind)
{
    const struct object *object = (const struct object *)(uintptr_t)address;
    (void)given;
    if (kind == ENTRY && snapshot == gcflip_before(c))
        object = object_of(object->fields[NAME]);
    return object->kind == TEXT && object->length != 0 ? (const char *)object->fields : NULL;
}

static const gcflip_names names = {.root = root_name, .kind = kind_name, .field = field_name, .object = object_name};

static bool accepts(const struct heap *old, const struct heap *new)
{
    gcflip_verdict verdict = {0, 0, 0, 0};
    read_heap(gcflip_before(c), old);
    read_heap(gcflip_after(c), new);
    for (uint32_t at = 1; at < new->space.end; at += words_of(object_at(&new->space, at))) {
        const struct object *object = object_at(&new->space, at);
        gcflip_collection_pair(c, address_of(object->link), address_of(object));
    }
    bool accepted = (infers ? gcflip_collection_infer(c, &verdict) : gcflip_collection_check(c, &verdict)) == GCFLIP_YES;
    gcflip_collection_explain(c, &names, stdout);
    return accepted;
}

int main(int count, char **words)
{
    static const char *const bugs[] = {"none", "field", "twice", "root", "length"};
    int bug = 0;
    EXPECT(count == 3);
    while (bug < (int)COUNT(bugs) && strcmp(words[1], bugs[bug]) != 0)
        bug++;
    infers = strcmp(words[2], "infer") == 0;
    EXPECT(bug < (int)COUNT(bugs) && (c = gcflip_collection_open()) != NULL);
    struct heap heap = {new_space(1 + 6 * WORDS_OF_AN_ENTRY), {0, NIL, NIL}};
    for (uint32_t i = 0; i < 5; i++)
        append_entry(&heap, i);
    unlink_each_second(&heap);
    bool accepted = collect(&heap, (enum bug)bug, accepts);
    free(heap.space.words);
    gcflip_collection_close(c);
    return accepted ? 0 : 1;
}
