/* The adapter for the collector of the toy runtime, written as docs/CERTIFY.md says. The option --wrap=collect of the linker lets it stand for `collect`.
 *
 * The collector frees the old space, so pairs are inferred. An address of a snapshot is a reference: the address of the object, with its tag. */
#include "../adapter_kit.h"
#include "heap.h"
#include <inttypes.h>

/* The kind of a record is its shape. */
enum { KIND_BYTES = SHAPES, KIND_ARRAY, KIND_WEAK_ARRAY };

static gcflip_collection *collection;

/* ---- Both snapshots. */

static uint64_t word_in(gcflip_snapshot *snapshot, value value)
{
    if (tag_of(value) == HEADER)
        return gcflip_snapshot_doubtful(snapshot, value, "a header where a value should be");
    return tag_of(value) == REFERENCE ? gcflip_snapshot_reference(snapshot, value) : gcflip_snapshot_constant(snapshot, value);
}

/* Whether an object can have this header: no other bits are set, a record is as long as its shape says, and the object ends before the first free word. */
static bool is_whole(const word *object, word header)
{
    size_t shape = shape_of(header), length = length_of(header);
    if (header != header_of(type_of(header), shape, length))
        return false;
    if (type_of(header) == RECORD && (shape >= heap.shape_count || length != heap.shapes[shape].references + heap.shapes[shape].numbers))
        return false;
    return (type_of(header) == RECORD || shape == 0) && words_of(header) <= (size_t)(heap.next - object);
}

static void read_record(gcflip_snapshot *snapshot, value address, const word *object)
{
    size_t shape = shape_of(object[0]), references = heap.shapes[shape].references, numbers = heap.shapes[shape].numbers;
    uint32_t place = gcflip_snapshot_object(snapshot, address, (uint32_t)shape, references + numbers);
    gcflip_snapshot_set_words(snapshot, place, 0, object + 1, references, word_in);
    gcflip_snapshot_set_words(snapshot, place, references, object + 1 + references, numbers, gcflip_snapshot_constant);
}

static void read_weak_array(gcflip_snapshot *snapshot, value address, const word *object)
{
    uint32_t place = gcflip_snapshot_object(snapshot, address, KIND_WEAK_ARRAY, length_of(object[0]));
    for (size_t i = 0; i < length_of(object[0]); i++)
        if (object[1 + i] == NIL || tag_of(object[1 + i]) == REFERENCE)
            gcflip_snapshot_set_weak(snapshot, place, i, object[1 + i] == NIL ? 0 : object[1 + i]);
        else
            gcflip_snapshot_set(snapshot, place, i, word_in(snapshot, object[1 + i]));
}

/* Places the object at this address, and sets its fields. What is no whole object is not placed, so references to it stay doubtful. */
static void read_object(gcflip_snapshot *snapshot, value address)
{
    const word *object = object_of(address);
    size_t length = length_of(object[0]);
    if (!is_whole(object, object[0]))
        return;
    switch (type_of(object[0])) {
    case RECORD: read_record(snapshot, address, object); return;
    case BYTES: gcflip_snapshot_bytes(snapshot, address, KIND_BYTES, object + 1, length); return;
    case ARRAY: gcflip_snapshot_set_words(snapshot, gcflip_snapshot_object(snapshot, address, KIND_ARRAY, length), 0, object + 1, length, word_in); return;
    case WEAK_ARRAY: read_weak_array(snapshot, address, object);
    }
}

/* Reads all that the roots reach. Before and after, that is in the space which the program uses. */
static void read_heap(void *given, gcflip_snapshot *snapshot)
{
    (void)given;
    gcflip_snapshot_roots(snapshot, heap.stack, heap.top, word_in);
    for (size_t i = 0; i < heap.global_count; i++)
        gcflip_snapshot_root(snapshot, word_in(snapshot, heap.globals[i].value));
    for (value address; (address = gcflip_snapshot_next(snapshot, reference_to(heap.space), reference_to(heap.next), sizeof(word))) != 0;)
        read_object(snapshot, address);
}

/* ---- Names. */

static const char *root_name(void *given, uint64_t root)
{
    static char text[64];
    (void)given;
    if (root >= heap.top && root - heap.top < heap.global_count)
        snprintf(text, sizeof text, "the global %s", heap.globals[root - heap.top].name);
    else
        snprintf(text, sizeof text, "stack slot %" PRIu64, root);
    return text;
}

static const char *kind_name(void *given, uint32_t kind)
{
    static const char *const kinds[] = {"bytes", "array", "weak array"};
    (void)given;
    return kind < heap.shape_count ? heap.shapes[kind].name : kind >= SHAPES && kind <= KIND_WEAK_ARRAY ? kinds[kind - SHAPES] : NULL;
}

static const char *field_name(void *given, uint64_t address, uint32_t kind, uint64_t field)
{
    static char text[64];
    (void)given, (void)address;
    size_t references = kind < heap.shape_count ? heap.shapes[kind].references : 0;
    if (kind == KIND_BYTES)
        return NULL;
    const char *part = kind > KIND_BYTES ? "element" : field < references ? "reference" : "number";
    snprintf(text, sizeof text, "%s %" PRIu64, part, field < references ? field : field - references);
    return text;
}

/* Names bytes by their text. The old space is gone, so the text is that of the snapshot: the number of bytes, and then the bytes. */
static const char *object_name(void *given, const gcflip_snapshot *snapshot, uint64_t address, uint32_t kind)
{
    static char text[64];
    (void)given;
    if (kind != KIND_BYTES)
        return NULL;
    const uint64_t *words = gcflip_snapshot_image(snapshot).words + gcflip_snapshot_find(snapshot, address) + 2;
    snprintf(text, sizeof text, "\"%.*s\"", words[0] < 40 ? (int)words[0] : 40, (const char *)(words + 1));
    return text;
}

static const gcflip_names names = {.root = root_name, .kind = kind_name, .field = field_name, .object = object_name};

/* ---- The checked collection. */

static struct {
    size_t checked, pairs;
    double collecting, checking; /* in milliseconds */
} sums;

static void report(void)
{
    fprintf(stderr, "%zu collections, %zu of them checked, %zu pairs, none refused\nms: collections %.0f, checks %.0f\n", heap.collections, sums.checked, sums.pairs,
        sums.collecting, sums.checking);
}

static void test_adapter(void)
{
    const gcflip_range range = {heap.space, (size_t)(heap.next - heap.space)};
    const gcflip_self_test test = {.ranges = &range, .range_count = 1, .seed = 1, .flips = (size_t)kit_number("CERTIFY_FLIPS", 0)};
    gcflip_collection_self_test(collection, &test, stderr);
}

static void open_collection(void)
{
    collection = gcflip_collection_open();
    if (collection == NULL)
        exit(3);
    atexit(report);
}

void __real_collect(size_t words);
void __wrap_collect(size_t words);

/* Stands for the runtime's call of `collect`. CERTIFY_AT is the collection after which CERTIFY_FLIPS bits are flipped. */
void __wrap_collect(size_t words)
{
    static const gcflip_adapter adapter = {.read_before = read_heap, .read_after = read_heap, .infers = true, .names = &names};
    double begun = kit_now();
    if (collection == NULL)
        open_collection();
    if (!gcflip_collection_begin(collection, &adapter, stderr))
        _exit(3);
    double collecting = kit_now();
    __real_collect(words);
    double collected = kit_now();
    if (gcflip_collection_end(collection, NULL) != GCFLIP_YES)
        kit_refused(collection, &names, "collection", heap.collections);
    sums.checked++;
    sums.pairs += gcflip_collection_pairs(collection);
    sums.collecting += collected - collecting;
    sums.checking += kit_now() - collected + collecting - begun;
    if (getenv("CERTIFY_FLIPS") != NULL && heap.collections == (size_t)kit_number("CERTIFY_AT", 1))
        test_adapter();
}
