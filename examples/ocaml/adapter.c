#include "adapter.h"

gcflip_collection *adapter_collection;
enum fault adapter_fault;
uint64_t adapter_pairs[COUNTED];
struct place *adapter_places;
size_t adapter_place_count;
struct object *adapter_objects;
size_t adapter_object_count;
static size_t place_room, object_room;

/* The tags of raw blocks do not fit: kinds end at 251. No constructor of a program has a tag as high as this. */
enum { FIRST_RAW_KIND = 236 };

void adapter_forget(void)
{
    gcflip_collection_clear(adapter_collection);
    adapter_place_count = adapter_object_count = 0;
}

void adapter_add_place(value *at, char what)
{
    adapter_places = kit_grown(adapter_places, &place_room, adapter_place_count, sizeof *adapter_places);
    adapter_places[adapter_place_count++] = (struct place){at, *at, 0, what};
}

static uint32_t kind_of(tag_t tag)
{
    return tag >= No_scan_tag ? FIRST_RAW_KIND + (tag - No_scan_tag) : tag;
}

uint32_t adapter_place(gcflip_snapshot *snapshot, value block, header_t header, mlsize_t most)
{
    mlsize_t length = Wosize_hd(header);
    if (length > most)
        return gcflip_snapshot_object(snapshot, (uint64_t)block, kind_of(Tag_hd(header)), most + 1); /* its fields are never set */
    if (Tag_hd(header) >= No_scan_tag)
        return gcflip_snapshot_words(snapshot, (uint64_t)block, kind_of(Tag_hd(header)), (const uint64_t *)block, length);
    return gcflip_snapshot_object(snapshot, (uint64_t)block, kind_of(Tag_hd(header)), length);
}

uint32_t adapter_found(value block, uint32_t (*placed)(gcflip_snapshot *snapshot, value block, header_t header))
{
    gcflip_snapshot *snapshot = gcflip_before(adapter_collection);
    uint32_t place = gcflip_snapshot_find(snapshot, (uint64_t)block);
    if (place != 0)
        return place;
    header_t header = Hd_val(block);
    place = placed(snapshot, block, header);
    adapter_objects = kit_grown(adapter_objects, &object_room, adapter_object_count, sizeof *adapter_objects);
    adapter_objects[adapter_object_count++] = (struct object){block, 0, header, place, 0};
    return place;
}

void adapter_write_fields(gcflip_snapshot *snapshot, uint32_t place, value block, header_t header, mlsize_t most, gcflip_word_of word)
{
    mlsize_t length = Wosize_hd(header), code = 0;
    if (Tag_hd(header) >= No_scan_tag || length > most)
        return;
    if (Tag_hd(header) == Closure_tag && length >= 2) { /* code and what describes it */
        mlsize_t environment = Start_env_closinfo(Closinfo_val(block));
        code = environment < length ? environment : length;
        gcflip_snapshot_set_words(snapshot, place, 0, (const value *)block, code, gcflip_snapshot_constant);
    }
    gcflip_snapshot_set_words(snapshot, place, code, (const value *)block + code, length - code, word);
}

void adapter_count(header_t header)
{
    switch (Tag_hd(header)) {
    case Closure_tag: adapter_pairs[CLOSURES]++; break;
    case Lazy_tag: adapter_pairs[LAZY]++; break;
    case Forward_tag: adapter_pairs[LAZY]++; break;
    case String_tag: adapter_pairs[STRINGS]++; break;
    case Double_tag: adapter_pairs[DOUBLES]++; break;
    case Double_array_tag: adapter_pairs[DOUBLE_ARRAYS]++; break;
    case Custom_tag: adapter_pairs[CUSTOM]++; break;
    case Abstract_tag: adapter_pairs[ABSTRACT]++; break;
    default: adapter_pairs[BLOCKS]++;
    }
}

/* ---- Refusals. */

static const char *root_name(void *given, uint64_t root)
{
    static char text[96];
    (void)given;
    const struct place *place = &adapter_places[root];
    const char *what = place->what == 'r'   ? "the root"
                       : place->what == 'F' ? "the remembered field of an old object"
                       : place->what == 'f' ? "the field of an old object, NOT in the remembered set,"
                       : place->what == 'w' ? "the weak field"
                       : place->what == 'o' ? "the offset of the weak field"
                                            : "the value of a finaliser, noted";
    snprintf(text, sizeof text, "%s at %p", what, (void *)place->at);
    return text;
}

static const char *kind_name(void *given, uint32_t kind)
{
    static const char *const raws[] = {"abstract", "string", "double", "array of doubles", "custom"};
    static char text[32];
    (void)given;
    if (kind >= FIRST_RAW_KIND && kind < FIRST_RAW_KIND + 5)
        return raws[kind - FIRST_RAW_KIND];
    snprintf(text, sizeof text, kind == Closure_tag ? "closure" : kind == GCFLIP_KIND_INSIDE ? "pointer into" : "block of tag %u", kind);
    return text;
}

void adapter_refused(void)
{
    const gcflip_names names = {.root = root_name, .kind = kind_name};
    const char *path = getenv("CERTIFY_TEXT");
    gcflip_collection_explain(adapter_collection, &names, stderr);
    FILE *file = path ? fopen(path, "w") : NULL;
    if (file != NULL) {
        gcflip_collection_write(adapter_collection, file);
        fclose(file);
    }
    exit(3);
}
