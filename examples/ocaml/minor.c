/* Checks minor collections of OCaml 4.13: of its heap only the nursery moves.
 *
 * Before: finds the places that refer into the nursery. Roots come from caml_do_roots. Fields of old objects come from a scan of
 * all old objects, and not from the remembered set, since a store without its barrier is a fault to be found. What can be reached from there
 * inside the nursery becomes the snapshot before.
 * After: pairs come from the forwarding pointers that the collector left in the nursery. The snapshot after has the promoted objects.
 * A reference to an object that does not move is a constant of its own kind.
 * A weak pointer into a block of closures is two roots: a weak one to the block, and the offset.
 * The collector keeps the values of Gc.finalise in a table of its own. So the linker wraps the call that registers them, which notes them here.
 * Gc.finalise_last keeps no value alive, and its function does not get the value. So the adapter counts the young values that died, and the
 * program compares that with the number of functions that were called. */
#include "adapter.h"
#include <inttypes.h>
#include <stdlib.h>
#include <string.h>
#include <time.h>

static struct inner *inners;
static size_t inner_count, inner_room;
static gcflip_snapshot *old_snapshot, *new_snapshot;
static uint64_t checked, pairs, shortcuts, not_remembered;
static double spent[4]; /* in milliseconds: the collection, finding places, both snapshots, the check */
static double begun, ended_before;
static bool fault_done;
static value kept_by_c = Val_unit;
static value *finalised; /* young values that a finaliser waits for */
static size_t finalised_count, finalised_room;
static value *lasts; /* young values of Gc.finalise_last */
static size_t last_count, last_room;
static long last_died;

enum { COLLECTING, FINDING, SNAPSHOTS, CHECKING };

static double now(void)
{
    struct timespec time;
    clock_gettime(CLOCK_THREAD_CPUTIME_ID, &time);
    return time.tv_sec * 1e3 + time.tv_nsec / 1e6;
}

static bool is_young(value v)
{
    return Is_block(v) && (value *)v > Caml_state->young_start && (value *)v < Caml_state->young_end;
}

/* The collector replaces a reference to a computed lazy value by its result, and so does this adapter in the snapshot before. It follows
 * caml_oldify_one: the result must not be a double or another lazy value. */
static value shortcut(value v)
{
    while (is_young(v) && Tag_val(v) == Forward_tag) {
        value result = Forward_val(v);
        if (Is_block(result)) {
            if (!is_young(result) && !Is_in_value_area(result))
                break;
            tag_t tag = Tag_val(result);
            if (tag == Forward_tag || tag == Lazy_tag || tag == Double_tag)
                break;
        }
        shortcuts++;
        v = result;
    }
    return v;
}

/* A word of either snapshot that is no reference into the nursery. */
static uint64_t other_word(gcflip_snapshot *snapshot, value v)
{
    return Is_block(v) ? gcflip_snapshot_fixed(snapshot, (uint64_t)v) : gcflip_snapshot_constant(snapshot, (uint64_t)v);
}

static uint32_t placed(gcflip_snapshot *snapshot, value block, header_t header)
{
    return adapter_place(snapshot, block, header, Wosize_hd(header));
}

/* Places the block that a pointer leads into, and notes the pointer. Returns the block. */
static value with_inner(value v)
{
    value start = v - Infix_offset_val(v);
    adapter_found(start, placed);
    inners = kit_grown(inners, &inner_room, inner_count, sizeof *inners);
    inners[inner_count++] = (struct inner){start, 0, (uint32_t)Infix_offset_val(v)};
    return start;
}

static uint64_t inside(value v)
{
    return gcflip_snapshot_inside(old_snapshot, (uint64_t)with_inner(v), (uint32_t)Infix_offset_val(v));
}

static uint64_t old_word(gcflip_snapshot *snapshot, uint64_t word)
{
    value v = shortcut((value)word);
    if (!is_young(v))
        return other_word(snapshot, v);
    if (Tag_val(v) == Infix_tag)
        return inside(v);
    return 2 * (uint64_t)adapter_found(v, placed);
}

static int by_now(const void *a, const void *b)
{
    value x = ((const struct inner *)a)->now, y = ((const struct inner *)b)->now;
    return (x > y) - (x < y);
}

/* Returns the offset of a pointer into a promoted block, or 0 for any other value. */
static uint32_t new_offset(value v)
{
    const struct inner key = {0, v, 0}, *found = inner_count ? bsearch(&key, inners, inner_count, sizeof key, by_now) : NULL;
    return found ? found->offset : 0;
}

static uint64_t new_word(gcflip_snapshot *snapshot, uint64_t word)
{
    value v = (value)word;
    if (!Is_block(v))
        return gcflip_snapshot_constant(snapshot, word);
    uint32_t place = gcflip_snapshot_find(snapshot, word), offset = place != 0 ? 0 : new_offset(v);
    if (place != 0)
        return 2 * (uint64_t)place;
    if (offset != 0)
        return gcflip_snapshot_inside(snapshot, (uint64_t)(v - offset), offset);
    if (is_young(v))
        return gcflip_snapshot_doubtful(snapshot, word, "in the nursery, which was emptied");
    return gcflip_snapshot_fixed(snapshot, word);
}

/* ---- Before. */

static void add_root(value v, value *at)
{
    if (is_young(v))
        adapter_add_place(at, 'r');
}

static void scan_old_objects(void)
{
    for (char *chunk = caml_heap_start; chunk; chunk = Chunk_next(chunk))
        for (char *p = chunk, *end = chunk + Chunk_size(chunk); p < end; p += Bhsize_hp(p)) {
            header_t header = Hd_hp(p);
            if (Color_hd(header) == Caml_blue || Tag_hd(header) >= No_scan_tag || Wosize_hd(header) == 0)
                continue;
            value block = Val_hp(p);
            mlsize_t i = Tag_hd(header) == Closure_tag ? Start_env_closinfo(Closinfo_val(block)) : 0;
            for (; i < Wosize_hd(header); i++)
                if (is_young(Field(block, i)))
                    adapter_add_place(&Field(block, i), 'f');
        }
}

static void add_weak_place(value *at)
{
    bool is_inner = Tag_val(*at) == Infix_tag;
    for (int i = 0; i <= is_inner; i++) {
        adapter_add_place(at, i == 0 ? 'w' : 'o');
        adapter_places[adapter_place_count - 1].offset = is_inner ? (uint32_t)Infix_offset_val(*at) : 0;
    }
}

/* Keys and data of weak arrays and ephemerons: they are old, and the list has all of them. */
static void add_weak_places(void)
{
    for (value ephemeron = caml_ephe_list_head; ephemeron != (value)NULL; ephemeron = Field(ephemeron, CAML_EPHE_LINK_OFFSET))
        for (mlsize_t i = CAML_EPHE_DATA_OFFSET; i < Wosize_val(ephemeron); i++)
            if (is_young(Field(ephemeron, i)))
                add_weak_place(&Field(ephemeron, i));
}

value __real_caml_final_register(value function, value v);

/* Stands for the runtime's call. */
value __wrap_caml_final_register(value function, value v)
{
    bool missed = adapter_fault == FINALISED_MISSED && checked >= 3 && !fault_done;
    value result = missed ? Val_unit : __real_caml_final_register(function, v);
    if (caml_minor_gc_begin_hook != NULL && is_young(v) && Tag_val(v) != Infix_tag) {
        finalised = kit_grown(finalised, &finalised_room, finalised_count, sizeof *finalised);
        finalised[finalised_count++] = v;
    }
    return result;
}

value __real_caml_final_register_called_without_value(value function, value v);

/* Stands for the runtime's call for Gc.finalise_last. */
value __wrap_caml_final_register_called_without_value(value function, value v)
{
    bool missed = adapter_fault == LAST_MISSED && checked >= 3;
    value result = missed ? Val_unit : __real_caml_final_register_called_without_value(function, v);
    if (caml_minor_gc_begin_hook != NULL && is_young(v) && Tag_val(v) != Infix_tag) {
        lasts = kit_grown(lasts, &last_room, last_count, sizeof *lasts);
        lasts[last_count++] = v;
    }
    return result;
}

static int by_place(const void *a, const void *b)
{
    value *const *x = a, *const *y = b;
    return (*x > *y) - (*x < *y);
}

/* Compares the fields that the scan found with the remembered set. */
static void mark_remembered(size_t first)
{
    struct caml_ref_table *table = Caml_state->ref_table;
    size_t count = (size_t)(table->ptr - table->base);
    value **sorted = malloc((count + 1) * sizeof *sorted);
    memcpy(sorted, table->base, count * sizeof *sorted);
    qsort(sorted, count, sizeof *sorted, by_place);
    for (size_t i = first; i < adapter_place_count; i++) {
        bool remembered = bsearch(&adapter_places[i].at, sorted, count, sizeof *sorted, by_place) != NULL;
        adapter_places[i].what = remembered ? 'F' : 'f';
        not_remembered += !remembered;
    }
    free(sorted);
}

static void plant_before(void)
{
    struct caml_ref_table *table = Caml_state->ref_table;
    if (fault_done || checked < 3)
        return;
    if (adapter_fault == SLOT_NOT_REMEMBERED && table->ptr > table->base && is_young(**(table->ptr - 1))) {
        table->ptr--; /* the collector does not see it */
        fault_done = true;
    }
    if (adapter_fault == ROOT_MISSED && is_young(kept_by_c)) {
        caml_remove_generational_global_root(&kept_by_c);
        fault_done = true;
    }
}

static void before(void)
{
    double start = now();
    adapter_forget();
    inner_count = 0;
    caml_do_roots(add_root, 1);
    size_t roots = adapter_place_count;
    scan_old_objects();
    mark_remembered(roots);
    add_weak_places();
    for (size_t i = 0; i < finalised_count; i++)
        adapter_add_place(&finalised[i], 'v');
    spent[FINDING] += now() - start;
    start = now();
    for (size_t i = 0; i < adapter_place_count; i++) {
        struct place *place = &adapter_places[i];
        if (place->what == 'w') {
            value start = place->offset ? with_inner(place->before) : place->before;
            adapter_found(start, placed);
            gcflip_snapshot_weak_root(old_snapshot, (uint64_t)start);
        } else if (place->what == 'o') {
            gcflip_snapshot_root(old_snapshot, gcflip_snapshot_constant(old_snapshot, place->offset));
        } else {
            gcflip_snapshot_root(old_snapshot, old_word(old_snapshot, (uint64_t)place->before));
        }
    }
    for (size_t i = 0; i < adapter_object_count; i++) {
        struct object object = adapter_objects[i];
        adapter_write_fields(old_snapshot, object.place, object.real, object.header, Wosize_hd(object.header), old_word);
    }
    plant_before();
    ended_before = now();
    spent[SNAPSHOTS] += ended_before - start;
}

/* ---- After. */

/* Writes the snapshot after, and the pairs. */
static bool read_after(void *given, gcflip_collection *collection)
{
    (void)given;
    for (size_t i = 0; i < adapter_object_count; i++) {
        struct object *object = &adapter_objects[i];
        if (object->now != 0)
            object->new_place = adapter_place(new_snapshot, object->now, Hd_val(object->now), Wosize_hd(object->header));
    }
    for (size_t i = 0; i < adapter_object_count; i++) {
        const struct object *object = &adapter_objects[i];
        if (object->now == 0)
            continue;
        adapter_write_fields(new_snapshot, object->new_place, object->now, Hd_val(object->now), Wosize_hd(object->header), new_word);
        gcflip_collection_pair(collection, (uint64_t)object->real, (uint64_t)object->now);
    }
    for (size_t i = 0; i < adapter_place_count; i++) {
        value v = *adapter_places[i].at;
        if (adapter_places[i].what == 'w')
            gcflip_snapshot_weak_root(new_snapshot, v == caml_ephe_none ? 0 : (uint64_t)(v - new_offset(v)));
        else if (adapter_places[i].what == 'o') /* of a cleared reference there is no offset */
            gcflip_snapshot_root(new_snapshot,
                                 gcflip_snapshot_constant(new_snapshot, v == caml_ephe_none ? adapter_places[i].offset : new_offset(v)));
        else
            gcflip_snapshot_root(new_snapshot, new_word(new_snapshot, (uint64_t)v));
    }
    return true;
}

static void follow_forwarding(void)
{
    for (size_t i = 0; i < adapter_object_count; i++) {
        struct object *object = &adapter_objects[i];
        object->now = Hd_val(object->real) == 0 ? Field(object->real, 0) : 0;
    }
    for (size_t i = 0; i < inner_count; i++)
        inners[i].now = Hd_val(inners[i].start) == 0 ? Field(inners[i].start, 0) + inners[i].offset : 0;
    if (inner_count != 0)
        qsort(inners, inner_count, sizeof *inners, by_now);
    for (size_t i = 0; i < finalised_count; i++)
        if (Hd_val(finalised[i]) == 0)
            finalised[i] = Field(finalised[i], 0);
}

static void plant_after(void)
{
    if (adapter_fault == BIT_FLIPPED && checked == 3 && adapter_object_count != 0) {
        struct object *object = &adapter_objects[adapter_object_count / 2];
        if (object->now != 0)
            Field(object->now, Wosize_hd(object->header) - 1) ^= 16;
    }
    for (size_t i = 0; !fault_done && i < adapter_place_count; i++) {
        struct place *place = &adapter_places[i];
        if (place->what != 'w' || *place->at == caml_ephe_none)
            continue;
        if (adapter_fault == WEAK_CLEARED) {
            *place->at = caml_ephe_none;
            fault_done = true;
        } else if (adapter_fault == OFFSET_LOST && place->offset != 0) {
            *place->at -= place->offset;
            fault_done = true;
        }
    }
}

static void count_pairs(void)
{
    for (size_t i = 0; i < adapter_object_count; i++)
        if (adapter_objects[i].now != 0)
            adapter_count(adapter_objects[i].header);
    for (size_t i = 0; i < inner_count; i++)
        adapter_pairs[INFIX] += inners[i].now != 0;
    for (size_t i = 0; i < adapter_place_count; i++)
        adapter_pairs[adapter_places[i].offset ? WEAK_INFIX : WEAK] += adapter_places[i].what == 'w';
    adapter_pairs[FINALISED] += finalised_count;
    for (size_t i = 0; i < last_count; i++)
        adapter_pairs[LAST] += Hd_val(lasts[i]) == 0;
}

static void after(void)
{
    gcflip_verdict verdict = {0, 0, 0, 0};
    double start = now();
    spent[COLLECTING] += start - ended_before;
    follow_forwarding();
    plant_after();
    read_after(NULL, adapter_collection);
    spent[SNAPSHOTS] += now() - start;
    start = now();
    uint32_t answer = gcflip_collection_check(adapter_collection, &verdict);
    spent[CHECKING] += now() - start;
    if (answer != GCFLIP_YES) {
        fprintf(stderr, "minor collection %" PRIu64 ": ", checked);
        adapter_refused();
    }
    checked++;
    pairs += gcflip_collection_pairs(adapter_collection);
    for (size_t i = 0; i < last_count; i++)
        last_died += Hd_val(lasts[i]) != 0;
    count_pairs();
    finalised_count = last_count = 0;
}

/* ---- The self-test: flips bits of promoted objects. */

static const char *reason(void *given, const uint64_t *word, unsigned bit)
{
    (void)given;
    for (size_t i = 0; i < adapter_object_count; i++)
        if (adapter_objects[i].now != 0 && word == (uint64_t *)Hp_val(adapter_objects[i].now) && (bit == 8 || bit == 9))
            return "the collector's colour in a header";
    return NULL;
}

static size_t flips;

static void after_with_flips(void)
{
    after();
    size_t room = 0, count = 0;
    gcflip_range *ranges = NULL;
    for (size_t i = 0; i < adapter_object_count; i++)
        if (adapter_objects[i].now != 0) {
            ranges = kit_grown(ranges, &room, count, sizeof *ranges);
            ranges[count++] = (gcflip_range){(uint64_t *)Hp_val(adapter_objects[i].now), Whsize_hd(adapter_objects[i].header)};
        }
    if (checked == 4 && count != 0) {
        gcflip_self_test test = {.ranges = ranges, .range_count = count, .flips = flips, .seed = 1, .read = read_after, .reason = reason};
        gcflip_collection_self_test(adapter_collection, &test, stderr);
    }
    free(ranges);
}

/* ---- For OCaml. */

value certify_start(value planted, value bits)
{
    if (adapter_collection == NULL)
        adapter_collection = gcflip_collection_open();
    if (adapter_collection == NULL)
        exit(3);
    old_snapshot = gcflip_before(adapter_collection);
    new_snapshot = gcflip_after(adapter_collection);
    adapter_fault = Int_val(planted);
    flips = (size_t)Int_val(bits);
    begun = now();
    caml_minor_gc_begin_hook = before;
    caml_minor_gc_end_hook = flips ? after_with_flips : after;
    return Val_unit;
}

value certify_stop(value unit)
{
    static const char *const names[] = {"blocks",  "closures",         "pointers into closures", "lazy values",     "strings",
                                        "doubles", "arrays of doubles", "custom blocks",          "abstract blocks", "weak references",
                                        "weak pointers into closures", "values of finalisers", "values of finalise_last that live on"};
    double all = now() - begun;
    caml_minor_gc_begin_hook = caml_minor_gc_end_hook = NULL;
    adapter_pairs[LAZY] += shortcuts;
    fprintf(stderr, "%" PRIu64 " minor collections, %" PRIu64 " pairs, none refused\n", checked, pairs);
    for (int i = 0; i < COUNTED; i++)
        fprintf(stderr, "%s%" PRIu64 " %s", i ? ", " : "", adapter_pairs[i], names[i]);
    fprintf(stderr, "\n%" PRIu64 " fields of old objects were not remembered\n", not_remembered);
    fprintf(stderr, "ms: collections %.0f, finding places %.0f, snapshots %.0f, checks %.0f; all %.0f\n", spent[COLLECTING], spent[FINDING],
            spent[SNAPSHOTS], spent[CHECKING], all);
    return unit;
}

/* Compares the number of functions of Gc.finalise_last that were called with that of the young values that died. */
value certify_last(value called)
{
    if (Long_val(called) == last_died)
        fprintf(stderr, "Gc.finalise_last: %ld young values died, and as many functions were called\n", last_died);
    else {
        fprintf(stderr, "no verdict: Gc.finalise_last: %ld young values died, and %ld functions were called\n", last_died, (long)Long_val(called));
        exit(3);
    }
    return Val_unit;
}

/* A bug as in foreign code: a store without caml_modify. */
value store_without_barrier(value array, value v)
{
    Field(array, 0) = v;
    return Val_unit;
}

/* A root that a C library registered. */
value keep_in_c(value v)
{
    static bool registered;
    if (!registered) {
        kept_by_c = v;
        caml_register_generational_global_root(&kept_by_c);
        registered = true;
    } else if (!fault_done) {
        caml_modify_generational_global_root(&kept_by_c, v);
    }
    return Val_unit;
}

/* A young block of words that the collector does not read. */
value abstract_block(value number)
{
    value block = caml_alloc_small(2, Abstract_tag);
    Field(block, 0) = number ^ 1;
    Field(block, 1) = 0x5555;
    return block;
}
