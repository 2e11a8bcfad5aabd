/* Checks Gc.compact of OCaml 4.13. It moves the blocks of the old generation in place and leaves no forwarding pointers, so the snapshot before is
 * a copy of the heap, and the pairs are inferred. */
#include "adapter.h"
#include <inttypes.h>
#include <stdlib.h>

static gcflip_snapshot *old_snapshot, *new_snapshot;
static value *ephemerons; /* sorted */
static size_t ephemeron_count, ephemeron_room;

static bool is_in_heap(value v)
{
    return Is_block(v) && Is_in_heap(v);
}

static int by_value(const void *a, const void *b)
{
    value x = *(const value *)a, y = *(const value *)b;
    return (x > y) - (x < y);
}

static void list_ephemerons(void)
{
    ephemeron_count = 0;
    for (value v = caml_ephe_list_head; v != (value)NULL; v = Field(v, CAML_EPHE_LINK_OFFSET)) {
        ephemerons = kit_grown(ephemerons, &ephemeron_room, ephemeron_count, sizeof *ephemerons);
        ephemerons[ephemeron_count++] = v;
    }
    if (ephemeron_count != 0)
        qsort(ephemerons, ephemeron_count, sizeof *ephemerons, by_value);
}

static bool is_ephemeron(value v)
{
    return ephemeron_count != 0 && bsearch(&v, ephemerons, ephemeron_count, sizeof v, by_value) != NULL;
}

/* Places a block. A weak array has weak fields, although the collector treats it as abstract; behind them are their offsets, for pointers into
 * blocks of closures. */
static uint32_t placed(gcflip_snapshot *snapshot, value block, header_t header)
{
    if (is_ephemeron(block))
        return gcflip_snapshot_object(snapshot, (uint64_t)block, 0, 2 * Wosize_hd(header));
    return adapter_place(snapshot, block, header, Wosize_hd(header));
}

static uint64_t word_in(gcflip_snapshot *snapshot, value v)
{
    if (!is_in_heap(v))
        return Is_block(v) ? gcflip_snapshot_fixed(snapshot, (uint64_t)v) : gcflip_snapshot_constant(snapshot, (uint64_t)v);
    if (Tag_val(v) == Infix_tag)
        return gcflip_snapshot_inside(snapshot, (uint64_t)(v - Infix_offset_val(v)), (uint32_t)Infix_offset_val(v));
    return gcflip_snapshot_reference(snapshot, (uint64_t)v);
}

/* Finds the block that a value refers to, and places it before the collection. */
static void find(value v)
{
    if (!is_in_heap(v))
        return;
    value block = Tag_val(v) == Infix_tag ? v - (value)Infix_offset_val(v) : v;
    adapter_found(block, placed);
}

static uint64_t old_word(gcflip_snapshot *snapshot, uint64_t word)
{
    find((value)word);
    return word_in(snapshot, (value)word);
}

static uint64_t new_word(gcflip_snapshot *snapshot, uint64_t word)
{
    return word_in(snapshot, (value)word);
}

/* The link is the collector's own. The constant in place of its offset makes the object unlike every other one. Compaction clears no field. */
static void write_ephemeron(gcflip_snapshot *snapshot, uint32_t place, value block, gcflip_word_of word)
{
    mlsize_t length = Wosize_val(block);
    gcflip_snapshot_set(snapshot, place, CAML_EPHE_LINK_OFFSET, 0);
    gcflip_snapshot_set(snapshot, place, length, gcflip_snapshot_constant(snapshot, Abstract_tag));
    for (mlsize_t i = CAML_EPHE_DATA_OFFSET; i < length; i++) {
        value v = Field(block, i);
        uint32_t offset = v != caml_ephe_none && is_in_heap(v) && Tag_val(v) == Infix_tag ? (uint32_t)Infix_offset_val(v) : 0;
        gcflip_snapshot_set(snapshot, place, length + i, gcflip_snapshot_constant(snapshot, offset));
        if (v == caml_ephe_none || is_in_heap(v))
            gcflip_snapshot_set_weak(snapshot, place, i, v == caml_ephe_none ? 0 : (uint64_t)(v - offset));
        else
            gcflip_snapshot_set(snapshot, place, i, word(snapshot, (uint64_t)v));
        adapter_pairs[offset ? WEAK_INFIX : WEAK]++;
    }
}

static void write_block(gcflip_snapshot *snapshot, uint32_t place, value block, header_t header, gcflip_word_of word)
{
    if (is_ephemeron(block))
        write_ephemeron(snapshot, place, block, word);
    else
        adapter_write_fields(snapshot, place, block, header, Wosize_hd(header), word);
}

static void add_root(value v, value *at)
{
    if (is_in_heap(v))
        adapter_add_place(at, 'r');
}

static void write_before(void)
{
    adapter_forget();
    list_ephemerons();
    caml_do_roots(add_root, 1);
    for (size_t i = 0; i < adapter_place_count; i++)
        gcflip_snapshot_root(old_snapshot, old_word(old_snapshot, (uint64_t)adapter_places[i].before));
    for (size_t i = 0; i < adapter_object_count; i++) {
        struct object object = adapter_objects[i];
        if (is_ephemeron(object.real))
            for (mlsize_t k = CAML_EPHE_DATA_OFFSET; k < Wosize_hd(object.header); k++)
                find(Field(object.real, k));
        write_block(old_snapshot, object.place, object.real, object.header, old_word);
    }
}

/* Calls a function for each block of the heap that is not free. */
static void each_block(void (*visit)(value block, header_t header))
{
    for (char *chunk = caml_heap_start; chunk; chunk = Chunk_next(chunk))
        for (char *p = chunk, *end = chunk + Chunk_size(chunk); p < end; p += Bhsize_hp(p))
            if (Color_hd(Hd_hp(p)) != Caml_blue && Wosize_hp(p) > 0)
                visit(Val_hp(p), Hd_hp(p));
}

static void place_new(value block, header_t header)
{
    placed(new_snapshot, block, header);
}

static void write_new(value block, header_t header)
{
    write_block(new_snapshot, gcflip_snapshot_find(new_snapshot, (uint64_t)block), block, header, new_word);
}

static size_t blocks_seen;

static void flip_one_bit(value block, header_t header)
{
    if (Tag_hd(header) == 0 && ++blocks_seen == 5000)
        Field(block, 0) ^= 64;
}

static uint64_t moved_blocks(void)
{
    uint64_t moved = 0;
    for (size_t i = 0; i < adapter_object_count; i++)
        moved += gcflip_snapshot_find(new_snapshot, (uint64_t)adapter_objects[i].real) == 0;
    return moved;
}

static void count_pairs(void)
{
    for (size_t i = 0; i < adapter_object_count; i++)
        if (!is_ephemeron(adapter_objects[i].real))
            adapter_count(adapter_objects[i].header);
}

value certify_compact(value unit)
{
    gcflip_verdict verdict = {0, 0, 0, 0};
    old_snapshot = gcflip_before(adapter_collection);
    new_snapshot = gcflip_after(adapter_collection);
    caml_empty_minor_heap();
    caml_finish_major_cycle();
    caml_finish_major_cycle();
    caml_empty_minor_heap();
    write_before();
    count_pairs();
    caml_compact_heap(-1);
    if (adapter_fault == BIT_AFTER_COMPACTION)
        each_block(flip_one_bit);
    list_ephemerons();
    each_block(place_new);
    each_block(write_new);
    for (size_t i = 0; i < adapter_place_count; i++)
        gcflip_snapshot_root(new_snapshot, new_word(new_snapshot, (uint64_t)*adapter_places[i].at));
    if (gcflip_collection_infer(adapter_collection, &verdict) != GCFLIP_YES) {
        fprintf(stderr, "compaction: ");
        adapter_refused();
    }
    fprintf(stderr, "a compaction, %zu pairs, at least %" PRIu64 " blocks moved\n", gcflip_collection_pairs(adapter_collection), moved_blocks());
    return unit;
}
