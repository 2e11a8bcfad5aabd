/* The collection of a test, its last verdict, and heaps that several tests describe. */
#ifndef ONE_COLLECTION_H
#define ONE_COLLECTION_H

#include "expect.h"
#include "gcflip_images.h"
#include <string.h>

static gcflip_collection *c;
static gcflip_snapshot *before, *after;
static gcflip_verdict verdict;

static inline void open_collection(void)
{
    c = gcflip_collection_open();
    EXPECT(c != NULL);
    before = gcflip_before(c);
    after = gcflip_after(c);
}

static inline void empty(void)
{
    gcflip_collection_clear(c);
    memset(&verdict, 255, sizeof verdict);
}

static inline bool is_verdict(uint32_t refusal, uint32_t pairs, uint64_t place, uint64_t field)
{
    return verdict.refusal == refusal && verdict.pairs == pairs && verdict.place == place && verdict.field == field;
}

static inline void expect_yes(uint32_t pairs)
{
    EXPECT(gcflip_collection_check(c, &verdict) == GCFLIP_YES);
    EXPECT(is_verdict(0, pairs, 0, 0));
}

static inline void expect_refused(uint32_t refusal, uint64_t place, uint64_t field)
{
    EXPECT(gcflip_collection_check(c, &verdict) == GCFLIP_REFUSED);
    EXPECT(is_verdict(refusal, 0, place, field));
}

/* ---- A list of two objects, at 100 and 200 before and at 300 and 400 after. */

static inline void write_list(gcflip_snapshot *snapshot, uint64_t first, uint64_t second)
{
    uint32_t a = gcflip_snapshot_object(snapshot, first, 3, 2), b = gcflip_snapshot_object(snapshot, second, 4, 1);
    gcflip_snapshot_set(snapshot, a, 0, gcflip_snapshot_reference(snapshot, second));
    gcflip_snapshot_set(snapshot, a, 1, gcflip_snapshot_constant(snapshot, UINT64_MAX));
    gcflip_snapshot_set(snapshot, b, 0, gcflip_snapshot_constant(snapshot, (uint64_t)1 << 63));
    gcflip_snapshot_root(snapshot, gcflip_snapshot_reference(snapshot, first));
}

static inline void list(void)
{
    empty();
    write_list(before, 100, 200);
    write_list(after, 300, 400);
    gcflip_collection_pair(c, 200, 400);
    gcflip_collection_pair(c, 100, 300);
}

/* ---- An object in parts. */

enum { LARGE = 70000 };

static inline uint32_t write_large(gcflip_snapshot *snapshot, uint64_t address)
{
    uint32_t at = gcflip_snapshot_object(snapshot, address, 9, LARGE);
    for (uint64_t i = 0; i < LARGE; i++)
        gcflip_snapshot_set(snapshot, at, i, gcflip_snapshot_constant(snapshot, i));
    gcflip_snapshot_root(snapshot, gcflip_snapshot_reference(snapshot, address));
    return at;
}

/* ---- Weak references: a field and a root refer weakly to the object at 200, and `strong` is a root that may refer to it too. */

static inline void write_weak(gcflip_snapshot *snapshot, uint64_t shift, uint64_t field, uint64_t root, uint64_t strong, bool has_target)
{
    uint32_t at = gcflip_snapshot_object(snapshot, 100 + shift, 1, 1);
    if (has_target)
        gcflip_snapshot_object(snapshot, 200 + shift, 2, 0);
    gcflip_snapshot_set_weak(snapshot, at, 0, field ? field + shift : 0);
    gcflip_snapshot_root(snapshot, gcflip_snapshot_reference(snapshot, 100 + shift));
    gcflip_snapshot_weak_root(snapshot, root ? root + shift : 0);
    gcflip_snapshot_root(snapshot, gcflip_snapshot_reference(snapshot, strong ? strong + shift : 0));
}

#define OLD_TARGET (200 - (uint64_t)1000) /* becomes 200 in the snapshot after */

static inline uint32_t weak_answer(uint64_t field, uint64_t root, uint64_t strong, bool has_target, bool infers)
{
    empty();
    write_weak(before, 0, 200, 200, strong, true);
    write_weak(after, 1000, field, root, strong, has_target);
    gcflip_collection_pair(c, 100, 1100);
    if (has_target)
        gcflip_collection_pair(c, 200, 1200);
    return infers ? gcflip_collection_infer(c, &verdict) : gcflip_collection_check(c, &verdict);
}

#endif
