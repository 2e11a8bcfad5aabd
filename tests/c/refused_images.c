/* Refuses each allocation of gcflip_images.c in turn: there is then no verdict, and nothing breaks. Without a refusal the same calls get
   a yes. */
#include <stdbool.h>
#include <stdlib.h>

static long until_refused = -1; /* how many allocations succeed before one fails; -1 for all */

static bool fails(void)
{
    return until_refused >= 0 && until_refused-- == 0;
}

static void *counted_calloc(size_t count, size_t bytes)
{
    return fails() ? NULL : calloc(count, bytes);
}

static void *counted_realloc(void *block, size_t bytes)
{
    return fails() ? NULL : realloc(block, bytes);
}

#define calloc counted_calloc
#define realloc counted_realloc
#include "../../bindings/c/gcflip_images.c"
#undef calloc
#undef realloc

#include "expect.h"

enum { OBJECTS = 600, LONG = 65536 };

/* The references, weak references and pointers in the last fields lead to the next object, which is placed later, but for the last one. */
static void write(gcflip_snapshot *snapshot, uint64_t shift)
{
    static const char bytes[] = "bytes";
    for (uint64_t i = 1; i <= OBJECTS; i++) {
        uint64_t next = shift + i % OBJECTS + 1;
        uint32_t at = gcflip_snapshot_object(snapshot, shift + i, 0, 6);
        gcflip_snapshot_set(snapshot, at, 0, gcflip_snapshot_constant(snapshot, ((uint64_t)1 << 62) + i));
        gcflip_snapshot_set(snapshot, at, 1, gcflip_snapshot_inside(snapshot, shift + i, 8));
        gcflip_snapshot_set_weak(snapshot, at, 2, shift + i);
        gcflip_snapshot_set(snapshot, at, 3, gcflip_snapshot_reference(snapshot, next));
        gcflip_snapshot_set(snapshot, at, 4, gcflip_snapshot_inside(snapshot, next, 16));
        gcflip_snapshot_set_weak(snapshot, at, 5, next);
        gcflip_snapshot_root(snapshot, gcflip_snapshot_reference(snapshot, shift + i));
        gcflip_snapshot_doubtful(snapshot, i, "in no field");
    }
    uint32_t at = gcflip_snapshot_object(snapshot, shift + OBJECTS + 1, 0, LONG);
    for (uint64_t i = 0; i < LONG; i++)
        gcflip_snapshot_set(snapshot, at, i, 0);
    gcflip_snapshot_bytes(snapshot, shift + OBJECTS + 2, 1, bytes, 4);
    gcflip_snapshot_bytes(snapshot, shift + OBJECTS + 3, 1, bytes, 5); /* one of them does not end at a multiple of 8 */
    while (gcflip_snapshot_next(snapshot, 0, UINT64_MAX, 1) != 0)
        EXPECT(snapshot->fault == GCFLIP_NO_FAULT); /* after a fault there is none */
}

static void write_before(void *given, gcflip_snapshot *snapshot)
{
    (void)given;
    write(snapshot, 0);
}

static void write_after(void *given, gcflip_snapshot *snapshot)
{
    (void)given;
    write(snapshot, 5000);
}

static uint32_t answer_by_adapter(gcflip_collection *c)
{
    const gcflip_adapter adapter = {.read_before = write_before, .read_after = write_after, .infers = true};
    if (!gcflip_collection_begin(c, &adapter, NULL))
        return GCFLIP_FAULTY;
    uint32_t answer = gcflip_collection_end(c, NULL);
    EXPECT(answer != GCFLIP_YES || gcflip_collection_pairs(c) == 4 * OBJECTS);
    return answer;
}

enum way { CHECK, INFER, ADAPTER, WAYS };

static int answer_of_calls(gcflip_collection *c, bool infers)
{
    gcflip_verdict verdict = {0, 0, 0, 0};
    write(gcflip_before(c), 0);
    write(gcflip_after(c), 5000);
    for (uint64_t i = 1; i <= OBJECTS + 3; i++)
        gcflip_collection_pair(c, i, 5000 + i);
    int answer = (int)(infers ? gcflip_collection_infer(c, &verdict) : gcflip_collection_check(c, &verdict));
    EXPECT(answer != GCFLIP_YES || verdict.pairs == (infers ? 4 * OBJECTS : 4 * OBJECTS + 5));
    return answer;
}

/* Returns the answer of a collection that has it all, or -1 if it could not be opened. So many allocations succeed. With an adapter, they are counted from
   gcflip_collection_begin on, which forgets a fault before it. */
static int answer_by(enum way way, long allowed)
{
    until_refused = way == ADAPTER ? -1 : allowed;
    gcflip_collection *c = gcflip_collection_open();
    if (c == NULL)
        return -1;
    if (way == ADAPTER)
        until_refused = allowed;
    int answer = way == ADAPTER ? (int)answer_by_adapter(c) : answer_of_calls(c, way == INFER);
    gcflip_collection_close(c);
    return answer;
}

int main(void)
{
    for (enum way way = 0; way < WAYS; way++) {
        int found = -1;
        long allowed = 0;
        for (; found != GCFLIP_YES; allowed++) {
            found = answer_by(way, allowed);
            EXPECT(allowed < 1000);
            EXPECT(found == -1 || found == GCFLIP_FAULTY || found == GCFLIP_NO_MEMORY || (found == GCFLIP_YES && until_refused >= 0));
        }
        EXPECT(allowed > 40);
        EXPECT(answer_by(way, -1) == GCFLIP_YES);
    }
    return 0;
}
