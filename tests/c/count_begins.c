/* Begins collections of one object after one of many: count_begins OBJECTS. The instructions of `begin_small_ones` tell whether a begin still
   clears as much as the largest snapshot took. */
#include "expect.h"
#include "gcflip_images.h"

enum { TIMES = 100, SHIFT = 1 << 30 };

static gcflip_collection *c;
static uint64_t objects;

/* Each object has a weak reference, a pointer into itself, and a constant that takes an object of the library's own. */
static void read_objects(void *given, gcflip_snapshot *snapshot)
{
    uint64_t first = snapshot == gcflip_before(c) ? 8 : SHIFT, constant = (uint64_t)1 << 62;
    (void)given;
    for (uint64_t i = 0, at = first; i < objects; i++, at += 8) {
        uint64_t next = i + 1 < objects ? at + 8 : first;
        gcflip_snapshot_root(snapshot, gcflip_snapshot_reference(snapshot, next));
        uint32_t place = gcflip_snapshot_object(snapshot, at, 1, 3);
        gcflip_snapshot_set_weak(snapshot, place, 0, next);
        gcflip_snapshot_set(snapshot, place, 1, gcflip_snapshot_inside(snapshot, at, 4));
        gcflip_snapshot_set(snapshot, place, 2, gcflip_snapshot_constant(snapshot, constant + i));
    }
}

static const gcflip_adapter adapter = {.read_before = read_objects, .read_after = read_objects, .infers = true};

__attribute__((noinline)) static void begin_small_ones(void)
{
    for (int i = 0; i < TIMES; i++)
        EXPECT(gcflip_collection_begin(c, &adapter, NULL));
}

int main(int count, char **arguments)
{
    c = gcflip_collection_open();
    objects = count > 1 ? strtoull(arguments[1], NULL, 10) : 1;
    EXPECT(c != NULL && gcflip_collection_begin(c, &adapter, NULL) && gcflip_collection_end(c, NULL) == GCFLIP_YES);
    objects = 1;
    EXPECT(gcflip_collection_begin(c, &adapter, NULL) && gcflip_collection_end(c, NULL) == GCFLIP_YES);
    begin_small_ones();
    gcflip_collection_close(c);
    return 0;
}
