/* Tests all calls of gcflip_heap.h, with each answer but those of a failed allocation and of a refused flip. */
#include "gcflip.h"
#include "one_heap.h"
#include "open_heap.h"
#include <string.h>

enum { KIND = 7, G0 = 16, G1 = 17 };

static uint32_t pairs;
static gcflip_log_entry entry;
static size_t length;
static uint64_t words[64], roots[48];
static uint8_t slots[65536];

#define REPLIES(call, wanted) EXPECT((call) == (wanted))

/* Checks a get: if it sees no number, it writes none. */
#define GETS(call, seen, wanted)                                  \
    do {                                                          \
        number = 77;                                              \
        EXPECT((call) == (seen) && number == (uint64_t)(wanted)); \
    } while (0)

#define LOOKS(call, seen, a_kind, a_count, a_number) \
    EXPECT((call) == (seen) && view.kind == (a_kind) && view.count == (a_count) && view.number == (a_number))

#define FLIPS(call, wanted) EXPECT((call) == GCFLIP_FLIPPED && pairs == (wanted))

static void open_heap(uint32_t size, uint8_t mutators)
{
    EXPECT(open_plain_heap(&heap, size, mutators) == GCFLIP_DONE && heap.at != NULL);
}

static void commands(void)
{
    static const uint8_t from[] = {9, G1, 7};
    open_heap(32, 2);
    LOOKS(gcflip_heap_look(&heap, 0, 31, &view), GCFLIP_NIL, 0, 0, 0);
    REPLIES(gcflip_heap_new_object(&heap, 0, G0, KIND, 2), GCFLIP_MADE);
    LOOKS(gcflip_heap_look(&heap, 1, G0, &view), GCFLIP_OBJECT, KIND, 2, 0);
    LOOKS(gcflip_heap_look(&heap, 0, 0, &view), GCFLIP_NIL, 0, 0, 0); /* slot 16 is shared; it is not the first own slot */
    REPLIES(gcflip_heap_set_number(&heap, 1, 15, 9223372036854775807u), GCFLIP_DONE);
    REPLIES(gcflip_heap_put(&heap, 1, G0, 1, 15), GCFLIP_DONE);
    GETS(gcflip_heap_get(&heap, 0, 3, G0, 1, &number), GCFLIP_NUMBER, 9223372036854775807u);
    LOOKS(gcflip_heap_look(&heap, 0, 15, &view), GCFLIP_NIL, 0, 0, 0);
    GETS(gcflip_heap_get(&heap, 0, 4, G0, 0, &number), GCFLIP_NIL, 77);
    REPLIES(gcflip_heap_get(&heap, 0, 4, G0, 2, &number), GCFLIP_NO_FIELD);
    REPLIES(gcflip_heap_put(&heap, 0, G0, 65535, 3), GCFLIP_NO_FIELD);
    REPLIES(gcflip_heap_get(&heap, 0, 4, 3, 0, &number), GCFLIP_NO_OBJECT);
    REPLIES(gcflip_heap_put(&heap, 0, 5, 0, 3), GCFLIP_NO_OBJECT);
    REPLIES(gcflip_heap_move(&heap, 0, G1, G0), GCFLIP_DONE);
    REPLIES(gcflip_heap_same(&heap, 1, G0, G1), GCFLIP_SAME);
    REPLIES(gcflip_heap_same(&heap, 1, G0, 15), GCFLIP_NOT_SAME);
    REPLIES(gcflip_heap_set_nil(&heap, 1, G1), GCFLIP_DONE);
    REPLIES(gcflip_heap_same(&heap, 0, G0, G1), GCFLIP_NOT_SAME);
    REPLIES(gcflip_heap_new_raw(&heap, 0, G1, 255, 3), GCFLIP_MADE);
    LOOKS(gcflip_heap_look(&heap, 0, G1, &view), GCFLIP_RAW_OBJECT, 255, 3, 0);
    GETS(gcflip_heap_get(&heap, 0, 2, G1, 2, &number), GCFLIP_NUMBER, 0);
    REPLIES(gcflip_heap_put(&heap, 0, G1, 0, G0), GCFLIP_NO_NUMBER);
    REPLIES(gcflip_heap_put(&heap, 0, G0, 0, G1), GCFLIP_DONE);
    GETS(gcflip_heap_get(&heap, 0, 4, G0, 0, &number), GCFLIP_OBJECT, 77); /* raw, which get does not show */
    LOOKS(gcflip_heap_look(&heap, 0, 4, &view), GCFLIP_RAW_OBJECT, 255, 3, 0);
    REPLIES(gcflip_heap_put_number(&heap, 0, G1, 2, 5, 6), GCFLIP_DONE);
    GETS(gcflip_heap_get(&heap, 0, 6, G1, 2, &number), GCFLIP_NUMBER, 6);
    LOOKS(gcflip_heap_look(&heap, 0, 5, &view), GCFLIP_NUMBER, 0, 0, 6);
    REPLIES(gcflip_heap_put_number(&heap, 0, G1, 3, 5, 7), GCFLIP_NO_FIELD); /* the slot has the number anyway */
    LOOKS(gcflip_heap_look(&heap, 0, 5, &view), GCFLIP_NUMBER, 0, 0, 7);
    REPLIES(gcflip_heap_put_number(&heap, 0, 5, 0, 5, 8), GCFLIP_NO_OBJECT);
    REPLIES(gcflip_heap_put(&heap, 0, G1, 0, 3), GCFLIP_DONE);
    REPLIES(gcflip_heap_put_nil(&heap, 0, G1, 1, 8), GCFLIP_NO_NUMBER);
    REPLIES(gcflip_heap_put_nil(&heap, 0, 5, 0, 8), GCFLIP_NO_OBJECT);
    REPLIES(gcflip_heap_put_nil(&heap, 0, G0, 9999, 8), GCFLIP_NO_FIELD);
    REPLIES(gcflip_heap_new_object(&heap, 0, 0, KIND, 21), GCFLIP_FULL); /* 23 words, but 22 are free */
    REPLIES(gcflip_heap_put_number(&heap, 0, G1, 0, 5, 11), GCFLIP_DONE);
    REPLIES(gcflip_heap_new_pair(&heap, 1, 7, 8, G1, 9), GCFLIP_MADE);
    LOOKS(gcflip_heap_look(&heap, 1, 7, &view), GCFLIP_OBJECT, 8, 2, 0);
    GETS(gcflip_heap_get(&heap, 1, 9, 7, 1, &number), GCFLIP_NIL, 77);
    GETS(gcflip_heap_get(&heap, 1, 9, 7, 0, &number), GCFLIP_OBJECT, 77);
    GETS(gcflip_heap_get(&heap, 1, 9, 9, 0, &number), GCFLIP_NUMBER, 11);
    REPLIES(gcflip_heap_new_pair(&heap, 1, 7, 8, 7, 9), GCFLIP_MADE); /* the first field refers to the object itself */
    GETS(gcflip_heap_get(&heap, 1, 10, 7, 0, &number), GCFLIP_OBJECT, 77);
    REPLIES(gcflip_heap_same(&heap, 1, 7, 10), GCFLIP_SAME);
    GETS(gcflip_heap_get(&heap, 1, 10, 7, 1, &number), GCFLIP_NUMBER, 11);
    REPLIES(gcflip_heap_new_from(&heap, 1, 7, 9, from, 3), GCFLIP_MADE); /* the last field refers to the object itself */
    LOOKS(gcflip_heap_look(&heap, 1, 7, &view), GCFLIP_OBJECT, 9, 3, 0);
    GETS(gcflip_heap_get(&heap, 1, 10, 7, 0, &number), GCFLIP_NUMBER, 11);
    GETS(gcflip_heap_get(&heap, 1, 10, 7, 1, &number), GCFLIP_OBJECT, 77);
    REPLIES(gcflip_heap_same(&heap, 1, G1, 10), GCFLIP_SAME);
    GETS(gcflip_heap_get(&heap, 1, 10, 7, 2, &number), GCFLIP_OBJECT, 77);
    REPLIES(gcflip_heap_same(&heap, 1, 7, 10), GCFLIP_SAME);
    REPLIES(gcflip_heap_new_raw(&heap, 0, 0, KIND, 65535), GCFLIP_FULL);
    REPLIES(gcflip_heap_new_object(&heap, 0, 0, KIND, 7), GCFLIP_MADE);
    REPLIES(gcflip_heap_new_object(&heap, 0, 0, KIND, 0), GCFLIP_FULL);
    REPLIES(gcflip_heap_new_pair(&heap, 1, 12, 8, 9, 9), GCFLIP_FULL);
    REPLIES(gcflip_heap_new_from(&heap, 1, 12, 8, from, 0), GCFLIP_FULL);
    LOOKS(gcflip_heap_look(&heap, 1, 12, &view), GCFLIP_NIL, 0, 0, 0);
    close_heap();
}

/* Tests reads and writes of several numbers at once, and addresses. */
static void raws(void)
{
    uint64_t row[5] = {77, 77, 77, 77, 77};
    uint32_t address = 77;
    open_heap(32, 2);
    REPLIES(gcflip_heap_new_raw(&heap, 1, 3, KIND, 4), GCFLIP_MADE);
    REPLIES(gcflip_heap_raw_read(&heap, 1, 3, 0, row, 4), GCFLIP_DONE);
    EXPECT(row[0] == 0 && row[3] == 0 && row[4] == 77);
    for (uint16_t i = 0; i < 4; i++)
        REPLIES(gcflip_heap_put_number(&heap, 1, 3, i, 0, 9223372036854775800u + i), GCFLIP_DONE);
    REPLIES(gcflip_heap_raw_read(&heap, 1, 3, 1, row, 2), GCFLIP_DONE);
    EXPECT(row[0] == 9223372036854775801u && row[1] == 9223372036854775802u && row[2] == 0);
    REPLIES(gcflip_heap_raw_read(&heap, 1, 3, 4, row, 0), GCFLIP_DONE);
    REPLIES(gcflip_heap_raw_read(&heap, 1, 3, 4, row, 1), GCFLIP_NO_FIELD);
    REPLIES(gcflip_heap_raw_read(&heap, 1, 3, 5, row, 0), GCFLIP_NO_FIELD);
    REPLIES(gcflip_heap_raw_read(&heap, 1, 3, 0, row, 5), GCFLIP_NO_FIELD);
    REPLIES(gcflip_heap_raw_read(&heap, 1, 0, 0, row, 1), GCFLIP_NO_OBJECT); /* a number */
    REPLIES(gcflip_heap_raw_read(&heap, 0, 3, 0, row, 1), GCFLIP_NO_OBJECT); /* another mutator's slot: nil */
    REPLIES(gcflip_heap_new_object(&heap, 1, G0, KIND, 4), GCFLIP_MADE);
    REPLIES(gcflip_heap_raw_read(&heap, 1, G0, 0, row, 0), GCFLIP_NO_OBJECT); /* not raw */
    REPLIES(gcflip_heap_raw_read(&heap, 2, 3, 0, row, 1), GCFLIP_OUT_OF_RANGE);
    REPLIES(gcflip_heap_raw_read(&heap, 1, 32, 0, row, 1), GCFLIP_OUT_OF_RANGE);
    EXPECT(row[0] == 9223372036854775801u && row[1] == 9223372036854775802u && row[2] == 0);
    LOOKS(gcflip_heap_look(&heap, 1, 0, &view), GCFLIP_NUMBER, 0, 0, 9223372036854775803u);
    REPLIES(gcflip_heap_address(&heap, 1, 3, &address), GCFLIP_DONE);
    EXPECT(address == 1);
    REPLIES(gcflip_heap_address(&heap, 0, G0, &address), GCFLIP_DONE);
    EXPECT(address == 7);
    REPLIES(gcflip_heap_address(&heap, 1, 0, &address), GCFLIP_NO_OBJECT);
    REPLIES(gcflip_heap_address(&heap, 0, 3, &address), GCFLIP_NO_OBJECT);
    REPLIES(gcflip_heap_address(&heap, 2, 3, &address), GCFLIP_OUT_OF_RANGE);
    REPLIES(gcflip_heap_address(&heap, 1, 32, &address), GCFLIP_OUT_OF_RANGE);
    EXPECT(address == 7);
    while (gcflip_heap_work(&heap, 1, &work) == GCFLIP_DONE && work.last != GCFLIP_FLIPPED)
        ;
    REPLIES(gcflip_heap_address(&heap, 0, G0, &address), GCFLIP_DONE); /* shared slots are copied first */
    EXPECT(address == 1);
    REPLIES(gcflip_heap_address(&heap, 1, 3, &address), GCFLIP_DONE);
    EXPECT(address == 7);
    REPLIES(gcflip_heap_raw_read(&heap, 1, 3, 0, row, 4), GCFLIP_DONE);
    EXPECT(row[0] == 9223372036854775800u && row[3] == 9223372036854775803u);
    const uint64_t more[] = {5, 9223372036854775807u, 9223372036854775808u};
    REPLIES(gcflip_heap_raw_write(&heap, 1, 3, 1, 0, more, 2), GCFLIP_DONE);
    LOOKS(gcflip_heap_look(&heap, 1, 0, &view), GCFLIP_NUMBER, 0, 0, 9223372036854775807u);
    REPLIES(gcflip_heap_set_number(&heap, 1, 0, 4), GCFLIP_DONE);
    REPLIES(gcflip_heap_raw_write(&heap, 1, 3, 0, 0, more, 3), GCFLIP_NO_NUMBER);
    REPLIES(gcflip_heap_raw_write(&heap, 1, 3, 3, 0, more, 2), GCFLIP_NO_FIELD);
    REPLIES(gcflip_heap_raw_write(&heap, 1, 3, 5, 0, more, 0), GCFLIP_NO_FIELD);
    REPLIES(gcflip_heap_raw_write(&heap, 1, G0, 0, 0, more, 1), GCFLIP_NO_OBJECT);
    REPLIES(gcflip_heap_raw_write(&heap, 1, 0, 0, 1, more, 1), GCFLIP_NO_OBJECT);
    REPLIES(gcflip_heap_raw_write(&heap, 1, 3, 0, 3, more, 1), GCFLIP_OUT_OF_RANGE);
    REPLIES(gcflip_heap_raw_write(&heap, 2, 3, 0, 0, more, 1), GCFLIP_OUT_OF_RANGE);
    REPLIES(gcflip_heap_raw_write(&heap, 1, 32, 0, 0, more, 1), GCFLIP_OUT_OF_RANGE);
    REPLIES(gcflip_heap_raw_write(&heap, 1, 3, 0, 32, more, 1), GCFLIP_OUT_OF_RANGE);
    REPLIES(gcflip_heap_raw_write(&heap, 1, 3, 4, 0, more, 0), GCFLIP_DONE);
    LOOKS(gcflip_heap_look(&heap, 1, 0, &view), GCFLIP_NUMBER, 0, 0, 4);
    REPLIES(gcflip_heap_raw_read(&heap, 1, 3, 0, row, 4), GCFLIP_DONE);
    EXPECT(row[0] == 9223372036854775800u && row[1] == 5 && row[2] == 9223372036854775807u && row[3] == 9223372036854775803u);
    /* while a collection is open each field is logged, and the replica takes the numbers; the flip moves the object back to 7 */
    REPLIES(gcflip_heap_step_begin(&heap), GCFLIP_BEGUN);
    REPLIES(gcflip_heap_raw_write(&heap, 1, 3, 2, 0, more, 2), GCFLIP_DONE);
    size_t logged = 77;
    gcflip_log_entry entry = {77, 77};
    EXPECT(gcflip_heap_log_length(&heap, 1, &logged) == GCFLIP_DONE && logged == 2);
    EXPECT(gcflip_heap_log_entry(&heap, 1, 1, &entry) == GCFLIP_DONE && entry.object == 7 && entry.field == 3);
    while (gcflip_heap_work(&heap, 1, &work) == GCFLIP_DONE && work.last != GCFLIP_FLIPPED)
        ;
    REPLIES(gcflip_heap_raw_read(&heap, 1, 3, 0, row, 4), GCFLIP_DONE);
    EXPECT(row[0] == 9223372036854775800u && row[1] == 5 && row[2] == 5 && row[3] == 9223372036854775807u);
    row[0] = 9223372036854775800u;
    close_heap();
    EXPECT(gcflip_heap_raw_write(&heap, 1, 3, 0, 0, more, 1) == GCFLIP_CLOSED);
    EXPECT(gcflip_heap_raw_read(&heap, 1, 3, 0, row, 1) == GCFLIP_CLOSED && gcflip_heap_address(&heap, 1, 3, &address) == GCFLIP_CLOSED);
    EXPECT(row[0] == 9223372036854775800u && address == 7);
}

/* Tests where a flip moved each object, by the standing checker and by the check of both spaces whole. */
static void moves(void)
{
    for (uint8_t checking = 0; checking < 2; checking++) {
        gcflip_options options = gcflip_options_default(32, 1);
        uint32_t address = 77;
        options.checking = checking;
        EXPECT(gcflip_heap_moved(&heap, 1, &address) == GCFLIP_CLOSED);
        EXPECT(gcflip_heap_open(&heap, &options) == GCFLIP_DONE);
        for (uint32_t flips = 0; flips < 3; flips++) {
            /* an object that dies, and one that stays: it comes to the front */
            REPLIES(gcflip_heap_new_object(&heap, 0, 0, KIND, 2), GCFLIP_MADE);
            REPLIES(gcflip_heap_new_object(&heap, 0, 1, KIND, 3), GCFLIP_MADE);
            uint32_t dies = 0, stays = 0;
            REPLIES(gcflip_heap_address(&heap, 0, 0, &dies), GCFLIP_DONE);
            REPLIES(gcflip_heap_address(&heap, 0, 1, &stays), GCFLIP_DONE);
            REPLIES(gcflip_heap_set_nil(&heap, 0, 0), GCFLIP_DONE);
            do {
                if (work.last == GCFLIP_BEGUN || flips == 0)
                    REPLIES(gcflip_heap_moved(&heap, stays, &address), GCFLIP_OUT_OF_RANGE);
                EXPECT(gcflip_heap_work(&heap, 1, &work) == GCFLIP_DONE);
            } while (work.last != GCFLIP_FLIPPED);
            EXPECT(address == 77);
            REPLIES(gcflip_heap_moved(&heap, dies, &address), GCFLIP_NO_OBJECT);
            EXPECT(address == 77);
            REPLIES(gcflip_heap_set_number(&heap, 0, 0, 5), GCFLIP_DONE); /* commands change no answer */
            REPLIES(gcflip_heap_moved(&heap, stays, &address), GCFLIP_DONE);
            EXPECT(address == 1);
            gcflip_flip_checks checks = {77, 77};
            EXPECT(gcflip_heap_flip_checks(&heap, &checks) == GCFLIP_DONE && checks.along + checks.whole == flips + 1);
            address = 77;
            /* a number at which no object started gets some answer */
            (void)gcflip_heap_moved(&heap, 0, &address);
            (void)gcflip_heap_moved(&heap, 4294967295u, &address);
            address = 77;
        }
        REPLIES(gcflip_heap_step_begin_sized(&heap, 16), GCFLIP_BEGUN);
        REPLIES(gcflip_heap_moved(&heap, 1, &address), GCFLIP_OUT_OF_RANGE);
        REPLIES(gcflip_heap_step_give_up(&heap), GCFLIP_DROPPED);
        REPLIES(gcflip_heap_moved(&heap, 1, &address), GCFLIP_OUT_OF_RANGE);
        EXPECT(address == 77);
        close_heap();
    }
}

/* Tests references by address in mutator 0's slot 2. Objects start only at `first` and `second`, and only the latter is raw. */
static void refer_everywhere(uint32_t first, uint32_t second)
{
    for (uint32_t at = 0; at < 70; at++) {
        bool starts = at == first || at == second;
        REPLIES(gcflip_heap_set_number(&heap, 0, 2, 5), GCFLIP_DONE);
        REPLIES(gcflip_heap_refer(&heap, 0, 2, at), starts ? GCFLIP_DONE : GCFLIP_NO_OBJECT);
        if (starts)
            LOOKS(gcflip_heap_look(&heap, 0, 2, &view), at == second ? GCFLIP_RAW_OBJECT : GCFLIP_OBJECT, KIND, at == second ? 3u : 2u, 0);
        else
            LOOKS(gcflip_heap_look(&heap, 0, 2, &view), GCFLIP_NUMBER, 0, 0, 5);
    }
    REPLIES(gcflip_heap_refer(&heap, 0, 2, 4294967295u), GCFLIP_NO_OBJECT);
    REPLIES(gcflip_heap_refer(&heap, 0, 2, 2147483648u + first), GCFLIP_NO_OBJECT);
    REPLIES(gcflip_heap_refer(&heap, 2, 2, first), GCFLIP_OUT_OF_RANGE);
    REPLIES(gcflip_heap_refer(&heap, 0, 32, first), GCFLIP_OUT_OF_RANGE);
    LOOKS(gcflip_heap_look(&heap, 0, 2, &view), GCFLIP_NUMBER, 0, 0, 5);
}

/* Tests weak references: with a standing checker, whose marks tell where objects start, and with a walk. */
static void references(void)
{
    for (uint8_t checking = 0; checking < 2; checking++) {
        gcflip_options options = gcflip_options_default(64, 2);
        uint32_t address = 77;
        options.checking = checking;
        EXPECT(gcflip_heap_refer(&heap, 0, 0, 1) == GCFLIP_CLOSED);
        EXPECT(gcflip_heap_open(&heap, &options) == GCFLIP_DONE);
        refer_everywhere(UINT32_MAX, UINT32_MAX); /* without an object */
        REPLIES(gcflip_heap_new_object(&heap, 1, 3, KIND, 2), GCFLIP_MADE); /* at 1 */
        REPLIES(gcflip_heap_new_raw(&heap, 1, G0, KIND, 3), GCFLIP_MADE);   /* at 5 */
        refer_everywhere(1, 5);
        /* an object that nothing refers to is found until the flip at which it dies; the raw one moves to its place */
        REPLIES(gcflip_heap_set_nil(&heap, 1, 3), GCFLIP_DONE);
        refer_everywhere(1, 5);
        while (gcflip_heap_work(&heap, 1, &work) == GCFLIP_DONE && work.last != GCFLIP_FLIPPED)
            ;
        EXPECT(work.last == GCFLIP_FLIPPED && work.pairs == 1);
        REPLIES(gcflip_heap_moved(&heap, 1, &address), GCFLIP_NO_OBJECT);
        refer_everywhere(UINT32_MAX, 1);
        /* one that is fetched after all roots have replicas survives */
        REPLIES(gcflip_heap_new_object(&heap, 1, 3, KIND, 2), GCFLIP_MADE); /* at 6 */
        REPLIES(gcflip_heap_put_number(&heap, 1, 3, 1, 0, 9), GCFLIP_DONE);
        REPLIES(gcflip_heap_set_nil(&heap, 1, 3), GCFLIP_DONE);
        REPLIES(gcflip_heap_step_begin(&heap), GCFLIP_BEGUN);
        refer_everywhere(6, 1);
        EXPECT(gcflip_heap_work(&heap, 1, &work) == GCFLIP_DONE && work.last == GCFLIP_COPIED);
        REPLIES(gcflip_heap_step_roots(&heap), GCFLIP_CLEAN);
        EXPECT(gcflip_heap_work(&heap, 1, &work) == GCFLIP_DONE && work.last == GCFLIP_PASSED); /* a raw replica is copied whole */
        REPLIES(gcflip_heap_refer(&heap, 1, 4, 6), GCFLIP_DONE);
        while (gcflip_heap_work(&heap, 1, &work) == GCFLIP_DONE && work.last != GCFLIP_FLIPPED)
            ;
        EXPECT(work.last == GCFLIP_FLIPPED && work.pairs == 2);
        REPLIES(gcflip_heap_moved(&heap, 6, &address), GCFLIP_DONE);
        EXPECT(address == 6);
        GETS(gcflip_heap_get(&heap, 1, 5, 4, 1, &number), GCFLIP_NUMBER, 9);
        refer_everywhere(6, 1);
        /* a collection that is given up leaves all objects where they are */
        REPLIES(gcflip_heap_step_begin_sized(&heap, 16), GCFLIP_BEGUN);
        REPLIES(gcflip_heap_step_roots(&heap), GCFLIP_COPIED);
        refer_everywhere(6, 1);
        REPLIES(gcflip_heap_step_give_up(&heap), GCFLIP_DROPPED);
        refer_everywhere(6, 1);
        close_heap();
    }
}

/* Tests copies of several fields at once: between objects with references and raw ones, within one object, and each refusal. */
static void copies(void)
{
    const uint64_t numbers[] = {5, 6, 7, 8};
    uint64_t row[4] = {77, 77, 77, 77};
    open_heap(64, 2);
    REPLIES(gcflip_heap_new_object(&heap, 1, G0, KIND, 3), GCFLIP_MADE); /* at 1 */
    REPLIES(gcflip_heap_new_object(&heap, 1, 2, KIND, 4), GCFLIP_MADE);  /* at 6 */
    REPLIES(gcflip_heap_new_raw(&heap, 1, 3, KIND, 4), GCFLIP_MADE);     /* at 12 */
    REPLIES(gcflip_heap_raw_write(&heap, 1, 3, 0, 0, numbers, 4), GCFLIP_DONE);
    /* numbers of a raw object into one with references, and a reference beside them */
    REPLIES(gcflip_heap_copy_fields(&heap, 1, 2, 1, 3, 2, 0, 2), GCFLIP_DONE);
    LOOKS(gcflip_heap_look(&heap, 1, 0, &view), GCFLIP_NUMBER, 0, 0, 8);
    REPLIES(gcflip_heap_put(&heap, 1, 2, 3, G0), GCFLIP_DONE);
    REPLIES(gcflip_heap_copy_fields(&heap, 1, G0, 0, 2, 1, 0, 3), GCFLIP_DONE);
    REPLIES(gcflip_heap_same(&heap, 1, 0, G0), GCFLIP_SAME);
    GETS(gcflip_heap_get(&heap, 1, 1, G0, 0, &number), GCFLIP_NUMBER, 7);
    GETS(gcflip_heap_get(&heap, 1, 1, G0, 1, &number), GCFLIP_NUMBER, 8);
    REPLIES(gcflip_heap_get(&heap, 1, 1, G0, 2, &number), GCFLIP_OBJECT);
    REPLIES(gcflip_heap_same(&heap, 1, 1, G0), GCFLIP_SAME);
    /* within one object: in rising order, so a field that was written is read as it was written; by two slots or by one */
    REPLIES(gcflip_heap_copy_fields(&heap, 1, 3, 0, 3, 1, 0, 3), GCFLIP_DONE);
    REPLIES(gcflip_heap_raw_read(&heap, 1, 3, 0, row, 4), GCFLIP_DONE);
    EXPECT(row[0] == 6 && row[1] == 7 && row[2] == 8 && row[3] == 8);
    REPLIES(gcflip_heap_move(&heap, 1, 1, 3), GCFLIP_DONE);
    REPLIES(gcflip_heap_copy_fields(&heap, 1, 1, 1, 3, 0, 0, 3), GCFLIP_DONE);
    REPLIES(gcflip_heap_raw_read(&heap, 1, 3, 0, row, 4), GCFLIP_DONE);
    EXPECT(row[0] == 6 && row[1] == 6 && row[2] == 6 && row[3] == 6);
    /* nothing is copied, and slot 0 keeps its number */
    REPLIES(gcflip_heap_set_number(&heap, 1, 0, 4), GCFLIP_DONE);
    REPLIES(gcflip_heap_copy_fields(&heap, 1, 3, 1, 2, 1, 0, 3), GCFLIP_NO_NUMBER); /* the last value is a reference */
    REPLIES(gcflip_heap_copy_fields(&heap, 1, 3, 1, 2, 0, 0, 1), GCFLIP_NO_NUMBER); /* nil */
    REPLIES(gcflip_heap_copy_fields(&heap, 1, 3, 2, 2, 1, 0, 3), GCFLIP_NO_FIELD);
    REPLIES(gcflip_heap_copy_fields(&heap, 1, 2, 0, G0, 1, 0, 3), GCFLIP_NO_FIELD);
    REPLIES(gcflip_heap_copy_fields(&heap, 1, 2, 5, 3, 0, 0, 0), GCFLIP_NO_FIELD);
    REPLIES(gcflip_heap_copy_fields(&heap, 1, 2, 0, 3, 5, 0, 0), GCFLIP_NO_FIELD);
    REPLIES(gcflip_heap_copy_fields(&heap, 1, 2, 65535, 3, 65535, 0, 65535), GCFLIP_NO_FIELD);
    REPLIES(gcflip_heap_copy_fields(&heap, 1, 4, 0, 3, 0, 0, 0), GCFLIP_NO_OBJECT); /* nil */
    REPLIES(gcflip_heap_copy_fields(&heap, 1, 3, 0, 4, 0, 0, 0), GCFLIP_NO_OBJECT);
    REPLIES(gcflip_heap_copy_fields(&heap, 1, 0, 0, 3, 0, 1, 0), GCFLIP_NO_OBJECT); /* a number */
    REPLIES(gcflip_heap_copy_fields(&heap, 0, 2, 0, 3, 0, 0, 0), GCFLIP_NO_OBJECT); /* another mutator's slots */
    REPLIES(gcflip_heap_copy_fields(&heap, 1, 2, 0, 3, 0, 2, 0), GCFLIP_OUT_OF_RANGE);
    REPLIES(gcflip_heap_copy_fields(&heap, 1, 2, 0, 3, 0, 3, 0), GCFLIP_OUT_OF_RANGE);
    REPLIES(gcflip_heap_copy_fields(&heap, 2, 2, 0, 3, 0, 0, 0), GCFLIP_OUT_OF_RANGE);
    REPLIES(gcflip_heap_copy_fields(&heap, 1, 32, 0, 3, 0, 0, 0), GCFLIP_OUT_OF_RANGE);
    REPLIES(gcflip_heap_copy_fields(&heap, 1, 2, 0, 32, 0, 0, 0), GCFLIP_OUT_OF_RANGE);
    REPLIES(gcflip_heap_copy_fields(&heap, 1, 2, 0, 3, 0, 32, 0), GCFLIP_OUT_OF_RANGE);
    REPLIES(gcflip_heap_copy_fields(&heap, 1, 2, 4, 3, 4, 0, 0), GCFLIP_DONE);
    LOOKS(gcflip_heap_look(&heap, 1, 0, &view), GCFLIP_NUMBER, 0, 0, 4);
    REPLIES(gcflip_heap_raw_read(&heap, 1, 3, 0, row, 4), GCFLIP_DONE);
    EXPECT(row[0] == 6 && row[1] == 6 && row[2] == 6 && row[3] == 6);
    /* while a collection is open each field that is written is logged, and the replicas take the values */
    REPLIES(gcflip_heap_step_begin(&heap), GCFLIP_BEGUN);
    while (gcflip_heap_step_roots(&heap) == GCFLIP_COPIED)
        ;
    while (gcflip_heap_step_scan(&heap) != GCFLIP_CLEAN)
        ;
    REPLIES(gcflip_heap_copy_fields(&heap, 1, 3, 2, 2, 1, 0, 2), GCFLIP_DONE);
    REPLIES(gcflip_heap_copy_fields(&heap, 1, 2, 0, G0, 2, 1, 1), GCFLIP_DONE);
    EXPECT(gcflip_heap_log_length(&heap, 1, &length) == GCFLIP_DONE && length == 3);
    EXPECT(gcflip_heap_log_entry(&heap, 1, 1, &entry) == GCFLIP_DONE && entry.object == 12 && entry.field == 3);
    EXPECT(gcflip_heap_log_entry(&heap, 1, 2, &entry) == GCFLIP_DONE && entry.object == 6 && entry.field == 0);
    while (gcflip_heap_work(&heap, 1, &work) == GCFLIP_DONE && work.last != GCFLIP_FLIPPED)
        ;
    REPLIES(gcflip_heap_raw_read(&heap, 1, 3, 0, row, 4), GCFLIP_DONE);
    EXPECT(row[0] == 6 && row[1] == 6 && row[2] == 7 && row[3] == 8);
    REPLIES(gcflip_heap_get(&heap, 1, 0, 2, 0, &number), GCFLIP_OBJECT);
    REPLIES(gcflip_heap_same(&heap, 1, 0, G0), GCFLIP_SAME);
    close_heap();
    EXPECT(gcflip_heap_copy_fields(&heap, 1, 2, 0, 3, 0, 0, 1) == GCFLIP_CLOSED);
}

/* Tests objects whose fields take numbers and the values of slots. */
static void mixed(void)
{
    const gcflip_field fields[] = {{GCFLIP_FIELD_NUMBER, 5}, {GCFLIP_FIELD_NIL, 7}, {GCFLIP_FIELD_SLOT, 2}, {GCFLIP_FIELD_SLOT, 0},
                                   {GCFLIP_FIELD_NUMBER, 9223372036854775807u}, {GCFLIP_FIELD_SLOT, G0}};
    gcflip_field wrong[] = {{GCFLIP_FIELD_NUMBER, 1}, {GCFLIP_FIELD_NUMBER, 9223372036854775808u}};
    static gcflip_field most[65536];
    open_heap(40, 2);
    REPLIES(gcflip_heap_new_raw(&heap, 1, G0, KIND, 1), GCFLIP_MADE); /* at 1 */
    REPLIES(gcflip_heap_new_with(&heap, 1, 2, KIND, 0, fields, COUNT(fields)), GCFLIP_MADE); /* at 4 */
    LOOKS(gcflip_heap_look(&heap, 1, 0, &view), GCFLIP_NUMBER, 0, 0, 9223372036854775807u);
    LOOKS(gcflip_heap_look(&heap, 1, 2, &view), GCFLIP_OBJECT, KIND, 6, 0);
    GETS(gcflip_heap_get(&heap, 1, 3, 2, 0, &number), GCFLIP_NUMBER, 5);
    GETS(gcflip_heap_get(&heap, 1, 3, 2, 1, &number), GCFLIP_NIL, 77);
    GETS(gcflip_heap_get(&heap, 1, 3, 2, 2, &number), GCFLIP_OBJECT, 77);
    REPLIES(gcflip_heap_same(&heap, 1, 3, 2), GCFLIP_SAME); /* slot 2 is set first */
    GETS(gcflip_heap_get(&heap, 1, 3, 2, 3, &number), GCFLIP_NUMBER, 5); /* slot 0 has the number before */
    GETS(gcflip_heap_get(&heap, 1, 3, 2, 4, &number), GCFLIP_NUMBER, 9223372036854775807u);
    GETS(gcflip_heap_get(&heap, 1, 3, 2, 5, &number), GCFLIP_OBJECT, 77);
    REPLIES(gcflip_heap_same(&heap, 1, 3, G0), GCFLIP_SAME);
    /* without a number slot 0 stays, and an object may have no fields */
    REPLIES(gcflip_heap_new_with(&heap, 1, 4, KIND, 0, fields + 1, 1), GCFLIP_MADE);
    REPLIES(gcflip_heap_new_with(&heap, 1, 4, KIND, 0, fields, 0), GCFLIP_MADE);
    LOOKS(gcflip_heap_look(&heap, 1, 0, &view), GCFLIP_NUMBER, 0, 0, 9223372036854775807u);
    /* nothing is made, and nothing changes */
    REPLIES(gcflip_heap_set_number(&heap, 1, 0, 4), GCFLIP_DONE);
    REPLIES(gcflip_heap_new_with(&heap, 1, 4, KIND, 0, most, 65535), GCFLIP_FULL);
    REPLIES(gcflip_heap_new_with(&heap, 1, 4, KIND, 0, most, 65536), GCFLIP_OUT_OF_RANGE);
    REPLIES(gcflip_heap_new_with(&heap, 1, 4, KIND, 0, wrong, 2), GCFLIP_OUT_OF_RANGE);
    wrong[1] = (gcflip_field){GCFLIP_FIELD_SLOT, 32};
    REPLIES(gcflip_heap_new_with(&heap, 1, 4, KIND, 0, wrong, 2), GCFLIP_OUT_OF_RANGE);
    wrong[1] = (gcflip_field){GCFLIP_FIELD_SLOT, 256}; /* no number of a slot is cut off */
    REPLIES(gcflip_heap_new_with(&heap, 1, 4, KIND, 0, wrong, 2), GCFLIP_OUT_OF_RANGE);
    wrong[1] = (gcflip_field){3, 0};
    REPLIES(gcflip_heap_new_with(&heap, 1, 4, KIND, 0, wrong, 2), GCFLIP_OUT_OF_RANGE);
    REPLIES(gcflip_heap_new_with(&heap, 1, 4, KIND, 4, wrong, 1), GCFLIP_OUT_OF_RANGE);
    REPLIES(gcflip_heap_new_with(&heap, 2, 4, KIND, 0, wrong, 1), GCFLIP_OUT_OF_RANGE);
    REPLIES(gcflip_heap_new_with(&heap, 1, 32, KIND, 0, wrong, 1), GCFLIP_OUT_OF_RANGE);
    REPLIES(gcflip_heap_new_with(&heap, 1, 4, KIND, 32, wrong, 1), GCFLIP_OUT_OF_RANGE);
    LOOKS(gcflip_heap_look(&heap, 1, 0, &view), GCFLIP_NUMBER, 0, 0, 4);
    LOOKS(gcflip_heap_look(&heap, 1, 4, &view), GCFLIP_OBJECT, KIND, 0, 0);
    /* while a collection is open each field that is written is logged */
    REPLIES(gcflip_heap_step_begin(&heap), GCFLIP_BEGUN);
    REPLIES(gcflip_heap_new_with(&heap, 1, 5, KIND, 0, fields, 3), GCFLIP_MADE); /* at 17 */
    EXPECT(gcflip_heap_log_length(&heap, 1, &length) == GCFLIP_DONE && length == 2);
    EXPECT(gcflip_heap_log_entry(&heap, 1, 0, &entry) == GCFLIP_DONE && entry.object == 17 && entry.field == 0);
    EXPECT(gcflip_heap_log_entry(&heap, 1, 1, &entry) == GCFLIP_DONE && entry.object == 17 && entry.field == 2);
    while (gcflip_heap_work(&heap, 1, &work) == GCFLIP_DONE && work.last != GCFLIP_FLIPPED)
        ;
    GETS(gcflip_heap_get(&heap, 1, 3, 5, 0, &number), GCFLIP_NUMBER, 5);
    GETS(gcflip_heap_get(&heap, 1, 3, 5, 2, &number), GCFLIP_OBJECT, 77);
    REPLIES(gcflip_heap_same(&heap, 1, 3, 2), GCFLIP_SAME);
    close_heap();
    EXPECT(gcflip_heap_new_with(&heap, 1, 4, KIND, 0, fields, 1) == GCFLIP_CLOSED);
}

/* Tests each step, with an object whose one field two mutators write after it was scanned. */
static void steps(void)
{
    open_heap(32, 2);
    REPLIES(gcflip_heap_step_roots(&heap), GCFLIP_IDLE);
    REPLIES(gcflip_heap_step_scan(&heap), GCFLIP_IDLE);
    REPLIES(gcflip_heap_step_apply(&heap, 1), GCFLIP_IDLE);
    REPLIES(gcflip_heap_step_flip(&heap, &pairs), GCFLIP_IDLE);
    REPLIES(gcflip_heap_step_give_up(&heap), GCFLIP_IDLE);
    REPLIES(gcflip_heap_new_object(&heap, 0, G0, KIND, 1), GCFLIP_MADE);
    REPLIES(gcflip_heap_set_number(&heap, 0, 0, 8), GCFLIP_DONE);
    REPLIES(gcflip_heap_step_begin(&heap), GCFLIP_BEGUN);
    REPLIES(gcflip_heap_step_begin(&heap), GCFLIP_BUSY);
    REPLIES(gcflip_heap_step_begin_sized(&heap, 8), GCFLIP_BUSY);
    REPLIES(gcflip_heap_step_flip(&heap, &pairs), GCFLIP_NOT_READY);
    REPLIES(gcflip_heap_step_roots(&heap), GCFLIP_COPIED);
    REPLIES(gcflip_heap_step_roots(&heap), GCFLIP_CLEAN);
    REPLIES(gcflip_heap_step_scan(&heap), GCFLIP_SCANNED);
    REPLIES(gcflip_heap_put(&heap, 1, G0, 0, 0), GCFLIP_DONE); /* nil: mutator 1 has a slot 0 of its own */
    REPLIES(gcflip_heap_put(&heap, 0, G0, 0, 0), GCFLIP_DONE);
    REPLIES(gcflip_heap_step_scan(&heap), GCFLIP_PASSED);
    REPLIES(gcflip_heap_step_scan(&heap), GCFLIP_CLEAN);
    REPLIES(gcflip_heap_step_flip(&heap, &pairs), GCFLIP_NOT_READY);
    REPLIES(gcflip_heap_step_apply(&heap, 0), GCFLIP_APPLIED);
    REPLIES(gcflip_heap_step_apply(&heap, 0), GCFLIP_CLEAN);
    REPLIES(gcflip_heap_step_apply(&heap, 1), GCFLIP_APPLIED);
    FLIPS(gcflip_heap_step_flip(&heap, &pairs), 1);
    GETS(gcflip_heap_get(&heap, 1, 1, G0, 0, &number), GCFLIP_NUMBER, 8);
    REPLIES(gcflip_heap_step_begin_sized(&heap, 3), GCFLIP_BEGUN);
    REPLIES(gcflip_heap_step_roots(&heap), GCFLIP_NO_ROOM);
    REPLIES(gcflip_heap_step_give_up(&heap), GCFLIP_DROPPED);
    REPLIES(gcflip_heap_step_begin_sized(&heap, 1048576), GCFLIP_BEGUN);
    close_heap();
}

static bool is_useful(uint32_t name, uint32_t mutator)
{
    gcflip_step step = {77, 77};
    EXPECT(gcflip_heap_useful(&heap, &step) == GCFLIP_DONE);
    return step.name == name && step.mutator == mutator;
}

/* Tests that each useful step is named before it is performed: of a heap with one object, to which mutators 1 and 0 write. */
static void useful_step_names(void)
{
    uint32_t pairs = 77;
    open_heap(32, 2);
    REPLIES(gcflip_heap_new_object(&heap, 1, 16, KIND, 1), GCFLIP_MADE);
    EXPECT(is_useful(GCFLIP_STEP_BEGIN, 0) && is_useful(GCFLIP_STEP_BEGIN, 0));
    REPLIES(gcflip_heap_step_begin_sized(&heap, 3), GCFLIP_BEGUN);
    EXPECT(is_useful(GCFLIP_STEP_ROOTS, 0));
    REPLIES(gcflip_heap_step_roots(&heap), GCFLIP_NO_ROOM);
    EXPECT(is_useful(GCFLIP_STEP_ROOTS, 0));
    REPLIES(gcflip_heap_step_give_up(&heap), GCFLIP_DROPPED);
    EXPECT(is_useful(GCFLIP_STEP_BEGIN, 0));
    REPLIES(gcflip_heap_step_begin(&heap), GCFLIP_BEGUN);
    EXPECT(is_useful(GCFLIP_STEP_ROOTS, 0));
    REPLIES(gcflip_heap_step_roots(&heap), GCFLIP_COPIED);
    EXPECT(is_useful(GCFLIP_STEP_SCAN, 0));
    REPLIES(gcflip_heap_step_scan(&heap), GCFLIP_SCANNED);
    EXPECT(is_useful(GCFLIP_STEP_SCAN, 0));
    REPLIES(gcflip_heap_step_scan(&heap), GCFLIP_PASSED);
    EXPECT(is_useful(GCFLIP_STEP_FLIP, 0));
    REPLIES(gcflip_heap_put(&heap, 1, 16, 0, 0), GCFLIP_DONE);
    EXPECT(is_useful(GCFLIP_STEP_APPLY, 1));
    REPLIES(gcflip_heap_put(&heap, 0, 16, 0, 0), GCFLIP_DONE);
    EXPECT(is_useful(GCFLIP_STEP_APPLY, 0));
    REPLIES(gcflip_heap_step_apply(&heap, 0), GCFLIP_APPLIED);
    EXPECT(is_useful(GCFLIP_STEP_APPLY, 1));
    REPLIES(gcflip_heap_new_object(&heap, 0, 5, KIND, 0), GCFLIP_MADE);
    EXPECT(is_useful(GCFLIP_STEP_ROOTS, 0));
    REPLIES(gcflip_heap_step_roots(&heap), GCFLIP_COPIED);
    REPLIES(gcflip_heap_step_scan(&heap), GCFLIP_PASSED);
    REPLIES(gcflip_heap_step_apply(&heap, 1), GCFLIP_APPLIED);
    EXPECT(is_useful(GCFLIP_STEP_FLIP, 0));
    REPLIES(gcflip_heap_step_flip(&heap, &pairs), GCFLIP_FLIPPED);
    EXPECT(pairs == 2 && is_useful(GCFLIP_STEP_BEGIN, 0));
    close_heap();
}

/* Tests the useful steps of a heap with one object: begin, one root, one field, the end of the object, the flip. */
static void useful_steps(void)
{
    open_heap(32, 1);
    REPLIES(gcflip_heap_new_object(&heap, 0, 0, KIND, 1), GCFLIP_MADE);
    REPLIES(gcflip_heap_new_object(&heap, 0, 1, KIND, 4), GCFLIP_MADE);
    REPLIES(gcflip_heap_set_nil(&heap, 0, 1), GCFLIP_DONE);
    EXPECT(gcflip_heap_work(&heap, 1, &work) == GCFLIP_DONE);
    EXPECT(work.steps == 1 && work.copied == 0 && work.last == GCFLIP_BEGUN);
    EXPECT(gcflip_heap_work(&heap, 2, &work) == GCFLIP_DONE);
    EXPECT(work.steps == 2 && work.copied == 3 && work.last == GCFLIP_SCANNED);
    EXPECT(gcflip_heap_work(&heap, 1000, &work) == GCFLIP_DONE);
    EXPECT(work.steps == 2 && work.copied == 0 && work.last == GCFLIP_FLIPPED && work.pairs == 1);
    /* the whole collection in one call */
    EXPECT(gcflip_heap_work(&heap, UINT32_MAX, &work) == GCFLIP_DONE);
    EXPECT(work.steps == 5 && work.copied == 3 && work.last == GCFLIP_FLIPPED && work.pairs == 1);
    /* no room for the object */
    REPLIES(gcflip_heap_step_begin_sized(&heap, 3), GCFLIP_BEGUN);
    EXPECT(gcflip_heap_work(&heap, 1000, &work) == GCFLIP_DONE);
    EXPECT(work.steps == 1 && work.copied == 0 && work.last == GCFLIP_NO_ROOM);
    close_heap();
}

/* Tests work whose begin takes another size, on a heap with one object of three words. An open collection keeps its size. */
static void sized_work(void)
{
    open_heap(32, 1);
    REPLIES(gcflip_heap_new_object(&heap, 0, 0, KIND, 1), GCFLIP_MADE);
    work.steps = 77;
    EXPECT(gcflip_heap_work_sized(&heap, 0, 8, &work) == GCFLIP_OUT_OF_RANGE);
    EXPECT(gcflip_heap_work_sized(&heap, 5, 0, &work) == GCFLIP_OUT_OF_RANGE && work.steps == 77);
    REPLIES(gcflip_heap_step_give_up(&heap), GCFLIP_IDLE);
    EXPECT(gcflip_heap_work_sized(&heap, 1, 4, &work) == GCFLIP_DONE && work.steps == 1 && work.last == GCFLIP_BEGUN);
    EXPECT(gcflip_heap_counts(&heap, &counts) == GCFLIP_DONE && counts.is_open == 1 && counts.new_size == 4);
    EXPECT(gcflip_heap_work_sized(&heap, 1000, 40, &work) == GCFLIP_DONE);
    EXPECT(work.steps == 4 && work.copied == 3 && work.last == GCFLIP_FLIPPED && work.pairs == 1);
    EXPECT(gcflip_heap_counts(&heap, &counts) == GCFLIP_DONE && counts.size == 4 && counts.free == 0);
    /* a whole collection in one call; after the flip no second one begins */
    EXPECT(gcflip_heap_work_sized(&heap, UINT32_MAX, 40, &work) == GCFLIP_DONE);
    EXPECT(work.steps == 5 && work.copied == 3 && work.last == GCFLIP_FLIPPED && work.pairs == 1);
    EXPECT(gcflip_heap_counts(&heap, &counts) == GCFLIP_DONE && counts.size == 40 && counts.is_open == 0);
    EXPECT(gcflip_heap_work_sized(&heap, 1000, 3, &work) == GCFLIP_DONE);
    EXPECT(work.steps == 2 && work.copied == 0 && work.last == GCFLIP_NO_ROOM);
    close_heap();
}

/* Tests work that ends after so many words. Of the three words of an object, the call takes all. */
static void work_within_words(void)
{
    open_heap(32, 1);
    REPLIES(gcflip_heap_new_object(&heap, 0, 0, KIND, 1), GCFLIP_MADE);
    work.steps = 77;
    EXPECT(gcflip_heap_work_within(&heap, 0, 8, &work) == GCFLIP_OUT_OF_RANGE && work.steps == 77);
    REPLIES(gcflip_heap_step_give_up(&heap), GCFLIP_IDLE);
    EXPECT(gcflip_heap_work_within(&heap, 1000, 0, &work) == GCFLIP_DONE);
    EXPECT(work.steps == 1 && work.copied == 0 && work.last == GCFLIP_BEGUN);
    EXPECT(gcflip_heap_work_within(&heap, 1000, 1, &work) == GCFLIP_DONE);
    EXPECT(work.steps == 1 && work.copied == 3 && work.last == GCFLIP_COPIED);
    EXPECT(gcflip_heap_work_within(&heap, 2, 1, &work) == GCFLIP_DONE);
    EXPECT(work.steps == 2 && work.copied == 0 && work.last == GCFLIP_PASSED);
    EXPECT(gcflip_heap_work_within(&heap, 1000, UINT32_MAX, &work) == GCFLIP_DONE);
    EXPECT(work.steps == 1 && work.copied == 0 && work.last == GCFLIP_FLIPPED && work.pairs == 1);
    /* a whole collection, which takes fewer words */
    EXPECT(gcflip_heap_work_within(&heap, 1000, 4, &work) == GCFLIP_DONE);
    EXPECT(work.steps == 5 && work.copied == 3 && work.last == GCFLIP_FLIPPED && work.pairs == 1);
    REPLIES(gcflip_heap_step_begin_sized(&heap, 3), GCFLIP_BEGUN);
    EXPECT(gcflip_heap_work_within(&heap, 1000, 4, &work) == GCFLIP_DONE);
    EXPECT(work.steps == 1 && work.copied == 0 && work.last == GCFLIP_NO_ROOM);
    close_heap();
}

/* Tests that each call takes its words, but no object more, on 16 raw objects of 2 to 602 words. Only the flip ends a call before. */
static void words_of_a_call(void)
{
    static const uint32_t bounds[] = {0, 1, 2, 100, 602, 1000, UINT32_MAX};
    uint32_t live = 0, largest = 602;
    open_heap(8192, 1);
    for (uint8_t s = 0; s < 16; s++) {
        REPLIES(gcflip_heap_new_raw(&heap, 0, s, KIND, (uint16_t)(s * 40)), GCFLIP_MADE);
        live += 2 + s * 40;
    }
    for (size_t k = 0; k < sizeof bounds / sizeof *bounds; k++) {
        uint32_t words = bounds[k], copied = 0;
        do {
            EXPECT(gcflip_heap_work_within(&heap, UINT32_MAX, words, &work) == GCFLIP_DONE);
            EXPECT(work.copied >= words || work.last == GCFLIP_FLIPPED);
            EXPECT(words > 0 ? work.copied < (uint64_t)words + largest : work.steps == 1 && work.copied <= largest);
            copied += work.copied;
        } while (work.last != GCFLIP_FLIPPED);
        EXPECT(copied == live && work.pairs == 16);
    }
    close_heap();
}

static bool is_entry(size_t k, uint32_t object, uint32_t field)
{
    gcflip_log_entry entry = {77, 77};
    return gcflip_heap_log_entry(&heap, 0, k, &entry) == GCFLIP_DONE && entry.object == object && entry.field == field;
}

/* Tests a log of several segments of 1,024 entries: entries are read, applied from the oldest on, and added meanwhile. */
static void long_log(void)
{
    enum { FIELDS = 5000 };
    size_t length = 0;
    uint16_t put = 0, applied = 0;
    uint64_t number = 0;
    open_heap(8192, 1);
    REPLIES(gcflip_heap_new_raw(&heap, 0, 0, KIND, FIELDS), GCFLIP_MADE);
    EXPECT(gcflip_heap_work(&heap, 3, &work) == GCFLIP_DONE && work.last == GCFLIP_PASSED);
    while (applied < FIELDS) {
        /* 2,500 entries first, and then three for each two that are applied */
        for (int more = put == 0 ? 2500 : 3; more > 0 && put < FIELDS; more--, put++)
            REPLIES(gcflip_heap_put_number(&heap, 0, 0, put, 1, put), GCFLIP_DONE);
        EXPECT(gcflip_heap_log_length(&heap, 0, &length) == GCFLIP_DONE && length == (size_t)(put - applied));
        for (size_t k = 0; k < length; k += 341)
            EXPECT(is_entry(k, 1, applied + (uint32_t)k));
        EXPECT(is_entry(length - 1, 1, put - 1u));
        EXPECT(gcflip_heap_log_entry(&heap, 0, length, &entry) == GCFLIP_OUT_OF_RANGE);
        for (int less = 2; less > 0 && applied < FIELDS; less--, applied++)
            REPLIES(gcflip_heap_step_apply(&heap, 0), GCFLIP_APPLIED);
    }
    REPLIES(gcflip_heap_step_apply(&heap, 0), GCFLIP_CLEAN);
    REPLIES(gcflip_heap_put_number(&heap, 0, 0, 7, 1, 77), GCFLIP_DONE);
    EXPECT(is_entry(0, 1, 7));
    EXPECT(gcflip_heap_work(&heap, 100, &work) == GCFLIP_DONE && work.last == GCFLIP_FLIPPED && work.pairs == 1);
    EXPECT(gcflip_heap_get(&heap, 0, 1, 0, 7, &number) == GCFLIP_NUMBER && number == 77);
    EXPECT(gcflip_heap_get(&heap, 0, 1, 0, FIELDS - 1, &number) == GCFLIP_NUMBER && number == FIELDS - 1);
    close_heap();
}

static bool are_counts(uint32_t size, uint32_t end, uint32_t is_open, uint32_t new_size, uint32_t new_end, uint32_t place, uint32_t field)
{
    EXPECT(gcflip_heap_counts(&heap, &counts) == GCFLIP_DONE);
    return counts.size == size && counts.end == end && counts.free == size - end && counts.mutators == 2 && counts.is_open == is_open &&
           counts.extra_roots == 0 && counts.new_size == new_size && counts.new_end == new_end && counts.scan_place == place &&
           counts.scan_field == field;
}

/* Garbage of two words at 1, and an object with one field at 3, whose replica is at 1. */
static void readings(void)
{
    static const uint64_t old_words[] = {0, 16777216, 0, 17235969, 1, 9}, replica[] = {0, 17235969, 3, 9};
    open_heap(32, 2);
    EXPECT(are_counts(32, 1, 0, 0, 0, 0, 0));
    REPLIES(gcflip_heap_new_object(&heap, 0, G0, 0, 0), GCFLIP_MADE);
    REPLIES(gcflip_heap_new_object(&heap, 0, G0, KIND, 1), GCFLIP_MADE);
    REPLIES(gcflip_heap_set_number(&heap, 1, 2, 4), GCFLIP_DONE);
    REPLIES(gcflip_heap_put(&heap, 1, G0, 0, 2), GCFLIP_DONE);
    EXPECT(gcflip_heap_log_length(&heap, 1, &length) == GCFLIP_DONE && length == 0);
    EXPECT(gcflip_heap_log_entry(&heap, 1, 0, &entry) == GCFLIP_OUT_OF_RANGE);
    EXPECT(gcflip_heap_new_words(&heap, words, 1) == GCFLIP_OUT_OF_RANGE);
    REPLIES(gcflip_heap_step_begin_sized(&heap, 40), GCFLIP_BEGUN);
    EXPECT(are_counts(32, 6, 1, 40, 1, 1, 0) && counts.logged == 0);
    REPLIES(gcflip_heap_step_roots(&heap), GCFLIP_COPIED);
    REPLIES(gcflip_heap_step_scan(&heap), GCFLIP_SCANNED);
    EXPECT(are_counts(32, 6, 1, 40, 4, 1, 1));
    REPLIES(gcflip_heap_put(&heap, 1, G0, 0, 2), GCFLIP_DONE);
    EXPECT(gcflip_heap_log_length(&heap, 0, &length) == GCFLIP_DONE && length == 0);
    EXPECT(gcflip_heap_log_length(&heap, 1, &length) == GCFLIP_DONE && length == 1);
    EXPECT(gcflip_heap_log_entry(&heap, 1, 0, &entry) == GCFLIP_DONE && entry.object == 3 && entry.field == 0);
    EXPECT(gcflip_heap_log_entry(&heap, 1, 1, &entry) == GCFLIP_OUT_OF_RANGE);
    EXPECT(gcflip_heap_log_entry(&heap, 0, 0, &entry) == GCFLIP_OUT_OF_RANGE);
    EXPECT(gcflip_heap_counts(&heap, &counts) == GCFLIP_DONE && counts.logged == 1);
    REPLIES(gcflip_heap_put(&heap, 0, G0, 0, 2), GCFLIP_DONE);
    REPLIES(gcflip_heap_put(&heap, 1, G0, 0, 2), GCFLIP_DONE);
    EXPECT(gcflip_heap_counts(&heap, &counts) == GCFLIP_DONE && counts.logged == 3); /* one of mutator 0, and two of mutator 1 */
    EXPECT(gcflip_heap_root_count(2) == 48);
    EXPECT(gcflip_heap_image(&heap, words, 6, roots, 48) == GCFLIP_DONE);
    EXPECT(memcmp(words, old_words, sizeof old_words) == 0);
    EXPECT(roots[0] == 6 && roots[1] == 0 && roots[16 + 16 + 2] == 9);
    EXPECT(gcflip_heap_new_words(&heap, words, 4) == GCFLIP_DONE);
    EXPECT(memcmp(words, replica, sizeof replica) == 0);
    memset(words, 255, sizeof words);
    EXPECT(gcflip_heap_image(&heap, words, 5, roots, 48) == GCFLIP_OUT_OF_RANGE);
    EXPECT(gcflip_heap_image(&heap, words, 6, roots, 47) == GCFLIP_OUT_OF_RANGE);
    EXPECT(gcflip_heap_new_words(&heap, words, 5) == GCFLIP_OUT_OF_RANGE);
    EXPECT(words[0] == UINT64_MAX);
    close_heap();
}

/* Uses both halves of the library: the checker accepts the copied images of a ready collection. */
static void copied_images_are_certified(void)
{
    static uint64_t new_words[64], new_roots[32];
    const gcflip_pair pair = {3, 1};
    gcflip_verdict verdict;
    open_heap(16, 1);
    REPLIES(gcflip_heap_new_object(&heap, 0, 0, 0, 0), GCFLIP_MADE);
    REPLIES(gcflip_heap_new_raw(&heap, 0, 0, KIND, 1), GCFLIP_MADE);
    EXPECT(gcflip_heap_work(&heap, 3, &work) == GCFLIP_DONE && work.last == GCFLIP_PASSED);
    EXPECT(gcflip_heap_image(&heap, words, 6, roots, 32) == GCFLIP_DONE);
    EXPECT(gcflip_heap_new_words(&heap, new_words, 4) == GCFLIP_DONE);
    memcpy(new_roots, roots, sizeof new_roots);
    EXPECT(roots[16] == 6);
    new_roots[16] = 2;
    EXPECT(gcflip_check(16, 6, true, words, 6, roots, 32, 16, 4, true, new_words, 4, new_roots, 32, &pair, 1, &verdict) == GCFLIP_YES);
    close_heap();
}

static void out_of_range(void)
{
    const gcflip_view before = {77, 77, 77};
    EXPECT(open_plain_heap(&heap, 0, 1) == GCFLIP_OUT_OF_RANGE);
    EXPECT(open_plain_heap(&heap, 8, 0) == GCFLIP_OUT_OF_RANGE);
    EXPECT(open_plain_heap(&heap, 8, 17) == GCFLIP_OUT_OF_RANGE && heap.at == NULL);
    open_heap(1048576, 16);
    close_heap();
    open_heap(1, 1);
    close_heap();
    open_heap(8, 2);
    EXPECT(open_plain_heap(&heap, 8, 2) == GCFLIP_OPEN);
    view = before;
    number = pairs = 77;
    EXPECT(gcflip_heap_new_object(&heap, 2, 0, 0, 0) == GCFLIP_OUT_OF_RANGE);
    EXPECT(gcflip_heap_new_object(&heap, 0, 32, 0, 0) == GCFLIP_OUT_OF_RANGE);
    EXPECT(gcflip_heap_new_raw(&heap, 255, 0, 0, 0) == GCFLIP_OUT_OF_RANGE);
    EXPECT(gcflip_heap_new_raw(&heap, 0, 255, 0, 0) == GCFLIP_OUT_OF_RANGE);
    EXPECT(gcflip_heap_set_number(&heap, 0, 32, 0) == GCFLIP_OUT_OF_RANGE);
    EXPECT(gcflip_heap_set_number(&heap, 0, 0, 9223372036854775808u) == GCFLIP_OUT_OF_RANGE);
    EXPECT(gcflip_heap_set_nil(&heap, 0, 32) == GCFLIP_OUT_OF_RANGE);
    EXPECT(gcflip_heap_move(&heap, 0, 32, 0) == GCFLIP_OUT_OF_RANGE);
    EXPECT(gcflip_heap_move(&heap, 0, 0, 32) == GCFLIP_OUT_OF_RANGE);
    EXPECT(gcflip_heap_get(&heap, 0, 32, 0, 0, &number) == GCFLIP_OUT_OF_RANGE);
    EXPECT(gcflip_heap_get(&heap, 0, 0, 32, 0, &number) == GCFLIP_OUT_OF_RANGE);
    EXPECT(gcflip_heap_put(&heap, 0, 32, 0, 0) == GCFLIP_OUT_OF_RANGE);
    EXPECT(gcflip_heap_put(&heap, 0, 0, 0, 32) == GCFLIP_OUT_OF_RANGE);
    EXPECT(gcflip_heap_new_pair(&heap, 0, 32, 0, 0, 0) == GCFLIP_OUT_OF_RANGE);
    EXPECT(gcflip_heap_new_pair(&heap, 0, 0, 0, 32, 0) == GCFLIP_OUT_OF_RANGE);
    EXPECT(gcflip_heap_new_pair(&heap, 0, 0, 0, 0, 32) == GCFLIP_OUT_OF_RANGE);
    EXPECT(gcflip_heap_new_pair(&heap, 2, 0, 0, 0, 0) == GCFLIP_OUT_OF_RANGE);
    EXPECT(gcflip_heap_new_from(&heap, 0, 32, 0, slots, 1) == GCFLIP_OUT_OF_RANGE);
    EXPECT(gcflip_heap_new_from(&heap, 2, 0, 0, slots, 1) == GCFLIP_OUT_OF_RANGE);
    EXPECT(gcflip_heap_new_from(&heap, 0, 0, 0, slots, 65536) == GCFLIP_OUT_OF_RANGE);
    slots[65534] = 32;
    EXPECT(gcflip_heap_new_from(&heap, 0, 0, 0, slots, 65535) == GCFLIP_OUT_OF_RANGE);
    REPLIES(gcflip_heap_new_from(&heap, 0, 0, 0, slots, 65534), GCFLIP_FULL);
    EXPECT(gcflip_heap_put_number(&heap, 0, 32, 0, 0, 0) == GCFLIP_OUT_OF_RANGE);
    EXPECT(gcflip_heap_put_number(&heap, 0, 0, 0, 32, 0) == GCFLIP_OUT_OF_RANGE);
    EXPECT(gcflip_heap_put_number(&heap, 0, 0, 0, 0, 9223372036854775808u) == GCFLIP_OUT_OF_RANGE);
    EXPECT(gcflip_heap_put_nil(&heap, 0, 32, 0, 0) == GCFLIP_OUT_OF_RANGE);
    EXPECT(gcflip_heap_put_nil(&heap, 0, 0, 0, 32) == GCFLIP_OUT_OF_RANGE);
    EXPECT(gcflip_heap_put_nil(&heap, 2, 0, 0, 0) == GCFLIP_OUT_OF_RANGE);
    EXPECT(gcflip_heap_same(&heap, 0, 32, 0) == GCFLIP_OUT_OF_RANGE);
    EXPECT(gcflip_heap_same(&heap, 0, 0, 32) == GCFLIP_OUT_OF_RANGE);
    EXPECT(gcflip_heap_look(&heap, 0, 32, &view) == GCFLIP_OUT_OF_RANGE);
    EXPECT(gcflip_heap_look(&heap, 2, 0, &view) == GCFLIP_OUT_OF_RANGE);
    EXPECT(gcflip_heap_step_begin_sized(&heap, 0) == GCFLIP_OUT_OF_RANGE);
    EXPECT(gcflip_heap_step_apply(&heap, 2) == GCFLIP_OUT_OF_RANGE);
    EXPECT(gcflip_heap_work(&heap, 0, &work) == GCFLIP_OUT_OF_RANGE);
    EXPECT(gcflip_heap_log_length(&heap, 2, &length) == GCFLIP_OUT_OF_RANGE);
    EXPECT(gcflip_heap_log_entry(&heap, 2, 0, &entry) == GCFLIP_OUT_OF_RANGE);
    EXPECT(memcmp(&view, &before, sizeof view) == 0 && number == 77 && pairs == 77);
    LOOKS(gcflip_heap_look(&heap, 1, 0, &view), GCFLIP_NIL, 0, 0, 0);
    close_heap();
}

/* Opens a heap of the most words, or is told that memory is out. Where the address sanitizer replaces malloc, it ends the program
 * instead, so this is not tested with it. */
static void the_most_words(void)
{
#ifndef __SANITIZE_ADDRESS__
    uint32_t answer = open_plain_heap(&heap, UINT32_MAX, 1);
    if (answer == GCFLIP_NO_MEMORY) {
        EXPECT(heap.at == NULL);
        open_heap(8, 1);
        answer = gcflip_heap_step_begin_sized(&heap, UINT32_MAX);
        EXPECT(answer == GCFLIP_BEGUN || answer == GCFLIP_NO_MEMORY);
    } else {
        EXPECT(answer == GCFLIP_DONE && gcflip_heap_counts(&heap, &counts) == GCFLIP_DONE);
        EXPECT(counts.size == UINT32_MAX && counts.free == UINT32_MAX - 1 && counts.end == 1);
        REPLIES(gcflip_heap_new_object(&heap, 0, 0, KIND, 1), GCFLIP_MADE);
        GETS(gcflip_heap_get(&heap, 0, 1, 0, 0, &number), GCFLIP_NIL, 77);
    }
    close_heap();
#endif
}

/* Makes a list in slot 0: 24 raw objects of 65535 fields, whose last fields are 1 to 24, and before them the numbers 1 to 3. */
static void fill(void)
{
    uint32_t i;
    REPLIES(gcflip_heap_set_nil(&heap, 0, 0), GCFLIP_DONE);
    for (i = 1; i <= 24; i++) {
        REPLIES(gcflip_heap_new_raw(&heap, 0, 1, KIND, 65535), GCFLIP_MADE);
        REPLIES(gcflip_heap_put_number(&heap, 0, 1, 65534, 2, i), GCFLIP_DONE);
        REPLIES(gcflip_heap_new_pair(&heap, 0, 5, KIND, 1, 0), GCFLIP_MADE);
        REPLIES(gcflip_heap_move(&heap, 0, 0, 5), GCFLIP_DONE);
    }
    for (i = 1; i <= 3; i++) {
        REPLIES(gcflip_heap_set_number(&heap, 0, 2, i), GCFLIP_DONE);
        REPLIES(gcflip_heap_new_pair(&heap, 0, 5, KIND, 2, 0), GCFLIP_MADE);
        REPLIES(gcflip_heap_move(&heap, 0, 0, 5), GCFLIP_DONE);
    }
    REPLIES(gcflip_heap_set_nil(&heap, 0, 1), GCFLIP_DONE);
}

/* Reads that list, from its head to its end. */
static void expect_list(void)
{
    uint32_t i;
    REPLIES(gcflip_heap_move(&heap, 0, 4, 0), GCFLIP_DONE);
    for (i = 3; i >= 1; i--) {
        GETS(gcflip_heap_get(&heap, 0, 3, 4, 0, &number), GCFLIP_NUMBER, i);
        GETS(gcflip_heap_get(&heap, 0, 4, 4, 1, &number), GCFLIP_OBJECT, 77);
    }
    for (i = 24; i >= 1; i--) {
        GETS(gcflip_heap_get(&heap, 0, 3, 4, 0, &number), GCFLIP_OBJECT, 77);
        GETS(gcflip_heap_get(&heap, 0, 3, 3, 65534, &number), GCFLIP_NUMBER, i);
        GETS(gcflip_heap_get(&heap, 0, 4, 4, 1, &number), i > 1 ? GCFLIP_OBJECT : GCFLIP_NIL, 77);
    }
}

/* Flips twice between spaces in which references go beyond the 1048576 words of a text. */
static void behind_the_words_of_a_text(void)
{
    static const uint32_t sizes[] = {2097152, 1600000};
    uint32_t i, end = 1 + 24 * (65537 + 4) + 3 * 4;
    open_heap(1048577, 1);
    REPLIES(gcflip_heap_step_begin_sized(&heap, 2097152), GCFLIP_BEGUN);
    EXPECT(gcflip_heap_work(&heap, UINT32_MAX, &work) == GCFLIP_DONE && work.last == GCFLIP_FLIPPED && work.pairs == 0);
    fill();
    EXPECT(gcflip_heap_counts(&heap, &counts) == GCFLIP_DONE && counts.size == 2097152 && counts.end == end);
    for (i = 0; i < 2; i++) {
        expect_list();
        REPLIES(gcflip_heap_step_begin_sized(&heap, sizes[i]), GCFLIP_BEGUN);
        EXPECT(gcflip_heap_work(&heap, UINT32_MAX, &work) == GCFLIP_DONE && work.last == GCFLIP_FLIPPED && work.pairs == 51);
        EXPECT(gcflip_heap_counts(&heap, &counts) == GCFLIP_DONE && counts.size == sizes[i] && counts.end == end);
    }
    expect_list();
    close_heap();
}

/* Makes each call on a handle without a heap. */
static void closed(void)
{
    const gcflip_view before = {77, 77, 77};
    gcflip_step step = {77, 77};
    view = before;
    number = pairs = 77;
    EXPECT(gcflip_heap_close(&heap) == GCFLIP_CLOSED);
    EXPECT(gcflip_heap_new_object(&heap, 0, 0, 0, 0) == GCFLIP_CLOSED);
    EXPECT(gcflip_heap_new_object(&heap, 0, 32, 0, 0) == GCFLIP_CLOSED);
    EXPECT(gcflip_heap_new_raw(&heap, 0, 0, 0, 0) == GCFLIP_CLOSED);
    EXPECT(gcflip_heap_set_number(&heap, 0, 0, 0) == GCFLIP_CLOSED);
    EXPECT(gcflip_heap_set_nil(&heap, 0, 0) == GCFLIP_CLOSED);
    EXPECT(gcflip_heap_move(&heap, 0, 0, 0) == GCFLIP_CLOSED);
    EXPECT(gcflip_heap_get(&heap, 0, 0, 0, 0, &number) == GCFLIP_CLOSED);
    EXPECT(gcflip_heap_put(&heap, 0, 0, 0, 0) == GCFLIP_CLOSED);
    EXPECT(gcflip_heap_new_pair(&heap, 0, 0, 0, 0, 0) == GCFLIP_CLOSED);
    EXPECT(gcflip_heap_new_from(&heap, 0, 0, 0, slots, 1) == GCFLIP_CLOSED);
    EXPECT(gcflip_heap_put_number(&heap, 0, 0, 0, 0, 0) == GCFLIP_CLOSED);
    EXPECT(gcflip_heap_put_nil(&heap, 0, 0, 0, 0) == GCFLIP_CLOSED);
    EXPECT(gcflip_heap_same(&heap, 0, 0, 0) == GCFLIP_CLOSED);
    EXPECT(gcflip_heap_look(&heap, 0, 0, &view) == GCFLIP_CLOSED);
    EXPECT(gcflip_heap_step_begin(&heap) == GCFLIP_CLOSED);
    EXPECT(gcflip_heap_step_begin_sized(&heap, 8) == GCFLIP_CLOSED);
    EXPECT(gcflip_heap_step_roots(&heap) == GCFLIP_CLOSED);
    EXPECT(gcflip_heap_step_scan(&heap) == GCFLIP_CLOSED);
    EXPECT(gcflip_heap_step_apply(&heap, 0) == GCFLIP_CLOSED);
    EXPECT(gcflip_heap_step_flip(&heap, &pairs) == GCFLIP_CLOSED);
    EXPECT(gcflip_heap_step_give_up(&heap) == GCFLIP_CLOSED);
    EXPECT(gcflip_heap_work(&heap, 1, &work) == GCFLIP_CLOSED);
    EXPECT(gcflip_heap_work_sized(&heap, 1, 8, &work) == GCFLIP_CLOSED);
    EXPECT(gcflip_heap_work_sized(&heap, 0, 0, &work) == GCFLIP_CLOSED);
    EXPECT(gcflip_heap_work_within(&heap, 1, 8, &work) == GCFLIP_CLOSED);
    EXPECT(gcflip_heap_work_within(&heap, 0, 8, &work) == GCFLIP_CLOSED);
    EXPECT(gcflip_heap_useful(&heap, &step) == GCFLIP_CLOSED && step.name == 77 && step.mutator == 77);
    EXPECT(gcflip_heap_counts(&heap, &counts) == GCFLIP_CLOSED);
    EXPECT(gcflip_heap_log_length(&heap, 0, &length) == GCFLIP_CLOSED);
    EXPECT(gcflip_heap_log_entry(&heap, 0, 0, &entry) == GCFLIP_CLOSED);
    EXPECT(gcflip_heap_image(&heap, words, 1, roots, 32) == GCFLIP_CLOSED);
    EXPECT(gcflip_heap_new_words(&heap, words, 1) == GCFLIP_CLOSED);
    EXPECT(memcmp(&view, &before, sizeof view) == 0 && number == 77 && pairs == 77);
}

/* Checks that two heaps are independent, and that a handle may be moved. */
static void two_heaps(void)
{
    gcflip_heap other = GCFLIP_NO_HEAP, moved;
    open_heap(8, 1);
    EXPECT(open_plain_heap(&other, 8, 1) == GCFLIP_DONE);
    REPLIES(gcflip_heap_set_number(&heap, 0, 0, 1), GCFLIP_DONE);
    REPLIES(gcflip_heap_set_number(&other, 0, 0, 2), GCFLIP_DONE);
    memcpy(&moved, &other, sizeof moved);
    LOOKS(gcflip_heap_look(&heap, 0, 0, &view), GCFLIP_NUMBER, 0, 0, 1);
    LOOKS(gcflip_heap_look(&moved, 0, 0, &view), GCFLIP_NUMBER, 0, 0, 2);
    EXPECT(gcflip_heap_close(&moved) == GCFLIP_DONE);
    close_heap();
}

int main(void)
{
    closed();
    commands();
    raws();
    moves();
    references();
    copies();
    mixed();
    steps();
    useful_steps();
    useful_step_names();
    sized_work();
    work_within_words();
    words_of_a_call();
    long_log();
    readings();
    copied_images_are_certified();
    out_of_range();
    the_most_words();
    behind_the_words_of_a_text();
    closed();
    two_heaps();
    return 0;
}
