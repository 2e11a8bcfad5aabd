/* Records a run until a size that no trace has: record_ends RECORD. The heap goes on without its trace. Then records heaps with extra
 * roots: a recording ends at the first call that names a root beyond the slots of 16 mutators, that needs spare slots where none were given, or that makes a
 * reference of an address. Where nothing is recorded, because a recording has ended or because there is no stream, each call replies as ever and writes
 * nothing. */
#include "expect.h"
#include "gcflip_record.h"
#include "open_heap.h"

FILE *gcflip_trace;

static gcflip_heap heap = GCFLIP_NO_HEAP;

/* Opens a collection of a size that no trace has, and flips. */
static void begin(const char *name)
{
    gcflip_work work = {0, 0, 0, 0, 0};
    gcflip_trace = fopen(name, "w");
    EXPECT(open_plain_heap(&heap, 64, 1) == GCFLIP_DONE);
    EXPECT(gcflip_heap_new_object(&heap, 0, 0, 1, 2) == GCFLIP_MADE);
    EXPECT(gcflip_heap_step_begin_sized(&heap, 1048576) == GCFLIP_BEGUN);
    EXPECT(gcflip_heap_step_give_up(&heap) == GCFLIP_DROPPED);
    EXPECT(gcflip_trace_ended == 0);
    EXPECT(gcflip_heap_step_begin_sized(&heap, 1048577) == GCFLIP_BEGUN);
    EXPECT(gcflip_trace_ended == 1);
    EXPECT(gcflip_heap_work(&heap, 100, &work) == GCFLIP_DONE && work.last == GCFLIP_FLIPPED && work.pairs == 1);
    EXPECT(gcflip_heap_step_begin_sized(&heap, 8) == GCFLIP_BEGUN);
    EXPECT(gcflip_heap_close(&heap) == GCFLIP_DONE);
    EXPECT(fclose(gcflip_trace) == 0);
}

/* Opens a heap of a size that no trace has, and then one of a size that traces have. */
static void open_heaps(void)
{
    gcflip_trace = tmpfile();
    EXPECT(gcflip_trace != NULL);
    EXPECT(open_plain_heap(&heap, 1048577, 1) == GCFLIP_DONE && gcflip_trace_ended == 1);
    EXPECT(gcflip_heap_new_object(&heap, 0, 0, 1, 2) == GCFLIP_MADE);
    EXPECT(open_plain_heap(&heap, 8, 1) == GCFLIP_OPEN && gcflip_trace_ended == 1);
    EXPECT(gcflip_heap_close(&heap) == GCFLIP_DONE);
    EXPECT(ftell(gcflip_trace) == 0);
    EXPECT(open_plain_heap(&heap, 1048576, 1) == GCFLIP_DONE && gcflip_trace_ended == 0);
    EXPECT(ftell(gcflip_trace) > 0);
    EXPECT(gcflip_heap_close(&heap) == GCFLIP_DONE);
    EXPECT(fclose(gcflip_trace) == 0);
    gcflip_trace = NULL;
}

enum { EXTRA = 300, SHOWN = 240, FAR = 32 + SHOWN, TEXT = 19, RAW = 20, OBJECT = 18 };

/* Performs one of the calls that need spare slots, for what it puts or for roots of two mutators. */
static void call_with_spares(int call)
{
    static const gcflip_field sources[] = {{GCFLIP_FIELD_ROOT, 16}, {GCFLIP_FIELD_NUMBER, 7}};
    static const uint32_t places[] = {16, 32};
    uint64_t number = UINT64_MAX;
    if (call == 0)
        EXPECT(gcflip_put_number(&heap, 0, RAW, 0, 5) == GCFLIP_DONE);
    if (call == 1)
        EXPECT(gcflip_new_with(&heap, 0, 0, 1, sources, 2) == GCFLIP_MADE);
    if (call == 2)
        EXPECT(gcflip_put_nil(&heap, 0, OBJECT, 0) == GCFLIP_DONE);
    if (call == 3)
        EXPECT(gcflip_copy_fields(&heap, 0, RAW, 0, RAW, 1, 1) == GCFLIP_DONE);
    if (call == 4)
        EXPECT(gcflip_new_bytes(&heap, 0, 0, 1, (const uint8_t *)"text", 4) == GCFLIP_MADE);
    if (call == 5)
        EXPECT(gcflip_bytes_join(&heap, 0, 0, 1, TEXT, TEXT) == GCFLIP_MADE);
    if (call == 6)
        EXPECT(gcflip_bytes_part(&heap, 0, 0, 1, TEXT, 0, 0) == GCFLIP_MADE);
    if (call == 7)
        EXPECT(gcflip_bytes_write(&heap, 0, TEXT, 0, (const uint8_t *)"t", 1) == GCFLIP_DONE);
    if (call == 8)
        EXPECT(gcflip_copy(&heap, 32, 16) == GCFLIP_DONE);
    if (call == 9)
        EXPECT(gcflip_heap_root_load(&heap, 0, 1, 3) == GCFLIP_DONE);
    if (call == 10)
        EXPECT(gcflip_get(&heap, 32, OBJECT, 0, &number) == GCFLIP_NIL);
    if (call == 11)
        EXPECT(gcflip_put(&heap, 0, OBJECT, 0, 32) == GCFLIP_DONE);
    if (call == 12)
        EXPECT(gcflip_put_sure(&heap, 1, OBJECT, 0, 0) == GCFLIP_DONE);
    if (call == 13)
        EXPECT(gcflip_fill(&heap, 0, OBJECT, 0, 1, 32) == GCFLIP_DONE);
    if (call == 14)
        EXPECT(gcflip_same(&heap, 32, 16) == GCFLIP_NOT_SAME);
    if (call == 15)
        EXPECT(gcflip_new_pair(&heap, 1, OBJECT, 1, 0, 0) == GCFLIP_MADE);
    if (call == 16)
        EXPECT(gcflip_new_from(&heap, 0, 0, 1, places, 2) == GCFLIP_MADE);
    if (call == 17)
        EXPECT(gcflip_gather(&heap, 0, 0, 1, 31, 2) == GCFLIP_MADE);
    if (call == 18)
        EXPECT(gcflip_spread(&heap, 32, OBJECT, 1) == GCFLIP_DONE);
    if (call == 19)
        EXPECT(gcflip_words_write(&heap, 0, RAW, 0, &number, 1) == GCFLIP_DONE);
    number = 5;
    if (call == 20)
        EXPECT(gcflip_raw_write(&heap, 0, RAW, 0, &number, 1) == GCFLIP_DONE);
}

/* Performs one of the calls on roots that a trace has not. */
static void call_beyond(int call)
{
    gcflip_frame frame = {SHOWN, EXTRA, SHOWN, SHOWN};
    gcflip_view view;
    if (call == 0)
        EXPECT(gcflip_heap_root_load(&heap, 0, 1, SHOWN) == GCFLIP_DONE);
    if (call == 1)
        EXPECT(gcflip_heap_root_store(&heap, 0, SHOWN, 0) == GCFLIP_DONE);
    if (call == 2)
        EXPECT(gcflip_heap_root_clear(&heap, SHOWN, EXTRA) == GCFLIP_DONE);
    if (call == 3)
        EXPECT(gcflip_heap_frame_push(&heap, 0, 0, &frame) == GCFLIP_DONE && frame.top == SHOWN + 1);
    if (call == 4) {
        frame.top = SHOWN + 1;
        EXPECT(gcflip_heap_frame_pop(&heap, 0, 1, &frame) == GCFLIP_DONE && frame.top == SHOWN);
    }
    if (call == 5) {
        frame.high = SHOWN + 1;
        EXPECT(gcflip_heap_frame_trim(&heap, &frame, 2) == GCFLIP_DONE && frame.high == SHOWN);
    }
    if (call == 6)
        EXPECT(gcflip_new(&heap, FAR, 1, 1) == GCFLIP_MADE);
    if (call == 7)
        EXPECT(gcflip_new_raw(&heap, FAR, 1, 1) == GCFLIP_MADE);
    if (call == 8)
        EXPECT(gcflip_set_number(&heap, FAR, 5) == GCFLIP_DONE);
    if (call == 9)
        EXPECT(gcflip_set_nil(&heap, FAR) == GCFLIP_DONE);
    if (call == 10)
        EXPECT(gcflip_look(&heap, FAR, &view) == GCFLIP_NIL);
    if (call == 11)
        EXPECT(gcflip_gather(&heap, 0, 0, 1, FAR, 1) == GCFLIP_MADE);
}

enum { WITH_SPARES = 21, BEYOND = 12 };

/* Opens heaps with extra roots, and ends their recordings in each way. Lines that a call wrote before are the last ones. */
static void end_recordings(void)
{
    for (int call = 0; call <= WITH_SPARES + BEYOND; call++) {
        gcflip_options options = gcflip_options_default(512, 2);
        long lines;
        options.extra_roots = EXTRA;
        options.mutators = call < WITH_SPARES ? 2 : 1;
        gcflip_trace = tmpfile();
        EXPECT(gcflip_trace != NULL);
        gcflip_trace_spare = call < WITH_SPARES ? -1 : 14;
        EXPECT(gcflip_heap_open(&heap, &options) == GCFLIP_DONE && gcflip_trace_ended == 0);
        EXPECT(gcflip_heap_new_object(&heap, 0, OBJECT - 16, 1, 1) == GCFLIP_MADE);
        EXPECT(gcflip_heap_new_raw(&heap, 0, TEXT - 16, 1, 0) == GCFLIP_MADE);
        EXPECT(gcflip_heap_new_raw(&heap, 0, RAW - 16, 1, 2) == GCFLIP_MADE);
        if (call == 7) {
            EXPECT(gcflip_heap_new_raw(&heap, 0, TEXT - 16, 1, 1) == GCFLIP_MADE);
            EXPECT(gcflip_heap_put_number(&heap, 0, TEXT - 16, 0, 1, (uint64_t)1 << 56) == GCFLIP_DONE);
        }
        EXPECT(gcflip_heap_set_number(&heap, 0, 0, 7) == GCFLIP_DONE);
        EXPECT(gcflip_heap_refer(&heap, 0, 2, 2) == GCFLIP_NO_OBJECT && gcflip_heap_root_store(&heap, 0, EXTRA, 0) == GCFLIP_OUT_OF_RANGE);
        EXPECT(gcflip_copy(&heap, 16 + 16 * options.mutators + EXTRA, 0) == GCFLIP_OUT_OF_RANGE && gcflip_trace_ended == 0);
        lines = ftell(gcflip_trace);
        EXPECT(lines > 0);
        if (call == WITH_SPARES + BEYOND)
            EXPECT(gcflip_heap_refer(&heap, 0, 3, 1) == GCFLIP_DONE);
        else if (call < WITH_SPARES)
            call_with_spares(call);
        else
            call_beyond(call - WITH_SPARES);
        EXPECT(gcflip_trace_ended == 1);
        EXPECT(gcflip_heap_set_number(&heap, 0, 0, 8) == GCFLIP_DONE && ftell(gcflip_trace) == lines);
        EXPECT(gcflip_heap_close(&heap) == GCFLIP_DONE);
        EXPECT(fclose(gcflip_trace) == 0);
    }
    gcflip_trace = NULL;
}

/* Returns whether the stream has grown since this was asked the last time. */
static bool has_grown(void)
{
    static long length;
    long before = length;
    length = gcflip_trace == NULL ? 0 : ftell(gcflip_trace);
    return length > before;
}

/* A call with this reply. It writes lines if it is recorded. */
#define REPLIES(call, reply, is_recorded) EXPECT((call) == (reply) && has_grown() == (is_recorded))

/* Opens a heap with extra roots. */
static void open_with_roots(bool is_recorded)
{
    gcflip_options options = gcflip_options_default(256, 1);
    options.extra_roots = 4;
    has_grown();
    REPLIES(gcflip_heap_open(&heap, &options), GCFLIP_DONE, is_recorded);
}

static void make_commands(bool is_recorded)
{
    static const uint64_t numbers[] = {1, 2, 3};
    static const uint8_t slots[] = {0, 1, 2};
    static const gcflip_field fields[] = {{GCFLIP_FIELD_NIL, 0}, {GCFLIP_FIELD_NUMBER, 5}, {GCFLIP_FIELD_SLOT, 0}};
    uint64_t number = 0;
    gcflip_view view = {0, 0, 0};
    REPLIES(gcflip_heap_new_object(&heap, 0, 0, 1, 2), GCFLIP_MADE, is_recorded);
    REPLIES(gcflip_heap_new_raw(&heap, 0, 1, 1, 3), GCFLIP_MADE, is_recorded);
    REPLIES(gcflip_heap_set_number(&heap, 0, 2, 7), GCFLIP_DONE, is_recorded);
    REPLIES(gcflip_heap_set_nil(&heap, 0, 3), GCFLIP_DONE, is_recorded);
    REPLIES(gcflip_heap_move(&heap, 0, 3, 2), GCFLIP_DONE, is_recorded);
    REPLIES(gcflip_heap_put(&heap, 0, 0, 0, 2), GCFLIP_DONE, is_recorded);
    REPLIES(gcflip_heap_put_nil(&heap, 0, 0, 1, 2), GCFLIP_DONE, is_recorded);
    REPLIES(gcflip_heap_put_number(&heap, 0, 0, 1, 2, 8), GCFLIP_DONE, is_recorded);
    REPLIES(gcflip_heap_raw_write(&heap, 0, 1, 0, 2, numbers, COUNT(numbers)), GCFLIP_DONE, is_recorded);
    REPLIES(gcflip_heap_copy_fields(&heap, 0, 1, 1, 0, 0, 3, 2), GCFLIP_DONE, is_recorded);
    REPLIES(gcflip_heap_get(&heap, 0, 4, 0, 0, &number), GCFLIP_NUMBER, is_recorded);
    REPLIES(gcflip_heap_new_pair(&heap, 0, 5, 1, 0, 2), GCFLIP_MADE, is_recorded);
    REPLIES(gcflip_heap_new_from(&heap, 0, 6, 1, slots, COUNT(slots)), GCFLIP_MADE, is_recorded);
    REPLIES(gcflip_heap_new_with(&heap, 0, 6, 1, 7, fields, COUNT(fields)), GCFLIP_MADE, is_recorded);
    REPLIES(gcflip_heap_same(&heap, 0, 2, 3), GCFLIP_NOT_SAME, is_recorded);
    REPLIES(gcflip_heap_look(&heap, 0, 0, &view), GCFLIP_OBJECT, is_recorded);
    EXPECT(number == 7 && view.count == 2);
}

static void make_steps(bool is_recorded)
{
    gcflip_pace pace = gcflip_pace_default();
    gcflip_work work = {0, 0, 0, 0, 0};
    uint32_t pairs = 0;
    REPLIES(gcflip_heap_step_begin(&heap), GCFLIP_BEGUN, is_recorded);
    REPLIES(gcflip_heap_step_roots(&heap), GCFLIP_COPIED, is_recorded);
    REPLIES(gcflip_heap_step_scan(&heap), GCFLIP_SCANNED, is_recorded);
    REPLIES(gcflip_heap_step_apply(&heap, 0), GCFLIP_CLEAN, is_recorded);
    REPLIES(gcflip_heap_step_flip(&heap, &pairs), GCFLIP_NOT_READY, is_recorded);
    REPLIES(gcflip_heap_step_give_up(&heap), GCFLIP_DROPPED, is_recorded);
    REPLIES(gcflip_heap_step_begin_sized(&heap, 128), GCFLIP_BEGUN, is_recorded);
    REPLIES(gcflip_heap_work(&heap, 1, &work), GCFLIP_DONE, is_recorded);
    REPLIES(gcflip_heap_work_sized(&heap, 1, 128, &work), GCFLIP_DONE, is_recorded);
    REPLIES(gcflip_heap_work_within(&heap, 1, 128, &work), GCFLIP_DONE, is_recorded);
    REPLIES(gcflip_heap_work_paced(&heap, &pace, UINT32_MAX, &work), GCFLIP_DONE, is_recorded); /* no room, and fewer than 1,024 steps left: it flips */
    EXPECT(work.last == GCFLIP_FLIPPED && work.pairs == 4);
    REPLIES(gcflip_reserve(&heap, &pace, UINT32_MAX, &work), GCFLIP_FULL, is_recorded);
    EXPECT(work.last == GCFLIP_FLIPPED && work.pairs == 4);
    REPLIES(gcflip_collect(&heap, &work), GCFLIP_DONE, is_recorded);
    EXPECT(work.last == GCFLIP_FLIPPED && work.pairs == 4);
}

/* Makes the calls that name an extra root or a root by its place. */
static void make_calls_by_places(bool is_recorded)
{
    static const gcflip_field mixed[] = {{GCFLIP_FIELD_ROOT, 34}, {GCFLIP_FIELD_NUMBER, 5}};
    static const uint32_t places[] = {33, 34};
    gcflip_pace pace = gcflip_pace_default();
    uint64_t number = 0;
    gcflip_view view = {0, 0, 0};
    gcflip_frame frame = {0, 4, 0, 0};
    REPLIES(gcflip_heap_root_store(&heap, 0, 3, 0), GCFLIP_DONE, is_recorded);
    REPLIES(gcflip_heap_root_load(&heap, 0, 1, 3), GCFLIP_DONE, is_recorded);
    REPLIES(gcflip_heap_root_clear(&heap, 0, 4), GCFLIP_DONE, is_recorded);
    REPLIES(gcflip_heap_frame_push(&heap, 0, 0, &frame), GCFLIP_DONE, is_recorded);
    REPLIES(gcflip_heap_frame_pop(&heap, 0, 0, &frame), GCFLIP_DONE, is_recorded);
    frame.high = 2;
    REPLIES(gcflip_heap_frame_trim(&heap, &frame, 4), GCFLIP_DONE, is_recorded);
    REPLIES(gcflip_new(&heap, 35, 1, 1), GCFLIP_MADE, is_recorded);
    REPLIES(gcflip_set_number(&heap, 34, 5), GCFLIP_DONE, is_recorded);
    REPLIES(gcflip_put(&heap, 0, 35, 0, 34), GCFLIP_DONE, is_recorded);
    REPLIES(gcflip_get(&heap, 33, 35, 0, &number), GCFLIP_NUMBER, is_recorded);
    REPLIES(gcflip_get_seen(&heap, 33, 35, 0).answer, GCFLIP_NUMBER, is_recorded);
    REPLIES(gcflip_look_seen(&heap, 33).answer, GCFLIP_NUMBER, is_recorded);
    REPLIES(gcflip_put_nil(&heap, 0, 35, 0), GCFLIP_DONE, is_recorded);
    REPLIES(gcflip_put_number(&heap, 0, 35, 0, 6), GCFLIP_DONE, is_recorded);
    EXPECT(gcflip_peek(&heap, 35, 0, &view) == GCFLIP_NUMBER && view.number == 6);
    REPLIES(gcflip_same(&heap, 33, 34), GCFLIP_SAME, is_recorded);
    REPLIES(gcflip_copy(&heap, 35, 34), GCFLIP_DONE, is_recorded);
    REPLIES(gcflip_look(&heap, 35, &view), GCFLIP_NUMBER, is_recorded);
    REPLIES(gcflip_set_nil(&heap, 33), GCFLIP_DONE, is_recorded);
    REPLIES(gcflip_new_raw(&heap, 35, 1, 1), GCFLIP_MADE, is_recorded);
    REPLIES(gcflip_new_pair(&heap, 0, 35, 1, 33, 34), GCFLIP_MADE, is_recorded);
    REPLIES(gcflip_new_from(&heap, 0, 35, 1, places, COUNT(places)), GCFLIP_MADE, is_recorded);
    REPLIES(gcflip_new_with(&heap, 0, 35, 1, mixed, COUNT(mixed)), GCFLIP_MADE, is_recorded);
    REPLIES(gcflip_put_sure(&heap, 0, 35, 0, 34), GCFLIP_DONE, is_recorded);
    REPLIES(gcflip_copy_fields(&heap, 0, 35, 1, 35, 0, 1), GCFLIP_DONE, is_recorded);
    REPLIES(gcflip_fill(&heap, 0, 35, 0, 2, 33), GCFLIP_DONE, is_recorded);
    REPLIES(gcflip_new_bytes(&heap, 0, 34, 1, (const uint8_t *)"text", 4), GCFLIP_MADE, is_recorded);
    REPLIES(gcflip_bytes_join(&heap, 0, 34, 1, 34, 34), GCFLIP_MADE, is_recorded);
    REPLIES(gcflip_bytes_part(&heap, 0, 34, 1, 34, 1, 2), GCFLIP_MADE, is_recorded);
    REPLIES(gcflip_bytes_write(&heap, 0, 34, 1, (const uint8_t *)"x", 1), GCFLIP_DONE, is_recorded);
    REPLIES(gcflip_new_raw(&heap, 33, 1, 2), GCFLIP_MADE, is_recorded);
    REPLIES(gcflip_words_write(&heap, 0, 33, 0, &number, 1), GCFLIP_DONE, is_recorded);
    REPLIES(gcflip_raw_write(&heap, 0, 33, 1, &number, 1), GCFLIP_DONE, is_recorded);
    REPLIES(gcflip_gather(&heap, 0, 35, 1, 32, 3), GCFLIP_MADE, is_recorded);
    REPLIES(gcflip_spread(&heap, 32, 35, 3), GCFLIP_DONE, is_recorded);
    REPLIES(gcflip_safepoint(&heap, &pace), GCFLIP_DONE, false); /* nothing is due */
    EXPECT(number == 5 && view.number == 5);
    REPLIES(gcflip_heap_root_clear(&heap, 0, 4), GCFLIP_DONE, is_recorded);
    REPLIES(gcflip_clear(&heap, 32, 36), GCFLIP_DONE, is_recorded);
}

/* Makes references of addresses, which have no lines. */
static void refer(void)
{
    REPLIES(gcflip_heap_refer(&heap, 0, 1, 1), GCFLIP_DONE, false);
    REPLIES(gcflip_refer(&heap, 33, 1), GCFLIP_DONE, false);
    REPLIES(gcflip_set_nil(&heap, 33), GCFLIP_DONE, false);
}

static void make_calls(bool is_recorded)
{
    make_commands(is_recorded);
    make_steps(is_recorded);
    make_calls_by_places(is_recorded);
}

/* Makes each call that a recording knows: while it records, after it has ended, and without a stream. */
static void make_each_call(void)
{
    gcflip_trace = tmpfile();
    EXPECT(gcflip_trace != NULL);
    gcflip_trace_spare = 14;
    open_with_roots(true);
    make_calls(true);
    EXPECT(gcflip_trace_ended == 0);
    refer();
    EXPECT(gcflip_trace_ended == 1);
    make_calls(false);
    EXPECT(gcflip_heap_close(&heap) == GCFLIP_DONE);
    EXPECT(fclose(gcflip_trace) == 0);
    gcflip_trace = NULL;
    gcflip_trace_ended = 0;
    open_with_roots(false);
    make_calls(false);
    refer();
    EXPECT(gcflip_trace_ended == 0 && gcflip_heap_close(&heap) == GCFLIP_DONE);
}

int main(int count, char **names)
{
    EXPECT(count == 2);
    begin(names[1]);
    open_heaps();
    end_recordings();
    make_each_call();
    return 0;
}
