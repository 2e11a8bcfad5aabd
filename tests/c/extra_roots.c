/* Tests the calls on extra roots and frames, with each answer but that of a failed allocation: what they hold over collections, and that
 * a collection reads and copies what they refer to. */
#include "one_heap.h"

enum { KIND = 3, FEW = 8, MANY = 65536 };

/* Expects that slot s of mutator m holds this number. */
static void holds(uint8_t m, uint8_t s, uint64_t wanted)
{
    EXPECT(gcflip_heap_look(&heap, m, s, &view) == GCFLIP_NUMBER && view.number == wanted);
}

static void holds_nil(uint8_t m, uint8_t s)
{
    EXPECT(gcflip_heap_look(&heap, m, s, &view) == GCFLIP_NIL);
}

/* Works until a flip, and returns the number of its pairs. */
static uint32_t collected(uint32_t most)
{
    do
        EXPECT(gcflip_heap_work(&heap, most, &work) == GCFLIP_DONE && work.last != GCFLIP_NO_ROOM);
    while (work.last != GCFLIP_FLIPPED);
    return work.pairs;
}

static void options(void)
{
    gcflip_options wrong = gcflip_options_default(8, 1);
    EXPECT(wrong.bytes == sizeof wrong && wrong.size == 8 && wrong.extra_roots == 0 && wrong.mutators == 1);
    wrong.bytes = sizeof wrong - 4;
    EXPECT(gcflip_heap_open(&heap, &wrong) == GCFLIP_OUT_OF_RANGE);
    wrong.bytes = sizeof wrong + 4;
    EXPECT(gcflip_heap_open(&heap, &wrong) == GCFLIP_OUT_OF_RANGE);
    wrong = gcflip_options_default(0, 1);
    EXPECT(gcflip_heap_open(&heap, &wrong) == GCFLIP_OUT_OF_RANGE);
    wrong = gcflip_options_default(8, 0);
    EXPECT(gcflip_heap_open(&heap, &wrong) == GCFLIP_OUT_OF_RANGE);
    wrong = gcflip_options_default(8, 17);
    EXPECT(gcflip_heap_open(&heap, &wrong) == GCFLIP_OUT_OF_RANGE);
    wrong = gcflip_options_default(8, 1);
    wrong.extra_roots = 1048577;
    EXPECT(gcflip_heap_open(&heap, &wrong) == GCFLIP_OUT_OF_RANGE && heap.at == NULL);
    wrong.extra_roots = 1048576;
    EXPECT(gcflip_heap_open(&heap, &wrong) == GCFLIP_DONE && heap.at != NULL);
    EXPECT(gcflip_heap_open(&heap, &wrong) == GCFLIP_OPEN);
    EXPECT(gcflip_heap_set_number(&heap, 0, 0, 5) == GCFLIP_DONE);
    EXPECT(gcflip_heap_root_store(&heap, 0, 1048575, 0) == GCFLIP_DONE);
    EXPECT(gcflip_heap_root_load(&heap, 0, 1, 1048575) == GCFLIP_DONE);
    holds(0, 1, 5);
    EXPECT(gcflip_heap_root_load(&heap, 0, 1, 1048576) == GCFLIP_OUT_OF_RANGE);
    close_heap();
}

/* An extra root is no slot of any mutator, and all mutators name the same one. */
static void apart_from_slots(void)
{
    open_heap_with(64, 3, FEW, GCFLIP_ALONG);
    for (uint8_t m = 0; m < 3; m++)
        for (uint8_t s = 0; s < 16; s++)
            EXPECT(gcflip_heap_set_number(&heap, m, s, 100 * m + s) == GCFLIP_DONE);
    for (uint32_t k = 0; k < FEW; k++) {
        EXPECT(gcflip_heap_root_load(&heap, 1, 16, k) == GCFLIP_DONE);
        holds_nil(0, 16);
    }
    for (uint32_t k = 0; k < FEW; k++) {
        EXPECT(gcflip_heap_set_number(&heap, 0, 17, 1000 + k) == GCFLIP_DONE);
        EXPECT(gcflip_heap_root_store(&heap, (uint8_t)(k % 3), k, 17) == GCFLIP_DONE);
    }
    for (uint8_t m = 0; m < 3; m++)
        for (uint8_t s = 0; s < 16; s++)
            holds(m, s, 100 * m + s);
    for (uint32_t k = 0; k < FEW; k++) {
        EXPECT(gcflip_heap_root_load(&heap, (uint8_t)((k + 1) % 3), 18, k) == GCFLIP_DONE);
        holds(2, 18, 1000 + k);
    }
    EXPECT(gcflip_heap_root_clear(&heap, 2, 4) == GCFLIP_DONE);
    for (uint32_t k = 0; k < FEW; k++) {
        EXPECT(gcflip_heap_root_load(&heap, 0, 18, k) == GCFLIP_DONE);
        if (k == 2 || k == 3)
            holds_nil(0, 18);
        else
            holds(0, 18, 1000 + k);
    }
    EXPECT(gcflip_heap_root_clear(&heap, 3, 3) == GCFLIP_DONE && gcflip_heap_root_clear(&heap, FEW, FEW) == GCFLIP_DONE);
    EXPECT(gcflip_heap_root_clear(&heap, 4, 3) == GCFLIP_OUT_OF_RANGE && gcflip_heap_root_clear(&heap, UINT32_MAX, 0) == GCFLIP_OUT_OF_RANGE);
    EXPECT(gcflip_heap_root_clear(&heap, 0, FEW + 1) == GCFLIP_OUT_OF_RANGE);
    EXPECT(gcflip_heap_root_load(&heap, 3, 0, 0) == GCFLIP_OUT_OF_RANGE);
    EXPECT(gcflip_heap_root_load(&heap, 0, 32, 0) == GCFLIP_OUT_OF_RANGE);
    EXPECT(gcflip_heap_root_load(&heap, 0, 0, FEW) == GCFLIP_OUT_OF_RANGE);
    EXPECT(gcflip_heap_root_store(&heap, 3, 0, 0) == GCFLIP_OUT_OF_RANGE);
    EXPECT(gcflip_heap_root_store(&heap, 0, 0, 32) == GCFLIP_OUT_OF_RANGE);
    EXPECT(gcflip_heap_root_store(&heap, 0, UINT32_MAX, 0) == GCFLIP_OUT_OF_RANGE);
    EXPECT(gcflip_heap_root_load(&heap, 0, 18, 0) == GCFLIP_DONE);
    holds(0, 18, 1000);
    close_heap();
}

/* What extra roots refer to survives, also if it is stored while a collection is open; what they no longer refer to does not. */
static void collections(void)
{
    open_heap_with(256, 1, FEW, GCFLIP_ALONG);
    for (uint32_t k = 0; k < 4; k++) {
        EXPECT(gcflip_heap_new_object(&heap, 0, 0, KIND, 1) == GCFLIP_MADE);
        EXPECT(gcflip_heap_put_number(&heap, 0, 0, 0, 1, 40 + k) == GCFLIP_DONE);
        EXPECT(gcflip_heap_root_store(&heap, 0, k, 0) == GCFLIP_DONE);
    }
    EXPECT(gcflip_heap_set_nil(&heap, 0, 0) == GCFLIP_DONE);
    EXPECT(gcflip_heap_counts(&heap, &counts) == GCFLIP_DONE && counts.extra_roots == FEW);
    EXPECT(collected(1) == 4);
    for (uint32_t k = 0; k < 4; k++) {
        EXPECT(gcflip_heap_root_load(&heap, 0, 2, k) == GCFLIP_DONE);
        EXPECT(gcflip_heap_get(&heap, 0, 3, 2, 0, &number) == GCFLIP_NUMBER && number == 40 + k);
    }
    EXPECT(gcflip_heap_set_nil(&heap, 0, 2) == GCFLIP_DONE);
    EXPECT(gcflip_heap_root_clear(&heap, 1, 4) == GCFLIP_DONE);
    /* all roots are done; then extra root 0, which the search has passed, takes a new object, and so does one that was not in use */
    EXPECT(gcflip_heap_step_begin(&heap) == GCFLIP_BEGUN);
    do
        EXPECT(gcflip_heap_work(&heap, 1, &work) == GCFLIP_DONE);
    while (work.last == GCFLIP_COPIED);
    EXPECT(gcflip_heap_new_object(&heap, 0, 0, KIND, 0) == GCFLIP_MADE);
    EXPECT(gcflip_heap_root_store(&heap, 0, 0, 0) == GCFLIP_DONE);
    EXPECT(gcflip_heap_new_object(&heap, 0, 0, KIND, 0) == GCFLIP_MADE);
    EXPECT(gcflip_heap_root_store(&heap, 0, 7, 0) == GCFLIP_DONE);
    EXPECT(gcflip_heap_set_nil(&heap, 0, 0) == GCFLIP_DONE);
    EXPECT(gcflip_heap_step_flip(&heap, &work.pairs) == GCFLIP_NOT_READY);
    EXPECT(collected(1) == 3);
    EXPECT(collected(100) == 2);
    /* an object in a slot that the search has passed */
    EXPECT(gcflip_heap_step_begin(&heap) == GCFLIP_BEGUN);
    EXPECT(gcflip_heap_work(&heap, 2, &work) == GCFLIP_DONE && work.last == GCFLIP_COPIED);
    EXPECT(gcflip_heap_new_object(&heap, 0, 16, KIND, 0) == GCFLIP_MADE);
    EXPECT(collected(100) == 3);
    close_heap();
}

/* Expects that extra root k refers to an object with this number. */
static void refers(uint32_t k, uint64_t wanted)
{
    EXPECT(gcflip_heap_root_load(&heap, 0, 2, k) == GCFLIP_DONE);
    EXPECT(gcflip_heap_get(&heap, 0, 3, 2, 0, &number) == GCFLIP_NUMBER && number == wanted);
    EXPECT(gcflip_heap_set_nil(&heap, 0, 2) == GCFLIP_DONE);
}

static void store_number(uint32_t k, uint64_t wanted)
{
    EXPECT(gcflip_heap_new_object(&heap, 0, 0, KIND, 1) == GCFLIP_MADE);
    EXPECT(gcflip_heap_put_number(&heap, 0, 0, 0, 1, wanted) == GCFLIP_DONE);
    EXPECT(gcflip_heap_root_store(&heap, 0, k, 0) == GCFLIP_DONE);
    EXPECT(gcflip_heap_set_nil(&heap, 0, 0) == GCFLIP_DONE);
}

/* A heap with many extra roots uses a few. One far behind them takes an object, survives a flip, and is cleared again. */
static void few_in_use(void)
{
    open_heap_with(256, 1, MANY, GCFLIP_ALONG);
    for (uint32_t k = 0; k < 4; k++)
        store_number(k, 40 + k);
    for (int round = 0; round < 3; round++) {
        EXPECT(collected(1) == 4);
        for (uint32_t k = 0; k < 4; k++)
            refers(k, 40 + k);
    }
    store_number(MANY - 1, 99);
    EXPECT(collected(1) == 5);
    refers(MANY - 1, 99);
    EXPECT(gcflip_heap_root_clear(&heap, MANY - 1, MANY) == GCFLIP_DONE);
    store_number(2, 52);
    EXPECT(collected(1) == 4);
    EXPECT(gcflip_heap_root_load(&heap, 0, 2, MANY - 1) == GCFLIP_DONE);
    holds_nil(0, 2);
    EXPECT(gcflip_heap_root_clear(&heap, 3, MANY) == GCFLIP_DONE);
    for (int round = 0; round < 2; round++) {
        EXPECT(collected(100) == 3);
        refers(0, 40);
        refers(1, 41);
        refers(2, 52);
        EXPECT(gcflip_heap_root_load(&heap, 0, 2, 3) == GCFLIP_DONE);
        holds_nil(0, 2);
    }
    gcflip_flip_checks checks = {0, 0};
    EXPECT(gcflip_heap_flip_checks(&heap, &checks) == GCFLIP_DONE && checks.along == 7 && checks.whole == 0);
    close_heap();
}

static void frames(void)
{
    gcflip_frame frame = {2, 5, 2, 0}, other = {5, 8, 5, 5}, wrong = {2, 9, 2, 2};
    open_heap_with(64, 2, FEW, GCFLIP_ALONG);
    EXPECT(gcflip_heap_frame_pop(&heap, 0, 0, &frame) == GCFLIP_FRAME_EMPTY && frame.top == 2);
    for (uint32_t k = 0; k < 3; k++) {
        EXPECT(gcflip_heap_set_number(&heap, 0, 0, k) == GCFLIP_DONE);
        EXPECT(gcflip_heap_frame_push(&heap, 0, 0, &frame) == GCFLIP_DONE && frame.top == 3 + k);
    }
    EXPECT(gcflip_heap_frame_push(&heap, 0, 0, &frame) == GCFLIP_FRAME_FULL && frame.top == 5 && frame.high == 5);
    EXPECT(gcflip_heap_set_number(&heap, 1, 0, 77) == GCFLIP_DONE);
    EXPECT(gcflip_heap_frame_push(&heap, 1, 0, &other) == GCFLIP_DONE && other.top == 6 && other.first == 5 && other.end == 8);
    for (uint32_t k = 3; k-- > 0;) {
        EXPECT(gcflip_heap_frame_pop(&heap, 0, 1, &frame) == GCFLIP_DONE && frame.top == 2 + k);
        holds(0, 1, k);
        EXPECT(gcflip_heap_root_load(&heap, 0, 2, 2 + k) == GCFLIP_DONE);
        holds_nil(0, 2);
    }
    EXPECT(gcflip_heap_frame_pop(&heap, 0, 1, &frame) == GCFLIP_FRAME_EMPTY);
    holds(0, 1, 0);
    EXPECT(gcflip_heap_root_load(&heap, 0, 2, 5) == GCFLIP_DONE);
    holds(0, 2, 77);
    EXPECT(gcflip_heap_frame_push(&heap, 0, 0, &wrong) == GCFLIP_OUT_OF_RANGE);
    EXPECT(gcflip_heap_frame_pop(&heap, 0, 0, &wrong) == GCFLIP_OUT_OF_RANGE);
    wrong.end = 5;
    wrong.top = 6;
    EXPECT(gcflip_heap_frame_push(&heap, 0, 0, &wrong) == GCFLIP_OUT_OF_RANGE);
    EXPECT(gcflip_heap_frame_pop(&heap, 0, 0, &wrong) == GCFLIP_OUT_OF_RANGE);
    wrong.top = 1;
    EXPECT(gcflip_heap_frame_push(&heap, 0, 0, &wrong) == GCFLIP_OUT_OF_RANGE);
    EXPECT(gcflip_heap_frame_pop(&heap, 0, 0, &wrong) == GCFLIP_OUT_OF_RANGE && wrong.top == 1);
    wrong.top = 3;
    EXPECT(gcflip_heap_frame_push(&heap, 2, 0, &wrong) == GCFLIP_OUT_OF_RANGE);
    EXPECT(gcflip_heap_frame_push(&heap, 0, 32, &wrong) == GCFLIP_OUT_OF_RANGE);
    EXPECT(gcflip_heap_frame_pop(&heap, 2, 0, &wrong) == GCFLIP_OUT_OF_RANGE);
    EXPECT(gcflip_heap_frame_pop(&heap, 0, 32, &wrong) == GCFLIP_OUT_OF_RANGE && wrong.top == 3);
    wrong.high = 6;
    EXPECT(gcflip_heap_frame_push(&heap, 0, 0, &wrong) == GCFLIP_OUT_OF_RANGE);
    EXPECT(gcflip_heap_frame_pop(&heap, 0, 0, &wrong) == GCFLIP_OUT_OF_RANGE && wrong.top == 3 && wrong.high == 6);
    close_heap();
    EXPECT(gcflip_heap_frame_push(&heap, 0, 0, &frame) == GCFLIP_CLOSED);
    EXPECT(gcflip_heap_frame_pop(&heap, 0, 0, &frame) == GCFLIP_CLOSED);
    EXPECT(gcflip_heap_root_load(&heap, 0, 0, 0) == GCFLIP_CLOSED);
    EXPECT(gcflip_heap_root_store(&heap, 0, 0, 0) == GCFLIP_CLOSED);
    EXPECT(gcflip_heap_root_clear(&heap, 0, 0) == GCFLIP_CLOSED);
}

/* Trims the frame, and expects this `high` and no other change of its numbers. */
static void trims(gcflip_frame *frame, uint32_t most, uint32_t high)
{
    const gcflip_frame old = *frame;
    EXPECT(gcflip_heap_frame_trim(&heap, frame, most) == GCFLIP_DONE && frame->high == high);
    EXPECT(frame->first == old.first && frame->end == old.end && frame->top == old.top);
}

/* Expects that a trim of this frame is out of range, and leaves its numbers. */
static void is_not_trimmed(gcflip_frame frame)
{
    const gcflip_frame old = frame;
    EXPECT(gcflip_heap_frame_trim(&heap, &frame, 1) == GCFLIP_OUT_OF_RANGE && frame.high == old.high);
    EXPECT(frame.first == old.first && frame.end == old.end && frame.top == old.top);
}

/* What a lowered top drops lives until a trim clears its root, and is gone after the next collection. */
static void dropped_values(void)
{
    gcflip_frame frame = {1, FEW, 1, 0};
    open_heap_with(512, 1, FEW, GCFLIP_ALONG);
    for (uint32_t k = 0; k < FEW - 1; k++) {
        store_number(0, 40 + k);
        EXPECT(gcflip_heap_root_load(&heap, 0, 0, 0) == GCFLIP_DONE);
        EXPECT(gcflip_heap_frame_push(&heap, 0, 0, &frame) == GCFLIP_DONE && frame.top == 2 + k && frame.high == 2 + k);
    }
    EXPECT(gcflip_heap_set_nil(&heap, 0, 0) == GCFLIP_DONE && gcflip_heap_root_clear(&heap, 0, 1) == GCFLIP_DONE);
    EXPECT(gcflip_heap_frame_pop(&heap, 0, 2, &frame) == GCFLIP_DONE && frame.top == 7 && frame.high == 7);
    EXPECT(gcflip_heap_set_nil(&heap, 0, 2) == GCFLIP_DONE && collected(1) == 6);
    frame.top = 3;
    EXPECT(collected(1) == 6);
    trims(&frame, 0, 7);
    EXPECT(collected(100) == 6);
    trims(&frame, 1, 6);
    EXPECT(collected(1) == 5);
    refers(5, 44);
    /* while a collection is open, that has not seen the roots */
    EXPECT(gcflip_heap_step_begin(&heap) == GCFLIP_BEGUN);
    trims(&frame, 2, 4);
    EXPECT(collected(1) == 3);
    refers(3, 42);
    trims(&frame, UINT32_MAX, 3);
    EXPECT(collected(100) == 2);
    refers(1, 40);
    refers(2, 41);
    trims(&frame, UINT32_MAX, 3);
    close_heap();
}

/* A push over dropped values leaves those above it to a trim, and so does the pop after it. */
static void pushes_over_dropped_values(void)
{
    gcflip_frame frame = {0, FEW, 0, 0};
    open_heap_with(64, 1, FEW, GCFLIP_ALONG);
    for (uint32_t k = 0; k < 6; k++) {
        EXPECT(gcflip_heap_set_number(&heap, 0, 0, k) == GCFLIP_DONE);
        EXPECT(gcflip_heap_frame_push(&heap, 0, 0, &frame) == GCFLIP_DONE);
    }
    frame.top = 2;
    EXPECT(gcflip_heap_frame_push(&heap, 0, 0, &frame) == GCFLIP_DONE && frame.top == 3 && frame.high == 6);
    EXPECT(gcflip_heap_frame_pop(&heap, 0, 1, &frame) == GCFLIP_DONE && frame.top == 2 && frame.high == 6);
    holds(0, 1, 5);
    for (uint32_t k = 3; k < 6; k++) {
        EXPECT(gcflip_heap_root_load(&heap, 0, 2, k) == GCFLIP_DONE);
        holds(0, 2, k);
    }
    trims(&frame, 2, 4);
    for (uint32_t k = 0; k < FEW; k++) {
        EXPECT(gcflip_heap_root_load(&heap, 0, 2, k) == GCFLIP_DONE);
        if (k < 2 || k == 3)
            holds(0, 2, k);
        else
            holds_nil(0, 2);
    }
    frame.top = 5; /* `high` is 4, and counts as 5 */
    trims(&frame, 3, 5);
    frame.high = 0;
    EXPECT(gcflip_heap_frame_pop(&heap, 0, 1, &frame) == GCFLIP_DONE && frame.top == 4 && frame.high == 4);
    frame.high = 0;
    EXPECT(gcflip_heap_frame_push(&heap, 0, 0, &frame) == GCFLIP_DONE && frame.top == 5 && frame.high == 5);
    frame.high = FEW;
    trims(&frame, 3, 5);
    EXPECT(gcflip_heap_root_load(&heap, 0, 2, 4) == GCFLIP_DONE);
    holds(0, 2, 5);
    is_not_trimmed((gcflip_frame){2, FEW, 3, FEW + 1}); /* `high` above the end */
    is_not_trimmed((gcflip_frame){2, FEW, 1, 4});       /* the top below the first */
    is_not_trimmed((gcflip_frame){2, 4, 5, 4});         /* the top above the end */
    is_not_trimmed((gcflip_frame){2, FEW + 1, 3, 4});   /* the end above the extra roots */
    EXPECT(gcflip_heap_root_load(&heap, 0, 2, 4) == GCFLIP_DONE);
    holds(0, 2, 5);
    close_heap();
    EXPECT(gcflip_heap_frame_trim(&heap, &frame, 1) == GCFLIP_CLOSED && frame.top == 5 && frame.high == 5);
}

/* A stack of many objects, over several collections, with a command before each `work`. */
static void many(void)
{
    gcflip_frame stack = {0, MANY, 0, 0};
    open_heap_with(16 * MANY, 1, MANY, GCFLIP_ALONG);
    for (uint32_t k = 0; k < MANY; k++) {
        EXPECT(gcflip_heap_new_object(&heap, 0, 0, KIND, 1) == GCFLIP_MADE);
        EXPECT(gcflip_heap_put_number(&heap, 0, 0, 0, 1, k) == GCFLIP_DONE);
        EXPECT(gcflip_heap_frame_push(&heap, 0, 0, &stack) == GCFLIP_DONE);
    }
    for (int round = 0; round < 2; round++) {
        do {
            EXPECT(gcflip_heap_root_load(&heap, 0, 0, MANY - 1) == GCFLIP_DONE);
            EXPECT(gcflip_heap_work(&heap, 1, &work) == GCFLIP_DONE);
        } while (work.last != GCFLIP_FLIPPED);
        EXPECT(work.pairs == MANY);
    }
    EXPECT(gcflip_heap_step_begin(&heap) == GCFLIP_BEGUN);
    for (uint32_t k = MANY; k-- > 0;) {
        EXPECT(gcflip_heap_frame_pop(&heap, 0, 2, &stack) == GCFLIP_DONE);
        EXPECT(gcflip_heap_get(&heap, 0, 3, 2, 0, &number) == GCFLIP_NUMBER && number == k);
        EXPECT(gcflip_heap_work(&heap, 1, &work) == GCFLIP_DONE);
    }
    EXPECT(gcflip_heap_frame_pop(&heap, 0, 2, &stack) == GCFLIP_FRAME_EMPTY);
    collected(100);
    EXPECT(gcflip_heap_set_nil(&heap, 0, 0) == GCFLIP_DONE && gcflip_heap_set_nil(&heap, 0, 2) == GCFLIP_DONE);
    EXPECT(collected(100) == 0 && gcflip_heap_counts(&heap, &counts) == GCFLIP_DONE && counts.end == 1);
    close_heap();
}

int main(void)
{
    options();
    apart_from_slots();
    collections();
    few_in_use();
    frames();
    dropped_values();
    pushes_over_dropped_values();
    many();
    return 0;
}
