/* Makes the n-th allocation of each call on a heap fail, for n = 1, 2 and so on until the call needs no more. Links its
   own allocation functions instead of the library's. */
#include "expect.h"
#include "gcflip_heap.h"
#include "own_allocator.h"
#include <string.h>

enum { WORDS = 4096, EXTRA_ROOTS = 4, ROOTS = 32 + EXTRA_ROOTS };

static gcflip_heap heap = GCFLIP_NO_HEAP;
static gcflip_view view;
static uint64_t number;
static uint32_t pairs;
static gcflip_work work;
static gcflip_flip_checks checks;

/* All that can be read of a heap. */
struct picture {
    gcflip_counts counts;
    size_t log_length;
    uint64_t words[WORDS], roots[ROOTS], new_words[WORDS];
};

static void draw(struct picture *picture)
{
    memset(picture, 0, sizeof *picture);
    EXPECT(gcflip_heap_counts(&heap, &picture->counts) == GCFLIP_DONE);
    EXPECT(gcflip_heap_log_length(&heap, 0, &picture->log_length) == GCFLIP_DONE);
    EXPECT(gcflip_heap_image(&heap, picture->words, picture->counts.end, picture->roots, ROOTS) == GCFLIP_DONE);
    if (picture->counts.is_open)
        EXPECT(gcflip_heap_new_words(&heap, picture->new_words, picture->counts.new_end) == GCFLIP_DONE);
}

/* How flips are checked: a gcflip_checking. */
static uint8_t checking;

static uint32_t open_heap(void)
{
    gcflip_options options = gcflip_options_default(WORDS, 1);
    options.extra_roots = EXTRA_ROOTS;
    options.checking = checking;
    return gcflip_heap_open(&heap, &options);
}

/* A heap with one object, whose field holds nil. */
static void set_up(void)
{
    fail_allocation(0);
    EXPECT(open_heap() == GCFLIP_DONE);
    EXPECT(gcflip_heap_new_object(&heap, 0, 0, 1, 1) == GCFLIP_MADE);
}

static void set_up_open(void)
{
    set_up();
    EXPECT(gcflip_heap_step_begin(&heap) == GCFLIP_BEGUN);
}

/* The same with a raw object in slot 2. */
static void set_up_raw(void)
{
    set_up();
    EXPECT(gcflip_heap_new_raw(&heap, 0, 2, 1, 40) == GCFLIP_MADE);
}

static void set_up_raw_open(void)
{
    set_up_raw();
    EXPECT(gcflip_heap_step_begin(&heap) == GCFLIP_BEGUN);
}

static void set_up_text(void)
{
    set_up();
    EXPECT(gcflip_new_bytes(&heap, 0, 19, 1, (const uint8_t *)"text of more than seven bytes", 29) == GCFLIP_MADE);
}

static void set_up_text_open(void)
{
    set_up_text();
    EXPECT(gcflip_heap_step_begin(&heap) == GCFLIP_BEGUN);
}

static void set_up_fill(void)
{
    set_up_raw();
    EXPECT(gcflip_set_number(&heap, 17, 5) == GCFLIP_DONE);
}

static void set_up_fill_open(void)
{
    set_up_fill();
    EXPECT(gcflip_heap_step_begin(&heap) == GCFLIP_BEGUN);
}

/* A log whose segment is full, so that the next entry takes another segment, and a row of segments. */
static void set_up_full_log(void)
{
    set_up_open();
    for (int k = 0; k < 1024; k++)
        EXPECT(gcflip_heap_put_nil(&heap, 0, 0, 0, 1) == GCFLIP_DONE);
}

static void set_up_ready(void)
{
    set_up_open();
    EXPECT(gcflip_heap_work(&heap, 3, &work) == GCFLIP_DONE && work.last == GCFLIP_PASSED);
}

static uint32_t begin(void) { return gcflip_heap_step_begin(&heap); }
static uint32_t begin_sized(void) { return gcflip_heap_step_begin_sized(&heap, 64); }
static uint32_t begin_larger(void) { return gcflip_heap_step_begin_sized(&heap, 2 * WORDS); }
static uint32_t touch(void) { return gcflip_heap_touch(&heap); }
static uint32_t put(void) { return gcflip_heap_put(&heap, 0, 0, 0, 0); }
static uint32_t put_at(void) { return gcflip_put(&heap, 0, 16, 0, 16); }
static uint32_t put_number_at(void) { return gcflip_put_number(&heap, 0, 16, 0, 5); }
static uint32_t put_nil_at(void) { return gcflip_put_nil(&heap, 0, 16, 0); }
static uint32_t new_with_at(void)
{
    static const gcflip_field fields[40] = {{GCFLIP_FIELD_NUMBER, 5}, {GCFLIP_FIELD_ROOT, 16}};
    return gcflip_new_with(&heap, 0, 17, 1, fields, 40);
}
static uint32_t new_bytes(void) { return gcflip_new_bytes(&heap, 0, 17, 1, (const uint8_t *)"a text of more than seven bytes", 30); }
static uint32_t join(void) { return gcflip_bytes_join(&heap, 0, 17, 1, 19, 19); }
static uint32_t part(void) { return gcflip_bytes_part(&heap, 0, 17, 1, 19, 1, 8); }
static uint32_t write_bytes(void) { return gcflip_bytes_write(&heap, 0, 19, 3, (const uint8_t *)"bytes over others", 17); }
static uint32_t write_words(void)
{
    static const uint64_t words[39] = {1, UINT64_MAX};
    return gcflip_words_write(&heap, 0, 18, 0, words, 39);
}
static uint32_t write_raws(void)
{
    static const uint64_t numbers[40] = {1, 2, 3};
    return gcflip_raw_write(&heap, 0, 18, 0, numbers, 40);
}
static uint32_t fill(void) { return gcflip_fill(&heap, 0, 18, 0, 40, 17); }
static uint32_t copy_fields_at(void) { return gcflip_copy_fields(&heap, 0, 18, 0, 18, 20, 20); }
static uint32_t pair_at(void) { return gcflip_new_pair(&heap, 0, 17, 1, 16, 16); }
static uint32_t gather(void) { return gcflip_gather(&heap, 0, 17, 1, 0, 30); }
static uint32_t new_from_at(void)
{
    static const uint32_t fields[40] = {16};
    return gcflip_new_from(&heap, 0, 17, 1, fields, 40);
}
static uint32_t put_number(void) { return gcflip_heap_put_number(&heap, 0, 0, 0, 1, 5); }
static uint32_t put_nil(void) { return gcflip_heap_put_nil(&heap, 0, 0, 0, 1); }
static uint32_t cons(void) { return gcflip_heap_new_pair(&heap, 0, 1, 1, 0, 0); }
static uint32_t new_from(void)
{
    static const uint8_t fields[40] = {0};
    return gcflip_heap_new_from(&heap, 0, 1, 1, fields, 40);
}
static uint32_t new_with(void)
{
    static const gcflip_field fields[40] = {{GCFLIP_FIELD_NUMBER, 5}, {GCFLIP_FIELD_SLOT, 0}};
    return gcflip_heap_new_with(&heap, 0, 1, 1, 2, fields, 40);
}
static uint32_t raw_write(void)
{
    static const uint64_t numbers[40] = {1, 2, 3};
    return gcflip_heap_raw_write(&heap, 0, 2, 0, 1, numbers, 40);
}
static uint32_t copy_fields(void) { return gcflip_heap_copy_fields(&heap, 0, 2, 0, 2, 20, 1, 20); }
static uint32_t flip(void) { return gcflip_heap_step_flip(&heap, &pairs); }
static uint32_t check(void)
{
    const gcflip_verdict before = {77, 77, 77, 77};
    gcflip_verdict verdict = before;
    uint32_t answer = gcflip_heap_check(&heap, &verdict);
    EXPECT(GCFLIP_IS_REFUSED(answer) == (memcmp(&verdict, &before, sizeof verdict) == 0));
    return answer;
}
static uint32_t work_1(void) { return gcflip_heap_work(&heap, 1, &work); }
static uint32_t paced_work(void)
{
    gcflip_pace pace = gcflip_pace_default(), before = pace;
    uint32_t answer = gcflip_heap_work_paced(&heap, &pace, UINT32_MAX, &work);
    EXPECT(!GCFLIP_IS_REFUSED(answer) || memcmp(&pace, &before, sizeof pace) == 0);
    return answer;
}
static uint32_t sized_work(void) { return gcflip_heap_work_sized(&heap, 1, 64, &work); }
static uint32_t work_of_a_word(void) { return gcflip_heap_work_within(&heap, 1, 1, &work); }

static void free_all(void)
{
    EXPECT(gcflip_heap_close(&heap) == GCFLIP_DONE && blocks_in_use() == 0);
}

/* Returns the number of allocations that can fail. A failed one changes nothing, and the call can be retried. */
static int failures(void (*prepare)(void), uint32_t (*call)(void))
{
    static struct picture before, after;
    for (int n = 1;; n++) {
        prepare();
        draw(&before);
        const gcflip_work report = {77, 77, 77, 77, 77};
        work = report;
        pairs = 77;
        fail_allocation(n);
        uint32_t answer = call();
        if (!GCFLIP_IS_REFUSED(answer)) {
            EXPECT(!has_failed());
            free_all();
            return n - 1;
        }
        EXPECT(answer == GCFLIP_NO_MEMORY && has_failed());
        EXPECT(pairs == 77 && memcmp(&work, &report, sizeof work) == 0);
        draw(&after);
        EXPECT(memcmp(&before, &after, sizeof before) == 0);
        fail_allocation(0);
        EXPECT(!GCFLIP_IS_REFUSED(call()));
        free_all();
    }
}

/* Checks that an open that fails leaves no heap and no block, and that it allocates as many blocks. */
static void opening(int wanted)
{
    int n = 1;
    for (;; n++) {
        fail_allocation(n);
        uint32_t answer = open_heap();
        if (answer == GCFLIP_DONE)
            break;
        EXPECT(answer == GCFLIP_NO_MEMORY && has_failed() && heap.at == NULL && blocks_in_use() == 0);
    }
    EXPECT(n - 1 == wanted);
    free_all();
}

/* Checks that `work` reports the steps before a failure, and that the next call meets the failure. A flip that the standing checker accepts
   allocates nothing, so that no step fails. */
static void work_before_a_failure(void)
{
    set_up();
    EXPECT(gcflip_heap_work(&heap, 1, &work) == GCFLIP_DONE && work.last == GCFLIP_BEGUN);
    fail_allocation(1);
    EXPECT(gcflip_heap_work(&heap, 1000, &work) == GCFLIP_DONE);
    if (checking == GCFLIP_ALONG) {
        EXPECT(work.steps == 4 && work.copied == 3 && work.last == GCFLIP_FLIPPED && !has_failed());
        fail_allocation(0);
    } else {
        EXPECT(work.steps == 3 && work.copied == 3 && work.last == GCFLIP_PASSED && has_failed());
        fail_allocation(1);
        EXPECT(gcflip_heap_work(&heap, 1000, &work) == GCFLIP_NO_MEMORY);
        fail_allocation(0);
        EXPECT(gcflip_heap_work(&heap, 1000, &work) == GCFLIP_DONE && work.steps == 1 && work.last == GCFLIP_FLIPPED);
    }
    free_all();
}

/* Checks that a put that cannot lack memory gives the collection up where the log cannot grow, and only there, and that it writes the field. */
static void sure_puts(void)
{
    gcflip_view view = {77, 77, 77};
    gcflip_counts counts;
    for (int n = 0; n < 2; n++) {
        set_up_open();
        EXPECT(gcflip_peek(&heap, 16, 0, &view) == GCFLIP_NIL);
        fail_allocation(n);
        EXPECT(gcflip_put_sure(&heap, 0, 16, 0, 16) == GCFLIP_DONE && has_failed() == (n == 1));
        fail_allocation(0);
        EXPECT(gcflip_heap_counts(&heap, &counts) == GCFLIP_DONE && counts.is_open == (n == 0) && counts.logged == (n == 0));
        EXPECT(gcflip_peek(&heap, 16, 0, &view) == GCFLIP_OBJECT);
        EXPECT(gcflip_heap_work(&heap, 1000, &work) == GCFLIP_DONE && work.last == GCFLIP_FLIPPED && work.pairs == 1);
        free_all();
    }
}

/* Checks that paced work owes no step because of a failure, and that a call whose first step fails leaves what the pace owes. */
static void paced_work_before_a_failure(void)
{
    gcflip_pace pace = gcflip_pace_default();
    if (checking == GCFLIP_ALONG)
        return; /* no step of an open collection fails */
    set_up_open();
    pace.words = 4;
    EXPECT(gcflip_heap_pace(&heap, &pace) == GCFLIP_DONE);
    pace.owed = 7;
    fail_allocation(1);
    EXPECT(gcflip_heap_work_paced(&heap, &pace, 0, &work) == GCFLIP_DONE);
    EXPECT(work.steps == 3 && work.copied == 3 && work.last == GCFLIP_PASSED && has_failed() && pace.owed == 0);
    pace.owed = 7;
    fail_allocation(1);
    EXPECT(gcflip_heap_work_paced(&heap, &pace, 0, &work) == GCFLIP_NO_MEMORY && pace.owed == 7);
    fail_allocation(0);
    EXPECT(gcflip_heap_work_paced(&heap, &pace, 0, &work) == GCFLIP_DONE && work.last == GCFLIP_FLIPPED && pace.owed == 0);
    free_all();
}

/* Makes the moves of extra roots. */
static void move_roots(void)
{
    gcflip_frame frame = {1, EXTRA_ROOTS, 1, 1};
    EXPECT(gcflip_heap_root_store(&heap, 0, 0, 1) == GCFLIP_DONE);
    EXPECT(gcflip_heap_root_load(&heap, 0, 5, 0) == GCFLIP_DONE);
    EXPECT(gcflip_heap_frame_push(&heap, 0, 1, &frame) == GCFLIP_DONE);
    EXPECT(gcflip_heap_frame_pop(&heap, 0, 5, &frame) == GCFLIP_DONE);
    EXPECT(gcflip_heap_frame_push(&heap, 0, 1, &frame) == GCFLIP_DONE);
    frame.top = 1;
    EXPECT(gcflip_heap_frame_trim(&heap, &frame, 1) == GCFLIP_DONE && frame.high == 1);
    EXPECT(gcflip_heap_root_clear(&heap, 0, EXTRA_ROOTS) == GCFLIP_DONE);
}

/* Performs the commands on roots by their places that log nothing, with an extra root. */
static void command_by_places(void)
{
    const uint32_t extra = ROOTS - 1;
    uint32_t length = 77;
    int32_t order = 77;
    uint8_t byte = 77;
    EXPECT(gcflip_new(&heap, extra, 1, 1) == GCFLIP_MADE);
    EXPECT(gcflip_new_raw(&heap, 1, 1, 0) == GCFLIP_MADE && gcflip_spread(&heap, 2, extra, 1) == GCFLIP_DONE);
    EXPECT(gcflip_bytes_length(&heap, 1, &length) == GCFLIP_DONE && length == 0);
    EXPECT(gcflip_bytes_read(&heap, 1, 0, &byte, 0) == GCFLIP_DONE && gcflip_bytes_same(&heap, 1, 1) == GCFLIP_SAME);
    EXPECT(gcflip_bytes_compare(&heap, 1, 1, &order) == GCFLIP_DONE && order == 0);
    EXPECT(gcflip_words_read(&heap, 1, 0, &number, 0) == GCFLIP_DONE && gcflip_raw_read(&heap, 1, 0, &number, 0) == GCFLIP_DONE);
    EXPECT(gcflip_set_nil(&heap, 1) == GCFLIP_DONE);
    EXPECT(gcflip_get(&heap, 0, extra, 0, &number) == GCFLIP_NIL);
    EXPECT(gcflip_peek(&heap, extra, 0, &view) == GCFLIP_NIL);
    EXPECT(gcflip_get_seen(&heap, 0, extra, 0).answer == GCFLIP_NIL && gcflip_peek_seen(&heap, extra, 0).answer == GCFLIP_NIL);
    EXPECT(gcflip_look_seen(&heap, extra).answer == GCFLIP_OBJECT && gcflip_clear(&heap, 0, 2) == GCFLIP_DONE);
    EXPECT(gcflip_set_nil(&heap, 0) == GCFLIP_DONE && gcflip_room(&heap) > 0);
    EXPECT(gcflip_set_number(&heap, 0, 5) == GCFLIP_DONE);
    EXPECT(gcflip_copy(&heap, extra, 0) == GCFLIP_DONE);
    EXPECT(gcflip_same(&heap, extra, 0) == GCFLIP_SAME);
    EXPECT(gcflip_look(&heap, extra, &view) == GCFLIP_NUMBER);
}

/* Reads all that can be read while a collection is open, and mutator 0's log has an entry. Slot 2 refers to a raw object. */
static void read_all(void)
{
    static struct picture picture;
    gcflip_pace pace = gcflip_pace_default();
    gcflip_step step = {0, 0};
    gcflip_log_entry entry = {0, 0};
    uint64_t numbers[4] = {0};
    uint32_t address = 0;
    draw(&picture);
    EXPECT(gcflip_heap_log_entry(&heap, 0, 0, &entry) == GCFLIP_DONE);
    EXPECT(gcflip_heap_raw_read(&heap, 0, 2, 0, numbers, COUNT(numbers)) == GCFLIP_DONE);
    EXPECT(gcflip_heap_address(&heap, 0, 2, &address) == GCFLIP_DONE);
    EXPECT(gcflip_address(&heap, 18, &address) == GCFLIP_DONE);
    EXPECT(gcflip_object_at(&heap, address, &view) == GCFLIP_RAW_OBJECT && gcflip_field_at(&heap, address, 0, &view) == GCFLIP_NUMBER);
    EXPECT(gcflip_object_at_seen(&heap, address).answer == GCFLIP_RAW_OBJECT && gcflip_field_at_seen(&heap, address, 0).answer == GCFLIP_NUMBER);
    EXPECT(gcflip_heap_moved(&heap, address, &address) == GCFLIP_OUT_OF_RANGE && gcflip_moved(&heap, address, &address) == GCFLIP_OUT_OF_RANGE);
    EXPECT(gcflip_release(&heap) == GCFLIP_BUSY && gcflip_refer(&heap, 18, address) == GCFLIP_DONE);
    EXPECT(gcflip_heap_pace(&heap, &pace) == GCFLIP_DONE);
    EXPECT(gcflip_heap_useful(&heap, &step) == GCFLIP_DONE);
    EXPECT(gcflip_heap_flip_checks(&heap, &checks) == GCFLIP_DONE);
}

/* Checks that all other calls do not allocate: each runs while the next allocation would fail. */
static void calls_that_do_not_allocate(void)
{
    set_up();
    fail_allocation(1);
    EXPECT(gcflip_heap_new_object(&heap, 0, 1, 1, 4) == GCFLIP_MADE);
    EXPECT(gcflip_heap_new_raw(&heap, 0, 2, 1, 4) == GCFLIP_MADE);
    EXPECT(gcflip_heap_put(&heap, 0, 1, 0, 2) == GCFLIP_DONE);
    EXPECT(gcflip_heap_get(&heap, 0, 3, 1, 0, &number) == GCFLIP_OBJECT);
    command_by_places();
    fail_allocation(0);
    EXPECT(gcflip_heap_step_begin(&heap) == GCFLIP_BEGUN);
    EXPECT(gcflip_heap_put(&heap, 0, 1, 1, 2) == GCFLIP_DONE);
    fail_allocation(1);
    EXPECT(gcflip_heap_set_number(&heap, 0, 3, 5) == GCFLIP_DONE);
    EXPECT(gcflip_heap_move(&heap, 0, 4, 3) == GCFLIP_DONE);
    EXPECT(gcflip_heap_set_nil(&heap, 0, 4) == GCFLIP_DONE);
    EXPECT(gcflip_heap_same(&heap, 0, 3, 4) == GCFLIP_NOT_SAME);
    EXPECT(gcflip_heap_look(&heap, 0, 3, &view) == GCFLIP_NUMBER);
    EXPECT(gcflip_heap_refer(&heap, 0, 4, 1) == GCFLIP_DONE);
    EXPECT(gcflip_heap_refer(&heap, 0, 4, 2) == GCFLIP_NO_OBJECT);
    EXPECT(gcflip_heap_set_nil(&heap, 0, 4) == GCFLIP_DONE);
    move_roots();
    command_by_places();
    read_all();
    EXPECT(gcflip_heap_step_roots(&heap) == GCFLIP_COPIED);
    EXPECT(gcflip_heap_step_scan(&heap) == GCFLIP_SCANNED);
    EXPECT(gcflip_heap_step_apply(&heap, 0) == GCFLIP_APPLIED);
    EXPECT(gcflip_heap_step_give_up(&heap) == GCFLIP_DROPPED);
    free_all();
    EXPECT(!has_failed());
}

/* A heap after a flip, in which no collection is open. */
static void set_up_flipped(void)
{
    set_up_ready();
    EXPECT(gcflip_heap_step_flip(&heap, &pairs) == GCFLIP_FLIPPED);
}

/* The same with a second collection that is ready. */
static void set_up_ready_again(void)
{
    set_up_flipped();
    EXPECT(gcflip_heap_work(&heap, 4, &work) == GCFLIP_DONE && work.last == GCFLIP_PASSED);
}

/* A begin that fails leaves the old space of the last flip, which goes on telling addresses. */
static void failed_begin(void)
{
    uint32_t address = 77;
    set_up_flipped();
    fail_allocation(1);
    EXPECT(gcflip_heap_moved(&heap, 1, &address) == GCFLIP_DONE && address == 1 && !has_failed());
    EXPECT(begin_sized() == GCFLIP_NO_MEMORY && has_failed());
    EXPECT(gcflip_heap_moved(&heap, 1, &address) == GCFLIP_DONE && address == 1);
    fail_allocation(0);
    free_all();
}

/* Where there is room, no memory is wanted for it. Else all of it is refused, the answer says so, and neither the heap nor the pace has changed. */
static void starved(void)
{
    static struct picture before, after;
    gcflip_pace pace = gcflip_pace_default(), same;
    uint32_t room;
    set_up();
    room = gcflip_room(&heap);
    draw(&before);
    fail_allocations();
    EXPECT(gcflip_reserve(&heap, &pace, room, &work) == GCFLIP_DONE && work.steps == 0);
    same = pace;
    EXPECT(gcflip_reserve(&heap, &pace, room + 1, &work) == GCFLIP_STARVED && has_failed() && work.steps == 0 && work.last == GCFLIP_DONE);
    EXPECT(memcmp(&pace, &same, sizeof pace) == 0);
    fail_allocation(0);
    draw(&after);
    EXPECT(memcmp(&before, &after, sizeof before) == 0);
    EXPECT(gcflip_reserve(&heap, &pace, room + 1, &work) == GCFLIP_FULL && work.last == GCFLIP_FLIPPED);
    EXPECT(gcflip_release(&heap) == GCFLIP_DONE);
    draw(&before);
    fail_allocations();
    EXPECT(gcflip_collect(&heap, &work) == GCFLIP_STARVED && has_failed() && work.steps == 0 && work.last == GCFLIP_DONE);
    fail_allocation(0);
    draw(&after);
    EXPECT(memcmp(&before, &after, sizeof before) == 0);
    EXPECT(gcflip_collect(&heap, &work) == GCFLIP_DONE && work.last == GCFLIP_FLIPPED);
    free_all();
}

/* A heap whose collection was given up. Its space stays for the next one. */
static void set_up_given_up(void)
{
    set_up_ready();
    EXPECT(gcflip_heap_step_give_up(&heap) == GCFLIP_DROPPED);
}

/* A begin in a space of another size frees the space of a collection that was given up if memory is refused, and asks once more. */
static void begin_after_a_refusal(void)
{
    set_up_given_up();
    size_t before = bytes_in_use();
    fail_allocation(1);
    EXPECT(begin_sized() == GCFLIP_BEGUN && has_failed() && bytes_in_use() < before);
    fail_allocation(0);
    EXPECT(gcflip_heap_work(&heap, 1000, &work) == GCFLIP_DONE && work.last == GCFLIP_FLIPPED);
    free_all();
}

/* What a call allocates where its memory is there. */
enum { NONE = 0 };

/* Checks how many allocations of each call can fail. `tables` is how many tables the checker has between two calls, and `flipping` how many
   allocations a flip makes. */
static void allocations(int tables, int flipping)
{
    opening(8 + tables); /* the words, the roots, their twins, four rows of bits, and the heap itself */
    EXPECT(failures(set_up, begin) == 2); /* the new space, and the list of logs */
    EXPECT(failures(set_up, begin_sized) == 2);
    EXPECT(failures(set_up, begin_larger) == 2 + tables); /* the tables grow, too */
    EXPECT(failures(set_up, put) == 0);
    EXPECT(failures(set_up_open, put) == 1);
    EXPECT(failures(set_up_full_log, put) == 2);
    EXPECT(failures(set_up, put_at) == 0);
    EXPECT(failures(set_up_open, put_at) == 1);
    EXPECT(failures(set_up_full_log, put_at) == 2);
    EXPECT(failures(set_up, put_number_at) == 0);
    EXPECT(failures(set_up_open, put_number_at) == 1);
    EXPECT(failures(set_up_full_log, put_number_at) == 2);
    EXPECT(failures(set_up, put_nil_at) == 0);
    EXPECT(failures(set_up_open, put_nil_at) == 1);
    EXPECT(failures(set_up, put_number) == 0);
    EXPECT(failures(set_up_open, put_number) == 1);
    EXPECT(failures(set_up, put_nil) == 0);
    EXPECT(failures(set_up_open, put_nil) == 1);
    EXPECT(failures(set_up, pair_at) == 0);
    EXPECT(failures(set_up_open, pair_at) == 1);
    EXPECT(failures(set_up_full_log, pair_at) == 2);
    EXPECT(failures(set_up, new_from_at) == 0);
    EXPECT(failures(set_up_open, new_from_at) == 1);
    EXPECT(failures(set_up, new_with_at) == 0);
    EXPECT(failures(set_up_open, new_with_at) == 1);
    EXPECT(failures(set_up, new_bytes) == 0);
    EXPECT(failures(set_up_open, new_bytes) == 1);
    EXPECT(failures(set_up_text, join) == 0);
    EXPECT(failures(set_up_text_open, join) == 1);
    EXPECT(failures(set_up_text, part) == 0);
    EXPECT(failures(set_up_text_open, part) == 1);
    EXPECT(failures(set_up_text, write_bytes) == 0);
    EXPECT(failures(set_up_text_open, write_bytes) == 1);
    EXPECT(failures(set_up_raw, write_words) == 0);
    EXPECT(failures(set_up_raw_open, write_words) == 1);
    EXPECT(failures(set_up_fill, fill) == 0);
    EXPECT(failures(set_up_fill_open, fill) == 1);
    EXPECT(failures(set_up_raw, write_raws) == 0);
    EXPECT(failures(set_up_raw_open, write_raws) == 1);
    EXPECT(failures(set_up_raw, copy_fields_at) == 0);
    EXPECT(failures(set_up_raw_open, copy_fields_at) == 1);
    sure_puts();
    EXPECT(failures(set_up, gather) == 0);
    EXPECT(failures(set_up_open, gather) == 1);
    EXPECT(failures(set_up, cons) == 0);
    EXPECT(failures(set_up_open, cons) == 1);
    EXPECT(failures(set_up, new_from) == 0);
    EXPECT(failures(set_up_open, new_from) == 1);
    EXPECT(failures(set_up, new_with) == 0);
    EXPECT(failures(set_up_open, new_with) == 1);
    EXPECT(failures(set_up_raw, raw_write) == 0);
    EXPECT(failures(set_up_raw_open, raw_write) == 1);
    EXPECT(failures(set_up_raw, copy_fields) == 0);
    EXPECT(failures(set_up_raw_open, copy_fields) == 1);
    EXPECT(failures(set_up_ready, check) == 5);
    EXPECT(failures(set_up_ready, flip) == flipping);
    EXPECT(failures(set_up, work_1) == 2);
    EXPECT(failures(set_up_ready, work_1) == flipping);
    EXPECT(failures(set_up, sized_work) == 2);
    EXPECT(failures(set_up_ready, sized_work) == flipping);
    EXPECT(failures(set_up, work_of_a_word) == 2);
    EXPECT(failures(set_up_ready, work_of_a_word) == flipping);
    EXPECT(failures(set_up_ready, paced_work) == flipping);
    EXPECT(failures(set_up_flipped, begin) == NONE);
    EXPECT(failures(set_up_flipped, begin_sized) == 2); /* another size takes no room that is left */
    EXPECT(failures(set_up_given_up, begin) == NONE);
    EXPECT(failures(set_up_ready_again, check) == 5);
    EXPECT(failures(set_up_ready_again, flip) == flipping);
    EXPECT(failures(set_up, touch) == 2); /* the space of the next collection, and the list of its logs */
    EXPECT(failures(set_up_open, touch) == NONE);
    EXPECT(failures(set_up_flipped, touch) == NONE);
    EXPECT(failures(set_up_given_up, touch) == NONE);
    work_before_a_failure();
    paced_work_before_a_failure();
    calls_that_do_not_allocate();
    failed_begin();
    starved();
    begin_after_a_refusal();
}

int main(void)
{
    checking = GCFLIP_ALONG;
    allocations(5, 0);
    checking = GCFLIP_AT_FLIP;
    allocations(0, 5); /* the certificate, its roots, and the checker's three tables */
    return 0;
}
