/* A heap whose collector works in a thread of its own, beside the program. The program stops for it at safepoints, and nowhere else. */
#include "heap_calls.h"
#include "pauses.h"
#include <gcflip_thread.h>
#include <inttypes.h>

_Static_assert(SLOTS <= GCFLIP_BESIDE_ROOTS, "each slot is the root with its number");

static gcflip_thread *thread;
static gcflip_mutator *mutator;
static gcflip_frame stack; /* all extra roots */

/* ---- Opening and closing */

/* The thread's code calls this after each flip, in the program's own thread. */
static void flipped(void *nothing)
{
    (void)nothing;
    run_after_flip();
}

static uint32_t open_words(uint32_t words, uint32_t extra_roots, FILE *trace)
{
    gcflip_pace pace = gcflip_pace_default();
    if (trace != NULL)
        stop("a trace of a heap with a collector's thread");
    uint32_t answer = gcflip_thread_open(&thread, words, extra_roots, &pace);
    if (answer == GCFLIP_DONE) {
        mutator = gcflip_thread_mutator(thread);
        gcflip_thread_on_flip(thread, flipped, NULL);
    }
    stack = (gcflip_frame){.end = extra_roots};
    return answer;
}

static void close_all(void)
{
    gcflip_thread_close(thread);
}

/* ---- Values in slots */

static uint32_t look(enum slot slot, gcflip_view *view)
{
    uint32_t answer;
    TIME_CALL(answer, gcflip_beside_look, mutator, slot, view);
    return answer;
}

static uint32_t move_value(enum slot to, enum slot from)
{
    uint32_t answer;
    TIME_CALL(answer, gcflip_beside_copy, mutator, to, from);
    return answer;
}

static uint32_t set_nil(enum slot slot)
{
    uint32_t answer;
    TIME_CALL(answer, gcflip_beside_set_nil, mutator, slot);
    return answer;
}

static uint32_t set_number(enum slot slot, uint64_t number)
{
    uint32_t answer;
    TIME_CALL(answer, gcflip_beside_set_number, mutator, slot, number);
    return answer;
}

static uint32_t same_values(enum slot first, enum slot second)
{
    uint32_t answer;
    TIME_CALL(answer, gcflip_beside_same, mutator, first, second);
    return answer;
}

/* ---- Extra roots: the stack */

static uint32_t push(enum slot value)
{
    uint32_t answer;
    TIME_CALL(answer, gcflip_beside_frame_push, mutator, value, &stack);
    return answer;
}

static uint32_t pop(enum slot to)
{
    uint32_t answer;
    TIME_CALL(answer, gcflip_beside_frame_pop, mutator, to, &stack);
    return answer;
}

static uint32_t clear_all_roots(void)
{
    uint32_t answer;
    stack.top = stack.first;
    TIME_CALL(answer, gcflip_beside_frame_trim, mutator, &stack, UINT32_MAX);
    return answer;
}

/* ---- Objects */

static uint32_t new_object(enum slot to, enum type type, uint32_t fields)
{
    uint32_t answer;
    TIME_CALL(answer, gcflip_beside_new, mutator, to, type, fields);
    return answer;
}

static uint32_t new_raw(enum slot to, enum type type, uint32_t fields)
{
    uint32_t answer;
    TIME_CALL(answer, gcflip_beside_new_raw, mutator, to, type, fields);
    return answer;
}

static uint32_t get_field(enum slot to, enum slot object, uint32_t field, uint64_t *number)
{
    uint32_t answer;
    TIME_CALL(answer, gcflip_beside_get, mutator, to, object, field, number);
    return answer;
}

static uint32_t put_field(enum slot object, uint32_t field, enum slot value)
{
    uint32_t answer;
    TIME_CALL(answer, gcflip_beside_put, mutator, object, field, value);
    return answer;
}

static uint32_t put_number(enum slot object, uint32_t field, uint64_t number)
{
    uint32_t answer;
    TIME_CALL(answer, gcflip_beside_put_number, mutator, object, field, number);
    return answer;
}

static uint32_t copy_fields(enum slot to, enum slot from, uint32_t fields)
{
    uint32_t answer;
    TIME_CALL(answer, gcflip_beside_copy_fields, mutator, to, 0, from, 0, fields);
    return answer;
}

/* ---- Addresses */

static uint32_t address(enum slot object, uint32_t *told)
{
    uint32_t answer;
    TIME_CALL(answer, gcflip_beside_address, mutator, object, told);
    return answer;
}

/* Comes within the call of a safepoint or a collection, whose time has this one. */
static uint32_t moved(uint32_t old, uint32_t *now)
{
    return gcflip_beside_moved(mutator, old, now);
}

static uint32_t refer_to(enum slot to, uint32_t place)
{
    uint32_t answer;
    TIME_CALL(answer, gcflip_beside_refer, mutator, to, place);
    return answer;
}

/* ---- Collecting */

static uint32_t safepoint_of_thread(void)
{
    uint32_t answer;
    TIME_CALL(answer, gcflip_thread_safepoint, thread);
    return answer;
}

/* The thread keeps its own pace: this waits for it if the program is ahead, or if the words are not free. The caller looks whether they are. */
static void pay(uint32_t words, uint32_t room)
{
    uint32_t answer;
    TIME_CALL(answer, gcflip_thread_reserve, thread, room + words);
    (void)answer;
}

static uint32_t collect(void)
{
    uint32_t answer;
    TIME_CALL(answer, gcflip_thread_collect, thread);
    return answer;
}

static uint32_t free_words(void)
{
    return gcflip_beside_room(mutator);
}

static void print_collections(FILE *file)
{
    gcflip_thread_counts counts = {0, 0, 0, 0, 0, 0, 0};
    gcflip_thread_read(thread, &counts);
    fprintf(file, "%" PRIu64 " collections in a thread stopped the program %" PRIu64 " times\n", counts.flips, counts.stops);
    fprintf(file, "%" PRIu64 " safepoints waited until the collector had caught up\n", counts.throttled);
    fprintf(file, "the longest wait of a safepoint took %.3f us\n", (double)counts.longest_wait / 1000);
}

const struct heap_calls heap_beside = {
    .open = open_words,
    .close = close_all,
    .look = look,
    .move = move_value,
    .set_nil = set_nil,
    .set_number = set_number,
    .same = same_values,
    .push_root = push,
    .pop_root = pop,
    .clear_roots = clear_all_roots,
    .new_object = new_object,
    .new_raw = new_raw,
    .get = get_field,
    .put = put_field,
    .put_number = put_number,
    .copy_fields = copy_fields,
    .address = address,
    .moved = moved,
    .refer = refer_to,
    .pay = pay,
    .safepoint = safepoint_of_thread,
    .collect = collect,
    .free_words = free_words,
    .print_collections = print_collections,
};
