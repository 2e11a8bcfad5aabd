/* A heap whose collector works in the calls of the program. The collector's pace is in `pay`; README.md derives it. */
#include "heap_calls.h"
#include "pauses.h"
#include <gcflip_record.h>
#include <inttypes.h>

/* The recorder performs `work` by single steps. If nothing is recorded, one call does it. */
#undef gcflip_heap_work

/* A recording takes the shared slots 14 and 15. */
enum { MUTATOR = 0, STEPS_PER_WORD = 5, SPARE = 14 };

_Static_assert(WORD < SYMBOLS && SLOTS <= SYMBOLS + SPARE, "a mutator has 16 slots of its own, and there are 14 shared ones");

/* Returns the root of a slot: the shared slots, which are SYMBOLS and those behind it, are the first 16 roots, and the mutator's own follow. A recording
 * writes all of them as they are. */
static uint32_t place_of(enum slot slot)
{
    return slot < SYMBOLS ? 16 + (uint32_t)slot : (uint32_t)slot - SYMBOLS;
}

FILE *gcflip_trace;

static gcflip_heap heap = GCFLIP_NO_HEAP;
static uint32_t size;
static uint32_t writes; /* writes since the last payment */
static uint64_t flips;
static uint64_t pairs; /* copied objects of all flips */

static gcflip_frame stack; /* all extra roots */

/* ---- Opening and closing */

static uint32_t open_words(uint32_t words, uint32_t extra_roots, FILE *trace)
{
    gcflip_options options = gcflip_options_default(words, MUTATOR + 1);
    gcflip_trace = trace;
    gcflip_trace_spare = SPARE;
    size = words;
    options.extra_roots = extra_roots;
    stack.end = extra_roots;
    return gcflip_heap_open(&heap, &options);
}

static void close_all(void)
{
    gcflip_heap_close(&heap);
}

/* ---- Values in slots */

static uint32_t look(enum slot slot, gcflip_view *view)
{
    uint32_t answer;
    TIME_CALL(answer, gcflip_look, &heap, place_of(slot), view);
    return answer;
}

static uint32_t move_value(enum slot to, enum slot from)
{
    uint32_t answer;
    TIME_CALL(answer, gcflip_copy, &heap, place_of(to), place_of(from));
    return answer;
}

static uint32_t set_nil(enum slot slot)
{
    uint32_t answer;
    TIME_CALL(answer, gcflip_set_nil, &heap, place_of(slot));
    return answer;
}

static uint32_t set_number(enum slot slot, uint64_t number)
{
    uint32_t answer;
    TIME_CALL(answer, gcflip_set_number, &heap, place_of(slot), number);
    return answer;
}

static uint32_t same_values(enum slot first, enum slot second)
{
    uint32_t answer;
    TIME_CALL(answer, gcflip_same, &heap, place_of(first), place_of(second));
    return answer;
}

/* ---- Extra roots */

static uint32_t push(enum slot value)
{
    uint32_t answer;
    TIME_CALL(answer, gcflip_heap_frame_push, &heap, MUTATOR, (uint8_t)value, &stack);
    return answer;
}

static uint32_t pop(enum slot to)
{
    uint32_t answer;
    TIME_CALL(answer, gcflip_heap_frame_pop, &heap, MUTATOR, (uint8_t)to, &stack);
    return answer;
}

static uint32_t clear_all_roots(void)
{
    uint32_t answer;
    stack.top = 0;
    TIME_CALL(answer, gcflip_heap_frame_trim, &heap, &stack, UINT32_MAX);
    return answer;
}

/* ---- Objects */

static uint32_t new_object(enum slot to, enum type type, uint32_t fields)
{
    uint32_t answer;
    TIME_CALL(answer, gcflip_new, &heap, place_of(to), type, fields);
    return answer;
}

static uint32_t new_raw(enum slot to, enum type type, uint32_t fields)
{
    uint32_t answer;
    TIME_CALL(answer, gcflip_new_raw, &heap, place_of(to), type, fields);
    return answer;
}

static uint32_t get_field(enum slot to, enum slot object, uint32_t field, uint64_t *number)
{
    uint32_t answer;
    TIME_CALL(answer, gcflip_get, &heap, place_of(to), place_of(object), field, number);
    return answer;
}

static uint32_t put_field(enum slot object, uint32_t field, enum slot value)
{
    uint32_t answer;
    TIME_CALL(answer, gcflip_put, &heap, MUTATOR, place_of(object), field, place_of(value));
    writes += answer == GCFLIP_DONE;
    return answer;
}

static uint32_t put_number(enum slot object, uint32_t field, uint64_t number)
{
    uint32_t answer;
    TIME_CALL(answer, gcflip_put_number, &heap, MUTATOR, place_of(object), field, number);
    writes += answer == GCFLIP_DONE;
    return answer;
}

static uint32_t copy_fields(enum slot to, enum slot from, uint32_t fields)
{
    uint32_t answer;
    TIME_CALL(answer, gcflip_copy_fields, &heap, MUTATOR, place_of(to), 0, place_of(from), 0, fields);
    writes += answer == GCFLIP_DONE ? fields : 0;
    return answer;
}

/* ---- Addresses */

static uint32_t address(enum slot object, uint32_t *told)
{
    uint32_t answer;
    TIME_CALL(answer, gcflip_address, &heap, place_of(object), told);
    return answer;
}

static uint32_t moved(uint32_t old, uint32_t *now)
{
    uint32_t answer;
    TIME_CALL(answer, gcflip_moved, &heap, old, now);
    return answer;
}

static uint32_t refer_to(enum slot to, uint32_t place)
{
    uint32_t answer;
    TIME_CALL(answer, gcflip_refer, &heap, place_of(to), place);
    return answer;
}

/* ---- Collecting */

static gcflip_counts read_counts(void)
{
    gcflip_counts counts = {0, 0, 0, 0, 0, 0, 0, 0, 0, 0, 0, 0};
    uint32_t answer;
    TIME_CALL(answer, gcflip_heap_counts, &heap, &counts);
    if (answer != GCFLIP_DONE)
        stop("counts");
    return counts;
}

static uint32_t free_words(void)
{
    return read_counts().free;
}

/* Performs at most this many units of work: GCFLIP_FLIPPED, GCFLIP_DONE or GCFLIP_NO_MEMORY. */
static uint32_t work(uint32_t most)
{
    static struct call_times times = {"gcflip_heap_work", 0, 0, 0, NULL};
    gcflip_work made = {0, 0, 0, 0, 0};
    begin_pause();
    uint32_t answer = gcflip_trace ? gcflip_record_work(&heap, most, &made) : gcflip_heap_work(&heap, most, &made);
    bool flipped = made.last == GCFLIP_FLIPPED;
    end_pause(&times, flipped ? made.pairs : 0);
    if (answer == GCFLIP_NO_MEMORY)
        return answer;
    if (answer != GCFLIP_DONE || made.last == GCFLIP_NO_ROOM || made.last == GCFLIP_FLIP_REFUSED)
        stop("work");
    if (!flipped)
        return GCFLIP_DONE;
    flips++;
    pairs += made.pairs;
    run_after_flip();
    return GCFLIP_FLIPPED;
}

/* The runway: a collection begins when fewer words are left. It is a quarter of the maximum of live words, which is two thirds of what programs may
 * use. */
static uint32_t runway(uint32_t room)
{
    return (size - 1 - room + 2 + 5) / 6;
}

/* Pays for the object, and for the writes since the last payment. If the system has no memory, the next payment tries again: this is not an error as
 * long as the heap has room. */
static void pay(uint32_t words, uint32_t room)
{
    gcflip_counts counts = read_counts();
    if (counts.is_open || counts.free < room + runway(room) + words)
        work(STEPS_PER_WORD * words + writes);
    writes = 0;
}

static uint32_t collect(void)
{
    uint32_t answer = GCFLIP_DONE;
    while (answer == GCFLIP_DONE)
        answer = work(UINT32_MAX);
    writes = 0;
    return answer;
}

static void print_collections(FILE *file)
{
    gcflip_flip_checks checks = {0, 0};
    uint32_t answer = gcflip_heap_flip_checks(&heap, &checks);
    if (answer != GCFLIP_DONE)
        stop("flip_checks");
    fprintf(file, "%" PRIu64 " flips were checked along, and %" PRIu64 " whole\n", checks.along, checks.whole);
    fprintf(file, "%" PRIu64 " collections copied %" PRIu64 " objects\n", flips, pairs);
}

const struct heap_calls heap_by_steps = {
    .open = open_words,
    .close = close_all,
    .look = look,
    .move = move_value,
    .set_nil = set_nil,
    .set_number = set_number,
    .same = same_values,
    .push_root = push,
    .pop_root = pop,
    .clear_roots = clear_all_roots,
    .new_object = new_object,
    .new_raw = new_raw,
    .get = get_field,
    .put = put_field,
    .put_number = put_number,
    .copy_fields = copy_fields,
    .address = address,
    .moved = moved,
    .refer = refer_to,
    .pay = pay,
    .safepoint = NULL,
    .collect = collect,
    .free_words = free_words,
    .print_collections = print_collections,
};
