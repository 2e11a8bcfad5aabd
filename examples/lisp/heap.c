/* The layer over the two heaps: each function makes one of the calls of heap_calls.h, and checks the answer. Room for allocations is found in
 * `find_room` and `wait_for_room`. */
#include "heap.h"
#include "errors.h"
#include "heap_calls.h"
#include <inttypes.h>
#include <stdlib.h>

enum { WORDS_PER_ROOT = 2, MOST_ROOTS = 1048576, MOST_AFTER_FLIP = 2 };

static const struct heap_calls *calls;
static uint32_t size;
static uint32_t extra_roots;
static uint32_t room;      /* words that stay free for the REPL */
static uint64_t allocated; /* words */
static uint64_t waits;     /* whole collections that an allocation waited for */
static bool was_full;      /* an allocation ended in an error */

static void (*after_flip[MOST_AFTER_FLIP])(void);
static int after_flips; /* the number of these functions */

void stop(const char *call)
{
    fprintf(stderr, "lisp: a bug of the Lisp itself: %s\n", call);
    abort();
}

static _Noreturn void fail_without_memory(void)
{
    fail("out of memory: the system has none for the collector");
}

static void check_answer(uint32_t answer, const char *call)
{
    if (answer == GCFLIP_NO_MEMORY)
        fail_without_memory();
    if (GCFLIP_IS_REFUSED(answer))
        stop(call);
}

static void check_reply(bool is_right, const char *call)
{
    if (!is_right)
        stop(call);
}

/* Makes a call on the heap, and checks its answer. */
#define CALL_HEAP(reply, name, ...)         \
    do {                                    \
        (reply) = calls->name(__VA_ARGS__); \
        check_answer((reply), #name);       \
    } while (0)

/* The same for a call that must return this reply. */
#define EXPECT_REPLY(wanted, name, ...)       \
    do {                                      \
        uint32_t told;                        \
        CALL_HEAP(told, name, __VA_ARGS__);   \
        check_reply(told == (wanted), #name); \
    } while (0)

/* ---- Opening and closing */

bool open_heap(uint32_t words, FILE *trace, bool is_beside)
{
    uint32_t roots = words / WORDS_PER_ROOT;
    calls = is_beside ? &heap_beside : &heap_by_steps;
    size = words;
    if (trace == NULL)
        extra_roots = roots < MOST_ROOTS ? roots : MOST_ROOTS;
    return calls->open(words, extra_roots, trace) == GCFLIP_DONE;
}

void close_heap(void)
{
    calls->close();
}

uint32_t heap_size(void)
{
    return size;
}

/* ---- Values in slots */

/* What a look saw. An object's kind is its type. */
static enum type type_seen(uint32_t reply, const gcflip_view *view)
{
    if (reply == GCFLIP_NIL)
        return EMPTY;
    return reply == GCFLIP_NUMBER ? INTEGER : (enum type)view->kind;
}

static uint32_t look(enum slot slot, gcflip_view *view)
{
    uint32_t reply;
    CALL_HEAP(reply, look, slot, view);
    return reply;
}

enum type type_of(enum slot slot)
{
    gcflip_view view = {0, 0, 0};
    uint32_t reply = look(slot, &view);
    return type_seen(reply, &view);
}

void move(enum slot to, enum slot from)
{
    EXPECT_REPLY(GCFLIP_DONE, move, to, from);
}

void clear(enum slot slot)
{
    EXPECT_REPLY(GCFLIP_DONE, set_nil, slot);
}

bool same(enum slot first, enum slot second)
{
    uint32_t reply;
    CALL_HEAP(reply, same, first, second);
    return reply == GCFLIP_SAME;
}

/* An integer is a number modulo 2^63. */
void set_integer(enum slot slot, int64_t integer)
{
    EXPECT_REPLY(GCFLIP_DONE, set_number, slot, (uint64_t)integer & INT64_MAX);
}

int64_t integer_in(enum slot slot)
{
    gcflip_view view = {0, 0, 0};
    check_reply(look(slot, &view) == GCFLIP_NUMBER, "integer_in");
    int64_t number = (int64_t)view.number;
    return number <= MOST_INTEGER ? number : number - INT64_MAX - 1;
}

/* ---- Extra roots */

bool has_extra_roots(void)
{
    return extra_roots > 0;
}

void push_root(enum slot value)
{
    uint32_t answer = calls->push_root(value);
    if (answer == GCFLIP_FRAME_FULL)
        fail("the stack is full: it has %u values (--heap WORDS makes it larger)", extra_roots);
    check_reply(answer == GCFLIP_DONE, "push_root");
}

bool pop_root(enum slot to)
{
    uint32_t answer = calls->pop_root(to);
    check_reply(answer == GCFLIP_DONE || answer == GCFLIP_FRAME_EMPTY, "pop_root");
    return answer == GCFLIP_DONE;
}

void clear_roots(void)
{
    check_reply(calls->clear_roots() == GCFLIP_DONE, "clear_roots");
}

/* ---- Fields */

uint32_t field_count(enum slot object)
{
    gcflip_view view = {0, 0, 0};
    look(object, &view);
    return view.count;
}

/* Returns GCFLIP_NIL, GCFLIP_NUMBER or GCFLIP_OBJECT. */
static uint32_t read_field(enum slot to, enum slot object, uint32_t field, uint64_t *number)
{
    uint32_t reply;
    CALL_HEAP(reply, get, to, object, field, number);
    check_reply(reply != GCFLIP_NO_OBJECT && reply != GCFLIP_NO_FIELD, "get");
    return reply;
}

/* `get` does not read the object that it finds, so its type needs a `look`. */
enum type get(enum slot to, enum slot object, uint32_t field)
{
    uint64_t number = 0;
    uint32_t reply = read_field(to, object, field, &number);
    if (reply == GCFLIP_OBJECT)
        return type_of(to);
    return reply == GCFLIP_NIL ? EMPTY : INTEGER;
}

uint64_t get_word(enum slot object, uint32_t field)
{
    uint64_t number = 0;
    read_field(WORD, object, field, &number);
    return number;
}

void put(enum slot object, uint32_t field, enum slot value)
{
    EXPECT_REPLY(GCFLIP_DONE, put, object, field, value);
}

void put_word(enum slot object, uint32_t field, uint64_t word)
{
    EXPECT_REPLY(GCFLIP_DONE, put_number, object, field, word);
}

void copy_all_fields(enum slot to, enum slot from)
{
    EXPECT_REPLY(GCFLIP_DONE, copy_fields, to, from, field_count(from));
}

/* ---- Addresses */

uint32_t address_of(enum slot object)
{
    uint32_t address = 0;
    EXPECT_REPLY(GCFLIP_DONE, address, object, &address);
    return address;
}

bool follow(uint32_t *address)
{
    uint32_t answer;
    CALL_HEAP(answer, moved, *address, address);
    check_reply(answer == GCFLIP_DONE || answer == GCFLIP_NO_OBJECT, "moved");
    return answer == GCFLIP_DONE;
}

void refer(enum slot to, uint32_t address)
{
    EXPECT_REPLY(GCFLIP_DONE, refer, to, address);
}

void after_each_flip(void (*function)(void))
{
    check_reply(after_flips < MOST_AFTER_FLIP, "after_each_flip");
    after_flip[after_flips++] = function;
}

void run_after_flip(void)
{
    for (int i = 0; i < after_flips; i++)
        after_flip[i]();
}

/* ---- Collecting */

void safepoint(void)
{
    if (calls->safepoint != NULL)
        check_reply(calls->safepoint() == GCFLIP_DONE, "safepoint");
}

static bool has_room(uint32_t words)
{
    return calls->free_words() >= room + words;
}

/* Collects until there is room for an object, or the heap is full. An open collection may copy garbage; one that begins now copies only
 * live data. It has to free some more words too, so that the next allocations do not wait. */
static void wait_for_room(uint32_t words)
{
    uint32_t wanted = words + size / 64;
    was_full = true;
    for (int i = 0; i < 2 && !has_room(wanted); i++) {
        waits++;
        uint32_t answer = calls->collect();
        check_answer(answer, "collect");
        check_reply(answer == GCFLIP_FLIPPED, "collect");
    }
    if (!has_room(wanted))
        fail("the heap is full: %u of its %u words are in use, and %u more are needed (--heap WORDS makes it larger)",
             size - calls->free_words(), size, words);
    was_full = false;
}

static void find_room(uint32_t words)
{
    calls->pay(words, room);
    if (!has_room(words))
        wait_for_room(words);
    allocated += words;
}

void make(enum slot to, enum type type, uint32_t fields)
{
    find_room(fields + 2);
    EXPECT_REPLY(GCFLIP_MADE, new_object, to, type, fields);
}

void make_raw(enum slot to, enum type type, uint32_t fields)
{
    find_room(fields + 2);
    EXPECT_REPLY(GCFLIP_MADE, new_raw, to, type, fields);
}

/* ---- Room */

bool reserve_room(void)
{
    uint32_t words = size / 32;
    if (calls->free_words() < 2 * words)
        return false;
    room = words;
    return true;
}

void restore_room(void)
{
    if (was_full) {
        room = 0;
        calls->collect();
        was_full = !reserve_room();
    }
}

void print_heap_totals(FILE *file)
{
    calls->print_collections(file);
    fprintf(file, "%" PRIu64 " words were allocated, %.1f times the heap\n", allocated, (double)allocated / size);
    fprintf(file, "%" PRIu64 " whole collections held up an allocation\n", waits);
}
