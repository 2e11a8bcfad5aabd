/* The machine on the proved heap whose collector works in a thread of its own: registers are the first roots, and both stacks are extra roots.
 * A safepoint comes before each block of words that the program allocates or writes, as the incremental heap asks its pace there. */
#include "gcflip_thread.h"
#include <malloc.h>

enum { MUST_FREE = 0, KIND = 1, SCRATCH = 15, STACK_PLACE = GCFLIP_BESIDE_ROOTS, DEEP_PLACE = STACK_PLACE + STACK, WORDS_OF_MEGABYTE = 65536 };
/* So many words go from one safepoint to the next, unless an object has more. A write counts as a word. */
enum { BLOCK = 64 };

static gcflip_thread *thread;
static gcflip_mutator *mutator;
static gcflip_thread_counts counts; /* at the end */
static uint64_t number;
static unsigned depth, high; /* the places of the stack from `depth` to `high` are those of values that were popped */
static uint32_t deep_top, deep_high;
static long credit; /* the words until the next safepoint */
static unsigned long collections;

static inline void expect(uint32_t answer, uint32_t wanted, const char *what)
{
    if (answer != wanted)
        give_up(what);
}

static inline void set_nil(uint32_t d)
{
    expect(gcflip_beside_set_nil(mutator, d), GCFLIP_DONE, "set_nil");
}

/* Clears the places of values that were popped. It comes before each safepoint, so that no collection finds them. */
static inline void clear_popped(void)
{
    if (high > depth)
        expect(gcflip_beside_clear(mutator, STACK_PLACE + depth, STACK_PLACE + high), GCFLIP_DONE, "clear");
    high = depth;
}

/* Makes a safepoint, unless so many words are left until the next one. */
static inline void pass(long words)
{
    if (credit < words) {
        clear_popped();
        expect(gcflip_thread_safepoint(thread), GCFLIP_DONE, "safepoint");
        credit = words > BLOCK ? words : BLOCK;
    }
    credit -= words;
}

/* Waits for a flip, since the heap is full. */
static void collect(void)
{
    clear_popped();
    expect(gcflip_thread_collect(thread), GCFLIP_FLIPPED, "collect");
    credit = 0;
    waits++;
}

/* Makes the object, after a flip if the heap has no room for it. */
#define MADE(call)                            \
    do {                                      \
        uint32_t answer_ = call;              \
        if (answer_ == GCFLIP_MADE)           \
            break;                            \
        expect(answer_, GCFLIP_FULL, "new");  \
        collect();                            \
    } while (1)

static inline void copy(int d, int s)
{
    expect(gcflip_beside_copy(mutator, (uint32_t)d, (uint32_t)s), GCFLIP_DONE, "copy");
}

static inline void make(int d, int fields)
{
    pass(fields + 2);
    MADE(gcflip_beside_new(mutator, (uint32_t)d, KIND, (uint32_t)fields));
}

static inline void make_numbers(int d, int fields)
{
    pass(fields + 2);
    MADE(gcflip_beside_new_raw(mutator, (uint32_t)d, KIND, (uint32_t)fields));
}

static inline void make_pair(int d, int s, int t)
{
    pass(4);
    MADE(gcflip_beside_new_pair(mutator, (uint32_t)d, KIND, (uint32_t)s, (uint32_t)t));
}

static inline void write_slot(int s, int i, int t)
{
    pass(1);
    expect(gcflip_beside_put(mutator, (uint32_t)s, (uint32_t)i, (uint32_t)t), GCFLIP_DONE, "put");
}

static inline void write_number(int s, int i, uint64_t n)
{
    pass(1);
    expect(gcflip_beside_put_number(mutator, (uint32_t)s, (uint32_t)i, n), GCFLIP_DONE, "put_number");
}

static inline void push_root(int s)
{
    pass(1);
    copy(STACK_PLACE + (int)depth++, s);
    high = high > depth ? high : depth;
}

static inline void new_object(int d, int fields) { TIMED(make(d, fields)); }
static inline void new_numbers(int d, int fields) { TIMED(make_numbers(d, fields)); }
static inline void new_pair(int d, int s, int t) { TIMED(make_pair(d, s, t)); }
static inline void put(int s, int i, int t) { TIMED(write_slot(s, i, t)); }
static inline void put_number(int s, int i, uint64_t n) { TIMED(write_number(s, i, n)); }
static inline void push(int s) { TIMED(push_root(s)); }

static inline uint32_t seen(int d, int s, int i)
{
    uint32_t answer = gcflip_beside_get(mutator, (uint32_t)d, (uint32_t)s, (uint32_t)i, &number);
    if (answer < GCFLIP_NIL)
        give_up("get");
    return answer;
}

static inline void get(int d, int s, int i) { seen(d, s, i); }
static inline bool get_object(int d, int s, int i) { return seen(d, s, i) == GCFLIP_OBJECT; }

static inline uint64_t get_number(int s, int i)
{
    expect(seen(SCRATCH, s, i), GCFLIP_NUMBER, "number");
    return number;
}

static inline void move(int d, int s) { copy(d, s); }
static inline bool same(int a, int b) { return gcflip_beside_same(mutator, (uint32_t)a, (uint32_t)b) == GCFLIP_SAME; }

static inline void pop(int d)
{
    copy(d, STACK_PLACE + (int)--depth);
}

static inline void push_deep(int s)
{
    if (deep_top == options.deep)
        give_up("push");
    copy(DEEP_PLACE + (int)deep_top++, s);
    deep_high = deep_high > deep_top ? deep_high : deep_top;
}

static inline void pop_deep(int d)
{
    if (deep_top == 0)
        give_up("pop");
    deep_high = deep_high > deep_top ? deep_high : deep_top - 1;
    copy(d, DEEP_PLACE + (int)--deep_top);
    set_nil(DEEP_PLACE + deep_top);
}

static inline void drop_deep(uint32_t left) { deep_top = left; }

static inline void trim(uint32_t most)
{
    uint32_t low = deep_high - deep_top > most ? deep_high - most : deep_top;
    expect(gcflip_beside_clear(mutator, DEEP_PLACE + low, DEEP_PLACE + deep_high), GCFLIP_DONE, "clear");
    deep_high = low;
}

static inline void trim_deep(uint32_t most)
{
    if (deep_high > deep_top)
        TIMED(trim(most));
}

static inline void free_object(int s) { (void)s; }

static void open_memory(void)
{
    /* Lets glibc keep freed blocks, as for the other heaps. */
    mallopt(M_MMAP_THRESHOLD, 64 << 20);
    mallopt(M_TRIM_THRESHOLD, 128 << 20);
    /* Both spaces have their memory already, so a collection that begins late takes no more. */
    gcflip_pace pace = gcflip_pace_default();
    pace.least = UINT32_MAX;
    expect(gcflip_thread_open(&thread, (uint32_t)(options.megabytes * WORDS_OF_MEGABYTE), STACK + options.deep, &pace), GCFLIP_DONE, "open");
    mutator = gcflip_thread_mutator(thread);
}

static void close_memory(void)
{
    gcflip_thread_read(thread, &counts);
    collections = counts.flips;
    if (counts.failed != 0)
        give_up("a flip");
    gcflip_thread_close(thread);
}

#define HAS_WAITS
/* Prints the waits at safepoints, with times in milliseconds. */
static void print_waits(void)
{
    printf(" stops=%llu throttled=%llu waited=%.3f longest_wait=%.3f", (unsigned long long)counts.stops, (unsigned long long)counts.throttled,
           (double)counts.waited / 1e6, (double)counts.longest_wait / 1e6);
}
