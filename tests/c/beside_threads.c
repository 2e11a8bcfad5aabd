/* Random commands in the mutator's thread, compared with a plain machine that never collects, while a collector's thread collects all the time:
   beside_threads [COMMANDS [SEED [told]]]. Each schedule has another collector: one by gcflip_thread.h, and loops on the two handles that sleep at chosen
   points. */
#define _POSIX_C_SOURCE 200809L
#include "expect.h"
#include "gcflip_thread.h"
#include "random_numbers.h"
#include <pthread.h>
#include <sched.h>
#include <stdbool.h>
#include <stdint.h>
#include <string.h>
#include <time.h>

enum { WORDS = 1 << 13, EXTRA = 40, ROOTS = GCFLIP_BESIDE_ROOTS + EXTRA, MOST_FIELDS = 6 };

/* ---- The plain machine: objects are never moved or freed */

struct value {
    enum { IS_NIL, IS_NUMBER, IS_REFERENCE } is;
    uint64_t number; /* the number, or the object's place */
};

struct object {
    uint32_t kind, count;
    bool raw;
    struct value fields[MOST_FIELDS];
};

static struct object *objects;
static uint32_t made, room_for;
static struct value roots[ROOTS];

static uint32_t plain_seen(struct value value, gcflip_view *view)
{
    memset(view, 0, sizeof *view);
    if (value.is == IS_NIL)
        return GCFLIP_NIL;
    if (value.is == IS_NUMBER) {
        view->number = value.number;
        return GCFLIP_NUMBER;
    }
    view->kind = objects[value.number].kind;
    view->count = objects[value.number].count;
    return objects[value.number].raw ? GCFLIP_RAW_OBJECT : GCFLIP_OBJECT;
}

static void plain_new(uint32_t d, bool raw, uint32_t kind, uint32_t count)
{
    struct object *object;

    if (made == room_for) {
        room_for = room_for ? 2 * room_for : 1024;
        objects = realloc(objects, room_for * sizeof *objects);
        EXPECT(objects);
    }
    object = &objects[made];
    memset(object, 0, sizeof *object);
    object->kind = kind;
    object->count = count;
    object->raw = raw;
    for (uint32_t i = 0; i < count; i++)
        object->fields[i] = (struct value){raw ? IS_NUMBER : IS_NIL, 0};
    roots[d] = (struct value){IS_REFERENCE, made++};
}

static uint32_t plain_get(uint32_t d, uint32_t s, uint32_t i, uint64_t *number)
{
    gcflip_view view;
    uint32_t answer;

    if (roots[s].is != IS_REFERENCE)
        return GCFLIP_NO_OBJECT;
    if (i >= objects[roots[s].number].count)
        return GCFLIP_NO_FIELD;
    roots[d] = objects[roots[s].number].fields[i];
    answer = plain_seen(roots[d], &view);
    if (answer == GCFLIP_NUMBER)
        *number = view.number;
    return answer == GCFLIP_RAW_OBJECT ? GCFLIP_OBJECT : answer;
}

static uint32_t plain_write(uint32_t s, uint32_t i, struct value value)
{
    struct object *object;

    if (roots[s].is != IS_REFERENCE)
        return GCFLIP_NO_OBJECT;
    object = &objects[roots[s].number];
    if (i >= object->count)
        return GCFLIP_NO_FIELD;
    if (object->raw && value.is != IS_NUMBER)
        return GCFLIP_NO_NUMBER;
    object->fields[i] = value;
    return GCFLIP_DONE;
}

static uint32_t plain_put(uint32_t s, uint32_t i, uint32_t t)
{
    return plain_write(s, i, roots[t]);
}

static uint32_t plain_same(uint32_t s, uint32_t t)
{
    bool same = roots[s].is == roots[t].is && (roots[s].is == IS_NIL || roots[s].number == roots[t].number);

    return same ? GCFLIP_SAME : GCFLIP_NOT_SAME;
}

/* ---- The collectors */

/* A collector's thread: by the library's source, or a loop on the handles that collects without a pause. */
struct schedule {
    const char *name;
    bool by_source;
    uint32_t factor;       /* for the source: its pace */
    uint32_t sleep_beside; /* for the loop: nanoseconds that it sleeps after its steps, */
    uint32_t sleep_held;   /* while it holds the mutator, */
    uint32_t sleep_let_go; /* and after it has let it go */
    bool finishes;         /* it performs all steps while it holds the mutator */
    uint32_t whole_each;   /* the option of the heap: each flip with this number checks both spaces whole */
    uint32_t opened;       /* for the source: the words of the heap at its opening, which grows up to WORDS */
};

static const struct schedule schedules[] = {
    {"the source", true, 200, 0, 0, 0, false, 0, WORDS},
    {"the source, always due", true, 100, 0, 0, 0, false, 2, WORDS},
    {"the source, in a heap that grows", true, 150, 0, 0, 0, false, 5, 128},
    {"a loop", false, 0, 0, 0, 0, false, 0, WORDS},
    {"a loop that sleeps beside", false, 0, 200000, 0, 0, false, 1, WORDS},
    {"a loop that sleeps while it holds", false, 0, 0, 100000, 0, false, 0, WORDS},
    {"a loop that finishes, and sleeps after it", false, 0, 0, 0, 300000, true, 3, WORDS},
};

static const struct schedule *schedule;
static gcflip_thread *thread;
static gcflip_mutator own = GCFLIP_NO_END;
static gcflip_collector collector = GCFLIP_NO_END;
static pthread_mutex_t lock = PTHREAD_MUTEX_INITIALIZER;
static bool is_over;
static uint64_t loop_flips;

static bool over(void)
{
    bool told;

    pthread_mutex_lock(&lock);
    told = is_over;
    pthread_mutex_unlock(&lock);
    return told;
}

static void count_flip(void)
{
    pthread_mutex_lock(&lock);
    loop_flips++;
    pthread_mutex_unlock(&lock);
}

static uint64_t flips_of_loop(void)
{
    uint64_t flips;

    pthread_mutex_lock(&lock);
    flips = loop_flips;
    pthread_mutex_unlock(&lock);
    return flips;
}

static void sleeps(uint32_t nanoseconds)
{
    struct timespec time = {0, nanoseconds};

    if (nanoseconds)
        nanosleep(&time, NULL);
}

/* Waits for the other thread. Returns false if the run is over. */
static bool until_done(uint32_t (*call)(gcflip_collector *))
{
    uint32_t answer;

    while ((answer = call(&collector)) == GCFLIP_NOT_YET) {
        if (over())
            return false;
        gcflip_beside_work(&collector, 64);
        sched_yield();
    }
    EXPECT(answer == GCFLIP_DONE);
    return true;
}

/* Flips if little is left to do, or lets the mutator go on in the same space. */
static void held(void)
{
    uint32_t answer = GCFLIP_NOT_READY;

    sleeps(schedule->sleep_held);
    if (schedule->finishes)
        answer = gcflip_beside_finish(&collector);
    else {
        EXPECT(gcflip_beside_place_roots(&collector) == GCFLIP_DONE);
        if (gcflip_beside_work(&collector, 512) == GCFLIP_CLEAN)
            answer = gcflip_beside_flip(&collector);
    }
    EXPECT(answer == GCFLIP_NOT_READY || answer == GCFLIP_FLIPPED);
    if (answer == GCFLIP_NOT_READY)
        EXPECT(gcflip_beside_go(&collector) == GCFLIP_DONE);
    else {
        count_flip();
        EXPECT(gcflip_beside_prepare(&collector, WORDS) == GCFLIP_DONE);
    }
    sleeps(schedule->sleep_let_go);
}

static void *loop(void *argument)
{
    (void)argument;
    while (!over()) {
        while (gcflip_beside_work(&collector, 256) == GCFLIP_DONE)
            sleeps(schedule->sleep_beside);
        if (!until_done(gcflip_beside_ask) || !until_done(gcflip_beside_take))
            break;
        held();
    }
    return NULL;
}

/* ---- The mutator */

static gcflip_mutator *mutator(void)
{
    return schedule->by_source ? gcflip_thread_mutator(thread) : &own;
}

static void safepoint(void)
{
    if (schedule->by_source) {
        /* after one that does not wait, the mutator may have stopped */
        if (below(4) == 0) {
            gcflip_thread_try_safepoint(thread);
            return;
        }
        if (schedule->opened < WORDS && below(4) == 0) {
            EXPECT(gcflip_thread_reserve(thread, below(64)) != GCFLIP_NO_MEMORY);
            return;
        }
        EXPECT(gcflip_thread_safepoint(thread) == GCFLIP_DONE);
        return;
    }
    if (gcflip_beside_safepoint(&own) == GCFLIP_DONE)
        return;
    while (gcflip_beside_resume(&own) == GCFLIP_NOT_YET)
        sched_yield();
}

/* Waits for a flip. */
static void wait_for_flip(void)
{
    uint64_t flips;

    if (schedule->by_source) {
        EXPECT(gcflip_thread_collect(thread) == GCFLIP_FLIPPED);
        return;
    }
    flips = flips_of_loop();
    while (flips_of_loop() == flips) {
        safepoint();
        sched_yield();
    }
}

/* After a command that found no room. Objects that live may fill the heap, so each third time half of the roots become nil. */
static void make_room(uint32_t time)
{
    if (time % 3 == 2)
        for (uint32_t k = 0; k < ROOTS; k += 2) {
            EXPECT(gcflip_beside_set_nil(mutator(), k) == GCFLIP_DONE);
            roots[k] = (struct value){IS_NIL, 0};
        }
    wait_for_flip();
}

static void make(uint32_t d, bool raw)
{
    uint32_t kind = below(256), count = below(MOST_FIELDS + 1), answer, times = 0;

    for (;;) {
        answer = raw ? gcflip_beside_new_raw(mutator(), d, kind, count) : gcflip_beside_new(mutator(), d, kind, count);
        if (answer != GCFLIP_FULL)
            break;
        make_room(times++);
        EXPECT(times < 100000);
    }
    EXPECT(answer == GCFLIP_MADE);
    plain_new(d, raw, kind, count);
}

/* The fields of a pair may take the value of its own root, which refers to the pair by then. */
static void make_pair(uint32_t d, uint32_t s, uint32_t t)
{
    uint32_t kind = below(256), answer, times = 0;

    while ((answer = gcflip_beside_new_pair(mutator(), d, kind, s, t)) == GCFLIP_FULL) {
        make_room(times++);
        EXPECT(times < 100000);
    }
    EXPECT(answer == GCFLIP_MADE);
    plain_new(d, false, kind, 2);
    EXPECT(plain_put(d, 0, s) == GCFLIP_DONE && plain_put(d, 1, t) == GCFLIP_DONE);
}

/* An object of the values of roots in a row, or of any roots. */
static void make_of_roots(uint32_t d)
{
    uint32_t kind = below(256), count = below(MOST_FIELDS + 1), first = below(ROOTS - count + 1), places[MOST_FIELDS], answer, times = 0;
    bool in_row = below(2);

    for (uint32_t i = 0; i < count; i++)
        places[i] = in_row ? first + i : below(8) ? below(ROOTS) : d;
    while ((answer = in_row ? gcflip_beside_gather(mutator(), d, kind, first, count) : gcflip_beside_new_from(mutator(), d, kind, places, count)) == GCFLIP_FULL) {
        make_room(times++);
        EXPECT(times < 100000);
    }
    EXPECT(answer == GCFLIP_MADE);
    plain_new(d, false, kind, count);
    for (uint32_t i = 0; i < count; i++)
        EXPECT(plain_put(d, i, places[i]) == GCFLIP_DONE);
}

/* Some of the roots in a row become nil, or take the fields of an object. */
static void roots_in_row(uint32_t s)
{
    uint32_t count = below(MOST_FIELDS + 1), first = below(ROOTS - count + 1), answer = GCFLIP_DONE;
    uint64_t number;

    if (below(4) == 0) {
        EXPECT(gcflip_beside_clear(mutator(), first, first + count) == GCFLIP_DONE);
        for (uint32_t k = 0; k < count; k++)
            roots[first + k] = (struct value){IS_NIL, 0};
        return;
    }
    if (s >= first && s - first < count)
        answer = GCFLIP_OUT_OF_RANGE;
    else if (roots[s].is != IS_REFERENCE)
        answer = GCFLIP_NO_OBJECT;
    else if (objects[roots[s].number].count < count)
        answer = GCFLIP_NO_FIELD;
    EXPECT(gcflip_beside_spread(mutator(), first, s, count) == answer);
    for (uint32_t k = 0; answer == GCFLIP_DONE && k < count; k++)
        plain_get(first + k, s, k, &number);
}

/* Whether the object in a root has so many fields from one on, or why not. */
static uint32_t plain_row(uint32_t s, uint32_t first, uint32_t count)
{
    if (roots[s].is != IS_REFERENCE)
        return GCFLIP_NO_OBJECT;
    return first + count > objects[roots[s].number].count ? GCFLIP_NO_FIELD : GCFLIP_DONE;
}

static void fill_fields(uint32_t s, uint32_t t)
{
    uint32_t from = below(MOST_FIELDS), to = from + below(MOST_FIELDS), answer = plain_row(s, 0, to);

    if (answer == GCFLIP_DONE && objects[roots[s].number].raw && roots[t].is != IS_NUMBER)
        answer = GCFLIP_NO_NUMBER;
    EXPECT(gcflip_beside_fill(mutator(), s, from, to, t) == answer);
    for (uint32_t i = from; answer == GCFLIP_DONE && i < to; i++)
        plain_put(s, i, t);
}

static void copy_fields(uint32_t d, uint32_t s)
{
    uint32_t to = below(MOST_FIELDS), from = below(MOST_FIELDS), count = below(MOST_FIELDS), answer, other;

    answer = plain_row(d, to, count);
    other = plain_row(s, from, count);
    if (other == GCFLIP_NO_OBJECT || answer == GCFLIP_DONE)
        answer = answer == GCFLIP_NO_OBJECT ? answer : other;
    if (answer == GCFLIP_DONE && objects[roots[d].number].raw)
        for (uint32_t k = 0; k < count; k++)
            if (objects[roots[s].number].fields[from + k].is != IS_NUMBER)
                answer = GCFLIP_NO_NUMBER;
    EXPECT(gcflip_beside_copy_fields(mutator(), d, to, s, from, count) == answer);
    for (uint32_t k = 0; answer == GCFLIP_DONE && k < count; k++)
        plain_write(d, to + k, objects[roots[s].number].fields[from + k]);
}

static void raw_numbers(uint32_t s)
{
    uint32_t first = below(MOST_FIELDS), count = below(MOST_FIELDS), answer = plain_row(s, first, count);
    uint64_t words[MOST_FIELDS], before;
    bool writes = below(2);

    for (uint32_t k = 0; k < MOST_FIELDS; k++)
        words[k] = below(1000);
    before = words[0];
    if (roots[s].is != IS_REFERENCE || !objects[roots[s].number].raw)
        answer = GCFLIP_NO_OBJECT;
    if (writes) {
        EXPECT(gcflip_beside_raw_write(mutator(), s, first, words, count) == answer);
        for (uint32_t k = 0; answer == GCFLIP_DONE && k < count; k++)
            plain_write(s, first + k, (struct value){IS_NUMBER, words[k]});
        return;
    }
    EXPECT(gcflip_beside_raw_read(mutator(), s, first, words, count) == answer);
    EXPECT(answer == GCFLIP_DONE || words[0] == before);
    for (uint32_t k = 0; answer == GCFLIP_DONE && k < count; k++)
        EXPECT(words[k] == objects[roots[s].number].fields[first + k].number);
}

static void peek(uint32_t s, uint32_t i)
{
    gcflip_view view, plain_view;
    uint32_t answer = plain_row(s, i, 1);

    memset(&view, 0, sizeof view);
    memset(&plain_view, 0, sizeof plain_view);
    if (answer == GCFLIP_DONE)
        answer = plain_seen(objects[roots[s].number].fields[i], &plain_view);
    EXPECT(gcflip_beside_peek(mutator(), s, i, &view) == answer);
    EXPECT(memcmp(&view, &plain_view, sizeof view) == 0);
}

/* The commands that perform many at once. */
static void command_in_bulk(uint32_t d, uint32_t s, uint32_t i)
{
    switch (below(7)) {
    case 0: make_of_roots(d); break;
    case 1: roots_in_row(s); break;
    case 2: fill_fields(d, s); break;
    case 3: copy_fields(d, s); break;
    case 4: raw_numbers(s); break;
    default: peek(s, i); break;
    }
}

static void command(void)
{
    uint32_t d = below(ROOTS), s = below(ROOTS), i = below(MOST_FIELDS + 1), which = below(26);
    uint64_t number = 5, plain_number = 5, n = below(3) ? below(100) : state >> 1;
    gcflip_view view, plain_view;
    uint32_t answer;

    /* it may have stopped at a safepoint that did not wait */
    if (schedule->by_source && gcflip_beside_roots(mutator()) == 0)
        EXPECT(gcflip_thread_safepoint(thread) == GCFLIP_DONE);
    if (which < 3)
        make(d, which == 2);
    else if (which == 3) {
        EXPECT(gcflip_beside_set_number(mutator(), d, n) == GCFLIP_DONE);
        roots[d] = (struct value){IS_NUMBER, n};
    } else if (which == 4) {
        EXPECT(gcflip_beside_set_nil(mutator(), d) == GCFLIP_DONE);
        roots[d] = (struct value){IS_NIL, 0};
    } else if (which == 5) {
        EXPECT(gcflip_beside_copy(mutator(), d, s) == GCFLIP_DONE);
        roots[d] = roots[s];
    } else if (which < 9) {
        answer = gcflip_beside_get(mutator(), d, s, i, &number);
        EXPECT(answer == plain_get(d, s, i, &plain_number) && number == plain_number);
    } else if (which < 13) {
        answer = gcflip_beside_put(mutator(), d, i, s);
        EXPECT(answer == plain_put(d, i, s));
    } else if (which == 16) {
        EXPECT(gcflip_beside_put_number(mutator(), d, i, n) == plain_write(d, i, (struct value){IS_NUMBER, n}));
    } else if (which == 17) {
        EXPECT(gcflip_beside_put_nil(mutator(), d, i) == plain_write(d, i, (struct value){IS_NIL, 0}));
    } else if (which > 19) {
        command_in_bulk(d, s, i);
    } else if (which > 17) {
        make_pair(d, s, below(8) ? below(ROOTS) : d);
    } else if (which == 13) {
        EXPECT(gcflip_beside_same(mutator(), d, s) == plain_same(d, s));
    } else {
        memset(&view, 0, sizeof view);
        EXPECT(gcflip_beside_look(mutator(), d, &view) == plain_seen(roots[d], &plain_view));
        EXPECT(memcmp(&view, &plain_view, sizeof view) == 0);
    }
    if (below(8) == 0)
        safepoint();
}

/* The flips by their number, and no others, were checked whole. */
static void expect_checks(const gcflip_flip_checks *checks, uint64_t flips)
{
    EXPECT(checks->along + checks->whole == flips);
    EXPECT(checks->whole == (schedule->whole_each ? flips / schedule->whole_each : 0));
}

static uint64_t runs(uint64_t commands)
{
    pthread_t other;
    gcflip_thread_counts counts;
    gcflip_flip_checks checks;
    gcflip_beside_options options = gcflip_beside_options_default(schedule->opened);

    made = 0;
    memset(roots, 0, sizeof roots);
    options.extra_roots = EXTRA;
    options.whole_each = schedule->whole_each;
    if (schedule->by_source) {
        gcflip_pace pace = gcflip_pace_default();

        pace.factor = schedule->factor;
        pace.least = 0;
        EXPECT(gcflip_thread_open_with(&thread, &options, &pace) == GCFLIP_DONE);
        gcflip_thread_growing(thread, WORDS);
    } else {
        is_over = false;
        loop_flips = 0;
        EXPECT(gcflip_beside_open_with(&own, &collector, &options) == GCFLIP_DONE);
        EXPECT(pthread_create(&other, NULL, loop, NULL) == 0);
    }
    for (uint64_t k = 0; k < commands; k++) {
        command();
        if (k == commands / 2)
            wait_for_flip();
    }
    if (schedule->by_source) {
        /* while the mutator runs, no flip comes between the two reads */
        EXPECT(gcflip_thread_safepoint(thread) == GCFLIP_DONE);
        gcflip_thread_read(thread, &counts);
        gcflip_thread_flip_checks(thread, &checks);
        EXPECT(schedule->opened == WORDS || gcflip_thread_size(thread) > schedule->opened);
        gcflip_thread_close(thread);
        expect_checks(&checks, counts.flips);
        EXPECT(counts.failed == 0);
        return counts.flips;
    }
    pthread_mutex_lock(&lock);
    is_over = true;
    pthread_mutex_unlock(&lock);
    /* the mutator may have been asked, so the collector's close finds it running or stopped */
    gcflip_beside_safepoint(&own);
    EXPECT(pthread_join(other, NULL) == 0);
    EXPECT(gcflip_beside_flip_checks(&collector, &checks) == GCFLIP_DONE);
    expect_checks(&checks, flips_of_loop());
    EXPECT(gcflip_beside_close_collector(&collector) == GCFLIP_DONE);
    EXPECT(gcflip_beside_resume(&own) == GCFLIP_DONE);
    EXPECT(gcflip_beside_close_mutator(&own) == GCFLIP_DONE);
    return flips_of_loop();
}

int main(int count, char **words)
{
    uint64_t commands = count > 1 ? strtoull(words[1], NULL, 10) : 100000;

    for (size_t k = 0; k < COUNT(schedules); k++) {
        uint64_t flips;

        state = (count > 2 ? strtoull(words[2], NULL, 10) : 1) * 0x9e3779b97f4a7c15ull + k + 1;
        schedule = &schedules[k];
        flips = runs(commands);
        EXPECT(flips > 0);
        if (count > 3)
            printf("%s: %llu flips\n", schedule->name, (unsigned long long)flips);
    }
    free(objects);
    return 0;
}
