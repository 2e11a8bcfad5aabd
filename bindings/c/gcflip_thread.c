/* A collector's thread for a heap of gcflip_beside.h. This file is not proved, unlike the calls that it makes. Tests run it.
 *
 * Each handle is used by its own thread alone. The lock guards the words in between: what is due, whether the mutator has stopped, and what was
 * done. The thread sleeps on `called` while nothing is due, and a mutator that has stopped or waits for steps sleeps on `let_go`. At a stop each of them looks
 * at the other one's flag for some microseconds before it sleeps, since most stops take no longer. */
#define _GNU_SOURCE /* for sched_getaffinity */

#include "gcflip_thread.h"

#include <pthread.h>
#include <sched.h>
#include <stdbool.h>
#include <stdlib.h>
#include <time.h>

/* The steps between two looks at whether the heap is being closed, or the mutator's log is long. After them a mutator that waits learns how far the
 * collector is. */
#define STEPS_BESIDE 512u

/* The steps that the collector performs at most while it holds the mutator, before it lets it go on in the same space. */
#define STEPS_HELD 1024u

/* After so many safepoints, and so many steps, the collector takes the mutator's log while it still copies. So the log that it takes last is short. */
#define SAFEPOINTS_OF_LOG 128u
#define STEPS_OF_LOG 8192u

/* If the mutator writes faster than the collector applies, the collector stops it after so many steps, and holds it for so many. It holds it longer after
 * each so many stops in a row that were not enough, so that a collection ends. */
#define STEPS_LATE 1024u
#define STEPS_HELD_LATE 2048u
#define STOPS_LATE 64u

/* The tries to flip of one collection after which the collector performs all steps that are left, so that each collection ends. */
#define MOST_TRIES 64u

/* The steps for which one safepoint waits at most, and the time in nanoseconds, while the mutator has a sixteenth of the room to spare. */
#define MOST_STEPS_WAITED 2048u
#define MOST_TIME_WAITED 200000u

/* How often a thread looks at a flag before it sleeps, and the pauses between two looks. A pause takes some tens of nanoseconds. */
#define LOOKS 100u
#define PAUSES 4u

/* What one thread writes often lies at least so many bytes from what the other one writes. */
#define LINE 64

struct gcflip_thread {
    gcflip_beside_options options; /* as the heap was opened, */
    uint32_t factor, least;        /* and with its pace */
    uint32_t looks;                /* before a thread sleeps: none if both threads share a processor */

    /* the mutator's thread alone */
    gcflip_mutator mutator;
    uint32_t size;       /* the words of the heap in which the mutator runs */
    uint32_t kept;       /* those in use after its last flip */
    uint32_t floor;      /* a safepoint that finds fewer free words calls the collector, or lets it catch up */
    bool has_called;     /* a collection is under way */
    uint32_t begun;      /* the free words when it was called for */
    uint64_t expected;   /* the steps that it takes if it is like the last one */
    uint32_t safepoints; /* those since the mutator last stopped */
    uint64_t seen_ends;  /* the ends of collections that the mutator has seen */
    uint32_t left;       /* the free words at the last safepoint */
    bool has_waited;     /* a safepoint of this collection waited for steps */
    uint32_t used;       /* the words that were allocated while the last collection was under way, or NOTHING_KNOWN */
    bool has_stopped;    /* at a safepoint, and has not gone on */
    uint64_t stopped;    /* when it did */
    void (*on_flip)(void *argument);
    void *argument;
    uint64_t followed;      /* the flips after which `on_flip` was called, or would have been */
    uint64_t time_followed; /* the time that its calls took, together */
    bool is_following;      /* it is being called */

    /* the collector's thread alone */
    _Alignas(LINE) gcflip_collector collector;
    uint32_t prepared; /* the words of the next space, or 0 if the memory of the next flip is not made */
    uint32_t stops;    /* those of the collection that is under way */
    uint64_t since;    /* the steps since the last of them */
    uint32_t late;     /* the last stops in a row at which entries of an earlier log were left, or at least 1 after a try to flip in vain */

    _Alignas(LINE) pthread_t thread;
    pthread_mutex_t lock;
    pthread_cond_t called; /* for the collector: something is due, the mutator has stopped or gone on, or the heap is being closed */
    pthread_cond_t let_go; /* for the mutator: it may go on, is asked to stop, or the collector has got on */

    /* under the lock */
    bool is_open; /* the thread has tried to open the heap, with the answer `opened` */
    uint32_t opened;
    bool due;
    bool is_asked;
    bool is_parked;
    bool is_let_go;
    bool is_closing;
    bool has_long_log;   /* the mutator has made many safepoints since it last stopped */
    uint64_t steps;      /* those beside the mutator, of the collection that is under way */
    uint64_t wanted;     /* the steps for which the mutator waits, or NEVER */
    uint64_t last_steps; /* those of the last collection that flipped */
    bool has_failed;     /* the collection that ended last, so that its copies are left to the next one */
    uint32_t most;       /* the words up to which the heap grows; 0 if it does not */
    uint32_t words;      /* those of the heap since the last flip */
    uint32_t next;       /* those that the next space is to have, no fewer */
    gcflip_thread_counts counts;
    gcflip_flip_checks checks;
};

/* No number of steps, and no number of words. */
#define NEVER UINT64_MAX
#define NOTHING_KNOWN UINT32_MAX

static uint64_t now(void)
{
    struct timespec time;

    clock_gettime(CLOCK_MONOTONIC, &time);
    return (uint64_t)time.tv_sec * 1000000000u + (uint64_t)time.tv_nsec;
}

/* Waits until a flag of the other thread has this value, or the heap is being closed. Looks at it for a while before it sleeps. The caller has the lock. */
static void waits_for(gcflip_thread *thread, pthread_cond_t *woken, const bool *flag, bool value)
{
    for (uint32_t look = 0; look < thread->looks && *flag != value && !thread->is_closing; look++) {
        pthread_mutex_unlock(&thread->lock);
        for (uint32_t k = 0; k < PAUSES; k++) {
            __builtin_ia32_pause();
        }
        pthread_mutex_lock(&thread->lock);
    }
    while (*flag != value && !thread->is_closing) {
        pthread_cond_wait(woken, &thread->lock);
    }
}

/* ---- The collector's thread */

/* Waits until the mutator has gone on since it last stopped, asks it to stop, and waits until it has. Returns false if the heap is being closed. */
static bool stops(gcflip_thread *thread)
{
    bool closing;

    pthread_mutex_lock(&thread->lock);
    waits_for(thread, &thread->called, &thread->is_parked, false);
    if (!thread->is_closing) {
        gcflip_beside_ask(&thread->collector);
        thread->is_asked = true;
        pthread_cond_signal(&thread->let_go);
    }
    waits_for(thread, &thread->called, &thread->is_parked, true);
    thread->is_asked = false;
    thread->has_long_log = false;
    closing = thread->is_closing;
    pthread_mutex_unlock(&thread->lock);
    thread->stops++;
    thread->since = 0;
    return !closing;
}

/* Takes the mutator and copies the objects of its roots. Flips if few steps are left. Returns the answer of the flip, or GCFLIP_NOT_READY. */
static uint32_t flips_held(gcflip_thread *thread)
{
    if (gcflip_beside_take(&thread->collector) != GCFLIP_DONE || gcflip_beside_place_roots(&thread->collector) != GCFLIP_DONE) {
        return GCFLIP_NOT_READY;
    }
    if (gcflip_beside_work(&thread->collector, STEPS_HELD) != GCFLIP_CLEAN) {
        return GCFLIP_NOT_READY;
    }
    return gcflip_beside_flip(&thread->collector);
}

/* Lets the mutator go on, and counts a collection that has ended. */
static void lets_go(gcflip_thread *thread, uint32_t answer)
{
    if (answer != GCFLIP_FLIPPED) {
        gcflip_beside_go(&thread->collector);
    }
    pthread_mutex_lock(&thread->lock);
    thread->counts.flips += answer == GCFLIP_FLIPPED;
    if (answer == GCFLIP_FLIPPED) {
        thread->has_failed = false;
        thread->words = thread->prepared;
        thread->next = thread->words;
        gcflip_beside_flip_checks(&thread->collector, &thread->checks);
        thread->last_steps = thread->steps;
        if (thread->stops > thread->counts.most_stops) {
            thread->counts.most_stops = thread->stops;
        }
    }
    if (answer == GCFLIP_NO_MEMORY) {
        thread->has_failed = true;
        thread->counts.failed++;
    }
    thread->is_let_go = true;
    pthread_cond_signal(&thread->let_go);
    pthread_mutex_unlock(&thread->lock);
}

/* Takes the mutator's log at a stop of its own. If entries of an earlier log are left, applies some of them first. Returns false if the heap is being
 * closed. */
static bool takes_log(gcflip_thread *thread)
{
    if (!stops(thread)) {
        return false;
    }
    if (gcflip_beside_take(&thread->collector) == GCFLIP_DONE) {
        thread->late = 0;
    } else {
        thread->late++;
        gcflip_beside_work(&thread->collector, STEPS_HELD_LATE * (1 + thread->late / STOPS_LATE));
        gcflip_beside_take(&thread->collector);
    }
    lets_go(thread, GCFLIP_NOT_READY);
    return true;
}

/* Whether the collector takes the log now. */
static bool wants_log(const gcflip_thread *thread, bool has_long_log)
{
    return thread->late > 0 ? thread->since >= STEPS_LATE : has_long_log && thread->since >= STEPS_OF_LOG;
}

/* Tells the mutator how far the collector is. Returns false if the heap is being closed. */
static bool tells(gcflip_thread *thread, uint32_t steps, bool *has_long_log)
{
    bool closing;

    pthread_mutex_lock(&thread->lock);
    thread->steps += steps;
    if (thread->wanted <= thread->steps) {
        pthread_cond_signal(&thread->let_go);
    }
    *has_long_log = thread->has_long_log;
    closing = thread->is_closing;
    pthread_mutex_unlock(&thread->lock);
    return !closing;
}

/* Performs steps beside the mutator until none is left, and takes its log whenever that is long. Returns false if the heap is being closed. */
static bool works_beside(gcflip_thread *thread)
{
    uint32_t answer = GCFLIP_DONE;

    while (answer == GCFLIP_DONE) {
        bool has_long_log;

        answer = gcflip_beside_work(&thread->collector, STEPS_BESIDE);
        thread->since += STEPS_BESIDE;
        if (!tells(thread, answer == GCFLIP_DONE ? STEPS_BESIDE : 0, &has_long_log)) {
            return false;
        }
        if (answer == GCFLIP_DONE && wants_log(thread, has_long_log) && !takes_log(thread)) {
            return false;
        }
    }
    return true;
}

/* Returns the words that the next space is to have. If the heap may grow, the mutator says so once it has gone on, since it alone knows how many are in
 * use. */
static uint32_t next_size(gcflip_thread *thread)
{
    uint32_t size;

    pthread_mutex_lock(&thread->lock);
    if (thread->words < thread->most) {
        waits_for(thread, &thread->called, &thread->is_parked, false);
    }
    size = thread->next;
    pthread_mutex_unlock(&thread->lock);
    return size;
}

/* Makes the memory of a flip to a space of so many words, in the place of what was prepared. Returns false, and leaves that, if there is none. */
static bool makes_space(gcflip_thread *thread, uint32_t size)
{
    if (gcflip_beside_prepare(&thread->collector, size) != GCFLIP_DONE) {
        return false;
    }
    thread->prepared = size;
    return true;
}

/* Makes the memory of the next flip, beside the mutator. If there is none for a larger space, what was prepared stays, or the space has the size of the heap.
 * Returns false if there is none for that either. */
static bool prepares(gcflip_thread *thread)
{
    uint32_t next = next_size(thread);

    if (thread->prepared == next || makes_space(thread, next) || thread->prepared != 0) {
        return true;
    }
    return thread->words < next && makes_space(thread, thread->words);
}

/* One collection, until it flips or memory runs out. The first stop is for the roots. */
static void collects(gcflip_thread *thread)
{
    uint32_t answer = GCFLIP_NOT_READY;

    if (!prepares(thread)) {
        lets_go(thread, GCFLIP_NO_MEMORY);
        return;
    }
    thread->stops = 0;
    thread->late = 0;
    for (uint32_t tries = 1; answer == GCFLIP_NOT_READY; tries++) {
        if (!works_beside(thread) || !stops(thread)) {
            return;
        }
        answer = flips_held(thread);
        if (answer == GCFLIP_NOT_READY && tries >= MOST_TRIES) {
            answer = gcflip_beside_finish(&thread->collector);
        }
        thread->late = tries > 1;
        lets_go(thread, answer);
    }
    if (answer == GCFLIP_FLIPPED) {
        thread->prepared = 0;
        prepares(thread);
    }
}

static void *run(void *argument)
{
    gcflip_thread *thread = argument;
    bool closing = false;
    uint32_t opened = gcflip_beside_open_with(&thread->mutator, &thread->collector, &thread->options);

    pthread_mutex_lock(&thread->lock);
    thread->opened = opened;
    thread->is_open = true;
    thread->prepared = thread->options.size;
    pthread_cond_signal(&thread->let_go);
    pthread_mutex_unlock(&thread->lock);
    while (!closing) {
        pthread_mutex_lock(&thread->lock);
        while (!thread->due && !thread->is_closing) {
            pthread_cond_wait(&thread->called, &thread->lock);
        }
        thread->due = false;
        closing = thread->is_closing;
        pthread_mutex_unlock(&thread->lock);
        if (!closing) {
            collects(thread);
        }
    }
    return NULL;
}

/* ---- The mutator's thread */

static uint32_t room(gcflip_thread *thread)
{
    return gcflip_beside_room(&thread->mutator);
}

static uint64_t greater(uint64_t a, uint64_t b)
{
    return a > b ? a : b;
}

/* Twice the words of the heap and so many more, or the most that it may have if that is less. The caller has the lock. */
static uint32_t larger(const gcflip_thread *thread, uint32_t words)
{
    uint64_t wanted = 2 * (uint64_t)thread->words + words, most = greater(thread->most, thread->words);

    return (uint32_t)(wanted < most ? wanted : most);
}

/* Tells the collector the words of the next space. It is larger if the last flip left more than half of the heap in use. The caller has the lock. */
static void plans(gcflip_thread *thread)
{
    thread->next = 2 * (uint64_t)thread->kept > thread->words ? larger(thread, 0) : thread->words;
}

/* The words in use at which a collection begins at the latest, after one that left so many. If nothing waited during that one, so much room is enough as is
 * twice what was allocated meanwhile, but at least an eighth of the heap. */
static uint64_t latest(const gcflip_thread *thread, uint32_t left)
{
    uint64_t halfway = ((uint64_t)left + thread->size) / 2, room = greater(2 * (uint64_t)thread->used, thread->size / 8);

    return thread->used == NOTHING_KNOWN || room > thread->size ? halfway : greater(halfway, thread->size - room);
}

/* The words in use at which a collection begins, after one that left so many: but for `latest`, gcflip_pace_due has the same policy. */
static uint32_t beginning(const gcflip_thread *thread, uint32_t left)
{
    uint64_t grown = greater((uint64_t)thread->factor * left / 100, thread->least), last = latest(thread, left);

    return (uint32_t)(grown < last ? grown : last);
}

/* No collection is under way. The next one begins where its beginning is reached. */
static void rests(gcflip_thread *thread)
{
    thread->has_called = false;
    thread->floor = thread->size - beginning(thread, thread->size - room(thread)) + 1;
}

/* The room below which the mutator waits at each safepoint, however many steps were performed. Below half of it, it waits for the end. */
static uint32_t spare(const gcflip_thread *thread)
{
    return thread->begun / 8;
}

/* The room below which the mutator waits: seven eighths of what there was before the first step, a quarter after the steps that are expected, and one
 * eighth after as many steps as words were in use. Few collections take more steps. */
static uint32_t floor_after(const gcflip_thread *thread, uint64_t steps)
{
    uint64_t begun = thread->begun, most = thread->size - thread->begun, expected = thread->expected < most ? thread->expected : most;
    uint64_t quarter = begun / 4;

    if (steps < expected) {
        return (uint32_t)(begun - begun / 8 - (begun - begun / 8 - quarter) * steps / expected);
    }
    if (steps < most) {
        return (uint32_t)(quarter - (quarter - spare(thread)) * (steps - expected) / (most - expected));
    }
    return spare(thread);
}

/* Wakes the collector for a collection, unless one is under way. */
static void calls(gcflip_thread *thread)
{
    if (thread->has_called) {
        return;
    }
    thread->has_called = true;
    thread->has_waited = false;
    thread->begun = room(thread);
    thread->safepoints = 0;
    pthread_mutex_lock(&thread->lock);
    thread->due = true;
    thread->steps = 0;
    thread->expected = thread->last_steps == 0 ? thread->size : thread->last_steps + thread->last_steps / 4;
    pthread_cond_signal(&thread->called);
    pthread_mutex_unlock(&thread->lock);
}

static uint64_t ends(const gcflip_thread *thread)
{
    return thread->counts.flips + thread->counts.failed;
}

/* Notes that a collection has ended, if it has. The caller has the lock. */
static void sees_ends(gcflip_thread *thread)
{
    if (thread->seen_ends != ends(thread)) {
        thread->seen_ends = ends(thread);
        thread->used = thread->has_waited ? NOTHING_KNOWN : thread->begun - thread->left;
        thread->size = thread->words;
        if (!thread->has_failed) {
            thread->kept = thread->size - room(thread);
            plans(thread);
        }
        rests(thread);
    }
}

/* Remembers the longest wait of a safepoint. The caller has the lock. */
static void keeps_longest(gcflip_thread *thread, uint64_t waited)
{
    if (waited > thread->counts.longest_wait) {
        thread->counts.longest_wait = waited;
    }
}

/* Tells the collector that the mutator has stopped. */
static void parks(gcflip_thread *thread)
{
    thread->has_stopped = true;
    thread->stopped = now();
    pthread_mutex_lock(&thread->lock);
    thread->is_let_go = false;
    thread->is_parked = true;
    pthread_cond_signal(&thread->called);
    pthread_mutex_unlock(&thread->lock);
}

/* Tells the collector that the mutator goes on. The caller has the lock. */
static void goes_on(gcflip_thread *thread)
{
    uint64_t waited = now() - thread->stopped;

    thread->has_stopped = false;
    thread->is_parked = false;
    pthread_cond_signal(&thread->called);
    thread->safepoints = 0;
    sees_ends(thread);
    thread->counts.stops++;
    thread->counts.waited += waited;
    keeps_longest(thread, waited);
}

/* The mutator has gone on: calls the program if it went through a flip. The caller does not have the lock. */
static void follows(gcflip_thread *thread)
{
    uint64_t begun, flips = gcflip_beside_flips(&thread->mutator);

    if (flips == thread->followed) {
        return;
    }
    thread->followed = flips;
    if (thread->on_flip != NULL) {
        begun = now();
        thread->is_following = true;
        thread->on_flip(thread->argument);
        thread->is_following = false;
        thread->time_followed += now() - begun;
    }
}

/* Waits until the mutator, which has stopped, may go on. */
static void waits(gcflip_thread *thread)
{
    pthread_mutex_lock(&thread->lock);
    waits_for(thread, &thread->let_go, &thread->is_let_go, true);
    while (gcflip_beside_resume(&thread->mutator) == GCFLIP_NOT_YET) {
        pthread_cond_wait(&thread->let_go, &thread->lock);
    }
    goes_on(thread);
    pthread_mutex_unlock(&thread->lock);
    follows(thread);
}

/* Stops the mutator if the collector asks for it, unless it has stopped already. Returns whether it has stopped. */
static bool stops_here(gcflip_thread *thread)
{
    if (!thread->has_stopped && gcflip_beside_safepoint(&thread->mutator) == GCFLIP_PARKED) {
        parks(thread);
    }
    return thread->has_stopped;
}

/* Lets the mutator, which has stopped, go on if the collector has let it. Returns whether it runs. */
static bool tries_to_go_on(gcflip_thread *thread)
{
    bool runs;

    pthread_mutex_lock(&thread->lock);
    runs = thread->is_let_go && gcflip_beside_resume(&thread->mutator) == GCFLIP_DONE;
    if (runs) {
        goes_on(thread);
    }
    pthread_mutex_unlock(&thread->lock);
    if (runs) {
        follows(thread);
    }
    return runs;
}

/* Sleeps until `is_over`, which is asked with the lock, or until this time. Stops meanwhile whenever the collector asks for it. */
static void stands_by(gcflip_thread *thread, bool (*is_over)(const gcflip_thread *thread, uint64_t argument), uint64_t argument, uint64_t until)
{
    struct timespec time = {(time_t)(until / 1000000000u), (long)(until % 1000000000u)};

    for (;;) {
        bool over = false;

        pthread_mutex_lock(&thread->lock);
        while (!over && !thread->is_asked) {
            over = is_over(thread, argument) || (until == NEVER ? pthread_cond_wait(&thread->let_go, &thread->lock) : pthread_cond_timedwait(&thread->let_go, &thread->lock, &time)) != 0;
        }
        pthread_mutex_unlock(&thread->lock);
        if (over) {
            return;
        }
        if (stops_here(thread)) {
            waits(thread);
        }
    }
}

/* The collector has performed the steps for which the mutator waits, or the collection has ended. */
static bool has_caught_up(const gcflip_thread *thread, uint64_t wanted)
{
    return !thread->has_called || thread->seen_ends != ends(thread) || thread->steps >= wanted;
}

/* Looks how many steps the collector has performed. Returns whether the mutator has less room than they let it have. The caller has the lock. */
static bool is_ahead_of(gcflip_thread *thread, uint32_t free_words)
{
    sees_ends(thread);
    if (thread->has_called) {
        thread->floor = floor_after(thread, thread->steps);
    }
    return thread->has_called && free_words < thread->floor;
}

/* Stands by, and counts this as a wait of a safepoint. Stops meanwhile are a part of it. */
static void waits_counted(gcflip_thread *thread, bool (*is_over)(const gcflip_thread *thread, uint64_t argument), uint64_t argument, uint64_t longest)
{
    uint64_t begun = now(), before = thread->counts.waited, others = thread->time_followed, waited;

    thread->has_waited = true;
    stands_by(thread, is_over, argument, longest == NEVER ? NEVER : begun + longest);
    waited = now() - begun - (thread->time_followed - others);
    pthread_mutex_lock(&thread->lock);
    thread->counts.throttled++;
    thread->counts.waited = before + waited;
    keeps_longest(thread, waited);
    pthread_mutex_unlock(&thread->lock);
}

/* The mutator has less room than the steps that it knows of let it have: looks how many there are now. Then lets the collector perform some more if that is
 * still too little, or all if little room is left. */
static void falls_back(gcflip_thread *thread)
{
    uint64_t wanted;
    uint32_t free_words = room(thread);
    bool is_ahead;

    pthread_mutex_lock(&thread->lock);
    is_ahead = is_ahead_of(thread, free_words);
    wanted = free_words > spare(thread) / 2 ? thread->steps + MOST_STEPS_WAITED : NEVER;
    thread->wanted = is_ahead ? wanted : NEVER;
    pthread_mutex_unlock(&thread->lock);
    if (!is_ahead) {
        return;
    }
    waits_counted(thread, has_caught_up, wanted, wanted == NEVER ? NEVER : MOST_TIME_WAITED);
    pthread_mutex_lock(&thread->lock);
    is_ahead_of(thread, free_words);
    thread->wanted = NEVER;
    pthread_mutex_unlock(&thread->lock);
}

/* Tells the collector that the mutator's log may be long. */
static void asks_for_stop(gcflip_thread *thread)
{
    pthread_mutex_lock(&thread->lock);
    thread->has_long_log = true;
    pthread_mutex_unlock(&thread->lock);
}

/* Notes a safepoint at which the mutator runs. Wakes the collector if a collection is due. Returns whether little room is left. */
static bool passes(gcflip_thread *thread)
{
    if (thread->has_called && ++thread->safepoints == SAFEPOINTS_OF_LOG) {
        asks_for_stop(thread);
    }
    if (room(thread) >= thread->floor) {
        return false;
    }
    calls(thread);
    return true;
}

uint32_t gcflip_thread_safepoint(gcflip_thread *thread)
{
    if (thread->is_following) {
        return GCFLIP_DONE;
    }
    if (!thread->has_stopped) {
        thread->left = room(thread);
    }
    if (stops_here(thread)) {
        waits(thread);
    }
    if (passes(thread)) {
        falls_back(thread);
    }
    return GCFLIP_DONE;
}

uint32_t gcflip_thread_try_safepoint(gcflip_thread *thread)
{
    bool is_ahead;

    if (thread->is_following) {
        return GCFLIP_DONE;
    }
    if (!thread->has_stopped) {
        thread->left = room(thread);
    }
    if (stops_here(thread) && !tries_to_go_on(thread)) {
        return GCFLIP_PARKED;
    }
    if (!passes(thread)) {
        return GCFLIP_DONE;
    }
    pthread_mutex_lock(&thread->lock);
    is_ahead = is_ahead_of(thread, room(thread));
    pthread_mutex_unlock(&thread->lock);
    return is_ahead ? GCFLIP_NOT_YET : GCFLIP_DONE;
}

static bool has_ended(const gcflip_thread *thread, uint64_t so_far)
{
    return ends(thread) != so_far;
}

/* Lets the next collection take a larger space, which has room for so many words more. One that is under way keeps its own. */
static void grows(gcflip_thread *thread, uint32_t words)
{
    if (thread->has_called) {
        return;
    }
    pthread_mutex_lock(&thread->lock);
    thread->next = larger(thread, words);
    pthread_mutex_unlock(&thread->lock);
}

/* Whether a collection that is called for now copies only what is live when it begins. One that is under way, or that failed, has copies from before. */
static bool begins_anew(gcflip_thread *thread)
{
    bool has_copies;

    pthread_mutex_lock(&thread->lock);
    sees_ends(thread);
    has_copies = thread->has_called || thread->has_failed;
    pthread_mutex_unlock(&thread->lock);
    return !has_copies;
}

/* Waits for the end of the collection that is under way, or of one that it calls for. Counts this as a wait of a safepoint if it is one. */
static uint32_t ends_one(gcflip_thread *thread, bool is_counted)
{
    uint64_t so_far, flips;
    bool has_flipped;

    if (thread->has_stopped) {
        waits(thread);
    }
    pthread_mutex_lock(&thread->lock);
    sees_ends(thread);
    so_far = ends(thread);
    flips = thread->counts.flips;
    pthread_mutex_unlock(&thread->lock);
    calls(thread);
    thread->has_waited = true;
    if (is_counted) {
        waits_counted(thread, has_ended, so_far, NEVER);
    } else {
        stands_by(thread, has_ended, so_far, NEVER);
    }
    pthread_mutex_lock(&thread->lock);
    sees_ends(thread);
    has_flipped = thread->counts.flips != flips;
    pthread_mutex_unlock(&thread->lock);
    return has_flipped ? GCFLIP_FLIPPED : GCFLIP_NO_MEMORY;
}

uint32_t gcflip_thread_collect(gcflip_thread *thread)
{
    return thread->is_following ? GCFLIP_NO_MEMORY : ends_one(thread, false);
}

uint32_t gcflip_thread_reserve(gcflip_thread *thread, uint32_t words)
{
    bool is_last = false;

    gcflip_thread_safepoint(thread);
    while (room(thread) < words) {
        uint32_t size = thread->size;

        if (is_last || thread->is_following) {
            return GCFLIP_FULL;
        }
        is_last = begins_anew(thread);
        grows(thread, words);
        if (ends_one(thread, true) != GCFLIP_FLIPPED) {
            return GCFLIP_NO_MEMORY;
        }
        is_last = is_last && thread->size == size;
    }
    return GCFLIP_DONE;
}

void gcflip_thread_growing(gcflip_thread *thread, uint32_t most)
{
    pthread_mutex_lock(&thread->lock);
    thread->most = most;
    plans(thread);
    pthread_mutex_unlock(&thread->lock);
}

uint32_t gcflip_thread_size(const gcflip_thread *thread)
{
    return thread->size;
}

void gcflip_thread_on_flip(gcflip_thread *thread, void (*function)(void *argument), void *argument)
{
    thread->on_flip = function;
    thread->argument = argument;
}

gcflip_mutator *gcflip_thread_mutator(gcflip_thread *thread)
{
    return &thread->mutator;
}

void gcflip_thread_read(gcflip_thread *thread, gcflip_thread_counts *counts)
{
    pthread_mutex_lock(&thread->lock);
    *counts = thread->counts;
    pthread_mutex_unlock(&thread->lock);
}

void gcflip_thread_flip_checks(gcflip_thread *thread, gcflip_flip_checks *checks)
{
    pthread_mutex_lock(&thread->lock);
    *checks = thread->checks;
    pthread_mutex_unlock(&thread->lock);
}

/* ---- Opening and closing */

/* Makes a condition variable for waits by the monotonic clock. Returns false if the system refuses it. */
static bool makes_timed(pthread_cond_t *made)
{
    pthread_condattr_t options;
    bool is_made;

    if (pthread_condattr_init(&options) != 0) {
        return false;
    }
    is_made = pthread_condattr_setclock(&options, CLOCK_MONOTONIC) == 0 && pthread_cond_init(made, &options) == 0;
    pthread_condattr_destroy(&options);
    return is_made;
}

/* Makes the lock and the condition variables. Returns false if the system refuses one. */
static bool makes_lock(gcflip_thread *thread)
{
    if (pthread_mutex_init(&thread->lock, NULL) != 0) {
        return false;
    }
    if (pthread_cond_init(&thread->called, NULL) == 0) {
        if (makes_timed(&thread->let_go)) {
            return true;
        }
        pthread_cond_destroy(&thread->called);
    }
    pthread_mutex_destroy(&thread->lock);
    return false;
}

static void drops_lock(gcflip_thread *thread)
{
    pthread_cond_destroy(&thread->let_go);
    pthread_cond_destroy(&thread->called);
    pthread_mutex_destroy(&thread->lock);
}

/* Returns whether this thread may run on one processor only, so that the two threads would wait for each other's turn. */
static bool has_one_processor(void)
{
    cpu_set_t set;

    return sched_getaffinity(0, sizeof set, &set) == 0 && CPU_COUNT(&set) == 1;
}

/* Starts the thread, which opens the heap, so that both ends' memory comes from where the thread's own later memory does. Returns the answer of the opening. */
static uint32_t starts(gcflip_thread *thread)
{
    if (pthread_create(&thread->thread, NULL, run, thread) != 0) {
        return GCFLIP_NO_MEMORY;
    }
    pthread_mutex_lock(&thread->lock);
    while (!thread->is_open) {
        pthread_cond_wait(&thread->let_go, &thread->lock);
    }
    thread->is_closing = thread->opened != GCFLIP_DONE;
    pthread_cond_signal(&thread->called);
    pthread_mutex_unlock(&thread->lock);
    if (thread->opened != GCFLIP_DONE) {
        pthread_join(thread->thread, NULL);
    }
    return thread->opened;
}

uint32_t gcflip_thread_open(gcflip_thread **thread, uint32_t size, uint32_t extra_roots, const gcflip_pace *pace)
{
    gcflip_beside_options options = gcflip_beside_options_default(size);

    options.extra_roots = extra_roots;
    return gcflip_thread_open_with(thread, &options, pace);
}

uint32_t gcflip_thread_open_with(gcflip_thread **opened, const gcflip_beside_options *options, const gcflip_pace *pace)
{
    gcflip_thread *thread;
    uint32_t answer = GCFLIP_NO_MEMORY;

    *opened = NULL;
    if (pace->factor < 100 || pace->factor > 10000) {
        return GCFLIP_OUT_OF_RANGE;
    }
    thread = aligned_alloc(LINE, sizeof *thread);
    if (thread == NULL) {
        return GCFLIP_NO_MEMORY;
    }
    *thread = (gcflip_thread){.options = *options, .size = options->size, .factor = pace->factor, .least = pace->least, .wanted = NEVER, .used = NOTHING_KNOWN};
    thread->words = options->size;
    thread->next = options->size;
    thread->looks = has_one_processor() ? 0 : LOOKS;
    if (makes_lock(thread)) {
        answer = starts(thread);
        if (answer == GCFLIP_DONE) {
            rests(thread);
            *opened = thread;
            return GCFLIP_DONE;
        }
        drops_lock(thread);
    }
    free(thread);
    return answer;
}

void gcflip_thread_close(gcflip_thread *thread)
{
    pthread_mutex_lock(&thread->lock);
    thread->is_closing = true;
    pthread_cond_signal(&thread->called);
    pthread_mutex_unlock(&thread->lock);
    pthread_join(thread->thread, NULL);
    gcflip_beside_close_collector(&thread->collector);
    gcflip_beside_close_mutator(&thread->mutator);
    drops_lock(thread);
    free(thread);
}
