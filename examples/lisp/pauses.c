/* Measures each call on the heap with the system's clock, and counts it under the least power of two of nanoseconds above its time. For the minimum
 * mutator utilisation, time is divided into slots of ten microseconds. The last ones are kept, each with the nanoseconds that calls took of it. */
#define _POSIX_C_SOURCE 200809L
#include "pauses.h"
#include <inttypes.h>
#include <string.h>
#include <time.h>

enum { BUCKETS = 40, FIRST_BUCKET = 6, WIDEST_BAR = 40 };
enum { SLOT = 10000, KEPT = 1000, WINDOWS = 2, LEAST_PAUSE = 1000 };

/* A window of time that ends with the slot of now. */
struct window {
    const uint64_t slots;
    uint64_t sum;  /* of the nanoseconds in it that calls took */
    uint64_t most; /* the largest sum so far */
};

static struct window windows[WINDOWS] = {{100, 0, 0}, {KEPT, 0, 0}};
static uint64_t taken[KEPT], slot_now;

static bool measures;
static uint64_t began;
static uint64_t counts[BUCKETS];
static struct call_times *called;

static uint64_t now(void)
{
    struct timespec time;
    clock_gettime(CLOCK_MONOTONIC, &time);
    return UINT64_C(1000000000) * (uint64_t)time.tv_sec + (uint64_t)time.tv_nsec;
}

static double microseconds(uint64_t nanoseconds)
{
    return (double)nanoseconds / 1000;
}

void measure_pauses(void)
{
    measures = true;
    slot_now = now() / SLOT;
}

/* Moves the windows to this slot. */
static void move_windows(uint64_t slot)
{
    if (slot >= slot_now + KEPT) { /* no slot is in a window any more */
        memset(taken, 0, sizeof taken);
        for (int i = 0; i < WINDOWS; i++)
            windows[i].sum = 0;
        slot_now = slot;
    }
    for (; slot_now < slot; slot_now++) {
        for (int i = 0; i < WINDOWS; i++)
            windows[i].sum -= taken[(slot_now + 1 + KEPT - windows[i].slots) % KEPT];
        taken[(slot_now + 1) % KEPT] = 0;
    }
}

static void add_pause(uint64_t start, uint64_t end)
{
    while (start < end) {
        uint64_t slot = start / SLOT, border = (slot + 1) * SLOT, until = end < border ? end : border;
        move_windows(slot);
        taken[slot % KEPT] += until - start;
        for (int i = 0; i < WINDOWS; i++) {
            windows[i].sum += until - start;
            if (windows[i].sum > windows[i].most)
                windows[i].most = windows[i].sum;
        }
        start = until;
    }
}

static double utilisation(const struct window *window)
{
    return 1 - (double)window->most / (double)(window->slots * SLOT);
}

void begin_pause(void)
{
    if (measures)
        began = now();
}

static int bucket_of(uint64_t nanoseconds)
{
    int bucket = FIRST_BUCKET;
    while (bucket < BUCKETS - 1 && nanoseconds >= UINT64_C(1) << bucket)
        bucket++;
    return bucket;
}

void end_pause(struct call_times *times, uint32_t flipped)
{
    if (!measures)
        return;
    uint64_t ended = now(), nanoseconds = ended - began;
    if (nanoseconds >= LEAST_PAUSE)
        add_pause(began, ended);
    counts[bucket_of(nanoseconds)]++;
    if (times->calls == 0) {
        times->next = called;
        called = times;
    }
    times->calls++;
    if (nanoseconds >= times->longest) {
        times->longest = nanoseconds;
        times->flipped = flipped;
    }
}

static void print_bucket(FILE *file, int bucket, uint64_t most)
{
    uint64_t width = (counts[bucket] * WIDEST_BAR + most - 1) / most;
    fprintf(file, "  below %10.3f us %12" PRIu64 " ", microseconds(UINT64_C(1) << bucket), counts[bucket]);
    for (uint64_t i = 0; i < width; i++)
        fputc('#', file);
    fputc('\n', file);
}

static void print_histogram(FILE *file)
{
    int last = 0;
    uint64_t calls = 0, most = 1;
    for (int bucket = 0; bucket < BUCKETS; bucket++) {
        calls += counts[bucket];
        last = counts[bucket] > 0 ? bucket : last;
        most = counts[bucket] > most ? counts[bucket] : most;
    }
    fprintf(file, "%" PRIu64 " calls on the heap by their times\n", calls);
    for (int bucket = FIRST_BUCKET; bucket <= last; bucket++)
        print_bucket(file, bucket, most);
}

static void print_longest(FILE *file, const struct call_times *times)
{
    fprintf(file, "%.3f us: %s", microseconds(times->longest), times->name);
    if (times->flipped > 0)
        fprintf(file, ", with a flip of %" PRIu32 " pairs", times->flipped);
}

void print_pauses(FILE *file)
{
    const struct call_times *longest = called;
    print_histogram(file);
    fputs("the longest of each kind\n", file);
    for (const struct call_times *times = called; times != NULL; times = times->next) {
        fputs("  ", file);
        print_longest(file, times);
        fprintf(file, "; %" PRIu64 " calls\n", times->calls);
        longest = times->longest > longest->longest ? times : longest;
    }
    if (longest != NULL) {
        fputs("the longest call took ", file);
        print_longest(file, longest);
        fputc('\n', file);
    }
    fprintf(file, "minimum mutator utilisation: %.3f at 1 ms, %.3f at 10 ms\n", utilisation(&windows[0]), utilisation(&windows[1]));
}
