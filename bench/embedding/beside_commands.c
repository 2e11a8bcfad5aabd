/* Measures puts and gets on the heap whose collector works in another thread, and on the heap whose collector works in the program's calls:
 * beside_commands [ROUNDS]
 *
 * One thread has both ends, and nothing is copied while it measures, so this is what the calls take by themselves. Each round makes CALLS calls of a kind, by
 * turns on both heaps. Prints the nanoseconds of a call in the median round of ROUNDS, 2,001 by default. A put is `closed` if no collection is open, or if it
 * rests, and `open` if the object has a replica, so that the put is logged. */
#include "gcflip_beside.h"
#include "timed_calls.h"

enum { CALLS = 1000, MOST_ROUNDS = 100001, SIZE = 1 << 16, STEPS = 1 << 20, FIELDS = 8 };
/* Roots: the object, the values that are written in turn, and one that takes what is read. */
enum { OBJECT = 0, VALUES = 1, READ = 9 };
/* What is measured, on the one heap and on the other. */
enum { PUT_CLOSED, PUT_OPEN, GET, KINDS };

static gcflip_heap heap = GCFLIP_NO_HEAP;
static gcflip_mutator mutator;
static gcflip_collector collector;
static double times[2][KINDS][MOST_ROUNDS];
static uint64_t number;

/* An object with FIELDS fields, and as many numbers. */
static void open_heaps(void)
{
    gcflip_options options = gcflip_options_default(SIZE, 1);
    must(gcflip_heap_open(&heap, &options), GCFLIP_DONE, "open");
    must(gcflip_beside_open(&mutator, &collector, SIZE, 0), GCFLIP_DONE, "open");
    must(gcflip_new(&heap, OBJECT, 1, FIELDS), GCFLIP_MADE, "new");
    must(gcflip_beside_new(&mutator, OBJECT, 1, FIELDS), GCFLIP_MADE, "new");
    for (uint32_t k = 0; k < FIELDS; k++) {
        must(gcflip_set_number(&heap, VALUES + k, k), GCFLIP_DONE, "set_number");
        must(gcflip_beside_set_number(&mutator, VALUES + k, k), GCFLIP_DONE, "set_number");
    }
}

static void puts_beside(void)
{
    for (uint32_t k = 0; k < CALLS; k++)
        must(gcflip_beside_put(&mutator, OBJECT, k % FIELDS, VALUES + k / FIELDS % FIELDS), GCFLIP_DONE, "put");
}

static void puts_within(void)
{
    for (uint32_t k = 0; k < CALLS; k++)
        must(gcflip_put(&heap, 0, OBJECT, k % FIELDS, VALUES + k / FIELDS % FIELDS), GCFLIP_DONE, "put");
}

static void gets_beside(void)
{
    for (uint32_t k = 0; k < CALLS; k++)
        must(gcflip_beside_get(&mutator, READ, OBJECT, k % FIELDS, &number), GCFLIP_NUMBER, "get");
}

static void gets_within(void)
{
    for (uint32_t k = 0; k < CALLS; k++)
        must(gcflip_get(&heap, READ, OBJECT, k % FIELDS, &number), GCFLIP_NUMBER, "get");
}

/* The collector takes the mutator with its log, copies the objects of its roots, and applies the log. */
static void catch_up_beside(void)
{
    must(gcflip_beside_ask(&collector), GCFLIP_DONE, "ask");
    must(gcflip_beside_safepoint(&mutator), GCFLIP_PARKED, "safepoint");
    must(gcflip_beside_take(&collector), GCFLIP_DONE, "take");
    must(gcflip_beside_place_roots(&collector), GCFLIP_DONE, "place_roots");
    must(gcflip_beside_work(&collector, STEPS), GCFLIP_CLEAN, "work");
    must(gcflip_beside_go(&collector), GCFLIP_DONE, "go");
    must(gcflip_beside_resume(&mutator), GCFLIP_DONE, "resume");
}

/* The same for the other heap, whose collection is open. */
static void catch_up_within(void)
{
    while (gcflip_heap_step_roots(&heap) == GCFLIP_COPIED || gcflip_heap_step_apply(&heap, 0) == GCFLIP_APPLIED)
        ;
    while (gcflip_heap_step_scan(&heap) != GCFLIP_CLEAN)
        ;
}

/* The nanoseconds of a call, of which this function makes CALLS. */
static double nanoseconds(void (*calls)(void))
{
    double began = microseconds(CLOCK_MONOTONIC);
    calls();
    return (microseconds(CLOCK_MONOTONIC) - began) * 1e3 / CALLS;
}

static int in_order(const void *one, const void *other)
{
    double a = *(const double *)one, b = *(const double *)other;
    return (a > b) - (a < b);
}

static double median(double *row, int rounds)
{
    qsort(row, (size_t)rounds, sizeof *row, in_order);
    return row[rounds / 2];
}

int main(int count, char **words)
{
    static const char *const names[KINDS] = {"put, closed", "put, open", "get"};
    int rounds = count > 1 ? atoi(words[1]) : 2001;
    if (rounds < 1 || rounds > MOST_ROUNDS) {
        fprintf(stderr, "beside_commands [ROUNDS]: 1 to %d rounds\n", MOST_ROUNDS);
        return 2;
    }
    open_heaps();
    for (int round = 0; round < rounds; round++) {
        times[0][PUT_CLOSED][round] = nanoseconds(puts_within);
        times[1][PUT_CLOSED][round] = nanoseconds(puts_beside);
        times[0][GET][round] = nanoseconds(gets_within);
        times[1][GET][round] = nanoseconds(gets_beside);
    }
    must(gcflip_heap_step_begin(&heap), GCFLIP_BEGUN, "begin");
    for (int round = 0; round < rounds; round++) {
        catch_up_within();
        catch_up_beside();
        times[0][PUT_OPEN][round] = nanoseconds(puts_within);
        times[1][PUT_OPEN][round] = nanoseconds(puts_beside);
    }
    for (int kind = 0; kind < KINDS; kind++) {
        double within = median(times[0][kind], rounds), beside = median(times[1][kind], rounds);
        printf("%s: incremental %.1f ns, beside %.1f ns, %+.1f\n", names[kind], within, beside, beside - within);
    }
    return 0;
}
