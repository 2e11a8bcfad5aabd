/* Measures what the collector's calls at a stop take beside a mutator with extra roots: beside_roots [ROOTS [FLIPS]]
 *
 * Opens heaps with ROOTS extra roots, 400,000 by default, of which all are nil, or all refer to one of 1024 objects, and a heap without extra roots. One
 * thread has both ends. Collects FLIPS times in each, 25 by default. Prints the least time of the calls with which the collector takes the mutator,
 * gives the objects of its roots replicas, and flips. */
#include "gcflip_beside.h"
#include "timed_calls.h"

enum { OBJECTS = 1024, FIELDS = 2, SIZE = 1 << 20, STEPS = 1000 };

static gcflip_mutator mutator;
static gcflip_collector collector;

/* The microseconds of the three calls of a stop. */
struct stop {
    double take, place_roots, flip;
};

/* Opens a heap with these extra roots, which are nil or refer to the objects in turn. */
static void open_heap(uint32_t roots, bool refer)
{
    must(gcflip_beside_open(&mutator, &collector, SIZE, roots), GCFLIP_DONE, "open");
    for (uint32_t k = 0; k < OBJECTS && refer; k++) {
        must(gcflip_beside_new(&mutator, 0, 1, FIELDS), GCFLIP_MADE, "new");
        for (uint32_t root = k; root < roots; root += OBJECTS)
            must(gcflip_beside_copy(&mutator, GCFLIP_BESIDE_ROOTS + root, 0), GCFLIP_DONE, "copy");
    }
}

static void stop_mutator(void)
{
    must(gcflip_beside_ask(&collector), GCFLIP_DONE, "ask");
    must(gcflip_beside_safepoint(&mutator), GCFLIP_PARKED, "safepoint");
}

static void work(void)
{
    uint32_t answer;
    while ((answer = gcflip_beside_work(&collector, STEPS)) == GCFLIP_DONE)
        ;
    must(answer, GCFLIP_CLEAN, "work");
}

/* Takes the mutator, and gives the objects of its roots replicas. Notes how long each call took. */
static void hold(struct stop *stop)
{
    double began, taken;
    stop_mutator();
    began = microseconds(CLOCK_PROCESS_CPUTIME_ID);
    must(gcflip_beside_take(&collector), GCFLIP_DONE, "take");
    taken = microseconds(CLOCK_PROCESS_CPUTIME_ID);
    must(gcflip_beside_place_roots(&collector), GCFLIP_DONE, "place_roots");
    stop->take = taken - began;
    stop->place_roots = microseconds(CLOCK_PROCESS_CPUTIME_ID) - taken;
}

/* Collects. Returns the times of the last stop. */
static struct stop collect(void)
{
    struct stop stop;
    must(gcflip_beside_prepare(&collector, SIZE), GCFLIP_DONE, "prepare");
    hold(&stop);
    must(gcflip_beside_go(&collector), GCFLIP_DONE, "go");
    must(gcflip_beside_resume(&mutator), GCFLIP_DONE, "resume");
    work();
    hold(&stop);
    work();
    stop.flip = microseconds(CLOCK_PROCESS_CPUTIME_ID);
    must(gcflip_beside_flip(&collector), GCFLIP_FLIPPED, "flip");
    stop.flip = microseconds(CLOCK_PROCESS_CPUTIME_ID) - stop.flip;
    must(gcflip_beside_resume(&mutator), GCFLIP_DONE, "resume");
    return stop;
}

static double lesser(double one, double other) { return one < other ? one : other; }

static void print_least(const char *name, uint32_t roots, bool refer, int flips)
{
    struct stop least = {1e30, 1e30, 1e30};
    open_heap(roots, refer);
    for (int i = 0; i < flips; i++) {
        struct stop stop = collect();
        least = (struct stop){lesser(stop.take, least.take), lesser(stop.place_roots, least.place_roots), lesser(stop.flip, least.flip)};
    }
    must(gcflip_beside_close_mutator(&mutator), GCFLIP_DONE, "close_mutator");
    must(gcflip_beside_close_collector(&collector), GCFLIP_DONE, "close_collector");
    printf("%s: take %.1f us, place_roots %.1f us, flip %.1f us\n", name, least.take, least.place_roots, least.flip);
}

int main(int count, char **words)
{
    uint32_t roots = count > 1 ? (uint32_t)strtoul(words[1], NULL, 10) : 400000;
    int flips = count > 2 ? atoi(words[2]) : 25;
    if (roots < OBJECTS || roots > SIZE || flips < 1) {
        fprintf(stderr, "beside_roots [ROOTS [FLIPS]]: %d to %d roots, and at least one flip\n", OBJECTS, SIZE);
        return 2;
    }
    print_least("without extra roots", 0, false, flips);
    print_least("all nil", roots, false, flips);
    print_least("all references", roots, true, flips);
    return 0;
}
