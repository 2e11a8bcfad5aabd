/* Measures steps of the collector of a heap whose collector works in another thread: beside_steps KIND [ROUNDS]
 *
 * One thread has both ends. Each of ROUNDS collections, 20 by default, measures steps of one kind, in calls of gcflip_beside_work that perform 1,000 each. Prints
 * the nanoseconds of a step in the fastest round, and a sum of what the heap holds at the end, which is the same for all builds. The kinds are
 *   list        copies a list of 200,000 pairs: five steps for each
 *   references  scans the fields of an object that refer to an object with a replica
 *   numbers     scans fields that have numbers
 *   nils        scans fields that are nil
 *   raw         fills a raw object
 *   entries     applies the log of puts that changed each field */
#include "gcflip_beside.h"
#include "timed_calls.h"
#include <string.h>

#ifndef FIELDS
#define FIELDS 2000
#endif
#ifndef PAIRS
#define PAIRS 200000
#endif
enum { SIZE = 1 << 20, CALL = 1000, BEFORE = 10 };
/* Roots: what is collected, an object or a number that fields take, the number that entries give them in turn, and two that read. */
enum { WHOLE = 0, VALUE = 1, OTHER = 2, AT = 3, READ = 4 };
enum kind { LIST, REFERENCES, NUMBERS, NILS, RAW, ENTRIES, KINDS };

static const char *const names[KINDS] = {"list", "references", "numbers", "nils", "raw", "entries"};
static gcflip_mutator mutator;
static gcflip_collector collector;

static void make_list(void)
{
    for (uint64_t k = 0; k < PAIRS; k++) {
        must(gcflip_beside_set_number(&mutator, VALUE, k), GCFLIP_DONE, "set_number");
        must(gcflip_beside_new_pair(&mutator, AT, 1, VALUE, WHOLE), GCFLIP_MADE, "new_pair");
        must(gcflip_beside_copy(&mutator, WHOLE, AT), GCFLIP_DONE, "copy");
    }
    must(gcflip_beside_set_nil(&mutator, AT), GCFLIP_DONE, "set_nil");
}

/* An object with one field, which refers to a raw one. */
static void make_raw(void)
{
    must(gcflip_beside_new_raw(&mutator, AT, 1, FIELDS), GCFLIP_MADE, "new_raw");
    for (uint32_t k = 0; k < FIELDS; k++)
        must(gcflip_beside_put_number(&mutator, AT, k, 7 * k + 1), GCFLIP_DONE, "put_number");
    must(gcflip_beside_new(&mutator, WHOLE, 1, 1), GCFLIP_MADE, "new");
    must(gcflip_beside_put(&mutator, WHOLE, 0, AT), GCFLIP_DONE, "put");
    must(gcflip_beside_set_nil(&mutator, AT), GCFLIP_DONE, "set_nil");
}

static void put_all(uint32_t root)
{
    for (uint32_t k = 0; k < FIELDS; k++)
        must(gcflip_beside_put(&mutator, WHOLE, k, root), GCFLIP_DONE, "put");
}

static void make_object(enum kind kind)
{
    must(gcflip_beside_set_number(&mutator, OTHER, 5), GCFLIP_DONE, "set_number");
    must(gcflip_beside_new_pair(&mutator, VALUE, 1, OTHER, OTHER), GCFLIP_MADE, "new_pair");
    must(gcflip_beside_new(&mutator, WHOLE, 1, FIELDS), GCFLIP_MADE, "new");
    if (kind != NILS)
        put_all(kind == NUMBERS ? OTHER : VALUE);
}

static void hold(void)
{
    must(gcflip_beside_ask(&collector), GCFLIP_DONE, "ask");
    must(gcflip_beside_safepoint(&mutator), GCFLIP_PARKED, "safepoint");
    must(gcflip_beside_take(&collector), GCFLIP_DONE, "take");
}

static void go_on(void)
{
    must(gcflip_beside_go(&collector), GCFLIP_DONE, "go");
    must(gcflip_beside_resume(&mutator), GCFLIP_DONE, "resume");
}

static void work_all(void)
{
    uint32_t answer;
    while ((answer = gcflip_beside_work(&collector, CALL)) == GCFLIP_DONE)
        ;
    must(answer, GCFLIP_CLEAN, "work");
}

/* Returns the nanoseconds of a step. */
static double collect(enum kind kind, int round)
{
    uint32_t calls = kind == LIST ? 5 * (PAIRS - BEFORE) / CALL : (FIELDS - BEFORE) / CALL;
    double began;
    must(gcflip_beside_prepare(&collector, SIZE), GCFLIP_DONE, "prepare");
    hold();
    must(gcflip_beside_place_roots(&collector), GCFLIP_DONE, "place_roots");
    go_on();
    /* The first steps place the other objects. */
    if (kind != LIST)
        must(gcflip_beside_work(&collector, BEFORE), GCFLIP_DONE, "work");
    if (kind == ENTRIES) {
        work_all();
        put_all(round % 2 == 0 ? OTHER : VALUE);
        hold();
        go_on();
    }
    began = microseconds(CLOCK_MONOTONIC);
    for (uint32_t k = 0; k < calls; k++)
        must(gcflip_beside_work(&collector, CALL), GCFLIP_DONE, "work");
    began = (microseconds(CLOCK_MONOTONIC) - began) * 1e3 / (calls * CALL);
    work_all();
    hold();
    must(gcflip_beside_place_roots(&collector), GCFLIP_DONE, "place_roots");
    work_all();
    must(gcflip_beside_flip(&collector), GCFLIP_FLIPPED, "flip");
    must(gcflip_beside_resume(&mutator), GCFLIP_DONE, "resume");
    return began;
}

static uint64_t sum_of(enum kind kind)
{
    uint64_t sum = 0, word = 0;
    if (kind == LIST) {
        must(gcflip_beside_copy(&mutator, AT, WHOLE), GCFLIP_DONE, "copy");
        do {
            must(gcflip_beside_get(&mutator, READ, AT, 0, &word), GCFLIP_NUMBER, "get");
            sum = 31 * sum + word;
        } while (gcflip_beside_get(&mutator, AT, AT, 1, &word) == GCFLIP_OBJECT);
        return sum;
    }
    if (kind == RAW)
        must(gcflip_beside_get(&mutator, AT, WHOLE, 0, &word), GCFLIP_OBJECT, "get");
    for (uint32_t k = 0; k < FIELDS; k++) {
        gcflip_view view = {0};
        uint32_t answer = kind == RAW ? gcflip_beside_raw_read(&mutator, AT, k, &word, 1) : gcflip_beside_peek(&mutator, WHOLE, k, &view);
        sum = 31 * sum + answer + word + view.number + view.count;
    }
    return sum;
}

int main(int count, char **words)
{
    int rounds = count > 2 ? atoi(words[2]) : 20;
    enum kind kind = LIST;
    double least = 1e30;
    while (kind < KINDS && (count < 2 || strcmp(words[1], names[kind]) != 0))
        kind++;
    if (kind == KINDS || rounds < 1) {
        fprintf(stderr, "beside_steps list|references|numbers|nils|raw|entries [ROUNDS]: at least one round\n");
        return 2;
    }
    must(gcflip_beside_open(&mutator, &collector, SIZE, 0), GCFLIP_DONE, "open");
    if (kind == LIST)
        make_list();
    else if (kind == RAW)
        make_raw();
    else
        make_object(kind);
    for (int round = 0; round < rounds; round++) {
        double one = collect(kind, round);
        least = one < least ? one : least;
    }
    printf("%s: %.1f ns a step, sum %016llx\n", names[kind], least, (unsigned long long)sum_of(kind));
    return 0;
}
