/* Measures the longest call of paced work of a program that has many extra roots in use: root_calls [ROOTS [ROUNDS [KEPT]]]
 *
 * A program makes short lists in a heap of 2^22 words, on the library's pace, and keeps a list of KEPT pairs, 100,000 by default. It does so with no extra
 * root, with ROOTS of them in use (2^20 by default), and with as many while it stores nil, numbers and references to low ones at random, four for each
 * short list. The roots refer to 1,024 objects; where there are none, the list has as many pairs more. It does the same in each of ROUNDS rounds, 7 by default. Prints the longest call of work: of each call the least time of all rounds, and
 * of these the greatest; and the time that 99.9 % of the calls do not exceed. */
#include "timed_calls.h"

enum {
    SIZE = 1 << 22, /* words */
    OBJECTS = 1024, /* what the roots refer to */
    LISTS = 200000,
    PAIRS = 4,  /* of a list, of four words each */
    STORES = 4, /* for each list */
    LOW = 4096, /* of so many roots */
    LIST = 16,  /* places: four slots of mutator 0, and the first extra root */
    KEPT,
    NUMBER,
    PAIR,
    ROOT = 32
};

/* What the program does with extra roots. */
enum roots { NONE, IN_USE, STORED_TO };

static gcflip_heap heap = GCFLIP_NO_HEAP;
static gcflip_pace pace;
static double least[LISTS]; /* of each call, in microseconds */
static unsigned long collections;

/* Puts a pair with the number in front of the list. */
static void extend(uint32_t list)
{
    must(gcflip_new_pair(&heap, 0, PAIR, 1, NUMBER, list), GCFLIP_MADE, "new_pair");
    must(gcflip_copy(&heap, list, PAIR), GCFLIP_DONE, "copy");
}

/* Opens a heap whose extra roots refer to the objects in turn, and makes the list that the program keeps. */
static void open_heap(uint32_t roots, uint32_t kept)
{
    gcflip_options options = gcflip_options_default(SIZE, 1);
    options.extra_roots = roots;
    must(gcflip_heap_open(&heap, &options), GCFLIP_DONE, "open");
    must(gcflip_heap_touch(&heap), GCFLIP_DONE, "touch");
    pace = gcflip_pace_default();
    must(gcflip_set_number(&heap, NUMBER, 7), GCFLIP_DONE, "set_number");
    for (uint32_t k = 0; k < roots; k++)
        if (k < OBJECTS)
            must(gcflip_new(&heap, ROOT + k, 1, 2), GCFLIP_MADE, "new");
        else
            must(gcflip_copy(&heap, ROOT + k, ROOT + k % OBJECTS), GCFLIP_DONE, "copy");
    for (uint32_t k = 0; k < (roots == 0 ? kept + OBJECTS : kept); k++)
        extend(KEPT);
    must(gcflip_heap_pace(&heap, &pace), GCFLIP_DONE, "pace");
}

/* Stores nil, a number or a reference to low roots. */
static void store(uint32_t roots, uint64_t *random)
{
    for (int i = 0; i < STORES; i++) {
        *random ^= *random << 13;
        *random ^= *random >> 7;
        *random ^= *random << 17;
        uint32_t place = ROOT + (uint32_t)(*random >> 40) % LOW;
        switch (*random % 3) {
        case 0:
            must(gcflip_set_nil(&heap, place), GCFLIP_DONE, "set_nil");
            break;
        case 1:
            must(gcflip_set_number(&heap, place, *random >> 20), GCFLIP_DONE, "set_number");
            break;
        default:
            must(gcflip_copy(&heap, place, ROOT + roots - 1 - (uint32_t)(*random >> 30) % OBJECTS), GCFLIP_DONE, "copy");
        }
    }
}

/* Makes a list, after the work that is due for it. Returns the microseconds of the call of work. */
static double make_list(void)
{
    gcflip_work work = {0, 0, 0, 0, 0};
    double began = microseconds(CLOCK_MONOTONIC);
    must(gcflip_heap_work_paced(&heap, &pace, 4 * PAIRS, &work), GCFLIP_DONE, "work_paced");
    double taken = microseconds(CLOCK_MONOTONIC) - began;
    if (work.last == GCFLIP_NO_ROOM)
        must(work.last, GCFLIP_FLIPPED, "work_paced");
    collections += work.last == GCFLIP_FLIPPED;
    must(gcflip_set_nil(&heap, LIST), GCFLIP_DONE, "set_nil");
    for (int i = 0; i < PAIRS; i++)
        extend(LIST);
    return taken;
}

static void run(uint32_t roots, uint32_t kept, enum roots kind, int round)
{
    uint64_t random = 88172645463325252u;
    open_heap(kind == NONE ? 0 : roots, kept);
    collections = 0;
    for (int k = 0; k < LISTS; k++) {
        double taken = make_list();
        if (kind == STORED_TO)
            store(roots, &random);
        least[k] = round == 0 || taken < least[k] ? taken : least[k];
    }
    must(gcflip_heap_close(&heap), GCFLIP_DONE, "close");
}

static int compare(const void *one, const void *other)
{
    double x = *(const double *)one, y = *(const double *)other;
    return (x > y) - (x < y);
}

int main(int count, char **words)
{
    uint32_t roots = count > 1 ? (uint32_t)strtoul(words[1], NULL, 10) : 1 << 20;
    int rounds = count > 2 ? atoi(words[2]) : 7;
    uint32_t kept = count > 3 ? (uint32_t)strtoul(words[3], NULL, 10) : 100000;
    static const char *const names[] = {[NONE] = "no extra roots", [IN_USE] = "roots in use", [STORED_TO] = "low roots stored to"};
    if (roots < LOW || rounds < 1 || kept > SIZE / 16) {
        fprintf(stderr, "root_calls [ROOTS [ROUNDS [KEPT]]]: at least %d roots, one round, at most %d pairs\n", LOW, SIZE / 16);
        return 2;
    }
    for (int kind = NONE; kind <= STORED_TO; kind++) {
        for (int round = 0; round < rounds; round++)
            run(roots, kept, (enum roots)kind, round);
        qsort(least, LISTS, sizeof *least, compare);
        printf("%s: longest call of work %.1f us, 99.9 %% of the calls %.1f us, %lu collections\n", names[kind], least[LISTS - 1], least[LISTS - 1 - LISTS / 1000], collections);
    }
    return 0;
}
