/* Times the check by the library for C on two heap images in memory: check_alone FILE RUNS
 *
 * Reads the pair text FILE, whose verdict must be a yes, checks it RUNS times, and prints the least time of a check in
 * milliseconds. */
#include "gcflip.h"

#include <stdio.h>
#include <stdlib.h>
#include <string.h>
#include <time.h>

typedef struct {
    unsigned long size, count, roots;
    uint64_t *words, *root_words;
} heap;

static void die(const char *why)
{
    fprintf(stderr, "check_alone: %s\n", why);
    exit(1);
}

static uint64_t *numbers(FILE *file, unsigned long count)
{
    uint64_t *row = malloc((count + 1) * sizeof *row);
    if (row == NULL)
        die("no memory");
    for (unsigned long i = 0; i < count; i++)
        if (fscanf(file, "%lu", &row[i]) != 1)
            die("no number");
    return row;
}

static heap read_heap(FILE *file, const char *wanted)
{
    heap read;
    char name[8];
    if (fscanf(file, "%7s %lu %lu", name, &read.size, &read.count) != 3 || strcmp(name, wanted) != 0)
        die("no heap");
    read.words = numbers(file, read.count);
    if (fscanf(file, "%7s %lu", name, &read.roots) != 2 || strcmp(name, "roots") != 0)
        die("no roots");
    read.root_words = numbers(file, read.roots);
    return read;
}

static double milliseconds(void)
{
    struct timespec now;
    clock_gettime(CLOCK_MONOTONIC, &now);
    return now.tv_sec * 1e3 + now.tv_nsec / 1e6;
}

int main(int count, char **words)
{
    FILE *file = count == 3 ? fopen(words[1], "r") : NULL;
    if (file == NULL)
        die("usage: check_alone FILE RUNS");
    unsigned version;
    unsigned long pairs;
    if (fscanf(file, "heappair %u", &version) != 1)
        die("no pair text");
    heap old = read_heap(file, "old"), new = read_heap(file, "new");
    if (fscanf(file, " pairs %lu", &pairs) != 1)
        die("no pairs");
    gcflip_pair *row = malloc(pairs * sizeof *row);
    if (row == NULL)
        die("no memory");
    for (unsigned long i = 0; i < pairs; i++)
        if (fscanf(file, "%u %u", &row[i].old_address, &row[i].new_address) != 2)
            die("no pair");
    fclose(file);

    const gcflip_image old_image = {old.size, old.count, version == 2, old.words, old.root_words, old.roots};
    const gcflip_image new_image = {new.size, new.count, version == 2, new.words, new.root_words, new.roots};
    double least = 1e9;
    for (int run = atoi(words[2]); run > 0; run--) {
        gcflip_verdict verdict = {0, 0, 0, 0};
        double start = milliseconds();
        if (gcflip_check_images(&old_image, &new_image, row, pairs, &verdict) != GCFLIP_YES)
            die("not a yes");
        double took = milliseconds() - start;
        least = took < least ? took : least;
    }
    printf("%.3f\n", least);
    return 0;
}
