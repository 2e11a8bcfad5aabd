/* Builds a list of entries. Then, twice, makes every second entry garbage and collects: certify [-b BUG] [-i] [-p FILE] [-t] ENTRIES.
 *
 * -b plants a bug in the collector: field, twice, root or length. -i asks the checker once more, without the pairs, as a collector would that
 * keeps no forwarding addresses. -p writes the certificate of the last collection as a
 * text that `gcflip check` reads. -t prints the time that a collection takes for each object. */
#define _POSIX_C_SOURCE 200809L
#include "certificate.h"
#include "list.h"
#include <stdlib.h>
#include <string.h>
#include <time.h>
#include <unistd.h>

enum { MOST_ENTRIES = 100000 };

struct times {
    double started, copied, written, checked;
};

static const char *pair_file;
static bool infers;
static bool prints_times;
static struct times times;

/* Returns the time in nanoseconds. */
static double now(void)
{
    struct timespec time;
    clock_gettime(CLOCK_MONOTONIC, &time);
    return 1e9 * (double)time.tv_sec + (double)time.tv_nsec;
}

static void print_times(double objects)
{
    printf("for each of %.0f objects: copying %.0f ns, images and pairs %.0f ns, the check %.0f ns\n", objects,
           (times.copied - times.started) / objects, (times.written - times.copied) / objects,
           (times.checked - times.written) / objects);
}

static void write_pair(const struct certificate *certificate)
{
    FILE *file = fopen(pair_file, "w");
    if (file != NULL)
        write_certificate(file, certificate);
    if (file == NULL || fclose(file) != 0) {
        perror(pair_file);
        exit(2);
    }
}

/* Has the pairs found from the two images alone, and prints the verdict on them. */
static void print_inferred(const struct heap *old, const struct certificate *certificate)
{
    gcflip_verdict verdict = {0, 0, 0, 0};
    size_t room = certificate->pair_count + 1, count = 0;
    gcflip_pair *found = calloc(room, sizeof *found);
    if (found == NULL)
        exit(2);
    uint32_t answer = gcflip_infer_images(&certificate->old, &certificate->new, found, room, &count, &verdict);
    printf("without the pairs: ");
    if (answer == GCFLIP_YES || answer == GCFLIP_REFUSED) {
        struct certificate inferred = *certificate;
        inferred.pairs = found;
        inferred.pair_count = count;
        print_verdict(old, &inferred, &verdict);
    } else {
        puts("no verdict: an allocation failed");
    }
    free(found);
}

/* Asks the checker whether the program can continue in the new heap. */
static bool accepts(const struct heap *old, const struct heap *new)
{
    gcflip_verdict verdict = {0, 0, 0, 0};
    times.copied = now();
    struct certificate certificate = new_certificate(old, new);
    times.written = now();
    uint32_t answer = gcflip_check_images(&certificate.old, &certificate.new, certificate.pairs, certificate.pair_count, &verdict);
    times.checked = now();
    if (answer == GCFLIP_YES || answer == GCFLIP_REFUSED)
        print_verdict(old, &certificate, &verdict);
    else
        puts("no verdict: an allocation failed");
    if (infers)
        print_inferred(old, &certificate);
    if (prints_times)
        print_times(certificate.pair_count);
    if (pair_file != NULL)
        write_pair(&certificate);
    free_certificate(&certificate);
    return answer == GCFLIP_YES;
}

/* Collects, and tests the list in the space that is then in use. */
static bool collect_list(struct heap *heap, enum bug bug, uint32_t step)
{
    times.started = now();
    bool accepted = collect(heap, bug, accepts);
    printf("the list in the %s space is %s\n", accepted ? "new" : "old", is_whole(heap, step) ? "whole" : "damaged");
    return accepted;
}

static enum bug bug_named(const char *name)
{
    static const char *const names[] = {"none", "field", "twice", "root", "length"};
    for (int bug = NO_BUG; bug <= LENGTH_ONE_SHORT; bug++)
        if (strcmp(name, names[bug]) == 0)
            return (enum bug)bug;
    fputs("the bugs are field, twice, root and length\n", stderr);
    exit(2);
}

/* Reads the options, and returns the bug that they name. */
static enum bug read_options(int count, char **words)
{
    enum bug bug = NO_BUG;
    for (int option = getopt(count, words, "b:ip:t"); option != -1; option = getopt(count, words, "b:ip:t")) {
        if (option == 'b')
            bug = bug_named(optarg);
        else if (option == 'i')
            infers = true;
        else if (option == 'p')
            pair_file = optarg;
        else if (option == 't')
            prints_times = true;
        else
            exit(2);
    }
    return bug;
}

static uint32_t read_entries(const char *word)
{
    unsigned long entries = word == NULL ? 0 : strtoul(word, NULL, 10);
    if (entries < 1 || entries > MOST_ENTRIES) {
        fprintf(stderr, "certify [-b BUG] [-i] [-p FILE] [-t] ENTRIES, which are 1 to %d\n", MOST_ENTRIES);
        exit(2);
    }
    return (uint32_t)entries;
}

int main(int count, char **words)
{
    enum bug bug = read_options(count, words);
    uint32_t entries = read_entries(words[optind]);
    /* There is room for one more entry, since a collector with a bug may copy one twice. */
    struct heap heap = {new_space(1 + (entries + 1) * WORDS_OF_AN_ENTRY), {0, NIL, NIL}};
    for (uint32_t i = 0; i < entries; i++)
        append_entry(&heap, i);
    unlink_each_second(&heap);
    bool accepted = collect_list(&heap, bug, 2);
    if (accepted) {
        unlink_each_second(&heap);
        accepted = collect_list(&heap, bug, 4);
    }
    free(heap.space.words);
    return accepted ? 0 : 1;
}
