/* Times gcflip_infer beside gcflip_check, by the library for C, on heap images in memory: infer_alone chain|tree OBJECTS RUNS
 *
 * Builds an old heap of OBJECTS objects, all reachable from its one root: a chain, or a binary tree. The new heap has the replicas in
 * a shuffled order for the tree, and in the same order for the chain. Prints the least times in milliseconds of a check of the pairs, and
 * of finding and checking them. */
#include "gcflip.h"

#include <stdio.h>
#include <stdlib.h>
#include <string.h>
#include <time.h>

#define FIELDS 2
#define WORDS (FIELDS + 2)
#define HEADER (16777216 + FIELDS)

static void die(const char *why)
{
    fprintf(stderr, "infer_alone: %s\n", why);
    exit(1);
}

static void *zeroed(size_t count, size_t size)
{
    void *row = calloc(count, size);
    if (row == NULL)
        die("no memory");
    return row;
}

static double milliseconds(void)
{
    struct timespec now;
    clock_gettime(CLOCK_MONOTONIC, &now);
    return now.tv_sec * 1e3 + now.tv_nsec / 1e6;
}

static uint32_t start_of(uint32_t place)
{
    return 1 + WORDS * place;
}

/* Returns the object to which field i of object k refers, or 0. */
static uint32_t child_of(bool is_tree, uint32_t k, uint32_t i, uint32_t count)
{
    uint32_t child = is_tree ? 2 * k + 1 + i : i == 0 ? k + 1 : count;
    return child < count ? child : 0;
}

/* Returns the words of a heap in which object k stands at place places[k]. */
static uint64_t *heap_words(bool is_tree, const uint32_t *places, uint32_t count)
{
    uint64_t *words = zeroed(1 + (size_t)WORDS * count, sizeof *words);
    for (uint32_t k = 0; k < count; k++) {
        uint64_t *object = words + start_of(places[k]);
        object[0] = HEADER;
        for (uint32_t i = 0; i < FIELDS; i++) {
            uint32_t child = child_of(is_tree, k, i, count);
            object[2 + i] = child ? 2 * (uint64_t)start_of(places[child]) : 2 * (uint64_t)k + 1;
        }
    }
    return words;
}

static void shuffle(uint32_t *row, uint32_t count)
{
    uint64_t state = 88172645463325252;
    for (uint32_t left = count; left > 1; left--) {
        state ^= state << 13, state ^= state >> 7, state ^= state << 17; /* xorshift64 */
        uint32_t other = state % left, kept = row[left - 1];
        row[left - 1] = row[other];
        row[other] = kept;
    }
}

int main(int words_given, char **words)
{
    bool is_tree = words_given == 4 && strcmp(words[1], "tree") == 0;
    uint32_t count = words_given == 4 ? (uint32_t)atol(words[2]) : 0;
    if (count == 0 || (!is_tree && strcmp(words[1], "chain") != 0))
        die("usage: infer_alone chain|tree OBJECTS RUNS");
    uint32_t *old_places = zeroed(count, sizeof *old_places), *new_places = zeroed(count, sizeof *new_places);
    for (uint32_t k = 0; k < count; k++)
        old_places[k] = new_places[k] = k;
    if (is_tree)
        shuffle(new_places, count);
    uint64_t *old_words = heap_words(is_tree, old_places, count), *new_words = heap_words(is_tree, new_places, count);
    uint32_t end = start_of(count);
    uint64_t old_roots[1] = {2 * (uint64_t)start_of(old_places[0])}, new_roots[1] = {2 * (uint64_t)start_of(new_places[0])};
    const gcflip_image old_image = {end, end, true, old_words, old_roots, 1}, new_image = {end, end, true, new_words, new_roots, 1};
    gcflip_pair *pairs = zeroed(count, sizeof *pairs);
    double least[2] = {1e9, 1e9};
    for (int run = 0; run < 2 * atoi(words[3]); run++) {
        gcflip_verdict verdict = {0, 0, 0, 0};
        size_t found = count;
        double start = milliseconds();
        uint32_t answer = run % 2 == 0 ? gcflip_infer_images(&old_image, &new_image, pairs, count, &found, &verdict)
                                       : gcflip_check_images(&old_image, &new_image, pairs, count, &verdict);
        double took = milliseconds() - start;
        if (answer != GCFLIP_YES || found != count)
            die("not a yes");
        least[run % 2] = took < least[run % 2] ? took : least[run % 2];
    }
    printf("check %.2f ms, infer %.2f ms, %.2f\n", least[1], least[0], least[0] / least[1]);
    return 0;
}
