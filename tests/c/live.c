/* A heap with much live data, over two collections: live MIB FIELDS SHARE [infer]. Prints figures as NAME=NUMBER.
 *
 * MIB is how much data is live: a list, which takes one part of SHARE, and a random graph of nodes with FIELDS fields. A node has its number, its
 * age, EDGES references to nodes that follow from both, and nil. Tables in extra roots refer to all nodes. While the first collection is open, the
 * program ages nodes, which writes all their edges. After each collection it reads the list and the whole graph. With `infer`, the images before
 * and after the second collection, during which nothing is written, have to have as many pairs as the flip had. */
#include "gcflip.h"
#include "one_heap.h"
#include <string.h>
#include <time.h>

enum { EDGES = 4, NUMBER = 0, AGE = 1, FIRST_EDGE = 2, OF_TABLE = 65535, STEPS = 1000, WRITES = 4, MOST_ROOTS = 4096 };
/* Slots. */
enum { LIST = 16, NODE = 0, TARGET, TABLE, VALUE, SEEN, CELL };

static uint32_t cells, nodes, tables, fields;
static uint8_t *ages;
static uint64_t state = 1, flip_ns, longest_ns, work_ns;
static uint32_t flipped;

static uint64_t now(void)
{
    struct timespec time;
    clock_gettime(CLOCK_MONOTONIC, &time);
    return 1000000000u * (uint64_t)time.tv_sec + (uint64_t)time.tv_nsec;
}

/* Mixes the bits of a number, as splitmix64 does. */
static uint64_t mixed(uint64_t number)
{
    number = (number ^ number >> 30) * 13787848793156543929u;
    number = (number ^ number >> 27) * 10723151780598845931u;
    return number ^ number >> 31;
}

static uint64_t random_number(void)
{
    state += 11400714819323198485u;
    return mixed(state);
}

/* Returns the node that edge j of node i leads to, at that age. */
static uint32_t target_of(uint32_t i, uint32_t j, uint32_t age)
{
    return (uint32_t)(mixed(((uint64_t)i << 12) + 16 * age + j + 1) % nodes);
}

/* Loads node i into a slot. */
static void load(uint8_t slot, uint32_t i)
{
    EXPECT(gcflip_heap_root_load(&heap, 0, TABLE, i / OF_TABLE) == GCFLIP_DONE);
    EXPECT(gcflip_heap_get(&heap, 0, slot, TABLE, (uint16_t)(i % OF_TABLE), &number) == GCFLIP_OBJECT);
}

/* Writes the age and the edges of node i. */
static void write_node(uint32_t i)
{
    load(NODE, i);
    EXPECT(gcflip_heap_put_number(&heap, 0, NODE, AGE, VALUE, ages[i]) == GCFLIP_DONE);
    for (uint32_t j = 0; j < EDGES; j++) {
        load(TARGET, target_of(i, j, ages[i]));
        EXPECT(gcflip_heap_put(&heap, 0, NODE, FIRST_EDGE + j, TARGET) == GCFLIP_DONE);
    }
}

static void make_all(void)
{
    for (uint32_t k = 0; k < cells; k++) {
        EXPECT(gcflip_heap_set_number(&heap, 0, VALUE, k) == GCFLIP_DONE);
        EXPECT(gcflip_heap_new_pair(&heap, 0, CELL, 1, VALUE, LIST) == GCFLIP_MADE);
        EXPECT(gcflip_heap_move(&heap, 0, LIST, CELL) == GCFLIP_DONE);
    }
    for (uint32_t t = 0; t < tables; t++) {
        EXPECT(gcflip_heap_new_object(&heap, 0, TABLE, 2, OF_TABLE) == GCFLIP_MADE);
        EXPECT(gcflip_heap_root_store(&heap, 0, t, TABLE) == GCFLIP_DONE);
    }
    for (uint32_t i = 0; i < nodes; i++) {
        EXPECT(gcflip_heap_new_object(&heap, 0, NODE, 3, (uint16_t)fields) == GCFLIP_MADE);
        EXPECT(gcflip_heap_put_number(&heap, 0, NODE, NUMBER, VALUE, i) == GCFLIP_DONE);
        EXPECT(gcflip_heap_root_load(&heap, 0, TABLE, i / OF_TABLE) == GCFLIP_DONE);
        EXPECT(gcflip_heap_put(&heap, 0, TABLE, (uint16_t)(i % OF_TABLE), NODE) == GCFLIP_DONE);
    }
    for (uint32_t i = 0; i < nodes; i++)
        write_node(i);
}

/* Expects that a field of the object in a slot is this number. */
static void expect_number(uint8_t slot, uint16_t field, uint64_t wanted)
{
    EXPECT(gcflip_heap_get(&heap, 0, SEEN, slot, field, &number) == GCFLIP_NUMBER && number == wanted);
}

static void expect_all(void)
{
    EXPECT(gcflip_heap_move(&heap, 0, CELL, LIST) == GCFLIP_DONE);
    for (uint32_t k = cells; k > 0; k--) {
        expect_number(CELL, 0, k - 1);
        EXPECT(gcflip_heap_get(&heap, 0, CELL, CELL, 1, &number) == (k == 1 ? GCFLIP_NIL : GCFLIP_OBJECT));
    }
    for (uint32_t i = 0; i < nodes; i++) {
        load(NODE, i);
        EXPECT(gcflip_heap_look(&heap, 0, NODE, &view) == GCFLIP_OBJECT && view.kind == 3 && view.count == fields);
        expect_number(NODE, NUMBER, i);
        expect_number(NODE, AGE, ages[i]);
        for (uint32_t j = 0; j < EDGES; j++) {
            EXPECT(gcflip_heap_get(&heap, 0, TARGET, NODE, (uint16_t)(FIRST_EDGE + j), &number) == GCFLIP_OBJECT);
            expect_number(TARGET, NUMBER, target_of(i, j, ages[i]));
        }
        EXPECT(gcflip_heap_get(&heap, 0, SEEN, NODE, (uint16_t)(fields - 1), &number) == GCFLIP_NIL);
    }
}

/* Collects, with some steps in each call. Ages nodes between the calls if it `writes`. */
static void collect(int writes)
{
    for (work.last = 0; work.last != GCFLIP_FLIPPED;) {
        uint64_t started = now(), taken;
        EXPECT(gcflip_heap_work(&heap, STEPS, &work) == GCFLIP_DONE && work.last != GCFLIP_NO_ROOM);
        taken = now() - started;
        work_ns += taken;
        if (work.last == GCFLIP_FLIPPED) {
            flip_ns = taken;
            flipped = work.pairs;
        } else if (taken > longest_ns) {
            longest_ns = taken;
        }
        /* Fewer writes than steps, so that the collection ends. */
        for (int k = 0; writes && k < WRITES && work.last != GCFLIP_FLIPPED; k++) {
            uint32_t i = (uint32_t)(random_number() % nodes);
            ages[i] = (uint8_t)(ages[i] + 1);
            write_node(i);
        }
    }
}

/* Returns the most memory that the process had so far, in MiB. */
static unsigned long peak(void)
{
    char line[256];
    unsigned long kib = 0;
    FILE *file = fopen("/proc/self/status", "r");
    EXPECT(file != NULL);
    while (fgets(line, sizeof line, file) != NULL)
        if (strncmp(line, "VmHWM:", 6) == 0)
            kib = strtoul(line + 6, NULL, 10);
    fclose(file);
    return kib / 1024;
}

struct image {
    gcflip_image image;
    uint64_t *words, *roots;
};

static struct image image_of_heap(void)
{
    struct image made;
    size_t roots = gcflip_heap_root_count(1) + MOST_ROOTS;
    EXPECT(gcflip_heap_counts(&heap, &counts) == GCFLIP_DONE);
    made.words = calloc(counts.end, sizeof *made.words);
    made.roots = calloc(roots, sizeof *made.roots);
    EXPECT(made.words != NULL && made.roots != NULL);
    EXPECT(gcflip_heap_image(&heap, made.words, counts.end, made.roots, roots) == GCFLIP_DONE);
    gcflip_image image = {counts.size, counts.end, 1, made.words, made.roots, roots};
    made.image = image;
    return made;
}

/* Infers the pairs of two images and checks them, and prints what both take for each word. */
static void infer(const struct image *old, const struct image *new)
{
    gcflip_verdict verdict = {0, 0, 0, 0};
    size_t count = 0;
    gcflip_pair *pairs = calloc(flipped, sizeof *pairs);
    EXPECT(pairs != NULL);
    uint64_t started = now(), inferred, checked;
    EXPECT(gcflip_infer_images(&old->image, &new->image, pairs, flipped, &count, &verdict) == GCFLIP_YES && count == flipped);
    inferred = now();
    EXPECT(gcflip_check_images(&old->image, &new->image, pairs, (uint32_t)count, &verdict) == GCFLIP_YES && verdict.pairs == flipped);
    checked = now();
    printf("infer_ns_a_word=%.2f\ncheck_ns_a_word=%.2f\n", (double)(inferred - started) / new->image.end, (double)(checked - inferred) / new->image.end);
    new->words[new->image.end - 1] ^= 2;
    EXPECT(gcflip_check_images(&old->image, &new->image, pairs, (uint32_t)count, &verdict) == GCFLIP_REFUSED);
    free(pairs);
}

int main(int count, char **words)
{
    EXPECT(count >= 4);
    uint64_t live = strtoull(words[1], NULL, 10) * 131072;
    fields = (uint32_t)strtoul(words[2], NULL, 10);
    cells = (uint32_t)(live / strtoul(words[3], NULL, 10) / 4);
    nodes = (uint32_t)((live - 4 * (uint64_t)cells) * OF_TABLE / ((fields + 2) * (uint64_t)OF_TABLE + OF_TABLE + 2));
    tables = (nodes + OF_TABLE - 1) / OF_TABLE;
    ages = calloc(nodes, 1);
    EXPECT(ages != NULL && fields > FIRST_EDGE + EDGES && tables <= MOST_ROOTS);
    uint64_t all = 1 + 4 * (uint64_t)cells + (OF_TABLE + 2) * (uint64_t)tables + (fields + 2) * (uint64_t)nodes;
    gcflip_options options = gcflip_options_default((uint32_t)(all + all / 64), 1);
    options.extra_roots = MOST_ROOTS;
    EXPECT(gcflip_heap_open(&heap, &options) == GCFLIP_DONE);
    make_all();
    while (gcflip_heap_new_object(&heap, 0, SEEN, 4, (uint16_t)fields) == GCFLIP_MADE) {
    }
    EXPECT(gcflip_heap_set_nil(&heap, 0, SEEN) == GCFLIP_DONE);
    collect(1);
    EXPECT(flipped == cells + tables + nodes);
    EXPECT(gcflip_heap_counts(&heap, &counts) == GCFLIP_DONE && counts.end == all);
    expect_all();
    printf("peak_mib=%lu\n", peak());
    struct image old = {{0, 0, 0, NULL, NULL, 0}, NULL, NULL}, new = old;
    if (count > 4)
        old = image_of_heap();
    collect(0);
    EXPECT(flipped == cells + tables + nodes);
    EXPECT(gcflip_heap_counts(&heap, &counts) == GCFLIP_DONE && counts.end == all);
    expect_all();
    printf("live_words=%llu\nobjects=%u\nlast_flip_ns_a_word=%.2f\nlast_flip_ms=%.1f\n", (unsigned long long)all, flipped, (double)flip_ns / all, flip_ns / 1e6);
    printf("longest_other_call_ms=%.2f\nwork_s=%.1f\n", longest_ns / 1e6, work_ns / 1e9);
    if (count > 4) {
        new = image_of_heap();
        close_heap();
        infer(&old, &new);
        free(old.words), free(old.roots), free(new.words), free(new.roots);
    } else {
        close_heap();
    }
    free(ages);
    return 0;
}
