/* What the adapters of these folders share: arrays that grow, roots with names, planted faults, and times. An adapter is compiled into a file of its
 * runtime, so each function here is static. */
#ifndef ADAPTER_KIT_H
#define ADAPTER_KIT_H

#include <gcflip_images.h>
#include <stdio.h>
#include <stdlib.h>
#include <string.h>
#include <time.h>
#include <unistd.h>

/* ---- Arrays that grow. */

/* Returns the array with room for one more element of so many bytes. Ends the program if an allocation fails. */
static inline void *kit_grown(void *array, size_t *room, size_t count, size_t bytes)
{
    if (count < *room)
        return array;
    *room = 2 * *room + 1024;
    array = realloc(array, *room * bytes);
    if (array == NULL) {
        fprintf(stderr, "certify: no memory\n");
        exit(3);
    }
    return array;
}

/* ---- Roots in sections, so that a refusal names a root by its section and its number there. */

enum { KIT_SECTIONS = 64 };

struct kit_roots {
    gcflip_snapshot *snapshot;
    uint64_t count;
    size_t section_count;
    struct kit_section {
        const char *name;
        uint64_t first;
    } sections[KIT_SECTIONS];
};

static inline void kit_begin_roots(struct kit_roots *roots, gcflip_snapshot *snapshot)
{
    roots->snapshot = snapshot;
    roots->count = roots->section_count = 0;
}

static inline void kit_section(struct kit_roots *roots, const char *name)
{
    if (roots->section_count < KIT_SECTIONS)
        roots->sections[roots->section_count++] = (struct kit_section){name, roots->count};
}

static inline void kit_root(struct kit_roots *roots, uint64_t word)
{
    roots->count++;
    gcflip_snapshot_root(roots->snapshot, word);
}

static inline void kit_weak_root(struct kit_roots *roots, uint64_t target)
{
    roots->count++;
    gcflip_snapshot_weak_root(roots->snapshot, target);
}

/* Names a root. `given` is the roots. */
static inline const char *kit_root_name(void *given, uint64_t root)
{
    static _Thread_local char text[96];
    const struct kit_roots *roots = given;
    for (size_t i = roots->section_count; i-- > 0;)
        if (roots->sections[i].first <= root) {
            snprintf(text, sizeof text, "%s %llu", roots->sections[i].name, (unsigned long long)(root - roots->sections[i].first));
            return text;
        }
    return NULL;
}

/* ---- What a run is asked for, by variables of the environment. */

static inline long kit_number(const char *name, long otherwise)
{
    const char *text = getenv(name);
    return text == NULL ? otherwise : atol(text);
}

/* A fault of the collector that is planted once. CERTIFY_FAULT is its name, CERTIFY_AT the number of a collection, and CERTIFY_NTH how many places for it
 * are passed over from there on. */
struct kit_fault {
    int number; /* 0 for none */
    long at, nth;
};

static inline struct kit_fault kit_planted(const char *const *names, int count)
{
    const char *name = getenv("CERTIFY_FAULT");
    struct kit_fault fault = {0, kit_number("CERTIFY_AT", 1), kit_number("CERTIFY_NTH", 0)};
    for (int i = 1; name != NULL && i < count; i++)
        if (strcmp(names[i], name) == 0)
            fault.number = i;
    if (name != NULL && fault.number == 0) {
        fprintf(stderr, "certify: no fault has the name %s\n", name);
        exit(2);
    }
    return fault;
}

/* ---- Times, in milliseconds of processor time of this thread. */

static inline double kit_now(void)
{
    struct timespec time;
    clock_gettime(CLOCK_THREAD_CPUTIME_ID, &time);
    return (double)time.tv_sec * 1e3 + (double)time.tv_nsec / 1e6;
}

/* ---- Refusals. */

/* Prints why a collection got no yes, writes the snapshots to the file that CERTIFY_TEXT names, and ends the program with status 3. */
static inline void kit_refused(gcflip_collection *collection, const gcflip_names *names, const char *which, size_t number)
{
    const char *path = getenv("CERTIFY_TEXT");
    fprintf(stderr, "%s %zu: ", which, number);
    gcflip_collection_explain(collection, names, stderr);
    FILE *file = path ? fopen(path, "w") : NULL;
    if (file != NULL) {
        gcflip_collection_write(collection, file);
        fclose(file);
    }
    _exit(3);
}

#endif
