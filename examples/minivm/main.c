/* minivm [--heap WORDS] [--most WORDS] [--stats] FILE: runs a program on a heap of so many words, which grows up to the most words. */
#include "minivm.h"

#include <errno.h>
#include <inttypes.h>

hp vm;

static _Noreturn void usage(void)
{
    fprintf(stderr, "usage: minivm [--heap WORDS] [--most WORDS] [--stats] FILE\n");
    exit(2);
}

/* The hook while no program runs, so that none can take its errors: ends minivm. */
static void failed_outside(hp *h, uint32_t answer, const char *call)
{
    (void)h;
    fprintf(stderr, "minivm: %s: %s\n", call, gcflip_answer_text(answer));
    exit(2);
}

/* Returns a number of words, from 1 on. */
static uint32_t words_of(const char *text)
{
    char *end;
    errno = 0;
    unsigned long long words = strtoull(text, &end, 10);
    if (text[0] < '0' || text[0] > '9' || *end != 0 || errno != 0 || words == 0 || words > UINT32_MAX)
        usage();
    return (uint32_t)words;
}

/* Reads the whole file, which has less than a MiB. */
static const char *text_of(const char *path)
{
    static char text[1 << 20];
    FILE *file = fopen(path, "r");
    if (file == NULL) {
        perror(path);
        exit(2);
    }
    size_t length = fread(text, 1, sizeof text, file);
    if (ferror(file) || length == sizeof text) {
        fprintf(stderr, "minivm: %s: cannot be read, or is too long\n", path);
        exit(2);
    }
    fclose(file);
    text[length] = 0;
    return text;
}

/* Prints what the layer counted, and how many objects of each kind are reachable. One that is not as its kind says is a mistake of minivm. */
static void print_stats(void)
{
    uint32_t found[256] = {0};
    hp_object object = {0, {HP_NIL, 0, 0, 0, 0, 0}};
    for (hp_root r = 0; r < WORK_REGISTERS; r++)
        hp_set_nil(&vm, r);
    hp_collect(&vm);
    while (hp_next(&vm, &object)) {
        if (!hp_object_fits(&vm, &object))
            abort();
        found[object.value.kind]++;
    }
    fprintf(stderr, "made %" PRIu64 " objects of %" PRIu64 " words; %" PRIu64 " flips, %" PRIu64 " waits; the heap has %" PRIu32 " words\n", vm.stats.objects, vm.stats.words,
            vm.stats.flips, vm.stats.waits, hp_counts(&vm).size);
    for (uint32_t kind = 0; kind < KINDS; kind++)
        fprintf(stderr, "reachable: %" PRIu32 " of %s\n", found[kind], hp_kind_name(&vm, kind));
}

int main(int count, char **words)
{
    static const hp_kind kinds[KINDS] = {{"a text", HP_ANY_FIELDS, 0}, {"an array", HP_ARRAY_FIELDS, 1 << HP_LENGTH}, {"a table", 3, 1 << 0}};
    uint32_t size = 1000000, most = 0;
    bool stats = false;
    int i = 1;
    for (; i < count && strncmp(words[i], "--", 2) == 0; i++) {
        if (strcmp(words[i], "--stats") == 0)
            stats = true;
        else if (strcmp(words[i], "--heap") == 0 && i + 1 < count)
            size = words_of(words[++i]);
        else if (strcmp(words[i], "--most") == 0 && i + 1 < count)
            most = words_of(words[++i]);
        else
            usage();
    }
    if (i + 1 != count)
        usage();
    hp_open(&vm, size, 200000, failed_outside);
    if (most > size)
        hp_growing(&vm, most);
    hp_describe_kinds(&vm, kinds, KINDS);
    int32_t main_function = compile(text_of(words[i]));
    vm.failed = heap_failed;
    bool done = run(main_function);
    vm.failed = failed_outside;
    if (stats)
        print_stats();
    hp_close(&vm);
    return done ? 0 : 1;
}
