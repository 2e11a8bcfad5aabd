/* Performs the calls on standard input, a line each, and prints a line for each: random_calls [RECORD].
   Compiled with -DRECORD, it records the run into RECORD. Compiled with -DBASIC, it has no calls that reserve room, and no numbers of
   raw objects by places, which the heap in plain C lacks. tests/program/random_calls.py makes the calls and knows the lines.

   Outputs that a call must leave alone are compared with what they held before. */
#ifdef RECORD
#include "gcflip_record.h"
FILE *gcflip_trace;
#else
#include "gcflip_heap.h"
#endif
#include "expect.h"
#include <stdbool.h>
#include <string.h>

#define MOST 70000
#define KEPT 0x5a5a5a5a5a5a5a5aull
#define KEPT_32 0x5a5a5a5au
#define IS(text) (strcmp(name, text) == 0)

static gcflip_heap heap = GCFLIP_NO_HEAP;
static uint64_t a[MOST];

static const char *const replies[] = {
    [GCFLIP_DONE] = "done", [GCFLIP_NO_MEMORY] = "no memory", [GCFLIP_OUT_OF_RANGE] = "out of range",
    [GCFLIP_CLOSED] = "closed", [GCFLIP_OPEN] = "open", [GCFLIP_MADE] = "made", [GCFLIP_FULL] = "full",
    [GCFLIP_NO_OBJECT] = "no object", [GCFLIP_NO_FIELD] = "no field", [GCFLIP_NO_NUMBER] = "no number", [GCFLIP_SAME] = "yes",
    [GCFLIP_NOT_SAME] = "no", [GCFLIP_NIL] = "saw nil", [GCFLIP_NUMBER] = "saw num", [GCFLIP_OBJECT] = "saw obj",
    [GCFLIP_RAW_OBJECT] = "saw raw", [GCFLIP_BUSY] = "busy", [GCFLIP_BEGUN] = "begun", [GCFLIP_IDLE] = "idle", [GCFLIP_CLEAN] = "clean",
    [GCFLIP_NO_ROOM] = "no room", [GCFLIP_COPIED] = "copied", [GCFLIP_PASSED] = "passed", [GCFLIP_SCANNED] = "scanned",
    [GCFLIP_APPLIED] = "applied", [GCFLIP_NOT_READY] = "not ready", [GCFLIP_FLIP_REFUSED] = "refused", [GCFLIP_FLIPPED] = "flipped",
    [GCFLIP_DROPPED] = "dropped", [GCFLIP_STARVED] = "starved", [GCFLIP_FRAME_FULL] = "frame full", [GCFLIP_FRAME_EMPTY] = "frame empty",
};

static const char *reply(uint32_t answer)
{
    EXPECT(answer < sizeof replies / sizeof replies[0] && replies[answer]);
    return replies[answer];
}

/* Prints the answer of a look or a peek, with what it saw. */
static void print_look(uint32_t answer, gcflip_view view)
{
    printf("%s", reply(answer));
    if (GCFLIP_IS_REFUSED(answer) || answer == GCFLIP_NO_OBJECT || answer == GCFLIP_NO_FIELD)
        EXPECT(view.kind == KEPT_32 && view.count == KEPT_32 && view.number == KEPT);
    else if (answer == GCFLIP_NUMBER)
        EXPECT(view.kind == 0 && view.count == 0 && printf(" %llu", (unsigned long long)view.number) > 0);
    else if (answer == GCFLIP_NIL)
        EXPECT(view.kind == 0 && view.count == 0 && view.number == 0);
    else
        EXPECT(view.number == 0 && printf(" %u %u", view.kind, view.count) > 0);
    printf("\n");
}

static void look(uint8_t m, uint8_t s)
{
    gcflip_view view = {KEPT_32, KEPT_32, KEPT};
    uint32_t answer = gcflip_heap_look(&heap, m, s, &view);
    print_look(answer, view);
}

/* Writes to `view` what a call returned, as another call writes it, and returns the answer. If it saw nothing, its members are 0. */
static uint32_t written(gcflip_seen seen, gcflip_view *view)
{
    if (seen.answer >= GCFLIP_NIL && seen.answer <= GCFLIP_RAW_OBJECT)
        *view = (gcflip_view){seen.kind, seen.count, seen.number};
    else
        EXPECT(seen.kind == 0 && seen.count == 0 && seen.number == 0);
    return seen.answer;
}

/* Expects that a call returned what another one wrote. */
static void expect_seen(gcflip_seen seen, uint32_t answer, gcflip_view view)
{
    gcflip_view same = {KEPT_32, KEPT_32, KEPT};
    EXPECT(written(seen, &same) == answer && same.kind == view.kind && same.count == view.count && same.number == view.number);
}

/* Whether the next look or get returns what it sees, as every other one does. A recording has one line for each. */
static bool next_returns(void)
{
    static bool returns;
    return returns = !returns;
}

static void place_look(uint32_t s)
{
    gcflip_view view = {KEPT_32, KEPT_32, KEPT};
    uint32_t answer = next_returns() ? written(gcflip_look_seen(&heap, s), &view) : gcflip_look(&heap, s, &view);
    print_look(answer, view);
}

/* A reference that a get sees is printed without its object, since the call does not tell it. */
static void print_get(uint32_t answer, uint64_t number)
{
    printf("%s", reply(answer));
    if (answer == GCFLIP_NUMBER)
        printf(" %llu", (unsigned long long)number);
    else
        EXPECT(number == KEPT);
    printf("\n");
}

static void get(uint8_t m, uint8_t d, uint8_t s, uint16_t i)
{
    uint64_t number = KEPT;
    uint32_t answer = gcflip_heap_get(&heap, m, d, s, i, &number);
    print_get(answer, number);
}

static void place_peek(uint32_t s, uint32_t i)
{
    gcflip_view view = {KEPT_32, KEPT_32, KEPT};
    uint32_t answer = gcflip_peek(&heap, s, i, &view);
    expect_seen(gcflip_peek_seen(&heap, s, i), answer, view);
    print_look(answer, view);
}

static void place_get(uint32_t d, uint32_t s, uint32_t i)
{
    gcflip_view view = {0, 0, KEPT};
    uint32_t answer = next_returns() ? written(gcflip_get_seen(&heap, d, s, i), &view) : gcflip_get(&heap, d, s, i, &view.number);
    EXPECT(view.kind == 0 && view.count == 0 && (answer == GCFLIP_NUMBER || view.number == 0 || view.number == KEPT));
    print_get(answer, answer == GCFLIP_NUMBER ? view.number : KEPT);
}

static void flip(void)
{
    uint32_t pairs = KEPT_32, answer = gcflip_heap_step_flip(&heap, &pairs);
    printf("%s", reply(answer));
    if (answer == GCFLIP_FLIPPED)
        printf(" %u", pairs);
    else
        EXPECT(pairs == KEPT_32);
    printf("\n");
}

/* Prints the report of a call that worked. */
static void print_work(const gcflip_work *work)
{
    printf("worked %u %u %u %s", work->steps, work->copied, work->looks, reply(work->last));
    if (work->last == GCFLIP_FLIPPED)
        printf(" %u", work->pairs);
    else
        EXPECT(work->pairs == 0);
    EXPECT(work->steps > 0 || (work->looks > 0 && work->copied == 0 && work->last == GCFLIP_DONE));
}

/* Works with a size for the new space, unless it is NO_BOUND, or within so many words, unless they are. */
#define NO_BOUND UINT64_MAX
static void work(uint32_t most, uint64_t size, uint64_t words)
{
    gcflip_work work = {KEPT_32, KEPT_32, KEPT_32, KEPT_32, KEPT_32};
    uint32_t answer = size != NO_BOUND    ? gcflip_heap_work_sized(&heap, most, (uint32_t)size, &work)
                      : words != NO_BOUND ? gcflip_heap_work_within(&heap, most, (uint32_t)words, &work)
                                          : gcflip_heap_work(&heap, most, &work);
    if (answer != GCFLIP_DONE) {
        EXPECT(work.steps == KEPT_32 && work.copied == KEPT_32 && work.last == KEPT_32 && work.pairs == KEPT_32 && work.looks == KEPT_32);
        printf("%s\n", reply(answer));
        return;
    }
    print_work(&work);
    printf("\n");
}

static gcflip_pace pace;

static void set_pace(void)
{
    gcflip_pace new = {(uint32_t)a[0], (uint32_t)a[1], (uint32_t)a[2], (uint32_t)a[3], KEPT_32, KEPT_32, KEPT_32, KEPT_32, KEPT_32};
    uint32_t answer = gcflip_heap_pace(&heap, &new);
    EXPECT(new.factor == a[0] && new.rate == a[1] && new.least == a[2] && new.words == a[3]);
    if (answer == GCFLIP_DONE)
        pace = new;
    else
        EXPECT(new.left == KEPT_32 && new.end == KEPT_32 && new.logged == KEPT_32 && new.owed == KEPT_32 && new.roots == KEPT_32);
    printf("%s\n", reply(answer));
}

/* Prints the report of a call at the pace, and what the pace remembers. */
static void print_paced(const gcflip_work *work)
{
    if (work->steps > 0 || work->looks > 0)
        print_work(work);
    else
        EXPECT(work->copied == 0 && work->last == 0 && work->pairs == 0 && printf("nothing") > 0);
    printf(", %u %u %u %u %u\n", pace.left, pace.end, pace.logged, pace.owed, pace.roots);
}

static void work_paced(uint32_t wanted)
{
    gcflip_work work = {KEPT_32, KEPT_32, KEPT_32, KEPT_32, KEPT_32};
    gcflip_counts c;
    EXPECT(gcflip_heap_counts(&heap, &c) == GCFLIP_DONE);
    uint32_t due = gcflip_pace_due(&pace, &c, wanted);
    EXPECT(gcflip_heap_work_paced(&heap, &pace, wanted, &work) == GCFLIP_DONE);
    EXPECT(work.steps + work.looks / 32 + pace.owed >= due || work.last == GCFLIP_FLIPPED || work.last == GCFLIP_NO_ROOM);
    print_paced(&work);
}

#ifndef BASIC
static void reserve(uint32_t words)
{
    gcflip_work work = {KEPT_32, KEPT_32, KEPT_32, KEPT_32, KEPT_32};
    uint32_t answer = gcflip_reserve(&heap, &pace, words, &work);
    EXPECT((answer == GCFLIP_DONE) == (gcflip_room(&heap) >= words));
    printf("%s, ", reply(answer));
    print_paced(&work);
}

static void collect(void)
{
    gcflip_work work = {KEPT_32, KEPT_32, KEPT_32, KEPT_32, KEPT_32};
    uint32_t answer = gcflip_collect(&heap, &work);
    printf("%s, ", reply(answer));
    print_work(&work);
    printf("\n");
}
#endif

/* Performs a call on a frame, whose numbers come first. */
static void frame(const char *name)
{
    gcflip_frame frame = {(uint32_t)a[0], (uint32_t)a[1], (uint32_t)a[2], (uint32_t)a[3]};
    uint32_t answer = IS("frame_push")  ? gcflip_heap_frame_push(&heap, (uint8_t)a[4], (uint8_t)a[5], &frame)
                      : IS("frame_pop") ? gcflip_heap_frame_pop(&heap, (uint8_t)a[4], (uint8_t)a[5], &frame)
                                        : gcflip_heap_frame_trim(&heap, &frame, (uint32_t)a[4]);
    EXPECT(frame.first == a[0] && frame.end == a[1]);
    printf("%s %u %u\n", reply(answer), frame.top, frame.high);
}

static void useful(void)
{
    static const char *const names[] = {"", "begin", "begin_sized", "roots", "scan", "apply", "flip", "drop"};
    gcflip_step step = {KEPT_32, KEPT_32};
    uint32_t answer = gcflip_heap_useful(&heap, &step);
    if (answer != GCFLIP_DONE) {
        EXPECT(step.name == KEPT_32 && step.mutator == KEPT_32);
        printf("%s\n", reply(answer));
        return;
    }
    EXPECT(step.name < sizeof names / sizeof names[0]);
    printf("useful %s", names[step.name]);
    if (step.name == GCFLIP_STEP_APPLY)
        printf(" %u", step.mutator);
    else
        EXPECT(step.mutator == 0);
    printf("\n");
}

static void counts(void)
{
    gcflip_counts c;
    memset(&c, 0x5a, sizeof c);
    uint32_t answer = gcflip_heap_counts(&heap, &c);
    if (answer != GCFLIP_DONE) {
        EXPECT(c.size == KEPT_32 && c.logged == KEPT_32 && c.roots_left == KEPT_32);
        printf("%s\n", reply(answer));
        return;
    }
    printf("counts %u %u %u %u %u %u %u %u %u %u %u %u\n", c.size, c.end, c.free, c.mutators, c.extra_roots, c.is_open, c.new_size, c.new_end,
           c.scan_place, c.scan_field, c.logged, c.roots_left);
}

static void print_log(uint8_t m)
{
    size_t length = KEPT_32;
    uint32_t answer = gcflip_heap_log_length(&heap, m, &length);
    gcflip_log_entry entry = {KEPT_32, KEPT_32};
    if (answer != GCFLIP_DONE) {
        EXPECT(length == KEPT_32);
        printf("%s\n", reply(answer));
        return;
    }
    EXPECT(gcflip_heap_log_entry(&heap, m, length, &entry) == GCFLIP_OUT_OF_RANGE && entry.object == KEPT_32);
    printf("log %zu", length);
    for (size_t k = 0; k < length; k++) {
        EXPECT(gcflip_heap_log_entry(&heap, m, k, &entry) == GCFLIP_DONE);
        printf(" %u:%u", entry.object, entry.field);
    }
    printf("\n");
}

static void print_words(const char *name, const uint64_t *words, size_t count, const uint64_t *more, size_t others)
{
    printf("%s", name);
    for (size_t i = 0; i < count; i++)
        printf(" %llu", (unsigned long long)words[i]);
    for (size_t i = 0; i < others; i++)
        printf(" %llu", (unsigned long long)more[i]);
    printf("\n");
}

/* Allocates exactly the words, so that a sanitizer sees one too many. Counts that are wrong by one are refused. */
static void image(size_t count, size_t others)
{
    uint64_t *words = malloc(8 * count), *roots = malloc(8 * others);
    gcflip_counts c;
    EXPECT(words && roots && gcflip_heap_counts(&heap, &c) == GCFLIP_DONE);
    EXPECT(c.end == count && gcflip_heap_root_count((uint8_t)c.mutators) + c.extra_roots == others);
    EXPECT(gcflip_heap_image(&heap, words, count + 1, roots, others) == GCFLIP_OUT_OF_RANGE);
    EXPECT(gcflip_heap_image(&heap, words, count, roots, others - 1) == GCFLIP_OUT_OF_RANGE);
    uint32_t answer = gcflip_heap_image(&heap, words, count, roots, others);
    if (answer == GCFLIP_DONE)
        print_words("image", words, count, roots, others);
    else
        printf("%s\n", reply(answer));
    free(words);
    free(roots);
}

static void new_words(size_t count)
{
    uint64_t *words = malloc(8 * count);
    EXPECT(words);
    EXPECT(gcflip_heap_new_words(&heap, words, count + 1) == GCFLIP_OUT_OF_RANGE);
    uint32_t answer = gcflip_heap_new_words(&heap, words, count);
    if (answer == GCFLIP_DONE)
        print_words("words", words, count, words, 0);
    else
        printf("%s\n", reply(answer));
    free(words);
}

static void new_from(void)
{
    uint8_t fields[MOST];
    EXPECT(a[3] < MOST);
    for (size_t i = 0; i < a[3]; i++)
        fields[i] = (uint8_t)a[4 + i];
    printf("%s\n", reply(gcflip_heap_new_from(&heap, (uint8_t)a[0], (uint8_t)a[1], (uint8_t)a[2], fields, a[3])));
}

static void new_with(void)
{
    gcflip_field fields[MOST];
    EXPECT(2 * a[4] + 5 < MOST);
    for (size_t i = 0; i < a[4]; i++)
        fields[i] = (gcflip_field){(uint32_t)a[5 + 2 * i], a[6 + 2 * i]};
    printf("%s\n", reply(gcflip_heap_new_with(&heap, (uint8_t)a[0], (uint8_t)a[1], (uint8_t)a[2], (uint8_t)a[3], fields, a[4])));
}

static void raw_write(void)
{
    EXPECT(a[4] < MOST - 5);
    printf("%s\n", reply(gcflip_heap_raw_write(&heap, (uint8_t)a[0], (uint8_t)a[1], (uint16_t)a[2], (uint8_t)a[3], a + 5, a[4])));
}

static void raw_read(void)
{
    uint64_t words[MOST];
    EXPECT(a[3] < MOST);
    for (size_t i = 0; i < MOST; i++)
        words[i] = 77;
    uint32_t answer = gcflip_heap_raw_read(&heap, (uint8_t)a[0], (uint8_t)a[1], (uint16_t)a[2], words, a[3]);
    for (size_t i = answer == GCFLIP_DONE ? a[3] : 0; i < MOST; i++)
        EXPECT(words[i] == 77);
    if (answer == GCFLIP_DONE)
        print_words("read", words, a[3], words, 0);
    else
        printf("%s\n", reply(answer));
}

/* Prints the answer of a call that tells an address, with what it wrote. */
static void print_address(const char *name, uint32_t answer, uint32_t found)
{
    EXPECT(answer == GCFLIP_DONE || found == 77);
    if (answer == GCFLIP_DONE)
        printf("%s %u\n", name, found);
    else
        printf("%s\n", reply(answer));
}

static void address(void)
{
    uint32_t found = 77;
    uint32_t answer = gcflip_heap_address(&heap, (uint8_t)a[0], (uint8_t)a[1], &found);
    print_address("address", answer, found);
}

/* Writes the numbers from the fourth on over the words of a vector. */
static uint32_t place_write_words(size_t read)
{
    static uint64_t words[MOST];
    for (size_t k = 3; k < read; k++)
        words[k - 3] = a[k];
    return gcflip_words_write(&heap, (uint32_t)a[0], (uint32_t)a[1], (uint32_t)a[2], words, read - 3);
}

#ifndef BASIC
/* Writes the numbers from the fourth on into fields of a raw object. */
static uint32_t place_raw_write(size_t read)
{
    static uint64_t words[MOST];
    for (size_t k = 3; k < read; k++)
        words[k - 3] = a[k];
    return gcflip_raw_write(&heap, (uint32_t)a[0], (uint32_t)a[1], (uint32_t)a[2], words, read - 3);
}

/* Prints the numbers in some fields of a raw object. */
static void place_raw_read(void)
{
    static uint64_t words[MOST];
    EXPECT(a[2] < MOST);
    words[a[2]] = 77;
    const uint32_t answer = gcflip_raw_read(&heap, (uint32_t)a[0], (uint32_t)a[1], words, a[2]);
    EXPECT(words[a[2]] == 77);
    if (answer == GCFLIP_DONE)
        print_words("read", words, a[2], words, 0);
    else
        printf("%s\n", reply(answer));
}
#endif

/* Prints all words of a vector. */
static void place_words(uint32_t s)
{
    static uint64_t words[GCFLIP_MOST_WORDS];
    gcflip_view view = {KEPT_32, KEPT_32, KEPT};
    const uint32_t looked = gcflip_look(&heap, s, &view);
    const uint32_t count = looked == GCFLIP_RAW_OBJECT ? view.count - (view.count + 63) / 64 : 0;
    const uint32_t answer = gcflip_words_read(&heap, s, 0, words, count);
    if (answer != GCFLIP_DONE) {
        printf("%s\n", reply(answer));
        return;
    }
    EXPECT(gcflip_words_read(&heap, s, 0, words, count + 1) == GCFLIP_NO_FIELD);
    printf("words");
    for (uint32_t k = 0; k < count; k++)
        printf(" %llu", (unsigned long long)words[k]);
    printf("\n");
}

static void object_at(uint32_t address)
{
    gcflip_view view = {KEPT_32, KEPT_32, KEPT};
    uint32_t answer = gcflip_object_at(&heap, address, &view);
    expect_seen(gcflip_object_at_seen(&heap, address), answer, view);
    print_look(answer, view);
}

/* Prints also the address of an object that was seen. */
static void field_at(uint32_t address, uint32_t i)
{
    gcflip_view view = {KEPT_32, KEPT_32, KEPT};
    uint32_t answer = gcflip_field_at(&heap, address, i, &view);
    expect_seen(gcflip_field_at_seen(&heap, address, i), answer, view);
    if (answer == GCFLIP_OBJECT || answer == GCFLIP_RAW_OBJECT) {
        printf("at %u, ", (unsigned)view.number);
        view.number = 0;
    }
    print_look(answer, view);
}

static void place_address(uint32_t s)
{
    uint32_t found = 77;
    uint32_t answer = gcflip_address(&heap, s, &found);
    print_address("address", answer, found);
}

/* Makes a text of the numbers from the fourth on. */
static uint32_t place_new_bytes(size_t read)
{
    static uint8_t bytes[MOST];
    for (size_t k = 3; k < read; k++)
        bytes[k - 3] = (uint8_t)a[k];
    return gcflip_new_bytes(&heap, (uint32_t)a[0], (uint32_t)a[1], (uint32_t)a[2], bytes, read - 3);
}

/* Writes the numbers from the fourth on over the bytes of a text. */
static uint32_t place_write(size_t read)
{
    static uint8_t bytes[MOST];
    for (size_t k = 3; k < read; k++)
        bytes[k - 3] = (uint8_t)a[k];
    return gcflip_bytes_write(&heap, (uint32_t)a[0], (uint32_t)a[1], (uint32_t)a[2], bytes, read - 3);
}

static void place_text(uint32_t s)
{
    static uint8_t bytes[GCFLIP_MOST_BYTES];
    uint32_t count = 77;
    const uint32_t answer = gcflip_bytes_length(&heap, s, &count);
    EXPECT(answer == GCFLIP_DONE || count == 77);
    EXPECT(gcflip_bytes_read(&heap, s, 0, bytes, answer == GCFLIP_DONE ? count : 0) == answer);
    if (answer != GCFLIP_DONE) {
        printf("%s\n", reply(answer));
        return;
    }
    printf("text");
    for (uint32_t k = 0; k < count; k++)
        printf(" %u", bytes[k]);
    printf("\n");
}

/* The order, and the answer whether the texts are the same. */
static void place_order(uint32_t s, uint32_t t)
{
    int32_t order = 77;
    const uint32_t answer = gcflip_bytes_compare(&heap, s, t, &order);
    EXPECT(gcflip_bytes_same(&heap, s, t) == (answer != GCFLIP_DONE ? answer : order == 0 ? GCFLIP_SAME : GCFLIP_NOT_SAME));
    EXPECT(answer == GCFLIP_DONE || order == 77);
    if (answer == GCFLIP_DONE)
        printf("order %d\n", order);
    else
        printf("%s\n", reply(answer));
}

/* The call has two names. */
static void moved(uint32_t old)
{
    uint32_t found = 77, again = 77;
    uint32_t answer = gcflip_heap_moved(&heap, old, &found);
    EXPECT(gcflip_moved(&heap, old, &again) == answer && again == found);
    print_address("moved", answer, found);
}

static uint32_t open_heap(void)
{
    gcflip_options options = gcflip_options_default((uint32_t)a[0], (uint8_t)a[1]);
    options.extra_roots = (uint32_t)a[2];
    return gcflip_heap_open(&heap, &options);
}

/* Makes an object of the roots whose places are the numbers from the fourth on. */
static uint32_t place_new_from(size_t read)
{
    static uint32_t fields[MOST];
    for (size_t k = 3; k < read; k++)
        fields[k - 3] = (uint32_t)a[k];
    return gcflip_new_from(&heap, (uint32_t)a[0], (uint32_t)a[1], (uint32_t)a[2], fields, read - 3);
}

/* Makes an object of what the numbers from the fourth on say, two for each field. */
static uint32_t place_new_with(size_t read)
{
    static gcflip_field fields[MOST];
    for (size_t k = 3; k + 1 < read; k += 2)
        fields[(k - 3) / 2] = (gcflip_field){(uint32_t)a[k], a[k + 1]};
    return gcflip_new_with(&heap, (uint32_t)a[0], (uint32_t)a[1], (uint32_t)a[2], fields, (read - 3) / 2);
}

/* Performs a command on roots by their places that writes nothing. The numbers are not cut. */
static uint32_t by_places(const char *name, size_t read)
{
    const uint32_t d = (uint32_t)a[0], s = (uint32_t)a[1], i = (uint32_t)a[2];
    if (IS("place_new")) return gcflip_new(&heap, d, s, i);
    if (IS("place_raw")) return gcflip_new_raw(&heap, d, s, i);
    if (IS("place_pair")) return gcflip_new_pair(&heap, d, s, i, (uint32_t)a[3], (uint32_t)a[4]);
    if (IS("place_new_from")) return place_new_from(read);
    if (IS("place_new_with")) return place_new_with(read);
    if (IS("place_put_sure")) return gcflip_put_sure(&heap, d, s, i, (uint32_t)a[3]);
    if (IS("place_fill")) return gcflip_fill(&heap, d, s, i, (uint32_t)a[3], (uint32_t)a[4]);
    if (IS("place_copy_fields")) return gcflip_copy_fields(&heap, d, s, i, (uint32_t)a[3], (uint32_t)a[4], (uint32_t)a[5]);
    if (IS("place_gather")) return gcflip_gather(&heap, d, s, i, (uint32_t)a[3], (uint32_t)a[4]);
    if (IS("place_spread")) return gcflip_spread(&heap, d, s, i);
    if (IS("place_num")) return gcflip_set_number(&heap, d, a[1]);
    if (IS("place_nil")) return gcflip_set_nil(&heap, d);
    if (IS("place_clear")) return gcflip_clear(&heap, d, s);
    if (IS("place_copy")) return gcflip_copy(&heap, d, s);
    if (IS("place_put")) return gcflip_put(&heap, d, s, i, (uint32_t)a[3]);
    if (IS("place_put_number")) return gcflip_put_number(&heap, d, s, i, a[3]);
    if (IS("place_put_nil")) return gcflip_put_nil(&heap, d, s, i);
    if (IS("place_write_words")) return place_write_words(read);
    if (IS("place_refer")) return gcflip_refer(&heap, d, s);
    if (IS("place_new_bytes")) return place_new_bytes(read);
    if (IS("place_join")) return gcflip_bytes_join(&heap, d, s, i, (uint32_t)a[3], (uint32_t)a[4]);
    if (IS("place_write")) return place_write(read);
    if (IS("place_part")) return gcflip_bytes_part(&heap, d, s, i, (uint32_t)a[3], (uint32_t)a[4], (uint32_t)a[5]);
#ifndef BASIC
    if (IS("place_raw_write")) return place_raw_write(read);
#endif
    EXPECT(IS("place_same"));
    return gcflip_same(&heap, d, s);
}

/* Performs a call that returns a reply and writes nothing. */
static uint32_t plain(const char *name)
{
    const uint8_t m = (uint8_t)a[0], d = (uint8_t)a[1];
    if (IS("open")) return open_heap();
    if (IS("close")) return gcflip_heap_close(&heap);
    if (IS("new")) return gcflip_heap_new_object(&heap, m, d, (uint8_t)a[2], (uint16_t)a[3]);
    if (IS("raw")) return gcflip_heap_new_raw(&heap, m, d, (uint8_t)a[2], (uint16_t)a[3]);
    if (IS("num")) return gcflip_heap_set_number(&heap, m, d, a[2]);
    if (IS("nil")) return gcflip_heap_set_nil(&heap, m, d);
    if (IS("move")) return gcflip_heap_move(&heap, m, d, (uint8_t)a[2]);
    if (IS("put")) return gcflip_heap_put(&heap, m, d, (uint16_t)a[2], (uint8_t)a[3]);
    if (IS("put_number")) return gcflip_heap_put_number(&heap, m, d, (uint16_t)a[2], (uint8_t)a[3], a[4]);
    if (IS("put_nil")) return gcflip_heap_put_nil(&heap, m, d, (uint16_t)a[2], (uint8_t)a[3]);
    if (IS("copy_fields"))
        return gcflip_heap_copy_fields(&heap, m, d, (uint16_t)a[2], (uint8_t)a[3], (uint16_t)a[4], (uint8_t)a[5], (uint16_t)a[6]);
    if (IS("cons")) return gcflip_heap_new_pair(&heap, m, d, (uint8_t)a[2], (uint8_t)a[3], (uint8_t)a[4]);
    if (IS("same")) return gcflip_heap_same(&heap, m, d, (uint8_t)a[2]);
    if (IS("begin")) return gcflip_heap_step_begin(&heap);
    if (IS("begin_sized")) return gcflip_heap_step_begin_sized(&heap, (uint32_t)a[0]);
    if (IS("roots")) return gcflip_heap_step_roots(&heap);
    if (IS("scan")) return gcflip_heap_step_scan(&heap);
    if (IS("apply")) return gcflip_heap_step_apply(&heap, m);
    if (IS("root_load")) return gcflip_heap_root_load(&heap, m, d, (uint32_t)a[2]);
    if (IS("root_store")) return gcflip_heap_root_store(&heap, m, (uint32_t)a[1], (uint8_t)a[2]);
    if (IS("root_clear")) return gcflip_heap_root_clear(&heap, (uint32_t)a[0], (uint32_t)a[1]);
    if (IS("refer")) return gcflip_heap_refer(&heap, m, d, (uint32_t)a[2]);
    EXPECT(IS("drop"));
    return gcflip_heap_step_give_up(&heap);
}

static void perform(const char *name, size_t read)
{
    const uint8_t m = (uint8_t)a[0], d = (uint8_t)a[1];
    if (IS("look")) look(m, d);
    else if (IS("get")) get(m, d, (uint8_t)a[2], (uint16_t)a[3]);
    else if (IS("place_look")) place_look((uint32_t)a[0]);
    else if (IS("place_peek")) place_peek((uint32_t)a[0], (uint32_t)a[1]);
    else if (IS("room")) printf("room %u\n", gcflip_room(&heap));
    else if (IS("place_get")) place_get((uint32_t)a[0], (uint32_t)a[1], (uint32_t)a[2]);
    else if (IS("place_words")) place_words((uint32_t)a[0]);
    else if (IS("place_address")) place_address((uint32_t)a[0]);
    else if (IS("place_text")) place_text((uint32_t)a[0]);
    else if (IS("place_order")) place_order((uint32_t)a[0], (uint32_t)a[1]);
#ifndef BASIC
    else if (IS("place_raw_read")) place_raw_read();
#endif
    else if (strncmp(name, "frame_", 6) == 0) frame(name);
    else if (strncmp(name, "place_", 6) == 0) printf("%s\n", reply(by_places(name, read)));
    else if (IS("flip")) flip();
    else if (IS("work")) work((uint32_t)a[0], NO_BOUND, NO_BOUND);
    else if (IS("useful")) useful();
    else if (IS("counts")) counts();
    else if (IS("log")) print_log(m);
    else if (IS("image")) image(a[0], a[1]);
    else if (IS("new_words")) new_words(a[0]);
    else if (IS("new_from")) new_from();
    else if (IS("new_with")) new_with();
    else if (IS("raw_write")) raw_write();
    else if (IS("raw_read")) raw_read();
    else if (IS("address")) address();
    else if (IS("work_sized")) work((uint32_t)a[0], a[1], NO_BOUND);
    else if (IS("work_within")) work((uint32_t)a[0], NO_BOUND, a[1]);
    else if (IS("pace")) set_pace();
    else if (IS("work_paced")) work_paced((uint32_t)a[0]);
    else if (IS("moved")) moved((uint32_t)a[0]);
    else if (IS("object_at")) object_at((uint32_t)a[0]);
    else if (IS("field_at")) field_at((uint32_t)a[0], (uint32_t)a[1]);
#ifndef BASIC
    else if (IS("reserve")) reserve((uint32_t)a[0]);
    else if (IS("collect")) collect();
    else if (IS("release")) printf("%s\n", reply(gcflip_release(&heap)));
#endif
    else printf("%s\n", reply(plain(name)));
}

int main(int count, char **words)
{
    static char line[1 << 20];
#ifdef RECORD
    EXPECT(count == 2 && (gcflip_trace = fopen(words[1], "w")) != NULL);
#else
    (void)words;
    EXPECT(count == 1);
#endif
    while (fgets(line, sizeof line, stdin)) {
        const char *name = strtok(line, " \n"), *word;
        size_t read = 0;
        EXPECT(name);
        while ((word = strtok(NULL, " \n"))) {
            EXPECT(read < MOST);
            a[read++] = strtoull(word, NULL, 10);
        }
        perform(name, read);
    }
#ifdef RECORD
    EXPECT(!ferror(gcflip_trace) && fclose(gcflip_trace) == 0);
#endif
    return 0;
}
