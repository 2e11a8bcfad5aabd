/* Plays a trace on the library's heap and prints the lines of its replies, as `gcflip play` does: play TRACE [RECORD].
   Records the run into RECORD. */
#include "expect.h"
#include "gcflip_heap.h"

/* Comes before the include that records. */
static uint32_t look_unrecorded(gcflip_heap *heap, uint8_t m, uint8_t s, gcflip_view *view)
{
    return gcflip_heap_look(heap, m, s, view);
}

#include "gcflip_record.h"
#include "open_heap.h"
#include <string.h>

FILE *gcflip_trace;

static gcflip_heap heap = GCFLIP_NO_HEAP;
static uint64_t seen;
static gcflip_view view;
static uint32_t pairs;

/* The lines for the numbers that calls return. After `saw`, the value follows. */
static const char *const lines[] = {
    [GCFLIP_DONE] = "done", [GCFLIP_MADE] = "made", [GCFLIP_FULL] = "full",
    [GCFLIP_NO_OBJECT] = "no object", [GCFLIP_NO_FIELD] = "no field", [GCFLIP_NO_NUMBER] = "no number",
    [GCFLIP_SAME] = "yes", [GCFLIP_NOT_SAME] = "no",
    [GCFLIP_NIL] = "saw nil", [GCFLIP_NUMBER] = "saw num", [GCFLIP_OBJECT] = "saw obj", [GCFLIP_RAW_OBJECT] = "saw raw",
    [GCFLIP_BUSY] = "busy", [GCFLIP_BEGUN] = "begun", [GCFLIP_IDLE] = "idle", [GCFLIP_CLEAN] = "clean",
    [GCFLIP_NO_ROOM] = "no room", [GCFLIP_COPIED] = "copied", [GCFLIP_PASSED] = "passed", [GCFLIP_SCANNED] = "scanned",
    [GCFLIP_APPLIED] = "applied", [GCFLIP_NOT_READY] = "not ready", [GCFLIP_FLIP_REFUSED] = "refused",
    [GCFLIP_FLIPPED] = "flipped", [GCFLIP_DROPPED] = "dropped",
};

static void print_reply(uint32_t answer)
{
    EXPECT(!GCFLIP_IS_REFUSED(answer) && answer < sizeof lines / sizeof lines[0] && lines[answer]);
    printf("%s", lines[answer]);
    if (answer == GCFLIP_NUMBER)
        printf(" %llu", (unsigned long long)view.number);
    if (answer == GCFLIP_OBJECT || answer == GCFLIP_RAW_OBJECT)
        printf(" %u %u", view.kind, view.count);
    if (answer == GCFLIP_FLIPPED)
        printf(" %u", pairs);
    printf("\n");
}

/* Gets a field, and looks at it for its kind and length. The number comes from the get. */
static uint32_t get(uint8_t m, uint8_t d, uint8_t s, uint16_t i)
{
    uint32_t answer = gcflip_heap_get(&heap, m, d, s, i, &seen), looked;
    if (answer < GCFLIP_NIL)
        return answer;
    looked = look_unrecorded(&heap, m, d, &view);
    EXPECT(answer == (looked == GCFLIP_RAW_OBJECT ? GCFLIP_OBJECT : looked));
    EXPECT(answer != GCFLIP_NUMBER || seen == view.number);
    return looked;
}

/* Returns the slot that a word names. */
static uint8_t slot(const char *word)
{
    EXPECT(word && (word[0] == 'r' || word[0] == 'g'));
    return (uint8_t)(strtoul(word + 1, NULL, 10) + (word[0] == 'g' ? 16 : 0));
}

static unsigned long long number(const char *word)
{
    EXPECT(word);
    return strtoull(word, NULL, 10);
}

static uint32_t command(uint8_t m, const char *name, char *const word[])
{
    if (strcmp(name, "new") == 0)
        return gcflip_heap_new_object(&heap, m, slot(word[0]), (uint8_t)number(word[1]), (uint16_t)number(word[2]));
    if (strcmp(name, "raw") == 0)
        return gcflip_heap_new_raw(&heap, m, slot(word[0]), (uint8_t)number(word[1]), (uint16_t)number(word[2]));
    if (strcmp(name, "num") == 0)
        return gcflip_heap_set_number(&heap, m, slot(word[0]), number(word[1]));
    if (strcmp(name, "nil") == 0)
        return gcflip_heap_set_nil(&heap, m, slot(word[0]));
    if (strcmp(name, "move") == 0)
        return gcflip_heap_move(&heap, m, slot(word[0]), slot(word[1]));
    if (strcmp(name, "get") == 0)
        return get(m, slot(word[0]), slot(word[1]), (uint16_t)number(word[2]));
    if (strcmp(name, "put") == 0)
        return gcflip_heap_put(&heap, m, slot(word[0]), (uint16_t)number(word[1]), slot(word[2]));
    if (strcmp(name, "same") == 0)
        return gcflip_heap_same(&heap, m, slot(word[0]), slot(word[1]));
    EXPECT(strcmp(name, "look") == 0);
    return gcflip_heap_look(&heap, m, slot(word[0]), &view);
}

static uint32_t step(const char *name, char *const word[])
{
    if (strcmp(name, "begin") == 0)
        return word[0] ? gcflip_heap_step_begin_sized(&heap, (uint32_t)number(word[0])) : gcflip_heap_step_begin(&heap);
    if (strcmp(name, "roots") == 0)
        return gcflip_heap_step_roots(&heap);
    if (strcmp(name, "scan") == 0)
        return gcflip_heap_step_scan(&heap);
    if (strcmp(name, "apply") == 0)
        return gcflip_heap_step_apply(&heap, (uint8_t)number(word[0]));
    if (strcmp(name, "flip") == 0)
        return gcflip_heap_step_flip(&heap, &pairs);
    EXPECT(strcmp(name, "drop") == 0);
    return gcflip_heap_step_give_up(&heap);
}

static void play_line(char *line)
{
    char *word[7] = {NULL};
    int count = 0;
    for (char *next = strtok(line, " \n"); next && count < 6; next = strtok(NULL, " \n"))
        word[count++] = next;
    EXPECT(count >= 2);
    if (word[0][0] == 'm')
        print_reply(command((uint8_t)number(word[1]), word[2], word + 3));
    else
        print_reply(step(word[1], word + 2));
}

int main(int count, char **names)
{
    char line[256];
    unsigned version, size, mutators;
    FILE *trace = fopen(names[1], "r");
    EXPECT(count >= 2 && trace);
    gcflip_trace = count > 2 ? fopen(names[2], "w") : NULL;
    EXPECT(fscanf(trace, "heaptrace %u\nspace %u mutators %u\n", &version, &size, &mutators) == 3);
    EXPECT(open_plain_heap(&heap, size, (uint8_t)mutators) == GCFLIP_DONE);
    while (fgets(line, sizeof line, trace))
        play_line(line);
    EXPECT(gcflip_heap_close(&heap) == GCFLIP_DONE);
    if (gcflip_trace)
        EXPECT(fclose(gcflip_trace) == 0);
    fclose(trace);
    return 0;
}
