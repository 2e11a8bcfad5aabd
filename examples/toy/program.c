/* Counts the words of a text, chapter by chapter, on the heap of the toy runtime.
 *
 * A chapter is a tree of entries. At its end the entries are put into a balanced tree of new ones, and the last four chapters are kept. The words are
 * in a weak array, so that each has one object while anything refers to it. */
#include "heap.h"
#include <inttypes.h>
#include <stdio.h>
#include <stdlib.h>
#include <string.h>

enum { CHAPTERS = 60, WORDS = 1500, VOCABULARY = 400, KEPT = 4, RECENT = 200, SLOTS = 1024 };

static size_t entry_shape, event_shape;          /* shapes */
static size_t index_now, chapters, recent, words; /* globals */

/* What a record has. `identity` is the reference to the entry when it was made: a number that stays, wherever the entry moves. */
enum { ENTRY_WORD, ENTRY_LEFT, ENTRY_RIGHT, ENTRY_REFERENCES };
enum { ENTRY_COUNT, ENTRY_IDENTITY, ENTRY_NUMBERS };
enum { EVENT_ENTRY, EVENT_LETTER, EVENT_REFERENCES };
enum { EVENT_TIME, EVENT_NUMBERS };

static value global(size_t number) { return heap.globals[number].value; }

/* ---- The text. */

static uint64_t random_state = 1;

static uint64_t random_below(uint64_t limit)
{
    random_state = random_state * 6364136223846793005u + 1442695040888963407u;
    return (random_state >> 33) % limit;
}

/* Writes a word of a chapter, and returns its length. Low numbers come more often. */
static size_t next_word(size_t chapter, char *text, size_t room)
{
    static const char *const stems[] = {"tree", "meadow", "waterfall", "sun", "harvest-moon", "rain", "footbridge"};
    uint64_t number = random_below(1 + random_below(VOCABULARY)) + 50 * chapter;
    return (size_t)snprintf(text, room, "%s-%" PRIu64, stems[number % 7], number * 7919 % 100003);
}

/* ---- Words: one object for each text. */

static uint64_t hash_of(uint64_t hash, const char *text, size_t length)
{
    for (size_t i = 0; i < length; i++)
        hash = (hash ^ (unsigned char)text[i]) * 1099511628211u;
    return hash;
}

static bool is_text(value bytes, const char *text, size_t length)
{
    return length_in(bytes) == length && memcmp(bytes_of(bytes), text, length) == 0;
}

/* Returns the object of a text. A full neighbourhood loses an entry, and the text then has a second object. */
static value interned(const char *text, size_t length)
{
    size_t slot = hash_of(14695981039346656037u, text, length) % SLOTS, free_slot = slot;
    for (size_t i = 0; i < 8; i++) {
        value found = values_of(global(words))[(slot + i) % SLOTS];
        if (found != NIL && is_text(found, text, length))
            return found;
        if (found == NIL)
            free_slot = (slot + i) % SLOTS;
    }
    value made = new_bytes(text, length);
    values_of(global(words))[free_slot] = made;
    return made;
}

/* ---- Entries. */

/* Returns how the texts of two words compare. */
static int compared(value one, value other)
{
    size_t shorter = length_in(one) < length_in(other) ? length_in(one) : length_in(other);
    int order = memcmp(bytes_of(one), bytes_of(other), shorter);
    return order != 0 ? order : (length_in(one) > length_in(other)) - (length_in(one) < length_in(other));
}

/* Makes an entry of the word at this place of the stack. */
static value new_entry(size_t word, uint64_t count)
{
    value entry = new_record(entry_shape);
    values_of(entry)[ENTRY_WORD] = heap.stack[word];
    numbers_of(entry)[ENTRY_COUNT] = count;
    numbers_of(entry)[ENTRY_IDENTITY] = entry;
    return entry;
}

/* Counts the word at this place of the stack. Returns its entry, which is added to the tree if there is none. */
static value counted(size_t word)
{
    value above = NIL, entry = global(index_now);
    int order = 0;
    while (entry != NIL && (order = compared(heap.stack[word], values_of(entry)[ENTRY_WORD])) != 0) {
        above = entry;
        entry = values_of(entry)[order < 0 ? ENTRY_LEFT : ENTRY_RIGHT];
    }
    if (entry == NIL) {
        push(above);
        entry = new_entry(word, 0);
        above = pop();
        *(above == NIL ? &heap.globals[index_now].value : &values_of(above)[order < 0 ? ENTRY_LEFT : ENTRY_RIGHT]) = entry;
    }
    numbers_of(entry)[ENTRY_COUNT]++;
    return entry;
}

/* Notes an event with this entry in the place of the oldest one. */
static void note(value entry, uint64_t time)
{
    size_t place = push(entry);
    value event = new_record(event_shape);
    values_of(event)[EVENT_ENTRY] = heap.stack[place];
    values_of(event)[EVENT_LETTER] = character((unsigned char)bytes_of(values_of(heap.stack[place])[ENTRY_WORD])[0]);
    numbers_of(event)[EVENT_TIME] = time;
    values_of(global(recent))[time % RECENT] = event;
    pop();
}

/* ---- Chapters. */

static size_t size_of(value entry)
{
    return entry == NIL ? 0 : 1 + size_of(values_of(entry)[ENTRY_LEFT]) + size_of(values_of(entry)[ENTRY_RIGHT]);
}

/* Writes the entries of a tree into an array, in the order of their words. Returns how many there are so far. */
static size_t listed(value entry, value array, size_t count)
{
    if (entry == NIL)
        return count;
    count = listed(values_of(entry)[ENTRY_LEFT], array, count);
    values_of(array)[count] = entry;
    return listed(values_of(entry)[ENTRY_RIGHT], array, count + 1);
}

/* Returns a balanced tree of new entries, of those in the array at this place of the stack. */
static value balanced(size_t array, size_t first, size_t end)
{
    if (first == end)
        return NIL;
    size_t middle = first + (end - first) / 2, left = push(balanced(array, first, middle)), right = push(balanced(array, middle + 1, end));
    value old = values_of(heap.stack[array])[middle];
    value entry = new_entry(push(values_of(old)[ENTRY_WORD]), numbers_of(old)[ENTRY_COUNT]);
    values_of(entry)[ENTRY_LEFT] = heap.stack[left];
    values_of(entry)[ENTRY_RIGHT] = heap.stack[right];
    heap.top = left;
    return entry;
}

static void finish_chapter(size_t chapter)
{
    size_t count = size_of(global(index_now)), array = push(new_array(ARRAY, count));
    listed(global(index_now), heap.stack[array], 0);
    value tree = balanced(array, 0, count);
    values_of(global(chapters))[chapter % KEPT] = tree;
    heap.globals[index_now].value = NIL;
    pop();
}

static void count_chapter(size_t chapter)
{
    char text[64];
    for (size_t i = 0; i < WORDS; i++) {
        size_t length = next_word(chapter, text, sizeof text);
        note(counted(push(interned(text, length))), chapter * WORDS + i);
        pop();
    }
    finish_chapter(chapter);
}

/* ---- What is printed. */

/* Adds up the counts of a tree, and hashes its words and counts in order. */
static void add_up(value entry, uint64_t *sum, uint64_t *hash)
{
    if (entry == NIL)
        return;
    value text = values_of(entry)[ENTRY_WORD];
    add_up(values_of(entry)[ENTRY_LEFT], sum, hash);
    *sum += numbers_of(entry)[ENTRY_COUNT];
    *hash = hash_of(*hash, bytes_of(text), length_in(text)) + numbers_of(entry)[ENTRY_COUNT];
    add_up(values_of(entry)[ENTRY_RIGHT], sum, hash);
}

static void print_chapters(void)
{
    for (size_t i = 0; i < KEPT; i++) {
        value tree = values_of(global(chapters))[i];
        uint64_t sum = 0, hash = 0;
        add_up(tree, &sum, &hash);
        printf("a chapter of %" PRIu64 " words, %zu of them different: %016" PRIx64 "\n", sum, size_of(tree), hash);
    }
    uint64_t time = numbers_of(values_of(global(recent))[0])[EVENT_TIME];
    printf("the event of %" PRIu64 " begins with %c\n", time, (char)(values_of(values_of(global(recent))[0])[EVENT_LETTER] >> 8));
}

/* The argument is the number of words of the first space. */
int main(int count, char **arguments)
{
    heap_open(count > 1 ? strtoul(arguments[1], NULL, 10) : 16384);
    entry_shape = define_shape("entry", ENTRY_REFERENCES, ENTRY_NUMBERS);
    event_shape = define_shape("event", EVENT_REFERENCES, EVENT_NUMBERS);
    index_now = define_global("index");
    chapters = define_global("chapters");
    recent = define_global("recent");
    words = define_global("words");
    heap.globals[chapters].value = new_array(ARRAY, KEPT);
    heap.globals[recent].value = new_array(ARRAY, RECENT);
    heap.globals[words].value = new_array(WEAK_ARRAY, SLOTS);
    for (size_t i = 0; i < CHAPTERS; i++)
        count_chapter(i);
    print_chapters();
    printf("%zu collections\n", heap.collections);
    heap_close();
    return 0;
}
