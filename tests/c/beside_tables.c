/* A table by the addresses of objects that live or die, over the flips of a collector's thread: beside_tables [FLIPS [SEED [told]]]. After each flip the table is
   followed, and compared with the objects themselves: those that a root reaches, those that have to be dead, and all that the heap has. */
#define _POSIX_C_SOURCE 200809L
#include "expect.h"
#include "gcflip_thread.h"
#include "random_numbers.h"
#include <sched.h>
#include <stdbool.h>
#include <string.h>

/* An object with entry e is held by root FIRST + e, or by the objects that refer to it, or by none. Its number is e modulo ENTRIES. */
enum { WORDS = 1 << 16, ENTRIES = 2048, MOST_HELD = 600, MADE = 0, OTHER = 1, FIRST = GCFLIP_BESIDE_ROOTS };
enum { NUMBER, LINK, LEAST_FIELDS, MOST_FIELDS = 60 };
enum { NONE = ENTRIES };

struct entry {
    uint32_t address; /* or 0 if no object has this entry */
    uint64_t number;
    uint32_t fields;
    uint32_t link;     /* the entry of the object to which its field refers, or NONE */
    bool is_held;      /* by its root */
    bool is_reachable; /* at the last flip */
    bool was_reached;  /* at the last flip or since */
};

/* How the program makes its safepoints. */
enum way { WAITING, TRYING, COLLECTING, WAYS };

static gcflip_thread *thread;
static gcflip_mutator *mutator;
static struct entry entries[ENTRIES];
static uint32_t held, present;
static uint64_t serial, followed, died, kept_dead;

static uint32_t root_of(uint32_t e)
{
    return FIRST + e;
}

/* ---- Objects by their addresses */

static void expect_object(uint32_t e)
{
    const struct entry *entry = &entries[e];
    gcflip_view view;

    EXPECT(gcflip_beside_object_at(mutator, entry->address, &view) == GCFLIP_OBJECT);
    EXPECT(view.kind == entry->number % 256 && view.count == entry->fields && view.number == 0);
    EXPECT(gcflip_beside_field_at(mutator, entry->address, NUMBER, &view) == GCFLIP_NUMBER && view.number == entry->number);
    if (entry->link == NONE) {
        EXPECT(gcflip_beside_field_at(mutator, entry->address, LINK, &view) == GCFLIP_NIL);
    } else {
        EXPECT(gcflip_beside_field_at(mutator, entry->address, LINK, &view) == GCFLIP_OBJECT);
        EXPECT(view.number == entries[entry->link].address && view.count == entries[entry->link].fields);
    }
    EXPECT(gcflip_beside_field_at(mutator, entry->address, entry->fields, &view) == GCFLIP_NO_FIELD);
}

/* The heap has these objects alone. */
static void expect_walk(void)
{
    uint32_t met = 0, a = 1;
    gcflip_view view, number;

    while (gcflip_beside_object_at(mutator, a, &view) != GCFLIP_NIL) {
        EXPECT(gcflip_beside_field_at(mutator, a, NUMBER, &number) == GCFLIP_NUMBER);
        EXPECT(entries[number.number % ENTRIES].number == number.number && entries[number.number % ENTRIES].address == a);
        a += view.count + 2;
        met++;
    }
    EXPECT(met == present && a == WORDS - gcflip_beside_room(mutator));
}

/* ---- What the table knows */

static void reaches(uint32_t e, bool at_flip)
{
    while (e != NONE && !(at_flip ? entries[e].is_reachable : entries[e].was_reached)) {
        EXPECT(entries[e].address != 0);
        entries[e].is_reachable |= at_flip;
        entries[e].was_reached = true;
        e = entries[e].link;
    }
}

static void forget(uint32_t e)
{
    EXPECT(!entries[e].is_held);
    entries[e].address = 0;
    present--;
    died++;
}

/* What a root reaches now has moved, and what none has reached since the flip before is dead. Of the others the heap says so. */
static void follow_entries(void)
{
    for (uint32_t e = 0; e < ENTRIES; e++)
        entries[e].is_reachable = false;
    for (uint32_t e = 0; e < ENTRIES; e++)
        if (entries[e].is_held)
            reaches(e, true);
    for (uint32_t e = 0; e < ENTRIES; e++) {
        struct entry *entry = &entries[e];
        uint32_t before = entry->address;

        if (before == 0)
            continue;
        if (gcflip_beside_moved(mutator, before, &entry->address) == GCFLIP_DONE) {
            EXPECT(entry->was_reached);
            kept_dead += !entry->is_reachable;
        } else {
            EXPECT(!entry->is_reachable && entry->address == before);
            forget(e);
        }
        entry->was_reached = entry->is_reachable;
    }
}

static void expect_entries(void)
{
    uint32_t address = 0;

    for (uint32_t e = 0; e < ENTRIES; e++) {
        if (entries[e].address == 0)
            continue;
        expect_object(e);
        EXPECT(gcflip_beside_address(mutator, root_of(e), &address) == (entries[e].is_held ? GCFLIP_DONE : GCFLIP_NO_OBJECT));
        EXPECT(!entries[e].is_held || address == entries[e].address);
    }
    expect_walk();
}

/* ---- What the program does */

static uint32_t entry_where(bool is_present)
{
    uint32_t e = below(ENTRIES);

    if (present == (is_present ? 0 : ENTRIES))
        return NONE;
    while ((entries[e].address != 0) != is_present)
        e = (e + 1) % ENTRIES;
    return e;
}

static uint32_t held_entry(void)
{
    uint32_t e = below(ENTRIES);

    if (held == 0)
        return NONE;
    while (!entries[e].is_held)
        e = (e + 1) % ENTRIES;
    return e;
}

/* Makes an object, which root MADE refers to. Returns its entry, or NONE if the heap or the table is full. */
static uint32_t make(void)
{
    uint32_t e = entry_where(false), fields = LEAST_FIELDS + below(MOST_FIELDS - LEAST_FIELDS + 1), answer;
    struct entry *entry = &entries[e % ENTRIES];
    uint64_t number = ++serial * ENTRIES + e;

    if (e == NONE)
        return NONE;
    answer = gcflip_beside_new(mutator, MADE, number % 256, fields);
    if (answer == GCFLIP_FULL)
        return NONE;
    EXPECT(answer == GCFLIP_MADE);
    EXPECT(gcflip_beside_put_number(mutator, MADE, NUMBER, number) == GCFLIP_DONE);
    *entry = (struct entry){.number = number, .fields = fields, .link = NONE, .was_reached = true};
    EXPECT(gcflip_beside_address(mutator, MADE, &entry->address) == GCFLIP_DONE && entry->address != 0);
    present++;
    return e;
}

static void hold(uint32_t e)
{
    held += !entries[e].is_held;
    entries[e].is_held = true;
}

static void drop(uint32_t e)
{
    EXPECT(gcflip_beside_set_nil(mutator, root_of(e)) == GCFLIP_DONE);
    entries[e].is_held = false;
    held--;
}

static void cut(uint32_t e)
{
    EXPECT(gcflip_beside_put_nil(mutator, root_of(e), LINK) == GCFLIP_DONE);
    entries[e].link = NONE;
}

/* An object that is held from now on, or that one held object refers to, or that none does. */
static void make_and_keep(void)
{
    uint32_t e = make(), to = held_entry();

    if (e == NONE)
        return;
    if (below(3) == 0) {
        EXPECT(gcflip_beside_copy(mutator, root_of(e), MADE) == GCFLIP_DONE);
        hold(e);
    } else if (to != NONE && below(2) == 0) {
        EXPECT(gcflip_beside_put(mutator, root_of(to), LINK, MADE) == GCFLIP_DONE);
        entries[to].link = e;
    }
    EXPECT(gcflip_beside_set_nil(mutator, MADE) == GCFLIP_DONE);
}

/* Fetches an object by its address, whether something refers to it or not. */
static void fetch(uint32_t e)
{
    EXPECT(gcflip_beside_refer(mutator, root_of(e), entries[e].address) == GCFLIP_DONE);
    hold(e);
    reaches(e, false);
    expect_object(e);
}

/* Writes a reference to an object by its address into a field of a held one. */
static void link_to(uint32_t from, uint32_t e)
{
    EXPECT(gcflip_beside_refer(mutator, OTHER, entries[e].address) == GCFLIP_DONE);
    EXPECT(gcflip_beside_put(mutator, root_of(from), LINK, OTHER) == GCFLIP_DONE);
    EXPECT(gcflip_beside_set_nil(mutator, OTHER) == GCFLIP_DONE);
    entries[from].link = e;
    reaches(e, false);
}

/* No object starts behind the header of this one, and a root then keeps its value. */
static void miss(uint32_t e)
{
    gcflip_view view;

    EXPECT(gcflip_beside_refer(mutator, OTHER, entries[e].address + 1 + below(entries[e].fields + 1)) == GCFLIP_NO_OBJECT);
    EXPECT(gcflip_beside_look(mutator, OTHER, &view) == GCFLIP_NIL);
    EXPECT(gcflip_beside_object_at(mutator, entries[e].address + 1, &view) == GCFLIP_NIL);
}

static void command(void)
{
    uint32_t one = held_entry(), e = entry_where(true), which = below(16);

    if (which < 7 || one == NONE)
        make_and_keep();
    else if (which < 10 || held > MOST_HELD)
        drop(one);
    else if (which == 10)
        cut(one);
    else if (which == 11)
        link_to(one, e);
    else if (which == 12)
        fetch(e);
    else if (which == 13)
        miss(e);
    else
        expect_object(e);
}

/* Live objects fill the heap: no object refers to another one, and few are held. */
static void make_room(void)
{
    for (uint32_t e = 0; e < ENTRIES; e++) {
        if (entries[e].is_held) {
            cut(e);
            if (below(4) > 0)
                drop(e);
        }
    }
}

/* ---- Flips */

/* The thread calls this after each flip. Commands are allowed here, and no flip comes. */
static void follow(void *argument)
{
    gcflip_thread_counts counts;

    EXPECT(argument == &followed);
    EXPECT(gcflip_beside_flips(mutator) == ++followed);
    gcflip_thread_read(thread, &counts);
    EXPECT(counts.flips == followed);
    follow_entries();
    expect_entries();
    for (uint32_t k = below(4); k > 0; k--)
        command();
    EXPECT(gcflip_thread_safepoint(thread) == GCFLIP_DONE && gcflip_thread_try_safepoint(thread) == GCFLIP_DONE);
    EXPECT(gcflip_thread_collect(thread) == GCFLIP_NO_MEMORY && gcflip_beside_flips(mutator) == followed);
}

/* While the mutator has stopped, nothing is told. */
static void expect_parked(void)
{
    uint32_t address = 7;

    EXPECT(gcflip_beside_moved(mutator, 1, &address) == GCFLIP_PARKED && gcflip_beside_address(mutator, MADE, &address) == GCFLIP_PARKED);
    EXPECT(gcflip_beside_refer(mutator, MADE, 1) == GCFLIP_PARKED && address == 7 && gcflip_beside_flips(mutator) == 0);
}

static void safepoint(enum way way)
{
    if (way == TRYING) {
        while (gcflip_thread_try_safepoint(thread) == GCFLIP_PARKED) {
            expect_parked();
            sched_yield();
        }
    } else {
        EXPECT(gcflip_thread_safepoint(thread) == GCFLIP_DONE);
    }
    EXPECT(gcflip_beside_flips(mutator) == followed);
}

static void collect(void)
{
    uint64_t before = followed;

    EXPECT(gcflip_thread_collect(thread) == GCFLIP_FLIPPED);
    EXPECT(followed > before && gcflip_beside_flips(mutator) == followed);
}

static void open_thread(void)
{
    gcflip_pace pace = gcflip_pace_default();

    pace.factor = 100;
    pace.least = 0;
    memset(entries, 0, sizeof entries);
    held = present = 0;
    followed = 0;
    EXPECT(gcflip_thread_open(&thread, WORDS, ENTRIES, &pace) == GCFLIP_DONE);
    mutator = gcflip_thread_mutator(thread);
}

static void runs(enum way way, uint64_t flips)
{
    open_thread();
    gcflip_thread_on_flip(thread, follow, &followed);
    while (followed < flips) {
        command();
        if (gcflip_beside_room(mutator) < MOST_FIELDS + 2)
            collect();
        if (gcflip_beside_room(mutator) < WORDS / 2)
            make_room();
        if (way == COLLECTING && below(100) == 0)
            collect();
        if (below(4) == 0)
            safepoint(way);
    }
    expect_entries();
    gcflip_thread_close(thread);
}

/* ---- Which function is called */

static uint64_t calls_of[2];

static void count_call(void *argument)
{
    ++*(uint64_t *)argument;
}

/* Fills the heap with garbage. At each safepoint a collection would be due, and the last ones would wait for its flip. */
static void fill_heap(void *argument)
{
    uint64_t flips = gcflip_beside_flips(mutator);

    while (gcflip_beside_new(mutator, MADE, 1, MOST_FIELDS) == GCFLIP_MADE) {
        EXPECT(gcflip_thread_safepoint(thread) == GCFLIP_DONE && gcflip_thread_try_safepoint(thread) == GCFLIP_DONE);
        EXPECT(gcflip_beside_flips(mutator) == flips);
    }
    count_call(argument);
}

/* No flip comes while the function runs, by neither safepoint. Then the program goes on as after any other. */
static void no_flip_inside(void)
{
    uint64_t calls = 0;

    open_thread();
    gcflip_thread_on_flip(thread, fill_heap, &calls);
    EXPECT(gcflip_thread_collect(thread) == GCFLIP_FLIPPED && calls == 1);
    gcflip_thread_on_flip(thread, NULL, NULL);
    EXPECT(gcflip_beside_new(mutator, MADE, 1, MOST_FIELDS) == GCFLIP_FULL);
    EXPECT(gcflip_thread_safepoint(thread) == GCFLIP_DONE);
    EXPECT(gcflip_thread_collect(thread) == GCFLIP_FLIPPED);
    EXPECT(gcflip_beside_new(mutator, MADE, 1, MOST_FIELDS) == GCFLIP_MADE);
    gcflip_thread_close(thread);
}

/* The function of the last gcflip_thread_on_flip is called, with its argument, or none. Flips before do not count. */
static void functions(void)
{
    open_thread();
    EXPECT(gcflip_thread_collect(thread) == GCFLIP_FLIPPED);
    gcflip_thread_on_flip(thread, count_call, &calls_of[0]);
    EXPECT(gcflip_thread_collect(thread) == GCFLIP_FLIPPED && calls_of[0] == 1);
    gcflip_thread_on_flip(thread, count_call, &calls_of[1]);
    EXPECT(gcflip_thread_collect(thread) == GCFLIP_FLIPPED && calls_of[0] == 1 && calls_of[1] == 1);
    gcflip_thread_on_flip(thread, NULL, NULL);
    EXPECT(gcflip_thread_collect(thread) == GCFLIP_FLIPPED && calls_of[0] == 1 && calls_of[1] == 1);
    EXPECT(gcflip_beside_flips(mutator) == 4);
    gcflip_thread_close(thread);
}

int main(int count, char **words)
{
    uint64_t flips = count > 1 ? strtoull(words[1], NULL, 10) : 200;

    for (enum way way = WAITING; way < WAYS; way++) {
        state = (count > 2 ? strtoull(words[2], NULL, 10) : 1) * 0x9e3779b97f4a7c15ull + way + 1;
        died = kept_dead = 0;
        runs(way, flips);
        /* how many depends on how the threads take turns */
        EXPECT(died > 0);
        if (count > 3)
            printf("%d: %llu died, and %llu times one that nothing reached was kept\n", (int)way, (unsigned long long)died, (unsigned long long)kept_dead);
    }
    functions();
    no_flip_inside();
    return 0;
}
