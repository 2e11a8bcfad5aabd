/* Tables by identity, and finalizers.
 *
 * A table is an object of the heap with a number and with cells, which hold a key and a value for each entry. C has the addresses of the keys,
 * by which it finds an entry. A weak table leaves the keys out of its cells, so that it keeps no key alive. The value of a key that died is in
 * its cell until the table is used again: between a flip and the next call there is no slot for the table. */
#include "hashtables.h"
#include "errors.h"
#include "heap.h"
#include "objects.h"
#include "primitives.h"
#include <stdlib.h>

enum { TABLE_NUMBER, TABLE_CELLS, TABLE_FIELDS };

/* The cells of an entry. */
enum { KEY_CELL, VALUE_CELL, CELLS_OF_ENTRY };

enum { LEAST_ENTRIES = 8, MOST_ENTRIES = 16384, NONE = 65535 };

_Static_assert(MOST_ENTRIES * CELLS_OF_ENTRY <= MOST_FIELDS && MOST_ENTRIES < NONE, "the cells are one object");

/* What C knows of a table. All chains of entries end with NONE. */
struct table {
    uint32_t address; /* of its object, or 0 if there is no such table */
    bool is_weak;
    uint32_t entries; /* how many the cells have room for: a power of two */
    uint32_t count;   /* how many keys it has */
    uint32_t free;    /* the first entry without a key */
    uint32_t lost;    /* the first entry whose key died, and whose value is still in its cell */
    uint32_t *keys;   /* by entry: the key's address, or 0 */
    uint32_t *next;   /* by entry: the next one of its chain */
    uint32_t *first;  /* by hash: the first entry with it */
};

static struct table *tables;
static uint32_t table_count;

static void *more_memory(void *block, size_t count, size_t size)
{
    void *larger = realloc(block, count * size);
    if (larger == NULL)
        fail("out of memory: the system has none for a table");
    return larger;
}

/* ---- Entries by address */

static uint32_t *chain_of(const struct table *table, uint32_t address)
{
    return &table->first[(address * UINT32_C(2654435769) >> 16) % table->entries];
}

static uint32_t find(const struct table *table, uint32_t address)
{
    uint32_t entry = *chain_of(table, address);
    while (entry != NONE && table->keys[entry] != address)
        entry = table->next[entry];
    return entry;
}

static void push(const struct table *table, uint32_t *chain, uint32_t entry)
{
    table->next[entry] = *chain;
    *chain = entry;
}

/* Takes the first entry off a chain that is not empty. */
static uint32_t pop(const struct table *table, uint32_t *chain)
{
    uint32_t entry = *chain;
    *chain = table->next[entry];
    return entry;
}

/* Puts all entries that have a key into the chains of their hashes. */
static void chain_keys(struct table *table)
{
    for (uint32_t hash = 0; hash < table->entries; hash++)
        table->first[hash] = NONE;
    for (uint32_t entry = 0; entry < table->entries; entry++)
        if (table->keys[entry] != 0)
            push(table, chain_of(table, table->keys[entry]), entry);
}

/* Gives the table room for this many entries, a power of two. */
static void enlarge(struct table *table, uint32_t entries)
{
    table->keys = more_memory(table->keys, entries, sizeof *table->keys);
    table->next = more_memory(table->next, entries, sizeof *table->next);
    table->first = more_memory(table->first, entries, sizeof *table->first);
    for (uint32_t entry = entries; entry-- > table->entries;) {
        table->keys[entry] = 0;
        push(table, &table->free, entry);
    }
    table->entries = entries;
    chain_keys(table);
}

/* ---- After a flip */

static void forget(struct table *table)
{
    free(table->keys);
    free(table->next);
    free(table->first);
    *table = (struct table){.free = NONE, .lost = NONE};
}

/* Finds each key where it went. */
static void follow_keys(struct table *table)
{
    for (uint32_t entry = 0; entry < table->entries; entry++)
        if (table->keys[entry] != 0 && !follow(&table->keys[entry])) {
            table->keys[entry] = 0;
            table->count--;
            push(table, &table->lost, entry);
        }
    chain_keys(table);
}

static void follow_tables(void)
{
    for (struct table *table = tables; table < tables + table_count; table++) {
        if (table->address == 0)
            continue;
        if (follow(&table->address))
            follow_keys(table);
        else
            forget(table);
    }
}

/* ---- Tables as objects */

static struct table *new_record(void)
{
    for (struct table *table = tables; table < tables + table_count; table++)
        if (table->address == 0)
            return table;
    tables = more_memory(tables, table_count + 1, sizeof *tables);
    tables[table_count] = (struct table){.free = NONE, .lost = NONE};
    return &tables[table_count++];
}

/* Makes a table. Uses slot D. */
static void make_table(enum slot to, bool is_weak)
{
    make(D, CELLS, LEAST_ENTRIES * CELLS_OF_ENTRY);
    make(to, HASHTABLE, TABLE_FIELDS);
    struct table *table = new_record();
    enlarge(table, LEAST_ENTRIES);
    table->is_weak = is_weak;
    put_word(to, TABLE_NUMBER, (uint64_t)(table - tables));
    put(to, TABLE_CELLS, D);
    table->address = address_of(to);
}

/* Puts the table's cells into slot D. */
static struct table *record_of(enum slot object)
{
    get(D, object, TABLE_CELLS);
    return &tables[get_word(object, TABLE_NUMBER)];
}

/* Writes the cells of an entry. The table's cells are in slot D. Uses slot MADE. */
static void write_cells(const struct table *table, uint32_t entry, enum slot key, enum slot value)
{
    if (!table->is_weak)
        put(D, entry * CELLS_OF_ENTRY + KEY_CELL, key);
    put(D, entry * CELLS_OF_ENTRY + VALUE_CELL, value);
}

/* Frees the entry, which is in no chain. The table's cells are in slot D. */
static void clear_entry(struct table *table, uint32_t entry)
{
    clear(MADE);
    write_cells(table, entry, MADE, MADE);
    push(table, &table->free, entry);
}

/* Makes larger cells for the table in this slot, if it has no free entry. Leaves its cells in slot D. Uses slot MADE. */
static void make_room(enum slot object)
{
    struct table *table = record_of(object);
    uint32_t entries = table->entries;
    if (table->free != NONE)
        return;
    if (entries == MOST_ENTRIES)
        fail("a hashtable has at most %d entries", MOST_ENTRIES);
    make(D, CELLS, 2 * entries * CELLS_OF_ENTRY);
    get(MADE, object, TABLE_CELLS);
    copy_all_fields(D, MADE);
    put(object, TABLE_CELLS, D);
    enlarge(table, 2 * entries);
}

/* Adds an entry without a look for an older one with this key. Uses slots D and MADE. */
static void add(enum slot object, enum slot key, enum slot value)
{
    make_room(object);
    struct table *table = record_of(object);
    uint32_t entry = pop(table, &table->free);
    write_cells(table, entry, key, value);
    table->keys[entry] = address_of(key);
    push(table, chain_of(table, table->keys[entry]), entry);
    table->count++;
}

/* ---- The functions on tables */

static enum next do_make_table(void)
{
    make_table(A, false);
    return return_slot(A);
}

static enum next do_make_weak_table(void)
{
    make_table(A, true);
    return return_slot(A);
}

/* Puts the first argument into slot A, and its cells into slot D. Clears what dead keys have left in them. */
static struct table *table_argument(void)
{
    typed_argument(A, 0, HASHTABLE, "a hashtable");
    struct table *table = record_of(A);
    while (table->lost != NONE)
        clear_entry(table, pop(table, &table->lost));
    return table;
}

/* Puts the argument into slot B. */
static void key_argument(uint32_t number)
{
    enum type type = argument(B, number);
    if (type == EMPTY || type == INTEGER)
        fail_about(B, "%s expects an object with an identity, but found", running_name());
}

static enum next do_ref(void)
{
    struct table *table = table_argument();
    key_argument(1);
    uint32_t entry = find(table, address_of(B));
    if (entry == NONE)
        argument(C, 2);
    else
        get(C, D, entry * CELLS_OF_ENTRY + VALUE_CELL);
    return return_slot(C);
}

static enum next do_set(void)
{
    struct table *table = table_argument();
    key_argument(1);
    argument(C, 2);
    uint32_t entry = find(table, address_of(B));
    if (entry == NONE)
        add(A, B, C);
    else
        write_cells(table, entry, B, C);
    return return_nothing();
}

static enum next do_delete(void)
{
    struct table *table = table_argument();
    key_argument(1);
    uint32_t address = address_of(B);
    uint32_t *place = chain_of(table, address);
    while (*place != NONE && table->keys[*place] != address)
        place = &table->next[*place];
    if (*place != NONE) {
        uint32_t entry = pop(table, place);
        table->keys[entry] = 0;
        table->count--;
        clear_entry(table, entry);
    }
    return return_nothing();
}

static enum next do_is_table(void)
{
    return return_boolean(argument(A, 0) == HASHTABLE);
}

static enum next do_size(void)
{
    return return_integer(table_argument()->count);
}

/* ---- Finalizers: a weak table whose keys are the objects, and whose values are the functions that wait for their deaths */

void make_finalizers(void)
{
    after_each_flip(follow_tables);
    make_table(FINALIZERS, true);
}

/* (finalize! OBJECT FUNCTION) */
static enum next do_finalize(void)
{
    key_argument(0);
    argument(C, 1);
    add(FINALIZERS, B, C);
    return return_nothing();
}

/* Returns the function of an object that died, or #f. It returns each function once. */
static enum next do_next_finalizer(void)
{
    struct table *table = record_of(FINALIZERS);
    if (table->lost == NONE)
        return return_boolean(false);
    uint32_t entry = pop(table, &table->lost);
    get(C, D, entry * CELLS_OF_ENTRY + VALUE_CELL);
    clear_entry(table, entry);
    return return_slot(C);
}

const struct primitive hashtable_primitives[] = {
    {"make-eq-hashtable", 0, 0, do_make_table},
    {"make-weak-eq-hashtable", 0, 0, do_make_weak_table},
    {"hashtable?", 1, 1, do_is_table},
    {"hashtable-ref", 3, 3, do_ref},
    {"hashtable-set!", 3, 3, do_set},
    {"hashtable-delete!", 2, 2, do_delete},
    {"hashtable-size", 1, 1, do_size},
    {"finalize!", 2, 2, do_finalize},
    {"next-finalizer", 0, 0, do_next_finalizer},
    {NULL, 0, 0, NULL},
};
