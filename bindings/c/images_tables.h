/* The tables of a snapshot, and the map from addresses. gcflip_images.c includes this file. */
#ifndef IMAGES_TABLES_H
#define IMAGES_TABLES_H

#include "images_inside.h"
#include <stdlib.h>
#include <string.h>

/* ---- Tables. A slot is in use if it has the epoch of its table, so that clearing a table is beginning another epoch. Epoch 0 is that of new
   slots, and no table has it. */

/* Returns the slot of a key, or the free one where it belongs. The search starts at the upper bits of a product, which depend on all bits of the
   key. Those of a weak reference or of a pointer into an object have its place in the upper half. */
static size_t slot_of(const struct table *table, uint64_t key)
{
    size_t slot = (size_t)(((key * 0x9E3779B97F4A7C15u) >> 32) * table->size >> 32);
    while (table->slots[slot].epoch == table->epoch && table->slots[slot].key != key)
        slot = (slot + 1) & (table->size - 1);
    return slot;
}

/* Returns 0 if the table does not have the key. */
static uint32_t looked_up(const struct table *table, uint64_t key)
{
    if (table->size == 0 || key == 0)
        return 0;
    const struct slot *slot = &table->slots[slot_of(table, key)];
    return slot->epoch == table->epoch ? slot->value : 0;
}

static bool table_grows(struct table *table)
{
    struct table larger = {NULL, table->size ? 2 * table->size : 1024, table->used, 1};
    larger.slots = calloc(larger.size, sizeof *larger.slots);
    if (larger.slots == NULL)
        return false;
    for (size_t i = 0; i < table->size; i++)
        if (table->slots[i].epoch == table->epoch) {
            struct slot *slot = &larger.slots[slot_of(&larger, table->slots[i].key)];
            *slot = table->slots[i];
            slot->epoch = larger.epoch;
        }
    free(table->slots);
    *table = larger;
    return true;
}

/* Returns false if an allocation fails. A third of the slots or more stay free. */
static bool put_into(struct table *table, uint64_t key, uint32_t value)
{
    if (3 * table->used >= 2 * table->size && !table_grows(table))
        return false;
    struct slot *slot = &table->slots[slot_of(table, key)];
    const struct slot put = {key, value, table->epoch};
    table->used += slot->epoch != table->epoch;
    *slot = put;
    return true;
}

/* Looks at no slot, but for once in 2^32 - 1 times. */
static void clear_table(struct table *table)
{
    if (table->used == 0)
        return;
    table->used = 0;
    table->epoch++;
    if (table->epoch != 0)
        return;
    memset(table->slots, 0, table->size * sizeof *table->slots);
    table->epoch = 1;
}

static void free_table(struct table *table)
{
    free(table->slots);
}

/* ---- Arrays that grow. */

/* Makes room for `more` elements of so many bytes. Returns false if an allocation fails. */
static bool has_room(void *array, size_t *room, size_t count, size_t more, size_t bytes)
{
    if (count + more <= *room)
        return true;
    size_t wanted = *room + *room / 2 + 1024;
    if (wanted < count + more)
        wanted = count + more;
    void *old, *grown;
    memcpy(&old, array, sizeof old);
    grown = realloc(old, wanted * bytes);
    if (grown == NULL)
        return false;
    memcpy(array, &grown, sizeof grown);
    *room = wanted;
    return true;
}

/* ---- The map from addresses. An entry is found by the address, without a search: that of its page, and then its number there. */

/* Returns the number of the page of an address, plus 1. Addresses with different tags have different pages. */
static uint64_t page_of(uint64_t address)
{
    return (address / (8 * PAGE_ENTRIES) << 3 | address % 8) + 1;
}

static struct entry *entry_in(const struct map *map, uint32_t number, uint64_t address)
{
    return &map->entries[(size_t)(number - 1) * PAGE_ENTRIES + address / 8 % PAGE_ENTRIES];
}

/* Returns what is known of an address. The place and the number of the doubt are 0 if there are none. */
static struct entry found(const struct map *map, uint64_t address)
{
    const struct entry none = {0, 0};
    uint64_t page = page_of(address);
    uint32_t number = page == map->last_page ? map->last_number : looked_up(&map->pages, page);
    return number == 0 ? none : *entry_in(map, number, address);
}

/* Adds a page without an entry. Returns its number, or 0 if an allocation fails. */
static uint32_t added_page(struct map *map, uint64_t page)
{
    uint32_t number = map->page_count + 1;
    if (number == 0 || !has_room(&map->entries, &map->room, (size_t)map->page_count * PAGE_ENTRIES, PAGE_ENTRIES, sizeof *map->entries)
        || !put_into(&map->pages, page, number))
        return 0;
    memset(entry_in(map, number, 0), 0, PAGE_ENTRIES * sizeof *map->entries);
    map->page_count = number;
    return number;
}

/* Returns the entry of an address, which is for the caller to write, or NULL if an allocation fails. It is valid until the next page is added. */
static struct entry *entry_of(struct map *map, uint64_t address)
{
    uint64_t page = page_of(address);
    if (page != map->last_page) {
        uint32_t number = looked_up(&map->pages, page);
        number = number == 0 ? added_page(map, page) : number;
        if (number == 0)
            return NULL;
        map->last_page = page;
        map->last_number = number;
    }
    return entry_in(map, map->last_number, address);
}

static void clear_map(struct map *map)
{
    clear_table(&map->pages);
    map->page_count = 0;
    map->last_page = 0;
}

static void free_map(struct map *map)
{
    free_table(&map->pages);
    free(map->entries);
}

#endif
