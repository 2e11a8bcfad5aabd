/* Clears the tables of gcflip_images.c until the number of their epoch begins again: no table then knows what it was told before. Does the same with the map
 * from addresses: neighbours, addresses of one word with different tags, pages that lie far apart, and the ends of the address space. */
#include "../../bindings/c/gcflip_images.c"

#include "expect.h"

enum { KEYS = 5000 };

static struct table table;

/* Puts so many keys into the table, from `first` on, and expects to find them alone. */
static void fill(uint64_t first, uint64_t keys)
{
    for (uint64_t key = first; key < first + keys; key++)
        EXPECT(looked_up(&table, key) == 0 && put_into(&table, key, (uint32_t)(key + 7)));
    for (uint64_t key = 1; key < 2 * KEYS; key++)
        EXPECT(looked_up(&table, key) == (key >= first && key < first + keys ? key + 7 : 0));
    EXPECT(table.used == keys);
}

static struct map map;

/* Returns the address of this number: five in a row of words, then one with each tag in the next word, then far away. No two are equal. */
static uint64_t numbered(uint64_t number)
{
    uint64_t group = number / 16, rest = number % 16, far = group * 0x10000100000 + 8 * (512 - 3);
    return rest < 5 ? far + 8 * rest + 8 : rest < 12 ? far + 48 + (rest - 4) : rest == 12 ? UINT64_MAX - group : far + 4096 * (rest + 3);
}

/* Puts so many addresses into the map, and expects to find them alone. Every third one has no place, and only a doubt. */
static void fill_map(uint64_t count)
{
    for (uint64_t i = 0; i < count; i++) {
        struct entry *entry = entry_of(&map, numbered(i));
        EXPECT(entry != NULL && entry->place == 0 && entry->doubt == 0);
        entry->place = i % 3 == 0 ? 0 : (uint32_t)i + 5;
        entry->doubt = (uint32_t)i + 9;
    }
    for (uint64_t i = 0; i < KEYS; i++) {
        struct entry entry = found(&map, numbered(i));
        EXPECT(entry.place == (i >= count || i % 3 == 0 ? 0 : i + 5) && entry.doubt == (i >= count ? 0 : i + 9));
    }
}

int main(void)
{
    fill_map(0);
    fill_map(KEYS);
    clear_map(&map);
    EXPECT(found(&map, numbered(KEYS - 1)).doubt == 0); /* the address that was asked for last */
    fill_map(7);
    clear_map(&map);
    fill_map(KEYS / 2);
    free_map(&map);
    fill(1, KEYS);
    EXPECT(put_into(&table, 3, 11) && looked_up(&table, 3) == 11 && table.used == KEYS);
    clear_table(&table);
    fill(1, 0);
    for (uint64_t first = 1; first < 9; first++) {
        fill(first, 3);
        clear_table(&table);
    }
    fill(1, 2 * KEYS - 1); /* it grows in a later epoch */
    EXPECT(table.epoch == 1); /* that of a table that has grown */
    table.epoch = UINT32_MAX; /* as after so many times */
    clear_table(&table);
    fill(2, 3);
    clear_table(&table);
    fill(KEYS, 100);
    free_table(&table);
    return 0;
}
