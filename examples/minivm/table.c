/* Texts, equal values, and tables: [count, keys, values]. Both arrays have 8 places or a power of two above, and a key lies in the first free place from
 * its hash on. At most three of four places are taken. */
#include "minivm.h"

enum { COUNT_FIELD, KEYS_FIELD, VALUES_FIELD, FIELDS, FIRST_PLACES = 8 };

static void may_have_length(size_t length)
{
    if (length > GCFLIP_MOST_BYTES)
        fail("a text has at most %d bytes", GCFLIP_MOST_BYTES);
}

void text_new(hp_root d, const char *bytes, size_t length)
{
    may_have_length(length);
    hp_new_bytes(&vm, d, TEXT, bytes, length);
}

void text_join(hp_root d, hp_root s, hp_root t)
{
    may_have_length((size_t)hp_bytes_length(&vm, s) + hp_bytes_length(&vm, t));
    hp_bytes_join(&vm, d, TEXT, s, t);
}

bool values_equal(hp_root s, hp_root t)
{
    return hp_same(&vm, s, t) || (hp_is(&vm, s, TEXT) && hp_is(&vm, t, TEXT) && hp_bytes_same(&vm, s, t));
}

static uint64_t hash_of(hp_root key)
{
    hp_value value = hp_look(&vm, key);
    if (value.type == HP_INT)
        return (uint64_t)value.integer * 0x9e3779b97f4a7c15u >> 32;
    if (value.type != HP_RAW || value.kind != TEXT)
        fail("a key is an integer or a text");
    return hp_bytes_hash(&vm, key, 0);
}

/* Gives the table, whose count stays, arrays of so many places. */
static void new_places(hp_root s, uint32_t places)
{
    hp_array_new(&vm, KEYS, ARRAY, places);
    hp_put(&vm, s, KEYS_FIELD, KEYS);
    hp_array_new(&vm, VALUES, ARRAY, places);
    hp_put(&vm, s, VALUES_FIELD, VALUES);
}

void table_new(hp_root d)
{
    hp_new(&vm, d, TABLE, FIELDS);
    hp_put_int(&vm, d, COUNT_FIELD, 0);
    new_places(d, FIRST_PLACES);
}

/* Finds the place of a key in array KEYS, or the free place for it. Returns whether the key is there. */
static bool find(hp_root key, uint32_t *place)
{
    uint32_t places = hp_array_length(&vm, KEYS);
    for (*place = (uint32_t)(hash_of(key) & (places - 1));; *place = (*place + 1) & (places - 1)) {
        hp_array_get(&vm, KEY, KEYS, *place);
        if (hp_look(&vm, KEY).type == HP_NIL)
            return false;
        if (values_equal(KEY, key))
            return true;
    }
}

/* Loads the arrays of a table. Returns whether it has the key, and where, or where the key would lie. */
static bool look_up(hp_root s, hp_root key, uint32_t *place)
{
    hp_get(&vm, KEYS, s, KEYS_FIELD);
    hp_get(&vm, VALUES, s, VALUES_FIELD);
    return find(key, place);
}

/* Doubles the places of a table whose arrays are loaded. */
static void enlarge(hp_root s)
{
    uint32_t places = hp_array_length(&vm, KEYS), place;
    hp_root element = hp_push(&vm);
    if (places > HP_MOST_ELEMENTS / 2)
        fail("a table has too many keys");
    hp_copy(&vm, OLD_KEYS, KEYS);
    hp_copy(&vm, OLD_VALUES, VALUES);
    new_places(s, 2 * places);
    for (uint32_t i = 0; i < places; i++) {
        hp_array_get(&vm, element, OLD_KEYS, i);
        if (hp_look(&vm, element).type == HP_NIL)
            continue;
        find(element, &place);
        hp_array_put(&vm, KEYS, place, element);
        hp_array_get(&vm, element, OLD_VALUES, i);
        hp_array_put(&vm, VALUES, place, element);
    }
    hp_drop(&vm, 1);
}

void table_set(hp_root s, hp_root key, hp_root value)
{
    int64_t count = hp_field(&vm, s, COUNT_FIELD).integer;
    uint32_t place;
    if (!look_up(s, key, &place)) {
        if (4 * (count + 1) > 3 * (int64_t)hp_array_length(&vm, KEYS)) {
            enlarge(s);
            find(key, &place);
        }
        hp_array_put(&vm, KEYS, place, key);
        hp_put_int(&vm, s, COUNT_FIELD, count + 1);
    }
    hp_array_put(&vm, VALUES, place, value);
}

void table_get(hp_root d, hp_root s, hp_root key)
{
    uint32_t place;
    if (look_up(s, key, &place))
        hp_array_get(&vm, d, VALUES, place);
    else
        hp_set_nil(&vm, d);
}
