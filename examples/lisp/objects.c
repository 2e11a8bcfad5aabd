/* Pairs, lists, strings and symbols. */
#include "objects.h"
#include "heap.h"
#include <string.h>

enum { BUCKETS = 128 };

/* ---- Constants */

void make_constants(void)
{
    make(TRUE_VALUE, TRUE, 0);
    make(FALSE_VALUE, FALSE, 0);
    make(NO_VALUE, NOTHING, 0);
    make(SYMBOLS, TABLE, BUCKETS);
}

void set_boolean(enum slot slot, bool truth)
{
    move(slot, truth ? TRUE_VALUE : FALSE_VALUE);
}

bool is_true(enum slot slot)
{
    return type_of(slot) != FALSE;
}

/* ---- Pairs and lists */

void make_pair_at(enum slot to, enum slot first, enum slot rest, uint64_t position)
{
    make(MADE, PAIR, position == 0 ? PAIR_FIELDS : READ_PAIR_FIELDS);
    put(MADE, FIRST, first);
    put(MADE, REST, rest);
    if (position != 0)
        put_word(MADE, POSITION, position);
    move(to, MADE);
}

void make_pair(enum slot to, enum slot first, enum slot rest)
{
    make_pair_at(to, first, rest, 0);
}

void append_at(enum slot list, enum slot last, enum slot element, uint64_t position)
{
    clear(WORD);
    make_pair_at(MADE, element, WORD, position);
    if (type_of(list) == EMPTY)
        move(list, MADE);
    else
        put(last, REST, MADE);
    move(last, MADE);
}

int64_t list_length(enum slot list)
{
    int64_t length = 0;
    move(D, list);
    enum type type = type_of(D);
    for (; type == PAIR && length < heap_size(); type = get(D, D, REST))
        length++;
    return type == EMPTY ? length : -1;
}

/* ---- Strings */

static size_t words_of(size_t bytes)
{
    return (bytes + BYTES_PER_WORD - 1) / BYTES_PER_WORD;
}

/* Returns the word with these bytes, the first one lowest. */
static uint64_t packed(const char *bytes, size_t length)
{
    uint64_t word = 0;
    for (size_t i = 0; i < length; i++)
        word |= (uint64_t)(unsigned char)bytes[i] << 8 * i;
    return word;
}

void make_string(enum slot to, const char *bytes, size_t length)
{
    make_raw(MADE, STRING, (uint32_t)(1 + words_of(length)));
    put_word(MADE, 0, length);
    for (size_t at = 0; at < length; at += BYTES_PER_WORD) {
        size_t left = length - at;
        put_word(MADE, (uint32_t)(1 + at / BYTES_PER_WORD), packed(bytes + at, left < BYTES_PER_WORD ? left : BYTES_PER_WORD));
    }
    move(to, MADE);
}

size_t string_length(enum slot string)
{
    return (size_t)get_word(string, 0);
}

void copy_string(char *bytes, enum slot string, size_t from, size_t length)
{
    uint64_t word = 0;
    for (size_t i = 0; i < length; i++) {
        size_t at = from + i;
        if (i == 0 || at % BYTES_PER_WORD == 0)
            word = get_word(string, (uint32_t)(1 + at / BYTES_PER_WORD));
        bytes[i] = (char)(word >> 8 * (at % BYTES_PER_WORD) & 0xff);
    }
}

/* Returns whether a string has these bytes. */
static bool spells(enum slot string, const char *bytes, size_t length)
{
    bool differs = string_length(string) != length;
    for (size_t at = 0; at < length && !differs; at += BYTES_PER_WORD) {
        size_t left = length - at;
        uint64_t word = packed(bytes + at, left < BYTES_PER_WORD ? left : BYTES_PER_WORD);
        differs = get_word(string, (uint32_t)(1 + at / BYTES_PER_WORD)) != word;
    }
    return !differs;
}

/* Bytes beyond the length are 0, and the length is itself a field, so equal words mean equal strings. */
bool equal_strings(enum slot first, enum slot second)
{
    uint32_t fields = field_count(first);
    bool differ = fields != field_count(second);
    for (uint32_t field = 0; field < fields && !differ; field++)
        differ = get_word(first, field) != get_word(second, field);
    return !differ;
}

/* ---- Symbols */

/* The hash function FNV-1a. */
static uint32_t bucket_of(const char *bytes, size_t length)
{
    uint32_t hash = 2166136261u;
    for (size_t i = 0; i < length; i++)
        hash = (hash ^ (unsigned char)bytes[i]) * 16777619u;
    return hash % BUCKETS;
}

static void add_symbol(enum slot to, uint32_t bucket, const char *bytes, size_t length)
{
    make_string(C, bytes, length);
    make(B, SYMBOL, SYMBOL_FIELDS);
    put(B, SPELLING, C);
    put(B, SYMBOL_VALUE, NO_VALUE);
    get(D, SYMBOLS, bucket);
    make_pair(D, B, D);
    put(SYMBOLS, bucket, D);
    move(to, B);
}

void intern(enum slot to, const char *bytes, size_t length)
{
    uint32_t bucket = bucket_of(bytes, length);
    for (enum type type = get(D, SYMBOLS, bucket); type == PAIR; type = get(D, D, REST)) {
        get(B, D, FIRST);
        get(C, B, SPELLING);
        if (spells(C, bytes, length)) {
            move(to, B);
            return;
        }
    }
    add_symbol(to, bucket, bytes, length);
}

void intern_name(enum slot to, const char *name)
{
    intern(to, name, strlen(name));
}
