/* Arrays of any length, and vectors of 64-bit words, in the heap of herbpond.h. NOT PROVED, as that header; tests/c/herbpond_arrays.c tests it.
 *
 * An array is an object with two fields: its length, and its elements. Up to HP_PART elements are in one part. More are in parts of HP_PART elements
 * each, to which a spine refers. So a push copies at most HP_PART elements, or the references to all parts. The program chooses the array's kind, and
 * knows by it that an object is an array. It does not write the two fields itself. */
#ifndef HERBPOND_ARRAYS_H
#define HERBPOND_ARRAYS_H

#include "herbpond.h"

enum { HP_PART = 4096, HP_FIRST_ROOM = 8, HP_LENGTH = 0, HP_ELEMENTS = 1, HP_ARRAY_FIELDS = 2 };

#define HP_MOST_PARTS 65535u
#define HP_MOST_ELEMENTS (HP_MOST_PARTS * HP_PART)

/* Makes an array of `length` nils, at most HP_MOST_ELEMENTS, and puts a reference to it into d. */
static inline void hp_array_new(hp *h, hp_root d, uint32_t kind, uint32_t length)
{
    uint32_t k, parts = length <= HP_PART ? 0 : (length - 1) / HP_PART + 1;

    hp_operand(h, d, "hp_array_new");
    if (length > HP_MOST_ELEMENTS)
        hp_answered(h, GCFLIP_OUT_OF_RANGE, "hp_array_new");
    hp_reserve(h, HP_ARRAY_FIELDS + 2 + (parts > 0 ? parts : length) + 2 + parts * (HP_PART + 2));
    hp_make(h, HP_NEW, kind, HP_ARRAY_FIELDS, "hp_array_new");
    if (length > 0) {
        hp_make(h, HP_OLD, parts > 0 ? HP_KIND_SPINE : HP_KIND_PART, parts > 0 ? parts : length, "hp_array_new");
        hp_store(h, HP_NEW, HP_ELEMENTS, HP_OLD, "hp_array_new");
    }
    for (k = 0; k < parts; k++) {
        hp_make(h, HP_SCRATCH, HP_KIND_PART, HP_PART, "hp_array_new");
        hp_store(h, HP_OLD, k, HP_SCRATCH, "hp_array_new");
    }
    hp_answered(h, gcflip_copy(&h->heap, d, HP_NEW), "hp_array_new");
    hp_put_int(h, d, HP_LENGTH, length);
    hp_forget(h);
}

/* Returns the length of the array in s. */
static inline uint32_t hp_array_length(hp *h, hp_root s)
{
    hp_value length = hp_field(h, s, HP_LENGTH);

    if (length.type != HP_INT)
        hp_answered(h, GCFLIP_NO_NUMBER, "hp_array_length");
    return (uint32_t)length.integer;
}

/* Puts the part with element i of an array of this length into d, and returns the number of its field. */
static inline uint32_t hp_array_part(hp *h, hp_root d, hp_root s, uint32_t i, uint32_t length, const char *call)
{
    if (i >= length)
        hp_answered(h, GCFLIP_NO_FIELD, call);
    hp_load(h, d, s, HP_ELEMENTS, call);
    if (length > HP_PART)
        hp_load(h, d, d, i / HP_PART, call);
    return i % HP_PART;
}

/* Copies element i of the array in s into d. An index of the length or above is no field. */
static inline void hp_array_get(hp *h, hp_root d, hp_root s, uint32_t i)
{
    uint32_t field = hp_array_part(h, hp_operand(h, d, "hp_array_get"), s, i, hp_array_length(h, s), "hp_array_get");

    hp_load(h, d, d, field, "hp_array_get");
}

/* Writes the value of t into element i of an array of this length. */
static inline void hp_array_write(hp *h, hp_root s, uint32_t i, hp_root t, uint32_t length, const char *call)
{
    uint32_t field = hp_array_part(h, HP_OLD, s, i, length, call);

    hp_store(h, HP_OLD, field, t, call);
    hp_answered(h, gcflip_set_nil(&h->heap, HP_OLD), call);
}

/* Writes the value of t into element i of the array in s. An index of the length or above is no field. */
static inline void hp_array_put(hp *h, hp_root s, uint32_t i, hp_root t)
{
    hp_array_write(h, s, i, hp_operand(h, t, "hp_array_put"), hp_array_length(h, s), "hp_array_put");
}

/* Gives the array in s an object with more fields for its elements or parts, which are `count` now, and leaves it in HP_NEW. */
static inline void hp_array_lengthen(hp *h, hp_root s, uint32_t kind, uint32_t count, uint32_t fields)
{
    uint32_t answer;

    hp_load(h, HP_OLD, s, HP_ELEMENTS, "hp_array_push");
    hp_make(h, HP_NEW, kind, fields, "hp_array_push");
    do
        answer = count == 0 ? (uint32_t)GCFLIP_DONE : gcflip_copy_fields(&h->heap, 0, HP_NEW, 0, HP_OLD, 0, count);
    while (hp_gave_up(h, answer));
    hp_answered(h, answer, "hp_array_push");
    hp_store(h, s, HP_ELEMENTS, HP_NEW, "hp_array_push");
}

/* Adds a part to an array of `parts` full ones. Without a spine, it has one part. */
static inline void hp_array_extend(hp *h, hp_root s, uint32_t parts)
{
    bool is_full = parts == 1 || parts == hp_field(h, s, HP_ELEMENTS).count;
    uint32_t wanted = parts == 1 ? (uint32_t)HP_FIRST_ROOM : 2 * parts;

    if (parts == HP_MOST_PARTS)
        hp_answered(h, GCFLIP_FULL, "hp_array_push");
    if (wanted > HP_MOST_PARTS)
        wanted = HP_MOST_PARTS;
    hp_reserve(h, (is_full ? wanted + 2 : 0) + HP_PART + 2);
    if (parts == 1) {
        hp_load(h, HP_OLD, s, HP_ELEMENTS, "hp_array_push");
        hp_make(h, HP_NEW, HP_KIND_SPINE, wanted, "hp_array_push");
        hp_store(h, HP_NEW, 0, HP_OLD, "hp_array_push");
        hp_store(h, s, HP_ELEMENTS, HP_NEW, "hp_array_push");
    } else if (is_full)
        hp_array_lengthen(h, s, HP_KIND_SPINE, parts, wanted);
    hp_load(h, HP_OLD, s, HP_ELEMENTS, "hp_array_push");
    hp_make(h, HP_SCRATCH, HP_KIND_PART, HP_PART, "hp_array_push");
    hp_store(h, HP_OLD, parts, HP_SCRATCH, "hp_array_push");
    hp_forget(h);
}

/* Adds the value of t at the end of the array in s. An array of HP_MOST_ELEMENTS elements is full. */
static inline void hp_array_push(hp *h, hp_root s, hp_root t)
{
    uint32_t length = hp_array_length(h, s), fields = hp_field(h, s, HP_ELEMENTS).count;

    hp_operand(h, t, "hp_array_push");
    if (length < HP_PART && length == fields) {
        uint32_t wanted = length < HP_FIRST_ROOM / 2 ? (uint32_t)HP_FIRST_ROOM : 2 * length;

        hp_array_lengthen(h, s, HP_KIND_PART, length, wanted < HP_PART ? wanted : (uint32_t)HP_PART);
        hp_forget(h);
    } else if (length >= HP_PART && length % HP_PART == 0)
        hp_array_extend(h, s, length / HP_PART);
    hp_array_write(h, s, length, t, length + 1, "hp_array_push");
    hp_put_int(h, s, HP_LENGTH, length + 1);
}

/* ---- Vectors of 64-bit words, which gcflip_heap.h describes: raw objects, of which 64 fields have 63 words. Words may be the bits of doubles */

/* Makes a vector of `count` words, all 0, and puts a reference to it into d. More than GCFLIP_MOST_WORDS words are out of range. */
static inline void hp_new_words(hp *h, hp_root d, uint32_t kind, uint32_t count)
{
    uint32_t fields = count > GCFLIP_MOST_WORDS ? UINT32_MAX : GCFLIP_WORD_FIELDS(count);

    hp_operand(h, d, "hp_new_words");
    hp_pay(h, kind, fields, "hp_new_words");
    hp_answered(h, gcflip_new_raw(&h->heap, d, kind, fields), "hp_new_words");
}

/* Returns the number of words of the vector in s. */
static inline uint32_t hp_words_length(hp *h, hp_root s)
{
    hp_value value = hp_look(h, s);
    uint32_t rest = value.count % 64;

    if (value.type != HP_RAW)
        hp_answered(h, GCFLIP_NO_OBJECT, "hp_words_length");
    return value.count / 64 * 63 + (rest > 0 ? rest - 1 : 0);
}

/* Copies `count` words of the vector in s to `words`, from word `at` on. The vector has at least at + count words. `words` may be NULL if `count` is 0. */
static inline void hp_words_read(hp *h, hp_root s, uint32_t at, uint64_t *words, size_t count)
{
    uint64_t none = 0;

    hp_answered(h, gcflip_words_read(&h->heap, hp_operand(h, s, "hp_words_read"), at, count == 0 ? &none : words, count), "hp_words_read");
}

/* Writes `count` words over those of the vector in s, from word `at` on. The vector has at least at + count words. `words` may be NULL if `count` is 0.
 * Does not fail for lack of memory. */
static inline void hp_words_write(hp *h, hp_root s, uint32_t at, const uint64_t *words, size_t count)
{
    const uint64_t none = 0;
    uint32_t answer;

    do
        answer = gcflip_words_write(&h->heap, 0, hp_operand(h, s, "hp_words_write"), at, count == 0 ? &none : words, count);
    while (hp_gave_up(h, answer));
    hp_answered(h, answer, "hp_words_write");
}

#endif
