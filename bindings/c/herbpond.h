/* The heap of one interpreter. NOT PROVED: this header is a thin layer in C over the proved calls of gcflip_heap.h, and tests/c/herbpond.c tests it.
 *
 * An operand is a root. 0 to 28 are registers, and HP_STACK(k) is place k of the stack, below its top. The program holds no pointers and no
 * addresses, so a collection may go on in each call that makes an object.
 *
 * No answer is left unchecked. A call of this layer returns what it read. If it cannot do its work, it calls the program's hook. The hook does not
 * return: it ends the program, or leaves by longjmp or by a C++ exception. gcflip_class_of says whether something has no room left, a value is
 * not what the call needs, or the program has a mistake. The heap can be used after that. The calls of gcflip_heap.h can be made on `heap` too. */
#ifndef HERBPOND_H
#define HERBPOND_H

#include "gcflip_allocator.h"
#include "gcflip_heap.h"

#include <math.h>
#include <stdbool.h>
#include <stdio.h>
#include <stdlib.h>
#include <string.h>

/* The place of a root. */
typedef uint32_t hp_root;

enum {
    HP_OLD = 29,         /* the first of the layer's own registers, which hold nil between calls */
    HP_NEW = 30,
    HP_SCRATCH = 31,
    HP_REGISTERS = 32,   /* the place of the stack's first root */
    HP_KIND_SPINE = 253, /* a program uses kinds 0 to 252. Of this kind is an object that refers to the parts of a long array */
    HP_KIND_PART = 254,  /* an object with elements of an array */
    HP_KIND_BOX = 255,   /* a raw object that holds a double */
    HP_BLOCK = 512       /* the words that objects may take between two calls of the collector, if so many are free */
};

#define HP_STACK(k) ((hp_root)HP_REGISTERS + (hp_root)(k))

/* ---- The heap */

/* What the layer counted since the heap was opened. */
typedef struct hp_stats {
    uint64_t objects; /* the objects that were made */
    uint64_t words;   /* the words that they took */
    uint64_t flips;
    uint64_t steps;   /* the steps of the collector */
    uint64_t copied;  /* the words that replicas took */
    uint64_t longest; /* the most steps in one call */
    uint64_t waits;   /* the allocations that waited for a whole collection */
    uint64_t full;    /* the allocations for which there was no room even then */
} hp_stats;

/* What the layer knows of a weak handle, whose object is alive, died, or died before the handle was freed. An unused entry has no handle. */
enum hp_weak_state { HP_WEAK_UNUSED, HP_WEAK_ALIVE, HP_WEAK_DEAD, HP_WEAK_FREED };

typedef struct hp_weak_entry {
    uint64_t token;
    uint32_t state;   /* an hp_weak_state */
    uint32_t address; /* of the object, if it is alive */
    uint32_t uses;    /* the number of handles that have had this entry */
    uint32_t next;    /* one more than the number of the next entry of the list, or 0 at its end */
} hp_weak_entry;

typedef struct hp_weak_table {
    hp_weak_entry *entries;
    uint32_t count, room;
    uint32_t alive;  /* the entries whose objects are alive */
    uint32_t dead;   /* the list of dead and freed entries */
    uint32_t unused; /* the list of unused entries */
} hp_weak_table;

/* In `fields` below: objects of the kind may have any number of fields. */
#define HP_ANY_FIELDS UINT32_MAX

/* What the program says of a kind, for printers, walks and checks. */
typedef struct hp_kind {
    const char *name; /* NULL if it has none */
    uint32_t fields;  /* the number of fields of each object, or HP_ANY_FIELDS */
    uint64_t numbers; /* bit i, from 0 to 63: field i holds a number. A raw object holds numbers alone, and needs no bit */
} hp_kind;

typedef struct hp hp;

/* The program's hook. It gets the answer, and the name of the call that failed. It does not return. */
typedef void hp_hook(hp *h, uint32_t answer, const char *call);

struct hp {
    gcflip_heap heap;
    gcflip_pace pace;
    gcflip_frame stack;
    hp_hook *failed;
    const hp_kind *kinds; /* kinds 0 to kind_count - 1 */
    uint32_t kind_count;
    uint32_t most;   /* the words up to which the heap grows; 0 if it does not */
    uint32_t credit; /* the words that objects may take before the collector works again; so many are free */
    hp_stats stats;
    hp_weak_table weak;
};

/* Clears the layer's own registers. */
static inline void hp_forget(hp *h)
{
    hp_root own;

    for (own = HP_OLD; own < HP_REGISTERS; own++)
        (void)gcflip_set_nil(&h->heap, own);
}

/* Calls the hook if the class of the answer is not GCFLIP_OK. Returns the answer otherwise. */
static inline uint32_t hp_answered(hp *h, uint32_t answer, const char *call)
{
    if (gcflip_class_of(answer) != GCFLIP_OK) {
        hp_forget(h);
        h->failed(h, answer, call);
        fprintf(stderr, "herbpond: the hook returned: %s: %s\n", call, gcflip_answer_text(answer));
        abort();
    }
    return answer;
}

/* Opens a heap of `words` words, whose stack has `places` places, and calls `failed` for each call that fails. The record needs no value before. */
static inline void hp_open(hp *h, uint32_t words, uint32_t places, hp_hook *failed)
{
    gcflip_options options = gcflip_options_default(words, 1);

    memset(h, 0, sizeof *h);
    h->heap.at = NULL;
    h->pace = gcflip_pace_default();
    h->stack.end = places;
    h->failed = failed;
    options.extra_roots = places;
    hp_answered(h, gcflip_heap_open(&h->heap, &options), "hp_open");
}

/* Frees the heap, and all weak handles. */
static inline void hp_close(hp *h)
{
    hp_answered(h, gcflip_heap_close(&h->heap), "hp_close");
    if (h->weak.entries != NULL)
        rattle_dealloc(h->weak.entries);
    memset(&h->weak, 0, sizeof h->weak);
}

/* Lets the heap grow up to `most` words. A collection takes a larger space if there is too little room. It also does so if more than half of
 * the heap was in use after the last flip. */
static inline void hp_growing(hp *h, uint32_t most)
{
    h->most = most;
}

/* Returns how full the heap is, and how far an open collection has come. */
static inline gcflip_counts hp_counts(hp *h)
{
    gcflip_counts counts = {0, 0, 0, 0, 0, 0, 0, 0, 0, 0, 0, 0};

    hp_answered(h, gcflip_heap_counts(&h->heap, &counts), "hp_counts");
    return counts;
}

/* ---- The stack */

/* Returns the root of one more place at the top of the stack. Its value is any, until the program writes it. */
static inline hp_root hp_push(hp *h)
{
    if (h->stack.top == h->stack.end)
        hp_answered(h, GCFLIP_FRAME_FULL, "hp_push");
    h->stack.top++;
    if (h->stack.high < h->stack.top)
        h->stack.high = h->stack.top;
    return HP_STACK(h->stack.top - 1);
}

/* Drops the `count` places at the top of the stack. A collection that begins later does not see their values. */
static inline void hp_drop(hp *h, uint32_t count)
{
    if (count > h->stack.top)
        hp_answered(h, GCFLIP_FRAME_EMPTY, "hp_drop");
    h->stack.top -= count;
}

/* Clears the places above the top of the stack, so that a collection does not see what they held. */
static inline void hp_trim(hp *h)
{
    if (h->stack.high > h->stack.top)
        hp_answered(h, gcflip_heap_frame_trim(&h->heap, &h->stack, UINT32_MAX), "hp_trim");
}

/* Returns an operand: a register, or a root below the top of the stack. */
static inline hp_root hp_operand(hp *h, hp_root root, const char *call)
{
    if ((root >= HP_OLD && root < HP_REGISTERS) || root >= HP_STACK(h->stack.top))
        hp_answered(h, GCFLIP_OUT_OF_RANGE, call);
    return root;
}

/* ---- Room */

/* Writes to each weak handle where the last flip moved its object, or adds it to the list of the dead. */
static inline void hp_move_weak(hp *h)
{
    uint32_t i;

    for (i = 0; i < h->weak.count; i++) {
        hp_weak_entry *entry = &h->weak.entries[i];
        uint32_t answer = entry->state == HP_WEAK_ALIVE ? gcflip_moved(&h->heap, entry->address, &entry->address) : (uint32_t)GCFLIP_DONE;

        if (answer == GCFLIP_NO_OBJECT) {
            h->weak.alive--;
            entry->state = HP_WEAK_DEAD;
            entry->next = h->weak.dead;
            h->weak.dead = i + 1;
        } else
            hp_answered(h, answer, "hp_follow");
    }
}

/* Counts the flips, and follows the objects of weak handles over a new one. It is out of range if two flips passed, or if the next collection began:
 * the layer then cannot know where the objects are. */
static inline void hp_follow(hp *h)
{
    gcflip_flip_checks checks = {0, 0};
    uint64_t flips;

    hp_answered(h, gcflip_heap_flip_checks(&h->heap, &checks), "hp_follow");
    flips = checks.along + checks.whole;
    if (flips != h->stats.flips && h->weak.alive > 0) {
        if (flips != h->stats.flips + 1)
            hp_answered(h, GCFLIP_OUT_OF_RANGE, "hp_follow");
        hp_move_weak(h);
    }
    h->stats.flips = flips;
}

/* Counts what a call of the collector did, which flipped once at most. */
static inline void hp_worked(hp *h, const gcflip_work *work)
{
    h->stats.steps += work->steps;
    if (work->steps > h->stats.longest)
        h->stats.longest = work->steps;
    h->stats.copied += work->copied;
    hp_follow(h);
}

/* Ends the open collection by its flip, or performs a whole one if none is open: GCFLIP_DONE, GCFLIP_NO_MEMORY or GCFLIP_NO_ROOM. */
static inline uint32_t hp_flip(hp *h)
{
    gcflip_work work = {0, 0, 0, 0, 0};

    while (work.last != GCFLIP_FLIPPED) {
        uint32_t answer = gcflip_heap_work(&h->heap, UINT32_MAX, &work);

        if (answer != GCFLIP_DONE || work.last == GCFLIP_NO_ROOM)
            return answer != GCFLIP_DONE ? answer : work.last;
        hp_worked(h, &work);
    }
    return gcflip_heap_pace(&h->heap, &h->pace);
}

/* Begins a collection with a larger space, if none is open and the heap may grow. If `now` is false, one has also to be due, and more than half of
 * the heap in use after the last flip. If the system refuses the memory, the next steps begin one of the same size. */
static inline void hp_grow(hp *h, uint32_t words, bool now)
{
    gcflip_counts counts = hp_counts(h);
    uint64_t wanted = 2 * (uint64_t)counts.size + words;

    if (counts.is_open || counts.size >= h->most)
        return;
    if (now || ((uint64_t)h->pace.left * 2 > counts.size && gcflip_pace_due(&h->pace, &counts, words) > 0)) {
        uint32_t answer = gcflip_heap_step_begin_sized(&h->heap, wanted < h->most ? (uint32_t)wanted : h->most);

        if (answer != GCFLIP_NO_MEMORY)
            hp_answered(h, answer, "hp_grow");
    }
}

/* Makes room by whole collections, where too little is free: GCFLIP_DONE, GCFLIP_FULL, or what hp_flip returns. gcflip_reserve may flip more than
 * once in a call, and weak handles have to follow each flip. */
static inline uint32_t hp_wait(hp *h, uint32_t words)
{
    uint32_t answer = GCFLIP_DONE;

    hp_grow(h, words, true);
    if (hp_counts(h).is_open)
        answer = hp_flip(h);
    if (answer != GCFLIP_DONE || gcflip_room(&h->heap) >= words)
        return answer;
    answer = hp_flip(h);
    return answer != GCFLIP_DONE || gcflip_room(&h->heap) >= words ? answer : (uint32_t)GCFLIP_FULL;
}

/* Makes room for `words` words. Performs the steps that are due. If fewer words are free then, it waits for whole collections, and for one that takes
 * a larger space if the heap may grow. Returns GCFLIP_DONE if so many words are free. Otherwise it returns GCFLIP_FULL if a collection that began in
 * this call flipped. It returns GCFLIP_NO_MEMORY if the system refused the memory for one, and GCFLIP_NO_ROOM if the space of the open one is too
 * small. */
static inline uint32_t hp_make_room(hp *h, uint32_t words)
{
    gcflip_work work = {0, 0, 0, 0, 0};
    uint32_t answer;

    hp_trim(h);
    hp_grow(h, words, false);
    answer = gcflip_heap_work_paced(&h->heap, &h->pace, words, &work);
    if (answer == GCFLIP_DONE)
        hp_worked(h, &work);
    else if (answer != GCFLIP_NO_MEMORY)
        return answer;
    if (gcflip_room(&h->heap) >= words)
        return GCFLIP_DONE;
    h->stats.waits++;
    answer = hp_wait(h, words);
    if (answer == GCFLIP_FULL && hp_counts(h).size < h->most)
        answer = hp_wait(h, words);
    h->stats.full += answer == GCFLIP_FULL;
    return answer;
}

/* Makes room for objects of `words` words together. The collector does not work again before they are made. */
static inline void hp_reserve(hp *h, uint32_t words)
{
    uint32_t room;

    if (words <= h->credit)
        return;
    h->credit = 0;
    hp_answered(h, hp_make_room(h, words), "hp_reserve");
    room = gcflip_room(&h->heap);
    h->credit = words;
    if (words < HP_BLOCK)
        h->credit = room < HP_BLOCK ? room : (uint32_t)HP_BLOCK;
}

/* Performs the steps that are due. Loops that make no objects call it, because writes are work for an open collection. */
static inline void hp_safepoint(hp *h)
{
    hp_answered(h, hp_make_room(h, 0), "hp_safepoint");
}

/* Ends the open collection, and performs a whole one, which frees all that no root reaches now. */
static inline void hp_collect(hp *h)
{
    hp_trim(h);
    if (hp_counts(h).is_open)
        hp_answered(h, hp_flip(h), "hp_collect");
    hp_answered(h, hp_flip(h), "hp_collect");
}

/* ---- Values: nil, integers, doubles, specials, and references to objects
 *
 * A number of the heap has 63 bits. Its lowest bit is 0 for an integer, and 1 for the others. Doubles from 2^-254 up to 2^257, zeros, infinities
 * and NaN are numbers, as Ruby's flonums. Each NaN becomes the same one. Other doubles are raw objects of two fields. A special is a number from
 * 0 to 2^52 - 1, which the program gives a meaning: a truth value, a character, or a symbol. */

enum hp_type { HP_NIL, HP_INT, HP_DOUBLE, HP_SPECIAL, HP_OBJECT, HP_RAW };

typedef struct hp_value {
    enum hp_type type;
    uint32_t kind;    /* of an object; else 0 */
    uint32_t count;   /* the number of its fields; else 0 */
    int64_t integer;  /* of an integer; else 0 */
    uint64_t special; /* of a special; else 0 */
    double real;      /* of a double that is a number; else 0 */
} hp_value;

#define HP_LEAST_INT (-((int64_t)1 << 61))
#define HP_MOST_INT (((int64_t)1 << 61) - 1)
#define HP_SPECIALS ((uint64_t)1 << 52)

/* A code is the number without its lowest bit. Bit 61 of a double's code is its sign, and bits 0 to 60 are those of the double. Bits 52 to 60 are 256
 * for no such double. A code with 256 there is a special if bit 61 is clear, and one of five other doubles if it is set. */
#define HP_CODE_SIGN ((uint64_t)1 << 61)
#define HP_CODE_RARE ((uint64_t)256 << 52)
enum { HP_RARE_NAN = 4 }; /* 0 and 1 are the zeros, 2 and 3 the infinities, odd the negative ones */

/* Returns the number of an integer from HP_LEAST_INT to HP_MOST_INT. */
static inline uint64_t hp_code_of_int(int64_t integer)
{
    return (uint64_t)integer << 1 & INT64_MAX;
}

/* Returns the number of a special. */
static inline uint64_t hp_code_of_special(uint64_t special)
{
    return (HP_CODE_RARE | special) << 1 | 1;
}

/* Writes the number of a double, and returns true. Returns false for one that needs a box. */
static inline bool hp_code_of_double(double real, uint64_t *number)
{
    uint64_t bits, rare = HP_RARE_NAN;
    uint32_t exponent;

    memcpy(&bits, &real, sizeof bits);
    exponent = (uint32_t)(bits >> 52) & 0x7ff;
    if (exponent > 0x300 && exponent < 0x500) {
        *number = (bits >> 63 << 61 | (bits & (HP_CODE_SIGN - 1))) << 1 | 1;
        return true;
    }
    if (bits << 1 != 0 && exponent != 0x7ff)
        return false;
    if (bits << 1 == 0)
        rare = bits >> 63;
    else if (bits << 12 == 0)
        rare = 2 + (bits >> 63);
    *number = (HP_CODE_SIGN | HP_CODE_RARE | rare) << 1 | 1;
    return true;
}

/* Returns the double with this code. */
static inline double hp_double_of(uint64_t code)
{
    const double rare[] = {0.0, -0.0, (double)INFINITY, -(double)INFINITY, (double)NAN};
    uint64_t bits = code >> 61 << 63 | (code & (HP_CODE_SIGN - 1));
    double real;

    if ((code >> 52 & 0x1ff) == 0x100)
        return rare[code & 7];
    bits |= code >> 60 & 1 ? (uint64_t)1 << 61 : (uint64_t)1 << 62;
    memcpy(&real, &bits, sizeof real);
    return real;
}

/* Returns the value that a number stands for. */
static inline hp_value hp_value_of(uint64_t number)
{
    hp_value value = {HP_INT, 0, 0, 0, 0, 0};
    uint64_t code = number >> 1;

    if ((number & 1) == 0) {
        value.integer = code >= HP_CODE_SIGN ? (int64_t)(code - HP_CODE_SIGN) + HP_LEAST_INT : (int64_t)code;
    } else if (code < HP_CODE_SIGN && (code >> 52 & 0x1ff) == 0x100) {
        value.type = HP_SPECIAL;
        value.special = code & (HP_SPECIALS - 1);
    } else {
        value.type = HP_DOUBLE;
        value.real = hp_double_of(code);
    }
    return value;
}

/* Returns the value that a call saw. An answer that tells no value goes to the hook. */
static inline hp_value hp_seen(hp *h, gcflip_seen seen, const char *call)
{
    hp_value value = {HP_NIL, 0, 0, 0, 0, 0};
    uint32_t answer = hp_answered(h, seen.answer, call);

    if (answer == GCFLIP_NUMBER)
        return hp_value_of(seen.number);
    if (answer != GCFLIP_NIL) {
        value.type = answer == GCFLIP_OBJECT ? HP_OBJECT : HP_RAW;
        value.kind = seen.kind;
        value.count = seen.count;
    }
    return value;
}

/* ---- Commands. d takes a value, s and t are read, and i is a field, counted from 0 */

/* Puts nil into d. */
static inline void hp_set_nil(hp *h, hp_root d)
{
    hp_answered(h, gcflip_set_nil(&h->heap, hp_operand(h, d, "hp_set_nil")), "hp_set_nil");
}

/* Puts an integer into d. One below HP_LEAST_INT or above HP_MOST_INT is out of range. */
static inline void hp_set_int(hp *h, hp_root d, int64_t integer)
{
    if (integer < HP_LEAST_INT || integer > HP_MOST_INT)
        hp_answered(h, GCFLIP_OUT_OF_RANGE, "hp_set_int");
    hp_answered(h, gcflip_set_number(&h->heap, hp_operand(h, d, "hp_set_int"), hp_code_of_int(integer)), "hp_set_int");
}

/* Puts a special into d. One of HP_SPECIALS or above is out of range. */
static inline void hp_set_special(hp *h, hp_root d, uint64_t special)
{
    if (special >= HP_SPECIALS)
        hp_answered(h, GCFLIP_OUT_OF_RANGE, "hp_set_special");
    hp_answered(h, gcflip_set_number(&h->heap, hp_operand(h, d, "hp_set_special"), hp_code_of_special(special)), "hp_set_special");
}

/* Copies the value of s into d. */
static inline void hp_copy(hp *h, hp_root d, hp_root s)
{
    hp_answered(h, gcflip_copy(&h->heap, hp_operand(h, d, "hp_copy"), hp_operand(h, s, "hp_copy")), "hp_copy");
}

/* Returns the value of s. */
static inline hp_value hp_look(hp *h, hp_root s)
{
    return hp_seen(h, gcflip_look_seen(&h->heap, hp_operand(h, s, "hp_look")), "hp_look");
}

/* Returns whether s refers to an object of this kind. */
static inline bool hp_is(hp *h, hp_root s, uint32_t kind)
{
    hp_value value = hp_look(h, s);

    return value.type >= HP_OBJECT && value.kind == kind;
}

/* Returns whether s and t hold nil, the same number, or references to one object. */
static inline bool hp_same(hp *h, hp_root s, hp_root t)
{
    return hp_answered(h, gcflip_same(&h->heap, hp_operand(h, s, "hp_same"), hp_operand(h, t, "hp_same")), "hp_same") == GCFLIP_SAME;
}

/* Copies field i of s into d. Both may be the layer's own registers. */
static inline void hp_load(hp *h, hp_root d, hp_root s, uint32_t i, const char *call)
{
    hp_answered(h, gcflip_get_seen(&h->heap, d, s, i).answer, call);
}

/* Copies field i of s into d. */
static inline void hp_get(hp *h, hp_root d, hp_root s, uint32_t i)
{
    hp_load(h, hp_operand(h, d, "hp_get"), hp_operand(h, s, "hp_get"), i, "hp_get");
}

/* Returns the value in field i of s, which is not raw. No root takes it. */
static inline hp_value hp_field(hp *h, hp_root s, uint32_t i)
{
    return hp_seen(h, gcflip_peek_seen(&h->heap, hp_operand(h, s, "hp_field"), i), "hp_field");
}

/* Gives the open collection up if a write was answered by GCFLIP_NO_MEMORY, because its log could not grow. Returns whether it did so: the write
 * then needs no memory. */
static inline bool hp_gave_up(hp *h, uint32_t answer)
{
    if (answer != GCFLIP_NO_MEMORY)
        return false;
    hp_answered(h, gcflip_heap_step_give_up(&h->heap), "hp_gave_up");
    return true;
}

/* Writes the value of t into field i of s. Both may be the layer's own registers. Does not fail for lack of memory. */
static inline void hp_store(hp *h, hp_root s, uint32_t i, hp_root t, const char *call)
{
    hp_answered(h, gcflip_put_sure(&h->heap, 0, s, i, t), call);
}

/* Writes the value of t into field i of s. Does not fail for lack of memory. */
static inline void hp_put(hp *h, hp_root s, uint32_t i, hp_root t)
{
    hp_store(h, hp_operand(h, s, "hp_put"), i, hp_operand(h, t, "hp_put"), "hp_put");
}

/* Writes a plain number below 2^63 into field i of s, which may be raw. Does not fail for lack of memory. */
static inline void hp_put_word(hp *h, hp_root s, uint32_t i, uint64_t word)
{
    uint32_t answer;

    do
        answer = gcflip_put_number(&h->heap, 0, hp_operand(h, s, "hp_put_word"), i, word);
    while (hp_gave_up(h, answer));
    hp_answered(h, answer, "hp_put_word");
}

/* Returns the plain number in field i of s, which is raw. */
static inline uint64_t hp_word(hp *h, hp_root s, uint32_t i)
{
    gcflip_seen seen = gcflip_peek_seen(&h->heap, hp_operand(h, s, "hp_word"), i);

    if (hp_answered(h, seen.answer, "hp_word") != GCFLIP_NUMBER)
        hp_answered(h, GCFLIP_NO_NUMBER, "hp_word");
    return seen.number;
}

/* Writes an integer into field i of s. One below HP_LEAST_INT or above HP_MOST_INT is out of range. */
static inline void hp_put_int(hp *h, hp_root s, uint32_t i, int64_t integer)
{
    if (integer < HP_LEAST_INT || integer > HP_MOST_INT)
        hp_answered(h, GCFLIP_OUT_OF_RANGE, "hp_put_int");
    hp_put_word(h, s, i, hp_code_of_int(integer));
}

/* Makes room for an object of this kind with `count` fields, and counts it. */
static inline void hp_pay(hp *h, uint32_t kind, uint32_t count, const char *call)
{
    if (kind > 255 || count > 65535)
        hp_answered(h, GCFLIP_OUT_OF_RANGE, call);
    hp_reserve(h, gcflip_words_of(count));
    h->credit -= gcflip_words_of(count);
    h->stats.objects++;
    h->stats.words += gcflip_words_of(count);
}

/* Makes an object with `count` fields, all nil, and puts a reference to it into d, which may be one of the layer's own registers. */
static inline void hp_make(hp *h, hp_root d, uint32_t kind, uint32_t count, const char *call)
{
    hp_pay(h, kind, count, call);
    hp_answered(h, gcflip_new(&h->heap, d, kind, count), call);
}

/* Makes an object with `count` fields, at most 65535, all nil, and puts a reference to it into d. */
static inline void hp_new(hp *h, hp_root d, uint32_t kind, uint32_t count)
{
    hp_make(h, hp_operand(h, d, "hp_new"), kind, count, "hp_new");
}

/* Makes a raw object with `count` fields, at most 65535, all 0, and puts a reference to it into d. */
static inline void hp_new_raw(hp *h, hp_root d, uint32_t kind, uint32_t count)
{
    hp_operand(h, d, "hp_new_raw");
    hp_pay(h, kind, count, "hp_new_raw");
    hp_answered(h, gcflip_new_raw(&h->heap, d, kind, count), "hp_new_raw");
}

/* Puts a double into d: a number, or a reference to a box of its low and its high half. */
static inline void hp_set_double(hp *h, hp_root d, double real)
{
    uint64_t bits, number;

    if (hp_code_of_double(real, &number)) {
        hp_answered(h, gcflip_set_number(&h->heap, hp_operand(h, d, "hp_set_double"), number), "hp_set_double");
        return;
    }
    memcpy(&bits, &real, sizeof bits);
    hp_new_raw(h, d, HP_KIND_BOX, 2);
    hp_put_word(h, d, 0, bits & UINT32_MAX);
    hp_put_word(h, d, 1, bits >> 32);
}

/* Returns the double in s. Another value is no number. */
static inline double hp_double(hp *h, hp_root s)
{
    hp_value value = hp_look(h, s);
    uint64_t bits;
    double real;

    if (value.type == HP_DOUBLE)
        return value.real;
    if (value.type != HP_RAW || value.kind != HP_KIND_BOX)
        hp_answered(h, GCFLIP_NO_NUMBER, "hp_double");
    bits = hp_word(h, s, 0) | hp_word(h, s, 1) << 32;
    memcpy(&real, &bits, sizeof real);
    return real;
}

/* ---- Texts of bytes, which gcflip_heap.h describes: raw objects of a kind of the program's choice, with at most GCFLIP_MOST_BYTES bytes. A value that is
 * no text is no object for these calls */

/* Returns the number of bytes of the text in s, for the call of this name. */
static inline uint32_t hp_count_bytes(hp *h, hp_root s, const char *call)
{
    uint32_t count = 0;

    hp_answered(h, gcflip_bytes_length(&h->heap, hp_operand(h, s, call), &count), call);
    return count;
}

/* Returns the number of bytes of the text in s. */
static inline uint32_t hp_bytes_length(hp *h, hp_root s)
{
    return hp_count_bytes(h, s, "hp_bytes_length");
}

/* Copies `count` bytes of the text in s to `bytes`, from byte `at` on. The text has at least at + count bytes. `bytes` may be NULL if `count` is 0. */
static inline void hp_bytes_read(hp *h, hp_root s, uint32_t at, void *bytes, size_t count)
{
    uint8_t none = 0, *to = count == 0 ? &none : (uint8_t *)bytes;

    hp_answered(h, gcflip_bytes_read(&h->heap, hp_operand(h, s, "hp_bytes_read"), at, to, count), "hp_bytes_read");
}

/* Returns whether the texts in s and t have the same bytes. */
static inline bool hp_bytes_same(hp *h, hp_root s, hp_root t)
{
    return hp_answered(h, gcflip_bytes_same(&h->heap, hp_operand(h, s, "hp_bytes_same"), hp_operand(h, t, "hp_bytes_same")), "hp_bytes_same") == GCFLIP_SAME;
}

/* Returns the order of the texts in s and t: -1, 0 or 1. The first byte in which they differ decides, as an unsigned number. If one text is the
 * beginning of the other, the shorter one is first. */
static inline int hp_bytes_compare(hp *h, hp_root s, hp_root t)
{
    int32_t order = 0;

    hp_answered(h, gcflip_bytes_compare(&h->heap, hp_operand(h, s, "hp_bytes_compare"), hp_operand(h, t, "hp_bytes_compare"), &order), "hp_bytes_compare");
    return order;
}

/* Returns a hash of the bytes of the text in s. It depends on the seed, and on nothing else: texts with the same bytes have the same hash. */
static inline uint64_t hp_bytes_hash(hp *h, hp_root s, uint64_t seed)
{
    uint32_t length = hp_count_bytes(h, s, "hp_bytes_hash"), at, i, some;
    uint64_t hash = (seed ^ length) * 0x9e3779b97f4a7c15u, word;
    uint8_t bytes[256];

    for (at = 0; at < length; at += some) {
        some = length - at < sizeof bytes ? length - at : (uint32_t)sizeof bytes;
        hp_answered(h, gcflip_bytes_read(&h->heap, s, at, bytes, some), "hp_bytes_hash");
        for (i = 0; i < some; i += 8) {
            word = 0;
            memcpy(&word, bytes + i, some - i < 8 ? some - i : 8);
            hash = (hash ^ word) * 0x9e3779b97f4a7c15u;
            hash ^= hash >> 32;
        }
    }
    return hash;
}

/* Makes room for a text of `count` bytes, and counts it. */
static inline void hp_pay_bytes(hp *h, uint32_t kind, size_t count, const char *call)
{
    if (count > GCFLIP_MOST_BYTES)
        hp_answered(h, GCFLIP_OUT_OF_RANGE, call);
    hp_pay(h, kind, ((uint32_t)count + 6) / 7, call);
}

/* Makes a text of `count` bytes, and puts a reference to it into d. More than GCFLIP_MOST_BYTES bytes are out of range. `bytes` may be NULL if `count`
 * is 0. */
static inline void hp_new_bytes(hp *h, hp_root d, uint32_t kind, const void *bytes, size_t count)
{
    const uint8_t none = 0, *from = count == 0 ? &none : (const uint8_t *)bytes;
    uint32_t answer;

    hp_operand(h, d, "hp_new_bytes");
    hp_pay_bytes(h, kind, count, "hp_new_bytes");
    do
        answer = gcflip_new_bytes(&h->heap, 0, d, kind, from, count);
    while (hp_gave_up(h, answer));
    hp_answered(h, answer, "hp_new_bytes");
}

/* Makes a text with the bytes of the texts in s and t, in this order, and puts a reference to it into d. Root d may be s or t. No byte leaves the heap.
 * More than GCFLIP_MOST_BYTES bytes are out of range. */
static inline void hp_bytes_join(hp *h, hp_root d, uint32_t kind, hp_root s, hp_root t)
{
    uint32_t count = hp_count_bytes(h, s, "hp_bytes_join") + hp_count_bytes(h, t, "hp_bytes_join"), answer;

    hp_operand(h, d, "hp_bytes_join");
    hp_pay_bytes(h, kind, count, "hp_bytes_join");
    do
        answer = gcflip_bytes_join(&h->heap, 0, d, kind, s, t);
    while (hp_gave_up(h, answer));
    hp_answered(h, answer, "hp_bytes_join");
}

/* Makes a text with `count` bytes of the text in s, from byte `at` on, and puts a reference to it into d. Root d may be s. No byte leaves the heap. The
 * text in s has at least at + count bytes. */
static inline void hp_bytes_part(hp *h, hp_root d, uint32_t kind, hp_root s, uint32_t at, uint32_t count)
{
    uint32_t length = hp_count_bytes(h, s, "hp_bytes_part"), answer;

    hp_operand(h, d, "hp_bytes_part");
    if (at > length || count > length - at)
        hp_answered(h, GCFLIP_NO_FIELD, "hp_bytes_part");
    hp_pay_bytes(h, kind, count, "hp_bytes_part");
    do
        answer = gcflip_bytes_part(&h->heap, 0, d, kind, s, at, count);
    while (hp_gave_up(h, answer));
    hp_answered(h, answer, "hp_bytes_part");
}

/* ---- Weak handles, and tokens for finalizers
 *
 * A weak handle does not keep its object alive. Once the object died, the handle gives nothing, and the layer tells the program the handle's token. So
 * a finalizer gets what the program needs to clean up, and never the object. Handles follow their objects over each flip that a call of this layer
 * makes. A program that has handles and flips by other calls calls hp_follow after each flip, before the next collection begins. A flip takes constant
 * time for each handle (43 instructions by gcc 12 with -O2), and no other call takes longer because there are handles. */

/* A weak handle: a number from 1 to HP_MOST_INT, so that a field can hold it as an integer. No two handles of a heap are the same. */
typedef uint64_t hp_weak;

enum { HP_WEAK_ROOM = 16 };
#define HP_MOST_USES (((uint32_t)1 << 29) - 1)
#define HP_MOST_WEAK ((uint32_t)1 << 31)

/* Makes room for more handles. */
static inline void hp_weak_grow(hp *h)
{
    hp_weak_table *table = &h->weak;
    size_t room = table->room == 0 ? (size_t)HP_WEAK_ROOM : 2 * (size_t)table->room, bytes = room * sizeof(hp_weak_entry);
    struct gcflip_memory memory = {false, NULL};

    if (table->room == 0)
        memory = rattle_alloc(bytes, sizeof(uint64_t));
    else if (table->room < HP_MOST_WEAK)
        memory = rattle_realloc(table->entries, table->count * sizeof(hp_weak_entry), bytes, sizeof(uint64_t));
    if (!memory.ok)
        hp_answered(h, GCFLIP_NO_MEMORY, "hp_weak_new");
    table->entries = (hp_weak_entry *)memory.at;
    table->room = (uint32_t)room;
}

/* Puts an entry into the list of unused ones, unless it had as many handles as it can have. */
static inline void hp_weak_recycle(hp *h, hp_weak_entry *entry)
{
    entry->state = HP_WEAK_UNUSED;
    if (entry->uses < HP_MOST_USES) {
        entry->next = h->weak.unused;
        h->weak.unused = (uint32_t)(entry - h->weak.entries) + 1;
    }
}

/* Takes an unused entry, or one more. */
static inline hp_weak_entry *hp_weak_take(hp *h)
{
    hp_weak_table *table = &h->weak;
    hp_weak_entry *entry;

    if (table->unused != 0) {
        entry = &table->entries[table->unused - 1];
        table->unused = entry->next;
        return entry;
    }
    if (table->count == table->room)
        hp_weak_grow(h);
    entry = &table->entries[table->count++];
    entry->uses = 0;
    return entry;
}

/* Returns a weak handle of the object in s, with a token of the program's choice. It allocates if the table of handles is full. */
static inline hp_weak hp_weak_new(hp *h, hp_root s, uint64_t token)
{
    hp_weak_entry *entry;
    uint32_t address = 0;

    hp_follow(h);
    hp_answered(h, gcflip_address(&h->heap, hp_operand(h, s, "hp_weak_new"), &address), "hp_weak_new");
    entry = hp_weak_take(h);
    entry->state = HP_WEAK_ALIVE;
    entry->token = token;
    entry->address = address;
    entry->uses++;
    h->weak.alive++;
    return (hp_weak)entry->uses << 32 | (hp_weak)(entry - h->weak.entries);
}

/* Returns the entry of a handle, or NULL if the handle was freed. A number that is no handle is out of range. */
static inline hp_weak_entry *hp_weak_find(hp *h, hp_weak weak, const char *call)
{
    uint32_t i = (uint32_t)weak;
    uint64_t use = weak >> 32;
    hp_weak_entry *entry;

    if (i >= h->weak.count || use == 0 || use > h->weak.entries[i].uses)
        hp_answered(h, GCFLIP_OUT_OF_RANGE, call);
    entry = &h->weak.entries[i];
    return use == entry->uses && (entry->state == HP_WEAK_ALIVE || entry->state == HP_WEAK_DEAD) ? entry : NULL;
}

/* Puts a reference to the object of a handle into d, and returns true. Returns false if the object died or the handle was freed; d then keeps its value.
 * The object of a handle lives until a flip finds that no root reaches it; d is a root. A program that makes this call gives up two claims, as one
 * that calls gcflip_refer: docs/TRUST.md says which. */
static inline bool hp_weak_get(hp *h, hp_root d, hp_weak weak)
{
    hp_weak_entry *entry;

    hp_operand(h, d, "hp_weak_get");
    hp_follow(h);
    entry = hp_weak_find(h, weak, "hp_weak_get");
    if (entry == NULL || entry->state == HP_WEAK_DEAD)
        return false;
    hp_answered(h, gcflip_refer(&h->heap, d, entry->address), "hp_weak_get");
    return true;
}

/* Frees a handle, whose token is not told any more. Does nothing if it was freed before. */
static inline void hp_weak_free(hp *h, hp_weak weak)
{
    hp_weak_entry *entry = hp_weak_find(h, weak, "hp_weak_free");

    if (entry == NULL)
        return;
    if (entry->state == HP_WEAK_ALIVE) {
        h->weak.alive--;
        hp_weak_recycle(h, entry);
    } else
        entry->state = HP_WEAK_FREED;
}

/* Writes the token of a handle whose object died, frees the handle, and returns true. Returns false if there is none. */
static inline bool hp_weak_next_dead(hp *h, uint64_t *token)
{
    hp_follow(h);
    while (h->weak.dead != 0) {
        hp_weak_entry *entry = &h->weak.entries[h->weak.dead - 1];
        bool is_told = entry->state == HP_WEAK_DEAD;

        h->weak.dead = entry->next;
        hp_weak_recycle(h, entry);
        if (is_told) {
            *token = entry->token;
            return true;
        }
    }
    return false;
}

/* ---- Kinds, and a walk over the heap */

/* Describes kinds 0 to count - 1. The table stays the program's. */
static inline void hp_describe_kinds(hp *h, const hp_kind *kinds, uint32_t count)
{
    h->kinds = kinds;
    h->kind_count = count;
}

/* Returns the description of a kind, or NULL if it has none. The layer's own kinds are "spine", "part" and "box". */
static inline const hp_kind *hp_kind_of(const hp *h, uint32_t kind)
{
    static const hp_kind own[] = {{"spine", HP_ANY_FIELDS, 0}, {"part", HP_ANY_FIELDS, 0}, {"box", 2, 0}};

    if (kind < h->kind_count)
        return &h->kinds[kind];
    return kind >= HP_KIND_SPINE && kind <= HP_KIND_BOX ? &own[kind - HP_KIND_SPINE] : NULL;
}

/* Returns the name of a kind, or "" if it has none. */
static inline const char *hp_kind_name(const hp *h, uint32_t kind)
{
    const hp_kind *found = hp_kind_of(h, kind);

    return found != NULL && found->name != NULL ? found->name : "";
}

typedef struct hp_object {
    uint32_t address; /* 0 before the first object */
    hp_value value;   /* what a look at a reference to it sees */
} hp_object;

/* Returns whether an object has the fields that the description of its kind says: so many, with a number in each that holds one. A field that was not
 * written yet holds nil, which is no number. An object of a kind without a description fits. */
static inline bool hp_object_fits(const hp *h, const hp_object *object)
{
    const hp_kind *kind = hp_kind_of(h, object->value.kind);
    uint32_t i;

    if (kind == NULL)
        return true;
    if (kind->fields != HP_ANY_FIELDS && kind->fields != object->value.count)
        return false;
    for (i = 0; i < 64 && i < object->value.count; i++)
        if ((kind->numbers >> i & 1) != 0 && gcflip_field_at_seen(&h->heap, object->address, i).answer != GCFLIP_NUMBER)
            return false;
    return true;
}

/* Returns whether s refers to an object of this kind that fits it. */
static inline bool hp_fits(hp *h, hp_root s, uint32_t kind)
{
    hp_object object = {0, hp_look(h, s)};

    if (object.value.type < HP_OBJECT || object.value.kind != kind)
        return false;
    hp_answered(h, gcflip_address(&h->heap, hp_operand(h, s, "hp_fits"), &object.address), "hp_fits");
    return hp_object_fits(h, &object);
}

/* Moves on to the next object of the heap, and returns true. Returns false behind the last one. A walk begins with address 0, and ends before the next
 * object is made or the collector works. It also meets objects that no root reaches. */
static inline bool hp_next(hp *h, hp_object *object)
{
    uint32_t address = object->address == 0 ? 1 : object->address + object->value.count + 2;
    gcflip_seen seen = gcflip_object_at_seen(&h->heap, address);

    if (seen.answer == GCFLIP_NIL)
        return false;
    object->address = address;
    object->value = hp_seen(h, seen, "hp_next");
    return true;
}

#endif
