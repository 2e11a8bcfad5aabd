/* Commands on slots by their numbers, which are deprecated: gcflip_heap.h has the same commands on roots by their places, which know all roots. These
 * calls go with version 0.3. Until then gcflip_heap.h includes this header, and they are proved as the others are. A program may define
 * GCFLIP_WARN_OF_SLOTS before it includes a header. Then GCC or Clang tells where it makes them, and which call takes their place.
 *
 * The place of mutator m's own slot k, which is below 16, is 16 + 16 * m + k. That of the shared slot 16 + k is k.
 */
#ifndef GCFLIP_SLOTS_H
#define GCFLIP_SLOTS_H

#include "gcflip_heap.h"

#ifdef __cplusplus
extern "C" {
#endif

/* ---- Commands of mutator m, which is below the number of mutators
 *
 * A slot d, s or t below 16 is the mutator's own. From 16 to 31 it is one that all mutators share. Slots are the
 * roots. A kind is 0 to 255, fields are counted from 0, and a number is below 2^63. */

/* Makes an object with `count` fields, all nil, and puts a reference to it into slot d: GCFLIP_MADE or GCFLIP_FULL. The
 * object takes count + 2 words. */
uint32_t gcflip_heap_new_object(gcflip_heap *heap, uint8_t m, uint8_t d, uint8_t kind, uint16_t count);

/* Makes a raw object with `count` fields, and puts a reference to it into slot d: GCFLIP_MADE or GCFLIP_FULL. Its fields are plain numbers,
 * all 0, and are never scanned. */
uint32_t gcflip_heap_new_raw(gcflip_heap *heap, uint8_t m, uint8_t d, uint8_t kind, uint16_t count);

/* Puts the number n into slot d: GCFLIP_DONE. */
uint32_t gcflip_heap_set_number(gcflip_heap *heap, uint8_t m, uint8_t d, uint64_t n);

/* Puts nil into slot d: GCFLIP_DONE. */
uint32_t gcflip_heap_set_nil(gcflip_heap *heap, uint8_t m, uint8_t d);

/* Copies the value of slot s into slot d: GCFLIP_DONE. */
uint32_t gcflip_heap_move(gcflip_heap *heap, uint8_t m, uint8_t d, uint8_t s);

/* Reads field i of the object that slot s refers to into slot d. Returns what it saw, GCFLIP_NIL, GCFLIP_NUMBER or GCFLIP_OBJECT, or else
 * GCFLIP_NO_OBJECT or GCFLIP_NO_FIELD. Writes `number` only if it saw a number. */
uint32_t gcflip_heap_get(gcflip_heap *heap, uint8_t m, uint8_t d, uint8_t s, uint16_t i, uint64_t *number);

/* Writes the value of slot t into field i of the object that slot s refers to: GCFLIP_DONE, GCFLIP_NO_OBJECT,
 * GCFLIP_NO_FIELD or GCFLIP_NO_NUMBER. While a collection is open, the call allocates room in the mutator's log. */
uint32_t gcflip_heap_put(gcflip_heap *heap, uint8_t m, uint8_t s, uint16_t i, uint8_t t);

/* Puts the number n into slot t, and then into field i of the object that slot s refers to, as set_number and put do. Returns the reply to
 * the put: GCFLIP_DONE, GCFLIP_NO_OBJECT or GCFLIP_NO_FIELD. Slot t then has the number; if the call is refused, neither happened. */
uint32_t gcflip_heap_put_number(gcflip_heap *heap, uint8_t m, uint8_t s, uint16_t i, uint8_t t, uint64_t n);

/* Puts nil into slot t, and then writes it into field i of the object that slot s refers to, as set_nil and put do. Returns the reply to
 * the put: GCFLIP_DONE, GCFLIP_NO_OBJECT, GCFLIP_NO_FIELD, or GCFLIP_NO_NUMBER if the object is raw. Slot t then has nil; if the call is
 * refused, neither happened. */
uint32_t gcflip_heap_put_nil(gcflip_heap *heap, uint8_t m, uint8_t s, uint16_t i, uint8_t t);

/* Copies `count` fields of the object that slot s refers to, from field `from` on. They go to field `to` and on of the object that slot d
 * refers to. For each field this is a get into slot t and a put of slot t, in rising order. Returns GCFLIP_DONE, or else writes nothing:
 * GCFLIP_NO_OBJECT, GCFLIP_NO_FIELD, or GCFLIP_NO_NUMBER. GCFLIP_OUT_OF_RANGE also if t is slot d or s. */
uint32_t gcflip_heap_copy_fields(gcflip_heap *heap, uint8_t m, uint8_t d, uint16_t to, uint8_t s, uint16_t from, uint8_t t, uint16_t count);

/* Makes an object with two fields, which take the values of slots s and t, and puts a reference to it into slot d. This is a new_object
 * and two puts: GCFLIP_MADE, or GCFLIP_FULL if nothing changed. Slot d is set first: if s or t is d, that field refers to the object
 * itself. */
uint32_t gcflip_heap_new_pair(gcflip_heap *heap, uint8_t m, uint8_t d, uint8_t kind, uint8_t s, uint8_t t);

/* Makes an object with `count` fields, at most 65535, which take the values of the slots fields[0] to fields[count - 1]: GCFLIP_MADE or
 * GCFLIP_FULL. Otherwise this is new_pair. */
uint32_t gcflip_heap_new_from(gcflip_heap *heap, uint8_t m, uint8_t d, uint8_t kind, const uint8_t *fields, size_t count);

/* Makes an object with `count` fields, at most 65535, which take what fields[0] to fields[count - 1] say: GCFLIP_MADE or GCFLIP_FULL. This
 * is a new_object into slot d and then, in order, a put_number through slot t for each number, and a put for each slot.
 * GCFLIP_OUT_OF_RANGE also if t and d are one slot. */
uint32_t gcflip_heap_new_with(gcflip_heap *heap, uint8_t m, uint8_t d, uint8_t kind, uint8_t t, const gcflip_field *fields, size_t count);

/* Compares the values of slots s and t: GCFLIP_SAME or GCFLIP_NOT_SAME. */
uint32_t gcflip_heap_same(const gcflip_heap *heap, uint8_t m, uint8_t s, uint8_t t);

/* Looks at the value of slot s: GCFLIP_NIL, GCFLIP_NUMBER, GCFLIP_OBJECT or GCFLIP_RAW_OBJECT. Writes what it saw to `view`. */
uint32_t gcflip_heap_look(const gcflip_heap *heap, uint8_t m, uint8_t s, gcflip_view *view);

/* ---- Slots and extra roots */

/* Copies the value of extra root k into slot d: GCFLIP_DONE. */
uint32_t gcflip_heap_root_load(gcflip_heap *heap, uint8_t m, uint8_t d, uint32_t k);

/* Copies the value of slot s into extra root k: GCFLIP_DONE. */
uint32_t gcflip_heap_root_store(gcflip_heap *heap, uint8_t m, uint32_t k, uint8_t s);

/* ---- Slots and raw objects */

/* Copies the numbers in `count` fields of the raw object that slot s refers to, from field `first` on, into `words`. Returns GCFLIP_DONE,
 * or else writes nothing: GCFLIP_NO_OBJECT if the slot refers to no raw object, or GCFLIP_NO_FIELD if the object has fewer fields. */
uint32_t gcflip_heap_raw_read(const gcflip_heap *heap, uint8_t m, uint8_t s, uint16_t first, uint64_t *words, size_t count);

/* Copies `count` numbers into the fields of the raw object that slot s refers to, from field `first` on. For each number this is a set_number
 * of slot t and a put of slot t. Returns GCFLIP_DONE, or else writes nothing. GCFLIP_NO_OBJECT and GCFLIP_NO_FIELD are those of
 * raw_read, and GCFLIP_NO_NUMBER says that a word is 2^63 or more. GCFLIP_OUT_OF_RANGE also if s and t are one slot. */
uint32_t gcflip_heap_raw_write(gcflip_heap *heap, uint8_t m, uint8_t s, uint16_t first, uint8_t t, const uint64_t *words, size_t count);

/* ---- Slots and addresses */

/* Writes the address of the object that slot s refers to, as gcflip_address does: GCFLIP_DONE or GCFLIP_NO_OBJECT. */
uint32_t gcflip_heap_address(const gcflip_heap *heap, uint8_t m, uint8_t s, uint32_t *address);

/* Does what gcflip_moved does: GCFLIP_DONE, GCFLIP_NO_OBJECT or GCFLIP_OUT_OF_RANGE. */
uint32_t gcflip_heap_moved(const gcflip_heap *heap, uint32_t old, uint32_t *address);

/* Puts a reference to the object that starts at `address` into slot d, as gcflip_refer does: GCFLIP_DONE or GCFLIP_NO_OBJECT. */
uint32_t gcflip_heap_refer(gcflip_heap *heap, uint8_t m, uint8_t d, uint32_t address);

/* ---- What takes their place */

#if defined(GCFLIP_WARN_OF_SLOTS) && defined(__GNUC__)
#define GCFLIP_OLD(old, new_one) extern __typeof__(old) old __attribute__((deprecated(#new_one " takes its place")))
GCFLIP_OLD(gcflip_heap_new_object, gcflip_new);
GCFLIP_OLD(gcflip_heap_new_raw, gcflip_new_raw);
GCFLIP_OLD(gcflip_heap_set_number, gcflip_set_number);
GCFLIP_OLD(gcflip_heap_set_nil, gcflip_set_nil);
GCFLIP_OLD(gcflip_heap_move, gcflip_copy);
GCFLIP_OLD(gcflip_heap_get, gcflip_get);
GCFLIP_OLD(gcflip_heap_put, gcflip_put);
GCFLIP_OLD(gcflip_heap_put_number, gcflip_put_number);
GCFLIP_OLD(gcflip_heap_put_nil, gcflip_put_nil);
GCFLIP_OLD(gcflip_heap_copy_fields, gcflip_copy_fields);
GCFLIP_OLD(gcflip_heap_new_pair, gcflip_new_pair);
GCFLIP_OLD(gcflip_heap_new_from, gcflip_new_from);
GCFLIP_OLD(gcflip_heap_new_with, gcflip_new_with);
GCFLIP_OLD(gcflip_heap_same, gcflip_same);
GCFLIP_OLD(gcflip_heap_look, gcflip_look);
GCFLIP_OLD(gcflip_heap_root_load, gcflip_copy);
GCFLIP_OLD(gcflip_heap_root_store, gcflip_copy);
GCFLIP_OLD(gcflip_heap_raw_read, gcflip_raw_read);
GCFLIP_OLD(gcflip_heap_raw_write, gcflip_raw_write);
GCFLIP_OLD(gcflip_heap_address, gcflip_address);
GCFLIP_OLD(gcflip_heap_moved, gcflip_moved);
GCFLIP_OLD(gcflip_heap_refer, gcflip_refer);
#undef GCFLIP_OLD
#endif

#ifdef __cplusplus
}
#endif

#endif
