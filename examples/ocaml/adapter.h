/* What both adapters for OCaml share: minor collections and compaction. */
#ifndef ADAPTER_H
#define ADAPTER_H

#define CAML_INTERNALS
#define CAML_NAME_SPACE
#include <caml/address_class.h>
#include <caml/alloc.h>
#include <caml/compact.h>
#include <caml/globroots.h>
#include <caml/major_gc.h>
#include <caml/memory.h>
#include <caml/minor_gc.h>
#include <caml/misc.h>
#include <caml/mlvalues.h>
#include <caml/roots.h>
#include <caml/weak.h>
#include "../adapter_kit.h"

/* Faults that a switch plants. */
enum fault { NO_FAULT, BIT_FLIPPED, ROOT_MISSED, SLOT_NOT_REMEMBERED, NO_BARRIER, BIT_AFTER_COMPACTION, WEAK_CLEARED, OFFSET_LOST, FINALISED_MISSED, LAST_MISSED };

/* Pairs by kind. */
enum counted { BLOCKS, CLOSURES, INFIX, LAZY, STRINGS, DOUBLES, DOUBLE_ARRAYS, CUSTOM, ABSTRACT, WEAK, WEAK_INFIX, FINALISED, LAST, COUNTED };

/* A place that holds a value: a root, or a field of an old object. */
struct place {
    value *at;
    value before;
    uint32_t offset; /* of a weak pointer into a block of closures, or 0 */
    char what; /* 'r' a root, 'f' a field that the remembered set lacks, 'F' one that it has, 'w' weak, 'o' the offset of a weak one, 'v' the value
                  of a finaliser */
};

struct object {
    value real;
    value now; /* where it went, or 0 */
    header_t header;
    uint32_t place;
    uint32_t new_place; /* of the copy, while the snapshot after is written */
};

/* A pointer into a block of closures. */
struct inner {
    value start;
    value now; /* where that pointer is, or 0 */
    uint32_t offset;
};

extern gcflip_collection *adapter_collection;
extern enum fault adapter_fault;
extern uint64_t adapter_pairs[COUNTED];

/* What was found before the collection. */
extern struct place *adapter_places;
extern size_t adapter_place_count;
extern struct object *adapter_objects;
extern size_t adapter_object_count;

void adapter_forget(void);
void adapter_add_place(value *at, char what);

/* Places an object before the collection by this function, unless it has its place. */
uint32_t adapter_found(value block, uint32_t (*placed)(gcflip_snapshot *snapshot, value block, header_t header));

/* Places a block. Its header may be wrong, so it has at most `most` words. Its fields are for write_fields. */
uint32_t adapter_place(gcflip_snapshot *snapshot, value block, header_t header, mlsize_t most);

/* Sets the fields of a block; `word` says what each value becomes. */
void adapter_write_fields(gcflip_snapshot *snapshot, uint32_t place, value block, header_t header, mlsize_t most, gcflip_word_of word);

/* Counts a pair by the kind of its block. */
void adapter_count(header_t header);

/* Prints a refusal, and ends the program with status 3. */
void adapter_refused(void);

#endif
