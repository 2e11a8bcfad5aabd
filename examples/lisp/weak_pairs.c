/* Pairs that do not keep their first element alive.
 *
 * A weak pair is an object of the heap. C has its address and that of its first element, and follows both after each flip. `weak-car` makes a
 * reference of the address again, unless the element died. Integers and the empty list have no address and do not die, so the pair itself has
 * such an element in a field. */
#include "weak_pairs.h"
#include "errors.h"
#include "heap.h"
#include "objects.h"
#include "primitives.h"
#include <stdlib.h>

/* A record's number counts from 1. The field is empty if the first element has no address. */
enum { WEAK_RECORD, WEAK_FIRST, WEAK_REST, WEAK_FIELDS };

/* What C knows of a weak pair. */
struct record {
    uint32_t address; /* of the pair, or 0 if no pair has this record */
    uint32_t first;   /* of its first element, or 0 if that died */
    uint32_t next;    /* the number of the next record without a pair, or 0 */
};

static struct record *records;
static uint32_t record_count;
static uint32_t first_free; /* the number of a record without a pair, or 0 */

static struct record *record_of(uint64_t number)
{
    return &records[number - 1];
}

/* ---- After a flip */

static void free_record(struct record *record)
{
    *record = (struct record){.next = first_free};
    first_free = (uint32_t)(record - records) + 1;
}

static void follow_all(void)
{
    for (struct record *record = records; record < records + record_count; record++) {
        if (record->address == 0)
            continue;
        if (!follow(&record->address))
            free_record(record);
        else if (record->first != 0 && !follow(&record->first))
            record->first = 0;
    }
}

void follow_weak_pairs(void)
{
    after_each_flip(follow_all);
}

/* ---- The functions on weak pairs */

static void make_records(void)
{
    uint32_t room = 2 * record_count + 8;
    struct record *more = realloc(records, room * sizeof *records);
    if (more == NULL)
        fail("out of memory: the system has none for a weak pair");
    records = more;
    while (record_count < room)
        free_record(&records[record_count++]);
}

/* Returns the number of a record without a pair. */
static uint32_t new_record(void)
{
    if (first_free == 0)
        make_records();
    uint32_t number = first_free;
    first_free = record_of(number)->next;
    return number;
}

/* (weak-cons FIRST REST) */
static enum next do_cons(void)
{
    enum type type = argument(A, 0);
    argument(B, 1);
    make(C, WEAK_PAIR, WEAK_FIELDS);
    put(C, WEAK_REST, B);
    if (type == EMPTY || type == INTEGER) {
        put(C, WEAK_FIRST, A);
    } else {
        uint32_t number = new_record();
        put_word(C, WEAK_RECORD, number);
        *record_of(number) = (struct record){.address = address_of(C), .first = address_of(A)};
    }
    return return_slot(C);
}

/* Puts the argument into slot A. */
static void pair_argument(void)
{
    typed_argument(A, 0, WEAK_PAIR, "a weak pair");
}

/* Returns the first element, or #f if it died. */
static enum next do_first(void)
{
    pair_argument();
    uint64_t number = get_word(A, WEAK_RECORD);
    if (number == 0)
        get(B, A, WEAK_FIRST);
    else if (record_of(number)->first == 0)
        set_boolean(B, false);
    else
        refer(B, record_of(number)->first);
    return return_slot(B);
}

/* Returns whether the first element lives. It is not fetched: whoever fetches an element again and again may keep it alive. */
static enum next do_has_first(void)
{
    pair_argument();
    uint64_t number = get_word(A, WEAK_RECORD);
    return return_boolean(number == 0 || record_of(number)->first != 0);
}

static enum next do_rest(void)
{
    pair_argument();
    get(B, A, WEAK_REST);
    return return_slot(B);
}

static enum next do_is_weak_pair(void)
{
    return return_boolean(argument(A, 0) == WEAK_PAIR);
}

const struct primitive weak_pair_primitives[] = {
    {"weak-cons", 2, 2, do_cons},
    {"weak-car", 1, 1, do_first},
    {"weak-pair/car?", 1, 1, do_has_first},
    {"weak-cdr", 1, 1, do_rest},
    {"weak-pair?", 1, 1, do_is_weak_pair},
    {NULL, 0, 0, NULL},
};
