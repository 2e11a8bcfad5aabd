/* A heap of entries and texts, and an unproved collector for it. */
#ifndef HEAP_H
#define HEAP_H

#include <stdbool.h>
#include <stdint.h>

/* An odd value is nil or the address of an object plus 1. An even value is twice a whole number. */
typedef uint64_t value;

enum { NIL = 1 };

enum kind { ENTRY, TEXT };

/* The fields of an entry. A text has bytes instead of fields: a string with its zero byte, padded to whole words. */
enum field { NAME, NUMBER, NEXT, PREVIOUS, FIELDS };

enum root { COUNT, FIRST, LAST, ROOTS };

struct object {
    uint32_t kind;
    uint32_t length;     /* the words after the link */
    struct object *link; /* NULL; during a collection, an original's replica and a replica's original */
    value fields[];
};

/* Objects lie back to back from word 1 to word `end`. Word 0 is not used. */
struct space {
    uint64_t *words;
    uint32_t size;
    uint32_t end;
};

struct heap {
    struct space space;
    value roots[ROOTS];
};

enum bug { NO_BUG, FIELD_NOT_FORWARDED, OBJECT_COPIED_TWICE, ROOT_FORGOTTEN, LENGTH_ONE_SHORT };

static inline bool is_reference(value value)
{
    return value % 2 == 1 && value != NIL;
}

static inline struct object *object_of(value value)
{
    return (struct object *)(uintptr_t)(value - 1);
}

static inline value reference_to(const struct object *object)
{
    return (uintptr_t)object + 1;
}

static inline struct object *object_at(const struct space *space, uint32_t at)
{
    return (struct object *)(space->words + at);
}

static inline uint32_t words_of(const struct object *object)
{
    return 2 + object->length;
}

/* Allocates zeroed memory. Ends the program if that fails. */
void *memory(uint64_t count, uint64_t bytes);

struct space new_space(uint32_t size);

/* Makes an object whose fields are nil. Ends the program if the space has no room for it. */
struct object *new_object(struct space *space, enum kind kind, uint32_t length);

/* Copies the objects that the roots reach to a new space. If `accepts` returns true, the heap moves to the new space, and the old one is
 * freed. Otherwise the heap stays as it is. Returns what `accepts` returned. */
bool collect(struct heap *heap, enum bug bug, bool (*accepts)(const struct heap *old, const struct heap *new));

#endif
