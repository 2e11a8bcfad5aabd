/* The collector of the toy runtime: Cheney's, with weak arrays. It writes the reference to a copy over the header of the original. */
#include "heap.h"
#include <stdio.h>
#include <stdlib.h>
#include <string.h>

static word *from, *from_end; /* the old space */
static word *next;            /* the first free word of the new one */

/* The reference that was moved last, and what it became: programs often store one twice in a row. */
static struct {
    value old, copy;
} last;

static bool is_in_old_space(value value) { return tag_of(value) == REFERENCE && from <= object_of(value) && object_of(value) < from_end; }

/* Copies an object, and returns the reference to the copy. */
static value copied(word *object)
{
    word header = object[0];
    size_t words = words_of(header);
    memcpy(next, object, words * sizeof *next);
    value copy = reference_to(next);
    next += words;
    object[0] = copy;
    return copy;
}

/* Returns what a reference into the old space becomes. */
static value moved(value reference)
{
    if (reference == last.old)
        return last.copy;
    word *object = object_of(reference);
    last.copy = tag_of(object[0]) == REFERENCE ? object[0] : copied(object);
    last.old = reference;
    return last.copy;
}

static void update(value *values, size_t count)
{
    for (size_t i = 0; i < count; i++)
        if (is_in_old_space(values[i]))
            values[i] = moved(values[i]);
}

/* Updates the elements of a weak array. One whose object was not copied becomes nil. */
static void update_weak(word *object)
{
    for (size_t i = 1; i <= length_of(object[0]); i++)
        if (is_in_old_space(object[i])) {
            word header = object_of(object[i])[0];
            object[i] = tag_of(header) == REFERENCE ? header : NIL;
        }
}

/* Updates what an object of the new space refers to. Weak arrays wait until all that lives has been copied. */
static void scan(word *object)
{
    switch (type_of(object[0])) {
    case RECORD:
        update(object + 1, heap.shapes[shape_of(object[0])].references);
        break;
    case ARRAY:
        update(object + 1, length_of(object[0]));
        break;
    case WEAK_ARRAY:
    case BYTES:
        break;
    }
}

static void update_roots(void)
{
    update(heap.stack, heap.top);
    for (size_t i = 0; i < heap.global_count; i++)
        update(&heap.globals[i].value, 1);
}

void collect(size_t words)
{
    word *space = calloc(words, sizeof *space);
    if (space == NULL) {
        fprintf(stderr, "toy: no memory\n");
        exit(2);
    }
    from = heap.space;
    from_end = heap.next;
    next = space;
    last.old = last.copy = NIL;
    update_roots();
    for (word *object = space; object < next; object += words_of(object[0]))
        scan(object);
    for (word *object = space; object < next; object += words_of(object[0]))
        if (type_of(object[0]) == WEAK_ARRAY)
            update_weak(object);
    free(heap.space);
    heap.space = space;
    heap.next = next;
    heap.end = space + words;
    heap.collections++;
}
