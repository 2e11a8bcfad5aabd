/* Cheney's collector. It copies objects from the old space to a new one, breadth first. The scan pointer walks over the
 * new space. After it, fields of replicas still refer to originals.
 *
 * The old space stays whole. An original's forwarding address is in its link, and overwrites neither its header nor its
 * fields. */
#include "heap.h"
#include <stdio.h>
#include <stdlib.h>
#include <string.h>

static void *or_end(void *at, const char *why)
{
    if (at == NULL) {
        fprintf(stderr, "%s\n", why);
        exit(2);
    }
    return at;
}

void *memory(uint64_t count, uint64_t bytes)
{
    return or_end(calloc(count, bytes), "no memory");
}

struct space new_space(uint32_t size)
{
    struct space space = {memory(size, sizeof(uint64_t)), size, 1};
    return space;
}

struct object *new_object(struct space *space, enum kind kind, uint32_t length)
{
    bool has_room = length + 2 <= space->size - space->end;
    struct object *object = or_end(has_room ? object_at(space, space->end) : NULL, "the space is full");
    object->kind = kind;
    object->length = length;
    object->link = NULL;
    for (uint32_t i = 0; i < length; i++)
        object->fields[i] = NIL;
    space->end += words_of(object);
    return object;
}

/* Copies an original, and links it and its replica to each other. */
static struct object *copy(struct space *new, struct object *original, enum bug bug)
{
    uint32_t length = original->length;
    if (bug == LENGTH_ONE_SHORT && original->kind == TEXT)
        length--;
    struct object *replica = new_object(new, original->kind, length);
    memcpy(replica->fields, original->fields, length * sizeof(value));
    replica->link = original;
    original->link = replica;
    return replica;
}

/* Returns the value, with a reference to an original replaced by one to its replica. Copies an original without a replica. */
static value forwarded(struct space *new, value value, enum bug bug)
{
    if (!is_reference(value))
        return value;
    struct object *original = object_of(value);
    return reference_to(original->link ? original->link : copy(new, original, bug));
}

static void forward_roots(const struct heap *old, struct heap *new, enum bug bug)
{
    int count = bug == ROOT_FORGOTTEN ? ROOTS - 1 : ROOTS;
    memcpy(new->roots, old->roots, sizeof new->roots);
    for (int i = 0; i < count; i++) {
        new->roots[i] = forwarded(&new->space, old->roots[i], bug);
        if (bug == OBJECT_COPIED_TWICE && is_reference(old->roots[i]))
            object_of(old->roots[i])->link = NULL;
    }
}

static void forward_fields(struct space *new, struct object *replica, enum bug bug)
{
    uint32_t count = bug == FIELD_NOT_FORWARDED ? replica->length - 1 : replica->length;
    for (uint32_t i = 0; i < count; i++)
        replica->fields[i] = forwarded(new, replica->fields[i], bug);
}

static void scan(struct space *new, enum bug bug)
{
    for (uint32_t at = 1; at < new->end; at += words_of(object_at(new, at)))
        if (object_at(new, at)->kind == ENTRY)
            forward_fields(new, object_at(new, at), bug);
}

static void clear_links(const struct space *space)
{
    for (uint32_t at = 1; at < space->end; at += words_of(object_at(space, at)))
        object_at(space, at)->link = NULL;
}

bool collect(struct heap *heap, enum bug bug, bool (*accepts)(const struct heap *old, const struct heap *new))
{
    struct heap new = {new_space(heap->space.size), {0}};
    forward_roots(heap, &new, bug);
    scan(&new.space, bug);
    bool accepted = accepts(heap, &new);
    free(accepted ? heap->space.words : new.space.words);
    if (accepted)
        *heap = new;
    clear_links(&heap->space);
    return accepted;
}
