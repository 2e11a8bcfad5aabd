#include "list.h"
#include <inttypes.h>
#include <stdio.h>
#include <string.h>

enum { LONGEST_NAME = 2 * sizeof(value) };

static value number_value(uint64_t number)
{
    return 2 * number;
}

static void write_name(char *name, uint32_t number)
{
    snprintf(name, LONGEST_NAME, "entry %" PRIu32, number);
}

static value new_text(struct space *space, const char *text)
{
    struct object *made = new_object(space, TEXT, (uint32_t)(strlen(text) / sizeof(value)) + 1);
    memset(made->fields, 0, made->length * sizeof(value));
    memcpy(made->fields, text, strlen(text));
    return reference_to(made);
}

static const char *text_of(value reference)
{
    return (const char *)object_of(reference)->fields;
}

void append_entry(struct heap *heap, uint32_t number)
{
    char name[LONGEST_NAME];
    write_name(name, number);
    value text = new_text(&heap->space, name);
    struct object *entry = new_object(&heap->space, ENTRY, FIELDS);
    entry->fields[NAME] = text;
    entry->fields[NUMBER] = number_value(number);
    entry->fields[PREVIOUS] = heap->roots[LAST];
    if (heap->roots[LAST] == NIL)
        heap->roots[FIRST] = reference_to(entry);
    else
        object_of(heap->roots[LAST])->fields[NEXT] = reference_to(entry);
    heap->roots[LAST] = reference_to(entry);
    heap->roots[COUNT] += number_value(1);
}

static void unlink_entry(struct heap *heap, const struct object *entry)
{
    value previous = entry->fields[PREVIOUS], next = entry->fields[NEXT];
    object_of(previous)->fields[NEXT] = next;
    if (next == NIL)
        heap->roots[LAST] = previous;
    else
        object_of(next)->fields[PREVIOUS] = previous;
    heap->roots[COUNT] -= number_value(1);
}

void unlink_each_second(struct heap *heap)
{
    value kept = heap->roots[FIRST];
    while (kept != NIL && object_of(kept)->fields[NEXT] != NIL) {
        unlink_entry(heap, object_of(object_of(kept)->fields[NEXT]));
        kept = object_of(kept)->fields[NEXT];
    }
}

static bool is_entry(const struct object *object, uint32_t number, value previous)
{
    char name[LONGEST_NAME];
    write_name(name, number);
    return object->fields[NUMBER] == number_value(number) && object->fields[PREVIOUS] == previous &&
           strcmp(text_of(object->fields[NAME]), name) == 0;
}

bool is_whole(const struct heap *heap, uint32_t step)
{
    value previous = NIL;
    uint32_t count = 0;
    for (value at = heap->roots[FIRST]; at != NIL; at = object_of(at)->fields[NEXT]) {
        if (!is_entry(object_of(at), count * step, previous))
            return false;
        previous = at;
        count++;
    }
    return heap->roots[LAST] == previous && heap->roots[COUNT] == number_value(count);
}
