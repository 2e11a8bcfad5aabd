/* The heap of the toy runtime: allocation, the stack, and what is defined. */
#include "heap.h"
#include <stdio.h>
#include <stdlib.h>
#include <string.h>

struct heap heap;

static void stop(const char *why)
{
    fprintf(stderr, "toy: %s\n", why);
    exit(2);
}

void heap_open(size_t words)
{
    memset(&heap, 0, sizeof heap);
    heap.space = heap.next = calloc(words, sizeof(word));
    if (heap.space == NULL)
        stop("no memory");
    heap.end = heap.space + words;
}

void heap_close(void) { free(heap.space); }

size_t define_shape(const char *name, size_t references, size_t numbers)
{
    if (heap.shape_count == SHAPES)
        stop("too many shapes");
    heap.shapes[heap.shape_count] = (struct shape){name, references, numbers};
    return heap.shape_count++;
}

size_t define_global(const char *name)
{
    if (heap.global_count == GLOBALS)
        stop("too many globals");
    heap.globals[heap.global_count] = (struct global){name, NIL};
    return heap.global_count++;
}

size_t push(value value)
{
    if (heap.top == STACK)
        stop("the stack is full");
    heap.stack[heap.top] = value;
    return heap.top++;
}

value pop(void) { return heap.stack[--heap.top]; }

static size_t words_left(void) { return (size_t)(heap.end - heap.next); }

/* Collects if there is no room for so many words. If less than half is free then, collects once more, into a larger space. */
static void make_room(size_t words)
{
    size_t all = (size_t)(heap.end - heap.space);
    if (words <= words_left())
        return;
    collect(all);
    if (words + all / 2 > words_left())
        collect(2 * all + words);
}

/* Returns a new object whose words behind the header are 0. */
static word *allocated(word header)
{
    make_room(words_of(header));
    word *object = heap.next;
    heap.next += words_of(header);
    memset(object, 0, words_of(header) * sizeof *object);
    object[0] = header;
    return object;
}

static void make_nil(value *values, size_t count)
{
    for (size_t i = 0; i < count; i++)
        values[i] = NIL;
}

value new_record(size_t shape)
{
    size_t references = heap.shapes[shape].references;
    word *object = allocated(header_of(RECORD, shape, references + heap.shapes[shape].numbers));
    make_nil(object + 1, references);
    return reference_to(object);
}

value new_bytes(const void *bytes, size_t count)
{
    word *object = allocated(header_of(BYTES, 0, count));
    memcpy(object + 1, bytes, count);
    return reference_to(object);
}

value new_array(enum type type, size_t length)
{
    word *object = allocated(header_of(type, 0, length));
    make_nil(object + 1, length);
    return reference_to(object);
}
