/* A toy runtime: its values, its objects, and where its roots are.
 *
 * A value is a word of 64 bits. Its two lowest bits are a tag:
 *
 *     00  an integer, shifted left by two bits
 *     01  a reference: the address of an object, plus 1
 *     10  nil, or a character: its code, shifted left by eight bits, plus 6
 *     11  no value: the header of an object
 *
 * An object is a header and the words behind it. Objects lie back to back, from heap.space up to heap.next.
 *
 *     record      the references of its shape, which are values, then the numbers of its shape, which are any 64 bits
 *     bytes       any number of bytes, and padding up to the next word
 *     array       any number of values
 *     weak array  any number of values that keep no object alive. The collector makes a value nil if the object died
 *
 * A header has the tag in bits 0 and 1, the type in bits 2 and 3, the shape in bits 8 to 15, and the length in bits 16 to 47. All other bits are 0.
 * The length is the number of bytes, or else of words behind the header. The shape is 0 for what is no record.
 *
 * Roots are the stack and the globals. So what a function of C holds over an allocation has to be on the stack. */
#ifndef HEAP_H
#define HEAP_H

#include <stdbool.h>
#include <stddef.h>
#include <stdint.h>

typedef uint64_t word;
typedef word value;

enum tag { INTEGER, REFERENCE, SPECIAL, HEADER };
enum type { RECORD, BYTES, ARRAY, WEAK_ARRAY };
enum { STACK = 1024, GLOBALS = 16, SHAPES = 16 };

#define NIL ((value)SPECIAL)

struct shape {
    const char *name;
    size_t references, numbers;
};

struct global {
    const char *name;
    value value;
};

/* The one heap. */
extern struct heap {
    word *space, *next, *end; /* objects lie from `space` up to `next`, and the space ends at `end` */
    value stack[STACK];
    size_t top; /* how many values are on the stack */
    struct global globals[GLOBALS];
    size_t global_count;
    struct shape shapes[SHAPES];
    size_t shape_count;
    size_t collections;
} heap;

/* ---- Words. */

static inline enum tag tag_of(word word) { return (enum tag)(word % 4); }
static inline value integer(uint64_t number) { return number << 2; }
static inline uint64_t number_of(value integer) { return integer >> 2; }
static inline value character(unsigned char code) { return (value)code << 8 | 4 | SPECIAL; }
static inline word *object_of(value reference) { return (word *)(uintptr_t)(reference - REFERENCE); }
static inline value reference_to(const word *object) { return (value)(uintptr_t)object + REFERENCE; }

static inline word header_of(enum type type, size_t shape, size_t length) { return (word)length << 16 | (word)shape << 8 | (word)type << 2 | HEADER; }
static inline enum type type_of(word header) { return (enum type)(header >> 2 & 3); }
static inline size_t shape_of(word header) { return header >> 8 & 255; }
static inline size_t length_of(word header) { return header >> 16 & UINT32_MAX; }

/* Returns how many words an object with this header has, with the header. */
static inline size_t words_of(word header)
{
    return 1 + (type_of(header) == BYTES ? (length_of(header) + 7) / 8 : length_of(header));
}

/* ---- The heap. What cannot be had ends the program with a message. */

/* Opens the heap with a space of so many words. */
void heap_open(size_t words);
void heap_close(void);

/* Both return the number of what was defined. A global is nil at first. */
size_t define_shape(const char *name, size_t references, size_t numbers);
size_t define_global(const char *name);

/* Pushes a value, and returns its place on the stack. */
size_t push(value value);
value pop(void);

/* Return a new object. Any of them may collect. References and elements are nil at first, and numbers 0. The bytes must not be in the heap. */
value new_record(size_t shape);
value new_bytes(const void *bytes, size_t count);
value new_array(enum type type, size_t length);

/* The references of a record, or the elements of an array; the numbers of a record; and the bytes. */
static inline value *values_of(value object) { return object_of(object) + 1; }
static inline word *numbers_of(value record) { return object_of(record) + 1 + heap.shapes[shape_of(object_of(record)[0])].references; }
static inline const char *bytes_of(value bytes) { return (const char *)(object_of(bytes) + 1); }
static inline size_t length_in(value object) { return length_of(object_of(object)[0]); }

/* Copies all that the roots reach into a new space of so many words, and frees the old one. The new space must have room for all objects. */
void collect(size_t words);

#endif
