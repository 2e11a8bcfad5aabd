/* What the files of json share: the heap, the kinds of its objects, the registers, levels of the stack, and texts. */
#ifndef JSON_H
#define JSON_H

#include "herbpond_arrays.h"

extern hp heap;

/* null is nil, true and false are specials, and numbers are integers or doubles. The members of an object of JSON lie in an array, in their order: each is
 * a name and the value behind it. A text above GCFLIP_MOST_BYTES is an array of texts. */
enum kind { TEXT, LONG_TEXT, ARRAY, OBJECT, INDEX };
enum truth { FALSE_VALUE, TRUE_VALUE };

/* VALUE holds the value that was read, or that is to be printed. A function leaves nothing in the others for its caller, unless it says so. */
enum registers { VALUE, NAME, OTHER_NAME, MEMBER, OTHER_MEMBER, PIECE };

/* How the program ends, if not by 0. */
enum status { NO_ROOM = 1, WRONG = 2 };

/* Each container that is open has a level on the heap's stack: the container; the number of its next element to print, or of the name whose value is
 * read; and the index of an object's names. So the stack bounds how deep a document can be nested, and there is no recursion. */
enum level { CONTAINER, NUMBER, NAMES, LEVEL };

/* Returns a root of the innermost level. */
static inline hp_root level(enum level which)
{
    return HP_STACK(heap.stack.top - LEVEL + which);
}

/* A block of bytes in C. */
typedef struct block {
    char *bytes;
    size_t length, room;
} block;

/* Adds a byte. Ends the program if there is no memory. */
void add_byte(block *to, uint32_t byte);

/* ---- Texts (text.c) */

void text_new(hp_root d, const block *from);
/* Copies the bytes of a text. */
void text_read(block *to, hp_root s);
uint64_t text_hash(hp_root s);
/* Compares byte by byte, which is also the order of the characters: negative, 0 or positive. */
int text_order(hp_root s, hp_root t);

/* ---- The parser (parse.c) and the printer (print.c) */

/* Reads a document, which has a 0 behind its end, into VALUE. Ends the program if it is wrong, with the line and the column. */
void parse(const block *document);

/* Prints VALUE: the members of objects sorted by their names, if wanted, and each level indented by so many blanks, or all in a line if that is -1. */
void print(bool sorted, int indent);

#endif
