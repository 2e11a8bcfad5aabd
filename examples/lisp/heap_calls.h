/* The two heaps under heap.h, behind one set of functions.
 *
 * heap_by_steps.c calls gcflip_heap, whose collector works in the calls of the program. heap_beside.c calls gcflip_beside, whose collector works in a
 * thread of its own. Only heap.c calls these functions, and checks their answers. */
#ifndef HEAP_CALLS_H
#define HEAP_CALLS_H

#include "values.h"
#include <gcflip_heap.h>
#include <stdbool.h>
#include <stdint.h>
#include <stdio.h>

/* The calls of one heap. They return numbers of gcflip_answers.h, except where something else is said. */
struct heap_calls {
    /* Opens a heap with this many extra roots. Writes a trace of all that happens on it, unless `trace` is NULL. */
    uint32_t (*open)(uint32_t words, uint32_t extra_roots, FILE *trace);
    void (*close)(void);

    /* Values in slots. */
    uint32_t (*look)(enum slot slot, gcflip_view *view);
    uint32_t (*move)(enum slot to, enum slot from);
    uint32_t (*set_nil)(enum slot slot);
    uint32_t (*set_number)(enum slot slot, uint64_t number);
    uint32_t (*same)(enum slot first, enum slot second);

    /* The extra roots, as a stack: GCFLIP_FRAME_FULL or GCFLIP_FRAME_EMPTY where it ends. */
    uint32_t (*push_root)(enum slot value);
    uint32_t (*pop_root)(enum slot to);
    uint32_t (*clear_roots)(void);

    /* Objects. `put_number` may change WORD. */
    uint32_t (*new_object)(enum slot to, enum type type, uint32_t fields);
    uint32_t (*new_raw)(enum slot to, enum type type, uint32_t fields);
    uint32_t (*get)(enum slot to, enum slot object, uint32_t field, uint64_t *number);
    uint32_t (*put)(enum slot object, uint32_t field, enum slot value);
    uint32_t (*put_number)(enum slot object, uint32_t field, uint64_t number);

    /* What tables by identity and weak pairs need. `moved` is called by the functions of `run_after_flip` alone. */
    uint32_t (*copy_fields)(enum slot to, enum slot from, uint32_t fields);
    uint32_t (*address)(enum slot object, uint32_t *address);
    uint32_t (*moved)(uint32_t address, uint32_t *now);
    uint32_t (*refer)(enum slot to, uint32_t address);

    /* Lets the collector go on, before an allocation of this many words that leaves `room` words free. If the system has no memory, this is no error. */
    void (*pay)(uint32_t words, uint32_t room);

    /* Lets the collector stop the program: GCFLIP_DONE. NULL if it never needs to. */
    uint32_t (*safepoint)(void);

    /* Finishes the collection that is open, or performs a whole one: GCFLIP_FLIPPED or GCFLIP_NO_MEMORY. */
    uint32_t (*collect)(void);

    /* Returns the number of free words. */
    uint32_t (*free_words)(void);

    /* Prints what the collector did, in a few lines. */
    void (*print_collections)(FILE *file);
};

extern const struct heap_calls heap_by_steps, heap_beside;

/* ---- What heap.c does for both */

/* Ends the program after a call that the Lisp must not make. */
void stop(const char *call);

/* Calls the functions that wait for a flip. */
void run_after_flip(void);

#endif
