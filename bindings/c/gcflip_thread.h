/* A heap of gcflip_beside.h whose collector runs in a thread of its own, which sleeps until a collection is due. gcflip_thread.c is not proved: it is a
 * loop around the proved calls, with POSIX threads, one lock and two condition variables. A safepoint is a call. A program that makes none is never
 * stopped, and then no collection ends.
 *
 * All calls are made by one thread, the mutator's. It performs the commands of gcflip_beside.h on gcflip_thread_mutator, and makes safepoints by
 * gcflip_thread_safepoint. If it has something else to do instead of waiting, it makes them by gcflip_thread_try_safepoint.
 *
 * A collection begins by the policy of gcflip_pace in gcflip_heap.h, whose members `factor` and `least` count here. Both spaces have all of their memory
 * from the opening on. So a program that wants fewer collections sets `least` to UINT32_MAX, which takes no more memory. Each then begins once half of the
 * room is used up, or later if the mutator allocated little during the last one.
 *
 * The collector stops the mutator to copy the objects of its roots, to take its log of writes now and then, and to flip. It performs at most 2,048 steps
 * at a stop, or more after 64 stops that were not enough. If the mutator allocates faster than the collector copies, its safepoints wait for the collector, each
 * for 0.2 ms at most. Once less than a sixteenth of the room is left that was free when the collection began, they wait for the flip. Between two
 * safepoints the program can allocate that sixteenth. So it finds the heap full only if it allocates more there, or if live objects leave too little
 * room. With gcflip_thread_reserve in the place of safepoints it finds the heap full only if live objects leave too little room. The heap keeps its size, unless
 * gcflip_thread_growing lets it grow. */
#ifndef GCFLIP_THREAD_H
#define GCFLIP_THREAD_H

#include "gcflip_beside.h"

#include <stdint.h>

#ifdef __cplusplus
extern "C" {
#endif

typedef struct gcflip_thread gcflip_thread;

/* What has happened since the heap was opened. Times are in nanoseconds of the monotonic clock. */
typedef struct gcflip_thread_counts {
    uint64_t flips;        /* the flips that were made */
    uint64_t failed;       /* the flips for which memory ran out */
    uint64_t stops;        /* how often the mutator stopped for the collector */
    uint64_t most_stops;   /* the stops of the flip that took most */
    uint64_t throttled;    /* the safepoints that waited until the collector had caught up, or had flipped */
    uint64_t waited;       /* the time that the mutator waited at safepoints, together */
    uint64_t longest_wait; /* the longest wait of a safepoint */
} gcflip_thread_counts;

/* Opens a heap of `size` words, at least 1, with at most 1048576 extra roots, and starts its collector's thread: GCFLIP_DONE. Of the pace, `factor` and
 * `least` count. A collection begins where the words in use are at least `factor` hundredths of those that the last flip left, and at least `least`.
 * It also begins where half of the room that the last flip left is used up. That comes later if no safepoint waited for steps
 * during the last collection. Then the free words are down to twice those that were allocated meanwhile, or to an eighth of the heap if that is more.
 * gcflip_pace_default fits most programs. A factor below 100 or above 10000 is out of range. If an allocation or the start of the thread fails, it returns GCFLIP_NO_MEMORY. It writes NULL if it does not return GCFLIP_DONE. */
uint32_t gcflip_thread_open(gcflip_thread **thread, uint32_t size, uint32_t extra_roots, const gcflip_pace *pace);

/* Opens a heap with these options of gcflip_beside.h, and starts its collector's thread, as gcflip_thread_open does: GCFLIP_DONE. A record of another size is out
 * of range. GCFLIP_NO_MEMORY if an allocation or the start of the thread fails. */
uint32_t gcflip_thread_open_with(gcflip_thread **thread, const gcflip_beside_options *options, const gcflip_pace *pace);

/* Returns the handle for commands. Safepoints are made by the calls of this header alone. */
gcflip_mutator *gcflip_thread_mutator(gcflip_thread *thread);

/* A safepoint: GCFLIP_DONE. If the collector asks for it, stops, and waits until the mutator may go on, also if it stopped at gcflip_thread_try_safepoint. Wakes the collector if a collection is due. If the
 * mutator is ahead of the collector, waits for a while, or for the flip if little room is left. */
uint32_t gcflip_thread_safepoint(gcflip_thread *thread);

/* A safepoint that does not wait: GCFLIP_DONE if the mutator runs. GCFLIP_PARKED if it has stopped: its commands are then refused with the same answer,
 * until a later safepoint lets it go on. GCFLIP_NOT_YET if it runs, but gcflip_thread_safepoint would wait, since it is ahead of the collector. A program that
 * goes on all the same may find the heap full. Wakes the collector if a collection is due. It takes the lock for a moment if the mutator stops or has
 * stopped, or if little room is left. */
uint32_t gcflip_thread_try_safepoint(gcflip_thread *thread);

/* Wakes the collector unless a collection is under way, and waits for its flip: GCFLIP_FLIPPED, or GCFLIP_NO_MEMORY if the flip was not made. A program
 * calls it after GCFLIP_FULL. */
uint32_t gcflip_thread_collect(gcflip_thread *thread);

/* A safepoint after which `words` words are free: GCFLIP_DONE. If too few are, waits for the flip of the collection that is under way. If these are still too
 * few, waits for that of a collection which begins in this call. That one takes a larger space if the heap may grow. Returns GCFLIP_FULL if it left fewer: live
 * objects leave no more room, and the heap has not grown enough. Returns GCFLIP_NO_MEMORY if a flip was not made. A program that calls it before each allocation,
 * with the words of the object, finds the heap full only then. */
uint32_t gcflip_thread_reserve(gcflip_thread *thread, uint32_t words);

/* Lets the heap grow up to `most` words. A collection takes a larger space if gcflip_thread_reserve finds too little room. It also does so if more than half
 * of the heap was in use after the last flip. That space has twice as many words as the heap, and those to be reserved, but at most `most`. If the system
 * refuses its memory, the collection takes a space of the heap's size. A collection that is under way keeps its space. If `most` is not above the size, the
 * heap does not grow. It is 0 after the opening.
 *
 * A space is made before its collection begins. So if gcflip_thread_reserve asks for a larger one, the space that was made already keeps its memory until then. */
void gcflip_thread_growing(gcflip_thread *thread, uint32_t most);

/* Returns the number of words of the heap in which the mutator runs, or ran before it stopped. */
uint32_t gcflip_thread_size(const gcflip_thread *thread);

/* Lets the heap call `function(argument)` after each flip, so that the program follows its tables by gcflip_beside_moved. NULL ends that. The
 * mutator's thread makes the call, without a lock, once the mutator runs in the new space. The safepoint at which it had stopped goes on afterwards. One
 * gcflip_thread_safepoint, gcflip_thread_reserve or gcflip_thread_collect may go through several flips, and calls the function after each of them.
 *
 * The function may make the calls of the mutator's end in gcflip_beside.h, and those of this header but for gcflip_thread_close. No flip comes while it
 * runs: safepoints in it return GCFLIP_DONE at once, gcflip_thread_collect GCFLIP_NO_MEMORY, and gcflip_thread_reserve GCFLIP_FULL if there is too little
 * room. It returns, and does not jump out by longjmp or an exception. Its time does not count as a wait. */
void gcflip_thread_on_flip(gcflip_thread *thread, void (*function)(void *argument), void *argument);

/* Reads what has happened. */
void gcflip_thread_read(gcflip_thread *thread, gcflip_thread_counts *counts);

/* Reads how many flips each checker has accepted since the heap was opened. */
void gcflip_thread_flip_checks(gcflip_thread *thread, gcflip_flip_checks *checks);

/* Ends the thread, and frees the heap. */
void gcflip_thread_close(gcflip_thread *thread);

#ifdef __cplusplus
}
#endif
#endif
