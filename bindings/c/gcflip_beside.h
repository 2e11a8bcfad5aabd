/* A heap of objects whose collector works in another thread, without a lock: one mutator, and a collector that copies the objects beside it.
 * Every flip has to pass the checker. A safepoint is a call. A program that makes none is never stopped, and then no collection ends.
 *
 * A heap has two handles, one for each end. Each is used by one thread at a time, and the two threads may call at the same time. No call of this
 * header waits or starts a thread. gcflip_thread.h starts the collector's thread and waits, for programs that want no loops of their own.
 *
 * Before its first use a handle has no end, so the program initializes it with GCFLIP_NO_END, or sets its `at` to NULL. gcflip_beside_open gives both
 * handles their ends, and each has a close of its own. Every call returns a number of gcflip_answers.h: the reply, or the reason why
 * the call was refused. A refused command changes nothing, neither the heap nor its output arguments. gcflip_beside_room, gcflip_beside_roots and
 * gcflip_beside_flips return counts.
 *
 * The promise, proved for the code behind these calls:
 * - each command gets the reply of a heap without a collector, whatever the collector's thread does. Only an allocation may find the heap full;
 * - after a safepoint the mutator goes on in the same heap, or in one whose objects correspond to those of the old one. Then gcflip_beside_moved tells
 *   where each of them went;
 * - a flip happens only if its certificate holds, and no flip is refused by the checker;
 * - nothing is proved of time: that a thread gets on is tested.
 *
 * What the caller owes, since nothing checks C code:
 * - no pointer is NULL, no two pointers of a call overlap, and the memory behind each is initialized;
 * - a handle is not copied, and only these calls write it. It may be moved in memory, and may go to another thread. A lock, or the start or join of a
 *   thread, orders the uses;
 * - no call is made from a signal handler, or in the forked child of a process with threads. */
#ifndef GCFLIP_BESIDE_H
#define GCFLIP_BESIDE_H

#include "gcflip_answers.h"
#include "gcflip_heap.h"

#include <stddef.h>
#include <stdint.h>

#ifdef __cplusplus
extern "C" {
#endif

/* The mutator's end. */
typedef struct gcflip_mutator {
    void *at; /* the address of the end; NULL in a handle without one */
} gcflip_mutator;

/* The collector's end. */
typedef struct gcflip_collector {
    void *at; /* the address of the end; NULL in a handle without one */
} gcflip_collector;

#define GCFLIP_NO_END {NULL}

/* The number of roots of each heap, whose places are 0 to 31. The places of the extra roots, if a heap has any, follow from 32 on. */
#define GCFLIP_BESIDE_ROOTS 32u

/* ---- Opening and closing */

/* Opens an empty heap of `size` words, at least 1, with at most 1048576 extra roots: GCFLIP_DONE. GCFLIP_OPEN if a handle has an end already. A
 * collection begins, whose new space has as many words as the heap. All roots hold nil. GCFLIP_NO_MEMORY if an allocation fails. */
uint32_t gcflip_beside_open(gcflip_mutator *mutator, gcflip_collector *collector, uint32_t size, uint32_t extra_roots);

/* What gcflip_beside_open_with takes. `bytes` is the size of this record, so that a later library can tell which members the program knows.
 * gcflip_beside_options_default sets it. */
typedef struct gcflip_beside_options {
    uint32_t bytes;       /* sizeof(gcflip_beside_options) */
    uint32_t size;        /* the words of the heap, at least 1 */
    uint32_t extra_roots; /* the number of roots beside the 32 of each heap, at most 1048576 */
    uint32_t whole_each;  /* each flip with this number, counted from the last one, checks both spaces whole; 0: none does for its number */
} gcflip_beside_options;

/* Returns the options for a heap of `size` words, at least 1, without extra roots. No flip checks both spaces whole for its number. */
static inline gcflip_beside_options gcflip_beside_options_default(uint32_t size)
{
    gcflip_beside_options options;

    options.bytes = (uint32_t)sizeof options;
    options.size = size;
    options.extra_roots = 0;
    options.whole_each = 0;
    return options;
}

/* Opens an empty heap with these options, as gcflip_beside_open does: GCFLIP_DONE, or GCFLIP_OPEN if a handle has an end already. A record of another size is
 * out of range. GCFLIP_NO_MEMORY if an allocation fails. */
uint32_t gcflip_beside_open_with(gcflip_mutator *mutator, gcflip_collector *collector, const gcflip_beside_options *options);

/* Drops the mutator with its objects: GCFLIP_DONE. The collector's handle can still be used and closed. The last of both closes frees the heap. */
uint32_t gcflip_beside_close_mutator(gcflip_mutator *mutator);

/* Drops the collector: GCFLIP_DONE. A mutator that has stopped may go on with all its objects, and is never asked again. The last of both closes
 * frees the heap. */
uint32_t gcflip_beside_close_collector(gcflip_collector *collector);

/* ---- Commands, by the mutator's thread
 *
 * Each returns GCFLIP_PARKED while the mutator has stopped. They name roots by their places, extra roots too. A place that no root has is out of range.
 * A kind is 0 to 255, and a count 0 to 65535. Fields are counted from 0, and a number is below 2^63. */

/* Makes an object with `count` fields, all nil, and puts a reference to it into root d: GCFLIP_MADE or GCFLIP_FULL. The object takes count + 2
 * words. After GCFLIP_FULL, a flip may make room. */
uint32_t gcflip_beside_new(gcflip_mutator *mutator, uint32_t d, uint32_t kind, uint32_t count);

/* Makes a raw object with `count` fields, and puts a reference to it into root d: GCFLIP_MADE or GCFLIP_FULL. Its fields are plain numbers, all 0. */
uint32_t gcflip_beside_new_raw(gcflip_mutator *mutator, uint32_t d, uint32_t kind, uint32_t count);

/* Makes an object with two fields, which take the values of roots s and t, and puts it into root d: GCFLIP_MADE or GCFLIP_FULL. This is
 * gcflip_beside_new, and then gcflip_beside_put for each field, in one call. Root d is set first, so a field that takes its value refers to the object
 * itself. Once the collector has begun to copy, both fields are logged, and it returns GCFLIP_NO_MEMORY if the log cannot grow. */
uint32_t gcflip_beside_new_pair(gcflip_mutator *mutator, uint32_t d, uint32_t kind, uint32_t s, uint32_t t);

/* Puts the number n into root d: GCFLIP_DONE. */
uint32_t gcflip_beside_set_number(gcflip_mutator *mutator, uint32_t d, uint64_t n);

/* Puts nil into root d: GCFLIP_DONE. */
uint32_t gcflip_beside_set_nil(gcflip_mutator *mutator, uint32_t d);

/* Copies the value of root s into root d: GCFLIP_DONE. */
uint32_t gcflip_beside_copy(gcflip_mutator *mutator, uint32_t d, uint32_t s);

/* Reads field i of the object that root s refers to into root d. Returns what it saw, GCFLIP_NIL, GCFLIP_NUMBER or GCFLIP_OBJECT, or else
 * GCFLIP_NO_OBJECT or GCFLIP_NO_FIELD. Writes `number` only if it saw a number. */
uint32_t gcflip_beside_get(gcflip_mutator *mutator, uint32_t d, uint32_t s, uint32_t i, uint64_t *number);

/* Writes the value of root t into field i of the object that root s refers to: GCFLIP_DONE, GCFLIP_NO_OBJECT, GCFLIP_NO_FIELD or GCFLIP_NO_NUMBER.
 * Once the collector has begun to copy, the call logs the field, and returns GCFLIP_NO_MEMORY if the log cannot grow. The log is emptied when the
 * collector takes the mutator. */
uint32_t gcflip_beside_put(gcflip_mutator *mutator, uint32_t s, uint32_t i, uint32_t t);

/* Writes the number n into field i of the object that root s refers to, as a put does. No root changes. Returns GCFLIP_DONE, GCFLIP_NO_OBJECT,
 * GCFLIP_NO_FIELD, or GCFLIP_NO_MEMORY as a put does. */
uint32_t gcflip_beside_put_number(gcflip_mutator *mutator, uint32_t s, uint32_t i, uint64_t n);

/* Writes nil into field i of the object that root s refers to, as a put does. No root changes. Returns GCFLIP_DONE, GCFLIP_NO_OBJECT,
 * GCFLIP_NO_FIELD, GCFLIP_NO_NUMBER if the object is raw, or GCFLIP_NO_MEMORY as a put does. */
uint32_t gcflip_beside_put_nil(gcflip_mutator *mutator, uint32_t s, uint32_t i);

/* Reads field i of the object that root s refers to, and no root takes the value. Returns what it saw, GCFLIP_NIL, GCFLIP_NUMBER, GCFLIP_OBJECT or
 * GCFLIP_RAW_OBJECT, and writes that to `view`, as a look does. Or else GCFLIP_NO_OBJECT or GCFLIP_NO_FIELD. */
uint32_t gcflip_beside_peek(gcflip_mutator *mutator, uint32_t s, uint32_t i, gcflip_view *view);

/* Compares the values of roots s and t: GCFLIP_SAME or GCFLIP_NOT_SAME. */
uint32_t gcflip_beside_same(gcflip_mutator *mutator, uint32_t s, uint32_t t);

/* Looks at the value of root s: GCFLIP_NIL, GCFLIP_NUMBER, GCFLIP_OBJECT or GCFLIP_RAW_OBJECT. Writes what it saw to `view`. */
uint32_t gcflip_beside_look(gcflip_mutator *mutator, uint32_t s, gcflip_view *view);

/* ---- Many commands at once, by the mutator's thread
 *
 * Each performs its commands one after another, all of them or none. If the collector has begun to copy, a call that writes fields logs each of
 * them. It makes room for that before it begins, and returns GCFLIP_NO_MEMORY if the log cannot grow. */

/* Puts nil into the roots from root `from` on, and below root `to`: GCFLIP_DONE. The time grows with their number. If they are equal, this does
 * nothing. GCFLIP_OUT_OF_RANGE also if `from` is above `to`, which may be the number of all roots. */
uint32_t gcflip_beside_clear(gcflip_mutator *mutator, uint32_t from, uint32_t to);

/* Makes an object with `count` fields, which take the values of the roots fields[0] to fields[count - 1]: GCFLIP_MADE, or GCFLIP_FULL if nothing
 * changed. This is a new into root d, and a put for each field. Root d is set first: a field that takes its value refers to the object itself. */
uint32_t gcflip_beside_new_from(gcflip_mutator *mutator, uint32_t d, uint32_t kind, const uint32_t *fields, size_t count);

/* Makes an object with `count` fields, which take the values of the roots first to first + count - 1: GCFLIP_MADE or GCFLIP_FULL. Otherwise this is
 * new_from. */
uint32_t gcflip_beside_gather(gcflip_mutator *mutator, uint32_t d, uint32_t kind, uint32_t first, uint32_t count);

/* Reads the first `count` fields of the object that root s refers to. As by a get of each, they go into the roots first to first + count - 1.
 * Returns GCFLIP_DONE, or else reads none: GCFLIP_NO_OBJECT or GCFLIP_NO_FIELD. GCFLIP_OUT_OF_RANGE also if root s is one of them. */
uint32_t gcflip_beside_spread(gcflip_mutator *mutator, uint32_t first, uint32_t s, uint32_t count);

/* Writes the value of root t into the fields from .. to - 1 of the object that root s refers to: GCFLIP_DONE. This is a put for each field. Or else it
 * writes none: GCFLIP_NO_OBJECT, GCFLIP_NO_FIELD, or GCFLIP_NO_NUMBER if the object is raw and root t holds no number. GCFLIP_OUT_OF_RANGE also if `from` is
 * above `to`. */
uint32_t gcflip_beside_fill(gcflip_mutator *mutator, uint32_t s, uint32_t from, uint32_t to, uint32_t t);

/* Copies `count` fields to the object that root d refers to, from field `to` on: GCFLIP_DONE. They are those of the object that root s refers to, from
 * field `from` on. Each takes, in rising order, the value that the other field has then. No root changes. Or else it copies none: GCFLIP_NO_OBJECT,
 * GCFLIP_NO_FIELD, or GCFLIP_NO_NUMBER if the object in d is raw and a value is no number. */
uint32_t gcflip_beside_copy_fields(gcflip_mutator *mutator, uint32_t d, uint32_t to, uint32_t s, uint32_t from, uint32_t count);

/* Copies the numbers in `count` fields of the raw object that root s refers to, from field `first` on, into `words`. Returns GCFLIP_DONE, or else writes
 * nothing: GCFLIP_NO_OBJECT if the root refers to no raw object, or GCFLIP_NO_FIELD if the object has fewer fields. */
uint32_t gcflip_beside_raw_read(gcflip_mutator *mutator, uint32_t s, uint32_t first, uint64_t *words, size_t count);

/* Copies `count` numbers into the fields of the raw object that root s refers to, from field `first` on. This is a put_number for each. No root changes.
 * Returns GCFLIP_DONE, or else writes nothing. GCFLIP_NO_OBJECT and GCFLIP_NO_FIELD are those of raw_read, and GCFLIP_NO_NUMBER says that a word is 2^63 or
 * more. */
uint32_t gcflip_beside_raw_write(gcflip_mutator *mutator, uint32_t s, uint32_t first, const uint64_t *words, size_t count);

/* ---- Frames, by the mutator's thread
 *
 * A gcflip_frame is a stack in the extra roots, which it numbers from 0: extra root k is at place GCFLIP_BESIDE_ROOTS + k. A root's place stands for
 * the slot of the calls in gcflip_heap.h. */

/* Copies the value of root s to the top of the frame, and moves its top up: GCFLIP_DONE, or GCFLIP_FRAME_FULL if nothing changed. Raises `high` to the new
 * top if it is below. The numbers of the frame have to be in order, first <= top <= end and high <= end. `end` is at most the number of extra roots. */
uint32_t gcflip_beside_frame_push(gcflip_mutator *mutator, uint32_t s, gcflip_frame *frame);

/* Moves the top of the frame down, copies the value there into root d, and puts nil into that root. Returns GCFLIP_DONE, or GCFLIP_FRAME_EMPTY if nothing
 * changed. Lowers `high` to the new top, unless it was above the old one. */
uint32_t gcflip_beside_frame_pop(gcflip_mutator *mutator, uint32_t d, gcflip_frame *frame);

/* Clears at most `most` of the roots from `top` on and below `high`, the last ones: GCFLIP_DONE. Lowers `high` to the first of them. No root below `top`
 * changes. All are cleared once `high` is `top`. With `most` 0 it clears none. */
uint32_t gcflip_beside_frame_trim(gcflip_mutator *mutator, gcflip_frame *frame, uint32_t most);

/* ---- Addresses, for tables that a program keeps by them, by the mutator's thread
 *
 * An object keeps its address until the next flip, which gives it another one. No address keeps an object alive. After a flip the program follows its
 * tables: it asks gcflip_beside_moved for each address, before a later safepoint stops it for the next flip. gcflip_thread_on_flip of gcflip_thread.h calls the
 * program for that. */

/* Writes the address of the object that root s refers to: GCFLIP_DONE, or GCFLIP_NO_OBJECT if it refers to none, and nothing is written. */
uint32_t gcflip_beside_address(gcflip_mutator *mutator, uint32_t s, uint32_t *address);

/* Writes the address to which the last flip moved the object that had the address `old` before that flip: GCFLIP_DONE. Returns GCFLIP_NO_OBJECT, and writes
 * nothing, if the object died. GCFLIP_OUT_OF_RANGE before the first flip. If no object had the address `old`, it may return either, and may write any
 * number. */
uint32_t gcflip_beside_moved(gcflip_mutator *mutator, uint32_t old, uint32_t *address);

/* Puts a reference to the object that starts at `address` into root d, which weak references need: GCFLIP_DONE. Returns GCFLIP_NO_OBJECT, and the root keeps
 * what it holds, if no object starts there. Any number may be given. */
uint32_t gcflip_beside_refer(gcflip_mutator *mutator, uint32_t d, uint32_t address);

/* Looks at the object that starts at `address`: GCFLIP_OBJECT or GCFLIP_RAW_OBJECT, or GCFLIP_NIL if no object starts there. Writes to `view` what a look at a
 * reference to it sees. Any number may be given. A walk over the heap begins at 1, and goes on at address + count + 2, up to the heap's end. It also meets
 * objects that no root reaches. */
uint32_t gcflip_beside_object_at(gcflip_mutator *mutator, uint32_t address, gcflip_view *view);

/* Reads field i of the object that starts at `address`: GCFLIP_NIL, GCFLIP_NUMBER, GCFLIP_OBJECT or GCFLIP_RAW_OBJECT. Writes to `view` what a peek sees, and for
 * an object also its address, to `number`. Returns GCFLIP_NO_FIELD, and writes nothing, if the object has no such field, and GCFLIP_NIL if no object starts
 * there. Any numbers may be given. */
uint32_t gcflip_beside_field_at(gcflip_mutator *mutator, uint32_t address, uint32_t i, gcflip_view *view);

/* ---- Counts, by the mutator's thread */

/* Returns the number of flips that the mutator has gone through. It is 0 while the mutator has stopped, and if the handle has no mutator. All addresses are as they
 * were as long as it is. */
uint64_t gcflip_beside_flips(const gcflip_mutator *mutator);

/* Returns the number of free words, which is 0 while the mutator has stopped, and if the handle has no mutator. */
uint32_t gcflip_beside_room(const gcflip_mutator *mutator);

/* Returns the number of roots, GCFLIP_BESIDE_ROOTS and the extra ones. It is 0 while the mutator has stopped, and if the handle has no mutator. */
uint32_t gcflip_beside_roots(const gcflip_mutator *mutator);

/* ---- Safepoints, by the mutator's thread */

/* Stops the mutator if the collector asks for it: GCFLIP_DONE if it runs on, which takes one load, or GCFLIP_PARKED if it has stopped. */
uint32_t gcflip_beside_safepoint(gcflip_mutator *mutator);

/* Lets a mutator that has stopped go on: GCFLIP_DONE if it runs, or GCFLIP_NOT_YET while its collector has not let it. */
uint32_t gcflip_beside_resume(gcflip_mutator *mutator);

/* ---- The collector, by the collector's thread
 *
 * The next collection begins at each flip. It rests until the collector takes the mutator, and copies the objects of its roots. Until then nothing is
 * copied, and no write is logged. Its steps copy what these reach, and bring replicas up to date with the originals, beside the mutator or while
 * the collector holds it. To flip, the collector takes the mutator again. It copies the objects of roots that were written meanwhile, and performs
 * the steps that are left. The mutator then goes on in the new space.
 *
 * A flip copies the roots alone. It puts the memory of the old heap aside, and leaves a new space of one word. So after a flip the program calls
 * gcflip_beside_prepare, before the collector takes the mutator again. */

/* Begins the collection anew, in a new space of `size` words, at least 1, with the memory that its flip takes: GCFLIP_DONE. What was copied is
 * forgotten. Frees the memory of the heap before the last flip. After the next flip the heap has `size` words, more than before or fewer. GCFLIP_NOT_YET
 * if the collector has asked the mutator to stop or holds it. After GCFLIP_NO_MEMORY the collection goes on as it stands. The time grows with the sizes
 * of both spaces. */
uint32_t gcflip_beside_prepare(gcflip_collector *collector, uint32_t size);

/* Performs `most` steps, at least 1: GCFLIP_DONE, or GCFLIP_CLEAN once nothing is left to do. GCFLIP_NO_ROOM if the new space is smaller than the heap,
 * and has no room for a copy. */
uint32_t gcflip_beside_work(gcflip_collector *collector, uint32_t most);

/* Asks the mutator to stop at its next safepoint: GCFLIP_DONE, also if it is asked or held already. GCFLIP_NOT_YET if it has not gone on since it was
 * let go. */
uint32_t gcflip_beside_ask(gcflip_collector *collector);

/* Takes the mutator with its log: GCFLIP_DONE if the collector holds it. GCFLIP_NOT_YET if the mutator has not been asked or has not stopped, or if
 * entries of an earlier log are left. Work applies them before it scans on. Replicas may be left to scan. */
uint32_t gcflip_beside_take(gcflip_collector *collector);

/* Asks no longer, and lets a mutator that has stopped go on in the same space: GCFLIP_DONE. The collection stays open, and no work is lost. */
uint32_t gcflip_beside_go(gcflip_collector *collector);

/* Copies the objects of all roots, those that have no replica yet, while the mutator waits: GCFLIP_DONE. Their fields are left to steps, also beside the
 * mutator, but those of raw objects are copied too. GCFLIP_NO_ROOM if the new space is smaller than the heap, and has no room for one. GCFLIP_NOT_YET if
 * the collector does not hold the mutator. The call does not allocate. Its time grows with the number of roots, and with the fields of raw objects to
 * which they refer. */
uint32_t gcflip_beside_place_roots(gcflip_collector *collector);

/* Flips if the collection is ready: GCFLIP_FLIPPED. The mutator may then go on in the new space. GCFLIP_NOT_READY if steps are left, or if a root's
 * object has no replica. GCFLIP_NOT_YET if the collector does not hold the mutator. A standing checker has compared each field beside the mutator. While
 * the mutator waits, it looks at the roots and at the objects made since the last stop, and is proved to accept. Only a flip whose number the option
 * `whole_each` names checks both spaces whole, in its place. After GCFLIP_NOT_READY nothing has changed. After GCFLIP_NO_MEMORY the heap has not, and the
 * collection goes on as it stands. It would begin anew, in a space of one word, if a count of the owners of the new words were full, at 2^63. */
uint32_t gcflip_beside_flip(gcflip_collector *collector);

/* Reads how many flips each checker has accepted since the heap was opened: GCFLIP_DONE. A check of both spaces whole takes time and memory that grow with
 * both, while the mutator waits. */
uint32_t gcflip_beside_flip_checks(const gcflip_collector *collector, gcflip_flip_checks *checks);

/* Copies the objects of roots, performs all steps that are left, and flips, while the mutator waits: GCFLIP_FLIPPED. GCFLIP_NOT_READY if the new space
 * is smaller than the heap, and has no room for a copy. GCFLIP_NOT_YET if the collector does not hold the mutator. After GCFLIP_NO_MEMORY some steps may
 * have been performed. The collector still holds the mutator, whose heap is unchanged. */
uint32_t gcflip_beside_finish(gcflip_collector *collector);

#ifdef __cplusplus
}
#endif
#endif
