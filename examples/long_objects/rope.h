/* Texts of any length on the heap of gcflip_heap.h, where an object has at most 65,535 fields and a number is below 2^63.
 *
 * A rope is nil for the empty text, a leaf, or a node. A leaf is a raw object: the number of its bytes, and then seven bytes in each number. A
 * node has two ropes, the number of bytes of the left one, and 64 times the number of all its bytes plus its height. The heights of its two ropes
 * differ by at most 1, so a rope of n leaves has a height below 1.45 log2(n) + 1. Nobody writes to a rope: ropes share their leaves and nodes.
 * Copy rope.h and rope.c, and change the kinds as you need them.
 *
 * Each call returns a number of gcflip_answers.h. If it is not the one for success, slot d holds what it held; after GCFLIP_FULL a program
 * collects and makes the call again, and after GCFLIP_NO_MEMORY collector steps shorten the log. */
#ifndef ROPE_H
#define ROPE_H

#include <gcflip_heap.h>

enum {
    ROPE_BYTES = 7,        /* in a word */
    ROPE_LEAF_WORDS = 512, /* a leaf has at most this many words of text */
    ROPE_MOST = ROPE_BYTES * ROPE_LEAF_WORDS,
    ROPE_SLOTS = 9,
    ROPE_NODE_KIND = 242,
    ROPE_LEAF_KIND = 243
};

/* The mutator whose slots the calls use. Those from `scratch` on, ROPE_SLOTS of them, are for the calls alone. rope_append and rope_concatenate
 * leave nil in them if they succeed; rope_read leaves a leaf in one. */
typedef struct rope_user {
    gcflip_heap *heap;
    uint8_t mutator;
    uint8_t scratch;
} rope_user;

/* Puts the text of slot s with `count` more bytes behind it into slot d: GCFLIP_DONE, GCFLIP_FULL or a refusal. If s holds nil, this makes a
 * rope of the bytes. */
uint32_t rope_append(const rope_user *user, uint8_t d, uint8_t s, const uint8_t *bytes, uint64_t count);

/* Puts the text of slot s and behind it that of slot t into slot d: GCFLIP_DONE, GCFLIP_FULL or a refusal. Both texts stay. */
uint32_t rope_concatenate(const rope_user *user, uint8_t d, uint8_t s, uint8_t t);

/* Copies `count` bytes of the text in slot s, from byte `first` on: GCFLIP_DONE, or GCFLIP_NO_FIELD if the text has fewer; then `bytes` keeps
 * what it holds. */
uint32_t rope_read(const rope_user *user, uint8_t s, uint64_t first, uint8_t *bytes, uint64_t count);

/* Reads the number of bytes of the text in slot s, and its height, which is 0 for a leaf or nil: GCFLIP_DONE, or GCFLIP_NO_OBJECT if it holds a
 * number. */
uint32_t rope_measure(const rope_user *user, uint8_t s, uint64_t *length, uint32_t *height);

#endif
