/* Ropes: see rope.h. Two ropes are joined as trees are in 'Just Join for Parallel Ordered Sets' by Blelloch, Ferizovic and Sun: one goes down
 * the side of the taller tree to a rope that is at most one higher than the other tree, makes a node of the two, and makes new nodes
 * for those passed, each of them balanced by at most two rotations. */
#include "rope.h"
#include <string.h>

/* The scratch slots, from user->scratch on. */
enum { TREE, OUTER, NEAR, FAR, INNER, NODE, FIRST_NUMBER, SECOND_NUMBER, WHOLE };

/* The fields of a node. */
enum { LEFT, RIGHT, LEFT_BYTES, BYTES_AND_HEIGHT, NODE_FIELDS };

enum { HEIGHTS = 64 };

#define SLOT(name) ((uint8_t)(user->scratch + (name)))

/* Returns the answer of a call from this function if it is not the one wanted. */
#define TRY(wanted, call)           \
    do {                            \
        uint32_t answer_ = (call);  \
        if (answer_ != (wanted))    \
            return answer_;         \
    } while (0)

/* ---- Reading nodes */

static uint32_t child(const rope_user *user, uint8_t d, uint8_t s, uint16_t side)
{
    uint64_t number = 0;
    return gcflip_heap_get(user->heap, user->mutator, d, s, side, &number);
}

static uint32_t number_in(const rope_user *user, uint8_t s, uint16_t field, uint64_t *number)
{
    return gcflip_heap_get(user->heap, user->mutator, SLOT(FIRST_NUMBER), s, field, number);
}

uint32_t rope_measure(const rope_user *user, uint8_t s, uint64_t *length, uint32_t *height)
{
    gcflip_view view = {0, 0, 0};
    uint64_t number = 0;
    uint32_t seen = gcflip_heap_look(user->heap, user->mutator, s, &view);
    switch (seen) {
    case GCFLIP_NIL:
        break;
    case GCFLIP_RAW_OBJECT:
        TRY(GCFLIP_DONE, gcflip_heap_raw_read(user->heap, user->mutator, s, 0, &number, 1));
        number *= HEIGHTS;
        break;
    case GCFLIP_OBJECT:
        TRY(GCFLIP_NUMBER, number_in(user, s, BYTES_AND_HEIGHT, &number));
        break;
    default:
        return GCFLIP_IS_REFUSED(seen) ? seen : GCFLIP_NO_OBJECT;
    }
    *length = number / HEIGHTS;
    *height = (uint32_t)(number % HEIGHTS);
    return GCFLIP_DONE;
}

/* ---- Making nodes */

/* Puts a node of two ropes into slot d, which may be the slot of one of them. */
static uint32_t make_node(const rope_user *user, uint8_t d, uint8_t left, uint8_t right)
{
    const uint8_t fields[NODE_FIELDS] = {left, right, SLOT(FIRST_NUMBER), SLOT(SECOND_NUMBER)};
    uint64_t left_length = 0, right_length = 0;
    uint32_t left_height = 0, right_height = 0;
    TRY(GCFLIP_DONE, rope_measure(user, left, &left_length, &left_height));
    TRY(GCFLIP_DONE, rope_measure(user, right, &right_length, &right_height));
    uint32_t height = 1 + (left_height > right_height ? left_height : right_height);
    TRY(GCFLIP_DONE, gcflip_heap_set_number(user->heap, user->mutator, SLOT(FIRST_NUMBER), left_length));
    TRY(GCFLIP_DONE, gcflip_heap_set_number(user->heap, user->mutator, SLOT(SECOND_NUMBER), HEIGHTS * (left_length + right_length) + height));
    TRY(GCFLIP_MADE, gcflip_heap_new_from(user->heap, user->mutator, SLOT(NODE), ROPE_NODE_KIND, fields, NODE_FIELDS));
    return gcflip_heap_move(user->heap, user->mutator, d, SLOT(NODE));
}

/* Puts a node into slot d whose rope on this side is `inner`, and whose other rope is `outer`. */
static uint32_t make_on_side(const rope_user *user, uint8_t d, uint8_t outer, uint8_t inner, uint16_t side)
{
    return side == RIGHT ? make_node(user, d, outer, inner) : make_node(user, d, inner, outer);
}

/* Puts a balanced node of OUTER, and of TREE on this side, into TREE. TREE may be higher by 2 than OUTER, but not lower by 2. */
static uint32_t balance(const rope_user *user, uint16_t side)
{
    uint64_t length = 0;
    uint32_t outer = 0, tree = 0, near = 0, far = 0;
    TRY(GCFLIP_DONE, rope_measure(user, SLOT(OUTER), &length, &outer));
    TRY(GCFLIP_DONE, rope_measure(user, SLOT(TREE), &length, &tree));
    if (tree <= outer + 1)
        return make_on_side(user, SLOT(TREE), SLOT(OUTER), SLOT(TREE), side);
    TRY(GCFLIP_OBJECT, child(user, SLOT(NEAR), SLOT(TREE), !side));
    TRY(GCFLIP_OBJECT, child(user, SLOT(FAR), SLOT(TREE), side));
    TRY(GCFLIP_DONE, rope_measure(user, SLOT(NEAR), &length, &near));
    TRY(GCFLIP_DONE, rope_measure(user, SLOT(FAR), &length, &far));
    if (near > far) {
        TRY(GCFLIP_OBJECT, child(user, SLOT(INNER), SLOT(NEAR), side));
        TRY(GCFLIP_OBJECT, child(user, SLOT(NEAR), SLOT(NEAR), !side));
        TRY(GCFLIP_DONE, make_on_side(user, SLOT(FAR), SLOT(INNER), SLOT(FAR), side));
    }
    TRY(GCFLIP_DONE, make_on_side(user, SLOT(OUTER), SLOT(OUTER), SLOT(NEAR), side));
    return make_on_side(user, SLOT(TREE), SLOT(OUTER), SLOT(FAR), side);
}

/* Puts the rope this many nodes down a side of slot s into slot d. */
static uint32_t go_down(const rope_user *user, uint8_t d, uint8_t s, uint16_t side, uint32_t levels)
{
    TRY(GCFLIP_DONE, gcflip_heap_move(user->heap, user->mutator, d, s));
    for (; levels > 0; levels--)
        TRY(GCFLIP_OBJECT, child(user, d, d, side));
    return GCFLIP_DONE;
}

/* Joins two ropes, of which the first is at least as high and the second is on this side of it. Puts the result into TREE. */
static uint32_t join(const rope_user *user, uint8_t high, uint8_t low, uint16_t side)
{
    uint64_t length = 0;
    uint32_t height = 0, low_height = 0, levels = 0;
    TRY(GCFLIP_DONE, rope_measure(user, low, &length, &low_height));
    TRY(GCFLIP_DONE, gcflip_heap_move(user->heap, user->mutator, SLOT(OUTER), high));
    TRY(GCFLIP_DONE, rope_measure(user, SLOT(OUTER), &length, &height));
    for (; height > low_height + 1; levels++) {
        TRY(GCFLIP_OBJECT, child(user, SLOT(OUTER), SLOT(OUTER), side));
        TRY(GCFLIP_DONE, rope_measure(user, SLOT(OUTER), &length, &height));
    }
    TRY(GCFLIP_DONE, make_on_side(user, SLOT(TREE), SLOT(OUTER), low, side));
    while (levels-- > 0) {
        TRY(GCFLIP_DONE, go_down(user, SLOT(OUTER), high, side, levels));
        TRY(GCFLIP_OBJECT, child(user, SLOT(OUTER), SLOT(OUTER), !side));
        TRY(GCFLIP_DONE, balance(user, side));
    }
    return GCFLIP_DONE;
}

/* ---- Leaves */

static uint32_t words_for(uint64_t bytes)
{
    return (uint32_t)((bytes + ROPE_BYTES - 1) / ROPE_BYTES);
}

/* Puts a leaf of at most ROPE_MOST bytes into TREE. */
static uint32_t make_leaf(const rope_user *user, const uint8_t *bytes, uint64_t count)
{
    uint64_t words[1 + ROPE_LEAF_WORDS] = {count};
    uint32_t fields = 1 + words_for(count);
    for (uint64_t i = 0; i < count; i++)
        words[1 + i / ROPE_BYTES] |= (uint64_t)bytes[i] << i % ROPE_BYTES * 8;
    TRY(GCFLIP_MADE, gcflip_heap_new_raw(user->heap, user->mutator, SLOT(TREE), ROPE_LEAF_KIND, (uint16_t)fields));
    return gcflip_heap_raw_write(user->heap, user->mutator, SLOT(TREE), 0, SLOT(FIRST_NUMBER), words, fields);
}

/* Copies bytes of the leaf in slot s, which has them. */
static uint32_t read_leaf(const rope_user *user, uint8_t s, uint64_t first, uint8_t *bytes, uint64_t count)
{
    uint64_t words[ROPE_LEAF_WORDS] = {0};
    uint64_t word = first / ROPE_BYTES;
    TRY(GCFLIP_DONE, gcflip_heap_raw_read(user->heap, user->mutator, s, (uint16_t)(1 + word), words, words_for(first + count) - word));
    for (uint64_t i = 0, from = first % ROPE_BYTES; i < count; i++, from++)
        bytes[i] = (uint8_t)(words[from / ROPE_BYTES] >> from % ROPE_BYTES * 8);
    return GCFLIP_DONE;
}

/* Reads as many of the bytes as one leaf has. Writes their number to `done`. */
static uint32_t read_piece(const rope_user *user, uint8_t s, uint64_t first, uint8_t *bytes, uint64_t count, uint64_t *done)
{
    gcflip_view view = {0, 0, 0};
    uint64_t left = 0, length = 0;
    uint8_t at = s;
    while (gcflip_heap_look(user->heap, user->mutator, at, &view) == GCFLIP_OBJECT) {
        TRY(GCFLIP_NUMBER, number_in(user, at, LEFT_BYTES, &left));
        uint16_t side = first < left ? LEFT : RIGHT;
        first -= side == RIGHT ? left : 0;
        TRY(GCFLIP_OBJECT, child(user, SLOT(OUTER), at, side));
        at = SLOT(OUTER);
    }
    TRY(GCFLIP_DONE, gcflip_heap_raw_read(user->heap, user->mutator, at, 0, &length, 1));
    *done = length - first < count ? length - first : count;
    return read_leaf(user, at, first, bytes, *done);
}

/* ---- Calls */

/* Makes one leaf of two. */
static uint32_t merge_leaves(const rope_user *user, uint8_t s, uint64_t first, uint8_t t, uint64_t second)
{
    uint8_t bytes[ROPE_MOST];
    TRY(GCFLIP_DONE, read_leaf(user, s, 0, bytes, first));
    TRY(GCFLIP_DONE, read_leaf(user, t, 0, bytes + first, second));
    return make_leaf(user, bytes, first + second);
}

/* Puts both texts into TREE. */
static uint32_t concatenate(const rope_user *user, uint8_t s, uint8_t t)
{
    uint64_t first = 0, second = 0;
    uint32_t first_height = 0, second_height = 0;
    TRY(GCFLIP_DONE, rope_measure(user, s, &first, &first_height));
    TRY(GCFLIP_DONE, rope_measure(user, t, &second, &second_height));
    if (first == 0 || second == 0)
        return gcflip_heap_move(user->heap, user->mutator, SLOT(TREE), first == 0 ? t : s);
    if (first + second <= ROPE_MOST && first_height + second_height == 0)
        return merge_leaves(user, s, first, t, second);
    return first_height >= second_height ? join(user, s, t, RIGHT) : join(user, t, s, LEFT);
}

/* Moves the result to slot d, and lets go of what the scratch slots hold. */
static uint32_t deliver(const rope_user *user, uint8_t d)
{
    TRY(GCFLIP_DONE, gcflip_heap_move(user->heap, user->mutator, d, SLOT(TREE)));
    for (uint8_t slot = TREE; slot < ROPE_SLOTS; slot++)
        TRY(GCFLIP_DONE, gcflip_heap_set_nil(user->heap, user->mutator, SLOT(slot)));
    return GCFLIP_DONE;
}

uint32_t rope_concatenate(const rope_user *user, uint8_t d, uint8_t s, uint8_t t)
{
    TRY(GCFLIP_DONE, concatenate(user, s, t));
    return deliver(user, d);
}

uint32_t rope_append(const rope_user *user, uint8_t d, uint8_t s, const uint8_t *bytes, uint64_t count)
{
    TRY(GCFLIP_DONE, gcflip_heap_move(user->heap, user->mutator, SLOT(WHOLE), s));
    TRY(GCFLIP_DONE, gcflip_heap_move(user->heap, user->mutator, SLOT(TREE), s));
    while (count > 0) {
        uint64_t piece = count < ROPE_MOST ? count : ROPE_MOST;
        TRY(GCFLIP_DONE, make_leaf(user, bytes, piece));
        TRY(GCFLIP_DONE, concatenate(user, SLOT(WHOLE), SLOT(TREE)));
        TRY(GCFLIP_DONE, gcflip_heap_move(user->heap, user->mutator, SLOT(WHOLE), SLOT(TREE)));
        bytes += piece;
        count -= piece;
    }
    return deliver(user, d);
}

uint32_t rope_read(const rope_user *user, uint8_t s, uint64_t first, uint8_t *bytes, uint64_t count)
{
    uint64_t length = 0, done = 0;
    uint32_t height = 0;
    TRY(GCFLIP_DONE, rope_measure(user, s, &length, &height));
    if (first > length || count > length - first)
        return GCFLIP_NO_FIELD;
    for (; count > 0; first += done, bytes += done, count -= done)
        TRY(GCFLIP_DONE, read_piece(user, s, first, bytes, count, &done));
    return GCFLIP_DONE;
}
