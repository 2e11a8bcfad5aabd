/* A miniature of erts/emulator/beam/erl_gc.c: minor and major collections of a process, which do what Erlang's do, and a heap with an object of each kind. CI
 * compiles the adapter with it, and plants faults. The words are those of Erlang: see erts.h. */
#include "erts.h"
#include "faults.h"
#include <stdlib.h>
#include <string.h>

enum { WORDS = 4096, WORDS_OF_A_MESSAGE = 1500, WITH_A_MESSAGE = 3 };

Eterm stub_literals[8] = {make_arityval(1), make_small(7)};

#include "adapter.c"

/* ---- The collector. Young objects below the high water survived a collection, and are promoted. */

static struct {
    Eterm *from, *from_end, *mature_end; /* the young generation */
    Eterm *old, *old_end;                /* the old one, if it is collected too */
    Eterm *to, *promoted;
} gc;

static int is_in(const Eterm *at, const Eterm *from, const Eterm *to) { return from <= at && at < to; }

static int is_collected(const Eterm *at) { return is_in(at, gc.from, gc.from_end) || (gc.old != NULL && is_in(at, gc.old, gc.old_end)); }

static Uint size_of(const Eterm *at)
{
    Uint terms = thing_subtag(*at) == FUN_SUBTAG ? ((const ErlFunThing *)at)->num_free + 1u : thing_subtag(*at) == SUB_BINARY_SUBTAG;
    return thing_subtag(*at) == MAP_SUBTAG ? 3 + at[1] : 1 + header_arity(*at) + terms;
}

/* Copies a small part of a binary as a binary of its own. */
static Uint copy_part(Eterm *copy, const ErlSubBin *sub)
{
    Eterm orig = *boxed_val(sub->orig) % 4 == TAG_PRIMARY_BOXED ? *boxed_val(sub->orig) : sub->orig;
    copy[0] = header_heap_bin(sub->size);
    copy[1] = sub->size;
    memcpy(copy + 2, binary_bytes(orig) + sub->offs + PLANTS(sub_binary_shifted), sub->size);
    return 2 + (sub->size + 7) / 8;
}

static void move_boxed(Eterm *old, Eterm **top, Eterm *reference)
{
    Eterm *copy = *top;
    int is_part = thing_subtag(*old) == SUB_BINARY_SUBTAG && certify_becomes_heap_binary((ErlSubBin *)old);
    Uint size = is_part ? copy_part(copy, (ErlSubBin *)old) : size_of(old);
    if (!is_part)
        memcpy(copy, old, size * sizeof *copy);
    *top = copy + size;
    *old = *reference = make_boxed(copy);
    if (certify_fault)
        certify_spoil_boxed(copy, old);
}

static void move_cons(Eterm *old, Eterm **top, Eterm *reference)
{
    Eterm *copy = *top;
    memcpy(copy, old, 2 * sizeof *copy);
    *top = copy + 2;
    old[0] = THE_NON_VALUE;
    old[1] = *reference = make_list(copy);
    if (certify_fault)
        certify_spoil_cons(copy, old, reference);
}

static void update(Eterm *reference)
{
    Eterm term = *reference, *at = certify_memory_of(term);
    if (!certify_is_pointer(term) || !is_collected(at))
        return;
    Eterm **top = is_in(at, gc.from, gc.mature_end) ? &gc.promoted : &gc.to;
    if ((term & 3) == TAG_PRIMARY_LIST && at[0] == THE_NON_VALUE)
        *reference = at[1];
    else if ((term & 3) == TAG_PRIMARY_LIST)
        move_cons(at, top, reference);
    else if (!is_header(*at))
        *reference = *at;
    else
        move_boxed(at, top, reference);
}

/* Updates the words from here on, up to the top, which rises meanwhile. Returns where it ended. */
static Eterm *swept(Eterm *at, Eterm *const *top)
{
    while (at < *top) {
        Eterm word = *at;
        if (is_header(word) && header_is_thing(word)) {
            ErlBinMatchState *state = (ErlBinMatchState *)at;
            if (thing_subtag(word) == BIN_MATCHSTATE_SUBTAG) {
                update(&state->mb.orig);
                certify_set_base(&state->mb);
            }
            at += 1 + thing_arityval(word);
        } else {
            update(at++);
        }
    }
    return at;
}

static void update_roots(Process *p, Eterm *registers, int count)
{
    for (Eterm *at = p->stop + PLANTS(stack_word_missed); at < p->hend; at++)
        update(at);
    for (int i = PLANTS(registers_missed) ? count : 0; i < count; i++)
        update(&registers[i]);
    for (Uint i = 0; i < p->dictionary->usedSlots && !PLANTS(dictionary_missed); i++)
        update(&p->dictionary->data[i]);
    for (ErtsMessage *message = p->sig_qs.first; message != NULL; message = message->next)
        if (!message->data.attached && !PLANTS(message_missed))
            update(&message->m[0]);
}

/* Moves a message to the heap at the end of one of the collections, as a whole. No root refers to it, so it is garbage at the next one. */
static void move_message(Process *p)
{
    static int collections;
    if (++collections != WITH_A_MESSAGE)
        return;
    for (int i = 0; i < WORDS_OF_A_MESSAGE; i++)
        *p->htop++ = NIL;
}

/* Collects, and moves the stack to the end of the new heap, as Erlang does. */
static int collect(Process *p, int is_major, Eterm *registers, int count)
{
    Eterm *heap = calloc(WORDS, sizeof *heap), *was = p->heap, *was_old = p->old_heap;
    Uint stack = (Uint)(p->hend - p->stop);
    gc.from = p->heap;
    gc.from_end = p->htop;
    gc.mature_end = is_major ? p->heap : p->high_water;
    gc.old = is_major ? p->old_heap : NULL;
    gc.old_end = p->old_htop;
    gc.to = heap;
    gc.promoted = p->old_htop;
    update_roots(p, registers, count);
    int is_swept = !is_major && !(gc.mature_end > gc.from && PLANTS(promoted_not_swept));
    for (Eterm *young = heap, *old = p->old_htop; young < gc.to || (is_swept && old < gc.promoted);) {
        young = swept(young, &gc.to);
        old = is_swept ? swept(old, &gc.promoted) : old;
    }
    memcpy(heap + WORDS - stack, p->stop, stack * sizeof *heap);
    p->heap = heap;
    p->htop = p->high_water = gc.to;
    move_message(p);
    p->hend = heap + WORDS;
    p->stop = p->hend - stack;
    p->old_htop = is_major ? NULL : gc.promoted;
    p->old_heap = is_major ? NULL : p->old_heap;
    free(was);
    if (is_major)
        free(was_old);
    return 1;
}

static int minor(Process *p, ErlHeapFragment *fragment, int need, Eterm *registers, int count, Uint usage, Uint *reclaimed)
{
    (void)fragment, (void)need, (void)usage, (void)reclaimed;
    if (p->old_heap == NULL)
        p->old_heap = p->old_htop = calloc(WORDS, sizeof(Eterm));
    return collect(p, 0, registers, count);
}

static int major(Process *p, ErlHeapFragment *fragment, int need, Eterm *registers, int count, Uint usage, Uint *reclaimed)
{
    (void)fragment, (void)need, (void)usage, (void)reclaimed;
    return collect(p, 1, registers, count);
}

/* ---- A heap. */

static Process process;

static Eterm boxed(const Eterm *words, Uint count)
{
    Eterm *at = process.htop;
    memcpy(at, words, count * sizeof *at);
    process.htop += count;
    return make_boxed(at);
}

static Eterm tuple(Eterm first, Eterm second)
{
    const Eterm words[] = {make_arityval(2), first, second};
    return boxed(words, 3);
}

static Eterm cons(Eterm car, Eterm cdr)
{
    Eterm *at = process.htop;
    at[0] = car;
    at[1] = cdr;
    process.htop += 2;
    return make_list(at);
}

/* Returns a list of an object of each kind, of which some share others. */
static Eterm filled_heap(byte *outside)
{
    const Eterm number[] = {_make_header(1, FLOAT_SUBTAG), 0x3FF8000000000000}, large[] = {_make_header(2, POS_BIG_SUBTAG), 5, 6},
        reference[] = {_make_header(3, REF_SUBTAG), UINT32_MAX, 8, 9}, bytes[] = {header_heap_bin(33), 33, 0x0706050403020100, 0x0F0E0D0C0B0A0908,
            0x1716151413121110, 0x1F1E1D1C1B1A1918, 0x20};
    Eterm binary = boxed(bytes, 7), pair = tuple(boxed(number, 2), make_boxed(stub_literals)), list = cons(pair, cons(pair, NIL)), keys = tuple(make_small(1), make_small(2));
    const Eterm map[] = {MAP_HEADER_FLATMAP, 2, keys, pair, list};
    const ProcBin off_heap = {HEADER_PROC_BIN, 5, NULL, outside, outside, 0};
    const ErlSubBin part = {HEADER_SUB_BIN, 5, 3, 0, 0, 0, binary}, long_part = {part.thing_word, 30, 1, 0, 0, 0, binary};
    const ErlFunThing fun = {_make_header(ERL_FUN_SIZE - 2, FUN_SUBTAG), {outside}, NULL, 1, 1, make_small(3), {pair}};
    const ErlBinMatchState state = {_make_header(5, BIN_MATCHSTATE_SUBTAG), {binary, binary_bytes(binary), 16, 264}, {0}};
    const Eterm *const objects[] = {large, reference, map, (const Eterm *)&off_heap, (const Eterm *)&part, (const Eterm *)&long_part, (const Eterm *)&fun,
        (const Eterm *)&state};
    for (size_t i = 0; i < sizeof objects / sizeof *objects; i++)
        list = cons(boxed(objects[i], size_of(objects[i])), list);
    return cons(binary, list);
}

/* Makes garbage, collects, and makes more of what is kept. */
static void run(Eterm registers[2])
{
    Uint reclaimed = 0;
    for (int i = 1; i <= 8; i++) {
        registers[0] = cons(tuple(make_small(i), registers[0]), registers[0]);
        *process.stop = tuple(registers[0], NIL);
        process.dictionary->data[0] = tuple(make_small(i), *process.stop);
        tuple(registers[0], registers[0]);
        certify_collect(i % 4 == 0 ? major : minor, i % 4 == 0, &process, NULL, 0, registers, 2, 0, &reclaimed);
    }
}

int main(void)
{
    static byte outside[8] = "outside";
    static ErtsMessage message, attached;
    process.heap = process.htop = process.high_water = calloc(WORDS, sizeof(Eterm));
    process.hend = process.heap + WORDS;
    process.stop = process.hend - 3;
    process.dictionary = calloc(1, sizeof *process.dictionary);
    process.dictionary->usedSlots = 2;
    process.dictionary->data[1] = NIL;
    process.seq_trace_token = process.group_leader = process.parent = process.fvalue = process.ftrace = NIL;
    Eterm registers[2] = {filled_heap(outside), NIL};
    message = (ErtsMessage){&attached, {NULL}, {tuple(registers[0], NIL), NIL, NIL}};
    attached = (ErtsMessage){NULL, {&attached}, {make_boxed(8), NIL, NIL}}; /* its term lies elsewhere */
    process.sig_qs.first = &message;
    process.stop[0] = process.stop[1] = process.stop[2] = NIL;
    run(registers);
    free(process.heap);
    free(process.old_heap);
    free(process.dictionary);
    return 0;
}
