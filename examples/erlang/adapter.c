/* The adapter for the collections of the processes of Erlang/OTP 25.2.3. erlang.patch includes it in erts/emulator/beam/erl_gc.c, in front of
 * garbage_collect, whose calls of the collector become calls of certify_collect.
 *
 * Each process has a heap of its own. A minor collection copies the young objects, and promotes those that survived one before; the old generation stays. A
 * major collection copies both generations. The collector frees the old space, so pairs are inferred. Each thread that collects has a
 * collection of the library of its own, so several schedulers check at once.
 *
 * Objects have two tags: a reference to a cons ends in 1, and one to a boxed object in 2. An address of a snapshot has the tag. Young objects in a
 * minor collection are those that are neither literals nor in the old generation as it was. Promoted ones lie at or above its old top. */
#include "adapter_kit.h"
#include <pthread.h>
#include <stdatomic.h>

enum { KIND_CONS = 16 };

/* What this thread checks. */
static _Thread_local struct {
    gcflip_collection *collection;
    gcflip_adapter adapter;
    gcflip_names names;
    struct kit_roots roots;
    Process *process;
    Eterm *registers;
    int register_count;
    Eterm *old_from, *old_to; /* the old generation that stays, or NULL */
    struct certify_message {
        ErtsMessage *message;
        int first; /* of its words */
    } *messages;
    size_t message_count, message_room;
} here;

static int certify_is_before(const gcflip_snapshot *snapshot) { return snapshot == gcflip_before(here.collection); }

/* ---- Words. is_list and is_boxed would also say yes of a header. */

static int certify_is_pointer(Eterm term) { return (term & 3) == TAG_PRIMARY_LIST || (term & 3) == TAG_PRIMARY_BOXED; }

#include "spoil.c"

static Eterm *certify_memory_of(uint64_t address) { return (Eterm *)(address & ~(uint64_t)3); }

static int certify_stays(Eterm term)
{
    Eterm *at = certify_memory_of(term);
    return (here.old_from <= at && at < here.old_to) || erts_is_literal(term, at);
}

static uint64_t certify_word(gcflip_snapshot *snapshot, uint64_t term)
{
    if (!certify_is_pointer(term))
        return gcflip_snapshot_constant(snapshot, term);
    return certify_stays(term) ? gcflip_snapshot_fixed(snapshot, term) : gcflip_snapshot_reference(snapshot, term);
}

/* Returns how many words can be read from here on. Before the collection nothing limits them, since heap fragments can lie anywhere. After it they end with
 * the new heap, or with what was promoted. */
static uint64_t certify_room(const gcflip_snapshot *snapshot, const Eterm *at)
{
    Process *p = here.process;
    const Eterm *promoted = here.old_to != NULL ? here.old_to : OLD_HEAP(p);
    if (certify_is_before(snapshot))
        return UINT64_MAX;
    if (HEAP_START(p) <= at && at < HEAP_TOP(p))
        return (uint64_t)(HEAP_TOP(p) - at);
    return promoted != NULL && promoted <= at && at < OLD_HTOP(p) ? (uint64_t)(OLD_HTOP(p) - at) : 0;
}

/* ---- Objects. Each function gets the words that can be read behind the header, and places nothing if those of the object are more. */

static void certify_number(gcflip_snapshot *snapshot, uint32_t place, uint64_t field, uint64_t number)
{
    gcflip_snapshot_set(snapshot, place, field, gcflip_snapshot_constant(snapshot, number));
}

static void certify_numbers(gcflip_snapshot *snapshot, uint32_t place, uint64_t first, const Eterm *words, uint64_t count)
{
    gcflip_snapshot_set_words(snapshot, place, first, words, count, gcflip_snapshot_constant);
}

static uint32_t certify_kind(Eterm header) { return (uint32_t)(header & _HEADER_SUBTAG_MASK) >> 2; }

static void certify_map(gcflip_snapshot *snapshot, uint64_t address, Eterm *at, uint64_t most)
{
    Eterm header = *at;
    int is_flat = is_flatmap_header(header), is_node = MAP_HEADER_TYPE(header) == MAP_HEADER_TAG_HAMT_NODE_BITMAP;
    if (most == 0 || (is_flat && at[1] > MAP_SMALL_MAP_LIMIT))
        return;
    uint64_t sizes = is_node ? 0 : 1, count = is_flat ? at[1] + 1 : hashmap_bitcount(MAP_HEADER_VAL(header));
    if (sizes + count > most)
        return;
    uint32_t place = gcflip_snapshot_object(snapshot, address, certify_kind(header), 1 + sizes + count);
    certify_number(snapshot, place, 0, header);
    certify_numbers(snapshot, place, 1, at + 1, sizes);
    gcflip_snapshot_set_words(snapshot, place, 1 + sizes, at + 1 + sizes, count, certify_word);
}

/* The link of the list of objects with parts off the heap is the collector's own, here and below. */
static void certify_fun(gcflip_snapshot *snapshot, uint64_t address, const ErlFunThing *fun, uint64_t most)
{
    if (most + 1 < ERL_FUN_SIZE || most + 1 < (uint64_t)ERL_FUN_SIZE + fun->num_free)
        return;
    uint64_t variables = fun->num_free;
    uint32_t place = gcflip_snapshot_object(snapshot, address, certify_kind(fun->thing_word), 4 + variables);
    certify_number(snapshot, place, 0, fun->thing_word);
    certify_number(snapshot, place, 1, (uint64_t)fun->entry.disp);
    certify_number(snapshot, place, 2, (uint64_t)fun->arity << 8 | fun->num_free);
    gcflip_snapshot_set_words(snapshot, place, 3, &fun->creator, 1 + variables, certify_word);
}

/* A binary off the heap. The collection may move the bytes of one that is written to. */
static void certify_proc_bin(gcflip_snapshot *snapshot, uint64_t address, const ProcBin *bin, uint64_t most)
{
    if (most + 1 < PROC_BIN_SIZE || bin->thing_word != HEADER_PROC_BIN)
        return;
    int is_written = bin->flags != 0;
    uint32_t place = gcflip_snapshot_object(snapshot, address, certify_kind(bin->thing_word), 3);
    certify_number(snapshot, place, 0, bin->size);
    certify_number(snapshot, place, 1, is_written ? 0 : (uint64_t)bin->val);
    certify_number(snapshot, place, 2, is_written ? 0 : (uint64_t)bin->bytes);
}

/* Finds the bytes of a binary that can be read, and their number. Returns NULL if there is none, such as at an address between words. */
static const byte *certify_bytes_of(const gcflip_snapshot *snapshot, Eterm term, uint64_t *count)
{
    if ((term & 7) != TAG_PRIMARY_BOXED)
        return NULL;
    Eterm *at = certify_memory_of(term);
    uint64_t most = certify_stays(term) ? UINT64_MAX : certify_room(snapshot, at);
    if (most < 2)
        return NULL;
    *count = at[1];
    if (*at == HEADER_PROC_BIN)
        return most >= PROC_BIN_SIZE ? ((ProcBin *)at)->bytes : NULL;
    int is_heap_binary = (*at & _TAG_HEADER_MASK) == _TAG_HEADER_HEAP_BIN && (most == UINT64_MAX || at[1] <= 8 * (most - 2));
    return is_heap_binary ? (const byte *)((ErlHeapBin *)at)->data : NULL;
}

/* The collector makes a binary of its own of each of these, so the snapshot before has what the program reads of it. */
static int certify_becomes_heap_binary(const ErlSubBin *sub)
{
    return sub->bitsize == 0 && sub->bitoffs == 0 && sub->is_writable == 0 && sub->size <= 3 * sizeof(Eterm);
}

static void certify_sub_binary(gcflip_snapshot *snapshot, uint64_t address, const ErlSubBin *sub, uint64_t most)
{
    uint64_t count = 0;
    if (most + 1 < ERL_SUB_BIN_SIZE || sub->thing_word != HEADER_SUB_BIN)
        return;
    if (certify_is_before(snapshot) && certify_becomes_heap_binary(sub)) {
        const byte *bytes = certify_bytes_of(snapshot, sub->orig, &count);
        if (bytes != NULL && sub->offs <= count && sub->size <= count - sub->offs)
            gcflip_snapshot_bytes(snapshot, address, HEAP_BINARY_SUBTAG >> 2, bytes + sub->offs, sub->size);
        return;
    }
    uint32_t place = gcflip_snapshot_object(snapshot, address, certify_kind(sub->thing_word), 4);
    certify_number(snapshot, place, 0, sub->size);
    certify_number(snapshot, place, 1, sub->offs);
    certify_number(snapshot, place, 2, (uint64_t)sub->bitsize << 16 | (uint64_t)sub->bitoffs << 8 | sub->is_writable);
    gcflip_snapshot_set(snapshot, place, 3, certify_word(snapshot, sub->orig));
}

/* A match context has a pointer to bytes of its binary: described by the distance from the first one. */
static void certify_match_context(gcflip_snapshot *snapshot, uint64_t address, const ErlBinMatchState *state, uint64_t most)
{
    uint64_t arity = header_arity(state->thing_word), count = 0;
    if (arity > most || arity < 4)
        return;
    uint32_t place = gcflip_snapshot_object(snapshot, address, certify_kind(state->thing_word), arity);
    gcflip_snapshot_set(snapshot, place, 0, certify_word(snapshot, state->mb.orig));
    const byte *bytes = certify_bytes_of(snapshot, state->mb.orig, &count);
    if (bytes != NULL)
        certify_number(snapshot, place, 1, (uint64_t)(state->mb.base - bytes));
    certify_numbers(snapshot, place, 2, (const Eterm *)state + 3, arity - 2);
}

/* Numbers and references are words. So are things of other nodes and references to what lies off the heap, but for the link. */
static void certify_others(gcflip_snapshot *snapshot, uint64_t address, Eterm *at, uint64_t most)
{
    uint64_t arity = header_arity(*at);
    int has_link = is_external_header(*at) || (is_ref_thing_header(*at) && arity > 0 && is_magic_ref_thing(at));
    if (arity > most)
        return;
    if (!has_link) {
        gcflip_snapshot_words(snapshot, address, certify_kind(*at), at + 1, arity);
        return;
    }
    uint32_t place = gcflip_snapshot_object(snapshot, address, certify_kind(*at), arity);
    certify_numbers(snapshot, place, 0, at + 1, arity);
    if (arity > 1)
        certify_number(snapshot, place, 1, 0);
}

static void certify_boxed(gcflip_snapshot *snapshot, uint64_t address, Eterm *at, uint64_t most)
{
    switch (*at & _HEADER_SUBTAG_MASK) {
    case ARITYVAL_SUBTAG:
        if (header_arity(*at) <= most)
            gcflip_snapshot_set_words(snapshot, gcflip_snapshot_object(snapshot, address, certify_kind(*at), header_arity(*at)), 0, at + 1,
                header_arity(*at), certify_word);
        return;
    case MAP_SUBTAG: certify_map(snapshot, address, at, most); return;
    case FUN_SUBTAG: certify_fun(snapshot, address, (const ErlFunThing *)at, most); return;
    case REFC_BINARY_SUBTAG: certify_proc_bin(snapshot, address, (const ProcBin *)at, most); return;
    case SUB_BINARY_SUBTAG: certify_sub_binary(snapshot, address, (const ErlSubBin *)at, most); return;
    case BIN_MATCHSTATE_SUBTAG: certify_match_context(snapshot, address, (const ErlBinMatchState *)at, most); return;
    case HEAP_BINARY_SUBTAG:
        if (most >= 1 && header_arity(*at) <= most && *at == header_heap_bin(at[1]))
            gcflip_snapshot_bytes(snapshot, address, certify_kind(*at), ((const ErlHeapBin *)at)->data, at[1]);
        return;
    default: certify_others(snapshot, address, at, most);
    }
}

/* Places the object at this address, and sets its fields. What is no whole object is not placed, so references to it stay doubtful. */
static void certify_object(gcflip_snapshot *snapshot, uint64_t address)
{
    Eterm *at = certify_memory_of(address);
    uint64_t room = certify_room(snapshot, at);
    if ((address & 7) != TAG_PRIMARY_LIST && (address & 7) != TAG_PRIMARY_BOXED)
        return;
    if ((address & 3) == TAG_PRIMARY_BOXED && room >= 1 && is_header(*at))
        certify_boxed(snapshot, address, at, room - 1);
    else if ((address & 3) == TAG_PRIMARY_LIST && room >= 2)
        gcflip_snapshot_set_words(snapshot, gcflip_snapshot_object(snapshot, address, KIND_CONS, 2), 0, at, 2, certify_word);
}

/* ---- Roots. */

static void certify_roots(const char *name, const Eterm *words, uint64_t count)
{
    kit_section(&here.roots, name);
    here.roots.count += count;
    gcflip_snapshot_roots(here.roots.snapshot, words, count, certify_word);
}

static void certify_keep_message(ErtsMessage *message, int first)
{
    here.messages = kit_grown(here.messages, &here.message_room, here.message_count, sizeof *here.messages);
    here.messages[here.message_count++] = (struct certify_message){message, first};
}

/* Lists the messages whose terms are on the heap. Those that the collection moves there are not among them. */
static void certify_list_messages(Process *p)
{
    here.message_count = 0;
    if ((p->sig_qs.flags & (FS_OFF_HEAP_MSGQ | FS_OFF_HEAP_MSGQ_CHNG)) == FS_OFF_HEAP_MSGQ)
        return;
    for (ErtsMessage *message = p->sig_qs.first; message != NULL; message = message->next)
        if (ERTS_SIG_IS_INTERNAL_MSG(message) && !message->data.attached)
            certify_keep_message(message, 0);
    for (ErtsMessage *message = p->sig_qs.cont; message != NULL; message = message->next)
        if (ERTS_SIG_IS_INTERNAL_MSG(message) && !message->data.attached)
            certify_keep_message(message, 0);
        else if (ERTS_SIG_IS_HEAP_ALIAS_MSG(message))
            certify_keep_message(message, 1);
}

static void certify_read(void *given, gcflip_snapshot *snapshot)
{
    Process *p = here.process;
    Eterm *saved;
    Uint saved_count;
    (void)given;
    kit_begin_roots(&here.roots, snapshot);
    certify_roots("stack word", p->stop, (uint64_t)(STACK_START(p) - p->stop));
    certify_roots("register", here.registers, here.register_count > 0 ? (uint64_t)here.register_count : 0);
    if (p->dictionary != NULL)
        certify_roots("process dictionary", ERTS_PD_START(p->dictionary), ERTS_PD_SIZE(p->dictionary));
    certify_roots("seq_trace_token", &p->seq_trace_token, 1);
    certify_roots("group_leader", &p->group_leader, 1);
    certify_roots("parent", &p->parent, 1);
    certify_roots("fvalue", &p->fvalue, 1);
    certify_roots("ftrace", &p->ftrace, 1);
    if (p->sig_qs.recv_mrk_blk)
        certify_roots("receive marker", &p->sig_qs.recv_mrk_blk->ref[0], ERTS_RECV_MARKER_BLOCK_SIZE);
    if (erts_setup_nfunc_rootset(p, &saved, &saved_count))
        certify_roots("saved argument", saved, saved_count);
    if (certify_is_before(snapshot))
        certify_list_messages(p);
    kit_section(&here.roots, "word of a message");
    for (size_t i = 0; i < here.message_count; i++)
        for (int k = here.messages[i].first; k < ERL_MESSAGE_REF_ARRAY_SZ; k++)
            kit_root(&here.roots, certify_word(snapshot, here.messages[i].message->m[k]));
    for (uint64_t address; (address = gcflip_snapshot_next(snapshot, 0, UINT64_MAX, 1)) != 0;)
        certify_object(snapshot, address);
}

/* The premise of the law for a nursery: the old generation refers to nothing but itself and literals. A term cannot be changed, so none of its fields
 * can come to refer to a younger one. */
static int certify_is_standing(Process *p)
{
    for (Eterm *at = OLD_HEAP(p); at != NULL && at < OLD_HTOP(p); at++) {
        Eterm term = *at, *target = certify_memory_of(term);
        if (is_header(term) && header_is_thing(term)) {
            at += thing_arityval(term);
        } else if (certify_is_pointer(term) && !(OLD_HEAP(p) <= target && target < OLD_HTOP(p)) && !erts_is_literal(term, target)) {
            fprintf(stderr, "the old generation's word at %p refers to %p, which is young\n", (void *)at, (void *)target);
            return 0;
        }
    }
    return 1;
}

/* ---- Names. */

static const char *certify_kind_name(void *given, uint32_t kind)
{
    static const char *const kinds[] = {"tuple", "match context", "positive bignum", "negative bignum", "reference", "fun", "float", NULL, "binary off the heap",
        "heap binary", "sub binary", NULL, "pid of another node", "port of another node", "reference of another node", "map", "cons"};
    (void)given;
    return kind <= KIND_CONS ? kinds[kind] : NULL;
}

static const char *const certify_fault_names[] = {
    "",
#define NAME(FAULT) #FAULT,
    ALL_FAULTS(NAME)
#undef NAME
};

/* ---- The checked collection. */

static struct {
    pthread_once_t once;
    struct kit_fault fault;
    long each, flips, words; /* CERTIFY_WORDS: a fault is planted in a heap of as many words or more, and so is the self-test made */
    atomic_long collections, chances; /* so far, of all threads */
    atomic_int is_tested;             /* whether the self-test was made */
    atomic_size_t minors, majors, pairs, scans;
    _Atomic(uint64_t) collecting, checking; /* in microseconds */
} certify_run = {.once = PTHREAD_ONCE_INIT};

_Thread_local enum certify_fault certify_fault;

int certify_plants(int times)
{
    long chance = atomic_fetch_add(&certify_run.chances, 1);
    if (chance == certify_run.fault.nth)
        fprintf(stderr, "planted: %s\n", certify_fault_names[certify_fault]);
    return chance >= certify_run.fault.nth && chance < certify_run.fault.nth + times;
}

static void certify_report(void)
{
    fprintf(stderr, "%zu minor collections and %zu major ones, %zu pairs, none refused; the old generation was scanned %zu times\nms: collections %.0f, checks %.0f\n",
        certify_run.minors, certify_run.majors, certify_run.pairs, certify_run.scans, 1e-3 * (double)certify_run.collecting, 1e-3 * (double)certify_run.checking);
}

static void certify_begin_run(void)
{
    certify_run.fault = kit_planted(certify_fault_names, FAULTS);
    certify_run.each = kit_number("CERTIFY_EACH", 1);
    certify_run.flips = kit_number("CERTIFY_FLIPS", 0);
    certify_run.words = kit_number("CERTIFY_WORDS", 0);
    atexit(certify_report);
}

static void certify_begin_thread(void)
{
    here.collection = gcflip_collection_open();
    here.names = (gcflip_names){.given = &here.roots, .root = kit_root_name, .kind = certify_kind_name};
    here.adapter = (gcflip_adapter){.read_before = certify_read, .read_after = certify_read, .infers = true, .names = &here.names};
    if (here.collection == NULL)
        exit(3);
}

/* Returns how many words an object has. */
static uint64_t certify_size_of(uint64_t address)
{
    const Eterm *at = certify_memory_of(address);
    if ((address & 3) == TAG_PRIMARY_LIST)
        return 2;
    switch (*at & _HEADER_SUBTAG_MASK) {
    case MAP_SUBTAG:
        if (is_flatmap_header(*at))
            return 3 + at[1];
        return 1 + (MAP_HEADER_TYPE(*at) != MAP_HEADER_TAG_HAMT_NODE_BITMAP) + hashmap_bitcount(MAP_HEADER_VAL(*at));
    case FUN_SUBTAG: return ERL_FUN_SIZE + ((const ErlFunThing *)at)->num_free;
    case SUB_BINARY_SUBTAG: return ERL_SUB_BIN_SIZE;
    default: return 1 + header_arity(*at);
    }
}

/* Returns why a byte of a boxed object makes no difference, or NULL. */
static const char *certify_reason_in(const Eterm *at, uint64_t byte)
{
    Eterm header = *at, subtag = header & _HEADER_SUBTAG_MASK;
    int is_magic = is_ref_thing_header(header) && is_magic_ref_thing(at);
    if (byte / 8 == 2 && (subtag == FUN_SUBTAG || is_magic || header == HEADER_PROC_BIN || is_external_header(header)))
        return "the link of the list of what is off the heap";
    if (subtag == FUN_SUBTAG && byte >= offsetof(ErlFunThing, num_free) + 1 && byte < offsetof(ErlFunThing, creator))
        return "padding in a fun";
    if (subtag == SUB_BINARY_SUBTAG && byte >= offsetof(ErlSubBin, is_writable) + 1 && byte < offsetof(ErlSubBin, orig))
        return "padding in a sub binary";
    if (subtag == HEAP_BINARY_SUBTAG && byte >= 16 + at[1])
        return "padding behind the bytes of a binary";
    if (header == HEADER_PROC_BIN && (byte / 8 == 5 || ((const ProcBin *)at)->flags != 0))
        return "the flags of a binary, and the place of one that is written to";
    return NULL;
}

/* Returns why a bit of the heap makes no difference to a program, or NULL. An address has a tag, so the object of a word can start 2 bytes behind it. */
static const char *certify_reason(void *given, const uint64_t *word, unsigned bit)
{
    uint64_t start = 0, at = (uint64_t)word;
    (void)given;
    bool is_found = gcflip_snapshot_nearest(gcflip_after(here.collection), at + TAG_PRIMARY_BOXED, &start) != 0;
    uint64_t offset = at - (start & ~(uint64_t)3);
    if (!is_found || offset / 8 >= certify_size_of(start))
        return "what no root reaches: heap fragments and messages that were moved";
    return (start & 3) == TAG_PRIMARY_BOXED ? certify_reason_in(certify_memory_of(start), offset + bit / 8) : NULL;
}

/* Finds the memory of what the collection copied: the new heap, and what was promoted. Returns how many words it has. */
static size_t certify_find_copies(gcflip_range ranges[2])
{
    Process *p = here.process;
    Eterm *promoted = here.old_to != NULL ? here.old_to : OLD_HEAP(p);
    ranges[0] = (gcflip_range){(uint64_t *)HEAP_START(p), (size_t)(HEAP_TOP(p) - HEAP_START(p))};
    ranges[1] = (gcflip_range){(uint64_t *)promoted, promoted == NULL ? 0 : (size_t)(OLD_HTOP(p) - promoted)};
    return ranges[0].count + ranges[1].count;
}

enum { WORDS_OF_A_PAIR = 8 };

/* Flips bits of the heap, if it is large and the roots reach much of it: it has a pair for each 8 words. In a heap of moved fragments and messages, the roots
 * reach so little that nearly all flips would be spared for that reason. */
static void certify_test_adapter(void)
{
    gcflip_range ranges[2];
    size_t words = certify_find_copies(ranges);
    bool is_large = ranges[0].count >= (size_t)certify_run.words;
    if (!is_large || gcflip_collection_pairs(here.collection) < words / WORDS_OF_A_PAIR || atomic_exchange(&certify_run.is_tested, 1))
        return;
    const gcflip_self_test test = {.ranges = ranges, .range_count = 2, .seed = 1, .reason = certify_reason, .flips = (size_t)certify_run.flips};
    gcflip_collection_self_test(here.collection, &test, stderr);
}

/* Notes which heap is collected. */
static void certify_look_at(Process *p, Eterm *registers, int register_count, int is_major)
{
    here.process = p;
    here.registers = registers;
    here.register_count = register_count;
    here.old_from = is_major ? NULL : OLD_HEAP(p);
    here.old_to = here.old_from == NULL ? NULL : OLD_HTOP(p);
}

/* Asks about the collection that has ended. */
static void certify_end(long number, int is_major)
{
    if (gcflip_collection_end(here.collection, NULL) != GCFLIP_YES)
        kit_refused(here.collection, &here.names, is_major ? "major collection" : "minor collection", (size_t)number);
    atomic_fetch_add(is_major ? &certify_run.majors : &certify_run.minors, 1);
    atomic_fetch_add(&certify_run.pairs, gcflip_collection_pairs(here.collection));
    if (certify_run.flips != 0 && number >= certify_run.fault.at && !certify_run.is_tested)
        certify_test_adapter();
    if (number % 16 != 0)
        return;
    if (!certify_is_standing(here.process))
        _exit(3);
    atomic_fetch_add(&certify_run.scans, 1);
}

typedef int certify_collector(Process *p, ErlHeapFragment *live_hf_end, int need, Eterm *objv, int nobj, Uint ygen_usage, Uint *recl);

/* Stands for a call of the collector, and returns what it returns: below 0 if it did nothing. CERTIFY_EACH is the number n of which each n-th collection is
 * checked, 0 for none. */
static int certify_collect(certify_collector *collector, int is_major, Process *p, ErlHeapFragment *live_hf_end, int need, Eterm *objv, int nobj, Uint ygen_usage,
    Uint *recl)
{
    pthread_once(&certify_run.once, certify_begin_run);
    if (here.collection == NULL)
        certify_begin_thread();
    long number = atomic_fetch_add(&certify_run.collections, 1) + 1;
    int is_checked = certify_run.each != 0 && number % certify_run.each == 0;
    double begun = kit_now();
    certify_look_at(p, objv, nobj, is_major);
    if (is_checked && !gcflip_collection_begin(here.collection, &here.adapter, stderr)) {
        fprintf(stderr, "the heap before collection %ld has words that are no values\n", number);
        _exit(3);
    }
    double collecting = kit_now();
    if (number >= certify_run.fault.at && HEAP_TOP(p) - HEAP_START(p) >= certify_run.words)
        certify_fault = (enum certify_fault)certify_run.fault.number;
    certify_last_cons = NIL;
    int reductions = collector(p, live_hf_end, need, objv, nobj, ygen_usage, recl);
    certify_fault = NO_FAULT;
    double collected = kit_now();
    if (is_checked && reductions >= 0)
        certify_end(number, is_major);
    atomic_fetch_add(&certify_run.collecting, (uint64_t)(1e3 * (collected - collecting)));
    atomic_fetch_add(&certify_run.checking, (uint64_t)(1e3 * (kit_now() - collected + collecting - begun)));
    return reductions;
}
