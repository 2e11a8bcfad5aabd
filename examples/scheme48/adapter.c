/* The adapter for the two-space collector of Scheme 48 1.9.2. scheme48.patch includes it at the end of c/scheme48vm-64.c, because the roots of the
 * virtual machine are static there.
 *
 * Before: adds the roots, and traces what they reach. Weak references are set only after that, so that the adapter knows which finalizers become due.
 * After: pairs come from the forwarding words that the collector wrote over the headers of the old objects. Each is a claim that is checked.
 * tables.c has what the collector treats in a way of its own: symbols, bindings, channels, finalizers, and queues of transport link cells.
 *
 * A word is a fixnum (tag 0), an immediate (1), a header (2), or the address of the first field of an object and 3. A header is 256 times the number of
 * bytes, 128 if the object is immutable, 4 times the type, and 2. The address of an object is that of its header here. */
#include "adapter_kit.h"
#include "faults.h"

extern void s48_unchecked_collect(char is_major);
extern char certify_initializing(void);
extern void certify_each_reference(void (*each)(long word, void *given), void *given);
extern long s48_startup_procedure(void), s48_initial_symbols(void), s48_initial_imported_bindings(void), s48_initial_exported_bindings(void),
    s48_resumer_records(void);

enum { FALSE_WORD = 1, NULL_WORD = 25, WEAK_HEADER = 2102, HEADER = 8, TO_HEADER = 11 };
enum { PAIR = 0, SYMBOL = 1, CONTINUATION = 10, WEAK = 13, BINDING = 14, LINK_CELL = 15, FIRST_OF_BYTES = 16, STRING = 16, BYTE_VECTOR = 17, LAST_TYPE = 19 };
/* Kinds are types, and 32 more for immutable objects. Objects whose fields the collector writes have kinds of their own. */
enum { IMMUTABLE = 32, KIND_TABLE = 64, KIND_FINALIZER = 65 };

struct addresses {
    uint64_t *all;
    size_t count, room;
};

static gcflip_collection *certify_collection;
static struct kit_roots certify_roots;
static struct addresses certify_originals, certify_weaks, certify_link_cells;
static bool certify_is_strong; /* whether the trace has followed no weak reference yet */

static void keep(struct addresses *addresses, uint64_t address)
{
    addresses->all = kit_grown(addresses->all, &addresses->room, addresses->count, sizeof *addresses->all);
    addresses->all[addresses->count++] = address;
}

static bool is_before(const gcflip_snapshot *snapshot) { return snapshot == gcflip_before(certify_collection); }

/* ---- Words and objects. */

static long at(uint64_t address) { return *(const long *)address; }
static uint64_t type_of(long header) { return (uint64_t)header >> 2 & 31; }
static uint64_t bytes_of(long header) { return (uint64_t)header >> 8; }
static bool is_object(long word) { return (word & 3) == 3; }
static uint64_t address_of(long word) { return (uint64_t)word - TO_HEADER; }
static long field_of(uint64_t address, size_t field) { return at(address + HEADER + 8 * field); }

/* Where the collector says that the copy of an old object is, or 0. It is asked after a collection alone. */
static uint64_t copy_of(uint64_t old) { return is_object(at(old)) ? address_of(at(old)) : 0; }

static uint64_t word_in(gcflip_snapshot *snapshot, uint64_t word)
{
    if (word == TO_HEADER)
        return gcflip_snapshot_doubtful(snapshot, word, "no object is at 0");
    if ((word & 3) == 2)
        return gcflip_snapshot_doubtful(snapshot, word, "a header where a value should be");
    return is_object((long)word) ? gcflip_snapshot_reference(snapshot, address_of((long)word)) : gcflip_snapshot_constant(snapshot, word);
}

static bool is_in_space(uint64_t address)
{
    uint64_t from = (uint64_t)s48_heap_begin(), to = (uint64_t)s48_heap_pointer();
    return address % 8 == 0 && from <= address && address < to;
}

/* Whether a whole object is at this address of the space in use. */
static bool is_whole(uint64_t address)
{
    uint64_t to = (uint64_t)s48_heap_pointer();
    bool is_header = is_in_space(address) && (at(address) & 3) == 2 && type_of(at(address)) <= LAST_TYPE;
    return is_header && bytes_of(at(address)) <= to - address - HEADER;
}

static bool is_whole_of(long word, uint64_t type, uint64_t fields)
{
    if (!is_object(word) || !is_whole(address_of(word)))
        return false;
    long header = at(address_of(word));
    return type_of(header) == type && bytes_of(header) >= 8 * fields;
}

/* Finds the mask that says which words of a saved continuation are values. It is in the code, in front of the return address. A mask without bytes says
 * that all are. Returns false if there is none. */
static bool found_mask(long pc, long code, const unsigned char **mask, unsigned *size)
{
    if ((pc & 3) != 0 || !is_whole_of(code, BYTE_VECTOR, 0))
        return false;
    const unsigned char *data = (const unsigned char *)(code - 3);
    uint64_t offset = (uint64_t)pc >> 2;
    if (offset < 7 || offset > bytes_of(at(address_of(code))) || offset < 7u + data[offset - 3])
        return false;
    *size = data[offset - 3];
    *mask = data + offset - 7 - *size;
    return true;
}

/* Sets the fields of a saved continuation: offset of the return address, code, continuation below, and the frame. Without a mask none is set. */
static void set_continuation(gcflip_snapshot *snapshot, uint32_t place, const long *words, uint64_t count)
{
    const unsigned char *mask;
    unsigned size;
    if (count < 3 || !found_mask(words[0], words[1], &mask, &size))
        return;
    gcflip_snapshot_set_words(snapshot, place, 0, words, size == 0 ? count : 3, word_in);
    if (size != 0)
        gcflip_snapshot_set_words(snapshot, place, 3, words + 3, count - 3, gcflip_snapshot_constant);
    for (unsigned i = 0; i < 8 * size; i++)
        if ((mask[i / 8] >> i % 8 & 1) != 0 && i + 3 < count)
            gcflip_snapshot_set(snapshot, place, i + 3, word_in(snapshot, (uint64_t)words[i + 3]));
}

static void set_fields(gcflip_snapshot *snapshot, uint32_t place, uint64_t address, long header)
{
    const long *words = (const long *)(address + HEADER);
    uint64_t type = type_of(header), count = (bytes_of(header) + 7) / 8;
    if (type == CONTINUATION) {
        set_continuation(snapshot, place, words, count);
        return;
    }
    gcflip_snapshot_set_words(snapshot, place, 0, words, count, word_in);
    /* The chains of the tables are roots, because the collector turns them round. */
    if ((type == SYMBOL && count > 1) || (type == BINDING && count > 3))
        gcflip_snapshot_set(snapshot, place, type == SYMBOL ? 1 : 3, gcflip_snapshot_constant(snapshot, 0));
}

/* A weak pointer is set later before the collection, and at once after it. A cleared one holds #f. */
static void read_weak(gcflip_snapshot *snapshot, uint64_t address, uint32_t kind)
{
    uint32_t place = gcflip_snapshot_object(snapshot, address, kind, 1);
    long word = field_of(address, 0);
    if (!is_object(word) && word != FALSE_WORD)
        gcflip_snapshot_set(snapshot, place, 0, word_in(snapshot, (uint64_t)word));
    else if (is_before(snapshot))
        keep(&certify_weaks, address);
    else
        gcflip_snapshot_set_weak(snapshot, place, 0, is_object(word) ? address_of(word) : 0);
}

/* Places the object at this address, and sets its fields. */
static void read_object(gcflip_snapshot *snapshot, uint64_t address)
{
    if (!is_whole(address))
        return; /* references to it stay doubtful */
    long header = at(address);
    uint64_t type = type_of(header), bytes = bytes_of(header);
    uint32_t kind = (uint32_t)type + ((header >> 7 & 1) != 0 ? IMMUTABLE : 0);
    if (is_before(snapshot))
        keep(&certify_originals, address);
    if (is_before(snapshot) && certify_is_strong && type == LINK_CELL && bytes >= 24)
        keep(&certify_link_cells, address);
    if (type >= FIRST_OF_BYTES)
        gcflip_snapshot_bytes(snapshot, address, kind, (const void *)(address + HEADER), bytes);
    else if (header == WEAK_HEADER)
        read_weak(snapshot, address, kind);
    else
        set_fields(snapshot, gcflip_snapshot_object(snapshot, address, kind, (bytes + 7) / 8), address, header);
}

static void trace(gcflip_snapshot *snapshot)
{
    for (uint64_t address; (address = gcflip_snapshot_next(snapshot, (uint64_t)s48_heap_begin(), (uint64_t)s48_heap_pointer(), 8)) != 0;)
        read_object(snapshot, address);
}

/* ---- Roots. */

static void value(long word) { kit_root(&certify_roots, word_in(certify_roots.snapshot, (uint64_t)word)); }
static void number(uint64_t n) { kit_root(&certify_roots, gcflip_snapshot_constant(certify_roots.snapshot, n)); }
static void wrong(uint64_t word, const char *why) { kit_root(&certify_roots, gcflip_snapshot_doubtful(certify_roots.snapshot, word, why)); }

/* A reference to the object at this address, which may be placed later. */
static void reference(uint64_t address) { kit_root(&certify_roots, gcflip_snapshot_reference(certify_roots.snapshot, address)); }

#define VALUE(VARIABLE) (kit_section(&certify_roots, #VARIABLE), value(VARIABLE))

static void add_registers(void)
{
    long code = is_before(certify_roots.snapshot) ? current_code_vector() : Slast_code_calledS;
    uint32_t offset = (uint32_t)((long)Scode_pointerS - (code - 3));
    kit_section(&certify_roots, "Scode_pointerS");
    kit_root(&certify_roots, gcflip_snapshot_inside(certify_roots.snapshot, address_of(code), offset));
    VALUE(SvalS);
    VALUE(Scurrent_threadS);
    VALUE(Sinterrupted_byte_opcode_return_codeS);
    VALUE(Sinterrupted_native_call_return_codeS);
    VALUE(Snative_poll_return_codeS);
    VALUE(Sexception_return_codeS);
    VALUE(Snative_exception_return_codeS);
    VALUE(Scall_with_values_return_codeS);
    VALUE(Sinterrupted_templateS);
    VALUE(s48_Snc_templateS);
    VALUE(Ssession_dataS);
    VALUE(Sexception_handlersS);
    VALUE(Sinterrupt_handlersS);
    VALUE(Spending_channels_headS);
    VALUE(Spending_channels_tailS);
    VALUE(Sheap_continuationS);
    VALUE(Stemp0S);
    VALUE(Stemp1S);
    VALUE(Sempty_logS);
}

static void add_reference(long word, void *given)
{
    (void)given;
    value(word);
}

/* Roots of code in C, and of the image while it is being read. */
static void add_external(void)
{
    kit_section(&certify_roots, "external root of a C frame");
    for (char *frame = Sexternal_root_stackS; frame != NULL; frame = *(char **)(frame + 8))
        for (long i = 0; i < *(long *)frame; i++)
            value(**(long **)(frame + 16 + 8 * i));
    kit_section(&certify_roots, "permanent external root");
    for (char *frame = Spermanent_external_rootsS; frame != NULL; frame = *(char **)frame)
        value(**(long **)(frame + 16));
    kit_section(&certify_roots, "reference of C");
    certify_each_reference(add_reference, NULL);
    if (!certify_initializing())
        return;
    VALUE(s48_startup_procedure());
    VALUE(s48_initial_symbols());
    VALUE(s48_initial_imported_bindings());
    VALUE(s48_initial_exported_bindings());
    VALUE(s48_resumer_records());
}

/* What lies in front of a return address: its offset in the code, and the size and the mask of its frame. */
struct frame {
    uint64_t offset, size, mask_size;
    const unsigned char *mask;
};

/* Reads the frame at this place of the stack. Returns false if the return address leads out of the heap, or the frame out of the stack. */
static bool read_frame(const char *place, struct frame *frame)
{
    uint64_t from = (uint64_t)s48_heap_begin(), to = (uint64_t)s48_heap_pointer(), pointer = place < Sstack_endS ? *(const uint64_t *)place : 0;
    if (pointer < from + 16 || pointer >= to)
        return false;
    const unsigned char *code = (const unsigned char *)pointer;
    frame->offset = (uint64_t)code[-5] << 8 | code[-4];
    frame->size = (uint64_t)code[-2] << 8 | code[-1];
    frame->mask_size = code[-3];
    frame->mask = code - 7 - frame->mask_size;
    if (frame->size == 65535)
        frame->size = *(const uint64_t *)(place + 8) >> 2;
    return frame->size <= (uint64_t)(Sstack_endS - place - 8) / 8 && pointer - from >= 7 + frame->mask_size;
}

/* Adds a return address and the values of each frame. */
static void add_frames(void)
{
    struct frame frame;
    for (char *place = ScontS; ; place += 8 + 8 * frame.size) {
        if (!read_frame(place, &frame)) {
            wrong(*(uint64_t *)place, "a return address outside of the heap, or a frame that is longer than the stack");
            return;
        }
        uint64_t code = *(uint64_t *)place - frame.offset - HEADER;
        kit_root(&certify_roots, gcflip_snapshot_inside(certify_roots.snapshot, code, (uint32_t)frame.offset));
        for (uint64_t i = 0; i < frame.size; i++)
            if (frame.mask_size == 0 || (i / 8 < frame.mask_size && (frame.mask[i / 8] >> i % 8 & 1) != 0))
                value(*(long *)(place + 8 + 8 * i));
        if (place == Sbottom_of_stackS)
            return;
    }
}

/* The stack has arguments, and behind them one frame after the other. If it cannot be read to its end, the roots behind it keep their numbers. */
static void add_stack(void)
{
    static uint64_t end_before;
    kit_section(&certify_roots, "argument on the stack");
    for (char *argument = SstackS; argument < SstackS + (-8 & (ScontS - SstackS)); argument += 8)
        value(*(long *)argument);
    kit_section(&certify_roots, "frame on the stack");
    add_frames();
    if (is_before(certify_roots.snapshot))
        end_before = certify_roots.count;
    while (certify_roots.count < end_before)
        wrong(0, "the stack could not be read to its end");
}

#include "tables.c"

/* ---- Both snapshots. */

static void add_strong_roots(gcflip_snapshot *snapshot)
{
    static size_t imported_counts[BUCKETS], exported_counts[BUCKETS];
    kit_begin_roots(&certify_roots, snapshot);
    add_registers();
    add_external();
    add_stack();
    add_bindings("imported binding", Simported_bindingsS, imported_counts);
    add_bindings("exported binding", Sexported_bindingsS, exported_counts);
}

/* Sets the weak pointers that the trace met, and traces on, until there are no more. */
static void set_weaks(gcflip_snapshot *snapshot)
{
    for (size_t i = 0; i < certify_weaks.count; i++) {
        long word = field_of(certify_weaks.all[i], 0);
        uint64_t target = is_object(word) && !is_due(address_of(word)) ? address_of(word) : 0;
        gcflip_snapshot_set_weak(snapshot, gcflip_snapshot_find(snapshot, certify_weaks.all[i]), 0, target);
        trace(snapshot);
    }
}

static void read_before(void *given, gcflip_snapshot *snapshot)
{
    (void)given;
    certify_originals.count = certify_weaks.count = certify_link_cells.count = 0;
    certify_is_strong = true;
    add_strong_roots(snapshot);
    note_finalizers(snapshot);
    trace(snapshot);
    note_queues();
    certify_is_strong = false;
    add_finalizers_before(snapshot);
    add_channels();
    add_symbols(snapshot);
    trace(snapshot);
    set_weaks(snapshot);
}

/* Reads the copies, and adds a pair for each. What else lies in the new space is met by tracing. */
static void read_after(void *given, gcflip_snapshot *snapshot)
{
    (void)given;
    add_strong_roots(snapshot);
    add_finalizers_after(snapshot);
    add_channels();
    add_symbols(snapshot);
    add_queues(snapshot);
    for (size_t i = 0; i < certify_originals.count; i++) {
        uint64_t copy = copy_of(certify_originals.all[i]);
        if (!is_in_space(copy))
            continue;
        if (gcflip_snapshot_find(snapshot, copy) == 0)
            read_object(snapshot, copy);
        gcflip_collection_pair(certify_collection, certify_originals.all[i], copy);
    }
    trace(snapshot);
}

/* ---- Names. */

static const char *kind_name(void *given, uint32_t kind)
{
    static const char *const names[] = {"pair", "symbol", "vector", "closure", "location", "cell", "channel", "port", "ratnum", "record", "continuation",
        "extended number", "template", "weak pointer", "shared binding", "transport link cell", "string", "byte vector", "double", "bignum"};
    static char text[64];
    (void)given;
    if (kind >= KIND_TABLE)
        return kind == KIND_TABLE ? "chained table" : "finalizer cell";
    if (kind % IMMUTABLE > LAST_TYPE)
        return NULL;
    snprintf(text, sizeof text, "%s%s", kind >= IMMUTABLE ? "immutable " : "", names[kind % IMMUTABLE]);
    return text;
}

/* Names a symbol by its letters. The collector has overwritten the header of the old string, and nothing else of it. */
static const char *object_name(void *given, const gcflip_snapshot *snapshot, uint64_t address, uint32_t kind)
{
    static char text[40];
    (void)given;
    if (kind % IMMUTABLE != SYMBOL || kind >= KIND_TABLE || (!is_before(snapshot) && !is_whole(address)))
        return NULL;
    long word = field_of(address, 0), header = 0;
    if (is_object(word) && is_before(snapshot) && gcflip_snapshot_find(snapshot, address_of(word)) != 0)
        header = is_object(at(address_of(word))) && is_whole(copy_of(address_of(word))) ? at(copy_of(address_of(word))) : at(address_of(word));
    else if (is_whole_of(word, STRING, 0))
        header = at(address_of(word));
    if ((header & 3) != 2 || type_of(header) != STRING)
        return NULL;
    size_t count = bytes_of(header) / 4 < sizeof text - 1 ? bytes_of(header) / 4 : sizeof text - 1;
    for (size_t i = 0; i < count; i++)
        text[i] = (char)((const uint32_t *)(word - 3))[i];
    text[count] = 0;
    return text;
}

static const gcflip_names certify_names = {.given = &certify_roots, .root = kit_root_name, .kind = kind_name, .object = object_name};
static const gcflip_adapter certify_adapter = {.read_before = read_before, .read_after = read_after, .names = &certify_names};

/* ---- The checked collection. */

static const char *const fault_names[] = {
    "",
#define NAME(FAULT) #FAULT,
    ALL_FAULTS(NAME)
#undef NAME
};

static struct kit_fault certify_fault;
static long certify_chances; /* how many places for the fault there were so far */
static struct { size_t collections, checked, pairs; double collect, begin, end; } certify_total;

bool certify_plants(enum fault fault)
{
    bool is_here = (int)fault == certify_fault.number && (long)certify_total.collections >= certify_fault.at;
    if (!is_here || certify_chances++ != certify_fault.nth)
        return false;
    fprintf(stderr, "planted: %s\n", fault_names[fault]);
    return true;
}

static void report(void)
{
    fprintf(stderr, "%zu collections, %zu of them checked, %zu pairs, none refused\nms: collections %.0f, before %.0f, after %.0f\n", certify_total.collections,
        certify_total.checked, certify_total.pairs, certify_total.collect, certify_total.begin, certify_total.end);
}

/* Returns why a bit of the new space makes no difference to a program, or NULL. */
static const char *reason(void *given, const uint64_t *word, unsigned bit)
{
    uint64_t byte = (uint64_t)word + bit / 8, start = 0;
    (void)given;
    if (gcflip_snapshot_nearest(gcflip_after(certify_collection), byte, &start) == 0)
        return NULL;
    uint64_t end = start + HEADER + (bytes_of(at(start)) + 7) / 8 * 8;
    return byte >= end && at(start) == WEAK_HEADER ? "the rest of a block of weak pointers" : NULL;
}

static void test_adapter(long flips)
{
    const gcflip_range range = {(uint64_t *)s48_heap_begin(), (size_t)(s48_heap_pointer() - s48_heap_begin()) / 8};
    const gcflip_self_test test = {.ranges = &range, .range_count = 1, .seed = 1, .reason = reason, .flips = (size_t)flips,
        .from = (uint64_t)s48_oldspace_begin(), .to = (uint64_t)s48_oldspace_end()};
    gcflip_collection_self_test(certify_collection, &test, stderr);
}

/* A program that follows a root which neither side knows then reads 0xDB. */
static void poison_old_space(void)
{
    const gcflip_range left = {(uint64_t *)s48_oldspace_begin(), (size_t)(s48_oldspace_end() - s48_oldspace_begin()) / 8};
    if (gcflip_collection_poison(certify_collection, &left, 1) != GCFLIP_POISONED)
        kit_refused(certify_collection, &certify_names, "the old space is in use after collection", certify_total.collections);
}

/* A root as an extension in C registers it. */
static long kept_in_c;

static void begin_run(void)
{
    certify_fault = kit_planted(fault_names, FAULTS);
    kept_in_c = Sinterrupt_handlersS;
    s48_register_gc_rootB((char *)&kept_in_c);
    certify_collection = gcflip_collection_open();
    if (certify_collection == NULL)
        exit(3);
    atexit(report);
}

static void collect_checked(char is_major)
{
    double begun = kit_now();
    if (!gcflip_collection_begin(certify_collection, &certify_adapter, stderr)) {
        fprintf(stderr, "the heap before collection %zu has words that are no values\n", certify_total.collections);
        _exit(3);
    }
    double collecting = kit_now();
    s48_unchecked_collect(is_major);
    double collected = kit_now();
    if (gcflip_collection_end(certify_collection, NULL) != GCFLIP_YES)
        kit_refused(certify_collection, &certify_names, "collection", certify_total.collections);
    double ended = kit_now();
    certify_total.begin += collecting - begun;
    certify_total.collect += collected - collecting;
    certify_total.end += ended - collected;
    certify_total.checked++;
    certify_total.pairs += gcflip_collection_pairs(certify_collection);
}

/* Stands for the runtime's function. CERTIFY_EACH is the number n of which each n-th collection is checked, 0 for none. */
void s48_collect(char is_major)
{
    static long each, flips;
    if (certify_collection == NULL) {
        begin_run();
        each = kit_number("CERTIFY_EACH", 1);
        flips = kit_number("CERTIFY_FLIPS", 0);
    }
    certify_total.collections++;
    if (each == 0 || certify_total.collections % (size_t)each != 0) {
        double begun = kit_now();
        s48_unchecked_collect(is_major);
        certify_total.collect += kit_now() - begun;
        return;
    }
    collect_checked(is_major);
    if (flips != 0 && (long)certify_total.collections == certify_fault.at)
        test_adapter(flips);
    if (kit_number("CERTIFY_POISON", 1) != 0)
        poison_old_space();
}
