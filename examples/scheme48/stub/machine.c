/* A miniature of Scheme 48's virtual machine. It has the variables and functions of c/scheme48vm-64.c that adapter.c reads, a heap with a few objects of each
 * kind that the collector treats in a way of its own, and a collector that does what Scheme 48's does. CI compiles the adapter with it, and plants faults.
 * The words are those of Scheme 48: see adapter.c. */
#include <stdbool.h>
#include <stdint.h>
#include <stdio.h>
#include <stdlib.h>
#include <string.h>
#include "faults.h"

enum { WORDS = 32768, STACK_WORDS = 64, CHANNELS = 2, PAIR_TYPE = 0, SYMBOL_TYPE = 1, VECTOR_TYPE = 2, CHANNEL_TYPE = 6, WEAK_TYPE = 13, BINDING_TYPE = 14,
    CELL_TYPE = 15, STRING_TYPE = 16, CODE_TYPE = 17, NO = 1, NONE = 25, RETURN = 12 };

static long spaces[2][WORDS], *space = spaces[0], *next = spaces[0], stack[STACK_WORDS], channels[CHANNELS];

/* ---- What the adapter reads. */

static char *Scode_pointerS, *SstackS = (char *)stack, *ScontS, *Sbottom_of_stackS, *Sstack_endS = (char *)(stack + STACK_WORDS), *Sexternal_root_stackS,
    *Spermanent_external_rootsS;
static long SvalS = NO, Scurrent_threadS = NO, Sinterrupted_byte_opcode_return_codeS = NO, Sinterrupted_native_call_return_codeS = NO,
    Snative_poll_return_codeS = NO, Sexception_return_codeS = NO, Snative_exception_return_codeS = NO, Scall_with_values_return_codeS = NO,
    Sinterrupted_templateS = NO, s48_Snc_templateS = NO, Ssession_dataS = NO, Sexception_handlersS = NO, Sinterrupt_handlersS = NO,
    Spending_channels_headS = NO, Spending_channels_tailS = NO, Sheap_continuationS = NO, Stemp0S = NO, Stemp1S = NO, Sempty_logS = NO, Slast_code_calledS,
    Simported_bindingsS, Sexported_bindingsS, Sthe_symbol_tableS, Sfinalizer_alistS = NONE, Sfinalize_theseS = NONE, Snumber_of_channelsS = CHANNELS,
    *Svm_channelsS = channels;

static long current_code_vector(void) { return Slast_code_calledS; }
char *s48_heap_begin(void) { return (char *)space; }
char *s48_heap_pointer(void) { return (char *)next; }
char *s48_oldspace_begin(void) { return (char *)(space == spaces[0] ? spaces[1] : spaces[0]); }
char *s48_oldspace_end(void) { return s48_oldspace_begin() + sizeof spaces[0]; }
char certify_initializing(void) { return 0; }
long s48_startup_procedure(void) { return NO; }
long s48_initial_symbols(void) { return NO; }
long s48_initial_imported_bindings(void) { return NO; }
long s48_initial_exported_bindings(void) { return NO; }
long s48_resumer_records(void) { return NO; }

static long reference_of_c = NO;

void certify_each_reference(void (*each)(long word, void *given), void *given) { each(reference_of_c, given); }

static long permanent[3]; /* the frame of one root: next, previous, place */

char *s48_register_gc_rootB(char *place)
{
    permanent[2] = (long)place;
    return Spermanent_external_rootsS = (char *)permanent;
}

/* ---- Objects. */

static long *fields(long word) { return (long *)(word - 3); }
static bool is_stob(long word) { return (word & 3) == 3; }
static long type_at(long word) { return fields(word)[-1] >> 2 & 31; }
static long length(long header) { return ((header >> 8) + 7) / 8; }

static long make(long type, long bytes)
{
    long *at = next;
    at[0] = bytes << 8 | type << 2 | 2;
    for (long i = 0; i < length(at[0]); i++)
        at[1 + i] = NO;
    next = at + 1 + length(at[0]);
    return (long)(at + 1) + 3;
}

static long filled(long type, long first, long second, long third)
{
    long made = make(type, type == PAIR_TYPE ? 16 : type == WEAK_TYPE ? 8 : 32), values[3] = {first, second, third};
    for (long i = 0; i < 3 && i < length(fields(made)[-1]); i++)
        fields(made)[i] = values[i];
    return made;
}

static long pair(long car, long cdr) { return filled(PAIR_TYPE, car, cdr, NO); }

/* ---- The collector. */

static long *from, *scan;
static long pairs_owed; /* one for each object that is copied or added, and for each pointer into a code */

static bool is_old(long word) { return is_stob(word) && fields(word) >= from && fields(word) < from + WORDS; }
static bool is_extant(long word) { return !is_old(word) || is_stob(fields(word)[-1]); }

static long copied(long word)
{
    if (!is_old(word))
        return word;
    if (is_stob(fields(word)[-1]))
        return fields(word)[-1];
    long header = fields(word)[-1], *copy = next, count = length(header);
    memcpy(copy, fields(word) - 1, (size_t)(1 + count) * sizeof *copy);
    next = copy + 1 + count;
    fields(word)[-1] = (long)(copy + 1) + 3;
    pairs_owed++;
    if ((header >> 2 & 31) < STRING_TYPE && (header >> 2 & 31) != WEAK_TYPE && PLANTS(flipped_bit))
        copy[1] ^= 64;
    if (PLANTS(immutable_bit))
        copy[0] ^= 128;
    return fields(word)[-1];
}

static void update(long *place)
{
    long word = copied(*place);
    if (word == *place || !PLANTS(field_not_updated))
        *place = word;
}

/* A queue is a pair of its first and its last pair. The objects that it refers to may still be in the old space, as in Scheme 48. */
static void join_queue(long cell)
{
    long queue = fields(cell)[2];
    if (!is_stob(queue) || type_at(queue) != PAIR_TYPE || !is_stob(fields(cell)[0]) || PLANTS(cell_not_enqueued))
        return;
    long last = copied(fields(queue)[1]), end = pair(PLANTS(queue_end_filled) ? cell : NO, NO);
    pairs_owed++;
    fields(last)[0] = cell;
    fields(last)[1] = end;
    fields(queue)[1] = end;
    if (!PLANTS(cell_keeps_queue))
        fields(cell)[2] = NO;
}

static void scan_all(void)
{
    while (scan < next) {
        long *object = scan, type = object[0] >> 2 & 31;
        scan += 1 + length(object[0]);
        for (long i = 0; type < STRING_TYPE && type != WEAK_TYPE && i < length(object[0]); i++)
            update(&object[1 + i]);
        if (type == CELL_TYPE)
            join_queue((long)(object + 1) + 3);
    }
}

/* Turns the chains of a table round. `link` is the field with the next entry. Entries that nothing else refers to stay in the table, if it keeps them. */
static void turn_chains(long *table, long link, bool keeps, bool (*drops)(void))
{
    *table = copied(*table);
    for (long i = 0; i < 1024; i++) {
        long done = NO;
        for (long entry = fields(*table)[i], following; entry != NO; entry = following) {
            long stob = (entry & 3) == 0 ? entry + 3 : entry;
            following = fields(is_extant(stob) ? copied(stob) : stob)[link];
            if ((!keeps && !is_extant(stob)) || drops())
                continue;
            long copy = copied(stob);
            fields(copy)[link] = done;
            done = copy - 3;
        }
        fields(*table)[i] = done;
    }
}

static bool drops_symbol(void) { return PLANTS(symbol_dropped); }
static bool drops_binding(void) { return PLANTS(binding_dropped); }

static void clear_weaks(void)
{
    for (long *object = space; object < next; object += 1 + length(object[0]))
        if ((object[0] >> 2 & 31) == WEAK_TYPE && is_old(object[1])) {
            long kept = is_extant(object[1]) && !PLANTS(weak_cleared) ? copied(object[1]) : NO;
            object[1] = kept != NO && PLANTS(weak_not_updated) ? object[1] : kept;
        }
}

static void trace_finalizers(void)
{
    for (long list = Sfinalizer_alistS; list != NONE; list = fields(list)[1]) {
        long *entry = fields(fields(list)[0]);
        for (long i = 0; !is_extant(entry[0]) && i < length(fields(entry[0])[-1]); i++)
            fields(entry[0])[i] = copied(fields(entry[0])[i]);
        entry[1] = copied(entry[1]);
    }
}

static void split_finalizers(void)
{
    long waiting = NONE, due = Sfinalize_theseS, last = NONE, first = NONE;
    for (long list = Sfinalizer_alistS, following; list != NONE; list = following) {
        long cell = copied(list), entry = copied(fields(cell)[0]), thing = fields(entry)[0];
        bool lives = is_extant(thing);
        following = fields(cell)[1];
        lives = lives ? !PLANTS(due_too_early) : PLANTS(due_too_late);
        fields(entry)[0] = copied(thing);
        fields(cell)[0] = entry;
        if (lives && PLANTS(finalizer_lost))
            continue;
        fields(cell)[1] = lives ? waiting : first;
        last = !lives && first == NONE ? cell : last;
        *(lives ? &waiting : &first) = cell;
    }
    if (last != NONE)
        fields(last)[1] = due;
    Sfinalizer_alistS = waiting;
    Sfinalize_theseS = first == NONE ? due : first;
}

static void update_roots(void)
{
    long *places[] = {&Ssession_dataS, &Sinterrupt_handlersS, &Sexception_return_codeS, &Sheap_continuationS, &reference_of_c, &Sfinalize_theseS};
    long offset = Scode_pointerS - (char *)fields(Slast_code_calledS), thread = copied(Scurrent_threadS);
    Slast_code_calledS = copied(Slast_code_calledS);
    Scode_pointerS = (char *)fields(Slast_code_calledS) + offset;
    for (size_t i = 0; i < sizeof places / sizeof *places; i++)
        *places[i] = copied(*places[i]);
    if (!PLANTS(thread_missed))
        Scurrent_threadS = thread;
    *(long *)permanent[2] = copied(*(long *)permanent[2]);
    long returned_to = copied(*(long *)ScontS - RETURN + 3);
    pairs_owed += 2;
    if (!PLANTS(return_address_not_updated))
        *(long *)ScontS = (long)fields(returned_to) + RETURN;
    if (!PLANTS(stack_value_missed))
        ((long *)ScontS)[1] = copied(((long *)ScontS)[1]);
}

void s48_unchecked_collect(char is_major)
{
    (void)is_major;
    from = space;
    space = from == spaces[0] ? spaces[1] : spaces[0];
    next = scan = space;
    update_roots();
    trace_finalizers();
    turn_chains(&Simported_bindingsS, 3, true, drops_binding);
    turn_chains(&Sexported_bindingsS, 3, true, drops_binding);
    scan_all();
    clear_weaks();
    turn_chains(&Sthe_symbol_tableS, 1, false, drops_symbol);
    split_finalizers();
    for (long i = 0; i < CHANNELS; i++)
        channels[i] = is_extant(channels[i]) && !PLANTS(channel_dropped) ? copied(channels[i]) : NO;
}

#include "adapter.c"

/* ---- A heap. */

static long symbol(const char *name)
{
    long text = make(STRING_TYPE, 4 * (long)strlen(name)), made = filled(SYMBOL_TYPE, text, NO, NO), bucket = (long)strlen(name) % 1024;
    for (size_t i = 0; name[i] != 0; i++)
        ((uint32_t *)fields(text))[i] = (uint32_t)name[i];
    fields(made)[-1] = 16 << 8 | SYMBOL_TYPE << 2 | 2;
    next = (long *)(made - 3) + 2;
    fields(made)[1] = fields(Sthe_symbol_tableS)[bucket];
    fields(Sthe_symbol_tableS)[bucket] = made - 3;
    return made;
}

static void bind(long table, long name)
{
    long binding = filled(BINDING_TYPE, name, NO, NO);
    fields(binding)[3] = fields(table)[7];
    fields(table)[7] = binding - 3;
}

static void finalize(long thing) { Sfinalizer_alistS = pair(pair(thing, pair(NO, NO)), Sfinalizer_alistS); }

/* A code of 16 bytes, with a return address 12 bytes from its start, for a frame of one value and no mask. */
static long make_code(void)
{
    long made = make(CODE_TYPE, 16);
    unsigned char *code = (unsigned char *)fields(made);
    memset(code, 0, 16);
    code[RETURN - 4] = RETURN;
    code[RETURN - 1] = 1;
    return made;
}

/* A frame whose code nothing but its return address leads to. */
static void fill_stack(long kept)
{
    Slast_code_calledS = make_code();
    Scode_pointerS = (char *)fields(Slast_code_calledS) + RETURN;
    ScontS = Sbottom_of_stackS = Sstack_endS - 16;
    ((long *)ScontS)[0] = (long)fields(make_code()) + RETURN;
    ((long *)ScontS)[1] = kept;
    SstackS = ScontS;
}

static void fill_heap(void)
{
    Sthe_symbol_tableS = make(VECTOR_TYPE, 8 * 1024);
    Simported_bindingsS = make(VECTOR_TYPE, 8 * 1024);
    Sexported_bindingsS = make(VECTOR_TYPE, 8 * 1024);
    long kept = make(VECTOR_TYPE, 8 * 12), thing = pair(4, 8), due = pair(32, thing), last = pair(NO, NO), queue = pair(last, last);
    symbol("dropped");
    long values[] = {symbol("kept"), pair(thing, NONE), filled(WEAK_TYPE, thing, NO, NO), filled(WEAK_TYPE, pair(12, 16), NO, NO), queue,
        filled(CELL_TYPE, pair(20, NONE), NO, queue), filled(CELL_TYPE, pair(24, NONE), NO, queue), symbol("tepk"), make(CHANNEL_TYPE, 56), make(STRING_TYPE, 13),
        filled(WEAK_TYPE, due, NO, NO)};
    memcpy(fields(kept), values, sizeof values);
    filled(CELL_TYPE, pair(28, NONE), NO, queue); /* garbage: it joins no queue */
    bind(Simported_bindingsS, values[0]);
    bind(Simported_bindingsS, symbol("other"));
    channels[0] = values[8];
    channels[1] = make(CHANNEL_TYPE, 56);
    finalize(thing);
    finalize(due);
    for (long i = 1; i < 3; i++)
        finalize(pair(32 + 4 * i, thing));
    Scurrent_threadS = pair(kept, kept);
    Ssession_dataS = Sinterrupt_handlersS = make(VECTOR_TYPE, 8);
    Sexception_return_codeS = make(CODE_TYPE, 16);
    reference_of_c = pair(kept, NONE);
    fill_stack(values[0]);
}

int main(void)
{
    fill_heap();
    for (int i = 0; i < 3; i++)
        s48_collect(1);
    fprintf(stderr, "%ld pairs are owed\n", pairs_owed);
    return Sfinalize_theseS == NONE || fields(fields(Sfinalize_theseS)[0])[1] == NO;
}
