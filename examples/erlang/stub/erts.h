/* What adapter.c and spoil.c read of the headers of Erlang/OTP 25.2.3 (erts/emulator/beam): words, objects, binaries, messages and a process, without all else.
 * CI compiles the adapter with it. */
#ifndef ERTS_H
#define ERTS_H

#include <stddef.h>
#include <stdint.h>

typedef uint64_t Eterm;
typedef uint64_t Uint;
typedef unsigned char byte;

/* ---- Words. The lowest two bits are the tag of a reference, a header or an immediate value. */

enum { TAG_PRIMARY_HEADER = 0, TAG_PRIMARY_LIST = 1, TAG_PRIMARY_BOXED = 2 };
enum { ARITYVAL_SUBTAG = 0 << 2, BIN_MATCHSTATE_SUBTAG = 1 << 2, POS_BIG_SUBTAG = 2 << 2, NEG_BIG_SUBTAG = 3 << 2, REF_SUBTAG = 4 << 2, FUN_SUBTAG = 5 << 2,
    FLOAT_SUBTAG = 6 << 2, REFC_BINARY_SUBTAG = 8 << 2, HEAP_BINARY_SUBTAG = 9 << 2, SUB_BINARY_SUBTAG = 10 << 2, EXTERNAL_PID_SUBTAG = 12 << 2,
    EXTERNAL_REF_SUBTAG = 14 << 2, MAP_SUBTAG = 15 << 2 };
enum { _HEADER_ARITY_OFFS = 6, _HEADER_SUBTAG_MASK = 0x3C, _TAG_HEADER_MASK = 0x3F, _TAG_HEADER_HEAP_BIN = HEAP_BINARY_SUBTAG };

#define THE_NON_VALUE ((Eterm)TAG_PRIMARY_HEADER)
#define NIL ((Eterm)0x3B)
#define make_small(N) ((Eterm)(N) << 4 | 15)
#define make_list(POINTER) ((Eterm)(POINTER) + TAG_PRIMARY_LIST)
#define make_boxed(POINTER) ((Eterm)(POINTER) + TAG_PRIMARY_BOXED)
#define boxed_val(TERM) ((Eterm *)((TERM)-TAG_PRIMARY_BOXED))
#define list_val(TERM) ((Eterm *)((TERM)-TAG_PRIMARY_LIST))
#define _make_header(ARITY, SUBTAG) ((Eterm)(ARITY) << _HEADER_ARITY_OFFS | (SUBTAG))
#define make_arityval(ARITY) _make_header(ARITY, ARITYVAL_SUBTAG)
#define is_header(WORD) (((WORD)&3) == TAG_PRIMARY_HEADER)
#define is_arity_value(WORD) (((WORD)&_TAG_HEADER_MASK) == ARITYVAL_SUBTAG)
#define header_is_thing(WORD) (((WORD)&_HEADER_SUBTAG_MASK) != ARITYVAL_SUBTAG && ((WORD)&_HEADER_SUBTAG_MASK) != MAP_SUBTAG)
#define header_arity(WORD) ((Uint)((WORD) >> _HEADER_ARITY_OFFS))
#define arityval header_arity
#define thing_arityval header_arity
#define thing_subtag(WORD) ((WORD)&_HEADER_SUBTAG_MASK)
#define is_external_header(WORD) ((WORD) % 64 >= EXTERNAL_PID_SUBTAG && (WORD) % 64 <= EXTERNAL_REF_SUBTAG)
#define is_ref_thing_header(WORD) (((WORD)&_TAG_HEADER_MASK) == REF_SUBTAG)
#define is_magic_ref_thing(POINTER) ((uint32_t)((const Eterm *)(POINTER))[1] != UINT32_MAX)

/* ---- Maps: bits 6 and 7 of a header say which form, and the highest ones which of 16 children there are. */

enum { MAP_HEADER_TAG_HAMT_NODE_BITMAP = 1, MAP_SMALL_MAP_LIMIT = 32 };

#define MAP_HEADER_FLATMAP _make_header(1 << 2, MAP_SUBTAG)
#define MAP_HEADER_TYPE(WORD) ((WORD) >> _HEADER_ARITY_OFFS & 3)
#define MAP_HEADER_VAL(WORD) ((WORD) >> (_HEADER_ARITY_OFFS + 2 + 8))
#define is_flatmap_header(WORD) (MAP_HEADER_TYPE(WORD) == 0)
#define hashmap_bitcount(WORD) ((uint32_t)__builtin_popcount((unsigned)(WORD)))

/* ---- Objects with parts that are no terms. */

typedef struct {
    Eterm thing_word;
    union {
        void *disp;
    } entry;
    void *next;
    byte arity, num_free;
    Eterm creator, env[1];
} ErlFunThing;

typedef struct {
    Eterm thing_word;
    Uint size;
    void *next, *val;
    byte *bytes;
    Uint flags;
} ProcBin;

typedef struct {
    Eterm thing_word;
    Uint size;
    Eterm data[1];
} ErlHeapBin;

typedef struct {
    Eterm thing_word;
    Uint size, offs;
    byte bitsize, bitoffs, is_writable;
    Eterm orig;
} ErlSubBin;

typedef struct {
    Eterm orig;
    byte *base;
    Uint offset;
    size_t size;
} ErlBinMatchBuffer;

typedef struct {
    Eterm thing_word;
    ErlBinMatchBuffer mb;
    Eterm save_offset[1];
} ErlBinMatchState;

#define ERL_FUN_SIZE (sizeof(ErlFunThing) / sizeof(Eterm) - 1)
#define PROC_BIN_SIZE (sizeof(ProcBin) / sizeof(Eterm))
#define ERL_SUB_BIN_SIZE (sizeof(ErlSubBin) / sizeof(Eterm))
#define HEADER_SUB_BIN _make_header(ERL_SUB_BIN_SIZE - 2, SUB_BINARY_SUBTAG)
#define header_heap_bin(BYTES) _make_header(1 + ((BYTES) + 7) / 8, HEAP_BINARY_SUBTAG)
#define HEADER_PROC_BIN _make_header(PROC_BIN_SIZE - 1, REFC_BINARY_SUBTAG)

static inline byte *binary_bytes(Eterm term)
{
    Eterm *at = boxed_val(term);
    return *at == HEADER_PROC_BIN ? ((ProcBin *)at)->bytes : (byte *)((ErlHeapBin *)at)->data;
}

/* ---- A process. */

enum { ERL_MESSAGE_REF_ARRAY_SZ = 3, ERTS_RECV_MARKER_BLOCK_SIZE = 8, FS_OFF_HEAP_MSGQ = 1, FS_OFF_HEAP_MSGQ_CHNG = 4 };

typedef struct ErtsMessage {
    struct ErtsMessage *next;
    struct {
        void *attached;
    } data;
    Eterm m[ERL_MESSAGE_REF_ARRAY_SZ];
} ErtsMessage;

#define ERTS_SIG_IS_INTERNAL_MSG(MESSAGE) (!is_header((MESSAGE)->m[0]))
#define ERTS_SIG_IS_HEAP_ALIAS_MSG(MESSAGE) ((MESSAGE)->m[0] == EXTERNAL_PID_SUBTAG)

typedef struct ErlHeapFragment ErlHeapFragment;

typedef struct Process {
    Eterm *heap, *htop, *hend, *stop, *old_heap, *old_htop, *old_hend, *high_water;
    struct {
        Uint usedSlots;
        Eterm data[4];
    } *dictionary;
    Eterm seq_trace_token, group_leader, parent, fvalue, ftrace;
    struct {
        int flags;
        ErtsMessage *first, *cont;
        struct {
            Eterm ref[ERTS_RECV_MARKER_BLOCK_SIZE];
        } *recv_mrk_blk;
    } sig_qs;
} Process;

#define HEAP_START(P) ((P)->heap)
#define HEAP_TOP(P) ((P)->htop)
#define STACK_START(P) ((P)->hend)
#define OLD_HEAP(P) ((P)->old_heap)
#define OLD_HTOP(P) ((P)->old_htop)
#define ERTS_PD_START(DICTIONARY) ((DICTIONARY)->data)
#define ERTS_PD_SIZE(DICTIONARY) ((DICTIONARY)->usedSlots)

static inline int erts_setup_nfunc_rootset(Process *p, Eterm **words, Uint *count)
{
    (void)p, (void)words, (void)count;
    return 0;
}

/* The literals of the code. */
extern Eterm stub_literals[8];

static inline int erts_is_literal(Eterm term, Eterm *at)
{
    (void)term;
    return stub_literals <= at && at < stub_literals + 8;
}

#endif
