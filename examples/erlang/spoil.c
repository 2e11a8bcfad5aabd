/* The faults of erlang.patch that are about one copy. adapter.c includes this file. */

static void spoil_tuple(Eterm *copy, Uint arity)
{
    if (arity > 1 && PLANTS(tuple_shortened))
        copy[0] = make_arityval(arity - 1);
    else if (arity > 1 && copy[1] != copy[2] && PLANTS(elements_exchanged)) {
        Eterm element = copy[1];
        copy[1] = copy[2];
        copy[2] = element;
    }
}

static void spoil_map(Eterm *copy)
{
    if (!is_flatmap_header(copy[0]) || copy[1] == 0)
        return;
    if (copy[2 + copy[1]] != NIL && PLANTS(map_value_lost))
        copy[2 + copy[1]] = NIL;
    if (PLANTS(map_size_off))
        copy[1]--;
}

static void spoil_fun(ErlFunThing *fun)
{
    if (PLANTS(fun_arity_off))
        fun->arity++;
    if (fun->num_free > 0 && fun->env[fun->num_free - 1] != NIL && PLANTS(fun_variable_lost))
        fun->env[fun->num_free - 1] = NIL;
}

static void spoil_binary(Eterm *copy)
{
    ProcBin *bin = (ProcBin *)copy;
    ErlSubBin *sub = (ErlSubBin *)copy;
    if (*copy == HEADER_PROC_BIN && bin->flags == 0 && PLANTS(binary_size_off))
        bin->size--;
    if (*copy == HEADER_PROC_BIN && bin->flags == 0 && PLANTS(binary_moved))
        bin->bytes++;
    if (thing_subtag(*copy) == SUB_BINARY_SUBTAG && PLANTS(sub_binary_offset_off))
        sub->offs++;
    if (thing_subtag(*copy) == HEAP_BINARY_SUBTAG && copy[1] > 0 && PLANTS(heap_binary_byte))
        ((byte *)(copy + 2))[copy[1] - 1] ^= 1;
}

void certify_spoil_boxed(Eterm *copy, Eterm *old)
{
    Eterm header = *copy;
    if (is_arity_value(header)) {
        Uint arity = arityval(header);
        if (arity > 0 && !certify_is_pointer(copy[1]) && PLANTS(boxed_bit))
            copy[1] ^= 64;
        if (PLANTS_SOME(boxed_copied_twice, 400))
            *old = header;
        if (PLANTS_SOME(wrong_forwarding, 400))
            *old += 16;
        spoil_tuple(copy, arity);
        return;
    }
    switch (thing_subtag(header)) {
    case MAP_SUBTAG: spoil_map(copy); break;
    case FUN_SUBTAG: spoil_fun((ErlFunThing *)copy); break;
    case REFC_BINARY_SUBTAG:
    case SUB_BINARY_SUBTAG:
    case HEAP_BINARY_SUBTAG: spoil_binary(copy); break;
    case FLOAT_SUBTAG:
        if (PLANTS(float_bit))
            copy[1] ^= 1;
        break;
    case POS_BIG_SUBTAG:
        if (PLANTS(bignum_sign))
            copy[0] ^= POS_BIG_SUBTAG ^ NEG_BIG_SUBTAG;
        break;
    case REF_SUBTAG:
        if (!is_magic_ref_thing(copy) && PLANTS(reference_number_off))
            copy[2] ^= 1;
        break;
    case BIN_MATCHSTATE_SUBTAG:
        if (PLANTS(match_offset_off))
            ((ErlBinMatchState *)copy)->mb.offset += 8;
        break;
    }
}

/* The last cons that was copied in this collection, or NIL. */
static _Thread_local Eterm certify_last_cons;

void certify_spoil_cons(Eterm *copy, Eterm *old, Eterm *reference)
{
    Eterm car = copy[0], before = certify_last_cons;
    certify_last_cons = make_list(copy);
    if (!certify_is_pointer(copy[1]) && PLANTS(cdr_bit))
        copy[1] ^= 64;
    if (car != NIL && PLANTS(car_lost))
        copy[0] = NIL;
    if (PLANTS_SOME(cons_copied_twice, 20000)) {
        old[0] = car;
        old[1] = copy[1];
    }
    if (PLANTS(cons_reference_not_updated))
        *reference = make_list(old);
    if (before != NIL && PLANTS(conses_merged))
        *reference = before;
}

/* Makes the roots of a stack begin behind the first word that refers into the young heap. */
static inline void certify_miss_word(Process *p, Eterm **words, Uint *count)
{
    for (Uint i = 0; i < *count; i++) {
        Eterm *at = (Eterm *)((*words)[i] & ~(Eterm)3);
        if (!certify_is_pointer((*words)[i]) || at < HEAP_START(p) || at >= HEAP_TOP(p))
            continue;
        if (PLANTS(stack_word_missed)) {
            *words += i + 1;
            *count -= i + 1;
        }
        return;
    }
}

/* Sets where a match context reads, after its binary has moved. Only that of a binary on the heap changes. */
static void certify_set_base(ErlBinMatchBuffer *buffer)
{
    if (*boxed_val(buffer->orig) == HEADER_PROC_BIN || !PLANTS(match_base_stale))
        buffer->base = binary_bytes(buffer->orig);
}
