/* The faults that erlang.patch can plant in the collector. */
#ifndef CERTIFY_FAULTS_H
#define CERTIFY_FAULTS_H

/* X(NAME): the first eleven are planted by each `make check`, and six of the other twenty, which a script draws. */
#define ALL_FAULTS(X) \
    X(boxed_bit) X(dictionary_missed) X(cons_reference_not_updated) X(boxed_copied_twice) X(wrong_forwarding) X(match_base_stale) X(cons_copied_twice) \
    X(sub_binary_shifted) X(cdr_bit) X(promoted_not_swept) X(root_offset_missed) \
    X(stack_word_missed) X(registers_missed) X(dictionary_end_missed) X(message_missed) X(tuple_shortened) X(elements_exchanged) X(conses_merged) \
    X(car_lost) X(float_bit) X(bignum_sign) X(map_value_lost) X(map_size_off) X(fun_arity_off) X(fun_variable_lost) X(binary_size_off) \
    X(binary_moved) X(sub_binary_offset_off) X(match_offset_off) X(heap_binary_byte) X(reference_number_off)

enum certify_fault {
    NO_FAULT,
#define FAULT(NAME) FAULT_##NAME,
    ALL_FAULTS(FAULT)
#undef FAULT
    FAULTS
};

/* The fault that is planted in the collection of this thread, or NO_FAULT. */
extern _Thread_local enum certify_fault certify_fault;

/* Counts a place for the fault. Returns whether it is to happen there; `times` is at how many places one after the other. */
int certify_plants(int times);

#define PLANTS_SOME(NAME, TIMES) (certify_fault == FAULT_##NAME && certify_plants(TIMES))
#define PLANTS(NAME) PLANTS_SOME(NAME, 1)

/* Spoil the copy of an object that was just made. `old` is where it was, and `reference` the word that referred to it. */
void certify_spoil_boxed(Eterm *copy, Eterm *old);
void certify_spoil_cons(Eterm *copy, Eterm *old, Eterm *reference);

#endif
