/* The faults that scheme48.patch can plant in the collector. */
#ifndef FAULTS_H
#define FAULTS_H

#include <stdbool.h>

/* X(NAME): the first seventeen are planted by each `make check`, and six of the other twenty, which a script draws. */
#define ALL_FAULTS(X) \
    X(flipped_bit) X(immutable_bit) X(thread_missed) X(external_root_missed) X(field_not_updated) X(wrong_forwarding) X(copied_twice) \
    X(weak_cleared) X(weak_not_updated) X(return_address_not_updated) X(symbol_dropped) X(last_word_zero) X(copies_overlap) X(finalizer_lost) \
    X(wrong_mask) X(code_pointer_off) X(binding_dropped) \
    X(exception_code_missed) X(continuation_missed) X(handlers_missed) X(session_missed) X(stack_value_missed) X(log_missed) \
    X(channel_dropped) X(due_too_early) X(due_too_late) X(due_order_turned) X(cell_not_enqueued) X(cell_keeps_queue) X(queue_end_filled) \
    X(last_byte_wrong) X(type_changed) X(object_shortened) X(symbol_in_next_bucket) X(fields_exchanged) X(objects_merged) X(weak_of_neighbour)

enum fault {
    NO_FAULT,
#define FAULT(NAME) FAULT_##NAME,
    ALL_FAULTS(FAULT)
#undef FAULT
    FAULTS
};

/* Returns whether the fault is to happen here. Each call with the fault that is planted is one chance of it. */
bool certify_plants(enum fault fault);

#define PLANTS(NAME) certify_plants(FAULT_##NAME)

#endif
