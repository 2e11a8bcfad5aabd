/* The evaluator. */
#ifndef EVALUATE_H
#define EVALUATE_H

#include <signal.h>
#include <stdbool.h>

/* What the evaluator does next. */
enum next {
    EVALUATE, /* the first element of PLACE */
    APPLY,    /* the operator in ARGUMENTS to the values in ARGUMENTS */
    RETURN,   /* VALUE to the top frame */
    FINISHED
};

/* Evaluates the first element of PLACE outside all functions. Leaves the value in VALUE. */
void evaluate(void);

/* Clears the evaluator's registers, which an error leaves as they are. */
void clear_registers(void);

/* Set by a signal: the evaluator ends in an error. */
extern volatile sig_atomic_t is_interrupted;

#endif
