/* Pairs that do not keep their first element alive. */
#ifndef WEAK_PAIRS_H
#define WEAK_PAIRS_H

/* Call this once, after the heap was opened. */
void follow_weak_pairs(void);

#endif
