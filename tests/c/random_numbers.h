/* The random numbers of a test, which a seed decides: xorshift64 (Marsaglia, 2003). */
#ifndef RANDOM_NUMBERS_H
#define RANDOM_NUMBERS_H

#include <stdint.h>

static uint64_t state; /* the test sets it to its seed, which is not 0 */

static inline uint32_t below(uint32_t bound)
{
    state ^= state << 13;
    state ^= state >> 7;
    state ^= state << 17;
    return (uint32_t)((state >> 11) % bound);
}

#endif
