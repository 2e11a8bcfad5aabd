/* Both ends of a heap beside a collector's thread, in one thread of a test. */
#ifndef BOTH_ENDS_H
#define BOTH_ENDS_H

#include "expect.h"
#include "gcflip_beside.h"

enum { MANY = 100000 }; /* more places than a round of these tests has to visit */

static gcflip_mutator mutator = GCFLIP_NO_END;
static gcflip_collector collector = GCFLIP_NO_END;

/* The mutator stops, and the collector takes it. */
static inline void take(void)
{
    EXPECT(gcflip_beside_ask(&collector) == GCFLIP_DONE);
    EXPECT(gcflip_beside_safepoint(&mutator) == GCFLIP_PARKED);
    EXPECT(gcflip_beside_work(&collector, MANY) == GCFLIP_CLEAN);
    EXPECT(gcflip_beside_take(&collector) == GCFLIP_DONE);
}

#endif
