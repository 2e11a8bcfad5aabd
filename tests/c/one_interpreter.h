/* A heap of herbpond.h whose failures come back to the test that expects them. */
#ifndef ONE_INTERPRETER_H
#define ONE_INTERPRETER_H

#include "herbpond.h"
#include "expect.h"
#include <setjmp.h>

static hp h;

/* ---- The hook: a call that is expected to fail comes back by it, with the answer and the name of the call */

static jmp_buf back;
static bool expected, returned;
static uint32_t got;
static char from[32];

static void hook(hp *failed_heap, uint32_t answer, const char *call)
{
    if (!expected || failed_heap != &h) {
        fprintf(stderr, "%s failed: %s\n", call, gcflip_answer_text(answer));
        exit(1);
    }
    got = answer;
    snprintf(from, sizeof from, "%s", call);
    longjmp(back, 1);
}

#define FAILS(call, answer, name)                            \
    do {                                                     \
        expected = true;                                     \
        returned = false;                                    \
        if (setjmp(back) == 0) {                             \
            call;                                            \
            returned = true;                                 \
        }                                                    \
        expected = false;                                    \
        EXPECT(!returned && got == (answer));                \
        EXPECT(strcmp(from, name) == 0);                     \
    } while (0)

static uint64_t random_state = 88172645463325252u;

static inline uint64_t random_bits(void)
{
    random_state ^= random_state << 13;
    random_state ^= random_state >> 7;
    random_state ^= random_state << 17;
    return random_state;
}

#endif
