/* Step 2: a stack of values. */
#include "herbpond.h"

#include <inttypes.h>

enum code { INT, ADD, PRINT, HALT };
enum { WORDS = 1000, PLACES = 10 };

static hp vm;

/* herbpond.h calls this if a call cannot do its work. */
static void failed(hp *h, uint32_t answer, const char *call)
{
    (void)h;
    fprintf(stderr, "%s: %s\n", call, gcflip_answer_text(answer));
    exit(1);
}

/* ---- Values */

/* Returns the place on the stack that has so many places above it. */
static hp_root top(uint32_t above)
{
    return HP_STACK(vm.stack.top - 1 - above);
}

static int64_t integer(hp_root s)
{
    return hp_look(&vm, s).integer;
}

/* ---- The machine */

static void add(void)
{
    hp_set_int(&vm, top(1), integer(top(1)) + integer(top(0)));
    hp_drop(&vm, 1);
}

static void run(const int *at)
{
    for (;;)
        switch (*at++) {
        case INT: hp_set_int(&vm, hp_push(&vm), *at++); break;
        case ADD: add(); break;
        case PRINT: printf("%" PRId64 "\n", integer(top(0))); hp_drop(&vm, 1); break;
        case HALT: return;
        }
}

int main(void)
{
    const int codes[] = {INT, 1, INT, 2, INT, 3, ADD, ADD, PRINT, HALT};

    hp_open(&vm, WORDS, PLACES, failed);
    run(codes);
    hp_close(&vm);
    return 0;
}
