/* Step 1: a heap, and one object. */
#include "herbpond.h"

#include <inttypes.h>

enum kind { PAIR = 1 };
enum { WORDS = 1000, PLACES = 10 };

static hp vm;

/* herbpond.h calls this if a call cannot do its work. */
static void failed(hp *h, uint32_t answer, const char *call)
{
    (void)h;
    fprintf(stderr, "%s: %s\n", call, gcflip_answer_text(answer));
    exit(1);
}

int main(void)
{
    hp_open(&vm, WORDS, PLACES, failed);
    hp_new(&vm, 0, PAIR, 2); /* register 0 refers to a new pair, whose fields hold nil */
    hp_set_int(&vm, 1, 42);  /* register 1 holds 42 */
    hp_put(&vm, 0, 0, 1);    /* field 0 of the pair takes the value of register 1 */
    hp_collect(&vm);         /* moves the pair */
    hp_get(&vm, 2, 0, 0);    /* register 2 takes the value of field 0 */
    printf("%" PRId64 "\n", hp_look(&vm, 2).integer);
    hp_close(&vm);
    return 0;
}
