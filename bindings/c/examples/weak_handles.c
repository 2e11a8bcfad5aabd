/* Weak handles: an object that nothing else refers to dies, and the program gets the token of its handle. */
#include "herbpond.h"
#include <inttypes.h>

enum { KEPT, LOST, FETCHED, FILE_KIND = 1 };

static void failed(hp *h, uint32_t answer, const char *call)
{
    (void)h;
    fprintf(stderr, "%s: %s\n", call, gcflip_answer_text(answer));
    exit(1);
}

/* Closes what the objects that died stood for. Call this after a collection, or now and then. */
static void finalize(hp *h)
{
    uint64_t token;

    while (hp_weak_next_dead(h, &token))
        printf("file %" PRIu64 " is closed\n", token);
}

int main(void)
{
    hp h;
    hp_weak kept, lost;

    hp_open(&h, 64, 0, failed);
    hp_new(&h, KEPT, FILE_KIND, 0);
    hp_new(&h, LOST, FILE_KIND, 0);
    kept = hp_weak_new(&h, KEPT, 3); /* the token is the number of a file */
    lost = hp_weak_new(&h, LOST, 4);
    hp_set_nil(&h, LOST);
    hp_collect(&h);
    finalize(&h);
    if (hp_weak_get(&h, FETCHED, kept) && !hp_weak_get(&h, FETCHED, lost))
        puts("file 3 is open");
    hp_close(&h);
    return 0;
}
