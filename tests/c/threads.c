/* Four threads, each with its own heap, check the same images at the same time. Also, one thread uses and closes a heap
   that another one filled. */
#include "expect.h"
#include "gcflip.h"
#include "gcflip_heap.h"
#include "open_heap.h"
#include <pthread.h>

enum { THREADS = 4, ROUNDS = 2000 };

static const uint64_t words[] = {0, 16777217, 0, 15};
static const uint64_t roots[] = {2};
static const gcflip_pair pairs[] = {{1, 1}};

static void check(void)
{
    const gcflip_image image = {8, 4, false, words, roots, 1};
    gcflip_verdict verdict;
    EXPECT(gcflip_check_images(&image, &image, pairs, 1, &verdict) == GCFLIP_YES && verdict.pairs == 1);
}

static void make(gcflip_heap *heap, uint8_t slot, uint64_t n)
{
    EXPECT(gcflip_heap_new_raw(heap, 0, slot, 1, 1) == GCFLIP_MADE);
    EXPECT(gcflip_heap_put_number(heap, 0, slot, 0, 15, n) == GCFLIP_DONE);
}

static void expect_number(gcflip_heap *heap, uint8_t slot, uint64_t n)
{
    uint64_t number = n + 1;
    EXPECT(gcflip_heap_get(heap, 0, 14, slot, 0, &number) == GCFLIP_NUMBER && number == n);
}

/* Fills the heap that the argument points to, and collects in between. */
static void *fill(void *argument)
{
    gcflip_heap *heap = argument;
    EXPECT(open_plain_heap(heap, 256, 1) == GCFLIP_DONE);
    for (uint64_t n = 0; n < ROUNDS; n++) {
        gcflip_work work;
        make(heap, (uint8_t)(n % 8), n);
        EXPECT(gcflip_heap_work(heap, 8, &work) == GCFLIP_DONE);
        check();
    }
    return NULL;
}

int main(void)
{
    pthread_t threads[THREADS];
    gcflip_heap heaps[THREADS] = {GCFLIP_NO_HEAP};
    for (int k = 0; k < THREADS; k++)
        EXPECT(pthread_create(&threads[k], NULL, fill, &heaps[k]) == 0);
    for (int k = 0; k < THREADS; k++)
        EXPECT(pthread_join(threads[k], NULL) == 0);
    for (int k = 0; k < THREADS; k++) {
        for (uint8_t slot = 0; slot < 8; slot++)
            expect_number(&heaps[k], slot, ROUNDS - 8 + slot);
        EXPECT(gcflip_heap_close(&heaps[k]) == GCFLIP_DONE);
    }
    return 0;
}
