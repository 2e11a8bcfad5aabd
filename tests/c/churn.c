/* Pushes to and pops from a long list, while the collector works: churn OPERATIONS. Two mutators share the list: one
   pushes, and the other pops and sees the number that was pushed. After a tenth of the operations, the memory in use may
   not grow. */
#include "expect.h"
#include "gcflip_heap.h"
#include "own_allocator.h"
#include "open_heap.h"

enum { LIST = 16, DEPTH = 200, WORDS = 4096 };

static gcflip_heap heap = GCFLIP_NO_HEAP;
static unsigned long flips;

static void collect(uint32_t most)
{
    gcflip_work work;
    EXPECT(gcflip_heap_work(&heap, most, &work) == GCFLIP_DONE);
    EXPECT(work.last != GCFLIP_NO_ROOM && work.last != GCFLIP_FLIP_REFUSED);
    flips += work.last == GCFLIP_FLIPPED;
}

/* Pushes a new cell with the number n to the front of the list. */
static void push(uint64_t n)
{
    EXPECT(gcflip_heap_set_number(&heap, 0, 1, n) == GCFLIP_DONE);
    for (;;) {
        uint32_t answer = gcflip_heap_new_pair(&heap, 0, 0, 1, 1, LIST);
        if (answer == GCFLIP_MADE)
            break;
        EXPECT(answer == GCFLIP_FULL);
        collect(UINT32_MAX);
    }
    EXPECT(gcflip_heap_move(&heap, 0, LIST, 0) == GCFLIP_DONE);
}

static void pop(uint64_t n)
{
    uint64_t number = n + 1;
    EXPECT(gcflip_heap_get(&heap, 1, 0, LIST, 0, &number) == GCFLIP_NUMBER && number == n);
    uint32_t rest = gcflip_heap_get(&heap, 1, LIST, LIST, 1, &number);
    EXPECT(rest == GCFLIP_OBJECT || rest == GCFLIP_NIL);
}

int main(int count, char **arguments)
{
    const unsigned long operations = count > 1 ? strtoul(arguments[1], NULL, 10) : 100000;
    static uint64_t pushed[DEPTH];
    unsigned long depth = 0;
    size_t in_use = 0;
    unsigned random = 1;
    EXPECT(open_plain_heap(&heap, WORDS, 2) == GCFLIP_DONE);
    for (unsigned long n = 0; n < operations; n++) {
        random = random * 1103515245u + 12345u;
        if (depth == 0 || (depth < DEPTH && random >> 16 & 1)) {
            push(n);
            pushed[depth++] = n;
        } else {
            pop(pushed[--depth]);
        }
        collect(1);
        if (n % 64 == 0) {
            size_t bytes = bytes_in_use();
            if (n < operations / 10)
                in_use = bytes > in_use ? bytes : in_use;
            else
                EXPECT(bytes <= in_use);
        }
    }
    EXPECT(flips > operations / 100000);
    EXPECT(gcflip_heap_close(&heap) == GCFLIP_DONE && blocks_in_use() == 0 && bytes_in_use() == 0);
    return 0;
}
