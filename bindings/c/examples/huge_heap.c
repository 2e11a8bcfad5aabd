/* A heap of 64 MiB on the allocator of huge_pages.c. It keeps a list of numbers, and the collector copies it. The last line says whether the memory
   of both spaces asks for huge pages, which Linux tells in /proc/self/smaps. */
#include <gcflip_heap.h>
#include <stdbool.h>
#include <stdio.h>
#include <string.h>

enum { WORDS = 8 << 20, WORD_BYTES = 8, KIB = 1024, CELLS = 100000 };
enum { NUMBER = 16, LIST, CELL }; /* places of slots of mutator 0 */

/* Puts a number before the list. */
static bool push(gcflip_heap *heap, uint64_t number)
{
    gcflip_set_number(heap, NUMBER, number);
    return gcflip_new_pair(heap, 0, CELL, 1, NUMBER, LIST) == GCFLIP_MADE && gcflip_copy(heap, LIST, CELL) == GCFLIP_DONE;
}

/* Returns the sum of the list's numbers. Afterwards the list is empty. */
static uint64_t sum_of_list(gcflip_heap *heap)
{
    uint64_t sum = 0;
    for (; gcflip_look_seen(heap, LIST).answer == GCFLIP_OBJECT; gcflip_get_seen(heap, LIST, LIST, 1))
        sum += gcflip_peek_seen(heap, LIST, 0).number;
    return sum;
}

/* Returns how many KiB of the process's memory ask for huge pages. In smaps, each range has a line with its size and, later, one with its flags. */
static unsigned long asking_for_huge_pages(void)
{
    char line[256];
    unsigned long size = 0, sum = 0;
    FILE *ranges = fopen("/proc/self/smaps", "r");
    while (ranges != NULL && fgets(line, sizeof line, ranges) != NULL)
        if (sscanf(line, "Size: %lu", &size) == 0 && strncmp(line, "VmFlags:", 8) == 0 && strstr(line, " hg") != NULL)
            sum += size;
    if (ranges != NULL)
        fclose(ranges);
    return sum;
}

int main(void)
{
    gcflip_heap heap = GCFLIP_NO_HEAP;
    const gcflip_options options = gcflip_options_default(WORDS, 1);
    gcflip_work work = {0, 0, 0, 0, 0};
    if (gcflip_heap_open(&heap, &options) != GCFLIP_DONE || gcflip_heap_touch(&heap) != GCFLIP_DONE)
        return 1;
    for (uint64_t number = 1; number <= CELLS; number++)
        if (!push(&heap, number))
            return 1;
    if (gcflip_heap_work(&heap, UINT32_MAX, &work) != GCFLIP_DONE)
        return 1;
    printf("flipped %u\n", work.pairs);
    printf("the sum is %llu\n", (unsigned long long)sum_of_list(&heap));
    printf("both spaces ask for huge pages: %s\n", asking_for_huge_pages() >= 2ul * WORDS / KIB * WORD_BYTES ? "yes" : "no");
    return gcflip_heap_close(&heap) != GCFLIP_DONE;
}
