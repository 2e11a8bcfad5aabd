/* Linked with examples/lisp: makes one allocation of the library fail, whose number is in the environment variable REFUSED_ALLOCATION. At its
   end, the program says so. */
#include "own_allocator.h"
#include <stdio.h>

__attribute__((constructor)) static void refuse(void)
{
    const char *number = getenv("REFUSED_ALLOCATION");
    fail_allocation(number == NULL ? 0 : strtol(number, NULL, 10));
}

__attribute__((destructor)) static void report(void)
{
    if (has_failed())
        fprintf(stderr, "refused, and %ld blocks with %zu bytes are left\n", blocks_in_use(), bytes_in_use());
}
