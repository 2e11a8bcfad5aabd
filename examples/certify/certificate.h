/* What a runtime adds so that its collector can be checked: images of its two spaces, and the pairs. */
#ifndef CERTIFICATE_H
#define CERTIFICATE_H

#include "heap.h"
#include <gcflip.h>
#include <stdio.h>

struct certificate {
    gcflip_image old;
    gcflip_image new;
    gcflip_pair *pairs;
    uint32_t pair_count;
};

/* Writes images of both heaps and the pairs of originals and replicas into memory of its own. */
struct certificate new_certificate(const struct heap *old, const struct heap *new);

void free_certificate(const struct certificate *certificate);

/* Writes the certificate as a `heappair` text, which `gcflip check` reads. The text has at most 272 roots. If there are more, the last ones
 * become the fields of an object, or of several, behind the other objects. A root refers to each of these objects, and the last pairs are theirs. */
void write_certificate(FILE *file, const struct certificate *certificate);

/* Prints the verdict, as `gcflip check` does, and its meaning for the program's own objects. */
void print_verdict(const struct heap *old, const struct certificate *certificate, const gcflip_verdict *verdict);

#endif
