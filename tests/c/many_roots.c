/* Writes the text of two images with many roots, by write_certificate of examples/certify: many_roots ROOTS WRONG FEWER FILE.
 *
 * Root k refers to object k, whose one field has the number k. The old image has garbage behind these objects, and the new one has them in the
 * opposite order. Root WRONG of the new image is nil instead, unless WRONG is ROOTS, and the new image lacks the last FEWER roots. Prints the
 * checker's verdict on the images. */
#include "certificate.h"
#include <inttypes.h>
#include <stdlib.h>

enum { WORDS = 3 };

static gcflip_image image_of(uint32_t objects, uint32_t roots, bool is_new)
{
    uint32_t all = is_new ? objects : objects + 1, end = 1 + WORDS * all;
    uint64_t *words = memory(end, sizeof *words), *row = memory(all, sizeof *row);
    for (uint32_t k = 0; k < all; k++) {
        uint32_t at = 1 + WORDS * (is_new ? objects - 1 - k : k);
        words[at] = 16777216 + 1;
        words[at + 2] = 2 * (uint64_t)k + 1;
        row[k] = 2 * (uint64_t)at;
    }
    gcflip_image image = {end, end, true, words, row, roots};
    return image;
}

int main(int count, char **words)
{
    if (count != 5)
        return 2;
    uint32_t roots = (uint32_t)atol(words[1]), wrong = (uint32_t)atol(words[2]), fewer = (uint32_t)atol(words[3]);
    struct certificate made = {image_of(roots, roots, false), image_of(roots, roots - fewer, true), memory(roots, sizeof(gcflip_pair)), roots};
    for (uint32_t i = 0; i < roots; i++) {
        made.pairs[i].old_address = 1 + WORDS * (roots - 1 - i);
        made.pairs[i].new_address = 1 + WORDS * i;
    }
    if (wrong < roots)
        ((uint64_t *)made.new.roots)[wrong] = 0;

    gcflip_verdict verdict = {0, 0, 0, 0};
    gcflip_check_images(&made.old, &made.new, made.pairs, made.pair_count, &verdict);
    printf("%" PRIu32 " %" PRIu32 " %" PRIu64 "\n", verdict.refusal, verdict.pairs, verdict.place);
    FILE *file = fopen(words[4], "w");
    if (file == NULL)
        return 2;
    write_certificate(file, &made);
    free_certificate(&made);
    return fclose(file) == 0 ? 0 : 2;
}
