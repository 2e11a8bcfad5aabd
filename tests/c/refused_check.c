/* Makes the n-th allocation of each check fail, for n = 1, 2 and so on until a check needs no more. Links its own
   allocation functions instead of the library's. */
#include "expect.h"
#include "gcflip.h"
#include "own_allocator.h"
#include <string.h>

static const uint64_t words[] = {0, 16777216, 0};
static const uint64_t roots[] = {2};
static const gcflip_pair pairs[] = {{1, 1}};
static const char text[] = "heappair 2\nold 8 3\n0\n16777216\n0\nroots 1\n2\nnew 8 3\n0\n16777216\n0\nroots 1\n2\npairs 1\n1 1\nend\n";

static uint32_t check_images(gcflip_verdict *verdict)
{
    const gcflip_image image = {8, 3, false, words, roots, 1};
    return gcflip_check_images(&image, &image, pairs, 1, verdict);
}

static uint32_t check_text(gcflip_verdict *verdict)
{
    return gcflip_check_text((const uint8_t *)text, strlen(text), verdict);
}

static uint32_t infer_images(gcflip_verdict *verdict)
{
    const gcflip_image image = {8, 3, false, words, roots, 1};
    gcflip_pair found[1] = {{77, 77}};
    size_t count = 77;
    uint32_t answer = gcflip_infer_images(&image, &image, found, 1, &count, verdict);
    bool is_written = answer == GCFLIP_YES;
    EXPECT(count == (is_written ? 1 : 77));
    EXPECT(found[0].old_address == (is_written ? 1 : 77) && found[0].new_address == (is_written ? 1 : 77));
    return answer;
}

/* Finds the path to the second of two objects. Writes a verdict with one pair if it is found, as a check of one pair would. */
static uint32_t path_in_image(gcflip_verdict *verdict)
{
    static const uint64_t two[] = {0, 16777217, 0, 8, 16777216, 0};
    const gcflip_image image = {8, 6, false, two, roots, 1};
    uint64_t place = 77, fields[1] = {77};
    size_t count = 77;
    uint32_t answer = gcflip_path_in(&image, 4, &place, fields, 1, &count);
    bool is_found = answer == GCFLIP_YES;
    EXPECT(place == (is_found ? 0 : 77) && fields[0] == (is_found ? 0 : 77) && count == (is_found ? 1 : 77));
    if (is_found)
        *verdict = (gcflip_verdict){0, 1, 0, 0};
    return answer;
}

/* Returns the number of allocations that can fail. */
static int failures(uint32_t (*check)(gcflip_verdict *verdict))
{
    for (int n = 1;; n++) {
        gcflip_verdict verdict = {77, 77, 77, 77};
        fail_allocation(n);
        uint32_t answer = check(&verdict);
        EXPECT(blocks_in_use() == 0);
        if (answer == GCFLIP_YES) {
            EXPECT(verdict.pairs == 1 && !has_failed());
            return n - 1;
        }
        EXPECT(answer == GCFLIP_NO_MEMORY && has_failed());
        EXPECT(verdict.refusal == 77 && verdict.pairs == 77 && verdict.place == 77 && verdict.field == 77);
    }
}

int main(void)
{
    /* The partners by old address, and the starts of both images. A text also has the bytes that wait, two arrays for each image, and the pairs. */
    EXPECT(failures(check_images) == 3);
    EXPECT(failures(check_text) == 9);
    /* The starts of both images, the partners by old and by new address, and the pairs. */
    EXPECT(failures(infer_images) == 5);
    /* The starts, the visits, their numbers by address, and the fields. */
    EXPECT(failures(path_in_image) == 4);
    return 0;
}
