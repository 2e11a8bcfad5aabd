// Calls the checker from C++: the headers are valid C++, and the calls have C linkage.
#include "expect.h"
#include "gcflip.h"
#include <cstring>
#include <string>
#include <vector>

static const std::string text = "heappair 1\nold 1 1\n0\nroots 0\nnew 1 1\n0\nroots 0\npairs 0\nend\n";

int main()
{
    const std::vector<uint64_t> words = {0, 16777216, 0}, roots = {2};
    const std::vector<gcflip_pair> pairs = {{1, 1}};
    const gcflip_image image = {8, 3, false, words.data(), roots.data(), roots.size()};
    gcflip_verdict verdict = {};
    EXPECT(gcflip_check_images(&image, &image, pairs.data(), pairs.size(), &verdict) == GCFLIP_YES);
    EXPECT(verdict.pairs == 1);
    EXPECT(gcflip_check_images(&image, &image, nullptr, 0, &verdict) == GCFLIP_REFUSED);
    EXPECT(verdict.refusal == GCFLIP_ROOT_DIFFERS && verdict.place == 0);
    EXPECT(std::strcmp(gcflip_refusal_name(verdict.refusal), "RootDiffers") == 0);
    const uint8_t *bytes = reinterpret_cast<const uint8_t *>(text.data());
    EXPECT(gcflip_check_text(bytes, text.size(), &verdict) == GCFLIP_YES && verdict.pairs == 0);
    EXPECT(gcflip_check_text(bytes, text.size() - 1, &verdict) == GCFLIP_ENDS_EARLY);
    return 0;
}
