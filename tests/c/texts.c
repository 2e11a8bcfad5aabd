/* Checks the pair text of each FILE and prints a line, with the verdict or the fault of the text. */
#include "expect.h"
#include "gcflip.h"
#include <string.h>

/* Returns the file's bytes, in a block of exactly their length. */
static uint8_t *content(const char *name, size_t *length)
{
    FILE *file = fopen(name, "rb");
    EXPECT(file && fseek(file, 0, SEEK_END) == 0);
    *length = (size_t)ftell(file);
    rewind(file);
    uint8_t *text = malloc(*length ? *length : 1);
    EXPECT(text && fread(text, 1, *length, file) == *length);
    fclose(file);
    return text;
}

static void print_refusal(const gcflip_verdict *verdict)
{
    printf("refused %u %s", verdict->refusal, gcflip_refusal_name(verdict->refusal));
    if (verdict->refusal != GCFLIP_ROOT_COUNT)
        printf(" %llu", (unsigned long long)verdict->place);
    if (verdict->refusal == GCFLIP_FIELD_DIFFERS)
        printf(" %llu", (unsigned long long)verdict->field);
    printf("\n");
}

static void print_answer(uint32_t answer, const gcflip_verdict *verdict)
{
    switch (answer) {
    case GCFLIP_YES:
        printf("yes %u\n", verdict->pairs);
        break;
    case GCFLIP_REFUSED:
        print_refusal(verdict);
        break;
    case GCFLIP_TOO_LARGE:
        printf("pair: too large\n");
        break;
    case GCFLIP_BAD_LINE:
        printf("pair: bad line %llu\n", (unsigned long long)verdict->place);
        break;
    case GCFLIP_ENDS_EARLY:
        printf("pair: ends early\n");
        break;
    default:
        printf("answer %u\n", answer);
    }
}

int main(int count, char **names)
{
    for (int k = 1; k < count; k++) {
        size_t length;
        uint8_t *text = content(names[k], &length);
        gcflip_verdict verdict, before;
        memset(&verdict, 255, sizeof verdict);
        before = verdict;
        uint32_t answer = gcflip_check_text(text, length, &verdict);
        bool is_written = answer <= GCFLIP_REFUSED || answer == GCFLIP_BAD_LINE;
        EXPECT(is_written || memcmp(&verdict, &before, sizeof verdict) == 0);
        EXPECT(answer != GCFLIP_BAD_LINE || (verdict.refusal == 0 && verdict.pairs == 0 && verdict.field == 0));
        print_answer(answer, &verdict);
        free(text);
    }
    return 0;
}
