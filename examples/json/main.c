/* json [--sort] [--indent BLANKS] [--heap WORDS] [--most WORDS]: reads a JSON document from standard input, and prints it. */
#include "json.h"

#include <errno.h>

hp heap;

enum { PLACES = 300000, MOST_INDENT = 100 };

/* The hook of the heap: without room, the program ends. Any other answer is a mistake of this program. */
static void failed(hp *h, uint32_t answer, const char *call)
{
    (void)h;
    fprintf(stderr, "json: %s: %s\n", call, gcflip_answer_text(answer));
    if (gcflip_class_of(answer) != GCFLIP_LACK)
        abort();
    exit(NO_ROOM);
}

/* Reads a number of an option. Returns whether it is one from `least` to `most`. */
static bool read_option(const char *text, uint32_t least, uint32_t most, uint32_t *number)
{
    char *end;
    errno = 0;
    unsigned long long read = strtoull(text, &end, 10);
    *number = (uint32_t)read;
    return text[0] >= '0' && text[0] <= '9' && *end == 0 && errno == 0 && read >= least && read <= most;
}

int main(int count, char **words)
{
    bool sorted = false, is_right = true;
    uint32_t indent = UINT32_MAX, size = 1000000, most = 100000000;
    block document = {NULL, 0, 0};
    for (int i = 1; i < count && is_right; i++)
        if (strcmp(words[i], "--sort") == 0)
            sorted = true;
        else if (strcmp(words[i], "--indent") == 0 && i + 1 < count)
            is_right = read_option(words[++i], 0, MOST_INDENT, &indent);
        else if (strcmp(words[i], "--heap") == 0 && i + 1 < count)
            is_right = read_option(words[++i], 1, UINT32_MAX, &size);
        else
            is_right = strcmp(words[i], "--most") == 0 && i + 1 < count && read_option(words[++i], 1, UINT32_MAX, &most);
    if (!is_right) {
        fprintf(stderr, "usage: json [--sort] [--indent BLANKS] [--heap WORDS] [--most WORDS]\n");
        return WRONG;
    }
    for (int byte; (byte = getchar()) != EOF;)
        add_byte(&document, (uint32_t)byte);
    if (ferror(stdin)) {
        perror("json: standard input");
        return WRONG;
    }
    add_byte(&document, 0);
    document.length--;
    hp_open(&heap, size, PLACES, failed);
    hp_growing(&heap, most);
    parse(&document);
    print(sorted, indent == UINT32_MAX ? -1 : (int)indent);
    hp_close(&heap);
    free(document.bytes);
    if (fflush(stdout) != 0) {
        perror("json: standard output");
        return WRONG;
    }
    return 0;
}
