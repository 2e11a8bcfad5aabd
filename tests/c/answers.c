/* Tests that the numbers of all headers are one row: each answer has one number, refusals lie below 16, and each has its words, its class and a sentence
 * of its own, which says what to do if the class is not that of a success. */
#include "expect.h"
#include "gcflip.h"
#include "gcflip_heap.h"
#include "gcflip_images.h"
#include <string.h>

static const struct {
    uint32_t answer, number;
    const char *name;
    uint32_t class_of_answer;
} ANSWERS[] = {
    {GCFLIP_DONE, 0, "done", GCFLIP_OK},
    {GCFLIP_NO_MEMORY, 1, "no memory", GCFLIP_LACK},
    {GCFLIP_OUT_OF_RANGE, 2, "out of range", GCFLIP_MISUSE},
    {GCFLIP_CLOSED, 3, "closed", GCFLIP_MISUSE},
    {GCFLIP_OPEN, 4, "open", GCFLIP_MISUSE},
    {GCFLIP_TOO_MANY, 7, "too many", GCFLIP_LACK},
    {GCFLIP_TOO_LARGE, 8, "too large", GCFLIP_MISMATCH},
    {GCFLIP_FAULTY, 9, "faulty", GCFLIP_MISMATCH},
    {GCFLIP_NOT_BEGUN, 10, "not begun", GCFLIP_MISUSE},
    {GCFLIP_DAMAGED, 11, "damaged", GCFLIP_MISUSE},
    {GCFLIP_PARKED, 12, "parked", GCFLIP_MISMATCH},
    {GCFLIP_NOT_YET, 13, "not yet", GCFLIP_MISMATCH},
    {GCFLIP_MADE, 16, "made", GCFLIP_OK},
    {GCFLIP_FULL, 17, "full", GCFLIP_LACK},
    {GCFLIP_NO_OBJECT, 18, "no object", GCFLIP_MISMATCH},
    {GCFLIP_NO_FIELD, 19, "no field", GCFLIP_MISMATCH},
    {GCFLIP_NO_NUMBER, 20, "no number", GCFLIP_MISMATCH},
    {GCFLIP_SAME, 21, "same", GCFLIP_OK},
    {GCFLIP_NOT_SAME, 22, "not same", GCFLIP_OK},
    {GCFLIP_NIL, 24, "nil", GCFLIP_OK},
    {GCFLIP_NUMBER, 25, "number", GCFLIP_OK},
    {GCFLIP_OBJECT, 26, "object", GCFLIP_OK},
    {GCFLIP_RAW_OBJECT, 27, "raw object", GCFLIP_OK},
    {GCFLIP_FRAME_FULL, 28, "frame full", GCFLIP_LACK},
    {GCFLIP_FRAME_EMPTY, 29, "frame empty", GCFLIP_MISMATCH},
    {GCFLIP_BUSY, 32, "busy", GCFLIP_MISMATCH},
    {GCFLIP_BEGUN, 33, "begun", GCFLIP_OK},
    {GCFLIP_IDLE, 34, "idle", GCFLIP_MISMATCH},
    {GCFLIP_CLEAN, 35, "clean", GCFLIP_OK},
    {GCFLIP_NO_ROOM, 36, "no room", GCFLIP_LACK},
    {GCFLIP_COPIED, 37, "copied", GCFLIP_OK},
    {GCFLIP_PASSED, 38, "passed", GCFLIP_OK},
    {GCFLIP_SCANNED, 39, "scanned", GCFLIP_OK},
    {GCFLIP_APPLIED, 40, "applied", GCFLIP_OK},
    {GCFLIP_NOT_READY, 41, "not ready", GCFLIP_MISMATCH},
    {GCFLIP_FLIP_REFUSED, 42, "flip refused", GCFLIP_MISUSE},
    {GCFLIP_FLIPPED, 43, "flipped", GCFLIP_OK},
    {GCFLIP_DROPPED, 44, "dropped", GCFLIP_OK},
    {GCFLIP_STARVED, 45, "starved", GCFLIP_LACK},
    {GCFLIP_REFUSED, 48, "refused", GCFLIP_MISMATCH},
    {GCFLIP_BAD_LINE, 49, "bad line", GCFLIP_MISMATCH},
    {GCFLIP_ENDS_EARLY, 50, "ends early", GCFLIP_MISMATCH},
    {GCFLIP_NO_PATH, 51, "no path", GCFLIP_OK},
    {GCFLIP_LONG_PATH, 52, "long path", GCFLIP_LACK},
};

/* Returns whether a text is one sentence, and has a part behind a colon just if the class is not that of a success. */
static int is_sentence(const char *text, uint32_t class_of_answer)
{
    const size_t length = strlen(text);
    const int has_two_parts = strstr(text, ": ") != NULL;
    return length > 0 && text[0] >= 'A' && text[0] <= 'Z' && strchr(text, '.') == text + length - 1 && has_two_parts == (class_of_answer != GCFLIP_OK);
}

/* Tests the classes and the sentences of all rows. */
static void test_classes(void)
{
    for (size_t i = 0; i < COUNT(ANSWERS); i++) {
        const char *const text = gcflip_answer_text(ANSWERS[i].number);
        EXPECT(gcflip_class_of(ANSWERS[i].number) == ANSWERS[i].class_of_answer);
        EXPECT(is_sentence(text, ANSWERS[i].class_of_answer));
        for (size_t k = 0; k < i; k++)
            EXPECT(strcmp(text, gcflip_answer_text(ANSWERS[k].number)) != 0);
    }
}

int main(void)
{
    size_t row = 0;
    EXPECT(GCFLIP_OK == 0 && GCFLIP_LACK == 1 && GCFLIP_MISMATCH == 2 && GCFLIP_MISUSE == 3);
    test_classes();
    EXPECT(GCFLIP_YES == GCFLIP_DONE);
    for (uint32_t number = 0; number < 100; number++) {
        const int is_answer = row < COUNT(ANSWERS) && ANSWERS[row].number == number;
        EXPECT(strcmp(gcflip_answer_name(number), is_answer ? ANSWERS[row].name : "") == 0);
        EXPECT(!is_answer || ANSWERS[row].answer == number);
        EXPECT(GCFLIP_IS_REFUSED(number) == (number >= 1 && number <= 15));
        EXPECT(is_answer || (gcflip_class_of(number) == GCFLIP_MISUSE && strcmp(gcflip_answer_text(number), "") == 0));
        row += is_answer;
    }
    EXPECT(row == COUNT(ANSWERS) && strcmp(gcflip_answer_name(UINT32_MAX), "") == 0);
    EXPECT(gcflip_version() == GCFLIP_VERSION);
    return 0;
}
