/* Tests herbpond.h: the numbers of values, the stack, room and growth, what the hook gets, texts of bytes, refused allocations, and the walk. */
#include "own_allocator.h"
#include "expect.h"
#include "one_interpreter.h"
#include <signal.h>
#include <sys/wait.h>
#include <unistd.h>

/* Returns how many objects the heap has, and in `words` how many words they take. */
static uint32_t walked(uint32_t *words)
{
    hp_object object = {0, {HP_NIL, 0, 0, 0, 0, 0}};
    uint32_t count = 0;
    *words = 0;
    for (; hp_next(&h, &object); count++)
        *words += object.value.count + 2;
    EXPECT(hp_counts(&h).end == *words + 1);
    return count;
}

/* Expects that a collection leaves so many objects. */
static void expect_objects(uint32_t count)
{
    uint32_t words;
    hp_collect(&h);
    EXPECT(walked(&words) == count);
    EXPECT(h.pace.left == words + 1 && h.pace.end == words + 1 && h.pace.owed == 0);
}

/* ---- Values */

static void one_integer(int64_t integer)
{
    uint64_t number = hp_code_of_int(integer);
    hp_value value = hp_value_of(number);
    EXPECT(number < (uint64_t)1 << 63 && number % 2 == 0);
    EXPECT(value.type == HP_INT && value.integer == integer && value.kind == 0 && value.count == 0 && value.special == 0);
    hp_set_int(&h, 0, integer);
    value = hp_look(&h, 0);
    EXPECT(value.type == HP_INT && value.integer == integer);
    hp_put_int(&h, 1, 1, integer);
    value = hp_field(&h, 1, 1);
    EXPECT(value.type == HP_INT && value.integer == integer);
}

static void integers(void)
{
    hp_open(&h, 1000, 4, hook);
    hp_new(&h, 1, 7, 2);
    EXPECT(hp_code_of_int(0) == 0 && hp_code_of_int(1) == 2 && hp_code_of_int(-1) == 0x7ffffffffffffffe);
    EXPECT(hp_code_of_int(HP_LEAST_INT) == 0x4000000000000000 && hp_code_of_int(HP_MOST_INT) == 0x3ffffffffffffffe);
    EXPECT(HP_LEAST_INT == -2305843009213693952 && HP_MOST_INT == 2305843009213693951);
    for (int bit = 0; bit < 61; bit++)
        for (int64_t more = -1; more <= 1; more++) {
            one_integer(((int64_t)1 << bit) + more);
            one_integer(-((int64_t)1 << bit) + more);
        }
    one_integer(HP_LEAST_INT);
    one_integer(HP_LEAST_INT + 1);
    one_integer(HP_MOST_INT);
    for (int i = 0; i < 100000; i++)
        one_integer((int64_t)(random_bits() >> 2 >> random_bits() % 62) * (random_bits() % 2 == 0 ? 1 : -1) / 2);
    hp_set_int(&h, 0, 5);
    hp_put_int(&h, 1, 1, 6);
    FAILS(hp_set_int(&h, 0, HP_MOST_INT + 1), GCFLIP_OUT_OF_RANGE, "hp_set_int");
    FAILS(hp_set_int(&h, 0, HP_LEAST_INT - 1), GCFLIP_OUT_OF_RANGE, "hp_set_int");
    FAILS(hp_set_int(&h, 0, INT64_MIN), GCFLIP_OUT_OF_RANGE, "hp_set_int");
    FAILS(hp_put_int(&h, 1, 1, HP_MOST_INT + 1), GCFLIP_OUT_OF_RANGE, "hp_put_int");
    FAILS(hp_put_int(&h, 1, 1, HP_LEAST_INT - 1), GCFLIP_OUT_OF_RANGE, "hp_put_int");
    EXPECT(hp_look(&h, 0).integer == 5 && hp_field(&h, 1, 1).integer == 6);
    hp_close(&h);
}

static uint64_t bits_of(double real)
{
    uint64_t bits;
    memcpy(&bits, &real, sizeof bits);
    return bits;
}

/* A double comes back bit by bit, but for a NaN. It needs a box if its size is below 2^-254 and not 0, or at least 2^257 and not infinite. */
static void one_double(uint64_t bits, bool in_heap)
{
    double real;
    uint64_t number = 0;
    memcpy(&real, &bits, sizeof real);
    bool wants_box = !isnan(real) && !isinf(real) && real != 0 && (fabs(real) < 0x1p-254 || fabs(real) >= 0x1p257);
    EXPECT(hp_code_of_double(real, &number) == !wants_box);
    if (!wants_box) {
        hp_value value = hp_value_of(number);
        EXPECT(number < (uint64_t)1 << 63 && number % 2 == 1 && value.type == HP_DOUBLE && value.integer == 0);
        EXPECT(isnan(real) ? isnan(value.real) : bits_of(value.real) == bits);
    }
    if (in_heap) {
        hp_set_double(&h, 2, real);
        EXPECT((hp_look(&h, 2).type == HP_RAW) == wants_box);
        EXPECT(isnan(real) ? isnan(hp_double(&h, 2)) : bits_of(hp_double(&h, 2)) == bits);
    }
}

static void doubles(void)
{
    const uint64_t fractions[] = {0, 1, 0x8000000000000, 0xfffffffffffff};
    uint64_t number;
    hp_open(&h, 1000, 4, hook);
    EXPECT(hp_code_of_double(1.0, &number) && number == 0x3fe0000000000001);
    EXPECT(hp_code_of_double(-2.0, &number) && number == 0x4000000000000001);
    EXPECT(hp_code_of_double(0.0, &number) && number == 0x6000000000000001);
    for (uint64_t exponent = 0; exponent < 2048; exponent++)
        for (uint64_t sign = 0; sign < 2; sign++)
            for (size_t i = 0; i < COUNT(fractions); i++)
                one_double(sign << 63 | exponent << 52 | fractions[i], true);
    for (int i = 0; i < 1000000; i++)
        one_double(random_bits(), i % 16 == 0);
    hp_set_int(&h, 0, 1);
    FAILS(hp_double(&h, 0), GCFLIP_NO_NUMBER, "hp_double");
    hp_new_raw(&h, 0, 7, 2);
    FAILS(hp_double(&h, 0), GCFLIP_NO_NUMBER, "hp_double");
    hp_close(&h);
}

static void one_special(uint64_t special)
{
    hp_value value = hp_value_of(hp_code_of_special(special));
    EXPECT(value.type == HP_SPECIAL && value.special == special && value.integer == 0);
    hp_set_special(&h, 3, special);
    value = hp_look(&h, 3);
    EXPECT(value.type == HP_SPECIAL && value.special == special);
}

static void specials(void)
{
    hp_open(&h, 100, 4, hook);
    EXPECT(hp_code_of_special(0) == 0x2000000000000001 && HP_SPECIALS == 4503599627370496);
    for (uint64_t special = 1; special < HP_SPECIALS; special *= 2) {
        one_special(special - 1);
        one_special(special);
    }
    one_special(HP_SPECIALS - 1);
    for (int i = 0; i < 10000; i++)
        one_special(random_bits() >> 12);
    hp_set_special(&h, 3, 9);
    FAILS(hp_set_special(&h, 3, HP_SPECIALS), GCFLIP_OUT_OF_RANGE, "hp_set_special");
    EXPECT(hp_look(&h, 3).special == 9);
    hp_set_int(&h, 4, 9);
    hp_set_double(&h, 5, 9.0);
    EXPECT(!hp_same(&h, 3, 4) && !hp_same(&h, 4, 5) && hp_same(&h, 3, 3));
    hp_close(&h);
}

/* ---- The stack */

static void stack(void)
{
    hp_open(&h, 1000, 3, hook);
    FAILS(hp_drop(&h, 1), GCFLIP_FRAME_EMPTY, "hp_drop");
    for (uint32_t k = 0; k < 3; k++) {
        EXPECT(hp_push(&h) == HP_STACK(k) && HP_STACK(k) == 32 + k);
        hp_new(&h, HP_STACK(k), k, 0);
    }
    FAILS(hp_push(&h), GCFLIP_FRAME_FULL, "hp_push");
    EXPECT(h.stack.top == 3);
    expect_objects(3);
    hp_drop(&h, 2);
    FAILS(hp_drop(&h, 2), GCFLIP_FRAME_EMPTY, "hp_drop");
    FAILS(hp_look(&h, HP_STACK(1)), GCFLIP_OUT_OF_RANGE, "hp_look");
    FAILS(hp_set_nil(&h, HP_STACK(1)), GCFLIP_OUT_OF_RANGE, "hp_set_nil");
    FAILS(hp_copy(&h, 0, HP_STACK(1)), GCFLIP_OUT_OF_RANGE, "hp_copy");
    FAILS(hp_copy(&h, HP_STACK(1), 0), GCFLIP_OUT_OF_RANGE, "hp_copy");
    FAILS(hp_set_int(&h, 29, 1), GCFLIP_OUT_OF_RANGE, "hp_set_int");
    FAILS(hp_set_int(&h, 30, 1), GCFLIP_OUT_OF_RANGE, "hp_set_int");
    FAILS(hp_set_int(&h, 31, 1), GCFLIP_OUT_OF_RANGE, "hp_set_int");
    FAILS(hp_new(&h, HP_STACK(1), 0, 0), GCFLIP_OUT_OF_RANGE, "hp_new");
    expect_objects(1);
    EXPECT(hp_is(&h, HP_STACK(0), 0) && !hp_is(&h, HP_STACK(0), 1) && !hp_is(&h, 0, 0));
    /* a place that is pushed again before a collection looks, and dropped again */
    for (uint32_t k = 1; k < 3; k++)
        hp_new(&h, hp_push(&h), 9, 0);
    hp_drop(&h, 2);
    hp_set_nil(&h, hp_push(&h));
    hp_drop(&h, 1);
    expect_objects(1);
    hp_drop(&h, 1);
    expect_objects(0);
    /* all registers but the layer's own */
    for (hp_root r = 0; r < 29; r++)
        hp_new_raw(&h, r, r, 0);
    expect_objects(29);
    for (hp_root r = 0; r < 29; r++) {
        EXPECT(hp_is(&h, r, r));
        hp_set_nil(&h, r);
    }
    expect_objects(0);
    /* what was dropped is no reason for a full heap */
    hp_new_raw(&h, hp_push(&h), 1, 900);
    hp_drop(&h, 1);
    hp_new_raw(&h, 0, 1, 950);
    hp_close(&h);
}

/* ---- The hook */

static void hooks(void)
{
    hp_open(&h, 100, 4, hook);
    hp_new(&h, 0, 3, 2);
    hp_new_raw(&h, 1, 4, 2);
    hp_set_int(&h, 2, 8);
    /* a lack */
    FAILS(hp_new(&h, 3, 3, 98), GCFLIP_FULL, "hp_reserve");
    FAILS(hp_new_raw(&h, 3, 3, 65535), GCFLIP_FULL, "hp_reserve");
    /* a mismatch */
    FAILS(hp_get(&h, 3, 2, 0), GCFLIP_NO_OBJECT, "hp_get");
    FAILS(hp_get(&h, 3, 0, 2), GCFLIP_NO_FIELD, "hp_get");
    FAILS(hp_get(&h, 3, 0, 65536), GCFLIP_NO_FIELD, "hp_get");
    FAILS(hp_field(&h, 3, 0), GCFLIP_NO_OBJECT, "hp_field");
    FAILS(hp_field(&h, 0, 2), GCFLIP_NO_FIELD, "hp_field");
    FAILS(hp_put(&h, 2, 0, 0), GCFLIP_NO_OBJECT, "hp_put");
    FAILS(hp_put(&h, 0, 2, 0), GCFLIP_NO_FIELD, "hp_put");
    FAILS(hp_put(&h, 1, 0, 0), GCFLIP_NO_NUMBER, "hp_put");
    FAILS(hp_put_word(&h, 1, 2, 0), GCFLIP_NO_FIELD, "hp_put_word");
    FAILS(hp_word(&h, 0, 0), GCFLIP_NO_NUMBER, "hp_word");
    FAILS(hp_word(&h, 1, 2), GCFLIP_NO_FIELD, "hp_word");
    /* a mistake */
    FAILS(hp_new(&h, 3, 256, 1), GCFLIP_OUT_OF_RANGE, "hp_new");
    FAILS(hp_new_raw(&h, 3, 256, 1), GCFLIP_OUT_OF_RANGE, "hp_new_raw");
    FAILS(hp_new(&h, 3, 1, 65536), GCFLIP_OUT_OF_RANGE, "hp_new");
    FAILS(hp_new_raw(&h, 3, 1, UINT32_MAX), GCFLIP_OUT_OF_RANGE, "hp_new_raw");
    FAILS(hp_put_word(&h, 1, 0, (uint64_t)1 << 63), GCFLIP_OUT_OF_RANGE, "hp_put_word");
    /* nothing has changed */
    EXPECT(hp_look(&h, 3).type == HP_NIL && hp_field(&h, 0, 0).type == HP_NIL && hp_word(&h, 1, 0) == 0 && hp_look(&h, 2).integer == 8);
    EXPECT(h.stats.objects == 2 && h.stats.words == 8);
    hp_put(&h, 0, 1, 1);
    hp_put_word(&h, 1, 1, INT64_MAX);
    hp_get(&h, 3, 0, 1);
    EXPECT(hp_same(&h, 3, 1) && hp_word(&h, 3, 1) == INT64_MAX && hp_field(&h, 0, 1).type == HP_RAW && hp_field(&h, 0, 1).kind == 4 && hp_look(&h, 0).type == HP_OBJECT);
    hp_close(&h);
    FAILS(hp_look(&h, 0), GCFLIP_CLOSED, "hp_look");
    FAILS(hp_close(&h), GCFLIP_CLOSED, "hp_close");
    FAILS(hp_open(&h, 0, 4, hook), GCFLIP_OUT_OF_RANGE, "hp_open");
    FAILS(hp_open(&h, 100, 1048577, hook), GCFLIP_OUT_OF_RANGE, "hp_open");
}

static void hook_that_returns(hp *failed_heap, uint32_t answer, const char *call)
{
    (void)failed_heap;
    (void)answer;
    (void)call;
}

/* A hook that returns ends the program, so that the call does not. */
static void returning(void)
{
    int status;
    pid_t child = fork();
    EXPECT(child >= 0);
    if (child == 0) {
        fclose(stderr);
        hp_open(&h, 100, 0, hook_that_returns);
        hp_drop(&h, 1);
        _exit(0);
    }
    EXPECT(waitpid(child, &status, 0) == child && WIFSIGNALED(status) && WTERMSIG(status) == SIGABRT);
}

/* ---- Room */

/* Makes a list of pairs (number, rest) in register 0 with the numbers 1 to `count`, the last one first. */
static void make_list(uint32_t count)
{
    hp_set_nil(&h, 0);
    for (uint32_t i = 1; i <= count; i++) {
        hp_new(&h, 1, 5, 2);
        hp_put_int(&h, 1, 0, i);
        hp_put(&h, 1, 1, 0);
        hp_copy(&h, 0, 1);
    }
    hp_set_nil(&h, 1);
}

/* Expects that register 0 holds the list of so many pairs. Register 0 is nil afterwards. */
static void expect_list(uint32_t count)
{
    for (; hp_look(&h, 0).type != HP_NIL; count--) {
        EXPECT(hp_field(&h, 0, 0).integer == count);
        hp_get(&h, 0, 0, 1);
    }
    EXPECT(count == 0);
}

/* The words for which room was made can be taken without a step of the collector, and no word less is reserved. */
static void reserves(void)
{
    gcflip_flip_checks checks;
    uint64_t steps, waits;
    hp_open(&h, 3000, 4, hook);
    make_list(10);
    for (int round = 0; round < 50; round++) {
        hp_reserve(&h, 2959); /* 10 pairs of 4 words, word 0, and all the others */
        steps = h.stats.steps;
        hp_new_raw(&h, 1, 1, 1957);
        hp_new(&h, 2, 1, 998);
        EXPECT(h.stats.steps == steps && gcflip_room(&h.heap) == 0);
        hp_set_nil(&h, 1);
        hp_set_nil(&h, 2);
    }
    waits = h.stats.waits;
    FAILS(hp_reserve(&h, 2960), GCFLIP_FULL, "hp_reserve");
    EXPECT(h.stats.waits == waits + 1 && h.stats.full == 1);
    EXPECT(gcflip_heap_flip_checks(&h.heap, &checks) == GCFLIP_DONE && h.stats.flips == checks.along + checks.whole && h.stats.flips >= 50);
    EXPECT(h.stats.objects == 110 && h.stats.words == 40 + 50 * 2959);
    expect_list(10);
    /* small objects need not a call of the collector each, and it works before the heap is full */
    h.pace.least = 0;
    for (uint32_t i = 0; i < 100000; i++)
        hp_new(&h, 1, 1, i % 8);
    EXPECT(gcflip_heap_flip_checks(&h.heap, &checks) == GCFLIP_DONE && h.stats.flips == checks.along + checks.whole);
    hp_close(&h);
}

/* A loop that makes no objects brings an open collection to its end. */
static void safepoints(void)
{
    hp_open(&h, 100000, 4, hook);
    make_list(1000);
    EXPECT(gcflip_heap_step_begin(&h.heap) == GCFLIP_BEGUN);
    for (uint32_t i = 0; i < 100000 && h.stats.flips == 0; i++) {
        hp_put_int(&h, 0, 0, 1000);
        hp_safepoint(&h);
    }
    EXPECT(h.stats.flips == 1);
    expect_list(1000);
    hp_close(&h);
}

/* The steps of a collection are a begin, a copy of the first pair, two scans and a pass for each pair, and a flip. If one is open, another one begins after
 * it. */
static void collects(void)
{
    gcflip_work work;
    hp_open(&h, 1000, 4, hook);
    make_list(10);
    hp_collect(&h);
    EXPECT(h.stats.flips == 1 && h.stats.copied == 40 && h.stats.steps == 1 + 1 + 10 * 3 + 1);
    EXPECT(h.stats.longest == h.stats.steps && h.stats.full == 0);
    EXPECT(gcflip_heap_work(&h.heap, 20, &work) == GCFLIP_DONE && hp_counts(&h).is_open);
    hp_set_nil(&h, 0);
    expect_objects(0);
    EXPECT(h.stats.flips == 3);
    hp_close(&h);
}

/* A collection takes a larger space if more than half of the heap is in use, before an allocation has to wait. */
static void early_growth(bool is_refused)
{
    hp_open(&h, 20000, 4, hook);
    h.pace.least = 0;
    hp_growing(&h, 100000);
    make_list(2600); /* 10,400 words */
    hp_collect(&h);
    EXPECT(hp_counts(&h).size == 20000 && h.stats.waits == 0);
    fail_allocation(0);
    if (is_refused)
        fail_allocations();
    for (uint32_t i = 0; i < (is_refused ? 1000 : 100000) && hp_counts(&h).size == 20000; i++)
        hp_new(&h, 1, 1, 6);
    EXPECT(h.stats.waits == 0 && has_failed() == is_refused && (hp_counts(&h).size == 20000) == is_refused);
    fail_allocation(0);
    expect_list(2600);
    hp_close(&h);
}

static void growth(void)
{
    hp_open(&h, 2000, 4, hook);
    FAILS(make_list(500), GCFLIP_FULL, "hp_reserve");
    EXPECT(hp_counts(&h).size == 2000);
    hp_growing(&h, 30000);
    make_list(500);
    EXPECT(hp_counts(&h).size > 2000 && hp_counts(&h).size <= 30000);
    expect_list(500);
    hp_collect(&h);
    make_list(7400); /* 29,600 words */
    EXPECT(hp_counts(&h).size == 30000);
    expect_list(7400);
    FAILS(make_list(7500), GCFLIP_FULL, "hp_reserve");
    EXPECT(hp_counts(&h).size == 30000);
    hp_set_nil(&h, 0);
    hp_set_nil(&h, 1);
    expect_objects(0);
    EXPECT(gcflip_room(&h.heap) == 29999);
    /* one object that is larger than the heap */
    hp_close(&h);
    hp_open(&h, 100, 4, hook);
    hp_growing(&h, 100000);
    hp_new(&h, 0, 1, 65535);
    EXPECT(hp_look(&h, 0).count == 65535 && hp_counts(&h).size <= 100000);
    hp_close(&h);
}

/* ---- Texts of bytes */

enum { TEXT = 9, TEXTS = 12, LONGEST = 60 };

static uint8_t source[GCFLIP_MOST_BYTES + 1], found[GCFLIP_MOST_BYTES + 1];

/* Fills `source` with bytes, half of which have the highest bit. */
static void fill_source(void)
{
    for (size_t i = 0; i < sizeof source; i++)
        source[i] = (uint8_t)(random_bits() >> 32);
}

/* Expects that s refers to a text with these bytes. */
static void expect_text(hp_root s, const uint8_t *wanted, uint32_t count)
{
    hp_value value = hp_look(&h, s);
    EXPECT(value.type == HP_RAW && value.kind == TEXT && value.count == (count + 6) / 7 && hp_bytes_length(&h, s) == count);
    memset(found, 77, count + 1);
    hp_bytes_read(&h, s, 0, found, count);
    EXPECT(memcmp(found, wanted, count) == 0 && found[count] == 77);
}

/* A text takes the words that are reserved for it, and no more: a heap with just these and word 0 has room for it, and one with a word less has none. */
static void texts_take_their_words(void)
{
    for (uint32_t count = 0; count <= 30; count++) {
        const uint32_t words = (count + 6) / 7 + 2;
        hp_open(&h, 1 + words, 0, hook);
        hp_new_bytes(&h, 0, TEXT, source, count);
        expect_text(0, source, count);
        EXPECT(gcflip_room(&h.heap) == 0 && h.stats.objects == 1 && h.stats.words == words && h.credit == 0 && h.stats.waits == 0);
        FAILS(hp_new_bytes(&h, 1, TEXT, source, 0), GCFLIP_FULL, "hp_reserve");
        hp_close(&h);
        hp_open(&h, words, 0, hook);
        FAILS(hp_new_bytes(&h, 0, TEXT, source, count), GCFLIP_FULL, "hp_reserve");
        EXPECT(h.stats.objects == 0 && h.stats.words == 0 && hp_look(&h, 0).type == HP_NIL);
        hp_close(&h);
    }
}

/* What C has of the texts that the roots refer to. */
static struct {
    uint8_t bytes[LONGEST + 1];
    uint32_t count;
} texts[TEXTS];

/* The roots are registers and places of the stack. */
static hp_root root_of(uint32_t i)
{
    return i < TEXTS / 2 ? i : HP_STACK(i - TEXTS / 2);
}

/* Makes text d by a call that is drawn, in the heap and in C. Returns its length. */
static uint32_t draw_text(uint32_t d, uint32_t s, uint32_t t)
{
    static uint8_t made[2 * LONGEST];
    const uint32_t first = texts[s].count, second = texts[t].count;
    uint32_t at = (uint32_t)(random_bits() % (first + 1)), count = (uint32_t)(random_bits() % (LONGEST + 1));
    switch (random_bits() % 3) {
    case 0:
        memcpy(made, source + 100 * d, count);
        hp_new_bytes(&h, root_of(d), TEXT, made, count);
        break;
    case 1:
        if (first + second <= LONGEST) {
            memcpy(made, texts[s].bytes, first);
            memcpy(made + first, texts[t].bytes, second);
            hp_bytes_join(&h, root_of(d), TEXT, root_of(s), root_of(t));
            count = first + second;
            break;
        }
        /* fall through */
    default:
        count %= first - at + 1;
        memcpy(made, texts[s].bytes + at, count);
        hp_bytes_part(&h, root_of(d), TEXT, root_of(s), at, count);
    }
    memcpy(texts[d].bytes, made, count);
    texts[d].count = count;
    return count;
}

static int sign(int n)
{
    return (n > 0) - (n < 0);
}

/* Compares two texts as the C library compares arrays, and reads a part of one. */
static void compare_texts(uint32_t s, uint32_t t)
{
    const uint32_t first = texts[s].count, second = texts[t].count, at = (uint32_t)(random_bits() % (first + 1)), count = (uint32_t)(random_bits() % (first - at + 1));
    const int order = memcmp(texts[s].bytes, texts[t].bytes, first < second ? first : second);
    const int wanted = order != 0 ? sign(order) : sign((int)first - (int)second);
    EXPECT(hp_bytes_compare(&h, root_of(s), root_of(t)) == wanted && hp_bytes_same(&h, root_of(s), root_of(t)) == (wanted == 0));
    memset(found, 77, count + 1);
    hp_bytes_read(&h, root_of(s), at, found, count);
    EXPECT(memcmp(found, texts[s].bytes + at, count) == 0 && found[count] == 77);
}

/* Calls that are drawn, while collections run. Each is counted as an object of its words. */
static void texts_while_collecting(void)
{
    uint64_t objects = TEXTS, words = 2 * TEXTS, open = 0;
    hp_open(&h, 600, TEXTS / 2, hook);
    h.pace.least = 0;
    while (h.stack.top < TEXTS / 2)
        hp_push(&h);
    for (uint32_t i = 0; i < TEXTS; i++) {
        texts[i].count = 0;
        hp_new_bytes(&h, root_of(i), TEXT, NULL, 0);
    }
    for (int round = 0; round < 200000; round++) {
        uint32_t d = (uint32_t)(random_bits() % TEXTS), s = (uint32_t)(random_bits() % TEXTS), t = (uint32_t)(random_bits() % TEXTS);
        h.credit = 0; /* so that the collector works in this call */
        open += hp_counts(&h).is_open;
        words += (draw_text(d, s, t) + 6) / 7 + 2;
        objects++;
        expect_text(root_of(d), texts[d].bytes, texts[d].count);
        compare_texts(s, t);
        EXPECT(h.stats.objects == objects && h.stats.words == words);
    }
    hp_bytes_read(&h, 0, 0, NULL, 0);
    EXPECT(h.stats.flips > 1000 && open > 1000);
    hp_close(&h);
}

/* A hash depends on the bytes and the seed: of 4,000 texts of zeros, most of which have a number at one end, no two have the same hash. */
static void hashes_of_texts(void)
{
    enum { COUNTED = 4000, ZEROS = 600 };
    static uint64_t hashes[COUNTED];
    hp_open(&h, 100000, 4, hook);
    memset(source, 0, 1000);
    hp_new_bytes(&h, 0, TEXT, "herbpond", 8); /* as in Rust and Python */
    EXPECT(hp_bytes_hash(&h, 0, 5) == 0x27fd3d97bf24d07a);
    for (uint32_t i = 0; i < COUNTED; i++) {
        uint32_t count = i < ZEROS ? i : 8 + i % 500, at = i % 2 * (count - 4);
        if (i >= ZEROS)
            memcpy(source + at, &i, 4);
        hp_new_bytes(&h, 0, TEXT, source, count);
        if (i >= ZEROS)
            memset(source + at, 0, 4);
        hashes[i] = hp_bytes_hash(&h, 0, 5);
        EXPECT(hashes[i] != hp_bytes_hash(&h, 0, 6));
        hp_bytes_part(&h, 1, TEXT, 0, 0, count / 3);
        hp_bytes_part(&h, 2, TEXT, 0, count / 3, count - count / 3);
        hp_bytes_join(&h, 1, TEXT, 1, 2);
        EXPECT(hp_bytes_hash(&h, 1, 5) == hashes[i]);
        for (uint32_t k = 0; k < i; k++)
            EXPECT(hashes[k] != hashes[i]);
    }
    hp_close(&h);
}

/* The longest text, and two that are too long together. */
static void longest_texts(void)
{
    hp_open(&h, 200000, 0, hook);
    hp_new_bytes(&h, 0, TEXT, source, GCFLIP_MOST_BYTES);
    expect_text(0, source, GCFLIP_MOST_BYTES);
    hp_bytes_part(&h, 1, TEXT, 0, 1, GCFLIP_MOST_BYTES - 1);
    expect_text(1, source + 1, GCFLIP_MOST_BYTES - 1);
    hp_new_bytes(&h, 2, TEXT, source, 1);
    hp_bytes_join(&h, 1, TEXT, 2, 1);
    expect_text(1, source, GCFLIP_MOST_BYTES);
    FAILS(hp_bytes_join(&h, 3, TEXT, 1, 2), GCFLIP_OUT_OF_RANGE, "hp_bytes_join");
    FAILS(hp_bytes_join(&h, 3, TEXT, 2, 0), GCFLIP_OUT_OF_RANGE, "hp_bytes_join");
    FAILS(hp_bytes_join(&h, 3, TEXT, 0, 0), GCFLIP_OUT_OF_RANGE, "hp_bytes_join");
    FAILS(hp_new_bytes(&h, 3, TEXT, source, GCFLIP_MOST_BYTES + 1), GCFLIP_OUT_OF_RANGE, "hp_new_bytes");
    FAILS(hp_new_bytes(&h, 3, TEXT, source, (size_t)1 << 32), GCFLIP_OUT_OF_RANGE, "hp_new_bytes");
    FAILS(hp_new_bytes(&h, 3, TEXT, source, SIZE_MAX), GCFLIP_OUT_OF_RANGE, "hp_new_bytes");
    EXPECT(hp_look(&h, 3).type == HP_NIL && h.stats.objects == 4 && h.stats.words == 3 * 65537 + 3);
    hp_close(&h);
}

/* Calls on a root that is out of range, or refers to no text. */
static void refused_text(hp_root p, uint32_t answer)
{
    FAILS(hp_bytes_join(&h, 4, TEXT, p, 0), answer, "hp_bytes_join");
    FAILS(hp_bytes_join(&h, 4, TEXT, 0, p), answer, "hp_bytes_join");
    FAILS(hp_bytes_part(&h, 4, TEXT, p, 0, 0), answer, "hp_bytes_part");
    FAILS(hp_bytes_length(&h, p), answer, "hp_bytes_length");
    FAILS((void)hp_bytes_hash(&h, p, 0), answer, "hp_bytes_hash");
    FAILS(hp_bytes_read(&h, p, 0, found, 0), answer, "hp_bytes_read");
    FAILS(hp_bytes_same(&h, p, 0), answer, "hp_bytes_same");
    FAILS(hp_bytes_same(&h, 0, p), answer, "hp_bytes_same");
    FAILS(hp_bytes_compare(&h, p, 0), answer, "hp_bytes_compare");
    FAILS(hp_bytes_compare(&h, 0, p), answer, "hp_bytes_compare");
}

/* A root that is out of range, of which register 29 is the layer's own and no place of the stack was pushed. */
static void refused_root(hp_root p)
{
    FAILS(hp_new_bytes(&h, p, TEXT, source, 1), GCFLIP_OUT_OF_RANGE, "hp_new_bytes");
    FAILS(hp_bytes_join(&h, p, TEXT, 0, 0), GCFLIP_OUT_OF_RANGE, "hp_bytes_join");
    FAILS(hp_bytes_part(&h, p, TEXT, 0, 0, 1), GCFLIP_OUT_OF_RANGE, "hp_bytes_part");
    FAILS(hp_bytes_part(&h, 4, TEXT, p, 0, 1), GCFLIP_OUT_OF_RANGE, "hp_bytes_part");
    FAILS(hp_bytes_read(&h, p, 0, found, 1), GCFLIP_OUT_OF_RANGE, "hp_bytes_read");
    refused_text(p, GCFLIP_OUT_OF_RANGE);
}

/* Calls on a text of 20 bytes in register 0 and on what is no text, in a heap that they leave as it was. */
static void refused_texts(void)
{
    uint32_t credit;
    hp_open(&h, 100, 1, hook);
    hp_new_bytes(&h, 0, TEXT, source, 20);
    hp_set_int(&h, 1, 5);
    hp_new(&h, 2, TEXT, 1);
    hp_new_raw(&h, 3, TEXT, 2); /* its last field counts no bytes */
    credit = h.credit;
    memset(found, 77, 21);
    refused_root(HP_OLD);
    refused_root(HP_STACK(0));
    for (hp_root p = 1; p < 5; p++)
        refused_text(p, GCFLIP_NO_OBJECT);
    FAILS(hp_new_bytes(&h, 4, 256, source, 1), GCFLIP_OUT_OF_RANGE, "hp_new_bytes");
    FAILS(hp_bytes_join(&h, 4, 256, 0, 0), GCFLIP_OUT_OF_RANGE, "hp_bytes_join");
    FAILS(hp_bytes_part(&h, 4, 256, 0, 0, 1), GCFLIP_OUT_OF_RANGE, "hp_bytes_part");
    FAILS(hp_bytes_part(&h, 4, TEXT, 0, 0, 21), GCFLIP_NO_FIELD, "hp_bytes_part");
    FAILS(hp_bytes_part(&h, 4, TEXT, 0, 21, 0), GCFLIP_NO_FIELD, "hp_bytes_part");
    FAILS(hp_bytes_part(&h, 4, TEXT, 0, 1, UINT32_MAX), GCFLIP_NO_FIELD, "hp_bytes_part");
    FAILS(hp_bytes_part(&h, 4, TEXT, 0, UINT32_MAX, 1), GCFLIP_NO_FIELD, "hp_bytes_part");
    FAILS(hp_bytes_read(&h, 0, 0, found, 21), GCFLIP_NO_FIELD, "hp_bytes_read");
    FAILS(hp_bytes_read(&h, 0, 21, found, 0), GCFLIP_NO_FIELD, "hp_bytes_read");
    EXPECT(h.credit == credit);
    FAILS(hp_new_bytes(&h, 4, TEXT, source, 700), GCFLIP_FULL, "hp_reserve");
    EXPECT(found[0] == 77 && found[20] == 77 && hp_look(&h, 4).type == HP_NIL && h.stats.objects == 3 && h.stats.words == 12);
    expect_text(0, source, 20);
    hp_close(&h);
}

/* Makes a text in register 2: a new one, or one of those in registers 0 and 1. */
static void make_text(int call)
{
    if (call == 0)
        hp_new_bytes(&h, 2, TEXT, source, 100);
    else if (call == 1)
        hp_bytes_join(&h, 2, TEXT, 0, 1);
    else
        hp_bytes_part(&h, 2, TEXT, 0, 0, 100);
}

/* A text whose fields cannot be logged gives the collection up, and is made. Where no collection can begin, the lack of memory is the reason. */
static void texts_without_memory(void)
{
    hp_open(&h, 10000, 0, hook);
    hp_new_bytes(&h, 0, TEXT, source, 100);
    hp_new_bytes(&h, 1, TEXT, source + 100, 0);
    for (int call = 0; call < 3; call++) {
        hp_reserve(&h, 1700); /* so that the collector does not work */
        EXPECT(gcflip_heap_step_begin(&h.heap) == GCFLIP_BEGUN);
        for (uint32_t i = 0; hp_counts(&h).is_open; i++) {
            EXPECT(i < 100);
            fail_allocation(1);
            hp_set_nil(&h, 2);
            make_text(call);
            expect_text(2, source, 100);
        }
        EXPECT(has_failed() && h.stats.flips == 0);
        fail_allocation(0);
    }
    EXPECT(gcflip_release(&h.heap) == GCFLIP_DONE); /* the space of the collections that were given up */
    fail_allocations();
    FAILS(hp_new_bytes(&h, 2, TEXT, source, 70000), GCFLIP_NO_MEMORY, "hp_reserve");
    fail_allocation(0);
    expect_text(2, source, 100);
    hp_close(&h);
    EXPECT(blocks_in_use() == 0);
}

/* ---- Refused memory */

static void refused(void)
{
    uint32_t words;
    fail_allocation(1);
    FAILS(hp_open(&h, 1000, 4, hook), GCFLIP_NO_MEMORY, "hp_open");
    fail_allocation(0);
    EXPECT(blocks_in_use() == 0);
    /* a collection that is due and cannot begin: there is room, so objects are made */
    hp_open(&h, 1000, 4, hook);
    h.pace.least = 0;
    make_list(100);
    fail_allocations();
    hp_reserve(&h, 590); /* more than HP_BLOCK, so that the collector is called; 1000 words less word 0 and 400 are free */
    EXPECT(has_failed() && h.stats.flips == 0);
    hp_new(&h, 1, 1, 588);
    /* without room, the lack of memory is the reason */
    hp_set_nil(&h, 1);
    fail_allocations();
    FAILS(hp_new(&h, 1, 1, 588), GCFLIP_NO_MEMORY, "hp_reserve");
    fail_allocation(0);
    hp_new(&h, 1, 1, 588);
    EXPECT(walked(&words) == 101);
    expect_list(100);
    hp_close(&h);
    /* a write whose log cannot grow gives the collection up, and is done */
    hp_open(&h, 1000, 4, hook);
    for (int kind = 0; kind < 2; kind++) {
        make_list(1);
        EXPECT(gcflip_heap_step_begin(&h.heap) == GCFLIP_BEGUN);
        for (uint32_t i = 0; hp_counts(&h).is_open; i++) {
            EXPECT(i < 1000);
            fail_allocation(1);
            if (kind == 0)
                hp_put(&h, 0, 1, 0);
            else
                hp_put_int(&h, 0, 0, (int64_t)i + 5);
            EXPECT(kind == 0 ? hp_field(&h, 0, 1).type == HP_OBJECT : hp_field(&h, 0, 0).integer == (int64_t)i + 5);
        }
        EXPECT(has_failed());
        fail_allocation(0);
    }
    hp_close(&h);
    EXPECT(blocks_in_use() == 0);
}

/* ---- The walk */

static void walks(void)
{
    hp_object object = {0, {HP_NIL, 0, 0, 0, 0, 0}};
    hp_open(&h, 100, 4, hook);
    EXPECT(!hp_next(&h, &object) && object.address == 0);
    hp_new(&h, 0, 0, 2);
    hp_new_raw(&h, 1, 1, 0);
    hp_new(&h, 2, 250, 5);
    EXPECT(hp_next(&h, &object) && object.address == 1 && object.value.type == HP_OBJECT && object.value.kind == 0 && object.value.count == 2);
    EXPECT(hp_next(&h, &object) && object.address == 5 && object.value.type == HP_RAW && object.value.kind == 1 && object.value.count == 0);
    EXPECT(hp_next(&h, &object) && object.address == 7 && object.value.type == HP_OBJECT && object.value.kind == 250 && object.value.count == 5);
    EXPECT(!hp_next(&h, &object) && object.address == 7);
    hp_close(&h);
}

/* ---- Kinds */

/* Returns whether the object at this address fits its kind, as a walk meets it. */
static bool fits_at(uint32_t address)
{
    hp_object object = {0, {HP_NIL, 0, 0, 0, 0, 0}};

    while (hp_next(&h, &object))
        if (object.address == address)
            return hp_object_fits(&h, &object);
    EXPECT(false);
    return false;
}

static void kinds(void)
{
    /* field 64 and those behind it have no bit */
    static const hp_kind table[] = {{"pair", 2, 0}, {"text", HP_ANY_FIELDS, 0}, {NULL, 3, 5}, {"row", HP_ANY_FIELDS, (uint64_t)1 << 63}};
    uint32_t address;

    hp_open(&h, 300, 4, hook);
    EXPECT(strcmp(hp_kind_name(&h, 0), "") == 0 && hp_kind_of(&h, 0) == NULL);
    hp_new(&h, 0, 0, 1);
    EXPECT(hp_fits(&h, 0, 0));
    hp_describe_kinds(&h, table, 4);
    EXPECT(strcmp(hp_kind_name(&h, 0), "pair") == 0 && strcmp(hp_kind_name(&h, 1), "text") == 0 && strcmp(hp_kind_name(&h, 2), "") == 0 && strcmp(hp_kind_name(&h, 4), "") == 0);
    EXPECT(strcmp(hp_kind_name(&h, 253), "spine") == 0 && strcmp(hp_kind_name(&h, 254), "part") == 0 && strcmp(hp_kind_name(&h, 255), "box") == 0);
    EXPECT(strcmp(hp_kind_name(&h, 252), "") == 0 && strcmp(hp_kind_name(&h, 256), "") == 0);
    EXPECT(hp_kind_of(&h, 2) == &table[2] && hp_kind_of(&h, 4) == NULL && hp_kind_of(&h, 255)->fields == 2);
    /* the number of fields */
    EXPECT(!hp_fits(&h, 0, 0) && !fits_at(1));
    hp_new(&h, 1, 0, 2);
    EXPECT(hp_fits(&h, 1, 0) && !hp_fits(&h, 1, 1) && fits_at(4));
    hp_new_raw(&h, 2, 1, 0);
    EXPECT(hp_fits(&h, 2, 1));
    hp_new_raw(&h, 2, 1, 7);
    EXPECT(hp_fits(&h, 2, 1));
    /* numbers: fields 0 and 2 of kind 2, in which nil and a reference are none */
    hp_new(&h, 2, 2, 3);
    hp_put_int(&h, 2, 2, 5);
    EXPECT(!hp_fits(&h, 2, 2));
    hp_new(&h, 2, 2, 3);
    hp_put_int(&h, 2, 0, 5);
    EXPECT(!hp_fits(&h, 2, 2));
    hp_put(&h, 2, 2, 1);
    EXPECT(!hp_fits(&h, 2, 2));
    hp_set_double(&h, 3, 0.5);
    hp_put(&h, 2, 2, 3);
    EXPECT(hp_fits(&h, 2, 2));
    hp_put(&h, 2, 1, 1);
    EXPECT(hp_fits(&h, 2, 2));
    hp_new_raw(&h, 2, 2, 3);
    EXPECT(hp_fits(&h, 2, 2));
    /* the last field that has a bit, and one behind it */
    hp_new(&h, 2, 3, 63);
    EXPECT(hp_fits(&h, 2, 3));
    hp_new(&h, 2, 3, 65);
    EXPECT(!hp_fits(&h, 2, 3));
    hp_put_int(&h, 2, 63, 1);
    EXPECT(hp_fits(&h, 2, 3));
    /* what refers to no object fits no kind, and an object of a kind without a description fits */
    EXPECT(!hp_fits(&h, 3, 0));
    hp_set_nil(&h, 3);
    EXPECT(!hp_fits(&h, 3, 0));
    hp_set_double(&h, 3, 1e300);
    EXPECT(hp_fits(&h, 3, HP_KIND_BOX));
    hp_new_raw(&h, 3, HP_KIND_BOX, 1);
    EXPECT(!hp_fits(&h, 3, HP_KIND_BOX));
    hp_new(&h, 3, 250, 5);
    EXPECT(hp_fits(&h, 3, 250));
    EXPECT(gcflip_address(&h.heap, 3, &address) == GCFLIP_DONE && fits_at(address));
    FAILS(hp_fits(&h, 1 << 20, 0), GCFLIP_OUT_OF_RANGE, "hp_look");
    hp_close(&h);
}

int main(void)
{
    integers();
    doubles();
    specials();
    stack();
    hooks();
    returning();
    reserves();
    safepoints();
    collects();
    growth();
    early_growth(false);
    early_growth(true);
    fill_source();
    texts_take_their_words();
    texts_while_collecting();
    hashes_of_texts();
    longest_texts();
    refused_texts();
    texts_without_memory();
    refused();
    walks();
    kinds();
    return 0;
}
