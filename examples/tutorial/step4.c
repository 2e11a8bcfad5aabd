/* Step 4: strings. */
#include "herbpond.h"

#include <inttypes.h>

enum kind { PAIR = 1, STRING };
enum code { INT, TEXT, GET, SET, ADD, LESS, NEW_PAIR, FIRST, REST, JUMP, JUMP_IF_ZERO, CALL, RETURN, PRINT, HALT };
enum { WORDS = 100000, PLACES = 1000, MOST_CALLS = 100 };

static hp vm;

/* herbpond.h calls this if a call cannot do its work. */
static void failed(hp *h, uint32_t answer, const char *call)
{
    (void)h;
    fprintf(stderr, "%s: %s\n", call, gcflip_answer_text(answer));
    exit(1);
}

/* ---- Values */

/* Returns the place on the stack that has so many places above it. */
static hp_root top(uint32_t above)
{
    return HP_STACK(vm.stack.top - 1 - above);
}

static int64_t integer(hp_root s)
{
    return hp_look(&vm, s).integer;
}

/* Makes a string, with a byte in each word. */
static void new_string(hp_root d, const char *text)
{
    uint32_t length = (uint32_t)strlen(text);

    hp_new_raw(&vm, d, STRING, length);
    for (uint32_t i = 0; i < length; i++)
        hp_put_word(&vm, d, i, (unsigned char)text[i]);
}

/* Makes a string of the bytes of s, and then those of t. */
static void join(hp_root d, hp_root s, hp_root t)
{
    uint32_t first = hp_look(&vm, s).count, second = hp_look(&vm, t).count;

    hp_new_raw(&vm, d, STRING, first + second);
    for (uint32_t i = 0; i < first; i++)
        hp_put_word(&vm, d, i, hp_word(&vm, s, i));
    for (uint32_t i = 0; i < second; i++)
        hp_put_word(&vm, d, first + i, hp_word(&vm, t, i));
}

static void print(hp_root s)
{
    if (hp_is(&vm, s, STRING))
        for (uint32_t i = 0; i < hp_look(&vm, s).count; i++)
            putchar((int)hp_word(&vm, s, i));
    else
        printf("%" PRId64, integer(s));
    putchar('\n');
}

/* ---- Programs */

enum { FIB, LIST };

static const char *const texts[] = {"herb", "pond"};

/* fib(n) is n if n is below 2, and fib(n - 1) + fib(n - 2) if not. */
static const int fib[] = {
    GET, 0, INT, 2, LESS, JUMP_IF_ZERO, 3, GET, 0, RETURN, /* behind the jump are 3 numbers that it leaves out */
    GET, 0, INT, -1, ADD, CALL, FIB, 1,
    GET, 0, INT, -2, ADD, CALL, FIB, 1,
    ADD, RETURN,
};

/* list(n, last) makes n pairs, each of a number and 0, and returns the last one. */
static const int list[] = {
    GET, 0, JUMP_IF_ZERO, 16,
    GET, 0, INT, 0, NEW_PAIR, SET, 1,
    GET, 0, INT, -1, ADD, SET, 0,
    JUMP, -20,
    GET, 1, RETURN,
};

static const int *const functions[] = {fib, list};

/* ---- The machine */

/* A call: where its locals begin on the stack, and where the caller goes on. */
typedef struct call {
    uint32_t base;
    const int *back;
} call;

static call calls[MOST_CALLS];
static uint32_t depth;

static hp_root local(int index)
{
    return HP_STACK(calls[depth].base + (uint32_t)index);
}

static void add(void)
{
    if (hp_is(&vm, top(1), STRING) && hp_is(&vm, top(0), STRING)) {
        hp_push(&vm);
        join(top(0), top(2), top(1));
        hp_copy(&vm, top(2), top(0));
        hp_drop(&vm, 1);
    } else {
        hp_set_int(&vm, top(1), integer(top(1)) + integer(top(0)));
    }
    hp_drop(&vm, 1);
}

/* Replaces the two values at the top by a pair of them. */
static void new_pair(void)
{
    hp_new(&vm, hp_push(&vm), PAIR, 2);
    hp_put(&vm, top(0), 0, top(2));
    hp_put(&vm, top(0), 1, top(1));
    hp_copy(&vm, top(2), top(0));
    hp_drop(&vm, 2);
}

static const int *jump(const int *at)
{
    if (*at < 0)
        hp_safepoint(&vm); /* for loops that make no objects */
    return at + 1 + *at;
}

/* The locals of the function are its arguments, which are at the top of the stack. */
static const int *enter(const int *function, uint32_t arguments, const int *back)
{
    if (depth + 1 == MOST_CALLS)
        failed(&vm, GCFLIP_FRAME_FULL, "CALL");
    calls[++depth] = (call){vm.stack.top - arguments, back};
    return function;
}

/* Replaces the locals by the value at the top. */
static const int *leave(void)
{
    hp_copy(&vm, local(0), top(0));
    hp_drop(&vm, vm.stack.top - calls[depth].base - 1);
    return calls[depth--].back;
}

static void run(const int *at)
{
    for (;;)
        switch (*at++) {
        case INT: hp_set_int(&vm, hp_push(&vm), *at++); break;
        case TEXT: new_string(hp_push(&vm), texts[*at++]); break;
        case GET: hp_copy(&vm, hp_push(&vm), local(*at++)); break;
        case SET: hp_copy(&vm, local(*at++), top(0)); hp_drop(&vm, 1); break;
        case ADD: add(); break;
        case LESS: hp_set_int(&vm, top(1), integer(top(1)) < integer(top(0))); hp_drop(&vm, 1); break;
        case NEW_PAIR: new_pair(); break;
        case FIRST: hp_get(&vm, top(0), top(0), 0); break;
        case REST: hp_get(&vm, top(0), top(0), 1); break;
        case JUMP: at = jump(at); break;
        case JUMP_IF_ZERO: at = integer(top(0)) == 0 ? jump(at) : at + 1; hp_drop(&vm, 1); break;
        case CALL: at = enter(functions[at[0]], (uint32_t)at[1], at + 2); break;
        case RETURN: at = leave(); break;
        case PRINT: print(top(0)); hp_drop(&vm, 1); break;
        case HALT: return;
        }
}

int main(void)
{
    const int codes[] = {TEXT, 0, TEXT, 1, ADD, PRINT, HALT};

    hp_open(&vm, WORDS, PLACES, failed);
    run(codes);
    printf("%" PRIu64 " words\n", vm.stats.words);
    hp_close(&vm);
    return 0;
}
