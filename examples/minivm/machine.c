/* The machine: a stack of values in the heap's roots, a stack of calls in C, and a loop over the codes. */
#include "minivm.h"

#include <inttypes.h>
#include <setjmp.h>
#include <stdarg.h>

/* A call: where the function's locals begin on the stack, the code behind the call, and whether it takes errors. */
typedef struct call {
    uint32_t base;
    int32_t back;
    bool guarded;
} call;

static call *calls;
static uint32_t call_count, call_room;

/* Where an error goes on, what it says, and whether no heap is left for its text. */
static jmp_buf handler;
static char error_text[256];
static bool lacks_room;

_Noreturn void fail(const char *form, ...)
{
    va_list list;
    va_start(list, form);
    vsnprintf(error_text, sizeof error_text, form, list);
    va_end(list);
    longjmp(handler, 1);
}

void heap_failed(hp *h, uint32_t answer, const char *called)
{
    (void)h;
    if (gcflip_class_of(answer) != GCFLIP_LACK) {
        fprintf(stderr, "minivm: %s: %s\n", called, gcflip_answer_text(answer));
        abort();
    }
    lacks_room = answer != GCFLIP_FRAME_FULL;
    fail(lacks_room ? "out of memory" : "stack overflow");
}

/* ---- Operands: the values at the top of the stack */

static hp_root top(uint32_t below)
{
    return HP_STACK(vm.stack.top - 1 - below);
}

static hp_root local(int32_t index)
{
    return HP_STACK(calls[call_count - 1].base + (uint32_t)index);
}

/* Returns what a value is, for an error. */
static const char *name_of(hp_root s)
{
    static const char *const names[] = {"nil", "an integer", "a double", "a truth value"};
    hp_value value = hp_look(&vm, s);
    return value.type >= HP_OBJECT ? hp_kind_name(&vm, value.kind) : names[value.type];
}

static int64_t integer_in(hp_root s, const char *sign)
{
    hp_value value = hp_look(&vm, s);
    if (value.type != HP_INT)
        fail("%s: %s is no integer", sign, name_of(s));
    return value.integer;
}

static bool is_true(hp_root s)
{
    hp_value value = hp_look(&vm, s);
    return value.type != HP_NIL && (value.type != HP_SPECIAL || value.special);
}

/* Returns the index that s holds, which is below the length of the array. */
static uint32_t index_in(hp_root array, hp_root s)
{
    int64_t index = integer_in(s, "[]");
    if (!hp_is(&vm, array, ARRAY))
        fail("[]: %s has no elements", name_of(array));
    if (index < 0 || index >= hp_array_length(&vm, array))
        fail("[]: index %" PRId64 " of an array of %" PRIu32, index, hp_array_length(&vm, array));
    return (uint32_t)index;
}

/* ---- Instructions. Each takes its operands from the stack, and leaves its result there */

static inline void arithmetic(enum code code, const char *sign)
{
    int64_t y = integer_in(top(0), sign), x = integer_in(top(1), sign), result;
    bool is_long = false;
    if ((code == DIVIDE || code == REMAINDER) && y == 0)
        fail("%s: division by 0", sign);
    switch (code) {
    case ADD: result = x + y; break;
    case SUBTRACT: result = x - y; break;
    case MULTIPLY: is_long = __builtin_mul_overflow(x, y, &result); break;
    case DIVIDE: result = x / y; break;
    default: result = x % y; break;
    }
    if (is_long || result < HP_LEAST_INT || result > HP_MOST_INT)
        fail("%s: the result has more than 62 bits", sign);
    hp_drop(&vm, 1);
    hp_set_int(&vm, top(0), result);
}

static void join(void)
{
    text_join(top(1), top(1), top(0));
    hp_drop(&vm, 1);
}

/* Answers with a truth value in place of so many operands. If a jump follows, it is made at once. Returns the next code. */
static inline int32_t answer(uint32_t operands, bool is, int32_t at)
{
    if (codes[at] == JUMP_IF_FALSE) {
        hp_drop(&vm, operands);
        return is ? at + 2 : codes[at + 1];
    }
    hp_drop(&vm, operands - 1);
    hp_set_special(&vm, top(0), is);
    return at;
}

static int32_t less(bool or_equal, const char *sign, int32_t at)
{
    int64_t y = integer_in(top(0), sign), x = integer_in(top(1), sign);
    return answer(2, x < y || (or_equal && x == y), at);
}

static void get_element(void)
{
    if (hp_is(&vm, top(1), TABLE))
        table_get(top(1), top(1), top(0));
    else
        hp_array_get(&vm, top(1), top(1), index_in(top(1), top(0)));
    hp_drop(&vm, 1);
}

/* Its result is nil. */
static void set_element(void)
{
    if (hp_is(&vm, top(2), TABLE))
        table_set(top(2), top(1), top(0));
    else
        hp_array_put(&vm, top(2), index_in(top(2), top(1)), top(0));
    hp_drop(&vm, 2);
    hp_set_nil(&vm, top(0));
}

static void push_element(void)
{
    if (!hp_is(&vm, top(1), ARRAY))
        fail("push: %s is no array", name_of(top(1)));
    hp_array_push(&vm, top(1), top(0));
    hp_drop(&vm, 1);
}

static void length(void)
{
    hp_value value = hp_look(&vm, top(0));
    if (value.type < HP_OBJECT)
        fail("len: %s has no length", name_of(top(0)));
    hp_set_int(&vm, top(0), value.kind == TEXT ? hp_bytes_length(&vm, top(0)) : hp_field(&vm, top(0), 0).integer);
}

/* Replaces an integer by its digits. */
static void show(void)
{
    char digits[32];
    int count = snprintf(digits, sizeof digits, "%" PRId64, integer_in(top(0), "str"));
    text_new(top(0), digits, (size_t)count);
}

static void print_text(hp_root s)
{
    char bytes[4096];
    uint32_t length = hp_bytes_length(&vm, s), some;
    for (uint32_t at = 0; at < length; at += some) {
        some = length - at < sizeof bytes ? length - at : sizeof bytes;
        hp_bytes_read(&vm, s, at, bytes, some);
        fwrite(bytes, 1, some, stdout);
    }
}

/* Its result is nil. */
static void print(void)
{
    hp_value value = hp_look(&vm, top(0));
    if (value.type == HP_INT)
        printf("%" PRId64, value.integer);
    else if (value.type == HP_SPECIAL)
        printf(value.special ? "true" : "false");
    else if (value.type == HP_RAW)
        print_text(top(0));
    else if (value.type == HP_OBJECT)
        printf("%s of %" PRId64, name_of(top(0)), hp_field(&vm, top(0), 0).integer);
    else
        printf("nil");
    putchar('\n');
    hp_set_nil(&vm, top(0));
}

/* ---- Calls and errors */

/* Calls a function, whose arguments are at the top. Returns its first code. */
static int32_t enter(int32_t called, int32_t back, uint32_t arguments, bool guarded)
{
    const function *f = &functions[called];
    if (f->arity != arguments)
        fail("%s takes %" PRIu32 " arguments", f->name, f->arity);
    if (call_count == vm.stack.end)
        fail("stack overflow");
    if (call_count == call_room) {
        uint32_t room = call_room == 0 ? 1024 : 2 * call_room;
        call *more = realloc(calls, room * sizeof *calls);
        if (more == NULL)
            fail("stack overflow");
        calls = more;
        call_room = room;
    }
    calls[call_count++] = (call){vm.stack.top - arguments, back, guarded};
    return f->start;
}

/* Leaves the function, whose result is at the top. Returns the code behind its call. */
static int32_t leave(void)
{
    call left = calls[--call_count];
    hp_copy(&vm, HP_STACK(left.base), top(0));
    hp_drop(&vm, vm.stack.top - left.base - 1);
    return left.back;
}

/* Ends calls up to the innermost guarded one, whose result is the error. Returns the code behind it, or -1 if there is none. */
static int32_t unwind(void)
{
    while (call_count > 0 && !calls[call_count - 1].guarded)
        call_count--;
    if (call_count == 0)
        return -1;
    call_count--;
    hp_drop(&vm, vm.stack.top - calls[call_count].base);
    for (hp_root r = 0; r < WORK_REGISTERS; r++)
        hp_set_nil(&vm, r);
    hp_push(&vm);
    if (lacks_room)
        hp_copy(&vm, top(0), NO_MEMORY_TEXT);
    else
        text_new(top(0), error_text, strlen(error_text));
    lacks_room = false;
    return calls[call_count].back;
}

/* Executes codes from `at` on until the main function returns. */
static void execute(int32_t at)
{
    while (call_count > 0) {
        enum code code = (enum code)codes[at++];
        switch (code) {
        case CONSTANT: hp_copy(&vm, hp_push(&vm), HP_STACK(codes[at++])); break;
        case INTEGER: hp_set_int(&vm, hp_push(&vm), codes[at++]); break;
        case NIL: hp_set_nil(&vm, hp_push(&vm)); break;
        case TRUE: hp_set_special(&vm, hp_push(&vm), true); break;
        case FALSE: hp_set_special(&vm, hp_push(&vm), false); break;
        case GET: hp_copy(&vm, hp_push(&vm), local(codes[at++])); break;
        case SET: hp_copy(&vm, local(codes[at++]), top(0)); hp_drop(&vm, 1); break;
        case POP: hp_drop(&vm, 1); break;
        case ADD: hp_is(&vm, top(0), TEXT) && hp_is(&vm, top(1), TEXT) ? join() : arithmetic(ADD, "+"); break;
        case SUBTRACT: arithmetic(SUBTRACT, "-"); break;
        case MULTIPLY: arithmetic(MULTIPLY, "*"); break;
        case DIVIDE: arithmetic(DIVIDE, "/"); break;
        case REMAINDER: arithmetic(REMAINDER, "%"); break;
        case LESS: at = less(false, "<", at); break;
        case AT_MOST: at = less(true, "<=", at); break;
        case EQUAL: at = answer(2, values_equal(top(1), top(0)), at); break;
        case UNEQUAL: at = answer(2, !values_equal(top(1), top(0)), at); break;
        case NOT: at = answer(1, !is_true(top(0)), at); break;
        case JUMP:
            if (codes[at] < at)
                hp_safepoint(&vm); /* a loop that only writes also pays for the collection */
            at = codes[at];
            break;
        case JUMP_IF_FALSE: at = is_true(top(0)) ? at + 1 : codes[at]; hp_drop(&vm, 1); break;
        case CALL: at = enter(codes[at], at + 2, (uint32_t)codes[at + 1], false); break;
        case GUARDED_CALL:
            hp_push(&vm); /* so that there is a place for an error */
            hp_drop(&vm, 1);
            at = enter(codes[at], at + 1, 0, true);
            break;
        case RETURN: at = leave(); break;
        case NEW_ARRAY: hp_array_new(&vm, hp_push(&vm), ARRAY, 0); break;
        case NEW_TABLE: table_new(hp_push(&vm)); break;
        case INDEX: get_element(); break;
        case SET_INDEX: set_element(); break;
        case LENGTH: length(); break;
        case PUSH: push_element(); break;
        case PRINT: print(); break;
        case SHOW: show(); break;
        }
    }
}

/* The code at which the machine goes on, which outlives a longjmp. */
static int32_t next_code;

bool run(int32_t main_function)
{
    if (setjmp(handler) == 0) {
        text_new(NO_MEMORY_TEXT, "out of memory", 13);
        next_code = enter(main_function, -1, 0, false);
    } else {
        next_code = unwind();
    }
    if (next_code >= 0)
        execute(next_code);
    else
        fprintf(stderr, "error: %s\n", error_text);
    free(calls);
    return next_code >= 0;
}
