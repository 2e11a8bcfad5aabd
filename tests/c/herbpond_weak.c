/* Tests the weak handles of herbpond.h with a model: which handles give their objects, which tokens are told, each refusal, flips by other calls, and each
 * allocation refused in turn. */
#include "own_allocator.h"
#include "expect.h"
#include "one_interpreter.h"

enum { PLACES = 40, HANDLES = 200, FLIPS = 1000, NUMBERED = 7, FOUND = 5, MADE = 6 };

/* Makes an object with a number in field 0. */
static void make_numbered(hp_root d, int64_t number)
{
    hp_new(&h, d, NUMBERED, 1);
    hp_put_int(&h, d, 0, number);
}

/* Returns the number of the object of a handle, or 0 if the handle gives none. Nothing holds the object afterwards. */
static int64_t number_of(hp_weak weak)
{
    int64_t number = 0;
    if (hp_weak_get(&h, FOUND, weak)) {
        EXPECT(hp_is(&h, FOUND, NUMBERED));
        number = hp_field(&h, FOUND, 0).integer;
        EXPECT(number > 0);
    }
    hp_set_nil(&h, FOUND);
    return number;
}

/* Expects that no token is left to tell. */
static void expect_none_dead(void)
{
    uint64_t token = 77;
    EXPECT(!hp_weak_next_dead(&h, &token) && token == 77);
}

/* ---- The model. Place k of the stack holds the object held[k], or nil for 0. The token of a handle is 1000 more than its number in the model */

static int64_t held[PLACES], objects_made;

static struct {
    hp_weak weak;
    int64_t object;
    bool is_used; /* until it was told or freed */
} handles[HANDLES];

static bool is_held(int64_t object)
{
    for (uint32_t k = 0; k < PLACES; k++)
        if (held[k] == object)
            return true;
    return false;
}

/* Whether the object of a handle can be got: always while a place holds it, and never after its token was told. */
static void look_at(uint32_t i)
{
    int64_t number = handles[i].weak == 0 ? 0 : number_of(handles[i].weak);
    EXPECT(number == 0 || (number == handles[i].object && handles[i].is_used));
    EXPECT(number != 0 || !handles[i].is_used || !is_held(handles[i].object));
}

/* Takes all tokens. Each is one of a handle in use whose object no place holds. */
static uint32_t take_tokens(void)
{
    uint32_t count = 0;
    for (uint64_t token; hp_weak_next_dead(&h, &token); count++) {
        uint32_t i = (uint32_t)(token - 1000);
        EXPECT(i < HANDLES && handles[i].is_used && !is_held(handles[i].object));
        handles[i].is_used = false;
        EXPECT(number_of(handles[i].weak) == 0);
    }
    return count;
}

/* After a whole collection the handles of objects that no place holds are dead, and no others. */
static void expect_exact(void)
{
    uint32_t dead = 0;
    hp_collect(&h);
    for (uint32_t i = 0; i < HANDLES; i++) {
        look_at(i);
        EXPECT(!handles[i].is_used || is_held(handles[i].object) || number_of(handles[i].weak) == 0);
        dead += handles[i].is_used && !is_held(handles[i].object);
    }
    EXPECT(take_tokens() == dead);
}

static void new_handle(uint32_t i)
{
    uint32_t k = (uint32_t)(random_bits() % PLACES);
    if (handles[i].is_used || held[k] == 0)
        return;
    handles[i].weak = hp_weak_new(&h, HP_STACK(k), 1000 + i);
    handles[i].object = held[k];
    handles[i].is_used = true;
    EXPECT(handles[i].weak >= 1 && handles[i].weak <= (uint64_t)HP_MOST_INT);
    for (uint32_t other = 0; other < HANDLES; other++)
        EXPECT(other == i || handles[other].weak != handles[i].weak);
}

/* Makes an object in a place, or copies another place there, so that two hold one object, or clears it. */
static void change_place(uint32_t k)
{
    uint32_t from = (uint32_t)(random_bits() % PLACES);
    switch (random_bits() % 4) {
    case 0:
        hp_set_nil(&h, HP_STACK(k));
        held[k] = 0;
        break;
    case 1:
        hp_copy(&h, HP_STACK(k), HP_STACK(from));
        held[k] = held[from];
        break;
    default:
        make_numbered(HP_STACK(k), ++objects_made);
        held[k] = objects_made;
    }
}

/* Random changes over a thousand flips: those of whole collections, those of paced work, and those for which an allocation waits. */
static void follows(void)
{
    hp_open(&h, 3000, PLACES, hook);
    h.pace.least = 0;
    h.pace.words = 16; /* so that allocations wait */
    for (uint32_t k = 0; k < PLACES; k++)
        hp_set_nil(&h, hp_push(&h));
    while (h.stats.flips < FLIPS) {
        uint32_t i = (uint32_t)(random_bits() % HANDLES);
        switch (random_bits() % 16) {
        case 0: expect_exact(); break;
        case 1:
            if (handles[i].weak != 0)
                hp_weak_free(&h, handles[i].weak);
            handles[i].is_used = false;
            break;
        case 2: take_tokens(); break;
        case 3:
            hp_new_raw(&h, MADE, 1, 2000);
            hp_set_nil(&h, MADE);
            break;
        case 4: case 5: case 6: look_at(i); break;
        case 7: case 8: case 9: case 10: new_handle(i); break;
        default: change_place((uint32_t)(random_bits() % PLACES));
        }
    }
    expect_exact();
    EXPECT(h.stats.waits > 50 && h.weak.count <= HANDLES);
    hp_close(&h);
    EXPECT(h.weak.entries == NULL && blocks_in_use() == 0);
}

/* An allocation that waits for two flips: the first one keeps what was garbage when its collection began. */
static void follows_twice(void)
{
    hp_weak kept, lost;
    uint64_t flips, token;
    hp_open(&h, 1000, 4, hook);
    h.pace.words = 1; /* so that no paced work ends the collection */
    make_numbered(0, 11);
    hp_new_raw(&h, 1, 1, 300);
    make_numbered(2, 12);
    kept = hp_weak_new(&h, 0, 1);
    lost = hp_weak_new(&h, 2, 2);
    EXPECT(gcflip_heap_step_begin(&h.heap) == GCFLIP_BEGUN);
    for (uint32_t i = 0; i < 3; i++)
        EXPECT(gcflip_heap_step_roots(&h.heap) == GCFLIP_COPIED);
    hp_set_nil(&h, 1);
    hp_set_nil(&h, 2);
    flips = h.stats.flips;
    hp_new_raw(&h, 1, 1, 690); /* 691 words are free, also after the first flip */
    EXPECT(h.stats.flips == flips + 2);
    EXPECT(number_of(kept) == 11 && number_of(lost) == 0);
    EXPECT(hp_weak_next_dead(&h, &token) && token == 2);
    expect_none_dead();
    hp_close(&h);
}

/* A heap that grows flips to a space of another size. */
static void follows_growth(void)
{
    hp_weak weak;
    hp_open(&h, 100, 4, hook);
    hp_growing(&h, 100000);
    make_numbered(0, 11);
    hp_new(&h, 1, 1, 20);
    make_numbered(2, 12);
    hp_set_nil(&h, 1);
    weak = hp_weak_new(&h, 2, 0);
    hp_new_raw(&h, 1, 1, 50000);
    EXPECT(hp_counts(&h).size > 50000 && number_of(weak) == 12);
    hp_close(&h);
}

static void tokens(void)
{
    hp_weak first, second, third;
    uint64_t token, other;
    hp_open(&h, 1000, 4, hook);
    expect_none_dead();
    make_numbered(0, 1);
    first = hp_weak_new(&h, 0, UINT64_MAX);
    second = hp_weak_new(&h, 0, 0);
    third = hp_weak_new(&h, 0, 3);
    EXPECT(number_of(first) == 1 && number_of(second) == 1 && number_of(third) == 1);
    hp_collect(&h);
    expect_none_dead();
    hp_weak_free(&h, third);
    EXPECT(number_of(third) == 0 && number_of(first) == 1);
    hp_weak_free(&h, third);
    hp_set_nil(&h, 0);
    EXPECT(number_of(first) == 1); /* until a flip */
    hp_collect(&h);
    EXPECT(number_of(first) == 0 && number_of(second) == 0);
    EXPECT(hp_weak_next_dead(&h, &token) && hp_weak_next_dead(&h, &other));
    EXPECT((token == UINT64_MAX && other == 0) || (token == 0 && other == UINT64_MAX));
    expect_none_dead();
    hp_collect(&h);
    expect_none_dead();
    /* a handle that is freed after its object died is not told */
    make_numbered(0, 2);
    third = hp_weak_new(&h, 0, 5);
    hp_weak_new(&h, 0, 6);
    hp_set_nil(&h, 0);
    hp_collect(&h);
    hp_weak_free(&h, third);
    EXPECT(hp_weak_next_dead(&h, &token) && token == 6);
    expect_none_dead();
    /* entries are used again, and old handles give nothing */
    for (int64_t i = 1; i < 100; i++) {
        make_numbered(0, i);
        third = hp_weak_new(&h, 0, (uint64_t)i);
        EXPECT(number_of(third) == i && number_of(first) == 0 && number_of(second) == 0);
        hp_weak_free(&h, first);
        EXPECT(number_of(third) == i);
        hp_set_nil(&h, 0);
        hp_collect(&h);
        EXPECT(hp_weak_next_dead(&h, &token) && token == (uint64_t)i);
    }
    EXPECT(h.weak.count <= 3 && h.weak.alive == 0);
    hp_close(&h);
}

/* An object that hp_weak_get puts into a root lives on. */
static void holds(void)
{
    hp_weak weak;
    uint64_t token;
    hp_open(&h, 1000, 4, hook);
    make_numbered(0, 9);
    weak = hp_weak_new(&h, 0, 4);
    hp_set_nil(&h, 0);
    EXPECT(hp_weak_get(&h, 3, weak));
    hp_collect(&h);
    expect_none_dead();
    EXPECT(hp_field(&h, 3, 0).integer == 9 && hp_weak_get(&h, 2, weak) && hp_same(&h, 2, 3));
    hp_set_int(&h, 2, 8);
    hp_set_nil(&h, 3);
    hp_collect(&h);
    EXPECT(!hp_weak_get(&h, 2, weak) && hp_look(&h, 2).integer == 8);
    EXPECT(hp_weak_next_dead(&h, &token) && token == 4 && !hp_weak_get(&h, 2, weak));
    hp_close(&h);
}

/* An entry that had as many handles as a handle can tell apart is not used again. */
static void uses_end(void)
{
    hp_weak last, next;
    hp_open(&h, 1000, 4, hook);
    make_numbered(0, 1);
    hp_weak_free(&h, hp_weak_new(&h, 0, 0));
    h.weak.entries[0].uses = (1 << 29) - 3;
    hp_weak_free(&h, hp_weak_new(&h, 0, 0));
    last = hp_weak_new(&h, 0, 0);
    EXPECT(last == ((uint64_t)((1 << 29) - 1) << 32) && last <= (uint64_t)HP_MOST_INT && number_of(last) == 1);
    hp_weak_free(&h, last);
    next = hp_weak_new(&h, 0, 0);
    EXPECT(next == ((uint64_t)1 << 32 | 1) && number_of(last) == 0 && number_of(next) == 1);
    hp_close(&h);
}

static void refusals(void)
{
    hp_weak weak;
    uint64_t token = 7;
    hp_open(&h, 1000, 4, hook);
    hp_set_int(&h, 1, 3);
    FAILS(hp_weak_get(&h, 0, (uint64_t)1 << 32), GCFLIP_OUT_OF_RANGE, "hp_weak_get");
    FAILS(hp_weak_new(&h, 0, 0), GCFLIP_NO_OBJECT, "hp_weak_new");
    FAILS(hp_weak_new(&h, 1, 0), GCFLIP_NO_OBJECT, "hp_weak_new");
    FAILS(hp_weak_new(&h, HP_STACK(0), 0), GCFLIP_OUT_OF_RANGE, "hp_weak_new");
    FAILS(hp_weak_new(&h, 29, 0), GCFLIP_OUT_OF_RANGE, "hp_weak_new");
    EXPECT(h.weak.count == 0 && h.weak.alive == 0);
    make_numbered(0, 5);
    weak = hp_weak_new(&h, 0, 1);
    FAILS(hp_weak_get(&h, 31, weak), GCFLIP_OUT_OF_RANGE, "hp_weak_get");
    FAILS(hp_weak_get(&h, HP_STACK(0), weak), GCFLIP_OUT_OF_RANGE, "hp_weak_get");
    FAILS(hp_weak_get(&h, 2, 0), GCFLIP_OUT_OF_RANGE, "hp_weak_get");
    FAILS(hp_weak_get(&h, 2, weak + 1), GCFLIP_OUT_OF_RANGE, "hp_weak_get");
    FAILS(hp_weak_get(&h, 2, weak + ((uint64_t)1 << 32)), GCFLIP_OUT_OF_RANGE, "hp_weak_get");
    FAILS(hp_weak_free(&h, weak + 1), GCFLIP_OUT_OF_RANGE, "hp_weak_free");
    EXPECT(hp_look(&h, 2).type == HP_NIL && number_of(weak) == 5);
    hp_close(&h);
    FAILS(hp_weak_new(&h, 0, 0), GCFLIP_CLOSED, "hp_follow");
    FAILS(hp_weak_next_dead(&h, &token), GCFLIP_CLOSED, "hp_follow");
    EXPECT(token == 7);
}

/* Flips once or twice by calls of gcflip_heap.h after a weak handle was made, and lets the layer follow the first one, or begins another collection. */
static hp_weak flipped_by_others(bool is_followed, bool is_begun, bool is_twice)
{
    gcflip_work work = {0, 0, 0, 0, 0};
    hp_weak weak;
    hp_open(&h, 1000, 4, hook);
    make_numbered(0, 1);
    make_numbered(1, 2);
    make_numbered(2, 3); /* the first flip moves it to where the one before it was */
    weak = hp_weak_new(&h, 1, 0);
    hp_set_nil(&h, 0);
    EXPECT(gcflip_collect(&h.heap, &work) == GCFLIP_DONE);
    if (is_followed)
        hp_follow(&h);
    if (is_begun)
        EXPECT(gcflip_heap_step_begin(&h.heap) == GCFLIP_BEGUN);
    if (is_twice)
        EXPECT(gcflip_collect(&h.heap, &work) == GCFLIP_DONE);
    return weak;
}

static void expect_lost(hp_weak weak)
{
    FAILS(hp_weak_get(&h, 3, weak), GCFLIP_OUT_OF_RANGE, "hp_follow");
    FAILS(hp_weak_new(&h, 1, 0), GCFLIP_OUT_OF_RANGE, "hp_follow");
    FAILS(hp_collect(&h), GCFLIP_OUT_OF_RANGE, "hp_follow");
    hp_close(&h);
}

/* One flip by another call is followed. Of two, and of one behind which a collection began, the layer says that it lost the objects. */
static void flips_by_others(void)
{
    gcflip_work work = {0, 0, 0, 0, 0};
    EXPECT(number_of(flipped_by_others(false, false, false)) == 2);
    hp_close(&h);
    EXPECT(number_of(flipped_by_others(true, false, true)) == 2);
    hp_close(&h);
    expect_lost(flipped_by_others(false, false, true));
    expect_lost(flipped_by_others(false, true, false));
    /* without a handle, any flips may pass */
    hp_open(&h, 1000, 4, hook);
    make_numbered(1, 2);
    hp_weak_free(&h, hp_weak_new(&h, 1, 0));
    EXPECT(gcflip_collect(&h.heap, &work) == GCFLIP_DONE && gcflip_collect(&h.heap, &work) == GCFLIP_DONE);
    EXPECT(number_of(hp_weak_new(&h, 1, 0)) == 2 && h.stats.flips == 2);
    hp_close(&h);
}

/* ---- Refused memory: the n-th allocation of a run fails. A handle that gets no memory does not exist, and all others stay as they are */

static hp_weak made[64];
static uint32_t made_count;

static void make_handles(void)
{
    while (made_count < 64) {
        make_numbered(0, made_count + 1);
        made[made_count] = hp_weak_new(&h, 0, made_count);
        hp_put(&h, 1, made_count, 0);
        made_count++;
        if (made_count % 8 == 0)
            hp_collect(&h);
    }
}

/* Goes on with the handles, and returns whether no memory was refused. */
static bool could_make_handles(void)
{
    expected = true;
    if (setjmp(back) == 0) {
        make_handles();
        expected = false;
        return true;
    }
    expected = false;
    EXPECT(got == GCFLIP_NO_MEMORY);
    return false;
}

/* Fails the n-th allocation, and returns whether there were so many. */
static bool refused_once(long n)
{
    uint32_t failures = 0;
    bool was_refused;
    hp_open(&h, 2000, 4, hook);
    hp_new(&h, 1, 1, 64);
    made_count = 0;
    fail_allocation(n);
    while (!could_make_handles())
        failures++;
    was_refused = has_failed();
    fail_allocation(0);
    EXPECT(failures <= 1 && h.weak.count == 64 && h.weak.alive == 64);
    for (uint32_t i = 0; i < 64; i++)
        EXPECT(number_of(made[i]) == (int64_t)i + 1);
    hp_close(&h);
    EXPECT(blocks_in_use() == 0);
    return was_refused;
}

static void expect_no_table(void)
{
    fail_allocation(1);
    FAILS(hp_weak_new(&h, 0, 0), GCFLIP_NO_MEMORY, "hp_weak_new");
}

static void refused(void)
{
    long n = 1;
    while (refused_once(n))
        n++;
    EXPECT(n > 3);
    /* the table has room for 16 handles, then for 32 and so on, and no other handle allocates */
    hp_open(&h, 2000, 4, hook);
    make_numbered(0, 1);
    for (uint32_t i = 0; i < 100; i++) {
        bool grows = i == 0 || i == 16 || i == 32 || i == 64;
        if (grows)
            expect_no_table();
        fail_allocation(grows ? 0 : 1);
        EXPECT(number_of(hp_weak_new(&h, 0, 0)) == 1 && h.weak.count == i + 1 && !has_failed());
    }
    fail_allocation(0);
    hp_close(&h);
    EXPECT(blocks_in_use() == 0);
}

int main(void)
{
    follows();
    follows_twice();
    follows_growth();
    tokens();
    holds();
    uses_end();
    refusals();
    flips_by_others();
    refused();
    return 0;
}
