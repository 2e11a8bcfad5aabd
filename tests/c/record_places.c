/* Records random calls on roots by their places, of two mutators and with extra roots, while a collector works: record_places RECORD SEED. Prints
 * what each look and each flip replied. Played, the record gives the same replies. */
#include "expect.h"
#include "gcflip_record.h"
#include "own_allocator.h"
#include <string.h>

enum { MUTATORS = 2, EXTRA = 20, SPARE = 14, FIRST_EXTRA = 48, PLACES = FIRST_EXTRA + EXTRA, WORDS = 260, CALLS = 40000 };

FILE *gcflip_trace;

static gcflip_heap heap = GCFLIP_NO_HEAP;
static uint64_t state;

static uint32_t below(uint32_t n)
{
    state ^= state << 13;
    state ^= state >> 7;
    state ^= state << 17;
    return (uint32_t)(state >> 33) % n;
}

/* Returns any root but the spare slots. */
static uint32_t any_root(void)
{
    uint32_t place = below(PLACES - 2);
    return place < SPARE ? place : place + 2;
}

/* Returns one of few roots, of which most refer to texts. */
static uint32_t any_text(void)
{
    return FIRST_EXTRA + 8 + below(3);
}

static uint8_t any_mutator(void)
{
    return (uint8_t)below(MUTATORS);
}

/* Returns a slot by its number, which is none of the spare ones. */
static uint8_t any_slot(void)
{
    return (uint8_t)below(16 + SPARE);
}

static uint32_t length(void)
{
    return below(4);
}

static void look(void)
{
    static const char *const names[] = {"obj", "raw"};
    gcflip_view view;
    uint32_t answer;
    if (below(2)) {
        gcflip_seen seen = gcflip_look_seen(&heap, any_root());
        answer = seen.answer;
        view = (gcflip_view){seen.kind, seen.count, seen.number};
    } else
        answer = gcflip_look(&heap, any_root(), &view);
    if (answer == GCFLIP_NIL)
        printf("saw nil\n");
    else if (answer == GCFLIP_NUMBER)
        printf("saw num %llu\n", (unsigned long long)view.number);
    else
        printf("saw %s %u %u\n", names[answer == GCFLIP_RAW_OBJECT], view.kind, view.count);
}

static uint32_t work(void)
{
    gcflip_work work = {0, 0, 0, 0, 0};
    uint32_t answer = gcflip_heap_work(&heap, 1 + below(60), &work);
    if (work.last == GCFLIP_FLIPPED)
        printf("flipped %u\n", work.pairs);
    if (work.last == GCFLIP_NO_ROOM)
        EXPECT(gcflip_heap_step_give_up(&heap) == GCFLIP_DROPPED);
    return answer;
}

static uint32_t make_from(void)
{
    uint32_t fields[4];
    for (int i = 0; i < 4; i++)
        fields[i] = any_root();
    return gcflip_new_from(&heap, any_mutator(), any_root(), below(256), fields, length());
}

static uint32_t make_with(void)
{
    gcflip_field fields[4];
    for (int i = 0; i < 4; i++) {
        fields[i].holds = below(3);
        fields[i].value = fields[i].holds == GCFLIP_FIELD_ROOT ? any_root() : state >> 1;
    }
    return gcflip_new_with(&heap, any_mutator(), any_root(), below(256), fields, length());
}

/* Puts a root. Where no memory is left for the log, as for that of a collection that has just begun, this gives the collection up. */
static uint32_t put_sure(void)
{
    uint32_t s = any_root(), answer;
    if (below(2)) {
        EXPECT(!GCFLIP_IS_REFUSED(gcflip_heap_step_begin(&heap)));
        gcflip_new(&heap, s, 1, 4);
        fail_allocation(1);
    }
    answer = gcflip_put_sure(&heap, any_mutator(), s, length(), any_root());
    fail_allocation(0);
    return answer;
}

static uint32_t frame(int call)
{
    static gcflip_frame frame = {4, EXTRA, 4, 4};
    if (call == 0)
        return gcflip_heap_frame_push(&heap, any_mutator(), any_slot(), &frame);
    if (call == 1)
        return gcflip_heap_frame_pop(&heap, any_mutator(), any_slot(), &frame);
    if (frame.top > frame.first)
        frame.top--;
    return gcflip_heap_frame_trim(&heap, &frame, below(3));
}

/* Performs one of the calls, the same each time for the same number. */
static uint32_t perform(uint32_t call)
{
    uint8_t bytes[40];
    uint64_t number = 0, words[] = {state, state * 0x9e3779b97f4a7c15u};
    uint32_t from = below(EXTRA);
    for (size_t i = 0; i < sizeof bytes; i++)
        bytes[i] = (uint8_t)below(256);
    switch (call) {
    case 0:
        return gcflip_new(&heap, any_root(), below(256), length());
    case 1:
        return gcflip_new_raw(&heap, any_root(), below(256), length());
    case 2:
        return gcflip_new_pair(&heap, any_mutator(), any_root(), below(256), any_root(), any_root());
    case 3:
        return make_from();
    case 4:
        return make_with();
    case 5:
        return gcflip_gather(&heap, any_mutator(), any_root(), below(256), 16 + below(PLACES - 20), length());
    case 6:
        return gcflip_spread(&heap, 16 + below(PLACES - 20), any_root(), length());
    case 7:
        return gcflip_set_number(&heap, any_root(), state >> 1);
    case 8:
        from = 16 + below(PLACES - 20);
        return below(2) ? gcflip_set_nil(&heap, any_root()) : gcflip_clear(&heap, from, from + below(3));
    case 9:
        return gcflip_copy(&heap, any_root(), any_root());
    case 10:
        return below(2) ? gcflip_get(&heap, any_root(), any_root(), length(), &number) : gcflip_get_seen(&heap, any_root(), any_root(), length()).answer;
    case 11:
        return gcflip_put(&heap, any_mutator(), any_root(), length(), any_root());
    case 12:
        return put_sure();
    case 13:
        return gcflip_put_number(&heap, any_mutator(), any_root(), length(), state >> 1);
    case 14:
        return gcflip_put_nil(&heap, any_mutator(), any_root(), length());
    case 15:
        return gcflip_fill(&heap, any_mutator(), any_root(), below(2), 1 + below(3), any_root());
    case 16:
        return gcflip_copy_fields(&heap, any_mutator(), any_root(), below(2), any_root(), below(2), below(3));
    case 17:
        return gcflip_same(&heap, any_root(), any_root());
    case 18:
        return gcflip_new_bytes(&heap, any_mutator(), any_text(), below(256), bytes, below(30));
    case 19:
        return gcflip_bytes_join(&heap, any_mutator(), any_root(), below(256), any_text(), any_text());
    case 20:
        return gcflip_bytes_part(&heap, any_mutator(), any_root(), below(256), any_text(), below(8), below(8));
    case 21:
        return gcflip_bytes_write(&heap, any_mutator(), any_text(), below(8), bytes, below(16));
    case 22:
        return gcflip_heap_root_load(&heap, any_mutator(), any_slot(), below(EXTRA));
    case 23:
        return gcflip_heap_root_store(&heap, any_mutator(), below(EXTRA), any_slot());
    case 24:
        return gcflip_heap_root_clear(&heap, from, from + below(EXTRA - from + 1) % 4);
    case 25:
    case 26:
    case 27:
        return frame((int)call - 25);
    case 28:
        return gcflip_heap_get(&heap, any_mutator(), any_slot(), any_slot(), (uint16_t)length(), &number);
    case 29:
        return gcflip_heap_put_number(&heap, any_mutator(), any_slot(), (uint16_t)length(), 15, state >> 1);
    case 30:
        return gcflip_words_write(&heap, any_mutator(), any_root(), below(2), words, below(3));
    case 31:
        words[0] >>= 1;
        words[1] >>= 1;
        return gcflip_raw_write(&heap, any_mutator(), any_root(), below(2), words, below(3));
    default:
        return work();
    }
}

enum { KINDS = 34 };

int main(int count, char **words)
{
    gcflip_options options = gcflip_options_default(WORDS, MUTATORS);
    long done[KINDS] = {0}, full = 0;
    EXPECT(count == 3);
    state = strtoull(words[2], NULL, 10) * 0x9e3779b97f4a7c15u + 1;
    options.extra_roots = EXTRA;
    gcflip_trace = fopen(words[1], "w");
    EXPECT(gcflip_trace != NULL);
    gcflip_trace_spare = SPARE;
    EXPECT(gcflip_heap_open(&heap, &options) == GCFLIP_DONE);
    for (int i = 0; i < CALLS; i++) {
        uint32_t call = below(KINDS), answer = perform(call);
        EXPECT(!GCFLIP_IS_REFUSED(answer) || answer == GCFLIP_OUT_OF_RANGE);
        done[call] += answer == GCFLIP_DONE || answer == GCFLIP_MADE || answer == GCFLIP_SAME || answer == GCFLIP_OBJECT;
        full += answer == GCFLIP_FULL;
        look();
        EXPECT(gcflip_trace_ended == 0);
    }
    for (int call = 0; call < KINDS; call++)
        EXPECT(done[call] >= 5);
    EXPECT(full > 100);
    EXPECT(gcflip_heap_close(&heap) == GCFLIP_DONE && fclose(gcflip_trace) == 0);
    return 0;
}
