// Calls the heap from C++, and records the run. Keeps a stack in extra roots, with paced work before each allocation.
#include "expect.h"
#include "gcflip_heap.h"
#include "gcflip_record.h"

FILE *gcflip_trace;

namespace {

class Heap {
public:
    explicit Heap(const gcflip_options &options) { EXPECT(gcflip_heap_open(&handle, &options) == GCFLIP_DONE); }
    Heap(uint32_t size, uint8_t mutators) : Heap(gcflip_options_default(size, mutators)) {}
    ~Heap() { EXPECT(gcflip_heap_close(&handle) == GCFLIP_DONE); }
    Heap(const Heap &) = delete;
    Heap &operator=(const Heap &) = delete;
    gcflip_heap handle = GCFLIP_NO_HEAP;
};

// A heap with extra roots, a stack in them, and a pace of its own.
class Stack {
public:
    explicit Stack(uint32_t most) : heap(with_roots(16 * most, most)), frame{0, most, 0, 0} { pace.least = most; }

    // Puts a new object with this number into slot 0, after the steps that are due for its three words.
    void make(uint64_t number)
    {
        gcflip_counts counts = {};
        gcflip_work work = {};
        EXPECT(gcflip_heap_counts(&heap.handle, &counts) == GCFLIP_DONE);
        const uint32_t due = gcflip_pace_due(&pace, &counts, 3);
        EXPECT(gcflip_heap_work_paced(&heap.handle, &pace, 3, &work) == GCFLIP_DONE);
        EXPECT(work.steps + work.looks / 32 + pace.owed >= due || (work.last == GCFLIP_FLIPPED && pace.owed == 0));
        flips += work.last == GCFLIP_FLIPPED;
        EXPECT(gcflip_heap_new_object(&heap.handle, 0, 0, 1, 1) == GCFLIP_MADE);
        EXPECT(gcflip_heap_put_number(&heap.handle, 0, 0, 0, 1, number) == GCFLIP_DONE);
    }

    uint32_t push() { return gcflip_heap_frame_push(&heap.handle, 0, 0, &frame); }

    // Returns the number of the object that is popped into slot 2.
    uint64_t pop()
    {
        uint64_t number = 0;
        EXPECT(gcflip_heap_frame_pop(&heap.handle, 0, 2, &frame) == GCFLIP_DONE);
        EXPECT(gcflip_heap_get(&heap.handle, 0, 3, 2, 0, &number) == GCFLIP_NUMBER);
        return number;
    }

    static gcflip_options with_roots(uint32_t size, uint32_t extra_roots)
    {
        gcflip_options options = gcflip_options_default(size, 1);
        options.extra_roots = extra_roots;
        return options;
    }

    Heap heap;
    gcflip_frame frame;
    gcflip_pace pace = gcflip_pace_default();
    unsigned flips = 0;
};

void stack_of_many()
{
    const uint32_t most = 1000;
    Stack stack(most);
    for (uint64_t k = 0; k < most; k++) {
        stack.make(k);
        EXPECT(stack.push() == GCFLIP_DONE);
    }
    EXPECT(stack.push() == GCFLIP_FRAME_FULL);
    for (uint64_t k = most; k-- > 0;) {
        for (int garbage = 0; garbage < 10; garbage++)
            stack.make(garbage);
        EXPECT(stack.pop() == k);
    }
    EXPECT(gcflip_heap_frame_pop(&stack.heap.handle, 0, 2, &stack.frame) == GCFLIP_FRAME_EMPTY);
    // 33,000 words were allocated, and each flip makes room for less than 16,000
    EXPECT(stack.flips >= 2);
}

void single_roots()
{
    Heap heap(Stack::with_roots(64, 4));
    gcflip_view view = {};
    EXPECT(gcflip_heap_set_number(&heap.handle, 0, 0, 7) == GCFLIP_DONE);
    EXPECT(gcflip_heap_root_store(&heap.handle, 0, 3, 0) == GCFLIP_DONE);
    EXPECT(gcflip_heap_root_load(&heap.handle, 0, 1, 3) == GCFLIP_DONE);
    EXPECT(gcflip_heap_look(&heap.handle, 0, 1, &view) == GCFLIP_NUMBER && view.number == 7);
    EXPECT(gcflip_heap_root_clear(&heap.handle, 0, 4) == GCFLIP_DONE);
    EXPECT(gcflip_heap_root_load(&heap.handle, 0, 1, 3) == GCFLIP_DONE);
    EXPECT(gcflip_heap_look(&heap.handle, 0, 1, &view) == GCFLIP_NIL);
}

void roots_by_places()
{
    Heap heap(Stack::with_roots(64, 4));
    gcflip_view view = {};
    uint64_t number = 0;
    const uint32_t extra = static_cast<uint32_t>(gcflip_heap_root_count(1)) + 3;
    EXPECT(gcflip_new(&heap.handle, extra, 255, 1) == GCFLIP_MADE);
    EXPECT(gcflip_set_number(&heap.handle, 0, 7) == GCFLIP_DONE);
    EXPECT(gcflip_put(&heap.handle, 0, extra, 0, 0) == GCFLIP_DONE);
    EXPECT(gcflip_get(&heap.handle, 31, extra, 0, &number) == GCFLIP_NUMBER && number == 7);
    EXPECT(gcflip_same(&heap.handle, 31, 0) == GCFLIP_SAME);
    EXPECT(gcflip_put_number(&heap.handle, 0, extra, 0, 8) == GCFLIP_DONE && gcflip_peek(&heap.handle, extra, 0, &view) == GCFLIP_NUMBER && view.number == 8);
    EXPECT(gcflip_put_nil(&heap.handle, 0, extra, 0) == GCFLIP_DONE && gcflip_set_nil(&heap.handle, 31) == GCFLIP_DONE && gcflip_room(&heap.handle) == 60);
    EXPECT(gcflip_gather(&heap.handle, 0, 1, 9, 0, 2) == GCFLIP_MADE && gcflip_spread(&heap.handle, 2, 1, 1) == GCFLIP_DONE);
    EXPECT(gcflip_copy(&heap.handle, 0, extra) == GCFLIP_DONE);
    EXPECT(gcflip_look(&heap.handle, 0, &view) == GCFLIP_OBJECT && view.kind == 255 && view.count == 1);
}

// Keeps addresses across a flip, and makes references of them.
void weak_references()
{
    Heap heap(32, 1);
    gcflip_work work = {};
    uint32_t kept = 0, lost = 0;
    EXPECT(gcflip_heap_new_object(&heap.handle, 0, 1, 1, 1) == GCFLIP_MADE && gcflip_heap_address(&heap.handle, 0, 1, &lost) == GCFLIP_DONE);
    EXPECT(gcflip_heap_new_object(&heap.handle, 0, 0, 1, 0) == GCFLIP_MADE && gcflip_heap_address(&heap.handle, 0, 0, &kept) == GCFLIP_DONE);
    EXPECT(gcflip_heap_move(&heap.handle, 0, 1, 0) == GCFLIP_DONE);
    EXPECT(gcflip_heap_refer(&heap.handle, 0, 2, lost) == GCFLIP_DONE && gcflip_heap_same(&heap.handle, 0, 0, 2) == GCFLIP_NOT_SAME);
    EXPECT(gcflip_heap_refer(&heap.handle, 0, 2, kept) == GCFLIP_DONE && gcflip_heap_same(&heap.handle, 0, 0, 2) == GCFLIP_SAME);
    EXPECT(gcflip_heap_refer(&heap.handle, 0, 1, lost + 1) == GCFLIP_NO_OBJECT && gcflip_heap_same(&heap.handle, 0, 0, 1) == GCFLIP_SAME);
    EXPECT(gcflip_heap_refer(&heap.handle, 1, 1, lost) == GCFLIP_OUT_OF_RANGE && gcflip_heap_refer(&heap.handle, 0, 32, lost) == GCFLIP_OUT_OF_RANGE);
    EXPECT(gcflip_heap_work(&heap.handle, 100, &work) == GCFLIP_DONE && work.last == GCFLIP_FLIPPED && work.pairs == 1);
    EXPECT(gcflip_heap_moved(&heap.handle, lost, &lost) == GCFLIP_NO_OBJECT && gcflip_heap_moved(&heap.handle, kept, &kept) == GCFLIP_DONE);
    EXPECT(gcflip_heap_refer(&heap.handle, 0, 3, kept) == GCFLIP_DONE && gcflip_heap_same(&heap.handle, 0, 0, 3) == GCFLIP_SAME);
}

} // namespace

int main()
{
    gcflip_trace = tmpfile();
    {
        Heap heap(32, 1);
        gcflip_view view = {};
        gcflip_work work = {};
        EXPECT(gcflip_heap_new_object(&heap.handle, 0, 0, 1, 1) == GCFLIP_MADE);
        EXPECT(gcflip_heap_work(&heap.handle, 100, &work) == GCFLIP_DONE && work.last == GCFLIP_FLIPPED);
        EXPECT(gcflip_heap_look(&heap.handle, 0, 0, &view) == GCFLIP_OBJECT && view.kind == 1 && view.count == 1);
    }
    // two lines of the opening, two commands, and the steps begin, roots, scan, scan, flip
    int lines = 0;
    rewind(gcflip_trace);
    for (int c = fgetc(gcflip_trace); c != EOF; c = fgetc(gcflip_trace))
        lines += c == '\n';
    EXPECT(lines == 9);
    fclose(gcflip_trace);
    // a heap of more words than a trace has, behind 17 raw objects
    gcflip_trace = nullptr;
    Heap large(2097152, 1);
    gcflip_work work = {};
    gcflip_counts counts = {};
    for (int i = 0; i < 17; i++)
        EXPECT(gcflip_heap_new_raw(&large.handle, 0, 0, 1, 65535) == GCFLIP_MADE);
    EXPECT(gcflip_heap_new_object(&large.handle, 0, 1, 1, 1) == GCFLIP_MADE);
    EXPECT(gcflip_heap_work(&large.handle, UINT32_MAX, &work) == GCFLIP_DONE && work.last == GCFLIP_FLIPPED && work.pairs == 2);
    EXPECT(gcflip_heap_counts(&large.handle, &counts) == GCFLIP_DONE && counts.end == 1 + 65537 + 3);
    single_roots();
    roots_by_places();
    weak_references();
    stack_of_many();
    return 0;
}
