// Tests herbpond.hpp: fields of each type at their edges, references that own a root, texts, weak handles, growth, and what each exception tells.
#include "own_allocator.h"
#include "expect.h"
#include "herbpond.hpp"

#include <cmath>
#include <limits>
#include <vector>

using herbpond::Field;
using herbpond::Heap;
using herbpond::Root;
using herbpond::Weak;

namespace {

struct Bytes {
    static constexpr std::uint32_t kind = 3, fields = 2;
    static constexpr bool raw = true;
    static constexpr Field<Bytes, std::uint64_t, 0> first{};
    static constexpr Field<Bytes, std::uint64_t, 1> second{};
};

struct Pair {
    static constexpr std::uint32_t kind = 1, fields = 2;
    static constexpr Field<Pair, std::int64_t, 0> number{};
    static constexpr Field<Pair, Pair, 1> rest{};
};

struct Name {
    static constexpr std::uint32_t kind = 4;
    static constexpr bool text = true;
};

struct Named {
    static constexpr std::uint32_t kind = 5, fields = 1;
    static constexpr Field<Named, Name, 0> name{};
};

struct Record {
    static constexpr std::uint32_t kind = 2, fields = 5;
    static constexpr Field<Record, bool, 0> is_set{};
    static constexpr Field<Record, double, 1> real{};
    static constexpr Field<Record, std::uint64_t, 2> word{};
    static constexpr Field<Record, Bytes, 3> bytes{};
    static constexpr Field<Record, Pair, 4> pair{};
};

// Expects that a call throws this exception, which tells of the answer and the call.
template <class Thrown, class Call> void expect_thrown(std::uint32_t answer, const std::string &name, Call call)
{
    bool is_thrown = false;
    try {
        call();
    } catch (const Thrown &thrown) {
        is_thrown = true;
        EXPECT(thrown.answer == answer && thrown.call == name);
        EXPECT(std::string(thrown.what()).find(gcflip_answer_text(answer)) != std::string::npos);
    }
    EXPECT(is_thrown);
}

std::uint32_t objects_in(Heap &heap)
{
    hp_object object = {0, {HP_NIL, 0, 0, 0, 0, 0}};
    std::uint32_t count = 0;
    heap.collect();
    while (hp_next(heap.layer(), &object))
        count++;
    return count;
}

void numbers()
{
    Heap heap(4096, 10);
    Root<Pair> pair = heap.make<Pair>();
    expect_thrown<herbpond::Mismatch>(GCFLIP_NO_NUMBER, "hp_field", [&] { pair[Pair::number].get(); });
    for (std::int64_t number : {std::int64_t(0), std::int64_t(-1), HP_LEAST_INT, HP_MOST_INT}) {
        pair[Pair::number] = number;
        std::int64_t read = pair[Pair::number];
        EXPECT(read == number && pair[Pair::number].get() == number);
    }
    expect_thrown<herbpond::Misuse>(GCFLIP_OUT_OF_RANGE, "hp_put_int", [&] { pair[Pair::number] = HP_MOST_INT + 1; });
    EXPECT(pair[Pair::number].get() == HP_MOST_INT);
    Root<Record> record = heap.make<Record>();
    for (bool is_set : {true, false}) {
        record[Record::is_set] = is_set;
        EXPECT(record[Record::is_set].get() == is_set);
    }
    hp_put_word(heap.layer(), record.place(), 0, hp_code_of_special(2));
    expect_thrown<herbpond::Mismatch>(GCFLIP_NO_NUMBER, "hp_field", [&] { record[Record::is_set].get(); });
    for (double real : {0.0, -1.5, 1e300, 5e-324, std::numeric_limits<double>::infinity()}) {
        record[Record::real] = real;
        EXPECT(record[Record::real].get() == real);
    }
    record[Record::real] = std::nan("");
    EXPECT(std::isnan(record[Record::real].get()));
    record[Record::word] = (std::uint64_t(1) << 63) - 1;
    EXPECT(record[Record::word].get() == (std::uint64_t(1) << 63) - 1);
    expect_thrown<herbpond::Misuse>(GCFLIP_OUT_OF_RANGE, "hp_put_word", [&] { record[Record::word] = std::uint64_t(1) << 63; });
    Root<Bytes> bytes = heap.make<Bytes>();
    EXPECT(bytes[Bytes::first].get() == 0 && bytes[Bytes::second].get() == 0);
    bytes[Bytes::second] = 77;
    record[Record::bytes] = bytes;
    record[Record::pair] = pair;
    EXPECT(record[Record::bytes].get()[Bytes::second].get() == 77 && record[Record::pair].get() == pair);
    // a boxed double is garbage once another one takes its place, and no register keeps it
    record[Record::real] = 1e300;
    EXPECT(objects_in(heap) == 4);
    record[Record::real] = 1.0;
    EXPECT(objects_in(heap) == 3);
    record[Record::real] = 1e300;
    EXPECT(record[Record::real].get() == 1e300);
    hp_put_int(heap.layer(), record.place(), 1, 5);
    EXPECT(objects_in(heap) == 3);
    expect_thrown<herbpond::Mismatch>(GCFLIP_NO_NUMBER, "hp_double", [&] { record[Record::real].get(); });
}

void references()
{
    Heap heap(4096, 4);
    Root<Pair> none, list = heap.make<Pair>();
    EXPECT(!none && list && none == nullptr && list != none && list == list);
    Root<Pair> second = list.copy(), third = heap.make<Pair>();
    EXPECT(second == list && third != list && !none.copy());
    list[Pair::rest] = third;
    EXPECT(list[Pair::rest].get() == third && !third[Pair::rest].get());
    Root<Pair> moved = std::move(second);
    EXPECT(!second && moved == list);
    Root<Pair> &itself = moved;
    moved = std::move(itself);
    EXPECT(moved == list);
    // all four roots are in use
    Root<Pair> fourth = heap.make<Pair>();
    expect_thrown<herbpond::Lack>(GCFLIP_FRAME_FULL, "hp_push", [&] { heap.make<Pair>(); });
    expect_thrown<herbpond::Lack>(GCFLIP_FRAME_FULL, "hp_push", [&] { list.copy(); });
    expect_thrown<herbpond::Lack>(GCFLIP_FRAME_FULL, "hp_push", [&] { list[Pair::rest].get(); });
    EXPECT(objects_in(heap) == 3);
    fourth = nullptr;
    fourth = list[Pair::rest];
    EXPECT(fourth == third && objects_in(heap) == 2);
    list[Pair::rest] = nullptr;
    third = nullptr;
    fourth = nullptr;
    EXPECT(!list[Pair::rest].get() && objects_in(heap) == 1);
    list = nullptr;
    EXPECT(objects_in(heap) == 1); // `moved` refers to it
    moved = nullptr;
    EXPECT(objects_in(heap) == 0);
    // roots that came back are taken again, each once
    for (int round = 0; round < 100; round++) {
        std::vector<Root<Pair>> all;
        for (std::int64_t k = 0; k < 4; k++) {
            all.push_back(heap.make<Pair>());
            all.back()[Pair::number] = k;
        }
        for (std::int64_t k = 0; k < 4; k++)
            EXPECT(all[std::size_t(k)][Pair::number].get() == k);
        if (round % 2 == 0)
            all.erase(all.begin() + round % 4);
    }
    EXPECT(objects_in(heap) == 0);
}

void mismatches()
{
    Heap heap(4096, 10), other(4096, 10);
    Root<Pair> none, pair = heap.make<Pair>(), foreign = other.make<Pair>();
    Root<Record> record = heap.make<Record>();
    expect_thrown<herbpond::Mismatch>(GCFLIP_NO_OBJECT, "herbpond::Root", [&] { none[Pair::number] = 1; });
    expect_thrown<herbpond::Mismatch>(GCFLIP_NO_OBJECT, "herbpond::Root", [&] { none.place(); });
    expect_thrown<herbpond::Mismatch>(GCFLIP_NO_OBJECT, "herbpond::Root", [&] { heap.watch(none); });
    expect_thrown<herbpond::Misuse>(GCFLIP_OUT_OF_RANGE, "hp_put", [&] { pair[Pair::rest] = foreign; });
    expect_thrown<herbpond::Misuse>(GCFLIP_OUT_OF_RANGE, "hp_weak_new", [&] { heap.watch(foreign); });
    EXPECT(pair != foreign && !pair[Pair::rest].get());
    // an object of another kind, which the layer below wrote
    hp_put(heap.layer(), pair.place(), 1, record.place());
    expect_thrown<herbpond::Mismatch>(GCFLIP_NO_OBJECT, "hp_field", [&] { pair[Pair::rest].get(); });
    hp_put_int(heap.layer(), pair.place(), 1, 5);
    expect_thrown<herbpond::Mismatch>(GCFLIP_NO_OBJECT, "hp_field", [&] { pair[Pair::rest].get(); });
    expect_thrown<herbpond::Misuse>(GCFLIP_OUT_OF_RANGE, "hp_open", [&] { Heap wrong(0); });
}

// The heap is full, and goes on once what filled it is dropped.
void lacks()
{
    Heap heap(1000, 10);
    Root<Pair> list;
    std::int64_t count = 0;
    bool is_full = false;
    try {
        for (;; count++) {
            Root<Pair> pair = heap.make<Pair>();
            pair[Pair::number] = count;
            pair[Pair::rest] = list;
            list = std::move(pair);
        }
    } catch (const std::bad_alloc &) {
        is_full = true;
    }
    EXPECT(is_full && count == 249); // 999 words, of which each pair takes 4
    for (Root<Pair> at = list.copy(); at; at = at[Pair::rest])
        EXPECT(at[Pair::number].get() == --count);
    EXPECT(count == 0);
    list = nullptr;
    for (int i = 0; i < 10000; i++)
        list = heap.make<Pair>();
    EXPECT(objects_in(heap) == 1 && heap.counts().size == 1000);
    Heap growing(1000, 10, 100000);
    std::vector<Root<Pair>> kept;
    for (int i = 0; i < 5000; i++) {
        Root<Pair> pair = growing.make<Pair>();
        if (!kept.empty())
            pair[Pair::rest] = kept.back();
        kept.clear();
        kept.push_back(std::move(pair));
        growing.safepoint();
    }
    EXPECT(growing.counts().size > 20000 && objects_in(growing) == 5000);
}

void texts()
{
    const std::string letters = "abcdefghijklmnopqrstuvwxyz", high("a\0\xff", 3);
    Heap heap(4096, 8), other(64);
    Root<Name> none, empty = heap.make_text<Name>(std::string_view()), first = heap.make_text<Name>(letters), second = heap.make_text<Name>(high);
    EXPECT(empty.length() == 0 && empty.read().empty() && first.length() == 26 && first.read() == letters && second.read() == high);
    EXPECT(hp_is(heap.layer(), first.place(), Name::kind) && hp_look(heap.layer(), first.place()).type == HP_RAW);
    EXPECT(heap.join(first, second).read() == letters + high && heap.join(second, first).read() == high + letters);
    EXPECT(heap.join(empty, first).read() == letters && heap.join(first, first).length() == 52);
    for (std::uint32_t at = 0; at <= 26; at++)
        for (std::uint32_t count = 0; count <= 26 - at; count++)
            EXPECT(heap.part(first, at, count).read() == letters.substr(at, count) && first.read(at, count) == letters.substr(at, count));
    for (const std::string &bytes : {std::string(), std::string("a"), std::string("a\0", 2), letters, letters + "a", std::string("b"), high}) {
        Root<Name> made = heap.make_text<Name>(bytes);
        int order = letters.compare(bytes);
        EXPECT(first.compare(made) == (order > 0) - (order < 0) && first.has_bytes_of(made) == (order == 0));
    }
    EXPECT(second.compare(first) == -1 && heap.part(second, 2, 1).compare(first) == 1); // byte 255 comes behind the letters
    Root<Named> named = heap.make<Named>();
    named[Named::name] = first;
    first = nullptr;
    heap.collect();
    EXPECT(named[Named::name].get().read() == letters);
    expect_thrown<herbpond::Mismatch>(GCFLIP_NO_FIELD, "hp_bytes_part", [&] { heap.part(second, 1, 3); });
    expect_thrown<herbpond::Mismatch>(GCFLIP_NO_FIELD, "hp_bytes_read", [&] { second.read(1, 3); });
    expect_thrown<herbpond::Mismatch>(GCFLIP_NO_FIELD, "hp_bytes_read", [&] { second.read(4, 0); });
    expect_thrown<herbpond::Mismatch>(GCFLIP_NO_FIELD, "hp_bytes_read", [&] { second.read(1, UINT32_MAX); });
    expect_thrown<herbpond::Mismatch>(GCFLIP_NO_OBJECT, "herbpond::Root", [&] { none.length(); });
    expect_thrown<herbpond::Mismatch>(GCFLIP_NO_OBJECT, "herbpond::Root", [&] { heap.join(second, none); });
    expect_thrown<herbpond::Misuse>(GCFLIP_OUT_OF_RANGE, "hp_new_bytes", [&] { heap.make_text<Name>(std::string(GCFLIP_MOST_BYTES + 1, 'a')); });
    expect_thrown<herbpond::Lack>(GCFLIP_FULL, "hp_reserve", [&] { heap.make_text<Name>(std::string(30000, 'a')); });
    Root<Name> foreign = other.make_text<Name>("a");
    expect_thrown<herbpond::Misuse>(GCFLIP_OUT_OF_RANGE, "hp_bytes_join", [&] { heap.join(second, foreign); });
    expect_thrown<herbpond::Misuse>(GCFLIP_OUT_OF_RANGE, "hp_bytes_join", [&] { heap.join(foreign, second); });
    expect_thrown<herbpond::Misuse>(GCFLIP_OUT_OF_RANGE, "hp_bytes_part", [&] { heap.part(foreign, 0, 1); });
    expect_thrown<herbpond::Misuse>(GCFLIP_OUT_OF_RANGE, "hp_bytes_same", [&] { second.has_bytes_of(foreign); });
    expect_thrown<herbpond::Misuse>(GCFLIP_OUT_OF_RANGE, "hp_bytes_compare", [&] { second.compare(foreign); });
}

void weak_handles()
{
    Heap heap(4096, 10);
    std::uint64_t token = 0;
    Root<Pair> pair = heap.make<Pair>();
    Weak<Pair> empty, weak = heap.watch(pair, 7);
    EXPECT(!empty.get() && weak.get() == pair && !heap.next_dead(token));
    Weak<Pair> moved = std::move(weak);
    EXPECT(!weak.get() && moved.get() == pair);
    pair = nullptr;
    heap.collect();
    EXPECT(!moved.get() && heap.next_dead(token) && token == 7 && !heap.next_dead(token));
    pair = heap.make<Pair>();
    {
        Weak<Pair> ends = heap.watch(pair, 8);
        moved = heap.watch(pair, 9);
    }
    pair = nullptr;
    heap.collect();
    EXPECT(heap.next_dead(token) && token == 9 && !heap.next_dead(token));
    EXPECT(objects_in(heap) == 0);
}

// Each allocation of a run is refused in turn. It throws, or the run goes on, and all memory is given back.
bool refused(long n)
{
    fail_allocation(n);
    try {
        Heap heap(1000, 10);
        Root<Pair> list;
        std::vector<Weak<Pair>> watched;
        for (std::int64_t i = 0; i < 200; i++) {
            Root<Pair> pair = heap.make<Pair>();
            pair[Pair::number] = i;
            if (i % 2 == 0)
                pair[Pair::rest] = list;
            watched.push_back(heap.watch(pair));
            list = std::move(pair);
        }
        heap.collect();
        EXPECT(list[Pair::number].get() == 199);
    } catch (const herbpond::Lack &lack) {
        EXPECT(has_failed() && lack.answer == GCFLIP_NO_MEMORY);
    }
    bool was_refused = has_failed();
    fail_allocation(0);
    EXPECT(blocks_in_use() == 0);
    return was_refused;
}

} // namespace

int main()
{
    long n = 1;
    numbers();
    references();
    mismatches();
    lacks();
    texts();
    weak_handles();
    while (refused(n))
        n++;
    EXPECT(n > 3);
    return 0;
}
