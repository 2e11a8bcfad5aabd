// Herbpond's collected heap for C++17: references that own a root, and fields with types. NOT PROVED: this header is a layer over herbpond.h, which is
// one over the proved calls of gcflip_heap.h. tests/c/herbpond_cpp.cpp tests it.
//
//     struct Pair {
//         static constexpr std::uint32_t kind = 1, fields = 2;
//         static constexpr herbpond::Field<Pair, std::int64_t, 0> number{};
//         static constexpr herbpond::Field<Pair, Pair, 1> rest{};
//     };
//
//     herbpond::Heap heap(1 << 20);
//     herbpond::Root<Pair> pair = heap.make<Pair>();
//     pair[Pair::number] = 42;
//     pair[Pair::rest] = heap.make<Pair>();
//     herbpond::Root<Pair> rest = pair[Pair::rest];
//
// A type stands for a kind of objects: it has the kind's number, how many fields each object has, and the fields. Objects are raw if the type also has
// `static constexpr bool raw = true`. A field holds nil, or a value of its type:
// - std::int64_t from HP_LEAST_INT to HP_MOST_INT, bool, or double;
// - std::uint64_t below 2^63, a plain number. Fields of raw objects are of this type, and hold 0 at first;
// - another such type, for a reference to an object of its kind.
//
// Objects of a type that has `static constexpr bool text = true`, and no fields, are texts of bytes:
//
//     struct Name {
//         static constexpr std::uint32_t kind = 2;
//         static constexpr bool text = true;
//     };
//
//     herbpond::Root<Name> name = heap.join(heap.make_text<Name>("herb"), heap.make_text<Name>("pond"));
//     std::string bytes = name.read();
//
// No Root and no Weak may outlive its Heap. One thread at a time uses a Heap and what belongs to it. The calls of herbpond.h can be made on
// Heap::layer() too; its register 0 is this header's own.
#ifndef HERBPOND_HPP
#define HERBPOND_HPP

#include "herbpond.h"

#include <cstddef>
#include <cstdint>
#include <new>
#include <stdexcept>
#include <string>
#include <string_view>
#include <type_traits>
#include <utility>

namespace herbpond {

// ---- Exceptions

// What each exception tells: the answer, which is a number of gcflip_answers.h, and the name of the call that failed.
struct Failure {
    std::uint32_t answer;
    const char *call;
};

// Room or memory is used up, or the heap has no root for another Root. The heap can be used after that.
struct Lack : std::bad_alloc, Failure {
    explicit Lack(const Failure &failure) noexcept : Failure(failure) {}
    const char *what() const noexcept override { return gcflip_answer_text(answer); }
};

inline std::string text_of(const Failure &failure) { return std::string(failure.call) + ": " + gcflip_answer_text(failure.answer); }

// A value is not what the call needs: a field holds nil in place of a number, an object is of another kind, or a Root is empty.
struct Mismatch : std::runtime_error, Failure {
    explicit Mismatch(const Failure &failure) : std::runtime_error(text_of(failure)), Failure(failure) {}
};

// The program has a mistake, such as a number out of its range.
struct Misuse : std::logic_error, Failure {
    explicit Misuse(const Failure &failure) : std::logic_error(text_of(failure)), Failure(failure) {}
};

// The hook of each heap: throws the exception for the class of the answer.
[[noreturn]] inline void throw_answer(hp *, std::uint32_t answer, const char *call)
{
    switch (gcflip_class_of(answer)) {
    case GCFLIP_LACK: throw Lack({answer, call});
    case GCFLIP_MISMATCH: throw Mismatch({answer, call});
    default: throw Misuse({answer, call});
    }
}

// ---- Fields

// The field with this number, counted from 0, of the objects of kind K. It holds values of type T.
template <class K, class T, std::uint32_t number> struct Field {
};

template <class K> class Root;
template <class K> class Weak;

namespace inside {

template <class K, class = void> struct IsRaw : std::false_type {
};
template <class K> struct IsRaw<K, std::enable_if_t<K::raw>> : std::true_type {
};

template <class K, class = void> struct IsText : std::false_type {
};
template <class K> struct IsText<K, std::enable_if_t<K::text>> : std::true_type {
};

// A kind of texts, which a call needs.
template <class K> constexpr std::uint32_t text_kind()
{
    static_assert(IsText<K>::value, "the kind has no texts");
    static_assert(K::kind < HP_KIND_SPINE, "a kind is below 253");
    return K::kind;
}

// The register through which boxed doubles pass. It holds nil between two calls, also after one that throws.
constexpr hp_root passing = 0;

struct Passing {
    hp *h;

    explicit Passing(hp *layer) : h(layer) {}
    Passing(const Passing &) = delete;
    Passing &operator=(const Passing &) = delete;
    ~Passing() { gcflip_set_nil(&h->heap, passing); }
};

inline hp_value field_of(hp *h, hp_root root, std::uint32_t number, hp_type wanted)
{
    hp_value value = hp_field(h, root, number);
    if (value.type != wanted)
        throw Mismatch({GCFLIP_NO_NUMBER, "hp_field"});
    return value;
}

// How values of a type are read from a field, and written to it.
template <class T> struct Value;

template <> struct Value<std::int64_t> {
    static std::int64_t read(hp *h, hp_root root, std::uint32_t number) { return field_of(h, root, number, HP_INT).integer; }
    static void write(hp *h, hp_root root, std::uint32_t number, std::int64_t value) { hp_put_int(h, root, number, value); }
};

template <> struct Value<std::uint64_t> {
    static std::uint64_t read(hp *h, hp_root root, std::uint32_t number) { return hp_word(h, root, number); }
    static void write(hp *h, hp_root root, std::uint32_t number, std::uint64_t value) { hp_put_word(h, root, number, value); }
};

template <> struct Value<bool> {
    static bool read(hp *h, hp_root root, std::uint32_t number)
    {
        std::uint64_t special = field_of(h, root, number, HP_SPECIAL).special;
        if (special > 1)
            throw Mismatch({GCFLIP_NO_NUMBER, "hp_field"});
        return special == 1;
    }
    static void write(hp *h, hp_root root, std::uint32_t number, bool value) { hp_put_word(h, root, number, hp_code_of_special(value ? 1 : 0)); }
};

template <> struct Value<double> {
    static double read(hp *h, hp_root root, std::uint32_t number)
    {
        Passing guard(h);
        hp_get(h, passing, root, number);
        return hp_double(h, passing);
    }
    static void write(hp *h, hp_root root, std::uint32_t number, double value)
    {
        Passing guard(h);
        hp_set_double(h, passing, value);
        hp_put(h, root, number, passing);
    }
};

} // namespace inside

// ---- The heap

class Heap {
public:
    // Opens a heap of `words` words, in which at most `roots` values of type Root exist at a time. If `most` is above `words`, the heap grows up to so many.
    explicit Heap(std::uint32_t words, std::uint32_t roots = 4096, std::uint32_t most = 0)
    {
        hp_open(&h, words, roots, throw_answer);
        if (most > words)
            hp_growing(&h, most);
    }
    ~Heap() { hp_close(&h); }
    Heap(const Heap &) = delete;
    Heap &operator=(const Heap &) = delete;

    // Makes an object of kind K. Performs the steps of the collector that are due, and whole collections if there is still no room.
    template <class K> Root<K> make()
    {
        static_assert(!inside::IsText<K>::value, "make_text makes a text");
        static_assert(K::kind < HP_KIND_SPINE && K::fields <= 65535, "a kind is below 253, and an object has at most 65535 fields");
        Root<K> made(*this);
        if constexpr (inside::IsRaw<K>::value)
            hp_new_raw(&h, made.root, K::kind, K::fields);
        else
            hp_new(&h, made.root, K::kind, K::fields);
        return made;
    }

    // Makes a text of these bytes, at most GCFLIP_MOST_BYTES.
    template <class K> Root<K> make_text(std::string_view bytes)
    {
        Root<K> made(*this);
        hp_new_bytes(&h, made.root, inside::text_kind<K>(), bytes.data(), bytes.size());
        return made;
    }

    // Makes a text with the bytes of both texts, in this order.
    template <class K> Root<K> join(const Root<K> &first, const Root<K> &second)
    {
        Root<K> made(*this);
        hp_bytes_join(&h, made.root, inside::text_kind<K>(), own(first, "hp_bytes_join"), own(second, "hp_bytes_join"));
        return made;
    }

    // Makes a text with `count` bytes of a text, from byte `at` on.
    template <class K> Root<K> part(const Root<K> &source, std::uint32_t at, std::uint32_t count)
    {
        Root<K> made(*this);
        hp_bytes_part(&h, made.root, inside::text_kind<K>(), own(source, "hp_bytes_part"), at, count);
        return made;
    }

    // Returns a weak handle of an object, which does not keep it alive. Once the object died, next_dead tells the token.
    template <class K> Weak<K> watch(const Root<K> &object, std::uint64_t token = 0);

    // Writes the token of a weak handle whose object died, and returns true. Returns false if all were told.
    bool next_dead(std::uint64_t &token) { return hp_weak_next_dead(&h, &token); }

    // Performs a whole collection, which frees all that no Root reaches now.
    void collect() { hp_collect(&h); }

    // Performs the steps of the collector that are due, for a loop that writes and makes no object.
    void safepoint() { hp_safepoint(&h); }

    // Returns how full the heap is, and how far an open collection has come.
    gcflip_counts counts() { return hp_counts(&h); }

    // Returns the heap of herbpond.h.
    hp *layer() { return &h; }

private:
    template <class K> friend class Root;

    // Returns the root of a reference to an object of this heap.
    template <class K> hp_root own(const Root<K> &object, const char *call) const
    {
        if (&object.owner() != this)
            throw Misuse({GCFLIP_OUT_OF_RANGE, call});
        return object.root;
    }

    // Returns a root that no Root owns.
    hp_root take()
    {
        if (unused == 0)
            return hp_push(&h);
        hp_root root = unused;
        unused = static_cast<hp_root>(hp_look(&h, root).integer);
        return root;
    }

    // Takes a root back. It then holds the place of the one that came back before it, or 0.
    void give_back(hp_root root) noexcept
    {
        gcflip_set_number(&h.heap, root, hp_code_of_int(unused));
        unused = root;
    }

    hp h;
    hp_root unused = 0;
};

// ---- References

// A reference to an object of kind K, or an empty one. It owns a root, which keeps the object alive. It can be moved, and `copy` makes another one.
template <class K> class Root {
public:
    // An empty reference, which owns no root.
    Root(std::nullptr_t = nullptr) noexcept {}
    Root(Root &&other) noexcept : heap(std::exchange(other.heap, nullptr)), root(other.root) {}
    Root &operator=(Root &&other) noexcept
    {
        Root taken(std::move(other));
        std::swap(heap, taken.heap);
        std::swap(root, taken.root);
        return *this;
    }
    Root(const Root &) = delete;
    Root &operator=(const Root &) = delete;
    ~Root()
    {
        if (heap != nullptr)
            heap->give_back(root);
    }

    // Returns another reference to the same object.
    Root copy() const
    {
        if (heap == nullptr)
            return nullptr;
        Root made(*heap);
        hp_copy(heap->layer(), made.root, root);
        return made;
    }

    // Returns whether there is an object.
    explicit operator bool() const noexcept { return heap != nullptr; }

    // Returns whether both refer to one object, or are both empty.
    bool operator==(const Root &other) const { return heap == other.heap && (heap == nullptr || hp_same(heap->layer(), root, other.root)); }
    bool operator!=(const Root &other) const { return !(*this == other); }

    // Returns a field of the object, which can be read and written.
    template <class T, std::uint32_t number> auto operator[](Field<K, T, number>) const
    {
        static_assert(number < K::fields, "the kind has fewer fields");
        static_assert(!inside::IsRaw<K>::value || std::is_same_v<T, std::uint64_t>, "a field of a raw object holds a std::uint64_t");
        return Place<T>(owner(), root, number);
    }

    // Returns the number of bytes of the text.
    std::uint32_t length() const
    {
        inside::text_kind<K>();
        return hp_bytes_length(owner().layer(), root);
    }

    // Returns the bytes of the text, or `count` of them, from byte `at` on.
    std::string read() const { return read(0, length()); }
    std::string read(std::uint32_t at, std::uint32_t count) const
    {
        std::uint32_t all = length();
        if (at > all || count > all - at)
            throw Mismatch({GCFLIP_NO_FIELD, "hp_bytes_read"});
        std::string bytes(count, 0);
        hp_bytes_read(owner().layer(), root, at, &bytes[0], count);
        return bytes;
    }

    // Returns the order of both texts by their bytes, as hp_bytes_compare: -1, 0 or 1.
    int compare(const Root &other) const
    {
        inside::text_kind<K>();
        return hp_bytes_compare(owner().layer(), root, owner().own(other, "hp_bytes_compare"));
    }

    // Returns whether both texts have the same bytes.
    bool has_bytes_of(const Root &other) const
    {
        inside::text_kind<K>();
        return hp_bytes_same(owner().layer(), root, owner().own(other, "hp_bytes_same"));
    }

    // Returns the place of the root, for the calls of herbpond.h.
    hp_root place() const
    {
        owner();
        return root;
    }

private:
    friend class Heap;
    template <class J> friend class Root;
    template <class J> friend class Weak;

    // A field of an object, until the end of the statement.
    template <class T> class Place {
    public:
        Place(Heap &owner, hp_root object, std::uint32_t field) : heap(owner), root(object), number(field) {}
        Place(const Place &) = delete;
        Place &operator=(const Place &) = delete;

        // Returns the value: for a reference a Root, which is empty if the field holds nil.
        auto get() const
        {
            if constexpr (std::is_class_v<T>)
                return reference();
            else
                return inside::Value<T>::read(heap.layer(), root, number);
        }

        using Read = std::conditional_t<std::is_class_v<T>, Root<T>, T>;
        using Written = std::conditional_t<std::is_class_v<T>, const Root<T> &, T>;

        operator Read() && { return get(); }

        // Writes a value. An empty Root or nullptr makes the field nil.
        void operator=(Written value) &&
        {
            if constexpr (std::is_class_v<T>)
                refer(value);
            else
                inside::Value<T>::write(heap.layer(), root, number, value);
        }

    private:
        Root<T> reference() const
        {
            hp_value value = hp_field(heap.layer(), root, number);
            if (value.type == HP_NIL)
                return nullptr;
            if (value.type < HP_OBJECT || value.kind != T::kind)
                throw Mismatch({GCFLIP_NO_OBJECT, "hp_field"});
            Root<T> found(heap);
            hp_get(heap.layer(), found.root, root, number);
            return found;
        }

        void refer(const Root<T> &value) const
        {
            if (value.heap == nullptr) {
                inside::Passing nil(heap.layer());
                hp_put(heap.layer(), root, number, inside::passing);
            } else if (value.heap != &heap) {
                throw Misuse({GCFLIP_OUT_OF_RANGE, "hp_put"});
            } else {
                hp_put(heap.layer(), root, number, value.root);
            }
        }

        Heap &heap;
        hp_root root;
        std::uint32_t number;
    };

    // Owns a root, which holds a number or nil until the caller puts a reference there.
    explicit Root(Heap &of) : heap(&of), root(of.take()) {}

    Heap &owner() const
    {
        if (heap == nullptr)
            throw Mismatch({GCFLIP_NO_OBJECT, "herbpond::Root"});
        return *heap;
    }

    Heap *heap = nullptr;
    hp_root root = 0;
};

// A weak handle of an object of kind K, or an empty one. It does not keep the object alive, and frees its entry where it ends.
template <class K> class Weak {
public:
    Weak() noexcept {}
    Weak(Weak &&other) noexcept : heap(std::exchange(other.heap, nullptr)), handle(other.handle) {}
    Weak &operator=(Weak &&other) noexcept
    {
        Weak taken(std::move(other));
        std::swap(heap, taken.heap);
        std::swap(handle, taken.handle);
        return *this;
    }
    Weak(const Weak &) = delete;
    Weak &operator=(const Weak &) = delete;
    ~Weak()
    {
        if (heap != nullptr)
            hp_weak_free(heap->layer(), handle);
    }

    // Returns a reference to the object, which is empty if the object died.
    Root<K> get() const
    {
        if (heap == nullptr)
            return nullptr;
        Root<K> found(*heap);
        if (!hp_weak_get(heap->layer(), found.root, handle))
            return nullptr;
        return found;
    }

private:
    friend class Heap;
    Weak(Heap &of, hp_weak weak) : heap(&of), handle(weak) {}

    Heap *heap = nullptr;
    hp_weak handle = 0;
};

template <class K> Weak<K> Heap::watch(const Root<K> &object, std::uint64_t token)
{
    return Weak<K>(*this, hp_weak_new(&h, own(object, "hp_weak_new"), token));
}

} // namespace herbpond

#endif
