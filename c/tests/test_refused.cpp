// Tests of chunked_range_set and range_map where memory is refused: each request of each call in turn, the library's, those of `new`, and
// copies of values that throw. It is linked with -Wl,--wrap=malloc,--wrap=realloc, so that it stands before the library's malloc.
#include "checking.h"
#include "range_map.hpp"

#include <cmath>
#include <cstddef>
#include <cstdio>
#include <cstdlib>
#include <new>
#include <utility>
#include <vector>

using range_sets::chunked_range_set;
using range_sets::range_map;
using range_sets::range_set;

extern "C" {
void *__real_malloc(std::size_t size);
void *__real_realloc(void *memory, std::size_t size);
void *__wrap_malloc(std::size_t size);
void *__wrap_realloc(void *memory, std::size_t size);
}

static long refused;
// How many requests are met before one is refused; all if it is negative.
static long left = -1;

static bool is_met()
{
    if (left < 0) return true;
    if (left == 0) refused++;
    return left > 0 && left-- > 0;
}

void *__wrap_malloc(std::size_t size)
{
    return is_met() ? __real_malloc(size) : nullptr;
}

void *__wrap_realloc(void *memory, std::size_t size)
{
    return is_met() ? __real_realloc(memory, size) : nullptr;
}

// Not inline, since gcc takes malloc and `delete` in one function for a fault.
[[gnu::noinline]] void *operator new(std::size_t size)
{
    void *const memory = __wrap_malloc(size > 0 ? size : 1);
    if (memory == nullptr) throw std::bad_alloc();
    return memory;
}

[[gnu::noinline]] void operator delete(void *memory) noexcept
{
    std::free(memory);
}

[[gnu::noinline]] void operator delete(void *memory, std::size_t) noexcept
{
    std::free(memory);
}

// Makes a change again and again, with one request more met each time, until it is done. What is refused is thrown, and leaves the set
// or map as it was. A change that doesn't always take memory may be met at once.
template <class Set, class Change> static void until_done(const Set &before, const char *what, Change change, bool always = true)
{
    long met = 0;
    for (bool thrown = true; thrown; met++) {
        Set set(before);
        thrown = false;
        left = met;
        try {
            change(set);
        } catch (const std::bad_alloc &) {
            thrown = true;
        }
        left = -1;
        check((set == before) == thrown, what);
    }
    check(met > 1 || !always, what);
}

template <class T> static void all()
{
    using set = chunked_range_set<T>;
    std::vector<std::pair<T, T>> pairs;
    for (T i = 0; i < 256; i++) pairs.emplace_back(static_cast<T>(10 * i), static_cast<T>(10 * i + 5));
    const range_set<T> list(pairs);
    const set nothing, many(list);
    until_done(nothing, "insert into no set", [](set &it) { it.insert(3, 5); });
    until_done(nothing, "insert_from into no set", [](set &it) { it.insert_from(3); });
    until_done(many, "insert into a full chunk", [](set &it) { it.insert(7, 8); });
    until_done(many, "remove out of the middle of a range", [](set &it) { it.remove(2, 3); });
    until_done(nothing, "a copy", [&](set &it) { it = many; });
    until_done(nothing, "a set of a list", [&](set &it) { it = set(list); });
    until_done(nothing, "|= of another", [&](set &it) { it |= many; });
    until_done(many, "insert_changed into a full chunk", [](set &it) { it.insert_changed(7, 8); });
    until_done(many, "remove_changed", [](set &it) { it.remove_changed(2, 3); });
    until_done(nothing, "a text", [](set &it) { it = *set::parse("1..3"); });
    until_done(many, "a half", [](set &it) { it = it.split(1000).second; });
    range_set<T> few = {{1, 3}};
    until_done(few, "|= of a set in chunks", [&](range_set<T> &it) { it |= many; });

    using map = range_map<T, int>;
    map none, full;
    full.insert(5, 7, 1);
    until_done(none, "insert into no map", [](map &it) { it.insert(3, 5, 7); });
    until_done(none, "insert_from into no map", [](map &it) { it.insert_from(3, 7); });
    until_done(range_map<T, double>(), "insert of a NaN", [](range_map<T, double> &it) { it.insert(3, 7, std::nan("")); });
    until_done(none, "a copy of a map", [&](map &it) { it = full; });
    long grown = -refused;
    for (T i = 0; i < 100; i++) {
        const auto put = [i](map &it) { it.insert(static_cast<T>(3 * i), static_cast<T>(3 * i + 1), static_cast<int>(i)); };
        until_done(none, "insert into a map", put, false);
        put(none);
    }
    grown += refused;
    check(grown > 0, "a map that grows");
    map other;
    for (T i = 0; i < 40; i++) other.insert(static_cast<T>(7 * i + 2), static_cast<T>(7 * i + 6), -static_cast<int>(i));
    const auto either = [](const int *a, const int *b) { return std::optional(a != nullptr ? *a : *b); };
    until_done(full, "a map of two", [&](map &it) { it = it.combine(other, either); });
    const auto one_more = [](const int *a) { return a != nullptr ? std::optional(*a + 1) : std::optional(0); };
    until_done(other, "insert_all", [&](map &it) { it.insert_all(none); });
    until_done(other, "insert_where_free", [&](map &it) { it.insert_where_free(none); });
    until_done(other, "remove_all", [&](map &it) { it.remove_all({{3, 4}, {100, 120}}); });
    until_done(other, "retain_all", [&](map &it) { it.retain_all(many); });
    until_done(other, "retain", [](map &it) { it.retain([](int which) { return which % 2 == 0; }); });
    until_done(other, "update", [&](map &it) { it.update(3, 50, one_more); });
    until_done(other, "a part", [](map &it) { it = it.part(3, 50); });
    until_done(none, "a depth", [](map &it) { it = map::depth({{1, 5}, {2, 7}, {3, 4}}); });
    until_done(full, "a map of itself and none",
        [&](map &it) { it = it.combine(map(), [](const int *a, const int *) { return std::optional(*a + 1); }); });
}

// A value whose copies are counted, and which throws as if memory were refused, when it is copied or compared.
struct fragile {
    explicit fragile(int of) noexcept : which(of) { alive++; }
    fragile(const fragile &other) : which(other.which)
    {
        if (!is_met()) throw std::bad_alloc();
        alive++;
    }
    fragile &operator=(const fragile &other)
    {
        if (!is_met()) throw std::bad_alloc();
        which = other.which;
        return *this;
    }
    ~fragile() { alive--; }
    friend bool operator<(const fragile &a, const fragile &b)
    {
        if (!is_met()) throw std::bad_alloc();
        return a.which < b.which;
    }
    friend bool operator==(const fragile &a, const fragile &b) noexcept { return a.which == b.which; }

    int which;
    static long alive;
};
long fragile::alive = 0;

// Maps of values whose copies throw, and what asks for them.
static void copies_that_throw()
{
    {
        using map = range_map<int, fragile>;
        map few, many, none;
        for (int i = 0; i < 5; i++) few.insert(10 * i, 10 * i + 8, fragile(i));
        for (int i = 0; i < 90; i++) many.insert(3 * i, 3 * i + 2, fragile(i % 64));
        until_done(none, "insert a value", [](map &it) { it.insert(3, 5, fragile(7)); });
        until_done(many, "insert one into a full list of values", [](map &it) { it.insert(3, 5, fragile(100)); });
        until_done(few, "one value for others", [](map &it) { it.insert(3, 45, fragile(9)); });
        until_done(few, "a value that stands there", [](map &it) { it.insert_from(12, fragile(0)); });
        until_done(many, "values taken away", [](map &it) { it.remove(4, 200); });
        until_done(none, "a copy of values", [&](map &it) { it = many; });
        const auto sum = [](const fragile *a, const fragile *b) {
            return std::optional<fragile>(fragile((a != nullptr ? a->which : 0) + (b != nullptr ? b->which : 0)));
        };
        until_done(few, "values of two maps", [&](map &it) { it = it.combine(many, sum); });
        until_done(few, "values of two maps, as they are", [&](map &it) {
            it = it.combine(many, [](const fragile *a, const fragile *b) { return std::optional<fragile>(b != nullptr ? *b : *a); });
        });
        until_done(few, "values of another map", [&](map &it) { it.insert_all(many); });
        until_done(few, "values where there are none", [&](map &it) { it.insert_where_free(many); });
        until_done(many, "values that go", [](map &it) { it.retain([](const fragile &which) { return fragile(which).which < 5; }); });
        until_done(many, "values of keys that go", [](map &it) { it.remove_all({{1, 2}, {20, 70}}); });
        until_done(few, "values that change", [&](map &it) { it.update(3, 50, [&](const fragile *a) { return sum(a, a); }); });
        until_done(few, "a value that changes", [](map &it) { it.modify(12, [](fragile &which) { which = fragile(77); }); });
        for (const auto &call : {&map::first, &map::last}) {
            long met = 0;
            for (bool thrown = true; thrown; met++) {
                thrown = false;
                const long before = fragile::alive;
                left = met;
                try {
                    const auto it = (few.*call)();
                    left = -1;
                    check(it && it == few.range_at(it->first.start), "the value of the first or the last range");
                } catch (const std::bad_alloc &) {
                    thrown = true;
                }
                left = -1;
                check(fragile::alive == before, "a copy that throws leaves none");
            }
            check(met > 1, "copies of the first and the last value");
        }
    }
    check(fragile::alive == 0, "all values are let go");
}

// How many blocks the library has by the allocator of these.
static long blocks;

static void *allocate(void *, std::size_t size)
{
    if (!is_met()) return nullptr;
    blocks++;
    return __real_malloc(size);
}

static void *resize(void *, void *memory, std::size_t, std::size_t size)
{
    return is_met() ? __real_realloc(memory, size) : nullptr;
}

static void release(void *, void *memory, std::size_t)
{
    blocks--;
    std::free(memory);
}

// A copy of a map in chunks that is refused memory gives back what it took.
template <class V> static void gives_back(V few[5])
{
    const range_set_allocator counting = {allocate, resize, release, nullptr};
    range_set_use_allocator(&counting);
    {
        range_map<std::int64_t, V> map;
        for (int i = 0; i < 200; i++) map.insert(10 * i, 10 * i + 5, few[i % 5]);
        const long before = blocks;
        bool thrown = true;
        for (long met = 0; thrown; met++) {
            thrown = false;
            left = met;
            try {
                const range_map<std::int64_t, V> copy(map);
                left = -1;
                check(met > 2 && copy == map, "a copy in chunks");
            } catch (const std::bad_alloc &) {
                thrown = true;
            }
            left = -1;
            check(blocks == before, "a copy that is refused gives back what it took");
        }
        const range_map<std::int64_t, V> none;
        until_done(none, "a map of a list", [&](range_map<std::int64_t, V> &it) { it = {{1, 3, few[0]}, {7, 9, few[1]}}; });
        check(blocks == before, "a list that is refused gives back what it took");
        const auto first = [](const V *a, const V *b) { return std::optional<V>(a != nullptr ? *a : *b); };
        until_done(none, "a map of two maps", [&](range_map<std::int64_t, V> &it) { it = map.combine(none, first); });
        check(blocks == before, "two maps that are refused one give back what they took");
    }
    check(blocks == 0, "all is given back");
    range_set_use_allocator(nullptr);
}

int main()
{
    int numbers[] = {0, 1, 2, 3, 4};
    std::vector<int> lists[] = {{0}, {1}, {2}, {3}, {4}};
    gives_back(numbers);
    gives_back(lists);
    all<std::int32_t>();
    all<std::uint32_t>();
    all<std::int64_t>();
    all<std::uint64_t>();
    copies_that_throw();
    std::printf("test_refused: %ld checks, %ld requests refused\n", checks, refused);
    return 0;
}
