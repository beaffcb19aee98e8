// Tests of range_map.hpp: rows with their answers written out, and made-up changes beside an array of each key's value.
#include "checking.h"
#include "range_map.hpp"

#include <algorithm>
#include <chrono>
#include <cmath>
#include <cstdio>
#include <cstdlib>
#include <cstring>
#include <limits>
#include <set>
#include <string>

using range_sets::chunked_range_set;
using range_sets::from;
using range_sets::range;
using range_sets::range_map;
using range_sets::range_set;

enum class color : unsigned char { red, green, blue };
static const int somewhere[3] = {};

// Three values of a type, which differ.
template <class V> static V value(unsigned which)
{
    if constexpr (std::is_same_v<V, std::string>) return std::string(1 + which, 'x');
    else if constexpr (std::is_pointer_v<V>) return &somewhere[which];
    else if constexpr (std::is_same_v<V, double>) return which - 0.5;
    else if constexpr (std::is_signed_v<V>) return static_cast<V>(-1 - V(which));
    else return static_cast<V>(which);
}

// Which of the three it is, or 3 if there is none.
template <class V> static unsigned which_of(const V *it)
{
    unsigned which = 0;
    while (which < 3 && !(it != nullptr && *it == value<V>(which))) which++;
    return which;
}

// An iteration reads some ranges at a time. The last of these may be the last of all, and may have no end.
template <class T, class V> static void iterations()
{
    range_map<T, V> some;
    for (T len = 0; len < 50; len++) {
        const T start = static_cast<T>(3 * len), end = static_cast<T>(start + 2);
        T at = 0;
        for (const auto &[keys, found] : some) {
            check(keys == range<T>{at, static_cast<T>(at + 2), true} && found == value<V>(unsigned(at) % 2), "an iteration");
            at = static_cast<T>(at + 3);
        }
        check(at == start, "an iteration over all ranges");
        some.insert_from(start, value<V>(unsigned(start) % 2));
        auto it = some.begin();
        for (T before = 0; before < len; before++) check(it != some.end() && it++->first.has_end, "an iteration up to the last range");
        check(it->first == range<T>{start, 0, false} && ++it == some.end(), "an iteration over a range without an end");
        some.remove_from(end);
    }
}

template <class T, class V> static void rows()
{
    using map = range_map<T, V>;
    using item = typename map::value_type;
    const V a = value<V>(0), b = value<V>(1), c = value<V>(2);
    const T least = std::numeric_limits<T>::min(), most = std::numeric_limits<T>::max();
    map some = {{9, 12, a}, {11, 14, b}};
    check(some.size() == 2 && !some.empty() && some.contains(9) && !some.contains(14), "a map of entries");
    check(some.get(10) == a && some.get(11) == b && !some.get(8) && !some.get(14), "get");
    check(some.range_at(13) == item({11, 14, true}, b) && !some.range_at(14), "range_at");
    check(some.first() == item({9, 11, true}, a) && some.last() == item({11, 14, true}, b), "first, last");
    check(some.span() == range<T>{9, 14, true} && !map().first() && !map().last() && !map().span(), "span");
    some.insert(14, 17, b).remove(12, 13).insert_from(20, a);
    check(some.range_at(16) == item({13, 17, true}, b) && some.range_at(most) == item({20, 0, false}, a), "ranges that touch are one");
    check(some.last() == item({20, 0, false}, a) && some.span() == range<T>{9, 0, false}, "a last range without an end");
    check(some.domain() == range_set<T>{{9, 12}, {13, 17}}.insert_from(20), "domain");
    check(some.where_equal(b) == range_set<T>{{11, 12}, {13, 17}} && some.where_equal(c).empty(), "where_equal");
    check(some.gaps(8, 19) == range_set<T>{{8, 9}, {12, 13}, {17, 19}} && some.gaps(9, 9).empty(), "gaps");
    check(some.overlapping(10, 14) == std::vector<item>{{{9, 11, true}, a}, {{11, 12, true}, b}, {{13, 17, true}, b}}, "overlapping");
    check(some.overlapping(17, 20).empty() && some.overlapping(14, 10).empty() && some.overlapping(30, 40).size() == 1
              && some.overlapping(16, 15).empty() && some.overlapping(10, 10).empty(),
        "overlapping none");
    std::size_t count = 0;
    for (const auto &[keys, found] : some) count += keys.has_end && some.get(keys.end - 1) == found;
    check(count == 3, "an iteration");
    auto it = some.begin_from(12);
    check(it->first == range<T>{13, 17, true} && it->second == b && (it++)->first.start == 13 && (*it).second == a, "begin_from");
    check(++it == some.end() && it == typename map::iterator() && some.begin() != some.end(), "an iterator past the last range");
    map copy(some), moved(std::move(some)), other;
    check(some.empty() && some.begin() == some.end() && copy == moved && copy != other, "copies");
    other = copy;
    other.remove_from(11).insert(range<T>{12, 0, false}, c).remove(range<T>{30, 0, false}).remove(range<T>{20, 22, true});
    check(copy == moved && other == map({{9, 11, a}, {12, 20, c}, {22, 30, c}}), "a copy of its own");
    other.insert(range<T>{9, 30, true}, b).clear();
    check(other.empty() && other == map() && other.insert(3, 3, a).empty() && other.insert(5, 3, a).empty(), "cleared, and no keys");
    check(!other.first() && !other.last() && !other.span(), "neither first nor last");
    other.insert(least, static_cast<T>(least + 1), a).insert_from(most, b).remove(5, 5);
    check(
        other.size() == 2 && other.get(least) == a && other.get(most) == b && other.begin()->first.start == least, "the ends of the type");
    check(other.domain().contains(most) && other.range_at(least)->first == range<T>{least, static_cast<T>(least + 1), true}, "there");
    check(other.first() == item({least, static_cast<T>(least + 1), true}, a) && other.last() == item({most, 0, false}, b)
              && other.span() == range<T>{least, 0, false},
        "first and last at the ends of the type");
    other.remove_from(most);
    check(other.last() == other.first()
              && other.insert(static_cast<T>(most - 1), most, c).last() == item({static_cast<T>(most - 1), most, true}, c),
        "a last range below the last key");
    other.insert_from(least, c);
    check(other.first() == other.last() && other.span() == range<T>{least, 0, false}, "a range of all keys");
}

// Maps that are combined, beside their answers.
template <class T, class V> static void combined()
{
    using map = range_map<T, V>;
    const V a = value<V>(0), b = value<V>(1), c = value<V>(2);
    const auto left = [](const V *x, const V *y) { return std::optional<V>(x != nullptr ? *x : *y); };
    const auto right = [](const V *x, const V *y) { return std::optional<V>(y != nullptr ? *y : *x); };
    const map some = {{9, 12, a}, {14, 17, b}}, more = {{11, 15, c}, {17, 20, b}};
    check(some.combine(more, left) == map({{9, 12, a}, {12, 14, c}, {14, 20, b}}), "the left value, and ranges that come to touch");
    check(some.combine(more, right) == map({{9, 11, a}, {11, 15, c}, {15, 20, b}}), "the right value");
    check(some.combine(map(), left) == some && map().combine(some, left) == some && some.combine(some, right) == some,
        "with none, with itself");
    long calls = 0;
    const auto none = [&calls](const V *, const V *) -> std::optional<V> {
        calls++;
        return std::nullopt;
    };
    check(map().combine(map(), none).empty() && calls == 0, "two maps without a value");
    check(some.combine(more, none).empty() && calls == 6, "once for each part that has a value in one of both");
    const range_set<T> set = {{10, 12}, {16, 30}};
    range_map<T, bool> kept;
    for (const auto &it : set) kept.insert(it, true);
    const auto within = [](const V *x, const bool *is_kept) {
        return is_kept != nullptr && x != nullptr ? std::optional<V>(*x) : std::nullopt;
    };
    check(some.combine(kept, within) == map({{10, 12, a}, {16, 17, b}}), "values of two types, which both have to be there");
    const T least = std::numeric_limits<T>::min(), most = std::numeric_limits<T>::max();
    map low, high;
    low.insert_from(least, a), high.insert_from(most, b);
    check(low.combine(high, right) == map(low).insert_from(most, b) && high.combine(low, right) == low, "all keys, and the last one");
    check(low.combine(map({{3, 5, c}}), right) == map(low).insert(3, 5, c), "ends within all keys");
}

// Changes of several ranges, each beside what is left.
template <class T, class V> static void changed()
{
    using map = range_map<T, V>;
    const V a = value<V>(0), b = value<V>(1), c = value<V>(2);
    const map some = {{9, 12, a}, {14, 17, b}}, more = {{11, 15, c}, {17, 20, b}}, open = map({{9, 10, a}}).insert_from(16, b);
    map same(some);
    check(map(some).insert_all(more) == map({{9, 11, a}, {11, 15, c}, {15, 20, b}}), "insert_all");
    check(map(some).insert_all({{10, 15, b}}) == map({{9, 10, a}, {10, 17, b}}) && map(some).insert_all({}) == some, "one, none");
    check(map(some).insert_all(open).remove_from(20) == map({{9, 12, a}, {14, 20, b}}), "insert_all, open");
    check(map(some).insert_where_free(more) == map({{9, 12, a}, {12, 14, c}, {14, 20, b}}), "insert_where_free");
    check(map(more).insert_where_free(open) == map({{9, 10, a}, {11, 15, c}}).insert_from(16, b), "insert_where_free, open");
    check(same.insert_all(same) == some && same.insert_where_free(same) == some, "a map into itself");
    check(map(some).remove_all({{10, 11}, from(16)}) == map({{9, 10, a}, {11, 12, a}, {14, 16, b}}), "remove_all");
    check(map(some).remove_all(chunked_range_set<T>{{0, 15}}) == map({{15, 17, b}}) && map(some).remove_all({}) == some, "chunks, none");
    check(map(some).retain_all({{10, 11}, from(16)}) == map({{10, 11, a}, {16, 17, b}}), "retain_all");
    check(map(some).retain_all(more.domain()) == map({{11, 12, a}, {14, 15, b}}) && map(some).retain_all({}).empty(), "keys, none");
    check(map(some).retain([&](const V &it) { return it == a; }) == map({{9, 12, a}}), "retain");
    check(map(some).retain_ranges([](const auto &at, const auto &) { return at.start > 9; }) == map({{14, 17, b}}), "retain_ranges");
    const auto turned = [&](const V *it) { return it == nullptr ? std::optional(c) : *it == a ? std::optional(b) : std::nullopt; };
    check(map(some).update(11, 15, turned) == map({{9, 11, a}, {11, 12, b}, {12, 14, c}, {15, 17, b}}), "update");
    check(map(some).update(10, 11, turned) == map({{9, 10, a}, {10, 11, b}, {11, 12, a}, {14, 17, b}}), "update of one range");
    check(map(some).update(14, 16, turned) == map({{9, 12, a}, {16, 17, b}}) && map(some).update(11, 11, turned) == some, "away, no key");
    check(map(some).update(from(15), turned) == map({{9, 12, a}, {14, 15, b}}).insert_from(17, c), "update, open");
    const auto to_b = [&](V &it) { it = b; };
    check(same.modify(10, to_b) && same == map({{9, 12, b}, {14, 17, b}}) && !same.modify(12, to_b) && same.size() == 2, "modify");
    check(some.part(11, 15) == map({{11, 12, a}, {14, 15, b}}) && some.part(15, 11).empty(), "part");
    check(some.part(from(10)) == map({{10, 12, a}, {14, 17, b}}) && open.part(from(17)) == map().insert_from(17, b), "part, open");
}

// What maps are made of, and what they answer of parts, as their domain does.
template <class T, class V> static void asked()
{
    using map = range_map<T, V>;
    using item = typename map::value_type;
    const V a = value<V>(0), b = value<V>(1);
    const map some = {{9, 12, a}, {12, 14, b}, {16, 17, a}};
    const std::vector<item> items(some.begin(), some.end());
    const std::vector<std::pair<std::pair<int, short>, V>> pairs = {{{9, 17}, a}, {{12, 16}, b}, {{14, 16}, b}};
    static_assert(!std::is_constructible_v<map, std::vector<std::pair<std::pair<double, double>, V>>>, "of ranges that would be cut");
    check(map(items) == some && map(items.begin() + 1, items.end()) == some.part(12, 17), "a map of a vector");
    check(map(some.begin(), some.end()) == some && range_map<T, std::optional<V>>(some).size() == 3, "of another map");
    check(map(pairs).remove(14, 16) == some && map(std::vector<item>()).empty(), "of pairs");
    check(some.keys() == std::vector<range<T>>{{9, 12}, {12, 14}, {16, 17}} && some.values() == std::vector<V>{a, b, a}, "keys, values");
    check(map().keys().empty() && map().values().empty(), "no keys, no values");
    const range_set<T> keys = some.domain();
    check(some.covered() == 6u && map().covered() == 0u && !map(some).insert_from(30, a).covered(), "covered");
    for (T start = 8; start < 19; start++)
        for (T end = 8; end < 20; end++) {
            const range<T> within = {start, end, end < 19};
            check(some.contains_range(start, end) == keys.contains_range(start, end), "contains_range");
            check(some.intersects_range(start, end) == keys.intersects_range(start, end), "intersects_range");
            for (unsigned count = 0; count < 4; count++) {
                check(some.first_fit(within, count) == keys.first_fit(within, count), "first_fit");
                check(some.first_fit_aligned(within, 1, count) == keys.first_fit_aligned(within, 1, count), "first_fit_aligned");
            }
        }
    const T most = std::numeric_limits<T>::max();
    check(some.first_fit(from(most - 1), 2) == most - 1 && !some.first_fit(from(most - 1), 3), "first_fit: the greatest key");
    check(!map(some).insert_from(most, a).first_fit(from(most - 1), 2) && some.first_fit(9, 17, 2) == T(14), "first_fit: it has a value");
    using depth = range_map<T, unsigned char>;
    const std::vector<std::pair<T, T>> ranges = {{0, 5}, {3, 9}, {7, 7}, {4, 6}};
    check(depth::depth(ranges) == depth({{0, 3, 1}, {3, 4, 2}, {4, 5, 3}, {5, 6, 2}, {6, 9, 1}}), "depth");
    check(depth::depth({{5, 7}, from(6)}) == depth({{5, 6, 1}, {6, 7, 2}}).insert_from(7, 1) && depth::depth({}).empty(), "depth, open");
    check(depth::depth(keys) == depth({{9, 14, 1}, {16, 17, 1}}), "depth of a set");
}

template <class T, class V> static void made_up()
{
    constexpr unsigned keys = 40;
    for (int round = 0; round < 20; round++) {
        range_map<T, V> map;
        std::vector<std::optional<V>> wanted(keys);
        for (int step = 0; step < 30; step++) {
            const range_map<T, V> before(map);
            const std::vector<std::optional<V>> wanted_before(wanted);
            const unsigned start = random_below(keys), end = random_below(keys), which = random_below(4);
            for (unsigned at = start; at < end; at++) wanted[at] = which < 3 ? std::optional<V>(value<V>(which)) : std::nullopt;
            if (which < 3) map.insert(start, end, value<V>(which));
            else map.remove(start, end);
            std::size_t ranges = 0;
            for (unsigned at = 0; at < keys; at++) {
                check(map.get(at) == wanted[at] && map.contains(at) == wanted[at].has_value(), "made up: get");
                check(map.domain().contains(at) == wanted[at].has_value(), "made up: domain");
                check(map.where_equal(value<V>(1)).contains(at) == (wanted[at] == value<V>(1)), "made up: where_equal");
                ranges += wanted[at] && (at == 0 || wanted[at] != wanted[at - 1]);
            }
            check(map.size() == ranges && std::distance(map.begin(), map.end()) == std::ptrdiff_t(ranges), "made up: how many");
            check(map == range_map<T, V>(map), "made up: a copy");
            const auto both = before.combine(map, [](const V *a, const V *b) {
                check(a != nullptr || b != nullptr, "made up: a value in one of both");
                return which_of(a) != which_of(b) ? std::optional(4 * which_of(a) + which_of(b)) : std::nullopt;
            });
            for (unsigned at = 0; at < keys; at++) {
                const auto which_at = [at](const std::vector<std::optional<V>> &of) { return which_of(of[at] ? &*of[at] : nullptr); };
                const unsigned one = which_at(wanted_before), other = which_at(wanted);
                check(both.get(at) == (one != other ? std::optional(4 * one + other) : std::nullopt), "made up: combine");
            }
            const unsigned from = random_below(keys), below = random_below(keys);
            const auto put = range_map<T, V>(before).insert_all(map), free = range_map<T, V>(before).insert_where_free(map);
            const auto kept = range_map<T, V>(before).retain_all(map.domain()), rest = range_map<T, V>(before).remove_all(map.domain());
            const auto next = [](const V *it) { return which_of(it) < 2 ? std::optional(value<V>(which_of(it) + 1)) : std::nullopt; };
            const auto updated = range_map<T, V>(before).update(from, below, next);
            for (unsigned at = 0; at < keys; at++) {
                const std::optional<V> &one = wanted_before[at], &other = wanted[at], none;
                check(put.get(at) == (other ? other : one) && free.get(at) == (one ? one : other), "made up: insert_all");
                check(kept.get(at) == (other ? one : none) && rest.get(at) == (other ? none : one), "made up: retain_all and remove_all");
                check(updated.get(at) == (from <= at && at < below ? next(one ? &*one : nullptr) : one), "made up: update");
            }
            const auto first = map.domain().first(), last = map.domain().last();
            check(first.has_value() == map.first().has_value() && last.has_value() == map.last().has_value(), "made up: first and last");
            check(!first || (map.first() == map.range_at(first->start) && map.last() == map.range_at(last->end - 1)), "made up: which");
            check(!first || map.span() == range<T>{first->start, last->end, true}, "made up: span");
        }
    }
}

// A value that is counted.
struct counted {
    explicit counted(int it) noexcept : which(it) { alive++; }
    counted(const counted &other) noexcept : which(other.which) { alive++; }
    counted &operator=(const counted &) = default;
    ~counted() { alive--; }
    friend bool operator<(const counted &a, const counted &b) noexcept { return a.which < b.which; }
    friend bool operator==(const counted &a, const counted &b) noexcept { return a.which == b.which; }

    int which;
    static long alive;
};
long counted::alive = 0;

// Of many values those stay that a range has, once each, and no others.
static void many_values()
{
    {
        range_map<std::int64_t, counted> map, copy;
        for (int i = 0; i < 3000; i++) {
            const unsigned start = random_below(60), end = random_below(60), which = random_below(40);
            switch (random_below(8)) {
            case 0: map.remove(start, end); break;
            case 1: map.insert_from(start, counted(static_cast<int>(which))); break;
            case 2: map.remove_from(start); break;
            default: map.insert(start, end, counted(static_cast<int>(which)));
            }
            if (i % 50 == 0) copy = map;
            long alive = 0;
            for (const auto *it : {&map, &copy}) {
                std::set<int> values;
                for (const auto &[keys, value] : *it) values.insert(value.which);
                alive += static_cast<long>(values.size());
            }
            check(counted::alive == alive, "values that no range has are gone, and the others stand once");
        }
        map.clear();
        copy.remove_from(0);
        check(counted::alive == 0 && map.empty() && copy.empty(), "no values");
    }
    check(counted::alive == 0, "all values are let go");
}

// Two floating-point numbers with the same bits, and another.
template <class V> static bool are_same(const std::optional<V> &a, V b)
{
    return a && std::memcmp(&*a, &b, sizeof(V)) == 0;
}

// Floating-point numbers stand in the map to the bit, and ranges are one where `==` says that their values are equal.
template <class V> static void floating()
{
    using limits = std::numeric_limits<V>;
    const V nan = limits::quiet_NaN();
    const V values[] = {0, -V(0), V(1.5), -V(1.5), nan, -nan, std::copysign(nan, V(1)), limits::signaling_NaN(), limits::infinity(),
        -limits::infinity(), limits::denorm_min(), -limits::denorm_min(), limits::min(), limits::max(), limits::lowest(), V(0.1)};
    int at = 0;
    range_map<int, V> map;
    for (const V &it : values) {
        for (const V &other : values) {
            map.insert(at, at + 2, it).insert(at + 4, at + 6, other);
            check(are_same(map.get(at), it) && are_same(map.get(at + 5), other), "a value beside others");
            map.insert(at, at + 2, other);
            check(are_same(map.get(at), other) || (it == 0 && other == 0), "a value after another");
            map.insert_from(at + 2, it);
            check(map.get(at + 9) == it || (it != it && are_same(map.get(at + 9), it)), "a value up to the last key");
            check((map.range_at(at + 2)->first.start == at) == (other == it), "a neighbour");
            map.remove_from(at + 8);
            at += 10;
        }
    }
    map.clear();
    map.insert(0, 4, nan).insert(4, 8, nan).insert(2, 3, V(7)).insert(2, 3, nan);
    check(map.size() == 4 && map != map && map.where_equal(nan).empty() && range_map<int, V>(map).size() == 4, "no NaN joins");
    map.remove(0, 8).insert(0, 4, 0).insert(6, 8, -V(0)).insert(4, 6, -V(0));
    check(map.size() == 1 && are_same<V>(map.get(7), 0) && map.where_equal(-V(0)) == range_set<int>{{0, 8}}, "two zeros join");
    map.insert(2, 3, -V(0)).insert(20, 20, 0).insert(8, 7, -V(0)).insert_from(8, -V(0));
    check(map.size() == 1 && are_same<V>(map.get(2), 0) && map.last()->first == range<int>{0, 0, false}, "within, and up to the last key");
    // Each key's value, and for a NaN which change brought it.
    std::vector<std::pair<V, int>> wanted(30, {5, 0});
    map = {{0, 30, 5}};
    for (int step = 1; step < 2000; step++) {
        const unsigned start = random_below(31), end = random_below(31);
        const V value = values[random_below(6)];
        map.insert(start, end, value);
        for (unsigned key = start; key < end; key++) wanted[key] = {value, step};
        std::ptrdiff_t ranges = 0;
        for (unsigned key = 0; key < 30; key++) {
            const auto &[is, by] = wanted[key];
            check(is == is ? map.get(key) == is : are_same(map.get(key), is), "made up: a value");
            ranges += key == 0 || (is == is || by != wanted[key - 1].second ? is != wanted[key - 1].first : false);
        }
        check(std::distance(map.begin(), map.end()) == ranges && map.size() == std::size_t(ranges), "made up: how many ranges");
    }
    range_sets::detail::values<V> held;
    for (const V &it : values) held.let_go(held.hold(it));
    check(!held.has_holders(), "no NaN stays that none holds");
}

// A `<` that is no strict weak order, as of numbers with a NaN among them: keys may have the values of others, and no memory is lost.
struct partly : counted {
    using counted::counted;
    friend bool operator<(const partly &a, const partly &b) noexcept { return a.which % 3 != 0 && b.which % 3 != 0 && a.which < b.which; }
};

static void orders_that_lie()
{
    {
        range_map<int, partly> map;
        for (int i = 0; i < 2000; i++) {
            const int start = static_cast<int>(random_below(50)), which = static_cast<int>(random_below(20));
            const bool contained = map.contains(start);
            map.insert(start, start + which, partly(which)).remove(start + 3, start + 4);
            check(!map.get(start + 3) && map.contains(start) == (which > 0 || contained), "keys");
        }
        const auto copy = map.combine(map, [](const auto *a, const auto *) { return std::optional(*a); });
        check(copy.domain() == map.domain() && counted::alive > 0, "copied");
    }
    check(counted::alive == 0, "values of a lying order are let go");
}

// A million ranges in scrambled order, asked, saved as a list of entries and read back.
static void a_million_ranges()
{
    constexpr std::int64_t count = 1000000;
    const auto value_of = [](std::int64_t at) { return static_cast<std::uint64_t>(at % 7); };
    using map = range_map<std::int64_t, std::uint64_t>;
    map many;
    for (std::int64_t i = 0; i < count; i++) {
        const std::int64_t at = i * 7919 % count;
        many.insert(at * 20, at * 20 + 10, value_of(at));
    }
    std::vector<map::value_type> saved;
    for (const auto &[keys, value] : many) saved.emplace_back(keys, value);
    check(saved.size() == count && many.size() == count, "as many ranges");
    for (std::int64_t at = 0; at < count; at++) {
        check(saved[static_cast<std::size_t>(at)] == map::value_type({at * 20, at * 20 + 10, true}, value_of(at)), "each range in order");
        check(many.get(at * 20 + 9) == value_of(at) && !many.get(at * 20 + 10), "each is found");
    }
    map read;
    for (const auto &[keys, value] : saved) read.insert(keys, value);
    check(read == many && read.remove(0, 10) != many && read.size() == count - 1, "what is saved is read back");
}

template <class T, class V> static void both()
{
    rows<T, V>();
    combined<T, V>();
    changed<T, V>();
    asked<T, V>();
    made_up<T, V>();
}

// A value that says when it is gone.
struct lasting {
    int number;
    explicit lasting(int of) : number(of) {}
    lasting(const lasting &) = default;
    lasting &operator=(const lasting &) = default;
    ~lasting() { number = -1; }
    friend bool operator<(const lasting &a, const lasting &b) { return a.number < b.number; }
};

// A map is given one of its own values, by reference, also for all keys that have it.
static void its_own_values()
{
    range_map<int, lasting> map;
    map.insert(0, 5, lasting(7)).insert(0, 5, map.begin()->second).insert(-5, 9, map.begin()->second);
    check(map.size() == 1 && map.get(8)->number == 7 && map.insert_from(-9, map.begin()->second).get(-9)->number == 7, "its only one");
    map.clear();
    for (int i = 0; i < 500; i++) {
        map.insert(10 * i, 10 * i + 5, lasting(i));
        map.insert(10 * i + 7, 10 * i + 9, map.begin()->second);
        check(map.get(10 * i + 8)->number == 0 && map.get(10 * i)->number == i, "a value of its own");
    }
}

// A value that counts its copies.
struct copied {
    static long copies;
    int number;
    explicit copied(int of) : number(of) {}
    copied(const copied &other) : number(other.number) { copies++; }
    copied &operator=(const copied &) = default;
    friend bool operator<(const copied &a, const copied &b) { return comparisons++, a.number < b.number; }
    static long comparisons;
};
long copied::copies = 0, copied::comparisons = 0;

// A value is copied once, and a new one is compared with others alone, however many ranges have these.
static void few_copies()
{
    range_map<int, copied> map;
    for (int i = 0; i < 2000; i++) map.insert(10 * i, 10 * i + 5, copied(i));
    check(map.size() == 2000 && copied::copies == 2000, "few copies of values");
    for (int i = 0; i < 50000; i++) map.insert(10 * i, 10 * i + 5, copied(i % 2));
    copied::copies = copied::comparisons = 0;
    for (int i = 2; i < 1002; i++) map.insert(7, 9, copied(i));
    check(map.size() == 50001 && copied::copies == 1000 && copied::comparisons < 10 * 1000, "new values in a large map");
}

#ifdef __cpp_lib_ranges
// Iterators are C++20's too, also of values that they refer to.
static_assert(std::input_iterator<range_map<int, std::string>::iterator> && std::input_iterator<range_map<int, double>::iterator>, "");
static_assert(std::ranges::input_range<const range_map<int, std::string>> && std::ranges::common_range<range_map<char32_t, int>>, "");
static_assert(!std::input_iterator<int>, "");
#if !defined(__clang__) || __clang_major__ >= 16
static void views()
{
    const range_map<int, std::string> map = {{9, 12, "Ada"}, {12, 14, "Bob"}, {20, 22, "Ada"}};
    int hours = 0;
    for (const auto &[keys, who] : map | std::views::filter([](const auto &it) { return it.second == "Ada"; }))
        hours += keys.end - keys.start;
    check(hours == 5 && std::ranges::count(map, "Bob", [](const auto &it) { return it.second; }) == 1, "a view of some ranges");
    check(std::ranges::find_if(map, [](const auto &it) { return it.first.start > 12; })->first.end == 22, "one by its range");
}
#endif
#endif

// A map of times.
static void points_in_time()
{
    using namespace std::chrono_literals;
    using second = std::chrono::time_point<std::chrono::system_clock, std::chrono::seconds>;
    const second day{};
    range_map<second, std::string> map = {{day + 9h, day + 10h, "Ada"}};
    map.insert(day + 12h, day + 14h, "Bob").insert_from(day + 20h, "night");
    check(map.get(day + 9h) == "Ada" && !map.get(day - 1s) && map.range_at(day + 13h)->first.end == day + 14h, "the value of a time");
    check(map.overlapping(day, day + 13h).size() == 2 && map.overlapping(day + 13h, day).empty(), "times that overlap");
    check(map.domain().size() == 3 && map.where_equal("Bob").covered() == 7200u, "times that have a value");
    check(map.gaps(day + 9h, day + 14h) == (range_set<second>{{day + 10h, day + 12h}}), "times that have none");
    check(map.first()->second == "Ada" && map.last()->first.start == day + 20h && map.span() == range<second>{day + 9h, day, false},
        "the first and the last time");
    const auto lengths = map.combine(map, [](const std::string *a, const std::string *) { return std::optional(a->size()); });
    check(lengths.get(day + 13h) == 3u && lengths.get(day + 21h) == 5u && !lengths.get(day + 15h), "times of two maps");
    check(map.begin()->first.start == day + 9h && map.begin_from(day + 10h)->second == "Bob" && map.remove_from(day).empty(),
        "times in order");
}

// Keys below and above half of the greatest one, which are in the order of their type.
template <class T, class V> static void around_the_middle()
{
    using map = range_map<T, V>;
    const V a = value<V>(0), b = value<V>(1);
    const T most = std::numeric_limits<T>::max(), half = most / 2, next = half + 3;
    const auto left = [](const V *x, const V *y) { return std::optional<V>(x != nullptr ? *x : *y); };
    const map below = {{1, half, a}}, over = {{5, next, b}}, above = {{next, most, a}};
    check(below.combine(over, left) == map({{1, half, a}, {half, next, b}}), "the left one's end is below the other's");
    check(over.combine(below, left) == map({{1, 5, a}, {5, next, b}}), "the left one's end is above the other's");
    check(below.combine(above, left) == map({{1, half, a}, {next, most, a}}), "two ranges apart");
    check(!below.empty() && below.size() == 1 && below.first() == below.last() && below.span() == range<T>{1, half, true}, "one range");
    check(below != over && below != map({{1, half, b}}) && below != map({{1, next, a}}) && !(below == above), "maps of one range");
    map both = below.combine(over, left).combine(above, left);
    check(both == map({{1, half, a}, {half, next, b}, {next, most, a}}) && both.size() == 3, "three ranges that touch");
    check(both.first()->first == range<T>{1, half, true} && both.last()->first == range<T>{next, most, true}, "first, last");
    check(both.span() == range<T>{1, most, true} && both.domain() == range_set<T>{{1, most}}, "span, domain");
    check(both.overlapping(half, next).size() == 1 && both.overlapping(half - 1, next + 1).size() == 3, "overlapping");
    both.remove(half, next);
    check(both.gaps(1, most) == range_set<T>{{half, next}} && both.begin_from(half)->first.start == next, "gaps, begin_from");
}

int main()
{
    both<std::int64_t, std::uint64_t>();
    both<std::uint64_t, int>();
    both<int, std::string>();
    both<unsigned, color>();
    both<long long, const int *>();
    both<unsigned long, double>();
    rows<char32_t, char>();
    iterations<int, std::string>();
    iterations<std::uint64_t, int>();
    combined<char32_t, char>();
    many_values();
    floating<double>();
    floating<float>();
    orders_that_lie();
#if defined(__cpp_lib_ranges) && (!defined(__clang__) || __clang_major__ >= 16)
    views();
#endif
    its_own_values();
    few_copies();
    points_in_time();
    around_the_middle<std::uint64_t, int>();
    around_the_middle<unsigned, std::string>();
    around_the_middle<std::int64_t, std::uint64_t>();
    a_million_ranges();
    std::printf("test_maps: %ld checks\n", checks);
    return 0;
}
