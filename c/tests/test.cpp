// Tests of range_set.hpp: each call on rows with their answers written out, and the operators against std::set on made-up cases.
#include "checking.h"
#include "range_set.hpp"

#include <algorithm>
#include <chrono>
#include <cstddef>
#include <cstdio>
#include <cstdint>
#include <cstdlib>
#include <functional>
#include <initializer_list>
#include <iterator>
#include <limits>
#include <map>
#include <set>
#include <sstream>
#include <stdexcept>
#include <string>
#include <type_traits>
#include <unordered_set>
#include <utility>
#include <vector>

using range_sets::chunked_range_set;
using range_sets::from;
using range_sets::range;
using range_sets::range_set;
using range_sets::range_set_view;

// How many requests for memory are met before one is refused; all if it is negative.
static long left = -1;

[[gnu::noinline]] void *operator new(std::size_t size)
{
    // The malloc of a sanitizer ends the process where more is asked for than there can be.
    const bool refused = left == 0 || size > std::size_t(std::numeric_limits<std::ptrdiff_t>::max());
    void *const memory = refused ? nullptr : std::malloc(size > 0 ? size : 1);
    if (memory == nullptr) throw std::bad_alloc();
    if (left > 0) left--;
    return memory;
}

[[gnu::noinline]] void *operator new[](std::size_t size)
{
    return ::operator new(size);
}

// A sanitizer has one of its own in place of std's, which calls the one above.
[[gnu::noinline]] void *operator new[](std::size_t size, const std::nothrow_t &) noexcept
try {
    return ::operator new(size);
} catch (const std::bad_alloc &) {
    return nullptr;
}

[[gnu::noinline]] void operator delete(void *memory) noexcept
{
    std::free(memory);
}

[[gnu::noinline]] void operator delete(void *memory, std::size_t) noexcept
{
    std::free(memory);
}

[[gnu::noinline]] void operator delete[](void *memory) noexcept
{
    std::free(memory);
}

[[gnu::noinline]] void operator delete[](void *memory, std::size_t) noexcept
{
    std::free(memory);
}

template <class T, class Set = range_set<T>> static std::string text(const Set &set)
{
    std::string text;
    for (auto [start, end, has_end] : set) {
        text += (text.empty() ? "" : " ") + std::to_string(start) + "..";
        if (has_end) text += std::to_string(end);
    }
    return text;
}

// Where numbers fit, and are members, in a range that has no end or has the greatest number for one.
template <class T> void fits_to_the_end()
{
    using range_sets::from;
    const T most = std::numeric_limits<T>::max();
    const range_set<T> set{{most - 5, most - 3}};
    range_sets::chunked_range_set<T> chunks(set);
    const range<T> last = from(most - 5), few = from(most - 2), all = from(T(0)), below = {most - 5, most, true};
    const struct {
        range<T> within;
        unsigned count, align;
        std::optional<T> fit, aligned, run;
    } rows[] = {{last, 4, 4, most - 3, most - 3, {}}, {last, 2, 2, most - 3, most - 3, most - 5}, {few, 4, 1, {}, {}, {}},
        {few, 2, 2, most - 2, most - 1, {}}, {few, 0, 0, most - 2, {}, most - 2}, {all, 2, 3, T(0), T(0), most - 5},
        {below, 4, 1, {}, {}, {}}, {below, 3, 1, most - 3, most - 3, {}}, {below, 2, 4, most - 3, most - 3, most - 5}};
    for (const auto &row : rows) {
        check(
            set.first_fit(row.within, row.count) == row.fit && chunks.first_fit(row.within, row.count) == row.fit, "first_fit in a range");
        check(set.first_fit_aligned(row.within, row.count, row.align) == row.aligned
                  && chunks.first_fit_aligned(row.within, row.count, row.align) == row.aligned,
            "first_fit_aligned in a range");
        check(
            set.first_run(row.within, row.count) == row.run && chunks.first_run(row.within, row.count) == row.run, "first_run in a range");
    }
    check(set.first_fit(from(most - 5), 4) == most - 3 && chunks.first_fit(from(9), 4) == T(9), "first_fit from a number on");
    // The addresses of 255.255.255.128/25, where T is unsigned.
    const range_set<T> taken{{T(0), most - 127}};
    check(taken.first_fit_aligned(from(0), 128, 128) == most - 127 && !taken.first_fit_aligned(from(0), 129, 1), "the last block");
}

template <class T> static void rows()
{
    // What can be gone over once only makes no set, since it would be gone over twice.
    using pair = std::pair<T, T>;
    static_assert(!std::is_constructible_v<range_set<T>, std::istream_iterator<pair>, std::istream_iterator<pair>>, "once only");
    static_assert(std::is_constructible_v<range_set<T>, const pair *, const pair *>, "an array");
    const range_set<T> day = {{9, 17}}, busy = {{12, 15}, {9, 10}, {10, 11}, {16, 16}, {9, 4}}, nothing;
    const T boundaries[] = {0, 10, 20}, turned[] = {3, 2};
    const auto open = range_set_view<T>::of(boundaries, 3);
    check(open && !range_set_view<T>::of(turned, 2), "of");
    check(text<T>(busy) == "9..11 12..15" && text<T>(day - busy) == "11..12 15..17", "difference");
    check(text<T>(*open) == "0..10 20.." && text<T>(*open & day) == "9..10", "intersection");
    check(text<T>(day | *open) == "0..17 20.." && text<T>(day ^ *open) == "0..9 10..17 20..", "union and symmetric difference");
    check(~~day == day && ~nothing == ~(day ^ day) && (~nothing).is_all() && !(~day).is_all(), "negation");
    check(day != busy && busy == range_set<T>(std::vector<std::pair<T, T>>{{9, 11}, {12, 15}}), "equality");
    check(busy == range_set<T>(std::map<T, T>{{9, 11}, {12, 15}}), "a set of a map");
    check(day.contains(16) && !day.contains(17) && open->contains(1000), "contains");
    const T hours[] = {8, 9, 16, 17};
    bool within[] = {true, true, true, true};
    check(day.contains_each(hours, 4, within) && !within[0] && within[1] && within[2] && !within[3], "contains_each");
    check(!day.contains_each(hours, 4, nullptr) && !day.view().contains_each(nullptr, 1, within), "contains_each of null");
    check(day.contains_range(9, 17) && !day.contains_range(9, 18), "contains_range");
    check(day.intersects_range(8, 10) && !day.intersects_range(17, 20) && !day.intersects_range(12, 12), "intersects_range");
    check(
        range_set<T>::from_values({14, 9, 12, 10, 13, 9}) == busy && range_set<T>::from_values(std::vector<T>()) == nothing, "from_values");
    check(range_set<T>::from_values(std::set<T>{std::numeric_limits<T>::max()}).last()->has_end == false, "from_values: the greatest");
    range_set<T> late = day;
    check(
        text<T>(late.insert_from(20).remove_from(30).insert_from(14)) == "9.." && text<T>(late.remove_from(12)) == "9..12", "open ranges");
    check(day.next_member(3) == 9 && day.next_gap(9) == 17 && !day.next_member(17) && day.next_gap(20) == 20, "next ones");
    check(day.prev_member(30) == 16 && day.prev_gap(12) == 8 && !day.prev_member(8) && day.prev_gap(17) == 17, "previous ones");
    check(day.select(3) == 12 && !day.select(8), "select");
    check(day.rank(12) == 3 && day.rank(30) == 8 && nothing.rank(12) == 0, "rank");
    const auto all = busy.members();
    check(std::vector<T>(all.begin(), all.end()) == std::vector<T>{9, 10, 12, 13, 14}, "members");
    std::vector<T> back;
    for (auto it = all.end(); it != all.begin();) back.push_back(*--it);
    check(back == std::vector<T>{14, 13, 12, 10, 9} && nothing.members().begin() == nothing.members().end(), "members, backwards");
    auto high = open->members().end();
    check(*--high == std::numeric_limits<T>::max() && *--high == std::numeric_limits<T>::max() - 1, "members, open");
    ++high;
    check(++high == open->members().end(), "members, past the last");
    check(day.range_from(3) == day.first() && day.range_from(16) == day.first() && !day.range_from(17), "range_from");
    check(busy.is_subset(day) && day.is_superset(busy) && !day.is_subset(busy), "subset and superset");
    check(day.intersects(busy) && nothing.is_disjoint(day) && day.is_disjoint(nothing), "disjoint");
    check(nothing.empty() && !day.empty() && nothing.size() == 0 && busy.size() == 2, "empty");
    check(busy.covered() == 5u && !open->covered() && nothing.covered() == 0u, "covered");
    check(busy.range_at(12) == range<T>{12, 15, true} && !busy.range_at(15) && !open->range_at(20)->has_end, "range_at");
    check(busy.first() == range<T>{9, 11, true} && busy.last() == range<T>{12, 15, true} && !nothing.first(), "first and last");
    check(open->last() == range<T>{20, 5, false} && open->last() != range<T>{20, 5, true}, "the end of a range that has none");
    auto at = busy.begin();
    check(*at++ == range<T>{9, 11, true} && *at == range<T>{12, 15, true} && ++at == busy.end(), "an iterator, read before it goes on");
    check(text<T>(busy.gaps(8, 20)) == "8..9 11..12 15..20", "gaps");
    check(busy.first_fit(9, 17, 1) == T(11) && busy.first_fit(9, 17, 2) == T(15) && !busy.first_fit(9, 17, 3), "first_fit");
    check(open->first_fit(5, 5, 0) == T(5) && !open->first_fit(0, 30, 11) && open->first_fit(0, 30, 10) == T(10), "first_fit, open");
    check(busy.first_fit_aligned(9, 40, 4, 8) == T(16) && !busy.first_fit_aligned(9, 40, 4, 0), "first_fit_aligned");
    check(busy.first_fit_aligned(9, 40, 4, 15) == T(15) && nothing.first_fit_aligned(0, 90, 4, 60) == T(0), "a quarter, and an hour");
    check(busy.first_run(0, 40, 3) == T(12) && !busy.first_run(0, 40, 4) && busy.first_run(5, 40, 0) == T(5), "first_run");
    check(busy.text() == "9..11, 12..15" && open->text() == "0..10, 20.." && nothing.text().empty(), "text");
    std::size_t fault = 77;
    check(range_set<T>::parse(" 12..15,9..11", &fault) == busy && range_set<T>::parse("")->empty() && fault == 77, "parse");
    check(range_set<T>::parse(open->text()) == range_set<T>(*open), "parse of an open range");
    check(!range_set<T>::parse("1..2, 1..99999999999999999999", &fault) && fault == 6, "parse of a number that doesn't fit");
    check(!range_set<T>::parse("1..2;3..4", &fault) && fault == 4, "parse of no text of ranges");
    check(range_set<T>::parse("12..15\n9\n10\n", '\n') == busy && range_set<T>::parse(" ", ';')->empty(), "parse by a separator");
    check(!range_set<T>::parse("1\n 99999999999999999999", '\n', &fault) && fault == 3, "parse by a separator: a number that doesn't fit");
    check(!range_set<T>::parse("1\n2;3", '\n', &fault) && fault == 3, "parse by a separator: no text of ranges");
    range_set_status status = RANGE_SET_NO_MEMORY;
    check(!range_set<T>::parse("1..2;", nullptr, &status) && status == RANGE_SET_MALFORMED, "parse says that it is no text of ranges");
    check(!range_set<T>::parse("1..99999999999999999999", nullptr, &status) && status == RANGE_SET_OUT_OF_RANGE,
        "parse says what doesn't fit");
    check(range_set<T>::parse("1..2", nullptr, &status) && status == RANGE_SET_DONE, "parse says that it has read a set");
    check(!range_set<T>::parse("1", '1', nullptr, &status) && status == RANGE_SET_BAD_ARGUMENT, "parse by a digit");
    check(range_set<T>::parse("1", 'x', nullptr, &status) && status == RANGE_SET_DONE, "parse by a letter");
    check(range_set<T>::combine(day, busy, RANGE_SET_NEITHER | RANGE_SET_RIGHT) == ~day, "combine");
    check(range_set<T>::union_all(std::vector<range_set<T>>{busy, range_set<T>{{10, 13}}, nothing}) == range_set<T>{{9, 15}}, "union_all");
    check(range_set<T>::union_all(std::vector<range_set_view<T>>{busy, *open, day}) == (day | *open), "union_all of views");
    check(range_set<T>::union_all(std::vector<range_set<T>>()).empty(), "union_all of nothing");
    const std::vector<range_set<T>> several = {day, range_set<T>(*open), {{8, 12}, {15, 30}}};
    check(text<T>(range_set<T>::intersection_all(several)) == "9..10", "intersection_all");
    check(range_set<T>::intersection_all(std::vector<range_set_view<T>>{*open}) == *open, "intersection_all of one");
    check(range_set<T>::intersection_all(std::vector<range_set<T>>()).is_all(), "intersection_all of nothing");
    check(text<T>(busy.ranges_within(10, 13)) == "10..11 12..13" && text<T>(open->ranges_within(5, 22)) == "5..10 20..22", "ranges_within");
    check(busy.ranges_within(13, 10).empty() && busy.ranges_within(11, 12).empty() && nothing.ranges_within(0, 40).empty(),
        "ranges_within of none");
    check(text<T>(busy.gaps(10, 13)) == "11..12" && busy.gaps(13, 10).empty() && text<T>(open->gaps(5, 22)) == "10..20", "gaps of a part");
    const auto [below, from] = busy.split(12);
    check(text<T, range_set_view<T>>(below) == "9..11" && text<T, range_set_view<T>>(from) == "12..15", "split");
    check(text<T, range_set_view<T>>(open->split(5).first) == "0.." && open->split(5).second == *open, "split within a range");
    range_set<T> changed(busy), moved;
    changed.insert(11, 12).remove(13, 14);
    check(text<T>(changed) == "9..13 14..15" && text<T>(busy) == "9..11 12..15", "insert and remove");
    moved = std::move(changed);
    changed = moved;
    check(changed == moved && !changed.empty(), "move and copy");
    moved.remove(9, 10);
    check(changed.contains(9) && !moved.contains(9), "a copy of its own");
    check((changed |= day) == day && (changed &= busy) == busy && (changed -= busy).empty() && (changed ^= day) == day, "assigned");
    changed.clear();
    check(changed.empty() && changed.insert(1, 2).contains(1), "clear");
    changed.insert(range<T>{4, 6, true}).insert(range<T>{9, 0, false});
    check(text<T>(changed) == "1..2 4..6 9..", "insert of a range");
    check(text<T>(changed.remove(range<T>{1, 5, true}).remove(range<T>{12, 0, false})) == "5..6 9..12", "remove of a range");
}

// The end of a list, which is another one after `left` questions.
template <class T> struct fickle {
    const std::pair<T, T> *first, *later;
    unsigned *asked, turn;
    friend bool operator!=(const std::pair<T, T> *it, const fickle &end)
    {
        return it != ((*end.asked)++ < end.turn ? end.first : end.later);
    }
};

// Whether the set has other members after a change.
template <class T, class Set> static void has_changed()
{
    Set set;
    check(set.insert_changed({9, 12}) && !set.insert_changed({10, 12}) && set.text() == "9..12", "insert_changed");
    check(!set.insert_changed(12, 12) && !set.insert_changed(15, 13) && set.insert_changed(11, 15) && set.text() == "9..15", "no numbers");
    check(!set.remove_changed(15, 20) && !set.remove_changed(8, 9) && set.remove_changed({10, 12}), "remove_changed");
    check(!set.remove_changed(10, 12) && set.text() == "9..10, 12..15" && set.insert_changed(from(20)), "insert_changed, open");
    check(!set.insert_changed(from(25)) && set.insert_changed(from(13)) && set.text() == "9..10, 12..", "in an open range");
    check(set.remove_changed(from(30)) && !set.remove_changed(from(30)) && set.text() == "9..10, 12..30", "remove_changed, open");
    check(set.insert_changed(from(30)) && !set.insert_changed(from(12)) && set.text() == "9..10, 12..", "a range that gets no end");
    check(set.remove_changed(from(0)) && !set.remove_changed(from(0)) && !set.remove_changed(0, 5) && set.empty(), "all, and none");
    for (unsigned round = 0; round < 600; round++) {
        const Set before(set);
        const T start = static_cast<T>(random_below(700)), end = static_cast<T>(random_below(700));
        const bool changed = round % 3 == 2 ? set.remove_changed(start, end) : set.insert_changed(start, end);
        check(changed == (set != before), "made up: whether a change has changed the set");
        if (round % 50 == 49) set.remove_from(static_cast<T>(start / 2));
    }
}

// What a set is made of beside a std::vector and a std::map of pairs.
template <class T> static void sources()
{
    using pair = std::pair<T, T>;
    const range_set<T> busy = {{9, 11}, {12, 15}};
    const pair pairs[] = {{12, 15}, {9, 10}, {10, 11}};
    const range<T> ranges[] = {{12, 15, true}, {9, 11, true}};
    check(range_set<T>(pairs) == busy && range_set<T>(ranges) == busy, "a set of an array");
    check(range_set<T>(std::vector<range<T>>(busy.begin(), busy.end())) == busy, "a set of ranges");
    check(range_set<T>(busy.begin() + 1, busy.end()) == range_set<T>{{12, 15}}, "a set of what iterators of a set have");
    std::vector<range<T>> open = {{30, 0, false}, {9, 11, true}, {20, 0, false}, {12, 4, true}};
    check(text<T>(range_set<T>(open)) == "9..11 20..", "a set of ranges without an end");
    std::reverse(open.begin(), open.end());
    check(text<T>(range_set<T>(open)) == "9..11 20..", "a set of ranges without an end, the first of which decides");
    std::vector<pair> changing(std::begin(pairs), std::end(pairs));
    check(range_set<T>(changing) == busy && range_set<T>(std::move(changing)) == busy, "a set of a list that isn't const");
    unsigned asked = 0;
    check(range_set<T>(pairs, fickle<T>{pairs + 1, pairs + 3, &asked, 2}) == range_set<T>{{12, 15}}, "what has more the second time");
    asked = 0;
    check(range_set<T>(pairs, fickle<T>{pairs + 2, pairs + 1, &asked, 3}) == range_set<T>{{12, 15}}, "what has less the second time");
    using other = std::conditional_t<std::is_same_v<T, unsigned>, int, unsigned>;
    static_assert(!std::is_constructible_v<range_set<T>, range_set<other>>, "a set of other numbers, whose ranges may have other ends");
    static_assert(
        !std::is_constructible_v<range_set<T>, std::optional<pair>, int> && !std::is_constructible_v<range_set<T>, T, T>, "no iterators");
    static_assert(!std::is_convertible_v<std::vector<pair>, range_set<T>>, "a set of a list is asked for");
#if defined(__cpp_lib_ranges) && (!defined(__clang__) || __clang_major__ >= 16)
    namespace views = std::views;
    const std::vector<T> starts = {12, 9, 11};
    check(range_set<T>(starts | views::transform([](T it) { return pair(it, it + 2); })) == range_set<T>{{9, 14}}, "a set of a view");
    check(range_set<T>(pairs | views::filter([](const pair &it) { return it.first > 9; })) == range_set<T>{{10, 11}, {12, 15}},
        "a set of some pairs");
    check(
        range_set<T>(busy | views::take_while([](range<T> it) { return it.start < 12; })) == range_set<T>{{9, 11}}, "a set of some ranges");
    check(range_set<T>(views::iota(0, 3) | views::transform([](int it) { return std::pair(it, it + 1); })) == range_set<T>{{0, 3}},
        "a set of ints");
#endif
}

// Whether a call says that a number doesn't fit.
template <class Call> static bool doesnt_fit(Call call)
{
    try {
        call();
    } catch (const std::out_of_range &) {
        return true;
    }
    return false;
}

// Whether each question of a set, and each change, refuses a number, alone and as one of two.
template <class Set, class Number> static bool refuses(Set &set, Number x)
{
    return doesnt_fit([&] { set.contains(x); }) && doesnt_fit([&] { set.contains_range(x, 7); })
           && doesnt_fit([&] { set.contains_range(7, x); }) && doesnt_fit([&] { set.intersects_range(x, 7); })
           && doesnt_fit([&] { set.intersects_range(7, x); }) && doesnt_fit([&] { set.range_at(x); })
           && doesnt_fit([&] { set.range_from(x); }) && doesnt_fit([&] { set.next_member(x); }) && doesnt_fit([&] { set.next_gap(x); })
           && doesnt_fit([&] { set.prev_member(x); }) && doesnt_fit([&] { set.prev_gap(x); }) && doesnt_fit([&] { set.rank(x); })
           && doesnt_fit([&] { set.first_fit(x, 7, 1); }) && doesnt_fit([&] { set.first_fit(7, x, 1); })
           && doesnt_fit([&] { set.first_fit_aligned(x, 7, 1, 1); }) && doesnt_fit([&] { set.first_fit_aligned(7, x, 1, 1); })
           && doesnt_fit([&] { set.first_run(x, 7, 1); }) && doesnt_fit([&] { set.first_run(7, x, 1); })
           && doesnt_fit([&] { set.insert(x, 7); }) && doesnt_fit([&] { set.insert(7, x); }) && doesnt_fit([&] { set.remove(x, 7); })
           && doesnt_fit([&] { set.remove(7, x); }) && doesnt_fit([&] { set.insert_from(x); }) && doesnt_fit([&] { set.remove_from(x); })
           && doesnt_fit([&] { set.insert_changed(x, 7); }) && doesnt_fit([&] { set.remove_changed(7, x); });
}

// Whether a set says whether such a number is a member.
template <class Set, class Number, class = void> constexpr bool takes = false;
template <class Set, class Number>
constexpr bool takes<Set, Number, std::void_t<decltype(std::declval<Set &>().contains(std::declval<Number>()))>> = true;

// Single numbers of other types, two of which don't fit where they are others.
template <class T> static void other_single_numbers(std::int64_t below, std::uint64_t above)
{
    constexpr bool has_below = sizeof(T) < 8 || std::numeric_limits<T>::min() == 0;
    range_set<T> set = {{5, 9}};
    chunked_range_set<T> chunks(set);
    const auto starting = [](auto x) { return range_set<T>{{x, 7}}; };
    const auto ending = [](auto x) { return range_set<T>{{1, 2}, {7, x}}; };
    const auto is_refused = [&](auto x) {
        return refuses(set, x) && refuses(chunks, x) && doesnt_fit([&] { set.gaps(x, 7); }) && doesnt_fit([&] { set.gaps(7, x); })
               && doesnt_fit([&] { set.ranges_within(x, 7); }) && doesnt_fit([&] { set.ranges_within(7, x); })
               && doesnt_fit([&] { set.split(x); }) && doesnt_fit([&] { set.view().contains(x); })
               && doesnt_fit([&] { chunks.begin_from(x); }) && doesnt_fit([&] { starting(x); }) && doesnt_fit([&] { ending(x); });
    };
    check(!has_below || is_refused(below), "a single number below all of the type");
    check(above == 0 || is_refused(above), "a single number above all of the type");
    check(set == range_set<T>{{5, 9}} && chunks.set() == set, "what is refused changes");
    check(doesnt_fit([&] { set.first_fit(0, 7, -1); }) && doesnt_fit([&] { chunks.first_fit(0, 7, -1); }), "a count below zero");
    check(doesnt_fit([&] { set.select(-1); }) && doesnt_fit([&] { chunks.select(-1); }), "a place below zero");
    check(doesnt_fit([&] { set.first_fit_aligned(0, 7, 1, -1); }) && doesnt_fit([&] { set.first_run(0, 7, -1); }), "a multiple below zero");
    check(sizeof(T) == 8 || doesnt_fit([&] { set.first_fit(0, 7, std::int64_t(1) << 32); }), "a count above all");
    const short five = 5;
    const T exact = 5;
    enum number { FIVE = 5 };
    check(set.contains(std::uint64_t(5)) && set.contains(std::int64_t(5)) && set.contains(five) && set.contains(std::size_t(5))
              && set.contains('\5') && set.contains(FIVE) && set.contains(std::cref(exact)) && !set.contains(true),
        "a number of each type");
    check(set.insert(std::size_t(20), five).insert(std::int64_t(20), 30LL) == range_set<T>{{five, 9ULL}, {std::int64_t(20), 30}},
        "ranges of other types");
    const std::initializer_list<std::pair<T, T>> pairs = {{5, 9}, {20, 30}};
    check(set == range_set<T>(pairs) && set == range_set<T>{std::pair(five, std::size_t(9)), {20, 30}}, "a list of pairs");
    static_assert(takes<range_set<T>, int> && takes<range_set<T>, long long> && takes<range_set<T>, std::size_t>, "integers");
    static_assert(!takes<range_set<T>, double> && !takes<chunked_range_set<T>, float> && !takes<range_set<T>, const char *>, "no others");
    static_assert(noexcept(set.contains(T())), "what is of the type");
    static_assert(noexcept(chunks.contains(std::uint8_t())), "what always fits");
    static_assert(noexcept(set.contains(std::int64_t())) == (sizeof(T) == 8 && std::is_signed_v<T>), "what may not fit");
}

// Numbers of other types, which are refused where they don't fit.
template <class T> static void other_numbers()
{
    using limits = std::numeric_limits<T>;
    using signed_pair = std::pair<std::int64_t, std::int64_t>;
    using unsigned_pair = std::pair<std::uint64_t, std::uint64_t>;
    check(range_set<T>(std::vector<signed_pair>{{9, 11}}) == range_set<T>{{9, 11}}, "a set of pairs of another type");
    check(range_set<T>(std::vector<std::pair<char, short>>{{9, 11}}) == range_set<T>{{9, 11}}, "a set of pairs of narrower types");
    const std::int64_t below = limits::min() == 0 ? -1 : std::int64_t(limits::min()) - (sizeof(T) < 8);
    check(doesnt_fit([&] {
        range_set<T>(std::vector<signed_pair>{{below, 5}});
    }) == (sizeof(T) < 8 || limits::min() == 0),
        "a start that doesn't fit");
    const std::uint64_t greatest = static_cast<std::uint64_t>(limits::max()), above = greatest + 1;
    check(doesnt_fit([&] { range_set<T>(std::vector<unsigned_pair>{{0, above}}); }) == (above != 0), "an end that doesn't fit");
    check(range_set<T>(std::vector<unsigned_pair>{{0, greatest}}) == range_set<T>{{0, limits::max()}}, "an end that just fits");
    check(doesnt_fit([&] { range_set<T>::from_values(std::vector<std::uint64_t>{above}); }) == (above != 0), "a value that doesn't fit");
    other_single_numbers<T>(below, above);
}

// A set keeps room for at most twice its boundaries, or for eight.
template <class T> static bool is_close(const range_set<T> &set)
{
    return set.capacity() <= std::max<std::size_t>(4, 2 * set.size());
}

template <class T> static void room()
{
    std::vector<std::pair<T, T>> pairs;
    for (T i = 0; i < 1000; i++) pairs.emplace_back(static_cast<T>(10 * i), static_cast<T>(10 * i + 5));
    const range_set<T> many(pairs), few = {{7, 12}, {500, 503}}, one = {{0, 20000}};
    check(is_close(many) && is_close(many & few) && is_close(many - one) && is_close(few - many) && is_close(many ^ many),
        "the room of a result");
    check(
        is_close(many | one) && is_close(many.gaps(0, 40)) && is_close(many.ranges_within(0, 40)) && is_close(~many), "the room of others");
    check((many & few) == range_set<T>{{10, 12}, {500, 503}} && (many | one) == one && (many - one).capacity() == 0, "what has less room");
    check(is_close(range_set<T>::union_all(std::vector<range_set<T>>{many, one, many})), "the room of union_all");
    check(is_close(range_set<T>(std::vector<std::pair<T, T>>(100, {1, 2}))) && is_close(range_set<T>::from_values(std::vector<T>(100, 5))),
        "the room of a list whose ranges join");
    range_set<T> set(many), empty;
    for (const range_set<T> &other : {few, one, many, range_set<T>(many.ranges_within(0, 90))}) {
        using change = range_set<T> &(*)(range_set<T> &, const range_set<T> &);
        const change changes[] = {
            [](range_set<T> &a, const range_set<T> &b) -> range_set<T> & { return a |= b; },
            [](range_set<T> &a, const range_set<T> &b) -> range_set<T> & { return a &= b; },
            [](range_set<T> &a, const range_set<T> &b) -> range_set<T> & { return a -= b; },
            [](range_set<T> &a, const range_set<T> &b) -> range_set<T> & { return a ^= b; },
        };
        const range_set<T> wanted[] = {few | other, few & other, few - other, few ^ other};
        for (std::size_t i = 0; i < 4; i++) {
            range_set<T> roomy(few), tight(few);
            roomy.reserve(3000);
            check(changes[i](roomy, other) == wanted[i] && roomy.capacity() == 3000, "the room of a set that an operator changes");
            check(changes[i](tight, other) == wanted[i] && tight.capacity() >= few.capacity(), "the room of one that had little");
        }
    }
    check((set &= few) == (many & few) && set.capacity() == 1000, "the room of a set that is cut down");
    set = many;
    set.remove(100, 20000);
    check(set.size() == 10 && set.capacity() == 1000, "a set whose numbers are taken out one by one keeps its room");
    set.shrink_to_fit();
    check(set.size() == 10 && set.capacity() == 10 && set == many.ranges_within(0, 100), "shrink_to_fit");
    set.clear();
    check(set.empty() && set.capacity() == 10, "clear keeps the room");
    set.shrink_to_fit();
    check(set.empty() && set.capacity() == 0 && set.insert(1, 2).size() == 1, "shrink_to_fit of no number");
    empty.reserve(500);
    empty.reserve(20);
    check(empty.empty() && empty.capacity() == 500, "reserve");
    left = 0;
    for (const auto &[start, end] : pairs) {
        if (empty.size() < 500) empty.insert(start, end);
    }
    const bool cut = (empty.shrink_to_fit(), true);
    left = -1;
    check(cut && empty == range_set<T>(pairs.begin(), pairs.begin() + 500), "changes within the room take no memory");
    bool thrown = false;
    try {
        empty.reserve(std::numeric_limits<std::size_t>::max() / 2 + 2);
    } catch (const std::bad_alloc &) {
        thrown = true;
    }
    check(thrown && empty.size() == 500, "more room than there is");
    // The result stands in the longer buffer where there is no memory for a shorter one.
    left = 1;
    const range_set<T> kept = many & few;
    left = -1;
    check(kept.size() == 2 && kept.capacity() == 1002, "a result whose room can't be given back");
}

// Operators in place: with room for the set and the longest result they take no memory, and with one boundary less they take some. A set
// that is refused memory is as it was.
template <class T> static void in_place()
{
    const range_set<T> few = {{7, 12}, {500, 503}}, other = {{9, 15}, {40, 50}, {502, 600}};
    const range_set<T> wanted[] = {few | other, few & other, few - other, few ^ other};
    const auto changes = [](int which, range_set<T> &set, range_set_view<T> by) -> range_set<T> & {
        return which == 0 ? set |= by : which == 1 ? set &= by : which == 2 ? set -= by : set ^= by;
    };
    const auto is_refused = [&](int which, range_set<T> &set, range_set_view<T> by) {
        bool thrown = false;
        left = 0;
        try {
            changes(which, set, by);
        } catch (const std::bad_alloc &) {
            thrown = true;
        }
        left = -1;
        return thrown;
    };
    for (int which = 0; which < 4; which++) {
        range_set<T> roomy(few), tight(few), part(few);
        roomy.reserve(2 * few.size() + other.size());
        check(!is_refused(which, roomy, other) && roomy == wanted[which] && roomy.capacity() == 7, "in place: with room");
        tight.reserve(2 * few.size() + other.size() - 1);
        check(is_refused(which, tight, other) && tight == few && tight.capacity() == 6, "in place: refused");
        check(changes(which, tight, other) == wanted[which] && tight.capacity() == 6, "in place: with less room");
        for (const T at : {T(0), T(8), T(12), T(501), T(700)}) {
            for (const bool is_first : {true, false}) {
                const auto of = [&](const range_set<T> &set) { return is_first ? set.split(at).first : set.split(at).second; };
                range_set<T> whole(few);
                const range_set<T> copied(of(few));
                part = few;
                part.reserve(100);
                check(changes(which, part, of(part)) == changes(which, whole, copied) && part.capacity() == 100, "in place: a part");
            }
        }
        part = few;
        part.reserve(100);
        check(changes(which, part, part) == (which < 2 ? few : range_set<T>()) && part.capacity() == 100, "in place: the set itself");
    }
}

// A set in chunks: rows, copies and moves, and many ranges beside a range_set.
template <class T> static void chunked()
{
    chunked_range_set<T> set;
    check(set.empty() && set.size() == 0 && set.begin() == set.end() && !set.contains(5) && !set.next_member(0) && set.next_gap(5) == T(5),
        "chunked: empty");
    check(set.first_fit(5, 8, 3) == T(5) && !set.first_fit(5, 8, 4), "chunked: first_fit in the empty set");
    set.insert(9, 17).remove(11, 12).insert_from(20).insert(5, 5);
    check(text<T>(set) == "9..11 12..17 20.." && set.size() == 3 && !set.empty(), "chunked: changes");
    check(set.contains(9) && !set.contains(11) && set.contains_range(12, 17) && !set.contains_range(9, 12), "chunked: contains");
    check(set.intersects_range(11, 13) && !set.intersects_range(11, 12) && !set.intersects_range(17, 20), "chunked: intersects_range");
    check(set.next_member(11) == T(12) && set.next_gap(12) == T(17) && !set.next_gap(20), "chunked: next");
    check(set.first_fit(9, 40, 1) == T(11) && set.first_fit(9, 40, 3) == T(17) && !set.first_fit(9, 40, 4), "chunked: first_fit");
    check(text<T>(set.set()) == "9..11 12..17 20..", "chunked: set");
    auto at = set.begin();
    check(at == set.begin() && (at++)->start == 9 && at != set.begin() && at->start == 12, "chunked: an iterator that moves");
    check(*++at == range<T>{20, 0, false} && at != set.end() && ++at == set.end(), "chunked: an iterator past the last range");
    chunked_range_set<T> ends;
    ends.insert(std::numeric_limits<T>::min(), std::numeric_limits<T>::min() + 1).insert_from(std::numeric_limits<T>::max());
    check(ends.size() == 2 && text<T>(ends) == text<T>(ends.set()), "chunked: the least number and the greatest");
    check(set.prev_member(11) == T(10) && !set.prev_member(8) && set.prev_gap(16) == T(11) && set.rank(13) == 3 && set.select(3) == T(13),
        "chunked: members");
    check(
        set.range_at(9) == range<T>{9, 11, true} && !set.range_at(11) && set.range_from(11) == range<T>{12, 17, true}, "chunked: range_at");
    check(set.first() == range<T>{9, 11, true} && set.last() == range<T>{20, 0, false} && !set.is_all() && !set.covered(), "chunked: ends");
    check(set.first_run(9, 40, 3) == T(12) && !set.first_run(9, 20, 6), "chunked: first_run");
    check(!set.first_fit_aligned(9, 40, 1, 0) && !set.first_fit_aligned(9, 40, 4, 1) && set.first_fit_aligned(9, 40, 2, 1) == T(17),
        "chunked: first_fit_aligned");
    check(set.first_fit_aligned(0, 9, 2, 6) == T(0) && set.first_fit_aligned(1, 40, 2, 6) == T(6), "chunked: multiples of 6");
    chunked_range_set<T> copy(set), moved(std::move(set)), assigned;
    check(set.empty() && text<T>(copy) == text<T>(moved), "chunked: copy and move");
    copy.remove_from(12);
    check(text<T>(copy) == "9..11" && moved.size() == 3, "chunked: a copy of its own");
    assigned = moved;
    moved.clear();
    check(moved.empty() && assigned.size() == 3 && moved.insert(1, 2).contains(1), "chunked: assigned, and cleared");
    assigned = std::move(copy);
    check(text<T>(assigned) == "9..11" && text<T>(chunked_range_set<T>(assigned.set())) == "9..11", "chunked: of a set");
    chunked_range_set<T> many;
    range_set<T> wanted;
    for (unsigned i = 0; i < 3000; i++) {
        const T start = static_cast<T>(random_below(20000)), end = static_cast<T>(start + static_cast<T>(random_below(4)));
        if (i % 3 == 2) many.remove(start, end), wanted.remove(start, end);
        else many.insert(start, end), wanted.insert(start, end);
        const auto count = static_cast<std::make_unsigned_t<T>>(1 + random_below(40));
        if (i % 10 != 0) continue;
        check(many.first_fit(0, 20000, count) == wanted.first_fit(0, 20000, count), "chunked: first_fit of many");
        check(many.first_fit_aligned(0, 20000, 3, count) == wanted.first_fit_aligned(0, 20000, 3, count),
            "chunked: first_fit_aligned of many");
        check(many.first_run(0, 20000, count / 8) == wanted.first_run(0, 20000, count / 8), "chunked: first_run of many");
        check(many.range_at(start) == wanted.range_at(start) && many.range_from(start) == wanted.range_from(start),
            "chunked: a range of many");
        check(many.prev_member(start) == wanted.prev_member(start) && many.prev_gap(start) == wanted.prev_gap(start),
            "chunked: prev of many");
        check(many.rank(start) == wanted.rank(start) && many.select(i) == wanted.select(i), "chunked: the members of many");
        check(many.first() == wanted.first() && many.last() == wanted.last(), "chunked: the ends of many");
    }
    // The iterator reads sixteen ranges at a time, and the last one may have no end.
    for (unsigned ranges = 0; ranges < 40; ranges++) {
        chunked_range_set<T> some;
        for (unsigned i = 0; i < ranges; i++) some.insert(static_cast<T>(3 * i), static_cast<T>(3 * i + 1));
        check(text<T>(some) == text<T>(some.set()), "chunked: many ranges");
        some.insert_from(1000);
        check(text<T>(some) == text<T>(some.set()), "chunked: many ranges and one without an end");
    }
    for (std::size_t from = 0; from < wanted.size(); from += 101) {
        const auto rest = wanted.begin() + static_cast<std::ptrdiff_t>(from);
        check(std::equal(many.begin_from((*rest).end - 1), many.end(), rest, wanted.end()), "chunked: from a number on");
    }
    check(many.set() == wanted && text<T>(many) == text<T>(wanted) && many.size() == wanted.size(), "chunked: many");
    chunked_range_set<T> same(many);
    std::ostringstream out;
    check(same == many && !(same != many) && many.covered() == wanted.covered() && (out << many) && out.str() == wanted.text(),
        "chunked: as a set");
    same.insert(range<T>{30000, 0, false});
    check(same != many && !same.covered() && same.size() == many.size() + 1, "chunked: insert of a range");
    check(same.remove(range<T>{20100, 0, false}) == many && same.remove(range<T>{0, 20100, true}).empty(), "chunked: remove of a range");
    check(chunked_range_set<T>() == same && same.covered() == 0u, "chunked: two without a member");
    same.insert(9, 11);
    check(same == chunked_range_set<T>(range_set<T>{{9, 11}}) && same != chunked_range_set<T>(range_set<T>{{9, 12}}),
        "chunked: as many ranges, and others");
}

// Two sets of any kinds answer and are joined as two lists with their members, also where the first one changes.
template <class T, class A, class B> static void as_two_lists(const A &x, const B &y, const range_set<T> &a, const range_set<T> &b)
{
    check((x == y) == (a == b) && (x != y) == (a != b) && (x < y) == (a < b) && (x > y) == (a > b), "two kinds: ==, !=, < and >");
    check((x <= y) == (a <= b) && (x >= y) == (a >= b) && x.compare(y) == a.compare(b), "two kinds: <=, >= and compare");
#ifdef __cpp_lib_three_way_comparison
    check((x <=> y) == (a <=> b), "two kinds: <=>");
#endif
    check(x.is_subset(y) == a.is_subset(b) && x.is_superset(y) == a.is_superset(b), "two kinds: is_subset, is_superset");
    check(x.is_disjoint(y) == a.is_disjoint(b) && x.intersects(y) == a.intersects(b), "two kinds: is_disjoint, intersects");
    check((x | y) == (a | b) && (x & y) == (a & b) && (x - y) == (a - b) && (x ^ y) == (a ^ b), "two kinds: operators");
    check(range_set<T>::combine(x, y, RANGE_SET_NEITHER) == ~(a | b), "two kinds: combine");
    if constexpr (!std::is_same_v<A, range_set_view<T>>) {
        A joined(x), common(x), rest(x), either(x);
        check((joined |= y) == (a | b) && (common &= y) == (a & b) && (rest -= y) == (a - b) && (either ^= y) == (a ^ b), "two kinds: |=");
    }
}

// What sets in chunks have of lists: operations on sets of any kind, parts, members, text, and what they are made of.
template <class T> static void chunked_as_lists()
{
    using chunks = chunked_range_set<T>;
    const std::vector<std::pair<T, T>> pairs = {{12, 15}, {9, 11}, {10, 12}};
    check(chunks(pairs) == chunks{{9, 15}} && chunks(std::map<T, T>{{3, 5}}).text() == "3..5" && chunks{}.empty(), "chunked: of pairs");
    for (unsigned round = 0; round < 60; round++) {
        range_set<T> a, b;
        for (unsigned i = 0; i < 4 * round; i++) {
            const T start = static_cast<T>(random_below(3000)), end = static_cast<T>(start + static_cast<T>(random_below(9)));
            if (random_below(2) == 0) a.insert(start, end);
            else b.insert(start, end);
        }
        if (round % 3 == 0) a.insert_from(static_cast<T>(random_below(3000)));
        const chunks x(a), y(b);
        static_assert(std::is_same_v<decltype(x | b), chunks> && std::is_same_v<decltype(a.view() - y), chunks>, "in chunks");
        as_two_lists(x, y, a, b);
        as_two_lists(x, b, a, b);
        as_two_lists(x, b.view(), a, b);
        as_two_lists(a, y, a, b);
        as_two_lists(a.view(), y, a, b);
        for (const range_set<T> &part : {a & b, a, ~a, a | b}) as_two_lists(x, chunks(part), a, part);
        chunks same(x);
        const chunks &itself = same;
        check((same &= itself) == x && (same -= itself).empty(), "chunked: in place, of itself");
        check((~x).set() == ~a && x.negation() == ~a && *chunks::parse(a.text()) == x, "chunked: ~ and parse");
        const T start = static_cast<T>(random_below(3000)), end = static_cast<T>(start + static_cast<T>(random_below(3000)));
        check(x.gaps(start, end) == a.gaps(start, end) && x.ranges_within(start, end) == a.ranges_within(start, end), "chunked: parts");
        range_set<T> whole;
        for (const auto it : a)
            if (start < end && it.start < end && (!it.has_end || it.end > start)) whole.insert(it);
        check(x.overlapping(start, end) == whole && x.overlapping(end, start).empty() && x.text() == a.text(), "chunked: overlapping");
        const auto [below, above] = x.split(start);
        check(below == a.split(start).first && above == a.split(start).second, "chunked: split");
        const T asked[] = {start, end, static_cast<T>(start + 1), static_cast<T>(end + 1)};
        bool of_list[4] = {}, of_chunks[4] = {};
        check(a.contains_each(asked, 4, of_list) && x.contains_each(asked, 4, of_chunks) && std::equal(of_list, of_list + 4, of_chunks),
            "chunked: contains_each");
        if (round % 3 == 0) continue;
        const auto members = a.members();
        const auto in_chunks = x.members();
        check(std::equal(members.begin(), members.end(), in_chunks.begin(), in_chunks.end()), "chunked: members");
        check(chunks::from_values(std::vector<T>(in_chunks.begin(), in_chunks.end())) == x, "chunked: from_values");
    }
    std::size_t fault = 0;
    check(chunks::from_values({14, 9, 12, 9}).text() == "9..10, 12..13, 14..15", "chunked: from_values in braces");
    check(chunks::parse("1..3\n7", '\n')->text() == "1..3, 7..8" && !chunks::parse("1..2;3", &fault) && fault == 4, "chunked: parse");
    check(chunks{{1, 4}}.is_subset({{0, 3}, {3, 9}}) && chunks{{1, 4}}.intersects({from(3)}) && !chunks{{1, 4}}.is_superset({{0, 2}}),
        "chunked: sets in braces");
    bool within = false;
    static_assert(noexcept(range_set<T>().is_subset(range_set_view<T>())) &&noexcept(chunks().is_subset(chunks())), "without memory");
    check(!chunks{{1, 4}}.contains_each(nullptr, 1, &within), "chunked: contains_each of null");
    chunks top, none;
    top.insert_from(static_cast<T>(std::numeric_limits<T>::max() - 1));
    check(none.is_subset(top) && !top.is_subset(none) && none.is_disjoint(top) && none.is_superset({}) && none == chunks() && top != none,
        "chunked: before the first change");
    const auto members = top.members();
    auto it = members.begin();
    check(*it++ == std::numeric_limits<T>::max() - 1 && it != members.end() && *it == std::numeric_limits<T>::max(), "chunked: open");
    check(++it == members.end() && none.members().begin() == none.members().end(), "chunked: past the last member");
}

// Characters have sets too.
template <class T> static void characters()
{
    const range_set<T> letters = {{T('A'), T('[')}, {T('a'), T('{')}}, some = range_set<T>::from_values({T('z'), T('-')});
    check(letters.contains(T('b')) && !letters.contains(T('-')) && (letters - some).size() == 2, "characters");
    check(letters.text() == "65..91, 97..123" && *(letters & some).first() == range<T>{T('z'), T('{'), true}, "their ranges");
    check(chunked_range_set<T>(letters).next_member(T('[')) == T('a') && letters.covered() == 52u, "their members");
}

// Whether there is a view of what has this type: of a set with a name, and not of a temporary, which would be gone.
template <class Set, class = void> constexpr bool has_view = false;
template <class Set> constexpr bool has_view<Set, std::void_t<decltype(std::declval<Set>().view())>> = true;

// Whether one can go over what has this type, and cut it.
template <class Set, class = void> constexpr bool has_begin = false;
template <class Set> constexpr bool has_begin<Set, std::void_t<decltype(std::declval<Set>().begin())>> = true;
template <class Set, class = void> constexpr bool has_end = false;
template <class Set> constexpr bool has_end<Set, std::void_t<decltype(std::declval<Set>().end())>> = true;
template <class Set, class = void> constexpr bool has_split = false;
template <class Set> constexpr bool has_split<Set, std::void_t<decltype(std::declval<Set>().split(0))>> = true;

template <class Set> static void iterators_of_temporaries()
{
    static_assert(has_begin<Set &> && has_begin<const Set &> && !has_begin<Set> && !has_begin<const Set>, "begin()");
    static_assert(has_end<Set &> && has_end<const Set &> && !has_end<Set> && !has_end<const Set>, "end()");
}

template <class T> static void views_of_temporaries()
{
    using view = range_set_view<T>;
    using set = range_set<T>;
    iterators_of_temporaries<set>();
    iterators_of_temporaries<chunked_range_set<T>>();
    static_assert(has_begin<view> && has_end<view> && has_split<view>, "a view is borrowed, also a temporary one");
    static_assert(has_split<set &> && has_split<const set &> && !has_split<set> && !has_split<const set>, "split");
    T starts = 0;
    for (const auto &it : set{{9, 10}} | set{{20, 30}}) starts += it.start;
    for (const auto &it : chunked_range_set<T>(set{{3, 4}})) starts += it.start;
    check(starts == 32, "a for over the ranges of a temporary");
    static_assert(has_view<set &> && has_view<const set &> && !has_view<set> && !has_view<const set>, "view()");
    static_assert(std::is_constructible_v<view, set &> && std::is_constructible_v<view, const set &>, "a view of a set with a name");
    static_assert(!std::is_constructible_v<view, set> && !std::is_constructible_v<view, const set>, "a view of a temporary");
    static_assert(std::is_convertible_v<set &, view> && !std::is_convertible_v<set, view>, "a set as an argument");
    static_assert(std::is_assignable_v<view &, set &> && !std::is_assignable_v<view &, set>, "a view that is assigned");
    static_assert(
        std::is_constructible_v<std::optional<view>, set &> && !std::is_constructible_v<std::optional<view>, set>, "in an optional");
    static_assert(std::is_constructible_v<set, view> && !std::is_convertible_v<view, set>, "a copy is asked for");
    // Each call takes a temporary, on either side.
    const set day = {{9, 17}}, busy = {{9, 11}, {12, 15}};
    const view borrowed(day);
    check(((day - busy) | borrowed) == (borrowed | (day - busy)) && (day - (day - busy)) == busy, "an operator of temporaries");
    check((day - busy).is_subset(day & day) && day.is_superset(day - busy) && borrowed.is_superset(day - busy), "subset of a temporary");
    check(busy.is_disjoint(day - busy) && day.intersects(day - busy) && borrowed.intersects(day - busy), "disjoint from a temporary");
    check(set::combine(day - busy, ~day, RANGE_SET_UNION) == ~busy, "combine of temporaries");
    set changed(day - busy);
    check(
        (changed |= day & busy) == day && (changed -= ~day) == day && (changed &= busy | busy) == busy && (changed ^= ~~day) == day - busy,
        "assigned of temporaries");
}

// A list of sets in their order: by their boundaries, a list before one that goes on. Each is compared with each.
template <class T> static void order()
{
    using limits = std::numeric_limits<T>;
    const T least = limits::min(), greatest = limits::max();
    const range_set<T> nothing;
    const std::vector<range_set<T>> ordered = {nothing, ~nothing, {{least, 5}}, {{2, 7}}, {{3, 4}}, {{3, 4}, {5, 6}},
        {{3, 4}, {5, greatest}}, {{3, 4}, {6, 7}}, {{3, 9}}, {{greatest - 1, greatest}}};
    for (std::size_t i = 0; i < ordered.size(); i++)
        for (std::size_t j = 0; j < ordered.size(); j++) {
            const range_set<T> &a = ordered[i], &b = ordered[j];
            const range_set_view<T> x = a, y = b;
            check((a < b) == (i < j) && (x < b) == (i < j) && (a < y) == (i < j) && (x < y) == (i < j), "<");
            check((a > b) == (i > j) && (x > y) == (i > j), ">");
            check((a <= b) == (i <= j) && (x <= y) == (i <= j), "<=");
            check((a >= b) == (i >= j) && (x >= y) == (i >= j), ">=");
            check((a.compare(b) < 0) == (i < j) && (x.compare(y) > 0) == (i > j) && (a.compare(y) == 0) == (i == j), "compare");
#ifdef __cpp_lib_three_way_comparison
            check((a <=> b) == (i <=> j) && (x <=> b) == (i <=> j), "<=>");
#endif
        }
#ifdef __cpp_lib_three_way_comparison
    static_assert(std::three_way_comparable<range_set<T>, std::strong_ordering>, "of sets");
    static_assert(std::three_way_comparable<range_set_view<T>, std::strong_ordering>, "of views");
#endif
    const std::set<range_set<T>> sorted(ordered.rbegin(), ordered.rend());
    check(std::equal(sorted.begin(), sorted.end(), ordered.begin(), ordered.end()), "a std::set of sets");
}

// The hash is one of the members: of equal sets, however they were made, it is equal, and these others have others.
template <class T> static void hashes()
{
    const range_set<T> busy = {{9, 11}, {12, 15}}, nothing;
    range_set<T> grown;
    grown.insert(12, 15).insert(10, 11).insert(9, 10);
    const range_set_view<T> view = grown;
    const auto hash = std::hash<range_set<T>>()(busy);
    check(hash == std::hash<range_set<T>>()(grown) && hash == std::hash<range_set_view<T>>()(view), "the hash of equal sets");
    check(hash == std::hash<range_set<T>>()(busy | busy), "the hash of a temporary");
    check(std::hash<range_set<T>>()(nothing) == std::hash<range_set<T>>()(busy - busy), "the hash of the set without a member");
    const std::vector<range_set<T>> others = {nothing, ~nothing, {{9, 11}}, {{9, 11}, {12, 16}}, {{10, 11}, {12, 15}}, ~busy};
    for (const auto &other : others) check(std::hash<range_set<T>>()(other) != hash, "the hash of another set");
    std::unordered_set<range_set<T>> set(others.begin(), others.end());
    check(set.size() == others.size() && !set.insert(range_set<T>{{9, 11}}).second && set.insert(busy).second,
        "a std::unordered_set of sets");
    std::unordered_set<range_set_view<T>> views(others.begin(), others.end());
    check(views.size() == others.size() && views.count(busy) == 0 && views.count(others[2]) == 1, "a std::unordered_set of views");
}

// A set of range_set.h whose boundaries are null is empty whatever its length is, as the result of a call that had no room.
template <class T> static void without_boundaries()
{
    const range_set<T> nothing, day = {{9, 17}};
    auto set = day.view().set();
    set.boundaries = nullptr;
    const range_set_view<T> view(set);
    check(view == nothing && view.empty() && view.compare(nothing) == 0 && view < day && day > view, "no boundaries: comparisons");
    check(std::hash<range_set_view<T>>()(view) == std::hash<range_set<T>>()(nothing), "no boundaries: the hash");
    check(
        (view | day) == day && range_set<T>(view) == nothing && view.text().empty() && view.begin() == view.end(), "no boundaries: a set");
    check(range_set<T>::union_all(std::vector<range_set_view<T>>{view, day}) == day, "no boundaries: union_all");
}

// What a stream has after the set, and a width, which is that of the whole text.
template <class T> static void printed()
{
    const range_set<T> busy = {{9, 11}, {12, 15}}, nothing;
    const range_set_view<T> view = busy;
    std::ostringstream out;
    out << busy << ";" << view << ";" << nothing << ";" << *busy.last() << ";" << range<T>{1, 0, false} << ";";
    check(out.str() == "9..11, 12..15;9..11, 12..15;;12..15;1..;", "<<");
    out.str("");
    out.width(15);
    out << std::left << busy << ";";
    check(out.str() == "9..11, 12..15  ;", "<< with a width");
    out.str("");
    out << std::hex << range_set<T>{{10, 11}};
    check(out.str() == "10..11", "<< with other digits");
    const range_set<T> longer = {{9, 11}, {12, 15}, {20, 21}, {30, 31}, {40, 41}};
    std::ostringstream empty;
    bool thrown = false;
    left = 0;
    try {
        empty << longer;
    } catch (const std::bad_alloc &) {
        thrown = true;
    }
    left = -1;
    check(thrown && empty.good() && empty.str().empty(), "<< where memory is refused");
}

// The ranges by iterators of random access, and by C++20's views, which clang can't compile below 16.
template <class T> static void iterators()
{
    using iterator = typename range_set<T>::iterator;
    const range_set<T> set = {{1, 2}, {4, 6}, {9, 11}, {12, 15}};
    const iterator first = set.begin(), last = set.end();
    check(last - first == 4 && first - last == -4 && first + 4 == last && 4 + first == last && last - 4 == first, "places of iterators");
    check(first[2] == range<T>{9, 11, true} && last[-1] == range<T>{12, 15, true} && (first + 1)->start == 4, "[] and ->");
    iterator at = first;
    check((at += 3)->end == 15 && (at -= 2)->end == 6 && (++at)->end == 11 && (--at)->end == 6, "an iterator that moves");
    check((at++)->end == 6 && at->end == 11 && (at--)->end == 11 && at->end == 6, "an iterator, read before it moves");
    check(first < last && last > first && first <= first && last >= first && !(last < first) && !(first > first), "the order of iterators");
    check(!(last <= first) && !(first >= last) && iterator() == iterator() && first != last, "iterators that aren't in order");
    const auto found = [](iterator from, iterator to) { return std::find_if(from, to, [](range<T> it) { return it.start > 8; }); };
    check(found(first, last) - first == 2, "a std::find_if");
#ifdef __cpp_lib_ranges
    using view = range_set_view<T>;
    static_assert(std::random_access_iterator<iterator> && std::sized_sentinel_for<iterator, iterator>, "std::random_access_iterator");
    static_assert(!std::contiguous_iterator<iterator> && !std::indirectly_writable<iterator, range<T>>, "ranges aren't changed so");
    static_assert(std::ranges::random_access_range<range_set<T>> && std::ranges::random_access_range<const range_set<T>>, "of a set");
    static_assert(std::ranges::random_access_range<view> && std::ranges::random_access_range<const view>, "of a view");
    static_assert(std::ranges::sized_range<const range_set<T>> && std::ranges::sized_range<view>, "std::ranges::sized_range");
    static_assert(std::ranges::common_range<range_set<T>> && std::ranges::viewable_range<range_set<T> &>, "std::ranges::viewable_range");
    static_assert(std::ranges::view<view> && !std::ranges::view<range_set<T>>, "std::ranges::view");
    static_assert(std::ranges::borrowed_range<view> && !std::ranges::borrowed_range<range_set<T>>, "std::ranges::borrowed_range");
    check(std::ranges::lower_bound(set, T(5), {}, &range<T>::start) - first == 2, "std::ranges::lower_bound");
    check(std::ranges::size(set) == 4 && std::ranges::distance(view(set)) == 4, "std::ranges::size");
#if !defined(__clang__) || __clang_major__ >= 16
    const auto ends = [](auto &&ranges) {
        std::string text;
        for (range<T> it : ranges) text += std::to_string(it.end) + " ";
        return text;
    };
    namespace views = std::views;
    check(ends(set | views::reverse) == "15 11 6 2 " && ends(view(set) | views::drop(1) | views::take(2)) == "6 11 ", "views of a set");
    check(ends(set | views::filter([](range<T> it) { return it.end - it.start > 1; })) == "6 11 15 ", "a view by a condition");
    check(ends((set - range_set<T>{{5, 10}}) | views::reverse) == "15 11 5 2 ", "a view of a temporary, which it owns");
    check((set | views::transform([](range<T> it) { return it.start; }))[3] == 12, "a view of the starts");
#endif
#endif
}

// The members below 40 of made-up sets, against std::set.
template <class T> static void made_up()
{
    std::set<T> in_a, in_b;
    range_set<T> a, b;
    for (int step = 0; step < 8; step++) {
        const T start = static_cast<T>(random_below(40)), end = static_cast<T>(random_below(40));
        if (random_below(4) == 0) a.remove(start, end), b.insert(start, end);
        else a.insert(start, end), b.remove(start, end);
        for (T x = start; x < end; x++) {
            const bool was_removed = !a.contains(x);
            if (was_removed) in_a.erase(x), in_b.insert(x);
            else in_a.insert(x), in_b.erase(x);
        }
    }
    for (T x = 0; x < 40; x++) {
        const bool p = in_a.count(x) != 0, q = in_b.count(x) != 0;
        check(a.contains(x) == p && b.contains(x) == q, "the sets themselves");
        check((a | b).contains(x) == (p || q) && (a & b).contains(x) == (p && q), "made up: | and &");
        check((a - b).contains(x) == (p && !q) && (a ^ b).contains(x) == (p != q) && (~a).contains(x) == !p, "made up: -, ^ and ~");
    }
    const auto boundaries = [](range_set_view<T> set) {
        return std::vector<T>(set.set().boundaries, set.set().boundaries + set.set().len);
    };
    check((a < b) == (boundaries(a) < boundaries(b)) && (a.compare(b) > 0) == (boundaries(a) > boundaries(b)), "made up: the order");
    check(a.covered() == in_a.size() && a.intersects(b) == !(a & b).empty() && a.is_subset(b) == (a - b).empty(), "made up: questions");
}

// Each request for memory refused in turn: a set that was to change is as it was.
template <class T> static void refused()
{
    const range_set<T> day = {{9, 17}}, busy = {{9, 11}, {12, 15}};
    for (int which = 0; which < 6; which++)
        for (long met = 0, refusals = 1; refusals > 0; met++) {
            range_set<T> set(busy);
            refusals = 0;
            left = met;
            try {
                switch (which) {
                case 0: set |= day; break;
                case 1: set = day; break;
                case 2: set = ~day; break;
                case 3: set.insert(20, 21).insert(30, 31); break;
                case 4: set = range_set<T>{{1, 2}, {3, 4}}; break;
                default: set = set.gaps(0, 20); break;
                }
            } catch (const std::bad_alloc &) {
                refusals = 1;
            }
            left = -1;
            check(refusals == 0 || set == busy || which == 3, "a refused change");
            check((set == busy) == (refusals > 0) || which == 3, "a change");
        }
}

// The numbers at the ends of a type, and a number that its text can't have.
template <class T> static void widest()
{
    using limits = std::numeric_limits<T>;
    const T ends[] = {limits::min(), limits::max()};
    const range_set<T> set = {{limits::min(), limits::max()}};
    check(range_set_view<T>::of(ends, 2) == set && set.first() == range<T>{limits::min(), limits::max(), true}, "the numbers at the ends");
    check((~set).first() == range<T>{limits::max(), 0, false} && (~set).contains(limits::max()) && !set.is_all(), "the greatest number");
    check(set.text() == std::to_string(limits::min()) + ".." + std::to_string(limits::max()) && range_set<T>::parse(set.text()) == set,
        "their text");
    check(set.covered() == std::uint64_t(limits::max()) - std::uint64_t(limits::min()), "how many numbers there are");
}

// What a set of points in time answers, of any kind of set: from 9 to 10, and from 13 to 14.
template <class T, class Set> static void asked_of_times(const Set &set, T day)
{
    using namespace std::chrono_literals;
    using times = range_set<T>;
    check(set.contains(day + 9h) && !set.contains(day + 11h) && set.contains_range(day + 9h, day + 10h), "contains a time");
    check(set.range_at(day + 9h)->end == day + 10h && set.range_from(day + 10h)->start == day + 13h, "the range at a time");
    check(set.next_member(day + 10h) == day + 13h && set.next_gap(day + 9h) == day + 10h, "the next time");
    check(set.prev_member(day + 11h) == day + 10h - 1min && set.prev_gap(day + 13h) == day + 13h - 1min, "the time before");
    check(set.first()->start == day + 9h && set.last()->end == day + 14h && set.size() == 2 && set.covered() == 120u, "times in all");
    check(set.gaps(day + 9h, day + 14h) == (times{{day + 10h, day + 13h}}), "gaps between times");
    check(set.ranges_within(day, day + 13h + 5min) == (times{{day + 9h, day + 10h}, {day + 13h, day + 13h + 5min}}), "times within");
    check(set.rank(day + 13h) == 60 && set.select(60) == day + 13h && set.first_run(day, day + 24h, 1h) == day + 9h, "times in a row");
    T at = day + 9h;
    for (const T it : set.members()) {
        check(it == at, "the times one by one");
        at = it == day + 10h - 1min ? day + 13h : it + 1min;
    }
    check(at == day + 14h, "all times one by one");
    for (const auto &[start, end, has_end] : set) check(end == start + 1h && has_end, "ranges of times");
}

// Sets of points in time, which a type of numbers counts.
template <class Count> static void points_in_time()
{
    using namespace std::chrono_literals;
    using minute = std::chrono::time_point<std::chrono::system_clock, std::chrono::duration<Count, std::ratio<60>>>;
    using times = range_set<minute>;
    const minute day{std::chrono::duration<Count, std::ratio<60>>(1000)};
    times set = {{day + 9h, day + 10h}}, late;
    set.insert(day + 13h, day + 14h);
    chunked_range_set<minute> chunked(set);
    asked_of_times<minute>(set, day);
    asked_of_times<minute>(set.view(), day);
    asked_of_times<minute>(chunked, day);
    check(set.first_fit(day + 9h, day + 17h, 2h) == day + 10h && chunked.first_fit(day + 9h, day + 17h, 2h) == day + 10h, "hours that fit");
    check(set.first_fit_aligned(day + 9h, day + 17h, 30min, 7min) == minute(1603min), "minutes that fit from a multiple on");
    int refusals = 0;
    try {
        static_cast<void>(set.first_fit(day, day + 1h, -1h));
    } catch (const std::out_of_range &) {
        refusals = 1;
    }
    check(refusals == 1, "no time is shorter than none");
    late.insert_from(day + 20h);
    check(!late.covered() && (set | late).size() == 3 && chunked.begin()->start == day + 9h && set.begin()->end == day + 10h, "late");
    check((set | late).remove_from(day + 20h) == set && chunked.begin_from(day + 10h)->start == day + 13h, "and not late");
    const std::vector<range<minute>> ranges(set.begin(), set.end());
    check(times(ranges) == set && times(std::vector<std::pair<minute, minute>>{{day, day + 1h}}).covered() == 60u, "ranges of times");
    check(times::from_values({day, day + 1min}) == (times{{day, day + 2min}}) && times::parse(set.text()) == set, "times one by one");
    check(set.text() == "1540..1600, 1780..1840" && std::hash<times>()(set) == std::hash<times>()(times(ranges)), "the text of times");
}

template <class T> static void all()
{
    widest<T>();
    rows<T>();
    fits_to_the_end<T>();
    sources<T>();
    other_numbers<T>();
    room<T>();
    in_place<T>();
    chunked<T>();
    chunked_as_lists<T>();
    has_changed<T, range_set<T>>();
    has_changed<T, chunked_range_set<T>>();
    views_of_temporaries<T>();
    order<T>();
    hashes<T>();
    without_boundaries<T>();
    printed<T>();
    iterators<T>();
    refused<T>();
    for (int i = 0; i < 500; i++) made_up<T>();
}

// The fixed-width types are among these; of two with one width and sign, as long and long long, both have sets.
int main()
{
    all<int>();
    all<unsigned>();
    all<long>();
    all<unsigned long>();
    all<long long>();
    all<unsigned long long>();
    characters<char32_t>();
    if constexpr (sizeof(wchar_t) == 4) characters<wchar_t>();
    points_in_time<long>();
    points_in_time<int>();
    std::printf("test: %ld checks\n", checks);
    return 0;
}
