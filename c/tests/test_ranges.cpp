// Tests of the ranges that calls take: in braces, without an end, of numbers of other types, and those that don't compile.
#include "checking.h"
#include "range_map.hpp"

#include <chrono>
#include <limits>
#include <map>
#include <optional>
#include <string>
#include <type_traits>
#include <utility>
#include <vector>

using range_sets::chunked_range_set;
using range_sets::from;
using range_sets::range;
using range_sets::range_map;
using range_sets::range_set;
using range_sets::range_set_view;

// Two numbers in braces are a start and an end, whatever they are.
template <class T> static void braces()
{
    const T least = std::numeric_limits<T>::min(), most = std::numeric_limits<T>::max();
    range_set<T> set;
    chunked_range_set<T> chunks;
    range_map<T, int> map;
    check(set.insert({1, 4}) == range_set<T>{{1, 4}} && set.insert({0, 10}).remove({1, 4}).text() == "0..1, 4..10", "of a set");
    check(chunks.insert({1, 4}).text() == "1..4" && chunks.insert({0, 10}).remove({1, 4}) == chunked_range_set<T>(set), "of chunks");
    check(map.insert({1, 4}, 5).domain().text() == "1..4" && map.insert({0, 10}, 5).remove({1, 4}).domain() == set, "of a map");
    check(set.insert({4, 2}).insert({20, 20}).remove({9, 9}).remove({8, 0}).text() == "0..1, 4..10", "those of no number");
    check(set.insert({least, most}).last() == range<T>{least, most, true} && !set.contains(most), "those at the ends of the type");
    check(range<T>{1, 4} == range<T>{1, 4, true} && range<T>{1, most} != range<T>{1, most, false}, "a range of two numbers");
    const std::vector<range<T>> ranges = {{7, 9}, {1, 4}, {5, 5}, {6, 2}};
    check(range_set<T>(ranges).text() == "1..4, 7..9" && chunked_range_set<T>(ranges).text() == "1..4, 7..9", "a list of them");
    check(range<T>{5} == range<T>{5, most} && range<T>() == range<T>{0, most}, "a range that is given no end is below the greatest number");
    // Three are a start, an end and whether that holds, also by name.
    check(set.insert({7, 0, false}).last() == range<T>{least, 0, false} && set.remove({5, 7, true}).size() == 2, "three numbers");
#if __cplusplus >= 202002L
    const range<T> named = {.start = 1, .end = 4}, open = {.start = 9, .has_end = false};
    check(named == range<T>{1, 4, true} && open == range<T>{9, 0, false}, "a range by the names of its parts");
    check(range_set<T>().insert({.start = 1, .end = 4, .has_end = true}).insert({.start = 9, .end = 0, .has_end = false}).text()
              == "1..4, 9..",
        "a change by them");
#endif
    constexpr range<T> early = {1, 4};
    static_assert(early.has_end && early.end == 4 && std::is_aggregate_v<range<T>> && std::is_trivially_copyable_v<range<T>>, "a value");
}

// A range without an end, by its name.
template <class T> static void open_ends()
{
    const T most = std::numeric_limits<T>::max();
    range_set<T> set;
    chunked_range_set<T> chunks;
    range_map<T, int> map;
    check(set.insert(from(7)).text() == "7.." && set.remove(from(9)).text() == "7..9", "of a set");
    check(chunks.insert(from(7)).text() == "7.." && chunks.remove(from(9)).set() == set, "of chunks");
    check(map.insert(from(7), 5).domain().text() == "7.." && map.remove(from(9)).domain() == set, "of a map");
    check((range_set<T>{{1, 4}, from(9), from(12)}.text()) == "1..4, 9.." && chunked_range_set<T>{from(2)}.text() == "2..", "in braces");
    const range<T> late = from(9), last = from(most);
    check(late == range<T>{9, 0, false} && range_set<T>{last}.contains(most) && !range_set<T>{last}.covered(), "as a range");
    check(set.insert(from(std::int8_t(9))).insert(from(std::size_t(8))).text() == "7..", "of a number of another type");
    bool thrown = false;
    try {
        if constexpr (sizeof(T) == 8) throw std::out_of_range("each number below fits");
        else set.insert(from(std::uint64_t(1) << 32));
    } catch (const std::out_of_range &) {
        thrown = true;
    }
    check(thrown && set.text() == "7..", "of a number that doesn't fit");
}

// The ranges of a set in braces stand for the set.
template <class T> static void sets_in_braces()
{
    range_set<T> set = {{1, 4}};
    chunked_range_set<T> chunks = {{1, 4}};
    check((set |= {{5, 7}}).text() == "1..4, 5..7" && (set |= {{8, 9}, from(20)}).text() == "1..4, 5..7, 8..9, 20..", "|=");
    check((set &= {{2, 6}}).text() == "2..4, 5..6" && (set -= {{3, 4}}).text() == "2..3, 5..6" && (set ^= {{2, 6}}).text() == "3..5",
        "others");
    check((chunks |= {{5, 7}, from(20)}).text() == "1..4, 5..7, 20.." && (chunks &= {{2, 6}}).text() == "2..4, 5..6", "chunks: |= and &=");
    check((chunks -= {{3, 4}}).text() == "2..3, 5..6" && (chunks ^= {{2, 6}}).text() == "3..5", "chunks: -= and ^=");
    const range_set_view<T> view = set;
    check(view.is_subset({{1, 9}}) && set.is_superset({{4, 5}}) && view.is_disjoint({{1, 3}, from(5)}) && view.intersects({{4, 9}}),
        "questions");
    check((set |= {}).text() == "3..5" && (set &= {}).empty() && set.is_subset({}), "none");
}

// Which of these are made of numbers of a type.
enum which { NONE, SOME, ALL };
template <class T, class Values, class = void> constexpr bool has_values = false;
template <class T, class Values>
constexpr bool has_values<T, Values, std::void_t<decltype(range_set<T>::from_values(std::declval<Values>()))>> = true;
template <class T, class Number, class Set = range_set<T>> constexpr which are_made()
{
    using pair = std::pair<Number, Number>;
    const bool made[] = {
        std::is_constructible_v<Set, std::vector<pair>>,
        std::is_constructible_v<Set, std::map<Number, T>>,
        std::is_constructible_v<Set, std::map<T, Number>>,
        std::is_constructible_v<Set, const pair(&)[3]>,
        std::is_constructible_v<Set, std::initializer_list<pair>>,
        std::is_convertible_v<pair, range_sets::detail::ends<T>>,
        std::is_constructible_v<range_sets::detail::ends<T>, Number, T>,
        std::is_constructible_v<range_sets::detail::ends<T>, T, Number>,
        std::is_convertible_v<range_sets::detail::open<Number>, range<T>>,
        std::is_convertible_v<range_sets::detail::open<Number>, range_sets::detail::ends<T>>,
        std::is_constructible_v<range_set<T>, const pair *, const pair *>,
        has_values<T, std::vector<Number>>,
        std::is_convertible_v<Number, range_sets::detail::integer<T>>,
    };
    unsigned count = 0;
    for (const bool it : made) count += it;
    return count == 0 ? NONE : count == sizeof(made) ? ALL : SOME;
}

// What becomes a number of another type.
template <class Number> struct wrapped {
    operator Number() const { return 5; }
};
enum wide : long long { ABOVE_ALL = 1LL << 40 };

// Numbers that would be cut make no set, so that such a program doesn't compile; integers of other types do, and are looked at.
template <class T> static void narrow()
{
    using chunks = chunked_range_set<T>;
    static_assert(are_made<T, T>() == ALL && are_made<T, T, chunks>() == ALL && are_made<T, wrapped<T>>() == ALL, "of its type");
    static_assert(are_made<T, std::int64_t>() == ALL && are_made<T, char, chunks>() == ALL && are_made<T, wide>() == ALL, "of others");
    static_assert(are_made<T, double>() == NONE && are_made<T, float, chunks>() == NONE && are_made<T, long double>() == NONE, "cut");
    static_assert(are_made<T, wrapped<double>>() == NONE && are_made<T, wrapped<float>, chunks>() == NONE, "cut by a conversion");
    static_assert(are_made<T, const char *>() == NONE && are_made<T, std::string, chunks>() == NONE, "none");
    bool thrown = false;
    try {
        static_cast<void>(range_set<T>().contains(ABOVE_ALL));
    } catch (const std::out_of_range &) {
        thrown = true;
    }
    check(thrown == (sizeof(T) == 4), "a number of an enum");
}

template <class T> static void all()
{
    braces<T>();
    open_ends<T>();
    sets_in_braces<T>();
    narrow<T>();
}

// Points in time too.
static void points_in_time()
{
    using namespace std::chrono_literals;
    using minute = std::chrono::time_point<std::chrono::system_clock, std::chrono::duration<int, std::ratio<60>>>;
    const minute day{};
    range_set<minute> set;
    set.insert({day + 9h, day + 10h}).insert(from(day + 20h));
    check(set.text() == "540..600, 1200.." && (set -= {{day + 9h, day + 9h + 1min}, from(day + 21h)}).covered() == 119u, "times in braces");
    check((range<minute>{day + 9h, day + 10h}.has_end) && range<minute>{day}.end == minute::max(), "a range of times");
    static_assert(!std::is_constructible_v<range_set<minute>, std::vector<std::pair<int, int>>>, "numbers are no times");
    static_assert(!std::is_convertible_v<std::chrono::hours, range_sets::detail::integer<minute>>, "nor are lengths");
    using second = std::chrono::time_point<std::chrono::system_clock, std::chrono::seconds>;
    using part = std::chrono::time_point<std::chrono::system_clock, std::chrono::duration<double, std::ratio<60>>>;
    static_assert(!std::is_constructible_v<range_set<minute>, std::vector<std::pair<second, second>>>, "seconds are cut to minutes");
    static_assert(!std::is_constructible_v<range_set<minute>, std::vector<std::pair<part, part>>>, "parts of minutes");
}

int main()
{
    all<int>();
    all<unsigned>();
    all<long>();
    all<unsigned long long>();
    points_in_time();
    std::printf("test_ranges: %ld checks\n", checks);
    return 0;
}
