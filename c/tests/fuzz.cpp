// A fuzzer: bytes become two lists of small numbers and a range, and each call is compared with counting the boundaries at or
// below each number; or changes one after the other of a set in chunks or of a map, which are compared with an array; or a text.
//
//     clang++ -std=c++17 -fsanitize=fuzzer,address,undefined -Iinclude tests/fuzz.cpp ../dist/librange_set.a -o fuzz
//     ./fuzz -max_total_time=60
#include "range_set.hpp"

#include <cstdlib>
#include <limits>
#include <optional>
#include <vector>

using range_sets::chunked_range_set;
using range_sets::range_set;
using range_sets::range_set_view;

static void check(bool holds)
{
    if (!holds) std::abort();
}

// The next byte, or 0 after the last one.
static std::uint8_t next(const std::uint8_t *&bytes, std::size_t &size)
{
    if (size == 0) return 0;
    size--;
    return *bytes++;
}

template <class T> static std::vector<T> list(const std::uint8_t *&bytes, std::size_t &size)
{
    std::vector<T> items(next(bytes, size) % 16);
    for (T &item : items) item = static_cast<T>(next(bytes, size));
    return items;
}

template <class T> static bool is_member(const std::vector<T> &boundaries, T value)
{
    bool member = false;
    for (T it : boundaries) member ^= it <= value;
    return member;
}

template <class T> static void sets(const std::uint8_t *bytes, std::size_t size)
{
    const auto left = list<T>(bytes, size), right = list<T>(bytes, size);
    const T start = static_cast<T>(next(bytes, size)), end = static_cast<T>(next(bytes, size));
    const auto a = range_set_view<T>::of(left.data(), left.size()), b = range_set_view<T>::of(right.data(), right.size());
    bool sorted = true;
    for (std::size_t i = 1; i < left.size(); i++) sorted &= left[i - 1] < left[i];
    check(a.has_value() == sorted);
    if (!a || !b) return;
    range_set<T> put(*a), taken(*a);
    put.insert(start, end);
    taken.remove(start, end);
    const auto either = *a | *b, both = *a & *b, only = *a - *b, one = *a ^ *b, others = ~*a, gaps = a->gaps(start, end);
    bool meets = false, within = true, whole = true;
    for (unsigned byte = 0; byte < 256; byte++) {
        const T x = static_cast<T>(byte);
        const bool p = is_member(left, x), q = is_member(right, x), in_range = start <= x && x < end;
        check(a->contains(x) == p && either.contains(x) == (p || q) && both.contains(x) == (p && q));
        check(only.contains(x) == (p && !q) && one.contains(x) == (p != q) && others.contains(x) == !p);
        check(put.contains(x) == (p || in_range) && taken.contains(x) == (p && !in_range) && gaps.contains(x) == (!p && in_range));
        check(a->range_at(x).has_value() == p);
        meets |= p && q, within &= !p || q, whole &= !in_range || p;
    }
    check(a->intersects(*b) == meets && a->is_subset(*b) == within && a->contains_range(start, end) == whole);
    check((*a == *b) == (left == right) && (*a < *b) == (left < right) && a->covered().has_value() == (left.size() % 2 == 0));
}

// Whether `holds` holds of each number from `start` to below `end`.
template <class T, class Holds> static bool all_of(T start, T end, Holds holds)
{
    for (; start < end; start++) {
        if (!holds(start)) return false;
    }
    return true;
}

// The least number from `start` to below `end` of which `holds` holds, or nothing.
template <class T, class Holds> static std::optional<T> first_of(T start, T end, Holds holds)
{
    for (; start < end; start++) {
        if (holds(start)) return start;
    }
    return std::nullopt;
}

// What lies beside a number, and where a row of numbers is free or taken.
template <class T> static void places(const std::uint8_t *bytes, std::size_t size)
{
    using count = std::make_unsigned_t<T>;
    constexpr T LIMIT = 300;
    const auto boundaries = list<T>(bytes, size);
    const auto set = range_set_view<T>::of(boundaries.data(), boundaries.size());
    if (!set) return;
    const T from = static_cast<T>(next(bytes, size)), end = static_cast<T>(next(bytes, size));
    const count few = next(bytes, size) % 32, align = next(bytes, size) % 16;
    const auto is_in = [&](T x) { return is_member(boundaries, x); };
    const auto is_out = [&](T x) { return !is_member(boundaries, x); };
    const auto fits = [&](T x) {
        return few <= static_cast<count>(end - x) && all_of<T>(x, static_cast<T>(x + static_cast<T>(few)), is_out);
    };
    const auto is_row = [&](T x) {
        return few <= static_cast<count>(end - x) && all_of<T>(x, static_cast<T>(x + static_cast<T>(few)), is_in);
    };
    check(set->next_member(from) == first_of<T>(from, LIMIT, is_in) && set->next_gap(from) == first_of<T>(from, LIMIT, is_out));
    std::optional<T> member, gap;
    std::uint64_t below = 0;
    for (T x = 0; x <= from; x++) (is_in(x) ? member : gap) = x;
    for (T x = 0; x < from; x++) below += is_in(x);
    if (!gap && std::numeric_limits<T>::min() < 0) gap = T(-1);
    check(set->prev_member(from) == member && set->prev_gap(from) == gap);
    check(set->rank(from) == below && (!is_in(from) || set->select(below) == from));
    check(set->intersects_range(from, end) == first_of<T>(from, end, is_in).has_value());
    if (few == 0) return;
    check(
        set->first_fit(from, end, few) == first_of<T>(from, end, fits) && set->first_run(from, end, few) == first_of<T>(from, end, is_row));
    const auto fits_aligned = [&](T x) { return static_cast<count>(x) % align == 0 && fits(x); };
    check(set->first_fit_aligned(from, end, few, align) == (align == 0 ? std::nullopt : first_of<T>(from, end, fits_aligned)));
    if (boundaries.size() % 2 == 1) return;
    std::uint64_t k = 0;
    for (const T x : set->members()) check(is_in(x) && set->select(k++) == x);
    check(set->covered() == k && !set->select(k));
}

// Numbers up to here are in an array, and those from here on go alike.
constexpr unsigned REACH = 4096;

// A number below REACH.
static unsigned number_from(const std::uint8_t *&bytes, std::size_t &size)
{
    const unsigned high = next(bytes, size);
    return (high << 8 | next(bytes, size)) % REACH;
}

// Changes of a set in chunks. Many small ranges at once fill more than one chunk.
template <class T> static void chunked(const std::uint8_t *bytes, std::size_t size)
{
    chunked_range_set<T> set;
    std::vector<bool> in(REACH + 1);
    const auto fill = [&](unsigned start, unsigned end, bool value) {
        for (; start < end; start++) in[start] = value;
    };
    while (size > 0) {
        const unsigned call = next(bytes, size) % 8, start = number_from(bytes, size), end = number_from(bytes, size);
        const T from = static_cast<T>(start), to = static_cast<T>(end);
        switch (call) {
        case 0: set.insert(from, to), fill(start, end, true); break;
        case 1: set.remove(from, to), fill(start, end, false); break;
        case 2: set.insert_from(from), fill(start, REACH + 1, true); break;
        case 3: set.remove_from(from), fill(start, REACH + 1, false); break;
        case 4: set = chunked_range_set<T>(set); break;
        case 5: set = chunked_range_set<T>(set.set()); break;
        default:
            for (unsigned x = start; x < end; x += 2 + call % 2) {
                const T one = static_cast<T>(x), after = static_cast<T>(x + 1);
                call == 6 ? set.insert(one, after) : set.remove(one, after);
                in[x] = call == 6;
            }
        }
        const auto is_in = [&](T x) { return in[static_cast<unsigned>(x)]; };
        const auto is_out = [&](T x) { return !in[static_cast<unsigned>(x)]; };
        check(set.contains(from) == is_in(from) && set.contains(to) == is_in(to));
        check(set.contains_range(from, to) == all_of<T>(from, to, is_in));
        check(set.intersects_range(from, to) == first_of<T>(from, to, is_in).has_value());
        check(set.next_member(from) == first_of<T>(from, REACH + 1, is_in) && set.next_gap(from) == first_of<T>(from, REACH + 1, is_out));
        const T few = static_cast<T>(1 + call);
        const auto fits = [&](T x) { return few <= to - x && all_of<T>(x, static_cast<T>(x + few), is_out); };
        check(set.first_fit(from, to, static_cast<std::make_unsigned_t<T>>(few)) == first_of<T>(from, to, fits));
        const auto next_one = set.begin_from(from);
        const auto start_of_next = set.next_member(from);
        check((next_one == set.end()) == !start_of_next && (!start_of_next || set.range_at(*start_of_next) == *next_one));
        check(!start_of_next || (set.range_from(from) == *next_one && set.prev_member(*start_of_next) == start_of_next));
    }
    unsigned at = 0;
    std::size_t ranges = 0;
    std::uint64_t members = 0;
    for (unsigned x = 0; x <= REACH; x++) {
        if (x % 64 == 0) check(set.rank(static_cast<T>(x)) == members && (!in[x] || set.select(members) == static_cast<T>(x)));
        members += in[x];
    }
    check(in[REACH] ? !set.covered() : set.covered() == members);
    for (const auto &range : set) {
        for (; at < static_cast<unsigned>(range.start); at++) check(!in[at]);
        for (; at < (range.has_end ? static_cast<unsigned>(range.end) : REACH + 1); at++) check(in[at]);
        ranges++;
    }
    for (; at <= REACH; at++) check(!in[at]);
    const auto whole = set.set();
    check(set.size() == ranges && whole.size() == ranges && set.empty() == (ranges == 0));
    for (unsigned x = 0; x <= REACH; x++) check(whole.contains(static_cast<T>(x)) == in[x]);
}

// Changes of a map, whose calls begin with MAP.
#define MAP_CHANGES(NAME, MAP, T) \
    static void NAME(const std::uint8_t *bytes, std::size_t size) \
    { \
        MAP map; \
        std::vector<std::optional<std::uint64_t>> values(257); \
        check(MAP##_new(&map) == RANGE_SET_DONE); \
        while (size > 0) { \
            const unsigned call = next(bytes, size), start = next(bytes, size), end = call & 4 ? 257 : next(bytes, size); \
            const std::uint64_t value = next(bytes, size) % 3; \
            const T from = static_cast<T>(start), to = static_cast<T>(end); \
            range_set_status status; \
            if (call & 1) status = call & 4 ? MAP##_remove_from(&map, from) : MAP##_remove(&map, from, to); \
            else status = call & 4 ? MAP##_insert_from(&map, from, value) : MAP##_insert(&map, from, to, value); \
            check(status == RANGE_SET_DONE); \
            for (unsigned x = start; x < end; x++) values[x] = call & 1 ? std::nullopt : std::optional(value); \
        } \
        std::size_t len = 0; \
        for (unsigned x = 0; x < 257; x++) { \
            std::uint64_t value = 9; \
            check(MAP##_get(map, static_cast<T>(x), &value) == values[x].has_value() && value == values[x].value_or(9)); \
            len += values[x] && (x == 0 || values[x] != values[x - 1]); \
            const auto it = MAP##_range_at(map, static_cast<T>(x)); \
            unsigned first = x, last = x; \
            while (first > 0 && values[first - 1] == values[x]) first--; \
            while (last < 256 && values[last + 1] == values[x]) last++; \
            check(it.has_value == values[x].has_value() && (!it.has_value || it.value == *values[x])); \
            check(it.has_end == (last < 256) && (!it.has_end || it.end == static_cast<T>(last + 1))); \
            check(it.has_start == (first > 0 || it.has_value) && (!it.has_start || it.start == static_cast<T>(first))); \
        } \
        check(MAP##_len(map) == len); \
        MAP##_free(&map); \
    }
MAP_CHANGES(map_i64, range_map_i64, std::int64_t)
MAP_CHANGES(map_u64, range_map_u64, std::uint64_t)

// Ranges in any order.
template <class T> static void ranges(const std::uint8_t *bytes, std::size_t size)
{
    std::vector<std::pair<T, T>> pairs(next(bytes, size) % 24);
    for (auto &[start, end] : pairs) start = static_cast<T>(next(bytes, size)), end = static_cast<T>(next(bytes, size));
    const range_set<T> set(pairs);
    for (unsigned byte = 0; byte < 256; byte++) {
        const T x = static_cast<T>(byte);
        bool member = false;
        for (const auto &[start, end] : pairs) member |= start <= x && x < end;
        check(set.contains(x) == member);
    }
}

// A text: where it is refused nothing is written, and else the set's own text reads back. What parse reads parse_by does, by commas; and by
// another byte what is refused lies in the text.
static void text(const std::uint8_t *bytes, std::size_t size)
{
    constexpr std::size_t ROOM = 64;
    std::vector<std::int64_t> numbers(ROOM, 7), again(ROOM);
    std::vector<char> written(22 * ROOM);
    range_set_i64 set, same;
    std::size_t fault = SIZE_MAX, len = 0;
    const auto *letters = reinterpret_cast<const char *>(bytes);
    const auto status = range_set_i64_parse(letters, size, numbers.data(), ROOM, &set, &fault);
    for (const char separator : {'\n', ','}) {
        std::size_t fault_by = SIZE_MAX;
        const auto by = range_set_i64_parse_by(letters, size, separator, again.data(), ROOM, &same, &fault_by);
        check(by == RANGE_SET_MALFORMED || by == RANGE_SET_OUT_OF_RANGE ? fault_by <= size : fault_by == SIZE_MAX);
        if (separator == ',' && status != RANGE_SET_MALFORMED) check(by == status && fault_by == fault);
        if (separator == ',' && status == RANGE_SET_DONE) check(range_set_i64_equal(set, same));
    }
    check(status == RANGE_SET_MALFORMED ? fault <= size : status == RANGE_SET_OUT_OF_RANGE ? fault < size : fault == SIZE_MAX);
    if (status != RANGE_SET_DONE) {
        check(status == RANGE_SET_MALFORMED || status == RANGE_SET_OUT_OF_RANGE || (status == RANGE_SET_NO_ROOM && set.len > ROOM));
        check(numbers == std::vector<std::int64_t>(ROOM, 7));
        return;
    }
    check(range_set_i64_print(set, written.data(), written.size(), &len) == RANGE_SET_DONE);
    check(range_set_i64_parse(written.data(), len, again.data(), ROOM, &same, nullptr) == RANGE_SET_DONE);
    check(range_set_i64_equal(set, same));
}

extern "C" int LLVMFuzzerTestOneInput(const std::uint8_t *bytes, std::size_t size)
{
    const std::uint8_t which = next(bytes, size);
    switch (which % 19) {
    case 0: sets<std::int32_t>(bytes, size); break;
    case 1: sets<std::uint32_t>(bytes, size); break;
    case 2: sets<std::int64_t>(bytes, size); break;
    case 3: sets<std::uint64_t>(bytes, size); break;
    case 4: ranges<std::int32_t>(bytes, size); break;
    case 5: ranges<std::uint32_t>(bytes, size); break;
    case 6: ranges<std::int64_t>(bytes, size); break;
    case 7: ranges<std::uint64_t>(bytes, size); break;
    case 8: places<std::int32_t>(bytes, size); break;
    case 9: places<std::uint32_t>(bytes, size); break;
    case 10: places<std::int64_t>(bytes, size); break;
    case 11: places<std::uint64_t>(bytes, size); break;
    case 12: chunked<std::int32_t>(bytes, size); break;
    case 13: chunked<std::uint32_t>(bytes, size); break;
    case 14: chunked<std::int64_t>(bytes, size); break;
    case 15: chunked<std::uint64_t>(bytes, size); break;
    case 16: map_i64(bytes, size); break;
    case 17: map_u64(bytes, size); break;
    default: text(bytes, size); break;
    }
    return 0;
}
