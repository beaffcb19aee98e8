// SPDX-License-Identifier: MIT OR Apache-2.0
// The questions of sets, and their operators.
#ifndef RANGE_SET_QUESTIONS_HPP
#define RANGE_SET_QUESTIONS_HPP

#include "elements.hpp"

#include <algorithm>
#include <cstddef>
#include <cstdint>
#include <initializer_list>
#include <optional>
#include <ostream>
#include <string>
#include <type_traits>
#include <utility>

#ifdef __cpp_lib_three_way_comparison
#include <compare>
#endif

namespace range_sets {

namespace detail {

// Whether it is a set of either kind.
template <class T, class Set>
constexpr bool is_set = std::is_same_v<std::decay_t<Set>, range_set<T>> || std::is_convertible_v<std::decay_t<Set> &, range_set_view<T>>;

// A set that a call takes: one of either kind, or its ranges in braces. It may be a temporary, which lives until the call has ended.
template <class T> struct operand {
    operand(range_set_view<T> from) noexcept : set(from.set()) {}
    operand(const range_set<T> &from) noexcept : set(from.view().set()) {}
    operand(std::initializer_list<ends<T>> ranges) : operand(std::optional<range_set<T>>(ranges)) {}
    operand(const operand &) = delete;
    operand &operator=(const operand &) = delete;

protected:
    explicit operand(std::optional<range_set<T>> from) : owned_(std::move(from)), set(owned_->view().set()) {}
    explicit operand(typename chunked_calls<T>::set from) noexcept : set(), chunks(from) {}

private:
    std::optional<range_set<T>> owned_;

public:
    const typename calls<T>::set set;
    // A set in chunks that is asked as it is, and then the list is empty.
    const typename chunked_calls<T>::set chunks = {};
};

// The same, or a set in chunks, of which the call makes a list.
template <class T> struct listed : operand<T> {
    using operand<T>::operand;
    listed(const chunked_range_set<T> &from) : operand<T>(std::optional<range_set<T>>(from.set())) {}
};

// The same, and no list is made.
template <class T> struct either : operand<T> {
    using operand<T>::operand;
    either(const chunked_range_set<T> &from) noexcept : operand<T>(from.inner()) {}
};

// What a call says of two sets: that for lists, that for sets in chunks, or that for one in chunks and a list, in this order or the other.
template <class T, class Lists, class Chunks, class Before, class Behind>
bool related(const operand<T> &a, const operand<T> &b, Lists lists, Chunks chunks, Before before, Behind behind) noexcept
{
    if (a.chunks.at == nullptr) return b.chunks.at == nullptr ? lists(a.set, b.set) : behind(b.chunks, a.set);
    return b.chunks.at == nullptr ? before(a.chunks, b.set) : chunks(a.chunks, b.chunks);
}

// The operators. Two lists make a range_set, and if one set at least is in chunks, so is the result.
template <class T, class Operand = operand<T>, class Made = range_set<T>> struct operators {
    friend Made operator|(const Operand &a, const Operand &b) { return made(a, b, RANGE_SET_UNION); }
    friend Made operator&(const Operand &a, const Operand &b) { return made(a, b, RANGE_SET_INTERSECTION); }
    friend Made operator-(const Operand &a, const Operand &b) { return made(a, b, RANGE_SET_DIFFERENCE); }
    friend Made operator^(const Operand &a, const Operand &b) { return made(a, b, RANGE_SET_SYMMETRIC_DIFFERENCE); }
    friend Made operator~(const Operand &a) { return Made(viewed(a).negation()); }
    friend bool operator==(const Operand &a, const Operand &b) noexcept { return calls<T>::equal(a.set, b.set); }
    friend bool operator!=(const Operand &a, const Operand &b) noexcept { return !calls<T>::equal(a.set, b.set); }

    // The order of `compare`, which is that of sets in Rust. No order says which set lies in another: `is_subset` does.
    friend bool operator<(const Operand &a, const Operand &b) noexcept { return viewed(a).compare(viewed(b)) < 0; }
    friend bool operator>(const Operand &a, const Operand &b) noexcept { return viewed(a).compare(viewed(b)) > 0; }
    friend bool operator<=(const Operand &a, const Operand &b) noexcept { return viewed(a).compare(viewed(b)) <= 0; }
    friend bool operator>=(const Operand &a, const Operand &b) noexcept { return viewed(a).compare(viewed(b)) >= 0; }
#ifdef __cpp_lib_three_way_comparison
    friend std::strong_ordering operator<=>(const Operand &a, const Operand &b) noexcept { return viewed(a).compare(viewed(b)) <=> 0; }
#endif

    // Writes what `text` returns, as one text for a width. Where memory for it is refused nothing is written.
    friend std::ostream &operator<<(std::ostream &out, const Operand &a) { return out << viewed(a).text(); }

private:
    static range_set_view<T> viewed(const Operand &a) noexcept { return range_set_view<T>(a.set); }
    static Made made(const Operand &a, const Operand &b, unsigned keep) { return Made(range_set<T>::combine(viewed(a), viewed(b), keep)); }
};

// Questions of sets of all kinds, by the calls of their kind. Each takes two searches at most, but `rank`, `select` and `covered`
// look at each boundary up to the result, `first_run` at those from `start` on, and `size` of a set in chunks adds up the chunks.
template <class T, class Set, class Calls> class questions {
    using integer = detail::integer<T>;
    using amount = detail::amount<T>;

public:
    bool contains(integer value) const noexcept { return Calls::contains(asked(), value); }
    bool contains_range(integer start, integer end) const noexcept { return Calls::contains_range(asked(), start, end); }
    bool intersects_range(integer start, integer end) const noexcept { return Calls::intersects_range(asked(), start, end); }
    bool empty() const noexcept { return Calls::is_empty(asked()); }
    bool is_all() const noexcept { return Calls::is_all(asked()); }

    // How many ranges there are.
    std::size_t size() const noexcept { return Calls::ranges_len(asked()); }
    // How many numbers are members, or nothing where the set has no end. Points in time are counted by their ticks, also by `rank`.
    std::optional<std::uint64_t> covered() const noexcept { return found<std::uint64_t>(Calls::covered, asked()); }
    // The range that holds the number, or nothing where it is no member.
    std::optional<range<T>> range_at(integer value) const noexcept { return found_range<T>(Calls::range_at, asked(), value); }
    // The range that holds the number, or else the next one above it, or nothing.
    std::optional<range<T>> range_from(integer value) const noexcept { return found_range<T>(Calls::range_from, asked(), value); }
    // The first and the last range, or nothing.
    std::optional<range<T>> first() const noexcept { return found_range<T>(Calls::first, asked()); }
    std::optional<range<T>> last() const noexcept { return found_range<T>(Calls::last, asked()); }

    // The least number at or above `from` that is a member, that isn't one, or nothing.
    std::optional<T> next_member(integer from) const noexcept { return found<T>(Calls::next_member, asked(), from); }
    std::optional<T> next_gap(integer from) const noexcept { return found<T>(Calls::next_gap, asked(), from); }
    // The greatest number at or below `from` that is a member, that isn't one, or nothing.
    std::optional<T> prev_member(integer from) const noexcept { return found<T>(Calls::prev_member, asked(), from); }
    std::optional<T> prev_gap(integer from) const noexcept { return found<T>(Calls::prev_gap, asked(), from); }
    // How many members are below a number.
    std::uint64_t rank(integer at) const noexcept { return Calls::rank(asked(), at); }
    // The member with `k` others below it, or nothing.
    std::optional<T> select(detail::integer<std::uint64_t> k) const noexcept { return found<T>(Calls::select, asked(), k); }
    // The least number from which on `count` members in a row lie in `start` to below `end`, or nothing.
    std::optional<T> first_run(integer start, integer end, amount count) const noexcept { return first_run(range<T>{start, end}, count); }
    // The same in a range, which may have no end: `set.first_run(from(9), 2)`.
    std::optional<T> first_run(const range<T> &within, amount count) const noexcept
    {
        return found_in(within, Calls::first_run, Calls::first_run_from, asked(), count);
    }

protected:
    // The set of range_set.h.
    typename Calls::set asked() const noexcept { return static_cast<const Set &>(*this).inner(); }
};

// Whether a set is a list itself, of which no copy is made.
template <class T, class Set> constexpr bool is_list = std::is_nothrow_constructible_v<listed<T>, const Set &>;

// Questions of two sets, or of many values. `contains_each` and `compare` make lists of sets in chunks.
template <class T, class Set> class relations {
    using calls = detail::calls<T>;
    using chunked = detail::chunked_calls<T>;
    using number = typename calls::value;

public:
    // Writes for each of the values whether it is a member: in ascending order at a few comparisons each. It is false, and nothing is
    // written, where a pointer is null, or `found` overlaps the values or the set.
    bool contains_each(const T *values, std::size_t count, bool *found) const noexcept(is_list<T, Set>)
    {
        return calls::contains_each(list().set, reinterpret_cast<const number *>(values), count, found) == RANGE_SET_DONE;
    }

    bool is_disjoint(const either<T> &other) const noexcept { return !intersects(other); }
    bool intersects(const either<T> &other) const noexcept
    {
        return related<T>(it(), other, calls::intersects, chunked::intersects, chunked::intersects_list, chunked::intersects_list);
    }
    bool is_subset(const either<T> &other) const noexcept { return is_part(it(), other); }
    bool is_superset(const either<T> &other) const noexcept { return is_part(other, it()); }

    // Below 0 where this set comes first, above 0 where the other does, and 0 where they are equal. The first boundaries
    // that differ decide, and where there are none, the fewer boundaries. Compares at most the boundaries of the shorter set.
    int compare(const listed<T> &other) const noexcept(is_list<T, Set>)
    {
        const listed<T> list = this->list();
        const auto set = list.set, with = other.set;
        const number *const end = set.boundaries + set.len, *const other_end = with.boundaries + with.len;
        const auto [it, that] = std::mismatch(set.boundaries, end, with.boundaries, other_end);
        if (it == end || that == other_end) return static_cast<int>(it != end) - static_cast<int>(that != other_end);
        return *it < *that ? -1 : 1;
    }

private:
    static bool is_part(const either<T> &a, const either<T> &b) noexcept
    {
        return related<T>(a, b, calls::is_subset, chunked::is_subset, chunked::is_subset_list, chunked::is_superset_list);
    }
    either<T> it() const noexcept { return static_cast<const Set &>(*this); }
    listed<T> list() const noexcept(is_list<T, Set>) { return static_cast<const Set &>(*this); }
};

// Where numbers fit beside the members of a list, or the keys of a map.
template <class T, class Set, class Calls> class room_questions {
    using integer = detail::integer<T>;
    using amount = detail::amount<T>;

public:
    // The least number from which on `count` numbers lie in `start` to below `end` and none is a member, or a key that has a value; or
    // nothing. Each looks at the ranges from `start` on, up to the result.
    std::optional<T> first_fit(integer start, integer end, amount count) const noexcept { return first_fit(range<T>{start, end}, count); }
    // The same, but only where the first is a multiple of `align`, above 0 or below.
    std::optional<T> first_fit_aligned(integer start, integer end, amount count, amount align) const noexcept
    {
        return first_fit_aligned(range<T>{start, end}, count, align);
    }
    // Both in a range, which may have no end: `set.first_fit(from(9), 2)`.
    std::optional<T> first_fit(const range<T> &within, amount count) const noexcept
    {
        return found_in(within, Calls::first_fit, Calls::first_fit_from, static_cast<const Set &>(*this).inner(), count);
    }
    std::optional<T> first_fit_aligned(const range<T> &within, amount count, amount align) const noexcept
    {
        const auto set = static_cast<const Set &>(*this).inner();
        return found_in(within, Calls::first_fit_aligned, Calls::first_fit_aligned_from, set, count, align);
    }
};

// Questions of lists beside these: of sets and views.
template <class T, class Set>
class list_questions : public questions<T, Set, calls<T>>, public relations<T, Set>, public room_questions<T, Set, calls<T>> {
    using calls = detail::calls<T>;
    using number = typename calls::value;
    using integer = detail::integer<T>;

public:
    // The numbers from `start` to below `end` that are no members, those that are, and all that are none. The first two pass over
    // the rest of the set by a search, as `week - busy` and `week & busy` do of a week.
    range_set<T> gaps(integer start, integer end) const
    {
        const auto set = this->asked();
        return range_set<T>::written(
            set.len + 2, [&](number *out, std::size_t room, auto *gaps) { return calls::gaps(set, start, end, out, room, gaps); });
    }
    range_set<T> ranges_within(integer start, integer end) const
    {
        const T window[] = {start, end};
        return range_set<T>::combine(
            range_set_view<T>(this->asked()), range_set_view<T>::of(window, 2).value_or(range_set_view<T>()), RANGE_SET_INTERSECTION);
    }
    range_set<T> negation() const
    {
        const auto set = this->asked();
        return range_set<T>::written(
            set.len + 1, [&](number *out, std::size_t room, auto *others) { return calls::negation(set, out, room, others); });
    }

    // The ranges as a text, "0..10, 20..".
    std::string text() const
    {
        std::size_t len = 0;
        static_cast<void>(calls::print(this->asked(), nullptr, 0, &len));
        std::string text(len, ' ');
        static_cast<void>(calls::print(this->asked(), text.data(), len, &len));
        return text;
    }
};

} // namespace detail

} // namespace range_sets

#endif
