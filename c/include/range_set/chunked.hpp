// SPDX-License-Identifier: MIT OR Apache-2.0
// Sets in chunks.
#ifndef RANGE_SET_CHUNKED_HPP
#define RANGE_SET_CHUNKED_HPP

#include "set.hpp"

#include <array>
#include <cstddef>
#include <cstdint>
#include <initializer_list>
#include <iterator>
#include <limits>
#include <optional>
#include <string>
#include <type_traits>
#include <utility>

namespace range_sets {

namespace detail {

// What owns a set in chunks or a map of range_set.h, by its calls. It is made by its first change: before, there is none, which takes no
// memory.
template <class Calls> struct owner {
    owner() noexcept = default;
    owner(owner &&other) noexcept { std::swap(it, other.it); }
    owner &operator=(owner &&other) noexcept
    {
        std::swap(it, other.it);
        return *this;
    }
    ~owner() { Calls::free(&it); }

    template <class Call, class... Numbers> void change(Call call, Numbers... numbers)
    {
        if (it.at == nullptr) check_memory(Calls::make(&it));
        check_memory(call(&it, numbers...));
    }

    typename Calls::owned it = {};
};

} // namespace detail

// A set that is changed range by range, and may grow to millions of ranges: a change takes about as long in a large set as in a
// small one. Threads may share a set that none changes, and make calls of it that are const.
template <class T>
class chunked_range_set : detail::operators<T, detail::listed<T>, chunked_range_set<T>>,
                          public detail::questions<T, chunked_range_set<T>, detail::chunked_calls<T>>,
                          public detail::relations<T, chunked_range_set<T>>,
                          public detail::changes<T, chunked_range_set<T>, detail::chunked_calls<T>> {
    using calls = detail::chunked_calls<T>;
    using list = typename detail::calls<T>::set;
    using number = typename detail::calls<T>::value;
    using element = detail::element<T>;
    using integer = detail::integer<T>;
    using amount = detail::amount<T>;

public:
    using value_type = range<T>;

    // Goes over the ranges, and reads some of them at a time. It is good until the set changes.
    class iterator : detail::stepping<iterator> {
    public:
        using iterator_category = std::input_iterator_tag;
        using value_type = range<T>;
        using difference_type = std::ptrdiff_t;
        using pointer = const range<T> *;
        using reference = const range<T> &;

        iterator() noexcept = default;
        iterator(typename calls::set set, number from) noexcept : set_(set)
        {
            read(from);
            show();
        }

        reference operator*() const noexcept { return it_; }
        pointer operator->() const noexcept { return &it_; }
        iterator &operator++() noexcept
        {
            at_ += 2;
            if (at_ == room && it_.has_end) read(element::in(it_.end));
            show();
            return *this;
        }

        // Of two iterators of one set.
        friend bool operator==(const iterator &a, const iterator &b) noexcept
        {
            return a.is_there() == b.is_there() && (!a.is_there() || a.it_.start == b.it_.start);
        }

    private:
        // The numbers of thirty-two ranges.
        static constexpr std::size_t room = 64;

        bool is_there() const noexcept { return at_ < len_; }
        void read(number from) noexcept
        {
            list some = {};
            static_cast<void>(calls::next_ranges(set_, from, some_.data(), room, &some));
            at_ = 0;
            len_ = some.len;
        }
        // The last range has no end where there is an odd number of numbers.
        void show() noexcept
        {
            if (!is_there()) return;
            it_.start = element::out(some_[at_]);
            it_.has_end = at_ + 1 < len_;
            if (it_.has_end) it_.end = element::out(some_[at_ + 1]);
        }

        typename calls::set set_ = {};
        range<T> it_ = {};
        std::array<number, room> some_ = {};
        std::size_t at_ = 0, len_ = 0;
    };
    using const_iterator = iterator;

    // Goes over the members, until the set changes.
    class members_iterator : detail::stepping<members_iterator> {
    public:
        using iterator_category = std::input_iterator_tag;
        using value_type = T;
        using difference_type = std::ptrdiff_t;
        using pointer = void;
        using reference = T;

        members_iterator() noexcept = default;
        explicit members_iterator(const iterator &it) noexcept : it_(it), at_(element::in(it->start)) {}

        T operator*() const noexcept { return element::out(at_); }
        members_iterator &operator++() noexcept
        {
            const number last = it_->has_end ? element::in(it_->end) - 1 : std::numeric_limits<number>::max();
            at_ = at_ != last ? at_ + 1 : element::in((++it_)->start);
            return *this;
        }

        // Of two iterators of one set.
        friend bool operator==(const members_iterator &a, const members_iterator &b) noexcept
        {
            return a.it_ == b.it_ && (a.it_ == iterator() || a.at_ == b.at_);
        }

    private:
        iterator it_;
        number at_ = {};
    };

    // The set without a member. It takes no memory.
    chunked_range_set() noexcept = default;
    // A copy of a set.
    explicit chunked_range_set(const detail::operand<T> &from) { detail::check_memory(calls::of(from.set, &owner_.it)); }
    // The numbers in some of these ranges, as a range_set is made of them.
    chunked_range_set(std::initializer_list<detail::ends<T>> ranges) : chunked_range_set(range_set<T>(ranges)) {}
    template <class Ranges, class = std::enable_if_t<!detail::is_set<T, Ranges>>, class Iterator = detail::iterator_over<Ranges>,
              class = detail::if_ranges<T, Iterator>>
    explicit chunked_range_set(Ranges &&ranges) : chunked_range_set(range_set<T>(std::forward<Ranges>(ranges)))
    {
    }
    chunked_range_set(const chunked_range_set &other) : chunked_range_set(other.set()) {}
    chunked_range_set(chunked_range_set &&) noexcept = default;
    chunked_range_set &operator=(chunked_range_set other) noexcept
    {
        swap(other);
        return *this;
    }
    ~chunked_range_set() = default;

    // The set of single numbers; and of a text, or nothing if that isn't one of ranges. They take what
    // these calls of a range_set take.
    template <class Values> static chunked_range_set from_values(const Values &values)
    {
        return chunked_range_set(range_set<T>::from_values(values));
    }
    static chunked_range_set from_values(std::initializer_list<T> values) { return from_values<std::initializer_list<T>>(values); }
    template <class... Text> static std::optional<chunked_range_set> parse(const Text &...text)
    {
        const auto list = range_set<T>::parse(text...);
        return list ? std::optional<chunked_range_set>(*list) : std::nullopt;
    }

    void swap(chunked_range_set &other) noexcept { std::swap(owner_, other.owner_); }
    friend void swap(chunked_range_set &a, chunked_range_set &b) noexcept { a.swap(b); }

    // Puts all numbers from `start` on in, takes them out.
    chunked_range_set &insert_from(integer start) { return change(calls::insert_from, start); }
    chunked_range_set &remove_from(integer start) { return change(calls::remove_from, start); }
    // Takes all numbers out, and gives all memory back.
    void clear() noexcept { calls::free(&owner_.it); }

    // The least number from which on `count` numbers lie in `start` to below `end` and none is a member, or nothing; and the same
    // where it is a multiple of `align`. The set remembers what it learns of its gaps.
    std::optional<T> first_fit(integer start, integer end, amount count) noexcept { return first_fit(range<T>{start, end}, count); }
    std::optional<T> first_fit_aligned(integer start, integer end, amount count, amount align) noexcept
    {
        return first_fit_aligned(range<T>{start, end}, count, align);
    }
    // Both in a range, which may have no end.
    std::optional<T> first_fit(const range<T> &within, amount count) noexcept
    {
        return detail::found_in(within, calls::first_fit, calls::first_fit_from, &owner_.it, count);
    }
    std::optional<T> first_fit_aligned(const range<T> &within, amount count, amount align) noexcept
    {
        return detail::found_in(within, calls::first_fit_aligned, calls::first_fit_aligned_from, &owner_.it, count, align);
    }

    // The ranges, and those that have a number at or above another.
    iterator begin() const & noexcept { return iterator(inner(), std::numeric_limits<number>::min()); }
    iterator begin() const && = delete;
    iterator begin_from(integer value) const & noexcept { return iterator(inner(), value); }
    iterator begin_from(integer value) const && = delete;
    iterator end() const & noexcept { return iterator(); }
    iterator end() const && = delete;

    // The members one by one.
    struct members_range {
        members_iterator begin() const noexcept { return members_iterator(first); }
        members_iterator end() const noexcept { return members_iterator(); }
        iterator first;
    };
    members_range members() const & noexcept { return {begin()}; }
    members_range members() const && = delete;

    // The ranges that have a number from `start` to below `end`, whole; the numbers there that are members, and those that are none.
    // They go over the ranges there alone.
    range_set<T> overlapping(integer start, integer end) const
    {
        range_set_status status = RANGE_SET_MORE;
        range_set<T> found;
        for (std::size_t some = 64; status == RANGE_SET_MORE; some *= 8)
            found = range_set<T>::written(some, [&](number *out, std::size_t room, auto *set) {
                return status = calls::overlapping(inner(), start, end, out, room, set);
            });
        return found;
    }
    range_set<T> ranges_within(integer start, integer end) const { return overlapping(start, end).ranges_within(start, end); }
    range_set<T> gaps(integer start, integer end) const { return overlapping(start, end).gaps(start, end); }
    std::string text() const { return set().text(); }

    // The numbers that aren't members; and the members below `at`, and those from `at` on.
    chunked_range_set negation() const { return ~*this; }
    std::pair<chunked_range_set, chunked_range_set> split(integer at) const
    {
        const range_set<T> all = set();
        const auto [below, from] = all.split(at);
        return {chunked_range_set(below), chunked_range_set(from)};
    }

    // The same set as one list.
    range_set<T> set() const
    {
        return range_set<T>::written(calls::boundaries_len(inner()), [&](number *out, std::size_t room, auto *set) {
            return calls::copy(inner(), out, room, set);
        });
    }

    friend bool operator==(const chunked_range_set &a, const chunked_range_set &b) noexcept { return calls::equal(a.inner(), b.inner()); }
    friend bool operator!=(const chunked_range_set &a, const chunked_range_set &b) noexcept { return !(a == b); }

private:
    friend struct detail::either<T>;
    template <class, class, class> friend class detail::questions;
    template <class, class, class> friend class detail::changes;

    typename calls::set inner() const noexcept { return owner_.it; }

    template <class Call, class... Operands> chunked_range_set &change(Call call, Operands... operands)
    {
        owner_.change(call, operands...);
        return *this;
    }

    // What `chunked_combine` of range_set.h does, and at its cost.
    chunked_range_set &combine_with(const detail::listed<T> &other, unsigned keep) { return change(calls::combine, other.set, keep); }

    detail::owner<calls> owner_;
};

} // namespace range_sets

#endif
