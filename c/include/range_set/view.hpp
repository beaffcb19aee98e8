// SPDX-License-Identifier: MIT OR Apache-2.0
// Sets that are borrowed, and the iterators over their ranges and members.
#ifndef RANGE_SET_VIEW_HPP
#define RANGE_SET_VIEW_HPP

#include "questions.hpp"

#include <cstddef>
#include <functional>
#include <iterator>
#include <optional>
#include <string_view>
#include <utility>

#ifdef __cpp_lib_ranges
#include <ranges>
#endif

namespace range_sets {

namespace detail {

// The operators of an iterator that follow from its `++it`, `--it` and `==`.
template <class Iterator> struct stepping {
    friend Iterator operator++(Iterator &it, int) noexcept
    {
        const Iterator before = it;
        ++it;
        return before;
    }
    friend Iterator operator--(Iterator &it, int) noexcept
    {
        const Iterator before = it;
        --it;
        return before;
    }
    friend bool operator!=(const Iterator &a, const Iterator &b) noexcept { return !(a == b); }
};

// What `->` returns of an iterator that makes its items: it holds the item.
template <class Item> class arrow {
public:
    explicit arrow(const Item &it) noexcept : it_(it) {}
    const Item *operator->() const noexcept { return &it_; }

private:
    Item it_;
};

// The members of a set, from the lowest on and from the highest down, until the set changes.
template <class T> class members {
    using calls = detail::calls<T>;
    using place = typename calls::members;

public:
    class iterator : stepping<iterator> {
    public:
        using iterator_concept = std::bidirectional_iterator_tag;
        using iterator_category = std::input_iterator_tag;
        using value_type = T;
        using difference_type = std::ptrdiff_t;
        using reference = T;
        using pointer = void;

        iterator() noexcept = default;
        explicit iterator(place at) noexcept : at_(at) {}

        reference operator*() const noexcept { return element<T>::out(at_.value); }
        iterator &operator++() noexcept
        {
            calls::members_next(&at_);
            return *this;
        }
        iterator &operator--() noexcept
        {
            if (at_.has_value) calls::members_prev(&at_);
            else at_ = calls::members_last(at_.set);
            return *this;
        }

        // Of two iterators of one set.
        friend bool operator==(const iterator &a, const iterator &b) noexcept
        {
            return a.at_.has_value == b.at_.has_value && (!a.at_.has_value || a.at_.value == b.at_.value);
        }

    private:
        // At no member it is past all.
        place at_ = {};
    };
    using const_iterator = iterator;

    explicit members(typename calls::set set) noexcept : set_(set) {}
    iterator begin() const noexcept { return iterator(calls::members_first(set_)); }
    iterator end() const noexcept
    {
        place past = {};
        past.set = set_;
        return iterator(past);
    }

private:
    typename calls::set set_;
};

} // namespace detail

// A set that is borrowed.
template <class T> class range_set_view : detail::operators<T>, public detail::list_questions<T, range_set_view<T>> {
    using calls = detail::calls<T>;
    using number = typename calls::value;
    using integer = detail::integer<T>;

public:
    using value_type = range<T>;

    // Goes over the ranges of a set, by index. It makes each range that it is asked for, so it satisfies
    // std::random_access_iterator, and for algorithms before C++20 it is an input iterator. It stays good after the
    // view that it comes from, until the set changes.
    class iterator : detail::stepping<iterator> {
    public:
        using iterator_concept = std::random_access_iterator_tag;
        using iterator_category = std::input_iterator_tag;
        using value_type = range<T>;
        using difference_type = std::ptrdiff_t;
        using reference = range<T>;
        using pointer = detail::arrow<range<T>>;

        iterator() noexcept = default;
        iterator(typename calls::set set, std::size_t index) noexcept : set_(set), index_(index) {}

        reference operator*() const noexcept
        {
            return detail::found_range<T>(calls::get, set_, index_).value_or(range<T>());
        }
        pointer operator->() const noexcept { return pointer(**this); }
        reference operator[](difference_type by) const noexcept { return *(*this + by); }

        iterator &operator+=(difference_type by) noexcept
        {
            index_ += static_cast<std::size_t>(by);
            return *this;
        }
        iterator &operator-=(difference_type by) noexcept
        {
            index_ -= static_cast<std::size_t>(by);
            return *this;
        }
        iterator &operator++() noexcept { return *this += 1; }
        iterator &operator--() noexcept { return *this -= 1; }
        friend iterator operator+(iterator it, difference_type by) noexcept { return it += by; }
        friend iterator operator+(difference_type by, iterator it) noexcept { return it += by; }
        friend iterator operator-(iterator it, difference_type by) noexcept { return it -= by; }
        friend difference_type operator-(const iterator &a, const iterator &b) noexcept
        {
            return static_cast<difference_type>(a.index_) - static_cast<difference_type>(b.index_);
        }

        // Of two iterators of one set.
        friend bool operator==(const iterator &a, const iterator &b) noexcept { return a.index_ == b.index_; }
        friend bool operator<(const iterator &a, const iterator &b) noexcept { return a.index_ < b.index_; }
        friend bool operator>(const iterator &a, const iterator &b) noexcept { return a.index_ > b.index_; }
        friend bool operator<=(const iterator &a, const iterator &b) noexcept { return a.index_ <= b.index_; }
        friend bool operator>=(const iterator &a, const iterator &b) noexcept { return a.index_ >= b.index_; }

    private:
        typename calls::set set_ = {};
        std::size_t index_ = 0;
    };
    using const_iterator = iterator;

    // The set without a member.
    range_set_view() noexcept = default;
    // A set that a call of range_set.h made. Where its boundaries are null it is empty, whatever its length is.
    explicit range_set_view(typename calls::set set) noexcept : set_{set.boundaries, set.boundaries != nullptr ? set.len : 0} {}
    // The set with these boundaries, or nothing where they aren't strictly sorted.
    static std::optional<range_set_view> of(const T *boundaries, std::size_t len) noexcept
    {
        typename calls::set set = {};
        if (calls::view(reinterpret_cast<const number *>(boundaries), len, &set) != RANGE_SET_DONE) return std::nullopt;
        return range_set_view(set);
    }

    // The ranges, and the members one by one.
    iterator begin() const noexcept { return iterator(set_, 0); }
    iterator end() const noexcept { return iterator(set_, this->size()); }
    detail::members<T> members() const noexcept { return detail::members<T>(set_); }

    // Two parts of the set's own list: one has its members below `at`, and one those from `at` on. A range that goes over `at` has no
    // end in the first, and its start in the second.
    std::pair<range_set_view, range_set_view> split(integer at) const noexcept
    {
        typename calls::set below = {}, from = {};
        calls::split(set_, at, &below, &from);
        return {range_set_view(below), range_set_view(from)};
    }

    // The set of range_set.h, which is borrowed too.
    typename calls::set set() const noexcept { return set_; }

private:
    template <class, class, class> friend class detail::questions;
    template <class, class, class> friend class detail::room_questions;

    typename calls::set inner() const noexcept { return set_; }

    typename calls::set set_ = {nullptr, 0};
};

} // namespace range_sets

// Equal sets have the same hash, also where one is a view. Goes over the boundaries once, and takes no memory.
template <class T> struct std::hash<range_sets::range_set_view<T>> {
    std::size_t operator()(const range_sets::detail::operand<T> &set) const noexcept
    {
        const std::string_view bytes(reinterpret_cast<const char *>(set.set.boundaries), set.set.len * sizeof(T));
        return std::hash<std::string_view>()(bytes);
    }
};

#ifdef __cpp_lib_ranges
// A view of C++20 too, whose iterators outlive it.
template <class T> inline constexpr bool std::ranges::enable_view<range_sets::range_set_view<T>> = true;
template <class T> inline constexpr bool std::ranges::enable_borrowed_range<range_sets::range_set_view<T>> = true;
#endif

#endif
