// SPDX-License-Identifier: MIT OR Apache-2.0
// What the elements of sets are, how a call takes them as numbers, and what is thrown.
#ifndef RANGE_SET_ELEMENTS_HPP
#define RANGE_SET_ELEMENTS_HPP

#include "calls.hpp"

#include <cstddef>
#include <cstdint>
#include <cstdlib>
#include <limits>
#include <new>
#include <optional>
#include <stdexcept>
#include <type_traits>
#include <utility>

// What C++20 has is named there.
#if __has_include(<version>)
#include <version>
#endif

namespace range_sets {

using ::range_set_status;

template <class T> class range_set;
template <class T> class range_set_view;
template <class T> class chunked_range_set;

namespace detail {
template <class T, class = void> struct element;
template <class T> constexpr T greatest() noexcept;
} // namespace detail

// One range of a set: the numbers from `start` on, up to below `end` where it has an end. Two numbers in braces are its start and its
// end, and one alone a start, where the end is the greatest number. A range without an end is `from(start)`, or has a third item, false.
template <class T> struct range {
    T start = T();
    T end = detail::greatest<T>();
    bool has_end = true;

    friend bool operator==(const range &a, const range &b) noexcept
    {
        return a.start == b.start && a.has_end == b.has_end && (!a.has_end || a.end == b.end);
    }
    friend bool operator!=(const range &a, const range &b) noexcept { return !(a == b); }
};

namespace detail {

// Throws an error, or aborts the program where it has no exceptions.
template <class Error> [[noreturn]] void refuse(const Error &error)
{
#ifdef __cpp_exceptions
    throw error;
#else
    static_cast<void>(error);
    std::abort();
#endif
}

// Throws std::bad_alloc if a call had no memory.
inline void check_memory(range_set_status status)
{
    if (status == RANGE_SET_NO_MEMORY) refuse(std::bad_alloc());
}

// Whether it is an integer type of 32 or 64 bits. One of them may be another than the header's, as long long is where int64_t is long.
template <class T>
constexpr bool is_number = (std::is_same_v<T, int> || std::is_same_v<T, unsigned> || std::is_same_v<T, long>
                            || std::is_same_v<T, unsigned long> || std::is_same_v<T, long long> || std::is_same_v<T, unsigned long long>
                            || std::is_same_v<T, char32_t> || std::is_same_v<T, wchar_t>) && (sizeof(T) == 4 || sizeof(T) == 8);

// The header's type of the same width and sign.
template <class T>
using number_of = std::conditional_t<sizeof(T) == 4, std::conditional_t<std::is_signed_v<T>, std::int32_t, std::uint32_t>,
                                     std::conditional_t<std::is_signed_v<T>, std::int64_t, std::uint64_t>>;

// How an element is kept as a number: an integer as it is, and a point in time of std::chrono as its count. `in` makes the
// number of an element, and `out` the element of a number.
template <class T, class> struct element {
    static_assert(is_number<T>, "there are sets of integers of 32 and of 64 bits, and of points in time");
    using number = number_of<T>;
    static constexpr number in(T it) noexcept { return static_cast<number>(it); }
    static constexpr T out(number it) noexcept { return static_cast<T>(it); }
};

template <class T> struct element<T, std::void_t<typename T::clock, typename T::duration>> {
    using count = typename T::rep;
    static_assert(is_number<count>, "points in time are counted by integers of 32 or of 64 bits");
    using number = number_of<count>;
    static constexpr number in(T it) noexcept { return static_cast<number>(it.time_since_epoch().count()); }
    static constexpr T out(number it) noexcept { return T(typename T::duration(static_cast<count>(it))); }
};

template <class T> constexpr T greatest() noexcept
{
    return element<T>::out(std::numeric_limits<typename element<T>::number>::max());
}

// The calls for a type of elements, and those of sets in chunks and of maps.
template <class T> struct calls : calls_of<typename element<T>::number> {};
template <class T> using chunked_calls = typename calls<T>::chunked;
template <class T> using map_calls = typename calls<T>::mapped;

// Whether a call takes such a number: an integer, or what becomes an element and doesn't narrow.
template <class T, class Number, class = void> constexpr bool narrows = true;
template <class T, class Number> constexpr bool narrows<T, Number, std::void_t<decltype(T{std::declval<const Number &>()})>> = false;
template <class T, class Number>
constexpr bool is_taken =
    std::is_convertible_v<const Number &, T> && (std::is_integral_v<Number> || std::is_enum_v<Number> || !narrows<T, Number>);

// The number as one of the type. An integer of another type is refused where it doesn't fit.
template <class T, class Number> constexpr T fitting(const Number &number)
{
    if constexpr (std::is_enum_v<Number>) {
        return fitting<T>(static_cast<std::underlying_type_t<Number>>(number));
    } else if constexpr (std::is_integral_v<Number> && !std::is_same_v<Number, T>) {
        const T it = static_cast<T>(number);
        if (static_cast<Number>(it) == number && (it < T()) == (number < Number())) return it;
        refuse(std::out_of_range("range_set: a number doesn't fit the type"));
    } else {
        return number;
    }
}

// Whether each number of an integer type fits another.
template <class T, class Number>
constexpr bool always_fits = std::is_integral_v<Number> && std::numeric_limits<Number>::digits <= std::numeric_limits<T>::digits
                             && (std::is_signed_v<T> || !std::is_signed_v<Number>);

// An element that a call takes. An integer of another type is refused where it doesn't fit.
template <class T> struct integer {
    template <class Number, class = std::enable_if_t<is_taken<T, Number>>>
    integer(const Number &number) noexcept(always_fits<T, Number>) : value(fitting<T>(number))
    {
    }
    operator T() const noexcept { return value; }
    // Of a point in time its count.
    template <class Number, class = std::enable_if_t<!std::is_integral_v<T> && std::is_same_v<Number, typename element<T>::number>>>
    operator Number() const noexcept
    {
        return element<T>::in(value);
    }

    T value;
};

// How many elements a call takes: of points in time, how long.
template <class T, class = void> struct amount : integer<std::make_unsigned_t<T>> {
    using integer<std::make_unsigned_t<T>>::integer;
};
template <class T> struct amount<T, std::void_t<typename T::clock, typename T::duration>> : integer<std::make_unsigned_t<typename T::rep>> {
    template <class Length, class = std::enable_if_t<std::is_convertible_v<const Length &, typename T::duration>>>
    amount(const Length &length) : integer<std::make_unsigned_t<typename T::rep>>(typename T::duration(length).count())
    {
    }
};

// All numbers from one on.
template <class Start> struct open {
    template <class T, class = std::enable_if_t<is_taken<T, Start>>> operator range<T>() const
    {
        return {fitting<T>(start), greatest<T>(), false};
    }

    Start start;
};

// A range that a set is made of: a start and an end in braces or in a pair, or one that may have no end.
template <class T> struct ends : range<T> {
    ends(integer<T> first, integer<T> after) noexcept : range<T>{first, after} {}
    ends(const range<T> &it) noexcept : range<T>(it) {}
    template <class Start, class = std::enable_if_t<is_taken<T, Start>>> ends(const open<Start> &it) : range<T>(it) {}
    template <class Pair, class = std::enable_if_t<is_taken<T, std::decay_t<decltype(std::declval<const Pair &>().first)>>
                                                   && is_taken<T, std::decay_t<decltype(std::declval<const Pair &>().second)>>>>
    ends(const Pair &it) : range<T>{fitting<T>(it.first), fitting<T>(it.second)}
    {
    }
};

// What a call of the header writes of a set, if it finds that: an element or a range.
template <class T, class Call, class Set, class... Numbers> std::optional<T> found(Call call, Set set, Numbers... numbers) noexcept
{
    typename calls<T>::value at = 0;
    if (!call(set, numbers..., &at)) return std::nullopt;
    return element<T>::out(at);
}
template <class T, class Call, class Set, class... Numbers>
std::optional<range<T>> found_range(Call call, Set set, Numbers... numbers) noexcept
{
    typename calls<T>::part part = {};
    if (!call(set, numbers..., &part)) return std::nullopt;
    return range<T>{element<T>::out(part.start), element<T>::out(part.end), part.has_end};
}
// The same in a range, by the call for one that has an end, or for one that has none.
template <class T, class Call, class Open, class Set, class... Numbers>
std::optional<T> found_in(const range<T> &within, Call call, Open open, Set set, Numbers... numbers) noexcept
{
    const integer<T> start = within.start, end = within.end;
    return within.has_end ? found<T>(call, set, start, end, numbers...) : found<T>(open, set, start, numbers...);
}

} // namespace detail

// The range of all numbers from one on, which has no end: `set.insert(from(20))`, or `{{9, 17}, from(20)}`.
template <class Start> detail::open<Start> from(const Start &start)
{
    return {start};
}

} // namespace range_sets

#endif
