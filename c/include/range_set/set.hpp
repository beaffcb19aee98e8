// SPDX-License-Identifier: MIT OR Apache-2.0
// Sets that own their boundaries.
#ifndef RANGE_SET_SET_HPP
#define RANGE_SET_SET_HPP

#include "view.hpp"

#include <algorithm>
#include <cstddef>
#include <functional>
#include <initializer_list>
#include <iterator>
#include <limits>
#include <memory>
#include <new>
#include <optional>
#include <string_view>
#include <type_traits>
#include <utility>

namespace range_sets {

namespace detail {

// What an iterator leads to, and the iterator that a range begins with.
template <class Iterator> using item_of = std::decay_t<decltype(*std::declval<Iterator &>())>;
template <class Items> using iterator_over = decltype(std::begin(std::declval<Items &>()));

// Whether one can go twice over what an iterator goes over. Those that make what they lead to say so by C++20's concept alone.
template <class Iterator, class = void> constexpr bool has_concept = false;
template <class Iterator>
constexpr bool has_concept<Iterator, std::void_t<typename Iterator::iterator_concept>> =
    std::is_base_of_v<std::forward_iterator_tag, typename Iterator::iterator_concept>;
template <class Iterator, class = void> constexpr bool is_multipass = has_concept<Iterator>;
template <class Iterator>
constexpr bool is_multipass<Iterator, std::void_t<typename std::iterator_traits<Iterator>::iterator_category>> =
    has_concept<Iterator> || std::is_base_of_v<std::forward_iterator_tag, typename std::iterator_traits<Iterator>::iterator_category>;

// For an iterator over what a set is made of.
template <class T, class Iterator>
using if_ranges = std::enable_if_t<std::is_convertible_v<const item_of<Iterator> &, ends<T>> && is_multipass<Iterator>>;

// Changes of sets that own their ranges, by the calls of their kind.
template <class T, class Set, class Calls> class changes {
    using integer = detail::integer<T>;

public:
    // Puts the numbers from `start` to below `end` in, takes them out.
    Set &insert(integer start, integer end) { return self().change(Calls::insert, start, end); }
    Set &remove(integer start, integer end) { return self().change(Calls::remove, start, end); }
    // The same of a range, which may have no end.
    Set &insert(const range<T> &it) { return it.has_end ? insert(it.start, it.end) : self().insert_from(it.start); }
    Set &remove(const range<T> &it) { return it.has_end ? remove(it.start, it.end) : self().remove_from(it.start); }

    // The same, and whether the set has other members now.
    bool insert_changed(integer start, integer end) { return has_changed(Calls::insert_changed, start, end); }
    bool remove_changed(integer start, integer end) { return has_changed(Calls::remove_changed, start, end); }
    bool insert_changed(const range<T> &it)
    {
        if (it.has_end) return insert_changed(it.start, it.end);
        const bool has_gaps = self().next_gap(it.start).has_value();
        insert(it);
        return has_gaps;
    }
    bool remove_changed(const range<T> &it)
    {
        if (it.has_end) return remove_changed(it.start, it.end);
        const bool has_members = self().next_member(it.start).has_value();
        remove(it);
        return has_members;
    }

    // Operations with a set of any kind, or its ranges in braces.
    Set &operator|=(const listed<T> &other) { return self().combine_with(other, RANGE_SET_UNION); }
    Set &operator&=(const listed<T> &other) { return self().combine_with(other, RANGE_SET_INTERSECTION); }
    Set &operator-=(const listed<T> &other) { return self().combine_with(other, RANGE_SET_DIFFERENCE); }
    Set &operator^=(const listed<T> &other) { return self().combine_with(other, RANGE_SET_SYMMETRIC_DIFFERENCE); }

private:
    Set &self() noexcept { return static_cast<Set &>(*this); }
    template <class Call> bool has_changed(Call call, integer start, integer end)
    {
        bool changed = false;
        self().change(call, start, end, &changed);
        return changed;
    }
};

} // namespace detail

// A set that owns its boundaries.
template <class T>
class range_set : detail::operators<T>,
                  public detail::list_questions<T, range_set<T>>,
                  public detail::changes<T, range_set<T>, detail::calls<T>> {
    using calls = detail::calls<T>;
    using number = typename calls::value;
    using element = detail::element<T>;
    using integer = detail::integer<T>;

public:
    using value_type = range<T>;
    using iterator = typename range_set_view<T>::iterator;
    using const_iterator = iterator;

    // The set without a member. It takes no memory.
    range_set() noexcept = default;
    // The numbers in some of these ranges, each a start and an end, which is out, or `from` a start. They may come in any order and
    // overlap; one whose end isn't above its start holds no number.
    range_set(std::initializer_list<detail::ends<T>> ranges) : range_set(ranges.begin(), ranges.end()) {}
    // The same of any range of pairs or of ranges: an array, a std::vector, a std::map, a view of C++20.
    template <class Ranges, class = std::enable_if_t<!detail::is_set<T, Ranges>>, class Iterator = detail::iterator_over<Ranges>,
              class = detail::if_ranges<T, Iterator>>
    explicit range_set(Ranges &&ranges) : range_set(std::begin(ranges), std::end(ranges))
    {
    }
    // The same of what stands between two places. It is gone over twice, so the iterators are forward ones or better. Where the
    // second time has more, as by a filter that changes its mind, the rest is left out.
    template <class Iterator, class End, class = decltype(std::declval<Iterator &>() != std::declval<End &>()),
              class = detail::if_ranges<T, Iterator>>
    range_set(Iterator first, End last)
    {
        std::size_t count = 0;
        for (Iterator it = first; it != last; ++it) count++;
        auto items = room_for(2 * count);
        number *next = items.get(), *const after = next + 2 * count;
        std::optional<T> open;
        for (; next != after && first != last; ++first) {
            const detail::ends<T> it = *first;
            if (!it.has_end) open = open ? std::min(*open, it.start) : it.start;
            *next++ = element::in(it.start);
            *next++ = element::in(it.has_end ? it.end : it.start);
        }
        const auto read = static_cast<std::size_t>(next - items.get()) / 2;
        typename calls::set set = {};
        if (calls::from_ranges(items.get(), read, &set) == RANGE_SET_DONE) keep(std::move(items), 2 * count, set.len);
        if (open) insert_from(*open);
    }
    // A copy of a borrowed set.
    explicit range_set(range_set_view<T> view) : range_set(combine(view, range_set_view<T>(), RANGE_SET_UNION)) {}
    range_set(const range_set &other) : range_set(other.view()) {}
    range_set(range_set &&other) noexcept { swap(other); }
    range_set &operator=(range_set other) noexcept
    {
        swap(other);
        return *this;
    }
    ~range_set() = default;

    // The numbers in any of these sets, which may be a std::vector of either kind. Sets that each exist only while they are
    // looked at don't compile.
    template <class Sets> static range_set union_all(const Sets &sets)
    {
        const auto count = static_cast<std::size_t>(std::distance(sets.begin(), sets.end()));
        std::unique_ptr<typename calls::set[]> each(count > 0 ? new typename calls::set[count] : nullptr);
        std::size_t room = 0, i = 0;
        for (auto &&it : sets) {
            each[i] = range_set_view<T>(std::forward<decltype(it)>(it)).set();
            room += each[i++].len;
        }
        return written(room, [&](number *out, std::size_t of, auto *set) { return calls::union_all(each.get(), count, out, of, set); });
    }
    // The numbers in each of these sets: all numbers where there is none.
    template <class Sets> static range_set intersection_all(const Sets &sets)
    {
        auto it = sets.begin();
        if (it == sets.end()) return range_set().negation();
        range_set all = combine(*it, range_set_view<T>(), RANGE_SET_UNION);
        for (++it; it != sets.end(); ++it) all &= *it;
        return all;
    }
    // The set of these numbers, as a std::vector has them, in any order, some of them more than once.
    template <class Values, class = std::enable_if_t<detail::is_taken<T, detail::item_of<detail::iterator_over<const Values>>>>>
    static range_set from_values(const Values &values)
    {
        const auto count = static_cast<std::size_t>(std::distance(values.begin(), values.end()));
        const auto items = room_for(count);
        std::transform(values.begin(), values.end(), items.get(), [](const auto &it) { return element::in(detail::fitting<T>(it)); });
        return written(
            2 * count, [&](number *out, std::size_t room, auto *set) { return calls::from_values(items.get(), count, out, room, set); });
    }
    static range_set from_values(std::initializer_list<T> values) { return from_values<std::initializer_list<T>>(values); }
    // The set of a text of ranges, "0..10, 20..", or nothing where it isn't one or a number doesn't fit the type. `fault`, where it
    // isn't null, is then the byte at which the text stops being one of ranges, or at which the range with that number begins.
    // `status`, where it isn't null, says which: RANGE_SET_MALFORMED, RANGE_SET_OUT_OF_RANGE, or of a set RANGE_SET_DONE.
    static std::optional<range_set> parse(std::string_view text, std::size_t *fault = nullptr, range_set_status *status = nullptr)
    {
        return read(status, [&](number *out, std::size_t room, auto *set) {
            return calls::parse(text.data(), text.size(), out, room, set, fault);
        });
    }
    // The same with another byte in place of the comma, and with numbers alone: "0..10\n15\n" by '\n'. Of a byte that no text has there
    // the status is RANGE_SET_BAD_ARGUMENT.
    static std::optional<range_set> parse(
        std::string_view text, char separator, std::size_t *fault = nullptr, range_set_status *status = nullptr)
    {
        return read(status, [&](number *out, std::size_t room, auto *set) {
            return calls::parse_by(text.data(), text.size(), separator, out, room, set, fault);
        });
    }
    // The numbers that `keep` names of two sets, as RANGE_SET_LEFT | RANGE_SET_BOTH.
    static range_set combine(const detail::listed<T> &a, const detail::listed<T> &b, unsigned keep)
    {
        return written(a.set.len + b.set.len + (keep & RANGE_SET_NEITHER ? 1 : 0),
                       [&](number *out, std::size_t room, auto *set) { return calls::combine(a.set, b.set, keep, out, room, set); });
    }

    void swap(range_set &other) noexcept
    {
        std::swap(items_, other.items_);
        std::swap(in_, other.in_);
    }

    // The set borrowed, until it changes or is gone. A temporary is gone at once, so there is no view of one.
    operator range_set_view<T>() const & noexcept { return view(); }
    operator range_set_view<T>() const && = delete;
    range_set_view<T> view() const & noexcept { return range_set_view<T>(in_.set); }
    range_set_view<T> view() const && = delete;

    iterator begin() const & noexcept { return view().begin(); }
    iterator begin() const && = delete;
    iterator end() const & noexcept { return view().end(); }
    iterator end() const && = delete;
    detail::members<T> members() const & noexcept { return view().members(); }
    detail::members<T> members() const && = delete;
    std::pair<range_set_view<T>, range_set_view<T>> split(integer at) const & noexcept { return view().split(at); }
    std::pair<range_set_view<T>, range_set_view<T>> split(integer at) const && = delete;

    // Puts all numbers from `start` on in, takes them out.
    range_set &insert_from(integer start) { return *this |= *range_set_view<T>::of(&start.value, 1); }
    range_set &remove_from(integer start) { return *this -= *range_set_view<T>::of(&start.value, 1); }
    // Takes all numbers out, and keeps the room for them.
    void clear() noexcept { in_.set.len = 0; }

    // How many ranges there is room for; makes room for `ranges`. Up to as many `insert` and `remove` take no memory.
    std::size_t capacity() const noexcept { return in_.room / 2; }
    void reserve(std::size_t ranges)
    {
        constexpr auto most = std::numeric_limits<std::size_t>::max();
        const std::size_t room = ranges > most / 2 ? most : 2 * ranges;
        if (room > in_.room) move_to(room_for(room), room);
    }
    // Gives back the room that the set doesn't need, if there is memory for the shorter buffer. Operators into a new set, and what
    // makes a set, do so where it needs less than half.
    void shrink_to_fit() noexcept
    {
        if (in_.set.len == in_.room) return;
        array less(in_.set.len > 0 ? new (std::nothrow) number[in_.set.len] : nullptr);
        if (less != nullptr || in_.set.len == 0) move_to(std::move(less), in_.set.len);
    }

private:
    template <class, class, class> friend class detail::questions;
    template <class, class, class> friend class detail::room_questions;
    template <class, class> friend class detail::list_questions;
    template <class, class, class> friend class detail::changes;
    friend class chunked_range_set<T>;

    typename calls::set inner() const noexcept { return in_.set; }

    using array = std::unique_ptr<number[]>;

    // A set keeps room for at most twice its boundaries, or for these.
    static constexpr std::size_t least_room = 8;

    static array room_for(std::size_t len) { return array(len > 0 ? new number[len] : nullptr); }

    void adopt(array from, std::size_t room, std::size_t len) noexcept
    {
        items_ = std::move(from);
        in_ = calls::buffer_of(items_.get(), room);
        in_.set.len = len;
    }

    // What stands at the front of a new buffer, which goes where most of it is unused.
    void keep(array from, std::size_t room, std::size_t len) noexcept
    {
        adopt(std::move(from), room, len);
        if (room > least_room && room > 2 * len) shrink_to_fit();
    }

    // What a call writes into a new buffer of `room` boundaries, which is enough.
    template <class Call> static range_set written(std::size_t room, Call call)
    {
        auto items = room_for(room);
        typename calls::set set = {};
        range_set result;
        if (call(items.get(), room, &set) == RANGE_SET_DONE) result.keep(std::move(items), room, set.len);
        return result;
    }

    // What a call reads of a text, or nothing where it refuses that. Before it reads it says how much room it needs.
    template <class Call> static std::optional<range_set> read(range_set_status *status, Call call)
    {
        typename calls::set set = {};
        const auto returned = call(nullptr, 0, &set);
        const bool is_read = returned == RANGE_SET_DONE || returned == RANGE_SET_NO_ROOM;
        if (status != nullptr) *status = is_read ? RANGE_SET_DONE : returned;
        return is_read ? std::optional(written(set.len, call)) : std::nullopt;
    }

    // Moves to another buffer.
    void move_to(array more, std::size_t room) noexcept
    {
        std::copy_n(in_.set.boundaries, in_.set.len, more.get());
        adopt(std::move(more), room, in_.set.len);
    }

    // It keeps the set's room, and works there if that is enough for the set and the longest
    // result. What lies in the set is copied first. Where the result stands in a new buffer, its
    // boundaries are taken, or the buffer if there is no room for them.
    range_set &combine_with(const detail::listed<T> &other, unsigned keep)
    {
        const bool fits = 2 * in_.set.len + other.set.len <= in_.room;
        if (fits && calls::combine_with(&in_, other.set, keep) == RANGE_SET_DONE) return *this;
        range_set made = combine(*this, other, keep);
        if (made.in_.set.len > in_.room) return *this = std::move(made);
        std::copy_n(made.in_.set.boundaries, made.in_.set.len, items_.get());
        in_.set.len = made.in_.set.len;
        return *this;
    }

    template <class Call, class... More> range_set &change(Call call, number start, number end, More... more)
    {
        if (call(&in_, start, end, more...) != RANGE_SET_NO_ROOM) return *this;
        const std::size_t room = std::max(least_room, 2 * in_.needed);
        move_to(room_for(room), room);
        static_cast<void>(call(&in_, start, end, more...));
        return *this;
    }

    array items_;
    typename calls::buffer in_ = calls::buffer_of(nullptr, 0);
};

// A range as a text: "9..12", or "20.." without an end.
template <class T> std::ostream &operator<<(std::ostream &out, const range<T> &it)
{
    return out << range_set<T>{it};
}

} // namespace range_sets

// The same hash as of a view.
template <class T> struct std::hash<range_sets::range_set<T>> : std::hash<range_sets::range_set_view<T>> {};

#endif
