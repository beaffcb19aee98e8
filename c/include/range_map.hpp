// SPDX-License-Identifier: MIT OR Apache-2.0
// Maps that give ranges of whole numbers values, for C++17 and later, over the maps of range_set.h.
//
//     using range_sets::range_map;
//     range_map<int64_t, std::string> bookings = {{9, 12, "Ada"}};
//     bookings.insert(11, 14, "Bob");
//     for (const auto &[hours, who] : bookings) std::cout << hours << ' ' << who << '\n';
//     if (bookings.get(10) == "Ada") std::cout << "Ada at ten\n";
//
// A key has the value of the last range that was put around it, or none; ranges that touch and have one value are one. Keys are the
// elements of a range_set. Numbers and enums of at most 64 bits, and pointers, stand in the map itself, to the bit. Ranges that touch are
// one if `==` says that their values are equal: never of NaN, and of 0.0 beside -0.0, where the value stays that the map had.
//
// Other values stand beside the map: each once, as long as a range has it. They need a `<` that is a strict weak order, as the keys of a
// std::map do, by which two are one value if neither is less. A struct with a NaN in it may have none.
//
// Where memory is refused std::bad_alloc is thrown, and the map is as it was; so it is if the copy of a value or its `<` throws. Threads
// may share a map that none changes. Among n ranges a search makes about log n comparisons, and a change moves the items of one chunk at
// most, as in range_set.h. A change by a value that stands beside the map looks that up among these, and goes over the ranges that it
// takes away.
#ifndef RANGE_MAP_HPP
#define RANGE_MAP_HPP

#include "range_set.hpp"
#include "range_set/values.hpp" // values by their numbers

#include <array>
#include <vector>

namespace range_sets {

namespace detail {

// For an iterator over ranges with their values.
template <class T, class V, class Iterator>
using if_entries = std::enable_if_t<std::is_convertible_v<decltype(std::declval<const item_of<Iterator> &>().first), ends<T>>
                                    && std::is_convertible_v<decltype(std::declval<const item_of<Iterator> &>().second), const V &>>;

} // namespace detail

template <class T, class V>
class range_map : public detail::room_questions<T, range_map<T, V>, detail::map_calls<T>> {
    using element = detail::element<T>;
    using key = typename element::number;
    using calls = detail::map_calls<T>;
    using numbers = detail::values<V>;
    using integer = detail::integer<T>;

public:
    using value_type = std::pair<range<T>, V>;

    // A start, an end and a value in braces.
    struct entry {
        integer start;
        integer end;
        V value;
    };

    // Goes over the ranges that have a value, and reads some of them at a time, until the map changes. A value that stands beside the
    // map is a reference.
    class iterator : detail::stepping<iterator> {
    public:
        using iterator_category = std::input_iterator_tag;
        using value_type = range_map::value_type;
        using difference_type = std::ptrdiff_t;
        using reference = std::pair<range<T>, decltype(std::declval<const numbers &>().value_of(0))>;
        using pointer = detail::arrow<reference>;

        iterator() noexcept = default;

        reference operator*() const noexcept { return map_->shown(now()); }
        pointer operator->() const noexcept { return pointer(**this); }
        iterator &operator++() noexcept
        {
            const bool has_end = now().has_end;
            const key end = now().end;
            if (++at_ == len_ && has_end) read(end, room);
            return *this;
        }

        // Of two iterators of one map.
        friend bool operator==(const iterator &a, const iterator &b) noexcept
        {
            return a.is_there() == b.is_there() && (!a.is_there() || a.now().start == b.now().start);
        }

    private:
        friend class range_map;
        // How many ranges are read at a time; and at first by a change, which seldom looks at more.
        static constexpr std::size_t room = 16, few = 3;

        iterator(const range_map *map, key from, std::size_t first = room) noexcept : map_(map) { read(from, first); }

        const typename calls::stretch &now() const noexcept { return some_[at_]; }
        bool is_there() const noexcept { return at_ < len_; }
        void read(key from, std::size_t count) noexcept
        {
            at_ = 0;
            len_ = calls::next_ranges(map_->inner(), from, some_.data(), count);
        }

        const range_map *map_ = nullptr;
        std::array<typename calls::stretch, room> some_ = {};
        std::size_t at_ = 0, len_ = 0;
    };
    using const_iterator = iterator;

    // The map without a value. It takes no memory.
    range_map() noexcept = default;
    // Where these overlap the later one's value holds.
    range_map(std::initializer_list<entry> entries)
    {
        for (const entry &it : entries) insert(it.start, it.end, it.value);
    }
    // The same of pairs of a range and a value: those of a std::vector, of another map, or between
    // two iterators.
    template <class Items, class = std::enable_if_t<!std::is_same_v<std::decay_t<Items>, range_map>>,
              class = detail::if_entries<T, V, detail::iterator_over<Items>>>
    explicit range_map(Items &&items) : range_map(std::begin(items), std::end(items))
    {
    }
    template <class Iterator, class End, class = detail::if_entries<T, V, Iterator>> range_map(Iterator first, End last)
    {
        for (; first != last; ++first) {
            const auto &[at, value] = *first;
            insert(detail::ends<T>(at), value);
        }
    }
    range_map(const range_map &other)
    {
        if constexpr (detail::is_plain<V>) {
            if (other.inner().at != nullptr) detail::check_memory(calls::copy(other.inner(), &owner_.it));
            values_ = other.values_;
        } else {
            other.each_over(least, most, [&](const stretch &it) {
                apply(calls::insert, calls::insert_from, it, values_.hold(other.values_.value_of(it.value)));
            });
        }
    }
    range_map(range_map &&other) noexcept { swap(other); }
    range_map &operator=(range_map other) noexcept
    {
        swap(other);
        return *this;
    }
    ~range_map() = default;

    // The map that gives each key the number of those of some ranges that have it, if some do. It
    // makes about n log n changes of n ranges.
    template <class Ranges, class = detail::if_ranges<T, detail::iterator_over<const Ranges>>> static range_map depth(const Ranges &ranges)
    {
        return depth_of(std::begin(ranges), std::distance(std::begin(ranges), std::end(ranges)));
    }
    static range_map depth(std::initializer_list<detail::ends<T>> ranges) { return depth<std::initializer_list<detail::ends<T>>>(ranges); }

    void swap(range_map &other) noexcept
    {
        std::swap(owner_, other.owner_);
        std::swap(values_, other.values_);
    }
    friend void swap(range_map &a, range_map &b) noexcept { a.swap(b); }

    // Gives the keys from `start` to below `end` a value, takes theirs away; or those of all keys from `start` on.
    range_map &insert(integer start, integer end, const V &value) { return insert(range<T>{start, end}, value); }
    range_map &insert_from(integer start, const V &value) { return insert(range_sets::from(start.value), value); }
    range_map &remove(integer start, integer end) { return remove(range<T>{start, end}); }
    range_map &remove_from(integer start) { return remove(range_sets::from(start.value)); }
    // The same of a range, which may have no end.
    range_map &insert(const range<T> &it, const V &value) { return put(keys_of(it), value); }
    range_map &remove(const range<T> &it) { return change(calls::remove, calls::remove_from, keys_of(it)); }
    void clear() noexcept { range_map().swap(*this); }

    // These change several ranges, or none if memory is refused or a function throws. So they make
    // more than one change in a copy of the map, which takes its place.
    //
    // Gives each key of a range what `how` makes of its value, as `combine` does: of null if it has
    // none.
    //
    //     range_map<int, int> depth = {{0, 5, 1}};
    //     depth.update(3, 9, [](const int *it) { return std::optional(it ? *it + 1 : 1); });
    //                                                      // 0..3 1, 3..5 2, 5..9 1
    //
    template <class How> range_map &update(const range<T> &at, How how)
    {
        const auto made = range_map<T, bool>().insert(at, true).combine(part(at), [&](const bool *, const V *value) { return how(value); });
        changes all(made.begin(), made.end());
        for (const auto &it : range_set<T>{at} - made.domain()) all.emplace_back(it, std::nullopt);
        return change_all(all);
    }
    template <class How> range_map &update(integer start, integer end, How how) { return update(range<T>{start, end}, how); }
    // Has `how` change the value of a key in place, and so that of the longest range around it.
    // Returns false if the key has none.
    template <class How> bool modify(integer at, How how)
    {
        auto it = range_at(at);
        if (!it) return false;
        how(it->second);
        insert(it->first, it->second);
        return true;
    }
    // Puts in the ranges of another map with their values, in place of those that were there, or
    // only where there was none.
    range_map &insert_all(const range_map &other) { return change_all(changes(other.begin(), other.end())); }
    range_map &insert_where_free(const range_map &other)
    {
        changes all;
        for (const auto &[at, value] : other)
            for (const auto &it : range_set<T>{at} - taken(at)) all.emplace_back(it, value);
        return change_all(all);
    }
    // Takes away the values of the keys in a set, such as another map's `domain`, or of all others.
    range_map &remove_all(const detail::listed<T> &set)
    {
        changes all;
        for (const auto &it : range_set_view<T>(set.set)) all.emplace_back(it, std::nullopt);
        return change_all(all);
    }
    range_map &retain_all(const detail::listed<T> &set) { return remove_all(range_set_view<T>(set.set).negation()); }
    // Takes away each value that `keep` returns false for. It is called once for each range.
    template <class Keep> range_map &retain(Keep keep)
    {
        return retain_ranges([&](const range<T> &, const V &value) { return keep(value); });
    }
    template <class Keep> range_map &retain_ranges(Keep keep)
    {
        changes all;
        for (const auto &[at, value] : *this)
            if (!keep(at, value)) all.emplace_back(at, std::nullopt);
        return change_all(all);
    }

    bool contains(integer at) const noexcept { return around(at).has_value; }
    // The value of a key, or nothing.
    std::optional<V> get(integer at) const
    {
        const auto it = around(at);
        if (!it.has_value) return std::nullopt;
        return values_.value_of(it.value);
    }
    // The longest range around a key whose keys have its value, and that; nothing where it has none.
    std::optional<value_type> range_at(integer at) const { return item(around(at)); }
    // The first and the last range that have a value, each with its value, and the range from the start of the first to the end of the
    // last; nothing if the map is empty. Each end takes at most two searches.
    std::optional<value_type> first() const { return item(asked(calls::first)); }
    std::optional<value_type> last() const { return item(asked(calls::last)); }
    std::optional<range<T>> span() const noexcept { return detail::found_range<T>(calls::span, inner()); }
    // How many keys have a value, or nothing if these have no end.
    std::optional<std::uint64_t> covered() const noexcept { return detail::found<std::uint64_t>(calls::covered, inner()); }
    // The ranges that have a key from `start` to below `end`, whole, each with its value; and the
    // map of the values there alone.
    std::vector<value_type> overlapping(integer start, integer end) const { return overlapping(range<T>{start, end}); }
    range_map part(integer start, integer end) const { return part(range<T>{start, end}); }
    // The same of a range, which may have no end.
    std::vector<value_type> overlapping(const range<T> &at) const
    {
        std::vector<value_type> found;
        each_within(at, [&](const stretch &it) { found.emplace_back(shown(it)); });
        return found;
    }
    range_map part(const range<T> &at) const
    {
        range_map made(overlapping(at));
        made.remove(range<T>{all_keys().start, at.start});
        if (at.has_end) made.remove_from(at.end);
        return made;
    }
    // The ranges that have a value, and their values, in order.
    std::vector<range<T>> keys() const
    {
        std::vector<range<T>> found;
        for (const auto &it : *this) found.push_back(it.first);
        return found;
    }
    std::vector<V> values() const
    {
        std::vector<V> found;
        for (const auto &it : *this) found.push_back(it.second);
        return found;
    }

    // The keys that have a value, that have this one, and those from `start` to below `end` that
    // have none.
    range_set<T> domain() const { return taken(all_keys()); }
    range_set<T> where_equal(const V &value) const { return keys_where(all_keys(), values_.is(value)); }
    range_set<T> gaps(integer start, integer end) const { return taken({start, end}).gaps(start, end); }
    // Whether all keys from `start` to below `end` have a value, whether one has.
    bool contains_range(integer start, integer end) const { return taken({start, end}).contains_range(start, end); }
    bool intersects_range(integer start, integer end) const noexcept
    {
        const auto it = asked(calls::next, key_of(start));
        return start.value < end.value && it.has_value && it.start < key_of(end);
    }

    // The map of what `how` makes of the values that a key has in this map and in another, whose values may be of another type. It is
    // given the address of each, null if the key has none there, and returns a std::optional. It isn't called if both are null. What it
    // throws is thrown, as is std::bad_alloc if memory is refused, and neither map changes.
    //
    //     const range_map<int, int> nights = {{1, 4, 1}}, more = {{3, 7, 1}};
    //     nights.combine(more, [](const int *a, const int *b) { return std::optional((a ? *a : 0) + (b ? *b : 0)); });
    //                                                      // 1..3 1, 3..4 2, 4..7 1
    //
    // It takes a search for each range and each gap of both maps, and puts in a range for each part of the keys that gets a value. There
    // are at most twice as many of these as ranges in both maps.
    template <class W, class How> auto combine(const range_map<T, W> &other, How how) const
    {
        range_map<T, typename std::invoke_result_t<How &, const V *, const W *>::value_type> made;
        key at = least;
        auto here = calls::range_at(inner(), at), there = calls::range_at(other.inner(), at);
        for (bool has_end = true; has_end;) {
            has_end = here.has_end || there.has_end;
            const key end = here.has_end && !(there.has_end && there.end < here.end) ? here.end : there.end;
            if (here.has_value || there.has_value) {
                const auto value =
                    with_value(here, [&](const V *a) { return other.with_value(there, [&](const W *b) { return how(a, b); }); });
                if (value) made.put({at, end, has_end}, *value);
            }
            at = end;
            if (here.has_end && here.end == at) here = calls::range_at(inner(), at);
            if (there.has_end && there.end == at) there = calls::range_at(other.inner(), at);
        }
        return made;
    }

    // The ranges with their values, those that have a key at or above another, and how many ranges there are.
    iterator begin() const & noexcept { return iterator(this, least); }
    iterator begin() const && = delete;
    iterator begin_from(integer at) const & noexcept { return iterator(this, key_of(at)); }
    iterator begin_from(integer at) const && = delete;
    iterator end() const & noexcept { return iterator(); }
    iterator end() const && = delete;
    std::size_t size() const noexcept { return calls::len(inner()); }
    bool empty() const noexcept { return !asked(calls::first).has_value; }

    friend bool operator==(const range_map &a, const range_map &b)
    {
        return a.size() == b.size() && std::equal(a.begin(), a.end(), b.begin());
    }
    friend bool operator!=(const range_map &a, const range_map &b) { return !(a == b); }

private:
    template <class, class> friend class range_map;
    template <class, class, class> friend class detail::room_questions;
    using stretch = typename calls::stretch;
    using bounds = range<key>;
    static constexpr key least = std::numeric_limits<key>::min(), most = std::numeric_limits<key>::max();

    typename calls::owned inner() const noexcept { return owner_.it; }

    static key key_of(integer at) noexcept { return element::in(at.value); }
    static bounds keys_of(const range<T> &it) noexcept { return {element::in(it.start), element::in(it.end), it.has_end}; }
    static bool is_empty(const bounds &at) noexcept { return at.has_end && at.start >= at.end; }
    static range<T> range_of(const stretch &it) noexcept { return {element::out(it.start), element::out(it.end), it.has_end}; }

    stretch around(integer at) const noexcept { return calls::range_at(inner(), key_of(at)); }
    // The range that a call finds, which has no value if there is none.
    template <class Call, class... Keys> stretch asked(Call call, Keys... keys) const noexcept
    {
        stretch it = {};
        static_cast<void>(call(inner(), keys..., &it));
        return it;
    }

    // A range that has a value, and that.
    typename iterator::reference shown(const stretch &it) const noexcept { return {range_of(it), values_.value_of(it.value)}; }
    // The same, or nothing if there is none.
    std::optional<value_type> item(const stretch &it) const
    {
        if (!it.has_value) return std::nullopt;
        return value_type(shown(it));
    }
    // What a call makes of the address of the value there, which is null if there is none.
    template <class Call> auto with_value(const stretch &it, Call call) const
    {
        if (!it.has_value) return call(static_cast<const V *>(nullptr));
        const V &value = values_.value_of(it.value);
        return call(&value);
    }

    // Calls for each range with a value that has a key from `first` to `last`, or in a range.
    template <class Call> void each_over(key first, key last, Call call) const
    {
        for (iterator it(this, first, iterator::few); it.is_there() && it.now().start <= last; ++it) call(it.now());
    }
    template <class Call> void each_within(const range<T> &it, Call call) const
    {
        const bounds at = keys_of(it);
        if (!is_empty(at)) each_over(at.start, at.has_end ? at.end - 1 : most, call);
    }
    // The ranges, whole, that have a key in another and a value that is wanted, or any.
    template <class Wanted> range_set<T> keys_where(const range<T> &at, Wanted wanted) const
    {
        std::vector<range<T>> found;
        each_within(at, [&](const stretch &it) {
            if (wanted(it.value)) found.push_back(range_of(it));
        });
        return range_set<T>(found);
    }
    range_set<T> taken(const range<T> &at) const
    {
        return keys_where(at, [](std::uint64_t) { return true; });
    }
    static range<T> all_keys() noexcept { return {element::out(least), T(), false}; }

    // The depth of `count` ranges, which is the sum of those of both halves.
    template <class Iterator> static range_map depth_of(Iterator first, std::ptrdiff_t count)
    {
        range_map one;
        if (count == 1) one.insert(detail::ends<T>(*first), V(1));
        if (count < 2) return one;
        const auto half = count / 2;
        return depth_of(first, half).combine(depth_of(std::next(first, half), count - half), [](const V *a, const V *b) {
            return std::optional<V>(static_cast<V>((a != nullptr ? *a : V()) + (b != nullptr ? *b : V())));
        });
    }

    // Ranges that get a value, or none.
    using changes = std::vector<std::pair<range<T>, std::optional<V>>>;
    range_map &change_all(const changes &all)
    {
        std::optional<range_map> copy;
        if (all.size() > 1) copy = *this;
        range_map &map = copy ? *copy : *this;
        for (const auto &[at, value] : all) value ? map.insert(at, *value) : map.remove(at);
        if (copy) swap(*copy);
        return *this;
    }

    // Gives keys a value. It is held until that is done, since these keys may be the last that had it.
    range_map &put(bounds at, const V &value)
    {
        struct holder {
            numbers &all;
            const std::uint64_t which;
            ~holder() { all.let_go(which); }
        } const holder = {values_, values_.hold(value)};
        std::uint64_t which = holder.which;
        if constexpr (std::is_floating_point_v<V>) {
            // Beside 0.0 or -0.0 it is what stands there, so that the two are one range.
            if (value == 0 && !is_empty(at)) {
                const auto is_zero = [&](const stretch &it) { return it.has_value && values_.value_of(it.value) == 0; };
                const stretch after = at.has_end ? calls::range_at(inner(), at.end) : stretch();
                const stretch before = at.start > least ? calls::range_at(inner(), at.start - 1) : stretch();
                if (is_zero(after)) which = after.value, at = {at.start, after.end, after.has_end};
                if (is_zero(before)) which = before.value;
            }
        }
        return change(calls::insert, calls::insert_from, at, which);
    }
    // Changes keys, and counts how many ranges hold each value: the new one, and those there before that have an end cut off, are joined
    // with it, are gone, or become two.
    template <class Call, class Open, class... Value> range_map &change(Call call, Open open, const bounds &at, Value... value)
    {
        if (is_empty(at)) return *this;
        std::vector<std::uint64_t> fewer;
        std::optional<std::uint64_t> more;
        if (values_.has_holders()) {
            each_over(at.start > least ? at.start - 1 : least, at.has_end ? at.end : most, [&](const stretch &it) {
                const bool has_below = it.start < at.start, has_above = at.has_end && !(it.has_end && it.end <= at.end);
                if ((... || (it.value == value)) || !(has_below || has_above)) fewer.push_back(it.value);
                else if (has_below && has_above) more = it.value;
            });
        }
        apply(call, open, at, value...);
        (values_.hold_again(value), ...);
        if (more) values_.hold_again(*more);
        for (const std::uint64_t it : fewer) values_.let_go(it);
        return *this;
    }
    template <class Call, class Open, class Keys, class... Value> void apply(Call call, Open open, const Keys &at, Value... value)
    {
        if (at.has_end) owner_.change(call, at.start, at.end, value...);
        else owner_.change(open, at.start, value...);
    }

    detail::owner<calls> owner_;
    numbers values_;
};

} // namespace range_sets

#if defined(__cpp_lib_ranges) && !defined(__cpp_lib_ranges_zip)
// What makes an iterator whose items refer to values one of C++20. C++23 has it of each pair.
template <class T, class V, template <class> class A, template <class> class B>
struct std::basic_common_reference<std::pair<range_sets::range<T>, const V &>, std::pair<range_sets::range<T>, V>, A, B> {
    using type = std::pair<range_sets::range<T>, const V &>;
};
template <class T, class V, template <class> class A, template <class> class B>
struct std::basic_common_reference<std::pair<range_sets::range<T>, V>, std::pair<range_sets::range<T>, const V &>, A, B> {
    using type = std::pair<range_sets::range<T>, const V &>;
};
#endif

#endif
