// SPDX-License-Identifier: MIT OR Apache-2.0
// The values of maps by numbers, which are what range_set.h's maps have.
#ifndef RANGE_SET_VALUES_HPP
#define RANGE_SET_VALUES_HPP

#include <cmath>
#include <cstddef>
#include <cstdint>
#include <cstring>
#include <limits>
#include <map>
#include <memory>
#include <type_traits>
#include <utility>

namespace range_sets {

namespace detail {

// Whether the map itself holds a value, as a number of 64 bits.
template <class V> constexpr bool is_plain = (std::is_arithmetic_v<V> || std::is_enum_v<V> || std::is_pointer_v<V>) && sizeof(V) <= 8;

// Whether a type has `<`.
template <class V, class = void> constexpr bool is_ordered = false;
template <class V> constexpr bool is_ordered<V, std::void_t<decltype(std::declval<const V &>() < std::declval<const V &>())>> = true;

// Values by their numbers. Here each stands in a slot, whose address is its number, as long as something holds it.
template <class V, bool = is_plain<V>, bool = std::is_floating_point_v<V>> class values {
    static_assert(is_ordered<V>, "the values of a range_map are numbers, enums or pointers, or need an operator <");
    struct slot;
    using slots = std::map<V, std::unique_ptr<slot>>;
    struct slot {
        typename slots::iterator at;
        std::size_t holders;
    };

public:
    const V &value_of(std::uint64_t number) const noexcept { return slot_of(number)->at->first; }
    // Whether a number is that of a value.
    auto is(const V &value) const
    {
        const auto it = slots_.find(value);
        return [wanted = it != slots_.end() ? it->second.get() : nullptr](std::uint64_t number) { return slot_of(number) == wanted; };
    }

    // Whether values have holders, which are counted.
    bool has_holders() const noexcept { return true; }
    // The number of a value that is held from now on.
    std::uint64_t hold(const V &value)
    {
        auto it = slots_.find(value);
        if (it == slots_.end()) {
            auto made = std::make_unique<slot>();
            it = slots_.emplace(value, nullptr).first;
            if (it->second == nullptr) it->second = std::move(made);
            it->second->at = it;
        }
        it->second->holders++;
        return reinterpret_cast<std::uintptr_t>(it->second.get());
    }
    void hold_again(std::uint64_t number) noexcept { slot_of(number)->holders++; }
    void let_go(std::uint64_t number) noexcept
    {
        slot *const it = slot_of(number);
        if (--it->holders == 0) slots_.erase(it->at);
    }

private:
    static slot *slot_of(std::uint64_t number) noexcept { return reinterpret_cast<slot *>(static_cast<std::uintptr_t>(number)); }

    slots slots_;
};

// Here the values are the numbers.
template <class V> class values<V, true, false> {
public:
    static V value_of(std::uint64_t number) noexcept
    {
        if constexpr (std::is_pointer_v<V>) return reinterpret_cast<V>(static_cast<std::uintptr_t>(number));
        else return static_cast<V>(number);
    }
    static auto is(V value) noexcept
    {
        return [value](std::uint64_t number) { return value_of(number) == value; };
    }
    static constexpr bool has_holders() noexcept { return false; }
    static std::uint64_t hold(V value) noexcept
    {
        if constexpr (std::is_pointer_v<V>) return reinterpret_cast<std::uintptr_t>(value);
        else return static_cast<std::uint64_t>(value);
    }
    static void hold_again(std::uint64_t) noexcept {}
    static void let_go(std::uint64_t) noexcept {}
};

// Here they are too, but each NaN has a slot and a number of its own, which is the bits of a NaN: the map takes no two for one.
template <class V> class values<V, true, true> {
    static_assert(std::numeric_limits<double>::is_iec559 && sizeof(double) == 8, "a double has the 64 bits of IEC 559");
    struct slot {
        V value;
        std::size_t holders;
    };
    static constexpr std::uint64_t first = 0x7ff0000000000001;

public:
    V value_of(std::uint64_t number) const noexcept
    {
        double value;
        std::memcpy(&value, &number, sizeof(value));
        return std::isnan(value) ? slots_.find(number)->second.value : static_cast<V>(value);
    }
    auto is(V value) const noexcept
    {
        return [this, value](std::uint64_t number) { return value_of(number) == value; };
    }
    bool has_holders() const noexcept { return !slots_.empty(); }
    std::uint64_t hold(V value)
    {
        std::uint64_t number = slots_.empty() ? first : slots_.rbegin()->first + 1;
        const double wide = value;
        if (std::isnan(value)) slots_.emplace_hint(slots_.end(), number, slot{value, 1});
        else std::memcpy(&number, &wide, sizeof(number));
        return number;
    }
    void hold_again(std::uint64_t number) noexcept
    {
        if (const auto it = slots_.find(number); it != slots_.end()) it->second.holders++;
    }
    void let_go(std::uint64_t number) noexcept
    {
        if (const auto it = slots_.find(number); it != slots_.end() && --it->second.holders == 0) slots_.erase(it);
    }

private:
    std::map<std::uint64_t, slot> slots_;
};

} // namespace detail

} // namespace range_sets

#endif
