// A contender that lies behind exports of C with the signatures of library.h, which a struct names.
#pragma once

#include "held.hpp"
#include "library.h"

#include <cstdint>
#include <new>

template <class Exports> struct Exported : Exports {
    static constexpr std::int64_t greatest = INT64_MAX;
    static constexpr unsigned offers = Group::new_sets | Group::in_place | Group::tests | Group::lengths |
                                       Group::contains | Group::split | Group::iter | Group::changes;

    // An export reads no item of an empty list, but wants a pointer to one.
    struct Set {
        Boundaries boundaries;
    };

    static Set made(Boundaries boundaries) {
        boundaries.reserve(1);
        return Set{std::move(boundaries)};
    }

    template <Operation operation> static std::size_t combine(const Set& left, const Set& right, Boundaries* out) {
        return call_two(Exports::new_sets[static_cast<std::size_t>(operation)], left, right, out);
    }

    template <Operation operation>
    static std::size_t change_by_borrowed(const Set& left, const Set& right, Boundaries* out) {
        return call_two(Exports::borrowed[static_cast<std::size_t>(operation)], left, right, out);
    }

    template <Operation operation>
    static std::size_t change_by_owned(const Set& left, const Set& right, Boundaries* out) {
        return call_two(Exports::owned[static_cast<std::size_t>(operation)], left, right, out);
    }

    static std::size_t copy_one(const Set& left, Boundaries* out) {
        return call(
            [&](std::int64_t* room, std::size_t room_len) {
                return Exports::copy(left.boundaries.data(), left.boundaries.size(), room, room_len);
            },
            out);
    }

    static std::size_t copy_both(const Set& left, const Set& right, Boundaries* out) {
        return call_two(Exports::copies, left, right, out);
    }

    static bool is_disjoint(const Set& left, const Set& right) {
        return Exports::disjoint(left.boundaries.data(), left.boundaries.size(), right.boundaries.data(),
                                 right.boundaries.size());
    }

    static bool is_subset(const Set& left, const Set& right) {
        return Exports::subset(left.boundaries.data(), left.boundaries.size(), right.boundaries.data(),
                               right.boundaries.size());
    }

    static std::size_t union_len(const Set& left, const Set& right) {
        return Exports::length(left.boundaries.data(), left.boundaries.size(), right.boundaries.data(),
                               right.boundaries.size());
    }

    static std::size_t contains(const Set& set, const Boundaries& values) {
        return Exports::members(set.boundaries.data(), set.boundaries.size(), values.data(), values.size());
    }

    static std::size_t split(const Set& set, const Boundaries& values) {
        return Exports::cut(set.boundaries.data(), set.boundaries.size(), values.data(), values.size());
    }

    static std::size_t iter(const Set& set) {
        return static_cast<std::size_t>(Exports::ranges(set.boundaries.data(), set.boundaries.size()));
    }

    static std::size_t insert(const Set& left, const Commands& commands, Boundaries* out) {
        return call_commands(Exports::put_in, left, commands, out);
    }

    static std::size_t remove(const Set& left, const Commands& commands, Boundaries* out) {
        return call_commands(Exports::take_out, left, commands, out);
    }

protected:
    static std::size_t granted(std::size_t length) {
        if (length == SIZE_MAX) {
            throw std::bad_alloc();
        }
        return length;
    }

    // Calls an export, and where the boundaries are asked for, once more with room for them.
    template <class Call> static std::size_t call(Call one, Boundaries* out) {
        std::int64_t nowhere;
        std::size_t length = granted(one(&nowhere, 0));
        if (out != nullptr) {
            out->resize(length + 1);
            length = granted(one(out->data(), out->size()));
            out->resize(length);
        }
        return length;
    }

    static std::size_t call_two(range_bench_two* one, const Set& left, const Set& right, Boundaries* out) {
        return call(
            [&](std::int64_t* room, std::size_t room_len) {
                return one(left.boundaries.data(), left.boundaries.size(), right.boundaries.data(),
                           right.boundaries.size(), room, room_len);
            },
            out);
    }

    static std::size_t call_commands(range_bench_commands* all, const Set& left, const Commands& commands,
                                     Boundaries* out) {
        return call(
            [&](std::int64_t* room, std::size_t room_len) {
                return all(left.boundaries.data(), left.boundaries.size(), commands.starts.data(),
                           commands.starts.size(), commands.ends.data(), commands.ends.size(), room, room_len);
            },
            out);
    }
};
