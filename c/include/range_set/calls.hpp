// SPDX-License-Identifier: MIT OR Apache-2.0
// The calls of range_set.h by the type of their numbers.
#ifndef RANGE_SET_CALLS_HPP
#define RANGE_SET_CALLS_HPP

#include "../range_set.h"

#include <cstdint>

namespace range_sets {

namespace detail {

// The calls of the header for one of its types of numbers, and those of sets in chunks and of maps in `chunked` and `mapped`, by the
// same names.
template <class T> struct calls_of;

#define RANGE_SET_CALL(kind, call) static constexpr auto call = range_set_##kind##_##call;
#define RANGE_MAP_CALL(kind, call) static constexpr auto call = range_map_##kind##_##call;
#define RANGE_SET_QUESTIONS(kind) \
    RANGE_SET_CALL(kind, contains) RANGE_SET_CALL(kind, contains_range) RANGE_SET_CALL(kind, intersects_range) \
    RANGE_SET_CALL(kind, is_empty) RANGE_SET_CALL(kind, is_all) RANGE_SET_CALL(kind, ranges_len) RANGE_SET_CALL(kind, covered) \
    RANGE_SET_CALL(kind, range_at) RANGE_SET_CALL(kind, range_from) RANGE_SET_CALL(kind, first) RANGE_SET_CALL(kind, last) \
    RANGE_SET_CALL(kind, next_member) RANGE_SET_CALL(kind, next_gap) RANGE_SET_CALL(kind, prev_member) RANGE_SET_CALL(kind, prev_gap) \
    RANGE_SET_CALL(kind, rank) RANGE_SET_CALL(kind, select) RANGE_SET_CALL(kind, first_run) RANGE_SET_CALL(kind, first_run_from) \
    RANGE_SET_CALL(kind, intersects) RANGE_SET_CALL(kind, is_subset) RANGE_SET_CALL(kind, equal)
// These of a set in chunks change it, or what it remembers.
#define RANGE_SET_CHANGES(kind) \
    RANGE_SET_CALL(kind, insert) RANGE_SET_CALL(kind, remove) RANGE_SET_CALL(kind, first_fit) RANGE_SET_CALL(kind, first_fit_aligned) \
    RANGE_SET_CALL(kind, first_fit_from) RANGE_SET_CALL(kind, first_fit_aligned_from) RANGE_SET_CALL(kind, insert_changed) \
    RANGE_SET_CALL(kind, remove_changed)
#define RANGE_SET_CALLS(number, T) \
    template <> struct calls_of<T> { \
        using value = T; \
        using set = range_set_##number; \
        using part = range_set_##number##_range; \
        using buffer = range_set_##number##_buffer; \
        using members = range_set_##number##_members; \
        RANGE_SET_QUESTIONS(number) RANGE_SET_CHANGES(number) \
        RANGE_SET_CALL(number, view) RANGE_SET_CALL(number, from_ranges) RANGE_SET_CALL(number, from_values) \
        RANGE_SET_CALL(number, members_first) RANGE_SET_CALL(number, members_last) RANGE_SET_CALL(number, members_next) \
        RANGE_SET_CALL(number, members_prev) RANGE_SET_CALL(number, get) RANGE_SET_CALL(number, split) \
        RANGE_SET_CALL(number, combine) RANGE_SET_CALL(number, combine_with) RANGE_SET_CALL(number, union_all) \
        RANGE_SET_CALL(number, negation) RANGE_SET_CALL(number, gaps) RANGE_SET_CALL(number, contains_each) \
        RANGE_SET_CALL(number, print) RANGE_SET_CALL(number, parse) RANGE_SET_CALL(number, parse_by) RANGE_SET_CALL(number, buffer_of) \
        struct chunked { \
            using set = range_set_##number##_chunked; \
            using owned = set; \
            static constexpr auto make = range_set_##number##_chunked_new; \
            RANGE_SET_QUESTIONS(number##_chunked) RANGE_SET_CHANGES(number##_chunked) \
            RANGE_SET_CALL(number##_chunked, of) RANGE_SET_CALL(number##_chunked, free) RANGE_SET_CALL(number##_chunked, copy) \
            RANGE_SET_CALL(number##_chunked, insert_from) RANGE_SET_CALL(number##_chunked, remove_from) \
            RANGE_SET_CALL(number##_chunked, intersects_list) RANGE_SET_CALL(number##_chunked, is_subset_list) \
            RANGE_SET_CALL(number##_chunked, is_superset_list) \
            RANGE_SET_CALL(number##_chunked, combine) RANGE_SET_CALL(number##_chunked, boundaries_len) \
            RANGE_SET_CALL(number##_chunked, next_ranges) RANGE_SET_CALL(number##_chunked, overlapping) \
        }; \
        struct mapped { \
            using owned = range_map_##number; \
            using stretch = range_map_##number##_stretch; \
            static constexpr auto make = range_map_##number##_new; \
            RANGE_MAP_CALL(number, free) RANGE_MAP_CALL(number, copy) RANGE_MAP_CALL(number, len) RANGE_MAP_CALL(number, covered) \
            RANGE_MAP_CALL(number, insert) RANGE_MAP_CALL(number, insert_from) RANGE_MAP_CALL(number, remove) \
            RANGE_MAP_CALL(number, remove_from) RANGE_MAP_CALL(number, range_at) RANGE_MAP_CALL(number, next) \
            RANGE_MAP_CALL(number, next_ranges) RANGE_MAP_CALL(number, first) RANGE_MAP_CALL(number, last) RANGE_MAP_CALL(number, span) \
            RANGE_MAP_CALL(number, first_fit) RANGE_MAP_CALL(number, first_fit_from) RANGE_MAP_CALL(number, first_fit_aligned) \
            RANGE_MAP_CALL(number, first_fit_aligned_from) \
        }; \
    };
RANGE_SET_CALLS(i32, std::int32_t)
RANGE_SET_CALLS(u32, std::uint32_t)
RANGE_SET_CALLS(i64, std::int64_t)
RANGE_SET_CALLS(u64, std::uint64_t)
#undef RANGE_SET_CALLS
#undef RANGE_SET_CHANGES
#undef RANGE_SET_QUESTIONS
#undef RANGE_MAP_CALL
#undef RANGE_SET_CALL

} // namespace detail

} // namespace range_sets

#endif
