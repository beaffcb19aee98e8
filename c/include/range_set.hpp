// SPDX-License-Identifier: MIT OR Apache-2.0
// Sets of whole numbers for C++17 and later, over the calls of range_set.h: of the integer types with 32 or 64 bits, of char32_t and
// wchar_t, and of points in time of std::chrono, which such numbers count. range_map.hpp has maps.
//
//     using range_sets::range_set, range_sets::from;
//     const range_set<int64_t> day = {{9, 17}}, busy = {{9, 11}, {12, 15}};
//     auto free = day - busy;                              // 11 to 12, and 15 to 17
//     for (const auto &it : free) std::cout << it << '\n';
//     std::cout << free << '\n';                           // 11..12, 15..17
//     if (free.contains(16)) std::cout << "free at four\n";
//     free.remove({15, 16}).insert(from(20));              // 11 to 12, 16 to 17, and all from 20 on
//     free |= {{18, 19}};
//
// range_set owns its boundaries. range_set_view borrows them: it is cheap to copy, and takes any range_set of its type that has a
// name. What it borrows from has to outlive it. A view of a temporary set doesn't compile, nor do its iterators, but each call
// takes such a set, and so does a for over its ranges. Where memory is refused std::bad_alloc is thrown, and a set that was to change
// is as it was. Nothing else is thrown, but by the stream of a <<, and std::out_of_range where a number of another integer type
// doesn't fit the set's, before the call that it was for. Without exceptions, as by -fno-exceptions, the program is aborted there.
// std::format doesn't take sets: gcc 12 and clang 14 don't have it.
//
// Several threads may ask one set at a time, and none may change it then.
#ifndef RANGE_SET_HPP
#define RANGE_SET_HPP

#if __cplusplus < 201703L && (!defined(_MSVC_LANG) || _MSVC_LANG < 201703L)
#error "range_set.hpp is for C++17 and later: compile with -std=c++17"
#else

#include "range_set/calls.hpp"     // the calls of range_set.h by the type of their numbers
#include "range_set/elements.hpp"  // elements as numbers, and what is thrown
#include "range_set/questions.hpp" // the questions of sets, and operators
#include "range_set/view.hpp"      // range_set_view, iterators, the hash
#include "range_set/set.hpp"       // range_set
#include "range_set/chunked.hpp"   // chunked_range_set

#endif
#endif
