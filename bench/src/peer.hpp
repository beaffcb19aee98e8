// What the benchmark asks of a contender.
#pragma once

#include "sets.hpp"

#include <cstddef>
#include <memory>
#include <string>
#include <vector>

// One thing that is timed. The first four make a new set, the next eight change one where it lies.
enum class Task {
    union_new,
    intersection_new,
    difference_new,
    symmetric_difference_new,
    union_borrowed,
    intersection_borrowed,
    difference_borrowed,
    symmetric_difference_borrowed,
    union_owned,
    intersection_owned,
    difference_owned,
    symmetric_difference_owned,
    copy_one,
    copy_both,
    union_same_place,
    union_other_place,
    is_disjoint,
    is_subset,
    union_len,
    union_len_text,
    contains,
    contains_waiting,
    contains_text,
    contains_each,
    split,
    split_waiting,
    iter,
    insert,
    remove,
    insert_all,
};

const char* name_of(Task task);

// Of a task of the first twelve.
Operation operation_of(Task task);

// A contender. It holds sets of its own kind, made of a case's lists.
class Peer {
public:
    virtual ~Peer() = default;
    virtual std::string name() const = 0;
    virtual bool can(Task task) const = 0;

    // Whether it can hold the case's sets.
    virtual bool fits(const Case& that) const = 0;
    virtual void load(const Case& that) = 0;

    // The task on every pair of the case; a set that is made is dropped. It returns the sum of the results.
    virtual std::size_t pass(Task task) = 0;

    // The boundaries that a pair gives, of a task that makes a set.
    virtual Boundaries result(Task task, std::size_t pair) = 0;
};

using Peers = std::vector<std::unique_ptr<Peer>>;

// Those that were built in. The library is the first.
Peers all_peers();
