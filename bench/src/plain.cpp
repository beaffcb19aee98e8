#include "plain.hpp"

#include <algorithm>
#include <iterator>
#include <stdexcept>
#include <string>

namespace {

// Whether a number is a member: an odd number of boundaries is at or below it.
bool is_member(const Boundaries& set, std::int64_t value) {
    return (std::upper_bound(set.begin(), set.end(), value) - set.begin()) % 2 != 0;
}

// How many boundaries are below a number: those of the least set with the same members below it.
std::size_t below(const Boundaries& set, std::int64_t value) {
    return static_cast<std::size_t>(std::lower_bound(set.begin(), set.end(), value) - set.begin());
}

// The boundaries of ranges that touch no other, in order.
Boundaries all_of(const Commands& commands) {
    Boundaries all = commands.starts;
    all.insert(all.end(), commands.ends.begin(), commands.ends.end());
    std::sort(all.begin(), all.end());
    return all;
}

Boundaries right_set(Task task, const Pair& pair, const Case& that) {
    switch (task) {
    case Task::copy_one:
    case Task::copy_both:
        return pair.left;
    case Task::union_same_place:
    case Task::union_other_place:
        return plain(Operation::unite, pair.left, pair.right);
    case Task::insert:
    case Task::insert_all:
        return plain(Operation::unite, pair.left, all_of(that.commands));
    case Task::remove:
        return plain(Operation::subtract, pair.left, all_of(that.commands));
    default:
        return plain(operation_of(task), pair.left, pair.right);
    }
}

std::size_t right_answer(Task task, const Pair& pair, const Case& that) {
    std::size_t sum = 0;
    switch (task) {
    case Task::is_disjoint:
        return plain(Operation::intersect, pair.left, pair.right).empty();
    case Task::is_subset:
        return plain(Operation::subtract, pair.left, pair.right).empty();
    case Task::union_len:
    case Task::union_len_text:
        return plain(Operation::unite, pair.left, pair.right).size();
    case Task::contains:
    case Task::contains_text:
    case Task::contains_each:
        for (std::int64_t value : that.values) {
            sum += is_member(pair.left, value);
        }
        return sum;
    case Task::contains_waiting:
        return asked_one_by_one(
            that.values, [&](const Boundaries& one) -> std::size_t { return is_member(pair.left, one.front()); });
    case Task::split:
        for (std::int64_t value : that.values) {
            sum += below(pair.left, value);
        }
        return sum;
    case Task::split_waiting:
        return asked_one_by_one(that.values, [&](const Boundaries& one) { return below(pair.left, one.front()); });
    default:
        for (std::size_t i = 0; i + 1 < pair.left.size(); i += 2) {
            sum += static_cast<std::size_t>(pair.left[i + 1] - pair.left[i]);
        }
        return sum;
    }
}

bool makes_a_set(Task task) {
    return task <= Task::union_other_place || Task::insert <= task;
}

[[noreturn]] void fail(const Peer& peer, Task task, const Case& that, const std::string& what) {
    throw std::runtime_error("wrong: " + peer.name() + ", " + name_of(task) + ", " + that.shape + ", " +
                             std::to_string(that.size) + " boundaries: " + what);
}

} // namespace

Boundaries plain(Operation operation, const Boundaries& left, const Boundaries& right) {
    Boundaries all;
    std::set_union(left.begin(), left.end(), right.begin(), right.end(), std::back_inserter(all));
    Boundaries made;
    for (std::int64_t at : all) {
        bool was = made.size() % 2 != 0;
        if (is_on(operation, is_member(left, at), is_member(right, at)) != was) {
            made.push_back(at);
        }
    }
    return made;
}

void compare(Peer& peer, Task task, const Case& that) {
    if (makes_a_set(task)) {
        for (std::size_t i = 0; i < that.pairs.size(); i++) {
            if (peer.result(task, i) != right_set(task, that.pairs[i], that)) {
                fail(peer, task, that, "pair " + std::to_string(i));
            }
        }
        return;
    }
    std::size_t right = 0;
    for (const Pair& pair : that.pairs) {
        right += right_answer(task, pair, that);
    }
    std::size_t answer = peer.pass(task);
    if (answer != right) {
        fail(peer, task, that, std::to_string(answer) + " in place of " + std::to_string(right));
    }
}
