// A Peer made of a kind of set: static functions over two sets, looped over all pairs of a case.
//
// A Kind has a name, the greatest number that it takes, a type Set, `made` (a Set of boundaries), and for each group of tasks that `offers` lists the
// functions of that group. Those that make a set take an `out`: where it isn't null, they write the boundaries there.
#pragma once

#include "peer.hpp"
#include "places.hpp"

#include <algorithm>
#include <stdexcept>
#include <utility>

enum class Group : unsigned {
    new_sets = 1,
    in_place = 2,
    tests = 4,
    lengths = 8,
    contains = 16,
    split = 32,
    iter = 64,
    changes = 128,
    texts = 256,
    at_once = 512,
    places = 1024,
    text_lengths = 2048,
    in_order = 4096,
};

constexpr unsigned operator|(Group a, Group b) {
    return static_cast<unsigned>(a) | static_cast<unsigned>(b);
}

constexpr unsigned operator|(unsigned a, Group b) {
    return a | static_cast<unsigned>(b);
}

inline Group group_of(Task task) {
    if (task <= Task::symmetric_difference_new) {
        return Group::new_sets;
    }
    if (task <= Task::copy_both) {
        return Group::in_place;
    }
    switch (task) {
    case Task::union_same_place:
    case Task::union_other_place:
        return Group::places;
    case Task::is_disjoint:
    case Task::is_subset:
        return Group::tests;
    case Task::union_len:
        return Group::lengths;
    case Task::union_len_text:
        return Group::text_lengths;
    case Task::contains:
    case Task::contains_waiting:
        return Group::contains;
    case Task::contains_text:
        return Group::texts;
    case Task::contains_each:
        return Group::in_order;
    case Task::split:
    case Task::split_waiting:
        return Group::split;
    case Task::iter:
        return Group::iter;
    case Task::insert_all:
        return Group::at_once;
    default:
        return Group::changes;
    }
}

template <class Kind> class Held final : public Peer {
public:
    std::string name() const override { return Kind::name; }

    bool can(Task task) const override { return (Kind::offers & static_cast<unsigned>(group_of(task))) != 0; }

    bool fits(const Case& that) const override { return that.greatest() <= Kind::greatest; }

    void load(const Case& that) override {
        pairs.clear();
        for (const Pair& pair : that.pairs) {
            pairs.emplace_back(Kind::made(pair.left), Kind::made(pair.right));
        }
        values = that.values;
        in_order = values;
        std::sort(in_order.begin(), in_order.end());
        commands = that.commands;
        text_set.clear();
        text_values.clear();
        if (offers(Group::texts) && that.shape == texts_shape) {
            text_set = texts_of(that.pairs.front().left);
            text_values = texts_of(values);
        }
        text_sides = {};
        if (offers(Group::text_lengths) && that.shape == two_texts_shape) {
            text_sides = {texts_of(that.pairs.front().left), texts_of(that.pairs.front().right)};
        }
        if (offers(Group::places)) {
            places.load(that.pairs.front());
        }
    }

    std::size_t pass(Task task) override {
        return over(task, [this](auto one) {
            std::size_t sum = 0;
            for (const auto& pair : pairs) {
                sum += one(pair, nullptr);
            }
            return sum;
        });
    }

    Boundaries result(Task task, std::size_t pair) override {
        Boundaries out;
        over(task, [&](auto one) { return one(pairs[pair], &out); });
        return out;
    }

private:
    using Set = typename Kind::Set;
    using Sides = std::pair<Set, Set>;

    static constexpr bool offers(Group group) { return (Kind::offers & static_cast<unsigned>(group)) != 0; }

    // Gives `run` the function that does the task on one pair, so that each loop has its task's code inside.
    template <class Run> std::size_t over(Task task, Run run) {
        if constexpr (offers(Group::new_sets)) {
            switch (task) {
            case Task::union_new:
                return run(combine<Operation::unite>);
            case Task::intersection_new:
                return run(combine<Operation::intersect>);
            case Task::difference_new:
                return run(combine<Operation::subtract>);
            case Task::symmetric_difference_new:
                return run(combine<Operation::differ>);
            default:
                break;
            }
        }
        if constexpr (offers(Group::in_place)) {
            switch (task) {
            case Task::union_borrowed:
                return run(borrow<Operation::unite>);
            case Task::intersection_borrowed:
                return run(borrow<Operation::intersect>);
            case Task::difference_borrowed:
                return run(borrow<Operation::subtract>);
            case Task::symmetric_difference_borrowed:
                return run(borrow<Operation::differ>);
            case Task::union_owned:
                return run(hand_over<Operation::unite>);
            case Task::intersection_owned:
                return run(hand_over<Operation::intersect>);
            case Task::difference_owned:
                return run(hand_over<Operation::subtract>);
            case Task::symmetric_difference_owned:
                return run(hand_over<Operation::differ>);
            case Task::copy_one:
                return run([](const Sides& sides, Boundaries* out) { return Kind::copy_one(sides.first, out); });
            case Task::copy_both:
                return run([](const Sides& sides, Boundaries* out) {
                    return Kind::copy_both(sides.first, sides.second, out);
                });
            default:
                break;
            }
        }
        if constexpr (offers(Group::places)) {
            if (task == Task::union_same_place) {
                return run([this](const Sides&, Boundaries* out) { return unite_at(0, out); });
            }
            if (task == Task::union_other_place) {
                return run([this](const Sides&, Boundaries* out) { return unite_at(Places::page / 2, out); });
            }
        }
        if constexpr (offers(Group::tests)) {
            if (task == Task::is_disjoint) {
                return run([](const Sides& sides, Boundaries*) -> std::size_t {
                    return Kind::is_disjoint(sides.first, sides.second);
                });
            }
            if (task == Task::is_subset) {
                return run([](const Sides& sides, Boundaries*) -> std::size_t {
                    return Kind::is_subset(sides.first, sides.second);
                });
            }
        }
        if constexpr (offers(Group::lengths)) {
            if (task == Task::union_len) {
                return run([](const Sides& sides, Boundaries*) { return Kind::union_len(sides.first, sides.second); });
            }
        }
        if constexpr (offers(Group::text_lengths)) {
            if (task == Task::union_len_text) {
                return run([this](const Sides&, Boundaries*) {
                    return Kind::union_len_text(text_sides.first, text_sides.second);
                });
            }
        }
        if constexpr (offers(Group::contains)) {
            if (task == Task::contains) {
                return run([this](const Sides& sides, Boundaries*) { return Kind::contains(sides.first, values); });
            }
            if (task == Task::contains_waiting) {
                return run([this](const Sides& sides, Boundaries*) {
                    return asked_one_by_one(values,
                                            [&](const Boundaries& one) { return Kind::contains(sides.first, one); });
                });
            }
        }
        if constexpr (offers(Group::texts)) {
            if (task == Task::contains_text) {
                return run([this](const Sides&, Boundaries*) { return Kind::contains_text(text_set, text_values); });
            }
        }
        if constexpr (offers(Group::in_order)) {
            if (task == Task::contains_each) {
                return run(
                    [this](const Sides& sides, Boundaries*) { return Kind::contains_each(sides.first, in_order); });
            }
        }
        if constexpr (offers(Group::split)) {
            if (task == Task::split) {
                return run([this](const Sides& sides, Boundaries*) { return Kind::split(sides.first, values); });
            }
            if (task == Task::split_waiting) {
                return run([this](const Sides& sides, Boundaries*) {
                    return asked_one_by_one(values,
                                            [&](const Boundaries& one) { return Kind::split(sides.first, one); });
                });
            }
        }
        if constexpr (offers(Group::iter)) {
            if (task == Task::iter) {
                return run([](const Sides& sides, Boundaries*) { return Kind::iter(sides.first); });
            }
        }
        if constexpr (offers(Group::changes)) {
            if (task == Task::insert) {
                return run(
                    [this](const Sides& sides, Boundaries* out) { return Kind::insert(sides.first, commands, out); });
            }
            if (task == Task::remove) {
                return run(
                    [this](const Sides& sides, Boundaries* out) { return Kind::remove(sides.first, commands, out); });
            }
        }
        if constexpr (offers(Group::at_once)) {
            if (task == Task::insert_all) {
                return run([this](const Sides& sides, Boundaries* out) {
                    return Kind::insert_all(sides.first, commands, out);
                });
            }
        }
        throw std::logic_error(name() + " was asked for " + name_of(task));
    }

    template <Operation operation> static std::size_t combine(const Sides& sides, Boundaries* out) {
        return Kind::template combine<operation>(sides.first, sides.second, out);
    }

    template <Operation operation> static std::size_t borrow(const Sides& sides, Boundaries* out) {
        return Kind::template change_by_borrowed<operation>(sides.first, sides.second, out);
    }

    template <Operation operation> static std::size_t hand_over(const Sides& sides, Boundaries* out) {
        return Kind::template change_by_owned<operation>(sides.first, sides.second, out);
    }

    // The union of the first pair's lists, `place` bytes into a page.
    std::size_t unite_at(std::size_t place, Boundaries* out) {
        std::int64_t* room = places.room(place);
        std::size_t made = Kind::unite_into(places.left(), places.left_len, places.right(), places.right_len, room);
        if (out != nullptr) {
            out->assign(room, room + made);
        }
        return made;
    }

    std::vector<Sides> pairs;
    Places places;
    Boundaries values;
    Boundaries in_order;
    Commands commands;
    Texts text_set;
    Texts text_values;
    std::pair<Texts, Texts> text_sides;
};
