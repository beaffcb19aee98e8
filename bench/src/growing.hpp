// Ranges one by one: a contender is a set that stays while it is changed and asked.
#pragma once

#include "sets.hpp"

#include <cstddef>
#include <functional>
#include <memory>
#include <string>
#include <vector>

class Growing {
public:
    virtual ~Growing() = default;

    // One range after the other.
    virtual void insert(const Commands& commands) = 0;
    virtual void remove(const Commands& commands) = 0;

    // How many of the values are members.
    virtual std::size_t contains(const Boundaries& values) const = 0;

    // How many members there are, summed up range by range, by those that have a list of ranges.
    virtual bool can_iter() const = 0;
    virtual std::size_t iter() const = 0;

    // Takes one range after the other out, and puts as many numbers in at the lowest place; the sum of the places. For
    // those that find room.
    virtual bool finds_room() const = 0;
    virtual std::int64_t replace(const Commands& commands) = 0;

    virtual Boundaries boundaries() const = 0;
};

// A kind of set by its name, and how an empty one is made.
struct GrowingKind {
    std::string name;
    std::function<std::unique_ptr<Growing>()> make;
};

// A contender made of static functions over one set. Such a kind has a type Set, `put_in`, `take_out`, `contains` and
// `boundaries_of`, and `iter` where `has_ranges` says so, and `replace` where `finds_room` does.
template <class Kind> class Grown final : public Growing {
public:
    void insert(const Commands& commands) override { Kind::put_in(set, commands); }

    void remove(const Commands& commands) override { Kind::take_out(set, commands); }

    std::size_t contains(const Boundaries& values) const override { return Kind::contains(set, values); }

    bool can_iter() const override { return Kind::has_ranges; }

    std::size_t iter() const override {
        if constexpr (Kind::has_ranges) {
            return Kind::iter(set);
        } else {
            return 0;
        }
    }

    bool finds_room() const override { return Kind::finds_room; }

    std::int64_t replace(const Commands& commands) override {
        if constexpr (Kind::finds_room) {
            return Kind::replace(set, commands);
        } else {
            return 0;
        }
    }

    Boundaries boundaries() const override {
        Boundaries out;
        Kind::boundaries_of(set, &out);
        return out;
    }

private:
    typename Kind::Set set = Kind::made({});
};

template <class Kind> GrowingKind growing_kind(const char* name) {
    return {name, [] { return std::make_unique<Grown<Kind>>(); }};
}

// Those that were built in.
std::vector<GrowingKind> growing_kinds();

// Compares what each contender holds and answers at one size with what is right. How many results that were.
std::size_t check_growing(const std::vector<GrowingKind>& kinds, std::size_t ranges);

// Times all contenders at sizes from 1,000 ranges to `most`, and writes a table and the CSV.
void time_growing(const std::vector<GrowingKind>& kinds, std::size_t most, const std::string& csv);
