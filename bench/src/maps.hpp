// Maps from ranges to values: a contender is a map that stays while it is changed and asked.
#pragma once

#include "sets.hpp"

#include <cstddef>
#include <cstdint>
#include <functional>
#include <memory>
#include <optional>
#include <string>
#include <vector>

// Ranges that are given values, one after the other.
struct Entries {
    Commands ranges;
    std::vector<std::uint64_t> values;
};

class Mapping {
public:
    virtual ~Mapping() = default;

    // One range after the other.
    virtual void insert(const Entries& entries) = 0;

    // The sum of the keys' values.
    virtual std::uint64_t get(const Boundaries& keys) const = 0;

    // The map of the sums of both values, or of the one that is there, of one more map of this kind; null if the kind has
    // no such call.
    virtual std::unique_ptr<Mapping> sum_with(const Mapping& that) const = 0;

    // The ranges with their values, in order.
    virtual Entries entries() const = 0;
};

// A kind of map by its name, and how an empty one is made.
struct MapKind {
    std::string name;
    std::function<std::unique_ptr<Mapping>()> make;
};

// A contender made of static functions over one map. Such a kind has a type Map, `made`, `put_in`, `get`, `sum` and
// `entries_of`.
template <class Kind> class Mapped final : public Mapping {
public:
    explicit Mapped(typename Kind::Map it) : map(std::move(it)) {}

    void insert(const Entries& entries) override { Kind::put_in(map, entries); }

    std::uint64_t get(const Boundaries& keys) const override { return Kind::get(map, keys); }

    std::unique_ptr<Mapping> sum_with(const Mapping& that) const override {
        std::optional<typename Kind::Map> sums = Kind::sum(map, dynamic_cast<const Mapped&>(that).map);
        return sums ? std::make_unique<Mapped>(std::move(*sums)) : nullptr;
    }

    Entries entries() const override { return Kind::entries_of(map); }

private:
    typename Kind::Map map;
};

template <class Kind> MapKind map_kind(const char* name) {
    return {name, [] { return std::make_unique<Mapped<Kind>>(Kind::made()); }};
}

// Those that were built in.
std::vector<MapKind> map_kinds();

// Compares what each contender holds and answers at one size with what is right. How many results that were.
std::size_t check_maps(const std::vector<MapKind>& kinds, std::size_t ranges);

// Times all contenders, and writes a table and the CSV.
void time_maps(const std::vector<MapKind>& kinds, const std::string& csv);
