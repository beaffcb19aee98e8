// Boost.ICL's interval_set and interval_map: trees of ranges.
#include "held.hpp"
#include "peers.hpp"

#include <boost/icl/interval_map.hpp>
#include <boost/icl/interval_set.hpp>

namespace {

namespace icl = boost::icl;
using Intervals = icl::interval_set<std::int64_t>;
using Range = Intervals::interval_type;

Range range(std::int64_t start, std::int64_t end) {
    return icl::interval<std::int64_t>::right_open(start, end);
}

void put_all(Intervals& set, const Commands& commands) {
    for (std::size_t i = 0; i < commands.starts.size(); i++) {
        set.insert(range(commands.starts[i], commands.ends[i]));
    }
}

void take_all(Intervals& set, const Commands& commands) {
    for (std::size_t i = 0; i < commands.starts.size(); i++) {
        set.erase(range(commands.starts[i], commands.ends[i]));
    }
}

std::size_t given(const Intervals& set, Boundaries* out) {
    if (out != nullptr) {
        for (const Range& each : set) {
            out->push_back(each.lower());
            out->push_back(each.upper());
        }
    }
    return set.iterative_size();
}

template <Operation operation> void change(Intervals& set, const Intervals& other) {
    switch (operation) {
    case Operation::unite:
        set |= other;
        break;
    case Operation::intersect:
        set &= other;
        break;
    case Operation::subtract:
        set -= other;
        break;
    case Operation::differ:
        set ^= other;
        break;
    }
}

struct Icl {
    static constexpr const char* name = "Boost.ICL";
    static constexpr std::int64_t greatest = INT64_MAX;
    static constexpr unsigned offers =
        Group::new_sets | Group::in_place | Group::tests | Group::contains | Group::iter | Group::changes;
    using Set = Intervals;

    static Set made(const Boundaries& boundaries) {
        Intervals set;
        for (std::size_t i = 0; i + 1 < boundaries.size(); i += 2) {
            set.insert(set.end(), range(boundaries[i], boundaries[i + 1]));
        }
        return set;
    }

    template <Operation operation> static std::size_t combine(const Set& left, const Set& right, Boundaries* out) {
        switch (operation) {
        case Operation::unite:
            return given(left | right, out);
        case Operation::intersect:
            return given(left & right, out);
        case Operation::subtract:
            return given(left - right, out);
        case Operation::differ:
            return given(left ^ right, out);
        }
    }

    static std::size_t copy_one(const Set& left, Boundaries* out) { return given(Intervals(left), out); }

    static std::size_t copy_both(const Set& left, const Set& right, Boundaries* out) {
        Intervals set = left;
        Intervals other = right;
        return given(set, out);
    }

    template <Operation operation>
    static std::size_t change_by_borrowed(const Set& left, const Set& right, Boundaries* out) {
        Intervals set = left;
        change<operation>(set, right);
        return given(set, out);
    }

    template <Operation operation>
    static std::size_t change_by_owned(const Set& left, const Set& right, Boundaries* out) {
        Intervals set = left;
        Intervals other = right;
        change<operation>(set, other);
        return given(set, out);
    }

    static bool is_disjoint(const Set& left, const Set& right) { return icl::disjoint(left, right); }

    static bool is_subset(const Set& left, const Set& right) { return icl::within(left, right); }

    static std::size_t contains(const Set& set, const Boundaries& values) {
        std::size_t members = 0;
        for (std::int64_t value : values) {
            members += icl::contains(set, value);
        }
        return members;
    }

    static std::size_t iter(const Set& set) {
        std::size_t members = 0;
        for (const Range& each : set) {
            members += static_cast<std::size_t>(each.upper() - each.lower());
        }
        return members;
    }

    static std::size_t insert(const Set& left, const Commands& commands, Boundaries* out) {
        Intervals set = left;
        put_all(set, commands);
        return given(set, out);
    }

    static std::size_t remove(const Set& left, const Commands& commands, Boundaries* out) {
        Intervals set = left;
        take_all(set, commands);
        return given(set, out);
    }

    static constexpr bool has_ranges = true;
    static constexpr bool finds_room = false;

    static void put_in(Set& set, const Commands& commands) { put_all(set, commands); }

    static void take_out(Set& set, const Commands& commands) { take_all(set, commands); }

    static void boundaries_of(const Set& set, Boundaries* out) { given(set, out); }
};

struct IclMap {
    using Map = icl::interval_map<std::int64_t, std::uint64_t>;

    static Map made() { return {}; }

    static void put_in(Map& map, const Entries& entries) {
        for (std::size_t i = 0; i < entries.values.size(); i++) {
            map.set(std::make_pair(range(entries.ranges.starts[i], entries.ranges.ends[i]), entries.values[i]));
        }
    }

    static std::uint64_t get(const Map& map, const Boundaries& keys) {
        std::uint64_t sum = 0;
        for (std::int64_t key : keys) {
            auto found = map.find(key);
            sum += found == map.end() ? 0 : found->second;
        }
        return sum;
    }

    static Map sum(const Map& map, const Map& that) { return map + that; }

    static Entries entries_of(const Map& map) {
        Entries entries;
        for (const auto& [range, value] : map) {
            entries.ranges.starts.push_back(range.lower());
            entries.ranges.ends.push_back(range.upper());
            entries.values.push_back(value);
        }
        return entries;
    }
};

} // namespace

GrowingKind growing_icl() {
    return growing_kind<Icl>(Icl::name);
}

std::unique_ptr<Peer> icl_peer() {
    return std::make_unique<Held<Icl>>();
}

MapKind map_icl() {
    return map_kind<IclMap>("Boost.ICL");
}
