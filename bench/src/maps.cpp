#include "maps.hpp"

#include <algorithm>
#include <chrono>
#include <cmath>
#include <cstdio>
#include <fstream>
#include <map>
#include <numeric>
#include <random>
#include <stdexcept>

namespace {

using Clock = std::chrono::steady_clock;

constexpr std::size_t asked = 100000;
constexpr std::size_t combined = 4096;

// Each round has maps of its own. The least of the rounds counts; large maps have fewer.
constexpr std::size_t rounds = 9;
constexpr std::size_t rounds_of_large = 3;
constexpr std::size_t large = 100000;

// How many values there are: neighbours may have equal ones.
constexpr std::uint64_t kinds_of_values = 5;

volatile std::uint64_t kept;

// Ranges of 6 at distances of 10, each with a value, from a place on.
Entries entries_from(std::int64_t from, std::size_t ranges, std::mt19937_64* shuffled) {
    std::vector<std::int64_t> places(ranges);
    std::iota(places.begin(), places.end(), 0);
    if (shuffled != nullptr) {
        std::shuffle(places.begin(), places.end(), *shuffled);
    }
    Entries entries;
    for (std::int64_t place : places) {
        entries.ranges.starts.push_back(from + place * 10);
        entries.ranges.ends.push_back(from + place * 10 + 6);
        entries.values.push_back(1 + static_cast<std::uint64_t>(place) % kinds_of_values);
    }
    return entries;
}

Boundaries keys_of(std::size_t ranges) {
    std::mt19937_64 random(ranges);
    std::uniform_int_distribution<std::int64_t> any(0, static_cast<std::int64_t>(ranges) * 10 + 20);
    Boundaries keys;
    for (std::size_t i = 0; i < asked; i++) {
        keys.push_back(any(random));
    }
    return keys;
}

// What the calls mean, key by key.
using Plain = std::map<std::int64_t, std::uint64_t>;

void put(Plain& plain, const Entries& entries) {
    for (std::size_t i = 0; i < entries.values.size(); i++) {
        for (std::int64_t key = entries.ranges.starts[i]; key < entries.ranges.ends[i]; key++) {
            plain[key] = entries.values[i];
        }
    }
}

// The longest ranges of one value.
Entries entries_of(const Plain& plain) {
    Entries entries;
    for (const auto& [key, value] : plain) {
        bool goes_on = !entries.values.empty() && entries.ranges.ends.back() == key && entries.values.back() == value;
        if (goes_on) {
            entries.ranges.ends.back() = key + 1;
        } else {
            entries.ranges.starts.push_back(key);
            entries.ranges.ends.push_back(key + 1);
            entries.values.push_back(value);
        }
    }
    return entries;
}

bool equal(const Entries& a, const Entries& b) {
    return a.ranges.starts == b.ranges.starts && a.ranges.ends == b.ranges.ends && a.values == b.values;
}

[[noreturn]] void fail(const MapKind& kind, const std::string& what) {
    throw std::runtime_error("wrong: " + kind.name + ", maps: " + what);
}

std::unique_ptr<Mapping> made(const MapKind& kind, const Entries& entries) {
    std::unique_ptr<Mapping> map = kind.make();
    map->insert(entries);
    return map;
}

// How many results were compared.
std::size_t check(const MapKind& kind, std::size_t ranges) {
    std::mt19937_64 random(ranges);
    Entries left = entries_from(10, ranges, &random), right = entries_from(13, ranges, &random);
    Plain plain, other;
    put(plain, left);
    put(other, right);
    std::unique_ptr<Mapping> map = made(kind, left);
    if (!equal(map->entries(), entries_of(plain))) {
        fail(kind, "insert");
    }
    std::uint64_t sum = 0;
    for (std::int64_t key : keys_of(ranges)) {
        auto found = plain.find(key);
        sum += found == plain.end() ? 0 : found->second;
    }
    if (map->get(keys_of(ranges)) != sum) {
        fail(kind, "get");
    }
    Plain sums = plain;
    for (const auto& [key, value] : other) {
        sums[key] += value;
    }
    std::unique_ptr<Mapping> sum_of_both = map->sum_with(*made(kind, right));
    if (sum_of_both && !equal(sum_of_both->entries(), entries_of(sums))) {
        fail(kind, "combine");
    }
    map->insert(right);
    put(plain, right);
    if (!equal(map->entries(), entries_of(plain))) {
        fail(kind, "insert over ranges");
    }
    return sum_of_both ? 4 : 3;
}

template <class Run> double least_ns(std::size_t times, Run run) {
    double least = 0;
    for (std::size_t i = 0; i < times; i++) {
        Clock::time_point start = Clock::now();
        run();
        double ns = std::chrono::duration<double, std::nano>(Clock::now() - start).count();
        least = i == 0 ? ns : std::min(least, ns);
    }
    return least;
}

std::size_t rounds_of(std::size_t ranges) {
    return ranges < large ? rounds : rounds_of_large;
}

// Ranges of 6 at any place between, which cut those that they meet.
Entries changes_of(std::size_t ranges, std::mt19937_64& random) {
    std::uniform_int_distribution<std::int64_t> any(10, static_cast<std::int64_t>(ranges) * 10);
    Entries changes;
    for (std::size_t i = 0; i < ranges; i++) {
        std::int64_t start = any(random);
        changes.ranges.starts.push_back(start);
        changes.ranges.ends.push_back(start + 6);
        changes.values.push_back(1 + i % kinds_of_values);
    }
    return changes;
}

// Growth at random places, and then as many changes, in nanoseconds a range.
struct Grown {
    double insert_ns;
    double change_ns;
};

Grown grown(const MapKind& kind, std::size_t ranges) {
    std::mt19937_64 random(ranges);
    Entries entries = entries_from(10, ranges, &random), changes = changes_of(ranges, random);
    Grown least{};
    for (std::size_t i = 0; i < rounds_of(ranges); i++) {
        std::unique_ptr<Mapping> map = kind.make();
        double insert = least_ns(1, [&] { map->insert(entries); });
        double change = least_ns(1, [&] { map->insert(changes); });
        least = i == 0 ? Grown{insert, change}
                       : Grown{std::min(least.insert_ns, insert), std::min(least.change_ns, change)};
    }
    double each = static_cast<double>(ranges);
    return {least.insert_ns / each, least.change_ns / each};
}

double insert_ns(const MapKind& kind, std::size_t ranges) {
    return grown(kind, ranges).insert_ns;
}

double change_ns(const MapKind& kind, std::size_t ranges) {
    return grown(kind, ranges).change_ns;
}

// Questions at random places of a map that was made in order, in nanoseconds a key.
double get_ns(const MapKind& kind, std::size_t ranges) {
    std::unique_ptr<Mapping> map = made(kind, entries_from(10, ranges, nullptr));
    Boundaries keys = keys_of(ranges);
    return least_ns(rounds, [&] { kept = map->get(keys); }) / static_cast<double>(asked);
}

// The sums of two maps whose ranges overlap, in nanoseconds, or no number if the kind has no such call.
double combine_ns(const MapKind& kind, std::size_t ranges) {
    std::unique_ptr<Mapping> left = made(kind, entries_from(10, ranges, nullptr));
    std::unique_ptr<Mapping> right = made(kind, entries_from(13, ranges, nullptr));
    if (!left->sum_with(*right)) {
        return std::nan("");
    }
    return least_ns(rounds * 10, [&] { left->sum_with(*right); });
}

} // namespace

std::size_t check_maps(const std::vector<MapKind>& kinds, std::size_t ranges) {
    std::size_t compared = 0;
    for (const MapKind& kind : kinds) {
        compared += check(kind, ranges);
    }
    return compared;
}

void time_maps(const std::vector<MapKind>& kinds, const std::string& csv) {
    struct Row {
        const char* task;
        std::size_t ranges;
        double (*ns_of)(const MapKind&, std::size_t);
    };
    const Row rows[] = {
        {"insert", 1000, insert_ns},
        {"insert", 10000, insert_ns},
        {"insert", large, insert_ns},
        {"insert", 1000000, insert_ns},
        {"change", 1000, change_ns},
        {"change", 10000, change_ns},
        {"change", large, change_ns},
        {"change", 1000000, change_ns},
        {"get", 1000, get_ns},
        {"get", 10000, get_ns},
        {"get", large, get_ns},
        {"get", 1000000, get_ns},
        {"combine", combined, combine_ns},
    };
    std::ofstream file(csv);
    if (!file) {
        throw std::runtime_error("cannot write " + csv);
    }
    file << "task,ranges,contender,ns\n";
    std::printf("%8s %8s", "task", "ranges");
    for (const MapKind& kind : kinds) {
        std::printf(" %12s", kind.name.c_str());
    }
    std::printf("\n");
    for (const Row& row : rows) {
        std::printf("%8s %8zu", row.task, row.ranges);
        for (const MapKind& kind : kinds) {
            double ns = row.ns_of(kind, row.ranges);
            if (std::isnan(ns)) {
                std::printf(" %12s", "-");
                continue;
            }
            std::printf(" %12.1f", ns);
            file << row.task << ',' << row.ranges << ',' << kind.name << ',' << ns << '\n';
        }
        std::printf("\n");
        std::fflush(stdout);
    }
}
