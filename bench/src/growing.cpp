#include "growing.hpp"

#include "plain.hpp"

#include <algorithm>
#include <chrono>
#include <cstdio>
#include <fstream>
#include <malloc.h>
#include <numeric>
#include <random>
#include <stdexcept>

namespace {

using Clock = std::chrono::steady_clock;

constexpr std::size_t fewest = 1000;
constexpr std::size_t asked = 100000;

// Each round has a set of its own. The least of the rounds counts. From `timed_once` ranges on there is one round alone.
constexpr std::size_t rounds = 3;
constexpr std::size_t timed_once = 10000000;

// Who took longer for each range isn't asked for ten times as many, which may take a hundred times as long.
constexpr double longest_ns = 5000;

// Gaps that each search reads whole are read up to this many in all.
constexpr std::size_t most_read = 100000000;

volatile std::size_t kept;

// Ranges of 6 at distances of 10, put in in one random order and taken out in another, and values among them.
// A few of them are replaced before, each by as many numbers at the lowest place.
struct Work {
    Commands in_order;
    Commands in;
    Commands out;
    Commands replaced;
    Boundaries values;
};

Commands all_ranges(std::size_t ranges, std::mt19937_64* random) {
    std::vector<std::int64_t> places(ranges);
    std::iota(places.begin(), places.end(), 0);
    if (random != nullptr) {
        std::shuffle(places.begin(), places.end(), *random);
    }
    Commands commands;
    for (std::int64_t place : places) {
        commands.starts.push_back(10 + place * 10);
        commands.ends.push_back(16 + place * 10);
    }
    return commands;
}

Commands front_of(const Commands& all, std::size_t len) {
    std::ptrdiff_t end = static_cast<std::ptrdiff_t>(len);
    return {{all.starts.begin(), all.starts.begin() + end}, {all.ends.begin(), all.ends.begin() + end}};
}

Work work_of(std::size_t ranges) {
    std::mt19937_64 random(ranges);
    Work work{all_ranges(ranges, nullptr), all_ranges(ranges, &random), all_ranges(ranges, &random), {}, {}};
    work.replaced = front_of(work.out, std::min(ranges / 100, most_read / ranges));
    std::uniform_int_distribution<std::int64_t> any(0, static_cast<std::int64_t>(ranges) * 10 + 20);
    for (std::size_t i = 0; i < asked; i++) {
        work.values.push_back(any(random));
    }
    return work;
}

// The boundaries of the ranges, in order.
Boundaries all_of(const Commands& commands) {
    Boundaries all = commands.starts;
    all.insert(all.end(), commands.ends.begin(), commands.ends.end());
    std::sort(all.begin(), all.end());
    return all;
}

// The bytes that the program has from malloc.
std::size_t live_bytes() {
    struct mallinfo2 all = mallinfo2();
    return all.uordblks + all.hblkhd;
}

template <class Run> double ns_of(Run run) {
    Clock::time_point start = Clock::now();
    run();
    return std::chrono::duration<double, std::nano>(Clock::now() - start).count();
}

// Nanoseconds for each range or value, and bytes for each range.
struct Times {
    double insert = 0;
    double contains = 0;
    double iter = 0;
    double replace = 0;
    double remove = 0;
    double bytes = 0;

    // Of ranges that were put in in order.
    double bytes_in_order = 0;
};

Times timed(const GrowingKind& kind, const Work& work) {
    double ranges = static_cast<double>(work.in.starts.size());
    Times times;
    std::size_t before = live_bytes();
    std::unique_ptr<Growing> set = kind.make();
    set->insert(work.in_order);
    times.bytes_in_order = static_cast<double>(live_bytes() - before) / ranges;
    set.reset();
    before = live_bytes();
    set = kind.make();
    times.insert = ns_of([&] { set->insert(work.in); }) / ranges;
    times.bytes = static_cast<double>(live_bytes() - before) / ranges;
    times.contains = ns_of([&] { kept = set->contains(work.values); }) / static_cast<double>(asked);
    if (set->can_iter()) {
        times.iter = ns_of([&] { kept = set->iter(); }) / ranges;
    }
    if (set->finds_room()) {
        // A first search may learn where there is none.
        kept = static_cast<std::size_t>(set->replace(front_of(work.replaced, 1)));
        times.replace = ns_of([&] { kept = static_cast<std::size_t>(set->replace(work.replaced)); }) /
                        static_cast<double>(work.replaced.starts.size());
    }
    times.remove = ns_of([&] { set->remove(work.out); }) / ranges;
    return times;
}

Times least(const Times& a, const Times& b) {
    return {std::min(a.insert, b.insert),
            std::min(a.contains, b.contains),
            std::min(a.iter, b.iter),
            std::min(a.replace, b.replace),
            std::min(a.remove, b.remove),
            std::min(a.bytes, b.bytes),
            std::min(a.bytes_in_order, b.bytes_in_order)};
}

[[noreturn]] void fail(const GrowingKind& kind, const std::string& what) {
    throw std::runtime_error("wrong: " + kind.name + ", ranges one by one: " + what);
}

// The same by lists: each range taken out, and as many numbers put in at the lowest place.
std::int64_t replaced(Boundaries* all, const Commands& commands) {
    std::int64_t places = 0;
    for (std::size_t i = 0; i < commands.starts.size(); i++) {
        std::int64_t len = commands.ends[i] - commands.starts[i], place = 0;
        *all = plain(Operation::subtract, *all, {commands.starts[i], commands.ends[i]});
        for (std::size_t k = 0; k < all->size() && (*all)[k] - place < len; k += 2) {
            place = (*all)[k + 1];
        }
        *all = plain(Operation::unite, *all, {place, place + len});
        places += place;
    }
    return places;
}

void check(const GrowingKind& kind, const Work& work) {
    Boundaries all = all_of(work.in);
    Commands half = front_of(work.out, all.size() / 4);
    std::unique_ptr<Growing> set = kind.make();
    set->insert(work.in);
    if (set->boundaries() != all) {
        fail(kind, "insert");
    }
    std::size_t members = 0;
    for (std::int64_t value : work.values) {
        members += (std::upper_bound(all.begin(), all.end(), value) - all.begin()) % 2 != 0;
    }
    if (set->contains(work.values) != members) {
        fail(kind, "contains");
    }
    if (set->can_iter() && set->iter() != work.in.starts.size() * 6) {
        fail(kind, "iter");
    }
    if (set->finds_room() &&
        (set->replace(work.replaced) != replaced(&all, work.replaced) || set->boundaries() != all)) {
        fail(kind, "replace");
    }
    set->remove(half);
    if (set->boundaries() != plain(Operation::subtract, all, all_of(half))) {
        fail(kind, "remove");
    }
}

} // namespace

std::size_t check_growing(const std::vector<GrowingKind>& kinds, std::size_t ranges) {
    Work work = work_of(ranges);
    std::size_t compared = 0;
    for (const GrowingKind& kind : kinds) {
        check(kind, work);
        compared += (kind.make()->can_iter() ? 4 : 3) + (kind.make()->finds_room() ? 1 : 0);
    }
    return compared;
}

void time_growing(const std::vector<GrowingKind>& kinds, std::size_t most, const std::string& csv) {
    std::ofstream file(csv);
    if (!file) {
        throw std::runtime_error("cannot write " + csv);
    }
    file << "ranges,contender,insert_ns,contains_ns,iter_ns,replace_ns,remove_ns,bytes,bytes_in_order\n";
    std::printf("%8s %-16s %9s %9s %7s %9s %9s %6s %8s\n", "ranges", "contender", "insert", "contains", "iter",
                "replace", "remove", "bytes", "in order");
    std::vector<bool> too_slow(kinds.size());
    for (std::size_t ranges = fewest; ranges <= most; ranges *= 10) {
        Work work = work_of(ranges);
        std::vector<Times> all(kinds.size());
        for (std::size_t round = 0; round < (ranges < timed_once ? rounds : 1); round++) {
            for (std::size_t i = 0; i < kinds.size(); i++) {
                if (!too_slow[i]) {
                    Times times = timed(kinds[i], work);
                    all[i] = round == 0 ? times : least(all[i], times);
                }
            }
        }
        for (std::size_t i = 0; i < kinds.size(); i++) {
            if (too_slow[i]) {
                continue;
            }
            const Times& times = all[i];
            const char* name = kinds[i].name.c_str();
            std::printf("%8zu %-16s %9.0f %9.1f %7.1f %9.0f %9.0f %6.1f %8.1f\n", ranges, name, times.insert,
                        times.contains, times.iter, times.replace, times.remove, times.bytes, times.bytes_in_order);
            file << ranges << ',' << name << ',' << times.insert << ',' << times.contains << ',' << times.iter << ','
                 << times.replace << ',' << times.remove << ',' << times.bytes << ',' << times.bytes_in_order << '\n';
            too_slow[i] = times.insert > longest_ns;
        }
        std::fflush(stdout);
    }
}
