#include "shapes.hpp"

#include <algorithm>
#include <numeric>
#include <random>
#include <utility>

namespace {

using Random = std::mt19937_64;

// Small sets come in so many different pairs that no branch predictor learns them.
constexpr std::size_t many = 1024;

const std::vector<Task> new_sets = {Task::union_new, Task::intersection_new, Task::difference_new,
                                    Task::symmetric_difference_new};
const std::vector<Task> changes = {Task::copy_one,  Task::union_borrowed, Task::intersection_borrowed,
                                   Task::copy_both, Task::union_owned,    Task::intersection_owned};
const std::vector<Task> places = {Task::union_same_place, Task::union_other_place};
const std::vector<Task> tests = {Task::is_disjoint, Task::is_subset};
const std::vector<Task> rest = {Task::union_len, Task::iter};

std::vector<Task> joined(std::initializer_list<std::vector<Task>> groups) {
    std::vector<Task> all;
    for (const std::vector<Task>& group : groups) {
        all.insert(all.end(), group.begin(), group.end());
    }
    return all;
}

// Boundaries from `first` on, at equal distances.
Boundaries evenly(std::size_t boundaries, std::int64_t first, std::int64_t step) {
    Boundaries list(boundaries);
    for (std::size_t i = 0; i < boundaries; i++) {
        list[i] = first + static_cast<std::int64_t>(i) * step;
    }
    return list;
}

// Boundaries at distances that are drawn.
template <class Distance> Boundaries at_distances(Random& random, std::size_t boundaries, Distance distance) {
    Boundaries list(boundaries);
    std::int64_t last = 0;
    for (std::int64_t& each : list) {
        last += distance(random);
        each = last;
    }
    return list;
}

// At distances of 1 to 31, so of 16 in the middle.
Boundaries at_random(Random& random, std::size_t boundaries) {
    return at_distances(random, boundaries, std::uniform_int_distribution<std::int64_t>(1, 31));
}

// Anywhere: each number is a boundary with a chance of one in 16.
Boundaries anywhere(Random& random, std::size_t boundaries) {
    std::geometric_distribution<std::int64_t> gap(1.0 / 16);
    return at_distances(random, boundaries, [&gap](Random& it) { return 1 + gap(it); });
}

Pair random_pair(Random& random, std::size_t boundaries) {
    Boundaries left = at_random(random, boundaries);
    return Pair{std::move(left), at_random(random, boundaries)};
}

Pair run_pair(std::size_t boundaries, std::size_t run) {
    Pair pair;
    for (std::size_t i = 0; i < 2 * boundaries; i++) {
        Boundaries& side = i / run % 2 == 0 ? pair.left : pair.right;
        side.push_back(static_cast<std::int64_t>(i) * 4 + 4);
    }
    return pair;
}

// Adds the boundaries from one place to another, in runs of 1 to 16, as long as chance has it.
void add_mixed_runs(Pair& pair, std::size_t from, std::size_t to) {
    Random random(to);
    std::uniform_int_distribution<std::size_t> length(1, 16);
    bool on_left = true;
    for (std::size_t i = from; i < to; on_left = !on_left) {
        for (std::size_t end = std::min(to, i + length(random)); i < end; i++) {
            (on_left ? pair.left : pair.right).push_back(static_cast<std::int64_t>(i) * 4 + 4);
        }
    }
    // Each set has an end, since ICU's have one.
    for (Boundaries* side : {&pair.left, &pair.right}) {
        side->resize(side->size() / 2 * 2);
    }
}

Pair mixed_pair(std::size_t boundaries) {
    Pair pair;
    add_mixed_runs(pair, 0, 2 * boundaries);
    return pair;
}

// Half of the boundaries alternate one by one; then they come in runs.
Pair alternating_then_mixed(std::size_t boundaries) {
    Pair pair = run_pair(boundaries / 2, 1);
    add_mixed_runs(pair, boundaries, 2 * boundaries);
    return pair;
}

// Runs of 5 of the left, and single boundaries of the right between them.
Pair five_to_one(std::size_t boundaries) {
    Pair pair;
    for (std::size_t i = 0; i < 2 * boundaries / 6 * 6; i++) {
        (i % 6 < 5 ? pair.left : pair.right).push_back(static_cast<std::int64_t>(i) * 4 + 4);
    }
    for (Boundaries* side : {&pair.left, &pair.right}) {
        side->resize(side->size() / 2 * 2);
    }
    return pair;
}

Case one(const char* shape, std::size_t size, Pair pair) {
    Case that;
    that.shape = shape;
    that.size = size;
    that.pairs.push_back(std::move(pair));
    return that;
}

Case random_case(std::size_t size) {
    Random random(size);
    Case that;
    that.shape = "random";
    that.size = size;
    std::size_t pairs = size <= 64 ? many : 1;
    for (std::size_t i = 0; i < pairs; i++) {
        that.pairs.push_back(random_pair(random, size));
    }
    return that;
}

Case anywhere_case(std::size_t size) {
    Random random(size);
    Boundaries left = anywhere(random, size);
    return one("anywhere", size, Pair{std::move(left), anywhere(random, size)});
}

// One boundary of 64 lies elsewhere.
Pair nearly_equal(std::size_t size) {
    Pair pair{evenly(size, 4, 4), evenly(size, 4, 4)};
    for (std::size_t i = 31; i < size; i += 64) {
        pair.right[i] += 2;
    }
    return pair;
}

// One range in the middle, from inside a range of the many up to inside another.
Pair one_range(std::size_t size) {
    auto middle = static_cast<std::int64_t>(size) * 2;
    return Pair{evenly(size, 4, 4), Boundaries{middle + 2, middle + 10}};
}

Case asked(const char* shape, std::size_t size) {
    Random random(size);
    Case that = one(shape, size, Pair{at_random(random, size), {}});
    std::uniform_int_distribution<std::int64_t> any(0, static_cast<std::int64_t>(size) * 16);
    for (std::size_t i = 0; i < 4096; i++) {
        that.values.push_back(any(random));
    }
    return that;
}

// Ranges inside gaps (`inserted`), or holes inside ranges, of a set of `size` boundaries: 256 at random.
Case changed(std::size_t size, bool inserted) {
    Random random(size);
    Case that = one("single ranges", size, Pair{evenly(size, 16, 16), {}});
    std::vector<std::int64_t> places(size / 2 - 1);
    std::iota(places.begin(), places.end(), 0);
    std::shuffle(places.begin(), places.end(), random);
    places.resize(std::min<std::size_t>(places.size(), 256));
    for (std::int64_t place : places) {
        std::int64_t start = 16 + place * 32 + (inserted ? 20 : 4);
        that.commands.starts.push_back(start);
        that.commands.ends.push_back(start + 8);
    }
    return that;
}

void add_shapes(std::vector<Job>& jobs, std::size_t size) {
    std::vector<Task> all = joined({new_sets, changes, tests, rest});
    jobs.push_back({one("interleaved", size, run_pair(size, 1)), joined({all, places})});
    jobs.push_back({one("blocks of 64", size, run_pair(size, 64)), all});
    jobs.push_back({one("one range", size, one_range(size)), all});
    jobs.push_back({random_case(size), joined({all, places})});
    jobs.push_back({one("equal", size, Pair{evenly(size, 4, 4), evenly(size, 4, 4)}), joined({all, places})});
    jobs.push_back({one("nearly equal", size, nearly_equal(size)), joined({new_sets, changes})});
    jobs.push_back({one("disjoint by twos", size, run_pair(size, 2)), all});
}

// A subset test that knows after the first range, and one range in the many.
void add_tests(std::vector<Job>& jobs, std::size_t size) {
    Pair narrow = one_range(size);
    std::swap(narrow.left, narrow.right);
    jobs.push_back({one("one range in many", size, std::move(narrow)), tests});
}

Case commands_case(const char* shape, std::size_t ranges, bool holes, bool in_order) {
    Boundaries set;
    Commands all;
    std::vector<std::int64_t> places(ranges);
    std::iota(places.begin(), places.end(), 0);
    if (!in_order) {
        Random random(ranges);
        std::shuffle(places.begin(), places.end(), random);
    }
    for (std::int64_t place : places) {
        std::int64_t start = 10 + place * 10;
        all.starts.push_back(holes ? start + 2 : start);
        all.ends.push_back(holes ? start + 4 : start + 6);
    }
    if (holes) {
        for (std::size_t i = 0; i < ranges; i++) {
            set.push_back(10 + static_cast<std::int64_t>(i) * 10);
            set.push_back(16 + static_cast<std::int64_t>(i) * 10);
        }
    }
    Case that = one(shape, ranges, Pair{std::move(set), {}});
    that.commands = std::move(all);
    return that;
}

} // namespace

Case runs(std::size_t boundaries, std::size_t run) {
    return one("runs", run, run_pair(boundaries, run));
}

std::vector<Job> all_jobs() {
    std::vector<Job> jobs;
    for (std::size_t size : {2, 8, 64}) {
        jobs.push_back({random_case(size), joined({new_sets, changes, tests, rest})});
    }
    add_shapes(jobs, 4096);
    add_tests(jobs, 4096);
    jobs.push_back({one(two_texts_shape, 4096, run_pair(4096, 3)), {Task::union_len_text}});
    jobs.push_back({one("runs of 4", 4096, run_pair(4096, 4)), joined({new_sets, changes})});
    jobs.push_back({one("runs of 8", 4096, run_pair(4096, 8)), joined({new_sets, changes})});
    jobs.push_back({one("runs of 1 to 16", 4096, mixed_pair(4096)), joined({new_sets, changes})});
    jobs.push_back({one("runs of 5 and of 1", 4096, five_to_one(4096)), joined({new_sets, rest})});
    jobs.push_back({one("interleaved", 65536, run_pair(65536, 1)), joined({new_sets, changes})});
    jobs.push_back({one("blocks of 64", 65536, run_pair(65536, 64)), joined({new_sets, changes})});
    jobs.push_back({one("one range", 65536, one_range(65536)), joined({new_sets, changes})});
    jobs.push_back({random_case(65536), joined({new_sets, changes})});
    jobs.push_back({anywhere_case(65536), joined({new_sets, changes})});
    jobs.push_back({one("1, then 1 to 16", 65536, alternating_then_mixed(65536)), new_sets});
    for (std::size_t size : {2, 10, 1000, 100000, 200000, 1000000}) {
        jobs.push_back(
            {asked("one set", size),
             {Task::contains, Task::contains_waiting, Task::contains_each, Task::split, Task::split_waiting}});
    }
    for (std::size_t size : {1000, 10000}) {
        jobs.push_back({asked(texts_shape, size), {Task::contains_text}});
    }
    jobs.push_back({changed(4096, true), {Task::copy_one, Task::insert}});
    jobs.push_back({changed(4096, false), {Task::copy_one, Task::remove}});
    return jobs;
}

std::vector<Job> command_jobs(std::size_t ranges) {
    return {
        {commands_case("ranges in order", ranges, false, true), {Task::insert, Task::insert_all}},
        {commands_case("ranges at random", ranges, false, false), {Task::insert, Task::insert_all}},
        {commands_case("holes in order", ranges, true, true), {Task::remove}},
        {commands_case("holes at random", ranges, true, false), {Task::remove}},
    };
}
