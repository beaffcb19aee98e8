// The benchmark's driver: it compares all contenders with a plain merge, and times them.
#include "by_hand.hpp"
#include "growing.hpp"
#include "library.h"
#include "maps.hpp"
#include "peers.hpp"
#include "plain.hpp"
#include "shapes.hpp"
#include "table.hpp"
#include "timing.hpp"

#include <cstdio>
#include <cstdlib>
#include <exception>
#include <fstream>
#include <iostream>
#include <stdexcept>
#include <string>

namespace {

constexpr std::size_t rounds = 9;
constexpr std::size_t grown = 131072;
constexpr std::size_t longest_run = 65536;
constexpr std::size_t fewest = 1024;
constexpr std::size_t most = 16777216;

// How many ranges that come one by one are timed, and how many are compared with a plain merge.
constexpr std::size_t many_ranges = 100000;
constexpr std::size_t compared_ranges = 2000;

// How many ranges sets grow to at most, one by one.
constexpr std::size_t most_ranges = 10000000;

// Loads the case into each peer that can hold it.
std::vector<Line> loaded_lines(const Peers& peers, const Job& job) {
    std::vector<Line> lines;
    for (const auto& peer : peers) {
        if (!peer->fits(job.that)) {
            continue;
        }
        peer->load(job.that);
        for (Task task : job.tasks) {
            if (peer->can(task)) {
                lines.push_back(Line{peer.get(), task, 0, 0, {}});
            }
        }
    }
    return lines;
}

// The same, and compares what each of them answers with what is right.
std::vector<Line> checked_lines(const Peers& peers, const Job& job) {
    std::vector<Line> lines = loaded_lines(peers, job);
    for (const Line& line : lines) {
        compare(*line.peer, line.task, job.that);
    }
    return lines;
}

// Two sets whose boundaries alternate in runs.
Job growth_job(std::size_t run) {
    return {runs(grown, run), {Task::union_new}};
}

// Two sets of `size` boundaries each, which alternate one by one.
Job size_job(std::size_t size) {
    return {runs(size, 1), {Task::union_new}};
}

void check(const Peers& peers) {
    std::size_t compared = 0;
    for (const Job& job : all_jobs()) {
        compared += checked_lines(peers, job).size();
    }
    for (const Job& job : command_jobs(compared_ranges)) {
        compared += checked_lines(peers, job).size();
    }
    for (std::size_t run = 1; run <= longest_run; run *= 256) {
        compared += checked_lines(peers, growth_job(run)).size();
    }
    compared += checked_lines(peers, size_job(fewest)).size();
    compared += check_growing(growing_kinds(), compared_ranges);
    compared += check_maps(map_kinds(), compared_ranges);
    compared += check_by_hand(rows_by_hand(), compared_ranges);
    std::printf("%zu results compared with a plain merge, all right\n", compared);
}

void time_jobs(const Peers& peers, const std::string& csv) {
    Table table(peers, csv);
    for (const Job& job : all_jobs()) {
        std::vector<Line> lines = checked_lines(peers, job);
        time_all(lines, job.that.answers(), rounds);
        table.add(job.that, job.tasks, lines);
    }
}

// Ranges one by one.
void time_commands(const Peers& peers, const std::string& csv) {
    for (const Job& job : command_jobs(compared_ranges)) {
        checked_lines(peers, job);
    }
    Table table(peers, csv);
    for (const Job& job : command_jobs(many_ranges)) {
        std::vector<Line> lines = loaded_lines(peers, job);
        time_once(lines, job.that.answers());
        table.add(job.that, job.tasks, lines);
    }
}

// The union of two sets, as a number of the case grows.
void time_unions(const Peers& peers, const std::string& csv, const char* number, std::size_t from, std::size_t to,
                 Job job_of(std::size_t)) {
    std::ofstream file(csv);
    if (!file) {
        throw std::runtime_error("cannot write " + csv);
    }
    file << number << ",contender,least_ns,median_ns,comparisons\n";
    std::printf("%8s %12s", number, "comparisons");
    for (const auto& peer : peers) {
        std::printf(" %12.12s", peer->can(Task::union_new) ? peer->name().c_str() : "");
    }
    std::printf("\n");
    for (std::size_t value = from; value <= to; value *= 4) {
        Job job = job_of(value);
        std::vector<Line> lines = checked_lines(peers, job);
        time_all(lines, 1, rounds);
        const Pair& pair = job.that.pairs.front();
        auto comparisons = static_cast<unsigned long long>(
            range_bench_union_comparisons(pair.left.data(), pair.left.size(), pair.right.data(), pair.right.size()));
        std::printf("%8zu %12llu", value, comparisons);
        auto line = lines.begin();
        for (const auto& peer : peers) {
            if (line == lines.end() || line->peer != peer.get()) {
                // It has no such call, or can't hold so great numbers.
                std::printf(" %12s", "");
                continue;
            }
            std::printf(" %12.0f", line->least);
            file << value << ',' << peer->name() << ',' << line->least << ',' << line->median << ',';
            if (peer == peers.front()) {
                file << comparisons;
            }
            file << '\n';
            ++line;
        }
        std::printf("\n");
        std::fflush(stdout);
    }
}

// One contender at one task, `passes` times: callgrind counts what runs inside `counted`.
extern "C" __attribute__((noinline)) std::size_t counted(Peer& peer, Task task, std::size_t passes) {
    std::size_t sum = 0;
    for (std::size_t i = 0; i < passes; i++) {
        sum += peer.pass(task);
    }
    return sum;
}

// What `bench/count` asks for: the contender, the shape, the size and the task by their names. It prints the number
// of boundaries of both sides that each pass sees.
void count(const Peers& peers, const std::string& name, const std::string& shape, const std::string& size,
           const std::string& task_name) {
    for (const Job& job : all_jobs()) {
        if (job.that.shape != shape || std::to_string(job.that.size) != size) {
            continue;
        }
        for (const auto& peer : peers) {
            if (peer->name() != name) {
                continue;
            }
            for (Task task : job.tasks) {
                if (name_of(task) != task_name || !peer->can(task)) {
                    continue;
                }
                peer->load(job.that);
                std::size_t boundaries = 0;
                for (const Pair& pair : job.that.pairs) {
                    boundaries += pair.left.size() + pair.right.size();
                }
                std::size_t sum = counted(*peer, task, 1);
                std::printf("%zu %zu %zu\n", boundaries, job.that.answers(), sum);
                return;
            }
        }
    }
    throw std::runtime_error("no such task: " + name + ", " + shape + ", " + size + ", " + task_name);
}

int usage() {
    std::fprintf(stderr, "usage: driver check | times CSV | growth CSV | sizes CSV | commands CSV | "
                         "ranges CSV | maps CSV | by_hand CSV | contenders | count CONTENDER SHAPE SIZE TASK\n");
    return 2;
}

int run(const std::vector<std::string>& words) {
    Peers peers = all_peers();
    if (words.size() == 1 && words[0] == "check") {
        check(peers);
    } else if (words.size() == 2 && words[0] == "times") {
        time_jobs(peers, words[1]);
    } else if (words.size() == 2 && words[0] == "growth") {
        time_unions(peers, words[1], "run", 1, longest_run, growth_job);
    } else if (words.size() == 2 && words[0] == "sizes") {
        time_unions(peers, words[1], "size", fewest, most, size_job);
    } else if (words.size() == 2 && words[0] == "commands") {
        time_commands(peers, words[1]);
    } else if (words.size() == 2 && words[0] == "ranges") {
        check_growing(growing_kinds(), compared_ranges);
        time_growing(growing_kinds(), most_ranges, words[1]);
    } else if (words.size() == 2 && words[0] == "maps") {
        check_maps(map_kinds(), compared_ranges);
        time_maps(map_kinds(), words[1]);
    } else if (words.size() == 2 && words[0] == "by_hand") {
        check_by_hand(rows_by_hand(), compared_ranges);
        time_by_hand(rows_by_hand(), rounds, words[1]);
    } else if (words.size() == 1 && words[0] == "contenders") {
        for (const auto& peer : peers) {
            std::printf("%s\n", peer->name().c_str());
        }
    } else if (words.size() == 5 && words[0] == "count") {
        count(peers, words[1], words[2], words[3], words[4]);
    } else {
        return usage();
    }
    return 0;
}

} // namespace

int main(int argc, char** argv) {
    try {
        return run(std::vector<std::string>(argv + 1, argv + argc));
    } catch (const std::exception& error) {
        std::fprintf(stderr, "bench: %s\n", error.what());
        return 1;
    }
}
