#include "timing.hpp"

#include <algorithm>
#include <ctime>

namespace {

// What a turn takes at least, so that the clock's own grain is small in it.
constexpr double turn_ns = 300e3;

volatile std::size_t kept;

// Processor time, in which what runs beside is not counted.
double now_ns() {
    std::timespec now;
    clock_gettime(CLOCK_PROCESS_CPUTIME_ID, &now);
    return static_cast<double>(now.tv_sec) * 1e9 + static_cast<double>(now.tv_nsec);
}

double passes_ns(const Line& line, std::size_t passes) {
    std::size_t sum = 0;
    double start = now_ns();
    for (std::size_t i = 0; i < passes; i++) {
        sum += line.peer->pass(line.task);
    }
    double end = now_ns();
    kept = sum;
    return end - start;
}

// How many passes a turn has: twice as many until they take long enough.
std::size_t passes_of(const Line& line) {
    std::size_t passes = 1;
    while (passes_ns(line, passes) < turn_ns) {
        passes *= 2;
    }
    return passes;
}

// What was asked for since then.
Allocations allocations_since(const Allocations& before) {
    Allocations after = allocations_so_far();
    return {after.mallocs - before.mallocs, after.reallocs - before.reallocs, after.bytes - before.bytes};
}

} // namespace

void time_all(std::vector<Line>& lines, std::size_t answers, std::size_t rounds) {
    std::vector<std::size_t> passes;
    for (Line& line : lines) {
        Allocations before = allocations_so_far();
        passes_ns(line, 1);
        line.allocations = allocations_since(before);
        passes.push_back(passes_of(line));
    }
    std::vector<std::vector<double>> times(lines.size());
    for (std::size_t round = 0; round < rounds; round++) {
        for (std::size_t turn = 0; turn < lines.size(); turn++) {
            std::size_t i = (turn + round) % lines.size();
            double ns = passes_ns(lines[i], passes[i]);
            times[i].push_back(ns / static_cast<double>(passes[i] * answers));
        }
    }
    for (std::size_t i = 0; i < lines.size(); i++) {
        std::sort(times[i].begin(), times[i].end());
        lines[i].least = times[i].front();
        lines[i].median = times[i][rounds / 2];
    }
}

void time_once(std::vector<Line>& lines, std::size_t answers) {
    for (Line& line : lines) {
        Allocations before = allocations_so_far();
        line.least = passes_ns(line, 1) / static_cast<double>(answers);
        line.median = line.least;
        line.allocations = allocations_since(before);
    }
}
