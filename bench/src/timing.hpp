// Times of contenders that are interleaved in one run.
#pragma once

#include "allocations.hpp"
#include "peer.hpp"

#include <string>
#include <vector>

// One contender at one task.
struct Line {
    Peer* peer;
    Task task;

    // Nanoseconds for each answer.
    double least = 0;
    double median = 0;

    // What one pass asks for.
    Allocations allocations;
};

// Fills in the times and allocations of all lines, in `rounds` rounds: in each, every line has its turn.
void time_all(std::vector<Line>& lines, std::size_t answers, std::size_t rounds);

// The same by one pass of each line, for tasks that take long.
void time_once(std::vector<Line>& lines, std::size_t answers);
