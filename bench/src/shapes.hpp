// The cases: pairs of sets by shape and size. Every boundary is a code point, so that ICU can take part, but those of
// the largest `contains`.
#pragma once

#include "peer.hpp"

// A case and what is asked of it.
struct Job {
    Case that;
    std::vector<Task> tasks;
};

// All that is timed in one table.
std::vector<Job> all_jobs();

// Two sets of `boundaries` boundaries each, which alternate in runs of `run`.
Case runs(std::size_t boundaries, std::size_t run);

// Ranges put in, or a hole put into each: in order, or at random.
std::vector<Job> command_jobs(std::size_t ranges);
