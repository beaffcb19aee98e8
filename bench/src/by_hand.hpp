// Calls, each beside what a user writes by hand.
#pragma once

#include "peer.hpp"

#include <functional>
#include <string>
#include <utility>
#include <vector>

// Does it once, and sums up the answer. Where `out` isn't null, it writes the numbers of the answer there.
using Pass = std::function<std::size_t(Boundaries* out)>;

struct ByHand {
    std::string name;

    // The numbers of ranges that are timed.
    std::vector<std::size_t> sizes;

    // Whether the time is that of a range, and not of a call.
    bool is_each;

    // The call, and by hand, over so many ranges.
    std::function<std::pair<Pass, Pass>(std::size_t ranges)> make;
};

// Those that were built in.
std::vector<ByHand> rows_by_hand();

// Compares the answers of both at one size. How many results that were.
std::size_t check_by_hand(const std::vector<ByHand>& rows, std::size_t ranges);

// Times all rows, and writes a table and the CSV.
void time_by_hand(const std::vector<ByHand>& rows, std::size_t rounds, const std::string& csv);
