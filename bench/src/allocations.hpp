// Counts what the program asks malloc, calloc and realloc for, its libraries too.
#pragma once

#include <cstddef>

struct Allocations {
    std::size_t mallocs = 0;
    std::size_t reallocs = 0;
    std::size_t bytes = 0;
};

// Those since the start.
Allocations allocations_so_far();
