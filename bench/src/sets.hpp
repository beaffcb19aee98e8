// Sets of numbers as sorted lists of boundaries, and the cases that are measured.
#pragma once

#include <cstddef>
#include <cstdint>
#include <string>
#include <vector>

// A number is a member where an odd number of boundaries is at or below it.
using Boundaries = std::vector<std::int64_t>;

enum class Operation { unite, intersect, subtract, differ };

// Whether a number is a member of the result, from whether it is one of each side.
constexpr bool is_on(Operation operation, bool left, bool right) {
    switch (operation) {
    case Operation::unite:
        return left || right;
    case Operation::intersect:
        return left && right;
    case Operation::subtract:
        return left && !right;
    case Operation::differ:
        return left != right;
    }
    return false;
}

// Texts of `text_len` characters, one after the other.
constexpr std::size_t text_len = 32;
using Texts = std::string;

// The numbers as texts that stand in the same order: with zeros in front.
Texts texts_of(const Boundaries& numbers);

struct Pair {
    Boundaries left;
    Boundaries right;
};

// Ranges to put in or take out, in their order: from starts[i] up to ends[i], which is out.
struct Commands {
    Boundaries starts;
    Boundaries ends;
};

// The sum of the answers for numbers that are asked one by one. The last bit of each number depends on the answer before,
// so no search begins before the one before has ended.
template <class Ask> std::size_t asked_one_by_one(const Boundaries& values, Ask ask) {
    std::size_t sum = 0, before = 0;
    Boundaries one(1);
    for (std::int64_t value : values) {
        one[0] = value ^ static_cast<std::int64_t>(before & 1);
        before = ask(one);
        sum += before;
    }
    return sum;
}

// The shapes whose one set, or whose two, are sets of texts.
constexpr const char* texts_shape = "one set of texts";
constexpr const char* two_texts_shape = "two sets of texts";

struct Case {
    std::string shape;
    std::size_t size = 0;
    std::vector<Pair> pairs;
    Boundaries values;
    Commands commands;

    // How many answers one pass gives.
    std::size_t answers() const;

    // The greatest number in it, or 0.
    std::int64_t greatest() const;
};
