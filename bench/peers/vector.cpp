// A two-pointer merge into a std::vector that grows, as one writes it by hand.
#include "held.hpp"
#include "peers.hpp"

namespace {

template <Operation operation> Boundaries merged(const Boundaries& left, const Boundaries& right) {
    Boundaries made;
    std::size_t i = 0, j = 0;
    bool in_left = false, in_right = false, in_made = false;
    while (i < left.size() || j < right.size()) {
        std::int64_t at;
        if (j == right.size() || (i < left.size() && left[i] < right[j])) {
            at = left[i++];
            in_left = !in_left;
        } else if (i == left.size() || right[j] < left[i]) {
            at = right[j++];
            in_right = !in_right;
        } else {
            at = left[i++];
            j++;
            in_left = !in_left;
            in_right = !in_right;
        }
        if (is_on(operation, in_left, in_right) != in_made) {
            in_made = !in_made;
            made.push_back(at);
        }
    }
    return made;
}

// Whether the result has no member. It stops at the first one.
template <Operation operation> bool is_nothing(const Boundaries& left, const Boundaries& right) {
    std::size_t i = 0, j = 0;
    bool in_left = false, in_right = false;
    while (i < left.size() || j < right.size()) {
        if (j == right.size() || (i < left.size() && left[i] < right[j])) {
            i++;
            in_left = !in_left;
        } else if (i == left.size() || right[j] < left[i]) {
            j++;
            in_right = !in_right;
        } else {
            i++;
            j++;
            in_left = !in_left;
            in_right = !in_right;
        }
        if (is_on(operation, in_left, in_right)) {
            return false;
        }
    }
    return true;
}

std::size_t given(const Boundaries& set, Boundaries* out) {
    if (out != nullptr) {
        *out = set;
    }
    return set.size();
}

struct Vector {
    static constexpr const char* name = "vector";
    static constexpr std::int64_t greatest = INT64_MAX;
    static constexpr unsigned offers = Group::new_sets | Group::in_place | Group::tests;
    using Set = Boundaries;

    static const Set& made(const Boundaries& boundaries) { return boundaries; }

    template <Operation operation> static std::size_t combine(const Set& left, const Set& right, Boundaries* out) {
        return given(merged<operation>(left, right), out);
    }

    static std::size_t copy_one(const Set& left, Boundaries* out) { return given(Set(left), out); }

    static std::size_t copy_both(const Set& left, const Set& right, Boundaries* out) {
        Set copy = left;
        Set other = right;
        return given(copy, out);
    }

    template <Operation operation>
    static std::size_t change_by_borrowed(const Set& left, const Set& right, Boundaries* out) {
        Set set = left;
        set = merged<operation>(set, right);
        return given(set, out);
    }

    template <Operation operation>
    static std::size_t change_by_owned(const Set& left, const Set& right, Boundaries* out) {
        Set set = left;
        Set other = right;
        set = merged<operation>(set, other);
        return given(set, out);
    }

    static bool is_disjoint(const Set& left, const Set& right) { return is_nothing<Operation::intersect>(left, right); }

    static bool is_subset(const Set& left, const Set& right) { return is_nothing<Operation::subtract>(left, right); }
};

} // namespace

std::unique_ptr<Peer> vector_peer() {
    return std::make_unique<Held<Vector>>();
}
