#include "peer.hpp"

namespace {

constexpr const char* names[] = {
    "union",
    "intersection",
    "difference",
    "symmetric difference",
    "union, borrowed",
    "intersection, borrowed",
    "difference, borrowed",
    "symmetric difference, borrowed",
    "union, owned",
    "intersection, owned",
    "difference, owned",
    "symmetric difference, owned",
    "copy",
    "two copies",
    "union, same place",
    "union, half a page on",
    "is_disjoint",
    "is_subset",
    "union length",
    "union length, texts",
    "contains",
    "contains, one by one",
    "contains, texts",
    "contains, in order",
    "split",
    "split, one by one",
    "iter",
    "insert",
    "remove",
    "insert, all at once",
};

} // namespace

const char* name_of(Task task) {
    return names[static_cast<std::size_t>(task)];
}

// Of a task that makes or changes a set by an operation: the four stand in one order in each group.
Operation operation_of(Task task) {
    return static_cast<Operation>(static_cast<unsigned>(task) % 4);
}
