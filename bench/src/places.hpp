// Two lists that both begin a page, and room for a result at a place in a page that one chooses. What lies at the same place
// of its page shares a place in the cache, so a load may wait for a store that it has nothing to do with.
#pragma once

#include "sets.hpp"

#include <algorithm>

class Places {
public:
    static constexpr std::size_t page = 4096;

    // Copies the lists of a pair.
    void load(const Pair& pair) {
        left_len = pair.left.size();
        right_len = pair.right.size();
        right_at = whole_pages(left_len);
        room_at = right_at + whole_pages(right_len);
        memory.assign(room_at + left_len + right_len + 2 * in_page, 0);
        std::size_t past = reinterpret_cast<std::uintptr_t>(memory.data()) % page;
        start = past == 0 ? 0 : (page - past) / sizeof(std::int64_t);
        std::copy(pair.left.begin(), pair.left.end(), memory.begin() + static_cast<std::ptrdiff_t>(start));
        std::copy(pair.right.begin(), pair.right.end(), memory.begin() + static_cast<std::ptrdiff_t>(start + right_at));
    }

    const std::int64_t* left() const { return memory.data() + start; }
    const std::int64_t* right() const { return memory.data() + start + right_at; }

    // Room for both lists, `place` bytes into a page.
    std::int64_t* room(std::size_t place) { return memory.data() + start + room_at + place / sizeof(std::int64_t); }

    std::size_t left_len = 0;
    std::size_t right_len = 0;

private:
    static constexpr std::size_t in_page = page / sizeof(std::int64_t);

    // The whole pages that hold the items, in items.
    static constexpr std::size_t whole_pages(std::size_t items) { return (items + in_page - 1) / in_page * in_page; }

    Boundaries memory;
    std::size_t start = 0;
    std::size_t right_at = 0;
    std::size_t room_at = 0;
};
