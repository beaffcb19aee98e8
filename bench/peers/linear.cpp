// The linear merge in C. A new set lies in memory for both sides; a changed one is merged into such memory and takes it.
#include "linear.h"
#include "held.hpp"
#include "peers.hpp"

#include <cstdlib>
#include <cstring>
#include <new>

namespace {

// A list in memory of its own.
struct Buffer {
    std::int64_t* items;
    std::size_t length;

    explicit Buffer(std::size_t room) : items(allocated(room)), length(0) {}
    Buffer(const Boundaries& of, std::size_t room) : Buffer(room) {
        if (!of.empty()) {
            std::memcpy(items, of.data(), of.size() * sizeof *items);
        }
        length = of.size();
        // A copy that nothing reads would be left out.
        asm volatile("" : : "r"(items) : "memory");
    }
    Buffer(const Buffer&) = delete;
    Buffer& operator=(const Buffer&) = delete;
    ~Buffer() { std::free(items); }

    std::size_t given(Boundaries* out) const {
        if (out != nullptr) {
            out->assign(items, items + length);
        }
        return length;
    }

    void reserve(std::size_t room) {
        void* moved = std::realloc(items, room * sizeof *items);
        if (moved == nullptr) {
            throw std::bad_alloc();
        }
        items = static_cast<std::int64_t*>(moved);
    }

private:
    static std::int64_t* allocated(std::size_t room) {
        void* memory = std::malloc((room == 0 ? 1 : room) * sizeof(std::int64_t));
        if (memory == nullptr) {
            throw std::bad_alloc();
        }
        return static_cast<std::int64_t*>(memory);
    }
};

template <Operation operation>
std::size_t merge(const std::int64_t* a, std::size_t a_len, const std::int64_t* b, std::size_t b_len,
                  std::int64_t* out) {
    switch (operation) {
    case Operation::unite:
        return linear_union(a, a_len, b, b_len, out);
    case Operation::intersect:
        return linear_intersection(a, a_len, b, b_len, out);
    case Operation::subtract:
        return linear_difference(a, a_len, b, b_len, out);
    case Operation::differ:
        return linear_symmetric_difference(a, a_len, b, b_len, out);
    }
}

struct Linear {
    static constexpr const char* name = "linear C";
    static constexpr std::int64_t greatest = INT64_MAX;
    static constexpr unsigned offers = Group::new_sets | Group::in_place | Group::tests | Group::lengths |
                                       Group::contains | Group::split | Group::iter | Group::changes | Group::places;
    using Set = Boundaries;

    static const Set& made(const Boundaries& boundaries) { return boundaries; }

    template <Operation operation> static std::size_t combine(const Set& left, const Set& right, Boundaries* out) {
        Buffer made(left.size() + right.size());
        made.length = merge<operation>(left.data(), left.size(), right.data(), right.size(), made.items);
        return made.given(out);
    }

    static std::size_t unite_into(const std::int64_t* left, std::size_t left_len, const std::int64_t* right,
                                  std::size_t right_len, std::int64_t* room) {
        return linear_union(left, left_len, right, right_len, room);
    }

    static std::size_t copy_one(const Set& left, Boundaries* out) { return Buffer(left, left.size()).given(out); }

    static std::size_t copy_both(const Set& left, const Set& right, Boundaries* out) {
        Buffer copy(left, left.size());
        Buffer other(right, right.size());
        return copy.given(out);
    }

    template <Operation operation>
    static std::size_t change_by_borrowed(const Set& left, const Set& right, Boundaries* out) {
        Buffer set(left, left.size());
        return change<operation>(set, right.data(), right.size(), out);
    }

    template <Operation operation>
    static std::size_t change_by_owned(const Set& left, const Set& right, Boundaries* out) {
        Buffer set(left, left.size());
        Buffer other(right, right.size());
        return change<operation>(set, other.items, other.length, out);
    }

    static bool is_disjoint(const Set& left, const Set& right) {
        return linear_is_disjoint(left.data(), left.size(), right.data(), right.size());
    }

    static bool is_subset(const Set& left, const Set& right) {
        return linear_is_subset(left.data(), left.size(), right.data(), right.size());
    }

    static std::size_t union_len(const Set& left, const Set& right) {
        return linear_union_len(left.data(), left.size(), right.data(), right.size());
    }

    static std::size_t contains(const Set& set, const Boundaries& values) {
        std::size_t members = 0;
        for (std::int64_t value : values) {
            members += linear_contains(set.data(), set.size(), value);
        }
        return members;
    }

    static std::size_t split(const Set& set, const Boundaries& values) {
        std::size_t boundaries = 0;
        for (std::int64_t value : values) {
            bool found;
            boundaries += linear_search(set.data(), set.size(), value, &found);
        }
        return boundaries;
    }

    static std::size_t iter(const Set& set) {
        std::size_t members = 0;
        for (std::size_t i = 0; i + 1 < set.size(); i += 2) {
            members += static_cast<std::size_t>(set[i + 1] - set[i]);
        }
        return members;
    }

    static std::size_t insert(const Set& left, const Commands& commands, Boundaries* out) {
        return command(linear_insert, left, commands, out);
    }

    static std::size_t remove(const Set& left, const Commands& commands, Boundaries* out) {
        return command(linear_remove, left, commands, out);
    }

private:
    template <Operation operation>
    static std::size_t change(Buffer& set, const std::int64_t* right, std::size_t right_len, Boundaries* out) {
        Buffer made(set.length + right_len);
        made.length = merge<operation>(set.items, set.length, right, right_len, made.items);
        std::swap(set.items, made.items);
        std::swap(set.length, made.length);
        return set.given(out);
    }

    // The room doubles where it is used up.
    static std::size_t command(std::size_t (*one)(std::int64_t*, std::size_t, std::int64_t, std::int64_t),
                               const Set& left, const Commands& commands, Boundaries* out) {
        std::size_t room = left.size() < 2 ? 2 : left.size();
        Buffer set(left, room);
        for (std::size_t i = 0; i < commands.starts.size(); i++) {
            if (room - set.length < 2) {
                room *= 2;
                set.reserve(room);
            }
            set.length = one(set.items, set.length, commands.starts[i], commands.ends[i]);
        }
        return set.given(out);
    }
};

} // namespace

std::unique_ptr<Peer> linear_peer() {
    return std::make_unique<Held<Linear>>();
}
