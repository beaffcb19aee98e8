// The calls of range_set.h, over dist/. A new set lies in memory for both sides; a changed one is an owned set.
#include "held.hpp"
#include "peers.hpp"
#include "range_set.h"

#include <algorithm>
#include <memory>
#include <new>
#include <stdexcept>

namespace {

// A list whose set was checked when it was made.
struct Checked {
    Boundaries list;

    range_set_i64 set() const { return {list.data(), list.size()}; }
};

void expect(range_set_status status) {
    if (status != RANGE_SET_DONE) {
        throw std::runtime_error(range_set_status_text(status));
    }
}

unsigned kept(Operation operation) {
    switch (operation) {
    case Operation::unite:
        return RANGE_SET_UNION;
    case Operation::intersect:
        return RANGE_SET_INTERSECTION;
    case Operation::subtract:
        return RANGE_SET_DIFFERENCE;
    case Operation::differ:
        return RANGE_SET_SYMMETRIC_DIFFERENCE;
    }
    return 0;
}

std::size_t given(range_set_i64 set, Boundaries* out) {
    if (out != nullptr) {
        out->assign(set.boundaries, set.boundaries + set.len);
    }
    return set.len;
}

// A copy that can change.
class Owned {
public:
    explicit Owned(const Checked& of) {
        range_set_i64_owned_init(&owned, nullptr);
        expect(range_set_i64_owned_assign(&owned, of.set()));
    }
    Owned(const Owned&) = delete;
    Owned& operator=(const Owned&) = delete;
    ~Owned() { range_set_i64_owned_free(&owned); }

    range_set_i64_owned owned;
};

struct CCalls {
    static constexpr const char* name = "C calls";
    static constexpr std::int64_t greatest = INT64_MAX;
    static constexpr unsigned offers = Group::new_sets | Group::in_place | Group::tests | Group::lengths |
                                       Group::contains | Group::in_order | Group::split | Group::iter | Group::changes |
                                       Group::places;
    using Set = Checked;

    static Set made(const Boundaries& boundaries) {
        range_set_i64 set;
        expect(range_set_i64_view(boundaries.data(), boundaries.size(), &set));
        return {boundaries};
    }

    template <Operation operation> static std::size_t combine(const Set& left, const Set& right, Boundaries* out) {
        const std::size_t room = left.list.size() + right.list.size();
        std::unique_ptr<std::int64_t[]> items(new std::int64_t[room]);
        range_set_i64 result;
        expect(range_set_i64_combine(left.set(), right.set(), kept(operation), items.get(), room, &result));
        return given(result, out);
    }

    static std::size_t unite_into(const std::int64_t* left, std::size_t left_len, const std::int64_t* right,
                                  std::size_t right_len, std::int64_t* room) {
        range_set_i64 result;
        expect(range_set_i64_combine({left, left_len}, {right, right_len}, RANGE_SET_UNION, room, left_len + right_len,
                                     &result));
        return result.len;
    }

    static std::size_t copy_one(const Set& left, Boundaries* out) { return given(Owned(left).owned.in.set, out); }

    static std::size_t copy_both(const Set& left, const Set& right, Boundaries* out) {
        Owned copy(left);
        Owned other(right);
        return given(copy.owned.in.set, out);
    }

    template <Operation operation>
    static std::size_t change_by_borrowed(const Set& left, const Set& right, Boundaries* out) {
        Owned copy(left);
        expect(range_set_i64_owned_combine(&copy.owned, right.set(), kept(operation)));
        return given(copy.owned.in.set, out);
    }

    template <Operation operation>
    static std::size_t change_by_owned(const Set& left, const Set& right, Boundaries* out) {
        Owned copy(left);
        Owned other(right);
        expect(range_set_i64_owned_combine(&copy.owned, other.owned.in.set, kept(operation)));
        return given(copy.owned.in.set, out);
    }

    static bool is_disjoint(const Set& left, const Set& right) {
        return range_set_i64_is_disjoint(left.set(), right.set());
    }

    static bool is_subset(const Set& left, const Set& right) {
        return range_set_i64_is_subset(left.set(), right.set());
    }

    static std::size_t union_len(const Set& left, const Set& right) {
        return range_set_i64_union_len(left.set(), right.set());
    }

    static std::size_t contains(const Set& set, const Boundaries& values) {
        std::size_t members = 0;
        for (std::int64_t value : values) {
            members += range_set_i64_contains(set.set(), value);
        }
        return members;
    }

    static std::size_t contains_each(const Set& set, const Boundaries& values) {
        std::unique_ptr<bool[]> found(new bool[values.size()]);
        expect(range_set_i64_contains_each(set.set(), values.data(), values.size(), found.get()));
        return static_cast<std::size_t>(std::count(found.get(), found.get() + values.size(), true));
    }

    static std::size_t split(const Set& set, const Boundaries& values) {
        std::size_t boundaries = 0;
        for (std::int64_t value : values) {
            range_set_i64 below;
            range_set_i64_split(set.set(), value, &below, nullptr);
            boundaries += below.len;
        }
        return boundaries;
    }

    static std::size_t iter(const Set& set) {
        std::size_t members = 0;
        range_set_i64_range range;
        for (std::size_t i = 0; range_set_i64_get(set.set(), i, &range); i++) {
            members += range.has_end ? static_cast<std::size_t>(range.end - range.start) : 0;
        }
        return members;
    }

    static std::size_t insert(const Set& left, const Commands& commands, Boundaries* out) {
        return command(range_set_i64_owned_insert, left, commands, out);
    }

    static std::size_t remove(const Set& left, const Commands& commands, Boundaries* out) {
        return command(range_set_i64_owned_remove, left, commands, out);
    }

private:
    static std::size_t command(range_set_status (*one)(range_set_i64_owned*, std::int64_t, std::int64_t),
                               const Set& left, const Commands& commands, Boundaries* out) {
        Owned copy(left);
        for (std::size_t i = 0; i < commands.starts.size(); i++) {
            expect(one(&copy.owned, commands.starts[i], commands.ends[i]));
        }
        return given(copy.owned.in.set, out);
    }
};

} // namespace

std::unique_ptr<Peer> c_calls_peer() {
    return std::make_unique<Held<CCalls>>();
}
