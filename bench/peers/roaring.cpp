// CRoaring: a set of uint32 in containers of bits, numbers or runs. It has no list of ranges.
#include "held.hpp"
#include "peers.hpp"

#include <roaring/roaring.h>

#include <memory>
#include <new>

namespace {

struct Free {
    void operator()(roaring_bitmap_t* set) const { roaring_bitmap_free(set); }
};

using Bitmap = std::unique_ptr<roaring_bitmap_t, Free>;

Bitmap granted(roaring_bitmap_t* set) {
    if (set == nullptr) {
        throw std::bad_alloc();
    }
    return Bitmap(set);
}

std::size_t given(const Bitmap& set, Boundaries* out) {
    if (out != nullptr) {
        std::vector<std::uint32_t> members(roaring_bitmap_get_cardinality(set.get()));
        roaring_bitmap_to_uint32_array(set.get(), members.data());
        for (std::uint32_t member : members) {
            if (!out->empty() && out->back() == member) {
                out->back()++;
            } else {
                out->push_back(member);
                out->push_back(std::int64_t{member} + 1);
            }
        }
    }
    return !roaring_bitmap_is_empty(set.get());
}

template <Operation operation> Bitmap combined(const Bitmap& left, const Bitmap& right) {
    switch (operation) {
    case Operation::unite:
        return granted(roaring_bitmap_or(left.get(), right.get()));
    case Operation::intersect:
        return granted(roaring_bitmap_and(left.get(), right.get()));
    case Operation::subtract:
        return granted(roaring_bitmap_andnot(left.get(), right.get()));
    case Operation::differ:
        return granted(roaring_bitmap_xor(left.get(), right.get()));
    }
}

template <Operation operation> void change(const Bitmap& set, const Bitmap& other) {
    switch (operation) {
    case Operation::unite:
        roaring_bitmap_or_inplace(set.get(), other.get());
        break;
    case Operation::intersect:
        roaring_bitmap_and_inplace(set.get(), other.get());
        break;
    case Operation::subtract:
        roaring_bitmap_andnot_inplace(set.get(), other.get());
        break;
    case Operation::differ:
        roaring_bitmap_xor_inplace(set.get(), other.get());
        break;
    }
}

struct Roaring {
    static constexpr const char* name = "CRoaring";
    static constexpr std::int64_t greatest = UINT32_MAX;
    static constexpr unsigned offers =
        Group::new_sets | Group::in_place | Group::tests | Group::contains | Group::changes;
    using Set = Bitmap;

    static Set made(const Boundaries& boundaries) {
        Bitmap set = granted(roaring_bitmap_create());
        for (std::size_t i = 0; i + 1 < boundaries.size(); i += 2) {
            add(set, boundaries[i], boundaries[i + 1]);
        }
        roaring_bitmap_run_optimize(set.get());
        return set;
    }

    template <Operation operation> static std::size_t combine(const Set& left, const Set& right, Boundaries* out) {
        return given(combined<operation>(left, right), out);
    }

    static std::size_t copy_one(const Set& left, Boundaries* out) { return given(copy(left), out); }

    static std::size_t copy_both(const Set& left, const Set& right, Boundaries* out) {
        Bitmap set = copy(left);
        Bitmap other = copy(right);
        return given(set, out);
    }

    template <Operation operation>
    static std::size_t change_by_borrowed(const Set& left, const Set& right, Boundaries* out) {
        Bitmap set = copy(left);
        change<operation>(set, right);
        return given(set, out);
    }

    template <Operation operation>
    static std::size_t change_by_owned(const Set& left, const Set& right, Boundaries* out) {
        Bitmap set = copy(left);
        Bitmap other = copy(right);
        change<operation>(set, other);
        return given(set, out);
    }

    static bool is_disjoint(const Set& left, const Set& right) {
        return !roaring_bitmap_intersect(left.get(), right.get());
    }

    static bool is_subset(const Set& left, const Set& right) {
        return roaring_bitmap_is_subset(left.get(), right.get());
    }

    static std::size_t contains(const Set& set, const Boundaries& values) {
        std::size_t members = 0;
        for (std::int64_t value : values) {
            members += roaring_bitmap_contains(set.get(), static_cast<std::uint32_t>(value));
        }
        return members;
    }

    static std::size_t insert(const Set& left, const Commands& commands, Boundaries* out) {
        Bitmap set = copy(left);
        put_in(set, commands);
        return given(set, out);
    }

    static std::size_t remove(const Set& left, const Commands& commands, Boundaries* out) {
        Bitmap set = copy(left);
        take_out(set, commands);
        return given(set, out);
    }

    static constexpr bool has_ranges = false;
    static constexpr bool finds_room = false;

    static void put_in(const Bitmap& set, const Commands& commands) {
        for (std::size_t i = 0; i < commands.starts.size(); i++) {
            add(set, commands.starts[i], commands.ends[i]);
        }
    }

    static void take_out(const Bitmap& set, const Commands& commands) {
        for (std::size_t i = 0; i < commands.starts.size(); i++) {
            roaring_bitmap_remove_range(set.get(), static_cast<std::uint64_t>(commands.starts[i]),
                                        static_cast<std::uint64_t>(commands.ends[i]));
        }
    }

    static void boundaries_of(const Bitmap& set, Boundaries* out) { given(set, out); }

private:
    static Bitmap copy(const Bitmap& set) { return granted(roaring_bitmap_copy(set.get())); }

    static void add(const Bitmap& set, std::int64_t start, std::int64_t end) {
        roaring_bitmap_add_range(set.get(), static_cast<std::uint64_t>(start), static_cast<std::uint64_t>(end));
    }
};

} // namespace

GrowingKind growing_roaring() {
    return growing_kind<Roaring>(Roaring::name);
}

std::unique_ptr<Peer> roaring_peer() {
    return std::make_unique<Held<Roaring>>();
}
