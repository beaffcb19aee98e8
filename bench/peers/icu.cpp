// ICU's UnicodeSet: int32, from 0 up to 0x10FFFF.
#include "held.hpp"
#include "peers.hpp"

#include <unicode/uniset.h>

#include <new>

namespace {

using icu::UnicodeSet;

UChar32 code_point(std::int64_t value) {
    return static_cast<UChar32>(value);
}

std::size_t given(const UnicodeSet& set, Boundaries* out) {
    if (set.isBogus()) {
        throw std::bad_alloc();
    }
    if (out != nullptr) {
        for (std::int32_t i = 0; i < set.getRangeCount(); i++) {
            out->push_back(set.getRangeStart(i));
            out->push_back(set.getRangeEnd(i) + 1);
        }
    }
    return static_cast<std::size_t>(set.getRangeCount());
}

template <Operation operation> void change(UnicodeSet& set, const UnicodeSet& other) {
    switch (operation) {
    case Operation::unite:
        set.addAll(other);
        break;
    case Operation::intersect:
        set.retainAll(other);
        break;
    case Operation::subtract:
        set.removeAll(other);
        break;
    case Operation::differ:
        set.complementAll(other);
        break;
    }
}

struct Icu {
    static constexpr const char* name = "ICU";
    static constexpr std::int64_t greatest = UnicodeSet::MAX_VALUE;
    static constexpr unsigned offers =
        Group::new_sets | Group::in_place | Group::tests | Group::contains | Group::iter | Group::changes;
    using Set = UnicodeSet;

    static Set made(const Boundaries& boundaries) {
        UnicodeSet set;
        for (std::size_t i = 0; i + 1 < boundaries.size(); i += 2) {
            set.add(code_point(boundaries[i]), code_point(boundaries[i + 1] - 1));
        }
        return set;
    }

    // The set has no operation that makes a new one.
    template <Operation operation> static std::size_t combine(const Set& left, const Set& right, Boundaries* out) {
        return change_by_borrowed<operation>(left, right, out);
    }

    static std::size_t copy_one(const Set& left, Boundaries* out) { return given(UnicodeSet(left), out); }

    static std::size_t copy_both(const Set& left, const Set& right, Boundaries* out) {
        UnicodeSet set(left);
        UnicodeSet other(right);
        return given(set, out);
    }

    template <Operation operation>
    static std::size_t change_by_borrowed(const Set& left, const Set& right, Boundaries* out) {
        UnicodeSet set(left);
        change<operation>(set, right);
        return given(set, out);
    }

    template <Operation operation>
    static std::size_t change_by_owned(const Set& left, const Set& right, Boundaries* out) {
        UnicodeSet set(left);
        UnicodeSet other(right);
        change<operation>(set, other);
        return given(set, out);
    }

    static bool is_disjoint(const Set& left, const Set& right) { return left.containsNone(right); }

    static bool is_subset(const Set& left, const Set& right) { return right.containsAll(left); }

    static std::size_t contains(const Set& set, const Boundaries& values) {
        std::size_t members = 0;
        for (std::int64_t value : values) {
            members += set.contains(code_point(value));
        }
        return members;
    }

    static std::size_t iter(const Set& set) {
        std::size_t members = 0;
        std::int32_t ranges = set.getRangeCount();
        for (std::int32_t i = 0; i < ranges; i++) {
            members += static_cast<std::size_t>(set.getRangeEnd(i) + 1 - set.getRangeStart(i));
        }
        return members;
    }

    static std::size_t insert(const Set& left, const Commands& commands, Boundaries* out) {
        UnicodeSet set(left);
        for (std::size_t i = 0; i < commands.starts.size(); i++) {
            set.add(code_point(commands.starts[i]), code_point(commands.ends[i] - 1));
        }
        return given(set, out);
    }

    static std::size_t remove(const Set& left, const Commands& commands, Boundaries* out) {
        UnicodeSet set(left);
        for (std::size_t i = 0; i < commands.starts.size(); i++) {
            set.remove(code_point(commands.starts[i]), code_point(commands.ends[i] - 1));
        }
        return given(set, out);
    }
};

} // namespace

std::unique_ptr<Peer> icu_peer() {
    return std::make_unique<Held<Icu>>();
}
