// The plain Rust crate, through the exports of plain_rust/.
#include "exported.hpp"
#include "peers.hpp"

extern "C" {
range_bench_two plain_rust_union, plain_rust_intersection, plain_rust_difference, plain_rust_symmetric_difference;
range_bench_two plain_rust_union_borrowed, plain_rust_intersection_borrowed, plain_rust_difference_borrowed,
    plain_rust_symmetric_difference_borrowed;
range_bench_two plain_rust_union_owned, plain_rust_intersection_owned, plain_rust_difference_owned,
    plain_rust_symmetric_difference_owned;
range_bench_two plain_rust_copies;
range_bench_commands plain_rust_insert, plain_rust_remove;
decltype(range_bench_copy) plain_rust_copy;
decltype(range_bench_is_disjoint) plain_rust_is_disjoint;
decltype(range_bench_is_subset) plain_rust_is_subset;
decltype(range_bench_union_len) plain_rust_union_len;
std::size_t plain_rust_union_len_text(const char* left, std::size_t left_len, const char* right, std::size_t right_len);
decltype(range_bench_contains) plain_rust_contains;
decltype(range_bench_split) plain_rust_split;
decltype(range_bench_iter) plain_rust_iter;

// Sets that stay, behind pointers.
using growing_new = void*();
using growing_free = void(void* set);
using growing_change = void(void* set, const std::int64_t* starts, const std::int64_t* ends, std::size_t len);
using growing_contains = std::size_t(const void* set, const std::int64_t* values, std::size_t len);
using growing_iter = std::int64_t(const void* set);
using growing_replace = std::int64_t(void* set, const std::int64_t* starts, const std::int64_t* ends, std::size_t len);
using growing_boundaries = std::size_t(const void* set, std::int64_t* out, std::size_t out_len);
growing_new growing_list_new, growing_chunks_new, growing_space_new, growing_tree_new;
growing_free growing_list_free, growing_chunks_free, growing_space_free, growing_tree_free;
growing_change growing_list_insert, growing_chunks_insert, growing_space_insert, growing_tree_insert;
growing_change growing_list_remove, growing_chunks_remove, growing_space_remove, growing_tree_remove;
growing_contains growing_list_contains, growing_chunks_contains, growing_space_contains, growing_tree_contains;
growing_iter growing_list_iter, growing_chunks_iter, growing_space_iter, growing_tree_iter;
growing_replace growing_list_replace, growing_chunks_replace, growing_space_replace, growing_tree_replace;
growing_boundaries growing_list_boundaries, growing_chunks_boundaries, growing_space_boundaries,
    growing_tree_boundaries;
}

namespace {

struct PlainRust {
    static constexpr const char* name = "plain Rust";

    // The operations in the order of Operation.
    static constexpr range_bench_two* new_sets[] = {plain_rust_union, plain_rust_intersection, plain_rust_difference,
                                                    plain_rust_symmetric_difference};
    static constexpr range_bench_two* borrowed[] = {plain_rust_union_borrowed, plain_rust_intersection_borrowed,
                                                    plain_rust_difference_borrowed,
                                                    plain_rust_symmetric_difference_borrowed};
    static constexpr range_bench_two* owned[] = {plain_rust_union_owned, plain_rust_intersection_owned,
                                                 plain_rust_difference_owned, plain_rust_symmetric_difference_owned};
    static constexpr auto* copies = plain_rust_copies;
    static constexpr auto* copy = plain_rust_copy;
    static constexpr auto* put_in = plain_rust_insert;
    static constexpr auto* take_out = plain_rust_remove;
    static constexpr auto* disjoint = plain_rust_is_disjoint;
    static constexpr auto* subset = plain_rust_is_subset;
    static constexpr auto* length = plain_rust_union_len;
    static constexpr auto* members = plain_rust_contains;
    static constexpr auto* cut = plain_rust_split;
    static constexpr auto* ranges = plain_rust_iter;
};

// With what no other contender exports.
struct WholePlainRust : Exported<PlainRust> {
    static constexpr unsigned offers = Exported<PlainRust>::offers | Group::text_lengths;

    static std::size_t union_len_text(const Texts& left, const Texts& right) {
        return plain_rust_union_len_text(left.data(), left.size(), right.data(), right.size());
    }
};

struct List {
    static constexpr auto* make = growing_list_new;
    static constexpr auto* drop = growing_list_free;
    static constexpr auto* insert = growing_list_insert;
    static constexpr auto* remove = growing_list_remove;
    static constexpr auto* members = growing_list_contains;
    static constexpr auto* ranges = growing_list_iter;
    static constexpr auto* replace = growing_list_replace;
    static constexpr auto* list = growing_list_boundaries;
};

struct Chunks {
    static constexpr auto* make = growing_chunks_new;
    static constexpr auto* drop = growing_chunks_free;
    static constexpr auto* insert = growing_chunks_insert;
    static constexpr auto* remove = growing_chunks_remove;
    static constexpr auto* members = growing_chunks_contains;
    static constexpr auto* ranges = growing_chunks_iter;
    static constexpr auto* replace = growing_chunks_replace;
    static constexpr auto* list = growing_chunks_boundaries;
};

struct Space {
    static constexpr auto* make = growing_space_new;
    static constexpr auto* drop = growing_space_free;
    static constexpr auto* insert = growing_space_insert;
    static constexpr auto* remove = growing_space_remove;
    static constexpr auto* members = growing_space_contains;
    static constexpr auto* ranges = growing_space_iter;
    static constexpr auto* replace = growing_space_replace;
    static constexpr auto* list = growing_space_boundaries;
};

struct Tree {
    static constexpr auto* make = growing_tree_new;
    static constexpr auto* drop = growing_tree_free;
    static constexpr auto* insert = growing_tree_insert;
    static constexpr auto* remove = growing_tree_remove;
    static constexpr auto* members = growing_tree_contains;
    static constexpr auto* ranges = growing_tree_iter;
    static constexpr auto* replace = growing_tree_replace;
    static constexpr auto* list = growing_tree_boundaries;
};

template <class Exports> struct Behind {
    static constexpr bool has_ranges = true;
    static constexpr bool finds_room = true;

    struct Free {
        void operator()(void* set) const { Exports::drop(set); }
    };

    using Set = std::unique_ptr<void, Free>;

    static Set made(const Boundaries&) { return Set(Exports::make()); }

    static void put_in(const Set& set, const Commands& commands) {
        Exports::insert(set.get(), commands.starts.data(), commands.ends.data(), commands.starts.size());
    }

    static void take_out(const Set& set, const Commands& commands) {
        Exports::remove(set.get(), commands.starts.data(), commands.ends.data(), commands.starts.size());
    }

    static std::size_t contains(const Set& set, const Boundaries& values) {
        return Exports::members(set.get(), values.data(), values.size());
    }

    static std::size_t iter(const Set& set) { return static_cast<std::size_t>(Exports::ranges(set.get())); }

    static std::int64_t replace(const Set& set, const Commands& commands) {
        return Exports::replace(set.get(), commands.starts.data(), commands.ends.data(), commands.starts.size());
    }

    static void boundaries_of(const Set& set, Boundaries* out) {
        std::int64_t nowhere;
        out->resize(Exports::list(set.get(), &nowhere, 0));
        Exports::list(set.get(), out->data(), out->size());
    }
};

} // namespace

std::vector<GrowingKind> growing_in_rust() {
    return {growing_kind<Behind<List>>("RangeSet"), growing_kind<Behind<Chunks>>("ChunkedRangeSet"),
            growing_kind<Behind<Space>>("ChunkedSpace"), growing_kind<Behind<Tree>>("BTreeMap")};
}

std::unique_ptr<Peer> plain_rust_peer() {
    return std::make_unique<Held<WholePlainRust>>();
}
