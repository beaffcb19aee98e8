// The library, through the exports of the crate range_bench.
#include "exported.hpp"
#include "peers.hpp"

namespace {

struct Library {
    static constexpr const char* name = "library";

    // The operations in the order of Operation.
    static constexpr range_bench_two* new_sets[] = {range_bench_union, range_bench_intersection, range_bench_difference,
                                                    range_bench_symmetric_difference};
    static constexpr range_bench_two* borrowed[] = {range_bench_union_borrowed, range_bench_intersection_borrowed,
                                                    range_bench_difference_borrowed,
                                                    range_bench_symmetric_difference_borrowed};
    static constexpr range_bench_two* owned[] = {range_bench_union_owned, range_bench_intersection_owned,
                                                 range_bench_difference_owned, range_bench_symmetric_difference_owned};
    static constexpr auto* copies = range_bench_copies;
    static constexpr auto* copy = range_bench_copy;
    static constexpr auto* put_in = range_bench_insert;
    static constexpr auto* take_out = range_bench_remove;
    static constexpr auto* disjoint = range_bench_is_disjoint;
    static constexpr auto* subset = range_bench_is_subset;
    static constexpr auto* length = range_bench_union_len;
    static constexpr auto* members = range_bench_contains;
    static constexpr auto* cut = range_bench_split;
    static constexpr auto* ranges = range_bench_iter;
};

// With what no other contender exports.
struct WholeLibrary : Exported<Library> {
    static constexpr unsigned offers = Exported<Library>::offers | Group::texts | Group::at_once;

    static std::size_t contains_text(const Texts& set, const Texts& values) {
        return granted(range_bench_contains_text(set.data(), set.size(), values.data(), values.size()));
    }

    static std::size_t insert_all(const Set& left, const Commands& commands, Boundaries* out) {
        return call_commands(range_bench_insert_all, left, commands, out);
    }
};

} // namespace

std::unique_ptr<Peer> library_peer() {
    return std::make_unique<Held<WholeLibrary>>();
}
