// The maps of the plain Rust crate, and a tree of ranges in Rust, through the exports of plain_rust/.
#include "peers.hpp"

extern "C" {
using map_new = void*();
using map_free = void(void* map);
using map_insert = void(void* map, const std::int64_t* starts, const std::int64_t* ends, const std::uint64_t* values,
                        std::size_t len);
using map_get = std::uint64_t(const void* map, const std::int64_t* keys, std::size_t len);
using map_sum = void*(const void* map, const void* that);
using map_entries = std::size_t(const void* map, std::int64_t* starts, std::int64_t* ends, std::uint64_t* values,
                                std::size_t out_len);
map_new map_list_new, map_tree_new;
map_free map_list_free, map_tree_free;
map_insert map_list_insert, map_tree_insert;
map_get map_list_get, map_tree_get;
map_sum map_list_sum, map_tree_sum;
map_entries map_list_entries, map_tree_entries;
}

namespace {

struct List {
    static constexpr auto* make = map_list_new;
    static constexpr auto* drop = map_list_free;
    static constexpr auto* insert = map_list_insert;
    static constexpr auto* get = map_list_get;
    static constexpr auto* sum = map_list_sum;
    static constexpr auto* entries = map_list_entries;
};

struct Tree {
    static constexpr auto* make = map_tree_new;
    static constexpr auto* drop = map_tree_free;
    static constexpr auto* insert = map_tree_insert;
    static constexpr auto* get = map_tree_get;
    static constexpr auto* sum = map_tree_sum;
    static constexpr auto* entries = map_tree_entries;
};

template <class Exports> struct Behind {
    struct Free {
        void operator()(void* map) const { Exports::drop(map); }
    };

    using Map = std::unique_ptr<void, Free>;

    static Map made() { return Map(Exports::make()); }

    static void put_in(const Map& map, const Entries& entries) {
        Exports::insert(map.get(), entries.ranges.starts.data(), entries.ranges.ends.data(), entries.values.data(),
                        entries.values.size());
    }

    static std::uint64_t get(const Map& map, const Boundaries& keys) {
        return Exports::get(map.get(), keys.data(), keys.size());
    }

    static Map sum(const Map& map, const Map& that) { return Map(Exports::sum(map.get(), that.get())); }

    static Entries entries_of(const Map& map) {
        std::int64_t nowhere = 0;
        std::uint64_t nothing = 0;
        std::size_t len = Exports::entries(map.get(), &nowhere, &nowhere, &nothing, 0);
        Entries entries{{Boundaries(len), Boundaries(len)}, std::vector<std::uint64_t>(len)};
        Exports::entries(map.get(), entries.ranges.starts.data(), entries.ranges.ends.data(), entries.values.data(),
                         len);
        return entries;
    }
};

} // namespace

std::vector<MapKind> maps_in_rust() {
    return {map_kind<Behind<List>>("RangeMap"), map_kind<Behind<Tree>>("BTreeMap")};
}
