// The maps of range_set.h, over dist/. No call of theirs combines two.
#include "peers.hpp"
#include "range_set.h"

#include <new>
#include <utility>

namespace {

void expect(range_set_status status) {
    if (status != RANGE_SET_DONE) {
        throw std::bad_alloc();
    }
}

struct CMap {
    CMap() { expect(range_map_i64_new(&it)); }
    CMap(CMap&& that) noexcept : it(std::exchange(that.it, range_map_i64{})) {}
    CMap(const CMap&) = delete;
    CMap& operator=(const CMap&) = delete;
    ~CMap() { range_map_i64_free(&it); }

    range_map_i64 it;
};

struct CCalls {
    using Map = CMap;

    static Map made() { return {}; }

    static void put_in(Map& map, const Entries& entries) {
        for (std::size_t i = 0; i < entries.values.size(); i++) {
            const auto& [starts, ends] = entries.ranges;
            expect(range_map_i64_insert(&map.it, starts[i], ends[i], entries.values[i]));
        }
    }

    static std::uint64_t get(const Map& map, const Boundaries& keys) {
        std::uint64_t sum = 0;
        for (std::int64_t key : keys) {
            std::uint64_t value = 0;
            sum += range_map_i64_get(map.it, key, &value) ? value : 0;
        }
        return sum;
    }

    static std::optional<Map> sum(const Map&, const Map&) { return std::nullopt; }

    static Entries entries_of(const Map& map) {
        Entries entries;
        range_map_i64_stretch it;
        bool more = range_map_i64_next(map.it, INT64_MIN, &it);
        for (; more; more = it.has_end && range_map_i64_next(map.it, it.end, &it)) {
            entries.ranges.starts.push_back(it.start);
            entries.ranges.ends.push_back(it.end);
            entries.values.push_back(it.value);
        }
        return entries;
    }
};

} // namespace

MapKind map_in_c() {
    return map_kind<CCalls>("C calls");
}
