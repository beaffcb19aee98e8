#include "peers.hpp"

Peers all_peers() {
    Peers peers;
    peers.push_back(library_peer());
#ifdef WITH_PLAIN_RUST
    peers.push_back(plain_rust_peer());
#endif
    peers.push_back(vector_peer());
    peers.push_back(c_calls_peer());
    peers.push_back(linear_peer());
#ifdef WITH_ICU
    peers.push_back(icu_peer());
#endif
#ifdef WITH_ICL
    peers.push_back(icl_peer());
#endif
#ifdef WITH_ROARING
    peers.push_back(roaring_peer());
#endif
    peers.push_back(lower_bound_peer());
    return peers;
}

std::vector<GrowingKind> growing_kinds() {
    std::vector<GrowingKind> kinds;
#ifdef WITH_PLAIN_RUST
    kinds = growing_in_rust();
#endif
#ifdef WITH_ICL
    kinds.push_back(growing_icl());
#endif
#ifdef WITH_ROARING
    kinds.push_back(growing_roaring());
#endif
    return kinds;
}

std::vector<ByHand> rows_by_hand() {
    std::vector<ByHand> rows;
#ifdef WITH_PLAIN_RUST
    rows = by_hand_in_rust();
#endif
    for (ByHand& row : by_hand_in_c()) {
        rows.push_back(std::move(row));
    }
    return rows;
}

std::vector<MapKind> map_kinds() {
    std::vector<MapKind> kinds;
#ifdef WITH_PLAIN_RUST
    kinds = maps_in_rust();
#endif
    kinds.push_back(map_in_c());
#ifdef WITH_ICL
    kinds.push_back(map_icl());
#endif
    return kinds;
}
