// The contenders, one a file.
#pragma once

#include "by_hand.hpp"
#include "growing.hpp"
#include "maps.hpp"
#include "peer.hpp"

std::unique_ptr<Peer> library_peer();
std::unique_ptr<Peer> plain_rust_peer();
std::unique_ptr<Peer> vector_peer();
std::unique_ptr<Peer> c_calls_peer();
std::unique_ptr<Peer> linear_peer();
std::unique_ptr<Peer> icu_peer();
std::unique_ptr<Peer> icl_peer();
std::unique_ptr<Peer> roaring_peer();
std::unique_ptr<Peer> lower_bound_peer();

// Of ranges one by one.
std::vector<GrowingKind> growing_in_rust();
GrowingKind growing_icl();
GrowingKind growing_roaring();

// Of maps.
std::vector<MapKind> maps_in_rust();
MapKind map_in_c();
MapKind map_icl();

// Of calls beside what is written by hand.
std::vector<ByHand> by_hand_in_rust();
std::vector<ByHand> by_hand_in_c();
