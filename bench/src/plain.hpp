// What is right: a plain merge, which every contender is compared with before it is timed.
#pragma once

#include "peer.hpp"

// The boundaries that the operation gives.
Boundaries plain(Operation operation, const Boundaries& left, const Boundaries& right);

// Compares every answer of the peer to the task, and throws the case that is wrong.
void compare(Peer& peer, Task task, const Case& that);
