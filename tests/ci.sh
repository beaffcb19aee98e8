#!/usr/bin/env bash
# All proofs, by 'rt ci', whose output ends this one's and is the gate.
#
# It gives a proof the processors that no other proof waits for, and from nothing all wait for range_merge, which has one of
# four beside range_entry. By itself it has two, where there is memory for it. So where rt keeps what it proved, as it says of
# range_entry after a minute, range_merge is proved by itself before. What these say stands indented, since it counts nothing.
set -u
cd "$(dirname "$0")/.." || exit 1

if [ "$(nproc)" -ge 4 ]; then
    said=$(mktemp) || exit 1
    trap 'rm -f "$said"' EXIT
    for crate in range_entry range_merge; do
        rt ci "$crate" 2>&1 | sed 's/^/  /' | tee "$said"
        grep -q 'passed, and that is kept' "$said" || break
    done
fi
rt ci
