#!/usr/bin/env bash
# Tests the Rust crate from a copy in a folder of its own: its tests, the program that was written for range-collections,
# its documentation, what clippy and rustfmt say of it, its package, the lines in Rust of the pages, and its memory under
# valgrind.
#
#   tests/rust.sh                   all that, of made-up cases one in ONE_IN under valgrind
#   tests/rust.sh --sanitizer       the tests under AddressSanitizer, and all cases under valgrind
#
# No network is asked: the crates that it stands on are those that Debian packages. The last line is 'N passed, M failed,
# K skipped'. It ends with 77 where something is missing without which nothing can run.
set -u
export LC_ALL=C.UTF-8
cd "$(dirname "$0")/../rust" || exit 1
top=$(dirname "$PWD")
. ../tests/steps.sh

packages=/usr/share/cargo/registry
offline=(--offline --config 'source.crates-io.replace-with="debian"' --config "source.debian.directory=\"$packages\"")
features=(--features serde,new_unchecked)
ONE_IN=20

needs cargo cargo
needs cc gcc
for crate in smallvec serde serde_json; do
    ls -d "$packages/$crate"-[0-9]* >/dev/null 2>&1 || {
        echo "$name: SKIPPED: the crate $crate is missing; on Debian the package librust-${crate/_/-}-dev brings it"
        exit 77
    }
done
work=$(mktemp -d) || exit 1
trap 'rm -rf "$work"' EXIT
export CARGO_TARGET_DIR=$work/built
builds_quickly
copies_rust "$work" || exit 1
host=$(rustc -vV | sed -n 's/^host: //p')

# Calls cargo in the copy.
cargo_there() {
    (cd "$work/rust" && cargo "$1" "${offline[@]}" "${@:2}")
}

# Runs the tests with orders that lie, and with panics, by valgrind, which tries a part of the cases.
under_valgrind() {
    local runner
    export RANGE_SETS_ONE_IN=$1
    runner=CARGO_TARGET_$(echo "$host" | tr a-z- A-Z_)_RUNNER
    export "$runner=valgrind -q --error-exitcode=9"
    # Sets of many chunks take too long for it: they have AddressSanitizer.
    cargo_there test --quiet "${features[@]}" --test hostile -- --test-threads 2 --skip chunked::
}

# Runs the tests with the compiler's checks of every access.
under_the_sanitizer() {
    export RUSTC_BOOTSTRAP=1 RUSTFLAGS=-Zsanitizer=address
    cargo_there test --quiet "${features[@]}" --target "$host" --lib --tests
}

# Runs the lines of the documentation. A newer rustdoc makes one program of them all, in a tenth of the time.
runs_the_documentation() {
    if rustdoc --help | grep -q -- --merge-doctests; then
        export RUSTC_BOOTSTRAP=1 RUSTDOCFLAGS="-Zunstable-options --merge-doctests=yes"
    else
        export RUSTDOCFLAGS=$(links_quickly rustc)
    fi
    cargo_there test --quiet "${features[@]}" --doc
}

# Runs an example.
example() {
    cargo_there run --quiet "${features[@]}" --example "$1"
}

# Runs the program that was written for range-collections, and looks at its line.
runs_the_program() {
    [ "$(example bookings)" = "RangeSet{7..9, 20..} is written as [7,9,20]" ]
}

# Runs the cache of a file's parts, which says what it has.
runs_the_cache() {
    [ "$(example cache)" = \
        "29% are here: 0..50, 60..100, 300..400, 900..1000, kept as [1000,[0,50,60,100,300,400,900,1000]]" ]
}

# Runs the allocator of addresses, which says what is free in ranges and in blocks.
runs_the_addresses() {
    [ "$(example addresses)" = "768 of 1024 are free: 10.0.0.0..10.0.1.0, 10.0.2.0..10.0.4.0
10.0.0.0 is taken, 10.0.0.128/25 is free
left in blocks: 10.0.0.1/32 10.0.0.2/31 10.0.0.4/30 10.0.0.8/29 10.0.0.16/28 10.0.0.32/27 10.0.0.64/26 10.0.0.128/25 10.0.2.0/23" ]
}

# Runs the download of a million pieces, which says in how many ranges they lay.
runs_the_torrent() {
    [ "$(example torrent)" = $'249665 ranges after half of the pieces\n1 range in the end' ]
}

# Runs the calendar of several people, which says when all are free.
runs_the_calendar() {
    [ "$(example calendar)" = "an hour for all: Mon 12:00 to Mon 13:00
690 minutes in all
Tue 14:30 to Tue 17:00" ]
}

# Runs the character classes, which are written as patterns have them.
runs_the_classes() {
    [ "$(example classes)" = 'words have [0-9A-Z_a-z]
consonants are [B-DF-HJ-NP-TV-Zb-df-hj-np-tv-z]
the rest is [\u{0}-/:-@[-^`{-\u{10ffff}]
63 of 1112064 characters; the last has place 1112063' ]
}

# Runs the table of blocks of addresses, which says in which country an address is.
runs_the_countries() {
    [ "$(example countries)" = "100000 blocks are 62098 ranges
8.8.8.8 is in DL, as all of 8.7.241.0..8.9.137.0
42.7.7.7 is in QW, as all of 42.6.210.0..42.7.18.0
77.12.0.9 is in VS, as all of 77.11.237.0..77.12.129.0
223.0.0.1 is in no country" ]
}

# Runs the coverage of a genome by a million reads.
runs_the_coverage() {
    [ "$(example coverage)" = "1000000 reads make 1449168 ranges of one depth
100% of the bases are covered 1 times or more
68% of the bases are covered 20 times or more
31% of the bases are covered 40 times or more
86 reads have 2229744..2229746" ]
}

# Has clippy look at all of it, with all features and without.
lints() {
    cargo_there clippy --quiet --all-targets --all-features -- -D warnings &&
        cargo_there clippy --quiet --all-targets -- -D warnings
}

# Has rustfmt look at what is written by hand.
# Of what it is given as its input, rustfmt finds the looks amiss and ends with 0.
is_formatted() {
    find build.rs src tests examples -name '*.rs' -not -path 'src/generated/*' -print0 |
        xargs -0 -I{} sh -c 'rustfmt --edition 2021 <"$1" | diff "$1" - || { echo "$1"; exit 1; }' sh {}
}

# Makes the package. It has the licences, in full as the repository has them, and each file that its page links to.
packages() {
    local name package=$work/package
    # From the crate as it is committed, whose files may not be links: not each system makes them.
    mkdir "$package" && tar ch --exclude=./target --exclude=./Cargo.lock . | tar x -C "$package" && cd "$package" &&
        cargo package --quiet --allow-dirty "${offline[@]}" && cargo package --list "${offline[@]}" >"$work/files" || return
    for name in LICENSE-APACHE LICENSE-MIT; do
        tar xOf "$CARGO_TARGET_DIR"/package/range-sets-*.crate --wildcards "*/$name" | cmp - "$top/$name" || return
    done
    grep -oE '\]\([^)]+\)' README.md | tr -d '])(' | grep -v '^https:\|^#' | while read -r name; do
        grep -q "^$name\(/\|\$\)" "$work/files" || { echo "the package has no $name, to which README.md links" && return 1; }
    done
}

documents() {
    RUSTDOCFLAGS='-D warnings' cargo_there doc --quiet --no-deps "${features[@]}"
}

# Makes the folder of a program that depends on the crate.
makes_a_program() {
    mkdir -p "$1/src"
    printf '[package]\nname = "page"\nversion = "0.0.0"\nedition = "2021"\n\n[dependencies]\nrange-sets = { path = "../rust" }\n' \
        >"$1/Cargo.toml"
}

# A type that lacks a trait hears it by a name that it can implement, and what to write instead, from a compiler that takes
# such messages.
names_what_is_missing() {
    local program=$work/missing version value
    makes_a_program "$program"
    echo 'struct Page(u32);
impl range_sets::Countable for Page {
    fn place(&self) -> u128 { self.0.into() }
}
fn main() {
    range_sets::RangeSet2::<u32>::empty().insert(8u32);
    range_sets::RangeSet::<u32>::empty();
    let _: range_sets::RangeSet2<u8> = [8u8].into_iter().collect();
    let _: range_sets::ChunkedRangeSet<u16> = [8u16].into_iter().collect();
    range_sets::ChunkedSpace::<u64>::new().extend([8u64]);
    let _ = range_sets::fallible::RangeSet2::<i8>::from_ranges([8i8]);
}' >"$program/src/main.rs"
    (cd "$program" && ! cargo check --quiet "${offline[@]}" 2>said) || return
    version=$(rustc --version | cut -d. -f2)
    [ "$version" -lt 78 ] || {
        grep -Fqx 'error[E0277]: `Page` has no least value' "$program/said" &&
            grep -Fq 'note: implement `range_sets::RangeSetEntry` for it' "$program/said" &&
            grep -Fqx 'error[E0277]: `u32` is no range of `u32`' "$program/said" &&
            grep -Fq 'note: one value `x` is the range `x..=x`' "$program/said" &&
            grep -Fqx 'error[E0277]: `u32` is no array type' "$program/said" &&
            grep -Fq 'note: a set of `u32` is a `RangeSet2<u32>`' "$program/said"
    } || return
    # From then on a message is of the bound, not of the `From` that is behind it.
    [ "$version" -lt 85 ] || {
        for value in u8 u16 u64 i8; do
            grep -Fqx "error[E0277]: \`$value\` is no range of \`$value\`" "$program/said" || return
        done
        [ "$(grep -Fc '; `from_values` makes a set of values' "$program/said")" = 4 ]
    }
}

# Runs each block of a page that begins with a use of the crate, word for word, as a program of its own, or as the lines of one.
runs_page() {
    local page=$work/page block
    rm -rf "$page" && makes_a_program "$page" && mkdir "$page/src/bin" && awk -v to="$page/src/bin/" \
        '/^```/ { on = 0; next_is_first = $0 == "```rust"; next } next_is_first { on = /^use range_sets/; n += on; next_is_first = 0 }
        on { print >(to "block" n ".rs") }' "$1" && [ -s "$page/src/bin/block1.rs" ] || return
    for block in "$page/src/bin"/*; do
        grep -q '^fn main' "$block" || { printf 'fn main() {\n%s\n}\n' "$(cat "$block")" >"$work/lines" && mv "$work/lines" "$block"; }
    done
    for block in "$page/src/bin"/*; do
        (cd "$page" && cargo run --quiet "${offline[@]}" --bin "$(basename "$block" .rs)") || return
    done
}

if [ "${1-}" = --sanitizer ]; then
    if ls "$(rustc --print sysroot)/lib/rustlib/$host/lib"/librustc-*_rt.asan.a >/dev/null 2>&1; then
        step "the tests under AddressSanitizer" under_the_sanitizer
    else
        skipped=$((skipped + 1))
        echo "$name: SKIPPED: the tests under AddressSanitizer: $(rustc --version) has none"
    fi
    step_by valgrind valgrind "orders that lie, and panics, under valgrind" under_valgrind 1
    ended
fi

step "the tests" cargo_there test --quiet "${features[@]}" --lib --tests
step "the lines of the documentation" runs_the_documentation
step "a build without std" cargo_there build --quiet --no-default-features --features serde
step "the program written for range-collections" runs_the_program
step "a cache of a file's parts" runs_the_cache
step "a download of a million pieces" runs_the_torrent
step "an allocator of addresses" runs_the_addresses
step "a calendar of several people" runs_the_calendar
step "character classes" runs_the_classes
step "the countries of addresses" runs_the_countries
step "the coverage of a genome" runs_the_coverage
step "the documentation, without a warning" documents
step "what a compiler says of a type that lacks a trait" names_what_is_missing
step_by cargo-clippy rust-clippy "what clippy says" lints
step_by rustfmt rustfmt "the looks" is_formatted
step "the package, with its licences" packages
for page in ../README.md README.md; do
    step "the lines in Rust of $page" runs_page "$page"
done
step_by valgrind valgrind "orders that lie, and panics, under valgrind, one case in $ONE_IN" under_valgrind $ONE_IN
ended
