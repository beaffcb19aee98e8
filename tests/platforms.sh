#!/usr/bin/env bash
# Builds the Rust crate and runs its tests natively by two Rusts, on 32 bits, with emulated processors of other kinds, and
# as WebAssembly in node; but for the last, the tests in C too, over the layer in C and what the feature `c` gives it.
#
#   tests/platforms.sh [WORD..]     those whose names begin with one of the words: native, i386, aarch64, s390x, wasm32
#
# It installs nothing and changes nothing outside of a folder of its own. The library of a foreign platform is downloaded
# there by apt. What is missing is named, and its platform is skipped. The last line is 'N passed, M failed, K skipped'.
#
# Of the cases that a test tries in a loop, an emulated processor tries one in ONE_IN. All others try each.
set -u
export LC_ALL=C.UTF-8
cd "$(dirname "$0")/.." || exit 1
. tests/steps.sh

packages=/usr/share/cargo/registry
debian=/usr/bin newer=${CARGO_HOME:-$HOME/.cargo}/bin
offline=(--offline --config 'source.crates-io.replace-with="debian"' --config "source.debian.directory=\"$packages\"")
ONE_IN=7
builds_quickly
work=$(mktemp -d) || exit 1
trap 'rm -rf "$work"' EXIT

skip() {
    skipped=$((skipped + 1))
    echo "$name: SKIPPED: $1: $2"
}

# Whether a platform is asked for: each is where no word is given.
wanted() {
    local what=$1 word
    [ ${#words[@]} = 0 ] && return 0
    for word in "${words[@]}"; do
        [[ $what == "$word"* ]] && return 0
    done
    return 1
}

# Where the copy of the crate lies that cargo of a folder builds.
copy_for() {
    echo "$work/for-$(echo "$1" | tr / -)/rust"
}

# Calls cargo of a folder, with the compiler beside it, in a copy of the crate: it writes a lock file, and of another version.
cargo_of() {
    local bin=$1 copy
    shift
    copy=$(copy_for "$bin")
    [ -d "$copy" ] || copies_rust "${copy%/rust}" || return 1
    (cd "$copy" && RUSTC=$bin/rustc RUSTDOC=$bin/rustdoc "$bin/cargo" "$1" "${offline[@]}" "${@:2}")
}

# Runs tests, and says how many there were. None at all is a failure.
tests_of() {
    local what=$1 said many
    shift
    said=$(cargo_of "$@" 2>&1 </dev/null) || {
        echo "$said"
        return 1
    }
    many=$(echo "$said" | awk '/^test result: ok\./ { many += $4 } END { print many + 0 }')
    echo "$name: $what: $many tests" >&3
    [ "$many" -gt 0 ]
}

# The tests in C over the layer and the library of cargo of a folder: a C compiler, the platform's folder of what cargo built, the
# words of cargo, and after -- what runs a program.
tests_c() {
    local compiler=$1 built=$2 bin=$3 words=()
    shift 3
    while [ $# -gt 0 ] && [ "$1" != -- ]; do words+=("$1") && shift; done
    cargo_of "$bin" rustc --quiet --features c --lib --crate-type staticlib "${words[@]}" -- --cfg range_sets_heap &&
        "$compiler" -std=c99 -O1 -Wall -Wextra -DRANGE_SET_PLAIN -Ic/include c/tests/test.c c/range_set.c \
            "$(copy_for "$bin")/target/$built/librange_sets.a" -lpthread -ldl -lm -o "$work/test_c" && "${@:2}" "$work/test_c" 500
}

# The names of the tests, without those in documentation.
names_of() {
    cargo_of "$debian" test --quiet "${features[@]}" --lib --tests "$@" -- --list 2>/dev/null | sed -n 's/: test$//p' | sort
}

# A build without std by one Rust on this machine, and the tests, unless tests/rust.sh runs them by that Rust.
native() {
    local bin=$1 what
    what=$("$bin/rustc" --version)
    step "$what: a build without std" cargo_of "$bin" build --quiet --no-default-features
    if [ "$(command -v cargo)" = "$bin/cargo" ] && [ "$bin" != "$debian" ]; then
        echo "$name: $what: the tests are those of tests/rust.sh"
    else
        RUSTDOCFLAGS=$(links_quickly "$bin/rustc") step "$what: the tests" tests_of "$what" "$bin" test "${features[@]}"
    fi
    step_by gcc gcc "$what: the tests in C" tests_c gcc debug "$bin"
}

# Downloads the library of a foreign platform, by Debian's name of it, without adding the platform to this machine.
foreign_std() {
    local arch=$1 state=$work/apt-$1
    mkdir -p "$state/lists/partial" "$state/cache/archives/partial" "$work/std-$arch"
    touch "$state/status"
    local apt=(apt-get -qq -o "APT::Architecture=$arch" -o "APT::Architectures=$arch" -o "Dir::State=$state"
        -o "Dir::State::lists=$state/lists" -o "Dir::State::status=$state/status" -o "Dir::Cache=$state/cache"
        -o Acquire::Languages=none -o APT::Sandbox::User=root)
    (cd "$state" && "${apt[@]}" update; "${apt[@]}" download libstd-rust-dev && dpkg-deb -x libstd-rust-dev_*.deb "$work/std-$arch")
}

# Whether a linker finds the C library of its platform, which Debian has in a package that the compiler only recommends.
links() {
    echo 'int main(void) { return 0; }' | "$1" -xc - -o "$work/linked" 2>/dev/null
}

# The tests for a platform, by its name, the compiler's, Debian's, the linker with its package, and what runs a program.
foreign() {
    local what=$1 triple=$2 arch=$3 linker=$4 package=$5 variable
    shift 5
    wanted "$what" || return
    command -v "$linker" >/dev/null || {
        skip "$what" "$linker is missing; on Debian the package $package brings it"
        return
    }
    links "$linker" || {
        skip "$what" "$linker finds no C library; on Debian the package libc6-dev-$arch-cross brings it"
        return
    }
    command -v "$1" >/dev/null || {
        skip "$what" "$1 is missing; on Debian the package qemu-user brings it"
        return
    }
    foreign_std "$arch" >"$work/apt.log" 2>&1 || {
        skip "$what" "apt has no libstd-rust-dev:$arch here: $(tail -n 1 "$work/apt.log")"
        return
    }
    variable=CARGO_TARGET_$(echo "$triple" | tr a-z- A-Z_)
    export "${variable}_LINKER=$linker" "${variable}_RUNNER=$*" "${variable}_RUSTFLAGS=--sysroot $work/std-$arch/usr $quick"
    if [[ $1 == qemu-* ]]; then
        export RANGE_SETS_ONE_IN=$ONE_IN
        what="$what, one case in $ONE_IN"
    fi
    step "$what: the tests" tests_of "$what" "$debian" test "${features[@]}" --lib --tests --target "$triple"
    unset RANGE_SETS_ONE_IN
    step "$what: the tests in C" tests_c "$linker" "$triple/debug" "$debian" --target "$triple" -- "$@"
}

# The tests as WebAssembly. It has no unwinding, so tests that catch a panic are no part of them: those are named.
wasm() {
    local what="wasm32 in node" it
    wanted "$what" || return
    command -v node >/dev/null || {
        skip "$what" "node is missing; on Debian the package nodejs brings it"
        return
    }
    [ -d /usr/lib/rustlib/wasm32-wasi ] || {
        skip "$what" "its std is missing; on Debian the package libstd-rust-dev-wasm32 brings it"
        return
    }
    export CARGO_TARGET_WASM32_WASI_RUNNER="node --no-warnings $PWD/tests/wasm.mjs"
    step "$what: the tests" tests_of "$what" "$debian" test "${features[@]}" --lib --tests --target wasm32-wasi
    for it in $(comm -23 <(names_of) <(names_of --target wasm32-wasi)); do
        skip "$what" "$it catches a panic"
    done
}

words=("$@") features=(--features serde,new_unchecked)
exec 3>&1
for crate in smallvec serde serde_json; do
    ls -d "$packages/$crate"-[0-9]* >/dev/null 2>&1 || {
        echo "$name: SKIPPED: the crate $crate is missing; on Debian the package librust-${crate/_/-}-dev brings it"
        exit 77
    }
done
for bin in "$debian" "$newer"; do
    wanted native || break
    if is_there "$bin/cargo"; then native "$bin"; else skip "the tests by $bin/cargo" "it isn't there"; fi
done
if is_there "$debian/cargo"; then
    foreign "i386, 32 bits" i686-unknown-linux-gnu i386 i686-linux-gnu-gcc gcc-i686-linux-gnu \
        /usr/i686-linux-gnu/lib/ld-linux.so.2 --library-path /usr/i686-linux-gnu/lib
    foreign "aarch64 by qemu" aarch64-unknown-linux-gnu arm64 aarch64-linux-gnu-gcc gcc-aarch64-linux-gnu \
        qemu-aarch64 -L /usr/aarch64-linux-gnu
    foreign "s390x by qemu, with the bytes the other way round" s390x-unknown-linux-gnu s390x s390x-linux-gnu-gcc \
        gcc-s390x-linux-gnu qemu-s390x -L /usr/s390x-linux-gnu
    wasm
else
    for what in i386 aarch64 s390x wasm32; do
        skip "$what" "Debian's cargo is missing; the package cargo brings it"
    done
fi
ended
