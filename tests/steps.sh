# What the scripts of the languages share: steps that are named, timed and counted. It is read, and not run.

passed=0 failed=0 skipped=0
name=$(basename "$0" .sh)

# Has cargo build what is only tested, by a third of the work: without debug information, without what a next build would
# use, and without inlining.
quick="-C no-prepopulate-passes"
builds_quickly() {
    export CARGO_INCREMENTAL=0 CARGO_PROFILE_DEV_DEBUG=0 CARGO_PROFILE_TEST_DEBUG=0 CARGO_BUILD_RUSTFLAGS=$quick
}

# What has a rustdoc link each line of the documentation, which is a program, to the std of a rustc and not copy it.
links_quickly() {
    echo "-C prefer-dynamic -C link-arg=-Wl,-rpath,$("$1" --print target-libdir)"
}

# Copies the Rust crate to rust/ of a folder, and the tables that its tests read beside it, as they stand in the repository.
copies_rust() {
    local top
    top=$(dirname "$(dirname "$(realpath "${BASH_SOURCE[0]}")")")
    mkdir -p "$1/rust" "$1/crates/range_rows" && cp -r "$top/crates/range_rows/data" "$1/crates/range_rows" &&
        tar ch -C "$top/rust" --exclude=./target --exclude=./Cargo.lock . | tar x -C "$1/rust"
}

# The processor time of all that has ended, in hundredths of a second, where the system says so.
spent() {
    local words=(0 0 0 0 0 0 0 0 0 0 0 0 0 0 0 0 0)
    [ ! -r "/proc/$$/stat" ] || read -ra words <"/proc/$$/stat"
    echo $((words[15] + words[16]))
}

# Runs a step, by its name and its command. Says how long it took, and shows what a failing one prints.
step() {
    local what=$1 began=$SECONDS before said status=0
    before=$(spent)
    shift
    said=$("$@" 2>&1 </dev/null) || status=$?
    if [ "$status" = 0 ]; then
        passed=$((passed + 1))
    else
        failed=$((failed + 1))
        echo "$name: FAILED: $what"
        echo "$said" | tail -n 40
    fi
    echo "$name: $((SECONDS - began)) s, $((($(spent) - before) / 100)) s of processors: $what"
}

# Runs a command for a number of seconds at most, if there is a command that ends it. A Python with
# -X faulthandler then says where it was.
within() {
    local most=$1 status=0
    shift
    command -v timeout >/dev/null || {
        "$@"
        return
    }
    timeout --signal=ABRT --kill-after=10 "$most" "$@" || status=$?
    [ "$status" != 124 ] && [ "$status" != 137 ] || echo "it hadn't ended after $most s"
    return "$status"
}

# Whether a command is there. Rust's are shims where rustup put them, which may have nothing behind.
is_there() {
    command -v "$1" >/dev/null || return
    [[ ${1##*/} != cargo* && ${1##*/} != rust* ]] || "$1" --version >/dev/null 2>&1
}

# Runs a step that wants a tool, by the tool, its Debian package, and the step. Where it is missing, the step is skipped.
step_by() {
    local tool=$1 package=$2
    shift 2
    if is_there "$tool"; then
        step "$@"
    else
        skipped=$((skipped + 1))
        echo "$name: SKIPPED: $1: $tool is missing; on Debian the package $package brings it"
    fi
}

# Ends the script where a tool is missing without which nothing can run.
needs() {
    is_there "$1" || {
        echo "$name: SKIPPED: $1 is missing; on Debian the package $2 brings it"
        exit 77
    }
}

# Ends the script with what was counted.
ended() {
    echo "$passed passed, $failed failed, $skipped skipped"
    [ "$failed" = 0 ]
    exit
}
