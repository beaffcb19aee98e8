#!/usr/bin/env bash
# Tests the script that writes the proved crates as plain Rust, whether what is committed is what it writes, and whether that is
# the sources less their contracts.
#
#   tests/plain_rust.sh
#
# Its last line is 'N passed, M failed, K skipped'. It ends with 77 where python3 is missing.
set -u
export LC_ALL=C.UTF-8
cd "$(dirname "$0")/.." || exit 1
. tests/steps.sh

needs python3 python3
work=$(mktemp -d) || exit 1
trap 'rm -rf "$work"' EXIT

# Unsafe code is forbidden in each crate but range_c, which has it where its exports make slices of what C passes.
is_safe() {
    local root=rust/src/generated/mod.rs crate=rust/src/generated/range_c.rs exports=$work/exports
    sed -n '/^pub(crate) mod generated {$/,/^}$/p' $crate >"$exports"
    [ "$(grep -A 1 -Fx '#[forbid(unsafe_code)]' $root | grep -c '^pub mod')" = "$(grep '^pub mod' $root | grep -vc ' range_c;')" ] &&
        ! grep -rl unsafe rust/src/generated | grep -vFx -e $root -e $crate && grep -q unsafe "$exports" &&
        [ "$(grep -c unsafe $crate)" = "$(grep -c unsafe "$exports")" ] &&
        ! grep unsafe "$exports" | grep -vE '^ {8}(pub unsafe extern "C" fn .*|    let \w+ = unsafe \{ (items|room)_at\(\w+, \w+_len\) \};)$'
}

# The check names a generated file that was edited, and fails.
names_an_edit() {
    mkdir -p "$work/rust/src" && cp -r tools "$work/tools" && cp -r rust/src/generated "$work/rust/src" && ln -s "$PWD/crates" "$work/crates" &&
        "$work/tools/plain-rust" --check && echo 'pub fn edited() {}' >>"$work/rust/src/generated/mod.rs" &&
        ! "$work/tools/plain-rust" --check 2>"$work/said" && grep -qx 'plain-rust: rust/src/generated/mod.rs differs' "$work/said"
}

step "the tests of the script" tests/test_plain_rust.py
step "rust/src/generated is what the script writes" tools/plain-rust --check
step "an edit is named" names_an_edit
step "each generated file is its source, by a check that shares nothing with the script" tests/generated.py
step "that check sees each change that is planted" tests/test_generated.py
step "what is generated has unsafe code where C passes slices alone" is_safe
ended
