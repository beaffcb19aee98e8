#!/usr/bin/env bash
# Proves and builds the static library for C, compares it with the one in dist/, and runs the tests in C over what was built.
# The libraries below it are those that 'rt ci' built, if it did, and else are proved too.
#
#   tests/dist.sh
#
# Its last line is 'N passed, M failed, K skipped'. It ends with 77 where gcc or the kit is missing.
set -u
export LC_ALL=C
cd "$(dirname "$0")/.." || exit 1
. tests/steps.sh

needs gcc gcc
needs ar binutils
needs python3 python3
command -v rt >/dev/null || {
    echo "dist: SKIPPED: rt, the command of the Rattle kit, is missing"
    exit 77
}
work=$(mktemp -d) || exit 1
trap 'rm -rf "$work"' EXIT

builds() {
    python3 tests/built.py range_c "$work/proved.a" && dist/make "$work" "$work/proved.a"
}

# The proved object, whatever made the rest.
is_the_proved_object() {
    cmp <(head -n 1 "$work/PROVED") <(head -n 1 dist/PROVED)
}

is_in_dist() {
    local file
    for file in librange_set.a SHA256SUMS; do
        cmp "$work/$file" "dist/$file" || return
    done
}

tests_pass() {
    gcc -std=c99 -O2 -g -Wall -Wextra -Wpedantic -Werror -Ic/include c/tests/test.c "$work/librange_set.a" -o "$work/test" && "$work/test"
}

# On a processor without SSE4.2 a program says so, and doesn't start.
says_what_processor_it_needs() {
    gcc -std=c99 -O2 -Ic/include c/examples/download.c "$work/librange_set.a" -o "$work/example" && ! qemu-x86_64 -cpu core2duo "$work/example" \
        >"$work/said" 2>&1 && [ "$(cat "$work/said")" = "$work/example: CPU ISA level is lower than required" ]
}

step "dist/make builds the library" builds
step "dist/ has its proved object" is_the_proved_object
if cmp -s "$work/PROVED" dist/PROVED; then
    step "dist/ has its files, byte for byte" is_in_dist
else
    skipped=$((skipped + 1))
    echo "$name: SKIPPED: dist/ was linked by other tools than those here: $(tail -n +2 dist/PROVED | paste -sd ';')"
fi
step "the tests over it" tests_pass
step_by qemu-x86_64 qemu-user "on an older processor" says_what_processor_it_needs
ended
