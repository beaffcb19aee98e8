#!/usr/bin/env bash
# Tests the page: that it loads what web/build makes, asks nothing of a network, and shows in
# Chromium what it should.
#
# The interpreter is PYTHON, or else Debian's, for which Debian packages Selenium. The last line is
# 'N passed, M failed, K skipped'.
set -u
export LC_ALL=C.UTF-8
cd "$(dirname "$0")/.." || exit 1
. tests/steps.sh

work=$(mktemp -d) || exit 1
trap 'rm -rf "$work"' EXIT
python=${PYTHON:-/usr/bin/python3}

skip() {
    skipped=$((skipped + 1))
    echo "$name: SKIPPED: $1: $2"
}

# Whether the built files are those of which the checksums were taken.
as_listed() {
    (cd web/built && sha256sum --check --strict --quiet SHA256SUMS)
}

# Whether what is built is less than 315 KB.
small() {
    [ "$(cat web/built/*.js | wc -c)" -lt 315000 ]
}

# Whether a page from disk can do without all that the scripts ask for: no module, no request, no
# other host.
needs_no_server() {
    ! grep -nE 'type="module"|^ *(import|export) |fetch\(|XMLHttpRequest|(src|href)="(https?:)?//' web/index.html web/js/*.js
}

# Prints what a command said that has already run, and has its status.
shows() {
    echo "$2"
    return "$1"
}

# What a file says of that by which it was made.
made_by() {
    head -n 2 "$1" | grep -oE 'with rustc [0-9.]+|version: "[0-9.]+"'
}

# Compares a file that was just built with the one that lies there. Another compiler writes other
# bytes for the same source, and another Unicode has other classes.
same_as_built() {
    local file=$1 here there
    here=$(made_by "$work/built/$file")
    there=$(made_by "web/built/$file")
    if [ "$here" = "$there" ]; then
        step "$file, built anew" cmp "web/built/$file" "$work/built/$file"
    else
        skip "$file, built anew" "it was made $there, and here it is made $here, which gives other bytes"
    fi
}

step "the checksums" as_listed
step "the size" small
step "no server" needs_no_server

said=$(web/build "$work/built" 2>&1)
status=$?
if [ "$status" = 77 ]; then
    skip "the files, built anew" "${said#*SKIPPED: }"
else
    step "web/build" shows "$status" "$said"
    [ "$status" != 0 ] || for file in library.js unicode.js; do same_as_built "$file"; done
fi

said=$("$python" tests/web.py 2>&1)
status=$?
echo "$said" | grep -E '^web: '
if [ "$status" = 77 ]; then
    skipped=$((skipped + 1))
elif [[ ${said##*$'\n'} =~ ^([0-9]+)\ passed,\ ([0-9]+)\ failed,\ ([0-9]+)\ skipped$ ]]; then
    passed=$((passed + BASH_REMATCH[1])) failed=$((failed + BASH_REMATCH[2])) skipped=$((skipped + BASH_REMATCH[3]))
else
    failed=$((failed + 1))
    echo "$name: FAILED: tests/web.py ended with $status"
    echo "$said" | tail -n 20
fi
ended
