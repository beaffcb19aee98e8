#!/usr/bin/env bash
# Runs range_track with its usual limit, in little memory, with an input that fails, and over a pipe that stays
# open.
#
#   tests/range_track.sh              runs the programs that 'rt ci' built
#   tests/range_track.sh PROGRAM..    runs these
#
# It ends with 0 if all is well, and with 77 where a tool is missing; else the last line says what was seen.
set -u
export LC_ALL=C

fail() {
    echo "range_track: FAILED: $*"
    exit 1
}

for tool in timeout prlimit seq sed sort uniq; do
    command -v "$tool" >/dev/null || {
        echo "range_track: SKIPPED: the tool $tool is missing"
        exit 77
    }
done
if [ $# = 0 ]; then
    cd "$(dirname "$0")/../crates/range_track/out" || fail "'rt ci' has built no range_track"
    set -- ./range_track
    [ ! -f range_track.by-rattle ] || set -- "$@" ./range_track.by-rattle
fi

# Writes a line into the open pipe, which is to be answered so before another is written.
line() {
    local answer
    echo "$1" >&"${served[1]}" || fail "the pipe takes no line"
    read -r -t 20 answer <&"${served[0]}" || fail "'$1' isn't answered while the pipe stays open"
    [ "$answer" = "$2" ] || fail "'$1' over a pipe: $answer"
}

for program in "$@"; do
    [ -x "$program" ] || fail "there is no program $program"
    # Without an argument the limit is 1,000,000: 500,000 ranges are taken, and not one more.
    seen=$(seq 1 500001 | sed 's/.*/+ &0 &5/' | timeout 100 "$program" | sort | uniq -c | tr -s ' ')
    [ "$seen" = " 500000 ok"$'\n'" 1 too many 1000002" ] || fail "$program without an argument: $seen"

    # In an address space of a given number of KiB: 20,000 ranges and what isn't there. A range that finds no memory is answered so, and the
    # next line is read; what isn't there takes none. From where the system can't load the program on, up to where there is enough.
    refused=0 answered=0
    for kib in $(seq 1024 32 4096); do
        seen=$({ seq 1 20000 | sed 's/.*/+ &0 &5/'; echo 'missing 200010'; } 2>/dev/null \
            | { timeout 20 prlimit --as=$((kib * 1024)) "$program" 2>/dev/null; echo "ended with $?"; } \
            | sed 's/^0,10,15,.*,200005,200010$/whole list/; s/^0,10,.*,200010$/list of some/' | sort | uniq -c | tr -s ' \n' ' ')
        if [[ $seen =~ ^" 1 ended with 0 20000 ok 1 whole list "$ ]]; then
            answered=$((answered + 1))
        elif [[ $seen =~ ^" 1 ended with 0 1 list of some "([0-9]+)" ok "([0-9]+)" out of memory "$ ]] && ((BASH_REMATCH[1] + BASH_REMATCH[2] == 20000)); then
            refused=$((refused + 1))
        elif [ "$seen" != " 1 ended with 1 1 out of memory " ] && [ "$seen" != " 1 ended with 127 " ]; then
            fail "$program in $kib KiB: $seen"
        fi
    done
    ((refused > 0 && answered > 0)) || fail "$program in little memory: ranges refused $refused times, all answered $answered times"

    timeout 20 "$program" 4 </ >/dev/null 2>&1
    status=$?
    [ $status = 5 ] || fail "$program on an input that fails ended with $status"

    coproc served { exec timeout 60 "$program" 4 2>/dev/null; }
    pid=$served_PID
    line '+ 0 10' ok
    line '? 0 11' false
    line 'bad' 'bad line'
    line 'ranges' '0..10'
    exec {served[1]}>&-
    wait "$pid"
    status=$?
    [ $status = 0 ] || fail "$program ended with $status when its pipe was closed"
    echo "range_track: $program: the usual limit, little memory, 5 where its input fails, and each line answered at once"
done
