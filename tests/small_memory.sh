#!/usr/bin/env bash
# Runs range_calc on two lists of 18,000 numbers under small memory: under each limit of the address space,
# in steps of 16 KiB, from where the system starts the program at all up to where it has enough, and then some.
# Each run writes the line and ends with 0, or writes 'out of memory' and ends with 1; both are seen.
#
#   tests/small_memory.sh             runs the programs that 'rt ci' built
#   tests/small_memory.sh PROGRAM..   runs these
#
# The limit is that of 'ulimit -v'. prlimit sets it, since a shell under such a limit has no memory for the words.
# It ends with 0 if all is well, and with 77 where a tool is missing; else the last line names the limit, and what was seen
# there.
set -u
export LC_ALL=C
top=$(cd "$(dirname "$0")/.." && pwd) || exit 1

# The first limit, the steps and the last limit, in KiB, and how many limits are tried once there is enough memory.
first=256 step=16 last=65536 further=16

# The numbers of a list: from the first to the last by 4. Left and right have none in common, and each is 18,000 long.
left_numbers=(0 4 71996)
right_numbers=(2 4 71998)

fail() {
    echo "small_memory: FAILED: $*"
    exit 1
}

for tool in prlimit seq sort uniq paste cmp mktemp tr wc head tail; do
    command -v "$tool" >/dev/null || {
        echo "small_memory: SKIPPED: the tool $tool is missing"
        exit 77
    }
done

room=$(mktemp -d) || fail "there is no folder for temporary files"
trap 'rm -rf "$room"' EXIT
left=$(seq "${left_numbers[@]}" | paste -sd,)
right=$(seq "${right_numbers[@]}" | paste -sd,)
echo "out of memory" >"$room/no_memory"

# Left is 0..4, 8..12, 16..20 and so on, and right 2..6, 10..14, 18..22. So the union is 0..6, 8..14, 16..22.
{ seq 0 8 71992; seq 6 8 71998; } | sort -n | paste -sd, >"$room/union"
{ seq 2 8 71994; seq 4 8 71996; } | sort -n | paste -sd, >"$room/intersection"
# What is in one of two sets alone changes at each boundary that one of the two lists alone has.
{ seq "${left_numbers[@]}"; seq "${right_numbers[@]}"; } | sort -n | uniq -u | paste -sd, >"$room/symmetric_difference"
echo false >"$room/disjoint"
commands=(union intersection symmetric_difference disjoint)

for list in "$left" "$right"; do
    [ "$(echo "$list" | tr , '\n' | wc -l)" = 18000 ] || fail "a list has not 18,000 numbers"
    [ "${#list}" -lt 131072 ] || fail "a list is longer than an argument may be"
done

# Runs a command under a limit in KiB, or under none, and says in $seen what came of it.
try() {
    local kib=$1 command=$2 limit=unlimited
    [ "$kib" = unlimited ] || limit=$((kib * 1024))
    { prlimit --as="$limit" "$program" "$command" "$left" "$right" </dev/null >"$room/out" 2>"$room/err"; } 2>/dev/null
    status=$?
    if [ $status = 0 ] && cmp -s "$room/out" "$room/$command"; then
        seen=answered
    elif [ $status = 1 ] && cmp -s "$room/out" "$room/no_memory"; then
        seen=refused
    elif [ $status = 127 ] && [ ! -s "$room/out" ] && [ -s "$room/err" ]; then
        # The loader's own status, with its complaint: the program itself ends with 0 to 5.
        seen=not_loaded
    else
        seen=else
    fi
}

# What the last run was, where it was neither of the two answers.
what() {
    local ended="it ended with status $status"
    [ $status -le 128 ] || ended="it died of signal $((status - 128)), or ended with $status"
    echo "$ended, wrote $(wc -c <"$room/out") bytes, '$(head -c 60 "$room/out")', and complained: '$(head -c 200 "$room/err")'"
}

# Runs a command under each limit.
check() {
    local command=$1 kib started='' loader='' refused=0 answered=0 in_a_row=0
    for ((kib = first; kib <= last && in_a_row <= further; kib += step)); do
        try "$kib" "$command"
        case $seen in
        answered | refused)
            [ -n "$loader" ] || fail "$program $command under $kib KiB: the program started under each limit; begin with a smaller one"
            [ -n "$started" ] || started=$kib
            ;;
        not_loaded)
            [ -z "$started" ] || fail "$program $command under $kib KiB: the loader failed, though the program started under $started KiB"
            loader=seen
            ;;
        else)
            # Below the limits at which the loader itself starts, the system ends the process and nothing is written.
            [ -z "$loader" ] && [ ! -s "$room/out" ] || fail "$program $command under $kib KiB: $(what)"
            ;;
        esac
        case $seen in
        answered) answered=$((answered + 1)) in_a_row=$((in_a_row + 1)) ;;
        refused) refused=$((refused + 1)) in_a_row=0 ;;
        esac
        [ $((kib % 1024)) != 0 ] || echo "small_memory: $command under $kib KiB: $seen"
    done
    [ -n "$started" ] || fail "$program $command: the program started under no limit up to $last KiB"
    [ $refused -gt 0 ] || fail "$program $command: no limit from $started KiB on was too small"
    [ $in_a_row -gt $further ] || fail "$program $command: there was not enough memory under $last KiB"
    try unlimited "$command"
    [ $seen = answered ] || fail "$program $command under no limit: $(what)"
    echo "small_memory: $command: starts under $started KiB; out of memory $refused times; answered $answered times, the last time under $((kib - step)) KiB"
}

programs=("$@")
if [ $# = 0 ]; then
    built=$top/crates/range_calc/out/range_calc
    programs=("$built")
    [ ! -f "$built.by-rattle" ] || programs+=("$built.by-rattle")
fi
for program in "${programs[@]}"; do
    [ -f "$program" ] && [ -x "$program" ] || fail "the program $program is missing"
    program=$(cd "$(dirname "$program")" && pwd)/$(basename "$program")
    echo "small_memory: $program"
    for command in "${commands[@]}"; do
        check "$command"
    done
done
echo "small_memory: ok"
