#!/bin/sh
# Measures exploring records from an unknown state beside the sequential step, over the same records
# in the same run: scripts of one group, whose segments begin anew after they go over a limit of
# paths. Prints the processor time of both in nanoseconds a record, the least of three runs, their
# ratio, and how many segments and paths the records came to. A script's rows with more and more
# records show whether the time grows with the group's list.
# It is proved that both ways come to the same outcome, which is printed. With --instructions it
# also counts the instructions of a record in both ways together, which don't depend on what else
# the machine does.
# Needs rt, to build the program, and for --instructions valgrind (Debian's package).
# Usage: bench/explore.sh [--instructions]
set -eu

here=$(CDPATH='' cd -P "$(dirname "$0")" && pwd)
# shellcheck source=bench/setup.sh
. "$here/setup.sh"
find_sym_bench

# The least nanoseconds of a step and of a record explored, of some runs.
least() {
    awk -v records="$1" '
        { step = $2 / records; explore = $4 / records }
        NR == 1 || step < least_step { least_step = step }
        NR == 1 || explore < least_explore { least_explore = explore }
        END { printf "%8.1f %8.1f %6.1f", least_step, least_explore, least_explore / least_step }
    ' "$2"
}

# The instructions of a run.
count() {
    valgrind --tool=callgrind --callgrind-out-file=/dev/null "$sym_bench" "$@" 2>&1 >/dev/null |
        awk '/Collected/ { print $4 }'
}

measure() {
    script=$1 thousands=$2 limit=$3
    : >"$work/times"
    turn=1
    while [ "$turn" -le "$turns" ]; do
        "$sym_bench" explore "$script" "$thousands" "$limit" >"$work/found" 2>>"$work/times" ||
            stop "$script failed"
        turn=$((turn + 1))
    done
    printf '%-9s %9d %5d %s   %s\n' "$script" "$((thousands * 1000))" "$limit" \
        "$(least "$((thousands * 1000))" "$work/times")" "$(cut -d: -f2- "$work/found")"
}

printf '%-9s %9s %5s %8s %8s %6s   %s\n' script records limit "step ns" explore ratio found
for thousands in 1 10 100 1000; do
    measure sessions "$thousands" 16
done
measure modes 1000 16
measure counter 1000 16
for thousands in 1 10 100 1000; do
    measure mirror "$thousands" 16
done
# With such a limit every second record begins a segment.
measure sessions 100 1
measure counter 100 1

[ "${1:-}" = --instructions ] || exit 0
needs valgrind
echo "instructions of a record, explored and stepped"
for script in sessions modes counter mirror; do
    few=$(count explore $script 10 16)
    many=$(count explore $script 20 16)
    printf '%-9s %9d\n' $script "$(((many - few) / 10000))"
done
