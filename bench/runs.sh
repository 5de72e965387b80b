#!/bin/sh
# Measures a pass by runs beside the sequential pass of the same crates, over five workloads: the
# sessions of 10 and of 98,304 users, a count of 10 users, a funnel of 1,000 users, and one group
# with a list of every record; on one thread, in chunks of 3,072 rows and rounds of 64 chunks, with
# at most 16 pairs of paths. Beside them bare rows of `csv`, gawk, mawk, and a program written by
# hand in Rust. All come to the same groups, and each runs three times, in turn. Prints the least
# time of each in seconds, and its ratio to the sequential pass's.
# Of sym_bench it is the processor time of the pass over a log in memory; of the others the wall
# time of the whole program, which reads the same log from a file.
# With --instructions it prints, in place of all that, the instructions of a record by valgrind.
# Needs rt, to build the program, and rustc, gawk, mawk and GNU date, or else valgrind (Debian's
# packages rustc, gawk, mawk, coreutils and valgrind).
# Usage: bench/runs.sh [--instructions] [RECORDS]
set -eu

here=$(CDPATH='' cd -P "$(dirname "$0")" && pwd)
# shellcheck source=bench/setup.sh
. "$here/setup.sh"
find_sym_bench

limit=16
workloads="sessions users count funnel list"

# The instructions of the pass of a workload over so many records, and over none.
count() {
    valgrind --tool=callgrind --callgrind-out-file=/dev/null \
        "$sym_bench" pass "$1" "$2" "$3" $limit 2>&1 >/dev/null | awk '/Collected/ { print $4 }'
}

# What a record takes: the way's instructions less those of making the log.
of_record() {
    echo $((($(count "$1" "$2" "$records") - $(count log "$2" "$records")) / records))
}

if [ "${1:-}" = --instructions ]; then
    records=${2:-65536}
    needs valgrind
    printf '%-9s %7s %7s %7s %6s\n' workload rows fold runs ratio
    for workload in $workloads; do
        rows=$(of_record rows "$workload")
        fold=$(of_record fold "$workload")
        runs=$(of_record runs "$workload")
        ratio=$(awk -v fold="$fold" -v runs="$runs" 'BEGIN { printf "%.2f", runs / fold }')
        printf '%-9s %7d %7d %7d %6s\n' "$workload" "$rows" "$fold" "$runs" "$ratio"
    done
    exit 0
fi

records=${1:-4000000}
needs rustc gawk mawk
rustc -O -o "$work/runs" "$here/runs.rs"

# The users of a workload's log, and whether it has actions.
users_of() {
    case $1 in
        users) echo 98304 ;;
        funnel) echo 1000 ;;
        *) echo 10 ;;
    esac
}

# What a workload computes, for the programs that read its log from a file.
name_of() {
    if [ "$1" = users ]; then echo sessions; else echo "$1"; fi
}

# note PROGRAM WORKLOAD NANOSECONDS: what it found has to be what the sequential pass did.
note() {
    if [ "$1" != rows ]; then
        if [ "$1" = fold ]; then cp "$work/found" "$work/expected"; fi
        cmp -s "$work/found" "$work/expected" || stop "$1 found other groups of $2"
    fi
    echo "$1 $2 $3" >>"$work/times"
}

for workload in $workloads; do
    acts=0
    if [ "$workload" = funnel ]; then acts=1; fi
    log=$work/log.csv
    mawk -v records="$records" -v users="$(users_of "$workload")" -v acts=$acts \
        -f "$here/visits.awk" >"$log"
    turn=1
    while [ "$turn" -le "$turns" ]; do
        for way in fold rows runs; do
            "$sym_bench" pass $way "$workload" "$records" $limit >"$work/found" 2>"$work/took" ||
                stop "$way of $workload failed"
            note $way "$workload" "$(cut -d' ' -f2 "$work/took")"
        done
        for peer in gawk mawk rust; do
            begin=$(date +%s%N)
            if [ $peer = rust ]; then
                "$work/runs" "$(name_of "$workload")" "$log" >"$work/found"
            else
                $peer -v workload="$(name_of "$workload")" -f "$here/runs.awk" "$log" >"$work/found"
            fi
            note $peer "$workload" $(($(date +%s%N) - begin))
        done
        turn=$((turn + 1))
    done
done

# shellcheck disable=SC2016 # what is quoted is awk's
awk -v workloads="$workloads" '
    { at = $2 " " $1 }
    !(at in least) || $3 < least[at] { least[at] = $3 }
    function cell(workload, name) {
        return sprintf(" %.2f | %.2f |", least[workload " " name] / 1e9, \
            least[workload " " name] / least[workload " fold"])
    }
    END {
        print "| Workload | sequential, s | runs, s | ratio | rows, s | ratio | rust, s | ratio" \
            " | mawk, s | ratio | gawk, s | ratio |"
        print "|---|---|---|---|---|---|---|---|---|---|---|---|"
        count = split(workloads, names, " ")
        for (i = 1; i <= count; i++)
            printf "| %s | %.2f |%s%s%s%s%s\n", names[i], least[names[i] " fold"] / 1e9, \
                cell(names[i], "runs"), cell(names[i], "rows"), cell(names[i], "rust"), \
                cell(names[i], "mawk"), cell(names[i], "gawk")
    }
' "$work/times"
