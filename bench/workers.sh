#!/bin/sh
# Measures `symple run` with 1, 2 and 4 workers beside the sequential pass of the same crates, mawk,
# gawk and a program written by hand in Rust. A workload is SCRIPT-USERS: a script of this directory
# and how many users its log has; of a skewed log half of the records are of ten users, and half of
# 100,000 others. All come to the same groups, and symple writes the same report in each way.
# The programs take turns, nine of them (TURNS sets another number), since machines change their
# speed within minutes; mawk, gawk and Rust run in the first three alone (PEER_TURNS sets another
# number). A ratio is taken turn by turn, to the sequential pass of that turn, and its median is
# printed, of several workers with that of the processor time in brackets. What the
# machine gives at that time is in the column "4 at once": four runs with one worker that are begun
# together, to one such run. The last column has the size of the log, and the median of the memory
# with 1 and 4 workers.
# Of the sequential pass, sym_bench's, it is the processor time of the pass over a log in memory. Of
# the others it is the wall time of the whole program, which reads the log from a file.
# Needs rt, to build the programs, and rustc, gawk, mawk and GNU date and time (Debian's packages
# rustc, gawk, mawk, coreutils and time).
# Usage: bench/workers.sh [RECORDS [WORKLOAD..]]
set -eu

TURNS=${TURNS:-9}
here=$(CDPATH='' cd -P "$(dirname "$0")" && pwd)
# shellcheck source=bench/setup.sh
. "$here/setup.sh"
needs rustc gawk mawk "$timer"
find_symple
find_sym_bench

records=${1:-4000000}
[ $# -eq 0 ] || shift
[ $# -gt 0 ] || set -- sessions-10 funnel-1000 list-10 shop-100 sessions-1000 sessions-10000 \
    sessions-98304 count-10 sessions-skewed
workloads=$*
limit=16
most_bytes=268435456
ways="sequential 1 2 4 together"
peers="mawk gawk rust"
peer_turns=${PEER_TURNS:-3}
rustc -O -o "$work/runs" "$here/runs.rs"

# write_log SCRIPT USERS
write_log() {
    users=$2 acts=0 skewed=0
    case $1 in funnel | shop) acts=1 ;; esac
    if [ "$2" = skewed ]; then users=0 skewed=1; fi
    mawk -v records="$records" -v users="$users" -v acts=$acts -v skewed=$skewed \
        -f "$here/visits.awk" >"$log"
}

# What symple's report says of the groups, as the other programs write it: how many there are, and
# the first and the last one's cells.
groups_of() {
    mawk -F ' [|] ' -v script="$1" '
        NR == 1 || $0 == "--" { next }
        !first { first = $0 }
        { groups++; last = $0 }
        function cells(row, parts) {
            split(row, parts, FS)
            if (script == "sessions")
                return "at (1) " parts[3] " [" parts[2] "]"
            if (script == "count")
                return "at " parts[2]
            if (script == "funnel")
                return "at " (parts[2] == "carted") " [" parts[3] "]"
            if (script == "shop")
                return "at (1) (1) " (parts[5] == "carted" ? 1 : 2 * (parts[5] == "paid")) \
                    " " (parts[8] == "yes") " " parts[3] " " parts[4] \
                    " [" parts[2] "] [" parts[6] "]"
            return "at [" parts[1] "]"
        }
        END { print groups " groups; first " cells(first) "; last " cells(last) }
    '
}

# timed COMMAND..: runs it; what it took is written to $work/used: the processor seconds of the
# program and of the system, and kilobytes.
timed() {
    "$timer" -o "$work/used" -f '%U %S %M' "$@" >"$work/found" 2>"$work/said"
}

# run WAY SCRIPT: one of the programs over the log.
run() {
    case $1 in
        sequential) timed "$sym_bench" file fold "$here/$2.symple" "$log" $limit ;;
        mawk | gawk) timed "$1" -v workload="$2" -f "$here/runs.awk" "$log" ;;
        rust) timed "$work/runs" "$2" "$log" ;;
        together) run_together "$2" ;;
        *) timed "$symple" run --max-bytes $most_bytes --workers "$1" "$here/$2.symple" "$log" ;;
    esac
}

# Four runs with one worker at once.
run_together() {
    pids=
    for number in 1 2 3; do
        "$symple" run --max-bytes $most_bytes --workers 1 "$here/$1.symple" "$log" \
            >"$work/found-$number" &
        pids="$pids $!"
    done
    run 1 "$1" || return
    for pid in $pids; do
        wait "$pid" || return
    done
}

# measure WAY SCRIPT: runs it, compares what it found, and notes its microseconds, its processor
# microseconds and its kilobytes.
measure() {
    begin=$(date +%s%N)
    run "$1" "$2" || stop "$1 of $workload failed"
    wall=$((($(date +%s%N) - begin) / 1000))
    case $1 in
        sequential)
            wall=$(($(cut -d' ' -f2 "$work/said") / 1000))
            cp "$work/found" "$work/expected"
            ;;
        [0-9]* | together)
            if [ "$1" = 1 ]; then cp "$work/found" "$work/report"; fi
            cmp -s "$work/found" "$work/report" || stop "$1 writes another report of $workload"
            groups_of "$2" <"$work/report" >"$work/found"
            ;;
    esac
    cmp -s "$work/found" "$work/expected" || stop "$1 found other groups of $workload"
    tail -n 1 "$work/used" | mawk -v at="$workload $1 $turn" -v wall=$wall -v way="$1" '{
        print at, wall, way == "sequential" ? wall : int(($1 + $2) * 1000000), $3
    }' >>"$work/turns"
}

log=$work/log.csv
for workload in $workloads; do
    write_log "${workload%-*}" "${workload##*-}"
    echo "$workload log 0 0 0 $(($(wc -c <"$log") / 1024))" >>"$work/turns"
    turn=1
    while [ "$turn" -le "$turns" ]; do
        these=$ways
        [ "$turn" -gt "$peer_turns" ] || these="$ways $peers"
        for way in $these; do
            measure "$way" "${workload%-*}"
        done
        turn=$((turn + 1))
    done
done

echo "$records records; $turns turns; processors: $(nproc)"
echo
mawk -v workloads="$workloads" '
    { wall[$1, $2, $3] = $4; busy[$1, $2, $3] = $5; memory[$1, $2, $3] = $6 }
    $2 == "log" { log_of[$1] = $6 }

    # The median of so many values.
    function median(values, count,    i, j, value) {
        for (i = 2; i <= count; i++) {
            value = values[i]
            for (j = i - 1; j >= 1 && values[j] > value; j--)
                values[j + 1] = values[j]
            values[j + 1] = value
        }
        return (values[int((count + 1) / 2)] + values[int(count / 2) + 1]) / 2
    }
    function ratio(all, workload, way, base,    turn, values) {
        for (turn = 1; (workload, way, turn) in all; turn++)
            values[turn] = all[workload, way, turn] / wall[workload, base, turn]
        return sprintf("%.2f", median(values, turn - 1))
    }
    function of(all, workload, way, unit, digits,    turn, values) {
        for (turn = 1; (workload, way, turn) in all; turn++)
            values[turn] = all[workload, way, turn] / unit
        return sprintf("%." digits "f", median(values, turn - 1))
    }

    END {
        print "| Workload | Pass, s | 1 worker | 2 | 4 | 4 at once | Rust | mawk | gawk" \
            " | MiB: log, 1, 4 |"
        print "|---|---|---|---|---|---|---|---|---|---|"
        count = split(workloads, names, " ")
        for (i = 1; i <= count; i++) {
            name = names[i]
            printf "| %s | %s | %s |", name, of(wall, name, "sequential", 1000000, 2), \
                ratio(wall, name, "1", "sequential")
            for (way = 2; way <= 4; way += 2)
                printf " %s (%s) |", ratio(wall, name, way, "sequential"), \
                    ratio(busy, name, way, "sequential")
            printf " %s | %s | %s | %s |", ratio(wall, name, "together", "1"), \
                ratio(wall, name, "rust", "sequential"), ratio(wall, name, "mawk", "sequential"), \
                ratio(wall, name, "gawk", "sequential")
            printf " %.0f, %s, %s |\n", log_of[name] / 1024, of(memory, name, "1", 1024, 0), \
                of(memory, name, "4", 1024, 0)
        }
    }
' "$work/turns"
