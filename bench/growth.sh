#!/bin/sh
# Measures how the cost of `symple run` grows: the sessions of logs of 1, 4, 16 and 64 million
# records, in files of 64 MiB, with 10 to 1,000,000 users, with 1, 2 and 4 workers; and the
# sequential pass of the same crates, sym_bench's, over a log that fits one file (256 MiB). The
# report is the same with each number of workers.
# The ways take turns, three of them (TURNS sets another number). Prints a line for each size of
# log, number of users and way: the median of the wall seconds, the median of its ratio to that of
# one worker in the same turn, and the most memory in MiB. Of the sequential pass it is the
# processor time of the pass over a log in memory, and the memory includes that log.
# `bench/growth.py` draws these lines.
# A log of 64 million records takes 2 GB under TMPDIR while it is measured.
# Needs rt, to build the programs, and mawk and GNU date, split and time (Debian's packages mawk,
# coreutils and time).
# Usage: bench/growth.sh ["RECORDS.." ["USERS.."]] >bench/growth.txt
set -eu

here=$(CDPATH='' cd -P "$(dirname "$0")" && pwd)
# shellcheck source=bench/setup.sh
. "$here/setup.sh"
needs mawk "$timer"
find_symple
find_sym_bench

sizes=${1:-1000000 4000000 16000000 64000000}
user_counts=${2:-10 100 1000 10000 100000 1000000}
header=ts,user
file_bytes=67108864
most_bytes=268435456
script=$here/sessions.symple

# Writes the log of so many records of so many users: in one file, and in files of 64 MiB.
write_log() {
    rm -f "$work"/log*.csv
    mawk -v records="$1" -v users="$2" -f "$here/visits.awk" >"$work/log.csv"
    tail -n +2 "$work/log.csv" |
        split -C $((file_bytes - ${#header} - 1)) -a 3 --additional-suffix=.csv \
            --filter="{ echo $header; cat; } >\"\$FILE\"" - "$work/log-"
}

# run WAY: one of the programs over the log.
run() {
    case $1 in
        pass) set -- "$sym_bench" file fold "$script" "$work/log.csv" 16 ;;
        *) set -- "$symple" run --workers "$1" "$script" "$work"/log-*.csv ;;
    esac
    "$timer" -o "$work/used" -f '%M' "$@" >"$work/report" 2>"$work/said"
}

# measure WAY: runs it, compares the report, and notes its microseconds and its kilobytes.
measure() {
    begin=$(date +%s%N)
    run "$1" || stop "$1 failed over $size records of $users users"
    wall=$((($(date +%s%N) - begin) / 1000))
    case $1 in
        pass) wall=$(($(cut -d' ' -f2 "$work/said") / 1000)) ;;
        1) cp "$work/report" "$work/expected" ;;
        *) cmp -s "$work/report" "$work/expected" || stop "$1 workers write another report" ;;
    esac
    echo "$1 $turn $wall $(tail -n 1 "$work/used")" >>"$work/turns"
}

# Prints the lines of what was measured over one log.
summary() {
    mawk -v ways="$ways" -v turns="$turns" -v at="$size $users" '
        { wall[$1, $2] = $3 }
        $4 > memory[$1] { memory[$1] = $4 }
        function median(values,    i, j, value) {
            for (i = 2; i <= turns; i++) {
                value = values[i]
                for (j = i - 1; j >= 1 && values[j] > value; j--)
                    values[j + 1] = values[j]
                values[j + 1] = value
            }
            return (values[int((turns + 1) / 2)] + values[int(turns / 2) + 1]) / 2
        }
        END {
            count = split(ways, names, " ")
            for (i = 1; i <= count; i++) {
                way = names[i]
                for (turn = 1; turn <= turns; turn++) {
                    seconds[turn] = wall[way, turn] / 1000000
                    ratios[turn] = wall[way, turn] / wall["1", turn]
                }
                printf "%s %s %.3f %.2f %.0f\n", at, way, median(seconds), median(ratios), \
                    memory[way] / 1024
            }
        }
    ' "$work/turns"
}

echo "# $turns turns, processors: $(nproc); in way, pass is the sequential pass, else the workers"
echo "# records users way seconds ratio MiB"
for size in $sizes; do
    for users in $user_counts; do
        write_log "$size" "$users"
        ways="1 2 4"
        if [ "$(wc -c <"$work/log.csv")" -le $most_bytes ]; then ways="pass $ways"; fi
        : >"$work/turns"
        turn=1
        while [ "$turn" -le "$turns" ]; do
            for way in $ways; do
                measure "$way"
            done
            turn=$((turn + 1))
        done
        summary
    done
done
