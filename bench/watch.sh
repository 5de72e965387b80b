#!/bin/sh
# Measures `symple run --watch` beside the same run without it: the sessions of 10 and of 98,304
# users, and those of 98,304 users in chunks of 16,384 records too, so in five times fewer
# rounds. Each runs three times, in turn (TURNS sets another number). Prints the least wall time of
# each in seconds, its ratio, the memory of that run and how many partials it told. Both write the
# same report.
# Needs rt, to build the program, and mawk and GNU time (Debian's packages mawk and time).
# Usage: bench/watch.sh [RECORDS]
set -eu

here=$(CDPATH='' cd -P "$(dirname "$0")" && pwd)
# shellcheck source=bench/setup.sh
. "$here/setup.sh"
needs mawk "$timer"
find_symple

records=${1:-4000000}
script=$here/sessions.symple

# turn NAME ARGUMENTS..: one run with these arguments, its time and memory added to NAME.turns.
turn() {
    name=$work/$1
    shift
    "$timer" -f '%e %M' -a -o "$name.turns" "$symple" run --max-bytes 268435456 "$@" \
        "$script" "$log" >"$name.out" 2>"$name.err"
}

# row USERS CHUNK: a line with both times, their ratio, the memory of both and the partials.
row() {
    sort -n "$work/plain.turns" | head -n 1 >"$work/plain.least"
    sort -n "$work/watch.turns" | head -n 1 >"$work/watch.least"
    partials=$(wc -l <"$work/watch.err")
    paste -d ' ' "$work/watch.least" "$work/plain.least" |
        mawk -v users="$1" -v chunk="$2" -v partials="$partials" '{
            printf "%6d users, chunks of %5d  --watch %6.2f s %4d MiB  without %6.2f s %4d MiB  " \
                "%5.2f  %d partials\n", users, chunk, $1, $2 / 1024, $3, $4 / 1024, $1 / $3, partials }'
}

# compare USERS CHUNK: both runs over the log of so many users, in turn.
compare() {
    : >"$work/plain.turns"
    : >"$work/watch.turns"
    number=0
    while [ "$number" -lt "$turns" ]; do
        turn plain --chunk "$2"
        turn watch --chunk "$2" --watch
        number=$((number + 1))
    done
    cmp "$work/plain.out" "$work/watch.out" || stop "--watch changes the report of $1 users"
    [ ! -s "$work/plain.err" ] || stop "a line is told without --watch"
    row "$1" "$2"
}

for users in 10 98304; do
    log=$work/log.csv
    mawk -f "$here/visits.awk" -v records="$records" -v users="$users" >"$log"
    compare "$users" 3072
done
compare 98304 16384
