#!/bin/sh
# Measures paths that follow one another and lists of paths that are settled, in nanoseconds of
# processor time a path, the least of three runs.
# Following: paths with a list of so many numbers, each followed by a path that adds a number; once
# of paths that are given away, once of paths that are copied.
# Settling: lists of 2 to 256 paths with lists of 1 and of 1,000 numbers. Of those that are apart no
# two spans touch, of those that touch the lists differ in their first number, and those that are
# equal but for their spans become one path, for which their lists have to be compared.
# Needs rt, to build the program.
# Usage: bench/paths.sh
set -eu

here=$(CDPATH='' cd -P "$(dirname "$0")" && pwd)
# shellcheck source=bench/setup.sh
. "$here/setup.sh"
find_sym_bench

# measure PATHS WORD..: the least nanoseconds a path of some runs of these words.
measure() {
    paths=$1
    shift
    : >"$work/times"
    turn=1
    while [ "$turn" -le "$turns" ]; do
        "$sym_bench" "$@" >"$work/found" 2>>"$work/times" || stop "$* failed"
        turn=$((turn + 1))
    done
    awk -v paths="$paths" '
        NR == 1 || $2 < least { least = $2 }
        END { printf "%.1f", least / paths }
    ' "$work/times"
}

printf '%-22s %10s %10s\n' "follow: numbers" moved copied
for length in 1 10 100 1000; do
    printf '%-22d %10s %10s\n' $length "$(measure 2000 follow moved $length 2000)" \
        "$(measure 2000 follow copied $length 2000)"
done

for kind in apart touching equal; do
    printf '%-22s %10s %10s\n' "settle $kind: paths" "1 number" "1000"
    for paths in 2 4 8 16 32 64 128 256; do
        lists=$((2048 / paths))
        printf '%-22d %10s %10s\n' $paths "$(measure 2048 settle $kind $paths 1 $lists)" \
            "$(measure 2048 settle $kind $paths 1000 $lists)"
    done
done
