#!/bin/sh
# Counts the instructions that symple takes to read a script of 8,192 and one of 65,536 bytes, for
# scripts of several kinds, and those that awk (mawk, else gawk) takes to read the larger one line
# by line. Counts don't depend on what else the machine does. Those of a run over no bytes are taken
# off, so that the start of a process isn't counted. Fails where 65,536 bytes of a kind cost more
# than 12 times what 8,192 bytes of it cost.
# Needs valgrind, and mawk or gawk (Debian's packages valgrind and mawk).
# Usage: bench/parse.sh [PROGRAM]
set -eu

here=$(CDPATH='' cd -P "$(dirname "$0")" && pwd)
# shellcheck source=bench/setup.sh
. "$here/setup.sh"

awk=$(command -v mawk || command -v gawk) || stop "there is neither mawk nor gawk"
needs valgrind
[ -z "${1-}" ] || SYMPLE_PROGRAM=$1
find_symple

# The instructions of a command, whatever its status.
count() {
    valgrind --tool=callgrind --callgrind-out-file=/dev/null "$@" 2>&1 >/dev/null </dev/null |
        "$awk" '/Collected/ { print $4 }'
}

read_by_symple() {
    count "$symple" run "$1" /dev/null
}

read_by_awk() {
    count "$awk" '{ bytes += length($0) + 1 } END { print bytes }' "$1"
}

: >"$work/none"
start_symple=$(read_by_symple "$work/none")
start_awk=$(read_by_awk "$work/none")

printf '%-12s %12s %13s %6s %13s %6s\n' "instructions" "8,192 bytes" "65,536 bytes" "ratio" \
    "awk, 65,536" "ratio"
failed=0
for kind in parentheses operands statements names locals labels tests texts comments; do
    for size in 8192 65536; do
        "$awk" -v kind=$kind -v size=$size -f "$here/scripts.awk" >"$work/$size"
        [ "$(wc -c <"$work/$size")" -le $size ] || stop "a script of kind $kind is too large"
    done
    small=$(($(read_by_symple "$work/8192") - start_symple))
    large=$(($(read_by_symple "$work/65536") - start_symple))
    peer=$(($(read_by_awk "$work/65536") - start_awk))
    "$awk" -v kind=$kind -v small="$small" -v large="$large" -v peer="$peer" 'BEGIN {
        printf "%-12s %12d %13d %6.1f %13d %6.1f\n", kind, small, large, large / small, peer, large / peer
        exit large > 12 * small
    }' || failed=1
done
[ "$failed" -eq 0 ] || stop "the larger script costs more than 12 times the smaller one"
