#!/bin/sh
# One run file of those of consecutive parts, on standard output. Neighbours are joined, up to eight
# of them at a time, as many joins at the same time as there are processors; then what they come to,
# until one is left. The names have no blanks.
#
#     join.sh SCRIPT RUNFILE...
#
# Needs GNU parallel. SYMPLE names the program; by default it is symple. The status is 0, or another
# one if a file is refused.
set -eu
script=$1
shift
SYMPLE=${SYMPLE:-symple}
export SYMPLE script
work=$(mktemp -d)
trap 'rm -rf "$work"' EXIT

level=0
while :; do
    level=$((level + 1))
    mkdir "$work/$level"
    # shellcheck disable=SC2016 # the inner shell expands it
    printf '%s\n' "$@" |
        parallel --will-cite --halt now,fail=1 -N 8 \
            '"$SYMPLE" join "$script" {} >'"$work/$level/"'{#}'
    # shellcheck disable=SC2046 # names without blanks
    set -- $(find "$work/$level" -type f | sort -V)
    [ $# -gt 1 ] || break
done
cat "$1"
