#!/bin/sh
# Numbers the parts of a log: one line for each part, with the number of its first record and its
# name. The first part begins with 1, and each other one with the number after the last record of
# the part before it. Each part is counted by a run of its own, at the same time as others if there
# is GNU parallel. Ends with 1 where a part can't be read.
#
#     number.sh SCRIPT PART...
#
# SCRIPT counts records, as count.symple does. SYMPLE names the program; by default it is symple.
set -eu
script=$1
shift
SYMPLE=${SYMPLE:-symple}
export SYMPLE script

# count PART: how many records it has. A part without records has no group, and so no row.
# shellcheck disable=SC2016 # the inner shell expands it
count='rows=$("$SYMPLE" run --form csv "$script" "$1") || exit
    echo "$rows" | awk "NR == 2 { n = \$1 } END { print n + 0 }"'

if command -v parallel >/dev/null; then
    parallel --will-cite --keep-order --halt now,fail=1 sh -c "'$count'" count '{}' ::: "$@"
else
    for part in "$@"; do
        sh -c "$count" count "$part"
    done
fi | {
    first=1
    for part in "$@"; do
        read -r records
        printf '%s %s\n' "$first" "$part"
        first=$((first + records))
    done
}
