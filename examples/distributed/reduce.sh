#!/bin/sh
# The report on a log in parts: numbers the parts, summarises each of them by a `map` of its own, as
# many at the same time as there are processors, and reports on all of them. The run file of a part
# is kept beside it, as PART.run. The names have no blanks.
#
#     reduce.sh COUNT SCRIPT PART...
#
# COUNT counts records, as count.symple does. Needs GNU parallel. SYMPLE names the program; by
# default it is symple. The status is that of `reduce`, or another one where a part isn't summarised.
set -eu
here=$(CDPATH='' cd -P "$(dirname "$0")" && pwd)
count=$1
script=$2
shift 2
SYMPLE=${SYMPLE:-symple}
export SYMPLE script

numbers=$(mktemp)
trap 'rm -f "$numbers"' EXIT
"$here/number.sh" "$count" "$@" >"$numbers"

# Written under another name first, so that a run that was cut off leaves no file of a part of it.
# shellcheck disable=SC2016 # the inner shell expands it
map='"$SYMPLE" map --first "$1" "$script" "$2" >"$2.run.new" && mv "$2.run.new" "$2.run"'
parallel --will-cite --colsep ' ' --halt now,fail=1 sh -c "'$map'" map '{1}' '{2}' :::: "$numbers"

runs=
for part in "$@"; do
    runs="$runs $part.run"
done
# shellcheck disable=SC2086
"$SYMPLE" reduce "$script" $runs
