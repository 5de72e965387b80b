#!/bin/sh
# The queries of examples/queries: each script over its small log and over one that its make.py
# makes, by run with three settings of chunk and workers, and by map and reduce over five parts,
# beside its check.py, which reads the log by Python alone. What is compared is the whole report,
# byte for byte. Then the same question by awk, by SQLite and by pandas, as far as these are
# installed: the rows are compared in any order. Last, the numbers of lines that its README and
# docs/QUERIES.md say.
# SYMPLE_PROGRAM names another program than that of this repository, and QUERIES another directory
# of queries. Needs python3, and says so where it isn't there. The last line counts what passed and
# failed.
# Usage: checks/queries.sh [RECORDS [SEED]]
set -u

# shellcheck source=checks/common.sh
. "$(dirname "$0")/common.sh"
cd "$root" || exit 1

records=${1:-3000}
seed=${2:-1}
queries=${QUERIES:-examples/queries}

if ! command -v python3 >/dev/null; then
    echo "checks/queries.sh: no python3: no query is tried" >&2
    exit 0
fi

# The first python3 that has pandas, or nothing.
find_pandas() {
    for pandas in python3 /usr/bin/python3; do
        if "$pandas" -c 'import pandas' 2>/dev/null; then
            return
        fi
    done
    pandas=
    skipped "no pandas: no question is answered by it"
}

# Whether the report that was written last is the one that is wanted.
is_wanted() {
    [ "$status" -eq 0 ] && cmp "$work/wanted" "$out" >&2
    note $? "$1: another report than that of check.py"
}

# Both ways of symple over the log.
try_symple() {
    for setting in "--chunk 7 --workers 1" "--chunk 100 --workers 2" "--chunk 1024 --workers 4"; do
        # shellcheck disable=SC2086 # so many arguments
        run "$program" run --form csv $setting "$query/query.symple" "$log"
        is_wanted "$query: run $setting over $log"
    done

    size=$((($(wc -l <"$log") - 1 + 4) / 5))
    rm -f "$work"/part-*
    awk -v records="$size" -v name="$work/part" -f examples/distributed/split.awk "$log"
    first=1
    for part in "$work"/part-*.csv; do
        "$program" map --first "$first" "$query/query.symple" "$part" >"$part.run"
        note $? "$query: map of $part ended with another status than 0"
        first=$((first + size))
    done
    run "$program" reduce --form csv "$query/query.symple" "$work"/part-*.csv.run
    is_wanted "$query: map and reduce over parts of $log"
}

# same_answer WAY COMMAND..: whether another way comes to the same rows.
same_answer() {
    way=$1
    shift
    "$@" <"$log" >"$work/rows" && python3 "$here/same_rows.py" "$work/wanted" "$work/rows"
    note $? "$query: $way comes to other rows over $log"
}

try_others() {
    same_answer awk awk -F, -f "$query/query.awk"
    if [ -n "$sqlite" ]; then
        same_answer SQLite sqlite3 -csv :memory: ".read \"$query/query.sql\""
    fi
    if [ -n "$pandas" ]; then
        same_answer pandas "$pandas" "$query/query_pandas.py"
    fi
}

# The lines of a file without comments and empty ones.
lines() {
    grep -cvE '^ *(#|--|""")|^ *$' "$1"
}

try_lines() {
    said="Lines: $(lines "$query/query.symple") of the script, $(lines "$query/query.sql") of SQL,"
    said="$said $(lines "$query/query_pandas.py") of pandas, $(lines "$query/query.awk") of awk."
    grep -qxF "$said" "$query/README.md"
    note $? "$query/README.md doesn't say: $said"
    row=$(echo "$said" | sed 's/[^0-9]*\([0-9]*\)[^0-9]*/ | \1/g')
    grep -F "| [${query##*/}](" docs/QUERIES.md | grep -qF "$row |"
    note $? "docs/QUERIES.md doesn't say of ${query##*/}:$row |"
}

find_program
find_pandas
sqlite=$(command -v sqlite3)
[ -n "$sqlite" ] || skipped "no sqlite3: no question is answered by SQLite"

tried=0
for query in "$queries"/*/; do
    query=${query%/}
    run "$program" check "$query/query.symple"
    [ "$status" -eq 0 ]
    note $? "$query: the script is refused: $(cat "$work/err")"
    python3 "$query/make.py" "$records" "$seed" >"$work/log.csv"
    note $? "$query: make.py ended with another status than 0"
    for log in "$query/log.csv" "$work/log.csv"; do
        python3 "$query/check.py" <"$log" >"$work/wanted"
        note $? "$query: check.py ended with another status than 0"
        try_symple
        try_others
    done
    try_lines
    tried=$((tried + 1))
done
[ "$tried" -eq 12 ]
note $? "$tried queries in place of 12"

counted passed failed
