#!/bin/sh
# Measures symple over two logs of 4,000,000 records, of 10 and of 98,304 users: the sessions of
# each user, against what its users would take instead: a program written by hand in Rust, mawk,
# gawk, Python with its csv, pandas, SQLite and miller, each as its users write it. All have to
# write the same report, and each runs three times, in turn (TURNS sets another number); a program
# that takes more than two minutes is stopped, and not run again. Prints the median of the wall
# times and the most memory of each, and their ratios to symple's, as a table.
# Awk, miller, Python, pandas and SQLite test no number's range; awk and Rust know no quotes.
# Needs rustc, gawk, mawk, miller, sqlite3, a python3 that has pandas, GNU date, time and timeout
# (Debian's packages rustc, gawk, mawk, miller, sqlite3, python3-pandas, coreutils and time).
# Usage: bench/sessions.sh [RECORDS]
set -eu

here=$(CDPATH='' cd -P "$(dirname "$0")" && pwd)
# shellcheck source=bench/setup.sh
. "$here/setup.sh"
needs rustc gawk mawk mlr sqlite3 python3 timeout "$timer"
find_symple

records=${1:-4000000}
programs="symple rust mawk gawk python pandas sqlite miller"
patience=120

# The python3 that has pandas; what stands for python3 may be a script that looks for it.
python=
for candidate in python3 /usr/bin/python3; do
    if [ -z "$python" ] && "$candidate" -c 'import pandas' 2>/dev/null; then
        python=$("$candidate" -c 'import sys; print(sys.executable)')
    fi
done
[ -n "$python" ] || stop "no python3 has pandas"

# run PROGRAM USERS: one of the programs over one of the logs. Its status is 124 if it was stopped.
run() {
    log=$work/$2.csv
    case $1 in
        symple) set -- "$symple" run "$here/sessions.symple" "$log" ;;
        rust) set -- "$work/sessions" "$log" ;;
        mawk | gawk) set -- "$1" -f "$here/sessions.awk" "$log" ;;
        python) set -- "$python" "$here/sessions.py" "$log" ;;
        pandas) set -- "$python" "$here/sessions_pandas.py" "$log" ;;
        sqlite)
            set -- sqlite3 -cmd 'CREATE TABLE log(ts INTEGER, user TEXT)' \
                -cmd ".import --csv --skip 1 '$log' log" :memory: ".read '$here/sessions.sql'"
            ;;
        miller) set -- mlr --icsv --from "$log" put -q -f "$here/sessions.mlr" ;;
    esac
    "$timer" -o "$work/used" -f '%M' timeout "$patience" "$@" >"$work/report"
}

# measure PROGRAM USERS: runs it, and notes its microseconds and its kilobytes, unless it is or was
# stopped.
measure() {
    [ ! -e "$work/stopped-$1-$2" ] || return 0
    status=0
    begin=$(date +%s%N)
    run "$1" "$2" || status=$?
    end=$(date +%s%N)
    if [ "$status" -eq 124 ]; then
        : >"$work/stopped-$1-$2"
        return
    fi
    [ "$status" -eq 0 ] || stop "$1 failed"
    cmp -s "$work/report" "$work/$2.expected" ||
        stop "$1 and rust write different reports for $2 users"
    echo "$1 $2 $(((end - begin) / 1000)) $(tail -n 1 "$work/used")" >>"$work/turns"
}

rustc -O -o "$work/sessions" "$here/sessions.rs"
for users in 10 98304; do
    mawk -v records="$records" -v users=$users -f "$here/visits.awk" >"$work/$users.csv"
    run rust $users || stop "rust failed"
    cp "$work/report" "$work/$users.expected"
    echo "$users users: $records records, $(wc -c <"$work/$users.csv") bytes," \
        "$(wc -l <"$work/$users.expected") lines of report"
done

turn=1
while [ "$turn" -le "$turns" ]; do
    for users in 10 98304; do
        for program in $programs; do
            measure "$program" $users
        done
    done
    turn=$((turn + 1))
done

# shellcheck disable=SC2016 # what is quoted is awk's
sort -k 1,2 -k 3,3n "$work/turns" | mawk -v programs="$programs" -v patience=$patience '
    { at = $1 " " $2; wall[at, ++count[at]] = $3 }
    $4 > memory[at] { memory[at] = $4 }
    function median(at) {
        return (wall[at, int((count[at] + 1) / 2)] + wall[at, int(count[at] / 2) + 1]) / 2
    }
    function cell(name, users,    at, base) {
        at = name " " users
        base = "symple " users
        if (!(at in count))
            return " over " patience " | | | |"
        return sprintf(" %.2f | %.1f | %.0f | %.1f |", median(at) / 1000000, \
            median(at) / median(base), memory[at] / 1024, memory[at] / memory[base])
    }
    END {
        print "| Program | 10 users: s | ratio | MiB | ratio" \
            " | 98,304 users: s | ratio | MiB | ratio |"
        print "|---|---|---|---|---|---|---|---|---|"
        many = split(programs, names, " ")
        for (i = 1; i <= many; i++)
            print "| " names[i] " |" cell(names[i], 10) cell(names[i], 98304)
    }
'
