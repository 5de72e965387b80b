#!/bin/sh
# Measures traces of a count of the records of 10 users, by four workers: with `--every 1000`, with
# `--every 1`, and with a number that no record has, which writes no row; and beside them the run
# over the same log. What a form takes for as many rows as `--every 1` writes is measured by a run
# over a log whose records are all of other users, less a run over that log and a bad record after
# it, which makes the same pass and writes no report.
# Each runs three times, in turn (TURNS sets another number). Prints the least wall time and the
# most memory of each, the size of its text, and two ratios: of `--every 1000` to the run, and of
# what `--every 1` takes more than no row to what the form takes.
# Needs mawk, GNU date and GNU time (Debian's packages mawk, coreutils and time).
# Usage: bench/trace.sh [RECORDS]
set -eu

here=$(CDPATH='' cd -P "$(dirname "$0")" && pwd)
# shellcheck source=bench/setup.sh
. "$here/setup.sh"
needs mawk "$timer"
find_symple

records=${1:-1000000}
programs="run none thousandth every report pass"

# run WAY: one of the programs; it writes $work/text, and what it took to $work/used.
run() {
    wanted=0
    case $1 in
        run) set -- run "$here/count.symple" "$work/log.csv" ;;
        none) set -- trace --every 1000000 "$here/count.symple" "$work/short.csv" ;;
        thousandth) set -- trace --every 1000 "$here/count.symple" "$work/log.csv" ;;
        every) set -- trace "$here/count.symple" "$work/log.csv" ;;
        report) set -- run "$here/count.symple" "$work/users.csv" ;;
        pass)
            set -- run "$here/count.symple" "$work/users.csv" "$work/bad.csv"
            wanted=4
            ;;
    esac
    status=0
    "$timer" -o "$work/used" -f '%M' "$symple" "$@" --max-bytes 268435456 \
        >"$work/text" 2>"$work/said" || status=$?
    [ "$status" -eq "$wanted" ] || stop "$* ended with $status"
}

# measure WAY: runs it, and notes its microseconds, its kilobytes, its lines and its bytes.
measure() {
    begin=$(date +%s%N)
    run "$1"
    end=$(date +%s%N)
    echo "$1 $(((end - begin) / 1000)) $(tail -n 1 "$work/used")" \
        "$(wc -l <"$work/text") $(wc -c <"$work/text")" >>"$work/turns"
}

mawk -v records="$records" -v users=10 -f "$here/visits.awk" >"$work/log.csv"
# One record fewer, so that 1,000,000 divides no number.
mawk -v records="$((records - 1))" -v users=10 -f "$here/visits.awk" >"$work/short.csv"
mawk -v records="$records" 'BEGIN {
    print "ts,user"
    for (i = 1; i <= records; i++) print i ",u" i
}' >"$work/users.csv"
printf 'ts,user\nx\n' >"$work/bad.csv"

turn=1
while [ "$turn" -le "$turns" ]; do
    for way in $programs; do
        measure "$way"
    done
    turn=$((turn + 1))
done

# shellcheck disable=SC2016 # what is quoted is awk's
mawk -v programs="$programs" '
    !($1 in least) || $2 < least[$1] { least[$1] = $2 }
    $3 > memory[$1] { memory[$1] = $3 }
    { lines[$1] = $4; bytes[$1] = $5 }
    END {
        said["run"] = "run"
        said["none"] = "trace, no row"
        said["thousandth"] = "trace --every 1000"
        said["every"] = "trace --every 1"
        said["report"] = "run, as many groups"
        said["pass"] = "its pass alone"
        print "| Way | s | MiB | lines | text, MiB |"
        print "|---|---|---|---|---|"
        count = split(programs, names, " ")
        for (i = 1; i <= count; i++) {
            way = names[i]
            printf "| %s | %.2f | %.0f | %d | %.1f |\n", said[way], least[way] / 1e6, \
                memory[way] / 1024, lines[way], bytes[way] / 1048576
        }
        printf "--every 1000 to run: %.2f\n", least["thousandth"] / least["run"]
        printf "rows of --every 1 to as many rows of a form: %.2f\n", \
            (least["every"] - least["none"]) / (least["report"] - least["pass"])
    }
' "$work/turns"
