#!/bin/sh
# Measures the report in each form: of 98,304 groups, each with a list of ten numbers. A run whose
# second file has a bad record makes the same pass and writes no report, so what a form takes is
# what its run takes more than that. Each runs three times, in turn. Prints the least wall time and
# the most memory of each, and ratios to the form `table`, as a table; and then how long a run over
# one record takes, as a loop of the shell starts it.
# With --instructions it prints, in place of times, the instructions by valgrind.
# Needs mawk, GNU date and time, or else valgrind (Debian's packages mawk, coreutils, time and
# valgrind).
# Usage: bench/forms.sh [--instructions] [GROUPS]
set -eu

here=$(CDPATH='' cd -P "$(dirname "$0")" && pwd)
# shellcheck source=bench/setup.sh
. "$here/setup.sh"

starts=200
programs="pass table csv pairs"
instructions=no
if [ "${1:-}" = --instructions ]; then
    instructions=yes
    shift
fi
groups=${1:-98304}
needs mawk "$timer"
[ $instructions = no ] || needs valgrind
find_symple

# run COMMAND..: the program over the log, in the form of `form`, by a command that begins it. The
# pass alone ends with the status of a bad record.
run() {
    if [ "$form" = pass ]; then
        status=0
        "$@" "$symple" run "$here/forms.symple" "$work/log.csv" "$work/bad.csv" \
            >"$work/report" 2>"$work/line" || status=$?
        if [ "$status" -ne 4 ] || [ -s "$work/report" ]; then
            stop "the pass alone wrote a report"
        fi
    else
        "$@" "$symple" run --form "$form" "$here/forms.symple" "$work/log.csv" >"$work/report" ||
            stop "the run in the form $form failed"
    fi
}

mawk -v groups="$groups" 'BEGIN {
    print "user,x"
    for (turn = 0; turn < 10; turn++)
        for (user = 0; user < groups; user++)
            print "u" user "," (user * 7919 + turn * 104729) % 1000000
}' >"$work/log.csv"
printf 'user,x\nu0,y\n' >"$work/bad.csv"

# What a form takes: instructions, or microseconds, and kilobytes.
measure() {
    if [ $instructions = yes ]; then
        run valgrind --tool=callgrind --callgrind-out-file=/dev/null --log-file="$work/counted"
        set -- "$(awk '/Collected/ { print $4 }' "$work/counted")" 0
    else
        begin=$(date +%s%N)
        run "$timer" -o "$work/used" -f '%M'
        end=$(date +%s%N)
        set -- $(((end - begin) / 1000)) "$(tail -n 1 "$work/used")"
    fi
    echo "$form $1 $2 $(wc -c <"$work/report")" >>"$work/turns"
}

[ $instructions = no ] || turns=1
turn=1
while [ "$turn" -le "$turns" ]; do
    for form in $programs; do
        measure
    done
    turn=$((turn + 1))
done

# shellcheck disable=SC2016 # what is quoted is awk's
mawk -v programs="$programs" -v counts=$instructions '
    !($1 in least) || $2 < least[$1] { least[$1] = $2 }
    $3 > memory[$1] { memory[$1] = $3 }
    { bytes[$1] = $4 }
    function ratio(value, of) { return of > 0 ? sprintf("%.2f", value / of) : "" }
    END {
        print "| Form | " (counts == "yes" ? "million instructions" : "s") \
            " | ratio | of the report alone | ratio | MiB | text, MiB |"
        print "|---|---|---|---|---|---|---|"
        count = split(programs, names, " ")
        for (i = 1; i <= count; i++) {
            form = names[i]
            report = least[form] - least["pass"]
            printf "| %s | %.3f | %s | %.3f | %s | %.1f | %.1f |\n", form, least[form] / 1e6, \
                ratio(least[form], least["table"]), report / 1e6, \
                ratio(report, least["table"] - least["pass"]), memory[form] / 1024, \
                bytes[form] / 1048576
        }
    }
' "$work/turns"

# A run over one record.
printf 'user,x\nu0,5\n' >"$work/log.csv"
form=table
if [ $instructions = yes ]; then
    run valgrind --tool=callgrind --callgrind-out-file=/dev/null --log-file="$work/counted"
    echo "a run over one record: $(awk '/Collected/ { print $4 }' "$work/counted") instructions"
    exit 0
fi
begin=$(date +%s%N)
start=1
while [ "$start" -le "$starts" ]; do
    "$symple" run "$here/forms.symple" "$work/log.csv" >"$work/report"
    start=$((start + 1))
done
end=$(date +%s%N)
echo "a run over one record: $(((end - begin) / 1000 / starts)) microseconds"
