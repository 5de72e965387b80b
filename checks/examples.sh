#!/bin/sh
# Runs the commands that the documents show, at the top of the repository, and compares what each
# writes with what the document shows below it, and its status. In a block that is indented, by eight
# blanks in a list, a line that begins with `$ ` is a command, and lines right after it that begin
# with `> ` continue it. The lines up to the next command or the end of the block are all that it
# writes. `$ echo $?` shows the status of the command before it; a command that isn't followed by one
# has to end with 0.
#
# Then a log in twelve parts is summarised apart and reported on by what examples/distributed has: by
# a loop of the shell, by GNU parallel and by make. What isn't installed is named, and what it would
# try is left out. The last line counts what passed and failed.
set -u

# shellcheck source=checks/common.sh
. "$(dirname "$0")/common.sh"
cd "$root" || exit 1

# Writes the commands of a document as the files N.place, N.command and N.wanted, N from 1 on.
split() {
    awk -v work="$work" '
        function finish() {
            if (open) {
                close(wanted)
                close(command)
                open = 0
            }
            blank = 0
            going = 0
        }
        /^\$ / {
            print FILENAME ":" FNR ": a command outside of an indented block" >(work "/faults")
        }
        /^    (    )?\$ / {
            finish()
            deep = index($0, "$") - 1
            count++
            print FILENAME ":" FNR >(work "/" count ".place")
            close(work "/" count ".place")
            command = work "/" count ".command"
            print substr($0, deep + 3) >command
            wanted = work "/" count ".wanted"
            printf "" >wanted
            open = going = 1
            next
        }
        /^    (    )?> / && going { print substr($0, deep + 3) >command; next }
        { going = 0 }
        /^ *$/ { blank++; next }
        open && substr($0, 1, deep) ~ /^ *$/ {
            for (; blank > 0; blank--)
                print "" >wanted
            print substr($0, deep + 1) >wanted
            next
        }
        { finish() }
    ' "$1"
}

# Runs the commands of a document one after another.
run_document() {
    rm -f "$work"/*
    split "$1"
    if [ -s "$work/faults" ]; then
        note 1 "$(cat "$work/faults")"
    fi
    status=0
    number=1
    while [ -e "$work/$number.command" ]; do
        run_command "$work/$number"
        number=$((number + 1))
    done
    [ "$status" -eq 0 ]
    note $? "$1: the last command ended with $status, which isn't shown"
    [ "$number" -gt 1 ]
    note $? "$1 shows no command"
}

# Runs one command, or shows the status of the one before.
run_command() {
    place=$(cat "$1.place")
    command=$(cat "$1.command")
    # shellcheck disable=SC2016 # this is what a document shows
    if [ "$command" = 'echo $?' ]; then
        echo "$status" >"$work/written"
        status=0
    else
        [ "$status" -eq 0 ]
        note $? "$place: the command before ended with $status, which isn't shown"
        sh -c "$command" >"$work/written" 2>&1 </dev/null
        status=$?
    fi
    if ! diff -u "$1.wanted" "$work/written" >"$work/difference"; then
        cat "$work/difference" >&2
        note 1 "$place: $command: another output"
    else
        note 0
    fi
}

# Whether the report on the run files of the parts is that of a run over the whole log.
reports_as_run() {
    ./symple reduce "$script" "$parts"/part-*.csv.run >"$parts/report" &&
        cmp "$parts/whole" "$parts/report" >&2
}

# Writes the run file of a part again.
map_again() {
    first=$(awk -v part="$1" '$2 == part { print $1 }' "$parts/numbers")
    ./symple map --first "$first" "$script" "$1" >"$1.run"
}

# By a loop: all parts, without one of them, and with that one made again alone.
try_loop() {
    "$distributed/number.sh" "$distributed/count.symple" "$@" >"$parts/numbers"
    note $? "number.sh ended with another status than 0"
    for part in "$@"; do
        map_again "$part"
        note $? "map of $part ended with another status than 0"
    done
    reports_as_run
    note $? "parts mapped by a loop: another report than that of a run"

    ./symple check --print "$script" >"$parts/printed.symple" &&
        ./symple reduce "$parts/printed.symple" "$parts"/part-*.csv.run >"$parts/report" &&
        ! cmp -s "$script" "$parts/printed.symple" && cmp "$parts/whole" "$parts/report" >&2
    note $? "reduce by the script in another layout: another report than that of a run"

    rm "$parts/part-03.csv.run"
    ./symple reduce "$script" "$parts"/part-*.csv.run >"$parts/report" 2>"$parts/said"
    [ $? -eq 4 ] && [ ! -s "$parts/report" ] &&
        [ "$(cat "$parts/said")" = "symple: $parts/part-04.csv.run: records do not follow" ]
    note $? "a part is lost: $(cat "$parts/said")"
    map_again "$parts/part-03.csv"
    reports_as_run
    note $? "a part made again: another report than that of a run"
}

# Whether the report on this one run file is that of a run over the whole log.
reports_one_as_run() {
    ./symple reduce "$script" "$1" >"$parts/report" && cmp "$parts/whole" "$parts/report" >&2
}

# Joined at once, and going on from yesterday: what was joined so far, and one part more.
try_join() {
    ./symple join "$script" "$parts"/part-*.csv.run >"$parts/log.run" &&
        reports_one_as_run "$parts/log.run"
    note $? "parts joined at once: another report than that of a run"

    rm -f "$parts/month.run"
    for part in "$@"; do
        if [ -e "$parts/month.run" ]; then
            next=$(awk '/^next [0-9]+$/ { print $2; exit }' "$parts/month.run")
            ./symple map --first "$next" "$script" "$part" >"$parts/day.run" &&
                ./symple join "$script" "$parts/month.run" "$parts/day.run" >"$parts/month.new" &&
                mv "$parts/month.new" "$parts/month.run"
        else
            ./symple map "$script" "$part" >"$parts/month.run"
        fi
        note $? "$part isn't joined to those before it"
    done
    reports_one_as_run "$parts/month.run"
    note $? "each part joined to those before it: another report than that of a run"
}

# By GNU parallel.
try_parallel() {
    if ! command -v parallel >/dev/null; then
        skipped "no parallel: examples/distributed/reduce.sh isn't tried"
        return
    fi
    rm -f "$parts"/part-*.csv.run
    "$distributed/reduce.sh" "$distributed/count.symple" "$script" "$@" >"$parts/report" &&
        cmp "$parts/whole" "$parts/report" >&2
    note $? "reduce.sh: another report than that of a run"
    reports_as_run
    note $? "the run files of reduce.sh: another report than that of a run"
    "$distributed/join.sh" "$script" "$parts"/part-*.csv.run >"$parts/log.run" &&
        reports_one_as_run "$parts/log.run"
    note $? "join.sh: another report than that of a run"
}

# By make: all parts at once, and then the one that has changed.
try_make() {
    if ! command -v make >/dev/null; then
        skipped "no make: examples/distributed/Makefile isn't tried"
        return
    fi
    rm -f "$parts"/part-*.csv.run "$parts/numbers" "$parts/report"
    make_report "$@" >"$parts/said"
    note $? "make ended with another status than 0"
    cmp "$parts/whole" "$parts/report" >&2
    note $? "make: another report than that of a run"
    touch "$parts/part-05.csv"
    make_report "$@" >"$parts/said"
    [ "$(grep -c ' map ' "$parts/said")" -eq 1 ]
    note $? "make after a change of one part: not one map"
    cmp "$parts/whole" "$parts/report" >&2
    note $? "make after a change of one part: another report than that of a run"
    make_target joined.run "$@" >"$parts/said"
    [ "$(grep -c ' join ' "$parts/said")" -eq 3 ] && reports_one_as_run "$parts/joined.run"
    note $? "make joined.run: other joins than three, or another report than that of a run"
}

make_report() {
    make_target report "$@"
}

# make_target TARGET PART..
make_target() {
    target=$1
    shift
    make -j4 -C "$parts" -f "$distributed/Makefile" SCRIPT="$root/$script" \
        COUNT="$distributed/count.symple" PARTS="$*" "$target"
}

# A log in twelve parts, and what each way makes of it.
try_distributed() {
    distributed=$root/examples/distributed
    script=examples/sessions.symple
    parts=$work/parts
    SYMPLE=$root/symple
    export SYMPLE
    mkdir "$parts"
    awk 'BEGIN {
        print "second,user"
        for (i = 1; i <= 1100; i++)
            print i * 3 + i * i % 7 ",u" i * i % 13
    }' >"$parts/log.csv"
    awk -v records=97 -v name="$parts/part" -f "$distributed/split.awk" "$parts/log.csv"
    set -- "$parts"/part-*.csv
    [ $# -eq 12 ]
    note $? "split.awk made $# parts in place of 12"
    ./symple run "$script" "$parts/log.csv" >"$parts/whole"
    note $? "a run over the whole log ended with another status than 0"
    try_loop "$@"
    try_join "$@"
    try_parallel "$@"
    try_make "$@"
}

find_program

for document in README.md docs/TUTORIAL.md docs/LOGS.md docs/LANGUAGE.md docs/MESSAGES.md \
    docs/FORMS.md docs/TRACES.md docs/TOOLS.md docs/QUERIES.md examples/queries/*/README.md; do
    if [ -e "$document" ]; then
        run_document "$document"
    fi
done
try_distributed

counted passed failed
