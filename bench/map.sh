#!/bin/sh
# Measures `symple map` beside `symple run` over the same log, with 1 and 4 workers and with chunks
# of 3,072 and 16,384 records: the sessions of 10 and of 98,304 users. Then `symple reduce` over 16
# run files of 98,304 groups each, beside the sequential pass over as many records as they have
# groups in sum, and beside a run with one worker over the logs of which they are. What reduce
# writes is what run writes. Then `symple join` over the first eight of them, beside `reduce` over
# these, and what reduce writes of what join wrote is what it writes of the eight.
# Each runs three times, in turn (TURNS sets another number). Prints the least wall time of each in
# seconds, the memory of that run, and ratios: of map to run with the same options, of reduce to
# the sequential pass and to the run, and of join to reduce. Of the sequential pass, sym_bench's, it is the processor time
# of the pass over a log in memory, without file and report.
# Last, the bytes of a run file for each group, and for each group beside its key: of the 16 files,
# of the eight that were joined, and of a script by which each group has one path, of one part and of
# two parts joined.
# Needs rt, to build the programs, and mawk and GNU date and time (Debian's packages mawk, coreutils
# and time).
# Usage: bench/map.sh [RECORDS]
set -eu

here=$(CDPATH='' cd -P "$(dirname "$0")" && pwd)
# shellcheck source=bench/setup.sh
. "$here/setup.sh"
needs mawk "$timer"
find_symple
find_sym_bench

records=${1:-4000000}
parts=16
users=98304
most_bytes=268435456
script=$here/sessions.symple

# measure WAY ARGUMENTS..: runs symple, its output to $work/WAY.out, and notes its microseconds and
# its kilobytes.
measure() {
    way=$1
    shift
    begin=$(date +%s%N)
    "$timer" -o "$work/used" -f '%M' "$symple" "$@" >"$work/$way.out" ||
        stop "$* ended with another status than 0"
    end=$(date +%s%N)
    echo "$way $(((end - begin) / 1000)) $(tail -n 1 "$work/used")" >>"$work/turns"
}

# The same of the sequential pass over as many records.
measure_sequential() {
    "$timer" -o "$work/used" -f '%M' "$sym_bench" pass fold users $((parts * users)) 16 \
        >"$work/found" 2>"$work/said" || stop "the sequential pass failed"
    echo "sequential $(($(cut -d' ' -f2 "$work/said") / 1000)) $(tail -n 1 "$work/used")" \
        >>"$work/turns"
}

# Both commands over the log of so many users, with 1 and 4 workers and both sizes of chunks.
measure_map() {
    for workers in 1 4; do
        for chunk in 3072 16384; do
            for command in run map; do
                measure "$command-$1-$workers-$chunk" "$command" --workers "$workers" \
                    --chunk $chunk --max-bytes $most_bytes "$script" "$work/log-$1.csv"
            done
        done
    done
}

# The part of this number: one record of each user, at times that go on from part to part.
write_part() {
    mawk -v users=$users -v part="$1" 'BEGIN {
        print "ts,user"
        for (user = 0; user < users; user++)
            print part * 20 ",u" user
    }'
}

# bytes NAME FILE..: how many bytes the run files have for each group, and for each beside its key.
bytes() {
    name=$1
    shift
    mawk -v name="$name" '
        { bytes += length($0) + 1 }
        /^key/ { groups++; keys += length($0) + 1 }
        END { printf "%s: %.1f bytes a group, %.1f beside its key\n", \
            name, bytes / groups, (bytes - keys) / groups }
    ' "$@"
}

for size in 10 $users; do
    mawk -v records="$records" -v users="$size" -f "$here/visits.awk" >"$work/log-$size.csv"
done
part=1
set --
while [ $part -le $parts ]; do
    write_part $part >"$work/part-$part.csv"
    "$symple" map --first $(((part - 1) * users + 1)) "$script" "$work/part-$part.csv" \
        >"$work/part-$part.run"
    set -- "$@" "$work/part-$part"
    part=$((part + 1))
done

eight=
for part in 1 2 3 4 5 6 7 8; do
    eight="$eight $work/part-$part.run"
done

turn=1
while [ "$turn" -le "$turns" ]; do
    for size in 10 $users; do
        measure_map "$size"
    done
    measure_sequential
    # The names have no blanks, unless TMPDIR has.
    # shellcheck disable=SC2046 # so many names
    measure run-parts run --workers 1 "$script" $(printf '%s.csv ' "$@")
    # shellcheck disable=SC2046 # so many names
    measure reduce-parts reduce "$script" $(printf '%s.run ' "$@")
    # shellcheck disable=SC2086 # eight names
    measure reduce-eight reduce "$script" $eight
    # shellcheck disable=SC2086 # eight names
    measure join-eight join "$script" $eight
    turn=$((turn + 1))
done

# What is measured is right.
for size in 10 $users; do
    for chunk in 3072 16384; do
        "$symple" reduce --max-bytes $most_bytes "$script" "$work/map-$size-1-$chunk.out" |
            cmp - "$work/run-$size-1-$chunk.out" || stop "reduce differs from run at $size users"
    done
done
cmp "$work/reduce-parts.out" "$work/run-parts.out" || stop "reduce differs from run over parts"
"$symple" reduce --max-bytes $most_bytes "$script" "$work/join-eight.out" |
    cmp - "$work/reduce-eight.out" || stop "reduce differs over the parts that were joined"

# shellcheck disable=SC2016 # what is quoted is awk's
mawk '
    !($1 in least) || $2 < least[$1] { least[$1] = $2; memory[$1] = $3 }
    function row(name, way, beside) {
        printf "| %s | %.2f | %d |", name, least[way] / 1e6, memory[way] / 1024
        if (beside != "")
            printf " %.2f", least[way] / least[beside]
        print " |"
    }
    END {
        print "| Way | s | MiB | ratio |"
        print "|---|---|---|---|"
        split("10 98304", sizes, " ")
        split("3072 16384", chunks, " ")
        for (i = 1; i <= 2; i++)
            for (workers = 1; workers <= 4; workers += 3)
                for (k = 1; k <= 2; k++) {
                    name = sizes[i] " users, " workers (workers == 1 ? " worker" : " workers")
                    name = name ", chunks of " chunks[k]
                    way = sizes[i] "-" workers "-" chunks[k]
                    row("run, " name, "run-" way, "")
                    row("map, " name, "map-" way, "run-" way)
                }
        row("sequential pass over the parts", "sequential", "")
        row("run over the parts, 1 worker", "run-parts", "sequential")
        row("reduce over the parts", "reduce-parts", "sequential")
        row("reduce over eight parts", "reduce-eight", "")
        row("join of eight parts", "join-eight", "reduce-eight")
        printf "reduce to the run over the parts: %.2f\n", \
            least["reduce-parts"] / least["run-parts"]
    }
' "$work/turns"

# shellcheck disable=SC2046 # so many names
bytes "sessions" $(printf '%s.run ' "$@")
bytes "sessions, eight parts joined" "$work/join-eight.out"
cat >"$work/one.symple" <<'end'
field ts: num;
field user: word;
group user;
state last: hold(num = 0);
state n: int [0..1000] = 0;
update { n = 1; keep last(ts); }
report { n = n; last = part(last, 1); }
end
"$symple" map "$work/one.symple" "$work/part-1.csv" >"$work/one.run"
bytes "one path" "$work/one.run"
"$symple" map --first $((users + 1)) "$work/one.symple" "$work/part-2.csv" >"$work/next.run"
"$symple" join "$work/one.symple" "$work/one.run" "$work/next.run" >"$work/both.run"
bytes "one path, two parts joined" "$work/both.run"
