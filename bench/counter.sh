#!/bin/sh
# Measures symple over a log of 5,000,000 records of one column against awk (mawk, else gawk) and
# against a program written by hand in Rust, which do the same tests but know no quotes, and against
# a bare sum in awk, which tests neither the lines nor the range. All first have to write the same
# report; then each runs three times, in turn. Prints the least wall time, the least processor time
# and the most memory of each, and the ratios of its wall time and memory to symple's.
# Needs rustc, mawk or gawk, GNU date and GNU time (Debian's packages rustc, mawk and time).
# Usage: bench/counter.sh [RECORDS]
set -eu

here=$(CDPATH='' cd -P "$(dirname "$0")" && pwd)
# shellcheck source=bench/setup.sh
. "$here/setup.sh"

records=${1:-5000000}

awk=$(command -v mawk || command -v gawk) || stop "there is neither mawk nor gawk"
needs rustc "$timer"
find_symple

# Runs one of the programs over the log.
run() {
    case $1 in
        symple) set -- "$symple" run "$here/counter.symple" "$work/log.csv" ;;
        awk) set -- "$awk" -f "$here/counter.awk" "$work/log.csv" ;;
        rust) set -- "$work/counter" "$work/log.csv" ;;
        sum) set -- "$awk" -f "$here/sum.awk" "$work/log.csv" ;;
    esac
    "$timer" -o "$work/used" -f '%U %S %M' "$@" >"$work/report"
}

# Runs one of the programs and notes its microseconds, its processor seconds and its kilobytes.
measure() {
    begin=$(date +%s%N)
    run "$1" || stop "$1 failed"
    end=$(date +%s%N)
    cmp -s "$work/report" "$work/expected" || stop "the reports of $1 differ"
    echo "$1 $(((end - begin) / 1000)) $(cat "$work/used")" >>"$work/turns"
}

rustc -O -o "$work/counter" "$here/counter.rs"
"$awk" -v records="$records" -f "$here/records.awk" >"$work/log.csv"

run rust || stop "rust failed"
cp "$work/report" "$work/expected"
for program in symple awk sum; do
    run "$program" || stop "$program failed"
    cmp -s "$work/report" "$work/expected" || stop "$program and rust write different reports"
done

turn=1
while [ "$turn" -le "$turns" ]; do
    for program in symple awk sum rust; do
        measure "$program"
    done
    turn=$((turn + 1))
done

echo "$records records, $(wc -c <"$work/log.csv") bytes; awk and sum are $(basename "$awk"); $turns turns each"
# shellcheck disable=SC2016 # what is quoted is awk's
"$awk" '
    !($1 in wall) || $2 < wall[$1] { wall[$1] = $2 }
    !($1 in busy) || $3 + $4 < busy[$1] { busy[$1] = $3 + $4 }
    $5 > memory[$1] { memory[$1] = $5 }
    END {
        count = split("symple awk sum rust", names, " ")
        printf "%-8s %9s %9s %9s %11s %11s\n", "", "wall s", "cpu s", "MiB", "wall ratio", "MiB ratio"
        for (i = 1; i <= count; i++) {
            name = names[i]
            printf "%-8s %9.3f %9.2f %9.1f %11.2f %11.2f\n", name, wall[name] / 1000000, busy[name], \
                memory[name] / 1024, wall[name] / wall["symple"], memory[name] / memory["symple"]
        }
    }
' "$work/turns"
