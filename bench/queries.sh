#!/bin/sh
# Measures the twelve queries of examples/queries over logs of 4,000,000 records: `symple run` with
# 1, 2 and 4 workers, beside mawk, pandas and SQLite, which answer the same question over the same
# file. All come to the same rows, and each runs three times, in turn (TURNS sets another number),
# but pandas and SQLite, which take several times as long, once.
# One that takes over PATIENCE seconds, 300 where that isn't set, is stopped and not tried again.
# Then `symple map` over eight parts of each log, with chunks of 16,384 records: how many paths the
# summary of a group has, and how large the run files are beside the log, plain and by `gzip -1`.
# Prints a table: the path bound, the paths of a summary (their mean and the most), the least wall
# time of each in seconds, and megabytes, those by gzip in brackets. The last two lines are the
# means over all queries of the ratios to one worker's time, and the number of rows of each report.
# CHUNK sets the records of a chunk of `run`, SEED the seed of the logs, and ONLY names the queries,
# all of them where it isn't set. DATA names a file for the times, which bench/queries.gnuplot
# draws. SEQUENTIAL names a program that takes a script and a log, makes the sequential pass, and
# writes `pass NANOSECONDS` on standard error: the table has a column for it. SYMPLE_PROGRAM names
# another program than that of this repository. What isn't installed is named, and has no times.
# Needs python3, mawk, gzip and GNU date and timeout (Debian's packages python3, mawk, gzip and
# coreutils), and for the peers sqlite3 and python3-pandas.
# Usage: bench/queries.sh [RECORDS]
set -eu

here=$(CDPATH='' cd -P "$(dirname "$0")" && pwd)
root=$(dirname "$here")
records=${1:-4000000}
turns=${TURNS:-3}
seed=${SEED:-1}
patience=${PATIENCE:-300}
chunk=${CHUNK:-3072}
parts=8
most_bytes=268435456
queries="pushes-alone after-deletion pull-requests branch-gaps outages outages-by-area
search-sessions impressions one-country pauses takeovers reported-users"

stop() {
    echo "bench/queries.sh: $1" >&2
    exit 1
}

for tool in python3 mawk gzip timeout; do
    command -v "$tool" >/dev/null || stop "there is no $tool"
done
work=$(mktemp -d)
trap 'rm -rf "$work"' EXIT
trap 'exit 1' HUP INT TERM

symple=${SYMPLE_PROGRAM-}
if [ -z "$symple" ]; then
    # The launcher builds the program if it has to; its own few milliseconds are not measured.
    "$root/symple" make 1 1 >"$work/made"
    symple=$("$root/symple" --version | sed -n 's/^path //p')
fi

# The ways that are there. What stands for python3 may be a script that looks for it.
ways="1 2 4"
[ -z "${SEQUENTIAL-}" ] || ways="$ways sequential"
ways="$ways mawk"
for name in python3 /usr/bin/python3; do
    if "$name" -c 'import pandas' 2>/dev/null; then
        python=$("$name" -c 'import sys; print(sys.executable)')
        ways="$ways pandas"
        break
    fi
done
[ -n "${python-}" ] || echo "bench/queries.sh: there is no pandas" >&2
if command -v sqlite3 >/dev/null; then
    ways="$ways sqlite"
else
    echo "bench/queries.sh: there is no sqlite3" >&2
fi

# run WAY: a way over the log. Its status is 124 where it was stopped.
run() {
    case $1 in
        sequential) set -- "$SEQUENTIAL" "$query/query.symple" "$work/log.csv" ;;
        mawk) set -- mawk -F, -f "$query/query.awk" "$work/log.csv" ;;
        pandas) set -- "$python" "$query/query_pandas.py" ;;
        sqlite) set -- sqlite3 -csv :memory: ".read \"$query/query.sql\"" ;;
        *)
            set -- "$symple" run --form csv --workers "$1" --chunk "$chunk" \
                --max-bytes $most_bytes "$query/query.symple" "$work/log.csv"
            ;;
    esac
    timeout "$patience" "$@" <"$work/log.csv" >"$work/found" 2>"$work/said"
}

# Whether what a way found is the report, which symple writes in its first run.
is_same() {
    case $1 in
        sequential) ;;
        mawk | pandas | sqlite)
            [ "$turn" -gt 1 ] || python3 "$root/checks/same_rows.py" "$work/report" "$work/found"
            ;;
        *)
            [ -e "$work/report" ] || cp "$work/found" "$work/report"
            cmp "$work/report" "$work/found"
            ;;
    esac
}

# Runs a way, and notes its microseconds, or that it was stopped.
measure() {
    if grep -qx "$name $1 stopped" "$work/turns"; then
        return
    fi
    status=0
    begin=$(date +%s%N)
    run "$1" || status=$?
    end=$(date +%s%N)
    if [ "$status" -eq 124 ]; then
        echo "$name $1 stopped" >>"$work/turns"
        return
    fi
    [ "$status" -eq 0 ] || stop "$1 of $name ended with $status: $(tail -n 1 "$work/said")"
    is_same "$1" || stop "$1 of $name comes to other rows"
    wall=$(((end - begin) / 1000))
    if [ "$1" = sequential ]; then
        wall=$(($(sed -n 's/^pass //p' "$work/said") / 1000))
    fi
    echo "$name $1 $wall" >>"$work/turns"
}

# Maps the parts of the log, and notes the sizes of their run files and of the log, and the paths of
# each group's summary in each part.
measure_parts() {
    size=$(((records + parts - 1) / parts))
    rm -f "$work"/part-*
    mawk -v records=$size -v name="$work/part" -f "$root/examples/distributed/split.awk" \
        "$work/log.csv"
    first=1
    for part in "$work"/part-*.csv; do
        "$symple" map --first $first --chunk 16384 --max-bytes $most_bytes \
            "$query/query.symple" "$part" >"$part.run" || stop "map of $part failed"
        rm "$part"
        first=$((first + size))
    done
    "$symple" reduce --form csv --max-bytes $most_bytes "$query/query.symple" \
        "$work"/part-*.csv.run >"$work/found" || stop "reduce of $name failed"
    cmp "$work/report" "$work/found" || stop "reduce of $name writes another report than run"
    {
        printf '%s sizes' "$name"
        for file in "$work/log.csv" "$work"/part-*.csv.run; do
            gzip -1c "$file" | wc -c | mawk -v plain="$(wc -c <"$file")" \
                '{ printf " %d %d", plain, $1 }'
        done
        echo
    } >>"$work/turns"
    mawk -v name="$name" '
        function finish() { if (now > most) most = now; all += now; now = 0 }
        /^key/ { finish(); groups++ }
        /^when/ { now++ }
        END {
            finish()
            printf "%s paths %.1f %d\n", name, all / groups, most
        }
    ' "$work"/part-*.csv.run >>"$work/turns"
    rm "$work"/part-*
}

: >"$work/turns"
for name in ${ONLY:-$queries}; do
    query=$root/examples/queries/$name
    [ -d "$query" ] || stop "there is no query $name"
    # The queries over one kind of log have the same make.py.
    if ! cmp -s "$query/make.py" "$work/make.py"; then
        cp "$query/make.py" "$work/make.py"
        python3 "$query/make.py" "$records" "$seed" >"$work/log.csv"
        [ "$(wc -c <"$work/log.csv")" -le $most_bytes ] || stop "the log of $name is too large"
    fi
    rm -f "$work/report"
    turn=1
    while [ $turn -le "$turns" ]; do
        for way in $ways; do
            case $way in pandas | sqlite) [ $turn -eq 1 ] || continue ;; esac
            measure "$way"
        done
        turn=$((turn + 1))
    done
    "$symple" check "$query/query.symple" |
        sed "s/.* paths /$name bound /" >>"$work/turns"
    echo "$name rows $(($(wc -l <"$work/report") - 1))" >>"$work/turns"
    measure_parts
done

# shellcheck disable=SC2016 # what is quoted is awk's
mawk -v names="${ONLY:-$queries}" -v ways="$ways" -v patience="$patience" -v data="${DATA-}" '
    { at = $1 " " $2 }
    $2 == "bound" || $2 == "rows" { fact[at] = $3; next }
    $2 == "paths" { fact[at] = $3 ", " $4; next }
    $2 == "sizes" {
        plain = zipped = 0
        for (i = 5; i <= NF; i += 2) { plain += $i; zipped += $(i + 1) }
        fact[$1 " log"] = megabytes($3, $4)
        fact[$1 " runs"] = megabytes(plain, zipped)
        next
    }
    $3 == "stopped" { stopped[at]; next }
    !(at in wall) || $3 < wall[at] { wall[at] = $3 }
    function megabytes(plain, zipped) {
        return short(plain / 1e6) " (" short(zipped / 1e6) ")"
    }
    function short(number) {
        return sprintf(number < 0.995 ? "%.2f" : number < 9.95 ? "%.1f" : "%.0f", number)
    }
    function seconds(at) {
        return at in stopped ? "over " patience : sprintf("%.2f", wall[at] / 1e6)
    }
    function heading(way) {
        if (way == 1)
            return "1 worker"
        return way ~ /^[0-9]+$/ ? way : way == "sqlite" ? "SQLite" : way
    }
    END {
        many = split(ways, way, " ")
        count = split(names, name, /[ \n]+/)
        head = "| Query | bound | paths |"
        line = "|---|---|---|"
        for (i = 1; i <= many; i++) {
            head = head " " heading(way[i]) " |"
            line = line "---|"
        }
        print head " log, MB | run files, MB |"
        print line "---|---|"
        for (j = 1; j <= count; j++) {
            row = "| " name[j] " | " fact[name[j] " bound"] " | " fact[name[j] " paths"] " |"
            for (i = 1; i <= many; i++) {
                at = name[j] " " way[i]
                row = row " " seconds(at) " |"
                if (!(at in stopped) && !((name[j] " 1") in stopped)) {
                    logs[i] += log(wall[at] / wall[name[j] " 1"])
                    ratios[i]++
                }
            }
            print row " " fact[name[j] " log"] " | " fact[name[j] " runs"] " |"
        }
        row = "\nGeometric means to 1 worker:"
        for (i = 2; i <= many; i++)
            if (ratios[i])
                row = row (i > 2 ? ", " : " ") heading(way[i]) " " \
                    sprintf("%.2f", exp(logs[i] / ratios[i]))
        print row
        row = "Rows:"
        for (j = 1; j <= count; j++)
            row = row (j > 1 ? ", " : " ") name[j] " " fact[name[j] " rows"]
        print row
        if (data == "")
            exit
        row = "query"
        for (i = 1; i <= many; i++)
            row = row " \"" heading(way[i]) "\""
        print row >data
        for (j = 1; j <= count; j++) {
            row = name[j]
            for (i = 1; i <= many; i++) {
                at = name[j] " " way[i]
                row = row " " (at in stopped ? "?" : wall[at] / 1e6)
            }
            print row >data
        }
    }
' "$work/turns"
