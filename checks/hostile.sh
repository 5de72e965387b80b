#!/bin/sh
# Runs the program as a hostile system, hostile files and hostile scripts meet it. Its sections:
# - calls: each of its opens, reads and writes failing or cut short in turn, by a preloaded library;
# - streams: standard streams that are closed, full, slow or gone;
# - files: that change while they are read, pipes, devices, directories, files without leave, names;
# - killed: ended by kill -9 at random moments, what was written is a prefix of the report;
# - resources: little memory, a small stack, no leave to start threads, how many are started, and
#   that as many are at work at once;
# - times: scripts and logs that are slow to take. None takes more than 20 times as long as a plain
#   one of its size, but for those that docs/LANGUAGE.md names.
#
#     checks/hostile.sh [KILLS [MEBIBYTES [SECTION..]]]
#
# The gate takes 10 kills and logs of 1 MiB; 200 and 64 are the whole. Options of the program are
# tried if it takes them; what is skipped is said. Needs a C compiler as cc, and the GNU C library
# and tools. SYMPLE_PROGRAM names another program than that of this repository. The last line
# counts what passed and failed.
set -u

# shellcheck source=checks/common.sh
. "$(dirname "$0")/common.sh"
kills=${1:-10}
mebibytes=${2:-1}
[ $# -ge 1 ] && shift
[ $# -ge 1 ] && shift
[ $# -ge 1 ] || set -- calls streams files killed resources times

# symple ARGUMENTS..: the program with these arguments.
symple() {
    run "$program" "$@"
}

# Whether the line of the run before is this text, or nothing for no text.
says() {
    if [ -n "$1" ]; then
        echo "symple: $1" | cmp -s - "$work/err"
    else
        [ ! -s "$work/err" ]
    fi
}

# Whether the run before ended with this status, this file as its report and this line.
ended() {
    [ "$status" -eq "$1" ] && cmp -s "$2" "$work/out" && says "$3"
}

# note_end NAME STATUS FILE LINE: that it did.
note_end() {
    ended "$2" "$3" "$4"
    note $? "$1: status $status in place of $2, $(wc -c <"$work/out") bytes in place of \
$(wc -c <"$3"), and: $(head -n 3 "$work/err")"
}

# Whether the file is a prefix of the other one.
is_prefix() {
    cmp -n "$(wc -c <"$1")" "$1" "$2" >/dev/null 2>&1
}

# many TEXT TIMES: the text so many times.
many() {
    yes "$1" | head -n "$2" | tr -d '\n'
}

cc -O2 -shared -fPIC -o "$work/calls.so" "$here/failing_call.c" || exit 1
cc -O2 -shared -fPIC -o "$work/held.so" "$here/held_threads.c" || exit 1
find_program
cp "$root"/checks/scripts/*.symple "$work"
cd "$work" || exit 1
: >nothing

# A run over three files, whose report has two rows.
printf 'ts,user\n10,a\n20,a\n' >one.csv
printf 'user,ts\n"a",60\nb,5\n' >two.csv
printf 'ts,other,user\n61,,a\n' >three.csv
printf 'user | sessions | open | longest\na | 1 | 2 | 2\nb | 0 | 1 | none\n--\n' >three.txt
three='run sessions.symple one.csv two.csv three.csv'

# Which options and commands the program takes.
options=
workers=
symple run --chunk 1 --limit 1 --workers 2 sessions.symple one.csv two.csv three.csv
if [ "$status" -eq 0 ]; then
    options='--chunk 1 --limit 1'
    workers='--chunk 1 --workers 2'
else
    skipped 'the program takes no --chunk, --limit and --workers'
fi

# --- calls

# failing KIND NUMBER WHY ARGUMENTS..: the program with that call failing.
failing() {
    kind=$1
    number=$2
    why=$3
    shift 3
    rm -f failed_name count
    run env LD_PRELOAD="$work/calls.so" FAIL_CALL="$kind" FAIL_NUMBER="$number" FAIL_WITH="$why" \
        FAILED_NAME=failed_name CALL_COUNT=count "$program" "$@"
}

# The number of calls of a kind of the run before: open, read or write.
count_of() {
    case $1 in
        open) cut -d ' ' -f 1 count ;;
        read) cut -d ' ' -f 2 count ;;
        write) cut -d ' ' -f 3 count ;;
    esac
}

# Each open and each read of a run fails: the line names the file of that call.
calls_that_read() {
    for kind in open read; do
        failing "$kind" 0 EIO "$@"
        note_end "calls: none fails" 0 three.txt ''
        total=$(count_of "$kind")
        [ "$total" -ge 4 ]
        note $? "calls: only $total of $kind"
        for why in EIO ENOSPC EMFILE EINTR; do
            for number in $(seq "$total"); do
                failing "$kind" "$number" "$why" "$@"
                where="$* with $why at $kind $number of $total"
                # A read that a signal interrupts is tried again, and an open may be.
                if [ "$why" = EINTR ] && [ "$status" -eq 0 ]; then
                    note_end "calls: $where" 0 three.txt ''
                    continue
                fi
                [ "$kind $why" != "read EINTR" ]
                note $? "calls: $where isn't tried again"
                note_end "calls: $where" 5 nothing "$(cat failed_name): read fault"
            done
        done
    done
    # Each read is interrupted from one on, and each gives no bytes from one on.
    for number in 1 3; do
        FAIL_ALWAYS=1 failing read "$number" EINTR "$@"
        note_end "calls: $* with every read interrupted from $number on" 5 nothing \
            "$(cat failed_name): read fault"
    done
    FAIL_ALWAYS=1 failing read 1 none "$@"
    note_end "calls: $* with a script that gives no bytes" 3 nothing \
        'script: unexpected token at byte 0'
    for piece in 1 2 7; do
        CALL_PIECE=$piece failing read 0 EIO "$@"
        note_end "calls: $* in pieces of $piece" 0 three.txt ''
    done
}

# Each write fails, of a report that is taken in pieces of 4 bytes: what was written before is a
# prefix of the report, and the line says so.
calls_that_write() {
    CALL_PIECE=4 failing write 0 EIO "$@"
    note_end "calls: writes in pieces" 0 three.txt ''
    total=$(count_of write)
    [ "$total" -ge 10 ]
    note $? "calls: only $total writes"
    for why in EIO ENOSPC EINTR none; do
        for number in $(seq "$total"); do
            CALL_PIECE=4 failing write "$number" "$why" "$@"
            where="calls: $* with $why at write $number of $total"
            if [ "$why" = EINTR ]; then
                note_end "$where" 0 three.txt ''
            else
                head -c $((4 * number - 4)) three.txt >prefix
                # The line is taken in pieces too.
                note_end "$where" 6 prefix 'write fault'
            fi
        done
    done
    for number in 1 5; do
        FAIL_ALWAYS=1 CALL_PIECE=4 failing write "$number" EIO "$@"
        head -c $((4 * number - 4)) three.txt >prefix
        note_end "calls: $* with every write failing from $number on" 6 prefix ''
    done
    FAIL_ALWAYS=1 CALL_PIECE=4 failing write 3 EINTR "$@"
    head -c 8 three.txt >prefix
    note_end "calls: $* with every write interrupted" 6 prefix ''
}

# The line of a refused run is cut where standard error fails; the status stays.
calls_that_refuse() {
    for number in 1 2 4; do
        FAIL_ALWAYS=1 CALL_PIECE=3 failing write "$number" EIO run a
        [ "$status" -eq 2 ] && [ ! -s out ] &&
            echo 'symple: usage' | head -c $((3 * number - 3)) | cmp -s - err
        note $? "calls: a faulty command line with write $number failing: status $status"
    done
}

check_calls() {
    # shellcheck disable=SC2086 # words
    calls_that_read $three
    # shellcheck disable=SC2086 # words
    calls_that_write $three
    if [ -n "$workers" ]; then
        # shellcheck disable=SC2086 # words
        calls_that_read run $workers ${three#run }
    fi
    calls_that_refuse
}

# --- streams

# A report of 1 MB, more than a pipe holds.
wide_report() {
    [ -e wide.csv ] || {
        echo user
        seq 100000
    } >wide.csv
    [ -e wide.txt ] || {
        "$program" run counts.symple wide.csv >wide.txt
        [ "$(wc -c <wide.txt)" -gt 900000 ]
        note $? "streams: the wide report is too short"
    }
}

# The program's status and the lines that its reader got, where the reader takes one line.
one_line_taken() {
    { "$@" run counts.symple wide.csv 2>err; echo $? >status; } | head -n 1 >out
    status=$(cat status)
    head -n 1 wide.txt | cmp -s - out
    note $? "streams: the line that was taken isn't the report's first"
}

check_streams() {
    wide_report
    one_line_taken "$program"
    [ "$status" -eq 6 ] && says 'write fault'
    note $? "streams: a pipe whose reader is gone: status $status, $(cat err)"
    # shellcheck disable=SC2016 # the inner shell's arguments
    one_line_taken sh -c 'trap "" PIPE; exec "$0" "$@"' "$program"
    [ "$status" -eq 6 ] && says 'write fault'
    note $? "streams: the same with SIGPIPE ignored: status $status, $(cat err)"
    # A reader that takes a little at a time, and begins late.
    { "$program" run counts.symple wide.csv 2>err; echo $? >status; } |
        { sleep 1; dd bs=1000 count=3 2>/dev/null; sleep 1; cat; } >out
    status=$(cat status)
    note_end "streams: a slow reader" 0 wide.txt ''
    # shellcheck disable=SC2086 # words
    "$program" $three >&- 2>err
    status=$?
    : >out
    note_end "streams: no standard output" 6 nothing 'write fault'
    # shellcheck disable=SC2086 # words
    "$program" $three 2>&- >out
    status=$?
    : >err
    note_end "streams: no standard error" 0 three.txt ''
    # shellcheck disable=SC2086 # words
    "$program" $three <&- >out 2>err
    status=$?
    note_end "streams: no standard input" 0 three.txt ''
    # shellcheck disable=SC2086 # words
    "$program" $three <&- >&- 2>&-
    status=$?
    : >out
    : >err
    note_end "streams: no streams at all" 6 nothing ''
    "$program" run counts.symple absent.csv 2>&- >out
    status=$?
    note_end "streams: a refused run without standard error" 5 nothing ''
    printf 'ts,user\n10,a\n20,a\n' | cmp -s - one.csv
    note $? "streams: a file was written to"
    # shellcheck disable=SC2086 # words
    "$program" $three >/dev/full 2>err
    status=$?
    : >out
    note_end "streams: a full device" 6 nothing 'write fault'
    # shellcheck disable=SC2086 # words
    "$program" $three >/dev/full 2>/dev/full
    status=$?
    : >err
    note_end "streams: two full devices" 6 nothing ''
}

# --- files

# changing NUMBER COMMAND ARGUMENTS..: the program, with a command run before its read of that
# number.
changing() {
    number=$1
    command=$2
    shift 2
    RUN_COMMAND=$command failing read "$number" EIO "$@"
}

# Files of which something changes after their first 64 KiB were read: the reads of the script are
# the first two.
files_that_change() {
    {
        echo user
        yes a | head -n 100000
    } >long.csv
    cp long.csv log.csv
    symple run counts.symple log.csv
    printf 'user | n\na | 100000\n--\n' >long.txt
    note_end "files: as it is" 0 long.txt ''
    changing 4 'printf "a\na\n" >>log.csv' run counts.symple log.csv
    printf 'user | n\na | 100002\n--\n' >wanted
    note_end "files: one that grows" 0 wanted ''
    cp long.csv log.csv
    changing 4 ': >log.csv' run counts.symple log.csv
    head -c 65536 long.csv | tail -n +2 | grep -c a | sed 's/^/user | n\na | /; s/$/\n--/' >wanted
    note_end "files: one that is emptied" 0 wanted ''
    cp long.csv log.csv
    echo name >other.csv
    changing 4 'mv other.csv log.csv' run counts.symple log.csv
    note_end "files: one that is replaced" 0 long.txt ''
    cp long.csv log.csv
    changing 4 'rm log.csv' run counts.symple log.csv
    note_end "files: one that is removed" 0 long.txt ''
    cp long.csv log.csv
    changing 4 'head -c 67108864 /dev/zero >>log.csv' run counts.symple log.csv
    note_end "files: one that grows too large" 7 nothing 'log.csv: too large'
    cp long.csv log.csv
    changing 3 'rm log.csv' run counts.symple one.csv log.csv
    note_end "files: one that is removed before it is opened" 5 nothing 'log.csv: read fault'
    cp long.csv log.csv
    changing 1 'echo >counts.new; mv counts.new counts.changed' run counts.symple log.csv
    note_end "files: a script that is as it was" 0 long.txt ''
}

check_files() {
    files_that_change
    mkfifo pipe
    # A program that doesn't open the pipe mustn't keep the writer waiting.
    timeout 20 sh -c 'cat one.csv >pipe' &
    symple run counts.symple pipe
    wait $!
    printf 'user | n\na | 2\n--\n' >wanted
    note_end "files: a named pipe" 0 wanted ''
    timeout 20 sh -c ': >pipe' &
    symple run counts.symple pipe
    wait $!
    printf 'user | n\n--\n' >wanted
    note_end "files: a named pipe that gives nothing" 0 wanted ''
    # shellcheck disable=SC2094 # a pipe
    { sleep 1; cat one.csv; } | "$program" run counts.symple /dev/stdin >out 2>err
    status=$?
    printf 'user | n\na | 2\n--\n' >wanted
    note_end "files: a pipe that begins late" 0 wanted ''
    for device in /dev/zero /dev/full /dev/urandom; do
        symple run counts.symple "$device"
        note_end "files: $device" 7 nothing "$device: too large"
        symple run "$device" one.csv
        note_end "files: $device as a script" 7 nothing "$device: too large"
    done
    symple run counts.symple /dev/null
    printf 'user | n\n--\n' >wanted
    note_end "files: /dev/null" 0 wanted ''
    symple run /dev/null one.csv
    note_end "files: /dev/null as a script" 3 nothing 'script: unexpected token at byte 0'
    symple run counts.symple /proc/self/mem
    note_end "files: one whose read fails" 5 nothing '/proc/self/mem: read fault'
    for name in . .. / ./ /proc; do
        symple run counts.symple "$name"
        note_end "files: the directory $name" 5 nothing "$name: read fault"
    done
    ln -s loop loop
    symple run counts.symple loop
    note_end "files: a link to itself" 5 nothing 'loop: read fault'
    symple run counts.symple one.csv/
    note_end "files: a file as a directory" 5 nothing 'one.csv/: read fault'
    files_with_names
    files_without_leave
}

files_with_names() {
    name=$(printf 'one\nline: read fault\nsymple: usage')
    cp one.csv "$name"
    printf 'user | n\na | 2\n--\n' >wanted
    symple run counts.symple "$name"
    note_end "files: a name with line ends" 0 wanted ''
    rm "$name"
    symple run counts.symple "$name"
    note_end "files: an absent name with line ends" 5 nothing "$name: read fault"
    # The system opens names of 4,095 bytes at most.
    name=$(many ./ 2044)one.csv
    [ ${#name} -eq 4095 ]
    note $? "files: the name has ${#name} bytes"
    symple run counts.symple "$name"
    note_end "files: a name of 4,095 bytes" 0 wanted ''
    for long in "./$name" ".$name" "$(many ./ 40000)one.csv" "$(many a 300)"; do
        symple run counts.symple "$long"
        note_end "files: a name of ${#long} bytes" 5 nothing "$long: read fault"
    done
}

# A file that may not be read, by a user who isn't the superuser.
files_without_leave() {
    mkdir -p leave/shut
    chmod 755 . leave
    cp one.csv counts.symple leave
    cp one.csv leave/shut
    chmod 0 leave/one.csv leave/shut
    cp "$program" ./program
    if [ "$(id -u)" -ne 0 ]; then
        set --
    elif command -v setpriv >/dev/null; then
        set -- setpriv --reuid=65534 --regid=65534 --clear-groups
    else
        skipped 'a file without leave: there is no setpriv'
        return
    fi
    for name in leave/one.csv leave/shut/one.csv; do
        run "$@" ./program run leave/counts.symple "$name"
        note_end "files: $name without leave" 5 nothing "$name: read fault"
    done
    chmod 755 leave/shut
}

# --- killed

# A number of microseconds from 0 up to but without a bound.
random_below() {
    awk -v bound="$1" -v seed="$(od -An -N4 -tu4 /dev/urandom)" 'BEGIN {
        srand(seed)
        printf "%.6f\n", rand() * bound / 1000000
    }'
}

check_killed() {
    wide_report
    # The writes are of 16 bytes, so that the report is written for some time.
    begin=$(date +%s%N)
    CALL_PIECE=16 LD_PRELOAD=$work/calls.so "$program" run counts.symple wide.csv >out
    length=$((($(date +%s%N) - begin) / 1000))
    cmp -s out wide.txt
    note $? "killed: not a whole report"
    parts=0
    for turn in $(seq "$kills"); do
        : >out
        CALL_PIECE=16 LD_PRELOAD=$work/calls.so "$program" run counts.symple wide.csv >out \
            2>err &
        sleep "$(random_below "$length")"
        kill -9 $! 2>/dev/null
        wait $! 2>/dev/null
        is_prefix out wide.txt && [ ! -s err ]
        note $? "killed: at turn $turn no prefix was written"
        size=$(wc -c <out)
        [ "$size" -gt 0 ] && [ "$size" -lt "$(wc -c <wide.txt)" ] && parts=$((parts + 1))
    done
    echo "checks/hostile.sh: of $kills runs that were killed $parts had written a part"
}

# --- resources

# limited OPTION NUMBER COMMAND..: the command under a limit of the shell.
limited() {
    limit_option=$1
    limit_number=$2
    shift 2
    # Limits that can be raised again aren't in POSIX, but the usual shells have them.
    # shellcheck disable=SC3045 # see above
    (ulimit -S "$limit_option" "$limit_number" && exec "$@")
}

# Memory in steps: the run's end or status 8 with its line, from where the program starts at all.
little_memory() {
    wide_report
    size=20000
    short=0
    whole=0
    while [ "$size" -lt 400000 ]; do
        run limited -v "$size" "$program" "$@"
        # A stack that has to grow finds no room where threads have taken what the limit leaves: the
        # system ends such a run by a signal, rarely, before it writes.
        tries=1
        while [ "$status" -eq 139 ] && [ ! -s out ] && [ "$tries" -lt 3 ]; do
            echo "checks/hostile.sh: $size kB for $*: no room for the stack"
            run limited -v "$size" "$program" "$@"
            tries=$((tries + 1))
        done
        if [ "$status" -eq 0 ]; then
            note_end "resources: $size kB for $*" 0 wide.txt ''
            whole=$((whole + 1))
        elif [ "$status" -eq 8 ]; then
            note_end "resources: $size kB for $*" 8 nothing 'out of memory'
            short=$((short + 1))
        else
            note 1 "resources: $size kB for $*: status $status, $(head -c 200 err)"
        fi
        size=$((size + size / 8))
    done
    [ "$short" -gt 0 ] && [ "$whole" -gt 0 ]
    note $? "resources: of $*, $short were short and $whole whole"
}

# deep NAME STATUS LINE, of the script deep.symple: a stack of 1 MiB suffices.
deep() {
    run limited -s 1024 "$program" run deep.symple one.csv
    if [ -z "$3" ]; then
        [ "$status" -eq "$2" ] && [ ! -s err ]
        note $? "resources: $1 on a small stack: status $status, $(head -c 200 err)"
    else
        note_end "resources: $1 on a small stack" "$2" nothing "$3"
    fi
}

# update TEXT: deep.symple with this update.
update() {
    printf 'field x from "ts": num; state n: int [0..3] = 0; state h: hold(num = 0); ' >deep.symple
    printf 'test t(a: num, b: num) = a < b; update { %s } report { n = n; }' "$1" >>deep.symple
}

small_stack() {
    update "n = $(many '(' 64)n$(many ')' 64);"
    deep '64 parentheses' 0 ''
    update "n = $(many '-' 64)1;"
    deep '64 signs' 0 ''
    update "if $(many 'not ' 63)1 < 2 { }"
    deep '63 negations' 0 ''
    update "$(many 'if 1 < 2 { ' 64)$(many '}' 64)"
    deep '64 blocks' 0 ''
    update "if 2 < 1 { } $(many 'else if 2 < 1 { } ' 63)"
    deep '64 branches' 0 ''
    update "n = 0$(many ' + x - x' 127);"
    deep '255 operands' 0 ''
    update "if 1 < 2$(many ' and 1 < 2' 127) { }"
    deep '256 operands of conditions' 0 ''
    update "$(many 'n=0;' 511)"
    deep '511 statements' 0 ''
    update "$(many 'n=0;' 447)$(many 'if 1 < 2 { ' 32)n = $(many '(' 32)0$(
        many ' + x - x' 127)$(many ')' 32);$(many '}' 32)"
    deep '480 statements, and 255 operands below 64 levels' 0 ''
    update "$(many 'if t(h, x) { } ' 10)"
    deep '1,024 paths' 0 ''
    update "$(many 'if t(h, x) { n=1; } ' 20)"
    deep 'paths beyond the bound' 3 'script: 1000000 paths'
    update "keep h(1$(many ,1 30000));"
    deep 'a keep of 30,001 values' 3 'script: wrong kind at byte 119'
    update "$(many 'if 1 < 2 { ' 65)"
    deep '65 blocks' 3 'script: limit of depth at byte 818'
    update "n = $(many '(' 60000)"
    deep '60,000 parentheses' 3 'script: limit of depth at byte 182'
    update "if $(many 'not ' 15000)"
    deep '15,000 negations' 3 'script: limit of depth at byte 369'
    printf 'field %s' "$(many 'a:num;field ' 5000)" >deep.symple
    deep '5,000 fields' 3 'script: limit of fields at byte 384'
    {
        printf 'field x from "ts": num; group x; state n: nums [0..99]; update { push n x; } '
        printf 'report { '
        for column in $(seq 32); do
            printf 'c%s = %s1 + count(n)%s; ' "$column" "$(many '(' 63)" "$(many ')' 63)"
        done
        printf '}'
    } >deep.symple
    deep '32 deep columns' 0 ''
}

# No thread can be started: the run ends as it does with one worker.
no_threads() {
    if ! command -v prlimit >/dev/null || ! command -v setpriv >/dev/null; then
        skipped 'no leave to start threads: there is no prlimit or no setpriv'
        return
    fi
    set --
    if [ "$(id -u)" -eq 0 ]; then
        # The superuser has no such limit.
        set -- setpriv --reuid=65534 --regid=65534 --clear-groups --inh-caps=-all
    fi
    cp "$program" ./program
    chmod 755 . program
    chmod 644 ./*.csv ./*.symple
    # shellcheck disable=SC2086 # words
    run "$@" prlimit --nproc=1 ./program run $workers ${three#run }
    note_end "resources: no leave to start threads" 0 three.txt ''
}

# started THREADS WORKERS FILE COMMAND..: the command starts so many threads by so many workers over
# the file, each row of which is a chunk.
started() {
    wanted=$1
    by=$2
    file=$3
    shift 3
    run env LD_PRELOAD="$work/calls.so" THREAD_COUNT=threads "$program" "$@" --chunk 1 \
        --workers "$by" count.symple "$file"
    [ "$status" -eq 0 ] && [ "$(cat threads)" = "$wanted" ]
    note $? "resources: $* by $by workers over $file started $(cat threads) threads"
}

# at_work THREADS WORKERS FILE SCRIPT COMMAND..: by so many workers, so many threads are at work at
# once. Each is held until the others have come to as many allocations.
at_work() {
    wanted=$1
    by=$2
    file=$3
    script=$4
    shift 4
    run env LD_PRELOAD="$work/held.so" HELD_THREADS="$wanted" THREADS_MET=threads "$program" "$@" \
        --chunk 16 --workers "$by" "$script" "$file"
    read -r met in_vain <threads
    [ "$status" -eq 0 ] && [ "$met" -ge "$wanted" ] && [ "$in_vain" -eq 0 ]
    note $? "resources: $* by $by workers over $file with $script: $met threads worked at once"
}

threads() {
    # Of a count, records are shared out by their groups; of the other script, whose state gets
    # known, runs are made.
    {
        echo 'field user: word; group user; state n: int [0..999] = 0;'
        echo 'update { n = n + 1; } report { n = n; }'
    } >count.symple
    sed 's/n + 1/1/' count.symple >known.symple
    # 8 chunks, a round of 64, and two such rounds and one of 2.
    for rows in 8 64 130; do
        { echo user; yes a | head -n $rows; } >"$rows.csv"
    done
    # A thread for each worker, but no more than there are chunks, and none for one worker.
    started 0 1 8.csv run
    started 2 2 8.csv run
    started 4 4 8.csv run
    started 8 64 8.csv run
    # Beside a full round one more, which cuts the next one.
    started 0 1 64.csv run
    started 3 2 64.csv run
    started 65 64 64.csv run
    started 8 2 130.csv run
    started 8 2 130.csv map
    # With --watch one more beside each round but the first, which tells of the round before.
    started 2 1 130.csv run --watch
    started 10 2 130.csv run --watch
    # A trace starts the threads of a round twice.
    started 0 1 130.csv trace
    started 4 2 8.csv trace
    started 16 64 8.csv trace
    started 5 2 64.csv trace
    started 14 2 130.csv trace
    # A round of 64 chunks, and four of them, where the next one is cut beside the workers.
    { echo user; seq 1024 | sed s/^/u/; } >round.csv
    { echo user; seq 4096 | sed s/^/u/; } >rounds.csv
    for by in 2 4 64; do
        for command in run 'run --watch' map trace; do
            # shellcheck disable=SC2086 # words
            at_work "$by" "$by" round.csv known.symple $command
            # shellcheck disable=SC2086 # words
            at_work $((by + 1)) "$by" rounds.csv count.symple $command
        done
        at_work "$by" "$by" round.csv count.symple run
    done
    # One more than there are workers never meet.
    run env LD_PRELOAD="$work/held.so" HELD_THREADS=3 HELD_MOST=100 THREADS_MET=threads \
        "$program" run --chunk 16 --workers 2 count.symple round.csv
    [ "$status" -eq 0 ] && echo 2 1 | cmp -s - threads
    note $? "resources: three threads of two workers: $(cat threads)"
}

check_resources() {
    little_memory run counts.symple wide.csv
    small_stack
    if [ -n "$workers" ]; then
        # shellcheck disable=SC2086 # words
        little_memory run $workers counts.symple wide.csv
        no_threads
        threads
    else
        skipped 'no leave to start threads: the program takes no --workers'
    fi
}

# --- times

# The least processor time of three turns of the program with these arguments, in microseconds.
time_of() {
    least=
    for turn in 1 2 3; do
        rm -f count
        run timeout 600 env LD_PRELOAD="$work/calls.so" CALL_COUNT=count "$program" "$@"
        # A run that was ended by the limit wrote no count, and has another status.
        length=$(cut -d ' ' -f 4 count 2>/dev/null)
        length=${length:-600000000}
        [ -n "$least" ] && [ "$least" -le "$length" ] || least=$length
        # Runs of many seconds are not repeated.
        [ "$length" -lt 10000000 ] || break
    done
}

# timed NAME STATUS FACTOR ARGUMENTS..: a run has this status, and takes at most so many times the
# time of the plain one; a factor of 0 only shows how long it takes.
timed() {
    name=$1
    wanted=$2
    factor=$3
    shift 3
    time_of "$@"
    [ "$status" -eq "$wanted" ]
    note $? "times: $name: status $status in place of $wanted, $(head -c 200 err)"
    # Short runs are measured less exactly, and their plain one is mostly start-up.
    [ "$mebibytes" -ge 64 ] || factor=$((factor * 5))
    [ "$factor" -eq 0 ] || [ "$least" -le $((plain * factor)) ]
    note $? "times: $name: $least us, the plain one $plain us"
    awk -v name="$name" -v least="$least" -v plain="$plain" \
        'BEGIN { printf "  %-48s %9.1f ms %6.1f\n", name, least / 1000, least / plain }'
}

# log NAME: the file log.csv has a header and, up to its size, what comes in.
log() {
    head -c $((mebibytes * 1048576 - 256)) | sed '$d' >log.body
    { echo "$1"; cat log.body; } >log.csv
    rm log.body
}

times_of_logs() {
    sed 's/0\.\.[0-9]*/0..1000000000/' counts.symple >many.symple
    seq 100000000 | awk '{ print "u" $1 % 1000 }' | log user
    time_of run many.symple log.csv
    # A run of few milliseconds is mostly start-up.
    plain=$((least > 10000 ? least : 10000))
    printf 'checks/hostile.sh: logs of %s MiB, the plain one in %s ms\n' "$mebibytes" \
        $((plain / 1000))
    timed 'the plain log' 0 20 run many.symple log.csv
    yes a | log user
    timed 'all keys equal' 0 20 run many.symple log.csv
    seq 100000000 | log user
    timed 'all keys different' 0 20 run many.symple log.csv
    seq 100000000 | awk 'BEGIN { s = sprintf("%1000s", "") } { print s $1 }' | log user
    timed 'keys of 1,000 bytes that differ at the end' 0 20 run many.symple log.csv
    { echo user; echo; head -c $((mebibytes * 500000)) /dev/zero | tr '\0' b; echo
        head -c $((mebibytes * 500000)) /dev/zero | tr '\0' b; echo; } >log.csv
    timed 'two keys of half the size' 0 20 run many.symple log.csv
    { echo user; echo '"'; head -c $((mebibytes * 1000000)) /dev/zero | tr '\0' '\n'; } >log.csv
    timed 'a quoted field that is not closed' 0 20 run many.symple log.csv
    { echo user; printf '"'; yes '""' | tr -d '\n' | head -c $((mebibytes * 1000000)); } >log.csv
    timed 'a field of quotes' 0 20 run many.symple log.csv
    { echo user; head -c $((mebibytes * 1000000)) /dev/zero | tr '\0' '\n'; } >log.csv
    timed 'empty lines' 0 20 run many.symple log.csv
    yes , | tr -d '\n' | head -c $((mebibytes * 1000000)) >log.csv
    timed 'a header of empty names' 4 20 run many.symple log.csv
    { printf user; yes ,x | tr -d '\n' | head -c $((mebibytes * 500000)); echo
        yes ,x | tr -d '\n' | head -c $((mebibytes * 500000)); } >log.csv
    timed 'a header and a record of many columns' 0 20 run many.symple log.csv
    # The hash of keys has no secret. These keys have one hash, so each is compared with all before
    # it, and the time grows with the square of their number. docs/LANGUAGE.md says so.
    seq -f 'Pgm6M30fx4FMGOwmeIHrKjYb%08.0f' 10000 | log user
    timed '10,000 keys with one hash' 0 0 run many.symple log.csv
    times_of_wide_logs
}

# Scripts of 32 fields, 32 cells and 32 columns, of 1,024 paths a record, and of tests.
times_of_wide_logs() {
    {
        for field in $(seq 32); do echo "field f$field: num;"; done
        echo 'group f1, f2, f3;'
        for cell in $(seq 32); do echo "state c$cell: nums [0..9];"; done
        echo 'update {'
        for cell in $(seq 32); do echo "push c$cell f$cell;"; done
        echo '} report {'
        for column in $(seq 32); do echo "r$column = sum(c$column);"; done
        echo '}'
    } >wide.symple
    yes "$(many '1,' 31)1" | log "$(seq 32 | sed 's/^/f/' | paste -s -d ,)"
    timed '32 fields, 32 lists, 32 columns' 0 20 run wide.symple log.csv
    seq 100000000 | awk '{ printf "%d", $1; for (i = 2; i <= 32; i++) printf ",1"; print "" }' |
        log "$(seq 32 | sed 's/^/f/' | paste -s -d ,)"
    sed 's/\[0..9\]/[0..99]/; s/push c1 f1/push c1 1/' wide.symple >wider.symple
    timed '32 columns of groups of one record' 0 20 run wider.symple log.csv
    {
        echo 'field x: num; state h: hold(num = 1); state w: words;'
        echo 'test t(p: num, k: num) = p % k == 0; update {'
        for number in $(seq 2 11); do echo "if t(h, $number) { push w \"a\"; }"; done
        echo '} report { c = count(w); }'
    } >paths.symple
    # What a path bound costs: 100 records are as many as a gate can take, and none else is timed.
    { echo x; yes 1 | head -n 100; } >log.csv
    timed '1,024 paths a record, 100 records' 0 0 run paths.symple log.csv
    {
        echo 'field x: num; state h: hold(num = 0); state n: int [0..1000000000] = 0;'
        echo 'test t(p: num, k: num) = p < k; update {'
        echo 'if t(h, x) { n = n + 1; } if t(h, x + 1) { n = n + 1; } } report { n = n; }'
    } >facts.symple
    { echo x; seq 2000; } >log.csv
    timed 'tests whose facts never meet, 2,000 records' 0 0 run facts.symple log.csv
    if [ -n "$options" ]; then
        for setting in '--chunk 1' '--chunk 65536' '--limit 1' '--limit 256' '--workers 64' \
            '--chunk 1 --limit 256 --workers 64'; do
            # shellcheck disable=SC2086 # words
            timed "facts: $setting" 0 0 run $setting facts.symple log.csv
        done
        { echo x; yes 1 | head -n 20; } >log.csv
        for setting in '--limit 1' '--limit 256' '--chunk 1 --limit 256'; do
            # shellcheck disable=SC2086 # words
            timed "1,024 paths, 20 records: $setting" 0 0 run $setting paths.symple log.csv
        done
    fi
}

# filled TEXT: the file large.symple is the text with blanks up to 65,536 bytes.
filled() {
    { printf '%s' "$1"; head -c 65536 /dev/zero | tr '\0' ' '; } | head -c 65536 >large.symple
}

times_of_scripts() {
    filled "$(cat counts.symple)"
    time_of run large.symple one.csv
    plain=$((least > 3000 ? least : 3000))
    printf 'checks/hostile.sh: scripts of 65,536 bytes, the plain one in %s us\n' "$plain"
    begin='field x: num; state n: int [0..3] = 0; state h: hold(num = 0); update { '
    end=' } report { n = n; }'
    long=$(many a 60)
    filled ''
    timed 'blanks' 3 20 run large.symple one.csv
    filled "# $(many '#' 60000)"
    timed 'a comment' 3 20 run large.symple one.csv
    filled "$begin n = \"$(many '\\"' 30000)"
    timed 'a text that is not closed' 3 20 run large.symple one.csv
    filled "$begin $(many '( ' 30000)"
    timed 'parentheses' 3 20 run large.symple one.csv
    filled "$begin $(many '; ' 30000)"
    timed 'semicolons' 3 20 run large.symple one.csv
    filled "$begin keep h(1$(many ,1 32000)); $end"
    timed 'a keep of 32,001 values' 3 20 run large.symple one.csv
    filled "$begin keep h(n$(many ,x 32000)); $end"
    timed 'a keep of 32,001 names' 3 20 run large.symple one.csv
    filled "$begin $(many 'if n < 1 { n=0; } ' 500) $end"
    timed 'paths beyond the bound' 3 20 run large.symple one.csv
    filled "$begin if n < 1$(many ' or n==1' 127) { n=0; } $(many 'if n==1 {} ' 100) $end"
    timed 'cases beyond the bound' 3 20 run large.symple one.csv
    filled "$begin $(many 'let v=1; ' 500) $end"
    timed 'a local that is taken' 3 20 run large.symple one.csv
    enums=$(for e in $(seq 16); do
        printf 'enum e%s {' "$e"
        for l in $(seq 31); do printf '%s_%s_%s,' "$long" "$e" "$l" | tail -c 50; done
        printf 'l%s} ' "$e"
    done)
    locals=$(for l in $(seq 500); do printf 'let v%s=x+x+x+x+x+x+x+x+x+x+x+x+x; ' "$l"; done)
    filled "field x from \"ts\": num; state n: int [0..3] = 0; update { $locals } $(:
        )report { n = n; }"
    timed '500 locals' 0 20 run large.symple one.csv
    filled "$enums field x from \"ts\": num; state n: int [0..3] = 0; update { $(
        many 'if l16 is l16 { } ' 500) } report { n = n; }"
    timed '512 labels of long names' 0 20 run large.symple one.csv
    filled "field x from \"$(many a 60000)\": num; state n: int [0..3] = 0; update { } $(:
        )report { n = n; }"
    timed 'a long header' 4 20 run large.symple one.csv
}

check_times() {
    times_of_logs
    times_of_scripts
}

for section do
    begun=$(date +%s)
    case $section in
        calls | streams | files | killed | resources | times) "check_$section" ;;
        *) note 1 "there is no section $section" ;;
    esac
    echo "checks/hostile.sh: $section in $(($(date +%s) - begun)) s"
done

counted passed failed
