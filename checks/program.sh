#!/bin/sh
# Runs the program as its users do, by the launcher, over the files and streams of the system, and
# tests its status, its report, and the line that it writes on standard error. Each row is run
# - once by the launcher,
# - once with a standard error that takes nothing: status and report stay,
# - once for each of its allocations, with that one failing: the answer has to stay as it was, or be
#   status 8 with its line and no report, and at least one run of each row has to end with 8. The
#   rows by `row_some` have so many allocations that only the first, the last and three in between
#   fail: 65,536 files and 65,537, the largest file, and a script that is one long `keep`.
# Then runs over the examples and over random logs, by chunks, limits and workers of many sizes, have
# to write the same bytes and end with the same status:
#
#     checks/program.sh [LOGS]
#
# The gate takes 4 random logs and every seventh setting, which is another one each time; with LOGS
# each setting is taken, and so many random logs, usually 50.
# Needs a C compiler as cc, and the GNU C library. The last line counts what passed and failed.
set -u

logs=${1:-4}
every=7
[ $# -eq 0 ] || every=1

# shellcheck source=checks/common.sh
. "$(dirname "$0")/common.sh"
no_memory=8

# expect STATUS TEXT: what a run has to answer. The text is a format of printf: the report of the
# statuses 0 and 1, else the line on standard error, without `symple: ` and its end.
expect() {
    wanted=$1
    : >"$work/wanted.out"
    : >"$work/wanted.err"
    # shellcheck disable=SC2059 # rows give formats
    if [ "$1" -le 1 ]; then
        printf "$2" >"$work/wanted.out"
    else
        printf "symple: $2\n" >"$work/wanted.err"
    fi
}

# Whether the run before answered what is expected.
answered() {
    [ "$status" -eq "$wanted" ] && cmp -s "$work/wanted.out" "$work/out" &&
        cmp -s "$work/wanted.err" "$work/err"
}

# Whether the run before said that it is out of memory, and nothing else. This starts no process,
# since it is asked after each failing allocation.
ran_short() {
    [ "$status" -eq "$no_memory" ] && [ ! -s "$work/out" ] || return 1
    {
        IFS= read -r line && ! IFS= read -r rest && [ -z "$rest" ]
    } <"$work/err" && [ "$line" = "symple: out of memory" ]
}

# Notes whether the run before answered what is expected, and else what it answered.
note_answer() {
    if answered; then
        note 0
    else
        note 1 "$1: status $status in place of $wanted
$(diff "$work/wanted.out" "$work/out" | head -n 5)
$(diff "$work/wanted.err" "$work/err" | head -n 5)"
    fi
}

# Runs with the allocation of this number failing, and counts all allocations.
run_short() {
    number=$1
    shift
    : >"$work/out"
    FAIL_ALLOCATION=$number ALLOCATION_COUNT=$work/count LD_PRELOAD=$work/failing.so \
        "$program" "$@" >"$out" 2>"$work/err"
    status=$?
}

# row_once NAME STATUS TEXT ARGUMENTS..: the arguments give this answer, by `starter`.
row_once() {
    name=$1
    expect "$2" "$3"
    shift 3
    run "$starter" "$@"
    note_answer "$name"
    : >"$work/out"
    "$program" "$@" >"$out" 2>/dev/full
    status=$?
    [ "$status" -eq "$wanted" ] && cmp -s "$work/wanted.out" "$work/out"
    note $? "$name, with a full standard error: status $status in place of $wanted"
}

# row NAME STATUS TEXT ARGUMENTS..: the same, and again with each allocation failing.
row() {
    row_once "$@"
    shift 3
    count_allocations "$@"
    failing=1
    while [ "$failing" -le "$total" ]; do
        fail_one "$@"
        failing=$((failing + 1))
    done
    note_short
}

# row_some NAME STATUS TEXT ARGUMENTS..: as row_once, and again with the first allocation failing,
# with three in between, and with the last one.
row_some() {
    row_once "$@"
    shift 3
    count_allocations "$@"
    for failing in 1 $((total / 4)) $((total / 2)) $((total * 3 / 4)) "$total"; do
        fail_one "$@"
    done
    note_short
}

# Runs the arguments of a row with no allocation failing, and counts their allocations.
count_allocations() {
    rm -f "$work/count"
    run_short 0 "$@"
    note_answer "$name, no allocation failing"
    total=$(cat "$work/count") || total=0
    short=0
}

# Runs the arguments of a row with the allocation `failing` of `total` failing.
fail_one() {
    run_short "$failing" "$@"
    if ran_short; then
        short=$((short + 1))
        note 0
    else
        note_answer "$name, allocation $failing of $total failing"
    fi
}

# Notes whether a failing allocation of the row gave the status of no memory.
note_short() {
    [ "$short" -ge 1 ]
    note $? "$name: none of $total failing allocations gave status $no_memory"
}

# log TEXT: the file log.csv, from a format of printf.
log() {
    # shellcheck disable=SC2059 # rows give formats
    printf "$1" >log.csv
}

# records NAME TEXT REPORT: log.csv has this text, and values.symple gives this report of it.
records() {
    log "key,text,label\n$2"
    row "$1" 0 "key | number | text | label | at | n | keys | texts\n$3--\n" \
        run values.symple log.csv
}

# unread NAME TEXT LINE: log.csv has this text and is refused with this line, by fields.symple.
unread() {
    log "$2"
    row "$1" 4 "log.csv: $3" run fields.symple log.csv
}

# script NAME UPDATE LINE: the script with this update is refused with this line.
script() {
    printf 'field x: num; state n: int [0..3] = 0; update { %s } report { n = n; }' "$2" >one.symple
    row "script: $1" 3 "script: $3" run one.symple absent.csv
}

# whole_script NAME TEXT LINE: the script of this text is refused with this line.
whole_script() {
    # shellcheck disable=SC2059 # rows give formats
    printf "$2" >whole.symple
    row "script: $1" 3 "script: $3" run whole.symple absent.csv
}

# many TEXT TIMES: the text so many times.
many() {
    yes "$1" | head -n "$2" | tr -d '\n'
}

# changed OLD NEW [OLD NEW]: changed.symple is capped.symple with new texts in place of old ones.
changed() {
    sed "s/$1/$2/; s/${3-$}/${4-}/" capped.symple >changed.symple
}

cc -O2 -shared -fPIC -o "$work/failing.so" "$here/failing_allocation.c" || exit 1
find_program
starter=$root/symple
cp "$here"/scripts/*.symple "$work"
cd "$work" || exit 1

# That a wrong answer is noticed: another status, report or line, and a run that isn't short.
log 'user\na\n'
run "$program" run counts.symple log.csv
expect 0 'user | n\na | 1\n--\n' && answered && ! ran_short
note $? "a right answer isn't taken for one"
for wrong in '1 user | n\na | 1\n--\n' '0 user | n\na | 2\n--\n' '0 ' '8 out of memory' '4 x'; do
    expect "${wrong%% *}" "${wrong#* }"
    ! answered
    note $? "an answer is taken for: $wrong"
done
run "$program" run absent.symple log.csv
expect 5 'absent.symple: read fault' && answered && ! ran_short
note $? "a right refusal isn't taken for one"
expect 5 'log.csv: read fault' && ! answered
note $? "a refusal is taken for one of another file"

# Whole runs, for every kind of script.
log 'x\n5\n5\n5\n5\n5\n'
row "a cell leaves its range" 1 'n\nfault: n overflows at record 4\n--\n' run capped.symple log.csv
log 'ts,user\n10,a\n20,a\n60,a\n5,b\n61,a\n'
row "sessions" 0 'user | sessions | open | longest\na | 1 | 2 | 2\nb | 0 | 1 | none\n--\n' \
    run sessions.symple log.csv
log 'ts,user\n1000000000000,a\n'
sed 's/num = 0/num = -1000000000000/' sessions.symple >early.symple
row "a test whose arithmetic fails is false" 0 \
    'user | sessions | open | longest\na | 0 | 1 | none\n--\n' run early.symple log.csv
log 'x\n1\n2\n3\n'
row "an enum cell" 0 'phase\nbusy\n--\n' run toggle.symple log.csv
row "one of six labels" 0 'c\nk5\n--\n' run cases.symple log.csv
row "a condition on two cells" 0 'n\n0\n--\n' run guarded.symple log.csv
log 'user\nc\na\nb\na\n'
row "groups in order" 0 'user | n\nc | 1\na | 2\nb | 1\n--\n' run counts.symple log.csv
log 'user,x\na,5\na,\n'
row "an empty text with a value" 0 'user | n | big\na | 5 | 5000000000000\n--\n' \
    run sums.symple log.csv
log 'user,x\na,1000000000000\n'
row "a report of more than 64 bits" 0 \
    'user | n | big\na | 1000000000000 | 1000000000000000000000000\n--\n' run sums.symple log.csv
log 'user,x\na,1000000000000\nb,1\na,1\nb,2\na,-5\n'
row "one group fails, another goes on" 1 \
    'user | n | big\na | fault: n overflows at record 3\nb | 3 | 3000000000000\n--\n' \
    run sums.symple log.csv
log 'user,x\na,1000000000001\n'
row "a number beyond the range" 4 'log.csv: record 1: field x is not a number' \
    run sums.symple log.csv
log '\357\273\277Time,"User ID",Action,Amount\r
2015-10-04T10:00,ann,cart,\r
2015-10-04T10:01,"Smith, Bob",cart,\r
2015-10-04T10:02,ann,buy,1299\r
2015-10-04T10:03,"Smith, Bob",view,\r
2015-10-04T10:04,ann,buy,500\r
2015-10-04T10:05,"Smith, Bob",buy,250\r
'
row "purchases after a cart" 0 \
    'user | buys | paid | biggest\nann | 1 | 1299 | 1299\nSmith, Bob | 1 | 250 | 250\n--\n' \
    run purchases.symple log.csv
log 'user\na\n'
row "a column without a number" 1 \
    'user | q | r | m | k\na | zero divisor | -7 | none | none\n--\n' run quotients.symple log.csv
changed 'n = n;' 'a = n * 1000000000000 * 1000000000000 * 1000000000000 * 1000000000000;'
log 'x\n1\n'
row "a column of more than 128 bits" 1 'a\noverflow\n--\n' run changed.symple log.csv
changed '0\.\.3' '0..10' 'n + 1' '-1 * n + 10'
log "x\n$(many '1\n' 7)"
row "a cell times a number" 0 'n\n10\n--\n' run changed.symple log.csv
changed '0\.\.3' '0..1000000000000' 'n + 1' '2 * n'
log "x\n$(many '1\n' 200)"
row "200 records" 0 'n\n0\n--\n' run changed.symple log.csv
changed '0\.\.3' '0..9' 'n + 1' 'n + x \/ x'
log 'x\n3\n0\n5\n'
row "a division by zero" 1 'n\nfault: arithmetic at record 2\n--\n' run changed.symple log.csv

# Fields.
records "fields of each kind" '3,w,red\n-1,v,green\n3,,\n' \
    '3 | 3 | empty | green | green | 2 | [3 3] | [w empty]
-1 | -1 | v | green | green | 1 | [-1] | [v]\n'
records "signs, zeros and blanks" \
    '+07,w,red\n \t7\t , w ,\tred \n0000000000000000000000007,w,red\n' \
    '7 | 7 | w | red | red | 3 | [7 7 7] | [w  w  w]\n'
records "the ends of the range" '1000000000000,w,red\n-1000000000000,w,red\n-0,w,red\n' \
    '1000000000000 | 1000000000000 | w | red | red | 1 | [1000000000000] | [w]
-1000000000000 | -1000000000000 | w | red | red | 1 | [-1000000000000] | [w]
0 | 0 | w | red | red | 1 | [0] | [w]\n'
records "texts of blanks" ' \t, , \t \n' '-1 | -1 |   | green | green | 1 | [-1] | [ ]\n'
records "quotes" '"1","a ""b"", c","red"\n1,"two\r\nlines",red\n1,"a"b,red\n1,a"b",red\n' \
    '1 | 1 | a"b" | red | red | 4 | [1 1 1 1] | [a "b", c two??lines ab a"b"]\n'
records "a quote that isn't closed" '1,w,red\n2,v,"red' \
    '1 | 1 | w | red | red | 1 | [1] | [w]\n2 | 2 | v | red | red | 1 | [2] | [v]\n'
records "CRLF, CR, LF and no end" '1,a,red\r\n1,b,red\r1,c,red\n1,d,red' \
    '1 | 1 | d | red | red | 4 | [1 1 1 1] | [a b c d]\n'
records "empty lines" '\n1,a,red\n\r\n\r\r\n1,b,red\n\n' \
    '1 | 1 | b | red | red | 2 | [1 1] | [a b]\n'
records "bytes below 32, 127 and beyond ASCII in words" \
    '1,"\001\t\177\037~\303\244\342\202\254",red\n' \
    '1 | 1 | ????~\303\244\342\202\254 | red | red | 1 | [1] | [????~\303\244\342\202\254]\n'
records "a NUL in a word" '1,a\000b,red\n' '1 | 1 | a?b | red | red | 1 | [1] | [a?b]\n'
records "no records" '' ''
log ''
row "a file of no bytes" 0 'user | n\n--\n' run counts.symple log.csv
log '\n\r\n'
row "a file of empty lines" 0 'user | n\n--\n' run counts.symple log.csv
log 'user'
row "a header without an end" 0 'user | n\n--\n' run counts.symple log.csv
log '\357\273\277user\na\n'
row "a byte-order mark" 0 'user | n\na | 1\n--\n' run counts.symple log.csv
log '\357\273\277\357\273\277user\na\n'
row "two byte-order marks" 0 'user | n\na | 1\n--\n' run counts.symple log.csv
log '\357\273\277\357\273\277\357\273\277user\na\n'
row "three byte-order marks" 4 'log.csv: header: no field user' run counts.symple log.csv
log '\357\273\277'
row "a byte-order mark alone" 0 'user | n\n--\n' run counts.symple log.csv
log 'user\n\357\273\277a\n'
row "a byte-order mark in a record" 0 'user | n\n\357\273\277a | 1\n--\n' run counts.symple log.csv
log 'x,user,y\n\377,a,\n1,b,"\300\n"\n\376,a,\n'
row "bytes that aren't UTF-8 in columns that aren't read" 0 'user | n\na | 2\nb | 1\n--\n' \
    run counts.symple log.csv
log 'x,user,x,x\n1,a,2,3\n'
row "other columns with one name" 0 'user | n\na | 1\n--\n' run counts.symple log.csv
log 'user,x\na b,\n"a b",\na  b,\na b ,\n'
row "blanks tell words apart" 0 'user | n\na b | 2\na  b | 1\na b  | 1\n--\n' \
    run counts.symple log.csv
log 'user\n""\nann\n""\n'
row "the empty word" 0 'user | n\n | 2\nann | 1\n--\n' run counts.symple log.csv

# Headers and records that are refused.
log 'name\na\n'
row "no such column" 4 'log.csv: header: no field user' run counts.symple log.csv
log 'user,user\na,b\n'
row "two such columns" 4 'log.csv: header: field user twice' run counts.symple log.csv
log 'User\na\n'
row "another case" 4 'log.csv: header: no field user' run counts.symple log.csv
log ' user\na\n'
row "a blank in a header" 4 'log.csv: header: no field user' run counts.symple log.csv
log '\377\n\377,\n'
row "a header that isn't UTF-8" 4 'log.csv: header: no field user' run counts.symple log.csv
log 'User ID,action,Amount,Action,Amount\na\n'
row "a header text of the script, before a record" 4 'log.csv: header: field Amount twice' \
    run purchases.symple log.csv
unread "the first field's fault" 'text,text,label\n' 'header: no field key'
unread "the header's faults in order of the script" 'label,label,text,text,key\n' \
    'header: field text twice'
unread "a short row" 'key,text,label\n1,w,red\n1,w\n' 'record 2: 2 fields'
unread "a long row" 'key,text,label\n1,w,red,\n' 'record 1: 4 fields'
unread "a row of one blank" 'key,text,label\n1,w,red\n \n' 'record 2: 1 fields'
unread "a quote that takes the next line" 'key,text,label\n1,"w,red\n1,w,red\n' 'record 1: 2 fields'
unread "another separator" 'key,text,label\n1;w;red\n' 'record 1: 1 fields'
for text in x 1.0 1e3 0x1 '1 2' - + +-1 1- '"1,000"' 1000000000001 -1000000000001 \
    9223372036854775808 340282366920938463463374607431768211457 \
    '1\000' '\357\274\221' '\302\2401'; do
    unread "no number" "key,text,label\n1,w,red\n$text,w,red\n" \
        'record 2: field key is not a number'
done
for text in Red 're d' redd '\000' 0 empty k1; do
    unread "no label" "key,text,label\n1,w,$text\n" 'record 1: field label is not a label'
done
for text in '\377' 'a\303' '\355\240\200' '\300\200' '\364\220\200\200' '"\342\202"'; do
    unread "a word that isn't UTF-8" "key,text,label\n1,$text,red\n" \
        'record 1: field text is not UTF-8'
done
unread "a number that isn't UTF-8" 'key,text,label\n1\377,w,red\n' \
    'record 1: field key is not UTF-8'
unread "a label that isn't UTF-8" 'key,text,label\n1,w,\377\n' 'record 1: field label is not UTF-8'
unread "the fields' faults in order of the script" 'label,text,key\nx,\377,y\n' \
    'record 1: field key is not a number'
unread "the number of fields comes first" 'key,text,label\nx,\377,x,x\n' 'record 1: 4 fields'
log 'user,x\na,1\nb,x\n'
row "the first bad record" 4 'log.csv: record 2: field x is not a number' run sums.symple log.csv
unread "an empty number without a value" 'key,text,label\n1,w,red\n,w,red\n' \
    'record 2: field key is not a number'
unread "a label of blanks without a value" 'key,text,label\n1,w, \t\n' \
    'record 1: field label is not a label'
log 'ts,user\n1,a\n2,a\n3,a\n4,a\n1,a,x\n6,a\nt,a\n8,a\n'
row "the first of two bad records" 4 'log.csv: record 5: 3 fields' run sessions.symple log.csv
log 'x\n5\n5\n5\n5\n5\nx\n'
row "a bad record after a fault" 4 'log.csv: record 6: field x is not a number' \
    run capped.symple log.csv

# Several files.
printf 'user,x\na,1\nb,2\n' >first.csv
printf 'y,x,user\n,1000000000000,a\n,5,c\n' >second.csv
printf 'user,x\nb,x\n' >third.csv
printf 'name\nb\n' >fourth.csv
: >empty.csv
: >-
row "two files" 1 \
    'user | n | big
a | fault: n overflows at record 3\nb | 2 | 2000000000000\nc | 5 | 5000000000000\n--\n' \
    run sums.symple first.csv second.csv
row "the same file twice" 0 'user | n | big\na | 2 | 2000000000000\nb | 4 | 4000000000000\n--\n' \
    run sums.symple first.csv first.csv
row "a file of no bytes between two files" 0 'user | n\na | 2\nb | 2\n--\n' \
    run counts.symple empty.csv first.csv empty.csv ./first.csv
row "a file named -" 0 'user | n\n--\n' run counts.symple -
row "records are numbered on" 4 'third.csv: record 5: field x is not a number' \
    run sums.symple first.csv second.csv third.csv
row "a later header" 4 'fourth.csv: header: no field user' run sums.symple first.csv fourth.csv
row "an absent later file" 5 'absent.csv: read fault' run sums.symple first.csv absent.csv
row "a bad record before an absent file" 4 'third.csv: record 3: field x is not a number' \
    run sums.symple first.csv third.csv absent.csv
row "an absent file before a bad record" 5 'absent.csv: read fault' \
    run sums.symple first.csv absent.csv third.csv
row "a header before an absent file" 4 'fourth.csv: header: no field user' \
    run sums.symple fourth.csv absent.csv
row "a folder as a later file" 5 './: read fault' run sums.symple first.csv ./
truncate -s 67108865 large.csv
row "a large file" 7 'large.csv: too large' run counts.symple large.csv
row "a large later file" 7 'large.csv: too large' run counts.symple first.csv large.csv
row "a bad record before a large file" 4 'third.csv: record 1: field x is not a number' \
    run sums.symple third.csv large.csv
{
    printf 'user\na\n'
    head -c $((67108864 - 7)) /dev/zero | tr '\0' '\n'
} >limit.csv
row_some "a file of 67,108,864 bytes" 0 'user | n\na | 1\n--\n' run counts.symple limit.csv
name=$(printf 'a b\nc \303\244')
cp third.csv "$name"
row "a name with a blank, a line end and a letter" 4 \
    "$name: record 1: field x is not a number" run sums.symple "$name"
name=$(many a 5000)
row "a long name" 5 "$name: read fault" run sums.symple "$name"
# shellcheck disable=SC2046 # so many arguments
row_some "65,536 files" 0 'user | n\na | 1\nb | 1\n--\n' \
    run counts.symple $(yes empty.csv | head -n 65535) first.csv
# shellcheck disable=SC2046 # so many arguments
row_some "65,537 files" 2 usage run counts.symple $(yes empty.csv | head -n 65537)

# Arguments.
row "no arguments" 2 usage
row "no script" 2 usage run
row "no file" 2 usage run counts.symple
row "another command" 2 usage walk counts.symple first.csv
row "another case of the command" 2 usage Run counts.symple first.csv
row "an option" 2 usage run --form counts.symple first.csv
row "help" 2 usage run counts.symple first.csv -h
# These the launcher answers itself.
starter=$program
row "a version" 2 usage --version
row "help alone" 2 usage --help
starter=$root/symple
row "options" 0 'user | n\na | 1\nb | 1\n--\n' \
    run --chunk 1 counts.symple --limit=1 first.csv --workers 2
row "a form" 0 'user | n\na | 1\nb | 1\n--\n' run counts.symple first.csv --form table
row "another form" 2 usage run --form html counts.symple first.csv
row "a number out of its range" 2 usage run --chunk 0 counts.symple first.csv
row "an option twice" 2 usage run --chunk 2 --chunk 2 counts.symple first.csv
row "a size limit" 7 'first.csv: too large' run --max-bytes 1 counts.symple first.csv
row "two dashes" 5 '-x: read fault' run -- counts.symple -x
row "an argument that isn't UTF-8" 2 usage run counts.symple "$(printf '\377')"
row "an empty argument" 5 ': read fault' run '' first.csv
row "faulty arguments before an absent script" 2 usage run absent.symple

# watched NAME STATUS TEXT LINES ARGUMENTS..: the arguments, with --watch among them, give this answer,
# after these lines on standard error. A standard error that is full or closed changes neither the
# status nor the report; where an allocation fails, the last line says so.
watched() {
    name=$1
    expect "$2" "$3"
    # shellcheck disable=SC2059 # rows give formats
    printf "$4" | cat - "$work/wanted.err" >"$work/lines"
    mv "$work/lines" "$work/wanted.err"
    shift 4
    count_allocations "$@"
    : >"$work/out"
    "$program" "$@" >"$out" 2>/dev/full
    status=$?
    [ "$status" -eq "$wanted" ] && cmp -s "$work/wanted.out" "$work/out"
    note $? "$name, with a full standard error: status $status in place of $wanted"
    : >"$work/out"
    "$program" "$@" >"$out" 2>&-
    status=$?
    [ "$status" -eq "$wanted" ] && cmp -s "$work/wanted.out" "$work/out"
    note $? "$name, with a closed standard error: status $status in place of $wanted"
    for failing in 1 $((total / 4)) $((total / 2)) $((total * 3 / 4)) "$total"; do
        run_short "$failing" "$@"
        answered || {
            [ "$status" -eq "$no_memory" ] && [ ! -s "$work/out" ] &&
                [ "$(tail -n 1 "$work/err")" = "symple: out of memory" ]
        }
        note $? "$name, allocation $failing of $total failing: status $status"
    done
}

# Partials, at the border of each round.
log "user\n$(many 'a\n' 130)"
watched "a watched run" 0 'user | n\na | 130\n--\n' \
    'symple: 64 records, 1 groups\nsymple: 128 records, 1 groups\nsymple: 130 records, 1 groups\n' \
    run --chunk 1 --watch counts.symple log.csv
watched "a watched run over two files" 0 'user | n\na | 260\n--\n' \
    'symple: 128 records, 1 groups\nsymple: 130 records, 1 groups
symple: 258 records, 1 groups\nsymple: 260 records, 1 groups\n' \
    run --watch --chunk 2 counts.symple log.csv log.csv
log "user\n$(many 'a\n' 99)a,b\n"
watched "a watched run with a bad record" 4 'log.csv: record 100: 2 fields' \
    'symple: 64 records, 1 groups\n' run --chunk 1 --watch counts.symple log.csv

# Runs in chunks and by workers: each allocation of each worker fails too.
printf 'ts,user\n10,a\n20,a\n60,a\n5,b\n61,a\n' >visits.csv
visits='user | sessions | open | longest\na | 1 | 2 | 2\nb | 0 | 1 | none\n--\n'
row "sessions by one worker" 0 "$visits" run --chunk 2 --workers 1 sessions.symple visits.csv
row "sessions by two workers" 0 "$visits" run --chunk 1 --workers 2 sessions.symple visits.csv
row "sessions in the smallest chunks and segments" 0 "$visits" \
    run --chunk 1 --limit 1 --workers 64 sessions.symple visits.csv
printf 'x\n5\n5\n5\n5\n5\n' >fives.csv
row "a fault in the second chunk" 1 'n\nfault: n overflows at record 4\n--\n' \
    run --chunk 2 --workers 3 capped.symple fives.csv
printf 'ts,user\n1,a\nt,b\n2,a,x\n' >torn.csv
row "the first bad record of two chunks" 4 'torn.csv: record 2: field ts is not a number' \
    run --chunk 1 --workers 2 sessions.symple torn.csv

# No chunk, limit or number of workers changes what a run writes.
setting=0

# agrees NAME ARGUMENTS..: a run over these arguments writes and ends by any setting as on one thread
# in the largest chunks.
agrees() {
    name=$1
    shift
    run "$program" run --chunk 65536 --workers 1 "$@"
    cp "$work/out" "$work/wanted.out"
    cp "$work/err" "$work/wanted.err"
    wanted=$status
    for chunk in 1 7 1024 65536; do
        for limit in 1 2 16 256; do
            for workers in 1 2 3 4 7 64; do
                setting=$((setting + 1))
                [ $((setting % every)) -eq 0 ] || continue
                run "$program" run --chunk $chunk --limit $limit --workers $workers "$@"
                note_answer "$name, by chunks of $chunk, limit $limit, $workers workers"
            done
        done
    done
}

# drawn SEED: the file drawn.csv, a random log with the fields of several scripts. One of five is
# long, one of two has many users, and in one of three a row is no record.
drawn() {
    awk -v seed="$1" 'BEGIN {
        srand(seed)
        split("view cart buy buy", actions, " ")
        print "ts,user,x,User ID,Action,Amount"
        rows = seed % 5 == 0 ? 3000 : int(rand() * 200)
        users = seed % 2 == 0 ? 200 : 7
        bad = seed % 3 == 0 ? int(rand() * rows) + 1 : 0
        for (row = 1; row <= rows; row++) {
            ts += int(rand() * 40)
            user = "u" int(rand() * users)
            x = rand() < 0.1 ? "" : rand() < 0.01 ? "1000000000000" : int(rand() * 20) - 9
            if (row == bad)
                print rand() < 0.5 ? ts "," user : "t," user ",x," user ",none,y"
            else
                print ts "," user "," x "," user "," actions[int(rand() * 4) + 1] "," x
        }
    }' >drawn.csv
}

pairs=0
for script in "$root"/examples/*.symple "$root"/examples/reference/*.symple; do
    for file in "$root"/examples/*.csv "$root"/examples/reference/*.csv; do
        run "$program" run "$script" "$file"
        [ "$status" -le 1 ] || continue
        agrees "${script##*/} over ${file##*/}" "$script" "$file"
        pairs=$((pairs + 1))
    done
done
[ "$pairs" -ge 12 ]
note $? "only $pairs pairs of an example's script and log"
seed=1
while [ "$seed" -le "$logs" ]; do
    drawn "$seed"
    for script in counts sums sessions purchases quotients; do
        agrees "$script over random log $seed" $script.symple drawn.csv
        agrees "$script over random log $seed, twice" $script.symple drawn.csv drawn.csv
    done
    seed=$((seed + 1))
done

# takes ARGUMENTS..: whether the program does what the rows that follow stand on.
takes() {
    run "$program" "$@"
    [ "$status" -eq 0 ]
    note $? "status $status of $*"
    [ "$status" -eq 0 ]
}

# Forms.
if takes run --form csv counts.symple first.csv; then
    printf 'Time,"User ID",Action,Amount\n1,ann,cart,\n2,"a ""b"", c",cart,\n' >bought.csv
    printf '3,ann,buy,1299\n4,"a ""b"", c",buy,250\n' >>bought.csv
    row "a report as csv" 0 \
        'user,buys,paid,biggest,fault\nann,1,1299,1299,\n"a ""b"", c",1,250,250,\n' \
        run --form csv purchases.symple bought.csv
    row "a report as pairs" 0 \
        'user="ann" buys=1 paid=1299 biggest=1299
user="a \\"b\\", c" buys=1 paid=250 biggest=250\n' \
        run --form pairs purchases.symple bought.csv
    row "a fault as csv" 1 'n,fault\n,n overflows at record 4\n' \
        run --form csv capped.symple fives.csv
    row "a fault as pairs" 1 'fault="n overflows at record 4"\n' \
        run --form pairs capped.symple fives.csv
    # By one worker and by two, as the form table is above.
    for workers in 1 2; do
        by="--chunk 1 --workers $workers"
        # shellcheck disable=SC2086 # words
        row "sessions by $workers as csv" 0 \
            'user,sessions,open,longest,fault\na,1,2,2,\nb,0,1,none,\n' \
            run --form=csv $by sessions.symple visits.csv
        # shellcheck disable=SC2086 # words
        row "sessions by $workers as pairs" 0 \
            'user="a" sessions=1 open=2 longest=2\nuser="b" sessions=0 open=1 longest=none\n' \
            run $by sessions.symple visits.csv --form pairs
    done
fi

# Checks of scripts, and runs over a made file.
if takes check counts.symple; then
    row "a check" 0 'cells 1 tests 0 paths 3\n' check capped.symple
    row "a check of tests" 0 'cells 3 tests 1 paths 8\n' check sessions.symple
    row "a check of labels" 0 'cells 3 tests 0 paths 7\n' check purchases.symple
    row "a printed script" 0 \
        'field x: num;
state n: int [0..3] = 0;
update {
  n = n + 1;
}
report {
  n = n;
}\n' \
        check --print capped.symple
    printf 'field x num;' >faulty.symple
    row "a check of a faulty script" 3 'script: unexpected token at byte 8' check faulty.symple
    row "a check of an absent script" 5 'absent.symple: read fault' check absent.symple
    row "a check with a file" 2 usage check capped.symple first.csv
    out=/dev/full
    row "a check on a full device" 6 'write fault' check capped.symple
    out=$work/out
fi
if takes make 5 1; then
    row "a made file" 0 'records 5\ngroups 3\nfaults 0\nsessions 0\n' make 5 1
    row "a made file in chunks" 0 'records 5\ngroups 3\nfaults 0\nsessions 0\n' \
        make --chunk 1 --limit 1 --workers 2 5 1
    made='records 100000\ngroups 10\nfaults 0\nsessions 42092\n'
    row_once "a long made file by one worker" 0 "$made" make --workers 1 100000 7
    row_once "a long made file by many workers" 0 "$made" make --workers 64 --chunk 16 100000 7
    row_once "a long made file" 0 "$made" make 100000 7
    row "no record to make" 2 usage make 0 1
    row "too many records to make" 2 usage make 1000001 1
fi

# A log in parts.
if takes map counts.symple first.csv; then
    changed 'n + 1' n
    kept='symple run 1\nscript 79\nfield x: num;\nstate n: int [0..3] = 0;\nupdate {\n  n = n;\n}
report {\n  n = n;\n}\n'
    group='groups 1\nkey\nchain 1\nsegment 1\nwhen i0..3\nnext x0,1,0\nend\n'
    printf 'x\n5\n5\n' >two.csv
    printf 'x\n5\n5\n5\n' >three.csv
    printf 'x\n5\ny\n' >bad.csv
    row "a run file" 0 "${kept}first 1\nnext 3\n$group" map changed.symple two.csv
    row "a run file of a later part" 0 "${kept}first 9999999999\nnext 10000000001\n$group" \
        map --first 9999999999 --chunk 1 --workers 2 changed.symple two.csv
    row "a run file without records" 0 "${kept}first 1\nnext 1\ngroups 0\nend\n" \
        map changed.symple empty.csv
    row "a bad record of a later part" 4 'bad.csv: record 8: field x is not a number' \
        map --first 7 changed.symple bad.csv
    row "no first record" 2 usage map --first 0 changed.symple two.csv
    row "a map in a form" 2 usage map --form csv changed.symple two.csv
    "$program" map changed.symple two.csv >a.run
    "$program" map --first 3 changed.symple three.csv >b.run
    "$program" map counts.symple first.csv >other.run
    "$program" map capped.symple fives.csv >fives.run
    head -c -1 a.run >cut.run
    sed 's/^when i0/when i1/' a.run >gap.run
    row "run files in order" 0 'n\n0\n--\n' reduce changed.symple a.run b.run
    row "a run file of a group that has ended" 1 'n\nfault: n overflows at record 4\n--\n' \
        reduce capped.symple fives.run
    row "run files out of order" 4 'b.run: records do not follow' \
        reduce changed.symple b.run a.run
    row "a run file twice" 4 'a.run: records do not follow' reduce changed.symple a.run a.run
    row "a run file that is cut off" 4 'cut.run: not a run file' reduce changed.symple cut.run b.run
    row "a run of another script" 4 'other.run: run of another script' \
        reduce changed.symple other.run b.run
    row "a gap" 4 'gap.run: no path for group 1' reduce changed.symple gap.run b.run
    row "a large run file" 7 'a.run: too large' reduce --max-bytes 9 changed.symple a.run
    row "an absent run file" 5 'absent.run: read fault' reduce changed.symple a.run absent.run
    row "a reduce from a record on" 2 usage reduce --first 1 changed.symple a.run
    out=/dev/full
    row "a run file on a full device" 6 'write fault' map changed.symple two.csv
    row "a report on run files on a full device" 6 'write fault' reduce changed.symple a.run b.run
    out=$work/out
fi

# Keys of two and of three fields, in another order than the fields are declared in. Two keys have
# words that are alike if they are put together.
if takes trace counts.symple first.csv && takes map counts.symple first.csv; then
    {
        echo 'field user: word; field place: word; group place, user; state n: int [0..9] = 0;'
        echo 'update { n = n + 1; } report { n = n; }'
    } >pairs.symple
    printf 'user,place\na,bc\nab,c\nb,bc\na,bc\n' >pairs.csv
    printf 'place,user\nc,ab\nbc,ab\nbc,a\n' >later.csv
    row "a trace of keys of two fields" 0 'record | place | user | n
1 | bc | a | 1\n2 | c | ab | 1\n3 | bc | b | 1\n4 | bc | a | 2
5 | c | ab | 2\n6 | bc | ab | 1\n7 | bc | a | 3\n--\n' \
        trace --chunk 1 --workers 2 pairs.symple pairs.csv later.csv
    "$program" map pairs.symple pairs.csv >pairs.run
    "$program" map --first 5 --chunk 1 --workers 2 pairs.symple later.csv >later.pairs.run
    row "run files of keys of two fields" 0 \
        'place | user | n\nbc | a | 3\nc | ab | 2\nbc | b | 1\nbc | ab | 1\n--\n' \
        reduce pairs.symple pairs.run later.pairs.run
    row "run files of keys of two fields as pairs" 0 \
        'place="bc" user="a" n=2\nplace="c" user="ab" n=1\nplace="bc" user="b" n=1\n' \
        reduce --form pairs pairs.symple pairs.run
    {
        printf 'enum mode { idle, busy }\nfield user: word;\nfield day: num;\n'
        printf 'field what: mode;\ngroup what, user, day;\nstate n: int [0..9] = 0;\n'
        printf 'update {\n  n = 5;\n}\nreport {\n  n = n;\n}\n'
    } >triples.symple
    printf 'user,day,what\na,1,busy\na,-1,idle\na,1,idle\na,1,busy\n,1,busy\n' >triples.csv
    {
        printf 'symple run 1\nscript %s\n' "$(wc -c <triples.symple)"
        cat triples.symple
        printf 'first 1\nnext 6\ngroups 4\n'
        for key in 'l1 w1:a n1' 'l0 w1:a n-1' 'l0 w1:a n1' 'l1 w0: n1'; do
            printf 'key %s\nchain 1\nsegment 1\nwhen i0..9\nnext n5\n' "$key"
        done
        echo end
    } >triples.run
    row "a run file of keys of three fields" 0 "$(cat triples.run)\n" \
        map --chunk 1 --workers 4 triples.symple triples.csv
    row "a report on a run file of keys of three fields" 0 'what,user,day,n,fault
busy,a,1,5,\nidle,a,-1,5,\nidle,a,1,5,\nbusy,,1,5,\n' \
        reduce --form csv triples.symple triples.run
    sed 's/n = 5/n = n + day/' triples.symple >sums_of_days.symple
    row "a trace of keys of three fields" 1 'record | what | user | day | n
1 | busy | a | 1 | 1\n2 | idle | a | -1 | fault: n overflows at record 2\n3 | idle | a | 1 | 1
4 | busy | a | 1 | 2\n5 | busy |  | 1 | 1\n--\n' \
        trace sums_of_days.symple triples.csv
fi

# Run files joined.
if takes join changed.symple a.run; then
    "$program" map --first 6 changed.symple empty.csv >none.run
    "$program" map --first 7 changed.symple two.csv >later.run
    "$program" map --first 1000 changed.symple two.csv >last.run
    row "a run file joined alone" 0 "${kept}first 1\nnext 3\n$group" join changed.symple a.run
    row "a run file of a later part alone" 0 "${kept}first 3\nnext 6\n$group" \
        join changed.symple b.run
    row "two run files joined" 0 "${kept}first 1\nnext 6\n$group" \
        join --limit 1 changed.symple a.run b.run
    row "a part without records joined" 0 "${kept}first 1\nnext 6\n$group" \
        join changed.symple a.run b.run none.run
    row "parts joined that have no records" 0 "${kept}first 6\nnext 6\ngroups 0\nend\n" \
        join changed.symple none.run none.run
    row "run files joined out of order" 4 'a.run: records do not follow' \
        join changed.symple b.run a.run
    row "a run file joined twice" 4 'a.run: records do not follow' join changed.symple a.run a.run
    row "run files joined without the one between" 4 'later.run: records do not follow' \
        join changed.symple a.run b.run later.run
    row "a run file joined that is cut off" 4 'cut.run: not a run file' \
        join changed.symple a.run cut.run
    row "a first run file that is cut off" 4 'cut.run: not a run file' \
        join changed.symple cut.run b.run
    # What is wrong shows after groups were joined, or it doesn't follow either.
    one='key\nchain 1\nsegment 1\nwhen i0..3\nnext x0,1,0\n'
    # shellcheck disable=SC2059 # the escapes are meant
    printf "${kept}first 3\nnext 6\ngroups 2\n$one${one}end\n" >twice.run
    # shellcheck disable=SC2059 # the escapes are meant
    printf "${kept}first 6\nnext 9\ngroups 2\n$one${one}end\n" >fresh.run
    sed 's/^end$/ends/' b.run >ends.run
    sed 's/^end$/ends/' later.run >later.ends.run
    row "a key that a run file names twice" 4 'twice.run: not a run file' \
        join changed.symple a.run twice.run
    row "a new key that a run file names twice" 4 'fresh.run: not a run file' \
        join changed.symple none.run fresh.run
    row "a run file joined with another last line" 4 'ends.run: not a run file' \
        join changed.symple a.run ends.run
    row "a run file that doesn't follow, with another last line" 4 \
        'later.ends.run: not a run file' join changed.symple a.run later.ends.run
    row "a run of another script joined" 4 'other.run: run of another script' \
        join changed.symple a.run other.run
    row "a first run of another script" 4 'other.run: run of another script' \
        join changed.symple other.run b.run
    row "a large later run file" 7 'last.run: too large' \
        join --max-bytes "$(wc -c <a.run)" changed.symple a.run last.run
    row "a large first run file" 7 'a.run: too large' join --max-bytes 9 changed.symple a.run
    row "an absent run file to join" 5 'absent.run: read fault' join changed.symple a.run absent.run
    row "a join in a form" 2 usage join --form csv changed.symple a.run
    row "a join in chunks" 2 usage join --chunk 1 changed.symple a.run
    row "a join from a record on" 2 usage join --first 1 changed.symple a.run
    row "a join by no path" 2 usage join --limit 0 changed.symple a.run
    row "a join of no file" 2 usage join changed.symple
    out=/dev/full
    row "run files joined on a full device" 6 'write fault' join changed.symple a.run b.run
    out=$work/out

    # A run file that was changed by hand: where no path goes on, segments stay apart.
    sed 's/^next x0,1,0/next n0/' a.run >zero.run
    sed 's/^when i0/when i1/' b.run >ones.run
    row "run files joined where no path goes on" 0 "${kept}first 1\nnext 6\ngroups 1\nkey
chain 2\nsegment 1\nwhen i0..3\nnext n0\nsegment 1\nwhen i1..3\nnext x0,1,0\nend\n" \
        join changed.symple zero.run ones.run
    "$program" join changed.symple zero.run ones.run >apart.run
    row "a report where no path goes on" 4 'apart.run: no path for group 1' \
        reduce changed.symple apart.run

    # Five parts: a fault in the second and another group's in the last, and keys that are first seen
    # in later parts. In each bracketing `reduce` writes what `run` writes over all of them.
    cat >levels.symple <<'END'
field user: word;
field up: num;
group user;
state level: int [0..9] = 5;
state seen: nums [0..9];
update { level = level + up; push seen level; }
report { level = level; seen = count(seen); highest = max(seen); }
END
    printf 'user,up\na,1\nb,1\na,2\n' >l1.csv
    printf 'user,up\nb,3\nc,-2\na,2\nb,-1\n' >l2.csv
    printf 'user,up\n' >l3.csv
    printf 'user,up\nd,4\nb,-3\nc,1\n' >l4.csv
    printf 'user,up\nd,1\ne,-5\nb,2\ne,1\nc,-9\n' >l5.csv
    run "$program" run levels.symple l1.csv l2.csv l3.csv l4.csv l5.csv
    expect "$status" ''
    cp "$work/out" "$work/whole.out"
    number=1
    for part in 1 2 3 4 5; do
        "$program" map --limit $((part % 3 + 1)) --first "$number" levels.symple "l$part.csv" \
            >"tree.$part.$part.1"
        number=$((number + $(wc -l <"l$part.csv") - 1))
    done
    for length in 2 3 4 5; do
        for first in 1 2 3 4; do
            last=$((first + length - 1))
            [ "$last" -le 5 ] || continue
            tree=0
            split=$first
            while [ "$split" -lt "$last" ]; do
                for left in tree."$first.$split".*; do
                    for right in tree."$((split + 1)).$last".*; do
                        tree=$((tree + 1))
                        "$program" join --limit $((tree * 5 % 17 + 1)) levels.symple \
                            "$left" "$right" >"tree.$first.$last.$tree"
                        note $? "$left and $right aren't joined"
                    done
                done
                split=$((split + 1))
            done
        done
    done
    for tree in tree.1.5.*; do
        run "$program" reduce levels.symple "$tree"
        [ "$status" -eq "$wanted" ] && cmp -s "$work/whole.out" "$work/out"
        note $? "a bracketing of five run files, $tree: another report than that of a run"
    done
    [ "$(find . -name 'tree.1.5.*' | wc -l)" -eq 14 ]
    note $? "five run files have other bracketings than 14"
    "$program" join levels.symple tree.1.2.1 tree.3.3.1 tree.4.5.1 >three.run
    run "$program" reduce levels.symple three.run
    [ "$status" -eq "$wanted" ] && cmp -s "$work/whole.out" "$work/out"
    note $? "three run files joined at once: another report than that of a run"

    # A count that can't overflow stays one segment a group: below the end of its range, and there.
    cat >tallies.symple <<'END'
field user: word;
group user;
state n: int [0..1000000] = 0 clamp;
update { n = n + 1; }
report { n = n; }
END
    "$program" map tallies.symple l1.csv >tally.run
    "$program" map --first 4 tallies.symple l2.csv >tally.2.run
    "$program" join tallies.symple tally.run tally.2.run >tallies.run
    [ "$(grep -c '^segment 2$' tallies.run)" -eq 3 ] && [ "$(grep -c '^chain 1$' tallies.run)" -eq 3 ]
    note $? "joined counts have other than one segment of two paths a group"
fi

# Scripts that aren't read.
row "an absent script" 5 'absent.symple: read fault' run absent.symple first.csv
row "a folder as a script" 5 './: read fault' run ./ first.csv
row "an absent script before an absent file" 5 'absent.symple: read fault' \
    run absent.symple absent.csv
head -c 65537 /dev/zero | tr '\0' ' ' >large.symple
row "a large script" 7 'large.symple: too large' run large.symple absent.csv
head -c 65536 large.symple >blank.symple
row "a script of 65,536 blanks" 3 'script: unexpected token at byte 65536' \
    run blank.symple first.csv
{
    cat counts.symple
    head -c $((65536 - $(wc -c <counts.symple))) large.symple
} >filled.symple
row "a script of 65,536 bytes" 0 'user | n\na | 1\nb | 1\n--\n' run filled.symple first.csv
row "a log as a script" 3 'script: unexpected token at byte 0' run first.csv first.csv

# Scripts that are refused, before their absent file is read.
script "a product of cells" 'n = n * n;' 'not linear at byte 54'
script "a sum of cells" 'n = n + n;' 'not linear at byte 54'
script "a name that isn't declared" 'n = m;' 'unknown name at byte 52'
script "a word for a number" 'n = "a";' 'wrong kind at byte 52'
script "a sum with a word" 'n = 1 + "a";' 'wrong kind at byte 54'
script "a local with a cell's name" 'let n = 1;' 'name taken at byte 52'
script "a cell as a condition" 'if n { }' 'wrong kind at byte 51'
script "a number beyond the range" 'n = 1000000000001;' 'bad number at byte 52'
script "a number with a letter" 'n = 1x;' 'bad number at byte 52'
script "a text without an end" 'n = "a;' 'bad text at byte 52'
script "another escape" 'n = "\n";' 'bad text at byte 52'
script "a byte of no token" '$' 'bad byte at byte 48'
script "a symbol's first half" 'if n ! 1 { }' 'bad byte at byte 53'
script "a name of 65 letters" "n = $(many a 65);" 'long name at byte 52'
script "a lexical fault after an unexpected token" 'n 1; $' 'bad byte at byte 53'
script "an unexpected token" 'n 1;' 'unexpected token at byte 50'
script "a quotient of a cell" 'n = n / 2;' 'not linear at byte 54'
script "two cells compared" 'if n == n { }' 'not linear at byte 53'
script "statements: 513" "$(many 'n = 1; ' 513)" 'limit of statements at byte 3632'
script "depth: 65" "n = $(many '(' 65)1$(many ')' 65);" 'limit of depth at byte 116'
script "operands: 257" "n = 1$(many ' + 1' 256);" 'limit of operands at byte 1076'
script "2,048 paths" "$(many 'if n < 1 { } ' 11)" '2048 paths'
script "paths beyond a million" "$(many 'if n < 1 { n = 0; } ' 20)" '1000000 paths'
whole_script "no bytes" '' 'unexpected token at byte 0'
whole_script "a comment alone" '# field' 'unexpected token at byte 7'
whole_script "a byte-order mark" '\357\273\277field x: num;' 'bad byte at byte 0'
whole_script "a NUL" 'field x\000: num;' 'bad byte at byte 7'
whole_script "a text that isn't UTF-8" 'field x from "\377": num;' 'bad text at byte 13'
whole_script "no colon" 'field x num;' 'unexpected token at byte 8'
whole_script "no state" 'field x: num; update { } report { n = 1; }' 'unexpected token at byte 14'
whole_script "enums: 17" "$(many 'enum e { a } ' 17)" 'limit of enums at byte 208'
whole_script "labels: 33" "enum e { a$(many ',a' 32) }" 'limit of labels at byte 73'
whole_script "fields: 33" "$(many 'field x: num; ' 33)" 'limit of fields at byte 448'
whole_script "cells: 33" "field x: num; $(many 'state s: words; ' 33)" 'limit of cells at byte 526'
whole_script "parts: 5" "field x: num; state h: hold(num = 0$(many ',num=0' 4));" \
    'limit of parts at byte 54'
whole_script "tests: 33" "field x: num; state s: words; $(many 'test t(a: num) = a; ' 33)" \
    'limit of tests at byte 670'
whole_script "parameters: 9" "field x: num; state s: words; test t(a: num$(many ',a:num' 8)) = a;" \
    'limit of parameters at byte 86'
whole_script "columns: 33" \
    "field x: num; state s: words; update { } report { $(many 'c = 1; ' 33)}" \
    'limit of columns at byte 274'
whole_script "a range upside down" \
    'field x: num; state n: int [3..0] = 0; update { } report { n = n; }' \
    'wrong range at byte 20'
whole_script "a part of a cell without parts" \
    'field x: num; state n: words; update { } report { a = part(n, 1); }' 'wrong kind at byte 54'
whole_script "a part beyond the parts" \
    'field x: num; state h: hold(num = 0); update { } report { a = part(h, 2); }' \
    'wrong range at byte 70'
whole_script "a group that is no field" \
    'field x: num; group y; state n: words; update { } report { n = n; }' \
    'unknown name at byte 20'

# A script of 65,536 bytes, which is a keep of as many values as there is room for, and a stack of
# 1 MiB.
{
    printf 'field x: num; state n: int [0..99] = 0; state h: hold(num = 0); update { keep h(1'
    yes ,1 | head -n 32716 | tr -d '\n'
    printf '); } report { n = n; }\n'
} >many.symple
[ "$(wc -c <many.symple)" -eq 65536 ]
note $? "the keep of many values hasn't 65,536 bytes"
# Limits that can be raised again aren't in POSIX, but the usual shells have them.
# shellcheck disable=SC3045 # see above
stack=$(ulimit -S -s)
# shellcheck disable=SC3045 # see above
ulimit -S -s 1024
row_some "a keep of many values, with a stack of 1 MiB" 3 'script: wrong kind at byte 78' \
    run many.symple first.csv
# shellcheck disable=SC3045 # see above
ulimit -S -s "$stack"

# Reports that can't be written, or only in part.
out=/dev/full
row "a full device" 6 'write fault' run counts.symple first.csv
row "a full device, and a report with a fault" 6 'write fault' run sums.symple first.csv second.csv
out=$work/out

# A file that may have 1,024 bytes at most, or fewer, takes a prefix of a longer report.
{
    echo user
    seq 1000
} >numbers.csv
run "$program" run counts.symple numbers.csv
cp "$work/out" whole.txt
# shellcheck disable=SC2016 # the inner shell's arguments
run sh -c 'trap "" XFSZ; ulimit -f 1 && exec "$0" run counts.symple numbers.csv' "$program"
size=$(wc -c <"$work/out")
head -c "$size" whole.txt >"$work/wanted.out"
echo "symple: write fault" >"$work/wanted.err"
wanted=6
[ "$size" -lt "$(wc -c <whole.txt)" ] && [ "$size" -gt 0 ] && answered
note $? "a report that is written in part: status $status, $size bytes"

counted passed failed
