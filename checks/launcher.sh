#!/bin/sh
# The launcher, by each shell that is installed of dash and bash: that it adds nothing to what the
# program writes, unless it is asked to; what it explains; which program it runs; and that signals,
# statuses, streams and names of any kind reach the program. Most of it is tried in a small checkout
# that is made here, with the real program as its dist/symple and a toolchain that only pretends.
# The last line counts what passed and failed.
# shellcheck disable=SC2016 # texts that a shell would expand are tried
set -u

# shellcheck source=checks/common.sh
. "$(dirname "$0")/common.sh"
find_program
examples=$root/examples
script=$examples/counter.symple
log=$examples/counter.csv
usage=$root/share/launcher/usage.txt

# Makes the checkout: two crates below the program, one beside it.
make_checkout() {
    here=$work/"a checkout"
    built=$here/crates/symple/out/symple
    mkdir -p "$here/share" "$here/dist"
    cp "$root/symple" "$here/symple"
    cp -r "$root/share/launcher" "$here/share"
    cp "$root/dist/sources.sh" "$here/dist"
    cp "$program" "$here/dist/symple"
    for crate in symple sym_low sym_other; do
        mkdir -p "$here/crates/$crate/src/part" "$here/crates/$crate/specs" \
            "$here/crates/$crate/proofs" "$here/crates/$crate/mutants"
        for file in src/lib.rt src/part/one.rt specs/One.antt proofs/One.antt mutants/one.edit \
            README.md; do
            echo "$crate $file" >"$here/crates/$crate/$file"
        done
    done
    printf '# crates\nsymple: sym_low std\nsym_other: sym_low\nsym_low: std\n' >"$here/crates.txt"
    (cd "$here/dist" && sha256sum symple >SHA256 && ./sources.sh >SOURCES)
    echo 'kit of a trial' >>"$here/dist/SOURCES"
}

# Makes the directories of tools: `plain` has what the launcher needs, and `rt` a toolchain beside,
# which notes that it is called, and builds if there is no file `fails`.
make_tools() {
    mkdir "$work/plain" "$work/rt"
    for tool in sh awk cat dirname find grep head mkdir mkfifo mktemp mv readlink rm sed sha256sum \
        sort touch tr wc xargs dash bash; do
        path=$(command -v "$tool") && ln -s "$path" "$work/plain/$tool"
    done
    cat >"$work/rt/rt" <<'end'
#!/bin/sh
PATH=$PATH:/usr/bin:/bin
here=$(dirname "$0")
echo "$*" >>"$here/calls"
[ ! -e "$here/fails" ] || exit 1
[ "$1" != version ] || exec echo "kit of a trial"
mkdir -p out && cp ../../dist/symple out/symple && echo built >&2
end
    chmod +x "$work/rt/rt"
}

# start ARGUMENTS..: the launcher of the checkout, by the shell that is tried, without a toolchain.
start() {
    run env PATH="$work/plain" "$shell" "$here/symple" "$@"
}

# start_rt ARGUMENTS..: the same with the toolchain; `calls` is how often that was called.
start_rt() {
    : >"$work/rt/calls"
    run env PATH="$work/rt:$work/plain" "$shell" "$here/symple" "$@"
    calls=$(wc -l <"$work/rt/calls")
}

# says TEXT: whether standard error has this text in a line.
says() {
    grep -qF -- "$1" "$work/err"
}

# same NAME ARGUMENTS..: the launcher answers what the program does. Explained, it adds lines.
same() {
    name=$1
    shift
    run "$program" "$@"
    cp "$work/out" "$work/program.out"
    cp "$work/err" "$work/program.err"
    wanted=$status
    start "$@"
    [ "$status" -eq "$wanted" ] && cmp -s "$work/out" "$work/program.out" &&
        cmp -s "$work/err" "$work/program.err"
    note $? "$shell: $name: another answer than the program's"
    SYMPLE_EXPLAIN=1 start "$@"
    [ "$status" -eq "$wanted" ] && cmp -s "$work/out" "$work/program.out" &&
        cmp -s -n "$(wc -c <"$work/program.err")" "$work/err" "$work/program.err"
    note $? "$shell: $name: another answer than the program's, when it is explained"
}

# explained NAME TEXT..: the run before was explained by lines with these texts.
explained() {
    name=$1
    shift
    for text do
        says "$text"
        note $? "$shell: $name: not explained by \"$text\", but: $(cat "$work/err")"
    done
}

# slip EDIT LINE MARK HINT: lift.symple, edited by sed, is refused and shown at this line, with a
# mark under this column, and with this hint.
slip() {
    sed "$1" "$examples/lift.symple" >"$work/slip.symple"
    SYMPLE_EXPLAIN=1 start check "$work/slip.symple"
    mark=$(printf "%$(($3 + 3))s^" '')
    [ "$status" -eq 3 ] && says "slip.symple:$2:$3:" && grep -qxF -- "$mark" "$work/err"
    note $? "$shell: $1: not shown at $2:$3, but: $(cat "$work/err")"
    explained "$1" "$4"
}

# update TEXT COLUMN HINT: the same for a statement in place of the only one of its update.
update() {
    slip "s!aboard = aboard + people;!$1!" 8 "$2" "$3"
}

# record TEXT LINE VALUE HINT: a log of this text, read by a script with a number, a label and a
# word, is refused at this line.
record() {
    # shellcheck disable=SC2059 # rows give formats
    printf "$1" >"$work/log.csv"
    SYMPLE_EXPLAIN=1 start run "$work/kinds.symple" "$work/log.csv"
    [ "$status" -eq 4 ] && says "log.csv:$2:"
    note $? "$shell: $1: not shown on line $2, but: $(cat "$work/err")"
    explained "$1" "$3" "$4"
}

try_help() {
    for words in --help -h help 'run --help' 'check -h'; do
        # shellcheck disable=SC2086 # words of a command line
        start $words
        [ "$status" -eq 0 ] && cmp -s "$usage" "$work/out" && [ ! -s "$work/err" ]
        note $? "$shell: $words doesn't show the help"
    done
    start --version
    [ "$status" -eq 0 ] && sed 1d "$work/out" >"$work/version" && {
        echo "path $here/dist/symple"
        echo "sha256 $(cut -d ' ' -f 1 "$here/dist/SHA256")"
        cat "$here/dist/SOURCES"
    } | cmp -s - "$work/version"
    note $? "$shell: --version says something else than dist: $(cat "$work/out" "$work/err")"
    start
    [ "$status" -eq 2 ] && [ ! -s "$work/out" ] && [ "$(cat "$work/err")" = 'symple: usage' ]
    note $? "$shell: no arguments: another answer than the program's"
    SYMPLE_EXPLAIN=1 start
    [ "$status" -eq 2 ] && [ ! -s "$work/out" ] && sed 1d "$work/err" | cmp -s - "$usage"
    note $? "$shell: no arguments: the help isn't shown where that is asked for"
}

try_answers() {
    same "a report" run "$script" "$log"
    same "a report as csv" run --form=csv "$script" --chunk 1 -- "$log"
    same "a faulty row" run "$work/low.symple" "$examples/games.csv"
    same "no such command" runs "$script" "$log"
    same "a script that is refused" run "$examples/reference/slip.symple" "$log"
    same "a header that is refused" run "$examples/lift.symple" "$log"
    same "an absent log" run "$script" "$work/absent.csv"
    same "an absent script" run "$work/absent.symple" "$log"
    same "a large file" run "$script" /dev/zero
    same "progress" run --watch "$script" "$log"
    same "progress before a refused log" run --watch "$script" "$log" "$work/absent.csv"
    same "progress of a refused script" run "$examples/reference/slip.symple" "$log" --watch
    explained "progress of a refused script" ':5:21:'
    same "progress first of a refused script" run --watch "$examples/reference/slip.symple" "$log"
    explained "progress first of a refused script" ':5:21:'
    same "the text of a script" check --print "$script"
    same "no run file" reduce "$script" "$log"
    run "$shell" "$here/symple" run "$script" "$log" >/dev/full
    "$shell" "$here/symple" run "$script" "$log" >/dev/full 2>"$work/err"
    [ $? -eq 6 ] && says 'symple: write fault'
    note $? "$shell: a full disk isn't answered with 6"
    for set in 0 1; do
        SYMPLE_EXPLAIN=$set "$shell" "$here/symple" run "$script" "$log" >"$out" 2>&- &&
            cmp -s "$out" "$work/counter.report"
        note $? "$shell: a closed standard error changes the report"
        SYMPLE_EXPLAIN=$set "$shell" "$here/symple" run "$script" "$log" >"$out" 2>/dev/full &&
            cmp -s "$out" "$work/counter.report"
        note $? "$shell: a full standard error changes the report"
        SYMPLE_EXPLAIN=$set "$shell" "$here/symple" run "$script" "$log" >"$out" <&- &&
            cmp -s "$out" "$work/counter.report"
        note $? "$shell: a closed standard input changes the report"
    done
}

try_scripts() {
    update 'aboard += people;' 10 'write aboard = aboard + people;'
    update 'aboard++;' 9 'write aboard = aboard + 1;'
    update 'if people = 3 { }' 13 'compare by =='
    update 'if people == 3 aboard = 2;' 18 'stands in braces'
    update 'if people > 3 { } elif people > 2 { }' 26 'write else if'
    update '// none' 3 'a comment begins with #'
    update 'if 1 < people < 3 { }' 17 'one comparison at a time'
    update "if people > 'a' { }" 15 'texts stand in " and "'
    update 'if people > “a” { }' 15 'texts stand in " and "'
    update 'if people > 1 \&\& people < 3 { }' 17 'write and'
    slip 's/aboard = aboard + people;/if !people { }/' 8 6 'write not'
    update 'aboard = 1.5;' 13 'numbers are whole'
    update 'aboard = 1_000;' 12 'a number has digits alone'
    update 'aboard = 1000000000001;' 12 'numbers are at most 1000000000000'
    update 'aboard = max(aboard - 1, 0);' 12 'a cell marked clamp stays in its range'
    update 'if people { }' 6 'a condition compares: people != 0'
    update 'let b = people < 2;' 18 'a comparison stands in an if or a test'
    update 'let b = aboard;' 11 'use the cell itself'
    update 'if people is "3" { }' 13 'a word is compared by =='
    update 'aboard = "a" + 1;' 16 "words can't be joined"
    update 'if aboard > aboard { }' 13 "two cells can't be compared"
    update 'aboard = aboard * aboard;' 19 'combine cells in the report'
    update 'aboard = persons;' 12 'has this name'
    update 'aboard = People;' 12 'it is declared as people'
    slip 's/ + people;/ + people/' 9 1 'is a ; missing before it?'
    slip 's/^field people/field from/' 3 7 'from is a word of the language'
    slip 's/^field people/field lift-people/' 3 11 'field x from "lift-people"'
    slip 's/^field/enum act { add-it, out } &/' 3 15 'read a word'
    slip 's/\[0..8\] //' 5 19 'a cell has a range'
    slip 's/int \[0..8\]/num/' 5 15 'int [LEAST..GREATEST] = FIRST'
    slip 's/= 0;/clamp = 0;/' 5 26 'clamp is last'
    slip 's/: num/: int/' 3 15 'a field is num, word or an enum'
    slip 's/: num/: string/' 3 15 'a field of texts is a word'
    slip 's/^field/enum people { in } &/' 3 26 'from "people": people;'
    slip 's/^state/state aboard: words; &/' 5 28 'it is taken on line 5'
    slip 's/^state/group by people; &/' 5 10 'write group people;'
    slip 's/^state/group people; group people; &/' 5 15 'one group line names all'
    slip 's/^state/group a, b, c, d; &/' 5 16 'at most 3'
    slip 's/8\]/-1]/' 5 7 'the first value lies in it'
    slip 's/= aboard;/= people;/' 12 12 'the report knows no fields'
    slip 's/= aboard;/= max(aboard);/' 12 12 'max takes a list'
    slip 's/= aboard;/= aboard > 0;/' 12 19 'a report has no conditions'
    slip '$d' 12 19 'the script ends too early'
    many=$(yes 'if aboard > 3 { aboard = 1; }' | head -n 12 | tr -d '\n')
    sed "s/aboard = aboard + people;/$many/" "$examples/lift.symple" >"$work/slip.symple"
    SYMPLE_EXPLAIN=1 start check "$work/slip.symple"
    explained "too many paths" 'symple: script: 12286 paths' 'at most 1024 paths'
    printf 'field x: num;\n\t"ä" $' >"$work/slip.symple"
    SYMPLE_EXPLAIN=1 start check "$work/slip.symple"
    says 'slip.symple:2:7:' && grep -qxF "$(printf '    \t    ^')" "$work/err"
    note $? "$shell: a mark after a tab and a letter of two bytes: $(cat "$work/err")"
    printf 'field x: num; # \033[31m $\n$' >"$work/slip.symple"
    SYMPLE_EXPLAIN=1 start check "$work/slip.symple"
    says 'slip.symple:2:1:' && ! grep -q "$(printf '\033')" "$work/err"
    note $? "$shell: a byte for the terminal is passed on: $(cat "$work/err")"
}

try_records() {
    record 'n,l,w\n1,red,\n1.5,red,\n' 3 'n is "1.5"' 'numbers are whole'
    record 'n,l,w\n1,red,"a\nb\n"\n\n,red,\n' 6 'n is ""' 'else 0;'
    record 'n,l,w\r\n1759500000000,red,\r\n' 2 'n is "1759500000000"' 'epoch milliseconds'
    record 'n,l,w\n2026-01-31,red,\n' 2 'n is "2026-01-31"' 'a time has to be a number'
    record 'n,l,w\n"1,000",red,\n' 2 'n is "1,000"' 'without signs between'
    record 'n,l,w\n$5,red,\n' 2 'n is "$5"' 'a number is digits'
    record 'n,l,w\n1,Red,\n' 2 'l is "Red"' 'it differs from red'
    record 'n,l,w\n1,blue,\n' 2 'l is "blue"' 'the labels are red, dark_green'
    record 'n,l,w\n1,red,"a ""b"", c"\n1,red,\377\n' 3 'w is' 'another encoding'
    record 'n,l,w\n1,red,a,b\n' 2 'the header has 3 fields, and this record has 4' 'in quotes'
    record 'n,l,w\n1,red,"a\n1,red,b\n"c",x,y\n' 2 'this record has 5' 'is a quote not closed?'
    record 'n,l,w\n1;red;a\n' 2 'this record has 1' 'separated by commas'
    record 'n;l;w\n1;red;a\n' 1 'n;l;w' 'separated by commas'
    record 'n,L,w\n' 1 'n,L,w' 'write field x from "L"'
    record 'n,l,w,n\n' 1 'n,l,w,n' 'rename one of the two'
    printf 'n,l,w\n1,red,\n' >"$work/first.csv"
    printf 'n,l,w\n1,red,\nx,red,\n' >"$work/second.csv"
    SYMPLE_EXPLAIN=1 start map --first 5 "$work/kinds.symple" "$work/first.csv" "$work/second.csv"
    explained "a record of a second file" 'second.csv: record 7:' 'second.csv:3:' 'n is "x"'
    SYMPLE_EXPLAIN=1 start reduce "$work/kinds.symple" "$work/first.csv"
    explained "no run file" 'run files are what symple map writes'
    printf 'n,l,w\n1,red,\nx,red,\n' >"$work/log.csv"
    run env SYMPLE_EXPLAIN=1 "$shell" "$here/symple" run "$work/kinds.symple" /dev/stdin \
        <"$work/log.csv"
    explained "a log as standard input" '/dev/stdin:3:' 'n is "x"'
}

try_files() {
    SYMPLE_EXPLAIN=1 start run "$script" "$work/absent.csv"
    explained "an absent log" 'There is no such file.'
    SYMPLE_EXPLAIN=1 start run "$script" "$work/absent/absent.csv"
    explained "an absent directory" 'There is no such directory.'
    SYMPLE_EXPLAIN=1 start run "$script" "$log" "$work"
    explained "a directory" 'It is a directory.'
    ln -sf nowhere "$work/broken"
    SYMPLE_EXPLAIN=1 start run "$script" --chunk=1 --form csv "$work/broken"
    explained "a broken link" "a link to a file that isn't there"
    SYMPLE_EXPLAIN=1 start run "$script" -
    explained "a lone -" 'standard input is /dev/stdin'
    SYMPLE_EXPLAIN=1 start run "$script" --max-bytes 7 "$log"
    explained "a large log" "It has $(wc -c <"$log") bytes." '--max-bytes 268435456 is the most'
    SYMPLE_EXPLAIN=1 start run /dev/zero "$log"
    explained "a large script" 'A script has at most 65536 bytes.'
    SYMPLE_EXPLAIN=1 start run "$script"
    explained "a faulty command line" 'symple --help shows'
}

# A script on standard input, names with odd bytes, and open files that have only a number.
try_streams() {
    for set in 0 1; do
        SYMPLE_EXPLAIN=$set "$shell" "$here/symple" run /dev/stdin "$log" <"$script" >"$out" &&
            cmp -s "$out" "$work/counter.report"
        note $? "$shell: a script as standard input"
        # shellcheck disable=SC2002 # a pipe is tried
        cat "$script" | SYMPLE_EXPLAIN=$set "$shell" "$here/symple" run /dev/stdin "$log" >"$out" &&
            cmp -s "$out" "$work/counter.report"
        note $? "$shell: a script from a pipe"
        for number in 3 4 5 6 7 8 9; do
            eval "SYMPLE_EXPLAIN=$set \"\$shell\" \"\$here/symple\" run \"\$script\" \
                /dev/fd/$number $number<\"\$log\"" >"$out" && cmp -s "$out" "$work/counter.report"
            note $? "$shell: a log as the open file $number"
        done
        SYMPLE_EXPLAIN=$set "$shell" "$here/symple" run "$script" /dev/fd/9 3<&0 4<&0 5<&0 6<&0 \
            7<&0 8<&0 9<"$log" >"$out" && cmp -s "$out" "$work/counter.report"
        note $? "$shell: all numbers are taken"
    done
    run env SYMPLE_EXPLAIN=1 "$shell" "$here/symple" check /dev/stdin \
        <"$examples/reference/slip.symple"
    explained "a refused script as standard input" '/dev/stdin:5:21:'
    # shellcheck disable=SC2002 # a pipe is tried
    cat "$examples/reference/slip.symple" | SYMPLE_EXPLAIN=1 "$shell" "$here/symple" check \
        /dev/stdin 2>"$work/err"
    explained "a refused script from a pipe" "the script can't be read again"
    for odd in 'a b' "it's" '*' 'a"b' '$x' '`x`' 'a\b' 'é' -x "two
lines"; do
        cp "$log" "$work/names/$odd"
        same "a log named $odd" run "$script" -- "$work/names/$odd"
        cp "$examples/reference/slip.symple" "$work/names/$odd"
        (cd "$work/names" && SYMPLE_EXPLAIN=1 "$shell" "$here/symple" check -- "$odd" 2>"$work/err")
        explained "a script named $odd" ':5:21:' 'aboard + persons'
        (cd "$work/names" && SYMPLE_EXPLAIN=1 "$shell" "$here/symple" run "$script" -- "$odd.csv" \
            2>"$work/err")
        explained "an absent log named $odd.csv" 'There is no such file.'
        rm "$work/names/$odd"
    done
}

# The pipe that a shell has of its own, or one by mkfifo, or none at all: bash of old had none.
try_pipes() {
    for words in NONE=1 BASH_COMPAT=50 'BASH_COMPAT=50 TMPDIR=/absent'; do
        # shellcheck disable=SC2086 # words of a command line
        run env SYMPLE_EXPLAIN=1 $words "$shell" "$here/symple" check \
            "$examples/reference/slip.symple"
        [ "$status" -eq 3 ] && says 'symple: script: unknown name at byte 153'
        note $? "$shell: with $words another answer"
        says ':5:21:' || [ "$words" = 'BASH_COMPAT=50 TMPDIR=/absent' ]
        note $? "$shell: with $words nothing is explained"
    done
}

# The launcher by links, by PATH and by a relative name.
try_links() {
    mkdir -p "$work/links/bin"
    ln -sf "$here/symple" "$work/links/absolute"
    ln -sf '../a checkout/symple' "$work/links/relative"
    ln -sf ../relative "$work/links/bin/symple"
    for name in absolute relative bin/symple; do
        run "$work/links/$name" run "$script" "$log"
        [ "$status" -eq 0 ] && cmp -s "$out" "$work/counter.report"
        note $? "as the link $name"
        run "$shell" "$work/links/$name" run "$script" "$log"
        [ "$status" -eq 0 ] && cmp -s "$out" "$work/counter.report"
        note $? "$shell: as the link $name"
    done
    run env PATH="$work/links/bin:$PATH" symple run "$script" "$log"
    [ "$status" -eq 0 ] && cmp -s "$out" "$work/counter.report"
    note $? "by PATH"
    (cd "$here" && "$shell" symple run "$script" "$log" >"$out") &&
        cmp -s "$out" "$work/counter.report"
    note $? "$shell: in its own directory"
    (cd / && CDPATH=$work:/tmp "$shell" "$here/symple" run "$script" "$log" >"$out") &&
        cmp -s "$out" "$work/counter.report"
    note $? "$shell: with CDPATH"
}

# On a terminal what is refused is explained; what is written there is else the same.
try_terminal() {
    if ! command -v script >/dev/null; then
        skipped "no script: no terminal is tried"
        return
    fi
    for command in "check '$examples/reference/slip.symple'" ''; do
        SHELL=/bin/sh script -qec "'$shell' '$here/symple' $command" /dev/null </dev/null \
            >"$work/err"
        ended=$?
        case $command in
            '') [ "$ended" -eq 2 ] && says 'symple --version' ;;
            *) [ "$ended" -eq 3 ] && says 'slip.symple:5:21:' ;;
        esac
        note $? "$shell: on a terminal, \"$command\" isn't explained"
    done
    SHELL=/bin/sh SYMPLE_EXPLAIN=0 script -qec "'$shell' '$here/symple'" /dev/null </dev/null \
        >"$work/err"
    [ "$(wc -l <"$work/err")" -eq 1 ]
    note $? "$shell: explained on a terminal, though SYMPLE_EXPLAIN is 0"
}

# A signal that the launcher is sent reaches the program, and is how both end.
try_signals() {
    if ! command -v python3 >/dev/null; then
        skipped "no python3: no signal is tried"
        return
    fi
    mkfifo "$work/slow"
    for set in 0 1; do
        for signal in TERM HUP INT USR1 KILL; do
            SYMPLE_EXPLAIN=$set python3 - "$signal" "$shell" "$here/symple" run "$script" \
                "$work/slow" <<'end'
import os, signal, subprocess, sys, time

name, command, slow = sys.argv[1], sys.argv[2:], sys.argv[-1]
number = getattr(signal, "SIG" + name)
is_asked = os.environ["SYMPLE_EXPLAIN"] == "1"
nothing = subprocess.DEVNULL
# A check in the background of a shell has INT ignored, one under nohup HUP, and whom it starts
# inherits that.
signal.signal(signal.SIGINT, signal.SIG_DFL)
signal.signal(signal.SIGHUP, signal.SIG_DFL)
launcher = subprocess.Popen(command, stdin=nothing, stdout=subprocess.PIPE, stderr=nothing)
writer = os.open(slow, os.O_WRONLY)
time.sleep(0.1)
launcher.send_signal(number)
if name == "KILL" and is_asked:
    # Nobody can pass it on: the program goes on alone.
    os.close(writer)
launcher.communicate(timeout=20)
sys.exit(launcher.returncode != -number)
end
            note $? "$shell: SYMPLE_EXPLAIN=$set: it doesn't end by the signal $signal, or not both"
        done
    done
    rm "$work/slow"
}

# changed NAME COMMAND..: after this change the program isn't that of the code any more.
changed() {
    name=$1
    shift
    cp -rp "$here/crates" "$work/kept.crates"
    cp -p "$here/crates.txt" "$work/kept.txt"
    (cd "$here" && "$@")
    start run "$script" "$log"
    [ "$status" -eq 127 ] && [ ! -s "$out" ] && says "isn't the program of this code"
    note $? "$shell: $name: status $status in place of 127"
    rm -rf "$here/crates"
    mv "$work/kept.crates" "$here/crates"
    mv "$work/kept.txt" "$here/crates.txt"
    stays "$name, and back" true
}

# stays NAME COMMAND..: after this change it still is.
stays() {
    name=$1
    shift
    (cd "$here" && "$@")
    start run "$script" "$log"
    [ "$status" -eq 0 ] && cmp -s "$out" "$work/counter.report"
    note $? "$shell: $name: status $status in place of 0"
}

# Whether dist/symple is the program of the code. The times of files say nothing that is wrong.
try_sources() {
    stays "a new checkout" rm -rf crates/symple/out
    stays "no room for what was seen" sh -c 'rm -r crates/symple/out && : >crates/symple/out'
    stays "dist is older" touch -d 2001-01-01 dist/symple dist/SHA256 dist/SOURCES dist
    rm "$here/crates/symple/out"
    sleep 1.1
    stays "a look at all" true
    mv "$work/plain/sha256sum" "$work/sha256sum.kept"
    stays "a second run, which reads nothing again" true
    mv "$work/sha256sum.kept" "$work/plain/sha256sum"
    cp -rp "$here/crates" "$work/kept.crates"
    echo x >>"$here/crates/sym_low/src/lib.rt"
    cp -r "$here" "$work/copy"
    touch "$work/copy/crates/symple/out/dist-seen"
    run env PATH="$work/plain" "$shell" "$work/copy/symple" run "$script" "$log"
    [ "$status" -eq 127 ]
    note $? "$shell: a copy of other code, with new dates: status $status in place of 127"
    rm -rf "$here/crates" "$work/copy"
    mv "$work/kept.crates" "$here/crates"
    changed "an edit" sh -c 'echo x >>crates/sym_low/src/part/one.rt'
    changed "an edit with an old date" \
        sh -c 'echo x >>crates/symple/src/lib.rt && touch -d 2001-01-01 crates/symple/src/lib.rt'
    changed "another file with an old date in its place" \
        sh -c 'echo x >new && touch -d 2001-01-01 new && mv new crates/sym_low/src/lib.rt'
    changed "a new file" sh -c 'echo x >crates/sym_low/src/new.rt'
    changed "a file that is gone" rm crates/sym_low/src/part/one.rt
    changed "another name" mv crates/sym_low/src/part/one.rt crates/sym_low/src/part/two.rt
    changed "another line of crates.txt" sh -c 'sed s/sym_low:/sym_low:\ core/ crates.txt >new &&
        mv new crates.txt'
    stays "another crate" sh -c 'echo x >>crates/sym_other/src/lib.rt'
    stays "the line of another crate" sh -c 'sed s/sym_other:/sym_other:\ core/ crates.txt >new &&
        mv new crates.txt'
    stays "a README" sh -c 'echo x >>crates/sym_low/README.md'
    stays "a mutant" sh -c 'echo x >>crates/sym_low/mutants/one.edit'
    stays "a proof" sh -c 'echo x >>crates/sym_low/proofs/One.antt'
    stays "a file that is no source" sh -c 'echo x >crates/sym_low/src/lib.rt~'
    cp -p "$here/dist/symple" "$work/kept.symple"
    printf x >>"$here/dist/symple"
    start run "$script" "$log"
    [ "$status" -eq 127 ]
    note $? "$shell: another program in dist: status $status in place of 127"
    mv "$work/kept.symple" "$here/dist/symple"
    stays "the program again" true
}

# Where it isn't, the program is proved and built, by a toolchain that is there.
try_build() {
    rm -rf "$here/crates/symple/out"
    start_rt run "$script" "$log"
    [ "$status" -eq 0 ] && [ "$calls" -eq 0 ] && [ ! -s "$work/err" ]
    note $? "$shell: dist is there, and something is built"
    SYMPLE_PROVE=1 start_rt run "$script" "$log"
    [ "$status" -eq 0 ] && [ "$calls" -eq 1 ] && says 'proving and building' && [ -x "$built" ] &&
        cmp -s "$out" "$work/counter.report"
    note $? "$shell: SYMPLE_PROVE=1 doesn't build: $(cat "$work/err")"
    rm -rf "$here/crates/symple/out"
    echo x >>"$here/crates/sym_low/src/lib.rt"
    start --version
    [ "$status" -eq 127 ] && says 'no program of this code is built'
    note $? "$shell: --version names a program that isn't there"
    start run "$script" "$log"
    [ "$status" -eq 127 ] && says "rt, which does that, isn't on PATH"
    note $? "$shell: without rt: status $status in place of 127"
    : >"$work/rt/fails"
    start_rt run "$script" "$log"
    [ "$status" -eq 126 ] && says "couldn't be proved and built"
    note $? "$shell: what can't be proved: status $status in place of 126"
    rm "$work/rt/fails"
    start_rt run "$script" "$log"
    [ "$status" -eq 0 ] && says "isn't the program of this code" &&
        cmp -s "$out" "$work/counter.report"
    note $? "$shell: other code isn't built: $(cat "$work/err")"
    start_rt run "$script" "$log"
    [ "$status" -eq 0 ] && [ "$calls" -eq 0 ] && [ ! -s "$work/err" ]
    note $? "$shell: what is built is built again"
    start_rt --version
    [ "$status" -eq 0 ] && grep -qx "path $(CDPATH='' cd "${built%/*}" && pwd)/symple" "$out" &&
        grep -qx "$("$here/dist/sources.sh" code)" "$out" && grep -qx 'kit kit of a trial' "$out"
    note $? "$shell: --version says something else than what is built: $(cat "$out")"
    touch "$here/crates/sym_low/src/lib.rt"
    start_rt run "$script" "$log"
    [ "$status" -eq 0 ] && [ "$calls" -eq 1 ]
    note $? "$shell: an edit isn't built"
    mv "$here/dist/symple" "$here/dist/symple.kept"
    echo 'sym_low src/lib.rt' >"$here/crates/sym_low/src/lib.rt"
    rm -rf "$here/crates/symple/out"
    start run "$script" "$log"
    [ "$status" -eq 127 ] && ! says "isn't the program of this code"
    note $? "$shell: without a program in dist: status $status in place of 127"
    mv "$here/dist/symple.kept" "$here/dist/symple"
}

# What the launcher takes of a processor beside the program, in milliseconds: far less than reading
# all of the code. By hand, on a machine that is idle, it is 2 to 4.
try_cost() {
    if [ "$program" != "$root/dist/symple" ]; then
        skipped "dist/symple isn't what the launcher runs: what it takes isn't measured"
        return
    fi
    turns=40
    at_program=$(cost "$program")
    for set in 0 1; do
        at_launcher=$(SYMPLE_EXPLAIN=$set && export SYMPLE_EXPLAIN && cost "$root/symple")
        [ $((at_launcher - at_program)) -le $((20 * turns)) ]
        note $? "$turns runs take $at_launcher ms by the launcher, and $at_program without"
    done
}

# cost COMMAND: the processor time of all turns, in milliseconds.
cost() {
    # shellcheck disable=SC2016 # another shell expands it
    sh -c 'i=0; while [ $i -lt '$turns' ]; do "$@" >/dev/null; i=$((i + 1)); done; times' sh \
        "$1" run "$script" "$log" | tail -n 1 | tr 'ms' '  ' |
        awk '{ printf "%d\n", ($1 * 60 + $2 + $3 * 60 + $4) * 1000 }'
}

make_checkout
make_tools
mkdir "$work/names"
sed 's/10000/1/' "$examples/streak.symple" >"$work/low.symple"
cat >"$work/kinds.symple" <<'end'
enum color { red, dark_green } # labels
field n: num;
field label from "l" : color;
field w: word;
state last_one: color = red;
state texts: words;
state total: int [-9..9] = 0 clamp;
update { last_one = label; push texts w; total = total + n; }
report { last_one = last_one; texts = texts; total = total; }
end
"$program" run "$script" "$log" >"$work/counter.report" || exit 1

[ "$(wc -l <"$usage")" -lt 40 ]
note $? "$usage has 40 lines or more"
for shell in dash bash; do
    if ! command -v "$shell" >/dev/null; then
        skipped "no $shell"
        continue
    fi
    try_help
    try_answers
    try_scripts
    try_records
    try_files
    try_streams
    try_pipes
    try_links
    try_terminal
    try_signals
    try_sources
    try_build
done
try_cost

counted passed failed
