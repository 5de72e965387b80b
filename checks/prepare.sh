#!/bin/sh
# Tries share/symple-prepare: each option, each refusal and each reason for which a record is
# rejected; its times against those of GNU date, and its rows against Python's csv. Then the
# templates of share/templates: each script over its log, and its report.
# The last line counts what passed and failed.
set -u

# shellcheck source=checks/common.sh
. "$(dirname "$0")/common.sh"
cd "$root" || exit 1

prepare=$root/share/symple-prepare

# bytes TEXT: the bytes of a text, in which \n is a line end and \0377 a byte.
bytes() {
    printf '%b' "$1"
}

# is STATUS REPORT SAID NAME: whether the last run came to this status and wrote just this.
is() {
    bytes "$2" >"$work/wanted"
    bytes "$3" >"$work/wanted.err"
    if [ "$status" -eq "$1" ] && cmp -s "$work/wanted" "$out" &&
        cmp -s "$work/wanted.err" "$work/err"; then
        note 0
    else
        note 1 "$4: status $status"
        diff "$work/wanted" "$out" >&2
        diff "$work/wanted.err" "$work/err" >&2
    fi
}

# gives LOG WANTED ARGUMENT..: the log is prepared whole, and nothing is said.
gives() {
    bytes "$1" >"$work/log.csv"
    wanted=$2
    shift 2
    run "$prepare" "$@" "$work/log.csv"
    is 0 "$wanted" '' "$*"
}

# rejects COUNT LOG WANTED REJECTED ARGUMENT..: so many records of the log are rejected. REJECTED
# has for each of them LINE,REASON,RECORD.
rejects() {
    count=$1
    bytes "$2" >"$work/log.csv"
    wanted=$3
    rejected=$4
    shift 4
    run "$prepare" "$@" --rejects "$work/rejects.csv" "$work/log.csv"
    plural=s
    [ "$count" -ne 1 ] || plural=
    is 1 "$wanted" "symple-prepare: $count record$plural rejected\n" "$*"
    {
        echo 'line,reason,record'
        bytes "$rejected"
    } >"$work/wanted"
    sed "s!^$work/log.csv,!!; 1s/^file,//" "$work/rejects.csv" >"$work/found"
    if diff "$work/wanted" "$work/found" >&2 &&
        [ "$(grep -c "^$work/log.csv," "$work/rejects.csv")" -eq "$count" ]; then
        note 0
    else
        note 1 "$*: other records are rejected"
    fi
}

# refuses LOG SAID ARGUMENT..: nothing is written, and the status is 2.
refuses() {
    bytes "$1" >"$work/log.csv"
    said=$2
    shift 2
    run "$prepare" "$@" "$work/log.csv"
    is 2 '' "symple-prepare: $said\n" "$*"
}

try_times() {
    gives 'v,t\n1,2026-03-01T10:00:00Z\n2,2026-03-01T10:00:00+02:00\n3,2026-03-01 10:00:59 -0530\n' \
        'v,t\n1,1772359200\n2,1772352000\n3,1772379059\n' --time t
    gives 't\n2026-03-01\n2026-03-01T10:00\n 2026-03-01t10:00:00.999z\t\n2026-03-01 10:00:00 UTC\n' \
        't\n1772323200\n1772359200\n1772359200\n1772359200\n' --time t
    gives 't,v\n20260301,\n"20260301T100000,5+01",\n20260301T1000Z,\n1969-12-31T23:59:59.5Z,\n' \
        't,v\n1772323200,\n1772355600,\n1772359200,\n-1,\n' --time t:iso
    # Days that are there, and days that aren't.
    gives 't\n2024-02-29\n2000-02-29T00:00:00Z\n2024-12-31T23:59:59Z\n' \
        't\n1709164800\n951782400\n1735689599\n' --time t
    rejects 4 't,v\n2023-02-29,1\n1900-02-29,2\n2026-04-31,3\n2026-13-01,4\n2026-03-01,5\n' \
        't,v\n1772323200,5\n' '2,t: not a time,"2023-02-29,1"\n3,t: not a time,"1900-02-29,2"
4,t: not a time,"2026-04-31,3"\n5,t: not a time,"2026-13-01,4"\n' --time t
    # A leap second, an hour 24, a wrong offset, and other text.
    rejects 5 't\n2016-12-31T23:59:60Z\n2026-03-01T24:00:00Z\n2026-03-01T10:00:00+24:00\nnow\n-\n' \
        't\n' '2,t: not a time,2016-12-31T23:59:60Z\n3,t: not a time,2026-03-01T24:00:00Z
4,t: not a time,2026-03-01T10:00:00+24:00\n5,t: not a time,now\n6,t: not a time,-\n' --time t
    rejects 1 't\n2026-03-01T10:00:00.1234567891Z\n2026-03-01T10:00:00.1234567890Z\n' \
        't\n1772359200\n' \
        '2,t: more than nine digits of a second,2026-03-01T10:00:00.1234567891Z\n' --time t
    # An empty text stays; it is symple that reads it or refuses it.
    gives 't,v\n,1\n \t ,2\n3,\n' 't,v\n,1\n,2\n3,\n' --time t:s --scale v:0
}

try_epochs() {
    gives 't\n1443952800999\n-1\n 0 \n+1000.999999\n' 't\n1443952800\n-1\n0\n1\n' --time t:ms
    gives 't\n1443952800999999\n-1\n' 't\n1443952800\n-1\n' --time t:us
    gives 't\n1443952800999999999\n-1\n' 't\n1443952800\n-1\n' --time t:ns
    gives 't\n1443952800.75\n12\n' 't\n1443952800\n12\n' --time t:s
    gives 't\n1443952800.75\n1443952799.9999\n' 't\n750\n-1\n' --time t:s \
        --base 2015-10-04T10:00:00Z
    gives 't,u\n2026-03-01T10:00:00.250Z,1772359200251\n' 't,u\n36000250,36000251\n' \
        --time t --time u:ms --base 2026-03-01
    rejects 7 't\n1,5\n1e3\n0x1\n.5\n1_000\n\0331\0333\n1000000000001\n1000000000000\n' \
        't\n1000000000000\n' '2,2 fields in place of 1,"1,5"\n3,t: not a time,1e3
4,t: not a time,0x1\n5,t: not a time,.5\n6,t: not a time,1_000
7,not UTF-8,\0331\0333\n8,t: outside -10^12 to 10^12,1000000000001\n' --time t:s
    rejects 1 't\n1.0000000001\n2.0000000000\n' 't\n2\n' \
        '2,t: more than nine digits of a second,1.0000000001\n' --time t:s
    rejects 1 't\n2100-01-01\n2000-01-01\n' 't\n946684800000\n' \
        '2,t: outside -10^12 to 10^12,2100-01-01\n' --time t --base 1970-01-01
}

try_zones() {
    if ! python3 -c 'import zoneinfo; zoneinfo.ZoneInfo("Europe/Berlin")' 2>/dev/null; then
        skipped "no zones of time: --zone isn't tried"
        return
    fi
    log='t\n2026-03-29T01:59:59\n2026-03-29T03:00:00\n2026-07-01T10:00:00Z\n2026-07-01T10:00:00\n'
    gives "$log" 't\n1774745999\n1774746000\n1782900000\n1782892800\n' \
        --time t --zone Europe/Berlin
    # The same second of the same minute, after another offset of the zone.
    gives 't\n2026-01-01T10:00:20\n2026-07-01T10:00:10\n2026-07-01T10:00:20\n' \
        't\n1767258020\n1782892810\n1782892820\n' --time t --zone Europe/Berlin
    rejects 2 't\n2026-03-29T02:30:00\n2026-10-25T02:30:00\n2026-10-25T03:00:00\n' \
        't\n1792893600\n' '2,t: a time that Europe/Berlin skips,2026-03-29T02:30:00
3,t: a time that Europe/Berlin has twice,2026-10-25T02:30:00\n' --time t --zone Europe/Berlin
    gives 't\n2026-10-25T02:30:00\n' 't\n1792888200\n' \
        --time t --zone Europe/Berlin --ambiguous earlier
    gives 't\n2026-10-25T02:30:00\n' 't\n1792891800\n' \
        --time t --zone Europe/Berlin --ambiguous later
    rejects 1 't\n2026-03-29T02:30:00\n' 't\n' \
        '2,t: a time that Europe/Berlin skips,2026-03-29T02:30:00\n' \
        --time t --zone Europe/Berlin --ambiguous later
    gives 't\n29.03.2026 03:00\n' 't\n0\n' \
        --time 't:%d.%m.%Y %H:%M' --zone Europe/Berlin --base 2026-03-29T03:00
}

try_formats() {
    gives 'at,v\n01/Mar/2026:10:00:00 +0200,1\n01/Mar/2026:10:00:00 +0000,2\n' \
        'at,v\n1772352000,1\n1772359200,2\n' --time 'at:%d/%b/%Y:%H:%M:%S %z'
    gives 't:%Y,t\n2026-03-01,2026-03-01\n' 't:%Y,t\n1772323200,2026-03-01\n' --time 't:%Y:iso'
    gives 't\n03/01/26 01:00 PM\n' 't\n1772370000\n' --time 't:%m/%d/%y %I:%M %p'
    gives 't\n2026-03-01 10:00:00.25\n' 't\n36000250\n' \
        --time 't:%Y-%m-%d %H:%M:%S.%f' --base 2026-03-01
    rejects 1 't\n31.02.2026\n01.03.2026\n' 't\n1772323200\n' \
        '2,t: not a time,31.02.2026\n' --time 't:%d.%m.%Y'
    refuses 't\n1\n' "--time t:%Q: the format doesn't parse: 'Q' is a bad directive in format '%Q'" \
        --time t:%Q
    refuses 't\n1\n' '--time t:%d.%m.: the format has no year, month or day' --time t:%d.%m.
    run "$prepare" --time 't:%Y-%m-%d %d' "$work/log.csv"
    [ "$status" -eq 2 ] && [ ! -s "$out" ] && grep -q "the format doesn't parse" "$work/err"
    note $? "a format that has a directive twice: status $status"
    refuses 't\n1\n' '--time t:%Y-%m-%d %I: the format has an hour of twelve without %p' \
        --time 't:%Y-%m-%d %I'
    refuses 't\n1\n' "--time t:%Y-%m-%d %Z: %Z isn't taken, since names of zones are ambiguous; use --zone" \
        --time 't:%Y-%m-%d %Z'
    refuses 't\n1\n' '--time t:sec: the format is none of iso, s, ms, us, ns, and has no %' \
        --time t:sec
}

try_decimals() {
    gives 'v\n12.5\n-0.07\n+3\n.5\n4.\n12.500\n1.15\n0.29\n-0\n' \
        'v\n1250\n-7\n300\n50\n400\n1250\n115\n29\n0\n' --scale v:2
    gives 'v\n0.123456789012\n1\n' 'v\n123456789012\n1000000000000\n' --scale v:12
    rejects 8 'v\n12.345\n1e3\n0x1\n1_0\n.\n--1\n10000000000.01\n-10000000001\n-10000000000\n' \
        'v\n-1000000000000\n' '2,v: more than 2 digits after the point,12.345
3,v: not a decimal number,1e3\n4,v: not a decimal number,0x1\n5,v: not a decimal number,1_0
6,v: not a decimal number,.\n7,v: not a decimal number,--1
8,v: outside -10^12 to 10^12,10000000000.01\n9,v: outside -10^12 to 10^12,-10000000001\n' \
        --scale v:2
    # Digits of another script are no digits.
    rejects 2 'v\n\0331\0241\n\0331\0241.5\n' 'v\n' \
        '2,v: not a decimal number,\0331\0241\n3,v: not a decimal number,\0331\0241.5\n' --scale v:1
    rejects 1 'v\n"1,299.00"\n"1,29.00"\n"12,345,678"\n"1,299"\n1299.5\n' \
        'v\n129900\n1234567800\n129900\n129950\n' '3,v: not a decimal number,"""1,29.00"""\n' \
        --scale v:2 --grouping ,
    rejects 1 'v;w\n1.299,00;1,5\n1.299;1\n1299.5;1\n' 'v,w\n129900,15\n129900,10\n' \
        '4,v: not a decimal number,1299.5;1\n' \
        --separator ';' --scale v:2 --scale w:1 --point , --grouping .
    refuses 'v\n1\n' '--scale v:13: the digits are no number from 0 to 12' --scale v:13
    refuses 'v\n1\n' '--scale v: the digits are no number from 0 to 12' --scale v
}

try_rows() {
    gives '\0357\0273\0277t,v\r\n1,"a, b"\r\n\r\n2,"say ""hi"""\r\n3,"two\r\nlines"\r\n4,end' \
        't,v\n1,"a, b"\n2,"say ""hi"""\n3,"two\r\nlines"\n4,end\n'
    gives '\0357\0273\0277t,v\r\n1,a\r\n\r\n2,b' 't,v\n1,a\n2,b\n'
    gives 't,v\n1,"two\r\nli\rnes\n"\n' 't,v\n1,two li nes \n' --one-line
    gives 't,v\r1,"a\rb"\r2,c' 't,v\n1,"a\rb"\n2,c\n'
    gives 'v\n""\n\nx\n' 'v\n""\nx\n'
    gives 't\tv\n1\ta, b\n' 't,v\n1,"a, b"\n' --separator tab
    gives '1;a\n2;b\n' 't,"v, w"\n1,a\n2,b\n' --separator ';' --header 't,"v, w"'
    gives 'v\n\0374\n' 'v\n\0303\0274\n' --encoding latin-1
    rejects 5 't,v\n1\n \n1,2,3\n4,\0374\n5,"x\ny"\n6,"x"y\n7,z\n' 't,v\n5,"x\ny"\n7,z\n' \
        "2,1 fields in place of 2,1\n3,1 fields in place of 2, \n4,3 fields in place of 2,\"1,2,3\"
5,not UTF-8,\"4,\0374\"\n8,a quote that closes a field isn't at its end,\"6,\"\"x\"\"y\"\n"
    rejects 1 't,v\n1,"a\nb"\n2,"c\n3,d\n4,e\n' 't,v\n1,"a\nb"\n' \
        "4,a quote isn't closed,\"2,\"\"c\n3,d\n4,e\"\n"
    # Quotes that aren't at the beginning of a field are characters as others.
    gives 't,v\n1,a"b\n2, "c"\n' 't,v\n1,"a""b"\n2," ""c"""\n'
}

# A log that is longer than what is read at once, with quotes, line ends and CR here and there, is
# read as Python's csv reads it. Beside it is the same log with records that are rejected.
try_long_logs() {
    python3 - "$work" <<'end'
import csv, random, sys
random.seed(7)
work = sys.argv[1]
words = ["a", "bc", "", "d e", "x, y", 'say "hi"', "two\nlines", "cr\rlf", "\u00fc" * 9]
for name, share in (("none", 0), ("few", 0.0005), ("many", 0.5)):
    mark = "\r\n" if name == "few" else "\n"
    whole = open(f"{work}/{name}.csv", "w", newline="", encoding="utf-8")
    bad = open(f"{work}/{name}-bad.csv", "w", newline="", encoding="utf-8")
    for file in whole, bad:
        file.write("n,v,w" + mark)
    for n in range(40000):
        pick = words if random.random() < share else words[:4]
        row = [str(n), random.choice(pick), random.choice(pick)]
        row = ['"' + field.replace('"', '""') + '"' if set(field) & set('",\r\n') else field
               for field in row]
        for file in whole, bad:
            file.write(",".join(row) + mark)
        if n % 9000 == 8999:
            bad.write("1970-01-01" + mark)
end
    for name in none few many; do
        "$prepare" "$work/$name.csv" >"$work/prepared.csv" &&
            python3 - "$work" $name <<'end'
import csv, sys
work, name = sys.argv[1:]
logs = [open(f"{work}/{file}.csv", newline="", encoding="utf-8") for file in (name, "prepared")]
rows = [list(csv.reader(log)) for log in logs]
sys.exit(rows[0] != rows[1] or len(rows[0]) != 40001)
end
        note $? "a log with quotes in $name of its records: other rows than those of Python's csv"
        for options in '' '--sort n --where v!=bc --keep w,n --scale n:1'; do
            # shellcheck disable=SC2086
            "$prepare" $options "$work/$name.csv" >"$work/prepared.csv" 2>"$work/whole.err"
            # shellcheck disable=SC2086
            run "$prepare" $options --rejects "$work/rejects.csv" "$work/$name-bad.csv"
            echo 'symple-prepare: 4 records rejected' >>"$work/whole.err"
            [ "$status" -eq 1 ] && cmp "$work/prepared.csv" "$out" >&2 &&
                cmp "$work/whole.err" "$work/err" >&2
            note $? "$name $options: other records beside those that are rejected"
        done
    done
}

# The times of Python's strptime for the same texts, of which many aren't times, or have other widths
# than usual. They are made of few parts, so that what was learned of two texts serves a third one.
try_many_formats() {
    python3 - "$prepare" "$work" <<'end'
import csv, datetime, random, subprocess, sys

random.seed(11)
prepare, work = sys.argv[1:]
epoch = datetime.datetime(1970, 1, 1, tzinfo=datetime.timezone.utc)
months = "Jan Feb mar DEC Mai".split()
failed = 0
for form in ["%d/%b/%Y:%H:%M:%S %z", "%Y-%m-%d %H:%M:%S", "%Y%m%d%H%M%S", "%H:%M:%S %d.%m.%Y",
             "%b %d %H:%M:%S %Y", "%S %Y-%m-%d", "%d.%m.%Y %H:%M", "%Y-%m-%dT%H:%M:%S.%f%z",
             "%z %Y-%m-%d %H:%M:%S", "iso %Y-%m-%d %H:%M:%S%z"]:
    option = form
    widths = [2, 2, 2, 2, 2, 1]
    offsets = ["Z", "+0200", "-05:30", "+02:00:30", "+0060", "z", "+2500", ""]
    if form.startswith("iso "):
        option, form = form.split(" ", 1)
        widths = [2]
        offsets = ["Z", "+0200", "-05:30", "+0060", "+2500"]
    texts = []
    for _ in range(3000):
        width = random.choice(widths)
        text = form
        for directive, value in {
            "%Y": random.choice(["2026", "2024", "1969", "26"] + ["2026"] * 9),
            "%m": f"{random.choice([0, 2, 3, 11, 13]):0{width}}",
            "%d": f"{random.choice([0, 1, 9, 29, 31]):0{width}}",
            "%b": random.choice(months),
            "%H": f"{random.choice([0, 23, 24]):0{width}}",
            "%M": f"{random.choice([0, 59, 60]):0{width}}",
            "%S": f"{random.choice([0, 7, 30, 59, 60, 61, 62]):0{width}}",
            "%f": random.choice(["0", "25", "123456"]),
            "%z": random.choice(offsets),
        }.items():
            text = text.replace(directive, value)
        texts.append(random.choice(["", "", "", "", "", " "]) + text)
    wanted = []
    for text in texts:
        try:
            time = datetime.datetime.strptime(text.strip(), form)
        except ValueError:
            continue
        if time.tzinfo is None:
            time = time.replace(tzinfo=datetime.timezone.utc)
        wanted.append((time - epoch) // datetime.timedelta(seconds=1))
    with open(f"{work}/forms.csv", "w", encoding="utf-8") as log:
        log.write("t\n" + "".join(text + "\n" for text in texts))
    command = [prepare, "--time", f"t:{option}", "--rejects", f"{work}/rejects", f"{work}/forms.csv"]
    lines = subprocess.run(command, stdout=subprocess.PIPE, stderr=subprocess.DEVNULL).stdout
    if lines.decode().split() != ["t"] + [str(number) for number in wanted] or len(wanted) < 99:
        print(option, len(wanted), file=sys.stderr)
        failed = 1
sys.exit(failed)
end
    note $? "--time: other seconds than those of Python's strptime"
}

# The times of GNU date for the same texts.
try_many_times() {
    if ! date -u -d '2026-03-01T10:00:00+02:00' +%s >/dev/null 2>&1; then
        skipped "no GNU date: times aren't compared with its own"
        return
    fi
    awk 'BEGIN {
        srand(5)
        for (i = 0; i < 2000; i++)
            printf "%04d-%02d-%02dT%02d:%02d:%02d%s%02d:%02d\n", 1920 + rand() * 110,
                1 + rand() * 12, 1 + rand() * 28, rand() * 24, rand() * 60, rand() * 60,
                rand() < 0.5 ? "+" : "-", rand() * 14, rand() * 60
    }' >"$work/times"
    (echo t; cat "$work/times") | "$prepare" --time t | tail -n +2 >"$work/prepared"
    date -u -f "$work/times" +%s >"$work/wanted"
    [ "$(wc -l <"$work/wanted")" -eq 2000 ] && cmp "$work/wanted" "$work/prepared" >&2
    note $? "--time: other seconds than those of GNU date"
    python3 -c 'import zoneinfo; zoneinfo.ZoneInfo("America/New_York")' 2>/dev/null || return
    sed 's/.\{6\}$//' "$work/times" >"$work/local"
    (echo t; cat "$work/local") | "$prepare" --time t --zone America/New_York \
        --rejects "$work/rejects" 2>"$work/err" | tail -n +2 >"$work/prepared"
    sed 's/.*,//' "$work/rejects" | grep -vxFf - "$work/local" |
        TZ=America/New_York date -f - +%s >"$work/wanted"
    [ "$(wc -l <"$work/wanted")" -gt 1900 ] && cmp "$work/wanted" "$work/prepared" >&2
    note $? "--zone: other seconds than those of GNU date"
}

try_files() {
    bytes 't,v\n1,a\n' >"$work/one.csv"
    bytes 'v,t\nb,2\n' >"$work/two.csv"
    bytes 'v,u,t\nc,x,3\n' >"$work/three.csv"
    : >"$work/none.csv"
    gzip -c "$work/two.csv" >"$work/two.csv.gz"
    run "$prepare" "$work/none.csv" "$work/one.csv" "$work/two.csv.gz" "$work/two.csv"
    is 0 't,v\n1,a\n2,b\n2,b\n' '' 'several files, one of them compressed and one empty'
    run "$prepare" --keep v,t "$work/one.csv" "$work/three.csv"
    is 0 'v,t\na,1\nc,3\n' '' 'a file with a column more, which is not kept'
    run "$prepare" "$work/one.csv" "$work/three.csv"
    is 2 '' "symple-prepare: $work/three.csv: its columns aren't those of the first log\n" \
        'a file with a column more'
    run "$prepare" --keep u "$work/three.csv" "$work/one.csv"
    is 2 '' "symple-prepare: $work/one.csv: its columns aren't those of the first log: 'u'\n" \
        'a file with a column less'
    run sh -c "gzip -c '$work/two.csv' | '$prepare' '$work/one.csv' -"
    is 0 't,v\n1,a\n2,b\n' '' 'a compressed log on standard input'
    run sh -c "cat '$work/one.csv' | '$prepare' /dev/stdin '$work/two.csv'"
    is 0 't,v\n1,a\n2,b\n' '' 'a pipe by its name'
    run "$prepare" "$work/none.csv"
    is 2 '' 'symple-prepare: no log has a header\n' 'no header'
    run "$prepare" "$work/absent.csv"
    is 2 '' "symple-prepare: $work/absent.csv: No such file or directory\n" 'no such file'
    run "$prepare" "$work"
    is 2 '' "symple-prepare: $work: Is a directory\n" 'a directory'
    awk 'BEGIN { print "t"; for (i = 0; i < 99999; i++) print rand() }' | gzip -c |
        head -c 200000 >"$work/cut.csv.gz"
    run "$prepare" "$work/cut.csv.gz"
    [ "$status" -eq 4 ] && [ "$(tail -n 1 "$out")" = 'symple-prepare: stopped,' ] &&
        grep -q "^symple-prepare: $work/cut.csv.gz: Compressed file ended" "$work/err"
    note $? "a compressed file that was cut off: status $status"
    run sh -c "'$prepare' '$work/one.csv' >/dev/full"
    is 4 '' 'symple-prepare: standard output: No space left on device\n' 'a full disk'
    run sh -c "'$prepare' '$work/one.csv' >&-"
    is 4 '' 'symple-prepare: standard output is closed\n' 'a closed standard output'
    run sh -c "'$prepare' <&-"
    is 2 '' 'symple-prepare: standard input is closed\n' 'a closed standard input'
}

try_selections() {
    said='symple-prepare: 2 records left out by --where\n'
    log='t,user,what\n3,ann,buy\n1,bob,view\n2,,buy\n'
    bytes "$log" >"$work/log.csv"
    run "$prepare" --where what=view "$work/log.csv"
    is 0 't,user,what\n1,bob,view\n' "$said" '--where ='
    run "$prepare" --where what!=buy "$work/log.csv"
    is 0 't,user,what\n1,bob,view\n' "$said" '--where !='
    run "$prepare" --where user= --keep what,t "$work/log.csv"
    is 0 'what,t\nbuy,2\n' "$said" '--where empty'
    run "$prepare" --where user!= --where what=buy --keep t "$work/log.csv"
    is 0 't\n3\n' "$said" 'two conditions'
    gives "$log" 'who,what,t\nann,buy,3\nbob,view,1\n,buy,2\n' --keep user,what,t --rename user:who
    gives 'a,"b, c",d\n1,2,3\n' '"b, c",d\n2,3\n' --keep '"b, c"' --keep d
    bytes 'a=b,a\n1,2\nc=d,3\n' >"$work/log.csv"
    run "$prepare" --where a=b=c=d "$work/log.csv"
    is 0 'a=b,a\nc=d,3\n' 'symple-prepare: 1 record left out by --where\n' 'a name with ='
    # A record that --where leaves out isn't looked at further.
    bytes 't,v\nx,a\n1970-01-02,b\n' >"$work/log.csv"
    run "$prepare" --time t --where v=b "$work/log.csv"
    is 0 't,v\n86400,b\n' 'symple-prepare: 1 record left out by --where\n' 'a bad time left out'
}

try_orders() {
    gives 't,v\n1970-01-01T00:00:01.9Z,a\n1970-01-01T00:00:01.10Z,b\n1970-01-01T00:00:01.1Z,c
1970-01-01T00:00:00Z,d\n' 't,v\n0,d\n1,b\n1,c\n1,a\n' --time t --sort t
    gives 'n,v\n10,a\n9,b\n-1,c\n9,d\n' 'v\nc\nb\nd\na\n' --sort n --keep v
    gives 'n\n1.5\n-0.5\n1.05\n' 'n\n-50\n105\n150\n' --sort n --scale n:2
    rejects 2 'n,v\n2,a\n,b\nx,c\n1,d\n' 'n,v\n1,d\n2,a\n' \
        '3,"n: empty, so it has no place in the order",",b"\n4,n: not a whole number,"x,c"\n' \
        --sort n
    bytes 't,v\n2,a\n' >"$work/one.csv"
    bytes 'v,t\nb,1\n' >"$work/two.csv"
    run "$prepare" --sort t "$work/one.csv" "$work/two.csv"
    is 0 't,v\n1,b\n2,a\n' '' 'two files sorted into one'
}

# Each is refused before anything is written.
try_refusals() {
    for option in --time=x --scale=x:2 --where=x=1 --keep=t,x --rename=x:y --sort=x; do
        refuses 't,v\n1,2\n' "${option%%=*}: there is no column 'x'" "$option"
    done
    for option in --time=v --scale=v:2 --where=v=1 --keep=v --rename=v:y --sort=v; do
        refuses 't,v,v\n1,2,3\n' "${option%%=*}: there are two columns 'v'" "$option"
    done
    refuses 't,v,v\n1,2,3\n' "two columns have the name 'v'; --keep says which are written"
    gives 't,v,v\n1,2,3\n' 't\n1\n' --keep t
    refuses 't,v\n1,2\n' "two columns have the name 'v'; --keep says which are written" --rename t:v
    gives 't,v\n1,2\n' 'v,t\n1,2\n' --rename t:v --rename v:t
    refuses 't,v\n1,2\n' '--rename t:: no new name, named twice, or not kept' --rename t:
    refuses 't,v\n1,2\n' '--rename t:u: no new name, named twice, or not kept' --rename t:u --keep v
    refuses 't,v\n1,2\n' '--scale t:2: the column is named twice' --time t --scale t:2
    refuses 't,v\n1,2\n' '--time t:s: the column is named twice' --time t --time t:s
    refuses 't,v\n1,2\n' '--where t: there is no = or != in it' --where t
    refuses 't,v\n1,2\n' '--zone Mars/Base: there is no such zone' --zone Mars/Base
    refuses 't,v\n1,2\n' '--base noon: not a time' --base noon
    refuses 't,"v\n1,2\n' "$work/log.csv: header: a quote isn't closed"
    refuses 't,\0377\n1,2\n' "$work/log.csv: header: not UTF-8"
    refuses 't,v\n1,2\n' "--rejects $work/log.csv: it is one of the logs" --rejects "$work/log.csv"
    bytes 't,v\n1,2\n' | cmp -s - "$work/log.csv"
    note $? 'a log named by --rejects was changed'
    refuses 't,v\n1,2\n' "--rejects $work: Is a directory" --rejects "$work"
    for options in --other '--separator ;;' '--encoding x' '--grouping .' '--ambiguous x' '- -' \
        --keep= --header=; do
        # shellcheck disable=SC2086
        run "$prepare" $options
        [ "$status" -eq 2 ] && [ ! -s "$out" ]
        note $? "$options: status $status"
    done
    run "$prepare" --keep '"a'
    [ "$status" -eq 2 ] && [ ! -s "$out" ]
    note $? "a quote that isn't closed in a list of names: status $status"
}

# Without a file for rejects it stops at the first one, and symple takes no such log for a whole one.
try_stops() {
    bytes 'people,at\n3,1970-01-01\n4,then\n5,1970-01-02\n' >"$work/log.csv"
    run "$prepare" --time at "$work/log.csv"
    is 3 'people,at\n3,0\nsymple-prepare: stopped,,\n' \
        "symple-prepare: $work/log.csv:3: at: not a time\n" 'stopped'
    cp "$out" "$work/cut.csv"
    run "$program" run examples/lift.symple "$work/cut.csv"
    is 4 '' "symple: $work/cut.csv: record 2: 3 fields\n" 'a log that is cut off is taken'
    bytes 'people\n3\n"4' >"$work/log.csv"
    run "$prepare" "$work/log.csv"
    is 3 'people\n3\nsymple-prepare: stopped,\n' \
        "symple-prepare: $work/log.csv:3: a quote isn't closed\n" 'stopped at a quote'
    run "$prepare" --sort people "$work/log.csv"
    is 3 'people\nsymple-prepare: stopped,\n' \
        "symple-prepare: $work/log.csv:3: a quote isn't closed\n" 'stopped before sorting'
}

# The options that the manual page has are those that the preparer takes.
try_manual() {
    sed -n "s/^\.It Fl -\([a-z-]*\).*/--\1/p" share/man/symple-prepare.1 | sort >"$work/wanted"
    "$prepare" --help | grep -oE '^ *(-h, )?--[a-z-]*' | sed 's/.*-h, //' |
        tr -d ' ' | sort >"$work/found"
    diff "$work/wanted" "$work/found" >&2
    note $? 'share/man/symple-prepare.1: other options than the preparer'
    if command -v mandoc >/dev/null; then
        mandoc -Tlint -Wwarning share/man/symple-prepare.1 >&2
        note $? 'share/man/symple-prepare.1: mandoc finds a fault'
    else
        skipped "no mandoc: share/man/symple-prepare.1 isn't tried"
    fi
}

# Each template: its script over its log gives its report.
try_templates() {
    for script in share/templates/*.symple; do
        name=${script%.symple}
        run "$program" run "$script" "$name.csv"
        diff "$name.report" "$out" >&2
        note $? "$script: another report than $name.report"
        [ "$status" -le 1 ]
        note $? "$script: status $status"
        grep -qF "$(basename "$script")" share/templates/README.md
        note $? "share/templates/README.md: no $(basename "$script")"
    done
}

find_program

try_times
try_epochs
try_zones
try_formats
try_many_formats
try_decimals
try_rows
try_long_logs
try_many_times
try_files
try_selections
try_orders
try_refusals
try_stops
try_manual
try_templates

counted passed failed
