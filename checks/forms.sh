#!/bin/sh
# Whether other programs read back what the forms csv and pairs write, to the same words, numbers
# and faults: Python's csv, miller where it is installed, and the few lines of Python that pairs
# needs. The words have quotes, commas, line ends, blanks at both ends, bytes below 32 and 127, and
# several alphabets; one is empty. Needs python3, and says so where it isn't there. The last line
# counts what passed and failed.
set -u

# shellcheck source=checks/common.sh
. "$(dirname "$0")/common.sh"
cd "$root" || exit 1

if ! command -v python3 >/dev/null; then
    echo "checks/forms.sh: no python3: nothing is read back" >&2
    exit 0
fi

cat >"$work/script" <<'end'
field text: word;
field n: num;
group text;
state latest: hold(num = 0);
state least: int [0..99] = 0;
state seen: words;
state pushed: nums [-9..99];
state nothing: nums [0..9];
update {
  keep latest(n);
  least = n;
  push seen text;
  push pushed n;
  push pushed -1;
}
report {
  number = part(latest, 1);
  last = last(seen);
  numbers = pushed;
  nothing = max(nothing);
  zero = least / 0;
}
end

# Builds the program where it has to be built, so that what a build says isn't taken for a report.
find_program

python3 - "$work" <<'end'
import csv, io, json, re, shutil, subprocess, sys

work = sys.argv[1]
WORDS = [
    "plain", "", " ", " both ends ", "a,b", 'say "hi"', '"', '""', "two\nlines", "cr\rlf\r\n",
    "\r", "\n", "\x00", "\x01\x1f", "\x7f", "tab\t", "\\", '\\"', "none", "[1 2]", "--", "a | b",
    "=1+1", "'", ";", "ä ö ß", "Ελληνικά", "日本語", "עברית", "русский", "e\u0301", "😀",
]
if sys.version_info < (3, 11):
    print("checks/forms.sh: this python3's csv reads no byte 0: left out", file=sys.stderr)
    WORDS.remove("\x00")
# The number of a record is its place, and 100 ends its group.
FAULTY = {"a,b", "two\nlines"}
passed = failed = 0


def note(is_right, what):
    global passed, failed
    if is_right:
        passed += 1
    else:
        failed += 1
        print("checks/forms.sh: " + what, file=sys.stderr)


def report(form):
    run = subprocess.run(
        ["./symple", "run", "--form", form, work + "/script", work + "/log"], capture_output=True
    )
    note(run.returncode == 1, "the form %s ended with %d" % (form, run.returncode))
    return run.stdout.decode()


with open(work + "/log", "w", newline="", encoding="utf-8") as log:
    rows = csv.writer(log)
    rows.writerow(["text", "n"])
    for place, word in enumerate(WORDS):
        rows.writerow([word, 100 if word in FAULTY else place])

NAMES = ["text", "number", "last", "numbers", "nothing", "zero"]
wanted = []
for place, word in enumerate(WORDS):
    if word in FAULTY:
        wanted.append({"text": word, "fault": "least overflows at record %d" % (place + 1)})
    else:
        wanted.append(
            {
                "text": word,
                "number": str(place),
                "last": word,
                "numbers": "[%d -1]" % place,
                "nothing": "none",
                "zero": "zero divisor",
            }
        )


def filled(row):
    return [row.get(name, "") for name in NAMES + ["fault"]]


text = report("csv")
found = list(csv.reader(io.StringIO(text, newline="")))
note(found[:1] == [NAMES + ["fault"]], "csv: other names by Python's csv")
for row, want in zip(found[1:], wanted):
    note(row == filled(want), "csv: %r by Python's csv" % row)
note(len(found) == len(wanted) + 1, "csv: another number of rows by Python's csv")

if shutil.which("mlr"):
    mlr = ["mlr", "--icsv", "--ojson", "-S", "cat"]
    run = subprocess.run(mlr, input=text.encode(), capture_output=True)
    found = json.loads(run.stdout.decode(), strict=False) if run.returncode == 0 else []
    # Miller reads CR LF within a field as LF.
    for row, want in zip(found, wanted):
        fields = [field.replace("\r\n", "\n") for field in filled(want)]
        note(list(row.values()) == fields, "csv: %r by miller" % row)
    note(len(found) == len(wanted), "csv: another number of rows by miller")
else:
    print("checks/forms.sh: no mlr: csv isn't read by miller", file=sys.stderr)

WORD = r'"(?:[^"\\]|\\.)*"'
VALUE = WORD + r"|\[(?:" + WORD + r'|[^]"])*\]|zero divisor|[^ \n]+'
LINE = re.compile(r"(?:\w+=(?:" + VALUE + r") ?)+\n", re.S)
PAIR = re.compile(r"(\w+)=(" + VALUE + ")", re.S)


def unquoted(value):
    if value[0] == '"':
        return re.sub(r"\\(.)", r"\1", value[1:-1], flags=re.S)
    return value


text = report("pairs")
found = [
    {name: unquoted(value) for name, value in PAIR.findall(line)} for line in LINE.findall(text)
]
for row, want in zip(found, wanted):
    note(row == want, "pairs: %r" % row)
note(len(found) == len(wanted), "pairs: another number of rows")
note("".join(LINE.findall(text)) == text, "pairs: something between two rows")

print("checks/forms.sh: %d passed, %d failed" % (passed, failed))
sys.exit(failed > 0)
end
