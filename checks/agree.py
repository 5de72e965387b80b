#!/usr/bin/env python3
"""Compares the program with checks/reference.py over random scripts and logs, and the program's
runs over chunks, limits and workers with each other, and with reports on files mapped apart.

    agree.py PROGRAM CASES SEED

Each case has a script of the whole grammar that the rules accept, with one to three files, and a
script with one token changed, which the rules refuse more often than not. A case is made from the
seed and its number alone. Of one on which the answers differ, lines are dropped as long as they
differ, and what is left is printed. The last line counts what passed and failed.
"""

import os
import random
import re
import subprocess
import sys
import tempfile

import reference

CHUNKS, LIMITS, WORKERS = (1, 7, 1024, 65536), (1, 2, 16, 256), (1, 2, 3, 4, 7, 64)
SETTINGS = [(c, l, w) for c in CHUNKS for l in LIMITS for w in WORKERS]
SETTINGS_A_CASE = 6
TRACES_A_CASE = 3
JOIN_LIMITS = (1, 2, 3, 5, 16, 256)
WATCHED_A_CASE = 2
# A round has so many chunks.
CHUNKS_A_ROUND = 64
# The cases whose traces are compared with a run over each prefix of the log.
PREFIXED = 50
NUMBERS = [0, 1, 1, 2, 2, 3, 4, 5, 7, 10, 30, 99, 1000, 999999999999, 1000000000000]
WORDS = ["", "a", "b", "ann", "x y", "|", "none", "é€", 'q"', "back\\", "\t", "[1]"]
FUNCTIONS = ("count", "sum", "min", "max", "first", "last", "part")
OPERATORS = frozenset("+ - * / % == != < <= > >= is and or".split())
# How tightly an operator binds, from the loosest on.
OR, AND, NOT, RELATION, SUM, PRODUCT, UNARY, PRIMARY = range(8)


class Maker:
    """Makes a script and files for it."""

    def __init__(self, seed):
        self.random = random.Random(seed)
        self.count = 0
        self.enums, self.fields, self.cells, self.tests = [], [], [], []
        self.locals = []
        self.budget = 0

    def chance(self, share):
        return self.random.random() < share

    def pick(self, things):
        return self.random.choice(things)

    def name(self, prefix):
        """A new name. Now and then it is that of a function of reports, or a long one."""
        self.count += 1
        if self.chance(0.03):
            return f"{prefix}_{self.count}_".ljust(64, "_")
        return f"{prefix}{self.count}"

    def number(self):
        value = self.pick(NUMBERS[:9] if self.chance(0.6) else NUMBERS)
        return -value if self.chance(0.2) else value

    def text(self, value):
        return '"' + value.replace("\\", "\\\\").replace('"', '\\"') + '"'

    # Declarations.

    def kind(self):
        return self.pick(["num", "num", "word"] + [enum for enum, _ in self.enums])

    def labels(self, enum):
        return dict(self.enums)[enum]

    def literal(self, kind):
        if kind == "num":
            return str(self.number())
        if kind == "word":
            return self.text(self.pick(WORDS))
        return self.pick(self.labels(kind))

    def range(self):
        low, high = sorted((self.number(), self.number()))
        if self.chance(0.6):
            low, high = self.pick([(0, 3), (0, 9), (-5, 50), (-1000, 1000), (-(10**12), 10**12)])
        return low, high

    def declare(self):
        lines = []
        for _ in range(self.pick([0, 0, 1, 1, 2, 3])):
            labels = [self.name("l") for _ in range(self.pick([1, 2, 2, 3, 4, 32]))]
            self.enums.append((self.name("e"), labels))
            lines.append(f"enum {self.enums[-1][0]} {{ {', '.join(labels)} }}")
        headers = set()
        for _ in range(self.random.randint(1, 5)):
            name, kind = self.name("f"), self.kind()
            header = name
            line = f"field {name}"
            if self.chance(0.3):
                header = self.pick(WORDS[1:9]) + self.pick(["", "1", " 2"])
                if header in headers:
                    header = name
                else:
                    line += f" from {self.text(header)}"
            headers.add(header)
            line += f": {kind}"
            has_default = self.chance(0.3)
            if has_default:
                line += f" else {self.literal(kind)}"
            self.fields.append((name, header, kind, has_default))
            lines.append(line + ";")
        width = min(self.pick([0, 1, 1, 1, 2, 3]), len(self.fields))
        self.group = [f[0] for f in self.random.sample(self.fields, width)]
        if self.group:
            lines.append(f"group {', '.join(self.group)};")
        for _ in range(self.random.randint(1, 6)):
            lines.append(self.cell())
        for _ in range(self.pick([0, 1, 1, 2, 3])):
            lines.append(self.test())
        return [line for line in lines if line]

    def cell(self):
        sort = self.pick(["int", "int", "int", "nums", "words", "hold", "enum"])
        if sort == "enum" and not self.enums:
            sort = "int"
        name = self.name("c")
        low, high = self.range()
        clamp = " clamp" if self.chance(0.2) else ""
        if sort == "int":
            first = self.pick([low, high, min(max(0, low), high)])
            self.cells.append((name, "int", bool(clamp)))
            return f"state {name}: int [{low}..{high}] = {first}{clamp};"
        if sort == "nums":
            self.cells.append((name, "nums", bool(clamp)))
            return f"state {name}: nums [{low}..{high}]{clamp};"
        if sort == "words":
            self.cells.append((name, "words", None))
            return f"state {name}: words;"
        if sort == "hold":
            kinds = [self.kind() for _ in range(self.random.randint(1, 4))]
            self.cells.append((name, "hold", kinds))
            parts = ", ".join(f"{kind} = {self.literal(kind)}" for kind in kinds)
            return f"state {name}: hold({parts});"
        enum = self.pick(self.enums)[0]
        self.cells.append((name, "enum", enum))
        return f"state {name}: {enum} = {self.pick(self.labels(enum))};"

    def test(self):
        holds = [cell for cell in self.cells if cell[1] == "hold"]
        if not holds:
            return ""
        kinds = list(self.pick(holds)[2])
        kinds += [self.kind() for _ in range(self.random.randint(0, 3))]
        parameters = [(self.name("p"), kind) for kind in kinds]
        outer, self.values = getattr(self, "values", None), parameters
        body = self.condition(3, False, OR)
        self.values = outer
        name = self.name("t")
        self.tests.append((name, kinds))
        shown = ", ".join(f"{own}: {kind}" for own, kind in parameters)
        return f"test {name}({shown}) = {body};"

    # Expressions. Each is made for a place that takes operators of a level or tighter ones.

    def enclosed(self, text, level, wanted):
        if level < wanted or self.chance(0.05):
            return f"({text})"
        return text

    def of_kind(self, kind):
        return [name for name, own in self.values if own == kind]

    def fixed(self, kind, depth=2):
        if kind == "num":
            return self.fixed_number(depth, OR)
        named = self.of_kind(kind)
        if named and self.chance(0.6):
            return self.enclosed(self.pick(named), PRIMARY, PRIMARY)
        return self.enclosed(self.literal(kind), PRIMARY, PRIMARY)

    def fixed_number(self, depth, wanted):
        if depth == 0 or self.chance(0.5):
            named = self.of_kind("num")
            if named and self.chance(0.7):
                return self.enclosed(self.pick(named), PRIMARY, PRIMARY)
            return self.enclosed(str(self.pick(NUMBERS)), PRIMARY, PRIMARY)
        if self.chance(0.15):
            return self.enclosed("-" + self.fixed_number(depth - 1, UNARY), UNARY, wanted)
        operator = self.pick(["+", "-", "*", "/", "%", "+", "-"])
        level = SUM if operator in "+-" else PRODUCT
        left = self.fixed_number(depth - 1, level)
        right = self.fixed_number(depth - 1, level + 1)
        return self.enclosed(f"{left} {operator} {right}", level, wanted)

    def line(self, depth, wanted):
        cells = [cell[0] for cell in self.cells if cell[1] == "int"]
        if depth == 0 or self.chance(0.4):
            return self.enclosed(self.pick(cells), PRIMARY, PRIMARY)
        if self.chance(0.1):
            return self.enclosed("-" + self.line(depth - 1, UNARY), UNARY, wanted)
        operator = self.pick(["+", "+", "+", "-", "-", "*"])
        level = SUM if operator in "+-" else PRODUCT
        if self.chance(0.7):
            left = self.line(depth - 1, level)
            right = self.fixed_number(1, level + 1)
        else:
            left = self.fixed_number(1, level)
            right = self.line(depth - 1, level + 1)
        return self.enclosed(f"{left} {operator} {right}", level, wanted)

    def has(self, sort):
        return any(cell[1] == sort for cell in self.cells)

    def amount(self, depth=2, wanted=OR):
        """A fixed number or a line."""
        if self.has("int") and self.chance(0.6):
            return self.line(depth, wanted)
        return self.fixed_number(depth, wanted)

    def condition(self, depth, cells, wanted):
        if depth > 0 and self.chance(0.35):
            what = self.pick(["and", "or", "not"])
            if what == "not":
                inner = self.condition(depth - 1, cells, NOT)
                return self.enclosed(f"not {inner}", NOT, wanted)
            level = AND if what == "and" else OR
            left = self.condition(depth - 1, cells, level)
            right = self.condition(depth - 1, cells, level + 1)
            return self.enclosed(f"{left} {what} {right}", level, wanted)
        if cells and self.tests and self.chance(0.4):
            called = self.call()
            if called:
                return called
        if self.enums and self.chance(0.35):
            return self.enclosed(self.is_label(cells), RELATION, wanted)
        if self.chance(0.2):
            operator = self.pick(["==", "!="])
            text = f"{self.fixed('word')} {operator} {self.fixed('word')}"
            return self.enclosed(text, RELATION, wanted)
        sides = [self.fixed_number(2, SUM), self.fixed_number(1, SUM)]
        if cells and self.has("int") and self.chance(0.7):
            sides[self.random.randrange(2)] = self.line(2, SUM)
        operator = self.pick(["==", "!=", "<", "<=", ">", ">="])
        return self.enclosed(f"{sides[0]} {operator} {sides[1]}", RELATION, wanted)

    def is_label(self, cells):
        own = [cell for cell in self.cells if cell[1] == "enum"] if cells else []
        if own and self.chance(0.7):
            cell = self.pick(own)
            return f"{cell[0]} is {self.fixed(cell[2])}"
        enum = self.pick(self.enums)[0]
        return f"{self.fixed(enum)} is {self.fixed(enum)}"

    def call(self):
        name, kinds = self.pick(self.tests)
        fitting = [
            cell
            for cell in self.cells
            if cell[1] == "hold" and cell[2] == kinds[: len(cell[2])]
        ]
        if not fitting:
            return None
        cell = self.pick(fitting)
        arguments = [cell[0]] + [self.fixed(kind, 1) for kind in kinds[len(cell[2]) :]]
        return f"{name}({', '.join(arguments)})"

    # Statements.

    def block(self, depth, most, indent):
        outer = list(self.values)
        lines = []
        for _ in range(self.random.randint(0 if depth else 1, most)):
            if self.budget == 0:
                break
            self.budget -= 1
            lines += self.statement(depth, indent)
        self.values = outer
        return lines

    def statement(self, depth, indent):
        before = "  " * indent
        if depth < 4 and self.chance(0.35):
            lines = [f"{before}if {self.condition(2, True, OR)} {{"]
            lines += self.block(depth + 1, 3, indent + 1)
            while self.chance(0.3) and self.budget > 0:
                self.budget -= 1
                lines.append(f"{before}}} else if {self.condition(2, True, OR)} {{")
                lines += self.block(depth + 1, 2, indent + 1)
            if self.chance(0.4):
                lines.append(f"{before}}} else {{")
                lines += self.block(depth + 1, 2, indent + 1)
            return lines + [f"{before}}}"]
        if self.chance(0.12):
            kind = self.kind()
            value = self.fixed(kind)
            name = self.name("v")
            self.values = self.values + [(name, kind)]
            return [f"{before}let {name} = {value};"]
        name, sort, more = self.pick(self.cells)
        if sort == "int":
            return [f"{before}{name} = {self.amount()};"]
        if sort == "nums":
            return [f"{before}push {name} {self.amount()};"]
        if sort == "words":
            return [f"{before}push {name} {self.fixed('word')};"]
        others = [c[0] for c in self.cells if c[1:] == (sort, more) and c[0] != name]
        if sort == "hold":
            if others and self.chance(0.4):
                return [f"{before}keep {name} from {self.pick(others)};"]
            values = ", ".join(self.fixed(kind) for kind in more)
            return [f"{before}keep {name}({values});"]
        if others and self.chance(0.4):
            return [f"{before}{name} = {self.pick(others)};"]
        return [f"{before}{name} = {self.fixed(more)};"]

    # The report.

    def shown_number(self, depth, wanted):
        if depth == 0 or self.chance(0.5):
            return self.shown_one()
        if self.chance(0.1):
            return self.enclosed("-" + self.shown_number(depth - 1, UNARY), UNARY, wanted)
        operator = self.pick(["+", "-", "*", "*", "/", "%"])
        level = SUM if operator in "+-" else PRODUCT
        left = self.shown_number(depth - 1, level)
        right = self.shown_number(depth - 1, level + 1)
        return self.enclosed(f"{left} {operator} {right}", level, wanted)

    def shown_one(self):
        name, sort, more = self.pick(self.cells)
        if sort == "int":
            return name
        if sort == "nums":
            return f"{self.pick(FUNCTIONS[:6])}({name})"
        if sort == "words":
            return f"count({name})"
        if sort == "hold" and "num" in more:
            return f"part({name}, {more.index('num') + 1})"
        return str(self.pick(NUMBERS))

    def column(self):
        name, sort, more = self.pick(self.cells)
        if sort == "hold" and self.chance(0.7):
            return f"part({name}, {self.random.randint(1, len(more))})"
        if sort in ("enum", "nums", "words") and self.chance(0.5):
            return name
        if sort == "words" and self.chance(0.5):
            return f"{self.pick(('first', 'last'))}({name})"
        if self.chance(0.05):
            return self.text(self.pick(WORDS))
        return self.shown_number(3, OR)

    def script(self):
        """The lines of a script, within the path bound."""
        lines = self.declare()
        self.values = [(name, kind) for name, _, kind, _ in self.fields]
        columns = []
        for _ in range(self.random.randint(1, 6)):
            columns.append(f"  {self.name('r')} = {self.column()};")
        report = ["report {"] + columns + ["}"]
        for self.budget in (self.pick([2, 4, 8, 16, 40]), 8, 4, 2, 1, 0):
            update = ["update {"] + self.block(0, 8, 1) + ["}"]
            text = self.spaced(lines + update + report)
            try:
                reference.checked(text.encode())
                return text
            except reference.Refused as refused:
                if not refused.line.endswith(b" paths"):
                    raise AssertionError((refused.line, text)) from None
        raise AssertionError("no update is within the path bound")

    def spaced(self, lines):
        """The text of lines, now and then with comments, tabs and other line ends."""
        end = self.pick(["\n"] * 8 + ["\r\n", "\n\n", " # ; } \n", "\n\t"])
        return end.join(lines) + self.pick(["\n", "\n", "", "# end"])

    # Files.

    def bad(self):
        return not self.long and self.chance(0.004)

    def value(self, kind, has_default):
        if has_default and self.chance(0.2):
            return self.pick(["", "", " "]) if kind != "word" else ""
        if self.bad():
            return self.pick(["x", "1.0", "\udcff", "1000000000001", "", " ", "L1", "é"])
        if kind == "word":
            return self.pick(self.words)
        if kind != "num":
            text = self.pick(self.labels(kind))
        else:
            number = self.pick(self.numbers)
            text = str(number)
            if self.chance(0.05):
                text = "+" + text if number >= 0 else text
            if self.chance(0.05):
                text = text.replace("-", "-00") if number < 0 else "00" + text.lstrip("+")
        if self.chance(0.04):
            text = self.pick([" ", "\t", "  "]) + text + self.pick(["", " "])
        return text

    def quoted(self, text):
        if any(c in text for c in ',\r\n"') or self.chance(0.05):
            return '"' + text.replace('"', '""') + '"'
        return text

    def row(self, columns):
        cells = [self.value(kind, default) for kind, default in columns]
        if self.bad():
            cells = cells[1:] if self.chance(0.5) else cells + ["1"]
        if cells == [""]:
            return '""'
        return ",".join(self.quoted(cell) for cell in cells)

    def file(self):
        if self.chance(0.04):
            return b""
        named = [(header, (kind, default)) for _, header, kind, default in self.fields]
        for _ in range(self.pick([0, 0, 1, 2])):
            named.append((self.pick(["other", "", "f1x", "F1"]), ("word", False)))
        self.random.shuffle(named)
        if self.chance(0.02):
            named.append(self.pick(named))
        if self.chance(0.02) and len(named) > 1:
            named.pop()
        end = self.pick(["\n"] * 6 + ["\r\n", "\r", "\n\n"])
        rows = [",".join(self.quoted(header) for header, _ in named)]
        if rows == [""]:
            rows = ['""']
        # A long file has no bad row, and so many of a group that workers explore them.
        self.long = self.chance(0.1)
        many = 300 if self.long else self.pick([0, 1, 2, 3, 5, 8, 8, 13, 21, 40])
        rows += [self.row([column for _, column in named]) for _ in range(many)]
        text = end.join(rows) + self.pick([end, end, ""])
        if self.chance(0.03):
            text = "\ufeff" + text
        return text.encode("utf-8", "surrogateescape")

    def files(self):
        self.words = [self.pick(WORDS + ["a\nb", "a,b", "\x7f"]) for _ in range(4)]
        self.numbers = [self.number() for _ in range(self.pick([2, 3, 6]))]
        return [self.file() for _ in range(self.pick([1, 1, 1, 2, 3]))]

    def changed(self, text):
        """A text with one token replaced by another one, most often of its sort, left out or
        doubled."""
        encoded = text.encode()
        tokens = reference.tokens_of(encoded)
        at = self.random.randrange(len(tokens) - 1)
        sort = sort_of(tokens[at])
        alike = [i for i, token in enumerate(tokens[:-1]) if sort_of(token) == sort]
        begin, end = tokens[at].at, tokens[at + 1].at
        what = self.random.random()
        if what < 0.85:
            other = self.pick(alike) if what < 0.7 else self.random.randrange(len(tokens) - 1)
            new = encoded[tokens[other].at : tokens[other + 1].at] + b" "
        elif what < 0.93:
            new = self.pick([b" ", encoded[begin:end] * 2])
        else:
            new = self.pick([b"- ", b"not ", b"( ", b'"x" ', b"0 ", b"1000000000001 ", b"$ "])
        return (encoded[:begin] + new + encoded[end:]).decode()


def sort_of(token):
    if token.kind in OPERATORS:
        return "operator"
    return "value" if token.kind in ("name", "number", "text") else token.kind


class Program:
    def __init__(self, path, folder):
        self.path = path
        self.folder = folder
        self.takes_options = False
        self.takes_forms = False
        self.takes_check = False
        self.takes_trace = False
        self.takes_map = False
        self.takes_join = False
        self.takes_watch = False

    def probe(self):
        """Which commands and options the program takes."""
        self.write("probe.symple", b"field x: num; state n: words; update { } report { n = n; }")
        self.write("probe.csv", b"x\n")
        self.takes_options = self.run(["--chunk", "1", "probe.symple", "probe.csv"])[0] == 0
        self.takes_forms = self.run(["--form", "csv", "probe.symple", "probe.csv"])[0] == 0
        self.takes_check = self.start(["check", "probe.symple"])[0] == 0
        self.takes_trace = self.start(["trace", "probe.symple", "probe.csv"])[0] == 0
        self.takes_map = self.start(["map", "probe.symple", "probe.csv"])[0] == 0
        if self.takes_map:
            self.write("probe.run", self.start(["map", "probe.symple", "probe.csv"])[1])
            self.takes_join = self.start(["join", "probe.symple", "probe.run"])[0] == 0
        self.takes_watch = self.run(["--watch", "probe.symple", "probe.csv"])[0] == 0

    def write(self, name, content):
        with open(os.path.join(self.folder, name), "wb") as file:
            file.write(content)

    def start(self, arguments):
        done = subprocess.run(
            [self.path] + arguments, cwd=self.folder, capture_output=True, timeout=120, check=False
        )
        return done.returncode, done.stdout, done.stderr

    def run(self, arguments):
        return self.start(["run"] + arguments)


def answers(program, script, files, number):
    """Pairs of what is asked, and whether the program's answer isn't the reference's."""
    program.write("script", script)
    names = []
    for index, content in enumerate(files):
        names.append(f"log{index}.csv")
        program.write(names[-1], content)
    os.chdir(program.folder)
    wanted = reference.run(b"script", [name.encode() for name in names])
    yield "run", wanted, program.run(["script"] + names)
    if program.takes_options:
        for turn in range(SETTINGS_A_CASE):
            chunk, limit, workers = SETTINGS[(number * 5 + turn * 7) % len(SETTINGS)]
            options = ["--chunk", str(chunk), "--limit", str(limit), "--workers", str(workers)]
            yield " ".join(options), wanted, program.run(options + ["script"] + names)
    if program.takes_forms:
        for form in ("csv", "pairs"):
            wanted = reference.run(b"script", [name.encode() for name in names], form)
            yield form, wanted, program.run(["--form", form, "script"] + names)
    if program.takes_check:
        yield "check", reference.check(b"script"), program.start(["check", "script"])
    if program.takes_trace:
        yield from traces(program, names, number)
        if number <= PREFIXED:
            yield from prefixes(program, script, names, files)
    if program.takes_map:
        yield from parts(program, names, files, number)
    if program.takes_watch:
        yield from watches(program, names, number)


def parts(program, names, files, number):
    """The report on the run files of all files, each of which is mapped alone; or, at the first file
    that is refused, the refusal of its part."""
    first = 1
    runs = []
    for place, name in enumerate(names):
        chunk, limit, workers = SETTINGS[(number * 3 + place * 17) % len(SETTINGS)]
        asked = ["--first", str(first), "--chunk", str(chunk), "--limit", str(limit)]
        asked += ["--workers", str(workers)]
        status, text, line = program.start(["map"] + asked + ["script", name])
        if status != 0:
            wanted = reference.run(b"script", [name.encode() for name in names])
            yield "map " + " ".join(asked), wanted, (status, text, line)
            return
        runs.append(f"part{place}.run")
        program.write(runs[-1], text)
        first = int(re.search(rb"^next ([0-9]+)$", text, re.MULTILINE).group(1))
    form = ("table", "csv", "pairs")[number % 3]
    wanted = reference.run(b"script", [name.encode() for name in names], form)
    yield "reduce --form " + form, wanted, program.start(["reduce", "--form", form, "script"] + runs)
    if program.takes_join:
        yield from joins(program, files, number, form, wanted)


def pieces(files, drawn):
    """The files, each cut between records into one to four, with the header repeated."""
    for content in files:
        rows = list(reference.rows_of(content))
        cuts = sorted(drawn.choices(range(1, len(rows) + 1), k=drawn.randint(0, 3))) if rows else []
        for begin, end in zip([1] + cuts, cuts + [len(rows)]):
            yield b"".join(reference.csv_row(row) for row in rows[:1] + rows[begin:end])


def joins(program, files, number, form, wanted):
    """The report on what the run files of pieces are joined to: neighbours at random, one to four of
    them at a time, by random limits, until one or two are left."""
    drawn = random.Random(number)
    runs = []
    first = 1
    for place, piece in enumerate(pieces(files, drawn)):
        program.write("piece.csv", piece)
        limit = str(drawn.choice(JOIN_LIMITS))
        asked = ["map", "--first", str(first), "--limit", limit, "script", "piece.csv"]
        status, text, line = program.start(asked)
        yield " ".join(asked), (0, b""), (status, line)
        if status != 0:
            return
        runs.append(f"piece{place}.run")
        program.write(runs[-1], text)
        first = int(re.search(rb"^next ([0-9]+)$", text, re.MULTILINE).group(1))
    left = drawn.choice((1, 1, 2))
    turn = 0
    while turn == 0 or len(runs) > left:
        at = drawn.randrange(len(runs))
        some = runs[at : at + drawn.randint(1, 4)]
        asked = ["join", "--limit", str(drawn.choice(JOIN_LIMITS)), "script"] + some
        status, text, line = program.start(asked)
        yield " ".join(asked), (0, b""), (status, line)
        if status != 0:
            return
        runs = runs[:at] + [f"joined{turn}.run"] + runs[at + len(some) :]
        program.write(runs[at], text)
        turn += 1
    asked = ["reduce", "--form", form, "script"] + runs
    yield " ".join(asked), wanted, program.start(asked)


def watches(program, names, number):
    """The report, and before it a line after each round: the records so far, and the groups."""
    for turn in range(WATCHED_A_CASE):
        chunk, limit, workers = SETTINGS[(number * 7 + turn * 19) % len(SETTINGS)]
        asked = ["--chunk", str(chunk), "--limit", str(limit), "--workers", str(workers)]
        wanted = reference.run(
            b"script", [name.encode() for name in names], per_round=CHUNKS_A_ROUND * chunk
        )
        found = program.run(["--watch"] + asked + ["script"] + names)
        yield "--watch " + " ".join(asked), wanted, found


def traces(program, names, number):
    """The same of traces, each in another form, with other numbers shown and other settings."""
    for turn in range(TRACES_A_CASE):
        chunk, limit, workers = SETTINGS[(number * 11 + turn * 13) % len(SETTINGS)]
        every = (1, 2, 7)[turn]
        form = ("table", "csv", "pairs")[(number + turn) % 3]
        asked = ["--form", form, "--every", str(every), "--chunk", str(chunk)]
        asked += ["--limit", str(limit), "--workers", str(workers)]
        wanted = reference.run(b"script", [name.encode() for name in names], form, every)
        found = program.start(["trace"] + asked + ["script"] + names)
        yield "trace " + " ".join(asked), wanted, found


def prefixes(program, script, names, files):
    """Of each row of a trace, the rows of its group in a run over the records up to it, and the row
    without its number."""
    status, text, _ = program.start(["trace", "--form", "csv", "script"] + names)
    if status > 1:
        return
    width = len(reference.checked(script).script.group)
    traced = list(reference.rows_of(text))[1:]
    for place, content in enumerate(files):
        rows = list(reference.rows_of(content))
        for end in range(2, len(rows) + 1):
            program.write("prefix.csv", b"".join(reference.csv_row(row) for row in rows[:end]))
            asked = ["--form", "csv", "script"] + names[:place] + ["prefix.csv"]
            report = list(reference.rows_of(program.run(asked)[1]))[1:]
            row = traced.pop(0)[1:]
            wanted = [other for other in report if other[:width] == row[:width]]
            yield f"the trace at record {end - 1} of {names[place]}", wanted, [row]
    yield "more rows of the trace", [], traced


def differs(program, script, files, number):
    for asked, wanted, found in answers(program, script, files, number):
        if wanted != found:
            return asked, wanted, found
    return None


def status_of(difference):
    """The wanted status; a list of rows has none."""
    return difference[1][0] if isinstance(difference[1], tuple) else None


def smaller(program, script, files, number):
    """The case with lines dropped, as long as the answers differ, and a run is wanted to end with
    the same status."""
    texts = [script] + files
    status = status_of(differs(program, script, files, number))
    for index in range(len(texts)):
        lines = texts[index].splitlines(True)
        at = 0
        while at < len(lines):
            fewer = lines[:at] + lines[at + 1 :]
            tried = texts[:index] + [b"".join(fewer)] + texts[index + 1 :]
            found = differs(program, tried[0], tried[1:], number)
            if found and status_of(found) == status:
                texts, lines = tried, fewer
            else:
                at += 1
    return texts


def show(program, script, files, number, seed):
    texts = smaller(program, script, files, number)
    asked, wanted, found = differs(program, texts[0], texts[1:], number)
    print(f"checks/agree.sh: case {number} of seed {seed}, {asked}:", file=sys.stderr)
    for name, text in zip(["script"] + [f"log{i}.csv" for i in range(len(files))], texts):
        print(f"--- {name}\n{text.decode('utf-8', 'backslashreplace')}", file=sys.stderr)
    print(f"--- wanted {wanted}\n--- found  {found}", file=sys.stderr)


def main(path, cases, seed):
    passed = failed = accepted = 0
    statuses = {}
    with tempfile.TemporaryDirectory(dir="/tmp") as folder:
        program = Program(os.path.abspath(path), folder)
        program.probe()
        for taken, what in (
            (program.takes_options, "--chunk, --limit and --workers"),
            (program.takes_forms, "--form"),
            (program.takes_check, "check"),
            (program.takes_trace, "trace"),
            (program.takes_map, "map"),
            (program.takes_watch, "--watch"),
        ):
            if not taken:
                print(f"checks/agree.sh: skipped: the program takes no {what}")
        for number in range(1, cases + 1):
            maker = Maker(f"{seed}/{number}")
            script = maker.script()
            files = maker.files()
            for text in (script, maker.changed(script)):
                status = None
                for asked, wanted, found in answers(program, text.encode(), files, number):
                    status = wanted[0] if status is None else status
                    if wanted == found:
                        passed += 1
                        continue
                    failed += 1
                    if failed <= 5:
                        show(program, text.encode(), files, number, seed)
                    break
                statuses[status] = statuses.get(status, 0) + 1
    counts = ", ".join(f"{statuses[s]} of status {s}" for s in sorted(statuses))
    print(f"checks/agree.sh: seed {seed}: {counts}")
    print(f"checks/agree.sh: {passed} passed, {failed} failed")
    return 1 if failed else 0


if __name__ == "__main__":
    sys.setrecursionlimit(10000)
    sys.exit(main(sys.argv[1], int(sys.argv[2]), sys.argv[3]))
