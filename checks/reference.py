#!/usr/bin/env python3
"""The script language a second time, written from docs/LANGUAGE.md alone: it takes one record after
another, in whole numbers of any size, and knows nothing of paths, chunks or workers. So it is slow
and short. checks/agree.sh compares the program with it.

    reference.py run [--form NAME] SCRIPT FILE...

writes what the program has to write, and ends with the status that it has to end with.
"""

import sys

MOST = 10**12
BOTTOM, TOP = -(2**127), 2**127 - 1
SCRIPT_BYTES, FILE_BYTES = 65536, 67108864
KEYWORDS = frozenset(
    b"enum field from num word else group state int nums words hold test update report let push"
    b" keep if and or not is clamp".split()
)
SYMBOLS = [b"==", b"!=", b"<=", b">=", b".."] + [bytes([c]) for c in b"{}()[],:;=<>+-*/%"]
LETTERS = frozenset(b"ABCDEFGHIJKLMNOPQRSTUVWXYZabcdefghijklmnopqrstuvwxyz_")
DIGITS = frozenset(b"0123456789")
LIMITS = {
    "enums": 16,
    "labels": 32,
    "fields": 32,
    "group fields": 3,
    "cells": 32,
    "tests": 32,
    "parameters": 8,
    "parts": 4,
    "statements": 512,
    "depth": 64,
    "operands": 256,
    "columns": 32,
}
PATHS, PATHS_SHOWN = 1024, 1000000


class Refused(Exception):
    """A run that ends without a report: its status, and its line without `symple: `."""

    def __init__(self, status, line):
        super().__init__(status, line)
        self.status = status
        self.line = line


def refuse(what, at):
    raise Refused(3, b"script: %s at byte %d" % (what.encode(), at))


# Tokens: pairs of a kind, which is `name`, `number`, `text`, `end`, a keyword or a symbol, and a
# value, with the place of the first byte.


class Token:
    def __init__(self, kind, value, at):
        self.kind = kind
        self.value = value
        self.at = at


def tokens_of(text):
    found = []
    at = 0
    while at < len(text):
        byte = text[at]
        if byte in b" \t\r\n":
            at += 1
        elif byte == ord("#"):
            end = text.find(b"\n", at)
            at = len(text) if end < 0 else end
        elif byte in LETTERS or byte in DIGITS:
            end = at
            while end < len(text) and (text[end] in LETTERS or text[end] in DIGITS):
                end += 1
            if byte in DIGITS:
                digits = at
                while digits < end and text[digits] in DIGITS:
                    digits += 1
                if digits < end or int(text[at:digits]) > MOST:
                    refuse("bad number", at)
                found.append(Token("number", int(text[at:end]), at))
            else:
                word = text[at:end]
                if len(word) > 64:
                    refuse("long name", at)
                kind = word.decode() if word in KEYWORDS else "name"
                found.append(Token(kind, word, at))
            at = end
        elif byte == ord('"'):
            value, end = text_at(text, at)
            found.append(Token("text", value, at))
            at = end
        else:
            for symbol in SYMBOLS:
                if text.startswith(symbol, at):
                    found.append(Token(symbol.decode(), None, at))
                    at += len(symbol)
                    break
            else:
                refuse("bad byte", at)
    found.append(Token("end", None, len(text)))
    return found


def text_at(text, begin):
    value = bytearray()
    at = begin + 1
    while at < len(text) and text[at] != ord("\n"):
        if text[at] == ord('"'):
            if not is_utf8(value):
                break
            return bytes(value), at + 1
        if text[at] == ord("\\"):
            at += 1
            if at == len(text) or text[at] not in b'"\\':
                break
        value.append(text[at])
        at += 1
    refuse("bad text", begin)


def is_utf8(value):
    try:
        bytes(value).decode("utf-8")
        return True
    except UnicodeDecodeError:
        return False


# The tree. An expression is a tuple whose first item says what it is and whose last is its place:
# ("num", value, at), ("text", bytes, at), ("name", bytes, at), ("call", bytes, arguments, at),
# ("neg", operand, at), ("not", operand, at), (operator, left, right, at).

LOOSEST_FIRST = [("or",), ("and",), ("not",), ("==", "!=", "<", "<=", ">", ">=", "is"), ("+", "-")]
COMPARISONS = LOOSEST_FIRST[3]


class Script:
    def __init__(self):
        self.enums, self.fields, self.group, self.states = [], [], [], []
        self.tests, self.update, self.columns = [], [], []


class Parser:
    def __init__(self, tokens):
        self.tokens = tokens
        self.next = 0
        self.depth = 0
        self.operands = 0
        self.statements = 0

    @property
    def kind(self):
        return self.tokens[self.next].kind

    @property
    def at(self):
        return self.tokens[self.next].at

    def take(self, *kinds):
        if self.kind not in kinds:
            refuse("unexpected token", self.at)
        self.next += 1
        return self.tokens[self.next - 1]

    def taken(self, kind):
        if self.kind != kind:
            return False
        self.next += 1
        return True

    def within(self, thing, count):
        """Refuses one thing too many, of which so many stand before the token that begins it."""
        if count >= LIMITS[thing]:
            refuse("limit of " + thing, self.at)

    def name(self):
        token = self.take("name")
        return token.value, token.at

    def several(self, thing, begins, item):
        """One or more items, with commas between them, as far as the limit goes."""
        found = []
        while True:
            if self.kind in begins:
                self.within(thing, len(found))
            found.append(item())
            if not self.taken(","):
                return found

    def script(self):
        script = Script()
        while self.kind == "enum":
            self.within("enums", len(script.enums))
            script.enums.append(self.enum())
        while True:
            if self.kind == "field":
                self.within("fields", len(script.fields))
            script.fields.append(self.field())
            if self.kind != "field":
                break
        if self.taken("group"):
            script.group = self.several("group fields", ("name",), self.name)
            self.take(";")
        while True:
            if self.kind == "state":
                self.within("cells", len(script.states))
            script.states.append(self.state())
            if self.kind != "state":
                break
        while self.kind == "test":
            self.within("tests", len(script.tests))
            script.tests.append(self.test())
        self.take("update")
        script.update = self.block()
        self.take("report")
        self.take("{")
        while True:
            if self.kind == "name":
                self.within("columns", len(script.columns))
            script.columns.append(self.column())
            if self.kind != "name":
                break
        self.take("}")
        self.take("end")
        return script

    def enum(self):
        self.take("enum")
        name = self.name()
        self.take("{")
        labels = self.several("labels", ("name",), self.name)
        self.take("}")
        return name, labels

    def kind_of_value(self):
        token = self.take("num", "word", "name")
        return (token.kind, token.value, token.at)

    def number(self):
        sign = -1 if self.taken("-") else 1
        return sign * self.take("number").value

    def literal(self):
        at = self.at
        if self.kind in ("-", "number"):
            return ("num", self.number(), at)
        token = self.take("text", "name")
        return (token.kind, token.value, at)

    def field(self):
        self.take("field")
        name = self.name()
        header = self.take("text").value if self.taken("from") else name[0]
        self.take(":")
        kind = self.kind_of_value()
        default = self.literal() if self.taken("else") else None
        self.take(";")
        return name, header, kind, default

    def range(self):
        self.take("[")
        low = self.number()
        self.take("..")
        high = self.number()
        self.take("]")
        return low, high

    def state(self):
        self.take("state")
        name = self.name()
        self.take(":")
        token = self.take("int", "nums", "words", "hold", "name")
        if token.kind == "int":
            low, high = self.range()
            self.take("=")
            first = self.number()
            cell = ("int", low, high, first, self.taken("clamp"))
        elif token.kind == "nums":
            low, high = self.range()
            cell = ("nums", low, high, self.taken("clamp"))
        elif token.kind == "words":
            cell = ("words",)
        elif token.kind == "hold":
            self.take("(")
            cell = ("hold", self.several("parts", ("num", "word", "name"), self.part))
            self.take(")")
        else:
            self.take("=")
            cell = ("enum", (token.value, token.at), self.name())
        self.take(";")
        return name, cell

    def part(self):
        kind = self.kind_of_value()
        self.take("=")
        return kind, self.literal()

    def test(self):
        self.take("test")
        name = self.name()
        self.take("(")
        parameters = self.several("parameters", ("name",), self.parameter)
        self.take(")")
        self.take("=")
        body = self.expression()
        self.take(";")
        return name, parameters, body

    def parameter(self):
        name = self.name()
        self.take(":")
        return name, self.kind_of_value()

    def block(self):
        self.take("{")
        found = []
        while self.kind in ("let", "name", "push", "keep", "if"):
            found.append(self.statement())
        self.take("}")
        return found

    def statement(self):
        self.within("statements", self.statements)
        self.statements += 1
        if self.kind == "if":
            return self.condition()
        token = self.take("let", "name", "push", "keep")
        if token.kind == "name":
            name = (token.value, token.at)
        else:
            name = self.name()
        if token.kind == "keep":
            if self.kind == "from":
                self.take("from")
                found = ("copy", name, self.name())
            else:
                if self.kind != "(":
                    refuse("unexpected token", self.at)
                self.take("(")
                values = [self.expression()]
                while self.taken(","):
                    values.append(self.expression())
                self.take(")")
                found = ("keep", name, values)
        else:
            if token.kind != "push":
                self.take("=")
            kind = "set" if token.kind == "name" else token.kind
            found = (kind, name, self.expression())
        self.take(";")
        return found

    def condition(self):
        self.within("depth", self.depth)
        self.take("if")
        self.depth += 1
        test = self.expression()
        then = self.block()
        other = []
        if self.taken("else"):
            if self.kind == "if":
                other = [self.statement()]
            elif self.kind == "{":
                other = self.block()
            else:
                refuse("unexpected token", self.at)
        self.depth -= 1
        return ("if", test, then, other)

    def column(self):
        name = self.name()
        self.take("=")
        shown = self.expression()
        self.take(";")
        return name, shown

    def expression(self):
        self.operands = 0
        return self.level(0)

    def level(self, level):
        if level == len(LOOSEST_FIRST):
            return self.product()
        if level == 2:
            if self.kind != "not":
                return self.level(3)
            self.within("depth", self.depth)
            at = self.take("not").at
            self.depth += 1
            operand = self.level(2)
            self.depth -= 1
            return ("not", operand, at)
        left = self.level(level + 1)
        while self.kind in LOOSEST_FIRST[level]:
            token = self.take(self.kind)
            left = (token.kind, left, self.level(level + 1), token.at)
            if level == 3:
                break
        return left

    def product(self):
        left = self.unary()
        while self.kind in ("*", "/", "%"):
            token = self.take(self.kind)
            left = (token.kind, left, self.unary(), token.at)
        return left

    def unary(self):
        if self.kind != "-":
            return self.primary()
        self.within("depth", self.depth)
        at = self.take("-").at
        self.depth += 1
        operand = self.unary()
        self.depth -= 1
        return ("neg", operand, at)

    def primary(self):
        if self.kind == "(":
            inner = self.opened()
            if len(inner) != 1:
                raise AssertionError("one expression in parentheses")
            return inner[0]
        if self.kind in ("number", "text", "name"):
            self.within("operands", self.operands)
            self.operands += 1
        token = self.take("number", "text", "name")
        if token.kind == "name" and self.kind == "(":
            return ("call", token.value, self.opened(True), token.at)
        kind = "num" if token.kind == "number" else token.kind
        return (kind, token.value, token.at)

    def opened(self, several=False):
        self.within("depth", self.depth)
        self.take("(")
        self.depth += 1
        found = [self.level(0)]
        while several and self.taken(","):
            found.append(self.level(0))
        self.take(")")
        self.depth -= 1
        return found


# The rules of names and kinds. A kind is "num", "word" or ("label", enum). What an expression of
# the update is: a kind, ("line", cell), ("cell", name of an enum cell, enum) or "cond".


def place(expression):
    return expression[-1]


class Checker:
    def __init__(self, script):
        self.script = script
        self.known = {}
        self.locals = {}
        self.everything = set()
        self.paths = 0
        for name, labels in script.enums:
            self.everything.update([name[0]] + [label[0] for label in labels])
        for things in (script.fields, script.states, script.tests):
            self.everything.update(thing[0][0] for thing in things)

    def check(self):
        script = self.script
        for name, labels in script.enums:
            self.declare(name, ("enum",))
            for label in labels:
                self.declare(label, ("label", name[0]))
        for name, _, kind, default in script.fields:
            self.declare(name, ("field", None))
            of = self.kind(kind)
            self.known[name[0]] = ("field", of)
            if default is not None:
                self.first(default, of)
        named = set()
        for name in script.group:
            if self.find(name)[0] != "field":
                refuse("wrong kind", name[1])
            if name[0] in named:
                refuse("name taken", name[1])
            named.add(name[0])
        for name, cell in script.states:
            self.declare(name, ("cell", None))
            self.known[name[0]] = self.cell(name, cell)
        for name, parameters, body in script.tests:
            self.declare(name, ("test", None))
            self.test(name, parameters, body)
        self.block(script.update)
        self.report()
        going, ending = paths_of(script.update, self)
        self.paths = min(going + ending, PATHS_SHOWN)
        if self.paths > PATHS:
            raise Refused(3, b"script: %d paths" % self.paths)

    def declare(self, name, meaning):
        if name[0] in self.known:
            refuse("name taken", name[1])
        self.known[name[0]] = meaning

    def find(self, name):
        if name[0] not in self.known:
            refuse("unknown name", name[1])
        return self.known[name[0]]

    def kind(self, kind):
        if kind[0] != "name":
            return kind[0]
        if self.find(kind[1:])[0] != "enum":
            refuse("wrong kind", kind[2])
        return ("label", kind[1])

    def first(self, literal, kind):
        found = literal[0]
        if found == "name":
            found = self.find(literal[1:])
        elif found == "text":
            found = "word"
        if found != kind:
            refuse("wrong kind", literal[-1])

    def cell(self, name, cell):
        if cell[0] in ("int", "nums"):
            low, high = cell[1], cell[2]
            if low > high or cell[0] == "int" and not low <= cell[3] <= high:
                refuse("wrong range", name[1])
        if cell[0] == "hold":
            kinds = []
            for kind, value in cell[1]:
                kinds.append(self.kind(kind))
                self.first(value, kinds[-1])
            return ("hold", kinds)
        if cell[0] == "enum":
            of = self.kind(("name",) + cell[1])
            self.first(("name",) + cell[2], of)
            return ("enum cell", of)
        return (cell[0],)

    def test(self, name, parameters, body):
        own = {}
        for parameter, kind in parameters:
            if parameter[0] in self.everything or parameter[0] in own:
                refuse("name taken", parameter[1])
            own[parameter[0]] = self.kind(kind)
        outer, self.locals = self.known, own
        self.known = {n: m for n, m in outer.items() if m[0] == "label"}
        found = self.type(body)
        self.known, self.locals = outer, {}
        if found != "cond":
            refuse("wrong kind", place(body))
        self.known[name[0]] = ("test", list(own.values()))

    def see(self, name):
        """What a name of an expression of the update or of a test means."""
        if name[0] in self.locals:
            return ("value", self.locals[name[0]])
        found = self.find(name)
        if found[0] == "enum":
            refuse("unknown name", name[1])
        return found

    def block(self, statements):
        outer = dict(self.locals)
        for statement in statements:
            self.statement(statement)
        self.locals = outer

    def statement(self, statement):
        what = statement[0]
        if what == "if":
            if self.type(statement[1]) != "cond":
                refuse("wrong kind", place(statement[1]))
            self.block(statement[2])
            self.block(statement[3])
            return
        name = statement[1]
        if what == "let":
            if name[0] in self.everything or name[0] in self.locals:
                refuse("name taken", name[1])
            found = self.type(statement[2])
            if not is_fixed(found):
                refuse("wrong kind", place(statement[2]))
            self.locals[name[0]] = found
            return
        cell = self.see(name)
        if what == "set":
            self.set(name, cell, statement[2])
        elif what == "push":
            if cell[0] not in ("nums", "words"):
                refuse("wrong kind", name[1])
            found = self.type(statement[2])
            wanted = is_number(found) if cell[0] == "nums" else found == "word"
            if not wanted:
                refuse("wrong kind", place(statement[2]))
        elif cell[0] != "hold":
            refuse("wrong kind", name[1])
        elif what == "copy":
            other = statement[2]
            if self.see(other) != cell or other[0] == name[0]:
                refuse("wrong kind", other[1])
        else:
            found = [self.type(value) for value in statement[2]]
            if len(found) != len(cell[1]):
                refuse("wrong kind", name[1])
            for value, of, kind in zip(statement[2], found, cell[1]):
                if of != kind:
                    refuse("wrong kind", place(value))

    def set(self, name, cell, value):
        if cell[0] == "int":
            wanted = is_number(self.type(value))
        elif cell[0] == "enum cell":
            found = self.type(value, True)
            wanted = found == cell[1] or found[0] == "cell" and found[2] == cell[1] and (
                found[1] != name[0]
            )
        else:
            refuse("wrong kind", name[1])
        if not wanted:
            refuse("wrong kind", place(value))

    def type(self, expression, takes_enum_cell=False):
        what = expression[0]
        if what == "num":
            return "num"
        if what == "text":
            return "word"
        if what == "name":
            return self.type_of_name(expression, takes_enum_cell)
        if what == "call":
            return self.call(expression)
        if what in ("neg", "not"):
            found = self.type(expression[1])
            if not (is_number(found) if what == "neg" else found == "cond"):
                refuse("wrong kind", place(expression))
            return found
        left = self.type(expression[1], what == "is")
        right = self.type(expression[2])
        return self.type_of_two(what, left, right, place(expression))

    def type_of_name(self, expression, takes_enum_cell):
        found = self.see(expression[1:])
        if found[0] in ("field", "value"):
            return found[1]
        if found[0] == "label":
            return found
        if found[0] == "int":
            return ("line", expression[1])
        if found[0] == "enum cell" and takes_enum_cell:
            return ("cell", expression[1], found[1])
        refuse("wrong kind", place(expression))

    def type_of_two(self, what, left, right, at):
        if what in ("and", "or"):
            if left != "cond" or right != "cond":
                refuse("wrong kind", at)
            return "cond"
        if what == "is":
            of = left[2] if left[0] == "cell" else left
            if of[0] != "label" or of != right:
                refuse("wrong kind", at)
            return "cond"
        if what in ("==", "!=") and left == "word" and right == "word":
            return "cond"
        if not is_number(left) or not is_number(right):
            refuse("wrong kind", at)
        lines = [side for side in (left, right) if side != "num"]
        if len(lines) > 1 or lines and what in ("/", "%"):
            refuse("not linear", at)
        if what in COMPARISONS:
            return "cond"
        return lines[0] if lines else "num"

    def call(self, expression):
        name = (expression[1], place(expression))
        test = self.see(name)
        if test[0] != "test":
            refuse("wrong kind", name[1])
        arguments = expression[2]
        cell = None
        found = []
        for argument in arguments:
            if not found and argument[0] == "name" and argument[1] not in self.locals:
                cell = self.see(argument[1:])
                if cell[0] == "hold":
                    found.append(None)
                    continue
            found.append(self.type(argument, False))
        if found[0] is not None:
            refuse("wrong kind", place(arguments[0]))
        parts = len(cell[1])
        if parts > len(test[1]):
            refuse("wrong kind", place(arguments[0]))
        if len(arguments) != 1 + len(test[1]) - parts:
            refuse("wrong kind", name[1])
        if cell[1] != test[1][:parts]:
            refuse("wrong kind", place(arguments[0]))
        for argument, of, kind in zip(arguments[1:], found[1:], test[1][parts:]):
            if of != kind:
                refuse("wrong kind", place(argument))
        return "cond"

    def report(self):
        names = set()
        for name, shown in self.script.columns:
            if name[0] in names:
                refuse("name taken", name[1])
            names.add(name[0])
            if self.shown(shown) == "hold":
                refuse("wrong kind", place(shown))

    def shown(self, expression):
        what, at = expression[0], place(expression)
        if what in ("num", "text"):
            return "num" if what == "num" else "word"
        if what == "name":
            found = self.find(expression[1:])
            if found[0] not in ("int", "enum cell", "nums", "words", "hold"):
                refuse("unknown name", at)
            return {"int": "num", "enum cell": "word"}.get(found[0], found[0])
        if what == "call":
            return self.shown_call(expression)
        found = [self.shown(operand) for operand in expression[1:-1]]
        if what not in ("neg", "+", "-", "*", "/", "%") or any(of != "num" for of in found):
            refuse("wrong kind", at)
        return "num"

    def shown_call(self, expression):
        name, arguments, at = expression[1:]
        if name not in (b"count", b"first", b"last", b"max", b"min", b"part", b"sum"):
            refuse("unknown name", at)
        found = [self.shown(argument) for argument in arguments]
        if name == b"part":
            if len(found) != 2 or found[0] != "hold" or arguments[1][0] != "num":
                refuse("wrong kind", at)
            kinds = self.known[arguments[0][1]][1]
            number = arguments[1][1]
            if not 1 <= number <= len(kinds):
                refuse("wrong range", place(arguments[1]))
            return "num" if kinds[number - 1] == "num" else "word"
        if len(found) != 1 or found[0] not in ("nums", "words"):
            refuse("wrong kind", at)
        if found[0] == "words" and name in (b"max", b"min", b"sum"):
            refuse("wrong kind", at)
        return "word" if found[0] == "words" and name != b"count" else "num"


def is_fixed(found):
    return found in ("num", "word") or found[0] == "label"


def is_number(found):
    return found == "num" or found[0] == "line"


# The path bound.


def paths_of(statements, checker):
    going, ending = 1, 0
    for statement in statements:
        g, e = paths_of_one(statement, checker)
        ending = min(ending + going * e, PATHS_SHOWN)
        going = min(going * g, PATHS_SHOWN)
    return going, ending


def paths_of_one(statement, checker):
    what = statement[0]
    if what in ("set", "push"):
        name = statement[1][0]
        cell = next(cell for (own, _), cell in checker.script.states if own == name)
        if cell[0] in ("int", "nums"):
            return (3, 0) if cell[-1] is True else (1, 2)
    if what != "if":
        return 1, 0
    g, e = paths_of(statement[2], checker)
    h, f = paths_of(statement[3], checker)
    if not names_cell(statement[1], checker):
        return max(g, h), max(e, f)
    true, false = cases_of(statement[1], checker)
    going, ending = true * g + false * h, true * e + false * f
    return min(going, PATHS_SHOWN), min(ending, PATHS_SHOWN)


def cases_of(condition, checker):
    what = condition[0]
    if what == "not":
        true, false = cases_of(condition[1], checker)
        return false, true
    if what in ("and", "or"):
        t, f = cases_of(condition[1], checker)
        u, g = cases_of(condition[2], checker)
        found = (t * u, f + t * g) if what == "and" else (t + f * u, f * g)
        return min(found[0], PATHS_SHOWN), min(found[1], PATHS_SHOWN)
    if what in ("==", "!=") and names_cell(condition, checker):
        return (1, 2) if what == "==" else (2, 1)
    return 1, 1


def names_cell(expression, checker):
    if expression[0] == "name":
        meaning = checker.known.get(expression[1], ("",))[0]
        return meaning in ("int", "enum cell", "hold")
    operands = expression[2] if expression[0] == "call" else expression[1:-1]
    return any(names_cell(operand, checker) for operand in operands if isinstance(operand, tuple))


# Records.


def rows_of(content):
    """The rows of a file, as lists of byte strings."""
    if content.startswith(b"\xef\xbb\xbf"):
        content = content[3:]
    row, field = [], bytearray()
    state = "record"
    for byte in content:
        if state == "quoted":
            if byte == ord('"'):
                state = "closed"
            else:
                field.append(byte)
        elif state == "closed" and byte == ord('"'):
            field.append(byte)
            state = "quoted"
        elif byte in b"\r\n":
            if state != "record":
                row.append(bytes(field))
                yield row
                row, field = [], bytearray()
            state = "record"
        elif byte == ord(","):
            row.append(bytes(field))
            field = bytearray()
            state = "field"
        elif byte == ord('"') and state in ("record", "field"):
            state = "quoted"
        else:
            field.append(byte)
            state = "inside"
    if state != "record":
        row.append(bytes(field))
        yield row


def value_of(text, name, kind, default, labels):
    """The value of a field's text; or the words of the message that refuses it."""
    if not is_utf8(text):
        return None, b"is not UTF-8"
    if kind == "word":
        return (default if text == b"" and default is not None else text), None
    text = text.strip(b" \t")
    if text == b"" and default is not None:
        return default, None
    if kind != "num":
        return (text, None) if text in labels[kind[1]] else (None, b"is not a label")
    digits = text[1:] if text[:1] in (b"+", b"-") else text
    if digits and all(byte in DIGITS for byte in digits) and abs(int(text)) <= MOST:
        return int(text), None
    return None, b"is not a number"


# The update.


class Fault(Exception):
    """A record's fault: the name of the cell that overflows, or None for arithmetic."""


def in_range(number):
    if abs(number) > MOST:
        raise Fault(None)
    return number


def quotient(left, right):
    size = abs(left) // abs(right)
    return size if (left < 0) == (right < 0) else -size


class Update:
    def __init__(self, checker):
        self.known = checker.known
        self.tests = {name[0]: (parameters, body) for name, parameters, body in
                      checker.script.tests}
        self.cells = {name[0]: cell for name, cell in checker.script.states}
        self.statements = checker.script.update

    def run(self, state, record):
        self.state, self.record = state, record
        self.block(self.statements, {})

    def block(self, statements, names):
        names = dict(names)
        for statement in statements:
            what = statement[0]
            if what == "let":
                names[statement[1][0]] = self.value(statement[2], names)
            elif what == "set":
                self.set(statement[1][0], statement[2], names)
            elif what == "push":
                name = statement[1][0]
                value = self.value(statement[2], names)
                if self.cells[name][0] == "nums":
                    value = self.landed(name, value)
                self.state[name] = self.state[name] + [value]
            elif what == "keep":
                values = [self.value(value, names) for value in statement[2]]
                self.state[statement[1][0]] = values
            elif what == "copy":
                self.state[statement[1][0]] = self.state[statement[2][0]]
            elif self.holds(statement[1], names):
                self.block(statement[2], names)
            else:
                self.block(statement[3], names)

    def set(self, name, expression, names):
        value = self.value(expression, names)
        if self.cells[name][0] == "int":
            value = self.landed(name, value)
        self.state[name] = value

    def landed(self, name, value):
        low, high = self.cells[name][1:3]
        if not low <= value <= high:
            if self.cells[name][-1] is not True:
                raise Fault(name)
            value = low if value < low else high
        return value

    def value(self, expression, names):
        """A number, which may be a line's and then of any size, a word or a label."""
        what = expression[0]
        if what in ("num", "text"):
            return expression[1]
        if what == "name" and not self.is_line(expression, names):
            return self.value_of_name(expression[1], names)
        if not self.is_line(expression, names):
            return self.fixed(expression, names)
        scale, shift, cell = self.line(expression, names)
        return scale * self.state[cell] + shift

    def value_of_name(self, name, names):
        if name in names:
            return names[name]
        if name in self.record:
            return self.record[name]
        return self.state.get(name, name)

    def is_line(self, expression, names):
        if expression[0] == "name":
            return expression[1] not in names and self.known.get(expression[1]) == ("int",)
        if expression[0] in ("num", "text"):
            return False
        return any(self.is_line(operand, names) for operand in expression[1:-1])

    def fixed(self, expression, names):
        what = expression[0]
        left = self.value(expression[1], names)
        if what == "neg":
            return in_range(-left)
        right = self.value(expression[2], names)
        if what in ("/", "%"):
            if right == 0:
                raise Fault(None)
            whole = quotient(left, right)
            return in_range(whole if what == "/" else left - whole * right)
        if what == "*":
            return in_range(left * right)
        return in_range(left + right if what == "+" else left - right)

    def line(self, expression, names):
        """The numbers by which a line scales and shifts its cell, and the cell."""
        what = expression[0]
        if what == "name":
            return 1, 0, expression[1]
        if what == "neg":
            scale, shift, cell = self.line(expression[1], names)
            return -scale, -shift, cell
        left, right = expression[1:3]
        turned = not self.is_line(left, names)
        if turned:
            left, right = right, left
        scale, shift, cell = self.line(left, names)
        other = self.value(right, names)
        if what == "*":
            return in_range(scale * other), in_range(shift * other), cell
        if what == "+":
            return scale, in_range(shift + other), cell
        if turned:
            return -scale, in_range(other - shift), cell
        return scale, in_range(shift - other), cell

    def holds(self, condition, names):
        what = condition[0]
        if what == "not":
            return not self.holds(condition[1], names)
        if what == "and":
            return self.holds(condition[1], names) and self.holds(condition[2], names)
        if what == "or":
            return self.holds(condition[1], names) or self.holds(condition[2], names)
        if what == "call":
            return self.passes(condition, names)
        left = self.value(condition[1], names)
        right = self.value(condition[2], names)
        if what in ("==", "is"):
            return left == right
        if what == "!=":
            return left != right
        if what in ("<", ">="):
            return (left < right) == (what == "<")
        return (left > right) == (what == ">")

    def passes(self, call, names):
        parameters, body = self.tests[call[1]]
        values = list(self.state[call[2][0][1]])
        values += [self.value(argument, names) for argument in call[2][1:]]
        own = {parameter[0][0]: value for parameter, value in zip(parameters, values)}
        try:
            return self.holds(body, own)
        except Fault:
            return False


# Reports.

OVERFLOW, ZERO, NOTHING = ["overflow"], ["zero divisor"], ["none"]


class Report:
    def __init__(self, checker):
        self.kinds = checker.known
        self.columns = checker.script.columns

    def of(self, state):
        self.state = state
        return [self.value(shown) for _, shown in self.columns]

    def value(self, expression):
        """A number, a word, a tuple for a list, or one of the three above."""
        what = expression[0]
        if what in ("num", "text"):
            return expression[1]
        if what == "name":
            found = self.state[expression[1]]
            return tuple(found) if isinstance(found, list) else found
        if what == "call":
            return self.called(expression)
        found = [self.value(operand) for operand in expression[1:-1]]
        for marks in ((OVERFLOW, ZERO), (NOTHING,)):
            for operand in found:
                if any(operand is mark for mark in marks):
                    return operand
        return self.arithmetic(what, *found)

    def arithmetic(self, what, left, right=None):
        if what in ("/", "%"):
            if right == 0:
                return ZERO
            whole = quotient(left, right)
            found = whole if what == "/" else left - whole * right
        elif what == "neg":
            found = -left
        elif what == "*":
            found = left * right
        else:
            found = left + right if what == "+" else left - right
        return found if BOTTOM <= found <= TOP else OVERFLOW

    def called(self, expression):
        name, arguments = expression[1:3]
        values = self.state[arguments[0][1]]
        if name == b"part":
            return values[arguments[1][1] - 1]
        if name == b"count":
            return len(values)
        if name == b"sum":
            return sum(values)
        if not values:
            return NOTHING
        if name in (b"first", b"last"):
            return values[0 if name == b"first" else -1]
        return max(values) if name == b"max" else min(values)


def is_faulty(values):
    return any(value is OVERFLOW or value is ZERO for value in values)


def printed(value, word):
    """A value's text, with words written by a function."""
    if isinstance(value, int):
        return b"%d" % value
    if isinstance(value, list):
        return value[0].encode()
    if isinstance(value, tuple):
        return b"[" + b" ".join(printed(item, word) for item in value) + b"]"
    return word(value)


def plain(value):
    return value


def visible(value):
    return bytes(ord("?") if byte < 32 or byte == 127 else byte for byte in value)


def quoted(value):
    return b'"' + value.replace(b"\\", b"\\\\").replace(b'"', b'\\"') + b'"'


def fault_text(fault):
    cell, number = fault
    if cell is None:
        return b"arithmetic at record %d" % number
    return b"%s overflows at record %d" % (cell, number)


def csv_row(texts):
    if texts == [b""]:
        return b'""\n'
    special = b'",\r\n'
    cells = []
    for text in texts:
        if any(byte in special for byte in text):
            text = b'"' + text.replace(b'"', b'""') + b'"'
        cells.append(text)
    return b",".join(cells) + b"\n"


def table(keys, columns, rows):
    text = b" | ".join(keys + columns) + b"\n"
    for key, fault, values in rows:
        cells = [printed(value, visible) for value in key]
        if fault is None:
            cells += [printed(value, visible) for value in values]
        else:
            cells.append(b"fault: " + fault_text(fault))
        text += b" | ".join(cells) + b"\n"
    return text + b"--\n"


def csv(keys, columns, rows):
    text = csv_row(keys + columns + [b"fault"])
    for key, fault, values in rows:
        cells = [printed(value, plain) for value in key]
        if fault is None:
            cells += [printed(value, plain) for value in values] + [b""]
        else:
            cells += [b""] * len(columns) + [fault_text(fault)]
        text += csv_row(cells)
    return text


def pairs(keys, columns, rows):
    text = b""
    for key, fault, values in rows:
        cells = [name + b"=" + printed(value, quoted) for name, value in zip(keys, key)]
        if fault is None:
            cells += [name + b"=" + printed(value, quoted) for name, value in zip(columns, values)]
        else:
            cells.append(b"fault=" + quoted(fault_text(fault)))
        text += b" ".join(cells) + b"\n"
    return text


FORMS = {"table": table, "csv": csv, "pairs": pairs}

# A whole run.


def checked(text):
    """The checked script of a text."""
    script = Parser(tokens_of(text)).script()
    checker = Checker(script)
    checker.check()
    return checker


class Run:
    def __init__(self, checker):
        self.script = checker.script
        self.labels = {n[0]: {label[0] for label in labels} for n, labels in self.script.enums}
        self.fields = []
        for name, header, kind, default in self.script.fields:
            of = kind[0] if kind[0] != "name" else ("label", kind[1])
            self.fields.append((name[0], header, of, None if default is None else default[1]))
        self.update = Update(checker)
        self.report = Report(checker)
        self.groups = {}
        self.number = 0
        self.every = 0
        self.traced = []
        self.per_round = 0
        self.partials = b""

    def initial(self):
        state = {}
        for name, cell in self.script.states:
            if cell[0] == "int":
                state[name[0]] = cell[3]
            elif cell[0] == "enum":
                state[name[0]] = cell[2][0]
            elif cell[0] == "hold":
                state[name[0]] = [value[1] for _, value in cell[1]]
            else:
                state[name[0]] = []
        return state

    def take_file(self, name, content):
        places = None
        begun = self.number
        for row in rows_of(content):
            if places is None:
                width = len(row)
                places = [self.column(name, header, row) for _, header, _, _ in self.fields]
                continue
            self.number += 1
            where = b"%s: record %d: " % (name, self.number)
            if len(row) != width:
                raise Refused(4, where + b"%d fields" % len(row))
            record = {}
            for (own, header, kind, default), at in zip(self.fields, places):
                value, fault = value_of(row[at], header, kind, default, self.labels)
                if fault is not None:
                    raise Refused(4, where + b"field %s %s" % (header, fault))
                record[own] = value
            self.take_record(record)
            if self.per_round > 0 and (self.number - begun) % self.per_round == 0:
                self.tell()
        if self.per_round > 0 and (self.number - begun) % self.per_round > 0:
            self.tell()

    def tell(self):
        self.partials += b"symple: %d records, %d groups\n" % (self.number, len(self.groups))

    def column(self, file, header, row):
        if row.count(header) == 0:
            raise Refused(4, b"%s: header: no field %s" % (file, header))
        if row.count(header) > 1:
            raise Refused(4, b"%s: header: field %s twice" % (file, header))
        return row.index(header)

    def take_record(self, record):
        key = tuple(record[name[0]] for name in self.script.group)
        state, fault = self.groups.get(key) or (self.initial(), None)
        if fault is None:
            state = dict(state)
            try:
                self.update.run(state, record)
            except Fault as error:
                fault = (error.args[0], self.number)
        self.groups[key] = (state, fault)
        if self.every > 0 and self.number % self.every == 0:
            _, fault, values = self.row(key)
            self.traced.append(((self.number,) + key, fault, values))

    def row(self, key):
        state, fault = self.groups[key]
        return key, fault, [] if fault is not None else self.report.of(state)

    def ended(self, form):
        """The status and the text of the report, or of the trace where there is one."""
        keys = [name[0] for name in self.script.group]
        columns = [name[0] for name, _ in self.script.columns]
        if self.every > 0:
            keys, rows = [b"record"] + keys, self.traced
        else:
            rows = [self.row(key) for key in self.groups]
        faulty = any(fault is not None or is_faulty(values) for _, fault, values in rows)
        return int(faulty), FORMS[form](keys, columns, rows)


def read(name, most):
    try:
        with open(name, "rb") as file:
            content = file.read(most + 1)
    except OSError:
        raise Refused(5, name + b": read fault") from None
    if len(content) > most:
        raise Refused(7, name + b": too large")
    return content


def run(script, files, form="table", every=0, per_round=0):
    """Status, report and lines of a run over the named files; names are byte strings. Or of a trace,
    where `every` is above 0. The run is watched where `per_round` is above 0: after so many records
    of a file, and at its end, there is a line."""
    partials = b""
    try:
        whole = Run(checked(read(script, SCRIPT_BYTES)))
        whole.every = every
        whole.per_round = per_round
        try:
            for name in files:
                whole.take_file(name, read(name, FILE_BYTES))
        finally:
            partials = whole.partials
        status, text = whole.ended(form)
        return status, text, partials
    except Refused as refused:
        return refused.status, b"", partials + b"symple: " + refused.line + b"\n"


def check(script):
    """Status, text and line of a check of the named script."""
    try:
        found = checked(read(script, SCRIPT_BYTES))
    except Refused as refused:
        return refused.status, b"", b"symple: " + refused.line + b"\n"
    counts = (len(found.script.states), len(found.script.tests), found.paths)
    return 0, b"cells %d tests %d paths %d\n" % counts, b""


def main(arguments):
    words = [word.encode("utf-8", "surrogateescape") for word in arguments]
    form = "table"
    if words[:1] == [b"run"] and words[1:2] == [b"--form"] and len(words) > 2:
        form = words[2].decode()
        del words[1:3]
    if words[:1] != [b"run"] or len(words) < 3 or form not in FORMS:
        sys.exit("usage: reference.py run [--form NAME] SCRIPT FILE...")
    status, text, line = run(words[1], words[2:], form)
    sys.stdout.buffer.write(text)
    sys.stdout.flush()
    sys.stderr.buffer.write(line)
    return status


if __name__ == "__main__":
    sys.setrecursionlimit(10000)
    sys.exit(main(sys.argv[1:]))
