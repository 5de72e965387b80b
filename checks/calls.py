#!/usr/bin/env python3
"""Compares docs/CALLS.md with the sources: each public call of the crates has its row, or is in a
list below the rows, and each name there is a call; each clause in a row is a clause of that call,
or, as CLAUSE.FIELD, a field of a record that a clause names; and nothing that a call could change
is said to be the same.

    calls.py [--list]

With --list the calls are written with what they return and their clauses, one a line. The last
line counts what was looked up and what is missing.

A call is public if a `pub fn` is reached from lib.rt: a function that it declares or brings in by
`pub use`, or a method of such a type or trait; and also a method of an `impl` of one of the crates'
own traits. The sources have the layout of rt fmt.
"""

import os
import re
import sys

ROOT = os.path.dirname(os.path.dirname(os.path.abspath(__file__)))
# Crates whose public items only tests and benchmarks use have no row.
LEFT_OUT = re.compile(r"_tests$|^sym_given(?:_calls)?$|^sym_uses$|^sym_bench$")
CLAUSE = re.compile(r"^\s*(?:unsafe )?ensures ?\*? ?([a-z_0-9]*) ?\{")
HEAD = re.compile(r"^(?:unsafe )?(?:pub )?(?:unsafe )?(impl|trait)\b")


class Call:
    def __init__(self, name, text, clauses, trait=None):
        self.name = name
        self.text = text
        self.clauses = clauses
        self.trait = trait

    def returns(self):
        found = re.search(r"-> (.*?)(?: where\b| requires\b| ensures\b| \{|;|$)", self.text)
        return found.group(1).strip() if found else "()"


def crates():
    with open(os.path.join(ROOT, "crates.txt"), encoding="utf-8") as file:
        names = [line.split(":")[0].strip() for line in file if ":" in line]
    return sorted(name for name in names if not LEFT_OUT.search(name))


def source_of(folder, module):
    """The lines of a module's file, without its tests."""
    path = os.path.join(folder, *module) + ".rt"
    if not os.path.exists(path):
        return None
    with open(path, encoding="utf-8") as file:
        lines = file.read().split("\n")
    for number, line in enumerate(lines):
        if line == "#[cfg(test)]":
            return lines[:number]
    return lines


def modules_of(folder, root):
    """All modules of a crate, with their lines."""
    found = {(): source_of(folder, (root,))}
    todo = [()]
    while todo:
        module = todo.pop()
        for line in found[module]:
            match = re.match(r"^(?:pub(?:\(crate\))? )?mod (\w+);", line)
            if match:
                inner = module + (match.group(1),)
                lines = source_of(folder, inner)
                if lines is not None:
                    found[inner] = lines
                    todo.append(inner)
    return found


def used(lines):
    """What the `pub use` items bring in, by the last name of each path."""
    text = "\n".join(lines)
    names = set()
    for match in re.finditer(r"^pub use ([^;]+);", text, re.M):
        inner = match.group(1)
        braces = re.search(r"\{(.*)\}", inner, re.S)
        parts = braces.group(1).split(",") if braces else [inner]
        for part in parts:
            name = part.strip().split(" as ")[-1].split("::")[-1]
            if name:
                names.add(name)
    return names


def declared(lines):
    return set(
        re.findall(r"^pub (?:const )?(?:fn|struct|enum|trait|type) (\w+)", "\n".join(lines), re.M)
    )


def reached(modules):
    """The names of the functions, types and traits that are reached from the root."""
    names = set()
    todo = [()]
    while todo:
        module = todo.pop()
        lines = modules[module]
        names |= declared(lines) | used(lines)
        for line in lines:
            match = re.match(r"^pub mod (\w+);", line)
            if match and module + (match.group(1),) in modules:
                todo.append(module + (match.group(1),))
    return names


def records():
    """The fields of each record of the specs."""
    found = {}
    for path, _, files in os.walk(os.path.join(ROOT, "crates")):
        if "specs" not in path.split(os.sep):
            continue
        for name in files:
            with open(os.path.join(path, name), encoding="utf-8") as file:
                text = file.read()
            for record, body in re.findall(r"^pub record (\w+)(.*\n(?: .*\n)*)", text, re.M):
                found.setdefault(record, set()).update(re.findall(r"^  pub (\w+) :", body, re.M))
    return found


RECORDS = records()


def header_of(lines, at):
    """The text of a function's declaration from line `at` on, up to its body, and its clauses. After
    each clause come the fields of the records that it names."""
    indent = re.match(r"^ *", lines[at]).group()
    text, clauses, clause = [], [], None
    for number in range(at, len(lines)):
        line = lines[number]
        if number > at and line in (indent + "{", indent + "{}"):
            break
        text.append(line.strip())
        match = CLAUSE.match(line)
        if match:
            clause = match.group(1)
            clauses.append(clause)
        elif re.match(r"^\s*(unsafe )?requires\b", line):
            clause = None
        if clause:
            for record in re.findall(r"\w+", line):
                clauses += [f"{clause}.{field}" for field in RECORDS.get(record, ())]
        if line.endswith(";") or line.endswith("{}"):
            break
        if line.endswith("{") and line.startswith(indent) and not re.match(
            r"^\s*(unsafe )?(ensures|requires)\b", line
        ):
            opens = number == at or line.startswith(indent + ")") or "->" in line
            if opens:
                break
    return " ".join(text), clauses


def bare(name):
    """A type's name without its path, references and parameters."""
    name = re.sub(r"^(&'?\w* ?|dyn )*", "", name.strip())
    return re.split(r"[<\s{]", name)[0].split("::")[-1]


def owner_of(lines, at, aliases):
    """The type or trait of an `impl` or `trait` at this line, and the trait of an `impl`."""
    text = lines[at]
    number = at
    while "{" not in text and number + 1 < len(lines):
        number += 1
        text += " " + lines[number].strip()
    text = text.split("{")[0]
    if re.match(r"^(pub )?(unsafe )?trait", text):
        return re.search(r"trait (\w+)", text).group(1), None
    text = re.sub(r"^(unsafe )?impl\s*", "", text)
    if text.startswith("<"):
        depth = 0
        for place, letter in enumerate(text):
            depth += {"<": 1, ">": -1}.get(letter, 0)
            if letter == ">" and text[place - 1] == "-":
                depth += 1
            if depth == 0:
                text = text[place + 1 :].strip()
                break
    text = text.split(" where ")[0]
    parts = re.split(r"\sfor\s", text, maxsplit=1)
    whole = re.sub(r"\s+", "", parts[-1])
    owner = aliases.get(whole, bare(parts[-1]))
    return owner, bare(parts[0]) if len(parts) == 2 else None


def aliases_of(modules):
    found = {}
    for lines in modules.values():
        for name, whole in re.findall(r"^pub type (\w+) = ([^;]+);", "\n".join(lines), re.M):
            found[re.sub(r"\s+", "", whole)] = name
    return found


def calls_of(crate, traits):
    folder = os.path.join(ROOT, "crates", crate, "src")
    root = "lib" if os.path.exists(os.path.join(folder, "lib.rt")) else "main"
    modules = modules_of(folder, root)
    names = reached(modules)
    if root == "main":
        # The edge of the program: what its own modules give to main.
        for lines in modules.values():
            names |= declared(lines)
    aliases = aliases_of(modules)
    found = []
    for lines in modules.values():
        owner, trait, is_trait = None, None, False
        for at, line in enumerate(lines):
            if HEAD.match(line):
                owner, trait = owner_of(lines, at, aliases)
                is_trait = bool(re.match(r"^(pub )?(unsafe )?trait", line))
            elif line.startswith("}"):
                owner, trait, is_trait = None, None, False
            match = re.match(r"^( {4})?(pub )?(?:const )?(?:unsafe )?fn (\w+)", line)
            if not match or bool(match.group(1)) != (owner is not None):
                continue
            name = match.group(3)
            if owner is None:
                wanted = match.group(2) and name in names
            elif is_trait:
                wanted = owner in names
            elif trait is not None:
                wanted = trait in traits and owner in names
            else:
                wanted = match.group(2) and owner in names
            if wanted:
                text, clauses = header_of(lines, at)
                whole = f"{owner}::{name}" if owner else name
                found.append(Call(whole, text, clauses, trait))
    return found


def inherit(calls):
    """Gives each method of a trait that states no clause those of the trait."""
    every = {call.name: call for own in calls.values() for call in own}
    for own in calls.values():
        for call in own:
            if call.trait and not call.clauses:
                above = every.get(f"{call.trait}::{call.name.split('::')[-1]}")
                call.clauses = above.clauses if above else []


def own_traits():
    found = set()
    for crate in crates():
        folder = os.path.join(ROOT, "crates", crate, "src")
        for path, _, files in os.walk(folder):
            for name in files:
                if name.endswith(".rt"):
                    with open(os.path.join(path, name), encoding="utf-8") as file:
                        found |= set(re.findall(r"^pub (?:unsafe )?trait (\w+)", file.read(), re.M))
    return found


class Row:
    """A row of the document: its crate and calls, and the cells after them."""

    def __init__(self, crate, names, cells, number):
        self.crate = crate
        self.names = names
        self.cells = cells
        self.where = f"docs/CALLS.md:{number}"

    def clauses(self):
        found = set()
        for cell in self.cells:
            found |= set(re.findall(r"`([a-z_0-9.]+)`", cell))
            if "its clause" in cell:
                found.add("")
        return found


# The lists of calls without rows of their own: how each begins, and what a row would say.
LISTS = {
    "These may only run out of memory, and change nothing: ": ["NoMemory", "free", "same"],
    "These refuse nothing: ": ["none", "", ""],
}


def rows():
    """The rows of the document. One without a call goes on with the call of the row before."""
    crate, names = None, []
    cells_of_list = None
    with open(os.path.join(ROOT, "docs", "CALLS.md"), encoding="utf-8") as file:
        for number, line in enumerate(file, 1):
            match = re.match(r"^## `(\w+)`$", line)
            if match:
                crate = match.group(1)
            if line == "\n":
                cells_of_list = None
            for beginning, cells in LISTS.items():
                if line.startswith(beginning):
                    cells_of_list = cells
            if cells_of_list and crate is not None:
                yield Row(crate, re.findall(r"`([\w:]+)`", line), cells_of_list, number)
                continue
            cells = [cell.strip() for cell in line.strip().split("|")[1:-1]]
            if crate is None or len(cells) != 4 or cells[0] in ("Call", "---"):
                continue
            names = re.findall(r"`([\w:]+)`", cells[0]) or names
            yield Row(crate, names, cells[1:], number)


def faults_of(row, call):
    """What a row says of a call that its declaration doesn't say."""
    for clause in sorted(row.clauses() - set(call.clauses)):
        yield f"{call.name} has no clause {clause or 'without a name'}"
    refuses = bool(re.match(r"(Option|Result)<", call.returns()))
    if refuses and row.cells[0] == "none":
        yield f"{call.name} returns {call.returns()}, so it refuses something"
    arguments = call.text.split("->")[0]
    if row.cells[2] == "same" and "&mut" in arguments:
        yield f"{call.name} takes &mut, so something can have changed"
    waits = "Wait" in call.text
    if waits != any("may wait" in cell for cell in row.cells):
        yield f"{call.name} may wait" if waits else f"{call.name} doesn't wait"


def main():
    traits = own_traits()
    calls = {crate: calls_of(crate, traits) for crate in crates()}
    inherit(calls)
    if "--list" in sys.argv[1:]:
        for crate, found in calls.items():
            for call in found:
                named = [clause for clause in call.clauses if "." not in clause]
                print(crate, call.name, "->", call.returns(), ":", " ".join(named) or "-")
        return 0
    found, missing = 0, []
    said = {}
    for row in rows():
        own = {}
        for call in calls.get(row.crate, []):
            # A method of a type and one of its traits may have one name.
            clauses = own[call.name].clauses if call.name in own else []
            own[call.name] = Call(call.name, call.text, call.clauses + clauses)
        for name in row.names:
            found += 1
            if name not in own:
                missing.append(f"{row.where}: {row.crate} has no public call {name}")
                continue
            if (row.crate, name) in said and not row.cells[0]:
                missing.append(f"{row.where}: {name} has no refusal")
            said.setdefault((row.crate, name), "")
            said[row.crate, name] += row.cells[0] + ","
            missing += [f"{row.where}: {fault}" for fault in faults_of(row, own[name])]
    for crate, own in calls.items():
        for call in own:
            words = said.get((crate, call.name))
            if words is None:
                missing.append(f"docs/CALLS.md: no row for {call.name} of {crate}")
            elif ("NoMemory" in words) != ("NoMemory" in call.returns()) and call.returns()[
                :6
            ] == "Result" and not re.search(r"Err>|Stop>", call.returns()):
                missing.append(f"docs/CALLS.md: {call.name} of {crate}: NoMemory")
    for line in missing:
        print("checks/calls.py: " + line, file=sys.stderr)
    print(f"checks/calls.py: {found} found, {len(missing)} missing")
    return 1 if missing else 0


if __name__ == "__main__":
    sys.exit(main())
