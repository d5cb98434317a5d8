#!/usr/bin/env python3
"""Follows the clause `promise` of `run_top` through all definitions that it rests on, by their names in the files.

docs/promise.py          compares what it reaches with the tables of docs/PROMISE.md, and fails where they differ
docs/promise.py list     prints a row for each file that it reaches: its lines that are reached, and the names
docs/promise.py text     prints all definitions that it reaches, in the order of the page
"""

import os
import re
import sys

TOP = os.path.dirname(os.path.dirname(os.path.abspath(__file__))) + "/crates"
PAGE = os.path.dirname(os.path.abspath(__file__)) + "/PROMISE.md"
TOP_CALL = "omi_top/src/top.rt"
CLAUSE = re.compile(r"^    ensures promise \{(.*?)\}$", re.M | re.S)
GHOST = re.compile(r"^ghost use ([\w.]+)\.\{(.*)\};$", re.M)

HEAD = re.compile(r"^(?:  )?(?:(?:abbrev|unfoldable) pub|pub (?:record|data)|(?:record|data) pub) +([^\s:({]+)")
IMPORT = re.compile(r"^use ([\w.]+?)(?:\.\{(.*)\})?(?: as (\w+))?$")
WORD = re.compile(r"[A-Za-z_]\w*(?:\.[A-Za-z_]\w*)*")
ROW = re.compile(r"^\| `([\w/]+\.(?:antt|rt))` \| (\d+) \| (.*) \|$")


class Spec:
    """A file of specs/: its definitions by name, each with its lines, and what it imports."""

    def __init__(self, path):
        self.definitions, self.names, self.modules = {}, {}, {}
        lines, current = [], None
        with open(f"{TOP}/{path}", encoding="utf-8") as file:
            text = file.read()
        for line in text.split("\n"):
            head = HEAD.match(line)
            if line.startswith("use "):
                self.take_import(line)
            elif head:
                current = head[1]
                self.definitions[current] = lines + [line]
                lines = []
            elif line.strip().startswith("--"):
                lines.append(line)
            elif line.startswith("module "):
                current, lines = None, []
            elif current and line.strip():
                self.definitions[current] += lines + [line]
                lines = []

    def take_import(self, line):
        module, names, other = IMPORT.match(line).groups()
        if names is None:
            self.modules[other or module.split(".")[-1]] = module
            return
        for name in names.split(","):
            name, _, other = name.strip().partition(" as ")
            self.names[other or name] = (module, name)

    def words(self, name):
        code = [line for line in self.definitions[name] if not line.strip().startswith("--")]
        return set(WORD.findall("\n".join(code)))

    def under(self, path, name):
        """The places of the names in a definition."""
        for word in self.words(name):
            first, _, rest = word.partition(".")
            if rest and first in self.modules:
                yield place(self.modules[first], rest.split(".")[0])
            elif first in self.definitions:
                yield path, first
            elif first in self.names:
                yield place(*self.names[first])

    def owner(self, name):
        """The definition that has a name: itself, or a constructor or a field of it."""
        if name in self.definitions:
            return name
        member = re.compile(rf"^ +(?:pub )?{re.escape(name)} *:", re.M)
        return next(it for it, lines in self.definitions.items() if member.search("\n".join(lines)))


known = {}


def spec(path):
    if path not in known:
        known[path] = Spec(path)
    return known[path]


def source(path):
    if path not in known:
        known[path] = Source(path)
    return known[path]


TYPE = re.compile(r"^pub (?:struct|enum|const) (\w+)")


class Source:
    """A file of src/: the types and constants that it declares, each with its lines, and the crates that it uses."""

    def __init__(self, path):
        self.definitions, self.crates = {}, [path.split("/")[0]]
        current = None
        with open(f"{TOP}/{path}", encoding="utf-8") as file:
            for line in file.read().split("\n"):
                head = TYPE.match(line)
                if line.startswith("use omi_"):
                    self.crates.append(re.match(r"use (\w+)", line)[1])
                elif head:
                    current = head[1]
                    self.definitions[current] = [line]
                elif current and line.startswith(("    ", "}")):
                    self.definitions[current].append(line)
                if line.startswith("}") or head and line.endswith(";"):
                    current = None

    def words(self, name):
        code = [line.split("//")[0] for line in self.definitions[name][1:]]
        return set(re.findall(r"\b[A-Z]\w+", "\n".join(code)))

    def under(self, name):
        """The places of the types in a type."""
        for word in self.words(name):
            for crate in self.crates:
                yield from ((it, word) for it in sources(crate) if word in source(it).definitions)


def sources(crate):
    """The files of a crate's src/."""
    folder = f"{TOP}/{crate}/src"
    files = [os.path.join(at, it) for at, _, names in os.walk(folder) for it in sorted(names)]
    return sorted(it[len(TOP) + 1 :] for it in files if it.endswith(".rt"))


def declared_at(crate, modules, name):
    """The file of src/ that declares a type, a variant of it or a constant."""
    modules = [it for it in modules if it not in ("TheVariants", "TheConstants")]
    for count in range(len(modules), 0, -1):
        path = f"{crate}/src/{'/'.join(modules[:count])}.rt"
        if os.path.isfile(f"{TOP}/{path}"):
            return path, modules[count] if count < len(modules) else name
    sys.exit(f"no file declares {name} of {crate}")


def place(module, name):
    """Where a name of a module stands: a file and a definition, or None where it is none of this repository's."""
    parts = module.split(".")
    if len(parts) < 4 or parts[0] != "Rattle" or parts[2] != "specs" or not parts[1].startswith("omi"):
        return None
    if parts[3] == "declared":
        return declared_at(parts[1], parts[4:], name)
    path = f"{parts[1]}/specs/{'/'.join(parts[3:])}.antt"
    return path, spec(path).owner(name)


def clause():
    """The places of the names in the clause."""
    with open(f"{TOP}/{TOP_CALL}", encoding="utf-8") as file:
        text = file.read()
    words = {it.split(".")[0] for it in WORD.findall(CLAUSE.search(text)[1])}
    for module, names in GHOST.findall(text):
        for name in names.split(","):
            if name.strip() in words:
                yield place(module, name.strip())


def reached():
    """All definitions under the promise, by file."""
    found = {it for it in clause() if it}
    open_ = list(found)
    while open_:
        path, name = open_.pop()
        for at in source(path).under(name) if path.endswith(".rt") else spec(path).under(path, name):
            if at and at not in found:
                found.add(at)
                open_.append(at)
    files = {}
    for path, name in found:
        files.setdefault(path, set()).add(name)
    return files


def declared(path):
    """What a file declares, by name."""
    return (source(path) if path.endswith(".rt") else spec(path)).definitions


def row(path, names):
    """A file's lines that are reached, and the names in its order."""
    definitions = declared(path)
    return str(sum(len(definitions[it]) for it in names)), [it for it in definitions if it in names]


def listed():
    """The rows of the page."""
    rows = {}
    with open(PAGE, encoding="utf-8") as page:
        for line in page:
            it = ROW.match(line.rstrip("\n"))
            if it:
                rows[it[1]] = (it[2], re.findall(r"`([^`]+)`", it[3]))
    return rows


def main():
    files = reached()
    wanted = {path: row(path, names) for path, names in files.items()}
    if sys.argv[1:] == ["list"]:
        for path in sorted(wanted):
            lines, names = wanted[path]
            print(f"| `{path}` | {lines} | {', '.join(f'`{it}`' for it in names)} |")
        return 0
    if sys.argv[1:] == ["text"]:
        for path, (_, names) in listed().items():
            print(f"---- crates/{path}\n")
            for it in names:
                print(*declared(path)[it], "", sep="\n")
        return 0
    rows, status = listed(), 0
    for path in sorted({*rows, *wanted}):
        if rows.get(path) != wanted.get(path):
            print(f"docs/PROMISE.md: {path}: has {rows.get(path)}, and the promise reaches {wanted.get(path)}")
            status = 1
    return status


sys.exit(main())
