#!/usr/bin/env python3
"""Checks the names in backticks, and of crates, in all documents but CHANGELOG.md, which speaks of what was.

docs/names.py           fails where a document names a file, crate, function, clause or definition that isn't there
docs/names.py words     prints the words of docs/words.txt that no document has any more

A name is one word in backticks. With a slash or an ending it is a path, from the root or the end of one; `X.antt` and `x.rt` in parentheses
behind a crate's name are files of this crate. Else each part of it, as `Core` and `step` of `Core::step`, is declared somewhere:
in a .rt or .antt file, or in whatever else is code. Words that are none of these stand in docs/words.txt.
"""

import fnmatch
import os
import re
import sys

ROOT = os.path.dirname(os.path.dirname(os.path.abspath(__file__)))
WORDS = "docs/words.txt"

NAME = re.compile(r"`([\w.:/*-]+(?:\(\))?)`")
CRATE = re.compile(r"\bomi_\w+")
NUMBER = re.compile(r"-?(?:0x[0-9a-f]+|[\d.,:-]+)")
IN_CRATE = re.compile(r"`?\b(\w+)`? \(((?:`[\w/]+\.(?:rt|antt)`(?:, | and )?)+)\)")
ITEM = re.compile(r"^ *(?:pub(?:\(\w+\))? )?(?:unsafe )?(?:fn|struct|enum|trait|const|static|mod|type) (\w+)", re.M)
CLAUSE = re.compile(r"^ *(?:ensures|requires|law)\*? (\w+) \{", re.M)
BODY = re.compile(r"^(?:pub )?(?:struct|enum|trait) [^\n]*\{\n(.*?)^\}", re.M | re.S)
MEMBER = re.compile(r"^    (?:pub(?:\(\w+\))? )?(\w+)", re.M)
DEFINED = re.compile(r"^ *(?:(?:abbrev|unfoldable|pub|record|data) )*([^\s:({]+) :|^ *pub (?:record|data|mod) (\S+)", re.M)
FILE_ENDS = (".md", ".rt", ".antt", ".py", ".c", ".h", ".omp", ".expected", ".txt")
CODE = (".c", ".h", ".py", ".mk", ".map", ".omp")


def read(path):
    with open(f"{ROOT}/{path}", encoding="utf-8") as file:
        return file.read()


def files():
    """The files of the repository, but for what is built."""
    found = []
    for at, folders, names in os.walk(ROOT):
        folders[:] = sorted(it for it in folders if it not in (".git", "out", "__pycache__"))
        found += [os.path.relpath(os.path.join(at, it), ROOT) for it in sorted(names)]
    return found


def declared_in(path):
    """The names that a file declares; of code that is neither .rt nor .antt, all of its words."""
    if path.endswith(".rt"):
        text = read(path)
        members = [it for body in BODY.findall(text) for it in MEMBER.findall(body)]
        return {*ITEM.findall(text), *CLAUSE.findall(text), *members}
    if path.endswith(".antt"):
        return {name for names in DEFINED.findall(read(path)) for name in names if name}
    name = os.path.basename(path)
    if path == "docs/names.py":
        return set()
    if path.endswith(CODE) or "." not in name or name == "crates.txt":
        return set(re.findall(r"\w+", read(path)))
    return set()


def ends_of(paths):
    """Each end of a path or of a folder of one: a/b/c.rt has b/c.rt, c.rt, a/b, b and a. A file may be named without its ending."""
    found = set()
    for path in paths:
        parts = path.split("/")
        for last in range(1, len(parts) + 1):
            for first in range(last):
                found.add("/".join(parts[first:last]))
        for first in range(len(parts)):
            found.add(os.path.splitext("/".join(parts[first:]))[0])
    return found


class Known:
    """All that a document may name."""

    def __init__(self):
        self.files = files()
        self.ends = ends_of(self.files)
        self.declared = set().union(*(declared_in(it) for it in self.files))
        self.words = {it for it in read(WORDS).split("\n") if it and not it.startswith("#")}

    def has(self, name):
        name = name.removesuffix("()")
        if name in self.words or NUMBER.fullmatch(name) or name.strip("/") in self.ends:
            return True
        if "*" in name:
            return any(fnmatch.fnmatch(it, name) for it in self.ends)
        if name.endswith(FILE_ENDS):
            return False
        if "/" in name:  # what is built stands in the folder out of its own
            front, out, _ = name.partition("/out/")
            return bool(out) and front in self.ends
        return all(it in self.declared for it in re.split(r"::|\.", name) if it)

    def has_file(self, crate, name):
        return any(it.startswith(f"crates/{crate}/") and it.endswith(f"/{name}") for it in self.files)


def names_of(path):
    """The names of a document, each with its line; indented lines are examples."""
    fenced = False
    for number, line in enumerate(read(path).split("\n"), 1):
        fenced ^= line.startswith("```")
        if not fenced and not line.startswith("    "):
            for name in NAME.findall(line) + CRATE.findall(re.sub(r"`[^`]*`", "", line)):
                yield number, name


def faults_of(path, known):
    for number, name in names_of(path):
        if not known.has(name):
            yield f"{path}:{number}: `{name}` is neither a file nor declared anywhere, and not in {WORDS}"
    for crate, named in IN_CRATE.findall(read(path).replace("\n", " ")):
        for name in re.findall(r"`([^`]+)`", named):
            if os.path.isdir(f"{ROOT}/crates/{crate}") and not known.has_file(crate, name):
                yield f"{path}: {crate} has no file {name}"


def main():
    known = Known()
    documents = [it for it in known.files if it.endswith(".md") and it != "CHANGELOG.md"]
    if sys.argv[1:] == ["words"]:
        used = {name.removesuffix("()") for path in documents for _, name in names_of(path)}
        print("\n".join(sorted(known.words - used)))
        return 0
    if sys.argv[1:]:
        sys.exit(__doc__)
    found = [fault for path in documents for fault in faults_of(path, known)]
    print("\n".join(f"docs/names.py: {it}" for it in found), end="\n" if found else "")
    return 1 if found else 0


sys.exit(main())
