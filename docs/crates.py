#!/usr/bin/env python3
"""Makes crates/README.md, which lists the crates by wing, from crates.txt and from the first sentence of each crate's README.

docs/crates.py          compares crates/README.md with it, and fails where they differ
docs/crates.py write    writes crates/README.md
"""

import os
import re
import sys

ROOT = os.path.dirname(os.path.dirname(os.path.abspath(__file__)))
PAGE = f"{ROOT}/crates/README.md"
HEAD = """# The crates, by wing

Each crate with the first sentence of its own page. A crate uses only crates above it. `docs/crates.py write` makes this page from
`crates.txt` and those pages, and the gate compares it; docs/ARCHITECTURE.md says what each crate keeps.
"""


def text_of(path):
    with open(path, encoding="utf-8") as file:
        return file.read()


def first_sentence(crate):
    """Returns the first sentence below the title of a crate's README."""
    title, _, rest = text_of(f"{ROOT}/crates/{crate}/README.md").partition("\n")
    if title != f"# {crate}":
        sys.exit(f"docs/crates.py: the title of crates/{crate}/README.md is not its name")
    paragraph = " ".join(rest.strip().split("\n\n")[0].split())
    return re.match(r".*?\.(?= |$)|.*", paragraph)[0].rstrip(".:")


def wings():
    """Returns the comment above each wing of crates.txt, with the wing's crates."""
    found = []
    for block in text_of(f"{ROOT}/crates.txt").split("\n\n"):
        lines = block.strip().splitlines()
        comment = " ".join(it[2:] for it in lines if it.startswith("# "))
        crates = [re.match(r"\w+", it)[0] for it in lines if not it.startswith("#")]
        if crates:
            found.append((comment, crates))
    return found


def page():
    parts = [HEAD]
    for comment, crates in wings():
        title, _, rest = comment.partition(": ")
        about = f"{rest[0].upper()}{rest[1:]}\n\n" if rest else ""
        rows = "".join(f"| [{it}]({it}/README.md) | {first_sentence(it)} |\n" for it in crates)
        parts.append(f"## {title.rstrip('.')}\n\n{about}| Crate | What it is |\n|---|---|\n{rows}")
    return "\n".join(parts)


def main():
    if sys.argv[1:] == ["write"]:
        with open(PAGE, "w", encoding="utf-8") as file:
            file.write(page())
    elif sys.argv[1:]:
        sys.exit(__doc__)
    elif not os.path.exists(PAGE) or text_of(PAGE) != page():
        sys.exit("docs/crates.py: crates/README.md is not what crates.txt and the crates' pages give: run docs/crates.py write")


main()
