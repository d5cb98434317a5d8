#!/usr/bin/env python3
"""Fails where a sentence of README.md, docs/PROVED.md, docs/DECISIONS.md or CONTRIBUTING.md has more than 45 words.

A sentence ends at a full stop, a question mark or a colon at the end of a line, and with its paragraph, its item of a list or its
cell of a table. What stands in backticks is one word. Code blocks and headings have no sentences.
"""

import os
import re
import sys

ROOT = os.path.dirname(os.path.dirname(os.path.abspath(__file__)))
PAGES = ("README.md", "docs/PROVED.md", "docs/DECISIONS.md", "CONTRIBUTING.md")
MOST_WORDS = 45


def blocks_of(text):
    """The paragraphs, items and cells, each with its first line's number."""
    block, begin, fenced = [], 0, False
    for number, line in enumerate([*text.split("\n"), ""], 1):
        fenced ^= line.startswith("```")
        plain = not fenced and not line.startswith(("    ", "```", "#", "<!--"))
        starts = not plain or not line.strip() or re.match(r" *(?:[-*]|\d+\.) |\|", line)
        if starts and block:
            yield begin, " ".join(block)
            block = []
        if plain and line.startswith("|"):
            for cell in line.strip().strip("|").split("|"):
                yield number, cell.strip()
        elif plain and line.strip():
            begin = number if not block else begin
            block.append(re.sub(r"^ *(?:[-*]|\d+\.) ", "", line).strip())


def sentences_of(block):
    block = re.sub(r"`[^`]*`", "`name`", block)
    return re.split(r"(?<=[.?!])[)\"*]* (?=[A-Z`*(\"0-9])", block)


def main():
    status = 0
    for page in PAGES:
        if not os.path.exists(f"{ROOT}/{page}"):
            continue
        with open(f"{ROOT}/{page}", encoding="utf-8") as file:
            text = file.read()
        for number, block in blocks_of(text):
            for sentence in sentences_of(block):
                words = len(re.findall(r"[^\s]*\w[^\s]*", sentence))
                if words > MOST_WORDS:
                    print(f"docs/sentences.py: {page}:{number}: {words} words: {sentence[:80]}")
                    status = 1
    return status


sys.exit(main())
