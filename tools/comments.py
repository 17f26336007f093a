#!/usr/bin/env python3
"""Finds comments that hide what they speak of.

usage: tools/comments.py [FOLDER ..]

A comment says with a verb what a call does, or with a noun what a thing is, and names what it speaks of. This finds, in the
sources, definitions and proofs of the crates (or in the folders that are named):
- a comment that begins with a word that leaves its matter open, such as `What` or `It`;
- one that speaks of "so many" or "so much", where a parameter has a name;
- the comment of a public function that does not begin with a verb ("Returns ..", "Counts ..").

Each is a line of its file with the comment's first words. The status is 1 where one was found.
"""

import os
import re
import sys

OPEN = re.compile(r"(What|The same|It|How many|How much|So many|So much|So is|So are|So it|Its|Whether so|That there|The following)\b")
SO = re.compile(r"\b[Ss]o (many|much)\b(?! `)")
VERB = re.compile(r"[A-Z][a-z]+s\b")
NOUNS = {"Its", "This", "As", "Pages", "Words", "Bytes", "Places", "Texts", "Values", "Rows", "Names", "Routines", "Always", "Perhaps"}
PUBLIC = re.compile(r"\s*pub (const )?fn \w+")
MARKS = {".rt": re.compile(r"\s*(?://[/!]?)(.*)"), ".antt": re.compile(r"\s*--(.*)")}


def comments(path):
    """Yields each comment of a file: the number of its first line, its text, and the line of code behind it."""
    mark = MARKS[os.path.splitext(path)[1]]
    with open(path, encoding="utf-8") as file:
        lines = file.read().split("\n")
    text, begin = [], 0
    for number, line in enumerate([*lines, ""], 1):
        found = mark.match(line)
        if found:
            begin = begin if text else number
            text.append(found[1].strip())
        elif text and not line.strip().startswith("#["):
            yield begin, " ".join(text).strip(), line
            text = []


def hides(text, code):
    """Returns what is wrong with a comment in front of a line of code, or None."""
    if OPEN.match(text):
        return "begins with a word that leaves its matter open"
    if SO.search(text):
        return "does not name what is counted"
    first = VERB.match(text)
    if PUBLIC.match(code) and (not first or first[0] in NOUNS):
        return "does not begin with a verb"
    return None


def sources(folders):
    """Yields the files of some folders that may have comments, but those of builds and of edits."""
    for folder in folders:
        for at, below, names in os.walk(folder):
            below[:] = sorted(it for it in below if it != "out" and not it.startswith("must-fail"))
            yield from (f"{at}/{name}" for name in sorted(names) if os.path.splitext(name)[1] in MARKS)


def main():
    root = os.path.dirname(os.path.dirname(os.path.abspath(__file__)))
    found = 0
    for path in sources(sys.argv[1:] or [f"{root}/crates"]):
        for number, text, code in comments(path):
            wrong = hides(text, code)
            if wrong:
                found += 1
                print(f"{path}:{number}: {wrong}: {text[:80]}")
    sys.exit(1 if found else 0)


if __name__ == "__main__":
    main()
