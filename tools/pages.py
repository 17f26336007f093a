#!/usr/bin/env python3
"""Finds names in the pages of crates that nothing has, and lines that are too long.

usage: tools/pages.py [PAGE ..]

The page of a crate is its README.md; docs/PROMISES.md is looked at, too. A name in backquotes, as `Lexer::next` or `zscii_of`, has to
stand in the files of the page's crate or of another one, and a path has to lead to a file. No line has more than 140 characters. Each
finding is a line; the status is 1 where there is one, and also where a crate has no page.
"""

import os
import re
import sys

ROOT = os.path.dirname(os.path.dirname(os.path.abspath(__file__)))
CRATES = f"{ROOT}/crates"
MOST = 140
NAME = re.compile(r"[A-Za-z_][A-Za-z0-9_]+")
PATH = re.compile(r"[\w./-]+/[\w./*-]*")
ENDINGS = ("", ".antt", ".rt", ".md")


def words_of(crate):
    """Returns the names in the sources, definitions and proofs of a crate, and the names of its files."""
    found = {crate}
    for at, below, names in os.walk(f"{CRATES}/{crate}"):
        below[:] = [it for it in below if it != "out" and not it.startswith("must-fail")]
        for name in names:
            if name.endswith((".rt", ".antt")):
                found.add(name.rsplit(".", 1)[0])
                with open(f"{at}/{name}", encoding="utf-8") as file:
                    found.update(NAME.findall(file.read()))
        found.update(below)
    return found


def leads(path, crate):
    """Tells whether a path leads to a file, from the repository, its crates or one of them."""
    if "*" in path:
        return True
    folders = [ROOT, CRATES] + ([f"{CRATES}/{crate}"] if crate else [])
    parts = path.rstrip("/").split("/", 1)
    tries = [path] + ([f"{parts[0]}/specs/{parts[1]}"] if len(parts) > 1 else [])
    return any(os.path.exists(f"{folder}/{it}{end}") for folder in folders for it in tries for end in ENDINGS)


def spans(text):
    """Yields what stands in backquotes, each with the number of its line, but for blocks of code."""
    text = re.sub(r"```.*?```", lambda it: re.sub(r"[^\n]", " ", it[0]), text, flags=re.S)
    for it in re.finditer(r"`([^`]+)`", text):
        yield text.count("\n", 0, it.start()) + 1, it[1].replace("\n", " ")


def findings(page, own, all_words, crate):
    """Yields what is wrong with a page: the number of a line, and why."""
    with open(page, encoding="utf-8") as file:
        text = file.read()
    for number, line in enumerate(text.split("\n"), 1):
        if len(line) > MOST:
            yield number, f"has {len(line)} characters"
    for number, span in spans(text):
        if PATH.fullmatch(span) and span.strip("/*"):
            if not leads(span, crate):
                yield number, f"there is no file {span}"
        else:
            for name in NAME.findall(span):
                if name not in own and name not in all_words:
                    yield number, f"nothing has the name {name} of `{span}`"


def listed():
    """Returns the crates that crates.txt lists."""
    with open(f"{ROOT}/crates.txt", encoding="utf-8") as lines:
        return sorted(line.split(":")[0] for line in lines if line.strip() and not line.startswith("#"))


def main():
    crates = listed()
    words = {crate: words_of(crate) for crate in crates}
    every = set().union(*words.values())
    pages = sys.argv[1:] or [f"{CRATES}/{crate}/README.md" for crate in crates] + [f"{ROOT}/docs/PROMISES.md"]
    found = 0
    for page in pages:
        if not os.path.exists(page):
            found += 1
            print(f"{page}: there is no such page")
            continue
        crate = os.path.basename(os.path.dirname(os.path.abspath(page)))
        crate = crate if crate in words else ""
        for number, why in findings(page, words.get(crate, set()), every, crate):
            found += 1
            print(f"{page}:{number}: {why}")
    sys.exit(1 if found else 0)


if __name__ == "__main__":
    main()
