#!/usr/bin/env python3
"""Compares what sources of 23 kinds cost this compiler and Debian's, and prints the table of docs/SPEED.md.

    bench/kinds.py [N] PROGRAM

PROGRAM is one of this compiler, and the other one is `inform6`. Each kind has a row: the tokens of its source, the instructions of
both compilers by callgrind, in millions, their ratio, and how many of ours a token takes; then the processor time of both, in the
program and in the system, the least of N runs (21) that alternate, and its ratio. Both have to compile each source without an error.

It needs `inform6` (apt-get install inform6-compiler) and `valgrind` (apt-get install valgrind). The sources are made in a temporary
folder; with `--in FOLDER` they are made in that one and stay, and the profiles of the last kind, for `callgrind_annotate`. With
`--only KIND` there is one row.
"""

import os
import sys
import tempfile
from pathlib import Path

sys.dont_write_bytecode = True
from choices import Source, count_tokens  # noqa: E402
from kind_sources import KINDS  # noqa: E402
from programs import OTHER, compilation, cost, instructions, missing, option  # noqa: E402

HEAD = ["kind of source", "tokens", "ours", "Debian's", "ratio", "a token", "ours, ms", "Debian's, ms", "ratio"]


def source_of(kind, folder):
    """The file of the source of a kind, which is made in a folder, and the number of its tokens."""
    size, make = KINDS[kind]
    source = Source(kind, size)
    make(source)
    text, file = "".join(source.parts), folder / f"{kind.replace(' ', '_')}.inf"
    for name, content in {file.name: text, **source.files}.items():
        (folder / name).write_text(content, encoding="ascii")
    return file, count_tokens(text)


def row_of(kind, program, count, folder):
    """The cells of a kind."""
    file, tokens = source_of(kind, folder)
    runs = [compilation(name, file, folder / "story.z5") for name in (program, OTHER)]
    mine, other = (instructions(words, folder / f"{name}.callgrind") for words, name in zip(runs, ("ours", "other")))
    times = [[cost(words)[1] for words in runs] for _ in range(count)]
    quick, beside = (1000 * min(column) for column in zip(*times))
    return [kind, f"{tokens:,}", f"{mine / 1e6:.0f}", f"{other / 1e6:.0f}", f"{mine / other:.2f}", f"{mine / tokens:,.0f}",
            f"{quick:.1f}", f"{beside:.1f}", f"{quick / beside:.2f}"]


def tell(cells):
    """Prints a row of the table."""
    print(f"| {' | '.join(cells)} |", flush=True)


def main():
    """Does what the words of the command line say."""
    words = sys.argv[1:]
    given, only = option(words, "--in", __doc__), option(words, "--only", __doc__)
    count = int(words.pop(0)) if words[:1] and words[0].isdigit() else 21
    if len(words) != 1 or count == 0 or only not in (None, *KINDS):
        sys.exit(__doc__)
    if told := missing((OTHER, "valgrind"), words):
        sys.exit(told)
    program = os.path.abspath(words[0])
    tell(HEAD)
    tell(["---"] * len(HEAD))
    with tempfile.TemporaryDirectory() as place:
        folder = Path(given or place).absolute()
        folder.mkdir(parents=True, exist_ok=True)
        for kind in [only] if only else KINDS:
            tell(row_of(kind, program, count, folder))


main()
