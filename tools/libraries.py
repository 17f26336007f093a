#!/usr/bin/env python3
"""Compares crates.txt with what each crate names, or writes it.

usage: tools/libraries.py check | write

The line of a crate in crates.txt lists the libraries that files of its src/, specs/ and proofs/ name, and no others: what
these stand on is found by the toolchain, and each library that is listed without need costs time in each run of the gate.
`check` tells each line that lists another set of libraries, and its status is 0 where there is none; `write` writes
crates.txt anew, with the libraries of each line in the order of the lines, those of the toolchain behind them.
"""
import pathlib
import re
import shutil
import sys

ROOT = pathlib.Path(__file__).resolve().parent.parent
# The ways in which a file names a library: a path of a definition, a path of the code, and the first word of a list of imports.
NAMED = (r"(?<![\w.])Rattle\.(\w+)\.", r"(?<![\w:.])(\w+)::", r"\buse (\w+)\b")
# What every crate has without a word in crates.txt, and the library of the toolchain that has the name of a module of std.
GIVEN = {"std", "core", "io"}


def kit_libraries():
    """Returns the names of the toolchain's libraries that a line may list."""
    found = shutil.which("rt") or "/opt/rattle/bin/rt"
    folder = pathlib.Path(found).resolve().parent.parent / "rlibs"
    return {it.stem for it in folder.iterdir()} - GIVEN


def lines():
    """Returns the lines of crates.txt that tell of a crate: its name, and the libraries that it lists."""
    split = (it.partition(":") for it in (ROOT / "crates.txt").read_text().splitlines() if it.strip() and not it.startswith("#"))
    return [(name, listed.split()) for name, _, listed in split]


def libraries_of(name, every):
    """Returns those of all libraries that files of the crate name."""
    files = (file for part in ("src", "specs", "proofs") for file in (ROOT / "crates" / name / part).rglob("*"))
    texts = [re.sub(r"//.*", "", file.read_text()) for file in files if file.suffix in (".rt", ".antt")]
    return {it for text in texts for pattern in NAMED for it in re.findall(pattern, text) if it in every} - {name}


def main(verb):
    names = [name for name, _ in lines()]
    order = {it: place for place, it in enumerate([*names, *sorted(kit_libraries())])}
    wanted = {name: sorted(libraries_of(name, order), key=order.get) for name in names}
    if verb == "write":
        (ROOT / "crates.txt").write_text("".join(f"{name}: {' '.join(wanted[name])}".rstrip() + "\n" for name in names))
        return 0
    wrong = [(name, listed) for name, listed in lines() if sorted(listed) != sorted(wanted[name])]
    for name, listed in wrong:
        missing, idle = set(wanted[name]) - set(listed), set(listed) - set(wanted[name])
        print(f"crates.txt: {name} has to list {' '.join(wanted[name])} (missing: {' '.join(sorted(missing))}; not named: {' '.join(sorted(idle))})")
    return 1 if wrong else 0


if __name__ == "__main__":
    if sys.argv[1:] not in (["check"], ["write"]):
        sys.exit(__doc__)
    sys.exit(main(sys.argv[1]))
