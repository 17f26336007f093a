#!/usr/bin/env python3
"""Measures how long large tables of a story take, tables twice as large, and tables four times as large.

usage: bench/tables.py PROGRAM

PROGRAM is that of the crate `inf_row_tests`, `crates/inf_row_tests/out/inf_row_tests`. For each kind of table and each size the
least processor time of five runs is told, with reading the line of commands and telling all bytes of the table.
"""

import resource
import subprocess
import sys
from pathlib import Path

sys.dont_write_bytecode = True
sys.path.insert(0, str(Path(__file__).resolve().parent.parent / "tests"))
from tables_plain import World  # noqa: E402


def commands(*some):
    """Returns a line of commands."""
    return " | ".join(some)


def objects(count, *rest):
    """Returns commands for `count` objects with these commands in their bodies, and questions for counts behind each."""
    return [it for _ in range(count) for it in ("object p0 d0a5", *rest, "end", "count", "size", "later")]


def loads(times):
    """Yields large tables, made as many times as large: a name, a number of parts, and a line of commands."""
    given = [f"give {number} {'n1' if number % 2 else 2}" for number in range(4, 36)]
    declared = ["world - -", "32 property plain 0"]
    areas = [f"write - - 0 {area}" for area in World.AREAS]
    texts = [(7919 * number % 65521).to_bytes(6, "big").hex() for number in range(2000 * times)]
    nouns = [f"line {verb} last 1 noun" for verb in range(200)]
    count = 636 * times
    yield "entries of arrays", 60000 * times, commands(
        "arrays -", "open words", f"{30000 * times} entry 5", f"{30000 * times} entry n1", "size", "later", "write - - 0")
    yield "objects of 32 properties", count, commands(*declared, *objects(count, *given), "places", "individuals", *areas)
    yield "objects of a class with 32", count, commands(
        *declared, "class -", *given, "end", *objects(count, "of 5"), "places", "individuals", *areas)
    yield "words", 2000 * times, commands(
        "dictionary -", *(f"use {text} other" for text in texts), "rank " + " ".join(texts), "write - - 0")
    yield "lines of 200 verbs", 4000 * times, commands("verbs - -", "200 add", *nouns * 20 * times, "places", "write - - 0")
    yield "lines in front of one verb", 2000 * times, commands(
        "verbs - -", "add", *("extend 0 first", "line 0 first 1 noun") * 2000 * times, "places", "write - - 0")


def seconds(program, line):
    """Returns the least processor time of five runs over a line."""
    def used():
        found = resource.getrusage(resource.RUSAGE_CHILDREN)
        return found.ru_utime + found.ru_stime

    def once():
        before = used()
        subprocess.run([program], input=line + "\n", text=True, stdout=subprocess.DEVNULL, check=True)
        return used() - before
    return min(once() for _ in range(5))


def tell_times(program):
    """Prints a line for each kind of table, with its three sizes and their times."""
    for sizes in zip(*(list(loads(times)) for times in (1, 2, 4))):
        told = ", ".join(f"{count:,}: {1000 * seconds(program, line):.0f} ms" for _, count, line in sizes)
        print(f"{sizes[0][0]}: {told}", flush=True)


def main():
    if len(sys.argv) != 2:
        sys.exit(__doc__)
    tell_times(sys.argv[1])


main()
