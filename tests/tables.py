#!/usr/bin/env python3
"""Makes the rows of tables of `inf_row_tests` and the answers to them, by plain lists: a part of `stdin` and of `stdout` of that crate.

usage: tests/tables.py          compares both with what stands there
       tests/tables.py write    writes them

In front stand rows by hand. Then come random lines, of which those are kept that show something new: a command that no line before them
has, with other kinds of words behind it, or with an answer of another kind.
"""

import random
import re
import sys
from pathlib import Path

sys.dont_write_bytecode = True
from tables_plain import KINDS, NOUNS, World, answered  # noqa: E402
from tables_rows import ROWS  # noqa: E402

FOLDER = Path(__file__).resolve().parent.parent / "crates" / "inf_row_tests"
COUNT = 500                     # random lines of each table, of which some are kept
# The numbers of random lines that are kept, too: with these the script finds each change of one number, comparison or test in
# `tables_plain.py` that all random lines find.
KEPT_TOO = {180, 1047, 1145, 1247, 1457, 2722}
# The titles in front of the rows of tables, and behind them
FRONT, BEHIND = "! Tables\n", "! Stories\n"
NUMBER = re.compile(r"\b[0-9a-f]{2,}\b|\d+")


# Random lines

def text(some):
    """A word of a few, which differ late and early."""
    return "".join(f"{some.choice((0, 1, 128, 255)):02x}" if n in (0, 5) else "5a" for n in range(6))


def value(some):
    """A number, a name or a word."""
    return some.choice((str(some.randrange(65536)), str(some.randrange(300)), f"n{some.randrange(9)}", "w" + text(some)))


def ends(some, most):
    """A write with ample room, or with about as much as is needed."""
    return f"write {some.choice(('-', '-', some.randrange(most)))} {some.choice(('-', '-', some.randrange(8 * most)))} {some.randrange(4)}"


def dictionary(some):
    kinds = ("verb0", "verb1", "meta1", "prep", "other", "other")
    steps = (lambda: f"use {text(some)} {some.choice(kinds)}{some.choice(('', '', ' plural'))}",) * 6 + (
        lambda: f"verb {text(some)}", lambda: "misfit " + " ".join(text(some) for _ in range(some.randrange(1, 4))),
        lambda: f"rank {text(some)}")
    return [f"dictionary {some.choice(('-', some.randrange(6)))}"] + [some.choice(steps)() for _ in range(9)] + [
        "len", ends(some, 12).replace("write -", "write 0")]


def arrays(some):
    steps = (lambda: f"open {some.choice(list(KINDS))}",) * 2 + (lambda: f"entry {value(some)}",) * 4 + (
        lambda: f"entry {some.randrange(260)}", lambda: f"zeros {some.randrange(4)}",
        lambda: f"text {bytes(some.randrange(256) for _ in range(some.randrange(4))).hex() or '00'}")
    return [f"arrays {some.choice(('-', '-', some.randrange(30)))}"] + [some.choice(steps)() for _ in range(10)] + [
        "size", "later", ends(some, 5)]


def globals_(some):
    return ["globals"] + [f"add {value(some)}" for _ in range(some.randrange(5))] + [
        "len", "later", f"write {some.choice(('-', '2'))} {some.choice(('-', '479', '480'))} 1"]


def token(some):
    return some.choice((some.choice(NOUNS), "/".join(text(some) for _ in range(some.randrange(1, 4))),
                        f"{some.choice('fasr')}{some.randrange(48)}"))


def verbs(some):
    places = ("first", "first", "last", "replace")
    out, now = [], {}
    for _ in range(some.randrange(4, 12)):
        verb = some.randrange(3)
        step = some.randrange(6)
        if step == 0 or not out:
            out.append("add")
        elif step == 1:
            now[verb] = some.choice(places)
            out.append(f"extend {verb} {now[verb]}")
        else:
            line = [token(some) for _ in range(some.randrange(4))] + some.choice(([], [], ["reverse"]))
            action = some.choice((some.randrange(5), 4096 + some.randrange(5), 65535))
            out.append(" ".join(["line", str(verb), now.get(verb, "last"), str(action), *line]))
    return [f"verbs {some.choice(('-', '-', 2))} {some.choice(('-', '-', some.randrange(60)))}"] + out + [
        "len", "size", "later", "places", ends(some, 12)]


def actions(some):
    steps = (lambda: f"add {some.randrange(6)}",) * 5 + (lambda: "fake", lambda: f"of {some.randrange(6)}")
    return [f"actions {some.choice(('-', some.randrange(5)))}"] + [some.choice(steps)() for _ in range(8)] + ["len", ends(some, 6)]


def parsing(some):
    return ["parsing"] + [f"add {some.randrange(6)}" for _ in range(some.randrange(8))] + ["len", ends(some, 6)]


def short(some):
    """The bytes of a short name."""
    return some.choice(("98a5", "9ca5", "-", "12873d48e4a5"))


def entry(some):
    """What stands in a body."""
    number = some.choice((0, 1, 1, 2, 4, 4, 5, 5, 6, 7, 64, 65, 66))
    return some.choice((f"give {number} {value(some)}",) * 5 + (f"give {number}", f"{some.choice((1, 1, 1, 15, 16))} value {value(some)}",
                       f"value {value(some)}", "lose", f"given {number}", f"has {some.randrange(12)}", f"hasnt {some.randrange(6)}",
                       f"has {some.choice((47, 48))}") + (f"of {some.choice((0, 4, 5, 5, 6, 6, 7, 8))}",) * 4)


def body(some, place):
    """A header, what stands in its body, and its end. The first ones of a world are mostly classes."""
    classes = (f"class {short(some)}",) * (9 if place < 2 else 1)
    header = some.choice(classes + (f"object p{some.randrange(8)} {short(some)}", f"object p0 {short(some)}", "lost",
                                    f"object a{some.randrange(3)} {short(some)}", f"object a{some.randrange(2)} {short(some)}"))
    first = [f"of {number}" for number in (5, 6) if some.randrange(2)] if place > 1 else []
    return [header] + first + [entry(some) for _ in range(some.randrange(7))] + some.choice((["end"],) * 19 + ([], ["end", "end"]))


def world(some):
    out = ["attribute"] * some.randrange(3) + [
        f"property {some.choice(('plain', 'additive'))} {value(some)}" for _ in range(some.randrange(5))] + [
            "individual"] * some.randrange(3)
    for place in range(some.randrange(2, 9)):
        out += body(some, place)
        out += some.choice(([], [], [], ["size"], ["later"], ["count"], ["individual"], [f"property additive {value(some)}"]))
    areas = list(World.AREAS)
    return [f"world {some.choice(('-', '-', '-', some.randrange(9)))} {some.choice(('-', '-', '-', some.randrange(200)))}"] + out + [
        "count", "size", "later", "places", "individuals"] + [f"laters {area}" for area in areas] + [
        f"{ends(some, 40)} {area}" if some.randrange(3) == 0 else f"write - - 0 {area}" for area in areas]


def shown(line, answer):
    """Yields for each command of a line its table, its name, the kinds of two words behind it, and the kind of its answer: all without numbers."""
    table, *commands = line.split(" | ")
    for command, told in zip(commands, answer.split(" | ")[1:]):
        name, *words = command.lstrip("0123456789 ").split(" ")
        yield table.split(" ")[0], name, *(NUMBER.sub("", word) for word in words[:2]), frozenset(NUMBER.sub("", told).split())


def random_lines():
    """Yields the random lines that are kept, each with its answer."""
    some, seen, number = random.Random(8), set(), 0
    for make in (dictionary, arrays, globals_, verbs, actions, parsing, world):
        for _ in range(COUNT if make is not globals_ else 20):
            line = " | ".join(make(some))
            answer = answered(line)
            new = set(shown(line, answer)) - seen
            if new or number in KEPT_TOO:
                yield line, answer
            seen |= new
            number += 1


def script():
    """Returns all lines, and all answers."""
    for line, answer in ROWS:
        assert answer is None or answered(line) == answer, (line, answered(line), answer)
    rows = [(line, answer or line) for line, answer in ROWS] + list(random_lines())
    return tuple("".join(text + "\n" for text in texts) for texts in zip(*rows))


def placed(text, made):
    """Returns a text with these rows of tables between their titles."""
    return text.partition(FRONT)[0] + FRONT + made + BEHIND + text.partition(BEHIND)[2]


def main():
    for name, made in zip(("stdin", "stdout"), script()):
        file = FOLDER / name
        if sys.argv[1:] == ["write"]:
            file.write_text(placed(file.read_text(), made))
        elif file.read_text() != placed(file.read_text(), made):
            sys.exit(f"{name} differs from what {Path(__file__).name} makes")


main()
