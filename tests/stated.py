"""Compares an example with the numbers that a law states.

The law `examples_are_evaluated` of crates/inf_label_laws states what the code of some expressions comes to. Its file has each
expression as a tree, with the source in the comment above it. examples/order.inf has a routine of the tree's name for each
of them, and prints the source and the value. So a number is compared with what an interpreter prints, and a source with what
is compiled.
"""

import re

import interpreters

LAW = interpreters.ROOT / "crates/inf_label_laws/specs/Examples.antt"
EXAMPLE = interpreters.ROOT / "examples/order.inf"
TREE = re.compile(r"^-- `([^`]+)`.*\n(?:-- .*\n)*abbrev pub (\w+) : Tree$", re.M)
NUMBER = re.compile(r"\(stack_behind (\w+) ≡ Some \((\d+) ∷ ")
ROUTINE = re.compile(r"^\[ (\w+) x y; x = 2; y = 4; return (.+); \];$", re.M)
PRINTED = re.compile(r"^(.+) is (-?\d+)$", re.M)
# as many expressions as the law has at least
LEAST = 5


def signed(number):
    """Answers a number of 16 bits as it is printed."""
    return number - 65536 if number >= 32768 else number


def numbers():
    """Answers the trees for which the law has a number, each with its source and the number."""
    text = LAW.read_text(encoding="utf-8")
    sources = {name: source for source, name in TREE.findall(text)}
    return {name: (sources.get(name), signed(int(number))) for name, number in NUMBER.findall(text)}


def difference(source, transcript):
    """Answers in what the transcript of an example differs from the law, or nothing."""
    if source != EXAMPLE:
        return ""
    stated = numbers()
    if len(stated) < LEAST:
        return f"the law has {len(stated)} expressions, and not {LEAST}"
    compiled = {name.lower(): text for name, text in ROUTINE.findall(source.read_text(encoding="utf-8"))}
    printed = {text: int(number) for text, number in PRINTED.findall(transcript)}
    for name, (text, number) in stated.items():
        if compiled.get(name) != text:
            return f"{name} is compiled as {compiled.get(name)!r}, and the law has {text!r}"
        if printed.get(text) != number:
            return f"{text} is printed as {printed.get(text)}, and the law has {number}"
    return ""
