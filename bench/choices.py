"""Choices of which the sources of `beside.py` are made: words, names, numbers and sums."""

import itertools
import operator
import random
import re

# Tokens as docs/LANGUAGE.md, section 2, has them
TOKEN = re.compile(r'"[^"]*"' r"|'[^'\n]+'" r"|[A-Za-z0-9_$]+"
                   r"|-->|->|--|\+\+|&&|\|\||~~|~=|==|>=|<=|<<|>>|\.&|\.#|##|[-+*/%&|~=<>,;:()\[\]{}.#?@]")

NOUNS = """lamp coin rose stair cellar garden stone river bottle cloak window ladder candle mirror basket feather hammer needle
    wagon cheese""".split()
SHADES = """brass gold white dark heavy little broken ancient silver wooden narrow hollow crooked bright painted frozen rusty
    velvet smooth bitter""".split()
VERBS = """take drop push pull turn open close light burn read write throw climb enter leave search touch taste smell wave break
    mend wash carry follow greet trade count weigh measure polish sharpen bury dig plant water harvest cook pour fill empty tie
    untie cut""".split()
PLACES = """into onto under behind beneath beside through across towards against counterclockwise underneath alongside
    throughout""".split()
PAIRS = [f"{shade}_{noun}" for shade in SHADES for noun in NOUNS]
SIGNS = {"+": operator.add, "-": operator.sub, "*": operator.mul, "|": operator.or_}

# The routines by which both read and write a property, in place of those that Debian's compiler brings
PROPERTIES = "[ RV__Pr o p v; @get_prop o p -> v; return v; ];\n[ WV__Pr o p v; @put_prop o p v; ];\n"


def count_tokens(text):
    """How many tokens a source has, about."""
    return len(TOKEN.findall(text))


def wrapped(words, between, most, indent):
    """The words in lines, each of about so many characters at most."""
    lines = [""]
    for word in words:
        if len(lines[-1]) + len(word) > most:
            lines.append("")
        lines[-1] += (between if lines[-1] else "") + word
    return (between.rstrip() + "\n" + indent).join(lines)


class Source:
    """The text of a source, and the choices of which it is made: one seed gives the same text each time."""

    def __init__(self, seed, size):
        """Starts a source that is to have about so many bytes."""
        self.some = random.Random(seed)
        self.size, self.length, self.parts = size, 0, []
        self.files = {}         # what stands in files beside it, by their names
        self.put("Constant Grammar__Version 2;\n")

    def put(self, *texts):
        """Adds these texts."""
        self.parts += texts
        self.length += sum(map(len, texts))

    def has_room(self, kept):
        """Whether the size is not reached yet when so many bytes are kept for the end."""
        return self.length < self.size - kept

    def pick(self, *several):
        """One of several values, or of those in a single one."""
        return self.some.choice(several[0] if len(several) == 1 else several)

    def chance(self, share):
        """Whether it is one of the cases that have this share of all."""
        return self.some.random() < share

    def way(self, *ways):
        """The function of one way: each has the share from the bound of the one before to its own, and the last bound is 1."""
        share = self.some.random()
        return next(function for bound, function in ways if share < bound)

    def between(self, least, most):
        """A whole number from the one to the other."""
        return self.some.randint(least, most)

    def number(self, least, most):
        """A number, and how it is written: by decimal, hexadecimal or, under 256, binary digits."""
        value = self.between(least, most)
        share = self.some.random()
        if share < 0.15:
            return value, f"${value:04x}"
        return value, f"$${value:08b}" if share < 0.25 and value < 256 else str(value)


def constants(source):
    """Declares constants of 0 to 40, and gives their names, of 9 to 25 characters, with their values."""
    known = []
    for noun, shade in itertools.product(NOUNS, SHADES):
        if source.chance(0.5):
            value = source.between(0, 40)
            name = source.pick(f"Weight_of_{shade}_{noun}", f"{shade.capitalize()}_{noun}", f"Count_{shade}_{noun}s")
            known.append((name, value))
            source.put(f"Constant {name} = {value};\n")
    return known


def sum_of(source, known, least, most):
    """A sum in brackets of two to four constants and numbers, with a value within these bounds."""
    while True:
        text, value = source.pick(known)
        for place in range(source.between(1, 3)):
            sign = source.pick("+", "+", "-", "*", "|")
            more, written = source.pick(known)[::-1] if source.chance(0.4) else source.number(1, 9)
            if place > 0 and sign in "*|":
                sign = "+"
            text, value = f"{text} {sign} {written}", SIGNS[sign](value, more)
        if least <= value <= most:
            return f"({text})"
