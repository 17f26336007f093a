"""Sources of 23 kinds for `kinds.py`: most are of one construct alone, and two are of what a game has."""

import itertools

from choices import NOUNS, PAIRS, PLACES, SHADES, VERBS
from declarations import objects, verbs
from statements import FLAGS, GLOBALS, ROOMS, STATEMENT_FRONT, THINGS, Statements

LOCALS = "first second third fourth".split()
VALUES = LOCALS + GLOBALS
MAIN = "[ Main; ];\n"


def phrase(source, least, most):
    """Some words."""
    return " ".join(source.pick(SHADES + NOUNS + VERBS) for _ in range(source.between(least, most)))


def routines(source, line, count=40):
    """Adds routines, each of so many lines that `line` makes, up to the size of the source."""
    source.put(*STATEMENT_FRONT)
    place = 0
    while source.has_room(300):
        source.put(f"[ Part_{place} {' '.join(LOCALS)} turn step thing;\n    fourth = second + third;\n")
        for _ in itertools.takewhile(lambda _: source.has_room(300), range(count)):
            source.put(f"    {line(source)}\n")
        source.put("];\n")
        place += 1
    source.put(MAIN)


# Directives

def comments(source):
    """Lines of comments."""
    while source.has_room(100):
        source.put(f"! {phrase(source, 8, 12)}\n")
    source.put(MAIN)


def constants(source):
    """Constants that are numbers, other constants and sums of both."""
    last = "5"
    for place in itertools.count():
        if not source.has_room(100):
            break
        name = f"{source.pick(SHADES).capitalize()}_{source.pick(NOUNS)}_{place}"
        value = source.pick(source.number(0, 60_000)[1], last, f"({last} & 255) + {source.between(1, 9)}")
        source.put(f"Constant {name} = {value};\n")
        last = name
    source.put(MAIN)


def arrays(declared, entry):
    """The function that makes a source of arrays with these entries."""
    def make(source):
        source.put("Constant One_coin = 1; Constant Two_coins = 2;\n")
        for place in itertools.count():
            if not source.has_room(700):
                break
            entries = [entry(source) for _ in range(source.between(15, 75))]
            lines = "\n    ".join(" ".join(entries[start:start + 12]) for start in range(0, len(entries), 12))
            source.put(f"Array row_{place} {declared} {lines};\n")
        source.put(MAIN)
    return make


def byte_entry(source):
    """An entry of a byte."""
    return source.pick(source.number(0, 255)[1], "One_coin", "(Two_coins + One_coin)", f"'{source.pick('abcdefgh')}'")


def letter_entry(source):
    """An entry of a byte without brackets."""
    return source.pick(source.number(0, 255)[1], "Two_coins", f"'{source.pick('abcdefgh')}'")


def word_entry(source):
    """An entry of a word."""
    large = source.between(1_000, 30_000)
    return source.pick(source.number(9_000, 60_000)[1], f"(One_coin * {large})", f"(Two_coins + {large})", f"(-{large})")


def late_entry(source):
    """An entry of a word, some of which are known only at the end."""
    return source.pick(f"'{source.pick(NOUNS)}'", "Main", source.number(256, 60_000)[1], f"(Two_coins + {source.between(1_000, 9_000)})")


def classes(source):
    """Classes, of which some have two others above them, and their objects."""
    source.put(*STATEMENT_FRONT)
    plain, heads = [], []
    for place in itertools.count():
        if not source.has_room(400):
            break
        flags = " ".join(source.some.sample(FLAGS, 8))
        given = f"worth_of_it {source.number(0, 9_000)[1]}, word_of_it '{source.pick(NOUNS)}' \"{phrase(source, 1, 4)}\""
        if place % 6:
            source.put(f'{source.pick(heads[-9:])} piece_{place} "{phrase(source, 2, 2)}"\n    with {given},\n    has ~{flags};\n')
            continue
        above = plain[-2:] if place % 12 else []
        heads.append(f"Kind_{place}")
        plain += [] if above else heads[-1:]
        source.put(f"Class {heads[-1]}\n    with {given},\n    has {flags}{' class ' + ' '.join(above) if above else ''};\n")
    source.put(MAIN)


def includes(source):
    """Inclusions of 50 short files."""
    for place in range(50):
        source.files[f"part_{place}.h"] = f"! Part {place}\n" + "! Words of a comment that are read each time.\n" * 4
    while source.has_room(50):
        source.put(f'Include ">part_{source.between(0, 49)}.h";\n')
    source.put(MAIN)


def conditionals(source):
    """Conditionals, also one in the other, of which one side is left out."""
    source.put("Constant Here; Constant Three = 3;\n")
    for place in itertools.count():
        if not source.has_room(400):
            break
        kept = f"Constant Kept_{place} = {place % 1000};\n"
        left = f'[ Left_{place} first; print "not read", first; return first + 3; ];\n'
        source.put(source.pick(
            f"#Ifdef Here;\n{kept}#Ifnot;\n{left}#Endif;\n",
            f"Ifndef Here;\n{left}Ifnot;\n{kept}Endif;\n",
            f"#Iftrue Three > 2;\n{kept}#Endif;\n",
            f"#Ifdef Nothing_known;\n{left}#Iftrue Nothing_told;\n{left}#Endif;\n#Endif;\n"))
    source.put(MAIN)


# Statements

def call(source):
    """A call with none to three arguments."""
    arguments = ", ".join(source.pick(*VALUES, "17", "300", "table_of_scores") for _ in range(source.pick(0, 1, 2, 2, 3)))
    return f"{source.pick('', 'first = ')}{source.pick('Sum_of', 'Least_of', 'InDefArt')}({arguments});"


def short(source):
    """A statement of three to six tokens."""
    one, other = source.pick(LOCALS), source.pick(VALUES)
    return source.pick(f"{one} = {source.between(0, 9)};", f"{one} = {other};", f"{one}++;", f"--{other};", f"{one} = {other} - third;",
                       f"As_coins({one});", "new_line;", f"give {source.pick(THINGS)} {source.pick(FLAGS)};", f"{one} = {other} + {one};",
                       f"table_of_scores-->1 = {one};")


def printing(source):
    """A `print` of texts and values."""
    text = phrase(source, 2, 8)
    return source.pick(f'print "{text}^";', f'print "{text}", first, " {text}.^";', f'print (char) second, (string) third, "~{text}~";',
                       f'print "{text}: ", (As_coins) fourth, " and ", first + second;')


def bracketed(source, deep):
    """An expression in brackets, with others in it up to a depth."""
    if deep == 0:
        return source.pick(*VALUES, source.number(1, 99)[1])
    inner = bracketed(source, deep - 1)
    return source.way(
        (0.7, lambda: f"({inner} {source.pick('+-*&|')} {bracketed(source, source.between(0, deep - 1))} + first)"),
        (0.8, lambda: f"Sum_of({inner}, {source.pick(VALUES)})"),
        (0.9, lambda: f"(table_of_scores-->{inner})"),
        (1, lambda: f"(-({inner} + second))"))()


def deep_expression(source):
    """An assignment of an expression with brackets in brackets."""
    return f"first = {bracketed(source, source.between(3, 9))};"


def long_expression(source):
    """An assignment of an expression of 20 to 40 operands in a row."""
    parts = (f"{source.pick(VALUES)} {source.pick('+-*|')} {source.pick('second', 'third', '17')} {source.pick('+-*|')}"
             for _ in range(source.between(10, 20)))
    return f"first = {' '.join(parts)} 1;"


def condition(source, deep):
    """A condition with others in it up to a depth."""
    if deep == 0:
        one, other = source.pick(VALUES), source.pick(VALUES)
        return source.pick(f"{one} == 1 or 2 or 3", f"{one} > {other}", f"{source.pick(THINGS)} has {source.pick(FLAGS)}",
                           f"{one} ~= {other}", f"{source.pick(THINGS)} in first_room", f"{one} <= 5", f"~~{one}", one)
    return f"({condition(source, deep - 1)} {source.pick('&&', '||')} {condition(source, source.between(0, deep - 1))})"


def test(source):
    """An `if` of a condition with up to sixteen parts."""
    return f"if ({condition(source, source.between(1, 4))}) first = 1;"


class Nested(Statements):
    """Statements in others, of which the innermost ones are short."""

    def simple(self, inner):
        """A short statement."""
        return short(self.source)

    def condition(self, deep):
        """A condition of one comparison."""
        return f"{self.source.pick(VALUES)} {self.source.pick('<', '>', '==')} {self.source.between(0, 9)}"

    def statement(self, deep, inner, pad):
        """A statement in which others stand at most so deep."""
        if deep == 0 or self.source.chance(0.15):
            return self.simple(inner)
        return self.source.pick(self.choice, self.test, self.while_loop, self.do_loop, self.for_loop, self.switch)(deep, inner, pad)


def nested(source):
    """A statement with others in it."""
    return Nested(source, VALUES, None).statement(4, None, "    ")


def assembly(source):
    """A line of assembly."""
    one, other = source.pick(LOCALS), source.pick(VALUES)
    return source.pick(f"@add {one} {other} -> third;", f"@store {one} {source.between(0, 99)};", f"@je {one} {other} ?rtrue;",
                       f"@mul {one} 300 -> sp;", f"@pull {one};", f"@loadw table_of_scores 3 -> {one};", f"@print_num {other};",
                       f"@inc {one};", f"@jz {other} ?~rfalse;", "@print_char 65;", f"@call_vn As_coins {one};")


GLOBAL_NAMES = [f"count_of_{pair}s" for pair in PAIRS[:200]]


def of_globals(source):
    """An assignment among global variables."""
    return "{} = {} + {};".format(*(source.pick(GLOBAL_NAMES) for _ in range(3)))


def global_variables(source):
    """Global variables, and assignments among them."""
    source.put(*(f"Global {name} = {place};\n" for place, name in enumerate(GLOBAL_NAMES)))
    routines(source, of_globals)


def dictionary_words(source):
    """Two words of the dictionary."""
    words = (source.pick(SHADES)[:4] + source.pick(NOUNS + VERBS)[:4] for _ in range(2))
    return "first = '{}'; second = '{}//p';".format(*words)


# Games

def remark(source, has_comments):
    """Adds two lines of comments, if there are any."""
    if has_comments:
        source.put(f"! {phrase(source, 9, 12).capitalize()}.\n! {phrase(source, 6, 9).capitalize()}.\n\n")


def place_of_game(source, number, labels):
    """Adds a room, and two things in it."""
    room, code = f"place_{number}", Statements(source, LOCALS + GLOBALS, labels)
    source.put(f'Object {room} "{phrase(source, 2, 2)}"\n    with description "{phrase(source, 14, 22).capitalize()}.",\n'
               f"    north_of_it place_{max(number - 1, 0)}, south_of_it {source.pick(ROOMS)},\n    has {' '.join(FLAGS[:2])};\n")
    for part in "ab":
        words = " ".join(f"'{source.pick(SHADES + NOUNS)}'" for _ in range(3))
        rule = f"    before_touching [ {' '.join(LOCALS)} turn; {code.simple(None)} rfalse; ],\n" if source.chance(0.15) else ""
        source.put(f'Object thing_{number}_{part} "{phrase(source, 2, 2)}" {room}\n    with name {words},\n'
                   f'    description "{phrase(source, 8, 14).capitalize()}.", worth_of_it {source.between(1, 99)},\n{rule}'
                   f"    has {' '.join(source.some.sample(FLAGS, 2))};\n")


def verb_of_game(source, number):
    """Adds an action and its verb."""
    action = f"{VERBS[number % len(VERBS)].capitalize()}_{number}"
    source.put(f'[ {action}Sub; print "{phrase(source, 4, 8).capitalize()}.^"; ];\nVerb \'{VERBS[number % 40][:4]}{number}\'\n')
    for _ in range(source.between(2, 4)):
        tokens = source.pick("", "noun", "held", "multi", f"'{source.pick(PLACES)}' noun", f"noun '{source.pick(PLACES)}' held", "topic")
        source.put(f"    * {tokens} -> {action}\n")
    source.put(";\n")


def routine_of_game(source, number, labels):
    """Adds a routine of all statements."""
    code = Statements(source, LOCALS + GLOBALS, labels)
    source.put(f"[ Rule_{number} {' '.join(LOCALS)} turn step thing;\n")
    for _ in range(source.between(4, 9)):
        source.put(f"    {code.statement(2, None, '    ')}\n")
    source.put("    return first + step + turn + thing;\n];\n")


def game(has_comments):
    """The function that makes a source of what a game has: rooms, things, verbs and routines."""
    def make(source):
        source.put(*STATEMENT_FRONT, "Property description; Property north_of_it; Property south_of_it; Property before_touching;\n")
        labels = itertools.count(1)
        for number in itertools.count():
            if not source.has_room(6000):
                break
            remark(source, has_comments)
            place_of_game(source, number, labels)
            if number % 3 == 0 and number < 600:
                verb_of_game(source, number)
            remark(source, has_comments)
            routine_of_game(source, number, labels)
        source.put(MAIN)
    return make


def of_lines(line, count=40):
    """The function that makes a source of routines of such lines."""
    return lambda source: routines(source, line, count)


# For each kind: the bytes of its source, about, and the function that makes it. A story of version 5 has room for no more.
KINDS = {
    "comments": (1_000_000, comments),
    "constants": (400_000, constants),
    "calls": (600_000, of_lines(call)),
    "short statements": (350_000, of_lines(short)),
    "prints": (300_000, of_lines(printing)),
    "deep expressions": (400_000, of_lines(deep_expression, 20)),
    "long expressions": (300_000, of_lines(long_expression, 20)),
    "conditions": (400_000, of_lines(test, 20)),
    "nested statements": (300_000, of_lines(nested, 8)),
    "assembly": (700_000, of_lines(assembly)),
    "global variables": (900_000, global_variables),
    "arrays of bytes": (180_000, arrays("->", byte_entry)),
    "arrays of words": (180_000, arrays("-->", word_entry)),
    "string arrays": (180_000, arrays("string", letter_entry)),
    "tables": (160_000, arrays("table", late_entry)),
    "objects": (340_000, objects),
    "classes": (200_000, classes),
    "verbs": (600_000, verbs),
    "dictionary words": (850_000, of_lines(dictionary_words)),
    "inclusions": (100_000, includes),
    "conditionals": (1_000_000, conditionals),
    "game with comments": (600_000, game(True)),
    "game without comments": (600_000, game(False)),
}
