"""Sources of routines for `beside.py`: expressions with conditions, and all statements."""

import itertools

from choices import NOUNS, PAIRS, PROPERTIES, SHADES, TOKEN

# Expressions and conditions

FEW_CONSTANTS = "Price_of_bread Weight_of_stone Size_of_house Count_of_days".split()
GLOBALS = ["score_of_player", "turns_so_far"]
CODE_FRONT = """\
Constant Price_of_bread = 7; Constant Weight_of_stone = 40; Constant Size_of_house = 300; Constant Count_of_days = -365;
Global score_of_player = 3; Global turns_so_far; Global total; Global depth;
Array table_of_scores --> 1 2 3 4 5 6 7 8 9 10 11 12 13 14 15 16;
Array line_of_letters -> 32;
[ Sum_of first second; return first + second; ];
[ Least_of first second; if (first < second) return first; return second; ];
"""


class Code:
    """Expressions of a routine over its variables, arrays and constants, with values that no division spoils."""

    def __init__(self, source, names):
        """Takes the variables by their names."""
        self.source, self.names = source, names

    def leaf(self):
        """A variable, a constant or a number."""
        source = self.source
        return source.way(
            (0.62, lambda: source.pick(self.names)),
            (0.72, lambda: source.pick(FEW_CONSTANTS)),
            (0.93, lambda: source.number(0, 255)[1]),
            (1, lambda: source.number(256, 30000)[1]))()

    def value(self, deep):
        """An expression that is at most so deep."""
        if deep == 0:
            return self.leaf()
        less, pick = deep - 1, self.source.pick
        return self.source.way(
            (0.40, lambda: f"{self.varied(self.value(less))} {pick('+-')} {self.tight(less)}"),
            (0.52, lambda: f"{self.varied(self.tight(less))} * {self.tight(less)}"),
            (0.57, lambda: f"{self.varied(self.tight(less))} {pick('/%')} {self.source.between(2, 99)}"),
            (0.66, lambda: f"{self.varied(self.tight(less))} {pick('&', '|')} {self.tight(less)}"),
            (0.74, lambda: f"table_of_scores-->({self.tight(less)} & 15)"),
            (0.80, lambda: f"line_of_letters->({self.tight(less)} & 31)"),
            (0.90, lambda: f"{pick('Sum_of', 'Least_of')}({self.value(less)}, {self.value(less)})"),
            (0.94, lambda: f"-{self.tight(0)}"),
            (0.97, lambda: f"(~{self.tight(0)})"),
            (1, lambda: f"({self.condition(0)})"))()

    def varied(self, text):
        """The text, or a variable where it is of constants alone: Debian's compiler refuses values of them over 16 bits, and
        compares them without signs."""
        return text if any(token in self.names for token in TOKEN.findall(text)) else self.source.pick(self.names)

    def tight(self, deep):
        """An expression that can stand beside any operator."""
        return f"({self.value(deep)})" if deep else self.leaf()

    def plain(self, deep):
        """An expression with no bracket or sign in front, which could be the end of a print rule."""
        while (text := self.value(deep))[0] in "(-~":
            pass
        return text

    def condition(self, deep):
        """A condition in which `&&`, `||` and `~~` stand at most so deep."""
        less, pick = deep - 1, self.source.pick
        return self.source.way(
            (0.35 if deep else 0, lambda: f"{self.side(less)} {pick('&&', '||')} {self.side(less)}"),
            (0.42 if deep else 0, lambda: f"~~({self.condition(less)})"),
            (0.52, lambda: f"{self.varied(self.leaf())} == {self.leaf()} or {self.leaf()}"),
            (1, lambda: f"{self.varied(self.value(pick(0, 1)))} {pick('==', '~=', '<', '>', '<=', '>=')} "
                        f"{self.value(pick(0, 0, 1))}"))()

    def side(self, deep):
        """A condition that can stand beside `&&` and `||`."""
        return f"({self.condition(deep)})" if deep else self.condition(0)

    def assignment(self):
        """An expression that does something."""
        pick = self.source.pick
        return self.source.way(
            (0.70, lambda: f"{pick(self.names)} = {self.value(pick(1, 1, 2, 2, 3))}"),
            (0.80, lambda: f"{pick(self.names)}{pick('++', '--')}"),
            (0.88, lambda: f"table_of_scores-->({self.leaf()} & 15) = {self.value(1)}"),
            (0.94, lambda: f"line_of_letters->({self.leaf()} & 31) = {self.value(1)} & 127"),
            (1, lambda: f"{pick('Sum_of', 'Least_of')}({self.value(1)}, {self.leaf()})"))()


def call_all(source, name, count, front):
    """Adds the routine that calls all those of this name, and prints the total, with this in front of it."""
    source.put("[ Main;\n")
    for place in range(count):
        source.put(f"total = total * 3 + {name}_{place}({source.between(0, 99)}, {place}, 5);\n")
    source.put(f'print "{front}total ", total, " ", score_of_player, " ", turns_so_far, "^"; ];\n')


def expressions(source):
    """Routines of expressions and conditions."""
    source.put(CODE_FRONT)
    count = 0
    while source.has_room(2500):
        names = source.some.sample(PAIRS, 5) + ["hour", "day"]
        code = Code(source, names + GLOBALS)
        source.put(f"[ Reckon_{count} {' '.join(names)};\n")
        for _ in range(source.between(20, 40)):
            test = "" if source.chance(0.7) else f"if ({code.condition(source.pick(0, 1, 1, 2))}) "
            source.put(f"    {test}{code.assignment()};\n")
        source.put(f"    return {' + '.join(names)};\n];\n")
        count += 1
    call_all(source, "Reckon", count, "")


# All statements

FLAGS = [f"is_{shade}" for shade in SHADES[:12]]
ROOMS = ["first_room", "other_room"]
THINGS = [f"{shade}_thing" for shade in SHADES[:14]]
ALL_THINGS = ROOMS + THINGS
STATEMENT_FRONT = [
    CODE_FRONT,
    *(f"Attribute {flag};\n" for flag in FLAGS),
    PROPERTIES,
    "Property worth_of_it; Property word_of_it;\n",
    'Object first_room "first room" with worth_of_it 3; Object other_room "other room" with worth_of_it 4;\n',
    *(f'Object {thing} "{shade} thing" {ALL_THINGS[place % 2]} with worth_of_it {place}, '
      f'word_of_it "worth of {shade}", has {FLAGS[place % 12]};\n' for place, (thing, shade) in enumerate(zip(THINGS, SHADES))),
    '[ As_coins n; print n / 12, " and ", n % 12; ];\n',
    '[ DefArt o; print "the ", (object) o; ];\n',
    '[ CDefArt o; print "The ", (object) o; ];\n',
    '[ InDefArt o; print "a ", (object) o; ];\n',
    "[ PrintShortName o; print (object) o; ];\n",
    "[ EnglishNumber n; print n; ];\n",
    "[ Sp__Pr n; while (n > 0) { print (char) 32; n--; } ];\n",
    "[ R_Process act first second; ",
    "turns_so_far = turns_so_far + act + (first ~= 0) + (second ~= 0) * 2; return 1; ];\n",
    "[ LookSub; ]; [ WaitSub; ]; [ TakeSub; ];\n",
]


class Statements(Code):
    """Statements of a routine. Where they stand is said by `pad`, the spaces in front of a line, and by `inner`, which is `loop`
    or `switch` where one of these can be left, and else none."""

    def __init__(self, source, names, labels):
        """Takes the variables by their names, and numbers for labels."""
        super().__init__(source, names)
        self.labels = labels

    def item(self):
        """What a `print` prints."""
        source, pick = self.source, self.source.pick
        return source.way(
            (0.45, lambda: '"' + "".join(pick(pick(SHADES, NOUNS)) + " " for _ in range(source.between(1, 4))) + '"'),
            (0.60, lambda: self.plain(1)),
            (0.64, lambda: "(char) 'a'"),
            (0.68, lambda: f"(char) 65 + ({self.leaf()} & 15)"),
            (0.75, lambda: f"(object) {pick(ALL_THINGS)}"),
            (0.80, lambda: f"(string) {pick(THINGS)}.word_of_it"),
            (0.86, lambda: f"(As_coins) {self.plain(1)}"),
            (0.95, lambda: f"({pick('the', 'The', 'a', 'name')}) {pick(ALL_THINGS)}"),
            (1, lambda: f"(number) {self.leaf()}"))()

    def items(self):
        """All that a `print` prints."""
        return ", ".join(self.item() for _ in range(self.source.between(1, 4)))

    def give(self):
        """A `give` of two or three attributes."""
        first, second, third = self.source.some.sample(FLAGS, 3)
        return f"give {self.source.pick(ALL_THINGS)} {first} ~{second}{' ' + third if self.source.chance(0.4) else ''};"

    def action(self):
        """An action."""
        pick = self.source.pick
        return pick(f"<{pick('Look', 'Wait')}>;", f"<Take {pick(ALL_THINGS)}>;", f"<Take {pick(ALL_THINGS)} {pick(ALL_THINGS)}>;")

    def assembly(self):
        """A line of assembly."""
        pick, between = self.source.pick, self.source.between
        return pick(
            f"@add {self.leaf()} {self.leaf()} -> {pick(self.names)};",
            f"@store {pick(self.names)} {self.leaf()};",
            f"@inc {pick(self.names)};",
            f"@storeb line_of_letters {between(0, 31)} {between(0, 99)};")

    def leave(self, inner):
        """A `break` or `continue` behind a condition."""
        return f"if ({self.condition(0)}) {self.source.pick('break', 'continue') if inner == 'loop' else 'break'};"

    def other(self):
        """A property that is written or read, and rarely a `return`."""
        source, pick = self.source, self.source.pick
        return pick(
            f"{pick(ALL_THINGS)}.worth_of_it = {self.value(1)};",
            f"return {self.value(1)};" if source.chance(0.1) else ";",
            f"{pick(self.names)} = {pick(ALL_THINGS)}.worth_of_it;")

    def simple(self, inner):
        """A statement without others in it."""
        pick = self.source.pick
        return self.source.way(
            (0.42, lambda: self.assignment() + ";"),
            (0.62, lambda: f"print {self.items()};"),
            (0.66, lambda: "new_line;"),
            (0.69, lambda: f"spaces {self.leaf()} & 7;"),
            (0.71, lambda: f"style {pick('roman', 'fixed')};"),
            (0.79, self.give),
            (0.84, lambda: f"move {pick(THINGS)} to {pick(ROOMS)};"),
            (0.87, lambda: f"remove {pick(THINGS)};"),
            (0.91, self.action),
            (0.94, self.assembly),
            (0.98 if inner else 0, lambda: self.leave(inner)),
            (1, self.other))()

    def block(self, deep, inner, pad):
        """A simple statement in a line of its own, or two to four statements in braces."""
        wider = pad + "    "
        if self.source.chance(0.25):
            return "\n" + wider + self.simple(inner)
        lines = (f"{wider}{self.statement(deep - 1, inner, wider)}\n" for _ in range(self.source.between(2, 4)))
        return " {\n" + "".join(lines) + pad + "}"

    def test(self, deep, inner, pad):
        """An `if`."""
        return f"if ({self.condition(self.source.pick(0, 1))}){self.block(deep, inner, pad)}"

    def choice(self, deep, inner, pad):
        """An `if` with an `else`."""
        return f"{self.test(deep, inner, pad)}\n{pad}else{self.block(deep, inner, pad)}"

    def while_loop(self, deep, inner, pad):
        """A `while`."""
        wider = pad + "    "
        return (f"while ({self.condition(0)} && turn < 9) {{\n{wider}turn++;\n"
                f"{wider}{self.statement(deep - 1, 'loop', wider)}\n{pad}}}")

    def do_loop(self, deep, inner, pad):
        """A `do`, which no statement in it leaves."""
        wider = pad + "    "
        return (f"do {{\n{wider}turn++;\n{wider}{self.statement(deep - 1, None, wider)}\n"
                f"{pad}}} until ({self.condition(0)} || turn > 9);")

    def for_loop(self, deep, inner, pad):
        """A `for`."""
        start, end = self.source.between(0, 3), self.source.between(4, 9)
        return f"for (step = {start} : step < {end} && turn < 40 : step++, turn++){self.block(deep, 'loop', pad)}"

    def object_loop(self, deep, inner, pad):
        """An `objectloop`."""
        pick, wider = self.source.pick, pad + "    "
        over = pick("in first_room", "in other_room", f"has {pick(FLAGS)}", "> 4 && thing notin first_room")
        return f"objectloop (thing {over}) {{\n{wider}{self.simple(None)}\n{wider}if (++turn > 90) break;\n{pad}}}"

    def switch(self, deep, inner, pad):
        """A `switch` with a simple statement in each case; in a loop its cases may continue that one."""
        source, cases, first = self.source, "", 0
        inner = "loop" if inner == "loop" else "switch"
        for _ in range(source.between(2, 4)):
            second, last = first + source.between(1, 3), first + source.between(4, 9)
            values = source.pick(f"{first}", f"{first}, {second}", f"{first} to {second}", f"{first}, {second} to {last}")
            cases += f"{pad}    {values}: {self.simple(inner)}\n"
            first = last + 1
        if source.chance(0.6):
            cases += f"{pad}    default: {self.simple(inner)}\n"
        return f"switch ({self.tight(source.pick(0, 1))} & 31) {{\n{cases}{pad}}}"

    def jump(self, deep, inner, pad):
        """A `jump` past a statement."""
        label = f"Past_{next(self.labels)}"
        return f"if ({self.condition(0)}) jump {label};\n{pad}{self.simple(inner)}\n{pad}.{label};"

    def statement(self, deep, inner, pad):
        """A statement in which others stand at most so deep."""
        if deep == 0 or self.source.chance(0.45):
            return self.simple(inner)
        return self.source.way(
            (0.30, self.test), (0.42, self.choice), (0.52, self.while_loop), (0.60, self.do_loop), (0.72, self.for_loop),
            (0.80, self.object_loop), (0.93, self.switch), (1, self.jump))(deep, inner, pad)


def statements(source):
    """Routines of all statements."""
    source.put(*STATEMENT_FRONT)
    labels, count = itertools.count(1), 0
    while source.has_room(3500):
        names = source.some.sample(PAIRS, 5)
        code = Statements(source, names + GLOBALS, labels)
        source.put(f"[ Play_{count} {' '.join(names)} turn step thing;\n")
        for _ in range(source.between(8, 16)):
            source.put(f"    {code.statement(3, None, '    ')}\n")
        source.put(f"    if (step + turn == thing) print_ret {code.items()};\n    return {' + '.join(names)} + turn;\n];\n")
        count += 1
    call_all(source, "Play", count, "^")
