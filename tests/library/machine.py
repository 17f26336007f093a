"""A small Z-machine of the versions 5 and 8, which counts the instructions that it carries out.

It has a lower window, an upper window of one width, and files that stay in memory. What it lacks (sounds, colours, menus,
other versions) the games of the library do not use. The numbers of opcodes are those of the Z-Machine Standard 1.1.
"""

import random

LOWER = "abcdefghijklmnopqrstuvwxyz"
ALPHABETS = (LOWER, LOWER.upper(), " \n0123456789.,!?_#'\"/\\-:()")
BEYOND = "äöüÄÖÜß»«ëïÿËÏáéíóúýÁÉÍÓÚÝàèìòùÀÈÌÒÙâêîôûÂÊÎÔÛåÅøØãñõÃÑÕæÆçÇþðÞÐ£œŒ¡¿"
OPCODES = {}


class Fault(Exception):
    """What a story does that the machine does not know."""


class Frame:
    """A call of a routine: where it goes on behind, the variable for its answer, its locals and its stack."""

    def __init__(self, back, store, local, given):
        self.back, self.store, self.local, self.given, self.stack = back, store, local, given, []

    def copy(self):
        made = Frame(self.back, self.store, list(self.local), self.given)
        made.stack = list(self.stack)
        return made


def signed(value):
    return value - 0x10000 if value & 0x8000 else value


def letter(code):
    """A character of a code of ZSCII."""
    if code == 13:
        return "\n"
    return BEYOND[code - 155] if 155 <= code < 155 + len(BEYOND) else chr(code)


def code_of(char):
    """The code of ZSCII of a character."""
    if char == "\n":
        return 13
    return 155 + BEYOND.index(char) if char in BEYOND else ord(char) if ord(char) < 127 else 63


class Machine:
    """A story that is played. `lines` are typed one after the other; `pieces` is what was printed up to each line that was read,
    `counts` how many instructions that took, `rows` the upper window's first row when the line was read."""

    def __init__(self, story, lines, width=80):
        self.story, self.lines, self.width, self.version = bytes(story), iter(lines), width, story[0]
        if self.version not in (5, 8):
            raise Fault(f"version {self.version}")
        self.memory, self.scale = bytearray(story), 4 if self.version == 5 else 8
        self.static, self.globals, self.objects = self.word(14), self.word(12), self.word(10)
        self.dictionary, self.files, self.known = self.word(8), {}, {}
        self.pieces, self.counts, self.rows, self.read_lines = [], [], [], []
        self.printed, self.count, self.chance = [], 0, random.Random(1)
        self.start()

    def start(self):
        self.memory[: self.static] = self.story[: self.static]
        self.memory[1] |= 12
        self.memory[32:34] = bytes((255, self.width))
        self.memory[34:40] = bytes((0, self.width, 0, 255, 1, 1))
        self.frames, self.at = [Frame(0, None, [], 0)], self.word(6)
        self.undo, self.streams, self.window, self.cursor = [], [], 0, [1, 1]
        self.screen, self.ended, self.store = {}, False, None

    # memory and variables

    def word(self, at):
        return self.memory[at] << 8 | self.memory[at + 1]

    def put(self, at, value):
        self.memory[at], self.memory[at + 1] = value >> 8 & 255, value & 255

    def get(self, number):
        if number == 0:
            return self.frames[-1].stack.pop()
        if number < 16:
            return self.frames[-1].local[number - 1]
        return self.word(self.globals + 2 * (number - 16))

    def set(self, number, value):
        if number == 0:
            self.frames[-1].stack.append(value & 0xFFFF)
        elif number < 16:
            self.frames[-1].local[number - 1] = value & 0xFFFF
        else:
            self.put(self.globals + 2 * (number - 16), value)

    def change(self, number, value):
        """Adds to a variable in place, and answers its new value."""
        value = signed((self.get(number) + value) & 0xFFFF)
        self.set(number, value)
        return value

    # text

    def text(self, at):
        """The characters of an encoded text, and where it ends."""
        codes, value = [], 0
        while not value & 0x8000:
            value = self.word(at)
            codes += (value >> 10 & 31, value >> 5 & 31, value & 31)
            at += 2
        return self.decoded(codes), at

    def decoded(self, codes):
        made, alphabet, codes = "", 0, iter(codes)
        for code in codes:
            if 1 <= code <= 3:
                short = self.word(24) + 2 * (32 * (code - 1) + next(codes, 0))
                made += self.text(2 * self.word(short))[0]
            elif code in (4, 5):
                alphabet = code - 3
                continue
            elif code == 6 and alphabet == 2:
                high, low = next(codes, None), next(codes, None)
                made += letter(high << 5 | low) if low is not None else ""
            else:
                made += " " if code == 0 else ALPHABETS[alphabet][code - 6]
            alphabet = 0
        return made

    def encoded(self, word):
        """The six bytes of a word of a dictionary."""
        codes = []
        for char in word:
            alphabet = next((i for i in (0, 2) if char in ALPHABETS[i][2 * (i == 2) :]), None)
            if alphabet is None:
                codes += (5, 6, code_of(char) >> 5, code_of(char) & 31)
            else:
                codes += [5] * (alphabet == 2) + [ALPHABETS[alphabet].index(char) + 6]
        codes = (codes + [5] * 9)[:9]
        words = [codes[i] << 10 | codes[i + 1] << 5 | codes[i + 2] | 0x8000 * (i == 6) for i in (0, 3, 6)]
        return b"".join(value.to_bytes(2, "big") for value in words)

    def print(self, text):
        if self.streams:
            self.streams[-1][1].extend(code_of(char) for char in text)
        elif self.window == 0:
            self.printed.append(text)
        else:
            for char in text:
                if self.cursor[1] <= self.width:
                    self.screen[tuple(self.cursor)] = char
                self.cursor[1] += 1

    def row(self, number):
        """A row of the upper window."""
        return "".join(self.screen.get((number, column), " ") for column in range(1, self.width + 1)).rstrip()

    # what is typed

    def line(self):
        """The next line that is typed; without one the game ends."""
        self.pieces.append("".join(self.printed))
        self.counts.append(self.count)
        self.rows.append(self.row(1))
        self.printed, self.count, line = [], 0, next(self.lines, None)
        self.ended = line is None
        if line is not None:
            self.read_lines.append(line)
        return line or ""

    def file(self):
        """The name of a file, which is typed, too. There are no folders: a name with a stroke in it is that of no file."""
        name = next(self.lines, "")
        self.printed.append(f"(file: {name})\n")
        return name

    def words(self, table):
        """The places of a dictionary's entries by their bytes, and its separators."""
        if table not in self.known or table < self.static:
            count = self.memory[table]
            at, length = table + count + 4, self.memory[table + count + 1]
            found = {}
            for _ in range(abs(signed(self.word(table + count + 2)))):
                found[bytes(self.memory[at : at + 6])] = at
                at += length
            self.known[table] = (found, bytes(self.memory[table + 1 : table + 1 + count]))
        return self.known[table]

    def tokenise(self, text, parse, table=0, keep=0):
        found, separators = self.words(table or self.dictionary)
        typed = self.memory[text + 2 : text + 2 + self.memory[text + 1]]
        tokens, begin = [], None
        for place, code in enumerate(bytes(typed) + b" "):
            if begin is not None and (code == 32 or code in separators):
                tokens.append((begin, place))
                begin = None
            if code in separators:
                tokens.append((place, place + 1))
            elif code != 32 and begin is None:
                begin = place
        tokens = tokens[: self.memory[parse]]
        self.memory[parse + 1] = len(tokens)
        for number, (begin, end) in enumerate(tokens):
            at = found.get(self.encoded("".join(letter(code) for code in typed[begin:end])), 0)
            if at or not keep:
                self.put(parse + 2 + 4 * number, at)
            self.memory[parse + 4 + 4 * number] = end - begin
            self.memory[parse + 5 + 4 * number] = begin + 2

    # objects: attributes, relatives and properties

    def object(self, number):
        return self.objects + 126 + 14 * (number - 1)

    def relative(self, number, which):
        """0 the parent, 1 the next sibling, 2 the first child."""
        return self.word(self.object(number) + 6 + 2 * which) if number else 0

    def remove(self, number):
        above = self.relative(number, 0)
        if above:
            after = self.relative(number, 1)
            if self.relative(above, 2) == number:
                self.put(self.object(above) + 10, after)
            else:
                before = self.relative(above, 2)
                while self.relative(before, 1) != number:
                    before = self.relative(before, 1)
                self.put(self.object(before) + 8, after)
        self.put(self.object(number) + 6, 0)
        self.put(self.object(number) + 8, 0)

    def properties(self, number):
        """The number, place and length of each property of an object."""
        at = self.word(self.object(number) + 12)
        at += 1 + 2 * self.memory[at]
        while self.memory[at]:
            size = self.memory[at]
            if size & 0x80:
                at += 1
            length = (self.memory[at] & 63 or 64) if size & 0x80 else 1 + (size >> 6)
            yield size & 63, at + 1, length
            at += 1 + length

    def property(self, number, which):
        """The place and length of a property of an object, or 0 and 0."""
        if number:
            for name, at, length in self.properties(number):
                if name == which:
                    return at, length
                if name < which:
                    break
        return 0, 0

    # routines

    def call(self, routine, given, store):
        if routine == 0:
            if store is not None:
                self.set(store, 0)
            return
        at = routine * self.scale
        local = [0] * self.memory[at]
        for number, value in enumerate(given[: len(local)]):
            local[number] = value
        self.frames.append(Frame(self.at, store, local, len(given)))
        self.at = at + 1

    def answer(self, value):
        frame = self.frames.pop()
        self.at = frame.back
        if frame.store is not None:
            self.set(frame.store, value)

    def kept(self):
        """All that a saved game keeps; `back` brings it again."""
        return bytes(self.memory[: self.static]), [frame.copy() for frame in self.frames], self.at, self.store

    def back(self, kept):
        flags = self.memory[17]
        self.memory[: self.static] = kept[0]
        self.memory[17] = flags
        self.frames, self.at = [frame.copy() for frame in kept[1]], kept[2]
        self.set(kept[3], 2)

    # instructions

    def decode(self, at):
        """The opcode's routine, its operands (whether it is a variable, and the number), where its answer is stored, its branch, and
        where the next instruction stands."""
        first, code, at = at, self.memory[at], at + 1
        if code == 0xBE or code >= 0xC0:
            form, number = ("VAR" if code & 32 else "2OP", code & 31) if code >= 0xC0 else ("EXT", self.memory[at])
            at += code == 0xBE
            wide = form == "VAR" and number in (12, 26)
            kinds = [self.memory[at + i] >> shift & 3 for i in range(1 + wide) for shift in (6, 4, 2, 0)]
            at += 1 + wide
        elif code >= 0x80:
            form, number, kinds = "0OP" if code >= 0xB0 else "1OP", code & 15, [code >> 4 & 3]
        else:
            form, number, kinds = "2OP", code & 31, [2 if code & 64 else 1, 2 if code & 32 else 1]
        if (form, number) not in OPCODES:
            raise Fault(f"opcode {form} {number} at {first}")
        act, has_store, has_branch, has_text = OPCODES[form, number]
        operands, store, branch = [], None, None
        for kind in kinds:
            if kind == 3:
                break
            operands.append((kind == 2, self.word(at) if kind == 0 else self.memory[at]))
            at += 2 - (kind > 0)
        if has_store:
            store, at = self.memory[at], at + 1
        if has_branch:
            code, at = self.memory[at], at + 1
            offset = code & 63
            if not code & 64:
                offset, at = offset << 8 | self.memory[at], at + 1
                offset -= 0x4000 if offset & 0x2000 else 0
            branch = (code >= 128, offset, at + offset - 2)
        if has_text:
            text, at = self.text(at)
            operands = [(False, text)]
        return act, operands, store, branch, at

    def run(self, most=100_000_000):
        """Carries out instructions until the game ends, or `most` of them between two lines."""
        cache = {}
        while not self.ended:
            found = cache.get(self.at)
            if found is None:
                found = cache[self.at] = self.decode(self.at)
            act, operands, store, branch, self.at = found
            self.count, self.store = self.count + 1, store
            if self.count > most:
                raise Fault("it goes on and on")
            result = act(self, *[self.get(value) if is_variable else value for is_variable, value in operands])
            if result is None:
                continue
            if store is not None:
                self.set(store, result)
            if branch is not None and bool(result) == branch[0]:
                if branch[1] < 2 and branch[1] >= 0:
                    self.answer(branch[1])
                else:
                    self.at = branch[2]
        self.pieces.append("".join(self.printed))
        return self
