"""The opcodes of the Z-machine of versions 5 and 8: a routine for each, which gets the machine and the operands, and answers what is
stored or decides a branch. None is the answer of one that does neither, or has set where to go on."""

from machine import OPCODES, code_of, letter, signed


def opcode(form, number, marks="", act=None):
    """Enters a routine in the table: S for one that stores, B for one that branches, T for one with a text behind it."""
    if act is None:
        return lambda routine: opcode(form, number, marks, routine)
    OPCODES[form, number] = (act, "S" in marks, "B" in marks, "T" in marks)
    return act


def done(_):
    """Made of what a lambda did: nothing is stored."""


def quotient(a, b):
    """A quotient without its fraction."""
    return abs(a) // abs(b) * (1 if (a < 0) == (b < 0) else -1)


def shifted(a, by, is_signed):
    a, by = signed(a) if is_signed else a, signed(by)
    return a << by if by >= 0 else a >> -by


# comparing

opcode("2OP", 1, "B", lambda m, a, *others: a in others)
opcode("2OP", 2, "B", lambda m, a, b: signed(a) < signed(b))
opcode("2OP", 3, "B", lambda m, a, b: signed(a) > signed(b))
opcode("2OP", 4, "B", lambda m, a, b: m.change(a, -1) < signed(b))
opcode("2OP", 5, "B", lambda m, a, b: m.change(a, 1) > signed(b))
opcode("2OP", 6, "B", lambda m, a, b: m.relative(a, 0) == b)
opcode("2OP", 7, "B", lambda m, a, b: a & b == b)
opcode("1OP", 0, "B", lambda m, a: a == 0)
opcode("VAR", 31, "B", lambda m, a: a <= m.frames[-1].given)
opcode("0OP", 13, "B", lambda m: sum(m.story[64 : m.scale * m.word(26)]) & 0xFFFF == m.word(28))
opcode("0OP", 15, "B", lambda m: True)

# reckoning

opcode("2OP", 8, "S", lambda m, a, b: a | b)
opcode("2OP", 9, "S", lambda m, a, b: a & b)
opcode("2OP", 20, "S", lambda m, a, b: a + b)
opcode("2OP", 21, "S", lambda m, a, b: a - b)
opcode("2OP", 22, "S", lambda m, a, b: a * b)
opcode("2OP", 23, "S", lambda m, a, b: quotient(signed(a), signed(b)))
opcode("2OP", 24, "S", lambda m, a, b: signed(a) - signed(b) * quotient(signed(a), signed(b)))
opcode("VAR", 24, "S", lambda m, a: ~a)
opcode("EXT", 2, "S", lambda m, a, by: shifted(a, by, False))
opcode("EXT", 3, "S", lambda m, a, by: shifted(a, by, True))


@opcode("VAR", 7, "S")
def random_number(m, most):
    if signed(most) > 0:
        return m.chance.randint(1, most)
    m.chance.seed(most)
    return 0


# variables and memory

opcode("2OP", 15, "S", lambda m, a, b: m.word(a + 2 * b & 0xFFFF))
opcode("2OP", 16, "S", lambda m, a, b: m.memory[a + b & 0xFFFF])
opcode("VAR", 1, "", lambda m, a, b, value: m.put(a + 2 * b & 0xFFFF, value))
opcode("VAR", 8, "", lambda m, value: m.set(0, value))
opcode("0OP", 4, "", lambda m: None)


@opcode("1OP", 14, "S")
def load(m, number):
    value = m.get(number)
    if number == 0:
        m.set(0, value)
    return value


@opcode("2OP", 13)
def store(m, number, value):
    if number == 0:
        m.get(0)
    m.set(number, value)


@opcode("VAR", 9)
def pull(m, number):
    store(m, number, m.get(0))


@opcode("VAR", 2)
def storeb(m, a, b, value):
    m.memory[a + b & 0xFFFF] = value & 255


opcode("1OP", 5, "", lambda m, number: done(m.change(number, 1)))
opcode("1OP", 6, "", lambda m, number: done(m.change(number, -1)))


@opcode("VAR", 23, "SB")
def scan_table(m, value, table, count, form=0x82):
    for at in range(table, table + count * (form & 127), form & 127):
        if (m.word(at) if form & 128 else m.memory[at]) == value:
            return at
    return 0


@opcode("VAR", 29)
def copy_table(m, first, second, size):
    size = signed(size)
    if second == 0:
        m.memory[first : first + abs(size)] = bytes(abs(size))
    elif size >= 0:
        m.memory[second : second + size] = m.memory[first : first + size]
    else:
        for i in range(-size):
            m.memory[second + i] = m.memory[first + i]


# objects

opcode("1OP", 1, "SB", lambda m, a: m.relative(a, 1))
opcode("1OP", 2, "SB", lambda m, a: m.relative(a, 2))
opcode("1OP", 3, "S", lambda m, a: m.relative(a, 0))
opcode("2OP", 10, "B", lambda m, a, bit: a and m.memory[m.object(a) + bit // 8] & 128 >> bit % 8)
opcode("2OP", 18, "S", lambda m, a, which: m.property(a, which)[0])
opcode("VAR", 3, "", lambda m, a, which, value: put_property(m, m.property(a, which), value))
opcode("1OP", 9, "", lambda m, a: m.remove(a))


@opcode("2OP", 11)
def set_attribute(m, a, bit):
    m.memory[m.object(a) + bit // 8] |= 128 >> bit % 8


@opcode("2OP", 12)
def clear_attribute(m, a, bit):
    m.memory[m.object(a) + bit // 8] &= ~(128 >> bit % 8)


@opcode("2OP", 14)
def insert_object(m, a, above):
    m.remove(a)
    m.put(m.object(a) + 6, above)
    m.put(m.object(a) + 8, m.relative(above, 2))
    m.put(m.object(above) + 10, a)


@opcode("2OP", 17, "S")
def get_property(m, a, which):
    at, length = m.property(a, which)
    if at == 0:
        return m.word(m.objects + 2 * (which - 1))
    return m.memory[at] if length == 1 else m.word(at)


def put_property(m, found, value):
    at, length = found
    if length == 1:
        m.memory[at] = value & 255
    else:
        m.put(at, value)


@opcode("2OP", 19, "S")
def next_property(m, a, which):
    names = [name for name, _, _ in m.properties(a)] + [0]
    return names[0 if which == 0 else names.index(which) + 1]


@opcode("1OP", 4, "S")
def property_length(m, at):
    if at == 0:
        return 0
    size = m.memory[at - 1]
    return (size & 63 or 64) if size & 0x80 else 1 + (size >> 6)


# routines

for form, number in (("2OP", 25), ("1OP", 8), ("VAR", 0), ("VAR", 12)):
    opcode(form, number, "S", lambda m, routine, *given: m.call(routine, given, m.store))
for form, number in (("2OP", 26), ("1OP", 15), ("VAR", 25), ("VAR", 26)):
    opcode(form, number, "", lambda m, routine, *given: m.call(routine, given, None))
opcode("1OP", 11, "", lambda m, value: m.answer(value))
opcode("0OP", 0, "", lambda m: m.answer(1))
opcode("0OP", 1, "", lambda m: m.answer(0))
opcode("0OP", 8, "", lambda m: m.answer(m.get(0)))
opcode("0OP", 9, "S", lambda m: len(m.frames))


@opcode("2OP", 28)
def throw(m, value, depth):
    del m.frames[depth:]
    m.answer(value)


@opcode("1OP", 12)
def jump(m, offset):
    m.at += signed(offset) - 2


@opcode("0OP", 10)
def quit_game(m):
    m.ended = True


# printing

opcode("0OP", 2, "T", lambda m, text: m.print(text))
opcode("0OP", 11, "", lambda m: m.print("\n"))
opcode("1OP", 7, "", lambda m, at: m.print(m.text(at)[0]))
opcode("1OP", 10, "", lambda m, a: m.print(m.text(m.word(m.object(a) + 12) + 1)[0]))
opcode("1OP", 13, "", lambda m, at: m.print(m.text(at * m.scale)[0]))
opcode("VAR", 5, "", lambda m, code: m.print(letter(code) if code else ""))
opcode("VAR", 6, "", lambda m, value: m.print(str(signed(value))))
opcode("EXT", 11, "", lambda m, code: m.print(chr(code)))
opcode("EXT", 12, "S", lambda m, code: 3)


@opcode("0OP", 3, "T")
def print_return(m, text):
    m.print(text + "\n")
    m.answer(1)


@opcode("VAR", 19)
def output_stream(m, number, table=0):
    number = signed(number)
    if number == 3:
        m.streams.append((table, []))
    elif number == -3 and m.streams:
        table, codes = m.streams.pop()
        m.put(table, len(codes))
        m.memory[table + 2 : table + 2 + len(codes)] = bytes(codes)
    elif number == 2 and not m.memory[17] & 1:
        m.memory[17] |= "/" not in m.file()
    elif number == -2:
        m.memory[17] &= 254


# the screen

for form, number in (("VAR", 10), ("VAR", 13), ("VAR", 14), ("VAR", 17), ("VAR", 18), ("VAR", 20), ("VAR", 21), ("2OP", 27)):
    opcode(form, number, "", lambda m, *values: None)
opcode("EXT", 4, "S", lambda m, *values: 0)


@opcode("VAR", 11)
def set_window(m, number):
    m.window, m.cursor = number, [1, 1]


@opcode("VAR", 15)
def set_cursor(m, row, column):
    m.cursor = [row, column]


# reading, saving and ending


@opcode("VAR", 4, "S")
def read_line(m, text, parse=0, *_):
    line = m.line().lower()[: m.memory[text]]
    m.memory[text + 1] = len(line)
    m.memory[text + 2 : text + 2 + len(line)] = bytes(code_of(char) for char in line)
    if parse:
        m.tokenise(text, parse)
    return 13


opcode("VAR", 22, "S", lambda m, *_: code_of((m.line() + "\n")[0]))
opcode("VAR", 27, "", lambda m, *operands: m.tokenise(*operands))


@opcode("VAR", 28)
def encode_text(m, text, length, begin, table):
    word = "".join(letter(code) for code in m.memory[text + begin : text + begin + length])
    m.memory[table : table + 6] = m.encoded(word)


@opcode("EXT", 9, "S")
def save_undo(m):
    m.undo.append(m.kept())
    return 1


@opcode("EXT", 10, "S")
def restore_undo(m):
    return m.back(m.undo.pop()) if m.undo else 0


@opcode("EXT", 0, "S")
def save(m):
    name = m.file()
    if "/" in name:
        return 0
    m.files[name] = m.kept()
    return 1


@opcode("EXT", 1, "S")
def restore(m):
    name = m.file()
    return m.back(m.files[name]) if name in m.files else 0


@opcode("0OP", 7)
def restart(m):
    flags = m.memory[17]
    m.start()
    m.memory[17] = flags
