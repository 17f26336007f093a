"""The tables of a story by plain lists, and what a row of tables of `inf_row_tests` is answered by them."""

NOUNS = "noun held multi multiheld multiexcept multiinside creature special number topic".split()
KINDS = {"bytes": (1, 0), "words": (2, 0), "string": (1, 1), "table": (2, 2)}


class Area:
    """Bytes and fixups that are written behind others; an item is a byte or the name of a target."""

    def __init__(self, name, items):
        self.name, self.items = name, items

    def told(self, fixups, room, before):
        """What is told of a write with at most so many fixups and bytes."""
        here = [b for i in self.items for b in ([i] if isinstance(i, int) else [0, 0])]
        later, at = [], before
        for item in self.items:
            if not isinstance(item, int):
                later.append(f" {self.name}:{at}:{item}")
            at += 1 if isinstance(item, int) else 2
        word = "Full" if len(later) > fixups else "Memory" if len(here) > room else "ok"
        good = word == "ok"
        return word + " " + bytes([255] * before + (here if good else [])).hex() + ("".join(later) if good else "")


def limit(word):
    """A limit; `-` is none."""
    return float("inf") if word == "-" else int(word)


def target(word):
    """A value as items: two bytes, or one target."""
    if word[0] == "n":
        return [f"Name({word[1:]})"]
    if word[0] == "w":
        return [f"Word({list(bytes.fromhex(word[1:]))})"]
    return list(divmod(int(word), 256))


def option(value):
    """An answer that may be none."""
    return "None" if value is None else f"Some({value})"


class Dictionary:
    """Words: all uses, in the order in which they came."""

    def __init__(self, words):
        self.limit, self.uses = limit(words), []

    def texts(self):
        """All texts in rising order."""
        return sorted({text for text, _, _ in self.uses})

    def verb(self, text):
        """The verb of a word."""
        found = [kind[4:] for t, kind, _ in self.uses if t == text and kind[:4] in ("verb", "meta")]
        return int(found[-1]) if found else None

    def do(self, name, *words):
        if name == "use":
            text, kind, plural = words[0], words[1], len(words) > 2
            old = self.verb(text)
            if kind[:4] in ("verb", "meta") and old is not None and old != int(kind[4:]):
                return "OtherVerb"
            if text not in self.texts() and len(self.texts()) >= self.limit:
                return "Full"
            self.uses.append((text, kind, plural))
            return "ok"
        if name == "verb":
            return option(self.verb(words[0]))
        if name == "misfit":
            wrong = [n for n, text in enumerate(words) if self.verb(text) is not None or text in words[:n]]
            return option(wrong[0] if wrong else None)
        if name == "rank":
            return " ".join(str(sum(text < word for text in self.texts())) for word in words)
        if name == "len":
            return str(len(self.texts()))
        return Area("Dictionary", self.items()).told(limit(words[0]), limit(words[1]), int(words[2]))

    def items(self):
        """The bytes of all."""
        out = [3, ord("."), ord(","), ord('"'), 9, *divmod(len(self.texts()), 256)]
        for text in self.texts():
            flags = 0
            for t, kind, plural in self.uses:
                if t == text:
                    flags |= {"verb": 1, "meta": 3, "prep": 8}.get(kind[:4], 128) | (4 if plural else 0)
            verb = self.verb(text)
            out += [*bytes.fromhex(text), flags, 0 if verb is None else 255 - verb, 0]
        return out


class Arrays:
    """Arrays: kinds with their values."""

    def __init__(self, size):
        self.limit, self.all = limit(size), []

    def size(self):
        return sum(KINDS[kind][1] + KINDS[kind][0] * len(values) for kind, values in self.all)

    def items(self):
        out = []
        for kind, values in self.all:
            width, count = KINDS[kind]
            out += {0: [], 1: [len(values)], 2: list(divmod(len(values), 256))}[count]
            for value in values:
                out += target(value) if width == 2 else [int(value)]
        return out

    def extended(self, values):
        kind, old = self.all[-1]
        if kind == "string" and len(old) + len(values) > 255:
            return "TooMany"
        if KINDS[kind][0] == 1 and not all(v.isdigit() and int(v) < 256 for v in values):
            return "NotAByte"
        if self.size() + KINDS[kind][0] * len(values) > self.limit:
            return "Full"
        old += values
        return "ok"

    def do(self, name, *words):
        if name == "open":
            place = self.size()
            if place + KINDS[words[0]][1] > self.limit:
                return "Full"
            self.all.append((words[0], []))
            return str(place)
        if name == "size":
            return str(self.size())
        if name == "later":
            return str(sum(not isinstance(i, int) for i in self.items()))
        if name == "write":
            return Area("Arrays", self.items()).told(limit(words[0]), limit(words[1]), int(words[2]))
        if not self.all:
            return "no array"
        if name == "zeros" and words[0] == "0":
            return "NoEntries"
        return self.extended({"entry": lambda w: [w], "zeros": lambda w: ["0"] * int(w),
                              "text": lambda w: [str(b) for b in bytes.fromhex(w)]}[name](words[0]))


class Globals:
    """First values of global variables."""

    def __init__(self):
        self.values = []

    def do(self, name, *words):
        if name == "add":
            if len(self.values) == 235:
                return "TooMany"
            self.values.append(words[0])
            return str(15 + len(self.values))
        items = [i for v in self.values for i in target(v)]
        if name == "len":
            return str(len(self.values))
        if name == "later":
            return str(sum(not isinstance(i, int) for i in items))
        items += [0, 0] * (240 - len(self.values))
        return Area("Globals", items).told(limit(words[0]), limit(words[1]), int(words[2]))


class Verbs:
    """Verbs: for each its lines, and how many of them the last `Extend first` put in front."""

    def __init__(self, verbs, space):
        self.limit, self.space, self.all = limit(verbs), limit(space), []

    def items(self):
        out = [f"Part(Grammar, {n})" for n in range(len(self.all))]
        for lines, _ in self.all:
            out += [len(lines) % 256] + [i for line in lines for i in line]
        return out

    def size(self):
        return sum(1 if isinstance(i, int) else 2 for i in self.items())

    def do(self, name, *words):
        if name == "add":
            word = "TooMany" if len(self.all) >= 255 else "Full" if len(self.all) >= self.limit else ""
            word = word or ("NoSpace" if self.size() + 3 > self.space else "")
            if not word:
                self.all.append([[], 0])
            return word or str(len(self.all) - 1)
        if name in ("extend", "line") and int(words[0]) >= len(self.all):
            return "no verb"
        if name == "extend":
            verb = self.all[int(words[0])]
            if words[1] == "replace":
                verb[0] = []
            if words[1] != "last":
                verb[1] = 0
            return "ok"
        if name == "line":
            return self.line(self.all[int(words[0])], *words[1:])
        if name == "len":
            return str(len(self.all))
        if name == "size":
            return str(self.size())
        if name == "later":
            return str(sum(not isinstance(i, int) for i in self.items()))
        if name == "places":
            return str([2 * len(self.all) + sum(self.part(v) for v in self.all[:n]) for n in range(len(self.all))])
        return Area("Grammar", self.items()).told(limit(words[0]), limit(words[1]), int(words[2]))

    @staticmethod
    def part(verb):
        return 1 + sum(1 if isinstance(i, int) else 2 for line in verb[0] for i in line)

    def line(self, verb, place, action, *tokens):
        made = list(divmod((int(action) + (1024 if "reverse" in tokens else 0)) % 65536, 256))
        for token in tokens:
            if token in NOUNS:
                made += [1, 0, NOUNS.index(token)]
            elif token[0] in "fasr" and len(token) < 12 and token != "reverse":
                made += [{"f": 3, "a": 4, "s": 5, "r": 6}[token[0]], *divmod(int(token[1:]), 256)]
            elif token != "reverse":
                texts = token.split("/")
                for n, text in enumerate(texts):
                    made += [2 + (0x20 if n + 1 < len(texts) else 0) + (0x10 if n else 0), *target("w" + text)]
        made.append(15)
        if self.size() + sum(1 if isinstance(i, int) else 2 for i in made) > self.space:
            return "NoSpace"
        if place == "first":
            verb[0].insert(verb[1], made)
            verb[1] += 1
        else:
            verb[0].append(made)
        return "ok"


class Actions:
    """Actions by the names of their routines, in order of first appearance."""

    def __init__(self, actions):
        self.limit, self.names, self.fakes = limit(actions), [], 0

    def do(self, name, *words):
        if name == "add":
            if words[0] not in self.names:
                if len(self.names) >= self.limit:
                    return "Full"
                self.names.append(words[0])
            return str(self.names.index(words[0]) % 65536)
        if name == "fake":
            self.fakes += 1
            return str((4095 + self.fakes) % 65536)
        if name == "of":
            return option(self.names.index(words[0]) if words[0] in self.names else None)
        if name == "len":
            return str(len(self.names))
        items = [f"Name({n})" for n in self.names]
        return Area(self.area(), items).told(limit(words[0]), limit(words[1]), int(words[2]))

    def area(self):
        return "Actions"


class Parsing(Actions):
    """Routines that lines name."""

    def __init__(self):
        super().__init__("-")

    def area(self):
        return "ParsingRoutines"


class Body:
    """An object or class, as its source tells it."""

    def __init__(self, kind, number, parent, arrows, name):
        self.kind, self.number, self.parent, self.arrows, self.name = kind, number, parent, arrows, bytes.fromhex(name.strip("-"))
        self.own, self.said, self.classes, self.above, self.takes = {}, [], [], [], False

    def copy(self):
        """The same, to be tried."""
        made = Body(self.kind, self.number, self.parent, self.arrows, self.name.hex())
        made.own = {n: list(values) for n, values in self.own.items()}
        made.said, made.classes, made.above, made.takes = self.said[:], self.classes[:], self.above[:], self.takes
        return made


class World:
    """Declarations, then objects and classes with what stands in their bodies."""

    NAMES = ("11119b18", "12873d48e4a5", "12f46b2ecd45", "13195dd3b0a5")
    AREAS = {"defaults": "PropertyDefaults", "objects": "Objects", "tables": "PropertyTables", "classes": "ClassNumbers",
             "individuals": "IndividualTables"}

    def __init__(self, objects, size):
        self.most, self.space = limit(objects), limit(size)
        self.attributes, self.declared, self.individuals, self.body = 0, [], 0, None
        self.objects = [Body("object", n + 1, 0, None, name) for n, name in enumerate(self.NAMES)]

    # What objects have

    def is_additive(self, number):
        return number == 1 or 4 <= number < 64 and self.declared[number - 4][0]

    def lists(self, body):
        """Its properties: its own, then what it lacks from its classes."""
        found = dict(body.own)
        for number in body.above:
            for n, values in self.lists(self.objects[number - 1]).items():
                found[n] = values if n not in found else found[n] + values if self.is_additive(n) else found[n]
        return found

    def flags(self, body):
        """Its attributes."""
        found = set()
        for number in body.above:
            found |= self.flags(self.objects[number - 1])
        for number, given in body.said:
            found = found | {number} if given else found - {number}
        return found

    def table(self, body):
        """Its property table, as items."""
        out = [len(body.name) // 2 % 256, *body.name]
        found = {n: values for n, values in self.lists(body).items() if n < 64} if body.kind == "object" else {}
        if body.kind == "object" and body.classes:
            found[2] = [str(n % 65536) for n in body.classes]
        if self.individual(body):
            found[3] = [f"part{body.number - 1}"]
        for number in sorted(found, reverse=True):
            values = [i for v in found[number] or ["0"] for i in self.items_of(v)]
            count = 2 * max(1, len(found[number]))
            out += [64 + number] + values if count == 2 else [128 + number, 128 + count % 64] + values
        return out + [0]

    def individual(self, body):
        """Its individual table, as items."""
        found = [(n, values) for n, values in self.lists(body).items() if n >= 64] if body.kind == "object" else []
        out = [i for n, values in found for i in
               [*divmod(n, 256), 2 * max(1, len(values))] + [j for v in values or ["0"] for j in self.items_of(v)]]
        return out + [0, 0] if found else []

    @staticmethod
    def items_of(word):
        return [f"Part(IndividualTables, {word[4:]})"] if word[:4] == "part" else target(word)

    def children(self, number):
        """The numbers of the children of an object, in order."""
        return [o.number for o in self.objects if o.parent == number]

    def entry(self, body):
        """Its entry among the objects."""
        flags = self.flags(body) if body.kind == "object" else set()
        below = self.children(body.parent) if body.parent else []
        sibling = [n for n in below if n > body.number][:1] or [0]
        child = self.children(body.number)[:1] or [0]
        out = [sum(128 >> n % 8 for n in flags if n // 8 == byte) for byte in range(6)]
        for number in (body.parent, sibling[0], child[0]):
            out += divmod(number, 256)
        return out + [f"Part(PropertyTables, {body.number - 1})"]

    # Counts: the bytes and references of one, and of all

    def size(self, body):
        """What it counts under MAX_PROP_TABLE_SIZE."""
        if body.kind == "lost":
            return 0
        held = sum(2 * len(values) for values in self.lists(body).values()) if body.kind == "class" else 0
        return width(self.table(body)) + width(self.individual(body)) + held

    def all(self):
        return self.objects + ([self.body] if self.body else [])

    def full(self, body):
        """Whether there is no room for a body as it would be."""
        return self.size(body) + sum(self.size(o) for o in self.objects) > self.space

    # Areas

    def items(self, area):
        if area == "defaults":
            words = ["0"] * 3 + [value for _, value in self.declared]
            return [i for v in words + ["0"] * (63 - len(words)) for i in target(v)]
        if area == "classes":
            return [i for n in [o.number for o in self.objects if o.kind == "class"] + [0] for i in divmod(n, 256)]
        make = {"objects": self.entry, "tables": self.table, "individuals": self.individual}[area]
        return [i for o in self.objects for i in make(o)]

    # Commands

    def do(self, name, *words):
        answer = self.asked(name, *words)
        if answer is not None:
            return str(answer)
        if name == "write":
            items = self.items(words[3])
            return Area(self.AREAS[words[3]], items).told(limit(words[0]), limit(words[1]), int(words[2]))
        if name in ("class", "object", "lost"):
            return "Misfit(BodyIsOpen)" if self.body else self.header(name, *words)
        if name == "lose":
            if self.body:
                self.body.takes = False
            return "ok"
        return self.entered(name, *words) if self.body else "Misfit(NoBody)"

    def asked(self, name, *words):
        """A question, or a declaration."""
        if name == "given":
            return str(bool(self.body) and int(words[0]) in self.body.own).lower()
        if name == "count":
            return len([o for o in self.all() if o.kind != "lost"])
        if name == "size":
            return sum(self.size(o) for o in self.all())
        if name == "later":
            own = sum(1 + later(self.table(o)) + later(self.individual(o)) for o in self.all() if o.kind != "lost")
            return own + later(self.items("defaults"))
        if name == "laters":
            return later(self.items(words[0]))
        if name == "places":
            return [sum(width(self.table(o)) for o in self.objects[:n]) for n in range(len(self.objects))]
        if name == "individuals":
            return [sum(width(self.individual(o)) for o in self.objects[:n]) for n in range(len(self.objects))]
        return self.declare(name, *words)

    def declare(self, name, *words):
        if name == "attribute":
            if self.attributes == 48:
                return "Limit(Attributes)"
            self.attributes += 1
            return self.attributes - 1
        if name == "property":
            if len(self.declared) == 60:
                return "Limit(Properties)"
            self.declared.append((words[0] == "additive", words[1]))
            return 3 + len(self.declared)
        if name == "individual":
            self.individuals += 1
            return 63 + self.individuals
        return None

    def header(self, name, *words):
        if name == "lost":
            self.body = Body("lost", 0, 0, None, "-")
            return "ok"
        number, parent, arrows = len(self.objects) + 1, 1, None
        if name == "object":
            told = int(words[0][1:])
            arrows = told if words[0][0] == "a" else 0
            parent = self.above(told) if words[0][0] == "a" else self.parent(told)
            if isinstance(parent, str):
                return parent
        body = Body(name, number, parent, arrows, words[-1])
        if number > self.most:
            return "Full(Objects)"
        if self.full(body):
            return "Full(PropertyTables)"
        self.body = body
        return str(number)

    def above(self, arrows):
        """The latest object with one arrow less."""
        found = [o.number for o in self.objects[4:] if o.kind == "object" and o.arrows == arrows - 1]
        return 0 if arrows == 0 else found[-1] if found else "Misfit(NothingAbove)"

    def parent(self, number):
        fits = number <= len(self.objects) and (number == 0 or self.objects[number - 1].kind == "object")
        return number if fits else "Misfit(NotAnObject)"

    def is_property(self, number):
        return number in (0, 1) or 4 <= number < 4 + len(self.declared) or 64 <= number < 64 + self.individuals

    def entered(self, name, *words):
        """An entry of the open body, or its end."""
        made = self.body.copy()
        if name in ("has", "hasnt"):
            if int(words[0]) > 47:
                return "Misfit(NotAnAttribute)"
            made.said.append((int(words[0]), name == "has"))
        elif name == "end":
            self.objects += [made] if made.kind != "lost" else []
            made = None
        elif name == "give":
            if not self.is_property(int(words[0])):
                return "Misfit(NotAProperty)"
            if int(words[0]) in made.own:
                return "Misfit(GivenAlready)"
            made.own[int(words[0])], made.takes = list(words[1:2]), made.kind != "lost"
        elif name == "value":
            if made.takes:
                made.own[list(made.own)[-1]].append(words[0])
        elif int(words[0]):
            fault = self.joined(made, int(words[0]))
            if fault:
                return fault
        return self.bounded(made)

    def joined(self, made, number):
        """A class more."""
        if number > len(self.objects) or self.objects[number - 1].kind != "class":
            return "Misfit(NotAClass)"
        if made.kind != "lost" and number not in made.classes:
            more = [n for n in self.objects[number - 1].classes if n not in made.classes and n != number]
            made.classes += [number] + more
            made.above.append(number)
        return None

    def bounded(self, made):
        """The open body as it would be, unless that is too much."""
        if made and made.kind != "lost":
            if any(len(values) > 32 for values in [made.classes, *self.lists(made).values()]):
                return "Limit(Values)"
            if self.full(made):
                return "Full(PropertyTables)"
        self.body = made
        return "ok"


def width(items):
    """The bytes of items."""
    return sum(1 if isinstance(i, int) else 2 for i in items)


def later(items):
    """How many items are known later."""
    return sum(not isinstance(i, int) for i in items)


TABLES = {"dictionary": Dictionary, "arrays": Arrays, "globals": Globals, "verbs": Verbs, "actions": Actions,
          "parsing": Parsing, "world": World}


def answered(line):
    """What a line is to be answered."""
    head, *commands = line.split(" | ")
    name, *arguments = head.split(" ")
    if name not in TABLES:
        return line
    table, told = TABLES[name](*arguments), [name]
    for command in commands:
        words = command.split(" ")
        count = int(words.pop(0)) if words[0].isdigit() else 1
        for _ in range(count):
            last = table.do(*words)
        told.append(last)
    return " | ".join(told)
