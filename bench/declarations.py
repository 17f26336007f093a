"""Sources of declarations for `beside.py`: arrays, objects, verbs and texts."""

from choices import NOUNS, PLACES, PROPERTIES, SHADES, VERBS, constants, sum_of, wrapped

# Array entries

ADDING = """Global total;
[ Turn_of_the_first_player; ]; [ Turn_of_the_other_player; ];
[ Add a from past; while (from < past) { total = total * 3 + a->from; from++; } ];
[ AddWords a from past; while (from < past) { total = total * 3 + a-->from; from++; } ];
"""


def byte_entry(source, known):
    """An entry that fits in a byte."""
    return source.way(
        (0.42, lambda: sum_of(source, known, 0, 255)),
        (0.80, lambda: source.pick(known)[0]),
        (0.86, lambda: f"'{source.pick('abcdefghijklmnopqrstuvwxyz')}'"),
        (1, lambda: source.number(0, 255)[1]))()


def word_entry(source, known):
    """An entry that fits in a word."""
    return source.way(
        (0.42, lambda: sum_of(source, known, -500, 9000)),
        (0.70, lambda: source.pick(known)[0]),
        (0.76, lambda: f"(-{source.between(1, 99)})"),
        (1, lambda: source.number(256, 60000)[1]))()


def late_entry(source, known):
    """An entry whose value is mostly known only at the end: a word of the dictionary or a routine."""
    return source.pick(f"'{source.pick(NOUNS)}'", source.pick(known)[0], "Turn_of_the_first_player", "Turn_of_the_other_player",
                       f"'{source.pick(SHADES)}'")


# For each kind of array: how it is declared, how an entry is made, the routine that adds the entries, and how many stand in front
# of those declared. The last kind is not added up, as the addresses of words and routines differ between the compilers.
ARRAYS = {
    "->": ("->", byte_entry, "Add", 0),
    "string": ("string", byte_entry, "Add", 1),
    "-->": ("-->", word_entry, "AddWords", 0),
    "table": ("table", word_entry, "AddWords", 1),
    "late": ("-->", late_entry, None, 0),
}


def array(source, known, place):
    """Declares an array, and gives the call that adds its entries."""
    declared, entry, adder, front = ARRAYS[source.pick(*["->"] * 6, "string", "string", "-->", "table", "late")]
    count = 12 if entry is late_entry else source.between(20, 60)
    name = f"{source.pick(SHADES)}_{source.pick(NOUNS)}s_{place}"
    entries = [entry(source, known) for _ in range(count)]
    opening, between, closing = (" [", "; ", " ]") if source.chance(0.3) else ("", " ", "")
    source.put(f"Array {name} {declared}{opening}\n    {wrapped(entries, between, 110, '    ')}{closing};\n")
    return f"{adder}({name}, 0, {count + front});\n" if adder else ""


def arrays(source):
    """Arrays of all kinds."""
    known = constants(source)
    calls = []
    while source.has_room(900):
        calls.append(array(source, known, len(calls)))
    source.put(ADDING, "[ Main;\n", *calls, 'print "total ", total, "^"; ];\n')


# Objects

RULES = ["before_touching", "after_touching", "when_looked_at"]
MEASURES = [f"{word}_of_it" for word in (
    "weight", "length", "breadth", "height", "price", "colour", "strength", "hardness", "brightness", "age")]
ROOM = "Room_of_the_house"


class House:
    """Rooms, and objects in them, with what they may have."""

    def __init__(self, source):
        """Declares constants, and chooses the names of attributes."""
        self.source, self.known = source, constants(source)
        self.flags = [f"{source.pick('is', 'was', 'can_be')}_{word}" for word in SHADES + [f"{verb}ed" for verb in VERBS[:26]]]
        self.rooms = ["hall_of_the_house"]
        self.last = self.rooms[0]
        self.in_room = True     # whether the last object without an arrow is a room

    def declare(self):
        """Declares attributes, properties, classes and the first room."""
        self.source.put(
            *(f"Attribute {flag};\n" for flag in self.flags),
            *(f"Property {name};\n" for name in [*MEASURES, "description", *RULES, "additive notes_about_it"]),
            f"Class Treasure_of_the_king with weight_of_it 5, notes_about_it 1 2, has {self.flags[0]};\n",
            f"Class Furniture_of_the_house with price_of_it 7, height_of_it 3, has {self.flags[1]} {self.flags[2]};\n",
            f"Class {ROOM} with colour_of_it 2, has {self.flags[3]};\n",
            f'{ROOM} hall_of_the_house "hall";\n')

    def given(self, shade, noun):
        """The properties of an object."""
        source, pick = self.source, self.source.pick
        yield "name " + " ".join(f"'{pick(SHADES + NOUNS)}'" for _ in range(2))
        if source.chance(0.9):
            yield f'description "A {shade} {noun}, of which {pick(VERBS)}ing is {pick(SHADES)} by the {pick(NOUNS)}."'
        for name in source.some.sample(MEASURES, pick(1, 2)):
            yield f"{name} {sum_of(source, self.known, 0, 9000)}"
        if source.chance(0.15):
            yield f"notes_about_it {source.between(1, 9)} {pick(self.known)[0]}"
        if source.chance(0.3):
            yield (f"{pick(RULES)} [ actor; if (actor has {pick(self.flags)}) give actor ~{pick(self.flags)} {pick(self.flags)};"
                   f"\n            return actor.{pick(MEASURES)} + {pick(self.known)[0]}; ]")

    def attributes(self):
        """The attributes of an object, in lines."""
        flags = self.source.some.sample(self.flags, self.source.between(24, 34))
        return wrapped([("~" if self.source.chance(0.25) else "") + flag for flag in flags], " ", 99, " " * 9)

    def add(self, place):
        """Adds an object: a room, or one behind an arrow, or in a room."""
        pick = self.source.pick
        shade, noun = pick(SHADES), pick(NOUNS)
        self.last = f"{shade}_{noun}_{place}"
        head = pick("Object", "Object", "Treasure_of_the_king", "Furniture_of_the_house", ROOM)
        arrow = self.source.chance(0.4) and self.in_room
        parent = "" if arrow or head == ROOM else " " + pick(self.rooms)
        given = ",\n        ".join(self.given(shade, noun))
        self.source.put(f'{head} {"-> " if arrow else ""}{self.last} "{shade} {noun}"{parent}\n    with {given},\n'
                        f"    has {self.attributes()};\n")
        if not arrow:
            self.in_room = head == ROOM
            self.rooms += [self.last] if head == ROOM else []


def objects(source):
    """Objects, and a routine that adds up their attributes, properties and parents."""
    house = House(source)
    house.declare()
    place = 1
    while source.has_room(1300):
        house.add(place)
        place += 1
    source.put(
        PROPERTIES, f"Global total;\n[ Main o;\n for (o = hall_of_the_house : o <= {house.last} : o++) {{\n",
        *(f"  if (o has {flag}) total = total * 3 + 1;\n" for flag in house.flags),
        *(f"  total = total * 5 + o.{name};\n" for name in MEASURES),
        "  total = total + (parent(o) - o) * 7; ",
        'if (o.description) print (object) o, ": ", (string) o.description, "^";\n }\nprint "total ", total, "^"; ];\n')


# Verb lines

VERB_COUNT = 240
# It reads all the grammar, one verb behind the other: lines, and in each its flags, and for each token its kind.
READING = """Global total;
[ Main verb at n data;
    for (verb = 0 : verb < %d : verb++) {
        at = (0-->7)-->verb;
        n = at->0; at++;
        total = total * 3 + n;
        while (n > 0) {
            total = total * 5 + at->0 * 16 + at->1;
            at = at + 2;
            while (at->0 ~= 15) {
                total = total * 3 + ((at->0) & 63);
                if ((at->0) & 15 == 1 or 4) { data = (at + 1)-->0; total = total * 3 + data; }
                at = at + 3;
            }
            at++;
            n--;
        }
    }
    print "total ", total, "^";
];
""" % VERB_COUNT


class Grammar:
    """Verbs with lines, and what stands in these."""

    TOKENS = "noun held multi multiheld multiexcept multiinside creature special number topic".split()

    def __init__(self, source):
        """Chooses the names of actions, attributes and routines."""
        self.source = source
        self.actions = [f"{verb.capitalize()}_{article}_{shade}_thing" for verb in VERBS for article in ("the", "some", "any")
                        for shade in source.some.sample(SHADES, 2)]
        self.flags = [f"can_be_{verb}ed_by_hand" for verb in VERBS[:30]]
        self.filters = [f"Each_{shade}_thing_within_reach" for shade in SHADES]
        self.scopes = [f"Scope_of_{shade}_things_here" for shade in SHADES]
        self.parsers = [f"Parse_{noun}_of_the_player" for noun in NOUNS]

    def declare(self):
        """Declares the attributes and routines."""
        self.source.put(*(f"Attribute {flag};\n" for flag in self.flags), *(f"[ {action}Sub; ];\n" for action in self.actions),
                        *(f"[ {name}; ];\n" for name in self.filters + self.scopes + self.parsers))

    def preposition(self):
        """One preposition, or two of which either may be said."""
        return "/".join(f"'{word}'" for word in self.source.some.sample(PLACES, self.source.pick(1, 1, 1, 2)))

    def token(self, first):
        """A token of a line; the first one is no preposition."""
        pick = self.source.pick
        return self.source.way(
            (0 if first else 0.3, self.preposition),
            (0.5, lambda: f"noun={pick(self.filters)}"),
            (0.7, lambda: f"scope={pick(self.scopes)}"),
            (0.8, lambda: pick(self.flags)),
            (0.9, lambda: pick(self.parsers)),
            (1, lambda: pick(self.TOKENS)))()

    def line(self):
        """A line with one to three tokens."""
        tokens = " ".join(self.token(place == 0) for place in range(self.source.pick(1, 2, 2, 3)))
        return f"    * {tokens} -> {self.source.pick(self.actions)}{' reverse' if self.source.chance(0.1) else ''}"

    def lines(self, least, most):
        """Some lines, and the end of their directive."""
        return "\n".join(self.line() for _ in range(self.source.between(least, most))) + ";\n"

    def add(self, place, size):
        """Adds a verb, and extends it up to this size."""
        source, start = self.source, self.source.length
        letters = "".join(chr(ord("a") + number) for number in (place % 26, place // 26, place * 7 % 26))
        word = source.pick(VERBS)[:4] + letters
        meta = "meta " if source.chance(0.1) else ""
        second = f" '{word}x'" if place % 3 == 0 else ""
        source.put(f"Verb {meta}'{word}'{second}\n{self.lines(8, 12)}")
        while (done := source.length - start) < size * 0.92:
            where = source.pick("replace", "last", "first") if done < size * 0.5 else "replace"
            source.put(f"Extend '{word}' {where}\n{self.lines(6, 9)}")


def verbs(source):
    """Verbs whose lines are extended and replaced."""
    grammar = Grammar(source)
    grammar.declare()
    size = (source.size - source.length - 25_000) / VERB_COUNT
    for place in range(VERB_COUNT):
        grammar.add(place, size)
    source.put(READING)


# Texts

# Words that are abbreviated, the more of them the more often they come; and parts of words
ABBREVIATED = '''the of and to in is was that it with for his on as at he from her they by she which had not but have you all were
    their one so there been when him into has more'''.split()
OTHER_WORDS_OF_TEXTS = '''if no out do up my then what me who would could some about than its over after only time our new these two
    may first any such like man even most made where much own well back here must still should how old come work us life both
    between being under never day same another know while last might great year since against go came right used take'''.split()
PARTS = '''ther ight ould tion ment here ing ough people little nothing other almost enough window garden letter silver stone
    water light'''.split()


def texts(source):
    """An array of texts, with 64 abbreviations that are used in them."""
    front = [f"{word} " for word in ABBREVIATED] + PARTS
    front += [f", {word} " for word in ABBREVIATED[:64 - len(front)]]
    source.put("Abbreviate ", " ".join(f'"{text}"' for text in front), ";\nArray Lines table\n")
    words = ABBREVIATED + OTHER_WORDS_OF_TEXTS
    weights = [6] * len(ABBREVIATED) + [1] * len(OTHER_WORDS_OF_TEXTS)
    while source.has_room(120):
        text = " ".join(source.some.choices(words, weights, k=source.between(8, 30)))
        source.put(f'    "{text.capitalize()}."\n')
    source.put(";\n[ Main i; for (i = 1 : i <= Lines-->0 : i = i + 101) print (string) Lines-->i, \"^\";\n",
               "    print \"total \", Lines-->0, \"^\"; ];\n")
