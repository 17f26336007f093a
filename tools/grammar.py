"""Makes the tables of the grammar from its page, docs/grammar.txt.

    python3 tools/grammar.py            writes the tables into crates/inf_syntax and crates/inf_grammar
    python3 tools/grammar.py check      tells which of them are not what the page says

The page has classes of tokens and rules (its head explains the notation). Made of it are:

    inf_syntax/specs/Words.antt     the words of the grammar
    inf_syntax/specs/Classes.antt   the classes, as sets of atoms
    inf_syntax/specs/Table.antt     the rows, rule by rule
    inf_grammar/specs/Facts.antt    what begins and follows each rule, whether it can be empty, and how many steps lead through it
    inf_syntax/src/parts.rt         a name for each part of a row
    inf_syntax/src/words.rt, inf_grammar/src/table.rt     words and rows for the program
    inf_syntax/src/actions.rt, inf_grammar/src/starts.rt  the actions, and the rules that reading may start with

Nobody has to trust this script: that the program's tables are those of specs/, and that the facts hold of the rows, is proved.
"""

import os
import re
import sys

HERE = os.path.dirname(os.path.dirname(os.path.abspath(__file__)))
CRATES = os.path.join(HERE, "crates")

MARKS = {
    "->": "Arrow", "-->": "LongArrow", "-": "Minus", "--": "Decrement", "+": "Plus", "++": "Increment",
    "*": "Times", "/": "Divide", "%": "Remainder", "&": "BitAnd", "&&": "LogicalAnd", "|": "BitOr",
    "||": "LogicalOr", "~": "BitNot", "~~": "LogicalNot", "~=": "NotEqual", "=": "Assign", "==": "Equal",
    ">": "Greater", ">=": "GreaterOrEqual", "<": "Less", "<=": "LessOrEqual", "<<": "DoubleLess",
    ">>": "DoubleGreater", ",": "Comma", ";": "Semicolon", ":": "Colon", "(": "OpenParenthesis",
    ")": "CloseParenthesis", "[": "OpenBracket", "]": "CloseBracket", "{": "OpenBrace", "}": "CloseBrace",
    ".": "Dot", ".&": "DotAnd", ".#": "DotHash", "#": "Hash", "##": "DoubleHash",
    "?": "Question", "@": "At",
}
LITERALS = ["NUMBER", "CHAR", "WORD", "TEXT"]


# Reading the page

def clauses(text):
    """The words of each clause. A line that begins with a space continues the one before; `# ` begins a comment."""
    lines = []
    for line in text.split("\n"):
        line = re.sub(r"(^|\s)#(\s.*)?$", "", line).rstrip()
        if line.startswith(" ") and lines:
            lines[-1] += line
        elif line:
            lines.append(line)
    return [line.split() for line in lines]


class Page:
    """What the page says: words, classes (name -> how it is made), rules (name -> rows), preferences (rule -> class), parts of rows."""

    def __init__(self, text):
        self.classes, self.rules, self.preferences = {}, {}, {}
        found = clauses(text)
        self.words = sorted({w[1:-1] for clause in found for w in clause if w[0] == "'"})
        for clause in found:
            if clause[0] == "prefer":
                self.preferences[clause[1]] = clause[3]
            elif clause[1] == "=":
                self.classes[clause[0]] = clause[2:]
            else:
                self.add_rule(clause[0], clause[2:])
        self.parts = [part for rows in self.rules.values() for row in rows for part in row]

    def add_rule(self, name, words):
        self.groups = 0
        self.rules[name] = None
        if words[0] == "{" and closing(words) == len(words) - 1:
            rows, _ = self.rows(name, words[1:], "}")
            self.rules[name] = [row + [name] for row in rows] + [[]]
        else:
            self.rules[name], _ = self.rows(name, words, None)

    def rows(self, rule, words, end):
        """The rows up to `end`, and the words behind it. A group becomes a rule of its own."""
        found, row = [], []
        while words:
            word, words = words[0], words[1:]
            if word == end:
                return found + [row], words
            if word == "|":
                found.append(row)
                row = []
            elif word in "([{":
                self.groups += 1
                group = f"{rule}_{self.groups}"
                self.rules[group] = None
                inner, words = self.rows(rule, words, {"(": ")", "[": "]", "{": "}"}[word])
                if word == "{":
                    inner = [r + [group] for r in inner]
                self.rules[group] = inner + ([[]] if word in "[{" else [])
                row.append(group)
            elif word != "nothing":
                row.append(word)
        return found + [row], words


def closing(words):
    depth = 0
    for place, word in enumerate(words):
        depth += (word in "([{") - (word in ")]}")
        if depth == 0:
            return place
    raise ValueError(words)


# Atoms: marks, words, another Name, each of these Names as that of a class, literals, a bad token, the end

class Atoms:
    def __init__(self, page):
        self.words = page.words
        self.first_word = len(MARKS)
        self.names = len(page.words) + 1
        self.first_literal = self.first_word + 2 * self.names
        self.count = self.first_literal + len(LITERALS) + 2
        self.sets = {}
        for kind, made in page.classes.items():
            self.sets[kind] = self.joined(made)

    def of(self, name):
        """The set of atoms of a mark, a word or a class, as a number of one bit an atom."""
        if name[0] == '"':
            return 1 << list(MARKS).index(name[1:-1])
        if name[0] == "'":
            place = self.first_word + self.words.index(name[1:-1])
            return 1 << place | 1 << place + self.names
        if name in LITERALS:
            return 1 << self.first_literal + LITERALS.index(name)
        if name == "NAME":
            return (1 << 2 * self.names) - 1 << self.first_word
        if name == "CLASSNAME":
            return (1 << self.names) - 1 << self.first_word + self.names
        return self.sets[name]

    def joined(self, made):
        found, sign = 0, "+"
        for word in made:
            if word in "+-":
                sign = word
            else:
                found = found | self.of(word) if sign == "+" else found & ~self.of(word)
        return found


# What is computed of the rules

class Facts:
    def __init__(self, page, atoms):
        self.rules, self.atoms = page.rules, atoms
        self.begins = {rule: 0 for rule in page.rules}
        self.follows = {rule: 0 for rule in page.rules}
        self.empty = {rule: False for rule in page.rules}
        self.until_stable(self.grow_begins)
        self.until_stable(self.grow_follows)
        self.steps = {}
        for rule in page.rules:
            self.steps_of(rule)

    def until_stable(self, grow):
        self.changed = True
        while self.changed:
            self.changed = False
            grow()

    def beginning(self, row):
        """The atoms that begin a row, and whether it can be empty."""
        found = 0
        for part in row:
            if part in self.rules:
                found |= self.begins[part]
                if not self.empty[part]:
                    return found, False
            elif part[0] != "@":
                return found | self.atoms.of(part), False
        return found, True

    def grow_begins(self):
        for rule, rows in self.rules.items():
            for row in rows:
                found, empty = self.beginning(row)
                if found & ~self.begins[rule] or empty and not self.empty[rule]:
                    self.begins[rule] |= found
                    self.empty[rule] |= empty
                    self.changed = True

    def grow_follows(self):
        for rule, rows in self.rules.items():
            for row in rows:
                for place, part in enumerate(row):
                    if part in self.rules:
                        found, empty = self.beginning(row[place + 1:])
                        found |= self.follows[rule] if empty else 0
                        if found & ~self.follows[part]:
                            self.follows[part] |= found
                            self.changed = True

    def steps_of(self, rule):
        """More than the steps through any of its rows to a token."""
        if rule not in self.steps:
            self.steps[rule] = 1 + max((self.steps_through(row) for row in self.rules[rule]), default=0)
        return self.steps[rule]

    def steps_through(self, row):
        total = 0
        for part in row:
            if part in self.rules:
                total += self.steps_of(part)
                if not self.empty[part]:
                    return total
            elif part[0] == "@":
                total += 1
            else:
                return total + 1
        return total

    def actions_past(self, row):
        """How many actions are on the way through a row that can be empty."""
        return sum(self.actions_past(self.empty_row(part)) if part in self.rules else 1 for part in row)

    def empty_row(self, rule):
        return next(row for row in self.rules[rule] if self.beginning(row)[1])


# Names in the tables

ACTIONS = {
    "+": "Plus", "-": "Minus", "*": "Times", "/": "Divide", "%": "Remainder", "&": "BitAnd", "|": "BitOr",
    "->": "ByteEntry", "-->": "WordEntry", ".": "Member", ".&": "MemberAddress", ".#": "MemberLength",
    "&&": "And", "||": "Or", "=": "Assign", ",": "Comma", "neg": "Negate", "~": "BitNot", "~~": "Not",
    "++v": "IncrementBefore", "--v": "DecrementBefore", "v++": "IncrementAfter", "v--": "DecrementAfter",
    "==": "Equal", "~=": "Unequal", "<": "Less", ">": "Greater", "<=": "LessOrEqual",
    ">=": "GreaterOrEqual", "hasnt": "HasNot", "notin": "NotIn", "ofclass": "OfClass",
}


def action(part):
    """The name of an action: `@end:for-test` is EndForTest."""
    name = part[1:]
    return ACTIONS.get(name) or "".join(word.capitalize() for word in re.split("[-:]", name))


def keyword(word):
    """The name of a word: `print_ret` is PrintRet."""
    return "".join(part.capitalize() for part in word.split("_"))


def constant(name):
    """The name of a constant: `EndText` is END_TEXT, `for-test` is FOR_TEST, NAME stays."""
    return name if name.isupper() else re.sub(r"(?<!^)(?=[A-Z])", "_", name).replace("-", "_").upper()


def rule_name(rule):
    return rule.replace("-", "_")


class Tables:
    """The files, by their paths among the crates."""

    def __init__(self, page):
        self.page = page
        self.atoms = Atoms(page)
        self.facts = Facts(page, self.atoms)
        self.rule_numbers = {rule: number for number, rule in enumerate(page.rules)}
        tokens = [part for part in page.parts if part not in page.rules and (part[0] != "@")]
        self.tokens = list(dict.fromkeys(tokens))
        self.actions = list(dict.fromkeys(part for part in page.parts if part[0] == "@"))

    def files(self):
        made = {
            "inf_syntax/specs/Words.antt": self.words_spec(), "inf_syntax/specs/Classes.antt": self.classes_spec(),
            "inf_syntax/specs/Table.antt": self.table_spec(), "inf_grammar/specs/Facts.antt": self.facts_spec(),
            "inf_syntax/src/words.rt": self.words_code(), "inf_grammar/src/table.rt": self.table_code(),
            "inf_syntax/src/actions.rt": self.actions_code(), "inf_grammar/src/starts.rt": self.starts_code(),
            "inf_syntax/src/parts.rt": self.parts_code(),
        }
        return made

    # specs/

    def words_spec(self):
        return ("-- The words that the grammar knows, in the order of the alphabet. Made from docs/grammar.txt.\n"
                "use Rattle.std.specs.Prelude.{ℕ, List, [], ◌∷◌, codes}\n"
                "use Rattle.inf_syntax.specs.declared.words.Keyword.{Keyword}\n"
                "use Rattle.inf_syntax.specs.declared.words.Keyword.TheVariants as keyword\n\n"
                + listed("words", "(List ℕ)", [f'codes "{word}"' for word in self.page.words])
                + "\n-- the words of the grammar as keywords, in the order of `words`\n"
                + listed("keywords", "Keyword", [f"keyword.{keyword(word)}" for word in self.page.words], "unfoldable"))

    def set_term(self, name):
        if name[0] == '"':
            return "of_mark mark." + MARKS[name[1:-1]]
        if name[0] == "'":
            return f'of_word (codes "{name[1:-1]}")'
        return name.lower()

    def classes_spec(self):
        out = ["-- The classes of tokens, as sets of atoms. Made from docs/grammar.txt.",
               "use Rattle.std.specs.Prelude.{ℕ, List, [], ◌∷◌, codes, map}",
               "use Rattle.inf_syntax.specs.Atoms.{of_mark, of_word, name, classname, number, char, word_literal, text, joined, without}",
               "use Rattle.inf_scanner.specs.declared.tokens.Mark.TheVariants as mark", ""]
        for kind, made in self.page.classes.items():
            out += filled(f"abbrev pub {kind.lower()} : ℕ\n{kind.lower()} = {self.made_term(made)}") + [""]
        terms = [{"WORD": "word_literal"}.get(part) or self.set_term(part) for part in self.tokens]
        return ("\n".join(out) + "\n-- each class, in the order of its number\n"
                + listed("classes", "ℕ", [f"({term})" if " " in term else term for term in terms]))

    def made_term(self, made):
        sign, groups = "+", []
        for word in made:
            if word in "+-":
                sign = word
            elif groups and groups[-1][0] == sign:
                groups[-1][1].append(word)
            else:
                groups.append((sign, [word]))
        term = ""
        for sign, words in groups:
            if len(words) == 1 and not term:
                term = self.set_term(words[0])
            elif all(word[0] == "'" for word in words):
                term = f"{with_others(sign, term)} (map of_word ({list_term([f'codes {chr(34)}{word[1:-1]}{chr(34)}' for word in words])}))"
            else:
                term = f"{with_others(sign, term)} ({list_term([self.set_term(word) for word in words])})"
        return term

    def part_term(self, part):
        """The name of a part: that of a rule or a class, of a mark, of a word behind WORD, and of an action behind DO."""
        if part[0] == "@":
            return "DO_" + constant(action(part))
        if part[0] == "'":
            return "WORD_" + constant(part[1:-1])
        if part[0] == '"':
            name = constant(MARKS[part[1:-1]])
            return name + "_MARK" if name in map(constant, self.rule_numbers) else name
        return constant(part)

    def row_term(self, rule, row):
        listed = " ∷ ".join([self.part_term(part) for part in row] + ["[]"])
        if not row or all(part[0] == "@" for part in row):
            barred = self.page.preferences.get(rule)
            if barred:
                return f"row_unless {self.tokens.index(barred)} ({listed})" if row else f"row_unless {self.tokens.index(barred)} []"
        return f"row ({listed})" if row else "row []"

    def table_spec(self, size=80):
        names = sorted({self.part_term(part) for part in self.page.parts})
        out = ["-- The rows of the rules, rule by rule. Made from docs/grammar.txt.", "use Rattle.std.specs.Prelude.{List, [], ◌∷◌}",
               "use Rattle.inf_machine.specs.Grammar.{Row}", "use Rattle.inf_syntax.specs.{Rows.row, Rows.row_unless, declared.actions.Action.Action}"]
        out += ["use Rattle.inf_syntax.specs.declared.parts.names.TheConstants as Part"] + uses("Part", names) + [""]
        rules = list(self.page.rules)
        chunks = [rules[at:at + size] for at in range(0, len(rules), size)]
        for number, chunk in enumerate(chunks, 1):
            out += [f"abbrev pub rules_{number} : List (List (Row Action))", f"rules_{number} ="]
            for at, rule in enumerate(chunk):
                first, *rows = [self.row_term(rule, row) + " ∷" for row in self.page.rules[rule]]
                lines = packed([("∷ (" if at else "(") + first] + rows + ["[])"], " ", WIDE - len(rule) - 5)
                begin = len(out)
                out += [line for long in lines for line in filled(long, "", "    ")]
                out[begin] += f"  -- {rule_name(rule)}"
            out += ["    ∷ []", ""]
        return "\n".join(out)

    def facts_spec(self):
        rules = list(self.page.rules)
        return ("-- Facts computed of each rule, in the order of their numbers. Made from docs/grammar.txt; that they hold is proved.\n"
                "use Rattle.std.specs.Prelude.{ℕ, List, [], ◌∷◌, Bool, true, false}\n\n"
                "-- the atoms that begin each rule\n"
                + listed("beginnings", "ℕ", [hex(self.facts.begins[rule]) for rule in rules], wide=230)
                + "\n-- the atoms that may stand behind each rule\n"
                + listed("followers", "ℕ", [hex(self.facts.follows[rule]) for rule in rules], wide=230)
                + "\n-- tells of each rule whether it can be empty\n"
                + listed("empties", "Bool", ["true" if self.facts.empty[rule] else "false" for rule in rules])
                + "\n-- a number above that of the steps through each rule to a token\n"
                + listed("step_bounds", "ℕ", [str(self.facts.steps[rule]) for rule in rules]))

    # src/

    def words_code(self):
        variants = [keyword(word) for word in self.page.words]
        count = len(self.page.words)
        return ("//! The words that the grammar knows, and where to look for one. Made from docs/grammar.txt.\n\n"
                + enum("Keyword", "A word that the grammar knows.", variants)
                + static("WORDS", "The words, in the order of the alphabet.", "&[u8]", [f'b"{word}"' for word in self.page.words])
                + static("KEYWORDS", "The words as keywords, in the same order.", "Keyword",
                         [f"Keyword::{keyword(word)}" for word in self.page.words])
                + static("SLOTS", f"The place of the word with each slot: {count} where there is none.", "u8",
                         [str(place) for place in self.word_slots()]))

    def word_slots(self):
        """The place of the word with each slot. `slot` has to tell all words apart: other factors of it may be needed for other words."""
        found = [len(self.page.words)] * SLOTS
        for place, word in enumerate(self.page.words):
            if found[slot(word)] < place:
                raise ValueError(f"{word} and {self.page.words[found[slot(word)]]} have one slot")
            found[slot(word)] = place
        return found

    def parts_code(self):
        terms = [f"{self.part_term(part)}: Part = Token({number});" for number, part in enumerate(self.tokens)]
        terms += [f"{self.part_term(part)}: Part = Act(Do::{action(part)});" for part in self.actions]
        terms += [f"{self.part_term(rule)}: Part = Rule({number});" for rule, number in self.rule_numbers.items()]
        return ("//! A name for each part of a row: a class of tokens, an action, or a rule. Made from docs/grammar.txt.\n"
                "use crate::actions::Action;\nuse inf_machine::Symbol;\n\n/// A part of a row.\npub type Part = Symbol<Action>;\n\n"
                "/// The names of the parts.\n#[rattlefmt::skip]\npub mod names {\n    use super::Part;\n    use crate::actions::Action as Do;\n"
                "    use inf_machine::Symbol::{Act, Rule, Token};\n\n"
                + "\n".join(packed([f"pub const {term}" for term in terms], " ")) + "\n}\n")

    def part_code(self, part):
        if part in self.rule_numbers:
            return f"Text({self.rule_numbers[part]})"
        if part[0] == "@":
            return f"Act(Do::{action(part)})"
        return f"Token({self.tokens.index(part)})"

    def table_code(self):
        parts, rows, rules = [], [], []
        for rule, alternatives in self.page.rules.items():
            first, other = len(rows), (0, 0)
            for row in alternatives:
                begins, empty = self.facts.beginning(row)
                span = (len(parts), len(parts) + len(row))
                other = span if empty and self.facts.actions_past(row) else other
                rows.append(numbers(*limbs(begins), *span))
                parts += [self.part_code(part) for part in reversed(row)]
            empty = str(self.facts.empty[rule]).lower()
            rules.append(numbers(*limbs(self.facts.begins[rule]), empty, first, len(rows), *other))
        classes = [numbers(*limbs(self.atoms.of(part))) for part in self.tokens]
        head = ("//! The grammar as the machine reads it, in numbers. Made from docs/grammar.txt.\n"
                "use crate::rules::{Row, Rule, Set, Span};\n"
                "use inf_machine::Symbol::{self, Act, Rule as Text, Token};\nuse inf_syntax::Action as Do;\n\n"
                "/// Sets, each as four numbers of 64 bits, the lowest first.\n" + macro("sets", "abcd", "Set([$a, $b, $c, $d])")
                + "\n/// Rows: the set of the atoms that begin a row, and where its parts are.\n"
                + macro("rows", "abcdse", "Row { begins: Set([$a, $b, $c, $d]), parts: Span { start: $s, end: $e } }")
                + "\n/// Rules: the set of the atoms that begin a rule, whether it can be empty, and where its rows and its other parts are.\n"
                + macro("rules", "abcdnseoz", "Rule { begins: Set([$a, $b, $c, $d]), is_empty: $n, rows: Span { start: $s, end: $e }, "
                        "other: Span { start: $o, end: $z } }"))
        return (head + static("CLASSES", "The atoms of each class.", "Set", classes, "sets!")
                + static("PARTS", "The parts of all rows, row by row, the last part of a row first.", "Symbol<Do>", parts)
                + static("ROWS", "All rows, rule by rule.", "Row", rows, "rows!")
                + static("RULES", "The rules, by their numbers.", "Rule", rules, "rules!"))

    def starts_code(self):
        listed = "".join(f"\n/// {means}\npub const {constant(rule)}: u8 = {self.rule_numbers[rule]};\n" for rule, means in STARTS.items())
        return "//! The rules that reading may start with. Made from docs/grammar.txt.\n" + listed

    def actions_code(self):
        return ("//! The actions of the grammar. Made from docs/grammar.txt.\n\n"
                + enum("Action", "An action of the grammar. Where it speaks of the last token, that is the one taken last.",
                       [action(part) for part in self.actions], "Clone, Copy, Debug, PartialEq, Eq"))


SLOTS = 256

STARTS = {
    "file": "A whole source: any number of pieces.",
    "piece": "A piece of a source: a directive with its semicolon, or a semicolon.",
    "expression": "An expression, with commas.",
    "assign": "An expression without commas outside brackets.",
    "logic": "A condition.",
    "alone-expression": "An expression with commas, and the semicolon that ends it.",
    "alone-constant": "An expression without commas outside brackets, and the semicolon that ends it.",
    "alone-line": "A line of assembly with its semicolon.",
    "alone-header": "The header of a routine with its semicolon.",
    "alone-close": "The bracket that ends a routine, with its semicolon.",
}


def limbs(atoms):
    """A set of atoms as four numbers of 64 bits, the lowest first."""
    return [hex(atoms >> at & (1 << 64) - 1).replace("0x0", "0") for at in (0, 64, 128, 192)]


def numbers(*items):
    return " ".join(map(str, items))


def slot(word):
    """The slot of a word, as specs/Slots.antt and src/atoms.rt of inf_syntax have it: by its size and its first, third and last letter."""
    letters = [ord(letter) % 32 for letter in word] + [0, 0]
    return (letters[0] + 5 * letters[2] + 61 * letters[len(word) - 1] + 16 * (len(word) % 16)) % SLOTS


# Layout

WIDE = 140


def packed(items, join, wide=WIDE, indent="    "):
    """Lines that begin with `indent`, each with the items that fit in."""
    lines = []
    for item in items:
        if lines and len(lines[-1]) + len(join) + len(item) <= wide:
            lines[-1] += join + item
        else:
            lines.append(indent + item)
    return lines


def filled(text, indent="", more="    "):
    """The lines of a definition, those that are too long divided behind a `∷`."""
    lines = []
    for line in text.split("\n"):
        first, *others = packed(re.split("(?<=∷) ", line), " ", WIDE - len(indent + more), "")
        lines += [indent + first] + [indent + more + other for other in others]
    return lines


def list_term(items):
    return " ∷ ".join(items + ["[]"])


def listed(name, kind, items, mark="abbrev", wide=WIDE):
    """The definition of a list."""
    lines = packed([item + " ∷" for item in items] + ["[]"], " ", wide)
    return "\n".join([f"{mark} pub {name} : List {kind}", f"{name} ="] + lines + [""])


def with_others(sign, term):
    return "joined" if sign == "+" else f"without ({term})" if " " in term else f"without {term}"


def uses(module, names):
    """The lines that bring names of a module into a file of definitions."""
    return [f"use {module}.{{{line}}}" for line in packed(names, ", ", WIDE - len(module) - 7, "")]


def enum(name, means, variants, derives="Clone, Copy"):
    """A type of variants that have no fields, and derives these traits."""
    lines = packed([variant + "," for variant in variants], " ")
    return (f"/// {means}\n#[rattlefmt::skip]\n#[derive({derives})]\npub enum {name} {{\n" + "\n".join(lines) + "\n}\n")


def macro(name, letters, item):
    """A macro that makes an array of items, each of literals of its own."""
    taken = " ".join(f"${letter}:literal" for letter in letters)
    return f"macro_rules! {name} {{\n    ($({taken}),*) => {{\n        [$({item}),*]\n    }};\n}}\n"


def static(name, means, kind, items, made_by=""):
    """A table of the program."""
    lines = packed([item + "," for item in items[:-1]] + items[-1:], " ")
    return (f"\n/// {means}\n#[rattlefmt::skip]\npub(crate) static {name}: [{kind}; {len(items)}] = {made_by}[\n"
            + "\n".join(lines) + "\n];\n")


def bare(text):
    """A text without what a formatter may change."""
    return re.sub(r"[\s,]", "", text)


def main(words):
    with open(os.path.join(HERE, "docs", "grammar.txt"), encoding="ascii") as page:
        files = Tables(Page(page.read())).files()
    wrong = 0
    for path, text in files.items():
        place = os.path.join(CRATES, path)
        if words == ["check"]:
            with open(place, encoding="utf-8") as file:
                if bare(file.read()) != bare(text):
                    print(path, "is not what docs/grammar.txt says")
                    wrong = 1
        else:
            with open(place, "w", encoding="utf-8") as file:
                file.write(text)
    return wrong


if __name__ == "__main__":
    sys.exit(main(sys.argv[1:]))
