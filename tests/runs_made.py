"""Runs of sources that a rule makes: nested ones, long ones, ones with many of a thing, and ones with each word of a list."""

import resource

from runs_compare import CLEAN, HELLO, HELLO_CODE, coded, routines, story_of, word
from runs_tables import SOURCES

MILLION = 1_000_000


# Kinds of openings, each with its front, its end, and how many may stand in one another. The bracket of a compound statement is a level
# more while it is open, and a `switch` has a brace beside its word.
OPENINGS = {
    "brackets": ("(", ")", 64),
    "braces": ("{", "}", 64),
    "if": ("if (x) ", "", 63),
    "while": ("while (x) ", "", 63),
    "do": ("do ", " until (x);", 63),
    "for": ("for (::) ", "", 63),
    "objectloop": ("objectloop (x) ", "", 63),
    "switch": ("switch (x) { 1: ", "}", 32),
}


def nested_in(openings, inner, end=""):
    """Returns a routine with a statement inside openings, and an end of the statement behind these."""
    fronts, ends, _ = zip(*openings)
    return f"[ Main x; {''.join(fronts)}{inner}{''.join(reversed(ends))}{end} ];".encode()


def nesting(runs):
    """Nests brackets, braces and compound statements 64 deep, each kind and all of them mixed, and one deeper."""
    deep = b"t.inf(1): Fatal error: Nesting over 64\n"
    statements = list(OPENINGS.values())[1:]
    mixed = [statements[place % 7] for place in range(57)]
    turned = [statements[-1 - place % 7] for place in range(57)]
    # the openings that are one too many, and those of them that fit
    cases = [(kind, [opening] * (opening[2] + 1), [opening] * opening[2]) for kind, opening in OPENINGS.items()]
    cases += [("all kinds", mixed, mixed[:-1]), ("all kinds, turned", turned, turned[1:])]
    for name, many, fitting in cases:
        inner = ("x", ";") if name == "brackets" else ("x++;",)
        for openings, wanted in ((fitting, (CLEAN, 0)), (many, (deep, 1))):
            left = runs.run(["$MAX_EXPRESSION_NODES=1000", "t"], {"t.inf": nested_in(openings, *inner)})
            runs.expect(f"{len(openings)} levels: {name}", left[:2], wanted)


def bracketed(count):
    """Returns sources with `count` brackets of an expression in one another on the second line, in each place of an expression; a case in a
    `switch` has two fewer."""
    value, called = "(" * count + "1" + ")" * count, "x(" * count + ")" * count
    half = "{" * 64 + "#Iftrue\n" + value + "; #Endif; x++;" + "}" * 64
    process = "[ R_Process a b; return a + b; ]; [ GoSub; ];"
    return (
        ("a constant", f"Constant K =\n{value}; [ Main; print K; ];"),
        ("a constant that may be there", f"Default K\n{value}; [ Main; print K; ];"),
        ("a variable", f"Global K =\n{value}; [ Main; print K; ];"),
        ("an entry", f"Array a --> 1\n{value}; [ Main; ];"),
        ("an entry in brackets", f"Array a --> [\n{value} 1; ]; [ Main; ];"),
        ("a value of all objects", f"Property p\n{value}; [ Main; ];"),
        ("a value of an object", f"Object o with p 1\n{value}; [ Main; ];"),
        ("a condition between directives", f"Iftrue\n{value}; Endif; [ Main; ];"),
        ("a condition behind 64 braces", f"[ Main x; {half} ];"),
        ("calls", f"[ Main x; x =\n{called}; ];"),
        ("an action", f"[ Main; <\n{value} 2>; ]; {process}"),
        ("what an action is done to", f"[ Main; <Go\n{value}>; ]; {process}"),
        ("a case in a switch", f"[ Main x; switch (x) {{\n{value[2:-2]}: x++; }} ];"),
    )


# Statements and marks that open a level: a front, which is on the second line of a source, and the rest behind it.
WORDS = ("if", "(x) ;"), ("while", "(x) ;"), ("do ; until", "(x);"), ("for", "(x::) ;"), ("objectloop", "(x) ;"), ("switch", "(x) { }")
MARKS = ("(", "x);"), ("x(", ");"), ("{", "x++; }"), ("print (", "x);"), ("print (char) (", "x);"), ("@push (", "x);"), ("return (", "x);")


def openings(runs):
    """Opens a level too many, which is told at its line: behind 64 others whatever it is, behind 63 the bracket of a compound statement. The
    brackets of a condition, and of a directive's value, are counted from 0."""
    sources = []
    for fronts, levels in ((WORDS, ((62, 0), (63, 3), (64, 2))), (MARKS, ((63, 0), (64, 2)))):
        for front, rest in fronts:
            for count, line in levels:
                source = f"[ Main x; {'{' * count} \n{front}\n{rest} {'}' * count} ];"
                sources.append((f"{front} behind {count}", source, line))
    for count, line in ((64, 0), (65, 2)):
        sources += [(f"{count} brackets of {name}", source, line) for name, source in bracketed(count)]
    for name, source, line in sources:
        left = runs.run(["$MAX_EXPRESSION_NODES=1000", "t"], {"t.inf": source.encode()})
        told = (f"t.inf({line}): Fatal error: Nesting over 64\n".encode(), 1) if line else (CLEAN, 0)
        runs.expect(f"openings: {name}", left[:2], told)


def words_where_cases_stand(runs):
    """Places the word of a compound statement where a case may stand: it opens a level whatever follows it, and none as the name of a case."""
    deep = b"t.inf(3): Fatal error: Nesting over 64\n"
    bad = b't.inf(4): Error: Syntax error at ")"\nErrors: 1, warnings: 0 (no output)\n'
    for word in ("if", "while", "do", "for", "objectloop", "switch"):
        for levels, told in ((63, bad), (64, deep)):
            front, end = "{" * (levels - 2) + "switch (x) { 1:", "}" * (levels - 1)
            for name, inner, lines in (("a bad token", "\n);", told), ("a colon", ": ;", CLEAN)):
                source = f"[ Main x;\n{front}\n{word}{inner} {end} ]; Constant {word} = 2;".encode()
                left = runs.run(["t"], {"t.inf": source})[:2]
                runs.expect(f"{name} behind {word} in {levels} levels", left, (lines, 0 if lines == CLEAN else 1))


# A million operators of an expression, or parts in one another: a name, the source, its code, and the message if there is no code.
DEEP, FULL = "Fatal error: Nesting over 64", "Fatal error: MAX_CODE is exceeded"
SIGNS = 60_000
LONG = (
    ("signs of a constant", "Constant K = " + "- " * MILLION + "1; [ Main; print K; ];", "00 E6 7F 01 B0", ""),
    ("tildes of a constant", "Constant K = " + "~ " * MILLION + "1; [ Main; print K; ];", "00 E6 7F 01 B0", ""),
    # 500,000 modulo 65536 is 41,248
    ("a sum of known numbers", "[ Main x; x = 1" + "+1" * 499_999 + "; ];", "01 CD 4F 01 A1 20 B0", ""),
    ("a condition that is turned", "[ Main x; if (" + "~~" * MILLION + "x) quit; ];", "01 A0 01 C3 BA B0", ""),
    ("a condition of a directive", "Iftrue " + "~~" * MILLION + "1; [ Main; ]; Endif;", "00 B0", ""),
    ("signs that are code", "[ Main x; x = " + "- " * SIGNS + "x; ];", "01 35 00 01 00" + "35 00 00 00" * (SIGNS - 2) + "35 00 00 01 B0", ""),
    ("signs with more code than there may be", "[ Main x; x = " + "- " * MILLION + "x; ];", "", FULL),
    ("tildes, the same", "[ Main x; x = " + "~ " * MILLION + "x; ];", "", FULL),
    ("conditions, the same", "[ Main x; if (x" + "&&x" * (MILLION // 2) + ") quit; ];", "", FULL),
    ("alternatives, the same", "[ Main x; if (x==x" + " or x" * (MILLION // 2) + ") quit; ];", "", FULL),
    ("calls, the same", "[ Main x; x" + "()" * (MILLION // 2) + "; ];", "", FULL),
    ("entries, the same", "[ Main x; x = x" + "->x" * (MILLION // 2) + "; ];", "", FULL),
    ("values of which the last counts, the same", "[ Main x; x++" + ",x++" * (MILLION // 3) + "; ];", "", FULL),
    ("brackets", "[ Main x; x = " + "(" * MILLION + "x" + ")" * MILLION + "; ];", "", DEEP),
    ("calls in one another", "[ Main x; x = " + "x(" * MILLION + ")" * MILLION + "; ];", "", DEEP),
    ("braces", "[ Main; " + "{" * MILLION + "}" * MILLION + " ];", "", DEEP),
    ("conditions in one another", "[ Main x; " + "if (x) " * MILLION + "x++; ];", "", DEEP),
    ("other sides in one another", "[ Main x; " + "if (x) x++; else " * MILLION + "x++; ];", "", DEEP),
)


def long_expressions(runs):
    """Compiles a million operators or parts in one another, or has them refused by their rule, with little stack and in little time."""
    words = [f"${name}=1048576" for name in ("MAX_EXPRESSION_NODES", "MAX_CODE", "MAX_LABELS", "MAX_REFS")]
    for name, source, code, told in LONG:
        used = resource.getrusage(resource.RUSAGE_CHILDREN)
        left = runs.run([*words, "t"], {"t.inf": source.encode()}, stack=384)
        behind = resource.getrusage(resource.RUSAGE_CHILDREN)
        day = left[3].get("t.z5", b"")[18:24]
        wanted = (f"t.inf(1): {told}\n".encode(), 1, b"") if told else (CLEAN, 0, story_of(routines(code), day))
        runs.expect(f"a million: {name}", (left[0], left[1], left[3].get("t.z5", b"")), wanted)
        # a run takes under a second, and many minutes where its time is not linear
        runs.expect(f"a million, in time: {name}", behind.ru_utime - used.ru_utime < 20, True)


def fixed_limits(runs):
    """Declares 235 variables, 48 attributes, 60 properties and 255 verbs, beside other names of them: the last of each has its number, and
    each one more is told at its own line."""
    for what, most, declared, behind, wanted in (
        ("globals", 235, "Global n{:03};", "[ Main; print n235; ];", "00 E6 BF FA B0"),
        ("attributes", 48, "Attribute n{:03};", "Attribute as alias n048; [ Main x; give x as; ];", "01 4B 01 2F B0"),
        ("properties", 60, "Property n{:03};", "Property as alias n060; [ Main; print as; ];", "00 E6 7F 3F B0"),
        # the word of the last verb, its flag and its byte
        ("verbs", 255, "Verb 'n{:03}' * -> Go;", "Verb 'as' = 'n255'; [ GoSub; ]; [ Main; ];", "4C AA 15 A5 B4 A5 01 01 00"),
    ):
        lines = [declared.format(number) for number in range(1, most + 3)]
        fitting, more = ({"t.inf": ("\n".join(lines[:count]) + behind).encode()} for count in (most, most + 2))
        left = runs.run(["$MAX_VERBS=300", "t"], fitting)
        runs.expect(f"{most} {what}", (left[0], left[1]), (CLEAN, 0))
        runs.expect(f"the last of {most} {what}", bytes.fromhex(wanted) in left[3].get("t.z5", b""), True)
        told = "".join(f"t.inf({line}): Error: More than {most} {what}\n" for line in (most + 1, most + 2))
        end = b"Errors: 2, warnings: 0 (no output)\n"
        runs.check(f"more than {most} {what}", ["$MAX_VERBS=300", "t"], more, told.encode() + end, 1, b"", {})


def many_errors(runs):
    """Makes a hundred errors: a fatal one follows the last of them, and nothing follows that."""
    end = b"t.inf(100): Fatal error: Too many errors\n"
    missing = b't.inf(1): Error: No routine "Main"\n'
    system = b't.inf(101): Error: "true" is a system name\n'
    for count, behind, told, last in (
        (101, b"", 100, end),
        (99, b"", 99, missing + b"t.inf(1): Fatal error: Too many errors\n"),
        (99, b"[ Main; ];", 99, b"Errors: 99, warnings: 0 (no output)\n"),
        (99, b"[\ntrue; ]; ,; [ true; ];", 99, system + end),
    ):
        lines = b"".join(b't.inf(%d): Error: Syntax error at ","\n' % line for line in range(1, told + 1))
        runs.check(f"{count} errors", ["t"], {"t.inf": b",;\n" * count + behind}, lines + last, 1, b"", {})


def many_declared(runs):
    """Uses 10,000 names before they are declared, which fit; one more is told, a used one and a declared one."""
    used = b"[ Main;\n" + b"".join(b"r%d();\n" % number for number in range(1, 10000))
    declared = b"];\n" + b"".join(b"[ r%d; ];\n" % number for number in range(1, 10000))
    left = runs.run(["t"], {"t.inf": used + declared})
    runs.expect("the last name", (left[0], left[1]), (CLEAN, 0))
    names = b"t.inf(10001): Fatal error: MAX_SYMBOLS is exceeded\n"
    again = b't.inf(10001): Error: "A" was declared at t.inf(10001)\n'
    runs.check("no room for a name that is used", ["t"], {"t.inf": used + b"more();\n];"}, names, 1, b"", {})
    runs.check("no room for a name that is declared", ["t"], {"t.inf": used + b"]; [ more a A; ];"}, again + names, 1, b"", {})


def letters(runs):
    """Passes over each letter of `Switches` where the command has it not looked at, and refuses some words of letters."""
    looked = (SOURCES / "switches_each_letter.inf").read_bytes()
    told, status = runs.run(["-i~w", "t"], {"t.inf": looked})[:2]
    unlooked = f't.inf({looked.count(b"Switches") - 2}): Warning: Local "x" is unused\nErrors: 0, warnings: 1\n'.encode()
    runs.expect("each letter of Switches, which is not looked at", (told, status), (unlooked, 0))
    for word in ("-", "-~", "-~~w", "-~v5", "-~C0", "-~E1", "-S", "-E0", "-E", "-v", "-v6", "-C2", "-d", "-W", "-vw8", "-w-"):
        runs.check(f"letters {word}", [word, "t"], {"t.inf": HELLO}, f"Bad word: {word}\n".encode(), 2, b"", {})


def late_letters(runs):
    """Places `Switches` behind a unit that is none of its own, also a header, a unit in error or a conditional, which is an error unless the
    command has it not looked at. A semicolon alone is no unit, none is finished in a piece whose first token is a bad one, and a `Switches` in
    error is a unit of its own."""
    wrong = "Error: Switches must come first and hold known switches\n"
    for first in (
        *("Constant K;", "Constant K = 1/0;", "Default K 1;", "Global g;", "Attribute a;", "Property p;", "Fake_action F;", "Stub R 1;"),
        *("Array a --> 1;", "Object o;", "Object o,;", "Class C;", "Verb 'v//' * -> F; [ FSub; ];", "Extend 'v//' * -> F; [ FSub; ];"),
        *("[ R; ];", "[ R x x; ];", "Replace Main;", "System_file;", 'Message "x";', 'Include "l";', "Ifdef K; Endif;", "Iftrue 0; Endif;"),
    ):
        source = f"{first}\nSwitches w;\nSwitches v8; [ Main; ];".encode()
        told, status = runs.run(["t"], {"t.inf": source, "l.h": b""})[:2]
        lines = [line for line in told.decode().splitlines(keepends=True) if not line.startswith(("t.inf(1)", "x"))]
        runs.expect(f"Switches behind {first}", (lines[:2], status), ([f"t.inf({line}): {wrong}" for line in (2, 3)], 1))
        told = runs.run(["-i", "t"], {"t.inf": source, "l.h": b""})[0]
        lines = [line for line in told.decode().splitlines() if not line.startswith(("t.inf(1)", "x", "Errors"))]
        runs.expect(f"Switches that is not looked at, behind {first}", lines, [])
    for first in ("", ";", "# ;", "Foo;", "[ 5; ];", "Constant 5;", "Array a;", "Ifdef 5;", "Switches S;", "Switches ~w;", "Switches v;"):
        source = f"{first}\nSwitches D; Switches w; [ Main x; ];\n#Ifdef DEBUG; Message \"debug\"; #Endif;".encode()
        told = runs.run(["t"], {"t.inf": source})[0]
        lines = [line for line in told.decode().splitlines() if not line.startswith(("t.inf(1)", "Errors"))]
        runs.expect(f"Switches behind {first}", lines, ["debug"])


def heads(runs):
    """Places a word of the head over the edges of the window in which a source is read."""
    for count in (*range(4087, 4097), *range(8186, 8193)):
        source = {"t.inf": b"!%" + b" " * count + b"-v8\r\n" + HELLO}
        runs.check(f"head with {count} spaces", ["t"], source, CLEAN, 0, b"", {"t.z5": coded(HELLO_CODE, 8)})


def names(runs):
    """Declares each name that the language has from the start, and calls each word of its conditions."""
    system = """true false nothing NULL WORDSIZE TARGET_ZCODE name Class Object Routine String child parent sibling
        children random indirect self sender sw__var temp_global""".split()
    conditions = "has hasnt in notin ofclass provides or to".split()
    lines, told = [], []
    for name in [*system, *(name.swapcase() for name in system)]:
        lines.append(f"[ {name}; ];")
        told.append(f't.inf({len(lines)}): Error: "{name}" is a system name')
    for name in [*conditions, *(name.upper() for name in conditions)]:
        lines.append(f"[ r{len(lines)}; {name}(); ];")
        told.append(f't.inf({len(lines)}): Error: Syntax error at "{name}"')
    told += ['t.inf(1): Error: No routine "Main"', f"Errors: {len(told) + 1}, warnings: 0 (no output)", ""]
    runs.check("words of the language", ["t"], {"t.inf": "\n".join(lines).encode()}, "\n".join(told).encode(), 1, b"", {})


def large(runs):
    """Compiles 10,000 routines with as many locals, calls and names, in over 1 MB: memory is not refused without need."""
    count = 10000
    names = ["Main"] + [f"routine_{i}" for i in range(1, count)]
    called = [(7 * i + 1) % count for i in range(count)]
    source, code = b"", b""
    for name, target in zip(names, called):
        source += f"[ {name} x; {names[target]}(x); {names[target]}(x, x, x, x); return x; ]; ! {'-' * 80}\n".encode()
        packed = word(242 + 5 * target)
        # the number of locals, call_2n, call_vn2, and ret (Z-Machine Standard 1.1, sections 4 and 14)
        code += b"\x01" + b"\xda\x2f" + packed + b"\x01" + b"\xfa\x2a\xbf" + packed + b"\x01" * 4 + b"\xab\x01"
        code += bytes(-len(code) % 4)
    assert len(source) > 1 << 20
    runs.check("a large source", ["t"], {"t.inf": source}, CLEAN, 0, b"", {"t.z5": coded(code)})
