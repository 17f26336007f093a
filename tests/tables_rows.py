"""Rows by hand of the tables of `inf_row_tests`: lines, and what the rules say of each. A title has no answer."""

# The texts of words: `take`, `off`, `up`; `a`, `b`, `c`; `xa`, `xb`, `xc`
TAKE, OFF, UP = "64d028a594a5", "516b14a594a5", "6aa514a594a5"
A, B, C = "18a514a594a5", "1ca514a594a5", "20a514a594a5"
XA, XB, XC = "74c514a594a5", "74e514a594a5", "750514a594a5"

# The tables of the first four objects
FIRST = "0211119b18000312873d48e4a5000312f46b2ecd45000313195dd3b0a500"

# A world with a default, a property and an individual property that are known later
SMALL = "world - - | property plain n1 | individual | object p0 d0a5 | give 4 n2 | give 64 n3 | end"
SMALL_TOLD = "world | 4 | 64 | 5 | ok | ok | ok"

ROWS = [
    ("! a verb with a line", None),
    (f"dictionary - | use {TAKE} verb0 | write 0 - 0", "dictionary | ok | ok 032e2c2209000164d028a594a501ff00"),
    ("verbs - - | add | line 0 last 0 noun | write - - 0",
     "verbs | 0 | ok | ok 0000010000010000" + "0f Grammar:0:Part(Grammar, 0)"),
    ("! a further line in front, with alternatives", None),
    (f"verbs - - | add | line 0 last 0 noun | extend 0 first | line 0 first 0 {OFF}/{UP} noun reverse | write - - 0",
     "verbs | 0 | ok | ok | ok | ok 00000204002200001200000100000f0000010000" + "0f"
     f" Grammar:0:Part(Grammar, 0) Grammar:6:Word({list(bytes.fromhex(OFF))}) Grammar:9:Word({list(bytes.fromhex(UP))})"),
    (f"dictionary - | use {UP} prep | use {TAKE} verb0 | use {OFF} prep | rank {OFF} {TAKE} {UP} | write 0 - 0",
     f"dictionary | ok | ok | ok | 0 1 2 | ok 032e2c22090003{OFF}080000{TAKE}01ff00{UP}080000"),
    ("! as many words as there may be, and one more", None),
    (f"dictionary 2 | use {XA} other | use {XB} other | use {XA} other | use {XC} other | len | write 0 - 0",
     f"dictionary | ok | ok | ok | Full | 2 | ok 032e2c22090002{XA}800000{XB}800000"),
    (f"dictionary 0 | use {XA} other | len | write 0 7 0", "dictionary | Full | 0 | ok 032e2c22090000"),
    ("! a word that is used in several ways, and one that is another verb's", None),
    (f"dictionary - | use {UP} prep | use {UP} other plural | use {UP} verb3 | use {UP} meta3 | use {UP} verb4"
     f" | verb {UP} | write 0 16 1 | write 0 15 1",
     f"dictionary | ok | ok | ok | ok | OtherVerb | Some(3) | ok ff032e2c22090001{UP}8ffc00 | Memory ff"),
    ("! arrays", None),
    ("arrays - | open table | entry 1 | entry 2 | write - - 0", "arrays | 0 | ok | ok | ok 000200010002"),
    ("arrays - | open string | text 6162 | write - - 0", "arrays | 0 | ok | ok 026162"),
    ("arrays - | open words | zeros 2 | write - - 0", "arrays | 0 | ok | ok 00000000"),
    ("arrays - | open bytes | entry 256 | entry n1 | entry 255 | zeros 0 | size", "arrays | 0 | NotAByte | NotAByte | ok | NoEntries | 1"),
    ("arrays 64573 | open bytes | zeros 64573 | entry 1 | size", "arrays | 0 | ok | Full | 64573"),
    ("arrays - | open string | 255 entry 7 | entry 7 | open string | zeros 256 | zeros 255 | size",
     "arrays | 0 | ok | TooMany | 256 | TooMany | ok | 512"),
    ("arrays 3 | open bytes | text 010203 | open words | open string | open table", "arrays | 0 | ok | 3 | Full | Full"),
    ("arrays 3 | open bytes | text 01020304 | text 010203 | text 04 | entry 5 | zeros 1 | size | write - 3 1 | write - 2 1",
     "arrays | 0 | Full | ok | Full | Full | Full | 3 | ok ff010203 | Memory ff"),
    ("arrays 4 | open words | entry 1 | entry n2 | entry 3 | size | later | open table | open string | open bytes",
     "arrays | 0 | ok | ok | Full | 4 | 1 | Full | Full | 4"),
    ("arrays 2 | open table | entry 1 | open table | open words | size", "arrays | 0 | Full | Full | 2 | 2"),
    ("arrays 1 | open string | entry 1 | open string | size", "arrays | 0 | Full | Full | 1"),
    ("arrays - | open table | entry n7 | entry 2 | write 1 6 1 | write 0 6 1 | write 1 5 1",
     "arrays | 0 | ok | ok | ok ff000200000002 Arrays:3:Name(7) | Full ff | Memory ff"),
    ("! the most global variables, and one more", None),
    ("globals | 235 add 5 | add 6 | len", "globals | 250 | TooMany | 235"),
    ("globals | add n7 | add 2 | write 1 480 0 | write 0 480 1 | write 1 479 1",
     "globals | 16 | 17 | ok 00000002" + "0000" * 238 + " Globals:0:Name(7) | Full ff | Memory ff"),
    ("! the most verbs, and one more", None),
    ("verbs - - | 255 add | add | len | size", "verbs | 254 | TooMany | 255 | 765"),
    ("verbs 2 - | 2 add | add", "verbs | 1 | Full"),
    ("verbs - 8 | add | line 0 last 0 noun | line 0 last 0 | 2 add | size", "verbs | 0 | NoSpace | ok | NoSpace | 6"),
    ("verbs - 9 | add | line 0 last 0 noun | line 0 last 0 | extend 0 replace | line 0 replace 1 | 2 add | size",
     "verbs | 0 | ok | NoSpace | ok | ok | NoSpace | 9"),
    (f"verbs 1 9 | add | line 0 last 0 {OFF} | line 0 last 0 | add | write 2 9 1 | write 1 9 1 | write 2 8 1",
     "verbs | 0 | ok | NoSpace | Full | ok ff0000010000020000" + "0f"
     f" Grammar:1:Part(Grammar, 0) Grammar:7:Word({list(bytes.fromhex(OFF))}) | Full ff | Memory ff"),
    ("verbs - 3 | add | add | line 0 last 0 | size", "verbs | 0 | NoSpace | NoSpace | 3"),
    ("verbs - 2 | add | len", "verbs | NoSpace | 0"),
    ("! actions count by first appearance, fake ones from 4096", None),
    ("actions 2 | add 7 | add 9 | fake | add 7 | fake | add 8 | of 9 | of 8 | write - - 0",
     "actions | 0 | 1 | 4096 | 0 | 4097 | Full | Some(1) | None | ok 00000000 Actions:0:Name(7) Actions:2:Name(9)"),
    ("! a write with room for all, and with one less", None),
    ("actions - | add 7 | add 9 | write 2 4 1 | write 1 4 1 | write 2 3 1",
     "actions | 0 | 1 | ok ff00000000 Actions:1:Name(7) Actions:3:Name(9) | Full ff | Memory ff"),
    ("parsing | add 7 | add 9 | add 7 | len | write 2 4 1 | write 1 4 1 | write 2 3 1",
     "parsing | 0 | 1 | 0 | 2 | ok ff00000000 ParsingRoutines:1:Name(7) ParsingRoutines:3:Name(9) | Full ff | Memory ff"),
    ("! the objects that a story has without any of its own", None),
    ("world 4 30 | count | size | later | write - - 0 tables | write - - 0 classes | write - - 0 individuals",
     "world | 4 | 30 | 4 | ok 0211119b18000312873d48e4a5000312f46b2ecd45000313195dd3b0a500 | ok 0000 | ok "),
    ("! a property of 32 values, and one more", None),
    ("world - - | property plain 7 | object p0 d0a5 | give 4 1 | 31 value 1 | size | value 1 | size | end | give 4 | write - - 0 tables",
     "world | 4 | 5 | ok | ok | 100 | Limit(Values) | 100 | ok | Misfit(NoBody) | ok " + FIRST + "01d0a5" + "8480" + "0001" * 32 + "00"),
    ("world - - | individual | object p0 d0a5 | give 64 1 | 31 value 1 | value 1 | end | write - - 0 individuals",
     "world | 64 | 5 | ok | ok | Limit(Values) | ok | ok " + "0040" + "40" + "0001" * 32 + "0000"),
    ("world 5 100 | property plain 7 | object p0 d0a5 | give 4 1 | 31 value 1 | end | object p0 d0a5 | count | size",
     "world | 4 | 5 | ok | ok | ok | Full(Objects) | 5 | 100"),
    ("world 4 - | class d0a5 | count", "world | Full(Objects) | 4"),
    ("world - 99 | property plain 7 | object p0 d0a5 | give 4 1 | 31 value 1 | size | value 1",
     "world | 4 | 5 | ok | Full(PropertyTables) | 98 | Full(PropertyTables)"),
    ("! bytes up to the limit, and one more: of headers, properties, values, individual ones and classes", None),
    ("world 5 34 | object p0 d0a5 | size | end | object p0 - | class - | count", "world | 5 | 34 | ok | Full(Objects) | Full(Objects) | 5"),
    ("world 5 34 | class d0a5 | size | end | object p0 -", "world | 5 | 34 | ok | Full(Objects)"),
    ("world - 33 | object p0 d0a5 | class d0a5 | object p0 - | size", "world | Full(PropertyTables) | Full(PropertyTables) | 5 | 32"),
    ("world - 37 | property plain 7 | object p0 d0a5 | give 4 1 | value 2 | give 4 | size",
     "world | 4 | 5 | ok | Full(PropertyTables) | Misfit(GivenAlready) | 37"),
    ("world - 36 | property plain 7 | object p0 d0a5 | give 4 1 | size | given 4", "world | 4 | 5 | Full(PropertyTables) | 34 | false"),
    ("world - 40 | property plain 7 | object p0 d0a5 | give 4 1 | value 2 | value 3 | size",
     "world | 4 | 5 | ok | ok | Full(PropertyTables) | 40"),
    ("world - 44 | individual | object p0 d0a5 | give 64 1 | value 2 | size", "world | 64 | 5 | ok | Full(PropertyTables) | 44"),
    ("world - 43 | individual | object p0 d0a5 | give 64 1 | size", "world | 64 | 5 | Full(PropertyTables) | 34"),
    ("world - 42 | property plain 0 | class - | give 4 1 | end | object p0 - | of 5 | size | end | size",
     "world | 4 | 5 | ok | ok | 6 | ok | 42 | ok | 42"),
    ("world - 41 | property plain 0 | class - | give 4 1 | end | object p0 - | of 5 | size | end | size",
     "world | 4 | 5 | ok | ok | 6 | Full(PropertyTables) | 36 | ok | 36"),
    ("! each area with just as much room as it needs, and with one less", None),
    (f"{SMALL} | write 1 126 1 defaults | write 0 126 1 defaults | write 1 125 1 defaults",
     f"{SMALL_TOLD} | ok ff000000000000" + "0000" + "0000" * 59 + " PropertyDefaults:7:Name(1) | Full ff | Memory ff"),
    (f"{SMALL} | write 5 70 1 objects | write 4 70 1 objects | write 5 69 1 objects",
     f"{SMALL_TOLD} | ok ff" + "00" * 70 + "".join(f" Objects:{13 + 14 * n}:Part(PropertyTables, {n})" for n in range(5))
     + " | Full ff | Memory ff"),
    (f"{SMALL} | write 2 40 1 tables | write 1 40 1 tables | write 2 39 1 tables",
     f"{SMALL_TOLD} | ok ff{FIRST}01d0a5440000430000" + "00 PropertyTables:35:Name(2)"
     " PropertyTables:38:Part(IndividualTables, 4) | Full ff | Memory ff"),
    (f"{SMALL} | write 0 2 1 classes | write 0 1 1 classes", f"{SMALL_TOLD} | ok ff0000 | Memory ff"),
    (f"{SMALL} | write 1 7 1 individuals | write 0 7 1 individuals | write 1 6 1 individuals",
     f"{SMALL_TOLD} | ok ff0040020000" + "0000 IndividualTables:4:Name(3) | Full ff | Memory ff"),
    ("! the tree", None),
    ("world - - | object a0 98a5 | end | object a1 9ca5 | end | object a1 a0a5 | end | object a3 a0a5 | write - - 0 objects",
     "world | 5 | ok | 6 | ok | 7 | ok | Misfit(NothingAbove) | ok " + "00" * 56
     + "000000000000" + "000000000006" + "0000" + "000000000000" + "000500070000" + "0000" + "000000000000" + "000500000000" + "0000"
     + "".join(f" Objects:{12 + 14 * n}:Part(PropertyTables, {n})" for n in range(7))),
    ("! an individual property", None),
    ("world - - | object p0 d0a5 | individual | give 64 1 | value 2 | end | write 1 - 0 tables | write 0 - 0 tables"
     " | write 0 - 0 individuals",
     "world | 5 | 64 | ok | ok | ok | ok " + FIRST + "01d0a543000000"
     " PropertyTables:34:Part(IndividualTables, 4) | Full  | ok 004004000100020000"),
    ("! what comes of classes: a table, and where its words stand in the dictionary", None),
    (f"dictionary - | use {A} other | use {B} other | use {C} other | rank {C} {A} {B} | write 0 - 0",
     f"dictionary | ok | ok | ok | 2 0 1 | ok 032e2c22090003{A}800000{B}800000{C}800000"),
    (f"world - - | property plain 9 | property plain 0 | 2 attribute | class - | give 4 1 | give 1 w{A} | has 0 | end | class -"
     f" | give 4 2 | give 5 7 | give 1 w{B} | has 1 | end | object p0 d0a5 | give 1 w{C} | of 5 | of 6 | hasnt 0 | end"
     " | write - - 0 tables",
     "world | 4 | 5 | 1 | 5 | ok | ok | ok | ok | 6 | ok | ok | ok | ok | ok | 7 | ok | ok | ok | ok | ok | ok "
     + FIRST + "0000" + "0000" + "01d0a545000744000182840005000681860000000000" + "0000"
     " PropertyTables:51:Word([32, 165, 20, 165, 148, 165]) PropertyTables:53:Word([24, 165, 20, 165, 148, 165])"
     " PropertyTables:55:Word([28, 165, 20, 165, 148, 165])"),
    ("world - - | 2 attribute | class - | has 0 | end | class - | has 1 | end | object p0 d0a5 | of 5 | of 6 | hasnt 0 | end"
     " | write - - 0 objects | write - - 0 classes",
     "world | 1 | 5 | ok | ok | 6 | ok | ok | 7 | ok | ok | ok | ok | ok "
     + "000000000000" + "000000000005" + "0000" + "00" * 42 + "000000000000" + "000100060000" + "0000"
     + "000000000000" + "000100000000" + "0000"
     + "400000000000" + "000000000000" + "0000" + "".join(f" Objects:{12 + 14 * n}:Part(PropertyTables, {n})" for n in range(7))
     + " | ok 000500060000"),
    ("! as many attributes, properties and classes as there may be, and one more", None),
    ("world - - | 48 attribute | attribute | 60 property plain 1 | property plain 2 | object p0 - | has 47 | has 48 | give 63"
     " | give 2 | give 64",
     "world | 47 | Limit(Attributes) | 63 | Limit(Properties) | 5 | ok | Misfit(NotAnAttribute) | ok"
     " | Misfit(NotAProperty) | Misfit(NotAProperty)"),
    ("world - - | class - | end | " + " | ".join(f"class - | of {n} | end" for n in range(5, 37)) + " | object p0 - | of 36 | of 37 | end",
     "world | 5 | ok" + "".join(f" | {n} | ok | ok" for n in range(6, 38)) + " | 38 | ok | Limit(Values) | ok"),
    ("world - - | class - | give 1 1 | 15 value 2 | end | object p0 - | of 5 | give 1 1 | 15 value 3 | value 4",
     "world | 5 | ok | ok | ok | 6 | ok | ok | ok | Limit(Values)"),
    ("! a body whose header was in error", None),
    ("world - - | lost | give 1 5 | give 1 5 | value 6 | has 3 | count | size | later | end | count", 
     "world | ok | ok | Misfit(GivenAlready) | ok | ok | 4 | 30 | 4 | ok | 4"),
    ("! a place too early is no class, and a class is no parent", None),
    ("world - - | class - | of 5 | of 0 | end | object p5 - | object p6 - | object p4 - | class - | end | end",
     "world | 5 | Misfit(NotAClass) | ok | ok | Misfit(NotAnObject) | Misfit(NotAnObject) | 6 | Misfit(BodyIsOpen) | ok | Misfit(NoBody)"),
    ("! large arrays", None),
    ("arrays 65536 | open bytes | zeros 64573 | size | write 0 64572 0", "arrays | 0 | ok | 64573 | Memory "),
    ("arrays 65536 | open bytes | zeros 64574 | size", "arrays | 0 | ok | 64574"),
    ("arrays 64573 | open bytes | zeros 64574 | size", "arrays | 0 | Full | 0"),
]
