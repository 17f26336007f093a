"""Hostile sources: each is one thing, again and again, as often as a source has room for it.

A kind has a name and what its source begins with, repeats and ends with. `{}` in what is repeated is a name of five letters, another one
each time.
"""

from itertools import product
from string import ascii_lowercase

# Names of five letters, of which there are more than a source has room for.
LETTERS = 5

KINDS = {
    # bytes that are passed over, and the longest of what is read as one
    "one comment": ("!", "a", ""),
    "comments": ("", "! a\n", ""),
    "spaces": ("", " ", ""),
    "ends of lines": ("", "\n", ""),
    "one name": ("", "a", ""),
    "one number": ("Constant K = ", "7", ";"),
    "zeros of one number": ("Constant K = ", "0", "1;"),
    "one text": ('Message "', "a", '";'),
    "escapes in one text": ('[ Main; "', "@@65", '"; ];'),
    "accents in one text": ('[ Main; "', "@:a", '"; ];'),
    "one quote": ("[ Main x; x = '", "a", "'; ];"),
    "one head": ("", "!% -w\n", "[ Main; ];"),
    "one word of a head": ("!% -", "w", "\n[ Main; ];"),
    "bytes that fit nowhere": ("", "\x01", ""),
    "semicolons alone": ("", ";", ""),
    "names that are no directives": ("", "a ", ";"),
    # directives
    "constants": ("", "Constant {};", "[ Main; ];"),
    "constants with a value": ("", "Constant {}=1;", "[ Main; ];"),
    "wrong constants": ("", "Constant 1;", "[ Main; ];"),
    "defaults of one name": ("", "Default a 1;", "[ Main; ];"),
    "variables": ("", "Global {};", "[ Main; ];"),
    "attributes": ("", "Attribute {};", "[ Main; ];"),
    "properties": ("", "Property {};", "[ Main; ];"),
    "objects": ("", "Object {};", "[ Main; ];"),
    "objects without a name": ("", "Object;", "[ Main; ];"),
    "classes": ("", "Class {};", "[ Main; ];"),
    "arrows of one object": ("Object ", "->", " a; [ Main; ];"),
    "one attribute of an object": ("Attribute a; Object o has", " a", "; [ Main; ];"),
    "one property of an object": ("Property p; Object o with p", ", p", "; [ Main; ];"),
    "values of one property": ("Property p; Object o with p", " 1", "; [ Main; ];"),
    "names of one object": ("Object o with name", " '{}'", "; [ Main; ];"),
    "classes of one object": ("Class c; Object o class", " c", "; [ Main; ];"),
    "entries of bytes": ("Array a -> 1", " 1", "; [ Main; ];"),
    "entries of words": ("Array a --> 1", " 1", "; [ Main; ];"),
    "texts of one array": ("Array a --> 1", ' "a"', "; [ Main; ];"),
    "words of one array": ("Array a --> 1", " '{}'", "; [ Main; ];"),
    "semicolons in an array": ("Array a --> [ 1", ";", "]; [ Main; ];"),
    "one string array": ('Array a string "', "a", '"; [ Main; ];'),
    "arrays": ("", "Array {}->1;", "[ Main; ];"),
    "one word of a verb": ("Verb 'word'", " 'word'", " * -> Go; [ GoSub; ]; [ Main; ];"),
    "words of one verb": ("Verb 'word'", " '{}'", " * -> Go; [ GoSub; ]; [ Main; ];"),
    "lines of one verb": ("Verb 'word'", " * -> Go", "; [ GoSub; ]; [ Main; ];"),
    "tokens of one line": ("Verb 'word' *", " noun", " -> Go; [ GoSub; ]; [ Main; ];"),
    "words of one line": ("Verb 'word' * 'a'", "/'a'", " -> Go; [ GoSub; ]; [ Main; ];"),
    "verbs": ("", "Verb '{}'* -> Go;", "[ GoSub; ]; [ Main; ];"),
    "extensions of one verb": ("Verb 'word' * -> Go;", "Extend 'word' * -> Go;", "[ GoSub; ]; [ Main; ];"),
    "fake actions": ("", "Fake_action {};", "[ Main; ];"),
    "abbreviations": ("", 'Abbreviate "ab";', "[ Main; ];"),
    "texts of one Abbreviate": ("Abbreviate", ' "ab"', "; [ Main; ];"),
    "low strings": ("", 'Lowstring {} "a";', "[ Main; ];"),
    "messages": ("", 'Message "a";', "[ Main; ];"),
    "stubs of one name": ("", "Stub a 0;", "[ Main; ];"),
    "replacements": ("", "Replace {};", "[ Main; ];"),
    "switches": ("", "Switches s;", "[ Main; ];"),
    "releases": ("", "Release 1;", "[ Main; ];"),
    "conditionals that end": ("", "Ifdef a;Endif;", "[ Main; ];"),
    "conditionals that do not end": ("", "Ifdef a;", "[ Main; ];"),
    "terms of one condition": ("Iftrue 1", "+1", "; Endif; [ Main; ];"),
    "what a conditional leaves out": ("Ifdef a;", "b c;", "Endif; [ Main; ];"),
    "routines": ("", "[{};];", "[ Main; ];"),
    "one local in a header": ("[ Main x", " x", "; ];"),
    "locals of one header": ("[ Main", " {}", "; ];"),
    # statements
    "semicolons in a routine": ("[ Main; ", ";", "];"),
    "short statements": ("[ Main x; ", "x++;", "];"),
    "new lines": ("[ Main; ", "new_line;", "];"),
    "texts": ("[ Main; ", 'print "a";', "];"),
    "strings": ("[ Main x; ", 'x="a";', "];"),
    "words": ("[ Main x; ", "x='{}';", "];"),
    "numbers that are refused": ("[ Main; ", "5=1;", "];"),
    "names that nothing declares": ("[ Main; ", "{}();", "];"),
    "calls of one name": ("[ Main; ", "a();", "];"),
    "labels": ("[ Main; ", ".{};", "];"),
    "jumps": ("[ Main; .a; ", "jump a;", "];"),
    "conditions": ("[ Main x; ", "if(x)x++;", "];"),
    "statements in one another": ("[ Main x; ", "if(x)", "x++; ];"),
    "blocks in one another": ("[ Main; ", "{", "];"),
    "loops": ("[ Main x; ", "while(x)x--;", "];"),
    "cases of one switch": ("[ Main x; switch (x) { ", "1:x++;", "} ];"),
    "values of one case": ("[ Main x; switch (x) { 1", ",1", ": x++; } ];"),
    "values of a case of a routine": ("[ Main; 1", ",1", ": rtrue; ];"),
    "one variable in a print": ("[ Main x; print x", ",x", "; ];"),
    "calls in a print": ("[ F; ]; [ Main; print F()", ",F()", "; ];"),
    "calls with values in a print": ("[ F; ]; [ Main; print F(1,2,3)", ",F(1,2,3)", "; ];"),
    "calls of new names in a print": ("[ Main; print 1", ",{}()", "; ];"),
    "rules in a print": ("[ Main x; print x", ",(string) x", "; ];"),
    "texts in a print": ('[ Main; print "a"', ',"a"', "; ];"),
    "words in a print": ("[ Main; print 1", ",'{}'", "; ];"),
    "sums of 50 in a print": ("[ Main x; print 1", ",x" + 49 * "+x", "; ];"),
    "sums of 25 calls in a print": ("[ F; ]; [ Main; print 1", ",F()" + 24 * "+F()", "; ];"),
    "one attribute of a give": ("Attribute a; Object o; [ Main; give o", " a", "; ];"),
    "operands in an assembly line": ("[ Main x; @print_num", " x", "; ];"),
    "assembly lines": ("[ Main x; ", "@inc x;", "];"),
    "actions": ("[ Main; ", "<{}>;", "]; [ GoSub; ];"),
    # expressions
    "terms of one sum": ("[ Main x; x = 1", "+1", "; ];"),
    "operators in front": ("[ Main x; x = ", "-", "1; ];"),
    "openings in one another": ("[ Main x; x = ", "(", "1; ];"),
    "calls in one another": ("[ Main x; x = ", "Main(", "1; ];"),
    "settings in one another": ("[ Main x; x", "=x", "; ];"),
    "alternatives of one condition": ("[ Main x; if (x == 1", " or 1", ") x++; ];"),
    "conditions in one": ("[ Main x; if (x", "&&x", ") x++; ];"),
    "properties of properties": ("[ Main x; x = x", ".x", "; ];"),
}


def names():
    """The names that differ."""
    return map("".join, product(ascii_lowercase, repeat=LETTERS))


def parts_of(kind, size):
    """How often a source of a kind with as many bytes repeats its part."""
    front, part, end = KINDS[kind]
    return (size - len(front) - len(end)) // len(part.replace("{}", "a" * LETTERS))


def source_of(kind, size):
    """The source of a kind with as many bytes; spaces stand where the part does not fit once more."""
    front, part, end = KINDS[kind]
    count = parts_of(kind, size)
    parts = part * count if "{}" not in part else "".join(part.replace("{}", name) for _, name in zip(range(count), names()))
    return f"{front}{parts}{' ' * (size - len(front) - len(parts) - len(end))}{end}"
