#!/usr/bin/env python3
"""Tells of each function with clauses whether equations pin all that it gives, and checks that none ceases to be pinned.

usage: tools/pinned.py [--list | --check] [CRATE..]

A function gives its result, unless that says no more than success, and the new value of each parameter that it may change. A
clause pins such an output if it is an equation with the output on its left and no output on its right; it may stand after `let`,
in a pair, or under OnOk, OnSome, IfOk or IfSome of the result, and after no premise. A function is pinned if clauses pin all its
outputs and, where its error may be another than want of memory, some clause speaks of the error. A method of an impl that has no
clauses of its own has those of its trait.

The prover refuses each body of a pinned function that gives anything else, so an edit of such a body shows nothing of the clauses.
With --list the functions that are not pinned are printed, each with its outputs that nothing pins and with 'edit' if an edit in
must-fail turns it, otherwise 'NO EDIT'. With --check the status is 1 if a function is not pinned that tools/not_pinned.txt does
not name, or is named there and pinned or gone; or if the old text of an edit, also of one in must-fail-more, is not once in its file.
The last line has the counts.
"""
import collections
import importlib.util
import pathlib
import re
import sys

HERE = pathlib.Path(__file__).resolve().parent
KNOWN = HERE / "not_pinned.txt"
WRAPPED = re.compile(r"(OnOk|OnSome|IfOk|IfSome) \(?result(?:\.\d)?\)? \((.*)\)$")
CLAUSE = re.compile(r"\b(requires|ensures|ghost)(\*?)(?:[ \n]+(\w+))?\s*\{")
# The fields of an output that are all of it: what a list of std is, and the value of a number or a list.
WHOLE = ("", ".items", ".now", ".bytes")
SPEAKS_OF_ERRORS = re.compile(r"OnErr|IfErr|MatchResult|IsErr")


def edits_module():
    """Returns tools/edits.py, which finds functions and reads edits."""
    spec = importlib.util.spec_from_file_location("edits", HERE / "edits.py")
    module = importlib.util.module_from_spec(spec)
    sys.modules["edits"] = module
    spec.loader.exec_module(module)
    return module


# What a clause says.


def depths(text):
    """Gives each place of a text with the number of brackets that are open after it."""
    depth = 0
    for place, sign in enumerate(text):
        depth += (sign in "{([") - (sign in "})]")
        yield place, depth


def end_of_bracket(text, at):
    """Returns the place after the bracket that begins at a place."""
    return next((at + place + 1 for place, depth in depths(text[at:]) if depth == 0), len(text))


def is_balanced(text):
    """Returns whether each bracket of a text closes one that the text opens."""
    return all(depth >= 0 for _, depth in depths(text))


def split_outside(text, word):
    """Returns the parts of a text between the places where a word is outside of all brackets."""
    found, begin = [], 0
    for place, depth in depths(text):
        if depth == 0 and text.startswith(word, place):
            found.append(text[begin:place].strip())
            begin = place + len(word)
    return [*found, text[begin:].strip()]


def ensured(head):
    """Returns the texts of the clauses that a function's head ensures, and whether it has any clause."""
    found = [(it[1], " ".join(head[it.end() : end_of_bracket(head, it.end() - 1) - 1].split())) for it in CLAUSE.finditer(head)]
    return [text for kind, text in found if kind == "ensures"], bool(found)


def unwrapped(text):
    """Returns what a clause says of values, without brackets, `let`, OnOk and the like, and the name that it gives to the result's value."""
    text, name = text.strip(), "result"
    while True:
        if found := re.match(r"let (?!\()(.*?) in (.*)$", text):
            text = found[2].strip()
        elif (found := WRAPPED.match(text)) and is_balanced(found[2]):
            inner = re.match(r"λ ([^.]*)\. ?(.*)$", found[2].strip())
            text, name = (inner[2].strip(), inner[1].split()[0].strip("()")) if inner else (found[2].strip(), name)
        elif text.startswith("(") and text.endswith(")") and is_balanced(text[1:-1]):
            text = text[1:-1].strip()
        else:
            return text, name


def spelling_of(output, name):
    """Returns the pattern of an output in a clause, where `name` is the result's value."""
    return rf"\b(?:{name}|result)\b(?:\.\d)?" if output == "result" else rf"\b{output}\.(?:new|exit)\b"


def covers(side, output, name, partial):
    """Returns whether the left side of an equation is of a whole output: not of a field, nor of one of the views of a device, whose names are partial."""
    found = re.search(rf"(?:\b(\w+) )?{spelling_of(output, name)}((?:\.\w+)*)", side)
    return found and (found[2] in WHOLE or " record " in f" {side}") and found[1] not in partial


def pinned_by(text, outputs, partial):
    """Returns those of the outputs that a clause pins."""
    text, name = unwrapped(text)
    if len(split_outside(text, "→")) > 1:
        return set()
    several = split_outside(text, "×")
    if len(several) > 1:
        return set().union(*(pinned_by(it if name == "result" else it.replace(f"{name} ", "result "), outputs, partial) for it in several))
    sides = split_outside(text, "≡")
    if len(sides) != 2 or any(re.search(spelling_of(it, name), sides[1]) for it in outputs):
        return set()
    return {it for it in outputs if covers(sides[0], it, name, partial)}


def outputs_of(signature):
    """Returns the outputs of a function, and whether its error may be another than want of memory."""
    changed = set(re.findall(r"(\w+): &(?:'\w+ )?mut ", signature)) | ({"self"} if re.search(r"&(?:'\w+ )?mut self", signature) else set())
    gives = re.search(r"-> (.*?)(?: where .*)?$", signature)
    gives = gives[1].strip() if gives else ""
    error = re.match(r"Result<.*, (\w+)>$", gives)
    return changed | (set() if gives == "" or gives.startswith("Result<(), ") else {"result"}), bool(error and error[1] != "AllocError")


# The functions of the sources.


def sources_of(crate):
    """Gives each source of a crate: its path in the crate and its text."""
    for file in sorted((crate.folder / "src").rglob("*.rt")):
        yield str(file.relative_to(crate.folder)), file.read_text()


def clauses_of_traits(crates):
    """Returns what the methods of traits ensure, by the name of the trait and that of the method."""
    found = {}
    for crate in crates:
        for _, text in sources_of(crate):
            for trait in re.finditer(r"^(?:pub )?trait (\w+).*?\n}", text, re.M | re.S):
                for method in re.finditer(r"^    fn (\w+).*?(?=^    (?:fn|ghost|///) ?|\Z)", trait[0], re.M | re.S):
                    found[trait[1], method[1]] = ensured(method[0])[0]
    return found


def partial_views(crates):
    """Returns the names of views of which a trait has several, so that none is all of a value."""
    traits = (trait for crate in crates for _, text in sources_of(crate) for trait in re.finditer(r"^(?:pub )?trait \w+.*?\n}", text, re.M | re.S))
    views = (re.findall(r"^    ghost (\w+):", it[0], re.M) for it in traits)
    return {name for names in views if len(names) > 1 for name in names}


def trait_at(edits, text, place):
    """Returns the name of the trait whose impl a place of a source is in, or an empty text."""
    owners = [it for it in map(edits.OWNER.match, text[:place].splitlines()) if it]
    return (owners[-1][1] or "").split("::")[-1] if owners else ""


def functions(edits, crate, traits):
    """Gives each function of a crate that has clauses, or whose trait gives it some: its path, itself, its signature and what it ensures."""
    for path, text in sources_of(crate):
        for function in edits.functions(path, text):
            own = text[function.begin : function.end]
            span = edits.span_of_body(own.splitlines(keepends=True), re.match(r" *", own)[0], function.begin)
            head = text[function.begin : max(span[0], function.begin + len(own.splitlines()[0]))] if span else own
            said, has_clauses = ensured(head)
            if not has_clauses:
                said = traits.get((trait_at(edits, text, function.begin), function.pattern.split("::")[-1]), [])
            if said:
                yield path, function, " ".join(re.split(r"\b(?:requires|ensures|ghost)\b", head)[0].split()).removesuffix(" {"), said


def judged(edits, crate, traits, partial):
    """Gives each function of a crate with outputs: its name in the list, its outputs that nothing pins (or 'its fault'), and whether an edit turns it."""
    turned = {(it.function[0], it.function[1].pattern) for it in edits.edits_of(crate, False) if it.function}
    for path, function, signature, said in functions(edits, crate, traits):
        outputs, has_fault = outputs_of(signature)
        if outputs:
            left = outputs - set().union(*(pinned_by(it, outputs, partial) for it in said))
            is_silent = has_fault and not any(map(SPEAKS_OF_ERRORS.search, said))
            loose = ", ".join(sorted(left)) or ("its fault" if is_silent else "")
            yield f"{crate.name}/{path}: {function.pattern}", loose, (path, function.pattern) in turned


def stale(edits, crate):
    """Returns what is wrong with the first edit of a crate, of all of them, that can't be applied, in a list of one or none."""
    try:
        edits.edits_of(crate, True)
    except (OSError, edits.Unfit) as why:
        return [str(why)]
    return []


def main(words):
    edits = edits_module()
    every = edits.crates()
    chosen = [every[it] for it in words if not it.startswith("-")] or [it for it in every.values() if not it.name.endswith(("_tests", "_trials", "_test_lines"))]
    traits = clauses_of_traits(every.values())
    partial = partial_views(every.values())
    found = [it for crate in chosen for it in judged(edits, crate, traits, partial)]
    loose = {name: (left, is_turned) for name, left, is_turned in found if left}
    if "--list" in words:
        print("\n".join(f"{name}: {left}: {'edit' if is_turned else 'NO EDIT'}" for name, (left, is_turned) in loose.items()))
    wrong = []
    if "--check" in words:
        known = [it for it in KNOWN.read_text().splitlines() if it.partition("/")[0] in {crate.name for crate in chosen}]
        wrong = [f"{it}: no equation pins {loose[it][0]}" for it in loose if it not in known]
        wrong += [f"{it}: {KNOWN.name} names it, and it is pinned or not there" for it in known if it not in loose]
        wrong += [told for crate in chosen for told in stale(edits, crate)]
        print("\n".join(wrong), end="\n" if wrong else "")
    counts = collections.Counter("pinned" if not left else "with" if is_turned else "without" for _, left, is_turned in found)
    print(f"{counts['pinned']} functions are pinned; of the others {counts['with']} have an edit and {counts['without']} have none")
    return 1 if wrong else 0


if __name__ == "__main__":
    sys.exit(main(sys.argv[1:]))
