#!/usr/bin/env python3
"""Tries the edits that the prover has to refuse, those of a crate in one check.

usage: tools/edits.py [--all] [--anew] [--note] [--proved FOLDER [--report FILE]] [CRATE..]

A file crates/NAME/must-fail/*.edit makes a function of the crate a wrong one: after a line 'file: src/NAME.rt' it has
pairs of lines 'old: TEXT' and 'new: TEXT', and each old text stands in that file once. A line 'breaks: CLAUSE' names the
clause of the function's contract that the wrong body breaks (`ensures` where the clause has no name; `loop` for the invariant
that a loop's clause rests on), and a line 'where: ..' a value for which the clause is false, if the prover's search alone
refused it: a search gives up on forms as well, and the value shows that it is the meaning that is refused. Where the text stands
in no function, as that of a constant, a line 'turns: NAME' names the one that it turns. With --all those of
crates/NAME/must-fail-more are tried as well, which are of functions that no other crate calls, or of one that has an edit already.

FOLDER is a copy of the repository in which each crate is proved and built, and this one where none is given; FILE is where the
toolchain's gate tells what it has proved there so far, and the edits of a crate are tried once it is. CRATE is a crate whose
edits are tried, and all are where none is given. What an earlier run on this machine found of the same files is
taken over, unless --anew is given. With --note each edit that was refused and names no clause is given the line
that does.

The prover judges a function by its own body and by the contracts of those that it calls. So the edits of one crate that
turn the bodies of different functions are tried at once, and each has to be refused in the function that it turns: a goal
of that function's own has to stay open, in the clause that the edit names. That the other functions are proved is the matter of
the proofs: here each is taken by its contract (a hole stands in place of its proof). A function that is not proved because one
that it calls was turned says nothing; its edit is tried once more, without those that were refused. An edit of anything but the
body of one function is tried alone, and some goal has to stay open. What a proof is told where a name that it uses is gone does
not count.

The last line says how many passed, which are those that were refused, and the status is 0 where all did.
"""
import argparse
import concurrent.futures
import contextlib
import dataclasses
import hashlib
import json
import os
import pathlib
import re
import shutil
import signal
import subprocess
import sys
import tempfile
import time

ROOT = pathlib.Path(__file__).resolve().parent.parent
PARTS = ("src", "specs", "proofs")
# Where the edits of a crate stand: those that the gate tries, and the others.
FOLDERS = ("must-fail", "must-fail-more")
# What a proof file is told where an edit took away what it names, which says nothing of the function's contract.
NAMES = re.compile(r"has no field|is not in scope|has no `|was not admitted")


def toolchain():
    """Returns the folder of the toolchain: the one that the command rt is in."""
    found = shutil.which("rt") or "/opt/rattle/bin/rt"
    return pathlib.Path(found).resolve().parent.parent


@dataclasses.dataclass(frozen=True)
class Crate:
    """A crate, with the names of the libraries that its line in crates.txt gives it."""

    name: str
    folder: pathlib.Path
    uses: tuple


@dataclasses.dataclass(frozen=True)
class Function:
    """A function of a source: the module that it stands in, how the prover names it there, as a pattern, and where it begins and ends."""

    module: str
    pattern: str
    begin: int
    end: int


@dataclasses.dataclass(frozen=True)
class Edit:
    """An edit: its file, the texts that it replaces in files of the crate, the one function whose body they are in, if there is one, and what it says of itself."""

    file: pathlib.Path
    changes: tuple
    function: tuple
    breaks: str
    where: str

    @property
    def name(self):
        return self.file.stem


@dataclasses.dataclass(frozen=True)
class Outcome:
    """What the prover said of an edit: the clauses in which a goal stays open (none: it was not refused), whether its search alone gave up, and in words."""

    clauses: tuple
    is_search: bool
    text: str


class Unfit(Exception):
    """An edit that cannot be applied, or a check that came to no verdict."""


def crates():
    """Returns the crates of crates.txt by their names."""
    found = {}
    for line in (ROOT / "crates.txt").read_text().splitlines():
        name, _, uses = line.partition(":")
        if name and not name.startswith("#"):
            found[name] = Crate(name, ROOT / "crates" / name, tuple(uses.split()))
    return found


def below(crate, every):
    """Returns the crates of this repository that a crate stands on, itself left out."""
    found, left = {}, list(crate.uses)
    while left:
        name = left.pop()
        if name in every and name not in found:
            found[name] = every[name]
            left += every[name].uses
    return found


# Where functions stand in a source. The sources are laid out by the toolchain's formatter, so what a line begins ends with the next bracket at the same depth.

HEAD = re.compile(r"( *)(?:pub(?:\([a-z]+\))? )?(?:const )?fn (\w+)")
OWNER = re.compile(r"(?:pub(?:\([a-z]+\))? )?(?:impl(?:<.*?>)? (?:([\w:]+)(?:<(.*)>)? for )?([\w:]+)|trait (\w+))")


def functions(path, text):
    """Returns the functions of a source that have a body."""
    module = "".join(f"{it}::" for it in pathlib.PurePosixPath(path).with_suffix("").parts[1:] if it not in ("lib", "main"))
    found, owner, at = [], [], 0
    lines = text.splitlines(keepends=True)
    for number, line in enumerate(lines):
        if OWNER.match(line):
            owner = [name_of_owner(*OWNER.match(line).groups(default=""))]
        head = HEAD.match(line)
        if head:
            name = "::".join([*(owner if head[1] else []), head[2]])
            body = span_of_body(lines[number:], head[1], at)
            found += [Function(module, name, at, body[1])] if body else []
        at += len(line)
    return found


def name_of_owner(trait, of, kind, name):
    """Returns the pattern of the prover's name for what a function's impl or trait stands for."""
    last = lambda path: path.split("::")[-1]
    return last(kind or name) + (last(trait) + "".join(re.findall(r"\b[A-Z]\w*", of)) + r"\w*" if trait else "")


def span_of_body(lines, indent, at):
    """Returns where the body begins and ends of the function that these lines begin with, the first of them at a place, or None if it has none."""
    begin = None
    for number, line in enumerate(lines):
        is_first = number == 0 or line.startswith(f"{indent})")
        if begin is None and (line.rstrip() == f"{indent}{{" or is_first and line.rstrip().endswith("{")):
            begin = at
        is_past = number > 0 and (HEAD.match(line) or line.strip() and not line.startswith(indent))
        if begin is None and (is_past or is_first and line.rstrip().endswith(("}", ";"))):
            return None
        at += len(line)
        if begin is not None and line.rstrip() == f"{indent}}}":
            return begin, at
    return None


def read_edit(file, crate):
    """Returns an edit, with the one function whose body it turns, if there is one."""
    changes, path, old, said = [], None, None, {"turns": "", "breaks": "", "where": ""}
    for line in file.read_text().splitlines():
        key, _, rest = line.partition(":")
        rest = rest.removeprefix(" ")
        if key == "file":
            path = rest.strip()
        elif key == "old":
            old = rest
        elif key == "new":
            text = (crate.folder / path).read_text()
            if text.count(old) != 1:
                raise Unfit(f"{crate.name}/{file.stem}: its old text is {text.count(old)} times in {path}, and not once")
            changes.append((path, text.index(old), len(old), rest))
        elif key in said:
            said[key] = rest.strip()
    if not changes:
        raise Unfit(f"{crate.name}/{file.stem}: it has no pair of an old and a new text")
    turned = {function_at(crate, *it[:3]) for it in changes}
    function = (path, Function("", rf"(\w+::)*{said.pop('turns')}", 0, 0)) if said["turns"] else turned.pop() if len(turned) == 1 else None
    said.pop("turns", None)
    return Edit(file, tuple(changes), function, **said)


def edits_of(crate, has_all):
    """Returns the edits of a crate: those that the gate tries, or all."""
    return [read_edit(it, crate) for folder in FOLDERS[: 1 + has_all] for it in sorted((crate.folder / folder).glob("*.edit"))]


def function_at(crate, path, at, length):
    """Returns the file and the function in which a text stands, or None if it stands in none of src/."""
    if not path.startswith("src/"):
        return None
    inside = [it for it in functions(path, (crate.folder / path).read_text()) if it.begin <= at and at + length <= it.end]
    return (path, inside[-1]) if inside else None


def apply(edits, folder):
    """Makes the changes of edits, none of which touches what another does, in a copy of the crate."""
    changes = sorted((change for edit in edits for change in edit.changes), key=lambda it: -it[1])
    for path, at, length, new in changes:
        file = folder / path
        text = file.read_text()
        file.write_text(text[:at] + new + text[at + length :])


def together(edits):
    """Returns the edits to try next: those that turn the bodies of different functions, or one that turns something else."""
    found = {}
    for edit in edits:
        if edit.function is not None and edit.function[1].end:
            found.setdefault(edit.function, edit)
    return list(found.values()) or list(edits[:1])


# What the prover says of a crate.


def words(crate, every, proved, jobs):
    """Returns the command that checks a crate over the libraries that were built in a folder, on so many processors."""
    kit = toolchain()
    libraries = {it: proved / "crates" / it / "out" / "rlib" for it in below(crate, every)}
    found = [str(kit / "bin" / "rattle"), "check", "--crate-name", crate.name, "src/lib.rt"]
    for name in ["std", *crate.uses]:
        found += ["--extern", f"{name}={libraries.get(name, kit / 'rlibs')}/{name}.rlib"]
    for folder in [kit / "rlibs", *libraries.values()]:
        found += ["-L", f"dependency={folder}"]
    found += ["--antt-project", str(kit / "rattle/logic/antt-project.json"), "--logic-built", str(kit / "logic_built")]
    return [*found, "--links", f"{crate.name}=", "--jobs", str(jobs)]


def said_by(command, folder):
    """Returns the lines that a command prints, which is called once more where it was killed, most likely for memory."""
    for _ in range(2):
        ran = subprocess.run(command, cwd=folder, stdout=subprocess.PIPE, stderr=subprocess.STDOUT, text=True, errors="replace")
        if ran.returncode != -signal.SIGKILL:
            break
    return ran.stdout.splitlines()


def functions_built(crate, proved):
    """Returns the functions of a crate as the prover names them, by what the library has that was built of it in a folder."""
    listing = proved / "crates" / crate.name / "out" / "rlib" / f"{crate.name}.rlib" / "toolchain" / "checked.json"
    names = (re.match(rf'\["(?:part/)?Rattle-{crate.name}-proofs\.TheLinks\.{crate.name}-([\w-]+)"', it) for it in listing.read_text().splitlines())
    return [it[1].replace("-", "::") for it in names if it]


def with_bodies(crate, names):
    """Returns those of a crate's functions, as the prover names them, that have a body in its sources: neither derived ones nor those that a trait only declares."""
    texts = ((str(it.relative_to(crate.folder)), it.read_text()) for it in sorted((crate.folder / "src").rglob("*.rt")))
    # (only a method can be named in another module than the one that its text stands in)
    patterns = [it for path, text in texts for function in functions(path, text) for it in pattern_of(function)[: 1 + ("::" in function.pattern)]]
    whole = re.compile("|".join(f"(?:{it.pattern})" for it in patterns))
    return [it for it in names if whole.fullmatch(it)]


def leave_open(crate, function, copy):
    """Puts a hole in place of the proof of a function, so that its contract is taken as it stands."""
    folder = copy / "proofs" / pathlib.Path(*function.split("::"))
    for file in ("Answers.antt", "Invariants.antt"):
        (folder / file).unlink(missing_ok=True)
    folder.mkdir(parents=True, exist_ok=True)
    name, module = f"{function.split('::')[-1]}_spec", function.replace("::", ".")
    statement = f"use Rattle.{crate.name}.proofs.{module}.Statement.{{statement}}\n\n"
    (folder / "Proof.antt").write_text(f"{statement}pub {name} : {{M : Type 1}} → statement M\n{name} = ?\n")


def check(command, crate, edits, others, room):
    """Returns what the prover says of a crate with these edits, where the other functions are taken by their contracts; what it finds is kept in room for the next check."""
    copy = room / "crate"
    shutil.rmtree(copy, ignore_errors=True)
    for part in PARTS:
        if (crate.folder / part).is_dir():
            shutil.copytree(crate.folder / part, copy / part)
    apply(edits, copy)
    for function in others:
        leave_open(crate, function, copy)
    lines = said_by([*command, "--incremental", str(room / "kept")], copy)
    if not any(it.startswith(("logic=", "only=")) for it in lines[-3:]):
        told = next((it for it in lines if "error" in it), lines[-1] if lines else "nothing")
        raise Unfit(f"no verdict with {', '.join(it.name for it in edits)}: {told[:200]}")
    return lines


def verdicts(crate, lines):
    """Returns what the prover says of each function, by its path below the crate."""
    found = (re.match(rf"fn {crate.name}::(\S+): (.*)", it) for it in lines)
    return {it[1]: it[2] for it in found if it}


def own_goals(function, said, lines):
    """Returns the goals of a function's own that stay open, whatever becomes of those that it calls: those that a search gave up, and those whose answers are refused."""
    given_up = re.findall(r"`([^`]+)`", said.partition("did not prove")[2].partition(";")[0])
    folder = re.compile(rf"(\./)?proofs/{re.escape(function.replace('::', '/'))}/[^/]*: error: (.*)")
    told = (folder.match(it) for it in lines)
    refused = [it[2] for it in told if it and not NAMES.search(it[2])]
    return given_up, refused


def clause_of(goal):
    """Returns the clause that a goal belongs to, by the goal's name."""
    if found := re.search(r"^returns.*-clause-([\w*]+)$", goal):
        return found[1]
    if goal.startswith("returns"):
        return "ensures"
    if goal.startswith(("loop", "invariant_of")):
        return goal.partition("-")[0].partition("_")[0]
    if found := re.search(r"^(\w+)-.*requires", goal):
        return f"requires of {found[1]}"
    return goal.partition("-")[0].partition("_")[0]


def pattern_of(function):
    """Returns how the prover names a function of a source, as a pattern; a method is named where its type is declared, which may be another module."""
    return [re.compile(module + function.pattern) for module in (function.module, r"(\w+::)*")]


def named(edit, names):
    """Returns the function of an edit as the prover names it."""
    for pattern in pattern_of(edit.function[1]):
        found = [it for it in names if pattern.fullmatch(it)]
        if len(found) == 1:
            return found[0]
    raise Unfit(f"{edit.name}: the prover names {len(found)} functions {edit.function[1].pattern}, and not one")


def outcomes(crate, turned, lines):
    """Returns what the prover said of each of the edits that turn functions, by its name; one that is to be tried again is left out."""
    said = verdicts(crate, lines)
    found = {edit.name: outcome(name, said.get(name, "of no verdict"), lines) for name, edit in turned.items()}
    return {name: told for name, told in found.items() if told}


def outcome(name, verdict, lines):
    """Returns what the prover said of the edit that turns a function, or None where the verdict rests on another function."""
    given_up, refused = own_goals(name, verdict, lines)
    # an answer is refused under the name of its goal
    goals = given_up + [it for told in refused for it in re.findall(r"^`([^`]+)`", told)]
    if given_up or refused:
        return Outcome(tuple(dict.fromkeys(map(clause_of, goals))) or ("ensures",), not refused, f"refused in {name}")
    if verdict in ("proved", "no holes") or verdict.startswith("depends on a hole"):
        return Outcome((), False, f"NOT REFUSED: {name} is still proved")
    if "it calls" in verdict:
        return None
    return Outcome((), False, f"NOT REFUSED for what it turns, but maybe since a proof names what is gone: {name} is {verdict}")


def outcome_alone(crate, lines):
    """Returns what the prover said of an edit that was tried alone: the clauses that it breaks are the functions and lemmas that are no longer proved."""
    told = (re.match(r"(?:\./)?proofs/\S+?:\d+:\d+: error: (.*)", it) for it in lines)
    lemmas = [name for it in told if it and not NAMES.search(it[1]) for name in re.findall(r"^`([^`]+)`", it[1])]
    said = verdicts(crate, lines)
    if not lemmas and not any("did not prove" in it for it in said.values()):
        return Outcome((), False, "NOT REFUSED for what it turns")
    functions = [name.split("::")[-1] for name, verdict in said.items() if verdict != "proved"]
    return Outcome(tuple(dict.fromkeys(functions + lemmas)), not lemmas, "refused")


def judged(edit, found):
    """Returns whether an edit was refused as it has to be by what the prover said of it, and what is told."""
    told = f"{found.text}, which breaks {', '.join(found.clauses)}"
    if not found.clauses:
        return False, found.text
    if not edit.breaks:
        return False, f"it names no clause: {told}"
    # (a clause that is the only one has goals without a name, and what holds behind a loop rests on its invariant)
    if not {edit.breaks, "ensures", "loop"} & set(found.clauses):
        return False, f"NOT REFUSED in the clause {edit.breaks} that it names: {told}"
    if found.is_search and not edit.where:
        return False, f"it names no value for which the clause is false, and a search alone refused it: {told}"
    return True, told


def try_crate(crate, edits, command, names):
    """Tries edits of a crate, and returns what the prover said of each, by its name."""
    found, left = {}, list(edits)
    with tempfile.TemporaryDirectory(prefix="inform-edits-") as room:
        while left:
            now = together(left)
            if now[0].function is None:
                told = {now[0].name: outcome_alone(crate, check(command, crate, now, [], pathlib.Path(room)))}
            else:
                turned = {named(it, names): it for it in now}
                only = [word for name in turned for word in ("--only", name)]
                others = [it for it in with_bodies(crate, names) if it not in turned]
                told = outcomes(crate, turned, check([*command, *only, "--allow-holes"], crate, now, others, pathlib.Path(room)))
            if not told:
                raise Unfit(f"{', '.join(it.name for it in now)}: each waits for another")
            found.update(told)
            left = [it for it in left if it.name not in found]
    return found


def note(edits, found):
    """Gives each edit that names no clause the line that does, the first in which it was refused."""
    for edit in edits:
        if found[edit.name].clauses and not edit.breaks:
            edit.file.write_text(f"{edit.file.read_text().rstrip()}\nbreaks: {found[edit.name].clauses[0]}\n")


# What earlier runs on this machine found, by the sum of all that they read.


def sum_of(crate, every, edits):
    """Returns a sum of all that the prover's verdicts on edits of a crate rest on; what an edit says of itself is not of it."""
    sum = hashlib.sha256(pathlib.Path(__file__).read_bytes())
    sum.update((toolchain() / "KIT-ID").read_bytes())
    for it in [crate, *sorted(below(crate, every).values(), key=lambda it: it.name)]:
        sum.update(repr((it.name, it.uses)).encode())
        for file in sorted(file for part in PARTS for file in (it.folder / part).rglob("*") if file.is_file()):
            sum.update(repr((str(file.relative_to(it.folder)), file.read_bytes())).encode())
    sum.update(repr([(it.name, it.changes) for it in edits]).encode())
    return sum.hexdigest()


def place_of(sum):
    """Returns the file that holds what was found for a sum."""
    cache = os.environ.get("XDG_CACHE_HOME") or os.path.expanduser("~/.cache")
    return pathlib.Path(cache) / "inform" / "edits" / sum


def known(place):
    """Returns what an earlier run found, or None."""
    try:
        return {name: Outcome(tuple(clauses), *told) for name, (clauses, *told) in json.loads(place.read_text()).items()}
    except (OSError, ValueError):
        return None


def keep(found, place):
    """Keeps what was found of edits that were all refused, where a file can be written; it is written apart and renamed, so that no run reads half of it."""
    if all(it.clauses for it in found.values()):
        with contextlib.suppress(OSError):
            place.parent.mkdir(parents=True, exist_ok=True)
            with tempfile.NamedTemporaryFile("w", dir=place.parent, delete=False) as file:
                json.dump({name: dataclasses.astuple(it) for name, it in found.items()}, file)
            os.replace(file.name, place)


def tried(crate, every, options, jobs):
    """Returns the lines that tell what became of the edits of a crate, and how many passed and failed."""
    begun = time.monotonic()
    try:
        edits = edits_of(crate, options.all)
        place = place_of(sum_of(crate, every, edits))
        found, how = None if options.anew else known(place), "as an earlier run of the same files on this machine found"
        if not found:
            found = try_crate(crate, edits, words(crate, every, options.proved, jobs), functions_built(crate, options.proved))
            how = f"in {time.monotonic() - begun:.0f} s"
            keep(found, place)
    except (OSError, Unfit) as why:
        return [f"edits: {crate.name}: {why}"], 0, 1
    if options.note:
        note(edits, found)
    told = [(it.name, *judged(it, found[it.name])) for it in edits]
    passed = sum(is_refused for _, is_refused, _ in told)
    lines = [f"edits: {crate.name}/{name}: {text}" for name, _, text in told]
    return [*lines, f"edits: {crate.name}: {passed} of {len(found)} refused, {how}"], passed, len(found) - passed


# The order of the crates.


def told_by(report):
    """Returns the crates that the toolchain's gate has proved by its report, and whether it has ended."""
    text = report.read_text(errors="replace")
    return set(re.findall(r"^rt: (\w+) (?:proved$|is kept:)", text, re.M)), bool(re.search(r"^\d+ passed, \d+ failed", text, re.M))


def time_idle():
    """Returns how many seconds the processors were idle since the machine was started, or None where the system does not tell."""
    with contextlib.suppress(OSError, ValueError, IndexError):
        return int(pathlib.Path("/proc/stat").read_text().split()[4]) / os.sysconf("SC_CLK_TCK")


def idle_processors(seconds=2):
    """Waits so many seconds, and returns how many processors were idle, or None where the system does not tell."""
    before = time_idle()
    time.sleep(seconds)
    after = time_idle()
    return None if before is None or after is None else round((after - before) / seconds)


def results(chosen, every, options):
    """Gives what becomes of the edits of each crate, in the order in which they end. Those that take longest begin first. As long as the
    toolchain's gate goes on, a crate's edits begin only on a processor that it leaves idle: beside a busy one they cost twice the time."""
    lanes = len(os.sched_getaffinity(0))
    size = {it.name: sum(file.stat().st_size for part in PARTS for file in (it.folder / part).rglob("*.*")) for it in chosen}
    left, running = sorted(chosen, key=lambda it: -size[it.name]), set()
    with concurrent.futures.ThreadPoolExecutor(lanes) as pool:
        while left or running:
            done, has_ended = told_by(options.report) if options.report else ({it.name for it in left}, True)
            free = lanes if has_ended else idle_processors()
            for crate in [it for it in left if it.name in done][: min(lanes - len(running), lanes if free is None else free)]:
                jobs = max(1, lanes // (len(left) + len(running)))
                left.remove(crate)
                running.add(pool.submit(tried, crate, every, options, jobs))
            if has_ended and not running:
                yield from (([f"edits: {it.name} is not proved, so its edits were not tried"], 0, 1) for it in left if it.name not in done)
                left = [it for it in left if it.name in done]
            ended, running = concurrent.futures.wait(running, timeout=1, return_when=concurrent.futures.FIRST_COMPLETED)
            yield from (it.result() for it in ended)
            time.sleep(0 if ended or running else 1)


def main():
    reader = argparse.ArgumentParser(usage=__doc__)
    reader.add_argument("--all", action="store_true")
    reader.add_argument("--anew", action="store_true")
    reader.add_argument("--note", action="store_true")
    reader.add_argument("--proved", type=pathlib.Path, default=ROOT)
    reader.add_argument("--report", type=pathlib.Path)
    reader.add_argument("crates", nargs="*")
    options = reader.parse_args()
    options.proved = options.proved.resolve()
    every = crates()
    has_edits = (it for it in every.values() if any((it.folder / folder).is_dir() for folder in FOLDERS[: 1 + options.all]))
    chosen = [every[it] for it in options.crates] or list(has_edits)
    passed = failed = 0
    for lines, good, bad in results(chosen, every, options):
        passed, failed = passed + good, failed + bad
        print("\n".join(lines), flush=True)
    print(f"{passed} passed, {failed} failed")
    return 1 if failed else 0


if __name__ == "__main__":
    sys.exit(main())
