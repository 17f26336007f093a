"""Runs the cases of `tests/cases` and the sources of `tests/sources`, whose pages say in which form they stand there."""

import re
from pathlib import Path

from runs_compare import CLEAN, Parts, coded, story_of

TESTS = Path(__file__).resolve().parent
SOURCES = TESTS / "sources"
CASES = TESTS / "cases"
VERSIONS = {"code": 5, "code8": 8}
# A notation in place of other text: `<<0A>>` is a byte, and `<<3:abc>>` three copies of `abc`.
STANDING_FOR = re.compile(r"<<(?:([0-9A-F]{2})|(\d+):((?:(?!<<|>>).)*))>>", re.DOTALL)


def written_out(text):
    """Returns a text with each notation written out, the inner ones first."""
    found = True
    while found:
        text, found = STANDING_FOR.subn(lambda it: chr(int(it[1], 16)) if it[1] else int(it[2]) * it[3], text)
    return text


def content(lines):
    """Returns the bytes of lines with line ends between them."""
    return written_out("\n".join(lines)).encode("latin-1")


def told(lines):
    """Returns the bytes of lines, each with its line end."""
    return b"".join(content([line]) + b"\n" for line in lines)


def blocks(file):
    """Yields each paragraph of a file of cases: the number of its first line, its comment, and for each key a list of what lines say of it."""
    number, comment, said = 1, [], {}
    for place, line in enumerate([*file.read_text(encoding="ascii").splitlines(), ""], 1):
        if line.startswith("#"):
            comment.append(line[2:])
        elif line:
            key, colon, value = line.partition(":")
            if not colon:
                raise ValueError(f"{file.name}, line {place}: no colon")
            said.setdefault(key, []).append(value.removeprefix(" "))
        else:
            yield number, " ".join(comment), said
            number, comment, said = place + 1, [], {}


def stories_of(said):
    """Takes the stories out of what the lines of a case say: for each file a function that makes the whole story, or parts of it."""
    left = {}
    for key in [key for key in said if key.split(" ")[0] in ("code", "code8", "story", "size", "at")]:
        kind, file = written_out(key).split(" ", 1)
        value = written_out(said.pop(key)[0])
        if kind in VERSIONS:
            first = said.pop(f"first {file}", [None])[0]
            left[file] = coded(bytes.fromhex(value), VERSIONS[kind], first and int(first, 16))
            continue
        file, place = file.rsplit(" ", 1) if kind == "at" else (file, None)
        parts = left.setdefault(file, Parts())
        if kind == "size":
            parts.size = int(value)
        elif kind == "at":
            parts.places[int(place, 16)] = bytes.fromhex(value)
        elif value != "any":
            raise ValueError(f"{key}: {value}")
    return left


def run_case(runs, name, said):
    """Runs a case, and compares what the run leaves with what the lines of the case say."""
    left = stories_of(said)
    words = [content([given]) for given in said.pop("word", [])] or " ".join(said.pop("words", ["t"])).split()
    out, reason = told(said.pop("told", [CLEAN.decode().strip()])), told(said.pop("reason", []))
    status = int(said.pop("status", [0 if left else 1])[0])
    files = {written_out(file).removesuffix("/"): None if file.endswith("/") else content(lines) for file, lines in said.items()}
    runs.check(name, words, files, out, status, reason, left)


def cases(runs):
    """Runs the cases of each file of `tests/cases`."""
    for file in sorted(CASES.glob("*.cases")):
        for number, comment, said in blocks(file):
            if said:
                run_case(runs, f"{file.name}, line {number}: {comment}".rstrip(": "), said)


def counts(runs):
    """Runs sources of one line that just fit a setting, and pass it where it is one less."""
    for line in (CASES / "counts.rows").read_text(encoding="ascii").splitlines():
        if not line or line.startswith("#"):
            continue
        words, setting, count, source = re.fullmatch(r"((?:-\S+ )*)(\S+) (\d+) (.*)", line).groups()
        files = {"t.inf": source.encode()}
        fits, less = (runs.run([*words.split(), f"${setting}={most}", "t"], files)[:2] for most in (int(count), int(count) - 1))
        runs.expect(f"{words}{setting} just as many: {source}", fits, (CLEAN, 0))
        if count != "1":
            over = f"t.inf(1): Fatal error: {setting} is exceeded\n".encode()
            runs.expect(f"{words}{setting} one less: {source}", less, (over, 1))


def dated(story):
    """Returns a function that puts a date in place of the zeros in a story. A story with a serial number of its own has no such zeros."""
    return lambda day: story[:18] + day + story[24:] if story[18:24] in (b"000000", bytes(6)) else story


def given_with(source):
    """Returns the words of a command for a source of `tests/sources`: those of a file beside it, and the name."""
    words = source.with_suffix(".words")
    return [*(words.read_text().split() if words.exists() else []), "t"]


def files_with(source):
    """Returns a source of `tests/sources` as `t.inf`, with the files of a folder beside it."""
    included = sorted(source.with_suffix(".files").glob("*"))
    return {"t.inf": source.read_bytes(), **{file.name: file.read_bytes() for file in included}}


def sources(runs):
    """Runs each source of `tests/sources`, and again with `-v8` where a story of version 8 stands beside it."""
    for source in sorted(SOURCES.glob("*.inf")):
        lines, given, files = source.with_suffix(".out").read_bytes(), given_with(source), files_with(source)
        hexadecimal, whole, other = source.with_suffix(".code"), source.with_suffix(".story"), source.with_suffix(".story8")
        left = {}
        if hexadecimal.exists():
            left = {"t.z5": coded(bytes.fromhex(hexadecimal.read_text()))}
        elif whole.exists():
            left = {"t.z5": dated(bytes.fromhex(whole.read_text()))}
        runs.check(source.stem, given, files, lines, 0 if left else 1, b"", left)
        if other.exists():
            left = {"t.z8": dated(bytes.fromhex(other.read_text()))}
            runs.check(f"{source.stem}, version 8", ["-v8", *given], files, lines, 0, b"", left)


def limits_of_sources(runs):
    """Runs sources of `tests/sources` under settings that a file beside them has: with its number a source just fits, and with one less the
    setting is exceeded at the place that stands there."""
    for limits in sorted(SOURCES.glob("*.limits")):
        source = {"t.inf": limits.with_suffix(".inf").read_bytes()}
        for setting, count, place in (line.split() for line in limits.read_text().splitlines()):
            fits, less = (runs.run([f"${setting}={most}", "t"], source)[:2] for most in (int(count), int(count) - 1))
            over = f"{place}: Fatal error: {setting} is exceeded\n".encode()
            runs.expect(f"{setting} of {limits.stem}", (fits, less), ((CLEAN, 0), (over, 1)))
