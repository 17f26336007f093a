#!/usr/bin/env python3
"""Keeps the table of crates in docs/ARCHITECTURE.md, or prints how large each crate is.

usage: tools/crates.py check | write | sizes

The table stands between two marker lines of the page. It has a row for each line of crates.txt, in that order: the crate, and the
first sentence of the comment at the head of its src/lib.rt or src/main.rt, without the sections of manuals in brackets. Where a
program has no such comment, the sentence is that of the comment on its `main`.
`check` has status 1 where the page has another table or a crate has no sentence, `write` writes the table into the page, and
`sizes` prints of each crate the lines of src/, specs/ and proofs/ and the number of edits in must-fail/ and must-fail-more/.
"""
import pathlib
import re
import sys

ROOT = pathlib.Path(__file__).resolve().parent.parent
PAGE = ROOT / "docs" / "ARCHITECTURE.md"
BEGIN, END = "<!-- crates: tools/crates.py writes this table -->", "<!-- crates: end of the table -->"
PARTS = ("src", "specs", "proofs")
EDITS = ("must-fail", "must-fail-more")


def crates():
    """Returns the folders of the crates, in the order of crates.txt."""
    lines = (ROOT / "crates.txt").read_text(encoding="utf-8").splitlines()
    return [ROOT / "crates" / line.partition(":")[0] for line in lines if line.strip() and not line.startswith("#")]


def comment_of(folder):
    """Returns the first paragraph of the comment that says what a crate is, in one line."""
    sources = [file for file in (folder / "src" / "lib.rt", folder / "src" / "main.rt") if file.exists()]
    text = sources[0].read_text(encoding="utf-8") if sources else ""
    found = re.match(r"(?://!.*\n)+", text) or re.search(r"(?:^///.*\n)+(?=fn main\b)", text, re.MULTILINE)
    lines = re.sub(r"^//[/!] ?", "", found[0], flags=re.MULTILINE) if found else ""
    return " ".join(lines.partition("\n\n")[0].split())


def sentence_of(folder):
    """Returns the first sentence of a crate's comment, without its full stop."""
    found = re.match(r".*?\.(?=\s|$)", comment_of(folder))
    return re.sub(r" \([^()]*\b(?:Standard|Manual)\b[^()]*\)", "", found[0])[:-1] if found else ""


def table():
    """Returns the table, a line of the page each."""
    sentences = {folder.name: sentence_of(folder).replace("|", "\\|") for folder in crates()}
    silent = [name for name, sentence in sentences.items() if not sentence]
    if silent:
        sys.exit(f"no comment says what these crates have: {' '.join(silent)}")
    return ["| crate | has |", "|---|---|", *(f"| `{name}` | {sentence} |" for name, sentence in sentences.items())]


def page_with(rows):
    """Returns the page with these lines between its marker lines."""
    text = PAGE.read_text(encoding="utf-8")
    if text.count(f"{BEGIN}\n") != 1 or text.count(f"{END}\n") != 1:
        sys.exit(f"{PAGE}: the lines `{BEGIN}` and `{END}` have to stand there once each")
    before, rest = text.split(f"{BEGIN}\n")
    return "".join([before, f"{BEGIN}\n", *(f"{row}\n" for row in rows), f"{END}\n", rest.split(f"{END}\n")[1]])


def sizes_of(folder):
    """Returns how many lines and how many edits a crate has."""
    sources = [file for part in PARTS for file in (folder / part).rglob("*") if file.suffix in (".rt", ".antt")]
    edits = [file for part in EDITS for file in (folder / part).glob("*.edit")]
    return sum(file.read_text(encoding="utf-8").count("\n") for file in sources), len(edits)


def main(verb):
    if verb == "sizes":
        for folder in crates():
            lines, edits = sizes_of(folder)
            print(f"{folder.name:<24}{lines:>6} lines {edits:>4} edits")
        return 0
    wanted = page_with(table())
    if verb == "write":
        PAGE.write_text(wanted, encoding="utf-8")
    elif PAGE.read_text(encoding="utf-8") != wanted:
        print("docs/ARCHITECTURE.md has another table of crates than their comments say: tools/crates.py write")
        return 1
    return 0


if __name__ == "__main__":
    if sys.argv[1:] not in (["check"], ["write"], ["sizes"]):
        sys.exit(__doc__)
    sys.exit(main(sys.argv[1]))
