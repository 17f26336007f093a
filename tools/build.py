#!/usr/bin/env python3
"""Proves and builds the crates of a folder, and tells on standard error how far it is.

usage: tools/build.py RT FOLDER LOG [--anew]

RT is the toolchain's command. FOLDER has a crates.txt and the crates that it names, and nothing else. What RT says goes to LOG.
Its gate (`rt ci`) proves crates that do not stand on each other side by side, as many as processors and memory allow. A toolchain
that keeps what it proved takes that over (but with --anew): then a build that was interrupted goes on where it was.

tools/checks.tsv has a line for each crate that was measured: its name, how many functions the prover names in it, how many seconds of a
processor their proof takes from nothing, with that of its tests, and how many its edits take, with tabs between them. What is not there, or
left empty, is guessed from the crate's sources. The time of the whole is that of a plan by these times, as much slower or faster as the crates that are proved so
far were.
"""

import contextlib
import os
import re
import subprocess
import sys
import time
from pathlib import Path

TABLE = Path(__file__).resolve().parent / "checks.tsv"
DONE = re.compile(r"rt: (\w+) (proved$|is kept:)")


class Crate:
    """A crate with those of the folder that it stands on, its functions, and the seconds of a processor that its proof takes."""

    def __init__(self, folder, name, below, functions, seconds):
        self.name, self.below, self.functions, self.seconds = name, below, functions, seconds
        if functions is None or seconds is None:
            texts = [file.read_text(encoding="utf-8") for file in (folder / "crates" / name).rglob("*") if file.suffix in (".rt", ".antt")]
        if functions is None:
            self.functions = sum(len(re.findall(r"\bfn \w", text)) for text in texts)
        if seconds is None:
            self.seconds = 20 + sum(text.count("\n") for text in texts) // 25


def rows():
    """The rows of the table: a crate's name, its functions, the seconds of its proof and those of its edits; None stands for what was not measured."""
    lines = [line.split("\t") for line in TABLE.read_text(encoding="utf-8").splitlines()[1:]]
    return [(name, *(int(it) if it else None for it in numbers)) for name, *numbers in lines]


def measured():
    """The functions and the seconds of each crate in the table, by its name."""
    return {name: (functions, seconds) for name, functions, seconds, _ in rows()}


def measured_edits():
    """The seconds that the edits of each crate take that has some, by its name."""
    return {name: seconds for name, _, _, seconds in rows() if seconds}


def crates_of(folder):
    """The crates of a folder, by their names."""
    known = measured()
    lines = [line.split(":") for line in (folder / "crates.txt").read_text(encoding="utf-8").splitlines() if line.strip()]
    names = [name for name, _ in lines]
    return {name: Crate(folder, name, [it for it in uses.split() if it in names], *known.get(name, (None, None))) for name, uses in lines}


def chain_above(crates):
    """The seconds from the beginning of a crate's proof to the end of all that stands on it, one behind the other."""
    found = {}

    def chain(name):
        if name not in found:
            above = [it.name for it in crates.values() if name in it.below]
            found[name] = crates[name].seconds + max(map(chain, above), default=0)
        return found[name]

    return {name: chain(name) for name in crates}


def plan(crates, processors):
    """When each proof ends if as many run at a time, those with most above them first."""
    chains, ends, running = chain_above(crates), {}, {}
    left, now = sorted(crates, key=lambda name: -chains[name]), 0
    while left or running:
        ready = [name for name in left if all(it in ends for it in crates[name].below if it in crates)]
        for name in ready[: processors - len(running)]:
            left.remove(name)
            running[name] = now + crates[name].seconds
        name = min(running, key=running.get)
        ends[name] = now = running.pop(name)
    return ends


class Progress:
    """How far a build is, by the lines of its log."""

    def __init__(self, crates, processors):
        self.crates, self.processors = crates, processors
        self.kept, self.proved = set(), set()
        self.slower = 1.0

    def read(self, line, seconds):
        """Takes a line that came so many seconds behind the beginning."""
        found = DONE.match(line)
        if found and found[1] in self.crates:
            if found[2] == "proved":
                self.proved.add(found[1])
                ends = plan(self.to_prove(), self.processors)
                self.slower = seconds / max(ends[name] for name in self.proved)
            else:
                self.kept.add(found[1])

    def to_prove(self):
        """The crates that no earlier build proved, as far as is known."""
        return {name: crate for name, crate in self.crates.items() if name not in self.kept}

    def whole(self):
        """About how many seconds all takes."""
        return self.slower * max(plan(self.to_prove(), self.processors).values(), default=0)

    def line(self, seconds):
        done = self.kept | self.proved
        functions = sum(self.crates[name].functions for name in done)
        all_functions = sum(crate.functions for crate in self.crates.values())
        # what is late already takes a while more
        whole = max(self.whole(), seconds) + 59
        return (f"inform: {len(done)} of {len(self.crates)} crates and about {functions} of {all_functions} functions proved, "
                f"{int(seconds) // 60}:{int(seconds) % 60:02} of about {int(whole) // 60} min")


def tell(line, is_terminal):
    """Writes a line in the place of the one before on a terminal, else behind it."""
    print(f"\r\033[K{line}" if is_terminal else line, end="" if is_terminal else "\n", file=sys.stderr, flush=True)


def follow(build, log, progress):
    """Tells how far a build is for as long as it runs: each second on a terminal, else every half minute."""
    is_terminal, begun, told, rest = os.isatty(2), time.monotonic(), -30.0, ""
    while True:
        has_ended = build.poll() is not None
        seconds = time.monotonic() - begun
        *lines, rest = (rest + log.read()).split("\n")
        for line in lines:
            progress.read(line, seconds)
        if is_terminal or seconds - told >= 30 or has_ended:
            tell(progress.line(seconds), is_terminal)
            told = seconds
        if has_ended:
            if is_terminal:
                print(file=sys.stderr)
            return build.returncode
        with contextlib.suppress(subprocess.TimeoutExpired):
            build.wait(1)


def main(rt, folder, path, *words):
    progress = Progress(crates_of(Path(folder)), len(os.sched_getaffinity(0)))
    with open(path, "w", encoding="utf-8") as written, open(path, encoding="utf-8", errors="replace") as log:
        build = subprocess.Popen([rt, "ci", *words], cwd=folder, stdin=subprocess.DEVNULL, stdout=written, stderr=subprocess.STDOUT)
        try:
            return follow(build, log, progress)
        except KeyboardInterrupt:
            print("\ninform: the build was interrupted", file=sys.stderr)
            return 130
        finally:
            if build.poll() is None:
                build.terminate()
                build.wait()


if __name__ == "__main__":
    if len(sys.argv) not in (4, 5) or sys.argv[4:] not in ([], ["--anew"]):
        sys.exit(__doc__)
    sys.exit(main(*sys.argv[1:]))
