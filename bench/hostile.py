#!/usr/bin/env python3
"""Compiles hostile sources, and prints a row for each; bench/HOSTILE.md has those that take most.

    bench/hostile.py PROGRAM

Each source has 16,777,216 bytes, the most that one may have, and is compiled by the settings that hold without a word and by the greatest
ones. A row tells how often the source repeats its part, how the run ends, the processor time with that of the system, and the most memory,
by both. Where one of them is over 0.5 s or 64 MB, a source of a sixteenth of the size is compiled by callgrind, by the settings that took
longer, and the row tells the instructions for each part and the functions that take most of them. A run that takes less memory than Python
itself, some 16 MB, is told with as much as that.

It needs `valgrind` (apt-get install valgrind). With `--only KIND` there is one row.
"""

import os
import re
import subprocess
import sys
import tempfile
from concurrent.futures import ThreadPoolExecutor
from multiprocessing import get_context
from pathlib import Path

sys.dont_write_bytecode = True
from hostile_kinds import KINDS, parts_of, source_of  # noqa: E402
from programs import missing, option  # noqa: E402

LONGEST = 16_777_216
SHORTER = LONGEST // 16
MOST_SECONDS, MOST_MEGABYTES = 0.5, 64
NAMES = """QTEXT_SIZE EXPRESSION_NODES SYMBOLS LABELS DICT_ENTRIES OBJECTS VERBS ACTIONS LINESPACE PROP_TABLE_SIZE STATIC_DATA LOW_STRINGS CODE
    STATIC_STRINGS REFS""".split()
GREATEST = [f"$MAX_{name}=1048576" for name in NAMES]
HEAD = ["source", "parts", "ends with", "time, memory", "by the greatest settings", "a part", "most of it in"]
# What a line of `callgrind_annotate` tells of a function.
SHARE = re.compile(r"^\s*[\d,]+ \(\s*([\d.]+)%\)\s+[^:]*:(.+?)(?: \[.*\])?$")


def write_source(kind, size, file):
    """Writes the source of a kind with as many bytes into a file."""
    Path(file).write_bytes(source_of(kind, size).encode("latin-1"))


def made(kind, size, folder):
    """Makes the source of a kind with as many bytes in a folder, in a process of its own, whose memory is not that of this one."""
    maker = get_context("fork").Process(target=write_source, args=(kind, size, folder / "t.inf"))
    maker.start()
    maker.join()


def cost(program, words, folder):
    """Seconds, megabytes, the last line of messages and the status of a run in a folder."""
    told = folder / "told"
    command = [program, *words, "t"]
    actions = [(os.POSIX_SPAWN_OPEN, 1, str(told), os.O_WRONLY | os.O_CREAT | os.O_TRUNC, 0o644), (os.POSIX_SPAWN_DUP2, 1, 2)]
    process = os.posix_spawn(command[0], command, os.environ, file_actions=actions)
    _, status, used = os.wait4(process, 0)
    with open(told, "rb") as file:
        file.seek(max(0, told.stat().st_size - 400))
        last = file.read().decode("latin-1").splitlines()[-1]
    return used.ru_utime + used.ru_stime, used.ru_maxrss / 1024, last, os.waitstatus_to_exitcode(status)


def profile(program, words, folder):
    """The instructions of a run in a folder, and the functions that take a twentieth of them or more, at most four."""
    out = folder / "callgrind"
    under = ["valgrind", "--tool=callgrind", f"--callgrind-out-file={out}"]
    done = subprocess.run([*under, program, *words, "t"], cwd=folder, capture_output=True, check=False)
    count = int(re.search(rb"Collected : (\d+)", done.stderr)[1])
    listed = subprocess.run(["callgrind_annotate", out], capture_output=True, text=True, check=True).stdout
    shares = [found.groups() for line in listed.splitlines() if (found := SHARE.match(line))]
    return count, [f"{named(name)} {float(share):.0f}%" for share, name in shares if float(share) >= 5][:4]


def named(function):
    """The name of a function with the type or module that it stands in, without types that it is made for."""
    return f"`{'::'.join(re.sub(r'::<.*', '', function).split('::')[-2:])}`"


def row_of(kind, program):
    """The cells of a kind, the words with which it took longer, and whether it takes more than it is to take."""
    with tempfile.TemporaryDirectory() as place:
        folder = Path(place)
        os.chdir(folder)
        made(kind, LONGEST, folder)
        runs = [cost(program, words, folder) for words in ([], GREATEST)]
        os.chdir("/")
    cells = [kind, f"{parts_of(kind, LONGEST):,}", " / ".join(dict.fromkeys(ending(run) for run in runs))]
    cells += [f"{seconds:.2f} s, {memory:.0f} MB" for seconds, memory, *_ in runs]
    high = any(seconds > MOST_SECONDS or memory > MOST_MEGABYTES for seconds, memory, *_ in runs)
    return cells, GREATEST if runs[1][0] > runs[0][0] else [], high


def ending(run):
    """How a run ended: with a story, with errors, with the fatal error that its last message tells, or with a status that is none of these."""
    *_, last, status = run
    if status not in (0, 1):
        return f"status {status}: {last[:60]}"
    if told := re.match(r"\S+\(\d+\): Fatal error: (MAX_\w+|.*)", last):
        return f"`{told[1]}`" if told[1].startswith("MAX_") else told[1].lower()
    return "errors" if status else "a story"


def profiled(kind, program, words):
    """The instructions for each part of a kind's source, and the functions that take most."""
    with tempfile.TemporaryDirectory() as place:
        made(kind, SHORTER, Path(place))
        whole, functions = profile(program, words, Path(place))
    return [f"{whole / parts_of(kind, SHORTER):,.0f}", ", ".join(functions)]


def tell(cells):
    """Prints a row of the table."""
    print(f"| {' | '.join(cells)} |", flush=True)


def main():
    """Does what the words of the command line say."""
    words = sys.argv[1:]
    only = option(words, "--only", __doc__)
    if len(words) != 1 or only not in (None, *KINDS):
        sys.exit(__doc__)
    if told := missing(["valgrind"], words):
        sys.exit(told)
    program = os.path.abspath(words[0])
    rows = {kind: row_of(kind, program) for kind in ([only] if only else KINDS)}
    tell(HEAD)
    tell(["---"] * len(HEAD))
    with ThreadPoolExecutor(os.cpu_count()) as threads:
        high = {kind: threads.submit(profiled, kind, program, chosen) for kind, (_, chosen, high) in rows.items() if high}
        for kind, (cells, *_) in rows.items():
            tell([*cells, *(high[kind].result() if kind in high else ["", ""])])


main()
