"""The programs that `beside.py` and `kinds.py` compare, and what a run of one costs."""

import os
import re
import shutil
import subprocess
import sys
import time

OTHER = "inform6"
PACKAGES = {OTHER: "inform6-compiler", "dfrotz": "frotz", "valgrind": "valgrind"}
# Words for the programs: with these Debian's makes no warnings, version 5, and no checks in the story; ours no warnings, and more room.
OTHER_WORDS = ["-w", "-v5", "-~S", "-~D"]
LARGE = "MAX_SYMBOLS MAX_LINESPACE MAX_PROP_TABLE_SIZE MAX_STATIC_DATA MAX_CODE MAX_STATIC_STRINGS MAX_REFS".split()
LIMITS = dict.fromkeys(LARGE, 1_048_576) | {
    "MAX_LABELS": 100_000, "MAX_DICT_ENTRIES": 10_000, "MAX_EXPRESSION_NODES": 10_000, "MAX_OBJECTS": 5_000, "MAX_VERBS": 255,
    "MAX_ACTIONS": 5_000}
OUR_WORDS = ["-w", *(f"${name}={limit}" for name, limit in LIMITS.items())]


def located(name):
    """The path of a program, which may be a game; none if there is no such program."""
    return shutil.which(name, path=os.environ.get("PATH", os.defpath) + os.pathsep + "/usr/games")


def missing(needed, ours):
    """Lines that tell which of these programs are not there."""
    found = {name: f" (apt-get install {PACKAGES[name]})" for name in needed} | dict.fromkeys(ours, "")
    return "\n".join(f"{name} is missing{how}" for name, how in found.items() if not located(name))


def option(words, name, usage):
    """The word behind this one, which are both taken out of the words; none if it is not there."""
    if name not in words:
        return None
    place = words.index(name)
    if place + 1 == len(words):
        sys.exit(usage)
    del words[place]
    return words.pop(place)


def compilation(program, file, story, more=()):
    """The words by which a program compiles a file to a story."""
    return [located(program), *(OTHER_WORDS if program == OTHER else OUR_WORDS), *more, str(file), str(story)]


def cost(words):
    """The seconds that a run takes: of the processor in the program, these and the ones in the system, and by the clock."""
    quiet = [(os.POSIX_SPAWN_OPEN, descriptor, os.devnull, os.O_WRONLY, 0) for descriptor in (1, 2)]
    start = time.perf_counter()
    process = os.posix_spawn(words[0], words, os.environ, file_actions=quiet)
    _, status, used = os.wait4(process, 0)
    end = time.perf_counter()
    if status:
        sys.exit(f"status {status}: {' '.join(words)}")
    return used.ru_utime, used.ru_utime + used.ru_stime, end - start


def instructions(words, profile):
    """How many instructions a run takes; the file `profile` says of which functions then."""
    under = [located("valgrind"), "--tool=callgrind", f"--callgrind-out-file={profile}"]
    done = subprocess.run(under + words, capture_output=True, text=True, errors="replace", check=False)
    found = re.search(r"Collected : (\d+)", done.stderr)
    if done.returncode or not found:
        sys.exit(f"{' '.join(words)} under valgrind gave {done.returncode}: {done.stderr[-900:]}")
    return int(found[1])
