#!/usr/bin/env python3
"""Compares what sources of about 1 MB cost this compiler and Debian's, which takes them, too.

    bench/beside.py make --in FOLDER      makes the sources there, each whole and of half the size
    bench/beside.py check OURS..          compiles each by all programs, plays the stories and compares what they print
    bench/beside.py time [N] OURS..       processor time of each program, in runs that alternate: the least of N (15)
    bench/beside.py count OURS..          instructions by callgrind, and the functions that take most of those of ours

OURS is a program of this compiler, and the other one is `inform6`; ratios are about the last OURS. Of the times, `user` is that
in the program itself, `all` that with the system, and `wall` goes by the clock.

`make` needs no program, `check`, `time` and `count` need `inform6` (apt-get install inform6-compiler), `check` also `dfrotz`
(apt-get install frotz), and `count` also `valgrind` (apt-get install valgrind).

The sources are made in a temporary folder. With `--in FOLDER` those are taken that stand in that one, and what is missing is made
there and stays. With `--only KIND` there is one kind alone: arrays, objects, verbs, expressions, statements or texts.
"""

import itertools
import re
import subprocess
import sys
import tempfile
from pathlib import Path

sys.dont_write_bytecode = True
from choices import Source, count_tokens  # noqa: E402
from declarations import arrays, objects, texts, verbs  # noqa: E402
from programs import OTHER, compilation, cost, instructions, located, missing, option  # noqa: E402
from statements import expressions, statements  # noqa: E402

SIZE = 1_000_000                # bytes of a source, about
NEEDS = {"check": (OTHER, "dfrotz"), "time": (OTHER,), "count": (OTHER, "valgrind")}
KINDS = {"arrays": arrays, "objects": objects, "verbs": verbs, "expressions": expressions, "statements": statements, "texts": texts}
# More words for both programs, by the kind of a source
MORE_WORDS = {"texts": ["-e", "-v8"]}


def sources(folder, kinds, anew=False):
    """The files of the sources in a folder. One that is missing there is made, and every one if they are made anew."""
    folder.mkdir(parents=True, exist_ok=True)
    files = []
    for kind, (end, size) in itertools.product(kinds, (("", SIZE), ("_half", SIZE // 2))):
        files.append(folder / f"{kind}{end}.inf")
        if anew or not files[-1].exists():
            source = Source(kind, size)
            KINDS[kind](source)
            files[-1].write_text("".join(source.parts), encoding="ascii")
    return files


def words_for(program, file, story):
    """The words by which a program compiles one of the files to a story."""
    return compilation(program, file, story, MORE_WORDS.get(file.stem.removesuffix("_half"), []))


def make(files):
    """Tells how large the sources are."""
    for file in files:
        text = file.read_text(encoding="ascii")
        print(f"{file}: {len(text):,} bytes, {count_tokens(text):,} tokens")


def play(program, file, folder):
    """Returns what the story prints that a program makes of a file, and its size; none if something is wrong, which is told."""
    story = folder / "story.z5"
    story.unlink(missing_ok=True)
    steps = [(words_for(program, file, story), ""), ([located("dfrotz"), "-m", "-p", "-w", "200", str(story)], "total ")]
    for words, end in steps:
        done = subprocess.run(words, input="\n", capture_output=True, text=True, errors="replace", timeout=300, check=False)
        if done.returncode or not story.exists() or not last_line(done.stdout).startswith(end):
            print(f"{file.name}: {program}: {words[0]} gave {done.returncode}: {(done.stdout + done.stderr)[-900:]}", flush=True)
            return None
    return done.stdout, story.stat().st_size


def last_line(text):
    """The last line that is not empty; an empty one if there is none."""
    return text.strip().rpartition("\n")[2]


def check(files, programs, folder):
    """Tells whether the stories of all programs print the same; gives the status of this script."""
    status = 0
    for file in files:
        stories = [play(program, file, folder) for program in programs]
        if None in stories:
            status = 1
            continue
        sizes = ", ".join(f"{program} {size:,} bytes" for program, (_, size) in zip(programs, stories))
        texts = dict.fromkeys(text for text, _ in stories)
        ends = "; ".join(f"{len(text):,} characters up to `{last_line(text)}`" for text in texts)
        if len(texts) > 1:
            status = 1
        print(f"{file.name}: {sizes}; print {'DIFFERENT texts' if len(texts) > 1 else 'the same'}: {ends}", flush=True)
    return status


def tell_times(files, programs, folder, count):
    """Tells the least times of so many runs, in milliseconds."""
    for file in files:
        runs = {program: [] for program in programs}
        for _, program in itertools.product(range(count), programs):
            runs[program].append(cost(words_for(program, file, folder / "story.z5")))
        least = {program: [min(times) for times in zip(*found)] for program, found in runs.items()}
        ratios = [mine / other if other else 0 for mine, other in zip(least[programs[-2]], least[OTHER])]
        told = [f"{program} user {1000 * user:.1f} all {1000 * both:.1f} wall {1000 * wall:.1f} ms;"
                for program, (user, both, wall) in least.items()]
        print(f"{file.name:20}", *told, "ratio user {:.2f} all {:.2f} wall {:.2f}".format(*ratios), flush=True)


def most_of(profile):
    """The five functions that take most of the instructions themselves, and their shares."""
    words = ["callgrind_annotate", "--threshold=90", str(profile)]
    told = subprocess.run(words, capture_output=True, text=True, check=True).stdout
    found = re.findall(r"\(\s*([\d.]+%)\)\s+\S*?:?([\w:<>#.]+) \[/", told)
    return [(share, re.sub(r"::<#\w+>", "", name)) for share, name in found[:5]]


def count_instructions(files, programs, folder):
    """Tells how many instructions each source takes, and for the whole ones which functions of ours take most."""
    for file in files:
        tokens = count_tokens(file.read_text(encoding="ascii"))
        counts, most, profile = {}, [], folder / "profile.callgrind"
        for program in programs:
            counts[program] = instructions(words_for(program, file, folder / "story.z5"), profile)
            if program == programs[-2] and "_half" not in file.name:
                most = most_of(profile)
        told = "; ".join(f"{program} {count / 1e6:.1f} M, {count / tokens:,.0f} a token" for program, count in counts.items())
        print(f"{file.name:20} {tokens:,} tokens; {told}; ratio {counts[programs[-2]] / counts[OTHER]:.2f}", flush=True)
        for share, name in most:
            print(f"    {share} {name}", flush=True)


def run(command, words, folder, kinds, place):
    """Runs a command over the sources of these kinds in a folder, with a place for what is not kept; gives the status."""
    numbered = command == "time" and words[:1] and words[0].isdigit()
    count, ours = (int(words[0]), words[1:]) if numbered else (15, words)
    if command not in NEEDS or not ours or count == 0:
        sys.exit(__doc__)
    if told := missing(NEEDS[command], ours):
        sys.exit(told)
    files, programs = sources(folder, kinds), [*ours, OTHER]
    if command == "check":
        return check(files, programs, place)
    if command == "time":
        return tell_times(files, programs, place, count)
    return count_instructions(files, programs, place)


def main():
    """Does what the words of the command line say; gives the status."""
    words = sys.argv[1:]
    given, only = option(words, "--in", __doc__), option(words, "--only", __doc__)
    if not words or only not in (None, *KINDS):
        sys.exit(__doc__)
    kinds = [only] if only else list(KINDS)
    if words == ["make"] and given:
        return make(sources(Path(given), kinds, anew=True))
    with tempfile.TemporaryDirectory() as place:
        return run(words[0], words[1:], Path(given or place), kinds, Path(place))


sys.exit(main())
