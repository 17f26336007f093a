"""Compiles stories, plays them in two interpreters of the Z-machine, and makes comparable what these print.

The interpreters are `dfrotz` and `fizmo-console`; apt-get installs those that are not there. A transcript has what a story prints,
with each line that was typed behind its prompt. Empty lines in front of a piece are left out, and several are one, since
dfrotz leaves some out where it has no screen.
"""

import os
import re
import shutil
import subprocess
import sys
from pathlib import Path

ROOT = Path(__file__).resolve().parent.parent
PLACES = (ROOT / "tests/library", ROOT / "examples")
PACKAGES = {"dfrotz": "frotz", "fizmo-console": "fizmo-console"}
WIDTH = "250"
STATUS = re.compile(r" {79,80}\n?[^\n]*?Turns: \d+")
# what the interpreters say of their own where a file is asked for, and where it cannot be opened
FILE_ASKED = re.compile(
    r"\n*Please enter (?:a filename \[[^\]]*\]: \n*"
    r"|(?:savegame filename|a filename for the transcript file)\.\n>(?:[a-z]+\n|[a-z]+\.[a-z]{3}\n?))"
)
FILE_MISSING = re.compile(r"Could not open file named \"[^\"]*\"\.\n|Cannot open file\n")
# settings with which fizmo-console writes all that a story prints into a file: it loses what comes behind the last line that is read
SCRIPT = "start-script-when-story-starts = true\ntranscript-filename = script\nstream-2-line-width = 250\nstream-2-left-margin = 0\n"
# a prompt that dfrotz prints again for each key
PROMPT_AGAIN = re.compile(r"(?m)^(\S.* )\1+")


def interpreters():
    """Answers the commands of both interpreters, and installs those that are missing."""
    path = os.environ.get("PATH", "") + ":/usr/games"
    missing = [package for name, package in PACKAGES.items() if shutil.which(name, path=path) is None]
    if missing:
        print("interpreters: installing", *missing, file=sys.stderr)
        subprocess.run(["apt-get", "update", "-q"], check=True, stdout=subprocess.DEVNULL)
        subprocess.run(["apt-get", "install", "-y", "-q", *missing], check=True, stdout=subprocess.DEVNULL)
    return {name: shutil.which(name, path=path) for name in PACKAGES}


def source_of(name):
    """Answers the source of a game: NAME.inf, or what stands in NAME before a hyphen, of the library's tests or the examples."""
    for part in (name, name.split("-")[0]):
        for folder in PLACES:
            if (folder / f"{part}.inf").exists():
                return folder / f"{part}.inf"
    sys.exit(f"no source for {name}")


def compiled(program, version, source, folder, library=ROOT / "lib"):
    """Compiles a source with the words of its file NAME.words, and answers the story. The compiler has to be silent."""
    story = Path(folder) / "story"
    words = source.with_suffix(".words")
    more = words.read_text().split() if words.exists() else []
    line = [program, version, f"+{library}", *more, source.name, story]
    run = subprocess.run(line, cwd=source.parent, capture_output=True, check=False)
    if run.returncode != 0 or run.stdout != b"Errors: 0, warnings: 0\n":
        sys.exit(f"{source.name} {version} is not compiled in silence: {run.stdout.decode(errors='replace')}")
    return story


def story_of(program, version, name, folder):
    """Compiles a game, and answers its story, which is changed where its name asks for that."""
    return changed(name, compiled(program, version, source_of(name), folder))


def changed(name, story):
    """Changes the last byte of the story of a game whose name ends in -damaged."""
    if name.endswith("-damaged"):
        data = bytearray(story.read_bytes())
        data[-1] ^= 1
        story.write_bytes(data)
    return story


def plays(name, interpreter):
    """Whether an interpreter plays a transcript: all do, but for one whose name ends in that of an interpreter."""
    return not name.endswith(tuple(PACKAGES)) or name.endswith(interpreter)


def printed(name, command, story, typed, seconds=60, settings=""):
    """Plays a story in an interpreter, with settings for fizmo-console, and answers what the interpreter prints."""
    frotz = [command, "-m", "-w", WIDTH, "-h", WIDTH, "-Z", "2", story]
    words = frotz if name == "dfrotz" else [command, "-ll", WIDTH, "-dh", story]
    data = "".join(f"{line}\n" for line in typed).encode()
    for left in story.parent.iterdir():
        if left != story and left.is_file():
            left.unlink()
    place = story.parent / "config" / "fizmo"
    place.mkdir(parents=True, exist_ok=True)
    (place / "config").write_text(settings)
    environment = dict(os.environ, XDG_CONFIG_HOME=str(place.parent))
    try:
        run = subprocess.run(
            words, input=data, capture_output=True, timeout=seconds, cwd=story.parent, env=environment, check=False
        )
    except subprocess.TimeoutExpired:
        return f"{name} did not end in {seconds} seconds\n"
    text = run.stdout.decode(errors="replace")
    # before the story dfrotz tells its own settings
    return text.split("Loading", 1)[-1].split("\n", 1)[-1] if name == "dfrotz" else text


def played_to_its_end(name, command, story, typed):
    """Plays a story that ends by itself, and answers its transcript."""
    text = printed(name, command, story, typed, settings=SCRIPT)
    script = story.parent / "script"
    if name != "dfrotz" and script.exists():
        text = script.read_text().lstrip().removeprefix("---")
        for line in typed:
            text = text.replace(f"\n> {line}\n", "\n> ", 1)
    return PROMPT_AGAIN.sub(r"\1", transcript(name, text, typed))


def transcript(name, text, typed):
    """Answers the printed text, with each line that was typed behind the prompt that it was an answer to."""
    text = FILE_MISSING.sub("", FILE_ASKED.sub("<file>", text))
    if name == "dfrotz":
        pieces = re.split(r"(?m)^> ?", text)
    else:
        pieces = re.split(r"(?m)^> ?(?:" + STATUS.pattern + r")?", text)
    made, left = pieces[0].strip("\n"), iter(typed)
    for piece in pieces[1:]:
        made += "\n\n> " + next(left, "") + "\n"
        if piece.startswith("<file>"):
            made += f"(file: {next(left, '')})\n"
        made += piece.removeprefix("<file>").strip("\n")
    lines = "\n".join(line.rstrip() for line in made.split("\n"))
    return re.sub("\n\n\n+", "\n\n", lines).strip("\n") + "\n"


def difference(got, wanted):
    """Answers the first line in which two texts differ, or nothing."""
    lines = wanted.splitlines()
    for number, (left, right) in enumerate(zip(got.splitlines() + [None], lines + [None]), 1):
        if left != right:
            return f"line {number}: {left!r}, and not {right!r}"
    return "" if len(got.splitlines()) == len(lines) else f"{len(got.splitlines())} lines, and not {len(lines)}"
