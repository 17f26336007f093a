"""Runs on devices, by other users and beside links, which no table can state."""

import os
import shutil
import subprocess
import tempfile
from pathlib import Path

from runs_compare import CLEAN, FAULT, HELLO, HELLO_CODE, coded

# The number of a user who owns nothing.
NOBODY = 65534


def one_after_the_other(runs):
    """Compiles a source twice: the two stories differ in nothing but the date."""
    with tempfile.TemporaryDirectory() as folder:
        first = runs.run(["t", "a"], {"t.inf": HELLO}, folder=folder)[3]["a"]
        second = runs.run(["t", "a"], {"t.inf": HELLO}, folder=folder)[3]["a"]
    runs.expect("two runs", second[:18] + second[24:], first[:18] + first[24:])


def outputs(runs):
    """Tells messages to a standard output that does not take them: a full device, and a closed output."""
    with open("/dev/full", "wb") as device:
        runs.check("no room for messages", ["t"], {"t.inf": HELLO}, None, 3, b"standard output: no storage space\n", {}, device=device)
    got = runs.run(["t"], {"t.inf": HELLO}, closed=True)
    runs.expect("a closed output", (got[0], got[1], got[2][:17], sorted(got[3])), (b"", 3, b"standard output: ", ["t.inf"]))


def many_names(runs):
    """Includes files by 65,535 names beside the main source's, of which the last is one too many."""
    files = {f"{number}.h": b"" for number in range(65534)}
    inclusions = b"".join(b'Include "%d";' % number for number in range(65534))
    told = b"last.h: over 65535 files by name\n"
    runs.check("one name more", ["t"], {**files, "last.h": b"", "t.inf": inclusions + b'Include "0";Include "last.h";'}, FAULT, 3, told, {})


def unreadable(runs):
    """Compiles a file that may not be read, as a user who is not root."""
    user = NOBODY if os.geteuid() == 0 else None
    with tempfile.TemporaryDirectory() as name:
        (Path(name) / "t.inf").write_bytes(HELLO)
        os.chmod(Path(name) / "t.inf", 0)
        os.chmod(name, 0o777)
        program = Path(name) / "program"
        shutil.copy(runs.program, program)
        os.chmod(program, 0o755)
        done = subprocess.run([program, "t"], cwd=name, user=user, capture_output=True, check=False)
    wanted = (FAULT, 3, b"t.inf: permission denied\n")
    runs.expect("a file that may not be read", (done.stdout, done.returncode, done.stderr), wanted)


def sources_are_kept(runs):
    """Names the source itself as the story, by each of its names; it is never written over."""
    for name, story, prepare in (
        ("the same name", "t.inf", lambda folder: None),
        ("another path", "./t.inf", lambda folder: None),
        ("a link", "s", lambda folder: os.symlink("t.inf", folder / "s")),
        ("a second name", "s", lambda folder: os.link(folder / "t.inf", folder / "s")),
    ):
        with tempfile.TemporaryDirectory() as folder:
            (Path(folder) / "t.inf").write_bytes(HELLO)
            prepare(Path(folder))
            got = runs.run(["t", story], folder=folder)
        reason = story.encode() + b": is a source of this story; nothing was written\n"
        runs.expect(f"a source is kept, {name}", (got[:3], got[3]["t.inf"]), ((CLEAN + FAULT, 3, reason), HELLO))


def older_stories(runs):
    """Writes a story over a longer file: none of its bytes stays, and no other file changes."""
    with tempfile.TemporaryDirectory() as folder:
        files = {"t.inf": HELLO, "t.z5": bytes(5000), "other.z5": b"other"}
        got = runs.run(["t"], files, folder=folder)
    story = got[3]["t.z5"]
    runs.expect("an older story", (got[0], got[3]["other.z5"], story), (CLEAN, b"other", coded(HELLO_CODE)(story[18:24])))


# Two file systems in memory, in which the first files have the same number.
TWO_SYSTEMS = """mkdir one two && mount -t tmpfs none one && mount -t tmpfs none two || exit 9
cp t.inf one/t.inf; echo old > two/s; test $(stat -c %i one/t.inf) = $(stat -c %i two/s) || exit 9
"$0" one/t two/s && cat two/s"""


def devices_differ(runs):
    """A file of another device that has the number of a source is none. It is not tried where no file system can be made."""
    with tempfile.TemporaryDirectory() as folder:
        (Path(folder) / "t.inf").write_bytes(HELLO)
        words = ["unshare", "-rm", "sh", "-c", TWO_SYSTEMS, runs.program]
        done = subprocess.run(words, cwd=folder, capture_output=True, check=False)
    if done.returncode not in (1, 9):
        runs.expect("the same number on two devices", (done.returncode, done.stdout[: len(CLEAN)]), (0, CLEAN))
