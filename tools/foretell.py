#!/usr/bin/env python3
"""Tells how long the gate takes on this machine if nothing is kept of earlier runs: foretell.py

The yardstick is the proof of one small crate, from nothing, beside the seconds that tools/checks.tsv has for it. By as much slower or
faster as this machine is, the proofs of all crates and their edits are planned on its processors, those with most above them first.
Memory that is slow when all processors use it does not show in one proof, so the time is a lower bound on some machines.
"""
import os
import pathlib
import resource
import subprocess
import sys
import tempfile
import time

import build
import edits

YARDSTICK = "inf_settings"


def seconds_of_yardstick():
    """Returns the seconds of a processor that the proof of the yardstick takes here, from nothing; it stands on no crate of this repository."""
    every = edits.crates()
    crate = every[YARDSTICK]
    before = resource.getrusage(resource.RUSAGE_CHILDREN)
    with tempfile.TemporaryDirectory(prefix="inform-yardstick-") as room:
        command = [*edits.words(crate, every, edits.ROOT, 1), "--incremental", room]
        subprocess.run(command, cwd=crate.folder, stdout=subprocess.DEVNULL, stderr=subprocess.DEVNULL, check=True)
    after = resource.getrusage(resource.RUSAGE_CHILDREN)
    return after.ru_utime - before.ru_utime + after.ru_stime - before.ru_stime


def with_edits(crates):
    """Returns crates with their edits, each list of edits as one more crate that stands on its own one."""
    found = dict(crates)
    for name, seconds in build.measured_edits().items():
        if name in crates:
            found[f"{name} edits"] = build.Crate(None, f"{name} edits", [name], 0, seconds)
    return found


def main():
    begun = time.monotonic()
    crates = with_edits(build.crates_of(edits.ROOT))
    table = build.measured()[YARDSTICK][1]
    slower = seconds_of_yardstick() / table
    processors = len(os.sched_getaffinity(0))
    whole = slower * max(build.plan(crates, processors).values())
    print(f"test: about {whole / 60:.0f} minutes on {processors} processors of this machine if nothing is kept of earlier runs, "
          f"by a proof that took {slower:.1f} times what tools/checks.tsv says ({time.monotonic() - begun:.0f} s)", file=sys.stderr)


if __name__ == "__main__":
    sys.path.insert(0, str(pathlib.Path(__file__).resolve().parent))
    main()
