"""Runs of a compiler, each in a folder of its own, and stories to compare with those that it writes."""

import os
import subprocess
import tempfile
from datetime import datetime, timezone
from pathlib import Path

HELLO = b'[ Main; print "hello"; ];'
HELLO_CODE = bytes.fromhex("00B23551C685B000")
CLEAN = b"Errors: 0, warnings: 0\n"
FAULT = b"Device or memory fault\n"
# The place in a story of the routines of the source.
ROUTINES = 968


def date():
    """Returns the serial number of a story that is made now."""
    return datetime.now(timezone.utc).strftime("%y%m%d").encode()


def word(number):
    """Returns a number as a word of a story."""
    return number.to_bytes(2, "big")


def story_of(code, serial, version=5, first=None):
    """Returns a story of routines behind the one that every story begins with, which calls the first of them, or the one at a packed address.
    The areas before the routines are the same in every story (Z-Machine Standard 1.1, sections 1 and 11)."""
    scale = {5: 4, 8: 8}[version]
    tables = bytes.fromhex("021111 9B1800 0312873D48E4A500 0312F46B2ECD4500 0313195DD3B0A500")
    body = b"\x80\x00" + b"\x00\x20" * 96 + bytes(126)
    for address in (0x1B8, 0x1BE, 0x1C6, 0x1CE):
        body += bytes(12) + word(address)
    body += tables + bytes(482) + b'\x03.,"\x09\x00\x00' + b"\x00"
    body += b"\x00\x8f" + word(first or ROUTINES // scale) + b"\xba\x00\x00\x00" + code
    body += bytes(-(64 + len(body)) % scale)
    header = bytes([version]) + bytes.fromhex("000001 03C003C1 03B80102 01D803B8 0000") + serial + bytes.fromhex("0042")
    header += word((64 + len(body)) // scale) + word(sum(body) % 65536)
    return header + bytes(64 - len(header)) + body


def coded(code, version=5, first=None):
    """Returns a function that makes a story of routines on a day."""
    return lambda day: story_of(code, day, version, first)


def routines(*codes):
    """Returns routines, given as hexadecimal numbers, one behind the other, each filled up to a packed address."""
    return b"".join(code + bytes(-len(code) % 4) for code in map(bytes.fromhex, codes))


class Runs:
    """The runs of a program, and how many were as they must be."""

    def __init__(self, program):
        self.program = program
        self.failed = 0
        self.passed = 0

    def expect(self, name, got, wanted):
        """Compares what came of a run with what must come of it."""
        if got != wanted:
            self.failed += 1
            print(f"runs: {name}: {str(got)[:600]}, and not {str(wanted)[:600]}")
        else:
            self.passed += 1

    def run(self, words, files=None, device=None, folder=None, stack=None, closed=False):
        """Runs the program in a folder with files, of which one without content is a folder itself. Returns standard output, status, standard
        error and the files that are left. The stack may be limited to some kB, and standard output may be a device, or closed."""
        with tempfile.TemporaryDirectory() as place:
            place = Path(folder or place)
            os.chmod(place, 0o777)
            for file, content in (files or {}).items():
                if content is None:
                    (place / file).mkdir()
                else:
                    (place / file).parent.mkdir(parents=True, exist_ok=True)
                    (place / file).write_bytes(content)
            limits = f"ulimit -s {stack}; " if stack else ""
            command = ["sh", "-c", f'{limits}exec "$@"{" >&-" if closed else ""}', ""] if stack or closed else []
            done = subprocess.run(
                [*command, self.program, *words],
                cwd=place,
                stdin=subprocess.DEVNULL,
                stdout=device or subprocess.PIPE,
                stderr=subprocess.PIPE,
                check=False,
            )
            left = {str(file.relative_to(place)): file.read_bytes() for file in place.rglob("*") if file.is_file()}
        return done.stdout, done.returncode, done.stderr, left

    def check(self, name, words, files, out, status, reason, left, **how):
        """Runs the program, and compares output, status, reason and the files that are left beside or in place of those given. A file may be
        stated as its bytes, as a function that makes them for a day, or as parts of a story."""
        before = date()
        got = self.run(words, files, **how)
        if before != date():
            return self.check(name, words, files, out, status, reason, left, **how)
        kept = {file: content for file, content in files.items() if content is not None}
        wanted = {file: make(before) if callable(make) else make for file, make in left.items()}
        for file, content in wanted.items():
            if isinstance(content, Parts) and file in got[3]:
                got[3][file] = content.of(got[3][file])
        return self.expect(name, got, (out, status, reason, {**kept, **wanted}))


class Parts:
    """Parts of a story: its size, and bytes at places. With neither of these any story is meant."""

    def __init__(self):
        self.size = None
        self.places = {}

    def of(self, story):
        """Returns the same parts of a story."""
        parts = Parts()
        parts.size = self.size and len(story)
        parts.places = {place: story[place : place + len(found)] for place, found in self.places.items()}
        return parts

    def __eq__(self, other):
        return isinstance(other, Parts) and (self.size, self.places) == (other.size, other.places)

    def __repr__(self):
        return f"a story of {self.size or 'some'} bytes with {self.places}"
