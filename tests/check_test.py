"""Tests the command ./check around the program: what it passes on, its exit status, its messages.

    python3 tests/check_test.py

It needs no proof and no kit: in a copy of the command's surroundings a stand-in for rt leaves a stand-in for the
program, which keeps the bytes that it reads and prints what the test lays down for it.
"""

import os
import pty
import shutil
import subprocess
import sys
import tempfile
from collections import namedtuple
from pathlib import Path

sys.dont_write_bytecode = True  # keeps the folder of the tests free of build products

import harness

TOOLS = ("awk", "bash", "cat", "chmod", "dirname", "flock", "grep", "head", "mkdir", "readlink")
EVERY_BYTE = bytes(range(256)) + b"\n\n"
FOUND = b"finding\t12\tFB-13\ntotal\t1\n"

# The stand-in for the program says what the file `canned` holds, and keeps what it reads.
PROGRAM = """#!/usr/bin/env bash
here=$(dirname "$0")/../../..
cat >"$here/seen"
cat "$here/canned"
[ ! -e "$here/crash" ]
"""

Ended = namedtuple("Ended", "status out err")


class Place:
    """A copy of what surrounds the command, with stand-ins."""

    # Makes the copy in an empty folder.
    def __init__(self, folder):
        self.root, self.bin, self.temporary = folder / "copy", folder / "bin", folder / "temporary"
        for made in (self.root / "docs", self.root / "crates/checker", self.bin, self.temporary):
            made.mkdir(parents=True)
        for name in ("check", "front.sh", "crates.txt", "docs/SHEETS.md"):
            shutil.copy(harness.ROOT / name, self.root / name)
        for tool in filter(shutil.which, TOOLS):
            (self.bin / tool).symlink_to(shutil.which(tool))
        (self.bin / "env").symlink_to(shutil.which("env"))
        (self.bin / "rt").write_text(harness.RT)
        (self.bin / "rt").chmod(0o755)
        (self.root / "program").write_text(PROGRAM)
        (self.root / "canned").write_bytes(FOUND)

    # Runs the command.
    def check(self, *words, sheet=b"", command=None, folder=None, stdout=subprocess.PIPE, **more):
        environment = {"PATH": str(self.bin), "TMPDIR": str(self.temporary)}
        done = subprocess.run([command or self.root / "check", *words], cwd=folder or self.root, env=environment,
                              stdout=stdout, stderr=subprocess.PIPE, timeout=60, **(more or {"input": sheet}))
        return Ended(done.returncode, done.stdout, done.stderr.decode())

    # The bytes that the program has read.
    def seen(self):
        return (self.root / "seen").read_bytes()


# The status for each last line, and the text passed on as it is.
def test_status(place):
    for text, status in ((b"total\t0\n", 0), (FOUND, 1), (b"total\t10\n", 1), (b"refused\t0\t9\n", 2), (b"", 3), (b"what\n", 3)):
        (place.root / "canned").write_bytes(text)
        ended = place.check()
        assert ended.status == status, (text, ended)
        assert ended.out == (b"" if status == 3 else text), (text, ended)


# The sheet's bytes reach the program unchanged, from a file and from standard input, wherever the command is called from.
def test_bytes(place):
    (place.temporary / "my sheet").write_bytes(EVERY_BYTE)
    (place.temporary / "link").symlink_to(place.root / "check")
    calls = (dict(sheet=EVERY_BYTE), dict(sheet=EVERY_BYTE, folder=place.temporary, command="./link"))
    for call in calls:
        assert place.check(**call)[:2] == (1, FOUND) and place.seen() == EVERY_BYTE, call
    ended = place.check("my sheet", folder=place.temporary, command="../copy/check")
    assert ended[:2] == (1, FOUND) and place.seen() == EVERY_BYTE, ended


# The first use says that it builds; each shows what rt proves anew, and nothing of it goes to standard output.
def test_building(place):
    first, second = place.check(), place.check()
    assert first.out == second.out == FOUND
    assert "building the program" in first.err and "building" not in second.err, (first, second)
    for ended in (first, second):
        assert "rt: run proved (7 s)" in ended.err and "rt: proving checker" in ended.err, ended
        assert "unchanged" not in ended.err and "fn " not in ended.err and "--jobs" not in ended.err, ended


# What cannot be built or run ends with 3, a message, and nothing on standard output.
def test_not_built(place):
    (place.root / "lost").touch()
    assert "no program" in refused(place.check())
    (place.root / "lost").unlink()
    (place.root / "broken").touch()
    assert "not built" in refused(place.check())
    (place.root / "broken").unlink()
    (place.root / "crash").touch()
    assert "could not be run" in refused(place.check())
    (place.bin / "rt").unlink()
    assert "rt is missing" in refused(place.check())


# The message of a call that ended with 3.
def refused(ended):
    assert ended.status == 3 and ended.out == b"" and "check: " in ended.err, ended
    return ended.err


# One Ctrl-D ends a sheet from the keyboard, though the program reads once more past the end.
def test_keyboard(place):
    (place.root / "program").write_text(PROGRAM.replace('cat >"$here/seen"', 'cat >"$here/seen"; cat >>"$here/seen"'))
    keys, keyboard = pty.openpty()
    os.write(keys, b"sheet\t1\nitem\ta\n\x04")
    ended = place.check(stdin=keyboard)
    os.close(keyboard)
    os.close(keys)
    assert ended[:2] == (1, FOUND) and "Ctrl-D ends it" in ended.err, ended
    assert place.seen() == b"sheet\t1\nitem\ta\n", place.seen()


# Where nobody reads what is printed, it ends with 3 and a message, whatever was to be printed.
def test_unread(place):
    for words in ((), ("--help",), ("--explain", "16")):
        with harness.unread() as pipe:
            ended = place.check(*words, stdout=pipe)
        assert ended.status == 3 and "could not be written" in ended.err, (words, ended)


# Each misuse has its message.
def test_misuse(place):
    for words, said in ((("a", "b"), "one sheet at a time"), (("-x",), "no option '-x'"), (("-",), "no option '-'"),
                        (("nothing",), "no file 'nothing'"), (("",), "no file ''"), (("docs",), "a folder"),
                        (("--help", "me"), "--help"), (("--explain",), "one number"), (("--explain", "1", "2"), "one number"),
                        *((("--explain", word), "1 to 21 and 24 to 26") for word in ("0", "22", "23", "27", "024", "x"))):
        assert said in refused(place.check(*words)), words
    closed = place.check(stdin=None, preexec_fn=lambda: os.close(0))
    assert "standard input is closed" in refused(closed)


# The help, and an explanation for every number.
def test_texts(place):
    assert place.check("--help").status == 0 and b"--explain N" in place.check("--help").out
    for number in (*range(1, 22), 24, 25, 26):
        ended = place.check("--explain", str(number))
        heading, *body = ended.out.decode().split("\n\n")
        assert ended.status == 0 and heading.startswith(f"Refusal {number}: ") and body, ended
        assert number == 7 or "Cure: " in ended.out.decode(), ended
    assert not (place.root / "crates/checker/out").exists()


# Runs each test in a place of its own; nothing temporary may be left. 0 if all pass.
def main():
    tests = [test_status, test_bytes, test_building, test_not_built, test_keyboard, test_unread, test_misuse, test_texts]
    for test in tests:
        with tempfile.TemporaryDirectory() as folder:
            place = Place(Path(folder))
            test(place)
            left = {path.name for path in place.temporary.iterdir()} - {"my sheet", "link"}
            assert not left, left
    print(f"check: {len(tests)} tests of the command pass")
    return 0


if __name__ == "__main__":
    sys.exit(main())
