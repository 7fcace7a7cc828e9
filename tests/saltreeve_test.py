"""Tests the command ./saltreeve: what it passes on, its exit status, its messages, and its answers.

    python3 tests/saltreeve_test.py             the command around a stand-in for the program
    python3 tests/saltreeve_test.py PROGRAM     the answers too, with the program that rt has built for the command
    python3 tests/saltreeve_test.py --selftest  tries the test itself on a stand-in for the command, sound and faulty

It needs no proof and no kit: in a copy of the command's surroundings a stand-in for rt leaves a stand-in for the program,
which keeps what it is given and prints what the test lays down for it; or it leaves PROGRAM. How the command hands over
the sheet is left to it: on standard input, or as a file that is named.
"""

import os
import shutil
import subprocess
import sys
import tempfile
from collections import namedtuple
from pathlib import Path

sys.dont_write_bytecode = True  # keeps the folder of the tests free of build products

import harness
import oracle_why
import saltreeve_selftest
import size_sheets
import size_why
import why_cases

TOOLS = ("awk", "bash", "cat", "chmod", "dirname", "env", "flock", "grep", "mkdir", "python3", "readlink",
         "realpath", "tr")
COPIED = ("saltreeve", "check", "front.sh", "crates.txt", "docs/SHEETS.md")
MOST_QUESTIONS = 6  # drawn for a sheet
EVERY_BYTE = bytes(range(256)) + b"\n\n"
FOUND = b"finding\t12\tFB-13\nline\t9\tin\tFB-13\tBlade\nabsent\tin\tFB-13\tHub\ntotal\t1\ntotal\t1\n"
REASON = b"line\t9\tin\tFB-13\tBlade\ntotal\t1\n"
QUESTION = ("in", "FB-13", "Blade")

# The stand-in for the program says what the file `canned` holds, and keeps its words, its folder and what it reads.
PROGRAM = """#!/usr/bin/env bash
here=$(dirname "$0")/../../..
for word in "$@"; do printf '%s\\0' "$word"; done >"$here/words"
readlink -f . >"$here/folder"
cat >"$here/seen" <&0
cat "$here/canned"
[ ! -e "$here/crash" ]
"""

Ended = namedtuple("Ended", "status out err")


class Place:
    """A copy of what surrounds the command, with stand-ins."""

    # Makes the copy in an empty folder, with a program or the stand-in for it, and with a text in place of the command.
    def __init__(self, folder, program=None, command=None):
        self.root, self.bin, self.temporary = folder / "copy", folder / "bin", folder / "temporary"
        for made in (self.root / "docs", self.root / "crates/tool", self.root / "crates/checker", self.bin, self.temporary):
            made.mkdir(parents=True)
        for name in COPIED:
            if (harness.ROOT / name).exists():
                shutil.copy(harness.ROOT / name, self.root / name)
        if command is not None:
            self.put(self.root / "saltreeve", command.encode())
        for tool in filter(shutil.which, TOOLS):
            (self.bin / tool).symlink_to(sys.executable if tool == "python3" else shutil.which(tool))
        self.put(self.bin / "rt", harness.RT.encode())
        self.put(self.root / "program", PROGRAM.encode() if program is None else Path(program).read_bytes())
        (self.root / "canned").write_bytes(FOUND)
        (self.temporary / "my sheet").write_bytes(EVERY_BYTE)

    # Writes a file that can be run.
    def put(self, path, data):
        path.write_bytes(data)
        path.chmod(0o755)

    # Runs the command.
    def run(self, *words, command=None, folder=None, **more):
        environment = {"PATH": str(self.bin), "TMPDIR": str(self.temporary), "SALTREEVE_TESTS": str(harness.ROOT / "tests")}
        given = {"stdout": subprocess.PIPE, "stdin": subprocess.DEVNULL, **more}
        done = subprocess.run([command or self.root / "saltreeve", *words], cwd=folder or self.temporary, env=environment,
                              stderr=subprocess.PIPE, timeout=60, **given)
        return Ended(done.returncode, done.stdout, done.stderr.decode())

    # The command on the sheet "my sheet".
    def why(self, *question, **more):
        return self.run("why", "my sheet", *question, **more)

    # The command's check of the sheet "my sheet".
    def check(self, *words, **more):
        return self.run("check", "my sheet", *words, **more)

    # The words that the program was given.
    def words(self):
        return (self.root / "words").read_bytes().decode().split("\0")[:-1]

    # The file that a word given to the program names, or None.
    def named(self, word):
        path = os.path.join((self.root / "folder").read_text().rstrip("\n"), word)
        return Path(path) if word and os.path.isfile(path) else None

    # The bytes of the sheet that the program could read.
    def sheet(self):
        named = [self.named(word) for word in self.words() if self.named(word)]
        return named[0].read_bytes() if named else (self.root / "seen").read_bytes()

    # The question that the program was given, its words joined by tabs.
    def question(self):
        return "\t".join(word for word in self.words()[1:] if not self.named(word))


# The message of a call that ended with 3.
def refused(ended):
    assert ended.status == 3 and not ended.out and "saltreeve: " in ended.err, ended
    return ended.err


# The status for each last line, with a question and without, and the text passed on as it is.
def test_status(place):
    for text, alone, asked in ((b"total\t0\n", 0, 1), (FOUND, 1, 1), (REASON, 1, 1), (b"total\t10\n", 1, 1),
                               (b"refused\t0\t9\n", 2, 2), (b"refused\t0\t24\n", 2, 2), (b"refused\t0\t25\n", 2, 2),
                               (b"refused\t12\t19\n", 2, 2), (b"", 3, 3), (b"what\n", 3, 3)):
        (place.root / "canned").write_bytes(text)
        for question, status in (((), alone), (QUESTION, asked)):
            ended = place.why(*question)
            assert ended.status == status, (text, question, ended)
            assert ended.out == (b"" if status == 3 else text), (text, question, ended)
            assert status != 3 or "saltreeve: " in ended.err, ended


# The sheet's bytes reach the program unchanged, wherever the command is called from and whatever the file is called.
def test_bytes(place):
    (place.temporary / "link").symlink_to(place.root / "saltreeve")
    for call in (dict(), dict(command="./link"), dict(command="../copy/saltreeve")):
        assert place.why(*QUESTION, **call)[:2] == (1, FOUND) and place.sheet() == EVERY_BYTE, call
    ended = place.run("why", str(place.temporary / "my sheet"), folder=place.root)
    assert ended[:2] == (1, FOUND) and place.sheet() == EVERY_BYTE, ended


# So they do where the file's name is no text: the program takes it as its input then.
def test_named_by_bytes(place):
    name = b"blatt-\xe4\xff.sheet"
    sheet = place.temporary / os.fsdecode(name)
    sheet.write_bytes(EVERY_BYTE)
    for words, given in ((("check", name), ["check", "/dev/stdin"]), (("why", name), ["why", "/dev/stdin"]),
                         (("why", name, *QUESTION), ["why", "/dev/stdin", "\t".join(QUESTION)])):
        assert place.run(*words).out == FOUND and place.words() == given, (words, place.words())
        assert (place.root / "seen").read_bytes() == EVERY_BYTE, words
    sheet.unlink()


# The words of a question are joined by tabs, each as it is; a word with tabs in it is a whole question.
def test_question(place):
    for words in (QUESTION, ("in\tFB-13\tBlade",), ("finding", "12", "FB-13"), ("runder", "~r", "*"), ("in", "a b", "$C"),
                  ("",), ("in", "", "C"), ("same", "a", "b\n"), ("rel", "r", "-a", "--help"), ("\\n",), ("x" * 600,)):
        ended = place.why(*words)
        assert ended[:2] == (1, FOUND) and place.question() == "\t".join(words), (words, place.words(), ended)


# The first use says that it builds; each shows what rt proves anew, and nothing of it goes to standard output.
def test_building(place):
    first, second = place.why(*QUESTION), place.why(*QUESTION)
    assert first.out == second.out == FOUND
    assert "building the program" in first.err and "building" not in second.err, (first, second)
    for ended in (first, second):
        assert "proved (7 s)" in ended.err and "unchanged" not in ended.err and "fn " not in ended.err, ended


# What cannot be built or run ends with 3, a message, and nothing on standard output.
def test_not_built(place):
    (place.root / "lost").touch()
    assert "no program" in refused(place.why(*QUESTION))
    (place.root / "lost").unlink()
    (place.root / "broken").touch()
    assert "not built" in refused(place.why(*QUESTION))
    (place.root / "broken").unlink()
    (place.root / "crash").touch()
    assert "could not be run" in refused(place.why(*QUESTION))
    (place.bin / "rt").unlink()
    assert "rt is missing" in refused(place.why(*QUESTION))


# The check of a sheet: the status for each last line, and the text passed on as it is.
def test_check_status(place):
    for text, status in ((b"total\t0\n", 0), (FOUND, 1), (b"finding\t9\ta\ntotal\t1\n", 1), (b"total\t10\n", 1),
                         (b"total\t16777216\n", 1), (b"refused\t0\t9\n", 2), (b"refused\t1\t11\n", 2), (b"", 3), (b"what\n", 3)):
        (place.root / "canned").write_bytes(text)
        ended = place.check()
        assert ended.status == status and ended.out == (b"" if status == 3 else text), (text, ended)
        assert status != 3 or "saltreeve: " in ended.err, ended


# The check hands over the sheet's bytes unchanged, wherever it is called from, and tells the program its verb.
def test_check_bytes(place):
    (place.temporary / "link").symlink_to(place.root / "saltreeve")
    for call in (dict(), dict(command="./link"), dict(command="../copy/saltreeve")):
        assert place.check(**call)[:2] == (1, FOUND) and place.sheet() == EVERY_BYTE, call
        assert place.words()[:1] == ["check"] and place.question() == "", place.words()
    ended = place.run("check", str(place.temporary / "my sheet"), folder=place.root / "docs")
    assert ended[:2] == (1, FOUND) and place.sheet() == EVERY_BYTE, ended
    place.why(*QUESTION)
    assert place.words()[:1] == ["why"], place.words()


# Each misuse of the check has its message; what cannot be built, read or written ends with 3.
def test_check_misuse(place):
    for words, said in ((("check",), "file"), (("check", "-x"), "no option '-x'"), (("check", "nothing"), "no file 'nothing'"),
                        (("check", ""), "no file ''"), (("check", "."), "a folder"), (("check", "--help", "me"), "--help"),
                        (("check", "my sheet", "my sheet"), "one sheet at a time"), (("check", "my sheet", *QUESTION), "one sheet at a time"),
                        (("Check", "my sheet"), "Check")):
        assert said in refused(place.run(*words)), words
    assert not (place.root / "crates/tool/out").exists()
    with open("/dev/full", "wb") as full:
        assert "could not be written" in refused(place.check(stdout=full))
    with harness.unread() as pipe:
        assert "could not be written" in refused(place.check(stdout=pipe))
    ended = place.check(stdin=None, preexec_fn=lambda: os.close(0))
    assert ended[:2] == (1, FOUND) or refused(ended), ended
    (place.root / "crash").touch()
    assert "could not be run" in refused(place.check())
    (place.root / "broken").touch()
    assert "not built" in refused(place.check())


# The help names the check and its exit status; it needs no program.
def test_check_help(place):
    for words in (("--help",), ("check", "--help")):
        ended = place.run(*words)
        assert ended.status == 0 and ended.err == "" and "./saltreeve check FILE" in ended.out.decode(), ended
    assert all(f" {status} " in ended.out.decode() for status in range(4)), ended
    assert not (place.root / "crates/tool/out").exists()


# Each misuse has its message, which names what is wrong.
def test_misuse(place):
    for words, said in (((), "--help"), (("what",), "what"), (("",), "--help"), (("-x",), "-x"), (("why",), "file"),
                        (("why", "-x"), "no option '-x'"), (("why", "--explain", "24"), "no option '--explain'"),
                        (("why", "nothing"), "no file 'nothing'"),
                        (("why", "nothing", *QUESTION), "no file 'nothing'"), (("why", ""), "no file ''"),
                        (("why", "."), "a folder"), (("why", ".", *QUESTION), "a folder"), (("--help", "me"), "--help"),
                        (("Why", "my sheet"), "Why"), (("why", "--help", "me"), "--help")):
        assert said in refused(place.run(*words)), words
    assert not (place.root / "crates/tool/out").exists()
    if os.geteuid() != 0:
        (place.temporary / "my sheet").chmod(0)
        assert "may not be read" in refused(place.why(*QUESTION))


# With its input closed the command works as ever, or says why not.
def test_closed_input(place):
    for question in ((), QUESTION):
        ended = place.why(*question, stdin=None, preexec_fn=lambda: os.close(0))
        assert ended[:2] == (1, FOUND) or refused(ended), ended


# A text that cannot be written ends with 3 and a message; so does the help.
def test_output(place):
    for words in (("why", "my sheet"), ("why", "my sheet", *QUESTION), ("--help",), ("why", "--help")):
        with open("/dev/full", "wb") as full:
            assert "could not be written" in refused(place.run(*words, stdout=full)), words
        closed = place.run(*words, stdout=None, preexec_fn=lambda: os.close(1))
        assert "could not be written" in refused(closed), words
        with harness.unread() as pipe:
            assert "could not be written" in refused(place.run(*words, stdout=pipe)), words


# The help names the verb, what it takes, and each exit status; it needs no program.
def test_help(place):
    for words in (("--help",), ("why", "--help")):
        ended = place.run(*words)
        text = ended.out.decode()
        assert ended.status == 0 and ended.err == "" and "./saltreeve why FILE" in text, ended
    assert "finding" in text and all(f" {status} " in text for status in range(4)), text
    assert not (place.root / "crates/tool/out").exists()


# --- The answers, with the program itself ---


# Sheets of the examples, the sheet for damaged questions, and some that are refused.
def sheets():
    found = [path.read_bytes() for path in sorted((harness.ROOT / "examples").glob("*.sheet"))]
    found += [case.sheet for case in list(why_cases.damaged(1))[:1]]
    return found + [size_sheets.turned(found[0]), b"", b"sheet\t1\nitem\t3-Mar\n", b"sheet\t1\nx\n", b"sheet\t1\n" + b"\n" * 40000]


# Some questions about a sheet, each as a line.
def questions(seed, told):
    rng = why_cases.part(seed, "command")
    drawn = why_cases.text_questions(rng, told, 1) if told.refusal() is None else []
    asked = rng.sample(drawn, min(len(drawn), MOST_QUESTIONS)) + [("text", line) for line in (b"", b"in\ta\tC", b"finding")]
    return [line for _, line in asked]


# What is wrong with an answer of the command, and the status due for it.
def wrong_answer(told, question, text):
    if question is None:
        alone = 2 if told.refusal() else 1 if told.outcome.findings else 0
        return oracle_why.wrong_findings_text(told, text), alone
    due = oracle_why.due(told, ("command", question))
    return oracle_why.wrong_text(told, due, text), 2 if due.refusal else 1


# Every answer is right, with its question in one word or in several.
def test_answers(place):
    for number, sheet in enumerate(sheets()):
        told = oracle_why.told_by(sheet)
        (place.temporary / "my sheet").write_bytes(sheet)
        for at, question in enumerate([None, *questions(number, told)]):
            ended = place.why(*([] if question is None else [question] if at % 2 == 0 else question.split(b"\t")))
            wrong, status = wrong_answer(told, question, ended.out)
            assert not wrong and ended.status == status, (sheet[:2000], question, ended, wrong, status)


# Sheets of both editions for the check: whole, refused, at the limits of items, with many findings, and the longest text.
def checked_sheets():
    at_limits = [f"items-{items}" for items in (128, 129, 512, 513)] + ["items-1-200", "items-2-129"]
    chosen = [case.sheet for number, case in enumerate(size_sheets.all_cases(1, 0)) if number % 25 == 0 or case.name in at_limits]
    with_reason = why_cases.point_sheet("in a C\nrule sub C D")
    return [with_reason, size_sheets.turned(with_reason), *sheets()[::2], *chosen, size_sheets.catalogue(1)]


# Every check prints what is due with the store that the first line asks for, and ends with the status for it.
def test_checks(place):
    for sheet in checked_sheets():
        (place.temporary / "my sheet").write_bytes(sheet)
        outcome, ended = oracle_why.told_by(sheet).outcome, place.check()
        status = 2 if outcome.number else 1 if outcome.findings else 0
        assert ended[:2] == (status, outcome.text.encode("latin-1")), (sheet[:2000], ended, outcome.text)


# The longest text there is, that of a sheet of edition 2.
def test_longest(place):
    sheet, text, _ = size_sheets.longest()
    (place.temporary / "my sheet").write_bytes(sheet)
    assert place.check()[:2] == (1, text.encode()), "the longest text is cut, or is another"


# Reasons of more than 128 lines, of a sheet of edition 2.
def test_long_reasons(place):
    case, = size_why.chains(1, (131,))
    told = oracle_why.told_by(case.sheet)
    (place.temporary / "my sheet").write_bytes(case.sheet)
    for question in [question[1] for question in case.questions if question[0] == "text"][:4]:
        ended = place.why(question)
        wrong, status = wrong_answer(told, question, ended.out)
        assert not wrong and ended.status == status, (question, ended, wrong, status)


TESTS = (test_status, test_bytes, test_question, test_building, test_not_built, test_misuse, test_closed_input, test_output,
         test_help, test_check_status, test_check_bytes, test_check_misuse, test_check_help)
WITH_PROGRAM = (test_long_reasons, test_checks, test_answers)


# Runs a test in a place of its own; nothing temporary may be left.
def run_in_place(test, program=None, command=None):
    with tempfile.TemporaryDirectory() as folder:
        place = Place(Path(folder), program, command)
        test(place)
        left = {path.name for path in place.temporary.iterdir()} - {"my sheet", "link"}
        assert not left, left


# Whether some test fails on a stand-in for the command; what the first one says.
def failure(command, program):
    try:
        for test in TESTS:
            run_in_place(test, None, command)
        for test in WITH_PROGRAM:
            run_in_place(test, program, command)
    except (AssertionError, subprocess.TimeoutExpired) as wrong:
        return str(wrong) or "a test fails"
    return None


# Runs the tests; 0 if all pass.
def main():
    if sys.argv[1:] == ["--selftest"]:
        return saltreeve_selftest.run(failure)
    for test in (*TESTS, test_named_by_bytes):
        run_in_place(test)
    with_program = [*WITH_PROGRAM, test_longest] if sys.argv[1:2] else []
    for test in with_program:
        run_in_place(test, sys.argv[1])
    print(f"saltreeve: {len(TESTS) + 1 + len(with_program)} tests of the command pass")
    return 0


if __name__ == "__main__":
    sys.exit(main())
