"""The engines that people would otherwise use: what each needs, how it is called, what it prints."""

import math
import os
import resource
import shutil
import signal
import subprocess
import tempfile
import time
from collections import namedtuple
from pathlib import Path

import accepted
import asp
import prolog
import sparql

HERE = Path(__file__).resolve().parent
SYSTEM_PYTHON = "/usr/bin/python3"
SHORT_SECONDS = 1     # an engine that takes less for a sheet is run more than once, and the best run counts
SHORT_RUNS = 7
EMPTY = b"sheet\t1\n"
POLL_SECONDS = 0.01

# An engine: its name, Debian's package, whether it is there, the file that a sheet becomes, the command, the findings,
# and whether it takes seconds for a sheet.
Peer = namedtuple("Peer", "name package there translated command findings takes_seconds")

# What became of a run: processor seconds, those of them that the engine takes to start (for a sheet that says nothing,
# run beside it), and the text, or None where it was stopped, with a note that says why.
Run = namedtuple("Run", "seconds start text note")


# Whether the system's Python has rdflib.
def has_rdflib():
    return os.path.exists(SYSTEM_PYTHON) and subprocess.run(
        [SYSTEM_PYTHON, "-c", "import rdflib"], stdout=subprocess.DEVNULL, stderr=subprocess.DEVNULL).returncode == 0


PEERS = (
    Peer("clingo", "gringo", lambda: shutil.which("clingo") is not None, asp.program_of,
         lambda path: ["clingo", "-V0", "--outf=0", "--warn=none", path], asp.findings_of, False),
    Peer("SWI-Prolog", "swi-prolog-nox", lambda: shutil.which("swipl") is not None, prolog.program_of,
         lambda path: ["swipl", path], prolog.findings_of, False),
    Peer("rdflib", "python3-rdflib", has_rdflib, sparql.job_of,
         lambda path: [SYSTEM_PYTHON, str(HERE / "rdflib_engine.py"), path], sparql.findings_of, True),
)


# Waits for a process; its processor time, or None if it was stopped. The limit is of processor time, which the system
# keeps; a process that waits for something is stopped after twice that.
def wait_for(process, limit):
    whole = math.ceil(limit)
    resource.prlimit(process.pid, resource.RLIMIT_CPU, (whole, whole + 1))
    deadline = time.monotonic() + 2 * limit
    while True:
        done, status, used = os.wait4(process.pid, os.WNOHANG)
        if done:
            process.returncode = os.waitstatus_to_exitcode(status)
            stopped = process.returncode in (-signal.SIGXCPU, -signal.SIGKILL)
            return None if stopped else used.ru_utime + used.ru_stime
        if time.monotonic() > deadline:
            process.kill()
            deadline = math.inf
        time.sleep(POLL_SECONDS)


# Has an engine judge a file; what it printed and its processor time.
def run_command(command, limit):
    with tempfile.TemporaryFile("w+") as printed, tempfile.TemporaryFile("w+") as said:
        process = subprocess.Popen(command, stdin=subprocess.DEVNULL, stdout=printed, stderr=said)
        seconds = wait_for(process, limit)
        for file in (printed, said):
            file.seek(0)
        return seconds, process.returncode, printed.read(), said.read()


# Has an engine judge a sheet once: the processor time, the text, which is that of `check` made of the engine's findings,
# and a note where there is no text.
def judge_once(peer, sheet, limit):
    read = accepted.read(sheet)
    with tempfile.NamedTemporaryFile("w", suffix=".pl") as file:
        file.write(peer.translated(read))
        file.flush()
        seconds, code, printed, said = run_command(peer.command(file.name), limit)
    if seconds is None:
        return limit, None, f"over {limit:.0f} s"
    if code not in (0, 10, 30) or said.strip():
        return seconds, None, f"failed ({(said.strip() or f'status {code}').splitlines()[-1]})"
    return seconds, accepted.text_of(read, peer.findings(printed)), ""


# Has an engine judge a sheet, by turns with one that says nothing, so that a busy machine slows down both.
def judge(peer, sheet, limit):
    seconds, text, note = judge_once(peer, sheet, limit)
    start = judge_once(peer, EMPTY, limit)[0]
    if text is not None and seconds < SHORT_SECONDS:
        for _ in range(SHORT_RUNS - 1):
            seconds = min(seconds, judge_once(peer, sheet, limit)[0])
            start = min(start, judge_once(peer, EMPTY, limit)[0])
    return Run(seconds, start, text, note)
