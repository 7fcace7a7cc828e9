"""What the tests of the drivers share: the command line, sending commands, and the self-test on stand-ins."""

import argparse
import os
import random
import re
import subprocess
import tempfile
from collections import namedtuple
from contextlib import contextmanager
from pathlib import Path

ROOT = Path(__file__).resolve().parent.parent
# Where the tests build; a folder of its own for tests that run while rt makes the folder target anew.
BUILD = Path(os.environ.get("SALTREEVE_BUILD") or ROOT / "target" / "tests")
COMPILER = [os.environ.get("CC", "gcc"), "-std=c99", "-O1", "-Wall", "-Wextra", "-Werror", f"-I{ROOT / 'include'}"]

DEFAULT_SEED = 17

# A stand-in for rt, as the commands call it in the folder of a program's crate: it says what rt says, and leaves the file `program` two folders above as the program.
# Where a file `broken` lies there it fails, and where a file `lost` does it leaves nothing.
RT = """#!/usr/bin/env bash
cat >/dev/null
echo "total 0, of the run with nothing to read"
{
    echo "rt: chose --jobs 2 for ${PWD##*/}"
    echo "rt: $* proved (7 s)"
    echo "rt: logic proved (unchanged since it was last proved)"
    echo "fn logic::any: proved"
} >&2
[ ! -e ../../broken ] || exit 1
[ ! -e ../../lost ] || exit 0
mkdir -p out && cat ../../program >"out/${PWD##*/}" && chmod +x "out/${PWD##*/}"
"""


# Reads the command line; `size` names the option for how much is drawn at random.
def arguments(description, size, default):
    parser = argparse.ArgumentParser(description=description)
    parser.add_argument("driver", nargs="?", help="the driver, linked with the library")
    parser.add_argument("--seed", default=DEFAULT_SEED, help="a number, or: random")
    parser.add_argument(f"--{size}", dest="size", type=int, default=default, help=f"how many {size} are drawn at random")
    parser.add_argument("--selftest", action="store_true", help="try the test itself on faulty stand-ins")
    chosen = parser.parse_args()
    if not chosen.selftest and chosen.driver is None:
        parser.error("the path of the driver is missing")
    chosen.seed = random.randrange(10**6) if chosen.seed == "random" else int(chosen.seed)
    print(f"seed {chosen.seed}", flush=True)
    return chosen


# Sends commands to the driver while they are made; gives the commands, the driver's
# exit code and the lines that it printed.
def run(driver, make, fill):
    with tempfile.TemporaryFile("w+") as printed:
        process = subprocess.Popen([driver], stdin=subprocess.PIPE, stdout=printed, text=True)
        commands = make(process.stdin.write)
        try:
            fill(commands)
            process.stdin.close()
        except BrokenPipeError:
            pass
        code = process.wait()
        printed.seek(0)
        return commands, code, printed.read().splitlines()


# The lines that a driver printed about the first difference, or the last line.
def last_said(lines):
    return lines[next((at for at, line in enumerate(lines) if line.startswith("difference")), -1):]


# Runs a test or its self-test; 0 if all is well. `calls` says how many calls the commands are; `agree` and `differ`
# print what came of them.
def main(chosen, selftest, run, calls, agree, differ):
    if chosen.selftest:
        return selftest(chosen.seed)
    commands, code, lines = run(chosen.driver, chosen.seed, chosen.size)
    if code == 0 and lines[-1:] == [f"done {calls(commands)}"]:
        agree(commands, chosen.seed)
        return 0
    differ(commands, chosen.seed, code, lines)
    return 1


# The commands of a short test, drawn by a module of cases, and the number of their calls. The commands are of the
# module's own make, or of the one that it says.
def short_test(cases, *drawn, make=None):
    written = []
    commands = (make or cases.Commands)(written.append)
    cases.write_all(commands, *drawn)
    return "".join(written), len(commands.calls)


# Compiles one file of the tests.
def compile_file(name, result, options=()):
    subprocess.run([*COMPILER, *options, "-c", str(ROOT / "tests" / name), "-o", str(BUILD / result)], check=True)


# A fault, and what plants it in the environment of a stand-in (tests/planted.h).
Fault = namedtuple("Fault", "name environment")


# A fault by the number of a variable.
def fault(variable, number, name):
    return Fault(f"{variable} {name}", {variable: str(number)})


# The faults that a file lists for a variable, in the enum whose names begin with NO_.
def planted(file, variable):
    listed = re.search(r"enum \w*fault \{\s*NO_\w+,(.*?)\};", (ROOT / "tests" / file).read_text(), re.S).group(1)
    return [fault(variable, number, name) for number, name in enumerate(re.findall(r"^\s*([A-Z0-9_]+)", listed, re.M), 1)]


# Those of the faults that have these names; each has to be there.
def chosen_faults(faults, names):
    chosen = [each for each in faults if each.name.split()[1] in names]
    assert len(chosen) == len(names), names
    return chosen


# Puts something else into a table or a module under a name, for a while.
@contextmanager
def replaced(place, name, other):
    is_table = isinstance(place, dict)
    sound = place[name] if is_table else getattr(place, name)
    put = place.__setitem__ if is_table else (lambda key, value: setattr(place, key, value))
    put(name, other)
    try:
        yield
    finally:
        put(name, sound)


# The end of a pipe to write to, of which nobody reads the other end.
@contextmanager
def unread():
    reading, writing = os.pipe()
    os.close(reading)
    try:
        yield writing
    finally:
        os.close(writing)


# Builds a program of files of the tests.
def build(name, *files):
    BUILD.mkdir(parents=True, exist_ok=True)
    objects = [f"{name}_{Path(file).stem}.o" for file in files]
    for file, result in zip(files, objects):
        compile_file(file, result)
    subprocess.run([COMPILER[0], *(str(BUILD / result) for result in objects), "-o", str(BUILD / name)], check=True)
    return BUILD / name


# Gives commands to a driver, with a fault planted or none: its exit code, and the last line that it printed.
def outcome(program, commands, environment=None):
    done = subprocess.run([str(program)], input=commands.encode(), stdout=subprocess.PIPE, env={**os.environ, **(environment or {})})
    return done.returncode, b"".join(done.stdout.splitlines()[-1:]).decode()


# What the test of the sound stand-in gets wrong, as lines to print.
def wrong_about_sound(program, commands, calls, right, spoiled):
    wrong = []
    if outcome(program, commands) != (0, f"done {calls}"):
        wrong.append("the sound stand-in does not pass")
    if outcome(program, right) != (0, "done 2"):
        wrong.append("the sound stand-in does not pass the commands that are to be spoiled")
    return wrong + [f"not found out: {each}" for each in spoiled if outcome(program, each)[0] != 1]


# Tries the driver with the sound stand-in, and with each fault; 0 if the test judges each rightly. `right` are commands
# of two calls that the sound one passes, `spoiled` some that it does not.
def selftest(name, seed, test, program, faults, right, spoiled):
    commands, calls = test
    wrong = wrong_about_sound(program, commands, calls, right, spoiled)
    wrong += [f"a stand-in with the fault {fault.name} passes" for fault in faults
              if outcome(program, commands, fault.environment) == (0, f"done {calls}")]
    for line in wrong:
        print(f"{name} self-test: seed {seed}: {line}")
    if not wrong:
        print(f"{name} self-test: {calls} calls, the sound stand-in passes, {len(faults)} faulty ones "
              f"and {len(spoiled)} spoiled lists of commands are all found out, seed {seed}")
    return 1 if wrong else 0
