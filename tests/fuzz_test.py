"""Tests the sheet check with sheets that a fuzzer finds: any bytes at all, led by the parts of the library that they reach.

    python3 tests/fuzz_test.py SECONDS [--seed N|random] [--judged N] [--memcheck N]
    python3 tests/fuzz_test.py --selftest

Runs afl-fuzz on tests/fuzz_driver.c, linked with target/staticlib/libsaltreeve.a, for so
many seconds; the driver says what must be so for every sheet. Then the oracle judges the
sheets that were found, N of them at most, and has to give the same texts. With --memcheck
the N smallest also go through valgrind. Without afl-fuzz the test is skipped. The
self-test needs no library: it tries the driver on a stand-in, sound and faulty.
"""

import argparse
import random
import re
import shutil
import signal
import subprocess
import sys

sys.dont_write_bytecode = True  # keeps the folder of the tests free of build products

import harness
import oracle_sheets
import sheet_cases
import sheet_test

LIBRARY = harness.ROOT / "target" / "staticlib" / "libsaltreeve.a"
WORK = harness.ROOT / "target" / "fuzz"
DRIVER = WORK / "driver"
BLOCKS = WORK / "blocks"
DRAWN = WORK / "drawn"
FOUND = WORK / "found" / "default"

ENTRY = "saltreeve_check"
DRAWN_SHEETS = 40
MOST_BYTES = 33000
DEFAULT_JUDGED = 400
CALL_SECONDS = 60
LEAST_REACHED = 0.5
LINES_SHOWN = 40
LOW_PRIORITY = ["nice", "-n", "19"]
VALGRIND = [*LOW_PRIORITY, "valgrind", "-q", "--error-exitcode=9"]
PADDING = ("nop", "xchg", "data16", "cs", "int3")

# What AFL++ is told by its surroundings: to say little, to take the machine as it is, and to share its processors.
AFL_SETTINGS = [f"{name}=1" for name in ("AFL_NO_UI", "AFL_QUIET", "AFL_SKIP_CPUFREQ", "AFL_NO_AFFINITY", "AFL_ALLOW_TMP",
                                         "AFL_I_DONT_CARE_ABOUT_MISSING_CRASHES")]


# --- The driver and the blocks of the library ---


# Compiles the driver with what it is to call.
def build(parts, result, options=()):
    subprocess.run([*harness.COMPILER, "-O2", *options, str(harness.ROOT / "tests" / "fuzz_driver.c"), *map(str, parts),
                    "-o", str(result)], check=True)
    return result


# What a command prints.
def printed_by(*command):
    return subprocess.run([*map(str, command)], check=True, stdout=subprocess.PIPE, text=True).stdout


# The functions of a program by name: the address, the name and the operands of each instruction.
def functions_of(program):
    functions, body = {}, []
    for line in printed_by("objdump", "-d", "--no-show-raw-insn", program).splitlines():
        head = re.fullmatch(r"[0-9a-f]+ <(.+)>:", line)
        instruction = re.fullmatch(r"\s+([0-9a-f]+):\t(\S+)\s*(.*)", line)
        if head:
            body = functions.setdefault(head.group(1), [])
        elif instruction:
            body.append((int(instruction.group(1), 16), instruction.group(2), instruction.group(3)))
    return functions


# The names of the functions that a library defines.
def names_in(library):
    return set(re.findall(r"^\S+ [tT] (.+)$", printed_by("nm", "--defined-only", library), re.M))


# Those of some functions that can be called from one of them.
def reachable(functions, names, start):
    seen, waiting = set(), [start]
    while waiting:
        name = waiting.pop()
        if name not in seen:
            seen.add(name)
            mentioned = re.findall(r"<([^+>]+)", " ".join(operands for _, _, operands in functions[name]))
            waiting += [other for other in mentioned if other in names]
    return seen


# The addresses at which the blocks of a function begin: its first, where a jump leads, and what follows a jump or a return.
def blocks_of(body):
    places, begins = {address for address, _, _ in body}, {body[0][0]}
    for (_, word, operands), (following, next_word, _) in zip(body, body[1:]):
        target = re.match(r"([0-9a-f]+) <", operands)
        if word.startswith("j") and target:
            begins.add(int(target.group(1), 16))
        if word.startswith(("j", "ret", "notrack")) and not next_word.startswith(PADDING):
            begins.add(following)
    return begins & places


# Lists the blocks of the library for the driver; how many there are.
def list_blocks(driver):
    functions = functions_of(driver)
    names = reachable(functions, names_in(LIBRARY), ENTRY)
    blocks = sorted({address for name in names for address in blocks_of(functions[name])})
    listed = [f"{len(blocks)} {blocks[0]:x} {blocks[-1]:x}", *(f"{address:x}" for address in blocks)]
    BLOCKS.write_text("".join(f"{line}\n" for line in listed))
    return len(blocks)


# --- Seeds and words ---


# The sheets to begin with: the examples, and those of the other tests, but for the longest and the many of the calendar.
def seeds(seed):
    sheets = [path.read_bytes() for path in sorted((harness.ROOT / "examples").glob("*.sheet"))]
    sheets += [case.sheet for case in sheet_cases.all_cases(seed, DRAWN_SHEETS, 1) if not case.name.startswith("day-")]
    return sorted({sheet for sheet in sheets if len(sheet) <= MOST_BYTES}, key=lambda sheet: (len(sheet), sheet))


# Writes the seeds as files.
def write_seeds(folder, seed):
    folder.mkdir()
    for number, sheet in enumerate(seeds(seed)):
        (folder / f"{number:05}").write_bytes(sheet)


# Writes the words that lines are made of, with the tabs around them, for the fuzzer to use.
def write_words(path):
    first = [*oracle_sheets.DECLARATIONS, *oracle_sheets.STATEMENTS]
    words = [f"\\x0a{word}\\x09" for word in first]
    words += [f"\\x0arule\\x09{word}\\x09" for word in oracle_sheets.RULES]
    words += [f"\\x09{word}\\x09" for word in oracle_sheets.OPERATORS]
    words += ["sheet\\x091\\x0a", "\\x09~", "\\x09", "\\x0a", "\\x093-Mar\\x0a", "\\x0930-Feb\\x0a",
              "\\x09top\\x0a", "\\x09bot\\x0a"]
    words += [f"\\x09{digit}\\x09" for digit in range(10)]
    path.write_text("".join(f'"{word}"\n' for word in words))


# --- Fuzzing ---


# Runs a command of AFL++ at the lowest priority; the lines that it printed if it failed are shown.
def run_afl(*command):
    whole = [*LOW_PRIORITY, "env", *AFL_SETTINGS, *map(str, command), "--", str(DRIVER), "--blocks", str(BLOCKS)]
    done = subprocess.run(whole, stdin=subprocess.DEVNULL, stdout=subprocess.PIPE, stderr=subprocess.STDOUT)
    if done.returncode != 0:
        print("\n".join(done.stdout.decode("latin-1").splitlines()[-LINES_SHOWN:]))
        sys.exit(f"fuzz: {command[0]} ended with {done.returncode}")


# Builds the driver and writes all that the fuzzer begins with; the number of blocks.
def prepare(seed):
    shutil.rmtree(WORK, ignore_errors=True)
    WORK.mkdir(parents=True)
    build([LIBRARY], DRIVER, ["-static", "-no-pie"])
    write_seeds(DRAWN, seed)
    write_words(WORK / "words")
    return list_blocks(DRIVER)


# Keeps those of the sheets to begin with that reach something of their own.
def choose_seeds():
    run_afl("afl-cmin", "-t", "none", "-i", DRAWN, "-o", WORK / "seeds")


# Lets the fuzzer run for so many seconds.
def fuzz(seconds, seed):
    run_afl("afl-fuzz", "-V", seconds, "-s", seed, "-t", 1000 * CALL_SECONDS, "-G", MOST_BYTES, "-x", WORK / "words",
            "-i", WORK / "seeds", "-o", WORK / "found")


# The files of a folder of the fuzzer, the smallest first.
def files_in(name):
    return sorted((FOUND / name).glob("id*"), key=lambda path: (path.stat().st_size, path.name))


# What the fuzzer says about its run.
def figures():
    return dict(re.findall(r"^(\S+)\s*: (.*)$", (FOUND / "fuzzer_stats").read_text(), re.M))


# How many of so many blocks were reached.
def reached(blocks):
    return sum(byte != 0xFF for byte in (FOUND / "fuzz_bitmap").read_bytes()[1:blocks + 1])


# --- Judging ---


# What a driver ends with and prints for a sheet.
def outcome(command, sheet):
    done = subprocess.run([*map(str, command)], input=sheet, capture_output=True, timeout=CALL_SECONDS)
    return done.returncode, done.stdout, done.stderr.decode("latin-1")


# What is wrong about a sheet, as text; None if the driver passes it and prints what the oracle does.
def wrong_about(command, sheet):
    try:
        code, text, said = outcome(command, sheet)
    except subprocess.TimeoutExpired:
        return f"the driver does not come back within {CALL_SECONDS} seconds"
    if code != 0:
        return f"the driver ended with {signal.Signals(-code).name if code < 0 else code}: {said}"
    due = oracle_sheets.judge(sheet).text.encode("latin-1")
    return None if text == due else f"the text due:\n{sheet_test.shown(due)}\nthe text printed:\n{sheet_test.shown(text)}"


# Says what is wrong about the sheets of some files; how many they are.
def judge_files(command, files):
    wrong = 0
    for path in files:
        what = wrong_about(command, path.read_bytes())
        if what is not None:
            print(f"fuzz: {path.relative_to(harness.ROOT)}: {what}\nthe sheet:\n{sheet_test.shown(path.read_bytes())}")
            wrong += 1
    return wrong


# Judges what the fuzzer kept as failing or too slow, and a sample of all that it found; how many sheets are wrong.
def judge_found(judged, seed):
    failing, queue = files_in("crashes") + files_in("hangs"), files_in("queue")
    sample = random.Random(f"{seed} fuzz").sample(queue, min(judged, len(queue)))
    wrong = judge_files([DRIVER], failing) + judge_files([DRIVER], sample)
    print(f"fuzz: the oracle judged {len(sample)} of {len(queue)} sheets kept and {len(failing)} that failed: {wrong} wrong")
    return wrong + len(files_in("crashes"))


# Gives the smallest sheets found to valgrind; how many are wrong.
def memcheck(count):
    if shutil.which("valgrind") is None:
        sys.exit("fuzz: valgrind is not installed, so --memcheck cannot be done")
    driver, files = build([LIBRARY], WORK / "driver-memcheck", ["-g"]), files_in("queue")[:count]
    wrong = judge_files([*VALGRIND, driver], files)
    print(f"fuzz: valgrind went over {len(files)} sheets: {wrong} wrong")
    return wrong


# Judges the sheets to begin with; how many are wrong.
def judge_seeds(blocks, seed):
    drawn = sorted(DRAWN.iterdir())
    wrong = judge_files([DRIVER], drawn)
    print(f"fuzz: {blocks} blocks, {len(drawn)} sheets to begin with, seed {seed}: {wrong} wrong", flush=True)
    return wrong


# Says what came of fuzzing; whether enough blocks were reached for the breakpoints and the seeds to be what they should be.
def report(blocks):
    told, met = figures(), reached(blocks)
    print(f"fuzz: {told['execs_done']} sheets in {told['run_time']} s, {told['corpus_count']} kept, {met} of {blocks} "
          f"blocks reached, {told['saved_crashes']} failed, {told['saved_hangs']} too slow", flush=True)
    if met < LEAST_REACHED * blocks:
        print("fuzz: too few blocks were reached")
    return met >= LEAST_REACHED * blocks


# Runs the test; 0 if nothing is found.
def run(chosen):
    blocks = prepare(chosen.seed)
    if judge_seeds(blocks, chosen.seed) > 0:
        return 1
    choose_seeds()
    fuzz(chosen.seconds, chosen.seed)
    enough = report(blocks)
    wrong = judge_found(chosen.judged, chosen.seed) + (memcheck(chosen.memcheck) if chosen.memcheck else 0)
    return 0 if enough and wrong == 0 else 1


# --- The self-test ---

# A check that is sound, or does what a planted fault says; the number of the fault comes from the surroundings.
FAULTY_CHECK = r"""
#include "saltreeve.h"
#include <stdlib.h>
#include <string.h>
#define SOUND got = sound_check(sheet, sheet_length, room, room_length)
#define GIVE(text) got = give(text, sizeof text - 1, room, room_length)
int64_t sound_check(const uint8_t *sheet, size_t sheet_length, uint8_t *room, size_t room_length);
static int64_t give(const char *text, size_t length, uint8_t *room, size_t room_length)
{
    if (length > room_length)
        return -8;
    memcpy(room, text, length);
    return (int64_t)length;
}
int64_t saltreeve_check(const uint8_t *sheet, size_t sheet_length, uint8_t *room, size_t room_length)
{
    static volatile uint8_t seen;
    static int calls;
    int64_t got;
    calls++;
    switch (atoi(getenv("FAULT"))) {
    default: SOUND; (void)seen; break;
CASES
    }
    return got;
}
"""

# A sheet with one finding, one that is refused in line 2, one that is too long, and all that the sound check is given.
ONE_FINDING = b"sheet\t1\nitem\ta\nitem\tb\nrule\tin\tone\tb\ta\n"
REFUSED = b"sheet\t1\nfoo\nZ"
TOO_LONG = b"\n" * (oracle_sheets.SHEET_BYTES + 1)
SOUND_SHEETS = (b"", b"sheet\t1", ONE_FINDING, REFUSED, TOO_LONG)

# Faults of calls: what the check does, the sheet that it is given, and what has to be said about it.
CALL_FAULTS = [
    ("SOUND; seen = sheet[sheet_length];", ONE_FINDING, "SIGSEGV"),
    ("SOUND; seen = sheet[-1];", ONE_FINDING, "SIGSEGV"),
    ("SOUND; seen = sheet[0];", b"", "SIGSEGV"),
    ("SOUND; seen = room[room_length];", ONE_FINDING, "SIGSEGV"),
    ("SOUND; *(uint8_t *)sheet = 's';", ONE_FINDING, "SIGSEGV"),
    ("SOUND; if (room_length == 0) room[0] = 0;", ONE_FINDING, "the room past the text is untouched"),
    ("SOUND; room[-1] = 0;", ONE_FINDING, "the bytes before the room are untouched"),
    ("SOUND; if (got > 0 && (size_t)got < room_length) room[got] = 0;", ONE_FINDING,
     "the room past the text is untouched"),
    ("SOUND; if (got < 0 && room_length > 0) room[0] = 'f';", ONE_FINDING, "the room past the text is untouched"),
    ("SOUND; if (got < 0) got = -1;", ONE_FINDING, "the result is -8, or 8 or more"),
    ("SOUND; if (got < 0) got = 0;", ONE_FINDING, "the result is -8, or 8 or more"),
    ("SOUND; if (got < 0) got = 19;", ONE_FINDING, "the result is a length within the room"),
    ("if (room_length == 20) got = -8; else SOUND;", ONE_FINDING, "the result is -8 exactly if the text is too long"),
    ("if (calls == 1) SOUND; else GIVE(\"total\\t0\\n\");", ONE_FINDING,
     "the result is -8 exactly if the text is too long"),
    ("if (calls == 1 || room_length < 20) SOUND; else GIVE(\"total\\t0\\n\");", ONE_FINDING,
     "the result is the text's length"),
    ("SOUND; if (calls > 1 && got > 0) room[0] ^= 1;", ONE_FINDING, "every call gives the same text"),
    ("SOUND; if (got > 0 && sheet[sheet_length - 1] == 'Z') room[got - 2] = '9';", REFUSED,
     "every call gives the same text"),
    ("exit(0);", ONE_FINDING, "every call comes back"),
    ("for (;;) seen = 0;", ONE_FINDING, "SIGXCPU"),
    ("__asm__ volatile(\"int3\"); SOUND;", ONE_FINDING, "only breakpoints of this driver are met"),
]

# A fault that only valgrind finds out.
READS_UNSET = ("{ volatile uint8_t unset[4096]; SOUND; if (unset[7] == 1) seen = 1; }", ONE_FINDING, "uninitialised")

# Texts that have to be found wrong, whatever the rooms: the text, the sheet, and what has to be said.
TEXT_FAULTS = [
    ("finding\t4\ta\n" * 200 + "total\t1000000000\n", ONE_FINDING, "a number has 1 to 7 digits"),
    ("refused\t\t12\n", REFUSED, "a number has 1 to 7 digits"),
    ("refused\t02\t12\n", REFUSED, "a number has no leading zero"),
    ("refused\t2 12\n", REFUSED, "a tab stands between the line and the number of refusal"),
    ("refused\t2\t12", REFUSED, "a refusal ends in a line feed"),
    ("refused\t2\t12\r\n", REFUSED, "a refusal ends in a line feed"),
    ("refused\t2\t8\n", REFUSED, "a number of refusal is 9 to 21"),
    ("refused\t2\t22\n", REFUSED, "a number of refusal is 9 to 21"),
    ("refused\t0\t12\n", REFUSED, "a refusal has line 0 exactly if its number is 9"),
    ("refused\t2\t9\n", REFUSED, "a refusal has line 0 exactly if its number is 9"),
    ("refused\t4\t12\n", REFUSED, "the line of a refusal is a line of the sheet"),
    ("refused\t2\t11\n", REFUSED, "11 is for line 1 alone, which only 10 refuses too"),
    ("refused\t1\t12\n", REFUSED, "11 is for line 1 alone, which only 10 refuses too"),
    ("refused\t0\t9\n", REFUSED, "9 is given exactly if the sheet has over 32,768 bytes"),
    ("refused\t1\t11\n", TOO_LONG, "9 is given exactly if the sheet has over 32,768 bytes"),
    ("finding\t4\t\ntotal\t1\n", ONE_FINDING, "a name has 1 to 24 characters"),
    ("finding\t4\ta\t\ntotal\t1\n", ONE_FINDING, "a name has 1 to 24 characters"),
    (f"finding\t4\t{'a' * 25}\ntotal\t1\n", ONE_FINDING, "a name has 1 to 24 characters"),
    ("finding\t4\ta\nfinding\t3\ta\ntotal\t2\n", ONE_FINDING, "findings go by rule"),
    ("finding\t3\ta\ntotal\t1\n", ONE_FINDING, "the line of a finding gives a rule"),
    ("finding\t5\ta\ntotal\t1\n", ONE_FINDING, "the line of a finding gives a rule"),
    ("finding\t4\ntotal\t1\n", ONE_FINDING, "a tab stands before an item"),
    ("finding\t4\ta\tb\ta\ntotal\t1\n", ONE_FINDING, "a finding ends in a line feed"),
    ("finding\t4\ta~\ntotal\t1\n", ONE_FINDING, "a finding ends in a line feed"),
    ("finding\t4\ta\n", ONE_FINDING, "the text is a refusal, or ends in a total"),
    ("Total\t0\n", ONE_FINDING, "the text is a refusal, or ends in a total"),
    ("total\t0\t\n", ONE_FINDING, "the total ends in a line feed"),
    ("finding\t4\ta\n" * 201 + "total\t201\n", ONE_FINDING, "there are at most 200 lines of findings"),
    ("finding\t4\ta\ntotal\t2\n", ONE_FINDING, "the total counts the findings"),
    ("finding\t4\ta\n" * 200 + "total\t199\n", ONE_FINDING, "the total counts the findings"),
    ("finding\t4\ta\n" * 200 + "total\t1048577\n", ONE_FINDING,
     "no sheet has more findings than rules and pairs of items"),
    ("total\t0\n\n", ONE_FINDING, "nothing follows the last line"),
    ("total\t0\ntotal\t0\n", ONE_FINDING, "nothing follows the last line"),
    ("t" * 12815, ONE_FINDING, "no text is longer than 12,814 bytes"),
    ("finding\t4\tb\ntotal\t1\n", ONE_FINDING, "the text due"),
    ("refused\t2\t13\n", REFUSED, "the text due"),
]


# A text as C writes it.
def in_c(text):
    return '"' + text.replace("\t", "\\t").replace("\n", "\\n").replace("\r", "\\r") + '"'


# Builds the driver with the check that can be faulty; the command that runs it, with one breakpoint.
def build_faulty(cases):
    source, objects = harness.BUILD / "fuzz_faulty.c", ["reference_store", "rule_reference", "host_reference"]
    listed = "\n".join(f"    case {number}: {code} break;" for number, (code, _, _) in enumerate(cases, 1))
    source.write_text(FAULTY_CHECK.replace("CASES", listed))
    for name in objects:
        harness.compile_file(f"{name}.c", f"fuzz_{name}.o", ["-Dsaltreeve_check=sound_check"])
    parts = [source, *(harness.BUILD / f"fuzz_{name}.o" for name in objects)]
    driver = build(parts, harness.BUILD / "fuzz_faulty", ["-no-pie"])
    (address, *_), *_ = functions_of(driver)["sound_check"]
    (harness.BUILD / "fuzz_block").write_text(f"1 {address:x} {address:x} {address:x}\n")
    return [driver, "--blocks", harness.BUILD / "fuzz_block"]


# What the driver gets wrong about a fault, or about the sound check if there is none.
def misjudged(command, number, code, sheet, due):
    said = wrong_about(["env", f"FAULT={number}", *command], sheet)
    right = said is None if due is None else said is not None and due in said
    return [] if right else [f"{code}: due is {due}, but it says {said}"]


# What valgrind gets wrong about the sound check and the one that only it finds out, which has the number given.
def misjudged_by_valgrind(driver, number):
    sound = misjudged([*VALGRIND, driver], 0, "sound under valgrind", ONE_FINDING, None)
    return sound + misjudged([*VALGRIND, driver], number, *READS_UNSET)


# Tries the sound check and all faulty ones; 0 if each is judged rightly.
def selftest():
    harness.BUILD.mkdir(parents=True, exist_ok=True)
    cases = CALL_FAULTS + [(f"GIVE({in_c(text)});", sheet, due) for text, sheet, due in TEXT_FAULTS]
    command = build_faulty([*cases, READS_UNSET])
    wrong = [line for sheet in SOUND_SHEETS for line in misjudged(command, 0, "sound", sheet, None)]
    wrong += [line for number, case in enumerate(cases, 1) for line in misjudged(command, number, *case)]
    wrong += misjudged_by_valgrind(command[0], len(cases) + 1) if shutil.which("valgrind") else []
    for line in wrong:
        print(f"fuzz self-test: {line}")
    if not wrong:
        print(f"fuzz self-test: the sound check passes, {len(cases)} faulty ones are all found out, each for its fault")
    return 1 if wrong else 0


# --- The command line ---


# Reads the command line.
def arguments():
    parser = argparse.ArgumentParser(description="Tests the sheet check with sheets that a fuzzer finds.")
    parser.add_argument("seconds", nargs="?", type=int, help="how long the fuzzer runs")
    parser.add_argument("--seed", default=harness.DEFAULT_SEED, help="a number, or: random")
    parser.add_argument("--judged", type=int, default=DEFAULT_JUDGED, help="how many of the sheets found the oracle judges")
    parser.add_argument("--memcheck", type=int, default=0, help="how many of the smallest go through valgrind")
    parser.add_argument("--selftest", action="store_true", help="try the driver on faulty stand-ins")
    chosen = parser.parse_args()
    if not chosen.selftest and chosen.seconds is None:
        parser.error("the number of seconds is missing")
    chosen.seed = random.randrange(10**6) if chosen.seed == "random" else int(chosen.seed)
    return chosen


# Runs the test or the self-test; 0 if all is well or a tool is missing.
def main():
    chosen = arguments()
    if chosen.selftest:
        return selftest()
    missing = [tool for tool in ("afl-fuzz", "afl-cmin", "objdump") if shutil.which(tool) is None]
    if missing:
        print(f"fuzz: skipped, {', '.join(missing)} not installed (Debian's packages afl++ and binutils)")
        return 0
    return run(chosen)


if __name__ == "__main__":
    sys.exit(main())
