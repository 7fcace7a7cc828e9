"""Tests the answers to "why", as a C program asks for them, against the oracle.

    python3 tests/why_test.py DRIVER [--seed N|random] [--sheets N]
    python3 tests/why_test.py --selftest

DRIVER is tests/why_driver.c linked with the library. It makes the calls and prints the answers, which are judged here:
"Any one such set will do", so that no answer can be said beforehand. What is lent and not answered, it compares itself.
The self-test needs a C compiler and no library: it tries the oracle on small sheets, and the test itself on a stand-in,
sound and faulty.
"""

import itertools
import os
import random
import subprocess
import sys
from collections import Counter, namedtuple

sys.dont_write_bytecode = True  # keeps the folder of the tests free of build products

import harness
import host_test
import oracle
import oracle_why
import sheet_test
import size_why
import why_cases
from rule_cases import listed
from store_cases import require

DEFAULT_SHEETS = 400
SELFTEST_SHEETS = 30
FOLLOWING_TRIES = 300

# Faults of the reader that change what an answer says.
READING_FAULTS = ("LINES_FROM_0", "EMPTY_NOT_NUMBERED", "LAST_LINE_LOST", "LEFT_INVERSE_PASSED", "BAD_BYTES_LAST",
                  "KEEPS_RULES", "READS_PAST_THE_SHEET")

# A question as it was asked: with a list or room of so many entries that any answer fits.
Asked = namedtuple("Asked", "case question ample")

# An answer: how many entries were lent, the result, and the entries as they were left.
Answer = namedtuple("Answer", "lent result entries")


class Commands:
    """Writes commands, and keeps each question for the judging of its answers."""

    # Nothing written yet; `write` takes the text.
    def __init__(self, write):
        self.write = write
        self.asked = []
        self.seen = Counter()
        self.verdicts = {}
        self.calls = 0
        self.after = None
        self.sizes = 0

    # Asks the questions of a case.
    def ask_all(self, number, case):
        told = oracle_why.told_by(case.sheet)
        self.write(f"part {case.name.split('-')[0]} {number}\nsheet {host_test.listed(case.sheet)}\n")
        self.after = None
        for question in case.questions:
            self.ask(told, case, question)

    # Asks a question.
    def ask(self, told, case, question):
        self.seen.update(why_cases.classes_of(told, question, oracle_why.due(told, question)))
        sort, *given = question
        ample = 3 * len(case.sheet) + 200 if sort == "text" else len(told.statements) + 3
        self.asked.append(Asked(case, question, min(ample, 100000)))
        if sort == "text":
            self.write(f"text {self.asked[-1].ample} {host_test.listed(given[0])}\n")
            return
        length, *numbers = given
        if told.words(length) is not None and self.after != length:
            self.write(f"after {listed(told.words(length))}\n")
            self.after = length
        self.write(f"store {length} {int(told.words(length) is not None)}\n")
        self.write(f"{sort} {ample} {' '.join(str(number) for number in numbers)}\n")


# Writes all cases.
def write_all(commands, seed, sheets, small=False):
    for number, case in enumerate(why_cases.all_cases(seed, sheets, small)):
        commands.ask_all(number, case)
    for number, case in enumerate(size_why.all_cases(seed, sheets, small)):
        commands.ask_all(number, case)
        commands.sizes += len(case.questions)
    why_cases.require_covered(commands.seen, why_cases.classes_due())


# --- Judging ---


# An answer that the driver printed.
def read_answer(line, is_text):
    word, lent, result, changed, *entries = line.split(" ")
    require(word == "answer", f"the driver printed {line!r}")
    fill = oracle_why.ROOM_FILL if is_text else oracle_why.LIST_FILL
    left = list(bytes.fromhex(entries[0])) if is_text else [int(entry) for entry in entries if entry]
    require(len(left) == int(changed), f"the driver printed {line!r}")
    return Answer(int(lent), int(result), left + [fill] * (int(lent) - len(left)))


# The lengths that the driver tries after an answer of a length.
def lengths_after(length):
    return sorted({0, length // 2, max(length - 1, 0), length, length + 1})


# How many entries the first answer has: lines, or bytes.
def answer_length(question, result, ample):
    length = result % oracle_why.RIGHT_CONCEPT if question[0] == "finding" else result
    return min(length, ample) if result >= 0 else 0


# What is wrong with the first answer to a question.
def wrong_first(asked, answer):
    told = oracle_why.told_by(asked.case.sheet)
    due = oracle_why.due(told, asked.question)
    if asked.question[0] != "text":
        return oracle_why.wrong_list(told, due, answer.result, answer.entries)
    if not 0 <= answer.result <= answer.lent:
        return "no length of a text"
    if any(byte != oracle_why.ROOM_FILL for byte in answer.entries[answer.result:]):
        return "the room is written past the text"
    return oracle_why.wrong_text(told, due, bytes(answer.entries[:answer.result]))


# What is wrong with a later answer to the same question, with a list or room of another length.
def wrong_later(asked, first, answer):
    if asked.question[0] != "text":
        lines = first.entries[:max(answer_length(asked.question, first.result, asked.ample), 0)]
        return oracle_why.wrong_again(first.result, lines, answer.result, answer.entries)
    fits = first.result <= answer.lent
    written = first.entries[:first.result] if fits else []
    if answer.result != (first.result if fits else oracle_why.TOO_LONG):
        return f"a text of {first.result} bytes is due"
    if answer.entries != written + [oracle_why.ROOM_FILL] * (answer.lent - len(written)):
        return "the text is another one, or the room is touched elsewhere" if fits else "the room is touched by -8"
    return None


# What is wrong with the answers to a question: the first one wrong, and why.
def wrong_answers(asked, lines):
    is_text = asked.question[0] == "text"
    answers = [read_answer(line, is_text) for line in lines]
    for answer in answers:
        wrong = wrong_first(asked, answer) if answer is answers[0] else wrong_later(asked, answers[0], answer)
        if wrong:
            return f"with {answer.lent} entries the result is {answer.result}: {wrong}"
    return None


# The lines of answers among those that a driver prints; the others are put into `said`.
def answer_lines(lines, said):
    for line in lines:
        if line.startswith("answer "):
            yield line.rstrip("\n")
        else:
            said.append(line.rstrip("\n"))


# What is wrong with the answers to a question, judged once.
def verdict(commands, at, lines):
    key = at, tuple(lines)
    if key not in commands.verdicts:
        commands.verdicts[key] = wrong_answers(commands.asked[at], lines)
    return commands.verdicts[key]


# The first wrong answer out of those that a driver prints, as lines to show; None if there is none.
def wrong_printed(commands, answers):
    for at, asked in enumerate(commands.asked):
        first = next(answers, None)
        if first is None:
            return ["there are no more answers"]
        result = int(first.split(" ")[2])
        later = len(lengths_after(answer_length(asked.question, result, asked.ample)))
        lines = [first, *itertools.islice(answers, later)]
        commands.calls += len(lines)
        if verdict(commands, at, lines):
            return [f"the case is {asked.case.name}, the sheet:", sheet_test.shown(asked.case.sheet),
                    f"asked: {asked.question}", verdict(commands, at, lines)]
        if asked.question[0] == "cell" and result >= 0:
            commands.seen.update(why_cases.answer_classes(result))
    return ["there are more answers"] if next(answers, None) is not None else None


# What is wrong with all that a driver prints, as lines to show, and with how it ends: `ended` gives its exit code.
def wrong_run(commands, lines, ended):
    said, commands.calls = [], 0
    wrong = wrong_printed(commands, answer_lines(lines, said))
    code = ended(wrong is not None)
    if wrong is None and code == 0 and said[-1:] == [f"done {commands.calls}"]:
        return []
    return [*(wrong or []), f"the driver ended with {code}; it said last:", *harness.last_said(said)[:4]]


# --- The self-test ---


# A few statements over few names.
def draw_statements(rng, counts):
    items, concepts, roles = counts
    number = rng.randrange
    kinds = (lambda: ("same", number(items), number(items)), lambda: ("under", number(concepts), number(concepts)),
             lambda: ("role_under", number(roles), number(roles), number(2)),
             lambda: ("in", number(items), number(concepts)),
             lambda: ("link", number(roles), number(items), number(items)))
    return [rng.choice(kinds)() for _ in range(rng.choice((0, 1, 2, 4, 8, 16)))]


# All cells over some counts.
def all_cells(counts):
    items, concepts, roles = (range(count) for count in counts)
    yield from (("same", a, b) for a in items for b in items)
    yield from (("under", A, B) for A in concepts for B in concepts)
    yield from (("role_under", R, S, inverse) for R in roles for S in roles for inverse in (0, 1))
    yield from (("in", a, A) for a in items for A in concepts)
    yield from (("link", R, a, b) for R in roles for a in items for b in items)


# Where the fast way to say what follows differs from the closing rules of tests/oracle.py.
def wrong_following(seed):
    rng = random.Random(f"{seed} following")
    for _ in range(FOLLOWING_TRIES):
        counts = oracle.Counts(rng.randint(1, 5), rng.randint(1, 4), rng.randint(1, 4))
        statements, cells = draw_statements(rng, counts), oracle.Cells(counts)
        for statement in statements:
            cells.set(statement)
        oracle.add_what_follows(cells)
        for cell in all_cells(counts):
            if oracle_why.follows(statements, cell) != cells.has(cell):
                return [f"what follows from {statements}: {cell}"]
    return []


# Where the oracle judges the points found by hand in another way: exactly the reasons listed are right.
def wrong_points():
    wrong = []
    for name, text, question, reasons in why_cases.POINTS:
        told = oracle_why.told_by(why_cases.point_sheet(text))
        due = oracle_why.due(told, ("text", question.replace(" ", "\t").encode()))
        if isinstance(reasons, int):
            wrong += [f"{name}: {due}"] * (due.refusal != (0, reasons))
            continue
        parts = [list(lines) for count in range(len(told.statements) + 1)
                 for lines in itertools.combinations(told.statements, count)]
        right = [lines for lines in parts if oracle_why.wrong_reason(told, due.cell, lines) is None]
        wrong += [f"{name}: {right}"] * (sorted(right) != sorted(reasons))
    return wrong


# Gives the commands in a file to a program: what is wrong with what it prints. It is stopped at the first wrong answer.
def wrong_of(program, environment, commands, path):
    with open(path) as given:
        process = subprocess.Popen([str(program)], stdin=given, stdout=subprocess.PIPE, text=True, env={**os.environ, **environment})

        # Ends the program, at once if something is wrong.
        def ended(is_wrong):
            if is_wrong and process.poll() is None:
                process.kill()
            process.stdout.close()
            return process.wait()

        return wrong_run(commands, process.stdout, ended)


# All faults that are planted.
def all_faults():
    return harness.planted("why_reference.c", "WHY_FAULT") + harness.chosen_faults(
        harness.planted("sheet_reference.h", "SHEET_FAULT"), READING_FAULTS)


# Tries the oracle, the two sound stand-ins and all faulty ones; 0 if each is judged rightly.
def selftest(seed):
    wrong = [f"the oracle is wrong about {each}" for each in wrong_following(seed) + wrong_points()]
    program = harness.build("why_selftest", "why_driver.c", "reference_store.c", "rule_reference.c", "why_reference.c")
    path = harness.BUILD / "why_selftest.commands"
    with open(path, "w") as file:
        commands = Commands(file.write)
        write_all(commands, seed, SELFTEST_SHEETS, small=True)
    for sound in ({}, {"FROM_THE_END": "1"}):
        found = wrong_of(program, sound, commands, path)
        wrong += ["\n".join([f"a sound stand-in does not pass {sound}", *found])] if found else []
    calls = commands.calls
    why_cases.require_covered(commands.seen, why_cases.ANSWER_CLASSES)
    faults = all_faults()
    wrong += [f"a stand-in with the fault {fault.name} passes" for fault in faults
              if not wrong_of(program, fault.environment, commands, path)]
    for line in wrong:
        print(f"why self-test: seed {seed}: {line}")
    if not wrong:
        print(f"why self-test: {len(commands.asked)} questions, {calls} calls, two sound stand-ins pass, {len(faults)} "
              f"faulty ones are all found out, {len(why_cases.POINTS)} points and {FOLLOWING_TRIES} sheets agree "
              f"with the oracle, seed {seed}")
    return 1 if wrong else 0


# --- The test ---


# Asks the driver everything; 0 if all answers are right.
def test(driver, seed, sheets):
    commands, code, lines = harness.run(driver, Commands, lambda commands: write_all(commands, seed, sheets))
    wrong = wrong_run(commands, lines, lambda _: code)
    if wrong:
        print(f"why: seed {seed}:", *wrong, sep="\n  ")
        return 1
    why_cases.require_covered(commands.seen, why_cases.ANSWER_CLASSES + why_cases.LONG_CLASSES)
    reasons = sum(commands.seen[name] for name in why_cases.ANSWER_CLASSES + why_cases.LONG_CLASSES)
    print(f"why: {len(commands.asked)} questions ({reasons} cells explained by number; {commands.sizes} about both editions "
          f"and sizes of store), {commands.calls} calls, "
          f"seed {seed}: all answers are right")
    return 0


if __name__ == "__main__":
    chosen = harness.arguments("Tests the answers to why.", "sheets", DEFAULT_SHEETS)
    sys.exit(selftest(chosen.seed) if chosen.selftest else test(chosen.driver, chosen.seed, chosen.size))
