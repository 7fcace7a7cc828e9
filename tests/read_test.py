"""Tests the check of a sheet in a lent store, its text and what it leaves in the store, against the oracle.

    python3 tests/read_test.py DRIVER [--seed N|random] [--sheets N]
    python3 tests/read_test.py --selftest

DRIVER is tests/read_driver.c linked with the library. The self-test needs a C
compiler and no library: it tries the test itself on a stand-in, sound and faulty.
"""

import re
import sys
from collections import Counter, namedtuple

sys.dont_write_bytecode = True  # keeps the folder of the tests free of build products

import harness
import host_test
import oracle
import oracle_sheets
import sheet_cases
import sheet_test
import size_sheets
from oracle import LARGE, SMALL
from rule_cases import listed
from sheet_book import Case
from store_cases import require

DEFAULT_SHEETS = 800
SELFTEST_SHEETS = 60
SELFTEST_RULES = 5  # of the longest text: more findings than 20 bits can count
ROUNDS = 1

WRONG_LENGTHS = (oracle.WORDS - 1, oracle.WORDS + 1, 0)
WRONG_LARGE_LENGTHS = (LARGE.words - 1, LARGE.words + 1)
AS_LEFT = 0  # in place of the garbage's number: the store is as the call before left it

# A call, kept so that a difference can be shown.
Call = namedtuple("Call", "case outcome garbage length room")

# Commands about a sheet that the sound stand-in passes, and some that are wrong about it, each in its own way.
HEADER = "sheet 7 115 104 101 101 116 9 49 "
TOTAL_0 = "text 8 116 111 116 97 108 9 48 10 "
REFUSED_1_11 = "text 13 114 101 102 117 115 101 100 9 49 9 49 49 10 "
ZERO = "after 4528 0 "
RIGHT = HEADER + TOTAL_0 + ZERO + "call 1 4528 8 call 0 4528 7"
SPOILED = (
    HEADER + "text 8 116 111 116 97 108 9 49 10 " + ZERO + "call 1 4528 8",  # another total
    HEADER + "text 7 116 111 116 97 108 9 48 " + ZERO + "call 1 4528 8",     # another length
    HEADER + TOTAL_0 + "after 4528 1 4527 1 call 1 4528 8",                  # another store
    HEADER + TOTAL_0 + "untouched call 1 4528 8",                            # a store that is as it was
    HEADER + TOTAL_0 + "untouched call 1 4528 7",                            # the same where the room is too short
    HEADER + TOTAL_0 + ZERO + "call 1 4529 8",                               # a refusal for the store's length left out
    "sheet 0 " + TOTAL_0 + ZERO + "call 1 4528 8",                           # a refusal left out
    "sheet 0 " + REFUSED_1_11.replace("49 49 10", "49 50 10") + ZERO + "call 1 4528 13",  # another number of refusal
    "sheet 0 " + REFUSED_1_11.replace("9 49 9", "9 50 9") + ZERO + "call 1 4528 13",      # another line
    "sheet 0 " + REFUSED_1_11 + "untouched call 1 4528 13",                  # a refused sheet that leaves the store
)

# The same for edition 2 and the larger store.
HEADER_2 = "sheet 7 115 104 101 101 116 9 50 "
LARGE_ZERO = "after 70192 0 "
LARGE_RIGHT = HEADER_2 + TOTAL_0 + LARGE_ZERO + "call 1 70192 8 " + REFUSED_1_11 + ZERO + "call 1 4528 13"
LARGE_SPOILED = (
    HEADER_2 + TOTAL_0 + ZERO + "call 1 4528 8",                             # edition 2 taken with the smaller store
    HEADER_2 + REFUSED_1_11 + LARGE_ZERO + "call 1 70192 13",                # edition 2 refused with the larger store
    HEADER_2 + REFUSED_1_11 + "untouched call 1 4528 13",                    # a refusal that leaves the store
    HEADER_2 + TOTAL_0 + "after 70192 1 70191 1 call 1 70192 8",             # another store
    HEADER + TOTAL_0 + ZERO + "call 1 70192 8",                              # words of the larger store left as they were
    HEADER + TOTAL_0 + LARGE_ZERO + "call 1 70193 8",                        # a refusal for the store's length left out
)


# What the store of a sheet is afterwards, in a word.
def kept_as(outcome):
    if outcome.words is None:
        return "untouched"
    return "written" if any(outcome.words) else "all zero"


class Commands:
    """Writes commands, and keeps each call so that a difference can be shown."""

    # Nothing written yet; `write` takes the text.
    def __init__(self, write):
        self.write = write
        self.calls = []
        self.stores = Counter()
        self.larger = 0

    # Says what is due, and gives the length of the text.
    def due(self, outcome):
        text = outcome.text.encode("latin-1")
        after = "untouched" if outcome.words is None else f"after {listed(outcome.words)}"
        self.write(f"text {host_test.listed(text)}\n{after}\n")
        return len(text)

    # Makes a call.
    def call(self, case, outcome, garbage, length, room):
        self.write(f"call {garbage} {length} {room}\n")
        self.calls.append(Call(case, outcome, garbage, length, room))

    # Checks a sheet in stores of wrong lengths, with rooms that are too short, just enough or longer.
    def read_wrong(self, number, case):
        for length in WRONG_LENGTHS:
            outcome = oracle_sheets.judge(case.sheet, length)
            self.call(case, outcome, 2 * number + 1, length, self.due(outcome) + number % 4 - 1)

    # Checks a sheet: in the store that the sheet before left, in stores of wrong lengths, in garbage with too short a room,
    # and in other garbage.
    def read(self, number, case, outcome):
        self.write(f"part {case.name.split('-')[0]} {number}\nsheet {host_test.listed(case.sheet)}\n")
        enough = self.due(outcome)
        if number > 0:
            self.call(case, outcome, AS_LEFT, oracle.WORDS, enough)
        self.read_wrong(number, case)
        self.due(outcome)
        self.call(case, outcome, 2 * number + 1, oracle.WORDS, (enough - 1) * (number % 3) // 2)
        self.call(case, outcome, 2 * number + 2, oracle.WORDS, enough + number % 3)
        self.stores[kept_as(outcome)] += 1


    # Checks a sheet once in garbage of some length, with a room that is one byte short, just enough or longer, or so long.
    def read_once(self, number, case, outcome, length, room=None):
        self.write(f"part {case.name.split('-')[0]} {number}\nsheet {host_test.listed(case.sheet)}\n")
        enough = self.due(outcome)
        self.call(case, outcome, number + 1, length, enough + number % 5 - 1 if room is None else room)
        self.larger += length == LARGE.words

    # Checks a sheet once more in the store as it was left.
    def read_again(self, case, outcome, length):
        self.call(case, outcome, AS_LEFT, length, len(outcome.text))


# Writes all cases with the smaller store.
def write_small(commands, judged):
    for number, (case, outcome) in enumerate(judged):
        commands.read(number, case, outcome)


# Writes the same cases with the larger store: by turns as they are, in edition 2 with either store, and with stores that
# are nearly as long.
def write_again(commands, judged):
    for number, (case, outcome) in enumerate(judged):
        second = Case(case.name, size_sheets.turned(case.sheet), None)
        asked, length = ((case, LARGE.words), (second, LARGE.words), (second, SMALL.words),
                         (case, WRONG_LARGE_LENGTHS[number % 8 // 4]))[number % 4]
        again = oracle_sheets.judge(asked.sheet, length)
        if number % 4 == 0 and not size_sheets.is_second(case.sheet):
            require(again[:3] == outcome[:3], f"{case.name}: the stores differ")
        commands.read_once(number, asked, again, length)


# Writes the cases that are made for both editions and sizes, with both stores, and the sheet with the longest text.
def write_sizes(commands, seed, sheets, rules):
    for number, (case, small, large) in enumerate(size_sheets.judged_cases(seed, sheets)):
        for outcome, size in ((small, SMALL), (large, LARGE)):
            commands.read_once(number, case, outcome, size.words)
            commands.read_again(case, outcome, size.words)
        length = WRONG_LARGE_LENGTHS[number % 2]
        commands.read_once(number, case, oracle_sheets.judge(case.sheet, length), length)
    sheet, text, words = size_sheets.longest(rules)
    require(rules < oracle_sheets.MOST_RULES or len(text) == size_sheets.LARGE_TEXT, "another text is the longest")
    outcome = oracle_sheets.Outcome(None, None, text, words, [], None, rules, set())
    for room in (len(text), len(text) - 1):
        commands.read_once(0, Case("longest-text", sheet, None), outcome, LARGE.words, room)


# Writes all cases; `rules` are those of the sheet with the longest text.
def write_all(commands, seed, sheets, rules=oracle_sheets.MOST_RULES):
    judged = list(sheet_cases.judged_cases(seed, sheets, ROUNDS))
    sheet_cases.covered(judged)
    write_small(commands, judged)
    write_again(commands, judged)
    write_sizes(commands, seed, sheets, rules)


# The lines that show a call, and what was expected of it.
def call_lines(call):
    before = "as the call before left it" if call.garbage == AS_LEFT else f"garbage {call.garbage}"
    return [f"the case is {call.case.name}, the sheet:", sheet_test.shown(call.case.sheet),
            f"the store: {call.length} words, {before}; due afterwards: {kept_as(call.outcome)}",
            f"the text due, in a room of {call.room} bytes:", call.outcome.text]


# Prints where the driver stopped, what it said, and the call.
def report_difference(commands, seed, code, lines):
    print(f"reading: seed {seed}: the driver ended with {code}; it said last:")
    said = harness.last_said(lines)
    place = re.search(r"which is call (\d+) of all", "".join(said[:1]))
    for line in said + (call_lines(commands.calls[int(place.group(1)) - 1]) if place else []):
        print(f"  {line}")


# The commands of a short test, and the number of their calls.
def short_test(write):
    written = []
    commands = Commands(written.append)
    write(commands)
    return "".join(written), len(commands.calls)


# Tries the sound stand-in and all faulty ones; 0 if the test judges each rightly.
def selftest(seed):
    program = harness.build("read_selftest", "read_driver.c", "reference_store.c", "rule_reference.c", "read_reference.c")
    faults = [fault for file, variable in (("sheet_reference.h", "SHEET_FAULT"), ("text_reference.h", "TEXT_FAULT"),
                                           ("read_reference.c", "READ_FAULT")) for fault in harness.planted(file, variable)]
    test = short_test(lambda commands: write_small(commands, list(sheet_cases.judged_cases(seed, SELFTEST_SHEETS, ROUNDS))))
    wrong = harness.selftest("reading", seed, test, program, faults, RIGHT, SPOILED)
    test = short_test(lambda commands: write_sizes(commands, seed, 0, SELFTEST_RULES))
    return wrong | harness.selftest("reading sizes", seed, test, program,
                                    harness.planted("edition_reference.h", "EDITION_FAULT"), LARGE_RIGHT, LARGE_SPOILED)


# Sends the whole test to the driver.
def run(driver, seed, sheets):
    return harness.run(driver, Commands, lambda commands: write_all(commands, seed, sheets))


# Prints what was run.
def report_agreement(commands, seed):
    stores = ", ".join(f"{number} {name}" for name, number in sorted(commands.stores.items()))
    print(f"reading: {sum(commands.stores.values())} sheets (stores afterwards: {stores}), {len(commands.calls)} calls, "
          f"{commands.larger} of them with the larger store, seed {seed}: all agree")


if __name__ == "__main__":
    chosen = harness.arguments("Tests the check of sheets in a lent store.", "sheets", DEFAULT_SHEETS)
    sys.exit(harness.main(chosen, selftest, run, lambda commands: len(commands.calls), report_agreement,
                          report_difference))
