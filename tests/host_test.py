"""Tests the sheet check as the order-entry host calls it, against the oracle.

    python3 tests/host_test.py DRIVER [--seed N|random] [--sheets N]
    python3 tests/host_test.py --selftest

DRIVER is tests/host_driver.c linked with the library. The self-test needs a C compiler
and no library: it tries the test itself on a stand-in, sound and faulty.
"""

import re
import sys

sys.dont_write_bytecode = True  # keeps the folder of the tests free of build products

import harness
import sheet_cases
import sheet_test

DEFAULT_SHEETS = 800
SELFTEST_SHEETS = 60
ROUNDS = 1
MOST_TEXT = sheet_cases.LONGEST_TEXT

# The faults about editions that the smaller store shows.
EDITION_FAULTS = ("EDITION_2_IN_SMALL", "EDITION_2_BY_12", "EDITION_2_AT_LINE_0")

# Commands about a sheet that the sound stand-in passes, and some that are wrong about it, each in its own way.
HEADER = "sheet 7 115 104 101 101 116 9 49 "
TOTAL_0 = "116 111 116 97 108 9 48 10 "
RIGHT = HEADER + "text 8 " + TOTAL_0 + "call 2 8 7"
SPOILED = (
    HEADER + "text 7 116 111 116 97 108 9 48 call 1 8",       # another length
    HEADER + "text 8 116 111 116 97 108 9 49 10 call 1 8",    # another text
    HEADER + "text 9 " + TOTAL_0 + "10 call 1 8",             # a text that does not fit
    "sheet 0 text 8 " + TOTAL_0 + "call 1 8",                 # a refusal left out
)


class Commands:
    """Writes commands, and keeps each call so that a difference can be shown."""

    # Nothing written yet; `write` takes the text.
    def __init__(self, write):
        self.write = write
        self.calls = []
        self.judged = 0

    # Asks for the text of a case, with rooms of some lengths.
    def ask(self, number, case, outcome):
        text = outcome.text.encode("latin-1")
        rooms = sorted({0, len(text) // 2, len(text) - 1, len(text), len(text) + 1, MOST_TEXT})
        self.write(f"part {case.name.split('-')[0]} {number}\nsheet {listed(case.sheet)}\ntext {listed(text)}\n")
        self.write(f"call {len(rooms)} {' '.join(str(room) for room in rooms)}\n")
        self.calls += [(case, outcome)] * len(rooms)
        self.judged += 1


# Bytes as the driver reads them.
def listed(data):
    return " ".join(str(number) for number in (len(data), *data))


# Writes all cases.
def write_all(commands, seed, sheets):
    judged = list(sheet_cases.judged_cases(seed, sheets, ROUNDS))
    sheet_cases.covered(judged)
    for number, (case, outcome) in enumerate(judged):
        commands.ask(number, case, outcome)


# Prints where the driver stopped, what it said, and the sheet.
def report_difference(commands, seed, code, lines):
    print(f"host: seed {seed}: the driver ended with {code}; it said last:")
    said = harness.last_said(lines)
    for line in said:
        print(f"  {line}")
    place = re.search(r"which is call (\d+) of all", "".join(said[:1]))
    if place:
        case, outcome = commands.calls[int(place.group(1)) - 1]
        print(f"the case is {case.name}, the sheet:\n{sheet_test.shown(case.sheet)}\nthe text due:\n{outcome.text}")


# Tries the sound stand-in and all faulty ones; 0 if the test judges each rightly.
def selftest(seed):
    program = harness.build("host_selftest", "host_driver.c", "reference_store.c", "rule_reference.c", "read_reference.c",
                            "host_reference.c")
    faults = [fault for file, variable in (("sheet_reference.h", "SHEET_FAULT"), ("text_reference.h", "TEXT_FAULT"),
                                           ("host_reference.c", "HOST_FAULT")) for fault in harness.planted(file, variable)]
    faults += harness.chosen_faults(harness.planted("edition_reference.h", "EDITION_FAULT"), EDITION_FAULTS)
    return harness.selftest("host", seed, harness.short_test(sys.modules[__name__], seed, SELFTEST_SHEETS), program, faults,
                            RIGHT, SPOILED)


# Sends the whole test to the driver.
def run(driver, seed, sheets):
    return harness.run(driver, Commands, lambda commands: write_all(commands, seed, sheets))


# Prints what was run.
def report_agreement(commands, seed):
    print(f"host: {commands.judged} sheets, {len(commands.calls)} calls, seed {seed}: all agree")


if __name__ == "__main__":
    chosen = harness.arguments("Tests the sheet check as the host calls it.", "sheets", DEFAULT_SHEETS)
    sys.exit(harness.main(chosen, selftest, run, lambda commands: len(commands.calls), report_agreement,
                          report_difference))
