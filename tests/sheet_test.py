"""Tests the program `check` against the oracle.

    python3 tests/sheet_test.py PROGRAM [--seed N|random] [--sheets N]
    python3 tests/sheet_test.py --selftest

PROGRAM reads a sheet on standard input and prints what it finds. The self-test needs
no program: it tries the cases themselves on faulty readers.
"""

import subprocess
import sys
from collections import Counter

sys.dont_write_bytecode = True  # keeps the folder of the tests free of build products

import harness
import sheet_cases
import sheet_selftest

DEFAULT_SHEETS = 800
ROUNDS = 1
CALL_SECONDS = 20
BYTES_SHOWN = 3000


# What the program prints for a sheet; a note in its place if it does not come back.
def printed_by(program, sheet):
    try:
        return subprocess.run([program], input=sheet, stdout=subprocess.PIPE, timeout=CALL_SECONDS).stdout
    except subprocess.TimeoutExpired:
        return f"nothing within {CALL_SECONDS} seconds".encode()


# Bytes as text for a report, cut if they are many.
def shown(data):
    text = data[:BYTES_SHOWN].decode("latin-1").replace("\t", "\\t").replace("\r", "\\r")
    return text + f"... and {len(data) - BYTES_SHOWN} bytes more" * (len(data) > BYTES_SHOWN)


# Prints a case that the program does not agree on.
def report_difference(seed, case, outcome, got):
    print(f"sheets: seed {seed}: difference in {case.name}; the sheet is:\n{shown(case.sheet)}")
    print(f"expected:\n{shown(outcome.text.encode('latin-1'))}\ngot:\n{shown(got)}")


# Prints what was run.
def report_agreement(seed, numbers, findings):
    refused = ", ".join(f"{numbers[number]} by {number}" for number in range(9, 22))
    print(f"sheets: {sum(numbers.values())} sheets ({numbers[None]} accepted with {findings} findings; refused: {refused}), "
          f"seed {seed}: all agree")


# Gives every case to the program; 0 if it prints what is due.
def run(program, seed, sheets):
    numbers, findings, judged = Counter(), 0, list(sheet_cases.judged_cases(seed, sheets, ROUNDS))
    sheet_cases.covered(judged)
    for case, outcome in judged:
        got = printed_by(program, case.sheet)
        if got != outcome.text.encode("latin-1"):
            report_difference(seed, case, outcome, got)
            return 1
        numbers[outcome.number] += 1
        findings += len(outcome.findings)
    report_agreement(seed, numbers, findings)
    return 0


# Runs the test or the self-test; 0 if all is well.
def main():
    chosen = harness.arguments("Tests the program check against the oracle.", "sheets", DEFAULT_SHEETS)
    return sheet_selftest.run(chosen.seed) if chosen.selftest else run(chosen.driver, chosen.seed, chosen.size)


if __name__ == "__main__":
    sys.exit(main())
