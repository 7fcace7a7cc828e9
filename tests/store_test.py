"""Tests the library's store against the oracle.

    python3 tests/store_test.py DRIVER [--seed N|random] [--sequences N]
    python3 tests/store_test.py --selftest

DRIVER is tests/store_driver.c linked with the library. The self-test needs a C
compiler and no library: it tries the test itself on a stand-in, sound and faulty.
"""

import sys

sys.dont_write_bytecode = True  # keeps the folder of the tests free of build products

import harness
import size_cases
import store_cases
import store_selftest
from oracle import LARGE

DEFAULT_SEQUENCES = 2000
DAMAGE_ROUNDS = 24
SEQUENCES_TO_ONE_LARGE = 30  # sequences of the smaller store for each of the larger, each conversion and each list


# Writes the whole test: the smaller store, then both sizes.
def write_all(commands, seed, sequences):
    store_cases.write_all(commands, seed, sequences, DAMAGE_ROUNDS)
    size_cases.write_all(commands, seed, sequences // SEQUENCES_TO_ONE_LARGE, LARGE.limits)


# Sends the whole test to the driver.
def run(driver, seed, sequences):
    return harness.run(driver, store_cases.Commands, lambda commands: write_all(commands, seed, sequences))


# Prints where the driver stopped and what it said.
def report_difference(_, seed, code, lines):
    print(f"store: seed {seed}: the driver ended with {code}; it said last:")
    for line in harness.last_said(lines):
        print(f"  {line}")


# Prints what was run.
def report_agreement(commands, seed):
    results = commands.results
    print(f"store: {commands.sequences} sequences ({commands.reordered} also in another order), "
          f"{commands.calls} calls ({results['accepted']} accepted, {results[-1]} refused by 1, "
          f"{results[-2]} by 2, {results[-4]} by 4, {results[-26]} by 26), {commands.conversions} conversions, "
          f"{commands.lists} lists of statements, {commands.damaged} damaged stores, seed {seed}: all agree")


if __name__ == "__main__":
    chosen = harness.arguments("Tests the library's store against the oracle.", "sequences", DEFAULT_SEQUENCES)
    sys.exit(harness.main(chosen, store_selftest.run, run, lambda commands: commands.calls, report_agreement,
                          report_difference))
