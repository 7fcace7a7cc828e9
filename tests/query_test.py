"""Tests compiled queries against the oracle.

    python3 tests/query_test.py DRIVER [--seed N|random] [--rules N]
    python3 tests/query_test.py --selftest

DRIVER is tests/query_driver.c linked with the library. The self-test needs a C
compiler and no library: it tries the test itself on a stand-in, sound and faulty.
"""

import re
import sys

sys.dont_write_bytecode = True  # keeps the folder of the tests free of build products

import harness
import query_cases
import query_selftest
import rule_test

DEFAULT_RULES = 6000
ROUNDS = 6


# Sends the whole test to the driver.
def run(driver, seed, rules):
    return harness.run(driver, query_cases.Commands,
                       lambda commands: query_cases.write_all(commands, seed, rules, ROUNDS))


# The lines that show a call, and what was expected of it.
def call_lines(call):
    refusal, length, query = query_cases.compiled(call.counts, call.rule_words)
    expected = f"refused by {-refusal}" if refusal else f"{length} items, {query.answers} answer variables"
    items = [f"  item {number}: {' '.join(str(word) for word in item)}" for number, item in enumerate(query.items)]
    return [*rule_test.rule_lines(call.rule_words), f"counts: {tuple(call.counts)}, room of {call.room} words",
            f"expected: {expected}", *items]


# Prints where the driver stopped, what it said, and the call.
def report_difference(commands, seed, code, lines):
    print(f"queries: seed {seed}: the driver ended with {code}; it said last:")
    shown = harness.last_said(lines)
    place = re.search(r"which is call (\d+) of all", "".join(shown[:1]))
    if place:
        shown += call_lines(commands.calls[int(place.group(1)) - 1])
    for line in shown:
        print(f"  {line}")


# Prints what was run.
def report_agreement(commands, seed):
    refused = ", ".join(f"by {-result}: {commands.results[result]}" for result in query_cases.RESULTS[1:])
    print(f"queries: {commands.rules} rules, {len(commands.calls)} calls ({commands.results[0]} queries compared word "
          f"for word; refused {refused}; {commands.other_lengths} rules have another length); {sum(commands.answered.values())} "
          f"queries answered by trying every item, {commands.findings} answers, {commands.given_up} given up, "
          f"seed {seed}: all agree")


if __name__ == "__main__":
    chosen = harness.arguments("Tests compiled queries against the oracle.", "rules", DEFAULT_RULES)
    sys.exit(harness.main(chosen, query_selftest.run, run, lambda commands: len(commands.calls), report_agreement,
                          report_difference))
