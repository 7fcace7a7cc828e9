"""Tests rules by number against the oracle.

    python3 tests/rule_test.py DRIVER [--seed N|random] [--rules N]
    python3 tests/rule_test.py --selftest

DRIVER is tests/rule_driver.c linked with the library. The self-test needs a C
compiler and no library: it tries the test itself on a stand-in, sound and faulty.
"""

import re
import sys

sys.dont_write_bytecode = True  # keeps the folder of the tests free of build products

import harness
import oracle
import oracle_rules
import rule_cases
import rule_selftest
import size_rules

DEFAULT_RULES = 3200
ROUNDS = 6
CELLS_SHOWN = 60
RULES_TO_ONE_LARGE = 80  # rules drawn over smaller stores for each larger store
FULLEST_ROLES, DEEPEST = 16, 28


# Writes the whole test: the smaller store, then the larger.
def write_all(commands, seed, rules):
    rule_cases.write_all(commands, seed, rules, ROUNDS)
    size_rules.write_all(commands, seed, rules // RULES_TO_ONE_LARGE, FULLEST_ROLES, DEEPEST)


# Sends the whole test to the driver.
def run(driver, seed, rules):
    return harness.run(driver, rule_cases.Commands, lambda commands: write_all(commands, seed, rules))


# A field of a rule as text.
def field_text(what, value):
    if what == "role":
        return f"{'~' if value.inverse else ''}role {value.number}"
    return f"{what} {value}"


# A rule's head or a node as text.
def part_text(part):
    return ", ".join([part.kind] + [field_text(what, value) for what, value in part.fields])


# The lines that show a rule.
def rule_lines(words):
    if len(words) != oracle_rules.RULE_WORDS:
        return [f"the rule has {len(words)} words"]
    rule = oracle_rules.read_rule(words)
    nodes = [f"  node {number}: {part_text(node)}" for number, node in enumerate(rule.nodes)]
    return [f"the rule: {part_text(rule.head)}; {rule.node_count} nodes", *nodes]


# The cells of a store as text, without those of a thing with itself.
def cell_texts(cells):
    rows = [("item {} same as {}", cells.same), ("concept {} under {}", cells.under),
            ("role {} under {}", cells.role_under), ("role {} under ~{}", cells.role_under_inverse),
            ("item {} in concept {}", cells.member)]
    rows += [(f"role {R} links {{}} to {{}}", links) for R, links in enumerate(cells.links)]
    return [text.format(a, b) for text, kind in rows for a, row in enumerate(kind) for b in oracle.bits(row)
            if a != b or "links" in text or " in " in text or "~" in text]


# The lines that show a store.
def store_lines(words, counts):
    lines = [f"the store: {len(words)} words, {counts.items} items, {counts.concepts} concepts, {counts.roles} roles"]
    if oracle.wrong_size(words, counts):
        return lines
    texts = cell_texts(oracle.cells_of(words, counts))
    lines += [f"  {text}" for text in texts[:CELLS_SHOWN]]
    return lines + [f"  and {len(texts) - CELLS_SHOWN} more"] * (len(texts) > CELLS_SHOWN)


# A finding as text.
def finding_text(first, second):
    return str(first) if second == oracle_rules.NO_ITEM else f"{first} {second}"


# The lines that show a call, and what was expected of it.
def call_lines(call):
    result, found = oracle_rules.answer(call.words, call.counts, call.rule_words)
    pairs = "; ".join(finding_text(*finding) for finding in found[:CELLS_SHOWN])
    return [*rule_lines(call.rule_words), *store_lines(call.words, call.counts), f"expected: {result} ({pairs})"]


# Prints where the driver stopped, what it said, and the call.
def report_difference(commands, seed, code, lines):
    print(f"rules: seed {seed}: the driver ended with {code}; it said last:")
    shown = harness.last_said(lines)
    place = re.search(r"which is call (\d+) of all", "".join(shown[:1]))
    if place:
        shown += call_lines(commands.calls[int(place.group(1)) - 1])
    for line in shown:
        print(f"  {line}")


# Prints what was run.
def report_agreement(commands, seed):
    results = commands.results
    print(f"rules: {commands.rules} rules, {len(commands.calls)} calls ({results[0]} rules accepted, "
          f"{commands.findings} findings; refused by 1: {results[-1]}, by 2: {results[-2]}, by 3: {results[-3]}, "
          f"by 4: {results[-4]}; {commands.other_lengths} have another length), seed {seed}: all agree")


if __name__ == "__main__":
    chosen = harness.arguments("Tests rules by number against the oracle.", "rules", DEFAULT_RULES)
    sys.exit(harness.main(chosen, rule_selftest.run, run, lambda commands: len(commands.calls), report_agreement,
                          report_difference))
