"""Shows that the test of rules by number can fail.

Runs the stand-in tests/rule_reference.c as it is and with each fault that it or
tests/rule_shape.h lists on the same commands, and asks that the sound one passes and that
each faulty one is found out.
"""

import harness
import rule_cases
import size_rules

RULES = 400
ROUNDS = 2
LARGE_STORES = 8
FULLEST_ROLES, DEEPEST = 2, 1  # the stand-in takes too long for more

# The first of the faults that are about the larger store.
FIRST_OF_SIZES = "LARGE_READ_AS_SMALL"

# Commands about one item, one role and the rule "ref" that the sound stand-in passes, and some that are
# wrong about it, each in its own way.
ONE_ITEM = "store 4528 2 0 1 288 1 rule 173 1 0 3 "
RIGHT = ONE_ITEM + "call 1 0 1 1 0 18446744073709551615 2 2 0"
SPOILED = (
    ONE_ITEM + "call 1 0 1 0 1 2",                                  # a finding left out
    ONE_ITEM + "call 1 0 1 2 0 18446744073709551615 0 0 1 2",       # a finding that there is not
    ONE_ITEM + "call 1 0 1 1 0 0 1 2",                              # another second item
    ONE_ITEM + "call 1 0 1 1 1 18446744073709551615 1 2",           # another first item
    ONE_ITEM + "call 1 0 1 -3 1 2",                                 # a refusal that is not due
    ONE_ITEM + "call 1 0 0 -4 1 2",                                 # another refusal than the one due
)


# The same in the larger store.
LARGE_ITEM = "store 70192 2 0 1 4128 1 rule 173 1 0 3 "
LARGE_RIGHT = LARGE_ITEM + "call 1 0 1 1 0 18446744073709551615 2 2 0"
LARGE_SPOILED = (
    LARGE_ITEM + "call 1 0 1 0 1 2",                                # a finding left out
    LARGE_ITEM + "call 1 0 1 -1 1 2",                               # a refusal that is not due
    LARGE_ITEM + "call 513 0 1 -2 1 2",                             # another refusal than the one due
)


# Tries the sound stand-in and all faulty ones; 0 if the test judges each rightly.
def run(seed):
    program = harness.build("rule_selftest", "rule_driver.c", "reference_store.c", "rule_reference.c")
    faults = harness.planted("rule_reference.c", "RULE_FAULT")
    first = [fault.name.split()[1] for fault in faults].index(FIRST_OF_SIZES)
    test = harness.short_test(rule_cases, seed, RULES, ROUNDS)
    wrong = harness.selftest("rule", seed, test, program, harness.planted("rule_shape.h", "SHAPE_FAULT") + faults[:first],
                             RIGHT, SPOILED)
    test = harness.short_test(size_rules, seed, LARGE_STORES, FULLEST_ROLES, DEEPEST, make=rule_cases.Commands)
    return wrong | harness.selftest("rule sizes", seed, test, program, faults[first:], LARGE_RIGHT, LARGE_SPOILED)
