"""Shows that the test of the store can fail.

Runs the stand-in tests/reference_store.c as it is and with each of its faults on the same
commands, and asks that the sound one passes and that each faulty one is found out.
"""

import harness
import size_cases
import store_cases
from oracle import LARGE

SEQUENCES = 150
ROUNDS = 3
LARGE_SEQUENCES = 12
FULLEST = LARGE.limits._replace(concepts=1, roles=2)  # the stand-in takes too long for all roles

# The first of the faults that are about both sizes, lists and conversions.
FIRST_OF_SIZES = "SMALL_TAKES_129"

RULE_COUNT = 16

# Commands that are wrong about the sound stand-in, each in its own way.
FRESH_PAIR = "load 4528 0 call fresh 2 0 0 0 0 0 2 2 0 1 2 2 "
MERGED_PAIR = "call same 2 0 0 0 1 0 2 2 0 3 2 3 "
SPOILED = (
    FRESH_PAIR + "call same 2 0 0 0 1 0 3 2 0 3 2 3",                # a count that is not right
    FRESH_PAIR + "call same 2 0 0 0 1 0 2 1 0 3",                    # a change left out
    FRESH_PAIR + "call same 2 0 0 0 2 0 -4 1 4527 1",                # a change that does not happen
    FRESH_PAIR + MERGED_PAIR + "keep flip 4527 1 compare",           # another store at the end
    FRESH_PAIR + MERGED_PAIR + "keep load 4528 2 0 3 2 3 compare",   # another sum of the counts
)

# The same for lists and conversions: two items in a larger store, made the same by a list, and moved to the smaller.
LARGE_PAIR = "load 70192 2 0 1 8 2 "
MERGED_BY_LIST = LARGE_PAIR + "all 2 0 0 4 0 0 1 9 1 1 2 2 0 3 8 3 "
MOVED = "convert 2 0 0 4528 1 4 2 0 3 2 3 "
SPOILED_SIZES = (
    LARGE_PAIR + "all 2 0 0 4 0 0 1 9 1 1 3 2 0 3 8 3",              # another answer
    LARGE_PAIR + "all 2 0 0 4 0 0 1 9 1 1 2 1 0 3",                  # a change left out
    LARGE_PAIR + "all 2 0 0 4 0 0 1 9 1 0 0",                        # a statement left out
    LARGE_PAIR + "all 2 0 0 8 0 0 1 9 0 0 1 9 2 1 2 2 0 3 8 3",      # an answer left out
    LARGE_PAIR + "all 2 0 0 4 0 0 1 9 2 2 2 2 2 0 3 8 3",            # an answer too many
    MERGED_BY_LIST + "convert 2 0 0 4528 1 3 2 0 3 2 3",             # another number of cells
    MERGED_BY_LIST + "convert 2 0 0 4528 1 4 1 0 3",                 # a cell left behind
    MERGED_BY_LIST + "convert 2 0 0 4528 1 4 3 0 3 2 3 4527 1",      # a bit that is not there
    MERGED_BY_LIST + "convert 2 0 0 4528 1 -26 0",                   # a refusal that is not due
    MERGED_BY_LIST + "convert 2 0 0 4529 1 4 2 0 3 2 3",             # a refusal left out
    MERGED_BY_LIST + "keep " + MOVED + "turn convert 2 0 0 70192 2 4 2 0 3 8 3 turn flip 70191 1 compare",  # not the same again
)


# Every fault of the smaller store and of single calls.
def planted():
    return (every_fault()[:first_of_sizes()]
            + [harness.fault(variable, rule, str(rule)) for variable in ("LEFT_OUT", "NOT_ASKED") for rule in range(RULE_COUNT)])


# Every fault that the stand-in lists.
def every_fault():
    return harness.planted("reference_store.c", "STORE_FAULT")


# How many of the faults are about the smaller store and single calls.
def first_of_sizes():
    return [fault.name.split()[1] for fault in every_fault()].index(FIRST_OF_SIZES)


# The commands of a short test, and the number of their calls.
def short_test(write_all):
    written = []
    commands = store_cases.Commands(written.append)
    write_all(commands)
    return "".join(written), commands.calls


# Tries the sound stand-in and all faulty ones; 0 if the test judges each rightly.
def run(seed):
    program = harness.build("store_selftest", "store_driver.c", "reference_store.c")
    test = short_test(lambda commands: store_cases.write_all(commands, seed, SEQUENCES, ROUNDS))
    right = FRESH_PAIR + MERGED_PAIR + "keep compare"
    wrong = harness.selftest("store", seed, test, program, planted(), right, SPOILED)
    test = short_test(lambda commands: size_cases.write_all(commands, seed, LARGE_SEQUENCES, FULLEST))
    return wrong | harness.selftest("store sizes", seed, test, program, every_fault()[first_of_sizes():],
                                    MERGED_BY_LIST + MOVED, SPOILED_SIZES)
