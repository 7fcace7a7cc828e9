"""Shows that the test of compiled queries can fail.

Builds the stand-in tests/query_reference.c as it is and with each fault that it or
tests/rule_shape.h lists, gives the same commands to all of them, and asks that the
sound one passes and that each faulty one is found out. Then plants faults in the
oracle's own translation and in the way it answers queries, and asks that answers and
findings differ.
"""

import random

import harness
import oracle_queries
import query_cases
from oracle_queries import ROLE, X

RULES = 600
ROUNDS = 1
ANSWERED_STORES = 150

# Commands about one role and the rule "ref" that the sound stand-in passes, and some that are wrong about it,
# each in its own way.
REF = "rule 173 1 0 3 "
ITEMS = "12 4 0 0 0 2 0 0 0 5 0 0 0 "
RIGHT = REF + f"call 1 0 1 {ITEMS} 2 12 13 11 -6"
SPOILED = (
    REF + f"call 1 0 1 {ITEMS} 1 12 12",                                # another number of answer variables
    REF + f"call 1 0 1 {ITEMS} 1 12 17",                                # another length
    REF + f"call 1 0 1 {ITEMS} 1 11 13",                                # a room that is too small
    REF + f"call 1 0 1 {ITEMS} 1 12 -6",                                # a refusal that is not due
    REF + f"call 1 0 0 {ITEMS} 1 12 -3",                                # another refusal than the one due
    REF + "call 1 0 1 12 4 0 0 0 2 0 0 1 5 0 0 0 1 12 13",              # another word
    REF + "call 1 0 1 13 4 0 0 0 2 0 0 0 5 0 0 0 1 1 13 13",            # a word past the query
    REF + "call 1 0 1 8 4 0 0 0 2 0 0 0 1 12 13",                       # an item left out
)


# --- Faults in the oracle ---


# At least without its equalities.
def without_equalities(writer, term, n, R, C):
    for _ in range(n):
        found = writer.new_variable()
        writer.role(R, term, found)
        writer.expression(C, found)


# At least with only the first two compared.
def with_one_equality(writer, term, n, R, C):
    found = []
    for _ in range(n):
        found.append(writer.new_variable())
        writer.role(R, term, found[-1])
        writer.expression(C, found[-1])
    if n > 1:
        writer.inside_not(writer.equality, found[0], found[1])


# At least with the items found asked to be the same.
def with_equalities_only(writer, term, n, R, C):
    without_equalities(writer, term, n, R, C)
    for variable in range(writer.free - n, writer.free - 1):
        writer.equality(variable, variable + 1)


# A role atom with its terms as they are, inverse or not.
def role_unswapped(writer, role, first, second):
    writer.items.append((ROLE, role.number, first, second))


# What should be inside a not, without it.
def not_left_out(writer, write, *what):
    write(*what)


# A sub whose right side is read without a not.
def sub_without_not(writer, C, D):
    writer.expression(C, X)
    writer.expression(D, X)


# A chain that asks the last role the other way round.
def chain_turned(writer, k, *roles):
    oracle_queries.write_chain(writer, k, *roles)
    kind, name, first, second = writer.items[-2]
    writer.items[-2] = (kind, name, second, first)


# One new variable for all.
def same_variable(writer):
    writer.free = max(writer.free, 3)
    return writer.free - 1


# What is changed in the oracle for each fault: where, which name, and what takes its place.
def oracle_faults():
    expressions, heads, writer = oracle_queries.EXPRESSIONS, oracle_queries.HEADS, oracle_queries.Writer
    return {
        "equalities left out": (expressions, "at least", without_equalities),
        "one equality only": (expressions, "at least", with_one_equality),
        "equalities without a not": (expressions, "at least", with_equalities_only),
        "inverses not swapped": (writer, "role", role_unswapped),
        "nots left out": (writer, "inside_not", not_left_out),
        "one variable for all": (writer, "new_variable", same_variable),
        "and is its first": (expressions, "and", lambda writer, term, C, D: writer.expression(C, term)),
        "one is always the first item": (expressions, "one", lambda writer, term, a: writer.equality(term, 4096)),
        "self is left out": (expressions, "self", lambda writer, term, R: None),
        "sub without its not": (heads, "sub", (sub_without_not, 1)),
        "chain ends the other way": (heads, "chain", (chain_turned, 2)),
        "in is read without a not": (heads, "in", (lambda w, C, a: w.expression(C, 4096 + a), 0)),
        "same is differ": (heads, "same", heads["differ"]),
        "variables escape their nots": (oracle_queries, "owner", lambda open_groups: open_groups[0]),
        "answer variables belong to nots": (oracle_queries, "free_variables", lambda query: set()),
    }


# Cells of small stores, and rules over each.
def draw_stores(seed):
    drawn = [query_cases.draw_small(random.Random(f"{seed} self-test {number}")) for number in range(ANSWERED_STORES)]
    return [(cells, query_cases.written(counts, rules)) for counts, cells, rules in drawn]


# Whether the answers differ from the findings in some rule.
def found_out(stores):
    commands = query_cases.Commands(lambda text: None)
    try:
        for cells, rules in stores:
            for rule in rules:
                query_cases.answered(commands, cells, rule)
    except AssertionError:
        return True
    return False


# Tries all faults of the oracle; 0 if each is found out, and none without a fault.
def run_oracle(seed):
    stores, faults = draw_stores(seed), oracle_faults()
    wrong = ["the sound oracle's queries do not say what the rules do"] * found_out(stores)
    for name, fault in faults.items():
        with harness.replaced(*fault):
            wrong += [f"not found out in the oracle: {name}"] * (not found_out(stores))
    for line in wrong:
        print(f"query self-test: seed {seed}: {line}")
    if not wrong:
        print(f"query self-test: {len(faults)} faults of the oracle are all found out by answering queries, seed {seed}")
    return 1 if wrong else 0


# Tries the sound stand-in, all faulty ones and the oracle; 0 if the test judges each rightly.
def run(seed):
    program = harness.build("query_selftest", "query_driver.c", "query_reference.c")
    faults = harness.planted("rule_shape.h", "SHAPE_FAULT") + harness.planted("query_reference.c", "QUERY_FAULT")
    test = harness.short_test(query_cases, seed, RULES, ROUNDS)
    faulty = harness.selftest("query", seed, test, program, faults, RIGHT, SPOILED)
    return faulty or run_oracle(seed)
