"""Shows that the cases for sheets can tell a faulty reader from a sound one.

Plants one fault after the other in the oracle (tests/sheet_planted.py), reads all cases
again, and asks that at least one comes to something else: another text, another store
or other findings.
"""

import harness
import oracle_sheets
import sheet_cases
import sheet_planted

SHEETS = 500
ROUNDS = 1


# Whether a case comes to something else under a fault; a reader that gives up comes to nothing.
def differs(case, outcome):
    try:
        return oracle_sheets.judge(case.sheet)[:5] != outcome[:5]
    except (KeyError, IndexError, ValueError):
        return False


# The name of the first case that comes to something else.
def first_difference(judged):
    return next((case.name for case, outcome in judged if differs(case, outcome)), None)


# Where a case comes in the search: those made for a purpose first, small ones first.
def search_order(judged):
    case, _ = judged
    return case.name.startswith(("standing", "damaged", "soup", "full", "many", "byte")), len(case.sheet)


# Tries all faults; 0 if each is found out, and none without a fault.
def run(seed):
    judged = sorted(sheet_cases.judged_cases(seed, SHEETS, ROUNDS), key=search_order)
    sheet_cases.covered(judged)
    wrong = ["the sound oracle comes to something else the second time"] * (first_difference(judged) is not None)
    faults = sheet_planted.all_faults()
    for name, fault in faults.items():
        with harness.replaced(*fault):
            wrong += [f"not found out: {name}"] * (first_difference(judged) is None)
    for line in wrong:
        print(f"sheet self-test: seed {seed}: {line}")
    if not wrong:
        print(f"sheet self-test: {len(judged)} sheets, {len(faults)} planted faults are all found out, seed {seed}")
    return 1 if wrong else 0
