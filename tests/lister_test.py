"""Tests the entry points that write into a list of records, and the count of a rule's findings, against the oracle.

    python3 tests/lister_test.py PROGRAM [--seed N|random] [--sheets N]
    python3 tests/lister_test.py --selftest

PROGRAM is `lister` (crates/lister), which calls them: it reads a sheet with a list, and where the sheet is accepted it
counts and lists the findings of some rules by number in the store that was left. The first byte that it is given says
which store it lends: 0 the smaller, 1 the smaller without its last word, 2 the larger, 3 the larger without its last
word. The self-test needs no program: it plants faults in what is due, and each has to be seen in some case.
"""

import sys
from collections import Counter, namedtuple

sys.dont_write_bytecode = True  # keeps the folder of the tests free of build products

import harness
import oracle
import oracle_rules
import oracle_sheets
import rule_cases
import sheet_cases
import sheet_test
import size_sheets
from oracle import LARGE
from oracle_rules import NO_ITEM, RULE_WORDS
from oracle_sheets import printed
from sheet_book import ACCEPTED, HEADER, Case, named, part, sheet_of
from store_cases import require

DEFAULT_SHEETS = 400
SELFTEST_SHEETS = 100
ROUNDS = 1

PLACES = 24  # records of a list
RULES = 3  # rules a sheet
MARK = (1000, 1000, 1000)  # what each record of a list is before

# A sheet, whether its store is one word short and whether it is the larger, the rules that go with it, and what is due.
Asked = namedtuple("Asked", "case short large rules outcome")
# A rule: how many items more are declared for it than the sheet does, its words; the answer due, and all its findings.
Rule = namedtuple("Rule", "more words result found")

# Something that the cases have to have: an answer of a rule, or how a list is filled.
DUE_OF_ONE = ["short store", "sheet accepted", "sheet refused", *(f"rule refused by {number}" for number in (1, 2, 3, 4)),
              *(f"{what}: {how}" for what in ("sheet", "rule") for how in ("nothing found", "room left", "just full", "too many"))]
DUE = [*DUE_OF_ONE, *(f"larger store: {kind}" for kind in DUE_OF_ONE), "larger store: over 128 items",
       "larger store: an item of 256 or more"]


# --- Cases ---


# The words of a malformed rule.
def malformed_words(rng, drawer):
    _, drafts = rng.choice(rule_cases.MALFORMED)
    return rng.choice(list(drafts(drawer))).words(rng)


# The words of a rule with numbers that are never declared.
def undeclared_words(rng, drawer):
    draft = drawer.draft_with_expressions()
    rule_cases.spoil_numbers(rng, draft)
    return draft.words(rng)


# The words of a rule: mostly in order.
def draw_rule(rng, counts):
    spoiled = rng.choice((None, None, None, malformed_words, undeclared_words))
    if spoiled is None:
        return rule_cases.RuleDrawer(rng, counts).any_words()
    return spoiled(rng, rule_cases.RuleDrawer(rng, oracle.Counts(*(max(count, 1) for count in counts))))


# How many items more are declared for a rule than the sheet does: mostly none.
def draw_more(rng):
    return rng.choice((0,) * 14 + (1, 200))


# A rule, its words as bytes, with what it is to give in the store that an accepted sheet left.
def answered(outcome, more, words):
    small = tuple(word % 256 for word in words)
    counts = outcome.counts._replace(items=outcome.counts.items + more)
    return Rule(more, small, *oracle_rules.answer(outcome.words, counts, small))


# The rules that go with a sheet: drawn over its counts; with a refused one, whose rules are not asked about, any.
def draw_rules(rng, outcome):
    if outcome.number is not None:
        return [Rule(0, (0,) * RULE_WORDS, None, [])] * RULES
    return [answered(outcome, draw_more(rng), draw_rule(rng, outcome.counts)) for _ in range(RULES)]


# Sheets with one finding fewer than a list has places, as many, and one more; of one rule, and of two.
def about_full():
    for items in range(PLACES - 2, PLACES + 2):
        lines = [HEADER, ["concept", "C"], ["role", "r"], *named("item", items)]
        for name, rules in (("one", ["ref r"]), ("two", ["in C n0", "ref r"])):
            yield Case(f"full-{name}-{items}", sheet_of([*lines, *(["rule", *rule.split()] for rule in rules)]), ACCEPTED)


# Rules that every item breaks, and one that none does.
EVERY_ITEM = (("ref", 0, 0), ("sub", ("top",), ("not", ("top",))), ("irr", 0, 0))


# These sheets with such rules.
def full_lists(rng):
    for case in about_full():
        outcome = oracle_sheets.judge(case.sheet)
        words = [rule_cases.lay_out(rng, rule).words(rng) for rule in EVERY_ITEM]
        yield Asked(case, False, False, [answered(outcome, 0, rule) for rule in words], outcome)


# Every sheet of a run with the smaller store: those that fill a list, then all others.
def small_cases(seed, judged):
    rng = part(seed, "lists")
    yield from full_lists(rng)
    for number, (case, outcome) in enumerate(judged):
        short = number % 16 == 5
        due = oracle_sheets.judge(case.sheet, oracle.WORDS - 1) if short else outcome
        yield Asked(case, short, False, draw_rules(rng, due), due)


# A sheet with the larger store, the rules that go with it drawn, or given as tuples.
def asked_large(rng, case, short=False, rules=None):
    outcome = oracle_sheets.judge(case.sheet, LARGE.words - short)
    if rules is None or outcome.number is not None:
        return Asked(case, short, True, draw_rules(rng, outcome), outcome)
    return Asked(case, short, True, [answered(outcome, 0, rule_cases.lay_out(rng, rule).words(rng)) for rule in rules], outcome)


# Sheets with the larger store: those that fill a list, some of the others in either edition, with stores that are one
# word short too, and some of those that are made for both editions.
def large_cases(seed, sheets, judged):
    rng = part(seed, "large-lists")
    for case in about_full():
        yield asked_large(rng, Case(case.name, size_sheets.turned(case.sheet), ACCEPTED), rules=EVERY_ITEM)
    for number, (case, _) in enumerate(judged):
        if number % 16 in (2, 6):
            yield asked_large(rng, case, short=number % 64 == 2)
        if number % 16 == 9:
            yield asked_large(rng, Case(case.name, size_sheets.turned(case.sheet), None))
    for number, case in enumerate(size_sheets.all_cases(seed, sheets // 4)):
        if number % 3 == 0 or case.name.startswith(("border", "chain", "findings")):
            yield asked_large(rng, case, rules=EVERY_ITEM if number % 2 == 0 and case.name.startswith("findings") else None)


# Every sheet of a run.
def all_cases(seed, sheets):
    judged = list(sheet_cases.judged_cases(seed, sheets, ROUNDS))
    yield from small_cases(seed, judged)
    yield from large_cases(seed, sheets, judged)


# What the program reads.
def given_to(asked):
    rules = (byte for rule in asked.rules for byte in (rule.more, *rule.words))
    return bytes([asked.short + 2 * asked.large, *rules]) + asked.case.sheet


# --- What is due ---


# The records of a list: the first findings as far as it reaches; those past them are as they were.
def listed(findings):
    return [*findings[:PLACES], *[MARK] * (PLACES - len(findings))]


# The lines of a list.
def list_lines(findings):
    return [printed("record", *(number for number in record if number != NO_ITEM)) for record in listed(findings)]


# The lines of a sheet's answer, and its list.
def sheet_lines(outcome):
    if outcome.number is not None:
        return [printed("refused", outcome.line, outcome.number), *list_lines([])]
    counts = (outcome.counts.items, outcome.counts.concepts, outcome.counts.roles)
    return [printed("accepted", *counts, outcome.rules, len(outcome.findings)), *list_lines(outcome.findings)]


# The line of a rule's answer to one question.
def total_line(question, result):
    return printed("refused", 0, -result) if result < 0 else printed(question, result)


# The lines of a rule's two answers, and its list.
def rule_lines(number, result, found):
    return [total_line("count", result), total_line("list", result), *list_lines([(number, *finding) for finding in found])]


# All that the program is to print.
def due_of(asked):
    lines = sheet_lines(asked.outcome)
    if asked.outcome.number is None:
        for number, rule in enumerate(asked.rules):
            lines += rule_lines(number, rule.result, rule.found)
    return "".join(lines).encode()


# --- What the cases have ---


# How a list is filled.
def filling(total):
    if total == 0:
        return "nothing found"
    return "room left" if total < PLACES else "just full" if total == PLACES else "too many"


# The kinds that a case belongs to.
def kinds_of(asked):
    kinds = kinds_of_one(asked)
    if not asked.large:
        return kinds
    items = [item for finding in asked.outcome.findings[:PLACES] for item in finding[1:] if item != NO_ITEM]
    items += [item for rule in asked.rules for finding in rule.found[:PLACES] for item in finding if item != NO_ITEM]
    kinds += ["over 128 items"] * (asked.outcome.counts.items > 128 and asked.outcome.number is None)
    kinds += ["an item of 256 or more"] * (max(items, default=0) >= 256)
    return [f"larger store: {kind}" for kind in kinds]


# The same, whatever the store.
def kinds_of_one(asked):
    if asked.outcome.number is not None:
        return ["short store" if asked.short else "sheet refused"]
    results = [rule.result for rule in asked.rules]
    kinds = [f"rule refused by {-result}" if result < 0 else f"rule: {filling(result)}" for result in results]
    return ["sheet accepted", f"sheet: {filling(len(asked.outcome.findings))}", *kinds]


# How many cases belong to each kind, with a stop if a kind has none.
def covered(cases):
    seen = Counter(kind for asked in cases for kind in kinds_of(asked))
    missing = [kind for kind in DUE if not seen[kind]]
    require(not missing, f"the cases never have: {', '.join(missing)}")
    return seen


# --- The test of the test ---

sound_list, sound_total, sound_sheet = listed, total_line, sheet_lines


# The records where one more is written than there are findings.
def one_past_the_total(findings):
    return [*findings, (0, 0, NO_ITEM), *[MARK] * PLACES][:PLACES]


# The records where those past the findings are cleared.
def rest_cleared(findings):
    return [*findings, *[(0, 0, NO_ITEM)] * PLACES][:PLACES]


# The records where the last place of the list is not used.
def last_place_left(findings):
    return [*sound_list(findings)[:PLACES - 1], MARK]


# The records where each is one place further.
def one_place_further(findings):
    return [MARK, *findings, *[MARK] * PLACES][:PLACES]


# The records in the order of the second items.
def by_second_item(findings):
    return sound_list(sorted(findings, key=lambda finding: (finding[0], finding[2], finding[1])))


# The records with the first item in place of the second.
def first_item_twice(findings):
    return sound_list([(rule, first, second if second == NO_ITEM else first) for rule, first, second in findings])


# The records with rules numbered from 1.
def numbered_from_1(findings):
    return sound_list([(rule + 1, first, second) for rule, first, second in findings])


# The answer of a rule whose total is cut to what the list holds.
def total_cut(question, result):
    return sound_total(question, min(result, PLACES))


# The answer of a rule that is counted otherwise than it is listed.
def counted_one_more(question, result):
    return sound_total(question, result + (question == "count" and result >= 0))


# The answer of a rule that is never malformed.
def malformed_as_number(question, result):
    return sound_total(question, -4 if result == -3 else result)


# The answer of a rule where no store is found not to be closed.
def closed_never_asked(question, result):
    return sound_total(question, 0 if result == -2 else result)


# The answer of a rule where the size is never asked.
def size_never_asked(question, result):
    return sound_total(question, -2 if result == -1 else result)


# A refused sheet with the list written.
def refused_but_written(outcome):
    return sound_sheet(outcome) if outcome.number is None else [*sound_sheet(outcome)[:1], *list_lines([(0, 0, NO_ITEM)])]


# A sheet whose items are counted in 8 bits.
def items_of_8_bits(outcome):
    return sound_sheet(outcome._replace(counts=outcome.counts._replace(items=outcome.counts.items % 256)))


# A sheet with no more than 128 items.
def no_more_than_128(outcome):
    few = outcome.number is not None or outcome.counts.items <= 128
    return sound_sheet(outcome if few else outcome._replace(line=130, number=18))


# The records with items of 8 bits.
def items_cut(findings):
    return sound_list([(rule, first % 256, second if second == NO_ITEM else second % 256) for rule, first, second in findings])


# A sheet with the findings of its last rule left out.
def last_rule_left_out(outcome):
    return sound_sheet(outcome._replace(findings=[one for one in outcome.findings if one[0] < outcome.rules - 1]))


# A sheet whose rules are counted as one more.
def one_rule_more(outcome):
    return sound_sheet(outcome._replace(rules=outcome.rules + 1))


PLANTED = {
    "listed": (one_past_the_total, rest_cleared, last_place_left, one_place_further, by_second_item, first_item_twice,
               numbered_from_1, items_cut),
    "total_line": (total_cut, counted_one_more, malformed_as_number, closed_never_asked, size_never_asked),
    "sheet_lines": (refused_but_written, last_rule_left_out, one_rule_more, items_of_8_bits, no_more_than_128),
}


# Plants each fault; 0 if it is seen in some case.
def selftest(seed):
    cases = [(asked, due_of(asked)) for asked in all_cases(seed, SELFTEST_SHEETS)]
    covered([asked for asked, _ in cases])
    faults = [(name, fault) for name, planted in PLANTED.items() for fault in planted]
    wrong = 0
    for name, fault in faults:
        with harness.replaced(globals(), name, fault):
            if all(due_of(asked) == due for asked, due in cases):
                print(f"lists self-test: seed {seed}: not found out: {fault.__name__}")
                wrong = 1
    if not wrong:
        print(f"lists self-test: {len(cases)} sheets, {len(faults)} planted faults are all found out, seed {seed}")
    return wrong


# --- The test ---


# Prints a case that the program does not agree on.
def report_difference(seed, asked, due, got):
    store = f"{'the larger' if asked.large else 'the smaller'}, {'one word short' if asked.short else 'whole'}"
    print(f"lists: seed {seed}: difference in {asked.case.name}, the store {store}; the sheet is:")
    print(sheet_test.shown(asked.case.sheet))
    for rule in asked.rules:
        print(f"with {rule.more} items more declared, the rule of the words {' '.join(map(str, rule.words))}")
    print(f"expected:\n{sheet_test.shown(due)}\ngot:\n{sheet_test.shown(got)}")


# Gives every case to the program; 0 if it prints what is due.
def run(program, seed, sheets):
    cases = list(all_cases(seed, sheets))
    seen = covered(cases)
    for asked in cases:
        due, got = due_of(asked), sheet_test.printed_by(program, given_to(asked))
        if got != due:
            report_difference(seed, asked, due, got)
            return 1
    kinds = "; ".join(f"{kind} {seen[kind]}" for kind in DUE)
    print(f"lists: {len(cases)} sheets with {RULES} rules each ({kinds}), seed {seed}: all agree")
    return 0


# Runs the test or the self-test; 0 if all is well.
def main():
    chosen = harness.arguments("Tests the entry points that write into a list.", "sheets", DEFAULT_SHEETS)
    return selftest(chosen.seed) if chosen.selftest else run(chosen.driver, chosen.seed, chosen.size)


if __name__ == "__main__":
    sys.exit(main())
