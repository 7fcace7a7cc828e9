"""The sheets that the reading of sheets and the program `check` are tested with.

Here are those that stand, those damaged at random and those drawn from words; the
others are in tests/sheet_faults.py and tests/sheet_points.py. The oracle
(tests/oracle_sheets.py) says what each comes to, and has to agree where a line and a
number are due. Each part of the test draws from random numbers of its own, made from
the seed and the part's name, so that a part is the same whatever else is run.
"""

from collections import Counter

import oracle_sheets
import sheet_faults
import sheet_points
from oracle_sheets import DECLARATIONS, MOST_RULES, NAME_BYTES, OPERATORS, RULES, SHEET_BYTES, STATEMENTS
from sheet_book import (ACCEPTED, HEADER, Book, Case, draw_sheet, is_small, lines_of, named, part, sheet_of, small_book,
                        words)
from sheet_faults import HIDING, LINE_NUMBERS, LINE_PAIRS
from store_cases import require

LONGEST_TEXT = 12814  # bytes: 200 findings of 64 bytes, and a total of seven digits

# --- Sheets that stand ---

WORKED = """
sheet 1
concept Blade
concept Hub
role fits
item FB-12
item FB-13
item HX-1
in FB-12 Blade
in FB-13 Blade
in HX-1 Hub
rel fits FB-12 HX-1
rule sub Blade some fits Hub
rule irr fits
"""

# Declarations for short sheets: the items are not in the order of their names.
NAMES = """
sheet 1
concept C
concept D
role r
role s
item b
item a
item c
"""

# The two worked sheets of document 01 and more that are found by hand, with what they print.
PRINTED_SHEETS = (
    ("worked-1", WORKED, "finding 12 FB-13\ntotal 1"),
    ("worked-2", WORKED.replace("rule sub", "same FB-12 FB-13\nrule sub"), "total 0"),
    ("nothing", "sheet 1", "total 0"),
    ("no-items", "sheet 1\nrole r\nrule ref r\nrule rsub r ~r", "total 0"),
    ("by-declaration", NAMES + "rule ref r", "finding 9 b\nfinding 9 a\nfinding 9 c\ntotal 3"),
    ("by-rule", NAMES + "rule in C c\n\nrule in C b", "finding 9 c\nfinding 11 b\ntotal 2"),
    ("rule-twice", NAMES + "rule in D a\nrule in D a", "finding 9 a\nfinding 10 a\ntotal 2"),
    ("both-names", NAMES + "same a b\nin a C\nrule sub C D", "finding 11 b\nfinding 11 a\ntotal 2"),
    ("one-article", NAMES + "same a b\nrel r c a\nrel r c b\nrule sub one c atleast 2 r top", "finding 12 c\ntotal 1"),
    ("two-articles", NAMES + "rel r c a\nrel r c b\nrule sub one c atleast 2 r top", "total 0"),
    ("both-ways", NAMES + "rel r a b\nrel r b a\nrule dis r ~r", "finding 11 b a\nfinding 11 a b\ntotal 2"),
    ("path-once", NAMES + "rel r a b\nrel r a c\nrel s b a\nrel s c a\nrule chain r s r", "finding 13 a a\ntotal 1"),
    ("as-named", NAMES + "rel r a b\nrule rel r b a\nrule rel ~r b a\nrule norel ~r b a",
     "finding 10 b a\nfinding 12 b a\ntotal 2"),
    ("itself", NAMES + "rule differ a a\nrule same a c\nrule same c a",
     "finding 9 a a\nfinding 10 a c\nfinding 11 c a\ntotal 3"),
    ("inverse-left", NAMES + "runder ~r s\nrel r a b\nrule rel s b a\nrule rel s a b", "finding 12 a b\ntotal 1"),
    ("inverse-both", NAMES + "runder ~r ~s\nrel r a b\nrule rel s b a\nrule rel s a b", "finding 11 b a\ntotal 1"),
    ("step-twice", NAMES + "runder r ~s\nrunder s ~r\nrel r a b\nrule norel r a b\nrule norel r b a",
     "finding 12 a b\ntotal 1"),
    ("copied-links", NAMES + "rel r a b\nsame a c\nrule norel r c b\nrule norel r b c", "finding 11 c b\ntotal 1"),
    ("fits-none", NAMES + "in a C\nin b D\nin c D\nrel r a b\nrule sub C some r D\nrule sub C all r D", "total 0"),
    ("at-most-0", NAMES + "rel r a b\nrule sub top atmost 0 r top", "finding 10 a\ntotal 1"),
    ("at-most-1", NAMES + "rel r a b\nrel r a c\nrule sub top atmost 1 r top\nrule sub top atmost 2 r top",
     "finding 11 a\ntotal 1"),
    ("short-forms", NAMES + "in a C\nin b D\nrule sub top or C D\nrule sub bot C\nrule sub C bot",
     "finding 11 c\nfinding 13 a\ntotal 2"),
    ("self-and-one", NAMES + "rel r c c\nsame a b\nrule sub self ~r bot\nrule sub one a bot",
     "finding 11 c\nfinding 12 b\nfinding 12 a\ntotal 3"),
)


# These sheets; the oracle has to print the same.
def printed():
    for name, text, due in PRINTED_SHEETS:
        sheet = sheet_of(lines_of(text))
        got = oracle_sheets.judge(sheet).text
        require(got == sheet_of(lines_of(due)).decode(), f"the oracle fails {name}: {got}")
        yield Case(f"printed-{name}", sheet, ACCEPTED)
        yield Case(f"printed-{name}-no-end", sheet[:-1], ACCEPTED)


# Sheets drawn that stand.
def standing(seed, sheets):
    rng = part(seed, "standing")
    for number in range(sheets):
        book = Book(rng, rng.randint(1, 5), rng.randint(1, 4), rng.choice((1, 2, 3, 4, 5, 6, 9)))
        lines = draw_sheet(rng, book, rng.choice((0, 2, 5, 10, 20)), rng.choice((0, 1, 2, 4, 8)))
        if is_small(lines):
            yield Case(f"standing-{number}", sheet_of(lines, rng.choice(("\n", "", "\n\n"))), ACCEPTED)


# A rule with a rule word, or with an operator on one side of a sub.
def rule_with(rng, book, word):
    if word in RULES:
        return book.rule(word, 4)
    shown = [word, *book.fields(OPERATORS[word], 1)]
    return ["rule", "sub", *rng.choice((["top", *shown], [*shown, "bot"], [*shown, book.name("concept")]))]


# A small sheet in which a rule word or an operator comes up.
def draw_meaning(rng, word):
    book = Book(rng, 3, 2, rng.choice((2, 3, 4, 5)))
    lines = draw_sheet(rng, book, rng.choice((4, 8, 14)), 0)
    links = [book.statement("rel") for _ in range(rng.choice((0, 3, 6)))]
    rule = rule_with(rng, book, word)
    return sheet_of([*lines, *links, rule, rule])


# Each rule word and each operator in many small sheets, every second one with findings.
def meanings(seed, rounds):
    rng = part(seed, "meaning")
    for again in range(12 * rounds):
        for word in (*RULES, *OPERATORS):
            sheet = draw_meaning(rng, word)
            while again % 2 == 0 and not oracle_sheets.judge(sheet).findings:
                sheet = draw_meaning(rng, word)
            yield Case(f"meaning-{word}-{again}", sheet, ACCEPTED)


# Sheets with many findings, about 200 or far more, and names of full length.
def many_findings(seed):
    rng = part(seed, "many")
    for items in (13, 14, 15, 99, 100, 101, 127, 128):
        names = [f"i{number}".ljust(NAME_BYTES, "x") for number in range(items)]
        rng.shuffle(names)
        head = [HEADER, ["role", "r"], ["role", "s"], *(["item", name] for name in names)]
        for at, rules in enumerate((["ref"], ["ref", "ref"], ["rsub"], ["ref", "rsub", "ref"])):
            fields = {"ref": ["rule", "ref", "r"], "rsub": ["rule", "rsub", "s", "~r"]}
            links = [["rel", "s", rng.choice(names), rng.choice(names)] for _ in range(items)]
            lines = [*head, *links, *(fields[rule] for rule in rules)]
            yield Case(f"many-{items}-{at}", sheet_of(lines), ACCEPTED)


# Sheets of items that are all the same, so that every pair is found; and a rule as late as there can be one.
def merged_items():
    last = b"rule\tdis\ts\t~s\n"
    for items in (14, 15, 128):
        merged = [["rel", "s", "n0", "n0"], *(["same", "n0", f"n{number}"] for number in range(1, items))]
        lines = [HEADER, ["role", "r"], ["role", "s"], *named("item", items), *merged, *[words("rule rsub s r")] * 3]
        filled = sheet_of(lines)
        yield Case(f"merged-{items}", filled, ACCEPTED)
        yield Case(f"merged-{items}-late", filled + b"\n" * (SHEET_BYTES - len(filled) - len(last)) + last, ACCEPTED)


# The sheet with the longest text that there is: all names and numbers as long as they can be.
def longest_text():
    names = [f"{number:03}".ljust(NAME_BYTES, "x") for number in range(128)]
    lines = [HEADER, ["role", "r"], *(["item", name] for name in names), ["rel", "r", names[0], names[0]],
             *(["same", names[0], name] for name in names[1:])]
    sheet = sheet_of([*lines, *[[""]] * 10000, *[words("rule dis r ~r")] * MOST_RULES])
    require(len(oracle_sheets.judge(sheet).text) == LONGEST_TEXT, "another text is the longest")
    yield Case("many-longest", sheet, ACCEPTED)


# Sheets at all limits together.
def full_sheets(seed, rounds):
    rng = part(seed, "full")
    for number in range(rounds):
        book = Book(rng, 32, 16, 128)
        lines = draw_sheet(rng, book, 40, 0)
        rules = [rule for rule in (book.rule(nodes=6) for _ in range(MOST_RULES)) if is_small([rule])]
        while len(sheet_of([*lines, *rules])) > SHEET_BYTES:
            rules.pop()
        yield Case(f"full-{number}", sheet_of([*lines, *rules]), ACCEPTED)


# --- Sheets damaged and drawn ---


# A sheet with one thing changed at random.
def damaged_once(rng, sheet):
    at = rng.randint(0, len(sheet))
    kind = rng.randrange(9)
    lines = sheet.split(b"\n")
    line = rng.randrange(len(lines))
    if kind == 0:
        return sheet[:at] + bytes([rng.randrange(256)]) + sheet[at + 1:]
    if kind == 1:
        return sheet[:at] + bytes([rng.choice(b"\t\n\r ~~azAZ09-._/\x7f\x80")]) + sheet[at:]
    if kind == 2:
        return sheet[:at] + sheet[at + rng.randint(1, 4):]
    if kind == 3:
        return b"\n".join(lines[:line] + [lines[line]] * 2 + lines[line + 1:])
    if kind == 4:
        return b"\n".join(lines[:line] + lines[line + 1:])
    if kind == 5:
        return b"\n".join(lines[:line] + lines[line + 1:line + 2] + lines[line:line + 1] + lines[line + 2:])
    fields = lines[line].split(b"\t")
    place = rng.randrange(len(fields))
    if kind == 6:
        fields[place] = rng.choice(sheet.replace(b"\n", b"\t").split(b"\t"))
    elif kind == 7:
        fields.insert(place, rng.choice((b"", b"not", b"and", b"1", b"~r")))
    else:
        fields[place] = rng.choice((fields[place].swapcase(), b"~" + fields[place], fields[place] + b" ", b""))
    return b"\n".join(lines[:line] + [b"\t".join(fields)] + lines[line + 1:])


# Sheets that stood, with a few things changed.
def damaged(seed, sheets):
    rng = part(seed, "damaged")
    for number in range(sheets):
        book = small_book(rng)
        sheet = sheet_of(draw_sheet(rng, book, rng.randint(0, 5), rng.randint(0, 4)))
        for _ in range(rng.choice((1, 1, 1, 2, 4))):
            sheet = damaged_once(rng, sheet)
        yield Case(f"damaged-{number}", sheet, None)


# Lines of words that come up in sheets, in any order.
def soup(seed, sheets):
    rng = part(seed, "soup")
    vocabulary = [*DECLARATIONS, *STATEMENTS, "rule", *RULES, *OPERATORS, "sheet", "1", "2", "8", "9", "0", "a", "b", "A",
                  "B", "r", "~r", "~", "", " ", "3-Mar", "30-Feb"]
    few = ["a", "b", "A", "B", "r", "~r", "s", "2", "top", "not", "some", "and"]
    for number in range(sheets):
        head = lines_of("sheet 1\nconcept A\nconcept B\nrole r\nrole s\nitem a\nitem b")
        lines = []
        for _ in range(rng.randint(1, 5)):
            first = rng.choice((["rule", rng.choice(list(RULES))], [rng.choice(vocabulary)],
                                [rng.choice(list(STATEMENTS))]))
            lines.append(first + [rng.choice(rng.choice((few, few, vocabulary))) for _ in range(rng.randint(0, 6))])
        yield Case(f"soup-{number}", sheet_of(head + lines), None)


# --- Edition 2 ---


# Sheets of edition 2, which the program `check` and the host refuse at line 1, as they have the smaller store: those found
# by hand, some with more than 128 items, and some that have another fault too.
def edition_2():
    for name, text, _ in PRINTED_SHEETS:
        yield Case(f"edition-{name}", sheet_of([["sheet", "2"], *lines_of(text)[1:]]), (1, 11))
    for items in (0, 128, 129, 512, 513):
        yield Case(f"edition-{items}", sheet_of([["sheet", "2"], *named("item", items), ["same", "n0", "n1"]]), (1, 11))
    for sheet, due in ((b"sheet\t2", (1, 11)), (b"sheet\t2\r\n", (1, 10)), (b"sheet\t1\nsheet\t2\n", (2, 12)),
                       (b"sheet\t2" + b"\n" * SHEET_BYTES, (0, 9)), (b"sheet\t2\nx\n", (1, 11)), (b"sheet\t3\n", (1, 11))):
        yield Case("edition-header", sheet, due)


# --- All cases ---


# Every case of a run, the fixed ones first.
def all_cases(seed, sheets, rounds):
    yield from printed()
    yield from sheet_points.all_cases(seed)
    yield from meanings(seed, rounds)
    yield from many_findings(seed)
    yield from merged_items()
    yield from longest_text()
    yield from sheet_faults.all_cases(seed, rounds)
    yield from full_sheets(seed, rounds)
    for drawn in (standing, damaged, soup):
        yield from drawn(seed, sheets)
    yield from edition_2()


# The cases with what they come to; where a line and a number are due, the oracle has to give them.
def judged_cases(seed, sheets, rounds):
    for case in all_cases(seed, sheets, rounds):
        outcome = oracle_sheets.judge(case.sheet)
        if case.due is not None:
            require((outcome.line, outcome.number) == case.due, f"{case.name}: due {case.due}, the oracle gives "
                                                                f"{outcome.line}, {outcome.number}: {case.sheet!r}")
        require_pair(case, outcome)
        yield case, outcome


# A case made for a pair of numbers has both, as far as the lower one does not hide the other.
def require_pair(case, outcome):
    if case.name.startswith("pair-"):
        pair = {int(number) for number in case.name.split("-")[1:3]}
        require(min(pair) in HIDING or outcome.faults == pair, f"{case.name}: not this pair: {outcome.faults}")


# The kinds of cases that a run has to have: each number, each pair on a line in both orders, each pair of lines.
def classes_due():
    due = [f"number {number}" for number in (*range(9, 22), None)]
    due += [f"pair-{first}-{second}" for low, high in LINE_PAIRS for first, second in ((low, high), (high, low))]
    due += [f"hidden-{high}-by-{low}-{low}" for low, high in LINE_PAIRS if low in HIDING]
    due += [f"lines-{earlier}-{later}" for earlier in (*LINE_NUMBERS, 11) for later in LINE_NUMBERS]
    due += [f"first-is-{number}" for number in LINE_NUMBERS] + [f"sheet-9-{number}" for number in LINE_NUMBERS]
    due += [f"findings of {word}" for word in RULES] + [f"finding through {word}" for word in OPERATORS]
    return due + ["findings past 200", "store all zero", "store untouched", "store kept when refused"]


# The kinds that a case belongs to.
def classes_of(case, outcome):
    found = {f"number {outcome.number}", case.name.rsplit("-", 1)[0]}
    if case.name.startswith("meaning-") and outcome.findings:
        word = case.name.split("-")[1]
        found.add(f"findings of {word}" if word in RULES else f"finding through {word}")
    if len(outcome.findings) > oracle_sheets.MOST_FINDING_LINES:
        found.add("findings past 200")
    if outcome.number is not None:
        kept = "untouched" if outcome.words is None else "kept when refused" if any(outcome.words) else "all zero"
        found.add(f"store {kept}")
    return found


# How many cases belong to each kind, with a stop if a kind has none.
def covered(judged):
    seen = Counter(name for case, outcome in judged for name in classes_of(case, outcome))
    missing = [name for name in classes_due() if not seen[name]]
    require(not missing, f"the cases never have: {', '.join(missing)}")
    return seen
