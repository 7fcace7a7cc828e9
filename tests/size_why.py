"""The sheets and questions about reasons with the larger store and in sheets of edition 2.

They come after those of tests/why_cases.py, which are all about edition 1 and the smaller store. A question by number
has the length of its store; the same questions are asked with the smaller store, with the larger, and with stores that
are nearly as long.
"""


import oracle_why
import size_sheets
from oracle import LARGE, SMALL
from oracle_why import KINDS, told_by
from sheet_book import Book, sheet_of, words
from store_cases import require
from why_cases import MIXES, POINTS, Case, asked_of, draw_sheet, part, point_sheet

WRONG_LENGTHS = (LARGE.words - 1, LARGE.words + 1)
LONG_NAME, MOST_NAMED = 24, 8000  # bytes of a long name, and of all names of a chain that has such


# A question with a store of another length.
def with_length(question, length):
    return question if question[0] == "text" else (question[0], length, *question[2:])


# Questions with the larger store; some with the smaller one, some with stores of wrong lengths.
def in_sizes(rng, questions):
    asked = []
    for number, question in enumerate(questions):
        length = SMALL.words if number % 5 == 3 else rng.choice(WRONG_LENGTHS) if number % 11 == 7 else LARGE.words
        asked.append(with_length(question, length))
    return asked


# The points found by hand, as they are and in edition 2.
def points(seed):
    rng = part(seed, "size-points")
    for name, text, question, _ in POINTS:
        sheet = point_sheet(text)
        asked = [("text", "\t".join(words(question)).encode())]
        for made in (sheet, size_sheets.turned(sheet)):
            drawn = asked_of(rng, told_by(made), 1)
            yield Case(f"sizes-{name}", made, asked + in_sizes(rng, rng.sample(drawn, min(len(drawn), 14))))


# Sheets drawn, by turns as they are and in edition 2.
def drawn(seed, sheets):
    rng = part(seed, "size-drawn")
    for number in range(sheets):
        sheet = draw_sheet(rng, Book(rng, 3, 3, 5), 12, 2, rng.choice(MIXES))
        made = size_sheets.turned(sheet) if number % 2 == 0 else sheet
        questions = asked_of(rng, told_by(made), 1)
        yield Case(f"sizes-drawn-{number}", made, in_sizes(rng, rng.sample(questions, min(len(questions), 20))))


# A chain of so many items that are the same, its lines in any order, with a concept at its end and a link; every border
# between words is crossed. A cell about both ends needs the whole chain.
def chain_sheet(rng, names):
    merges = [["same", *pair] for pair in zip(names, names[1:])]
    merges = [rng.choice((line, [line[0], line[2], line[1]])) for line in rng.sample(merges, len(merges))]
    return sheet_of([["sheet", "2"], ["concept", "C"], ["concept", "D"], ["concept", "E"], ["role", "r"], ["role", "s"],
                     *(["item", name] for name in names), ["in", names[-1], "C"], ["under", "C", "D"],
                     ["rel", "r", names[0], names[1]], ["runder", "r", "~s"], *merges, ["rule", "sub", "D", "E"], ["rule", "ref", "s"]])


# Questions about a chain: cells of its ends and of items at borders, by number and by line, and findings.
def chains(seed, lengths):
    for items in lengths:
        rng = part(seed, f"size-chain {items}")
        names = [f"n{a}".ljust(LONG_NAME if items * LONG_NAME < MOST_NAMED else 0, "x") for a in range(items)]
        sheet = chain_sheet(rng, names)
        told, last = told_by(sheet), items - 1
        near = [a for a in (0, 63, 64, 127, 128, 129, 191, 192, 255, 256, 299, 383, 384, 447, 448, 510, last) if a < items]
        cells = [(0, 0, last, 0), (4, 0, 0, 0), (4, 0, 1, 0), (5, last, last, 1), (5, 0, last, 0), (0, last, last, 0), (0, 127, 128, 7),
                 (0, items, 0, 0), (0, last, items, 0), (0, 128, 512, 0), (4, 128, 2, 0)]
        cells += [(0, rng.choice(near), rng.choice(near), 0) for _ in range(4)] + [(4, rng.choice(near), 1, 0) for _ in range(2)]
        asked = [("cell", LARGE.words, *cell) for cell in cells] + [("finding", LARGE.words, 0, item) for item in (0, 128, last, items)]
        asked += [("cell", SMALL.words, 0, 0, last, 0), ("finding", SMALL.words, 0, 0), ("cell", WRONG_LENGTHS[0], 0, 0, 0, 0),
                  ("cell", WRONG_LENGTHS[1], 0, 0, 0, 0)]
        lines = (f"same {names[0]} {names[last]}", f"in {names[0]} D", f"in {names[128]} E", f"rel s {names[last]} {names[0]}",
                 f"finding {len(told.lines)} {names[128]}", f"finding {len(told.lines) + 1} {names[128]}",
                 f"same {names[0]} n{items}", "in n255 C")
        asked += [("text", "\t".join(words(line)).encode()) for line in lines]
        require(oracle_why.due(told, asked[0]).refusal is None, "the ends of a chain are not the same")
        require(oracle_why.due(told, ("command", "\t".join(words(lines[0])).encode())).refusal is None, "a line about a chain is refused")
        yield Case(f"sizes-chain-{items}", sheet, asked)


# Refused sheets of both editions with either store: the 129th item of edition 1, the 513th of edition 2, a bad header.
def refused(seed):
    rng = part(seed, "size-refused")
    made = [case for case in size_sheets.item_limits()] + list(size_sheets.headers())
    for number, case in enumerate(made):
        if told_by(case.sheet).outcome.number is not None or number % 4 == 0:
            asked = [("cell", length, rng.randrange(len(KINDS)), 0, 0, 0) for length in (SMALL.words, LARGE.words, *WRONG_LENGTHS)]
            asked += [("finding", LARGE.words, 0, 0), ("text", b"same\tn0\tn0"), ("text", b"finding\t1\tn0")]
            yield Case(f"sizes-refused-{number}", case.sheet, asked)


# The catalogue of 512 codes: cells and findings of it.
def catalogues(seed):
    rng = part(seed, "size-catalogue")
    sheet = size_sheets.catalogue(seed)
    drawn = asked_of(rng, told_by(sheet), 2)
    yield Case("sizes-catalogue", sheet, in_sizes(rng, rng.sample(drawn, min(len(drawn), 30))))


# Every case of a run; the long ones only where the library is asked, as the stand-in is slow.
def all_cases(seed, sheets, small=False):
    yield from points(seed)
    yield from refused(seed)
    yield from drawn(seed, sheets // 4)
    yield from chains(seed, (131, 200) if small else (129, 192, 300, 512))
    if not small:
        yield from catalogues(seed)
