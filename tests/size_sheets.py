"""The sheets for both editions and both sizes of store: edition 2, many items, and all that differs by the store.

Each is a case of tests/sheet_book.py, but the line and number due are those with the
larger store. With the smaller one a sheet of edition 2 is refused at line 1 by 11, and
any other comes to the same, as tests/oracle_sheets.py has to agree.
"""

import oracle
import oracle_sheets
import sheet_book
from oracle import LARGE, SMALL
from oracle_sheets import MOST_RULES, NAME_BYTES, SHEET_BYTES, printed
from sheet_book import ACCEPTED, Case, lines_of, named, part, sheet_of, words
from sheet_cases import NAMES, PRINTED_SHEETS, damaged_once
from size_cases import BORDER_COUNTS
from store_cases import all_linked, require

HEADER_1, HEADER_2 = ["sheet", "1"], ["sheet", "2"]
EDITION_1, EDITION_2 = b"sheet\t1", b"sheet\t2"
LARGE_TEXT = 12815  # bytes: 200 findings of 64 bytes, and a total of eight digits

# --- Editions ---


# The sheet with the header of edition 2, if it begins with that of edition 1.
def turned(sheet):
    first, *rest = sheet.split(b"\n")
    return b"\n".join([EDITION_2, *rest]) if first == EDITION_1 else sheet


# Whether the first line of a sheet is the header of edition 2.
def is_second(sheet):
    return sheet.split(b"\n")[0] == EDITION_2


# First lines that are no header of either edition, though some are near.
NO_HEADERS = ("sheet\t02", "sheet\t2\t", "sheet\t2 ", " sheet\t2", "sheet 2", "Sheet\t2", "sheet\t12", "sheet\t21", "sheet\t22",
              "sheet\t3", "sheet\t0", "sheet\t", "sheet", "2", "sheet\t\t2", "sheet\t2\tx", "sheet\t1\t2", "sheet\tII", "")


# Headers of both editions and others, alone and before a sheet; a byte that may not stand there is found first.
def headers():
    body = sheet_of(lines_of(NAMES + "rule ref r")[1:])
    for number, first in enumerate(NO_HEADERS):
        for end in (b"", b"\n", b"\n" + body):
            yield Case(f"header-none-{number}", first.encode() + end, (1, 11))
    for header in (EDITION_1, EDITION_2):
        for end in (b"", b"\n", b"\n\n", b"\n" + body):
            yield Case("header-stands", header + end, ACCEPTED)
        for bad in (b"\r", b"\x00", b"\x7f", b"\x80"):
            yield Case("header-byte", header + bad + b"\n" + body, (1, 10))
        for again in (EDITION_1, EDITION_2):
            yield Case("header-twice", header + b"\n" + again + b"\n" + body, (2, 12))
            yield Case("header-later", header + b"\n" + body + again, (2 + body.count(b"\n"), 12))
        yield Case("header-long", header + b"\n" * (SHEET_BYTES - len(header)), ACCEPTED)
        yield Case("header-too-long", header + b"\n" * (SHEET_BYTES - len(header) + 1), (0, 9))


# The sheets of document 01 and others found by hand, in edition 2: what they print is the same.
def printed_again():
    for name, text, due in PRINTED_SHEETS:
        sheet = turned(sheet_of(lines_of(text)))
        got = oracle_sheets.judge(sheet, LARGE.words).text
        require(got == sheet_of(lines_of(due)).decode(), f"the oracle fails {name} in edition 2: {got}")
        yield Case(f"edition-2-{name}", sheet, ACCEPTED)


# --- Many items ---


# So many items declared, with something else after them.
def with_items(header, items, *more):
    return sheet_of([header, *named("item", items), *more])


# Item after item to the edition's limit and past it, and a line past it with other faults.
def item_limits():
    for header, most in ((HEADER_1, 128), (HEADER_2, 512)):
        for items in (most - 1, most):
            yield Case(f"items-{items}", with_items(header, items), ACCEPTED)
            yield Case(f"items-{items}-same", with_items(header, items, ["same", "n0", f"n{items - 1}"]), ACCEPTED)
        for items in (most + 1, most + 40):
            yield Case(f"items-{items}", with_items(header, items, ["same", "n0", "n1"]), (most + 2, 18))
        for extra, number in ((["item", "n0"], 17), (["item", "3-Mar"], 16), (["item", "a b"], 15), (["item"], 14),
                              (["item", f"n{most - 1}"], 17), (["thing", "x"], 12), (["item", "new"], 18)):
            yield Case(f"items-{most}-and", with_items(header, most, extra), (most + 2, number))
        yield Case(f"items-{most}-then", with_items(header, most, [""], ["item", "new"]), (most + 3, 18))
        yield Case(f"items-{most}-role", with_items(header, most, ["role", "r"], ["rule", "ref", "r"]), ACCEPTED)
        after = with_items(header, most, ["same", "n0", "n1"], ["item", "new"])
        yield Case(f"items-{most}-after", after, (most + 3, 13))
    for items in (129, 200, 511):
        yield Case(f"items-1-{items}", with_items(HEADER_1, items), (130, 18))
        yield Case(f"items-2-{items}", with_items(HEADER_2, items), ACCEPTED)


# Concepts and roles have the same limits in both editions.
def other_limits():
    for header in (HEADER_1, HEADER_2):
        for kind, most in (("concept", 32), ("role", 16)):
            yield Case(f"{kind}s-{most}", sheet_of([header, *named(kind, most)]), ACCEPTED)
            yield Case(f"{kind}s-{most + 1}", sheet_of([header, *named(kind, most + 1)]), (most + 2, 18))
        rules = [words("rule ref r")] * MOST_RULES
        yield Case("rules-64", sheet_of([header, ["role", "r"], *rules]), ACCEPTED)
        yield Case("rules-65", sheet_of([header, ["role", "r"], *rules, rules[0]]), (MOST_RULES + 3, 18))


# The items on both sides of the borders between words, with so many items.
def near_borders(items):
    return [a for border in range(64, items, 64) for a in (border - 1, border)] + [items - 1]


# Sheets of many items whose statements go over every border between words, with rules that are broken there.
def borders(seed):
    for items in BORDER_COUNTS:
        if items <= 128:
            continue
        rng = part(seed, f"borders {items}")
        near = [f"n{a}" for a in near_borders(items)]
        head = [HEADER_2, ["concept", "C"], ["concept", "D"], ["role", "r"], ["role", "s"], *named("item", items)]
        links = [["rel", "r", a, b] for a, b in zip(near, near[1:])]
        merges = [["same", a, b] for a, b in zip(near[::4], near[1::4])]
        members = [["in", a, rng.choice("CD")] for a in near]
        rules = ["rsub r s", "dis r ~r", f"rel r {near[-1]} {near[0]}", f"differ {near[0]} {near[1]}", "sub C some r D",
                 "sub top atmost 1 r top", f"in some ~r C {near[-1]}", "chain r r s", "irr r", f"norel r {near[0]} {near[1]}",
                 "sub C atleast 2 ~r top", f"sub one {near[2]} all r one {near[3]}"]
        lines = rng.sample(links + merges + members + [words("runder r ~s")], len(links + merges + members) + 1)
        yield Case(f"border-{items}", sheet_of([*head, *lines, *(["rule", *words(rule)] for rule in rules)]), ACCEPTED)
        yield Case(f"border-{items}-bad", sheet_of([*head, *lines, ["rule", "ref", "q"]]), (len(head + lines) + 1, 19))


# A chain of so many items that are the same, in an order drawn; all are found, the first and the last are one article.
def chains(seed):
    for items in (129, 300, 512):
        rng = part(seed, f"chain {items}")
        merges = [["same", f"n{a}", f"n{a + 1}"] for a in range(items - 1)]
        lines = [HEADER_2, ["concept", "C"], ["role", "r"], *named("item", items), *rng.sample(merges, len(merges)),
                 ["in", f"n{items - 1}", "C"], ["rel", "r", "n0", f"n{items - 1}"]]
        rules = ["sub top not C", "irr r", "sub top atleast 2 r top", f"differ n0 n{items - 1}", "dis r ~r"]
        yield Case(f"chain-{items}", sheet_of([*lines, *(["rule", *words(rule)] for rule in rules)]), ACCEPTED)


# Findings of all items: the first 200 lines, and totals of more digits.
def many_findings():
    for items in (199, 200, 201, 512):
        lines = [HEADER_2, ["role", "r"], ["role", "s"], *named("item", items)]
        for name, rules in (("one", ["ref r"]), ("two", ["ref r", "ref s"])):
            yield Case(f"findings-{items}-{name}", sheet_of([*lines, *(["rule", *words(rule)] for rule in rules)]), ACCEPTED)


CODES = [*(f"AX-{number:03}" for number in range(1, 401)), *(f"HX-{number:02}" for number in range(1, 61)),
         *(f"RX-{number:02}" for number in range(1, 53))]


# A catalogue of the axial range: 400 blades, 60 hubs and 52 rings, as many statements as 32,768 bytes have room for.
def catalogue(seed):
    rng = part(seed, "catalogue")
    blades, hubs, rings = CODES[:400], CODES[400:460], CODES[460:]
    head = [HEADER_2, *(["concept", name] for name in ("Blade", "Hub", "Ring", "Part", "Spare")),
            *(["role", name] for name in ("fits", "takes", "in_set")), *(["item", code] for code in CODES)]
    lines = [words("under Blade Part"), words("under Hub Part"), words("under Ring Part"), words("runder fits ~takes")]
    lines += [["in", code, kind] for kind, codes in (("Blade", blades), ("Hub", hubs), ("Ring", rings)) for code in codes]
    lines += [["same", code, rng.choice(blades)] for code in rng.sample(blades, 12)]
    lines += [["in", code, "Spare"] for code in rng.sample(CODES, 10)]
    rules = ["sub Blade some fits Hub", "sub Hub atleast 2 takes Blade", "irr fits", "dis fits in_set", "sub Ring all in_set Ring",
             "rsub takes ~fits", "chain fits takes in_set", "sub Spare not some fits top", "sub Hub atmost 7 takes Blade",
             f"differ {blades[0]} {blades[399]}", f"rel fits {blades[128]} {hubs[0]}", f"in Part {rings[51]}"]
    rules = [["rule", *words(rule)] for rule in rules]
    blank = SHEET_BYTES - len(sheet_of([*head, *lines, *rules]))
    for blade in rng.sample(blades, len(blades)):
        more = ["rel", "fits", blade, rng.choice(hubs)]
        if blank < len(sheet_of([more])):
            break
        lines.append(more)
        blank -= len(sheet_of([more]))
    sheet = sheet_of([*head, *lines, *rules])
    return sheet + b"\n" * (SHEET_BYTES - len(sheet))


# The catalogue, and the same damaged.
def catalogues(seed, sheets):
    rng = part(seed, "catalogue-damaged")
    sheet = catalogue(seed)
    require(len(sheet) == SHEET_BYTES and oracle_sheets.judge(sheet, LARGE.words).findings, "the catalogue is another")
    yield Case("catalogue-whole", sheet, ACCEPTED)
    for number in range(sheets // 20):
        yield Case(f"catalogue-damaged-{number}", damaged_once(rng, sheet), None)


# Sheets of edition 2 with more than 128 items, drawn, whole and damaged.
def drawn(seed, sheets):
    rng = part(seed, "drawn-2")
    for number in range(sheets // 10):
        items = rng.choice((129, 150, 192, 257, 300))
        book = sheet_book.Book(rng, 3, 3, 3)
        book.names["item"] = [f"{rng.choice('abAB')}{a}" for a in range(items)]
        lines = sheet_book.draw_sheet(rng, book, rng.choice((5, 20, 40)), rng.choice((0, 2, 4)), 4)
        lines[0] = HEADER_2
        if not sheet_book.is_small(lines):
            continue
        sheet = sheet_of(lines)
        yield Case(f"drawn-2-{number}", sheet, ACCEPTED)
        for again in range(3):
            yield Case(f"drawn-2-damaged-{number}", damaged_once(rng, sheet), None)


# Every case of a run; those with many statements are left out where no sheets are drawn, for the slow stand-ins.
def all_cases(seed, sheets):
    yield from headers()
    yield from printed_again()
    yield from item_limits()
    yield from other_limits()
    yield from many_findings()
    yield from borders(seed)
    if sheets > 0:
        yield from chains(seed)
        yield from drawn(seed, sheets)
        yield from catalogues(seed, sheets)


# The outcomes of a sheet with the smaller and with the larger store, which have to agree as far as they must.
def outcomes(case):
    small, large = oracle_sheets.judge(case.sheet), oracle_sheets.judge(case.sheet, LARGE.words)
    if case.due is not None:
        require((large.line, large.number) == case.due, f"{case.name}: due {case.due}, the oracle gives {large.line}, "
                                                        f"{large.number}: {case.sheet[:500]!r}")
    if is_second(case.sheet) and len(case.sheet) <= SHEET_BYTES:
        require((small.line, small.number, small.words) == (1, 11, oracle_sheets.ALL_ZERO), f"{case.name}: the smaller store")
    else:
        require(small[:3] == large[:3] and small.findings == large.findings, f"{case.name}: the stores differ")
    return small, large


# All cases with what they come to in both stores.
def judged_cases(seed, sheets):
    for case in all_cases(seed, sheets):
        yield (case, *outcomes(case))


# --- The longest text there is ---


# A sheet of edition 2 with the longest text: 512 items that are all the same and linked, names of full length for the
# findings that are printed, rules as late as needs be; its text and its store, both made by hand. With fewer rules the
# text is shorter, but no quicker one has as many findings.
def longest(rules=MOST_RULES):
    names = [f"{number:03}".ljust(NAME_BYTES, "x") if number < 200 else f"{number:03}" for number in range(512)]
    hub = names[511]
    lines = [HEADER_2, ["role", "r"], *(["item", name] for name in names), ["rel", "r", hub, hub],
             *(["same", hub, name] for name in names[:511])]
    lines += [[""]] * (10000 - len(lines) - 1)
    first = len(lines) + 1
    sheet = sheet_of([*lines, *[words("rule dis r ~r")] * rules])
    found = [printed("finding", first, names[0], names[second]) for second in range(200)]
    text = "".join(found) + printed("total", rules * 512 * 512)
    cells = all_linked(oracle.Counts(512, 0, 1), 1, 1)
    cells.role_under_inverse = [0]
    return sheet, text, tuple(oracle.words_of(cells, LARGE))
