"""Sheets about single points: headers, fields, names, dates, counts, bytes, sections, and all limits at and one past.

Each has the line and number that are due, written by hand or made with the sheet.
"""

from itertools import product

from oracle_sheets import DECLARATIONS, LINE_BYTES, MOST_NAMES, MOST_RULES, NAME_BYTES, OPERATORS, SHEET_BYTES, STATEMENTS
from sheet_book import ACCEPTED, HEADER, NAME_LETTERS, NODES, Case, draw_date, lines_of, named, part, sheet_of, words
from store_cases import require

# Headers and what is no header.
HEADERS = (
    ("", 11), ("\n", 11), ("\n\n", 11), ("\nsheet\t1\n", 11), ("sheet", 11), ("sheet\t", 11), ("sheet\t1\t", 11),
    ("sheet 1", 11), ("sheet\t1 ", 11), (" sheet\t1", 11), ("sheet\t01", 11), ("sheet\t2", 11), ("sheet\t10", 11),
    ("Sheet\t1", 11), ("SHEET\t1", 11), ("sheet\t\t1", 11), ("\tsheet\t1", 11), ("sheet\t1\tx", 11), ("concept\tA", 11),
    ("rule", 11), (" ", 11), ("\t", 11), ("sheet\t1\r\n", 10), ("\r\n", 10), ("sheet\t1\x00", 10), ("sheet\t\xe9", 10),
    ("x" * 512, 11), ("x" * 513, 10), ("\t" * 512, 11), ("\t" * 513, 10), ("sheet\t1", None), ("sheet\t1\n", None),
    ("sheet\t1\n\n", None), ("sheet\t1\n\n\n", None), ("\xef\xbb\xbfsheet\t1\n", 10),
)


# Sheets of a header alone.
def headers():
    for at, (text, number) in enumerate(HEADERS):
        yield Case(f"header-{at}", text.encode("latin-1"), (1, number) if number else ACCEPTED)


# Lines after a few declarations, and the number each is refused by, or None; `|` is a tab.
SMALL = "sheet|1\nconcept|A\nconcept|B\nrole|r\nrole|s\nitem|a\nitem|b\nitem|and\nrole|top\nconcept|x\nrole|x\nitem|x\n"
AFTER_SMALL = (
    # fields and tabs
    ("concept", 14), ("concept|", 15), ("concept|C|", 14), ("concept||C", 14), ("|concept|C", 12),
    ("concept|C|D", 14), ("in|a", 14), ("in||A", 15), ("in|a|", 15), ("in|a|A|", 14), ("rel|r|a", 14),
    ("rel|r|a|b|", 14), ("same|a", 14), ("rule", 14), ("rule|", 12), ("rule||sub", 12), ("rule|sub", 14),
    ("rule|sub|A", 14), ("rule|sub|A|", 15), ("rule|sub|A|B|", 14), ("rule|sub||", 15), ("rule|sub||A", 15),
    ("rule|sub|||", 14), ("rule|in|A", 14), ("rule|in|A|", 15), ("rule|in||a", 15), ("rule|in|A|a|", 14),
    ("rule|ref", 14), ("rule|ref|", 15), ("rule|ref|r|", 14), ("rule|rsub|r", 14), ("rule|rsub|r|", 15),
    ("rule|dis|r|s|", 14), ("rule|chain", 14), ("rule|chain|r", 14), ("rule|chain|r|s", 14), ("rule|chain|r|s|", 15),
    ("rule|chain|r|s|r", None), ("rule|chain|r|s|r|", 15), ("rule|chain|r|s|r|s", None), ("rule|chain|r|s|r|s|", 15),
    ("rule|chain|r|s|r|s|r", None), ("rule|chain|r|s|r|s|r|", 14), ("rule|chain|r|s|r|s|r|s", 14),
    ("rule|chain||", 14), ("rule|chain|||", 15), ("rule|chain||||||", 14), ("rule|rel|r|a", 14),
    ("rule|rel|r|a|b|", 14), ("rule|same|a|b|a", 14), ("rule|differ|a", 14), ("rule|norel|r|a|b", None),
    # words
    (" ", 12), ("\t", 12), ("|", 12), ("sheet|1", 12), ("sheet", 12), ("Concept|C", 12), ("concept |C", 12),
    ("in |a|A", 12), ("rule |sub|A|B", 12), ("rule|Sub|A|B", 12), ("rule|sub |A|B", 12), ("rule|foo", 12),
    ("rule|foo|||", 12), ("rule|under|A|B", 12), ("rule|top", 12), ("foo", 12), ("IN|a|A", 12),
    # shapes of expressions
    ("rule|sub|A|B|nowhere", 14), ("rule|sub|and|A|B", 14), ("rule|sub|and|A|B|A", None),
    ("rule|sub|and|A|B|A|B", 14), ("rule|sub|not|A", 14), ("rule|sub|not|A|B", None), ("rule|sub|some|r|A", 14),
    ("rule|sub|some|r|A|B", None), ("rule|sub|atleast|2|r|A", 14), ("rule|sub|atleast|2|r|A|B", None),
    ("rule|sub|atmost|2|r|A|B", None), ("rule|sub|self|r|A", None), ("rule|sub|one|a|A", None),
    ("rule|sub|one|A", 14), ("rule|sub|top|bot", None), ("rule|sub|top|top|A", 14), ("rule|sub|A|~not|A", 14),
    ("rule|sub|A|~A", 15), ("rule|sub|AND|A|B", 14), ("rule|sub|AND|A", 19), ("rule|sub|some|and|A|B", 19),
    ("rule|sub|some|top|A|B", None), ("rule|sub|one|and|B", None), ("rule|sub|atleast|and|A|B", 14),
    ("rule|sub|atleast|and|r|A|B", 20), ("rule|sub|all|r|A|B", None), ("rule|sub|self|some|A", 19),
    ("rule|sub|self|top|A", None), ("rule|sub|one|x|x", None), ("rule|in|one|and|and", None), ("rule|in|a|A", 19),
    ("rule|in|and|a", 14), ("rule|in|and|A|B|a", None), ("rule|in|top|a", None), ("rule|in|bot|and", None),
    # names
    ("concept|and", 15), ("concept|AND", None), ("role|and", None), ("item|top", None), ("in|a|and", 15),
    ("in|and|A", None), ("under|top|A", 15), ("under|A|bot", 15), ("under|A|B", None), ("concept|A", 17),
    ("role|A", None), ("item|A", None), ("concept|a", None), ("item|a", 17), ("role|r", 17), ("concept|C D", 15),
    ("concept|~C", 15), ("item|~c", 15), ("role|~t", 15), ("item|c,d", 15), ("item|.", None), ("item|/", None),
    ("item|_", None), ("item|-", None), ("item|+", 15), ("in|A|a", 19), ("in|a|r", 19), ("in|r|A", 19),
    ("rel|A|a|b", 19), ("rel|r|A|b", 19), ("same|a|A", 19), ("under|a|B", 19), ("runder|A|r", 19), ("same|A|r", 19),
    ("in|zz|!", 15), ("in|!|zz", 15), ("rel|zz|!|a", 15), ("rel|!|zz|a", 15), ("rule|sub|zz|!", 15),
    ("rule|sub|!|zz", 15), ("rule|same|zz|!", 15), ("rule|rel|!|zz|a", 15), ("same|a|a", None), ("in|x|x", None),
    ("rel|x|x|x", None), ("same|x|a", None), ("runder|x|r", None), ("rule|sub|x|one|x", None),
    # `~` where it may and may not stand
    ("rel|~r|a|b", 15), ("rel|~q|a|b", 15), ("runder|~r|s", None), ("runder|r|~s", None), ("runder|~r|~s", None),
    ("runder|~~r|s", 15), ("runder|~|s", 15), ("runder|~ r|s", 15), ("runder|~q|s", 19), ("rule|ref|~r", None),
    ("rule|irr|~r", None), ("rule|ref|~~r", 15), ("rule|ref|~", 15), ("rule|ref|r~", 15), ("rule|rsub|~r|~s", None),
    ("rule|dis|r|~s", None), ("rule|chain|~r|~s|~r", None), ("rule|rel|~r|a|b", None), ("rule|norel|~r|a|b", None),
    ("rule|rel|r|~a|b", 15), ("rule|same|~a|b", 15), ("rule|in|~A|a", 15), ("rule|in|A|~a", 15),
    ("rule|sub|A|some|~r|B", None), ("rule|sub|A|all|~r|B", None), ("rule|sub|A|atleast|2|~r|B", None),
    ("rule|sub|A|atmost|2|~r|B", None), ("rule|sub|self|~r|B", None), ("rule|sub|one|~a|B", 15),
    ("rule|sub|A|atleast|~2|r|B", 20), ("rule|sub|A|some|r|~B", 15), ("in|~a|A", 15), ("in|a|~A", 15),
    ("same|~a|b", 15), ("under|~A|B", 15), ("~rule|ref|r", 12), ("rule|~ref|r", 12),
    # numbers of more than one field
    ("rule|sub|A|atleast|9|q|B", 19), ("rule|sub|A|atleast|9|r|Q", 19), ("rule|sub|A|atleast|9|~|B", 15),
    ("rule|sub|A|atleast|9|r|B", 20), ("rule|sub|A|atleast||r|B", 20), ("rule|sub|A|atleast|1 |r|B", 20),
)


# The lines above, each after the same few declarations.
def small_lines():
    for at, (line, number) in enumerate(AFTER_SMALL):
        sheet = (SMALL + line + "\n").replace("|", "\t").encode("latin-1")
        yield Case(f"small-{at}", sheet, (13, number) if number else ACCEPTED)


# Every count, for at least and at most.
def counts():
    texts = [*"0123456789", "", "00", "01", "08", "10", "18", "1 ", " 1", "x", "one", "~1", "+1", "-1", "1.", "\xb2"]
    for word, right in (("atleast", "12345678"), ("atmost", "01234567")):
        for text in texts:
            number = None if text in tuple(right) else 10 if text == "\xb2" else 20
            sheet = (SMALL + f"rule|sub|A|{word}|{text}|r|B\n").replace("|", "\t").encode("latin-1")
            yield Case(f"count-{word}-{text!r}", sheet, (13, number) if number else ACCEPTED)


# Every byte inside a name, at the end of a first word, and alone on a line.
def every_byte():
    before = SMALL.replace("|", "\t")
    for letter in map(chr, range(256)):
        good = letter in " \t" or "!" <= letter <= "~"
        due = {"name": 15, "word": 12, "alone": 12} if good else {"name": 10, "word": 10, "alone": 10}
        if letter == "\t":
            due = {"name": 14, "word": 14, "alone": 12}
        if letter in NAME_LETTERS:
            due["name"] = None
        places = {name: (13, number) if number else ACCEPTED for name, number in due.items()}
        if letter == "\n":
            places = {"name": (14, 12), "word": (13, 14), "alone": ACCEPTED}
        lines = {"name": f"item\tn{letter}n", "word": f"item{letter}\tn", "alone": letter}
        for name, line in lines.items():
            yield Case(f"byte-{ord(letter)}-{name}", (before + line + "\n").encode("latin-1"), places[name])


# The last day of each month, written by hand from document 02, request 3.
LAST_DAYS = {"jan": 31, "feb": 29, "mar": 31, "apr": 30, "may": 31, "jun": 30, "jul": 31, "aug": 31, "sep": 30, "oct": 31,
             "nov": 30, "dec": 31}


# A month's letters, each small or a capital, in every way.
def letter_cases(month):
    return ["".join(letters) for letters in product(*((letter, letter.upper()) for letter in month))]


# Every day of every month, with one digit and with two, in all letter cases; days before the first and after the last.
def days():
    texts = [*map(str, range(10)), *(f"{day:02}" for day in range(34)), "99"]
    for month, last in LAST_DAYS.items():
        for text in (f"{day}-{letters}" for letters in letter_cases(month) for day in texts):
            due = (2, 16) if 1 <= int(text.split("-")[0]) <= last else ACCEPTED
            yield Case(f"day-{text}", sheet_of([HEADER, ["item", text]]), due)


# What only looks like a date; and dates where no item is declared.
def dates(seed):
    rng = part(seed, "date")
    months = [month.capitalize() for month in LAST_DAYS]
    others = [f"{day}-{rng.choice(months)}" for day in ("40", "003", "031", "100", "", "x")]
    others += ["MAR-03", "Mar-3", "3-Ma", "3-Marc", "3-March", "3-M", "3-", "3", "3Mar", "3_Mar", "3.Mar", "3/Mar", "3--Mar",
               "3-Mar-", "3-Mar-26", "-3-Mar", "3-Mai", "3-Okt", "3-Dez", "3-Abc", "3-Mrz", "3-JanFeb", "3-anu", "1-1-Jan"]
    for text in dict.fromkeys(others):
        yield Case(f"date-item-{text}", sheet_of([HEADER, ["item", text]]), ACCEPTED)
    for text in sorted({draw_date(rng) for _ in range(20)}):
        yield Case(f"date-concept-{text}", sheet_of([HEADER, ["concept", text]]), ACCEPTED)
        yield Case(f"date-role-{text}", sheet_of([HEADER, ["role", text]]), ACCEPTED)
        yield Case(f"date-used-{text}", sheet_of([HEADER, ["item", "a"], ["same", "a", text]]), (3, 19))
        yield Case(f"date-blank-{text}", sheet_of([HEADER, ["item", text + " "]]), (2, 15))


# Codes that were dates in document 01: declared and used, declared again, and one with a date after it.
def blades():
    codes = ["30-FEB", "31-feb", "31-Apr", "31-jun", "31-SEP", "31-Nov"]
    declared = [HEADER, ["role", "r"], *(["item", code] for code in codes)]
    used = lines_of("rel r 30-FEB 31-feb\nsame 31-Apr 31-Nov\nrule irr r\nrule ref r\nrule same 31-SEP 31-jun")
    yield Case("blade-used", sheet_of([*declared, *used]), ACCEPTED)
    yield Case("blade-again", sheet_of([*declared, ["item", "30-FEB"]]), (9, 17))
    yield Case("blade-and-date", sheet_of([*declared, ["item", "30-feb"], ["item", "29-feb"]]), (10, 16))


# --- Limits ---


# Names of 24 and 25 bytes at every place.
def name_limits():
    right, wrong = "n" * NAME_BYTES, "n" * (NAME_BYTES + 1)
    declared = [HEADER, *([kind, right] for kind in DECLARATIONS), ["item", "a"], ["role", "r"], ["concept", "C"]]
    for kind in DECLARATIONS:
        yield Case(f"name-25-{kind}", sheet_of([HEADER, [kind, wrong]]), (2, 15))
    for at, text in enumerate(("in {} C", "in a {}", "rel {} a a", "rel r a {}", "same {} a", "under C {}", "runder {} r",
                               "runder r ~{}", "rule ref ~{}", "rule sub {} C", "rule in C {}", "rule sub C some ~{} C",
                               "rule sub C one {}", "rule chain r {} r", "rule chain r r ~{}", "rule norel ~{} a a")):
        for name, number in ((right, None), (wrong, 15), (right[1:], 19)):
            due = (8, number) if number else ACCEPTED
            yield Case(f"name-{len(name)}-used-{at}", sheet_of([*declared, words(text.format(name))]), due)


# As many names of each kind as there can be, and one more; the same for rules.
def table_limits():
    for kind, most in MOST_NAMES.items():
        full = [HEADER, *named(kind, most)]
        yield Case(f"table-{kind}-full", sheet_of(full), ACCEPTED)
        yield Case(f"table-{kind}-more", sheet_of([*full, [kind, "x"]]), (most + 2, 18))
        yield Case(f"table-{kind}-again", sheet_of([*full, [kind, "n0"]]), (most + 2, 17))
        yield Case(f"table-{kind}-last-again", sheet_of([*full[:-1], [kind, "n0"]]), (most + 1, 17))
        yield Case(f"table-{kind}-no-name", sheet_of([*full, [kind, "a b"]]), (most + 2, 15))
        yield Case(f"table-{kind}-others", sheet_of([*full, *([other, "x"] for other in DECLARATIONS if other != kind)]),
                   ACCEPTED)
    yield Case("table-item-date", sheet_of([HEADER, *named("item", 128), ["item", "3-Mar"]]), (130, 16))
    yield Case("table-item-blade", sheet_of([HEADER, *named("item", 128), ["item", "30-FEB"]]), (130, 18))
    everything = [HEADER, *named("concept", 32), *named("role", 16), *named("item", 128)]
    yield Case("table-all-full", sheet_of([*everything, words("rule in n31 n127"), words("rule ref n15")]), ACCEPTED)
    yield from rule_limits()


# 64 rules, and one more of every sort.
def rule_limits():
    full = [HEADER, ["concept", "A"], ["role", "r"], ["item", "a"], *[words("rule ref r")] * MOST_RULES]
    yield Case("rules-64", sheet_of(full), ACCEPTED)
    for at, (text, number) in enumerate((
            ("rule ref r", 18), ("rule foo", 12), ("rule", 14), ("rule ref", 14), ("rule ref !", 15), ("rule ref q", 18),
            ("rule sub A atleast 9 r A", 18), ("rule sub q !", 15), ("in a A", 13), ("concept B", 13), ("same a", 13))):
        yield Case(f"rules-65-{at}", sheet_of([*full, words(text)]), (69, number))
    yield Case("rules-65-nodes", sheet_of([*full, ["rule", "in", *["not"] * 32, "A", "a"]]), (69, 18))


# Expressions of 31, 32 and 33 nodes by each operator, on one side and on both.
def node_limits():
    declared = [HEADER, ["concept", "A"], ["role", "r"], ["item", "a"]]
    for word, whats in OPERATORS.items():
        if "expression" not in whats:
            continue
        filled = {"role": "r", "count": "1", "count from 0": "0"}
        one_more = [word, *(filled[what] for what in whats if what != "expression")]
        one_more += ["A"] * (whats.count("expression") - 1)
        grows = NODES[word] + whats.count("expression") - 1
        for nodes in (31, 32, 33):
            many, rest = divmod(nodes - 1, grows)
            tree = [*one_more * many, *["not"] * rest, "A"]
            due = (5, 21) if nodes > 32 else ACCEPTED
            yield Case(f"nodes-{word}-{nodes}", sheet_of([*declared, ["rule", "in", *tree, "a"]]), due)
            yield Case(f"nodes-{word}-{nodes}-left", sheet_of([*declared, ["rule", "sub", *tree[:-1], "A", "A"]]),
                       (5, 21) if nodes > 31 else ACCEPTED)
            yield Case(f"nodes-{word}-{nodes}-right", sheet_of([*declared, ["rule", "sub", "top", *tree]]),
                       (5, 21) if nodes > 31 else ACCEPTED)
    for leaf, size in ((["top"], 1), (["bot"], 2), (["self", "r"], 1), (["one", "a"], 1), (["A"], 1)):
        for nodes in (32, 33):
            tree = ["not"] * (nodes - size) + leaf
            yield Case(f"nodes-{leaf[0]}-{nodes}", sheet_of([*declared, ["rule", "in", *tree, "a"]]),
                       (5, 21) if nodes > 32 else ACCEPTED)
    for left, right in ((16, 16), (16, 17), (1, 31), (31, 2)):
        sides = ["not"] * (left - 1) + ["A"] + ["not"] * (right - 1) + ["A"]
        yield Case(f"nodes-{left}-and-{right}", sheet_of([*declared, ["rule", "sub", *sides]]),
                   (5, 21) if left + right > 32 else ACCEPTED)


# What comes after too many nots in a rule `in`, and the number due.
AFTER_NOTS = (
    ("A a", 21), ("Q a", 19), ("! a", 15), ("A q", 19), ("A ~", 15), ("atleast 9 r A a", 20), ("A a a", 14), ("A", 14),
    ("self q a", 19), ("one ! a", 15),
)


# Expressions of far too many nodes, with other faults after them.
def past_nodes():
    declared = [HEADER, ["concept", "A"], ["role", "r"], ["item", "a"]]
    for nodes in (33, 40, 100):
        for at, (tail, number) in enumerate(AFTER_NOTS):
            line = ["rule", "in", *["not"] * nodes, *words(tail)]
            yield Case(f"past-{nodes}-{at}", sheet_of([*declared, line]), (5, number))


# Lines of 512 and 513 bytes, with and without an end.
def line_limits():
    role = "r" * NAME_BYTES
    for length in (511, 512, 513, 514):
        leaf = "c" * (length - 503)
        declared = [HEADER, ["concept", leaf], ["role", role]]
        line = ["rule", "sub", *["atleast", "8", role] * 14, leaf, "top"]
        require(len("\t".join(line)) == length, "a line of another length")
        due = (4, 10) if length > LINE_BYTES else ACCEPTED
        yield Case(f"line-{length}", sheet_of([*declared, line]), due)
        yield Case(f"line-{length}-no-end", sheet_of([*declared, line], ""), due)
        yield Case(f"line-{length}-cr", sheet_of([*declared, [*line[:-1], "top\r"]]), (4, 10))
        yield Case(f"line-{length}-tabs", sheet_of([HEADER, [""] * (length + 1)]), (2, 10 if length > 512 else 12))
        yield Case(f"line-{length}-blanks", sheet_of([HEADER, [" " * length]]), (2, 10 if length > 512 else 12))
        long_name = ["item", "x" * (length - 5)]
        yield Case(f"line-{length}-name", sheet_of([HEADER, long_name]), (2, 10 if length > 512 else 15))


# Sheets of 32,768 and 32,769 bytes.
def sheet_limits():
    small = (SMALL + "rule|sub|A|B\n").replace("|", "\t").encode()
    for length in (32767, 32768, 32769, 32770, 65536, 100000):
        due = (0, 9) if length > SHEET_BYTES else ACCEPTED
        yield Case(f"sheet-{length}", small + b"\n" * (length - len(small)), due)
        tail = b"\nrule\tref\tr"
        yield Case(f"sheet-{length}-no-end", small + b"\n" * (length - len(small) - len(tail)) + tail, due)
        yield Case(f"sheet-{length}-bad", small + b"\n" * (length - len(small) - 1) + b"x",
                   (0, 9) if length > SHEET_BYTES else (length - len(small) + 14 - 1, 12))
        yield Case(f"sheet-{length}-one-line", b"x" * length, (0, 9) if length > SHEET_BYTES else (1, 10))
        yield Case(f"sheet-{length}-empty-lines", b"\n" * length, (0, 9) if length > SHEET_BYTES else (1, 11))


# --- Sections ---


# Every kind of line after every other kind.
def sections():
    lines = {"concept": "concept C{}", "role": "role t{}", "item": "item c{}", "in": "in a A", "rel": "rel r a b",
             "same": "same a a", "under": "under A A", "runder": "runder r ~r", "rule": "rule ref r",
             "rule-sub": "rule sub A B"}
    section = {**{word: 0 for word in DECLARATIONS}, **{word: 1 for word in STATEMENTS}, "rule": 2, "rule-sub": 2}
    for first in lines:
        for second in lines:
            text = (SMALL.replace("|", " ") + lines[first].format(1) + "\n\n" + lines[second].format(2))
            due = (15, 13) if section[second] < section[first] else ACCEPTED
            yield Case(f"section-{first}-{second}", sheet_of(lines_of(text)), due)
    for bad, number in (("concept", 13), ("concept A", 13), ("in a", 13), ("in q q", 13), ("item 3-Mar", 13), ("foo", 12),
                        ("sheet 1", 12), ("rule", 14), ("rule ref q", 19), ("rule foo", 12)):
        text = SMALL.replace("|", " ") + "rule ref r\n" + bad
        yield Case(f"section-late-{bad.replace(' ', '-')}", sheet_of(lines_of(text)), (14, number))


# All cases about single points.
def all_cases(seed):
    for made in (headers, small_lines, counts, every_byte, name_limits, table_limits, node_limits, past_nodes, line_limits,
                 sheet_limits, sections):
        yield from made()
    yield from days()
    yield from dates(seed)
    yield from blades()
