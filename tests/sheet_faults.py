"""Sheets with faults made on purpose, each with the line and number that are due.

Every number of refusal alone, every pair of numbers on one line with their fields in
both orders, more than two on one line, and every pair on two lines.
"""

from oracle_sheets import (CHAIN_ROLES, DECLARATIONS, LINE_BYTES, MOST_RULES, NAME_BYTES, OPERATORS, RULES, SHEET_BYTES,
                           STATEMENTS)
from sheet_book import HEADER, NODES, Case, draw_date, full_book, part, sheet_of, small_book, with_empty_lines

UNKNOWN_WORDS = ("", " ", "Concept", "concept ", "sheet", "rules", "RULE", "statement", "subb", "Sub", "top", "~in", "#")
UNKNOWN_RULE_WORDS = ("", " ", "Sub", "sub ", "under", "runder", "atleast", "ren", "not", "refl", "~ref", "SAME")
BAD_BYTES = "\0\x01\x0b\x0c\r\x1f\x7f\x80\xa0\xe9\xff"
NO_NAMES = ("", " ", "a b", " a", "a ", "a+b", "a,b", "(a)", "a:b", "a~", "a*", "@", "a" * (NAME_BYTES + 1), "x" * 40)
NO_ROLES = ("~", "~~r", "~ r", "~" + "r" * (NAME_BYTES + 1))
BAD_COUNTS = ("", "0", "9", "10", "08", "1 ", " 1", "x", "~1", "top", "and", "+1", "-1", "00", "1.0")
BAD_COUNTS_FROM_0 = ("", "8", "9", "10", "07", "1 ", "x", "~1", "bot", "-1", "00")


# A text that is no name where one is due.
def draw_no_name(rng, what, book):
    texts = list(NO_NAMES)
    if what in ("role", "plain role"):
        texts += NO_ROLES
    if what in ("plain role", "new role"):
        texts += ["~" + name for name in book.names["role"]]
    if what not in ("role", "plain role", "new role"):
        texts += ["~" + name for names in book.names.values() for name in names]
    if what in ("stated concept", "new concept"):
        texts += list(OPERATORS)
    return rng.choice(texts)


# A field for a place that makes a number apply.
def draw_bad_field(rng, book, what, number):
    if number == 15:
        return draw_no_name(rng, what, book)
    if number == 20:
        return rng.choice(BAD_COUNTS if what == "count" else BAD_COUNTS_FROM_0)
    kind = what.split()[-1]
    return rng.choice(("", "~")) * (what == "role") + book.undeclared(kind)


# Expressions that a number can apply to: `?` is before the place to be spoiled, `=` before one that is in order,
# and `+` stands for any expression.
CARRIERS = {
    15: ("?concept", "some|?role|+", "one|?item", "self|?role", "all|?role|+", "atmost|2|?role|+"),
    19: ("?concept", "some|?role|+", "one|?item", "self|?role", "all|?role|+", "atleast|2|?role|+"),
    20: ("atleast|?count|=role|+", "atmost|?count from 0|=role|+"),
}


# An expression in which a number applies.
def bad_expression(rng, book, number):
    if number == 21:
        return large_expression(rng, book, rng.randint(33, 70))
    fields = []
    for mark in rng.choice(CARRIERS[number]).split("|"):
        if mark.startswith("?"):
            fields.append(draw_bad_field(rng, book, mark[1:], number))
        elif mark.startswith("="):
            fields.append(book.field(mark[1:]))
        else:
            fields += book.expression(3) if mark == "+" else [mark]
    return fields


# An expression of at least so many nodes whose fields are short enough for a line.
def large_expression(rng, book, nodes):
    short = ["not", "or", "all", "and"]
    fields, made, open_places = [], 0, 1
    while made + open_places < nodes:
        word = rng.choice(short)
        fields += [word] + ([min(book.names["role"], key=len)] if word == "all" else [])
        made += NODES[word]
        open_places += OPERATORS[word].count("expression") - 1
    return fields + [rng.choice(("top", min(book.names["concept"], key=len))) for _ in range(open_places)]


# Expressions put together by "and".
def joined(parts):
    fields = parts[0]
    for more in parts[1:]:
        fields = ["and", *fields, *more]
    return fields


# The fields of a rule with expressions in which some of 15, 19, 20, 21 apply, in that order of places.
def bad_rule(rng, book, numbers):
    parts = [bad_expression(rng, book, number) for number in numbers] or [book.expression(4)]
    if rng.random() < 0.3:
        return ["rule", "in", *joined(parts), book.name("item")]
    cut = rng.randint(0, len(parts))
    sides = [joined(side) if side else [rng.choice(("top", book.name("concept")))]
             for side in (parts[:cut], parts[cut:])]
    return ["rule", "sub", *sides[0], *sides[1]]


# The fields of a rule without expressions, or of a statement, in which 15 or 19 applies at some places.
def bad_names(rng, book, numbers, first, whats):
    at = sorted(rng.sample(range(len(whats)), len(numbers)))
    fields = [book.field(what) for what in whats]
    for place, number in zip(at, numbers):
        fields[place] = draw_bad_field(rng, book, whats[place], number)
    return [*first, *fields]


# A rule line in which these of 15, 19, 20, 21 apply, in that order of places.
def bad_rule_line(rng, book, numbers):
    if set(numbers) <= {15, 19} and rng.random() < 0.4:
        plain = [word for word, whats in RULES.items() if "expression" not in whats and len(whats) >= len(numbers)]
        word = rng.choice(plain)
        whats = ("role",) * rng.choice(CHAIN_ROLES) if word == "chain" else RULES[word]
        return bad_names(rng, book, numbers, ["rule", word], whats)
    return bad_rule(rng, book, numbers)


# A statement line in which these of 15, 19 apply, in that order of places.
def bad_statement_line(rng, book, numbers):
    word = rng.choice(list(STATEMENTS))
    whats = ["stated concept" if what == "concept" else what for what in STATEMENTS[word]]
    return bad_names(rng, book, numbers, [word], whats)


# A declaration line of a kind in which these of 15, 16, 17 apply, none or one of them.
def bad_declaration_line(rng, book, numbers, kind):
    if 15 in numbers:
        return [kind, draw_no_name(rng, f"new {kind}", book)]
    if 16 in numbers:
        return ["item", draw_date(rng)]
    return [kind, book.name(kind) if 17 in numbers else book.new_name(kind)]


# A line with one field too many or too few; a chain with too many or too few roles.
def of_wrong_shape(rng, line):
    if line[:2] == ["rule", "chain"]:
        return rng.choice((line[:3], line[:4], line + [line[-1]] * (7 - len(line) + 1)))
    return rng.choice((line + [""], line + [line[-1]], line + ["top"], line + [" "], line[:-1]))


# A line with a bad byte in some field, or one that is too long.
def with_bad_byte(rng, line):
    if rng.random() < 0.25:
        return [*line, "x" * rng.choice((LINE_BYTES + 1, 2 * LINE_BYTES, 5000))]
    at = rng.randrange(len(line))
    cut = rng.randint(0, len(line[at]))
    return [*line[:at], line[at][:cut] + rng.choice(BAD_BYTES) + line[at][cut:], *line[at + 1:]]


# A line with an unknown first word or rule word.
def of_unknown_word(rng, line):
    if line[0] == "rule" and len(line) > 1 and rng.random() < 0.5:
        return ["rule", rng.choice(UNKNOWN_RULE_WORDS), *line[2:]]
    return [rng.choice(UNKNOWN_WORDS), *line[1:]]


# Where lines with some numbers can stand.
SECTIONS_OF = {
    10: ("declaration", "statement", "rule"), 12: ("declaration", "statement", "rule"), 13: ("declaration", "statement"),
    14: ("declaration", "statement", "rule"), 15: ("declaration", "statement", "rule"), 16: ("declaration",),
    17: ("declaration",), 18: ("declaration", "rule"), 19: ("statement", "rule"), 20: ("rule",), 21: ("rule",),
}
LINE_NUMBERS = tuple(SECTIONS_OF)

# Numbers that hide the higher ones of their line.
HIDING = (10, 12, 14)

# Numbers that cannot both apply: a declaration has one name, and a date-shaped one is never declared.
NEVER_BOTH = ({15, 16}, {15, 17}, {16, 17})


# The sections in which all these numbers can apply to one line.
def sections_for(numbers):
    if any(both <= set(numbers) for both in NEVER_BOTH):
        return []
    return [section for section in ("declaration", "statement", "rule")
            if all(section in SECTIONS_OF[number] for number in numbers)]


# All pairs of numbers that can apply to one line, the lower one first.
LINE_PAIRS = [(low, high) for low in LINE_NUMBERS for high in LINE_NUMBERS if low < high and sections_for((low, high))]


class Fault:
    """A faulty line, the book that it belongs to, and where it stands."""

    # Draws a line in which exactly these numbers apply, or would apply if a lower one did not; those of
    # fields stand in the order given.
    def __init__(self, rng, numbers, section):
        self.rng, self.numbers, self.section = rng, numbers, section
        self.kind = "item" if 16 in numbers else rng.choice(list(DECLARATIONS))
        is_full = 18 in numbers and section == "declaration"
        self.book = full_book(rng, self.kind) if is_full else small_book(rng)
        self.hidden = None  # the line before the last of 14, 12 and 10 came to it
        self.line = self.draw()
        for number, spoil in ((14, of_wrong_shape), (12, of_unknown_word), (10, with_bad_byte)):
            if number in numbers:
                self.hidden, self.line = self.line, spoil(rng, self.line)

    # The line without 10, 12 and 14.
    def draw(self):
        numbers = [number for number in self.numbers if number in (15, 16, 17, 19, 20, 21)]
        if self.section == "rule":
            return bad_rule_line(self.rng, self.book, numbers)
        if self.section == "statement":
            return bad_statement_line(self.rng, self.book, numbers)
        return bad_declaration_line(self.rng, self.book, numbers, self.kind)

    # The lines of a sheet that come before the faulty one.
    def before(self):
        rng, book = self.rng, self.book
        full_rules = 18 in self.numbers and self.section == "rule"
        statements = [book.statement() for _ in range(rng.randint(0, 4))]
        rules = [book.rule(nodes=2) for _ in range(MOST_RULES if full_rules else rng.randint(0, 3))]
        if self.section == "declaration":
            late = [*statements, *rules] or [book.rule()]
            return [HEADER, *book.declarations(), *(late if 13 in self.numbers else [])]
        if self.section == "statement":
            rules = (rules or [book.rule()]) if 13 in self.numbers else []
        return [HEADER, *book.declarations(), *statements, *rules]

    # The lines of a sheet that come after the faulty one, so many at most.
    def after(self, most):
        sections = ("declaration", "statement", "rule")
        return [self.book.line(self.rng.choice(sections)) for _ in range(self.rng.randint(0, most))]


# Whether a line is not empty and not too long.
def fits(line):
    return line != [""] and len("\t".join(line)) <= LINE_BYTES


# Draws a faulty line.
def draw_fault(rng, numbers, sections=None):
    while True:
        fault = Fault(rng, numbers, rng.choice(sections or sections_for(numbers)))
        if fits(fault.line) or 10 in numbers:
            return fault


# A sheet with a line in the place of a faulty one, and the number that is due for it.
def case_with(rng, name, fault, line, number, later=()):
    before = fault.before()
    lines, at = with_empty_lines(rng, [*before, line, *fault.after(3), *later, *fault.after(2)], len(before))
    return Case(name, sheet_of(lines, rng.choice(("\n", "\n", ""))), (at, number))


# A sheet with a faulty line.
def faulty_case(rng, name, fault, later=()):
    return case_with(rng, name, fault, fault.line, min(fault.numbers), later)


# --- Cases ---


# Every number alone, on lines of every section where it can apply.
def single_faults(seed, rounds):
    rng = part(seed, "single")
    for number in LINE_NUMBERS:
        for section in SECTIONS_OF[number]:
            for again in range(12 * rounds):
                fault = draw_fault(rng, (number,), (section,))
                yield faulty_case(rng, f"single-{number}-{section}-{again}", fault)


# Every pair of numbers on one line, the fields in both orders; and where the lower one hides the other, the line
# with the higher one alone.
def line_pairs(seed, rounds):
    rng = part(seed, "pair")
    for low, high in LINE_PAIRS:
        for first, second in ((low, high), (high, low)):
            for again in range(6 * rounds):
                fault = draw_fault(rng, (first, second))
                yield faulty_case(rng, f"pair-{first}-{second}-{again}", fault)
                if low in HIDING and fits(fault.hidden):
                    yield case_with(rng, f"hidden-{high}-by-{low}-{first}-{again}", fault, fault.hidden, high)


# Three and more numbers on one line.
def line_sets(seed, rounds):
    rng = part(seed, "set")
    for again in range(150 * rounds):
        numbers = rng.sample(LINE_NUMBERS, rng.randint(3, 6))
        if sections_for(numbers):
            yield faulty_case(rng, f"set-{'-'.join(str(number) for number in numbers)}-{again}", draw_fault(rng, numbers))


# Every ordered pair of numbers on two lines: the earlier line counts.
def two_lines(seed, rounds):
    rng = part(seed, "lines")
    for earlier in LINE_NUMBERS:
        for later in LINE_NUMBERS:
            for again in range(rounds):
                other = draw_fault(rng, (later,)).line
                yield faulty_case(rng, f"lines-{earlier}-{later}-{again}", draw_fault(rng, (earlier,)), [other])


# A first line that is not the header, with each number in it or on a later line; 9 before all of them.
def first_lines(seed, rounds):
    rng = part(seed, "first")
    for number in LINE_NUMBERS:
        for again in range(2 * rounds):
            fault = draw_fault(rng, (number,))
            rest = [*fault.before()[1:], fault.line]
            due = (1, 10 if number == 10 else 11)
            yield Case(f"first-is-{number}-{again}", sheet_of([fault.line, *rest]), due)
            yield Case(f"lines-11-{number}-{again}", sheet_of([["sheet", "2"], *rest]), (1, 11))
            yield Case(f"header-10-{number}-{again}", sheet_of([["sheet", "1\r"], *rest]), (1, 10))
            long = sheet_of([HEADER, *rest]) + b"\n" * SHEET_BYTES
            yield Case(f"sheet-9-{number}-{again}", long[:SHEET_BYTES + rng.choice((1, 2, 7000))], (0, 9))


# All cases with faults made on purpose.
def all_cases(seed, rounds):
    for drawn in (single_faults, line_pairs, line_sets, two_lines, first_lines):
        yield from drawn(seed, rounds)
