"""What the sheets of the tests are made of: names, lines that use them, and sheets put together of lines.

A line is a list of fields, each of them text in which a character is a byte. A case is
a sheet with a name, and, where the sheet was made to have certain faults, the line and
number that are then due.
"""

import random
import string
from collections import namedtuple

import oracle_sheets
from oracle_sheets import CHAIN_ROLES, DECLARATIONS, LINE_BYTES, MOST_NAMES, OPERATORS, RULES, SHEET_BYTES, STATEMENTS

NAME_LETTERS = string.ascii_letters + string.digits + "._/-"
ACCEPTED = (None, None)
HEADER = ["sheet", "1"]

Case = namedtuple("Case", "name sheet due")


# Begins a part and gives its random numbers.
def part(seed, name):
    return random.Random(f"{seed} sheets {name}")


# Lines as the bytes of a sheet.
def sheet_of(lines, end="\n"):
    return ("\n".join("\t".join(line) for line in lines) + end).encode("latin-1")


# A line that is written here with blanks for tabs.
def words(text):
    return text.split(" ")


# Lines that are written here with blanks for tabs.
def lines_of(text):
    return [words(line) for line in text.strip("\n").split("\n")]


# --- Names ---


# A text of 1 to 24 letters that names are made of.
def draw_text(rng):
    length = rng.choice((1, 1, 2, 2, 3, 4, 6, 10, 23, 24))
    return "".join(rng.choice(NAME_LETTERS) for _ in range(length))


# A date-shaped text.
def draw_date(rng):
    month = rng.choice(oracle_sheets.MONTHS)
    letters = "".join(rng.choice((letter, letter.upper())) for letter in month)
    day = rng.randint(1, 9) if rng.random() < 0.4 else rng.randint(1, oracle_sheets.days_of(month))
    return f"{rng.choice(('', '0')) if day < 10 else ''}{day}-{letters}"


# A name for a kind, of any sort that may be declared.
def draw_name(rng, kind):
    odd = ["concept", "sheet", "rule", "AND", "Top", "1", "0", "-", "32-Mar", "0-Jan", "3-Mar-", "003-Mar", "MAR-03",
           "30-FEB", "31-feb", "31-Jun"]
    if kind != "item":
        odd += [draw_date(rng)]
    if kind != "concept":
        odd += list(OPERATORS)
    name = rng.choice(odd) if rng.random() < 0.15 else draw_text(rng)
    stands = not (kind == "concept" and name in OPERATORS or kind == "item" and oracle_sheets.is_date(name))
    return name if stands else draw_name(rng, kind)


class Book:
    """Names declared, and lines that use them: what sheets are made of."""

    # Draws so many names of each kind; now and then the same text in more than one kind.
    def __init__(self, rng, concepts, roles, items):
        self.rng = rng
        self.names = {kind: [] for kind in DECLARATIONS}
        for kind, count in zip(DECLARATIONS, (concepts, roles, items)):
            while len(self.names[kind]) < count:
                self.declare(kind)

    # Draws one more name of a kind.
    def declare(self, kind):
        others = [name for names in self.names.values() for name in names]
        again = [name for name in others if not oracle_sheets.is_date(name) and name not in OPERATORS]
        name = self.rng.choice(again) if again and self.rng.random() < 0.1 else draw_name(self.rng, kind)
        if name not in self.names[kind]:
            self.names[kind].append(name)

    # A declared name.
    def name(self, kind):
        return self.rng.choice(self.names[kind])

    # A name that is not declared in a kind.
    def undeclared(self, kind):
        others = [name for names in self.names.values() for name in names if name not in OPERATORS]
        while True:
            name = self.rng.choice((draw_text(self.rng), self.rng.choice(others).swapcase(), self.rng.choice(others)))
            if name not in self.names[kind] and name not in OPERATORS:
                return name

    # A declared role, with or without `~`.
    def role(self):
        return self.rng.choice(("", "", "~")) + self.name("role")

    # What may stand in a place.
    def field(self, what):
        if what.startswith("count"):
            return self.rng.choice("00112234567" if what == "count from 0" else "1112223345678")
        return self.role() if what == "role" else self.name(what.split()[-1])

    # The fields of an expression of so many nodes at most.
    def expression(self, nodes):
        fitting = [word for word in OPERATORS if NODES[word] + OPERATORS[word].count("expression") <= nodes]
        if nodes < 2 or self.rng.random() < 0.25:
            return [self.name("concept")]
        word = self.rng.choice(fitting)
        left = (nodes - NODES[word]) // max(OPERATORS[word].count("expression"), 1)
        return [word, *self.fields(OPERATORS[word], left)]

    # What may stand in some places, with so many nodes at most for each expression.
    def fields(self, whats, nodes):
        return [field for what in whats
                for field in (self.expression(nodes) if what == "expression" else [self.field(what)])]

    # A statement.
    def statement(self, word=None):
        word = word or self.rng.choice(list(STATEMENTS))
        return [word, *self.fields(STATEMENTS[word], 0)]

    # A rule, with so many nodes at most for each expression.
    def rule(self, word=None, nodes=None):
        word = word or self.rng.choice(list(RULES))
        nodes = nodes or self.rng.choice((1, 2, 3, 4, 6, 10, 16))
        if word == "chain":
            return ["rule", word, *(self.role() for _ in range(self.rng.choice(CHAIN_ROLES)))]
        line = ["rule", word, *self.fields(RULES[word], nodes)]
        return line if is_small([line]) else self.rule(word, nodes // 2)

    # A line of any section.
    def line(self, section):
        if section == "rule":
            return self.rule()
        return self.statement() if section == "statement" else self.declaration()

    # A declaration of one more name.
    def declaration(self):
        kind = self.rng.choice(list(DECLARATIONS))
        return [kind, self.new_name(kind)]

    # A name that can still be declared in a kind.
    def new_name(self, kind):
        while True:
            name = draw_name(self.rng, kind)
            if name not in self.names[kind]:
                return name

    # The lines of the declarations, the kinds mixed but each in its order.
    def declarations(self):
        kinds = [kind for kind, names in self.names.items() for _ in names]
        self.rng.shuffle(kinds)
        left = {kind: iter(names) for kind, names in self.names.items()}
        return [[kind, next(left[kind])] for kind in kinds]


# How many nodes each operator is, once short forms are expanded.
NODES = {"and": 1, "or": 4, "not": 1, "some": 1, "all": 3, "atleast": 1, "atmost": 2, "self": 1, "one": 1, "top": 1,
         "bot": 2}


# A book of few names.
def small_book(rng):
    return Book(rng, rng.randint(1, 4), rng.randint(1, 3), rng.randint(1, 6))


# A book in which the table of a kind is full.
def full_book(rng, kind):
    sizes = {**{each: rng.randint(1, 3) for each in DECLARATIONS}, kind: MOST_NAMES[kind]}
    return Book(rng, *(sizes[each] for each in DECLARATIONS))


# The lines with empty ones strewn in, and the number that the line at `at` gets; None if there is none.
def with_empty_lines(rng, lines, at):
    strewn, number = lines[:1], 1 if at == 0 else None
    for place, line in enumerate(lines[1:], 1):
        strewn += [[""]] * rng.choice((0, 0, 0, 0, 0, 0, 1, 2))
        strewn.append(line)
        number = len(strewn) if place == at else number
    return strewn, number


# A sheet that stands, of any names, statements and rules.
def draw_sheet(rng, book, statements, rules, nodes=None):
    lines = [HEADER, *book.declarations()]
    lines += [book.statement() for _ in range(statements)]
    lines += [book.rule(nodes=nodes) for _ in range(rules)]
    lines, _ = with_empty_lines(rng, lines, None)
    return lines


# Whether all lines are short enough, and the sheet too.
def is_small(lines):
    return all(len("\t".join(line)) <= LINE_BYTES for line in lines) and len(sheet_of(lines)) <= SHEET_BYTES


# So many names of a kind.
def named(kind, count):
    return [[kind, f"n{number}"] for number in range(count)]
