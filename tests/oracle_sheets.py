"""Whole sheets of document 01, worked out in the plainest way.

The tests hold the library and the program `check` against this file. It is written
from document 01 (sections "Sheets", "Numbers of refusal" and "Examples", with the
points of reading that docs/DECISIONS.md takes) and from requests 2 and 3 of document 02
alone.
Of every line all the numbers that apply are collected, and the least is given; the store
and the findings come from tests/oracle.py and tests/oracle_rules.py.

A field is a text with a place for it: what should stand there is one of

    "new concept", "new role", "new item"   a name to be declared
    "concept", "item"                       a name that is declared
    "role", "plain role"                    the same, of a role: `~` may stand before it, or may not
    "count", "count from 0"                 one digit, 1 to 8 or 0 to 7

and an expression is a tuple: its kind and its parts, as in tests/oracle_rules.py, but
with names and counts still as they are written.
"""

import calendar
import re
from collections import namedtuple

import oracle
import oracle_rules
from oracle import Counts
from oracle_rules import NO_ITEM, NODE_FIELDS, NODE_LIMIT, RULE_FIELDS, Part, Role, Rule

SHEET_BYTES = 32768
LINE_BYTES = 512
NAME_BYTES = 24
MOST_RULES = 64
MOST_FINDING_LINES = 200
MOST_NAMES = {"concept": 32, "role": 16, "item": 128}
MOST_NAMES_2 = {**MOST_NAMES, "item": 512}  # of edition 2

HEADER = "sheet\t1"
HEADER_2 = "sheet\t2"
ALL_ZERO = (0,) * oracle.WORDS
MONTHS = ("jan", "feb", "mar", "apr", "may", "jun", "jul", "aug", "sep", "oct", "nov", "dec")
LEAP_YEAR = 2000

# What a sheet comes to. A sheet that is not refused has no line and number; `faults` are all the numbers that
# apply to the line; `words` are None where the store is untouched; a finding is a rule's number from 0, an item
# and a second item or NO_ITEM.
Outcome = namedtuple("Outcome", "line number text words findings counts rules faults")

# --- What the lines are made of ---

DECLARATIONS = {
    "concept": ("new concept",),
    "role": ("new role",),
    "item": ("new item",),
}

STATEMENTS = {
    "in": ("item", "concept"),
    "rel": ("plain role", "item", "item"),
    "same": ("item", "item"),
    "under": ("concept", "concept"),
    "runder": ("role", "role"),
}

# The fields of a rule after its word; a chain may have four or five roles too.
RULES = {
    "sub": ("expression", "expression"),
    "rsub": ("role", "role"),
    "chain": ("role", "role", "role"),
    "ref": ("role",),
    "irr": ("role",),
    "dis": ("role", "role"),
    "in": ("expression", "item"),
    "rel": ("role", "item", "item"),
    "norel": ("role", "item", "item"),
    "same": ("item", "item"),
    "differ": ("item", "item"),
}
CHAIN_ROLES = (3, 4, 5)

# "The eleven words", and the fields after each.
OPERATORS = {
    "and": ("expression", "expression"),
    "or": ("expression", "expression"),
    "not": ("expression",),
    "some": ("role", "expression"),
    "all": ("role", "expression"),
    "atleast": ("count", "role", "expression"),
    "atmost": ("count from 0", "role", "expression"),
    "self": ("role",),
    "one": ("item",),
    "top": (),
    "bot": (),
}


class Sheet:
    """What the accepted lines of a sheet have given so far."""

    # Nothing yet; `size` is that of the store that is lent.
    def __init__(self, size=oracle.SMALL):
        self.size = size
        self.edition = 1
        self.names = {"concept": {}, "role": {}, "item": {}}
        self.section = 0  # 0 declarations, 1 statements, 2 rules
        self.statements = []
        self.rules = []   # line number and rule

    # How many of each have been declared.
    def counts(self):
        return Counts(len(self.names["item"]), len(self.names["concept"]), len(self.names["role"]))


# --- Lines and fields ---


# "Lines end in a line feed; the last need not."
def lines_of(sheet):
    lines = sheet.decode("latin-1").split("\n")
    return lines[:-1] if lines[-1] == "" else lines


# "Fields are parted by one tab."
def fields_of(line):
    return line.split("\t")


# Which section a first word belongs to; None if it is unknown.
def section_of(word):
    tables = (DECLARATIONS, STATEMENTS, ("rule",))
    return next((section for section, table in enumerate(tables) if word in table), None)


# What should stand in each field after the first word, or after the rule word; the fields of an
# expression follow from the operators in it. None if there are too few or too many.
def places_of(due, fields):
    places, due = [], list(due)
    for field in fields:
        if not due:
            return None
        what = due.pop(0)
        if what == "expression" and field in OPERATORS:
            due = [*OPERATORS[field], *due]
        else:
            places.append(("concept" if what == "expression" else what, field))
    return None if due else places


# The same for a chain: "for chain, 3 to 5 roles".
def chain_places(fields):
    return [("role", field) for field in fields] if len(fields) in CHAIN_ROLES else None


# What should stand in each field of a line with a known first word, and a known rule word if it has one.
def line_places(fields):
    word = fields[0]
    if word != "rule":
        return places_of({**DECLARATIONS, **STATEMENTS}[word], fields[1:])
    if fields[1:2] == ["chain"]:
        return chain_places(fields[2:])
    return places_of(RULES[fields[1]], fields[2:]) if len(fields) > 1 else None


# --- Names, dates, counts ---


# "Names: 1 to 24 of A-Z a-z 0-9 . _ / -."
def is_name(text):
    return re.fullmatch("[A-Za-z0-9._/-]*", text) is not None and 1 <= len(text) <= NAME_BYTES


# "The eleven words are not concept names".
def is_concept_name(text):
    return is_name(text) and text not in OPERATORS


# "the day exists in that month, 29 in February" (document 02, request 3): the days of a month in a leap year.
def days_of(month):
    return calendar.monthrange(LEAP_YEAR, MONTHS.index(month) + 1)[1]


# "one or two digits [..], a hyphen, a month's first three English letters in either case, nothing else"
def is_date(text):
    parts = re.fullmatch("([0-9]{1,2})-([A-Za-z]{3})", text)
    if parts is None or parts.group(2).lower() not in MONTHS:
        return False
    return 1 <= int(parts.group(1)) <= days_of(parts.group(2).lower())


# The name of a role, without the `~` that may stand before it.
def role_name(text):
    return text[1:] if text.startswith("~") else text


# Whether a role is written with `~`.
def is_inverse(text):
    return text.startswith("~")


# --- The numbers that apply to a line ---


# "10: line over 512 bytes, or a byte not 33 to 126, space or tab"
def line_is_bad(line):
    return len(line) > LINE_BYTES or any(not (33 <= ord(c) <= 126 or c in " \t") for c in line)


# "11: line 1 [..] not the header"
def is_header(line):
    return line == HEADER


# "Sheets with more than 128 items begin with `sheet`, `2`", and "11 meets edition 2 with the smaller store".
def is_second_header(size, line):
    return line == HEADER_2 and size == oracle.LARGE


# "18 reads the edition's limit"
def most_names(sheet, kind):
    return (MOST_NAMES_2 if sheet.edition == 2 else MOST_NAMES)[kind]


# "12: unknown first word (`sheet` after line 1 too) or rule word"
def word_unknown(fields):
    if section_of(fields[0]) is None:
        return True
    return fields[0] == "rule" and len(fields) > 1 and fields[1] not in RULES


# "13: line after its section has ended"
def section_ended(sheet, word):
    return section_of(word) < sheet.section


# The numbers that a name to be declared calls for.
def new_name_faults(sheet, kind, text):
    applies = {
        15: not (is_concept_name if kind == "concept" else is_name)(text),
        16: kind == "item" and is_date(text),
        17: text in sheet.names[kind],
        18: len(sheet.names[kind]) >= most_names(sheet, kind),
    }
    return {number for number in applies if applies[number]}


# The numbers that a name which should be declared calls for.
def name_faults(sheet, kind, text):
    if not (is_concept_name if kind == "concept" else is_name)(text):
        return {15}
    return set() if text in sheet.names[kind] else {19}


# "20: count not one digit, or outside 1 to 8 (at most: 0 to 7)"
def count_faults(what, text):
    return set() if text in tuple("01234567" if what == "count from 0" else "12345678") else {20}


# The numbers that a field calls for.
def field_faults(sheet, what, text):
    if what.startswith("new "):
        return new_name_faults(sheet, what[4:], text)
    if what == "role":
        return name_faults(sheet, "role", role_name(text))
    if what == "plain role":
        return name_faults(sheet, "role", text)
    return count_faults(what, text) if what.startswith("count") else name_faults(sheet, what, text)


# The numbers that a rule calls for as a whole: "18: no room for one more [..] rule", "21: over 32 nodes".
def rule_faults(sheet, fields):
    applies = {
        18: len(sheet.rules) >= MOST_RULES,
        21: sum(node_count(tree) for tree in expressions_of(fields)) > NODE_LIMIT,
    }
    return {number for number in applies if applies[number]}


# The numbers that apply to a line after the first one that is not empty, by its fields.
def fields_faults(sheet, fields):
    if word_unknown(fields):
        return {12}
    faults = {13} if section_ended(sheet, fields[0]) else set()
    places = line_places(fields)
    if places is None:
        return faults | {14}
    for what, text in places:
        faults |= field_faults(sheet, what, text)
    return faults | (rule_faults(sheet, fields) if fields[0] == "rule" else set())


# The numbers that apply to a line, without those above 10 where 10 applies.
def line_faults(sheet, number, line):
    if line_is_bad(line):
        return {10}
    if number == 1:
        return set() if is_header(line) or is_second_header(sheet.size, line) else {11}
    return set() if line == "" else fields_faults(sheet, fields_of(line))


# --- Expressions ---

# "Short forms are expanded first": what each operator stands for.
EXPANSIONS = {
    "and": lambda C, D: ("and", C, D),
    "or": lambda C, D: ("not", ("and", ("not", C), ("not", D))),
    "not": lambda C: ("not", C),
    "some": lambda R, C: ("at least", ("1", 0), R, C),
    "all": lambda R, C: ("not", ("at least", ("1", 0), R, ("not", C))),
    "atleast": lambda n, R, C: ("at least", (n, 0), R, C),
    "atmost": lambda n, R, C: ("not", ("at least", (n, 1), R, C)),
    "self": lambda R: ("self", R),
    "one": lambda a: ("one", a),
    "top": lambda: ("top",),
    "bot": lambda: ("not", ("top",)),
}


# The expression that some fields begin with, expanded, and the fields left.
def read_expression(fields):
    word, fields = fields[0], fields[1:]
    if word not in OPERATORS:
        return ("name", word), fields
    parts = []
    for what in OPERATORS[word]:
        part, fields = read_expression(fields) if what == "expression" else (fields[0], fields[1:])
        parts.append(part)
    return EXPANSIONS[word](*parts), fields


# The expressions of a rule of a right shape.
def expressions_of(fields):
    found, left = [], fields[2:]
    for _ in range(RULES[fields[1]].count("expression")):
        tree, left = read_expression(left)
        found.append(tree)
    return found


# "Nodes are counted after that, both sides together."
def node_count(tree):
    return 1 + sum(node_count(part) for part, what in zip(tree[1:], NODE_FIELDS[tree[0]]) if what == "node")


# --- What accepted lines give ---


# The number of a declared name.
def number_of(sheet, kind, text):
    return sheet.names[kind][text]


# A role as it is written, by number.
def role_of(sheet, text):
    return Role(number_of(sheet, "role", role_name(text)), is_inverse(text))


# A field of a rule or a node by number, with the nodes that it needs added to `nodes`.
def value_of(sheet, what, part, nodes):
    if what == "node":
        return add_node(sheet, part, nodes)
    if what == "role":
        return role_of(sheet, part)
    if what == "count":
        return int(part[0]) + part[1]
    return part if what == "length" else number_of(sheet, what, part)


# Adds the nodes of an expression, itself first; gives its number.
def add_node(sheet, tree, nodes):
    number = len(nodes)
    nodes.append(None)
    nodes[number] = part_of(sheet, NODE_FIELDS, tree, nodes)
    return number


# A rule's head or a node.
def part_of(sheet, table, tree, nodes):
    fields = [(what, value_of(sheet, what, part, nodes)) for what, part in zip(table[tree[0]], tree[1:])]
    return Part(tree[0], tuple(fields))


# The parts of a rule's head as they are written: "expressions in prefix order", a chain's path and its last role.
def head_of(fields):
    word, rest = fields[1], fields[2:]
    if word == "chain":
        path, last = rest[:-1], rest[-1]
        return (word, len(path), *path, *[last] * (4 - len(path)), last)
    trees = expressions_of(fields)
    return (word, *trees, *(rest[-1:] if word == "in" else [] if trees else rest))


# The rule of an accepted line.
def rule_of(sheet, fields):
    nodes = []
    head = part_of(sheet, RULE_FIELDS, head_of(fields), nodes)
    return Rule(head, len(nodes), nodes)


# The cell that a statement states. "left of `runder` it turns both sides"
def cell_of(sheet, fields):
    word, numbers = fields[0], fields[1:]
    if word == "in":
        return "in", number_of(sheet, "item", numbers[0]), number_of(sheet, "concept", numbers[1])
    if word == "rel":
        return "link", number_of(sheet, "role", numbers[0]), *(number_of(sheet, "item", a) for a in numbers[1:])
    if word == "runder":
        R, S = (role_of(sheet, text) for text in numbers)
        return "role_under", R.number, S.number, int(R.inverse != S.inverse)
    kind = {"same": "item", "under": "concept"}[word]
    return word, *(number_of(sheet, kind, text) for text in numbers)


# Takes in a line that no number applies to.
def accept(sheet, number, fields):
    section = section_of(fields[0])
    sheet.section = max(sheet.section, section)
    if section == 0:
        names = sheet.names[fields[0]]
        names[fields[1]] = len(names)
    elif section == 1:
        sheet.statements.append(cell_of(sheet, fields))
    else:
        sheet.rules.append((number, rule_of(sheet, fields)))


# --- The store, the findings and the text ---


# What follows from the statements, over the names declared.
def cells_after(sheet):
    cells = oracle.Cells(sheet.counts())
    for cell in sheet.statements:
        cells.set(cell)
    oracle.add_what_follows(cells)
    return cells


# The words of some cells in the store that is lent.
def words_in(sheet, cells):
    return tuple(oracle.words_of(cells, sheet.size))


# "the store is all zero if no earlier line was an accepted statement or rule, and otherwise holds what the
# earlier lines gave"
def words_if_refused(sheet):
    return (0,) * sheet.size.words if sheet.section == 0 else words_in(sheet, cells_after(sheet))


# "Findings go by rule, then first item number, then second."
def findings_of(sheet, cells):
    return [(number, *finding) for number, (_, rule) in enumerate(sheet.rules)
            for finding in oracle_rules.findings(cells, rule)]


# A line of the printed text.
def printed(*fields):
    return "\t".join(str(field) for field in fields) + "\n"


# The line for a finding: "`finding`, rule's line number, item, second item if any"
def finding_line(sheet, finding):
    names = list(sheet.names["item"])
    number, *items = finding
    return printed("finding", sheet.rules[number][0], *(names[item] for item in items if item != NO_ITEM))


# "200 such lines at most; then `total` and the count of all findings"
def findings_text(sheet, findings):
    lines = [finding_line(sheet, finding) for finding in findings[:MOST_FINDING_LINES]]
    return "".join(lines) + printed("total", len(findings))


# A sheet that is refused: "prints only `refused`, line, number".
def refused(sheet, line, faults, words):
    number = min(faults)
    return Outcome(line, number, printed("refused", line, number), words, [], sheet.counts(), len(sheet.rules), faults)


# "An accepted sheet without statements leaves a fresh store."
def words_if_accepted(sheet, cells):
    return words_in(sheet, cells)


# A sheet that is accepted.
def accepted(sheet):
    cells = cells_after(sheet)
    findings = findings_of(sheet, cells)
    return Outcome(None, None, findings_text(sheet, findings), words_if_accepted(sheet, cells), findings, sheet.counts(),
                   len(sheet.rules), set())


# "sheet over 32,768 bytes"
def sheet_too_long(sheet_bytes):
    return len(sheet_bytes) > SHEET_BYTES


# The lines of a sheet with their numbers; "A missing or empty line 1 is 11 at line 1", so there always is one.
def numbered_lines(sheet_bytes):
    return list(enumerate(lines_of(sheet_bytes) or [""], 1))


# What a sheet comes to.
def judge(sheet_bytes, store_length=oracle.WORDS):
    size = oracle.size_of(store_length)
    sheet = Sheet(size)
    if size is None:
        return refused(sheet, 0, {1}, None)
    if sheet_too_long(sheet_bytes):
        return refused(sheet, 0, {9}, None)
    for number, line in numbered_lines(sheet_bytes):
        faults = line_faults(sheet, number, line)
        if faults:
            return refused(sheet, number, faults, words_if_refused(sheet))
        if number == 1:
            sheet.edition = 2 if is_second_header(size, line) else 1
        elif line != "":
            accept(sheet, number, fields_of(line))
    return accepted(sheet)
