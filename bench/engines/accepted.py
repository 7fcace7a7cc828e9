"""Reads a sheet that is known to be accepted, for the translators to other engines.

Names become numbers in the order of their declaration. An expression is a tuple of its word and its parts as they are
written; a concept name is ("name", number). A role is a pair: its number, and whether it is turned.
"""

from collections import namedtuple

# counts: how many items, concepts and roles; statements: lists by word; rules: (line number, word, parts)
Sheet = namedtuple("Sheet", "items concepts roles statements rules")

# What the parts after each word are: e an expression, r a role, a an item, c a concept, n a count.
OPERATORS = {"and": "ee", "or": "ee", "not": "e", "some": "re", "all": "re", "atleast": "nre", "atmost": "nre", "self": "r",
             "one": "a", "top": "", "bot": ""}
STATEMENTS = {"in": "ac", "rel": "raa", "same": "aa", "under": "cc", "runder": "rr"}
RULES = {"sub": "ee", "rsub": "rr", "ref": "r", "irr": "r", "dis": "rr", "in": "ea", "rel": "raa", "norel": "raa",
         "same": "aa", "differ": "aa"}


class Reader:
    """Takes fields one after the other."""

    # `names` are the numbers by kind.
    def __init__(self, names, fields):
        self.names, self.fields = names, fields

    # The parts of a line or an expression.
    def parts(self, what):
        return tuple(getattr(self, f"take_{each}")() for each in what)

    # The next item.
    def take_a(self):
        return self.names["item"][self.fields.pop(0)]

    # The next concept.
    def take_c(self):
        return self.names["concept"][self.fields.pop(0)]

    # The next role.
    def take_r(self):
        field = self.fields.pop(0)
        return self.names["role"][field.lstrip("~")], field.startswith("~")

    # The next count.
    def take_n(self):
        return int(self.fields.pop(0))

    # The next expression.
    def take_e(self):
        word = self.fields.pop(0)
        return (word, *self.parts(OPERATORS[word])) if word in OPERATORS else ("name", self.names["concept"][word])


# What a sheet says.
def read(sheet):
    names = {"item": {}, "concept": {}, "role": {}}
    statements, rules = {word: [] for word in STATEMENTS}, []
    for number, line in enumerate(sheet.decode().split("\n")[1:], 2):
        word, *fields = line.split("\t")
        reader = Reader(names, fields)
        if word in names:
            names[word][fields[0]] = len(names[word])
        elif word in STATEMENTS:
            statements[word].append(reader.parts(STATEMENTS[word]))
        elif word == "rule":
            kind = fields.pop(0)
            rules.append((number, kind, reader.parts(RULES.get(kind, "r" * len(fields)))))
    return Sheet(list(names["item"]), len(names["concept"]), len(names["role"]), statements, rules)


# The text that `check` prints for findings: each the number of a rule's line, an item and perhaps a second one.
def text_of(sheet, findings):
    lines = []
    for line, *items in sorted(findings)[:200]:
        lines.append("\t".join(("finding", str(line), *(sheet.items[item] for item in items))) + "\n")
    return "".join(lines) + f"total\t{len(findings)}\n"
