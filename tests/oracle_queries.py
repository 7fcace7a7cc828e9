"""The queries of document 01, worked out in the plainest way.

The tests hold the library against this file. It is written from document 01 alone
(sections "Rules", "Queries" and "Numbers of refusal"). It does two things that have
nothing in common: it translates a rule to the items of a query, and it answers a query
on a store by trying every item for every variable, knowing nothing but the words.

An item is four numbers: kind, name number, first term, second term. A query is its
items and how many of its variables, from 0 on, are answer variables.
"""

import itertools
from collections import namedtuple

import oracle
import oracle_rules
from oracle_rules import values

MOST_ITEMS = 512
ITEM_WORDS = 4
FIRST_ITEM_TERM = 4096

REFUSED_TOO_LONG = -5
REFUSED_ROOM = -6

CONCEPT, ROLE, EQUALITY, OPEN_NOT, CLOSE_NOT = 1, 2, 3, 4, 5

Query = namedtuple("Query", "items answers")


# --- Lengths ---


# "name, self, one: 1; top: 0; not C: 2 + C; and: the sum; at least n: n(1 + C) + 3n(n−1)/2"
def expression_length(nodes, number):
    node = nodes[number]
    parts = [expression_length(nodes, used) for used in values(node, "node")]
    if node.kind == "at least":
        n, = values(node, "count")
        return n * (1 + parts[0]) + 3 * n * (n - 1) // 2
    return {"name": 1, "self": 1, "one": 1, "top": 0, "not": 2, "and": 0}[node.kind] + sum(parts)


# How many items the query of a rule has: "sub: C + 2 + D", and for the others an item for each atom
# in the table of rules, two for each not.
def query_length(rule):
    parts = sum(expression_length(rule.nodes, used) for used in values(rule.head, "node"))
    if rule.head.kind == "chain":
        return values(rule.head, "length")[0] + 3
    return parts + {"sub": 2, "rsub": 4, "ref": 3, "irr": 1, "dis": 2, "in": 2,
                    "rel": 3, "norel": 1, "same": 3, "differ": 1}[rule.head.kind]


# --- A rule translated to a query ---


# "item a's term is 4096 + a"
def item_term(a):
    return FIRST_ITEM_TERM + a


class Writer:
    """Writes the items of a query one after the other."""

    # Nothing is written yet; `free` is the next variable.
    def __init__(self, nodes, free):
        self.nodes = nodes
        self.free = free
        self.items = []

    # A variable that has not been used yet: "further variables take the next number".
    def new_variable(self):
        self.free += 1
        return self.free - 1

    # A concept atom.
    def concept(self, number, term):
        self.items.append((CONCEPT, number, term, 0))

    # A role atom: "Inverse roles swap the terms."
    def role(self, role, first, second):
        terms = (second, first) if role.inverse else (first, second)
        self.items.append((ROLE, role.number, *terms))

    # An equality.
    def equality(self, first, second):
        self.items.append((EQUALITY, 0, first, second))

    # What `write` writes, inside a not: "Kinds 4 and 5 have zeros elsewhere."
    def inside_not(self, write, *what):
        self.items.append((OPEN_NOT, 0, 0, 0))
        write(*what)
        self.items.append((CLOSE_NOT, 0, 0, 0))

    # The expression of a node, of a term.
    def expression(self, number, term):
        node = self.nodes[number]
        EXPRESSIONS[node.kind](self, term, *(value for _, value in node.fields))


# "C and D"
def write_and(writer, term, C, D):
    writer.expression(C, term)
    writer.expression(D, term)


# "At least n: for each i, a new variable, its role atom, then C of it; then, for i < j in order
# (1,2), (1,3).., an equality inside a not."
def write_at_least(writer, term, n, R, C):
    found = []
    for _ in range(n):
        found.append(writer.new_variable())
        writer.role(R, term, found[-1])
        writer.expression(C, found[-1])
    for i in range(n):
        for j in range(i + 1, n):
            writer.inside_not(writer.equality, found[i], found[j])


EXPRESSIONS = {
    "name": lambda writer, term, A: writer.concept(A, term),
    "top": lambda writer, term: None,
    "not": lambda writer, term, C: writer.inside_not(writer.expression, C, term),
    "and": write_and,
    "at least": write_at_least,
    "self": lambda writer, term, R: writer.role(R, term, term),
    "one": lambda writer, term, a: writer.equality(term, item_term(a)),
}

X, Y = 0, 1  # "x is variable 0, y is 1 where there is one"


# "sub C D | C(x), not D(x)"
def write_sub(writer, C, D):
    writer.expression(C, X)
    writer.inside_not(writer.expression, D, X)


# "rsub R S | R(x,y), not S(x,y)"
def write_rsub(writer, R, S):
    writer.role(R, X, Y)
    writer.inside_not(writer.role, S, X, Y)


# "chain R1..Rk R | the path in order, not R(x,y)"
def write_chain(writer, k, *roles):
    between = [writer.new_variable() for _ in range(k - 1)]
    stops = [X, *between, Y]
    for step in range(k):
        writer.role(roles[step], stops[step], stops[step + 1])
    writer.inside_not(writer.role, roles[4], X, Y)


# "dis R S | R(x,y), S(x,y)"
def write_dis(writer, R, S):
    writer.role(R, X, Y)
    writer.role(S, X, Y)


# How each kind of rule is written, and how many answer variables it has.
HEADS = {
    "sub": (write_sub, 1),
    "rsub": (write_rsub, 2),
    "chain": (write_chain, 2),
    "ref": (lambda writer, R: writer.inside_not(writer.role, R, X, X), 1),
    "irr": (lambda writer, R: writer.role(R, X, X), 1),
    "dis": (write_dis, 2),
    "in": (lambda writer, C, a: writer.inside_not(writer.expression, C, item_term(a)), 0),
    "rel": (lambda writer, R, a, b: writer.inside_not(writer.role, R, item_term(a), item_term(b)), 0),
    "norel": (lambda writer, R, a, b: writer.role(R, item_term(a), item_term(b)), 0),
    "same": (lambda writer, a, b: writer.inside_not(writer.equality, item_term(a), item_term(b)), 0),
    "differ": (lambda writer, a, b: writer.equality(item_term(a), item_term(b)), 0),
}


# The query of a rule that is in order.
def query_of(rule):
    write, answers = HEADS[rule.head.kind]
    writer = Writer(rule.nodes, free=answers)
    write(writer, *(value for _, value in rule.head.fields))
    return Query(tuple(writer.items), answers)


# --- The call under test ---


# The limits of the counts: those of the larger store, as compiling has no store.
LIMITS = oracle.LARGE.limits


# What the rule is refused by, whatever the room; 0 if by none of -1, -3 and -4.
def rule_refusal(counts, rule_words):
    if any(count > limit for count, limit in zip(counts, LIMITS)):
        return oracle.REFUSED_SIZE
    if oracle_rules.malformed(rule_words):
        return oracle_rules.REFUSED_MALFORMED
    return oracle.REFUSED_NUMBER if oracle_rules.undeclared(oracle_rules.read_rule(rule_words), counts) else 0


# What a call with so many words of room is to give for a query of some length and answer variables.
def result_of(length, answers, room):
    if length > MOST_ITEMS:
        return REFUSED_TOO_LONG
    return REFUSED_ROOM if room < ITEM_WORDS * length else ITEM_WORDS * length + answers


# --- A query answered, by its words alone ---


class TooLong(Exception):
    """A query that takes too many steps to be answered this way."""


# An item's terms; the second of a concept is none.
def terms_of(item):
    kind, _, first, second = item
    return {CONCEPT: (first,), ROLE: (first, second), EQUALITY: (first, second)}[kind]


# The variables among an item's terms.
def variables_of(item):
    return {term for term in terms_of(item) if term < FIRST_ITEM_TERM}


class Group:
    """A not, or the whole query: its parts, and the variables that belong to it."""

    # Nothing in it yet.
    def __init__(self):
        self.parts = []
        self.own = []

    # Adds an atom or a not, with the variables that its truth depends on.
    def add(self, part):
        self.parts.append((part, part.variables() if isinstance(part, Group) else variables_of(part)))

    # The variables that its truth depends on.
    def variables(self):
        return set().union(*(variables for _, variables in self.parts)) - set(self.own)


# "Any other variable first met inside a not belongs to that not; the rest need only exist": of the groups that
# are open, the one that a variable met now belongs to.
def owner(open_groups):
    return open_groups[-1]


# The variables that belong to no not: "x and y are the answer variables and belong to no not, wherever first met."
def free_variables(query):
    return set(range(query.answers))


# The whole query as a group.
def grouped(query):
    met = free_variables(query)
    open_groups = [Group()]
    for item in query.items:
        if item[0] == OPEN_NOT:
            open_groups.append(Group())
        elif item[0] == CLOSE_NOT:
            closed = open_groups.pop()
            open_groups[-1].add(closed)
        else:
            open_groups[-1].add(item)
            owner(open_groups).own += sorted(variables_of(item) - met)
            met |= variables_of(item)
    whole, = open_groups
    if not whole.variables() <= free_variables(query):
        raise AssertionError(f"a variable is used outside its not: {query}")
    return whole


class Answering:
    """The truth of queries on a closed store with some cells, within so many steps."""

    # No step taken yet.
    def __init__(self, cells, steps):
        self.cells = cells
        self.items = range(len(cells.same))
        self.steps = steps

    # Whether an atom is true, if the variables have these values.
    def atom(self, item, known):
        named = [known[term] if term < FIRST_ITEM_TERM else term - FIRST_ITEM_TERM for term in terms_of(item)]
        if item[0] == CONCEPT:
            return self.cells.has(("in", *named, item[1]))
        if item[0] == ROLE:
            return self.cells.has(("link", item[1], *named))
        return self.cells.has(("same", *named))

    # Whether a part is true, if the variables have these values.
    def part(self, part, known):
        if isinstance(part, Group):
            return not self.some(part, part.own, known)
        return self.atom(part, known)

    # Whether some items for the variables left make all parts of a group true. A part is tried as soon as
    # the variables that it depends on have values.
    def some(self, group, left, known):
        self.steps -= 1
        if self.steps < 0:
            raise TooLong
        tried = [part for part, variables in group.parts if not left or variables <= known.keys()]
        if not all(self.part(part, known) for part in tried):
            return False
        return not left or any(self.some(group, left[1:], {**known, left[0]: item}) for item in self.items)

    # All answers in order: items for x and y, or for x, or the one answer without any.
    def answers(self, query):
        tried = itertools.product(self.items, repeat=query.answers)
        whole = grouped(query)
        return [answer for answer in tried if self.some(whole, whole.own, dict(enumerate(answer)))]


# The answers that the findings of a rule call for: the items found, or for a rule without x the answer
# without any, "yes exactly if it has its one finding".
def answers_due(query, findings):
    return [finding[:query.answers] for finding in findings]
