"""The rules of document 01 by number, worked out in the plainest way.

The tests hold the library against this file. It is written from document 01 alone
(sections "Sizes", "Rules" and "Numbers of refusal") and from what include/saltreeve.h
says of the words of a rule. A rule is read into these:

    Rule(head, node_count, nodes)   nodes has those below the count, 32 at most
    Part(kind, fields)              a rule's head or a node; each field is what it is
                                    ("node", "item", "concept", "role", "count" or
                                    "length") and its value. UNKNOWN is the kind of a
                                    number that is no kind's; it has no fields
    Role(number, inverse)           the value of a role field

What holds of which items is kept as in tests/oracle.py: bit a of a row is item a.
A finding is a pair of items, the second one NO_ITEM if the rule has none.
"""

from collections import namedtuple
from functools import lru_cache

import oracle

RULE_WORDS = 173
HEAD_WORDS = 12
NODE_WORDS = 5
NODE_LIMIT = 32
NO_ITEM = 2**64 - 1

REFUSED_MALFORMED = -3

UNKNOWN = "unknown"

Role = namedtuple("Role", "number inverse")
Part = namedtuple("Part", "kind fields")
Rule = namedtuple("Rule", "head node_count nodes")

# The kinds of rules in the order of their numbers, and their fields.
RULE_FIELDS = {
    "sub": ("node", "node"),
    "rsub": ("role", "role"),
    "chain": ("length", "role", "role", "role", "role", "role"),
    "ref": ("role",),
    "irr": ("role",),
    "dis": ("role", "role"),
    "in": ("node", "item"),
    "rel": ("role", "item", "item"),
    "norel": ("role", "item", "item"),
    "same": ("item", "item"),
    "differ": ("item", "item"),
}

# The kinds of nodes in the order of their numbers, and their fields.
NODE_FIELDS = {
    "name": ("concept",),
    "top": (),
    "not": ("node",),
    "and": ("node", "node"),
    "at least": ("count", "role", "node"),
    "self": ("role",),
    "one": ("item",),
}


# --- Reading the words of a rule ---


# A head or a node from its words.
def read_part(table, words):
    kind = list(table)[words[0]] if words[0] < len(table) else UNKNOWN
    fields, rest = [], list(words[1:])
    for what in table.get(kind, ()):
        value = rest.pop(0)
        fields.append((what, Role(value, rest.pop(0) != 0) if what == "role" else value))
    return Part(kind, tuple(fields))


# The words of one node.
def node_words(words, number):
    start = HEAD_WORDS + 1 + NODE_WORDS * number
    return words[start:start + NODE_WORDS]


# A rule from its 173 words.
def read_rule(words):
    count = words[HEAD_WORDS]
    head = read_part(RULE_FIELDS, words[:HEAD_WORDS])
    nodes = [read_part(NODE_FIELDS, node_words(words, n)) for n in range(min(count, NODE_LIMIT))]
    return Rule(head, count, nodes)


# The values of a part's fields of one sort.
def values(part, what):
    return [value for field, value in part.fields if field == what]


# --- Refusal 3 ---


# "a kind of rule or a kind of node that is not one of these" (include/saltreeve.h)
def unknown_kind(rule):
    return any(part.kind == UNKNOWN for part in (rule.head, *rule.nodes))


# "over 32 nodes"
def too_many_nodes(rule):
    return rule.node_count > NODE_LIMIT


# "a count outside 1 to 8"
def count_outside(rule):
    return any(not 1 <= count <= 8 for node in rule.nodes for count in values(node, "count"))


# "chain outside 2 to 4"
def chain_outside(rule):
    return any(not 2 <= length <= 4 for length in values(rule.head, "length"))


# All uses of nodes: the number of the node that uses, or None for a root, and the node used.
def uses(rule):
    roots = [(None, used) for used in values(rule.head, "node")]
    return roots + [(user, used) for user, node in enumerate(rule.nodes) for used in values(node, "node")]


# "a use of a node that is not there"
def use_not_there(rule):
    return any(used >= rule.node_count for _, used in uses(rule))


# Whether a node is "used exactly once in all, as a root or by an earlier node".
def used_once(all_uses, number):
    users = [user for user, used in all_uses if used == number]
    return len(users) == 1 and (users[0] is None or users[0] < number)


# "a node not used exactly once in all, as a root or by an earlier node"
def node_not_used_once(rule):
    all_uses = uses(rule)
    return any(not used_once(all_uses, number) for number in range(len(rule.nodes)))


FAULTS = (unknown_kind, too_many_nodes, count_outside, chain_outside, use_not_there, node_not_used_once)


# The ways in which a rule is malformed.
def faults(rule):
    return [fault for fault in FAULTS if fault(rule)]


# Whether the words of a rule are malformed: "another number of words" (include/saltreeve.h), or in one of these ways.
def malformed(words):
    return len(words) != RULE_WORDS or bool(faults(read_rule(words)))


# --- Refusal 4 ---


# The roles that a rule names outside its nodes: of a chain's four, only as many as it is long.
def head_roles(head):
    roles = values(head, "role")
    if head.kind == "chain":
        return roles[:values(head, "length")[0]] + roles[4:]
    return roles


# "an item, concept or role number not below its count"
def undeclared(rule, counts):
    parts = [rule.head, *rule.nodes]
    items = [item for part in parts for item in values(part, "item")]
    concepts = [concept for part in parts for concept in values(part, "concept")]
    roles = head_roles(rule.head) + [role for node in rule.nodes for role in values(node, "role")]
    return (any(item >= counts.items for item in items)
            or any(concept >= counts.concepts for concept in concepts)
            or any(role.number >= counts.roles for role in roles))


# --- What holds ---


# Whether an item is in a row.
def has(row, item):
    return row >> item & 1 == 1


class Meaning:
    """What the nodes of a rule hold of, in a closed store."""

    # Nothing is worked out yet.
    def __init__(self, cells, nodes):
        self.cells = cells
        self.nodes = nodes
        self.items = range(len(cells.same))
        self.articles = set(cells.same)
        self.rows = {}
        self.known_links = {}

    # For each item, the row of the items that a role links it to; an inverse is read from the other end.
    def links(self, role):
        if role not in self.known_links:
            links = tuple(self.cells.links[role.number])
            self.known_links[role] = oracle.turned(links) if role.inverse else links
        return self.known_links[role]

    # All pairs of items that a role links.
    def linked_pairs(self, role):
        return [(x, y) for x in self.items for y in oracle.bits(self.links(role)[x])]

    # Whether a role links a to b.
    def linked(self, role, a, b):
        return has(self.links(role)[a], b)

    # Whether a is the same as b.
    def same(self, a, b):
        return self.cells.has(("same", a, b))

    # The row of the items that a node holds of.
    def row(self, number):
        if number not in self.rows:
            kind, fields = self.nodes[number]
            numbers = [value for _, value in fields]
            self.rows[number] = sum(1 << a for a in self.items if HOLDS[kind](self, a, *numbers))
        return self.rows[number]

    # Whether a node holds of an item.
    def holds(self, number, a):
        return has(self.row(number), a)

    # The row of the items joined to x by a path of roles.
    def ends_of_path(self, path, x):
        ends = 1 << x
        for role in path:
            further = 0
            for b in oracle.bits(ends):
                further |= self.links(role)[b]
            ends = further
        return ends


# "a concept name": a in A
def holds_name(meaning, a, concept):
    return meaning.cells.has(("in", a, concept))


# "top holds of all"
def holds_top(meaning, a):
    return True


# "not C holds where C does not"
def holds_not(meaning, a, C):
    return not meaning.holds(C, a)


# "C and D"
def holds_and(meaning, a, C, D):
    return meaning.holds(C, a) and meaning.holds(D, a)


# "at least n R C holds of a if n or more different articles (classes of "same") contain a b
# linked from a by R with C holding of b"
def holds_at_least(meaning, a, n, R, C):
    linked_with_C = meaning.links(R)[a] & meaning.row(C)
    return sum(1 for article in meaning.articles if article & linked_with_C) >= n


# "self R of a: R links a to a"
def holds_self(meaning, a, R):
    return meaning.linked(R, a, a)


# "one a holds of each item same as a"
def holds_one(meaning, a, item):
    return meaning.same(a, item)


HOLDS = {
    "name": holds_name,
    "top": holds_top,
    "not": holds_not,
    "and": holds_and,
    "at least": holds_at_least,
    "self": holds_self,
    "one": holds_one,
}


# --- What breaks a rule ---


# "sub C D | x: C holds, D does not"
def broken_sub(meaning, C, D):
    return [(x, NO_ITEM) for x in meaning.items if meaning.holds(C, x) and not meaning.holds(D, x)]


# "rsub R S | x, y linked by R, not by S"
def broken_rsub(meaning, R, S):
    return [(x, y) for x, y in meaning.linked_pairs(R) if not meaning.linked(S, x, y)]


# "chain R1..Rk R, k 2 to 4 | x, y joined by a path R1..Rk, not by R"
def broken_chain(meaning, k, *roles):
    path, last = roles[:k], roles[4]
    return [(x, y) for x in meaning.items for y in oracle.bits(meaning.ends_of_path(path, x))
            if not meaning.linked(last, x, y)]


# "ref R | x not linked to itself"
def broken_ref(meaning, R):
    return [(x, NO_ITEM) for x in meaning.items if not meaning.linked(R, x, x)]


# "irr R | [..] linked [to itself]"
def broken_irr(meaning, R):
    return [(x, NO_ITEM) for x in meaning.items if meaning.linked(R, x, x)]


# "dis R S | x, y linked by both"
def broken_dis(meaning, R, S):
    return [(x, y) for x, y in meaning.linked_pairs(R) if meaning.linked(S, x, y)]


# "in C a | a, if C does not hold of it"
def broken_in(meaning, C, a):
    return [] if meaning.holds(C, a) else [(a, NO_ITEM)]


# "rel R a b | a, b if not linked"
def broken_rel(meaning, R, a, b):
    return [] if meaning.linked(R, a, b) else [(a, b)]


# "norel R a b | [a, b] if linked"
def broken_norel(meaning, R, a, b):
    return [(a, b)] if meaning.linked(R, a, b) else []


# "same a b | a, b if not same"
def broken_same(meaning, a, b):
    return [] if meaning.same(a, b) else [(a, b)]


# "differ a b | [a, b] if same"
def broken_differ(meaning, a, b):
    return [(a, b)] if meaning.same(a, b) else []


BROKEN = {
    "sub": broken_sub,
    "rsub": broken_rsub,
    "chain": broken_chain,
    "ref": broken_ref,
    "irr": broken_irr,
    "dis": broken_dis,
    "in": broken_in,
    "rel": broken_rel,
    "norel": broken_norel,
    "same": broken_same,
    "differ": broken_differ,
}


# "Findings go by [..] first item number, then second."
def findings(cells, rule):
    numbers = [value for _, value in rule.head.fields]
    return sorted(BROKEN[rule.head.kind](Meaning(cells, rule.nodes), *numbers))


# --- The call under test ---


# The cells of a closed store or None, remembered for the next rule on the same store.
@lru_cache(maxsize=8)
def closed_cells(words, counts):
    return oracle.closed_cells(list(words), counts)


# What the call is to give: its result, and all findings; remembered for the next call with the same rule.
@lru_cache(maxsize=2)
def answer(words, counts, rule_words):
    if oracle.wrong_size(words, counts):
        return oracle.REFUSED_SIZE, []
    cells = closed_cells(words, counts)
    if cells is None:
        return oracle.REFUSED_NOT_CLOSED, []
    if malformed(rule_words):
        return REFUSED_MALFORMED, []
    rule = read_rule(rule_words)
    if undeclared(rule, counts):
        return oracle.REFUSED_NUMBER, []
    found = findings(cells, rule)
    return len(found), found
