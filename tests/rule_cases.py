"""The cases that rules by number are tested with, written as commands for tests/rule_driver.c.

Every call goes through the oracle first, which says what result and which findings are
due. Each part of the test draws from random numbers of its own, made from the seed and
the part's name, so that a part is the same whatever else is run.

A rule is drawn as a tuple: its kind, then its fields, with a role as two numbers (the
role and whether it is the inverse) and an expression as a tuple of the same make. It
then becomes a Draft, in which the nodes have their numbers and single words can be
spoiled, and in the end 173 words.
"""

import random
from collections import Counter, namedtuple

import oracle
import oracle_rules
import store_cases
from oracle import LIMITS, WORDS, Counts
from oracle_rules import HEAD_WORDS, NO_ITEM, NODE_FIELDS, NODE_LIMIT, NODE_WORDS, RULE_FIELDS, RULE_WORDS
from store_cases import (HUGE, WRONG_LENGTHS, all_linked, changed_words, counts_of_call, filled, require,
                         wrong_numbers_for)

RULES_A_STORE = 8
WRONG_RULE_LENGTHS = (0, 1, 12, 172, 174, 346)
NUMBER_FIELDS = ("item", "concept", "role")

Call = namedtuple("Call", "counts words rule_words")


# --- Commands ---


class Commands:
    """Writes commands, and keeps each call so that a difference can be shown."""

    # Nothing written yet; `write` takes the text.
    def __init__(self, write):
        self.write = write
        self.words = ()
        self.calls = []
        self.rules = 0
        self.findings = 0
        self.results = Counter()
        self.other_lengths = 0

    # Begins a part of the test and gives its random numbers.
    def part(self, seed, name, number):
        self.write(f"part {name} {number}\n")
        return random.Random(f"{seed} {name} {number}")

    # Lends the driver a store with these words.
    def load(self, words):
        self.words = tuple(words)
        self.write(f"store {listed(words)}\n")

    # Asks for what breaks a rule, with one out list; gives the result.
    def ask(self, rng, counts, rule_words):
        return self.ask_with(counts, rule_words, lambda total: [draw_room(rng, total)])

    # Asks for what breaks a rule, once for each length of out list that `rooms` gives.
    def ask_with(self, counts, rule_words, rooms):
        result, found = oracle_rules.answer(self.words, counts, rule_words)
        lengths = rooms(len(found))
        pairs = "".join(f" {first} {second}" for first, second in found)
        tried = " ".join(str(length) for length in (len(lengths), *lengths))
        self.write(f"rule {listed(rule_words)}\n")
        self.write(f"call {' '.join(str(count) for count in counts)} {result}{pairs} {tried}\n")
        self.calls += [Call(counts, self.words, rule_words)] * len(lengths)
        self.rules += 1
        self.findings += len(found)
        self.results[min(result, 0)] += 1
        self.other_lengths += len(rule_words) != RULE_WORDS
        return result


# Words as the driver reads them: their number, then index and value of those that are not 0.
def listed(words):
    return f"{len(words)}{changed_words([0] * len(words), list(words))}"


# The length of an out list for so many findings: mostly enough, now and then too short.
def draw_room(rng, total):
    enough = 2 * total
    short = rng.randint(0, enough)
    return rng.choice((short, enough, enough, enough + 1, enough + 2, enough + 9, enough + 64))


# Lengths of out lists for so many findings: none, one, odd, one too short, exactly enough, too many.
def all_rooms(total):
    enough = 2 * total
    return sorted({0, 1, 2, 3, max(enough - 2, 0), max(enough - 1, 0), enough, enough + 1, enough + 2, enough + 64})


# --- Stores ---


# Counts of a store: mostly small ones, some of more items, some at the edge of a word or at the limits.
def draw_counts(rng):
    size = rng.choices(("small", "middle", "edges", "limits"), (82, 12, 4, 2))[0]
    if size == "small":
        return Counts(rng.choice((0, 1, 2, 3, 4, 4, 5, 5, 6, 6)), rng.choice((0, 1, 2, 3, 4)),
                      rng.choice((0, 1, 2, 2, 3, 3)))
    if size == "middle":
        return Counts(rng.randint(8, 20), rng.randint(1, 8), rng.randint(1, 6))
    if size == "edges":
        return Counts(rng.choice((63, 64, 65, 127, 128)), rng.choice((1, 31, 32)), rng.choice((1, 2, 15, 16)))
    return LIMITS


# Links by one role; how many an item has on the mean is drawn, from none to nearly all.
def draw_links(rng, items, role):
    chance = rng.choice((0, 0.5, 1, 2, 4, 0.6 * items, 0.9 * items)) / max(items, 1)
    return [("link", role, a, b) for a in range(items) for b in range(items) if rng.random() < chance]


# The cells of a closed store, rich in links, memberships, items that are the same and inverses.
def draw_cells(rng, counts):
    drawer = store_cases.Drawer(rng, counts)
    merged = int(rng.choice((0, 0.2, 0.35, 0.5)) * counts.items)
    statements = [("same", rng.randrange(counts.items), rng.randrange(counts.items)) for _ in range(merged)]
    for _ in range(rng.choice((0, 0, 1, 2))):
        statements += [drawer.of_kind("under"), drawer.of_kind("role_under")]
    members = rng.choice((0.1, 0.3, 0.6))
    statements += [("in", a, A) for a in range(counts.items) for A in range(counts.concepts) if rng.random() < members]
    for role in range(counts.roles):
        statements += draw_links(rng, counts.items, role)
    return filled(counts, statements)


# The words of a closed store.
def draw_words(rng, counts):
    return oracle.words_of(draw_cells(rng, counts))


# A store that is not closed: the words of a closed one with one bit turned over.
def damaged(rng, words, counts):
    while True:
        spoiled = list(words)
        spoiled[rng.choice((0, 2, 256, 288, 304, 432, rng.randrange(WORDS)))] ^= 1 << rng.randrange(64)
        if oracle.closed_cells(spoiled, counts) is None:
            return spoiled


# --- Drafts of rules ---


class Draft:
    """A rule with numbered nodes. The head and each node are lists: the kind, or a number that is no kind's, then the
    words of the fields."""

    # The rule says as many nodes as there are, unless `count` is set later.
    def __init__(self, head, nodes):
        self.head = head
        self.nodes = nodes
        self.count = None

    # Where the words for one sort of field are: the list and the index in it.
    def places(self, what):
        parts = [(self.head, RULE_FIELDS)] + [(node, NODE_FIELDS) for node in self.nodes]
        return [(part, at) for part, table in parts for at, name in enumerate(word_names(table, part[0]))
                if name == what]

    # The numbers of the roots.
    def roots(self):
        return [part[at] for part, at in self.places("node") if part is self.head]

    # The number of a node that is given as its list; None for the head.
    def number_of(self, part):
        return next((number for number, node in enumerate(self.nodes) if node is part), None)

    # Takes the last node away, which uses no other, and gives the place that used it.
    def drop_last(self):
        self.nodes.pop()
        return next((part, at) for part, at in self.places("node") if part[at] == len(self.nodes))

    # Lets two nodes exchange their numbers.
    def exchange(self, first, second):
        other = {first: second, second: first}
        for part, at in self.places("node"):
            part[at] = other.get(part[at], part[at])
        self.nodes[first], self.nodes[second] = self.nodes[second], self.nodes[first]

    # The 173 words; those that are not used are 0 or anything.
    def words(self, rng):
        spare = rng.choice(((0,), (0, 1, 2, 3, 4, 5, 6, 9, 31, 32, 2**32, NO_ITEM)))
        words = part_words(rng, spare, RULE_FIELDS, self.head, HEAD_WORDS)
        words.append(len(self.nodes) if self.count is None else self.count)
        for node in self.nodes:
            words += part_words(rng, spare, NODE_FIELDS, node, NODE_WORDS)
        return tuple(words + rng.choices(spare, k=RULE_WORDS - len(words)))


# What the words of a part are for, its kind first.
def word_names(table, kind):
    names = ["kind"]
    for what in table.get(kind, ()):
        names += ["role", "inverse"] if what == "role" else [what]
    return names


# So many words for a part, those that it has no use for taken from `spare`.
def part_words(rng, spare, table, part, length):
    words = [list(table).index(part[0]) if part[0] in table else part[0], *part[1:]]
    return words + rng.choices(spare, k=length - len(words))


# Numbers that are no kind's.
def unknown_kinds(table):
    return (len(table), len(table) + 1, 255, 256, 2**32, 2**32 + 2, 2**63, 2**64 - 1)


# A draft of a rule: each node gets a number after the node that uses it, otherwise in any order.
# The expressions in `unused` get their numbers among the others, and nothing uses them.
def lay_out(rng, rule, unused=()):
    nodes, waiting = [], [([None], 0, expression) for expression in unused]
    head = part_of(rule, waiting)
    while waiting:
        user, at, expression = waiting.pop(rng.randrange(len(waiting)))
        user[at] = len(nodes)
        nodes.append(part_of(expression, waiting))
    return Draft(head, nodes)


# A part as a list; the expressions that it uses are put to those waiting for a number.
def part_of(described, waiting):
    part = list(described)
    waiting += [(part, at, field) for at, field in enumerate(part) if isinstance(field, tuple)]
    return part


class RuleDrawer(store_cases.Drawer):
    """Draws rules over some counts."""

    # Chooses how often each kind of node comes.
    def __init__(self, rng, counts):
        super().__init__(rng, counts)
        self.leaves = {"top": 1, "name": 5 * counts.concepts, "self": 2 * counts.roles, "one": 2 * counts.items}
        self.leaves = {kind: min(often, 5) for kind, often in self.leaves.items()}
        self.not_and = rng.choice(((2, 2), (1, 4), (1, 0.01), (4, 1)))
        self.at_least = rng.choice((1, 3, 8)) if counts.roles else 0

    # An expression of exactly so many nodes.
    def expression(self, size):
        often = self.leaves
        if size > 1:
            not_often, and_often = self.not_and
            often = {"not": not_often, "at least": self.at_least, "and": and_often if size > 2 else 0}
        kind = self.rng.choices(list(often), list(often.values()))[0]
        return (kind, *self.fields(NODE_FIELDS[kind], size - 1))

    # A rule of a kind whose expressions have so many nodes together.
    def rule(self, kind, size):
        return (kind, *self.fields(RULE_FIELDS[kind], size))

    # Fields with expressions of so many nodes together.
    def fields(self, whats, size):
        sizes = self.shares(size, whats.count("node"))
        fields = []
        for what in whats:
            fields += [self.expression(sizes.pop())] if what == "node" else self.field(what)
        return fields

    # The words of a field that is no expression.
    def field(self, what):
        return {
            "item": lambda: [self.item()],
            "concept": lambda: [self.concept()],
            "role": lambda: [self.role(), self.inverse()],
            "count": lambda: [self.rng.choice((1, 1, 1, 2, 2, 2, 3, 3, 4, 5, 6, 7, 8))],
            "length": lambda: [self.rng.randint(2, 4)],
        }[what]()

    # A number of nodes dealt out to none, one or two expressions.
    def shares(self, size, expressions):
        if expressions < 2:
            return [size] * expressions
        first = self.rng.choice((1, size - 1, self.rng.randint(1, size - 1)))
        return [first, size - first]

    # A draft of a rule of a kind with so many nodes.
    def draft(self, kind, size):
        return lay_out(self.rng, self.rule(kind, size))

    # A draft of a rule with expressions, mostly of few nodes.
    def draft_with_expressions(self):
        kind = self.rng.choice(("sub", "in"))
        few = self.rng.randint(RULE_FIELDS[kind].count("node"), 8)
        return self.draft(kind, self.rng.choice((few, few, few, few, 31, NODE_LIMIT)))

    # The words of a rule of any kind.
    def any_words(self):
        kind = self.rng.choices(list(RULE_FIELDS), (9, 2, 4, 1, 1, 2, 3, 1, 1, 1, 1))[0]
        size = self.rng.choice((2, 2, 2, 3, 3, 4, 4, 5, 6, 8, 12, 20, 31, 32))
        return self.draft(kind, size).words(self.rng)


# --- Rules drawn over stores drawn ---


# The rounds of a part, each over a store drawn with one of the counts.
def drawn_rounds(commands, seed, name, rounds, choices):
    for number in range(rounds):
        rng = commands.part(seed, name, number)
        counts = rng.choice(choices)
        commands.load(draw_words(rng, counts))
        yield rng, counts


# Rules of every kind over one store.
def drawn_rules(commands, seed, number):
    rng = commands.part(seed, "drawn", number)
    counts = draw_counts(rng)
    commands.load(draw_words(rng, counts))
    for _ in range(RULES_A_STORE):
        commands.ask(rng, counts_of_call(rng, counts), RuleDrawer(rng, counts).any_words())


# Rules of exactly 32 nodes: long nests, wide trees, and everything between.
def full_rules(commands, seed, rounds):
    choices = (Counts(5, 3, 2), Counts(6, 4, 3), Counts(12, 4, 3), Counts(66, 5, 3))
    for rng, counts in drawn_rounds(commands, seed, "full-rule", rounds, choices):
        for kind in ("sub", "in", "sub"):
            words = RuleDrawer(rng, counts).draft(kind, NODE_LIMIT).words(rng)
            require(commands.ask(rng, counts, words) >= 0, "the oracle refuses a rule of 32 nodes")


# Rules about the last numbers that can be declared.
LAST_NUMBERS_RULES = (
    ("in", ("name", 31), 127),
    ("in", ("one", 64), 127),
    ("sub", ("name", 31), ("name", 30)),
    ("sub", ("top",), ("at least", 8, 15, 1, ("name", 31))),
    ("sub", ("self", 15, 1), ("one", 127)),
    ("rsub", 15, 1, 14, 0),
    ("dis", 14, 0, 15, 1),
    ("chain", 2, 15, 0, 15, 1, 0, 0, 0, 0, 15, 0),
    ("ref", 15, 0),
    ("irr", 15, 1),
    ("rel", 15, 0, 127, 64),
    ("norel", 15, 1, 127, 63),
    ("same", 127, 63),
    ("differ", 127, 127),
)


# Rules about the last numbers, over stores of as many items, concepts and roles as there can be.
def last_numbers(commands, seed, rounds):
    for number in range(rounds):
        rng = commands.part(seed, "last-numbers", number)
        commands.load(draw_words(rng, LIMITS))
        for rule in LAST_NUMBERS_RULES:
            require(commands.ask(rng, LIMITS, lay_out(rng, rule).words(rng)) >= 0, "the oracle refuses the last numbers")


# Expressions that each use the next, so many around the last.
def nest(depth, count, role, last):
    for level in range(depth):
        last = ("at least", count, role, level % 2, last)
    return last


# Rules for a store in which role 15 links nothing and every other role all to all, and the number
# of their findings, first if all items are different, then if all are the same.
FULL_STORE_RULES = (
    (("dis", 0, 0, 14, 1), (16384, 16384)),
    (("rsub", 3, 1, 15, 0), (16384, 16384)),
    (("rsub", 15, 0, 3, 1), (0, 0)),
    (("chain", 4, 0, 0, 1, 1, 2, 0, 3, 1, 15, 0), (16384, 16384)),
    (("chain", 2, 0, 0, 15, 1, 0, 0, 0, 0, 15, 0), (0, 0)),
    (("ref", 15, 0), (128, 128)),
    (("irr", 7, 1), (128, 128)),
    (("sub", nest(30, 1, 7, ("top",)), ("one", 127)), (127, 0)),
    (("sub", nest(30, 8, 7, ("top",)), ("one", 127)), (127, 0)),
    (("sub", ("top",), nest(29, 8, 7, ("not", ("top",)))), (128, 128)),
    (("in", nest(31, 8, 7, ("self", 0, 1)), 127), (0, 1)),
)


# The largest lists of findings there are, and rules of 32 nodes over as many links as there can be.
def full_stores(commands, seed):
    for merged in (0, 1):
        rng = commands.part(seed, "full-store", merged)
        commands.load(oracle.words_of(all_linked(LIMITS, merged, 15)))
        for rule, due in FULL_STORE_RULES:
            result = commands.ask(rng, LIMITS, lay_out(rng, rule).words(rng))
            require(result == due[merged], "the oracle finds another number in a full store")


# Out lists of many lengths, for every kind of rule.
def out_lists(commands, seed, rounds):
    choices = (Counts(3, 2, 2), Counts(6, 3, 3), Counts(9, 3, 3))
    for rng, counts in drawn_rounds(commands, seed, "out-list", rounds, choices):
        for kind in RULE_FIELDS:
            words = RuleDrawer(rng, counts).draft(kind, 3).words(rng)
            commands.ask_with(counts, words, all_rooms)


# --- Examples ---

NAME_0, NAME_1, TOP, BOT = ("name", 0), ("name", 1), ("top",), ("not", ("top",))
PARTS = (("in", 0, 0), ("in", 1, 1), ("in", 2, 1), ("link", 0, 0, 1), ("link", 0, 0, 2))
FITS = (("in", 0, 0), ("in", 1, 0), ("in", 2, 1), ("link", 0, 0, 2))
DIAMOND = (("link", 0, 0, 1), ("link", 0, 0, 2), ("link", 1, 1, 3), ("link", 1, 2, 3))
ONE_LINK = (("link", 0, 0, 1),)
MERGED = (("same", 0, 1),)

# Document 01's examples about rules, and some more that are found by hand: counts, statements, rule, findings.
EXAMPLES = (
    (Counts(0, 0, 1), (), ("ref", 0, 0), []),
    (Counts(1, 0, 1), (), ("ref", 0, 0), [(0, NO_ITEM)]),
    (Counts(3, 2, 1), PARTS, ("sub", NAME_0, ("at least", 2, 0, 0, NAME_1)), []),
    (Counts(3, 2, 1), (*PARTS, ("same", 1, 2)), ("sub", NAME_0, ("at least", 2, 0, 0, NAME_1)), [(0, NO_ITEM)]),
    (Counts(3, 2, 1), FITS, ("sub", NAME_0, ("at least", 1, 0, 0, NAME_1)), [(1, NO_ITEM)]),
    (Counts(3, 2, 1), FITS, ("irr", 0, 0), []),
    (Counts(3, 2, 1), (*FITS, *MERGED), ("sub", NAME_0, ("at least", 1, 0, 0, NAME_1)), []),
    (Counts(3, 2, 1), FITS, ("sub", NAME_1, ("not", ("at least", 1, 0, 1, TOP))), [(2, NO_ITEM)]),
    (Counts(2, 0, 0), (), ("sub", TOP, TOP), []),
    (Counts(2, 0, 0), (), ("sub", TOP, BOT), [(0, NO_ITEM), (1, NO_ITEM)]),
    (Counts(2, 0, 1), ONE_LINK, ("rel", 0, 0, 0, 1), []),
    (Counts(2, 0, 1), ONE_LINK, ("rel", 0, 0, 1, 0), [(1, 0)]),
    (Counts(2, 0, 1), ONE_LINK, ("rel", 0, 1, 1, 0), []),
    (Counts(2, 0, 1), ONE_LINK, ("rel", 0, 1, 0, 1), [(0, 1)]),
    (Counts(2, 0, 1), ONE_LINK, ("norel", 0, 1, 1, 0), [(1, 0)]),
    (Counts(2, 0, 2), ONE_LINK, ("rsub", 0, 1, 1, 0), [(1, 0)]),
    (Counts(2, 0, 1), (*ONE_LINK, ("link", 0, 1, 0)), ("dis", 0, 0, 0, 1), [(0, 1), (1, 0)]),
    (Counts(4, 0, 2), DIAMOND, ("chain", 2, 0, 0, 1, 0, 0, 0, 0, 0, 0, 0), [(0, 3)]),
    (Counts(4, 0, 2), DIAMOND, ("chain", 2, 1, 1, 0, 1, 0, 0, 0, 0, 0, 1), [(3, 0)]),
    (Counts(4, 0, 2), DIAMOND, ("chain", 3, 0, 0, 1, 0, 1, 1, 0, 0, 0, 0), []),
    (Counts(2, 0, 0), (), ("same", 1, 0), [(1, 0)]),
    (Counts(2, 0, 0), MERGED, ("same", 1, 0), []),
    (Counts(2, 0, 0), MERGED, ("differ", 1, 0), [(1, 0)]),
    (Counts(1, 0, 0), (), ("differ", 0, 0), [(0, 0)]),
    (Counts(2, 0, 0), (), ("in", ("one", 0), 1), [(1, NO_ITEM)]),
    (Counts(2, 0, 0), MERGED, ("in", ("one", 0), 1), []),
)


# The examples: the oracle has to give the findings too.
def examples(commands, seed):
    for number, (counts, statements, rule, due) in enumerate(EXAMPLES):
        rng = commands.part(seed, "example", number)
        words = tuple(oracle.words_of(filled(counts, statements)))
        commands.load(words)
        rule_words = lay_out(rng, rule).words(rng)
        require(oracle_rules.answer(words, counts, rule_words) == (len(due), due), f"the oracle fails example {number}")
        commands.ask_with(counts, rule_words, all_rooms)


# --- Malformed rules ---


# A draft of a rule with expressions, drawn until something holds of it.
def draft_with(drawer, wanted):
    while True:
        draft = drawer.draft_with_expressions()
        if wanted(draft):
            return draft


# Rules without expressions of an unknown kind, and rules with a node of an unknown kind in the place of one that uses none.
def with_unknown_kind(drawer):
    for number in unknown_kinds(RULE_FIELDS):
        draft = drawer.draft(drawer.rng.choice([kind for kind in RULE_FIELDS if "node" not in RULE_FIELDS[kind]]), 0)
        draft.head[0] = number
        yield draft
    for number in unknown_kinds(NODE_FIELDS):
        draft = drawer.draft_with_expressions()
        drawer.rng.choice([node for node in draft.nodes if "node" not in NODE_FIELDS[node[0]]])[0] = number
        yield draft


# Rules that have 32 nodes, all in order, and say that they have more.
def saying_too_many(drawer):
    for count in (33, 34, 64, 255, 256 + 32, 2**32 + 32, 2**63, 2**64 - 1):
        draft = drawer.draft(drawer.rng.choice(("sub", "in")), NODE_LIMIT)
        draft.count = count
        yield draft


# Rules with one wrong count.
def with_wrong_count(drawer):
    for count in (0, 9, 10, 255, 256, 257, 2**32 + 1, 2**63, 2**64 - 1):
        draft = draft_with(drawer, lambda drawn: drawn.places("count"))
        part, at = drawer.rng.choice(draft.places("count"))
        part[at] = count
        yield draft


# Chains of a wrong length.
def with_wrong_length(drawer):
    for length in (0, 1, 5, 6, 255, 256 + 2, 2**32 + 3, 2**63, 2**64 - 1):
        draft = drawer.draft("chain", 0)
        draft.head[1] = length
        yield draft


# Rules without their last node, and the place that used it: in the head if `by_head`, else in a node.
def without_last(drawer, by_head):
    while True:
        draft = drawer.draft_with_expressions()
        part, at = draft.drop_last()
        if (part is draft.head) == by_head:
            return draft, part, at


# Rules with one use, by the head or by a node, of a node that is not there; all others are in order.
def with_use_of_nothing(drawer):
    for by_head in (False, True):
        for more in (0, 1, 2, 32, 256, 2**32, 2**63, NO_ITEM):
            draft, part, at = without_last(drawer, by_head)
            part[at] = min(len(draft.nodes) + more, NO_ITEM)
            yield draft


# Ways to use a node a second time; each is asked of a draft, the user (None for the head) and the node.
SECOND_USES = (
    lambda draft, user, node: user is not None and node > user and node not in draft.roots(),
    lambda draft, user, node: user is not None and node < user and node not in draft.roots(),
    lambda draft, user, node: user is not None and node == user,
    lambda draft, user, node: user is not None and node > user and node in draft.roots(),
    lambda draft, user, node: user is not None and node < user and node in draft.roots(),
    lambda draft, user, node: user is None and node in draft.roots(),
    lambda draft, user, node: user is None and node not in draft.roots(),
)


# Rules with one node used twice: by an earlier, by a later node or by itself, as a root and as a
# child, or as both roots; every other node is used as it should be.
def with_second_use(drawer):
    for fits in SECOND_USES:
        found = []
        while not found:
            draft, part, at = without_last(drawer, drawer.rng.random() < 0.5)
            user = draft.number_of(part)
            found = [node for node in range(len(draft.nodes)) if fits(draft, user, node)]
        part[at] = drawer.rng.choice(found)
        yield draft


# Rules in which a node is used once, but by a later one.
def with_later_user(drawer):
    for _ in range(3):
        draft = draft_with(drawer, lambda drawn: len(drawn.places("node")) > len(drawn.roots()))
        part, at = drawer.rng.choice([place for place in draft.places("node") if place[0] is not draft.head])
        draft.exchange(draft.number_of(part), part[at])
        yield draft


# Rules of every kind, also those without expressions, with nodes that nothing uses.
def with_unused(drawer):
    for kind in RULE_FIELDS:
        unused = drawer.expression(drawer.rng.choice((1, 1, 2, 3)))
        yield lay_out(drawer.rng, drawer.rule(kind, drawer.rng.choice((2, 4, 29))), (unused,))


# Rules of every kind with a node that only itself uses, or with two that only use each other.
def with_circle(drawer):
    for kind in RULE_FIELDS:
        draft = drawer.draft(kind, drawer.rng.choice((2, 4, 30)))
        new = len(draft.nodes)
        draft.nodes += drawer.rng.choice(([["not", new]], [["at least", 1, 0, 0, new]], [["not", new + 1], ["not", new]]))
        yield draft


# Each way of being malformed, and what makes rules that are malformed in that way only.
MALFORMED = (
    (oracle_rules.unknown_kind, with_unknown_kind),
    (oracle_rules.too_many_nodes, saying_too_many),
    (oracle_rules.count_outside, with_wrong_count),
    (oracle_rules.chain_outside, with_wrong_length),
    (oracle_rules.use_not_there, with_use_of_nothing),
    (oracle_rules.node_not_used_once, with_second_use),
    (oracle_rules.node_not_used_once, with_later_user),
    (oracle_rules.node_not_used_once, with_unused),
    (oracle_rules.node_not_used_once, with_circle),
)


# Puts a number that is never declared into some places of a draft for an item, a concept or a role.
def spoil_numbers(rng, draft):
    places = [place for what in NUMBER_FIELDS for place in draft.places(what)]
    for part, at in rng.sample(places, min(len(places), rng.randint(1, 3))):
        part[at] = rng.choice((*HUGE, 128))


# Malformed rules: 3, whether or not all their numbers are declared.
def malformed_rules(commands, seed, rounds):
    choices = (Counts(2, 1, 1), Counts(4, 3, 2), Counts(7, 5, 5), Counts(66, 9, 4))
    for rng, counts in drawn_rounds(commands, seed, "malformed", rounds, choices):
        for fault, drafts in MALFORMED:
            for draft in drafts(RuleDrawer(rng, counts)):
                words = draft.words(rng)
                require(oracle_rules.faults(oracle_rules.read_rule(words)) == [fault], f"not only {fault.__name__}")
                refused_as_malformed(commands, rng, counts, words)
                spoil_numbers(rng, draft)
                refused_as_malformed(commands, rng, counts, draft.words(rng))
        without_expressions(commands, rng, counts)


# Rules that are in order but for their length: 3.
def other_lengths(commands, seed, rounds):
    choices = (Counts(2, 1, 1), Counts(4, 3, 2), Counts(6, 4, 3))
    for rng, counts in drawn_rounds(commands, seed, "other-length", rounds, choices):
        for kind in RULE_FIELDS:
            words = RuleDrawer(rng, counts).draft(kind, 3).words(rng)
            for length in WRONG_RULE_LENGTHS:
                refused_as_malformed(commands, rng, counts, (words * 2)[:length])


# A rule that is malformed: 3.
def refused_as_malformed(commands, rng, counts, rule_words):
    result = commands.ask(rng, counts, rule_words)
    require(result == oracle_rules.REFUSED_MALFORMED, "the oracle takes a malformed rule")


# Rules without expressions that say they have very many nodes.
def without_expressions(commands, rng, counts):
    for kind in ("rsub", "chain", "ref", "same", "differ"):
        draft = RuleDrawer(rng, counts).draft(kind, 0)
        draft.count = rng.choice((1, 32, 33, 2**32, 2**64 - 1))
        refused_as_malformed(commands, rng, counts, draft.words(rng))


# --- Numbers that are not declared ---


# Every number of a rule in turn at or above its count; the others stay as they are.
def undeclared_numbers(commands, seed):
    for number, counts in enumerate((Counts(0, 0, 0), Counts(3, 2, 2), Counts(5, 4, 3), Counts(70, 9, 5), LIMITS)):
        rng = commands.part(seed, "undeclared", number)
        commands.load(draw_words(rng, counts))
        for kind in RULE_FIELDS:
            draft = RuleDrawer(rng, counts).draft(kind, 10)
            commands.ask(rng, counts, draft.words(rng))
            for what, count in zip(NUMBER_FIELDS, counts):
                for place in draft.places(what):
                    undeclared_at(commands, rng, counts, draft, place, count)


# One number of a draft changed to its count and to some others, and back.
def undeclared_at(commands, rng, counts, draft, place, count):
    part, at = place
    right = part[at]
    for wrong in (count, *rng.sample(wrong_numbers_for(right, counts), 2)):
        part[at] = wrong
        commands.ask(rng, counts, draft.words(rng))
    part[at] = right


# Nodes that no rule may have, to be put after those that a rule says it has.
BAD_NODES = [["name", 2**64 - 1], ["at least", 9, 16, 1, 0], ["not", 0], ["one", 128], ["self", 99, 0],
             ["and", 0, 0], ["at least", 0, 2**63, 0, 33], ["name", 32], ["not", 40], [7, 0], [2**64 - 1]]


# What lies past a chain's path and past the last node is not asked for.
def numbers_not_asked(commands, seed, rounds):
    choices = (Counts(2, 1, 1), Counts(4, 3, 2), Counts(6, 4, 3))
    for rng, counts in drawn_rounds(commands, seed, "not-asked", rounds, choices):
        for kind in RULE_FIELDS:
            draft = RuleDrawer(rng, counts).draft(kind, 4)
            draft.count = len(draft.nodes)
            draft.nodes += rng.sample(BAD_NODES, len(BAD_NODES))
            accepted(commands, rng, counts, draft)
        for length in (2, 3):
            draft = RuleDrawer(rng, counts).draft("chain", 0)
            draft.head[1] = length
            for slot in range(length, 4):
                draft.head[2 + 2 * slot] = rng.choice((counts.roles, *HUGE))
            accepted(commands, rng, counts, draft)


# A rule that is not refused.
def accepted(commands, rng, counts, draft):
    require(commands.ask(rng, counts, draft.words(rng)) >= 0, "the oracle asks for numbers that do not count")


# --- More than one refusal ---


# Words of a rule: malformed or not, with a number that is not declared or not.
def bad_words(rng, drawer, malformed, undeclared):
    draft = draft_with(drawer, lambda drawn: drawn.places("item") + drawn.places("role"))
    if malformed:
        _, drafts = rng.choice(MALFORMED)
        draft = rng.choice(list(drafts(drawer)))
    if undeclared:
        spoil_numbers(rng, draft)
    return draft.words(rng)


# Every set of things that can be wrong, with the lowest number that applies.
def orders(commands, seed, rounds):
    for number in range(rounds):
        rng = commands.part(seed, "order", number)
        for choice in range(32):
            wrong = [choice >> place & 1 == 1 for place in range(5)]
            due = max((refusal for refusal, is_wrong in zip((-3, -1, -2, -3, -4), wrong) if is_wrong), default=0)
            result = all_wrong(commands, rng, *wrong)
            require(min(result, 0) == due, "the oracle gives another refusal first")


# One call in which the things told are wrong.
def all_wrong(commands, rng, rule_length, size, not_closed, malformed, undeclared):
    counts = rng.choice((Counts(2, 1, 1), Counts(4, 3, 2), Counts(6, 4, 3)))
    words = draw_words(rng, counts)
    rule_words = bad_words(rng, RuleDrawer(rng, counts), malformed, undeclared)
    if rule_length:
        rule_words = (rule_words * 2)[:rng.choice(WRONG_RULE_LENGTHS)]
    if not_closed:
        words = damaged(rng, words, counts)
    if size:
        words, counts = of_wrong_size(rng, words, counts)
    commands.load(words)
    return commands.ask(rng, counts, rule_words)


# The words in a wrong number, or a count over its limit.
def of_wrong_size(rng, words, counts):
    if rng.random() < 0.5:
        return (words * 2)[:rng.choice(WRONG_LENGTHS)], counts
    which = rng.randrange(3)
    over = rng.choice((LIMITS[which] + 1, 2 * LIMITS[which], *HUGE))
    return words, counts._replace(**{Counts._fields[which]: over})


# Stores that are not closed are refused with 2, whatever the rule is.
def damaged_stores(commands, seed, rounds):
    for number in range(rounds):
        rng = commands.part(seed, "damaged", number)
        counts = rng.choice((Counts(1, 1, 1), Counts(3, 2, 2), Counts(6, 4, 3), Counts(65, 5, 3)))
        commands.load(damaged(rng, draw_words(rng, counts), counts))
        for malformed, undeclared in ((False, False), (True, False), (False, True)):
            words = bad_words(rng, RuleDrawer(rng, counts), malformed, undeclared)
            result = commands.ask(rng, counts, words)
            require(result == oracle.REFUSED_NOT_CLOSED, "the oracle takes a damaged store as closed")


# The whole test.
def write_all(commands, seed, rules, rounds):
    examples(commands, seed)
    out_lists(commands, seed, rounds)
    malformed_rules(commands, seed, rounds)
    other_lengths(commands, seed, rounds)
    undeclared_numbers(commands, seed)
    numbers_not_asked(commands, seed, rounds)
    orders(commands, seed, rounds)
    damaged_stores(commands, seed, 2 * rounds)
    full_rules(commands, seed, 4 * rounds)
    full_stores(commands, seed)
    last_numbers(commands, seed, rounds)
    for number in range(rules // RULES_A_STORE):
        drawn_rules(commands, seed, number)
