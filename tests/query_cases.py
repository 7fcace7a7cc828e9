"""The cases that compiled queries are tested with, written as commands for tests/query_driver.c.

Every call goes through the oracle first, which says what result and which words are
due. Rules are drawn, laid out and spoiled as in tests/rule_cases.py. For rules over
small stores the oracle's query is also answered by trying every item for every
variable, and the answers have to be the rule's findings; as the driver compares word
for word, that then holds of the library's query too.
"""

from collections import Counter, namedtuple

import oracle
import oracle_queries
import oracle_rules
import rule_cases
import size_cases
import size_rules
from oracle import LIMITS, Counts
from oracle_queries import (CLOSE_NOT, CONCEPT, EQUALITY, ITEM_WORDS, MOST_ITEMS, OPEN_NOT, REFUSED_ROOM,
                            REFUSED_TOO_LONG, ROLE, Query)
from oracle_rules import NODE_FIELDS, NODE_LIMIT, RULE_FIELDS, RULE_WORDS
from rule_cases import (HUGE, NAME_0, NAME_1, RULES_A_STORE, TOP, WRONG_RULE_LENGTHS, RuleDrawer, lay_out,
                        listed, nest, require, spoil_numbers)

MOST_STEPS = 20000   # for the answers to one query
MOST_ROOM = ITEM_WORDS * MOST_ITEMS
RESULTS = (0, -1, -3, -4, -5, -6)

Call = namedtuple("Call", "counts rule_words room")


# --- Commands ---


class Commands(rule_cases.Commands):
    """Writes commands, and keeps each call so that a difference can be shown."""

    # Nothing written yet; `write` takes the text.
    def __init__(self, write):
        super().__init__(write)
        self.lengths = Counter()
        self.kinds = Counter()
        self.answered = Counter()
        self.given_up = 0

    # Keeps the words of a store, which the driver has no use for.
    def load(self, words):
        self.words = tuple(words)

    # Asks for the query of a rule, with one room; gives what the rule is refused by, or how long its query is.
    def ask(self, rng, counts, rule_words):
        return self.ask_with(counts, rule_words, lambda enough: [draw_room(rng, enough)])

    # Asks for the query of a rule, once for each length of room that `rooms` gives.
    def ask_with(self, counts, rule_words, rooms):
        refusal, length, query = compiled(counts, rule_words)
        lengths = rooms(ITEM_WORDS * min(length, MOST_ITEMS + 1))
        results = [refusal or oracle_queries.result_of(length, query.answers, room) for room in lengths]
        words = [word for item in query.items for word in item]
        self.write(f"rule {listed(rule_words)}\n")
        self.write(f"call {numbers(counts)} {numbers((len(words), *words))} "
                   f"{numbers((len(lengths), *(number for pair in zip(lengths, results) for number in pair)))}\n")
        self.calls += [Call(counts, rule_words, room) for room in lengths]
        self.rules += 1
        self.other_lengths += len(rule_words) != RULE_WORDS
        self.results.update(min(result, 0) for result in results)
        if not refusal:
            self.note(rule_words, length)
        return refusal or length

    # Counts what has been compiled.
    def note(self, rule_words, length):
        rule = oracle_rules.read_rule(rule_words)
        self.lengths[length] += 1
        self.kinds.update([rule.head.kind, *(node.kind for node in rule.nodes)] if length <= MOST_ITEMS else [])


# Numbers as text.
def numbers(row):
    return " ".join(str(number) for number in row)


# What is due for a rule: what it is refused by or 0, how long its query is, and the query unless it is too long.
def compiled(counts, rule_words):
    refusal = oracle_queries.rule_refusal(counts, rule_words)
    if refusal:
        return refusal, 0, Query((), 0)
    rule = oracle_rules.read_rule(rule_words)
    length = oracle_queries.query_length(rule)
    if length > MOST_ITEMS:
        return 0, length, Query((), 0)
    query = oracle_queries.query_of(rule)
    require(len(query.items) == length, "the oracle's query has another length than its rule")
    return 0, length, query


# The length of a room where so many words are enough: mostly enough, now and then too short.
def draw_room(rng, enough):
    short = max(enough - rng.choice((1, 2, 3, 4, 5, enough)), 0)
    return rng.choice((short, rng.randint(0, enough), enough, enough, enough, enough + 1, enough + 3, enough + 4,
                       enough + 64, MOST_ROOM, MOST_ROOM + 9))


# Lengths of rooms where so many words are enough: none, a quarter, a little too short, exactly enough, more.
def all_rooms(enough):
    return sorted({0, 1, 3, 4, enough // 4, max(enough - 4, 0), max(enough - 1, 0), enough, enough + 1, enough + 2,
                   enough + 4, enough + 64, MOST_ROOM - 1, MOST_ROOM, MOST_ROOM + 1, 2 * MOST_ROOM})


# The length of the query of a rule that is drawn as a tuple, however long it is.
def length_of(rng, rule):
    return oracle_queries.query_length(oracle_rules.read_rule(lay_out(rng, rule).words(rng)))


# The nodes of a rule that is drawn as a tuple.
def node_count(rng, rule):
    return len(lay_out(rng, rule).nodes)


# --- Examples ---

IN_NOT, NOT_ENDS = (OPEN_NOT, 0, 0, 0), (CLOSE_NOT, 0, 0, 0)
A, B = 4096, 4097  # the terms of items 0 and 1
NAMED = Counts(2, 2, 3)


# What is inside a not.
def negated(*items):
    return (IN_NOT, *items, NOT_ENDS)


# Rules and their queries, written by hand from document 01.
EXAMPLES = (
    (("sub", NAME_0, ("at least", 1, 0, 0, NAME_1)), 1,
     ((CONCEPT, 0, 0, 0), *negated((ROLE, 0, 0, 1), (CONCEPT, 1, 1, 0)))),
    (("sub", TOP, TOP), 1, negated()),
    (("sub", TOP, ("not", TOP)), 1, negated(*negated())),
    (("sub", ("at least", 2, 0, 0, NAME_1), TOP), 1,
     ((ROLE, 0, 0, 1), (CONCEPT, 1, 1, 0), (ROLE, 0, 0, 2), (CONCEPT, 1, 2, 0), *negated((EQUALITY, 0, 1, 2)),
      *negated())),
    (("in", ("at least", 2, 0, 0, NAME_1), 1), 0,
     negated((ROLE, 0, B, 0), (CONCEPT, 1, 0, 0), (ROLE, 0, B, 1), (CONCEPT, 1, 1, 0), *negated((EQUALITY, 0, 0, 1)))),
    (("in", ("at least", 3, 1, 1, TOP), 0), 0,
     negated((ROLE, 1, 0, A), (ROLE, 1, 1, A), (ROLE, 1, 2, A), *negated((EQUALITY, 0, 0, 1)),
             *negated((EQUALITY, 0, 0, 2)), *negated((EQUALITY, 0, 1, 2)))),
    (("sub", ("at least", 2, 0, 0, ("at least", 1, 1, 1, NAME_0)), NAME_1), 1,
     ((ROLE, 0, 0, 1), (ROLE, 1, 2, 1), (CONCEPT, 0, 2, 0), (ROLE, 0, 0, 3), (ROLE, 1, 4, 3), (CONCEPT, 0, 4, 0),
      *negated((EQUALITY, 0, 1, 3)), *negated((CONCEPT, 1, 0, 0)))),
    (("sub", ("and", NAME_0, ("one", 1)), ("and", ("self", 2, 1), ("not", NAME_1))), 1,
     ((CONCEPT, 0, 0, 0), (EQUALITY, 0, 0, B), *negated((ROLE, 2, 0, 0), *negated((CONCEPT, 1, 0, 0))))),
    (("in", ("one", 1), 0), 0, negated((EQUALITY, 0, A, B))),
    (("in", TOP, 0), 0, negated()),
    (("rsub", 0, 0, 1, 1), 2, ((ROLE, 0, 0, 1), *negated((ROLE, 1, 1, 0)))),
    (("chain", 2, 0, 0, 1, 0, 9, 9, 9, 9, 2, 0), 2, ((ROLE, 0, 0, 2), (ROLE, 1, 2, 1), *negated((ROLE, 2, 0, 1)))),
    (("chain", 3, 0, 1, 1, 0, 2, 1, 9, 9, 0, 1), 2,
     ((ROLE, 0, 2, 0), (ROLE, 1, 2, 3), (ROLE, 2, 1, 3), *negated((ROLE, 0, 1, 0)))),
    (("chain", 4, 0, 0, 0, 1, 0, 0, 1, 1, 2, 1), 2,
     ((ROLE, 0, 0, 2), (ROLE, 0, 3, 2), (ROLE, 0, 3, 4), (ROLE, 1, 1, 4), *negated((ROLE, 2, 1, 0)))),
    (("ref", 1, 0), 1, negated((ROLE, 1, 0, 0))),
    (("irr", 2, 1), 1, ((ROLE, 2, 0, 0),)),
    (("dis", 2, 1, 0, 0), 2, ((ROLE, 2, 1, 0), (ROLE, 0, 0, 1))),
    (("rel", 1, 0, 0, 1), 0, negated((ROLE, 1, A, B))),
    (("rel", 1, 1, 0, 1), 0, negated((ROLE, 1, B, A))),
    (("norel", 2, 1, 1, 0), 0, ((ROLE, 2, A, B),)),
    (("same", 1, 0), 0, negated((EQUALITY, 0, B, A))),
    (("differ", 0, 1), 0, ((EQUALITY, 0, A, B),)),
)

EIGHT_OF_EIGHT = nest(2, 8, 0, NAME_0)
LEFT_98 = ("and", ("at least", 8, 0, 0, TOP), ("and", ("not", ("not", NAME_0)), NAME_1))
RIGHT_412 = ("at least", 8, 0, 0, ("at least", 5, 1, 0, NAME_0))

# Rules and the lengths that document 01 gives for their queries, or that follow from its lengths.
EXAMPLE_LENGTHS = (
    (("sub", NAME_0, ("at least", 1, 0, 0, NAME_1)), 5),
    (("sub", TOP, ("at least", 2, 0, 0, NAME_1)), 2 + 7),
    (("sub", TOP, ("at least", 3, 0, 0, NAME_1)), 2 + 15),
    (("in", EIGHT_OF_EIGHT, 0), 2 + 892),
    (("sub", EIGHT_OF_EIGHT, TOP), 892 + 2),
    (("sub", TOP, EIGHT_OF_EIGHT), 2 + 892),
    (("sub", LEFT_98, RIGHT_412), 98 + 2 + 412),
    (("sub", RIGHT_412, LEFT_98), 412 + 2 + 98),
    (("sub", ("and", LEFT_98, NAME_0), RIGHT_412), 513),
    (("sub", LEFT_98, ("and", NAME_1, RIGHT_412)), 513),
)


# The examples: the oracle has to give the queries and lengths too.
def examples(commands, seed):
    for number, (rule, answers, items) in enumerate(EXAMPLES):
        rng = commands.part(seed, "example", number)
        words = lay_out(rng, rule).words(rng)
        require(compiled(NAMED, words)[2] == Query(items, answers), f"the oracle fails example {number}")
        commands.ask_with(NAMED, words, all_rooms)
    for number, (rule, length) in enumerate(EXAMPLE_LENGTHS):
        rng = commands.part(seed, "example-length", number)
        words = lay_out(rng, rule).words(rng)
        require(commands.ask_with(NAMED, words, all_rooms) == length, f"the oracle fails example length {number}")


# --- Rules drawn, over stores and without ---


# The answers to a rule's query have to be its findings, if they can be found in so many steps.
def answered(commands, cells, rule):
    query = oracle_queries.query_of(rule)
    due = oracle_queries.answers_due(query, oracle_rules.findings(cells, rule))
    try:
        answers = oracle_queries.Answering(cells, MOST_STEPS).answers(query)
    except oracle_queries.TooLong:
        commands.given_up += 1
        return
    require(answers == due, f"the oracle's query does not say what its rule does: {rule}, {query}, "
                            f"answers {answers}, findings {due}")
    commands.answered[rule.head.kind] += 1
    commands.findings += len(due)


# The words of a rule of any kind, few of them far too long.
def draw_rule(rng, counts):
    for _ in range(4):
        words = RuleDrawer(rng, counts).any_words()
        if compiled(counts, words)[1] <= MOST_ITEMS:
            break
    return words


# The counts and cells of a store of at most four items, and rules of every kind over it.
def draw_small(rng):
    counts = Counts(rng.choice((0, 1, 2, 2, 3, 3, 4)), rng.randint(0, 3), rng.choice((0, 1, 1, 2, 2)))
    cells = rule_cases.draw_cells(rng, counts)
    return counts, cells, [draw_rule(rng, counts) for _ in range(RULES_A_STORE)]


# Those of some rules whose queries can be written.
def written(counts, rules):
    judged = [(words, *compiled(counts, words)[:2]) for words in rules]
    return [oracle_rules.read_rule(words) for words, refusal, length in judged if not refusal and length <= MOST_ITEMS]


# Rules of every kind over one small store, their queries answered.
def answered_rules(commands, seed, number):
    rng = commands.part(seed, "answered", number)
    counts, cells, rules = draw_small(rng)
    for words in rules:
        commands.ask(rng, counts, words)
    for rule in written(counts, rules):
        answered(commands, cells, rule)


# Rules of every kind over any counts.
def drawn_rules(commands, seed, number):
    rng = commands.part(seed, "drawn", number)
    counts = rule_cases.draw_counts(rng)
    for _ in range(RULES_A_STORE):
        commands.ask(rng, rule_cases.counts_of_call(rng, counts), draw_rule(rng, counts))


# Every kind of rule with rooms of many lengths.
def rooms(commands, seed, rounds):
    for number in range(rounds):
        rng = commands.part(seed, "room", number)
        counts = rng.choice((NAMED, Counts(6, 3, 3), LIMITS))
        for kind in RULE_FIELDS:
            words = RuleDrawer(rng, counts).draft(kind, rng.choice((2, 3, 5, 9))).words(rng)
            commands.ask_with(counts, words, all_rooms)


# Rules about the last numbers that can be declared, in a smaller and in a larger store.
def last_numbers(commands, seed):
    rng = commands.part(seed, "last-numbers", 0)
    for limits, rules in ((LIMITS, rule_cases.LAST_NUMBERS_RULES), (oracle_queries.LIMITS, size_rules.LAST_NUMBERS_RULES)):
        for rule in rules:
            require(commands.ask_with(limits, lay_out(rng, rule).words(rng), all_rooms) > 0, "the last numbers are refused")


# Counts at their limits, which stand, and past them, for a rule that names nothing.
def count_limits(commands, seed):
    rng = commands.part(seed, "count-limit", 0)
    words = lay_out(rng, ("sub", TOP, TOP)).words(rng)
    for limits in (LIMITS, oracle_queries.LIMITS):
        require(commands.ask(rng, limits, words) == 2, "the limits are refused")
        for which, limit in zip(Counts._fields, oracle_queries.LIMITS):
            for over in (limit + 1, 2 * limit, limit + 256, 2**32 + limit, *HUGE):
                for counts in (Counts(0, 0, 0), limits):
                    result = commands.ask(rng, counts._replace(**{which: over}), words)
                    require(result == oracle.REFUSED_SIZE, "a count over its limit is taken")


# Numbers of items from 129 to 512, and terms of their items on both sides of each border between words.
def many_items(commands, seed):
    for number, items in enumerate(size_cases.BORDER_COUNTS):
        rng = commands.part(seed, "many-items", number)
        counts = Counts(items, 2, 2)
        near = [item for item in size_cases.BORDERS if item < items] + [items - 1, items]
        for item in rng.sample(near, 4) + [items - 1, items]:
            for rule in (("same", item, 0), ("rel", 0, 1, 0, item), ("in", ("one", item), item), ("sub", TOP, ("one", item))):
                result = commands.ask(rng, counts, lay_out(rng, rule).words(rng))
                require((result > 0) == (item < items), "an item is refused otherwise")


# --- Lengths at the limit and far past it ---


class LongDrawer(RuleDrawer):
    """Draws rules that have many at leasts of high counts, one around the other."""

    # Makes at leasts frequent.
    def __init__(self, rng, counts):
        super().__init__(rng, counts)
        self.at_least = 8
        self.not_and = (1, 2)

    # The words of a field that is no expression.
    def field(self, what):
        return [self.rng.choice((2, 3, 5, 6, 7, 7, 8, 8))] if what == "count" else super().field(what)

    # A draft of a rule whose query is too long.
    def draft_with_expressions(self):
        while True:
            draft = self.draft(self.rng.choice(("sub", "in")), self.rng.choice((6, 9, 16, 31, NODE_LIMIT)))
            rule = oracle_rules.read_rule(draft.words(self.rng))
            if oracle_queries.query_length(rule) > MOST_ITEMS:
                return draft


# A rule that is a little longer by so many items: a not around an expression is two more, a name one.
def padded(rng, rule, missing):
    kind, first, *second = rule
    if missing == 0:
        return rule
    if missing == 1:
        return (kind, ("and", first, NAME_0) if rng.random() < 0.5 else ("and", NAME_0, first), *second)
    if kind == "sub" and rng.random() < 0.5:
        return padded(rng, (kind, first, ("not", *second)), missing - 2)
    return padded(rng, (kind, ("not", first), *second), missing - 2)


# A rule whose query has exactly so many items.
def draw_of_length(rng, counts, length):
    while True:
        drawer = LongDrawer(rng, counts)
        rule = drawer.rule(rng.choice(("sub", "sub", "in")), rng.choice((4, 6, 8, 10, 14)))
        missing = length - length_of(rng, rule)
        if 0 <= missing <= 20 and node_count(rng, padded(rng, rule, missing)) <= NODE_LIMIT:
            return padded(rng, rule, missing)


# Rules whose queries have just about 512 items.
def limit_lengths(commands, seed, rounds):
    for number in range(rounds):
        rng = commands.part(seed, "limit-length", number)
        counts = rng.choice((NAMED, Counts(5, 3, 2), LIMITS))
        for length in (510, 511, 512, 513, 514):
            words = lay_out(rng, draw_of_length(rng, counts, length)).words(rng)
            require(commands.ask_with(counts, words, all_rooms) == length, "a rule of another length")


# So many at leasts 8 around a last expression, then an at least 7: in numbers of few bits that is 22 below 0.
def below_zero(depth, last):
    return ("at least", 7, 0, 0, nest(depth, 8, 1, last))


# Rules whose lengths are small once they are cut to 16, 32 or 64 bits.
def cut_lengths(commands, seed):
    for number, (width, depth) in enumerate(((16, 6), (32, 11), (64, 22))):
        rng = commands.part(seed, "cut-length", number)
        for more in (("at least", 4, 0, 0, NAME_0), ("at least", 8, 0, 0, TOP), ("at least", 5, 0, 0, ("not", NAME_0))):
            for rule in (("sub", below_zero(depth, TOP), more), ("sub", more, below_zero(depth, NAME_1)),
                         ("in", ("and", more, below_zero(depth, TOP)), 0)):
                words = lay_out(rng, rule).words(rng)
                length = commands.ask_with(NAMED, words, all_rooms)
                require(length % 2**width <= MOST_ITEMS < length and length >= 2**width, "no length that is cut")


# Nests of every depth: of at least 1, whose queries are short, and of higher counts, whose lengths pass 2^64.
def nests(commands, seed):
    rng = commands.part(seed, "nest", 0)
    for depth in range(1, NODE_LIMIT):
        for count in (1, 2, 8):
            commands.ask(rng, NAMED, lay_out(rng, ("in", nest(depth, count, 0, TOP), 1)).words(rng))
    for depth in range(1, NODE_LIMIT - 1):
        for rule in (("sub", nest(depth, 1, 0, NAME_0), NAME_1), ("sub", TOP, nest(depth, 8, 1, NAME_0)),
                     ("sub", nots(depth, NAME_0), NAME_1), ("sub", NAME_1, nots(depth, ("self", 0, 1)))):
            commands.ask(rng, NAMED, lay_out(rng, rule).words(rng))


# So many nots around an expression.
def nots(depth, last):
    for _ in range(depth):
        last = ("not", last)
    return last


# --- More than one refusal ---


# What makes malformed rules out of long ones as well as out of short ones.
MALFORMED_AT_ANY_LENGTH = (rule_cases.saying_too_many, rule_cases.with_wrong_count, rule_cases.with_later_user)


# Words of a rule: malformed or not, with a number that is not declared or not, too long or not.
def bad_words(rng, counts, malformed, undeclared, too_long):
    drawer = (LongDrawer if too_long else RuleDrawer)(rng, counts)
    draft = rule_cases.draft_with(drawer, lambda drawn: drawn.places("item") + drawn.places("role"))
    if malformed:
        draft = rng.choice(list(rng.choice(MALFORMED_AT_ANY_LENGTH)(drawer)))
    if undeclared:
        spoil_numbers(rng, draft)
    return draft.words(rng)


# One call in which the things told are wrong; gives its result.
def all_wrong(commands, rng, rule_length, size, malformed, undeclared, too_long, room):
    counts = rng.choice((Counts(2, 1, 1), Counts(4, 3, 2), Counts(6, 4, 3)))
    rule_words = bad_words(rng, counts, malformed, undeclared, too_long)
    if not (malformed or undeclared or too_long):
        rule_words = RuleDrawer(rng, counts).draft("chain", 0).words(rng)
    if rule_length:
        rule_words = (rule_words * 2)[:rng.choice(WRONG_RULE_LENGTHS)]
    if size:
        which = rng.randrange(3)
        limit = oracle_queries.LIMITS[which]
        counts = counts._replace(**{Counts._fields[which]: rng.choice((limit + 1, 2 * limit, *HUGE))})
    before = commands.results.copy()
    commands.ask_with(counts, rule_words, lambda enough: [rng.choice((0, 1, 3)) if room else MOST_ROOM + 64])
    result, = commands.results - before
    return result


# Every set of things that can be wrong, with the lowest number that applies.
def orders(commands, seed, rounds):
    for number in range(rounds):
        rng = commands.part(seed, "order", number)
        for choice in range(64):
            wrong = [choice >> place & 1 == 1 for place in range(6)]
            due = max((refusal for refusal, is_wrong in zip((-3, -1, -3, -4, REFUSED_TOO_LONG, REFUSED_ROOM), wrong)
                       if is_wrong), default=0)
            require(all_wrong(commands, rng, *wrong) == due, "the oracle gives another refusal first")


# --- The whole test ---


# Asks that everything that matters has come up.
def covered(commands):
    missing = [f"result {result}" for result in RESULTS if not commands.results[result]]
    missing += [f"length {length}" for length in (1, 511, 512, 513) if not commands.lengths[length]]
    missing += [kind for kind in (*RULE_FIELDS, *NODE_FIELDS) if not commands.kinds[kind]]
    missing += [f"{kind} answered" for kind in RULE_FIELDS if not commands.answered[kind]]
    missing += ["a length past 2^64"] * (max(commands.lengths) <= 2**64)
    require(not missing, f"the cases never have: {', '.join(missing)}")


# All parts.
def write_all(commands, seed, rules, rounds):
    examples(commands, seed)
    rooms(commands, seed, rounds)
    last_numbers(commands, seed)
    count_limits(commands, seed)
    many_items(commands, seed)
    limit_lengths(commands, seed, 2 * rounds)
    cut_lengths(commands, seed)
    nests(commands, seed)
    rule_cases.malformed_rules(commands, seed, rounds)
    rule_cases.other_lengths(commands, seed, rounds)
    rule_cases.undeclared_numbers(commands, seed)
    rule_cases.numbers_not_asked(commands, seed, rounds)
    orders(commands, seed, rounds)
    for number in range(rules // 2 // RULES_A_STORE):
        answered_rules(commands, seed, number)
        drawn_rules(commands, seed, number)
    covered(commands)
