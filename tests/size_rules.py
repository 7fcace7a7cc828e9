"""The cases for rules by number in the larger store, as commands for tests/rule_driver.c.

They come after those of tests/rule_cases.py, which are all about the smaller store. What
is due says the oracle (tests/oracle_rules.py); where a number can be found by hand, it
has to agree.
"""

import oracle
import oracle_rules
from oracle import LARGE, SIZES, SMALL, Counts
from oracle_rules import NO_ITEM, RULE_FIELDS
from rule_cases import EXAMPLES, RuleDrawer, all_rooms, lay_out, nest
from size_cases import BORDER_COUNTS, BORDERS, WRONG_LENGTHS, WideDrawer, words_in
from store_cases import HUGE, all_linked, filled, require


class WideRuleDrawer(WideDrawer, RuleDrawer):
    """Draws rules whose items are mostly at the borders of words."""


# Document 01's examples about rules in the larger store, and a few items in it.
def examples(commands, seed):
    for number, (counts, statements, rule, due) in enumerate(EXAMPLES):
        rng = commands.part(seed, "large-example", number)
        words = tuple(words_in(LARGE, filled(counts, statements)))
        commands.load(words)
        rule_words = lay_out(rng, rule).words(rng)
        require(oracle_rules.answer(words, counts, rule_words) == (len(due), due), f"the oracle fails example {number}")
        commands.ask_with(counts, rule_words, all_rooms)


# The cells of a closed store with links, members and merged items, mostly at the borders of words.
def draw_cells(rng, counts):
    drawer = WideDrawer(rng, counts)
    near = [number for number in (0, *BORDERS, counts.items - 1) if number < counts.items]
    items = near + rng.sample(range(counts.items), min(counts.items, 40))
    statements = [("same", rng.choice(near), rng.choice(items)) for _ in range(rng.choice((0, 3, 10)) if near else 0)]
    for _ in range(rng.choice((0, 1, 2))):
        statements += [drawer.of_kind("under"), drawer.of_kind("role_under")]
    statements += [("in", a, A) for a in items for A in range(counts.concepts) if rng.random() < 0.4]
    statements += [("link", R, rng.choice(items), rng.choice(items)) for R in range(counts.roles)
                   for _ in range(rng.choice((5, 40, 200)) if items else 0)]
    return filled(counts, statements)


# Rules of every kind over a store with so many items.
def drawn_rules(commands, seed, number):
    rng = commands.part(seed, "large-drawn", number)
    items = rng.choice((*BORDER_COUNTS, 200, 400, rng.randint(0, 128), rng.randint(129, 512)))
    counts = Counts(items, rng.choice((1, 2, 4)), rng.choice((1, 2, 3)))
    commands.load(words_in(LARGE, draw_cells(rng, counts)))
    for kind in rng.sample(list(RULE_FIELDS), 4):
        draft = WideRuleDrawer(rng, counts).draft(kind, rng.choice((2, 3, 4, 6)))
        commands.ask(rng, counts, draft.words(rng))


# At each border between words: a store of two items before and two after it that are linked in a ring, and what the
# kinds of rules find, by hand. The items: a, b before the border, c, d after it; r links a to c, c to b, b to d, d to a.
def borders(commands, seed):
    for number, border in enumerate(range(64, 512, 64)):
        rng = commands.part(seed, "large-border", number)
        for items in (border + 2, 512):
            a, b, c, d = border - 2, border - 1, border, border + 1
            ring = ((a, c), (c, b), (b, d), (d, a))
            counts = Counts(items, 2, 2)
            statements = [("link", 0, *pair) for pair in ring] + [("in", b, 0), ("in", c, 0), ("same", c, b)]
            commands.load(words_in(LARGE, filled(counts, statements)))
            linked = {(x2, y2) for x, y in ring for x2 in ((b, c) if x in (b, c) else (x,)) for y2 in ((b, c) if y in (b, c) else (y,))}
            for rule, due in border_rules(a, b, c, d, sorted(linked)):
                words = lay_out(rng, rule).words(rng)
                found = oracle_rules.answer(commands.words, counts, words)
                require(found == (len(due), due), f"the oracle finds otherwise at {border}: {rule} {found}")
                commands.ask(rng, counts, words)


# Rules about the items at a border, and their findings; b and c are the same and in concept 0.
def border_rules(a, b, c, d, linked):
    turned = sorted((y, x) for x, y in linked)
    return (
        (("rsub", 0, 0, 1, 0), linked),
        (("rsub", 0, 1, 1, 0), turned),
        (("dis", 0, 0, 0, 0), linked),
        (("dis", 0, 0, 0, 1), sorted(set(linked) & set(turned))),
        (("irr", 0, 0), [(b, NO_ITEM), (c, NO_ITEM)]),
        (("sub", ("name", 0), ("name", 1)), [(b, NO_ITEM), (c, NO_ITEM)]),
        (("sub", ("one", c), ("one", a)), [(b, NO_ITEM), (c, NO_ITEM)]),
        (("sub", ("at least", 1, 0, 0, ("one", d)), ("name", 1)), [(b, NO_ITEM), (c, NO_ITEM)]),
        (("sub", ("at least", 2, 0, 0, ("top",)), ("name", 1)), [(b, NO_ITEM), (c, NO_ITEM)]),
        (("sub", ("at least", 3, 0, 0, ("top",)), ("name", 1)), []),
        (("sub", ("at least", 2, 0, 1, ("top",)), ("name", 1)), [(b, NO_ITEM), (c, NO_ITEM)]),
        (("chain", 2, 0, 0, 0, 0, 0, 0, 0, 0, 1, 0), sorted({(x, z) for x, y in linked for y2, z in linked if y == y2})),
        (("rel", 0, 0, c, a), [(c, a)]),
        (("norel", 0, 1, c, a), [(c, a)]),
        (("same", b, d), [(b, d)]),
        (("differ", c, b), [(c, b)]),
        (("in", ("name", 1), d), [(d, NO_ITEM)]),
    )


# Articles that have items in more than one word: item 0 is linked to both sides of every border; each merge of the two
# sides, and then of two borders, makes one article less.
def articles(commands, seed):
    rng = commands.part(seed, "large-articles", 0)
    counts = Counts(512, 0, 1)
    near = (62, 63, 64, 65, 447, 448, 510, 511)
    statements = [("link", 0, 0, b) for b in near]
    merges = ((63, 64), (447, 448), (62, 510), (511, 65), (64, 448), (510, 511), (63, 511))
    for left in range(8, 0, -1):
        commands.load(words_in(LARGE, filled(counts, statements)))
        for n in (left, left + 1):
            if n <= 8:
                rule = ("sub", ("one", 0), ("at least", n, 0, 0, ("top",)))
                result = commands.ask(rng, counts, lay_out(rng, rule).words(rng))
                require(result == (0 if n <= left else 1), "the oracle counts articles otherwise")
        if left > 1:
            statements.append(("same", *merges[8 - left]))


# Rules about the last numbers that can be declared.
LAST_NUMBERS_RULES = (
    ("in", ("name", 31), 511),
    ("in", ("one", 448), 511),
    ("sub", ("top",), ("at least", 8, 15, 1, ("name", 31))),
    ("sub", ("self", 15, 1), ("one", 511)),
    ("rsub", 15, 1, 14, 0),
    ("dis", 14, 0, 15, 1),
    ("ref", 15, 0),
    ("rel", 15, 0, 511, 448),
    ("norel", 15, 1, 511, 447),
    ("same", 511, 447),
    ("differ", 511, 511),
)


# Rules about the last numbers, over a store of as many items, concepts and roles as there can be.
def last_numbers(commands, seed):
    rng = commands.part(seed, "large-last", 0)
    commands.load(words_in(LARGE, draw_cells(rng, LARGE.limits)))
    for rule in LAST_NUMBERS_RULES:
        require(commands.ask(rng, LARGE.limits, lay_out(rng, rule).words(rng)) >= 0, "the oracle refuses the last numbers")


# Rules for a store in which the last role links nothing and every other role all to all, and the number of their
# findings, first if all items are different, then if all are the same. `depth` is how deep they nest.
def full_rules(roles, depth):
    apart = roles - 1
    return (
        (("dis", 0, 0, apart - 1, 1), (262144, 262144)),
        (("rsub", apart, 0, 0, 1), (0, 0)),
        (("chain", 2, 0, 0, apart, 1, 0, 0, 0, 0, apart, 0), (0, 0)),
        (("ref", apart, 0), (512, 512)),
        (("irr", 0, 1), (512, 512)),
        (("sub", nest(depth, 1, 0, ("top",)), ("one", 511)), (511, 0)),
        (("sub", ("top",), nest(depth, 8, 0, ("not", ("top",)))), (512, 512)),
        (("in", nest(depth, 8, 0, ("self", 0, 1)), 511), (0, 1)),
    )


# The largest lists of findings there are, and nested rules over as many links as there can be.
def full_stores(commands, seed, roles, depth):
    counts = Counts(512, 32, roles)
    for merged in (0, 1):
        rng = commands.part(seed, "large-full", merged)
        commands.load(words_in(LARGE, all_linked(counts, merged, roles - 1)))
        for rule, due in full_rules(roles, depth):
            result = commands.ask_with(counts, lay_out(rng, rule).words(rng), lambda total: [min(2 * total + 3, 2 * 262144 + 3)])
            require(result == due[merged], f"the oracle finds another number in a full store: {rule} {result}")


# Items at and above their count in each place of a rule.
def undeclared_items(commands, seed):
    for number, items in enumerate((129, 192, 511, 512)):
        rng = commands.part(seed, "large-undeclared", number)
        counts = Counts(items, 2, 2)
        commands.load(words_in(LARGE, draw_cells(rng, counts)))
        for kind in ("in", "rel", "norel", "same", "differ", "sub"):
            draft = WideRuleDrawer(rng, counts).draft(kind, 4)
            for part, at in draft.places("item"):
                right = part[at]
                for wrong in (items - 1, items, 512, 128 + items, *HUGE):
                    part[at] = wrong
                    commands.ask(rng, counts, draft.words(rng))
                part[at] = right


# Sizes that are refused by 1, whatever else is wrong: every length near the right ones, and every count over its limit.
def wrong_sizes(commands, seed):
    rng = commands.part(seed, "large-size", 0)
    counts = Counts(70, 3, 3)
    for size in SIZES:
        words = words_in(size, draw_cells(rng, counts))
        for length in WRONG_LENGTHS:
            commands.load((words + [0] * LARGE.words)[:length])
            ask_some(commands, rng, counts, oracle.REFUSED_SIZE)
        commands.load(words)
        for which, limit in enumerate(size.limits):
            for wrong in (limit + 1, 2 * limit, *HUGE):
                ask_some(commands, rng, counts._replace(**{Counts._fields[which]: wrong}), oracle.REFUSED_SIZE)
        full = counts._replace(items=size.limits.items)
        commands.load(words_in(size, draw_cells(rng, full)))
        ask_some(commands, rng, full, 0)
    commands.load(words_in(SMALL, filled(Counts(128, 1, 1), [])))
    ask_some(commands, rng, Counts(129, 1, 1), oracle.REFUSED_SIZE)


# Asks for what breaks a few rules, of which one may be malformed and one undeclared where they are refused anyway.
def ask_some(commands, rng, counts, due):
    drawer = WideRuleDrawer(rng, Counts(*(max(min(count, 3), 1) for count in counts)))
    for kind in ("ref", "same"):
        require(min(commands.ask(rng, counts, drawer.draft(kind, 2).words(rng)), 0) == due, "the oracle refuses otherwise")
    if due != 0:
        commands.ask(rng, counts, (99,) + drawer.draft("ref", 2).words(rng)[1:])
        commands.ask(rng, counts, lay_out(rng, ("same", 2**63, 0)).words(rng))


# Larger stores that are not closed: 2, whatever the rule is.
def damaged(commands, seed, rounds):
    for number in range(rounds):
        rng = commands.part(seed, "large-damaged", number)
        counts = rng.choice((Counts(3, 2, 2), Counts(130, 2, 2), Counts(512, 2, 2)))
        words = words_in(LARGE, draw_cells(rng, counts))
        start = oracle.starts(LARGE)
        words[rng.choice((0, 8, 7, *start, start.links + 8 * 511 + 7, LARGE.words - 1))] ^= 1 << rng.randrange(48, 64)
        if oracle.closed_cells(words, counts) is None:
            commands.load(words)
            ask_some(commands, rng, counts, oracle.REFUSED_NOT_CLOSED)


# The whole test: `amount` says how much is drawn, `roles` and `depth` how full the fullest store and its rules are.
def write_all(commands, seed, amount, roles, depth):
    examples(commands, seed)
    wrong_sizes(commands, seed)
    borders(commands, seed)
    articles(commands, seed)
    undeclared_items(commands, seed)
    damaged(commands, seed, amount // 4)
    last_numbers(commands, seed)
    for number in range(amount):
        drawn_rules(commands, seed, number)
    full_stores(commands, seed, roles, depth)
