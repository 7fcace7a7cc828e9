"""The cases for both sizes of store, for lists of statements and for conversions, as commands for tests/store_driver.c.

They come after those of tests/store_cases.py, which are all about the smaller store and
single calls. What is due says the oracle (tests/oracle.py). Item numbers are mostly
drawn at the borders of the words of an item row, where a row of two words and one of
eight differ.
"""

import oracle
import store_cases
from oracle import LARGE, LIMITS, SIZES, SMALL, Counts
from store_cases import EXAMPLES, HUGE, KINDS, Drawer, all_linked, every_call, filled, require, scenes

# The items on both sides of each border between two words of a row, and the last ones.
BORDERS = tuple(number for border in range(64, 512, 64) for number in (border - 1, border)) + (510, 511)

# Numbers of items that end before, at and after each of these borders.
BORDER_COUNTS = tuple(sorted({border + more for border in range(128, 512, 64) for more in (-1, 0, 1)} | {511, 512}))

# Lengths that are none of a store, near the right ones above all.
WRONG_LENGTHS = (0, 1, 4527, 4529, 9056, 65536, 70191, 70193, 70192 + 4528)

# Pairs of lengths for a conversion: the two that are right, then some that are not.
RIGHT_PAIRS = ((4528, 70192), (70192, 4528))
WRONG_PAIRS = ((4528, 4528), (70192, 70192), (4527, 70192), (4529, 70192), (4528, 70191), (4528, 70193), (70191, 4528),
               (70193, 4528), (70192, 4527), (70192, 4529), (0, 70192), (4528, 0), (70192, 0), (0, 4528), (0, 0),
               (4529, 70191), (70193, 4527), (70193, 70192), (4529, 4528), (4528, 9056))

ALL_KINDS = {"same": 0, "under": 1, "in": 4, "link": 5}
UNKNOWN_KINDS = (6, 7, 255, 256, 2**32, 2**32 + 1, 2**63, 2**64 - 1)


class WideDrawer(Drawer):
    """Draws statements whose items are mostly at the borders of words."""

    # A few numbers below a count; of items those at the borders, and the last ones.
    def draw_few(self, count):
        edges = [number for number in (0, *BORDERS, count - 2, count - 1) if 0 <= number < count]
        few = self.rng.sample(range(count), min(count, self.rng.choice((1, 2, 4))))
        return few + self.rng.sample(edges, min(len(edges), self.rng.choice((2, 4, 6))))

    # A statement with one number changed, mostly to one that is not below its count.
    def undeclared(self):
        statement = list(self.statement())
        at = self.rng.randint(1, {"role_under": 2}.get(statement[0], len(statement) - 1))
        statement[at] = self.rng.choice((*self.counts, *LARGE.limits, 128, 511, 2**32 + statement[at], *HUGE))
        return tuple(statement)


# The words of a closed store of a size.
def words_in(size, cells):
    return oracle.words_of(cells, size)


# A closed store made of a few statements drawn, with rings and merges.
def draw_cells(rng, counts, most):
    drawer = WideDrawer(rng, counts)
    made_of = [drawer.statement() for _ in range(rng.randint(0, most))]
    for shape in (drawer.merges, drawer.concept_ring, drawer.role_ring):
        if rng.random() < 0.5:
            made_of += shape(8)
    return filled(counts, made_of)


# Counts for the larger store: mostly with an edge among the items, few concepts and roles.
def draw_counts(rng):
    items = rng.choice((*BORDER_COUNTS, 129, 300, 400, rng.randint(0, 128), rng.randint(129, 512)))
    if rng.random() < 0.1:
        return Counts(items, 32, 16)
    return Counts(items, rng.choice((0, 1, 2, 4, 8)), rng.choice((0, 1, 2, 3, 4)))


# --- Single calls ---


# Document 01's examples in the larger store, and one about its last numbers, counted by hand.
def examples(commands, seed):
    last = ((("link", 15, 511, 511), 1), (("in", 511, 31), 1), (("same", 0, 511), 2 + 1 + 3), (("same", 127, 128), 2),
            (("link", 0, 127, 448), 2), (("same", 448, 447), 2 + 2), (("role_under", 0, 15, 1), 1 + 4))
    for number, (counts, cells, calls) in enumerate((*EXAMPLES, (LARGE.limits, 560, last))):
        commands.part(seed, "large-example", number)
        commands.load([0] * LARGE.words)
        require(commands.fresh(counts) == cells, f"the oracle fails example {number}")
        for statement, due in calls:
            require(commands.add(counts, statement) == due, f"the oracle fails example {number}: {statement}")


# Counts at and over their limits: 128 items with the smaller store and 129, 512 with the larger and 513.
def limits(commands, seed):
    rng = commands.part(seed, "limits", 0)
    for size in SIZES:
        for which, limit in enumerate(size.limits):
            for count in (limit - 1, limit, limit + 1, 2 * limit, *HUGE):
                counts = Counts(3, 2, 2)._replace(**{Counts._fields[which]: count})
                commands.load([rng.getrandbits(64) for _ in range(200)] + [0] * (size.words - 200))
                require((commands.fresh(counts) >= 0) == (count <= limit), "the oracle takes another limit")
                every_wide_call(commands, rng, counts)
        full = words_in(size, draw_cells(rng, size.limits, 6))
        for counts in (size.limits, *(size.limits._replace(**{name: limit + 1}) for name, limit in size.limits._asdict().items())):
            commands.load(full)
            every_wide_call(commands, rng, counts)


# The larger store with 128 items and with 129: nothing is different there.
def around_128(commands, seed):
    for number, items in enumerate((1, 127, 128, 129)):
        rng = commands.part(seed, "around-128", number)
        counts = Counts(items, 3, 3)
        commands.load([2**64 - 1] * LARGE.words)
        commands.fresh(counts)
        drawer = WideDrawer(rng, counts)
        for _ in range(3):
            for kind in KINDS:
                commands.add(counts, drawer.of_kind(kind))
        commands.add(counts, ("same", 0, 128))
        commands.add(counts, ("link", 0, 128, 127))


# A call of each kind, and as many with a number that is mostly undeclared.
def every_wide_call(commands, rng, counts):
    drawer = WideDrawer(rng, Counts(*(min(count, limit) for count, limit in zip(counts, LARGE.limits))))
    for kind in KINDS:
        commands.add(counts, drawer.of_kind(kind))
        commands.add(counts, drawer.undeclared())
    commands.fresh(counts._replace(roles=min(counts.roles, 17)))


# Wrong lengths are refused with 1, whatever else is wrong.
def wrong_lengths(commands, seed):
    for number, length in enumerate(WRONG_LENGTHS):
        rng = commands.part(seed, "wrong-length-2", number)
        for size in SIZES:
            counts = Counts(min(200, size.limits.items), 2, 2)
            commands.load((words_in(size, draw_cells(rng, counts, 6)) + [0] * LARGE.words)[:length])
            for each in (counts, Counts(0, 0, 0), Counts(513, 33, 17)):
                every_call(commands, rng, each)


# At every border between words: statements about the items on both sides of it.
def borders(commands, seed):
    for number, items in enumerate(BORDER_COUNTS):
        rng = commands.part(seed, "border", number)
        counts = Counts(items, 2, 2)
        commands.load([0] * LARGE.words)
        commands.fresh(counts)
        near = [at for at in BORDERS if at < items] + [items - 1]
        for low, high in zip(near, near[1:]):
            commands.add(counts, ("link", 0, low, high))
        commands.add(counts, ("role_under", 0, 1, 1))
        commands.add(counts, ("in", near[-1], 0))
        for a, b in zip(rng.sample(near, len(near)), near):
            commands.add(counts, rng.choice((("same", a, b), ("link", 1, a, b), ("in", a, 1))))
        for wrong in (items, min(items + 1, 512), 511 if items < 512 else 512):
            commands.add(counts, ("same", wrong, 0))
            commands.add(counts, ("link", 0, 0, wrong))


# One sequence from a fresh larger store on, some of them in another order too.
def sequence(commands, seed, number):
    rng = commands.part(seed, "large-sequence", number)
    counts = draw_counts(rng)
    drawer = WideDrawer(rng, counts)
    statements = [drawer.statement() for _ in range(rng.randint(1, 10))]
    for shape in (drawer.merges, drawer.concept_ring, drawer.role_ring):
        if rng.random() < 0.4:
            statements += shape(6)
    statements += [drawer.undeclared() for _ in range(rng.choice((0, 1, 2)))]
    rng.shuffle(statements)
    commands.load([rng.getrandbits(64) if rng.random() < 0.001 else 0 for _ in range(LARGE.words)])
    store_cases.in_orders(commands, rng, lambda: commands.fresh(counts), [(counts, each) for each in statements],
                          rng.random() < 0.4)
    commands.sequences += 1


# Damaged larger stores: every rule broken alone, and bits set that are no cells.
def damaged(commands, seed, rounds):
    for number in range(rounds):
        rng = commands.part(seed, "large-broken-rule", number)
        counts = rng.choice((Counts(4, 3, 3), Counts(130, 3, 3), Counts(512, 3, 3), Counts(449, 5, 4)))
        for rule, stated, taken in scenes(*draw_actors(rng, counts)):
            cells = store_cases.break_rule(rng, counts, rule, stated, taken, (0,))
            commands.load(words_in(LARGE, cells))
            store_cases.refused_as_damaged(commands, rng, counts)


# The numbers that a scene is about, the items at borders.
def draw_actors(rng, counts):
    actors = []
    for count, wanted in zip(counts, (4, 3, 3)):
        edges = [number for number in (0, *BORDERS, count - 1) if number < count]
        actors += rng.sample(sorted({*edges, *rng.sample(range(count), wanted)}), wanted)
    return actors


# Words of each part of the larger store that stray bits are tried in: its first ones, its last, and those at borders.
def words_to_try(rng):
    start = oracle.starts(LARGE)
    tried = {*start, *(at - 1 for at in start[1:]), LARGE.words - 1}
    tried |= {start.same + 8 * a + word for a in (0, 127, 128, 511) for word in (1, 2, 7)}
    tried |= {start.links + 8 * (512 * role + a) + word for role in (0, 15) for a in (0, 128, 511) for word in (0, 2, 7)}
    tried |= {start.member + a for a in (128, 511)} | {rng.randrange(LARGE.words) for _ in range(10)}
    return sorted(tried)


# Closed larger stores with one bit set that is no cell within the counts.
def stray_bits(commands, seed):
    for number, counts in enumerate((Counts(0, 0, 0), Counts(5, 4, 3), Counts(128, 31, 15), Counts(129, 2, 2), Counts(511, 3, 2))):
        rng = commands.part(seed, "large-stray-bit", number)
        commands.load(words_in(LARGE, draw_cells(rng, counts, 8)))
        outside = [~word & (2**64 - 1) for word in words_in(LARGE, oracle.cells_of([2**64 - 1] * LARGE.words, counts))]
        drawer = WideDrawer(rng, counts)
        for index in words_to_try(rng):
            stray = oracle.bits(outside[index])
            for bit in {stray[0], stray[-1], rng.choice(stray)} if stray else ():
                commands.flip(index, 1 << bit)
                require(commands.add(counts, drawer.statement()) == oracle.REFUSED_NOT_CLOSED, "the oracle passes over a stray bit")
                commands.flip(index, 1 << bit)
                commands.damaged += 1
        commands.add(counts, drawer.statement())


# The fullest larger stores, all items different and all the same: a statement of each kind.
def full_stores(commands, seed, counts):
    for merged in (0, 1):
        rng = commands.part(seed, "large-full", merged)
        commands.load(words_in(LARGE, all_linked(counts, merged, counts.roles)))
        drawer = WideDrawer(rng, counts)
        for kind in KINDS:
            commands.add(counts, drawer.of_kind(kind))
        commands.add(counts, ("same", counts.items, 0))
        commands.flip(LARGE.words - 1 if counts == LARGE.limits else oracle.starts(LARGE).links + 8 * 300 + 4, 1 << 63)
        require(commands.add(counts, ("same", 0, 1)) == oracle.REFUSED_NOT_CLOSED, "the oracle misses a link")


# --- Conversions ---


# Moves the store there and back, and asks that the words are the same again.
def there_and_back(commands, counts):
    words = commands.words
    other = {SMALL.words: LARGE.words, LARGE.words: SMALL.words}[len(words)]
    commands.write("keep\n")
    if commands.convert(counts, other) < 0:
        return
    commands.turn()
    require(commands.convert(counts, len(words)) >= 0, "the oracle does not go back")
    commands.turn()
    require(commands.words == words, "there and back gives other words in the oracle")
    commands.write("compare\n")


# Random closed stores, both ways; statements are added on the way.
def conversion(commands, seed, number):
    rng = commands.part(seed, "conversion", number)
    items = rng.choice((0, 1, 3, 63, 64, 65, 127, 128, 128, rng.randint(0, 128)))
    counts = Counts(items, rng.choice((0, 1, 3, 31, 32)), rng.choice((0, 1, 3, 15, 16)))
    cells = draw_cells(rng, counts, 12)
    for size in SIZES:
        commands.load(words_in(size, cells))
        there_and_back(commands, counts)
        commands.convert(counts, (SIZES[0] if size == LARGE else LARGE).words)
        commands.turn()
        drawer = WideDrawer(rng, counts)
        for _ in range(3):
            commands.add(counts, drawer.statement())


# The fullest smaller stores, both ways.
def full_conversions(commands, seed):
    for merged in (0, 1):
        commands.part(seed, "conversion-full", merged)
        commands.load(words_in(SMALL, all_linked(LIMITS, merged, 16)))
        there_and_back(commands, LIMITS)
    commands.part(seed, "conversion-empty", 0)
    commands.load([0] * LARGE.words)
    there_and_back(commands, Counts(0, 0, 0))


# 128 items can go back, 129 and more cannot: 26, after 1 and 2.
def going_back(commands, seed):
    for number, items in enumerate((0, 127, 128, 129, 130, 192, 256, 400, 511, 512, 513)):
        rng = commands.part(seed, "going-back", number)
        counts = Counts(items, 3, 2)
        within = counts._replace(items=min(items, 512))
        for drawn in (0, 12):
            words = words_in(LARGE, draw_cells(rng, within, drawn))
            commands.load(words)
            result = commands.convert(counts, SMALL.words)
            due = 0 if items <= 128 else oracle.REFUSED_GOING_BACK if items <= 512 else oracle.REFUSED_SIZE
            require(min(result, 0) == due, "the oracle goes back otherwise")
            commands.convert(counts, LARGE.words)
            commands.load(words)
            commands.flip(rng.choice((0, 8, LARGE.words - 1)), 1 << 62)
            require(min(commands.convert(counts, SMALL.words), 0) == (-1 if items > 512 else -2), "the oracle takes a damaged store")
            for wrong in (counts._replace(roles=17), counts._replace(concepts=33)):
                commands.convert(wrong, SMALL.words)


# Every wrong pair of lengths, with stores that are closed, damaged, or have too many items to go back.
def wrong_pairs(commands, seed):
    for number, (source, target) in enumerate((*RIGHT_PAIRS, *WRONG_PAIRS)):
        rng = commands.part(seed, "pair", number)
        size = min(SIZES, key=lambda each: abs(each.words - source))
        for items in (5, 128, 129, 200, 513):
            counts = Counts(items, 3, 2)
            cells = draw_cells(rng, counts._replace(items=min(items, size.limits.items)), 6)
            commands.load((words_in(size, cells) + [0, 0])[:source])
            commands.convert(counts, target)
            if source > 0:
                commands.flip(0, 1 << 1)
                commands.convert(counts, target)


# Each closing rule broken alone in a source of either size: 2, and the target is untouched.
def damaged_sources(commands, seed):
    for number, size in enumerate(SIZES):
        rng = commands.part(seed, "source-damaged", number)
        counts = Counts(70, 4, 4)
        for rule, stated, taken in scenes(*draw_actors(rng, counts)):
            commands.load(words_in(size, store_cases.break_rule(rng, counts, rule, stated, taken, (0,))))
            result = commands.convert(counts, (SMALL if size == LARGE else LARGE).words)
            require(result == oracle.REFUSED_NOT_CLOSED, "the oracle moves a damaged store")
            commands.damaged += 1


# --- Lists of statements ---


# The four words of a statement in a list; c is anything where it is not read.
def listed(rng, statement):
    kind, numbers = statement[0], statement[1:]
    spare = rng.choice((0, 1, 15, 16, 2**64 - 1))
    if kind == "link":
        return (ALL_KINDS[kind], numbers[1], numbers[2], numbers[0])
    if kind == "role_under":
        return (3 if numbers[2] else 2, numbers[0], numbers[1], spare)
    return (ALL_KINDS[kind], *numbers, spare)


# A statement of an unknown kind.
def unknown_statement(rng, drawer):
    return (rng.choice(UNKNOWN_KINDS), *(rng.choice((0, 1, drawer.item())) for _ in range(3)))


# The words of a list of statements, some of them undeclared, some of an unknown kind, some said twice.
def draw_list(rng, counts, most):
    drawer = WideDrawer(rng, counts)
    bad = rng.choice((0, 0.2, 0.5))
    statements = []
    for _ in range(rng.randint(0, most)):
        if rng.random() < bad:
            four = listed(rng, drawer.undeclared()) if rng.random() < 0.6 else unknown_statement(rng, drawer)
        else:
            four = listed(rng, drawer.statement())
        statements += [four] * rng.choice((1, 1, 1, 2))
    rng.shuffle(statements)
    return [word for four in statements for word in four]


# Lists of statements in stores of either size: places for fewer answers, just as many and more; words that are no whole
# statement at the end.
def lists(commands, seed, number):
    rng = commands.part(seed, "list", number)
    size = SIZES[number % 2]
    counts = rng.choice((Counts(0, 0, 0), Counts(3, 2, 2), Counts(6, 4, 3), Counts(70, 3, 3), Counts(128, 3, 2)))
    if size == LARGE and number % 3 == 0:
        counts = draw_counts(rng)
    words = words_in(size, draw_cells(rng, counts, 4))
    statements = draw_list(rng, counts, 8)
    count = len(statements) // 4
    for places in {count, rng.randint(0, count), count + rng.randint(1, 9)}:
        for rest in rng.sample((0, 0, 1, 2, 3), 2):
            commands.load(words)
            commands.add_all(counts, statements + draw_list(rng, counts, 1)[:rest] if rest else statements, places)
    as_single_calls(commands, rng, words, counts, statements)


# A list gives the store and the sum of counts that the single calls give one after the other.
def as_single_calls(commands, rng, words, counts, statements):
    commands.load(words)
    for at in range(0, len(statements), 4):
        statement = oracle.statement_of(*statements[at:at + 4])
        if statement is not None:
            commands.add(counts, statement)
    commands.write("keep\n")
    end = commands.words
    commands.load(words)
    commands.add_all(counts, statements, len(statements) // 4 + rng.randint(0, 2))
    require(commands.words == end, "the oracle's list and its single calls differ")
    commands.write("compare\n")


# Lists that are refused: wrong lengths, wrong counts, stores that are not closed; and lists of nothing.
def refused_lists(commands, seed):
    for number, size in enumerate(SIZES):
        rng = commands.part(seed, "list-refused", number)
        counts = Counts(70, 3, 3)
        words = words_in(size, draw_cells(rng, counts, 6))
        statements = draw_list(rng, counts, 4) + [*listed(rng, ("same", 0, 1)), 6, 0, 0, 0, *listed(rng, ("in", 70, 0))]
        for length in WRONG_LENGTHS:
            commands.load((words + [0] * LARGE.words)[:length])
            refused_list(commands, counts, statements, -1)
        for wrong in (counts._replace(items=size.limits.items + 1), counts._replace(concepts=33), counts._replace(roles=17)):
            commands.load(words)
            refused_list(commands, wrong, statements, -1)
        for index in (0, 2, size.words - 1):
            commands.load(words)
            commands.flip(index, 1 << 50)
            refused_list(commands, counts, statements, -2)
            commands.damaged += 1
        commands.load(words)
        for places in (0, 1, 5):
            require(commands.add_all(counts, [], places) == [], "the oracle answers nothing")
            require(commands.add_all(counts, statements[:3], places) == [], "the oracle answers a part of a statement")
        commands.add_all(counts, statements, 0)


# A list of which every statement is refused in the same way, with too few places too.
def refused_list(commands, counts, statements, due):
    for places in (len(statements) // 4, 1, len(statements)):
        require(set(commands.add_all(counts, statements, places)) == {due}, "the oracle refuses otherwise")


# The words of a list that are never read as a statement may be anything, and a long list.
def long_lists(commands, seed, most):
    for number, size in enumerate(SIZES):
        rng = commands.part(seed, "list-long", number)
        counts = size.limits._replace(concepts=4, roles=3)
        commands.load([0] * size.words)
        commands.fresh(counts)
        drawer = WideDrawer(rng, counts)
        listed_words = [word for _ in range(most) for word in listed(rng, drawer.statement())]
        commands.add_all(counts, listed_words + [2**64 - 1] * 3, most)


# The whole test: `amount` says how much is drawn, `counts` how many items and roles the fullest store has.
def write_all(commands, seed, amount, counts):
    full_conversions(commands, seed)
    going_back(commands, seed)
    wrong_pairs(commands, seed)
    damaged_sources(commands, seed)
    refused_lists(commands, seed)
    long_lists(commands, seed, amount)
    for number in range(amount):
        lists(commands, seed, number)
        conversion(commands, seed, number)
    examples(commands, seed)
    limits(commands, seed)
    around_128(commands, seed)
    wrong_lengths(commands, seed)
    borders(commands, seed)
    damaged(commands, seed, max(amount // 10, 2))
    stray_bits(commands, seed)
    full_stores(commands, seed, counts)
    for number in range(amount):
        sequence(commands, seed, number)
