"""The cases that the store is tested with, written as commands for tests/store_driver.c.

Every call goes through the oracle first, which says what result is due and which
words change. Each part of the test draws from random numbers of its own, made from
the seed and the part's name, so that a part is the same whatever else is run.
"""

import random

import oracle
from oracle import LIMITS, WORDS, Counts

KINDS = ("same", "under", "role_under", "in", "link")
WRONG_LENGTHS = (0, 1, 4527, 4529, 9056)
HUGE = (2**32, 2**63, 2**64 - 1)


class Commands:
    """Writes commands, and keeps the words that the driver's store should have."""

    # Nothing written yet; `write` takes the text.
    def __init__(self, write):
        self.write = write
        self.words = []
        self.calls = 0
        self.results = {"accepted": 0, -1: 0, -2: 0, -4: 0, -26: 0}
        self.sequences = 0
        self.reordered = 0
        self.damaged = 0
        self.lists = 0
        self.conversions = 0
        self.target = []

    # Begins a part of the test and gives its random numbers.
    def part(self, seed, name, number):
        self.write(f"part {name} {number}\n")
        return random.Random(f"{seed} {name} {number}")

    # Lends the driver a store with these words.
    def load(self, words):
        self.words = list(words)
        self.write(f"load {len(words)}{changed_words([0] * len(words), words)}\n")

    # Turns over bits of one word.
    def flip(self, index, mask):
        self.words[index] ^= mask
        self.write(f"flip {index} {mask}\n")

    # Makes the store fresh.
    def fresh(self, counts):
        return self.expect(("fresh",), counts, oracle.fresh(self.words, counts))

    # Adds a statement.
    def add(self, counts, statement):
        return self.expect(statement, counts, oracle.add(self.words, counts, statement))

    # Adds a list of statements, four words each, with so many places for answers; gives the answers due.
    def add_all(self, counts, listed, places):
        answers, after = oracle.add_all(self.words, counts, listed, places)
        before, self.words = self.words, after
        numbers = (*counts, len(listed), *listed, places, len(answers), *answers)
        self.write(f"all {' '.join(str(number) for number in numbers)}{changed_words(before, after)}\n")
        self.calls += 1
        self.lists += 1
        return answers

    # Moves the store to a target of so many words, which are garbage before; gives the result due.
    def convert(self, counts, length):
        result, target = oracle.convert(self.words, counts, length)
        self.conversions += 1
        due = changed_words([0] * length, target) if target is not None else " 0"
        numbers = (*counts, length, self.conversions, result)
        self.write(f"convert {' '.join(str(number) for number in numbers)}{due}\n")
        self.calls += 1
        self.results[result if result < 0 else "accepted"] += 1
        self.target = target
        return result

    # Lends the target of the last conversion as the store.
    def turn(self):
        self.words = self.target
        self.write("turn\n")

    # Writes a call with what is due after it.
    def expect(self, statement, counts, due):
        result, after = due
        before, self.words = self.words, after
        numbers = (statement[1:] + (0, 0, 0))[:3]
        call = " ".join(str(number) for number in (*counts, *numbers, result))
        self.write(f"call {statement[0]} {call}{changed_words(before, after)}\n")
        self.calls += 1
        self.results[result if result < 0 else "accepted"] += 1
        return result


# Stops the test if the oracle is not what the cases rely on.
def require(holds, why):
    if not holds:
        raise AssertionError(why)


# The words that change, as the driver reads them: how many, then index and new value of each.
def changed_words(before, after):
    changes = []
    for start in range(0, len(after), 64):
        if before[start:start + 64] != after[start:start + 64]:
            changes += [f" {at} {after[at]}" for at in range(start, min(start + 64, len(after)))
                        if before[at] != after[at]]
    return f" {len(changes)}{''.join(changes)}"


# Counts for a sequence: many small ones, some anywhere, some at the edge of a word or at the limits.
def draw_counts(rng):
    size = rng.choices(("tiny", "small", "any", "edges", "limits"), (25, 61, 6, 5, 3))[0]
    if size == "tiny":
        return Counts(rng.randint(0, 3), rng.randint(0, 3), rng.randint(0, 2))
    if size == "small":
        return Counts(rng.randint(2, 6), rng.randint(1, 6), rng.randint(1, 5))
    if size == "any":
        return Counts(*(rng.randint(0, limit) for limit in LIMITS))
    if size == "edges":
        return Counts(rng.choice((63, 64, 65, 127, 128)), rng.choice((1, 31, 32)), rng.choice((1, 2, 15, 16)))
    return LIMITS


class Drawer:
    """Draws statements over some counts, mostly about few numbers, so that they meet."""

    # Chooses the few numbers, and how often each kind of statement comes.
    def __init__(self, rng, counts):
        self.rng = rng
        self.counts = counts
        self.few = [self.draw_few(count) for count in counts]
        self.weights = [rng.choice((0, 1, 1, 4)) for _ in KINDS]
        if not any(self.weights):
            self.weights = [1] * len(KINDS)

    # A few numbers below a count, among them some at the edges.
    def draw_few(self, count):
        edges = [number for number in (0, 63, 64, count - 1) if 0 <= number < count]
        few = self.rng.sample(range(count), min(count, self.rng.choice((2, 4, 8))))
        return few + self.rng.sample(edges, min(len(edges), 1))

    # A number below one of the counts (0 items, 1 concepts, 2 roles); 0 if there is none.
    def number(self, which):
        if self.counts[which] == 0:
            return 0
        if self.rng.random() < 0.9:
            return self.rng.choice(self.few[which])
        return self.rng.randrange(self.counts[which])

    # An item number.
    def item(self):
        return self.number(0)

    # A concept number.
    def concept(self):
        return self.number(1)

    # A role number.
    def role(self):
        return self.number(2)

    # What stands for "to the inverse" or "not to the inverse".
    def inverse(self):
        return self.rng.choice((0, 0, 1, 1, 2, *HUGE))

    # A statement of a kind.
    def of_kind(self, kind):
        if kind == "same":
            return kind, self.item(), self.item()
        if kind == "under":
            return kind, self.concept(), self.concept()
        if kind == "role_under":
            return kind, self.role(), self.role(), self.inverse()
        if kind == "in":
            return kind, self.item(), self.concept()
        return kind, self.role(), self.item(), self.item()

    # A statement of any kind.
    def statement(self):
        return self.of_kind(self.rng.choices(KINDS, self.weights)[0])

    # A statement with one number changed, mostly to one that is not below its count.
    def undeclared(self):
        statement = list(self.statement())
        places = {"role_under": 2}.get(statement[0], len(statement) - 1)
        at = self.rng.randint(1, places)
        statement[at] = self.rng.choice((*self.counts, *LIMITS, 64, 2**32 + statement[at], *HUGE))
        return tuple(statement)

    # Some numbers below a count, each once, at most so many.
    def row(self, which, most):
        count = self.counts[which]
        return self.rng.sample(range(count), self.rng.randint(0, min(count, most)))

    # Items made the same one after the other, and links at some of them.
    def merges(self, most):
        row = self.row(0, most)
        merged = [("same", a, b) for a, b in zip(row, row[1:])]
        return merged + [("link", self.role(), self.item(), b) for b in row[:2]]

    # Concepts each under the next, the last under the first, and items in some of them.
    def concept_ring(self, most):
        row = self.row(1, most)
        ring = [("under", A, B) for A, B in zip(row, row[1:] + row[:1])]
        return ring + [("in", self.item(), A) for A in row[:2]]

    # Roles each under the next or its inverse, the last under the first, and links by some of them.
    def role_ring(self, most):
        row = self.row(2, most)
        ring = [("role_under", R, S, self.inverse()) for R, S in zip(row, row[1:] + row[:1])]
        return ring + [("link", R, self.item(), self.item()) for R in row[:2]]


# The counts of a call: now and then not those that the store was made with.
def counts_of_call(rng, counts):
    if rng.random() > 0.02:
        return counts
    which = rng.randrange(3)
    other = rng.choice((counts[which] + 1, max(counts[which], 1) - 1, LIMITS[which] + 1, *HUGE))
    return counts._replace(**{Counts._fields[which]: other})


# The calls of a sequence: counts and a statement each.
def draw_sequence(rng, counts):
    drawer = Drawer(rng, counts)
    statements = [drawer.statement() for _ in range(rng.randint(1, 14))]
    for shape, most in ((drawer.merges, 20), (drawer.concept_ring, 8), (drawer.role_ring, 8)):
        if rng.random() < 0.35:
            statements += shape(most)
    statements += [drawer.undeclared() for _ in range(rng.choice((0, 0, 1)))]
    rng.shuffle(statements)
    return [(counts_of_call(rng, counts), statement) for statement in statements]


# The calls in another order, some of them twice.
def in_another_order(rng, calls):
    again = calls + rng.sample(calls, rng.randint(0, len(calls) // 2))
    rng.shuffle(again)
    return again


# Makes calls from a start on; if wanted, again from there in another order, with the same end.
def in_orders(commands, rng, start, calls, again):
    start()
    make_calls(commands, calls)
    if again:
        end = commands.words
        commands.write("keep\n")
        start()
        make_calls(commands, in_another_order(rng, calls))
        require(commands.words == end, "the oracle depends on the order of the statements")
        commands.write("compare\n")
        commands.reordered += 1


# Adds the statements of some calls.
def make_calls(commands, calls):
    for counts, statement in calls:
        commands.add(counts, statement)


# One sequence from a fresh store on.
def sequence(commands, seed, number):
    rng = commands.part(seed, "sequence", number)
    counts = draw_counts(rng)
    calls = draw_sequence(rng, counts)
    in_orders(commands, rng, lambda: commands.fresh(counts), calls, rng.random() < 0.6)
    commands.sequences += 1


# One sequence from a large store on.
def large_store(commands, seed, number):
    rng = commands.part(seed, "large-store", number)
    counts = rng.choice((LIMITS, LIMITS, Counts(127, 31, 15), Counts(65, 9, 9)))
    drawer = Drawer(rng, counts)
    made_of = drawer.merges(rng.choice((2, 64, 128))) + drawer.concept_ring(32) + drawer.role_ring(16)
    words = oracle.words_of(filled(counts, made_of + [drawer.statement() for _ in range(30)]))
    calls = [(counts, statement) for statement in [drawer.of_kind(kind) for kind in KINDS] + drawer.merges(4)]
    in_orders(commands, rng, lambda: commands.load(words), calls, True)
    commands.sequences += 1


# Document 01's examples about the store, with the numbers that it gives or that are counted by hand.
EXAMPLES = (
    (Counts(0, 0, 0), 0, ()),
    (Counts(2, 0, 0), 2, ((("same", 0, 0), 0),)),
    (Counts(2, 0, 0), 2, ((("same", 0, 1), 2), (("same", 1, 0), 0))),
    (Counts(2, 0, 1), 3, ((("role_under", 0, 0, 1), 1), (("link", 0, 0, 1), 2), (("link", 0, 1, 0), 0))),
    (Counts(0, 0, 3), 3, ((("role_under", 0, 1, 1), 1), (("role_under", 1, 2, 1), 2),
                          (("role_under", 0, 2, 0), 0), (("role_under", 0, 2, 1), 1))),
    (Counts(3, 0, 1), 4, ((("link", 0, 0, 1), 1), (("same", 1, 2), 3), (("same", 0, 2), 4 + 7))),
    (Counts(2, 2, 0), 4, ((("in", 0, 0), 1), (("under", 0, 1), 2), (("same", 0, 1), 4))),
    (LIMITS, 176, ((("link", 15, 127, 127), 1), (("in", 127, 31), 1), (("same", 0, 127), 2 + 1 + 3))),
)


# The examples: the oracle has to give the numbers too.
def examples(commands, seed):
    for number, (counts, cells, calls) in enumerate(EXAMPLES):
        commands.part(seed, "example", number)
        require(commands.fresh(counts) == cells, f"the oracle fails example {number}")
        for statement, due in calls:
            require(commands.add(counts, statement) == due, f"the oracle fails example {number}")


# The cells of a closed store: what follows from some statements, undeclared ones left out.
def filled(counts, statements):
    cells = oracle.Cells(counts)
    for statement in statements:
        if oracle.declared(statement, counts):
            cells.set(statement)
    oracle.add_what_follows(cells)
    return cells


# The cells of a store in which every role but those from `apart` on links all to all.
def all_linked(counts, merged, apart):
    cells = oracle.Cells(counts)
    everything = 2**counts.items - 1
    cells.same = [everything if merged else 1 << a for a in range(counts.items)]
    cells.under = [1 << A for A in range(counts.concepts)]
    cells.role_under = [2**apart - 1 if R < apart else 1 << R for R in range(counts.roles)]
    cells.role_under_inverse = [2**apart - 1 if R < apart else 0 for R in range(counts.roles)]
    cells.links = [[everything if R < apart else 0] * counts.items for R in range(counts.roles)]
    return cells


# A closed store made of a few statements drawn.
def draw_filled(rng, counts, most):
    drawer = Drawer(rng, counts)
    return filled(counts, [drawer.statement() for _ in range(rng.randint(0, most))])


# Wrong lengths are refused with 1, whatever else is wrong.
def wrong_lengths(commands, seed):
    for number, length in enumerate(WRONG_LENGTHS):
        rng = commands.part(seed, "wrong-length", number)
        commands.load([rng.getrandbits(64) for _ in range(length)])
        for counts in (Counts(0, 0, 0), Counts(3, 2, 2), LIMITS, Counts(129, 33, 17)):
            every_call(commands, rng, counts)
        commands.load((oracle.words_of(draw_filled(rng, Counts(3, 2, 2), 6)) + [0] * WORDS)[:length])
        every_call(commands, rng, Counts(3, 2, 2))


# A call of each kind, and as many with a number that is mostly undeclared.
def every_call(commands, rng, counts):
    drawer = Drawer(rng, Counts(*(min(count, limit) for count, limit in zip(counts, LIMITS))))
    commands.fresh(counts)
    for kind in KINDS:
        commands.add(counts, drawer.of_kind(kind))
        commands.add(counts, drawer.undeclared())


# Counts over a limit are refused with 1, on closed stores and on others.
def wrong_counts(commands, seed):
    rng = commands.part(seed, "wrong-counts", 0)
    stores = [oracle.words_of(draw_filled(rng, counts, 6)) for counts in (Counts(3, 2, 2), LIMITS)]
    for words in (*stores, [0] * WORDS, [2**64 - 1] * WORDS):
        commands.load(words)
        for which, limit in enumerate(LIMITS):
            for wrong in (limit + 1, 2 * limit, *HUGE):
                for counts in (Counts(3, 2, 2), LIMITS):
                    every_call(commands, rng, counts._replace(**{Counts._fields[which]: wrong}))


# Every number at or above its count is refused with 4 on a closed store, each place on its own.
def wrong_numbers(commands, seed):
    for number, counts in enumerate((Counts(0, 0, 0), Counts(3, 2, 2), Counts(70, 9, 5), LIMITS)):
        rng = commands.part(seed, "wrong-number", number)
        commands.load(oracle.words_of(draw_filled(rng, counts, 8)))
        drawer = Drawer(rng, counts)
        for kind in KINDS:
            statement = drawer.of_kind(kind)
            for at in range(1, 3 if kind == "role_under" else len(statement)):
                for wrong in wrong_numbers_for(statement[at], counts):
                    commands.add(counts, statement[:at] + (wrong,) + statement[at + 1:])
            commands.add(counts, statement)


# Numbers at or above the counts, some only at or above the smaller ones.
def wrong_numbers_for(number, counts):
    return sorted({*counts, *LIMITS, 64, 192, 256 + number, 2**16 + number, 2**32 + number, *HUGE})


# For each closing rule, stores that obey all rules but that one: what is stated, and the cells taken away.
def scenes(a, b, c, d, A, B, C, R, S, T):
    steps = [
        (oracle.role_under_steps,
         [("role_under", R, S, first), ("role_under", S, T, second)],
         [("role_under", R, T, first ^ second)])
        for first in (0, 1) for second in (0, 1)
    ]
    return steps + [
        (oracle.same_reflexive, [], [("same", a, a)]),
        (oracle.same_symmetric, [("same", a, b)], [("same", a, b)]),
        (oracle.same_symmetric, [("same", a, b), ("same", a, c)], [("same", a, b), ("same", c, b)]),
        (oracle.same_transitive, [("same", a, b), ("same", b, c)], [("same", a, c), ("same", c, a)]),
        (oracle.under_reflexive, [], [("under", A, A)]),
        (oracle.under_transitive, [("under", A, B), ("under", B, C)], [("under", A, C)]),
        (oracle.role_under_reflexive, [], [("role_under", R, R, 0)]),
        (oracle.role_under_steps, [("role_under", R, R, 1), ("role_under", R, S, 0)], [("role_under", R, S, 1)]),
        (oracle.in_by_under, [("in", a, A), ("under", A, B)], [("in", a, B)]),
        (oracle.in_by_same, [("same", a, b), ("in", a, A)], [("in", b, A)]),
        (oracle.link_by_under, [("role_under", R, S, 0), ("link", R, a, b)], [("link", S, a, b)]),
        (oracle.link_by_under, [("role_under", R, S, 0), ("link", R, a, a)], [("link", S, a, a)]),
        (oracle.link_by_under_inverse, [("role_under", R, S, 1), ("link", R, a, b)], [("link", S, b, a)]),
        (oracle.link_by_under_inverse, [("role_under", R, R, 1), ("link", R, a, b)], [("link", R, b, a)]),
        (oracle.link_by_same, [("same", a, c), ("link", R, a, b)], [("link", R, c, b)]),
        (oracle.link_by_same, [("same", b, d), ("link", R, a, b)], [("link", R, a, d)]),
        (oracle.link_by_same, [("same", a, b), ("link", R, a, a)],
         [("link", R, a, b), ("link", R, b, a), ("link", R, b, b)]),
        (oracle.link_by_same, [("same", a, c), ("same", b, d), ("link", R, a, b)], [("link", R, c, d)]),
    ]


# The numbers that a scene is about: four items, three concepts and three roles.
def draw_actors(rng, counts):
    actors = []
    for count, wanted in zip(counts, (4, 3, 3)):
        edges = [number for number in (0, 63, 64, count - 1) if number < count]
        near = rng.sample(sorted({*edges, *rng.sample(range(count), wanted)}), wanted)
        actors += near if rng.random() < 0.6 else rng.sample(range(count), wanted)
    return actors


# The scenes, by turns alone and in stores with other statements.
def broken_rules(commands, seed, rounds):
    for number in range(rounds):
        rng = commands.part(seed, "broken-rule", number)
        counts = rng.choice((Counts(4, 3, 3), Counts(7, 5, 5), Counts(66, 3, 4), LIMITS))
        others = (0,) if number % 2 == 0 else (12, 8, 4, 2, 0)
        for rule, stated, taken in scenes(*draw_actors(rng, counts)):
            cells = break_rule(rng, counts, rule, stated, taken, others)
            commands.load(oracle.words_of(cells))
            refused_as_damaged(commands, rng, counts)


# A store in which just one rule is broken; `others` are numbers of other statements to try.
def break_rule(rng, counts, rule, stated, taken, others):
    for other in others:
        drawer = Drawer(rng, counts)
        cells = filled(counts, [drawer.statement() for _ in range(other)] + stated)
        for cell in taken:
            cells.clear(cell)
        if oracle.broken_rules(cells) == [rule]:
            return cells
    raise AssertionError(f"{rule.__name__} cannot be broken alone by taking away {taken}")


# A store that is not closed: 2, before 4, and after 1.
def refused_as_damaged(commands, rng, counts):
    drawer = Drawer(rng, counts)
    result = commands.add(counts, drawer.statement())
    require(result == oracle.REFUSED_NOT_CLOSED, "the oracle takes a damaged store as closed")
    commands.add(counts, drawer.undeclared())
    if rng.random() < 0.2:
        commands.add(counts._replace(roles=17), drawer.statement())
    commands.damaged += 1


# Closed stores with one bit set that is no cell within the counts, one bit after the other.
def stray_bits(commands, seed):
    for number, counts in enumerate((Counts(0, 0, 0), Counts(5, 4, 3), Counts(65, 31, 15), LIMITS)):
        rng = commands.part(seed, "stray-bit", number)
        commands.load(oracle.words_of(draw_filled(rng, counts, 8)))
        drawer = Drawer(rng, counts)
        for index, outside in enumerate(bits_outside(counts)):
            for bit in bits_to_try(rng, index, oracle.bits(outside)):
                commands.flip(index, 1 << bit)
                result = commands.add(counts, drawer.statement())
                require(result == oracle.REFUSED_NOT_CLOSED, "the oracle passes over a stray bit")
                commands.flip(index, 1 << bit)
                commands.damaged += 1
        commands.add(counts, drawer.statement())


# Of a word's stray bits: all in the first words of each part, one in the others, in most link words none.
def bits_to_try(rng, index, stray):
    if index in (0, 1, 256, 288, 304, 432, 433):
        return stray
    if stray and (index < 432 or index == WORDS - 1 or rng.random() < 0.05):
        return [rng.choice(stray)]
    return []


# For each word, the bits that are no cell within the counts.
def bits_outside(counts):
    cells = oracle.cells_of([2**64 - 1] * WORDS, counts)
    return [~word & (2**64 - 1) for word in oracle.words_of(cells)]


# Closed stores with a few cells turned over: most are closed no longer, some still are.
def turned_cells(commands, seed, rounds):
    for number in range(rounds):
        rng = commands.part(seed, "turned-cells", number)
        counts = rng.choice((Counts(2, 1, 1), Counts(3, 2, 2), Counts(6, 4, 3), Counts(65, 5, 3)))
        cells = draw_filled(rng, counts, 10)
        drawer = Drawer(rng, counts)
        for _ in range(rng.randint(1, 3)):
            cell = drawer.statement()
            (cells.clear if cells.has(cell) else cells.set)(cell)
        commands.load(oracle.words_of(cells))
        commands.damaged += commands.add(counts, drawer.statement()) == oracle.REFUSED_NOT_CLOSED
        commands.add(counts, drawer.statement())


# A fresh store is the same whatever the words held before.
def fresh_over_anything(commands, seed):
    for number, counts in enumerate((Counts(0, 0, 0), Counts(3, 2, 2), Counts(64, 31, 15), LIMITS)):
        rng = commands.part(seed, "fresh-over", number)
        commands.load([rng.getrandbits(64) for _ in range(WORDS)])
        commands.fresh(counts)
        commands.load([2**64 - 1] * WORDS)
        every_call(commands, rng, counts)


# All zero is closed only if nothing is declared.
def all_zero(commands, seed):
    rng = commands.part(seed, "all-zero", 0)
    for counts in (Counts(0, 0, 0), Counts(1, 0, 0), Counts(0, 1, 0), Counts(0, 0, 1), LIMITS):
        commands.load([0] * WORDS)
        drawer = Drawer(rng, counts)
        for kind in KINDS:
            commands.add(counts, drawer.of_kind(kind))


# The whole test.
def write_all(commands, seed, sequences, rounds):
    commands.load([0] * WORDS)
    examples(commands, seed)
    fresh_over_anything(commands, seed)
    all_zero(commands, seed)
    wrong_lengths(commands, seed)
    wrong_counts(commands, seed)
    wrong_numbers(commands, seed)
    broken_rules(commands, seed, rounds)
    stray_bits(commands, seed)
    turned_cells(commands, seed, 10 * rounds)
    for number in range(sequences):
        sequence(commands, seed, number)
    for number in range(sequences // 40):
        large_store(commands, seed, number)
