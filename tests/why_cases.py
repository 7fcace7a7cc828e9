"""The sheets and questions that the answers to "why" are tested with.

A case is a sheet with questions as tests/oracle_why.py has them; what is due for each is said there. Each part of the
test draws from random numbers of its own, made from the seed and the part's name.
"""

import random
from collections import namedtuple

import oracle
import oracle_sheets
import oracle_why
import sheet_faults
from oracle_sheets import LINE_BYTES, OPERATORS, RULES, SHEET_BYTES, STATEMENTS
from oracle_why import KIND_NAMES, KINDS, told_by
from sheet_book import HEADER, Book, lines_of, named, sheet_of, with_empty_lines, words
from store_cases import require

Case = namedtuple("Case", "name sheet questions")

HUGE = 2**64 - 1
WRONG_LENGTHS = (oracle.WORDS - 1, oracle.WORDS + 1, 0)
EACH_REFUSED = 5  # sheets made for each number of refusal
RULE_TRIES = 300  # for a rule that something breaks

# --- Questions that are found by hand ---

NAMES = """
sheet 1
concept C
concept D
concept E
role r
role s
role t
item a
item b
item c
item d
"""

# Lines after these names, the first one with the number 12; a question; all reasons that it has, or its refusal.
POINTS = (
    ("stated", "in a C", "in a C", ([12],)),
    ("said-twice", "in a C\nin a C", "in a C", ([12], [13])),
    ("mirrored", "same a b\nsame b a", "same b a", ([12], [13])),
    ("left-tilde", "runder ~r s\nrunder r ~s", "runder r ~s", ([12], [13])),
    ("both-tildes", "runder ~r ~s\nrunder r s", "runder ~r ~s", ([12], [13])),
    ("reflexive-stated", "same a a\nsame a b", "same a a", ([],)),
    ("reflexive-around", "under C D\nunder D C", "under C C", ([],)),
    ("reflexive-role", "runder r ~r\nrunder r r", "runder r r", ([],)),
    ("reflexive-tildes", "in a C", "runder ~r ~r", ([],)),
    ("not-reflexive", "runder r ~r", "runder r ~r", ([12],)),
    ("two-ways", "same a b\nsame b c\nsame a d\nsame d c", "same a c", ([12, 13], [14, 15])),
    ("not-smallest", "same a b\nsame b c\nsame a c", "same c a", ([12, 13], [14])),
    ("path-from-the-end", "under D E\nunder C D", "under C E", ([12, 13],)),
    ("turned-step", "runder r ~r\nrunder r s", "runder r ~s", ([12, 13],)),
    ("step-twice", "runder r s\nrunder s ~r", "runder r ~s", ([12, 13],)),
    ("two-turns", "runder r ~s\nrunder s ~t", "runder r t", ([12, 13],)),
    ("around-twice", "runder r s\nrunder s t\nrunder t ~r", "runder s ~t", ([12, 13, 14],)),
    ("in-over", "under D E\nunder C D\nin a C", "in a E", ([12, 13, 14],)),
    ("in-same", "same a b\nin b C\nsame c b", "in c C", ([13, 14],)),
    ("in-choice", "in a C\nunder C E\nin a D\nunder D E\nin a E", "in a E", ([12, 13], [14, 15], [16])),
    ("link-turned", "runder r ~s\nrel r a b", "rel s b a", ([12, 13],)),
    ("link-ends", "same a c\nsame d b\nrel r a b", "rel r c d", ([12, 13, 14],)),
    ("link-all", "rel r a b\nsame a c\nrunder r ~s\nsame b d\nrunder s t", "rel t d c", ([12, 13, 14, 15, 16],)),
    ("link-itself", "rel r a b\nsame a b", "rel r b a", ([12, 13],)),
    ("link-choice", "rel r a b\nrunder r ~r\nrel r b a", "rel r b a", ([12, 13], [14])),
    ("link-one-path", "rel r a b\nsame a c\nsame c d\nsame b d", "rel r d d", ([12, 13, 14, 15],)),
    ("empty-lines", "\nin a C\n\nsame a b", "in b C", ([13, 15],)),
    ("false", "in a C", "in b C", 24),
    ("false-link", "rel r a b", "rel r b a", 24),
    ("false-under", "under C D", "under D C", 24),
    ("false-turn", "runder r s", "runder r ~s", 24),
    ("false-two-turns", "runder r ~s\nrunder s ~t", "runder r ~t", 24),
    ("false-forward", "runder r ~s\nrel r a b", "rel s a b", 24),
    ("finding", "in a C\nrule sub C D", "finding 13 a", ([12],)),
    ("finding-same", "in a C\nsame a b\nrule sub C D", "finding 14 b", ([12, 13],)),
    ("finding-second-rule", "in a C\nrule ref r\nrule sub C D\nrule sub C E", "finding 15 a", ([12],)),
    ("finding-rule-twice", "in a C\nrule sub C D\nrule sub C D", "finding 14 a", ([12],)),
    ("finding-of-no-one", "in a C\nin b D\nrule sub C D", "finding 14 b", 25),
    ("finding-kept", "in a C\nin a D\nrule sub C D", "finding 14 a", 25),
    ("finding-by-number", "in a C\nrule sub C D", "finding 0 a", 25),
    ("finding-top", "in a C\nrule sub top D", "finding 13 a", 25),
    ("finding-bot", "in a C\nrule sub C bot", "finding 13 a", 25),
    ("finding-nots", "in a C\nrule sub not not C D", "finding 13 a", 25),
    ("finding-not", "in a C\nin a D\nrule sub C not D", "finding 14 a", 25),
    ("finding-and", "in a C\nrule sub and C C D", "finding 13 a", 25),
    ("finding-in", "in a C\nrule in D a", "finding 13 a", 25),
    ("finding-ref", "in a C\nrule ref r", "finding 13 a", 25),
    ("finding-pair", "rel r a b\nrule rsub r s", "finding 13 a b", 25),
    ("finding-of-statement", "in a C\nrule sub C D", "finding 12 a", 25),
    ("rule-asked", "in a C\nrule sub C D", "rule sub C D", 24),
    ("declaration-asked", "in a C\nrule sub C D", "item e", 24),
)


# The sheet of a point.
def point_sheet(text):
    return sheet_of(lines_of(NAMES.strip("\n") + "\n" + text))


# These points, with every cell of their sheets asked too.
def points(seed):
    rng = part(seed, "points")
    for name, text, question, _ in POINTS:
        sheet = point_sheet(text)
        asked = [("text", "\t".join(words(question)).encode())]
        yield Case(f"points-{name}", sheet, asked + asked_of(rng, told_by(sheet), 2))
        yield Case(f"points-{name}-no-end", sheet[:-1], asked)


# --- Questions about any sheet ---


# Begins a part and gives its random numbers.
def part(seed, name):
    return random.Random(f"{seed} why {name}")


# The true cells of a kind as three numbers each.
def true_numbers(cells, kind):
    rows = (cells.same, cells.under, cells.role_under, cells.role_under_inverse, cells.member)
    if kind < len(rows):
        return [(a, b, 0) for a, row in enumerate(rows[kind]) for b in oracle.bits(row)]
    return [(a, b, R) for R, links in enumerate(cells.links) for a, row in enumerate(links) for b in oracle.bits(row)]


# How many numbers there are for each of the three numbers of a kind.
def number_counts(counts, kind):
    items, concepts, roles = counts
    return ((items, items, 1), (concepts, concepts, 1), (roles, roles, 1), (roles, roles, 1), (items, concepts, 1),
            (items, items, roles))[kind]


# A number that is not below a count, now and then one that is if it is cut short.
def draw_past(rng, number, count):
    return rng.choice((count, count + 1, HUGE, 128, 2**32 + number, 256 + number, 2**63 + number, 65536 + number))


# A question for a cell; where the third number has no use it may be anything.
def cell_question(rng, kind, numbers):
    a, b, c = numbers
    return "cell", oracle.WORDS, kind, a, b, c if kind == 5 else rng.choice((0, 0, 1, 7, HUGE))


# Questions for true cells of a kind: some of all, and some that no line states.
def true_cells(rng, told, kind, most):
    true = true_numbers(told.cells, kind)
    stated = set(told.statements.values())
    derived = [numbers for numbers in true
               if KINDS[kind](*numbers) not in stated and (kind > 2 or numbers[0] != numbers[1])]
    drawn = [rng.choice(some) for some in (true, derived) if some for _ in range(most)]
    return [cell_question(rng, kind, numbers) for numbers in drawn]


# Questions for cells of a kind at random, and past the counts.
def other_cells(rng, told, kind):
    counts = number_counts(told.outcome.counts, kind)
    inside = [rng.randrange(max(count, 1)) for count in counts]
    true = rng.choice(true_numbers(told.cells, kind) or [tuple(inside)])
    at = rng.randrange(3 if kind == 5 else 2)
    past = [draw_past(rng, n, count) if place == at else n for place, (n, count) in enumerate(zip(true, counts))]
    both = [rng.choice((max(counts[:2]), max(counts[:2]) + 1, 15, 31, 127, HUGE))] * 2 + [0]
    no_kind = rng.choice((6, 7, 8 + kind, 2**32 + kind, HUGE, 256 + kind))
    asked = [cell_question(rng, kind, numbers) for numbers in (inside, past, both)]
    return asked + [("cell", oracle.WORDS, no_kind, *true)]


# Questions for findings by number: of every rule, and past the counts.
def finding_questions(rng, told, most):
    rules, items = len(told.sheet.rules), max(told.outcome.counts.items, 1)
    asked = [(rng.choice((rules, 64, HUGE, 2**32, 256)), rng.randrange(items))]
    for number, (line, _) in enumerate(told.sheet.rules):
        broken = [finding[1] for finding in told.outcome.findings if finding[0] == number]
        drawn = [rng.choice(broken) for _ in range(most) if broken] + [rng.randrange(items)]
        asked += [(number, item) for item in drawn]
        past = (number, draw_past(rng, drawn[0], told.outcome.counts.items))
        others = [(other, drawn[0]) for other in (2**32 + number, 256 + number, line, rules)]
        asked += [rng.choice((past, *others))]
    return [("finding", oracle.WORDS, rule, item) for rule, item in asked]


# The line that states a cell, in one of the ways to write it.
def line_for(rng, told, cell):
    kind, *numbers = cell
    if kind == "role_under":
        R, S = (told.name("role", number) for number in numbers[:2])
        left = rng.choice(("", "~"))
        right = "~" if (left == "~") != (numbers[2] == 1) else ""
        return ["runder", left + R, right + S]
    kinds = {"same": ("item", "item"), "under": ("concept", "concept"), "in": ("item", "concept"),
             "link": ("role", "item", "item")}[kind]
    return ["rel" if kind == "link" else kind, *(told.name(*named_by) for named_by in zip(kinds, numbers))]


# A line as a question, with a line feed or without.
def asked_line(rng, fields):
    return "text", ("\t".join(fields) + rng.choice(("", "\n"))).encode("latin-1")


# Questions as text for true cells of every kind, for one at random, and for the findings as they are printed.
def text_questions(rng, told, most):
    asked = []
    for kind in range(len(KINDS)):
        counts = number_counts(told.outcome.counts, kind)
        drawn = [rng.choice(true) for true in [true_numbers(told.cells, kind)] if true for _ in range(most)]
        drawn += [tuple(rng.randrange(count) for count in counts)] if all(counts) else []
        asked += [asked_line(rng, line_for(rng, told, KINDS[kind](*numbers))) for numbers in drawn]
    printed = [line.split("\t") for line in told.outcome.text.splitlines() if line.startswith("finding")]
    asked += [asked_line(rng, fields) for fields in rng.sample(printed, min(len(printed), 3 * most))]
    return asked


# All sorts of questions about an accepted sheet.
def asked_of(rng, told, most):
    asked = []
    for kind in range(len(KINDS)):
        asked += true_cells(rng, told, kind, most) + other_cells(rng, told, kind)
    asked += finding_questions(rng, told, most) + text_questions(rng, told, 1)
    sort, _, *numbers = rng.choice([question for question in asked if question[0] != "text"])
    return asked + [(sort, rng.choice(WRONG_LENGTHS), *numbers)]


# --- Sheets that stand ---


# A sheet of a book: statements, some of them said again, and rules.
def draw_sheet(rng, book, statements, rules, kinds):
    said = [book.statement(rng.choice(kinds)) for _ in range(statements)]
    for _ in range(rng.choice((0, 0, 1, 3)) if said else 0):
        said.insert(rng.randint(0, len(said)), said_again(rng, rng.choice(said)))
    ruled = [["rule", "sub", book.name("concept"), book.name("concept")] if rng.random() < 0.6 else book.rule(nodes=3)
             for _ in range(rules)]
    lines, _ = with_empty_lines(rng, [HEADER, *book.declarations(), *said, *ruled], None)
    return sheet_of(lines, rng.choice(("\n", "", "\n\n")))


# A line that says what a statement says, in the same words or in others.
def said_again(rng, line):
    if line[0] == "same" and rng.random() < 0.7:
        return ["same", line[2], line[1]]
    if line[0] == "runder" and rng.random() < 0.7:
        return ["runder", *(role[1:] if role.startswith("~") else "~" + role for role in line[1:])]
    return line


# Which statements a drawn sheet has, some more often than others.
MIXES = (
    tuple(STATEMENTS), tuple(STATEMENTS), ("same",), ("under",), ("runder",), ("same", "same", "in", "under"),
    ("runder", "rel"), ("same", "rel"), ("runder", "runder", "same", "same", "rel"), ("in", "under", "under"),
)


# Sheets drawn of any names and statements.
def drawn(seed, sheets):
    rng = part(seed, "drawn")
    for number in range(sheets):
        book = Book(rng, rng.randint(1, 5), rng.randint(1, 4), rng.choice((1, 2, 3, 4, 5, 6, 9)))
        statements = rng.choice((0, 1, 3, 6, 10, 14, 20, 30))
        sheet = draw_sheet(rng, book, statements, rng.choice((0, 1, 2, 4)), MIXES[number % len(MIXES)])
        if len(sheet) <= SHEET_BYTES:
            yield Case(f"drawn-{number}", sheet, asked_of(rng, told_by(sheet), 1))


# Few names and one kind of statement, as many lines as give several reasons for most cells.
def dense(seed, sheets):
    rng = part(seed, "dense")
    for number in range(sheets):
        book = Book(rng, rng.randint(2, 4), rng.randint(2, 4), rng.randint(2, 5))
        kinds = MIXES[2 + number % (len(MIXES) - 2)]
        sheet = draw_sheet(rng, book, rng.choice((8, 16, 30)), 2, kinds)
        yield Case(f"dense-{number}", sheet, asked_of(rng, told_by(sheet), 2))


# A small sheet with two rules of a word, of which something breaks one.
def draw_ruled(rng, word):
    for _ in range(RULE_TRIES):
        book = Book(rng, 2, 2, 3)
        said = [book.statement(kind) for kind in ("in", "in", "rel", "rel", "same") if rng.random() < 0.8]
        sheet = sheet_of([HEADER, *book.declarations(), *said, *(rule_with(rng, book, word) for _ in range(2))])
        if told_by(sheet).outcome.findings:
            return sheet
    raise AssertionError(f"nothing breaks a rule with {word}")


# Each rule word, and each operator on a side of `sub`.
def rule_words(seed):
    rng = part(seed, "rules")
    for word in (*RULES, *OPERATORS, "names"):
        for again in range(3):
            told = told_by(draw_ruled(rng, word))
            yield Case(f"rules-{word}-{again}", told.bytes, finding_questions(rng, told, 2) + text_questions(rng, told, 1))


# A rule with a rule word, with an operator on one side, or with names on both.
def rule_with(rng, book, word):
    if word in RULES and word != "sub":
        return book.rule(word, 3)
    name = [book.name("concept")]
    shown = [book.name("concept")] if word in ("names", "sub") else [word, *book.fields(OPERATORS[word], 1)]
    return ["rule", "sub", *rng.choice(([*shown, *name], [*name, *shown]))]


# --- Damaged questions ---


# Lines that are not what they should be, made from the fields of a right one.
def damaged_lines(rng, fields):
    line = "\t".join(fields)
    at = rng.randrange(1, len(fields))
    put = lambda place, text: "\t".join(text if n == place else field for n, field in enumerate(fields))
    yield "line-feed", line + "\n"
    yield "two-line-feeds", line + "\n\n"
    yield "first-feed", "\n" + line
    yield "return", line + "\r"
    yield "return-feed", line + "\r\n"
    yield "two-lines", line + "\n" + line
    yield "two-lines-ended", line + "\n" + line + "\n"
    yield "blank-end", line + " "
    yield "blank-start", " " + line
    yield "blanks", line.replace("\t", " ")
    yield "tab-end", line + "\t"
    yield "tab-start", "\t" + line
    yield "two-tabs", line.replace("\t", "\t\t", 1)
    yield "field-more", line + "\t" + fields[-1]
    yield "field-less", "\t".join(fields[:-1])
    yield "word-alone", fields[0]
    yield "no-word", "\t".join(fields[1:])
    yield "capitals", put(0, fields[0].upper())
    yield "word-longer", put(0, fields[0] + "s")
    yield "word-shorter", put(0, fields[0][:-1])
    yield "no-name", put(at, rng.choice(("", " ", "a b", "x" * 25)))
    yield "undeclared", put(at, "nowhere")
    yield "other-case", put(at, fields[at].swapcase())
    yield "tilde", put(at, "~" + fields[at])
    yield "two-tildes", put(at, "~~" + fields[at])
    yield "zero-byte", line + "\0"
    yield "high-byte", put(at, fields[at] + "\xe9")
    yield "too-long", line + "\t" + "x" * LINE_BYTES
    yield "long-blank", line + " " * (LINE_BYTES + 1)


# Questions that are none, whatever the sheet.
NO_QUESTIONS = ("", "\n", "\n\n", "\t", " ", "\r\n", "sheet\t1", "rule", "in", "finding", "finding\n", "finding\n\n",
                "finding\t", "finding\t\t", "finding\t1", "Finding\t1\ta", "findings", "finding ", "total\t0", "why", "~",
                "trans\tr", "differ\ta\tb", "x" * 513, "\0")


# Lines of a finding that are not what they should be.
def damaged_findings(rng, told, fields):
    line, item = int(fields[1]), fields[2]
    numbers = (f"0{line}", f"00{line}", f"+{line}", f"-{line}", f" {line}", f"{line} ", f"{line}.0", f"{line + 2**32}",
               f"{line + 2**64}", f"{line + 2**16}", f"{line + 10**19}", f"{10**30}", f"{line + 1}", f"{line - 1}",
               "0", "1", "", "x", hex(line), f"{line}0", "9" * 60, *(str(number) for number, _ in told.sheet.rules))
    for number in numbers:
        yield "finding-line", f"finding\t{number}\t{item}"
    for other in told.sheet.names["item"]:
        yield "finding-item", f"finding\t{line}\t{other}"
        yield "finding-pair", f"finding\t{line}\t{item}\t{other}"
    for other in ("", "nowhere", item.swapcase(), item + " ", "~" + item, "0"):
        yield "finding-no-item", f"finding\t{line}\t{other}"
    yield "finding-number", f"finding\t{[number for number, _ in told.sheet.rules].index(line)}\t{item}"
    yield "finding-turned", f"finding\t{item}\t{line}"


# A sheet for damaged questions: true cells of every kind, and findings of names and of others.
DAMAGED_SHEET = NAMES + """
in a C
same a b
under C D
runder r ~s
rel r a c
rel t d d

rule sub C E
rule in E a
rule sub D E
rule sub top E
rule rsub r t
rule sub C D
"""


# Questions about it with the sides exchanged or turned, some of them true.
TURNED = ("same\tb\ta", "rel\ts\tc\tb", "runder\t~r\ts", "rel\t~s\ta\tc", "runder\tr\ts", "under\tD\tC", "rel\tr\tc\ta")


# Damaged questions about that sheet, with rules and without, and about sheets drawn.
def damaged(seed):
    rng = part(seed, "damaged")
    full = sheet_of([line for line in lines_of(DAMAGED_SHEET.replace("\n\nin", "\nin"))])
    for name, sheet in (("full", full), ("no-rules", full[:full.index(b"\nrule")]), ("no-end", full[:-1])):
        told = told_by(sheet)
        require(told.refusal() is None, f"the sheet for damaged questions is refused: {told.refusal()}")
        asked = [("none", text) for text in NO_QUESTIONS]
        asked += [("of-the-sheet", line) for line in told.lines.values()]
        for line in told.statements:
            asked += list(damaged_lines(rng, told.lines[line].split("\t")))
        for fields in [line.split("\t") for line in told.outcome.text.splitlines() if line.startswith("finding")]:
            asked += list(damaged_lines(rng, fields)) + list(damaged_findings(rng, told, fields))
        asked += [("turned", text) for text in TURNED]
        for way, text in asked:
            yield Case(f"damaged-{name}-{way}", sheet, [("text", text.encode("latin-1"))])


# --- Long reasons ---


# The names of a sheet that has many.
def many_names(items, concepts, roles):
    return [HEADER, *named("concept", concepts), *named("role", roles), *named("item", items)]


# So many lines that lead from the first name to the last.
def path(word, count):
    return [[word, f"n{number}", f"n{number + 1}"] for number in range(count)]


# A statement, and how many items, concepts and roles there are, for a path through all of its kind.
LONG_PATHS = (("same", 128, 2, 2), ("same", 40, 1, 1), ("under", 3, 32, 1), ("runder", 3, 1, 16))


# Sheets with long paths, their lines rising, falling and mixed, and other lines among them.
def long_paths(seed):
    rng = part(seed, "long")
    for order in ("rising", "falling", "mixed"):
        for word, items, concepts, roles in LONG_PATHS:
            last = {"same": items, "under": concepts, "runder": roles}[word] - 1
            lines = path(word, last) + [["in", "n0", "n0"], ["rel", "n0", "n0", "n1"]]
            lines = lines[::-1] if order == "falling" else rng.sample(lines, len(lines)) if order == "mixed" else lines
            lines += [["rule", "sub", "n0", "n1"]] if concepts > 1 and word != "under" else []
            sheet = sheet_of(many_names(items, concepts, roles) + lines)
            yield Case(f"long-{word}-{order}-{items}", sheet, long_questions(word, last))


# Questions for the cells of a long path: its ends, its middle, and what follows at its end.
def long_questions(word, last):
    kind = {"same": 0, "under": 1, "runder": 2}[word]
    asked = [(kind, 0, last, 0), (kind, last, 0, 0), (kind, last // 2, last, 0), (kind, 0, 0, 0)]
    asked += [(4, last, 0, 0), (5, last, 1, 0), (5, 0, last, 0), (5, 1, 0, 0)] if word == "same" else []
    asked += [(4, 0, last, 0)] if word == "under" else [(5, 0, 1, last)] if word == "runder" else []
    texts = [("text", f"{word}\tn0\tn{last}".encode()), ("text", f"{word}\tn{last}\tn1\n".encode())]
    return [("cell", oracle.WORDS, *numbers) for numbers in asked] + texts + [("finding", oracle.WORDS, 0, last)]


# Role steps around in a cycle with a turn in it, so that every role is under every other one and its inverse.
def role_cycles(seed):
    rng = part(seed, "cycles")
    for roles in (2, 3, 5, 16):
        steps = [["runder", f"n{number}", ("~" if number == 0 else "") + f"n{(number + 1) % roles}"]
                 for number in range(roles)]
        rng.shuffle(steps)
        sheet = sheet_of([*many_names(3, 1, roles), ["rel", "n0", "n1", "n2"], *steps, *steps[:2]])
        cells = [(kind, rng.randrange(roles), rng.randrange(roles), 0) for kind in (2, 3) for _ in range(6)]
        cells += [(5, *pair, rng.randrange(roles)) for pair in ((1, 2), (2, 1)) for _ in range(3)]
        yield Case(f"cycles-{roles}", sheet, [("cell", oracle.WORDS, *numbers) for numbers in cells])


# A sheet of 32,768 bytes of one article, thousands of links and role steps.
def full_sheets(seed):
    rng = part(seed, "full")
    lines = [*many_names(128, 32, 16), *[["same", f"n{n}", f"n{n + 1}"] for n in range(20)]]
    while len(sheet_of(lines)) < SHEET_BYTES - 60:
        lines.append(rng.choice((["rel", f"n{rng.randrange(16)}", *(f"n{rng.randrange(128)}" for _ in range(2))],
                                 ["under", f"n{rng.randrange(32)}", f"n{rng.randrange(32)}"],
                                 ["in", f"n{rng.randrange(128)}", f"n{rng.randrange(32)}"])))
    sheet = sheet_of([*lines, ["rule", "sub", "n0", "n1"]])
    told = told_by(sheet)
    asked = [question for kind in range(len(KINDS)) for question in true_cells(rng, told, kind, 2)]
    yield Case("full-0", sheet, asked + finding_questions(rng, told, 1) + text_questions(rng, told, 1))


# Names of full length, all lines as long as they can be.
def long_names(seed):
    rng = part(seed, "names")
    names = {kind: [f"{kind}-{number}".ljust(24, "x") for number in range(4)] for kind in ("concept", "role", "item")}
    book = Book(rng, 0, 0, 0)
    book.names = names
    for number in range(4):
        sheet = draw_sheet(rng, book, 16, 2, MIXES[0])
        yield Case(f"names-{number}", sheet, asked_of(rng, told_by(sheet), 2))


# --- Refused sheets ---


# Questions about a refused sheet: cells that are true in what its earlier lines gave, others, and lines.
def asked_of_refused(rng, sheet):
    outcome = told_by(sheet).outcome
    asked = [(kind, 0, 0, 0) for kind in range(len(KINDS))] + [(9, 0, 0, 0), (0, HUGE, 0, 0)]
    if outcome.words is not None and any(outcome.words):
        cells = oracle.cells_of(outcome.words, outcome.counts)
        asked += [(kind, *rng.choice(true)) for kind in range(len(KINDS)) for true in [true_numbers(cells, kind)] if true]
    asked = [("cell", oracle.WORDS, *numbers) for numbers in rng.sample(asked, min(len(asked), 6))]
    asked += [("finding", oracle.WORDS, rng.choice((0, 0, 1, HUGE)), rng.choice((0, 1, HUGE)))]
    line = rng.choice(oracle_sheets.lines_of(sheet) or [""]).encode("latin-1")
    asked += [("text", text) for text in (line, b"", b"finding\t1\ta", b"in\ta\tA")]
    return asked + [("cell", rng.choice(WRONG_LENGTHS), 0, 0, 0, 0), ("finding", rng.choice(WRONG_LENGTHS), 0, 0)]


# Some sheets made for each number of refusal.
def refused(seed):
    rng = part(seed, "refused")
    found = {}
    for case in sheet_faults.all_cases(seed, 1):
        found.setdefault(case.due[1] if case.due else None, []).append(case)
    for number, cases in sorted((number, cases) for number, cases in found.items() if number is not None):
        for case in rng.sample(cases, min(len(cases), EACH_REFUSED)):
            yield Case(f"refused-{number}", case.sheet, asked_of_refused(rng, case.sheet))


# Sheets that stand but for one line near their end, or that are too long.
def spoiled(seed, sheets):
    rng = part(seed, "spoiled")
    bad = (b"rule\tfoo", b"rule", b"x", b"item\tz", b"in\tnowhere\tC", b"rule\tsub\ttop", b"\r", b"rule\tin\ttop\tnowhere")
    for number in range(sheets):
        book = Book(rng, 2, 2, 3)
        sheet = draw_sheet(rng, book, 8, 2, MIXES[0]).rstrip(b"\n")
        lines = sheet.split(b"\n")
        at = rng.randint(len(lines) - 2, len(lines))
        made = b"\n".join([*lines[:at], rng.choice(bad), *lines[at:]])
        made = sheet + b"\n" * SHEET_BYTES if number % 6 == 0 else made
        yield Case(f"spoiled-{number}", made, questions_of_sound(rng, sheet) + asked_of_refused(rng, made))


# Questions that would be answered if the sheet had not been spoiled.
def questions_of_sound(rng, sheet):
    asked = asked_of(rng, told_by(sheet), 1)
    return rng.sample(asked, min(len(asked), 12))


# --- All cases ---


# Every case of a run.
def all_cases(seed, sheets, small=False):
    yield from points(seed)
    yield from damaged(seed)
    yield from rule_words(seed)
    yield from role_cycles(seed)
    yield from long_names(seed)
    yield from refused(seed)
    yield from spoiled(seed, max(sheets // 4, 12))
    yield from dense(seed, sheets)
    yield from drawn(seed, sheets)
    if not small:
        yield from long_paths(seed)
        yield from full_sheets(seed)


# --- What a run has to have ---


# The kinds of cases that a question belongs to, by what is due for it.
def classes_of(told, question, asked):
    sort = question[0]
    number = None if asked.refusal is None else asked.refusal[1]
    found = {f"{sort} {number}"}
    if sort == "cell" and number in (None, 24) and question[2] < len(KINDS):
        name = KIND_NAMES[question[2]]
        found.add(f"{name} {'true' if number is None else 'false'}")
        if number is None and not oracle_why.wrong_reason(told, asked.cell, []):
            found.add("reflexive, stated" if asked.cell in told.statements.values() else "reflexive")
        if number == 24 and not oracle.declared(oracle_why.numbered_cell(*question[2:]), told.outcome.counts):
            found.add(f"{name} not declared")
    if sort == "text" and number is None:
        word, ended = question[1].decode("latin-1").split("\t")[0], question[1].endswith(b"\n")
        found.add(f"text {word} answered" + (", line feed" if ended else ""))
    return found


# The kinds that a run has to have.
def classes_due():
    due = [f"{sort} {number}" for sort, own in (("cell", 24), ("finding", 25)) for number in (None, 1, *range(9, 22), own)]
    due += [f"text {number}" for number in (None, *range(9, 22), 24, 25)]
    due += [f"{name} {what}" for name in KIND_NAMES for what in ("true", "false", "not declared")]
    due += [f"text {word} answered{end}" for word in (*STATEMENTS, "finding") for end in ("", ", line feed")]
    return due + ["reflexive", "reflexive, stated"]


# The kinds that an answer belongs to, by the number of its lines.
def answer_classes(total):
    return {f"reason of {total if total < 3 else '3 or more' if total < 20 else '20 or more'}"}


ANSWER_CLASSES = ("reason of 0", "reason of 1", "reason of 2", "reason of 3 or more")
LONG_CLASSES = ("reason of 20 or more",)


# Stops the run if a kind has no case; `seen` counts them.
def require_covered(seen, due):
    missing = [name for name in due if not seen[name]]
    require(not missing, f"the questions never have: {', '.join(missing)}")
