"""The sheets that are judged for speed, drawn from a seed.

    python3 bench/sheets.py FOLDER [--seed N]     writes them all, and those of the growth series

A sheet is a list of lines, a line a list of fields. Every sheet is accepted.
"""

import argparse
import random
from pathlib import Path

SHEET_BYTES = 32768
DEFAULT_SEED = 5
NODES = 32
RULES = 64
ITEMS, CONCEPTS, ROLES = 128, 32, 16
LARGE_ITEMS = 512  # of edition 2
HEADER = ["sheet", "1"]
ONE_CHARACTER = "ABCDEFGHIJKLMNOPQRSTUVWXYZabcdefghijklmnopqrstuvwxyz0123456789._/-"

# What an operator adds to the size of what it works on, and how many expressions that is.
OPERATORS = {"and": (1, 2), "or": (4, 2), "not": (1, 1), "some": (1, 1), "all": (3, 1), "atleast": (1, 1), "atmost": (2, 1)}


# The bytes of a sheet.
def bytes_of(lines):
    return "".join("\t".join(line) + "\n" for line in lines).encode()


# Lines that declare names of one kind.
def declared(kind, names):
    return [[kind, name] for name in names]


# Names that begin alike.
def numbered(stem, count):
    return [f"{stem}{number:03}" for number in range(count)]


# As many of some lines as still fit into a sheet, with room left for others.
def as_many_as_fit(lines, more, after):
    room = SHEET_BYTES - len(bytes_of(lines)) - len(bytes_of(after))
    fitting = []
    for line in more:
        room -= len(bytes_of([line]))
        if room < 0:
            break
        fitting.append(line)
    return [*lines, *fitting, *after]


# --- Catalogues as they are in use ---

FAMILIES = ("Part", "Blade", "AxialBlade", "RadialBlade", "Hub", "PlainHub", "SplinedHub", "Guard", "Bore", "Maker", "Box",
            "Steel", "Alloy", "Withdrawn")
LINKS = ("fits", "takes", "has-bore", "made-by", "makes", "shields", "packed-in", "replaces", "swaps")
UNDERS = ("AxialBlade Blade", "RadialBlade Blade", "PlainHub Hub", "SplinedHub Hub", "Blade Part", "Hub Part", "Guard Part")
ROLE_UNDERS = ("makes ~made-by", "made-by ~makes", "swaps ~swaps", "replaces swaps")
CATALOGUE_RULES = (
    "sub Blade some fits Hub",
    "sub Blade some made-by Maker",
    "sub or Blade Hub some has-bore Bore",
    "sub or Blade Hub atmost 1 has-bore Bore",
    "chain fits has-bore has-bore",
    "rsub takes ~fits",
    "irr replaces",
    "dis fits shields",
    "sub Guard and some shields Blade all shields Blade",
    "sub Blade not Hub",
    "sub Blade or Steel Alloy",
    "sub and Blade Withdrawn some ~replaces Blade",
    "sub Box and atleast 2 ~packed-in Blade atmost 7 ~packed-in Blade",
    "sub top or Part or Bore or Maker Box",
)
# Of a hundred codes, how many are of each kind.
SHARES = {"blade": 50, "hub": 20, "guard": 12, "bore": 7, "maker": 4, "box": 7}
CODES = {"blade": "FB-", "hub": "HX-", "guard": "GD-", "bore": "BORE-", "maker": "MK-", "box": "BX-"}


# The codes of a catalogue by kind; each kind has one at least.
def catalogue_codes(items):
    counts = {kind: max(1, items * share // 100) for kind, share in SHARES.items()}
    counts["blade"] += items - sum(counts.values())
    return {kind: [f"{CODES[kind]}{number + 1:02}" for number in range(count)] for kind, count in counts.items()}


# What is said of one blade; a line is left out now and then.
def blade_lines(rng, blade, codes, bore_of):
    hub = rng.choice(codes["hub"])
    lines = [["in", blade, rng.choice(("AxialBlade", "RadialBlade"))], ["in", blade, rng.choice(("Steel", "Alloy"))],
             ["rel", "fits", blade, hub], ["rel", "takes", hub, blade], ["rel", "has-bore", blade, bore_of[hub]],
             ["rel", "packed-in", blade, rng.choice(codes["box"])]]
    maker = rng.choice(codes["maker"])
    lines.append(rng.choice((["rel", "made-by", blade, maker], ["rel", "makes", maker, blade])))
    if rng.random() < 0.15:
        lines += [["in", blade, "Withdrawn"], ["rel", "replaces", rng.choice(codes["blade"]), blade]]
    if rng.random() < 0.2:
        lines.append(["rel", "swaps", blade, rng.choice(codes["blade"])])
    return [line for line in lines if rng.random() > 0.02]


# The statements of a catalogue.
def catalogue_statements(rng, codes):
    bore_of = {hub: rng.choice(codes["bore"]) for hub in codes["hub"]}
    lines = [["under", *pair.split()] for pair in UNDERS] + [["runder", *pair.split()] for pair in ROLE_UNDERS]
    for kind, family in (("bore", "Bore"), ("maker", "Maker"), ("box", "Box"), ("guard", "Guard")):
        lines += [["in", code, family] for code in codes[kind]]
    for hub in codes["hub"]:
        lines += [["in", hub, rng.choice(("PlainHub", "SplinedHub"))], ["rel", "has-bore", hub, bore_of[hub]]]
    for blade in codes["blade"]:
        lines += blade_lines(rng, blade, codes, bore_of)
    for guard in codes["guard"]:
        lines.append(["rel", "shields", guard, rng.choice(codes["blade"])])
    twins = rng.sample(codes["blade"], 2 * (len(codes["blade"]) // 24)) if len(codes["blade"]) > 4 else []
    return lines + [["same", *twins[at:at + 2]] for at in range(0, len(twins), 2)]


# Rules that name codes.
def named_rules(rng, codes):
    blade, other = rng.sample(codes["blade"], 2)
    hub = rng.choice(codes["hub"])
    return [f"in and Hub some has-bore one {codes['bore'][0]} {hub}", f"rel fits {blade} {hub}",
            f"norel made-by {blade} {codes['maker'][0]}", f"same {blade} {other}", f"differ {blade} {other}"]


# A catalogue of so many codes.
def catalogue(rng, items):
    codes = catalogue_codes(items)
    rules = [*CATALOGUE_RULES, *named_rules(rng, codes)]
    return [HEADER, *declared("concept", FAMILIES), *declared("role", LINKS),
            *(line for kind in codes for line in declared("item", codes[kind])),
            *catalogue_statements(rng, codes), *(["rule", *rule.split()] for rule in rules)]


# A catalogue of 512 codes, of edition 2, with as many of its statements as 32 KB have room for.
def large_catalogue(rng):
    codes = catalogue_codes(LARGE_ITEMS)
    rules = [["rule", *rule.split()] for rule in (*CATALOGUE_RULES, *named_rules(rng, codes))]
    names = [*declared("concept", FAMILIES), *declared("role", LINKS),
             *(line for kind in codes for line in declared("item", codes[kind]))]
    statements = catalogue_statements(rng, codes)
    rng.shuffle(statements)
    return as_many_as_fit([["sheet", "2"], *names], statements, rules)


# --- Sheets of 32 KB ---


# A role, turned in some cases.
def some_role(rng, roles):
    return rng.choice(("", "", "~")) + rng.choice(roles)


# An expression of exactly so many nodes, with names of its own lists.
def expression(rng, size, concepts, roles, items):
    fitting = [word for word, (adds, parts) in OPERATORS.items() if adds + parts <= size]
    if size == 1:
        return rng.choice(([rng.choice(concepts)], [rng.choice(concepts)], ["self", some_role(rng, roles)],
                           ["one", rng.choice(items)], ["top"]))
    word = rng.choice(fitting)
    adds, parts = OPERATORS[word]
    count = {"atleast": [str(rng.randint(1, 4))], "atmost": [str(rng.randint(0, 4))]}.get(word, [])
    role = [some_role(rng, roles)] if word in ("some", "all", "atleast", "atmost") else []
    left = size - adds
    first = left if parts == 1 else rng.randint(1, left - 1)
    sizes = [first] if parts == 1 else [first, left - first]
    return [word, *count, *role, *(field for each in sizes for field in expression(rng, each, concepts, roles, items))]


# A rule `sub` of exactly 32 nodes, in a line that is not too long.
def full_rule(rng, concepts, roles, items):
    while True:
        left = rng.randint(1, NODES - 1)
        rule = ["rule", "sub", *expression(rng, left, concepts, roles, items),
                *expression(rng, NODES - left, concepts, roles, items)]
        if len("\t".join(rule)) <= 512:
            return rule


# Statements drawn at random.
def drawn(rng, count, items, concepts, roles):
    return [["in", rng.choice(items), rng.choice(concepts)] if rng.random() < 0.3
            else ["rel", rng.choice(roles), rng.choice(items), rng.choice(items)] for _ in range(count)]


# Mostly links: 128 items, 16 roles, a few rules that read them.
def link_heavy(rng):
    items, concepts, roles = numbered("FB-", ITEMS), numbered("Family", 8), numbered("link", ROLES)
    begin = [HEADER, *declared("concept", concepts), *declared("role", roles), *declared("item", items),
             ["runder", roles[0], roles[1]], ["runder", roles[2], "~" + roles[3]], ["under", concepts[0], concepts[1]],
             *(["in", item, rng.choice(concepts)] for item in items),
             *(["same", *rng.sample(items, 2)] for _ in range(6))]
    links = (["rel", rng.choice(roles), *rng.choices(items, k=2)] for _ in range(4000))
    rules = [["rule", "chain", *rng.sample(roles, 3)], ["rule", "chain", roles[0], "~" + roles[4], roles[5], roles[1]],
             ["rule", "rsub", roles[0], roles[1]], ["rule", "dis", roles[6], "~" + roles[7]], ["rule", "irr", roles[8]],
             ["rule", "sub", concepts[0], "some", roles[9], concepts[1]],
             ["rule", "sub", concepts[2], "all", "~" + roles[10], concepts[3]],
             ["rule", "sub", "top", "atmost", "2", roles[11], "top"]]
    return as_many_as_fit(begin, links, rules)


# Mostly rules: 64 of 32 nodes each, over 128 items.
def rule_heavy(rng):
    items, concepts, roles = numbered("FB-", ITEMS), numbered("Family", 12), numbered("link", ROLES)
    begin = [HEADER, *declared("concept", concepts), *declared("role", roles), *declared("item", items)]
    rules = [full_rule(rng, concepts, roles, items) for _ in range(RULES)]
    return as_many_as_fit(begin, drawn(rng, 2000, items, concepts, roles), rules)


# --- The worst that a sheet can ask for ---


# All items are one article, every role links it to itself, 64 rules of 32 nodes: thirty steps one inside the other,
# or fifteen counts to 8 over all items.
def all_the_same(rng):
    items, roles = numbered("I", ITEMS), numbered("r", ROLES)
    rules = []
    for number in range(RULES):
        steps = ["some"] if number % 2 == 0 else ["not", "atleast", "8"]
        inside = [field for _ in range((NODES - 2) // (1 if number % 2 == 0 else 2))
                  for field in (*steps, some_role(rng, roles))]
        rules.append(["rule", "sub", "top", *inside, "top"])
    return [HEADER, *declared("role", roles), *declared("item", items),
            *(["rel", role, *rng.choices(items, k=2)] for role in roles),
            *(["same", *pair] for pair in zip(items, items[1:])), *rules]


# 3,000 links between 66 items, every role under every other and under its inverse.
def most_links(rng):
    items, roles = list(ONE_CHARACTER), list(ONE_CHARACTER[:ROLES])
    steps = [["runder", role, over] for role, over in zip(roles, [*roles[1:], "~" + roles[0]])]
    links = [["rel", rng.choice(roles), *rng.choices(items, k=2)] for _ in range(3000)]
    rules = [["rule", "irr", roles[0]], ["rule", "chain", roles[0], roles[1], roles[2]], ["rule", "ref", roles[3]],
             ["rule", "sub", "top", "atleast", "8", roles[4], "top"]]
    return [HEADER, *declared("role", roles), *declared("item", items), *steps, *links, *rules]


# 500 times `under` between 32 concepts, after 128 items were put into them.
def most_unders(rng):
    items, concepts, roles = numbered("I", ITEMS), numbered("C", CONCEPTS), ["r", "s"]
    unders = rng.sample([["under", A, B] for A in concepts for B in concepts if A != B], 500)
    rules = [["rule", "sub", *rng.sample(concepts, 2)] for _ in range(8)] + [["rule", "sub", concepts[0], "some", "r", concepts[1]]]
    return [HEADER, *declared("concept", concepts), *declared("role", roles), *declared("item", items),
            *(["in", item, rng.choice(concepts)] for item in items if rng.random() < 0.8),
            *(["rel", rng.choice(roles), *rng.choices(items, k=2)] for _ in range(100)), *unders, *rules]


# --- How cost grows: one thing changes, the rest stays ---


# So many items, each in a family and with two links, and eight rules.
def with_items(rng, count):
    items, concepts, roles = numbered("I", count), numbered("C", 8), numbered("r", 8)
    rules = [["rule", "sub", concepts[n], "some", roles[n], concepts[(n + 1) % 8]] for n in range(8)]
    return [HEADER, *declared("concept", concepts), *declared("role", roles), *declared("item", items),
            *(["in", item, rng.choice(concepts)] for item in items),
            *(["rel", rng.choice(roles), item, rng.choice(items)] for item in items for _ in range(2)), *rules]


# So many links between 66 items by 8 roles that are under none, and eight rules.
def with_links(rng, count):
    items, concepts, roles = list(ONE_CHARACTER), numbered("C", 8), list(ONE_CHARACTER[:8])
    rules = [["rule", "sub", concepts[n], "some", roles[n], concepts[(n + 1) % 8]] for n in range(8)]
    return [HEADER, *declared("concept", concepts), *declared("role", roles), *declared("item", items),
            *(["in", item, rng.choice(concepts)] for item in items),
            *(["rel", rng.choice(roles), *rng.choices(items, k=2)] for _ in range(count)), *rules]


# So many rules of 32 nodes over 128 items with 400 statements.
def with_rules(rng, count):
    items, concepts, roles = numbered("I", ITEMS), numbered("C", 8), numbered("r", 8)
    statements = drawn(random.Random(1), 400, items, concepts, roles)
    return [HEADER, *declared("concept", concepts), *declared("role", roles), *declared("item", items), *statements,
            *(full_rule(rng, concepts, roles, items) for _ in range(count))]


SHEETS = {
    "catalogue-10": lambda rng: catalogue(rng, 10),
    "catalogue-40": lambda rng: catalogue(rng, 40),
    "catalogue-128": lambda rng: catalogue(rng, 128),
    "links-32k": link_heavy,
    "rules-32k": rule_heavy,
    "worst-same": all_the_same,
    "worst-links": most_links,
    "worst-unders": most_unders,
}

# Sheets of edition 2, which only the larger store takes.
LARGE_SHEETS = {"catalogue-512": large_catalogue}

GROWTH = {
    "items": (with_items, (16, 32, 64, 128)),
    "links": (with_links, (375, 750, 1500, 3000)),
    "rules": (with_rules, (8, 16, 32, 64)),
}


# A sheet by its name, each from random numbers of its own.
def drawn_sheet(name, make, seed):
    sheet = bytes_of(make(random.Random(f"{seed} {name}")))
    if len(sheet) > SHEET_BYTES:
        raise ValueError(f"the sheet {name} has {len(sheet)} bytes")
    return sheet


# All sheets by name.
def all_sheets(seed):
    return {name: drawn_sheet(name, make, seed) for name, make in SHEETS.items()}


# The sheets of edition 2 by name.
def large_sheets(seed):
    return {name: drawn_sheet(name, make, seed) for name, make in LARGE_SHEETS.items()}


# The series: for each, its counts and their sheets.
def growth_sheets(seed):
    return {name: {count: drawn_sheet(f"{name}-{count}", lambda rng: make(rng, count), seed) for count in counts}
            for name, (make, counts) in GROWTH.items()}


# Writes all sheets into a folder.
def main():
    parser = argparse.ArgumentParser(description="Writes the sheets that are judged for speed.")
    parser.add_argument("folder", type=Path)
    parser.add_argument("--seed", type=int, default=DEFAULT_SEED)
    chosen = parser.parse_args()
    chosen.folder.mkdir(parents=True, exist_ok=True)
    for name, sheet in {**all_sheets(chosen.seed), **large_sheets(chosen.seed)}.items():
        (chosen.folder / f"{name}.sheet").write_bytes(sheet)
    for name, series in growth_sheets(chosen.seed).items():
        for count, sheet in series.items():
            (chosen.folder / f"growth-{name}-{count}.sheet").write_bytes(sheet)


if __name__ == "__main__":
    main()
