#!/usr/bin/env python3
"""Respells this repository's own names as today's Rattle spells them: words in snake case, types and sets in camel case.

Run once, at the top, after the kit's port.py. It goes over every .antt, .rt and .edit file of crates/ and every page of docs/ and README.md, and turns each name that
specs/ or proofs/ define: `itemLimit` becomes `item_limit`, `orIf-gets` becomes `or_if-gets`. Functions of src/, exported names, strings and outputs keep theirs.
Aliases of imports are turned last, each in its file. A definition may have the name of a function of src/, as words of the library do. It ends with 1 where two other names would fall together.
"""

import glob
import re
import sys

DEFINED = re.compile(r"^(\s*)(?:abbrev |unfoldable |pub |data |record )*([^\s:{}()]+)(?:\s*[({].*?[)}])*\s*:\s")
HUMP = re.compile(r"([a-z0-9])([A-Z])")
# Definitions that say a fact, and so are types; and two words joined by a hyphen that are no lemmas.
BY_HAND = {
    "inNew": "InNew", "linkNew": "LinkNew", "roleNew": "RoleNew", "sameNew": "SameNew", "underNew": "UnderNew",
    "cells_of": "CellsOf", "only_zero": "OnlyZero", "first-name": "first_name", "second-name": "second_name", "first-roles": "first_roles",
}
# Where one name stands for two definitions, the crates in which it is a type.
TYPE_IN = {"roleOf": ("RoleOf", ("paper", "verdict"))}
# Lemmas that the kit's script has given the name that a definition takes here: the old name, the new one, the files.
LEMMAS = [
    ("counts_of", "counts_of-names_of", "crates/*/*/**/*.antt"),
    ("other_width", "other_width-long", "crates/convert/*/**/*.antt"),
    ("node_at", "node_at-nodes_below", "crates/spelled/specs/laws/Rules.antt"),
    ("take_on", "take_on-or", "crates/row/specs/laws/*.antt"),
    ("take_on", "take_on-or", "crates/row/proofs/copy/take_on/*.antt"),
]


def snake(name):
    return HUMP.sub(lambda m: m.group(1) + "_" + m.group(2).lower(), name)


def respelled(name):
    """The name with each of its parts, that begins small, in snake case."""
    if name in BY_HAND:
        return BY_HAND[name]
    return "-".join(snake(p) if p[:1].islower() else p for p in name.split("-"))


def token(name):
    return re.compile(r"(?<![\w'?-])" + re.escape(name) + r"(?![\w'?-])")


def part_lemmas():
    for old, new, where in LEMMAS:
        for f in glob.glob(where, recursive=True):
            with open(f, encoding="utf-8") as source:
                text = source.read()
            text, n = re.subn(r"(?<![\w'?.:`-])" + re.escape(old) + r"(?![\w'?-])", new, text)
            if n:
                with open(f, "w", encoding="utf-8") as out:
                    out.write(text)


def respell_aliases(logic):
    """Turns the names that an import gives by `as`, each in its own file; gives how many files changed."""
    changed = 0
    for f in logic + sorted(glob.glob("crates/*/src/**/*.rt", recursive=True)):
        with open(f, encoding="utf-8") as source:
            text = new = source.read()
        for alias in sorted(set(re.findall(r"\bas ([a-z]+[A-Z][A-Za-z]*)\b", text))):
            new = token(alias).sub(snake(alias), new)
        if new != text:
            changed += 1
            with open(f, "w", encoding="utf-8") as out:
                out.write(new)
    return changed


def main():
    part_lemmas()
    logic = sorted(glob.glob("crates/*/specs/**/*.antt", recursive=True) + glob.glob("crates/*/proofs/**/*.antt", recursive=True))
    defined = set()
    for f in logic:
        with open(f, encoding="utf-8") as lines:
            for line in lines:
                m = DEFINED.match(line)
                if m and not line.lstrip().startswith("--"):
                    defined.add(m.group(2))
    turned = {n: respelled(n) for n in defined if respelled(n) != n}
    files = logic + sorted(glob.glob("crates/*/src/**/*.rt", recursive=True) + glob.glob("crates/*/must-fail/*.edit") + glob.glob("docs/*.md") + ["README.md"])
    texts = {f: open(f, encoding="utf-8").read() for f in files}
    functions = set(re.findall(r"\bfn (\w+)", "\n".join(t for f, t in texts.items() if f.endswith(".rt"))))
    fallen = 0
    for old, new in sorted(turned.items()):
        for f, t in texts.items():
            if new not in functions and f.endswith((".antt", ".rt")) and token(old).search(t):
                code = "\n".join(x for x in t.split("\n") if not re.match(r"\s*(--|//)", x))
                if token(new).search(code):
                    print(f"spell: {old} and {new} would fall together in {f}")
                    fallen += 1
    if fallen:
        return 1
    parts = sorted(turned, key=len, reverse=True)
    every = re.compile(r"(?<![\w'?-])(" + "|".join(map(re.escape, parts)) + r")(?![\w'?-])")
    count = 0
    for f, t in texts.items():
        crate = f.split("/")[1] if "/" in f else ""

        def put(m):
            if m.group(1) in TYPE_IN and crate in TYPE_IN[m.group(1)][1]:
                return TYPE_IN[m.group(1)][0]
            return turned[m.group(1)]

        new, n = every.subn(put, t)
        if n:
            count += n
            with open(f, "w", encoding="utf-8") as out:
                out.write(new)
    print(f"spell: {len(turned)} names, {count} places, {respell_aliases(logic)} files with aliases")
    return 0


sys.exit(main())
