"""Translates an accepted sheet into RDF triples, SPARQL updates for what follows, and one SPARQL query a rule.

    python3 bench/engines/sparql.py < SHEET > JOB

The job is one JSON object: `data`, the triples (N-Triples); `updates`, run once and in order; `steps`, run over and over
until they add nothing; `links`, run once and in order; `queries`, each with the number of its rule's line. Items that are the same have one article, the one
with the lowest number; memberships, links and expressions are about articles, and a query's answers are the numbers of
items again. What is not stated does not hold: MINUS.
"""

import json
import sys

from accepted import read

BASE = "http://saltreeve.example/"
RDF_TYPE = "<http://www.w3.org/1999/02/22-rdf-syntax-ns#type>"
SAME = "<http://www.w3.org/2002/07/owl#sameAs>"
UNDER = "<http://www.w3.org/2000/01/rdf-schema#subClassOf>"
PREFIX = f"PREFIX : <{BASE}>\n"

# What is worked out before the links: whether an update is to be repeated, and the update.
UPDATES = (
    # the article of each item
    (False, "INSERT { ?a :article ?m } WHERE { { SELECT ?a (MIN(?k) AS ?least) WHERE { ?a a :Item . "
            f"?a ({SAME}|^{SAME})* ?b . ?b :number ?k }} GROUP BY ?a }} ?m :number ?least }}"),
    (False, "INSERT { ?m a :Article } WHERE { ?a :article ?m }"),
    # families
    (False, f"INSERT {{ ?m a ?d }} WHERE {{ ?a :in ?c . ?a :article ?m . ?c {UNDER}* ?d }}"),
    # roles, by steps
    (True, "INSERT { ?r :under ?t } WHERE { ?r :under ?s . ?s :under ?t }"),
    (True, "INSERT { ?r :turned ?t } WHERE { ?r :under ?s . ?s :turned ?t }"),
    (True, "INSERT { ?r :turned ?t } WHERE { ?r :turned ?s . ?s :under ?t }"),
    (True, "INSERT { ?r :under ?t } WHERE { ?r :turned ?s . ?s :turned ?t }"),
)
# What is worked out for each role.
ROLE_UPDATES = (
    "INSERT { ?m :t@ ?n } WHERE { ?a :s@ ?b . ?a :article ?m . ?b :article ?n }",
    "INSERT { ?m ?s ?n } WHERE { :r@ :under ?s . ?m :t@ ?n }",
    "INSERT { ?n ?s ?m } WHERE { :r@ :turned ?s . ?m :t@ ?n }",
)


class Variables:
    """Gives a new variable each time."""

    # None yet.
    def __init__(self):
        self.count = 0

    # The next one.
    def new(self):
        self.count += 1
        return f"?v{self.count}"


# That a role links one article to another.
def link(role, first, second):
    number, turned = role
    return f"{second} :r{number} {first} . " if turned else f"{first} :r{number} {second} . "


# The conditions under which an expression holds of an article.
def holds(tree, x, fresh):
    word, parts = tree[0], tree[1:]
    if word == "name":
        return f"{x} a :c{parts[0]} . "
    if word == "top":
        return f"{x} a :Article . "
    if word == "bot":
        return f"{x} a :Nothing . "
    if word == "not":
        return without(f"{x} a :Article . ", holds(parts[0], x, fresh))
    if word == "and":
        return joined(holds(parts[0], x, fresh), holds(parts[1], x, fresh))
    if word == "or":
        return f"{{ {holds(parts[0], x, fresh)} }} UNION {{ {holds(parts[1], x, fresh)} }} "
    if word == "some":
        return reached(1, parts[0], parts[1], x, fresh)
    if word == "all":
        return without(f"{x} a :Article . ", reached(1, parts[0], ("not", parts[1]), x, fresh))
    if word == "atleast":
        return reached(parts[0], parts[1], parts[2], x, fresh)
    if word == "atmost":
        return without(f"{x} a :Article . ", reached(parts[0] + 1, parts[1], parts[2], x, fresh))
    if word == "self":
        return f"{x} :r{parts[0][0]} {x} . "
    return f":i{parts[0]} :article {x} . "


# Conditions without those that others hold for.
def without(conditions, others):
    return f"{{ {conditions} MINUS {{ {others} }} }} "


# Conditions of two expressions together.
def joined(left, right):
    return f"{{ {left} }} {{ {right} }} "


# That a role leads to so many articles, or more, that an expression holds of.
def reached(count, role, tree, x, fresh):
    y = fresh.new()
    inside = f"{link(role, x, y)}{holds(tree, y, fresh)}"
    if count == 1:
        return f"{{ SELECT DISTINCT {x} WHERE {{ {inside} }} }} "
    return f"{{ SELECT {x} WHERE {{ {inside} }} GROUP BY {x} HAVING (COUNT(DISTINCT {y}) >= {count}) }} "


# A query for items whose article X is described.
def one(conditions):
    return f"SELECT DISTINCT ?a WHERE {{ {conditions} ?a :article ?x }}"


# A query for pairs of items whose articles X and Y are described.
def two(conditions, unless=""):
    return f"SELECT DISTINCT ?a ?b WHERE {{ {conditions}?a :article ?x . ?b :article ?y . {unless}}}"


# A query about two named items, the articles of which are X and Y.
def named(a, b, conditions):
    return f"SELECT DISTINCT ?a ?b WHERE {{ VALUES (?a ?b) {{ (:i{a} :i{b}) }} :i{a} :article ?x . :i{b} :article ?y . {conditions} }}"


# A path of roles from X to Y.
def path(roles):
    steps = "/".join(f"{'^' * turned}:r{number}" for number, turned in roles)
    return f"?x {steps} ?y . "


# That two articles are not linked by a role.
def not_linked(role):
    return f"FILTER NOT EXISTS {{ {link(role, '?x', '?y')} }} "


# The query of a rule.
def query_of(word, parts):
    fresh = Variables()
    if word == "sub":
        return one(without(holds(parts[0], "?x", fresh), holds(parts[1], "?x", fresh)))
    if word == "in":
        named_item = f"VALUES ?a {{ :i{parts[1]} }} :i{parts[1]} :article ?x . "
        return f"SELECT DISTINCT ?a WHERE {{ {named_item} MINUS {{ {holds(parts[0], '?x', fresh)} }} }}"
    if word == "rsub":
        return two(link(parts[0], "?x", "?y"), not_linked(parts[1]))
    if word == "dis":
        return two(link(parts[0], "?x", "?y") + link(parts[1], "?x", "?y"))
    if word == "chain":
        return two(path(parts[:-1]), not_linked(parts[-1]))
    if word == "ref":
        return one(without("?x a :Article . ", f"?x :r{parts[0][0]} ?x . "))
    if word == "irr":
        return one(f"?x :r{parts[0][0]} ?x . ")
    if word == "rel":
        return named(*parts[1:], not_linked(parts[0]))
    if word == "norel":
        return named(*parts[1:], link(parts[0], "?x", "?y"))
    return named(*parts, "FILTER (?x != ?y)" if word == "same" else "FILTER (?x = ?y)")


# A triple.
def triple(*terms):
    return " ".join(term if term[0] in '<"' else f"<{BASE}{term}>" for term in terms) + " .\n"


# The triples of a sheet's names and statements.
def triples_of(sheet):
    said, lines = sheet.statements, []
    for a in range(len(sheet.items)):
        lines += [triple(f"i{a}", RDF_TYPE, "Item"),
                  triple(f"i{a}", "number", f'"{a}"^^<http://www.w3.org/2001/XMLSchema#integer>')]
    for R in range(sheet.roles):
        lines += [triple(f"r{R}", "under", f"r{R}")]
    lines += [triple(f"i{a}", SAME, f"i{b}") for a, b in said["same"]]
    lines += [triple(f"c{A}", UNDER, f"c{B}") for A, B in said["under"]]
    lines += [triple(f"r{R}", "turned" if turned != other else "under", f"r{S}")
              for (R, turned), (S, other) in said["runder"]]
    lines += [triple(f"i{a}", "in", f"c{A}") for a, A in said["in"]]
    lines += [triple(f"i{a}", f"s{R}", f"i{b}") for (R, _), a, b in said["rel"]]
    return "".join(lines)


# What the engine is to do for a sheet. The steps of roles are gone through again until they add nothing.
def job_of(sheet):
    told = sorted({R for (R, _), _, _ in sheet.statements["rel"]})
    return json.dumps({
        "data": triples_of(sheet),
        "updates": [PREFIX + update for repeated, update in UPDATES if not repeated],
        "steps": [PREFIX + update for repeated, update in UPDATES if repeated],
        "links": [PREFIX + update.replace("@", str(R)) for R in told for update in ROLE_UPDATES],
        "queries": [(line, PREFIX + query_of(word, parts)) for line, word, parts in sheet.rules],
    })


# The findings in what the engine prints.
def findings_of(printed):
    return [tuple(int(number) for number in line.split()) for line in printed.splitlines()]


if __name__ == "__main__":
    print(job_of(read(sys.stdin.buffer.read())))
