"""Translates an accepted sheet into a logic program for gringo and clasp (clingo).

    python3 bench/engines/asp.py < SHEET > PROGRAM

The closing rules of the requirements become rules of the program, and clauses.py says what each expression and each rule
becomes. The program is stratified, so the grounder works it out whole. Each finding is an atom f(line, item) or
f(line, item, item).
"""

import sys

from accepted import read
from clauses import Program

CLOSURE = """
s(B,A) :- s(A,B).
same(A,A) :- item(A).
same(A,C) :- same(A,B), s(B,C).
art(A,M) :- item(A), M = #min { B : same(A,B) }.
art(M) :- art(_,M).
under(A,A) :- concept(A).
under(A,C) :- under(A,B), sub(B,C).
runder(R,R,0) :- role(R).
runder(R,T,(D+E)\\2) :- runder(R,S,D), rsub(S,T,E).
in(M,D) :- stated(A,C), art(A,M), under(C,D).
told(R,M,N) :- rel(R,A,B), art(A,M), art(B,N).
link(S,M,N) :- told(R,M,N), runder(R,S,0).
link(S,N,M) :- told(R,M,N), runder(R,S,1).
#show f/2.
#show f/3.
"""


class Asp(Program):
    """The program for gringo and clasp."""

    NOT, NEVER, AT_MOST, EQUAL, UNEQUAL = "not ", "art(X), #false", "<=", "=", "!="

    # Nothing is said of a predicate beforehand.
    def announce(self, word, name):
        pass

    def announce_path(self, name):
        pass

    # That the role with a number links one article to another.
    def linked(self, number, first, second):
        return f"link({number},{first},{second})"

    # A finding of the rule in a line.
    def found(self, line, *items):
        return f"f({','.join(map(str, (line, *items)))})"

    # That something of which `inner` holds is linked.
    def some(self, link, inner):
        return f"{link}, {inner}(Y)"

    # That all that is linked is such, by way of those for which it is not so.
    def add_all(self, name, link, inner):
        self.add(f"n{name}(X) :- {link}, not {inner}(Y). {name}(X) :- art(X), not n{name}(X).")

    # That so many, or so few, of which `inner` holds are linked.
    def count(self, link, inner, sign, number):
        return f"art(X), #count {{ Y : {link}, {inner}(Y) }} {sign} {number}"

    # A rule that is broken by pairs of items: the condition is about the articles X and Y.
    def two(self, line, body):
        self.add(f"b{line}(X,Y) :- {body}. {self.found(line, 'A', 'B')} :- b{line}(X,Y), art(A,X), art(B,Y).")


# The numbers of a kind, as facts.
def numbers(kind, count):
    return f"{kind}(0..{count - 1})." if count else f"#defined {kind}/1."


# The program of a sheet.
def program_of(sheet):
    program = Asp(CLOSURE)
    program.add(numbers("item", len(sheet.items)) + numbers("concept", sheet.concepts) + numbers("role", sheet.roles))
    program.add("#defined s/2. #defined sub/2. #defined rsub/3. #defined stated/2. #defined rel/3.")
    program.state(sheet.statements)
    return program.text(sheet.rules)


# The findings in what clingo prints.
def findings_of(printed):
    return [tuple(int(number) for number in atom[2:-1].split(",")) for atom in printed.split() if atom.startswith("f(")]


if __name__ == "__main__":
    print(program_of(read(sys.stdin.buffer.read())), end="")
