"""Translates an accepted sheet into a program for SWI-Prolog with tabling.

    python3 bench/engines/prolog.py < SHEET > PROGRAM

It says the same as the logic program of asp.py, by clauses.py: what follows is worked out by tabling and kept as facts
about articles, each part of an expression is a tabled predicate, and the findings are printed, one a line: the number of
the rule's line and the items.
"""

import sys

from accepted import read
from clauses import Program

CLOSURE = """
:- use_module(library(aggregate)).
:- set_prolog_flag(verbose, silent).
:- style_check(-singleton).
:- style_check(-discontiguous).
:- discontiguous f/1.
:- dynamic item/1, s/2, sub/2, rsub/3, stated/2, rel/3, art/1, art/2, in/2, f/1.
:- table same/2, under/2, runder/3, told/3.
:- discontiguous item/1, s/2, sub/2, rsub/3, stated/2, rel/3.
same(A,A) :- item(A).
same(A,C) :- same(A,B), ( s(B,C) ; s(C,B) ).
under(A,A) :- stated(_,A).
under(A,C) :- under(A,B), sub(B,C).
runder(R,R,0) :- role(R).
runder(R,T,G) :- runder(R,S,D), rsub(S,T,E), G is D xor E.
told(R,M,N) :- rel(R,A,B), art(A,M), art(B,N).
role(R) :- between(0, @ROLES@, R).
add(Fact) :- ( \\+ call(Fact) -> assertz(Fact) ; true ).
add_link(0,S,M,N) :- atom_concat(l, S, P), Fact =.. [P,M,N], add(Fact).
add_link(1,S,M,N) :- add_link(0,S,N,M).
close :-
    forall(aggregate(min(B), same(A,B), M), assertz(art(A,M))),
    forall(distinct(M, art(_,M)), assertz(art(M))),
    forall(( distinct(C-M, ( stated(A,C), art(A,M) )), under(C,D) ), add(in(M,D))),
    forall(( told(R,M,N), runder(R,S,E) ), add_link(E,S,M,N)).
main :- close, forall(f(F), ( atomic_list_concat(F, ' ', L), writeln(L) )).
:- initialization(main, main).
"""


class Prolog(Program):
    """The program for SWI-Prolog."""

    NOT, NEVER, AT_MOST, EQUAL, UNEQUAL = "\\+ ", "fail", "=<", "==", "\\=="

    # What an expression made of others holds of is tabled.
    def announce(self, word, name):
        if word not in ("name", "top", "bot", "self", "one"):
            self.add(f":- table {name}/1.")

    # A path of several steps is tabled.
    def announce_path(self, name):
        self.add(f":- table {name}/2.")

    # That the role with a number links one article to another.
    def linked(self, number, first, second):
        return f"l{number}({first},{second})"

    # A finding of the rule in a line.
    def found(self, line, *items):
        return f"f([{','.join(map(str, (line, *items)))}])"

    # That something of which `inner` holds is linked.
    def some(self, link, inner):
        return f"art(X), once(( {link}, {inner}(Y) ))"

    # That all that is linked is such.
    def add_all(self, name, link, inner):
        self.add(f"{name}(X) :- art(X), \\+ ( {link}, \\+ {inner}(Y) ).")

    # That so many, or so few, of which `inner` holds are linked.
    def count(self, link, inner, sign, number):
        return f"art(X), aggregate_all(count, ( {link}, {inner}(Y) ), N), N {sign} {number}"

    # A rule that is broken by pairs of items: the condition is about the articles X and Y.
    def two(self, line, body):
        self.add(f"{self.found(line, 'A', 'B')} :- {body}, art(A,X), art(B,Y).")


# The program of a sheet.
def program_of(sheet):
    program = Prolog(CLOSURE.replace("@ROLES@", str(sheet.roles - 1)))
    program.lines += [f":- dynamic l{role}/2." for role in range(sheet.roles)]
    program.lines += [f"item({a})." for a in range(len(sheet.items))]
    program.state(sheet.statements)
    return program.text(sheet.rules)


# The findings in what the program prints.
def findings_of(printed):
    return [tuple(int(number) for number in line.split()) for line in printed.splitlines()]


if __name__ == "__main__":
    print(program_of(read(sys.stdin.buffer.read())), end="")
