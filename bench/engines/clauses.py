"""What the logic programs for clingo and for SWI-Prolog have in common: a clause for each part of an expression, and for
each rule of a sheet. Items that are the same have one article, their lowest number; memberships, links and expressions
are about articles, and only findings are about items again.
"""


class Program:
    """A program that is written clause by clause, in a dialect that says how it denies, counts and names a link."""

    NOT = ""  # before what does not hold
    NEVER = ""  # what holds of no article X
    AT_MOST = ""  # the sign between a number and the most that it may be
    EQUAL, UNEQUAL = "", ""  # the signs between two articles

    # Begins with what closes the statements.
    def __init__(self, closure):
        self.lines = [closure]
        self.nodes = 0

    # Adds a clause.
    def add(self, line):
        self.lines.append(line)

    # Adds the statements of a sheet.
    def state(self, said):
        self.lines += [f"s({a},{b})." for a, b in said["same"]]
        self.lines += [f"sub({A},{B})." for A, B in said["under"]]
        self.lines += [f"rsub({R},{S},{int(turned != other)})." for (R, turned), (S, other) in said["runder"]]
        self.lines += [f"stated({a},{A})." for a, A in said["in"]]
        self.lines += [f"rel({R},{a},{b})." for (R, _), a, b in said["rel"]]

    # That a role links one article to another.
    def link(self, role, first="X", second="Y"):
        number, turned = role
        return self.linked(number, second, first) if turned else self.linked(number, first, second)

    # The condition, or that it does not hold.
    def denied(self, deny, condition):
        return self.NOT + condition if deny else condition

    # A new predicate for what an expression holds of.
    def holds(self, tree):
        word, parts = tree[0], tree[1:]
        inner = [self.holds(part) for part in parts if isinstance(part, tuple) and isinstance(part[0], str)]
        name, self.nodes = f"h{self.nodes}", self.nodes + 1
        self.announce(word, name)
        if word == "or":
            self.add(f"{name}(X) :- {inner[0]}(X). {name}(X) :- {inner[1]}(X).")
        elif word == "all":
            self.add_all(name, self.link(parts[0]), inner[0])
        else:
            self.add(f"{name}(X) :- {self.body(word, parts, inner)}.")
        return name

    # When an expression holds of the article X, by its word; `inner` are the predicates of the expressions in it.
    def body(self, word, parts, inner):
        if word == "name":
            return f"in(X,{parts[0]})"
        if word == "top":
            return "art(X)"
        if word == "bot":
            return self.NEVER
        if word == "not":
            return f"art(X), {self.NOT}{inner[0]}(X)"
        if word == "and":
            return f"{inner[0]}(X), {inner[1]}(X)"
        if word == "some":
            return self.some(self.link(parts[0]), inner[0])
        if word in ("atleast", "atmost"):
            return self.count(self.link(parts[1]), inner[0], ">=" if word == "atleast" else self.AT_MOST, parts[0])
        if word == "self":
            return self.linked(parts[0][0], "X", "X")
        return f"art({parts[0]},X)"

    # A rule that is broken by items: the condition is about the article X.
    def one(self, line, body):
        self.add(f"{self.found(line, 'A')} :- {body}, art(A,X).")

    # A rule about two named items.
    def named(self, line, a, b, body):
        self.add(f"{self.found(line, a, b)} :- art({a},X), art({b},Y), {body}.")

    # A path of roles from X to Y, one step at a time.
    def path(self, line, roles):
        self.add(f"p{line}_1(X,Y) :- {self.link(roles[0])}.")
        for step, role in enumerate(roles[1:], 2):
            self.announce_path(f"p{line}_{step}")
            self.add(f"p{line}_{step}(X,Y) :- p{line}_{step - 1}(X,Z), {self.link(role, 'Z', 'Y')}.")
        return f"p{line}_{len(roles)}(X,Y)"

    # The findings of a rule.
    def rule(self, line, word, parts):
        if word == "sub":
            C, D = (self.holds(part) for part in parts)
            self.one(line, f"{C}(X), {self.NOT}{D}(X)")
        elif word == "in":
            self.add(f"{self.found(line, parts[1])} :- art({parts[1]},X), {self.NOT}{self.holds(parts[0])}(X).")
        elif word in ("rsub", "dis"):
            self.two(line, f"{self.link(parts[0])}, {self.denied(word == 'rsub', self.link(parts[1]))}")
        elif word == "chain":
            self.two(line, f"{self.path(line, parts[:-1])}, {self.NOT}{self.link(parts[-1])}")
        elif word in ("ref", "irr"):
            self.one(line, f"art(X), {self.denied(word == 'ref', self.linked(parts[0][0], 'X', 'X'))}")
        elif word in ("rel", "norel"):
            self.named(line, *parts[1:], self.denied(word == "rel", self.link(parts[0])))
        else:
            self.named(line, *parts, f"X {self.UNEQUAL if word == 'same' else self.EQUAL} Y")

    # The text of the program, with the rules of a sheet.
    def text(self, rules):
        for line, word, parts in rules:
            self.rule(line, word, parts)
        return "\n".join(self.lines) + "\n"
