"""Makes small programs, queries and sessions by chance, for tests/workers.py. What is made depends on the name of a
case alone.

In the sessions each run stands behind `goals` and `records`, and before `records` and `goals`. There are four kinds of
case:

  - a flow: predicates over lists and numbers, whose goals give and take each other's values, with forks and streams. Of
    a goal no two clauses ever say yes, so whatever order the runs take, they leave the same;
  - a table: a flow with a predicate of so many clauses that workers try them apart from each other;
  - equations, of which some clash or make a cycle: here, too, all orders leave the same where one of them leaves
    nothing failed;
  - a race: clauses made by chance, of which several may say yes, and which may go on without end. Its runs have limits.
"""
import random
from collections.abc import Callable
from typing import NamedTuple

FLOW = """append([],Y,Z) :- true | Z = Y.
append([A|X],Y,Z) :- true | Z = [A|Z1], append(X,Y,Z1).
reverse([],R) :- true | R = [].
reverse([A|X],R) :- true | reverse(X,B), append(B,[A],R).
down(N,L) :- N > 0 | L = [N|L1], M := N - 1, down(M,L1).
down(N,L) :- N =< 0 | L = [].
sum([],A,R) :- true | R = A.
sum([X|S],A,R) :- true | B := A + X, sum(S,B,R).
double([],Y) :- true | Y = [].
double([A|X],Y) :- true | B := A * 2, Y = [B|Y1], double(X,Y1).
part([],_,S,G) :- true | S = [], G = [].
part([A|X],K,S,G) :- A =< K | S = [A|S1], part(X,K,S1,G).
part([A|X],K,S,G) :- A > K | G = [A|G1], part(X,K,S,G1).
sort([],Y,T) :- true | Y = T.
sort([P|X],Y,T) :- true | part(X,P,S,G), sort(S,Y,[P|M]), sort(G,M,T).
fork(N,R) :- N > 0 | M := N - 1, fork(M,A), fork(M,B), R := A + B.
fork(N,R) :- N =< 0 | R = 1.
"""
TABLE = (
    "".join(f"look({at},R) :- true | R = {at * 7 % 40}.\n" for at in range(40))
    + """look(N,R) :- N < 0 | M := 0 - N, look(M,R).
look(N,R) :- N > 39 | M := N - 40, look(M,R).
look_all([],Y) :- true | Y = [].
look_all([A|X],Y) :- true | look(A,B), Y = [B|Y1], look_all(X,Y1).
"""
)
FLOW_PREDICATES = ["append/3", "reverse/2", "down/2", "sum/3", "double/2", "part/4", "sort/3", "fork/2"]
RACE_PREDICATES = {"p": 1, "q": 2, "r": 2, "s": 3}
RACE_TESTS = ["true", "true", "integer({})", "atom({})", "list({})", "wait({})", "{} > 0", "{} =< 1"]
LIMITS = (1, 2, 3, 5, 8, 13, 34)


class Case(NamedTuple):
    """A program, a query with the names of its variables, and the lines of a session. Where it is alike, all orders
    leave the same."""

    name: str
    program: str
    query: str
    variables: list[str]
    lines: list[str]
    is_alike: bool


def case_of(name):
    """The case of that name: one of the four kinds, a hyphen, and a number."""
    return KINDS[name.partition("-")[0]](name, random.Random(name))


def runs(chance, whole, predicates, between):
    """Lines with one to three runs, each either with a limit or one of those in `whole`, before which some of the
    predicates are spied, and behind which stands some of what is in `between`, each a list of lines."""
    lines = []
    for _ in range(chance.randint(1, 3)):
        spied = chance.sample(predicates, min(len(predicates), chance.choice((0, 0, 1, 2))))
        run = chance.choice([f"leap {chance.choice(LIMITS)}", *whole])
        lines += (
            [f"spy {it}" for it in spied]
            + ["goals", "records", run, "records", "goals"]
            + [f"nospy {it}" for it in spied]
        )
        lines += sum(chance.sample(between, min(len(between), chance.randint(0, 3))), [])
    return lines


def met_later(predicates, query):
    """The predicates that the query does not call, so that a run takes some steps before it meets one; or all, where it
    calls all."""
    return [it for it in predicates if f"{it.partition('/')[0]}(" not in query] or predicates


def taking_back(chance):
    """Lines that take steps back, and put them there again."""
    numbers = [chance.randint(1, 9) for _ in range(4)]
    return [
        chance.choice(([f"roll {it}"], [f"undo {it}"], [f"roll {it}", f"redo {it}"], [f"undo {it}", f"redo {it}"]))
        for it in numbers
    ]


class Flow:
    """Goals over lists and numbers, each of which takes what others give."""

    def __init__(self, chance):
        self.chance, self.given, self.lists, self.numbers, self.size = chance, [], [], [], chance.choice((1, 1, 2, 5))

    def new(self, those=None):
        """A new variable, which a goal gives to those that take lists, or numbers."""
        name = f"X{len(self.given) + 1}"
        self.given.append(name)
        if those is not None:
            those.append(name)
        return name

    def some_list(self):
        """A list that another goal gives, or one of some numbers."""
        if self.lists and self.chance.random() < 0.7:
            return self.chance.choice(self.lists)
        return f"[{','.join(str(self.chance.randint(-5, 9)) for _ in range(self.chance.randint(0, 4 * self.size)))}]"

    def goal(self):
        """A goal, which takes nothing that it gives itself."""
        kind, left, right = self.chance.randrange(9), self.some_list(), self.some_list()
        number = self.chance.choice([*self.numbers, "7"])
        if kind == 0:
            return f"append({left},{right},{self.new(self.lists)})"
        if kind == 1:
            return f"reverse({left},{self.new(self.lists)})"
        if kind == 2:
            return f"down({self.chance.randint(0, 5 * self.size)},{self.new(self.lists)})"
        if kind == 3:
            return f"sum({left},0,{self.new(self.numbers)})"
        if kind == 4:
            return f"double({left},{self.new(self.lists)})"
        if kind == 5:
            return f"sort({left},{self.new(self.lists)},[])"
        if kind == 6:
            return f"fork({self.chance.randint(0, 2 + self.size)},{self.new(self.numbers)})"
        if kind == 7:
            return f"f({left},{number}) = {self.new()}"
        return f"{self.new(self.lists)} = {left}"


class Table(Flow):
    """The same, and goals that look up numbers in the table."""

    def goal(self):
        """A goal of a flow, or one that looks up a number or those of a list."""
        if self.chance.random() < 0.6:
            return super().goal()
        if self.chance.random() < 0.3:
            return f"look({self.chance.choice([*self.numbers, '7', '-3', '95'])},{self.new(self.numbers)})"
        return f"look_all({self.some_list()},{self.new(self.lists)})"


def flow(name, chance, kind=Flow, program=FLOW, predicates=FLOW_PREDICATES):
    """A flow, with a stream in every third."""
    goals, has_stream = kind(chance), chance.random() < 0.3
    query = [f"instream({goals.new(goals.lists)})"] if has_stream else []
    query += [goals.goal() for _ in range(chance.randint(1, 5))]
    chance.shuffle(query)
    inputs = [f"in 1 {chance.choice((-1, 2, 5, 7, 'a'))}" for _ in range(chance.randint(0, 4))] + [
        "end 1"
    ] * chance.randint(0, 1)
    whole, spied = ["leap", f"skip 0.{chance.randint(1, len(query))}"], met_later(predicates, ", ".join(query))
    lines = runs(chance, whole, spied, [[it] for it in inputs] if has_stream else taking_back(chance))
    lines += [*(inputs if has_stream else []), "goals", "records", "leap", "records", "goals"]
    return Case(name, program, ", ".join(query), goals.given, lines, True)


def table(name, chance):
    """A flow with a table."""
    return flow(name, chance, Table, FLOW + TABLE, [*FLOW_PREDICATES, "look/2", "look_all/2"])


def some_term(chance, variables, depth=2):
    """A term over these variables."""
    kind = chance.randrange(8 if depth else 6)
    if kind < 4 and variables:
        return chance.choice(variables)
    if kind < 6:
        return chance.choice(("a", "b", "[]", "0", "1", "2"))
    parts = [some_term(chance, variables, depth - 1) for _ in range(2)]
    return f"f({parts[0]},{parts[1]})" if kind == 6 else f"[{parts[0]}|{parts[1]}]"


def equations(name, chance):
    """Equations over a few variables: one for each, of the variables behind it, and in most cases some that need not go
    with these."""
    variables = [f"X{number}" for number in range(1, chance.randint(3, 9))]
    query = [f"{it} = {some_term(chance, variables[at:])}" for at, it in enumerate(variables, 1)]
    query += [
        f"{some_term(chance, variables, 1)} = {some_term(chance, variables)}"
        for _ in range(chance.choice((0, 0, 1, 1, 2, 3)))
    ]
    chance.shuffle(query)
    lines = runs(chance, ["leap", f"skip 0.{chance.randint(1, len(query))}"], [], taking_back(chance))
    lines += ["goals", "records", "leap", "records", "goals"]
    return Case(name, "", ", ".join(query), variables, lines, True)


def thin_term(chance, variables):
    """A term in which one variable stands at most: so no step doubles the length of what it passes on."""
    term = some_term(chance, variables, 0)
    return chance.choice((term, term, f"f({term},a)", f"[1|{term}]", f"[{term}]"))


def clause(chance, predicate, arity, is_last):
    """A clause made by chance; the last one of a predicate says yes to whatever stands in its first place."""
    variables, places = [], []
    for place in range(1, arity + 1):
        kind, first, rest = chance.randrange(3 if is_last else 6), f"A{place}", f"B{place}"
        places.append(
            (first, first, first, chance.choice(("a", "[]", "0", "1")), f"[{first}|{rest}]", f"f({first},{rest})")[kind]
        )
        variables += [it for it in (first, rest) if it in places[-1]]
    test = chance.choice(RACE_TESTS).format(chance.choice(variables)) if variables and not is_last else "true"
    body = [race_goal(chance, [*variables, "C1", "C2"], ["C1", "C2"]) for _ in range(chance.randint(0, 3))]
    return f"{predicate}({','.join(places)}) :- {test} | {', '.join(body or ['true'])}."


def race_goal(chance, variables, free):
    """A call, or an equation or an assignment, mostly of one of the variables that are free."""
    kind = chance.randrange(12)
    if kind < 3:
        return f"{chance.choice(variables if kind == 0 else free)} = {thin_term(chance, variables)}"
    if kind == 3:
        return f"{chance.choice(free)} := {chance.choice([*variables, '1', '2'])} {chance.choice('+-*')} 1"
    predicate = chance.choice(list(RACE_PREDICATES))
    return f"{predicate}({','.join(thin_term(chance, variables) for _ in range(RACE_PREDICATES[predicate]))})"


def race(name, chance):
    """A program of clauses made by chance, with goals that are asked for and predicates that are spied."""
    counts = {it: chance.randint(1, 4) for it in RACE_PREDICATES}
    clauses = [
        clause(chance, it, RACE_PREDICATES[it], at == counts[it])
        for it in RACE_PREDICATES
        for at in range(1, counts[it] + 1)
    ]
    query = ", ".join(
        race_goal(chance, ["X1", "X2", "X3", "X4"], ["X1", "X2", "X3", "X4"]) for _ in range(chance.randint(2, 6))
    )
    asked = [f"ask {race_goal(chance, ['X1', 'X2', '_0_1', '_1_1', 'Z'], ['Z'])}" for _ in range(2)]
    spied = met_later([f"{it}/{arity}" for it, arity in RACE_PREDICATES.items()], query)
    lines = [line for _ in range(2) for line in runs(chance, [], spied, taking_back(chance) + [[it] for it in asked])]
    variables = [it for it in ("X1", "X2", "X3", "X4") if it in query]
    return Case(name, "".join(f"{it}\n" for it in clauses), query, variables, lines, False)


KINDS: dict[str, Callable[[str, random.Random], Case]] = {
    "flow": flow,
    "table": table,
    "equations": equations,
    "race": race,
}
