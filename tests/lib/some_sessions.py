"""Sessions made by chance in which calls have parts, for tests/parts.py, parts_alone.py and blames.py: some of the
kinds of random_sessions.py, up to a line of theirs, and some where servers answer clients in turns. Behind each,
`ask` binds some variables, and `arrange` gives some another order. What is made depends on the name of a case alone."""
import argparse
import os
import random
import re
import subprocess
import sys
import tempfile
from concurrent.futures import ThreadPoolExecutor
from itertools import cycle, islice
from pathlib import Path

from lib.judged_runs import Wrong
from lib.playing import END, ENDED, play, words_of
from lib.program import PROGRAM
from lib.random_sessions import KINDS, Case, case_of, taking_back
from lib.refusing import SECONDS
from lib.told_runs import Run, goals_of, listed, numbers_of, steps_of, writings_of

TALK = """serve([get(X)|S],N) :- true | X = N, serve(S,N).
serve([add(K)|S],N) :- true | M := N + K, serve(S,M).
serve([],_) :- true | true.
client(K,S) :- K > 0 | S = [get(X),add(K)|S1], next(X,K,S1).
client(K,S) :- K =< 0 | S = [].
next(X,K,S) :- wait(X) | L := K - 1, client(L,S).
merge([A|X],Y,Z) :- true | Z = [A|Z1], merge(X,Y,Z1).
merge(X,[A|Y],Z) :- true | Z = [A|Z1], merge(X,Y,Z1).
merge([],Y,Z) :- true | Z = Y.
merge(X,[],Z) :- true | Z = X.
both(K,L,Z) :- true | client(K,X), client(L,Y), merge(X,Y,Z).
"""


def talk(name):
    """The case of servers whose clients wait for their answers."""
    chance = random.Random(name)
    query, variables = [], []
    for at in range(1, chance.randint(2, 4)):
        one = f"client({chance.randint(1, 4)},S{at})"
        two = f"both({chance.randint(1, 3)},{chance.randint(1, 3)},S{at})"
        query += [f"serve(S{at},{chance.randint(0, 9)})", chance.choice([one, two])]
        variables.append(f"S{at}")
    chance.shuffle(query)
    rounds = [[f"leap {chance.choice((3, 8, 20, 50))}", *chance.choice(taking_back(chance))] for _ in range(3)]
    return Case(name, TALK, ", ".join(query), variables, sum(rounds, []), False)


def some_case(name):
    """The case of a name: one of its kind, of whose lines some at the end may be left out."""
    if name.startswith("talk-"):
        return talk(name)
    case, chance = case_of(name), random.Random(f"{name}, cut")
    return case._replace(lines=case.lines[: chance.randint(len(case.lines) // 3, len(case.lines))])


def asks_for(records, goals, chance):
    """Lines that bind some of the variables that steps made and nothing has bound."""
    told = "\n".join([*records, *goals])
    bound = set(re.findall(r"(_\d+_\d+)=", told))
    free = sorted({f"_{n}_{m}" for n, m in re.findall(r"\b_(\d+)_(\d+)\b", told) if n != "0"} - bound)
    some = chance.sample(free, min(2, len(free)))
    return [f"ask {it} = {chance.choice(('a', '[]', '[1|Z]', '7', free[0]))}" for it in some]


def some_order(records, chance):
    """A line that gives the kept steps some lawful order: each stands behind those on which it depends."""
    run, times = Run(steps_of(records, [""] * len(records)), {}), dict[int, float]()
    for step in run.steps.values():
        times[step.number] = max((times[it] for it in run.causes(step)), default=0) + chance.random()
    return " ".join(["arrange", *map(str, sorted(times, key=lambda number: times[number]))])


def whole_lines(folder, case):
    """The lines of a case's session, and behind them some that ask, and one that gives the steps another order, or None
    where its goals are too long to print."""
    chance = random.Random(case.name)
    *_, records, goals = play(folder, case, [*case.lines, "records", "goals"], 1)
    if goals.startswith("F6"):
        return None
    lines = [*case.lines, *asks_for(listed(records), listed(goals), chance), *["leap 20"] * chance.randint(0, 1)]
    *_, records, goals = play(folder, case, [*lines, "records", "goals"], 1)
    if goals.startswith("F6"):
        return None
    return [*lines, *[some_order(listed(records), chance)] * chance.randint(0, 1)]


class Left:
    """What the session of a case left, and the lines that were played."""

    def __init__(self, folder, case, lines):
        self.folder, self.case, self.lines = folder, case, lines
        self.records_told, self.goals_told = self.look(["records", "goals"])
        self.records = listed(self.records_told)
        texts = self.look([f"goal {number}" for number in numbers_of(self.records)])
        steps = steps_of(self.records, texts)
        self.run = Run(steps, goals_of(self.goals_told), writings_of(case.query, steps))

    def look(self, looks):
        """The replies to these lines, behind those of the session."""
        return play(self.folder, self.case, [*self.lines, *looks], 1)[len(self.lines) :]

    def has_no_command(self, lines):
        """Is each of these lines refused as no command, behind those of the session?"""
        given = "".join(f"{line}\n" for line in [*self.lines, END, *lines])
        words = words_of(self.folder, self.case, 1)
        ended = subprocess.run(words, input=given, capture_output=True, text=True, timeout=SECONDS)
        return ended.stdout.endswith(ENDED * (1 + len(lines)))

    def looked(self, looks):
        """The replies to these lines, which have to leave all as it was."""
        *replies, records, goals = self.look([*looks, "records", "goals"])
        if (records, goals) != (self.records_told, self.goals_told):
            raise Wrong(f"one of {looks} changed the record or the goals")
        return replies


def tried(judge, above, name):
    """What is wrong with the session of that name, if anything, and what the judge counts."""
    with tempfile.TemporaryDirectory(dir=above) as room:
        folder, case = Path(room), some_case(name)
        try:
            lines = whole_lines(folder, case)
            return None, lines and judge(Left(folder, case, lines), random.Random(f"{name}, judged"))
        except Wrong as wrong:
            return f"failed: {name}: {wrong}", None


def try_sessions(judge, text, sessions, counted):
    """Judges so many sessions, or those that the command line names, and says how many are right. The judge says what
    is wrong, and how many things of that name it tried."""
    parser = argparse.ArgumentParser(description=text, formatter_class=argparse.RawDescriptionHelpFormatter)
    parser.add_argument("--sessions", type=int, default=sessions)
    parser.add_argument("--first", type=int, default=1)
    parser.add_argument("--only")
    given = parser.parse_args()
    if not Path(PROGRAM).is_file():
        print(f"{PROGRAM} is not there: `./ghcdb --prove` makes it", file=sys.stderr)
        return 1
    kinds = islice(cycle([*KINDS, "talk"]), given.sessions)
    names = [given.only] if given.only else [f"{kind}-{number}" for number, kind in enumerate(kinds, given.first)]
    with tempfile.TemporaryDirectory(prefix="ghcdb-sessions-") as folder, ThreadPoolExecutor(os.cpu_count()) as pool:
        found = list(pool.map(lambda name: tried(judge, folder, name), names))
    wrong = [it for it, _ in found if it]
    print("".join(f"{it}\n" for it in wrong), end="")
    print(f"{counted} that were tried: {sum(count or 0 for _, count in found)}")
    print(f"{len(names) - len(wrong)} passed, {len(wrong)} failed")
    return 1 if wrong else 0
