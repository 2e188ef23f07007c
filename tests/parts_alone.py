#!/usr/bin/env python3
"""Plays the parts of sessions made by chance alone: tests/parts_alone.py [--sessions N] [--first N] [--only NAME]

So many sessions are played, 150 where N is left out, by one worker: those of tests/lib/some_sessions.py. In each,
`part` tells what each call was given and gave. Where it went in no turns and nobody asked for what is inside, that
is all that counts: the text behind `given` is typed as a query into a new session of the same program, and the
part's steps are played there, in recorded order, by the same clauses. Each of them has to be taken, and `part` has
to tell the same of the query's goal, and of the calls that it made. Goals and variables go by other names there: the
n-th step of the part is step n, and what was made outside is a variable of the query. The program is the proved one,
or the one that the environment names as GHCDB. The last line is `N passed, M failed`.
"""
import re
import sys

sys.dont_write_bytecode = True
from lib.judged_runs import Wrong
from lib.playing import play
from lib.some_sessions import try_sessions
from lib.terms import VARIABLE
from lib.told_runs import is_call

MOST_OPEN, MOST_VARIABLES = 64, 1000
NAME = re.compile(r"^\d+\.\d+(?= (?:gave|stands) )")
CALL = re.compile(r"given .*|gave .*|\d+\.\d+ (?:gave|stands) .*")


def depth(text):
    """How many brackets are open at one place of the text."""
    most = here = 0
    for letter in text:
        here += (letter in "([") - (letter in ")]")
        most = max(most, here)
    return most


class Alone:
    """The part of a call, as it is played alone: its steps' numbers there, and the query with its variables."""

    def __init__(self, run, name, told):
        self.run, self.name = run, name
        given = told.splitlines()[0].removeprefix("given ")
        self.numbers = {number: at for at, number in enumerate(sorted(run.part(name), key=list(run.steps).index), 1)}
        outside = dict.fromkeys(it[0] for it in VARIABLE.finditer(given))
        self.variables = {it: f"_0_{at}" for at, it in enumerate(outside, 1)}
        self.query = VARIABLE.sub(lambda it: f"V{it[1]}_{it[2]}", given)

    def is_a_query(self):
        """Does the reader's limits let the text in?"""
        return depth(self.query) <= MOST_OPEN and len(self.variables) <= MOST_VARIABLES

    def variable(self, match):
        """The name of a variable there."""
        step = int(match[1])
        if step in self.numbers:
            return f"_{self.numbers[step]}_{match[2]}"
        if match[0] not in self.variables:
            raise Wrong(f"`part {self.name}` tells {match[0]}, which was neither given nor made in the part")
        return self.variables[match[0]]

    def goal(self, name):
        """The name of a goal there."""
        step, place = name.split(".")
        return "0.1" if name == self.name else f"{self.numbers[int(step)]}.{place}"

    def lines(self):
        """The lines that play the part's steps, each with what is told of a step that is taken so."""
        for number, at in self.numbers.items():
            goal, act = self.goal(self.run.steps[number].goal), self.run.steps[number].act
            clause = f" {act.removeprefix('by ')}" if act.startswith("by ") else ""
            yield f"step {goal}{clause}", f"REDU {at} {goal} {act}\n"

    def calls_told(self, told):
        """What `part` told of calls, in the names of there."""
        lines = [line for line in told.splitlines() if CALL.fullmatch(line)]
        return [VARIABLE.sub(self.variable, NAME.sub(lambda it: self.goal(it[0]), line)) for line in lines]


def judge_alone(left, alone, told):
    """Says what is wrong with what the part does alone."""
    case = left.case._replace(query=alone.query)
    lines = list(alone.lines())
    *steps, again = play(left.folder, case, [*(line for line, _ in lines), "part 0.1"], 1)
    for (line, taken), reply in zip(lines, steps):
        if not reply.startswith(taken):
            raise Wrong(f"the part of {alone.name}, on the query {alone.query}, is answered {reply!r} to `{line}`")
    calls = [line for line in again.splitlines() if CALL.fullmatch(line)]
    if calls != alone.calls_told(told):
        raise Wrong(f"the query {alone.query} gives {calls}, and {alone.name} told {alone.calls_told(told)}")


def judge(left, _):
    """Says what is wrong with parts of a session that are played alone, and how many were."""
    names, count = [name for name in left.run.takers if is_call(left.run.text(name))], 0
    for name, told in zip(names, left.look([f"part {it}" for it in names])):
        if told.startswith("given ") and not re.search(r"^(asked \d+|in turns)$", told, re.MULTILINE):
            alone = Alone(left.run, name, told)
            if alone.is_a_query():
                judge_alone(left, alone, told)
                count += 1
    return count


if __name__ == "__main__":
    sys.exit(try_sessions(judge, __doc__, 150, "parts"))
