#!/usr/bin/env python3
"""Tries `whynot` in sessions made by chance: tests/whynots.py [--sessions N] [--first N] [--only NAME]

So many sessions are played, 150 where N is left out, by one worker: those of tests/lib/some_sessions.py. The reply to
`whynot` of some variables and goals is found anew from nothing but the replies to `records`, `goals` and `goal N`:
which goals reach which variables, for which of these they wait, and which steps made no goal that reaches what theirs
reached. Each reply has to be that one, byte by byte. Where one says that a variable stays unbound, the session goes on
with a run, inputs and a close, and none of those asked about is bound. The program is the proved one, or the one that
the environment names as GHCDB. The last line is `N passed, M failed`.
"""
import sys

sys.dont_write_bytecode = True
from lib.judged_runs import Wrong
from lib.some_sessions import try_sessions
from lib.terms import VARIABLE, reached, shown
from lib.told_runs import by_name, goals_of, listed, names_in

MOST = 24
STAYS, MAY = "stays unbound", "may be bound"
GOING_ON = ["in 1 7", "leap 40", "end 1", "leap 40"]


class Asking:
    """What a session left, by which goals reach which unbound variables."""

    def __init__(self, run):
        self.run = run
        self.reach = {name: self.unbound(goal.text) for name, goal in run.goals.items()}
        self.steps = [self.lost_by(step) for step in run.steps.values()]

    def unbound(self, text):
        """The unbound variables that a goal of this text reaches."""
        found = set().union(*(reached(it[0], self.run.store) for it in VARIABLE.finditer(text)))
        return {it for it in found if it not in self.run.store}

    def lost_by(self, step):
        """The step and what it lost: by a clause, and no goal that it made reaches it."""
        if not step.act.startswith("by "):
            return step, set()
        return step, self.unbound(step.text) - set().union(*(self.unbound(self.run.text(it)) for it in step.makes))

    def awaited(self, name):
        """The variables for which a goal waits."""
        status = self.run.goals[name].status
        return set(status.removeprefix("waits ").split(",")) if status.startswith("waits ") else set()

    def asked(self, first):
        """These variables, and those for which goals wait that reach one asked about."""
        found, open_ones = set(), set(first)
        while open_ones:
            found |= open_ones
            holders = [name for name in self.reach if self.reach[name] & open_ones]
            open_ones = set().union(*map(self.awaited, holders)) - found
        return sorted(found, key=by_name)

    def tells(self, first):
        """The lines that are told where one asks about these."""
        asked = self.asked(first)
        held = [(x, name) for x in asked for name in sorted(self.reach, key=by_name) if x in self.reach[name]]
        statuses = {name: self.run.goals[name].status for _, name in held}
        lost = [f"{x} lost by {it.number} {it.goal} {it.act} {it.text}" for x in asked for it, gone in self.steps if x in gone]
        goes_on = any(it in ("ready", "stream") for it in statuses.values())
        verdict = [MAY if goes_on else STAYS] if asked else []
        return [f"{x} in {name} {statuses[name]}" for x, name in held] + lost + verdict


def goes_on(left, asked):
    """Goes on, and looks that none of the variables asked about is bound."""
    *_, records, goals = left.look([*GOING_ON, "records", "goals"])
    bound = {x for line in listed(records) for x in asked if f" {x}=" in line or f";{x}=" in line}
    if bound:
        raise Wrong(f"{bound} stay unbound, and are bound")
    return goals_of(goals)


def questions(left, chance):
    """Words after `whynot`, the first line of the reply, and the variables with which it begins."""
    run, named = left.run, names_in(left.case.query)
    asking = Asking(run)
    for name in chance.sample(sorted(run.goals), min(MOST, len(run.goals))):
        goal = run.goals[name]
        yield name, f"{name} {goal.status} {goal.text}", asking, asking.awaited(name)
    made = sorted(set().union(*asking.reach.values(), run.store))
    for word in [*left.case.variables, *chance.sample(made, min(MOST, len(made)))]:
        x = named.get(word, word)
        yield word, f"{word} = {shown(x, run.store)}", asking, asking.unbound(x)


def judge(left, chance):
    """Says what is wrong with what `whynot` tells behind a session, and how many questions were tried."""
    asked = list(questions(left, chance))
    stay = None
    for (word, first, asking, some), told in zip(asked, left.looked([f"whynot {it[0]}" for it in asked])):
        expected = [first, *asking.tells(some)]
        if not told.startswith("F6") and told.splitlines() != expected:
            raise Wrong(f"`whynot {word}` tells {told!r}, and not {expected}")
        if expected[-1] == STAYS:
            stay = asking.asked(some)
    if stay is not None:
        goes_on(left, stay)
    return len(asked)


if __name__ == "__main__":
    sys.exit(try_sessions(judge, __doc__, 150, "questions"))
