#!/usr/bin/env python3
"""Tries `blame` in sessions made by chance: tests/blames.py [--sessions N] [--first N] [--only NAME]

So many sessions are played, 150 where N is left out, by one worker: those of tests/lib/some_sessions.py. In each,
variables of the query, places within their values, and goals that are there are asked about. A user who answers by
chance goes from question to question up to the verdict; others tell calls in any order, some of them twice, and some
that are none. Each reply has to be, byte by byte, the one that tests/lib/blaming.py finds anew: from nothing but the
replies to `records`, `goals`, `goal N`, `explain` and `why`, and to `goals` behind the `roll` of all that is not of
the slice. What is refused is refused in its order. The program is the proved one, or the one that the environment
names as GHCDB. The last line is `N passed, M failed`.
"""
import re
import sys
from typing import NamedTuple

sys.dont_write_bytecode = True
from lib.blaming import Blame, slice_of_place
from lib.judged_runs import Wrong
from lib.some_sessions import try_sessions
from lib.terms import VARIABLE, reached
from lib.told_runs import RECORD, goals_of, is_as_told, names_in, numbers_of

OTHERS = re.compile(r" or [\d,]+$")
NO_VARIABLE, NO_GOAL = "F23 no variable", "F7 no goal"
BAD_WORDS = ("+", "-", "+0", "-0.", "+.1", "+_0_1", "=0.1", "0.1", "+0.1-0.1", "+-0.1", "R", "_0_1", "+4294967296.1")


class Target(NamedTuple):
    """What is asked about: its words, and the steps and the goal of its slice."""

    words: str
    steps: set[int]
    goal: str | None


def explained(told, records):
    """The numbers of the steps that a reply to `explain` tells."""
    lines = {OTHERS.sub("", line) for line in told.splitlines()}
    return set(numbers_of([line for line in records if line in lines]))


def judge_causes(left):
    """`why` tells of each step the causes that are found here."""
    run = left.run
    for step, told in zip(run.steps.values(), left.look([f"why {number}" for number in run.steps])):
        found = {int(line.split(" ", 1)[0]) for line in told.splitlines() if line != "none"}
        if found != run.causes(step):
            raise Wrong(f"`why {step.number}` tells {told!r}, and the steps tell {run.causes(step)}")


def places(left, chance):
    """Variables of the query or of steps, and of each some that it reaches."""
    run, named = left.run, names_in(left.case.query)
    bound = sorted(run.binders)
    variables = left.case.variables
    for root in chance.sample(variables, min(2, len(variables))) + chance.sample(bound, min(1, len(bound))):
        below = sorted(reached(named.get(root, root), run.store))
        yield root, root
        for place in chance.sample(below, min(2, len(below))):
            yield root, place


def places_asked(left, chance):
    """Variables, and places in their values, that are asked about in this session."""
    named = names_in(left.case.query)
    pairs = [(x, y) for x, y in places(left, chance) if x in named or VARIABLE.fullmatch(x)]
    for (x, y), told in zip(pairs, left.look([f"explain {x}" for x, _ in pairs])):
        steps = slice_of_place(left.run, named.get(x, x), named.get(y, y))
        if x == y and not told.startswith("F6") and explained(told, left.records) != steps:
            raise Wrong(f"`explain {x}` tells {told!r}, and the steps tell {steps}")
        yield Target(x if x == y else f"{x} {y}", steps, None)


def goals_asked(left, chance):
    """Goals that are asked about in this session, where they are not too long to print."""
    goals = chance.sample(sorted(left.run.goals), min(2, len(left.run.goals)))
    for goal, told in zip(goals, left.look([f"explain {it}" for it in goals])):
        if not told.startswith("F6"):
            yield Target(goal, explained(told, left.records), goal)


def blame_of(left, target):
    """The calls of a target's slice, in a run of its steps alone, or None where goals are too long to print there."""
    others = [number for number in left.run.steps if number not in target.steps]
    if not others:
        return Blame(left.run, target.goal)
    *_, records, goals = left.look([*(f"roll {it}" for it in others), "records", "goals"])
    if set(numbers_of(it for it in records.splitlines() if RECORD.fullmatch(it))) != target.steps:
        raise Wrong(f"the steps {target.steps} of {target.words} do not stand alone: {records!r}")
    return None if goals.startswith("F6") else Blame(left.run.only(target.steps, goals_of(goals)), target.goal)


def line_of(target, words):
    return " ".join(["blame", target.words, *(sign + name for sign, name in words)])


def conversation(blame, chance):
    """The words of a user who answers each question by chance."""
    words: list[tuple[str, str]] = []
    while True:
        yield list(words)
        _, asked = blame.tells(words)
        if asked is None:
            return
        words.append((chance.choice("+--"), asked))


def told_by_chance(left, blame, chance):
    """Words of a user who tells of calls in any order, and now and then of what is none."""
    others = sorted({*left.run.takers, *left.run.goals, "0.9", "7.7"})
    for _ in range(4):
        names = [chance.choice(blame.calls) for _ in range(chance.choice((1, 2, 4, 8)))] if blame.calls else []
        if chance.random() < 0.2:
            names.insert(chance.randint(0, len(names)), chance.choice(others))
        yield [(chance.choice("+-"), name) for name in names]


def trials_of(left, target, chance):
    """Lines about a target, each with the lines that it has to tell."""
    blame = blame_of(left, target)
    if blame is not None:
        for words in [*conversation(blame, chance), *told_by_chance(left, blame, chance)]:
            yield line_of(target, words), blame.tells(words)[0] or [NO_GOAL]


def trials(left, chance):
    """Lines, each with the lines that it has to tell."""
    for target in [*places_asked(left, chance), *goals_asked(left, chance)]:
        yield from trials_of(left, target, chance)
    yield from refused(left, chance)


def no_commands(left, chance):
    """Lines whose form is wrong, whatever else is in their way."""
    some = chance.choice(sorted(names_in(left.case.query)) or ["_0_1"])
    good = " ".join(["+9.9", *(f"-{it}" for it in left.run.takers)][:2])
    behind = [f"blame {front} {good} {chance.choice(BAD_WORDS)}" for front in ("Nowhere", some, "9.9")]
    return behind + [f"blame {front} {good}" for front in ("9.9 X", "+0.1", "", f"{some} {some} {some}", "0.1 0.2")]


def refused(left, chance):
    """Lines that are refused, with what is in their way first: a variable, a place, a goal, and a call."""
    free = sorted(set(names_in(left.case.query).values()) - set(left.run.binders))
    some, taken = chance.choice(sorted(names_in(left.case.query)) or ["_0_1"]), sorted(left.run.takers) or ["9.9"]
    yield f"blame Nowhere {some} -9.9", [NO_VARIABLE]
    yield f"blame {chance.choice(['_', '_9999_1', '_0_99', '_4294967296_1'])} -9.9", [NO_VARIABLE]
    yield f"blame {chance.choice(taken)} +0.1", [NO_GOAL]
    if len(free) > 1:
        yield f"blame {free[0]} {free[1]} -9.9", [NO_VARIABLE]
        yield f"blame {free[0]} -9.9", [NO_GOAL]


def judge(left, chance):
    """Says what is wrong with what `blame` tells behind a session, and how many lines were tried."""
    judge_causes(left)
    wrong_forms = no_commands(left, chance)
    if not left.has_no_command(wrong_forms):
        raise Wrong(f"one of {wrong_forms} is not refused as no command")
    lines = list(trials(left, chance))
    for (line, expected), told in zip(lines, left.looked([line for line, _ in lines])):
        if not told.startswith("F6") and not is_as_told(expected, told):
            raise Wrong(f"`{line}` tells {told!r}, and not {expected!r}")
    return len(lines)


if __name__ == "__main__":
    sys.exit(try_sessions(judge, __doc__, 150, "lines"))
