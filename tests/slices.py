#!/usr/bin/env python3
"""Tries `explain` and `keep` in sessions made by chance: tests/slices.py [--sessions N] [--first N] [--only NAME]

So many sessions are played, 200 where N is left out, of the kinds of tests/lib/random_sessions.py, by one worker.
Behind each, for the query's variables, some that steps made, and some goals:

  - what `explain` tells are lines of `records`, in their order, as many as its last line says;
  - in front of them it tells a goal as `goals` does; and who holds a variable of the term, or one that the goal waits
    for, just where `goals` shows it there;
  - these steps alone, loaded as a history, are the whole record of a session where the variable stands for the same
    term, or the goal has the same status, and where `explain` tells the same steps;
  - behind `keep`, these steps are the record, and the variable or the goal is as it was; and what was taken back comes
    back by `redo`, in recorded order, to the same record, term and goals;
  - a clause is told behind `or` just where `step` takes it behind the `roll` of that step.

Sessions whose kept steps ask for goals are left out of the second, as no history of version 1 tells them. The program
is the proved one, or the one that the environment names as GHCDB. The last line is `N passed, M failed`.
"""
import argparse
import os
import random
import re
import sys
import tempfile
from concurrent.futures import ThreadPoolExecutor
from itertools import cycle, islice
from pathlib import Path
from typing import NamedTuple

sys.dont_write_bytecode = True
from lib.judged_runs import Wrong
from lib.playing import play
from lib.program import PROGRAM
from lib.random_sessions import KINDS, case_of

STEP = re.compile(r"(\d+) (\S+) (?:by (\d+) |is |eq |in |ask |end )?.*reads .* binds .* makes \S+")
OTHERS = re.compile(r" or ([\d,]+)$")
GOAL = re.compile(r"(\d+\.\d+) (ready|stream|waits (\S+)|failed F\d+) (.*)")
VARIABLE = re.compile(r"\b_(\d+)_(\d+)\b")
CLAUSES = range(1, 5)


class Slice(NamedTuple):
    """What `explain` told: the lines in front of the steps, the record lines without what stands behind them, the other
    clauses of each by its number, and how many steps are kept."""

    front: list[str]
    steps: list[str]
    others: dict[int, list[int]]
    kept: int


def number_of(step):
    return int(step.split()[0])


def slice_of(told, records):
    """The slice that a reply tells, where its steps are records, in their order."""
    *lines, last = told.splitlines()
    counts = re.fullmatch(r"steps (\d+) of (\d+)", last)
    if not counts:
        raise Wrong(f"`explain` ends with {last!r}")
    bare = [OTHERS.sub("", line) for line in lines]
    first = next((at for at, line in enumerate(bare) if line in records), len(lines))
    steps, kept = bare[first:], len(records)
    if [it for it in records if it in steps] != steps or (int(counts[1]), int(counts[2])) != (len(steps), kept):
        raise Wrong(f"`explain` tells {steps} and {last!r} of {records}")
    others = {
        number_of(line): [int(it) for it in found[1].split(",")] if (found := OTHERS.search(line)) else []
        for line in lines[first:]
    }
    return Slice(lines[:first], steps, others, kept)


def look(word):
    """The line that shows how a variable or a goal is."""
    return f"show {word}" if VARIABLE.fullmatch(word) or not word[0].isdigit() else f"explain {word}"


def seen(told):
    """What of the first line of a reply stays where the rest of the run goes: the term of a variable, or the name and
    status of a goal."""
    goal = GOAL.match(told)
    return f"{goal[1]} {goal[2]}" if goal else told.split("\n")[0]


def holders_in(goals, first):
    """The lines of the goals that hold a variable of a term, or one for which a goal waits, whose line is the first."""
    own = GOAL.fullmatch(first)
    told = (own[3] or "") if own else first.split(" = ", 1)[1]
    free = sorted({(int(it[1]), int(it[2])) for it in VARIABLE.finditer(told)})
    others = [it for it in map(GOAL.fullmatch, goals.splitlines()) if it and not (own and it[1] == own[1])]
    names = [f"_{step}_{place}" for step, place in free]
    return [
        f"{name} in {it[1]} {it[2]}"
        for name in names
        for it in others
        if name in {found[0] for found in VARIABLE.finditer(it[4])}
    ]


def records_of(told):
    return [] if told == "none\n" else told.splitlines()


def history_of(saved, steps):
    """The history that has just these steps of a history of version 1."""
    heading, _, *lines, end = saved.splitlines()
    numbers = {number_of(it) for it in steps}
    chosen = [it for it in lines if number_of(it) in numbers]
    return "".join(f"{it}\n" for it in (heading, f"steps {len(chosen)}", *chosen, end))


def made_by(records, chance):
    """Some of the variables that steps bound."""
    names = sorted(set(re.findall(r"(_\d+_\d+)=", "\n".join(records))))
    return chance.sample(names, min(3, len(names)))


class Session:
    """A session of a case, played once, and what it left."""

    def __init__(self, folder, case):
        self.folder, self.case = folder, case
        *_, records, self.goals, self.saved = self.play(["records", "goals", "save 1"])
        self.records = records_of(records)

    def play(self, lines, history=None):
        """The replies to lines behind those of the session, or on a history."""
        before = [] if history else self.case.lines
        return play(self.folder, self.case, [*before, *lines], 1, history)[len(before) :]


def judge_front(session, word, found):
    """The first line of a goal is that of `goals`, and the holders are those that `goals` shows."""
    first, *holders = found.front
    if session.goals.startswith("F6"):
        return
    if GOAL.fullmatch(first) and first not in session.goals.splitlines():
        raise Wrong(f"`explain {word}` begins with {first!r}, and `goals` tells {session.goals!r}")
    if holders != holders_in(session.goals, first):
        raise Wrong(f"`explain {word}` tells {found.front!r}, and `goals` {session.goals!r}")


def judge_alone(session, word, found):
    """The steps of the slice alone are a record that gives the same."""
    if session.saved.startswith("F6"):
        return
    shown, records, explained = session.play(
        [look(word), "records", f"explain {word}"], history_of(session.saved, found.steps)
    )
    again = slice_of(explained, records_of(records))
    if seen(shown) != seen(found.front[0]) or records_of(records) != found.steps or again.steps != found.steps:
        raise Wrong(f"the slice of {word} alone gives {shown!r}, {records!r} and {explained!r}")


def judge_keep(session, word, found):
    """`keep` leaves the slice, and what went comes back."""
    line = look(word)
    gone = [number_of(it) for it in session.records if it not in found.steps]
    replies = session.play(
        [line, f"keep {word}", line, "records", *(f"redo {it}" for it in gone), "records", "goals", line]
    )
    before, kept, behind, records = replies[:4]
    undone = [int(it) for row in re.findall(r"undone ([\d,]+)", kept) for it in row.split(",")]
    if (kept.splitlines()[-1:], sorted(undone)) != ([f"kept {len(found.steps)}"], sorted(gone)):
        raise Wrong(f"`keep {word}` tells {kept!r}")
    if seen(behind) != seen(before) or records_of(records) != found.steps:
        raise Wrong(f"behind `keep {word}` stand {behind!r} and {records!r}")
    came, goals, last = replies[-3:]
    if sorted(records_of(came)) != sorted(session.records) or (goals, seen(last)) != (session.goals, seen(before)):
        raise Wrong(f"behind `keep {word}` and `redo` of what went stand {came!r}, {goals!r} and {last!r}")


def judge_others(session, found, chance):
    """The clauses told of a step are just those by which its goal can be stepped behind its `roll`."""
    calls = [it for it in found.steps if STEP.fullmatch(it) and STEP.fullmatch(it)[3]]
    for step in chance.sample(calls, min(2, len(calls))):
        number, goal, clause = STEP.fullmatch(step).group(1, 2, 3)
        accepted = []
        for other in CLAUSES:
            _, told = session.play([f"roll {number}", f"step {goal} {other}"])
            if not re.match(r"F\d+ ", told):
                accepted.append(other)
        told = [it for it in found.others[int(number)] if it in CLAUSES]
        if sorted({*told, *([int(clause)] if int(clause) in CLAUSES else [])}) != accepted:
            raise Wrong(f"of step {number} the clauses {told} are told, and {accepted} are accepted")


def judge(folder, case):
    """Says what is wrong with what is told behind a session."""
    session, chance = Session(folder, case), random.Random(case.name)
    there = [it[1] for it in map(GOAL.fullmatch, session.goals.splitlines()) if it]
    for word in [*case.variables[:3], *made_by(session.records, chance), *chance.sample(there, min(3, len(there)))]:
        (explained,) = session.play([f"explain {word}"])
        if explained.startswith("F6"):
            continue
        found = slice_of(explained, session.records)
        judge_front(session, word, found)
        judge_alone(session, word, found)
        judge_keep(session, word, found)
        judge_others(session, found, chance)


def tried(above, name):
    """What is wrong with the session of that name, if anything."""
    with tempfile.TemporaryDirectory(dir=above) as folder:
        try:
            judge(Path(folder), case_of(name))
        except Wrong as wrong:
            return f"failed: {name}: {wrong}"
    return None


def main():
    parser = argparse.ArgumentParser(description=__doc__, formatter_class=argparse.RawDescriptionHelpFormatter)
    parser.add_argument("--sessions", type=int, default=200)
    parser.add_argument("--first", type=int, default=1)
    parser.add_argument("--only")
    given = parser.parse_args()
    if not Path(PROGRAM).is_file():
        print(f"{PROGRAM} is not there: `./ghcdb --prove` makes it", file=sys.stderr)
        return 1
    kinds = islice(cycle(KINDS), given.sessions)
    names = [given.only] if given.only else [f"{kind}-{number}" for number, kind in enumerate(kinds, given.first)]
    with tempfile.TemporaryDirectory(prefix="ghcdb-slices-") as folder, ThreadPoolExecutor(os.cpu_count()) as pool:
        wrong = [it for it in pool.map(lambda name: tried(folder, name), names) if it]
    print("".join(f"{it}\n" for it in wrong), end="")
    print(f"{len(names) - len(wrong)} passed, {len(wrong)} failed")
    return 1 if wrong else 0


if __name__ == "__main__":
    sys.exit(main())
