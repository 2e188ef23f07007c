"""Judges runs by what `records` and `goals` tell before and behind them, for tests/workers.py and sweep_workers.py. A
run may take any order, so what it tells is compared with no text."""
import re
from typing import NamedTuple

RUNS = ("leap", "skip")
MOST = 1_000_000
F1 = "F1 no memory"


class Wrong(Exception):
    """What is wrong with a session."""


class Step(NamedTuple):
    """A kept step, as `records` tells it."""

    number: str
    goal: str
    act: str
    made: list[str]

    def line(self):
        """The line by which a run tells the step."""
        return f"REDU {self.number} {self.goal} {self.act}"


class Goal(NamedTuple):
    """A goal, as `goals` tells it."""

    name: str
    status: str
    text: str


class Run(NamedTuple):
    """A run: its line and its reply, the goals that are there and the steps that are kept before it and behind it, and
    the predicates that are spied."""

    line: str
    told: str
    found: list[Goal]
    before: list[Step]
    behind: list[Step]
    left: list[Goal]
    spied: set[str]


def steps_of(reply):
    """The steps that a reply to `records` tells."""
    found = re.findall(r"^(\d+) (\S+) (.*) reads \S+ binds .* makes (\S+)$", reply, re.MULTILINE)
    if len(found) != reply.count("\n") - (reply == "none\n"):
        raise Wrong(f"records are told as {reply!r}")
    return [Step(number, goal, act, [] if made == "-" else made.split(",")) for number, goal, act, made in found]


def goals_of(reply):
    """The goals that a reply to `goals` tells."""
    found = re.findall(r"^(\d+\.\d+) (ready|stream|waits \S+|failed F\d+) (.*)$", reply, re.MULTILINE)
    if len(found) != reply.count("\n") - (reply == "none\n"):
        raise Wrong(f"goals are told as {reply!r}")
    return [Goal(name, status.split()[0], text) for name, status, text in found]


def predicate_of(call):
    """The name and the arity of a call in which no space stands."""
    name, _, rest = call.partition("(")
    depth, arity = 0, 1 if rest else 0
    for letter in rest[:-1]:
        depth += (letter in "([") - (letter in ")]")
        arity += letter == "," and depth == 0
    return f"{name}/{arity}"


def predicates_of(program):
    """The predicates of the clauses of a program that has one a line, and no space in their heads."""
    return [predicate_of(clause.partition(" :- ")[0]) for clause in program.splitlines()]


def is_spied(goal, spied):
    """Whether the goal is a call of one of these predicates. Unifications and assignments are printed with spaces, and
    calls without."""
    return " " not in goal.text and predicate_of(goal.text) in spied


def in_question(line, steps):
    """The test by which a goal's name is in question for a run, where these steps are kept."""
    if line.startswith("leap"):
        return lambda name: True
    names = {line.split()[1]}
    for step in steps:
        if step.goal in names:
            names.update(step.made)
    return lambda name: name in names


def reasons_of(goals, spied, is_limit):
    """The reasons of which one holds, and none stands before it, where these goals are in question."""
    failed = [goal.name for goal in goals if goal.status == "failed"]
    ready = [goal for goal in goals if goal.status == "ready"]
    stopping = [goal.name for goal in ready if is_spied(goal, spied)]
    if failed:
        return [f"clash {name}" for name in failed]
    if stopping:
        return [f"spied {name}" for name in stopping]
    if not ready:
        return ["quiet"]
    return ["limit"] if is_limit else []


def judge_step(step, run, is_asked, predicates):
    """Says what is wrong with a step that a run added."""
    clause = re.fullmatch(r"by (\d+)", step.act)
    if not (clause or step.act in ("eq", "is")) or not is_asked(step.goal):
        raise Wrong(f"the step {step} is none of this run")
    if clause and predicates[int(clause[1]) - 1] in run.spied:
        raise Wrong(f"the predicate of the step {step} is spied")


def judge_told(run, added, is_refused):
    """Says what is wrong with the lines of a run that added these steps."""
    lines, told = run.told.splitlines()[:-1], [step.line() for step in added]
    if run.behind[: len(run.before)] != run.before:
        raise Wrong(f"it left {run.behind} of {run.before}")
    if lines != told and not (
        is_refused and len(lines) == len(told) and all(one in (other, F1) for one, other in zip(lines, told))
    ):
        raise Wrong(f"it told {run.told!r}, and added {added}")


def judge_run(run, predicates, is_refused=False):
    """Says what is wrong with a run, where the clauses have these predicates, and gives why it stopped. Where requests
    for memory were refused it may stop for that, and each of its lines may be F1."""
    if (
        run.told == "F7 no goal\n"
        and run.before == run.behind
        and run.line.split()[1] not in [goal.name for goal in run.found]
    ):
        return "none"
    added, is_asked = run.behind[len(run.before) :], in_question(run.line, run.behind)
    limit = int(run.line.split()[1]) if re.match("leap .", run.line) else MOST
    judge_told(run, added, is_refused)
    if len(added) > limit or (
        added and reasons_of([goal for goal in run.found if is_asked(goal.name)], run.spied, True) != ["limit"]
    ):
        raise Wrong(f"it added {len(added)} steps where there were {run.found}")
    for step in added:
        judge_step(step, run, is_asked, predicates)
    left, last = [goal for goal in run.left if is_asked(goal.name)], run.told.splitlines()[-1]
    if is_refused and last in ("stopped memory", F1):
        return "memory"
    if last not in [f"stopped {it}" for it in reasons_of(left, run.spied, len(added) == limit)]:
        raise Wrong(f"its last line is {last!r} behind {len(added)} steps, and {left} is left")
    return last.split()[1]


def runs_of(lines, replies):
    """The runs among the lines of a session, each with its place. Each stands behind `goals` and `records`, and before
    both in turn."""
    spied = set()
    for at, line in enumerate(lines):
        word, _, rest = line.partition(" ")
        if word == "spy":
            spied.add(rest)
        if word == "nospy":
            spied.discard(rest)
        if word in RUNS:
            before, behind = steps_of(replies[at - 1]), steps_of(replies[at + 1])
            yield at, Run(
                line, replies[at], goals_of(replies[at - 2]), before, behind, goals_of(replies[at + 2]), set(spied)
            )
