"""What a session left, from nothing but the replies to `records`, `goal N` and `goals`, for tests/parts.py,
blames.py and those beside them: on which steps a step rests, what descends from a goal, and what each call was given
and gave."""
import re
from itertools import count
from typing import NamedTuple

from lib.terms import VARIABLE, goal_shown, reached, read, shown

RECORD = re.compile(r"(\d+) (\S+) (.*) reads (\S+) binds (.*) makes (\S+)")
GOAL = re.compile(r"(\d+\.\d+) (ready|stream|waits \S+|failed F\d+) (.*)")
NO_GOAL, NO_CALL = "F7 no goal", "F8 no such clause for the goal"


class Step(NamedTuple):
    """A kept step, as `records` tells it, and the goal that it took as it was written then."""

    number: int
    goal: str
    act: str
    reads: list[str]
    binds: dict[str, object]
    makes: list[str]
    text: str


class Goal(NamedTuple):
    """A goal that is there, as `goals` tells it: with all bindings put in."""

    name: str
    status: str
    text: str


class AnyWriting(NamedTuple):
    """A line of a goal of which only the text with all bindings put in is known, and not as it is written."""

    front: str
    text: str
    store: dict

    def is_told_by(self, line):
        return line.startswith(self.front) and goal_shown(line.removeprefix(self.front), self.store) == self.text


def listed(told):
    """The lines of a reply that tells `none` where there are none."""
    return [] if told == "none\n" else told.splitlines()


def goals_of(told):
    """The goals by name, from the reply to `goals`."""
    return {it[1]: Goal(it[1], it[2], it[3]) for it in map(GOAL.fullmatch, listed(told))}


def numbers_of(records):
    """The numbers of the steps of record lines."""
    return [int(line.split(" ", 1)[0]) for line in records]


def steps_of(records, texts):
    """The kept steps by number, in recorded order, from the lines of `records` and the replies to `goal N`."""
    steps = {}
    for line, told in zip(records, texts):
        number, goal, act, reads, binds, makes = RECORD.fullmatch(line).groups()
        taken = told.rstrip("\n").removeprefix(f"{number} {goal} {act} ")
        bound = dict(it.split("=", 1) for it in binds.split(";")) if binds != "-" else {}
        steps[int(number)] = Step(
            int(number),
            goal,
            act,
            [] if reads == "-" else reads.split(","),
            {x: read(t) for x, t in bound.items()},
            [] if makes == "-" else makes.split(","),
            re.sub(r" line \d+$", "", taken) if act.startswith("by ") else taken,
        )
    return steps


def maker(name):
    """The number of the step that made a variable or a goal."""
    return int(re.split(r"[._]", name.lstrip("_"))[0])


def by_name(name):
    """The order of goals and variables."""
    return tuple(int(it) for it in re.findall(r"\d+", name))


def is_call(text):
    """Is the goal of this text a call, and no unification, assignment or stream?"""
    return " = " not in text and " := " not in text and not text.startswith("instream ")


def names_in(query):
    """The variables of a query by their names."""
    return {name: f"_0_{at}" for at, name in enumerate(dict.fromkeys(re.findall(r"\b[A-Z]\w*", query)), 1)}


def writings_of(query, steps):
    """How the goals of a query are written, and those that steps ask for. No blank stands within their terms."""
    names, streams = names_in(query), count(1)
    named = re.sub(r"\b[A-Z]\w*", lambda it: names[it[0]], query)
    bodies = {0: re.sub(r"instream\((\w+)\)", lambda it: f"instream {next(streams)} {it[1]}", named)}
    bodies |= {step.number: step.act.removeprefix("ask ") for step in steps.values() if step.goal == "-"}
    goals = {number: [it for it in body.split(", ") if it != "true"] for number, body in bodies.items()}
    return {f"{number}.{at}": goal_shown(text, {}) for number in goals for at, text in enumerate(goals[number], 1)}


class Run:
    """What a session left: its kept steps, its goals, and what each variable is bound to. Of goals that no step took,
    `writings` has what else is known of how they are written."""

    def __init__(self, steps, goals, writings=None):
        self.steps, self.goals, self.writings = steps, goals, writings or {}
        self.takers = {step.goal: step for step in steps.values() if step.goal != "-"}
        self.binders = {x: step for step in steps.values() for x in step.binds}
        self.store = {x: term for step in steps.values() for x, term in step.binds.items()}

    def only(self, numbers, goals):
        """The run of some of the steps, that leaves these goals."""
        steps = {number: step for number, step in self.steps.items() if number in numbers}
        return Run(steps, goals, self.writings | {step.goal: step.text for step in self.steps.values()})

    def text(self, name):
        """The text of a goal that was taken, as it was written, or of one that is there."""
        return self.takers[name].text if name in self.takers else self.goals[name].text

    def above(self, name):
        """The goal whose step made this one, or None where the query did, or a step that asks."""
        step = self.steps.get(maker(name))
        return step.goal if step is not None and step.goal != "-" else None

    def descends(self, name, root):
        """Does a goal descend from the root?"""
        while name is not None and name != root:
            name = self.above(name)
        return name == root

    def part(self, name):
        """The numbers of the steps of the part of a goal."""
        return {it.number for it in self.steps.values() if it.goal != "-" and self.descends(it.goal, name)}

    def named(self, step):
        """The variables that a step names which asks for goals, and has not made."""
        return [f"_{n}_{m}" for n, m in VARIABLE.findall(step.act) if int(n) != step.number] if step.goal == "-" else []

    def causes(self, step):
        """The numbers of the steps on which a step depends directly."""
        names = self.named(step) if step.goal == "-" else [step.goal]
        return {maker(it) for it in names if maker(it) in self.steps} | {self.binders[x].number for x in step.reads}

    def rests_on(self, numbers):
        """The numbers of these steps, and of all on which they depend."""
        found, open_ones = set(), set(numbers)
        while open_ones:
            one = open_ones.pop()
            if one not in found:
                found.add(one)
                open_ones |= self.causes(self.steps[one])
        return found

    def given(self, name):
        """The lines of what a call was given, of who asked, and of turns."""
        of, text = self.part(name), self.text(name)
        given = {x: term for x, term in self.store.items() if self.binders[x].number not in of}
        givers = {self.binders[x].number for x in reached(read(text), self.store) if x in given}
        asks = [it.number for it in self.steps.values() if any(maker(x) in of for x in self.named(it))]
        turns = ["in turns"] if self.rests_on(givers) & of else []
        return [f"given {shown(text, given)}", *(f"asked {it}" for it in asks), *turns]

    def gave(self, name):
        """The line of what a call gave, if a step took it."""
        return [f"gave {shown(self.text(name), self.store)}"] if name in self.takers else []

    def made(self, name):
        """The line of a goal that was made."""
        text = self.text(name)
        if is_call(text):
            return f"{name} {'gave' if name in self.takers else 'stands'} {shown(text, self.store)}"
        text = self.takers[name].text if name in self.takers else self.writings.get(name)
        return AnyWriting(f"{name} ", self.goals[name].text, self.store) if text is None else f"{name} {text}"

    def tells_part(self, name):
        """The lines that `part` tells of the goal of this name, or the refusal."""
        if name not in self.takers and name not in self.goals or self.text(name).startswith("instream "):
            return [NO_GOAL]
        if not is_call(self.text(name)):
            return [NO_CALL]
        if name not in self.takers:
            return [*self.given(name), f"{name} {self.goals[name].status}"]
        taker = self.takers[name]
        return [*self.given(name), *self.gave(name), *map(self.made, taker.makes), f"{taker.number} {name} {taker.act}"]


def is_as_told(expected, told):
    """Is a reply the lines that are expected?"""
    told = told.splitlines()
    return len(expected) == len(told) and all(
        one.is_told_by(line) if isinstance(one, AnyWriting) else one == line for one, line in zip(expected, told)
    )
