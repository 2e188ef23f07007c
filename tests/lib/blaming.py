"""The reply to `blame`, found anew from a run that has a slice's steps alone, for tests/blames.py."""
from collections import Counter
from functools import cached_property

from lib.terms import reached
from lib.told_runs import by_name, is_call, maker

QUERY = None


def slice_of_place(run, x, y):
    """The numbers of the steps on which y rests as x reaches it: those that bound something on the way from x to y, or
    that y reaches, and those that made x or y, with all their causes. Where y is x, the slice of x."""
    below = reached(y, run.store)
    way = [z for z in reached(x, run.store) if z in below or y in reached(z, run.store)]
    bound = {run.binders[z].number for z in way if z in run.binders}
    return run.rests_on(bound | {maker(it) for it in (x, y) if maker(it) in run.steps})


class Blame:
    """The calls of a slice, of which the run has the steps alone, and the goal asked about, if one is."""

    def __init__(self, run, target=None):
        self.run, self.target = run, target
        calls = [name for name in run.takers if is_call(run.text(name))]
        asked = [target] if target is not None and is_call(run.text(target)) else []
        self.calls = sorted([*calls, *asked], key=by_name)

    @cached_property
    def over(self):
        """For each call those above it, from its parent up to the query."""
        found: dict[str, list] = {}
        for name in self.calls:
            above = self.run.above(name)
            found[name] = [QUERY] if above is QUERY else [above, *found[above]]
        return found

    def in_question(self, told, top):
        """The calls below the top of which neither they nor a call between is told right."""
        found = []
        for name in self.calls:
            if top in self.over[name]:
                way = [name, *self.over[name][: self.over[name].index(top)]]
                if not any(told.get(it) == "+" for it in way):
                    found.append(name)
        return found

    def top(self, told):
        """The query, or the call told wrong below which none in question is told wrong: from the query downwards, each
        time the one that was told last."""
        top = QUERY
        while True:
            open_ones = set(self.in_question(told, top))
            wrong = [name for name in told if told[name] == "-" and name in open_ones]
            if not wrong:
                return top
            top = wrong[-1]

    def asked(self, open_ones):
        """The call that is asked about next: nearest to half of what is in question is in its part, itself too."""
        weights: Counter = Counter(open_ones)
        for name in open_ones:
            weights.update(self.over[name])
        return min(open_ones, key=lambda name: (abs(2 * weights[name] - len(open_ones) - 1), by_name(name)))

    def front(self, name):
        """The lines of a call, in front of the question or the verdict."""
        status = self.run.goals[self.target].status if self.target is not None else ""
        is_above = self.target is not None and self.run.descends(self.target, name)
        return [*self.run.given(name), *self.run.gave(name), *([f"left {self.target} {status}"] if is_above else [])]

    def made(self, names):
        left = f"{self.target} left {self.run.goals[self.target].text}" if self.target is not None else ""
        return [left if name == self.target else self.run.made(name) for name in names]

    def verdict(self, top):
        """The lines that tell the step at fault."""
        if top is QUERY:
            asks = [step.makes for step in self.run.steps.values() if step.goal == "-"]
            query = sorted([it for it in {*self.run.takers, *self.run.goals} if maker(it) == 0], key=by_name)
            return [*self.made(query), *self.made(sum(asks, [])), "fault 0"]
        taker = self.run.takers.get(top)
        if taker is None:
            return [*self.front(top), f"fault {top}"]
        return [*self.front(top), *self.made(taker.makes), f"fault {taker.number} {top} {taker.act}"]

    def tells(self, words):
        """The lines of the reply to these words, each a sign and a goal, or None where one of them is no call of the
        slice; and the call asked about, if one is."""
        told: dict[str, str] = {}
        for sign, name in words:
            if name not in self.calls:
                return None, None
            told.pop(name, None)
            told[name] = sign
        top = self.top(told)
        open_ones = self.in_question(told, top)
        if not open_ones:
            return self.verdict(top), None
        name = self.asked(open_ones)
        return [*self.front(name), f"ask {name} of {len(open_ones)}"], name
