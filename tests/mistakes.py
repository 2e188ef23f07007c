#!/usr/bin/env python3
"""Finds planted mistakes by `blame`: tests/mistakes.py [NAME..]

tests/mistakes has programs with one planted mistake each, NAME.ghc, and mended, NAME.ok.ghc. The first lines of a
program tell its query, which variable is shown, and what its value should be. Each program is run, and has to show
something else; the mended one shows what is wanted. Where the value is wrong, `% Bug` is the number of the wrong
clause, and `blame` is asked about the variable. A user who knows the mended program answers: he takes the text
behind `given` as a query of that, and looks whether it gives what stands behind `gave`. What is unbound there may be
bound, for a slice may leave out what else was given. The verdict has to be a step by the wrong clause, after `%
Questions` at most, and no call may be asked about twice. Where there is a `% Place`, as `1 2` for the second element
of the first element, the same is tried of that place, with `% Questions there`. Where `% Race` says so, no clause
alone is wrong: each call is right but what the user `% Told` before, and the verdict is the clause that puts them
together.

The program is the proved one, or the one that the environment names as GHCDB. The last line is `N passed, M failed`.
"""
import re
import sys
import tempfile
from pathlib import Path
from typing import NamedTuple

sys.dont_write_bytecode = True
from lib.judged_runs import Wrong
from lib.playing import play
from lib.program import PROGRAM, TESTS
from lib.random_sessions import Case
from lib.terms import VARIABLE, end_of, is_cell, read
from lib.told_runs import Run, listed, names_in, numbers_of, steps_of

MISTAKES = TESTS / "mistakes"
HEAD = re.compile(r"^% ([A-Z][a-z ]*): (.*)$", re.MULTILINE)
ASK, FAULT = re.compile(r"ask (\S+) of \d+"), re.compile(r"fault (\d+) \S+ by (\d+)")


class Mistake(NamedTuple):
    """A program with a mistake, what its first lines tell, and the program without it."""

    name: str
    text: str
    head: dict[str, str]
    mended: str

    def case(self, text, query):
        return Case(self.name, text, query, [], [], False)

    def play(self, folder, lines):
        """The replies to lines behind a run of the program."""
        return play(folder, self.case(self.text, self.head["Query"]), ["leap", *lines], 1)[1:]


def mistake_of(name):
    text = (MISTAKES / f"{name}.ghc").read_text()
    return Mistake(name, text, dict(HEAD.findall(text)), (MISTAKES / f"{name}.ok.ghc").read_text())


def judge_values(folder, mistake):
    """The program shows something else than is wanted, and the mended one shows that. Gives what the program shows."""
    shown, wanted = mistake.head["Show"], f"{mistake.head['Show']} = {mistake.head['Wanted']}\n"
    (told,) = mistake.play(folder, [f"show {shown}"])
    *_, mended = play(folder, mistake.case(mistake.mended, mistake.head["Query"]), ["leap", f"show {shown}"], 1)
    if told == wanted or mended != wanted:
        raise Wrong(f"it shows {told!r}, and its mended form {mended!r}, of {wanted!r}")
    return told


def place_in(folder, mistake):
    """The variable at the place within the value of what is shown."""
    (records,) = mistake.play(folder, ["records"])
    run = Run(steps_of(listed(records), mistake.play(folder, [f"goal {it}" for it in numbers_of(listed(records))])), {})
    term = names_in(mistake.head["Query"])[mistake.head["Show"]]
    for place in map(int, mistake.head["Place"].split()):
        cell = end_of(term, run.store)
        for _ in range(place - 1):
            cell = end_of(cell[1][1], run.store)
        if not is_cell(cell):
            raise Wrong(f"there is no place {mistake.head['Place']}")
        term = cell[1][0]
    return term


def covers(told, found, names):
    """Is the term that was found the one told, where each unbound variable of this stands for some term?"""
    if isinstance(told, str) and VARIABLE.fullmatch(told):
        return names.setdefault(told, found) == found
    if isinstance(told, str) or isinstance(found, str):
        return told == found
    (name, arguments), (other, others) = told, found
    return name == other and len(arguments) == len(others) and all(covers(*it, names) for it in zip(arguments, others))


def is_right(folder, mistake, told):
    """Does the mended program give what was told, for what was given?"""
    if "Race" in mistake.head:
        return True
    given, gave = (re.search(rf"^{word} (.*)$", told, re.MULTILINE)[1] for word in ("given", "gave"))
    query = VARIABLE.sub(lambda it: f"V{it[1]}_{it[2]}", given)
    *_, part = play(folder, mistake.case(mistake.mended, query), ["leap", "part 0.1"], 1)
    found = re.search(r"^gave (.*)$", part, re.MULTILINE) or re.search(r"^given (.*)$", part, re.MULTILINE)
    return covers(read(gave), read(found[1]), {})


def blamed(folder, mistake, about):
    """The answers to the questions about a variable or a place, and the verdict."""
    before, words = mistake.head.get("Told", "").split(), list[str]()
    while True:
        (told,) = mistake.play(folder, [" ".join(["blame", *about, *before, *words])])
        last = told.splitlines()[-1]
        asked = ASK.fullmatch(last)
        if not asked:
            return words, last
        if any(word[1:] == asked[1] for word in [*before, *words]):
            raise Wrong(f"`blame` asks about {asked[1]} again, after {[*before, *words]}")
        words.append(("+" if is_right(folder, mistake, told) else "-") + asked[1])


def judge_blame(folder, mistake, about, most):
    """The verdict is a step by the wrong clause, after so many questions at most."""
    words, last = blamed(folder, mistake, about)
    verdict = FAULT.fullmatch(last)
    if not verdict or verdict[2] != mistake.head["Bug"] or len(words) > most:
        raise Wrong(f"`blame {' '.join(about)}` ends with {last!r}, after {words}")
    return len(words)


def judge(folder, mistake):
    """Says what is wrong with what is told of a mistake, and gives how many questions were asked."""
    shown, counts = judge_values(folder, mistake), []
    if "Questions" in mistake.head:
        if VARIABLE.fullmatch(shown.split(" = ", 1)[1]):
            raise Wrong(f"it shows no value: {shown!r}")
        counts.append(judge_blame(folder, mistake, [mistake.head["Show"]], int(mistake.head["Questions"])))
    if "Place" in mistake.head:
        about = [mistake.head["Show"], place_in(folder, mistake)]
        counts.append(judge_blame(folder, mistake, about, int(mistake.head["Questions there"])))
    return counts


def main():
    if not Path(PROGRAM).is_file():
        print(f"{PROGRAM} is not there: `./ghcdb --prove` makes it", file=sys.stderr)
        return 1
    files = [it.name for it in MISTAKES.glob("*.ghc") if ".ok." not in it.name]
    names = sys.argv[1:] or sorted(it.removesuffix(".ghc") for it in files)
    failed = 0
    with tempfile.TemporaryDirectory(prefix="ghcdb-mistakes-") as folder:
        for name in names:
            try:
                counts = judge(Path(folder), mistake_of(name))
                print(f"{name}: {' and '.join(map(str, counts)) or 'no'} questions")
            except Wrong as wrong:
                failed += 1
                print(f"failed: {name}: {wrong}")
    print(f"{len(names) - failed} passed, {failed} failed")
    return 1 if failed else 0


if __name__ == "__main__":
    sys.exit(main())
