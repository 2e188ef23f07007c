#!/usr/bin/env python3
"""Tries runs by several workers: tests/workers.py [--runs N] [--first N] [--workers N,N,..] [--only NAME]

By 4 workers, and by 16, three sessions written by hand are played, and sessions made by chance
(tests/lib/random_sessions.py tells how) until they had N runs, 200 where N is left out. With another number behind
--first these are other sessions; --only plays one, by the name that a failure tells. A run may take any order, so what
is written is compared with no text, but

  - it ends, and tells the steps that `records` has behind it and had not before, which are reductions, unifications and
    assignments, at most as many as its limit, of goals in question, and none of a spied predicate; and there is none
    where before it one of these goals had failed, or was ready and spied;
  - the reason for which it stopped holds of what `goals` tells behind it, and none that stands before it; it is never
    want of memory;
  - what is saved behind the session, in either version, is loaded by a session of one worker, where `records`, `goals`,
    each `show`, `shelf` (version 2) and what is saved are the same;
  - where all orders leave the same, one worker and several stop for the same reason in the end, and where that is
    `quiet`, they keep as many steps, and leave the same values of the query's variables, but for the names of those
    that are unbound.

Besides, tests/lib/real_workers.py shows that these runs are made by several workers; its parts can be named behind
--only, too.

Where there is a C compiler, the library of tests/refuse.c lets some requests for memory sleep, so that workers overtake
each other. With `--workers 1` the option is left out. The program is the proved one, or the one that the environment
names as GHCDB. A session of more than 60 seconds is wrong. The last line is `N passed, M failed`.
"""
import argparse
import os
import re
import sys
import tempfile
import time
from concurrent.futures import ThreadPoolExecutor
from itertools import count, cycle
from pathlib import Path

sys.dont_write_bytecode = True
from lib.judged_runs import RUNS, Wrong, judge_run, predicates_of, runs_of, steps_of
from lib.playing import play
from lib.program import PROGRAM
from lib.random_sessions import KINDS, Case, case_of
from lib.real_workers import SHOWN
from lib.refusing import compile_library
from lib.texts import APPEND, SUM

RUN = ["goals", "records", "leap", "records", "goals"]
NOTHING = Case("nothing", "", "true", [], RUN, True)
LISTS = Case("append", APPEND, "append([1],[2],R)", ["R"], [*RUN, "show R"], True)
STREAM = Case(
    "sum", SUM, "instream(S), sum(S,0,R)", ["S", "R"],
    ["in 1 5", "in 1 7", "end 1", *RUN, "show R", "roll 1", "in 1 9", "end 1", *RUN, "show R"], True,
)


def fits_nothing(replies):
    """Whether these are the replies of the session on nothing."""
    return replies[0] == "none\n" and replies[2] == "stopped quiet\n"


def fits_lists(replies):
    """Whether these are the replies of the session that appends."""
    return replies[2].endswith("stopped quiet\n") and replies[4:6] == ["none\n", "R = [1,2]\n"]


def fits_stream(replies):
    """Whether these are the replies of the session on a stream: with the first input all nine steps are taken back, in
    recorded order."""
    kept = [step.number for step in steps_of(replies[6])]
    is_summed = replies[5].endswith("stopped quiet\n") and replies[7:9] == ["none\n", "R = 12\n"]
    is_undone = sorted(map(int, kept)) == list(range(1, 10)) and replies[9].startswith(f"undone {','.join(kept)}\n")
    return is_summed and is_undone and replies[14].endswith("stopped quiet\n") and replies[17] == "R = 9\n"


BY_HAND = [(NOTHING, fits_nothing), (LISTS, fits_lists), (STREAM, fits_stream)]


def lines_behind(case):
    """The lines that stand behind the session."""
    return ["records", "goals", *(f"show {name}" for name in case.variables), "shelf", "save 1", "save"]


def judge_runs(case, replies):
    """Says what is wrong with the runs of a session, and gives why the last one stopped."""
    predicates, reason = predicates_of(case.program), "none"
    for at, run in runs_of(case.lines, replies):
        try:
            reason = judge_run(run, predicates)
        except Wrong as wrong:
            raise Wrong(f"line {at + 1}, `{run.line}`: {wrong}") from None
    return reason


def judge_loaded(folder, case, replies):
    """Says what is wrong with what the lines behind the session have saved."""
    told = dict(zip(lines_behind(case), replies))
    for version, history in (("save", replies[-1]), ("save 1", replies[-2])):
        if history == "F6 limit: version\n":
            continue
        lines = [line for line in told if version == "save" or line not in ("shelf", "save")]
        found = play(folder, case, lines, 1, history)
        wrong = [(line, told[line], reply) for line, reply in zip(lines, found) if told[line] != reply]
        if wrong:
            raise Wrong(f"what `{version}` wrote, loaded, is another session: {wrong}")


def left_by(case, reason, replies):
    """What the session leaves, by the replies to the lines behind it, in the words that all orders have in common."""
    if reason != "quiet":
        return reason, "", 0
    shown = "".join(reply for line, reply in zip(lines_behind(case), replies) if line.startswith("show"))
    names = list(dict.fromkeys(re.findall(r"_\d+_\d+", shown)))
    return reason, re.sub(r"_\d+_\d+", lambda name: f"_{names.index(name[0])}", shown), len(steps_of(replies[0]))


def judge(folder, case, workers):
    """Says what is wrong with a case that is played by so many workers, and gives the replies to the lines of its
    session."""
    lines, length = case.lines + lines_behind(case), len(case.lines)
    replies = play(folder, case, lines, workers)
    left = left_by(case, judge_runs(case, replies), replies[length:])
    judge_loaded(folder, case, replies[length:])
    if case.is_alike and workers > 1:
        alone = play(folder, case, lines, 1)
        by_one = left_by(case, judge_runs(case, alone), alone[length:])
        if by_one != left:
            raise Wrong(f"one worker leaves {by_one}, and {workers} leave {left}")
    return replies[:length]


def tried(above, case, fits, workers):
    """What is wrong with a case, if anything, which is played in a folder below that one."""
    with tempfile.TemporaryDirectory(dir=above) as folder:
        try:
            replies = judge(Path(folder), case, workers)
            if fits and not fits(replies):
                raise Wrong(f"the replies are {replies}")
        except Wrong as wrong:
            return f"failed: {case.name} by {workers} workers: {wrong}"
    return None


def run_count(case):
    """How many runs the session of a case has."""
    return sum(line.split()[0] in RUNS for line in case.lines)


def cases(given):
    """The case that is named, or those by hand, and some of each kind in turn, which have so many runs; each with a
    test of its own."""
    if given.only:
        return [it for it in BY_HAND if it[0].name == given.only] or [(case_of(given.only), None)]
    found, kinds, made = list(BY_HAND), cycle(KINDS), 0
    for number in count(given.first):
        if made >= given.runs:
            return found
        case = case_of(f"{next(kinds)}-{number}")
        made += run_count(case)
        found.append((case, None))


def all_wrong(folder, played, workers):
    """What is wrong with cases that are played by so many workers."""
    started = time.monotonic()
    with ThreadPoolExecutor(os.cpu_count()) as pool:
        wrong = [it for it in pool.map(lambda it: tried(folder, it[0], it[1], workers), played) if it]
    runs = sum(run_count(case) for case, _ in played)
    print(
        f"workers: {runs} runs by {workers} workers in {len(played)} sessions, {time.monotonic() - started:.0f} seconds",
        flush=True,
    )
    return wrong


def not_shown(above, name, workers):
    """What is wrong with the part of tests/lib/real_workers.py of that name, if anything, in a folder below that
    one."""
    with tempfile.TemporaryDirectory(dir=above) as folder:
        try:
            SHOWN[name](Path(folder), workers)
        except Wrong as wrong:
            return f"failed: {name} by {workers} workers: {wrong}"
    return None


def main():
    parser = argparse.ArgumentParser(description=__doc__, formatter_class=argparse.RawDescriptionHelpFormatter)
    parser.add_argument("--runs", type=int, default=200)
    parser.add_argument("--first", type=int, default=1)
    parser.add_argument("--workers", type=lambda text: [int(word) for word in text.split(",")], default=[4, 16])
    parser.add_argument("--only")
    given = parser.parse_args()
    if not Path(PROGRAM).is_file():
        print(f"{PROGRAM} is not there: `./ghcdb --prove` makes it", file=sys.stderr)
        return 1
    shown = [] if given.only not in (None, *SHOWN) else [given.only] if given.only else list(SHOWN)
    played = [] if given.only in SHOWN else cases(given)
    tries = [(name, workers) for name in shown for workers in given.workers if workers > 1]
    with tempfile.TemporaryDirectory(prefix="ghcdb-workers-") as folder:
        if not compile_library(folder):
            print("workers: there is no C compiler, so threads take the turns that they happen to take")
        wrong = [it for name, workers in tries if (it := not_shown(folder, name, workers))]
        wrong += [it for workers in given.workers for it in all_wrong(folder, played, workers)]
    print("".join(f"{it}\n" for it in wrong), end="")
    print(f"{len(played) * len(given.workers) + len(tries) - len(wrong)} passed, {len(wrong)} failed")
    return 1 if wrong else 0


if __name__ == "__main__":
    sys.exit(main())
