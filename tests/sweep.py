#!/usr/bin/env python3
"""Refuses memory in sessions and schedules: tests/sweep.py [WORD..]      those whose names hold one of the words; without words, all

Each request for memory of each line of the sessions below is refused in turn, alone and with all behind it in its line,
and so is each request of the start; and what the program then writes is compared with what itself writes with ample
memory, with the line and without it. Of a line with more than 400 requests every second is refused, of one with more
than 800 every third, and so on. The reply to a line that was refused memory has to be

  - that of a session with ample memory; or
  - `F1 no memory`, and all other replies are those of a session without the line; or
  - where the line is a change, its own reply with `F1 no memory` in place of the lines SUSP and FAIL, which are
    settling's, and all other replies are as ever; or
  - where it is `keep`, the beginning of its own reply, up to some rollback, and then `F1 no memory`; the line behind it
    is the same again, and its reply is the rest; or
  - where it is `records`, `goals`, `shelf`, `save` or `save 1`, its own reply with `F1 no memory` in place of some of
    its lines, and all other replies are as ever; or
  - where it is a run, a line for each step that it took, by number, or `F1 no memory` in its place, and then `stopped
    REASON`, or `F1 no memory` in its place. `records` before and behind the run tell which steps these are; behind it
    no line is refused memory, and each `show` and `goals` between the last run and the next change is answered as ever.

Schedules are swept by the requests of their whole run: tests/lib/sweep_schedules.py says how, and what has to be
written then; and runs by several workers, whose order is free, as tests/lib/sweep_workers.py says.

Of each of these listings one line is refused among others at least once. What a session says of a line by hand (`told`)
has to hold, too. Before the first line the program ends with status 2 for its words, or with status 1 and `PART: F1 no
memory`, in the order of its parts, or it goes on as ever. It ends by itself, and by no signal.

It needs a C compiler; where there is none that is said, and nothing is tried. The last line is `N passed, M failed`.
"""
import os
import re
import sys
import time
from collections.abc import Callable
from concurrent.futures import ThreadPoolExecutor
from itertools import takewhile
from pathlib import Path
from typing import NamedTuple

sys.dont_write_bytecode = True
sys.path.insert(1, str(Path(__file__).resolve().parent.parent / "tools" / "made"))
import commands
from lib.judged_runs import RUNS
from lib.program import ROOT
from lib.refusing import ALL_BEHIND, F1, ORDER, Session, tells_lines, tried
from lib.sweep_schedules import SCHEDULES, ScheduleCase, sweep_schedule, unused_events
from lib.sweep_workers import SHARED, SharedCase, sweep_shared
from lib.texts import APPEND, HISTORY, MANY, SUM

MOST = 400
CHANGES = ("step", "in", "end", "ask", "undo", "roll", "redo", "arrange")
LISTINGS = ("records", "goals", "shelf", "save", "save 1")  # whole lines of the console
SHOWN = ("show", "goals")
LISTED = set()  # those of the listings that were seen with F1 among other lines

WAITS = "p(a,_) :- true | true.\np(_,b) :- true | true.\nq(a,b) :- true | true.\n"
LONG = "append([1,2,3,4,5,6,7,8,9,10,11,12],[13],R), append(R,[14],Q)"
SUM_HISTORY = "ghc-history 1\nsteps 6\n1 0.1 in 5\n4 0.2 by 2\n5 4.1 is\n2 1.1 end\n6 4.2 by 1\n7 6.1 eq\nend 9\n"
LONG_HISTORY = f"ghc-history 1\nsteps 2\n1 0.1 in 5\n2 1.1 in [{','.join(map(str, range(1, 40)))}]\nend 3\n"
WHOLE_HISTORY = (
    "ghc-history 2\nopening 1 5\n2 0.1 by 2\nentries 6\n5 2.1 eq\n6 - ask append(_0_1,[3],_6_1), true, _2_1 = [7]. % more\nundo 6\narrange 2 5\nredo 6\nroll 2\n"
    "spies 2\nappend/3\nappend/3\nend 7\n"
)


class Told(NamedTuple):
    """Whichever request of the line AT is refused: a text in which the reply to a later line ends."""

    at: int
    behind: int
    ends: bytes


class Story(NamedTuple):
    """A session that uses some of the commands; a run in it stands between two lines `records`. Other words of the
    command line, as those for schedules and workers, are its options."""

    program: str
    query: str
    lines: str
    history: str | None = None
    options: tuple[str, ...] = ()
    told: tuple[Told, ...] = ()


# Two terms that are doubled through variables: their unification meets 128 pairs, most of them again.
DOUBLED = """d(0,X) :- true | X = a.
d(N,X) :- N > 0 | M := N - 1, X = f(Y,Y), d(M,Y).
"""
STORIES = {
    "append": Story(
        APPEND,
        "append([1],[2],R)",
        "goals;step 0.1;step 1.1;step 1.2 1;step 3.1;show R;records;since 2;goal 3;part 0.1;part 1.2;blame R;blame R -0.1 +1.2;blame R _1_1 -0.1;why 2;causes;who R;explain R;undo 2;shelf;redo 2;undo 1;save;arrange 1 2 3 4;"
        "arrange 2 1 3 4;roll 3;goals;roll 1;goals;redo 1;redo 9;records;save 1;save",
    ),
    "waits": Story(
        WAITS,
        "p(X,Y), q(X,Y), X = c, Y = b, X = d",
        "goals;explain X;clauses 0.2;part 0.2;blame 0.2 -0.2;step 0.3;clauses 0.1;step 0.4;step 0.5;step 0.1 2;why 3;causes;undo 1;undo 2;goals;roll 2;goals;redo 2;records;shelf",
    ),
    "many": Story(
        MANY,
        "f(A,B,C,D,E,F,G,H,I) = f(1,2,3,4,5,6,7,8,9), p(A,B,C,D), p(A,B,C,D), p(A,B,C,D), p(A,B,C,D), p(A,B,C,J), J = K, K = 1",
        "goals;step 0.1;step 0.2;step 0.3;step 0.4;step 0.5;step 0.7;step 0.8;step 0.6;why 8;who J;records;undo 3;undo 5;redo 3;"
        "arrange 6 7 1 2 4 8 3;roll 7;goals;roll 1;shelf;redo 1;redo 4;records;save 1;save",
    ),
    "streams": Story(
        SUM,
        "instream(S), sum(S,0,R)",
        "in 1 5;in 1 f([a|b]);undo 2;in 1 7;in 1 f(;end 1;in 1 9;records;save;show S;roll 1;goals;records",
    ),
    "asks": Story(
        APPEND,
        "append([1],[2],R)",
        "step 0.1;ask append(R,[3],Q), true, _1_1 = [7], f(R,_,_2_3) = Q;ask append(R,[3],Q), true, _1_1 = [7], f(R,_) = Q;why 2;part 0.1;blame 2.1 -0.1;goals;"
        "undo 1;step 2.2;undo 3;arrange 2 1;undo 2;redo 2;roll 1;redo 2;shelf;redo 1;redo 2;ask r(R);ask f(;ask;spy append/3;records;save 1;save",
    ),
    "keep": Story(
        MANY,
        "f(A,B) = f(1,2), p(A,B,3,4), C = D, E = 5, D = 6",
        "step 0.1;step 0.2;step 0.3;step 0.4;step 0.5;keep C;keep C;shelf;goals;keep B;keep B;records;keep Z;redo 2;redo 1;redo 2;records;save",
    ),
    "words": Story(
        APPEND,
        "append([1],[2],R)",
        "nonsense;step 9.9;show Q;spy foo/1;spy append/3;nospy append/3;skip 9.9;goals;quit",
    ),
    "leap": Story(
        SUM,
        "instream(S), sum(S,0,R)",
        "in 1 5;in 1 7;end 1;records;leap;records;leap;show R;goals",
        told=(Told(5, 7, b"stopped quiet\n"), Told(5, 8, b"R = 12\n"), Told(5, 9, b"none\n")),
    ),
    "runs": Story(
        APPEND,
        "append([1,2],[3],R), append([4],[5],Q)",
        "spy append/3;records;leap;records;nospy append/3;records;leap 2;records;skip 0.1;records;leap;records;leap;show R;show Q;goals",
    ),
    "rollback": Story(
        SUM,
        "instream(S), sum(S,0,R)",
        "in 1 5;in 1 7;end 1;records;leap;records;leap;records;goals;shelf;save;show R;roll 1;goals;records;shelf;save;show R;"
        "roll 1;goals;records;shelf;save;show R;in 1 9",
        told=(Told(13, 21, b"none\n"), Told(13, 24, b"R = _0_2\n"), Told(19, 24, b"R = _0_2\n")),
    ),
    "long": Story(
        APPEND,
        LONG,
        "records;leap;records;leap;records;goals;why 5;who Q;show Q;undo 9;roll 20;shelf;goals;roll 2;goals;redo 20;redo 2;records;save",
    ),
    "doubled": Story(DOUBLED, "d(7,X), d(7,Y)", "records;leap;records;ask X = Y;step 47.1;why 48;records"),
    "load_stream": Story(
        SUM,
        "instream(S), sum(S,0,R)",
        "goals;records;show R;in 1 3;roll 2;goals;in 1 4;shelf;redo 2;records;save 1;save",
        SUM_HISTORY,
    ),
    "load_long": Story(SUM, "instream(S), sum(S,0,R)", "save 1;records;save", LONG_HISTORY),
    "load_whole": Story(
        APPEND, "append([1],[2],R)", "goals;records;shelf;save;redo 2;redo 6;redo 5;save 1;records;save", WHOLE_HISTORY
    ),
    "load": Story(
        APPEND, "append([1],[2],R)", "goals;records;show R;undo 2;records;leap;records;leap;show R;save", HISTORY
    ),
}
# What follows a command in a run of append of which one step is taken, by the word of commands.table.
SAMPLES = {"": "1", "goal": "1.2", "kept": "1", "variable": "R", "value": "R", "predicate": "append/3"}


def used_commands():
    """The commands that sessions use."""
    return {line.split()[0] for story in STORIES.values() for line in story.lines.split(";")}


def looks_by_table():
    """Lines for the commands that only look and that no session above uses, so that a new one is tried by its row
    alone."""
    rows = [
        row
        for row in commands.rows_of(commands.read_groups(ROOT))
        if row.effect == "looks" and row.name not in used_commands()
    ]
    return [f"{row.name} {SAMPLES[row.follows]}" if row.rest else row.name for row in rows]


if looks_by_table():
    STORIES["looks"] = Story(APPEND, "append([1],[2],R)", ";".join(["step 0.1", *looks_by_table()]))


class Trial(NamedTuple):
    """Requests of a line that are refused."""

    at: int
    first: int
    last: int


class Judged(NamedTuple):
    """What came of a trial."""

    wrong: str | None
    part: str | None


class Case:
    """A session with what it writes where no memory is refused: as it is, and without each of its lines."""

    def __init__(self, name, story, folder):
        self.name, self.story, self.lines = name, story, story.lines.split(";")
        folder.mkdir()
        (folder / "refuse.so").symlink_to(folder.parent / "refuse.so")
        self.session = Session(folder, story.program, story.query, self.lines, story.history, story.options)
        self.plain = self.session.play()
        self.without = {}

    def word(self, at):
        return self.lines[at - 1].split()[0]

    def trials(self):
        """The trials of all lines, and of the start."""
        for at, count in enumerate(self.plain.requests):
            for first in range(1, count + 1, max(1, -(-count // MOST))):
                yield Trial(at, first, first)
                yield Trial(at, first, ALL_BEHIND)

    def replies_without(self, at):
        """The replies of the session without the line, with F1 in its place."""
        if at not in self.without:
            played = self.session.play(self.lines[: at - 1] + self.lines[at:])
            self.without[at] = played.replies[:at] + [F1] + played.replies[at:]
        return self.without[at]

    def judge(self, trial):
        """What is wrong where these requests are refused, if anything, and for which part the start found no memory."""
        played = self.session.play(REFUSE_LINE=trial.at, REFUSE_FROM=trial.first, REFUSE_TO=trial.last)
        part = part_of(played)
        if trial.at == 0:
            right = part is not None or outcome(played) == outcome(self.plain)
        else:
            right = (
                outcome(played)[1:] == (b"", 0)
                and self.fits(trial.at, played.replies)
                and self.holds(trial.at, played.replies)
            )
        if right:
            return Judged(None, part)
        reply = b"".join(played.replies[trial.at : trial.at + 1])[-200:]
        told = f"line {trial.at}, requests {trial.first} to {trial.last}: {played.status} {played.errors} {reply!r}"
        return Judged(f"failed: {self.name}, {told}", part)

    def holds(self, at, got):
        """Whether what is told by hand is so."""
        return all(got[told.behind].endswith(told.ends) for told in self.story.told if told.at == at)

    def fits(self, at, got):
        """Whether the replies fit a session whose line was refused memory."""
        plain = self.plain.replies
        if got == plain or got == self.replies_without(at):
            return True
        if self.word(at) in RUNS:
            return self.fits_run(at, got)
        if self.word(at) == "keep":
            return self.fits_keep(at, got)
        if self.lines[at - 1] in LISTINGS:
            fits = tells_lines(got[at], plain[at]) and got[:at] == plain[:at] and got[at + 1 :] == plain[at + 1 :]
            LISTED.update([self.lines[at - 1]] if fits else [])
            return fits
        return self.word(at) in CHANGES and got == plain[:at] + [front(plain[at]) + F1] + plain[at + 1 :]

    def fits_run(self, at, got):
        """Whether the replies fit a session whose run was refused memory."""
        plain, told = self.plain.replies, got[at].splitlines(True)
        return (
            got[:at] == plain[:at]
            and tells_steps(told, numbers(got[at + 1])[len(numbers(got[at - 1])) :])
            and not any(b"memory" in reply for reply in got[at + 1 :])
            and all(got[n] == plain[n] for n in self.shown())
        )

    def fits_keep(self, at, got):
        """Whether the replies fit a session in which memory was refused to roll back all that is outside of a slice."""
        plain, told = self.plain.replies, got[at]
        return (
            told.endswith(F1)
            and told[: -len(F1)] + got[at + 1] == plain[at]
            and got[:at] == plain[:at]
            and got[at + 2 :] == plain[at + 2 :]
        )

    def shown(self):
        """The lines `show` and `goals` behind the last run, up to the next change."""
        last_run = max(n for n in range(1, len(self.lines) + 1) if self.word(n) in RUNS)
        behind = takewhile(lambda n: self.word(n) not in CHANGES, range(last_run + 1, len(self.lines) + 1))
        return [n for n in behind if self.word(n) in SHOWN]


def numbers(records):
    """The numbers of the steps that the lines of `records` tell."""
    return [int(number) for number in re.findall(rb"^([0-9]+) ", records, re.MULTILINE)]


def tells_steps(told, steps):
    """Whether the lines of a run tell just these steps, and then why it ended, with F1 in place of some of them."""
    if len(told) != len(steps) + 1 or not (told[-1] == F1 or told[-1].startswith(b"stopped ")):
        return False
    return all(line == F1 or line.startswith(b"REDU %d " % step) for line, step in zip(told, steps))


def front(reply):
    """A reply without its lines SUSP and FAIL."""
    return b"".join(line for line in reply.splitlines(True) if not line.startswith((b"SUSP", b"FAIL")))


def outcome(played):
    """What a session has written, and how it ended."""
    return played.replies, played.errors, played.status


def part_of(played):
    """The part for which the program found no memory at its start, if it ended so."""
    if b"".join(played.replies):
        return None
    if played.status == 2 and played.errors == b"error: out of memory\n":
        return "words"
    part = re.fullmatch(rb"(program|query|history|session|schedule): F1 no memory\n", played.errors)
    return part[1].decode() if part and played.status == 1 else None


def are_in_order(parts, order):
    """Whether the start comes to its parts in their order, by their first letters. Some requests are refused without a
    sign."""
    return bool(re.fullmatch(order, "".join(part[0] for part in parts if part)))


def sweep(case, pool):
    """Makes all trials of a session, and says how many things were right, and how many not."""
    trials = list(case.trials())
    judged = list(pool.map(case.judge, trials))
    wrong = [found.wrong for found in judged if found.wrong]
    print("".join(f"{line}\n" for line in wrong), end="")
    starts = [found.part for trial, found in zip(trials, judged) if trial.at == 0 and trial.first == trial.last]
    if case.plain.status == 0 and are_in_order(starts, ORDER):
        return len(judged) - len(wrong) + 1, len(wrong)
    print(f"failed: {case.name} started in the order {starts}, and ended with {case.plain.status} {case.plain.errors}")
    return len(judged) - len(wrong), len(wrong) + 1


def unused_commands():
    """The commands that no session uses."""
    return set((ROOT / "commands.txt").read_text().split()) - used_commands()


def sweeps(folder):
    """Makes all trials of what has a name that holds one of the words, and of all where there is no word."""
    started, totals, words = time.monotonic(), [0, 0], sys.argv[1:]
    with ThreadPoolExecutor(os.cpu_count()) as pool:
        kinds: list[tuple[dict, Callable]] = [
            (STORIES, lambda *told: sweep(Case(*told), pool)),
            (SCHEDULES, lambda *told: sweep_schedule(ScheduleCase(*told), pool, part_of, are_in_order)),
            (SHARED, lambda *told: sweep_shared(SharedCase(*told), pool, part_of, are_in_order)),
        ]
        named = [(name, story, trials) for stories, trials in kinds for name, story in stories.items()]
        for name, story, trials in named:
            if not words or any(word in name for word in words):
                totals = [a + b for a, b in zip(totals, trials(name, story, folder / name))]
    unused, whole = unused_commands() | unused_events(), set() if words else set(LISTINGS) - LISTED
    if unused:
        print(f"failed: no session or schedule uses {sorted(unused)}")
    if whole:
        print(f"failed: one line of these was never refused alone: {sorted(whole)}")
    print(f"sweep: {time.monotonic() - started:.0f} seconds")
    return totals[0] + (not unused) + (not whole), totals[1] + bool(unused) + bool(whole)


if __name__ == "__main__":
    sys.exit(tried("sweep", sweeps))
