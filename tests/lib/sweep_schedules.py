"""Refuses memory in schedules, for tests/sweep.py.

A schedule's file is read at the start, so its lines cannot be told apart from outside: each request for memory of the
whole run is refused in turn, alone and with all behind it. What is written then has to be what the program itself
writes, with ample memory, of the schedule without the lines whose reply is `F1 no memory`, with these replies in their
places, and with that in place of some of the records at its end; or a beginning of the replies, with status 1 and
`schedule: F1 no memory`. (Behind a commit that was refused memory its hand is empty: later lines name another hand in
its place, which holds nothing.) Where one request is refused, one line at most is that. Before the first line the
program ends as tests/sweep.py says. It ends by itself, and by no signal.
"""
from typing import NamedTuple

from lib.refusing import ALL_BEHIND, F1, Session, tells_lines
from lib.texts import APPEND, HISTORY, MANY, SUM

BROKEN_OFF = b"schedule: F1 no memory\n"
ORDER = "w+p+h*s+p*q+p+h*s+"  # as for a session, with the schedule's file behind the history's
EVENTS = {"propose", "commit", "note", "in", "end", "redo", "undo", "roll", "arrange", "ask"}


class Schedule(NamedTuple):
    """A schedule that uses some of the events, all on hands below 33."""

    program: str
    query: str
    lines: str
    history: str | None = None


SCHEDULES = {
    "schedule_append": Schedule(
        APPEND,
        "append([1],[2],R)",
        "propose 1 0.1;propose 2 0.1 2;propose 3 0.1 1;commit 2;commit 1;commit 1;propose 1 1.1;propose 2 1.2 1;note 1.2;commit 2;commit 1;"
        "propose 2 3.1;commit 2;undo 2;undo 1;redo 2;arrange 1 3 4 2;arrange 2 1;roll 3;redo 3;goals;propose 2 9.9;propose 65 0.1",
    ),
    "schedule_cycle": Schedule(
        APPEND,
        "X = f(Y), Y = g(X)",
        "propose 1 0.1;propose 2 0.2;commit 1;commit 2;propose 2 0.2;undo 1;propose 2 0.2;commit 2;note 0.1;commit 5;roll 2",
    ),
    "schedule_streams": Schedule(
        SUM,
        "instream(S), sum(S,0,R)",
        "in 1 5;in 1 f([a|b]);undo 2;in 1 7;in 1 f(;end 1;in 1 9;propose 7 0.2;commit 7;note 5.1;propose 7 5.1;commit 7;propose 8 5.2;"
        "commit 8;roll 1;redo 1;redo 5",
    ),
    "schedule_many": Schedule(
        MANY,
        "f(A,B,C,D,E,F,G,H,I) = f(1,2,3,4,5,6,7,8,9), p(A,B,C,D), p(A,B,C,D), p(A,B,C,J), J = K, K = 1",
        ";".join(f"propose {n} 0.{n}" for n in range(1, 7))
        + ";commit 1;commit 5;"
        + ";".join(f"propose {n} 0.{n};commit {n}" for n in range(2, 7))
        + ";undo 1;undo 2;redo 3;arrange 5 2 1 3 4;roll 1;propose 9 0.1;commit 9;propose 9 0.2 1;commit 9",
    ),
    "schedule_behind_history": Schedule(
        APPEND,
        "append([1],[2],R)",
        "undo 2;propose 1 1.1;roll 1;commit 1;redo 1;commit 1;propose 1 1.1;commit 1;redo 3;redo 4",
        HISTORY,
    ),
    "schedule_asks": Schedule(
        APPEND,
        "append([1],[2],R)",
        "propose 1 0.1;commit 1;ask append(R,[3],Q), true, _1_1 = [7];ask r(R);ask instream(S);ask _9_9 = 1;propose 1 2.2;commit 1;undo 1;"
        "arrange 2 1;roll 1;redo 2;redo 1;redo 2;ask true;propose 2 1.1;commit 2;propose 3 2.1;commit 3;ask f(R,_4_1) = f(_1_1,Z)",
    ),
}


class Trial(NamedTuple):
    """Requests that are refused."""

    first: int
    last: int


def without(lines, refused):
    """The lines without those at some places; behind a commit that is left out its hand has another number, from 64
    down. Gives them with the hands as they were."""
    left, spare = [], iter(range(64, 32, -1))
    names: dict[str, int] = {}
    for at, line in enumerate(lines):
        word, *rest = line.split()
        hand = rest[0] if word in ("propose", "commit") and rest else None
        if at not in refused:
            left.append((line.replace(f"{word} {hand}", f"{word} {names.get(hand, hand)}", 1), hand))
        elif word == "commit":
            names[hand] = next(spare)
    return left


class ScheduleCase:
    """A schedule with what is written where no memory is refused: as it is, and without some of its lines."""

    def __init__(self, name, schedule, folder):
        self.name, self.schedule, self.folder = name, schedule, folder
        self.lines = schedule.lines.split(";")
        folder.mkdir()
        self.session = self.session_of(self.lines)
        self.plain, self.wholes = self.session.play(), {}

    def session_of(self, lines):
        """A session that plays these lines, in a folder of its own."""
        room = self.folder / str(len(list(self.folder.iterdir())))
        room.mkdir()
        (room / "refuse.so").symlink_to(self.folder.parent / "refuse.so")
        (room / "run.schedule").write_text("".join(f"{line}\n" for line in lines))
        options = ("--schedule", "run.schedule")
        return Session(room, self.schedule.program, self.schedule.query, [], self.schedule.history, options)

    def trials(self):
        """Each request of the run, alone and with all behind it."""
        return [Trial(first, last) for first in range(1, self.plain.requests[0] + 1) for last in (first, ALL_BEHIND)]

    def whole(self, refused):
        """What the program writes of the schedule without the lines at some places, with F1 in place of their
        replies."""
        if refused not in self.wholes:
            left = without(self.lines, refused)
            told = self.session_of([line for line, _ in left]).play().replies[0].splitlines(True)
            hands = (hand for _, hand in left)
            replies = iter(
                [b"held %s\n" % hand.encode() if line.startswith(b"held ") else line for line, hand in zip(told, hands)]
            )
            self.wholes[refused] = b"".join(
                [F1 if at in refused else next(replies) for at in range(len(self.lines))] + told[len(left) :]
            )
        return self.wholes[refused]

    def is_right(self, trial, played):
        """Whether what a schedule wrote whose requests were refused is what it may write."""
        if played.status not in (0, 1):
            return False
        text = played.replies[0]
        lines = text.splitlines(True)
        refused = frozenset(at for at, line in enumerate(lines[: len(self.lines)]) if line == F1)
        if trial.first == trial.last and lines.count(F1) > 1:
            return False
        whole = self.whole(refused)
        if played.status == 0:
            return tells_lines(text, whole) and played.errors == b""
        return whole.startswith(text) and played.errors == BROKEN_OFF

    def play(self, trial):
        return self.session.play(REFUSE_LINE=0, REFUSE_FROM=trial.first, REFUSE_TO=trial.last)


def unused_events():
    """The events that no schedule uses."""
    return EVENTS - {line.split()[0] for schedule in SCHEDULES.values() for line in schedule.lines.split(";")}


def sweep_schedule(case, pool, part_of, are_in_order):
    """Makes all trials of a schedule, and says how many things were right, and how many not. `part_of` tells for which
    part the start found no memory, and `are_in_order` whether the start came to its parts in their order."""
    trials = case.trials()
    played = list(pool.map(case.play, trials))
    parts = [part_of(one) for one in played]
    wrong = [
        (trial, one)
        for trial, one, part in zip(trials, played, parts)
        if part is None and not case.is_right(trial, one)
    ]
    for trial, one in wrong:
        print(
            f"failed: {case.name}, requests {trial.first} to {trial.last}: {one.status} {one.errors} {b''.join(one.replies)[-300:]!r}"
        )
    starts = [part for trial, part in zip(trials, parts) if trial.first == trial.last]
    is_right = case.plain.status == 0 and F1 not in case.plain.replies[0] and are_in_order(starts, ORDER)
    if not is_right:
        print(
            f"failed: {case.name} started in the order {starts}, and ended with {case.plain.status} {case.plain.errors}"
        )
    return len(trials) - len(wrong) + is_right, len(wrong) + (not is_right)
