"""Refuses memory in runs by four workers, for tests/sweep.py.

Each request for memory of each run of the sessions below, but the last, is refused in turn, alone and with all behind
it in its line, and so is each request of the start. How often memory is asked for, and in which order steps are taken,
differs from one play to the next; so what is written is compared with no text, but judged_runs.py says what each run
has to tell, and why it may stop. Of the run that was refused memory each line may be F1, and it may stop for want of
memory. All lines behind it are answered: none of them is F1, and the last ones tell what a session with ample memory
leaves. Some requests sleep first, so that workers overtake each other. Before the first line the program ends as
tests/sweep.py says. It ends by itself, and by no signal. What other commands do where memory is refused does not depend
on workers.
"""
from typing import NamedTuple

from lib.judged_runs import RUNS, Wrong, judge_run, predicates_of, runs_of
from lib.refusing import ALL_BEHIND, ORDER, Session
from lib.texts import APPEND, SUM

MOST = 600
WORKERS = "4"

FORK = "fork(N,R) :- N > 0 | M := N - 1, fork(M,A), fork(M,B), R := A + B.\nfork(0,R) :- true | R = 1.\n"
LOOK = "".join(f"look({at},R) :- true | R = {at + 1}.\n" for at in range(33))
RUN = "goals;records;leap;records;goals"


class Shared(NamedTuple):
    """A session by several workers, in which each run stands behind `goals` and `records`, and before both in turn, and
    the texts in which the replies to its last lines end."""

    program: str
    query: str
    lines: str
    ends: tuple[str, ...]


# One goal alone is ready in the first of them, so no thread is started there; in the others threads are, for at least
# one run.
SHARED = {
    "workers_sum": Shared(
        SUM,
        "instream(S), sum(S,0,R)",
        f"in 1 5;in 1 7;end 1;{RUN};{RUN};{RUN};show R",
        ("stopped quiet\n", "", "none\n", "R = 12\n"),
    ),
    "workers_streams": Shared(
        SUM,
        "instream(S), sum(S,0,R), instream(T), sum(T,0,Q)",
        f"in 1 5;in 2 1;in 1 7;in 2 2;end 1;end 2;{RUN};{RUN};{RUN};show R;show Q",
        ("stopped quiet\n", "", "none\n", "R = 12\n", "Q = 3\n"),
    ),
    "workers_append": Shared(
        APPEND,
        "append([1,2],[3],R), append([4],[5],Q), append(R,Q,P)",
        f"goals;records;skip 0.1;records;goals;goals;records;leap 3;records;goals;{RUN};{RUN};show R;show P",
        ("stopped quiet\n", "", "none\n", "R = [1,2,3]\n", "P = [1,2,3,4,5]\n"),
    ),
    "workers_fork": Shared(
        FORK,
        "fork(2,R), fork(1,Q)",
        f"spy fork/2;{RUN};nospy fork/2;{RUN};{RUN};show R;show Q",
        ("stopped quiet\n", "", "none\n", "R = 4\n", "Q = 2\n"),
    ),
    "workers_look": Shared(
        LOOK,
        "look(3,A), look(A,B), look(B,C), look(20,D), look(D,E)",
        f"{RUN};{RUN};{RUN};show C;show E",
        ("stopped quiet\n", "", "none\n", "C = 6\n", "E = 22\n"),
    ),
}


class Trial(NamedTuple):
    """Requests of a line that are refused."""

    at: int
    first: int
    last: int


class SharedCase:
    """A session by several workers, with what was counted where no memory is refused."""

    def __init__(self, name, shared, folder):
        self.name, self.shared, self.lines = name, shared, shared.lines.split(";")
        folder.mkdir()
        (folder / "refuse.so").symlink_to(folder.parent / "refuse.so")
        self.session = Session(folder, shared.program, shared.query, self.lines, options=("--workers", WORKERS))
        self.plain = self.session.play()

    def trials(self):
        """The trials of the start, of which each request is refused, and of all runs but the last."""
        runs = [at for at, line in enumerate(self.lines, 1) if line.split()[0] in RUNS]
        for at in [0, *runs[:-1]]:
            count = self.plain.requests[at]
            for first in range(1, count + 1, max(1, -(-count // MOST)) if at else 1):
                yield Trial(at, first, first)
                yield Trial(at, first, ALL_BEHIND)

    def play(self, trial):
        return self.session.play(
            REFUSE_LINE=trial.at, REFUSE_FROM=trial.first, REFUSE_TO=trial.last, PAUSE_SEED=trial.first
        )

    def what_is_wrong(self, played, at=0):
        """What is wrong with a session of which this line was refused memory, if anything."""
        if (played.errors, played.status) != (b"", 0):
            return f"it ended with {played.status} {played.errors}"
        told = [reply.decode() for reply in played.replies[1:]]
        try:
            for place, run in runs_of(self.lines, told):
                judge_run(run, predicates_of(self.shared.program), place + 1 == at)
        except Wrong as wrong:
            return str(wrong)
        if any(b"memory" in reply for place, reply in enumerate(played.replies) if place != at):
            return "a line that was not refused memory tells of it"
        last = told[-len(self.shared.ends) :]
        return None if all(map(str.endswith, last, self.shared.ends)) else f"its last replies are {last}"


def sweep_shared(case, pool, part_of, are_in_order):
    """Makes all trials of a session by several workers, and says how many things were right, and how many not.
    `part_of` tells for which part the start found no memory, and `are_in_order` whether the start came to its parts in
    their order."""
    trials = list(case.trials())
    played = list(pool.map(case.play, trials))
    parts = [part_of(one) if trial.at == 0 else None for trial, one in zip(trials, played)]
    found = [None if part else case.what_is_wrong(one, trial.at) for trial, one, part in zip(trials, played, parts)]
    for trial, wrong in zip(trials, found):
        if wrong:
            print(f"failed: {case.name}, line {trial.at}, requests {trial.first} to {trial.last}: {wrong[:600]}")
    starts = [part for trial, part in zip(trials, parts) if trial.at == 0 and trial.first == trial.last]
    plain = case.what_is_wrong(case.plain)
    if plain or not are_in_order(starts, ORDER):
        print(f"failed: {case.name} started in the order {starts}: {plain}")
    failed = sum(wrong is not None for wrong in found) + bool(plain or not are_in_order(starts, ORDER))
    return len(trials) + 1 - failed, failed
