#!/usr/bin/env python3
"""Looks that what a line costs grows no faster than what it looks at: tests/growth.py

Each session below is played at a size and at four times that size. The processor time may grow to SLOWER times four,
which leaves room for a logarithm and for caches; what grows with the square grows to sixteen times. Of each, the least
of three runs counts. Below them stand sessions of which the memory at its highest may grow by so many bytes a step.
The last line is `N passed, M failed`, and the status is 1 where one failed.
"""
import os
import resource
import subprocess
import sys
import tempfile
from pathlib import Path
from typing import Callable, NamedTuple

sys.dont_write_bytecode = True
from lib.program import PROGRAM
from lib.searched_numbers import PROGRAM as LOOP, QUERY, hash_of_kit, hash_of_numbers, searched_history

SLOWER = 2.0
RUNS = 3
SECONDS = 60

# al(N,X) makes a chain of N variables behind X, each bound by a step of its own, and r(X) reads all of them.
CHAIN = """al(0,X) :- true | X = a.
al(N,X) :- N > 0 | M := N - 1, X = Y, al(M,Y).
r(a) :- true | true.
"""
# Goals that wait for one variable, and a loop beside them.
WAITING = """waits(0,_) :- true | true.
waits(N,X) :- N > 0 | M := N - 1, w(X), waits(M,X).
w(a) :- true | true.
loop :- true | loop.
"""
# Goals that are ready, and a loop beside them.
READY = """ready(0) :- true | loop.
ready(N) :- N > 0 | M := N - 1, ready(M), r.
r :- true | true.
loop :- true | loop.
"""
# Goals that carry a closed list.
WALK = """walk([]) :- true | true.
walk([_|X]) :- true | walk(X).
"""
# Terms whose parts are shared through variables.
DOUBLED = """d(0,X) :- true | X = a.
d(N,X) :- N > 0 | M := N - 1, X = f(Y,Y), d(M,Y).
"""

# A term that is doubled in each of N steps as it is written, and shown behind Z: d(N,X,Y,Z).
WRITTEN = """d(0,X,_,Z) :- true | Z = X.
d(N,X,Y,Z) :- N > 0 | M := N - 1, d(M,{},{},Z).
"""

# listed(N,X,Y) makes a list of N cells behind X, each by a step of its own, with Y as its last element.
LISTED = """listed(0,X,Y) :- true | X = [Y].
listed(N,X,Y) :- N > 0 | M := N - 1, X = [a|Z], listed(M,Z,Y).
"""

# gen(N,L) makes a list of N cells behind L, each by a step of a call, an equation and an assignment.
MADE = """gen(0,L) :- true | L = [].
gen(N,L) :- N > 0 | L = [N|T], M := N - 1, gen(M,T).
"""

# A small call, and a count beside it.
BESIDE = """start(N) :- true | p(_), count(N).
p(X) :- true | X = a.
count(0) :- true | true.
count(N) :- N > 0 | M := N - 1, count(M).
"""


class Session(NamedTuple):
    """A session of some size, and the last line that it has to print, or None where that does not matter."""

    program: str
    query: str
    lines: list
    history: str = ""
    last: str | None = None
    workers: int = 1
    # The kilobytes of address space that the program may take, or None for all that there is.
    room: int | None = None


def causes(size):
    """`why` of a step that read what so many steps bound: three a variable and two at the end make the chain, and one
    asks for the reader."""
    reader = 3 * size + 4
    return Session(
        CHAIN, f"al({size},X)", ["leap", "ask r(X)", f"step {reader - 1}.1", f"why {reader}"], last=f"{reader - 1} made"
    )


def blamed(size):
    """A chain of so many variables whose calls were all told wrong, the innermost first: that one's step is at fault."""
    calls = ["0.1"] + [f"{3 * made + 1}.3" for made in range(size)]
    words = " ".join(f"-{call}" for call in reversed(calls))
    return Session(CHAIN, f"al({size},X)", ["leap", f"blame X {words}"], last=f"fault {3 * size + 1} {calls[-1]} by 1")


def searched(hashed):
    return lambda size: Session(LOOP, QUERY, ["show X"], searched_history(size, hashed), "F23 no variable")


def beside_many(size):
    """Runs of one step beside so many goals that wait."""
    return Session(WAITING, f"waits({size},X), loop", [f"leap {4 * size}"] + ["leap 1"] * size)


def beside_many_ready(size):
    """Runs of one step beside so many goals that are ready."""
    return Session(READY, f"ready({size})", [f"leap {2 * size + 1}"] + ["leap 1"] * size)


def walks(size):
    """Two goals walk along closed lists of so many elements, by two workers."""
    listed = ",".join(size * "1")
    start = f"start :- true | walk([{listed}]), walk([{listed}]).\n"
    return Session(WALK + start, "start", ["leap"], last="stopped quiet", workers=2)


def undone(size):
    """A walk along a list of so many elements, and the undo of each of its steps, the last one first."""
    listed = ",".join(size * "1")
    return Session(
        WALK,
        f"walk([{listed}])",
        ["leap"] + [f"undo {step}" for step in range(size + 1, 0, -1)] + ["save 1"],
        last=f"end {size + 2}",
    )


def rolled_without_room(size):
    """A run that ends where memory does, so that the record finds no room for its index, and the `roll` of its first step."""
    return Session("loop(X) :- true | loop(X).\n", "loop(X)", ["leap", "roll 1"], room=size)


def doubled(size):
    """Two terms that are doubled so many times, through variables, are made equal."""
    return Session(DOUBLED, f"d({size},X), d({size},Y)", ["leap", "ask X = Y", "leap"], last="stopped quiet")


def blamed_place(size):
    """Which call is to blame for the last element of a list of so many cells. The calls that made it stand one below the
    other, three steps apart, and the one half way down is asked about."""
    asked = f"ask {3 * size // 2 - 2}.3 of {size + 1}"
    return Session(LISTED, f"listed({size},X,Y)", ["leap", "blame X Y"], last=asked)


def history_of_written(size):
    """The history of all steps of WRITTEN, doubled so many times: a call, an assignment, and so on, and the unification of Z at last."""
    goals = ["0.1"] + [f"{step}.2" for step in range(1, 2 * size, 2)]
    lines = [f"{2 * count + 1} {goal} by {1 if count == size else 2}\n{2 * count + 2} {2 * count + 1}.1 is" for count, goal in enumerate(goals)]
    steps = "\n".join(lines).removesuffix("is") + "eq"
    return f"ghc-history 2\nopening 0 1\nentries {2 * size + 2}\n{steps}\nspies 0\nend {2 * size + 3}\n"


def written(first, second, variable="V"):
    """An open term is doubled as it is written so many times. The goal that has it is tried, stepped, and tried again."""

    def session(size):
        last = 2 * size + 2
        lines = [f"leap {last - 1}", f"step {last - 1}.1", f"undo {last}", "leap", "roll 1", "leap"]
        return Session(WRITTEN.format(first, second), f"d({size},{variable},W,Z)", lines, last="stopped quiet")

    return session


def written_twice(size):
    """Two such terms, by four workers."""
    query = f"d({size},V,W,Z), d({size},V,W,Y)"
    return Session(WRITTEN.format("f(X,Y)", "g(Y,X)"), query, ["leap"], last="stopped quiet", workers=4)


def loaded_written(first, second):
    """The same steps are loaded, and then the variable that is in it everywhere is bound."""

    def session(size):
        lines = ["ask V = a", "leap"]
        return Session(WRITTEN.format(first, second), f"d({size},V,W,Z)", lines, history_of_written(size), "stopped quiet")

    return session


def loaded_list(size):
    """The history of a list of so many cells is loaded."""
    calls = ["0.1"] + [f"{step}.3" for step in range(1, 3 * size, 3)]
    cells = "".join(f"{step} {call} by 2\n{step + 1} {step}.1 eq\n{step + 2} {step}.2 is\n" for step, call in zip(range(1, 3 * size, 3), calls))
    last = 3 * size + 1
    history = f"ghc-history 1\nsteps {last + 1}\n{cells}{last} {calls[-1]} by 1\n{last + 1} {last}.1 eq\nend {last + 2}\n"
    return Session(MADE, f"gen({size},L)", ["leap"], history, "stopped quiet")


def parts_beside_many(size):
    """`part` of a small call so many times, beside twice as many other steps."""
    return Session(BESIDE, f"start({size})", ["leap"] + ["part 1.1"] * size, last="2 1.1 by 2")


class Growth(NamedTuple):
    what: str
    session: Callable[[int], Session]
    size: int


class Memory(NamedTuple):
    """A session of which each step more may take so many bytes."""

    what: str
    session: Callable[[int], Session]
    size: int
    steps: int  # in one of this size
    most: int


GROWTHS = [
    Growth("why of a step with many causes", causes, 10_000),
    Growth("blame with many calls told wrong, the innermost first", blamed, 2_500),
    Growth("a history whose numbers were searched for the hash of numbers", searched(hash_of_numbers), 40_000),
    Growth("a history whose numbers were searched for the hash of the kit", searched(hash_of_kit), 40_000),
    Growth("runs of one step beside many goals that wait", beside_many, 8_000),
    Growth("runs of one step beside many goals that are ready", beside_many_ready, 4_000),
    Growth("parts of a small call beside many other steps", parts_beside_many, 8_000),
    Growth("walks along closed lists by two workers", walks, 20_000),
    Growth("undos of all steps of a run", undone, 10_000),
    Growth("the roll of the first step behind a run that memory stopped, by kilobytes", rolled_without_room, 12_875),
    Growth("two terms doubled through variables made equal", doubled, 4_000),
    Growth("blame of the last place of a list", blamed_place, 5_000),
    Growth("an open term doubled as written", written("f(X,X)", "Y"), 250),
    Growth("an open term doubled as written, its parts apart", written("f(g(X),h(X))", "Y"), 250),
    Growth("two open terms doubled as written, each with the other", written("f(X,Y)", "g(Y,X)"), 250),
    Growth("an open term of twenty variables doubled as written", written("f(X,X)", "Y", f"k({','.join(f'V{index}' for index in range(20))})"), 250),
    Growth("two open terms doubled as written by four workers", written_twice, 250),
    Growth("an open term doubled as written, loaded", loaded_written("f(X,Y)", "g(Y,X)"), 250),
    Growth("a list made by steps that are loaded", loaded_list, 20_000),
]
MEMORIES = [Memory("a list made by steps that are loaded", loaded_list, 20_800, 3, 430)]


def processor_time():
    """The processor time of all programs that have ended, in seconds: finer than the ticks of os.times."""
    spent = resource.getrusage(resource.RUSAGE_CHILDREN)
    return spent.ru_utime + spent.ru_stime


def share_a_processor():
    """Threads that run side by side meet at a lock now and then, and take longer than they do in turn."""
    os.sched_setaffinity(0, {min(os.sched_getaffinity(0))})


def held(session):
    """What holds the program to one processor, or to its room, if anything does."""
    if session.workers > 1:
        return share_a_processor
    if session.room is not None:
        return lambda: resource.setrlimit(resource.RLIMIT_AS, (1024 * session.room, 1024 * session.room))
    return None


def words_of(session, folder):
    """The words that start the session, whose files are put into the folder."""
    (folder / "program.ghc").write_text(session.program)
    words = [PROGRAM, "program.ghc", "--query", session.query]
    if session.history:
        (folder / "run.history").write_text(session.history)
        words += ["--load", "run.history"]
    if session.workers > 1:
        words += ["--workers", str(session.workers)]
    return words


def played(session, folder):
    """The least processor time that the session takes, in seconds, and the last line that it prints."""
    words, times = words_of(session, folder), []
    for _ in range(RUNS):
        before = processor_time()
        text = "".join(f"{line}\n" for line in session.lines)
        how = {"input": text, "capture_output": True, "text": True, "cwd": folder, "timeout": SECONDS}
        run = subprocess.run(words, **how, preexec_fn=held(session))
        times.append(processor_time() - before)
    if run.returncode:
        raise AssertionError(f"status {run.returncode}: {run.stderr.strip()}")
    return min(times), run.stdout.rstrip("\n").rpartition("\n")[2]


def wrong_with(growth, folder):
    """What is wrong with the growth, if anything."""
    try:
        small, _ = played(growth.session(growth.size), folder)
        session = growth.session(4 * growth.size)
        large, last = played(session, folder)
    except subprocess.TimeoutExpired:
        return f"it ran for more than {SECONDS} seconds"
    print(f"growth: {growth.what}: {small:.2f} s at {growth.size:,}, {large:.2f} s at {4 * growth.size:,}")
    if session.last is not None and last != session.last:
        return f"it ended with {last!r}"
    return f"{large / small:.1f} times as long" if large > 4 * SLOWER * max(small, 0.01) else None


def most_memory(session, folder):
    """The memory that the session has at its highest, in bytes."""
    words, text = words_of(session, folder), "".join(f"{line}\n" for line in session.lines)
    (folder / "lines").write_text(text)
    with open(folder / "lines") as lines:
        run = subprocess.Popen(words, stdin=lines, stdout=subprocess.DEVNULL, cwd=folder)
        _, status, spent = os.wait4(run.pid, 0)
    run.returncode = os.waitstatus_to_exitcode(status)
    if run.returncode:
        raise AssertionError(f"status {run.returncode}")
    return 1024 * spent.ru_maxrss


def too_much_of(memory, folder):
    """What is wrong with the memory that the session takes, if anything."""
    small, large = (most_memory(memory.session(size), folder) for size in (memory.size, 4 * memory.size))
    each = (large - small) / (3 * memory.size * memory.steps)
    print(f"memory: {memory.what}: {each:.0f} bytes a step")
    return f"{each:.0f} bytes a step, more than {memory.most}" if each > memory.most else None


def main():
    wrong = []
    for growth in GROWTHS:
        with tempfile.TemporaryDirectory(prefix="ghcdb-growth-") as folder:
            found = wrong_with(growth, Path(folder))
        wrong += [f"{growth.what}: {found}"] if found else []
    for memory in MEMORIES:
        with tempfile.TemporaryDirectory(prefix="ghcdb-growth-") as folder:
            found = too_much_of(memory, Path(folder))
        wrong += [f"{memory.what}: {found}"] if found else []
    print("".join(f"failed: {it}\n" for it in wrong), end="")
    print(f"{len(GROWTHS) + len(MEMORIES) - len(wrong)} passed, {len(wrong)} failed")
    return 1 if wrong else 0


if __name__ == "__main__":
    sys.exit(main())
