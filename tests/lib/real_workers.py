"""Shows that a run by several workers is made by several, for tests/workers.py.

Threads take the turns that they get, so no single run has to show it. Each of these is tried until one run does:

  - orders: of at most 200 runs of the same goals, two tell other steps, or the same in another order. One thread alone
    would take the same steps each time, so a program that heeds no `--workers` fails here;
  - threads: where the system lists the threads of a process, as many are there at once as there are workers, in one of
    at most 20 runs; in none are there more;
  - auto: so are as many as there are processors for `auto`, where a predicate has more than 32 clauses, and one thread
    else;
  - halt: in one of at most 10 runs of goals without end, of which one leads to a spied goal, the run stops for that
    goal at most 2,000 steps behind the one that made it: where a worker has met a reason to stop, the others do no more
    than they have in hand.

And where the system refuses threads, the first, the second, the third, or all from one on, a run goes on with those
that are there, and leaves what one worker leaves.
"""
import os
import re
import subprocess
import time
from pathlib import Path

from lib.judged_runs import Wrong
from lib.playing import play, words_of
from lib.random_sessions import FLOW, Case
from lib.refusing import SECONDS

EVER = 2**40
ENDLESS = "from(N) :- true | M := N + 1, from(M).\n"
MET = "down([]) :- true | met.\ndown([A|X]) :- true | down(X).\nmet :- true | true.\n"


def show_orders(folder, workers):
    """Two of at most 200 runs tell other orders."""
    told = set()
    for number in range(200):
        told.update(play(folder, Case(f"orders-{number}", FLOW, "fork(8,R)", [], [], False), ["leap"], workers))
        if len(told) > 1:
            return
    raise Wrong("each of 200 runs took the same steps in the same order, as one thread does")


def most_threads(folder, workers, settings=None, more="", goals=32):
    """How many threads there were at once, at the most, in a run of many goals without end. It makes no pauses. The
    program may have more clauses."""
    environment = os.environ | (settings or {})
    case = Case("threads", ENDLESS + more, ", ".join(["from(0)"] * goals), [], [], False)
    (folder / "lines").write_text("leap 100000\n")
    most, started, lines = 0, time.monotonic(), (folder / "lines").open()
    with lines, subprocess.Popen(
        words_of(folder, case, workers), stdin=lines, stdout=subprocess.DEVNULL, env=environment
    ) as process:
        while process.poll() is None:
            most = max(most, len(os.listdir(f"/proc/{process.pid}/task")))
            time.sleep(0.001)
            if time.monotonic() - started > SECONDS:
                process.kill()
                raise Wrong(f"it took more than {SECONDS} seconds")
    return most


def show_threads(folder, workers):
    """As many threads are there at once as workers, in one of at most 20 runs, and more in none."""
    need_threads(folder, workers, workers)


def need_threads(folder, asked, wanted, more=""):
    """So many threads are there at once, in one of at most 20 runs, and more in none."""
    if not Path("/proc/self/task").is_dir():
        return
    found: list[int] = []
    while len(found) < 20 and wanted not in found and max(found, default=0) <= wanted:
        found.append(most_threads(folder, asked, more=more, goals=2 * max(wanted, 4)))
    if found[-1] != wanted:
        raise Wrong(f"at the most, so many threads were there at once in each of some runs: {found}")


def processors():
    """How many processors a process may use here, 64 at most: those of its mask, within the quota of its group."""
    count, quota = len(os.sched_getaffinity(0)), Path("/sys/fs/cgroup/cpu.max")
    limit, period = quota.read_text().split() if quota.exists() else ("max", "0")
    return min(count, 64, *([] if limit == "max" else [max(1, int(limit) // int(period))]))


def show_auto(folder, workers):
    """With 33 clauses there are as many threads as processors; with 32 there is one."""
    for clauses, wanted in ((33, processors()), (32, 1)):
        need_threads(folder, "auto", wanted, "".join(f"next({k},X) :- true | X = {k}.\n" for k in range(clauses)))


def steps_behind(folder, workers, name):
    """How many steps a run took behind the one that made the spied goal for which it stopped; or why it stopped
    otherwise."""
    case = Case(name, ENDLESS + MET, f"from(0), from(0), down([{','.join(50 * '1')}]), from(0)", [], [], False)
    told = play(folder, case, ["spy met/0", "leap 20000"], workers)[1]
    stopped = re.search(r"^stopped (?:spied (\d+)\.1|.*)$", told, re.MULTILINE)
    maker = stopped and stopped[1]
    return (
        sum(int(number) > int(maker) for number in re.findall(r"^REDU (\d+)", told, re.MULTILINE))
        if maker
        else stopped and stopped[0]
    )


def show_halt(folder, workers):
    """A run stops at most 2,000 steps behind the one that made a spied goal, in one of at most 10 runs."""
    found: list = []
    while len(found) < 10:
        found.append(steps_behind(folder, workers, f"halt-{len(found)}"))
        if isinstance(found[-1], int) and found[-1] <= 2000:
            return
    raise Wrong(f"so many steps stand behind the one that made a spied goal, or so each of some runs stopped: {found}")


def left_where_refused(folder, workers, first, last):
    """What a run leaves where the threads from the first to the last of these are refused."""
    case = Case("refused", FLOW, "fork(8,R)", ["R"], [], True)
    refused = {"THREADS_FROM": str(first), "THREADS_TO": str(last)}
    told, shown, records = play(folder, case, ["leap", "show R", "records"], workers, settings=refused)
    return told.splitlines()[-1], shown, len(records.splitlines())


def show_refused(folder, workers):
    """Whichever threads are refused, a run leaves what one worker leaves."""
    library = folder.parent / "refuse.so"
    if not library.exists():
        return
    alone = left_where_refused(folder, 1, 0, 0)
    for first, last in [(1, 1), (2, 2), (3, 3), (1, EVER), (2, EVER)]:
        found = left_where_refused(folder, workers, first, last)
        if found != alone:
            raise Wrong(f"with threads {first} to {last} refused it leaves {found}, and one worker leaves {alone}")
    if Path("/proc/self/task").is_dir():
        most = most_threads(folder, workers, {"LD_PRELOAD": str(library), "THREADS_FROM": "1", "THREADS_TO": str(EVER)})
        if most > 1:
            raise Wrong(f"with all threads refused there were {most}")


SHOWN = {"orders": show_orders, "threads": show_threads, "auto": show_auto, "halt": show_halt, "refused": show_refused}
