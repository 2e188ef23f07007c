#!/usr/bin/env python3
"""Times runs by several workers, and prints a table:

    bench/workers.py [--runs N] [--only WORD] [--workers N,N,..] [--own-processors] [--instructions] [PROGRAM]

PROGRAM is the built program, ../crates/ghcdb/out/ghcdb where none is named. Each row is one `leap`: of a program whose
matching is heavy, and of some whose steps are light. Columns are numbers of workers (1, 2 and 4): the time by the
clock, the processor time of all threads, and how many times faster by the clock it is than the first. The first line is
about what this machine can give: runs of the first row by one worker each, as many side by side as the column has
workers, so that they share nothing but the processors. Read medians of many runs: on a shared machine best times differ
from them by a half. What the program takes to start is taken off; the lines of the steps are made and thrown away. The
figure is the median of N runs (5), without those during which the hypervisor gave a processor to others; the last line
tells how many those were. The columns of a row are played by turns, so that a machine which grows slower does so for
all of them. --only takes the rows whose name has WORD. Where there is `strace`, a last column tells in how many rounds
the most workers made the run: each round starts one thread fewer than there are workers. Where there is `valgrind`,
--instructions tells in place of the times how many instructions all threads took together, in millions; there threads
take turns, so those that rest look for goals more often.

A system may let threads share a processor for some milliseconds after one starts or wakes. On a virtual machine started
with `sched_vcpu_pack` (/proc/cmdline) four threads of a plain program had 31 of their first 40 ms of processor time,
under the real-time policy 39.6. --own-processors plays each session, of one worker too, under that policy, by `chrt`.
It needs the right to it, and is no figure of what a user has: for that, read the table without it.

Nothing here passes or fails: times depend on the machine, and on what else it does, so compare only what one run has
measured.
"""

import argparse
import os
import re
import shutil
import statistics
import subprocess
import sys
import tempfile
import time
from functools import partial

HERE = os.path.dirname(os.path.abspath(__file__))
BUILT = os.path.join(HERE, "..", "crates", "ghcdb", "out", "ghcdb")
COUNTED = {"runs": 0, "left out": 0}
ROWS = {
    "60 clauses of 25 places": ("looks", "looks(250), looks(250), looks(250), looks(250)"),
    "60 clauses, ten times": ("looks", "looks(2500), looks(2500), looks(2500), looks(2500)"),
    "forks": ("forks", "fork(12,R)"),
    "naive reverse": ("lists", "gen(150,L), nrev(L,R)"),
    "calls of one clause": ("holds", "hold(10000,a)"),
}


def words_of(program, name, query, workers):
    """The command line; one worker is what the program has without the option."""
    options = [] if workers == 1 else ["--workers", str(workers)]
    return [program, os.path.join(HERE, "programs", f"{name}.ghc"), "--query", query, *options]


def on_own_processors(words):
    """The command line of a session whose threads go to idle processors at once."""
    return ["chrt", "--rr", "1", *words]


def stolen():
    """How long the hypervisor gave processors to others so far, in hundredths of a second; 0 where the system does not
    tell."""
    try:
        with open("/proc/stat", encoding="ascii") as told:
            return int(told.readline().split()[8])
    except (OSError, IndexError):
        return 0


def undisturbed(plays, runs):
    """What each of the plays gives in so many runs by turns, without those during which more was stolen than a
    hundredth of a second; all of one, where that leaves it none."""
    played: list[list] = [[] for _ in plays]
    for _ in range(runs):
        for play, given in zip(plays, played):
            before = stolen()
            given.append((play(), stolen() - before))
    kept = [[told for told, lost in given if lost <= 1] or [told for told, _ in given] for given in played]
    COUNTED["runs"] += runs * len(plays)
    COUNTED["left out"] += runs * len(plays) - sum(map(len, kept))
    return kept


def play(words, lines):
    """The seconds by the clock and of processor time of a session."""
    before, started = os.times(), time.monotonic()
    subprocess.run(words, input=lines, stdout=subprocess.DEVNULL, check=True)
    behind = os.times()
    spent = behind.children_user + behind.children_system - before.children_user - before.children_system
    return time.monotonic() - started, spent


def medians(played):
    """The median of the seconds by the clock, and that of processor time."""
    return [statistics.median(seconds) for seconds in zip(*played)]


def timed(words_by_workers, runs):
    """Of each command line the medians of the seconds by the clock and of processor time that a leap takes, without the
    start."""
    plays = [partial(play, words, lines) for words in words_by_workers for lines in (b"", b"leap\n")]
    told = [medians(played) for played in undisturbed(plays, runs)]
    return [[max(0.0, them - those) for those, them in zip(start, leap)] for start, leap in zip(told[::2], told[1::2])]


def side_by_side(words, copies, lines):
    """The seconds by the clock that so many sessions take which begin together."""
    started = time.monotonic()
    playing = [subprocess.Popen(words, stdin=subprocess.PIPE, stdout=subprocess.DEVNULL) for _ in range(copies)]
    for session in playing:
        session.stdin.write(lines)
        session.stdin.close()
    for session in playing:
        session.wait()
    return time.monotonic() - started


def most_of_machine(words, given):
    """The columns of the machine itself: how much more sessions side by side do than one does in its time."""
    plays = [partial(side_by_side, words, copies, b"leap\n") for copies in given.workers]
    clocks = [statistics.median(played) for played in undisturbed(plays, given.runs)]
    first = clocks[0] / given.workers[0]
    columns = (
        f"{clock * 1000:>11.1f} ms{'':11}{first * copies / clock:>7.2f}" for clock, copies in zip(clocks, given.workers)
    )
    return "".join(columns)


def rounds_of(words, workers):
    """In how many rounds the leap was made, as text: by one thread there are none, and without `strace` nothing is
    told."""
    if workers == 1 or not shutil.which("strace"):
        return ""
    with tempfile.NamedTemporaryFile() as told:
        watch = ["strace", "-f", "-qq", "-e", "trace=clone,clone3", "-o", told.name]
        subprocess.run([*watch, *words], input=b"leap\n", stdout=subprocess.DEVNULL, check=True)
        started = sum(1 for line in told.read().splitlines() if b"= -1" not in line and b"resumed" not in line)
    return f"{-(-started // (workers - 1)):,} rounds"


def instructions_of(words):
    """How many instructions the session takes, by all threads."""
    watch = ["valgrind", "--tool=callgrind", "--callgrind-out-file=/dev/null"]
    told = subprocess.run(
        [*watch, *words], input=b"leap\n", stdout=subprocess.DEVNULL, stderr=subprocess.PIPE, check=True
    ).stderr
    return int(re.search(rb"Collected : (\d+)", told)[1])


def columns_of_instructions(words_by_workers):
    """The columns of a row: for each number of workers how many instructions its run takes."""
    counts = [instructions_of(words) for words in words_by_workers]
    return "".join(f"{count / 1e6:>23.1f} M{count / counts[0]:>7.2f}" for count in counts)


def columns_of_times(words_by_workers, runs):
    """The columns of a row: for each number of workers the times of its run."""
    times = timed(words_by_workers, runs)
    first = times[0][0]
    columns = (
        f"{clock * 1000:>11.1f} ms{processor * 1000:>8.1f} ms{first / max(clock, 1e-6):>7.2f}"
        for clock, processor in times
    )
    return "".join(columns)


def steps_of(words):
    """How many steps the leap takes, and why it stops."""
    told = subprocess.run(words, input=b"leap\n", stdout=subprocess.PIPE, check=True).stdout
    return told.count(b"REDU "), told.splitlines()[-1].decode()


def main():
    parser = argparse.ArgumentParser(description=__doc__, formatter_class=argparse.RawDescriptionHelpFormatter)
    parser.add_argument("program", nargs="?", default=BUILT)
    parser.add_argument("--runs", type=int, default=5)
    parser.add_argument("--only", default="")
    parser.add_argument("--workers", type=lambda text: [int(word) for word in text.split(",")], default=[1, 2, 4])
    parser.add_argument("--own-processors", action="store_true")
    parser.add_argument("--instructions", action="store_true")
    given = parser.parse_args()
    if not os.access(given.program, os.X_OK):
        sys.exit(f"there is no program {given.program}: build it first, by ./ghcdb --prove")
    as_played = on_own_processors if given.own_processors else list
    what = "" if given.instructions else "processor"
    print(f"{'':28}{'steps':>9}" + "".join(f"{f'{it} workers':>14}{what:>11}{'times':>7}" for it in given.workers))
    if not given.instructions:
        alone = as_played(words_of(given.program, *ROWS["60 clauses of 25 places"], 1))
        print(f"{'sessions side by side':28}{'':9}{most_of_machine(alone, given)}", flush=True)
    for name, (file, query) in ROWS.items():
        if given.only not in name:
            continue
        words = [words_of(given.program, file, query, workers) for workers in given.workers]
        line = (
            columns_of_instructions(words)
            if given.instructions
            else columns_of_times(list(map(as_played, words)), given.runs)
        )
        steps, ended = steps_of(words[0])
        rounds = rounds_of(words[-1], given.workers[-1])
        print(
            f"{name:28}{steps:>9,}{line}{rounds:>14}" + ("" if ended == "stopped quiet" else f"  {ended}"), flush=True
        )
    if COUNTED["left out"]:
        print(
            f"left out: {COUNTED['left out']} of {COUNTED['runs']} runs, during which the hypervisor took a processor"
        )


if __name__ == "__main__":
    main()
