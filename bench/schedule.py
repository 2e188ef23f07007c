#!/usr/bin/env python3
"""Times schedules of many lines, and prints a table: bench/schedule.py [--lines N] [PROGRAM]

PROGRAM is the built program, ../crates/ghcdb/out/ghcdb where none is named; N is 1,000,000. Each row is a schedule of N
lines that is played once, on the query `X = 1, Y = 2` without clauses: processor time, the peak of memory, and that of
the same program on an empty schedule, beside the length of the schedule's text, which lies in memory while it is
played. Proposals leave nothing behind; what is committed and undone has its entries in the journal and its step on the
shelf. Nothing here passes or fails: figures depend on the machine.
"""

import argparse
import os
import subprocess
import sys
import tempfile

HERE = os.path.dirname(os.path.abspath(__file__))
BUILT = os.path.join(HERE, "..", "crates", "ghcdb", "out", "ghcdb")


def proposals(count):
    """Each of 64 hands proposes the first goal, again and again."""
    return [f"propose {number % 64 + 1} 0.1" for number in range(count)]


def refusals(count):
    """Lines that are no events."""
    return ["goals"] * count


def rounds(count):
    """A step is proposed, committed and undone, again and again."""
    lines = []
    for number in range(1, count // 3 + 1):
        lines += ["propose 1 0.2", "commit 1", f"undo {number}"]
    return lines


ROWS = {"proposals": proposals, "lines that are refused": refusals, "propose, commit, undo": rounds}


# Plays a schedule from a small process, since the peak of a process counts what the one that started it held.
MEASURE = """
import os, sys
pid = os.fork()
if pid == 0:
    os.dup2(os.open(os.devnull, os.O_WRONLY), 1)
    os.execv(sys.argv[1], sys.argv[1:])
_, status, used = os.wait4(pid, 0)
print(used.ru_utime + used.ru_stime, used.ru_maxrss)
sys.exit(os.waitstatus_to_exitcode(status))
"""


def play(program, lines):
    """The seconds of processor time, the peak of memory in MiB, and the length of the text in MiB."""
    with tempfile.TemporaryDirectory(prefix="ghcdb-bench-") as folder:
        file, schedule = os.path.join(folder, "empty.ghc"), os.path.join(folder, "run.schedule")
        open(file, "w").close()
        text = "".join(line + "\n" for line in lines)
        with open(schedule, "w") as out:
            out.write(text)
        words = [program, file, "--query", "X = 1, Y = 2", "--schedule", schedule]
        told = subprocess.run(
            [sys.executable, "-S", "-c", MEASURE, *words], check=True, capture_output=True, text=True
        ).stdout
        seconds, peak = told.split()
    return float(seconds), int(peak) / 1024, len(text) / 2**20


def main():
    parser = argparse.ArgumentParser(description=__doc__, formatter_class=argparse.RawDescriptionHelpFormatter)
    parser.add_argument("--lines", type=int, default=1_000_000)
    parser.add_argument("program", nargs="?", default=BUILT)
    given = parser.parse_args()
    _, least, _ = play(given.program, [])
    print(f"{'schedule':24}{'lines':>10}{'s':>8}{'peak MiB':>10}{'empty':>8}{'text':>8}")
    for name, lines in ROWS.items():
        for count in (given.lines // 2, given.lines):
            seconds, peak, length = play(given.program, lines(count))
            print(f"{name:24}{count:>10}{seconds:>8.2f}{peak:>10.1f}{least:>8.1f}{length:>8.1f}")


if __name__ == "__main__":
    main()
