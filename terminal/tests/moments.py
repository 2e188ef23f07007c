#!/usr/bin/env python3
"""Breaks sessions off at random moments of runs and saves: by ^C, TERM, HUP, a closed window, and KILL.

    python3 terminal/tests/moments.py [N]      N moments, or 20; several at once

With GHCDB_LONG=1 ^C comes at 200 moments of runs, too.

Whatever is broken off: the file that was saved before loads, the native program ends with the front, and what was
left for the next start loads and has the steps that were told. A session that goes on after ^C has all steps that
were told, and saves a file that loads.

GHCDB names the native program; without it see terminal/ghcdb. The last line is `N passed, M failed`; the status is 1
where one failed.
"""

import os
import random
import re
import signal
import subprocess
import sys
import time
from pathlib import Path

sys.path[:0] = [str(Path(__file__).resolve().parent / "lib")]
import trying  # noqa: E402
from trying import PATIENCE, PROGRAM, ROOT, has_ended, start, wait_until, wants  # noqa: E402

NATIVE = PROGRAM or str(ROOT / "crates/ghcdb/out/ghcdb")
CONSOLE = [NATIVE] if os.access(NATIVE, os.X_OK) else ["node", str(ROOT / "web" / "console")]

# A program, its query, a line that is answered first, and the lines that are broken off. The first is a loop with a
# variable that nobody binds, the second makes two closed terms whose copies stand in each other, and then equal:
# comparing these takes very long.
COUNTING = ("p(N,_) :- true | M := N + 1, p(M,_).\n", "p(0,X)", "leap 3000",
            ["leap", "leap 30000", "leap 900", "step", "back 60", "watch X", "roll 2000", "records",
             "save {file}", "save {file}", "save 1 {file}"])
DOUBLED = ("d(0,T,S) :- true | T = S.\nd(N,T,S) :- N > 0 | M := N - 1, d(M,f(T,T),f(S,S)).\n", "d(40,a,a), W = 1", "leap 79",
           ["leap 900", "step", "leap", "stat", "save {file}"])
WAYS: list = ["^C", "^C", "^C", "close", signal.SIGTERM, signal.SIGHUP, signal.SIGKILL]
RUNS = ("leap", "watch")  # what a run begins with
LONG = 200 if os.environ.get("GHCDB_LONG") == "1" else 0  # moments of runs at which ^C comes
MOST_WAIT = 0.25  # seconds from a line to the moment


class Moment:
    def __init__(self, home, number, runs_only=False):
        chance = random.Random(number)
        text, self.query, self.first, begun = chance.choice([COUNTING, COUNTING, DOUBLED])
        ways = ["^C"] if runs_only else WAYS
        begun = [line for line in begun if not runs_only or line.startswith(RUNS)]
        self.home, self.file, self.program = home, str(Path(home, "saved")), str(Path(home, "program.ghc"))
        Path(self.program).write_text(text)
        self.line, self.way = chance.choice(begun).format(file=self.file), chance.choice(ways)
        self.wait = chance.random() * MOST_WAIT
        self.more: tuple = chance.choice([(), (), ("--workers", "3")])
        self.told = set()  # the steps that were told, and not taken back

    def learn(self, shown):
        """Keys that are typed meanwhile may stand before what is told in a line."""
        for line in shown.split("\n"):
            taken, undone = re.search(r"REDU (\d+) ", line), re.search(r"undone ([\d,]+)$", line)
            if taken:
                self.told.add(int(taken[1]))
            if undone:
                self.told -= {int(number) for number in undone[1].split(",")}

    def loaded(self, file, lines=""):
        """What the console says of lines in a session that goes on from a file."""
        words = [*CONSOLE, self.program, "--query", self.query, "--load", file]
        told = subprocess.run(words, input=lines, capture_output=True, text=True, timeout=PATIENCE)
        wants(told.returncode == 0, f"{self.line!r}, {self.way}: {file} does not load: {told.stderr}")
        return told.stdout

    def has_told(self, records, where):
        there = {int(number) for number in re.findall(r"^(\d+) ", records, re.M)}
        wants(self.told <= there, f"{self.line!r}, {self.way}: {where} lacks the steps {sorted(self.told - there)[:9]}")

    def play(self):
        terminal = start(self.home, self.program, "--query", self.query, *self.more, wait=PATIENCE)
        for line in [self.first, f"save {self.file}", "leap 2"]:
            self.learn("\n".join(terminal.type(line)))
        program = child_of(terminal.child)
        terminal.press(self.line + "\r")
        time.sleep(self.wait)
        if self.way == "^C":
            self.go_on(terminal)
        else:
            self.break_off(terminal)
        self.loaded(self.file)
        wait_until(lambda: program is None or has_ended(program), f"{self.line!r}, {self.way}: the program's end")

    def go_on(self, terminal):
        terminal.press("\x03list none/0\r")  # so its reply is the last, whether the line had ended before or not
        shown = terminal.read(after="no clause of none/0")
        self.learn(shown)
        stand = re.search(r"after (\d+) steps, which stand|the (\d+) steps before stand", shown)
        if stand:  # those that were told by a number alone stand too
            last = max(self.told)
            self.told |= set(range(last - int(stand[1] or stand[2]) + 1, last + 1))
        self.has_told("\n".join(terminal.type("records all")), "the session")
        shown = terminal.type(f"save {self.file}")
        wants(any("saved in" in line for line in shown), f"{self.line!r}: {shown}")
        self.has_told(self.loaded(self.file, "records\n"), "the file")
        terminal.end()

    def break_off(self, terminal):
        """What is told from now on may be told after the history was taken that is left."""
        if self.way == "close":
            terminal.hang_up()
        else:
            os.kill(terminal.child, self.way)
            terminal.read()
        if self.line.startswith(("back", "roll")):
            self.told.clear()  # they may have been taken back by then
        for place in Path(self.home).glob(".ghcdb_unsaved.[0-9]"):
            self.has_told(self.loaded(str(place), "records\n"), "what was left")


def child_of(number):
    """The native program of a front; nothing where the engine of the page runs."""
    listed = subprocess.run(["ps", "-o", "pid=,args=", "--ppid", str(number)], capture_output=True, text=True).stdout
    found = [line.split() for line in listed.splitlines() if NATIVE in line]
    return int(found[0][0]) if found else None


if __name__ == "__main__":
    count = int(sys.argv.pop(1)) if len(sys.argv) > 1 else 20
    trying.main(
        [(f"moment {n}", lambda home, n=n: Moment(home, n).play()) for n in range(1, count + 1)]
        + [(f"moment {n} of a run", lambda home, n=n: Moment(home, n, True).play()) for n in range(1, LONG + 1)]
    )
