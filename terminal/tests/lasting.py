#!/usr/bin/env python3
"""Plays sessions that somebody breaks off: by ^C in any line, signals, a closed window; and with files that are none.

    python3 terminal/tests/lasting.py [PATTERN]      those whose names have the pattern, or all, several at once

GHCDB names the native program; without it see terminal/ghcdb. The last line is `N passed, M failed`; the status is 1
where a test failed.
"""

import json
import os
import signal
import stat
import sys
import threading
from collections.abc import Callable
from pathlib import Path

sys.path[:0] = [str(Path(__file__).resolve().parent / "lib")]
import trying  # noqa: E402
from trying import PATIENCE, ROOT, has_ended, is_met, start, wait_until, wants  # noqa: E402

BILL = str(ROOT / "examples/bill.ghc")
QUERY = "bill(12,3,T)"
FAULTY = str(ROOT / "terminal/tests/lib/faulty_ghcdb")
LINE_ENDED = "% the line was ended; the session stands as before it"
RUN_ENDED = "% the run was ended; the session stands as before it"
UNSAVED = ".ghcdb_unsaved."


class Faulty:
    """A session whose native program has faults, as faulty_ghcdb tells them."""

    def __init__(self, home, *more, **faults):
        self.file, self.hung = Path(home, "faults"), Path(home, "faults.hung")
        self.has(**faults)
        environment = {"GHCDB": FAULTY, "FAULTS": str(self.file)}
        self.terminal = start(home, BILL, "--query", QUERY, *more, wait=PATIENCE, environment=environment)

    def has(self, **faults):
        self.hung.unlink(missing_ok=True)
        made = Path(f"{self.file}.new")
        made.write_text(json.dumps(faults))
        made.rename(self.file)

    def hangs_at(self, typed, sent=None):
        """Types a line that is never answered, and gives the program's number. Sent again, the line is answered."""
        self.has(hangs=[sent or typed])
        self.terminal.press(typed + "\r")
        wait_until(self.hung.exists, "the line")
        number = int(self.hung.read_text())
        self.has()
        return number


def unsaved(home):
    return sorted(name for name in os.listdir(home) if name.startswith(UNSAVED))


def test_any_line_is_ended(home):
    session = Faulty(home)
    terminal = session.terminal
    terminal.type("leap 3")
    before = terminal.type("records")
    lines = [("step", "step 1.2", LINE_ENDED), ("leap 9", None, LINE_ENDED), ("leap", "leap 1000", RUN_ENDED)]
    for typed, sent, told in lines:
        session.hangs_at(typed, sent)
        terminal.press("\x03")
        shown = terminal.read()
        wants(told in shown, shown)
        wants(terminal.type("records") == before, f"after {typed} the session is another one")
    terminal.end()


def test_tab_in_a_run_is_not_asked(home):
    session = Faulty(home)
    session.terminal.type("leap 3")
    session.hangs_at("leap", "leap 1000")
    session.terminal.press("redo \t")
    session.terminal.read_until("redo ")
    session.terminal.press("\x03")
    wants(RUN_ENDED in session.terminal.read(), "no end")
    wants(len(session.terminal.type("records")) == 3, "the session is another one")
    session.terminal.end()


def test_program_ends_with_the_front(home):
    for number in (signal.SIGKILL, signal.SIGTERM, signal.SIGHUP):
        session = Faulty(home)
        program = session.hangs_at("leap", "leap 1000")
        os.kill(session.terminal.child, number)
        session.terminal.read()
        wants(session.terminal.status == -number, f"status {session.terminal.status}")
        wait_until(lambda: has_ended(program), f"the program's end after {number.name}")
        session.terminal.end()
    session = Faulty(home)
    program = session.hangs_at("leap", "leap 1000")
    session.terminal.hang_up()
    wait_until(lambda: has_ended(program), "the program's end after a closed window")


def test_closed_window_leaves_the_session(home):
    terminal = start(home, BILL, "--query", QUERY)
    terminal.type("leap 4")
    before = terminal.type("records")
    terminal.hang_up()
    place = Path(home, f"{UNSAVED}1")
    wants(unsaved(home) == [place.name, f"{place.name}.of"], str(unsaved(home)))
    wants(stat.S_IMODE(place.stat().st_mode) == 0o600, "others may read it")
    told = f"% a session of {BILL} --query '{QUERY}' was not saved: --load {place} goes on from it"
    other = start(home, str(ROOT / "examples/append.ghc"), "--query", "append([1],[2],R)")
    wants("saved" not in other.start, other.start)
    other.type("quit")
    same = start(home, BILL, "--query", QUERY)
    wants(is_met(f"={told}", same.start.splitlines()), same.start)
    same.type("quit")
    again = start(home, BILL, "--query", QUERY, "--load", str(place))
    wants("was not saved" not in again.start, again.start)
    wants(again.type("records") == before, "another session")
    wants(is_met("% 4 steps kept and not saved", again.type("quit")), "it is given up without a word")
    again.type("quit")
    wants(unsaved(home) == [], str(unsaved(home)))


def test_closed_window_in_a_line_leaves_what_was_before(home):
    session = Faulty(home)
    session.terminal.type("leap 2")
    session.terminal.type("step")
    before = session.terminal.type("records")
    session.hangs_at("leap", "leap 1000")
    session.terminal.hang_up()
    again = start(home, BILL, "--query", QUERY, "--load", str(Path(home, f"{UNSAVED}1")))
    wants(again.type("records") == before, "another session")
    saved = str(Path(home, "saved"))
    wants(is_met("saved in", again.type(f"save {saved}")), "not saved")
    wants(unsaved(home) == [], "it is saved, and still told as unsaved")
    again.type("quit")
    wants(again.status == 0, f"status {again.status}")


def test_nothing_is_left_where_nothing_is_unsaved(home):
    for lines in ((), ("leap", f"save {home}/saved")):
        terminal = start(home, BILL, "--query", QUERY)
        for line in lines:
            terminal.type(line)
        terminal.hang_up()
        wants(unsaved(home) == [], str(unsaved(home)))


def test_end_of_input_where_no_lines_are_edited(home):
    terminal = start(home, BILL, "--query", QUERY, kind="dumb")
    terminal.type("step")
    terminal.press("\x04")
    wants("% 1 step kept and not saved: save FILE keeps them; quit again ends" in terminal.read(), "no question")
    wants(is_met("=REDU 2 1.1 by 2", terminal.type("step")), "the session is gone")
    terminal.press("\x04")
    terminal.read()
    terminal.press("\x04")
    terminal.read()
    wants(terminal.status == 0, f"status {terminal.status}")


def test_lines_are_kept_in_a_file_alone(home):
    place = Path(home, ".ghcdb_history")
    ways: list[Callable] = [os.mkfifo, os.mkdir, lambda name: os.symlink("/dev/zero", name)]
    for make in ways:
        make(place)
        terminal = start(home, BILL, "--query", QUERY)
        wants(is_met("=REDU 1 0.1 by 1", terminal.type("step")), "no step")
        terminal.end()
        os.rmdir(place) if place.is_dir() else os.unlink(place)


def test_without_a_home_nothing_is_kept(home):
    terminal = start("", BILL, "--query", QUERY, folder=home)
    wants(is_met("=REDU 1 0.1 by 1", terminal.type("step")), "no step")
    terminal.hang_up()
    wants(os.listdir(home) == [], f"{os.listdir(home)} is written where one stands")


def test_what_is_no_file_is_not_written(home):
    pipe = str(Path(home, "pipe"))
    os.mkfifo(pipe)
    terminal = start(home, BILL, "--query", QUERY)
    terminal.type("leap")
    for place in (pipe, "/dev/full", "/dev/zero"):
        told = f"=% {place} is there and is no history: name another file"
        wants(is_met(told, terminal.type(f"save {place}")), f"{place} is written")
    terminal.end()


def test_program_from_a_pipe(home):
    pipe = Path(home, "pipe.ghc")
    os.mkfifo(pipe)
    writer = threading.Thread(target=lambda: pipe.write_bytes(Path(BILL).read_bytes()))
    writer.start()
    terminal = start(home, str(pipe), "--query", QUERY)
    writer.join()
    wants(is_met("=stopped quiet", terminal.type("leap")), "no run")
    terminal.type("restart")
    told = f"=% {pipe} is no file that can be read again; the session stands"
    wants(is_met(told, terminal.type("restart")), "it waits for the pipe")
    terminal.end()


if __name__ == "__main__":
    trying.main(trying.tests_of(globals()))
