"""Plays sessions in which memory is refused, or a read or a write fails, for tests/sweep.py, tests/devices.py and
tests/undo_requests.py.

The library of tests/refuse.c, which a C compiler makes, stands before the C library of the program: so the program is
tried as it is, and what it asks of the system is counted and refused from outside.
"""
import shutil
import struct
import subprocess
import sys
import tempfile
import threading
from pathlib import Path
from typing import NamedTuple

from lib.program import PROGRAM, TESTS

SECONDS = 60
LAST_LINE = 4094
ALL_BEHIND = 10**9
F1 = b"F1 no memory\n"
ORDER = (
    "w+p+h*p*q+p+h*s"  # the words, the files, both texts, the checker and the first state, the history, and the session
)


class Played(NamedTuple):
    """What became of a session: what was written before the first line was asked for, then the reply to each line, and
    how often memory was asked for in each of these; how many reads and writes there were, and how many bytes were
    written before the one that failed; the errors, and the status, if it ended."""

    replies: list[bytes]
    requests: list[int]
    reads: int
    writes: int
    failed_behind: int
    errors: bytes
    status: int | None


class Session:
    """A session that is played again and again, each time in a process of its own; also by several threads."""

    def __init__(self, folder, program, query, lines, history=None, options=()):
        self.folder, self.lines = Path(folder), list(lines)
        (self.folder / "program.ghc").write_text(program)
        self.words = [PROGRAM, "program.ghc", "--query", query, *options]
        if history is not None:
            (self.folder / "run.history").write_text(history)
            self.words += ["--load", "run.history"]

    def play(self, lines=None, **settings):
        """Plays the lines, or those of the session, under the settings of tests/refuse.c. Where it hangs there is no
        status."""
        lines = self.lines if lines is None else lines
        report = self.folder / f"report-{threading.get_ident()}"
        report.write_bytes(b"")
        environment = {"LD_PRELOAD": str(self.folder / "refuse.so"), "REFUSE_REPORT": str(report)}
        environment |= {name: str(value) for name, value in settings.items()}
        given = "".join(f"{line}\n" for line in lines).encode()
        try:
            run = subprocess.run(
                self.words, input=given, capture_output=True, cwd=self.folder, env=environment, timeout=SECONDS
            )
        except subprocess.TimeoutExpired:
            return Played([], [], 0, 0, 0, b"", None)
        return played(report.read_bytes(), len(lines), run)


def played(report, count, run):
    """What a report and a run tell of a session of so many lines."""
    reads, writes, failed_behind, *numbers = struct.unpack(f"{2 * LAST_LINE + 5}Q", report)
    starts = [
        0,
        *(numbers[2 * line + 1] if line <= reads else len(run.stdout) for line in range(1, count + 1)),
        len(run.stdout),
    ]
    replies = [run.stdout[start:end] for start, end in zip(starts, starts[1:])]
    return Played(replies, numbers[0 : 2 * count + 2 : 2], reads, writes, failed_behind, run.stderr, run.returncode)


def compile_library(folder):
    """Makes the library in the folder, and says whether there is a C compiler that did."""
    compiler = shutil.which("cc") or shutil.which("clang")
    if compiler:
        library = str(Path(folder) / "refuse.so")
        subprocess.run([compiler, "-O2", "-shared", "-fPIC", "-o", library, TESTS / "refuse.c"], check=True)
    return bool(compiler)


def tried(name, check):
    """Calls the check with a folder that has the library, which gives how many things passed and failed, and gives the
    status."""
    if not Path(PROGRAM).is_file():
        print(f"{PROGRAM} is not there: `./ghcdb --prove` makes it", file=sys.stderr)
        return 1
    with tempfile.TemporaryDirectory(prefix="ghcdb-refused-") as folder:
        if not compile_library(folder):
            print(f"{name}: there is no C compiler, so nothing was tried")
            return 0
        passed, failed = check(Path(folder))
    print(f"{passed} passed, {failed} failed")
    return 1 if failed or not passed else 0


def tells_lines(told, whole):
    """Whether the reply has the lines of the whole one, with F1 in place of some of them."""
    got, lines = told.splitlines(True), whole.splitlines(True)
    return len(got) == len(lines) and all(one in (line, F1) for one, line in zip(got, lines))
