"""What the tests at a pseudo-terminal share: a session of the front is begun, and tests are run, several at once."""

import multiprocessing
import os
import re
import sys
import tempfile
import time
import traceback
from pathlib import Path

from pseudo_terminal import Terminal

ROOT = Path(__file__).resolve().parents[3]
FRONT = str(ROOT / "terminal" / "ghcdb")
PROGRAM = os.environ.get("GHCDB", "")
PROGRAM = os.path.abspath(PROGRAM) if os.sep in PROGRAM else PROGRAM
PATIENCE = 120.0  # seconds for what comes at once where no others are busy
CHOSEN: list = []  # the tests that are run, each with its name


def start(home, *words, wait=PATIENCE, folder=None, kind="xterm", environment=None):
    environment = {"HOME": home, "COLUMNS": "220", "GHCDB": PROGRAM, **(environment or {})}
    return Terminal(["node", FRONT, *words], environment, wait, folder, kind)


def wants(condition, told):
    if not condition:
        raise AssertionError(told)


def wait_until(is_so, what):
    end = time.monotonic() + PATIENCE
    while not is_so():
        wants(time.monotonic() < end, f"{what} does not come")
        time.sleep(0.01)


def has_ended(number):
    """Has a process ended? One that nobody waited for counts as ended."""
    try:
        return Path(f"/proc/{number}/stat").read_text().rpartition(")")[2].split()[0] == "Z"
    except FileNotFoundError:
        return True


def is_met(pattern, lines):
    """Does a line match? A pattern is text that the line has; with a leading = it is the whole line."""
    return any(line == pattern[1:] if pattern.startswith("=") else pattern in line for line in lines)


def tests_of(names):
    """The tests among the names of a module, each with its name."""
    return [(name, test) for name, test in sorted(names.items()) if name.startswith("test_")]


def try_one(place):
    """Plays a test, by its place: what is wrong, or nothing."""
    name, test = CHOSEN[place]
    with tempfile.TemporaryDirectory() as home:
        try:
            test(home)
            return ""
        except AssertionError as error:
            return f"failed: {name}: {error}"
        except (TimeoutError, OSError):
            return f"failed: {name}: {traceback.format_exc()}"


def main(tests):
    """Runs the tests whose names have the pattern of the command line, or all, and tells how many passed."""
    pattern = sys.argv[1] if len(sys.argv) > 1 else ""
    CHOSEN.extend((name, test) for name, test in tests if re.search(pattern, name))
    with multiprocessing.get_context("fork").Pool(os.cpu_count()) as pool:
        told = pool.map(try_one, range(len(CHOSEN)), chunksize=1)
    failed = [line for line in told if line]
    print("\n".join([*failed, f"{len(told) - len(failed)} passed, {len(failed)} failed"]))
    sys.exit(1 if failed or not told else 0)
