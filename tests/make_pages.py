#!/usr/bin/env python3
"""Tries tools/make-pages on copies of what it reads, each with one thing changed: it has to say what is wrong.

    python3 tests/make_pages.py

The last line is `N passed, M failed`; the exit status is 1 where one failed. It takes some seconds.
"""

import shutil
import subprocess
import sys
import tempfile
from concurrent.futures import ThreadPoolExecutor
from pathlib import Path

ROOT = Path(__file__).resolve().parent.parent
READ = [
    "README.md",
    "CONTRIBUTING.md",
    "CHANGELOG.md",
    "crates.txt",
    "commands.table",
    "commands.txt",
    "refusals.table",
    "docs",
    "tools",
    "web/ghcdb.html",
]

# What is changed: a file, a text that stands there, the text in its place, and what has to be said.
CHANGES = [
    (
        "crates/ghc_core/specs/World.antt",
        "The state t is the replay",
        "The state t is a replay",
        "docs/made/words_replay.md is another",
    ),
    ("crates/ghc_term/src/fault.rt", '"F7 no goal"', '"F7 no such goal"', "docs/FORMATS.md is another"),
    (
        "crates/ghc_reader/src/limits.rt",
        "MOST_CLAUSES: usize = 10_000",
        "MOST_CLAUSES: usize = 20_000",
        "MOST_CLAUSES is 20000, and",
    ),
    (
        "crates/ghc_core/specs/Refusals.antt",
        "IsToldWhere Fault.NotKept",
        "IsToldWhere Fault.NoGoal",
        "FORMATS: `undo` is refused with",
    ),
    (
        "crates/ghc_core/src/laws/undo_laws.rt",
        "fn undo_takes_step_away",
        "fn undo_takes_a_step_away",
        "no contract of `undo_takes_step_away`",
    ),
    ("crates.txt", "ghc_unify: ghc_term", "ghc_unify:", "docs/made/crates.svg is another"),
    ("commands.table", "list the kept steps  ", "tell the kept steps  ", "crates/ghcdb/src/help.rt is another"),
    ("commands.table", "causes          | looks", "reasons         | looks", "`causes` stands in command.rt alone"),
    ("commands.table", "why N  ", "why [N]", "`why [N]` is not what number_command of command.rt read"),
    ("commands.table", "| looks  | kept ", "| lists  | kept ", "since N has 'lists' or 'kept' where"),
    (
        "crates/ghc_console/src/command.rt",
        'b"since".as_slice()',
        'b"after".as_slice()',
        "`after` stands in command.rt alone",
    ),
    ("refusals.table", "F26 |", "F27 |", "refusals.table has not the numbers of"),
    ("README.md", "ghcdb promises no order", "ghcdb promises" + " no" * 50 + " order", "README has a sentence of"),
]


def copied(folder):
    """A copy of what the tool reads."""
    for name in READ:
        there = ROOT / name
        (folder / name).parent.mkdir(parents=True, exist_ok=True)
        if there.is_dir():
            shutil.copytree(there, folder / name, ignore=shutil.ignore_patterns("__pycache__"))
        elif there.exists():
            shutil.copy(there, folder / name)
    for crate in (ROOT / "crates").iterdir():
        for part in ("src", "specs"):
            if (crate / part).exists():
                shutil.copytree(
                    crate / part, folder / "crates" / crate.name / part, ignore=shutil.ignore_patterns("out")
                )
    for name in ("examples", "tests", "terminal", "packaging"):
        (folder / name).symlink_to(ROOT / name)


def told(change):
    """What the tool says of a copy with the change, and what is wrong with that."""
    name, old, new, wanted = change
    with tempfile.TemporaryDirectory(prefix="ghcdb-pages-") as made:
        folder = Path(made)
        copied(folder)
        path = folder / name
        text = path.read_text(encoding="utf-8")
        if old not in text:
            return f"{name} has no {old!r}"
        path.write_text(text.replace(old, new, 1), encoding="utf-8")
        ran = subprocess.run([folder / "tools" / "make-pages", "--check"], capture_output=True, text=True)
        said = ran.stdout + ran.stderr
        is_told = ran.returncode != 0 and wanted in said
        return "" if is_told else f"{name}: {new!r} is to be told by {wanted!r}, and not by {said!r}"


def main():
    with ThreadPoolExecutor(4) as pool:
        wrong = [one for one in pool.map(told, CHANGES) if one]
    print("\n".join([*wrong, f"{len(CHANGES) - len(wrong)} passed, {len(wrong)} failed"]))
    return 1 if wrong else 0


if __name__ == "__main__":
    sys.exit(main())
