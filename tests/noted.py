#!/usr/bin/env python3
"""Tries what the gate notes of edits and twins, on clones of this repository, with an `rt ci` that proves nothing and
rounds that all go as they must.

    python3 tests/noted.py

Where notes are stale, the gate tries those edits, and does not end green before the commit that it prints is made. With
that commit a machine that knows nothing tries an eighth, and a second gate on it tries nothing. The last line is `N
passed, M failed`; the exit status is 1 where a case failed. It needs `rt` on the PATH, for the crates.
"""
import contextlib
import importlib.machinery
import importlib.util
import io
import os
import shutil
import subprocess
import sys
import tempfile
from pathlib import Path
from types import SimpleNamespace

sys.dont_write_bytecode = True
ROOT = Path(__file__).resolve().parent.parent
TRIED = ("tests/edits", "tests/lib/edit_notes.py")
ME = {"GIT_AUTHOR_NAME": "a", "GIT_AUTHOR_EMAIL": "a@a", "GIT_COMMITTER_NAME": "a", "GIT_COMMITTER_EMAIL": "a@a"}


def bash(folder, line):
    """What a line of bash tells in a folder, by git of a name of its own."""
    how: dict = {"cwd": folder, "env": {**os.environ, **ME}, "capture_output": True, "text": True, "check": True}
    return subprocess.run(["bash", "-euc", line], **how).stdout


def clone_of(origin, folder):
    """A clone of a checkout's last commit."""
    bash(ROOT, f"git clone --quiet '{origin}' '{folder}'")
    return folder


def tool_of(clone):
    """The clone's tests/edits as a module; its modules are read anew."""
    for name in ("edit_notes", "kept", "kit"):
        sys.modules.pop(name, None)
    loader = importlib.machinery.SourceFileLoader("edits", str(clone / "tests" / "edits"))
    made = importlib.util.module_from_spec(importlib.util.spec_from_loader("edits", loader))
    loader.exec_module(made)
    return made


class Machine:
    """What a machine keeps of what it tried."""

    def __init__(self):
        texts: dict = {}

        class Kept:
            """Kept work, as tests/edits asks rt for it."""

            def __init__(self, *_):
                pass

            def key(self, crate):
                return f"as {crate.name} stands"

            def is_untouched(self, _crate):
                return True

            def tried(self, name):
                return texts.get(name)

            def keep_tried(self, name, kind, text):
                texts[name] = kind, text

        self.kept = Kept

    def rt(self, tool):
        """An rt that proves each crate at once."""
        rt = tool.load_rt()
        rt.Kept, rt.need, rt.Crate, rt.seeded = self.kept, lambda _: 0, SimpleNamespace(), lambda *_: None
        rt.in_lanes = lambda tasks: {key: task[3]({}, 1) for key, task in tasks.items()}

        def ci(anew):
            rt.Kept([], anew)
            proofs: dict = {(name, "proof"): ([], 1, 0, lambda *_: True) for name in rt.names}
            return 0 if all(rt.in_lanes(proofs).values()) else 1

        rt.ci = ci
        return rt


def gate(clone, machine):
    """How many edits the gate tries in a clone, how many are told, and the commit that is due after it."""
    tool, tried = tool_of(clone), []

    def try_round(_rt, crate, round, kind, *_):
        tried.extend(round.edits)
        return [(True, f"{kind} {crate.name}/{it.name}: well") for it in round.edits]

    tool.try_round = try_round
    rt = machine.rt(tool)
    crates = [it for it in rt.rtlib.crates_below(str(clone)) if tool.names_in(f"{it.folder}/must-fail")]
    rt.names = [it.name for it in crates]
    given = SimpleNamespace(ci=True, list=False, anew=False, compile=False, twins=False, wanted=[])
    given.in_turn = tool.edits_in_turn(crates)
    with contextlib.redirect_stdout(io.StringIO()):
        told = tool.try_beside_ci(rt, crates, given)
    return len(tried), len(told), tool.commit_due(), len(given.in_turn)


def cases(folder):
    """What is tried: a name, what came, and what has to come."""
    first = clone_of(ROOT, folder / "first")
    for name in TRIED:
        shutil.copy(ROOT / name, first / name)
    bash(first, "sed -i 's/ .*/ 0/' tests/twins/ghc_unify/*.txt; git add -A; git commit --quiet -m stale")
    machine = Machine()
    tried, told, due, _ = gate(first, machine)
    yield "the stale ones are tried", tried >= 14, True
    yield "each that is tried is told", told, tried
    yield "a commit is due", "+++ b/tests/twins/ghc_unify/refused.txt" in due, True
    yield "a second gate tries nothing, and the commit is due still", gate(first, machine)[::2], (0, due)
    second = clone_of(first, folder / "second")
    bash(second, due.partition("\n")[2])
    yield "the commit that is printed can be made", bash(second, "git status --porcelain; git log -1 --format=%s"), (
        "tests: note the edits tried\n"
    )
    other = Machine()
    tried, told, due, in_turn = gate(second, other)
    yield "another machine tries those alone whose turn it is", (tried, told, due), (in_turn, in_turn, "")
    yield "and a second gate on it nothing", gate(second, other)[:3], (0, in_turn, "")
    (second / "tests" / "twins" / "ghc_unify" / "tried.txt").unlink()
    bash(second, "git commit --quiet -a -m 'one is not noted'")
    (second / "tests" / "twins" / "ghc_unify" / "tried.txt").write_text("are_met_again 0\n")
    yield "notes in a new file are due too", "--- /dev/null\n+++ b/" in tool_of(second).commit_due(), True


def main():
    with tempfile.TemporaryDirectory(prefix="ghcdb-noted-") as folder:
        judged = [(name, came, wanted) for name, came, wanted in cases(Path(folder))]
    failed = [f"failed: {name}: {came!r} in place of {wanted!r}" for name, came, wanted in judged if came != wanted]
    print("\n".join([*failed, f"{len(judged) - len(failed)} passed, {len(failed)} failed"]))
    return 1 if failed else 0


if __name__ == "__main__":
    sys.exit(main())
