"""What is noted in tests/twins: which edits were refused and which twins were proved, each with the sum of what that
stands on; and the commit that is due where these notes are not those of the last commit."""
import difflib
import subprocess
from collections.abc import Callable
from pathlib import Path
from typing import NamedTuple

ROOT = Path(__file__).resolve().parent.parent.parent
TWINS = "tests/twins"


def text_of(path):
    """The text of a file, empty where it is not there."""
    return path.read_text(encoding="utf-8") if path.exists() else ""


class Notes(NamedTuple):
    """Where it is noted which edits or twins of a crate went as they must, with which sums."""

    file: str
    sums: Callable

    def path(self, crate):
        return ROOT / TWINS / crate.name / self.file

    def known(self, crate):
        """The sums of those that went as they must, by their names."""
        return dict(line.split() for line in text_of(self.path(crate)).split("\n") if line)

    def write(self, crate, went):
        """Notes that these went as they must, as they stand; those that are not there any more go. What is noted already
        is not written again."""
        sums, known = self.sums(crate), self.known(crate)
        noted = {name: sums[name] if name in went else known[name] for name in sums if name in went or name in known}
        text = "".join(f"{name} {noted[name]}\n" for name in sorted(noted))
        if text != text_of(self.path(crate)):
            self.path(crate).write_text(text, encoding="utf-8")


def committed(root, path):
    """The text of a file of the last commit, empty where it has none."""
    told = subprocess.run(["git", "show", f"HEAD:{path}"], cwd=root, capture_output=True, text=True)
    return told.stdout if told.returncode == 0 else ""


def changes(root):
    """A patch from the notes of the last commit to those that stand here; empty where they are the same."""
    listed = subprocess.run(["git", "ls-files", TWINS], cwd=root, capture_output=True, text=True, check=True).stdout
    here = [str(it.relative_to(root)) for it in (root / TWINS).glob("*/*.txt")]
    lines: list[str] = []
    for path in sorted({*here, *(it for it in listed.split("\n") if it.endswith(".txt"))}):
        was, now = committed(root, path), text_of(root / path)
        before, after = f"a/{path}" if was else "/dev/null", f"b/{path}" if now else "/dev/null"
        lines += difflib.unified_diff(was.splitlines(True), now.splitlines(True), before, after)
    return "".join(lines)


def commit_due(root=ROOT):
    """What is to be told where the notes here are not those of the last commit: the commit that is due, as commands for the
    checkout that is to land. Nothing where they are the same."""
    patch = changes(root)
    if not patch:
        return ""
    begin = f"edits: the notes in {root / TWINS} are not those of the last commit. This commit is due, where the change stands:"
    return f"{begin}\n\ngit apply << 'END'\n{patch}END\ngit add {TWINS}\ngit commit -m 'tests: note the edits tried' -- {TWINS}\n"
