"""The table of what checks what, tools/checks.table: what of it is played for files that changed, and the table of
CONTRIBUTING. For tools/changed and tools/make-pages."""
import re
from fnmatch import fnmatchcase
from pathlib import Path
from typing import NamedTuple

TABLE = Path("tools") / "checks.table"
HEAD = ["| I changed .. | check it with | takes |", "|---|---|---|"]
IMPORT = re.compile(r'^(?:import|export)\b[^;]*?from "(\.[^"]+)"|^import "(\.[^"]+)"|\bimport\("(\.[^"]+)"\)', re.M)


class Row(NamedTuple):
    """What was changed, what checks it and how long that takes, as CONTRIBUTING says it; of which files, and what is played
    of it, where that can be told by files."""

    what: str
    check: str
    takes: str
    files: list[str]
    plays: list[str]


def rows(root):
    """The rows of the table; one of the same kind as that above it says no more than its files and what it plays."""
    lines = [it for it in (root / TABLE).read_text(encoding="utf-8").split("\n") if it and it[0] != "#"]
    cells = [[it.strip() for it in line.split("|")] for line in lines]
    return [Row(what, check, takes, files.split(), plays.split()) for what, check, takes, files, plays in cells]


def contributing(root):
    """The lines of the table of CONTRIBUTING."""
    return HEAD + [f"| {it.what} | {it.check} | {it.takes} |" for it in rows(root) if it.what]


def modules_in(root, name):
    """The modules that a file of JavaScript imports, as paths from the root."""
    for found in IMPORT.finditer((root / name).read_text(encoding="utf-8")):
        path = (root / name).parent / next(filter(None, found.groups()))
        if path.exists():
            yield str(path.resolve().relative_to(root))


def tests_of(root, scripts, changed):
    """The tests by Node that reach one of the files that changed."""
    below = {name: set(modules_in(root, name)) for name in scripts}

    def reaches(name, seen):
        seen.add(name)
        return name in changed or any(it not in seen and reaches(it, seen) for it in below.get(name, ()))

    return [name for name in scripts if name.endswith(".test.mjs") and reaches(name, set())]


def played(root, scripts, changed, room):
    """The commands that check these files, the cheapest first, each once."""
    found: list[list[str]] = []
    for row in rows(root):
        names = [it for it in changed if any(fnmatchcase(it, form) for form in row.files)]
        tests = tests_of(root, scripts, {*names}) if "{tests}" in row.plays else []
        stems = sorted({Path(it).stem for it in names}) if "{stem}" in row.plays else [""]
        for stem in stems if names and row.plays else []:
            words = [it.format(stem=stem, room=room, tests="{tests}") for it in row.plays]
            words = [one for it in words for one in (tests if it == "{tests}" else [it])]
            if words not in found and (tests or "{tests}" not in row.plays):
                found.append(words)
    return found
