#!/usr/bin/env python3
"""Plays all rows of tests/run_rows.py, and the lines of a shell of tests/devices.py, through ./ghcdb where it has no
native program: on the program that the page carries, by Node, with the system's own streams and files.

    python3 tests/by_node.py [--all]     with those of the tables, too

Each row starts Node, so the rows of the tables, which differ in a text alone, are left out without --all: web/test
plays them on the same program in one process. So it takes half a minute, with --all two. Left out are the lines of a
shell that limit the memory, for Node takes more. Last a session is played where bash, coreutils and Node are all that
is there. The last line is `N passed, M failed`; the exit status is 1 where one failed, and where there is no Node.
"""
import os
import shutil
import subprocess
import sys
import tempfile
from concurrent.futures import ThreadPoolExecutor
from pathlib import Path

sys.dont_write_bytecode = True
ROOT = Path(__file__).resolve().parent.parent


def copy_launcher(folder):
    """A launcher in the folder, with all that is here but a native program."""
    shutil.copy(ROOT / "ghcdb", folder)
    for name in ("crates.txt", "commands.txt", "front", "packaging", "tools", "web"):
        (folder / name).symlink_to(ROOT / name)
    for source in (ROOT / "crates").glob("*/src"):
        shutil.copytree(source, folder / "crates" / source.parent.name / "src")
    return folder / "ghcdb"


def said_with(path):
    """What the launcher says of its program, and the last reply of a session, where nothing else is on the PATH."""
    words: list = [os.environ["GHCDB"], ROOT / "examples" / "append.ghc", "--query", "append([1],[2],R)"]
    lines, env = "leap\nshow R\n", {"PATH": path}
    ended = subprocess.run(words, capture_output=True, text=True, env=env, input=lines, timeout=300)
    return ended.stderr, ended.stdout.splitlines()[-1:]


def few_tools(folder):
    """With bash, coreutils and Node alone all is said and told as elsewhere; without sha256sum, too."""
    for name in ("bash", "cat", "dirname", "env", "node", "readlink", "sort"):
        (folder / name).symlink_to(shutil.which(name))
    without, wanted = said_with(str(folder)), said_with(os.environ["PATH"])
    (folder / "sha256sum").symlink_to(shutil.which("sha256sum"))
    told = [without, said_with(str(folder))]
    return [f"{it} in place of {wanted}" for it in told if it != wanted or it[1] != ["R = [1,2]"]]


def play(with_tables):
    """What is wrong with the rows and the lines of a shell: of each its name, and a list of lines."""
    import devices
    import run_rows

    shells = [it for it in devices.SHELLS if "ulimit -v" not in it.line]
    rows = [it for it in run_rows.all_rows([]) if with_tables or ".table:" not in it[0]]
    with ThreadPoolExecutor(os.cpu_count()) as pool:
        judged = list(zip([name for name, _ in rows], pool.map(run_rows.judge, [row for _, row in rows])))
        return judged + [
            (it.what, [wrong] if wrong else []) for it, wrong in zip(shells, pool.map(devices.shell, shells))
        ]


def main():
    if not shutil.which("node"):
        print("by_node: there is no Node here, so nothing was tried")
        return 1
    with tempfile.TemporaryDirectory(prefix="ghcdb-by-node-") as folder:
        os.environ["GHCDB"] = str(copy_launcher(Path(folder)))
        os.environ["GHCDB_QUIET"] = "1"
        judged = play(with_tables="--all" in sys.argv[1:])
        with tempfile.TemporaryDirectory(prefix="ghcdb-by-node-") as tools:
            judged.append(("a session with few tools", few_tools(Path(tools))))
    failed = [(name, wrong) for name, wrong in judged if wrong]
    for name, wrong in failed:
        print("\n".join([f"failed: {name}", *wrong]))
    print(f"{len(judged) - len(failed)} passed, {len(failed)} failed")
    return 1 if failed or not judged else 0


if __name__ == "__main__":
    sys.exit(main())
