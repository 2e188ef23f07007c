#!/usr/bin/env python3
"""Tries the launcher ./ghcdb on a copy of it, with a PATH of its own: stubs of `rt`, Node, the programs, `rlwrap` and
git.

    python3 tests/launcher.py

Nothing is proved, and nothing of the repository is run but the launcher, its tools, and terminal/test where it tries
nothing. The last line is `N passed, M failed`; the exit status is 1 where a case failed.
"""

import os
import pty
import re
import shutil
import subprocess
import sys
import tempfile
from pathlib import Path

ROOT = Path(__file__).resolve().parent.parent
SECONDS = 20
TABLE = (ROOT / "tools" / "proof-seconds.txt").read_text()
SECONDS_OF = {name: int(seconds) for name, seconds in re.findall(r"^(\w+) (\d+) \d+$", TABLE, re.MULTILINE)}
TOOLS = (
    "bash",
    "basename",
    "cp",
    "dirname",
    "env",
    "mkdir",
    "mv",
    "readlink",
    "sha256sum",
    "sort",
    "touch",
)  # no find, sed or awk

PROGRAM = """#!/usr/bin/env bash
printf '%s\\n' "the program: $*"
[ "$*" = --version ] || exit 3
"""
RT = """#!/usr/bin/env bash
[ "$1" != version ] || { echo "kit of a stub"; exit; }
here=$(basename "$PWD")
echo "rt $* in $here" >> "$ASKED"
echo "what rt says of $here"
[ "$here" != "${LONG:-}" ] || printf '%s\\n' 'so far: 0 of 9 functions checked; the verdict comes last' 'so far: 3 of 9 functions checked'
[ "$here" != "${REFUSED:-}" ] || exit 1
[ "$here" != "${CHANGING:-}" ] || echo >> src/lib.rt
[ "$1" = lib ] || { mkdir -p out; cp "$STUB" out/ghcdb; }
"""
NODE = """#!/usr/bin/env bash
[ -z "${READING:-}" ] || cat # what it finds of the input
[ "$*" != --version ] || { echo "${NODE_VERSION:-v18.0.0}"; exit; }
printf '%s\\n' "node: ${1##*/} ${*:2}${GHCDB:+, on ${GHCDB##*/}}${GHCDB_CLOSED:+, closed: $GHCDB_CLOSED}"
[ "$2" = --version ] || exit 4
"""
PYTHON = """#!/usr/bin/env bash
printf '%s\\n' "python: ${1##*/} ${*:2} on ${GHCDB##*/}"
exit 6
"""
GIT = """#!/usr/bin/env bash
case $3 in
rev-parse) echo 0123abc ;;
status) printf '%s' "${CHANGED:-}" ;;
esac
"""
RLWRAP = """#!/usr/bin/env bash
printf '%s\\n' "rlwrap: $*"
exit 5
"""
# Tells that 8 times 2 GB of memory are free; all else is cat's.
CAT = f"""#!/usr/bin/env bash
[[ $* != *meminfo* ]] || {{ printf '%s kB\\n' 'MemTotal: 1' "MemAvailable: ${{FREE:-16000000}}" 'Cached: 2'; exit; }}
exec {shutil.which("cat")} "$@"
"""


class Copy:
    """A copy of the launcher in a folder of its own, with no program and no page yet."""

    def __init__(self, folder):
        self.folder = Path(folder)
        self.program = self.folder / "crates" / "ghcdb" / "out" / "ghcdb"
        self.noted = self.program.with_name("ghcdb.proved")
        self.page = self.folder / "web" / "ghcdb.html"
        self.page.parent.mkdir()
        for name in ("ghcdb", "crates.txt", "commands.txt"):
            shutil.copy(ROOT / name, self.folder)
        shutil.copytree(ROOT / "tools", self.folder / "tools")
        lines = (ROOT / "crates.txt").read_text().splitlines()
        self.crates = [line.partition(":")[0].split()[0] for line in lines if ":" in line and not line.startswith("#")]
        for name in self.crates:
            self.source(name).parent.mkdir(parents=True)
            self.source(name).touch()
        for name in TOOLS:
            self.tool("tools", name).symlink_to(shutil.which(name))
        self.write(self.folder / "stub", PROGRAM)
        stubs = {
            "cat": CAT,
            "nproc": "#!/bin/sh\necho 4\n",
            "rt": RT,
            "node": NODE,
            "python3": PYTHON,
            "rlwrap": RLWRAP,
            "git": GIT,
        }
        for name, text in stubs.items():
            self.write(self.tool("tools" if name in ("cat", "nproc") else name, name), text)
        shutil.copytree(self.folder / "bin" / "tools", self.folder / "bin" / "no sums", symlinks=True)
        self.tool("no sums", "sha256sum").unlink()

    def source(self, crate):
        """The root file of a crate."""
        return self.folder / "crates" / crate / "src" / "lib.rt"

    def tool(self, folder, name):
        """The path of a program in a folder that can stand on the PATH."""
        (self.folder / "bin" / folder).mkdir(parents=True, exist_ok=True)
        return self.folder / "bin" / folder / name

    def write(self, path, text):
        """Writes a program."""
        path.write_text(text)
        path.chmod(0o755)

    def sum(self):
        """The sum of its sources."""
        return subprocess.run(
            [self.folder / "tools" / "sources-sum"], capture_output=True, text=True, check=True
        ).stdout.strip()

    def put_page(self, sources, proved="true"):
        """Puts a page there that says of which sources its program is."""
        made_with = f'{{"commit": "0abc", "kit": "the kit of the page", "proved": {proved}, "sources": "{sources}"}}'
        self.page.write_text(f"<script>\nconst MADE_WITH = {made_with};\n</script>\n")

    def put_program(self):
        """Puts a native program there that is newer than its sources."""
        self.program.parent.mkdir(exist_ok=True)
        self.write(self.program, PROGRAM)

    def change(self, crate):
        """Changes a source, and makes it newer than the program."""
        source = self.source(crate)
        source.write_text(source.read_text() + "// changed\n")
        later = self.program.stat().st_mtime + 10
        os.utime(source, (later, later))

    def run(self, *words, path=(), tools="tools", terminal="xterm", settings=(), **streams):
        """What the launcher writes to pipes, and its status; `streams` puts others in the place of pipes."""
        places = [str(self.folder / "bin" / name) for name in (tools, *path)]
        known = {
            "PATH": ":".join(places),
            "ASKED": str(self.folder / "asked"),
            "STUB": str(self.folder / "stub"),
            "TERM": terminal,
        }
        streams = {"stdin": subprocess.DEVNULL, "stdout": subprocess.PIPE, "stderr": subprocess.PIPE} | streams
        environment = known | dict(settings)
        ended = subprocess.run([self.folder / "ghcdb", *words], env=environment, timeout=SECONDS, text=True, **streams)
        return ended.stdout, ended.stderr, ended.returncode

    def run_at_terminal(self, *words, **given):
        """What is written at a terminal, and the status."""
        ours, theirs = pty.openpty()
        _, _, status = self.run(*words, **({"stdin": theirs, "stdout": theirs, "stderr": theirs} | given))
        os.write(theirs, b"|")
        os.close(theirs)
        written = b""
        while not written.endswith(b"|"):
            written += os.read(ours, 4096)
        os.close(ours)
        return written[:-1].decode().replace("\r\n", "\n"), status


def commands():
    """The first words of the commands in the table of docs/FORMATS.md."""
    section = (ROOT / "docs" / "FORMATS.md").read_text().partition("## 10. Commands\n")[2].partition("\n## ")[0]
    table = [line.split("|")[1] for line in section.splitlines() if line.startswith("| `")]
    return sorted({word for cell in table for word in re.findall(r"`([a-z]+)", cell)})


ESTIMATE = f"about {(sum(SECONDS_OF.values()) + 30) // 60} minutes on four processors"
PROVE = "; ./ghcdb --prove proves and builds the native one here ({})\n"
ENGINE = "ghcdb: this is the proved program of {}, compiled for WebAssembly and run by Node"
UNKNOWN = "UNKNOWN SOURCES (to compare them, sha256sum, shasum or node has to be on the PATH)"
HERE, OTHER = "the sources that stand here", "OTHER SOURCES than those here, of commit 0abc"
NATIVE_OF_OTHER = "ghcdb: this is the native proved program of OTHER SOURCES than those here; ./ghcdb --prove proves and builds it of these ({})\n"
SCREEN = """ghcdb: no program can run here yet. Do one of these:
  - Open web/ghcdb.html in a browser: the whole debugger, with pictures of runs. There is nothing to install.
  - Install Node 18 or newer ({}), as by `apt-get install nodejs`: then ./ghcdb answers at once.
  - With Rattle's `rt` on the PATH ({}), ./ghcdb --prove proves and builds the native program ({}).
"""
MISSING = "not found here"


def minutes(seconds):
    """Seconds in minutes, in words."""
    number = max(1, (seconds + 30) // 60)
    return f"{number} minute{'s' if number > 1 else ''}"


def engine_line(sources=HERE, time=ESTIMATE):
    """The line that tells that the program of the page runs."""
    return ENGINE.format(sources) + PROVE.format(time)


def without_a_native_program(copy):
    """Cases where no native program was built."""
    yield "nothing is there", copy.run("a"), ("", SCREEN.format(MISSING, MISSING, ESTIMATE), 127)
    yield "a page alone is of no help", copy.run("a", path=["node"]), (
        "",
        SCREEN.format("here it is v18.0.0", MISSING, ESTIMATE),
        127,
    )
    copy.put_page(copy.sum())
    yield "rt alone proves nothing unasked", copy.run("a", path=["rt"]), (
        "",
        SCREEN.format(MISSING, "it is here", ESTIMATE),
        127,
    )
    old = copy.run("a", path=["node"], settings={"NODE_VERSION": "v16.20.2"})
    yield "a Node that is too old", old, ("", SCREEN.format("here it is v16.20.2", MISSING, ESTIMATE), 127)
    yield "no rows where nothing runs", copy.run("--test"), ("", SCREEN.format(MISSING, MISSING, ESTIMATE), 127)
    yield "the engine", copy.run("a", "b c", path=["node"]), ("node: console a b c\n", engine_line(), 4)
    yield "the engine, though rt is there", copy.run("a", path=["node", "rt"]), ("node: console a\n", engine_line(), 4)
    quiet = copy.run("a", path=["node"], settings={"GHCDB_QUIET": "1"})
    yield "the engine, and nothing is said", quiet, ("node: console a\n", "", 4)
    one = "ghcdb: it has one thread, so one worker makes each run\n"
    workers = copy.run("a", "--workers", "4", path=["node"])
    yield "the engine with workers", workers, ("node: console a --workers 4\n", engine_line() + one, 4)
    closed = subprocess.run(
        ["bash", "-c", './ghcdb a <&-'], cwd=copy.folder, capture_output=True, text=True,
        env={"PATH": ":".join(str(copy.folder / "bin" / name) for name in ("tools", "node"))},
    )
    yield "the engine, and the input is closed", closed.stdout, "node: console a, closed: 0\n"
    yield "the rows on the engine", copy.run("--test", "a", path=["node", "python3"]), (
        "node: rows.mjs a\n",
        engine_line(),
        4,
    )
    no_python = "ghcdb: the rows are read by python3, which is not on the PATH\n"
    yield "the rows without Python", copy.run("--test", path=["node"]), ("", engine_line() + no_python, 127)
    version = "node: console --version\ncommit {}\nkit the kit of the page\n"
    yield "the version on the engine", copy.run("--version", path=["node"]), (
        version.format("unknown"),
        engine_line(),
        0,
    )
    copy.put_page(copy.sum(), proved="false")
    unproved = engine_line().replace("the proved program", "a program WITHOUT PROOF")
    yield "a page whose program is not proved", copy.run("a", path=["node"]), ("node: console a\n", unproved, 4)
    copy.put_page("0")
    yield "a page of other sources", copy.run("a", path=["node", "rt"]), ("node: console a\n", engine_line(OTHER), 4)
    copy.page.write_text('<script>\nconst MADE_WITH = {"commit": "0abc", "kit": "k", "proved": true};\n</script>\n')
    yield "a page that names no sources", copy.run("a", path=["node"]), ("node: console a\n", engine_line(OTHER), 4)


def proving(copy):
    """Cases of --prove."""
    rest = [sum(SECONDS_OF[name] for name in copy.crates[k:]) for k in range(len(copy.crates))]
    left = [f"about {minutes(seconds)} left" for seconds in rest]
    begin = f"ghcdb: proving and building {copy.program}, {left[0]}\n"
    told = [f"ghcdb: proving {name} ({k + 1} of {len(copy.crates)}), {left[k]}\n" for k, name in enumerate(copy.crates)]
    third, rt = copy.crates[2], {"path": ["rt"]}
    no_rt = "ghcdb: to prove, Rattle's rt has to be on the PATH\n"
    yield "no proof without rt", copy.run("--prove", path=["node"]), ("", no_rt, 127)
    said = f"what rt says of {third}\nghcdb: {third} was not proved: see above\n"
    refused = copy.run("--prove", **rt, settings={"REFUSED": third})
    yield "a crate is refused", refused, ("", begin + "".join(told[:3]) + said, 70)
    within = [f"about {minutes(rest[2] - SECONDS_OF[third] * part // 9)} left" for part in (0, 3)]
    parts = [f"ghcdb: proving {third}: {part} of 9 functions done, {it}\n" for part, it in zip((0, 3), within)]
    (copy.folder / "asked").unlink()
    proved = copy.run("--prove", **rt, settings={"LONG": third})
    end = f"ghcdb: proved and built in about 1 minute: {copy.program}\n"
    proved = proved[0], re.sub(r"in about \d+ minutes?:", "in about 1 minute:", proved[1]), proved[2]
    yield "all is proved, crate by crate", proved, ("", begin + "".join(told[:3] + parts + told[3:]) + end, 0)
    asked = [f"rt lib --jobs 4 in {name}\n" for name in copy.crates[:-1]]
    asked.append(f"rt run --jobs 4 -- --help in {copy.crates[-1]}\n")
    yield "what it asked of rt", (copy.folder / "asked").read_text(), "".join(asked)
    yield "what it noted: nothing was timed, for all was kept", copy.noted.read_text(), f"sources {copy.sum()}\n"
    there = f"ghcdb: the native proved program is there, and nothing is newer: {copy.program}\n"
    yield "nothing is left to prove", copy.run("--prove"), ("", there, 0)
    changing = copy.run("--prove", path=["rt"], settings={"CHANGING": third})
    yield "a proof is asked for again, and nothing is newer", changing, ("", there, 0)
    copy.change(third)
    changed = copy.run("--prove", path=["rt"], settings={"CHANGING": third})
    again = "ghcdb: sources changed while they were proved: run ./ghcdb --prove once more\n"
    yield "a source changes meanwhile", changed[1:], (begin + "".join(told) + again, 70)
    table = copy.folder / "tools" / "proof-seconds.txt"
    kept = table.read_text()
    table.write_text("".join(f"{name} 0 0\n" for name in copy.crates))
    copy.change(third)
    copy.run("--prove", path=["rt"])
    table.write_text(kept)
    noted = re.sub(r"\b\d+$", "N", re.sub(r" \d+ \d+$", " N N", copy.noted.read_text(), flags=re.M), flags=re.M)
    crates = "".join(f"{name} N N\n" for name in copy.crates)
    yield "what it noted, with the time and that of each crate", noted, f"sources {copy.sum()}\nseconds N\n{crates}"


def with_a_native_program(copy):
    """Cases where there is one, of these sources or of others."""
    all_there = {"path": ["node", "rt"]}
    native = ("the program: a b c\n", "", 3)
    copy.put_page("0")
    yield "a native program of these sources", copy.run("a", "b c", **all_there), native
    yield "the rows on it", copy.run("--test", "a", path=["python3"]), ("python: run_rows.py a on ghcdb\n", "", 6)
    third = copy.crates[2]
    later = copy.program.stat().st_mtime + 10
    os.utime(copy.source(third), (later, later))
    yield "a source was only touched, as the note tells", copy.run("a", "b c", **all_there), native
    copy.noted.write_text(f"sources {copy.sum()}\nseconds 2441\n")
    copy.change(third)
    time = "it took 41 minutes here"
    stale = NATIVE_OF_OTHER.format(time)
    yield "a source has changed", copy.run("a", "b c", **all_there), ("the program: a b c\n", stale, 3)
    yield "and there is no Node", copy.run("a", "b c", path=["rt"]), ("the program: a b c\n", stale, 3)
    yield "the rows on a program of other sources", copy.run("--test", path=["python3"]), (
        "python: run_rows.py  on ghcdb\n",
        stale,
        6,
    )
    copy.put_page(copy.sum())
    yield "the page is of the changed source", copy.run("a", **all_there), (
        "node: console a\n",
        engine_line(time=time),
        4,
    )
    copy.noted.unlink()
    yield "and nothing is noted", copy.run("a", **all_there), ("node: console a\n", engine_line(), 4)
    copy.put_program()
    os.utime(copy.program, (later + 20, later + 20))
    yield "a program that was built without the launcher", copy.run("a", "b c", **all_there), native
    tests = copy.source(third).with_name("tests.rt")
    tests.touch()
    os.utime(tests, (later + 30, later + 30))
    yield "a test is newer", copy.run("a", "b c", **all_there), native
    tests.unlink()


def with_less_memory(copy):
    """A case of --prove where there is memory for two jobs."""
    copy.run("--prove", path=["rt"], settings={"FREE": "5000000"})
    jobs = re.findall(r"--jobs (\d+)", (copy.folder / "asked").read_text())
    yield "two jobs, for there is no memory for more", jobs, ["2"] * len(copy.crates)


def without_sums(copy):
    """Cases where nothing makes a sum, with a native program of which a source is newer, and without one."""
    copy.noted.write_text(f"sources {copy.sum()}\n")
    copy.change(copy.crates[0])
    native = NATIVE_OF_OTHER.format(ESTIMATE)
    unknown = native.replace("OTHER SOURCES than those here", UNKNOWN)
    yield "nobody knows of which sources it is", copy.run("a", "b c", tools="no sums"), (
        "the program: a b c\n",
        unknown,
        3,
    )
    copy.noted.unlink()
    yield "it is noted of none", copy.run("a", "b c", tools="no sums"), ("the program: a b c\n", native, 3)
    copy.program.unlink()
    copy.put_page(copy.sum())
    page = engine_line(f"{UNKNOWN}, of commit 0abc")
    yield "nor of which the page is", copy.run("a", tools="no sums", path=["node"]), ("node: console a\n", page, 4)
    node = shutil.which("node")
    if node:
        places = {"PATH": f"{copy.folder / 'bin' / 'no sums'}:{copy.folder / 'bin' / 'true node'}"}
        copy.tool("true node", "node").symlink_to(node)
        words = [copy.folder / "tools" / "sources-sum"]
        ended = subprocess.run(words, env=places, capture_output=True, text=True, timeout=SECONDS)
        yield "Node makes the same sum", (ended.stdout, ended.stderr), (f"{copy.sum()}\n", "")


def with_input(copy):
    """Cases in which what is asked before a session would read its input."""
    lines = copy.folder / "lines"
    lines.write_text("leap\n")
    for tools, sources in (("tools", HERE), ("no sums", f"{UNKNOWN}, of commit 0abc")):
        with lines.open() as given:
            ended = copy.run("a", tools=tools, path=["node"], settings={"READING": "1"}, stdin=given)
        yield f"with {tools} the session gets its whole input", ended, (
            "leap\nnode: console a\n",
            engine_line(sources),
            4,
        )


def without_what_tests_need(copy):
    """Cases of terminal/test, which is red where it could try nothing."""
    words = [ROOT / "terminal" / "test"]
    for there, missing in ((), "node"), (("node",), "python3"):
        places = {"PATH": ":".join(str(copy.folder / "bin" / name) for name in ("tools", *there))}
        ended = subprocess.run(words, env=places, capture_output=True, text=True, timeout=SECONDS)
        said = f"terminal/test: {missing} is not on the PATH, so nothing was tried\n"
        yield f"tests without {missing}", (ended.stdout, ended.stderr, ended.returncode), (said, "", 1)


def with_words_for_scripts(copy):
    """Cases of --check, --json and --run, which a command of terminal/ serves by Node, on the program that would run."""
    told = "node: {} a --query q, on ghcdb\n"
    for word in ("check", "json"):
        yield f"--{word}", copy.run(f"--{word}", "a", "--query", "q", path=["node"]), (told.format(word), "", 4)
    told = "node: run {}, on ghcdb\n"
    for words in ("a --run", "--run a", "a --query q --run", "a --expect --run --run"):
        yield words, copy.run(*words.split(), path=["node"]), (told.format(words), "", 4)
    for words in ("a --query --run", "a --load --run", "a --run="):
        yield words, copy.run(*words.split(), path=["node"]), (f"the program: {words}\n", "", 3)


def at_a_terminal(copy):
    """Cases with a native program of these sources, at a terminal."""
    written = "the program: a b c\n"
    wrapped = (
        f"rlwrap: --command-name ghcdb --substitute-prompt >  --file {copy.folder}/commands.txt {copy.program} a b c\n"
    )
    yield "at a terminal with rlwrap", copy.run_at_terminal("a", "b c", path=["rlwrap"]), (wrapped, 5)
    yield "at a terminal without it", copy.run_at_terminal("a", "b c"), (written, 3)
    yield "at a dumb terminal", copy.run_at_terminal("a", "b c", path=["rlwrap"], terminal="dumb"), (written, 3)
    for name in ("stdin", "stdout", "stderr"):
        status = copy.run_at_terminal("a", path=["rlwrap"], **{name: subprocess.DEVNULL})[1]
        yield f"at a terminal, but for {name}", status, 3
    greeting = "ghcdb: type goals, step G, leap, records, why N, undo N or quit; ./ghcdb --help tells all commands\n"
    words = ("a", "--query", "q")
    yield "a session at a terminal is greeted", copy.run_at_terminal(*words), (
        f"{greeting}the program: a --query q\n",
        3,
    )
    front = "node: ghcdb a --query q, on ghcdb\n"
    yield "with Node a session at a terminal gets the front", copy.run_at_terminal(*words, path=["node", "rlwrap"]), (
        front,
        4,
    )
    alone = copy.run_at_terminal("a.ghc", path=["node"])
    yield "and so does a program that is named alone", alone, ("node: ghcdb a.ghc, on ghcdb\n", 4)
    yield "one in a pipe is not", copy.run(*words), ("the program: a --query q\n", "", 3)
    yield "nor is a schedule", copy.run_at_terminal(*words, "--schedule", "s"), (
        "the program: a --query q --schedule s\n",
        3,
    )


def versions(copy):
    """Cases of --version with a native program of these sources."""
    version = "the program: --version\ncommit {}\nkit {}\n"
    told = {"path": ["rt", "git"]}
    yield "the version", copy.run("--version", **told), (version.format("0123abc", "kit of a stub"), "", 0)
    changed = copy.run("--version", **told, settings={"CHANGED": " M x"})
    yield "the version of changed sources", changed, (version.format("0123abc, with changes", "kit of a stub"), "", 0)
    yield "the version where nothing is known", copy.run("--version"), (version.format("unknown", "unknown"), "", 0)


def texts(copy):
    """The commands that other texts list are those of docs/FORMATS.md."""
    helped = (
        (ROOT / "crates" / "ghcdb" / "src" / "help.rt").read_text().partition("a line each:\n")[2].partition("\n\n")[0]
    )
    named = {
        word
        for line in helped.splitlines()
        for word in re.findall(r"(?:^  |, )([a-z]+)", line[:20].partition("   ")[0])
    }
    yield "the commands that --help lists", sorted(named), commands()
    yield "the words that are completed", (copy.folder / "commands.txt").read_text().split(), commands()


# The cases in their order; those of a row follow each other on one copy.
GROUPS = (
    (without_a_native_program, proving, with_a_native_program, with_words_for_scripts, at_a_terminal, versions, texts),
    (with_less_memory, without_sums, with_input, without_what_tests_need),
)


def cases(groups):
    """The cases of groups on a copy: of each a name, what came, what is wanted."""
    with tempfile.TemporaryDirectory(prefix="ghcdb-launcher-") as folder:
        copy = Copy(folder)
        return [case for group in groups for case in group(copy)]


def main():
    tried = [case for groups in GROUPS for case in cases(groups)]
    failed = [case for case in tried if case[1] != case[2]]
    for name, got, wanted in failed:
        print(f"failed: {name}\n  is to be {wanted!r}\n  is       {got!r}")
    print(f"{len(tried) - len(failed)} passed, {len(failed)} failed")
    return 1 if failed else 0


if __name__ == "__main__":
    sys.exit(main())
