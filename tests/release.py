#!/usr/bin/env python3
"""Makes a release into a folder of its own, installs its packages into empty roots, and plays there.

    python3 tests/release.py [--all] [--unproved]

With --all all rows of tests/run_rows.py are played, in place of some; with --unproved the page's program may have no
proof.

The .deb is unpacked by dpkg-deb. The package of npm is installed by npm, offline, where npm is there; else it is
unpacked. The completions are tried in zsh and fish, where these are there. The last line is `N passed, M failed`; the
exit status is 1 where a test failed, and where Node or dpkg-deb is missing.
"""
import hashlib
import json
import os
import re
import shutil
import subprocess
import sys
import tarfile
import tempfile
import traceback
from pathlib import Path

sys.dont_write_bytecode = True
ROOT = Path(__file__).resolve().parent.parent
sys.path.insert(0, str(ROOT / "terminal" / "tests" / "lib"))
from pseudo_terminal import Terminal  # noqa: E402

SECONDS = 300
SOME_ROWS = ("help.", "device", "answered_in_turns", "long_line", "load_a", "load_o")
QUERY = "bill(12,3,T)"
STEPS = ["REDU 1 0.1 by 1", "REDU 2 1.1 by 2", "REDU 3 2.1 is", "REDU 4 1.2 by 2", "REDU 5 4.1 is", "REDU 6 1.3 is"]
OF_SHELLS = ("completions/ghcdb.bash", "completions/_ghcdb", "completions/ghcdb.fish")
OF_EDITORS = ("vim/syntax/fghc.vim", "emacs/fghc-mode.el", "neovim/ghcdb.lua")


def wants(condition, told):
    if not condition:
        raise AssertionError(told)


def is_same(got, wanted):
    wants(got == wanted, f"{got!r} in place of {wanted!r}")


class Place:
    """An empty root in which ghcdb is installed, with Node alone on the PATH beside it."""

    def __init__(self, root, program):
        self.root, self.program = Path(root), Path(root) / program
        self.home = self.root / "home"
        self.home.mkdir(parents=True, exist_ok=True)
        tools = self.root / "tools"
        tools.mkdir(exist_ok=True)
        (tools / "node").symlink_to(shutil.which("node"))
        self.environment = {"PATH": f"{self.program.parent}:{tools}", "HOME": str(self.home), "LC_ALL": "C.UTF-8"}

    def run(self, *words, given=""):
        """What ghcdb tells, and its status."""
        options: dict = {"env": self.environment, "cwd": self.home, "timeout": SECONDS}
        return subprocess.run(["ghcdb", *words], input=given.encode(), capture_output=True, **options)

    def told(self, *words, given="", status=0):
        """The lines that ghcdb tells, where its status is this one and it says nothing else."""
        ended = self.run(*words, given=given)
        is_same((ended.returncode, ended.stderr), (status, b""))
        return ended.stdout.decode().splitlines()


def sources_of_page():
    """The sum of the sources of which the page's program is."""
    [made] = re.findall(r"^const MADE_WITH = (.*);$", (ROOT / "web" / "ghcdb.html").read_text(), re.M)
    return json.loads(made)["sources"]


def make(folder):
    """Makes the release: its files by their names."""
    made = [ROOT / "tools" / "make-release", folder, *(word for word in sys.argv[1:] if word == "--unproved")]
    subprocess.run(made, check=True, stdout=subprocess.DEVNULL, timeout=SECONDS)
    return {file.name: file.read_bytes() for file in Path(folder).iterdir()}


def test_sums(release, files):
    """SHA256SUMS names all other files with their sums, and the same sources give the same bytes."""
    lines = [line.split("  ") for line in files["SHA256SUMS"].decode().splitlines()]
    sums = {name: sum_of_it for sum_of_it, name in lines}
    wanted = {name: hashlib.sha256(text).hexdigest() for name, text in files.items() if name != "SHA256SUMS"}
    is_same(sums, wanted)
    is_same(make(release.with_name("again"))["SHA256SUMS"], files["SHA256SUMS"])


def test_alone(release, _files):
    """The file alone is all of ghcdb, wherever it stands."""
    place = release.with_name("alone")
    place.mkdir()
    shutil.copy(release / "ghcdb", place)
    try_sessions(Place(place, "ghcdb"))


def test_among_modules(release, _files):
    """The file runs also below a package.json by which all files there are ES modules."""
    place = release.with_name("modules")
    place.mkdir()
    shutil.copy(release / "ghcdb", place)
    (place / "package.json").write_text('{"type": "module"}')
    try_sessions(Place(place, "ghcdb"))


def test_node_missing(release, _files):
    """Where Node is missing or old the file says which is wanted, and its help names what is beside the console."""
    place = release.with_name("old")
    place.mkdir()
    (place / "node").write_text("#!/bin/sh\necho v12.22.12\n")
    (place / "node").chmod(0o755)
    for path, found in ((place, "v12.22.12"), (release, "none")):
        words, env = ["/bin/sh", release / "ghcdb"], {"PATH": str(path)}
        told = subprocess.run(words, env=env, capture_output=True, text=True, timeout=SECONDS)
        wants(told.returncode == 127 and told.stderr.startswith("ghcdb needs Node 18 or newer"), told.stderr)
        wants(told.stderr.endswith(f"; {found} is on the PATH\n"), told.stderr)
    words = [release / "ghcdb", "--help"]
    said = subprocess.run(words, capture_output=True, text=True, check=True, timeout=SECONDS).stdout
    is_same([word for word in ("--run", "--check", "--json", "--lesson", "--dap", "--lsp") if word not in said], [])


def test_debian(release, files):
    """The package of Debian is one that dpkg-deb reads."""
    [name] = [name for name in files if name.endswith(".deb")]
    root = release.with_name("debian")
    subprocess.run(["dpkg-deb", "--extract", release / name, root], check=True)
    field = ["dpkg-deb", "--field", release / name, "Package", "Architecture", "Depends"]
    told = subprocess.run(field, check=True, capture_output=True, text=True).stdout.splitlines()
    is_same(told, ["Package: ghcdb", "Architecture: all", "Depends: nodejs (>= 18)"])
    beside = ["man/man1/ghcdb.1.gz", "bash-completion/completions/ghcdb", "zsh/vendor-completions/_ghcdb"]
    beside += ["fish/vendor_completions.d/ghcdb.fish", "vim/vimfiles/syntax/fghc.vim"]
    beside += ["emacs/site-lisp/fghc-mode.el", "nvim/site/lua/ghcdb.lua", "doc/ghcdb/README.md"]
    is_same([name for name in beside if not (root / "usr" / "share" / name).is_file()], [])
    try_sessions(Place(root, "usr/bin/ghcdb"))


def test_npm(release, files):
    """The package of npm is installed, and its command is ghcdb."""
    [name] = [name for name in files if name.endswith(".tgz")]
    root = release.with_name("npm")
    inside = root / "lib" / "node_modules" / "ghcdb"
    if shutil.which("npm"):
        words: list = ["npm", "install", "--global", "--offline", "--no-audit", "--no-fund"]
        words += ["--prefix", root, release / name]
        environment = {**os.environ, "npm_config_cache": str(release.with_name("cache")), "HOME": str(release)}
        subprocess.run(words, check=True, stdout=subprocess.DEVNULL, env=environment, timeout=SECONDS)
    else:
        with tarfile.open(release / name) as archive:
            archive.extractall(root)
        inside.parent.mkdir(parents=True)
        (root / "package").rename(inside)
        (root / "bin").mkdir()
        (root / "bin" / "ghcdb").symlink_to(inside / "ghcdb")
    beside = [*OF_SHELLS, *(f"editors/{name}" for name in OF_EDITORS), "ghcdb.1", "README.md"]
    is_same([name for name in beside if not (inside / name).is_file()], [])
    try_sessions(Place(root, "bin/ghcdb"))


def test_rows(release, _files):
    """Rows have on the file the replies that they have to have."""
    words = () if "--all" in sys.argv[1:] else SOME_ROWS
    played: list = [sys.executable, ROOT / "tests" / "run_rows.py", *words]
    environment = {**os.environ, "GHCDB": str(release / "ghcdb")}
    ended = subprocess.run(played, capture_output=True, text=True, env=environment)
    wants(ended.returncode == 0, ended.stdout)


DOES_HARM = "p(1)' ; touch PWNED ; echo '$(touch PWNED);`touch PWNED`"
HAS_CONTROL = "p(\x1b]0;PWNED\x07)"
ZSH = """compadd() { [[ $1 != -- ]] || shift; print -rl -- "$@" }
_files() { print -r -- "files $*" }
words=("$@") CURRENT=$#words PREFIX=${words[-1]} SUFFIX=
source %s
"""


def offered(shell, folder, words):
    """The words that a shell offers after those that are typed, the last of them begun; of zsh who is asked for
    files."""
    script = ROOT / "packaging" / f"ghcdb.{shell}"
    if shell == "zsh":
        (folder / "ask.zsh").write_text(ZSH % script)
        asked = ["zsh", "-f", "ask.zsh", "ghcdb", *words]
    else:
        asked = ["fish", "--no-config", "-c", f"source {script}; complete -C $argv[1]", "ghcdb " + " ".join(words)]
    ended = subprocess.run(asked, capture_output=True, text=True, cwd=folder, timeout=SECONDS)
    return [line.partition("\t")[0] for line in ended.stdout.splitlines()]


def test_shells(release, _files):
    """The completions of zsh and fish offer what ghcdb could take, and run nothing."""
    folder = release.with_name("shells")
    folder.mkdir()
    (folder / "q r.ghc").write_text(f"p(_) :- true | true.\n% Query: {DOES_HARM}\n% Query: other\n")
    (folder / "control.ghc").write_text(f"% Query: {HAS_CONTROL}\n")
    for shell in (name for name in ("zsh", "fish") if shutil.which(name)):
        is_same(offered(shell, folder, ["'q r.ghc'", "--query", ""]), [DOES_HARM])
        is_same(offered(shell, folder, ["q\\ r.ghc", "--query", ""]), [DOES_HARM])
        is_same(offered(shell, folder, ["control.ghc", "--query", ""]), [])
        is_same(offered(shell, folder, ['"$(touch PWNED)".ghc', "--query", ""]), [])
        wants("--picture" in offered(shell, folder, ["--pi"]), f"{shell} does not offer --picture")
        wants("64" in offered(shell, folder, ["--workers", ""]), f"{shell} does not offer 64 workers")
    wants(not (folder / "PWNED").exists(), "what stands in a file is run")


def try_sessions(place):
    """Plays what a reader of packaging/README.md would, and each kind of session."""
    wants("bill" in place.told("--example"), "bill is no example")
    (place.home / "b.ghc").write_bytes(place.run("--example", "bill").stdout)
    is_same((place.home / "b.ghc").read_bytes(), (ROOT / "examples" / "bill.ghc").read_bytes())
    is_same(place.told("b.ghc", "--query", QUERY, given="leap\nT\n"), [*STEPS, "stopped quiet", "F25 command"])
    is_same(place.told("--check", "b.ghc", "--query", QUERY, given="leap\n"), [*STEPS, "stopped quiet"])
    is_same(place.told("--check", "b.ghc", "--query", QUERY, given="leap 1\n", status=7), [STEPS[0], "stopped limit"])
    ran = place.run("b.ghc", "--run")
    is_same((ran.returncode, ran.stdout), (0, b"T = 150\n"))
    wants(ran.stderr.startswith(b"% 1 step could have gone by another clause"), f"no choice is told: {ran.stderr!r}")
    told = json.loads(place.told("--json", "b.ghc", "--query", QUERY, given="leap\nshow T\n")[1])
    is_same((told["variable"], told["value"]), ("T", "150"))
    try_others(place)
    try_terminal(place)


def message(told):
    """A message as editors send it."""
    text = json.dumps(told)
    return f"Content-Length: {len(text)}\r\n\r\n{text}"


def try_others(place):
    """The words that begin no session, and those that are refused."""
    told = place.told("--version")
    wants(told[0].startswith("ghcdb "), "the version is not told")
    wants(f"sources {sources_of_page()}" in told, f"the sources are not told: {told}")
    is_same(place.run("--example", "none").returncode, 2)
    is_same(place.run("constructor").returncode, 2)
    (place.home / "run.history").write_bytes(place.run("b.ghc", "--query", QUERY, given="leap\nsave\n").stdout)
    lines = (place.home / "run.history").read_text().partition("stopped quiet\n")[2]
    (place.home / "run.history").write_text(lines)
    drawn = place.told("--picture", "run.history", "--program", "b.ghc", "--query", QUERY)
    wants(drawn[0].startswith("<svg"), f"{drawn[:1]} is no picture")
    told = place.told("--dap", given=message({"seq": 1, "type": "request", "command": "initialize", "arguments": {}}))
    wants('"command":"initialize"' in told[-1], f"the adapter tells {told}")
    begin = {"jsonrpc": "2.0", "id": 1, "method": "initialize", "params": {}}
    end = [{"jsonrpc": "2.0", "id": 2, "method": "shutdown"}, {"jsonrpc": "2.0", "method": "exit"}]
    told = place.told("--lsp", given="".join(map(message, [begin, *end])))
    wants('"serverInfo":{"name":"ghcdb"}' in "".join(told), f"the language server tells {told}")


def try_terminal(place):
    """A session at a terminal, with its help."""
    words = ["env", "-i", *(f"{name}={value}" for name, value in place.environment.items()), "TERM=xterm"]
    terminal = Terminal([*words, str(place.program), "b.ghc"], {}, SECONDS, place.home)
    try:
        wants(f"% the query is that of the program's comment: {QUERY}\n" in terminal.start, terminal.start)
        terminal.type("leap")
        is_same(terminal.type("T"), ["% sent: show T", "T = 150"])
        terminal.type("quit")
        terminal.type("quit")
        is_same(terminal.status, 0)
    finally:
        terminal.end()


def wrong_with(test, release, files):
    """What is wrong with what a test tries, or nothing."""
    try:
        test(release, files)
        return ""
    except AssertionError as error:
        return f"failed: {test.__doc__} {error}"
    except (OSError, TimeoutError, ValueError, subprocess.SubprocessError):
        return f"failed: {test.__doc__} {traceback.format_exc()}"


def main():
    missing = [name for name in ("node", "dpkg-deb") if not shutil.which(name)]
    if missing:
        print(f"release: there is no {missing[0]} here, so nothing was tried")
        return 1
    tests = (test_sums, test_alone, test_among_modules, test_node_missing, test_debian, test_npm, test_shells, test_rows)
    with tempfile.TemporaryDirectory(prefix="ghcdb-release-") as folder:
        release = Path(folder) / "release"
        files = make(release)
        failed = [line for line in (wrong_with(test, release, files) for test in tests) if line]
    print("\n".join([*failed, f"{len(tests) - len(failed)} passed, {len(failed)} failed"]))
    return 1 if failed else 0


if __name__ == "__main__":
    sys.exit(main())
