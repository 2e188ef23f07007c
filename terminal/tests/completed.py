#!/usr/bin/env python3
"""Completes command lines in bash at a pseudo-terminal: what a file or its name holds comes to ghcdb as it is, nothing
runs.

    python3 terminal/tests/completed.py [PATTERN]      the lines in which the pattern is, or all, several at once

The last line is `N passed, M failed`; the exit status is 1 where a test failed.
"""

import sys
from pathlib import Path

sys.path.insert(0, str(Path(__file__).resolve().parent / "lib"))
import trying  # noqa: E402
from pseudo_terminal import Terminal  # noqa: E402
from trying import wants  # noqa: E402

SHELL = ["bash", "--norc", "--noprofile", "-i"]
START = f"""bind 'set bell-style none' 'set enable-bracketed-paste off'
source {trying.ROOT}/packaging/ghcdb.bash
ghcdb() {{ printf '<%s>' "$@"; printf '\\n=%s=\\n' end; }}
ghcdb start
"""
DOES_HARM = "$(touch PWNED);touch PWNED;`touch PWNED`"


def given_to_ghcdb(folder, keys):
    """The words that ghcdb gets of a command line that is typed with Tab keys in it."""
    terminal = Terminal(SHELL, {"PS1": "\n> ", "HOME": folder, "LC_ALL": "C.UTF-8"}, trying.PATIENCE, folder, "dumb")
    try:
        terminal.press(START)
        terminal.read_until("<start>\n=end=")
        terminal.press(f"{keys}\r")
        shown = terminal.read_until("\n=end=")
        terminal.press("ghcdb after\r")
        terminal.read_until("<after>")  # all else of the line has run by then
    finally:
        terminal.end()
    return shown.rpartition("\n=end=")[0].rpartition("\n<")[2][:-1].split("><")


def cases():
    """Files with their texts, the keys that are typed, and the words that ghcdb has to get."""
    for name in ("a b.ghc", "a'b.ghc", 'a"b.ghc', "a\nb.ghc", f"a{DOES_HARM}.ghc", "a\\b.ghc", "a&|<!.ghc"):
        yield {name: ""}, "ghcdb a\t", [name]
        yield {name: ""}, "ghcdb --load a\t", ["--load", name]
        yield {name: ""}, "ghcdb 'a\t", [name]
    for query in ("p(1)", f"p(1)' ; touch PWNED ; echo '{DOES_HARM}", '"; touch PWNED; "', "p(X), X = 'a', q(\\b)!"):
        text = f"p(_) :- true | true.\n% Query: {query}\n% Query: other\n"
        yield {"q.ghc": text}, "ghcdb q.ghc --query \t", ["q.ghc", "--query", query]
        yield {"q r.ghc": text}, "ghcdb q\\ r.ghc --query \t", ["q r.ghc", "--query", query]
        yield {"q r.ghc": text}, "ghcdb 'q r.ghc' --query \t", ["q r.ghc", "--query", query]
    yield {"q.ghc": "% Query: p(\x1b]0;PWNED\x07)\n"}, "ghcdb q.ghc --query \t", ["q.ghc", "--query"]
    yield {"q.ghc": ""}, "ghcdb $(touch\\ PWNED).ghc --query \t\x15ghcdb none", ["none"]


def test_of(files, keys, wanted):
    """The test of a case."""

    def test(home):
        for name, text in files.items():
            Path(home, name).write_text(text)
        got = given_to_ghcdb(home, keys)
        wants(not Path(home, "PWNED").exists(), f"it runs what stands in {files!r}")
        wants(got == wanted, f"{got!r} in place of {wanted!r}")

    return test


if __name__ == "__main__":
    trying.main((f"{keys!r} beside {files!r}", test_of(files, keys, wanted)) for files, keys, wanted in cases())
