#!/usr/bin/env python3
"""Lets devices fail under sessions: tests/devices.py

Each read of standard input and each write of standard output of two sessions fails once, in turn. What is written has
to be what was written before that call, and nothing behind it; the status is 3, with `session: F26 device`. Then the
lines of a shell below are tried, each in a folder of its own, for what a system does itself: ends that are closed, a
reader that goes away, a full device, a file that may not grow, memory that runs out, files that do not end, and a
signal in a run.

It needs a C compiler; where there is none that is said, and nothing is tried. The last line is `N passed, M failed`.
"""
import os
import subprocess
import sys
import tempfile
from concurrent.futures import ThreadPoolExecutor
from pathlib import Path
from typing import NamedTuple

sys.dont_write_bytecode = True
from lib.program import PROGRAM, ROOT
from lib.refusing import SECONDS, Session, tried

EXAMPLES = ROOT / "examples"
DEVICE = b"session: F26 device\n"
LOOP = "loop(X) :- true | loop(X).\n"
# Each step of `busy` compares two lists, so a run of it takes minutes.
BUSY = (
    "list(0,L,D) :- true | L = [], D = done. list(N,L,D) :- N > 0 | L = [N|T], M := N - 1, list(M,T,D). "
    "busy(done,done,L,M) :- true | L = M, busy(done,done,L,M)."
)
STEPS = "\n".join(f"REDU {n} {n - 1}.1 by 1" for n in range(1, 1001)) + "\nstopped limit\n"


class Shell(NamedTuple):
    """A line of a shell, with what it has to write, on both streams, and its status. `$ghcdb` is the program,
    `loop.ghc` a program of one clause that calls itself, and `append.ghc` that of the examples."""

    what: str
    line: str
    output: str = ""
    errors: str = ""
    status: int = 0


SHELLS = [
    Shell("the input is closed", "$ghcdb append.ghc --query true <&-", "", "session: F26 device\n", 3),
    Shell("the output is closed", "echo goals | $ghcdb append.ghc --query true >&-", "", "session: F26 device\n", 3),
    Shell("the standard error is closed", "$ghcdb append.ghc --query X 2>&-", status=1),
    Shell("the input is a folder", "$ghcdb append.ghc --query true <.", "", "session: F26 device\n", 3),
    Shell(
        "the reader goes away",
        "yes goals | { $ghcdb append.ghc --query 'X = 1'; echo $? >&2; } | head -n 1",
        "0.1 ready _0_1 = 1\n",
        "session: F26 device\n3\n",
    ),
    Shell(
        "the device is full",
        "echo leap 1000 | $ghcdb loop.ghc --query 'loop(X)' >/dev/full",
        "",
        "session: F26 device\n",
        3,
    ),
    Shell(
        "the file may not grow",
        "trap '' XFSZ; ulimit -f 4; echo leap 1000 | $ghcdb loop.ghc --query 'loop(X)' >written; echo $?; cat written",
        "3\n" + STEPS[:4096],
        "session: F26 device\n",
    ),
    Shell(
        # With 131,072 steps the tables are full, and to double one takes more than the limit leaves: so the next line
        # has memory.
        "memory runs out",
        "ulimit -v 51500; printf 'leap\\nshow X\\n' | $ghcdb loop.ghc --query 'loop(X)' | grep -v -e '^REDU' -e '^F1 no memory$'",
        "stopped memory\nX = _0_1\n",
    ),
    Shell(
        "what was done is saved when memory runs out, line by line",
        "(ulimit -v 51500; printf 'leap\\nrecords\\nsave\\n' | $ghcdb loop.ghc --query 'loop(X)')"
        " | sed -n -e '/^stopped/p' -e '/^F1/p' -e '/^ghc-history 2$/,$w saved';"
        " printf 'save\\n' | $ghcdb loop.ghc --query 'loop(X)' --load saved | cmp - saved && grep -c '^[0-9]' saved",
        "stopped memory\n131072\n",
    ),
    Shell(
        "memory runs out for several workers",
        "ulimit -v 66000; printf 'leap\nshow X\n' | $ghcdb loop.ghc --query 'loop(X), loop(Y)' --workers 4 | grep -v -e '^REDU' -e '^F1 no memory$'",
        "stopped memory\nX = _0_1\n",
    ),
    Shell(
        "the device is full behind several workers",
        "echo leap 1000 | $ghcdb loop.ghc --query 'loop(X), loop(Y)' --workers 4 >/dev/full",
        "",
        "session: F26 device\n",
        3,
    ),
    Shell(
        "the program has no end", "ulimit -v 60000; $ghcdb /dev/zero --query true", "", "program: F6 limit: text\n", 1
    ),
    Shell(
        "the program is large",
        "truncate -s 10G large; ulimit -v 60000; $ghcdb large --query true",
        "",
        "program: F6 limit: text\n",
        1,
    ),
    Shell(
        "no more is read of a program than a byte past its limit",
        "head -c 2000000 /dev/zero | { $ghcdb /dev/stdin --query true; wc -c; }",
        f"{2000000 - 1048577}\n",
        "program: F6 limit: text\n",
    ),
    Shell("the program cannot be read", "$ghcdb /proc/self/mem --query true", "", "program: F26 device\n", 3),
    Shell(
        "a history is none and has no end",
        "ulimit -v 60000; $ghcdb append.ghc --query true --load /dev/zero",
        "",
        "history: F24 history line 1\n",
        1,
    ),
    Shell(
        "no more is read of a file that is no history than the first line of one has",
        "yes ghc-history 3 | head -c 2000000 | { $ghcdb append.ghc --query true --load /dev/stdin; wc -c; }",
        f"{2000000 - 14}\n",
        "history: F24 history line 1\n",
    ),
    Shell(
        "a history has no end",
        "ulimit -v 60000; { echo ghc-history 1; cat /dev/zero; } | { $ghcdb append.ghc --query true --load /dev/stdin; }",
        "",
        "history: F1 no memory\n",
        1,
    ),
    Shell(
        "a schedule has no end: it is skipped as one line that is too long, in no more memory, until it is stopped",
        "ulimit -v 60000; timeout 2 $ghcdb append.ghc --query true --schedule /dev/zero; echo $?",
        "124\n",
    ),
    Shell(
        "a line of a schedule is large",
        "ulimit -v 60000; { head -c 100000000 /dev/zero; echo; echo note 0.1; } |"
        " $ghcdb append.ghc --query 'X = 1' --schedule /dev/stdin",
        "F6 limit: line\nnoted 0.1\nnone\n",
    ),
    Shell(
        "each line of a schedule is answered before the next one is written",
        "mkfifo lines; $ghcdb append.ghc --query 'X = 1' --schedule lines |"
        " { exec 3>lines; echo propose 1 0.1 >&3; read -r one; echo commit 1 >&3; read -r two; exec 3>&-; echo $two, $one; cat; }",
        "step 1, held 1\n1 0.1 eq reads - binds _0_1=1 makes -\n",
    ),
    Shell(
        "what was replied before a run is written when a signal ends it",
        f"echo '{BUSY}' >busy.ghc; printf 'leap 1\\nsave\\nleap\\n' |"
        " timeout -s INT 5 $ghcdb busy.ghc --query 'list(200,L,D), list(200,M,E), busy(D,E,L,M)'; echo $?",
        "REDU 1 0.2 by 2\nstopped limit\nghc-history 2\nopening 0 1\nentries 1\n1 0.2 by 2\nspies 0\nend 2\n124\n",
    ),
]


def sessions(folder):
    """A session whose replies are each one write, and one with a reply of several."""
    for name, program, query, lines in [
        (
            "append",
            (EXAMPLES / "append.ghc").read_text(),
            "append([1],[2],R)",
            "step 0.1;step 1.1;nonsense;step 1.2;step 3.1;show R;undo 2;ask append(R,[3],Q);records;quit",
        ),
        ("loop", LOOP, "loop(X)", "leap 1000;goals;leap 500;show X"),
    ]:
        (folder / name).mkdir()
        (folder / name / "refuse.so").symlink_to(folder / "refuse.so")
        yield name, Session(folder / name, program, query, lines.split(";"))


def fails(name, session, whole, setting):
    """What is wrong where a call of the session fails, if it did not write what came before that call, and no more."""
    played = session.play(**setting)
    output = b"".join(played.replies)
    if (
        whole.startswith(output)
        and len(output) == played.failed_behind
        and (played.errors, played.status) == (DEVICE, 3)
    ):
        return None
    return (
        f"{name}, {setting}: {len(output)} bytes, failed behind {played.failed_behind}: {played.errors} {played.status}"
    )


def calls(folder, pool):
    """Lets each call of the sessions fail, and says what is wrong with each."""
    for name, session in sessions(folder):
        plain = session.play()
        settings = [{"FAIL_READ": n} for n in range(1, plain.reads + 1)] + [
            {"FAIL_WRITE": n} for n in range(1, plain.writes + 1)
        ]
        whole = b"".join(plain.replies)
        yield from pool.map(lambda setting: fails(name, session, whole, setting), settings)


def shell(tried_line):
    """What is wrong with a line of a shell, if anything."""
    with tempfile.TemporaryDirectory(prefix="ghcdb-shell-") as folder:
        (Path(folder) / "loop.ghc").write_text(LOOP)
        (Path(folder) / "append.ghc").write_bytes((EXAMPLES / "append.ghc").read_bytes())
        environment = os.environ | {"ghcdb": str(PROGRAM)}
        try:
            run = subprocess.run(
                ["bash", "-c", tried_line.line],
                stdin=subprocess.DEVNULL, capture_output=True, text=True, cwd=folder, env=environment, timeout=SECONDS,
            )
        except subprocess.TimeoutExpired:
            return f"{tried_line.what}: it ran for {SECONDS} seconds"
    if (run.stdout, run.stderr, run.returncode) == (tried_line.output, tried_line.errors, tried_line.status):
        return None
    return f"{tried_line.what}: {run.stdout[-200:]!r} {run.stderr[-200:]!r} {run.returncode}"


def devices(folder):
    """How many calls and lines of a shell went well, and how many did not."""
    with ThreadPoolExecutor(os.cpu_count()) as pool:
        judged = [*calls(folder, pool), *pool.map(shell, SHELLS)]
    wrong = [found for found in judged if found]
    print("".join(f"failed: {found}\n" for found in wrong), end="")
    return len(judged) - len(wrong), len(wrong)


if __name__ == "__main__":
    sys.exit(tried("devices", devices))
