"""Plays sessions by so many workers, for tests/workers.py, tests/slices.py and real_workers.py."""
import os
import subprocess
from zlib import crc32

from lib.judged_runs import Wrong
from lib.program import PROGRAM
from lib.refusing import SECONDS

# A line that is no command, whose reply tells where the one before it ends.
END, ENDED = "?", "F25 command\n"


def words_of(folder, case, workers):
    """The words by which the program is started on a case, whose program text is written into the folder."""
    (folder / "program.ghc").write_text(case.program)
    words = [PROGRAM, str(folder / "program.ghc"), "--query", case.query]
    return words if workers == 1 else [*words, "--workers", str(workers)]


def environment_of(folder, name, workers):
    """The environment in which several workers are made to overlap: that which is there, with the library of
    tests/refuse.c, where it lies beside the folder. How long they pause depends on the name."""
    library = folder.parent / "refuse.so"
    if workers == 1 or not library.exists():
        return os.environ.copy()
    return os.environ | {"LD_PRELOAD": str(library), "PAUSE_SEED": str(crc32(name.encode()))}


def play(folder, case, lines, workers, history=None, settings=None):
    """The replies to the lines, by so many workers, on the history where there is one. Several workers are made to
    overtake each other, if there is the library for that, under these settings of tests/refuse.c."""
    words = words_of(folder, case, workers)
    if history is not None:
        (folder / "run.history").write_text(history)
        words += ["--load", str(folder / "run.history")]
    given = "".join(f"{line}\n{END}\n" for line in lines)
    environment = environment_of(folder, case.name, workers) | (settings or {})
    try:
        ended = subprocess.run(words, input=given, capture_output=True, text=True, env=environment, timeout=SECONDS)
    except subprocess.TimeoutExpired:
        raise Wrong(f"it took more than {SECONDS} seconds") from None
    *replies, rest = ended.stdout.split(ENDED)
    if (ended.returncode, ended.stderr, rest, len(replies)) != (0, "", "", len(lines)):
        raise Wrong(
            f"it ended with {ended.returncode}, {ended.stderr!r} and {rest!r}, behind {len(replies)} of {len(lines)} replies"
        )
    return replies
