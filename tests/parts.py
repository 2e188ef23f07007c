#!/usr/bin/env python3
"""Tries `part` in sessions made by chance: tests/parts.py [--sessions N] [--first N] [--only NAME]

So many sessions are played, 300 where N is left out, by one worker: those of tests/lib/some_sessions.py. The reply
to `part G` is found anew, for goals that were taken and goals that are there, from nothing but the replies to
`records`, `goals` and `goal N`: by going up from each step to the goals from which its goal descends, and by
following causes from step to step. Each reply has to be that one, byte by byte. The program is the proved one, or
the one that the environment names as GHCDB. The last line is `N passed, M failed`.
"""
import sys

sys.dont_write_bytecode = True
from lib.judged_runs import Wrong
from lib.some_sessions import try_sessions
from lib.told_runs import is_as_told

MOST = 40


def judge(left, chance):
    """Says what is wrong with what `part` tells behind a session, and how many goals were tried."""
    run = left.run
    names = sorted({*run.takers, *run.goals, "0.9", "7.7"})
    names = chance.sample(names, min(MOST, len(names)))
    for name, told in zip(names, left.looked([f"part {it}" for it in names])):
        if not told.startswith("F6") and not is_as_told(run.tells_part(name), told):
            raise Wrong(f"`part {name}` tells {told!r}, and not {run.tells_part(name)!r}")
    return len(names)


if __name__ == "__main__":
    sys.exit(try_sessions(judge, __doc__, 300, "goals"))
