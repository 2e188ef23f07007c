#!/usr/bin/env python3
"""Refuses memory within an undo: tests/undo_requests.py

A session takes 500 steps, which do not depend on each other, and undoes the first. Within that undo the 200th request
for memory and all behind it would be refused: but there are fewer, so it succeeds, and all else is kept. So it is, too,
where goals over the variable that the first bound were asked for in between, for that names a variable of the query,
which no step made. Where there is no C compiler, that is said and nothing is tried. The last line is `N passed, M
failed`, and the status is 1 where one failed.
"""
import sys

sys.dont_write_bytecode = True
from lib.refusing import Session, tried

STEPS, REFUSED = 500, 200
SESSIONS = {"steps": [], "steps with an ask behind them": ["ask X1 = 0, f(X1,X2) = Y"]}


def undoes(folder, between):
    """Whether the undo succeeds, and how often it asks for memory, where some lines stand between the steps and the
    undo."""
    query = ", ".join(f"X{i} = {i}" for i in range(1, STEPS + 1))
    lines = [f"step 0.{i}" for i in range(1, STEPS + 1)] + between + ["undo 1", "show X1", "show X2"]
    undo = STEPS + len(between) + 1
    run = Session(folder, "", query, lines).play(REFUSE_LINE=undo, REFUSE_FROM=REFUSED, REFUSE_TO=10**9)
    return (
        run.replies[undo : undo + 3] == [b"undone 1\n", b"X1 = _0_1\n", b"X2 = 2\n"] and run.status == 0,
        run.requests[undo],
    )


def all_undo(folder):
    """In how many sessions the undo succeeds, and in how many not."""
    passed = 0
    for name, between in SESSIONS.items():
        succeeds, requests = undoes(folder, between)
        passed += succeeds
        print(f"undo_requests: {requests} requests for the undo of the first of {STEPS} {name}")
    return passed, len(SESSIONS) - passed


if __name__ == "__main__":
    sys.exit(tried("undo_requests", all_undo))
