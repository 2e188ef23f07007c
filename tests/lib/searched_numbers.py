#!/usr/bin/env python3
"""Makes histories whose step numbers were searched for to crowd a hash table, so that a growth test can load them.

    python3 tests/lib/searched_numbers.py COUNT [RISING|MIXED] > FILE    a history of COUNT steps, whose program and query are below

The steps are those of `loop :- true | loop.` and the query `loop`, one after another. Each number is among those whose
hash, by the hash of numbers or by the kit's own, falls into the first part of a table of COUNT entries: such a table
would be gone through from end to end for each of them. The numbers are always the same. A search takes about a second
for each 40,000 steps.
"""
import random
import sys

PROGRAM = "loop :- true | loop.\n"
QUERY = "loop"

# Which part of the groups of a table the numbers fall into: one in so many.
PART = 32

# The step behind a history must have a number that is not used.
NEXT = 4_294_967_294

MULTIPLIER = 0x9E37_79B9_7F4A_7C15
WORD = (1 << 64) - 1


def hash_of_numbers(number):
    """The hash of a number of a step in a table by numbers."""
    product = number * MULTIPLIER & WORD
    return ((product ^ product >> 32) * MULTIPLIER & WORD) >> 32


def hash_of_kit(number):
    """The hash of a number in a table of the kit that is given no other."""
    product = (0x243F_6A88_85A3_08D3 ^ (number | number << 32)) * (MULTIPLIER ^ 8)
    folded = (product & WORD) ^ (product >> 64)
    return (folded ^ folded >> 32) & 0xFFFF_FFFF


def searched(count, hashed):
    """So many numbers, ascending, whose hashes fall into the first part of a table of so many entries."""
    groups = 1
    while groups * 9 < count:
        groups *= 2
    first = max(1, groups // PART)
    numbers: list[int] = []
    number = 5
    while len(numbers) < count:
        if hashed(number) & groups - 1 < first:
            numbers.append(number)
        number += 1
    return numbers


def history(numbers):
    """The history of a loop whose steps have these numbers, in this order."""
    lines = ["ghc-history 1", f"steps {len(numbers)}"]
    goal = "0.1"
    for number in numbers:
        lines.append(f"{number} {goal} by 1")
        goal = f"{number}.1"
    lines.append(f"end {NEXT}")
    return "\n".join(lines) + "\n"


def searched_history(count=62_500, hashed=hash_of_numbers, mixed=False):
    """The history of so many steps with searched numbers, ascending or mixed."""
    numbers = searched(count, hashed)
    if mixed:
        random.Random(1).shuffle(numbers)
    return history(numbers)


if __name__ == "__main__":
    sys.stdout.write(searched_history(int(sys.argv[1]), mixed="MIXED" in sys.argv[2:]))
