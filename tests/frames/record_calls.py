#!/usr/bin/env python3
"""Makes the recorded calls anew: tests/frames/record_calls.py REFERENCE [WORD..]

Writes tests/data/calls/KIND.call, lines that ask one call each, and beside each KIND.txt, what the program
REFERENCE (given the WORDs) answers. The lines are the same in each run.
"""
import sys

from call_lines import HAND_WRITTEN, KINDS
from dice import Random
from record import DATA, record

# How many random lines of each kind are recorded, after those at the edges and before those by hand.
RANDOM_LINES = 300


def lines(name, kind):
    rng = Random(name)
    return dict.fromkeys([*kind.edges(), *(kind.random(rng) for _ in range(RANDOM_LINES)), *HAND_WRITTEN.get(name, [])])


def main():
    if len(sys.argv) < 2:
        sys.exit(__doc__.strip())
    files = {name: "".join(line + "\n" for line in lines(name, kind)).encode(errors="surrogateescape")
             for name, kind in KINDS.items()}
    record(f"{DATA}/calls", "call", files, sys.argv[1:])


if __name__ == "__main__":
    main()
