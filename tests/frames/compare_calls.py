#!/usr/bin/env python3
"""Feeds generated lines that ask one call each to two programs and shows the first difference.

tests/frames/compare_calls.py PROGRAM SEED LINES REFERENCE [WORD..]

Each seed gives its own lines, the same in each run.
"""

import compare
from call_lines import KINDS
from dice import Random


def corpus(seed, lines):
    rng = Random(seed)
    kinds = list(KINDS.values())
    for kind in rng.choices(kinds, [kind.share for kind in kinds], k=lines):
        yield kind.random(rng).encode(errors="surrogateescape")


if __name__ == "__main__":
    compare.compare("make compare-calls", __doc__, corpus, b"\n")
