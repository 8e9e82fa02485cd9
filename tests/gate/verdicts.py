#!/usr/bin/env python3
"""Prints the verdicts of the last gate: what it said of each crate, and of the tests of that crate.

If there are none for the crates as they are now, or a crate was not proved, it prints one line, and its status is 1.
"""
import re
import sys

import proved

LOG = proved.TOP / "out" / "test.log"
SECTION = re.compile(r"== (\w+)")
# The end of a section, or a crate that an earlier gate proved.
SAID = re.compile(r"rt: (\w+)(?:: its tests are)? (proved|NOT PROVED|is kept)\b")
KEPT_LINES = ("empty contracts", "axioms", "logic=")
HEAD = """The verdicts of the gate `rt ci` on these sources, by {kit}.

Each crate has a sum of its sources (`source_sum_of` in tests/gate/proved.py), and these lines of the gate's log:
- logic=proved: the prover checked a proof of each function, over the statements of the crates below. What has =trusted
  is not proved here: the logic and the libraries, which were proved before and loaded.
- empty contracts: the number of functions for which the prover found that no call can meet their conditions.
- axioms: the number of functions in C whose contracts are assumed.
- is kept: an earlier gate on the same machine proved the same sources.
Last line of the gate: {last}
"""


def fail(message):
    sys.exit(f"make dist: {message}")


def verdicts(lines):
    """The lines for each crate, and the crates that were not proved."""
    told, section, failed = {}, [], set()
    for line in lines:
        said = SAID.match(line)
        if SECTION.match(line):
            section = []
        elif line.startswith(KEPT_LINES):
            section.append(line)
        elif said and said[1] in proved.crates():
            told.setdefault(said[1], []).extend([*section, line])
            section = []
            if said[2] == "NOT PROVED":
                failed.add(said[1])
    return told, [name for name in proved.crates() if name in failed or name not in told and name not in proved.APART]


def main():
    changed = proved.changed()
    if changed is None or not LOG.exists():
        fail("there are no verdicts, so make test comes first")
    if changed:
        fail(f"since make test these crates have changed: {', '.join(changed)}")
    lines = LOG.read_text(encoding="utf-8", errors="replace").splitlines()
    told, unproved = verdicts(lines)
    if unproved:
        fail(f"make test did not prove {', '.join(unproved)}")
    print(HEAD.format(kit=proved.kit_version(), last=lines[-1]), end="")
    for name, found in told.items():
        print(f"\n{name}\n    sources {proved.source_sum_of(name)}")
        print("".join(f"    {line}\n" for line in found), end="")


if __name__ == "__main__":
    main()
