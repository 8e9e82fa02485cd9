#!/usr/bin/env python3
"""Checks the table of RFCs, tests/data/rfc.txt, and makes docs/RFC.md of it: tests/docs/rfc.py [--write]

Each statement and test that a row names must exist, as in docs/audit/REQUIREMENTS.md. A row that is met or tested names one,
and each other row says why. docs/RFC.md must be what --write makes. What is wrong is printed, and the status is 1 then.
"""
import os
import re
import sys

from requirements import Sources, Statements, expanded, is_test, read

TOP = os.path.dirname(os.path.dirname(os.path.dirname(os.path.abspath(__file__))))
TABLE, PAGE = "tests/data/rfc.txt", "docs/RFC.md"
STATES = "met", "tested", "caller", "deviates", "not supported"
LEVELS = "", "MUST", "SHOULD", "MAY"
HEAD = """# Conformance to RFCs

This page is for people who want to know whether the code conforms to RFCs, and where it deviates.
`tests/docs/rfc.py --write` makes it of `tests/data/rfc.txt`, and `make test` checks that each named statement and test
exists. People read the RFCs: that a row says what its RFC asks for is not checked. Not every requirement of these RFCs
has a row.

| State | Meaning |
|---|---|
| met | The named statements are proved, or the named tests show it. |
| tested | A program of `programs/` does it. It is only tested. |
| caller | The program that calls the library has to do it. |
| deviates | The code does something else, for the reason that the row gives. |
| not supported | The code does not do it. |

The level is the word of the RFC, which RFC 8200 writes in small letters. Rows without one are of RFCs that have no such
words, or are no requirement of that kind.
[REQUIREMENTS.md](audit/REQUIREMENTS.md) says how statements and tests are named.
"""


def tables(text):
    """The tables: pairs of a heading and rows with their line numbers. The last one is the list of the others."""
    found = []
    for number, line in enumerate(text.split("\n"), 1):
        if line.startswith("RFC ") or line == "cited":
            found.append((line, []))
        elif line and not line.startswith("#"):
            found[-1][1].append((number, [cell.strip() for cell in line.split("|")]))
    return found


def row_faults(cells, statements):
    """What is wrong in a row of a table."""
    if len(cells) != 6:
        yield f"{len(cells)} cells instead of 6"
        return
    _, level, _, state, why, names = cells
    if level not in LEVELS or state not in STATES:
        yield f"no level or state: {level}, {state}"
    named = [name for span in re.findall(r"`([^`]+)`", names) for name in expanded(span)]
    if state in ("met", "tested") and not named:
        yield "no statement and no test"
    if state in ("tested", "deviates") and not why:
        yield "no reason"
    yield from (f"there is no statement or test {name}" for name in named if not statements.has(name) and not is_test(name))


def page_of(found):
    out = [HEAD]
    for heading, rows in found[:-1]:
        out.append(f"## {heading}\n\n| Section | Level | Requirement | State | Statements and tests |\n|---|---|---|---|---|")
        for _, (section, level, what, state, why, names) in rows:
            out.append(f"| {section} | {level} | {what} | {state + (': ' if why else '') + why} | {names} |")
        out.append("")
    out.append("## Other RFCs\n\n| RFC | What of it is used |\n|---|---|")
    out += [f"| {numbers} | {what} |" for _, (numbers, what) in found[-1][1]]
    return "\n".join(out) + "\n"


def main(words):
    os.chdir(TOP)
    found, statements = tables(read(TABLE)), Statements(Sources("."))
    faults = [f"{TABLE}:{number}: {fault}" for _, rows in found[:-1] for number, cells in rows
              for fault in row_faults(cells, statements)]
    if words == ["--write"]:
        with open(PAGE, "w", encoding="utf-8") as file:
            file.write(page_of(found))
    elif not os.path.exists(PAGE) or read(PAGE) != page_of(found):
        faults.append(f"{PAGE} is not what tests/docs/rfc.py --write makes")
    print("".join(fault + "\n" for fault in faults), end="")
    return 1 if faults else 0


if __name__ == "__main__":
    sys.exit(main(sys.argv[1:]))
