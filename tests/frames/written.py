#!/usr/bin/env python3
"""The calls of ip_calls whose answers are computed by RFCs, without the library and without a reference program.

    tests/frames/written.py check PROGRAM     compares what PROGRAM (ip_calls) answers with the expected answers
    tests/frames/written.py FOLDER [KIND..]   writes FOLDER/KIND.call, the lines, and FOLDER/KIND.txt, the expected answers

The scripts are again_lines.py, class_lines.py, field_lines.py and host_lines.py. The lines are the same in each run. The status is
1 if the program answers a line otherwise, or if a kind has more or fewer lines than LINES.
"""
import itertools
import os
import subprocess
import sys

import again_lines
import class_lines
import field_lines
import host_lines

# The number of lines of each kind, so that none is lost by a mistake in a script.
LINES = {"again": 2018, "class": 3143, "get": 329, "host": 3068, "set": 3391}


def calls():
    """The answer to each line, by kind."""
    found = {kind: answers for script in (again_lines, class_lines, field_lines, host_lines) for kind, answers in script.calls().items()}
    counts = {kind: len(answers) for kind, answers in sorted(found.items())}
    if counts != LINES:
        sys.exit(f"tests/frames/written.py: the scripts write {counts} lines. If this is meant, change LINES, which has {LINES}")
    return found


def text(lines):
    return "".join(f"{line}\n" for line in lines).encode("ascii")


def write(folder, kinds):
    """Writes the lines and the answers of these kinds into a folder."""
    found = calls()
    os.makedirs(folder, exist_ok=True)
    for kind in kinds or found:
        for end, lines in [("call", found[kind]), ("txt", found[kind].values())]:
            with open(f"{folder}/{kind}.{end}", "wb") as file:
                file.write(text(lines))


def fault(program, kind, answers):
    """The first line of a kind that the program answers otherwise, or how it fails; None if there is none."""
    run = subprocess.run([program], input=text(answers), stdout=subprocess.PIPE)
    if run.returncode:
        return f"{kind}: {program} ends with status {run.returncode}"
    if run.stdout == text(answers.values()):
        return None
    rows = itertools.zip_longest([*answers, "the end"], [*answers.values(), ""], run.stdout.decode(errors="replace").split("\n"))
    line, expected, answer = next(row for row in rows if row[1] != row[2])
    return f"{kind}: {line}\n    expected {expected}\n    answered {answer}"


def check(program):
    """Compares the answers of a program. Returns the status."""
    try:
        found = [fault(program, kind, answers) for kind, answers in calls().items()]
    except OSError as error:
        sys.exit(f"tests/frames/written.py: {program} does not run: {error}")
    faults = list(filter(None, found))
    print("".join(f"FAILED: {it}\n" for it in faults), end="")
    print(f"{sum(LINES.values())} lines of {len(LINES)} kinds, {len(faults)} kinds with a wrong answer")
    return bool(faults)


def main():
    words = sys.argv[1:]
    if words[:1] == ["check"] and len(words) == 2:
        sys.exit(check(words[1]))
    if not words or words[0] == "check" or not set(words[1:]) <= LINES.keys():
        sys.exit(__doc__.strip())
    write(words[0], words[1:])


if __name__ == "__main__":
    main()
