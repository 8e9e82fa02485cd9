#!/usr/bin/env python3
"""Checks the comments of the definitions in crates/*/specs.

    tests/docs/definitions.py [TOP]

Each definition must have a comment directly above it, and what a module of definitions names as its pins (tools/pins.py) must
exist. Record `Steps` of c_socket must state what `step` of app_socket ensures. What is missing is printed, and the status is 1
then. TOP is the top of the repository.
"""
import glob
import os
import re
import sys

TOP = os.path.dirname(os.path.dirname(os.path.dirname(os.path.abspath(__file__))))
sys.path.append(os.path.join(TOP, "tools"))
from pins import path_of, pins_of  # noqa: E402
from sources import Sources  # noqa: E402


# How the record names what the contract does.
NAMES = {"self.old": "old", "self.new": "new", "outgoing.now": "outgoing", "incoming.old": "before", "incoming.new": "after", "event.entry": "e", "result": "given"}


def faults_of_steps(crates):
    """What one of `step` of app_socket and record `Steps` of c_socket states, and the other one does not."""
    blocks = crates["app_socket"].modules[("step",)].items
    step = next(function for block in blocks for function in block.items if function.name == "step")
    record = next(it for it in crates["c_socket"].specs[("Calls",)].items if it.name == "Steps")
    pattern = re.compile("|".join(map(re.escape, NAMES)))
    ensured = {pattern.sub(lambda name: NAMES[name[0]], clause.text) for clause in step.clauses if clause.kind == "ensures"}
    stated = {line.partition(" : ")[2] for line in record.lines[1:]}
    yield from (f"crates/c_socket/specs/Calls.antt: Steps does not state: {text}" for text in sorted(ensured - stated))
    yield from (f"crates/c_socket/specs/Calls.antt: step does not ensure: {text}" for text in sorted(stated - ensured))


def faults():
    crates = Sources(".").crates
    yield from faults_of_steps(crates)
    for crate in crates.values():
        for module in crate.specs.values():
            pins, _ = pins_of(module.docs)
            yield from (f"{module.file}: there is no {pin}" for pin in pins if not glob.glob(path_of(pin)))
            for definition in module.items:
                if not definition.docs and not re.search(r"\bmod\b|\binfix", definition.kind):
                    yield f"{module.file}: {definition.name} has no comment"


def main(top):
    os.chdir(top)
    found = list(faults())
    print("".join(fault + "\n" for fault in found), end="")
    return 1 if found else 0


if __name__ == "__main__":
    sys.exit(main(sys.argv[1] if len(sys.argv) > 1 else TOP))
