"""What the line "Pinned by:" below the head of a module of definitions names: what its definitions were compared with outside.

Rows and models whose values come from RFCs, captures, smoltcp or are written by hand. The laws that name a definition pin it
too, and the reference lists them.
"""
import re

MARK = "Pinned by: "
# The pattern of the paths of each kind of pin. `NAMEWorked` and `NAMEOnce` are theorems: about worked bytes, and that there is
# only one such value.
PATHS = {
    "wire": "crates/test_wire/src/tests/{}.rt",
    "apps": "crates/test_apps/src/tests/{}.rt",
    "fragments": "crates/test_fragments/src/tests/{}.rt",
    "tcp": "crates/test_tcp/src/tests/tcp/{}.rt",
    "connection": "crates/test_tcp/src/tests/connection/{}.rt",
    "congestion": "crates/test_tcp/src/tests/congestion/{}.rt",
    "options": "crates/test_tcp/src/tests/options/{}.rt",
    "socket": "crates/test_tcp/src/tests/socket/{}.rt",
    "promises": "crates/promises/src/{}.rt",
    "cases": "tests/data/cases/{}.hex",
    "calls": "tests/data/calls/{}.call",
    "tests": "tests/{}",
    "worked": "tests/judge/worked_{}.c",
    "devices": "crates/ip_frames/src/tests/devices.rt",
    "example.c": "c/example.c",
    "judge": "tests/judge/run",
}


def pins_of(docs):
    """The names in the lines of a comment that begin with the mark, and the other lines."""
    pins = [name for line in docs if line.startswith(MARK) for name in re.findall(r"`([^`]+)`", line)]
    return pins, [line for line in docs if not line.startswith(MARK)]


def path_of(pin):
    """The pattern of the paths of a pin."""
    kind, _, name = pin.partition("/")
    return PATHS[kind].format(name) if kind in PATHS else f"crates/*/proofs/{pin}.antt"
