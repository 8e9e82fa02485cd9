#!/usr/bin/env python3
"""Checks the diagrams of docs/audit/DIAGRAMS.md against the definitions and laws of the sources, and the calls of setters.

    tests/docs/diagrams.py [TOP]

The widths of the fields in each diagram must be those of the definition `diagram` of its module. Each field must have a row
in `write_of`, unless its name says that it is reserved. Each setter of the view must be a row too, and both laws of the view
must call what their rows name. The lines `set` of tests/frames/field_lines.py must have one for each setter. What differs is
printed, and the status is 1 then. TOP is the top of the repository.
"""
import os
import re
import sys

import drawings

sys.path.append(os.path.join(os.path.dirname(os.path.abspath(__file__)), "../frames"))
import field_lines  # noqa: E402

SET_LINES = "\n".join(field_lines.calls()["set"])
RESERVED = {"0", "Res", "Rsrvd", "Reserved"}
# The heading of a diagram, its module, the files of its setters, how many of the drawn fields the view leaves out in front, and
# the view's word in these lines, if it has one.
VIEWS = [
    ("Ethernet II", "wire_ethernet", "Ethernet", ["ethernet.rt"], 0, "eth"),
    ("ARP", "wire_arp", "Arp", ["arp/packet_mut.rt"], 0, "arp"),
    ("IPv4", "wire_ipv4", "Ipv4", ["ipv4/packet_mut.rt", "ipv4/update.rt"], 0, "ipv4"),
    ("IPv6", "wire_ipv6", "Ipv6", ["ipv6/packet_mut.rt"], 0, "ipv6"),
    ("IPv6 fragment header", "wire_ipv6", "Ipv6Fragment", ["ipv6fragment/header_mut.rt"], 2, "frag"),
    ("UDP", "wire_udp", "Udp", ["udp/packet_mut.rt", "udp/update.rt"], 0, "udp"),
    ("TCP", "wire_tcp", "Tcp", ["tcp/packet_mut.rt", "tcp/update.rt"], 0, "tcp"),
    ("ICMP", "wire_icmp", "Icmp", ["icmp/packet_mut.rt"], 0, None),
]


def read(path):
    with open(path, encoding="utf-8") as file:
        return file.read()


def snake(name):
    return re.sub(r"(?<!^)([A-Z])", r"_\1", name).lower()


def differences(heading, crate, name, files, front, word, drawn):
    """What the module, the setters, the laws and the calls of a view have otherwise than the drawn fields, or than each other."""
    path = f"crates/{crate}/specs/{name}Fields.antt"
    if not os.path.exists(path):
        yield f"{heading}: there is no {path}"
        return
    specs = read(path)
    laws = read(f"crates/{crate}/src/laws.rt")
    drawn = drawn[front:]
    listed = [int(width) for width in re.search(r"^diagram = ([\d ∷]+)", specs, re.M)[1].split(" ∷ ") if width.strip()]
    if [width for _, width in drawn] != listed:
        yield f"{heading}: the drawing has the fields {drawn}, the definition the widths {listed}"
    rows = re.findall(r"^write_of \(?set\.(\w+).*= \((\d+), ", specs, re.M)
    unnamed = [field for place, (field, _) in enumerate(drawn) if str(place) not in [place for _, place in rows]]
    yield from (f"{heading}: no row of write_of has the field {field!r}" for field in unnamed if field not in RESERVED)
    source = "".join(read(f"crates/{crate}/src/{file}") for file in files)
    calls = set(re.findall(r"pub fn ((?:set|clear|fill|update)_\w+)\(&mut self", source))
    yield from (f"{heading}: no line calls {call}" for call in sorted(calls) if word and f"set {word} {call} " not in SET_LINES)
    setters = {call[len("set_") :] for call in calls if call.startswith("set_")}
    written = {snake(row) for row, _ in rows}
    yield from (f"{heading}: the law has no row for set_{setter}" for setter in sorted(setters - written))
    getters = {snake(row) for row in re.findall(r"^(?:read_of|address_of) \w+\.(\w+)", specs, re.M)}
    yield from (f"{heading}: no getter is compared with {row}" for row in sorted(written & setters - getters))
    for call in sorted({f"set_{row}" for row in written & setters} | getters):
        if f".{call}(" not in laws:
            yield f"{heading}: no law calls {call}"


def main(top):
    os.chdir(top)
    fields = drawings.read(".")
    wrong = [f"there is no drawing of {view[0]}" for view in VIEWS if view[0] not in fields]
    for view in VIEWS:
        wrong += differences(*view, fields.get(view[0], []))
    print("".join(f"docs/audit/DIAGRAMS.md: {line}\n" for line in wrong), end="")
    return 1 if wrong else 0


if __name__ == "__main__":
    sys.exit(main(sys.argv[1] if len(sys.argv) > 1 else os.path.dirname(os.path.dirname(os.path.dirname(os.path.abspath(__file__))))))
