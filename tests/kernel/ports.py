#!/usr/bin/env python3
"""The ports of programs/nat.c, on TAP devices: those that two inside addresses want, and those that are forwarded.

tests/kernel/ports.py NAT CLOCK    a clock to be preloaded, which goes slowly, so that no mapping ends
"""
import os
import socket
import subprocess
import sys

import packets
from client import check, report
from links import ELSEWHERE, settle
from nat import INSIDE, OUTSIDE, start_on_taps
from operation import comes_out, frame_from_left, on_taps, send_from
from routed_frames import HARDWARE
from waits import Clock, until

FLOWS = 20_000


def shared_ports(program, clock):
    """Ports that one inside address uses, most of all, and another one wants: it gets others, until all are taken."""
    with clock.slowly(), on_taps(start_on_taps, program, options=("-m", "60000"), env=clock.env) as (nat, sides):
        for source, count in ((INSIDE[0], 60000), (INSIDE[1], 4512)):
            found = send_from(nat, sides, (frame_from_left(port=1024 + n, source=source) for n in range(count)))
            check("ports that two addresses want", found == (count, 0), (source, found))
        refused_flows(nat, sides)


def processor_time(nat):
    """Seconds."""
    with open(f"/proc/{nat.process.pid}/stat", encoding="ascii") as file:
        fields = file.read().rpartition(")")[2].split()
    return (int(fields[11]) + int(fields[12])) / os.sysconf("SC_CLK_TCK")


def refused_flows(nat, sides):
    """New flows while no port is free take little time: a search of all mappings for each of them takes 3 s. Those that have
    a port keep it, and other protocols have theirs."""
    before, begin = nat.counters(), processor_time(nat)
    for at in range(0, FLOWS, 200):
        for n in range(200):
            sides["left"].sock.send(frame_from_left(port=1024 + (at + n) % 60000, source=INSIDE[1][:-1] + str(100 + at % 50)))
        until(lambda: nat.counters().get("LK_NO_FREE_PORT", 0) - before.get("LK_NO_FREE_PORT", 0) >= at + 200)
    took, after = processor_time(nat) - begin, nat.counters()
    check("flows without a port", after["LK_NO_FREE_PORT"] - before.get("LK_NO_FREE_PORT", 0) == FLOWS, after)
    check("time of flows without a port", took < 1.2, took)
    for port, source, kind in ((1024, INSIDE[0], "UDP"), (5535, INSIDE[1], "UDP"), (9999, INSIDE[1], "TCP")):
        check("flows beside those", comes_out(sides, port=port, source=source, kind=kind), (port, source, kind))


def forwarded_ports(program):
    """Ports outside that lead to a host that has sent nothing, and are no other host's."""
    options = tuple(word for kind, addr in (("udp", INSIDE[0]), ("tcp", INSIDE[1])) for word in ("-f", f"{kind}:{addr}:5000"))
    with on_taps(start_on_taps, program, options=options) as (nat, sides):
        for kind, addr in (("UDP", INSIDE[0]), ("TCP", INSIDE[1])):
            for port, is_forwarded in ((5000, True), (5001, False)):
                ends = {"src": socket.inet_aton("198.18.0.1"), "dst": socket.inet_aton(OUTSIDE)}
                body = (packets.udp(b"", 4000, port, **ends) if kind == "UDP" else
                        packets.tcp(b"", src_port=4000, dst_port=port, flags=2, **ends))
                frame = packets.packet(body, protocol={"UDP": 17, "TCP": 6}[kind], **ends)
                for side in sides.values():
                    side.forget()
                sides["right"].sock.send(HARDWARE["right"] + ELSEWHERE + frame[12:])
                settle(*sides.values())
                found = [came[30:34] for came in sides["left"].came_out if came[36:38] == port.to_bytes(2, "big")]
                check("forwarded ports", found == [socket.inet_aton(addr)] * is_forwarded, (kind, port, found))
        check("a port that is forwarded", comes_out(sides, port=5000, source=INSIDE[1]))
        ports = {frame[34:36] for frame in sides["right"].came_out if frame.startswith(ELSEWHERE)}
        check("a port that is forwarded", len(ports) == 1 and ports != {(5000).to_bytes(2, "big")}, ports)
    status = subprocess.run([program, "-f", "udp:10.1.0.2:80", "FILE", "tap:a", "tap:b"], stderr=subprocess.DEVNULL, check=False)
    check("a port that is not forwarded", status.returncode == 2, status)


def all_ports(program, library):
    shared_ports(program, Clock(library, program))
    forwarded_ports(program)


if __name__ == "__main__":
    sys.exit(report("ports", all_ports, *sys.argv[1:]))
