#!/usr/bin/env python3
"""The kernel's side of tests/kernel, for what one host or link must not do to others through programs/router.c and nat.c.

tests/kernel/edges.py ROUTER CLOCK

CLOCK is a fast clock to be preloaded. The status is 1 if something was wrong.
"""
import os
import socket
import subprocess
import sys
import time

import icmp
import packets
from client import check, report
from fragments import FAR_LEFT, FAR_RIGHT, cut, framed
from links import ELSEWHERE, SELF, Namespace, WideSide, settle
from routed_frames import HARDWARE
from router import OF_TAPS, start_on_pairs, start_on_taps
from waits import until

ONE_ADDRESS = OF_TAPS.replace(HARDWARE["right"].hex(":"), HARDWARE["left"].hex(":"))
UDP, MOST_ERRORS, OF_ONE = 17, 50, 10
FRAMES, LENGTH = 600, 1400  # the kernel's default has room for about 90 frames


def errors_at(side, kind, hardware):
    side.take(0.02)
    return [frame for frame in side.came_out if frame[6:12] == hardware and icmp.is_error(frame) and (frame[34], frame[35]) == kind]


def told(side):
    """The hosts that are told that a packet was too big."""
    return [frame[30:34] for frame in errors_at(side, (3, 4), HARDWARE["left"])]


def one_ethernet_address(program, clock):
    """Both interfaces have one Ethernet address: an error about fragments leaves by that of the fragments."""
    room, there = Namespace(), Namespace()
    fast = {"LD_PRELOAD": clock, "FAST_CLOCK": "100", "ASAN_OPTIONS": "verify_asan_link_order=0"}
    router = start_on_taps(room, there, program, ONE_ADDRESS, env={**os.environ, **fast})
    sides = {"left": WideSide(SELF, "left"), "right": WideSide(there.process, "right")}
    for name, src, own in (("right", FAR_RIGHT, "10.2.0.1"), ("left", FAR_LEFT, "10.1.0.1")):
        for side in sides.values():
            side.forget()
        header = packets.header(0, protocol=UDP, src=src, dst=socket.inet_aton(own), ident=5, flags=0)
        sides[name].sock.send(framed(cut(header, bytes(3000), 1480), HARDWARE["left"])[0])
        is_told = until(lambda: errors_at(sides[name], (11, 1), HARDWARE["left"]))
        others = [other for other in sides if other != name and errors_at(sides[other], (11, 1), HARDWARE["left"])]
        check("time exceeded of one of two with an address", is_told and not others, (name, others))
        # The other fragment comes by the same interface, and the packet is whole: the router answers it.
        for side in sides.values():
            side.forget()
        header = packets.header(0, protocol=1, src=src, dst=socket.inet_aton(own), ident=6, flags=0)
        for frame in framed(cut(header, icmp.echo_request(src, socket.inet_aton(own), 1, 2, bytes(2000)), 1480), HARDWARE["left"]):
            sides[name].sock.send(frame)
        is_answered = until(lambda: sides[name].take(0.02) and any(
            frame.startswith(ELSEWHERE) and frame[23] == 1 for frame in sides[name].came_out))
        check("ping of one of two with an address", is_answered, name)
    router.ends("with one Ethernet address")


def too_big_beside_others(program):
    """A host whose packets expire, or are too big, does not keep another one from the errors of path MTU discovery."""
    room, there = Namespace(), Namespace()
    router = start_on_pairs(room, there, program)
    side = WideSide(SELF, "left")
    room.run("ip link set right mtu 1300")
    wide = packets.packet(packets.udp(bytes(LENGTH), src=FAR_LEFT, dst=FAR_RIGHT), protocol=UDP, src=FAR_LEFT, dst=FAR_RIGHT)
    wide = HARDWARE["left"] + ELSEWHERE + wide[12:]
    # It reads the MTU once a second.
    until(lambda: side.sock.send(wide) and errors_at(side, (3, 4), HARDWARE["left"]))
    time.sleep(1)
    settle(side)
    side.forget()
    short = packets.packet(packets.udp(b"", src=FAR_LEFT, dst=FAR_RIGHT), protocol=UDP, src=FAR_LEFT, dst=FAR_RIGHT, hop_limit=1)
    for _ in range(20 * MOST_ERRORS):
        side.sock.send(HARDWARE["left"] + ELSEWHERE + short[12:])
    # A busy kernel loses frames of a flood.
    is_told = until(lambda: side.sock.send(wide) and errors_at(side, (3, 4), HARDWARE["left"]))
    expired = len(errors_at(side, (11, 0), HARDWARE["left"]))
    check("too big beside other errors", is_told and MOST_ERRORS <= expired < 20 * MOST_ERRORS, expired)
    time.sleep(2)
    side.forget()
    other = FAR_LEFT[:3] + bytes([FAR_LEFT[3] + 1])
    last = packets.packet(packets.udp(bytes(LENGTH), src=other, dst=FAR_RIGHT), protocol=UDP, src=other, dst=FAR_RIGHT)
    for _ in range(20 * MOST_ERRORS):
        side.sock.send(wide)
    is_told = until(lambda: side.sock.send(HARDWARE["left"] + ELSEWHERE + last[12:]) and other in told(side))
    found = told(side).count(FAR_LEFT)
    check("too big beside that of another host", is_told and OF_ONE <= found < 20 * MOST_ERRORS, found)
    router.ends("with errors above the limit")


def slow_link(program):
    """Frames wait in the queue of a slow link, and are not lost before it is full."""
    room, there = Namespace(), Namespace()
    router = start_on_pairs(room, there, program)
    left, right = WideSide(SELF, "left"), WideSide(there.process, "right")
    shape = "tc qdisc add dev right root tbf rate 20mbit burst 10kb limit 10mb 2> /dev/null"
    if subprocess.run(["nsenter", "--target", room.process, "--net", "sh", "-c", shape], check=False).returncode != 0:
        print("tests/kernel: skipped: a slow link: tc cannot make one")
        return
    frame = packets.packet(packets.udp(bytes(LENGTH), src=FAR_LEFT, dst=FAR_RIGHT), protocol=UDP, src=FAR_LEFT, dst=FAR_RIGHT)
    for _ in range(FRAMES):
        left.sock.send(HARDWARE["left"] + ELSEWHERE + frame[12:])
    settle(left)
    until(lambda: right.take(0.02) and sum(len(one) > LENGTH for one in right.came_out) >= FRAMES, 20)
    found, counters = sum(len(one) > LENGTH for one in right.came_out), router.counters()
    check("frames over a slow link", found == FRAMES and counters["right lost"] == 0, (found, counters))
    router.ends("with a slow link")


def edges(program, clock):
    one_ethernet_address(program, clock)
    too_big_beside_others(program)
    slow_link(program)


if __name__ == "__main__":
    sys.exit(report("edges", edges, *sys.argv[1:]))
