#!/usr/bin/env python3
"""The kernel's side of tests/kernel, for routes of programs/router.c that change, and packets from elsewhere.

tests/kernel/routes.py PROGRAM CLOCK

CLOCK is a clock to be preloaded, which goes slowly while packets wait for a neighbour. Prints how many exchanges were right. The status is 1 if one was wrong.
"""
import contextlib
import signal
import socket
import sys
import time

import packets
from client import check, report
from links import ELSEWHERE, settle
from operation import on_taps
from router import MODEL, OF_TAPS, compare_counters, random_frames, start_on_taps
from routed_frames import HARDWARE, HOSTS, RANDOM_FRAMES
from waits import LATEST, Clock, until

# The most packets that wait for a neighbour, and the most frames that the router reads at once.
MOST_HELD, AT_ONCE = 64, 64


def udp_frame(name, source, target, port):
    """A UDP packet to the router, from this port."""
    family, carry = (socket.AF_INET6, packets.in_ipv6) if ":" in source else (socket.AF_INET, packets.in_ipv4)
    ends = {"src": socket.inet_pton(family, source), "dst": socket.inet_pton(family, target)}
    return HARDWARE[name] + ELSEWHERE + carry(packets.udp(b"", port, 9, **ends), **ends)[12:]


def ports_from(side, count, wait=LATEST):
    """The ports of the UDP packets that come out to the next hop on a side, once there are so many."""
    end, found = time.monotonic() + wait, []
    while len(found) < count and time.monotonic() < end:
        with contextlib.suppress(OSError):  # the router has ended, and the device with it
            side.take(0.05)
        found = [int.from_bytes(frame[at : at + 2], "big") for frame in side.came_out if frame.startswith(ELSEWHERE)
                 for at in [34 if frame[12] == 8 else 54]]
    return found


# ---- a route that changes


def held_frames(router, sides):
    """Sends as many packets as may wait for the neighbour 10.2.0.77, and returns their ports when the router has them all."""
    ports, before = list(range(1000, 1000 + MOST_HELD)), router.counters()["frames"]
    for port in ports:
        sides["left"].sock.send(udp_frame("left", "10.1.0.2", "10.60.0.1", port))
    until(lambda: router.counters()["frames"] >= before + MOST_HELD)
    settle(*sides.values())
    check("packets that wait", ports_from(sides["left"], 1, 0.1) == ports_from(sides["right"], 1, 0.1) == [])
    return ports


def send_at_once(router, side):
    """Sends the neighbour's reply among as many other packets as the router reads at once, and returns the ports of those."""
    ports = list(range(2000, 2000 + AT_ONCE - 1))
    frames = [udp_frame("right", "10.2.0.2", "203.0.113.7", port) for port in ports]
    reply = packets.arp(2, sha=HOSTS["right"], spa=socket.inet_aton("10.2.0.77"), tha=HARDWARE["right"], tpa=socket.inet_aton("10.2.0.1"))
    frames.insert(AT_ONCE // 2, packets.ethernet(packets.ARP, reply, HARDWARE["right"], HOSTS["right"]))
    router.process.send_signal(signal.SIGSTOP)
    for frame in frames:
        side.sock.send(frame)
    router.process.send_signal(signal.SIGCONT)
    return ports


def moved_routes(program, clock):
    """SIGHUP moves the route of packets that wait for a neighbour. They leave by the new one once the neighbour has replied,
    by an interface whose queue has half of the other packets then."""
    before, after = (OF_TAPS + f"route 10.60.0.0/16 via {hop} dev {name}\n" for hop, name in (("10.2.0.77", "right"), ("10.1.0.9", "left")))
    with on_taps(start_on_taps, program, config=before, env=clock.env) as (router, sides), clock.slowly():
        held = held_frames(router, sides)
        router.has_again(after)
        check("SIGHUP", router.waits_for("read again"), router.messages())
        settle(*sides.values())
        others = send_at_once(router, sides["right"])
        found = ports_from(sides["left"], len(held + others))
        check("packets that waited", [port for port in found if port < 2000] == held, found)
        check("packets beside them", [port for port in found if port >= 2000] == others, found)


# ---- sources


# Of packets from the left with -n: the source, and why such a packet is dropped.
SOURCES = (
    ("10.1.0.2", None), ("10.2.0.2", None), ("198.18.0.7", None), ("192.0.2.1", None), ("10.1.0.254", None), ("fd01::2", None),
    ("fd02::2", None), ("2001:db8::7", None), ("3ffe::1", None),
    # addresses of the router
    *((addr, "LK_OTHER_INTERFACE") for addr in ("10.1.0.1", "10.2.0.1", "10.5.0.1", "fd01::1", "fd02::1", "fd05::1")),
    # broadcasts of its links (RFC 1812, sections 4.2.2.11 and 5.3.7)
    *((addr, "LK_OTHER_INTERFACE") for addr in ("10.1.0.0", "10.1.0.255", "10.2.0.0", "10.2.0.255", "10.5.0.255")),
    # no link has them
    *((addr, "LK_MARTIAN") for addr in ("0.0.0.1", "127.0.0.1", "224.0.0.9", "240.0.0.1", "255.255.255.255", "::", "::1", "ff05::9")),
)


def sources(program):
    """With -n a packet may come from elsewhere, but not from an address that no host has."""
    with on_taps(start_on_taps, program, options=("-n",)) as (router, sides):
        before = router.counters()
        for port, (source, _) in enumerate(SOURCES, 1):
            sides["left"].sock.send(udp_frame("left", source, "2001:db8::1" if ":" in source else "198.18.0.1", port))
        expected = [port for port, (_, why) in enumerate(SOURCES, 1) if why is None]
        compare_counters(router, before, [why for _, why in SOURCES if why])
        found = ports_from(sides["right"], len(expected))
        check("sources", found == expected, [SOURCES[port - 1] for port in {*found} ^ {*expected}])
        random_frames(router, sides, RANDOM_FRAMES // 4, MODEL.but(takes_any_way=True))


def all_routes(program, library):
    moved_routes(program, Clock(library, program))
    sources(program)


if __name__ == "__main__":
    sys.exit(report("routes", all_routes, *sys.argv[1:]))
