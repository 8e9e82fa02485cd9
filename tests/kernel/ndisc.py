"""Neighbour discovery of programs/router.c, for icmp_tests.py: what it asks, and what it learns."""
import socket
import time

import icmp
from client import UDP, check
from links import settle
from router import compare_lists
from routed_frames import HARDWARE, HOSTS
from waits import until


def solicits(sides):
    """The router asks the group of an absent neighbour three times (RFC 4861, section 7.2.2). `told` sent packets to it."""
    own, target = socket.inet_pton(socket.AF_INET6, "fd02::1"), socket.inet_pton(socket.AF_INET6, "fd02::96")
    group, hardware = icmp.group_of(target)
    request = icmp.solicitation(target, own, group, HARDWARE["right"])
    sides["right"].take()
    found = [frame for frame in sides["right"].came_out if frame[:6] == hardware]
    compare_lists("solicitation", [icmp.framed(request, own, group, HARDWARE["right"], hardware, 255)] * 3, found)


def is_asked(side, host, hardware):
    """Whether the router, which has a packet for a neighbour, asks this Ethernet address for it."""
    with socket.socket(socket.AF_INET6, socket.SOCK_DGRAM) as sock:
        sock.sendto(b"", ("fd02::2", 7))
    side.take(0.05)
    return any(frame[:6] == hardware and frame[20] == icmp.ICMPV6 and (frame[54], frame[62:78]) == (icmp.SOLICITATION, host)
               for frame in side.came_out)


def becomes_stale(sides):
    """An advertisement without O of another Ethernet address does not change a fresh entry, but it is asked for (RFC 4861,
    section 7.2.5)."""
    side, true, false = sides["right"], HOSTS["right"], bytes.fromhex("020000000299")
    own, host = (socket.inet_pton(socket.AF_INET6, text) for text in ("fd02::1", "fd02::2"))

    def is_fresh():
        time.sleep(1.2)  # it may be asked again
        settle(side)
        side.forget()
        return not is_asked(side, host, true)

    check("a fresh neighbour", until(is_fresh))
    side.sock.send(icmp.framed(icmp.advertisement(host, host, own, false, 0), host, own, false, HARDWARE["right"], 255))
    settle(side)
    check("a stale neighbour", until(lambda: is_asked(side, host, true), 20))
    check("its Ethernet address", {frame[:6] for frame in side.came_out if frame[20] == UDP} == {true})


def adverts(sides):
    """What an advertisement changes (RFC 4861, section 7.2.5)."""
    side, true, false = sides["right"], HOSTS["right"], bytes.fromhex("020000000299")
    own, host, nodes = (socket.inet_pton(socket.AF_INET6, text) for text in ("fd02::1", "fd02::2", "ff02::1"))
    for what, hardware, to, flags, hop_limit, expected in (
            ("without O", false, own, 2, 255, true), ("from elsewhere", false, own, 3, 254, true), ("with O", false, own, 3, 255, false),
            ("without O", true, nodes, 0, 255, false), ("to all nodes, with O", true, nodes, 1, 255, true)):
        to_hardware = HARDWARE["right"] if to == own else b"\x33\x33\0\0\0\1"
        side.sock.send(icmp.framed(icmp.advertisement(host, host, to, hardware, flags), host, to, hardware, to_hardware, hop_limit))
        settle(side)
        side.forget()
        with socket.socket(socket.AF_INET6, socket.SOCK_DGRAM) as sock:
            sock.sendto(b"", ("fd02::2", 7))
            until(lambda: side.take(0.05) and any(frame[20] == UDP for frame in side.came_out))
            settle(side)
        found = {frame[:6] for frame in side.came_out if frame[20] == UDP}
        check("advertisement", found == {expected}, (what, found))


def heard(sides):
    """A host that asked is known, and asked itself when a packet is sent to it (RFC 4861, section 7.2.3)."""
    side, hardware = sides["right"], bytes.fromhex("020000000255")
    own, host = (socket.inet_pton(socket.AF_INET6, text) for text in ("fd02::1", "fd02::55"))
    side.sock.send(icmp.framed(icmp.solicitation(own, host, own, hardware), host, own, hardware, HARDWARE["right"], 255))
    settle(side)
    side.forget()
    with socket.socket(socket.AF_INET6, socket.SOCK_DGRAM) as sock:
        sock.sendto(b"", ("fd02::55", 7))
        until(lambda: side.take(0.05) and len([frame for frame in side.came_out if frame[:6] == hardware]) >= 2)
        settle(side)
    found = sorted(frame[20] for frame in side.came_out if frame[:6] == hardware)
    check("a host that asked", found == [UDP, icmp.ICMPV6], found)
