#!/usr/bin/env python3
"""The kernel's side of tests/kernel, for addresses that another host has.

tests/kernel/claims.py CLOCK ROUTER NAT HOST PROVED_HOST

The kernel has addresses of the programs when they ask for them: then they are not used (RFC 5227, section 2.1.1; RFC 4862,
section 5.4.5). And the hosts ask for their addresses, announce and defend them, and have a link-local one. CLOCK is a clock
to be preloaded, which goes slowly while a program waits for an answer. The status is 1 if something was wrong.
"""
import ipaddress
import os
import signal
import socket
import sys
import time

import icmp
import nat
from bridge import in_namespace
from client import check, report
from links import ELSEWHERE, Namespace, Program, WideSide, ping, settle, udp_echo
from own import ARP, PAIRS, announcement, is_nd, probe, request, sent_by_router
from routed_frames import HARDWARE, HOSTS
from router import CONFIG, compare_lists, make_pairs
from waits import LATEST, Clock, joins_groups, until

LINK = "tap6"
OWN = bytes.fromhex("02000000aa07")
FOUR, SIX, LOCAL = (ipaddress.ip_address(text).packed for text in ("10.83.0.2", "fd83::2", "fe80::ff:fe00:aa07"))
ALL, WORDS = (FOUR, LOCAL, SIX), ["02:00:00:00:aa:07", "10.83.0.2", "fd83::2"]
KERNEL = ("10.83.0.1/24", "fd83::1/64")
# Of the slow clock. Not less: a host asks again after a second of its clock, in case the first answer was lost.
SLOW = 0.1
NOT_USED = "02-00-00-00-02-02 uses the router's address {}, which is not used here\n"


def is_answer(frame):
    """An ARP reply, a solicited advertisement, an ICMP echo reply or an ICMP error."""
    return frame[12:14] == ARP and frame[21] == 2 or is_nd(frame) and frame[54] == icmp.ADVERTISEMENT and frame[58] & 0x40 or (
        frame[12:14] == b"\x08\0" and frame[23] == icmp.ICMP and frame[34] != 8) or (
        frame[12:14] == b"\x86\xdd" and frame[20] == icmp.ICMPV6 and frame[54] in (1, 2, 3, 4, icmp.ECHO_REPLY[6]))


def questions(addr, own, hardware):
    """Frames of a host that wants to reach an address: for its Ethernet address, and a ping."""
    ident, host = 77, bytes([*addr[:-1], 200])
    echo = icmp.framed(icmp.echo_request(host, addr, ident, 1, b"data"), host, addr, hardware, own)
    if len(addr) == 4:
        return [request(host, addr, hardware), echo]
    group, group_hardware = icmp.group_of(addr)
    return [icmp.framed(icmp.solicitation(addr, host, group, hardware), host, group, hardware, group_hardware, 255), echo]


# ---- the router and the NAT


def is_unused(side, name, addr):
    """Nothing that is sent to an address gets an answer."""
    settle(side)
    side.forget()
    for frame in questions(ipaddress.ip_address(addr).packed, HARDWARE[name], ELSEWHERE):
        side.sock.send(frame)
    settle(side)
    time.sleep(0.3)
    found = [frame for frame in side.came_out if frame[6:12] == HARDWARE[name] and is_answer(frame)]
    check("no answer for an address of another host", found == [], (addr, [frame.hex() for frame in found]))


def taken(program, clock):
    """Another host has addresses of the router. After that it has them no more, and the file is read again."""
    room, there, others = Namespace(), Namespace(), ("10.2.0.1", "fd02::1")
    make_pairs(room, there)
    there.run("".join(f"ip address add {addr} dev right {'nodad' if ':' in addr else ''}\n" for addr in others))
    joins_groups(there.process)
    side = WideSide(there.process, "right")
    with clock.slowly():
        router = Program(room, program, CONFIG, PAIRS, env=clock.env)
        said = until(lambda: router.messages().count("\n") >= len(others))
    expected = "".join(sorted(f"router: right: {NOT_USED.format(addr)}" for addr in others))
    check("addresses of another host", said and "".join(sorted(router.messages().splitlines(True))) == expected, router.messages())
    time.sleep(2)  # it would announce them now
    own = [ipaddress.ip_address(addr).packed for addr in others]
    compare_lists("probes only", [probe(addr, HARDWARE["right"]) for addr in own], [frame for frame in sent_by_router(side, "right") if frame[0] & 1])
    there.run("".join(f"ip address delete {addr}/{128 if ':' in addr else 32} dev right\n" for addr in others))
    for addr in others:
        is_unused(side, "right", addr)
    check("the other addresses", ping(socket.AF_INET, "10.1.0.1", b"data", 3) and ping(socket.AF_INET6, "fd01::1", b"data", 3))
    side.forget()
    router.has_again(CONFIG)
    again = [step(addr, HARDWARE["right"]) for step in (probe, announcement) for addr in own]
    until(lambda: len(sent_by_router(side, "right")) >= len(again))
    compare_lists("addresses that are free again", again, [frame for frame in sent_by_router(side, "right") if frame[0] & 1])
    with there.entered():
        check("ping of an address that is free again", ping(socket.AF_INET, others[0], b"data", 4))
    router.ends("whose addresses another host had")


def taken_outside(program, clock):
    """Another host outside has the address of the NAT: no packet gets it."""
    room, there = Namespace(), Namespace()
    make_pairs(room, there)
    there.run("ip address add 10.2.0.1 dev right")
    server, side = there.serve("10.2.0.2"), WideSide(there.process, "right")
    of_server = f"neighbour 10.2.0.2 lladdr {HOSTS['right'].hex('-')} dev right\n"
    with clock.slowly():
        router = Program(room, program, nat.CONFIG + of_server, ["packet:right", "packet:left"], env=clock.env)
        check("the outside address", router.waits_for(f"nat: right: {NOT_USED.format('10.2.0.1')}"), router.messages())
    there.run("ip address delete 10.2.0.1/32 dev right")
    side.forget()
    for _ in range(3):
        check("UDP to outside", not isinstance(udp_echo(socket.AF_INET, ("10.2.0.2", 7), b"data", wait=0.3), bytes))
    are_dropped = until(lambda: router.counters().get("address of another host", 0) >= 3)
    settle(side)
    found = [frame for frame in side.came_out if frame[12:14] == b"\x08\0"]
    check("no packet outside", are_dropped and found == [], found)
    server.terminate()
    router.ends("whose outside address another host had")


# ---- hosts


class Host:
    """A host on the TAP device of a namespace in which the kernel has addresses too."""

    def __init__(self, program, clock, *addresses):
        self.room = Namespace()
        self.room.run(f"ip tuntap add {LINK} mode tap && ip link set {LINK} addrgenmode none && ip link set {LINK} up")
        self.room.run("".join(f"ip address add {addr} dev {LINK} {'nodad' if ':' in addr else ''}\n" for addr in (*KERNEL, *addresses)))
        joins_groups(self.room.process)
        self.side, self.name, self.errors = WideSide(self.room.process, LINK), os.path.basename(program), f"{program}.err"
        with open(self.errors, "w", encoding="ascii") as errors:
            self.process = in_namespace(self.room.process, program, LINK, *WORDS, stderr=errors, env=clock.env)

    def is_ready(self):
        return self.process.stdout.readline() == "ready\n"

    def sent(self):
        """Its questions for addresses, and what tells all hosts of them."""
        self.side.take()
        return [frame for frame in self.side.came_out if frame[6:12] == OWN and frame[0] & 1 and (frame[12:14] == ARP or is_nd(frame))]

    def messages(self):
        """In any order, because the first frames that come over a new device may be lost."""
        with open(self.errors, encoding="ascii") as errors:
            return sorted(errors.read().splitlines())

    def hears_of_all(self):
        """Waits until it has heard that another host has each of its addresses."""
        return until(lambda: len(self.messages()) >= len(ALL))

    def ends(self, messages):
        self.process.send_signal(signal.SIGTERM)
        self.process.communicate(timeout=LATEST)
        found, expected = self.messages(), sorted(f"{self.name}: {LINK}: {text}" for text in messages)
        check("messages of a host", self.process.returncode == 0 and found == expected, (found, expected))

    def is_unused(self, addr):
        settle(self.side)
        self.side.forget()
        for frame in questions(addr, OWN, ELSEWHERE):
            self.side.sock.send(frame)
        settle(self.side)
        found = [frame for frame in self.side.came_out if frame[6:12] == OWN and is_answer(frame)]
        check("no answer of a host for the address of another", found == [], (addr, [frame.hex() for frame in found]))


def is_mld(frame):
    return frame[12:14] == b"\x86\xdd" and frame[20:21] == b"\0" and frame[62] == 131


def on_tap(frame):
    """What a host without padding sends, and which is no router."""
    return frame[:42] if frame[12:14] == ARP else frame


def announced(addr):
    if len(addr) == 4:
        return on_tap(announcement(addr, OWN))
    all_nodes = socket.inet_pton(socket.AF_INET6, "ff02::1")
    return icmp.framed(icmp.advertisement(addr, addr, all_nodes, OWN, 1), addr, all_nodes, OWN, b"\x33\x33\0\0\0\1", 255)


def introduces(program, clock):
    """It asks for its addresses, and uses and announces them after that. It defends them."""
    host = Host(program, clock)
    check("ready", host.is_ready())
    expected = [*(2 * [on_tap(probe(addr, OWN)) for addr in ALL]), *(2 * [announced(addr) for addr in ALL])]
    until(lambda: len(host.sent()) >= len(expected))
    compare_lists("addresses of a host", expected, host.sent())
    reports = [(frame[22:38], frame[62 + 8:62 + 24]) for frame in host.side.came_out if is_mld(frame)]
    groups = [icmp.group_of(addr)[0] for addr in (LOCAL, SIX)]
    check("groups of a host", reports == [*((bytes(16), group) for group in groups), *((LOCAL, group) for group in groups)], reports)
    with host.room.entered():
        check("ping of a host", ping(socket.AF_INET, "10.83.0.2", b"data", 5) and ping(socket.AF_INET6, "fd83::2", b"data", 5))
        local = (f"fe80::ff:fe00:aa07%{LINK}", 7)
        host.room.run(f"ip address add fe80::1/64 dev {LINK} nodad")
        scope = socket.if_nametoindex(LINK)
        for length in (0, 1, 1452, 8000):
            data = bytes(length)
            found = udp_echo(socket.AF_INET6, (local[0].partition("%")[0], 7, 0, scope), data, source=("::", 2000))
            check("UDP over link-local addresses", found == data, (length, found))
        if host.name == "host":
            with socket.create_connection((*local[:1], 7), LATEST) as sock:
                sock.sendall(b"data")
                check("TCP over link-local addresses", sock.recv(100) == b"data")
    for addr in ALL:
        settle(host.side)
        host.side.forget()
        for _ in range(3):
            host.side.sock.send(announcement(addr, ELSEWHERE))
        until(lambda: host.sent())
        settle(host.side)
        compare_lists("defence of a host", [announced(addr)], host.sent())
    host.ends(f"02-00-00-00-ee-0e uses the address {ipaddress.ip_address(addr)}" for addr in ALL)


def is_beside(program, clock):
    """The kernel has all of its addresses."""
    with clock.slowly():
        host = Host(program, clock, "10.83.0.2", "fd83::2", "fe80::ff:fe00:aa07/64")
        host.hears_of_all()
    hardware = host.side.sock.getsockname()[4].hex("-")
    check("ready", host.is_ready())
    time.sleep(3)  # it would announce its addresses now
    found, expected = host.sent(), [on_tap(probe(addr, OWN)) for addr in ALL]
    check("probes of a host", found[:3] == expected and set(found) == set(expected), [frame.hex() for frame in found])
    for addr in ALL:
        host.room.run(f"ip address delete {ipaddress.ip_address(addr)}/{64 if addr == LOCAL else 128 if len(addr) == 16 else 32} dev {LINK}")
        host.is_unused(addr)
    host.ends(f"{hardware} uses the address {ipaddress.ip_address(addr)}: it is not used here" for addr in ALL)


def asks_too(program, clock):
    """Another host asks for the same addresses at the same time: neither uses them."""
    with clock.slowly():
        host, lines = Host(program, clock), []
        pid = os.fork()
        while pid == 0:
            for addr in ALL:
                host.side.sock.send(probe(addr, ELSEWHERE))
            time.sleep(0.002)
        host.hears_of_all()
    check("ready", host.is_ready())
    os.kill(pid, signal.SIGKILL)
    os.waitpid(pid, 0)
    for addr in ALL:
        host.is_unused(addr)
        lines.append(f"02-00-00-00-ee-0e uses the address {ipaddress.ip_address(addr)}: it is not used here")
    host.ends(lines)


def claims(library, router, nat_program, *hosts):
    taken(router, Clock(library, router, SLOW))
    taken_outside(nat_program, Clock(library, nat_program, SLOW))
    for host in hosts:
        clock = Clock(library, host, SLOW)
        introduces(host, clock)
        is_beside(host, clock)
        asks_too(host, clock)


if __name__ == "__main__":
    sys.exit(report("claims", claims, *sys.argv[1:]))
