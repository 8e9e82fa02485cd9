#!/usr/bin/env python3
"""The kernel's side of tests/kernel, for the addresses that programs/router.c and nat.c have on their links.

tests/kernel/own.py ROUTER NAT HOST PROVED_HOST

What they send at the start, another host with an address of theirs, and -k: the kernel has the addresses and answers.
This process is a host on one side, and a namespace of its own is the host on the other side. Prints how many exchanges
were right. The status is 1 if one was wrong, or if a kernel counted an error.
"""
import ipaddress
import socket
import subprocess
import sys
import time

import icmp
import nat
import packets
from bridge import in_namespace
from client import check, echoed, report
from links import (ELSEWHERE, SELF, Here, Namespace, Program, WideSide, no_errors, ping, reads_smaller_mtu, settle, udp_echo,
                   udp_error)
from routed_frames import HARDWARE, HOSTS
from router import ADDRESSES, ARP, CONFIG, compare_lists, make_pairs
from waits import joins_groups, until

PAIRS = ["packet:left", "packet:right"]
ALL_NODES, ALL_NODES_HARDWARE = socket.inet_pton(socket.AF_INET6, "ff02::1"), b"\x33\x33\0\0\0\1"
BROADCAST, NOBODY = b"\xff" * 6, bytes(6)
INTRODUCES, ANSWERS = 2.4, 0.3  # seconds
LENGTHS = (0, 1, 1452, 1453, 1472, 1473, 8000, 60000)  # of pings, in bytes
KERNEL = """
    sysctl -qw net.ipv4.ip_forward=0 net.ipv6.conf.all.forwarding=0 net.ipv6.conf.left.forwarding=1 net.ipv6.conf.right.forwarding=1
    sysctl -qw net.ipv4.conf.all.rp_filter=1 net.ipv4.conf.default.rp_filter=1 net.ipv4.icmp_ratelimit=0 net.ipv6.icmp.ratelimit=0
    sysctl -qw net.ipv4.icmp_ratemask=0
    ip -6 route add blackhole default metric 9999
"""
# Forgets a group after 3 s without a report.
SWITCH = """
    ip link add name switch type bridge
    ip link set switch type bridge mcast_startup_query_interval 50 mcast_query_interval 100 mcast_query_response_interval 50
    ip link set switch type bridge mcast_membership_interval 300
    ip link set switch up type bridge mcast_snooping 1 mcast_querier 1 mcast_mld_version 2
"""
SNOOPS = 7  # seconds


def is_nd(frame):
    return frame[12:14] == b"\x86\xdd" and frame[20] == icmp.ICMPV6 and frame[54] in (icmp.SOLICITATION, icmp.ADVERTISEMENT)


def sent_by_router(side, name):
    """The ARP packets and messages of neighbour discovery that came from the router's Ethernet address."""
    side.take()
    return [frame for frame in side.came_out if frame[6:12] == HARDWARE[name] and (frame[12:14] == ARP or is_nd(frame))]


# ---- at the start


def request(sender, target, hardware):
    body = packets.arp(1, sha=hardware, spa=sender, tpa=target)
    return packets.ethernet(packets.ARP, body, BROADCAST, hardware).ljust(60, b"\0")


def probe(addr, hardware):
    """Asks whether another host has the address (RFC 5227, section 2.1.1; RFC 4862, section 5.4.2)."""
    if len(addr) == 4:
        return request(bytes(4), addr, hardware)
    group, group_hardware = icmp.group_of(addr)
    return icmp.framed(icmp.solicitation(addr, bytes(16), group), bytes(16), group, hardware, group_hardware, 255)


def announcement(addr, hardware):
    """RFC 5227, section 3; RFC 4861, section 7.2.6: of a router, not solicited, overrides."""
    if len(addr) == 4:
        return request(addr, addr, hardware)
    advert = icmp.advertisement(addr, addr, ALL_NODES, hardware, 5)
    return icmp.framed(advert, addr, ALL_NODES, hardware, ALL_NODES_HARDWARE, 255)


def introduces(what, sides, names):
    """Each address is asked for, and then announced."""
    time.sleep(INTRODUCES)
    for name, side in sides.items():
        own = [ipaddress.ip_interface(text).ip.packed for text, at in ADDRESSES if at == name and name in names]
        expected = [step(addr, HARDWARE[name]) for step in (probe, announcement) for addr in own]
        until(lambda: len(sent_by_router(side, name)) >= len(expected))
        compare_lists(f"addresses {what}", expected, sent_by_router(side, name))
        side.forget()


def introductions(program):
    room, there = Namespace(), Namespace()
    make_pairs(room, there)
    sides = {"left": WideSide(SELF, "left"), "right": WideSide(there.process, "right")}
    router = Program(room, program, CONFIG, PAIRS)
    introduces("at the start", sides, HARDWARE)
    room.run("ip link set right down")
    router.looks()
    introduces("of an interface that is down", {"left": sides["left"]}, ())
    sides["right"].forget()
    room.run("ip link set right up")
    introduces("of an interface that is up again", sides, ["right"])
    router.has_again(CONFIG)
    introduces("of a file that was read again", sides, HARDWARE)
    conflicts(router, sides)
    router.ends("that has introduced itself")


def conflicts(router, sides):
    """Another host with an address of the router is reported, and the address announced again, once in 10 seconds."""
    four, six = ipaddress.ip_address("10.5.0.1").packed, ipaddress.ip_address("fd02::1").packed
    for name, addr, text in (("left", four, "10.5.0.1"), ("right", six, "fd02::1")):
        side, before = sides[name], router.messages()
        side.sock.send(announcement(addr, HARDWARE[name]))  # a loop in the link
        settle(side)
        check("an own frame", router.messages() == before, router.messages())
        side.forget()
        for _ in range(3):
            side.sock.send(announcement(addr, ELSEWHERE))
        message = f"router: {name}: 02-00-00-00-EE-0E uses the router's address {text}\n".lower()
        until(lambda: len(router.messages()) > len(before) and sent_by_router(side, name))
        settle(side)
        check("a conflict", router.messages() == before + message, router.messages())
        compare_lists("defence", [announcement(addr, HARDWARE[name])], [frame for frame in sent_by_router(side, name) if frame[0] & 1])
        side.forget()


# ---- the kernel answers


def came_out(side, is_meant):
    """The frames of this kind, once one has come and there was time for a second one."""
    def is_there():
        side.take(0.02)
        return any(map(is_meant, side.came_out))

    until(is_there)
    time.sleep(ANSWERS)
    settle(side)
    return list(filter(is_meant, side.came_out))


def counted(side, is_meant, exchange):
    """What an exchange returns, and how many frames of this kind came out meanwhile."""
    settle(side)
    side.forget()
    result = exchange()
    return result, len(came_out(side, is_meant))


def is_echo(frame):
    return frame[12:14] == b"\x08\0" and frame[23] == icmp.ICMP and frame[34] == 0 or (
        frame[12:14] == b"\x86\xdd" and frame[20] == icmp.ICMPV6 and frame[54] == icmp.ECHO_REPLY[6])


def families(addr):
    return socket.AF_INET6 if ":" in addr else socket.AF_INET


def pings(side, addr, what):
    family = families(addr)
    found = counted(side, is_echo, lambda: ping(family, addr, b"data", 7))
    check(f"ping of {what}", found == (True, 1), (addr, found))
    for length in LENGTHS:
        check(f"long ping of {what}", ping(family, addr, bytes(length), 1 + length), (addr, length))


def asked(side):
    """One reply to each question for an address, in which the kernel says that it is a router."""
    own, host = (socket.inet_aton(f"10.1.0.{n}") for n in (1, 2))
    reply = packets.ethernet(packets.ARP, packets.arp(2, sha=HARDWARE["left"], spa=own, tha=HOSTS["left"], tpa=host), HOSTS["left"], HARDWARE["left"])
    side.forget()
    side.sock.send(packets.ethernet(packets.ARP, packets.arp(1, sha=HOSTS["left"], spa=host, tpa=own), BROADCAST, HOSTS["left"]))
    replies = came_out(side, lambda frame: frame[12:14] == ARP and frame[20:22] == b"\0\2")
    compare_lists("ARP of the kernel", [reply], [frame[:42] for frame in replies])
    own, host = (socket.inet_pton(socket.AF_INET6, f"fd01::{n}") for n in (1, 2))
    group, group_hardware = icmp.group_of(own)
    side.forget()
    side.sock.send(icmp.framed(icmp.solicitation(own, host, group, HOSTS["left"]), host, group, HOSTS["left"], group_hardware, 255))
    adverts = came_out(side, lambda frame: is_nd(frame) and frame[54] == icmp.ADVERTISEMENT)
    advert = icmp.framed(icmp.advertisement(own, own, host, HARDWARE["left"], 7), own, host, HARDWARE["left"], HOSTS["left"], 255)
    compare_lists("advertisement of the kernel", [advert], adverts)


def errors(side, room, fronts=((socket.AF_INET, "10.%d.0."), (socket.AF_INET6, "fd0%d::"))):
    """One error for each packet, of the router or of the kernel. The link on the right has an MTU of 1300."""
    room.run("ip link set right mtu 1300")
    reads_smaller_mtu(fronts[-1][0], (fronts[-1][1] % 2 + "2", 7))
    for family, front in fronts:
        version, own, host, nobody = 4 if family == socket.AF_INET else 6, front % 1 + "1", front % 2 + "2", front % 9 + "9"
        for what, kind, place, hop_limit, length in (
                ("time exceeded", icmp.EXPIRED, (host, 7), 1, 1), ("no route", icmp.NO_ROUTE, (nobody, 7), 64, 1),
                ("closed port of the kernel", icmp.CLOSED, (own, 9), 64, 1), ("too big", icmp.TOO_BIG, (host, 7), 64, 1400)):
            found, count = counted(side, icmp.is_error, lambda: udp_error(family, place, bytes(length), hop_limit))
            expected = (*kind[version], own)
            check(what, found is not None and (*found[:2], found[3]) == expected and count == 1, (place, found, count))


def kernel_answers(program):
    room, there = Namespace(), Namespace()
    make_pairs(room, there)
    room.run(KERNEL)
    for text, name in ADDRESSES:
        room.run(f"ip address add {text} dev {name} {'nodad' if ':' in text else ''}")
    joins_groups(room.process)
    side, servers = WideSide(SELF, "left"), ("10.2.0.2", "fd02::2")
    router = Program(room, program, CONFIG, PAIRS, options=["-k"])
    server = there.serve(*servers)
    time.sleep(INTRODUCES)
    check("addresses of the kernel at the start", sent_by_router(side, "left") == [] and router.messages() == "", router.messages())
    for text, _ in ADDRESSES:
        pings(side, text.split("/")[0], "the kernel")
    asked(side)
    for addr in servers:
        pings(side, addr, "a host behind")
        found = counted(side, lambda frame: b"through" in frame, lambda: udp_echo(families(addr), (addr, 7), b"through"))
        check("UDP beside the kernel", found == (b"through", 1), (addr, found))
        check("TCP beside the kernel", echoed(families(addr), addr, bytes(100_000)) == bytes(100_000), addr)
    errors(side, room)
    counters = router.counters()
    is_left = counters["answered"] == 0 and "fragments" not in counters and counters["left to the kernel"] > 12
    check("packets that are left to the kernel", is_left, counters)
    room.run("ip address delete 10.5.0.1/24 dev left")
    router.has_again(CONFIG)
    check("an address that the kernel has not", router.waits_for("router: left: the kernel does not have 10.5.0.1\n"), router.messages())
    no_errors(there)
    router.ends("beside the kernel")
    server.kill()


def kernel_inside(program):
    """A NAT whose inside and IPv6 addresses the kernel has. The kernel's own packets over IPv4 leave by a TAP device through
    the NAT."""
    room, there = Namespace(), Namespace()
    make_pairs(room, there)
    room.run(KERNEL + """
        ip address add 10.1.0.1/24 dev left && ip address add fd01::1/64 dev left nodad && ip address add fd02::1/64 dev right nodad
        ip tuntap add self mode tap && ip address add 10.3.0.2/30 dev self && ip link set self up && ip route add default via 10.3.0.1
    """)
    there.run("ip route delete default")
    joins_groups(room.process)
    side, outside = WideSide(SELF, "left"), WideSide(there.process, "right")
    router = Program(room, program, nat.CONFIG + "address 10.3.0.1/30 dev self\n", [*reversed(PAIRS), "tap:self"], options=["-k"])
    server = there.serve("10.2.0.2", "fd02::2")
    for addr, what in (("10.1.0.1", "the kernel"), ("fd01::1", "the kernel"), ("10.2.0.1", "the NAT"), ("10.2.0.2", "a host behind"),
                       ("10.3.0.1", "the NAT"), ("10.3.0.2", "the kernel"), ("fd02::1", "the kernel"), ("fd02::2", "a host behind")):
        pings(side, addr, what)
    outside.forget()
    for namespace, who in ((Here(), "a host"), (room, "the kernel")):
        with namespace.entered():
            for addr in ("10.2.0.2", "fd02::2"):
                check(f"UDP of {who} inside", udp_echo(families(addr), (addr, 7), b"data") == b"data", addr)
                check(f"TCP of {who} inside", echoed(families(addr), addr, bytes(100_000)) == bytes(100_000), addr)
    outside.take()
    sources = {frame[26:30] for frame in outside.came_out if frame[12:14] == b"\x08\0"}
    check("sources outside", sources == {socket.inet_aton("10.2.0.1")}, sources)
    resets = [frame for frame in outside.came_out if frame[12:14] == b"\x08\0" and frame[23] == 6 and frame[47] & 4]
    check("resets", resets == [], resets)
    errors(side, room, [(socket.AF_INET6, "fd0%d::")])
    check("conflicts", router.messages() == "", router.messages())
    router.ends("beside the kernel")
    server.kill()


def groups_of(switch):
    command = ["nsenter", "--target", switch.process, "--net", "bridge", "mdb"]
    return subprocess.run(command, capture_output=True, text=True, check=True).stdout


def behind_snooping(program, hosts):
    """Behind a bridge that forwards a group only to where reports came from, a host finds the router, the router whose
    groups the kernel reports, and the hosts on TAP devices. Its queries are of version 2, and then of version 1."""
    switch, near, kernel, far = (Namespace() for _ in range(4))
    switch.run(SWITCH)
    for number, (name, namespace) in enumerate((("left", near), ("right", kernel), ("far", far)), 1):
        switch.run(f"ip link add name {name} type veth peer name {name} netns {namespace.process} && ip link set dev {name} master switch up")
        namespace.run(f"ip link set {name} up" + ("" if namespace is near else f" && ip address add fd01::{number}/64 dev {name} nodad"))
    routers = [Program(near, program, "address fd01::1/64 dev left\n", ["packet:left"]),
               Program(kernel, program, "address fd01::2/64 dev right\n", ["packet:right"], options=["-k"])]
    running = []
    for number, host in enumerate(hosts, 4):
        running.append(in_namespace(switch.process, host, f"tap{number}", f"02:00:00:00:aa:0{number}", "0.0.0.0", f"fd01::{number}"))
        running[-1].stdout.readline()
        switch.run(f"ip link set dev tap{number} master switch up")
    far.waits_for_neighbours("far")
    for version in (2, 1):
        switch.run(f"ip link set switch type bridge mcast_mld_version {version}")
        time.sleep(SNOOPS)
        far.run("ip neighbour flush all")
        for number, port in ((1, "left"), (2, "right"), (4, "tap4"), (5, "tap5")):
            with far.entered():
                check("ping behind a bridge that snoops", ping(socket.AF_INET6, f"fd01::{number}", b"data", 1), (version, port))
            is_member = until(lambda: f"port {port} grp ff02::1:ff00:{number} " in groups_of(switch))
            check("groups", is_member, (version, port, groups_of(switch)))
    for router in routers:
        router.ends("behind a bridge that snoops")
    for host in running:
        host.terminate()
        check("SIGTERM to a host behind a bridge that snoops", host.wait() == 0)


def own_addresses(router, nat_program, *hosts):
    introductions(router)
    behind_snooping(router, hosts)
    kernel_answers(router)
    kernel_inside(nat_program)


if __name__ == "__main__":
    sys.exit(report("own addresses", own_addresses, *sys.argv[1:]))
