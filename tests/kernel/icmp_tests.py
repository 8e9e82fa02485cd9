#!/usr/bin/env python3
"""The kernel's side of tests/kernel, for ICMP and neighbour discovery.

tests/kernel/icmp_tests.py host DEVICE      with programs/host.c or proved_host.c on this TAP device
tests/kernel/icmp_tests.py router PROGRAM   through and with programs/router.c, on TAP devices
tests/kernel/icmp_tests.py link PROGRAM     the same on packet sockets, with a smaller link behind it
tests/kernel/icmp_tests.py nat PROGRAM      through and with programs/nat.c, on packet sockets

Prints how many exchanges were right. The status is 1 if one was wrong, or if a kernel counted an error.
"""
import functools
import re
import select
import shutil
import socket
import struct
import subprocess
import sys
import time

import icmp
import nat as kernel_nat
import packets
from client import CLOSED, ECHO, HOST_HARDWARE, HOSTS, UDP, check, echoed, report
from dice import ANY as random
from hostile import wires
from links import (SELF, Here, Namespace, WideSide, no_errors, ping, reads_smaller_mtu, reads_whole_mtu, settle, udp_error)
from nat import INSIDE, OUTSIDE, bound, seen_by
from ndisc import adverts, becomes_stale, heard, solicits
from router import MODEL, SERVERS, compare_lists, start_on_pairs, start_on_taps
from packets import word_sum
from routed_frames import HARDWARE, extended
from waits import LATEST, until

OWN = {socket.AF_INET: "10.1.0.1", socket.AF_INET6: "fd01::1"}
# The limit of errors: so many at once, and so many in a second.
MOST_ERRORS, ERRORS_PER_SECOND = 50, 100
# A kernel that sends all errors, and one that soon asks again for a neighbour of which it has heard.
NO_LIMIT = "sysctl -qw net.ipv4.icmp_ratelimit=0 net.ipv4.icmp_ratemask=0 net.ipv6.icmp.ratelimit=0"
PROMPT = NO_LIMIT + " net.ipv6.neigh.{name}.delay_first_probe_time=1"


@functools.lru_cache(maxsize=None)
def has(tool):
    """Whether there is this program."""
    if shutil.which(tool) is None:
        print(f"tests/kernel: skipped: {tool}: it is not on the path")
    return shutil.which(tool) is not None


def run(*command):
    return subprocess.run(command, capture_output=True, text=True, check=False).stdout


def is_reachable(address, device, is_router):
    """Whether the kernel finds a neighbour by asking, and the answer has R exactly if it is a router."""
    def words():
        ping(socket.AF_INET6, address, b"", 1)  # what the kernel has found is forgotten after a while
        return run("ip", "-6", "neighbour", "show", address, "dev", device).split()

    return until(lambda: "REACHABLE" in words()) and ("router" in words()) == is_router


def is_refused(family, address, port=CLOSED):
    """Whether a UDP packet to a closed port fails at once."""
    with socket.socket(family, socket.SOCK_DGRAM) as sock:
        sock.settimeout(LATEST)
        sock.connect((address, port))
        sock.send(b"x")
        try:
            return sock.recv(9) is None
        except ConnectionRefusedError:
            return True
        except OSError:
            return False


# ---- a host


def pings(family, address, device):
    """Each length that fits into a packet of the link is answered, and a longer one, which comes in fragments."""
    headers = 28 if family == socket.AF_INET else 48
    lengths = {1500: range(1500 - headers + 1), 65521: [*range(0, 65521 - headers, 997), 65521 - headers]}
    for mtu, answered in lengths.items():
        subprocess.run(["ip", "link", "set", device, "mtu", str(mtu)], check=True)
        for length in answered:
            check("ping", ping(family, address, random.randbytes(length), length), (address, length))
        for length in (answered[-1] + 1, 65507):
            check("ping in fragments", ping(family, address, bytes(length), 1), (address, length))
        for length in (0, 1, 8, answered[-1]) if has("ping") else ():
            command = ["ping", "-c", "1", "-W", str(LATEST), "-s", str(length), address]
            check("program ping", " 0% packet loss" in run(*command), command)
    subprocess.run(["ip", "link", "set", device, "mtu", "1500"], check=True)


def answered_by(kind, wire, frame, *expected):
    found = wire.answers(frame)
    lists = [[one.hex() for one in frames] for frames in (found, expected)]
    check(kind, found == list(expected), "\n    {}\n    is {}\n    not {}".format(frame.hex(), *lists))


def echoes(wire):
    src, dst, own = *wire.addresses, wire.hardware[0]
    broadcast, group = b"\xff" * 6, b"\x01\x00\x5e\0\0\1" if wire.version == 4 else b"\x33\x33\0\0\0\1"
    all_hosts = [bytes([10, 77, 0, 255]), b"\xff" * 4, bytes([224, 0, 0, 1])] if wire.version == 4 else [
        bytes.fromhex("ff020000000000000000000000000001"), icmp.group_of(dst)[0]]
    for length in (0, 1, 8, 57, 1000):
        data, ident, seq_no = random.randbytes(length), random.randrange(65536), random.randrange(65536)
        request = icmp.echo_request(src, dst, ident, seq_no, data)
        frame = icmp.framed(request, src, dst, own, HOST_HARDWARE)
        reply = icmp.framed(icmp.echo_reply(dst, src, ident, seq_no, data), dst, src, HOST_HARDWARE, own)
        answered_by("echo", wire, frame, reply)
        answered_by("echo", wire, frame + b"padding", reply)
        for hardware in (broadcast, group, HOST_HARDWARE[::-1]):
            answered_by("echo to others", wire, hardware + frame[6:])
        for addr in all_hosts:
            to_all = icmp.echo_request(src, addr, ident, seq_no, data)
            for hardware in (broadcast, group, HOST_HARDWARE):
                answered_by("echo to others", wire, icmp.framed(to_all, src, addr, own, hardware))
        damaged = request[:2] + bytes([request[2] ^ 1]) + request[3:]
        answered_by("damaged echo", wire, icmp.framed(damaged, src, dst, own, HOST_HARDWARE))
        answered_by("reply", wire, icmp.framed(icmp.echo_reply(src, dst, ident, seq_no, data), src, dst, own, HOST_HARDWARE))


def closed_ports(wire):
    own = wire.hardware[0]
    for length in (0, 1, 500, 1400):
        frame = wire.frame(UDP, struct.pack(">HHHH", 20000 + length, CLOSED, 8 + length, 0) + random.randbytes(length))
        answered_by("closed port", wire, frame, icmp.error(frame, HOST_HARDWARE, wire.addresses[1], icmp.CLOSED))
        answered_by("closed port of others", wire, b"\xff" * 6 + frame[6:])
        answered_by("damaged packet", wire, frame[:-1] + bytes([frame[-1] ^ 1]))
        body = icmp.message(*icmp.CLOSED[wire.version], 0, frame[14:], *wire.addresses)
        answered_by("error", wire, icmp.framed(body, *wire.addresses, own, HOST_HARDWARE))


def solicitations(wire):
    """RFC 4861, section 7.2.4, also of an address that is not there yet (RFC 4862, section 5.4.3)."""
    (src, dst), own = wire.addresses, wire.hardware[0]
    group, group_hardware = icmp.group_of(dst)
    nobody, nodes = bytes(16), bytes.fromhex("ff020000000000000000000000000001")
    for to, hardware in ((group, group_hardware), (dst, HOST_HARDWARE)):
        advert = icmp.framed(icmp.advertisement(dst, dst, src, HOST_HARDWARE), dst, src, HOST_HARDWARE, own, 255)
        for option in (own, None):
            request = icmp.solicitation(dst, src, to, option)
            answered_by("solicitation", wire, icmp.framed(request, src, to, own, hardware, 255), advert)
            answered_by("solicitation from elsewhere", wire, icmp.framed(request, src, to, own, hardware, 254))
            damaged = request[:-1] + bytes([request[-1] ^ 1])
            answered_by("damaged solicitation", wire, icmp.framed(damaged, src, to, own, hardware, 255))
            other = icmp.solicitation(dst[:13] + b"\xaa" + dst[14:], src, to, option)
            answered_by("solicitation for others", wire, icmp.framed(other, src, to, own, hardware, 255))
        answered_by("option of length 0", wire, icmp.framed(
            icmp.message(icmp.SOLICITATION, 0, 0, dst + b"\1\0" + own, src, to), src, to, own, hardware, 255))
        unknown = icmp.message(icmp.SOLICITATION, 0, 0, dst + b"\x63\1" + own + b"\1\1" + own, src, to)
        answered_by("unknown option", wire, icmp.framed(unknown, src, to, own, hardware, 255), advert)
    probe = icmp.framed(icmp.solicitation(dst, nobody, group), nobody, group, own, group_hardware, 255)
    answered_by("probe", wire, probe, icmp.framed(
        icmp.advertisement(dst, dst, nodes, HOST_HARDWARE, 1), dst, nodes, HOST_HARDWARE, b"\x33\x33\0\0\0\1", 255))


def count_errors(sock, least, seconds, hardware):
    """How many ICMP errors came from an Ethernet address within this time, or after it until there are enough."""
    count, begin = 0, time.monotonic()
    while time.monotonic() - begin < (seconds if count >= least else LATEST):
        if not select.select([sock], [], [], 0.05)[0]:
            continue
        data, place = sock.recvfrom(70000)
        is_icmp = data[23] == icmp.ICMP if data[12:14] == b"\x08\0" else data[20] == icmp.ICMPV6 and data[54] < 128
        count += place[2] != socket.PACKET_OUTGOING and data[6:12] == hardware and data[12] in (8, 0x86) and is_icmp
    return count


def limited(kind, sock, frames, hardware):
    """The errors about frames that come at once stay within the limit."""
    time.sleep(MOST_ERRORS / ERRORS_PER_SECOND)
    while select.select([sock], [], [], 0)[0]:
        sock.recv(70000)
    start = time.monotonic()
    for frame in frames:
        sock.send(frame)
    count = count_errors(sock, MOST_ERRORS, 0.3, hardware)
    most = MOST_ERRORS + ERRORS_PER_SECOND * (time.monotonic() - start)
    check(kind, MOST_ERRORS <= count <= most + 1, (count, most))


def with_host(device):
    for family, _, address in HOSTS:
        pings(family, address, device)
        check("closed UDP port", is_refused(family, address), address)
    place, unknown = (HOSTS[1][2], ECHO), bytes([0, 0, 1, 0, 0x9E, 2, 0, 0])
    check("unknown option", udp_error(socket.AF_INET6, place, b"x", options=unknown) == (4, 2, 44, HOSTS[1][2]))
    check("neighbour", is_reachable(HOSTS[1][2], device, False), run("ip", "-6", "neighbour"))
    for wire in wires(device):
        echoes(wire)
        closed_ports(wire)
        frames = [wire.frame(UDP, struct.pack(">HHHH", 20000, 100 + n, 8, 0)) for n in range(500)]
        limited("limit of errors", wire.sock, frames, HOST_HARDWARE)
    solicitations(wire)


# ---- a router


def own_addresses():
    """The router answers for its addresses on both links, two on the left, and has no open port."""
    for family, addresses in ((socket.AF_INET, ("10.1.0.1", "10.2.0.1", "10.5.0.1")),
                              (socket.AF_INET6, ("fd01::1", "fd02::1", "fd05::1"))):
        for address in addresses:
            for length in [*range(0, 1400, 97), 1452]:
                check("ping of the router", ping(family, address, random.randbytes(length), length), (address, length))
            check("closed UDP port of the router", is_refused(family, address), address)
            check("closed TCP port of the router", isinstance(refused(family, address), ConnectionRefusedError), address)


def refused(family, address):
    try:
        return echoed(family, address, b"")
    except OSError as error:
        return error


def told(there):
    """Each error that the router sends, with what it quotes to the kernel of the sender."""
    for family, server in SERVERS:
        four = family == socket.AF_INET
        beyond, absent, unknown = ("10.9.0.9", "10.2.0.96", "10.2.0.95") if four else ("fd09::9", "fd02::96", "fd02::95")
        for length in (0, 1000):
            data = bytes(length)
            check("time exceeded", udp_error(family, (server, 7), data, 1) == ((11, 0) if four else (3, 0)) + (0, OWN[family]))
            check("no route", udp_error(family, (beyond, 7), data) == ((3, 0) if four else (1, 0)) + (0, OWN[family]))
        check("time exceeded before a neighbour is asked", udp_error(family, (unknown, 7), b"", 1) == (
            (11, 0) if four else (3, 0)) + (0, OWN[family]))
        check("no neighbour", udp_error(family, (absent, 7)) == ((3, 1) if four else (1, 3)) + (0, OWN[family]))
        check("closed UDP port behind the router", is_refused(family, server, CLOSED + 1), server)
    check("neighbours of the router", is_reachable("fd01::1", "left", True), run("ip", "-6", "neighbour"))
    with there.entered():
        check("neighbours of the router", is_reachable("fd02::1", "right", True), run("ip", "-6", "neighbour"))


def quotes(side):
    """An error quotes a packet with its checksum, which the kernel had left to the device."""
    for family, server in SERVERS:
        settle(side)
        side.forget()
        udp_error(family, (server, 7), b"data", 1)
        settle(side)
        size, at = (4, 14 + 28 + 20) if family == socket.AF_INET else (16, 14 + 48 + 40)
        for frame in filter(icmp.is_error, side.came_out):
            front = packets.pseudo_header(frame[at - 2 * size : at - size], frame[at - size : at], UDP, 12)
            check("checksum of a quoted packet", word_sum(front + frame[at : at + 12]) == 0xFFFF, frame.hex())


def traces(place, hops, *options):
    """traceroute finds each hop, with three replies."""
    if not has("traceroute"):
        return
    output = run("traceroute", "-n", "-w", str(LATEST), "-N", "1", *options, place)
    found = [re.findall(r"[0-9a-f.:]+(?=  )|\*", line.split(maxsplit=1)[1])[:1] for line in output.splitlines()[1:]]
    check("traceroute", found == [[hop] for hop in hops] and "*" not in output, (options, output))


def not_forwarded(sides):
    """Directed broadcasts and groups go nowhere, and get no error."""
    settle(*sides.values())
    for side in sides.values():
        side.forget()
    src = socket.inet_aton("10.1.0.2")
    for text in ("10.2.0.255", "10.2.0.0", "10.1.0.255", "255.255.255.255", "224.0.0.9", "240.0.0.1", "0.0.0.0", "127.0.0.1"):
        for hop_limit in (1, 64):
            dst = socket.inet_aton(text)
            body = icmp.echo_request(src, dst, 7, 7, b"") if hop_limit == 64 else packets.udp(b"", 9, 9, src=src, dst=dst)
            protocol = 1 if hop_limit == 64 else 17
            frame = packets.packet(body, src=src, dst=dst, protocol=protocol, hop_limit=hop_limit)
            sides["left"].sock.send(HARDWARE["left"] + sides["left"].sock.getsockname()[4] + frame[12:])
    settle(*sides.values())
    for name, side in sides.items():
        came_out = [frame for frame in side.came_out if frame[12:14] == b"\x08\0"]
        check("frames to many", came_out == [], (name, came_out))
        side.forget()


def untold(sides):
    """What gets no error although it is dropped; and one error of each kind, byte by byte."""
    side, own = sides["left"], bytes.fromhex("020000000199")
    settle(side)
    side.forget()
    for family, src, dst in ((socket.AF_INET, "10.1.0.99", "10.9.0.9"), (socket.AF_INET6, "fd01::99", "fd09::9")):
        src, dst = socket.inet_pton(family, src), socket.inet_pton(family, dst)
        frames = [icmp.framed(icmp.message(kind, 0, 0x70007, bytes(40), src, dst), src, dst, own, HARDWARE["left"])
                  for kind in [*range(42), *range(126, 162), 200, 201, 255]]
        compare_errors_about(frames, side)
        if family == socket.AF_INET6:
            compare_errors_about([extended(random.choice(frames)) for _ in range(MOST_ERRORS)], side)


def compare_errors_about(frames, side):
    time.sleep(MOST_ERRORS / ERRORS_PER_SECOND)
    for frame in frames:
        side.sock.send(frame)
    settle(side)
    expected = [MODEL.error(frame, "left", "no route") for frame in frames]
    found = [frame for frame in side.came_out if icmp.is_error(frame) and frame[6:12] == HARDWARE["left"]]
    compare_lists("error about ICMP", [frame for frame in expected if frame], found)
    side.forget()


def errors_are_limited(side):
    """Packets with hop limit 1, as fast as they can be sent."""
    for family, server in SERVERS:
        src, dst = (socket.inet_pton(family, text) for text in ("10.1.0.99" if family == socket.AF_INET else "fd01::99", server))
        body = icmp.echo_request(src, dst, 1, 1, b"")
        frames = [icmp.framed(body, src, dst, b"\2\0\0\0\0\x99", HARDWARE["left"], 1)] * 2000
        limited("limit of the router", side.sock, frames, HARDWARE["left"])


def smaller_link(room, there):
    """The kernel learns the MTU of a link behind the router, and TCP and ping go on."""
    here = Here()
    for name, namespace in (("right", room), ("right", there)):
        namespace.run(f"ip link set {name} mtu 1300")
    reads_smaller_mtu(socket.AF_INET, (SERVERS[0][1], 7))
    for family, server in SERVERS:
        four = family == socket.AF_INET
        expected = (3, 4, 1300, OWN[family]) if four else (2, 0, 1300, OWN[family])
        check("packet too big", udp_error(family, (server, 7), bytes(1400)) == expected, server)
        route = run("ip", "-4" if four else "-6", "route", "get", server)
        check("path MTU", "mtu 1300" in route, route)
        here.run("ip route flush cache && ip -6 route flush cache")
        data = random.randbytes(300_000)
        check("TCP over a smaller link", echoed(family, server, data) == data, server)
        check("ping over a smaller link", ping_discovers(server), server)
        here.run("ip route flush cache && ip -6 route flush cache")
        check("ping in fragments over a smaller link", four or ping_in_fragments(server), server)
    for namespace in (room, there):
        namespace.run("ip link set right mtu 1500")
    reads_whole_mtu((SERVERS[0][1], 7))


def ping_discovers(server):
    """`ping -M do` learns the MTU from its first packet, and the longest packet of this MTU passes."""
    length = 1300 - (48 if ":" in server else 28)
    if not has("ping"):
        return True
    told_mtu = subprocess.run(["ping", "-c", "1", "-W", str(LATEST), "-M", "do", "-s", str(length + 1), server], capture_output=True,
                              text=True, check=False)
    passes = run("ping", "-c", "2", "-W", str(LATEST), "-i", "0.2", "-M", "do", "-s", str(length), server)
    return "1300" in told_mtu.stdout + told_mtu.stderr and " 0% packet loss" in passes


def ping_in_fragments(server):
    """A `ping` over IPv6 that comes in fragments learns the MTU, and then its packets pass."""
    return not has("ping") or " 0% packet loss" not in run("ping", "-c", "1", "-W", "1", "-s", "4000", server) and (
        " 0% packet loss" in run("ping", "-c", "2", "-W", str(LATEST), "-i", "0.2", "-s", "4000", server))


def with_router(program):
    room, there = Namespace(), Namespace()
    router = start_on_taps(room, there, program)
    for namespace, name in ((Here(), "left"), (there, "right")):
        namespace.run(PROMPT.format(name=name))
    server = there.serve(*(address for _, address in SERVERS))
    sides = {"left": WideSide(SELF, "left"), "right": WideSide(there.process, "right")}
    own_addresses()
    told(there)
    solicits(sides)
    becomes_stale(sides)
    adverts(sides)
    heard(sides)
    for family, address in SERVERS:
        four = family == socket.AF_INET
        for options in ((), ("-I",)):
            traces(address, [OWN[family], address], "-4" if four else "-6", *options)
    not_forwarded(sides)
    untold(sides)
    errors_are_limited(sides["left"])
    no_errors(there)
    router.ends("of a router with ICMP")
    server.kill()


def with_link(program):
    room, there = Namespace(), Namespace()
    router = start_on_pairs(room, there, program)
    server = there.serve(*(address for _, address in SERVERS))
    own_addresses()
    quotes(WideSide(SELF, "left"))
    smaller_link(room, there)
    no_errors(there)
    router.ends("of a router with a smaller link")
    server.kill()


# ---- a NAT

FAR = "10.3.0.2"


def add_far(there):
    """A third host, behind a link with a smaller MTU, to which the kernel of the second one forwards."""
    far = Namespace()
    there.run(f"ip link add near type veth peer name far netns {far.process} && ip link set near mtu 1200 up &&"
              " ip address add 10.3.0.1/24 dev near && sysctl -qw net.ipv4.ip_forward=1")
    far.run("ip link set far mtu 1200 up && ip address add 10.3.0.2/24 dev far && ip route add default via 10.3.0.1")
    for namespace in (Here(), there, far):
        namespace.run(NO_LIMIT)
    return far


def pings_out():
    """Two hosts inside with the same identifiers."""
    for source in INSIDE:
        for address in ("10.2.0.2", FAR, "10.1.0.1", OUTSIDE):
            for length in range(0, 1100, 100):
                found = ping(socket.AF_INET, address, random.randbytes(length), length, source)
                check("ping through the NAT", found, (source, address, length))


def errors_come_in():
    """An error goes to the host inside whose packet it is about, by its outside port."""
    exchanges = {"closed port": (4000, b"x", 64, (3, 3, 0, FAR)), "next hop": (4000, b"x", 2, (11, 0, 0, "10.2.0.2")),
                 "first hop": (4000, b"x", 1, (11, 0, 0, "10.1.0.1")), "too big": (7, bytes(1300), 64, (3, 4, 1200, "10.2.0.2"))}
    for source in [(addr, port) for port in (5000, 5001) for addr in INSIDE * 2]:
        for kind, (port, data, hop_limit, expected) in exchanges.items():
            found = udp_error(socket.AF_INET, (FAR, port), data, hop_limit, source)
            check(kind, found == expected, (source, found))
    for source in INSIDE:
        with bound(socket.SOCK_STREAM, (source, 0)) as sock:
            sock.connect((FAR, 7))
            data, back = random.randbytes(200_000), b""
            sock.sendall(data)
            sock.shutdown(socket.SHUT_WR)
            while more := sock.recv(1 << 16):
                back += more
            check("TCP over a smaller link", back == data, source)


def errors_leave(there):
    """A host outside sees an error of a host inside, and of the NAT, from the outside address of this version of IP."""
    with bound(socket.SOCK_DGRAM, (INSIDE[0], 5600)) as sock:
        check("port that is kept", seen_by(sock, "10.2.0.2") == (OUTSIDE, 5600))
    with there.entered():
        found = udp_error(socket.AF_INET, (OUTSIDE, 5600), b"late")
        check("closed port inside", found == (3, 3, 0, OUTSIDE), found)
        found = udp_error(socket.AF_INET, (OUTSIDE, 5600), b"late", 1)
        check("the NAT as a hop", found == (11, 0, 0, OUTSIDE), found)
        found = udp_error(socket.AF_INET6, ("fd01::2", 7), b"early", 1)
        check("the NAT as a hop", found == (3, 0, 0, "fd02::1"), found)
        check("ping of the NAT", ping(socket.AF_INET, OUTSIDE, b"data", 1))


def hairpin_errors():
    """Two hosts inside, by the outside address: the error has the addresses that the sender used."""
    with bound(socket.SOCK_DGRAM, (INSIDE[1], 5700)) as sock:
        check("port that is kept", seen_by(sock, "10.2.0.2") == (OUTSIDE, 5700))
    found = udp_error(socket.AF_INET, (OUTSIDE, 5700), b"x", source=(INSIDE[0], 5701))
    check("hairpin error", found == (3, 3, 0, OUTSIDE), found)
    found = udp_error(socket.AF_INET, (OUTSIDE, 5700), b"x", 1, (INSIDE[0], 5701))
    check("hairpin error of the NAT", found is not None and found[:3] == (11, 0, 0), found)


def with_nat(program):
    room, there = Namespace(), Namespace()
    nat = kernel_nat.start_on_pairs(room, there, program, "route 10.3.0.0/24 via 10.2.0.2 dev right\n")
    far = add_far(there)
    servers = [there.serve("10.2.0.2", "fd02::2"), far.serve(FAR)]
    pings_out()
    for options in ((), ("-I",)):
        for source in INSIDE:
            traces(FAR, ["10.1.0.1", "10.2.0.2", FAR], "-s", source, *options)
        traces("fd02::2", ["fd01::1", "fd02::2"], "-6", *options)
    errors_come_in()
    errors_leave(there)
    hairpin_errors()
    smaller_link(room, there)
    no_errors(far)
    nat.ends("of a NAT with ICMP")
    for server in servers:
        server.kill()


if __name__ == "__main__":
    modes = {"host": with_host, "router": with_router, "link": with_link, "nat": with_nat}
    sys.exit(report(f"ICMP {sys.argv[1]}", modes[sys.argv[1]], *sys.argv[2:]))
