#!/usr/bin/env python3
"""The kernel's side of tests/kernel, for programs/nat.c.

tests/kernel/nat.py taps PROGRAM CLOCK  exchanges packets through a NAT on TAP devices, and compares all frames
tests/kernel/nat.py sockets PROGRAM     through a NAT on packet sockets, with the offloads of the kernel

CLOCK is a slow clock to be preloaded. This process is two hosts inside, and a namespace of its own is two servers outside.
Over IPv4 the packets are translated, over IPv6 only routed. Prints how many exchanges were right. The status is 1 if one was
wrong, or if a kernel counted an error.
"""
import ast
import copy
import ipaddress
import os
import socket
import sys

import packets
import icmp
from dice import ANY as random
from forwarded import (DESTINATION, ICMP, SOURCE, Packet, Router, has_ports, is_answered, is_icmp_error, is_ping, port_at, port_of,
                       quoted_end, quotes_enough, renumbered, translated, with_header_checksum, with_quoted)
from client import check, echoed, report, tcp_at_once, tcp_turns, udp_lengths
from rebuilt import number
from links import ELSEWHERE, SELF, Here, Namespace, Program, WideSide, no_errors, settle, udp_echo
from router import (CLAMP, compare_counters, compare_sides, longest_handed, longer_hosts, make_pairs, random_frames,
                    set_host)
from routed_frames import HARDWARE, HOSTS, RANDOM_FRAMES, hostile_frames, routed
from waits import LATEST

TIMESTAMP = 13
OUTSIDE, INSIDE = "10.2.0.1", ("10.1.0.2", "10.1.0.3")
FIRST_PORT = 1024
CONFIG = """
address 10.1.0.1/24 dev left
address fd01::1/64 dev left
address 10.2.0.1/24 dev right
address fd02::1/64 dev right
route 3fff::/20 via fd01::9 dev left
route 2001:db8::/32 via fd02::9 dev right
route 203.0.113.0/24 via 10.1.0.9 dev left
route 0.0.0.0/0 via 10.2.0.9 dev right
""" + "".join(f"neighbour {addr} lladdr {ELSEWHERE.hex(':')} dev {name}\n" for addr, name in (
    ("10.1.0.9", "left"), ("10.2.0.9", "right"), ("fd01::9", "left"), ("fd02::9", "right")))
OF_TAPS = CONFIG + "".join(f"lladdr {addr.hex(':')} dev {name}\n" for name, addr in HARDWARE.items())
SERVERS = ("10.2.0.2", "10.2.0.3")
OUTSIDE_ENDS = ((socket.AF_INET, SERVERS), (socket.AF_INET6, ("fd02::2",)))


class Nat(Router):
    """The router with an outside address on the right. It learns outside ports from what comes out."""

    def __init__(self):
        hosts = {"left": (*INSIDE, "fd01::2"), "right": (*SERVERS, "fd02::2")}
        super().__init__(
            HARDWARE, [("10.1.0.1/24", "left"), ("fd01::1/64", "left"), ("10.2.0.1/24", "right"), ("fd02::1/64", "right")],
            [("203.0.113.0/24", ELSEWHERE, "left"), ("0.0.0.0/0", ELSEWHERE, "right"),
             ("3fff::/20", ELSEWHERE, "left"), ("2001:db8::/32", ELSEWHERE, "right")],
            {ipaddress.ip_address(addr): HOSTS[name] for name, addrs in hosts.items() for addr in addrs})
        self.outside = ipaddress.ip_address(OUTSIDE)
        self.ports, self.inside, self.is_complete = {}, {}, True

    def outside_port(self, packet):
        """The outside port of a packet that leaves: its own port, if that is free. Else the NAT chooses one, and the port
        is 1 until it is learned."""
        key = packet.protocol, packet.ends[SOURCE], port_of(packet, SOURCE)
        if key not in self.ports:
            if key[2] < FIRST_PORT or (key[0], key[2]) in self.inside:
                self.unknown = key
                return 1
            self.keep(key, key[2])
        return self.ports[key]

    def keep(self, key, port):
        self.ports[key] = port
        self.inside[key[0], port] = key[1:]

    def learn(self, key, frame):
        packet = Packet(frame)
        port = port_of(packet, SOURCE) if packet.is_whole and len(packet.payload) >= 4 else 0
        is_free = port >= FIRST_PORT and (key[0], port) not in self.inside
        check("outside port", is_free, (key, port))
        if is_free:
            self.keep(key, port)

    def leaves(self, frame):
        packet = Packet(frame)
        why = has_ports(packet)
        if not why and is_icmp_error(packet):
            return self.error_passes(frame, packet, DESTINATION)
        if not why and packet.protocol == ICMP:
            why = "LK_NO_MAPPING" if packet.payload[0] == 0 else None
        elif not why and port_of(packet, SOURCE) == 0:
            why = "LK_NAT_PORT_ZERO"
        return (why, None) if why else (None, translated(frame, SOURCE, self.outside.packed, self.outside_port(packet)))

    def comes_in(self, frame):
        packet = Packet(frame)
        why = has_ports(packet)
        if not why and is_icmp_error(packet):
            return self.error_passes(frame, packet, SOURCE)
        if not why and packet.protocol == ICMP and packet.payload[0] != 0:
            why = "LK_NO_MAPPING"
        inside = None if why else self.inside.get((packet.protocol, port_of(packet, DESTINATION)))
        if not why and (packet.dst != self.outside or inside is None):
            why = "LK_NO_MAPPING"
        return (why, None) if why else (None, translated(frame, DESTINATION, *inside))

    def error_passes(self, frame, packet, side):
        """An ICMP error that comes in quotes the source of a mapping, and one that leaves quotes a destination inside."""
        if not quotes_enough(packet):
            return "LK_BAD_TRANSPORT", None
        end = quoted_end(packet, side)
        if end is None:
            return "LK_NO_MAPPING", None
        if side == DESTINATION:
            port = self.ports.get(end)
            return ("LK_NO_MAPPING", None) if port is None else (None, with_quoted(frame, side, self.outside.packed, port))
        inside = self.inside.get((end[0], end[2])) if packet.dst == self.outside and end[1] == self.outside.packed else None
        return ("LK_NO_MAPPING", None) if inside is None else (None, with_quoted(frame, side, *inside))

    def is_collected(self, packet, came_in):
        """Whether fragments of this packet are put together before it is translated."""
        route = self.choose(packet.dst)
        return packet.is_fragment and (packet.dst in self.own or (came_in == "left" and route is not None and route[2] == "right"))

    def is_from_router(self, frame):
        """Over IPv4 the packets of hosts inside have its address too."""
        return Packet(frame).version != 4 and super().is_from_router(frame)

    def error(self, frame, came_in, why):
        """A host inside that wrote to the outside address is told by this address."""
        is_hairpin = why in self.errors and came_in == "left" and Packet(frame).dst == self.outside
        other = copy.copy(self)
        other.first = {**self.first, **({("left", 4): self.outside.packed} if is_hairpin else {})}
        return Router.error(other, frame, came_in, why)

    def known_fate(self, frame, came_in):
        packet = Packet(frame)
        why = self.refused(packet, came_in)
        if not why and packet.dst == self.outside and is_ping(packet):
            return ("answered" if is_answered(packet) else "for the router"), None
        if not why and self.is_collected(packet, came_in):
            return "fragments", None
        frame = frame if why else frame[: 14 + packet.total_len]
        is_hairpin = not why and came_in == "left" and packet.dst == self.outside
        if is_hairpin:
            why, frame = self.leaves(frame)
        if not why and (came_in == "right" or is_hairpin):
            why, frame = self.comes_in(frame)
        if why:
            return why, None
        to, out = self.sent_on(frame, Packet(frame))
        if out and to == "right":
            why, out = self.leaves(out)
        return (why, None) if out is None and why else (to, self.clamped(out, came_in, to))

    def fate(self, frame, came_in):
        """As that of a router. The frame is a function of what came out, because the NAT chooses identifications."""
        if Packet(frame).version == 6:
            return super().fate(frame, came_in)
        to, out = self.fate_before(frame, came_in)
        if out is None or to != "right":
            return to, out
        return to, lambda found: renumbered(out(found) if callable(out) else out, found)

    def fate_before(self, frame, came_in):
        """The same without identifications. If the outside port is not known yet, the frame is a function of what came out."""
        self.unknown = None
        to, out = self.known_fate(frame, came_in)
        key = self.unknown
        if out is None or key is None:
            return to, out

        def out_of(found):
            if key not in self.ports:
                self.learn(key, found)
            return self.known_fate(frame, came_in)[1]

        return to, out_of


def start_on_taps(room, there, program, lines="", config=OF_TAPS, **words):
    nat = Program(room, program, config + lines, ["tap:right", "tap:left"], **words)
    room.run(f"ip link set left netns {SELF} && ip link set right netns {there.process}")
    set_hosts(there)
    return nat


def set_hosts(there):
    set_host(Here(), "left")
    set_host(there, "right")
    Here().run(f"ip address replace {INSIDE[1]}/24 dev left")
    there.run(f"ip address replace {SERVERS[1]}/24 dev right")


def start_on_pairs(room, there, program, lines="", **words):
    make_pairs(room, there)
    set_hosts(there)
    return Program(room, program, CONFIG + lines, ["packet:right", "packet:left"], **words)


# ---- frames


def with_checksums(frame):
    """The frame with a computed UDP, TCP or ICMP checksum."""
    packet = Packet(frame)
    least = {17: 8, 6: 20, 1: 8}.get(packet.protocol) if packet.is_whole and packet.version == 4 and not packet.is_fragment else None
    if least is None or len(packet.payload) < least:
        return frame
    return translated(frame, SOURCE, packet.ends[SOURCE], port_of(packet, SOURCE))


def packet_with_ports():
    """A valid UDP packet, TCP segment or ICMP echo."""
    data = random.randbytes(random.choice((0, 1, 7, 100, 1001)))
    options = random.choice((b"", b"", b"\2\4\5\xb4", b"\1\1\x08\x0a" + bytes(8)))
    ports = {"src_port": random.choice((0, 53, 5353, random.randrange(1, 65536))), "dst_port": random.randrange(1, 65536)}
    body = packets.udp(data, **ports) if random.random() < 0.6 else packets.tcp(data, options, **ports)
    protocol = 17 if len(body) == 8 + len(data) else 6
    if random.random() < 0.3:
        body, protocol = icmp.message(random.choice((0, 8)), 0, random.randrange(2**31), data, bytes(4), bytes(4)), 1
    fields = {"service": random.randrange(256), "ident": random.randrange(65536), "hop_limit": random.randrange(1, 256),
              "protocol": protocol, "options": b"\1" * random.choice((0, 0, 4, 40))}
    return packets.packet(body, **fields)


def nat_frames(model):
    """Makes hostile frames. Most that come in, and some that go out, are for an outside port that leads inside, but not to
    the kernel. No packet that is dropped later opens a mapping, because the model would not see its port."""
    def make(count, name):
        ports, ends = {17: [], 6: [], 1: []}, []
        for (protocol, port), (addr, inside_port) in model.inside.items():
            ports[protocol] += [port] * (addr[0] == 203)
            ends += [(protocol, port, addr, inside_port)] * (addr[0] == 203)
        for frame in hostile_frames(count, name):
            frame = frame if random.random() < 0.4 else routed(packet_with_ports(), name)
            if ends and random.random() < 0.2:
                yield error_frame(model, name, random.choice(ends))
                continue
            packet = Packet(frame)
            is_valid = packet.is_whole and packet.is_summed and packet.version == 4 and len(packet.payload) >= 4
            known = ports.get(packet.protocol) if is_valid else None
            is_hairpin = name == "left" and known and packet.hop_limit > 1 and random.random() < 0.1
            if is_hairpin or (is_valid and name == "right" and random.random() < 0.7):
                port = random.choice(known) if known and (is_hairpin or random.random() < 0.8) else random.randrange(1024)
                frame = frame[:30] + model.outside.packed + frame[34:]
                at = 14 + packet.header_len + port_at(packet.protocol, DESTINATION)
                frame = with_header(frame[:at] + port.to_bytes(2, "big") + frame[at + 2 :], packet.header_len)
            frame = frame if random.random() < 0.1 else with_checksums(frame)
            yield apart(frame)
    return make


def apart(frame):
    """The frame, or a fragment of a packet of its own, and not its first: so no packet is put together, and no error about it
    comes later. tests/kernel/fragments.py has such packets."""
    packet = Packet(frame)
    if not packet.is_whole or not packet.is_fragment or not packet.is_summed:
        return frame
    place = number(frame[20:22]) | 1
    return with_header(frame[:18] + random.randbytes(2) + place.to_bytes(2, "big") + frame[22:], packet.header_len)


def error_frame(model, name, end):
    """An ICMP error that comes in or leaves, about a packet of this mapping, or about another one."""
    protocol, port, addr, inside_port = end
    inside = (model.outside.packed, port) if name == "right" else (addr, inside_port)
    remote = bytes([198, 18, 0, random.randrange(256)]), random.randrange(1, 65536)
    ends = [inside, remote] if name == "right" else [remote, inside]
    if random.random() < 0.1:
        ends = ends[::-1]
    (src, src_port), (dst, dst_port) = ends
    ports = {"src": src, "dst": dst, "src_port": src_port, "dst_port": dst_port}
    data = random.randbytes(random.choice((0, 1, 100)))
    ident = inside[1] << 16 | random.randrange(65536)
    body = {17: lambda: packets.udp(data, checksum=random.choice((None, 0, 7)), **ports), 6: lambda: packets.tcp(data, **ports),
            1: lambda: icmp.message(8 if name == "right" else 0, 0, ident, data, src, dst)}[protocol]()
    quoted = packets.header(len(body), protocol=protocol, src=src, dst=dst, hop_limit=random.randrange(256),
                            options=b"\1" * random.choice((0, 0, 8)), flags=random.choice((0, 0x4000, 0x2000, 1))) + body
    if random.random() < 0.3:
        # Some routers lower the hop limit, and leave the checksum.
        quoted = quoted[:8] + bytes([1]) + quoted[9:]
    quoted = quoted[: random.choice((len(quoted), len(quoted), 28, 36, 27))]
    host = bytes([198, 18, 0, 9]) if name == "right" else bytes([203, 0, 113, 9])
    to = model.outside.packed if name == "right" else remote[0]
    message = icmp.message(random.choice((3, 3, 11, 12, 5)), random.randrange(16), random.choice((0, 1200)), quoted, host, to)
    return icmp.framed(message, host, to, HOSTS[name], HARDWARE[name], random.randrange(1, 256))


def with_header(frame, header_len):
    return frame[:14] + with_header_checksum(frame[14 : 14 + header_len]) + frame[14 + header_len :]


def compare_random(nat, sides, count, model):
    """One frame at a time, because the model has to see each outside port before the next frame."""
    if model.is_complete:
        random_frames(nat, sides, count, model, nat_frames(model), 1)
    else:
        print("tests/kernel: skipped: random frames: the capture has lost frames that open mappings")


# ---- exchanges


def learn_from(model, sides):
    """Opens the mappings of frames that are not compared. The kernel may have left their checksums to the device."""
    model.is_complete &= settle(*sides.values())
    for frame in sides["left"].handed:
        model.fate(with_checksums(frame), "left")
    for side in sides.values():
        side.handed, side.came_out = [], []


def free_ports(model):
    """Eight outside ports, from which no mapping leads inside."""
    taken = {port for _, port in model.inside}
    return random.sample([port for port in range(FIRST_PORT, 65536) if port not in taken], 8)


def bound(kind, source):
    sock = socket.socket(socket.AF_INET, kind)
    sock.settimeout(LATEST)
    sock.setsockopt(socket.SOL_SOCKET, socket.SO_REUSEADDR, 1)
    sock.setsockopt(socket.SOL_SOCKET, socket.SO_REUSEPORT, 1)
    sock.bind(source)
    return sock


def seen_by(sock, server):
    """The endpoint from which a server sees this UDP socket."""
    sock.sendto(b"", (server, 9))
    return ast.literal_eval(sock.recv(100).decode())


def seen_connection(source, server):
    with bound(socket.SOCK_STREAM, source) as sock:
        sock.connect((server, 9))
        return ast.literal_eval(sock.recv(100).decode())


def udp(sides, model):
    for family, servers in OUTSIDE_ENDS:
        udp_lengths(family, servers[0])
    model.is_complete &= compare_sides("frame of the kernel", sides, model)
    for n in range(64):
        for option in ((socket.SOL_SOCKET, 11, 1), (socket.IPPROTO_IP, socket.IP_TOS, 4 * n + n % 4),
                       (socket.IPPROTO_IP, socket.IP_OPTIONS, b"\x01" * (n % 40) + b"\0")):
            data = random.randbytes(n)
            check("UDP with an option", udp_echo(socket.AF_INET, (SERVERS[1], 7), data, options=[option]) == data, option)
    model.is_complete &= compare_sides("frame of the kernel", sides, model)


def tcp(sides, model):
    for family, servers in OUTSIDE_ENDS:
        for length in [0, 1, 1440, 1441, 1460, 1461] + [random.randrange(5000) for _ in range(10)]:
            data = random.randbytes(length)
            check("TCP", echoed(family, servers[0], data) == data, (servers[0], length))
            model.is_complete &= compare_sides("frame of the kernel", sides, model)
        data = random.randbytes(4 << 20)
        check("TCP", echoed(family, servers[0], data) == data, (servers[0], len(data)))
        tcp_turns(family, servers[-1])
        tcp_at_once(family, servers[-1])
    learn_from(model, sides)


def mappings(ports):
    """Both servers see one endpoint, and with the port of the host if it is free (RFC 4787, REQ-1; RFC 5382, REQ-1)."""
    for port in ports:
        with bound(socket.SOCK_DGRAM, (INSIDE[0], port)) as first, bound(socket.SOCK_DGRAM, (INSIDE[1], port)) as second:
            for server in SERVERS:
                check("port that is kept", seen_by(first, server) == (OUTSIDE, port), port)
            others = [seen_by(second, server) for server in SERVERS * 2]
            check("one port for two hosts", len(set(others)) == 1 and others[0][0] == OUTSIDE and others[0][1] != port, others)
            check("port that is kept", seen_by(first, SERVERS[0]) == (OUTSIDE, port), port)
        for server in SERVERS:
            check("port of TCP", seen_connection((INSIDE[0], port), server) == (OUTSIDE, port), port)
        others = {seen_connection((INSIDE[1], port), server) for server in SERVERS}
        check("one port for two hosts", len(others) == 1 and others != {(OUTSIDE, port)}, others)


def from_outside(ports, nat, there):
    """Any server reaches an outside port that leads inside (endpoint-independent filtering), and no other port."""
    (port, other), before = ports, nat.counters()
    with bound(socket.SOCK_DGRAM, (INSIDE[0], port)) as sock:
        check("port that is kept", seen_by(sock, SERVERS[0]) == (OUTSIDE, port), port)
        with there.entered(), bound(socket.SOCK_DGRAM, (SERVERS[1], 5555)) as server:
            server.sendto(b"unasked", (OUTSIDE, port))
            server.sendto(b"lost", (OUTSIDE, other))
        check("from another server", sock.recvfrom(99) == (b"unasked", (SERVERS[1], 5555)))
    compare_counters(nat, before, ["LK_NO_MAPPING"])


def hairpin(ports):
    """Two hosts inside reach each other by their outside endpoints, which they see too (RFC 4787, REQ-9)."""
    of_udp, of_server, of_client = ports
    with bound(socket.SOCK_DGRAM, (INSIDE[0], of_udp)) as first, bound(socket.SOCK_DGRAM, (INSIDE[1], of_udp)) as second:
        ends = [seen_by(first, SERVERS[0]), seen_by(second, SERVERS[0])]
        for n in range(50):
            data = random.randbytes(n)
            first.sendto(data, ends[1])
            check("hairpin", second.recvfrom(99) == (data, ends[0]), n)
            second.sendto(data, ends[0])
            check("hairpin", first.recvfrom(99) == (data, ends[1]), n)
    with bound(socket.SOCK_STREAM, (INSIDE[1], of_server)) as server:
        place = seen_connection((INSIDE[1], of_server), SERVERS[0])
        server.listen()
        with bound(socket.SOCK_STREAM, (INSIDE[0], of_client)) as sock:
            sock.connect(place)
            own = server.accept()
            sock.sendall(b"x" * 1000)
            check("hairpin", own[1] == (OUTSIDE, of_client) and own[0].recv(2000) == b"x" * 1000, own[1])
            own[0].close()


def not_translated(nat):
    """Other ICMP messages do not go out."""
    before = nat.counters()
    with socket.socket(socket.AF_INET, socket.SOCK_RAW, socket.IPPROTO_ICMP) as sock:
        for _ in range(5):
            sock.sendto(icmp.message(TIMESTAMP, 0, 1, bytes(12), bytes(4), bytes(4)), (SERVERS[0], 0))
    compare_counters(nat, before, ["LK_OTHER_PROTOCOL"] * 5)


def on_taps(program, clock):
    room, there, model = Namespace(), Namespace(), Nat()
    # With a slow clock no mapping expires while a busy machine compares frames.
    slow = {**os.environ, "LD_PRELOAD": clock, "FAST_CLOCK": "0.05"}
    nat = start_on_taps(room, there, program, env=slow)
    server = there.serve(*SERVERS, "fd02::2")
    sides = {"left": WideSide(SELF, "left"), "right": WideSide(there.process, "right")}
    udp(sides, model)
    tcp(sides, model)
    for _ in range(2):  # the second time many mappings are there
        compare_random(nat, sides, RANDOM_FRAMES // 2, model)
    ports = free_ports(model)
    mappings(ports[:3])
    from_outside(ports[3:5], nat, there)
    hairpin(ports[5:])
    not_translated(nat)
    no_errors(there)
    nat.ends("of a NAT")
    clamps(room, there, program, slow)
    only_ipv4(room, there, program, slow)
    server.kill()


def clamps(room, there, program, env):
    """Hosts with a longer MTU exchange segments that fit the outside link."""
    nat, model = start_on_taps(room, there, program, CLAMP, env=env), Nat().but(clamps={"right": 1500})
    sides = {"left": WideSide(SELF, "left"), "right": WideSide(there.process, "right")}
    longer_hosts(there)
    data = random.randbytes(300_000)
    for family, servers in OUTSIDE_ENDS:
        check("TCP of longer hosts", echoed(family, servers[0], data) == data, family)
    check("too long", "too long" not in nat.counters())
    model.is_complete &= compare_sides("clamped frame", sides, model)
    compare_random(nat, sides, RANDOM_FRAMES // 4, model)
    nat.ends("of a NAT that clamps")


def only_ipv4(room, there, program, env):
    """Without addresses over IPv6 none of its packets passes."""
    config = "".join(line for line in OF_TAPS.splitlines(True) if "::" not in line)
    nat = start_on_taps(room, there, program, config=config, env=env)
    sides, model = {"left": WideSide(SELF, "left"), "right": WideSide(there.process, "right")}, Nat()
    model.own, model.routes = {addr for addr in model.own if addr.version == 4}, {
        block: route for block, route in model.routes.items() if block.version == 4}
    compare_random(nat, sides, RANDOM_FRAMES // 4, model)
    nat.ends("of a NAT without IPv6")


def on_sockets(program):
    """Large frames of the kernel, whose checksums are left to the device."""
    room, there, model = Namespace(), Namespace(), Nat()
    nat = start_on_pairs(room, there, program)
    server = there.serve(*SERVERS, "fd02::2")
    sides = {"left": WideSide(SELF, "left"), "right": WideSide(there.process, "right")}
    for family, servers in OUTSIDE_ENDS:
        for length in range(0, 1453, 7):
            data = random.randbytes(length)
            check("UDP", udp_echo(family, (servers[0], 7), data) == data, (servers[0], length))
        longest = 0
        for length in (1, 5000, 1 << 20, 8 << 20):
            data = random.randbytes(length)
            check("TCP", echoed(family, servers[0], data) == data, (servers[0], length))
            longest = max(longest, longest_handed(sides["left"]))
        check("frames of 64 KB", longest > 60_000, (servers[0], longest))
        tcp_at_once(family, servers[-1])
        learn_from(model, sides)
    compare_random(nat, sides, RANDOM_FRAMES // 4, model.but(least=60))
    hairpin(free_ports(model)[:3])
    no_errors(there)
    nat.ends("of a NAT on packet sockets")
    server.kill()


if __name__ == "__main__":
    modes = {"taps": on_taps, "sockets": on_sockets}
    sys.exit(report(f"NAT {sys.argv[1]}", modes[sys.argv[1]], *sys.argv[2:]))
