#!/usr/bin/env python3
"""TCP segments and ICMP errors to programs/host.c that are built here, and what it sends then by the RFCs.

tests/kernel/segments.py host DEVICE             exchanges them with the host on this TAP device
tests/kernel/segments.py without VERSION DEVICE  the host has no address of this IP version, and takes no connection
tests/kernel/segments.py path DEVICE             a router of the kernel sends on with a smaller MTU what the host sends

The status is 1 if something was wrong.
"""
import socket
import struct
import sys

import icmp
from client import (ACK, CLOSED, ECHO, FIN, HOST_HARDWARE, HOSTS, RST, SYN, SYN_CLIENT, TCP, TCP_CLIENT, check, echoed,
                    report, segment, tcp_of)
from dice import ANY, Random
from hostile import close, opened, wires
from links import Here, Namespace
from waits import joins_groups

PSH, URG, ECE, CWR = 8, 32, 64, 128
ALL, SCALE = 1 << 32, 3  # of the host's window
MSS = b"\x02\x04\x05\xb4"
MOVED, UNKNOWN, GROUP = (bytes.fromhex(text) for text in ("020000000b0b", "020000000c0c", "03000000000d"))
NO_HOSTS = ("127.0.0.1", "0.1.2.3", "0.0.0.0", "240.0.0.1", "255.255.255.255", "224.0.0.1", HOSTS[0][2],
            "::1", "::", "::ffff:10.0.0.1", "ff02::1", HOSTS[1][2])
OTHER_HOSTS = ("10.0.0.1", "1.2.3.4", "223.255.255.254", "fe80::1", "fd00::1", "2001:db8::1")


def answers(wire, *frames):
    """The frames with TCP segments that the host sends after these frames."""
    return list(filter(tcp_of, wire.answers(*frames)))


def from_hardware(hardware, frame):
    return frame[:6] + hardware + frame[12:]


class Peer:
    """A connection. Numbers count from the first byte of each side. The window is 1000 bytes in the SYN, then 500."""

    def __init__(self, wire, options=b""):
        self.wire = wire
        self.seq, self.ack = opened(wire, TCP_CLIENT, options, window=500)

    def frame(self, seq, ack, size=0, window=500, flags=ACK):
        numbers = (self.seq + seq) % ALL, (self.ack + ack) % ALL
        return self.wire.frame(TCP, segment(TCP_CLIENT, *numbers, flags, data=bytes(size), window=window))

    def sent(self, *frames):
        """The segments that the host sends after these frames: sequence and acknowledgement number, length, window."""
        found = []
        for body in map(tcp_of, answers(self.wire, *frames)):
            seq, ack, offset, _, window = struct.unpack(">IIBBH", body[4:16])
            found.append(((seq - self.ack) % ALL, (ack - self.seq) % ALL, len(body) - (offset >> 4) * 4, window))
        return found

    def end(self):
        close(self.wire, TCP_CLIENT)


# ---- connections of any peer

# The host has sent 20 bytes, of which 10 are acknowledged.
START, TAKEN, CHALLENGED = [(0, 0, 10), (10, 10, 10)], [(20, 30, 10)], [(20, 20, 0)]
# Segments of the peer, and what the host sends after the last.
EXCHANGES = (
    ("acknowledgement of all", [*START, (20, 20, 10)], TAKEN),
    ("of what was never sent", [*START, (20, 21, 10)], CHALLENGED),
    # RFC 9293, section 3.10.7.4
    ("of the oldest byte", [*START, (20, 0, 10)], TAKEN),
    ("far too old", [*START, (20, 10 - (1 << 30), 10)], TAKEN),
    ("window of a later segment", [(0, 0, 100, 0), (100, 0, 0)], [(0, 100, 100)]),
    ("window of an earlier segment", [(100, 0, 100), (0, 0, 100, 0)], [(0, 200, 200)]),
)


def exchanges(wire):
    for name, segments, expected in EXCHANGES:
        peer = Peer(wire)
        *before, last = [peer.frame(*fields) for fields in segments]
        peer.sent(*before)
        found = [fields[:3] for fields in peer.sent(last)]
        check(f"segments: {name}", found == expected, found)
        peer.end()


def syns_again(wire):
    """A SYN that comes again gets its answer again, whatever else it says, and from wherever it comes."""
    for flags in (SYN, SYN | ECE | CWR, SYN | ECE, SYN | PSH, SYN | URG):
        seq = ANY.randrange(ALL)
        first, again = (wire.frame(TCP, segment(SYN_CLIENT, seq, 0, chosen)) for chosen in (SYN, flags))
        answer, = answers(wire, first)
        own = int.from_bytes(tcp_of(answer)[4:8], "big")
        expected = struct.pack(">II", own, (seq + 1) % ALL)
        for hardware in (wire.hardware[0], MOVED):
            found = [(frame[:6], tcp_of(frame)[4:12], tcp_of(frame)[13]) for frame in answers(wire, from_hardware(hardware, again))]
            check("SYN again", found == [(hardware, expected, SYN | ACK)], (flags, found))
        wire.sock.send(wire.frame(TCP, segment(SYN_CLIENT, (seq + 1) % ALL, 0, RST)))


def moves(wire):
    """The host sends to the Ethernet address of the last valid acknowledgement, also of bytes that it has."""
    peer, own = Peer(wire), wire.hardware[0]
    for hardware, fields, expected in (
            (own, (0, 0, 10), [own]), (MOVED, (10, 10, 10), [MOVED]), (own, (10, 20, 10), [own]),
            (UNKNOWN, (20, 21, 10), [own]), (UNKNOWN, (20, 20 - (1 << 30), 10), [own]), (GROUP, (20, 20, 10), [])):
        found = [frame[:6] for frame in answers(wire, from_hardware(hardware, peer.frame(*fields)))]
        check("moved peer", found == expected, (hardware.hex(), fields, found))
    peer.end()


def sources(wire):
    """RFC 1122, section 3.2.1.3: no connection, and no RST, to an address that no other host has."""
    for text in NO_HOSTS + OTHER_HOSTS:
        family = socket.AF_INET6 if ":" in text else socket.AF_INET
        src = socket.inet_pton(family, text)
        if len(src) != len(wire.addresses[0]):
            continue
        own, wire.addresses[0] = wire.addresses[0], src
        frames = [wire.frame(TCP, segment(SYN_CLIENT, 1, 0, SYN, to=port)) for port in (ECHO, CLOSED)]
        end = wire.frame(TCP, segment(SYN_CLIENT, 2, 0, RST))
        wire.addresses[0] = own
        expected = 2 if text in OTHER_HOSTS else 0
        found = answers(wire, *frames)
        check("source", len(found) == expected, (text, found))
        check("source of a group", answers(wire, *(from_hardware(GROUP, frame) for frame in frames)) == [], text)
        wire.sock.send(end)


def right_edge(wire, seed):
    """The right edge of the window never goes back (RFC 9293, section 3.8.6.2.1). The peer sends 20 segments in any
    order, and each again until it is acknowledged. All lengths are multiples of the scale, which so cuts nothing."""
    random, edge, back, acked = Random(seed), 0, 0, 0
    sizes = [8 * random.randrange(1, 150) for _ in range(20)]
    parts = [(sum(sizes[:n]), size) for n, size in enumerate(sizes)]
    peer = Peer(wire, b"\x01\x03\x03\0" + b"\x04\x02\x01\x01" * random.randrange(2))
    while parts:
        at, size = parts[random.randrange(min(4, len(parts)))]
        if random.randrange(6) == 0:
            acked = max(acked, random.randrange(back + 1) // 8 * 8)
        for seq, ack, length, window in peer.sent(peer.frame(at, acked, size, 65535)):
            told = ack + (window << SCALE)
            check("right edge", told >= edge, (seed, at, edge, told))
            edge, back = told, max(back, seq + length)
            parts = [part for part in parts if sum(part) > ack]
    peer.end()


# ---- packet too big

IN_FLIGHT = 4000
# IP version (0: both), the MTU that the error tells, what is special of it, and the MTU of what the host sends then (0:
# it sends nothing).
ERRORS = (
    (0, 1400, {}, 1400), (0, 1500, {}, 0), (0, 1499, {}, 1499),
    (4, 576, {}, 576), (4, 575, {}, 576), (4, 20, {}, 576), (4, 0, {}, 576),  # RFC 1191
    (6, 1280, {}, 1280), (6, 1279, {}, 0), (6, 0, {}, 0), (6, 1 << 31, {}, 0),  # RFC 8201
    (4, 0x12340000 + 1400, {}, 1400), (4, 1400, {"quoted": 0}, 0),
    (4, 1400, {"quoted": 28, "seq": 1000}, 1400), (4, 1400, {"quoted": 27, "seq": 1000}, 0),
    (6, 1400, {"quoted": 48, "seq": 1000}, 1400), (6, 1400, {"quoted": 47, "seq": 1000}, 0),
    # RFC 5927, section 4.1
    (0, 1400, {"seq": IN_FLIGHT - 1}, 1400), (0, 1400, {"seq": IN_FLIGHT}, 0), (0, 1400, {"seq": -1}, 0),
    (0, 1400, {"port": TCP_CLIENT + 1}, 0), (0, 1400, {"kind": (3, 3)}, 0), (0, 1400, {"damaged": 1}, 0),
    (4, 1400, {"src": "127.0.0.1"}, 0), (6, 1400, {"src": "::1"}, 0),
)


def error_about(peer, mtu, seq=0, port=TCP_CLIENT, quoted=500, kind=None, damaged=0, src=None):
    """A frame with an error about a packet that the host has sent to a peer."""
    wire = peer.wire
    own, dst = wire.addresses
    body = segment(ECHO, (peer.ack + seq) % ALL, (peer.seq + IN_FLIGHT) % ALL, ACK | PSH, data=bytes(1400), to=port)
    quote = wire.packet(TCP, body, is_answer=True)[:quoted]
    src = own if src is None else socket.inet_pton(socket.AF_INET if len(dst) == 4 else socket.AF_INET6, src)
    message = icmp.message(*(kind or icmp.TOO_BIG[wire.version]), mtu, quote, src, dst)
    message = message[:2] + bytes([message[2] ^ damaged]) + message[3:]
    return icmp.framed(message, src, dst, wire.hardware[0], HOST_HARDWARE)


def cut(wire, mtu, length, seq=0):
    """The sequence numbers and lengths of segments in packets of at most this MTU."""
    most = mtu - (40 if wire.version == 4 else 60)
    return [(seq + at, min(most, length - at)) for at in range(0, length, most)]


def fragmentable(frames):
    """The identifications of IPv4 packets without DF, which differ."""
    return {frame[18:20] for frame in frames if frame[12:14] == b"\x08\0" and not frame[20] & 0x40}


def places(peer, *frames):
    """The sequence numbers and lengths of what the host sends after these frames."""
    return [(seq, size) for seq, _, size, _ in peer.sent(*frames)]


def in_flight(wire, flags=ACK):
    """A peer to which the host has sent its bytes at once. With FIN, the host has sent its own with the last of them."""
    peer = Peer(wire, MSS)
    peer.sent(*(peer.frame(at, 0, 1000, window=0) for at in range(0, IN_FLIGHT, 1000)))
    found = places(peer, peer.frame(IN_FLIGHT, 0, window=8000, flags=flags))
    check("before an error", found == cut(wire, 1500, IN_FLIGHT), found)
    return peer


def too_big(wire, mtu, special, expected):
    """The host sends again what it has sent, and what it sends later, in segments that fit."""
    peer, what = in_flight(wire), (wire.version, mtu, special)
    error = error_about(peer, mtu, **special)
    found = answers(wire, error)
    split = wire.version == 4 and mtu < 576
    check("packets without DF", len(fragmentable(found)) == len(found) * split, (what, found))
    found = [(int.from_bytes(body[4:8], "big"), len(body) - 20) for body in map(tcp_of, found)]
    check("packet too big", [((seq - peer.ack) % ALL, size) for seq, size in found] == (
        cut(wire, expected, IN_FLIGHT) if expected else []), (what, found))
    check("error again", places(peer, error) == [], what)
    found = places(peer, peer.frame(IN_FLIGHT, IN_FLIGHT, 1400, window=8000))
    check("after an error", found == cut(wire, expected or 1500, 1400, IN_FLIGHT), (what, found))
    peer.end()


def two_without_df(wire):
    """The packets of two connections have different identifications (RFC 6864, section 4.3)."""
    found = []
    for _ in range(2 if wire.version == 4 else 0):
        peer = in_flight(wire)
        found.append(fragmentable(answers(wire, error_about(peer, 0))))
        peer.end()
    check("identifications of two connections", not found or found[0] and found[1] and not found[0] & found[1], found)


def too_big_at_the_end(wire):
    """FIN goes with the last segment."""
    peer = in_flight(wire, ACK | FIN)
    found = places(peer, error_about(peer, 1400))
    check("packet too big before FIN", found == cut(wire, 1400, IN_FLIGHT), found)
    peer.end()


def with_host(device):
    for wire in wires(device):
        for exchange in (exchanges, syns_again, moves, sources, two_without_df, too_big_at_the_end):
            exchange(wire)
        for version, *row in ERRORS:
            if version in (0, wire.version):
                too_big(wire, *row)
        for seed in range(10):
            right_edge(wire, seed)


def without(version, device):
    """The answer to a probe comes over the other version."""
    wire, other = sorted(wires(device), key=lambda wire: wire.version != int(version))
    wire.addresses[1] = bytes(len(wire.addresses[1]))
    for port in (ECHO, CLOSED):
        found = answers(other, wire.frame(TCP, segment(SYN_CLIENT, 1, 0, SYN, to=port)))
        check("connection to no address", found == [], found)


def behind_a_smaller_link(device):
    """Only the way back has a smaller MTU, so that the host learns it by errors, and not from the peer's segments."""
    here, there = Here(), Namespace()
    here.run(f"ip link set {device} up && ip address add 10.77.0.1/24 dev {device} &&"
             f" ip address add fd77::1/64 dev {device} nodad &&"
             " sysctl -qw net.ipv4.ip_forward=1 net.ipv6.conf.all.forwarding=1 &&"
             f" ip link add near type veth peer name far netns {there.process} && ip link set near up &&"
             " ip address add 10.76.0.1/32 dev near && ip route add 10.76.0.0/24 dev near mtu lock 1300 &&"
             " ip address add fd76::1/128 dev near nodad && ip -6 route add fd76::/64 dev near mtu lock 1300")
    there.run("ip link set far up && ip address add 10.76.0.2/24 dev far && ip address add fd76::2/64 dev far nodad &&"
              " ip route add 10.77.0.0/24 via 10.76.0.1 && ip route add fd77::/64 via fd76::1")
    for namespace in (here, there):
        joins_groups(namespace.process)
    with there.entered():
        for family, _, host in HOSTS:
            data = ANY.randbytes(100_000)
            check("TCP over a smaller link", echoed(family, host, data) == data, host)


if __name__ == "__main__":
    modes = {"host": with_host, "without": without, "path": behind_a_smaller_link}
    sys.exit(report(f"segments {sys.argv[1]}", modes[sys.argv[1]], *sys.argv[2:]))
