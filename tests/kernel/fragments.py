#!/usr/bin/env python3
"""The kernel's side of tests/kernel, for packets in fragments.

tests/kernel/fragments.py host DEVICE           to programs/host.c or proved_host.c on this TAP device
tests/kernel/fragments.py router PROGRAM CLOCK  to programs/router.c itself, and those that it forwards
tests/kernel/fragments.py nat PROGRAM           through programs/nat.c on TAP devices, in both directions
tests/kernel/fragments.py sockets PROGRAM       through programs/nat.c on packet sockets

CLOCK is a fast clock to be preloaded. The kernel's fragments come in their order. Those that are made here come in any
order, and more than once; the answers are put together without the library. Prints how many exchanges were right. The
status is 1 if one was wrong, or if a kernel counted an error.
"""
import os
import socket
import sys
import time

import icmp
import packets
from dice import ANY as random
from client import HOST_HARDWARE, HOSTS as TAP_HOSTS, check, report
from forwarded import Packet, with_header_checksum
from links import ELSEWHERE, SELF, Namespace, WideSide, no_errors, ping, settle, udp_echo
from nat import INSIDE, OUTSIDE, SERVERS, bound, seen_by, start_on_pairs, start_on_taps as start_nat
from rebuilt import number
from routed_frames import HARDWARE
from router import MODEL, OF_TAPS, compare_counters, send_chunk, start_on_taps as start_router
from waits import LATEST, until

LENGTHS = (1473, 2000, 8000, 60_000, 65_506, 65_507)
IPV6_LENGTHS = (1453, 2000, 8000, 60_000, 65_487, 65_527)
UDP, MORE, FRAGMENT, DESTINATION = 17, 0x2000, 44, 60
# The kernel at most so many bytes, and one of another MTU.
CUTS = (1480, 552, 8)
SILENCE = 0.3  # seconds
# From here on: the kernel chooses ports above 32767, so the NAT keeps these.
OWN_PORTS = 20000
FAR_LEFT, FAR_RIGHT = bytes([203, 0, 113, 7]), bytes([198, 18, 0, 7])


# ---- fragments, by RFC 791, section 3.2, and RFC 8200, section 4.5


def part(header, place, payload):
    """A fragment of an IPv4 packet. `place`: its offset in units of 8 bytes, and MORE."""
    total_len, flags = (20 + len(payload)).to_bytes(2, "big"), place.to_bytes(2, "big")
    return with_header_checksum(header[:2] + total_len + header[4:6] + flags + header[8:]) + payload


def cut(header, payload, most):
    """The fragments of an IPv4 packet."""
    return [part(header, at // 8 | MORE * (at + most < len(payload)), payload[at : at + most]) for at in range(0, len(payload), most)]


def cut_ipv6(src, dst, ident, protocol, payload, most, hop_limit=64):
    parts = [payload[at : at + most] for at in range(0, len(payload), most)]
    places = [n * most | (n + 1 < len(parts)) for n in range(len(parts))]
    return [packets.header_ipv6(8 + len(one), next_header=FRAGMENT, hop_limit=hop_limit, src=src, dst=dst) + bytes([protocol, 0])
            + place.to_bytes(2, "big") + ident.to_bytes(4, "big") + one for one, place in zip(parts, places)]


def framed(parts, dst_hardware, src_hardware=ELSEWHERE):
    return [packets.ethernet(packets.IPV4 if one[0] >> 4 == 4 else packets.IPV6, one, dst_hardware, src_hardware) for one in parts]


def in_any_order(frames):
    """The frames in another order, and some of them twice, but not the last one."""
    order = random.sample(frames, len(frames))
    return [copy for frame in order[:-1] for copy in [frame] * random.choice((1, 1, 2))] + order[-1:]


def put_together(frames):
    """The payloads of the IPv4 packets in frames, whole ones and fragments: by addresses, identification and protocol."""
    parts, lengths = {}, {}
    for packet in map(Packet, frames):
        place, key = number(packet.header[6:8]), (*packet.ends, packet.header[4:6], packet.protocol)
        at = (place & 0x1FFF) * 8
        parts.setdefault(key, {})[at] = packet.payload
        if not place & MORE:
            lengths[key] = at + len(packet.payload)
        check("fragment that fits", packet.total_len <= 1500, packet.total_len)
    wholes = {key: b"".join(found[at] for at in sorted(found)) for key, found in parts.items() if key in lengths}
    return {key: whole for key, whole in wholes.items() if len(whole) == lengths[key]}


def came_to_elsewhere(side, is_done):
    """The IPv4 packets to the host that is made here, once they are what is waited for."""
    end, wholes = time.monotonic() + LATEST, {}
    while time.monotonic() < end and not is_done(wholes):
        side.take(0.02)
        wholes = put_together([one for one in side.came_out if one.startswith(ELSEWHERE) and one[12:14] == b"\x08\0"])
    return wholes


# ---- to a host or router


def from_kernel(family, address, lengths, has_udp):
    for length in lengths:
        data = random.randbytes(length)
        check("ping in fragments", ping(family, address, data, length & 0xFFFF), (address, length))
        if has_udp:
            check("UDP in fragments", udp_echo(family, (address, 7), data) == data, (address, length))


def echo_in_fragments(side, src, dst, hardware):
    """An echo request in fragments of any length and order is answered by one reply."""
    for length in (1480, 2999, 3000, 20_000):
        for most in CUTS if length < 20_000 else CUTS[:2]:
            side.forget()
            ident, data = random.randrange(1, 65536), random.randbytes(length)
            header = packets.header(0, protocol=1, src=src, dst=dst, ident=ident, flags=0)
            for frame in in_any_order(framed(cut(header, icmp.echo_request(src, dst, ident, 7, data), most), hardware)):
                side.sock.send(frame)
            wholes = came_to_elsewhere(side, bool)
            found = [(key[:2], whole) for key, whole in wholes.items()]
            check("echo in any order", found == [((dst, src), icmp.echo_reply(src, dst, ident, 7, data))], (length, most))


def without_answer(side, src, dst, hardware):
    """Fragments that overlap or contradict each other are dropped, with those that come later (RFC 5722)."""
    side.forget()
    data = icmp.echo_request(src, dst, 1, 1, random.randbytes(1992))
    # In part, with other bytes, and with another end.
    for ident, (place, other) in enumerate(((1 | MORE, data[8:24]), (MORE, data[16:32]), (1984 // 8, data[1984:1992]))):
        header = packets.header(0, protocol=1, src=src, dst=dst, ident=ident, flags=0)
        parts = cut(header, data, 16)
        wrong = part(header, place, other)
        for frame in framed([parts[0], parts[-1], wrong, *parts, *parts], hardware):
            side.sock.send(frame)
    time.sleep(SILENCE)
    settle(side)
    check("fragments that overlap", not [one for one in side.came_out if one.startswith(ELSEWHERE)])


def echo_over_ipv6(side, src, dst, hardware):
    """Of an answer that fits into one packet; also an atomic fragment (RFC 6946)."""
    for length, most in ((1400, 1400 + 8), (1400, 1000), (1400, 8), (9, 8)):
        side.forget()
        data = random.randbytes(length)
        body = icmp.echo_request(src, dst, 5, 6, data)
        for frame in in_any_order(framed(cut_ipv6(src, dst, random.randrange(1 << 32), icmp.ICMPV6, body, most), hardware)):
            side.sock.send(frame)
        expected, end = icmp.framed(icmp.echo_reply(dst, src, 5, 6, data), dst, src, hardware, ELSEWHERE), time.monotonic() + LATEST
        while expected not in side.came_out and time.monotonic() < end:
            side.take(0.02)
        check("echo over IPv6", side.came_out.count(expected) == 1, (length, most))


def faulty_over_ipv6(side, src, dst, hardware):
    """The sender of a faulty fragment is told, and the fragment is discarded (RFC 8200, section 4.5)."""
    side.forget()
    options = bytes([icmp.ICMPV6, 1, 1, 12]) + bytes(12)
    # The first fragment has half of the options, the second one 9 bytes, and the third one ends after byte 65,535.
    cut_short, *others = cut_ipv6(src, dst, 80, DESTINATION, options + icmp.echo_request(src, dst, 8, 9, b"data"), 8)
    odd = cut_ipv6(src, dst, 81, UDP, bytes(18), 9)[0]
    far = cut_ipv6(src, dst, 82, UDP, bytes(8), 8)[0]
    far = far[:42] + (65528).to_bytes(2, "big") + far[44:]
    for frame in framed([cut_short, *others, odd, far], hardware):
        side.sock.send(frame)
    told = [icmp.framed(icmp.message(4, code, pointer, one, dst, src), dst, src, hardware, ELSEWHERE)
            for one, code, pointer in ((cut_short, 3, 0), (odd, 0, 4), (far, 0, 42))]
    end = time.monotonic() + LATEST
    while not set(told) <= set(side.came_out) and time.monotonic() < end:
        side.take(0.02)
    time.sleep(SILENCE)
    settle(side)
    found = [one for one in side.came_out if one.startswith(ELSEWHERE)]
    check("faulty fragments", sorted(found) == sorted(told), [one.hex() for one in found])


def without_advert(side, src, dst, hardware):
    """A neighbour solicitation in fragments is dropped (RFC 6980), and one without them is answered."""
    side.forget()
    body = icmp.solicitation(dst, src, dst, ELSEWHERE)
    for most in (len(body), 8):
        for frame in framed(cut_ipv6(src, dst, random.randrange(1 << 32), icmp.ICMPV6, body, most, 255), hardware):
            side.sock.send(frame)
    time.sleep(SILENCE)
    settle(side)
    check("solicitation in fragments", not [one for one in side.came_out if one.startswith(ELSEWHERE)])
    side.sock.send(icmp.framed(body, src, dst, ELSEWHERE, hardware, 255))
    end = time.monotonic() + LATEST
    while not any(one.startswith(ELSEWHERE) for one in side.came_out) and time.monotonic() < end:
        side.take(0.02)
    check("solicitation", any(one.startswith(ELSEWHERE) for one in side.came_out))


def to_host(device):
    (family, _, host), (_, _, host6) = TAP_HOSTS
    side, addr = WideSide(SELF, device), socket.inet_aton(host)
    from_kernel(family, host, LENGTHS, True)
    from_kernel(socket.AF_INET6, host6, IPV6_LENGTHS, True)
    echo_in_fragments(side, socket.inet_aton("10.77.0.99"), addr, HOST_HARDWARE)
    without_answer(side, socket.inet_aton("10.77.0.98"), addr, HOST_HARDWARE)
    after_losses(side, socket.inet_aton("10.77.0.96"), addr, HOST_HARDWARE)
    addrs = [socket.inet_pton(socket.AF_INET6, one) for one in ("fd77::99", host6)]
    echo_over_ipv6(side, *addrs, HOST_HARDWARE)
    faulty_over_ipv6(side, *addrs, HOST_HARDWARE)
    without_advert(side, *addrs, HOST_HARDWARE)


def after_losses(side, src, dst, hardware):
    """A sender of packets that never become whole is heard again, and does not stop another one."""
    side.forget()
    other, data = src[:3] + bytes([src[3] + 1]), random.randbytes(2000)
    parts = {addr: framed(cut(packets.header(0, protocol=1, src=addr, dst=dst, ident=9, flags=0),
                              icmp.echo_request(addr, dst, 9, 7, data), 1480), hardware) for addr in (src, other)}
    lost = [packets.header(0, protocol=1, src=src, dst=dst, ident=ident, flags=0) for ident in range(100, 300)]
    side.sock.send(parts[other][0])
    time.sleep(0.01)  # so that it is the oldest one
    for frame in (*(framed(cut(one, data, 1480), hardware)[0] for one in lost), parts[other][1], *parts[src]):
        side.sock.send(frame)
    wholes = came_to_elsewhere(side, lambda found: len(found) == 2)
    found = {key[1]: whole for key, whole in wholes.items()}
    check("echo after lost fragments", found == {addr: icmp.echo_reply(addr, dst, 9, 7, data) for addr in parts}, wholes.keys())


def forwarded(sides):
    """The router forwards fragments one by one, in the order in which they come."""
    for most in CUTS:
        header = packets.header(0, protocol=UDP, src=FAR_LEFT, dst=FAR_RIGHT, ident=random.randrange(65536), flags=0)
        parts = in_any_order(framed(cut(header, random.randbytes(480 if most == 8 else 3000), most), HARDWARE["left"]))
        send_chunk(sides, "left", parts, MODEL, [])


def is_told(side, hardware, frame):
    """Whether an error comes about a fragment whose packet did not become whole (RFC 792)."""
    own, src = socket.inet_aton("10.1.0.1"), frame[26:30]
    body = icmp.message(11, 1, 0, frame[14 : 14 + 548], own, src)
    expected, end = icmp.framed(body, own, src, hardware, ELSEWHERE), time.monotonic() + LATEST
    while expected not in side.came_out and time.monotonic() < end:
        side.take(0.02)
    return side.came_out.count(expected) == 1


def time_exceeded(program, clock):
    """With a fast clock: after a minute the sender of the first fragment is told, and only that."""
    room, there = Namespace(), Namespace()
    router = start_router(room, there, program, env={**os.environ, "LD_PRELOAD": clock, "FAST_CLOCK": "100"})
    side, dst = WideSide(SELF, "left"), socket.inet_aton("10.1.0.1")
    settle(side)
    for most in (8, 1480):
        side.forget()
        header = packets.header(0, protocol=UDP, src=FAR_LEFT, dst=dst, ident=most, flags=0)
        later = packets.header(0, protocol=UDP, src=FAR_LEFT, dst=dst, ident=most + 1, flags=0)
        parts, others = (framed(cut(one, random.randbytes(3000), most), HARDWARE["left"]) for one in (header, later))
        start = time.monotonic()
        for frame in (others[1], parts[1], parts[0]):
            side.sock.send(frame)
        check("time exceeded", is_told(side, HARDWARE["left"], parts[0]), most)
        check("a minute", time.monotonic() - start > 0.55, time.monotonic() - start)
        time.sleep(SILENCE)
        settle(side)
        check("errors", sum(icmp.is_error(frame) for frame in side.came_out) == 1)
    router.ends("with fragments and a fast clock")


def to_router(program, clock):
    room, there = Namespace(), Namespace()
    router = start_router(room, there, program, OF_TAPS)
    sides = {"left": WideSide(SELF, "left"), "right": WideSide(there.process, "right")}
    settle(*sides.values())
    from_kernel(socket.AF_INET, "10.1.0.1", LENGTHS, False)
    from_kernel(socket.AF_INET6, "fd01::1", IPV6_LENGTHS, False)
    own, hardware = socket.inet_aton("10.1.0.1"), HARDWARE["left"]
    echo_in_fragments(sides["left"], FAR_LEFT, own, hardware)
    without_answer(sides["left"], FAR_LEFT, own, hardware)
    after_losses(sides["left"], FAR_LEFT, own, hardware)
    addrs = [socket.inet_pton(socket.AF_INET6, one) for one in ("3fff::7", "fd01::1")]
    echo_over_ipv6(sides["left"], *addrs, hardware)
    faulty_over_ipv6(sides["left"], *addrs, hardware)
    addrs[0] = socket.inet_pton(socket.AF_INET6, "fd01::77")
    without_advert(sides["left"], *addrs, hardware)
    before = router.counters()
    forwarded(sides)
    compare_counters(router, before, [])
    check("forwarded fragments", router.counters()["fragments"] == before["fragments"])
    no_errors(there)
    router.ends("with fragments")
    time_exceeded(program, clock)


# ---- through a NAT


def udp_packet(src, dst, src_port, dst_port, data):
    return packets.udp(data, src_port, dst_port, src=src, dst=dst)


def send_cut(side, src, dst, body, most, hardware, src_hardware=ELSEWHERE):
    header = packets.header(0, protocol=UDP, src=src, dst=dst, ident=random.randrange(65536), flags=0)
    for frame in in_any_order(framed(cut(header, body, most), hardware, src_hardware)):
        side.sock.send(frame)


def translated_both_ways(sides):
    """A packet in fragments leaves with the outside address, and the answer comes in with the inside one."""
    outside, port = socket.inet_aton(OUTSIDE), OWN_PORTS
    for length in (1480, 1806, 8000, 65_507):
        for most in CUTS[: 3 if length < 8000 else 2]:
            for side in sides.values():
                side.forget()
            port, data = port + 1, random.randbytes(length)
            send_cut(sides["left"], FAR_LEFT, FAR_RIGHT, udp_packet(FAR_LEFT, FAR_RIGHT, port, 53, data), most, HARDWARE["left"])
            wholes = came_to_elsewhere(sides["right"], bool)
            expected = {(outside, FAR_RIGHT): udp_packet(outside, FAR_RIGHT, port, 53, data)}
            check("fragments that leave", {key[:2]: whole for key, whole in wholes.items()} == expected, (length, most))
            send_cut(sides["right"], FAR_RIGHT, outside, udp_packet(FAR_RIGHT, outside, 53, port, data), most, HARDWARE["right"])
            wholes = came_to_elsewhere(sides["left"], bool)
            expected = {(FAR_RIGHT, FAR_LEFT): udp_packet(FAR_RIGHT, FAR_LEFT, 53, port, data)}
            check("fragments that come in", {key[:2]: whole for key, whole in wholes.items()} == expected, (length, most))


def own_identifications(sides):
    """Two hosts inside have the same identification at a time, and their fragments do not mix outside (RFC 6864)."""
    for side in sides.values():
        side.forget()
    idents, outside = set(), socket.inet_aton(OUTSIDE)
    for n in range(2):
        src = FAR_LEFT[:3] + bytes([20 + n])
        header = packets.header(0, protocol=UDP, src=src, dst=FAR_RIGHT, ident=77, flags=0)
        for frame in framed(cut(header, udp_packet(src, FAR_RIGHT, OWN_PORTS + 1000 + n, 53, bytes(3000)), 1480), HARDWARE["left"]):
            sides["left"].sock.send(frame)
    wholes = came_to_elsewhere(sides["right"], lambda found: len(found) == 2)
    idents = {key[2] for key in wholes}
    check("identifications", len(wholes) == len(idents) == 2 and {key[0] for key in wholes} == {outside}, wholes.keys())


def whole_packets(sides):
    """A packet that may be fragmented later gets an identification of the NAT, and one with DF keeps its own (RFC 6864, section
    5.3.1). The checksum of the header stays right."""
    for side in sides.values():
        side.forget()
    outside, ports, sent = socket.inet_aton(OUTSIDE), OWN_PORTS + 2000, []
    for n, flags in enumerate((0, 0, 0x4000, 0x4000)):
        src = FAR_LEFT[:3] + bytes([30 + n])
        header = packets.header(12, protocol=UDP, src=src, dst=FAR_RIGHT, ident=77, flags=flags, options=bytes([1, 1, 1, 0] * n))
        sent += framed([header + udp_packet(src, FAR_RIGHT, ports + n, 53, b"data")], HARDWARE["left"])
        sides["left"].sock.send(sent[-1])
    found = {}

    def is_done():
        sides["right"].take(0.02)
        for frame in sides["right"].came_out:
            if frame.startswith(ELSEWHERE) and frame[12:14] == b"\x08\0" and frame[26:30] == outside:
                found[number(frame[14 + 4 * (frame[14] & 15) :][:2]) - ports] = frame
        return len(found) == len(sent)

    until(is_done)
    idents = [number(found[n][18:20]) for n in sorted(found)]
    check("identifications of whole packets", len(set(idents[:2])) == 2 and idents[2:] == [77, 77], idents)
    sums = [packets.word_sum(frame[14 : 14 + 4 * (frame[14] & 15)]) for frame in found.values()]
    check("checksums of whole packets", sums == [0xFFFF] * len(sent), sums)


def incomplete(nat, sides):
    """A sender has at most 8 incomplete packets, in both directions, and others still have theirs (RFC 4787, REQ-14)."""
    before = nat.counters()
    for ident in range(12):
        header = packets.header(0, protocol=UDP, src=FAR_LEFT, dst=FAR_RIGHT, ident=ident, flags=0)
        sides["left"].sock.send(framed(cut(header, bytes(3000), 1480), HARDWARE["left"])[1])
    compare_counters(nat, before, ["fragments"] * 12)
    own_identifications(sides)
    after_losses(sides["right"], FAR_RIGHT, socket.inet_aton(OUTSIDE), HARDWARE["right"])


def through_nat(program, start=start_nat):
    room, there = Namespace(), Namespace()
    nat = start(room, there, program)
    server = there.serve(*SERVERS, "fd02::2")
    sides = {"left": WideSide(SELF, "left"), "right": WideSide(there.process, "right")}
    settle(*sides.values())
    from_kernel(socket.AF_INET6, "fd02::2", (1453, 8000, 60_000, 65_487), True)
    check("fragments over IPv6", "fragments" not in nat.counters(), nat.counters())
    from_kernel(socket.AF_INET, SERVERS[0], (1473, 1806, 8000, 60_000, 65_507), True)
    from_kernel(socket.AF_INET, OUTSIDE, (1473, 60_000), False)
    from_kernel(socket.AF_INET6, "fd02::1", (1, 1453, 60_000), False)
    with bound(socket.SOCK_DGRAM, (INSIDE[0], 5600)) as sock, there.entered(), bound(socket.SOCK_DGRAM, (SERVERS[1], 5555)) as other:
        check("port that is kept", seen_by(sock, SERVERS[0]) == (OUTSIDE, 5600))
        check("ping of the NAT in fragments", ping(socket.AF_INET, OUTSIDE, random.randbytes(60_000), 1))
        for length in (1806, 8000, 65_507):
            data = random.randbytes(length)
            other.sendto(data, (OUTSIDE, 5600))
            check("fragments from outside", sock.recv(70_000) == data, length)
    translated_both_ways(sides)
    own_identifications(sides)
    whole_packets(sides)
    incomplete(nat, sides)
    no_errors(there)
    nat.ends("with fragments")
    server.kill()


if __name__ == "__main__":
    modes = {"host": to_host, "router": to_router, "nat": through_nat,
             "sockets": lambda program: through_nat(program, start_on_pairs)}
    sys.exit(report(f"fragments {sys.argv[1]}", modes[sys.argv[1]], *sys.argv[2:]))
