#!/usr/bin/env python3
"""The kernel's side of tests/kernel, for programs/router.c.

tests/kernel/router.py taps PROGRAM CLOCK  exchanges packets through a router on TAP devices, and compares all frames
tests/kernel/router.py sockets PROGRAM     through a router on packet sockets, with the offloads of the kernel

CLOCK is a clock to be preloaded, which goes slowly while packets wait for a neighbour. This process is a host on one side, and a namespace of its own is the host on the other side. Prints how many exchanges
were right. The status is 1 if one was wrong, or if a kernel counted an error.
"""
import ipaddress
import socket
import sys
import time

import icmp
import packets
from dice import ANY as random
from forwarded import SYN, TCP, Packet, Router, is_valid
from client import check, echoed, report, tcp_at_once, tcp_turns, udp_lengths, wrong
from links import (ELSEWHERE, MTU_DISCOVER, PMTUDISC_INTERFACE, PMTUDISC_PROBE, SELF, Here, Namespace, Program, WideSide,
                   no_errors, ping, reads_smaller_mtu, reads_whole_mtu, settle, udp_echo, wait_until_idle)
from rebuilt import MAX_SEG_SIZE, last_options, number
from routed_frames import HARDWARE, HOSTS, RANDOM_FRAMES, hostile_frames
from waits import LATEST, Clock, joins_groups, until

CONFIG = """
# The links, and what is behind the host on the left and behind another router on the right.
address 10.1.0.1/24 dev left
address fd01::1/64 dev left
address 10.2.0.1/24 dev right
address fd02::1/64 dev right
address 10.5.0.1/24 dev left
address fd05::1/64 dev left
route 203.0.113.0/24 via 10.1.0.9 dev left
route 3fff::/20 via fd01::9 dev left
route 198.18.0.0/15 via 10.2.0.9 dev right
route 2001:db8::/32 via fd02::9 dev right
""" + "".join(f"neighbour {addr} lladdr {ELSEWHERE.hex(':')} dev {name}\n" for addr, name in (
    ("10.1.0.9", "left"), ("fd01::9", "left"), ("10.2.0.9", "right"), ("fd02::9", "right")))
OF_TAPS = CONFIG + "".join(f"lladdr {addr.hex(':')} dev {name}\n" for name, addr in HARDWARE.items())
ADDRESSES = [("10.1.0.1/24", "left"), ("fd01::1/64", "left"), ("10.2.0.1/24", "right"), ("fd02::1/64", "right"),
             ("10.5.0.1/24", "left"), ("fd05::1/64", "left")]
MODEL = Router(
    HARDWARE, ADDRESSES,
    [("203.0.113.0/24", ELSEWHERE, "left"), ("3fff::/20", ELSEWHERE, "left"), ("198.18.0.0/15", ELSEWHERE, "right"),
     ("2001:db8::/32", ELSEWHERE, "right")],
    {ipaddress.ip_address(addr): HOSTS[name] for addr, name in (
        ("10.1.0.2", "left"), ("fd01::2", "left"), ("10.2.0.2", "right"), ("fd02::2", "right"))})
SERVERS = ((socket.AF_INET, "10.2.0.2"), (socket.AF_INET6, "fd02::2"))
HOST = """
    ip link set {name} down address {hardware} && ip link set {name} up
    ip address replace 10.{n}.0.2/24 dev {name} && ip address replace fd0{n}::2/64 dev {name} nodad
    ip route replace default via 10.{n}.0.1 && ip -6 route replace default via fd0{n}::1 dev {name}
"""
AT_ONCE, MOST_WRONG = 64, 3
CLAMP = "clamp dev right\n"
ARP = b"\x08\x06"


def set_host(namespace, name):
    namespace.run(HOST.format(name=name, n=1 + (name == "right"), hardware=HOSTS[name].hex(":")))
    namespace.waits_for_neighbours(name)
    joins_groups(namespace.process)


def start_on_taps(room, there, program, config=OF_TAPS, **words):
    """The router in the namespace `room`, with a TAP device in this one and one in that of the other host."""
    router = Program(room, program, config, ["tap:left", "tap:right"], **words)
    room.run(f"ip link set left netns {SELF} && ip link set right netns {there.process}")
    set_host(Here(), "left")
    set_host(there, "right")
    return router


def make_pairs(room, there):
    """Pairs of virtual Ethernet devices from the namespace of the router to both hosts."""
    Here().run("ip link delete left 2> /dev/null || true")  # of a namespace that has not ended yet
    for name, namespace in (("left", Here()), ("right", there)):
        room.run(f"ip link add dev {name} address {HARDWARE[name].hex(':')} type veth peer name {name} netns {namespace.process}")
        room.run(f"ip link set {name} addrgenmode none && ip link set {name} up")
        set_host(namespace, name)


def start_on_pairs(room, there, program, **words):
    make_pairs(room, there)
    return Program(room, program, CONFIG, ["packet:left", "packet:right"], **words)


# ---- frames


def compare_lists(kind, expected, came_out):
    for n in range(max(len(expected), len(came_out))):
        right, found = (frames[n] if n < len(frames) else None for frames in (expected, came_out))
        right = right(found or b"") if callable(right) else right
        check(kind, right == found, f"\n    is    {found and found.hex()}\n    not   {right and right.hex()}")
        if right != found:
            return


def compare_sides(kind, sides, model=MODEL):
    """The frames of the kernels on both sides, once all have come. Returns False if some were lost, so that they cannot be
    compared."""
    end = time.monotonic() + LATEST
    while True:
        if not settle(*sides.values()):
            print("tests/kernel: skipped: a comparison: the capture has lost frames")
            break
        expected = {name: [] for name in sides}
        for name, side in sides.items():
            for to, out in (model.fate(frame, name) for frame in side.handed):
                if out:
                    expected[to].append(out)
        came_out = {name: [frame for frame in side.came_out if not model.is_from_router(frame)] for name, side in sides.items()}
        if all(len(expected[name]) <= len(came_out[name]) for name in sides) or time.monotonic() > end:
            break
    is_complete = not any(side.has_lost() for side in sides.values())
    for name, side in sides.items():
        side.forget()
        if is_complete:
            # The kernel may change the order of frames that two processors send.
            order = list if any(map(callable, expected[name])) else sorted
            compare_lists(kind, order(expected[name]), order(came_out[name]))
    return is_complete


def random_frames(router, sides, count, model=MODEL, make=hostile_frames, at_once=AT_ONCE):
    """What comes out of the router, and what it counts, for frames in both directions by turns."""
    made = {name: list(make(count // 2, name)) for name in sides}
    before, fates, told = router.counters(), [], {name: [] for name in sides}
    for side in sides.values():
        side.forget()
    for at in range(0, count // 2, at_once):
        for name in sides:
            chunk = made[name][at : at + at_once]
            fates += [why for why, out in send_chunk(sides, name, chunk, model, told[name]) if not out]
            if len(wrong) >= MOST_WRONG:
                return
    compare_counters(router, before, fates)
    compare_errors(router, before, sides, told)


def send_chunk(sides, name, chunk, model, told):
    """Sends frames, compares those that come out, and returns the fate of each. Adds to `told` the errors about them, which
    stay in the list of the side."""
    fates, untold, end = [], 0, time.monotonic() + LATEST
    for frame in chunk:
        why, out = model.fate(frame, name)
        fates.append((why, out))
        error = None if out else model.error(frame, name, why)
        told += [error] if error else []
        untold += not out and not error and why in model.errors
        sides[name].sock.send(frame)
    for to, side in sides.items():
        expected, came_out = [out for place, out in fates if out and place == to], []
        while len(came_out) < len(expected) and side.take(max(0, end - time.monotonic())):
            came_out = [frame for frame in side.came_out if frame.startswith(ELSEWHERE)]
        compare_lists("frame", expected, came_out)
        side.came_out = [frame for frame in side.came_out if not frame.startswith(ELSEWHERE)]
        side.handed = []
    return fates + untold * [("dropped without an ICMP error", None)]


def compare_errors(router, before, sides, told):
    """The errors that came out are those that are expected, in their order, but for those above the limit."""
    if not settle(*sides.values()):
        print("tests/kernel: skipped: a comparison: the capture has lost frames")
        return
    withheld = sum(counters.get("ICMP errors above the limit", 0) * sign for counters, sign in ((router.counters(), 1), (before, -1)))
    lacking = 0
    for name, side in sides.items():
        expected = iter(told[name])
        for frame in filter(icmp.is_error, side.came_out):
            if frame[:6] == HOSTS[name]:  # the kernel was told of something else
                continue
            right = next((one for one in expected if one == frame), None)
            check("ICMP error", right is not None, frame.hex())
            if right is None:
                return
        lacking += len(told[name]) - sum(icmp.is_error(frame) and frame[:6] != HOSTS[name] for frame in side.came_out)
        side.forget()
    check("ICMP errors that are sent", lacking == withheld, (lacking, withheld))


def compare_counters(router, before, fates):
    """The reasons that the router counts, once it has taken all frames. The kernels send to groups too."""
    expected = {why: fates.count(why) for why in set(fates) - {"ARP", "group or broadcast"}}
    end = time.monotonic() + LATEST
    while True:
        after = router.counters()
        found = {why: after.get(why, 0) - before.get(why, 0) for why in expected}
        if found == expected or time.monotonic() > end:
            break
        time.sleep(0.02)
    for why, count in expected.items():
        check("counter", found[why] == count, (why, found[why], count))


# ---- exchanges


def udp(sides):
    """UDP packets of every length: one frame, and fragments. Without a checksum, and with IP options."""
    for family, address in SERVERS:
        udp_lengths(family, address)
        for length in [*range(1400, 65508, 997), 65507]:
            data = random.randbytes(length - 20 * (family == socket.AF_INET6))
            check("UDP in fragments", udp_echo(family, (address, 7), data) == data, (address, length))
    compare_sides("frame of the kernel", sides)
    for n in range(64):
        data = random.randbytes(n)
        for option in ((socket.SOL_SOCKET, 11, 1), (socket.IPPROTO_IP, socket.IP_TOS, 4 * n + n % 4),
                       (socket.IPPROTO_IP, socket.IP_OPTIONS, b"\x01" * (n % 40) + b"\0"),
                       (socket.IPPROTO_IP, socket.IP_TTL, 2 + n)):
            found = udp_echo(socket.AF_INET, ("10.2.0.2", 7), data, options=[option])
            check("UDP with an option", found == data, option)
    compare_sides("frame of the kernel", sides)


def echo_requests():
    for family, address in SERVERS:
        for n in range(40):
            check("ping", ping(family, address, random.randbytes(random.randrange(1400)), n), (address, n))


def tcp(sides):
    for family, address in SERVERS:
        settle(*sides.values())
        compare_sides("frame of the kernel", sides)
        for length in [0, 1, 1460, 1461] + [random.randrange(5000) for _ in range(10)]:
            data = random.randbytes(length)
            check("TCP", echoed(family, address, data) == data, (address, length))
            compare_sides("frame of the kernel", sides)
        data = random.randbytes(4 << 20)
        check("TCP", echoed(family, address, data) == data, (address, len(data)))
        tcp_turns(family, address)
        tcp_at_once(family, address)
        for side in sides.values():
            side.forget()


def last_hop(router):
    """A packet with hop limit 1 goes no further."""
    before = router.counters()
    with socket.socket(socket.AF_INET, socket.SOCK_DGRAM) as sock:
        sock.setsockopt(socket.IPPROTO_IP, socket.IP_TTL, 1)
        for _ in range(20):
            sock.sendto(b"x", ("10.2.0.2", 7))
        compare_counters(router, before, ["LK_HOP_LIMIT_TOO_LOW"] * 20)  # the kernel counts an ICMP error that finds no socket


def asked_for(side, addr):
    """How many ARP requests or neighbour solicitations for an address came out."""
    side.take()
    return sum(frame[38:42] == addr and frame[20:22] == b"\0\1" if frame[12:14] == ARP else
               frame[62:78] == addr and frame[20] == icmp.ICMPV6 and frame[54] == icmp.SOLICITATION for frame in side.came_out)


def silent_neighbour(router, sides, there, clock):
    """One request a second at most for an address, fewer where the packets are late, and the latest ones wait for the reply."""
    for family, front in ((socket.AF_INET, "10.2.0."), (socket.AF_INET6, "fd02::")):
        absent, late = front + "99", front + "98"
        before, start = router.counters(), time.monotonic()
        with socket.socket(family, socket.SOCK_DGRAM) as sock:
            for _ in range(24):
                sock.sendto(b"", (absent, 7))
                time.sleep(0.1)
            until(lambda: asked_for(sides["right"], socket.inet_pton(family, absent)) > 1)
            count, seconds = asked_for(sides["right"], socket.inet_pton(family, absent)), time.monotonic() - start
            check("requests", 1 < count < seconds + 1, (absent, count, seconds))
            with clock.slowly():
                for n in range(80):
                    sock.sendto(bytes([n]), (late, 7))
                wait_until_idle()
                server = there.listens(family, late, "right")
            with server:  # the next request gets a reply
                check("packets that waited", [server.recv(9)[0] for _ in range(64)] == list(range(16, 80)), late)
            compare_counters(router, before, ["no neighbour"] * (24 + 16))
        there.run(f"ip address delete {late}/{32 if family == socket.AF_INET else 128} dev right")
        sides["right"].forget()


def arp_replies(sides):
    """The router replies for its own address on this link, also to a probe, and for no other one."""
    side, own, host = sides["left"], socket.inet_aton("10.1.0.1"), socket.inet_aton("10.1.0.2")
    for addr, sender in ((own, host), (own, bytes(4)), (socket.inet_aton("10.2.0.1"), host), (host, bytes(4))):
        settle(side)
        side.forget()
        request = packets.arp(1, sha=HOSTS["left"], spa=sender, tpa=addr)
        side.sock.send(packets.ethernet(packets.ARP, request, b"\xff" * 6, HOSTS["left"]))
        settle(side)
        reply = packets.arp(2, sha=HARDWARE["left"], spa=addr, tha=HOSTS["left"], tpa=sender)
        expected = [packets.ethernet(packets.ARP, reply, HOSTS["left"], HARDWARE["left"])] if addr == own else []
        compare_lists("ARP", expected, [frame for frame in side.came_out if frame[12:14] == ARP])


def three_interfaces(room, program):
    """Packets from each of three interfaces to each of them."""
    there, hardware = Namespace(), {**HARDWARE, "third": bytes.fromhex("02000000aa03")}
    names = list(enumerate(hardware, 1))
    config = "".join(f"address 10.{n}.0.1/24 dev {name}\nlladdr {hardware[name].hex(':')} dev {name}\n"
                     f"route 198.18.{n}.0/24 via 10.{n}.0.9 dev {name}\n"
                     f"neighbour 10.{n}.0.9 lladdr {ELSEWHERE.hex(':')} dev {name}\n" for n, name in names)
    router = Program(room, program, config, [f"tap:{name}" for name in hardware])
    for name in hardware:
        room.run(f"ip link set {name} netns {there.process}")
        there.run(f"ip link set {name} up")
    model = Router(hardware, [(f"10.{n}.0.1/24", name) for n, name in names],
                   [(f"198.18.{n}.0/24", ELSEWHERE, name) for n, name in names], {})
    sides = {name: WideSide(there.process, name) for name in hardware}
    for n, name in names * 4:
        ends = [(random.choice((n, n, 1)), random.randint(1, 4)) for _ in range(AT_ONCE)]
        chunk = [packets.packet(random.randbytes(9), src=bytes([198, 18, src, 7]), dst=bytes([198, 18, dst, 8])) for src, dst in ends]
        send_chunk(sides, name, [hardware[name] + HOSTS["left"] + frame[12:] for frame in chunk], model, [])
    router.ends("with three interfaces")


def on_taps(program, library):
    room, there, clock = Namespace(), Namespace(), Clock(library, program)
    three_interfaces(room, program)
    router = start_on_taps(room, there, program, env=clock.env)
    server = there.serve(*(address for _, address in SERVERS))
    sides = {"left": WideSide(SELF, "left"), "right": WideSide(there.process, "right")}
    for exchange, place in ((udp, (sides,)), (echo_requests, ()), (tcp, (sides,)), (last_hop, (router,)),
                            (silent_neighbour, (router, sides, there, clock)), (arp_replies, (sides,)),
                            (random_frames, (router, sides, RANDOM_FRAMES))):
        exchange(*place)
    # Short queues lose packets.
    Here().run("ip link set left txqueuelen 8")
    there.run("ip link set right txqueuelen 8")
    for family, address in SERVERS:
        data = random.randbytes(1 << 20)
        check("TCP with loss", echoed(family, address, data) == data, address)
    no_errors(there)
    router.ends("of a router on TAP devices")
    clamps(room, there, program)
    server.kill()


# ---- the MSS clamp


def longer_hosts(there):
    """Both hosts have a longer MTU than the router."""
    Here().run("ip link set left mtu 9000")
    there.run("ip link set right mtu 9000")


def sizes(frames):
    """The maximum segment sizes of these SYNs. Their checksums are valid, or left to the device: the sum of the pseudo-header."""
    found = set()
    for packet in map(Packet, frames):
        if packet.is_whole and packet.protocol == TCP and packet.payload[13] & SYN:
            found.add(number(last_options(packet.payload[20 : packet.payload[12] // 16 * 4])[MAX_SEG_SIZE]))
            left = packets.word_sum(packets.pseudo_header(*packet.ends, TCP, len(packet.payload)))
            check("checksum of a SYN", is_valid(packet) or number(packet.payload[16:18]) == left, packet.frame.hex())
    return found


def clamps_tcp(router, sides, longest, mtu):
    """The SYN and its answer, in both directions over a link with this MTU, name segments that fit it, and so none is too long."""
    for family, address in SERVERS:
        settle(*sides.values())
        for side in sides.values():
            side.forget()
        data, headers = random.randbytes(300_000), 40 if family == socket.AF_INET else 60
        check("TCP over a smaller link", echoed(family, address, data) == data, address)
        settle(*sides.values())
        for name, side in sides.items():
            found = sizes(side.handed), sizes(side.came_out)
            check("segment sizes", found == ({longest - headers}, {mtu - headers}), (address, name, found))
    check("too long", "too long" not in router.counters())


def clamps(room, there, program):
    router = start_on_taps(room, there, program, OF_TAPS + CLAMP)
    sides = {"left": WideSide(SELF, "left"), "right": WideSide(there.process, "right")}
    model = MODEL.but(clamps={"right": 1500})
    longer_hosts(there)
    clamps_tcp(router, sides, 9000, 1500)
    compare_sides("clamped frame", sides, model)
    random_frames(router, sides, RANDOM_FRAMES // 4, model)
    router.ends("of a router that clamps")


# ---- packet sockets


def offloads(router, sides):
    """Large frames of the kernel, whose checksums are left to the device, go on as they came."""
    whole, longest = MODEL.but(longest=65535, least=60), 0
    for family, address in SERVERS:
        for length in range(0, 1400, 7):
            data = random.randbytes(length)
            check("UDP", udp_echo(family, (address, 7), data) == data, (address, length))
        compare_sides("frame of the kernel", sides, whole)
        for length in (1, 5000, 1 << 20):
            data = random.randbytes(length)
            check("TCP", echoed(family, address, data) == data, (address, length))
            longest = max(longest, longest_handed(sides["left"]))
            counters = router.counters()
            if counters["left missed"] + counters["right missed"] > 0:  # in a user namespace its sockets are short
                print("tests/kernel: skipped: a comparison: the sockets of the router are short")
                break
            compare_sides("frame of the kernel", sides, whole)
    check("frames of 64 KB", longest > 60_000, longest)
    tcp_at_once(*SERVERS[0])


def longest_handed(side):
    settle(side)
    return max(map(len, side.handed), default=0)


def without_dont_fragment(room, there):
    """A packet without DF that is longer than the next MTU comes in fragments. So does its echo, which the kernel cuts."""
    for end in (room, there):
        end.run("ip link set right mtu 1300")
    reads_smaller_mtu(socket.AF_INET, ("10.2.0.2", 7))
    with socket.socket(socket.AF_INET, socket.SOCK_DGRAM) as sock:
        sock.setsockopt(socket.IPPROTO_IP, MTU_DISCOVER, PMTUDISC_INTERFACE)
        sock.settimeout(LATEST)
        for data in map(random.randbytes, (1273, 1372, 1472)):
            sock.sendto(data, ("10.2.0.2", 7))
            check("UDP without DF", sock.recv(65535) == data, len(data))
    there.run("ip link set right mtu 1500")


def smaller_mtu(router, room):
    """Packets and segments that are longer than the next MTU are dropped. The kernel has to learn the MTU for each."""
    room.run("ip link set right mtu 1000")
    reads_smaller_mtu(socket.AF_INET, ("10.2.0.2", 7), 1100)
    before = router.counters()
    with socket.socket(socket.AF_INET, socket.SOCK_DGRAM) as sock:
        sock.setsockopt(socket.IPPROTO_IP, MTU_DISCOVER, PMTUDISC_PROBE)
        for length in (973, 1400):
            sock.sendto(bytes(length), ("10.2.0.2", 7))
        compare_counters(router, before, ["too long"] * 2)  # the kernel counts an ICMP error that finds no socket
    Here().run("ip route flush cache")
    check("UDP of the MTU", udp_echo(socket.AF_INET, ("10.2.0.2", 7), bytes(972)) == bytes(972))
    Here().run("ip route flush cache")
    with socket.create_connection(("10.2.0.2", 7), timeout=LATEST) as sock:
        sock.sendall(bytes(5000))
        are_too_long = until(lambda: router.counters()["too long"] - before.get("too long", 0) > 2)
        check("a large frame with long segments", are_too_long, router.counters())
        room.run("ip link set right mtu 1500")
        with sock.makefile("rb") as file:
            check("TCP with another MTU", len(file.read(5000)) == 5000)
    reads_whole_mtu(("10.2.0.2", 7))


def tagged_frames(router, sides):
    """The kernel takes the tag of a VLAN out of a frame. The router drops it: it is from another link."""
    side, before = sides["left"], router.counters()
    packet = packets.header(8, protocol=17, src=socket.inet_aton("10.1.0.2"), dst=socket.inet_aton("10.2.0.2")) + bytes(8)
    for tag in (b"\x81\0\0\x05", b"\x88\xa8\0\x05", b"\x81\0\x20\0"):
        side.sock.send(HARDWARE["left"] + HOSTS["left"] + tag + b"\x08\0" + packet)
    compare_counters(router, before, ["VLAN tag"] * 3)


def short_frames(sides):
    """Padding is zeros, whatever it was before."""
    for n in range(30):
        side = sides["right"]
        side.forget()
        data = packets.udp(bytes([n]) * n, 9, 9, src=bytes([10, 1, 0, 2]), dst=bytes([198, 18, 0, 1]))
        padding = b"padding of the sender" * (n % 3)
        frame = packets.packet(data, padding, protocol=17, src=bytes([10, 1, 0, 2]), dst=bytes([198, 18, 0, 1]))
        frame = HARDWARE["left"] + HOSTS["left"] + frame[12:]
        sides["left"].sock.send(frame)
        until(lambda: side.take(0.05) and any(frame.startswith(ELSEWHERE) for frame in side.came_out))
        came_out = [frame for frame in side.came_out if frame.startswith(ELSEWHERE)]
        compare_lists("padding", [MODEL.but(least=60).fate(frame, "left")[1]], came_out)


def on_sockets(program):
    room, there = Namespace(), Namespace()
    router = start_on_pairs(room, there, program)
    server = there.serve(*(address for _, address in SERVERS))
    sides = {"left": WideSide(SELF, "left"), "right": WideSide(there.process, "right")}
    padded = MODEL.but(least=60)
    offloads(router, sides)
    without_dont_fragment(room, there)
    smaller_mtu(router, room)
    tagged_frames(router, sides)
    short_frames(sides)
    random_frames(router, sides, RANDOM_FRAMES, padded)
    no_errors(there)
    router.ends("of a router on packet sockets")
    room.run("ip link set right mtu 1300")
    Here().run("ip route flush cache")  # it has the MTU of before
    router = Program(room, program, CONFIG + CLAMP, ["packet:left", "packet:right"])
    clamps_tcp(router, sides, 1500, 1300)
    router.ends("of a router on packet sockets that clamps")
    server.kill()


if __name__ == "__main__":
    modes = {"taps": on_taps, "sockets": on_sockets}
    sys.exit(report(f"router {sys.argv[1]}", modes[sys.argv[1]], *sys.argv[2:]))
