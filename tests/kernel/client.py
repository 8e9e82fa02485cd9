#!/usr/bin/env python3
"""The kernel's side of tests/kernel, for the two hosts.

tests/kernel/client.py host DEVICE    exchanges packets with programs/host.c on this TAP device
tests/kernel/client.py proved DEVICE  the same with programs/proved_host.c, which keeps no connection
tests/kernel/client.py address ADDRESS  exchanges packets with an echo server

Prints how many exchanges were right. The status is 1 if one was wrong, or if the kernel counted an error.
"""
import select
import socket
import struct
import sys
import threading
import time

import packets
from dice import ANY as random
from packets import word_sum
from waits import LATEST

HOST_HARDWARE = bytes.fromhex("02000000aa07")
HOSTS = ((socket.AF_INET, "10.77.0.1", "10.77.0.2"), (socket.AF_INET6, "fd77::1", "fd77::2"))
ECHO, CLOSED, MTU = 7, 9, 1500
# The ports of frames that are built here. The kernel gives no socket a port below 32768 by itself.
PROBE, UDP_CLIENT, TCP_CLIENT, SYN_CLIENT = 19999, 20000, 21000, 22000
UDP, TCP, ARP = socket.IPPROTO_UDP, socket.IPPROTO_TCP, b"\x08\x06"
MOST_WRONG = 10
FIN, SYN, RST, ACK = 1, 2, 4, 16
# Counters of /proc/net/snmp, netstat and snmp6 that must stay 0.
ERRORS = ("InErrors", "InErrs", "InCsumErrors", "InHdrErrors", "InTruncatedPkts")

counts, wrong = {}, []


def check(kind, holds, what=""):
    counts[kind] = counts.get(kind, 0) + 1
    if not holds:
        wrong.append(kind)
        print(f"tests/kernel: wrong: {kind} {what}", file=sys.stderr)
        if len(wrong) == MOST_WRONG:
            sys.exit(f"tests/kernel: wrong {MOST_WRONG} times")


def kernel_counters():
    """The counters of this namespace, as a dictionary."""
    found = {}
    for path in ("/proc/net/snmp", "/proc/net/netstat"):
        with open(path, encoding="ascii") as file:
            lines = file.read().splitlines()
        for names, values in zip(lines[::2], lines[1::2]):
            layer = names.split(":")[0]
            found.update((layer + name, int(value)) for name, value in zip(names.split()[1:], values.split()[1:]))
    with open("/proc/net/snmp6", encoding="ascii") as file:
        found.update((name, int(value)) for name, value in (line.split() for line in file))
    return found


def kernel_errors():
    """The counters of errors that are not 0. The kernel counts a SYN and ACK that comes again to an open connection. That is
    right if a segment was late or lost, so that the kernel has sent segments again."""
    counters = kernel_counters()
    again = min(counters["TcpInErrs"], counters["TcpExtTCPSYNChallenge"], counters["TcpRetransSegs"])
    counters["TcpInErrs"] -= again
    return {name: value for name, value in counters.items() if value and name.endswith(ERRORS)}


def udp_socket(family, address):
    sock = socket.socket(family, socket.SOCK_DGRAM)
    sock.settimeout(LATEST)
    sock.setsockopt(socket.SOL_SOCKET, socket.SO_RCVBUF, 1 << 22)
    sock.connect((address, ECHO))
    return sock


def received(sock):
    try:
        return sock.recv(65535)
    except OSError as error:
        return error


def udp_lengths(family, address):
    """Each length of a payload that fits into a frame."""
    with udp_socket(family, address) as sock:
        for length in range(MTU - (28 if family == socket.AF_INET else 48) + 1):
            data = random.randbytes(length)
            sock.send(data)
            check("UDP length", received(sock) == data, (address, length))


def udp_checksums(family, address):
    """Each payload of two bytes, so that the checksum has each value, 0 too."""
    with udp_socket(family, address) as sock:
        for first in range(0, 65536, 64):
            sent = [struct.pack(">H", number) for number in range(first, first + 64)]
            for data in sent:
                sock.send(data)
            back = {received(sock) for _ in sent}
            for data in sent:
                check("UDP checksum", data in back, (address, data.hex()))


def echoed(family, address, data, port=ECHO):
    """What comes back by TCP until the end."""
    with socket.socket(family, socket.SOCK_STREAM) as sock:
        sock.settimeout(5 * LATEST)
        sock.connect((address, port))

        def send():
            sock.sendall(data)
            sock.shutdown(socket.SHUT_WR)

        thread = threading.Thread(target=send, daemon=True)
        thread.start()
        back = bytearray()
        try:
            while more := sock.recv(1 << 16):
                back += more
        except OSError as error:
            return error
        thread.join(1)
        return bytes(back)


def tcp_echo(family, address):
    for length in [0, 1, 2, 1459, 1460, 1461, 20_000, 1 << 20, 1 << 20] + [random.randrange(400) for _ in range(20)]:
        data = random.randbytes(length)
        check("TCP echo", echoed(family, address, data) == data, (address, length))


def tcp_turns(family, address):
    """Many sends and answers on one connection."""
    with socket.create_connection((address, ECHO), timeout=LATEST) as sock:
        sock.setsockopt(socket.IPPROTO_TCP, socket.TCP_NODELAY, 1)
        for turn in range(100):
            data, back = random.randbytes(random.randrange(1, 3000)), b""
            sock.sendall(data)
            while len(back) < len(data):
                more = sock.recv(65536)
                if not more:
                    break
                back += more
            check("TCP turn", back == data, (address, turn))


def tcp_at_once(family, address):
    results = []

    def one():
        data = random.randbytes(100_000)
        results.append(echoed(family, address, data) == data)

    threads = [threading.Thread(target=one) for _ in range(16)]
    for thread in threads:
        thread.start()
    for thread in threads:
        thread.join()
    for n in range(len(threads)):
        check("TCP at once", n < len(results) and results[n], address)


def tcp_of(frame):
    """The TCP segment in a frame, or None."""
    at = 34 if frame[12:14] == b"\x08\x00" else 54
    protocol = frame[23] if at == 34 else frame[20]
    end = 14 + int.from_bytes(frame[16:18], "big") if at == 34 else 54 + int.from_bytes(frame[18:20], "big")
    return frame[at:end] if frame[12] in (0x08, 0x86) and protocol == TCP else None


def resets_each(wire, port):
    """Whether as many RSTs came from a port as SYNs went to it."""
    syns, resets, number, end = 0, 0, port.to_bytes(2, "big"), time.monotonic() + LATEST
    while select.select([wire], [], [], max(0, end - time.monotonic()))[0]:
        body = tcp_of(wire.recv(70000)) or bytes(20)
        syns += body[2:4] == number and body[13] & SYN > 0
        resets += body[:2] == number and body[13] & RST > 0
        if resets == syns > 0:
            return True
    return False


def tcp_refused(family, address):
    """Each SYN to a closed port gets a RST, the first one too. The proved host has an open port 80."""
    with socket.socket(socket.AF_PACKET, socket.SOCK_RAW, socket.htons(3)) as wire:
        for port in random.sample(range(81, 65536), 40):
            try:
                socket.create_connection((address, port), timeout=LATEST).close()
                refused = False
            except OSError as error:
                refused = isinstance(error, ConnectionRefusedError)
            check("TCP refused", refused and resets_each(wire, port), (address, port))


def tcp_aborted(family, address):
    """A connection that the kernel ends by RST does not disturb the next."""
    for _ in range(5):
        with socket.create_connection((address, ECHO), timeout=LATEST) as sock:
            sock.sendall(b"x" * 100)
            sock.setsockopt(socket.SOL_SOCKET, socket.SO_LINGER, struct.pack("ii", 1, 0))
        check("TCP after RST", echoed(family, address, b"after") == b"after", address)


# Frames that are built here, apart from the library and the kernel.


class Wire:
    """Frames to a host on a TAP device, over one version of IP."""

    def __init__(self, device, family, own, host, is_proved):
        self.version = 4 if family == socket.AF_INET else 6
        self.is_proved = is_proved
        # The proved host has one segment size for both versions.
        self.max_seg_size = MTU - (60 if is_proved or self.version == 6 else 40)
        self.addresses = [socket.inet_pton(family, own), socket.inet_pton(family, host)]
        self.sock = socket.socket(socket.AF_PACKET, socket.SOCK_RAW, socket.htons(3))
        self.sock.bind((device, 0))
        self.hardware = [self.sock.getsockname()[4], HOST_HARDWARE]

    def packet(self, protocol, body, fault=None, options=b"", fragment=0x4000, is_answer=False):
        """An IP packet with a UDP or TCP packet and a fault in a checksum."""
        src, dst = self.addresses[::-1] if is_answer else self.addresses
        at = 6 if protocol == UDP else 16
        pseudo = packets.pseudo_header(src, dst, protocol, len(body))
        value = 0xFFFF - word_sum(pseudo + body) or (0xFFFF if protocol == UDP else 0)
        if fault == "transport":
            value = value ^ 0x0100 or 0x1234
        if fault == "left out":
            value = 0
        body = body[:at] + struct.pack(">H", value) + body[at + 2 :]
        if self.version == 6:
            return packets.header_ipv6(len(body), next_header=protocol, src=src, dst=dst) + body
        header = packets.header(len(body), protocol=protocol, src=src, dst=dst, options=options, flags=fragment)
        return header[:11] + bytes([header[11] ^ (fault == "IPv4")]) + header[12:] + body

    def frame(self, protocol, body, hardware=HOST_HARDWARE, **fields):
        ethertype = packets.IPV4 if self.version == 4 else packets.IPV6
        return packets.ethernet(ethertype, self.packet(protocol, body, **fields), hardware, self.hardware[0])

    def reply(self, protocol, body):
        """The frame with which the host replies."""
        ethertype = packets.IPV4 if self.version == 4 else packets.IPV6
        return packets.ethernet(ethertype, self.packet(protocol, body, is_answer=True), *self.hardware)

    def answers(self, *frames):
        """The frames with which the host answers these, but for ARP. The host takes frames in their order, so the answer to a
        probe comes after them."""
        marker, found, end = random.randbytes(8), [], time.monotonic() + LATEST
        while select.select([self.sock], [], [], 0)[0]:
            self.sock.recv(70000)
        for frame in frames:
            self.sock.send(frame)
        self.sock.send(self.frame(UDP, struct.pack(">HHHH", PROBE, ECHO, 16, 0) + marker))
        while select.select([self.sock], [], [], max(0, end - time.monotonic()))[0]:
            data, place = self.sock.recvfrom(70000)
            if place[2] == socket.PACKET_OUTGOING or data[12:14] == ARP or data[6:12] != HOST_HARDWARE:
                continue
            if data.endswith(marker):
                return found
            found.append(data)
        check("answer to a probe", False, [frame.hex() for frame in frames])
        return found

    def answer(self, frame):
        """The frame with which the host answers this one, or None. A packet between other ports is no answer."""
        from_port = 14 + (frame[14] % 16 * 4 if self.version == 4 else 40)
        at = 34 if self.version == 4 else 54
        ports = frame[from_port + 2 : from_port + 4] + frame[from_port : from_port + 2]
        found = [one for one in self.answers(frame) if one[12:14] == frame[12:14] and one[at : at + 4] == ports]
        check("one answer at most", len(found) < 2, frame.hex())
        return found[0] if found else None


def wire_udp(wire):
    """What the host answers, and what it drops."""
    for n in range(10):
        data = random.randbytes(random.randrange(1, 64))
        body = struct.pack(">HHHH", UDP_CLIENT + n, ECHO, 8 + len(data), 0) + data
        reply = wire.reply(UDP, struct.pack(">HHHH", ECHO, UDP_CLIENT + n, 8 + len(data), 0) + data)

        def udp(**faults):
            return wire.frame(UDP, body, **faults)

        silent = [udp(fault="transport"), udp(hardware=HOST_HARDWARE[::-1]), udp()[: -len(data) - 1]]
        answered = [udp(), udp() + b"padding"]
        if wire.version == 4:
            silent += [udp(fault="IPv4"), udp(fragment=0x2001)]
            answered += [udp(fault="left out"), udp(options=b"\x07\x07\x04" + bytes(5))]
        else:
            silent.append(udp(fault="left out"))
        for frame in silent:
            check("frame dropped", wire.answer(frame) is None, frame.hex())
        for frame in answered:
            check("frame UDP", wire.answer(frame) == reply, frame.hex())


def segment(port, seq, ack, flags, options=b"", data=b"", to=ECHO, window=1000):
    return struct.pack(">HHIIBBHHH", port, to, seq, ack, (20 + len(options)) << 2, flags, window, 0, 0) + options + data


def options_of(answer):
    """The options of a TCP header, as a dictionary."""
    left, found = answer[20 : (answer[12] >> 4) * 4], {}
    while left and left[0] != 0:
        size = 1 if left[0] == 1 else left[1]
        if left[0] != 1:
            found[left[0]] = left[2:size]
        left = left[size:]
    return found


def wire_syn(wire):
    """A SYN with each set of options, and what of them the answer has."""
    for chosen in range(16):
        seq, stamp, port = random.randrange(2**32), random.randbytes(4), SYN_CLIENT + chosen
        options = b"\x02\x04\x05\xb4" * (chosen & 1) + b"\x01\x03\x03\x07" * (chosen >> 1 & 1)
        options += b"\x04\x02\x01\x01" * (chosen >> 2 & 1) + (b"\x01\x01\x08\x0a" + stamp + bytes(4)) * (chosen >> 3 & 1)
        got = wire.answer(wire.frame(TCP, segment(port, seq, 0, SYN, options))) or bytes(94)
        body = got[34 if wire.version == 4 else 54 :]
        # The host chooses its sequence number and its timestamp.
        expected = struct.pack(">BBH", 2, 4, wire.max_seg_size) + b"\x03\x03\x03" * (chosen >> 1 & 1)
        expected += b"\x04\x02" * (chosen >> 2 & 1)
        if chosen & 8:
            expected += b"\x08\x0a" + options_of(body).get(8, bytes(8))[:4] + stamp
        expected += bytes(-len(expected) % 4)
        own_seq, ack = struct.unpack(">I", body[4:8])[0], (seq + 1) % 2**32
        syn = segment(ECHO, own_seq, ack, SYN | ACK, expected, to=port, window=65535)
        check("SYN", got == wire.reply(TCP, syn), (wire.version, chosen, got.hex()))
        reset = wire.frame(TCP, segment(port, ack, 0, RST))
        check("RST to a connection", wire.answer(reset) is None, chosen)


def wire_reset(wire):
    """Segments of no connection, with each set of flags (RFC 9293, section 3.10.7.1). No segment with both SYN and FIN is
    parsed."""
    for flags in range(64):
        is_ignored = flags & RST or (flags & SYN and flags & FIN)
        for data in (b"", b"abc"):
            seq, ack = random.randrange(2**32), random.randrange(2**32)
            got = wire.answer(wire.frame(TCP, segment(TCP_CLIENT, seq, ack, flags, data=data, to=CLOSED)))
            length = len(data) + (flags & SYN > 0) + (flags & FIN > 0)
            numbers = (ack, 0, RST) if flags & ACK else (0, (seq + length) % 2**32, RST | ACK)
            expected = None if is_ignored else wire.reply(TCP, segment(CLOSED, *numbers, to=TCP_CLIENT, window=0))
            check("RST", got == expected, (wire.version, flags, got and got.hex()))


def tcp_answered(family, address):
    """The proved host answers a SYN to an open port, and resets what comes then."""
    for _ in range(40):
        try:
            with socket.create_connection((address, ECHO), timeout=LATEST) as sock:
                sock.recv(1)
            answered = False
        except ConnectionResetError:
            answered = True
        except OSError:
            answered = False
        check("TCP answered", answered, address)


def with_host(device, is_proved):
    connected = (tcp_answered,) if is_proved else (tcp_echo, tcp_turns, tcp_at_once, tcp_aborted)
    for family, own, host in HOSTS:
        for exchange in (udp_lengths, udp_checksums, *connected, tcp_refused):
            exchange(family, host)
        wire = Wire(device, family, own, host, is_proved)
        for exchange in (wire_udp, wire_syn, wire_reset):
            exchange(wire)


def with_address(address):
    """A host behind a router or a NAT."""
    for exchange in (udp_lengths, tcp_echo):
        exchange(socket.AF_INET, address)


def report(name, exchange, *place):
    """Runs an exchange, prints what it counted, and returns the status of this test."""
    start, before = time.monotonic(), kernel_errors()
    exchange(*place)
    check("errors that the kernel counts", kernel_errors() == before == {}, kernel_errors())
    kinds = ", ".join(f"{kind} {count}" for kind, count in counts.items())
    print(f"{name}: {sum(counts.values())} exchanges, {len(wrong)} wrong, {time.monotonic() - start:.0f} s ({kinds})")
    return 1 if wrong else 0


if __name__ == "__main__":
    exchanges = {"host": lambda device: with_host(device, False), "proved": lambda device: with_host(device, True),
                 "address": with_address}
    sys.exit(report(sys.argv[1], exchanges[sys.argv[1]], *sys.argv[2:]))
