#!/usr/bin/env python3
"""What tests/kernel does to programs/host.c that no right peer does.

tests/kernel/hostile.py WHAT DEVICE PROCESS [SLOW]
    flood           sends 60,000 hostile frames to programs/host.c
    acks            counts the acknowledgements of segments; while there is the file SLOW, the host's clock goes slowly
    queue           exchanges packets over short queues, and after the host was stopped for a while
    open            leaves connections open
    retransmitting  leaves a connection whose peer acknowledges nothing
    full            fills the queue of frames to the host, and sends it SIGTERM while more come
    proved          sends 60,000 hostile frames to programs/proved_host.c, and sets its device down and up
    bridge          the same for programs/bridge.c from DEVICE to the device `far`, and sends it SIGTERM while more come

PROCESS is the program on this TAP device. The frames are built here, apart from the library. The status is 1 if
something was wrong.
"""
import os
import select
import signal
import socket
import struct
import subprocess
import sys
import threading
import time

import compare
import icmp
import client
import packets
from client import (ACK, ECHO, FIN, HOST_HARDWARE, HOSTS, RST, SYN, TCP, TCP_CLIENT, UDP, UDP_CLIENT, check, segment,
                    tcp_of)
from dice import ANY as random
from links import ping
from waits import LATEST, ends, is_idle, slowly, until

FLOOD, AT_ONCE, CORPUS = 60_000, 250, 3000
# Addresses of this network that the kernel does not have, so that it does not answer for them.
OTHERS = ("10.77.0.99", "fd77::99")


def wires(device):
    return [client.Wire(device, family, own, host, False) for (family, _, host), own in zip(HOSTS, OTHERS)]


def segment_to(port, frame):
    """The segment to a port in a frame: sequence and acknowledgement number, flags, length of the payload, window; or None."""
    body = tcp_of(frame)
    if not body or body[2:4] != port.to_bytes(2, "big"):
        return None
    seq, ack, offset, flags, window = struct.unpack(">IIBBH", body[4:16])
    return seq, ack, flags, len(body) - (offset >> 4) * 4, window


def segments_until(wire, port, is_enough):
    """The segments from the host to a port, once they are enough."""
    found, end = [], time.monotonic() + LATEST
    while not is_enough(found) and select.select([wire.sock], [], [], max(0, end - time.monotonic()))[0]:
        data, place = wire.sock.recvfrom(70000)
        one = segment_to(port, data)
        if one and place[2] != socket.PACKET_OUTGOING:
            found.append(one)
    return found


def answer_to(wire, port, *fields):
    """The first segment from the host to a port after this one: sequence and acknowledgement number, and flags."""
    while select.select([wire.sock], [], [], 0)[0]:
        wire.sock.recv(70000)
    wire.sock.send(wire.frame(TCP, segment(port, *fields)))
    found = segments_until(wire, port, bool)
    check("answer to a segment", found, fields)
    return found[0][:3] if found else (0, 0, 0)


def opened(wire, port, options=b"", window=1000):
    """Opens a connection, also if there is one from this port. Returns the next number of each side."""
    end = time.monotonic() + LATEST
    while time.monotonic() < end:
        seq = random.randrange(2**32)
        own, ack, flags = answer_to(wire, port, seq, 0, SYN, options)
        if flags == SYN | ACK and ack == (seq + 1) % 2**32:
            own = (own + 1) % 2**32
            wire.sock.send(wire.frame(TCP, segment(port, ack, own, ACK, window=window)))
            return ack, own
        wire.sock.send(wire.frame(TCP, segment(port, ack, 0, RST)))
        # What was the answer to an earlier segment may still be on its way, as may be the numbers in it.
        time.sleep(0.1)
    check("SYN and ACK", False, (port, ack, flags))
    return 0, 0


def close(wire, port):
    """Ends the connection from a port, or one that SYN opens: the answer has the number for RST."""
    wire.sock.send(wire.frame(TCP, segment(port, answer_to(wire, port, 1, 0, SYN)[1], 0, RST)))


def valid_frames(wire):
    """A frame of each kind that the host takes."""
    options = b"\x02\x04\x05\xb4\x01\x03\x03\x07\x04\x02\x08\x0a" + bytes(8)
    target = socket.inet_aton(HOSTS[0][2])
    arp = packets.arp(1, 1, packets.IPV4, 6, 4, wire.hardware[0], socket.inet_aton(OTHERS[0]), bytes(6), target)
    yield packets.ethernet(packets.ARP, arp, b"\xff" * 6, wire.hardware[0])
    yield wire.frame(UDP, struct.pack(">HHHH", UDP_CLIENT, ECHO, 13, 0) + b"hello")
    yield wire.frame(TCP, segment(TCP_CLIENT, 1, 0, SYN, options))
    yield wire.frame(TCP, segment(TCP_CLIENT, 2, 1, ACK | 8, options[12 - 2 :] + bytes(2), b"data"))
    src, dst = wire.addresses
    echo = icmp.echo_request(src, dst, 1, 2, bytes(range(50)))
    yield icmp.framed(echo, src, dst, wire.hardware[0], HOST_HARDWARE)
    closed = wire.frame(UDP, struct.pack(">HHHH", UDP_CLIENT, client.CLOSED, 13, 0) + b"hello")
    yield closed
    error = icmp.message(*icmp.CLOSED[wire.version], 0, closed[14:], src, dst)
    yield icmp.framed(error, src, dst, wire.hardware[0], HOST_HARDWARE)
    if wire.version == 6:
        group, hardware = icmp.group_of(dst)
        yield icmp.framed(icmp.solicitation(dst, src, group, wire.hardware[0]), src, group, wire.hardware[0], hardware, 255)


def random_segment(rng, port, seq, ack):
    """A segment near the numbers of a connection, with a right checksum."""
    def near(number):
        steps = (0, 0, 0, 1, 1460, 65535, 1 << 18, (1 << 18) + 1, 1 << 31, rng.randrange(3000), rng.randrange(2**32))
        return (number + rng.choice((1, -1)) * rng.choice(steps)) % 2**32

    range_option = struct.pack(">BBBBII", 1, 1, 5, 10, near(ack), near(ack))
    stamp = struct.pack(">BBBBII", 1, 1, 8, 10, rng.randrange(2**32), rng.randrange(2**32))
    options = rng.choice((b"", b"", range_option, stamp, stamp + range_option, rng.randbytes(4 * rng.randrange(11))))
    flags = rng.choice((ACK, ACK, ACK | 8, ACK | FIN, rng.randrange(256)))
    data = rng.randbytes(rng.choice((0, 0, 1, 536, rng.randrange(1300))))
    return segment(port, near(seq), near(ack), flags, options, data, window=rng.choice((0, 1, 1000, 65535)))


def random_error(rng, wire, port, seq, ack):
    """Packet too big, about a segment that the host may have sent."""
    number = (ack + rng.choice((-1, 0, 1, 536, rng.randrange(3000), 1 << 31))) % 2**32
    quote = wire.packet(TCP, segment(ECHO, number, seq, ACK, data=bytes(536), to=port), is_answer=True)
    mtu = rng.choice((0, 68, 576, 1280, 1400, rng.randrange(1280, 1501), rng.randrange(2**32)))
    body = icmp.message(*icmp.TOO_BIG[wire.version], mtu, quote[: rng.choice((28, 48, 556, rng.randrange(80)))], *wire.addresses)
    return icmp.framed(body, *wire.addresses, wire.hardware[0], HOST_HARDWARE)


def is_from_kernel(frame):
    """Whether it has the source address of the kernel, which would count an error about it for which it has no socket."""
    return any(socket.inet_pton(family, own) in (frame[26:30], frame[22:38]) for family, own, _ in HOSTS)


def recorded_frames(rng):
    """Frames of the corpus of make compare."""
    for line in compare.corpus(rng.randrange(2**32), CORPUS):
        try:
            yield bytes.fromhex(line.decode())
        except ValueError:
            pass


def hostile_frames(rng, pair):
    """A third are of the corpus of make compare, a third changes of valid frames, and a third segments of open
    connections and errors about them, all to the host."""
    recorded, ports = list(recorded_frames(rng)), range(TCP_CLIENT, TCP_CLIENT + 8)
    valid = [frame for wire in pair for frame in valid_frames(wire)]
    for n in range(FLOOD):
        if n % AT_ONCE == 0:
            wire, port = pair[n // AT_ONCE % 2], ports[n // AT_ONCE % len(ports)]
            numbers = opened(wire, port, rng.choice((b"", b"\x01\x03\x03\x0e\x04\x02\x01\x01")))
        kind = rng.randrange(3)
        if kind == 0:
            yield HOST_HARDWARE + rng.choice(recorded)[6:]
        elif kind == 1:
            while is_from_kernel(frame := compare.changed(rng, rng.choice(valid))):
                pass
            yield frame
        elif rng.randrange(8) == 0:
            yield random_error(rng, wire, port, *numbers)
        else:
            yield wire.frame(TCP, random_segment(rng, port, *numbers))
    for port in ports:
        for wire in pair:
            close(wire, port)


def send_flood(sock, frames, is_alive):
    """Sends frames, and tests now and then that the program is alive."""
    sent = 0
    for frame in frames:
        try:
            sock.send(frame)
            sent += 1
        except OSError:  # it is too short or too long for the device
            continue
        if sent % AT_ONCE == 0:
            check("alive in a flood", is_alive(), sent)
    check("hostile frames", sent > FLOOD * 0.95, sent)


def answers_udp(wire):
    """Whether the host answers. The port is that of no other frame."""
    body = struct.pack(">HHHH", UDP_CLIENT + 1, ECHO, 12, 0) + random.randbytes(4)
    return wire.answer(wire.frame(UDP, body)) is not None


def answers_correctly(pair):
    for (family, _, host), wire in zip(HOSTS, pair):
        for exchange in (client.wire_udp, client.wire_syn, client.wire_reset):
            exchange(wire)
        for length in (0, 1, 20_000, 300_000):
            data = random.randbytes(length)
            check("TCP echo after a flood", client.echoed(family, host, data) == data, (host, length))
        for length in (0, 1, 1400):
            check("ping after a flood", ping(family, host, random.randbytes(length), length), (host, length))


def flood(device, _):
    """The host answers between the frames and after them. A connection that was open stays so."""
    pair = wires(device)
    with socket.create_connection((HOSTS[0][2], ECHO), timeout=LATEST) as sock:
        send_flood(pair[0].sock, hostile_frames(random, pair), lambda: answers_udp(random.choice(pair)))
        sock.sendall(b"still open")
        check("TCP open during a flood", client.received(sock) == b"still open")
    answers_correctly(pair)


def set_link(device, *words):
    subprocess.run(["ip", "link", "set", device, *words], check=True)


def changed_frames(known):
    """Changed frames, all to the hardware address of the host: so the kernel takes none, and counts no error."""
    known = list(known)
    return (HOST_HARDWARE + compare.changed(random, random.choice(known))[6:] for _ in range(FLOOD * 11 // 10))


def proved(device, process):
    """It keeps no connection. Its device goes down before it answers a frame."""
    pair = wires(device)
    known = [*recorded_frames(random), *(1000 * [frame for wire in pair for frame in valid_frames(wire)])]
    send_flood(pair[0].sock, changed_frames(known), lambda: answers_udp(random.choice(pair)))
    for _ in range(3):
        os.kill(int(process), signal.SIGSTOP)
        pair[0].sock.send(pair[0].frame(UDP, struct.pack(">HHHH", UDP_CLIENT, ECHO, 12, 0) + b"data"))
        set_link(device, "down")
        os.kill(int(process), signal.SIGCONT)
        until(lambda: is_idle(process))
        set_link(device, "up")
        pair = wires(device)
        check("answer after a device was down", answers_udp(pair[0]))


def forwards(wire, far):
    """Whether a frame that goes into the bridge comes out at the other device."""
    marker, end = random.randbytes(8), time.monotonic() + LATEST
    wire.sock.send(wire.frame(UDP, struct.pack(">HHHH", UDP_CLIENT, ECHO, 16, 0) + marker))
    while select.select([far.sock], [], [], max(0, end - time.monotonic()))[0]:
        if far.sock.recv(70000).endswith(marker):
            return True
    return False


def bridge(device, process):
    """It forwards between hostile frames, and after each device was down."""
    wire, far = wires(device)[0], wires("far")[0]
    send_flood(wire.sock, changed_frames(recorded_frames(random)), lambda: forwards(wire, far))
    for name in (device, "far"):
        set_link(name, "down")
        set_link(name, "up")
        wire, far = wires(device)[0], wires("far")[0]
        check("frame after a device was down", forwards(wire, far), name)
    ends_in_a_flood(wire, process)


def ends_in_a_flood(wire, process):
    """Whether the program ends by SIGTERM while two processes send frames as fast as they can."""
    frame = wire.frame(UDP, struct.pack(">HHHH", UDP_CLIENT, ECHO, 8, 0))
    senders = []
    for _ in range(2):
        senders.append(os.fork())
        if senders[-1] == 0:
            while True:
                send_all(wire, [frame] * 1000)
    time.sleep(0.1)
    os.kill(int(process), signal.SIGTERM)
    os.kill(int(process), signal.SIGCONT)
    check("SIGTERM in a flood", until(lambda: ends(process), 10))
    for sender in senders:
        os.kill(sender, signal.SIGKILL)
        os.waitpid(sender, 0)


def acks(device, process, slow):
    """While there is the file `slow`, the host probes no closed window, and sends nothing again."""
    wire = wires(device)[0]
    of_segments(wire, process, slow)
    with slowly(slow):
        of_duplicates(wire)
    in_a_bulk_transfer(wire)


def of_segments(wire, process, slow):
    """One acknowledgement for two segments, a later one for a single one, and at once around a gap."""
    seq, ack = opened(wire, TCP_CLIENT, b"\x02\x04\x05\xb4", window=0)

    def parts(*offsets):
        """Frames with segments of 1000 bytes."""
        bodies = [segment(TCP_CLIENT, (seq + at) % 2**32, ack, ACK, data=bytes(1000), window=0) for at in offsets]
        return [wire.frame(TCP, body) for body in bodies]

    def acked(found):
        """Bytes after `seq`. A probe of the closed window is left out."""
        return [(place[1] - seq) % 2**32 for place in found if place and place[3] == 0]

    def at_once(*offsets):
        """What the host acknowledges before it answers a probe that comes after these segments."""
        return acked(segment_to(TCP_CLIENT, frame) for frame in wire.answers(*parts(*offsets)))

    with slowly(slow):
        os.kill(int(process), signal.SIGSTOP)  # so that it has all of them when it goes on
        send_all(wire, parts(*range(0, 100_000, 1000)))
        os.kill(int(process), signal.SIGCONT)
        found = acked(segments_until(wire, TCP_CLIENT, lambda found: 100_000 in acked(found)))
        check("one acknowledgement for two segments", 50 <= len(found) <= 55 and found[-1] == 100_000, found)
        found = at_once(100_000)
        check("no acknowledgement of one segment yet", found == [], found)
    found = segments_until(wire, TCP_CLIENT, bool)  # a probe of the closed window acknowledges too
    check("delayed acknowledgement", [(place[1] - seq) % 2**32 for place in found] == [101_000], found)
    with slowly(slow):
        found = at_once(102_000)
        check("acknowledgement of a gap", found == [101_000], found)
        found = at_once(103_000, 101_000)
        check("acknowledgement of a closed gap", found == [101_000, 104_000], found)
    close(wire, TCP_CLIENT)


def of_duplicates(wire):
    """After a gap the window stays, although the peer acknowledges bytes. Else these would be no duplicates."""
    def has_three(found):
        return len(found) >= 3

    seq, ack = opened(wire, TCP_CLIENT, b"\x02\x04\x05\xb4\x01\x03\x03\0", window=10_000)
    for offset in (0, 1000, 2000):
        body = segment(TCP_CLIENT, (seq + offset) % 2**32, ack, ACK, data=bytes(1000), window=10_000)
        wire.sock.send(wire.frame(TCP, body))
    segments_until(wire, TCP_CLIENT, has_three)
    for offset in (4000, 5000, 6000):
        number = (ack + offset // 2) % 2**32
        body = segment(TCP_CLIENT, (seq + offset) % 2**32, number, ACK, data=bytes(1000), window=10_000)
        wire.sock.send(wire.frame(TCP, body))
    found = segments_until(wire, TCP_CLIENT, has_three)
    check("duplicates", len(found) == 3 and len({place[1:] for place in found}) == 1, found)
    check("duplicate", found and found[0][1:4] == ((seq + 3000) % 2**32, ACK, 0), found)
    close(wire, TCP_CLIENT)


def in_a_bulk_transfer(wire):
    """The same for the kernel, which sends 1 MB, and reads nothing before the buffers are full."""
    def acked(found):
        return (found[-1][1] - found[0][1]) % 2**32 / wire.max_seg_size if found else 0

    host, data, back = HOSTS[0][2], bytes(1 << 20), 0
    with socket.create_connection((host, ECHO), timeout=LATEST) as sock:
        begin, thread = time.monotonic(), threading.Thread(target=sock.sendall, args=(data,), daemon=True)
        thread.start()
        found = segments_until(wire, sock.getsockname()[1], lambda found: acked(found) > 100)
        took = time.monotonic() - begin
        while back < len(data) and isinstance(more := client.received(sock), bytes) and more:
            back += len(more)
        thread.join(LATEST)
    acks, segments = sum(place[3] == 0 for place in found), acked(found)
    # One more for each time that the host has waited for a second segment, 40 ms.
    check("bulk transfer", back == len(data) and 100 < segments and acks <= segments / 2 + 10 + took / 0.04, (back, acks, segments))


def send_all(wire, frames):
    for frame in frames:
        try:
            wire.sock.send(frame)
        except OSError:  # the queue is full
            pass


def fill(wire):
    """Sends more frames than the queue of the device takes."""
    send_all(wire, [wire.frame(UDP, struct.pack(">HHHH", UDP_CLIENT, ECHO, 1008, 0) + bytes(1000))] * 3000)


def dropped_frames(device):
    """How many frames to the program the device has dropped, since its queue was full."""
    with open("/proc/net/dev", encoding="ascii") as file:
        counts = dict(line.split(":") for line in file if ":" in line)
    return next(int(words.split()[11]) for name, words in counts.items() if name.strip() == device)


def queue(device, process):
    """A queue of four frames loses some. A host that was stopped goes on."""
    (family, _, host), data = HOSTS[0], random.randbytes(1 << 19)
    set_link(device, "txqueuelen", "4")
    with socket.create_connection((host, ECHO), timeout=5 * LATEST) as sock:
        os.kill(int(process), signal.SIGSTOP)
        sock.sendall(data[:20_000])
        check("lost frames", until(lambda: dropped_frames(device) > 0))
        os.kill(int(process), signal.SIGCONT)
        with sock.makefile("rb") as file:
            check("TCP over a short queue", file.read(20_000) == data[:20_000])
    check("TCP over a short queue", client.echoed(family, host, data) == data)
    set_link(device, "txqueuelen", "1000")
    with socket.create_connection((host, ECHO), timeout=LATEST) as sock:
        os.kill(int(process), signal.SIGSTOP)
        fill(wires(device)[0])
        sock.sendall(b"while it is stopped")
        os.kill(int(process), signal.SIGCONT)
        check("TCP after a full queue", client.received(sock) == b"while it is stopped")
    check("TCP echo after a full queue", client.echoed(family, host, data) == data)


def leave_open(device, _):
    for wire in wires(device):
        for port in range(TCP_CLIENT, TCP_CLIENT + 15):
            opened(wire, port)


def leave_retransmitting(device, _):
    """The peer acknowledges nothing."""
    wire = wires(device)[0]
    seq, ack = opened(wire, TCP_CLIENT)
    wire.sock.send(wire.frame(TCP, segment(TCP_CLIENT, seq, ack, ACK, data=b"data")))
    found = segments_until(wire, TCP_CLIENT, lambda found: len(found) >= 2)
    check("retransmission", [place[3] for place in found] == [4, 4], found)


def leave_full(device, process):
    wire = wires(device)[0]
    os.kill(int(process), signal.SIGSTOP)
    fill(wire)
    ends_in_a_flood(wire, process)


if __name__ == "__main__":
    exchanges = {"flood": flood, "acks": acks, "queue": queue, "open": leave_open, "full": leave_full,
                 "retransmitting": leave_retransmitting, "proved": proved, "bridge": bridge}
    sys.exit(client.report(sys.argv[1], exchanges[sys.argv[1]], *sys.argv[2:]))
