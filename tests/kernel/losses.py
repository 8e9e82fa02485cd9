#!/usr/bin/env python3
"""The kernel's side of tests/kernel, for programs/host.c where segments, a peer or the device are lost.

tests/kernel/losses.py silent DEVICE SLOW
                                      is a silent peer of the host on this TAP device: many SYNs, a closed window, a loss.
                                      While there is the file SLOW, the host's clock goes slowly
tests/kernel/losses.py down DEVICE    sets the device down and up within a connection
tests/kernel/losses.py lost DEVICE TAP
                                      exchanges packets over the device TAP. Copies frames between it and the DEVICE
                                      of the host, but loses some

Prints how many exchanges were right. The status is 1 if one was wrong, or if the kernel counted an error.
"""
import fcntl
import os
import select
import socket
import struct
import subprocess
import sys
import threading
import time

from client import (ACK, ECHO, FIN, HOSTS, SYN, SYN_CLIENT, TCP, TCP_CLIENT, Wire, check, echoed, received, report, segment,
                    tcp_of)
from dice import ANY as random
from waits import LATEST, slowly


def segment_in(frame):
    """A TCP segment over IPv4 as its port, sequence number, flags and length."""
    port, seq = struct.unpack(">HI", frame[36:42])
    return port, seq, frame[47], int.from_bytes(frame[16:18], "big") - 20 - (frame[46] >> 4) * 4


def segments_to(wire, seconds, is_enough):
    """The TCP segments from the host within this time, and longer if they are not enough yet; and how long it was."""
    found, begin = [], time.monotonic()
    while (took := time.monotonic() - begin) < (seconds if is_enough(found) else LATEST):
        if select.select([wire.sock], [], [], 0.05)[0]:
            data, place = wire.sock.recvfrom(70000)
            if place[2] != socket.PACKET_OUTGOING and data[12:14] == b"\x08\x00" and data[23] == TCP:
                found.append(segment_in(data))
    return found, took


def many_syns(wire, slow):
    """More SYNs than the host keeps connections. Each gets SYN and ACK, and the last 63 get it again after 1, 3 and 7 seconds.
    A connection that was open stays so, and a later one works."""
    every = range(SYN_CLIENT, SYN_CLIENT + 200)
    kept = every[-63:]

    def answered(found):
        return [port for port, _, flags, _ in found if flags == SYN | ACK and port in every]

    with socket.create_connection(HOSTS[0][2:] + (ECHO,), timeout=LATEST) as sock:
        begin = time.monotonic()
        with slowly(slow):  # so that it sends nothing again before the last SYN comes
            for port in every:
                wire.sock.send(wire.frame(TCP, segment(port, random.randrange(2**32), 0, SYN)))
            first, _ = segments_to(wire, 0, lambda found: len(answered(found)) >= len(every))
        check("many SYNs", answered(first) == [*every], answered(first))
        again, _ = segments_to(wire, 1.8, lambda found: {*kept} <= {*answered(found)})
        ports, most = answered(again), int(time.monotonic() - begin + 1).bit_length() - 1
        for port in every:
            count = ports.count(port)
            check("SYN of many", 1 <= count <= most if port in kept else count == 0, (port, count, most))
        sock.sendall(b"still open")
        check("TCP open during many SYNs", received(sock) == b"still open")
    for _ in range(3):
        check("TCP after many SYNs", echoed(*HOSTS[0][::2], b"after") == b"after")


def silent_peer(device, slow):
    """What the host sends again to a peer of an address that the kernel does not have."""
    wire = Wire(device, HOSTS[0][0], "10.77.0.99", HOSTS[0][2], False)
    many_syns(wire, slow)
    _, seq, _, _ = segment_in(wire.answer(wire.frame(TCP, segment(TCP_CLIENT, 0, 0, SYN))) or bytes(54))
    time.sleep(0.2)

    def places(found):
        """Of segments of this connection: the sequence numbers from the host's SYN on, and the lengths. Without a SYN that it
        sends again because this process is slow."""
        return [((place - seq) % 2**32, length) for port, place, flags, length in found if port == TCP_CLIENT and not flags & SYN]

    def frame(own_seq, ack, flags=ACK, window=1000, data=b""):
        return wire.frame(TCP, segment(TCP_CLIENT, own_seq, (seq + ack) % 2**32, flags, data=data, window=window))

    def sent_after(*fields, count=1, **words):
        """What the host sends after `count` equal segments."""
        return places(segment_in(one) for one in wire.answers(*[frame(*fields, **words)] * count) if tcp_of(one))

    # It acknowledges, and sends a byte after 0.6 and 1.8 seconds: the SYN took 0.2 seconds (RFC 6298, sections 2.2 and 5.5).
    # The next time-out is later, after 4.2 seconds.
    wire.sock.send(frame(1, 1, window=0, data=bytes(700)))
    found, took = segments_to(wire, 3.5, lambda found: len(places(found)) >= 3)
    found = places(found)
    check("closed window", found[:3] == [(1, 0), (1, 1), (1, 1)] and (len(found) == 3 or took > 4), found)
    with slowly(slow):  # so that it sends nothing again
        check("window that opens", [place for place in sent_after(701, 1) if place != (1, 1)] == [(1, 536), (537, 164)])
        check("data", sent_after(701, 701, data=bytes(700)) == [(701, 536), (1237, 164)])
        check("two duplicates", sent_after(1401, 701, count=2) == [])
        check("third duplicate", sent_after(1401, 701) == [(701, 536)])
        check("partial acknowledgement", sent_after(1401, 1237) == [(1237, 164)])
        check("keep-alive", sent_after(1400, 1401) == [(1401, 0)])
        check("FIN", sent_after(1401, 1401, ACK | FIN) == [(1401, 0)])
        check("end", sent_after(1402, 1402) == [])


def down_and_up(device):
    """What is sent while the device is down arrives when it is up again."""
    family, _, host = HOSTS[0]
    with socket.create_connection((host, ECHO), timeout=LATEST) as sock:
        for text in (b"first", b"second", b"third"):
            if text == b"second":
                subprocess.run(["ip", "link", "set", device, "down"], check=True)
            sock.sendall(text)
            if text == b"second":
                time.sleep(0.3)
                subprocess.run(["ip", "link", "set", device, "up"], check=True)
            check("TCP over a device that was down", received(sock) == text, text)
    check("TCP after a device that was down", echoed(family, host, bytes(20_000)) == bytes(20_000))


def copy_frames(host, kernel, is_lost, lost):
    """Copies frames between the device of the host, a socket, and the kernel's device, a file."""
    while True:
        for file in select.select([host, kernel], [], [])[0]:
            frame, place = (os.read(kernel, 70000), None) if file == kernel else host.recvfrom(70000)
            if place and place[2] == socket.PACKET_OUTGOING:
                continue
            if is_lost(frame, file == kernel):
                lost.append(frame)
            elif file == kernel:
                host.send(frame)
            else:
                os.write(kernel, frame)


def losses(percent):
    """Which frames are lost: so many of each hundred, at random places."""
    while True:
        chosen = random.sample(range(100), percent)
        yield from (place in chosen for place in range(100))


def lossy(device, tap):
    """Connections over a path that loses frames: first the first SYN, SYN and ACK, and FIN of each side, then 2 %."""
    host = socket.socket(socket.AF_PACKET, socket.SOCK_RAW, socket.htons(3))
    host.setsockopt(socket.SOL_SOCKET, socket.SO_RCVBUF, 1 << 24)
    host.bind((device, 0))
    kernel = os.open("/dev/net/tun", os.O_RDWR)
    fcntl.ioctl(kernel, 0x400454CA, struct.pack("16sH22x", tap.encode(), 0x1002))  # TUNSETIFF, IFF_TAP | IFF_NO_PI
    lost, seen, percent, chosen = [], set(), 0, losses(2)

    def is_lost(frame, is_to_host):
        if frame[12:14] != b"\x08\x00" or frame[23] != TCP:
            return False
        key = (frame[47] & (SYN | FIN), is_to_host)
        is_first = key[0] != 0 and key not in seen
        seen.add(key)
        return next(chosen) if percent else is_first

    threading.Thread(target=copy_frames, args=(host, kernel, is_lost, lost), daemon=True).start()
    for percent, data, least in ((0, bytes(5000), 4), (2, random.randbytes(1 << 20), 20)):
        lost.clear()
        check("TCP with loss", echoed(socket.AF_INET, "10.79.0.2", data) == data, percent)
        check("lost frames", len(lost) >= least, len(lost))


if __name__ == "__main__":
    exchanges = {"silent": silent_peer, "down": down_and_up, "lost": lossy}
    sys.exit(report(sys.argv[1], exchanges[sys.argv[1]], *sys.argv[2:]))
