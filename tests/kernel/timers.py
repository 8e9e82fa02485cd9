#!/usr/bin/env python3
"""The timers of programs/host.c: when it sends again, when it gives up, and which silent peer loses its place.

tests/kernel/timers.py again DEVICE FACTOR  the host on this TAP device has a clock that goes FACTOR times as fast. Times are
                                            seconds of this clock
tests/kernel/timers.py silent DEVICE AHEAD  its clock is ahead by the number of seconds in the file AHEAD

The status is 1 if something was wrong.
"""
import select
import socket
import struct
import sys
import time

from client import ACK, RST, SYN, TCP, TCP_CLIENT, check, report, segment, tcp_of
from hostile import answer_to, close, opened, wires
from waits import leap

SO_TIMESTAMPNS = 35
PLACES, USER_TIMEOUT = 64, 300
# RFC 6298, sections 2 and 5: the first interval, which then doubles, up to a minute. RFC 1122, section 4.2.3.5: a SYN is
# sent again for 3 minutes.
AFTER_SYN, AFTER_LOST_SYN = (1, 2, 4, 8, 16, 32, 60), (3, 6, 12, 24, 48, 60, 60, 60)
LAST = 60  # the host gives up so long after the last one
DATA = b"data"
# Real seconds that a busy machine may add to an interval, and how often it may take longer.
LATE, TRIES = 0.25, 10


class Clock:
    """The clock of the host, and when its segments came by it."""

    def __init__(self, wire, factor):
        self.wire, self.factor = wire, factor
        wire.sock.setsockopt(socket.SOL_SOCKET, SO_TIMESTAMPNS, 1)
        self.sleep(30)  # so that the kernel has begun with time stamps

    def now(self):
        return time.monotonic() * self.factor

    def sleep(self, seconds):
        time.sleep(max(0, seconds) / self.factor)

    def segments(self, seconds, most=1000):
        """What comes within this time: the port, SYN and RST, the length of the payload, the sequence number and the time."""
        found, end = [], self.now() + seconds
        while len(found) < most and select.select([self.wire.sock], [], [], max(0, end - self.now()) / self.factor)[0]:
            data, told, _, place = self.wire.sock.recvmsg(70000, 100)
            body = tcp_of(data)
            if body and place[2] != socket.PACKET_OUTGOING:
                port, seq = struct.unpack(">HI", body[2:8])
                at, rest = struct.unpack("qq", told[0][2][:16])
                length = len(body) - (body[12] >> 4) * 4
                found.append((port, body[13] & (SYN | RST), length, seq, (at + rest / 1e9) * self.factor))
        return found

    def sends(self, port, *fields, data=b""):
        self.wire.sock.send(self.wire.frame(TCP, segment(port, *fields, data=data)))


def check_intervals(what, times, expected, late, may_be_late):
    """No interval is too short. Whether none is too long, or lacking."""
    found = [later - earlier for earlier, later in zip(times, times[1:])]
    is_in_time = len(found) == len(expected) and all(interval <= least + late for least, interval in zip(expected, found))
    is_right = len(found) <= len(expected) and all(least - 0.01 <= interval for least, interval in zip(expected, found))
    check(f"intervals {what}", is_right and (is_in_time or may_be_late), found)
    return is_in_time


def sends_again(clock, n):
    """SYN and ACK, and data after a SYN that was lost, to a peer that does not acknowledge them. Whether the machine was not
    too busy to see the intervals."""
    syn, lost = TCP_CLIENT + 2 * n, TCP_CLIENT + 2 * n + 1
    clock.sends(lost, 0, 0, SYN)
    found = clock.segments(LAST, 2)
    check("SYN again", [place[:2] for place in found] == 2 * [(lost, SYN)], found)
    clock.sends(lost, 1, (found[0][3] + 1) % 2**32, ACK, data=DATA)
    clock.sends(syn, 0, 0, SYN)
    found = clock.segments(sum(AFTER_LOST_SYN) + LAST + clock.factor / 2)
    for what, port, flags, length, expected in (("of a SYN", syn, SYN, 0, AFTER_SYN),
                                                ("after a lost SYN", lost, 0, len(DATA), AFTER_LOST_SYN)):
        times = [place[4] for place in found if place[:3] == (port, flags, length)]
        if not check_intervals(what, times, expected, clock.factor * LATE, n + 1 < TRIES):
            return False
        check("no connection after the last", answer_to(clock.wire, port, 1, 1, ACK)[2] == RST, what)
    return True


def silent_peers(device, file):
    """While all places are taken, a new connection gets that of the peer which is silent for the user time-out. This peer is
    told. The others stay."""
    pair, first, new = wires(device), TCP_CLIENT, TCP_CLIENT + PLACES
    peers = [(pair[n % 2], first + n, *opened(pair[n % 2], first + n)) for n in range(PLACES)]
    check("no place", answer_to(pair[0], new, 0, 0, SYN)[2] & RST)
    leap(file, 200)
    for wire, port, seq, ack in peers[1:]:
        wire.sock.send(wire.frame(TCP, segment(port, seq, ack, ACK)))
    check("no place yet", answer_to(pair[0], new, 0, 0, SYN)[2] & RST)
    leap(file, USER_TIMEOUT + 20)
    found = list(filter(None, map(tcp_of, pair[0].answers(pair[0].frame(TCP, segment(new, 0, 0, SYN))))))
    told = [(int.from_bytes(body[2:4], "big"), body[13] & (SYN | RST), len(body) - (body[12] >> 4) * 4) for body in found]
    # The answer to SYN may come again: this process may be slow.
    check("place of a silent peer", told[:2] == [(first, RST, 0), (new, SYN, 0)] == sorted({*told}), told)
    own = int.from_bytes((found or [bytes(20)])[-1][4:8], "big")
    pair[0].sock.send(pair[0].frame(TCP, segment(new, 1, (own + 1) % 2**32, ACK)))
    check("places of others", answer_to(pair[0], new + 1, 0, 0, SYN)[2] & RST)
    for wire, port, seq, ack in peers[1:]:
        check("a peer that was heard", answer_to(wire, port, seq, ack, ACK, b"", DATA)[2] & RST == 0, port)
        close(wire, port)
    close(pair[0], new)


def retransmissions(device, factor):
    clock = Clock(wires(device)[0], int(factor))
    for n in range(TRIES):
        if sends_again(clock, n):
            break
        clock.segments(2 * sum(AFTER_LOST_SYN))  # until these connections have ended


if __name__ == "__main__":
    modes = {"again": retransmissions, "silent": silent_peers}
    sys.exit(report(f"timers, {sys.argv[1]}", modes[sys.argv[1]], *sys.argv[2:]))
