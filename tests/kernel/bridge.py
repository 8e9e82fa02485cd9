#!/usr/bin/env python3
"""The kernel's side of tests/kernel, for the bridge.

tests/kernel/bridge.py frames PROCESS LEFT RIGHT  sends frames into a bridge, and compares those that come out
tests/kernel/bridge.py faulty PROCESS LEFT RIGHT  the same, but does not wait long for a frame
tests/kernel/bridge.py tcp PROCESS LEFT RIGHT     sends TCP through the bridge, and compares its frames too
tests/kernel/bridge.py loss PROCESS               sends TCP where packets are lost

The device LEFT is in this network namespace, RIGHT in that of the process. Prints how many exchanges were right. The
status is 1 if one was wrong, or if the kernel counted an error.
"""
import ctypes
import os
import select
import socket
import subprocess
import sys
import time

import compare
from client import check, echoed, kernel_counters, kernel_errors, report, tcp_at_once, wrong
from dice import ANY as random
from rebuilt import rebuilt, recorded
from waits import LATEST, joins_groups, until

SERVERS = ((socket.AF_INET, "10.78.0.2"), (socket.AF_INET6, "fd78::2"))
# No device has this address, so the kernel takes no frame to it.
ELSEWHERE = bytes.fromhex("02000000ee0e")
# The longest frame of the devices. The kernel takes the tag out of a frame of one of the other types.
LONGEST, TAGGED = 1514, (b"\x81\x00", b"\x88\xa8")
RANDOM_FRAMES = 4000
AT_ONCE = 16
LATEST_OF_FAULTY = 3  # seconds
MOST_WRONG = 3
# Connections of 1 MB. Loss without a SACK range in one of them is not rare.
FEWEST, MOST_CONNECTIONS = 4, 100
ECHO_SERVER = os.path.join(os.path.dirname(os.path.abspath(__file__)), "echo_server.py")


def set_namespace(file):
    libc = ctypes.CDLL(None, use_errno=True)
    if libc.setns(file.fileno(), 0):
        raise OSError(ctypes.get_errno(), "setns")


class Side:
    """A side of the bridge: the frames that the kernel hands to the bridge there, and those that come out of it."""

    def __init__(self, process, device):
        with open("/proc/thread-self/ns/net", "rb") as own, open(f"/proc/{process}/ns/net", "rb") as other:
            set_namespace(other)
            self.sock = socket.socket(socket.AF_PACKET, socket.SOCK_RAW, socket.htons(3))
            self.sock.bind((device, 0))
            set_namespace(own)
        self.handed, self.came_out = [], []

    def take(self, wait=0):
        """Takes the frames that are there now, or the first that comes within `wait` seconds. Whether there was one."""
        is_there = False
        while select.select([self.sock], [], [], 0 if is_there else wait)[0]:
            data, place = self.sock.recvfrom(70000)
            (self.handed if place[2] == socket.PACKET_OUTGOING else self.came_out).append(data)
            is_there = True
        return is_there

    def forget(self):
        self.take()
        self.handed, self.came_out = [], []


def compare_frames(kind, handed, came_out):
    """The frames that came out are those that were handed to the bridge, each rebuilt."""
    for n in range(max(len(handed), len(came_out))):
        before, after = (frames[n] if n < len(frames) else None for frames in (handed, came_out))
        is_right = before is not None and after == rebuilt(before)
        check(kind, is_right, f"\n    in  {before and before.hex()}\n    out {after and after.hex()}")
        if not is_right:
            return


def made_frames():
    """The recorded frames, most of which are damaged, and random ones."""
    random_lines = (line.strip() for line in compare.corpus(random.randrange(1 << 32), RANDOM_FRAMES))
    frames = [frame for frame, _ in recorded()] + [bytes.fromhex(line.decode()) for line in random_lines if is_hex(line)]
    for frame in frames:
        if 14 <= len(frame) <= LONGEST and frame[12:14] not in TAGGED:
            yield ELSEWHERE + frame[6:]


def is_hex(line):
    try:
        return bool(bytes.fromhex(line.decode()))
    except ValueError:
        return False


def send_frames(process, *devices, latest=LATEST):
    """Frames of every kind, in both directions by turns."""
    sides = [Side(place, device) for place, device in zip(("self", process), devices)]
    frames = list(made_frames())
    for n in range(0, len(frames), AT_ONCE):
        here, there = sides if n // AT_ONCE % 2 == 0 else sides[::-1]
        chunk, came_out, end = frames[n : n + AT_ONCE], [], time.monotonic() + latest
        there.forget()
        for frame in chunk:
            here.sock.send(frame)
        while len(came_out) < len(chunk) and there.take(max(0, end - time.monotonic())):
            came_out = [frame for frame in there.came_out if frame.startswith(ELSEWHERE)]
        compare_frames("bridged frame", chunk, came_out)
        if len(came_out) < len(chunk) or len(wrong) >= MOST_WRONG:
            return


def in_namespace(process, *command, **words):
    return subprocess.Popen(["nsenter", "--target", process, "--net", *command], stdout=subprocess.PIPE, text=True, **words)


def with_servers(process, exchange):
    """An exchange over each version of IP with a server behind the bridge."""
    for namespace in ("self", process):
        joins_groups(namespace)
    for family, address in SERVERS:
        server = in_namespace(process, ECHO_SERVER, address)
        server.stdout.readline()
        exchange(family, address)
        server.kill()
        server.wait()
    there = in_namespace(process, sys.executable, __file__, "errors").communicate()[0]
    check("errors that the kernel counts there", there == "{}\n", there)


def send_tcp(process, *devices):
    sides = [Side(place, device) for place, device in zip(("self", process), devices)]

    def exchange(family, address):
        for side in sides:
            side.forget()
        for length in [0, 1, 1460, 1461] + [random.randrange(5000) for _ in range(20)]:
            data = random.randbytes(length)
            check("TCP through the bridge", echoed(family, address, data) == data, (address, length))
            compare_kernel_frames(*sides)
        for length in (100_000, 4 << 20):
            data = random.randbytes(length)
            check("TCP through the bridge", echoed(family, address, data) == data, (address, length))
        tcp_at_once(family, address)

    with_servers(process, exchange)


def compare_kernel_frames(left, right):
    """The frames of the kernel on both sides, once no more come."""
    until(lambda: not left.take(0.02) | right.take(0.02) and (len(left.handed), len(right.handed)) == (
        len(right.came_out), len(left.came_out)))
    for here, there in ((left, right), (right, left)):
        compare_frames("frame of the kernel", here.handed, there.came_out)
        here.handed, there.came_out = [], []


def sack_ranges():
    """How many SACK ranges the kernel has used, as a sum of its counters."""
    counters = kernel_counters()
    return sum(counters[f"TcpExtTCPSack{name}"] for name in ("Shifted", "Merged", "ShiftFallback"))


def lossy(family, address):
    """Sends until the kernel has used a SACK range."""
    before = sack_ranges()
    for n in range(1, MOST_CONNECTIONS):
        data = random.randbytes(1 << 20)
        check("TCP with loss", echoed(family, address, data) == data, address)
        if n >= FEWEST and sack_ranges() > before:
            return
    check("SACK ranges that arrive", False, address)


def send_with_loss(process):
    with_servers(process, lossy)


def send_to_faulty(process, *devices):
    send_frames(process, *devices, latest=LATEST_OF_FAULTY)


MODES = {"frames": send_frames, "faulty": send_to_faulty, "tcp": send_tcp, "loss": send_with_loss}

if __name__ == "__main__":
    if sys.argv[1] == "errors":
        print(kernel_errors())
    else:
        sys.exit(report(sys.argv[1], MODES[sys.argv[1]], *sys.argv[2:]))
