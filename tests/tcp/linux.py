#!/usr/bin/env python3
"""Connections between sockets of the program and Linux: tests/tcp/linux.py PROGRAM SEED COUNT

The program is crates/tcp_steps, or `model` for the model. Linux is reached by a TUN device in a network namespace of its
own. Of the COUNT connections, Linux opens one half and the program the other, over IPv4 and IPv6, with window scaling, SACK and
timestamps. Packets are lost, repeated and reordered in both directions. Every byte must come in both directions, and both ends
must close.

Where the namespace cannot be made, it prints "skipped: REASON", and the status is 77.
"""
import contextlib
import fcntl
import heapq
import os
import pathlib
import selectors
import shutil
import socket
import struct
import subprocess
import sys
import time

sys.path.append(str(pathlib.Path(__file__).resolve().parents[1] / "frames"))
import packets  # noqa: E402
from dice import Random  # noqa: E402
from ends import End, machine_of  # noqa: E402
from tcp_options import Packet, decoded, encoded  # noqa: E402
from watch import Watch  # noqa: E402

TUNSETIFF, IFF_TUN, IFF_NO_PI = 0x400454CA, 1, 0x1000
PREPARE = """ip link set lo up
ip address add 10.81.0.1/24 dev tun0 && ip address add fd81::1/64 dev tun0 nodad && ip link set tun0 up mtu 1500"""
FAMILIES = {socket.AF_INET: ("10.81.0.1", "10.81.0.2"), socket.AF_INET6: ("fd81::1", "fd81::2")}
LISTENING, OURS = 7000, 20000
FLAGS = {"F": 1, "S": 2, "R": 4}
ACK = 0x10
# Of TCP_INFO: the state, and the bits of timestamps, SACK and window scaling.
TCP_CLOSE, STATE, AGREED, ALL_AGREED = 7, 0, 5, 7
# Options of Linux, so that it recovers fast from losses, and waits for a busy machine. That of the longest time-out of
# retransmission, in milliseconds, is new in Linux 6.15.
TCP_RTO_MAX_MS = 44
OPTIONS = ((socket.TCP_CONGESTION, b"reno"), (TCP_RTO_MAX_MS, 1000), (socket.TCP_USER_TIMEOUT, 570_000),
           (socket.TCP_SYNCNT, 120))
# Processes, each with its namespace and its connections, and the seconds that they have.
PROCESSES, LATEST = 4, 600
# How many packets are lost, and how many bytes each end writes then.
LOSSES = ((0.01, 60_000), (0.03, 60_000), (0.1, 10_000))
AFTER_TIME_WAIT = 61_000
LETTERS = b"abcdefghijklmnopqrstuvwxyz"


def letters(rng, count):
    return bytes(byte % 26 + 97 for byte in rng.randbytes(count))


def losses(rng, loss):
    """Which packets of a direction are lost: one of so many, at a random place. So none is lost again and again, each time after
    twice the time-out."""
    count = round(1 / loss)
    while True:
        lost = rng.randrange(count)
        yield from (place == lost for place in range(count))


class Tun:
    """The device, and the IP packets of TCP that go through it."""

    def __init__(self):
        self.file = os.open("/dev/net/tun", os.O_RDWR | os.O_NONBLOCK)
        fcntl.ioctl(self.file, TUNSETIFF, struct.pack("16sH22x", b"tun0", IFF_TUN | IFF_NO_PI))
        subprocess.run(["sh", "-ec", PREPARE], check=True)

    def packets(self):
        """The segments that Linux sends now: our port, its port, and the segment."""
        while True:
            try:
                data = os.read(self.file, 70000)
            except BlockingIOError:
                return
            is_ipv4 = data[0] >> 4 == 4
            if data[9 if is_ipv4 else 6] == 6:
                size = (data[0] & 15) * 4 if is_ipv4 else 40
                addrs = data[12:20] if is_ipv4 else data[8:40]
                yield self.taken_apart(data[size:], addrs)

    def taken_apart(self, data, addrs):
        assert packets.word_sum(packets.pseudo_header(addrs, b"", 6, len(data)) + data) == 0xFFFF, "checksum of Linux"
        theirs, ours, seq, ack, flags, window = struct.unpack_from(">HHIIHH", data)
        bits = "".join(letter for letter in "SFR" if flags & FLAGS[letter])
        head = (flags >> 12) * 4
        return ours, theirs, Packet(seq, ack if flags & ACK else None, bits, window, data[head:], decoded(data[20:head]))

    def send(self, family, ours, theirs, segment):
        """A segment as a packet."""
        dst, src = (socket.inet_pton(family, addr) for addr in FAMILIES[family])
        flags = sum(FLAGS[letter] for letter in segment.bits) | (0 if segment.ack is None else ACK)
        data = packets.tcp(segment.text, encoded(segment.options), flags=flags, src_port=ours, dst_port=theirs, seq=segment.seq,
                           ack=segment.ack or 0, window=segment.window, src=src, dst=dst)
        if family == socket.AF_INET:
            head = packets.header(len(data), protocol=6, src=src, dst=dst)
        else:
            head = packets.header_ipv6(len(data), next_header=6, src=src, dst=dst)
        os.write(self.file, head + data)


class Application:
    """What either end writes and reads, when it closes, and how it waits before it reads."""

    def __init__(self, rng, size):
        self.text, self.written, self.got = letters(rng, size), 0, bytearray()
        self.closes_last, self.is_closed = rng.random() < 0.3, False
        self.pause, self.most = rng.choice(((0, 1 << 20), (0, 1 << 20), (20, 9000)))
        self.awake = 0

    def rest(self):
        return self.text[self.written : self.written + 60_000]

    def may_close(self, has_end):
        return self.written == len(self.text) and not self.is_closed and (has_end or not self.closes_last)


class Talk:
    """A connection: the socket of the program, that of Linux, and the packets on the way."""

    def __init__(self, bench, number):
        self.bench, self.rng = bench, bench.rng
        rng = self.rng
        self.ours, self.theirs = OURS + number, LISTENING
        self.family = rng.choice((socket.AF_INET, socket.AF_INET6))
        self.loss, size = LOSSES[number % 3]
        self.losses = {True: losses(rng, self.loss), False: losses(rng, self.loss)}
        self.mss = rng.choice((536, 1000, 1440 if self.family == socket.AF_INET6 else 1460))
        self.is_passive = number % 2 == 0
        self.app, self.peer = Application(rng, size), Application(rng, size)
        self.peer.closes_last &= not self.app.closes_last
        rings = rng.choice((4000, 20_000, 65_535, 300_000)), rng.choice((4000, 20_000, 65_535, 300_000))
        self.end = End(bench.machine(), Watch(), self.mss, 0, rng.randrange(2), *rings)
        self.socket, self.has_end, self.is_done, self.stale = None, False, False, None
        self.sent = self.lost = 0

    def begin(self):
        if not self.is_passive:
            self.send(self.end.segment(self.bench.now, "open", self.rng.randrange(1 << 32)))
            return self.settle()
        self.end.segment(self.bench.now, "listen")
        linux = self.bench.socket(self.family)
        linux.connect_ex((FAMILIES[self.family][1], self.ours))
        return self.has_socket(linux)

    def has_socket(self, linux):
        """Linux has its socket."""
        self.socket = linux
        if self.peer.pause:
            linux.setsockopt(socket.SOL_SOCKET, socket.SO_RCVBUF, 4000)
        self.theirs = linux.getsockname()[1]
        self.calls_linux()

    # The packets

    def way(self, kind, *operands):
        """A packet is lost, comes, or comes more than once, at once or later."""
        rng = self.rng
        self.sent += 1
        if next(self.losses[kind == self.hears]):
            self.lost += 1
            return
        for _ in range(2 if rng.random() < 0.02 else 1):
            delay = 0 if rng.random() < 0.98 else rng.randrange(1, 10)
            self.bench.later(delay, kind, *operands)

    def send(self, segment):
        if segment:
            self.way(self.bench.tun.send, self.family, self.ours, self.theirs, segment)

    def comes(self, theirs, segment):
        """A packet of Linux."""
        if self.theirs == theirs or self.end.state == "Listen":
            self.theirs = theirs
            self.way(self.hears, segment)

    def hears(self, segment):
        if not self.is_done:
            self.send(self.end.segment(self.bench.now, "arrives", segment, self.rng.randrange(1 << 32)))
            self.wakes()
            self.settle()

    def settle(self):
        """Sends what goes out now, and looks again when it is due."""
        for segment in self.end.ticks(self.bench.now):
            self.send(segment)
        if self.end.due is not None and self.end.due != self.stale:
            self.stale = self.end.due
            self.bench.later(self.end.due - self.bench.now, self.due)

    def due(self):
        if not self.is_done and self.end.due is not None and self.end.due <= self.bench.now:
            self.settle()

    # Our application

    def wakes(self):
        """Our application reads and writes, unless it waits."""
        if self.app.awake <= self.bench.now:
            self.calls()

    def calls(self):
        app, now = self.app, self.bench.now
        app.awake = now + app.pause
        count = app.most
        while count > 0 and (text := self.end.read(now, count)):
            app.got += text
            count -= len(text)
        if self.end.state not in ("Closed", "Listen", "SynSent"):
            if rest := app.rest():
                app.written += self.end.write(now, rest)
            if app.may_close(self.end.state in ("CloseWait", "LastAck")):
                app.is_closed = True
                self.end.segment(now, "close")
        if app.pause and not self.is_done:
            self.bench.later(app.pause, self.calls_again)

    def calls_again(self):
        if not self.is_done and self.app.awake <= self.bench.now:
            self.calls()
            self.settle()

    # Linux's application

    def calls_linux(self):
        """It reads, writes and closes as far as it can now, and looks again soon."""
        if self.is_done:
            return
        peer = self.peer
        try:
            if not self.has_end and self.reads_linux(peer):
                self.has_end = True
            if rest := peer.rest():
                peer.written += self.socket.send(rest)
            if peer.may_close(self.has_end):
                peer.is_closed = True
                self.socket.shutdown(socket.SHUT_WR)
        except BlockingIOError:
            pass
        except OSError as error:
            raise AssertionError(f"{self.described()}: {error}") from error
        self.ends()
        self.bench.later(max(peer.pause, 2), self.calls_linux)

    def reads_linux(self, peer):
        """Takes what came. Whether that was all."""
        count = peer.most
        while count > 0:
            try:
                text = self.socket.recv(min(count, 65536))
            except BlockingIOError:
                return False
            if not text:
                return True
            peer.got += text
            count -= len(text)
        return False

    def ends(self):
        """Both have closed. TIME-WAIT ends a minute later on our clock."""
        state = self.info()[STATE]
        if self.has_end and self.peer.is_closed and state == TCP_CLOSE and self.end.state in ("Closed", "TimeWait"):
            self.is_done = True
            while text := self.end.read(self.bench.now, 1 << 20):
                self.app.got += text
            later = self.bench.now + AFTER_TIME_WAIT
            self.end.segment(later, "tick")
            self.check()

    def info(self):
        return self.socket.getsockopt(socket.IPPROTO_TCP, socket.TCP_INFO, 8)

    def check(self):
        assert self.app.got == self.peer.text, f"the program got {len(self.app.got)} bytes"
        assert self.peer.got == self.app.text, f"Linux got {len(self.peer.got)} bytes"
        assert self.end.state == "Closed", self.end.state
        assert self.info()[AGREED] & ALL_AGREED == ALL_AGREED, "Linux has not agreed on all options"
        self.socket.close()
        self.end.machine.close()
        self.bench.open_talks -= 1

    def described(self):
        role = "passive" if self.is_passive else "active"
        app, peer = self.app, self.peer
        return (f"connection {self.ours - OURS}, {role}, {self.family.name}, MSS {self.mss}, loss {self.loss}: "
                f"{self.end.state}, {app.written} and {peer.written} bytes written, {len(app.got)} and {len(peer.got)} read")


class Bench:
    """The device, the connections and the clock."""

    def __init__(self, program, seed, count):
        self.program, self.rng, self.count = program, Random(seed), count
        self.tun, self.queue, self.numbers, self.now = Tun(), [], 0, 0
        self.listening = [self.listens(family, FAMILIES[family][0]) for family in FAMILIES]
        self.talks = [Talk(self, number) for number in range(count)]
        self.open_talks = count

    def machine(self):
        return machine_of(self.program)

    def socket(self, family):
        """A socket of Linux, which does not block."""
        sock = socket.socket(family, socket.SOCK_STREAM)
        sock.setblocking(False)
        for option, value in OPTIONS:
            with contextlib.suppress(OSError):
                sock.setsockopt(socket.IPPROTO_TCP, option, value)
        return sock

    def listens(self, family, addr):
        sock = self.socket(family)
        sock.bind((addr, LISTENING))
        sock.listen(1000)
        return sock

    def later(self, delay, kind, *operands):
        self.numbers += 1
        heapq.heappush(self.queue, (self.now + delay, self.numbers, kind, operands))

    def accepts(self, listening):
        linux, place = listening.accept()
        linux.setblocking(False)
        self.talks[place[1] - OURS].has_socket(linux)

    def takes(self, _):
        for ours, theirs, segment in self.tun.packets():
            if 0 <= ours - OURS < self.count:
                self.talks[ours - OURS].comes(theirs, segment)

    def run(self):
        begin = time.monotonic()
        selector = selectors.DefaultSelector()
        selector.register(self.tun.file, selectors.EVENT_READ, self.takes)
        for sock in self.listening:
            selector.register(sock, selectors.EVENT_READ, self.accepts)
        for talk in self.talks:
            self.later(self.rng.randrange(1000), talk.begin)
        while self.open_talks:
            wait = (self.queue[0][0] - self.now) / 1000 if self.queue else 1
            for key, _ in selector.select(max(0, wait)):
                key.data(key.fileobj)
            self.now = int((time.monotonic() - begin) * 1000)
            assert self.now < LATEST * 1000, "\n".join(talk.described() for talk in self.talks if not talk.is_done)
            while self.queue and self.queue[0][0] <= self.now:
                _, _, kind, operands = heapq.heappop(self.queue)
                kind(*operands)
        return sum(talk.sent for talk in self.talks), sum(talk.lost for talk in self.talks)


def inside(program, seed, count):
    bench = Bench(program, seed, count)
    try:
        print(*bench.run())
    except (AssertionError, OSError) as error:
        sys.exit(f"seed {seed}: {error}")


def skip(reason):
    print(f"{sys.argv[0]}: skipped: {reason}")
    sys.exit(77)


def apart():
    """The command that runs another one in a network namespace of its own."""
    for tool in ("ip", "unshare"):
        if not shutil.which(tool):
            skip(f"{tool} is not on the path")
    if not os.path.exists("/dev/net/tun"):
        skip("there is no /dev/net/tun")
    probe = ["sh", "-c", "ip link set lo up && ip -6 address add fd81::3/128 dev lo && ip tuntap add probe mode tun"]
    for more in ([], ["--user", "--map-root-user"]):
        command = ["unshare", "--net", *more]
        result = subprocess.run(command + probe, stderr=subprocess.PIPE, text=True)
        if result.returncode == 0:
            return command
    return skip(result.stderr.strip().split("\n")[-1])


def main():
    is_inside = sys.argv[1:2] == ["--inside"]
    words = sys.argv[2:] if is_inside else sys.argv[1:]
    if len(words) != 3:
        sys.exit(__doc__.strip())
    program, seed, count = words[0], words[1], int(words[2])
    if is_inside:
        return inside(program, seed, count)
    if program != "model" and not shutil.which(program):
        sys.exit(f"there is no program {program}")
    begin, command, totals = time.monotonic(), apart(), [0, 0]
    parts = [count // PROCESSES + (at < count % PROCESSES) for at in range(PROCESSES)]
    processes = [subprocess.Popen([*command, sys.executable, __file__, "--inside", program, f"{seed}.{at}", str(part)],
                                  stdout=subprocess.PIPE, text=True) for at, part in enumerate(parts)]
    try:
        for process in processes:
            output, _ = process.communicate()
            if process.returncode:
                sys.exit(f"{sys.argv[0]}: a process has the status {process.returncode}")
            totals = [total + int(word) for total, word in zip(totals, output.split())]
    finally:
        for process in processes:
            process.kill()
    print(f"{count} connections with Linux, {totals[0]} packets, {totals[1]} of them lost: all bytes right, "
          f"{time.monotonic() - begin:.0f} s")
    return None


if __name__ == "__main__":
    main()
