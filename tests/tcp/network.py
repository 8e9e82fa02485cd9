#!/usr/bin/env python3
"""Pairs of sockets over a simulated network: tests/tcp/network.py PROGRAM SEED COUNT

The program is crates/tcp_steps, or `model` for the model. Each of the COUNT connections has its own losses, repetitions,
delays, windows and readers, by a virtual clock. In some the network removes options of SYNs, splits and joins segments, or takes
only small ones from some time on, and sends errors. All bytes must come in both directions, and both ends must be CLOSED at the end. In some
connections an end vanishes: then the other must be CLOSED by its bound. Others are followed by one of the same sockets.
"""
import collections
import functools
import heapq
import multiprocessing
import pathlib
import shutil
import sys

sys.path.append(str(pathlib.Path(__file__).resolve().parents[1] / "frames"))
from dice import Random  # noqa: E402
from ends import End, machine_of  # noqa: E402
from model import MASK  # noqa: E402
from tcp_options import NONE  # noqa: E402
from watch import Watch  # noqa: E402

LETTERS = "abcdefghijklmnopqrstuvwxyz"
# Connections of one pair of programs.
PART = 50
# The most events of a connection.
TOO_MANY = 20000
LOSSES = (0, 0, 0.01, 0.03, 0.1)
# How often a middlebox splits a segment, or joins it with the one before it.
REMADE = (0, 0, 0.1, 0.6)
# The part of the MSS that the path takes from some time on: at least 48 bytes with options.
PATHS, LEAST = (None, None, 0.3, 0.8), 48


class Host:
    """A socket and its application, which writes a text, reads what comes, and closes."""

    def __init__(self, rng, machine):
        self.rng = rng
        self.mss = rng.choice((1, 2, 7, 50, 536, 1460, 1460))
        self.keep_alive = rng.choice((0, 2, 20, 200))
        rings = rng.choice((1, 3, 10, 30)), rng.choice((1, 3, 10, 30))
        sizes = [max(1, count * self.mss + rng.choice((0, -1, 5))) for count in rings]
        self.end = End(machine, Watch(), self.mss, self.keep_alive, rng.randrange(2), *sizes)
        self.least = min(self.mss, *sizes)
        self.is_gone = self.is_awake = False
        # How long the application waits between calls, in milliseconds.
        self.pause = rng.choice((0, 0, 0, 50, 700, 20_000))

    def has_text(self, least):
        """A text of a few segments, or of many, and how much is written and read at once. Nothing was written and read."""
        self.written, self.got, self.is_closed = 0, bytearray(), False
        self.amount = max(1, least // self.rng.choice((1, 1, 3))) if self.pause < 100 else 10 * least
        self.text = bytes(self.rng.choices(LETTERS.encode(), k=self.rng.choice((0, 1, 5, 3 * least, 25 * least))))

    def begin(self, now, iss):
        return self.end.segment(now, "listen") if iss is None else self.end.segment(now, "open", iss)

    def calls(self, now):
        """The application reads, writes and closes. Returns whether it did something."""
        text = self.end.read(now, self.rng.randrange(1, self.amount + 1))
        self.got += text
        count = 0
        if self.end.state not in ("Closed", "Listen"):
            rest = self.text[self.written : self.written + self.rng.randrange(1, self.amount + 1)]
            count = self.end.write(now, rest) if rest else 0
            self.written += count
            if self.written == len(self.text) and not self.is_closed and self.end.state != "SynSent":
                self.is_closed = True
                self.end.segment(now, "close")
        return bool(text) or count > 0


class Network:
    """Two hosts, and what happens to them in the order of time."""

    def __init__(self, rng, machines):
        self.rng = rng
        self.loss, self.repeats = rng.choice(LOSSES), rng.choice((0, 0.02, 0.1))
        self.delay, self.jitter = rng.choice((0, 1, 10, 200)), rng.choice((0, 1, 30, 300))
        self.hosts = [Host(rng, machine) for machine in machines]
        self.queue, self.count, self.now, self.errors = [], 0, 0, 0
        self.without = {name: value for name, value in NONE._asdict().items() if rng.random() < 0.2}
        share, self.narrow_at = rng.choice(PATHS), rng.randrange(3000)
        self.path = share and max(LEAST, int(share * max(host.mss for host in self.hosts)))
        self.remade, self.made = rng.choice(REMADE), 0
        self.vanishes = rng.choice((None,) * 6 + (rng.randrange(3000), rng.randrange(100_000)))

    def later(self, delay, kind, *operands):
        self.count += 1
        heapq.heappush(self.queue, (self.now + delay, self.count, kind, operands))

    def send(self, to, segment):
        """A segment is lost, comes once, or more than once. Some come late."""
        rng = self.rng
        if segment and "S" in segment.bits:
            segment = segment._replace(options=segment.options._replace(**self.without))
        elif segment and self.path and self.now >= self.narrow_at and len(segment.text) + segment.options.size > self.path:
            if rng.random() >= self.loss:
                self.later(2 * self.delay, self.is_too_big, 1 - to, segment.seq)
            return
        for part in self.parts(to, segment) if segment else ():
            while rng.random() >= self.loss:
                delay = self.delay + rng.randrange(self.jitter + 1)
                self.later(delay if rng.random() < 0.99 else delay + rng.randrange(20_000), self.come, to, part)
                if rng.random() >= self.repeats:
                    break

    def parts(self, to, segment):
        """What a middlebox makes of a segment: its two parts, or one segment of the one before it and this one."""
        rng, before = self.rng, self.last[to]
        if {"S", "R"} & set(segment.bits) or not segment.length:
            return [segment]
        self.last[to] = segment
        if rng.random() >= self.remade:
            return [segment]
        self.made += 1
        if before and (before.seq + before.length) & MASK == segment.seq:
            return [segment._replace(seq=before.seq, text=before.text + segment.text)]
        cut = rng.randrange(len(segment.text) + 1)
        first = segment._replace(bits=segment.bits.replace("F", ""), text=segment.text[:cut])
        return [first, segment._replace(seq=(segment.seq + cut) & MASK, text=segment.text[cut:])]

    def settle(self, at):
        """Sends what goes out now, and looks again when it is due."""
        host = self.hosts[at]
        for segment in host.end.ticks(self.now):
            self.send(1 - at, segment)
        if host.end.due is not None:
            self.later(host.end.due - self.now, self.due, at)

    def come(self, at, segment):
        end = self.hosts[at].end
        self.send(1 - at, end.segment(self.now, "arrives", segment, self.rng.randrange(1 << 32)))
        self.wake(at)
        self.settle(at)

    def is_too_big(self, at, number):
        self.errors += 1
        self.hosts[at].end.call(self.now, "too-big", number, self.path)
        self.settle(at)

    def due(self, at):
        due = self.hosts[at].end.due
        if due is not None and due <= self.now:
            self.settle(at)

    def wake(self, at):
        """The application will call, if it does not know it already."""
        host = self.hosts[at]
        if not host.is_awake:
            host.is_awake = True
            self.later(host.pause, self.calls, at)

    def calls(self, at):
        host = self.hosts[at]
        host.is_awake = False
        if host.calls(self.now):
            self.wake(at)
        self.settle(at)

    def vanish(self, at):
        """Nothing comes from or to this end any more."""
        self.hosts[at].is_gone = True

    def run(self):
        """The end of a connection: how many events it took."""
        rng = self.rng
        for host in self.hosts:
            host.has_text(min(host.least for host in self.hosts))
        self.last = [None, None]
        iss = [(rng.choice((0, 1 << 31)) - rng.randrange(3000)) & 0xFFFFFFFF for _ in self.hosts]
        if rng.random() < 0.8:
            iss[rng.randrange(2)] = None
        for at in sorted((0, 1), key=lambda at: iss[at] is not None):
            self.later(0, self.begin, at, iss[at])
        if self.vanishes is not None:
            self.later(self.vanishes, self.vanish, rng.randrange(2))
        events = 0
        while self.queue and events < TOO_MANY:
            self.now, _, kind, operands = heapq.heappop(self.queue)
            if not self.hosts[operands[0]].is_gone:
                kind(*operands)
            events += 1
        return events

    def begin(self, at, iss):
        self.send(1 - at, self.hosts[at].begin(self.now, iss))
        self.wake(at)
        self.settle(at)

    def check(self):
        """What is wrong at the end."""
        for at, host in enumerate(self.hosts):
            if self.vanishes is None:
                assert host.end.state == "Closed", f"end {at} is {host.end.state}"
                assert host.got == self.hosts[1 - at].text, f"end {at} got {len(host.got)} bytes"
            elif not host.is_gone:
                assert host.end.state in ("Closed", "Listen"), f"end {at} is {host.end.state}, its peer has vanished"
                assert self.hosts[1 - at].text.startswith(host.got), f"end {at} got other bytes"


def part(program, seed):
    """The connections of a seed. Returns counts of what happened."""
    rng, counts = Random(seed), collections.Counter()
    machines = machine_of(program), machine_of(program)
    for number in range(PART):
        network, more = Network(rng, machines), True
        while more:
            try:
                counts["events"] += network.run()
                network.check()
            except AssertionError as error:
                return f"seed {seed}, connection {number}, at {network.now} ms: {error}"
            more = network.vanishes is None and rng.random() < 0.3
            counts["again"] += more
            counts["bytes"] += sum(len(host.got) for host in network.hosts)
        counts["connections"] += 1
        counts["silent"] += network.vanishes is not None
        counts["errors"] += network.errors
        counts["made"] += network.made
    for machine in machines:
        machine.close()
    return counts


def main():
    if len(sys.argv) != 4 or not (sys.argv[2] + sys.argv[3]).isdecimal():
        sys.exit(__doc__.strip())
    program, seed, count = sys.argv[1], int(sys.argv[2]), int(sys.argv[3])
    if program != "model" and not shutil.which(program):
        sys.exit(f"there is no program {program}")
    total = collections.Counter()
    with multiprocessing.Pool() as pool:
        for found in pool.imap(functools.partial(part, program), [f"{seed}.{at}" for at in range(-(-count // PART))]):
            if isinstance(found, str):
                sys.exit(found)
            total += found
    print(f"{total['connections']} connections, {total['silent']} with a peer that vanishes, and {total['again']} of the same "
          f"sockets: {total['events']} events, "
          f"{total['made']} segments split or joined, {total['errors']} errors, {total['bytes']} bytes, nothing wrong")


if __name__ == "__main__":
    main()
