"""Random schedules of two sockets: as those of connections, with clocks that jump, options that are removed on the way or
forged, errors of too big segments, and silence at the end of some."""
from model import HALF, MASK, Segment, distance
from schedules import Schedule
from socket_model import NO_PEER, Socket
from tcp_options import BLOCKS, MAX_FIELD, NONE, VALID, Options, Packet

KINDS = ("deliver", "wait", "tick", "write", "read", "abort", "restart", "close", "forged", "sack", "too_big")
WEIGHTS = (46, 18, 3, 16, 9, 0.1, 0.1)
CLOSES, FORGED, SACKS, ERRORS = (1, 2, 8), (0, 0, 2, 10), (0, 4, 15), (0, 0.5, 2)
# How far a clock jumps, in milliseconds, if not to where `tick` is due.
JUMPS = (1,) * 8 + (2, 39, 41, 41, 200, 300, 700, 1000, 3000, 3000, 60_000, 75_000, 299_999, 8_000_000)
# Longer than any timeout.
PAUSE = 61_000
# The most times that a socket waits in silence.
SILENCE = 60


class SocketSchedule(Schedule):
    """A schedule of so many events, each mostly with the ticks after it."""

    kinds = KINDS

    def __init__(self, rng, length):
        super().__init__(rng, 2 * length)
        self.weights = (*WEIGHTS, *map(rng.choice, (CLOSES, FORGED, SACKS, ERRORS)))
        # The options that no SYN has when it comes.
        self.without = {name: value for name, value in NONE._asdict().items() if rng.random() < 0.3}
        self.without = rng.choice(({}, {}, self.without, NONE._asdict()))
        self.loss = rng.choice((0, 0, 0.15))
        self.is_silent, self.last = rng.random() < 0.3, None
        self.tick_share = rng.choice((1, 0.9, 0.5))
        self.sizes = rng.choice(((1, 2, 16), (16, 40, 100), (100, 200), (200,), (200, 2000, 65535, 65536, 200_000)))

    def events(self):
        for end in (0, 1):
            yield self.restart(end)
            yield from self.with_ticks(self.open(end))
        for _ in range(self.length):
            end = self.rng.randrange(2)
            kind = self.next_kind(end)
            for _ in range(self.rng.choice((1, 5)) if kind == "sack" else 1):
                yield from self.with_ticks(getattr(self, kind)(end))
            one = self.ends[end]
            if one.is_open and not one.is_waiting and one.congestion.cwnd > one.congestion.initial:
                yield from self.pause(end)
        for end in (0, 1) if self.is_silent else ():
            yield from self.silence(end)

    def pause(self, end):
        """Then as much goes out as at first."""
        yield end, "at", self.ends[end].now + PAUSE
        yield end, "write", self.text(200)
        yield from self.ticks(end)

    def with_ticks(self, event):
        yield event
        if self.rng.random() < self.tick_share:
            yield from self.ticks(event[0])

    def ticks(self, end):
        """Until one returns nothing."""
        self.last = True
        while self.last:
            yield end, "tick"

    def sent(self, end, segment):
        self.last = isinstance(segment, tuple)
        if self.last and "S" in segment.bits and self.rng.random() < 0.99:
            segment = segment._replace(options=segment.options._replace(**self.without))
        if self.rng.random() >= self.loss:
            super().sent(end, segment)

    def silence(self, end):
        """Nothing comes any more."""
        one = self.ends[end]
        yield from self.ticks(end)
        for _ in range(SILENCE):
            if one.state in NO_PEER:
                break
            yield end, "at", one.due
            yield from self.ticks(end)

    def restart(self, end):
        rng = self.rng
        sizes = rng.choice(self.sizes), rng.choice(self.sizes)
        mss, keep_alive = rng.choice((1, 2, 2, 3, 3, 10, 25, 60, 0, 65535)), rng.choice((0, 1, 2, 100, 100, 0xFFFFFFFF))
        operands = mss, keep_alive, rng.randrange(2), *sizes
        self.ends[end] = Socket(*operands)
        return end, "socket", *operands

    def wait(self, end):
        """The clock of an endpoint jumps, mostly to where something is due, or just before."""
        one, rng = self.ends[end], self.rng
        due = one.due or 0
        outdated = one.agreed.recent_at + VALID
        if one.agreed.recent is not None and one.now < outdated < one.ends_at and rng.random() < 0.05:
            return end, "at", outdated + rng.randrange(2)
        if due > one.now and rng.random() < 0.5:
            return end, "at", max(one.now, due - (rng.random() < 0.2))
        return end, "at", one.now + rng.choice(JUMPS)

    def tick(self, end):
        return end, "tick"

    def send(self, end):
        return end, "tick"

    def write(self, end):
        text = self.text(self.rng.choice((1, 2, 3, 7, 20, 60, 200)))
        return end, "write", text * 6 if self.ends[end].size_out > 1000 and self.rng.random() < 0.2 else text

    # Options

    def changed(self, segment):
        """One field differs, or one option."""
        packet = segment if self.rng.random() < 0.5 else Packet(*super().changed(Segment(*segment[:5])), segment.options)
        return packet if packet != segment else packet._replace(options=self.other(packet.options))

    def other(self, options):
        rng = self.rng
        tsval, tsecr = options.stamps or (rng.randrange(1 << 32), 0)
        stamps = (tsval + rng.choice((-1, 1, -1000, 1000, HALF, HALF - 1, HALF + 1))) & MASK, tsecr
        return options._replace(**rng.choice((
            {"mss": rng.choice((None, 0, 1, 47, 48, 49, 536, 65535))},
            {"scale": rng.choice((None, 0, 1, 7, 14, 15, 255))},
            {"has_sack": not options.has_sack},
            {"stamps": rng.choice((None, stamps, stamps))},
            {"blocks": tuple((rng.randrange(1 << 32), rng.randrange(1 << 32)) for _ in range(rng.randrange(BLOCKS + 1)))})))

    def forged(self, end):
        """With any options."""
        _, name, segment, iss = super().forged(end)
        one, rng = self.ends[end], self.rng
        options = one.agreed.of_syn(one.mss, one.now) if "S" in segment.bits else Options(stamps=self.stamps(one))
        options = options._replace(blocks=self.blocks(one)) if rng.random() < 0.3 else options
        options = self.other(options) if rng.random() < 0.3 else options
        segment = segment._replace(window=min(MAX_FIELD, segment.window >> (one.agreed.scale or 0)))
        return end, name, Packet(*segment, options), iss

    def stamps(self, one):
        """Timestamps beside those that the peer sent, if there are some."""
        rng = self.rng
        tsval = None if one.agreed.recent is None else one.agreed.recent + rng.choice((0,) * 6 + (1, 3, -1, -9, HALF, HALF - 1))
        return None if tsval is None else (tsval & MASK, one.agreed.stamp(one.now))

    def blocks(self, one):
        """Blocks of what is in flight, of nothing, and beside both."""
        rng, flight = self.rng, one.flight
        blocks = []
        for _ in range(rng.choice((1, 1, 2, 3, 4))):
            offsets = rng.randrange(flight + 1), rng.randrange(flight + 1)
            first, end = sorted(offsets) if rng.random() < 0.9 else offsets
            far = rng.choice((0,) * 20 + (1, -1, HALF))
            blocks.append(((one.snd_una + first) & MASK, (one.snd_una + end + far) & MASK))
        return tuple(blocks)

    def sack(self, end):
        """An acknowledgement of a peer that has text after gaps."""
        one, rng = self.ends[end], self.rng
        ack = one.snd_una + (0 if rng.random() < 0.8 else rng.randrange(one.flight + 1))
        window = min(MAX_FIELD, one.snd_wnd >> (one.agreed.scale or 0))
        window = window if rng.random() < 0.8 else rng.choice((0, 1, 200, MAX_FIELD))
        options = Options(stamps=self.stamps(one), blocks=self.blocks(one))
        return end, "arrives", Packet(one.rcv_nxt, ack & MASK, "", window, b"", options), self.iss()

    def too_big(self, end):
        """An ICMP error about a segment in flight, or about another one."""
        one, rng = self.ends[end], self.rng
        flight = distance(one.snd_nxt, one.snd_una)
        number = one.snd_una + rng.choice((0, 0, rng.randrange(flight + 1), flight - 1, flight, -1)) + self.far()
        mss = rng.choice((0, 1, 47, 48, 49, 100, 535, 536, one.limit - 1, one.limit))
        return end, "too-big", number & MASK, mss
