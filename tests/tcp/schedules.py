"""Random schedules of two endpoints: what their users do, and segments that are lost, repeated, reordered and forged.

`Schedule.events` yields events, which it lets happen to two endpoints. So the segments of later events fit them.
"""
import model
from model import MASK, Segment

LETTERS = b"abcdefghijklmnopqrstuvwxyz" * 8
# How many segments are on the way to an endpoint.
ON_THE_WAY = 12
# What happens next, and how often: forged segments come in some schedules only, since many end the connection.
KINDS = ("deliver", "send", "again", "write", "read", "close", "abort", "expire", "restart", "forged")
WEIGHTS = (34, 22, 4, 9, 9, 2, 0.2, 1, 0.2)
FORGED = (0, 2, 10, 40)


class Schedule:
    """A schedule of so many events of two endpoints."""

    kinds = KINDS

    def __init__(self, rng, length):
        self.rng, self.length = rng, length
        self.weights = (*WEIGHTS, rng.choice(FORGED))
        self.ends = [None, None]
        # The segments on the way to each endpoint.
        self.way = [[], []]

    def events(self):
        """Yields the number of an endpoint, an event and its operands. The caller lets it happen, and then goes on."""
        for end in (0, 1):
            yield self.restart(end)
            yield self.open(end)
        for _ in range(self.length):
            end = self.rng.randrange(2)
            yield getattr(self, self.next_kind(end))(end)

    def next_kind(self, end):
        """A closed endpoint is mostly opened again, and one of them waits no longer if both do."""
        kind = self.rng.choices(self.kinds, self.weights)[0]
        one, other = self.ends[end].state, self.ends[1 - end].state
        is_idle = one == model.CLOSED or one == other == model.LISTEN
        return "open" if self.rng.random() < (0.3 if is_idle else 0.01) else kind

    def sent(self, end, segment):
        """A segment goes to the other endpoint, or is lost."""
        way = self.way[1 - end]
        if isinstance(segment, tuple) and self.rng.random() < 0.92:
            way.append(segment)
            if len(way) > ON_THE_WAY:
                del way[0]

    # Events of users

    def restart(self, end):
        """A new endpoint, of which the other knows nothing."""
        rng = self.rng
        self.ends[end] = model.Connection(rng.choice((1, 2, 5, 16, 40, 100)), rng.choice((1, 2, 5, 16, 40, 100)))
        return end, "new", self.ends[end].size_out, self.ends[end].size_in

    def open(self, end):
        other = self.ends[1 - end]
        passive = 0.5 if other is None else 0.2 if other.state == model.LISTEN else 0.6
        return (end, "listen") if self.rng.random() < passive else (end, "open", self.iss())

    def iss(self):
        """An initial number, mostly one near those where numbers wrap."""
        rng = self.rng
        near = rng.choice((0, 0, 1 << 31)) - rng.randrange(60)
        return near & MASK if rng.random() < 0.8 else rng.randrange(1 << 32)

    def write(self, end):
        return end, "write", self.text(self.rng.choice((1, 2, 3, 7, 20)))

    def read(self, end):
        return end, "read", self.rng.choice((0, 1, 3, 10, 100))

    def close(self, end):
        return end, "close"

    def abort(self, end):
        return end, "abort"

    def expire(self, end):
        """The timer of TIME-WAIT ends, which deletes the connection."""
        return self.abort(end) if self.ends[end].state == model.TIME_WAIT else self.read(end)

    def send(self, end):
        """What was not sent yet, as far as the window allows."""
        one = self.ends[end]
        flight = model.distance(one.snd_nxt, one.snd_una)
        allowed = max(one.snd_wnd - flight, 1)
        return end, "send", flight, self.rng.choice((min(allowed, 8), min(allowed, 3), allowed, 100))

    def again(self, end):
        """A part that was sent, or any other."""
        one, rng = self.ends[end], self.rng
        flight = model.distance(one.snd_nxt, one.snd_una)
        return end, "send", rng.choice((0, 0, rng.randrange(flight + 1), rng.randrange(120))), rng.choice((0, 1, 2, 10))

    # Segments that come

    def deliver(self, end):
        """Mostly the oldest segment on the way. It can be lost, changed or repeated."""
        way, rng = self.way[end], self.rng
        if not way:
            return self.send(1 - end)
        at = 0 if rng.random() < 0.75 else rng.randrange(len(way))
        segment = way[at] if rng.random() < 0.15 else way.pop(at)
        if rng.random() < 0.06:
            segment = self.changed(segment)
        return end, "arrives", segment, self.iss()

    def changed(self, segment):
        """One field differs."""
        rng = self.rng
        seq, ack, bits, window, text = segment
        kind = rng.randrange(6)
        if kind == 0:
            seq = (seq + rng.choice((-1, 1))) & MASK
        elif kind == 1:
            ack = None if ack is None or rng.random() < 0.3 else (ack + rng.choice((-1, 1))) & MASK
        elif kind == 2:
            bits = self.bits()
        elif kind == 3:
            window = rng.choice((0, 1, 65535))
        elif kind == 4:
            text = text[: rng.randrange(len(text) + 1)]
        else:
            text += self.text(1)
        return Segment(seq, ack, bits, window, text)

    def forged(self, end):
        """A segment with numbers at and beside those of the endpoint, as a stray or an attacker sends."""
        one, rng = self.ends[end], self.rng
        length = rng.choice((0, 0, 0, 1, 2, one.rcv_wnd, one.rcv_wnd + 1))
        edges = (one.rcv_nxt + one.rcv_wnd, one.rcv_nxt + one.rcv_wnd // 2, one.rcv_nxt - length, one.irs, one.snd_wl1)
        seq = rng.choice((one.rcv_nxt,) * 6 + edges)
        ack = rng.choice((one.snd_una, one.snd_nxt) * 3 + (one.iss, one.snd_wl2))
        seq += rng.choice((0, 0, 0, 0, -1, 1, 2)) + self.far()
        ack += rng.choice((0, 0, 0, -1, 1)) + self.far()
        window = rng.choice((0, 1, 10, 200, one.snd_wnd, 65535))
        is_ack = rng.random() < 0.8
        segment = Segment(seq & MASK, ack & MASK if is_ack else None, self.bits(), window, self.text(length))
        return end, "arrives", segment, self.iss()

    def far(self):
        """Mostly 0, else half of the numbers away, or any number."""
        return self.rng.choice((1 << 31, self.rng.randrange(1 << 32))) if self.rng.random() < 0.04 else 0

    def bits(self):
        return self.rng.choice(("",) * 8 + ("S", "S", "R", "R", "R", "F", "F", "F", "SF", "SR", "FR", "SFR"))

    def text(self, length):
        at = self.rng.randrange(26)
        return LETTERS[at : at + length]
