"""TCP options: of a segment, in bytes, and what two ends agree on by those of their SYNs (RFC 7323, RFC 2018, RFC 6691)."""
import struct
from typing import NamedTuple, Optional, Tuple

from model import HALF, MASK, Segment, distance, is_before

MAX_FIELD, MAX_SCALE = 65535, 14
DEFAULT_MSS, MIN_MSS, MIN_TEXT = 536, 48, 8
# How many blocks a header has room for, and how many ranges a sender remembers.
BLOCKS, RANGES = 4, 4
# How long TS.Recent is valid, in milliseconds: 24 days (RFC 7323, section 5.5).
VALID = 24 * 24 * 3600 * 1000
END, NOP, MSS, SCALE, SACK_PERMITTED, SACK, TIMESTAMPS = 0, 1, 2, 3, 4, 5, 8


class Options(NamedTuple):
    """The options of a segment. `stamps` are TSval and TSecr. A block of SACK is its first number, and that after its last."""

    mss: Optional[int] = None
    scale: Optional[int] = None
    has_sack: bool = False
    stamps: Optional[Tuple[int, int]] = None
    blocks: Tuple[Tuple[int, int], ...] = ()

    @property
    def size(self):
        """How many bytes they take beside text: a timestamp and one block are padded if they are alone."""
        size = (10 if self.stamps else 0) + (2 + 8 * len(self.blocks) if self.blocks else 0)
        return -(-size // 4) * 4


NONE = Options()


class Packet(NamedTuple):
    """A segment as its header has it: with its options, and `window` is the field."""

    seq: int
    ack: Optional[int]
    bits: str
    window: int
    text: bytes
    options: Options

    length = Segment.length


def encoded(options):
    """The options as bytes, without padding."""
    data = b"" if options.mss is None else struct.pack(">BBH", MSS, 4, options.mss)
    data += b"" if options.scale is None else bytes((SCALE, 3, options.scale))
    data += bytes((SACK_PERMITTED, 2)) if options.has_sack else b""
    data += struct.pack(">BBII", TIMESTAMPS, 10, *options.stamps) if options.stamps else b""
    if options.blocks:
        data += bytes((SACK, 2 + 8 * len(options.blocks)))
        data += b"".join(struct.pack(">II", *block) for block in options.blocks)
    return data


def decoded(data):
    """The options that these bytes have."""
    options = NONE
    while data and data[0] != END:
        if data[0] == NOP:
            data = data[1:]
            continue
        kind, size = data[:2]
        value, data = data[2:size], data[size:]
        if kind == MSS:
            options = options._replace(mss=int.from_bytes(value, "big"))
        elif kind == SCALE:
            options = options._replace(scale=value[0])
        elif kind == SACK_PERMITTED:
            options = options._replace(has_sack=True)
        elif kind == TIMESTAMPS:
            options = options._replace(stamps=struct.unpack(">II", value))
        elif kind == SACK:
            options = options._replace(blocks=tuple(struct.iter_unpack(">II", value)))
    return options


def scale_of(size):
    """The least scale with which the window field tells a window of this size (RFC 7323, section 2.2), at most 14."""
    return next(scale for scale in range(MAX_SCALE + 1) if scale == MAX_SCALE or size >> scale <= MAX_FIELD)


class Agreed:
    """What both SYNs have. The timestamps of this end begin at `offset`; `size` is that of its receive buffer."""

    def __init__(self, offset, size):
        self.offset, self.own_scale = offset, scale_of(size)
        # The shift of the peer's windows, or None without scaling; TS.Recent, or None without timestamps, and when it was set.
        self.scale, self.has_sack, self.recent, self.recent_at = None, False, None, 0

    def take_syn(self, options, now):
        self.scale = None if options.scale is None else min(options.scale, MAX_SCALE)
        self.has_sack = options.has_sack
        self.recent = None
        if options.stamps:
            self.set_recent(options, now)

    def set_recent(self, options, now):
        self.recent, self.recent_at = options.stamps[0], now

    def stamp(self, now):
        return (self.offset + now) & MASK

    def round_trip(self, options, now):
        """By the timestamp that comes back, unless that is ahead of the clock (RFC 7323, section 4.1). None: no timestamps."""
        elapsed = distance(self.stamp(now), options.stamps[1]) if options.stamps else HALF
        return elapsed if elapsed < HALF and self.recent is not None else None

    def stamps(self, now):
        return None if self.recent is None else (self.stamp(now), self.recent)

    def of_syn(self, mss, now):
        """A SYN without acknowledgement offers all."""
        return Options(mss, self.own_scale, True, (self.stamp(now), 0))

    def of_syn_ack(self, mss, now):
        """That of an answer has what the peer offered."""
        return Options(mss, None if self.scale is None else self.own_scale, self.has_sack, self.stamps(now))

    def of_segment(self, kept, now):
        """`kept` are the blocks of what is kept after gaps."""
        return Options(stamps=self.stamps(now), blocks=kept if self.has_sack else ())

    def field(self, window):
        """The window field (RFC 7323, section 2.3)."""
        return min(MAX_FIELD, window >> (0 if self.scale is None else self.own_scale))

    def read_as(self, window):
        """An own window as the peer reads it."""
        shift = 0 if self.scale is None else self.own_scale
        return window >> shift << shift

    def window(self, field):
        return field << (self.scale or 0)

    def is_old(self, stamps, now):
        """PAWS: SEG.TSval < TS.Recent, and TS.Recent is valid (RFC 7323, section 5.3)."""
        return is_before(stamps[0], self.recent) and now - self.recent_at <= VALID


class Scoreboard:
    """What the peer has after a gap, in items after SND.UNA: the first one, and that after the last (RFC 6675, section 2)."""

    most = RANGES

    def __init__(self):
        self.ranges = []

    @property
    def total(self):
        """How many items it has."""
        return sum(end - first for first, end in self.ranges)

    def add(self, first, end):
        """Ranges that overlap or adjoin are one. Of five the highest is forgotten."""
        joined = [one for one in self.ranges if one[0] <= end and first <= one[1]] + [(first, end)]
        apart = [one for one in self.ranges if one not in joined]
        one = min(first for first, _ in joined), max(end for _, end in joined)
        self.ranges = sorted([*apart, one])[: self.most]

    def advance(self, newly):
        self.ranges = [(max(0, first - newly), end - newly) for first, end in self.ranges if end > newly]

    def hole(self, at):
        """The first items at or after `at` that the peer has not, before some that it has: their offset and count, or None."""
        for first, end in self.ranges:
            if at < first:
                return at, first - at
            at = max(at, end)
        return None
