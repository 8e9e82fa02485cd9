"""What must hold of the answers of a socket, whatever happens to it. No model is needed."""
from lines import segment_of
from model import HALF, MASK, distance
from tcp_options import DEFAULT_MSS, MAX_FIELD, MAX_SCALE, MIN_MSS, MIN_TEXT, NONE, scale_of

# What a socket may wait for a silent peer: the bounds of RFC 1122 and RFC 9293 that it has, and the probes of keep-alive.
LONGEST, PROBES = 300_000, 9 * 75_000
SET_UP, ENDED = ("SynSent", "SynReceived"), ("CloseWait", "Closing", "LastAck", "TimeWait")
WITHOUT = ("Closed", "Listen")


def is_after(x, y):
    return 0 < distance(x, y) < HALF


class Watch:
    """Sees the lines and the answers of a socket in their order. A rule that is broken raises AssertionError."""

    def __init__(self):
        self.now, self.state = 0, "Closed"
        self.begin()

    def begin(self):
        """Nothing is known of the peer."""
        self.came, self.acked, self.edge = set(), None, None
        self.iss = self.next = self.offered = None
        # The options of its SYN, and its timestamps.
        self.peer, self.stamps = NONE, set()

    def sees(self, name, operands, answer):
        """An event, and the parts of its answer."""
        before = self.state
        self.state, values, result, due = answer
        if name == "socket":
            self.bound = max(LONGEST, 1000 * (operands[1] or 7200) + PROBES)
            self.mss, self.scale = operands[0] or DEFAULT_MSS, scale_of(operands[4])
        elif name == "at":
            self.now = operands[0]
        elif name in ("open", "arrives"):
            self.hears(name, operands, before)
        if name not in ("socket", "at", "read", "write", "too-big"):
            self.sends(segment_of(result))
        if self.state in WITHOUT:
            self.begin()
            assert due is None, "a time is due without a peer"
            return
        self.next = int(values[0])
        assert due is not None, "no time is due"
        if name == "tick":
            assert due <= self.heard + self.bound, "a silent peer is waited for too long"
            assert self.now < self.heard + self.bound, "a silent peer was waited for too long"
            assert result != ["-"] or due > self.now, "a tick that does nothing is due at once"

    def hears(self, name, operands, before):
        """Notes what the peer offers, what came of it, and when."""
        self.heard = self.now
        if name == "open":
            if before in WITHOUT and self.state not in WITHOUT:
                self.iss = self.next = self.offered = operands[0]
            return
        seg, fresh = operands
        if before in WITHOUT:
            self.iss = self.next = self.offered = fresh
        if "S" in seg.bits and before in ("Listen", "SynSent"):
            self.peer = seg.options
        if seg.options.stamps:
            self.stamps.add(seg.options.stamps[0])
        self.came.update((seg.seq + at) & MASK for at in range(seg.length))
        ack = (self.iss + 1) & MASK if seg.ack is None else seg.ack
        edge = (ack + (seg.window << (0 if "S" in seg.bits else min(MAX_SCALE, self.peer.scale or 0)))) & MASK
        if not is_after(ack, self.next) and not is_after(self.iss, ack) and is_after(edge, self.offered):
            self.offered = edge

    def sends(self, seg):
        if seg and "R" in seg.bits:
            assert seg.options == NONE, "a RST has options"
        if seg is None or "R" in seg.bits or self.state in WITHOUT:
            return
        if "S" in seg.bits:
            self.offers(seg)
        else:
            self.has_options(seg)
        if seg.options.stamps:
            self.stamped(seg)
        end = (seg.seq + seg.length) & MASK
        if "S" not in seg.bits and seg.length:
            assert not is_after((end - 1) & MASK, self.offered), "text beyond the window"
        if seg.ack is not None:
            self.acknowledges(seg)

    def acknowledges(self, seg):
        ack = self.acked if self.acked is not None else (seg.ack - 1) & MASK
        assert not is_after(ack, seg.ack), "an acknowledgement goes back"
        while ack != seg.ack:
            assert ack in self.came, "what did not come is acknowledged"
            self.came.discard(ack)
            ack = (ack + 1) & MASK
        scale = 0 if "S" in seg.bits or self.peer.scale is None else self.scale
        edge = (seg.ack + (seg.window << scale)) & MASK
        if self.edge is not None and is_after(self.edge, edge) and self.state not in ENDED:
            # A SYN that goes again cannot tell a larger window.
            is_cut = "S" in seg.bits and seg.window == MAX_FIELD
            assert is_cut or distance(self.edge, edge) < 1 << scale, "the right edge of the window goes back"
            edge = self.edge
        self.acked, self.edge = ack, edge

    def offers(self, seg):
        """A SYN offers all options, and one that answers those that came."""
        options, asked = seg.options, self.peer
        assert options.mss == self.mss and not options.blocks, "another MSS, or SACK in a SYN"
        scale = self.scale if seg.ack is None or asked.scale is not None else None
        assert options.scale == scale, "the window scale of a SYN"
        assert options.has_sack == (seg.ack is None or asked.has_sack), "SACK permitted in a SYN"
        assert bool(options.stamps) == (seg.ack is None or asked.stamps is not None), "the timestamp of a SYN"

    def has_options(self, seg):
        """Another segment has only those that both SYNs had, and its text leaves room for them."""
        options, asked = seg.options, self.peer
        assert options.mss is options.scale is None and not options.has_sack, "an option of SYNs"
        assert bool(options.stamps) == (asked.stamps is not None), "a timestamp is missing, or was not asked for"
        limit = min(self.mss, max(MIN_MSS, DEFAULT_MSS if asked.mss is None else asked.mss))
        assert len(seg.text) <= max(limit - options.size, min(limit, MIN_TEXT)), "a larger segment than the peer takes"
        for first, end in options.blocks:
            assert asked.has_sack and len(options.blocks) <= (1 if seg.text else 3), "blocks that were not asked for"
            assert is_after(first, seg.ack) and is_after(end, first), "a block is not after a gap"
            assert {(first + at) & MASK for at in range(distance(end, first))} <= self.came, "a block did not come"

    def stamped(self, seg):
        """The clock, and one of the peer's timestamps."""
        tsval, tsecr = seg.options.stamps
        assert tsval == (self.iss + self.now) & MASK, "the own timestamp"
        assert tsecr in self.stamps if seg.ack is not None else tsecr == 0, "a timestamp that did not come is echoed"


class Blind:
    """Looks at nothing."""

    def sees(self, name, operands, answer):
        pass
