"""One endpoint of TCP, from RFC 9293 (sections 3.3.2, 3.4 and 3.10) and RFC 5961 (sections 3.2 and 4.2).

The names of states and variables are those of the RFC. Each event returns the segment that the endpoint sends, or None. `met`
has the rules that handled the last event.

The RFC leaves some choices to an endpoint. This one acknowledges each segment with text or FIN at once, also after a gap.
It keeps eight pieces of text after gaps, and a FIN there (SHLD-31). It sends text only if the user asks for a segment,
and none from after SND.NXT. Of a SYN it takes the window, and neither text nor FIN: the peer sends them again. In
SYN-RECEIVED it takes the acknowledgement of its SYN only at RCV.NXT, or with the SYN of the peer (figure 7). The window
is 0 after the FIN of the peer. Both buffers are rings, and a text ends where its ring ends.

Section 3.10.7.4 asks for "special allowance" for valid acknowledgements if RCV.WND is 0. A peer that probes the window sends
the number at its right edge (section 3.8.6.1), so its next acknowledgement is one past the edge. A synchronized endpoint takes
such an acknowledgement if it has no text, SYN or FIN. Later ones say nothing about what came, so they are not answered.
"""
from typing import NamedTuple, Optional

MASK = 0xFFFFFFFF
HALF = 1 << 31
# The most pieces of text that are kept after gaps, and the most that a segment tells.
MOST_PIECES, MOST_BLOCKS = 8, 3

CLOSED, LISTEN, SYN_SENT, SYN_RECEIVED, ESTABLISHED = "CLOSED", "LISTEN", "SYN-SENT", "SYN-RECEIVED", "ESTABLISHED"
FIN_WAIT_1, FIN_WAIT_2, CLOSE_WAIT = "FIN-WAIT-1", "FIN-WAIT-2", "CLOSE-WAIT"
CLOSING, LAST_ACK, TIME_WAIT = "CLOSING", "LAST-ACK", "TIME-WAIT"
STATES = (CLOSED, LISTEN, SYN_SENT, SYN_RECEIVED, ESTABLISHED, FIN_WAIT_1, FIN_WAIT_2, CLOSE_WAIT, CLOSING, LAST_ACK,
          TIME_WAIT)


class Segment(NamedTuple):
    """A segment. `ack` is None without the ACK bit. `bits` has the letters of SYN, FIN and RST that are set."""

    seq: int
    ack: Optional[int]
    bits: str
    window: int
    text: bytes

    @property
    def length(self):
        """SEG.LEN: the text, and one number each for SYN and FIN."""
        return len(self.text) + ("S" in self.bits) + ("F" in self.bits)


def distance(x, y):
    """How far x is after y, modulo 2^32."""
    return (x - y) & MASK


def is_before(x, y):
    """x < y, modulo 2^32 (section 3.4)."""
    return 0 < (y - x) & MASK < HALF


class Connection:
    """The transmission control block. `size_out` and `size_in` are the sizes of the buffers in bytes."""

    def __init__(self, size_out, size_in):
        self.size_out, self.size_in = size_out, size_in
        self.met = []
        self.begin(CLOSED)
        self.begin_text()

    def begin(self, state):
        """A new connection, of which nothing is known yet."""
        self.state = state
        self.is_passive = False
        self.iss = self.snd_una = self.snd_nxt = self.snd_wnd = self.snd_wl1 = self.snd_wl2 = 0
        self.irs = self.rcv_nxt = 0
        # What takes numbers from SND.UNA on, until it is acknowledged: the SYN, the text and the FIN.
        self.syn, self.text, self.fin = False, bytearray(), False
        # Where the text begins in its ring, and whether the user has called CLOSE.
        self.at_out, self.is_closed = 0, False

    def begin_text(self):
        """The text that came and was not read yet, where it begins in its ring, and whether the FIN came."""
        self.unread, self.at_in, self.has_fin = bytearray(), 0, False
        # The pieces of text that are kept after gaps: how far after RCV.NXT each begins, and its bytes. They are in order and
        # apart.
        self.pieces = []
        # How far after RCV.NXT the newest of them began, and a FIN is (0: it did not come).
        self.newest = self.fin_at = 0

    @property
    def rcv_wnd(self):
        return 0 if self.has_fin else self.size_in - len(self.unread)

    def done(self, rule, reply=None):
        """A rule was met, and this segment is sent."""
        self.met.append(rule)
        return reply

    # User calls (sections 3.10.1 to 3.10.5)

    def listen(self):
        if self.state != CLOSED:
            return self.done("listen: error")
        self.begin(LISTEN)
        return self.done("listen")

    def open(self, iss):
        if self.state not in (CLOSED, LISTEN):
            return self.done("open: error")
        self.begin(SYN_SENT)
        return self.done("open", self.send_syn(iss))

    def send_syn(self, iss):
        """<SEQ=ISS><CTL=SYN>"""
        self.begin_text()
        self.iss = self.snd_una = iss
        self.snd_nxt = (iss + 1) & MASK
        self.syn = True
        return self.syn_segment()

    def syn_segment(self):
        """The SYN, with an acknowledgement if that of the peer came."""
        return Segment(self.iss, None if self.state == SYN_SENT else self.rcv_nxt, "S", self.rcv_wnd, b"")

    def write(self, text):
        """SEND. Returns how many bytes the buffer takes."""
        if self.state in (CLOSED, LISTEN) or self.is_closed:
            self.met.append("write: error")
            return 0
        count = min(len(text), self.size_out - len(self.text))
        self.text += text[:count]
        self.met.append("write")
        return count

    def read(self, count):
        """RECEIVE. Returns at most so many bytes. What came can be read in CLOSED too."""
        text = b"" if self.state == LISTEN else bytes(self.unread[: min(count, self.size_in - self.at_in)])
        del self.unread[: len(text)]
        self.at_in = (self.at_in + len(text)) % self.size_in
        self.met.append("read" if text else "read: nothing")
        return text

    def close(self):
        if self.is_closed or self.state == CLOSED:
            return self.done("close: error")
        if self.state in (LISTEN, SYN_SENT):
            self.state = CLOSED
            return self.done("close: deleted")
        self.is_closed = self.fin = True
        if self.state == SYN_RECEIVED:
            return self.done("close: queued")
        self.enter_closing()
        return self.done("close")

    def enter_closing(self):
        self.state = LAST_ACK if self.state == CLOSE_WAIT else FIN_WAIT_1

    def abort(self):
        reply = None
        if self.state in (SYN_RECEIVED, ESTABLISHED, FIN_WAIT_1, FIN_WAIT_2, CLOSE_WAIT):
            reply = Segment(self.snd_nxt, None, "R", 0, b"")
        rule = "abort: error" if self.state == CLOSED else "abort: reset" if reply else "abort"
        self.state = CLOSED
        return self.done(rule, reply)

    def send(self, offset, count):
        """The user asks for the segment that begins at this offset from SND.UNA, with at most so many bytes and FIN."""
        if self.state in (CLOSED, LISTEN):
            return self.done("send: error")
        if self.syn:
            return self.done("send SYN", self.syn_segment())
        if offset > distance(self.snd_nxt, self.snd_una):
            return self.done("send: after SND.NXT")
        offset = min(offset, len(self.text))
        text = bytes(self.text[offset : offset + min(count, self.size_out - (self.at_out + offset) % self.size_out)])
        end = offset + len(text)
        bits = "F" if self.fin and end == len(self.text) and len(text) < count else ""
        if not text and not bits:
            return self.done("send: nothing")
        end += len(bits)
        is_new = end > distance(self.snd_nxt, self.snd_una)
        if is_new:
            self.snd_nxt = (self.snd_una + end) & MASK
        segment = Segment((self.snd_una + offset) & MASK, self.rcv_nxt, bits, self.rcv_wnd, text)
        return self.done("send" if is_new else "send again", segment)

    # SEGMENT ARRIVES (section 3.10.7)

    def arrives(self, seg, iss):
        """`iss` is the initial number if the segment opens a connection."""
        if self.state == CLOSED:
            return self.in_closed(seg)
        if self.state == LISTEN:
            return self.in_listen(seg, iss)
        if self.state == SYN_SENT:
            return self.in_syn_sent(seg)
        return self.in_other(seg)

    def reset_of(self, ack):
        """<SEQ=SEG.ACK><CTL=RST>"""
        return Segment(ack, None, "R", 0, b"")

    def acknowledgement(self):
        """<SEQ=SND.NXT><ACK=RCV.NXT><CTL=ACK>"""
        return Segment(self.snd_nxt, self.rcv_nxt, "", self.rcv_wnd, b"")

    def in_closed(self, seg):
        """Section 3.10.7.1."""
        if "R" in seg.bits:
            return self.done("RST")
        if seg.ack is not None:
            return self.done("ACK: reset", self.reset_of(seg.ack))
        return self.done("no ACK: reset", Segment(0, (seg.seq + seg.length) & MASK, "R", 0, b""))

    def in_listen(self, seg, iss):
        """Section 3.10.7.2."""
        if "R" in seg.bits:
            return self.done("RST")
        if seg.ack is not None:
            return self.done("ACK: reset", self.reset_of(seg.ack))
        if "S" not in seg.bits:
            return self.done("no SYN")
        self.take_syn(seg)
        self.state, self.is_passive = SYN_RECEIVED, True
        return self.done("SYN", self.send_syn(iss))

    def take_syn(self, seg):
        self.irs, self.rcv_nxt = seg.seq, (seg.seq + 1) & MASK
        self.take_window(seg)

    def in_syn_sent(self, seg):
        """Section 3.10.7.3."""
        if seg.ack is not None and not self.acknowledges_new(seg.ack):
            if "R" in seg.bits:
                return self.done("RST, bad ACK")
            return self.done("bad ACK: reset", self.reset_of(seg.ack))
        if "R" in seg.bits:
            if seg.ack is None:
                return self.done("RST, no ACK")
            self.state = CLOSED
            return self.done("RST: closed")
        if "S" not in seg.bits:
            return self.done("no SYN")
        self.take_syn(seg)
        if seg.ack is None:
            self.state = SYN_RECEIVED
            return self.done("SYN", self.syn_segment())
        self.met.append("SYN, ACK")
        self.establish(seg)
        return self.acknowledgement()

    # The other states (section 3.10.7.4)

    def in_other(self, seg):
        if self.is_syn_again(seg):
            return self.with_syn_again(seg)
        is_acceptable = self.is_acceptable(seg)
        self.note_case(seg, is_acceptable)
        if "R" in seg.bits:
            return self.reset_by(seg)
        if not is_acceptable:
            if seg.length == 0 and self.state != SYN_RECEIVED:
                return self.beside_window(seg)
            return self.challenge(seg)
        if "S" in seg.bits:
            if self.state == SYN_RECEIVED and self.is_passive:
                self.return_to_listen()
                return self.done("SYN: to LISTEN")
            return self.done("SYN: challenge", self.challenge(seg))
        if seg.ack is None:
            return self.done("no ACK")
        if self.state == SYN_RECEIVED:
            return self.in_syn_received(seg)
        return self.with_ack(seg)

    def challenge(self, seg):
        """The answer to a segment that is not taken. The first SYN that comes again gets that of the first time."""
        if self.state == SYN_RECEIVED and seg.seq == self.irs and "S" in seg.bits:
            return self.done("SYN again", self.syn_segment())
        return self.acknowledgement()

    def is_acceptable(self, seg):
        """The four cases of the first check."""
        length, window = seg.length, self.rcv_wnd
        if length == 0:
            return seg.seq == self.rcv_nxt if window == 0 else self.is_in_window(seg.seq)
        return window > 0 and (self.is_in_window(seg.seq) or self.is_in_window((seg.seq + length - 1) & MASK))

    def is_in_window(self, number):
        return distance(number, self.rcv_nxt) < self.rcv_wnd

    def note_case(self, seg, is_acceptable):
        length = "numbers" if seg.length else "no number"
        window = "a window" if self.rcv_wnd else "window 0"
        self.met.append(f"{'' if is_acceptable else 'not '}acceptable: {length}, {window}")

    def beside_window(self, seg):
        """A segment that takes no number, and that the table does not accept."""
        if self.has_allowance(seg):
            self.met.append("special allowance")
            return self.with_ack(seg) if seg.ack is not None else self.done("no ACK")
        if self.is_old(seg):
            return self.done("old SEG.SEQ", self.acknowledgement())
        return self.done("after the window")

    def has_allowance(self, seg):
        """RCV.NXT =< SEG.SEQ =< RCV.NXT + RCV.WND + 1: the peer has sent at most one number that is not in the window."""
        return distance(seg.seq, self.rcv_nxt) <= self.rcv_wnd + 1

    def is_old(self, seg):
        """SEG.SEQ < RCV.NXT, as in a keep-alive probe (section 3.8.4)."""
        return is_before(seg.seq, self.rcv_nxt)

    def reset_by(self, seg):
        """The second check."""
        if self.resets(seg):
            if self.state == SYN_RECEIVED and self.is_passive:
                self.return_to_listen()
                return self.done("RST: to LISTEN")
            self.state = CLOSED
            return self.done("RST: closed")
        if self.is_in_window(seg.seq):
            return self.done("RST: challenge", self.acknowledgement())
        return self.done("RST outside")

    def resets(self, seg):
        """Whether a RST acts: at the exact number, also if the window is 0 (RFC 5961, section 3.2; RFC 9293, MUST-66)."""
        return seg.seq == self.rcv_nxt

    def return_to_listen(self):
        self.begin(LISTEN)

    def is_syn_again(self, seg):
        """Whether it is the SYN of the peer again, with an acknowledgement (figure 7, line 6). It begins before RCV.NXT."""
        return (self.state == SYN_RECEIVED and seg.seq == self.irs and "S" in seg.bits and "R" not in seg.bits
                and seg.ack is not None)

    def with_syn_again(self, seg):
        if not self.acknowledges_new(seg.ack):
            return self.done("SYN again, bad ACK", self.acknowledgement())
        self.establish(seg)
        return self.done("SYN, ACK again")

    def in_syn_received(self, seg):
        """The fifth check in SYN-RECEIVED."""
        if not self.acknowledges_new(seg.ack):
            return self.done("bad ACK: reset", self.reset_of(seg.ack))
        if seg.seq != self.rcv_nxt:
            return self.done("ACK of SYN beside RCV.NXT", self.acknowledgement())
        self.met.append("ACK of SYN")
        self.establish(seg)
        return self.with_text(seg)

    def establish(self, seg):
        self.state = ESTABLISHED
        self.take_window(seg)
        self.take_ack(seg.ack)
        if self.is_closed:
            self.enter_closing()

    def acknowledges_new(self, ack):
        """SND.UNA < SEG.ACK =< SND.NXT"""
        return 0 < distance(ack, self.snd_una) <= distance(self.snd_nxt, self.snd_una)

    def acknowledges_unsent(self, ack):
        """SEG.ACK > SND.NXT"""
        return is_before(self.snd_nxt, ack)

    def with_ack(self, seg):
        """The fifth check in the synchronized states, and those after it."""
        if self.acknowledges_unsent(seg.ack):
            return self.done("ACK of unsent", self.acknowledgement())
        if self.acknowledges_new(seg.ack):
            self.met.append("ACK")
            edge = self.snd_una + self.snd_wnd
            self.take_ack(seg.ack)
            self.keep_edge(edge)
            self.update_window(seg)
        elif seg.ack == self.snd_una:
            self.met.append("ACK again")
            self.update_window(seg)
        else:
            self.met.append("old ACK")
        if self.is_closed and not self.fin:
            self.take_ack_of_fin()
        if self.state == CLOSED:
            return None
        return self.with_text(seg)

    def take_ack_of_fin(self):
        """FIN-WAIT-1, CLOSING and LAST-ACK end."""
        after = {FIN_WAIT_1: FIN_WAIT_2, CLOSING: TIME_WAIT, LAST_ACK: CLOSED}
        if self.state in after:
            self.state = after[self.state]
            self.met.append("ACK of FIN")

    def take_ack(self, ack):
        """SND.UNA <- SEG.ACK"""
        count = distance(ack, self.snd_una)
        self.snd_una = ack
        if self.syn and count:
            self.syn = False
            count -= 1
        if count > len(self.text):
            self.fin = False
        self.at_out = (self.at_out + min(count, len(self.text))) % self.size_out
        del self.text[:count]

    def keep_edge(self, edge):
        """Of an acknowledgement without its window: the peer has offered nothing after this edge."""
        self.snd_wnd = max(0, self.snd_wnd - distance(self.snd_una + self.snd_wnd, edge))

    def update_window(self, seg):
        is_newer = self.is_newer(seg)
        self.met.append("window" if is_newer else "older window")
        if is_newer:
            self.take_window(seg)

    def is_newer(self, seg):
        """SND.WL1 < SEG.SEQ or (SND.WL1 = SEG.SEQ and SND.WL2 =< SEG.ACK)"""
        return is_before(self.snd_wl1, seg.seq) or self.snd_wl1 == seg.seq and not is_before(seg.ack, self.snd_wl2)

    def take_window(self, seg):
        self.snd_wnd, self.snd_wl1 = seg.window, seg.seq
        if seg.ack is not None:
            self.snd_wl2 = seg.ack

    def with_text(self, seg):
        """The seventh and the eighth check."""
        if seg.length == 0:
            return None
        self.take_text(seg)
        return self.acknowledgement()

    def take_text(self, seg):
        """Takes text and FIN from RCV.NXT on, as far as they are in the window."""
        skip = distance(self.rcv_nxt, seg.seq)
        if skip >= HALF:
            return self.take_later(seg)
        text = seg.text[skip : skip + self.rcv_wnd]
        has_fin = "F" in seg.bits and skip <= len(seg.text) and len(seg.text) - skip < self.rcv_wnd
        if text:
            self.met.append("text" if not skip else "text, in part again")
        if len(seg.text) - skip > len(text):
            self.met.append("text, cut")
        to = len(text) if has_fin else self.end_of_kept(len(text))
        for at, piece in self.pieces if to > len(text) else ():
            if at <= len(text) < at + len(piece):
                text += bytes(piece[len(text) - at :])
        self.unread += text
        self.rcv_nxt = (self.rcv_nxt + to) & MASK
        if has_fin or 0 < self.fin_at == to:
            return self.take_fin()
        self.pieces = [(max(0, at - to), piece[max(0, to - at) :]) for at, piece in self.pieces if at + len(piece) > to]
        self.newest, self.fin_at = max(0, self.newest - to), max(0, self.fin_at - to)

    def end_of_kept(self, at):
        """How far after RCV.NXT the first number at or after `at` is that is not kept."""
        ends = [first + len(piece) for first, piece in self.pieces if first <= at < first + len(piece)]
        return ends[0] if ends else at

    def take_later(self, seg):
        """Text after a gap is kept as far as it is in the window, if it is no ninth piece, and a FIN too. The newest counts."""
        self.met.append("text after a gap")
        ahead = distance(seg.seq, self.rcv_nxt)
        if ahead >= self.rcv_wnd:
            return
        text = seg.text[: self.rcv_wnd - ahead]
        end = ahead + len(text)
        if text:
            apart = [(at, piece) for at, piece in self.pieces if at > end or at + len(piece) < ahead]
            if len(apart) == MOST_PIECES:
                return
            whole = bytearray(text)
            for at, piece in self.pieces:
                if at < ahead and (at, piece) not in apart:
                    whole[:0] = piece[: ahead - at]
                    ahead_of_whole = at
                    break
            else:
                ahead_of_whole = ahead
            for at, piece in self.pieces:
                if at + len(piece) > end and (at, piece) not in apart:
                    whole += piece[end - at :]
            self.pieces = sorted(apart + [(ahead_of_whole, whole)], key=lambda piece: piece[0])
            self.newest = ahead
        if "F" in seg.bits and len(text) == len(seg.text) and end < self.rcv_wnd:
            self.fin_at = end

    @property
    def blocks(self):
        """The SACK blocks of what is kept: first the piece with the newest text, and then the lowest ones."""
        covers = [at <= self.newest < at + len(piece) for at, piece in self.pieces]
        newest = covers.index(True) if True in covers else 0
        told = self.pieces[newest : newest + 1] + self.pieces[:newest] + self.pieces[newest + 1 :]
        firsts = [((self.rcv_nxt + at) & MASK, len(piece)) for at, piece in told[:MOST_BLOCKS]]
        return tuple((first, (first + count) & MASK) for first, count in firsts)

    def take_fin(self):
        self.met.append("FIN")
        self.rcv_nxt = (self.rcv_nxt + 1) & MASK
        self.has_fin = True
        self.pieces, self.newest, self.fin_at = [], 0, 0
        self.state = {ESTABLISHED: CLOSE_WAIT, FIN_WAIT_1: CLOSING, FIN_WAIT_2: TIME_WAIT}[self.state]
