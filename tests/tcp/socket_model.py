"""A TCP connection with time: a connection of model.py with the timers of RFC 9293 (section 3.8), RFC 1122 (section 4.2.3) and
RFC 6298, the congestion control of RFC 5681 and RFC 6582 with undo by RFC 3522 and RFC 4015, a loss probe as in RFC 8985,
and the options of RFC 7323 and RFC 2018. Times are in milliseconds.

Each event returns the packet that goes out, or None. After each event the caller calls `tick` until it returns None, and
again at `due`. `met` has the rules that handled the last event.
"""
import model
from congestion import SECOND, Congestion, Rto
from model import HALF, MASK, Connection, distance, is_before
from tcp_options import DEFAULT_MSS, MAX_FIELD, MIN_MSS, MIN_TEXT, NONE, Agreed, Packet, Scoreboard

SYN_PATIENCE, USER_TIMEOUT, TIME_WAIT_LENGTH = 180 * SECOND, 300 * SECOND, 60 * SECOND
KEEP_ALIVE_INTERVAL, KEEP_ALIVE_PROBES = 75 * SECOND, 9
ACK_DELAY = 40
# How long no answer goes after one to a segment without text.
QUIET = 500
# The most segments that the blocks of a segment count for.
MOST_COUNTED = 64
NO_PEER = (model.CLOSED, model.LISTEN)
SET_UP = (model.SYN_SENT, model.SYN_RECEIVED)


class Socket:
    """A connection, its timers, and what it has sent."""

    agreement, board = Agreed, Scoreboard

    def __init__(self, mss, keep_alive, is_eager, size_out, size_in):
        self.mss, self.is_eager = mss or DEFAULT_MSS, bool(is_eager)
        self.keep_alive = (keep_alive or 7200) * SECOND
        self.connection = Connection(size_out, size_in)
        self.threshold = max(1, min(size_in // 2, self.mss))
        self.now = 0
        self.edge = 0
        # When text or a FIN was sent last.
        self.sent_at = 0
        self.quiet_until = 0
        self.agree_on_nothing(0)
        self.begin(0)

    def agree_on_nothing(self, iss):
        """`limit` is the largest segment that the peer and the path take, with its options."""
        self.agreed, self.limit = self.agreement(iss, self.size_in), self.mss

    def begin(self, iss):
        """The SYN goes out for the first time."""
        self.rto, self.congestion = Rto(), Congestion(self.mss)
        self.ends_at, self.resend_at = self.now + SYN_PATIENCE, self.now + self.rto.timeout
        self.ack_at, self.probe_at = None, self.now
        # The end of the segment that is timed, and when it was sent.
        self.timing = (iss + 1) & MASK, self.now
        self.cursor, self.resend, self.max_window = 1, False, 0
        # What the peer has after a gap, and up to where items were sent again in this fast recovery.
        self.scoreboard, self.rescued = self.board(), 0
        # Whether the timer expired since the last sample.
        self.is_probed = False
        # Whether a loss probe is out: nothing was acknowledged since, and nothing else showed a loss.
        self.has_probe = False
        # When the first segment went again since the last acknowledgement (0: none did), and cwnd and ssthresh before that.
        self.undo = 0, 0, 0
        # When the timer expired last.
        self.expired_at = 0

    def __getattr__(self, name):
        """The variables of the connection, and the calls that need no time."""
        if name == "connection":
            raise AttributeError
        return getattr(self.connection, name)

    @property
    def is_open(self):
        return self.state not in NO_PEER + SET_UP

    @property
    def flight(self):
        return distance(self.snd_nxt, self.snd_una)

    @property
    def unsent(self):
        return self.syn + len(self.text) + self.fin - self.flight

    @property
    def is_waiting(self):
        return self.flight + self.unsent > 0

    @property
    def timer(self):
        """At first that of a loss probe."""
        return self.rto.timeout if self.is_probed else self.rto.probe_timeout

    @property
    def patience(self):
        return USER_TIMEOUT if self.is_waiting else self.keep_alive + KEEP_ALIVE_PROBES * KEEP_ALIVE_INTERVAL

    @property
    def due(self):
        """When `tick` has something to do, or None."""
        if self.state in NO_PEER:
            return None
        is_idle = self.is_open and self.resend_at is None and self.state != model.TIME_WAIT
        times = self.ends_at, self.resend_at, self.ack_at, self.probe_at if is_idle else None
        return min(time for time in times if time is not None)

    @property
    def most(self):
        """The most bytes of text in the next segment: the options of a segment count (RFC 6691)."""
        return max(self.limit - self.agreed.of_segment(self.blocks[:1], self.now).size, min(self.limit, MIN_TEXT))

    def packet(self, seg):
        """A segment with its window field and its options."""
        if seg is None:
            return None
        window, options = self.agreed.field(seg.window), NONE
        if "S" in seg.bits:
            of_syn = self.agreed.of_syn if seg.ack is None else self.agreed.of_syn_ack
            window, options = min(MAX_FIELD, seg.window), of_syn(self.mss, self.now)
        elif "R" not in seg.bits:
            options = self.agreed.of_segment(self.blocks[:1] if seg.text else self.blocks, self.now)
        return Packet(seg.seq, seg.ack, seg.bits, window, seg.text, options)

    # User calls

    def at(self, now):
        self.now = now

    def open(self, iss):
        reply = self.connection.open(iss)
        if reply:
            self.begin(iss)
            self.agree_on_nothing(iss)
        return self.packet(reply)

    def abort(self):
        return self.packet(self.connection.abort())

    def too_big(self, number, mss):
        """An ICMP error: the path takes segments of this size (RFC 1191, RFC 8201). One about no segment in flight is ignored
        (RFC 5927, section 4.1)."""
        if self.state in NO_PEER or distance(number, self.snd_una) >= self.flight or mss >= self.limit:
            self.met.append("too big: nothing")
            return
        self.met.append("too big")
        self.limit = min(self.limit, max(MIN_MSS, mss))
        self.congestion.mss = min(self.congestion.mss, self.most)
        self.go_back()

    # SEGMENT ARRIVES

    def arrives(self, seg, iss):
        if self.has_timestamps(seg):
            if seg.options.stamps is None:
                return self.connection.done("no timestamp")
            if self.agreed.is_old(seg.options.stamps, self.now):
                return self.packet(self.connection.done("old timestamp", self.answer_to_old(seg)))
        counts = self.is_open and self.counts(seg)
        self.agree(seg, iss)
        reply = self.take(seg._replace(window=self.window_of(seg)), iss)
        if counts:
            self.agreed.set_recent(seg.options, self.now)
            self.met.append("TS.Recent")
        return self.packet(reply)

    def has_timestamps(self, seg):
        """Whether a segment needs a timestamp (RFC 7323, section 3.2)."""
        return self.is_open and "R" not in seg.bits and self.agreed.recent is not None

    def answer_to_old(self, seg):
        """RFC 7323, section 5.3."""
        return self.advertised(self.acknowledgement()) if self.may_answer(seg) else None

    def counts(self, seg):
        """Whether TS.Recent becomes SEG.TSval: SEG.SEQ =< Last.ACK.sent =< SEG.SEQ + SEG.LEN (RFC 7323, section 4.3)."""
        is_acknowledged = self.agreed.recent is not None and self.ack_at is None
        is_first = distance(self.rcv_nxt, seg.seq) < HALF and distance(seg.seq + seg.length, self.rcv_nxt) < HALF
        return is_acknowledged and is_first and "S" not in seg.bits and "R" not in seg.bits

    def window_of(self, seg):
        """In bytes. The window of a SYN is not scaled (RFC 7323, section 2.2)."""
        return seg.window if "S" in seg.bits else self.agreed.window(seg.window)

    def agree(self, seg, iss):
        """The options of the peer's SYN."""
        if "S" not in seg.bits or self.state not in (model.LISTEN, model.SYN_SENT):
            return
        if self.state == model.LISTEN:
            self.agree_on_nothing(iss)
        self.agreed.take_syn(seg.options, self.now)
        peer = DEFAULT_MSS if seg.options.mss is None else seg.options.mss
        self.limit = min(self.mss, max(MIN_MSS, peer))

    def take(self, seg, iss):
        """A segment with its window in bytes."""
        was, was_open, rcv_nxt, is_near = self.state, self.is_open, self.rcv_nxt, self.is_near(seg)
        una, flight, window, is_special = self.snd_una, self.flight, self.snd_wnd, bool(self.pieces) or "F" in seg.bits
        reply = self.connection.arrives(seg, iss)
        if self.state in NO_PEER:
            return reply
        if not self.is_open:
            if was == model.LISTEN:
                self.begin(iss)
            if self.state != was:
                self.edge = (self.rcv_nxt + reply.window) & MASK
            return reply
        if not was_open:
            self.establish()
            if was == model.SYN_SENT:
                self.edge = (self.rcv_nxt + reply.window) & MASK
                return reply
        else:
            self.hear(seg, was, is_near or self.rcv_nxt != rcv_nxt or self.snd_una != una)
            self.take_ack(seg, una, flight, window, is_near)
        return self.answer(seg, reply, self.rcv_nxt != rcv_nxt, is_special)

    def is_near(self, seg):
        """A segment at most one number after the window."""
        return distance(seg.seq, self.rcv_nxt) <= self.rcv_wnd + 1 and "R" not in seg.bits

    def establish(self):
        """The SYN is acknowledged."""
        self.congestion, self.max_window = Congestion(self.most), self.snd_wnd
        if self.timing:
            self.sample()
        else:
            self.rto.after_lost_syn()
            self.congestion.after_lost_syn()
        self.cursor, self.resend_at = 0, None
        self.probe_at, self.ends_at = self.now + self.keep_alive, self.now + self.patience

    def sample(self):
        self.rto.on_sample(min(MASK, max(0, self.now - self.timing[1])))
        self.timing, self.is_probed = None, False

    def take_time(self, options):
        """The round trip of the segment that is timed, or if none is, by timestamps (RFC 7323, section 4.1)."""
        if self.timing:
            return self.sample() if not is_before(self.snd_una, self.timing[0]) else None
        rtt = self.agreed.round_trip(options, self.now)
        if rtt is not None and max(0, self.now - rtt) >= self.expired_at:
            self.met.append("RTTM")
            self.rto.on_sample(rtt)
            self.is_probed = False

    def hear(self, seg, was, is_alive):
        """The peer is there."""
        if self.state == model.TIME_WAIT:
            if was != model.TIME_WAIT or "F" in seg.bits:
                self.met.append("TIME-WAIT begins")
                self.ends_at = self.now + TIME_WAIT_LENGTH
        elif is_alive:
            self.ends_at, self.probe_at = self.now + self.patience, self.now + self.keep_alive

    def take_ack(self, seg, una, flight, window, is_near):
        newly = distance(self.snd_una, una)
        is_duplicate = not newly and is_near and self.is_duplicate(seg, una, flight, window)
        if newly:
            self.take_time(seg.options)
            self.restore(seg.options, newly)
            self.move_on(newly)
            self.resend_at = self.now + self.timer if self.is_waiting else None
        total = self.scoreboard.total
        if self.is_accepted(seg, is_near):
            self.take_blocks(seg)
        count = min(MOST_COUNTED, max(0, self.scoreboard.total - total) // self.most)
        if is_duplicate:
            self.count_duplicates(max(1, count), flight)
        elif newly and self.congestion.is_recovering:
            self.count_duplicates(count, flight)
        self.max_window = max(self.max_window, self.snd_wnd)
        if window == 0 < self.snd_wnd and self.is_waiting:
            self.resend_at = self.now + self.timer

    def restore(self, options, newly):
        """An echo of a timestamp from before a segment went again: nothing was lost (RFC 3522, section 3.2; RFC 4015)."""
        rtt = self.agreed.round_trip(options, self.now)
        sent_at, *sizes = self.undo
        if rtt is not None and max(0, self.now - rtt) < sent_at:
            self.met.append("spurious")
            self.congestion.undo(*sizes)
            self.cursor, self.resend, self.has_probe = self.flight + newly, False, False
        self.undo = 0, *sizes

    def save(self, cwnd, ssthresh):
        if not self.undo[0]:
            self.undo = self.now, cwnd, ssthresh

    @property
    def sizes(self):
        return self.congestion.unlimited, self.congestion.ssthresh

    def count_duplicates(self, count, flight):
        """One, or as many as there are segments in its blocks (RFC 6675, section 5)."""
        for _ in range(count):
            sizes = self.sizes
            is_third = self.congestion.on_duplicate(flight, self.snd_una, self.snd_nxt)
            if is_third:
                self.save(*sizes)
                self.resend, self.rescued, self.has_probe = True, 0, False
            self.met.append("third duplicate ACK" if is_third else "duplicate ACK")

    def move_on(self, newly):
        """So many items are acknowledged. With SACK, a partial acknowledgement sends the first segment again only once."""
        self.cursor -= min(newly, self.cursor)
        self.rescued -= min(newly, self.rescued)
        self.scoreboard.advance(newly)
        self.repair(newly)
        is_partial = self.congestion.on_ack(newly, self.flight, self.snd_una)
        self.resend = is_partial and not (self.rescued and self.scoreboard.ranges)
        self.met += ["partial ACK"] * is_partial

    def repair(self, newly):
        """A loss probe is acknowledged, and nothing shows that it was not needed: a loss (RFC 8985, section 7.4.2)."""
        if self.has_probe:
            self.met.append("repair")
            self.has_probe = False
            self.congestion.on_probe(newly + self.flight, self.snd_nxt)

    def is_duplicate(self, seg, una, flight, window):
        """RFC 5681, section 2. With SACK, blocks show that something arrived, also beside text (RFC 6675, section 2)."""
        is_bare = not seg.text and not seg.bits and seg.window == window
        has_blocks = self.has_blocks(seg) and "S" not in seg.bits and "R" not in seg.bits
        return flight > 0 and window > 0 and seg.ack == una and (is_bare or has_blocks)

    def is_accepted(self, seg, is_near):
        """Whether its blocks count: others are dropped (RFC 9293, section 3.10.7.4)."""
        return is_near and seg.ack is not None and "S" not in seg.bits

    def has_blocks(self, seg):
        return self.agreed.has_sack and bool(seg.options.blocks)

    def take_blocks(self, seg):
        """Blocks of what is in flight (RFC 2018, section 5)."""
        for block in seg.options.blocks if self.has_blocks(seg) else ():
            first, end = (distance(number, self.snd_una) for number in block)
            is_right = self.is_in_flight(first, end)
            self.met.append("SACK" if is_right else "bad SACK")
            if is_right:
                self.scoreboard.add(first, end)

    def may_answer(self, seg):
        """Challenge ACKs, and acknowledgements of acknowledgements, go once in half a second (RFC 5961, section 7)."""
        if (seg.text or "F" in seg.bits) and not {"S", "R"} & set(seg.bits):
            return True
        if self.now < self.quiet_until:
            self.met.append("held back")
            return False
        self.quiet_until = self.now + QUIET
        return True

    def answer(self, seg, reply, has_moved, is_special):
        """The acknowledgement goes at once, by the next `tick`, or later (RFC 5681, section 4.2)."""
        if not has_moved:
            return self.advertised(reply) if reply and self.may_answer(seg) else None
        is_now = is_special or self.pieces or self.ack_at is not None
        self.ack_at = self.now if is_now else self.now + ACK_DELAY
        return None

    def advertised(self, seg):
        """A segment with the window (RFC 9293, section 3.8.6.2.2)."""
        self.ack_at = None
        room_edge = (self.rcv_nxt + self.rcv_wnd) & MASK
        if self.threshold <= distance(room_edge, self.edge) < HALF:
            self.edge = room_edge
            return seg._replace(window=self.rcv_wnd)
        if distance(self.edge, self.rcv_nxt) <= self.rcv_wnd:
            return seg._replace(window=distance(self.edge, self.rcv_nxt))
        if not is_before(room_edge, self.edge):
            self.edge = room_edge
        return seg._replace(window=self.rcv_wnd)

    def is_in_flight(self, first, end):
        return first < end <= self.flight

    # Timers

    def tick(self):
        return self.packet(self.next())

    def next(self):
        """The segment that is due."""
        if self.state in NO_PEER:
            return None
        if self.now >= self.ends_at:
            return self.connection.done("silence", self.connection.abort())
        if self.is_open:
            return self.tick_open()
        if self.resend_at is None or self.resend_at > self.now:
            return None
        self.timing = None
        self.back_off()
        return self.connection.send(0, 1)

    def back_off(self):
        self.rto.back_off()
        self.resend_at = self.now + self.rto.timeout

    def tick_open(self):
        self.time_what_waits()
        if self.resend_at is not None and self.resend_at <= self.now:
            if self.timer == self.rto.timeout:
                return self.time_out()
            self.loss_probe()
        if self.resend:
            return self.send_first()
        return self.send_hole() or self.send_next() or self.acknowledge() or self.keep_alive_probe()

    def time_what_waits(self):
        if not self.is_waiting:
            self.resend_at = None
        elif self.resend_at is None:
            if self.now > self.sent_at + self.rto.timeout:
                self.congestion.on_idle()
                self.met.append("idle")
            self.resend_at = self.now + self.timer
            self.ends_at = min(self.ends_at, self.now + USER_TIMEOUT)

    def loss_probe(self):
        """The first segment goes again, before the time-out, and cwnd stays (RFC 8985, section 7.3)."""
        self.is_probed, self.resend_at, self.expired_at = True, self.now + self.rto.timeout, self.now
        if self.is_worth_probe():
            self.met.append("loss probe")
            self.save(*self.sizes)
            self.resend, self.rescued, self.has_probe = True, 0, True

    def is_worth_probe(self):
        """The peer may delay the acknowledgement of one segment. All that is in flight was sent since the last time-out."""
        return self.snd_wnd > 0 and self.cursor >= self.flight > self.most

    def time_out(self):
        """A retransmission, a probe of a closed window, or text that silly window avoidance held back."""
        if self.flight or not self.snd_wnd:
            self.rto.back_off()
        self.met.append("window probe" if not self.snd_wnd else "time-out" if self.flight else "override")
        self.expired_at = self.now
        if self.flight and self.snd_wnd:
            self.save(*self.sizes)
            self.congestion.on_timeout(self.flight, self.snd_nxt)
        self.timing, self.is_probed, self.has_probe = None, True, False
        self.go_back()
        self.resend_at = self.now + self.rto.timeout
        if self.snd_wnd:
            return self.send_first()
        self.sent_at = self.now
        return self.advertised(self.connection.send(0, 1))

    def go_back(self):
        """All in flight goes again, also what the peer had after a gap: it may have dropped that (RFC 2018, section 8)."""
        self.cursor, self.resend, self.scoreboard, self.rescued = 0, False, self.board(), 0

    def send_again(self, offset, count):
        """Items that were sent before, from this one after SND.UNA on. They are not timed (RFC 6298, section 3)."""
        self.timing, self.sent_at = None, self.now
        seg = self.connection.send(offset, count)
        end = offset + seg.length
        self.cursor, self.rescued = max(self.cursor, end), max(self.rescued, end)
        return self.advertised(seg)

    def send_first(self):
        self.resend = False
        return self.send_again(0, max(1, min(self.snd_wnd, self.congestion.cwnd, self.most)))

    def send_hole(self):
        """In fast recovery: what was not sent again, before something that the peer has (RFC 6675, section 4, NextSeg 1)."""
        hole = self.scoreboard.hole(self.rescued) if self.congestion.is_recovering else None
        count = min(hole[1], self.most, self.congestion.may_send(self.snd_wnd, hole[0])) if hole else 0
        if not count:
            return None
        self.met.append("hole")
        return self.send_again(hole[0], count)

    def send_next(self):
        flight = self.flight
        available = flight - self.cursor + self.unsent
        count = min(self.most, self.congestion.may_send(self.snd_wnd, self.cursor), available)
        if not count or not self.is_worth(count, available):
            return None
        if self.cursor < flight:
            self.met.append("goes back")
            return self.send_again(self.cursor, count)
        self.met.append("goes on")
        seg = self.connection.send(self.cursor, count)
        self.timing = self.timing or ((seg.seq + seg.length) & MASK, self.now)
        self.cursor, self.sent_at = self.cursor + seg.length, self.now
        return self.advertised(seg)

    def is_worth(self, count, available):
        """Nagle's algorithm, and the avoidance of silly windows (RFC 9293, section 3.8.6.2.1)."""
        is_last = count == available and (self.is_eager or not self.flight or self.is_closed)
        return self.cursor < self.flight or count == self.most or is_last or 2 * count >= self.max_window

    def acknowledge(self):
        is_due = self.ack_at is not None and self.ack_at <= self.now
        if not is_due and not self.is_update_due():
            return None
        self.met.append("acknowledgement" if is_due else "window update")
        return self.advertised(self.connection.acknowledgement())

    def is_update_due(self):
        """The peer would read much more of the window, and has little of it, or at most half of what it could have."""
        promised = distance(self.edge, self.rcv_nxt)
        gain, told = self.rcv_wnd - promised, self.agreed.read_as(promised)
        is_more = gain >= self.threshold and self.agreed.read_as(self.rcv_wnd) - told >= self.threshold
        return not self.has_fin and is_more and (told < self.threshold or gain >= promised)

    def keep_alive_probe(self):
        """RFC 1122, section 4.2.3.6."""
        if self.is_waiting or self.probe_at > self.now or self.state == model.TIME_WAIT:
            return None
        self.met.append("keep-alive")
        self.probe_at = self.now + KEEP_ALIVE_INTERVAL
        seg = self.advertised(self.connection.acknowledgement())
        return seg._replace(seq=(seg.seq - 1) & MASK)
