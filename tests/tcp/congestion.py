"""When a segment counts as lost (RFC 6298), and how much is sent at once (RFC 5681 and RFC 6582). Times are in milliseconds."""
from model import is_before

SECOND = 1000
MAX_CWND = 1 << 30
# How many duplicate acknowledgements each allow a new segment (RFC 3042).
LIMITED = 2


class Rto:
    """The retransmission timeout (RFC 6298). 8 * SRTT and 4 * RTTVAR are whole numbers. The granularity G is 200 ms."""

    def __init__(self):
        self.srtt8 = self.rttvar4 = None
        self.timeout = SECOND

    def on_sample(self, rtt):
        """Sections 2.2 and 2.3."""
        if self.srtt8 is None:
            self.srtt8, self.rttvar4 = 8 * rtt, 2 * rtt
        else:
            self.rttvar4 += abs(self.srtt8 // 8 - rtt) - self.rttvar4 // 4
            self.srtt8 += rtt - self.srtt8 // 8
        self.timeout = min(60 * SECOND, self.srtt8 // 8 + max(200, self.rttvar4))

    @property
    def probe_timeout(self):
        """Of a loss probe (RFC 8985, section 7.2), not before what RTTVAR allows."""
        if self.srtt8 is None:
            return self.timeout
        return min(self.timeout, 2 * self.srtt8 // 8 + max(10, self.rttvar4))

    def back_off(self):
        """Section 5.5."""
        self.timeout = min(60 * SECOND, 2 * self.timeout)

    def after_lost_syn(self):
        """Section 5.7."""
        self.timeout = 3 * SECOND


class Congestion:
    """The congestion window. `recover` is the number after that of RFC 6582, or None before a loss."""

    def __init__(self, mss):
        self.mss = mss
        self.cwnd, self.ssthresh = self.initial, MAX_CWND
        # `before` is the flight at the first duplicate acknowledgement.
        self.acked = self.duplicates = self.before = 0
        self.recover, self.is_recovering, self.is_resent = None, False, False

    @property
    def initial(self):
        """RFC 6928."""
        return min(10 * self.mss, max(2 * self.mss, 14600))

    @property
    def unlimited(self):
        """cwnd without what limited transmit allows."""
        return max(self.mss, self.cwnd - min(LIMITED, self.duplicates) * self.mss)

    def set_cwnd(self, cwnd):
        self.cwnd = min(cwnd, MAX_CWND)

    def lose(self, flight):
        """RFC 5681, equation 4."""
        self.ssthresh = min(MAX_CWND, max(flight // 2, 2 * self.mss))

    def may_send(self, window, flight):
        return max(0, min(window, self.cwnd) - flight)

    def on_ack(self, newly, flight, una):
        """New data is acknowledged. Returns whether the first segment goes again: after a partial acknowledgement. A cwnd of
        which less than half was in flight does not grow (RFC 7661, section 4.4)."""
        unlimited, self.duplicates, self.is_resent = self.unlimited, 0, False
        if self.is_recovering:
            return self.on_ack_in_recovery(newly, flight, una)
        self.cwnd = unlimited
        self.forget(una)
        if 2 * (flight + newly) < self.cwnd:
            self.acked = 0
        else:
            self.grow(newly)
        return False

    def forget(self, una):
        """The loss is over when more than `recover` is acknowledged."""
        if self.recover is not None and is_before(self.recover, una):
            self.recover = None

    def on_ack_in_recovery(self, newly, flight, una):
        """RFC 6582, section 3.2, step 3."""
        self.acked = 0
        if is_before(una, self.recover):
            self.set_cwnd(max(0, self.cwnd - newly) + (self.mss if newly >= self.mss else 0))
            self.cwnd = max(self.mss, self.cwnd)
            return True
        self.cwnd = min(self.ssthresh, max(flight, self.mss) + self.mss)
        self.is_recovering = False
        self.forget(una)
        return False

    def grow(self, newly):
        """Slow start (RFC 3465, section 2.3: with L = 2 before the first loss), or congestion avoidance by the bytes that are
        acknowledged (RFC 5681, section 3.1)."""
        if self.cwnd < self.ssthresh:
            self.set_cwnd(self.cwnd + min(newly, self.mss * (2 if self.ssthresh == MAX_CWND else 1)))
            self.acked = 0
            return
        self.acked += newly
        if self.acked >= self.cwnd:
            self.acked = 0
            self.set_cwnd(self.cwnd + self.mss)

    def after_lost_syn(self):
        """RFC 5681, section 3.1."""
        self.cwnd = self.mss

    def on_duplicate(self, flight, una, after):
        """Whether fast retransmit begins (RFC 5681, section 3.2; RFC 6582, section 3.2, step 2). Limited transmit: RFC 3042."""
        if self.is_recovering:
            self.set_cwnd(self.cwnd + self.mss)
            return False
        self.before = self.before if self.duplicates else flight
        self.duplicates = min(255, self.duplicates + 1)
        if self.duplicates <= LIMITED:
            self.set_cwnd(self.cwnd + self.mss)
        if self.duplicates != 3 or self.recover is not None and not is_before(self.recover, una):
            return False
        self.lose(min(self.before, flight))
        self.set_cwnd(self.ssthresh + 3 * self.mss)
        self.acked, self.recover, self.is_recovering = 0, after, True
        return True

    def on_probe(self, flight, after):
        """A loss probe repaired a loss (RFC 8985, section 7.4.2). In fast recovery a segment was lost again (RFC 5681, section 4.3)."""
        self.lose(min(flight, self.ssthresh if self.is_recovering else self.unlimited))
        self.cwnd, self.acked, self.duplicates = self.ssthresh, 0, 0
        self.recover, self.is_recovering = after, True

    def on_timeout(self, flight, after):
        """RFC 5681, section 3.1; RFC 6582, section 3.2, step 4."""
        if not self.is_resent:
            self.lose(flight)
        self.cwnd, self.acked, self.duplicates = self.mss, 0, 0
        self.recover, self.is_recovering, self.is_resent = after, False, True

    def undo(self, cwnd, ssthresh):
        """What was done for a loss was not needed (RFC 4015)."""
        self.cwnd, self.ssthresh = min(MAX_CWND, max(cwnd, self.mss)), min(MAX_CWND, max(ssthresh, 2 * self.mss))
        self.acked, self.duplicates = 0, 0
        self.recover, self.is_recovering, self.is_resent = None, False, False

    def on_idle(self):
        """RFC 5681, section 4.1."""
        self.cwnd, self.acked = min(self.initial, self.cwnd), 0
