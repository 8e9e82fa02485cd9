"""Damaged copies of the model. Random events must show a difference for each."""
import model
import socket_model
from model import Connection
from socket_model import Socket


class RstInWindow(Connection):
    """A RST acts anywhere in the window."""

    def resets(self, seg):
        return self.is_in_window(seg.seq)


class RstAnywhere(Connection):
    """A RST acts without a look at its number."""

    def resets(self, seg):
        return True


class SynEnds(Connection):
    """A SYN in the window ends the connection."""

    def in_other(self, seg):
        if "S" in seg.bits and "R" not in seg.bits and self.is_acceptable(seg) and self.state != model.SYN_RECEIVED:
            self.state = model.CLOSED
            return None
        return super().in_other(seg)


class AnswersWithoutSyn(Connection):
    """The first SYN that comes again gets an acknowledgement without SYN."""

    def challenge(self, seg):
        return self.acknowledgement()


class FirstNumberOnly(Connection):
    """A segment is acceptable by its first number only."""

    def is_acceptable(self, seg):
        return seg.seq == self.rcv_nxt or self.is_in_window(seg.seq)


class ZeroWindow(Connection):
    """A window of 0 accepts text."""

    def is_acceptable(self, seg):
        return super().is_acceptable(seg) or self.rcv_wnd == 0 and seg.seq == self.rcv_nxt


class OldWindow(Connection):
    """Each acknowledgement sets the window, also an older one."""

    def is_newer(self, seg):
        return True


class WindowByAck(Connection):
    """SND.WL1 is not compared."""

    def is_newer(self, seg):
        return not model.is_before(seg.ack, self.snd_wl2)


class AckOfUnsent(Connection):
    """An acknowledgement of what was not sent is taken."""

    def acknowledges_unsent(self, ack):
        return False

    def acknowledges_new(self, ack):
        return 0 < model.distance(ack, self.snd_una) < model.HALF


class AckOfNothing(Connection):
    """An acknowledgement of SND.UNA establishes the connection."""

    def acknowledges_new(self, ack):
        return super().acknowledges_new(ack) or self.state == model.SYN_RECEIVED and ack == self.snd_una


class FinNotCounted(Connection):
    """The FIN takes no number."""

    def take_fin(self):
        super().take_fin()
        self.rcv_nxt = (self.rcv_nxt - 1) & model.MASK


class TextTwice(Connection):
    """What comes twice is taken twice."""

    def take_text(self, seg):
        skip = model.distance(self.rcv_nxt, seg.seq)
        return super().take_text(seg._replace(seq=self.rcv_nxt) if 0 < skip <= len(seg.text) else seg)


class FinNotAcknowledged(Connection):
    """The acknowledgement of the FIN changes no state."""

    def take_ack_of_fin(self):
        pass


class NoModulo(Connection):
    """SND.WL1 and SEG.SEQ are compared as numbers, not modulo 2^32."""

    def is_newer(self, seg):
        return self.snd_wl1 < seg.seq or self.snd_wl1 == seg.seq and not model.is_before(seg.ack, self.snd_wl2)


class BlindRst(Connection):
    """A RST without an acknowledgement ends an active open."""

    def in_syn_sent(self, seg):
        if "R" in seg.bits and seg.ack is None:
            self.state = model.CLOSED
            return None
        return super().in_syn_sent(seg)


class ListenTakesAcks(Connection):
    """LISTEN takes a SYN with an acknowledgement."""

    def in_listen(self, seg, iss):
        return super().in_listen(seg._replace(ack=None) if seg.bits == "S" else seg, iss)


class NoTimeWait(Connection):
    """A simultaneous close ends without TIME-WAIT."""

    def take_ack_of_fin(self):
        super().take_ack_of_fin()
        if self.state == model.TIME_WAIT:
            self.state = model.CLOSED


class WindowAfterFin(Connection):
    """The window stays after the FIN of the peer."""

    @property
    def rcv_wnd(self):
        return self.size_in - len(self.unread)


class ToClosed(Connection):
    """A RST ends a passive open: it does not return to LISTEN."""

    def return_to_listen(self):
        self.state = model.CLOSED


class AfterWindow(Connection):
    """An acknowledgement after the window is answered, so that two endpoints can answer each other for ever."""

    def is_old(self, seg):
        return True


class NoAllowance(Connection):
    """An acknowledgement after a window of 0 is not taken."""

    def has_allowance(self, seg):
        return False


class EdgeOnly(Connection):
    """An acknowledgement is taken at the right edge, and not one past it."""

    def has_allowance(self, seg):
        return model.distance(seg.seq, self.rcv_nxt) <= self.rcv_wnd


class TwoPastEdge(Connection):
    """An acknowledgement is taken two past the right edge."""

    def has_allowance(self, seg):
        return model.distance(seg.seq, self.rcv_nxt) <= self.rcv_wnd + 2


class NoKeepAlive(Connection):
    """An acknowledgement before RCV.NXT is not answered."""

    def is_old(self, seg):
        return False


class MovesEdge(Connection):
    """SND.WND stays where only an acknowledgement is taken, so that the right edge moves without an offer."""

    def keep_edge(self, edge):
        pass


class Hole(Connection):
    """Text is sent from after SND.NXT, and what is before it counts as sent."""

    def send(self, offset, count):
        before, flight = self.snd_nxt, model.distance(self.snd_nxt, self.snd_una)
        if not self.syn and flight < offset <= len(self.text):
            self.snd_nxt = (self.snd_una + offset) & model.MASK
        segment = super().send(offset, count)
        if segment is None:
            self.snd_nxt = before
        return segment


class SampleOfTwo(Socket):
    """The time of a segment that was sent again is a sample (Karn)."""

    def send_first(self):
        timing = self.timing
        segment = super().send_first()
        self.timing = timing
        return segment


class NoBackOff(Socket):
    """The timeout is not doubled."""

    def begin(self, iss):
        super().begin(iss)
        self.rto.back_off = lambda: None


class ShortAfterSyn(Socket):
    """A lost SYN does not count."""

    def establish(self):
        self.timing = self.timing or (self.snd_una, self.now)
        super().establish()


class NoProbe(Socket):
    """No loss probe goes."""

    @property
    def timer(self):
        return self.rto.timeout


class ProbesOn(Socket):
    """A loss probe follows another one without a sample."""

    def loss_probe(self):
        super().loss_probe()
        self.is_probed = False


class ProbesAfterAck(Socket):
    """Any acknowledgement of new text allows another loss probe, also without a sample."""

    def move_on(self, newly):
        super().move_on(newly)
        self.is_probed = False


class ProbesOne(Socket):
    """A loss probe goes also for one segment."""

    def is_worth_probe(self):
        return self.snd_wnd > 0 and self.cursor >= self.flight > 0


class ProbesWindow(Socket):
    """A loss probe goes also if the window is closed."""

    def is_worth_probe(self):
        return self.cursor >= self.flight > self.most


class ProbesGoingBack(Socket):
    """A loss probe goes also while all goes again."""

    def is_worth_probe(self):
        return self.snd_wnd > 0 and self.flight > self.most


class ProbesSteady(Socket):
    """A loss probe does not wait for what varies."""

    @property
    def timer(self):
        early = self.rto.srtt8 is not None and not self.is_probed
        return min(self.rto.timeout, self.rto.srtt8 // 4 + 10) if early else super().timer


class ProbeHalves(Socket):
    """A loss probe counts as a loss at once."""

    def loss_probe(self):
        super().loss_probe()
        if "loss probe" in self.met:
            self.has_probe = False
            self.congestion.on_probe(self.flight, self.snd_nxt)


class ProbeIsFree(Socket):
    """What a loss probe repaired is no loss."""

    def repair(self, newly):
        self.has_probe = False


class HalvesOnce(Socket):
    """What a loss probe repaired in fast recovery leaves ssthresh."""

    def repair(self, newly):
        ssthresh, was = self.congestion.ssthresh, self.congestion.is_recovering
        super().repair(newly)
        if was and "repair" in self.met:
            self.congestion.cwnd = self.congestion.ssthresh = ssthresh


class ProbeCountsLimited(Socket):
    """What limited transmit sent counts when a loss probe repaired a loss."""

    def repair(self, newly):
        self.congestion.duplicates = 0
        super().repair(newly)


class ProbeCountsLess(Socket):
    """What a loss probe repaired was not in flight."""

    def repair(self, newly):
        super().repair(0)


class ProbeStays(Socket):
    """A loss probe counts after a third duplicate acknowledgement too."""

    def count_duplicates(self, count, flight):
        has_probe = self.has_probe
        super().count_duplicates(count, flight)
        self.has_probe = has_probe


class ProbeLeavesHoles(Socket):
    """After a loss probe no hole goes again."""

    def loss_probe(self):
        rescued = self.rescued
        super().loss_probe()
        self.rescued = rescued


class AllAgain(Socket):
    """After a time-out only the first segment goes again."""

    def time_out(self):
        flight = self.flight
        segment = super().time_out()
        self.cursor = max(self.cursor, flight)
        return segment


class TextAsDuplicate(Socket):
    """A segment with text is a duplicate acknowledgement."""

    def is_duplicate(self, seg, una, flight, window):
        return super().is_duplicate(seg._replace(text=b""), una, flight, window)


class AnyWindowAsDuplicate(Socket):
    """A segment with another window is a duplicate acknowledgement."""

    def is_duplicate(self, seg, una, flight, window):
        return super().is_duplicate(seg._replace(window=window), una, flight, window)


class RecoveryEnds(Socket):
    """A partial acknowledgement ends fast recovery (RFC 5681 without RFC 6582)."""

    def take_ack(self, *operands):
        self.congestion.recover = self.snd_una if self.congestion.is_recovering else self.congestion.recover
        super().take_ack(*operands)


class WindowHalved(Socket):
    """A loss halves cwnd instead of FlightSize, as RFC 5681 warns."""

    def establish(self):
        super().establish()
        lose, congestion = self.congestion.lose, self.congestion
        self.congestion.lose = lambda flight: lose(congestion.cwnd)


class NoRestart(Socket):
    """cwnd stays after a pause."""

    def time_what_waits(self):
        self.sent_at, sent_at = self.now, self.sent_at
        super().time_what_waits()
        self.sent_at = sent_at


class OneSegment(Socket):
    """Slow start adds at most a segment, also before the first loss."""

    def establish(self):
        super().establish()
        grow, congestion = self.congestion.grow, self.congestion
        is_slow = lambda: congestion.cwnd < congestion.ssthresh
        congestion.grow = lambda newly: grow(min(newly, congestion.mss) if is_slow() else newly)


class TwoAfterLoss(Socket):
    """Slow start adds up to two segments, also after a loss."""

    def establish(self):
        super().establish()
        congestion = self.congestion

        def grow(newly):
            if congestion.cwnd >= congestion.ssthresh:
                return type(congestion).grow(congestion, newly)
            congestion.acked = 0
            return congestion.set_cwnd(congestion.cwnd + min(newly, 2 * congestion.mss))
        congestion.grow = grow


class GrowsUnused(Socket):
    """cwnd grows also if the program sends less."""

    def establish(self):
        super().establish()
        on_ack, congestion = self.congestion.on_ack, self.congestion
        congestion.on_ack = lambda newly, flight, una: on_ack(newly, max(flight, congestion.cwnd), una)


class SillyWindow(Socket):
    """The window is the room, also if its right edge hardly moves."""

    def advertised(self, seg):
        segment = super().advertised(seg)
        self.edge = (self.rcv_nxt + self.rcv_wnd) & model.MASK
        return segment._replace(window=self.rcv_wnd)


class NoUpdate(Socket):
    """A window that opens is not told."""

    def is_update_due(self):
        return False


class NoNagle(Socket):
    """Small segments go at once."""

    def is_worth(self, count, available):
        return True


class LateAcks(Socket):
    """Every acknowledgement of text waits, also the second one and after a gap."""

    def answer(self, seg, reply, has_moved, is_special):
        self.ack_at = None
        return super().answer(seg, reply, has_moved, False)


class AnswersAll(Socket):
    """Acknowledgements of acknowledgements go as often as they are asked for."""

    def may_answer(self, seg):
        return True


class LimitsText(Socket):
    """The answer to text is limited too."""

    def may_answer(self, seg):
        return super().may_answer(seg._replace(text=b"", bits=seg.bits.replace("F", "")))


class LimitsAcksOnly(Socket):
    """The answers to SYN and RST are not limited."""

    def may_answer(self, seg):
        return bool(seg.bits) or super().may_answer(seg)


class LongLimit(Socket):
    """A segment whose answer is held back puts the next answer off."""

    def may_answer(self, seg):
        may = super().may_answer(seg)
        self.quiet_until = self.quiet_until if may else self.now + socket_model.QUIET
        return may


class ForeverWaiting(Socket):
    """What waits has the time that a connection has on which nothing waits."""

    @property
    def patience(self):
        return self.keep_alive + socket_model.KEEP_ALIVE_PROBES * socket_model.KEEP_ALIVE_INTERVAL


class OldAsAlive(Socket):
    """Any segment shows that the peer is alive."""

    def hear(self, seg, was, is_near):
        super().hear(seg, was, True)


class TimeWaitOnce(Socket):
    """A FIN that comes again does not begin TIME-WAIT again."""

    def hear(self, seg, was, is_near):
        super().hear(seg._replace(bits=seg.bits.replace("F", "")), was, is_near)


class NewProbe(Socket):
    """A keep-alive probe has SEG.SEQ = SND.NXT, which nobody answers."""

    def keep_alive_probe(self):
        segment = super().keep_alive_probe()
        return segment and segment._replace(seq=self.snd_nxt)


FAULTS = Connection.__subclasses__()
SOCKET_FAULTS = [kind for kind in Socket.__subclasses__() if kind.__module__ == __name__]
