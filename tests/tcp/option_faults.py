"""Damaged copies of the model that handle options and errors of too big segments otherwise."""
import tcp_options
from model import MASK, distance
from socket_model import Socket
from tcp_options import MIN_MSS, MIN_TEXT, NONE


class TellsLimit(Socket):
    """A SYN with ACK has the MSS of the peer."""

    def packet(self, seg):
        packet = super().packet(seg)
        options = packet and packet.options
        return packet._replace(options=options._replace(mss=self.limit)) if options and options.mss else packet


class SmallMss(Socket):
    """Any MSS option counts."""

    def agree(self, seg, iss):
        super().agree(seg, iss)
        self.limit = min(self.limit, seg.options.mss or self.limit) if self.limit == MIN_MSS else self.limit


class NoDefault(Socket):
    """A peer without MSS option takes the own one."""

    def agree(self, seg, iss):
        limit = self.limit
        super().agree(seg, iss)
        self.limit = max(self.limit, limit) if seg.options.mss is None else self.limit


class TextOnly(Socket):
    """The options do not count in the size of a segment."""

    @property
    def most(self):
        return self.limit


class NoLeastText(Socket):
    """The options take all of a segment but one byte."""

    @property
    def most(self):
        most = super().most
        return most if most > MIN_TEXT else max(1, self.limit - self.agreed.of_segment(self.blocks[:1], self.now).size)


class ScaledSyn(Socket):
    """The window field of a SYN is scaled."""

    def packet(self, seg):
        packet = super().packet(seg)
        return packet._replace(window=self.agreed.field(seg.window)) if packet and "S" in packet.bits else packet


class TakesScaledSyn(Socket):
    """The window of a SYN that comes is scaled."""

    def window_of(self, seg):
        return self.agreed.window(seg.window)


class LargeScale(Socket):
    """A window scale above 14 counts as it is told."""

    class agreement(tcp_options.Agreed):
        def take_syn(self, options, now):
            super().take_syn(options, now)
            self.scale = options.scale


class OwnScale(Socket):
    """Windows are scaled though the peer's SYN has no scale."""

    class agreement(tcp_options.Agreed):
        def field(self, window):
            return window >> self.own_scale


class OffersAll(Socket):
    """A SYN with ACK offers what the peer's SYN had not."""

    class agreement(tcp_options.Agreed):
        def of_syn_ack(self, mss, now):
            return super().of_syn_ack(mss, now)._replace(scale=self.own_scale)


class ClockOfAll(Socket):
    """The timestamps begin at 0."""

    class agreement(tcp_options.Agreed):
        def stamp(self, now):
            return now & MASK


class StampedRst(Socket):
    """A RST has a timestamp."""

    def packet(self, seg):
        packet = super().packet(seg)
        options = NONE._replace(stamps=self.agreed.stamps(self.now))
        return packet._replace(options=options) if packet and "R" in packet.bits else packet


class TakesUnstamped(Socket):
    """A segment without a timestamp is taken."""

    def has_timestamps(self, seg):
        return super().has_timestamps(seg) and seg.options.stamps is not None

    def counts(self, seg):
        return super().counts(seg) and seg.options.stamps is not None


class TakesOld(Socket):
    """An old timestamp does not count."""

    class agreement(tcp_options.Agreed):
        def is_old(self, stamps, now):
            return False


class SilentPaws(Socket):
    """A segment with an old timestamp is not answered."""

    def answer_to_old(self, seg):
        return None


class OwesAfterOld(Socket):
    """The acknowledgement that answers an old timestamp leaves the delayed one."""

    def answer_to_old(self, seg):
        ack_at = self.ack_at
        answer = super().answer_to_old(seg)
        self.ack_at = ack_at
        return answer


class OldRst(Socket):
    """A RST with an old timestamp is dropped."""

    def has_timestamps(self, seg):
        is_stamped = "R" in seg.bits and seg.options.stamps is not None
        return super().has_timestamps(seg._replace(bits=seg.bits.replace("R", "")) if is_stamped else seg)


class PawsInSetUp(Socket):
    """Timestamps are looked at in SYN-RECEIVED."""

    def has_timestamps(self, seg):
        return super().has_timestamps(seg) or self.state == "SYN-RECEIVED" and self.agreed.recent is not None


class ForeverValid(Socket):
    """TS.Recent is valid for ever."""

    class agreement(tcp_options.Agreed):
        def is_old(self, stamps, now):
            return super().is_old(stamps, self.recent_at)


class EqualIsOld(Socket):
    """A timestamp that is TS.Recent is old."""

    class agreement(tcp_options.Agreed):
        def is_old(self, stamps, now):
            return super().is_old(stamps, now) or stamps[0] == self.recent


class StampsAsNumbers(Socket):
    """Timestamps are compared as numbers, not modulo 2^32."""

    class agreement(tcp_options.Agreed):
        def is_old(self, stamps, now):
            return stamps[0] < self.recent


class KarnAlways(Socket):
    """Timestamps tell no round trip."""

    class agreement(tcp_options.Agreed):
        def round_trip(self, options, now):
            return None


class TimeOfPeer(Socket):
    """The round trip is by TSval."""

    class agreement(tcp_options.Agreed):
        def round_trip(self, options, now):
            return super().round_trip(options._replace(stamps=options.stamps and options.stamps[::-1]), now)


class EchoFromAhead(Socket):
    """A TSecr that is ahead of the clock tells a very long round trip."""

    class agreement(tcp_options.Agreed):
        def round_trip(self, options, now):
            echo = options.stamps and options.stamps[1]
            return None if echo is None or self.recent is None else distance(self.stamp(now), echo)


class RecentAfterGap(Socket):
    """TS.Recent is that of the last segment, also after a gap."""

    def counts(self, seg):
        return super().counts(seg._replace(seq=self.rcv_nxt))


class RecentWhileOwed(Socket):
    """TS.Recent is not that of the first segment of an acknowledgement, but of the last one."""

    def counts(self, seg):
        ack_at, self.ack_at = self.ack_at, None
        counts = super().counts(seg)
        self.ack_at = ack_at
        return counts


class RecentOfOld(Socket):
    """TS.Recent is also that of a segment before RCV.NXT."""

    def counts(self, seg):
        is_old = 0 < distance(self.rcv_nxt, seg.seq + seg.length) < 1 << 31
        return super().counts(seg._replace(seq=self.rcv_nxt) if is_old else seg)


class RecentOfSyn(Socket):
    """TS.Recent is also that of a SYN."""

    def counts(self, seg):
        return super().counts(seg._replace(bits=seg.bits.replace("S", "")))


class NoBlock(Socket):
    """What is kept after a gap is not told."""

    class agreement(tcp_options.Agreed):
        def of_segment(self, kept, now):
            return super().of_segment((), now)


class AnyBlock(Socket):
    """SACK is not agreed on."""

    class agreement(tcp_options.Agreed):
        def of_segment(self, kept, now):
            options = super().of_segment(kept, now)
            return options._replace(blocks=kept)


class TakesAnyBlock(Socket):
    """Blocks are taken though SACK is not agreed on."""

    def has_blocks(self, seg):
        return bool(seg.options.blocks)


class BlockAfterNext(Socket):
    """A block may end after SND.NXT."""

    def is_in_flight(self, first, end):
        return first < end <= self.flight + 1


class AnyOrder(Socket):
    """A block that ends before it begins is the items between both."""

    def take_blocks(self, seg):
        una = self.snd_una
        blocks = tuple(tuple(sorted(block, key=lambda number: distance(number, una))) for block in seg.options.blocks)
        super().take_blocks(seg._replace(options=seg.options._replace(blocks=blocks)))


class BlocksOfDropped(Socket):
    """Blocks of a segment outside the window are taken."""

    def is_accepted(self, seg, is_near):
        return True


class StaysBehind(Socket):
    """The ranges stay where they are when the first items are acknowledged."""

    class board(tcp_options.Scoreboard):
        def advance(self, newly):
            pass


class HolesAlways(Socket):
    """Holes are filled also outside of fast recovery."""

    def send_hole(self):
        was, self.congestion.is_recovering = self.congestion.is_recovering, True
        segment = super().send_hole()
        self.congestion.is_recovering = was
        return segment


class HolesAgain(Socket):
    """A hole is filled more than once."""

    def send_hole(self):
        rescued = self.rescued
        segment = super().send_hole()
        self.rescued = rescued + bool(segment)
        return segment


class HolesFromStart(Socket):
    """What was sent again is not known when fast recovery begins."""

    def take_ack(self, *operands):
        rescued = self.rescued
        super().take_ack(*operands)
        self.rescued = max(rescued, self.rescued)


class MoreThanHole(Socket):
    """A segment that fills a hole goes on with what the peer has."""

    class board(tcp_options.Scoreboard):
        def hole(self, at):
            hole = super().hole(at)
            return hole and (hole[0], hole[1] + 1)


class TimedHole(Socket):
    """A segment that fills a hole leaves the time of one that is timed (Karn)."""

    def send_hole(self):
        timing = self.timing
        segment = super().send_hole()
        self.timing = timing
        return segment


class FirstAlways(Socket):
    """Each partial acknowledgement sends the first segment again, also with SACK."""

    def move_on(self, newly):
        super().move_on(newly)
        self.resend = "partial ACK" in self.met


class FirstNever(Socket):
    """With SACK no partial acknowledgement sends the first segment again."""

    def move_on(self, newly):
        super().move_on(newly)
        self.resend = self.resend and not self.scoreboard.ranges


class SameWindowOnly(Socket):
    """A duplicate acknowledgement with SACK has the same window."""

    def is_duplicate(self, seg, una, flight, window):
        return super().is_duplicate(seg, una, flight, window) and seg.window == window


class RemembersLost(Socket):
    """A time-out leaves what the peer had after a gap."""

    def time_out(self):
        board = self.scoreboard
        segment = super().time_out()
        self.scoreboard = board
        return segment


class BareOnly(Socket):
    """A duplicate acknowledgement with SACK has no text."""

    def is_duplicate(self, seg, una, flight, window):
        return super().is_duplicate(seg, una, flight, window) and not seg.text


class BlocksOnce(Socket):
    """A duplicate acknowledgement counts once, also if its blocks have more segments."""

    def count_duplicates(self, count, flight):
        super().count_duplicates(min(1, count), flight)


class BlocksOfNew(Socket):
    """The blocks of an acknowledgement of new text count outside of fast recovery."""

    def move_on(self, newly):
        total = self.scoreboard.total
        super().move_on(newly)
        self.count_duplicates(int(total > 0), self.flight)


class NoLimitedTransmit(Socket):
    """The first duplicate acknowledgements send nothing."""

    def count_duplicates(self, count, flight):
        cwnd = self.congestion.cwnd
        super().count_duplicates(count, flight)
        self.congestion.cwnd = self.congestion.cwnd if self.congestion.is_recovering else cwnd


class KeepsLimited(Socket):
    """What limited transmit allowed stays in cwnd."""

    def move_on(self, newly):
        self.congestion.duplicates = 0
        super().move_on(newly)


class CountsLimited(Socket):
    """What limited transmit sent counts in the slow start threshold."""

    def count_duplicates(self, count, flight):
        self.congestion.before = flight
        super().count_duplicates(count, flight)
        self.congestion.before = 1 << 31


class LargeSegments(Socket):
    """An error leaves SMSS."""

    def too_big(self, number, mss):
        mss, smss = mss, self.congestion.mss
        super().too_big(number, mss)
        self.congestion.mss = smss


class AnyError(Socket):
    """An error about a segment that is not in flight counts."""

    def too_big(self, number, mss):
        super().too_big(self.snd_una, mss)


class LargerPath(Socket):
    """An error makes segments larger."""

    def too_big(self, number, mss):
        limit, self.limit = self.limit, mss + 1
        super().too_big(number, mss)
        self.limit = self.limit if self.met == ["too big"] else limit


class SmallPath(Socket):
    """A path may take segments of less than 48 bytes."""

    def too_big(self, number, mss):
        super().too_big(number, mss)
        self.limit = min(self.limit, max(1, mss)) if self.met == ["too big"] else self.limit


class NothingAgain(Socket):
    """After an error nothing goes again."""

    def too_big(self, number, mss):
        cursor = self.cursor
        super().too_big(number, mss)
        self.cursor = cursor


class TimedError(Socket):
    """What goes again after an error is timed (Karn)."""

    def send_again(self, offset, count):
        timing = self.timing
        segment = super().send_again(offset, count)
        self.timing = timing if self.limit < self.mss else None
        return segment


class OldPath(Socket):
    """The next connection begins with the limits of the last one."""

    def agree_on_nothing(self, iss):
        limit = vars(self).get("limit", self.mss)
        super().agree_on_nothing(iss)
        self.limit = limit

    def agree(self, seg, iss):
        limit = self.limit
        super().agree(seg, iss)
        self.limit = min(limit, self.limit)


OPTION_FAULTS = [kind for kind in Socket.__subclasses__() if kind.__module__ == __name__]
