"""The lines `set` and `get`, calls of setters and getters, with the expected answers. written.py writes them.

The fields are those of the drawings in docs/audit/DIAGRAMS.md. This program reads and writes their bits itself, and computes
the checksums by RFC 1071 and RFC 1624. So no answer comes from the library. The lines are the same in each run.
"""
import ipaddress
import itertools
import sys
from collections import namedtuple

sys.path.append(f"{sys.path[0]}/../docs")
import drawings
from dice import Random
from packets import pseudo_header, word_sum

MALFORMED = "malformed"

# How a number is written in an operand and in an answer, and the patterns that a setter of this form is tried with.
Form = namedtuple("Form", "operand answer values")
# A field: the end of the names of its setter and getter, its name in the drawing, its form, the unit in which the calls count, and
# more numbers that its setter is called with.
Field = namedtuple("Field", "call drawn form unit more", defaults=(1, ()))
# A view: the heading of the drawing, how many of the drawn fields come before the view, and the fields that have a setter.
View = namedtuple("View", "heading front fields")


def number(bits, pattern):
    top = (1 << bits) - 1
    return Form(str, str, [0, 1, top, 1 << bits - 1, pattern, top ^ pattern])


def address(make, bits, pattern):
    top = (1 << bits) - 1
    return Form(make, make, [0, top, pattern, top ^ pattern])


U8, U16, U32 = number(8, 0x5A), number(16, 0x5A3C), number(32, 0x5A3C1234)
FLAG = Form(str, lambda bit: str(bool(bit)).lower(), [0, 1])
LINK = address(lambda n: n.to_bytes(6, "big").hex("-"), 48, 0x5A3C123480F1)
ADDR4 = address(lambda n: str(ipaddress.IPv4Address(n)), 32, 0x5A3C1234)
ADDR6 = address(lambda n: str(ipaddress.IPv6Address(n)), 128, 0x20010DB85A3C0F1E8091A2B3C4D5E6F7)

VIEWS = {
    "eth": View("Ethernet II", 0, [
        Field("dst_addr", "Destination Address", LINK), Field("src_addr", "Source Address", LINK),
        Field("ethertype", "EtherType", U16, 1, (0x0800, 0x0806, 0x86DD, 0xF7F9))]),
    "arp": View("ARP", 0, [
        Field("hardware_type", "Hardware Type", U16, 1, (2, 0xFFFE)), Field("protocol_type", "Protocol Type", U16, 1, (0x0806, 0xF7F9)),
        Field("hardware_len", "Hardware Len", U8, 1, (6, 7)), Field("protocol_len", "Protocol Len", U8, 1, (4, 5)),
        Field("operation", "Operation", U16, 1, (2, 3, 0xFFFD))]),
    "ipv4": View("IPv4", 0, [
        Field("version", "Version", U8, 1, (4, 5, 0xFA)), Field("header_len", "IHL", U8, 4, (20, 43)),
        Field("dscp", "DSCP", U8, 1, (0x15, 0xEA)), Field("ecn", "ECN", U8, 1, (2, 3, 0xFE)), Field("total_len", "Total Length", U16),
        Field("ident", "Identification", U16), Field("dont_frag", "D", FLAG), Field("more_frags", "M", FLAG),
        Field("frag_offset", "Fragment Offset", U16, 8, (8, 0x91A0, 0x6E5F)), Field("hop_limit", "Time to Live", U8),
        Field("next_header", "Protocol", U8, 1, (6, 17, 0xEE)), Field("checksum", "Header Checksum", U16),
        Field("src_addr", "Source Address", ADDR4), Field("dst_addr", "Destination Address", ADDR4)]),
    "ipv6": View("IPv6", 0, [
        Field("version", "Version", U8, 1, (5, 6, 0xFA)), Field("traffic_class", "Traffic Class", U8),
        Field("flow_label", "Flow Label", U32, 1, (0x5A3C1, 0xFFFA5C3E)), Field("payload_len", "Payload Length", U16),
        Field("next_header", "Next Header", U8, 1, (6, 17, 0xEE)), Field("hop_limit", "Hop Limit", U8),
        Field("src_addr", "Source Address", ADDR6), Field("dst_addr", "Destination Address", ADDR6)]),
    "frag": View("IPv6 fragment header", 2, [
        Field("frag_offset", "Fragment Offset", U16, 1, (0x1234, 0xEDCB)), Field("more_frags", "M", FLAG),
        Field("ident", "Identification", U32)]),
    "udp": View("UDP", 0, [
        Field("src_port", "Source Port", U16), Field("dst_port", "Destination Port", U16), Field("len", "Length", U16),
        Field("checksum", "Checksum", U16)]),
    "tcp": View("TCP", 0, [
        Field("src_port", "Source Port", U16), Field("dst_port", "Destination Port", U16),
        Field("seq_number", "Sequence Number", U32), Field("ack_number", "Acknowledgment Number", U32),
        Field("header_len", "Offset", U8, 4, (20, 43)), *(Field(name, name[0].upper(), FLAG) for name in "ns cwr ece urg ack psh rst syn fin".split()),
        Field("window_len", "Window", U16), Field("checksum", "Checksum", U16), Field("urgent_at", "Urgent Pointer", U16)]),
}
# What a call without a value clears.
CLEARED = {("ipv4", "clear_flags"): ["0", "D", "M"], ("frag", "clear_reserved"): ["Res"],
           ("tcp", "clear_flags"): ["Rsrvd", *"NCEUAPRSF"]}


class Header:
    """The places of the fields of a view, in bits, by the names in the drawing."""

    def __init__(self, name):
        heading, front, self.fields = VIEWS[name]
        drawn = drawings.read()[heading][front:]
        starts = itertools.accumulate((width for _, width in drawn), initial=0)
        places = {field: (start, width) for (field, width), start in zip(drawn, starts)}
        self.size = max(sum(places[field.drawn]) for field in self.fields) // 8
        # Without ARP's addresses, whose places are not fixed.
        self.places = {field: place for field, place in places.items() if sum(place) <= 8 * self.size}
        self.rng = Random(name)

    def olds(self):
        """Bytes to write over: all zeros, all ones, and two random ones, with bytes after the header."""
        return [bytes(self.size + 1), b"\xff" * (self.size + 2), self.rng.randbytes(self.size), self.rng.randbytes(self.size + 3)]


def written(octets, place, value):
    """The bytes with the number in these bits, cut to their width."""
    start, width = place
    low = 8 * len(octets) - start - width
    mask = (1 << width) - 1
    return (int.from_bytes(octets, "big") & ~(mask << low) | (value & mask) << low).to_bytes(len(octets), "big")


def held(octets, place):
    """The number in these bits."""
    start, width = place
    return int.from_bytes(octets, "big") >> 8 * len(octets) - start - width & (1 << width) - 1


def set_line(view, call, octets, answer, *operands):
    """A line with its answer: bytes, or None if the call cannot be made."""
    words = ["set", view, call, *operands, octets.hex() or "-"]
    return " ".join(map(str, words)), MALFORMED if answer is None else answer.hex()


def setter_rows(view):
    """Each setter, over bytes of each kind."""
    header = Header(view)
    for field in header.fields:
        place = header.places[field.drawn]
        for value in dict.fromkeys([*field.form.values, *field.more]):
            for old in header.olds():
                yield set_line(view, f"set_{field.call}", old, written(old, place, value // field.unit), field.form.operand(value))
    for (of, call), names in CLEARED.items():
        for old in header.olds() if of == view else []:
            new = old
            for name in names:
                new = written(new, header.places[name], 0)
            yield set_line(view, call, old, new)


def misfits(view):
    """Calls that cannot be made: too few bytes, an unknown call, too many operands or too few, a number that does not fit."""
    header = Header(view)
    field = header.fields[-1]
    call, operand, old = f"set_{field.call}", field.form.operand(1), bytes(header.size)
    yield set_line(view, call, old[1:], None, operand)
    yield set_line(view, call, b"", None, operand)
    yield set_line(view, field.call, old, None, operand)
    yield set_line(view, "set", old, None, operand)
    yield set_line(view, call, old, None)
    yield set_line(view, call, old, None, operand, operand)
    for field in header.fields:
        if field.form in (U8, U16, U32):
            yield set_line(view, f"set_{field.call}", old, None, field.form.values[2] + 1)
            yield set_line(view, f"set_{field.call}", old, None, "-1")


# ---- ARP's addresses

ARP_LENGTHS = [(6, 4), (0, 0), (1, 2), (6, 16), (8, 4), (20, 1), (255, 3), (2, 255)]


def arp_places(hardware_len, protocol_len):
    """The first and last byte of each address, by the ends of its calls' names."""
    widths = [hardware_len, protocol_len] * 2
    ends = list(itertools.accumulate(widths, initial=8))
    names = ["source_hardware_addr", "source_protocol_addr", "target_hardware_addr", "target_protocol_addr"]
    return dict(zip(names, zip(ends, ends[1:])))


def arp_olds(rng, hardware_len, protocol_len):
    """Packets of zeros, of ones and of random bytes, with these lengths."""
    size = 8 + 2 * (hardware_len + protocol_len)
    for octets in [bytes(size + 2), b"\xff" * (size + 2), rng.randbytes(size)]:
        yield octets[:4] + bytes([hardware_len, protocol_len]) + octets[6:]


def arp_rows():
    rng = Random("arp addresses")
    for lengths in ARP_LENGTHS:
        for old, (name, (first, last)) in itertools.product(arp_olds(rng, *lengths), arp_places(*lengths).items()):
            pattern = bytes.fromhex("5a3c123480f1")
            for value in [(pattern * 43)[: last - first], bytes(255 - b for b in (pattern * 43)[: last - first])]:
                yield set_line("arp", f"set_{name}", old, old[:first] + value + old[last:], value.hex() or "-")
            size = 8 + 2 * sum(lengths)
            if sum(lengths):
                yield set_line("arp", f"set_{name}", old[: size - 1], None, bytes(last - first).hex() or "-")
            yield set_line("arp", f"set_{name}", old, None, bytes(last - first + 1).hex())


# ---- checksums

ENDS = [("192.168.1.1", "192.168.1.2"), ("10.0.0.1", "255.255.255.255"), ("fe80::1", "ff02::1"), ("2001:db8::5a3c", "2001:db8::ffff:1")]
CHANGED = [("192.168.1.1", "203.0.113.5"), ("0.0.0.0", "255.255.255.255"), ("10.1.2.3", "10.1.2.3"), ("2001:db8::1", "fe80::a5c3"),
           ("ffff:ffff:ffff:ffff:ffff:ffff:ffff:ffff", "::")]
SUMS = [(0x1234, 0x5678), (0x5678, 0x1234), (0, 0), (0, 0xFFFF), (0xFFFF, 0), (0xFFFF, 0xFFFF), (0xFFFF, 0xFFFE), (1, 0), (0x8000, 0x7FFF)]


def packed(text):
    return ipaddress.ip_address(text).packed


def updated(checksum, old, new):
    """The checksum after words with the sum `old` have changed to words with the sum `new` (RFC 1624, equation 3)."""
    total = (0xFFFF - checksum) + (0xFFFF - old) + new
    while total >> 16:
        total = (total & 0xFFFF) + (total >> 16)
    return 0xFFFF - total


class Checksum:
    """The checksum of a view, and what it covers."""

    def __init__(self, view):
        self.view, self.header = view, Header(view)
        self.place = self.header.places["Header Checksum" if view == "ipv4" else "Checksum"]

    def olds(self):
        """Bytes with a length that fits and with each kind of checksum."""
        for octets, checksum in itertools.product(self.header.olds(), [None, 0, 1, 0xFFFF]):
            if self.view == "ipv4":
                octets = written(octets, self.header.places["IHL"], 5)
            if self.view == "udp":
                octets = written(octets, self.header.places["Length"], 8)
            yield octets if checksum is None else written(octets, self.place, checksum)

    def changed(self, octets, old, new):
        """The bytes with an updated checksum. Of UDP 0 means that there is none, and is never computed (RFC 768)."""
        checksum = held(octets, self.place)
        if self.view == "udp" and checksum == 0:
            return octets
        found = updated(checksum, old, new)
        return written(octets, self.place, found or 0xFFFF if self.view == "udp" else found)

    def updates(self):
        """Each call that updates the checksum, over bytes of each kind."""
        words = {"ipv4": {"hop_limit": "Time to Live", "dscp": "DSCP", "ecn": "ECN", "src_addr": "Source Address",
                          "dst_addr": "Destination Address"},
                 "tcp": {"src_port": "Source Port", "dst_port": "Destination Port", "window_len": "Window"}}
        by_call = words.get(self.view, {"src_port": "Source Port", "dst_port": "Destination Port"})
        forms = {field.call: field.form for field in self.header.fields}
        for old in self.olds():
            for before, after in SUMS:
                yield set_line(self.view, "update_checksum", old, self.changed(old, before, after), before, after)
            for call, drawn in by_call.items():
                place = self.header.places[drawn]
                for value in [*forms[call].values, 0x1234, 0xCB007105]:
                    if value >> place[1]:
                        continue
                    new = written(old, place, value)
                    first, end = place[0] // 16 * 2, -(-(place[0] + place[1]) // 16) * 2
                    sums = [word_sum(octets[first:end]) for octets in (old, new)]
                    yield set_line(self.view, f"update_{call}", old, self.changed(new, *sums), forms[call].operand(value))
            for before, after in CHANGED if self.view != "ipv4" else []:
                yield set_line(self.view, "update_address", old, self.changed(old, word_sum(packed(before)), word_sum(packed(after))),
                               before, after)


def filled_ipv4():
    """Headers of each length, with bytes after them. A header that is longer than the bytes cannot be summed."""
    header = Checksum("ipv4")
    for words, more in itertools.product(range(16), [0, 1, 40]):
        for old in [bytes(20 + more), b"\xff" * (20 + more), header.header.rng.randbytes(20 + more)]:
            old = written(old, header.header.places["IHL"], words)
            if words * 4 > len(old):
                yield set_line("ipv4", "fill_checksum", old, None)
            elif words >= 5:
                total = word_sum(written(old, header.place, 0)[: words * 4])
                yield set_line("ipv4", "fill_checksum", old, written(old, header.place, 0xFFFF - total))


def filled(view, protocol):
    """Packets of UDP and TCP with payloads, also of an odd length. Bytes after a UDP packet do not count."""
    header = Checksum(view)
    least = header.header.size
    for (src, dst), size in itertools.product(ENDS, [least, least + 1, least + 2, least + 7]):
        for old in [bytes(size + 1), b"\xff" * (size + 1), header.header.rng.randbytes(size + 1)]:
            if view == "udp":
                old = written(old, header.header.places["Length"], size)
            end = size if view == "udp" else len(old)
            total = word_sum(pseudo_header(packed(src), packed(dst), protocol, end) + written(old, header.place, 0)[:end])
            checksum = 0xFFFF - total
            yield set_line(view, "fill_checksum", old, written(old, header.place, checksum or 0xFFFF if view == "udp" else checksum), src, dst)
    if view == "udp":
        yield set_line(view, "fill_checksum", written(bytes(8), header.header.places["Length"], 9), None, *ENDS[0])
    yield set_line(view, "fill_checksum", bytes(40), None, "192.0.2.1", "::1")


def zero_sums(view, protocol):
    """A packet whose sum is ffff, so that the checksum is 0: UDP writes ffff for it (RFC 768)."""
    header = Checksum(view)
    src, dst = ENDS[0]
    octets = bytes(header.header.size)
    if view == "udp":
        octets = written(octets, header.header.places["Length"], len(octets))
    total = word_sum(pseudo_header(packed(src), packed(dst), protocol, len(octets)) + octets)
    octets = written(octets, header.header.places["Source Port"], 0xFFFF - total)
    yield set_line(view, "fill_checksum", octets, written(octets, header.place, 0xFFFF if view == "udp" else 0), src, dst)


# TCP options, and where the last maximum segment size is in them, if they are well-formed and have one.
SIZES = [("020405b4", 2), ("01020405b401010000", 3), ("0101020405b40101", 4), ("020405b402040218", 6), ("020405b40002040218000000", 2),
         ("0402080a00000001000000020103030702040100", 18), ("", None), ("01010402", None), ("00020405b4000000", None), ("0203050102040201", None),
         ("020405b40302ffff", None), ("020405b403000000", None), ("020405", 2)]


def segment_sizes():
    """Segments with each list of options; the sum is updated over the words that the size is in."""
    header = Checksum("tcp")
    for (options, at), value, checksum in itertools.product(SIZES, [0, 536, 1300, 0xFFFF], [0, 0x1234, 0xFFFF]):
        octets = bytes.fromhex(options)
        octets += bytes(-len(octets) % 4)
        old = written(written(header.header.rng.randbytes(20), header.header.places["Offset"], 5 + len(octets) // 4), header.place, checksum)
        old += octets + b"payload"
        new = old
        if at is not None:
            place = 20 + at
            new = old[:place] + value.to_bytes(2, "big") + old[place + 2 :]
            first, end = place // 2 * 2, (place + 3) // 2 * 2
            new = header.changed(new, word_sum(old[first:end]), word_sum(new[first:end]))
        yield set_line("tcp", "update_max_seg_size", old, new, value)
    yield set_line("tcp", "update_max_seg_size", written(bytes(20), header.header.places["Offset"], 4), None, 1300)
    yield set_line("tcp", "update_max_seg_size", written(bytes(20), header.header.places["Offset"], 6), None, 1300)


# ---- getters

def get_line(view, octets, values):
    return f"get {view} {octets.hex() or '-'}", MALFORMED if values is None else " ".join(values)


def getter_rows(view):
    """All getters, over zeros, ones, each field by itself set or cleared, and random bytes."""
    header = Header(view)
    rest = bytes(range(1, 256)) * 5
    zeros, ones = bytes(header.size), b"\xff" * header.size
    headers = [zeros, ones, *(header.rng.randbytes(header.size) for _ in range(20))]
    for place in header.places.values():
        headers += [written(zeros, place, -1), written(ones, place, 0), written(zeros, place, 1)]
    for octets in headers:
        octets += rest
        values = [field.form.answer(held(octets, header.places[field.drawn]) * field.unit) for field in header.fields]
        if view == "arp":
            values += [octets[first:last].hex() or "-" for first, last in arp_places(octets[4], octets[5]).values()]
            octets = octets[: 8 + 2 * (octets[4] + octets[5])]
        yield get_line(view, octets if view == "arp" else octets[: header.size + 2], values)
    yield get_line(view, zeros[1:], None)
    yield get_line(view, b"", None)


def set_rows():
    for view in VIEWS:
        yield from setter_rows(view)
        yield from misfits(view)
    yield from arp_rows()
    yield from filled_ipv4()
    yield from Checksum("ipv4").updates()
    for view, protocol in [("udp", 17), ("tcp", 6)]:
        yield from filled(view, protocol)
        yield from zero_sums(view, protocol)
        yield from Checksum(view).updates()
    yield from segment_sizes()
    yield from [("set", MALFORMED), ("set icmp set_checksum 1 00000000", MALFORMED), ("set udp set_len 1 0", MALFORMED)]


def get_rows():
    for view in VIEWS:
        yield from getter_rows(view)
    yield from [("get", MALFORMED), ("get icmp 00000000", MALFORMED), ("get udp 00000000 00000000", MALFORMED)]


def calls():
    """The answer to each line, by kind."""
    return {"set": dict(set_rows()), "get": dict(get_rows())}
