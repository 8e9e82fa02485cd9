#!/usr/bin/env -S sh -c 'test ! -d /dev/stdin || { echo "${0##*/}: cannot read: Is a directory" >&2; exit 1; }; exec python3 -B "$0" "$@"'
# Python does not start if standard input is a directory, so the line above tests for that.
"""Prints the Ethernet frames of a capture as lines of hex digits, one frame per line.

The capture is a pcap or pcapng file, in either byte order.

Frames that the capture truncated to its snapshot length are printed as they are, and
their number is reported on standard error. The frame check sequence is removed where
the capture says that it has one. Packets of interfaces other than Ethernet are skipped,
and their number is reported. A capture without an Ethernet interface or without any
packet is an error.
"""
import struct
from collections import Counter, namedtuple

import frame_lines
from frame_lines import Failure, counted

ETHERNET = 1
FCS_LEN = 4
# The limits of libpcap, in bytes. A file with more has a wrong length in it.
MAX_FRAME_LEN = 262144
MAX_BLOCK_LEN = 16 << 20

# The byte order, and how many of its units of time are a second.
PCAP_ORDERS = {
    b"\xd4\xc3\xb2\xa1": ("<", 10**6),
    b"\x4d\x3c\xb2\xa1": ("<", 10**9),
    b"\xa1\xb2\xc3\xd4": (">", 10**6),
    b"\xa1\xb2\x3c\x4d": (">", 10**9),
}
# The fields of the link type in a pcap header.
LINK_TYPE = 0xFFFF
FCS_PRESENT = 0x04000000
FCS_WORDS = 0xF0000000

SECTION_START = b"\x0a\x0d\x0d\x0a"
SECTION_ORDERS = {b"\x4d\x3c\x2b\x1a": "<", b"\x1a\x2b\x3c\x4d": ">"}
# The types of pcapng blocks.
SECTION, INTERFACE, PACKET, SIMPLE_PACKET, ENHANCED_PACKET = 0x0A0D0D0A, 1, 2, 3, 6
# The types of pcapng options.
OPTIONS_END, PACKET_FLAGS, TIME_RESOLUTION, FCS_LENGTH, TIME_OFFSET = 0, 2, 9, 13, 14
FLAGS_FCS = 0x1E0

# `units` of time are a second, and its times count from `start`, in seconds since 1970.
Interface = namedtuple("Interface", "link_type snap_len has_fcs units start")
# What a record says about a packet: where it comes from, its bytes and its length before truncation. `time` is in nanoseconds
# since 1970; None: it has none.
Packet = namedtuple("Packet", "link_type has_fcs data original_len time")


class NoEthernet(Failure):
    """No interface of the capture has Ethernet frames."""


def read_exactly(source, length, what):
    data = source.read(length)
    if len(data) < length:
        raise Failure(f"{what} is cut off")
    return data


def read_packets(source, any_link=False):
    """The packets of a capture of either format, which has Ethernet among its link types unless any will do."""
    magic = source.read(4)
    if not magic:
        raise Failure("the input is empty")
    if magic in PCAP_ORDERS:
        return read_pcap(source, *PCAP_ORDERS[magic], any_link)
    if magic == SECTION_START:
        return read_pcapng(source, any_link)
    raise Failure("neither a pcap nor a pcapng file")


def read_pcap(source, order, units, any_link):
    """The packets of a pcap file, of which the magic number was already read."""
    header = read_exactly(source, 20, "the file header")
    major, minor, link = struct.unpack(order + "HH12xI", header)
    if (major, minor) != (2, 4):
        raise Failure(f"pcap version {major}.{minor} is not supported")
    if link & LINK_TYPE != ETHERNET and not any_link:
        raise NoEthernet(f"no Ethernet in this capture: link type {link & LINK_TYPE}")
    has_fcs = bool(link & FCS_PRESENT and link & FCS_WORDS)
    while first := source.read(1):
        record = first + read_exactly(source, 15, "the last frame")
        seconds, fraction, data_len, original_len = struct.unpack(order + "IIII", record)
        check_frame_len(data_len)
        time = seconds * 10**9 + fraction * 10**9 // units
        yield Packet(link & LINK_TYPE, has_fcs, read_exactly(source, data_len, "the last frame"), original_len, time)


def check_frame_len(length):
    if length > MAX_FRAME_LEN:
        raise Failure(f"a frame of {length} bytes: the limit is {MAX_FRAME_LEN}")


def read_pcapng(source, any_link):
    """The packets of a pcapng file, of which the type of the first block was already read."""
    interfaces = []
    link_types = set()
    for order, kind, body in read_blocks(source):
        if kind == SECTION:
            check_section(order, body)
            interfaces = []
        elif kind == INTERFACE:
            interfaces.append(read_interface(order, body))
            link_types.add(interfaces[-1].link_type)
        elif kind in PACKET_READERS:
            yield read_packet(PACKET_READERS[kind], order, body, interfaces)
    if ETHERNET not in link_types and not any_link:
        raise (NoEthernet if link_types else Failure)(f"no Ethernet in this capture: {link_type_list(link_types)}")


def read_blocks(source):
    """The byte order, the type and the body of each block."""
    start = SECTION_START
    order = None
    while start:
        start += read_exactly(source, 4 - len(start), "the last block")
        length = read_exactly(source, 4, "the last block")
        front = b""
        if start == SECTION_START:
            front = read_exactly(source, 4, "the last block")
            order = SECTION_ORDERS.get(front)
            if order is None:
                raise Failure("a section without its byte-order magic")
        kind, total = struct.unpack(order + "II", start + length)
        if total % 4 or not 12 + len(front) <= total <= MAX_BLOCK_LEN:
            raise Failure(f"a block of {total} bytes: the length is not valid")
        body = front + read_exactly(source, total - 12 - len(front), "the last block")
        if read_exactly(source, 4, "the last block") != length:
            raise Failure("the two lengths of a block differ")
        yield order, kind, body
        start = source.read(1)


def check_section(order, body):
    major, minor, _ = unpack(order + "4xHH8x", body)
    if major != 1:
        raise Failure(f"pcapng version {major}.{minor} is not supported")


def unpack(layout, body):
    """The fields at the front of a block's body, and what follows them."""
    size = struct.calcsize(layout)
    if len(body) < size:
        raise Failure("a block is too short for its fields")
    return *struct.unpack_from(layout, body), body[size:]


def read_options(order, rest):
    """The options of a block by type."""
    options = {}
    while rest:
        kind, length, rest = unpack(order + "HH", rest)
        if kind == OPTIONS_END:
            break
        if len(rest) < length:
            raise Failure("an option is longer than its block")
        options.setdefault(kind, rest[:length])
        rest = rest[length + -length % 4 :]
    return options


def read_interface(order, body):
    link_type, snap_len, rest = unpack(order + "H2xI", body)
    options = read_options(order, rest)
    resolution = (options.get(TIME_RESOLUTION) or b"\6")[0]
    offset = options.get(TIME_OFFSET, b"")
    # An offset of another length than 8 bytes is not valid, and is ignored, as Wireshark does.
    start = int.from_bytes(offset, "little" if order == "<" else "big", signed=True) if len(offset) == 8 else 0
    # The highest bit says whether the others are a power of 2 or of 10.
    return Interface(link_type, snap_len, any(options.get(FCS_LENGTH, b"")), (2 if resolution & 128 else 10) ** (resolution & 127), start)


def interface_at(number, interfaces):
    if number >= len(interfaces):
        raise Failure(f"a packet of interface {number}, which its section does not describe")
    return interfaces[number]


def read_enhanced(order, body, interfaces):
    number, high, low, data_len, original_len, rest = unpack(order + "IIIII", body)
    return interface_at(number, interfaces), data_len, original_len, high << 32 | low, rest


def read_obsolete(order, body, interfaces):
    number, high, low, data_len, original_len, rest = unpack(order + "H2xIIII", body)
    return interface_at(number, interfaces), data_len, original_len, high << 32 | low, rest


def read_simple(order, body, interfaces):
    """A simple packet has no length of its own: the snapshot length of the first interface limits it."""
    original_len, rest = unpack(order + "I", body)
    interface = interface_at(0, interfaces)
    return interface, min(original_len, interface.snap_len or original_len), original_len, None, rest


PACKET_READERS = {PACKET: read_obsolete, SIMPLE_PACKET: read_simple, ENHANCED_PACKET: read_enhanced}


def read_packet(reader, order, body, interfaces):
    interface, data_len, original_len, time, rest = reader(order, body, interfaces)
    check_frame_len(data_len)
    if len(rest) < data_len:
        raise Failure("a packet is longer than its block")
    has_fcs = interface.has_fcs
    if reader is not read_simple:
        flags = read_options(order, rest[data_len + -data_len % 4 :]).get(PACKET_FLAGS, b"")
        has_fcs = has_fcs or bool(int.from_bytes(flags, "little" if order == "<" else "big") & FLAGS_FCS)
    if time is not None:
        time = interface.start * 10**9 + time * 10**9 // interface.units
    return Packet(interface.link_type, has_fcs, rest[:data_len], original_len, time)


def link_type_list(link_types):
    numbers = ", ".join(map(str, sorted(link_types)))
    if not link_types:
        return "no interface"
    return f"link type {numbers}" if len(link_types) == 1 else f"link types {numbers}"


def read_frames(source, arguments):
    """The frames of the Ethernet packets, without frame check sequences. At the end it reports what differs from the capture."""
    counts, skipped = Counter(), Counter()
    for packet in read_packets(source):
        if packet.link_type != ETHERNET:
            skipped[packet.link_type] += 1
            continue
        data_len = len(packet.data)
        frame_len = max(packet.original_len, data_len) - (FCS_LEN if packet.has_fcs else 0)
        truncated = data_len < frame_len
        counts["frames"] += 1
        counts["truncated"] += truncated
        counts["with fcs"] += data_len > frame_len
        if not (truncated and arguments.whole):
            yield packet.data[: max(frame_len, 0)]
    if not counts and not skipped:
        raise Failure("no packets in this capture")
    report_counts(counts, skipped, arguments.whole)


def report_counts(counts, skipped, dropped):
    if counts["truncated"]:
        what = "dropped, truncated by the snapshot length" if dropped else "truncated by the snapshot length"
        frame_lines.report(f"{what}: {counts['truncated']} of {counted(counts['frames'], 'frame')}")
    if counts["with fcs"]:
        frame_lines.report(f"frame check sequence removed: {counted(counts['with fcs'], 'frame')}")
    if skipped:
        frame_lines.report(f"skipped, not Ethernet ({link_type_list(skipped)}): {counted(sum(skipped.values()), 'packet')}")


if __name__ == "__main__":
    frame_lines.main(__doc__, read_frames, [("--whole", "drop frames that the snapshot length truncated")])
