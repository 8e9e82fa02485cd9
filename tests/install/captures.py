"""Captures made byte by byte, for the cases of tests/install/tools.py."""
import struct

# Two Ethernet frames, of 16 and 15 bytes, and their lines.
ONE, TWO = "02000000000202000000000188b5aabb", "02000000000202000000000188b5cc"
FRAMES = [bytes.fromhex(ONE), bytes.fromhex(TWO)]
LINES = f"{ONE}\n{TWO}\n"
# A frame check sequence. What its bytes are does not matter.
FCS = b"\x11\x22\x33\x44"

ETHERNET, RAW_IP = 1, 101


def pcap_header(order="<", magic=0xA1B2C3D4, version=(2, 4), link=ETHERNET):
    return struct.pack(order + "IHHiIII", magic, *version, 0, 0, 65535, link)


def pcap_record(data, order="<", data_len=None, original_len=None):
    data_len = len(data) if data_len is None else data_len
    return struct.pack(order + "IIII", 0, 0, data_len, data_len if original_len is None else original_len) + data


def pcap(frames=FRAMES, order="<", **header):
    return pcap_header(order, **header) + b"".join(pcap_record(frame, order) for frame in frames)


def padded(data):
    return data + bytes(-len(data) % 4)


def block(kind, body, order="<", total=None, end=None):
    total = len(padded(body)) + 12 if total is None else total
    return struct.pack(order + "II", kind, total) + padded(body) + struct.pack(order + "I", total if end is None else end)


def option(kind, value, order="<"):
    return struct.pack(order + "HH", kind, len(value)) + padded(value)


def section(order="<", magic=0x1A2B3C4D, major=1):
    return block(0x0A0D0D0A, struct.pack(order + "IHHq", magic, major, 0, -1), order)


def interface(order="<", link=ETHERNET, snap_len=0, options=b""):
    return block(1, struct.pack(order + "HHI", link, 0, snap_len) + options, order)


def enhanced(data, order="<", number=0, data_len=None, original_len=None, options=b""):
    data_len = len(data) if data_len is None else data_len
    original_len = data_len if original_len is None else original_len
    return block(6, struct.pack(order + "IIIII", number, 0, 0, data_len, original_len) + padded(data) + options, order)


def obsolete(data, order="<", number=0, original_len=None, options=b""):
    original_len = len(data) if original_len is None else original_len
    return block(2, struct.pack(order + "HHIIII", number, 0, 0, 0, len(data), original_len) + padded(data) + options, order)


def simple(data, order="<", original_len=None):
    return block(3, struct.pack(order + "I", len(data) if original_len is None else original_len) + data, order)


def each_kind(order="<"):
    """A section with a packet block of each kind, and with blocks that have no packet."""
    statistics = block(5, struct.pack(order + "III", 0, 0, 0), order)
    custom = block(0x0BAD, struct.pack(order + "I", 32473) + b"note", order)
    return (section(order) + custom + interface(order, options=option(2, b"eth0", order) + option(0, b"", order))
            + enhanced(FRAMES[0], order, options=option(1, b"a comment", order)) + simple(FRAMES[1], order)
            + statistics + obsolete(FRAMES[1], order) + enhanced(FRAMES[0], order))


EACH_KIND_LINES = f"{ONE}\n{TWO}\n{TWO}\n{ONE}\n"
