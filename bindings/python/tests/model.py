"""Frames as the RFCs define them, computed without the library."""
import struct
from ipaddress import ip_address

CLIENT, SERVER = bytes.fromhex("020000000001"), bytes.fromhex("020000000002")


def checksum(data):
    """RFC 1071, with the complement."""
    data += bytes(len(data) % 2)
    total = sum(struct.unpack(f">{len(data) // 2}H", data))
    while total >> 16:
        total = (total & 0xFFFF) + (total >> 16)
    return total ^ 0xFFFF


def filled(data, place, covered=b""):
    """The data with the checksum of itself and what is also covered at this place, where it has 0."""
    return data[:place] + struct.pack(">H", checksum(covered + data)) + data[place + 2 :]


def pseudo(src, dst, protocol, length):
    """RFC 9293, section 3.1, and RFC 8200, section 8.1."""
    rest = struct.pack(">BBH", 0, protocol, length) if src.version == 4 else struct.pack(">II", length, protocol)
    return src.packed + dst.packed + rest


def udp(src, dst, payload):
    """RFC 768: ends are addresses with ports."""
    data = struct.pack(">HHHH", src[1], dst[1], 8 + len(payload), 0) + payload
    return filled(data, 6, pseudo(src[0], dst[0], 17, len(data)))


def tcp(src, dst, seq, ack, flags, window, options=b"", payload=b""):
    """RFC 9293, section 3.1."""
    words = 5 + len(options) // 4
    data = struct.pack(">HHIIBBHHH", src[1], dst[1], seq, ack, words << 4, flags, window, 0, 0) + options + payload
    return filled(data, 16, pseudo(src[0], dst[0], 6, len(data)))


def icmp(src, dst, kind, code, word, payload):
    """RFC 792, and RFC 4443, section 2.1."""
    data = struct.pack(">BBHI", kind, code, 0, word) + payload
    return filled(data, 2, pseudo(src, dst, 58, len(data)) if src.version == 6 else b"")


def ip(src, dst, protocol, payload, hop_limit=64):
    """RFC 791, section 3.1, with DF and without options, and RFC 8200, section 3."""
    if src.version == 6:
        return struct.pack(">IHBB", 6 << 28, len(payload), protocol, hop_limit) + src.packed + dst.packed + payload
    fields = struct.pack(">BBHHHBBH", 0x45, 0, 20 + len(payload), 0, 0x4000, hop_limit, protocol, 0)
    return filled(fields + src.packed + dst.packed, 10) + payload


def frame(packet, src=CLIENT, dst=SERVER):
    """An Ethernet frame with an IP packet."""
    return dst + src + (b"\x08\x00" if packet[0] >> 4 == 4 else b"\x86\xdd") + packet


def end(text, port):
    return ip_address(text), port


def udp_frame(src, dst, payload, hop_limit=64):
    return frame(ip(src[0], dst[0], 17, udp(src, dst, payload), hop_limit))


def tcp_frame(src, dst, *fields):
    return frame(ip(src[0], dst[0], 6, tcp(src, dst, *fields)))


def icmp_frame(src, dst, *fields):
    return frame(ip(src, dst, 58 if src.version == 6 else 1, icmp(src, dst, *fields)))
