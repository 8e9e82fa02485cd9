"""Frames to a host and the replies to them, right where nothing else is asked for. Nothing here comes from the library."""
import ipaddress

import icmp
from packets import ARP, IPV4, IPV6, arp, ethernet, header, header_ipv6, tcp, udp

OUR_LINK = bytes.fromhex("020000000002")
THEIR_LINK = bytes.fromhex("020000000001")
OTHER_LINK = bytes.fromhex("020000000003")
BROADCAST = b"\xff" * 6
UDP, TCP = 17, 6
FIN, SYN, RST, PSH, ACK, URG, ECE, CWR = (1 << bit for bit in range(8))
ECHO, OPEN, CLOSED = 7, 80, 81
SEQ, ACKED = 0x01234567, 0x89ABCDEF


def addr(text):
    return ipaddress.ip_address(text).packed


class Ipv4:
    name = "4"
    ours, theirs = addr("192.0.2.2"), addr("192.0.2.1")
    ethertype, icmp = IPV4, icmp.ICMP
    # Where the transport begins in a frame without options.
    front = 34

    @staticmethod
    def packet(src, dst, protocol, payload, padding=b"", **fields):
        return header(len(payload), src=src, dst=dst, protocol=protocol, **fields) + payload + padding


class Ipv6:
    name = "6"
    ours, theirs = addr("2001:db8::2"), addr("2001:db8::1")
    ethertype, icmp = IPV6, icmp.ICMPV6
    front = 54

    @staticmethod
    def packet(src, dst, protocol, payload, padding=b"", **fields):
        fields.setdefault("payload_len", len(payload))
        return header_ipv6(src=src, dst=dst, next_header=protocol, **fields) + payload + padding


def framed(v, segment_of, protocol, link_dst=OUR_LINK, link_src=THEIR_LINK, ethertype=None, src=None, dst=None, padding=b"",
           **ip):
    """A frame to the host with a UDP packet or TCP segment, which is computed from both addresses."""
    src, dst = src or v.theirs, dst or v.ours
    packet = v.packet(src, dst, protocol, segment_of(src, dst), padding, **ip)
    return ethernet(v.ethertype if ethertype is None else ethertype, packet, link_dst, link_src)


def replied(v, segment_of, protocol, link=THEIR_LINK, to=None, service=0):
    """A frame from the host: hop limit 64, IPv4 without fragmentation and with identification 0 (RFC 6864, section 4.1)."""
    return framed(v, segment_of, protocol, link, OUR_LINK, src=v.ours, dst=to or v.theirs, service=service)


def ping(v, payload=b"ping", src_port=41319, dst_port=ECHO, after=b"", length=None, checksum=None, **frame):
    packet_of = lambda src, dst: udp(payload, src_port, dst_port, length, checksum, src, dst) + after
    return framed(v, packet_of, frame.pop("protocol", UDP), **frame)


def pong(v, payload=b"ping", dst_port=41319, src_port=ECHO, **frame):
    """The echo (RFC 862)."""
    return replied(v, lambda src, dst: udp(payload, src_port, dst_port, src=src, dst=dst), UDP, **frame)


def segment(v, control=SYN, payload=b"", options=b"", src_port=60784, dst_port=OPEN, seq=SEQ, ack=ACKED, window=0xFAF0, urgent=0,
            offset=None, checksum=None, **frame):
    segment_of = lambda src, dst: tcp(payload, options, offset, control, src_port, dst_port, seq, ack, window, checksum, urgent, src, dst)
    return framed(v, segment_of, TCP, **frame)


def reset(v, flags=SYN, length=None, seq=SEQ, ack=ACKED, src_port=CLOSED, dst_port=60784, **frame):
    """The RST to a segment (RFC 9293, section 3.10.7.1): by its acknowledgement, else by its length."""
    length = bool(flags & SYN) + bool(flags & FIN) if length is None else length
    numbers = {"flags": RST, "seq": ack, "ack": 0} if flags & ACK else {"flags": RST | ACK, "seq": 0, "ack": (seq + length) % (1 << 32)}
    return replied(v, lambda src, dst: tcp(b"", src_port=src_port, dst_port=dst_port, window=0, src=src, dst=dst, **numbers), TCP,
                   **frame)


def summed(message, checksum):
    """The ICMP message, with this checksum instead of the right one if it is given."""
    return message if checksum is None else message[:2] + checksum.to_bytes(2, "big") + message[4:]


# An identifier and a sequence number.
ECHO_WORD = 0x1234_0001


def echo_request(v, payload=b"ping ping", word=ECHO_WORD, kind=None, code=0, checksum=None, **frame):
    kind = icmp.ECHO_REQUEST[int(v.name)] if kind is None else kind
    message_of = lambda src, dst: summed(icmp.message(kind, code, word, payload, src, dst), checksum)
    return framed(v, message_of, frame.pop("protocol", v.icmp), **frame)


def echo_reply(v, payload=b"ping ping", word=ECHO_WORD, **frame):
    """The same identifier, sequence number and data (RFC 1122, section 3.2.2.6; RFC 4443, section 4.2)."""
    return replied(v, lambda src, dst: icmp.message(icmp.ECHO_REPLY[int(v.name)], 0, word, payload, src, dst), v.icmp, **frame)


def unreachable(v, frame):
    """Port unreachable about the packet of a frame, to its sender (RFC 1122, section 4.1.3.1; RFC 4443, section 3.1)."""
    return icmp.error(frame, OUR_LINK, v.ours, icmp.CLOSED)


def unknown(v, frame):
    """The error about an unknown next header in the IPv6 header of a frame (RFC 8200, section 4). IPv4 has none."""
    return icmp.error(frame, OUR_LINK, v.ours, icmp.UNKNOWN_HEADER, 6) if v.name == "6" else None


def wrong_field(v, frame, pointer):
    """The error about a field of an IPv6 packet (RFC 8200, section 4.5)."""
    return icmp.error(frame, OUR_LINK, v.ours, icmp.WRONG_FIELD, pointer)


def headers_missing(v, frame):
    """The error about a first fragment without all headers (RFC 7112, section 5)."""
    return icmp.error(frame, OUR_LINK, v.ours, icmp.HEADERS_MISSING)


# The solicited-node group of 2001:db8::2 (RFC 4291, section 2.7.1), and the Ethernet address of a group (RFC 2464, section 7).
NODE_GROUP = addr("ff02::1:ff00:2")
ALL_NODES = addr("ff02::1")


def group_link(group):
    return b"\x33\x33" + group[12:]


def lladdr(kind, link):
    """The option with a link-layer address (RFC 4861, section 4.6.1)."""
    return bytes([kind, 1]) + link


def solicited(target=Ipv6.ours, options=lladdr(1, THEIR_LINK), code=0, checksum=None, dst=NODE_GROUP, link_dst=None, hop_limit=255, **frame):
    """A neighbour solicitation (RFC 4861, section 4.3)."""
    message_of = lambda src, to: summed(icmp.message(icmp.SOLICITATION, code, 0, target + options, src, to), checksum)
    link_dst = (group_link(dst) if dst[0] == 0xFF else OUR_LINK) if link_dst is None else link_dst
    return framed(Ipv6, message_of, icmp.ICMPV6, dst=dst, link_dst=link_dst, hop_limit=hop_limit, **frame)


def advertised(to=Ipv6.theirs, link=THEIR_LINK, flags=0x6000_0000):
    """The advertisement (RFC 4861, section 7.2.4): solicited, and it overrides."""
    message_of = lambda src, dst: icmp.message(icmp.ADVERTISEMENT, 0, flags, Ipv6.ours + lladdr(2, OUR_LINK), src, dst)
    return framed(Ipv6, message_of, icmp.ICMPV6, link, OUR_LINK, src=Ipv6.ours, dst=to, hop_limit=255)


def option(kind, *numbers):
    """An option of a header (RFC 9293, section 3.1): its kind, its length and pairs of a number and its width."""
    data = b"".join(number.to_bytes(width, "big") for number, width in numbers)
    return bytes([kind, 2 + len(data)]) + data


def mss(size):
    return option(2, (size, 2))


def scale(bits):
    """RFC 7323, section 2.2."""
    return option(3, (bits, 1))


SACK_PERMITTED = option(4)


def timestamps(value, echoed):
    """RFC 7323, section 3.2."""
    return option(8, (value, 4), (echoed, 4))


def accepted(v, options=b"", seq=SEQ, src_port=OPEN, dst_port=60784, size=1460, iss=0x0A0B0C0D, window=0x7210, **frame):
    """The SYN-ACK to a SYN (RFC 9293, section 3.10.7.2). It always has the maximum segment size."""
    segment_of = lambda src, dst: tcp(b"", mss(size) + options, None, SYN | ACK, src_port, dst_port, iss, (seq + 1) % (1 << 32), window,
                                      None, 0, src, dst)
    return replied(v, segment_of, TCP, **frame)


def asked(link_dst=BROADCAST, link_src=THEIR_LINK, ethertype=ARP, padding=b"", **fields):
    return ethernet(ethertype, arp(**fields) + padding, link_dst, link_src)


def told(link=THEIR_LINK, spa=addr("192.0.2.1")):
    """The reply to an ARP request (RFC 826): the fields exchanged, with our hardware address."""
    return ethernet(ARP, arp(2, sha=OUR_LINK, spa=addr("192.0.2.2"), tha=link, tpa=spa), link, OUR_LINK)


# Bits to turn in a checksum that is right.
WRONG = [0x0001, 0x8000, 0x0101, 0xFFFE]


def turned(frame, at, mask):
    """The frame with these bits of the 16-bit word at this byte turned."""
    word = int.from_bytes(frame[at:at + 2], "big") ^ mask
    return frame[:at] + word.to_bytes(2, "big") + frame[at + 2:]
