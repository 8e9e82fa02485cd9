"""ICMP messages and errors as bytes, by RFC 792, RFC 1122, RFC 1812, RFC 4443 and RFC 4861, without the library."""
import ipaddress

import packets
from packets import IPV4, IPV6, word_sum
from rebuilt import is_summed, number

ICMP, ICMPV6 = 1, 58
ECHO_REQUEST, ECHO_REPLY = {4: 8, 6: 128}, {4: 0, 6: 129}
SOLICITATION, ADVERTISEMENT = 135, 136
# The types and codes of errors.
EXPIRED, TOO_BIG, NO_ROUTE = {4: (11, 0), 6: (3, 0)}, {4: (3, 4), 6: (2, 0)}, {4: (3, 0), 6: (1, 0)}
NO_NEIGHBOUR, CLOSED = {4: (3, 1), 6: (1, 3)}, {4: (3, 3), 6: (1, 4)}
# Only over IPv6: a wrong field, an unknown next header, and headers that are missing in a first fragment.
WRONG_FIELD, UNKNOWN_HEADER, HEADERS_MISSING = {6: (4, 0)}, {6: (4, 1)}, {6: (4, 3)}
# The longest packet with an error (RFC 1812, section 4.3.2.3; RFC 4443, section 2.4 c).
LONGEST_ERROR = {4: 576, 6: 1280}
QUERIES = {4: {0, 8, *range(13, 19)}, 6: set(range(128, 256)) - {137}}
# The extension headers of IPv6 but for the encrypted one, 50 (RFC 7045, section 4), and two of them.
EXTENSIONS = {0, 43, 44, 51, 60, 135, 139, 140}
FRAGMENT, AUTHENTICATION = 44, 51
# From these no host sends, and none is at them.
NO_HOSTS = [ipaddress.ip_network(block) for block in (
    "0.0.0.0/8", "127.0.0.0/8", "224.0.0.0/3", "::/127", "::ffff:0:0/96", "ff00::/8")]


def version_of(addr):
    return 4 if len(addr) == 4 else 6


def is_host(addr):
    addr = ipaddress.ip_address(addr)
    return not any(addr.version == block.version and addr in block for block in NO_HOSTS)


def message(kind, code, word, data, src, dst):
    """An ICMP message between two addresses, with a right checksum."""
    body = bytes([kind, code, 0, 0]) + word.to_bytes(4, "big") + data
    front = b"" if len(src) == 4 else packets.pseudo_header(src, dst, ICMPV6, len(body))
    return body[:2] + (0xFFFF - word_sum(front + body)).to_bytes(2, "big") + body[4:]


def is_valid(body, src, dst):
    front = b"" if len(src) == 4 else packets.pseudo_header(src, dst, ICMPV6, len(body))
    return len(body) >= 8 and is_summed(front + body)


def packet(body, src, dst, hop_limit=64):
    if len(src) == 4:
        return packets.header(len(body), protocol=ICMP, src=src, dst=dst, hop_limit=hop_limit) + body
    return packets.header_ipv6(len(body), next_header=ICMPV6, src=src, dst=dst, hop_limit=hop_limit) + body


def framed(body, src, dst, src_hardware, dst_hardware, hop_limit=64):
    """A whole frame with a message."""
    return packets.ethernet(IPV4 if len(src) == 4 else IPV6, packet(body, src, dst, hop_limit), dst_hardware, src_hardware)


def echo_request(src, dst, ident, seq_no, data):
    return message(ECHO_REQUEST[version_of(src)], 0, ident << 16 | seq_no, data, src, dst)


def echo_reply(src, dst, ident, seq_no, data):
    return message(ECHO_REPLY[version_of(src)], 0, ident << 16 | seq_no, data, src, dst)


def upper_layer(protocol, body):
    """The protocol after the extension headers of an IPv6 packet, and its bytes, of which a later fragment has none; or
    None if the headers do not end in the packet (RFC 8200, section 4)."""
    while protocol in EXTENSIONS:
        size = 8 if protocol == FRAGMENT or len(body) < 2 else 4 * body[1] + 8 if protocol == AUTHENTICATION else 8 * body[1] + 8
        if len(body) < size:
            return None
        is_later = protocol == FRAGMENT and number(body[2:4]) >> 3
        protocol, body = body[0], b"" if is_later else body[size:]
    return protocol, body


def may_be_told(frame, hardware, own):
    """Whether an error may be sent about a frame whose IP header is valid (RFC 1122, section 3.2.2; RFC 4443, section
    2.4 e)."""
    body, version = frame[14:], frame[14] >> 4
    src, dst = (body[12:16], body[16:20]) if version == 4 else (body[8:24], body[24:40])
    protocol = body[9 if version == 4 else 6]
    payload = body[body[0] % 16 * 4 : number(body[2:4])] if version == 4 else body[40 : 40 + number(body[4:6])]
    if version == 4:
        found = None if number(body[6:8]) & 0x1FFF else (protocol, payload)
    else:
        found = upper_layer(protocol, payload)
    is_error = found and found[0] == (ICMP if version == 4 else ICMPV6) and (not found[1] or found[1][0] not in QUERIES[version])
    is_from_host = not frame[6] & 1 and is_host(src) and src != own
    return frame[:6] == hardware and is_from_host and is_host(dst) and found is not None and not is_error


def error(frame, hardware, own, kind, word=0):
    """The frame with an error about a frame, from an interface with these addresses, or None if there may be none."""
    version = frame[14] >> 4
    if not may_be_told(frame, hardware, own):
        return None
    src = frame[26:30] if version == 4 else frame[22:38]
    if kind == TOO_BIG and version == 4 and not frame[20] & 0x40:
        return None
    total_len = number(frame[16:18]) if version == 4 else 40 + number(frame[18:20])
    most = LONGEST_ERROR[version] - 8 - (20 if version == 4 else 40)
    body = message(*kind[version], word if kind in (TOO_BIG, WRONG_FIELD, UNKNOWN_HEADER) else 0, frame[14 : 14 + min(most, total_len)], own, src)
    return framed(body, own, src, hardware, frame[6:12])


def is_error(frame):
    """Whether a frame of the library or a kernel carries an error."""
    return (frame[12:14] == b"\x08\0" and frame[23] == ICMP and frame[14 + frame[14] % 16 * 4] not in QUERIES[4]) or (
        frame[12:14] == b"\x86\xdd" and frame[20] == ICMPV6 and frame[54] not in QUERIES[6])


# ---- neighbour discovery


def group_of(addr):
    """The solicited-node group of an IPv6 address (RFC 4291, section 2.7.1), and its Ethernet address (RFC 2464)."""
    return bytes.fromhex("ff0200000000000000000001ff") + addr[13:], b"\x33\x33\xff" + addr[13:]


def solicitation(target, src, dst, hardware=None):
    option = b"" if hardware is None else b"\1\1" + hardware
    return message(SOLICITATION, 0, 0, target + option, src, dst)


def advertisement(target, src, dst, hardware=None, flags=3):
    """`flags`: 4 for R, 2 for S, 1 for O."""
    option = b"" if hardware is None else b"\2\1" + hardware
    return message(ADVERTISEMENT, 0, flags << 29, target + option, src, dst)
