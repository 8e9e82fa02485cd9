"""Packets as bytes, right where nothing else is asked for."""

DST = bytes.fromhex("020000000002")
SRC = bytes.fromhex("020000000001")
IPV4 = 0x0800
IPV6 = 0x86DD
HOST_A = bytes([192, 0, 2, 1])
HOST_B = bytes([192, 0, 2, 2])


def word_sum(data):
    """The one's complement sum of 16-bit words (RFC 1071)."""
    total = int.from_bytes(data + b"\0" * (len(data) % 2), "big")
    # 65536 leaves 1 modulo 65535, so a word counts the same in any place.
    return total % 0xFFFF or 0xFFFF * (total > 0)


def ethernet(ethertype, payload=b"", dst=DST, src=SRC):
    return dst + src + ethertype.to_bytes(2, "big") + payload


def header(payload_len=4, version=4, words=None, service=0, total=None, ident=0, flags=0x4000,
           hop_limit=64, protocol=1, checksum=None, src=HOST_A, dst=HOST_B, options=b""):
    """An IPv4 header (RFC 791, section 3.1), right where nothing else is asked for."""
    words = 5 + len(options) // 4 if words is None else words
    total = 20 + len(options) + payload_len if total is None else total
    front = bytes([version << 4 | words, service]) + total.to_bytes(2, "big") + ident.to_bytes(2, "big")
    front += flags.to_bytes(2, "big") + bytes([hop_limit, protocol])
    if checksum is None:
        checksum = 0xFFFF - word_sum(front + b"\0\0" + src + dst + options)
    return front + checksum.to_bytes(2, "big") + src + dst + options


DATA = bytes.fromhex("aa0000ff")


def packet(payload=DATA, padding=b"", **fields):
    return ethernet(IPV4, header(len(payload), **fields) + payload + padding)


HOST_C = bytes.fromhex("20010db8000000000000000000000001")
HOST_D = bytes.fromhex("fe80000000000000020000fffe000002")


def header_ipv6(payload_len=4, version=6, service=0, label=0, next_header=59, hop_limit=64, src=HOST_C, dst=HOST_D):
    """An IPv6 header (RFC 8200, section 3), right where nothing else is asked for."""
    front = (version << 28 | service << 20 | label).to_bytes(4, "big") + payload_len.to_bytes(2, "big")
    return front + bytes([next_header, hop_limit]) + src + dst


def packet_ipv6(payload=DATA, padding=b"", **fields):
    fields.setdefault("payload_len", len(payload))
    return ethernet(IPV6, header_ipv6(**fields) + payload + padding)


def pseudo_header(src, dst, protocol, length):
    """What a transport's checksum covers besides (RFC 768; RFC 8200, section 8.1): a sum of words is the same for both."""
    return src + dst + bytes([0, protocol]) + length.to_bytes(2, "big")


def udp(payload=DATA, src_port=48896, dst_port=53, length=None, checksum=None, src=HOST_A, dst=HOST_B):
    """A UDP packet (RFC 768) between two addresses, right where nothing else is asked for."""
    length = 8 + len(payload) if length is None else length
    front = src_port.to_bytes(2, "big") + dst_port.to_bytes(2, "big") + length.to_bytes(2, "big")
    if checksum is None:
        checksum = 0xFFFF - word_sum(pseudo_header(src, dst, 17, length) + front + b"\0\0" + payload) or 0xFFFF
    return front + checksum.to_bytes(2, "big") + payload


def in_ipv4(datagram, padding=b"", **fields):
    return packet(datagram, padding, protocol=17, **fields)


def in_ipv6(datagram, padding=b"", **fields):
    return packet_ipv6(datagram, padding, next_header=17, **fields)


# The hosts of both versions, and what carries a UDP packet between them.
CARRIERS = [(HOST_A, HOST_B, in_ipv4), (HOST_C, HOST_D, in_ipv6)]


def over_both(payload=DATA, after=b"", padding=b"", **fields):
    """A UDP packet over IPv4 and one over IPv6, with bytes after it in the IP packet and padding after that."""
    for src, dst, carry in CARRIERS:
        yield carry(udp(payload, src=src, dst=dst, **fields) + after, padding)


def octets(n, start=0):
    return bytes((start + 7 * i) % 256 for i in range(n))


def turned(octets, bit):
    """The bytes with one bit turned, counted from the first."""
    other = bytearray(octets)
    other[bit // 8] ^= 0x80 >> bit % 8
    return bytes(other)


def groups(numbers):
    """The address of eight groups."""
    return b"".join(number.to_bytes(2, "big") for number in numbers)


def tcp(payload=DATA, options=b"", words=None, flags=0x10, src_port=48896, dst_port=80, seq=0x01234567, ack=0x89ABCDEF,
        window=0x0123, checksum=None, urgent=0, src=HOST_A, dst=HOST_B):
    """A TCP segment (RFC 9293, section 3.1) between two addresses, right where nothing else is asked for. The options are
    filled up with end marks to a whole word; bit 8 of the flags is NS, those above are reserved."""
    options += b"\0" * (-len(options) % 4)
    words = 5 + len(options) // 4 if words is None else words
    front = src_port.to_bytes(2, "big") + dst_port.to_bytes(2, "big") + seq.to_bytes(4, "big") + ack.to_bytes(4, "big")
    front += (words << 12 | flags).to_bytes(2, "big") + window.to_bytes(2, "big")
    back = urgent.to_bytes(2, "big") + options + payload
    if checksum is None:
        length = len(front) + 2 + len(back)
        checksum = 0xFFFF - word_sum(pseudo_header(src, dst, 6, length) + front + b"\0\0" + back)
    return front + checksum.to_bytes(2, "big") + back


TCP_CARRIERS = [(HOST_A, HOST_B, lambda segment, padding=b"": packet(segment, padding, protocol=6)),
                (HOST_C, HOST_D, lambda segment, padding=b"": packet_ipv6(segment, padding, next_header=6))]


def tcp_over_both(payload=DATA, padding=b"", **fields):
    """A TCP segment over IPv4 and one over IPv6, with padding after the packet."""
    for src, dst, carry in TCP_CARRIERS:
        yield carry(tcp(payload, src=src, dst=dst, **fields), padding)


ARP = 0x0806


def arp(operation=1, hardware=1, protocol=IPV4, hardware_len=6, protocol_len=4, sha=SRC, spa=HOST_A, tha=b"\0" * 6, tpa=HOST_B):
    """An ARP packet (RFC 826): a request of one host for the other, where nothing else is asked for."""
    front = hardware.to_bytes(2, "big") + protocol.to_bytes(2, "big") + bytes([hardware_len, protocol_len])
    return front + operation.to_bytes(2, "big") + sha + spa + tha + tpa
