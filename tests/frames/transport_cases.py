"""Frames with UDP packets and TCP segments: right ones, and what is nearly right."""
from packets import (
    CARRIERS, HOST_B, HOST_C, HOST_D, TCP_CARRIERS, in_ipv4, in_ipv6, octets, over_both, packet,
    packet_ipv6, pseudo_header, tcp, tcp_over_both, turned, udp, word_sum,
)


def udp_shapes():
    for n in list(range(20)) + [63, 64, 65, 255, 256]:
        yield from over_both(octets(n, n))
    yield from over_both(octets(1472))
    for port in [0, 1, 53, 255, 256, 0x8000, 0xFFFF]:
        yield from over_both(src_port=port)
        yield from over_both(dst_port=port)
        yield from over_both(dst_port=port, checksum=0)
    for n in range(1, 20):
        yield from over_both(after=octets(n, 9))
        yield from over_both(b"", padding=octets(n))
        yield from over_both(octets(3), after=octets(n), padding=octets(5))
    for address in ["00000000", "ffffffff", "7f000001", "e0000001"]:
        src = bytes.fromhex(address)
        yield in_ipv4(udp(src=src), src=src)
        yield in_ipv4(udp(), src=src)
    for options in ["94040000", "0101010101010100"]:
        yield in_ipv4(udp(), options=bytes.fromhex(options))
    for flags in [0x2000, 1, 0x2001, 0x8000]:
        yield in_ipv4(udp(), flags=flags)
    yield packet_ipv6(bytes([17, 0, 0, 0, 0, 0, 0, 1]) + udp(src=HOST_C, dst=HOST_D), next_header=44)
    yield in_ipv6(udp(src=HOST_C, dst=HOST_D), service=0xA5, label=0x12345)


def udp_lengths():
    for length in list(range(32)) + [0x0C00, 0x8000, 0x800C, 0xFFFF]:
        yield from over_both(octets(12), length=length)
        yield from over_both(octets(12), length=length, checksum=0)
        yield from over_both(octets(12), length=length, after=octets(4))
    for n in range(9):
        yield in_ipv4(octets(n, 1))
        yield in_ipv6(octets(n, 1))


def udp_truncations():
    for frame in [*over_both(), *over_both(octets(7), after=octets(3)), *over_both(dst_port=0)]:
        for n in range(34, len(frame)):
            yield frame[:n]


def udp_checksums():
    for checksum in [0, 1, 0x00FF, 0xFF00, 0xFFFE, 0xFFFF]:
        yield from over_both(checksum=checksum)
        yield from over_both(checksum=checksum, dst_port=0)
        yield from over_both(checksum=checksum, after=octets(2))
    for src, dst, carry in CARRIERS:
        # Only the sum of the pseudo-header, as a device finds it that is to add the rest.
        for n in range(8):
            partial = word_sum(pseudo_header(src, dst, 17, 8 + n))
            for checksum in [partial, 0xFFFF - partial, partial ^ 1]:
                yield carry(udp(octets(n), checksum=checksum, src=src, dst=dst))
        # A packet whose sum without a checksum is ffff, so that its checksum is ffff and not 0.
        rest = 0xFFFF - word_sum(pseudo_header(src, dst, 17, 12) + udp(src_port=0, checksum=0, src=src, dst=dst))
        for checksum in [None, 0, 0xFFFE]:
            yield carry(udp(src_port=rest, checksum=checksum, src=src, dst=dst))
    for frame in over_both():
        for bit in range(8 * (len(frame) - 12), 8 * len(frame)):
            yield turned(frame, bit)


def with_options(options, **fields):
    """A segment over IPv4 with these option bytes, as an acknowledgement where nothing else is asked for."""
    return packet(tcp(options=bytes.fromhex(options), **fields), protocol=6)


FIN, SYN, RST, PSH, ACK, URG, ECE, CWR, NS = (1 << bit for bit in range(9))
MSS, SCALE, PERMITTED, STAMP = "020405b4", "030307", "0402", "080a0000000100000002"


def blocks(n, left=1):
    """A SACK option of n blocks (RFC 2018, section 3)."""
    edges = range(left, left + 2 * n)
    return f"05{2 + 8 * n:02x}" + "".join(f"{1000 * edge:08x}" for edge in edges)


def tcp_shapes():
    for n in list(range(12)) + [63, 64, 65, 255, 256]:
        yield from tcp_over_both(octets(n, n))
    yield from tcp_over_both(octets(1460))
    for flags in range(0x200):
        yield packet(tcp(flags=flags, urgent=513 if flags & URG else 0), protocol=6)
    for reserved in [0x200, 0x400, 0x800, 0xE00]:
        yield from tcp_over_both(flags=ACK | reserved)
    for port in [0, 1, 80, 255, 256, 0x8000, 0xFFFF]:
        yield from tcp_over_both(src_port=port)
        yield from tcp_over_both(dst_port=port)
    for number in [0, 1, 0x7FFFFFFF, 0x80000000, 0xFFFFFFFF]:
        yield from tcp_over_both(seq=number)
        yield from tcp_over_both(ack=number)
        yield from tcp_over_both(ack=number, flags=SYN)
    for n in [0, 1, 0x7FFF, 0x8000, 0xFFFF]:
        yield from tcp_over_both(window=n)
        yield from tcp_over_both(urgent=n)
        yield from tcp_over_both(urgent=n, flags=ACK | URG)
    for n in range(1, 20):
        yield from tcp_over_both(b"", padding=octets(n))
    for flags in [0x2000, 1, 0x2001]:
        yield packet(tcp(), protocol=6, flags=flags)
    yield packet_ipv6(bytes([6, 0, 0, 0, 0, 0, 0, 1]) + tcp(src=HOST_C, dst=HOST_D), next_header=44)


def tcp_lengths():
    for words in range(16):
        yield from tcp_over_both(octets(4), words=words)
        yield from tcp_over_both(octets(40), words=words)
        yield from tcp_over_both(octets(12), words=words, options=bytes.fromhex("01" * 40))
        yield from tcp_over_both(b"", words=words, options=bytes.fromhex(MSS + STAMP + "0101"))
    for n in range(21):
        yield packet(octets(n, 1), protocol=6)
        yield packet_ipv6(octets(n, 1), next_header=6)


def tcp_truncations():
    syn = bytes.fromhex(MSS + SCALE + PERMITTED + STAMP)
    for frame in [*tcp_over_both(), *tcp_over_both(options=syn, flags=SYN), *tcp_over_both(octets(7), dst_port=0)]:
        for n in range(34, len(frame)):
            yield frame[:n]


def tcp_checksums():
    for checksum in [0, 1, 0x00FF, 0xFF00, 0xFFFE, 0xFFFF]:
        yield from tcp_over_both(checksum=checksum)
        yield from tcp_over_both(checksum=checksum, dst_port=0)
        yield from tcp_over_both(checksum=checksum, flags=SYN | FIN)
        yield from tcp_over_both(checksum=checksum, options=bytes.fromhex("02050000"))
    for src, dst, carry in TCP_CARRIERS:
        # Only the sum of the pseudo-header, as a device finds it that is to add the rest.
        for n in range(8):
            partial = word_sum(pseudo_header(src, dst, 6, 20 + n))
            for checksum in [partial, 0xFFFF - partial, partial ^ 1]:
                yield carry(tcp(octets(n), checksum=checksum, src=src, dst=dst))
        # A segment whose sum without a checksum is ffff or 0 modulo ffff, so that its checksum may be 0 or ffff.
        rest = 0xFFFF - word_sum(pseudo_header(src, dst, 6, 24) + tcp(src_port=0, checksum=0, src=src, dst=dst))
        for checksum in [None, 0, 0xFFFF, 1]:
            yield carry(tcp(src_port=rest, checksum=checksum, src=src, dst=dst))
    # Of another address or another length.
    yield packet(tcp(src=HOST_B), protocol=6)
    yield packet(tcp() + octets(2), protocol=6)
    yield packet(tcp()[:-1], protocol=6)


def tcp_bits():
    """Each bit of a segment turned, with the checksum as it was, and with that of what came out."""
    for carrier in TCP_CARRIERS:
        src, dst, carry = carrier
        segment = tcp(options=bytes.fromhex(MSS + PERMITTED + "0101"), flags=SYN, ack=0, src=src, dst=dst)
        for bit in range(8 * len(segment)):
            other = turned(segment, bit)
            yield carry(other)
            front, back = other[:16], other[18:]
            checksum = 0xFFFF - word_sum(pseudo_header(src, dst, 6, len(other)) + front + b"\0\0" + back)
            yield carry(front + checksum.to_bytes(2, "big") + back)


def tcp_options():
    """Options of each kind and length, by themselves, twice and after others; lists of bytes; what follows an end mark."""
    for kind in [0, 1, 2, 3, 4, 5, 6, 8, 9, 19, 253, 255]:
        for size in list(range(13)) + [18, 26, 34, 40, 255]:
            yield with_options(f"{kind:02x}{size:02x}" + octets(max(min(size, 38) - 2, 0), kind).hex())
    for kind in [0, 1, 2, 3, 4, 5, 8, 253]:
        for size in [0, 1, 2, 3, 4]:
            for more in ["0000", "0101", "0402", "0204", "00ff", "ff00", "0202"]:
                yield with_options(f"{kind:02x}{size:02x}{more}")
    for first in [MSS, SCALE, PERMITTED, STAMP, blocks(1), "0c05010203", "00", "01"]:
        for second in ["02040218", "030300", "03030f", PERMITTED, "080affffffff00000000", blocks(2, 5), "08060a0b0c0d", "fe02"]:
            yield with_options(first + second)
            yield with_options((second + first + "00" + second)[:80])
    for scale in [0, 1, 13, 14, 15, 16, 128, 255]:
        yield with_options(f"0303{scale:02x}", flags=SYN)
    for size in [0, 1, 255, 256, 536, 0xFFFF]:
        yield with_options(f"0204{size:04x}", flags=SYN)
    for stamps in ["0000000000000000", "ffffffffffffffff", "7fffffff80000000", "0000000f000000f0"]:
        yield with_options("080a" + stamps)
    yield with_options(MSS + SCALE + PERMITTED + STAMP, flags=SYN, ack=0)
    yield with_options("0101" + STAMP)
    yield with_options("020405b40204021800ffffff")
    # Headers of 60 bytes that are full.
    for full in ["01" * 40, MSS * 10, "fe28" + "aa" * 38, STAMP * 4, MSS + "0101" + blocks(4), STAMP + "0101" + blocks(3) + "0101"]:
        yield with_options(full)
        yield with_options(full, payload=b"")
        yield with_options(full, words=14)


def tcp_sack():
    """Ranges with and without an acknowledgement, beside SACK permitted, and as many of them as a header holds."""
    for n in range(5):
        for front in ["", PERMITTED, "0101", MSS]:
            ranges = blocks(n) if n else ""
            for flags in [ACK, 0, SYN, SYN | ACK, FIN | ACK, PSH]:
                yield with_options(front + ranges, flags=flags)
            yield with_options(ranges + front, payload=b"")
    for n in range(1, 4):
        yield with_options(blocks(n) + blocks(1, 50))
        yield with_options(blocks(1, 50) + blocks(n))
        yield with_options(blocks(n)[:-2] + "00")
    for edges in ["0000000000000000", "ffffffffffffffff", "0000000200000001", "8000000000000001"]:
        yield with_options("050a" + edges)
    for carrier in TCP_CARRIERS:
        src, dst, carry = carrier
        for options in [PERMITTED + "0101" + blocks(2), STAMP + "0101" + blocks(3), blocks(3) + STAMP + PERMITTED]:
            for flags in [ACK, 0]:
                yield carry(tcp(octets(9), bytes.fromhex(options), flags=flags, src=src, dst=dst), octets(3))


FILES = [udp_shapes, udp_lengths, udp_truncations, udp_checksums, tcp_shapes, tcp_lengths, tcp_truncations,
         tcp_checksums, tcp_bits, tcp_options, tcp_sack]
