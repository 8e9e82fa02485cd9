"""Frames with IPv4, IPv6 and ARP packets, and of other types: right ones, and what is nearly right."""
from packets import (
    ARP, DATA, DST, HOST_A, IPV4, IPV6, SRC, arp, ethernet, groups, header, header_ipv6, octets, packet,
    packet_ipv6, turned, word_sum,
)


def shapes():
    yield packet()
    for n in [0, 1, 2, 3, 8, 26, 46, 64, 100, 255, 256]:
        yield packet(octets(n))
    yield packet(octets(1480))
    for protocol in range(256):
        yield packet(protocol=protocol)
    for service in [1, 2, 3, 4, 0x10, 0xB8, 0xFC, 0xFF]:
        yield packet(service=service)
    for hop_limit in [0, 1, 2, 128, 255]:
        yield packet(hop_limit=hop_limit)
    for ident in [1, 0xFF, 0x100, 0xFFFF]:
        yield packet(ident=ident)
    for address in ["00000000", "ffffffff", "7f000001", "e0000001", "0a000001", "01020304", "64c8ff09"]:
        yield packet(src=bytes.fromhex(address))
        yield packet(dst=bytes.fromhex(address))
    for address in ["ffffffffffff", "000000000000", "01005e000001", "abcdef012345"]:
        yield ethernet(IPV4, header() + DATA, dst=bytes.fromhex(address))
        yield ethernet(IPV4, header() + DATA, src=bytes.fromhex(address))


def truncations():
    for frame in [packet(), packet(octets(10), ident=258, flags=0x2203, hop_limit=26),
                  packet(options=bytes.fromhex("94040000"), padding=b"\0" * 6), packet(octets(26), version=6),
                  packet(octets(26), options=octets(40, 7)), packet(octets(8), service=3, checksum=0),
                  ethernet(0x0806, octets(28)), ethernet(IPV6, octets(48))]:
        for n in range(len(frame)):
            yield frame[:n]


def versions_and_lengths():
    for version in range(16):
        yield packet(version=version)
    for words in range(16):
        yield packet(words=words)
        yield packet(octets(60), words=words)
        yield packet(octets(60), words=words, checksum=0)
    for total in list(range(32)) + [0x1800, 0x7FFF, 0x8000, 0xFFFF]:
        yield packet(total=total)
    for total in range(18, 44):
        yield packet(options=octets(12, 1), payload=octets(8), total=total)


def options():
    for n in range(4, 44, 4):
        yield packet(options=octets(n, 7))
        yield packet(options=octets(n, 7), payload=b"")
        yield packet(options=octets(n, 7), padding=octets(5))
        yield packet(options=octets(n, 7), checksum=0x1234)
    for option in ["01010101", "00000000", "94040000", "8304017f", "07030400", "83ffffff"]:
        yield packet(options=bytes.fromhex(option))


def fragments():
    for flags in range(0, 0x10000, 0x2000):
        for offset in [0, 1, 2, 0x203, 0xFFF, 0x1000, 0x1FFE, 0x1FFF]:
            yield packet(octets(16), flags=flags | offset, ident=258)
    for ident in [0, 1, 0x8000, 0xFFFF]:
        yield packet(flags=0x2000, ident=ident)
        yield packet(flags=0x0001, ident=ident, options=bytes.fromhex("94040000"), padding=b"\0\0")
    yield packet(flags=0x2000, checksum=0)
    yield packet(flags=0x2001, version=5)


def checksums():
    right = packet()
    for bit in range(160):
        yield turned(right, 14 * 8 + bit)
    for checksum in [0, 1, 0x00FF, 0xFF00, 0xFFFE, 0xFFFF]:
        yield packet(checksum=checksum)
    for protocol in [6, 17]:
        yield packet(protocol=protocol, checksum=0)
    # The sum of these headers without their checksum is ffff, so the checksum is 0 or ffff.
    for low in range(0x10000):
        if word_sum(header(ident=low, checksum=0)) == 0xFFFF:
            for checksum in [0, 0xFFFF, 1]:
                yield packet(ident=low, checksum=checksum)
    for n in range(64):
        yield packet(octets(n), ident=1009 * n % 65536, hop_limit=n, src=octets(4, n), dst=octets(4, 3 * n))


def bits():
    """Each bit of a frame turned, with the checksum as it was."""
    for frame in [packet(options=bytes.fromhex("94040000")), packet(flags=0x2010)[:34]]:
        for bit in range(8 * len(frame)):
            yield turned(frame, bit)


def padding():
    for n in range(48):
        yield packet(padding=b"\0" * n)
        yield packet(octets(3), padding=octets(n, 200))
    for n in [1, 6, 18]:
        yield packet(b"", padding=octets(n))
        yield packet(flags=0x2000, padding=octets(n))
        yield packet(checksum=0, padding=octets(n))


def types():
    inner = header() + DATA
    for ethertype in [0, 1, 46, 1500, 0x0600, 0x07FF, 0x0801, 0x0805, 0x0807, 0x0842, 0x8035, 0x8100, 0x8137,
                      0x86DC, 0x86DE, 0x8808, 0x8847, 0x8863, 0x8864, 0x888E, 0x88A8, 0x88CC, 0x9100, 0xFFFF]:
        yield ethernet(ethertype)
        yield ethernet(ethertype, inner)
    for bit in range(16):
        yield ethernet(IPV4 ^ 1 << bit, inner)
    # 802.1Q: the tag is not taken apart.
    yield ethernet(0x8100, bytes.fromhex("00050800") + inner)
    for n in range(16):
        yield octets(n, 3)


def ipv6_shapes():
    yield packet_ipv6()
    for n in [0, 1, 2, 3, 8, 26, 64, 255, 256, 1460]:
        yield packet_ipv6(octets(n))
    for next_header in range(256):
        yield packet_ipv6(next_header=next_header)
    for service in [1, 2, 0x0F, 0x10, 0xB8, 0xF0, 0xFF]:
        yield packet_ipv6(service=service)
    for label in [1, 0xFF, 0x100, 0xFFFF, 0x10000, 0xFFFFF]:
        yield packet_ipv6(label=label)
        yield packet_ipv6(label=label, service=0xFF)
    for hop_limit in [0, 1, 2, 128, 255]:
        yield packet_ipv6(hop_limit=hop_limit)


def ipv6_addresses():
    """Runs of zero groups of every place and length, other groups, and mapped addresses."""
    for first in range(8):
        for last in range(first, 9):
            yield packet_ipv6(src=groups(0 if first <= at < last else at + 1 for at in range(8)))
    for zeros in range(256):
        yield packet_ipv6(dst=groups(0 if zeros >> at & 1 else 0xA00 + at for at in range(8)))
    for group in [1, 0xF, 0x10, 0xFF, 0x100, 0xFFF, 0x1000, 0xFFFF]:
        yield packet_ipv6(src=groups([group] * 8), dst=groups([group, 0] * 4))
    for front in [[0] * 5 + [0xFFFF], [0] * 6, [0] * 4 + [0xFFFF, 0], [0] * 5 + [0xFFFE], [1] + [0] * 4 + [0xFFFF]]:
        for low in [0, 1, 0x7F000001, 0x01020304, 0xC0A80101, 0xFFFFFFFF]:
            yield packet_ipv6(src=groups(front + [low >> 16, low & 0xFFFF]))


def ipv6_truncations():
    for frame in [packet_ipv6(), packet_ipv6(octets(10), next_header=44, padding=b"\0" * 6), packet_ipv6(version=4)]:
        for n in range(14, len(frame)):
            yield frame[:n]


def ipv6_versions_and_lengths():
    for version in range(16):
        yield packet_ipv6(version=version)
        yield ethernet(IPV4, header_ipv6(version=version) + DATA)
        yield ethernet(IPV6, header(version=version) + DATA + octets(30))
    for payload_len in list(range(32)) + [0x0400, 0x7FFF, 0x8000, 0xFFD7, 0xFFD8, 0xFFFF]:
        yield packet_ipv6(octets(16), payload_len=payload_len)
        yield packet_ipv6(octets(16), payload_len=payload_len, next_header=44)
    for n in range(24):
        yield packet_ipv6(padding=b"\0" * n)
        yield packet_ipv6(octets(3), padding=octets(n, 200), next_header=44)


def ipv6_fragments():
    for fields in list(range(8)) + [0x08, 0x0A01, 0x7FF9, 0x8000, 0xFFF8, 0xFFFE, 0xFFFF]:
        for ident in [0, 1, 67890, 0xFFFFFFFF]:
            fragment = bytes([17, 0]) + fields.to_bytes(2, "big") + ident.to_bytes(4, "big")
            yield packet_ipv6(fragment + DATA, next_header=44)
    for n in range(10):
        yield packet_ipv6(octets(n), next_header=44)
    for reserved in [1, 0x80, 0xFF]:
        yield packet_ipv6(bytes([6, reserved]) + octets(6, 9), next_header=44)


def ipv6_bits():
    """Each bit of a frame turned."""
    frame = packet_ipv6(bytes([17, 0]) + octets(6, 5) + DATA, next_header=44, service=0xA5, label=0x12345)
    for bit in range(96, 8 * len(frame)):
        yield turned(frame, bit)


def arp_shapes():
    nobody = b"\0" * 4
    for message in [arp(), arp(2, tha=DST), arp(tpa=HOST_A), arp(2, tha=b"\xff" * 6, tpa=HOST_A), arp(2, tha=SRC, tpa=HOST_A),
                    arp(spa=nobody), arp(spa=nobody, tpa=nobody), arp(sha=b"\xff" * 6, spa=b"\xff" * 4)]:
        for padding in [b"", octets(1), b"\0" * 18, octets(60)]:
            yield ethernet(ARP, message + padding, dst=b"\xff" * 6)
    for operation in [0, 1, 2, 3, 4, 8, 9, 255, 256, 257, 512, 0xFFFF]:
        yield ethernet(ARP, arp(operation))
        yield ethernet(ARP, arp(operation, hardware=6))
    for hardware in [0, 2, 6, 7, 15, 255, 256, 257, 0xFFFF]:
        yield ethernet(ARP, arp(hardware=hardware) + octets(3))
    for protocol in [0, 0x0801, 0x0806, IPV6, 0x86DC, 0x8808, 0xFFFF]:
        yield ethernet(ARP, arp(protocol=protocol) + octets(3))
        yield ethernet(protocol, arp())


def arp_lengths():
    """Addresses of other lengths, in packets that they just fit, and in those a byte shorter or longer."""
    for hardware_len in [0, 1, 4, 5, 6, 7, 8, 16, 255]:
        for protocol_len in [0, 1, 3, 4, 5, 6, 16, 255]:
            h, p = octets(hardware_len, 1), octets(protocol_len, 100)
            message = arp(hardware_len=hardware_len, protocol_len=protocol_len, sha=h, spa=p, tha=h[::-1], tpa=p[::-1])
            yield ethernet(ARP, message)
            yield ethernet(ARP, message[:-1])
            yield ethernet(ARP, message + b"\0")
    for hardware_len in range(16):
        yield ethernet(ARP, arp(hardware_len=hardware_len))
        yield ethernet(ARP, arp(protocol_len=hardware_len))
        yield ethernet(ARP, arp(hardware_len=hardware_len, protocol_len=10 - hardware_len if hardware_len <= 10 else 0))


def arp_truncations():
    for message in [arp(), arp(2, hardware_len=1, protocol_len=1, sha=b"\n", spa=b"\v", tha=b"\f", tpa=b"\r")]:
        for n in range(len(message)):
            yield ethernet(ARP, message[:n])


def arp_bits():
    """Each bit of a packet turned."""
    message = arp(2, tha=DST)
    for bit in range(8 * len(message)):
        yield ethernet(ARP, turned(message, bit) + b"\0\0")


FILES = [shapes, truncations, versions_and_lengths, options, fragments, checksums, bits, padding, types, ipv6_shapes,
         ipv6_addresses, ipv6_truncations, ipv6_versions_and_lengths, ipv6_fragments, ipv6_bits, arp_shapes,
         arp_lengths, arp_truncations, arp_bits]
