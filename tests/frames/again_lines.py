"""The lines `again`, packets that are parsed and emitted again under each choice of checksums, with the bytes that are expected.

A choice verifies checksums, computes them, does both or neither. tests/frames/packets.py builds each packet and its expected copy. So no
answer comes from the library. The lines are the same in each run. written.py writes them.
"""
import ipaddress
import itertools
from collections import namedtuple

import packets

# The letters of the choices: neither, verify (Rx), compute (Tx), both.
CHOICES = "nrtb"
VERIFY, COMPUTE = "rb", "tb"
# The protocols in the order of their letters in an operand.
PROTOCOLS = ["ipv4", "udp", "tcp", "icmpv4", "icmpv6"]
OLDS = [0, 255, 0x5A]

# A packet: the words before the choices, the protocol of its checksum or None, where its checksum begins, the packet with a valid
# checksum, the expected copy with a checksum, and whether a checksum of 0 means that there is none.
Row = namedtuple("Row", "words protocol place packet copy may_be_left_out", defaults=(False,))


def addresses(src, dst):
    return f"{ipaddress.ip_address(src)} {ipaddress.ip_address(dst)}"


def ip_rows():
    # Of an IPv4 header, these fields are not kept: identification, flags, service and options.
    fields = {"protocol": 17, "hop_limit": 3, "src": bytes([17, 18, 19, 20]), "dst": bytes([33, 34, 35, 36])}
    for more in [{}, {"ident": 0xA5C3, "flags": 0, "service": 0x5A}, {"options": b"\1\1\1\0"}]:
        packet = packets.header(4, **fields, **more) + packets.DATA
        copy = packets.header(4, **fields)
        yield from (Row(words, "ipv4", 10, packet, copy) for words in ["ipv4", "ip"])
    for more in [{}, {"label": 0x5A3C1, "service": 0xA5}]:
        yield Row("ip", None, 0, packets.header_ipv6(4, **more) + packets.DATA, packets.header_ipv6(4))


def transport_rows():
    for src, dst, _ in packets.CARRIERS:
        ends = {"src": src, "dst": dst}
        for payload in [packets.DATA, b"", b"\xa5\x5a\x01"]:
            udp, tcp = packets.udp(payload, **ends), packets.tcp(payload, **ends)
            yield Row(f"udp {addresses(src, dst)}", "udp", 6, udp, udp, len(src) == 4)
            yield Row(f"tcp {addresses(src, dst)}", "tcp", 16, tcp, tcp)
        syn = packets.tcp(b"", b"\2\4\5\xb4", flags=2, ack=0, **ends)
        yield Row(f"tcp {addresses(src, dst)}", "tcp", 16, syn, syn)


def with_word(octets, place, word):
    return octets[:place] + word.to_bytes(2, "big") + octets[place + 2 :]


def variants(row):
    """The packet with its checksum, with others, and with none, each with whether it parses if the checksum is verified."""
    yield row.packet, True
    if row.protocol is not None:
        valid = int.from_bytes(row.packet[row.place : row.place + 2], "big")
        for wrong in [0x1234, valid ^ 1, valid ^ 0x8000, 0xFFFF - valid]:
            yield with_word(row.packet, row.place, wrong), False
        yield with_word(row.packet, row.place, 0), row.may_be_left_out


def choices(protocol):
    """One choice for this protocol, and another for all others; the choice, and the operand."""
    for choice, other in itertools.product(CHOICES, repeat=2):
        yield choice, "".join(choice if name == protocol else other for name in PROTOCOLS)


def lines():
    for row in [*ip_rows(), *transport_rows()]:
        olds = itertools.cycle(OLDS)
        for (choice, letters), (packet, verifies) in itertools.product(choices(row.protocol), variants(row)):
            line = f"again {row.words} {letters} {next(olds)} {packet.hex()}"
            if row.protocol is None:
                yield line, row.copy.hex()
            elif choice in VERIFY and not verifies:
                yield line, "err"
            else:
                yield line, (row.copy if choice in COMPUTE else with_word(row.copy, row.place, 0)).hex()
        # What is too short parses under no choice.
        for letters in ["nnnnn", "bbbbb"]:
            for size in [0, 1, 7]:
                yield f"again {row.words} {letters} 0 {row.packet[:size].hex() or '-'}", "err"
    for operands in ["", "udp nnnnn 0 00", "ip 192.0.2.1 192.0.2.2 nnnnn 0 00", "icmp nnnnn 0 00", "ip nnnn 0 00", "ip nnnnnn 0 00",
                     "ip nnxnn 0 00", "ip nnnnn 256 00", "ip nnnnn 0 0", "udp 192.0.2.1 ::1 nnnnn 0 00"]:
        yield f"again {operands}".rstrip(), "malformed"


def calls():
    """The answer to each line, by kind."""
    return {"again": dict(lines())}
