"""Tests packets of captures by their link type, and the headers of an IPv6 packet."""
import unittest

import ip_wire
from ip_wire import Ethernet, Ipv6Header, Link, Network, Reason, Rejected, Transport
from model import CLIENT, SERVER

# UDP from port 54731 to 5353 with the payload "ping". The UDP checksums are not computed.
IPV4 = "4500002055fd40004011e6cd7f0000017f000001d5cb14e9000cfe1f70696e67"
IPV6 = "60000000000c114020010db800000000000000000000000120010db8000000000000000000000002d5cb14e9000c87f570696e67"
ADDRESSES = "020000000002020000000001"
# A link type, a link-layer header and a packet, and what is found. The first two rows are captures of tcpdump on the
# loopback device. The others are by hand: www.tcpdump.org/linktypes.html, and IEEE 802.1Q.
LINKS = [
    (113, "00000304000600000000000000000800", IPV4, Link(16, 0x0800, ())),
    (276, "0800000000000001030400060000000000000000", IPV4, Link(20, 0x0800, ())),
    (0, "02000000", IPV4, Link(4, 0x0800, ())),
    (0, "0000001c", IPV6, Link(4, 0x86DD, ())),
    (108, "00000018", IPV6, Link(4, 0x86DD, ())),
    (101, "", IPV6, Link(0, 0x86DD, ())),
    (228, "", IPV4, Link(0, 0x0800, ())),
    (229, "", IPV6, Link(0, 0x86DD, ())),
    (1, ADDRESSES + "0800", IPV4, Link(14, 0x0800, ())),
    (1, ADDRESSES + "810000640800", IPV4, Link(18, 0x0800, (100,))),
    (1, ADDRESSES + "88a8e0c88100006486dd", IPV6, Link(22, 0x86DD, (0xE0C8, 100))),
]
REJECTED = [
    (105, ADDRESSES + "0800" + IPV4, Reason.UNKNOWN_LINK),
    (2**32 - 1, IPV4, Reason.UNKNOWN_LINK),
    (1, ADDRESSES + "08", Reason.TOO_SHORT),
    (1, ADDRESSES + "8100006408", Reason.TOO_SHORT),
    (101, "55000020", Reason.BAD_VERSION),
    (101, "", Reason.TOO_SHORT),
    (228, IPV6, Reason.BAD_VERSION),
    (229, "", Reason.TOO_SHORT),
]


class Links(unittest.TestCase):
    def test_headers(self):
        for link_type, header, packet, link in LINKS:
            with self.subTest(link_type, header=header):
                data = bytes.fromhex(header + packet)
                self.assertEqual(ip_wire.parse_link(link_type, data), link)
                frame = ip_wire.parse_linktype(link_type, data)
                network = Network.IPV4 if link.type == 0x0800 else Network.IPV6
                self.assertEqual((frame.network, frame.network_offset, frame.src.port), (network, link.offset, 54731))
                self.assertEqual((frame.reason, frame.transport, frame.payload), (None, Transport.UDP, b"ping"))
                self.assertEqual(frame.ethernet, Ethernet(CLIENT, SERVER, link.type) if link_type == 1 else None)

    def test_no_ip(self):
        """A third tag, and an EtherType of no packet that is parsed."""
        for header, offset, ethertype in [("810000018100000281000003", 22, 0x8100), ("0026424203000000", 14, 0x0026)]:
            frame = ip_wire.parse_linktype(1, bytes.fromhex(ADDRESSES + header))
            self.assertEqual((frame.network, frame.ethernet.type, frame.payload_offset), (None, ethertype, offset))

    def test_rejected(self):
        for link_type, octets, reason in REJECTED:
            with self.subTest(link_type, octets=octets):
                data = bytes.fromhex(octets)
                with self.assertRaises(Rejected) as caught:
                    ip_wire.parse_link(link_type, data)
                self.assertEqual(caught.exception.reason, reason)
                frame = ip_wire.parse_linktype(link_type, data)
                self.assertEqual((frame.reason, frame.ethernet, frame.payload), (reason, None, data))

    def test_captured(self):
        data = bytes.fromhex(ADDRESSES + "810000640800" + IPV4)
        for count, reason, start in [(48, None, 46), (40, Reason.HEADER_CUT, 38), (17, Reason.HEADER_CUT, 0)]:
            frame = ip_wire.parse_linktype(1, memoryview(data)[:count], len(data))
            self.assertEqual((frame.reason, frame.payload), (reason, data[start:count]))
        self.assertEqual(ip_wire.parse_linktype(1, data, 17).reason, Reason.TOO_SHORT)
        for length in (-1, 1 << 64):
            self.assertRaises(ValueError, ip_wire.parse_linktype, 1, data, length)
        self.assertRaises(TypeError, ip_wire.parse_linktype, 1, data, "50")


ENDS = "20010db800000000000000000000000120010db8000000000000000000000002"
FIRST = "6000000000{:02x}{:02x}40" + ENDS  # an IPv6 header with this payload length and next header
# By hand, from RFC 8200, sections 4.3 to 4.6, and RFC 6564 for a length of more than one unit: the protocol, offset,
# length and next header of each header, and why the next one is rejected.
PACKETS = [
    (IPV6, [(41, 0, 40, 17)], None),
    (FIRST.format(16, 0) + "1100050200000100" + "d5cb14e900080000", [(41, 0, 40, 0), (0, 40, 8, 17)], None),
    (FIRST.format(40, 0) + "2b00050200000100" + "3c01" + "00" * 14 + "2c00010400000000" + "11000001000000ff",
     [(41, 0, 40, 0), (0, 40, 8, 43), (43, 48, 16, 60), (60, 64, 8, 44), (44, 72, 8, 17)], None),
    (FIRST.format(16, 44) + "1100000800000001" + "d5cb14e900080000", [(41, 0, 40, 44), (44, 40, 8, 59)], None),
    (FIRST.format(16, 51) + "1101000000000000" + "0000000000000000", [(41, 0, 40, 51), (51, 40, 12, 17)], None),
    (FIRST.format(16, 50) + "1100000000000000" + "0000000000000000", [(41, 0, 40, 50)], None),
    (FIRST.format(0, 0), [(41, 0, 40, 0)], Reason.BAD_LENGTH),
    (FIRST.format(16, 60) + "11010000000000", [(41, 0, 40, 60)], Reason.BAD_LENGTH),
    (FIRST.format(7, 60) + "1100000000000000", [(41, 0, 40, 60)], Reason.BAD_LENGTH),
    ("4" + FIRST.format(0, 59)[1:], [], Reason.BAD_VERSION),
    (IPV6[:78], [], Reason.TOO_SHORT),
    ("", [], Reason.TOO_SHORT),
]  # fmt: skip


class Ipv6Headers(unittest.TestCase):
    def test_headers(self):
        for octets, headers, reason in PACKETS:
            with self.subTest(octets):
                steps, found = ip_wire.ipv6_headers(bytearray.fromhex(octets)), []
                try:
                    found += [next(steps) for _ in headers]
                    self.assertIsNone(next(steps, None))
                    self.assertIsNone(reason)
                except Rejected as error:
                    self.assertEqual(error.reason, reason)
                wanted = [Ipv6Header(offset, length, protocol, after) for protocol, offset, length, after in headers]
                self.assertEqual(found, wanted)
        self.assertRaises(TypeError, list, ip_wire.ipv6_headers(None))


if __name__ == "__main__":
    unittest.main()
