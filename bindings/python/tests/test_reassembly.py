"""Tests packets in fragments. Scapy packed and cut them."""
import unittest

import ip_wire

LINKS = {"4": "0200000000020200000000010800", "6": "02000000000202000000000186dd"}


def frame(packet):
    return bytes.fromhex(LINKS[packet[0]] + packet)


WHOLE = frame("45000034123400004011e481c0000201c00002020fa000070020e772000102030405060708090a0b0c0d0e0f1011121314151617")
FIRST = frame("45000024123420004011c491c0000201c00002020fa000070020e7720001020304050607")
LAST = frame("45000024123400024011e48fc0000201c000020208090a0b0c0d0e0f1011121314151617")
OTHER_LAST = frame("45000024123400024011e48fc0000201c000020209090a0b0c0d0e0f1011121314151617")
ADDRS = "20010db800000000000000000000000120010db8000000000000000000000002"
WHOLE6 = frame(f"6000000000201140{ADDRS}0fa0000700201002000102030405060708090a0b0c0d0e0f1011121314151617")
FIRST6 = frame(f"6000000000182c40{ADDRS}11000001123456780fa00007002010020001020304050607")
LAST6 = frame(f"6000000000182c40{ADDRS}110000101234567808090a0b0c0d0e0f1011121314151617")


class Reassembly(unittest.TestCase):
    def test_whole_packets(self):
        reassembler = ip_wire.Reassembler()
        for first, last, whole in ((FIRST, LAST, WHOLE), (LAST, FIRST, WHOLE), (LAST6, FIRST6, WHOLE6)):
            self.assertIsNone(reassembler.reassemble(first))
            self.assertIsNone(reassembler.reassemble(bytearray(first)))
            self.assertEqual(reassembler.reassemble(last), whole)
        self.assertEqual(reassembler.reassemble(WHOLE), WHOLE)

    def test_own_fragments(self):
        ends = ip_wire.parse_endpoint("192.0.2.1:4000"), ip_wire.parse_endpoint("192.0.2.2:53")
        headers = ip_wire.Headers(ip_wire.Ethernet(bytes(6), bytes(6)), *ends)
        long = ip_wire.emit_udp(headers, bytes(range(256)) * 255)
        reassembler, fragments = ip_wire.Reassembler(1), list(ip_wire.fragments(long, 1500, 7))
        *found, whole = [reassembler.reassemble(one) for one in reversed(fragments)]
        self.assertEqual(found, [None] * (len(fragments) - 1))
        self.assertEqual(ip_wire.parse_frame(whole).payload, ip_wire.parse_frame(long).payload)

    def test_time(self):
        reassembler = ip_wire.Reassembler(2, 64)
        self.assertIsNone(reassembler.reassemble(FIRST, 1000))
        self.assertIsNone(reassembler.reassemble(LAST6, 1000))
        self.assertEqual(reassembler.expire(60_999), [])
        self.assertEqual(reassembler.expire(61_000), [FIRST])
        self.assertEqual(reassembler.expire(61_000), [])
        self.assertIsNone(reassembler.reassemble(LAST, 61_000))

    def test_failures(self):
        reassembler = ip_wire.Reassembler(2, 16)
        for data, name in ((b"", "LK_NO_HEADER"), (WHOLE6, "LK_NO_HEADER"), (LAST, "LK_PAYLOAD_TOO_LONG")):
            self.assertRaisesRegex(ip_wire.WireError, name, reassembler.reassemble, data)
        reassembler = ip_wire.Reassembler(2)
        self.assertIsNone(reassembler.reassemble(LAST, 0))
        self.assertRaisesRegex(ip_wire.WireError, "LK_DROPPED", reassembler.reassemble, OTHER_LAST, 0)
        self.assertRaisesRegex(ip_wire.WireError, "LK_DROPPED", reassembler.reassemble, FIRST, 59_999)
        self.assertRaises(ValueError, ip_wire.Reassembler, -1)
        self.assertRaises(ValueError, reassembler.reassemble, FIRST, -1)


if __name__ == "__main__":
    unittest.main()
