"""Tests the edits of single fields: the frames of tests/model.py before and after."""
import unittest

import ip_wire
import model
from ip_wire import Offload, Side, TcpFlag
from model import end

ENDS = [
    (end("192.0.2.1", 4000), end("198.51.100.7", 53), end("203.0.113.9", 5353)),
    (end("2001:db8::1", 4000), end("2001:db8:1::7", 53), end("2001:db8::9", 5353)),
]


class Editing(unittest.TestCase):
    def test_hop_limit(self):
        for src, dst, _ in ENDS:
            frame = model.udp_frame(src, dst, b"data", 64)
            self.assertEqual(ip_wire.set_hop_limit(frame, 1), model.udp_frame(src, dst, b"data", 1))

    def test_dscp(self):
        # An IPv6 header without extension headers has no checksum: its first bytes are 6, the traffic class and the flow label.
        frame = model.udp_frame(*ENDS[1][:2], b"data")
        self.assertEqual(ip_wire.set_dscp(frame, 46), frame[:14] + b"\x6b\x80" + frame[16:])
        edited = ip_wire.parse_frame(ip_wire.set_dscp(model.udp_frame(*ENDS[0][:2], b"data"), 46))
        edited.check()
        self.assertEqual((edited.ip.dscp, edited.ip.ecn), (46, 0))

    def test_addresses_and_ports(self):
        for src, dst, other in ENDS:
            for make in (
                lambda src, dst: model.udp_frame(src, dst, b"data"),
                lambda src, dst: model.tcp_frame(src, dst, 1, 2, TcpFlag.ACK, 9, b"", b"data"),
            ):
                source = ip_wire.set_port(ip_wire.set_addr(make(src, dst), Side.SOURCE, other[0]), Side.SOURCE, other[1])
                self.assertEqual(source, make(other, dst))
                there = ip_wire.set_addr(make(src, dst), Side.DESTINATION, other[0])
                self.assertEqual(ip_wire.set_port(there, Side.DESTINATION, other[1]), make(src, other))

    def test_bytes_and_checksum(self):
        for src, dst, _ in ENDS:
            frame, other = (model.udp_frame(src, dst, data) for data in (b"data", b"more"))
            self.assertEqual(ip_wire.set_bytes(frame, len(frame) - 4, b"more"), other)
            field = len(frame) - 6
            self.assertEqual(ip_wire.fill_checksum(frame[:field] + b"\xab\xcd" + frame[-4:]), frame)

    def test_offload(self):
        def left(src, dst, data):
            """A frame in whose checksum only the pseudo-header is summed."""
            frame = model.udp_frame(src, dst, data)
            field = 0xFFFF - model.checksum(model.pseudo(src[0], dst[0], 17, 8 + len(data)))
            return frame[: -len(data) - 2] + field.to_bytes(2, "big") + data

        for src, dst, other in ENDS:
            # Payload with which this sum is a valid checksum too.
            rest = model.checksum(model.pseudo(src[0], dst[0], 17, 12) + left(src, dst, bytes(4))[-12:])
            data = rest.to_bytes(2, "big") + bytes(2)
            frame = left(src, dst, data)
            for edit, wanted in [
                (lambda **word: ip_wire.set_addr(frame, Side.DESTINATION, other[0], **word), left(src, (other[0], dst[1]), data)),
                (lambda **word: ip_wire.set_port(frame, Side.DESTINATION, other[1], **word), left(src, (dst[0], other[1]), data)),
                (lambda **word: ip_wire.set_bytes(frame, len(frame) - 4, b"more", **word), left(src, dst, b"more")),
            ]:
                self.assertEqual(edit(offload=Offload.OFFLOADED), wanted)
                self.assertEqual(edit(offload=Offload.COMPLETE), edit())
                self.assertNotEqual(edit(), wanted)

    def test_no_such_field(self):
        udp = model.udp_frame(*ENDS[0][:2], b"data")
        for edit in [
            lambda: ip_wire.set_hop_limit(b"", 1),
            lambda: ip_wire.set_dscp(udp, 64),
            lambda: ip_wire.set_addr(udp, Side.SOURCE, ENDS[1][0][0]),
            lambda: ip_wire.set_bytes(udp, len(udp), b"x"),
            lambda: ip_wire.set_bytes(udp, 23, b"\x06"),
        ]:
            with self.assertRaisesRegex(ValueError, "no such field"):
                edit()


PING = bytes.fromhex("0200000000020200000000010800" "450000202160400040119569c0000201c0000202" "a1670007000cfb92" "70696e67")


class Fragments(unittest.TestCase):
    """Scapy packed the fragments."""

    def test_own(self):
        headers = ("4500001c123420004011c499c0000201c0000202", "45000018123400014011e49cc0000201c0000202")
        expected = [PING[:14] + bytes.fromhex(header) + part for header, part in zip(headers, (PING[34:42], PING[42:]))]
        self.assertEqual(list(ip_wire.fragments(PING + bytes(14), 28, 0x1234)), expected)

    def test_forwarded(self):
        self.assertEqual(list(ip_wire.fragments(PING, 32)), [PING])
        self.assertRaisesRegex(ip_wire.WireError, "LK_DONT_FRAGMENT", list, ip_wire.fragments(PING, 31))
        self.assertRaisesRegex(ip_wire.WireError, "LK_NO_HEADER", list, ip_wire.fragments(b"", 1500))
        self.assertRaises(ValueError, list, ip_wire.fragments(PING, 1500, -1))

    def test_ipv6(self):
        ethernet, payload = bytes.fromhex("020000000002020000000001" "86dd"), bytes(range(24))
        addrs = bytes.fromhex("20010db800000000000000000000000120010db8000000000000000000000002")
        packet = ethernet + bytes.fromhex("6000000000183240") + addrs + payload
        own = bytes.fromhex("6000000000102c40") + addrs
        expected = [
            ethernet + own + bytes.fromhex(header + "ffffffff") + payload[at : at + 8]
            for header, at in (("32000001", 0), ("32000009", 8), ("32000010", 16))
        ]
        self.assertEqual(list(ip_wire.fragments(packet, 63, 0xFFFFFFFF)), expected)
        self.assertEqual(list(ip_wire.fragments(packet, 64, 1)), [packet])
        self.assertRaisesRegex(ip_wire.WireError, "LK_DONT_FRAGMENT", list, ip_wire.fragments(packet, 63))
        self.assertRaisesRegex(ip_wire.WireError, "LK_BAD_FIELD", list, ip_wire.fragments(PING, 28, 65536))


if __name__ == "__main__":
    unittest.main()
