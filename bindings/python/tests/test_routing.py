"""Tests what routers and NATs do: the frames of tests/model.py before and after."""
import random
import unittest
from ipaddress import IPv4Address, ip_address, ip_interface, ip_network

import ip_wire
import model
from ip_wire import Endpoint, Nat, Offload, Rejected, Rejection, Route, Routes, Side, TcpFlag, WireError
from model import CLIENT, SERVER, end

INSIDE, REMOTE, OUTSIDE = end("10.0.0.2", 5000), end("192.0.2.1", 53), end("203.0.113.9", 5000)
ENDS = [(INSIDE, REMOTE), (end("2001:db8::2", 5000), end("2001:db8:1::1", 53))]
NEXT = bytes.fromhex("0200000000aa"), bytes.fromhex("0200000000bb")


class Case(unittest.TestCase):
    def rejects(self, rejection, call, *arguments):
        with self.assertRaises(Rejected) as caught:
            call(*arguments)
        self.assertEqual(caught.exception.reason, rejection)
        self.assertIn(rejection.name, str(caught.exception))


class Forwarding(Case):
    def test_forward(self):
        for src, dst in ENDS:
            for hops in (2, 64, 255):
                before = model.udp_frame(src, dst, b"data", hops)
                after = NEXT[1] + NEXT[0] + model.udp_frame(src, dst, b"data", hops - 1)[12:]
                self.assertEqual(ip_wire.forward(before + b"\0", *NEXT), after + b"\0")
            self.rejects(Rejection.HOP_LIMIT_TOO_LOW, ip_wire.forward, model.udp_frame(src, dst, b"", 1), *NEXT)
        wrong = bytearray(model.udp_frame(*ENDS[0], b""))
        wrong[24] ^= 1
        for data, rejection in [(b"", Rejection.NOT_IP), (CLIENT + SERVER + b"\x08\x06" + bytes(28), Rejection.NOT_IP),
                                (wrong[:30], Rejection.BAD_HEADER), (wrong, Rejection.WRONG_CHECKSUM)]:  # fmt: skip
            self.rejects(rejection, ip_wire.forward, data, *NEXT)

    def test_clamp_mss(self):
        def syn(ends, size):
            return model.tcp_frame(*ends, 1, 0, TcpFlag.SYN, 9, bytes([2, 4, size >> 8, size & 255]))

        for ends in ENDS:
            for size, limit, left in [(1460, 1260, 1260), (1460, 1460, 1460), (536, 1460, 536), (1460, 0, 0)]:
                self.assertEqual(ip_wire.clamp_mss(syn(ends, size), limit), syn(ends, left))
            left = ip_wire.clamp_mss(syn(ends, 1460), 1260, offload=Offload.OFFLOADED)
            self.assertEqual(left, syn(ends, 1460)[:-2] + b"\x04\xec")
            ack = model.tcp_frame(*ends, 1, 0, TcpFlag.ACK, 9, b"\2\4\5\xb4")
            self.assertEqual(ip_wire.clamp_mss(ack, 1260), ack)
        self.assertEqual(ip_wire.clamp_mss(b"", 0), b"")

    def test_routes_against_ipaddress(self):
        rng = random.Random(1)
        for width, kind in ((32, "10.0.0.0"), (128, "2001:db8::")):
            base = int(ip_address(kind))
            blocks = [ip_interface((base + rng.getrandbits(24), rng.randrange(width - 28, width + 1))) for _ in range(200)]
            routes = Routes(Route(block, place) for place, block in enumerate(blocks))
            for _ in range(500):
                addr = ip_address(base + rng.getrandbits(24))
                found = [(-block.network.prefixlen, place) for place, block in enumerate(blocks) if addr in block.network]
                route = routes.choose(addr)
                self.assertEqual(route and route.interface, min(found)[1] if found else None)

    def test_check_source(self):
        routes = Routes([
            Route(ip_network("10.0.0.0/8"), 1),
            Route(ip_interface("192.0.2.0/24"), 2, ip_address("10.0.0.1")),
            Route(ip_network("2001:db8::/32"), 2),
        ])  # fmt: skip
        self.assertEqual(routes.choose(ip_address("192.0.2.9")), routes.routes[1])
        self.assertIsNone(routes.choose(ip_address("192.0.3.9")))
        for src, interface, rejection in [
            ("10.1.2.3", 1, None),
            ("2001:db8::1", 2, None),
            ("10.1.2.3", 2, Rejection.OTHER_INTERFACE),
            ("192.0.3.1", 1, Rejection.NO_ROUTE_TO_SOURCE),
            ("127.0.0.1", 1, Rejection.MARTIAN),  # RFC 1122, section 3.2.1.3
            ("255.255.255.255", 1, Rejection.MARTIAN),
            ("::1", 1, Rejection.MARTIAN),  # RFC 4291, section 2.5.3
            ("ff02::1", 1, Rejection.MARTIAN),
        ]:
            if rejection is None:
                routes.check_source(ip_address(src), interface)
            else:
                self.rejects(rejection, routes.check_source, ip_address(src), interface)
        self.assertIsNone(Routes([]).choose(ip_address("::1")))


class Translating(Case):
    def test_one_packet(self):
        syn = 7, 0, TcpFlag.SYN, 9
        for side, after in [(Side.SOURCE, (OUTSIDE, REMOTE)), (Side.DESTINATION, (INSIDE, OUTSIDE))]:
            for build, rest in [(model.udp_frame, (b"data",)), (model.tcp_frame, syn)]:
                frame = ip_wire.translate(build(INSIDE, REMOTE, *rest), side, Endpoint(*OUTSIDE))
                self.assertEqual(frame, build(*after, *rest))
            ping = model.icmp_frame(INSIDE[0], REMOTE[0], 8, 0, 0x12340001, b"data")
            pong = model.icmp_frame(after[0][0], after[1][0], 8, 0, 5000 << 16 | 1, b"data")
            self.assertEqual(ip_wire.translate(ping, side, Endpoint(*OUTSIDE)), pong)
        udp = model.udp_frame(INSIDE, REMOTE, b"data")
        for frame, to, rejection in [
            (udp, end("::1", 1), Rejection.NO_IPV4),
            (udp, end("203.0.113.9", 0), Rejection.PORT_ZERO),
            (udp[:-1] + b"b", OUTSIDE, Rejection.BAD_TRANSPORT),
            (model.frame(model.ip(INSIDE[0], REMOTE[0], 47, b"data")), OUTSIDE, Rejection.OTHER_PROTOCOL),
            (model.udp_frame(*ENDS[1], b""), OUTSIDE, Rejection.NOT_IP),
        ]:
            self.rejects(rejection, ip_wire.translate, frame, Side.DESTINATION, Endpoint(*to))

    def test_mappings(self):
        nat = Nat(OUTSIDE[0], 5000, 1, key=bytes(range(16)), udp_timeout=1000)
        out, back = model.udp_frame(INSIDE, REMOTE, b"a"), model.udp_frame(REMOTE, OUTSIDE, b"b")
        self.rejects(Rejection.NO_MAPPING, nat.translate_in, back, 0)
        self.assertEqual(nat.translate_out(out, 0), model.udp_frame(OUTSIDE, REMOTE, b"a"))
        self.assertEqual(nat.translate_in(back, 999), model.udp_frame(REMOTE, INSIDE, b"b"))
        other = model.udp_frame(end("10.0.0.3", 5000), REMOTE, b"")
        self.rejects(Rejection.NO_FREE_PORT, nat.translate_out, other, 999)
        self.assertIsNone(nat.shrink_reach(999))
        self.assertEqual(nat.translate_in(back, 999), model.udp_frame(REMOTE, INSIDE, b"b"))
        self.rejects(Rejection.NO_MAPPING, nat.translate_in, back, 1000)
        self.assertEqual(nat.translate_out(other, 1000), model.udp_frame(OUTSIDE, REMOTE, b""))
        # UDP, TCP and ICMP have their own mappings, and the identifier of an echo is its port.
        ping, pong = ((8, 0, 5000 << 16, b""), (0, 0, 5000 << 16, b""))
        self.assertEqual(nat.translate_out(model.icmp_frame(INSIDE[0], REMOTE[0], *ping), 0),
                         model.icmp_frame(OUTSIDE[0], REMOTE[0], *ping))  # fmt: skip
        self.assertEqual(nat.translate_in(model.icmp_frame(REMOTE[0], OUTSIDE[0], *pong), 0),
                         model.icmp_frame(REMOTE[0], INSIDE[0], *pong))  # fmt: skip

    def test_clock_and_key(self):
        """By default the clock runs, and two keys differ."""
        nat = Nat(OUTSIDE[0])
        outside = ip_wire.parse_frame(nat.translate_out(model.udp_frame(INSIDE, REMOTE, b"")))
        self.assertEqual(outside.src, OUTSIDE)
        answer = nat.translate_in(model.udp_frame(REMOTE, OUTSIDE, b""))
        self.assertEqual(ip_wire.parse_frame(answer).dst, INSIDE)
        self.assertNotEqual(bytes(nat._nat), bytes(Nat(OUTSIDE[0])._nat))

    def test_settings(self):
        for settings, error in [
            ({"outside": ip_address("::1")}, TypeError), ({"first_port": 65536}, ValueError), ({"ports": -1}, ValueError),
            ({"key": bytes(15)}, ValueError), ({"key": "text"}, TypeError), ({"udp_timeout": 1.5}, TypeError),
            ({"icmp_timeout": 1 << 64}, ValueError), ({"first_port": None}, TypeError),
        ]:  # fmt: skip
            with self.subTest(settings):
                self.assertRaises(error, lambda: Nat(**{"outside": IPv4Address("203.0.113.9"), **settings}))
        self.assertRaises(TypeError, Routes, [None])
        self.assertRaisesRegex(WireError, "LK_NO_VERSION", Routes, [Route(ip_wire._c.Prefix(), 1)])


if __name__ == "__main__":
    unittest.main()
