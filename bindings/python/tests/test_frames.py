"""Tests frames and packets: parsing, writing, hosts."""
import copy
import pickle
import random
import sys
import unittest
from dataclasses import FrozenInstanceError, asdict, fields, replace
from ipaddress import IPv4Address, IPv6Address, ip_address

import ip_wire
import model
from ip_wire import Arp, Endpoint, Ethernet, Headers, Host, Icmp, Interface, Ip, Ndisc, Network, Problem, Reason, Rejected
from ip_wire import Tcp, TcpFlag, TcpOptions, Transport, Verdict, WireError
from model import CLIENT, SERVER


def headers_of(src, dst):
    return Headers(Ethernet(CLIENT, SERVER), Endpoint(ip_address(src), 46563), Endpoint(ip_address(dst), 7))


IPV4 = headers_of("192.0.2.1", "192.0.2.2")
IPV6 = headers_of("2001:db8::1", "2001:db8::2")
OPTIONS = TcpOptions(1460, 7, True, (), (3, 4))
# The same by RFC 9293, section 3.2, RFC 7323, section 2.2, and RFC 2018, section 2: in the order of their kinds.
OPTION_BYTES = bytes.fromhex("020405b4 030307 0402 080a 00000003 00000004 00")


# Linux sent both errors about UDP packets to a closed port on its loopback device: the place of the type, and the error.
QUOTES = [
    (34, bytes.fromhex("000000000000 000000000000 0800 45c0003cb9fb00004001c2037f0000017f000001 0303354b00000000"
                       "4500002026b64000401116157f0000017f000001 d5cb14e9000cfe1f 70696e67")),
    (54, bytes.fromhex("000000000000 000000000000 86dd"
                       "6006125f003c3a400000000000000000000000000000000100000000000000000000000000000001 0104964600000000"
                       "60092d35000c11400000000000000000000000000000000100000000000000000000000000000001 d5cb14e9000c001f 70696e67")),
]  # fmt: skip

# Scapy packed it: hop-by-hop options, and UDP with the payload f1f2f3.
EXTENDED = bytes.fromhex(
    "02a1a2a3a4a502b1b2b3b4b586dd6becdef10013003e20010db800000000000000000000000120010db8000000000000000000000002"
    "110005020000010031324142000b4cfbf1f2f3"
)

# Linux sent them: a report, and queries of version 1 for all groups and of version 2 for one.
REPORT, QUERY, QUERY2 = map(bytes.fromhex, (
    "3333ff00000202000000000186dd6000000000200001fe80000000000000000000fffe000001ff0200000000000000000001ff00"
    "00023a000502000001008300831d00000000ff0200000000000000000001ff000002",
    "33330000000102000000000986dd6000000000200001fe80000000000000000000fffe000009ff02000000000000000000000000"
    "00013a0005020000000082007f2b01f4000000000000000000000000000000000000",
    "3333ff00000202000000000986dd6000000000240001fe80000000000000000000fffe000009ff0200000000000000000001ff00"
    "00023a000502000000008200762803e80000ff0200000000000000000001ff0000020a010000",
))  # fmt: skip


class Reading(unittest.TestCase):
    def test_extension_headers(self):
        frame = ip_wire.parse_frame(EXTENDED)
        frame.check()
        self.assertEqual((frame.ip.protocol, frame.protocol, frame.transport), (0, 17, Transport.UDP))
        self.assertEqual((frame.transport_offset, frame.dst.port, frame.payload), (62, 0x4142, b"\xf1\xf2\xf3"))
        self.assertEqual((ip_wire.parse_frame(ip_wire.emit_udp(IPV4, b"")).protocol, ip_wire.parse_frame(b"").protocol), (17, None))
        routed = bytearray(EXTENDED)
        routed[20], routed[57] = 43, 1
        self.assertRaisesRegex(Rejected, "HOPS_LEFT", ip_wire.parse_frame(routed).check)

    def test_udp(self):
        for headers, network in [(IPV4, Network.IPV4), (IPV6, Network.IPV6)]:
            data = ip_wire.emit_udp(headers, b"ping")
            frame = ip_wire.parse_frame(data + b"padding")
            frame.check()
            self.assertEqual((frame.network, frame.transport), (network, Transport.UDP))
            self.assertEqual((frame.src, frame.dst, frame.payload), (headers.src, headers.dst, b"ping"))
            self.assertEqual((frame.ethernet.src, frame.ethernet.dst), (CLIENT, SERVER))
            self.assertEqual((frame.ip.protocol, frame.ip.hop_limit, frame.headers().src), (17, 64, headers.src))
            self.assertEqual((frame.tcp, frame.arp, frame.transport_checksum), (None, None, Verdict.VALID))
            self.assertEqual(ip_wire.parse_packet(bytearray(data[14:])).payload, b"ping")
            self.assertIsNone(ip_wire.parse_packet(memoryview(data)[14:]).ethernet)

    def test_tcp(self):
        tcp = Tcp(seq_number=2**32 - 1, window_len=9, flags=TcpFlag.SYN)
        frame = ip_wire.parse_frame(ip_wire.emit_tcp(IPV6, tcp, OPTIONS, b"data"))
        self.assertEqual((frame.tcp, frame.payload), (tcp, b"data"))
        self.assertEqual(ip_wire.parse_tcp_options(frame.tcp_header), OPTIONS)
        options = {option.kind: option.data for option in ip_wire.raw_tcp_options(frame.tcp_header)}
        self.assertEqual((options[2], options[3]), ((1460).to_bytes(2, "big"), b"\7"))

    def test_options_of_a_frame(self):
        data = bytearray(ip_wire.emit_tcp(IPV4, Tcp(flags=TcpFlag.SYN), OPTIONS))
        self.assertEqual(ip_wire.parse_frame_options(data), (ip_wire.parse_frame(data), OPTIONS))
        data[14 + 20 + 20 + 1] = 1  # the length of the first option
        frame, options = ip_wire.parse_frame_options(data)
        self.assertEqual((frame.reason, options), (Reason.BAD_OPTIONS, None))
        self.assertIsNone(ip_wire.parse_frame_options(ip_wire.emit_udp(IPV6, b"ping"))[1])

    def test_lines(self):
        tcp = Tcp(seq_number=7, window_len=9, flags=TcpFlag.SYN)
        udp = ip_wire.emit_udp(IPV4, b"ping")
        for data, line in [
            (udp, "IPv4 192.0.2.1:46563 > 192.0.2.2:7 UDP len=4"),
            (udp[:-1] + b"!", "IPv4 192.0.2.1:46563 > 192.0.2.2:7 UDP len=4 (checksum incorrect)"),
            (ip_wire.emit_tcp(IPV6, tcp), "IPv6 [2001:db8::1]:46563 > [2001:db8::2]:7 TCP syn seq=7 win=9 len=0"),
            (b"", "Ethernet 00-00-00-00-00-00 > 00-00-00-00-00-00 type=0x0000 len=0 (too short)"),
        ]:
            self.assertEqual(str(ip_wire.parse_frame(data)), line)

    def test_icmp(self):
        for headers, protocol, kind in [(IPV4, 1, 8), (IPV6, 58, 128)]:
            echo = Icmp(kind, 0, 0x12340001)
            data = ip_wire.emit_icmp(headers, echo, b"data")
            frame = ip_wire.parse_frame(data)
            frame.check()
            self.assertEqual((frame.transport, frame.icmp, frame.payload), (Transport.ICMP, echo, b"data"))
            self.assertEqual((frame.ip.protocol, frame.tcp, frame.transport_checksum), (protocol, None, Verdict.VALID))
            self.assertEqual((frame.src.port, frame.payload_offset), (0, frame.transport_offset + 8))
            with self.assertRaises(Rejected):
                ip_wire.parse_frame(data[:-1] + b"b").check()

    def test_quoted(self):
        for place, data in QUOTES:
            frame = ip_wire.parse_frame(data)
            frame.check()
            quoted = frame.parse_quoted()
            quoted.check()
            self.assertEqual((quoted.src.port, quoted.dst.port, quoted.payload), (54731, 5353, b"ping"))
            self.assertEqual((quoted.ethernet, quoted.network, quoted.parse_quoted()), (None, frame.network, None))
            quoted = ip_wire.parse_captured(data[:-4], sys.maxsize).parse_quoted()
            self.assertEqual((quoted.dst.port, quoted.payload, quoted.payload_len), (5353, b"", 4))
            self.assertEqual(quoted.transport_checksum, Verdict.CUT)
            others = (bytes([*data[:place], kind, *data[place + 1 :]]) for kind in range(256))
            errors = [kind for kind, other in enumerate(others) if ip_wire.parse_frame(other).parse_quoted()]
            self.assertEqual(errors, [3, 4, 5, 11, 12] if place == 34 else list(range(128)))
        data = bytearray(QUOTES[0][1])
        data[42 + 3], data[42 + 9] = 64, 6  # 44 bytes of TCP
        quoted = ip_wire.parse_captured(data[:70], sys.maxsize).parse_quoted()
        self.assertEqual((quoted.reason, quoted.payload), (Reason.HEADER_CUT, data[62:70]))
        self.assertIsNone(ip_wire.parse_frame(ip_wire.emit_udp(IPV4, b"ping")).parse_quoted())

    def test_rejected(self):
        data = bytearray(ip_wire.emit_tcp(IPV4, Tcp(flags=TcpFlag.SYN)))
        data[47] |= TcpFlag.FIN
        frame = ip_wire.parse_frame(data)
        self.assertEqual((frame.transport, frame.rejected), (None, Transport.TCP))
        self.assertEqual((frame.tcp.flags, frame.src), (TcpFlag.SYN | TcpFlag.FIN, IPV4.src))
        with self.assertRaisesRegex(Rejected, "BAD_FLAGS") as caught:
            frame.check()
        self.assertEqual(caught.exception.reason, Reason.BAD_FLAGS)
        short = ip_wire.parse_frame(b"short")
        self.assertEqual((short.reason, short.ethernet, short.payload), (Reason.TOO_SHORT, None, b"short"))
        with self.assertRaisesRegex(ValueError, "no IP packet"):
            short.reply()

    def test_wrong_checksum(self):
        data = bytearray(ip_wire.emit_udp(IPV4, b"ping"))
        data[-1] ^= 1
        with self.assertRaises(Rejected) as caught:
            ip_wire.parse_frame(data).check()
        self.assertIsNone(caught.exception.reason)

    def test_captured(self):
        data = ip_wire.emit_udp(IPV4, b"ping")
        frame = ip_wire.parse_captured(data[:44], len(data))
        self.assertEqual((frame.payload, frame.payload_len), (b"pi", 4))
        self.assertEqual(frame.transport_checksum, Verdict.CUT)
        self.assertEqual(ip_wire.parse_captured(data[:41], len(data)).reason, Reason.HEADER_CUT)
        packet = ip_wire.parse_captured(data[14:43], len(data) - 14, is_packet=True)
        self.assertEqual((packet.payload, packet.ethernet), (b"p", None))
        for length in (-1, 1 << 64):
            self.assertRaises(ValueError, ip_wire.parse_captured, data, length)

    def test_unknown_length(self):
        data = ip_wire.emit_udp(IPV4, b"ping")
        for length in ((1 << 40) - 1, 1 << 40, sys.maxsize, (1 << 64) - 1):
            for frame in (
                ip_wire.parse_captured(data[:44], length),
                ip_wire.parse_captured(data[14:44], length, is_packet=True),
                ip_wire.parse_linktype(1, data[:44], length),
            ):
                self.assertEqual((frame.reason, frame.payload, frame.payload_len), (None, b"pi", 4))
            self.assertEqual(ip_wire.parse_captured(data, length).payload, b"ping")

    def test_any_bytes(self):
        rng = random.Random(1)
        frames = [ip_wire.emit_udp(IPV6, b"ping"), ip_wire.emit_tcp(IPV4, Tcp(flags=TcpFlag.SYN), OPTIONS)]
        for data in frames * 500:
            changed = bytearray(data[: rng.randrange(len(data) + 1)])
            for _ in range(3 if changed else 0):
                changed[rng.randrange(len(changed))] = rng.randrange(256)
            frame = ip_wire.parse_frame(changed)
            self.assertEqual(len(frame.payload), frame.payload_len)
            ip_wire.parse_tcp_options(frame.tcp_header)
            self.assertLessEqual(len(ip_wire.rebuild(changed)) if len(changed) >= 14 else 0, len(changed))


class Values(unittest.TestCase):
    """A frame is a frozen dataclass. The order in which its values are made changes nothing."""

    FRAMES = [
        ip_wire.emit_udp(IPV4, b"ping"),
        ip_wire.emit_tcp(IPV6, Tcp(flags=TcpFlag.SYN), OPTIONS),
        EXTENDED,
        ip_wire.emit_icmp(IPV6, Icmp(128), b""),
        ip_wire.emit_arp(IPV4.ethernet, Arp(1, CLIENT, SERVER, IPV4.src.addr, IPV4.dst.addr)),
        b"short",
    ]

    def test_order(self):
        names, rng = [field.name for field in fields(ip_wire.Frame)], random.Random(1)
        for data in self.FRAMES:
            first = ip_wire.parse_frame(data)
            values = {name: getattr(first, name) for name in names}
            for _ in range(9):
                frame = ip_wire.parse_frame(data)
                for name in rng.sample(names, len(names)):
                    self.assertEqual(getattr(frame, name), values[name], name)
                self.assertIs(frame.src, frame.src)
            self.assertEqual(ip_wire.Frame(**values), first)
            self.assertEqual(repr(ip_wire.Frame(**values)), repr(ip_wire.parse_frame(data)))

    def test_repr(self):
        text = repr(ip_wire.parse_frame(b"short"))
        self.assertEqual(
            text,
            "Frame(reason=<Reason.TOO_SHORT: 1>, ethernet=None, network=None, arp=None, ip=None, src=None, dst=None, "
            "protocol=None, is_fragment=False, transport=None, rejected=None, tcp=None, tcp_header=b'', icmp=None, "
            "ipv4_checksum=<Verdict.NOT_READ: 0>, transport_checksum=<Verdict.NOT_READ: 0>, network_offset=None, "
            "transport_offset=None, payload_offset=0, payload_len=5)",
        )

    def test_equality(self):
        for data in self.FRAMES:
            frame, same = ip_wire.parse_frame(data), ip_wire.parse_frame(bytearray(data))
            self.assertEqual((frame, hash(frame)), (same, hash(same)))
            self.assertNotEqual(frame, ip_wire.parse_frame(data + b"!"))
            self.assertNotEqual(ip_wire.parse_frame(data), ip_wire.parse_packet(data))
            self.assertNotEqual(replace(frame, payload_len=99), same)
        self.assertNotEqual(frame, data)

    def test_copies(self):
        for data in self.FRAMES:
            for made in ("", "src"):
                frame = ip_wire.parse_frame(data)
                getattr(frame, made, None)
                for same in (copy.copy(frame), copy.deepcopy(frame), pickle.loads(pickle.dumps(frame))):
                    self.assertEqual((same, str(same), same.payload), (ip_wire.parse_frame(data), str(frame), frame.payload))

    def test_attributes(self):
        frame = ip_wire.parse_frame(self.FRAMES[0])
        self.assertRaises(FrozenInstanceError, setattr, frame, "src", None)
        self.assertRaises(FrozenInstanceError, delattr, frame, "src")
        self.assertRaises(AttributeError, getattr, frame, "source")
        self.assertFalse(hasattr(ip_wire.Frame, "src"))
        self.assertEqual(asdict(frame)["ip"], asdict(frame.ip))

    def test_many(self):
        found = ip_wire.parse_frames(iter([*map(bytearray, self.FRAMES), memoryview(b"more")]))
        self.assertEqual([*found], [*map(ip_wire.parse_frame, [*self.FRAMES, b"more"])])
        self.assertIsNone(next(found, None))
        found = ip_wire.parse_frames([b"short", "text"])
        self.assertEqual(next(found).payload, b"short")
        self.assertRaises(TypeError, next, found)
        self.assertRaises(TypeError, next, ip_wire.parse_frames(5))


class Writing(unittest.TestCase):
    def test_reply(self):
        headers = replace(IPV4, ip=Ip(hop_limit=9, dscp=10, ecn=1, ident=77, dont_fragment=False))
        reply = ip_wire.parse_frame(ip_wire.emit_udp(headers, b"ping")).reply()
        self.assertEqual((reply.src, reply.dst, reply.ethernet.dst), (IPV4.dst, IPV4.src, CLIENT))
        self.assertEqual(reply.ip, Ip(dscp=10, protocol=17))

    def test_failures(self):
        cases = [
            (replace(IPV4, dst=IPV6.dst), b"", "LK_TWO_VERSIONS"),
            (replace(IPV4, dst=Endpoint(IPV4.dst.addr, 0)), b"", "LK_EMIT_PORT_ZERO"),
            (replace(IPV4, ip=Ip(hop_limit=0)), b"", "LK_NO_HOP_LIMIT"),
            (replace(IPV4, ip=Ip(ecn=4)), b"", "LK_BAD_FIELD"),
            (IPV4, bytes(65508), "LK_PAYLOAD_TOO_LONG"),
        ]
        for headers, payload, name in cases:
            with self.assertRaises(WireError) as caught:
                ip_wire.emit_udp(headers, payload)
            self.assertEqual(caught.exception.name, name)
        self.assertEqual(len(ip_wire.emit_udp(IPV6, bytes(65527))), 62 + 65527)
        self.assertRaisesRegex(WireError, "LK_NO_HEADER", ip_wire.rebuild, b"")
        tcp = Tcp(flags=TcpFlag.SYN | TcpFlag.FIN)
        self.assertRaisesRegex(WireError, "LK_TWO_CONTROLS", ip_wire.emit_tcp, IPV4, tcp)
        for count in (4, 5):
            options = TcpOptions(timestamp=(1, 2), sack_ranges=((1, 2),) * count)
            self.assertRaisesRegex(WireError, "LK_OPTIONS_TOO_LONG", ip_wire.emit_tcp, IPV4, Tcp(), options)

    def test_what_does_not_fit(self):
        for headers in (replace(IPV4, ip=Ip(hop_limit=256)), replace(IPV4, dst=Endpoint(IPV4.dst.addr, 65536)),
                        replace(IPV4, ethernet=Ethernet(b"12345", SERVER))):  # fmt: skip
            self.assertRaises(ValueError, ip_wire.emit_udp, headers, b"")
        self.assertRaises(ValueError, ip_wire.emit_tcp, IPV4, Tcp(seq_number=-1))
        self.assertRaises(ValueError, ip_wire.update_checksum, 0x10000, 1, 2)
        self.assertRaises(TypeError, ip_wire.parse_frame, "text")
        self.assertRaises(TypeError, ip_wire.parse_frame, 5)

    def test_host(self):
        host = Host(SERVER, IPv4Address("192.0.2.2"), IPv6Address("2001:db8::2"), 99, (80, 443), 7, mss=1400)
        echo = ip_wire.parse_frame(host.answer(ip_wire.emit_udp(IPV6, b"ping")))
        self.assertEqual((echo.payload, echo.dst), (b"ping", IPV6.src))
        for port, flags in [(443, TcpFlag.SYN | TcpFlag.ACK), (22, TcpFlag.RST | TcpFlag.ACK)]:
            headers = replace(IPV4, dst=Endpoint(IPV4.dst.addr, port))
            answer = ip_wire.parse_frame(host.answer(ip_wire.emit_tcp(headers, Tcp(flags=TcpFlag.SYN))))
            self.assertEqual(answer.tcp.flags, flags)
        pong = ip_wire.parse_frame(host.answer(ip_wire.emit_icmp(IPV4, Icmp(8, 0, 7), b"data")))
        self.assertEqual((pong.icmp, pong.payload, pong.dst.addr), (Icmp(0, 0, 7), b"data", IPV4.src.addr))
        closed = ip_wire.emit_udp(replace(IPV6, dst=Endpoint(IPV6.dst.addr, 9)), b"")
        self.assertEqual(ip_wire.parse_frame(host.answer(closed)).icmp, Icmp(1, 4))
        self.assertIsNone(replace(host, open_udp_ports=(8, 9)).answer(closed))
        asked = Headers(Ethernet(CLIENT, bytes.fromhex("3333ff000002")), IPV6.src,
                        Endpoint(ip_address("ff02::1:ff00:2"), 0), Ip(hop_limit=255))  # fmt: skip
        solicitation = ip_wire.emit_icmp(asked, Icmp(135, 0), host.ipv6.packed)
        for is_router, flags in (False, 0x60000000), (True, 0xE0000000):
            advert = ip_wire.parse_frame(replace(host, is_router=is_router).answer(solicitation))
            self.assertEqual((advert.icmp, advert.payload[:16]), (Icmp(136, 0, flags), host.ipv6.packed))
        arp = Arp(1, CLIENT, bytes(6), IPv4Address("192.0.2.1"), host.ipv4)
        answer = ip_wire.parse_frame(host.answer(ip_wire.emit_arp(Ethernet(CLIENT, b"\xff" * 6), arp)))
        self.assertEqual(answer.arp, Arp(2, SERVER, CLIENT, host.ipv4, arp.src))
        self.assertEqual((answer.network, answer.ip), (Network.ARP, None))
        self.assertIsNone(host.answer(b""))
        self.assertRaisesRegex(WireError, "LK_NO_VERSION", replace(host, ipv4=host.ipv6).answer, b"")
        self.assertRaises(ValueError, replace(host, open_ports=(65536,)).answer, b"")

    def test_mld(self):
        src, group, other = map(IPv6Address, ("fe80::ff:fe00:1", "ff02::1:ff00:2", "ff02::1:ff00:3"))
        self.assertEqual(ip_wire.emit_mld_report(CLIENT, src, group), REPORT)
        self.assertRaisesRegex(WireError, "LK_NO_VERSION", ip_wire.emit_mld_report, CLIENT, IPV4.src.addr, group)
        asked = [[ip_wire.parse_mld_query(data, it) for it in (group, other)] for data in (QUERY, QUERY2, REPORT, QUERY[:-1])]
        self.assertEqual(asked, [[500, 500], [1000, None], [None, None], [None, None]])

    def test_ndisc(self):
        own, client, server = IPV6.ethernet, IPV6.src.addr, IPV6.dst.addr
        for ndisc in (Ndisc(server, CLIENT), Ndisc(server, None, True, True, False, True), Ndisc(server, b"12345 ", True)):
            data = ip_wire.emit_ndisc(own, client, server, ndisc)
            self.assertEqual((ip_wire.parse_ndisc(data), len(data)), (ndisc, 86 if ndisc.hardware else 78))
            self.assertIsNone(ip_wire.parse_ndisc(data[:21] + b"\xfe" + data[22:]))  # the hop limit
        host = Host(SERVER, IPV4.dst.addr, server, 99)
        answer = ip_wire.parse_ndisc(host.answer(ip_wire.emit_ndisc(own, client, server, Ndisc(server, CLIENT))))
        self.assertEqual((answer.target, answer.hardware, answer.is_solicited), (server, SERVER, True))
        self.assertRaisesRegex(WireError, "LK_NO_VERSION", ip_wire.emit_ndisc, own, client, server, Ndisc(IPV4.src.addr))
        group = Ndisc(ip_address("ff02::1"))
        self.assertRaisesRegex(WireError, "LK_BAD_FIELD", ip_wire.emit_ndisc, own, client, server, group)
        self.assertRaises(ValueError, ip_wire.emit_ndisc, own, client, server, Ndisc(server, b"12345"))

    def test_errors(self):
        own = Interface(SERVER, IPv4Address("192.0.2.254"))
        packet = ip_wire.emit_udp(IPV4, b"ping")
        for problem, code, mtu in [(Problem.NO_ROUTE_TO_DESTINATION, 0, 0), (Problem.NEIGHBOUR_MISSING, 1, 0),
                                   (Problem.PORT_CLOSED, 3, 0), (Problem.PACKET_TOO_BIG, 4, 30),
                                   (Problem.PROHIBITED, 13, 0)]:  # fmt: skip
            error = ip_wire.parse_frame(own.emit_error(problem, packet, mtu))
            error.check()
            self.assertEqual((error.icmp, error.payload), (Icmp(3, code, mtu), packet[14:]))
            self.assertEqual((error.src.addr, error.dst.addr), (own.ipv4, IPV4.src.addr))
        last = replace(IPV4, ip=Ip(hop_limit=1))
        error = ip_wire.parse_frame(own.emit_error(Problem.HOP_LIMIT_EXPIRED, ip_wire.emit_udp(last, bytes(2000))))
        self.assertEqual((error.icmp, len(error.data)), (Icmp(11), 14 + 576))
        self.assertIsNone(own.emit_error(Problem.HOP_LIMIT_EXPIRED, packet))
        self.assertIsNone(own.emit_error(Problem.PACKET_TOO_BIG, packet, 32))
        self.assertIsNone(own.emit_error(Problem.NO_ROUTE_TO_DESTINATION, ip_wire.emit_udp(IPV6, b"ping")))
        self.assertRaises(ValueError, own.emit_error, Problem.PACKET_TOO_BIG, packet, -1)

    def test_rebuild(self):
        data = ip_wire.emit_udp(IPV4, b"ping")
        self.assertEqual(ip_wire.rebuild(data + bytes(20)), data)

    def test_wrap(self):
        """The payload is in the buffer already, and what follows the frame stays."""
        for headers, start in [(IPV4, 42), (IPV6, 62)]:
            out = bytearray(start) + b"ping!"
            self.assertEqual(ip_wire.wrap_udp(headers, 4, out), start + 4)
            self.assertEqual(out, ip_wire.emit_udp(headers, b"ping") + b"!")
            packet = bytearray(start - 14) + b"ping"
            self.assertEqual(ip_wire.wrap_udp(headers, 4, packet, framed=False), len(packet))
            self.assertEqual(packet, out[14:-1])
            self.assertEqual(ip_wire.emit_udp(headers, b"ping", framed=False), packet)
            self.assertEqual(ip_wire.parse_packet(packet).payload, b"ping")
            echo = Icmp(8 if start == 42 else 128)
            self.assertEqual(ip_wire.emit_icmp(headers, echo, b"ping", framed=False), ip_wire.emit_icmp(headers, echo, b"ping")[14:])
        for headers, start in [(IPV4, 34), (IPV6, 54)]:
            out = bytearray(start + ip_wire.tcp_header_len(OPTIONS)) + b"data"
            length = ip_wire.wrap_tcp(headers, Tcp(1, 2, 3, TcpFlag.ACK), OPTIONS, 4, memoryview(out))
            self.assertEqual(out, ip_wire.emit_tcp(headers, Tcp(1, 2, 3, TcpFlag.ACK), OPTIONS, b"data"))
            self.assertEqual(length, len(out))
            packet = bytearray(start - 14 + ip_wire.tcp_header_len(OPTIONS)) + b"data"
            ip_wire.wrap_tcp(headers, Tcp(1, 2, 3, TcpFlag.ACK), OPTIONS, 4, packet, framed=False)
            self.assertEqual(packet, out[14:])
            self.assertEqual(ip_wire.emit_tcp(headers, Tcp(1, 2, 3, TcpFlag.ACK), OPTIONS, b"data", framed=False), packet)
        self.assertRaisesRegex(WireError, "LK_NO_ROOM", ip_wire.wrap_udp, IPV4, 4, bytearray(45))
        self.assertRaises(TypeError, ip_wire.wrap_udp, IPV4, 4, bytes(46))


class Layers(unittest.TestCase):
    """What is written is what tests/model.py computes by the RFCs."""

    def test_layers(self):
        tcp, fields = Tcp(7, 8, 9, TcpFlag.PSH | TcpFlag.ACK), (7, 8, 0x18, 9)
        for headers in (IPV4, IPV6):
            src, dst, (client, server) = headers.src, headers.dst, (headers.src.addr, headers.dst.addr)
            udp, segment = model.udp(src, dst, b"odd"), model.tcp(src, dst, *fields, OPTION_BYTES, b"odd")
            message = model.icmp(client, server, 8, 0, 0x12340001, b"odd")
            cases = [
                (udp, ip_wire.emit_udp_packet(src, dst, b"odd")),
                (segment, ip_wire.emit_tcp_segment(tcp, src, dst, OPTIONS, b"odd")),
                (message, ip_wire.emit_icmp_message(Icmp(8, 0, 0x12340001), client, server, b"odd")),
                (udp[:6] + b"\0\0odd", ip_wire.emit_udp_packet(src, dst, b"odd", computed=False)),
                (model.ip(client, server, 17, b"", 9), ip_wire.emit_ip_header(Ip(9, protocol=17), client, server, 0)),
                (model.udp_frame(src, dst, b"odd"), ip_wire.emit_udp(headers, b"odd")),
                (model.tcp_frame(src, dst, *fields, OPTION_BYTES, b"odd"), ip_wire.emit_tcp(headers, tcp, OPTIONS, b"odd")),
                (model.icmp_frame(client, server, 1, 0, 5, b"odd"), ip_wire.emit_icmp(headers, Icmp(1, 0, 5), b"odd")),
            ]
            for wanted, found in cases:
                self.assertEqual(found.hex(), wanted.hex())
        self.assertEqual(ip_wire.emit_ethernet_header(Ethernet(CLIENT, SERVER, 0x88B5)), SERVER + CLIENT + b"\x88\xb5")
        self.assertEqual(len(OPTION_BYTES) + 20, ip_wire.tcp_header_len(OPTIONS))

    def test_arp(self):
        """RFC 826."""
        arp = Arp(1, CLIENT, bytes(6), IPv4Address("192.0.2.1"), IPv4Address("192.0.2.2"))
        packet = bytes.fromhex("0001 0800 06 04 0001") + CLIENT + arp.src.packed + bytes(6) + arp.dst.packed
        self.assertEqual(ip_wire.emit_arp_packet(arp), packet)
        self.assertEqual(ip_wire.emit_arp(Ethernet(CLIENT, SERVER), arp), SERVER + CLIENT + b"\x08\x06" + packet)
        self.assertEqual(ip_wire.parse_frame(SERVER + CLIENT + b"\x08\x06" + packet).arp, arp)


if __name__ == "__main__":
    unittest.main()
