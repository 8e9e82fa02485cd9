"""Tests the declarations, texts, numbers, and arguments that are wrong.

IP_WIRE_HEADER is the path of ip_wire.h, if it is not that of the source tree or of the release archive.
"""
import os
import re
import subprocess
import sys
import unittest
from dataclasses import fields, replace
from ipaddress import IPv4Address, IPv6Address, ip_address, ip_interface, ip_network
from unittest.mock import patch

import ip_wire
import model
from ip_wire import Arp, ConnectionState, Endpoint, Ethernet, Headers, Host, Icmp, Interface, Ip, Ndisc, Network, Offload
from ip_wire import Problem, Reason, Rejection, Side, Tcp, TcpFlag, TcpOptions, Transport, Verdict
from ip_wire import _c as c

TOP = os.path.join(os.path.dirname(os.path.abspath(__file__)), "..", "..", "..")
HEADERS = [os.path.join(TOP, "include", "ip_wire.h")]
HEADER = os.environ.get("IP_WIRE_HEADER") or next(filter(os.path.exists, HEADERS), HEADERS[0])


def own_name(name):
    """The name of a number in its enum of the package. Those of C have a prefix, because all enums are beside each other."""
    return re.sub("^(LK_)?((CHECKSUM|NAT)_(?=[A-Z]))?", "", name)


class Declarations(unittest.TestCase):
    """The numbers are those of ip_wire.h."""

    @classmethod
    def setUpClass(cls):
        with open(HEADER, encoding="ascii") as file:
            cls.header = re.sub(r"/\*.*?\*/", " ", file.read(), flags=re.S)

    def test_docstrings(self):
        """The table of the package has each call, and names only what is there. Each call and method has a docstring."""
        table = set(re.findall(r"\w+(?:\.\w+)*", ip_wire.__doc__.split("one call:")[1].split("\n\nIt needs")[0]))
        calls = {name for name in ip_wire.__all__ if name.islower() and name != "__version__"}
        methods = {word for word in table if word.split(".")[0] in ip_wire.__all__ and "." in word}
        self.assertEqual(calls - table, set())
        for word in {*calls, *methods}:
            owner, _, name = word.rpartition(".")
            self.assertTrue(getattr(getattr(ip_wire, owner, ip_wire), name).__doc__, word)

    def test_numbers(self):
        enums = {"lk_reason": (Reason, 1), "lk_network": (Network, 1), "lk_transport": (Transport, 1),
                 "lk_verdict": (Verdict, 0), "lk_problem": (Problem, 1), "lk_rejection": (Rejection, 1),
                 "lk_side": (Side, 0), "lk_offload": (Offload, 0), "lk_connection_state": (ConnectionState, 0)}  # fmt: skip
        for name, (enum, first) in enums.items():
            words = re.findall(r"LK_(\w+)", re.search(rf"enum {name} {{(.*?)}}", self.header, re.S).group(1))
            self.assertEqual([member.name for member in enum], [own_name(word) for word in words[first:]])
            self.assertEqual([member.value for member in enum], list(range(first, len(words))))
        flags = re.findall(r"LK_(\w+) = (\d+)", re.search("enum lk_tcp_flag {(.*?)}", self.header, re.S).group(1))
        self.assertEqual([(member.name, str(member.value)) for member in TcpFlag], flags)
        for enum, name_of in [(Reason, c.library.lk_reason_name), (Rejection, c.library.lk_rejection_name)]:
            self.assertEqual([own_name(name_of(member).decode()) for member in enum], [member.name for member in enum])
        self.assertEqual([c.library.lk_tcp_flag_name(flag) for flag in TcpFlag], [flag.name.encode() for flag in TcpFlag])
        self.assertEqual(set(ip_wire.__all__), {name for name in vars(ip_wire) if name in ip_wire.__all__})


class Texts(unittest.TestCase):
    def test_against_ipaddress(self):
        for text in ("0.0.0.0", "255.255.255.255", "::", "2001:db8::1:0:0:1", "fe80::", "224.0.0.1", "ff02::1", "::1"):
            addr = ip_address(text)
            self.assertEqual((ip_wire.parse_addr(text), ip_wire.print_addr(addr)), (addr, text))
            self.assertEqual(ip_wire.parse_endpoint(str(Endpoint(addr, 80))), Endpoint(addr, 80))
            block = ip_interface(text + "/20")
            self.assertEqual((ip_wire.parse_prefix(text + "/20"), ip_wire.print_prefix(block)), (block, text + "/20"))
            self.assertEqual(ip_wire.is_multicast(addr), addr.is_multicast)
            others = addr.is_multicast or addr.is_unspecified or addr == IPv4Address("255.255.255.255")
            self.assertEqual(ip_wire.is_unicast(addr), not others)

    def test_recommended_texts(self):
        """RFC 5952: section 4.1, 4.2.2, 4.2.3 twice, 4.3, 5, and of an endpoint 6."""
        for text, printed in [
            ("2001:0db8::0001", "2001:db8::1"),
            ("2001:db8:0:1:1:1:1:1", "2001:db8:0:1:1:1:1:1"),
            ("2001:0:0:1:0:0:0:1", "2001:0:0:1::1"),
            ("2001:db8:0:0:1:0:0:1", "2001:db8::1:0:0:1"),
            ("2001:DB8::AAAA", "2001:db8::aaaa"),
            ("::ffff:192.0.2.1", "::ffff:192.0.2.1"),
        ]:
            self.assertEqual(ip_wire.print_addr(ip_wire.parse_addr(text)), printed)
        self.assertEqual(str(ip_wire.parse_endpoint("[2001:DB8::1]:80")), "[2001:db8::1]:80")

    def test_ethernet(self):
        octets = bytes.fromhex("abcdef000001")
        self.assertEqual(ip_wire.parse_mac("AB:cd:ef:0:00:1"), octets)
        self.assertEqual(ip_wire.print_mac(bytearray(octets)), "ab-cd-ef-00-00-01")

    def test_names(self):
        protocols = [(6, "TCP"), (17, "UDP"), (58, "IPv6-ICMP"), (255, "unknown"), (-1, "unknown")]
        self.assertEqual([(number, ip_wire.protocol_name(number)) for number, _ in protocols], protocols)
        types = [(0x0800, "IPv4"), (0x86DD, "IPv6"), (0x88CC, "LLDP"), (0, "unknown")]
        self.assertEqual([(number, ip_wire.ethertype_name(number)) for number, _ in types], types)

    def test_printed_enums(self):
        """Each prints as its name. Python 3.11 and later print an IntEnum as its number."""
        for enum in (ConnectionState, Network, Offload, Problem, Reason, Rejection, Side, TcpFlag, Transport, Verdict):
            for member in enum:
                self.assertEqual((str(member), f"{member} {member:>20}"), (member.name, f"{member.name} {member.name:>20}"))
                self.assertEqual((f"{member:d} {member:#x}", member + 0), (f"{member.value} {member.value:#x}", member.value))
        flags = [TcpFlag(0), TcpFlag.SYN | TcpFlag.ACK, TcpFlag(255)]
        self.assertEqual(f"{flags[0]} {flags[1]} {flags[2]} {flags[1]:d}", "0 SYN|ACK FIN|SYN|RST|PSH|ACK|URG|ECE|CWR 18")
        self.assertEqual(str(ip_wire.parse_frame(b"").reason), "TOO_SHORT")

    def test_rejected(self):
        for parse in (ip_wire.parse_addr, ip_wire.parse_endpoint, ip_wire.parse_prefix, ip_wire.parse_mac):
            for text in ("", "1.2.3", "::1%lo", "1.2.3.4\0", "\udc80", "10.0.0.0/33"):
                with self.subTest(text=text):
                    self.assertRaisesRegex(ValueError, "does not parse", parse, text)

    def test_blocks(self):
        block = ip_wire.parse_prefix("192.0.2.77/24")
        for addr, is_in in [("192.0.2.255", True), ("192.0.3.0", False), ("::1", False)]:
            self.assertEqual(ip_wire.contains(block, ip_address(addr)), is_in)
            self.assertEqual(ip_wire.contains(ip_network("192.0.2.0/24"), ip_address(addr)), is_in)


class Numbers(unittest.TestCase):
    def test_checksums(self):
        """RFC 1071, section 3, and RFC 1624, section 4."""
        self.assertEqual(ip_wire.checksum(bytes.fromhex("0001f203f4f5f6f7")), 0xDDF2)
        self.assertEqual(ip_wire.update_checksum(0xDD2F, 0x5555, 0x3285), 0)
        self.assertEqual(ip_wire.update_checksum(0xDD2F, 0x5555, 0x3285, udp=True), 0xFFFF)
        self.assertEqual(ip_wire.update_checksum(0, 1, 2, udp=True), 0)
        before, after = IPv4Address("192.0.2.1"), IPv4Address("198.51.100.9")
        field = ip_wire.checksum(b"\x12\x34" + before.packed) ^ 0xFFFF
        self.assertEqual(ip_wire.update_checksum(field, before, after), ip_wire.checksum(b"\x12\x34" + after.packed) ^ 0xFFFF)

    def test_replaced_bytes(self):
        """RFC 1624, and RFC 1071, section 2 B: the sum of all bytes afterwards, at each offset."""
        data = bytes(range(7, 40))
        for offset in range(8):
            for before, after in [(1, b"\xff"), (2, b"\x01\x02"), (4, b"\x80\x81"), (0, b"")]:
                changed = data[:offset] + after + data[offset + before :]
                if (before - len(after)) % 2 == 0:
                    field = ip_wire.update_checksum_bytes(model.checksum(data), offset, data[offset : offset + before], after)
                    self.assertEqual(field, model.checksum(changed))
        self.assertEqual(ip_wire.update_checksum_bytes(0, 1, b"a", b"b", udp=True), 0)

    def test_sequence_numbers(self):
        """RFC 9293, section 3.4."""
        for a, steps, b in [(0, 1, 1), (2**32 - 1, 2, 1), (2**31, 2**31 - 1, 2**32 - 1)]:
            self.assertEqual((ip_wire.add_seq(a, steps), ip_wire.subtract_seq(b, a)), (b, steps))
            self.assertEqual((ip_wire.compare_seq(a, b), ip_wire.compare_seq(b, a), ip_wire.compare_seq(a, a)), (-1, 1, 0))


ENDPOINT, HARDWARE, IPV6 = Endpoint(IPv4Address("192.0.2.1"), 7), b"123456", IPv6Address("2001:db8::1")
HEADERS = Headers(Ethernet(HARDWARE, HARDWARE), ENDPOINT, ENDPOINT)
ADDR, BLOCK = ENDPOINT.addr, ip_interface("192.0.2.1/24")
ARP, HOST, OWN = Arp(1, HARDWARE, HARDWARE, ADDR, ADDR), Host(HARDWARE, ADDR, IPV6, 1), Interface(HARDWARE)
OPTIONS = TcpOptions(1460, 7, True, ((1, 2),), (3, 4))
ROUTES, NAT = ip_wire.Routes([]), ip_wire.Nat(ADDR, ports=1)
CONNECTION, STACK = ip_wire.Connection(), ip_wire.Stack(len, HOST)
# Of each call good arguments.
ARGUMENTS = [
    (ip_wire.parse_addr, "::"), (ip_wire.parse_endpoint, "::"), (ip_wire.parse_prefix, "::/0"),
    (ip_wire.parse_mac, "1-2-3-4-5-6"), (ip_wire.print_addr, ADDR), (ip_wire.print_prefix, BLOCK),
    (ip_wire.print_mac, HARDWARE), (ip_wire.contains, BLOCK, ADDR), (ip_wire.is_multicast, ADDR),
    (ip_wire.is_unicast, ADDR), (ip_wire.parse_frame, b""), (ip_wire.parse_packet, b""), (ip_wire.parse_captured, b"", 0),
    (ip_wire.parse_link, 228, b""), (ip_wire.parse_linktype, 1, b""), (ip_wire.parse_frame_options, b""),
    (ip_wire.parse_tcp_options, b""), (ip_wire.tcp_header_len, OPTIONS), (ip_wire.emit_udp, HEADERS, b""),
    (ip_wire.emit_tcp, HEADERS, Tcp(), OPTIONS, b""), (ip_wire.emit_icmp, HEADERS, Icmp(8), b""),
    (ip_wire.emit_arp, HEADERS.ethernet, ARP), (ip_wire.emit_ethernet_header, HEADERS.ethernet),
    (ip_wire.emit_arp_packet, ARP), (ip_wire.emit_ip_header, Ip(), ADDR, ADDR, 0),
    (ip_wire.emit_udp_packet, ENDPOINT, ENDPOINT, b""),
    (ip_wire.emit_tcp_segment, Tcp(), ENDPOINT, ENDPOINT, OPTIONS, b""),
    (ip_wire.emit_icmp_message, Icmp(8), ADDR, ADDR, b""), (ip_wire.wrap_udp, HEADERS, 0, bytearray(42)),
    (ip_wire.wrap_tcp, HEADERS, Tcp(), OPTIONS, 0, bytearray(114)), (ip_wire.rebuild, bytes(14)),
    (ip_wire.emit_mld_report, HARDWARE, IPV6, IPV6), (ip_wire.parse_mld_query, b"", IPV6),
    (ip_wire.parse_ndisc, b""), (ip_wire.emit_ndisc, HEADERS.ethernet, IPV6, IPV6, Ndisc(IPV6)),
    (OWN.emit_error, Problem.NO_ROUTE_TO_DESTINATION, b"", 0), (HOST.answer, b""), (ip_wire.clamp_mss, b"", 0),
    (ROUTES.choose, ADDR), (NAT.translate_out, b""), (ip_wire.checksum, b""), (ip_wire.update_checksum, 0, 0, 0),
    (ip_wire.update_checksum, 0, ADDR, ADDR), (ip_wire.update_checksum_bytes, 0, 0, b"", b""), (ip_wire.add_seq, 0, 0), (ip_wire.subtract_seq, 0, 0),
    (ip_wire.compare_seq, 0, 0), (ip_wire.forward, b"", HARDWARE, HARDWARE),
    (CONNECTION.write, b""), (CONNECTION.read, 0), (CONNECTION.too_big, 0, 0), (STACK.receive, b""), (STACK.listen, 0),
    (STACK.connect, HEADERS),
    (ip_wire.translate, b"", Side.SOURCE, ENDPOINT), (ROUTES.check_source, ADDR, 0), (NAT.translate_in, b"", 0),
]  # fmt: skip
# Of each class a good object, and a call that writes it.
OBJECTS = [
    (HEADERS.ethernet, ip_wire.emit_ethernet_header), (ARP, ip_wire.emit_arp_packet), (OPTIONS, ip_wire.tcp_header_len),
    (HEADERS, lambda it: ip_wire.emit_udp(it, b"")), (Ip(), lambda it: ip_wire.emit_ip_header(it, ADDR, ADDR, 0)),
    (Tcp(), lambda it: ip_wire.emit_tcp(HEADERS, it)), (Icmp(8), lambda it: ip_wire.emit_icmp(HEADERS, it)),
    (Ndisc(IPV6, HARDWARE), lambda it: ip_wire.emit_ndisc(HEADERS.ethernet, IPV6, IPV6, it)),
    (OWN, lambda it: it.emit_error(Problem.NO_ROUTE_TO_DESTINATION, b"")), (HOST, lambda it: it.answer(b"")),
    (ip_wire.Route(BLOCK, 1, ADDR), lambda it: ip_wire.Routes([it])),
]  # fmt: skip


class WrongArguments(unittest.TestCase):
    """What is no text, number, address or object raises TypeError, and numbers out of range raise ValueError."""

    def test_arguments(self):
        for call, *good in ARGUMENTS:
            for place, value in enumerate(good):
                wrong = [(None, TypeError), (1.5, TypeError), (object(), TypeError)]
                if isinstance(value, int):
                    wrong += [("7", TypeError), (b"7", TypeError), (-1 if call != NAT.translate_in else 1 << 64, ValueError),
                              (1 << 64, ValueError)]  # fmt: skip
                for bad, error in wrong:
                    if (call, place, bad) != (NAT.translate_in, 1, None):
                        with self.subTest(call.__name__, place=place, bad=bad):
                            self.assertRaises(error, call, *good[:place], bad, *good[place + 1 :])

    def test_fields(self):
        for good, write in OBJECTS:
            write(good)
            for field in fields(good):
                value = getattr(good, field.name)
                wrong = [(1.5, TypeError), (object(), TypeError)]
                wrong += [(None, TypeError)] if not str(field.type).startswith("Optional") else []
                wrong += [(-1, ValueError), (1 << 64, ValueError)] if isinstance(value, int) else []
                wrong += [(b"12345", ValueError), ("123456", TypeError)] if isinstance(value, bytes) else []
                for bad, error in wrong:
                    with self.subTest(type(good).__name__, field=field.name, bad=bad):
                        self.assertRaises(error, write, replace(good, **{field.name: bad}))

    def test_messages(self):
        """One line that names the field or the call."""
        for call, arguments, error, message in [
            (ip_wire.add_seq, (-1, 2), ValueError, "add_seq: -1 is out of range"),
            (ip_wire.emit_ethernet_header, (Ethernet(b"12345", HARDWARE),), ValueError, "src: 6 bytes are needed, not 5"),
            (ip_wire.emit_udp, (None, b""), TypeError, "headers: Headers is needed, not NoneType"),
            (ip_wire.parse_addr, (b"::",), TypeError, "parse_addr: a text is needed, not bytes"),
            (ip_wire.print_addr, ("::",), TypeError, "print_addr: an IP address is needed, not str"),
            (ip_wire.parse_frame, ("text",), TypeError, "data: bytes is needed, not str"),
        ]:
            with self.assertRaises(error) as caught:
                call(*arguments)
            self.assertEqual(str(caught.exception), message)


class Importing(unittest.TestCase):
    def test_no_library(self):
        environment = {**os.environ, "IP_WIRE_LIBRARY": "/no/such/libip_wire.so", "PYTHONPATH": os.pathsep.join(sys.path)}
        command = [sys.executable, "-c", "import ip_wire"]
        run = subprocess.run(command, env=environment, text=True, capture_output=True, check=False)
        self.assertEqual(run.returncode, 1)
        self.assertIn("ImportError: the C library ip_wire is not found: /no/such/libip_wire.so", run.stderr)
        self.assertIn("set IP_WIRE_LIBRARY", run.stderr)

    def test_older_library(self):
        with patch.dict(c.CALLS, lk_later=(None,)):
            self.assertRaisesRegex(ImportError, "needs the C library ip_wire .* without lk_later$", c._load)


if __name__ == "__main__":
    unittest.main()
