"""One line for each packet of a capture, of any link type that the library knows: ip_dump --lines.

The Python package `ip_wire` parses and prints. It is beside ip_dump in an installation and in the source tree.
"""
import ipaddress
import os
import re
import sys
import time
from collections import namedtuple
from datetime import datetime, timedelta, timezone
from functools import lru_cache

import frame_lines
import lines_of_capture
from frame_lines import Failure, counted

HERE = os.path.dirname(os.path.realpath(__file__))
# Of an installation, and of the source tree.
PACKAGES = ("python", "../bindings/python")
LIBRARIES = ("../../lib/libip_wire.so", "../out/lib/libip_wire.so")
ETHERNET, FCS_LEN = lines_of_capture.ETHERNET, lines_of_capture.FCS_LEN
# Those of a name, in IPv4 and IPv6 headers; ARP has none.
ARP = -1
PROTOCOLS = {"arp": [ARP], "icmp": [1, 58], "igmp": [2], "tcp": [6], "udp": [17], "gre": [47], "esp": [50], "ah": [51],
             "icmp6": [58], "ospf": [89], "pim": [103], "vrrp": [112], "sctp": [132]}
UDP_AND_TCP = {1, 2}  # as the library numbers transports
KINDS = {"--host": "address or block", "--port": "number from 0 to 65535", "--proto": "name or number of a protocol",
         "-c": "number"}
EPOCH = datetime(1970, 1, 1, tzinfo=timezone.utc)
POLL = 0.2  # seconds
# The last time of a packet that moves the clock of the reassembly, in milliseconds: half of what a uint64_t can have.
LAST_TIME = (1 << 63) - 1
# On a terminal a line with one of these notes is red.
RED, RESET = "\033[31m", "\033[0m"
BAD = ("incorrect)", "(too short)", "(bad ", "(port zero)", "(header cut)")
# What the library prints of a packet without an ARP or IP header: of another link type it has neither addresses nor, in most
# cases, an EtherType.
NO_ETHERNET = re.compile(r"^Ethernet \S+ > \S+ (type=0x0000 )?")
# The types of ICMP by name (IANA's registries of ICMP and ICMPv6).
ICMP = {0: "echo reply", 3: "unreachable", 5: "redirect", 8: "echo request", 9: "router advertisement",
        10: "router solicitation", 11: "time exceeded", 12: "parameter problem", 13: "timestamp", 14: "timestamp reply"}
ICMPV6 = {1: "unreachable", 2: "packet too big", 3: "time exceeded", 4: "parameter problem", 128: "echo request",
          129: "echo reply", 130: "listener query", 131: "listener report", 132: "listener done",
          133: "router solicitation", 134: "router advertisement", 135: "neighbor solicitation",
          136: "neighbor advertisement", 137: "redirect", 143: "listener report v2"}


def package():
    """The Python package, with the library beside it if there is one."""
    sys.path.extend(os.path.join(HERE, place) for place in PACKAGES)
    for path in (os.path.join(HERE, place) for place in LIBRARIES):
        if os.path.exists(path):
            os.environ.setdefault("IP_WIRE_LIBRARY", path)
    try:
        import ip_wire
    except (ImportError, OSError) as error:
        raise Failure(f"the Python package ip_wire is not usable: {error}") from None
    return ip_wire


def block_of(text):
    if "%" in text:  # no packet has a scope identifier
        raise ValueError(text)
    return ipaddress.ip_network(text, strict=False)


def number_of(text, most):
    """A decimal number up to this one."""
    if not re.fullmatch("0*[0-9]{1,18}", text, re.ASCII) or int(text) > most:
        raise ValueError(text)
    return int(text)


def count_of(text):
    return number_of(text, sys.maxsize)


def port_of(text):
    return number_of(text, 65535)


def protocols_of(text):
    return PROTOCOLS.get(text.lower()) or [number_of(text, 255)]


def value_of(option, parse, text):
    try:
        return parse(text)
    except ValueError:
        raise Failure(f"{option} {text}: no {KINDS[option]}") from None


def ports_of(frame):
    """The ports of a packet. 0 is a port only of UDP and TCP."""
    if frame.src is None:
        return set()
    ports = {frame.src.port, frame.dst.port}
    return ports if any(ports) or UDP_AND_TCP & {frame.transport, frame.rejected} else set()


class Filter(namedtuple("Filter", "blocks ports protocols")):
    """Which packets are printed: those of one of the blocks, one of the ports and one of the protocols. Without blocks,
    ports or protocols these do not count."""

    @classmethod
    def of(cls, hosts, ports, protocols):
        return cls([value_of("--host", block_of, text) for text in hosts],
                   {value_of("--port", port_of, text) for text in ports},
                   {number for text in protocols for number in value_of("--proto", protocols_of, text)})

    def accepts(self, frame):
        if not any(self):
            return True
        ends = () if frame.src is None else (frame.src, frame.dst)
        protocol = frame.protocol if frame.arp is None else ARP
        return ((not self.protocols or protocol in self.protocols)
                and (not self.ports or self.ports & ports_of(frame))
                and (not self.blocks or any(end.addr in block for end in ends for block in self.blocks)))


class Growing:
    """A file that is read again for more at its end."""

    def __init__(self, file):
        self.file = file

    def read(self, length):
        data = self.file.read(length)
        while len(data) < length:
            time.sleep(POLL)
            data += self.file.read(length - len(data))
        return data


class Lines:
    """Prints the lines of captures. `show` is called with the number of packets."""

    def __init__(self, output, options, show):
        self.output, self.show, self.library = output, show, package()
        # A reader of the lines gets them as soon as no packet is there.
        frame_lines.Input.before_wait = output.flush
        self.filter = Filter.of(*(options.get(name, []) for name in ("--host", "--port", "--proto")))
        self.left = value_of("-c", count_of, options["-c"][-1]) if "-c" in options else None
        self.reassembler = self.library.Reassembler() if "--whole" in options else None
        self.has_colors = os.isatty(1) and not os.environ.get("NO_COLOR")
        self.is_followed = "--follow" in options
        self.clock, self.count, self.are_known = 0, 0, {}

    def print_file(self, source, prefix):
        """Returns after the last packet, or the last one that is wanted."""
        if self.is_followed:
            source = Growing(source)
        unknown = 0
        packets = () if self.left == 0 else lines_of_capture.read_packets(source, any_link=True)
        for number, packet in enumerate(packets, 1):
            self.count += 1
            self.show(self.count)
            unknown += not self.print_packet(f"{prefix}{number} {when(packet.time)}", packet)
            if self.is_followed:
                self.output.flush()
            if self.left == 0:
                break
        if unknown:
            frame_lines.report(f"of an unknown link type: {counted(unknown, 'packet')}")

    def print_packet(self, prefix, packet):
        """Returns whether its link type is known."""
        length = max(packet.original_len, len(packet.data)) - (FCS_LEN if packet.has_fcs else 0)
        frame = self.library.parse_linktype(packet.link_type, packet.data, max(length, 0))
        if self.filter.accepts(frame):
            self.print_line(prefix, frame, self.tags(packet), packet.link_type)
        if self.reassembler is not None and frame.is_fragment:
            self.print_whole(prefix, packet, frame)
        if packet.link_type not in self.are_known:
            self.are_known[packet.link_type] = frame.reason is not self.library.Reason.UNKNOWN_LINK
        return self.are_known[packet.link_type]

    def print_whole(self, prefix, packet, fragment):
        """Prints the packet whose last missing fragment this is."""
        now = (packet.time or 0) // 10**6
        if now <= LAST_TIME:
            self.clock = max(self.clock, now)
        link = bytes(12) + (b"\x86\xdd" if fragment.src.addr.version == 6 else b"\x08\0")
        try:
            whole = self.reassembler.reassemble(link + packet.data[fragment.network_offset :], self.clock)
        except self.library.WireError:
            return
        if whole is not None and self.filter.accepts(frame := self.library.parse_frame(whole)):
            self.print_line(prefix, frame, "whole ")

    def tags(self, packet):
        """The VLANs of an Ethernet frame."""
        if packet.link_type != ETHERNET or packet.data[12:14] not in (b"\x81\0", b"\x88\xa8", b"\x91\0"):
            return ""
        try:
            return "".join(f"vlan {tag & 0xFFF} " for tag in self.library.parse_link(ETHERNET, packet.data).tags)
        except self.library.Rejected:
            return ""

    def print_line(self, prefix, frame, words, link_type=ETHERNET):
        if self.left == 0:
            return
        line = str(frame)
        if link_type != ETHERNET and line.startswith("Ethernet "):
            line = NO_ETHERNET.sub(f"link type {link_type} ", line)
        if " ICMP type=" in line:
            line = with_name(line, frame)
        if self.has_colors and any(bad in line for bad in BAD):
            line = f"{RED}{line}{RESET}"
        self.output.add_text(f"{prefix}{words}{line}\n")
        if self.left is not None:
            self.left -= 1


def with_name(line, frame):
    """The line of an ICMP message, with the name of its type."""
    name = (ICMP if frame.protocol == 1 else ICMPV6).get(frame.icmp.type)
    return line if name is None else line.replace(f"type={frame.icmp.type} ", f"{name} ", 1).replace(" code=0", "", 1)


@lru_cache(maxsize=1)
def second_of(seconds):
    """The time in UTC. Packets that come together have the same."""
    try:
        return f"{EPOCH + timedelta(seconds=seconds):%Y-%m-%d %H:%M:%S}"
    except OverflowError:
        return str(seconds)


def when(nanoseconds):
    """The time of a packet."""
    if nanoseconds is None:
        return ""
    seconds, rest = divmod(nanoseconds, 10**9)
    return f"{second_of(seconds)}.{rest // 1000:06} "
