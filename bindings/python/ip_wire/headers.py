"""The values of headers, the options of TCP, and the headers of an IPv6 packet."""
from __future__ import annotations

from dataclasses import dataclass, field
from enum import IntFlag
from ipaddress import IPv4Address
from typing import Any, Dict, Iterator, NamedTuple, Optional, Tuple, Union

from . import _c as c
from ._convert import Data, NamedInt, WireError, call, data_of, from_c, represents, succeeded, to_c
from .addresses import Endpoint


class Reason(NamedInt):
    """Why a header was rejected. If several reasons apply to it, it is the first of them."""

    TOO_SHORT = 1
    BAD_VERSION = 2
    BAD_LENGTH = 3
    OTHER_ARP = 4
    PORT_ZERO = 5
    BAD_FLAGS = 6
    BAD_OPTIONS = 7
    HEADER_CUT = 8
    UNKNOWN_LINK = 9
    HOPS_LEFT = 10
    BAD_ORDER = 11


class Rejection(NamedInt):
    """Why a frame is not forwarded, translated or accepted. If several reasons apply, it is the first of them."""

    NO_IPV4 = 1
    NOT_IP = 2
    BAD_HEADER = 3
    WRONG_CHECKSUM = 4
    HOP_LIMIT_TOO_LOW = 5
    FRAGMENT = 6
    OTHER_PROTOCOL = 7
    BAD_TRANSPORT = 8
    PORT_ZERO = 9
    NO_MAPPING = 10
    NO_FREE_PORT = 11
    MARTIAN = 12
    NO_ROUTE_TO_SOURCE = 13
    OTHER_INTERFACE = 14


class Rejected(ValueError):
    """A frame is rejected. `reason` is a Reason for a header, None for a wrong checksum, and a Rejection by a router or
    NAT."""

    def __init__(self, reason: Union[Reason, Rejection, None]) -> None:
        what = "a header was" if isinstance(reason, Reason) else "the packet was"
        super().__init__("a checksum is wrong" if reason is None else f"{what} rejected: {reason.name}")
        self.reason = reason


class TcpFlag(IntFlag):
    """The flags of a TCP header."""

    FIN = 1
    SYN = 2
    RST = 4
    PSH = 8
    ACK = 16
    URG = 32
    ECE = 64
    CWR = 128

    def __str__(self) -> str:
        """The names, as "SYN|ACK", or "0" without flags."""
        return "|".join(str(flag.name) for flag in TcpFlag if flag in self) or "0"

    def __format__(self, spec: str) -> str:
        return format(self.value if spec[-1:] in set("bcdnoxX") else str(self), spec)


@represents(c.Ethernet)
@dataclass(frozen=True)
class Ethernet:
    """An Ethernet header. `type` is filled in when a frame is emitted."""

    src: bytes
    dst: bytes
    type: int = 0


@represents(c.Arp)
@dataclass(frozen=True)
class Arp:
    """An ARP packet for Ethernet and IPv4. `operation` is an ArpOperation."""

    operation: int
    src_hardware: bytes
    dst_hardware: bytes
    src: IPv4Address
    dst: IPv4Address


@represents(c.Ip)
@dataclass(frozen=True)
class Ip:
    """An IP header without its addresses and lengths. `protocol` is filled in when a frame is emitted."""

    hop_limit: int = 64
    dont_fragment: bool = True  # IPv4
    dscp: int = 0
    ecn: int = 0
    ident: int = 0
    flow_label: int = 0  # IPv6
    fragment_offset: int = 0  # in bytes
    more_fragments: bool = False
    protocol: int = 0


@represents(c.Frame)
@dataclass(frozen=True)
class Headers:
    """The headers of a UDP, TCP or ICMP packet."""

    ethernet: Ethernet
    src: Endpoint
    dst: Endpoint
    ip: Ip = field(default_factory=Ip)


@represents(c.Tcp)
@dataclass(frozen=True)
class Tcp:
    """A TCP header without its ports, checksum and options."""

    seq_number: int = 0
    ack_number: int = 0
    window_len: int = 0  # before scaling
    flags: TcpFlag = TcpFlag(0)
    urgent_at: int = 0


@represents(c.Icmp)
@dataclass(frozen=True)
class Icmp:
    """The header of an ICMP message, without its checksum. The payload follows it: the data of an echo, or the packet
    that an error quotes."""

    type: int  # an IcmpType, over IPv6 an Icmpv6Type
    code: int = 0
    word: int = 0  # bytes 4 to 7


# ---- TCP options


@represents(c.TcpOptions)
@dataclass(frozen=True)
class TcpOptions:
    """The options of a TCP header. A SACK range is from its first number up to the second, without it."""

    mss: Optional[int] = None
    window_scale: Optional[int] = None
    sack_permitted: bool = False
    sack_ranges: Tuple[Tuple[int, int], ...] = ()
    timestamp: Optional[Tuple[int, int]] = None  # tsval, tsecr


class RawOption(NamedTuple):
    """An option of a TCP header, of any kind. `data` is what follows the kind and the length."""

    kind: int
    offset: int
    data: bytes


def options_to_c(options: TcpOptions) -> Any:
    """The struct of the options."""
    others: Dict[str, int] = {}
    if isinstance(options, TcpOptions):
        if len(options.sack_ranges) > 4:
            raise WireError("LK_OPTIONS_TOO_LONG")
        others["sack_range_count"] = len(options.sack_ranges)
        if options.timestamp is not None:
            others["tsval"], others["tsecr"] = options.timestamp
            others["has_timestamp"] = 1
    return to_c(c.TcpOptions, options, "options", **others)


def tcp_header_len(options: TcpOptions) -> int:
    """The length of a TCP header with these options, 20 to 60 bytes."""
    return succeeded(call("lk_tcp_header_len", options_to_c(options)))


def options_from_c(options: Any) -> TcpOptions:
    """The options in a struct."""
    return TcpOptions(
        options.mss if options.has_mss else None,
        options.window_scale if options.has_window_scale else None,
        bool(options.sack_permitted),
        tuple((r.left, r.right) for r in options.sack_ranges[: options.sack_range_count]),
        (options.tsval, options.tsecr) if options.has_timestamp else None,
    )


def parse_tcp_options(header: Data) -> Optional[TcpOptions]:
    """Parses the options of a TCP header. None if one is malformed, or the header is shorter than it says."""
    options = c.TcpOptions()
    return options_from_c(options) if call("lk_find_tcp_options", header, options) else None


def raw_tcp_options(header: Data) -> Iterator[RawOption]:
    """The options of a TCP header, of every kind, with padding. Raises Rejected at a malformed one."""
    data, option = data_of(header), c.TcpOption()
    while call("lk_next_tcp_option", data, option):
        end = option.offset + option.len
        yield RawOption(option.kind, option.offset, data[option.offset + 2 : end])
    if option.is_malformed:
        raise Rejected(Reason.BAD_OPTIONS)


# ---- IPv6 headers


@dataclass(frozen=True)
class Ipv6Header:
    """Where a header of an IPv6 packet is. What follows it begins at `offset + len`."""

    offset: int
    len: int  # in bytes
    protocol: int  # its own number; Protocol.IPV6: the IPv6 header
    next: int  # the number of what follows it; Protocol.IPV6_NO_NEXT: nothing


def ipv6_headers(packet: Data) -> Iterator[Ipv6Header]:
    """The IPv6 header of a packet, and its extension headers. Raises Rejected with TOO_SHORT or BAD_VERSION at the IPv6
    header, and with BAD_LENGTH at an extension header that does not end within the packet and these bytes.

    After the header of a fragment that is not the first `next` is 59."""
    data, header = data_of(packet), c.Ipv6Header()
    while call("lk_next_ipv6_header", data, header):
        yield from_c(Ipv6Header, header)
    if header.is_malformed:
        at_first = Reason.TOO_SHORT if len(data) < 40 else Reason.BAD_VERSION
        raise Rejected(Reason.BAD_LENGTH if header.len else at_first)
