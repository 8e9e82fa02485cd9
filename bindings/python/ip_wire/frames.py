"""Frames and packets that are parsed."""
from __future__ import annotations

from ctypes import c_int, c_size_t, c_uint32, create_string_buffer
from dataclasses import dataclass, field
from struct import Struct
from typing import Any, Callable, Dict, Iterable, Iterator, Optional, Tuple, Type

from . import _c as c
from ._convert import Data, NamedInt, call, data_of, from_c, number_of, reader, to_c
from .addresses import Endpoint
from .headers import Arp, Ethernet, Headers, Icmp, Ip, Reason, Rejected, Tcp, TcpOptions, options_from_c
from .numbers import IcmpType, Icmpv6Type


class Network(NamedInt):
    """The protocol after the Ethernet header."""

    ARP = 1
    IPV4 = 2
    IPV6 = 3


class Transport(NamedInt):
    """The protocol after the IP header."""

    UDP = 1
    TCP = 2
    ICMP = 3


class Verdict(NamedInt):
    """What a checksum says."""

    NOT_READ = 0
    VALID = 1
    INVALID = 2
    OMITTED = 3
    PARTIAL = 4
    CUT = 5


@dataclass(frozen=True)
class Link:
    """A link-layer header that was parsed."""

    offset: int  # where the packet begins
    type: int  # the EtherType of the packet; 0: the header has none
    tags: Tuple[int, ...]  # the control information of each VLAN tag, the outer one first; at most 2


_LINE = 276  # LK_FRAME_TEXT
# ICMP errors over IPv4.
_ERRORS = (
    IcmpType.UNREACHABLE, IcmpType.SOURCE_QUENCH, IcmpType.REDIRECT, IcmpType.TIME_EXCEEDED, IcmpType.PARAMETER_PROBLEM,
)  # fmt: skip


@dataclass(frozen=True)
class Frame:
    """A frame that was parsed. A header that is not there is None. A value is made when it is asked for first.

    The headers before a rejected one are there, and the payload begins at the rejected header. So call `check`
    first, if the payload is to be trusted.

        data                what was parsed
        reason              why a header was rejected; None: none was
        ethernet            None also if a packet was parsed, or a link type other than 1
        network, transport  the headers that were read
        arp, ip, tcp, icmp  their values; `tcp` also of a header that was rejected
        src, dst            of ARP or IP; the port is 0 unless a UDP or TCP header is there, or begins in a fragment
        protocol            the number of the transport or the payload of an IP packet, after IPv6 extension headers
        is_fragment         a part of an IP packet, so only ports of its payload are there
        rejected            the header that was rejected, but has its ports in `src` and `dst`
        tcp_header          the bytes of the header that was read, with its options; else empty
        ipv4_checksum       what the checksum of the IPv4 header says
        transport_checksum  what that of UDP, TCP or ICMP says
        network_offset      of the ARP or IP header in `data`
        transport_offset    of the UDP, TCP or ICMP header
        payload_offset      of the payload
        payload_len         of the whole frame: the payload may end past the captured bytes
    """

    data: bytes = field(repr=False)
    reason: Optional[Reason]
    ethernet: Optional[Ethernet]
    network: Optional[Network]
    arp: Optional[Arp]
    ip: Optional[Ip]
    src: Optional[Endpoint]
    dst: Optional[Endpoint]
    protocol: Optional[int]
    is_fragment: bool
    transport: Optional[Transport]
    rejected: Optional[Transport]
    tcp: Optional[Tcp]
    tcp_header: bytes
    icmp: Optional[Icmp]
    ipv4_checksum: Verdict
    transport_checksum: Verdict
    network_offset: Optional[int]
    transport_offset: Optional[int]
    payload_offset: int
    payload_len: int
    _struct: bytes = field(repr=False, compare=False)

    def __str__(self) -> str:
        """One line: the addresses, the innermost header, the length of the payload and what is wrong."""
        out = create_string_buffer(_LINE)
        c.library.lk_print_frame(c.Frame.from_buffer_copy(self._struct), out, _LINE)
        return out.value.decode()

    @property
    def payload(self) -> bytes:
        """The payload, as far as it was captured."""
        return self.data[self.payload_offset : self.payload_offset + _payload_captured(self)]

    def check(self) -> None:
        """Raises Rejected if a header was rejected or a checksum is wrong."""
        if self.reason is not None or Verdict.INVALID in (self.ipv4_checksum, self.transport_checksum):
            raise Rejected(self.reason)

    def headers(self) -> Headers:
        """The headers of an IP packet, to emit them again. Raises ValueError unless it is one."""
        if self.ip is None or self.src is None or self.dst is None:
            raise ValueError("the frame has no IP packet")
        ethernet = self.ethernet or Ethernet(bytes(6), bytes(6))
        return Headers(ethernet, self.src, self.dst, self.ip)

    def reply(self) -> Headers:
        """The headers of a reply: addresses and ports are exchanged. The IP header is that of a new packet, with the same
        DSCP. Raises ValueError unless it is an IP packet."""
        frame = to_c(c.Frame, self.headers(), "headers")
        call("lk_make_reply", frame)
        ends = from_c(Endpoint, frame.src), from_c(Endpoint, frame.dst)
        return Headers(from_c(Ethernet, frame.ethernet), *ends, from_c(Ip, frame.ip))

    def parse_quoted(self) -> Optional[Frame]:
        """Parses the packet that an ICMP error quotes, as far as it is quoted. Call `check` of the error first.

        Returns None if this is no ICMP error. Errors are of type 3, 4, 5, 11 and 12 over IPv4 (RFC 1122, section 3.2.2),
        and below 128 over IPv6 (RFC 4443, section 2.1). Offsets count from the first byte of the quoted packet.

        A header that is not quoted as a whole is rejected with HEADER_CUT. RFC 792 asks only for 8 bytes after the IP
        header: then a TCP header is cut, and its ports are the first 4 bytes of the payload. Extensions of RFC 4884 may
        count as bytes of the quoted packet.
        """
        if self.icmp is None:
            return None
        is_error = self.icmp.type in _ERRORS if self.network == Network.IPV4 else self.icmp.type < Icmpv6Type.ECHO_REQUEST
        return parse_captured(self.payload, c.MAX_LEN, is_packet=True) if is_error else None


# ---- how the values of a parsed frame are made


def _member(name: str, enum: Type[NamedInt]) -> Callable[[Frame], Any]:
    """The member of an enum. It is None for 0 if the enum has no such member."""
    place = getattr(c.Frame, name).offset
    members: Dict[int, Optional[NamedInt]] = {0: None}
    members.update((int(member), member) for member in enum)
    return lambda frame: members[frame._struct[place]]


def _size(name: str) -> Callable[[Frame], Any]:
    place, unpack = getattr(c.Frame, name).offset, Struct("N").unpack_from
    return lambda frame: unpack(frame._struct, place)[0]


_payload_captured = _size("payload_captured")


def _object(cls: Callable[..., Any], name: str) -> Callable[[Frame], Any]:
    place, read = getattr(c.Frame, name).offset, reader(cls, dict(c.Frame._fields_)[name])
    return lambda frame: read(frame._struct, place)


def _if(is_there: Callable[[Frame], Any], make: Callable[[Frame], Any]) -> Callable[[Frame], Any]:
    """The value, or None."""
    return lambda frame: make(frame) if is_there(frame) else None


def _end(name: str) -> Callable[[Frame], Optional[Endpoint]]:
    version = getattr(c.Frame, name).offset + c.Addr.version.offset
    return _if(lambda frame: frame._struct[version], _object(Endpoint, name))


def _arp_of(frame: Any) -> Arp:
    arp = c.Frame.from_buffer_copy(frame._struct).arp
    return Arp(arp.operation, bytes(arp.src_hardware), bytes(arp.dst_hardware), frame.src.addr, frame.dst.addr)


def _tcp_header_of(frame: Frame) -> bytes:
    start = frame.transport_offset
    length = frame._struct[c.Frame.tcp.offset + c.Tcp.header_len.offset]
    return frame.data[start : start + length] if frame.transport == Transport.TCP and start is not None else b""


def _is_ip(frame: Frame) -> bool:
    return frame.network in (Network.IPV4, Network.IPV6)


_MAKERS: Dict[str, Callable[[Frame], Any]] = {
    "reason": _member("reason", Reason),
    "ethernet": _if(lambda frame: frame.payload_offset >= 14, _object(Ethernet, "ethernet")),
    "network": _member("network", Network),
    "arp": _if(lambda frame: frame.network == Network.ARP, _arp_of),
    "ip": _if(_is_ip, _object(Ip, "ip")),
    "src": _end("src"),
    "dst": _end("dst"),
    "protocol": _if(_is_ip, lambda frame: frame._struct[c.Frame.protocol.offset]),
    "is_fragment": lambda frame: frame._struct[c.Frame.is_fragment.offset] != 0,
    "transport": _member("transport", Transport),
    "rejected": _member("rejected", Transport),
    "tcp": _if(lambda frame: Transport.TCP in (frame.transport, frame.rejected), _object(Tcp, "tcp")),
    "tcp_header": _tcp_header_of,
    "icmp": _if(lambda frame: frame.transport == Transport.ICMP, _object(Icmp, "icmp")),
    "ipv4_checksum": _member("ipv4_checksum", Verdict),
    "transport_checksum": _member("transport_checksum", Verdict),
    "network_offset": _if(lambda frame: frame.network, _size("network_offset")),
    "transport_offset": _if(lambda frame: frame.transport or frame.rejected, _size("transport_offset")),
    "payload_offset": _size("payload_offset"),
    "payload_len": _size("payload_len"),
}


class _Value:
    """A value that is made when it is asked for, and kept. Where an object has it already, this is not used."""

    def __init__(self, name: str, make: Callable[[Frame], Any]) -> None:
        self.name, self.make = name, make

    def __get__(self, frame: Optional[Frame], cls: Type[Frame]) -> Any:
        if frame is None:
            raise AttributeError(self.name)
        value = frame.__dict__[self.name] = self.make(frame)
        return value


for _name_of_value, _make in _MAKERS.items():
    setattr(Frame, _name_of_value, _Value(_name_of_value, _make))


def _frame_of(struct: bytes, data: bytes, is_ethernet: bool = True) -> Frame:
    frame = object.__new__(Frame)
    values = frame.__dict__
    values["data"], values["_struct"] = data, struct
    if not is_ethernet:
        values["ethernet"] = None
    return frame


# ---- parsing

_read_frame = c.library.lk_read_frame


def _parse(read: Callable[..., int], data: bytes, *length: int, is_ethernet: bool = True) -> Frame:
    frame = c.Frame()
    read(data, len(data), *length, frame)
    return _frame_of(bytes(frame), data, is_ethernet)


def parse_frame(data: Data) -> Frame:
    """Parses an Ethernet frame. A wrong frame raises nothing: `Frame.check` does."""
    return _parse(_read_frame, data_of(data))


def parse_frames(frames: Iterable[Data]) -> Iterator[Frame]:
    """Parses Ethernet frames, each one when the loop asks for it. This is faster than `parse_frame` for each."""
    frame = c.Frame()
    for data in frames:
        octets = data_of(data)
        _read_frame(octets, len(octets), frame)
        yield _frame_of(bytes(frame), octets)


def parse_frame_options(data: Data) -> Tuple[Frame, Optional[TcpOptions]]:
    """Parses an Ethernet frame and the options of its TCP header. None: no TCP header was read."""
    struct, options, octets = c.Frame(), c.TcpOptions(), data_of(data)
    call("lk_read_frame_options", octets, struct, options)
    frame = _frame_of(bytes(struct), octets)
    return frame, options_from_c(options) if frame.transport == Transport.TCP else None


def parse_packet(data: Data) -> Frame:
    """Parses a packet that begins with its IPv4 or IPv6 header."""
    return _parse(c.library.lk_read_packet, data_of(data), is_ethernet=False)


def _len_of(length: int) -> int:
    """The length of a frame, as the library takes it."""
    return min(number_of(c_size_t, length, "length"), c.MAX_LEN)


def parse_captured(data: Data, length: int, *, is_packet: bool = False) -> Frame:
    """Parses a frame or packet of this length, of which only `data` was captured. If the length is not known,
    `sys.maxsize` serves: the lengths in the headers count."""
    length = _len_of(length)
    captured = data_of(data)[:length]
    read = c.library.lk_read_captured_packet if is_packet else c.library.lk_read_captured
    return _parse(read, captured, length, is_ethernet=not is_packet)


def parse_link(link_type: int, data: Data) -> Link:
    """Parses the link-layer header of a packet, up to its VLAN tags. Raises Rejected.

    `link_type` is the number that a capture file has (www.tcpdump.org/linktypes.html): 0, 1, 12, 14, 101, 108, 113, 228,
    229 or 276, else the reason is UNKNOWN_LINK."""
    link = c.Link()
    reason = call("lk_read_link", link_type, data, link)
    if reason:
        raise Rejected(Reason(reason))
    return Link(link.offset, link.type, tuple(link.tags[: link.tag_count]))


def parse_linktype(link_type: int, data: Data, length: Optional[int] = None) -> Frame:
    """Parses a packet of any link type that `parse_link` knows, and of this length. None: all of it was captured."""
    captured = data_of(data)
    length = len(captured) if length is None else _len_of(length)
    captured = captured[:length]
    frame = c.Frame()
    c.library.lk_read_linktype(number_of(c_uint32, link_type, "link_type"), captured, len(captured), length, frame)
    return _frame_of(bytes(frame), captured, link_type == 1)


def _name(name_of: Callable[[int], bytes], number: int, what: str) -> str:
    return name_of(number_of(c_int, number, what)).decode()


def protocol_name(protocol: int) -> str:
    """The name of an IP protocol, as "UDP" for 17, or "unknown"."""
    return _name(c.library.lk_protocol_name, protocol, "protocol")


def ethertype_name(ethertype: int) -> str:
    """The name of an EtherType, as "IPv6" for 0x86dd, or "unknown"."""
    return _name(c.library.lk_ethertype_name, ethertype, "ethertype")
