"""Frames and single headers that are written. A failure raises WireError."""
from __future__ import annotations

import ctypes
import itertools
from typing import Any, Iterator, Union

from . import _c as c
from ._convert import Address, Data, call, data_of, number_of, succeeded, to_c, written
from .addresses import Endpoint
from .headers import Arp, Ethernet, Headers, Icmp, Ip, Tcp, TcpOptions, options_to_c

Buffer = Union[bytearray, memoryview]
_ETHERNET, _IP, _TCP, _UDP = 14, 40, 60, 8  # the longest headers, in bytes


# ---- whole frames, or IP packets if not `framed`: EtherType, protocol, lengths and checksums are filled in


def emit_udp(headers: Headers, payload: Data, *, framed: bool = True) -> bytes:
    """Writes a whole frame with a UDP packet. If not `framed`, the IP packet without Ethernet, as for a TUN device."""
    data, frame = data_of(payload), to_c(c.Frame, headers, "headers")
    return written(_ETHERNET + _IP + _UDP + len(data), "lk_emit_udp_frame" if framed else "lk_emit_udp_packet", frame, data)


def emit_tcp(
    headers: Headers, tcp: Tcp, options: TcpOptions = TcpOptions(), payload: Data = b"", *, framed: bool = True
) -> bytes:
    """Writes a whole frame with a TCP segment. If not `framed`, the IP packet without Ethernet."""
    data, frame = data_of(payload), to_c(c.Frame, headers, "headers", tcp=tcp)
    name = "lk_emit_tcp_frame" if framed else "lk_emit_tcp_packet"
    return written(_ETHERNET + _IP + _TCP + len(data), name, frame, options_to_c(options), data)


def emit_icmp(headers: Headers, icmp: Icmp, payload: Data = b"", *, framed: bool = True) -> bytes:
    """Writes a whole frame with an ICMP message. The ports are not used. If not `framed`, the IP packet without Ethernet."""
    data, frame = data_of(payload), to_c(c.Frame, headers, "headers", icmp=icmp)
    return written(_ETHERNET + _IP + _UDP + len(data), "lk_emit_icmp_frame" if framed else "lk_emit_icmp_packet", frame, data)


def emit_arp(ethernet: Ethernet, arp: Arp) -> bytes:
    """Writes a whole frame with an ARP packet, 42 bytes."""
    packet = to_c(c.Arp, arp, "arp")
    headers = Headers(ethernet, Endpoint(arp.src, 0), Endpoint(arp.dst, 0))
    return written(42, "lk_emit_arp_frame", to_c(c.Frame, headers, "headers", arp=packet))


def rebuild(frame: Data) -> bytes:
    """Parses an Ethernet frame, and emits each header again from its values, without padding."""
    data = data_of(frame)
    return written(len(data), "lk_rebuild", data)


def fragments(frame: Data, mtu: int, ident: Union[int, None] = None) -> Iterator[bytes]:
    """Cuts the IP packet of an Ethernet frame into fragments for a link with this MTU (RFC 791, section 3.2; RFC 8200,
    section 4.5), each in an Ethernet frame with the same header. A packet that fits is its only fragment.

    Without `ident` an IPv4 packet keeps its identification, and is cut only if DF is clear; an IPv6 packet is not cut.
    With it the fragments have this identification, over IPv4 of 16 bits, and DF is clear. No other packet between these
    addresses, over IPv4 of the same protocol, may have it for two minutes (RFC 6864)."""
    data = data_of(frame)
    own = -1 if ident is None else number_of(ctypes.c_uint32, ident, "ident")
    for number in itertools.count():
        fragment = written(len(data), "lk_fragment", data, mtu, own, number)
        if not fragment:
            return
        yield fragment


# ---- headers before a payload that is in a buffer already


def wrap_udp(headers: Headers, payload_len: int, out: Buffer, *, framed: bool = True) -> int:
    """Writes the headers of a frame with UDP, and returns its length. The payload begins at byte 42 of `out` over IPv4,
    and at byte 62 over IPv6. If not `framed`, the headers of an IP packet, and the payload begins 14 bytes before."""
    frame = to_c(c.Frame, headers, "headers")
    return succeeded(call("lk_wrap_udp_frame" if framed else "lk_wrap_udp_packet", frame, payload_len, _buffer(out)))


def wrap_tcp(
    headers: Headers, tcp: Tcp, options: TcpOptions, payload_len: int, out: Buffer, *, framed: bool = True
) -> int:
    """Writes the headers of a frame with TCP, and returns its length. The payload begins at byte 34 of `out` over IPv4,
    and at byte 54 over IPv6, plus `tcp_header_len(options)`. If not `framed`, the headers of an IP packet, and the payload
    begins 14 bytes before."""
    frame = to_c(c.Frame, headers, "headers", tcp=tcp)
    name = "lk_wrap_tcp_frame" if framed else "lk_wrap_tcp_packet"
    return succeeded(call(name, frame, options_to_c(options), payload_len, _buffer(out)))


def _buffer(out: Buffer) -> Any:
    """The memory of a buffer, for a call that writes to it."""
    return (ctypes.c_uint8 * memoryview(out).nbytes).from_buffer(out)


# ---- the layers one by one: a checksum is 0 unless it is `computed`


def emit_ethernet_header(ethernet: Ethernet) -> bytes:
    """Writes an Ethernet header, 14 bytes."""
    return written(_ETHERNET, "lk_emit_ethernet", ethernet)


def emit_arp_packet(arp: Arp) -> bytes:
    """Writes an ARP packet, 28 bytes."""
    packet = to_c(c.Arp, arp, "arp")
    return written(28, "lk_emit_arp", packet, arp.src, arp.dst)


def emit_ip_header(ip: Ip, src: Address, dst: Address, payload_len: int, *, computed: bool = True) -> bytes:
    """Writes an IPv4 header of 20 bytes or an IPv6 header of 40 bytes, by the version of the addresses."""
    return written(_IP, "lk_emit_ip", ip, src, dst, payload_len, computed)


def emit_udp_packet(src: Endpoint, dst: Endpoint, payload: Data, *, computed: bool = True) -> bytes:
    """Writes a UDP header and the payload, of at most 65527 bytes."""
    data = data_of(payload)
    return written(_UDP + len(data), "lk_emit_udp", src, dst, data, computed)


def emit_tcp_segment(
    tcp: Tcp,
    src: Endpoint,
    dst: Endpoint,
    options: TcpOptions = TcpOptions(),
    payload: Data = b"",
    *,
    computed: bool = True,
) -> bytes:
    """Writes a TCP header with its options and the payload, together at most 65535 bytes."""
    data = data_of(payload)
    return written(_TCP + len(data), "lk_emit_tcp", tcp, options_to_c(options), src, dst, data, computed)


def emit_icmp_message(icmp: Icmp, src: Address, dst: Address, payload: Data = b"", *, computed: bool = True) -> bytes:
    """Writes the header of an ICMP message and the payload, of at most 65527 bytes."""
    data = data_of(payload)
    return written(_UDP + len(data), "lk_emit_icmp", icmp, src, dst, data, computed)
