"""Neighbour discovery, ICMP errors, and the answers of a host."""
from __future__ import annotations

import ctypes
from ctypes import POINTER, c_uint16
from dataclasses import dataclass
from ipaddress import IPv4Address, IPv6Address
from typing import Any, Optional, Tuple

from . import _c as c
from ._convert import Data, NamedInt, call, data_of, from_c, member_of, number_of, represents, to_c, written
from .addresses import Endpoint
from .headers import Ethernet, Headers


@represents(c.Ndisc)
@dataclass(frozen=True)
class Ndisc:
    """A neighbour solicitation or advertisement. `hardware` is its link-layer address option. A solicitation has no
    flags."""

    target: IPv6Address
    hardware: Optional[bytes] = None
    is_advert: bool = False
    is_router: bool = False
    is_solicited: bool = False
    overrides: bool = False


def parse_ndisc(frame: Data) -> Optional[Ndisc]:
    """The message in an Ethernet frame. None if there is none that is valid (RFC 4861, sections 7.1.1 and 7.1.2)."""
    ndisc = c.Ndisc()
    return from_c(Ndisc, ndisc) if call("lk_find_ndisc", frame, ndisc) else None


def emit_ndisc(ethernet: Ethernet, src: IPv6Address, dst: IPv6Address, ndisc: Ndisc) -> bytes:
    """Writes a whole frame with a message that `parse_ndisc` takes. The hop limit is 255."""
    headers = Headers(ethernet, Endpoint(src, 0), Endpoint(dst, 0))
    return written(86, "lk_emit_ndisc_frame", headers, ndisc)


def emit_mld_report(hardware: bytes, src: IPv6Address, group: IPv6Address) -> bytes:
    """Writes a whole frame with a report of version 1 (RFC 2710): the host with this Ethernet address listens to a multicast
    group. Send it when an interface comes up, and after each query that `parse_mld_query` finds. `src` is a link-local
    address, or `::` if there is none (RFC 3590, section 4). That the group is a multicast address is not checked."""
    return written(86, "lk_emit_mld_report", Headers(Ethernet(hardware, bytes(6)), Endpoint(src, 0), Endpoint(group, 0)))


def parse_mld_query(frame: Data, group: IPv6Address) -> Optional[int]:
    """The maximum response delay of a query in an Ethernet frame that asks for this multicast group, in milliseconds up to
    65,535: report the group after a random part of it (RFC 2710, section 4). None: there is no valid query for it."""
    query = c.MldQuery()
    return query.max_delay if call("lk_find_mld_query", frame, group, query) else None


class Problem(NamedInt):
    """Why a packet was dropped."""

    HOP_LIMIT_EXPIRED = 1
    PACKET_TOO_BIG = 2
    NO_ROUTE_TO_DESTINATION = 3
    NEIGHBOUR_MISSING = 4
    PORT_CLOSED = 5
    PROHIBITED = 6
    FRAGMENT_MISSING = 7


@represents(c.Interface)
@dataclass(frozen=True)
class Interface:
    """An interface of a host or router. 0.0.0.0 and `::` mean that it has no address of this version."""

    hardware: bytes
    ipv4: IPv4Address = IPv4Address(0)
    ipv6: IPv6Address = IPv6Address(0)

    def emit_error(self, problem: Problem, frame: Data, mtu: int = 0) -> Optional[bytes]:
        """An Ethernet frame with an ICMP error about a frame that came in by the interface, or None if it may get none.
        `mtu` is that of the next link, for PACKET_TOO_BIG. The caller limits the rate."""
        return written(1294, "lk_emit_icmp_error", self, member_of(Problem, problem, "problem"), mtu, frame) or None


@represents(c.Host)
@dataclass(frozen=True)
class Host:
    """A host with one interface and no connections. `seq_number` and what follows it is sent by an open port. 0.0.0.0 and
    `::` mean that it has no address of this version."""

    hardware: bytes
    ipv4: IPv4Address
    ipv6: IPv6Address
    seq_number: int  # hard to guess, another for each connection
    open_ports: Tuple[int, ...] = ()  # of TCP
    echo_port: int = 0  # of UDP; 0: none
    tsval: int = 0
    window_len: int = 65535
    mss: int = 1220
    window_scale: int = 0
    open_udp_ports: Tuple[int, ...] = ()  # packets to them get no reply
    is_router: bool = False  # it forwards packets, and its neighbour advertisements have the flag R

    def answer(self, frame: Data) -> Optional[bytes]:
        """The answer to an Ethernet frame, or None if it gets none."""
        data, tcp, udp = data_of(frame), _ports(self.open_ports), _ports(self.open_udp_ports)
        pointer = POINTER(c_uint16)
        host = to_c(c.Host, self, "host", open_ports=ctypes.cast(tcp, pointer), open_port_count=len(tcp),
                    open_udp_ports=ctypes.cast(udp, pointer), open_udp_port_count=len(udp))  # fmt: skip
        return written(len(data) + 114, "lk_answer", host, data) or None


def _ports(ports: Tuple[int, ...]) -> Any:
    """An array of ports in C."""
    return (c_uint16 * len(ports))(*(number_of(c_uint16, port, "port") for port in ports))
