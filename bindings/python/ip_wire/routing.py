"""What routers do with frames: forwarding by a route, NAT, and the limit of the TCP segment size.

Each call returns a changed frame. A frame that a router or NAT must drop raises Rejected.
"""
from __future__ import annotations

import ctypes
import secrets
import time
from dataclasses import dataclass
from ipaddress import IPv4Address
from typing import Any, Iterable, Optional, Tuple

from . import _c as c
from ._convert import Address, AnyPrefix, Data, NamedInt, call, copied, data_of, member_of, number_of, represents, succeeded, to_c
from .addresses import Endpoint
from .headers import Rejected, Rejection


def _accept(rejection: int) -> None:
    if rejection:
        raise Rejected(Rejection(rejection))


def forward(frame: Data, src: bytes, dst: bytes) -> bytes:
    """The Ethernet frame one hop later (RFC 1812, section 5.3.1): with these Ethernet addresses, and a hop limit that is one
    less. Raises Rejected with NOT_IP, BAD_HEADER, WRONG_CHECKSUM or EXPIRED."""
    out = copied(frame)
    _accept(call("lk_forward", out, src, dst))
    return bytes(out)


class Offload(NamedInt):
    """Whether the TCP or UDP checksum of a frame is left to the device that sends it (checksum offload). No frame says
    so, but a virtio header and a packet socket do.

    GUESS: it is left to the device if the field is the sum of the pseudo-header, and is not valid as it is. This is wrong
    for one in 65,536 frames whose checksum is left to the device, and spoils it.
    """

    GUESS = 0
    OFFLOADED = 1
    COMPLETE = 2


def clamp_mss(frame: Data, mss: int, *, offload: Offload = Offload.GUESS) -> bytes:
    """The Ethernet frame, where the maximum segment size of a TCP SYN is `mss` at most. A router does so with each
    frame that comes in or leaves by a link with a smaller MTU: to the MTU less 40 over IPv4, and less 60 over IPv6.

    - Of several such options the last counts. A SYN without one stays as it is.
    - A valid TCP checksum stays valid, and a wrong one wrong. One that is left to the device is unchanged.
    - A frame stays as it is if `parse_frame` rejects a header, and if it is a fragment, has a wrong IPv4 header checksum,
      or has IPv6 extension headers before TCP.
    """
    out = copied(frame)
    call("lk_clamp_mss_as", out, mss, member_of(Offload, offload, "offload"))
    return bytes(out)


# ---- routes


@represents(c.Route)
@dataclass(frozen=True)
class Route:
    """A route to the addresses with a prefix. `interface` is a number that the caller chooses."""

    prefix: AnyPrefix
    interface: int
    next_hop: Optional[Address] = None  # None: the destinations are on the link


class Routes:
    """A list of routes, with an index by which a search takes few steps. The list does not change."""

    def __init__(self, routes: Iterable[Route]) -> None:
        self.routes: Tuple[Route, ...] = tuple(routes)
        count = len(self.routes)
        self._list = (c.Route * count)(*map(_route_to_c, self.routes))
        self._nodes = (c.RouteNode * count)()
        succeeded(call("lk_index_routes", self._list, self._nodes))

    def choose(self, addr: Address) -> Optional[Route]:
        """The route with the longest prefix that contains the address, of several the first. None if none does."""
        place = call("lk_choose_route", self._nodes, addr)
        return self.routes[place] if place >= 0 else None

    def check_source(self, src: Address, interface: int) -> None:
        """Raises Rejected unless a router may accept a packet from this address by this interface (strict reverse path
        forwarding, RFC 3704, section 2.2): with MARTIAN, NO_ROUTE or OTHER_INTERFACE."""
        _accept(call("lk_check_source", self._list, self._nodes, src, interface))


def _route_to_c(route: Route) -> Any:
    on_link = isinstance(route, Route) and route.next_hop is None
    return to_c(c.Route, route, "route", **({"next_hop": c.Addr()} if on_link else {}))


# ---- NAT


class Side(NamedInt):
    """The end of a packet whose address and port are replaced."""

    SOURCE = 0
    DESTINATION = 1


def translate(frame: Data, side: Side, end: Endpoint) -> bytes:
    """The Ethernet frame with another IPv4 address and UDP or TCP port (RFC 3022). The identifier of an ICMP echo
    counts as its port."""
    out = copied(frame)
    _accept(call("lk_translate", out, member_of(Side, side, "side"), end))
    return bytes(out)


class Nat:
    """A NAT with one outside IPv4 address and `ports` outside ports from `first_port` on. It keeps its mappings.

    The times are in milliseconds. `now` is a clock that never goes back, by default `time.monotonic`. `key` is random
    and secret, 16 bytes. Two threads must not use one NAT at once.
    """

    def __init__(
        self,
        outside: IPv4Address,
        first_port: int = 1024,
        ports: int = 64512,
        *,
        key: Optional[bytes] = None,
        udp_timeout: int = 300_000,  # RFC 4787, REQ-5
        tcp_timeout: int = 7_440_000,  # RFC 5382, REQ-5: of an established connection
        tcp_transitory_timeout: int = 240_000,  # of one that opens or closes
        icmp_timeout: int = 60_000,  # RFC 5508, REQ-2
    ) -> None:
        if not isinstance(outside, IPv4Address):
            raise TypeError(f"outside: an IPv4 address is needed, not {type(outside).__name__}")
        secret = data_of(secrets.token_bytes(16) if key is None else key, "key")
        if len(secret) != 16:
            raise ValueError(f"key: 16 bytes are needed, not {len(secret)}")
        words = [int.from_bytes(secret[place : place + 8], "little") for place in (0, 8)]
        timeouts = udp_timeout, tcp_timeout, tcp_transitory_timeout, icmp_timeout
        self._nat = to_c(c.Nat, (words, *timeouts, outside.packed, first_port, 0), "nat")
        self._mappings = (c.Mapping * (3 * number_of(ctypes.c_uint16, ports, "ports")))()

    def translate_out(self, frame: Data, now: Optional[int] = None) -> bytes:
        """The Ethernet frame as it leaves, with the outside address and port as its source."""
        return self._translated("lk_translate_out", frame, now)

    def translate_in(self, frame: Data, now: Optional[int] = None) -> bytes:
        """The Ethernet frame as it comes in, with the inside address and port as its destination."""
        return self._translated("lk_translate_in", frame, now)

    def shrink_reach(self, now: Optional[int] = None) -> None:
        """Shortens the search for the port of a new endpoint, after mappings have ended. Call it now and then, as once a
        minute: it reads all mappings. Each endpoint keeps its outside port."""
        call("lk_shrink_reach", self._nat, self._mappings, _milliseconds(now))

    def _translated(self, name: str, frame: Data, now: Optional[int]) -> bytes:
        out = copied(frame)
        _accept(call(name, self._nat, self._mappings, _milliseconds(now), out))
        return bytes(out)


def _milliseconds(now: Optional[int]) -> int:
    return time.monotonic_ns() // 1_000_000 if now is None else now
