"""Edits of one field of the packet in an Ethernet frame. The checksums that cover it are updated (RFC 1624): that of the
IPv4 header, and that of TCP, UDP, ICMP or ICMPv6. No other byte changes.

Each call returns the changed frame. It raises ValueError if the packet has no such field.

- A valid checksum stays valid, and a wrong one stays wrong. A UDP checksum of 0 over IPv4 stays 0. The exception is an ICMP
  message whose other bytes are all 0.
- A TCP or UDP checksum that is left to the device (checksum offload) stays so: an address changes it, as part of the
  pseudo-header, and nothing else does. `offload` says whether it is; without it the calls guess.
- `parse_frame` must read the IP header. Of TCP, UDP or ICMP only the bytes up to the checksum field must be there, also in
  the first of several fragments. Append zeros to a packet that was cut, up to its length: only `fill_checksum` needs the
  bytes themselves.
- IPv6 extension headers are stepped through, up to the header of a fragment. They are not changed. Not supported: a Home
  Address option (RFC 6275).
- Of the Ethernet header only the EtherType is used. Of a frame with VLAN tags edit `frame[link.offset - 14:]`, where `link`
  is that of `parse_link`.
- If an IPv4 source route has hops left, the checksum covers the last address of the route: a new destination makes a valid
  one wrong.
"""
from __future__ import annotations

from typing import Any

from ._convert import Address, Data, call, copied, member_of
from .routing import Offload, Side


def _edited(name: str, frame: Data, *values: Any) -> bytes:
    out = copied(frame)
    if not call(name, out, *values):
        raise ValueError(f"{name[len('lk_'):].replace('_as', '')}: the packet has no such field")
    return bytes(out)


def _edited_as(offload: Offload, name: str, frame: Data, *values: Any) -> bytes:
    return _edited(name, frame, *values, member_of(Offload, offload, "offload"))


def set_hop_limit(frame: Data, hop_limit: int) -> bytes:
    """The frame with another TTL of IPv4, or hop limit of IPv6, 0 to 255. `help(ip_wire.editing)` has what holds for all
    edits."""
    return _edited("lk_set_hop_limit", frame, hop_limit)


def set_dscp(frame: Data, dscp: int) -> bytes:
    """The frame with another DSCP, 0 to 63 (RFC 2474). ECN stays. Raises ValueError for other numbers."""
    return _edited("lk_set_dscp", frame, dscp)


def set_addr(frame: Data, side: Side, addr: Address, *, offload: Offload = Offload.GUESS) -> bytes:
    """The frame with another address. Raises ValueError if the packet has another version, and if a checksum covers the
    addresses and is not found:

    - TCP, UDP or ICMP is cut, or the length of UDP is below 8.
    - There is an authentication header: an edit would make it invalid.
    - An IPv6 extension header is rejected: it is cut, hop-by-hop options are not the first, or a routing header has
      segments left. Or another one follows the header of a fragment.
    - It is DCCP (33), OSPF (89), VRRP (112), UDP-Lite (136) or HIP (139), or over IPv6 PIM (103) or Mobility (135).

    Of a fragment that is not the first, only the IP header is updated.
    """
    return _edited_as(offload, "lk_set_addr_as", frame, member_of(Side, side, "side"), addr)


def set_port(frame: Data, side: Side, port: int, *, offload: Offload = Offload.GUESS) -> bytes:
    """The frame with another port of TCP or UDP, 0 to 65535. Raises ValueError if the packet has none."""
    return _edited_as(offload, "lk_set_port_as", frame, member_of(Side, side, "side"), port)


def set_bytes(frame: Data, offset: int, data: Data, *, offload: Offload = Offload.GUESS) -> bytes:
    """The frame with other bytes from byte `offset` on, as an option, an address, payload or padding. Raises ValueError if
    the frame does not have all of them, if they would replace one of these bytes, or if there are none and `offset` is
    between two of these bytes:

    - the Ethernet header,
    - the version, lengths, identification, flags, fragment offset, protocol and checksum of the IPv4 header,
    - the version, payload length and next header of the IPv6 header, and its extension headers,
    - the transport checksum, the data offset of TCP, and the length of UDP,
    - the payload of a fragment that is not the first, whose checksum is in the first one,
    - all from the addresses to the end of the packet, if a checksum covers the addresses and is not found (`set_addr`).
    """
    return _edited_as(offload, "lk_set_bytes_as", frame, offset, data)


def fill_checksum(frame: Data) -> bytes:
    """The frame with the TCP, UDP, ICMP or ICMPv6 checksum computed anew, as a device does for LEFT_TO_DEVICE, also where
    UDP has none. Raises ValueError for fragments other than atomic ones, and for UDP whose length does not fit.

    If an IPv4 source route has hops left, the result covers the next hop, and the last receiver rejects it.
    """
    return _edited("lk_fill_checksum", frame)
