"""Checksums and TCP sequence numbers."""
from __future__ import annotations

from typing import Union

from ._convert import Address, Data, call


def checksum(data: Data) -> int:
    """The Internet checksum (RFC 1071) before its complement."""
    return call("lk_checksum", data)


def update_checksum(field: int, before: Union[int, Address], after: Union[int, Address], *, udp: bool = False) -> int:
    """The checksum field after a 16-bit word or an address that it covers changed (RFC 1624). A field that was left to
    the device is the complement of another one, and covers only the pseudo-header."""
    if isinstance(before, int):
        return call("lk_update_udp_checksum" if udp else "lk_update_checksum", field, before, after)
    return call("lk_update_udp_checksum_addr" if udp else "lk_update_checksum_addr", field, before, after)


def update_checksum_bytes(field: int, offset: int, before: Data, after: Data, *, udp: bool = False) -> int:
    """The checksum field after bytes at this offset in what it covers were replaced (RFC 1624). The lengths are equal
    or differ by an even number, unless nothing follows the bytes."""
    name = "lk_update_udp_checksum_bytes" if udp else "lk_update_checksum_bytes"
    return call(name, field, offset, before, after)


def add_seq(seq: int, steps: int) -> int:
    """The TCP sequence number `steps` after `seq`, modulo 2^32."""
    return call("lk_add_seq", seq, steps)


def subtract_seq(a: int, b: int) -> int:
    """How far `a` is after `b`; below 0 if it is before. At a distance of 2^31 it is -2^31."""
    return call("lk_subtract_seq", a, b)


def compare_seq(a: int, b: int) -> int:
    """-1 if `a` is before `b`, 0 if they are equal, 1 if it is after. At a distance of 2^31 each is before the
    other."""
    return call("lk_compare_seq", a, b)
