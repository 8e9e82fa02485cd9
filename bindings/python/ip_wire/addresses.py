"""Addresses, endpoints and blocks, and their texts."""
from __future__ import annotations

from ipaddress import ip_interface
from typing import Any, NamedTuple

from . import _c as c
from ._convert import Address, AnyPrefix, Prefix, address_of, call, from_c, parsed, represents, written


@represents(c.Endpoint)
class Endpoint(NamedTuple):
    """An address with a port."""

    addr: Address
    port: int

    def __str__(self) -> str:
        return written(48, "lk_print_endpoint", self).decode()


def parse_addr(text: str) -> Address:
    """Parses an address. Other than by `ipaddress`, leading zeros are accepted, and a scope (%eth0) is rejected."""
    addr: Address = address_of(bytes(parsed(c.Addr(), "lk_parse_addr", text)))
    return addr


def print_addr(addr: Address) -> str:
    """Prints an address, by RFC 5952. IPv4-mapped addresses have dotted decimal: ::ffff:192.0.2.1."""
    return written(40, "lk_print_addr", addr).decode()


def parse_endpoint(text: str) -> Endpoint:
    """Parses `address:port`, with an IPv6 address in brackets; or an address by itself, with port 0."""
    return from_c(Endpoint, parsed(c.Endpoint(), "lk_parse_endpoint", text))


def parse_prefix(text: str) -> Prefix:
    """Parses a prefix (CIDR block). It keeps all bits of its address."""
    prefix: Any = parsed(c.Prefix(), "lk_parse_prefix", text)
    return ip_interface((address_of(bytes(prefix.addr)), prefix.prefix_len))


def print_prefix(prefix: AnyPrefix) -> str:
    """Prints a prefix (CIDR block), with all bits of its address."""
    return written(44, "lk_print_prefix", prefix).decode()


def contains(prefix: AnyPrefix, addr: Address) -> bool:
    """Whether the address has the prefix. No address has one of the other version."""
    return bool(call("lk_contains", prefix, addr))


def is_multicast(addr: Address) -> bool:
    """Whether the address is a multicast address (224.0.0.0/4, ff00::/8)."""
    return bool(call("lk_is_multicast", addr))


def is_unicast(addr: Address) -> bool:
    """Whether the address is neither multicast, nor unspecified (0.0.0.0, ::), nor 255.255.255.255."""
    return bool(call("lk_is_unicast", addr))


def parse_mac(text: str) -> bytes:
    """Parses six groups of 1 or 2 hex digits, all joined by '-' or all by ':'."""
    return bytes(parsed(c.Hardware(), "lk_parse_mac", text))


def print_mac(octets: bytes) -> str:
    """Prints six pairs of hex digits, joined by '-'."""
    return written(18, "lk_print_mac", octets).decode()
