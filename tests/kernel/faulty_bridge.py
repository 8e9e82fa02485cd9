#!/usr/bin/env python3
"""Bridges between two TAP devices over the library, each with one fault that tests/kernel must notice.

tests/kernel/faulty_bridge.py                                  prints the faults, a line each
tests/kernel/faulty_bridge.py LIBRARY FAULT DEVICE DEVICE      is programs/bridge.c over this shared library, with the fault

`no fault` is the control: tests/kernel must notice nothing.
"""
import contextlib
import ctypes
import fcntl
import os
import select
import struct
import sys

import packets
from rebuilt import TCP, TIMESTAMP, UDP, WINDOW_SCALE, number, pseudo_header

TUNSETIFF, IFF_TAP, IFF_NO_PI = 0x400454CA, 2, 0x1000
LONGEST = 65535 + 18


class Parts:
    """The places in an IP packet of a frame. `transport` is 0 where no UDP or TCP packet fills the packet and the frame."""

    def __init__(self, frame):
        self.is_ipv4, is_ipv6 = frame[12:15] == b"\x08\x00\x45", frame[12:14] == b"\x86\xdd"
        self.hop_limit, self.protocol = (22, 23) if self.is_ipv4 else (21, 20)
        at, length = (34, number(frame[16:18]) + 14) if self.is_ipv4 else (54, number(frame[18:20]) + 54)
        protocol = frame[self.protocol] if len(frame) >= at else 0
        is_whole = length == len(frame) and (is_ipv6 or self.is_ipv4 and not number(frame[20:22]) & 0x3FFF)
        is_udp = protocol == UDP and at + 8 <= length == at + number(frame[at + 4 : at + 6])
        self.transport = at if is_whole and (is_udp or protocol == TCP and at + 20 <= length) else 0
        self.checksum = at + (6 if is_udp else 16)
        ends = frame[26:34] if self.is_ipv4 else frame[22:54]
        self.pseudo = pseudo_header(protocol, len(frame) - at, {"src": ends, "dst": b""}) if self.transport else b""


def with_checksums(frame):
    """The frame with a valid checksum in an IPv4 header of 20 bytes, and in UDP or TCP."""
    parts, frame = Parts(frame), bytearray(frame)
    if parts.is_ipv4 and len(frame) >= 34:
        frame[24:26] = bytes(2)
        frame[24:26] = struct.pack(">H", 0xFFFF - packets.word_sum(bytes(frame[14:34])))
    if parts.transport:
        at = parts.checksum
        frame[at : at + 2] = bytes(2)
        frame[at : at + 2] = struct.pack(">H", 0xFFFF - packets.word_sum(parts.pseudo + bytes(frame[parts.transport :])) or 0xFFFF)
    return bytes(frame)


def changed(place, change=lambda octet: octet ^ 1):
    """A fault that changes a byte of a rebuilt frame with valid checksums, and keeps these valid."""
    def fault(rebuilt):
        at = place(rebuilt, Parts(rebuilt))
        if not at or at >= len(rebuilt) or with_checksums(rebuilt) != rebuilt:
            return rebuilt
        return with_checksums(rebuilt[:at] + bytes([change(rebuilt[at])]) + rebuilt[at + 1 :])
    return fault


def of_tcp(at):
    """The place of a byte in a TCP segment."""
    return lambda frame, parts: parts.transport and frame[parts.protocol] == TCP and parts.transport + at


def of_option(kind, at):
    """The place of a byte in the first option of this kind."""
    def place(frame, parts):
        here = of_tcp(20)(frame, parts)
        while here and here + 1 < len(frame) and frame[here] not in (0, kind) and frame[here + 1]:
            here += frame[here + 1]
        return here and here < len(frame) and frame[here] == kind and here + at
    return place


FAULTS = {
    "no fault": lambda rebuilt: rebuilt,
    "wrong checksums become right": with_checksums,
    "the hop limit is lowered": changed(lambda frame, parts: parts.transport and parts.hop_limit, lambda octet: octet - 1 & 255),
    "the window is changed": changed(of_tcp(14)),
    "the echoed timestamp is cleared": changed(of_option(TIMESTAMP, 9), lambda octet: 0),
    "the window scale is changed": changed(of_option(WINDOW_SCALE, 2)),
    "the sequence number is changed": changed(of_tcp(7)),
    "an octet of the payload is changed": changed(lambda frame, parts: parts.transport and len(frame) - 1),
    "the sender's address is changed": lambda rebuilt: rebuilt[:11] + bytes([rebuilt[11] ^ 1]) + rebuilt[12:],
    "short frames are padded": lambda rebuilt: rebuilt.ljust(60, b"\0"),
    "fragments are dropped": lambda rebuilt: b"" if rebuilt[12:14] == b"\x08\0" and number(rebuilt[20:22]) & 0x3FFF else rebuilt,
}


def open_device(name):
    device = os.open("/dev/net/tun", os.O_RDWR)
    fcntl.ioctl(device, TUNSETIFF, struct.pack("16sH22x", name.encode(), IFF_TAP | IFF_NO_PI))
    return device


def main(library, name, *devices):
    rebuild = ctypes.CDLL(os.path.abspath(library)).lk_rebuild
    rebuild.argtypes = [ctypes.c_char_p, ctypes.c_size_t, ctypes.c_char_p, ctypes.c_size_t]
    rebuild.restype = ctypes.c_ssize_t
    fault, (left, right) = FAULTS[name], map(open_device, devices)
    out = ctypes.create_string_buffer(LONGEST)
    print("ready", flush=True)
    while True:
        for device in select.select([left, right], [], [])[0]:
            frame = os.read(device, LONGEST)
            length = rebuild(frame, len(frame), out, LONGEST)
            sent = fault(ctypes.string_at(out, length))
            with contextlib.suppress(OSError):  # The device may not be up yet.
                os.write(right if device == left else left, sent)


if __name__ == "__main__":
    if len(sys.argv) == 1:
        print("\n".join(FAULTS))
    else:
        main(*sys.argv[1:])
