#!/usr/bin/env python3
"""Prints one line for each packet of a pcap file, of any link type that the library knows:

    PYTHONPATH=bindings/python examples/python/read_pcap.py examples/echo.pcap
"""
import struct
import sys

import ip_wire

# The first four bytes: the byte order, and times in microseconds or nanoseconds.
ORDERS = {b"\xd4\xc3\xb2\xa1": "<", b"\x4d\x3c\xb2\xa1": "<", b"\xa1\xb2\xc3\xd4": ">", b"\xa1\xb2\x3c\x4d": ">"}
LONGEST = 1 << 18  # a packet of libpcap, in bytes


def read(file, count):
    data = file.read(count)
    if len(data) < count:
        raise ValueError("the file ends too early")
    return data


def packets(file):
    """The link type, the captured bytes and the length of each packet."""
    order = ORDERS.get(file.read(4))
    if order is None:
        raise ValueError("this is no pcap file")
    (link,) = struct.unpack(order + "16xI", read(file, 20))
    while header := file.read(16):
        captured, length = struct.unpack(order + "8xII", header + read(file, 16 - len(header)))
        if captured > LONGEST:
            raise ValueError(f"a packet of {captured} bytes")
        yield link & 0xFFFF, read(file, captured), length  # the upper bits say whether frames have a check sequence


def main(path):
    with open(path, "rb") as file:
        for link_type, data, length in packets(file):
            frame = ip_wire.parse_linktype(link_type, data, length)
            if frame.reason == ip_wire.Reason.UNKNOWN_LINK:
                raise ValueError(f"link type {link_type} is not supported")
            print(frame)


if __name__ == "__main__":
    if len(sys.argv) != 2:
        sys.exit("usage: read_pcap.py FILE")
    try:
        main(sys.argv[1])
    except (OSError, ValueError) as error:
        sys.exit(f"read_pcap.py: {error}")
