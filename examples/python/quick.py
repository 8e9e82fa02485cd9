#!/usr/bin/env python3
"""Reads a frame, as examples/quick.c does, by the package ip_wire of bindings/python:

    PYTHONPATH=bindings/python examples/python/quick.py
"""
import sys

import ip_wire

FRAME = bytes.fromhex(
    "020000000002 020000000001 0800"
    "4500 0020 0000 4000 40 11 b6c9 c0000201 c0000202"
    "b5e3 14e9 000c 0000"
) + b"ping"


def main():
    frame = ip_wire.parse_frame(FRAME)
    try:
        frame.check()
    except ip_wire.Rejected as error:
        sys.exit(f"quick.py: {error}")
    if frame.transport != ip_wire.Transport.UDP:
        sys.exit("quick.py: the frame has no UDP packet")
    print(f"{frame.payload.decode()} from {frame.src}")
    reply = ip_wire.emit_udp(frame.reply(), b"pong")
    print(f"the reply has {len(reply)} bytes")


if __name__ == "__main__":
    main()
