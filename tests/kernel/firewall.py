#!/usr/bin/env python3
"""The kernel's side of tests/kernel, for examples/firewall.c.

tests/kernel/firewall.py DEVICE OUTPUT  sends packets to blocked addresses, and a frame with a wrong checksum

OUTPUT is the file of what the firewall prints. Prints how many exchanges were right. The status is 1 if one was wrong.
"""
import errno
import socket
import sys

from client import check, report
from waits import LATEST, until

# The addresses, and how Linux reports "administratively prohibited" (RFC 792 with RFC 1812, code 13; RFC 4443, code 1).
BLOCKED = ((socket.AF_INET, "10.78.1.1", errno.EHOSTUNREACH), (socket.AF_INET6, "fd78:1::1", errno.EACCES))
PORT = 9
# From 10.78.0.1 to 10.78.0.2, UDP from port 9 to port 9, with a wrong UDP checksum.
DAMAGED = bytes.fromhex("02000000ee0e 02000000ee0f 0800 45000020000040004011262f 0a4e0001 0a4e0002 0009 0009 000c 0001 70696e67")


def is_rejected(family, address, number):
    with socket.socket(family, socket.SOCK_DGRAM) as sock:
        sock.settimeout(LATEST)
        sock.connect((address, PORT))
        sock.send(b"ping")
        try:
            sock.recv(1)
        except OSError as error:
            return error.errno == number
    return False


def exchanges(device, output):
    for family, address, number in BLOCKED:
        check("packet that is rejected", is_rejected(family, address, number), address)
    with socket.socket(socket.AF_PACKET, socket.SOCK_RAW) as sock:
        sock.bind((device, 0))
        sock.send(DAMAGED)

    def printed(line):
        with open(output, encoding="utf-8") as file:
            return line in file.read()

    for line in ("rejected: IPv4 10.78.0.1:", "rejected: IPv6 [fd78::1]:", "passed: ARP 10.78.0.1 > 10.78.0.2",
                 "dropped: IPv4 10.78.0.1:9 > 10.78.0.2:9 UDP"):
        check("line of the firewall", until(lambda line=line: printed(line)), line)


if __name__ == "__main__":
    sys.exit(report("firewall", exchanges, *sys.argv[1:]))
