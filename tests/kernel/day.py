#!/usr/bin/env python3
"""A day of a host behind the home router of docs/ROUTER.md. page.py runs this in the host's network namespace.

tests/kernel/day.py    in the folder of nat.conf, which the web server serves too

The host has an address by DHCP, and one that it made from the router's advertisement. It asks for names, fetches files,
also while the program reads its file again, and sends pings of all sizes. The status is 1 if something was wrong.
"""
import ipaddress
import os
import signal
import socket
import struct
import subprocess
import sys

from client import check, report
from dice import ANY as random
from links import ping
from waits import LATEST, until

ROUTER, SERVER = ("10.1.0.1", "fd01::1"), ("10.2.0.2", "fd02::2")
LEASES = ipaddress.ip_address("10.1.0.100"), ipaddress.ip_address("10.1.0.200")
NAMES, PAGES, FILE = 100, 50, 20_000_000
LONGEST = {socket.AF_INET: 65_507, socket.AF_INET6: 65_487}  # of an echo in a packet of 65,535 bytes
# Each size up to more than one MTU, and those around the ends of fragments over IPv4 and IPv6.
ENDS = {n * step + m for step in (1480, 1448) for n in range(1, 45) for m in range(-9, 2)}
SIZES = sorted({*range(1700), *ENDS, *LONGEST.values()})
RECORDS = {"A": (1, socket.AF_INET), "AAAA": (28, socket.AF_INET6)}


def family_of(addr):
    return socket.AF_INET6 if ":" in addr else socket.AF_INET


def output(command):
    return subprocess.run(command.split(), stdout=subprocess.PIPE, check=True, text=True).stdout


def addresses():
    lines = output("ip -oneline address show dev eth0 scope global").splitlines()
    return [ipaddress.ip_interface(line.split()[3]) for line in lines]


def has_addresses():
    until(lambda: {one.version for one in addresses()} == {4, 6})
    found = addresses()
    check("lease", [LEASES[0] <= one.ip <= LEASES[1] for one in found if one.version == 4] == [True], found)
    check("SLAAC", {one.network for one in found if one.version == 6} == {ipaddress.ip_network("fd01::/64")}, found)


def asked(name, record):
    """The addresses that the router tells of a name."""
    kind, family = RECORDS[record]
    labels = b"".join(bytes([len(label)]) + label.encode() for label in name.split("."))
    with socket.socket(socket.AF_INET, socket.SOCK_DGRAM) as sock:
        sock.settimeout(LATEST)
        sock.connect((ROUTER[0], 53))
        sock.send(struct.pack(">HHHHHH", 7, 0x0100, 1, 0, 0, 0) + labels + struct.pack(">BHH", 0, kind, 1))
        answer = sock.recv(1500)
    # One record without further ones: its data is the end of the message.
    return [socket.inet_ntop(family, answer[-4 if kind == 1 else -16 :])] if answer[6:8] == b"\0\1" else answer


def names():
    for n in range(NAMES):
        for record, addr in zip(RECORDS, SERVER):
            check("name", asked(f"host{n}.example.org", record) == [addr], (n, record))


def connection(addr, path):
    sock = socket.create_connection((addr, 80), timeout=5 * LATEST)
    sock.sendall(f"GET /{path} HTTP/1.0\r\n\r\n".encode())
    return sock


def rest_of(sock):
    with sock, sock.makefile("rb") as file:
        return file.read()


def reloads():
    """The programs of the home router that read nat.conf again: one that translates IPv4 and forwards IPv6."""
    with open("nat.conf", "a", encoding="ascii") as config:
        config.write("clamp dev wan\n")
    for process in output("ip netns pids router").split():
        with open(f"/proc/{process}/comm", encoding="ascii") as file:
            name = file.read().strip()
        if name in ("nat", "router"):
            os.kill(int(process), signal.SIGHUP)
            yield name


def web():
    data = random.randbytes(FILE)
    with open("web", "wb") as file:
        file.write(data)
    for addr in SERVER:
        for n in range(PAGES):
            check("page", b" 200 OK\r\n" in rest_of(connection(addr, "nat.conf")), (addr, n))
    begun = [(addr, connection(addr, "web")) for addr in SERVER]
    parts = [sock.recv(1000) for _, sock in begun]
    check("restart", list(reloads()) == ["nat"])
    for part, (addr, sock) in zip(parts, begun):
        whole = part + rest_of(sock)
        check("file during a restart", whole.endswith(b"\r\n\r\n" + data), (addr, len(whole)))
    for addr in SERVER:
        check("page after a restart", b" 200 OK\r\n" in rest_of(connection(addr, "nat.conf")), addr)


def pings():
    for addr in ROUTER + SERVER:
        for size in SIZES:
            if size <= LONGEST[family_of(addr)]:
                check("ping", ping(family_of(addr), addr, bytes(size), 1), (addr, size))


def day():
    has_addresses()
    names()
    web()
    pings()
    has_addresses()


if __name__ == "__main__":
    sys.exit(report("day", day))
