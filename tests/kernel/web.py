#!/usr/bin/env python3
"""The kernel fetches a file from programs/http.c.

tests/kernel/web.py lost DEVICE TAP FILE  the server of FILE is on the TAP device DEVICE; the kernel has addresses on TAP.
                                          This process copies frames between the two devices, but for 3 % of the TCP
                                          segments in each direction
tests/kernel/web.py requests FILE         right and wrong requests. The file gets shorter meanwhile
tests/kernel/web.py slow FACTOR           more requests that are never complete than the server has places. Its clock goes
                                          FACTOR times as fast

The status is 1 if something was wrong.
"""
import contextlib
import email.utils
import fcntl
import os
import shutil
import socket
import struct
import subprocess
import sys
import threading
import time

from client import check, report, tcp_of
from losses import copy_frames, losses
from waits import until

URLS, AT_ONCE, PERCENT = ("http://10.74.0.2/", "http://[fd74::2]/any/path"), 3, 3
TUNSETIFF, TAP_WITHOUT_INFORMATION = 0x400454CA, 0x1002
LATEST = 600  # seconds
ADDRESSES, PLACES = ("10.77.0.2", "fd77::2"), 64
HOST = b"Host: 10.77.0.2\r\n"
# RFC 9110 and RFC 9112. Each request with the status of its answer, up to its empty line.
REQUESTS = [
    (200, b"GET / HTTP/1.1\r\n" + HOST),
    (200, b"\r\n\r\nGET /any/path?query HTTP/1.1\r\nhOST:\t[fd77::2]:80 \t\r\n"),
    (200, b"GET http://10.77.0.2/ HTTP/1.1\r\nHost:\r\n"),
    (200, b"GET / HTTP/1.0\r\n"),
    (200, b"GET / HTTP/1.9\r\n" + HOST + b"X: \t \xff\r\nHosts: a\r\nHost-: b\r\n"),
    (200, b"GET / HTTP/1.1\r\n" + HOST + b"X: " + b"a" * 8130 + b"\r\n"),
    (200, b"HEAD / HTTP/1.1\r\n" + HOST),
    (501, b"POST / HTTP/1.1\r\n" + HOST),
    (501, b"get / HTTP/1.1\r\n" + HOST),
    (501, b"HEADS / HTTP/1.1\r\n" + HOST),
    (505, b"GET / HTTP/2.0\r\n"),
    (400, b"GET / HTTP/1.1\r\n"),
    (400, b"HEAD / HTTP/1.1\r\n"),
    (400, b"GET / HTTP/1.1\r\n" + HOST + HOST),
    (400, b"GET / HTTP/1.0\r\n" + HOST + HOST),
    (400, b"GET / HTTP/1.1\r\nHost: a b\r\n"),
    (400, b"GET / HTTP/1.1\r\nHost: a/b\r\n"),
    (400, b"GET / HTTP/1.1\r\nHost : a\r\n"),
    (400, b"GET / HTTP/1.1\r\n" + HOST + b"X : a\r\n"),
    (400, b"GET / HTTP/1.1\r\n" + HOST + b"X\r\n"),
    (400, b"GET / HTTP/1.1\r\n" + HOST + b": a\r\n"),
    (400, b"GET / HTTP/1.1\r\n" + HOST + b"X: a\r\n b\r\n"),
    (400, b"GET / HTTP/1.1\r\n" + HOST + b"X: a\rb\r\n"),
    (400, b"GET / HTTP/1.1\r\n" + HOST + b"X: a\nb\r\n"),
    (400, b"GET / HTTP/1.1\r\n" + HOST + b"X: a\0b\r\n"),
    *((400, line + b"\r\n" + HOST) for line in (
        b"GET", b"GET /", b"GET  / HTTP/1.1", b"GET /  HTTP/1.1", b" GET / HTTP/1.1", b"GET / HTTP/1.1 ", b"GET / http/1.1",
        b"GET / HTTP/1.", b"GET / HTTP/11", b"GET / HTTP/1.10", b"GET a HTTP/1.1", b"GET /\t HTTP/1.1", b"G@T / HTTP/1.1",
        b"GET HTTP/1.1", b"GET /\0 HTTP/1.1", b"GET /\n HTTP/1.1", b"/ HTTP/1.1", b"")),
]


def fetched(url, *options):
    return subprocess.Popen(["curl", "--silent", "--max-time", str(LATEST), *options, url], stdout=subprocess.PIPE)


def fetches(device, tap, name):
    if not shutil.which("curl"):
        print("tests/kernel: skipped: programs/http.c: curl is not on the path")
        return
    with open(name, "rb") as file:
        data = file.read()
    server = socket.socket(socket.AF_PACKET, socket.SOCK_RAW, socket.htons(3))
    server.setsockopt(socket.SOL_SOCKET, socket.SO_RCVBUF, 1 << 24)
    server.bind((device, 0))
    kernel, lost, chosen = os.open("/dev/net/tun", os.O_RDWR), [], losses(PERCENT)
    fcntl.ioctl(kernel, TUNSETIFF, struct.pack("16sH22x", tap.encode(), TAP_WITHOUT_INFORMATION))

    def is_lost(frame, _):
        return bool(tcp_of(frame)) and next(chosen)

    threading.Thread(target=copy_frames, args=(server, kernel, is_lost, lost), daemon=True).start()
    processes = [(url, fetched(url)) for url in URLS for _ in range(AT_ONCE)]
    for url, process in processes:
        check("GET", process.communicate()[0] == data and process.returncode == 0, (url, process.returncode))
    for url in URLS:
        found = fetched(url, "--head", "--write-out", "%{http_code}", "--output", "/dev/null").communicate()[0]
        check("HEAD", found == b"200", (url, found))
    check("lost segments", len(lost) > len(processes) * len(data) / 1460 * PERCENT / 100 / 2, len(lost))


def received(sock):
    """All bytes up to the end of the connection, or None if it was reset."""
    found = b""
    try:
        while True:
            data = sock.recv(1 << 20)
            if not data:
                return found
            found += data
    except ConnectionResetError:
        return None


def answer(addr, parts):
    """The status, the fields and the body of the answer to a request in these parts."""
    with socket.create_connection((addr, 80), LATEST) as sock:
        for part in parts:
            sock.sendall(part)
            time.sleep(0.01 if len(parts) > 1 else 0)
        head, _, body = (received(sock) or b"").partition(b"\r\n\r\n")
    if not head:
        raise ConnectionError("no answer")
    line, *fields = head.decode("ascii").split("\r\n")
    found = [field.split(": ", 1) for field in fields]
    check("fields", line[:9] == "HTTP/1.1 " and [name for name, _ in found] == ["Date", "Content-Length", "Connection"], (parts, head))
    date = email.utils.parsedate_to_datetime(found[0][1]).timestamp()
    is_imf = found[0][1] == email.utils.formatdate(date, usegmt=True)
    check("Date", is_imf and abs(date - time.time()) < LATEST, found[0])
    return int(line[9:12]), int(found[1][1]), body


def requests(name):
    with open(name, "rb") as file:
        data = file.read()
    os.truncate(name, 10)
    for at, (status, text) in enumerate(REQUESTS):
        expected = (status, *((len(data), b"" if text[:1] == b"H" else data) if status == 200 else (0, b"")))
        text += b"\r\n"
        for parts in ([text], [text[:1], text[1:-3], text[-3:]]):
            found = answer(ADDRESSES[at % 2], parts)
            check("request", found == expected, (text[:99], found[:2], len(found[2])))
    found = answer(ADDRESSES[0], [b"GET / HTTP/1.1\r\n" + HOST + b"X: " + b"a" * 9000])
    check("a request that is too long", found == (431, 0, b""), found)


def is_answered():
    """Whether a request gets its answer. On a busy machine it may be reset too, because the server's clock is fast."""
    try:
        return answer(ADDRESSES[0], [b"GET / HTTP/1.0\r\n\r\n"])[0] == 200
    except ConnectionError:
        return False


def begun(number):
    """A connection with the begin of a request, or None if it was reset before that: the server's clock is fast."""
    try:
        sock = socket.create_connection((ADDRESSES[number % 2], 80), LATEST)
    except ConnectionResetError:
        return None
    with contextlib.suppress(ConnectionError):
        sock.sendall(b"GET / HTTP/1.1\r\n"[:number % 3])
    return sock


def slow(factor):
    """The places of requests that are never complete get free."""
    slow_ones = []
    for number in range(PLACES + 8):
        slow_ones.append(begun(number))
        time.sleep(11 / int(factor) / PLACES)
    for sock in slow_ones:
        check("a slow request", sock is None or received(sock) is None)
    check("a request after slow ones", until(is_answered))


if __name__ == "__main__":
    TESTS = {"lost": fetches, "requests": requests, "slow": slow}
    sys.exit(report(f"web, {sys.argv[1]}", TESTS[sys.argv[1]], *sys.argv[2:]))
