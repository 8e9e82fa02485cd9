#!/usr/bin/env python3
"""Goodput of TCP connections between the library and Linux, beside those of Linux with itself, over the same paths.

bench/paths.py [SECONDS [SEEDS [AT_ONCE [WORD..]]]]

As root. bench/path.c is a path with a rate of 100 Mbit/s and a queue of 50 ms. Each cell of the table has its round trip, jitter
and loss. For each seed four connections send for some SECONDS, in turns: the library (bench/stream.c) or Linux with CUBIC, to
Linux and back. Every byte is compared, and a wrong one ends the run with status 1. AT_ONCE cells run side by side, each in
namespaces of its own. A cell has the ratio of the medians, and the medians in Mbit/s: of the library, of Linux. The standard
error has a line for each connection, with what the path counted in both directions; `up` is the one to the library. WORDS
choose cells, as `rtt=20 rtt=100 loss=0`.

LIBRARY is the static library, out/lib/libip_wire.a without it. BUFFER is the size of its rings in bytes.
"""
import concurrent.futures
import contextlib
import itertools
import os
import random
import select
import signal
import socket
import statistics
import sys
import tempfile
import time

from forwarding import TOP, compiled
from links import Namespace, in_namespace

RTTS, JITTERS, LOSSES = (2, 20, 100), (0, 1, 5), (0, 0.1, 1, 5, 10)  # in milliseconds and percent
RATE, QUEUE, REPETITION = 12_500_000, 50_000, 0  # bytes per second, microseconds, of a million frames
NEAR, FAR, PORT = "10.82.0.1", "10.82.0.2", 7
HARDWARE = {NEAR: "02:00:00:00:aa:01", FAR: "02:00:00:00:aa:02"}
LATEST = 60  # seconds, for a SYN
FILE_LEN, CHUNK = 1_000_003, 1 << 16  # bytes that are sent again and again, and at most at once
BUFFER = os.environ.get("BUFFER", str(1 << 22))
ADDRESS = """ip link set {device} addrgenmode none address {hardware} up && ip address add {own}/24 dev {device} &&
ip neighbour add {peer} lladdr {peer_hardware} dev {device}"""


def start(ends, namespace, *command):
    """A program that has printed that it is ready."""
    process = in_namespace(namespace.process, *map(str, command))
    ends.callback(process.wait)
    ends.callback(process.kill)
    process.stdout.readline()
    return process


def namespace_of(ends):
    namespace = Namespace()
    ends.callback(namespace.keeper.wait)
    ends.callback(namespace.keeper.kill)
    return namespace


def add_address(namespace, device, own, peer):
    namespace.run(ADDRESS.format(device=device, own=own, peer=peer, hardware=HARDWARE[own], peer_hardware=HARDWARE[peer]))


def linux(ends, namespace):
    with namespace.entered():
        sock = ends.enter_context(socket.socket())
    sock.setsockopt(socket.IPPROTO_TCP, socket.TCP_CONGESTION, b"cubic")
    return sock


class Exchange:
    """What the sockets of Linux do in a connection: one socket, or the client and the one that listens."""

    def __init__(self, file, client, listening, is_up):
        self.twice, self.client, self.listening, self.is_up = file * 2, client, listening, is_up
        self.sent, self.got, self.files, self.poll = 0, 0, {}, select.poll()
        self.watch(client, is_up)
        if listening:
            self.watch(listening, False)

    def watch(self, sock, is_sender):
        sock.setblocking(False)
        self.files[sock.fileno()] = sock
        self.poll.register(sock, select.POLLOUT if is_sender else select.POLLIN)

    def part(self, done, count):
        at = done % FILE_LEN
        return self.twice[at : at + count]

    def on_event(self, sock):
        if sock == self.listening:
            self.watch(sock.accept()[0], not self.is_up)
        elif (sock == self.client) == self.is_up:
            self.sent += sock.send(self.part(self.sent, CHUNK))
        else:
            data = sock.recv(CHUNK)
            if not data or data != self.part(self.got, len(data)):
                raise OSError(f"not the bytes that were sent, after {self.got}")
            self.got += len(data)

    def run(self, seconds):
        """The bytes that a socket of Linux received."""
        end = time.monotonic() + seconds
        while (left := end - time.monotonic()) > 0:
            for number, _ in self.poll.poll(left * 1000):
                self.on_event(self.files[number])
        return self.got


def goodput(room, cell, seed, is_ours, is_up, seconds, ends):
    """Bytes per second that were received, and what the path counted. `is_up`: the client sends, which is of Linux."""
    near, far, stream, listening = namespace_of(ends), namespace_of(ends), None, None
    rtt, jitter, loss = cell
    if is_ours:
        words = "receive" if is_up else "send", "far", HARDWARE[FAR], FAR, "::", f"{room}/file"
        stream = start(ends, far, f"{room}/stream", *words)
        far.run("ip link set far addrgenmode none up")
    words = seed, RATE, QUEUE, rtt * 500, jitter * 1000, round(loss * 10_000), REPETITION
    path = start(ends, far, f"{room}/path", "tap:near", "packet:far" if is_ours else "tap:far", *words)
    os.sched_setscheduler(path.pid, os.SCHED_RR, os.sched_param(2))
    far.run(f"ip link set near netns {near.process}")
    add_address(near, "near", NEAR, FAR)
    if not is_ours:
        add_address(far, "far", FAR, NEAR)
        listening = linux(ends, far)
        listening.bind((FAR, PORT))
        listening.listen()
    client = linux(ends, near)
    client.settimeout(LATEST)
    client.connect((FAR, PORT))
    with open(f"{room}/file", "rb") as file:
        got = Exchange(file.read(), client, listening, is_up).run(seconds)
    counts = last_words(path).splitlines()
    if is_ours and is_up:
        got = int(last_words(stream))
    return got / seconds, counts


def last_words(process):
    """What a program prints when it is ended."""
    process.terminate()
    text = process.communicate()[0]
    if process.returncode:
        raise OSError(f"{process.args} has failed")
    return text


def measure(room, cell, seconds, seeds):
    """The medians of the library and of Linux, for each sender, in Mbit/s."""
    found = {key: [] for key in itertools.product((False, True), (True, False))}
    for seed in range(1, seeds + 1):
        for (is_up, is_ours), rates in found.items():
            with contextlib.ExitStack() as ends:
                rate, counts = goodput(room, cell, seed, is_ours, is_up, seconds, ends)
            rates.append(rate * 8 / 1e6)
            words = name_of(cell), f"seed={seed}", "ours" if is_ours else "linux", "up" if is_up else "down", f"{rates[-1]:.2f}"
            sys.stderr.write("\t".join([*words, *counts]) + "\n")
    return {key: statistics.median(rates) for key, rates in found.items()}


def name_of(cell):
    return "rtt={} jitter={} loss={}".format(*cell)


def is_chosen(cell, words):
    """Whether each part of its name that has words is one of them."""
    kinds = {word.split("=")[0] for word in words}
    return all(part in words for part in name_of(cell).split() if part.split("=")[0] in kinds)


def text_of(found, is_up):
    if not found:
        return ""
    ours, other = found[is_up, True], found[is_up, False]
    return f"{ours / max(other, 0.001):.2f}: {ours:.1f}, {other:.1f}"


def main(seconds=6, seeds=3, at_once=8, *words):
    cells = [cell for cell in itertools.product(RTTS, JITTERS, LOSSES) if is_chosen(cell, words)]
    os.sched_setscheduler(0, os.SCHED_RR, os.sched_param(1))  # so that other load delays no frame
    signal.signal(signal.SIGINT, signal.SIG_DFL)
    with tempfile.TemporaryDirectory() as room, concurrent.futures.ProcessPoolExecutor(int(at_once)) as pool:
        compiled(room, "path", f"{TOP}/bench/path.c", f"{TOP}/programs/routing/device.c")
        compiled(room, "stream", f"-DBUFFER={BUFFER}", f"{TOP}/bench/stream.c")
        with open(f"{room}/file", "wb") as file:
            file.write(random.Random(1).randbytes(FILE_LEN))
        order = random.Random(1).sample(cells, len(cells))
        waiting = {cell: pool.submit(measure, room, cell, float(seconds), int(seeds)) for cell in order}
        medians = {cell: waiting[cell].result() for cell in cells}
    print("| sender | round trip, ms | jitter, ms |", *(f"loss {loss} % |" for loss in LOSSES))
    print("|---|---|---|" + "---|" * len(LOSSES))
    for is_up, rtt, jitter in itertools.product((False, True), RTTS, JITTERS):
        row = [medians.get((rtt, jitter, loss)) for loss in LOSSES]
        if any(row):
            texts = " | ".join(text_of(found, is_up) for found in row)
            print(f"| {'Linux' if is_up else 'ours'} | {rtt} | {jitter} | {texts} |")


if __name__ == "__main__":
    main(*sys.argv[1:])
