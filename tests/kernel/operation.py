#!/usr/bin/env python3
"""The kernel's side of tests/kernel, for what surrounds the packets in examples/: files, arguments, signals, output, limits.

tests/kernel/operation.py PROGRAMS CLOCK    the folder of router, nat, host, http, proved_host and bridge; a fast clock to be preloaded

Prints how many exchanges were right. The status is 1 if one was wrong.
"""
import contextlib
import fcntl
import ipaddress
import os
import pty
import signal
import socket
import subprocess
import sys
import termios
import time

import icmp
import packets
from client import check, report
from dice import ANY as random
from forwarded import Router
from links import ELSEWHERE, SELF, Namespace, WideSide, settle, wait_until_idle
from nat import INSIDE, OUTSIDE, start_on_taps as start_nat
from routed_frames import HARDWARE, HOSTS
from router import ADDRESSES, AT_ONCE, OF_TAPS, send_chunk, start_on_taps as start_router
from waits import LATEST, is_idle, until

HOST_ARGUMENTS = ["tap0", "02:00:00:00:aa:07", "10.77.0.2", "fd77::2"]
ARGUMENTS = {"host": HOST_ARGUMENTS, "http": [*HOST_ARGUMENTS, "/dev/null"], "proved_host": [*HOST_ARGUMENTS, "80"],
             "bridge": ["tap0", "tap1"]}
PROGRAMS = ("router", "nat", *ARGUMENTS)

# ---- files and arguments

LONG, HEX = 600 * "x", "02:00:00:00:00:09"
NO_LINK, NO_HOST = "an address on no link of this interface", "not an address and an Ethernet address of a host"
# Lines after "address 10.1.0.1/24 dev left", and what is wrong with the last of them.
BAD_LINES = (
    ("address 10.1.0.1 dev left", "not an address with a prefix length"),
    ("address 224.0.0.1/24 dev left", "a group address"),
    ("address ff02::1/64 dev left", "a group address"),
    ("address 0.0.0.0/0 dev left", "a reserved address"),
    ("address 127.0.0.1/8 dev left", "a reserved address"),
    ("address ::1/128 dev left", "a reserved address"),
    ("address 10.3.0.1/0 dev left", "the block of a link cannot have all addresses"),
    ("address fd03::1/0 dev left", "the block of a link cannot have all addresses"),
    ("address 10.3.0.0/24 dev left", "a broadcast address: the first or last of its block"),
    ("address 10.3.0.7/30 dev left", "a broadcast address: the first or last of its block"),
    ("address 10.1.0.1/24 dev left", "the router has this address already"),
    ("address 10.1.0.1/32 dev right", "the router has this address already"),
    ("address 10.1.0.2/24 dev right", "another interface has this block"),
    ("address 10.1.0.1/24 dev middle", "no such interface"),
    ("address 10.1.0.1/24", "the line does not end in: dev NAME"),
    ("route 10.1.0.0/33 dev left", "not a block"),
    ("route 224.0.0.0/4 dev left", "a block of groups"),
    ("route ff05::/16 dev left", "a block of groups"),
    ("route 10.0.0.0/8 via fd01::9 dev left", "not the address of a next hop"),
    ("route 10.0.0.0/8 via 224.0.0.9 dev left", "a group address"),
    ("route 10.0.0.0/8 via 0.0.0.0 dev left", "a reserved address"),
    ("route 10.0.0.0/8 via 10.3.0.9 dev left", NO_LINK),
    ("route 10.0.0.0/8 via 10.1.0.9 dev right", NO_LINK),
    ("route ::/0 via fd01::9 dev left", NO_LINK),
    ("route 10.0.0.0/8 via 10.1.0.1 dev left", "an address of the router"),
    ("route 10.0.0.0/8 via 10.1.0.255 dev left", "a broadcast address"),
    ("route 10.0.0.0/8 by 10.1.0.9 dev left", "not a line of this file"),
    ("neighbour 10.1.0.2 lladdr 02:00 dev left", NO_HOST),
    ("neighbour 10.1.0.2 lladdr 01:00:5e:00:00:01 dev left", NO_HOST),
    ("neighbour 10.1.0.2 lladdr 00:00:00:00:00:00 dev left", NO_HOST),
    (f"neighbour 224.0.0.2 lladdr {HEX} dev left", "a group address"),
    (f"neighbour 10.3.0.2 lladdr {HEX} dev left", NO_LINK),
    (f"neighbour 10.1.0.2 lladdr {HEX} dev left\nneighbour 10.1.0.2 lladdr {HEX} dev left", "a neighbour of another line"),
    ("lladdr 01:00:00:00:00:01 dev left", "not an Ethernet address of a host"),
    ("gateway 10.1.0.1 dev left", "not a line of this file"),
    ("clamp 1400 dev left", "not a line of this file"),
    (LONG + " dev left", "not a line of this file"),
    (" ".join("x" * 9), "too many words"),
    ("clamp dev left\0", "a zero byte"),
)
GOOD_LINES = (
    "", "# " + LONG, "clamp dev left\r\n\r\n\tclamp  dev\tleft # twice",
    "route 10.9.0.1/32 dev left\nroute 0.0.0.0/0 via 10.9.0.1 dev left",
    "route 0.0.0.0/0 via 10.9.0.1 dev left\nroute 10.9.0.1/32 dev left",
    "address 10.1.0.9/24 dev left", "address 10.1.1.1/25 dev right", "address 10.3.0.0/31 dev right", "address 10.3.0.1/31 dev right",
    "address 10.3.0.7/32 dev right", "address fd03::/64 dev right",
    "address fe80::1/64 dev left\naddress fe80::1/64 dev right", "address fd01::1/64 dev left\nroute ::/0 via fe80::9 dev left",
    f"neighbour fe80::9 lladdr {HEX} dev left\nneighbour fe80::9 lladdr {HEX} dev right",
)
# Interfaces of a router, and what is wrong with the last one.
BAD_INTERFACES = (
    (("left",), "neither tap:NAME nor packet:NAME"), (("tap:",), "neither tap:NAME nor packet:NAME"),
    (("veth:left",), "neither tap:NAME nor packet:NAME"), (("tap:" + 16 * "x",), "neither tap:NAME nor packet:NAME"),
    (("packet:left",), "No such device"), (("packet:lo",), "not an Ethernet interface"),
    (("tap:left", "packet:left"), "the same interface twice"), (("tap:left", "tap:left"), "Device or resource busy"),
)
# Arguments of a program; its standard error, or the begin of it; the status.
BAD_ARGUMENTS = (
    ("router", [], "usage: router [-k] [-n] FILE INTERFACE..\n", 2), ("router", ["-x", "f", "tap:a"], "usage: router", 2),
    ("router", ["f"], "usage: router", 2), ("nat", ["f", "tap:a"], "usage: nat [-k] [-m COUNT] [-f PROTOCOL:ADDRESS:PORT].. FILE OUTSIDE INSIDE..\n", 2),
    ("nat", ["-m", "0", "f", "tap:a", "tap:b"], "nat: 0: not a count from 1 to 193536\n", 2),
    ("nat", ["-m", "9x", "f", "tap:a", "tap:b"], "nat: 9x: not a count from 1 to 193536\n", 2),
    ("nat", ["-m", "193537", "f", "tap:a", "tap:b"], "nat: 193537: not a count from 1 to 193536\n", 2),
    ("nat", ["-m", "99999999999999999999", "f", "tap:a", "tap:b"], "nat: 99999999999999999999: not a count", 2),
    ("router", ["/", "tap:left"], "router: /: Is a directory\n", 1),
    ("router", ["/no/such", "tap:left"], "router: /no/such: No such file or directory\n", 1),
    ("router", ["/dev/zero", "tap:left"], "router: /dev/zero: the file is too long\n", 1),
    ("nat", ["/dev/null", "tap:right", "tap:left"], "nat: /dev/null: right has no IPv4 address\n", 1),
    ("bridge", ["tap0"], "usage: bridge DEVICE DEVICE\n", 2), ("bridge", ["tap0", "tap0"], "bridge: tap0: Device or resource busy\n", 1),
    ("bridge", ["tap0", 16 * "x"], f"bridge: {16 * 'x'}: Invalid argument\n", 1), ("host", ["tap0"], "usage: host DEVICE", 2),
    ("host", ["tap0", "03:00:00:00:00:01", *HOST_ARGUMENTS[2:]], "host: 03:00:00:00:00:01: not the Ethernet address of a host\n", 2),
    ("host", [*HOST_ARGUMENTS[:2], "224.0.0.1", "fd77::2"], "host: 224.0.0.1: not the IPv4 address of a host\n", 2),
    ("http", HOST_ARGUMENTS, "usage: http DEVICE", 2),
    ("http", [*HOST_ARGUMENTS, "/no/such"], "http: /no/such: No such file or directory\n", 1),
    ("proved_host", [*HOST_ARGUMENTS[:3], "10.77.0.3"], "proved_host: 10.77.0.3: not the IPv6 address of a host\n", 2),
    ("proved_host", [*HOST_ARGUMENTS, "80", "65536"], "proved_host: 65536: not a port from 1 to 65535\n", 2),
)


class Runner:
    """Starts programs of a folder in a namespace."""

    def __init__(self, folder):
        self.folder, self.room = folder, Namespace()

    def start(self, program, arguments, **words):
        command = ["nsenter", "--target", self.room.process, "--net", os.path.join(self.folder, program), *arguments]
        return subprocess.Popen(command, **{"stdout": subprocess.PIPE, "stderr": subprocess.PIPE, "text": True, **words})

    def output(self, program, arguments):
        """Its output, its errors and its status. One that has not ended in time is ended."""
        process = self.start(program, arguments)
        try:
            return (*process.communicate(timeout=LATEST), process.returncode)
        except subprocess.TimeoutExpired:
            process.kill()
            return (*process.communicate(), "no end")

    def write(self, text):
        path = os.path.join(self.folder, "config")
        with open(path, "w", encoding="ascii", newline="") as file:
            file.write(text)
        return path


def wrong_files(runner):
    """One line says what is wrong in a file, and the status is 1."""
    for line, message in BAD_LINES:
        path = runner.write(f"# a comment\n\naddress 10.1.0.1/24 dev left\n{line}\n")
        expected = "", f"router: {path}:{4 + line.count(chr(10))}: {message}\n", 1
        found = runner.output("router", [path, "tap:left", "tap:right"])
        check("a wrong line", found == expected, (line, found))
    for words, message in BAD_INTERFACES:
        found = runner.output("router", [runner.write(""), *words])
        check("a wrong interface", found == ("", f"router: {words[-1]}: {message}\n", 1), (words, found))
    for program, words, message, status in BAD_ARGUMENTS:
        found = runner.output(program, words)
        is_right = found[1].startswith(message) and found[1].count("\n") == 1 and found[::2] == ("", status)
        check("wrong arguments", is_right, (program, words, found))
    for program in PROGRAMS:
        text, errors, status = runner.output(program, [*ARGUMENTS.get(program, ()), "--help"])
        is_right = text.startswith(f"usage: {program} ") and "\n  --help " in text and (errors, status) == ("", 0)
        check("help", is_right, (program, text, errors, status))


def is_ready(process):
    """Whether it takes signals: it has a file for them."""
    folder, end = f"/proc/{process.pid}/fd", time.monotonic() + LATEST
    while time.monotonic() < end and process.poll() is None:
        with contextlib.suppress(FileNotFoundError):
            if any("signalfd" in os.readlink(f"{folder}/{name}") for name in os.listdir(folder)):
                return True
        time.sleep(0.01)
    return False


def ends(process, what, number=signal.SIGTERM, status=0):
    """It ends by a signal, with this status."""
    process.send_signal(number)
    try:
        found = process.wait(LATEST)
    except subprocess.TimeoutExpired:
        process.kill()
        found = process.wait()
    check("a signal that ends it", found == status, (what, number, found))


def good_files(runner):
    for text in GOOD_LINES:
        path = runner.write("address 10.1.0.1/24 dev left\n" + text)
        with runner.start("router", [path, "tap:left", "tap:right"]) as router:
            line = router.stdout.readline()
            check("a right file", line == "ready\n", (text, line, line or router.stderr.read()))
            ends(router, text)


# ---- signals and output


def frame_from_left(source=INSIDE[0], target="198.18.0.1", port=4000, kind="UDP"):
    ends_of = {"src": socket.inet_aton(source), "dst": socket.inet_aton(target)}
    body = {"UDP": lambda: packets.udp(b"", port, 9, **ends_of), "TCP": lambda: packets.tcp(b"", src_port=port, flags=2, **ends_of),
            "ping": lambda: icmp.message(8, 0, port << 16, b"", bytes(4), bytes(4))}[kind]()
    frame = packets.packet(body, protocol={"UDP": 17, "TCP": 6, "ping": 1}[kind], **ends_of)
    return HARDWARE["left"] + ELSEWHERE + frame[12:]  # so that no kernel gets an ICMP error about it


def comes_out(sides, to=ELSEWHERE, is_expected=True, **fields):
    """Whether a packet from the left comes out on the right, for this neighbour."""
    def is_there():
        sides["right"].take(0.05)
        return any(frame.startswith(to) for frame in sides["right"].came_out)

    for side in sides.values():
        side.forget()
    sides["left"].sock.send(frame_from_left(**fields))
    settle(*sides.values())
    return until(is_there, LATEST if is_expected else 0.1)


@contextlib.contextmanager
def on_taps(start, program, **words):
    room, there = Namespace(), Namespace()
    started = start(room, there, program, **words)
    yield started, {"left": WideSide(SELF, "left"), "right": WideSide(there.process, "right")}
    if started.process.poll() is None:
        started.ends("after an exchange")


def files_that_are_pipes(program):
    """A file that can be read only once has its routes and neighbours too."""
    for wrap in ('exec "$0" <(cat "$1") "${@:2}"', 'exec "$0" /dev/stdin "${@:2}" < <(cat "$1")', 'exec "$0" /dev/stdin "${@:2}" < "$1"'):
        with on_taps(start_router, program, wrap=("bash", "-c", wrap)) as (router, sides):
            check("a file that is a pipe", comes_out(sides), wrap)
            if "<(" in wrap:
                router.process.send_signal(signal.SIGHUP)
                check("a pipe, again", router.waits_for("not a regular file, so it cannot be read again"), router.messages())
                check("a file that is a pipe", comes_out(sides), "again")


def configurations(program):
    """SIGHUP: the new file counts, or the old one if the new one is wrong."""
    other = bytes.fromhex("020000000909")
    with on_taps(start_router, program, config="address 10.1.0.1/24 dev left\naddress 10.2.0.1/24 dev right\n" + "".join(
            f"lladdr {addr.hex(':')} dev {name}\n" for name, addr in HARDWARE.items())) as (router, sides):
        check("no route", not comes_out(sides, is_expected=False))
        for config, message, to in (
                (OF_TAPS, "read again", ELSEWHERE), (OF_TAPS + "route 10.0.0.0/8 dev middle\n", "no such interface", ELSEWHERE),
                ("address 10.1.0.1/24 dev left\n", "read again", None), (OF_TAPS, "read again", ELSEWHERE),
                (OF_TAPS.replace(ELSEWHERE.hex(":"), other.hex(":")), "read again", other)):
            before = router.messages().count("\n")
            router.has_again(config)
            check("SIGHUP", router.waits_for(message, before), (message, router.messages()))
            check("the new file", comes_out(sides, to) if to else not comes_out(sides, is_expected=False), (message, to))
            check("one line", router.messages().count("\n") == before + 1, router.messages())
        os.remove(router.config)
        router.process.send_signal(signal.SIGHUP)
        check("SIGHUP", router.waits_for("No such file or directory"))
        os.mkfifo(router.config)
        router.process.send_signal(signal.SIGHUP)
        check("SIGHUP", router.waits_for("not a regular file"))
        check("the old file", comes_out(sides, other))
        os.remove(router.config)


def outputs(program):
    """An output that nobody reads, that is full, or that is closed, stops nothing."""
    with on_taps(start_router, program) as (router, sides):
        router.process.stdout.close()
        for _ in range(20):
            router.process.send_signal(signal.SIGUSR1)
            wait_until_idle()
        check("an output without a reader", comes_out(sides))
        ends(router.process, "without a reader")
    for state in ("read again", "full"):
        with on_taps(start_router, program) as (router, sides):
            fcntl.fcntl(router.process.stdout.fileno(), fcntl.F_SETPIPE_SZ, 4096)
            for _ in range(100):
                router.process.send_signal(signal.SIGUSR1)
                wait_until_idle()
            check("a full output", comes_out(sides))
            if state == "full":
                ends(router.process, "a full output")
                continue
            os.read(router.process.stdout.fileno(), 1 << 16)
            found = router.counters()
            check("lines that are dropped", found.get("output dropped lines", 0) > 50, found)


def terminal(runner):
    """A terminal that takes nothing. The program does not change how others write to it."""
    master, slave = pty.openpty()
    termios.tcflow(slave, termios.TCOOFF)
    path = runner.write("address 10.1.0.1/24 dev left\n")
    with runner.start("router", [path, "tap:left"], stdout=slave, stderr=slave, text=False) as router:
        check("a start on a terminal that takes nothing", is_ready(router))
        for number in (signal.SIGUSR1, signal.SIGHUP, signal.SIGUSR1):
            router.send_signal(number)
            until(lambda: is_idle(router.pid))
        check("a terminal that blocks others", not fcntl.fcntl(slave, fcntl.F_GETFL) & os.O_NONBLOCK)
        ends(router, "a terminal that takes nothing")
    os.close(master)
    os.close(slave)


def full_pipe():
    """A pipe without room, and one without a reader."""
    for is_full in (True, False):
        read, write = os.pipe()
        if is_full:
            fcntl.fcntl(write, fcntl.F_SETPIPE_SZ, 4096)
            os.write(write, bytes(4096))
        else:
            os.close(read)
        yield write
        os.close(write)
        if is_full:
            os.close(read)


def ignore_signals():
    signal.signal(signal.SIGINT, signal.SIG_IGN)
    signal.signal(signal.SIGTERM, signal.SIG_IGN)


def ended_by_signals(runner):
    """SIGTERM and SIGINT end each program, whatever its output is, and also if they were ignored when it began."""
    config = runner.write("address 10.1.0.1/24 dev left\n")
    of_routers = {"router": [config, "tap:left"], "nat": [config, "tap:left", "tap:right"]}
    for program in PROGRAMS:
        for number in (signal.SIGTERM, signal.SIGINT):
            for pipe in full_pipe():
                arguments = {**of_routers, **ARGUMENTS}[program]
                with runner.start(program, arguments, stdout=pipe, stderr=pipe, preexec_fn=ignore_signals) as process:
                    check("a start with an output that takes nothing", is_ready(process), program)
                    ends(process, program, number)
        closed = runner.start("/bin/sh", ["-c", 'exec "$@" >&- 2>&-', "sh", os.path.join(runner.folder, program), *arguments])
        check("a start with closed files", is_ready(closed), program)
        ends(closed, f"{program} with closed files")
        closed.communicate()


def signals_at_the_start(runner):
    """While it waits for the writer of its file, SIGTERM ends it, and SIGHUP and SIGUSR1 do nothing."""
    path = os.path.join(runner.folder, "waits")
    os.mkfifo(path)
    for numbers in ((signal.SIGTERM,), (signal.SIGHUP, signal.SIGUSR1)):
        with runner.start("router", [path, "tap:left"]) as router:
            ignored, end = 0, time.monotonic() + LATEST
            while not ignored & 1 << signal.SIGUSR1 - 1 and time.monotonic() < end:
                with open(f"/proc/{router.pid}/status", encoding="ascii") as status:
                    ignored = next(int(line.split()[1], 16) for line in status if line.startswith("SigIgn"))
                time.sleep(0.01)
            if signal.SIGTERM in numbers:
                ends(router, "no writer", status=-signal.SIGTERM)
                continue
            for number in numbers:
                router.send_signal(number)
            with open(path, "w", encoding="ascii") as file:
                file.write("address 10.1.0.1/24 dev left\n")
            check("a start with signals", router.stdout.readline() == "ready\n")
            ends(router, "a file with a late writer")
    os.remove(path)


# ---- sizes and limits


def many_neighbours(program):
    """50,000 neighbours of the file, and one that the router has to ask for."""
    known = {f"10.9.{n >> 8}.{n & 255}": bytes.fromhex(f"0200000b{n:04x}") for n in range(1, 50_001)}
    config = OF_TAPS + "address 10.9.255.254/16 dev right\n" + "".join(
        f"neighbour {addr} lladdr {hardware.hex(':')} dev right\n" for addr, hardware in known.items())
    with on_taps(start_router, program, config=config) as (_, sides):
        for addr in (*random.sample(list(known), 100), "10.9.0.1", "10.9.195.80"):
            check("one of many neighbours", comes_out(sides, known[addr], target=addr), addr)
        check("no neighbour of the file", comes_out(sides, b"\xff" * 6, target="10.9.200.1"))


def many_routes(program):
    """The longest prefix of 10,000 routes, half of which lead back to the left."""
    routes = {}
    while len(routes) < 10_000:
        length = random.choice((8, 12, 16, 20, 24, 24, 24, 28, 32))
        number = random.randrange(0x0B << 24, 0x40 << 24) >> 32 - length << 32 - length
        routes[f"{ipaddress.ip_address(number)}/{length}"] = random.choice((("10.1.0.9", "left"), ("10.2.0.9", "right")))
    lines = "".join(f"route {block} via {hop} dev {name}\n" for block, (hop, name) in routes.items())
    model = Router(HARDWARE, ADDRESSES, [(block, ELSEWHERE, name) for block, (_, name) in routes.items()], {})
    source, blocks = socket.inet_aton(INSIDE[0]), random.sample(list(routes), 1000)
    with on_taps(start_router, program, config=OF_TAPS + lines) as (_, sides):
        for _ in range(10):
            addresses = [(random.choice(blocks), random.randrange(0x0B << 24, 0x40 << 24)) for _ in range(AT_ONCE)]
            chunk = [packets.packet(b"", src=source, dst=packed_in(block, number)) for block, number in addresses]
            send_chunk(sides, "left", [HARDWARE["left"] + HOSTS["left"] + frame[12:] for frame in chunk], model, [])


def packed_in(block, number):
    """An address of the block, mostly, else any one."""
    block = ipaddress.ip_network(block)
    inside = int(block[0]) | number & int(block.hostmask)
    return (inside if number % 4 else number).to_bytes(4, "big")


def send_from(nat, sides, frames):
    """Sends frames by turns with a question for the counters, so that no queue is full, and returns what they add."""
    before, frames = nat.counters(), list(frames)
    for at in range(0, len(frames), 200):
        for frame in frames[at : at + 200]:
            sides["left"].sock.send(frame)
        after, end = nat.counters(), time.monotonic() + LATEST
        while sum(added(before, after)) < min(at + 200, len(frames)) and time.monotonic() < end:
            time.sleep(0.01)
            after = nat.counters()
    settle(*sides.values())
    for side in sides.values():
        side.forget()
    return added(before, after)


def added(before, after):
    return tuple(after.get(name, 0) - before.get(name, 0) for name in ("forwarded", "above the limit of mappings"))


def limits(program, clock):
    """RFC 6888, REQ-4: one inside address has at most so many mappings, and takes nothing from the others."""
    with on_taps(start_nat, program) as (nat, sides):
        found = send_from(nat, sides, (frame_from_left(port=2000 + n) for n in range(16128 + 50)))
        check("mappings up to the limit by default", found == (16128, 50), found)
    for options, most in ((("-m", "100"), 100), (("-m", "1"), 1)):
        with on_taps(start_nat, program, options=options) as (nat, sides):
            def sends(count, first=2000, **fields):
                return send_from(nat, sides, (frame_from_left(port=first + n, **fields) for n in range(count)))
            check("mappings up to the limit", sends(most + 50) == (most, 50), most)
            check("mappings that are there", sends(most) == (most, 0), most)
            check("other protocols", sends(3, kind="TCP") == (0, 3) == sends(3, kind="ping"), most)
            check("another address", sends(most + 3, source=INSIDE[1], kind="TCP") == (most, 3), most)
    # The run-time of the sanitizers need not be the first library.
    env = {**os.environ, "LD_PRELOAD": clock, "FAST_CLOCK": "200", "ASAN_OPTIONS": "verify_asan_link_order=0"}
    with on_taps(start_nat, program, options=("-m", "50"), env=env) as (nat, sides):
        for first in (2000, 3000, 4000):  # the mappings of UDP live 1.5 s
            found = send_from(nat, sides, (frame_from_left(port=first + n) for n in range(60)))
            check("mappings that have ended", found == (50, 10), found)
            time.sleep(1.7)


def comes_in(sides):
    """Whether a packet from outside comes to the host whose packet has come out."""
    ends_of = {"src": socket.inet_aton("198.18.0.1"), "dst": socket.inet_aton(OUTSIDE)}
    frame = packets.packet(packets.udp(b"comes in", 9, 4000, **ends_of), protocol=17, **ends_of)
    sides["left"].forget()
    sides["right"].sock.send(HARDWARE["right"] + ELSEWHERE + frame[12:])
    end = time.monotonic() + LATEST
    while time.monotonic() < end:
        sides["left"].take(0.05)
        if any(frame.endswith(b"comes in") for frame in sides["left"].came_out):
            return True
    return False


def outside_addresses(program):
    """A file with the same outside address keeps the mappings, one without is wrong, and with another one all mappings end."""
    with on_taps(start_nat, program) as (nat, sides):
        config = nat.text
        check("a packet", comes_out(sides))
        nat.has_again(config)
        check("the same file", nat.waits_for("read again") and comes_in(sides), nat.messages())
        nat.has_again(config.replace("address 10.2.0.1/24 dev right\n", "").replace(" via 10.2.0.9", ""))
        check("no outside address", nat.waits_for("right has no IPv4 address"), nat.messages())
        check("the old file", comes_out(sides))
        nat.has_again(config.replace("10.2.0.1/24", "10.2.0.77/24"))
        check("another outside address", nat.waits_for("read again", 2), nat.messages())
        check("the new file", comes_out(sides))
        sources = {frame[26:30] for frame in sides["right"].came_out if frame.startswith(ELSEWHERE)}
        check("another outside address", sources == {socket.inet_aton("10.2.0.77")}, sources)


def all_programs(folder, clock):
    router, nat, runner = os.path.join(folder, "router"), os.path.join(folder, "nat"), Runner(folder)
    wrong_files(runner)
    good_files(runner)
    ended_by_signals(runner)
    terminal(runner)
    signals_at_the_start(runner)
    files_that_are_pipes(router)
    configurations(router)
    outputs(router)
    many_routes(router)
    many_neighbours(router)
    limits(nat, clock)
    outside_addresses(nat)


if __name__ == "__main__":
    sys.exit(report("operation", all_programs, *sys.argv[1:]))
