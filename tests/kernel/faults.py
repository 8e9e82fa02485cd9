#!/usr/bin/env python3
"""The kernel's side of tests/kernel, for faults around programs/router.c and nat.c, and in them.

tests/kernel/faults.py taps ROUTER             while TAP devices fail, and hostile frames come
tests/kernel/faults.py flood NAT               while hostile frames come from inside and outside
tests/kernel/faults.py sockets ROUTER          while interfaces fail, queues are full, and hostile frames come
tests/kernel/faults.py clock ROUTER NAT CLOCK  with a clock that goes fast: a library to be preloaded
tests/kernel/faults.py noticed ROUTER NAT      sees that the comparison of frames fails for faulty programs

Prints how many exchanges were right. The status is 1 if one was wrong, or if a kernel counted an error.
"""
import contextlib
import io
import os
import shutil
import signal
import socket
import subprocess
import sys
import time

import icmp_tests
import fragments
import nat as kernel_nat
import router as kernel_router
from client import check, echoed, report, wrong
from dice import ANY as random
from links import SELF, Here, Namespace, WideSide, udp_echo
from nat import INSIDE, OUTSIDE, bound, nat_frames, seen_by
from router import ARP, MODEL, SERVERS, make_pairs, random_frames, set_host, start_on_pairs, start_on_taps
from routed_frames import HARDWARE, HOSTS, hostile_frames
from waits import LATEST, until

FLOOD, FEW = 60_000, 600


def works(what):
    for family, address in SERVERS:
        wait, data, found = 1, random.randbytes(1000), None
        while found != data and wait <= LATEST:
            found = udp_echo(family, (address, 7), data, wait=wait)
            wait *= 2
        check("after a fault", found == data, (what, address, found))


def flood(sides, count=FLOOD):
    """Hostile frames, as fast as they can be sent."""
    for name, side in sides.items():
        for frame in hostile_frames(count // len(sides), name):
            try:
                side.sock.send(frame)
            except OSError:  # the queue is full, or the device is down
                time.sleep(0.0001)
        side.forget()


def processor_time(router):
    with open(f"/proc/{router.process.pid}/stat", encoding="ascii") as stat:
        return sum(map(int, stat.read().rsplit(")", 1)[1].split()[11:13]))


def is_idle(router, what):
    """It does not spin: it takes less than a tenth of a processor."""
    before = processor_time(router)
    time.sleep(0.5)
    check("idle", processor_time(router) - before < 5, what)


def taps_fail(router, room, there, sides):
    flood(sides)
    works("hostile frames")
    Here().run("ip link set left down")
    is_idle(router, "a device that is down")
    set_host(Here(), "left")
    works("a device that was down")
    there.run("ip link set right down")
    udp_echo(socket.AF_INET, ("10.2.0.2", 7), b"lost", wait=0.1)
    check("lost", until(lambda: router.counters()["right lost"] > 0))
    set_host(there, "right")
    works("the other device was down")
    there.run("ip link delete right")
    check("a deleted device", router.waits_for("router: right: the device is gone"))
    is_idle(router, "a deleted device")
    room.run("ip tuntap add right mode tap")
    check("a device that is back", router.waits_for("router: right: the device is back"))
    room.run(f"ip link set right netns {there.process}")
    set_host(there, "right")
    works("a device that was deleted")


def sockets_fail(router, room, there, sides):
    flood(sides)
    works("hostile frames")
    for name in HOSTS:
        room.run(f"ip link set {name} down")
        is_idle(router, "an interface that is down")
        room.run(f"ip link set {name} up")
        works("an interface that was down")
    full_socket(router, sides)
    room.run("ip link delete left && ip link delete right")
    for name in HOSTS:
        check("a deleted interface", router.waits_for(f"router: {name}: the device is gone"))
    is_idle(router, "deleted interfaces")
    make_pairs(room, there)
    for name in HOSTS:
        check("an interface that is back", router.waits_for(f"router: {name}: the device is back"))
    works("deleted interfaces")
    full_queue(router, room)


def full_socket(router, sides):
    """More comes than the socket takes, while the router stands still."""
    router.process.send_signal(signal.SIGSTOP)
    for _ in range(20_000):
        sides["left"].sock.send(HARDWARE["left"] + bytes(1494))
    router.process.send_signal(signal.SIGCONT)
    works("a full socket")
    check("missed", router.counters()["left missed"] > 0)


def full_queue(router, room):
    """The queue of the interface takes less than what comes."""
    if not shutil.which("tc"):
        print("tests/kernel: skipped: a full queue: tc is not on the path")
        return
    room.run("tc qdisc add dev right root tbf rate 200kbit burst 4kb limit 8kb")
    with socket.socket(socket.AF_INET, socket.SOCK_DGRAM) as sock:
        def loses():
            for _ in range(50):
                sock.sendto(bytes(1000), ("10.2.0.2", 9))
            return router.counters()["right lost"] > 0

        check("lost", until(loses))
    room.run("tc qdisc delete dev right root")
    works("a full queue")


def ended_in_each_state(room, there, program):
    """SIGTERM is taken at once."""
    def held(_):
        with socket.socket(socket.AF_INET, socket.SOCK_DGRAM) as sock:
            sock.sendto(b"", ("10.2.0.77", 7))

    def busy(router):
        sides = {"left": WideSide(SELF, "left")}
        flood(sides, 4000)

    states = {"idle": lambda router: None, "packets that wait": held, "hostile frames": busy,
              "a device that is down": lambda router: there.run("ip link set right down"),
              "a deleted device": lambda router: there.run("ip link delete right")}
    for what, reach in states.items():
        router = start_on_taps(room, there, program)
        reach(router)
        router.ends(what)


def with_faults(start, fail, program):
    room, there = Namespace(), Namespace()
    router = start(room, there, program)
    server = there.serve(*(address for _, address in SERVERS))
    works("the start")
    fail(router, room, there, {"left": WideSide(SELF, "left"), "right": WideSide(there.process, "right")})
    router.ends("after faults")
    server.kill()


def with_taps(program):
    with_faults(start_on_taps, taps_fail, program)
    ended_in_each_state(Namespace(), Namespace(), program)


def with_flood(program):
    room, there = Namespace(), Namespace()
    nat = kernel_nat.start_on_taps(room, there, program)
    server = there.serve(*(address for _, address in SERVERS))
    sides = {"left": WideSide(SELF, "left"), "right": WideSide(there.process, "right")}

    def has_taken_many():
        flood(sides)
        return nat.counters()["frames"] > FLOOD * 0.5

    check("hostile frames", until(has_taken_many), nat.counters())
    for family, address in SERVERS:
        check("after a flood", udp_echo(family, (address, 7), b"data") == b"data", address)
        check("after a flood", echoed(family, address, bytes(100_000)) == bytes(100_000), address)
    nat.ends("after a flood")
    server.kill()


def with_sockets(program):
    with_faults(start_on_pairs, sockets_fail, program)


# ---- time-outs


def frames_to(side, hardware, is_arp):
    """IP packets or ARP requests that came out to this Ethernet address."""
    side.take()
    return [frame for frame in side.came_out if frame[:6] == hardware
            and (frame[12:14] == ARP and frame[21] == 1 if is_arp else frame[12:14] != ARP)]


def neighbours_grow_old(program, env):
    """After a minute the router asks its neighbour again, and finds another Ethernet address after some seconds."""
    room, there = Namespace(), Namespace()
    router = start_on_pairs(room, there, program, env=env)
    server = there.serve(*(address for _, address in SERVERS))
    works("the start")
    side, other = WideSide(there.process, "right"), bytes.fromhex("020000000203")
    check("a fresh neighbour", not frames_to(side, HOSTS["right"], True))
    time.sleep(2.2)
    udp_echo(socket.AF_INET, ("10.2.0.2", 7), b"old")
    check("a question to an old neighbour", len(frames_to(side, HOSTS["right"], True)) == 1)
    there.run(f"ip link set right address {other.hex(':')}")
    time.sleep(2.2)
    end = time.monotonic() + LATEST
    with socket.socket(socket.AF_INET, socket.SOCK_DGRAM) as sock:
        while not frames_to(side, other, False) and time.monotonic() < end:
            sock.sendto(b"new", ("10.2.0.2", 7))
            time.sleep(0.05)
    check("another Ethernet address", frames_to(side, other, False) != [])
    router.ends("with a fast clock")
    server.kill()


def mappings_end(program, env):
    """A mapping of UDP ends after 5 minutes, and one of TCP 4 minutes after its connection."""
    room, there = Namespace(), Namespace()
    nat = kernel_nat.start_on_pairs(room, there, program, env=env)
    server = there.serve(*kernel_nat.SERVERS)
    for address in kernel_nat.SERVERS:  # it waits 15 ms for a new neighbour
        check("the start", until(lambda: udp_echo(socket.AF_INET, (address, 7), b"start", wait=1) == b"start"), address)
    with bound(socket.SOCK_DGRAM, (INSIDE[0], 5000)) as sock, there.entered(), bound(socket.SOCK_DGRAM, ("10.2.0.3", 99)) as far:
        check("port that is kept", seen_by(sock, "10.2.0.2") == (OUTSIDE, 5000))
        for n in range(5):
            time.sleep(0.5)
            sock.sendto(b"alive", ("10.2.0.3", 99))
            check("a mapping that is used", far.recvfrom(99) == (b"alive", (OUTSIDE, 5000)), n)
        far.sendto(b"in time", (OUTSIDE, 5000))
        check("a live mapping", sock.recv(99) == b"in time")
        time.sleep(2)
        before = nat.counters().get("LK_NO_MAPPING", 0)
        far.sendto(b"too late", (OUTSIDE, 5000))
        is_told = until(lambda: nat.counters().get("LK_NO_MAPPING", 0) > before)
        check("a mapping that has ended", is_told and nat.counters()["LK_NO_MAPPING"] == before + 1)
    with socket.create_connection(("10.2.0.2", 7), timeout=LATEST) as sock:
        time.sleep(2)
        sock.sendall(b"idle")
        check("a connection that was idle", sock.recv(99) == b"idle")
    nat.ends("with a fast clock")
    server.kill()


def with_fast_clock(router, nat, clock):
    for program, exchange, factor in ((router, neighbours_grow_old, 30), (nat, mappings_end, 200)):
        exchange(program, {**os.environ, "LD_PRELOAD": clock, "FAST_CLOCK": str(factor)})


# ---- faulty programs

# By the numbers of tests/kernel/faulty_router.c.
ROUTER_FAULTS = ("no fault", "the hop limit is kept", "the checksum is kept", "the sender's Ethernet address is kept",
                 "an octet of the payload is changed", "DSCP and ECN are cleared", "a packet with hop limit 1 passes")
ERROR_FAULTS = ("an error about an error", "an error quotes another octet", "an error from another address", "no limit of errors")
FRAGMENT_FAULTS = ("fragments in their order only", "fragments that overlap")
NAT_FAULTS = ("another outside port", "the checksum of UDP and TCP is kept", "no UDP checksum", "another inside port",
              "a packet for no mapping passes", "the packet in an error is kept")


def wrong_with(start, program, fault, exchange, options=()):
    """How much is wrong with this fault."""
    room, there = Namespace(), Namespace()
    router = start(room, there, program, options=options, env={**os.environ, "FAULT": str(fault)})
    sides, before = {"left": WideSide(SELF, "left"), "right": WideSide(there.process, "right")}, len(wrong)
    kernel_router.LATEST = fragments.LATEST = 0.5 if fault or options else LATEST
    with contextlib.redirect_stderr(io.StringIO()), contextlib.suppress(SystemExit):
        exchange(router, sides, room, there)
    found = len(wrong) - before
    del wrong[before:]
    router.ends(f"fault {fault}")
    return found


def random_ones(model, make):
    def exchange(router, sides, *_):
        for _ in range(2):
            random_frames(router, sides, FEW, model, make, 1)
    return exchange


def of_errors(_router, sides, *_):
    icmp_tests.untold(sides)
    icmp_tests.errors_are_limited(sides["left"])


def of_fragments(_router, sides, *_):
    ends = fragments.FAR_LEFT, bytes([10, 1, 0, 1]), HARDWARE["left"]
    fragments.echo_in_fragments(sides["left"], *ends)
    fragments.without_answer(sides["left"], *ends)


def of_mtus(_router, _sides, room, there):
    server = there.serve(*(address for _, address in SERVERS))
    icmp_tests.smaller_link(room, there)
    server.kill()
    Here().run("ip link delete left")


def has_pairs():
    """Whether there are virtual Ethernet devices."""
    command = "ip link add veth0 type veth peer name veth1 2> /dev/null && ip link delete veth0"
    return subprocess.run(command, shell=True, check=False).returncode == 0


def faults_are_noticed(router, nat):
    routed, names = random_ones(MODEL, hostile_frames), (*ROUTER_FAULTS, *ERROR_FAULTS, "another MTU", *NAT_FAULTS, *FRAGMENT_FAULTS)
    for number, name in enumerate(names):
        start, program, exchange = start_on_taps, router, routed
        if name in ERROR_FAULTS:
            exchange = of_errors
        elif name in FRAGMENT_FAULTS:
            exchange = of_fragments
        elif name == "another MTU":
            if not has_pairs():
                continue
            start, exchange = start_on_pairs, of_mtus
        elif name in NAT_FAULTS:
            model = kernel_nat.Nat()
            start, program, exchange = kernel_nat.start_on_taps, nat, random_ones(model, nat_frames(model))
        found = wrong_with(start, program, number, exchange)
        check("fault", (found > 0) == (number > 0), (name, found))
    model = kernel_nat.Nat()
    check("no fault", wrong_with(kernel_nat.start_on_taps, nat, 0, random_ones(model, nat_frames(model))) == 0)
    check("no fault", wrong_with(start_on_taps, router, 0, of_errors) == 0)
    check("no fault", wrong_with(start_on_taps, router, 0, of_fragments) == 0)
    check("fault", wrong_with(start_on_taps, router, 0, routed, ("-n",)) > 0, "no reverse-path check")


if __name__ == "__main__":
    modes = {"taps": with_taps, "flood": with_flood, "sockets": with_sockets, "clock": with_fast_clock, "noticed": faults_are_noticed}
    sys.exit(report(f"faults {sys.argv[1]}", modes[sys.argv[1]], *sys.argv[2:]))
