#!/usr/bin/env python3
"""Frames per second of programs/router.c and nat.c, beside copying alone and beside the kernel's forwarding.

bench/forwarding.py [ROUNDS [SECONDS]]

As root. A host on the left sends one UDP frame again and again, as fast as it can, and those that come out on the right
are counted. All rows of a table are measured in turn in each round; a cell has the median of the rounds. `processor` is
the time of the program for a frame that it received, in microseconds: in its own code, and in the kernel for it.
"""
import os
import statistics
import subprocess
import sys
import tempfile
import time

TOP = os.path.dirname(os.path.dirname(os.path.abspath(__file__)))
sys.path[:0] = [f"{TOP}/tests/frames", f"{TOP}/tests/kernel"]
import packets  # noqa: E402
from links import ELSEWHERE, Namespace  # noqa: E402

CONFIG = f"""
address 10.1.0.1/24 dev left
address 10.2.0.1/24 dev right
route 198.18.0.0/15 via 10.2.0.9 dev right
neighbour 10.2.0.9 lladdr {ELSEWHERE.hex(':')} dev right
"""
KERNEL = f"""
sysctl -qw net.ipv4.ip_forward=1
ip address add 10.1.0.1/24 dev left && ip address add 10.2.0.1/24 dev right
ip route add 198.18.0.0/15 via 10.2.0.9
ip neighbour add 10.2.0.9 lladdr {ELSEWHERE.hex(':')} dev right
"""
LLADDR = "lladdr 02:00:00:00:aa:01 dev left\n"
ROUTER, HOST = bytes.fromhex("02000000aa01"), bytes.fromhex("020000000102")
SRC, DST = bytes([10, 1, 0, 2]), bytes([198, 18, 0, 1])
SIZES = (60, 1514)
# Large frames would be measured as one.
NO_OFFLOADS = """
import array, fcntl, socket, struct, sys
sock = socket.socket()
for command in (0x17, 0x19, 0x1f, 0x21, 0x23, 0x2c):  # ETHTOOL_SRXCSUM, STXCSUM, STSO, SUFO, SGSO, SGRO
    data = array.array("B", struct.pack("II", command, 0))
    try:
        fcntl.ioctl(sock, 0x8946, struct.pack("16sP", sys.argv[1].encode(), data.buffer_info()[0]))  # SIOCETHTOOL
    except OSError:
        pass
"""


def frame_of(size):
    data = packets.udp(bytes(size - 42), 5000, 9, src=SRC, dst=DST)
    return packets.ethernet(packets.IPV4, packets.header(len(data), protocol=17, src=SRC, dst=DST) + data, ROUTER, HOST).hex()


def compiled(room, name, *sources):
    library = os.environ.get("LIBRARY", f"{TOP}/out/lib/libip_wire.a")
    subprocess.run(["cc", "-O2", f"-I{TOP}/include", "-o", f"{room}/{name}", *sources, library], check=True)
    return f"{room}/{name}"


def received(namespace):
    """The frames that came out on the right."""
    text = subprocess.run(["nsenter", "--target", namespace.process, "--net", "cat", "/proc/net/dev"], stdout=subprocess.PIPE,
                          check=True, text=True).stdout
    return next(int(line.split()[2]) for line in text.splitlines() if line.strip().startswith("right:"))


class Path:
    """A host on each side, and between them a namespace with the program, or none for the kernel."""

    def __init__(self, command, is_taps):
        self.left, self.middle, self.right, self.process = Namespace(), Namespace(), Namespace(), None
        if not is_taps:
            for name, host in (("left", self.left), ("right", self.right)):
                address = f"02:00:00:00:aa:0{1 + (name == 'right')}"
                self.middle.run(f"ip link add {name} address {address} type veth peer name {name} netns {host.process}")
                self.middle.run(f"ip link set {name} addrgenmode none up")
        if command:
            command = ["nsenter", "--target", self.middle.process, "--net", *command]
            self.process = subprocess.Popen(command, stdout=subprocess.PIPE)
            self.process.stdout.readline()
        else:
            self.middle.run(KERNEL)
        for name, host in (("left", self.left), ("right", self.right)):
            if is_taps:
                self.middle.run(f"ip link set {name} netns {host.process}")
            host.run(f"ip link set {name} addrgenmode none up; python3 -c '{NO_OFFLOADS}' {name}")
            if not is_taps:
                self.middle.run(f"python3 -c '{NO_OFFLOADS}' {name}")

    def processor_time(self):
        with open(f"/proc/{self.process.pid}/stat", encoding="ascii") as stat:
            return [int(ticks) / os.sysconf("SC_CLK_TCK") for ticks in stat.read().rsplit(")", 1)[1].split()[11:13]]

    def measure(self, blast, seconds, frame):
        """Frames per second, and microseconds of the program for each, in its own code and in the kernel."""
        before, start = received(self.right), time.monotonic()
        used = self.processor_time() if self.process else None
        subprocess.run(["nsenter", "--target", self.left.process, "--net", blast, "left", str(seconds), frame],
                       stdout=subprocess.DEVNULL, check=True)
        count, time_taken = received(self.right) - before, time.monotonic() - start
        times = [(now - then) / max(count, 1) * 1e6 for now, then in zip(self.processor_time(), used)] if self.process else [0, 0]
        return count / time_taken, *times

    def end(self):
        for process in (self.process, self.left.keeper, self.middle.keeper, self.right.keeper):
            if process:
                process.kill()
                process.wait()


def main(rounds=5, seconds=1.0):
    with tempfile.TemporaryDirectory() as room:
        sources = f"{TOP}/programs"
        parts = [f"{sources}/routing/{name}" for name in os.listdir(f"{sources}/routing") if name.endswith(".c")]
        programs = {name: compiled(room, name, f"{sources}/{name}.c", *parts) for name in ("router", "nat")}
        programs["copy"] = compiled(room, "copy", f"{TOP}/bench/copy.c", f"{sources}/routing/device.c")
        blast = compiled(room, "blast", f"{TOP}/bench/blast.c")
        for kind in ("tap", "packet"):
            left, right = f"{kind}:left", f"{kind}:right"
            with open(f"{room}/config", "w", encoding="ascii") as file:
                file.write(CONFIG + LLADDR * (kind == "tap"))
            rows = {"copy": [programs["copy"], left, right], "router": [programs["router"], f"{room}/config", left, right],
                    "nat": [programs["nat"], f"{room}/config", right, left]}
            if kind == "packet":
                rows["kernel"] = None
            table(kind, rows, blast, rounds, seconds)


def table(kind, rows, blast, rounds, seconds):
    print(f"\n| {kind} | bytes | frames/s | to copy | processor, own | kernel |\n|---|---|---|---|---|---|")
    for size in SIZES:
        results = {name: [] for name in rows}
        for _ in range(rounds):
            for name, command in rows.items():
                path = Path(command, kind == "tap")
                results[name].append(path.measure(blast, seconds, frame_of(size)))
                path.end()
        medians = {name: [statistics.median(values) for values in zip(*found)] for name, found in results.items()}
        for name, (rate, own, kernel) in medians.items():
            ratio = rate / medians["copy"][0]
            print(f"| {name} | {size} | {rate:,.0f} | {ratio:.2f} | {own:.2f} | {kernel:.2f} |", flush=True)


if __name__ == "__main__":
    main(*map(int, sys.argv[1:2]), *map(float, sys.argv[2:3]))
