#!/usr/bin/env python3
"""Times the packages for Python, Go and Rust beside other libraries of these languages.

    bench/bindings.py [FOLDER]

FOLDER has the C library, by default out/lib. All calls read the same frames, which a model of the RFCs makes from a
seed: TCP and UDP over IPv4 and IPv6, with payloads of 0 to 1,400 bytes. Each adds up ports and lengths of payloads, and
the sums must be equal. The table is in Markdown; a time is the least of several runs. A language or library that is
missing is skipped.
"""
import importlib.util
import os
import pathlib
import random
import re
import shutil
import struct
import subprocess
import sys
import tempfile
import time

TOP = pathlib.Path(__file__).resolve().parents[1]
sys.path[:0] = [str(TOP / "bindings/python"), str(TOP / "bindings/python/tests")]
sys.dont_write_bytecode = True
import model  # noqa: E402

COUNT, ROUNDS = 256, 50  # runs are short, so that some are without other load
LENGTHS = (0, 0, 64, 200, 512, 1400)
GOPACKET = pathlib.Path("/usr/share/gocode")  # Debian's golang-github-google-gopacket-dev
# Of the library that is timed.
PC = """libdir={0}
includedir={2}
Name: ip_wire
Description: ip_wire
Version: {1}
Libs: -L{0} -lip_wire
Cflags: -I{2}
"""


def frames():
    """The frames, and the sum of their ports and lengths of payloads."""
    rng, found, total = random.Random(1), [], 0
    for _ in range(COUNT):
        block = rng.choice(["192.0.2.{}", "192.0.2.{}", "192.0.2.{}", "2001:db8::{}", "2001:db8::{}"])
        src, dst = (model.end(block.format(rng.randrange(1, 99)), rng.randrange(1024, 65536)) for _ in range(2))
        length = rng.choice(LENGTHS)
        payload = rng.getrandbits(8 * length + 1).to_bytes(length + 1, "big")[1:]
        is_udp = rng.random() < 0.2
        found.append(model.udp_frame(src, dst, payload) if is_udp else model.tcp_frame(src, dst, 1, 2, 0x18, 9, b"", payload))
        total += src[1] + dst[1] + len(payload)
    return found, total


def write_frames(path, data):
    """Each frame after its length, which has 4 bytes."""
    path.write_bytes(b"".join(struct.pack("<I", len(frame)) + frame for frame in data))


def skip(reason):
    print(f"skipped: {reason}", file=sys.stderr)


def run(label, job, data, total):
    """The time of a run, in nanoseconds for a frame. A job that returns a sum must return the right one."""
    begun = time.perf_counter()
    found = job(data)
    seconds = time.perf_counter() - begun
    if found not in (None, total):
        sys.exit(f"bench/bindings.py: {label} finds {found}, and not {total}")
    return seconds / len(data) * 1e9


def least(pairs):
    """Of each name the least number, in the order of the names."""
    found = {}
    for name, number in pairs:
        found[name] = min(float(number), found.get(name, float("inf")))
    return found.items()


# ---- Python


def own_jobs():
    import ip_wire

    def sum_of(parsed):
        total = 0
        for frame in parsed:
            if frame.transport in (ip_wire.Transport.UDP, ip_wire.Transport.TCP):
                total += frame.src.port + frame.dst.port + frame.payload_len
        return total

    def parsed(data):
        for frame in data:
            ip_wire.parse_frame(frame)

    def many(data):
        for _ in ip_wire.parse_frames(data):
            pass

    def checked(data):
        for frame in ip_wire.parse_frames(data):
            frame.check()

    yield "`parse_frame`", parsed
    yield "`parse_frames`", many
    yield "`parse_frames`, `check`", checked
    yield "`parse_frame`, addresses and ports", lambda data: sum_of(map(ip_wire.parse_frame, data))
    yield "`parse_frames`, addresses and ports", lambda data: sum_of(ip_wire.parse_frames(data))


def dpkt_jobs():
    import dpkt

    def parsed(data):
        for frame in data:
            dpkt.ethernet.Ethernet(frame)

    def summed(data):
        total = 0
        for frame in data:
            segment = dpkt.ethernet.Ethernet(frame).data.data
            if isinstance(segment, (dpkt.tcp.TCP, dpkt.udp.UDP)):
                total += segment.sport + segment.dport + len(segment.data)
        return total

    yield "dpkt `Ethernet`", parsed
    yield "dpkt, addresses and ports", summed


def scapy_jobs():
    from scapy.layers.inet import TCP, UDP
    from scapy.layers.inet6 import IPv6  # noqa: F401: it registers IPv6
    from scapy.layers.l2 import Ether

    def summed(data):
        total = 0
        for frame in map(Ether, data):
            segment = frame.getlayer(TCP) or frame.getlayer(UDP)
            if segment is not None:
                total += segment.sport + segment.dport + len(segment.payload)
        return total

    yield "scapy, addresses and ports", summed


def python_rows(room, data, total):
    jobs = []
    for name, its in (("ip_wire", own_jobs), ("dpkt", dpkt_jobs), ("scapy", scapy_jobs)):
        if importlib.util.find_spec(name) is None:
            skip(f"{sys.executable} has no {name}")
        else:
            jobs += its()
    return least((label, run(label, job, data, total)) for _ in range(ROUNDS) for label, job in jobs)


# ---- Go and Rust


def go_rows(room, data, total):
    """GOPATH has this package and Debian's gopacket. The frames are in BENCH_FRAMES, and BENCH_SUM is their sum."""
    for name, target in (("lerkvist.example/ipwire", "bindings/go"), ("bench", "bench/bindings")):
        link = room / "src" / name
        link.parent.mkdir(parents=True, exist_ok=True)
        link.symlink_to(TOP / target)
    has_peer = (GOPACKET / "src/github.com/google/gopacket").exists()
    if not has_peer:
        skip("there is no gopacket")
    environment = {**os.environ, "GO111MODULE": "off", "GOFLAGS": "", "GOPATH": f"{room}:{GOPACKET}", "GOCACHE": f"{room}/cache"}
    words = ["-tags", "gopacket"] if has_peer else []
    command = ["go", "test", "-bench", ".", "-benchtime", f"{8 * COUNT}x", "-count", str(ROUNDS), *words, "bench"]
    done = subprocess.run(command, cwd=room, env=environment, capture_output=True, text=True)
    if done.returncode:
        sys.exit(done.stdout + done.stderr)
    lines = re.findall(r"^Benchmark\w+/(\S+?)(?:-\d+)?\s+\d+\s+([\d.]+) ns/op", done.stdout, re.M)
    return least((name.replace("_", " "), number) for name, number in lines)


def rust_rows(room, data, total):
    environment = {**os.environ, "CARGO_TARGET_DIR": f"{room}/cargo", "IP_WIRE_SHARED": "1"}
    crate, program = f"{room}/cargo/release/libip_wire_c.rlib", room / "bench"
    build = ["cargo", "build", "-q", "--release", "--offline", "--locked", "--manifest-path", TOP / "bindings/rust/Cargo.toml"]
    link = ["rustc", "-O", "--edition", "2021", "--extern", f"ip_wire_c={crate}", "-L", room / "lib", "-o", program]
    for command in build, [*link, TOP / "bench/bindings/main.rs"]:
        subprocess.run(command, env=environment, check=True)
    lines = subprocess.run([program], capture_output=True, text=True, check=True).stdout
    return least(line.split("\t") for line in lines.splitlines())


LANGUAGES = [("Python", "python3", python_rows), ("Go", "go", go_rows), ("Rust", "cargo", rust_rows)]


def main(folder):
    library = pathlib.Path(folder).resolve()
    if not (library / "libip_wire.so").exists():
        sys.exit(f"bench/bindings.py: there is no {library}/libip_wire.so: make build makes it")
    version = subprocess.run([TOP / "c/version"], capture_output=True, text=True, check=True).stdout.strip()
    data, total = frames()
    with tempfile.TemporaryDirectory() as name:
        room = pathlib.Path(name)
        write_frames(room / "frames", data)
        (room / "lib").symlink_to(library)
        (room / "ip_wire.pc").write_text(PC.format(library, version, TOP / "include"))
        os.environ.update(IP_WIRE_LIBRARY=f"{library}/libip_wire.so", PKG_CONFIG_PATH=name, LD_LIBRARY_PATH=str(library))
        os.environ.update(BENCH_FRAMES=f"{name}/frames", BENCH_SUM=str(total))
        print("| Language | Call | ns |\n|---|---|---|")
        for language, tool, rows in LANGUAGES:
            if not shutil.which(tool):
                skip(f"there is no {tool}")
                continue
            for label, number in rows(room, data, total):
                print(f"| {language} | {label} | {number:,.0f} |", flush=True)


if __name__ == "__main__":
    main(*(sys.argv[1:] or [TOP / "out/lib"]))
