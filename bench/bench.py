#!/usr/bin/env python3
"""Times the library's calls and the program.

bench/bench.py [--calls LIBRARY.so] [--program PROGRAM [WORD..]]
bench/bench.py --equal [COUNT [LIBRARY.so]]
                        compares the floor, or a library of another commit, with ours on so many damaged frames, 1000000

LIBRARY.so has the calls of include/ip_wire.h (bench/reference.rs has them over smoltcp): they are
timed in one process with ours, and with those of bench/floor.c. PROGRAM is timed on the same
lines as ours. Where there is one, "speed" is its time divided by ours, so that 1.00 is as fast
and 2.00 twice as fast. Times are medians. The last three cells of a call are ratios of the least
times, and our recorded instructions (tests/counts). The tables are in Markdown; some rows are
drawn in out/speed.svg.
"""
import os
import random
import shutil
import statistics
import subprocess
import sys
import tempfile
import time

import chart
import groups

sys.path.append("tests/counts")
import record  # noqa: E402

CALLS = "bench/calls.c"
FLOOR = "bench/floor.c"
# Processors decode a jump across 32 bytes anew each time; the floor is not to be slow by its place.
FLOOR_JUMPS = "-mbranches-within-32B-boundaries"
COMPILER = os.environ.get("CC", "cc")
LIBRARY = "out/lib/libip_wire.a"
PROGRAM = "crates/ip_frames/out/ip_frames"
CHART = "out/speed.svg"
INPUTS = [(120, 1_000_000), (3000, 100_000)]  # digits of a line, lines
ROUNDS = 7

HEADERS = "0200000000020200000000010800" + "4500{:04x}0000400040fd{:04x}c0a80101c0a80102"


def give_up(message):
    sys.exit(f"make bench: {message}")


def frame(digits, rng):
    """The line of a right IPv4 frame with that many digits, and a random payload."""
    payload = digits // 2 - 34
    words = [0x4500, 20 + payload, 0x4000, 0x40FD, 0xC0A8, 0x0101, 0xC0A8, 0x0102]
    total = sum(words)
    checksum = 0xFFFF - ((total & 0xFFFF) + (total >> 16))
    return HEADERS.format(20 + payload, checksum) + bytes(rng.randrange(256) for _ in range(payload)).hex() + "\n"


def write_lines(path, digits, lines):
    rng = random.Random(digits)
    block = "".join(frame(digits, rng) for _ in range(1000)).encode()
    with open(path, "wb") as file:
        for _ in range(lines // 1000):
            file.write(block)


def seconds(command, path):
    with open(path, "rb") as lines:
        start = time.perf_counter()
        try:
            status = subprocess.run(command, stdin=lines, stdout=subprocess.DEVNULL).returncode
        except OSError as error:
            give_up(f"cannot run {command[0]}: {error.strerror}")
        if status:
            give_up(f"{command[0]} ends with status {status}")
        return time.perf_counter() - start


def run_compiler(*words):
    try:
        return subprocess.run([COMPILER, *words], stdout=subprocess.PIPE, text=True)
    except OSError as error:
        give_up(f"cannot run {COMPILER}: {error.strerror}")


def compile_c(*words):
    if run_compiler("-std=c11", "-march=x86-64-v2", *words).returncode:
        give_up(f"{COMPILER} rejects {' '.join(words)}")


def machine():
    """The processor, and the compiler of the floor."""
    with open("/proc/cpuinfo", encoding="utf-8") as lines:
        names = (line.partition(":")[2].strip() for line in lines if line.startswith("model name"))
        processor = next(names, "unknown processor")
    return f"{processor}; {run_compiler('--version').stdout.splitlines()[0]}"


def git(*words):
    """What git prints. Nothing in a copy without history."""
    try:
        return subprocess.run(["git", *words], stdout=subprocess.PIPE, stderr=subprocess.DEVNULL, text=True).stdout.strip()
    except OSError:
        return ""


def commit():
    """The commit of the sources."""
    name = git("rev-parse", "--short=8", "HEAD") or "no commit"
    return f"{name} with changes" if git("status", "--porcelain", "--untracked-files=no") else name


def with_count(line, counts):
    """A line of the table, with the recorded instructions of the call."""
    cells = [cell.strip() for cell in line.split("|")]
    if line.startswith("|--"):
        return f"{line.rstrip()}---|\n"
    if len(cells) < 3 or not cells[2].isdigit():
        return f"{line.rstrip()} instructions |\n"
    count = counts.get((cells[1], int(cells[2])), [""])[0]
    return f"{line.rstrip()} {count:>12} |\n"


def compile_calls(room, *words):
    """The program that times calls, and the floor, with these options."""
    program, floor = f"{room}/calls", f"{room}/floor.so"
    compile_c("-O3", *words, "-shared", "-fPIC", "-o", floor, FLOOR)
    compile_c("-O2", "-o", program, CALLS, LIBRARY, "-ldl")
    return [program, floor]


def compare_calls(count="1000000", library=None):
    with tempfile.TemporaryDirectory() as room:
        program, floor = compile_calls(room)
        return subprocess.run([program, library or floor, "--equal", count]).returncode


def time_calls(room, reference):
    jumps = FLOOR_JUMPS if "clang" in run_compiler("--version").stdout else f"-Wa,{FLOOR_JUMPS}"
    calls = compile_calls(room, "-falign-functions=64", jumps)
    print(f"{commit()}; {machine()}\n")
    table, counts = [], record.read()
    with subprocess.Popen(calls + reference, stdout=subprocess.PIPE, text=True) as timing:
        for line in timing.stdout:
            line = with_count(line, counts)
            print(line, end="", flush=True)
            table.append(line)
    if timing.returncode:
        sys.exit(1)  # it said why
    with open(CHART, "w", encoding="utf-8") as file:
        file.write(chart.draw(table, commit()))
    print(f"\n{groups.summary(table)}")


def time_programs(room, reference):
    print("| Lines | Digits | seconds | MB/s | reference s | speed |\n|---|---|---|---|---|---|")
    for digits, lines in INPUTS:
        path = f"{room}/lines"
        write_lines(path, digits, lines)
        here, there = [], []
        for _ in range(ROUNDS):
            here.append(seconds([PROGRAM], path))
            if reference:
                there.append(seconds(reference, path))
        ours = statistics.median(here)
        rate = os.path.getsize(path) / ours / 1e6
        beside = f"{statistics.median(there):.2f} | {statistics.median(there) / ours:.2f}" if there else "|"
        print(f"| {lines} | {digits} | {ours:.2f} | {rate:.0f} | {beside} |", flush=True)


def options(words):
    library, program = [], []
    if words[:1] == ["--calls"]:
        library, words = words[1:2], words[2:]
    if words[:1] == ["--program"]:
        program, words = words[1:], []
    if words:
        give_up(f"odd option {words[0]}")
    if library and not os.path.isfile(library[0]):
        give_up(f"there is no library {library[0]}")
    if program and not shutil.which(program[0]):
        give_up(f"there is no program {program[0]}")
    return [os.path.abspath(path) for path in library], program


def main():
    if sys.argv[1:2] == ["--equal"]:
        sys.exit(compare_calls(*sys.argv[2:4]))
    library, program = options(sys.argv[1:])
    with tempfile.TemporaryDirectory() as room:
        time_calls(room, library)
        print()
        time_programs(room, program)


if __name__ == "__main__":
    main()
