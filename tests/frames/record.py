#!/usr/bin/env python3
"""Makes the recorded cases anew: tests/frames/record.py REFERENCE [WORD..]

Writes tests/data/cases/NAME.hex, the frames as hex lines, and beside each NAME.txt, what the
program REFERENCE (given the WORDs) prints for them. The frames are the same in each run.
"""
import os
import subprocess
import sys

import ip_cases
import transport_cases
from packets import packet

DATA = f"{os.path.dirname(os.path.dirname(os.path.abspath(__file__)))}/data"


def worked():
    """A frame of each kind: whole, with wrong checksums, rejected, a fragment, without a packet. Each allocation fails once."""
    datagram, segment = "45000020 00004000 4011b779 c0a80101 c0a80102", "45000030 00004000 4006b774 c0a80101 c0a80102"
    ends = "fe800000000000000000000000000001 ff020000000000000000000000000001"
    for frame in [
        "0800" + datagram + "bf000035 000c124d aa0000ff" + 14 * "00",
        "0800" + datagram + "bf000035 000c124e aa0000ff" + 14 * "00",
        "0800" + datagram + "bf000035 000c8371 aa0000ff" + 14 * "00",
        "0800" + datagram + "bf000000 000c124d aa0000ff" + 14 * "00",
        "0800" + datagram.replace("b779", "b778") + "bf000035 000c124d aa0000ff" + 14 * "00",
        "0800 4500001e 01026203 1a01d56e 11121314 21222324 aa00000000 00000000ff",
        "0800 4500002c 00004000 4006b778 c0a80101 c0a80102 bf000050 01234567 00000000 50020123 7a8d0000 aa0000ff",
        "0800" + segment + "bf000050 01234567 89abcdef 60350123 01b60201 03030c01 aa0000ff",
        "86dd 60000000 000c1140" + ends + "00010002 000c024e ffffffff",
        "86dd 60000000 00082c40" + ends + "1100 0a0000010932",
        "0800",
    ]:
        yield bytes.fromhex("010203040506 111213141516" + frame)


def bytes_lines():
    """Lines that are no hex, or hex of another look. The line feeds are part of the case."""
    frame = packet().hex().encode()
    yield from [b"", b"0", b"0g", b"g0", b"abc", b"01 02", b"0x01", b"\xff", b"\xc3\xa9", b"01,02", b"-1", b"\t"]
    yield from [frame.upper(), frame[:20].upper() + frame[20:], frame + b"0", frame + b" ", b" " + frame, frame[:-1]]
    yield from [frame + b"\r", b"\r", b"\r\r", frame + b"\r\r", b"01\r02", frame[:28] + b"\r", b"\0\0", b"00" * 14]
    yield from [b"00" * 13, b"00" * 15, b"ff" * 14, b"Ff" * 20, b"zz" * 14, b"0" * 2001, frame * 3]


FILES = [*ip_cases.FILES, *transport_cases.FILES, worked]


def record(folder, ending, files, reference):
    """Writes each text into a file NAME.ending, and what the reference prints for it into NAME.txt beside it."""
    os.makedirs(folder, exist_ok=True)
    for name, text in files.items():
        try:
            run = subprocess.run(reference, input=text, stdout=subprocess.PIPE, check=True)
        except (OSError, subprocess.CalledProcessError) as error:
            sys.exit(f"record: the reference fails: {error}")
        with open(f"{folder}/{name}.{ending}", "wb") as file:
            file.write(text)
        with open(f"{folder}/{name}.txt", "wb") as file:
            file.write(run.stdout)
        print(f"{name}: {len(text.splitlines())} lines")


def main():
    if len(sys.argv) < 2:
        sys.exit(__doc__.strip())
    files = {make.__name__: b"".join(frame.hex().encode() + b"\n" for frame in make()) for make in FILES}
    files["lines"] = b"".join(line + b"\n" for line in bytes_lines())
    files["no_last_line_feed"] = packet().hex().encode()
    files["nothing"] = b""
    record(f"{DATA}/cases", "hex", files, sys.argv[1:])


if __name__ == "__main__":
    main()
