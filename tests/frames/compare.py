#!/usr/bin/env python3
"""Feeds generated lines to two programs and shows the first difference.

tests/frames/compare.py PROGRAM SEED LINES REFERENCE [WORD..]

The lines are made of the recorded frames and of random ones, with fields, bytes and
lengths changed. Each seed gives its own lines, the same in each run.
"""
import io
import shutil
import subprocess
import sys
from itertools import zip_longest

import packets
import record
from dice import Random

# How many lines a run of a program is given.
AT_ONCE = 10000


def changed(rng, frame):
    """The frame with a few bytes changed, cut off or appended."""
    frame = bytearray(frame)
    for _ in range(rng.choice([0, 1, 1, 2, 5])):
        if frame:
            frame[rng.randrange(len(frame))] = rng.choice([0, 1, 0xFF, rng.randrange(256)])
    if rng.random() < 0.2:
        del frame[rng.randrange(len(frame) + 1) :]
    if rng.random() < 0.2:
        frame += rng.randbytes(rng.randrange(20))
    return bytes(frame)


def random_packet(rng):
    """An IPv4 packet with random fields, mostly a right one."""
    options = rng.randbytes(4 * rng.choice([0, 0, 0, 1, 2, 10]))
    fields = dict(options=options, hop_limit=rng.randrange(256), protocol=rng.choice([1, 6, 17, rng.randrange(256)]),
                  ident=rng.randrange(65536), service=rng.choice([0, rng.randrange(256)]),
                  flags=rng.choice([0, 0x4000, 0x4000, 0x2000, rng.randrange(65536)]),
                  src=rng.randbytes(4), dst=rng.randbytes(4))
    if rng.random() < 0.1:
        fields["checksum"] = rng.randrange(65536)
    if rng.random() < 0.1:
        fields["total"] = rng.randrange(100)
    payload = rng.randbytes(rng.choice([0, 1, 2, 3, 20, 46, rng.randrange(300)]))
    return packets.packet(payload, padding=rng.randbytes(rng.choice([0, 0, 1, 14])), **fields)


def random_packet_ipv6(rng):
    """An IPv6 packet with random fields, mostly a right one, with many zero groups in its addresses."""
    def address():
        return b"".join(rng.choice([b"\0\0", b"\0\0", b"\xff\xff", rng.randbytes(2)]) for _ in range(8))

    payload = rng.randbytes(rng.choice([0, 1, 2, 7, 8, 20, rng.randrange(300)]))
    fields = dict(service=rng.choice([0, rng.randrange(256)]), label=rng.choice([0, rng.randrange(1 << 20)]),
                  next_header=rng.choice([44, 44, 6, 17, rng.randrange(256)]), hop_limit=rng.randrange(256),
                  src=address(), dst=address())
    if rng.random() < 0.1:
        fields["payload_len"] = rng.randrange(100)
    return packets.packet_ipv6(payload, padding=rng.randbytes(rng.choice([0, 0, 1, 14])), **fields)


def random_datagram(rng):
    """A UDP packet over IPv4 or IPv6, mostly a right one, with its checksum, none, a part of it or a wrong one."""
    src, dst, carry = rng.choice(packets.CARRIERS)
    payload = rng.randbytes(rng.choice([0, 1, 2, 3, 8, 33, rng.randrange(300)]))
    fields = dict(src_port=rng.randrange(65536), dst_port=rng.choice([0, 53, rng.randrange(65536)]))
    if rng.random() < 0.2:
        fields["length"] = rng.choice([0, 7, 8, 8 + len(payload) // 2, 9 + len(payload), rng.randrange(65536)])
    kind = rng.random()
    if kind < 0.1:
        fields["checksum"] = packets.word_sum(packets.pseudo_header(src, dst, 17, fields.get("length", 8 + len(payload))))
    elif kind < 0.3:
        fields["checksum"] = rng.choice([0, 0xFFFF, rng.randrange(65536)])
    datagram = packets.udp(payload, src=src, dst=dst, **fields) + rng.randbytes(rng.choice([0, 0, 0, 5]))
    return carry(datagram, padding=rng.randbytes(rng.choice([0, 0, 1, 14])))


def random_arp(rng):
    """An ARP packet, mostly of Ethernet and IPv4, whose addresses mostly have the lengths that it names."""
    hardware_len, protocol_len = rng.choice([(6, 4), (6, 4), (6, 16), (8, 4), (rng.randrange(20), rng.randrange(20))])
    message = packets.arp(rng.choice([1, 2, rng.randrange(65536)]), rng.choice([1, 1, 1, rng.randrange(65536)]),
                          rng.choice([packets.IPV4, packets.IPV4, packets.IPV6, rng.randrange(65536)]), hardware_len, protocol_len,
                          rng.randbytes(hardware_len), rng.randbytes(protocol_len),
                          rng.randbytes(hardware_len), rng.randbytes(protocol_len))
    return packets.ethernet(packets.ARP, message + b"\0" * rng.choice([0, 0, 1, 18]), dst=rng.randbytes(6))


def corpus(seed, lines):
    rng = Random(seed)
    known = [frame for make in record.FILES for frame in make() if len(frame) < 300]
    odd = list(record.bytes_lines())
    for _ in range(lines):
        kind = rng.random()
        if kind < 0.01:
            yield rng.choice(odd)
        elif kind < 0.03:
            yield rng.randbytes(rng.randrange(40)).replace(b"\n", b"")
        else:
            make = rng.choice([random_packet, random_packet_ipv6, random_datagram, random_arp])
            frame = make(rng) if kind < 0.6 else rng.choice(known)
            text = (frame if kind < 0.3 else changed(rng, frame)).hex().encode()
            yield (text.upper() if rng.random() < 0.05 else text) + (b"\r" if rng.random() < 0.05 else b"")


def answers(target, command, text, end):
    """What a program prints for a text, split after each end. The last answer may have no end."""
    try:
        output = subprocess.run(command, input=text, stdout=subprocess.PIPE, check=True).stdout
    except (OSError, subprocess.CalledProcessError) as error:
        sys.exit(f"{target}: {command[0]} fails: {error}")
    *whole, rest = output.split(end)
    return [answer + end for answer in whole] + [rest] * bool(rest)


def shown(answer):
    """An answer as bytes, line by line."""
    return "\n".join(map(repr, io.BytesIO(answer))) or "nothing"


def compare(target, usage, corpus, end):
    """Compares the answers of two programs to the lines of a corpus, each of which has this at its end."""
    if len(sys.argv) < 5:
        sys.exit(usage.strip())
    program, seed, lines, *reference = sys.argv[1:]
    if not (seed.isdecimal() and lines.isdecimal()):
        sys.exit(f"{target}: SEED and LINES are numbers, not {seed} and {lines}")
    if not shutil.which(reference[0]):
        sys.exit(f"{target}: there is no program {reference[0]}")
    made = list(corpus(int(seed), int(lines)))
    for at in range(0, len(made), AT_ONCE):
        part = [line + b"\n" for line in made[at : at + AT_ONCE]]
        text = b"".join(part)
        ours, theirs = answers(target, [program], text, end), answers(target, reference, text, end)
        for line, one, other in zip_longest(part, ours, theirs, fillvalue=b""):
            if one != other:
                sys.exit(f"line\n{shown(line)}\n{program} prints\n{shown(one)}\nthe reference prints\n{shown(other)}")
    print(f"{len(made)} lines, no difference")


if __name__ == "__main__":
    compare("make compare", __doc__, corpus, b"\n\n")
