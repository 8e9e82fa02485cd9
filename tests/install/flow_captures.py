#!/usr/bin/env python3
"""Writes captures for the tests of programs/flows.c.

    tests/install/flow_captures.py FOLDER

Each but crafted.pcap, rejected.pcap and those of odd times has a TCP connection in five packets, as frames of one link: opened, a request of 100 bytes, and a
reply of 300. The checksum of the request is left to the device, and that of the reply is wrong. Each part of the round trip
has one time: 20 ms to the server and back, 0.5 ms to the client and back.
"""
import os
import struct
import sys

sys.path.append(f"{sys.path[0]}/../frames")
import packets

CLIENT, SERVER = packets.HOST_A, packets.HOST_B
ETHERNET, RAW, NULL, SLL, SLL2, IPV4_LINK = 1, 101, 0, 113, 276, 228
SYN, PSH, ACK = 2, 8, 16
TAG, SERVICE_TAG = bytes.fromhex("81000064"), bytes.fromhex("88a800c8")


def timestamp(value, echoed):
    return struct.pack(">BBII", 8, 10, value, echoed)


def opening(value, echoed):
    """The options of SYN, of the kinds 2, 4, 8, 1 and 3."""
    return bytes.fromhex("020405b40402") + timestamp(value, echoed) + bytes.fromhex("01030307")


def later(value, echoed):
    return b"\1\1" + timestamp(value, echoed)


def partial_sum(segment_len):
    return packets.word_sum(packets.pseudo_header(CLIENT, SERVER, 6, segment_len))


# Microseconds, whether the client sends, flags, options, bytes of payload, and a checksum that is not the right one.
CONNECTION = [
    (0, True, SYN, opening(1000, 0), 0, None),
    (20000, False, SYN | ACK, opening(5000, 1000), 0, None),
    (20500, True, ACK, later(1020, 5000), 0, None),
    (21000, True, PSH | ACK, later(1021, 5000), 100, partial_sum(132)),
    (50000, False, PSH | ACK, later(5030, 1021), 300, 0x1234),
]


def in_ipv4(from_client, flags, options, payload_len, checksum):
    src, dst = (CLIENT, SERVER) if from_client else (SERVER, CLIENT)
    ports = {"src_port": 40000, "dst_port": 443} if from_client else {"src_port": 443, "dst_port": 40000}
    segment = packets.tcp(bytes(payload_len), options, flags=flags, src=src, dst=dst, checksum=checksum, **ports)
    return packets.header(len(segment), protocol=6, src=src, dst=dst) + segment


def record(time, frame, snap_len=65535):
    return struct.pack("<IIII", 0, time, min(len(frame), snap_len), len(frame)) + frame[:snap_len]


def capture(link, records):
    return struct.pack("<IHHiIII", 0xA1B2C3D4, 2, 4, 0, 0, 65535, link) + b"".join(records)


def connection(header_of, snap_len=65535):
    """The records of the connection. `header_of` makes the header of the link, by whether the client sends."""
    return [record(time, header_of(rest[0]) + in_ipv4(*rest), snap_len) for time, *rest in CONNECTION]


def tagged(tags, payload, ethertype=b"\x08\x00"):
    return packets.DST + packets.SRC + tags + ethertype + payload


def opening_of_ipv6():
    segment = packets.tcp(b"", opening(1, 0), flags=SYN, src_port=40001, dst_port=80, src=packets.HOST_C, dst=packets.HOST_D)
    return packets.packet_ipv6(segment, next_header=6)


def cut():
    """A snapshot length of 80. Then a TCP header is cut after its 26th byte, and one after its 6th. The last is ARP."""
    ends = [record(60000, opening_of_ipv6(), 80), record(60000, opening_of_ipv6(), 60)]
    return [*connection(lambda _: packets.ethernet(0x0800), 80), *ends, record(60000, packets.ethernet(0x0806, packets.arp()))]


def tags():
    """The client's frames have one tag, and the server's two. Then a frame that ends in a tag, and ARP after a tag."""
    in_tag = record(60000, tagged(TAG, bytes(40)), 16)
    of_arp = record(60000, tagged(TAG, packets.arp(), b"\x08\x06"))
    return [*connection(lambda is_client: tagged(TAG if is_client else SERVICE_TAG + TAG, b"")), in_tag, of_arp]


def cooked(_):
    return bytes.fromhex("0000000100060200000000010000") + b"\x08\x00"


def cooked_2(is_client):
    """After a VLAN tag, if the client sends."""
    front = b"\x81\x00" if is_client else b"\x08\x00"
    return front + bytes.fromhex("000000000002000100060200000000010000") + (b"\x00\x64\x08\x00" if is_client else b"")


def fnv(data, start):
    for octet in data:
        start = (start ^ octet) * 0x100000001B3 % 2**64
    return start


def crafted(count=80000):
    """UDP to endpoints that meet in a table of 2^18 places or fewer whose hash is FNV-1a, with the halves added by XOR."""
    low = fnv(bytes([10, 0, 0, 1]) + bytes(12) + b"\4\0" + b"\x35\0", 0xCBF29CE484222325 ^ 17)
    found = 0
    for host in range(2, 65536):
        start = fnv(bytes([10, 1, *host.to_bytes(2, "big")]) + bytes(12) + b"\4\0", low)
        for port in range(1, 65536):
            value = ((start ^ port & 255) * 0x100000001B3 ^ port >> 8) * 0x100000001B3 % 2**64
            if (value ^ value >> 32) % 2**18 < 2**13:
                dst = bytes([10, 1, *host.to_bytes(2, "big")])
                datagram = struct.pack(">HHHH", 53, port, 8, 0)
                front = packets.header(8, protocol=17, src=bytes([10, 0, 0, 1]), dst=dst)
                yield record(0, packets.ethernet(0x0800, front + datagram))
                found += 1
                if found == count:
                    return


def block(kind, body):
    """A block of pcapng (draft-ietf-opsawg-pcapng, section 3.1)."""
    body += bytes(-len(body) % 4)
    return struct.pack("<II", kind, 12 + len(body)) + body + struct.pack("<I", 12 + len(body))


def first_frames():
    """The SYN of the client and the reply."""
    return [packets.ethernet(0x0800) + in_ipv4(*rest) for _, *rest in CONNECTION[:2]]


def far_times():
    """Two interfaces whose times are whole seconds (if_tsresol 0), from 2^62 before 1970 and after it on (if_tsoffset)."""
    file = block(0x0A0D0D0A, struct.pack("<IHHq", 0x1A2B3C4D, 1, 0, -1))
    for offset in (-(1 << 62), 1 << 62):
        options = struct.pack("<HHB3xHHqHH", 9, 1, 0, 14, 8, offset, 0, 0)
        file += block(1, struct.pack("<HHI", ETHERNET, 0, 65535) + options)
    for interface, frame in enumerate(first_frames()):
        file += block(6, struct.pack("<IIIII", interface, 0, 7, len(frame), len(frame)) + frame)
    return file


def negative_times():
    """Seconds and microseconds of 32 bits with the highest one set, after the last ones without."""
    times = ((0x7FFFFFFF, 0x7FFFFFFF), (0x80000000, 0xFFFFFFFF))
    return capture(ETHERNET, [struct.pack("<IIII", *time, len(frame), len(frame)) + frame for time, frame in zip(times, first_frames())])


def rejected():
    """A frame for each reason to reject one, in their order, and none of those that are read."""
    routing = bytes([17, 2, 0, 1, 0, 0, 0, 0]) + packets.HOST_C  # one segment is left
    hops = bytes([0, 0, 1, 4, 0, 0, 0, 0])  # hop-by-hop options, or options for the destination: padding
    datagram = packets.udp()
    frames = [
        bytes(13),
        packets.ethernet(0x0800, packets.header_ipv6()),
        packets.packet(total=19),
        packets.ethernet(0x0806, packets.arp(hardware=6)),
        packets.in_ipv4(packets.udp(dst_port=0)),
        packets.packet(packets.tcp(flags=SYN | 1), protocol=6),
        packets.packet(packets.tcp(options=b"\2\1"), protocol=6),
        packets.packet(),
        packets.packet_ipv6(routing + datagram, next_header=43),
        packets.packet_ipv6(hops + bytes([17]) + hops[1:] + datagram, next_header=60),
    ]
    return [record(0, frame, 20 if at == 7 else 65535) for at, frame in enumerate(frames)]


CAPTURES = {
    "rejected": (ETHERNET, rejected),
    "cut": (ETHERNET, cut),
    "tags": (ETHERNET, tags),
    "cooked": (SLL, lambda: connection(cooked)),
    "cooked_2": (SLL2, lambda: connection(cooked_2)),
    "raw": (RAW, lambda: connection(lambda _: b"")),
    "raw_ipv4": (IPV4_LINK, lambda: connection(lambda _: b"")),
    "loop": (NULL, lambda: connection(lambda _: b"\2\0\0\0")),
    "crafted": (ETHERNET, crafted),
}


def main():
    if len(sys.argv) != 2:
        sys.exit(__doc__)
    for name, (link, records) in CAPTURES.items():
        with open(os.path.join(sys.argv[1], name + ".pcap"), "wb") as file:
            file.write(capture(link, records()))
    for name, make in (("far_times.pcapng", far_times), ("negative_times.pcap", negative_times)):
        with open(os.path.join(sys.argv[1], name), "wb") as file:
            file.write(make())


if __name__ == "__main__":
    main()
