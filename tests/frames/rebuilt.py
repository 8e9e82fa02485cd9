#!/usr/bin/env python3
"""The rebuilt frame by the rules of include/ip_wire.h (`lk_rebuild`), without the library.

    tests/frames/rebuilt.py

compares `rebuilt` with the lines `again` of all recorded frames, and the fields of both with the table in the comment of
`lk_rebuild`. A field with a row must change so in each frame, and differ in one of them. Any other field must be kept, and must
have more than one value. What is wrong is printed, and the status is 1 then.
"""
import collections
import glob
import os
import re
import sys

import packets
from packets import ARP, IPV4, IPV6, word_sum

TOP = os.path.dirname(os.path.dirname(os.path.dirname(os.path.abspath(__file__))))
UDP, TCP = 17, 6
FIN, SYN, RST, PSH, ACK = 1, 2, 4, 8, 16
END, NO_OPERATION, MAX_SEG_SIZE, WINDOW_SCALE, SACK_PERMITTED, SACK, TIMESTAMP = 0, 1, 2, 3, 4, 5, 8
# The data of an option of this kind has one of these lengths.
SIZES = {MAX_SEG_SIZE: [2], WINDOW_SCALE: [1], SACK_PERMITTED: [0], SACK: range(8, 256, 8)}
MOST_RANGES, LARGEST_SCALE, MOST_SHOWN = 4, 14, 60
# The fields of each header, in order, by the RFCs.
WIDTHS = {
    "Ethernet": {"destination address": 48, "source address": 48, "EtherType": 16},
    "ARP": {"hardware type": 16, "protocol type": 16, "hardware length": 8, "protocol length": 8, "operation": 16,
            "source hardware address": 48, "source protocol address": 32, "target hardware address": 48,
            "target protocol address": 32},
    "IPv4": {"version": 4, "IHL": 4, "DSCP": 6, "ECN": 2, "total length": 16, "identification": 16, "reserved flag": 1,
             "DF": 1, "MF": 1, "fragment offset": 13, "time to live": 8, "protocol": 8, "header checksum": 16,
             "source address": 32, "destination address": 32},
    "IPv6": {"version": 4, "traffic class": 8, "flow label": 20, "payload length": 16, "next header": 8, "hop limit": 8,
             "source address": 128, "destination address": 128},
    "UDP": {"source port": 16, "destination port": 16, "length": 16, "checksum": 16},
    "TCP": {"source port": 16, "destination port": 16, "sequence number": 32, "acknowledgement number": 32,
            "data offset": 4, "reserved bits": 4, "CWR": 1, "ECE": 1, "URG": 1, "ACK": 1, "PSH": 1, "RST": 1, "SYN": 1,
            "FIN": 1, "window": 16, "checksum": 16, "urgent pointer": 16},
}
OPTIONS = {MAX_SEG_SIZE: "maximum segment size", WINDOW_SCALE: "window scale", SACK_PERMITTED: "SACK permitted",
           SACK: "SACK ranges", TIMESTAMP: "timestamp"}
# What has one value in each header that parses.
FIXED = {("ARP", name) for name in list(WIDTHS["ARP"])[:4]} | {("IPv4", "version"), ("IPv6", "version"), ("IPv4", "MF"),
                                                                ("IPv4", "fragment offset"), ("TCP", "SACK permitted")}
# What can be computed.
COMPUTED = re.compile("length|checksum|data offset")
PADDING, ORDER, ZEROS = ("Ethernet", "padding"), ("TCP", "order of options"), ("TCP", "zeros after the options")


def number(octets):
    return int.from_bytes(octets, "big")


def is_summed(octets):
    """Whether the words of these bytes, with their checksum, have the sum of a valid checksum (RFC 1071)."""
    return word_sum(octets) == 0xFFFF


def numbers(header, octets):
    """The fields of this header, which the bytes begin with."""
    bits = sum(WIDTHS[header].values())
    value, found = number(octets[: bits // 8]), {}
    for field, width in WIDTHS[header].items():
        bits -= width
        found[header, field] = value >> bits & (1 << width) - 1
    return found


def rebuilt(frame, found=None):
    """The rebuilt frame of at least 14 bytes. Its fields and further parts, which may be empty, go to `found`."""
    found = {} if found is None else found
    found.update(numbers("Ethernet", frame))
    layer = {ARP: arp, IPV4: ipv4, IPV6: ipv6}.get(number(frame[12:14]))
    return frame[:14] + (layer(frame[14:], found) if layer else frame[14:])


def fields(frame):
    """The fields of a frame, the order of its options, and its further parts that are not empty."""
    found = {}
    rebuilt(frame, found)
    return {field: value for field, value in found.items() if value != b"" or field == ORDER}


def arp(packet, found):
    if len(packet) < 28 or packet[:6] != bytes([0, 1, 8, 0, 6, 4]):
        return packet
    found.update({**numbers("ARP", packet), PADDING: packet[28:]})
    return packet[:28]


def ipv4(packet, found):
    if len(packet) < 20 or packet[0] >> 4 != 4:
        return packet
    header_len, total_len = packet[0] % 16 * 4, number(packet[2:4])
    is_fragment = number(packet[6:8]) & 0x3FFF
    if not 20 <= header_len <= total_len <= len(packet) or is_fragment or not is_summed(packet[:header_len]):
        return packet
    found.update({**numbers("IPv4", packet), ("IPv4", "options"): packet[20:header_len], PADDING: packet[total_len:]})
    ends = {"src": packet[12:16], "dst": packet[16:20]}
    payload = transport(packet[9], packet[header_len:total_len], ends, found)
    return packets.header(len(payload), hop_limit=packet[8], protocol=packet[9], **ends) + payload


def ipv6(packet, found):
    payload_len = number(packet[4:6])
    if len(packet) < 40 or packet[0] >> 4 != 6 or payload_len > len(packet) - 40:
        return packet
    is_jumbogram = payload_len == 0 and packet[6] == 0 and packet[42:44] == b"\xc2\x04"  # RFC 2675, section 2
    rest = ("IPv6", "payload of a jumbogram") if is_jumbogram else PADDING
    found.update({**numbers("IPv6", packet), rest: packet[40 + payload_len :]})
    ends = {"src": packet[8:24], "dst": packet[24:40]}
    payload = transport(packet[6], packet[40 : 40 + payload_len], ends, found)
    return packets.header_ipv6(len(payload), next_header=packet[6], hop_limit=packet[7], **ends) + payload


def transport(protocol, packet, ends, found):
    layer = {UDP: udp, TCP: tcp}.get(protocol)
    return layer(packet, ends, found) if layer else packet


def pseudo_header(protocol, length, ends):
    return packets.pseudo_header(ends["src"], ends["dst"], protocol, length)


def udp(packet, ends, found):
    src_port, dst_port, length, checksum = (number(packet[at : at + 2]) for at in range(0, 8, 2))
    if len(packet) < 8 or not 8 <= length <= len(packet) or dst_port == 0:
        return packet
    is_left_out = checksum == 0 and len(ends["src"]) == 4
    if not is_left_out and (checksum == 0 or not is_summed(pseudo_header(UDP, length, ends) + packet[:length])):
        return packet
    found.update({**numbers("UDP", packet), ("UDP", "bytes after the length"): packet[length:]})
    return packets.udp(packet[8:length], src_port, dst_port, **ends)


def tcp(segment, ends, found):
    if len(segment) < 20 or not is_summed(pseudo_header(TCP, len(segment), ends) + segment):
        return segment
    header_len, flags = (segment[12] >> 4) * 4, segment[13]
    src_port, dst_port = number(segment[:2]), number(segment[2:4])
    control = flags & (FIN | SYN | RST)
    if not 20 <= header_len <= len(segment) or src_port == 0 or dst_port == 0 or control not in (0, FIN, SYN, RST):
        return segment
    parts = {}
    options = last_options(segment[20:header_len], parts)
    if options is None:
        return segment
    found.update({**numbers("TCP", segment), **parts})
    return packets.tcp(
        segment[header_len:], emitted(options, flags & ACK), flags=(control or flags & PSH) | flags & ACK, src_port=src_port,
        dst_port=dst_port, seq=number(segment[4:8]), ack=number(segment[8:12]) if flags & ACK else 0,
        window=number(segment[14:16]), **ends)


def last_options(octets, parts=None):
    """The data of the last option of each kind, or None if an option before the end mark is malformed. All parts of the options
    go to `parts`."""
    last, others = {}, collections.defaultdict(bytes)
    while octets and octets[0] != END:
        kind, size = octets[0], 1 if octets[0] == NO_OPERATION else octets[1] if len(octets) > 1 else 0
        option, data, octets = octets[:size], octets[2:size], octets[size:] if size else b""
        if kind == NO_OPERATION:
            others["no-operation options"] += option
            continue
        if size < 2 or len(data) != size - 2 or len(data) not in SIZES.get(kind, [len(data)]):
            return None
        if kind == TIMESTAMP and len(data) != 8:
            others["timestamps of other than 10 bytes"] += option
            continue
        if kind not in OPTIONS:
            others["options of other kinds"] += option
        elif kind in last:
            others["options but the last of each kind"] += option
        last.pop(kind, None)
        last[kind] = data
    others["bytes after the end mark"] = octets.rstrip(b"\0")
    if parts is not None:
        known = {kind: bytes([kind, 2 + len(data)]) + data for kind, data in last.items() if kind in OPTIONS}
        parts.update({("TCP", name): data for name, data in others.items()})
        parts.update({("TCP", OPTIONS[kind]): option for kind, option in known.items()})
        parts.update({ORDER: bytes(known), ZEROS: len(octets)})
    return last


def emitted(options, is_ack):
    """The options that are kept. Ranges that are removed leave their room to zeros, until the next time."""
    kept = {kind: options[kind] for kind in OPTIONS if kind in options}
    if WINDOW_SCALE in kept:
        kept[WINDOW_SCALE] = bytes([min(LARGEST_SCALE, *kept[WINDOW_SCALE])])
    room = 0
    if SACK in kept:
        kept[SACK] = kept[SACK][: 8 * MOST_RANGES]
        if SACK_PERMITTED in kept or not is_ack:
            room = 2 + len(kept.pop(SACK))
    return b"".join(bytes([kind, 2 + len(data)]) + data for kind, data in kept.items()) + bytes(room)


# ---- the table


def listed():
    """The changes in the table of include/ip_wire.h, by header and field. A row with two fields counts as two."""
    with open(f"{TOP}/include/ip_wire.h", encoding="utf-8") as file:
        heading, rows = re.search(r"^([ *]*header +field +change +consequence)\n(.*?)\n[ *]*\n", file.read(), re.M | re.S).groups()
    columns = [heading.find(name) for name in ("header", "field", "change", "consequence")]
    for row in rows.splitlines():
        header, names, change = (row[start:end].strip() for start, end in zip(columns, columns[1:]))
        yield from (((header, name), change) for name in names.split(" and "))


def case(field, found):
    """What the change of a field depends on, as words after its name."""
    if field == ("UDP", "checksum") and found[field] == 0:
        return " of 0"
    if field == ("TCP", "PSH") and (found["TCP", "SYN"] or found["TCP", "FIN"] or found["TCP", "RST"]):
        return " beside SYN, FIN or RST"
    if field == ("TCP", "window scale") and found[field][2] > LARGEST_SCALE:
        return f" above {LARGEST_SCALE}"
    if field == ("TCP", "SACK ranges") and ("TCP", "SACK permitted") in found:
        return " beside SACK permitted"
    if field in (("TCP", "SACK ranges"), ("TCP", "acknowledgement number")) and not found["TCP", "ACK"]:
        return " without ACK"
    return ""


class Table:
    """The table, and what was seen of each field: its values, and whether it ever changed."""

    def __init__(self):
        self.listed = list(listed())
        self.rows, self.values, self.changed = dict(self.listed), collections.defaultdict(set), set()

    def faults(self, before, after):
        """The fields of a frame that do not change as they have to."""
        room = 0
        for field, old in before.items():
            row, new = (field[0], field[1] + case(field, before)), after.get(field)
            if field == ZEROS:
                continue
            change = self.rows.get(row, "kept")
            self.values[row].add(old)
            self.changed |= {row} if old != new else set()
            room += len(old) if change == "replaced by zeros" and new is None else 0
            if not is_so(change, old, new) or change == "computed" and not COMPUTED.search(row[1]):
                yield f"{' '.join(row)}: {change}, but {old} becomes {new}"
        zeros = after.get(ZEROS, 0)
        if not room <= zeros < room + 4:
            yield f"TCP: {zeros} zeros after the options, in the room of {room} bytes"

    def lacks(self):
        """Rows that stand twice, and what no frame shows."""
        counts = collections.Counter(row for row, _ in self.listed)
        yield from (f"{' '.join(row)}: has {count} rows" for row, count in counts.items() if count > 1)
        yield from (f"{' '.join(row)}: {self.rows[row]}, but it never differs" for row in self.rows if row not in self.changed)
        yield from (f"{' '.join(row)}: kept, but it has one value only" for row, values in self.values.items()
                    if row not in self.rows and row not in FIXED and len(values) == 1)


def is_so(change, old, new):
    """Whether a field changes in this way. What is computed is right if the rebuilt frame parses, so that it is there."""
    if change in ("kept", "computed"):
        return old == new if change == "kept" else new is not None
    if change in ("removed", "replaced by zeros"):
        return new is None
    if change == "sorted by kind":
        return isinstance(new, bytes) and new == bytes(sorted(kind for kind in old if kind in new))
    return change == f"becomes {number(new[2:]) if isinstance(new, bytes) else new}"


# ---- the comparison


def recorded():
    """The recorded frames that have a header, each with its rebuilt frame."""
    for path in sorted(glob.glob(f"{TOP}/tests/data/cases/*.hex")):
        with open(path, "rb") as lines, open(path[:-3] + "txt", "rb") as texts:
            frames, blocks = lines.readlines(), texts.read().split(b"\n\n")[:-1]
            if len(frames) != len(blocks):
                sys.exit(f"{path}: {len(frames)} frames, but {len(blocks)} blocks")
            for line, text in zip(frames, blocks):
                *_, last = text.split(b"\n")
                if last.startswith(b"again "):
                    yield bytes.fromhex(line.decode()), bytes.fromhex(last[6:].decode())


def jumbogram():
    """A jumbogram (RFC 2675, section 2), of which only the headers are left."""
    options = bytes([59, 0, 0xC2, 4]) + (1 << 16).to_bytes(4, "big")
    frame = packets.packet_ipv6(options + bytes((1 << 16) - 8), payload_len=0, next_header=0)
    return frame, frame[:54]


def main():
    table, wrong, count = Table(), [], 0
    for frame, again in [*recorded(), jumbogram()]:
        count += 1
        if rebuilt(frame) != again:
            wrong.append(f"{frame.hex()}\n    is rebuilt as {rebuilt(frame).hex()}\n    and recorded  {again.hex()}")
        wrong += [f"{fault}\n    in {frame.hex()}" for fault in table.faults(fields(frame), fields(again))]
    wrong += table.lacks()
    print("".join(f"{line}\n" for line in wrong[:MOST_SHOWN]) + f"{count} frames, {len(wrong)} differences")
    return 1 if wrong or not count else 0


if __name__ == "__main__":
    sys.exit(main())
