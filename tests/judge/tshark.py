#!/usr/bin/env python3
"""Compares what lk_read_frame stores of valid frames with what tshark finds in them.

    tests/judge/tshark.py JUDGE SEED COUNT

The judge writes COUNT frames as a capture, and a row of fields for each. tshark parses the capture, and must print
the same rows. The same is done with the ICMP messages in the frames of tests/data/cases, and in those of icmp.hex, which
Linux sent. The status is 77 if there is no tshark.
"""
import glob
import os
import shutil
import subprocess
import sys
import tempfile

# The fields of a row, in the order of tests/judge/capture.c.
FIELDS = """
frame.len eth.dst eth.src eth.type
arp.opcode arp.src.hw_mac arp.src.proto_ipv4 arp.dst.hw_mac arp.dst.proto_ipv4
ip.src ip.dst ip.dsfield.dscp ip.dsfield.ecn ip.id ip.flags.df ip.flags.mf ip.frag_offset ip.ttl ip.proto
ip.checksum.status
ipv6.src ipv6.dst ipv6.tclass.dscp ipv6.tclass.ecn ipv6.flow ipv6.nxt ipv6.hlim
ipv6.fraghdr.offset ipv6.fraghdr.more ipv6.fraghdr.ident
udp.srcport udp.dstport udp.length udp.checksum.status
tcp.srcport tcp.dstport tcp.seq_raw tcp.ack_raw tcp.hdr_len tcp.flags tcp.window_size_value tcp.urgent_pointer tcp.len
tcp.checksum.status
icmp.type icmp.code icmp.checksum.status icmpv6.type icmpv6.code icmpv6.checksum.status
""".split()
# After these, the addresses of the packet that an error quotes.
QUOTED = ["quoted source", "quoted destination"]
PREFERENCES = [
    "ip.check_checksum:TRUE", "tcp.check_checksum:TRUE", "udp.check_checksum:TRUE", "ip.defragment:FALSE",
    "ipv6.defragment:FALSE", "tcp.desegment_tcp_streams:FALSE", "tcp.relative_sequence_numbers:FALSE",
]


def normal(field):
    """A field as the judge writes it: numbers are decimal."""
    if field.startswith("0x"):
        return str(int(field, 16))
    return {"True": "1", "False": "0"}.get(field, field)


def agree(name, ours, theirs):
    """Whether a stored field is that of tshark, which has more flags, may count an offset in units of 8, and calls a
    partial checksum bad, and a UDP checksum of 0 over IPv6 illegal (4)."""
    if name == "tcp.flags" and theirs:
        theirs = str(int(theirs) & 0xFF)
    if name.endswith("offset") and theirs:
        return int(ours) in (int(theirs), 8 * int(theirs))
    if name.endswith("checksum.status"):
        return theirs in {"partial": ["0", "1", "2"], "0": ["0", "4"]}.get(ours, [ours])
    return ours == theirs


def second(field):
    return (field.split(",") + [""])[1]


def zip_equal(*lists):
    """As zip, for lists of one length."""
    if len({len(one) for one in lists}) > 1:
        raise ValueError(f"lists of different lengths: {[len(one) for one in lists]}")
    return zip(*lists)


def parsed(capture):
    """The rows that tshark prints. A field that is there more often, as in a payload, counts once, but the second
    addresses are those of a quoted packet. tshark prints the source also if the quoted header ends before its destination;
    then there is none."""
    command = ["tshark", "-n", "-r", capture, "-T", "fields", "-E", "occurrence=a"]
    command += [word for preference in PREFERENCES for word in ("-o", preference)]
    command += [word for field in FIELDS for word in ("-e", field)]
    output = subprocess.run(command, check=True, stdout=subprocess.PIPE, stderr=subprocess.DEVNULL, text=True).stdout
    for line in output.splitlines():
        fields = line.split("\t")
        found = dict(zip_equal(FIELDS, fields))
        quoted = [second(found["ip." + side]) or second(found["ipv6." + side]) for side in ("src", "dst")]
        yield [*(normal(field.partition(",")[0]) for field in fields), *(quoted if all(quoted) else ["", ""])]


def is_compared(name, our, their, is_icmp):
    """After an ICMP header tshark finds the transport header of the quoted packet. It may find no packet in the end of
    a short message."""
    if name in QUOTED:
        return their != ""
    return not (is_icmp and our == "")


def compare(command, what, **arguments):
    """Whether tshark finds the rows that the judge writes by this command."""
    with tempfile.TemporaryDirectory() as room:
        capture, rows = os.path.join(room, "frames.pcap"), os.path.join(room, "rows")
        subprocess.run([*command[:2], capture, rows, *command[2:]], check=True, **arguments)
        with open(rows) as file:
            stored = [line.rstrip("\n").split("\t") for line in file]
        found = list(parsed(capture))
    names, quoted = FIELDS + QUOTED, 0
    for number, (ours, theirs) in enumerate(zip_equal(stored, found), 1):
        row = dict(zip_equal(names, ours))
        is_icmp = row["icmp.type"] + row["icmpv6.type"] != ""
        quoted += is_icmp and theirs[-1] != ""
        for name, our, their in zip_equal(names, ours, theirs):
            if is_compared(name, our, their, is_icmp) and not agree(name, our, their):
                print(f"tests/judge: frame {number} of {what}: {name}: stored {our!r}, tshark finds {their!r}")
                return False
    print(f"tests/judge: tshark finds the same {len(FIELDS)} fields in {len(found)} frames of {what}, {quoted} of which quote "
          "a packet")
    return len(found) > 0 and quoted > 0


def main():
    judge, seed, count = sys.argv[1:]
    if shutil.which("tshark") is None:
        print("tests/judge: skipped: tshark is missing")
        return 77
    here = os.path.dirname(os.path.abspath(__file__))
    recorded = [os.path.join(here, "icmp.hex"), *sorted(glob.glob(os.path.join(here, "../data/cases/*.hex")))]
    lines = "".join(open(name, encoding="latin-1").read() for name in recorded)
    made = compare([judge, "capture", seed, count], "seed " + seed)
    return 0 if made and compare([judge, "recorded"], "the recorded frames", input=lines, encoding="latin-1") else 1


if __name__ == "__main__":
    sys.exit(main())
