#!/usr/bin/env python3
"""Runs ip_dump on a table of cases, as tools.py runs the converters: tests/install/dump.py

The expected output was written by hand and compared with tshark. A case about a failing ip_frames has a stand-in for
it. All other cases need the built program.
"""
import json
import re
import shlex
import struct
import sys

from captures import block, interface, option, pcap, pcap_header, pcap_record, section
from tools import RECORDED, Case, run_cases

ECHO = "examples/echo.pcap"
# Where it would wait for ever if it did not write in time
LIMITED = "timeout 200 programs/ip_dump"
ENDS = ["02-00-00-00-00-01", "02-00-00-00-00-02"]


def arp(number, dst, target, op):
    src = ENDS[number - 1]
    return (f"{number}: EthernetII src={src} dst={dst} type=ARP\n"
            f"    ARP type=Ethernet+IPv4 src={src}/192.0.2.{number} tgt={target}/192.0.2.{3 - number} op={op}\n")


def echo(version, number, src, ports):
    """A UDP packet from 192.0.2.SRC or 2001:db8::SRC to the other host. Rebuilt, it has the identification 0, and so
    another header checksum, or the flow label 0."""
    dst = 3 - src
    header, differing = {
        4: (f"IPv4 src=192.0.2.{src} dst=192.0.2.{dst} proto=UDP", "18-19 24-25"),
        6: (f"IPv6 src=2001:db8::{src} dst=2001:db8::{dst} nxt_hdr=UDP hop_limit=64", "15-17"),
    }[version]
    return (f"{number}: EthernetII src={ENDS[src - 1]} dst={ENDS[dst - 1]} type=IPv{version}\n"
            f"    {header}\n"
            f"    UDP src={ports[0]} dst={ports[1]} len=4 (partial checksum correct)\n"
            f"    rebuilt: bytes {differing} differ\n")


def discovery(number, src, dst, address, group):
    return (f"{number}: EthernetII src={src} dst={dst} type=IPv6\n"
            f"    IPv6 src={address} dst={group} nxt_hdr=ICMPv6 hop_limit=255\n")


ECHO_FRAMES = [
    arp(1, "ff-ff-ff-ff-ff-ff", "00-00-00-00-00-00", "Request"),
    arp(2, ENDS[0], ENDS[0], "Reply"),
    echo(4, 3, 1, (41319, 7)),
    echo(4, 4, 2, (7, 41319)),
    discovery(5, ENDS[0], "33-33-ff-00-00-02", "2001:db8::1", "ff02::1:ff00:2"),
    discovery(6, ENDS[1], ENDS[0], "2001:db8::2", "2001:db8::1"),
    echo(6, 7, 1, (41518, 7)),
    echo(6, 8, 2, (7, 41518)),
]
ECHO_CHANGED = "".join(ECHO_FRAMES[number] for number in (2, 3, 6, 7))
ECHO_TEXT = "".join(ECHO_FRAMES)


def counts(*lines):
    """The output of --stats, whose lines have their numbers in the first eight columns."""
    return "".join(f"{number:>8} {name}\n" for number, _, name in (line.partition(" ") for line in lines))


ECHO_COUNTS = counts("8 frames", "4 changed", "0 only shorter", "0 not hex")
ECHO_STATS = ECHO_COUNTS + counts("4 UDP (partial checksum correct)", "2 ARP", "2 IPv6 nxt_hdr=ICMPv6")
# The 11 frames of examples/frames.hex: six IPv4 packets have an identification, which the rebuilt frames do not have.
FRAMES_STATS = counts("11 frames", "6 changed", "0 only shorter", "0 not hex", "3 TCP (partial checksum correct)",
                      "2 ARP", "2 IPv4 proto=ICMP", "2 UDP (partial checksum correct)", "1 IPv6 nxt_hdr=ICMPv6",
                      "1 fragment")


def case(words, output="", error="", status=0, data=b"", name=None):
    """ip_dump with these words. Each line of the error stands here without its name."""
    lines = error if isinstance(error, re.Pattern) else "".join(f"ip_dump: {line}\n" for line in error.splitlines())
    return Case(f"ip_dump: {name or words}", f"programs/ip_dump {words}", data, output, lines, status)


FORMS = [
    case(ECHO, ECHO_TEXT),
    case(f"< {ECHO}", ECHO_TEXT),
    case(f"- < {ECHO}", ECHO_TEXT),
    *[case(f"{RECORDED}/{name}", ECHO_TEXT)
      for name in ("echo.pcapng", "nanoseconds.pcap", "tcpdump_xx.in", "tcpdump_v_XX.in", "xxd.in", "xxd_i.in",
                   "tshark.in", "wireshark_dump.in", "wireshark_escaped.in", "echo.lines")],
    case(f"{RECORDED}/interfaces.pcapng", ECHO_TEXT,
         f"{RECORDED}/interfaces.pcapng: skipped, not Ethernet (link type 101): 1 packet"),
    case(f"{RECORDED}/raw_ip.pcap", "",
         f"{RECORDED}/raw_ip.pcap: no Ethernet in this capture: link type 101; --lines prints other link types", 1),
    case(f"<(gzip -c {ECHO}) | cat", ECHO_TEXT),
    case("--stats < <(gzip -c examples/frames.hex)", FRAMES_STATS),
    Case("ip_dump: a dump in two writes", "(printf 0000; sleep 0.2; printf '  02 00\\n') | programs/ip_dump", b"",
         "1: EthernetII (wire::Error)\n", "", 0),
    Case("ip_dump: lines in two writes", "(printf 02; sleep 0.2; printf '00\\n') | programs/ip_dump", b"",
         "1: EthernetII (wire::Error)\n", "", 0),
]

OTHER = ENDS[0].replace("-", "") + ENDS[1].replace("-", "")
PADDED_ARP = OTHER + "0806000108000604000202000000000" + "2c0000202020000000001c0000201" + "00" * 18
LINE = OTHER + "88b50102"
LINE_TEXT = f"EthernetII src={ENDS[1]} dst={ENDS[0]} type=0x88b5\n"
TCP = ("02000000000202000000000108004500003c53bc4000400662fcc0000201c0000202ed7000508003a28d00000000a002faf084320000"
       "020405b40402080a39d3a625000000000103030a")
TCP_REBUILT = TCP.replace("53bc", "0000").replace("62fc", "b6b8")
TCP_OBJECT = {
    "file": "-", "frame": 1, "length": 74,
    "layers": [
        {"layer": "EthernetII", "src": ENDS[0], "dst": ENDS[1], "type": "IPv4",
         "text": f"EthernetII src={ENDS[0]} dst={ENDS[1]} type=IPv4"},
        {"layer": "IPv4", "src": "192.0.2.1", "dst": "192.0.2.2", "proto": "TCP",
         "text": "IPv4 src=192.0.2.1 dst=192.0.2.2 proto=TCP"},
        {"layer": "TCP", "src": 60784, "dst": 80, "seq": 2147721869, "win": 64240, "len": 0, "mss": 1460, "ws": 10,
         "tsval": "39d3a625", "tsecr": "00000000", "words": ["syn", "sACK"],
         "text": "TCP src=60784 dst=80 syn seq=2147721869 win=64240 len=0 mss=1460 sACK tsval 39d3a625 tsecr 00000000 "
                 "ws=10 (partial checksum correct)"},
    ],
    "notes": ["partial checksum correct"], "rebuilt": TCP_REBUILT, "changed": True, "differs": [[18, 19], [24, 25]],
    "dropped": 0,
}
NOT_HEX = {"file": "-", "frame": 2, "length": None, "layers": [], "notes": ["not hex"], "rebuilt": None,
           "changed": False, "differs": [], "dropped": 0}
NO_HEADER = {"file": "-", "frame": 1, "length": 1,
             "layers": [{"layer": "EthernetII", "text": "EthernetII (wire::Error)"}], "notes": ["wire::Error"],
             "rebuilt": None, "changed": False, "differs": [], "dropped": 0}


# A segment with the ranges 3e8 to 7d0 and bb8 to fa0, and a message whose hardware is not Ethernet.
RANGES = ("020000000002020000000001080045000040000040004006b6b4c0000201c0000202bf0000500123456789abcdefa0100123a5fd0000"
          "0512000003e8000007d000000bb800000fa00000aa0000ff")
MESSAGE = OTHER + "0806000608000604000302000000" + "0001c0000201000000000000c0000202"
# The last layer of each object, without its text.
LAST_LAYER = r"""python3 -c '
import json, sys
for line in sys.stdin:
    layer = json.loads(line)["layers"][-1]
    print([value for key, value in sorted(layer.items()) if key != "text"])'"""


def objects(*values):
    return "".join(json.dumps(value) + "\n" for value in values)


OPTIONS = [
    case(f"--changed {ECHO}", ECHO_CHANGED),
    case(f"--stats {ECHO}", ECHO_STATS),
    case("--stats examples/frames.hex", FRAMES_STATS),
    case(f"{ECHO} --stats --changed", ECHO_COUNTS + counts("4 UDP (partial checksum correct)")),
    case(f"--stats {ECHO} - < examples/frames.hex",
         counts("19 frames", "10 changed", "0 only shorter", "0 not hex", "6 UDP (partial checksum correct)", "4 ARP",
                "3 IPv6 nxt_hdr=ICMPv6", "3 TCP (partial checksum correct)", "2 IPv4 proto=ICMP", "1 fragment")),
    case("--json", objects(TCP_OBJECT, NOT_HEX), data=f"{TCP}\nzz\n".encode(), name="--json"),
    case("--json", objects(NO_HEADER), data=b"02\r\n", name="--json of no header"),
    case(f"--json | {LAST_LAYER}", "[2309737967, 80, 'TCP', 4, [[1000, 2000], [3000, 4000]], 19088743, 48896, 291]\n"
         "[6, 'Unknown(6)', 'ARP', 'Unknown(3)', 4, 'Ipv4', [2, 0, 0, 0, 0, 1], [192, 0, 2, 1], [0, 0, 0, 0, 0, 0], "
         "[192, 0, 2, 2]]\n",
         data=f"{RANGES}\n{MESSAGE}\n".encode(), name="--json of ranges and lists"),
    case("--json --changed", objects(TCP_OBJECT), data=f"{TCP}\nzz\n{LINE}\n".encode(), name="--json --changed"),
    case("--json -- examples/frames.hex | python3 -c "
         "'import json, sys; print(len([json.loads(line) for line in sys.stdin]))'", "11\n"),
    case("--changed", f"1: EthernetII src={ENDS[1]} dst={ENDS[0]} type=ARP\n"
         f"    ARP type=Ethernet+IPv4 src={ENDS[1]}/192.0.2.2 tgt={ENDS[0]}/192.0.2.1 op=Reply\n"
         "    rebuilt: 60 bytes become 42\n", data=PADDED_ARP.encode(), name="padding"),
    case("--stats", counts("3 frames", "1 changed", "1 only shorter", "1 not hex", "1 ARP", "1 EthernetII type=0x88b5"),
         data=f"{PADDED_ARP}\n{LINE}\n020\n".encode(), name="--stats of three frames"),
    case("", f"1: {LINE_TEXT}2: not hex\n3: EthernetII (wire::Error)\n4: {LINE_TEXT}5: not hex\n",
         data=f"{LINE.upper()}\n02 00\n\n{LINE}\r\n{LINE}\r".encode(), name="lines that are not hex"),
    case("-- --json", "", "--json: cannot read: No such file or directory", 1),
    case("--help | head -n 1", "Prints the frames of captures and hex dumps, parsed and rebuilt by ip_frames.\n"),
    *[case(words, "", error, 2) for words, error in [
        ("--odd", "unknown option --odd; ip_dump --help lists the options"),
        ("-x", "unknown option -x; ip_dump --help lists the options"),
        (f"{ECHO} --js", "unknown option --js; ip_dump --help lists the options"),
        ("--json --stats", "--json and --stats exclude each other"),
        ("- -", "standard input is named twice"),
    ]],
]

# The times are those of tshark.
ECHO_TIMES = [f"2026-11-22 17:03:33.759{n}" for n in (133, 243, 249, 268, 275, 280, 284, 288)]
ECHO_LINES = [f"{number} {time} {line}\n" for number, time, line in zip(range(1, 9), ECHO_TIMES, [
    "ARP 192.0.2.1 > 192.0.2.2 op=1 hardware=02-00-00-00-00-01 len=0",
    "ARP 192.0.2.2 > 192.0.2.1 op=2 hardware=02-00-00-00-00-02 len=0",
    "IPv4 192.0.2.1:41319 > 192.0.2.2:7 UDP len=4 (partial checksum correct)",
    "IPv4 192.0.2.2:7 > 192.0.2.1:41319 UDP len=4 (partial checksum correct)",
    "IPv6 2001:db8::1 > ff02::1:ff00:2 ICMP neighbor solicitation len=24",
    "IPv6 2001:db8::2 > 2001:db8::1 ICMP neighbor advertisement len=24",
    "IPv6 [2001:db8::1]:41518 > [2001:db8::2]:7 UDP len=4 (partial checksum correct)",
    "IPv6 [2001:db8::2]:7 > [2001:db8::1]:41518 UDP len=4 (partial checksum correct)"])]
# UDP without a checksum: whole, and in two fragments.
UDP_8 = "10e1 0007 0010 0000" + b"01234567".hex()
HEADER = "4500 {0} 0007 {1} 40 11 {2} c0000201 c0000202"
FRAGMENTS = [HEADER.format("001c", "2000", "d6c6") + UDP_8[: 8 * 2 + 3], HEADER.format("001c", "0001", "f6c5") + UDP_8[8 * 2 + 3 :]]
PACKET = HEADER.format("0024", "0000", "f6be") + UDP_8
START = "1970-01-01 00:00:00.000000 "
LATER = "2001-09-09 01:46:40.123456 "


def linktype(number, *packets, **header):
    return pcap([bytes.fromhex(packet) for packet in packets], link=number, **header)


def at_last_second(offset):
    """A pcapng file of fragments at second 2^64 - 1 after an offset, in bytes."""
    options = option(9, b"\0") + option(14, offset)
    packets = [struct.pack("<IIIII", 0, 0xFFFFFFFF, 0xFFFFFFFF, 28, 28) + bytes.fromhex(it) for it in FRAGMENTS]
    return section() + interface(link=101, options=options) + b"".join(block(6, it) for it in packets)


def whole_at(time):
    return (f"1 {time}IPv4 192.0.2.1 > 192.0.2.2 proto=17 fragment=0+ len=8\n"
            f"2 {time}IPv4 192.0.2.1 > 192.0.2.2 proto=17 fragment=8 len=8\n"
            f"2 {time}whole IPv4 192.0.2.1:4321 > 192.0.2.2:7 UDP len=8 (no checksum)\n")


LINES = [
    case(f"--lines {ECHO}", "".join(ECHO_LINES)),
    case(f"--lines -n < <(gzip -c {ECHO})", "".join(ECHO_LINES)),
    *[case(f"--lines {words} {ECHO}", "".join(ECHO_LINES[number - 1] for number in numbers)) for words, numbers in [
        ("-n -r -c 2", (1, 2)), ("--proto icmp", (5, 6)), ("--proto arp", (1, 2)), ("--proto 17 -c 1", (3,)),
        ("--port 41518", (7, 8)),
        ("--host 192.0.2.0/24 --port 7", (3, 4)), ("--host ff02::1:ff00:2 --host 192.0.2.2 --proto 0 --proto 58", (5,)),
    ]],
    case("--lines", f"1 {START}IPv4 192.0.2.1:4321 > 192.0.2.2:7 UDP len=8 (no checksum)\n", data=linktype(101, PACKET), name="--lines raw"),
    case("--lines", f"1 {START}IPv4 192.0.2.1:4321 > 192.0.2.2:7 UDP len=8 (no checksum)\n",
         data=linktype(113, "0000 0001 0006 020000000001 0000 0800" + PACKET), name="--lines cooked"),
    case("--lines", f"1 {START}vlan 7 IPv4 192.0.2.1:4321 > 192.0.2.2:7 UDP len=8 (no checksum)\n",
         data=linktype(1, OTHER + "8100 6007 0800" + PACKET), name="--lines of a VLAN"),
    case("--lines --whole", whole_at(START), data=linktype(101, *FRAGMENTS), name="--lines --whole"),
    # The file after one with these times is printed too.
    case(f"--lines --whole - {ECHO} | sed 's/^[^:]*://'", whole_at("27670116110564327422.000000 ") + "".join(ECHO_LINES),
         data=at_last_second(b"\xff" * 7 + b"\x7f"), name="--lines --whole after 2^64 ms"),
    case("--lines --whole", whole_at("18446744073709551615.000000 "), data=at_last_second(b"\xff" * 2000),
         name="--lines --whole, an offset of 2,000 bytes"),
    case("--lines --whole -c 2", f"1 {START}IPv4 192.0.2.1 > 192.0.2.2 proto=17 fragment=0+ len=8\n"
         f"2 {START}IPv4 192.0.2.1 > 192.0.2.2 proto=17 fragment=8 len=8\n",
         data=linktype(101, *FRAGMENTS, PACKET), name="--lines --whole -c"),
    case(f"--lines -c 9 {ECHO} {ECHO} {ECHO} | cut -d ' ' -f 1", "".join(
        f"{ECHO}:{number}\n" for number in (1, 2, 3, 4, 5, 6, 7, 8, 1)), name="--lines -c over files"),
    # The input goes on when eight lines were read: they must not wait for it.
    Case("ip_dump: --lines of a live capture", f'd=$(mktemp -d) && mkfifo "$d/end" && (cat {ECHO}; cat "$d/end") | '
         f'{LIMITED} --lines | (head -n 8; : > "$d/end"); rm -r "$d"', b"", "".join(ECHO_LINES), "", 0),
    Case("ip_dump: --lines --follow -c", f"{LIMITED} --lines --follow -c 8 {ECHO}", b"", "".join(ECHO_LINES), "", 0),
    case("--lines", f"1 {START}link type 147 len=1 (unknown link)\n",
         "of an unknown link type: 1 packet", data=linktype(147, "02"), name="--lines of an unknown link"),
    case("--lines", f"1 {START}link type 9 len=1500 (unknown link)\n", "of an unknown link type: 1 packet",
         data=pcap_header(link=9) + pcap_record(b"\xff\x03\x00\x21", original_len=1500), name="--lines of PPP, in part"),
    # Link types that are known, with a packet that is not.
    *[case("--lines", f"1 {START}link type {line}\n", data=linktype(number, data), name=f"--lines: link type {line}")
      for number, data, line in [
          (113, "0000 0001 0006 020000000001 0000 88cc 0207", "113 type=0x88cc len=2"),
          (113, "0000 0001 0006 0200", "113 len=8 (too short)"), (101, "50", "101 len=1 (bad version)"),
          (0, "0700 0000 0102", "0 len=2")]],
    case("--lines", f"1 {START}Ethernet {ENDS[1]} > {ENDS[0]} type=0x0000 len=2\n", data=linktype(1, OTHER + "0000 0102"),
         name="--lines of a length field"),
    case("--lines", f"1 {LATER}IPv4 192.0.2.1:4321 > 192.0.2.2:7 UDP len=8 (no checksum)\n",
         data=section() + interface(link=101, options=option(9, b"\t")) + block(6, struct.pack("<IIIII", 0, *divmod(
             1_000_000_000_123_456_789, 1 << 32), 36, 36) + bytes.fromhex(PACKET)), name="--lines of nanoseconds"),
    *[case(words, "", error, 2) for words, error in [
        ("-c 1", "-c needs --lines"), ("--lines -c", "-c needs a value"),
        ("--lines --changed", "--changed and --lines exclude each other"),
        *[(f"--lines -c {text}", f"-c {text}: no number") for text in ("x", "-1", "9" * 5000, "\u0663")],
        *[(f"--lines --host {text}", f"--host {text}: no address or block") for text in ("1.2.3", "fe80::1%eth0")],
        *[(f"--lines --port {text}", f"--port {text}: no number from 0 to 65535")
          for text in ("http", "65536", "99999", "-5", "6_5", "+7", "9" * 20)],
        *[(f"--lines --proto {text}", f"--proto {text}: no name or number of a protocol") for text in ("x", "256", "999", "-1")],
    ]],
    *[case(f"--lines {words} -", "", error, data=linktype(number, data), name=f"--lines {words} of link type {number}, no packet")
      for words in ("--port 7", "--port 0", "--host ::/0", "--proto udp") for number, data, error in [
          (1, OTHER + "88cc 0207", ""), (147, "02", "of an unknown link type: 1 packet")]],
    # Port 0 is one only of UDP and TCP.
    case("--lines --port 0 --port 65535", f"2 {START}IPv4 192.0.2.1:0 > 192.0.2.2:7 UDP len=8 (no checksum)\n",
         data=linktype(101, HEADER.format("001c", "0000", "f6d6").replace("11", "01") + UDP_8, PACKET.replace("10e1", "0000")),
         name="--lines --port 0"),
]

# Three packets of tcpdump with lines that are no dump, and that become one as 0x0000.
SUMMARIES = "".join(f"17:03:3{n}.7 IP x\n\t0y0000:  {LINE}\n" for n in range(3))
MANY = f"yes {LINE} | head -n 5000"
FILES = [
    case(f"/no/such {RECORDED}/echo.lines examples", "".join(f"{RECORDED}/echo.lines:{frame}" for frame in ECHO_FRAMES),
         "/no/such: cannot read: No such file or directory\nexamples: cannot read: Is a directory", 1),
    case(f"< <(head -c 300 {ECHO})", "".join(ECHO_FRAMES[:4]), "the last frame is cut off", 1),
    case(f"<(head -c 300 {ECHO}) 2>&1 | tail -n 1 | sed 's/ .*: / /'", "ip_dump: the last frame is cut off\n",
         status=1),
    case("", f"1: {LINE_TEXT}", "line 3: not a frame in hex", 1, f"# note\n{LINE}\nzz\n".encode(), "a bad dump"),
    case("< /dev/null <&-", "", "cannot read: standard input is closed", 1),
    case(f"{ECHO} >&-", "", "cannot write: standard output is closed", 1),
    case("< examples", "", "cannot read: Is a directory", 1),
    case("", "", "no frames in the input", 1, name="nothing"),
    case("", "", "no frames in the input", 1, b"# only a comment\n", "no frame"),
    case("", "", "no packets in this capture", 1, pcap([]), "no packet"),
    case(f"< <(gzip -c {ECHO} | head -c 30)", "", "the compressed input is damaged or cut off", 1),
    case("", f"1: {LINE_TEXT}2: {LINE_TEXT}", "skipped, without bytes: 1 packet", 0,
         SUMMARIES.replace("0y", "0x", 1).replace("0y", "0x", 1).encode(), "a damaged offset"),
    case("", "", "skipped, without bytes: 3 packets\nno frames in the input; tcpdump prints them with -xx", 1,
         SUMMARIES.encode(), "tcpdump without -xx"),
    case(f"{ECHO} > /dev/full", "", "cannot write: No space left on device", 1),
    case("--help > /dev/full", "", "cannot write: No space left on device", 1),
    Case("ip_dump: a reader that ends", f"{MANY} | programs/ip_dump | head -n 1", b"", f"1: {LINE_TEXT}", "", 141),
    # The input goes on until there is output.
    Case("ip_dump: output before the input ends", f'd=$(mktemp -d) && mkfifo "$d/end" && ({MANY}; cat "$d/end") | '
         f'{LIMITED} | (head -n 1; : > "$d/end"; cat > /dev/null); rm -r "$d"', b"", f"1: {LINE_TEXT}", "", 0),
    Case("ip_dump: output of a slow input",
         f'd=$(mktemp -d) && (until [ -e "$d/end" ]; do echo {LINE}; sleep 0.5; done) | '
         f'{LIMITED} | (head -n 2; : > "$d/end"; cat > /dev/null); rm -r "$d"', b"",
         f"1: {LINE_TEXT}2: {LINE_TEXT}", "", 0),
    Case("ip_dump: an interrupt", f"(echo {LINE}; sleep 12) | timeout --preserve-status -s INT 8 programs/ip_dump", b"",
         "", "", 130),
    Case("ip_dump: a name that is no text", r"""d=$(mktemp -d) && f=$d/$'\xff' && echo 02 > "$f" &&
         echo 03 > "$d/2" && programs/ip_dump "$f" "$d/2" | sed "s,$d/,," &&
         programs/ip_dump --json "$f" | cut -d '"' -f 4 | sed "s,$d/,," && rm -r "$d" """, b"",
         b"\xff:1: EthernetII (wire::Error)\n2:1: EthernetII (wire::Error)\n\\udcff\n", "", 0),
]

# Prints what ip_dump --stats writes on a terminal while its input is slow.
ON_A_TERMINAL = """
import os, select, subprocess, time
ours, theirs = os.openpty()
dump = subprocess.Popen(["programs/ip_dump", "--stats"], stdin=subprocess.PIPE, stdout=subprocess.DEVNULL, stderr=theirs)
end = time.monotonic() + 200
while not select.select([ours], [], [], 0.2)[0] and time.monotonic() < end:
    dump.stdin.write(b"LINE\\n" * 5000)
dump.communicate()
shown = b""
while not shown.endswith(b"K") and select.select([ours], [], [], 200)[0]:
    shown += os.read(ours, 1000)
print(shown)
""".replace("LINE", LINE)
PROGRESS = Case("ip_dump: progress on a terminal", f"python3 -c {shlex.quote(ON_A_TERMINAL)}", b"",
                re.compile(rb"b'(\d+ frames\\r)+\\x1b\[K'\n"), "", 0)


def beside(name, program, error="", words=ECHO, output="", status=1):
    """A copy of ip_dump in a folder $d, with a stand-in for ip_frames, and with no other one on PATH."""
    python = shlex.quote(sys.executable)
    command = ("""d=$(mktemp -d) && trap 'rm -r "$d"' EXIT && cp programs/{ip_dump,*.py} "$d" && mkdir "$d/bin" && """
               f'ln -s "$(command -v sh)" "$d/bin/sh" && ln -s {python} "$d/bin/python3" && '
               f'{program} && PATH=$d/bin "$d/ip_dump" {words}')
    return Case(f"ip_dump: {name}", command, b"", output, re.compile(f"ip_dump: {error}\n" if error else ""), status)


def stand_in(text):
    return f"""printf '#!/bin/sh\\n{text}\\n' > "$d/ip_frames" && chmod +x "$d/ip_frames\""""


PROGRAMS = [
    beside("no ip_frames", "true", "ip_frames was not found"),
    beside("an old processor", stand_in("exit 127"),
           r"ip_frames needs a processor with SSE4.2 and POPCNT \(x86-64-v2\)"),
    beside("ip_frames fails", stand_in("echo ip_frames: out of memory >&2; exit 1"), "ip_frames: out of memory"),
    beside("ip_frames fails silently", stand_in("exit 3"), "ip_frames ended with status 3"),
    beside("ip_frames is killed", stand_in("kill -9 $$"), "ip_frames was ended by signal 9"),
    beside("another program", stand_in("exit 0"), "/.*/ip_frames does not print one block per frame"),
    beside("ten ranges", stand_in(f"printf \"EthernetII x\\\\nagain {'0100' * 10}\\\\n\\\\n\""),
           words=f"<(echo {'00' * 20}) --changed",
           output="1: EthernetII x\n    rebuilt: bytes 0 2 4 6 8 10 12 14 .. differ\n", status=0),
    beside("no program at all", 'printf x > "$d/ip_frames" && chmod +x "$d/ip_frames"',
           "cannot run /.*/ip_frames: Exec format error"),
]

# The script names the version of the library.
VERSION = Case("ip_dump: --version", "programs/ip_dump --version | diff - <(echo ip_dump $(c/version))", b"", "", "", 0)
CASES = [*FORMS, *OPTIONS, *LINES, *FILES, PROGRESS, *PROGRAMS, VERSION]

if __name__ == "__main__":
    sys.exit(run_cases(CASES))
