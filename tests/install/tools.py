#!/usr/bin/env python3
"""Runs the Python tools on a table of cases: tests/install/tools.py

A case is a shell command at the top of the repository, with what it must print and its status.
The last line of the output counts the cases that passed and failed.
"""
import os
import re
import subprocess
import sys
from collections import namedtuple
from concurrent.futures import ThreadPoolExecutor

from captures import (
    EACH_KIND_LINES, ETHERNET, FCS, FRAMES, LINES, ONE, RAW_IP, TWO,
    block, each_kind, enhanced, interface, obsolete, option, pcap, pcap_header, pcap_record, section, simple,
)

TOP = os.path.dirname(os.path.dirname(os.path.dirname(os.path.abspath(__file__))))
RECORDED = "tests/data/tools"

# The output is bytes or text, and the error a text. Each may be a pattern instead. A line of an error stands here without the
# name of the tool and its line feed.
Case = namedtuple("Case", "name command input output error status")


def recorded(name):
    with open(f"{TOP}/{RECORDED}/{name}", "rb") as file:
        return file.read()


def tool_case(tool, name, words, data, output, error, status):
    lines = "".join(f"{tool}: {line}\n" for line in error.splitlines())
    return Case(f"{tool}: {name}", f"programs/{tool} {words}", data, output, lines, status)


def capture(name, data, output="", error="", words=""):
    """A capture on standard input that is converted."""
    return tool_case("lines_of_capture.py", name, words, data, output, error, 0)


def bad_capture(name, data, error, output="", words=""):
    """A capture on standard input that fails."""
    return tool_case("lines_of_capture.py", name, words, data, output, error, 1)


def dump(name, text, output="", words="", error=""):
    """A hex dump on standard input that is converted."""
    return tool_case("lines_of_hex.py", name, words, text.encode(), output, error, 0)


def bad_dump(name, text, error, output=""):
    """A hex dump on standard input that fails."""
    return tool_case("lines_of_hex.py", name, "", text.encode(), output, error, 1)


def recorded_capture(name, lines, error="", words=""):
    """A recorded capture, as a file and on standard input."""
    path = f"{RECORDED}/{name}" if "/" not in name else name
    for way in (path, f"< {path}"):
        yield capture(way, b"", recorded(lines), error, f"{words} {way}")


RECORDED_CAPTURES = [
    *recorded_capture("examples/echo.pcap", "echo.lines"),
    *recorded_capture("echo.pcapng", "echo.lines"),
    *recorded_capture("nanoseconds.pcap", "echo.lines"),
    *recorded_capture("text.pcap", "text.lines"),
    *recorded_capture("interfaces.pcapng", "echo.lines", "skipped, not Ethernet (link type 101): 1 packet"),
    *recorded_capture("snap.pcap", "snap.lines", "truncated by the snapshot length: 6 of 8 frames"),
    *recorded_capture("snap.pcapng", "snap.lines", "truncated by the snapshot length: 6 of 8 frames"),
    *recorded_capture("snap.pcap", "whole.lines", "dropped, truncated by the snapshot length: 6 of 8 frames", "--whole"),
    *recorded_capture("snap.pcapng", "whole.lines", "dropped, truncated by the snapshot length: 6 of 8 frames", "--whole"),
    capture("two pcapng files as one", recorded("echo.pcapng") + recorded("interfaces.pcapng"), recorded("echo.lines") * 2,
            "skipped, not Ethernet (link type 101): 1 packet"),
    bad_capture("pcap without Ethernet", recorded("raw_ip.pcap"), "no Ethernet in this capture: link type 101"),
    bad_capture("pcapng without Ethernet", recorded("raw_ip.pcapng"), "no Ethernet in this capture: link type 101"),
]

WITH_FCS = 0x24000000 | ETHERNET  # An FCS of two 16-bit words.
HEADER_CUT = "the file header is cut off"
FRAME_CUT = "the last frame is cut off"
ONE_FCS, TWO_FCS = "frame check sequence removed: 1 frame", "frame check sequence removed: 2 frames"

PCAP = [
    capture("little-endian, microseconds", pcap(order="<"), LINES),
    capture("big-endian, microseconds", pcap(order=">"), LINES),
    capture("little-endian, nanoseconds", pcap(order="<", magic=0xA1B23C4D), LINES),
    capture("big-endian, nanoseconds", pcap(order=">", magic=0xA1B23C4D), LINES),
    bad_capture("no frame", pcap([]), "no packets in this capture"),
    capture("a frame of no bytes", pcap([b"", FRAMES[0]]), f"\n{ONE}\n"),
    capture("a frame longer than it was", pcap_header() + pcap_record(FRAMES[0], original_len=3), f"{ONE}\n"),
    capture("the longest frame", pcap([bytes(262144)]), "00" * 262144 + "\n"),
    capture("one frame truncated", pcap(FRAMES[:1]) + pcap_record(FRAMES[1], original_len=60), LINES,
            "truncated by the snapshot length: 1 of 2 frames"),
    capture("FCS", pcap([f + FCS for f in FRAMES], link=WITH_FCS), LINES, TWO_FCS),
    capture("FCS, big-endian", pcap([FRAMES[0] + FCS], order=">", link=WITH_FCS), f"{ONE}\n",
            ONE_FCS),
    capture("FCS bits that are not said to be there", pcap(link=0x20000000 | ETHERNET), LINES),
    capture("FCS of no bytes", pcap(link=0x04000000 | ETHERNET), LINES),
    capture("FCS truncated", pcap_header(link=WITH_FCS) + pcap_record(FRAMES[0] + FCS[:1], original_len=20), f"{ONE}\n",
            ONE_FCS),
    capture("frame with FCS truncated", pcap_header(link=WITH_FCS) + pcap_record(FRAMES[1], original_len=20), f"{TWO}\n",
            "truncated by the snapshot length: 1 of 1 frame"),
    capture("a frame shorter than an FCS", pcap([b"\1\2"], link=WITH_FCS), "\n", ONE_FCS),
    bad_capture("empty", b"", "the input is empty"),
    bad_capture("another file", b"# Lerkvist", "neither a pcap nor a pcapng file"),
    bad_capture("three bytes", pcap()[:3], "neither a pcap nor a pcapng file"),
    *[bad_capture(f"file header of {n} bytes", pcap()[:n], HEADER_CUT) for n in (4, 22, 23)],
    *[bad_capture(f"file header of {n} bytes, big-endian", pcap(order=">")[:n], HEADER_CUT) for n in (22, 23)],
    *[bad_capture(f"cut by {n}", pcap()[:-n], FRAME_CUT, f"{ONE}\n") for n in (1, 15, 16, 30)],
    bad_capture("a frame of ffffffff bytes", pcap() + pcap_record(b"", data_len=0xFFFFFFFF),
                "a frame of 4294967295 bytes: the limit is 262144", LINES),
    bad_capture("a frame of 262145 bytes", pcap([bytes(262145)]), "a frame of 262145 bytes: the limit is 262144"),
    bad_capture("version 2.3", pcap(version=(2, 3)), "pcap version 2.3 is not supported"),
    bad_capture("link type 113", pcap(link=113), "no Ethernet in this capture: link type 113"),
]

FCS_OF = option(13, b"\4")
FLAGS_FCS = {order: option(2, (4 << 5).to_bytes(4, name), order) for order, name in (("<", "little"), (">", "big"))}
BEGIN = section() + interface()
BLOCK_CUT = "the last block is cut off"


def bad_block(name, data, total):
    return bad_capture(name, data, f"a block of {total} bytes: the length is not valid")


PCAPNG = [
    capture("pcapng, little-endian", each_kind("<"), EACH_KIND_LINES),
    capture("pcapng, big-endian", each_kind(">"), EACH_KIND_LINES),
    capture("sections of both orders", each_kind("<") + each_kind(">"), EACH_KIND_LINES * 2),
    bad_capture("a section alone", section(), "no Ethernet in this capture: no interface"),
    bad_capture("an interface alone", BEGIN, "no packets in this capture"),
    capture("interfaces of each section", section() + interface(link=RAW_IP) + interface() + enhanced(FRAMES[0], number=1)
            + enhanced(b"E", number=0) + section() + interface() + enhanced(FRAMES[1], number=0), LINES,
            "skipped, not Ethernet (link type 101): 1 packet"),
    capture("skipped packets of two types", section() + interface(link=RAW_IP) + interface(link=113) + interface() + simple(b"E")
            + enhanced(b"E", number=1) + obsolete(b"E", number=1) + obsolete(FRAMES[0], number=2), f"{ONE}\n",
            "skipped, not Ethernet (link types 101, 113): 3 packets"),
    capture("truncated packets of each kind", section() + interface(snap_len=15) + enhanced(FRAMES[1], original_len=16)
            + simple(FRAMES[1], original_len=16) + obsolete(FRAMES[1], original_len=16) + simple(FRAMES[1]), f"{TWO}\n" * 4,
            "truncated by the snapshot length: 3 of 4 frames"),
    capture("only whole packets", section() + interface(snap_len=15) + enhanced(FRAMES[0]) + simple(FRAMES[1], original_len=16),
            f"{ONE}\n", "dropped, truncated by the snapshot length: 1 of 2 frames", "--whole"),
    capture("FCS of an interface", section() + interface(options=FCS_OF) + interface() + enhanced(FRAMES[0] + FCS)
            + simple(FRAMES[1] + FCS) + enhanced(FRAMES[0], number=1), f"{LINES}{ONE}\n", TWO_FCS),
    capture("FCS of no bytes of an interface", section() + interface(options=option(13, b"\0")) + enhanced(FRAMES[0]),
            f"{ONE}\n"),
    *[capture(f"FCS of a packet, {order}",
              section(order) + interface(order) + enhanced(FRAMES[0] + FCS, order, options=FLAGS_FCS[order])
              + obsolete(FRAMES[1] + FCS, order, options=FLAGS_FCS[order]) + enhanced(FRAMES[0], order), f"{LINES}{ONE}\n",
              TWO_FCS) for order in "<>"],
    capture("FCS and truncated", section() + interface(options=FCS_OF) + enhanced(FRAMES[0] + FCS)
            + enhanced(FRAMES[1], original_len=20), LINES,
            "truncated by the snapshot length: 1 of 2 frames\nframe check sequence removed: 1 frame"),
    bad_capture("pcapng without Ethernet, two types", section() + interface(link=RAW_IP) + interface(link=113),
                "no Ethernet in this capture: link types 101, 113"),
    *[bad_capture(f"pcapng header of {n} bytes", section()[:n], BLOCK_CUT) for n in (4, 8, 12, 22, 23, 27)],
    *[bad_capture(f"pcapng cut by {n}", (BEGIN + enhanced(FRAMES[0]) + enhanced(FRAMES[0]))[:-n], BLOCK_CUT, f"{ONE}\n")
      for n in (1, 4, 5, 40, 44, 47)],
    bad_capture("no byte-order magic", section(magic=0x1A2B3C4E), "a section without its byte-order magic"),
    bad_capture("pcapng version 2", section(major=2), "pcapng version 2.0 is not supported"),
    bad_block("a block of ffffffff bytes", BEGIN + block(6, b"", total=0xFFFFFFFF), 4294967295),
    bad_block("a block of fffffffc bytes", BEGIN + block(6, b"", total=0xFFFFFFFC), 4294967292),
    bad_block("a block of 8 bytes", BEGIN + block(6, b"", total=8), 8),
    bad_block("a section of 12 bytes", block(0x0A0D0D0A, b"\x4d\x3c\x2b\x1a", total=12), 12),
    bad_block("a block of 13 bytes", BEGIN + block(6, b"", total=13), 13),
    bad_capture("two lengths", BEGIN + enhanced(FRAMES[0]) + block(5, bytes(12), end=28),
                "the two lengths of a block differ", f"{ONE}\n"),
    bad_capture("short fields", BEGIN + block(6, bytes(16)), "a block is too short for its fields"),
    bad_capture("a short interface", section() + block(1, bytes(4)), "a block is too short for its fields"),
    bad_capture("a short option", BEGIN + enhanced(FRAMES[0], options=option(1, b"note")[:-4]),
                "an option is longer than its block"),
    bad_capture("a packet longer than its block", BEGIN + enhanced(FRAMES[0], data_len=17), "a packet is longer than its block"),
    bad_capture("a packet of ffffffff bytes", BEGIN + enhanced(FRAMES[0], data_len=0xFFFFFFFF),
                "a frame of 4294967295 bytes: the limit is 262144"),
    bad_capture("no interface", section() + enhanced(FRAMES[0]), "a packet of interface 0, which its section does not describe"),
    bad_capture("no interface for a simple packet", section() + simple(FRAMES[0]),
                "a packet of interface 0, which its section does not describe"),
    bad_capture("the interface of another section", BEGIN + section() + obsolete(FRAMES[0]),
                "a packet of interface 0, which its section does not describe"),
]

RECORDED_DUMPS = [
    *[dump(name, "", recorded(lines), f"{way}{RECORDED}/{name}.in")
      for name, lines in {
          "tcpdump_xx": "echo.lines", "tcpdump_v_XX": "echo.lines", "tcpdump_text": "text.lines",
          "tcpdump_vvv_XX": "verbose.lines",
          "xxd": "echo.lines", "xxd_text": "text.lines", "xxd_g1_u": "text.lines", "xxd_i": "echo.lines",
          "tshark": "echo.lines", "tshark_text": "text.lines",
          "wireshark_dump": "echo.lines", "wireshark_escaped": "echo.lines",
      }.items() for way in ("", "< ")],
    dump("hex streams", "", recorded("echo.lines"), f"{RECORDED}/echo.lines"),
    dump("the program's own lines", "", recorded("../../../examples/frames.hex"), "examples/frames.hex"),
]

GAP = "0000  02 00 00\n0004  00\n"
THREE_PACKETS = "".join(f"17:03:3{2 + n}.7 IP x\n\t0x0000:  0{n}\n" for n in (1, 2, 3))

DUMPS = [
    dump("spaces", "02 00 00 ff\n00  01 \n", "020000ff\n0001\n"),
    dump("tabs", "\t02\t00\n", "0200\n"),
    dump("colons", "02:00:00:FF\n", "020000ff\n"),
    dump("commas", "02,00,fF\n02, 00 , ff\n", "0200ff\n0200ff\n"),
    dump("0x before each byte", "0x02 0x00 0xff\n0x02,0x00,0xff\n0x02:0x00\n0x02\n", "0200ff\n0200ff\n0200\n02\n"),
    dump("a comma at the end", "0x02, 0x00,\n0x01,\n# note\n\n0xff\n02,03\n", "020001ff\n0203\n"),
    dump("escaped, without quotes", "\\x02\\x00\\xFF\n\\x01 \\\n\\x02\n", "0200ff\n0102\n"),
    dump("a stream", "0200FF\nab\n", "0200ff\nab\n"),
    dump("comments and empty lines", "# a\n\n  # 00\n0200\n \n#\n", "0200\n"),
    bad_dump("only comments", "# a\n", "no frames in the input"),
    bad_dump("nothing", "", "no frames in the input"),
    dump("no last line feed", "0200ff", "0200ff\n"),
    dump("carriage returns", "0000  02 00\r\n0002  ff\r\n\r\n0200\r\n", "0200ff\n0200\n"),
    dump("a byte order mark", "\ufeff0200\n", "0200\n"),
    dump("a frame of dump lines, then of one line", "0000  02 00\n0002  ff\n01 02\n00000000: 0304\n", "0200ff\n0102\n0304\n"),
    dump("a comment within a frame", "0000  02 00\n# note\n\n0002  ff\n", "0200ff\n"),
    dump("times", "17:03:33.759133 IP x\n\t0x0000:  0200\n 00:00:00.000110 IP x\n    y\n\t0x0000:  ff\n"
         "1795367013.759133 IP\n\t0x0000:  01\n", "0200\nff\n01\n"),
    dump("a tunnel", "20:21:44.837063 IP 192.0.2.1.4 > 192.0.2.2.4789: VXLAN, vni 100\nIP 192.0.2.3 > 192.0.2.5: ICMP echo request\n"
         "\t0x0000:  0200\n20:21:44.8 IP x\nARP, Request\n\t0x0000:  ff\n", "0200\nff\n"),
    dump("odd times", "[Error converting time] IP x\n\t0x0000:  0200\n-00:00:00.000110 IP x\n\t0x0000:  ff\n", "0200\nff\n"),
    dump("packets of no bytes", "[Invalid header: caplen==0, len==0]\n17:03:33.7 IP x\n\t0x0000:  02\n[Invalid header: caplen==0]\n", "02\n",
         error="skipped, without bytes: 2 packets"),
    dump("a dump of a part", "17:03:33.7 IP x\n\tMsg: y\n\t0x0000:  3c\n\t0x0001:  35  5\n\t0x0000:  0200 3c35\n17:03:33.7 IP x\n"
         "\t0x0000:  ff\n", "02003c35\nff\n"),
    dump("a dump of a part, then more words", "17:03:33.7 IP x\n\tL1 LSP\n\t0x0000:  831b\n\t  lsp-id: 1\n\t  0x0000:  0061\n\t    Area\n"
         "\t0x0000:  0283 1b00\n", "02831b00\n"),
    dump("a damaged offset", THREE_PACKETS.replace("0x0000:  02", "0y0000:  02"), "01\n03\n", error="skipped, without bytes: 1 packet"),
    dump("a damaged time", THREE_PACKETS.replace("17:03:34", " 7:03:34"), "02\n03\n", error="skipped, not part of its packet: 1 dump"),
    bad_dump("tcpdump without -xx", "17:03:33.7 IP x\n17:03:34.7 IP x\n",
             "skipped, without bytes: 2 packets\nno frames in the input; tcpdump prints them with -xx"),
    dump("a summary, then a frame in one line", "17:03:33.7 IP x\nIP y\n0200\nff\n", "0200\nff\n"),
    bad_dump("only a dump of a part", "17:03:33.7 IP x\n\t0x0000:  3c\n\tMsg\n17:03:33.7 IP x\n\t0x0000:  ff\n",
             "line 4: the dump of a packet is missing"),
    bad_dump("only a dump of a part, at the end", "17:03:33.7 IP x\n\t0x0000:  3c\n\tMsg\n", "line 3: the dump of a packet is missing"),
    bad_dump("words after a dump", "17:03:33.7 IP x\n\t0x0000:  02\nIP y\n\t0x0000:  ff\n", "line 3: not a frame in hex"),
    dump("bytes that were put together", "Frame (3 bytes):\n0000  02 00 01   ...\nReassembled IPv4 (2 bytes):\n0000  0a 0b   ..\n\n"
         "0000  02 00 02   ...\n\nFrame (1 byte):\n0000  03   .\nReassembled TCP (1 byte):\n0000  04   .\n", "020001\n020002\n03\n"),
    dump("tcpdump -x", "\t0x0000:  4500 0016 0000 0000 0111 0000 c000 0201\n\t0x0010:  c000 0202 6162\n"
         "\t0x0000:  6000 0000 0000 3bff 0000 0000 0000 0000\n\t0x0010:  0000 0000 0000 0001 0000 0000 0000 0000\n"
         "\t0x0020:  0000 0000 0000 0001\n", "45000016000000000111" "0000c0000201c00002026162\n" "6000000000003bff" + "00" * 15 + "01" + "00" * 15 + "01\n",
         error="without an Ethernet header, as tcpdump -x prints them: 2 packets"),
    dump("a text column of spaces", "0000  61 62   ab\n0002  20 20     \n", "61622020\n"),
    dump("a long offset", "".join(f"{n:04x}  " + "00 " * 15 + "01\n" for n in range(0, 0x10020, 16)),
         ("00" * 15 + "01") * 0x1002 + "\n"),
    bad_dump("a word", "0200\n02 03\nhello\n0300\n", "line 3: not a frame in hex", "0200\n0203\n"),
    bad_dump("an odd number of digits", "020\n", "line 1: not a frame in hex"),
    bad_dump("digits of three", "020 000\n", "line 1: not a frame in hex"),
    bad_dump("a dash", "02-00\n", "line 1: not a frame in hex"),
    bad_dump("some bytes with 0x", "0x02 00\n", "line 1: not a frame in hex"),
    bad_dump("two commas", "02,,00\n", "line 1: not a frame in hex"),
    bad_dump("one quote", '"\\x02\n', "line 1: not a frame in hex"),
    bad_dump("an offset alone", "0000:\n", "line 1: not a frame in hex"),
    bad_dump("a summary without a time", "IP 192.0.2.1 > 192.0.2.2\n\t0x0000:  0200\n", "line 1: not a frame in hex"),
    bad_dump("a digit of another script", "0\u0662\n", "line 1: not a frame in hex"),
    bad_dump("an offset, but no bytes", "0000  0200\n0002  zz\n", "line 2: no bytes in hex after the offset"),
    bad_dump("an offset, and half a byte", "0000  02 0\n", "line 1: no bytes in hex after the offset"),
    bad_dump("a gap", GAP, "line 2: offset 0004, but 0003 is expected"),
    bad_dump("a gap behind a frame", "0000  01\n" + GAP, "line 3: offset 0004, but 0003 is expected", "01\n"),
    bad_dump("no first line", "ff\n0010  02\n", "line 2: offset 0010, but 0000 is expected", "ff\n"),
    bad_dump("an offset behind a summary", "0000  02\n17:03:33.759133 IP x\n0001  02\n",
             "line 3: offset 0001, but 0000 is expected", "02\n"),
    bad_dump("hexdump -C", "00000000  02 00 00 00 00 02 02 00  00 00 00 01 08 06 00 01  |................|\n",
             "line 1: the text column is longer than the bytes"),
    bad_dump("a short line of hexdump -C", "00000000  61 62 63" + " " * 42 + "|abc|\n",
             "line 1: the text column is longer than the bytes"),
    bad_dump("a dump cut off within the bytes of a line", "0000  61 62   ab\n0002  63 64\n",
             "line 2: the text column is missing: the line is cut off"),
    bad_dump("a dump cut off between two bytes", "0000  02 00\n0002  ff", "line 2: the frame is cut off"),
    bad_dump("fewer bytes than were said", "Frame (3 bytes):\n0000  02 00\nFrame (1 byte):\n",
             "line 3: 2 bytes, but 3 are expected"),
    bad_dump("fewer bytes than were said, at the end", "Frame (3 bytes):\n0000  02 00\n", "line 2: 2 bytes, but 3 are expected"),
    bad_dump("600,000 digits", "1" * 600000 + "  00\n", "line 1: not a frame in hex"),
    bad_dump("hexdump", "0000000 ffff 0002\n", "line 1: not a frame in hex"),
    bad_dump("od", "0000000 000002 000000\n", "line 1: not a frame in hex"),
    bad_dump("a comma at the end of the input", "01\n02,\n", "line 2: the frame is cut off", "01\n"),
    bad_dump("a backslash at the end of the input", '"\\x02" \\\n', "line 1: the frame is cut off"),
    bad_dump("an offset where a frame continues", "02,\n0000  03\n", "line 2: not a frame in hex"),
]


# Four long frames, whose lines no pipe takes at once.
LONG = [bytes(60000)] * 4
LONG_LINES = [frame.hex().encode() + b"\n" for frame in LONG]


def devices(tool, source, lines, long):
    """What a tool does with what surrounds it. The source is a file that it converts to these lines, and
    the input `long` is converted to the long lines."""
    def fails(words, error, output="", status=1):
        return tool_case(tool, words, words, b"", output, error, status)

    run_non_blocking = f"import os; os.set_blocking(0, False); os.execv('programs/{tool}', ['{tool}'])"
    return [
        fails(f"< {source} >&-", "cannot write: standard output is closed"),
        fails(f"< {source} > /dev/full", "cannot write: No space left on device"),
        fails("--help > /dev/full", "cannot write: No space left on device"),
        fails("--help >&-", "cannot write: standard output is closed"),
        fails("<&-", "cannot read: standard input is closed"),
        fails("< examples", "cannot read: Is a directory"),
        fails("examples", "cannot read examples: Is a directory"),
        fails("/no/such", "cannot read /no/such: No such file or directory"),
        fails("--odd", "unrecognized arguments: --odd", status=2),
        fails("a b", "unrecognized arguments: b", status=2),
        fails(f"< {source} 2>&-", "", lines, 0),
        fails(f"<(gzip -c {source})", "", lines, 0),
        fails(f"< <(gzip -c {source})", "", lines, 0),
        fails(f"< <(gzip -c {source} | head -c 30)", "the compressed input is damaged or cut off"),
        fails("/no/such 2>&-", ""),
        fails("/no/such 2> /dev/full", ""),
        tool_case(tool, "| head -n 1", "| head -n 1", long, LONG_LINES[0], "cannot write: Broken pipe", 1),
        Case(f"{tool}: non-blocking input", f'(sleep 0.1; cat {source}) | python3 -c "{run_non_blocking}"', b"", lines, "", 0),
    ]


DEVICES = [
    *devices("lines_of_capture.py", "examples/echo.pcap", recorded("echo.lines"), pcap(LONG)),
    *devices("lines_of_hex.py", f"{RECORDED}/tcpdump_xx.in", recorded("echo.lines"), b"".join(LONG_LINES)),
]


def compared(words, theirs, target="compare.py", ours=r"(b'.*\\n'\n)+"):
    """Two programs that differ in what they print for the first line."""
    pattern = rf"line\nb'.*\\n'\ncat prints\n{ours}the reference prints\n{theirs}\n"
    return Case(f"{target}: {words}", f"tests/frames/{target} cat 1 20 {words}", b"", "", re.compile(pattern), 1)


COMPARED = [
    compared("true", "nothing"),
    compared(r"printf '\377\n\n'", r"b'\\xff\\n'\nb'\\n'"),
    compared(r"printf '\377'", r"b'\\xff'"),
    compared("true", "nothing", "compare_calls.py"),
    compared(r"printf '\377\n'", r"b'\\xff\\n'", "compare_calls.py"),
    compared("head -n 1", "nothing", "compare_calls.py"),
    Case("compare_calls.py: more answers", "tests/frames/compare_calls.py cat 1 20 awk '1; END { print 1 }'", b"", "",
         "line\nnothing\ncat prints\nnothing\nthe reference prints\nb'1\\n'\n", 1),
    Case("compare_calls.py: no difference", "tests/frames/compare_calls.py cat 1 20 cat", b"", "20 lines, no difference\n", "", 0),
    Case("compare_calls.py: a status", "tests/frames/compare_calls.py cat 1 20 false", b"", "",
         "make compare-calls: false fails: Command '['false']' returned non-zero exit status 1.\n", 1),
]


def written(program):
    """A program that answers each kind of calls otherwise than the scripts."""
    return Case(f"written.py: {program}", f"tests/frames/written.py check {program} | sed -n '$s/.*, //p'", b"",
                "5 kinds with a wrong answer\n", "", 1)


WRITTEN = [written("cat"), written("true"), written("false")]


def counts(name, record, counted, output, status):
    """Two records of tests/counts/run, a row in a word: its call, bytes, instructions, and calls and bytes of libc."""
    files = [f"<(printf '%s\\n' {' '.join(rows.split())} | tr , ' ')" for rows in (record, counted)]
    said = "If this is meant, or a gain, renew the record in the same commit: tests/counts/run --write\n" if status else ""
    return Case(f"counts: {name}", f"tests/counts/run --compare {files[0]} {files[1]}", b"", output + said, "", status)


def one_differs(name, record, counted, line):
    rows = len(counted.split())
    return counts(name, record, counted, f"{line}\n{rows} rows of counts, 1 differ\n", 1)


COUNTS = [
    counts("equal", "read,0,105,0,0 sum,20,29,1,8", "read,0,105,0,0 sum,20,29,1,8", "2 rows of counts, 0 differ\n", 0),
    counts("within 2 in 100, or 3", "read,0,1000,1,100 sum,20,29,0,0", "read,0,1020,1,103 sum,20,26,0,0",
           "2 rows of counts, 0 differ\n", 0),
    one_differs("3 in 100", "read,0,1000,0,0 read,64,1000,0,0", "read,0,1030,0,0 read,64,1000,0,0",
                "read, 0: 1030 instructions, 30 more than recorded"),
    one_differs("4 of few", "sum,20,29,0,0", "sum,20,33,0,0", "sum, 20: 33 instructions, 4 more than recorded"),
    one_differs("a gain", "read,0,1000,0,0", "read,0,900,0,0", "read, 0: 900 instructions, 100 fewer than recorded"),
    one_differs("a call of libc", "copy,64,90,1,64", "copy,64,90,2,66", "copy, 64: 2 calls of libc, 1 more than recorded"),
    one_differs("bytes of libc", "copy,64,90,1,64", "copy,64,90,1,68", "copy, 64: 68 bytes of libc, 4 more than recorded"),
    one_differs("a new row", "read,0,105,0,0", "read,0,105,0,0 read,18,105,0,0", "read, 18: 105 instructions, not recorded"),
    one_differs("a missing row", "read,0,105,0,0 read,18,105,0,0", "read,0,105,0,0",
                "read, 18: recorded, but there is no such row"),
]

# Two checkouts in $d, with scripts as the programs of the workloads.
CHECKOUTS = r"""d=$(mktemp -d) && trap 'rm -r "$d"' EXIT && cd "$d" && mkdir -p old/bench old/crates/{low,ip_bench,ip_frames}/{src,out} &&
    printf 'low:\nip_bench: low\nip_frames: low\n' > old/crates.txt && touch old/crates/low/src/lib.rt &&
    printf 'one ip_bench 1 SEED\ntwo ip_bench 2 SEED | ip_frames 3\n' > old/bench/workloads.txt &&
    printf '#!/bin/sh\necho "$@"\n' > old/crates/ip_bench/out/ip_bench &&
    printf '#!/bin/sh\n[ "$(cat) $@" = "2 7 3" ]\n' > old/crates/ip_frames/out/ip_frames &&
    chmod +x old/crates/*/out/* && cp -a old new && cd new"""


def timed(name, change, output="", error="", status=1):
    """Two checkouts that are timed after a change of the second one."""
    command = f"""top=$PWD; {CHECKOUTS} && {change} && "$top/bench/run" ../old . 7 | cut -d '|' -f 2"""
    return Case(f"bench/run: {name}", command, b"", output, re.compile(f"bench/run: {error}\n" if error else ""), status)


TIMED = [
    timed("equal checkouts", "true", " NAME \n---\n one \n two \n", status=0),
    timed("another output", "echo 'echo 4' >> crates/ip_frames/out/ip_frames", error="two: the outputs differ"),
    timed("a program that fails", "echo 'exit 3' >> crates/ip_frames/out/ip_frames", error=".*/new/.*/ip_frames ended with status 3"),
    timed("no program", "rm crates/ip_frames/out/ip_frames", error=".*/new/.*/ip_frames is not built"),
    timed("an older program", "touch -d '+1 hour' crates/low/src/lib.rt", error=".*/new/.*/ip_bench is older than .*/low/src/lib.rt: .*"),
    timed("an older program, by crates.txt", "touch -d '+1 hour' crates.txt", error=".*/ip_bench is older than .*/crates.txt: .*"),
    timed("other workloads", "echo >> bench/workloads.txt", error="bench/workloads.txt is not the same in .*/old and .*/new"),
    timed("another ip_bench", "touch crates/ip_bench/src/main.rt", error="crates/ip_bench/src/main.rt is not the same in .*"),
    timed("another crate", "echo > crates/low/src/lib.rt && touch crates/*/out/*", " NAME \n---\n one \n two \n", status=0),
]

CASES = [*RECORDED_CAPTURES, *PCAP, *PCAPNG, *RECORDED_DUMPS, *DUMPS, *DEVICES, *COMPARED, *WRITTEN, *COUNTS, *TIMED]


def failure(case):
    """What is wrong in a run of the case, or nothing."""
    try:
        run = subprocess.run(["bash", "-c", f"set -o pipefail; {case.command}"], input=case.input, capture_output=True,
                             cwd=TOP, timeout=600)
    except subprocess.TimeoutExpired:
        return "does not end"
    output = case.output.encode() if isinstance(case.output, str) else case.output
    error = run.stderr.decode(errors="backslashreplace")
    is_error = case.error.fullmatch(error) if isinstance(case.error, re.Pattern) else case.error == error
    if run.returncode != case.status:
        return f"status {run.returncode}, but {case.status} is expected; standard error is\n{error}"
    if not is_error:
        return f"standard error is\n{error}but expected is\n{case.error}"
    if not (output.fullmatch(run.stdout) if isinstance(output, re.Pattern) else output == run.stdout):
        expected = output.pattern if isinstance(output, re.Pattern) else output
        return f"standard output is\n{run.stdout[:1000]}\nbut expected is\n{expected[:1000]}"
    return None


def run_cases(cases):
    """Runs the cases, prints what fails, and returns the exit status."""
    failed = 0
    with ThreadPoolExecutor(os.cpu_count()) as pool:
        reasons = list(pool.map(failure, cases))
    for case, reason in zip(cases, reasons):
        if reason:
            failed += 1
            print(f"FAILED: {case.name}\n{reason}")
    print(f"{len(cases) - failed} passed, {failed} failed")
    return 1 if failed or not cases else 0


if __name__ == "__main__":
    sys.exit(run_cases(CASES))
