#!/usr/bin/env -S sh -c 'test ! -d /dev/stdin || { echo "${0##*/}: cannot read: Is a directory" >&2; exit 1; }; exec python3 -B "$0" "$@"'
# Python does not start if standard input is a directory, so the line above tests for that.
r"""Prints the frames of a hex dump as lines of hex digits, one frame per line.

It reads these forms, which may follow each other in one input:

  0x0000:  0200 0000 0002    tcpdump -xx, and -XX with its text column
  00000000: 0200 0000 0002   xxd, with its text column
  0000   02 00 00 00 00 02   Wireshark's hex dump and tshark -x, with or without the text column
  020000000002               Wireshark's hex stream
  "\x02\x00\x00" \           Wireshark's escaped string
  02 00 00   02:00:00   02,00,00   0x02, 0x00, 0x00

The rules, for each line:

  1. An empty line and a line that begins with # are skipped.
  2. A line that begins with a time, as 17:03:33.759133 or 1795367013.759133, is tcpdump's
     summary of a packet. So are the lines after it, up to the dump: the inner packet of a
     tunnel has a line without a time. They are skipped, except an unindented line that is a
     frame by rule 6. With -v tcpdump also dumps parts of a packet. Such a dump is skipped: it
     is indented deeper, or a line of the summary or another dump follows. The number of packets
     without a dump, and of skipped dumps that are not part of their packet, is reported.
  3. An offset is four to eight hex digits, perhaps after 0x, with a colon or two spaces
     after them. Offset 0 begins a frame. Any other offset must be the number of bytes
     that the frame has so far, and the line continues that frame.
  4. After an offset the bytes end at the first two spaces. What follows is the text
     column, which has at most one character for each byte. If one line of a frame has it,
     each line has it. The last line of the input has a line end. Without either of them
     the dump was cut off, which is an error.
  5. A line such as "Frame (98 bytes):" says what the next bytes with offsets are. They are
     skipped unless it begins with "Frame": tshark -x repeats bytes that it put together
     from several frames. A frame with another number of bytes is an error.
  6. Any other line is a frame of its own. If it ends in a comma or a backslash, the next
     line continues it.
  7. A line in none of these forms is an error, and so is an input without any frame.

tcpdump -x and -X leave the Ethernet header out: use -xx or -XX, without -t. The number of frames
that look so is reported on standard error. Of some frames tcpdump also leaves out the last bytes,
such as padding; lines_of_capture.py reads them from the capture. xxd -p breaks long frames into
lines: use xxd -p -c 0. The dumps of hexdump and od are not supported.
"""
import re

import frame_lines
from frame_lines import Failure, counted

BYTE = "[0-9a-fA-F]{2}"
TIME = r"-?(\d{4}-\d\d-\d\d )?(\d\d:\d\d:\d\d|\d+)\.\d+|\[Error converting time\]"
SUMMARY = re.compile(rf"\s*(\d+  )?({TIME}) |\[Invalid header: ", re.ASCII)
TCPDUMP_START = re.compile(r"\t0x0+:")
DEEPER_THAN_THE_DUMP = re.compile(r"(?:\t| {8})[ \t]")
OFFSET = re.compile(r"(?:0x)?([0-9a-fA-F]{4,8})(?:: *|  +)(?=\S)")
VIEW = re.compile(r"(\S.*) \((\d+) bytes?\):", re.ASCII)
BYTES_AFTER_OFFSET = re.compile(rf"(?:{BYTE})+(?: (?:{BYTE})+)*(?=  |$)")
STREAM = re.compile(rf"(?:{BYTE})+")
ESCAPED = re.compile(rf'("?)((?:\\x{BYTE})+)\1 *\\?')
SEPARATOR = re.compile(r"\s*[,:]\s*|\s+")
SEPARATED = re.compile(rf"(?:0x{BYTE}(?:{SEPARATOR.pattern}|$))+|(?:{BYTE}(?:{SEPARATOR.pattern}|$))+")


class Reader:
    """The frames of the lines so far."""

    def __init__(self):
        # The bytes of a frame that may go on.
        self.frame = bytearray()
        # Whether the last line says that the next one continues it.
        self.continues = False
        # Whether the last line is a part of tcpdump's summary.
        self.in_summary = False
        # Whether the lines since tcpdump's last time are of its packet, and the dumps among them
        # that are only a part of the packet.
        self.has_summary = False
        self.parts = []
        # The frame has lines with offsets, and one of them has a text column.
        self.is_dumped = False
        self.has_text = False
        # The bytes with offsets are no frame. Their number, if a line before them says it.
        self.is_skipped = False
        self.said_len = None
        # How many frames there are, and how many of them begin with an IP header.
        self.count = self.ip_count = 0
        # How many summaries have no bytes, and how many skipped dumps are no part of their packet.
        self.missing_count = self.stray_count = 0

    def read_line(self, line):
        """The frames that end before this line or with it."""
        text = line.strip()
        offset = OFFSET.match(text)
        if not text or text.startswith("#"):
            return
        view = VIEW.fullmatch(text)
        if view and not self.continues:
            yield from self.end()
            self.is_skipped = not view[1].startswith("Frame")
            self.said_len = int(view[2])
            return
        if not self.continues and not offset and SUMMARY.match(line):
            yield from self.end()
            self.in_summary = self.has_summary = True
            return
        if self.has_summary and self.is_skipped_in_summary(line, text, offset):
            return
        self.in_summary = False
        if offset and not self.continues:
            yield from self.read_dumped(int(offset[1], 16), text[offset.end() :])
        else:
            yield from self.read_single(text)

    def is_skipped_in_summary(self, line, text, offset):
        """Whether a line belongs to a summary. It ends a dump that is only a part of the packet."""
        is_indented = line[0] in " \t"
        if self.in_summary:
            return not offset or DEEPER_THAN_THE_DUMP.match(line) if is_indented else not (offset or is_single(text))
        if not offset and is_indented and not is_single(text):
            self.drop_dump()
            self.in_summary = True
        elif TCPDUMP_START.match(line):
            self.drop_dump()
        return self.in_summary

    def drop_dump(self):
        """Takes the dump so far as one of a part of the packet."""
        self.parts.append(bytes(self.frame))
        self.frame = bytearray()
        self.is_dumped = self.has_text = False

    def read_dumped(self, offset, text):
        """A line with an offset: its bytes, and perhaps a text column."""
        octets = BYTES_AFTER_OFFSET.match(text)
        if not octets:
            raise Failure("no bytes in hex after the offset")
        data = bytes.fromhex(octets[0])
        column = text[octets.end() :].strip()
        if len(column) > len(data):
            raise Failure("the text column is longer than the bytes")
        if offset == 0 and self.frame:
            yield from self.end()
        if offset != len(self.frame):
            raise Failure(f"offset {offset:04x}, but {len(self.frame):04x} is expected")
        if self.has_text and not column and data.strip(b" "):
            raise Failure("the text column is missing: the line is cut off")
        self.is_dumped = True
        self.has_text |= bool(column)
        self.frame += data

    def read_single(self, text):
        """A line without an offset: a frame, or a part of one that continues."""
        data = single_bytes(text)
        if self.frame and not self.continues:
            yield from self.end()
        self.frame += data
        self.continues = text[-1] in ",\\"
        if not self.continues:
            yield from self.end()

    def end(self):
        """The frame so far, if there is one."""
        frame = bytes(self.frame)
        if self.parts and not frame:
            raise Failure("the dump of a packet is missing")
        self.missing_count += self.has_summary and not frame
        self.stray_count += sum(part not in frame for part in self.parts)
        self.has_summary = False
        self.parts = []
        if frame and self.said_len not in (None, len(frame)):
            raise Failure(f"{counted(len(frame), 'byte')}, but {self.said_len} are expected")
        if frame and not self.is_skipped:
            self.count += 1
            self.ip_count += self.is_dumped and is_ip_packet(frame)
            yield frame
        self.frame = bytearray()
        if frame:
            self.is_dumped = self.has_text = self.is_skipped = False
            self.said_len = None


def is_ip_packet(data):
    """Whether the bytes are an IPv4 or IPv6 packet by its version and length, without an Ethernet header."""
    if len(data) >= 20 and data[0] >> 4 == 4:
        return int.from_bytes(data[2:4], "big") == len(data)
    return len(data) >= 40 and data[0] >> 4 == 6 and 40 + int.from_bytes(data[4:6], "big") == len(data)


def is_single(text):
    """Whether a line is a frame of its own, or a part of one."""
    return any(form.fullmatch(text) for form in (STREAM, ESCAPED, SEPARATED))


def single_bytes(text):
    """The bytes of a line without an offset."""
    if STREAM.fullmatch(text):
        return bytes.fromhex(text)
    if escaped := ESCAPED.fullmatch(text):
        return bytes.fromhex(escaped[2].replace("\\x", ""))
    if SEPARATED.fullmatch(text):
        return bytes.fromhex(SEPARATOR.sub("", text).replace("0x", ""))
    raise Failure("not a frame in hex")


def read_frames(source, _arguments):
    """The frames of the lines of a text."""
    reader = Reader()
    number = 0
    line = b""
    for number, line in enumerate(source, 1):
        try:
            yield from reader.read_line(line.decode("utf-8-sig", "replace").rstrip())
        except Failure as failure:
            raise Failure(f"line {number}: {failure}") from None
    if reader.continues or reader.is_dumped and not line.endswith(b"\n"):
        raise Failure(f"line {number}: the frame is cut off")
    try:
        yield from reader.end()
    except Failure as failure:
        raise Failure(f"line {number}: {failure}") from None
    report_counts(reader)


def report_counts(reader):
    if reader.missing_count:
        frame_lines.report(f"skipped, without bytes: {counted(reader.missing_count, 'packet')}")
    if reader.stray_count:
        frame_lines.report(f"skipped, not part of its packet: {counted(reader.stray_count, 'dump')}")
    if reader.ip_count:
        frame_lines.report(f"without an Ethernet header, as tcpdump -x prints them: {counted(reader.ip_count, 'packet')}")
    if not reader.count:
        raise Failure("no frames in the input" + ("; tcpdump prints them with -xx" if reader.missing_count else ""))


if __name__ == "__main__":
    frame_lines.main(__doc__, read_frames)
