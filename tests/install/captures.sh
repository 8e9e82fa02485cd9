# How the pcap readers of examples are tested. A script that sources this file sets `room` and `top` to its folders.

# swap IN OUT: writes a pcap file in the other byte order
swap() {
    python3 - "$@" << 'END'
import struct
import sys

data = open(sys.argv[1], "rb").read()
out, at = struct.pack(">IHHiIII", *struct.unpack_from("<IHHiIII", data)), 24
while at < len(data):
    record = struct.unpack_from("<IIII", data, at)
    out += struct.pack(">IIII", *record) + data[at + 16 : at + 16 + record[2]]
    at += 16 + record[2]
open(sys.argv[2], "wb").write(out)
END
}

# reads_captures COMMAND..: this pcap reader of examples prints the recorded lines in either byte order and with times in
# nanoseconds, uses the link type, and rejects what is no pcap file, or is cut.
reads_captures() {
    local capture data=$top/tests/data/tools
    swap examples/echo.pcap "$room/swapped.pcap" && head -c 100 examples/echo.pcap > "$room/cut.pcap" || return 1
    for capture in "$top/examples/echo.pcap" "$data/nanoseconds.pcap" "$room/swapped.pcap"; do
        "$@" "$capture" | diff - tests/data/examples/pcap.txt || return 1
    done
    "$@" "$data/raw_ip.pcap" | diff - <(echo 'IPv4 192.0.2.1 > 192.0.2.2 proto=253 len=0 (header checksum incorrect)') &&
        "$@" "$data/snap.pcap" | finds -F '(checksum cut)' && fails_with 'this is no pcap file' "$@" "$top/README.md" &&
        ! "$@" "$room/cut.pcap"
}
