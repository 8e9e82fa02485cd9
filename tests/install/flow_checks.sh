# Checks of programs/flows.c, for tests/install/run.

prints_flows() {
    runs "$(commands_of_the_man_page | grep -F flows.c)" || return 1
    cat > "$room/expected" << 'END'
UDP [2001:db8::1]:41518 [2001:db8::2]:7 packets 1+1 bytes 66+66 time 0.000004 s rate 264000.0 kbit/s
UDP 192.0.2.1:41319 192.0.2.2:7 packets 1+1 bytes 46+46 time 0.000019 s rate 38736.8 kbit/s
protocol 58 2001:db8::1 ff02::1:ff00:2 packets 1+0 bytes 86+0 time 0.000000 s not allowed
protocol 58 2001:db8::2 2001:db8::1 packets 1+0 bytes 86+0 time 0.000000 s
flows 4, other frames 2, rejected frames 0
END
    runs './flows echo.pcap 192.0.2.0/24 2001:db8::/32 || test $? = 3' | diff - "$room/expected" &&
        runs './flows echo.pcap' | diff - <(sed 's/ not allowed//' "$room/expected") &&
        runs './flows -n 1 - < echo.pcap' | diff - <(sed -n '1p; $p' "$room/expected") || return 1
    fails_with 'flows: 192.0.2.0/33: not a CIDR block' runs './flows echo.pcap 192.0.2.0/33' &&
        fails_with 'flows: -1: not a count' runs './flows -n -1 echo.pcap' &&
        fails_with 'usage: flows' runs './flows' && fails_with 'usage: flows' runs './flows -x echo.pcap' &&
        runs './flows --help' | grep -x 'usage: flows \[-n COUNT\] CAPTURE \[BLOCK..\]' &&
        fails_with 'flows: capture: /no/such: No such file' runs './flows /no/such' &&
        fails_with 'flows: output: it cannot be written' runs './flows echo.pcap > /dev/full' &&
        fails_with 'truncated' runs 'head -c 500 echo.pcap | ./flows -'
}

# flows_of CAPTURE BYTES RATE END: prints the flow of the TCP connection of tests/install/flow_captures.py, and no other line
# but what END says.
flows_of() {
    local flow="TCP 192.0.2.1:40000 192.0.2.2:443 packets 3+2 bytes $2 time 0.050000 s rate $3 kbit/s"
    flow="$flow rtt 20.000+0.500 ms syn 2,4,8,1,3+2,4,8,1,3"
    runs "./flows $1.pcap" | diff - <(printf '%s%b\n' "$flow" "$4") || { echo "of $1.pcap"; return 1; }
}

# The same packets in captures of each link, after VLAN tags, and cut. The headers add up to the bytes: 264 and 412 of
# the packets, and for each of the 3 and of the 2 of them 14 of Ethernet, 16 or 20 of a cooked frame, 4 of a tag.
prints_flows_of_each_link() {
    tests/install/flow_captures.py "$room/folder" && runs "$(commands_of_the_man_page | grep -F flows.c)" || return 1
    local all=' wrong 1\nflows 1, other frames 0, rejected frames 0'
    local six='\nTCP [2001:db8::1]:40001 [fe80::200:ff:fe00:2]:80 packets 1+0 bytes 94+0 time 0.000000 s'
    flows_of raw 264+412 108.2 "$all" && flows_of raw_ipv4 264+412 108.2 "$all" &&
        flows_of loop 276+420 111.4 "$all" &&
        flows_of cooked 312+444 121.0 "$all" && flows_of cooked_2 336+452 126.1 "$all" &&
        flows_of tags 318+456 123.8 ' wrong 1\nflows 1, other frames 1, rejected frames 1, LK_HEADER_CUT 1' &&
        flows_of cut 306+440 119.4 "$six\nflows 2, other frames 1, rejected frames 1, LK_HEADER_CUT 1" || return 1
    # With another link in the header of the capture: IEEE 802.11.
    runs "head -c 20 raw.pcap > radio.pcap && printf '\\151\\0\\0\\0' >> radio.pcap" &&
        fails_with 'flows: radio.pcap: neither Ethernet nor raw nor cooked' runs './flows radio.pcap'
}

# They would meet in a hash table that anyone can compute, and take 16 s of processor time there or more.
counts_crafted_flows() {
    runs 'ulimit -t 8; ./flows -n 0 crafted.pcap' | diff - <(echo 'flows 80000, other frames 0, rejected frames 0')
}

# Many flows, so that the table grows: as many packets in all as the capture has.
counts_many_flows() {
    python3 - "$room/folder/many.pcap" << 'END' || return 1
import struct, sys

with open(sys.argv[1], "wb") as file:
    file.write(struct.pack("<IHHiIII", 0xA1B2C3D4, 2, 4, 0, 0, 65535, 1))
    for n in range(20000):
        ends = [(bytes([10, 0, 0, 1]), n % 5000 + 1), (bytes([10, 0, 0, 2]), 53)]
        (src, src_port), (dst, dst_port) = ends if n < 10000 else ends[::-1]
        frame = bytes(12) + b"\x08\x00" + struct.pack(">BBHHHBBH", 0x45, 0, 28, 0, 0, 64, 17, 0)
        frame += src + dst + struct.pack(">HHHH", src_port, dst_port, 8, 0)
        file.write(struct.pack("<IIII", 0, 0, len(frame), len(frame)) + frame)
END
    # There are 5,000 ports, and each has two packets in both directions.
    runs './flows many.pcap > many && awk "/ packets 2[+]2 bytes 84[+]84 / { n++ } END { exit n != 5000 }" many &&
        grep -q "^flows 5000, other frames 0, rejected frames 0$" many'
}

# Times of both ends of the clock, at which no sum or difference may overflow. The sanitizer ends the program if one does.
takes_odd_times() {
    runs "cc -g -fsanitize=undefined -fno-sanitize-recover=all -o odd flows.c \$(pkg-config --cflags --libs ip_wire libpcap)" || return 1
    local flow='TCP 192.0.2.1:40000 192.0.2.2:443 packets 1+1 bytes 74+74 time'
    # A time counts as 2^32 seconds from 1970 at most, so the flow takes 2^33 seconds.
    runs './odd far_times.pcapng' | grep -F "$flow 8589934592.000000 s" && runs './odd negative_times.pcap' | grep -F "$flow" &&
        runs './odd far_times.pcapng' | grep -x 'flows 1, other frames 0, rejected frames 0'
}

# A frame for each reason that a capture of Ethernet can have, and each reason counts. The sanitizers end the program at an
# access outside of the array of counts.
counts_each_reason() {
    runs "cc -g -fsanitize=address,undefined -fno-sanitize-recover=all -o bounded flows.c \$(pkg-config --cflags --libs ip_wire libpcap)" ||
        return 1
    local reasons=(TOO_SHORT BAD_VERSION BAD_LENGTH OTHER_ARP PORT_ZERO BAD_FLAGS BAD_OPTIONS HEADER_CUT HOPS_LEFT BAD_ORDER)
    runs './bounded rejected.pcap' | diff - <(printf 'flows 0, other frames 0, rejected frames 10'; printf ', LK_%s 1' "${reasons[@]}"; echo)
}
