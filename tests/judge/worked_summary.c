/* Worked lines of frames, as the form in the header says, and names, as IANA has them. */
#include "worked.h"

/* Frames of worked_frames.inc with changes, and their lines. */
static const struct {
    const struct octets *frame;
    struct change changes[CHANGES];
    const char *line;
} lines[] = {
    {&arp_request, {{0, 0}}, "ARP 192.0.2.1 > 192.0.2.2 op=1 hardware=02-00-00-00-00-01 len=0"},
    {&arp_reply, {{0, 0}}, "ARP 192.0.2.2 > 192.0.2.1 op=2 hardware=02-00-00-00-00-02 len=0"},
    {&arp_other, {{0, 0}}, "Ethernet 02-b1-b2-b3-b4-b5 > 02-a1-a2-a3-a4-a5 type=0x0806 len=28 (other ARP)"},
    {&ping, {{0, 0}}, "IPv4 192.0.2.1:41319 > 192.0.2.2:7 UDP len=4"},
    {&ping6, {{0, 0}}, "IPv6 [2001:db8::1]:41319 > [2001:db8::2]:7 UDP len=4"},
    {&udp4_wrong, {{0, 0}}, "IPv4 26.27.28.29:12594 > 42.43.44.45:16706 UDP len=3 (checksum incorrect)"},
    {&udp4_left_out, {{0, 0}}, "IPv4 26.27.28.29:12594 > 42.43.44.45:16706 UDP len=3 (no checksum)"},
    {&udp4_left_to_device, {{0, 0}}, "IPv4 26.27.28.29:12594 > 42.43.44.45:16706 UDP len=3 (partial checksum correct)"},
    {&udp4_bad_ip, {{0, 0}}, "IPv4 26.27.28.29:12594 > 42.43.44.45:16706 UDP len=3 (header checksum incorrect)"},
    {&udp4_too_short, {{0, 0}}, "IPv4 26.27.28.29 > 42.43.44.45 proto=17 len=7 (too short)"},
    {&udp4_bad_length, {{0, 0}}, "IPv4 26.27.28.29:12594 > 42.43.44.45:16706 UDP len=11 (bad length)"},
    {&udp4_port_zero, {{0, 0}}, "IPv4 26.27.28.29:12594 > 42.43.44.45:0 UDP len=11 (port zero)"},
    {&syn, {{0, 0}}, "IPv4 192.0.2.1:60784 > 192.0.2.2:80 TCP syn seq=2147721869 win=64240 len=0"},
    {&syn_ack6, {{0, 0}}, "IPv6 [2001:db8::2]:80 > [2001:db8::1]:60784 TCP syn seq=168496141 ack=2147721870 win=29200 len=0"},
    {&syn, {{47, 0xff}, {52, 1}, {53, 2}},
     "IPv4 192.0.2.1:60784 > 192.0.2.2:80 TCP syn fin rst psh ece cwr seq=2147721869 ack=0 win=64240 urg=258 len=40 "
     "(checksum incorrect) (bad flags)"},
    {&syn, {{47, 0x01}},
     "IPv4 192.0.2.1:60784 > 192.0.2.2:80 TCP fin seq=2147721869 win=64240 len=0 (checksum incorrect)"},
    {&syn, {{47, 0x04}},
     "IPv4 192.0.2.1:60784 > 192.0.2.2:80 TCP rst seq=2147721869 win=64240 len=0 (checksum incorrect)"},
    {&syn, {{47, 0x08}},
     "IPv4 192.0.2.1:60784 > 192.0.2.2:80 TCP psh seq=2147721869 win=64240 len=0 (checksum incorrect)"},
    {&syn, {{47, 0x40}},
     "IPv4 192.0.2.1:60784 > 192.0.2.2:80 TCP ece seq=2147721869 win=64240 len=0 (checksum incorrect)"},
    {&syn, {{47, 0x80}},
     "IPv4 192.0.2.1:60784 > 192.0.2.2:80 TCP cwr seq=2147721869 win=64240 len=0 (checksum incorrect)"},
    {&tcp4_bad_options, {{0, 0}},
     "IPv4 26.27.28.29:13108 > 42.43.44.45:17220 TCP seq=1364349780 ack=3789743076 win=21846 len=27 (bad options)"},
    {&echo_request, {{0, 0}}, "IPv4 192.0.2.1 > 192.0.2.2 ICMP type=8 code=0 len=5"},
    {&unreachable6, {{0, 0}}, "IPv6 2001:db8::2 > 2001:db8::1 ICMP type=1 code=4 len=52"},
    {&fragment4_first, {{0, 0}}, "IPv4 26.27.28.29 > 42.43.44.45 proto=17 fragment=0+ len=11"},
    {&fragment4_last, {{0, 0}}, "IPv4 26.27.28.29 > 42.43.44.45 proto=17 fragment=65528 len=11"},
    {&fragment_of_ipv4, {{0, 0}}, "IPv4 26.27.28.29 > 42.43.44.45 proto=44 len=8"},
    {&ipv4_too_short, {{0, 0}}, "Ethernet 02-b1-b2-b3-b4-b5 > 02-a1-a2-a3-a4-a5 type=0x0800 len=19 (too short)"},
    {&ipv6_bad_version, {{0, 0}}, "Ethernet 02-b1-b2-b3-b4-b5 > 02-a1-a2-a3-a4-a5 type=0x86dd len=51 (bad version)"},
    {&unknown_type, {{0, 0}}, "Ethernet 02-b1-b2-b3-b4-b5 > 02-a1-a2-a3-a4-a5 type=0x88b5 len=3"},
};

/* Whether this is the line of a frame, in just enough room. In less nothing is written. */
static int prints(const struct lk_frame *frame, const char *line)
{
    size_t len = strlen(line);
    char text[LK_FRAME_TEXT + 1];
    memset(text, OLD, sizeof text);
    return both_print_frame(frame, text, len - 1) == LK_NO_ROOM && (uint8_t)text[0] == OLD &&
           both_print_frame(frame, text, len) == (ptrdiff_t)len && (uint8_t)text[len] == OLD &&
           memcmp(text, line, len) == 0 && both_print_frame(frame, text, sizeof text) == (ptrdiff_t)len &&
           strcmp(text, line) == 0;
}

static void print_lines(void)
{
    /* www.tcpdump.org/linktypes/LINKTYPE_LINUX_SLL.html: type, ARPHRD 1, 6 bytes of an address, the protocol */
    const struct octets cooked = octets("00000001000602b1b2b3b4b5000088b50102");
    struct lk_frame frame;
    for (size_t i = 0; i < sizeof lines / sizeof lines[0]; i++) {
        struct octets octets = cut(lines[i].frame, lines[i].frame->len, lines[i].changes);
        both_read_frame(octets.at, octets.len, &frame);
        CHECK_ROW(i, prints(&frame, lines[i].line));
    }
    both_read_captured(udp4.at, 48, udp4.len, &frame);
    CHECK(prints(&frame, "IPv4 26.27.28.29:12594 > 42.43.44.45:16706 UDP len=3 (checksum cut)"));
    both_read_captured(udp4.at, 45, udp4.len, &frame);
    CHECK(prints(&frame, "IPv4 26.27.28.29 > 42.43.44.45 proto=17 len=11 (header cut)"));
    both_read_linktype(147, udp4.at, udp4.len, udp4.len, &frame);
    CHECK(prints(&frame, "Ethernet 00-00-00-00-00-00 > 00-00-00-00-00-00 type=0x0000 len=54 (unknown link)"));
    both_read_linktype(1, udp4.at, 13, 13, &frame);
    CHECK(prints(&frame, "Ethernet 00-00-00-00-00-00 > 00-00-00-00-00-00 type=0x0000 len=13 (too short)"));
    both_read_linktype(113, cooked.at, cooked.len, cooked.len, &frame);
    CHECK(prints(&frame, "Ethernet 00-00-00-00-00-00 > 00-00-00-00-00-00 type=0x88b5 len=2"));
    both_read_linktype(101, (const uint8_t *)"P", 1, 1, &frame); /* version 5 */
    CHECK(prints(&frame, "Ethernet 00-00-00-00-00-00 > 00-00-00-00-00-00 type=0x0000 len=1 (bad version)"));
    both_read_packet((const uint8_t *)"P", 1, &frame);
    CHECK(prints(&frame, "Ethernet 00-00-00-00-00-00 > 00-00-00-00-00-00 type=0x0000 len=1 (bad version)"));
}

/* The longest line. */
static void print_longest(void)
{
    static const char line[] =
        "IPv6 [1111:1111:1111:1111:1111:1111:1111:1111]:65535 > [1111:1111:1111:1111:1111:1111:1111:1111]:65535 TCP syn fin "
        "rst psh ece cwr seq=4294967295 ack=4294967295 win=65535 urg=65535 len=18446744073709551615 "
        "(header checksum incorrect) (partial checksum correct) (unknown link)";
    struct lk_frame frame;
    memset(&frame, 0xff, sizeof frame);
    memset(frame.src.addr.octets, 0x11, 16);
    memset(frame.dst.addr.octets, 0x11, 16);
    frame.src.addr.version = frame.dst.addr.version = 6;
    frame.network = LK_IPV6;
    frame.transport = LK_TCP;
    frame.ipv4_checksum = LK_CHECKSUM_INVALID;
    frame.transport_checksum = LK_CHECKSUM_PARTIAL;
    frame.reason = LK_UNKNOWN_LINK;
    CHECK(sizeof line == LK_FRAME_TEXT && prints(&frame, line));
}

static int is(const char *text, const char *wanted)
{
    return strcmp(text, wanted) == 0;
}

static void names(void)
{
    CHECK(is(both_protocol_name(6), "TCP") && is(both_protocol_name(17), "UDP") && is(both_protocol_name(132), "SCTP"));
    CHECK(is(both_protocol_name(58), "IPv6-ICMP") && is(both_protocol_name(255), "unknown"));
    CHECK(is(both_protocol_name(89), "OSPFIGP") && is(both_protocol_name(88), "EIGRP"));
    CHECK(is(both_protocol_name(-1), "unknown") && is(both_protocol_name(256 + 6), "unknown"));
    CHECK(is(both_ethertype_name(0x0800), "IPv4") && is(both_ethertype_name(0x86dd), "IPv6"));
    CHECK(is(both_ethertype_name(0x88cc), "LLDP") && is(both_ethertype_name(1500), "unknown"));
    CHECK(is(both_tcp_flag_name(LK_SYN), "SYN") && is(both_tcp_flag_name(LK_CWR), "CWR"));
    CHECK(is(both_tcp_flag_name(0), "unknown") && is(both_tcp_flag_name(LK_SYN + LK_ACK), "unknown"));
}

void worked_summary(void)
{
    print_lines();
    print_longest();
    names();
}
