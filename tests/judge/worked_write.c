/* Worked calls that write: each field of each struct has its own value. The expected bytes were packed by another
 * program, field by field. */
#include "worked.h"

/* The same around the payload, which is in `out` from `at` on. */
#define WRAPS(wanted, at, call) \
    do { \
        const struct octets written = wanted; \
        size_t cap = ROOM; \
        clear(); \
        memcpy(out + (at), payload, sizeof payload); \
        CHECK(holds(&written, call)); \
    } while (0)

static const uint8_t payload[5] = {0xde, 0x01, 0xad, 0x02, 0xbe};

static const struct lk_ethernet ethernet = {{2, 0, 0, 0, 0, 1}, {6, 0, 0xaa, 0xbb, 0xcc, 0xdd}, 0x88b5};
static const struct lk_arp arp = {2, {2, 0, 0, 0, 0, 1}, {6, 0, 0xaa, 0xbb, 0xcc, 0xdd}};

/* An IP header with this identification, flow label and offset. */
static struct lk_ip ip(uint32_t ident, uint32_t flow_label, uint16_t fragment_offset)
{
    struct lk_ip ip;
    memset(&ip, 0, sizeof ip);
    ip.ident = ident;
    ip.flow_label = flow_label;
    ip.fragment_offset = fragment_offset;
    ip.protocol = 132;
    ip.hop_limit = 63;
    ip.dscp = 46;
    ip.ecn = 2;
    return ip;
}

static struct lk_tcp tcp(uint8_t flags, uint16_t urgent_at)
{
    struct lk_tcp tcp;
    memset(&tcp, 0, sizeof tcp);
    tcp.seq_number = 0x89abcdef;
    tcp.ack_number = 0x12345678;
    tcp.window_len = 0xfeed;
    tcp.urgent_at = urgent_at;
    tcp.flags = flags;
    tcp.header_len = 99;
    return tcp;
}

/* All options, with one range, and places without one that hold other numbers. */
static struct lk_tcp_options options(void)
{
    struct lk_tcp_options options;
    memset(&options, 0, sizeof options);
    for (int i = 0; i < 4; i++)
        options.sack_ranges[i].left = 0x11223344, options.sack_ranges[i].right = 0x55667788;
    options.sack_range_count = 1;
    options.tsval = 0x01020304;
    options.tsecr = 0x0a0b0c0d;
    options.mss = 1460;
    options.window_scale = 7;
    options.has_mss = 2;
    options.has_window_scale = 1;
    options.has_timestamp = 255;
    return options;
}

static void link_layer(void)
{
    struct lk_addr src = addr("192.0.2.1"), dst = addr("198.51.100.7");
    WRITES(octets("0600aabbccdd02000000000188b5"), both_emit_ethernet(&ethernet, out, cap));
    WRITES(octets("0001080006040002020000000001c00002010600aabbccddc6336407"),
           both_emit_arp(&arp, &src, &dst, out, cap));
}

static void network_layer(void)
{
    struct lk_addr src = addr("192.0.2.1"), dst = addr("198.51.100.7"), src6 = addr("2001:db8::1"),
                   dst6 = addr("2001:db8:ffff::7");
    const struct lk_addr odd = {{192, 0, 2, 1}, 260}; /* only the lowest byte is 4 */
    struct lk_ip fragment = ip(0xbeef, 0, 1480), whole = ip(0xbeef, 0xfffff, 0), ipv6 = ip(0, 0xabcde, 0);
    fragment.more_fragments = 2;
    WRITES(octets("45ba03fcbeef20b93f84aadfc0000201c6336407"), both_emit_ip(&fragment, &src, &dst, 1000, 1, out, cap));
    whole.dscp = 1;
    whole.ecn = 1;
    whole.dont_fragment = 4;
    WRITES(octets("450503fcbeef40003f848c4dc0000201c6336407"), both_emit_ip(&whole, &src, &dst, 1000, -1, out, cap));
    WRITES(octets("450503fcbeef40003f840000c0000201c6336407"), both_emit_ip(&whole, &src, &dst, 1000, 0, out, cap));
    FAILS(LK_NO_VERSION, both_emit_ip(&whole, &odd, &odd, 0, 1, out, ROOM));
    ipv6.dont_fragment = 1;
    WRITES(octets("6baabcde03e8843f20010db800000000000000000000000120010db8ffff00000000000000000007"),
           both_emit_ip(&ipv6, &src6, &dst6, 1000, 1, out, cap));
}

/* Values that a call might take for a default, or for the end of a range: they are written as they are. */
static void unusual_values(void)
{
    struct lk_addr src = addr("192.0.2.1"), dst = addr("198.51.100.7"), src6 = addr("2001:db8::1"),
                   dst6 = addr("2001:db8:ffff::7");
    struct lk_ip last = ip(0xffff, 0, 65528), ipv6 = ip(0, 0xfffff, 0), first;
    struct lk_arp other = arp;
    other.operation = 0x0102;
    WRITES(octets("0001080006040102020000000001c00002010600aabbccddc6336407"),
           both_emit_arp(&other, &src, &dst, out, cap));
    last.dscp = ipv6.dscp = 63, last.ecn = ipv6.ecn = 3, last.protocol = 255;
    last.hop_limit = ipv6.hop_limit = 1, ipv6.protocol = 0;
    WRITES(octets("45ff0014ffff1fff01ffabb1c0000201c6336407"), both_emit_ip(&last, &src, &dst, 0, 1, out, cap));
    WRITES(octets("6fffffff0000000120010db800000000000000000000000120010db8ffff00000000000000000007"),
           both_emit_ip(&ipv6, &src6, &dst6, 0, 1, out, cap));
    memset(&first, 0, sizeof first);
    first.hop_limit = 255;
    WRITES(octets("4500ffff00000000ff00cfc1c0000201c6336407"), both_emit_ip(&first, &src, &dst, 65515, 1, out, cap));
}

static void transport_layer(void)
{
    struct lk_endpoint src = endpoint("192.0.2.1:5353"), dst = endpoint("198.51.100.7:53");
    struct lk_endpoint src6 = endpoint("[2001:db8::1]:5353"), dst6 = endpoint("[2001:db8:ffff::7]:53");
    WRITES(octets("14e90035000db574de01ad02be"), both_emit_udp(&src, &dst, payload, 5, 1, out, cap));
    WRITES(octets("14e90035000d0000de01ad02be"), both_emit_udp(&src, &dst, payload, 5, 0, out, cap));
    WRITES(octets("14e90035000d4637de01ad02be"), both_emit_udp(&src6, &dst6, payload, 5, 1, out, cap));

    struct lk_tcp data = tcp(LK_PSH + LK_ACK + LK_ECE, 0xcafe), last = tcp(LK_FIN + LK_ACK + LK_URG + LK_CWR, 0xcafe);
    struct lk_tcp first = tcp(LK_SYN, 0), reset = tcp(LK_RST, 0);
    struct lk_tcp_options none, all = options(), permitted = options();
    memset(&none, 0, sizeof none);
    src.port = src6.port = 49152;
    dst.port = dst6.port = 443;
    WRITES(octets("c00001bb89abcdef123456785058feed2e56cafede01ad02be"),
           both_emit_tcp(&data, &none, &src, &dst, payload, 5, 1, out, cap));
    WRITES(octets("c00001bb89abcdef12345678c0b1feedb5afcafe020405b4030307050a1122334455667788080a010203040a0b0c0d00"
                  "de01ad02be"),
           both_emit_tcp(&last, &all, &src6, &dst6, payload, 5, 1, out, cap));
    permitted.sack_permitted = 1;
    permitted.sack_range_count = 0;
    first.ack_number = 0;
    WRITES(octets("c00001bb89abcdef00000000a002feed1f6c0000020405b40303070402080a010203040a0b0c0d00"),
           both_emit_tcp(&first, &permitted, &src, &dst, payload, 0, 1, out, cap));
    WRITES(octets("c00001bb89abcdef123456785004feed00000000de01ad02be"),
           both_emit_tcp(&reset, &none, &src, &dst, payload, 5, 0, out, cap));
    CHECK(both_tcp_header_len(&none) == 20 && both_tcp_header_len(&all) == 48 && both_tcp_header_len(&permitted) == 40);
}

/* The header in `out` is 60 bytes long, and has these options. */
static int reads_back(const struct lk_tcp_options *options)
{
    struct lk_tcp_options found;
    memset(&found, OLD, sizeof found);
    return both_tcp_header_len(options) == 60 && both_find_tcp_options(out, 60, &found) == 1 &&
           memcmp(&found, options, sizeof found) == 0;
}

/* The longest headers, 60 bytes. */
static void longest_headers(void)
{
    struct lk_endpoint src = endpoint("192.0.2.1:49152"), dst = endpoint("198.51.100.7:443");
    struct lk_endpoint src6 = endpoint("[2001:db8::1]:49152"), dst6 = endpoint("[2001:db8:ffff::7]:443");
    struct lk_tcp data = tcp(LK_PSH + LK_ACK + LK_ECE, 0xcafe);
    struct lk_tcp_options four, three;
    memset(&four, 0, sizeof four);
    four.has_mss = 1;
    four.mss = 1460;
    for (uint8_t i = 0; i < 3; i++)
        four.sack_ranges[i].left = 0x10203040u + i, four.sack_ranges[i].right = 0x50607080u + i;
    three = four;
    three.sack_range_count = 3;
    three.has_timestamp = 1;
    three.tsval = 0x01020304;
    three.tsecr = 0x0a0b0c0d;
    four.sack_ranges[3].left = 0x10203043, four.sack_ranges[3].right = 0x50607083;
    four.sack_range_count = 4;
    WRITES(octets("c00001bb89abcdef12345678f058feed7c43cafe020405b40522102030405060708010203041506070811020304250607082"
                  "10203043506070830000de01ad02be"),
           both_emit_tcp(&data, &four, &src, &dst, payload, 5, 1, out, cap));
    CHECK(reads_back(&four));
    WRITES(octets("c00001bb89abcdef12345678f058feed5b6acafe020405b4051a102030405060708010203041506070811020304250607082"
                  "080a010203040a0b0c0dde01ad02be"),
           both_emit_tcp(&data, &three, &src, &dst, payload, 5, 1, out, cap));
    CHECK(reads_back(&three));
    WRITES(octets("c00001bb89abcdef12345678f058feedec2ccafe020405b4051a102030405060708010203041506070811020304250607082"
                  "080a010203040a0b0c0dde01ad02be"),
           both_emit_tcp(&data, &three, &src6, &dst6, payload, 5, 1, out, cap));
    CHECK(reads_back(&three));
}

/* An option list of 4 bytes. A scale above 14 is read as 14 (RFC 7323, section 2.3), and written as it is. */
static const struct {
    uint8_t octets[4];
    uint16_t mss;
    uint8_t has_mss, window_scale, has_window_scale, scale_read;
} limits[] = {
    {{2, 4, 0, 0}, 0, 1, 0, 0, 0},           /* size 0 */
    {{2, 4, 0, 1}, 1, 1, 0, 0, 0},           /* size 1 */
    {{2, 4, 0xff, 0xff}, 65535, 1, 0, 0, 0}, /* size 65535 */
    {{3, 3, 0, 0}, 0, 0, 0, 1, 0},           /* scale 0 */
    {{3, 3, 14, 0}, 0, 0, 14, 1, 14},        /* scale 14 */
    {{3, 3, 15, 0}, 0, 0, 15, 1, 14},        /* scale 15 */
    {{3, 3, 255, 0}, 0, 0, 255, 1, 14},      /* scale 255 */
};

static void limits_of_options(void)
{
    static const struct lk_tcp header = {1, 2, 3, 4, LK_SYN, 0};
    static const struct lk_endpoint end = {{{192, 0, 2, 1}, 4}, 80};
    for (size_t i = 0; i < sizeof limits / sizeof limits[0]; i++) {
        struct lk_tcp_options written, read;
        memset(&written, 0, sizeof written);
        written.mss = limits[i].mss, written.has_mss = limits[i].has_mss;
        written.window_scale = limits[i].window_scale, written.has_window_scale = limits[i].has_window_scale;
        CHECK_ROW(i, both_emit_tcp(&header, &written, &end, &end, NULL, 0, 1, clear(), ROOM) == 24);
        CHECK_ROW(i, memcmp(out + 20, limits[i].octets, 4) == 0);
        memset(&read, OLD, sizeof read);
        CHECK_ROW(i, both_find_tcp_options(out, 24, &read) == 1);
        written.window_scale = limits[i].scale_read;
        same_options(&written, &read);
    }
}

static struct lk_frame headers(const char *src, const char *dst)
{
    struct lk_frame frame;
    memset(&frame, 0xff, sizeof frame);
    frame.ethernet = ethernet;
    frame.arp = arp;
    frame.ip = ip(0xbeef, 0, 0);
    frame.ip.dont_fragment = 1;
    frame.tcp = tcp(LK_PSH + LK_ACK + LK_ECE, 0xcafe);
    frame.src = endpoint(src);
    frame.dst = endpoint(dst);
    return frame;
}

static void frames(void)
{
    static const char udp4_hex[] =
        "0600aabbccdd020000000001080045ba0021beef40003f118fe6c0000201c633640714e90035000db574de01ad02be";
    static const char udp6_hex[] =
        "0600aabbccdd02000000000186dd6baabcde000d113f20010db800000000000000000000000120010db8ffff0000"
        "000000000000000714e90035000d4637de01ad02be";
    static const char tcp4_hex[] =
        "0600aabbccdd020000000001080045ba0049beef40003f068fc9c0000201c633640714e9003589abcdef12345678"
        "c058feedd1e3cafe020405b4030307050a1122334455667788080a010203040a0b0c0d00de01ad02be";
    static const char tcp6_hex[] =
        "0600aabbccdd02000000000186dd6baabcde0035063f20010db800000000000000000000000120010db8ffff0000"
        "000000000000000714e9003589abcdef12345678c058feed62a6cafe020405b4030307050a112233445566778808"
        "0a010203040a0b0c0d00de01ad02be";
    struct lk_frame ipv4 = headers("192.0.2.1:5353", "198.51.100.7:53"),
                    ipv6 = headers("[2001:db8::1]:5353", "[2001:db8:ffff::7]:53");
    struct lk_tcp_options all = options();
    ipv6.ip.ident = 0;
    ipv6.ip.flow_label = 0xabcde;
    WRITES(octets(udp4_hex), both_emit_udp_frame(&ipv4, payload, 5, out, cap));
    WRITES(octets(udp6_hex), both_emit_udp_frame(&ipv6, payload, 5, out, cap));
    WRITES(octets(tcp4_hex), both_emit_tcp_frame(&ipv4, &all, payload, 5, out, cap));
    WRITES(octets(tcp6_hex), both_emit_tcp_frame(&ipv6, &all, payload, 5, out, cap));
    WRAPS(octets(udp4_hex), 42, both_wrap_udp_frame(&ipv4, 5, out, cap));
    WRAPS(octets(udp6_hex), 62, both_wrap_udp_frame(&ipv6, 5, out, cap));
    WRAPS(octets(tcp4_hex), 34 + 48, both_wrap_tcp_frame(&ipv4, &all, 5, out, cap));
    WRAPS(octets(tcp6_hex), 54 + 48, both_wrap_tcp_frame(&ipv6, &all, 5, out, cap));
    WRITES(octets("0600aabbccdd02000000000108060001080006040002020000000001c00002010600aabbccddc6336407"),
           both_emit_arp_frame(&ipv4, out, cap));
    /* The packets are what follows the 14 bytes of Ethernet, 28 digits. */
    WRITES(octets(udp4_hex + 28), both_emit_udp_packet(&ipv4, payload, 5, out, cap));
    WRITES(octets(udp6_hex + 28), both_emit_udp_packet(&ipv6, payload, 5, out, cap));
    WRITES(octets(tcp4_hex + 28), both_emit_tcp_packet(&ipv4, &all, payload, 5, out, cap));
    WRITES(octets(tcp6_hex + 28), both_emit_tcp_packet(&ipv6, &all, payload, 5, out, cap));
    WRAPS(octets(udp4_hex + 28), 28, both_wrap_udp_packet(&ipv4, 5, out, cap));
    WRAPS(octets(udp6_hex + 28), 48, both_wrap_udp_packet(&ipv6, 5, out, cap));
    WRAPS(octets(tcp4_hex + 28), 20 + 48, both_wrap_tcp_packet(&ipv4, &all, 5, out, cap));
    WRAPS(octets(tcp6_hex + 28), 40 + 48, both_wrap_tcp_packet(&ipv6, &all, 5, out, cap));
}

/* A call writes `written` bytes with a payload of `most` bytes, if there is room, and rejects one byte more. */
#define AT_MOST(most, written, call) \
    do { \
        size_t len = (most), cap = 0; \
        CHECK((call) == LK_NO_ROOM); \
        cap = sizeof room; \
        CHECK((call) == (written)); \
        len++; \
        CHECK((call) == LK_PAYLOAD_TOO_LONG); \
    } while (0)

/* A packet or segment has at most 65,535 bytes, and of IPv4 with its header (RFC 791, RFC 8200). The options of TCP
 * have at most 40 bytes (RFC 9293). */
static void longest_packets(void)
{
    static uint8_t zeros[65536], room[65536 + 80];
    struct lk_frame v4 = headers("192.0.2.1:5353", "198.51.100.7:53"),
                    v6 = headers("[2001:db8::1]:5353", "[2001:db8:ffff::7]:53");
    struct lk_tcp_options none, full;
    memset(&none, 0, sizeof none);
    full = none, full.sack_range_count = 4, full.has_mss = 1;
    v6.ip = ip(0, 0xabcde, 0);
    AT_MOST(65515, 20, both_emit_ip(&v4.ip, &v4.src.addr, &v4.dst.addr, len, 1, room, cap));
    AT_MOST(65535, 40, both_emit_ip(&v6.ip, &v6.src.addr, &v6.dst.addr, len, 1, room, cap));
    AT_MOST(65527, 65535, both_emit_udp(&v4.src, &v4.dst, zeros, len, 1, room, cap));
    AT_MOST(65515, 65535, both_emit_tcp(&v4.tcp, &none, &v4.src, &v4.dst, zeros, len, 1, room, cap));
    AT_MOST(65475, 65535, both_emit_tcp(&v6.tcp, &full, &v6.src, &v6.dst, zeros, len, 1, room, cap));
    AT_MOST(65507, 14 + 65535, both_emit_udp_frame(&v4, zeros, len, room, cap));
    AT_MOST(65527, 54 + 65535, both_emit_udp_frame(&v6, zeros, len, room, cap));
    AT_MOST(65495, 14 + 65535, both_emit_tcp_frame(&v4, &none, zeros, len, room, cap));
    AT_MOST(65475, 54 + 65535, both_emit_tcp_frame(&v6, &full, zeros, len, room, cap));
    AT_MOST(65507, 14 + 65535, both_wrap_udp_frame(&v4, len, room, cap));
    AT_MOST(65527, 54 + 65535, both_wrap_udp_frame(&v6, len, room, cap));
    AT_MOST(65455, 14 + 65535, both_wrap_tcp_frame(&v4, &full, len, room, cap));
    AT_MOST(65515, 54 + 65535, both_wrap_tcp_frame(&v6, &none, len, room, cap));
    AT_MOST(65507, 65535, both_emit_udp_packet(&v4, zeros, len, room, cap));
    AT_MOST(65527, 40 + 65535, both_emit_udp_packet(&v6, zeros, len, room, cap));
    AT_MOST(65495, 65535, both_emit_tcp_packet(&v4, &none, zeros, len, room, cap));
    AT_MOST(65475, 40 + 65535, both_emit_tcp_packet(&v6, &full, zeros, len, room, cap));
    AT_MOST(65507, 65535, both_wrap_udp_packet(&v4, len, room, cap));
    AT_MOST(65515, 40 + 65535, both_wrap_tcp_packet(&v6, &none, len, room, cap));
    CHECK(both_tcp_header_len(&full) == 60);
    full.has_window_scale = 1;
    CHECK(both_tcp_header_len(&full) == LK_OPTIONS_TOO_LONG);
    none.sack_range_count = 5;
    CHECK(both_tcp_header_len(&none) == LK_OPTIONS_TOO_LONG);
}

/* A source port of 0 is written: the sender of UDP needs no answer (RFC 768). */
static void no_source_port(void)
{
    static const char udp4_hex[] =
        "0600aabbccdd020000000001080045ba0021beef40003f118fe6c0000201c633640700000009000dca89de01ad02be";
    static const char udp6_hex[] =
        "0600aabbccdd02000000000186dd6baabcde000d113f20010db800000000000000000000000120010db8ffff0000"
        "000000000000000700000009000d5b4cde01ad02be";
    struct lk_frame ipv4 = headers("192.0.2.1", "198.51.100.7:9"),
                    ipv6 = headers("2001:db8::1", "[2001:db8:ffff::7]:9");
    ipv6.ip.ident = 0, ipv6.ip.flow_label = 0xabcde;
    WRITES(octets("00000009000dca89de01ad02be"), both_emit_udp(&ipv4.src, &ipv4.dst, payload, 5, 1, out, cap));
    WRITES(octets(udp4_hex), both_emit_udp_frame(&ipv4, payload, 5, out, cap));
    WRITES(octets(udp6_hex), both_emit_udp_frame(&ipv6, payload, 5, out, cap));
    WRAPS(octets(udp4_hex), 42, both_wrap_udp_frame(&ipv4, 5, out, cap));
    WRAPS(octets(udp6_hex), 62, both_wrap_udp_frame(&ipv6, 5, out, cap));
}

/* A frame of nothing but its Ethernet header is rebuilt as it is; fewer bytes are no frame. */
static void rebuilds_headers(void)
{
    struct octets header = octets("0600aabbccdd02000000000188b5");
    WRITES(header, both_rebuild(header.at, 14, out, cap));
    FAILS(LK_NO_HEADER, both_rebuild(header.at, 13, out, ROOM));
}

static void replies(void)
{
    static const struct lk_ip fresh = {0, 0, 0, 6, 64, 46, 0, 0, 1};
    struct lk_frame frame = headers("192.0.2.1:5353", "198.51.100.7:53"), reply = frame, back;
    frame.ip.protocol = reply.ip.protocol = 6;
    both_make_reply(&reply);
    CHECK(memcmp(&reply.src, &frame.dst, sizeof frame.dst) == 0 &&
          memcmp(&reply.dst, &frame.src, sizeof frame.src) == 0);
    CHECK(memcmp(reply.ethernet.src, ethernet.dst, 6) == 0 && memcmp(reply.ethernet.dst, ethernet.src, 6) == 0);
    CHECK(memcmp(reply.arp.src_hardware, arp.dst_hardware, 6) == 0 &&
          memcmp(reply.arp.dst_hardware, arp.src_hardware, 6) == 0);
    CHECK(reply.ethernet.type == 0x88b5 && reply.arp.operation == 2 && memcmp(&reply.ip, &fresh, sizeof fresh) == 0);
    CHECK(memcmp(&reply.tcp, &frame.tcp, sizeof frame.tcp) == 0 && reply.payload_len == frame.payload_len);
    CHECK(reply.network_offset == frame.network_offset && reply.transport_checksum == frame.transport_checksum);
    back = reply;
    both_make_reply(&back);
    CHECK(memcmp(&back.src, &frame.src, sizeof frame.src) == 0 &&
          memcmp(&back.ethernet, &ethernet, sizeof ethernet) == 0);
}

void worked_write(void)
{
    link_layer();
    network_layer();
    unusual_values();
    transport_layer();
    longest_headers();
    limits_of_options();
    frames();
    longest_packets();
    no_source_port();
    rebuilds_headers();
    replies();
}
