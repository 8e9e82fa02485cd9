/* Worked calls that read frames: each field of each struct has its own value. */
#include "worked.h"

/* One byte after the other, as 20 21 22 .. */
static void count_from(uint8_t *octets, size_t len, uint8_t first)
{
    for (size_t i = 0; i < len; i++)
        octets[i] = (uint8_t)(first + i);
}

/* ---- what is expected ---- */

static struct lk_frame no_header(size_t len)
{
    struct lk_frame frame;
    memset(&frame, 0, sizeof frame);
    frame.payload_len = frame.payload_captured = len;
    frame.reason = LK_TOO_SHORT;
    return frame;
}

static struct lk_frame ethernet(uint16_t type, size_t payload_len)
{
    struct lk_frame frame = no_header(payload_len);
    frame.reason = LK_READ;
    frame.payload_offset = 14;
    frame.ethernet.type = type;
    frame.ethernet.dst[0] = frame.ethernet.src[0] = 2;
    count_from(frame.ethernet.dst + 1, 5, 0xa1);
    count_from(frame.ethernet.src + 1, 5, 0xb1);
    return frame;
}

static struct lk_addr counted(uint16_t version, uint8_t first)
{
    struct lk_addr addr = {{0}, version};
    count_from(addr.octets, version == 4 ? 4 : 16, first);
    return addr;
}

static struct lk_frame arp(void)
{
    struct lk_frame frame = ethernet(0x0806, 0);
    frame.payload_offset = 42;
    frame.network = LK_ARP;
    frame.network_offset = 14;
    frame.arp.operation = 0x0302;
    count_from(frame.arp.src_hardware, 6, 0xc1);
    count_from(frame.arp.dst_hardware, 6, 0xd1);
    frame.src.addr = counted(4, 0x0a);
    frame.dst.addr = counted(4, 0x0e);
    return frame;
}

static struct lk_frame ipv4(uint8_t protocol, size_t header_len, size_t payload_len)
{
    struct lk_frame frame = ethernet(0x0800, payload_len);
    frame.payload_offset += header_len;
    frame.network = LK_IPV4;
    frame.network_offset = 14;
    frame.src.addr = counted(4, 0x1a);
    frame.dst.addr = counted(4, 0x2a);
    frame.ip.ident = 0x6162;
    frame.ip.protocol = frame.protocol = protocol;
    frame.ip.hop_limit = 0x3d;
    frame.ip.dscp = 0x2e;
    frame.ip.ecn = 1;
    frame.ip.dont_fragment = 1;
    frame.ipv4_checksum = LK_CHECKSUM_VALID;
    return frame;
}

static struct lk_frame ipv6(uint8_t protocol, size_t payload_len)
{
    struct lk_frame frame = ethernet(0x86dd, payload_len);
    frame.payload_offset += 40;
    frame.network = LK_IPV6;
    frame.network_offset = 14;
    frame.src.addr = counted(6, 0x20);
    frame.dst.addr = counted(6, 0x30);
    frame.ip.flow_label = 0xcdef1;
    frame.ip.protocol = frame.protocol = protocol;
    frame.ip.hop_limit = 0x3e;
    frame.ip.dscp = 0x2f;
    frame.ip.ecn = 2;
    return frame;
}

/* A fragment, or with offset 0 and nothing after it a whole packet. */
static struct lk_frame fragment(struct lk_frame frame, uint16_t offset, uint8_t more)
{
    frame.ip.dont_fragment = 0;
    frame.ip.fragment_offset = offset;
    frame.ip.more_fragments = more;
    frame.is_fragment = offset != 0 || more;
    return frame;
}

static struct lk_frame fragment4(uint16_t offset, uint8_t more)
{
    return fragment(ipv4(17, 20, 11), offset, more);
}

static struct lk_frame fragment6(uint16_t offset, uint8_t more)
{
    struct lk_frame frame = fragment(ipv6(44, 11), offset, more);
    frame.ip.ident = 0x81828384;
    return frame;
}

/* The fields of a transport header that begins the payload. */
static struct lk_frame udp_header(struct lk_frame frame, uint8_t checksum)
{
    frame.transport = LK_UDP;
    frame.transport_offset = frame.payload_offset;
    frame.transport_checksum = checksum;
    frame.src.port = 0x3132;
    frame.dst.port = 0x4142;
    return frame;
}

static struct lk_frame tcp_header(struct lk_frame frame, uint8_t header_len, uint8_t flags, uint8_t checksum)
{
    frame.transport = LK_TCP;
    frame.transport_offset = frame.payload_offset;
    frame.transport_checksum = checksum;
    frame.src.port = 0x3334;
    frame.dst.port = 0x4344;
    frame.tcp.seq_number = 0x51525354;
    frame.tcp.ack_number = 0xe1e2e3e4;
    frame.tcp.window_len = 0x5556;
    frame.tcp.urgent_at = 0x7172;
    frame.tcp.flags = flags;
    frame.tcp.header_len = header_len;
    return frame;
}

/* The last 3 bytes are the payload. */
static struct lk_frame udp(struct lk_frame frame, uint8_t checksum)
{
    frame = udp_header(frame, checksum);
    frame.payload_offset += 8;
    frame.payload_len = 3;
    return frame;
}

static struct lk_frame tcp(struct lk_frame frame, uint8_t header_len, uint8_t flags, uint8_t checksum)
{
    frame = tcp_header(frame, header_len, flags, checksum);
    frame.payload_offset += header_len;
    frame.payload_len = 3;
    return frame;
}

/* The last header is rejected. That of a transport is named apart. */
static struct lk_frame rejected(struct lk_frame frame, uint8_t reason)
{
    frame.reason = reason;
    frame.rejected = frame.transport;
    frame.transport = LK_NO_TRANSPORT;
    return frame;
}

static struct lk_frame with_ports(struct lk_frame frame, uint16_t src, uint16_t dst)
{
    frame.src.port = src;
    frame.dst.port = dst;
    return frame;
}

static struct lk_frame with_bad_ipv4_checksum(struct lk_frame frame)
{
    frame.ipv4_checksum = LK_CHECKSUM_INVALID;
    return frame;
}

/* ---- frames ---- */

/* What is expected of the packet in a frame, read without its Ethernet header. */
static struct lk_frame packet_of(struct lk_frame frame)
{
    memset(&frame.ethernet, 0, sizeof frame.ethernet);
    if (frame.network != LK_NO_NETWORK)
        frame.network_offset -= 14;
    if (frame.transport_offset != 0)
        frame.transport_offset -= 14;
    frame.payload_offset -= 14;
    return frame;
}

/* `both_read_frame` compares each field with that of the model. */
static void reads(int line, const struct octets *frame, struct lk_frame expected)
{
    struct lk_frame found;
    expected.payload_captured = expected.payload_len;
    memset(&found, OLD, sizeof found);
    check(__FILE__, line, 0, both_read_frame(frame->at, frame->len, &found) == expected.reason);
    same_frame(&expected, &found);
    if (expected.network != LK_IPV4 && expected.network != LK_IPV6)
        return;
    check(__FILE__, line, 1, both_read_packet(frame->at + 14, frame->len - 14, &found) == expected.reason);
    expected = packet_of(expected);
    same_frame(&expected, &found);
}

#define READS(frame, expected) reads(__LINE__, &frame, expected)

static void reads_frames(void)
{
    READS(arp4, arp());
    READS(udp4, udp(ipv4(17, 24, 0), LK_CHECKSUM_VALID));
    READS(other4, fragment(ipv4(1, 20, 3), 0, 0));
    READS(fragment_of_ipv4, ipv4(44, 20, 8));
    READS(udp6, udp(ipv6(17, 0), LK_CHECKSUM_VALID));
    READS(other6, ipv6(58, 3));
    READS(tcp4, tcp(ipv4(6, 20, 0), 24, 0xd8, LK_CHECKSUM_VALID));
    READS(tcp6, tcp(ipv6(6, 0), 28, 0x32, LK_CHECKSUM_VALID));
    READS(unknown_type, ethernet(0x88b5, 3));
}

static void reads_fragments(void)
{
    READS(fragment4_first, with_ports(fragment4(0, 1), 0x3132, 0x4142));
    READS(fragment4_middle, fragment4(0x918, 1));
    READS(fragment4_last, fragment4(0xfff8, 0));
    READS(fragment6_first, fragment6(0, 1));
    READS(fragment6_middle, fragment6(0x918, 1));
    READS(fragment6_last, fragment6(0xfff8, 0));
    READS(fragment6_short, rejected(ipv6(44, 7), LK_TOO_SHORT));
}

static void reads_checksums(void)
{
    READS(udp4_bad_ip, with_bad_ipv4_checksum(udp(ipv4(17, 20, 0), LK_CHECKSUM_VALID)));
    READS(udp4_wrong, udp(ipv4(17, 20, 0), LK_CHECKSUM_INVALID));
    READS(udp4_left_out, udp(ipv4(17, 20, 0), LK_CHECKSUM_OMITTED));
    READS(udp4_left_to_device, udp(ipv4(17, 20, 0), LK_CHECKSUM_PARTIAL));
    READS(udp6_zero, udp(ipv6(17, 0), LK_CHECKSUM_INVALID));
    READS(udp6_left_to_device, udp(ipv6(17, 0), LK_CHECKSUM_PARTIAL));
    READS(tcp4_wrong, tcp(ipv4(6, 20, 0), 20, 0x10, LK_CHECKSUM_INVALID));
    READS(tcp4_left_to_device, tcp(ipv4(6, 20, 0), 20, 0x10, LK_CHECKSUM_PARTIAL));
}

static void tells_valid(const struct octets *frame, int expected)
{
    struct lk_frame found;
    both_read_frame(frame->at, frame->len, &found);
    CHECK(lk_is_valid(&found) == expected);
}

/* RFC 1122, sections 3.2.1.2, 4.1.3.4 and 4.2.2.7: a wrong checksum is a reason to discard. RFC 768: UDP's may be left out;
 * not over IPv6 (RFC 8200, section 8.1). */
static void tells_valid_frames(void)
{
    tells_valid(&arp4, 1);
    tells_valid(&udp4, 1);
    tells_valid(&tcp6, 1);
    tells_valid(&unknown_type, 1);
    tells_valid(&fragment4_middle, 1);
    tells_valid(&udp4_left_out, 1);
    tells_valid(&udp4_left_to_device, 1);
    tells_valid(&udp4_bad_ip, 0);
    tells_valid(&udp4_wrong, 0);
    tells_valid(&tcp4_wrong, 0);
    tells_valid(&udp6_zero, 0);
    tells_valid(&udp4_port_zero, 0);
    tells_valid(&ipv4_too_short, 0);
    tells_valid(&ethernet_too_short, 0);
}

static void rejects_network_headers(void)
{
    READS(ethernet_too_short, no_header(13));
    READS(arp_too_short, rejected(ethernet(0x0806, 27), LK_TOO_SHORT));
    READS(arp_other, rejected(ethernet(0x0806, 28), LK_OTHER_ARP));
    READS(ipv4_too_short, rejected(ethernet(0x0800, 19), LK_TOO_SHORT));
    READS(ipv4_bad_version, rejected(ethernet(0x0800, 31), LK_BAD_VERSION));
    READS(ipv4_bad_length, rejected(ethernet(0x0800, 31), LK_BAD_LENGTH));
    READS(ipv4_less_than_header, rejected(ethernet(0x0800, 31), LK_BAD_LENGTH));
    READS(ipv4_past_end, rejected(ethernet(0x0800, 31), LK_BAD_LENGTH));
    READS(ipv6_too_short, rejected(ethernet(0x86dd, 39), LK_TOO_SHORT));
    READS(ipv6_bad_version, rejected(ethernet(0x86dd, 51), LK_BAD_VERSION));
    READS(ipv6_past_end, rejected(ethernet(0x86dd, 51), LK_BAD_LENGTH));
}

static void rejects_udp_headers(void)
{
    struct lk_frame frame = ipv4(17, 20, 11);
    READS(udp4_too_short, rejected(ipv4(17, 20, 7), LK_TOO_SHORT));
    READS(udp4_bad_length, rejected(udp_header(frame, LK_CHECKSUM_NOT_READ), LK_BAD_LENGTH));
    READS(udp4_past_end, rejected(udp_header(frame, LK_CHECKSUM_NOT_READ), LK_BAD_LENGTH));
    READS(udp4_port_zero, rejected(with_ports(udp_header(frame, LK_CHECKSUM_VALID), 0x3132, 0), LK_PORT_ZERO));
    READS(udp4_no_source, with_ports(udp(frame, LK_CHECKSUM_VALID), 0, 0x4142));
    frame = ipv6(17, 11);
    READS(udp6_port_zero, rejected(with_ports(udp_header(frame, LK_CHECKSUM_INVALID), 0x3132, 0), LK_PORT_ZERO));
}

static void rejects_tcp_headers(void)
{
    struct lk_frame frame = ipv4(6, 20, 23);
    struct lk_frame header = tcp_header(frame, 20, 0x10, LK_CHECKSUM_VALID);
    READS(tcp4_too_short, rejected(ipv4(6, 20, 19), LK_TOO_SHORT));
    READS(tcp4_bad_length, rejected(tcp_header(frame, 16, 0x10, LK_CHECKSUM_VALID), LK_BAD_LENGTH));
    READS(tcp4_past_end, rejected(tcp_header(frame, 24, 0x10, LK_CHECKSUM_VALID), LK_BAD_LENGTH));
    READS(tcp4_no_source, rejected(with_ports(header, 0, 0x4344), LK_PORT_ZERO));
    READS(tcp4_port_zero, rejected(with_ports(header, 0x3334, 0), LK_PORT_ZERO));
    READS(tcp4_syn_fin, rejected(tcp_header(frame, 20, 0x03, LK_CHECKSUM_VALID), LK_BAD_FLAGS));
    READS(tcp4_fin_rst, rejected(tcp_header(frame, 20, 0x05, LK_CHECKSUM_VALID), LK_BAD_FLAGS));
    READS(tcp6_syn_rst, rejected(tcp_header(ipv6(6, 23), 20, 0x16, LK_CHECKSUM_VALID), LK_BAD_FLAGS));
    frame = ipv4(6, 20, 27);
    READS(tcp4_bad_options, rejected(tcp_header(frame, 24, 0x10, LK_CHECKSUM_VALID), LK_BAD_OPTIONS));
}

/* Each flag by itself. The checksum is that of the segment with another flag. */
static void reads_each_flag(void)
{
    for (unsigned flag = 1; flag < 0x100; flag *= 2) {
        struct octets frame = changed(tcp4_wrong, 47, (uint8_t)flag);
        READS(frame, tcp(ipv4(6, 20, 0), 20, (uint8_t)flag, LK_CHECKSUM_INVALID));
    }
}

/* ---- each verdict, for each transport over each version ---- */

/* The checksum of UDP and TCP does not cover the padding. The urgent pointer makes a checksum of 0 right. */
static const struct {
    const struct octets *frame;
    struct change changes[CHANGES];
    uint8_t ipv4, transport;
} checksums[] = {
    {&arp4, {{0, 0}}, LK_CHECKSUM_NOT_READ, LK_CHECKSUM_NOT_READ},                    /* ARP */
    {&other4, {{0, 0}}, LK_CHECKSUM_VALID, LK_CHECKSUM_NOT_READ},                        /* IPv4 */
    {&other4, {{25, 0x3c}}, LK_CHECKSUM_INVALID, LK_CHECKSUM_NOT_READ},                    /* IPv4: one more */
    {&other4, {{24, 0}, {25, 0}}, LK_CHECKSUM_INVALID, LK_CHECKSUM_NOT_READ},              /* IPv4: 0 */
    {&fragment4_first, {{0, 0}}, LK_CHECKSUM_VALID, LK_CHECKSUM_NOT_READ},               /* IPv4: a fragment */
    {&udp4, {{35, 0}}, LK_CHECKSUM_INVALID, LK_CHECKSUM_VALID},                               /* IPv4: a bit of an option */
    {&other6, {{0, 0}}, LK_CHECKSUM_NOT_READ, LK_CHECKSUM_NOT_READ},                  /* IPv6 */
    {&udp4, {{0, 0}}, LK_CHECKSUM_VALID, LK_CHECKSUM_VALID},                                /* UDP */
    {&udp4, {{49, 0x55}}, LK_CHECKSUM_VALID, LK_CHECKSUM_VALID},                            /* UDP: padding */
    {&udp4, {{48, 0x55}}, LK_CHECKSUM_VALID, LK_CHECKSUM_INVALID},                            /* UDP: payload */
    {&udp4, {{29, 0x1c}}, LK_CHECKSUM_INVALID, LK_CHECKSUM_INVALID},                            /* UDP: an address */
    {&udp4_wrong, {{40, 0}, {41, 0}}, LK_CHECKSUM_VALID, LK_CHECKSUM_OMITTED},             /* UDP: 0 */
    {&udp4_wrong, {{40, 0x8c}, {41, 0xac}}, LK_CHECKSUM_VALID, LK_CHECKSUM_PARTIAL}, /* UDP: the pseudo-header */
    {&udp4_wrong, {{39, 7}}, LK_CHECKSUM_VALID, LK_CHECKSUM_NOT_READ},                   /* UDP: length 7 */
    {&udp6, {{0, 0}}, LK_CHECKSUM_NOT_READ, LK_CHECKSUM_VALID},                          /* UDP over IPv6 */
    {&udp6, {{64, 0x55}}, LK_CHECKSUM_NOT_READ, LK_CHECKSUM_INVALID},                      /* UDP over IPv6: payload */
    {&udp6, {{60, 0}, {61, 0}}, LK_CHECKSUM_NOT_READ, LK_CHECKSUM_INVALID},                /* UDP over IPv6: 0 */
    {&udp6, {{60, 0xf3}, {61, 0x1e}}, LK_CHECKSUM_NOT_READ, LK_CHECKSUM_PARTIAL}, /* UDP over IPv6: the pseudo-header */
    {&udp6, {{59, 7}}, LK_CHECKSUM_NOT_READ, LK_CHECKSUM_NOT_READ},                   /* UDP over IPv6: length 7 */
    {&tcp4, {{0, 0}}, LK_CHECKSUM_VALID, LK_CHECKSUM_VALID},                                /* TCP */
    {&tcp4, {{61, 0x55}}, LK_CHECKSUM_VALID, LK_CHECKSUM_VALID},                            /* TCP: padding */
    {&tcp4, {{60, 0x55}}, LK_CHECKSUM_VALID, LK_CHECKSUM_INVALID},                            /* TCP: payload */
    {&tcp4, {{50, 0}, {51, 0}}, LK_CHECKSUM_VALID, LK_CHECKSUM_INVALID},                      /* TCP: 0 */
    {&tcp4_wrong, {{50, 0}, {51, 0}, {52, 0x08}, {53, 0x11}}, LK_CHECKSUM_VALID, LK_CHECKSUM_VALID}, /* TCP: a right 0 */
    {&tcp4_wrong, {{50, 0x8c}, {51, 0xad}}, LK_CHECKSUM_VALID, LK_CHECKSUM_PARTIAL},          /* TCP: the pseudo-header */
    {&tcp6, {{0, 0}}, LK_CHECKSUM_NOT_READ, LK_CHECKSUM_VALID},                                   /* TCP over IPv6 */
    {&tcp6, {{84, 0x55}}, LK_CHECKSUM_NOT_READ, LK_CHECKSUM_INVALID},                               /* TCP over IPv6: payload */
    {&tcp6, {{70, 0}, {71, 0}}, LK_CHECKSUM_NOT_READ, LK_CHECKSUM_INVALID},                         /* TCP over IPv6: 0 */
    {&tcp6, {{70, 0}, {71, 0}, {72, 0x76}, {73, 0x70}}, LK_CHECKSUM_NOT_READ, LK_CHECKSUM_VALID}, /* TCP over IPv6: a right 0 */
    {&tcp6, {{70, 0xf3}, {71, 0x27}}, LK_CHECKSUM_NOT_READ, LK_CHECKSUM_PARTIAL}, /* TCP over IPv6: the pseudo-header */
};

static void reads_verdicts(void)
{
    for (size_t i = 0; i < sizeof checksums / sizeof checksums[0]; i++) {
        struct octets frame = cut(checksums[i].frame, checksums[i].frame->len, checksums[i].changes);
        struct lk_frame found;
        both_read_frame(frame.at, frame.len, &found);
        CHECK_ROW(i, found.ipv4_checksum == checksums[i].ipv4 && found.transport_checksum == checksums[i].transport);
    }
}

/* ---- two faults at once: the first reason of the list in include/ip_wire.h that applies ---- */

/* IPv4 and IPv6 begin at byte 14, the transport header after them at byte 34 or 54. */
static const struct {
    const struct octets *frame;
    size_t len;
    struct change changes[CHANGES];
    uint8_t reason;
} faults[] = {
    {&arp_other, 41, {{0, 0}}, LK_TOO_SHORT},                    /* ARP: too short, other */
    {&udp4_wrong, 33, {{14, 0x65}}, LK_TOO_SHORT},               /* IPv4: too short, version */
    {&udp4_wrong, 33, {{14, 0x44}}, LK_TOO_SHORT},               /* IPv4: too short, length */
    {&udp4_wrong, 45, {{14, 0x64}}, LK_BAD_VERSION},             /* IPv4: version, header length */
    {&udp4_wrong, 45, {{14, 0x65}, {17, 0x20}}, LK_BAD_VERSION}, /* IPv4: version, total length */
    {&udp6, 53, {{14, 0x4b}}, LK_TOO_SHORT},                     /* IPv6: too short, version */
    {&udp6, 53, {{18, 0xff}}, LK_TOO_SHORT},                     /* IPv6: too short, length */
    {&udp6_zero, 65, {{14, 0x4b}, {19, 0x0c}}, LK_BAD_VERSION},  /* IPv6: version, length */
    {&udp4_too_short, 41, {{39, 0x07}}, LK_TOO_SHORT},           /* UDP: too short, length */
    {&udp4_too_short, 41, {{36, 0}, {37, 0}}, LK_TOO_SHORT},     /* UDP: too short, port */
    {&udp4_port_zero, 45, {{39, 0x07}}, LK_BAD_LENGTH},          /* UDP: length less than 8, port */
    {&udp4_port_zero, 45, {{39, 0x0c}}, LK_BAD_LENGTH},          /* UDP: length past the end, port */
    {&udp6_port_zero, 65, {{59, 0x0c}}, LK_BAD_LENGTH},          /* UDP over IPv6: length, port */
    {&tcp4_too_short, 53, {{46, 0x40}}, LK_TOO_SHORT},           /* TCP: too short, length */
    {&tcp4_too_short, 53, {{34, 0}, {35, 0}}, LK_TOO_SHORT},     /* TCP: too short, port */
    {&tcp4_port_zero, 57, {{46, 0x40}}, LK_BAD_LENGTH},          /* TCP: length less than 20, port */
    {&tcp4_syn_fin, 57, {{46, 0x60}}, LK_BAD_LENGTH},            /* TCP: length past the end, flags */
    {&tcp4_bad_options, 61, {{46, 0x80}}, LK_BAD_LENGTH},        /* TCP: length past the end, options */
    {&tcp4_syn_fin, 57, {{34, 0}, {35, 0}}, LK_PORT_ZERO},       /* TCP: source port, flags */
    {&tcp4_fin_rst, 57, {{36, 0}, {37, 0}}, LK_PORT_ZERO},       /* TCP: destination port, flags */
    {&tcp4_bad_options, 61, {{34, 0}, {35, 0}}, LK_PORT_ZERO},   /* TCP: port, options */
    {&tcp4_bad_options, 61, {{47, 0x06}}, LK_BAD_FLAGS},         /* TCP: flags, options */
    /* of two headers the outer one */
    {&udp4_port_zero, 45, {{17, 0x20}}, LK_BAD_LENGTH},   /* IPv4: length, UDP: port */
    {&udp4_too_short, 41, {{17, 0x1c}}, LK_BAD_LENGTH},   /* IPv4: length, UDP: too short */
    {&tcp4_bad_length, 57, {{14, 0x65}}, LK_BAD_VERSION}, /* IPv4: version, TCP: length */
    {&tcp6_syn_rst, 77, {{19, 0x18}}, LK_BAD_LENGTH},     /* IPv6: length, TCP: flags */
};

static void reads_first_reasons(void)
{
    for (size_t i = 0; i < sizeof faults / sizeof faults[0]; i++) {
        struct octets frame = cut(faults[i].frame, faults[i].len, faults[i].changes);
        struct lk_frame found;
        CHECK_ROW(i, both_read_frame(frame.at, frame.len, &found) == faults[i].reason);
    }
}

/* ---- packets whose first four bits are no version, or one whose header does not fit ---- */

static const struct {
    const char *hex; /* the front of a packet, and zeros after it */
    size_t len;
    uint8_t reason;
} packets[] = {
    {"", 0, LK_TOO_SHORT},
    {"45", 19, LK_TOO_SHORT},
    {"45", 20, LK_BAD_LENGTH},
    {"55", 1, LK_BAD_VERSION},
    {"55", 40, LK_BAD_VERSION},
    {"600000000001", 39, LK_TOO_SHORT},
    {"600000000001", 40, LK_BAD_LENGTH},
};

static void rejects_packets(void)
{
    for (size_t i = 0; i < sizeof packets / sizeof packets[0]; i++) {
        struct octets packet = octets(packets[i].hex);
        struct lk_frame found, expected = no_header(packets[i].len);
        memset(&found, OLD, sizeof found);
        expected.reason = packets[i].reason;
        CHECK_ROW(i, both_read_packet(packet.at, packets[i].len, &found) == packets[i].reason);
        same_frame(&expected, &found);
    }
}

/* ---- the first bytes of packets: lengths that are wrong whatever follows (RFC 791, section 3.1) ---- */

static const struct {
    const char *hex; /* the front of a packet */
    size_t captured, len;
    uint8_t reason;
} cut_packets[] = {
    {"", 0, 0, LK_TOO_SHORT},
    {"", 0, 1, LK_HEADER_CUT}, /* it has no version yet */
    {"", 0, 20, LK_HEADER_CUT},
    {"45000064", 20, 100, LK_READ},
    {"44000064", 24, 100, LK_BAD_LENGTH},     /* a header of 16 bytes */
    {"4f000064", 24, 100, LK_HEADER_CUT},     /* one of 60 bytes */
    {"4f000028", 24, 100, LK_BAD_LENGTH},     /* the same in a packet of 40 bytes */
    {"45000064", 24, 99, LK_BAD_LENGTH},      /* a packet of 100 bytes in a frame with 99 */
    {"6000000000143b", 40, 60, LK_READ},      /* 20 bytes of payload */
    {"600000000014", 40, 59, LK_BAD_LENGTH},
};

static void rejects_cut_packets(void)
{
    for (size_t i = 0; i < sizeof cut_packets / sizeof cut_packets[0]; i++) {
        struct octets packet = octets(cut_packets[i].hex);
        struct lk_frame found;
        int reason = both_read_captured_packet(packet.at, cut_packets[i].captured, cut_packets[i].len, &found);
        CHECK_ROW(i, reason == cut_packets[i].reason);
        CHECK_ROW(i, (found.network == LK_NO_NETWORK) == (reason != LK_READ));
    }
}

/* ---- the fragment header of IPv6, 8 bytes (RFC 8200, section 4.5) ---- */

static void reads_fragment_headers(void)
{
    struct octets whole = changed(fragment6_middle, 19, 8), cut_off = changed(fragment6_middle, 19, 7);
    struct octets other = changed(whole, 20, 43);
    struct lk_frame expected = fragment6(0x918, 1);
    expected.payload_len = 8;
    READS(whole, expected);
    READS(cut_off, rejected(ipv6(44, 7), LK_TOO_SHORT));
    READS(other, rejected(ipv6(43, 8), LK_TOO_SHORT)); /* a routing header of 8 * 171 bytes */
}

/* A whole packet, and 3 bytes of UDP. */
static void reads_only_fragment(void)
{
    struct lk_frame expected = fragment6(0, 0);
    expected.protocol = 17;
    expected.payload_offset += 8;
    expected.payload_len = 3;
    READS(only_fragment6, rejected(expected, LK_TOO_SHORT));
}

void worked_read(void)
{
    reads_frames();
    reads_fragments();
    reads_checksums();
    tells_valid_frames();
    rejects_network_headers();
    rejects_udp_headers();
    rejects_tcp_headers();
    reads_each_flag();
    reads_verdicts();
    reads_first_reasons();
    rejects_packets();
    rejects_cut_packets();
    reads_fragment_headers();
    reads_only_fragment();
}
