/* Worked calls that read packets by their link type. The first two rows are captures of tcpdump on the loopback
 * device. The other headers are written by hand from www.tcpdump.org/linktypes.html. tcpdump finds the same packets in
 * them, but for these: it skips a third tag, takes a family of LOOP in either order, does not know family 10, and reads
 * netlink and frame relay as IPv4. */
#include <stdio.h>
#include "worked.h"

/* UDP from port 54731 to 5353 with the payload "ping". The device was to compute the checksum. */
#define IPV4 "4500002055fd40004011e6cd7f0000017f000001d5cb14e9000cfe1f70696e67"
#define IPV6 "60000000000c114020010db800000000000000000000000120010db8000000000000000000000002d5cb14e9000c87f570696e67"
#define ADDRESSES "020000000002020000000001"

enum { UDP_LEN = 12, RAW = 101, LOOP = 108, SLL = 113, SLL2 = 276 };

/* Bytes of a link type, of which `captured` are there; 0: all. Then `offset` to `tags` are the header that is found. */
static const struct row {
    uint32_t link_type;
    const char *octets;
    int reason;
    size_t captured, offset;
    uint16_t type;
    uint8_t tag_count;
    uint16_t tags[2];
} rows[] = {
    {SLL, "00000304000600000000000000000800" IPV4, LK_READ, 0, 16, 0x0800, 0, {0}},
    {SLL2, "0800000000000001030400060000000000000000" IPV4, LK_READ, 0, 20, 0x0800, 0, {0}},
    /* an address family: of any system, in either byte order */
    {0, "02000000" IPV4, LK_READ, 0, 4, 0x0800, 0, {0}},
    {0, "00000002" IPV4, LK_READ, 0, 4, 0x0800, 0, {0}},
    {0, "0a000000" IPV6, LK_READ, 0, 4, 0x86dd, 0, {0}},
    {0, "18000000" IPV6, LK_READ, 0, 4, 0x86dd, 0, {0}},
    {0, "0000001c" IPV6, LK_READ, 0, 4, 0x86dd, 0, {0}},
    {0, "1c000000" IPV6, LK_READ, 0, 4, 0x86dd, 0, {0}},
    {0, "1e000000" IPV6, LK_READ, 0, 4, 0x86dd, 0, {0}},
    {0, "07000000" IPV4, LK_READ, 0, 4, 0, 0, {0}},
    {0, "00020000" IPV4, LK_READ, 0, 4, 0, 0, {0}},
    {0, "02000000", LK_TOO_SHORT, 3, 0, 0, 0, {0}},
    {LOOP, "00000002" IPV4, LK_READ, 0, 4, 0x0800, 0, {0}},
    {LOOP, "00000018" IPV6, LK_READ, 0, 4, 0x86dd, 0, {0}},
    {LOOP, "02000000" IPV4, LK_READ, 0, 4, 0, 0, {0}},
    /* no header */
    {RAW, IPV4, LK_READ, 0, 0, 0x0800, 0, {0}},
    {RAW, IPV6, LK_READ, 0, 0, 0x86dd, 0, {0}},
    {12, IPV4, LK_READ, 0, 0, 0x0800, 0, {0}},
    {14, IPV6, LK_READ, 0, 0, 0x86dd, 0, {0}},
    {RAW, "55000020", LK_BAD_VERSION, 0, 0, 0, 0, {0}},
    {RAW, "", LK_TOO_SHORT, 0, 0, 0, 0, {0}},
    {228, IPV4, LK_READ, 0, 0, 0x0800, 0, {0}},
    {229, IPV6, LK_READ, 0, 0, 0x86dd, 0, {0}},
    {228, IPV6, LK_BAD_VERSION, 0, 0, 0, 0, {0}},
    {229, IPV4, LK_BAD_VERSION, 0, 0, 0, 0, {0}},
    {228, IPV6, LK_BAD_VERSION, 1, 0, 0, 0, {0}},
    {228, "", LK_TOO_SHORT, 0, 0, 0, 0, {0}},
    {229, "", LK_TOO_SHORT, 0, 0, 0, 0, {0}},
    /* tags */
    {1, ADDRESSES "0800" IPV4, LK_READ, 0, 14, 0x0800, 0, {0}},
    {1, ADDRESSES "810000640800" IPV4, LK_READ, 0, 18, 0x0800, 1, {100}},
    {1, ADDRESSES "88a8e0c88100006486dd" IPV6, LK_READ, 0, 22, 0x86dd, 2, {0xe0c8, 100}},
    {1, ADDRESSES "88a800c8810000640800" IPV4, LK_READ, 0, 22, 0x0800, 2, {200, 100}},
    {1, ADDRESSES "91000001810000020800" IPV4, LK_READ, 0, 22, 0x0800, 2, {1, 2}},
    {1, ADDRESSES "8100000181000002810000030800" IPV4, LK_READ, 0, 22, 0x8100, 2, {1, 2}},
    {1, ADDRESSES "810000640800" IPV4, LK_TOO_SHORT, 17, 0, 0, 0, {0}},
    {1, ADDRESSES "88a800c8810000640800" IPV4, LK_TOO_SHORT, 21, 0, 0, 0, {0}},
    {1, ADDRESSES "0800", LK_TOO_SHORT, 13, 0, 0, 0, {0}},
    {1, ADDRESSES "0026424203000000", LK_READ, 0, 14, 0x0026, 0, {0}},
    {SLL, "00000001000602000000000100008100" "00640800" IPV4, LK_READ, 0, 20, 0x0800, 1, {100}},
    {SLL2, "8100000000000001000100060200000000010000" "00640800" IPV4, LK_READ, 0, 24, 0x0800, 1, {100}},
    /* cooked headers without an EtherType: netlink, radiotap, frame relay; but GRE has one */
    {SLL, "00000338000000000000000000000800" IPV4, LK_READ, 0, 16, 0, 0, {0}},
    {SLL, "00000323000000000000000000000800" IPV4, LK_READ, 0, 16, 0, 0, {0}},
    {SLL2, "0800000000000001030200000000000000000000" IPV4, LK_READ, 0, 20, 0, 0, {0}},
    {SLL2, "0800000000000001030a00000000000000000000" IPV4, LK_READ, 0, 20, 0x0800, 0, {0}},
    {SLL2, "0800000000000001030400060000000000000000" IPV4, LK_TOO_SHORT, 19, 0, 0, 0, {0}},
    {105, ADDRESSES "0800" IPV4, LK_UNKNOWN_LINK, 0, 0, 0, 0, {0}},
    {UINT32_MAX, IPV4, LK_UNKNOWN_LINK, 0, 0, 0, 0, {0}},
};

static int finds_header(const struct row *row, const struct octets *octets, size_t captured)
{
    struct lk_link link, old;
    memset(&link, OLD, sizeof link);
    old = link;
    if (both_read_link(row->link_type, octets->at, captured, &link) != row->reason)
        return 0;
    if (row->reason != LK_READ)
        return memcmp(&link, &old, sizeof link) == 0;
    return link.offset == row->offset && link.type == row->type && link.tag_count == row->tag_count &&
           memcmp(link.tags, row->tags, sizeof row->tags) == 0;
}

/* The UDP packet after the header. */
static int finds_udp(const struct row *row, const struct lk_frame *frame)
{
    size_t header_len = row->type == 0x0800 ? 20 : 40;
    return frame->network == (row->type == 0x0800 ? LK_IPV4 : LK_IPV6) && frame->network_offset == row->offset &&
           frame->transport == LK_UDP && frame->transport_offset == row->offset + header_len &&
           frame->payload_offset == row->offset + header_len + 8 && frame->payload_len == UDP_LEN - 8 &&
           frame->src.port == 54731 && frame->dst.port == 5353;
}

static int finds_packet(const struct row *row, const struct octets *octets, size_t captured)
{
    static const uint8_t src[6] = {2, 0, 0, 0, 0, 1}, none[6] = {0};
    int is_cut = row->reason == LK_TOO_SHORT && captured < octets->len;
    struct lk_frame frame;
    memset(&frame, OLD, sizeof frame);
    if (both_read_linktype(row->link_type, octets->at, captured, octets->len, &frame) !=
        (is_cut ? LK_HEADER_CUT : row->reason))
        return 0;
    if (row->reason != LK_READ)
        return frame.payload_offset == 0 && frame.payload_len == octets->len && frame.network == LK_NO_NETWORK;
    if (frame.ethernet.type != row->type || memcmp(frame.ethernet.src, row->link_type == 1 ? src : none, 6) != 0)
        return 0;
    if (row->type == 0x0800 || row->type == 0x86dd)
        return finds_udp(row, &frame);
    return frame.network == LK_NO_NETWORK && frame.payload_offset == row->offset &&
           frame.payload_len == octets->len - row->offset;
}

/* ARP after a tag; a header that the packet is too short for; a TCP header that was cut. */
static void reads_other_packets(void)
{
    struct octets tagged = octets("ffffffffffff02000000000181000064"
                                  "08060001080006040001020000000001c0000201000000000000c0000202");
    struct lk_frame frame;
    CHECK(both_read_linktype(1, tagged.at, tagged.len, tagged.len, &frame) == LK_READ && frame.network == LK_ARP);
    CHECK(frame.network_offset == 18 && frame.arp.operation == 1 && frame.payload_offset == 46);
    CHECK(both_read_linktype(1, tagged.at, 10, 12, &frame) == LK_TOO_SHORT);
    CHECK(both_read_linktype(1, tagged.at, 16, 17, &frame) == LK_TOO_SHORT);
    CHECK(both_read_linktype(1, tagged.at, 20, tagged.len, &frame) == LK_HEADER_CUT && frame.payload_offset == 18);
    CHECK(both_read_linktype(RAW, tagged.at, 0, 9, &frame) == LK_HEADER_CUT);
    CHECK(both_read_linktype(RAW, syn.at + 14, 40, syn.len - 14, &frame) == LK_HEADER_CUT && frame.rejected == LK_TCP);
    CHECK(both_read_linktype(228, tagged.at, tagged.len, tagged.len, &frame) == LK_BAD_VERSION);
}

/* Steps through the headers of an IPv6 packet, and writes down each: its number, place and length, and what follows.
 * Returns whether one is malformed. */
static int steps(const struct octets *packet, size_t len, char *text)
{
    struct lk_ipv6_header header = {0, 0, 0, 0, 0};
    *text = 0;
    while (both_next_ipv6_header(packet->at, len, &header))
        text += sprintf(text, "%d@%d+%d:%d ", header.protocol, (int)header.offset, header.len, header.next);
    return header.is_malformed;
}

/* By hand, from RFC 8200, sections 4.3 to 4.6, and RFC 6564 for a length of more than one unit. Scapy packed the first
 * authentication header. */
static void steps_through_ipv6_headers(void)
{
#define ENDS "20010db800000000000000000000000120010db8000000000000000000000002"
    static const struct {
        const char *octets, *headers;
        int is_malformed;
        size_t captured;
    } packets[] = {
        {IPV6, "41@0+40:17 ", 0, 0},
        {"6000000000000040" ENDS, "41@0+40:0 ", 1, 0},
        {"6000000000083b40" ENDS "0000000000000000", "41@0+40:59 ", 0, 0},
        {"6000000000100040" ENDS "1100050200000100" "d5cb14e900080000", "41@0+40:0 0@40+8:17 ", 0, 0},
        {"6000000000280040" ENDS "2b00050200000100" "3c010000" "000000000000000000000000" "2c00010400000000"
         "11000001000000ff", "41@0+40:0 0@40+8:43 43@48+16:60 60@64+8:44 44@72+8:17 ", 0, 0},
        {"6000000000183c40" ENDS "0000010400000000" "1100050200000100" "d5cb14e900080000",
         "41@0+40:60 60@40+8:0 0@48+8:17 ", 0, 0},
        {"6000000000102c40" ENDS "1100000800000001" "d5cb14e900080000", "41@0+40:44 44@40+8:59 ", 0, 0},
        {"6000000000103c40" ENDS "1101000000000000" "0000000000000000", "41@0+40:60 60@40+16:17 ", 0, 0},
        {"6000000000103c40" ENDS "1101000000000000" "0000000000000000", "41@0+40:60 ", 1, 55},
        {"6000000000103c40" ENDS "1102000000000000" "0000000000000000" "0000000000000000", "41@0+40:60 ", 1, 0},
        {"6000000000073c40" ENDS "1100000000000000", "41@0+40:60 ", 1, 0},
        {"6000000000203340" ENDS "3a0400000000010100000007aaaaaaaaaaaaaaaaaaaaaaaa" "80002d1c12340001",
         "41@0+40:51 51@40+24:58 ", 0, 0},
        {"6000000000103340" ENDS "1101000000000000" "00000000d5cb14e9", "41@0+40:51 51@40+12:17 ", 0, 0},
        {"6000000000083240" ENDS "1100000000000000", "41@0+40:50 ", 0, 0},
        {"4000000000103c40" ENDS "1100000000000000" "0000000000000000", "", 1, 0},
        {IPV6, "", 1, 39},
    };
    for (size_t i = 0; i < sizeof packets / sizeof *packets; i++) {
        struct octets packet = octets(packets[i].octets);
        char text[256];
        int result = steps(&packet, packets[i].captured != 0 ? packets[i].captured : packet.len, text);
        CHECK_ROW(i, result == packets[i].is_malformed && strcmp(text, packets[i].headers) == 0);
    }
}

void worked_link(void)
{
    steps_through_ipv6_headers();
    for (size_t i = 0; i < sizeof rows / sizeof *rows; i++) {
        struct octets found = octets(rows[i].octets);
        size_t captured = rows[i].captured != 0 ? rows[i].captured : found.len;
        CHECK_ROW(i, finds_header(&rows[i], &found, captured));
        CHECK_ROW(i, finds_packet(&rows[i], &found, captured));
    }
    reads_other_packets();
}
