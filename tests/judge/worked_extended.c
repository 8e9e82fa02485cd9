/* Worked calls that read frames with IPv6 extension headers. Scapy packed them, and computed the checksums: of the frame
 * with segments left with the last address of the route. tshark finds the same ports, types and identifications. */
#include "worked.h"

#define BEFORE "02a1a2a3a4a502b1b2b3b4b586dd6becdef1"
#define ADDRS "3e20010db800000000000000000000000120010db8000000000000000000000002"
#define UDP "31324142000b4cfbf1f2f3"
#define TCP "3334434451525354e1e2e3e45018555639240000f1f2f3"
#define ECHO "80002d1c12340001f1f2f3"

/* A frame of which `captured` bytes are there; 0: all. Then what is stored: the offsets count from the frame. */
static const struct row {
    const char *octets;
    size_t captured;
    uint8_t reason, ip_protocol, protocol, transport, checksum, is_fragment;
    uint32_t ident;
    uint16_t fragment_offset;
    size_t transport_offset, payload_offset, payload_len;
} rows[] = {
    {BEFORE "001300" ADDRS "1100050200000100" UDP, 0, LK_READ, 0, 17, LK_UDP, LK_CHECKSUM_VALID, 0, 0, 0, 62, 70, 3},
    /* all of them, in an order that RFC 8200 recommends but for the last */
    {BEFORE "007700" ADDRS "3c00050200000100" "2b01010c000000000000000000000000"
            "330204000000000020010db8000000000000000000000003" "2c0400000000010100000007aaaaaaaaaaaaaaaaaaaaaaaa"
            "3c00000081828384" "0601010c000000000000000000000000" TCP,
     0, LK_READ, 0, 6, LK_TCP, LK_CHECKSUM_VALID, 0, 0x81828384, 0, 150, 170, 3},
    {BEFORE "002333" ADDRS "3a0400000000010100000007aaaaaaaaaaaaaaaaaaaaaaaa" ECHO,
     0, LK_READ, 51, 58, LK_ICMP, LK_CHECKSUM_VALID, 0, 0, 0, 78, 86, 3},
    {BEFORE "00132c" ADDRS "1100000081828384" UDP, 0, LK_READ, 44, 17, LK_UDP, LK_CHECKSUM_VALID, 0, 0x81828384, 0, 62, 70, 3},
    /* another checksum */
    {BEFORE "00132c" ADDRS "1100000081828384" "31324142000b4cfcf1f2f3",
     0, LK_READ, 44, 17, LK_UDP, LK_CHECKSUM_INVALID, 0, 0x81828384, 0, 62, 70, 3},
    /* fragments: a later one, and the first */
    {BEFORE "00283c" ADDRS "2c01010c0000000000000000000000003b000919818283840000000000000000" "0000000000000000",
     0, LK_READ, 60, 44, LK_NO_TRANSPORT, 0, 1, 0x81828384, 0x918, 0, 70, 24},
    {BEFORE "001b00" ADDRS "2c00050200000100" "1100000181828384" UDP,
     0, LK_READ, 0, 44, LK_NO_TRANSPORT, 0, 1, 0x81828384, 0, 0, 62, 19},
    /* rejected: segments left, and hop-by-hop options after destination options */
    {BEFORE "00232b" ADDRS "110204010000000020010db8000000000000000000000003" "31324142000b4cfaf1f2f3",
     0, LK_HOPS_LEFT, 43, 43, LK_NO_TRANSPORT, 0, 0, 0, 0, 0, 54, 35},
    {BEFORE "00233c" ADDRS "0001010c000000000000000000000000" "1100050200000100" UDP,
     0, LK_BAD_ORDER, 60, 0, LK_NO_TRANSPORT, 0, 0, 0, 0, 0, 70, 19},
    /* no next header, and an encrypted payload */
    {BEFORE "000b3c" ADDRS "3b00010400000000f1f2f3", 0, LK_READ, 60, 59, LK_NO_TRANSPORT, 0, 0, 0, 0, 0, 62, 3},
    {BEFORE "00143c" ADDRS "3200010400000000" "000000000000000000000000",
     0, LK_READ, 60, 50, LK_NO_TRANSPORT, 0, 0, 0, 0, 0, 62, 12},
    /* The packet ends within the second header, or within the UDP header. */
    {BEFORE "000f00" ADDRS "3c00050200000100" "11000104000000", 0, LK_TOO_SHORT, 0, 60, LK_NO_TRANSPORT, 0, 0, 0, 0, 0, 62, 7},
    {BEFORE "001000" ADDRS "3c00050200000100" "1101010400000000",
     0, LK_TOO_SHORT, 0, 60, LK_NO_TRANSPORT, 0, 0, 0, 0, 0, 62, 8},
    {BEFORE "000f00" ADDRS "1100050200000100" "31324142000b4c", 0, LK_TOO_SHORT, 0, 17, LK_NO_TRANSPORT, 0, 0, 0, 0, 0, 62, 7},
    {BEFORE "000833" ADDRS "1101000000000101", 0, LK_TOO_SHORT, 51, 51, LK_NO_TRANSPORT, 0, 0, 0, 0, 0, 54, 8},
    /* Fewer bytes were captured: of the first header, of its options, of the second, of UDP, of the payload. */
    {BEFORE "001300" ADDRS "1100050200000100" UDP, 61, LK_HEADER_CUT, 0, 0, LK_NO_TRANSPORT, 0, 0, 0, 0, 0, 54, 19},
    {BEFORE "00233c" ADDRS "0001010c000000000000000000000000" "1100050200000100" UDP,
     69, LK_HEADER_CUT, 60, 60, LK_NO_TRANSPORT, 0, 0, 0, 0, 0, 54, 35},
    {BEFORE "001b00" ADDRS "2c00050200000100" "1100000181828384" UDP,
     69, LK_HEADER_CUT, 0, 44, LK_NO_TRANSPORT, 0, 0, 0, 0, 0, 62, 19},
    {BEFORE "00132c" ADDRS "1100000081828384" UDP,
     69, LK_HEADER_CUT, 44, 17, LK_NO_TRANSPORT, 0, 0, 0x81828384, 0, 0, 62, 11},
    {BEFORE "00132c" ADDRS "1100000081828384" UDP, 72, LK_READ, 44, 17, LK_UDP, LK_CHECKSUM_CUT, 0, 0x81828384, 0, 62, 70, 3},
    /* The second header ends after the packet. All of its first 8 bytes were captured, or 7. */
    {BEFORE "001000" ADDRS "3c00050200000100" "1101010400000000",
     70, LK_TOO_SHORT, 0, 60, LK_NO_TRANSPORT, 0, 0, 0, 0, 0, 62, 8},
    {BEFORE "001000" ADDRS "3c00050200000100" "1101010400000000",
     69, LK_HEADER_CUT, 0, 60, LK_NO_TRANSPORT, 0, 0, 0, 0, 0, 62, 8},
};

static void reads_extended(size_t i, const struct octets *frame, size_t front)
{
    const struct row *row = rows + i;
    size_t captured = (row->captured ? row->captured : frame->len) - front;
    struct lk_frame found;
    int reason;
    if (front == 0)
        reason = both_read_captured(frame->at, captured, frame->len, &found);
    else
        reason = both_read_captured_packet(frame->at + front, captured, frame->len - front, &found);
    CHECK_ROW(i, reason == row->reason && found.reason == row->reason);
    CHECK_ROW(i, found.ip.protocol == row->ip_protocol && found.protocol == row->protocol);
    CHECK_ROW(i, found.transport == row->transport && found.rejected == LK_NO_TRANSPORT);
    CHECK_ROW(i, found.transport_checksum == row->checksum);
    CHECK_ROW(i, found.is_fragment == row->is_fragment && found.ip.ident == row->ident);
    CHECK_ROW(i, found.ip.fragment_offset == row->fragment_offset);
    CHECK_ROW(i, found.transport_offset == (row->transport_offset ? row->transport_offset - front : 0));
    CHECK_ROW(i, found.payload_offset == row->payload_offset - front && found.payload_len == row->payload_len);
}

/* A UDP header after extension headers prints as UDP, and another protocol by its number. */
static void prints_extended(void)
{
    struct octets udp = octets(rows[0].octets), none = octets(rows[9].octets);
    struct lk_frame frame;
    char text[LK_FRAME_TEXT];
    both_read_frame(udp.at, udp.len, &frame);
    both_print_frame(&frame, text, sizeof text);
    CHECK(strcmp(text, "IPv6 [2001:db8::1]:12594 > [2001:db8::2]:16706 UDP len=3") == 0);
    both_read_frame(none.at, none.len, &frame);
    both_print_frame(&frame, text, sizeof text);
    CHECK(strcmp(text, "IPv6 2001:db8::1 > 2001:db8::2 proto=59 len=3") == 0);
}

void worked_extended(void)
{
    for (size_t i = 0; i < sizeof rows / sizeof *rows; i++) {
        struct octets frame = octets(rows[i].octets);
        reads_extended(i, &frame, 0);
        reads_extended(i, &frame, 14);
    }
    prints_extended();
}
