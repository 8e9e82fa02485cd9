/* Worked calls that read fragments. Scapy cut the packets (`fragment`, `fragment6`); tshark finds the same ports in them. */
#include "worked.h"

#define LINK "02a1a2a3a4a502b1b2b3b4b5"
#define IPV4 "c0000201c0000202"
#define IPV6 "3e20010db800000000000000000000000120010db8000000000000000000000002"
#define UDP "3132414200304039909192939495969798999a9b9c9d9e9f"
#define TCP "3334434451525354e1e2e3e4501855562c87000090919293"
#define TCP6 "3334434451525354e1e2e3e4501855565516000090919293"
#define LATER "a0a1a2a3a4a5a6a7a8a9aaabacadaeafb0b1b2b3b4b5b6b7"
#define UDP_PORTS 12594, 16706
#define TCP_PORTS 13108, 17220

/* A frame of which `captured` bytes are there; 0: all. Then what is stored, and its line. */
static const struct row {
    const char *octets;
    size_t captured;
    uint16_t src_port, dst_port;
    size_t payload_offset, payload_len;
    const char *line;
} rows[] = {
    {LINK "08004500002c616220003d11785b" IPV4 UDP, 0, UDP_PORTS, 34, 24, "proto=17 fragment=0+ len=24"},
    {LINK "08004500002c616200033d119858" IPV4 LATER, 0, 0, 0, 34, 24, "proto=17 fragment=24 len=24"},
    {LINK "08004500002c616220003d067866" IPV4 TCP, 0, TCP_PORTS, 34, 24, "proto=6 fragment=0+ len=24"},
    {LINK "08004500002c616220033d067863" IPV4 LATER, 0, 0, 0, 34, 24, "proto=6 fragment=24+ len=24"},
    /* another protocol, and IPv4 options */
    {LINK "08004500002c616220003d01786b" IPV4 "08002f2000010002909192939495969798999a9b9c9d9e9f",
     0, 0, 0, 34, 24, "proto=1 fragment=0+ len=24"},
    {LINK "080046000030616220003d11e352" IPV4 "94040000" UDP, 0, UDP_PORTS, 38, 24, "proto=17 fragment=0+ len=24"},
    /* The fragment has fewer bytes than a header: both ports, or less. */
    {LINK "080045000018616220003d11786f" IPV4 "31324142", 0, UDP_PORTS, 34, 4, "proto=17 fragment=0+ len=4"},
    {LINK "080045000017616220003d117870" IPV4 "313241", 0, 0, 0, 34, 3, "proto=17 fragment=0+ len=3"},
    /* Fewer bytes were captured: both ports, one, none. */
    {LINK "08004500002c616220003d067866" IPV4 TCP, 38, TCP_PORTS, 34, 24, "proto=6 fragment=0+ len=24"},
    {LINK "08004500002c616220003d067866" IPV4 TCP, 37, 0, 0, 34, 24, "proto=6 fragment=0+ len=24"},
    {LINK "08004500002c616220003d067866" IPV4 TCP, 34, 0, 0, 34, 24, "proto=6 fragment=0+ len=24"},
    {LINK "86dd6000000000202c" IPV6 "1100000181828384" UDP, 0, UDP_PORTS, 54, 32, "proto=44 fragment=0+ len=32"},
    {LINK "86dd6000000000202c" IPV6 "1100001881828384" LATER, 0, 0, 0, 54, 32, "proto=44 fragment=24 len=32"},
    {LINK "86dd6000000000202c" IPV6 "0600000181828384" TCP6, 0, TCP_PORTS, 54, 32, "proto=44 fragment=0+ len=32"},
    {LINK "86dd6000000000202c" IPV6 "0600001981828384" LATER, 0, 0, 0, 54, 32, "proto=44 fragment=24+ len=32"},
    /* after hop-by-hop options, and destination options after the fragment header */
    {LINK "86dd60000000002800" IPV6 "2c00050200000100" "0600000181828384" TCP6,
     0, TCP_PORTS, 62, 32, "proto=44 fragment=0+ len=32"},
    {LINK "86dd6000000000202c" IPV6 "3c00000181828384" "1100010400000000" "31324142003068c89091929394959697",
     0, 0, 0, 54, 32, "proto=44 fragment=0+ len=32"},
    {LINK "86dd6000000000202c" IPV6 "1100000181828384" UDP, 66, UDP_PORTS, 54, 32, "proto=44 fragment=0+ len=32"},
    {LINK "86dd6000000000202c" IPV6 "1100000181828384" UDP, 65, 0, 0, 54, 32, "proto=44 fragment=0+ len=32"},
    {LINK "86dd6000000000202c" IPV6 "1100000181828384" UDP, 62, 0, 0, 54, 32, "proto=44 fragment=0+ len=32"},
};

static void reads_fragment(size_t i, const struct octets *frame, size_t front)
{
    const struct row *row = rows + i;
    size_t captured = (row->captured ? row->captured : frame->len) - front;
    const char *ends[] = {"IPv4 192.0.2.1 > 192.0.2.2 ", "IPv6 2001:db8::1 > 2001:db8::2 "};
    char line[LK_FRAME_TEXT], expected[LK_FRAME_TEXT];
    struct lk_frame found;
    int reason;
    if (front == 0)
        reason = both_read_captured(frame->at, captured, frame->len, &found);
    else
        reason = both_read_captured_packet(frame->at + front, captured, frame->len - front, &found);
    CHECK_ROW(i, reason == LK_READ && found.is_fragment == 1);
    CHECK_ROW(i, found.src.port == row->src_port && found.dst.port == row->dst_port);
    CHECK_ROW(i, found.transport == LK_NO_TRANSPORT && found.rejected == LK_NO_TRANSPORT && found.transport_offset == 0);
    CHECK_ROW(i, found.payload_offset == row->payload_offset - front && found.payload_len == row->payload_len);
    strcpy(expected, ends[found.network == LK_IPV6]);
    strcat(expected, row->line);
    both_print_frame(&found, line, sizeof line);
    CHECK_ROW(i, strcmp(line, expected) == 0);
}

void worked_ports(void)
{
    for (size_t i = 0; i < sizeof rows / sizeof *rows; i++) {
        struct octets frame = octets(rows[i].octets);
        reads_fragment(i, &frame, 0);
        reads_fragment(i, &frame, 14);
    }
}
