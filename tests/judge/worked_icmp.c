/* Worked calls of ICMP: messages, neighbour discovery and errors. */
#include "worked.h"

/* ---- reading ---- */

/* A frame has an echo message with 5 bytes of data. */
static void is_echo(int line, const struct lk_frame *frame, uint8_t type, size_t offset, uint8_t checksum)
{
    check(__FILE__, line, 0, frame->transport == LK_ICMP && frame->rejected == LK_NO_TRANSPORT);
    check(__FILE__, line, 1, frame->reason == LK_READ && frame->transport_checksum == checksum);
    check(__FILE__, line, 2, frame->icmp.type == type && frame->icmp.code == 0 && frame->icmp.word == 0xb5e30007);
    check(__FILE__, line, 3, frame->transport_offset == offset && frame->payload_offset == offset + 8);
    check(__FILE__, line, 4, frame->payload_len == 5 && frame->src.port == 0 && frame->dst.port == 0);
}

/* No ICMP header: all of it is payload. */
static void is_payload(int line, const struct lk_frame *frame, size_t offset, size_t len)
{
    const struct lk_icmp *icmp = &frame->icmp;
    check(__FILE__, line, 0, frame->transport == LK_NO_TRANSPORT && frame->rejected == LK_NO_TRANSPORT);
    check(__FILE__, line, 1, frame->reason == LK_READ && frame->transport_checksum == LK_CHECKSUM_NOT_READ);
    check(__FILE__, line, 2, icmp->word == 0 && icmp->type == 0 && icmp->code == 0 && frame->transport_offset == 0);
    check(__FILE__, line, 3, frame->payload_offset == offset && frame->payload_len == len);
}

static struct lk_frame read(const struct octets *frame)
{
    struct lk_frame found;
    memset(&found, OLD, sizeof found);
    CHECK(both_read_frame(frame->at, frame->len, &found) == LK_READ);
    return found;
}

/* The frame with one byte changed. */
static struct lk_frame read_changed(struct octets frame, size_t at, uint8_t octet)
{
    frame = changed(frame, at, octet);
    return read(&frame);
}

static void read_messages(void)
{
    struct lk_frame frame = read(&echo_request);
    is_echo(__LINE__, &frame, 8, 34, LK_CHECKSUM_VALID);
    CHECK(both_read_packet(echo_request.at + 14, echo_request.len - 14, &frame) == LK_READ);
    is_echo(__LINE__, &frame, 8, 20, LK_CHECKSUM_VALID);
    frame = read(&echo_reply6);
    is_echo(__LINE__, &frame, 129, 54, LK_CHECKSUM_VALID);
    frame = read_changed(echo_request, 46, 0);
    is_echo(__LINE__, &frame, 8, 34, LK_CHECKSUM_INVALID);
    frame = read_changed(echo_request6, 37, 3); /* another source address */
    is_echo(__LINE__, &frame, 128, 54, LK_CHECKSUM_INVALID);
    frame = read_changed(echo_request, 35, 9);
    CHECK(frame.transport == LK_ICMP && frame.icmp.code == 9 && frame.transport_checksum == LK_CHECKSUM_INVALID);
    frame = read(&expired);
    CHECK(frame.icmp.type == 11 && frame.payload_offset == 42);
    CHECK(memcmp(expired.at + 42, last_hop.at + 14, frame.payload_len) == 0);
}

/* Neither the protocol of the other version, nor a fragment, nor fewer than 8 bytes. */
static void read_no_messages(void)
{
    struct lk_frame frame = read_changed(echo_request, 23, 58);
    is_payload(__LINE__, &frame, 34, 13);
    frame = read_changed(echo_request6, 20, 1);
    is_payload(__LINE__, &frame, 54, 13);
    frame = read_changed(echo_request, 21, 1);
    is_payload(__LINE__, &frame, 34, 13);
    CHECK(frame.is_fragment == 1);
    frame = read_changed(echo_request, 17, 27);
    is_payload(__LINE__, &frame, 34, 7);
    frame = read_changed(echo_request, 17, 28);
    CHECK(frame.transport == LK_ICMP && frame.payload_offset == 42 && frame.payload_len == 0);
    frame = read_changed(echo_request6, 19, 7);
    is_payload(__LINE__, &frame, 54, 7);
}

static void read_captured(void)
{
    struct lk_frame frame;
    const uint8_t *ptr = echo_request.at;
    const size_t len = echo_request.len;
    memset(&frame, OLD, sizeof frame);
    CHECK(both_read_captured(ptr, 46, len, &frame) == LK_READ);
    is_echo(__LINE__, &frame, 8, 34, LK_CHECKSUM_CUT);
    CHECK(both_read_captured(ptr, 42, len, &frame) == LK_READ);
    is_echo(__LINE__, &frame, 8, 34, LK_CHECKSUM_CUT);
    CHECK(both_read_captured(ptr, 47, len, &frame) == LK_READ); /* only padding was cut */
    is_echo(__LINE__, &frame, 8, 34, LK_CHECKSUM_VALID);
    CHECK(both_read_captured_packet(echo_request6.at + 14, 50, echo_request6.len - 14, &frame) == LK_READ);
    is_echo(__LINE__, &frame, 128, 40, LK_CHECKSUM_CUT);
    CHECK(both_read_captured(ptr, 41, len, &frame) == LK_READ);
    is_payload(__LINE__, &frame, 34, 13);
    CHECK(both_read_captured(ptr, 33, len, &frame) == LK_HEADER_CUT && frame.transport == LK_NO_TRANSPORT);
}

/* ---- writing ---- */

static void write_messages(void)
{
    struct lk_frame ipv4 = read(&echo_request), ipv6 = read(&echo_request6);
    const uint8_t *data = echo_request.at + 42;
    struct octets frame = echo_request, message = {{0}, 13};
    frame.len = 47; /* without the padding */
    memcpy(message.at, frame.at + 34, 13);
    ipv4.ip.ident = 0x1234;
    WRITES(frame, both_emit_icmp_frame(&ipv4, data, 5, out, cap));
    WRITES(echo_request6, both_emit_icmp_frame(&ipv6, data, 5, out, cap));
    WRITES(message, both_emit_icmp(&ipv4.icmp, &ipv4.src.addr, &ipv4.dst.addr, data, 5, 1, out, cap));
    message.at[2] = message.at[3] = 0;
    WRITES(message, both_emit_icmp(&ipv4.icmp, &ipv4.src.addr, &ipv4.dst.addr, data, 5, 0, out, cap));
    both_make_reply(&ipv6);
    CHECK(ipv6.icmp.type == 128 && ipv6.icmp.word == 0xb5e30007 && ipv6.ip.hop_limit == 64);
    ipv6.icmp.type = 129;
    WRITES(echo_reply6, both_emit_icmp_frame(&ipv6, data, 5, out, cap));
}

/* ---- neighbour discovery ---- */

static int read_neighbour(const struct octets *frame, struct lk_ndisc *ndisc)
{
    return both_find_ndisc(frame->at, frame->len, ndisc);
}

static void read_neighbours(void)
{
    static const uint8_t host[6] = {2, 0, 0, 0, 0, 1}, own[6] = {2, 0, 0, 0, 0, 2};
    struct octets other_hop_limit = changed(solicit, 21, 254), wrong_checksum = changed(solicit, 85, 9);
    struct lk_addr target = addr("2001:db8::2");
    struct lk_ndisc n;
    memset(&n, OLD, sizeof n);
    CHECK(read_neighbour(&solicit, &n) == 1 && memcmp(&n.target, &target, sizeof target) == 0);
    CHECK(n.has_hardware == 1 && memcmp(n.hardware, host, 6) == 0);
    CHECK(n.is_advert == 0 && n.is_router == 0 && n.is_solicited == 0 && n.overrides == 0);
    CHECK(read_neighbour(&advert, &n) == 1 && memcmp(&n.target, &target, sizeof target) == 0);
    CHECK(n.has_hardware == 1 && memcmp(n.hardware, own, 6) == 0);
    CHECK(n.is_advert == 1 && n.is_router == 0 && n.is_solicited == 1 && n.overrides == 1);
    CHECK(read_neighbour(&router_advert, &n) == 1 && n.is_router == 1 && n.is_solicited == 1);
    CHECK(read_neighbour(&probe, &n) == 1 && n.has_hardware == 0);
    CHECK(read_neighbour(&advert_to_all, &n) == 1 && n.is_solicited == 0 && n.overrides == 1);
    CHECK(read_neighbour(&other_hop_limit, &n) == 0 && read_neighbour(&wrong_checksum, &n) == 0);
    CHECK(read_neighbour(&echo_request6, &n) == 0 && read_neighbour(&echo_request, &n) == 0);
    CHECK(both_find_ndisc(solicit.at, 85, &n) == 0);
}

/* What receivers reject (RFC 4861, sections 7.1.1 and 7.1.2): a group as target; from `::` an option, or a destination that
 * is no solicited-node group; a solicited advertisement to a group. */
static void reject_neighbours(struct lk_frame f, struct lk_frame probe_headers, struct lk_ndisc asked, struct lk_ndisc told)
{
    struct lk_frame to_all = f;
    size_t cap = sizeof out;
    asked.target.octets[0] = 0xff;
    CHECK(both_emit_ndisc_frame(&f, &asked, out, cap) == LK_BAD_FIELD);
    asked.target.octets[0] = 0xfe;
    CHECK(both_emit_ndisc_frame(&f, &asked, out, cap) > 0);
    asked.has_hardware = 1;
    CHECK(both_emit_ndisc_frame(&probe_headers, &asked, out, cap) == LK_BAD_FIELD);
    asked.has_hardware = 0;
    CHECK(both_emit_ndisc_frame(&probe_headers, &asked, out, cap) > 0);
    probe_headers.dst.addr.octets[15] = 1, probe_headers.dst.addr.octets[12] = 0;
    CHECK(both_emit_ndisc_frame(&probe_headers, &asked, out, cap) == LK_BAD_FIELD);
    to_all.dst.addr = addr("ff02::1");
    told.is_solicited = 1;
    CHECK(both_emit_ndisc_frame(&to_all, &told, out, cap) == LK_BAD_FIELD);
    told.is_solicited = 0;
    CHECK(both_emit_ndisc_frame(&to_all, &told, out, cap) > 0);
}

static void write_neighbours(void)
{
    struct lk_frame f = read(&solicit), g = read(&advert), h = read(&probe);
    struct lk_ndisc asked, told, probed;
    memset(&asked, OLD, sizeof asked);
    told = probed = asked;
    read_neighbour(&solicit, &asked);
    read_neighbour(&advert, &told);
    read_neighbour(&probe, &probed);
    f.ip.hop_limit = 0;
    f.ip.dscp = 255;
    asked.is_router = 1; /* a solicitation has no flags */
    WRITES(solicit, both_emit_ndisc_frame(&f, &asked, out, cap));
    told.overrides = 200;
    WRITES(advert, both_emit_ndisc_frame(&g, &told, out, cap));
    WRITES(probe, both_emit_ndisc_frame(&h, &probed, out, cap));
    reject_neighbours(f, h, asked, told);
}

/* ---- errors ---- */

#define ERROR(octets, problem, mtu, frame) \
    WRITES(octets, both_emit_icmp_error(&own, problem, mtu, frame.at, frame.len, out, cap))
#define NO_ERROR(problem, mtu, frame) FAILS(0, both_emit_icmp_error(&own, problem, mtu, frame.at, frame.len, out, ROOM))

static struct lk_interface own_interface(void)
{
    struct lk_interface own;
    memset(&own, 0, sizeof own);
    own.ipv4 = addr("192.0.2.2");
    own.ipv6 = addr("2001:db8::2");
    memcpy(own.hardware, "\2\0\0\0\0\2", 6);
    return own;
}

static void write_errors(void)
{
    struct lk_interface own = own_interface();
    struct octets padded = last_hop;
    padded.len += 14;
    memset(padded.at + last_hop.len, 0xee, 14);
    ERROR(expired, LK_HOP_LIMIT_EXPIRED, 0, last_hop);
    ERROR(expired, LK_HOP_LIMIT_EXPIRED, 0, padded);
    ERROR(too_big, LK_PACKET_TOO_BIG, 32, last_hop);
    ERROR(no_route, LK_NO_ROUTE_TO_DESTINATION, 0, last_hop);
    ERROR(no_neighbour, LK_NEIGHBOUR_MISSING, 9, last_hop);
    ERROR(port_closed, LK_PORT_CLOSED, 0, last_hop);
    ERROR(prohibited, LK_PROHIBITED, 0, last_hop);
    ERROR(no_others, LK_FRAGMENT_MISSING, 0, first_part);
    ERROR(expired6, LK_HOP_LIMIT_EXPIRED, 0, last_hop6);
    ERROR(too_big6, LK_PACKET_TOO_BIG, 50, last_hop6);
    ERROR(no_route6, LK_NO_ROUTE_TO_DESTINATION, 0, last_hop6);
    ERROR(no_neighbour6, LK_NEIGHBOUR_MISSING, 0, last_hop6);
    ERROR(port_closed6, LK_PORT_CLOSED, 0, last_hop6);
    ERROR(prohibited6, LK_PROHIBITED, 0, last_hop6);
    ERROR(no_others6, LK_FRAGMENT_MISSING, 0, first_part6);
    /* about a whole packet: type 11 with code 1, so that the checksum is one less */
    ERROR(changed(changed(expired, 35, 1), 37, (uint8_t)(expired.at[37] - 1)), LK_FRAGMENT_MISSING, 0, last_hop);
}

static void write_no_errors(void)
{
    struct lk_interface own = own_interface();
    FAILS(0, both_emit_icmp_error(&own, LK_PORT_CLOSED, 0, last_hop.at, 0, out, ROOM));
    FAILS(LK_NO_HEADER, both_emit_icmp_error(&own, LK_PORT_CLOSED, 0, last_hop.at, LK_MAX_LEN + 1, out, ROOM));
    FAILS(LK_NO_HEADER, both_emit_icmp_error(&own, LK_PORT_CLOSED, 0, last_hop.at, (size_t)LK_NO_ROOM, out, ROOM));
    /* RFC 1122, section 3.2.2; RFC 4443, section 2.4 */
    const struct octets frames[] = {
        changed(last_hop, 0, 3),                          /* to a group of Ethernet */
        changed(last_hop, 6, 3),                          /* from one */
        changed(last_hop, 24, 3),                         /* a wrong checksum of the IPv4 header */
        changed(last_hop6, 38, 255),                      /* to a group of IPv6 */
        changed(changed(echo_request, 17, 20), 25, 0xb1), /* ICMP without a type */
        changed(echo_request6, 19, 0),
    };
    NO_ERROR(LK_NO_PROBLEM, 0, last_hop);
    NO_ERROR(8, 0, last_hop);
    NO_ERROR(-1, 0, last_hop);
    NO_ERROR(257, 0, last_hop);
    NO_ERROR(LK_HOP_LIMIT_EXPIRED, 0, echo_request);
    NO_ERROR(LK_PACKET_TOO_BIG, 33, last_hop);
    NO_ERROR(LK_PACKET_TOO_BIG, 53, last_hop6);
    for (size_t i = 0; i < sizeof frames / sizeof frames[0]; i++)
        NO_ERROR(LK_NO_ROUTE_TO_DESTINATION, 0, frames[i]);
    own.ipv4 = addr("127.0.0.1"); /* no address of an interface */
    own.ipv6 = addr("::1");
    NO_ERROR(LK_NO_ROUTE_TO_DESTINATION, 0, last_hop);
    NO_ERROR(LK_NO_ROUTE_TO_DESTINATION, 0, last_hop6);
}

/* Whether an error about the frame with another byte is written. */
static int has_error(const struct octets *frame, size_t at, uint8_t octet)
{
    const struct lk_interface own = own_interface();
    const struct octets about = changed(*frame, at, octet);
    const ptrdiff_t len = both_emit_icmp_error(&own, LK_PROHIBITED, 0, about.at, about.len, clear(), ROOM);
    CHECK(len > 0 || holds(&nothing, len));
    return len > 0;
}

/* ---- errors about IPv6 with extension headers ---- */

/* What follows an IPv6 header with this next header, and whether an error about the packet is sent. */
struct chain {
    uint8_t next_header;
    const char *hex;
    int has_error;
};

#define UDP "b5e3829a000d31017472616365"
#define ECHO "80002d1c12340001"
#define ERROR6 "0100000000000000"

/* In the order of RFC 8200, section 4.1: hop-by-hop options, options, routing, fragment, authentication, options. */
#define IN_ORDER "3c00010400000000" "2b00010400000000" "2c00000000000000" "3300000100000007" \
    "3c020000100000000000000180018001" "3a00010400000000"

/* RFC 8200, section 4; RFC 4302, section 2.2 (51); RFC 6275, section 6.1 (135); RFC 7401, section 5.1 (139); RFC 5533,
 * section 5.1 (140). No error about an ICMPv6 error or redirect: RFC 4443, section 2.4 e. */
static const struct chain chains[] = {
    {0, "1100010400000000" UDP, 1}, /* hop-by-hop options, and UDP */
    {0, "3a00010400000000" ECHO, 1},
    {0, "3a00010400000000" ERROR6, 0},
    {0, "1100010400000000", 1}, /* UDP without a byte */
    {0, "3a00010400000000", 0}, /* ICMPv6 without a type */
    {60, "3a00010400000000" ECHO, 1},
    {60, "3a00010400000000" ERROR6, 0},
    {60, "3a00010400000000" "89", 0}, /* a redirect */
    {60, "3a01010c0000000000000000000000008000", 1},
    {60, "3a01010c8000000000000000000000000100", 0},
    {43, "3a02040120010db800000000000000000000000000000000" ECHO, 1},
    {43, "3a02040180010db880000000800000008000000080000000" ERROR6, 0},
    {51, "3a0400001000000000000001112233445566778899aabbcc" ECHO, 1}, /* 24 bytes */
    {51, "3a0400008000000080000001802233448066778880aabbcc" ERROR6, 0},
    {51, "3a0500008000000080000001802233448066778880aabbcc800000000100", 0}, /* 28 bytes */
    {51, "3a0500000000000000000001002233440066778800aabbcc000000008000", 1},
    {44, "1100000100000007" UDP, 1}, /* the first fragment */
    {44, "3a00000100000007" ECHO, 1},
    {44, "3a00000100000007" ERROR6, 0},
    {44, "3a00000100000007", 0},
    {44, "3a00000000000007" ECHO, 1}, /* an atomic fragment (RFC 6946) */
    {44, "3aff000600000007" ECHO, 1}, /* reserved bits are ignored (RFC 8200, section 4.5) */
    {44, "1100000800000007" UDP, 1},  /* later fragments */
    {44, "1100fff900000007" UDP, 1},
    {44, "3b00000800000007", 1},
    {44, "3a00000800000007" ECHO, 0},
    {44, "3a00000800000007" ERROR6, 0},
    {44, "3c00000800000007" "1100010400000000" UDP, 0}, /* which may end in ICMPv6 */
    {0, "2c000104000000003a0000080000000780", 0},
    {0, "2c00010400000000110000080000000780", 1},
    {50, ERROR6, 1}, /* encrypted */
    {59, "", 1},     /* no next header */
    {60, "3b00010400000000" ERROR6, 1},
    {135, "3b00000000000000", 1},
    {135, "3a01000080000000800000008000000001", 0},
    {139, "3b04010100000000" "0000000000000000000000000000000000000000000000000000000000000000", 1},
    {140, "3a00800000000000" ECHO, 1},
    {140, "3a00800000000000" ERROR6, 0},
    {0, IN_ORDER ECHO, 1},
    {0, IN_ORDER ERROR6, 0},
    /* cut */
    {0, "", 0},
    {0, "11000104000000", 0},
    {0, "1101010400000000" "00000000000000", 0},
    {43, "1103040120010db800000000000000000000000000000000", 0},
    {44, "11000001000000", 0},
    {44, "11000008000000", 0},
    {51, "1104000010000000000000011122334455667788", 0},
    {0, "3c000104000000001101010400000000", 0},
};

static struct octets packet_with(const struct chain *chain)
{
    const struct octets headers = octets(chain->hex);
    struct octets frame = changed(changed(last_hop6, 20, chain->next_header), 19, (uint8_t)headers.len);
    memcpy(frame.at + 54, headers.at, headers.len);
    frame.len = 54 + headers.len;
    return frame;
}

/* The error quotes the packet with all its headers. */
static void write_errors_after_headers(void)
{
    const struct lk_interface own = own_interface();
    for (size_t i = 0; i < sizeof chains / sizeof chains[0]; i++) {
        const struct octets about = packet_with(&chains[i]);
        const ptrdiff_t len = both_emit_icmp_error(&own, LK_PACKET_TOO_BIG, 39, about.at, about.len, clear(), ROOM);
        CHECK_ROW(i, chains[i].has_error ? len == (ptrdiff_t)about.len + 48 : holds(&nothing, len));
        CHECK_ROW(i, !chains[i].has_error || memcmp(out + 62, about.at + 14, about.len - 14) == 0);
    }
}

/* Each number in a header, and whether an error is sent. */
static void write_errors_by_number(void)
{
    /* IANA's list of IPv6 extension headers (RFC 8200, RFC 7045), but for 50, 253 and 254 */
    static const uint8_t extension_headers[] = {0, 43, 44, 51, 60, 135, 139, 140};
    /* the queries of RFC 792 and RFC 950, by RFC 1122, section 3.2.2: echo, timestamp, information, address mask */
    static const uint8_t queries[] = {0, 8, 13, 14, 15, 16, 17, 18};
    const struct octets hop_by_hop = packet_with(&chains[0]), options_and_echo = packet_with(&chains[5]);
    for (unsigned n = 0; n < 256; n++) {
        /* but for 44, the second byte of the payload is a length that is too long; 44 is a later fragment */
        const int is_cut = n != 44 && memchr(extension_headers, (int)n, sizeof extension_headers) != 0;
        /* RFC 4443, section 2.1: errors are below 128; RFC 4861, section 4.5: 137 is a redirect */
        const int is_query6 = n >= 128 && n != 137;
        CHECK_ROW(n, has_error(&last_hop6, 20, (uint8_t)n) == !is_cut);
        CHECK_ROW(n, has_error(&hop_by_hop, 54, (uint8_t)n) == !is_cut);
        CHECK_ROW(n, has_error(&echo_request, 34, (uint8_t)n) == (memchr(queries, (int)n, sizeof queries) != 0));
        CHECK_ROW(n, has_error(&echo_request6, 54, (uint8_t)n) == is_query6);
        CHECK_ROW(n, has_error(&options_and_echo, 62, (uint8_t)n) == is_query6);
    }
}

void worked_icmp(void)
{
    read_messages();
    read_no_messages();
    read_captured();
    write_messages();
    read_neighbours();
    write_neighbours();
    write_errors();
    write_no_errors();
    write_errors_after_headers();
    write_errors_by_number();
}
