/* Worked calls of NAT with a table, step by step. Another program computed the checksums and the hashed ports. The
 * time-outs are those of RFC 4787, RFC 5382 and RFC 5508. */
#include "worked.h"

enum { MOST_PORTS = 128 };
enum way { OUT, IN };

static struct lk_mapping mappings[LK_MAPPINGS(MOST_PORTS)];
static struct lk_nat nat;
static size_t count; /* of its mappings */

static void begin_nat(uint16_t first_port, size_t mapping_count)
{
    const struct lk_nat begun = {{0x0706050403020100, 0x0f0e0d0c0b0a0908}, 300000,    7440000, 240000, 60000,
                                 {203, 0, 113, 9},                         first_port, 0};
    nat = begun;
    count = mapping_count;
    memset(mappings, 0, sizeof mappings);
    forget_mappings();
}

static int pass(enum way way, uint64_t now, struct octets *frame)
{
    return way == OUT ? both_translate_out(&nat, mappings, count, now, frame->at, frame->len)
                      : both_translate_in(&nat, mappings, count, now, frame->at, frame->len);
}

/* ---- frames ---- */

#define AS_IT_IS {{0, 0}}
#define FROM_0 {{34, 0}, {35, 0}, {40, 0x88}, {41, 0x18}}
#define FROM_46564 {{35, 0xe4}, {41, 0x33}}
#define TO_REQUEST {{34, 0x08}, {36, 0x7c}}
#define ID_0 {{37, 0x2e}, {39, 0}}

/* A packet of 192.0.2.3 port 7000 to the outside port 40000. Then its source is port 39999 outside, and then its
 * destination is that of the mapping. */
#define SENT                                                                                                     \
    {{24, 0xa6}, {25, 0xca}, {29, 0x03}, {30, 0xcb}, {32, 0x71}, {33, 0x09},                                     \
     {34, 0x1b}, {35, 0x58}, {36, 0x9c}, {37, 0x40}, {40, 0x6b}, {41, 0x5f}}
#define BETWEEN                                                                                                  \
    {{24, 0x2c}, {25, 0xc4}, {26, 0xcb}, {28, 0x71}, {29, 0x09}, {30, 0xcb}, {32, 0x71},                         \
     {33, 0x09}, {34, 0x9c}, {35, 0x3f}, {36, 0x9c}, {37, 0x40}, {40, 0x70}, {41, 0x71}}
#define DELIVERED                                                                                                \
    {{24, 0xa6}, {25, 0xcc}, {26, 0xcb}, {28, 0x71}, {29, 0x09}, {33, 0x01},                                     \
     {34, 0x9c}, {35, 0x3f}, {36, 0xb5}, {37, 0xe3}, {40, 0xd0}, {41, 0xd6}}

/* A frame goes through a NAT: through that of the row above if `first_port` is 0. If it is not rejected, it becomes
 * `wanted`. Then the mappings of the first port expire: of UDP, TCP and ICMP. */
static const struct {
    uint16_t first_port, ports;
    uint64_t now;
    enum way way;
    int rejection;
    const struct octets *frame;
    struct change before[CHANGES];
    const struct octets *wanted;
    struct change after[CHANGES];
    uint64_t expires[3];
} steps[] = {
    /* an answer of UDP, until 5 minutes have passed */
    {40000, 1, 1000, OUT, 0, &query, AS_IT_IS, &query_out, AS_IT_IS, {301000}},
    {0, 0, 1000, IN, 0, &response_in, AS_IT_IS, &response, AS_IT_IS, {301000}},
    {0, 0, 300999, IN, 0, &response_in, AS_IT_IS, &response, AS_IT_IS, {301000}},
    {0, 0, 301000, IN, LK_NO_MAPPING, &response_in, AS_IT_IS, 0, AS_IT_IS, {301000}},
    /* an answer of TCP: the connection is not established, so 4 minutes */
    {40001, 1, 0, OUT, 0, &syn, AS_IT_IS, &syn_out, AS_IT_IS, {0, 240000}},
    {0, 0, 239999, IN, 0, &data_in, AS_IT_IS, &data, AS_IT_IS, {0, 240000}},
    {0, 0, 240000, IN, LK_NO_MAPPING, &data_in, AS_IT_IS, 0, AS_IT_IS, {0, 240000}},
    /* UDP and TCP have their own mappings of a port */
    {40001, 1, 0, OUT, 0, &query, AS_IT_IS, &query_out, {{35, 0x41}, {41, 0xce}}, {300000}},
    {0, 0, 0, IN, LK_NO_MAPPING, &data_in, AS_IT_IS, 0, AS_IT_IS, {300000}},
    {0, 0, 0, OUT, 0, &syn, AS_IT_IS, &syn_out, AS_IT_IS, {300000, 240000}},
    {0, 0, 0, IN, 0, &data_in, AS_IT_IS, &data, AS_IT_IS, {300000, 240000}},
    /* the own port of the source is an outside port */
    {46500, 100, 0, OUT, 0, &query, AS_IT_IS, &query_out, {{34, 0xb5}, {35, 0xe3}, {40, 0x58}, {41, 0x2c}}, {0}},
    /* two inside hosts */
    {39999, 2, 0, OUT, 0, &query, AS_IT_IS, &query_out, AS_IT_IS, {0}},
    {0, 0, 0, OUT, 0, &query, SENT, &query, BETWEEN, {300000}},
    {0, 0, 0, IN, 0, &query, BETWEEN, &query, DELIVERED, {300000}},
    /* Frames that do not go out make no mapping. The last one finds the only port in use. */
    {40000, 1, 0, OUT, LK_BAD_TRANSPORT, &query, {{45, 0x68}}, 0, AS_IT_IS, {0}},
    {0, 0, 0, OUT, LK_NAT_PORT_ZERO, &query, FROM_0, 0, AS_IT_IS, {0}},
    {0, 0, 0, OUT, 0, &query, AS_IT_IS, &query_out, AS_IT_IS, {300000}},
    {0, 0, 9, OUT, LK_NO_FREE_PORT, &query, FROM_46564, 0, AS_IT_IS, {300000}},
    {0, 0, 9, IN, 0, &response_in, AS_IT_IS, &response, AS_IT_IS, {300000}},
    /* frames that do not come in: without a mapping, for another address, with a wrong checksum */
    {40000, 1, 0, IN, LK_NO_MAPPING, &response_in, AS_IT_IS, 0, AS_IT_IS, {0}},
    {0, 0, 0, OUT, 0, &query, AS_IT_IS, &query_out, AS_IT_IS, {300000}},
    {0, 0, 0, IN, LK_NO_MAPPING, &response, AS_IT_IS, 0, AS_IT_IS, {300000}},
    {0, 0, 0, IN, LK_WRONG_CHECKSUM, &response_in, {{25, 0x43}}, 0, AS_IT_IS, {300000}},
    /* an echo reply, until 60 seconds have passed */
    {40000, 1, 0, IN, LK_NO_MAPPING, &echo7_reply_in, AS_IT_IS, 0, AS_IT_IS, {0}},
    {0, 0, 0, OUT, 0, &echo7, AS_IT_IS, &echo7_out, AS_IT_IS, {0, 0, 60000}},
    {0, 0, 59999, IN, 0, &echo7_reply_in, AS_IT_IS, &echo7_reply, AS_IT_IS, {0, 0, 60000}},
    {0, 0, 60000, IN, LK_NO_MAPPING, &echo7_reply_in, AS_IT_IS, 0, AS_IT_IS, {0, 0, 60000}},
    /* the identifier 0 */
    {40000, 1, 0, OUT, 0, &echo7, ID_0, &echo7_out, AS_IT_IS, {0, 0, 60000}},
    {0, 0, 9, IN, 0, &echo7_reply_in, AS_IT_IS, &echo7_reply, ID_0, {0, 0, 60000}},
    /* a reply does not go out, and a request does not come in */
    {40000, 1, 0, OUT, LK_NO_MAPPING, &echo7_reply, AS_IT_IS, 0, AS_IT_IS, {0}},
    {0, 0, 0, OUT, 0, &echo7, AS_IT_IS, &echo7_out, AS_IT_IS, {0, 0, 60000}},
    {0, 0, 0, IN, LK_NO_MAPPING, &echo7_reply_in, TO_REQUEST, 0, AS_IT_IS, {0, 0, 60000}},
    /* An error comes in with the packet that it quotes, however much of it is quoted, and changes no mapping. */
    {40000, 1, 0, IN, LK_NO_MAPPING, &query_error_in, AS_IT_IS, 0, AS_IT_IS, {0}},
    {0, 0, 0, OUT, 0, &query, AS_IT_IS, &query_out, AS_IT_IS, {300000}},
    {0, 0, 59999, IN, 0, &query_error_in, AS_IT_IS, &query_error, AS_IT_IS, {300000}},
    {0, 0, 300000, IN, LK_NO_MAPPING, &query_error_in, AS_IT_IS, 0, AS_IT_IS, {300000}},
    {40001, 1, 0, IN, LK_NO_MAPPING, &syn_error_in, AS_IT_IS, 0, AS_IT_IS, {0}},
    {0, 0, 0, OUT, 0, &syn, AS_IT_IS, &syn_out, AS_IT_IS, {0, 240000}},
    {0, 0, 59999, IN, 0, &syn_error_in, AS_IT_IS, &syn_error, AS_IT_IS, {0, 240000}},
    {0, 0, 300000, IN, LK_NO_MAPPING, &syn_error_in, AS_IT_IS, 0, AS_IT_IS, {0, 240000}},
    {40000, 1, 0, IN, LK_NO_MAPPING, &echo7_error_in, AS_IT_IS, 0, AS_IT_IS, {0}},
    {0, 0, 0, OUT, 0, &echo7, AS_IT_IS, &echo7_out, AS_IT_IS, {0, 0, 60000}},
    {0, 0, 59999, IN, 0, &echo7_error_in, AS_IT_IS, &echo7_error, AS_IT_IS, {0, 0, 60000}},
    {0, 0, 300000, IN, LK_NO_MAPPING, &echo7_error_in, AS_IT_IS, 0, AS_IT_IS, {0, 0, 60000}},
    /* an error of the inside host */
    {40000, 1, 0, OUT, LK_NO_MAPPING, &response_error, AS_IT_IS, 0, AS_IT_IS, {0}},
    {0, 0, 0, OUT, 0, &query, AS_IT_IS, &query_out, AS_IT_IS, {300000}},
    {0, 0, 9, OUT, 0, &response_error, AS_IT_IS, &response_error_out, AS_IT_IS, {300000}},
    /* An error quotes a UDP packet without a checksum, and a first fragment. Then it quotes a header whose checksum is
     * wrong, as some routers do that lower the hop limit: it comes in, and goes out, and the checksum stays wrong. */
    {0, 0, 9, IN, 0, &query_error_in, {{36, 0x43}, {37, 0xca}, {68, 0}, {69, 0}}, &query_error,
     {{36, 0x2a}, {37, 0x27}, {68, 0}, {69, 0}}, {300000}},
    {0, 0, 9, IN, 0, &query_error_in, {{48, 0x20}, {52, 0x05}, {53, 0xcc}}, &query_error,
     {{48, 0x20}, {52, 0x7f}, {53, 0xd4}}, {300000}},
    {0, 0, 9, IN, 0, &query_error_in, {{36, 0x10}, {37, 0xfb}, {52, 0xa6}}, &query_error, {{36, 0x96}, {52, 0x20}},
     {300000}},
    {0, 0, 9, OUT, 0, &response_error, {{36, 0x9e}, {50, 0x01}}, &response_error_out,
     {{36, 0x18}, {37, 0xfe}, {50, 0x01}}, {300000}},
    /* a redirect with a valid and with a wrong checksum; an error with a wrong checksum, and one of 7 bytes */
    {0, 0, 9, IN, LK_OTHER_PROTOCOL, &query_error_in, {{34, 0x05}, {36, 0xd7}}, 0, AS_IT_IS, {300000}},
    {0, 0, 9, IN, LK_OTHER_PROTOCOL, &query_error_in, {{34, 0x05}}, 0, AS_IT_IS, {300000}},
    {0, 0, 9, IN, LK_BAD_TRANSPORT, &query_error_in, {{37, 0xfb}}, 0, AS_IT_IS, {300000}},
    {0, 0, 9, IN, LK_BAD_TRANSPORT, &query_error_in, {{17, 0x1b}, {25, 0x6a}, {36, 0xf4}, {37, 0xff}}, 0, AS_IT_IS,
     {300000}},
    /* errors that quote 7 bytes of UDP and of GRE, another version, and a short header */
    {0, 0, 9, IN, LK_BAD_TRANSPORT, &query_error_in, {{17, 0x37}, {25, 0x4e}, {36, 0xd2}, {37, 0xc9}}, 0, AS_IT_IS,
     {300000}},
    {0, 0, 9, IN, LK_BAD_TRANSPORT, &query_error_in,
     {{17, 0x37}, {25, 0x4e}, {36, 0xd2}, {37, 0xc9}, {51, 0x2f}, {53, 0xad}}, 0, AS_IT_IS, {300000}},
    {0, 0, 9, IN, LK_BAD_TRANSPORT, &query_error_in, {{36, 0xb1}, {42, 0x65}}, 0, AS_IT_IS, {300000}},
    {0, 0, 9, IN, LK_BAD_TRANSPORT, &query_error_in, {{36, 0xd2}, {42, 0x44}}, 0, AS_IT_IS, {300000}},
    /* a later fragment, GRE, another ICMP message, and a packet that the NAT did not send */
    {0, 0, 9, IN, LK_NO_MAPPING, &query_error_in, {{49, 0x01}, {53, 0xca}}, 0, AS_IT_IS, {300000}},
    {0, 0, 9, IN, LK_NO_MAPPING, &query_error_in, {{51, 0x2f}, {53, 0xad}}, 0, AS_IT_IS, {300000}},
    {0, 0, 9, IN, LK_NO_MAPPING, &query_error_in, {{51, 0x01}, {53, 0xdb}}, 0, AS_IT_IS, {300000}},
    {0, 0, 9, IN, LK_NO_MAPPING, &query_error, AS_IT_IS, 0, AS_IT_IS, {300000}},
};

static void translate_step_by_step(void)
{
    for (size_t i = 0; i < sizeof steps / sizeof *steps; i++) {
        const struct octets before = cut(steps[i].frame, steps[i].frame->len, steps[i].before);
        const struct octets *wanted = steps[i].wanted ? steps[i].wanted : &before;
        const struct octets after = cut(wanted, wanted->len, steps[i].after);
        struct octets frame = before;
        if (steps[i].first_port != 0)
            begin_nat(steps[i].first_port, LK_MAPPINGS(steps[i].ports));
        CHECK_ROW(i, pass(steps[i].way, steps[i].now, &frame) == steps[i].rejection);
        CHECK_ROW(i, frame.len == after.len && memcmp(frame.at, after.at, frame.len) == 0);
        for (size_t j = 0; j < 3; j++)
            CHECK_ROW(i, mappings[j * (count / 3)].expires == steps[i].expires[j]);
    }
}

/* ---- packets of endpoints ---- */

enum kind { UDP, SYN, ACK, PSH, FIN, RST, ECHO };

/* 192.168.0.LAST inside, 198.51.100.LAST outside. */
struct end {
    uint8_t last;
    uint16_t port;
};

static struct lk_endpoint inside_of(struct end end)
{
    return (struct lk_endpoint){{{192, 168, 0, end.last}, 4}, end.port};
}

static struct lk_endpoint remote_of(struct end end)
{
    return (struct lk_endpoint){{{198, 51, 100, end.last}, 4}, end.port};
}

/* A packet between two endpoints. An echo message has the port of the end that is behind the NAT as its identifier. */
static struct octets packet(enum kind kind, enum way way, const struct lk_endpoint *src, const struct lk_endpoint *dst)
{
    static const uint8_t flags[] = {0, LK_SYN, LK_ACK, LK_ACK | LK_PSH, LK_ACK | LK_FIN, LK_RST};
    struct lk_tcp_options options;
    struct lk_frame headers;
    struct octets made = {{0}, 0};
    ptrdiff_t len;
    memset(&options, 0, sizeof options);
    memset(&headers, 0, sizeof headers);
    headers.src = *src;
    headers.dst = *dst;
    headers.ip.hop_limit = 64;
    headers.icmp.type = way == OUT ? 8 : 0;
    headers.icmp.word = (uint32_t)(way == OUT ? src->port : dst->port) << 16;
    if (kind == UDP)
        len = both_emit_udp_frame(&headers, 0, 0, made.at, ROOM);
    else if (kind == ECHO)
        len = both_emit_icmp_frame(&headers, 0, 0, made.at, ROOM);
    else
        headers.tcp.flags = flags[kind], len = both_emit_tcp_frame(&headers, &options, 0, 0, made.at, ROOM);
    CHECK(len > 0);
    made.len = (size_t)len;
    return made;
}

/* Where the port is, or the identifier. */
static unsigned port_in(const struct octets *frame, enum kind kind, enum way way)
{
    size_t at = kind == ECHO ? 38 : way == OUT ? 34 : 36;
    return frame->at[at] * 256u + frame->at[at + 1];
}

#define BEGINS(first_port, count) {first_port, count, 0, UDP, OUT, {0, 0}, {0, 0}, 0, 0}
#define GOES(now, kind, inside, inside_port, remote, remote_port, port, expires) \
    {0, 0, now, kind, OUT, {inside, inside_port}, {remote, remote_port}, port, expires}
#define COMES(now, kind, port, remote, remote_port, inside, inside_port, expires) \
    {0, 0, now, kind, IN, {inside, inside_port}, {remote, remote_port}, port, expires}

/* BEGINS: a NAT with so many mappings, from a first port on. GOES: a packet goes out from an inside endpoint, and its
 * answer comes in. COMES: a packet comes in to an inside endpoint. Then the mapping of the port expires at this time.
 * Port 0: none is free. Endpoint 0: there is no mapping. */
static const struct flow {
    uint16_t first_port, count;
    uint64_t now;
    enum kind kind;
    enum way way;
    struct end inside, remote;
    uint16_t port;
    uint64_t expires;
} flows[] = {
    /* the own port; then a hashed one, where it is that of another host or out of range; UDP and TCP apart */
    BEGINS(1024, 384),
    GOES(0, UDP, 2, 1100, 1, 80, 1100, 300000),
    GOES(0, UDP, 2, 1024, 1, 80, 1024, 300000),
    GOES(0, UDP, 2, 1151, 1, 80, 1151, 300000),
    GOES(0, UDP, 3, 1100, 1, 80, 1136, 300000),
    GOES(0, UDP, 3, 1152, 1, 80, 1143, 300000),
    GOES(0, UDP, 3, 53, 1, 80, 1031, 300000),
    GOES(0, SYN, 3, 1100, 1, 80, 1100, 240000),
    COMES(0, ACK, 1024, 1, 80, 0, 0, 0),
    /* one port for all remote endpoints */
    BEGINS(1024, 96),
    GOES(0, UDP, 2, 1030, 1, 80, 1030, 300000),
    COMES(0, UDP, 1030, 101, 80, 2, 1030, 300000),
    GOES(0, UDP, 2, 1030, 2, 80, 1030, 300000),
    COMES(0, UDP, 1030, 102, 80, 2, 1030, 300000),
    GOES(0, UDP, 2, 1030, 3, 80, 1030, 300000),
    COMES(0, UDP, 1030, 103, 80, 2, 1030, 300000),
    GOES(0, UDP, 2, 1030, 4, 80, 1030, 300000),
    COMES(0, UDP, 1030, 104, 80, 2, 1030, 300000),
    /* A mapping expires at the millisecond, and its port is free again. The last time-out ends with the clock. */
    BEGINS(1024, 96),
    GOES(1000, UDP, 2, 1030, 1, 80, 1030, 301000),
    COMES(300999, UDP, 1030, 1, 80, 2, 1030, 301000),
    COMES(301000, UDP, 1030, 1, 80, 0, 0, 0),
    GOES(301000, UDP, 3, 1030, 1, 80, 1030, 601000),
    GOES(UINT64_MAX - 1, UDP, 4, 1030, 1, 80, 1030, UINT64_MAX),
    COMES(UINT64_MAX, UDP, 1030, 1, 80, 0, 0, 0),
    /* no free port until one expires */
    BEGINS(1024, 8),
    GOES(0, UDP, 2, 1024, 1, 80, 1024, 300000),
    GOES(1, UDP, 3, 1024, 1, 80, 1025, 300001),
    GOES(1, UDP, 4, 1026, 1, 80, 0, 0),
    GOES(300000, UDP, 4, 1026, 1, 80, 1024, 600000),
    /* no port after 65535, and no port 0 */
    BEGINS(65534, 12),
    GOES(0, UDP, 2, 65535, 1, 80, 65535, 300000),
    GOES(0, UDP, 3, 65535, 1, 80, 65534, 300000),
    GOES(0, UDP, 4, 65535, 1, 80, 0, 0),
    BEGINS(0, 8),
    GOES(0, UDP, 2, 1, 1, 80, 0, 0),
    /* a connection that the remote host closes; the inside host accepts no RST that comes in */
    BEGINS(1024, 3),
    GOES(0, SYN, 2, 1024, 1, 80, 1024, 240000),
    COMES(10, SYN, 1024, 1, 80, 2, 1024, 240000),
    GOES(20, ACK, 2, 1024, 1, 80, 1024, 7440020),
    COMES(30, ACK, 1024, 1, 80, 2, 1024, 7440020),
    COMES(40, FIN, 1024, 1, 80, 2, 1024, 240040),
    GOES(50, ACK, 2, 1024, 1, 80, 1024, 240050),
    GOES(60, FIN, 2, 1024, 1, 80, 1024, 240060),
    COMES(70, FIN, 1024, 1, 80, 2, 1024, 240060),
    GOES(80, SYN, 2, 1024, 1, 80, 1024, 240080),
    GOES(90, ACK, 2, 1024, 1, 80, 1024, 7440090),
    GOES(100, RST, 2, 1024, 1, 80, 1024, 240100),
    GOES(110, ACK, 2, 1024, 1, 80, 1024, 7440110),
    COMES(120, RST, 1024, 1, 80, 2, 1024, 240120),
    GOES(130, PSH, 2, 1024, 1, 80, 1024, 7440130),
    GOES(140, FIN, 2, 1024, 1, 80, 1024, 240140),
    COMES(150, RST, 1024, 1, 80, 2, 1024, 240140),
    GOES(160, ACK, 2, 1024, 1, 80, 1024, 240160),
    /* PSH is data */
    BEGINS(1024, 3),
    GOES(0, SYN, 2, 1024, 1, 80, 1024, 240000),
    GOES(10, PSH, 2, 1024, 1, 80, 1024, 7440010),
    GOES(20, FIN, 2, 1024, 1, 80, 1024, 240020),
    GOES(30, PSH, 2, 1024, 1, 80, 1024, 240030),
    GOES(40, ACK, 2, 1024, 1, 80, 1024, 240040),
    GOES(50, PSH, 2, 1024, 1, 80, 1024, 240050),
    /* Neither another host nor the end of one of two connections ends the mapping. */
    BEGINS(1024, 3),
    GOES(0, SYN, 2, 1024, 1, 80, 1024, 240000),
    GOES(10, ACK, 2, 1024, 1, 80, 1024, 7440010),
    COMES(20, RST, 1024, 2, 80, 2, 1024, 7440010),
    GOES(30, SYN, 2, 1024, 2, 80, 1024, 7440030),
    COMES(40, RST, 1024, 1, 80, 2, 1024, 7440030),
    GOES(50, FIN, 2, 1024, 1, 80, 1024, 7440050),
    /* a closing connection, and the data of another */
    BEGINS(1024, 3),
    GOES(0, SYN, 2, 1024, 1, 80, 1024, 240000),
    GOES(10, FIN, 2, 1024, 1, 80, 1024, 240010),
    GOES(20, FIN, 2, 1024, 2, 80, 1024, 240020),
    GOES(30, PSH, 2, 1024, 2, 80, 1024, 7440030),
    /* Neither another port nor the end of one of two connections ends the mapping. */
    BEGINS(1024, 3),
    GOES(0, SYN, 2, 1024, 1, 80, 1024, 240000),
    GOES(10, ACK, 2, 1024, 1, 80, 1024, 7440010),
    COMES(20, RST, 1024, 1, 81, 2, 1024, 7440010),
    GOES(30, SYN, 2, 1024, 1, 81, 1024, 7440030),
    COMES(40, RST, 1024, 1, 80, 2, 1024, 7440030),
    GOES(50, FIN, 2, 1024, 1, 80, 1024, 7440050),
    /* a closing connection, and the data of another */
    BEGINS(1024, 3),
    GOES(0, SYN, 2, 1024, 1, 80, 1024, 240000),
    GOES(10, FIN, 2, 1024, 1, 80, 1024, 240010),
    GOES(20, FIN, 2, 1024, 1, 81, 1024, 240020),
    GOES(30, PSH, 2, 1024, 1, 81, 1024, 7440030),
    /* An echo identifier has a mapping of its own. 0 is an identifier, but no outside port. */
    BEGINS(1024, 6),
    GOES(0, UDP, 2, 1024, 1, 80, 1024, 300000),
    GOES(0, SYN, 3, 1024, 1, 80, 1024, 240000),
    GOES(0, ECHO, 4, 0, 1, 80, 1025, 60000),
    GOES(9, ECHO, 4, 1024, 1, 80, 1024, 60009),
    GOES(9, ECHO, 5, 1024, 1, 80, 0, 0),
    COMES(9, UDP, 1025, 1, 80, 0, 0, 0),
    COMES(9, ACK, 1025, 1, 80, 0, 0, 0),
    COMES(9, UDP, 1024, 1, 80, 2, 1024, 300000),
    COMES(9, ACK, 1024, 1, 80, 3, 1024, 240000),
    COMES(59999, ECHO, 1025, 2, 80, 4, 0, 60000),
    COMES(60000, ECHO, 1025, 2, 80, 0, 0, 0),
};

static uint64_t expires(enum kind kind, uint16_t port)
{
    size_t protocol = kind == UDP ? 0 : kind == ECHO ? 2 : 1;
    return mappings[protocol * (count / 3) + (size_t)(port - nat.first_port)].expires;
}

/* The packet comes in, to the inside endpoint. */
static int comes_in(const struct flow *flow, enum kind kind)
{
    const struct lk_endpoint remote = remote_of(flow->remote), inside = inside_of(flow->inside);
    const struct lk_endpoint outside = {{{203, 0, 113, 9}, 4}, flow->port};
    struct octets frame = packet(kind, IN, &remote, &outside);
    int result = pass(IN, flow->now, &frame);
    if (flow->inside.last == 0)
        return result == LK_NO_MAPPING;
    return result == 0 && memcmp(frame.at + 30, inside.addr.octets, 4) == 0 &&
           port_in(&frame, kind, IN) == inside.port;
}

/* The packet goes out by the port, and an answer comes in that ends no connection. */
static int goes_out(const struct flow *flow)
{
    const struct lk_endpoint remote = remote_of(flow->remote), inside = inside_of(flow->inside);
    struct octets frame = packet(flow->kind, OUT, &inside, &remote);
    int result = pass(OUT, flow->now, &frame);
    if (flow->port == 0)
        return result == LK_NO_FREE_PORT;
    return result == 0 && port_in(&frame, flow->kind, OUT) == flow->port &&
           comes_in(flow, flow->kind == UDP || flow->kind == ECHO ? flow->kind : ACK);
}

static void follow_flows(void)
{
    for (size_t i = 0; i < sizeof flows / sizeof *flows; i++) {
        const struct flow *flow = &flows[i];
        if (flow->count != 0) {
            begin_nat(flow->first_port, flow->count);
            continue;
        }
        CHECK_ROW(i, flow->way == OUT ? goes_out(flow) : comes_in(flow, flow->kind));
        CHECK_ROW(i, flow->expires == 0 || expires(flow->kind, flow->port) == flow->expires);
    }
}

/* ---- many ports ---- */

enum { PORTS = 65536 - 1024 };

static struct lk_mapping many[LK_MAPPINGS(PORTS)];

/* The outside port of a packet from 192.168.0.LAST. 0: no port is free. The model has no room for these. */
static unsigned port_of(uint8_t last, unsigned port)
{
    const struct lk_endpoint inside = inside_of((struct end){last, (uint16_t)port});
    struct octets frame = packet(UDP, OUT, &inside, &inside);
    int result = lk_translate_out(&nat, many, LK_MAPPINGS(PORTS), 0, frame.at, frame.len);
    return result == LK_NO_FREE_PORT ? 0 : port_in(&frame, UDP, OUT);
}

/* The port of 192.168.0.3 port 53 in this row and column. A row has 64 ports, 1,022 apart. */
static unsigned port_in_row(unsigned row, unsigned column)
{
    return 1024 + (47367 - 1024 + row + 1022 * column) % PORTS;
}

/* An endpoint gets the ports of its rows one after the other. Each of them becomes that of another host, and then all
 * others but the last. It keeps its port when an earlier one becomes free. */
static void try_each_port(void)
{
    begin_nat(1024, 0);
    memset(many, 0, sizeof many);
    for (unsigned i = 0; i < 3 * 64; i++) {
        CHECK_ROW(i, port_of(3, 53) == port_in_row(i / 64, i % 64));
        many[port_in_row(i / 64, i % 64) - 1024].inside[3] = 2;
    }
    for (unsigned port = 1024; port < 65536; port++)
        if (port != port_in_row(1021, 62))
            many[port - 1024].expires = 1, many[port - 1024].inside[3] = 2;
    CHECK(port_of(3, 53) == port_in_row(1021, 62));
    many[47367 - 1024].expires = 0;
    CHECK(port_of(3, 53) == port_in_row(1021, 62));
    CHECK(port_of(3, 54) == 47367);
    CHECK(port_of(3, 55) == 0);
    many[port_in_row(1021, 62) - 1024].expires = many[53000 - 1024].expires = 0;
    CHECK(port_of(3, 53000) == 53000 && port_of(3, 53) == port_in_row(1021, 62) && port_of(3, 56) == 0);
}

/* Ports in a row belong to one host: the first one, and how many. Another one uses so many of these: it gets others, as
 * long as a port is free. */
static void share_ports(void)
{
    static const unsigned rows[][3] = {{20000, 10000, 10000}, {1024, 60000, 4512}};
    for (size_t i = 0; i < sizeof rows / sizeof *rows; i++) {
        const unsigned first = rows[i][0], end = first + rows[i][1];
        begin_nat(1024, 0);
        memset(many, 0, sizeof many);
        for (unsigned port = first; port < end; port++)
            CHECK_ROW(i, port_of(2, port) == port);
        for (unsigned port = first; port < first + rows[i][2]; port++)
            CHECK_ROW(i, port_of(3, port) % 65536 - first >= rows[i][1] && port_of(3, port) != 0);
    }
    CHECK(port_of(3, 1024 + 4512) == 0);
}

/* ---- any bytes ---- */

static unsigned passed_to; /* the port or identifier that the packet has then */

/* A mapping that no call wrote, so that the model does not have it. A packet goes out from an endpoint, or comes in to one. */
static int passes_by(const struct lk_mapping *mapping, enum way way, enum kind kind, const struct lk_endpoint *end)
{
    const struct lk_endpoint remote = remote_of((struct end){1, 80});
    struct octets frame = way == OUT ? packet(kind, way, end, &remote) : packet(kind, way, &remote, end);
    int result;
    for (size_t i = 0; i < count; i++)
        mappings[i] = *mapping;
    result = way == OUT ? lk_translate_out(&nat, mappings, count, 0, frame.at, frame.len)
                        : lk_translate_in(&nat, mappings, count, 0, frame.at, frame.len);
    passed_to = port_in(&frame, kind, way);
    return result;
}

/* State 1 is an established connection, and 2 one that closes. Any other byte is one that opens. A mapping is shared if
 * its byte is not 0. */
static void know_any_state(void)
{
    struct lk_mapping mapping = {1, {192, 168, 0, 2}, {198, 51, 100, 1}, 1024, 80, 0, 0, 0};
    const struct lk_endpoint inside = inside_of((struct end){2, 1024});
    begin_nat(1024, 3);
    for (int state = 0; state < 256; state++) {
        mapping.state = (uint8_t)state, mapping.shared = 1;
        CHECK_ROW((size_t)state, passes_by(&mapping, OUT, FIN, &inside) == 0);
        CHECK_ROW((size_t)state, mappings[1].expires == (state == 1 ? 7440000 : 240000));
        mapping.shared = 0;
        CHECK_ROW((size_t)state, passes_by(&mapping, OUT, ACK, &inside) == 0);
        CHECK_ROW((size_t)state, mappings[1].expires == (state == 2 ? 240000 : 7440000));
    }
}

static void take_any_bytes(void)
{
    const struct lk_mapping strange = {UINT64_MAX, {255, 255, 255, 255}, {255, 255, 255, 255}, 0, 65535, 255, 255,
                                       65535};
    const struct lk_mapping to_0 = {300000, {192, 0, 2, 1}, {192, 0, 2, 2}, 0, 5353, 0, 0, 0};
    const struct lk_endpoint inside = inside_of((struct end){2, 1024}), stranger = {{{255, 255, 255, 255}, 4}, 0};
    struct lk_endpoint outside = {{{203, 0, 113, 9}, 4}, 1027};
    begin_nat(1024, 14);
    CHECK(passes_by(&strange, IN, FIN, &outside) == LK_NAT_PORT_ZERO);
    CHECK(passes_by(&strange, IN, ECHO, &outside) == 0 && passed_to == 0);
    outside.port = 1028;
    CHECK(passes_by(&strange, IN, FIN, &outside) == LK_NO_MAPPING);
    outside.port = 1024;
    CHECK(passes_by(&to_0, IN, UDP, &outside) == LK_NAT_PORT_ZERO);
    CHECK(passes_by(&strange, OUT, SYN, &inside) == LK_NO_FREE_PORT);
    CHECK(passes_by(&strange, OUT, ECHO, &stranger) == 0 && passed_to == 1026); /* its first row begins there */
    begin_nat(0, 14);
    outside.port = 0;
    CHECK(passes_by(&strange, IN, ECHO, &outside) == LK_NO_MAPPING);
}

void worked_mappings(void)
{
    translate_step_by_step();
    follow_flows();
    try_each_port();
    share_ports();
    know_any_state();
    take_any_bytes();
}
