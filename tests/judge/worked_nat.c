/* Worked calls of NAT, of one packet and with a table. */
#include "worked.h"

/* What is translated: the inside and the outside endpoint of the frames. */
static const struct lk_endpoint inside = {{{192, 0, 2, 1}, 4}, 46563}, outside = {{{203, 0, 113, 9}, 4}, 40000};

/* A frame that is not translated, with the first reason of the list that applies. */
struct rejected {
    const struct octets *frame;
    size_t len;
    struct change changes[CHANGES];
    int rejection;
};

/* Every call rejects these. */
static const struct rejected not_translated[] = {
    {&query, 13, {{0, 0}}, LK_NOT_IP},
    {&router_solicit, 70, {{0, 0}}, LK_NOT_IP},
    {&query, 46, {{13, 0x06}}, LK_NOT_IP},
    {&query, 45, {{0, 0}}, LK_BAD_HEADER},
    {&query, 46, {{14, 0x65}}, LK_BAD_HEADER},
    {&fragment_of_options, 50, {{24, 0}}, LK_WRONG_CHECKSUM},
    {&fragment_of_options, 50, {{0, 0}}, LK_FRAGMENT},
    {&fragment_of_options, 50, {{23, 0x10}, {25, 0xb8}}, LK_FRAGMENT}, /* of another protocol */
    {&query, 46, {{23, 0x10}, {25, 0xd5}}, LK_OTHER_PROTOCOL},
    {&query, 46, {{39, 0x07}}, LK_BAD_TRANSPORT},
    {&query, 46, {{36, 0}, {37, 0}, {40, 0xe7}, {41, 0x1d}}, LK_BAD_TRANSPORT},
    {&query, 46, {{45, 0x68}}, LK_BAD_TRANSPORT},
    {&query, 46, {{40, 0x84}, {41, 0x21}}, LK_BAD_TRANSPORT}, /* checksum offload */
    {&syn, 74, {{47, 0x03}}, LK_BAD_TRANSPORT},
    {&syn, 74, {{73, 0x0b}}, LK_BAD_TRANSPORT},
    {&query, 46, {{34, 0}, {35, 0}}, LK_BAD_TRANSPORT}, /* a wrong checksum, and from port 0 */
    {&query, 46, {{12, 0x86}, {13, 0xdd}}, LK_NOT_IP},
    {&query, 14, {{0, 0}}, LK_BAD_HEADER},
    {&query, 46, {{17, 0x21}}, LK_BAD_HEADER},
    {&query, 46, {{24, 0x21}}, LK_WRONG_CHECKSUM},
    {&query, 46, {{20, 0x20}, {24, 0x40}, {25, 0xd4}}, LK_FRAGMENT},
    {&query, 46, {{23, 0x02}, {24, 0x20}, {25, 0xe3}}, LK_OTHER_PROTOCOL},
    {&query, 46, {{40, 0xd3}}, LK_BAD_TRANSPORT},
    {&query, 46, {{39, 0x0d}}, LK_BAD_TRANSPORT},
    {&syn, 74, {{51, 0xbe}}, LK_BAD_TRANSPORT},
    {&syn, 74, {{37, 0x51}}, LK_BAD_TRANSPORT},
    {&syn, 74, {{37, 0x00}, {50, 0xd9}, {51, 0x0d}}, LK_BAD_TRANSPORT}, /* a valid checksum, and to port 0 */
    /* Two faults in one frame. Where the IPv4 checksum is to be valid, it was computed anew (bytes 24 and 25). */
    {&query, 46, {{13, 0x06}, {14, 0x65}}, LK_NOT_IP},
    {&query, 46, {{13, 0x06}, {20, 0x20}}, LK_NOT_IP},
    {&query, 46, {{14, 0x65}, {24, 0x21}}, LK_BAD_HEADER},
    {&query, 46, {{14, 0x44}, {20, 0x20}}, LK_BAD_HEADER},
    {&query, 46, {{17, 0x21}, {23, 0x02}}, LK_BAD_HEADER},
    {&query, 46, {{20, 0x20}}, LK_WRONG_CHECKSUM},
    {&query, 46, {{23, 0x02}}, LK_WRONG_CHECKSUM},
    {&query, 46, {{24, 0x21}, {40, 0xd3}}, LK_WRONG_CHECKSUM},
    {&query, 46, {{20, 0x20}, {23, 0x02}, {24, 0x40}, {25, 0xe3}}, LK_FRAGMENT},
    {&query, 46, {{20, 0x20}, {24, 0x40}, {40, 0xd3}}, LK_FRAGMENT},
    {&query, 46, {{23, 0x02}, {25, 0xe3}, {40, 0xd3}}, LK_OTHER_PROTOCOL},
    {&query, 46, {{36, 0x00}, {37, 0x00}, {39, 0x07}, {40, 0xd3}}, LK_BAD_TRANSPORT},
    /* A timestamp, and an echo with a code, each with a valid checksum. */
    {&echo7, 46, {{34, 0x0d}, {36, 0x14}}, LK_OTHER_PROTOCOL},
    {&echo7, 46, {{35, 0x01}, {37, 0x26}}, LK_OTHER_PROTOCOL},
    /* A timestamp, and an echo with a code, each with a wrong checksum. Then messages of 7, 1 and 2 bytes. */
    {&nat_request, 47, {{34, 0x0d}}, LK_OTHER_PROTOCOL},
    {&nat_request, 47, {{35, 0x01}}, LK_OTHER_PROTOCOL},
    {&nat_request, 47, {{17, 0x1b}, {25, 0x9d}, {34, 0x0d}}, LK_OTHER_PROTOCOL},
    {&nat_request, 47, {{17, 0x15}, {25, 0xa3}, {34, 0x0d}}, LK_OTHER_PROTOCOL},
    {&nat_request, 47, {{17, 0x16}, {25, 0xa2}, {35, 0x01}}, LK_OTHER_PROTOCOL},
    /* An echo with a wrong checksum, and echoes of 7, 1 and 0 bytes. */
    {&nat_request, 47, {{36, 0x43}}, LK_BAD_TRANSPORT},
    {&nat_request, 47, {{17, 0x1b}, {25, 0x9d}, {37, 0x1c}}, LK_BAD_TRANSPORT},
    {&nat_request, 47, {{17, 0x15}, {25, 0xa3}}, LK_BAD_TRANSPORT},
    {&nat_request, 47, {{17, 0x14}, {25, 0xa4}}, LK_BAD_TRANSPORT},
};

/* ICMP errors for the outside address. The echo request that the unchanged one quotes has a mapping. */
static const struct rejected not_let_in[] = {
    {&nat_error_in, 70, {{34, 0x05}, {36, 0xfa}}, LK_OTHER_PROTOCOL}, /* a redirect */
    {&nat_error_in, 70, {{34, 0x05}}, LK_OTHER_PROTOCOL},             /* with a wrong checksum */
    {&nat_error_in, 70, {{37, 0xd1}}, LK_BAD_TRANSPORT},
    {&nat_error_in, 70, {{17, 0x1b}, {25, 0x98}, {37, 0xff}}, LK_BAD_TRANSPORT}, /* of 7 bytes */
    /* It quotes 7 bytes after the header, IPv6, and a header of 16 and of 24 bytes. */
    {&nat_error_in, 70, {{17, 0x37}, {25, 0x7c}, {37, 0xd1}}, LK_BAD_TRANSPORT},
    {&nat_error_in, 70, {{36, 0xd4}, {42, 0x65}}, LK_BAD_TRANSPORT},
    {&nat_error_in, 70, {{36, 0xf5}, {42, 0x44}}, LK_BAD_TRANSPORT},
    {&nat_error_in, 70, {{36, 0xf3}, {42, 0x46}}, LK_BAD_TRANSPORT},
    /* It quotes GRE: with a wrong checksum, in 7 bytes after the header, and neither. */
    {&nat_error_in, 70, {{51, 0x2f}}, LK_BAD_TRANSPORT},
    {&nat_error_in, 70, {{17, 0x37}, {25, 0x7c}, {37, 0xa3}, {51, 0x2f}}, LK_BAD_TRANSPORT},
    {&nat_error_in, 70, {{37, 0xa2}, {51, 0x2f}}, LK_NO_MAPPING},
    {&nat_error_in, 70, {{37, 0xcf}, {49, 0x01}}, LK_NO_MAPPING}, /* a later fragment */
    {&nat_error_in, 70, {{36, 0xfc}, {62, 0x00}}, LK_NO_MAPPING}, /* an echo reply */
    {&nat_error_in, 70, {{25, 0x7a}, {33, 0x0a}}, LK_NO_MAPPING}, /* for another address */
    {&nat_error_in, 70, {{37, 0xcf}, {57, 0x0a}}, LK_NO_MAPPING}, /* about a packet from another address */
};

/* ICMP errors of an inside host. The UDP packet that the unchanged one quotes has a mapping. */
static const struct rejected not_let_out[] = {
    {&nat_error_of_inside, 74, {{37, 0x38}, {51, 0x2f}}, LK_NO_MAPPING},                         /* GRE */
    {&nat_error_of_inside, 74, {{37, 0x55}, {49, 0x01}}, LK_NO_MAPPING},                         /* a later fragment */
    {&nat_error_of_inside, 74, {{36, 0xf5}, {37, 0x66}, {51, 0x01}, {62, 0x08}}, LK_NO_MAPPING}, /* an echo request */
};

#define ROWS(table) (sizeof(table) / sizeof *(table))

/* ---- NAT of one packet ---- */

/* One side of the frame becomes this endpoint. */
static int translate(struct octets *frame, int side, const struct lk_endpoint *end)
{
    return both_translate(frame->at, frame->len, side, end);
}

static int is_now(const struct octets *frame, const struct octets *wanted)
{
    return frame->len == wanted->len && memcmp(frame->at, wanted->at, frame->len) == 0;
}

static void translate_one(void)
{
    static const int destinations[] = {LK_DESTINATION, 256, -1};
    struct lk_endpoint other = outside;
    struct octets frame = query;
    CHECK(translate(&frame, LK_SOURCE, &outside) == 0 && is_now(&frame, &query_out));
    CHECK(translate(&frame, LK_SOURCE, &inside) == 0 && is_now(&frame, &query));
    for (size_t i = 0; i < 3; i++) {
        frame = response_in;
        CHECK_ROW(i, translate(&frame, destinations[i], &inside) == 0 && is_now(&frame, &response));
    }
    frame = syn;
    other.port = 40001;
    CHECK(translate(&frame, LK_SOURCE, &other) == 0 && is_now(&frame, &syn_out));
}

#define NO_SUM {{40, 0}, {41, 0}}
#define OF_0 {{34, 0}, {35, 0}, {40, 0x88}, {41, 0x18}}
#define OUT_OF_0 {{34, 0}, {35, 0}, {40, 0x0e}, {41, 0x10}}
#define OTHER_ID {18, 0xb6}, {19, 0xc9}
#define NO_DATA {41, 0}, {42, 0}, {43, 0}, {44, 0}, {45, 0}

/* A frame whose source, or destination, becomes the inside or the outside address with this port. */
static const struct {
    const struct octets *frame;
    struct change before[CHANGES];
    int side;
    const struct lk_endpoint *end;
    uint16_t port;
    const struct octets *wanted;
    struct change after[CHANGES];
} translated[] = {
    {&data_in, {{0, 0}}, LK_DESTINATION, &inside, 60784, &data, {{0, 0}}},
    {&query_of_options, {{0, 0}}, LK_SOURCE, &outside, 40000, &query_of_options_out, {{0, 0}}},
    /* no checksum; a computed one of 0, of UDP and of TCP */
    {&query, NO_SUM, LK_SOURCE, &outside, 40000, &query_out, NO_SUM},
    {&query, {{0, 0}}, LK_SOURCE, &outside, 0x0e10, &query_out, {{34, 0x0e}, {35, 0x10}, {40, 0xff}, {41, 0xff}}},
    {&syn, {{0, 0}}, LK_SOURCE, &outside, 0x4c26, &syn_out, {{34, 0x4c}, {35, 0x26}, {50, 0}, {51, 0}}},
    /* a source port of 0 */
    {&query, {{0, 0}}, LK_SOURCE, &outside, 0, &query_out, OUT_OF_0},
    {&query_out, OUT_OF_0, LK_SOURCE, &inside, 46563, &query, {{0, 0}}},
    {&query, OF_0, LK_SOURCE, &outside, 40000, &query_out, {{0, 0}}},
    {&query_out, {{0, 0}}, LK_SOURCE, &inside, 0, &query, OF_0},
    /* an IPv4 checksum of 0xffff, which no sender computes (RFC 1624, section 4): it becomes 0 on the way back */
    {&query, {OTHER_ID, {24, 0xff}, {25, 0xff}}, LK_SOURCE, &outside, 40000, &query_out,
     {OTHER_ID, {24, 0x85}, {25, 0xf7}}},
    {&query_out, {OTHER_ID, {24, 0x85}, {25, 0xf7}}, LK_SOURCE, &inside, 46563, &query,
     {OTHER_ID, {24, 0x00}, {25, 0x00}}},
    /* identifiers, also 0 */
    {&echo7, {{0, 0}}, LK_SOURCE, &outside, 40000, &echo7_out, {{0, 0}}},
    {&echo7_out, {{0, 0}}, LK_SOURCE, &inside, 7, &echo7, {{0, 0}}},
    {&echo7_reply_in, {{0, 0}}, LK_DESTINATION, &inside, 7, &echo7_reply, {{0, 0}}},
    {&echo7_reply_in, {{0, 0}}, LK_DESTINATION, &inside, 0, &echo7_reply, {{37, 0x2e}, {39, 0}}},
    {&echo7, {{37, 0x2e}, {39, 0}}, LK_SOURCE, &outside, 40000, &echo7_out, {{0, 0}}},
    /* a reply whose bytes are all 0: its checksum is 0xffff, since a sum of 0 is not valid */
    {&echo7_reply_in, {{36, 0x63}, {37, 0xbf}, NO_DATA}, LK_DESTINATION, &inside, 0, &echo7_reply,
     {{36, 0xff}, {37, 0xff}, {39, 0}, NO_DATA}},
};

static void translate_by_rows(void)
{
    for (size_t i = 0; i < ROWS(translated); i++) {
        struct octets frame = cut(translated[i].frame, translated[i].frame->len, translated[i].before);
        const struct octets wanted = cut(translated[i].wanted, translated[i].wanted->len, translated[i].after);
        struct lk_endpoint end = *translated[i].end;
        end.port = translated[i].port;
        CHECK_ROW(i, translate(&frame, translated[i].side, &end) == 0 && is_now(&frame, &wanted));
    }
}

static void translate_ports_of_0(void)
{
    struct lk_endpoint no_port = outside;
    struct octets frame = query;
    no_port.port = 0;
    CHECK(translate(&frame, LK_DESTINATION, &no_port) == LK_NAT_PORT_ZERO && is_now(&frame, &query));
    CHECK(translate(&frame, LK_SOURCE, &no_port) == 0 && frame.at[34] == 0 && frame.at[35] == 0);
    CHECK(translate(&frame, LK_SOURCE, &inside) == 0 && is_now(&frame, &query));
    frame = syn;
    CHECK(translate(&frame, LK_SOURCE, &no_port) == LK_NAT_PORT_ZERO && is_now(&frame, &syn));
    CHECK(translate(&frame, LK_DESTINATION, &no_port) == LK_NAT_PORT_ZERO && is_now(&frame, &syn));
    frame = response_in;
    CHECK(translate(&frame, LK_DESTINATION, &no_port) == LK_NAT_PORT_ZERO && is_now(&frame, &response_in));
    frame = data_in;
    CHECK(translate(&frame, LK_DESTINATION, &no_port) == LK_NAT_PORT_ZERO && is_now(&frame, &data_in));
    frame = changed(query, 40, 0xd3); /* a wrong checksum is the reason before it */
    CHECK(translate(&frame, LK_DESTINATION, &no_port) == LK_BAD_TRANSPORT);
}

static void translate_rejects(void)
{
    for (size_t i = 0; i < ROWS(not_translated); i++) {
        const struct octets before = cut(not_translated[i].frame, not_translated[i].len, not_translated[i].changes);
        struct octets frame = before;
        CHECK_ROW(i, translate(&frame, LK_SOURCE, &outside) == not_translated[i].rejection);
        CHECK_ROW(i, translate(&frame, LK_DESTINATION, &outside) == not_translated[i].rejection);
        CHECK_ROW(i, is_now(&frame, &before));
    }
}

/* ---- NAT with a table ---- */

/* Two outside ports, 39999 and 40000, which the inside ports of the frames are not. By this key the row of
 * each begins with 39999. */
static const struct lk_nat nat = {{2, 1}, 300000, 7440000, 240000, 60000, {203, 0, 113, 9}, 39999, 0};
enum { MAPPINGS = LK_MAPPINGS(2) };

static struct lk_mapping mappings[MAPPINGS];

static void begin_nat(void)
{
    memset(mappings, 0, sizeof mappings);
    forget_mappings();
}

/* The frame goes out, or comes in: it becomes `translated`. */
static int goes_out(uint64_t now, const struct octets *frame, struct octets *translated)
{
    *translated = *frame;
    return both_translate_out(&nat, mappings, MAPPINGS, now, translated->at, translated->len);
}

static int comes_in(uint64_t now, const struct octets *frame, struct octets *translated)
{
    *translated = *frame;
    return both_translate_in(&nat, mappings, MAPPINGS, now, translated->at, translated->len);
}

static unsigned source_port(const struct octets *frame)
{
    return frame->at[34] * 256u + frame->at[35];
}

static void translate_udp(void)
{
    /* The source port becomes 46564 and 46565. */
    const struct octets next = changed(changed(query, 35, 0xe4), 41, 0x33);
    const struct octets third = changed(changed(query, 35, 0xe5), 41, 0x32);
    struct octets frame;
    begin_nat();
    CHECK(comes_in(0, &response_in, &frame) == LK_NO_MAPPING);
    CHECK(goes_out(0, &next, &frame) == 0 && source_port(&frame) == 39999);
    CHECK(goes_out(1, &query, &frame) == 0 && is_now(&frame, &query_out));
    CHECK(mappings[0].expires == 300000 && mappings[1].expires == 300001);
    CHECK(goes_out(2, &third, &frame) == LK_NO_FREE_PORT);
    CHECK(comes_in(3, &response_in, &frame) == 0 && is_now(&frame, &response));
    CHECK(goes_out(299999, &next, &frame) == 0 && source_port(&frame) == 39999);
    CHECK(comes_in(300000, &response_in, &frame) == 0 && is_now(&frame, &response));
    CHECK(comes_in(300001, &response_in, &frame) == LK_NO_MAPPING);
    CHECK(goes_out(300001, &third, &frame) == 0 && source_port(&frame) == 40000);
}

/* Each of 63 ports is in the row of every endpoint. So as many endpoints get a port, and no other one. */
static void translate_to_each_port(void)
{
    enum { PORTS = 63 };
    static struct lk_mapping table[LK_MAPPINGS(PORTS)];
    forget_mappings();
    for (size_t i = 0; i <= PORTS; i++) {
        struct lk_endpoint end = inside;
        struct octets frame = query;
        end.port = (uint16_t)(1 + i);
        CHECK(translate(&frame, LK_SOURCE, &end) == 0);
        CHECK_ROW(i, both_translate_out(&nat, table, LK_MAPPINGS(PORTS), 0, frame.at, frame.len) ==
                         (i < PORTS ? LK_NOT_REJECTED : LK_NO_FREE_PORT));
    }
}

/* ---- the ends of TCP connections ---- */

static const struct lk_endpoint client = {{{192, 0, 2, 1}, 4}, 40000}, server = {{{198, 51, 100, 7}, 4}, 80};
static const struct lk_endpoint other_server = {{{198, 51, 100, 7}, 4}, 443};

/* A segment with these flags, and what becomes of it. */
static int segment(uint64_t now, unsigned flags, const struct lk_endpoint *from, const struct lk_endpoint *to)
{
    struct lk_tcp_options options;
    struct lk_frame headers;
    struct octets frame = {{0}, 54};
    memset(&options, 0, sizeof options);
    memset(&headers, 0, sizeof headers);
    headers.src = *from;
    headers.dst = *to;
    headers.ip.hop_limit = 64;
    headers.tcp.flags = (uint8_t)flags;
    CHECK(both_emit_tcp_frame(&headers, &options, 0, 0, frame.at, ROOM) == 54);
    return from == &client ? goes_out(now, &frame, &frame) : comes_in(now, &frame, &frame);
}

/* A mapping that was used last at this time, with this time-out, is live before its end. */
static void lives(int line, uint64_t now, uint64_t timeout)
{
    check(__FILE__, line, 0, segment(now + timeout - 1, LK_ACK, &server, &outside) == 0);
    check(__FILE__, line, 1, segment(now + timeout, LK_ACK, &server, &outside) == LK_NO_MAPPING);
}

static void translate_tcp(void)
{
    begin_nat();
    CHECK(segment(0, LK_SYN, &client, &server) == 0 && mappings[3].expires == 240000);
    CHECK(segment(1, LK_SYN | LK_ACK, &server, &outside) == 0);
    lives(__LINE__, 0, 240000);
    CHECK(segment(240000, LK_SYN, &client, &server) == 0 && segment(240001, LK_ACK, &client, &server) == 0);
    lives(__LINE__, 240001, 7440000);
    begin_nat();
    CHECK(segment(0, LK_ACK, &client, &server) == 0 && segment(10, LK_FIN | LK_ACK, &server, &outside) == 0);
    lives(__LINE__, 10, 240000);
    begin_nat();
    CHECK(segment(0, LK_ACK, &client, &server) == 0 && segment(10, LK_FIN, &client, &server) == 0);
    CHECK(segment(20, LK_ACK, &client, &server) == 0);
    lives(__LINE__, 20, 240000);
    CHECK(segment(300000, LK_SYN, &client, &server) == 0 && segment(300001, LK_ACK, &client, &server) == 0);
    lives(__LINE__, 300001, 7440000);
    begin_nat(); /* of two connections one ends */
    CHECK(segment(0, LK_ACK, &client, &server) == 0 && segment(1, LK_ACK, &client, &other_server) == 0);
    CHECK(segment(10, LK_FIN, &client, &server) == 0 && segment(11, LK_RST, &other_server, &outside) == 0);
    lives(__LINE__, 10, 7440000);
}

static void translate_by_table_rejects(void)
{
    const struct octets no_source = changed(changed(changed(changed(query, 34, 0), 35, 0), 40, 0), 41, 0);
    struct octets frame;
    begin_nat();
    for (size_t i = 0; i < ROWS(not_translated); i++) {
        const struct octets before = cut(not_translated[i].frame, not_translated[i].len, not_translated[i].changes);
        CHECK_ROW(i, goes_out(0, &before, &frame) == not_translated[i].rejection && is_now(&frame, &before));
        CHECK_ROW(i, comes_in(0, &before, &frame) == not_translated[i].rejection && is_now(&frame, &before));
    }
    CHECK(goes_out(0, &no_source, &frame) == LK_NAT_PORT_ZERO);
    CHECK(both_translate_out(&nat, 0, 0, 0, frame.at, frame.len) == LK_NAT_PORT_ZERO);
    CHECK(goes_out(0, &nat_reply_in, &frame) == LK_NO_MAPPING);
    CHECK(both_translate_out(&nat, 0, 0, 0, frame.at, frame.len) == LK_NO_MAPPING);
    CHECK(comes_in(0, &query, &frame) == LK_NO_MAPPING); /* for another address */
    frame = query;
    CHECK(both_translate_out(&nat, 0, 0, 0, frame.at, frame.len) == LK_NO_FREE_PORT);
    CHECK(both_translate_out(&nat, mappings, LK_MAX_LEN + 1, 0, frame.at, frame.len) == LK_NO_FREE_PORT);
    CHECK(is_now(&frame, &query));
    frame = response_in;
    CHECK(both_translate_in(&nat, 0, 0, 0, frame.at, frame.len) == LK_NO_MAPPING);
    CHECK(both_translate_in(&nat, mappings, (size_t)LK_NO_ROOM, 0, frame.at, frame.len) == LK_NO_MAPPING);
    CHECK(is_now(&frame, &response_in));
}

/* ---- ICMP ---- */

static void becomes(int line, int came, const struct octets *frame, const struct octets *wanted)
{
    check(__FILE__, line, 0, came == 0 && is_now(frame, wanted));
}

#define GOES_OUT(now, frame, wanted) becomes(__LINE__, goes_out(now, &frame, &translated), &translated, &wanted)
#define COMES_IN(now, frame, wanted) becomes(__LINE__, comes_in(now, &frame, &translated), &translated, &wanted)
#define STAYS_OUT(now, frame, rejection) \
    (CHECK(comes_in(now, &frame, &translated) == (rejection)), CHECK(is_now(&translated, &frame)))

static void translate_echoes(void)
{
    static const struct lk_mapping no_mappings[MAPPINGS - 2];
    struct octets translated;
    begin_nat();
    STAYS_OUT(0, nat_reply_in, LK_NO_MAPPING);
    STAYS_OUT(0, nat_error_in, LK_NO_MAPPING);
    GOES_OUT(0, nat_request, nat_request_out);
    COMES_IN(1, nat_reply_in, nat_reply);
    COMES_IN(2, nat_error_in, nat_error);
    COMES_IN(3, nat_error_unsummed_in, nat_error_unsummed);
    COMES_IN(59999, nat_reply_in, nat_reply);
    STAYS_OUT(60000, nat_reply_in, LK_NO_MAPPING);
    STAYS_OUT(60000, nat_error_in, LK_NO_MAPPING);
    STAYS_OUT(60000, nat_request, LK_NO_MAPPING);
    CHECK(memcmp(mappings, no_mappings, sizeof no_mappings) == 0); /* no mapping of UDP or TCP */
}

static void translate_errors_out(void)
{
    struct octets translated;
    begin_nat();
    CHECK(goes_out(0, &nat_error_of_inside, &translated) == LK_NO_MAPPING);
    CHECK(is_now(&translated, &nat_error_of_inside));
    CHECK(goes_out(0, &nat_udp, &translated) == 0 && source_port(&translated) == 39999);
    GOES_OUT(1, nat_error_of_inside, nat_error_out);
    STAYS_OUT(2, expired, LK_NO_MAPPING);
}

static void translate_no_other_errors(void)
{
    struct octets translated;
    begin_nat();
    CHECK(goes_out(0, &nat_request, &translated) == 0 && goes_out(0, &nat_udp, &translated) == 0);
    for (size_t i = 0; i < ROWS(not_let_in); i++) {
        const struct octets error = cut(not_let_in[i].frame, not_let_in[i].len, not_let_in[i].changes);
        CHECK_ROW(i, comes_in(1, &error, &translated) == not_let_in[i].rejection && is_now(&translated, &error));
    }
    for (size_t i = 0; i < ROWS(not_let_out); i++) {
        const struct octets error = cut(not_let_out[i].frame, not_let_out[i].len, not_let_out[i].changes);
        CHECK_ROW(i, goes_out(1, &error, &translated) == not_let_out[i].rejection && is_now(&translated, &error));
    }
}

static void translate_one_echo(void)
{
    struct lk_endpoint end = outside;
    struct octets frame = nat_request;
    end.port = 39999;
    CHECK(translate(&frame, LK_SOURCE, &end) == 0 && is_now(&frame, &nat_request_out));
    end.port = 0;
    CHECK(translate(&frame, LK_SOURCE, &end) == 0 && frame.at[38] == 0 && frame.at[39] == 0);
    frame = nat_error_in;
    CHECK(translate(&frame, LK_DESTINATION, &outside) == LK_OTHER_PROTOCOL && is_now(&frame, &nat_error_in));
    frame.at[37]++; /* a wrong checksum */
    CHECK(translate(&frame, LK_DESTINATION, &outside) == LK_OTHER_PROTOCOL);
}

void worked_nat(void)
{
    translate_one();
    translate_by_rows();
    translate_ports_of_0();
    translate_rejects();
    translate_udp();
    translate_to_each_port();
    translate_tcp();
    translate_by_table_rejects();
    translate_echoes();
    translate_errors_out();
    translate_no_other_errors();
    translate_one_echo();
}
