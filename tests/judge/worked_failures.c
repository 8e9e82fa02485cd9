/* Worked calls that fail for several reasons at once. By include/ip_wire.h the failure is the first of them in the order of
 * the failures there. */
#include "worked.h"

/* The arguments of all calls. */
struct input {
    struct lk_frame frame;
    struct lk_tcp_options options;
    struct lk_ndisc ndisc;
    struct lk_route routes[2];
    struct lk_host host;
    struct lk_interface own;
    struct octets packet; /* a frame, of which `packet_len` bytes are passed */
    size_t packet_len, payload_len, cap;
};

/* Each wrong argument, in the order of their failures. */
enum wrong {
    SRC_VERSION, DST_VERSION, VERSIONS, PREFIX, SRC_PORT, DST_PORT, HOP_LIMIT, DSCP, ECN, IDENT, FRAGMENT, CONTROLS,
    OPTIONS, PAYLOAD, LENGTH, ROOM_LEFT, WRONGS
};

static const ptrdiff_t failures[WRONGS] = {
    LK_NO_VERSION, LK_NO_VERSION, LK_TWO_VERSIONS, LK_BAD_PREFIX, LK_EMIT_PORT_ZERO, LK_EMIT_PORT_ZERO, LK_NO_HOP_LIMIT, LK_BAD_FIELD,
    LK_BAD_FIELD, LK_BAD_FIELD, LK_BAD_FIELD, LK_TWO_CONTROLS, LK_OPTIONS_TOO_LONG, LK_PAYLOAD_TOO_LONG, LK_NO_HEADER,
    LK_NO_ROOM,
};

static struct input valid(unsigned version)
{
    const struct lk_endpoint src = endpoint(version == 4 ? "192.0.2.1:5353" : "[2001:db8::1]:5353");
    const struct lk_endpoint dst = endpoint(version == 4 ? "198.51.100.7:53" : "[2001:db8::7]:53");
    struct input in;
    memset(&in, 0, sizeof in);
    in.frame.src = src, in.frame.dst = dst;
    in.frame.ip.hop_limit = 64;
    in.frame.tcp.flags = LK_ACK;
    in.ndisc.target = dst.addr;
    for (int i = 0; i < 2; i++)
        in.routes[i].prefix.addr = dst.addr, in.routes[i].prefix.prefix_len = 24;
    in.host.ipv4 = in.own.ipv4 = addr("192.0.2.2");
    in.host.ipv6 = in.own.ipv6 = addr("2001:db8::2");
    memcpy(in.host.hardware, "\2\0\0\0\0\2", 6);
    memcpy(in.own.hardware, "\2\0\0\0\0\2", 6);
    in.host.echo_port = 7;
    in.packet = version == 4 ? ping : ping6;
    in.packet_len = in.packet.len;
    in.payload_len = 5;
    in.cap = ROOM;
    return in;
}

/* The first address of a call, and its second one. */
static void spoil_version(struct input *in, int is_dst)
{
    if (is_dst) {
        in->frame.dst.addr.version = 260;
        in->host.ipv6.version = in->own.ipv6.version = 0;
    } else {
        in->frame.src.addr.version = 0;
        in->ndisc.target.version = in->routes[1].prefix.addr.version = 5;
        in->host.ipv4.version = in->own.ipv4.version = 6;
    }
}

static void spoil(struct input *in, enum wrong wrong)
{
    switch (wrong) {
    case SRC_VERSION:
    case DST_VERSION: spoil_version(in, wrong == DST_VERSION); break;
    case VERSIONS: in->frame.dst.addr = addr(in->frame.dst.addr.version == 4 ? "2001:db8::7" : "198.51.100.7"); break;
    case PREFIX: in->routes[0].prefix.prefix_len = in->routes[1].prefix.prefix_len = 129; break;
    case SRC_PORT: in->frame.src.port = 0; break;
    case DST_PORT: in->frame.dst.port = 0; break;
    case HOP_LIMIT: in->frame.ip.hop_limit = 0; break;
    case DSCP: in->frame.ip.dscp = 64; break;
    case ECN: in->frame.ip.ecn = 4; break;
    case IDENT: in->frame.ip.ident = 65536; break;
    case FRAGMENT: in->frame.ip.fragment_offset = 4; break;
    case CONTROLS: in->frame.tcp.flags = LK_SYN | LK_FIN; break;
    case OPTIONS: in->options.sack_range_count = 5; break;
    case PAYLOAD: in->payload_len = 65536; break;
    case LENGTH: in->packet_len = LK_MAX_LEN + 1; break;
    default: in->cap = 0;
    }
}

/* ---- the calls ---- */

static const uint8_t payload[65536];
static char *const text = (char *)out;

#define BY(name, ...) \
    static ptrdiff_t by_##name(const struct input *in) { return both_##name(__VA_ARGS__); }
#define ENDS &in->frame.src, &in->frame.dst
#define ADDRS &in->frame.src.addr, &in->frame.dst.addr
#define DATA payload, in->payload_len
#define WRITTEN out, in->cap

BY(print_addr, &in->frame.src.addr, text, in->cap)
BY(print_endpoint, &in->frame.src, text, in->cap)
BY(print_prefix, &in->routes[1].prefix, text, in->cap)
BY(tcp_header_len, &in->options)
BY(emit_ethernet, &in->frame.ethernet, WRITTEN)
BY(emit_arp, &in->frame.arp, ADDRS, WRITTEN)
BY(emit_ip, &in->frame.ip, ADDRS, in->payload_len, 1, WRITTEN)
BY(emit_udp, ENDS, DATA, 1, WRITTEN)
BY(emit_tcp, &in->frame.tcp, &in->options, ENDS, DATA, 1, WRITTEN)
BY(emit_icmp, &in->frame.icmp, ADDRS, DATA, 1, WRITTEN)
BY(emit_arp_frame, &in->frame, WRITTEN)
BY(emit_udp_frame, &in->frame, DATA, WRITTEN)
BY(emit_tcp_frame, &in->frame, &in->options, DATA, WRITTEN)
BY(emit_icmp_frame, &in->frame, DATA, WRITTEN)
BY(emit_ndisc_frame, &in->frame, &in->ndisc, WRITTEN)
BY(emit_mld_report, &in->frame, WRITTEN)
BY(wrap_udp_frame, &in->frame, in->payload_len, WRITTEN)
BY(wrap_tcp_frame, &in->frame, &in->options, in->payload_len, WRITTEN)
BY(emit_udp_packet, &in->frame, DATA, WRITTEN)
BY(emit_tcp_packet, &in->frame, &in->options, DATA, WRITTEN)
BY(emit_icmp_packet, &in->frame, DATA, WRITTEN)
BY(wrap_udp_packet, &in->frame, in->payload_len, WRITTEN)
BY(wrap_tcp_packet, &in->frame, &in->options, in->payload_len, WRITTEN)
BY(rebuild, in->packet.at, in->packet_len, WRITTEN)
BY(answer, &in->host, in->packet.at, in->packet_len, WRITTEN)
BY(emit_icmp_error, &in->own, LK_PROHIBITED, 0, in->packet.at, in->packet_len, WRITTEN)

/* Two routes, and as many nodes if there is room. */
static ptrdiff_t by_index_routes(const struct input *in)
{
    static struct lk_route_node nodes[2];
    return both_index_routes(in->routes, 2, nodes, in->cap == 0 ? 1 : 2);
}

#define BIT(wrong) (1u << (wrong))
#define ONE (BIT(SRC_VERSION) | BIT(ROOM_LEFT))
#define TWO (ONE | BIT(DST_VERSION))
#define SEGMENT (TWO | BIT(VERSIONS) | BIT(PAYLOAD))
#define HEADER (SEGMENT | BIT(HOP_LIMIT) | BIT(DSCP) | BIT(ECN) | BIT(IDENT) | BIT(FRAGMENT))
#define TCP (BIT(SRC_PORT) | BIT(DST_PORT) | BIT(CONTROLS) | BIT(OPTIONS))

/* `wrong`: what may be wrong in a call. `version`: of its addresses; 0: either. */
static const struct {
    ptrdiff_t (*call)(const struct input *in);
    unsigned wrong, version;
} calls[] = {
    {by_print_addr, ONE, 0},
    {by_print_endpoint, ONE, 0},
    {by_print_prefix, ONE | BIT(PREFIX), 0},
    {by_tcp_header_len, BIT(OPTIONS), 0},
    {by_emit_ethernet, BIT(ROOM_LEFT), 0},
    {by_emit_arp, TWO, 4},
    {by_emit_ip, HEADER, 0},
    {by_emit_udp, SEGMENT | BIT(DST_PORT), 0},
    {by_emit_tcp, SEGMENT | TCP, 0},
    {by_emit_icmp, SEGMENT, 0},
    {by_emit_arp_frame, TWO, 4},
    {by_emit_udp_frame, HEADER | BIT(DST_PORT), 0},
    {by_emit_tcp_frame, HEADER | TCP, 0},
    {by_emit_icmp_frame, HEADER, 0},
    {by_emit_ndisc_frame, TWO, 6},
    {by_emit_mld_report, TWO, 6},
    {by_wrap_udp_frame, HEADER | BIT(DST_PORT), 0},
    {by_wrap_tcp_frame, HEADER | TCP, 0},
    {by_emit_udp_packet, HEADER | BIT(DST_PORT), 0},
    {by_emit_tcp_packet, HEADER | TCP, 0},
    {by_emit_icmp_packet, HEADER, 0},
    {by_wrap_udp_packet, HEADER | BIT(DST_PORT), 0},
    {by_wrap_tcp_packet, HEADER | TCP, 0},
    {by_rebuild, BIT(LENGTH) | BIT(ROOM_LEFT), 0},
    {by_answer, TWO | BIT(LENGTH), 0},
    {by_emit_icmp_error, TWO | BIT(LENGTH), 0},
    {by_index_routes, ONE | BIT(PREFIX), 0},
};

/* Each set of wrong arguments has the failure of the first. The others are spoiled before it. */
static void fail_by_each_set(size_t row, unsigned version)
{
    const struct input right = valid(version);
    CHECK_ROW(row, calls[row].call(&right) > 0);
    for (unsigned set = calls[row].wrong; set != 0; set = (set - 1) & calls[row].wrong) {
        struct input in = right;
        ptrdiff_t first = 0;
        for (int wrong = WRONGS - 1; wrong >= 0; wrong--)
            if (set & BIT(wrong))
                spoil(&in, (enum wrong)wrong), first = failures[wrong];
        clear();
        CHECK_ROW(row, calls[row].call(&in) == first);
        CHECK_ROW(row, holds(&nothing, 0));
    }
}

void worked_failures(void)
{
    for (size_t row = 0; row < sizeof calls / sizeof *calls; row++)
        for (unsigned version = 4; version <= 6; version += 2)
            if (calls[row].version == 0 || calls[row].version == version)
                fail_by_each_set(row, version);
}
