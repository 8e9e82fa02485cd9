/* The model of replies, rebuilt frames, and a host. */
#include <string.h>
#include "model.h"

static void exchange(void *a, void *b, size_t len)
{
    uint8_t kept[64];
    memcpy(kept, a, len);
    memcpy(a, b, len);
    memcpy(b, kept, len);
}

/* Open: the IP fields become those of a new packet in a frame without an IP header too. */
void model_make_reply(struct lk_frame *frame)
{
    exchange(frame->ethernet.src, frame->ethernet.dst, 6);
    exchange(&frame->src, &frame->dst, sizeof frame->src);
    exchange(frame->arp.src_hardware, frame->arp.dst_hardware, 6);
    frame->ip.hop_limit = 64;
    frame->ip.ecn = 0;
    frame->ip.ident = 0;
    frame->ip.dont_fragment = 1;
    frame->ip.flow_label = 0;
    frame->ip.fragment_offset = 0;
    frame->ip.more_fragments = 0;
}

/* Copies a result to `out`, if there is room for it. */
static ptrdiff_t finish(const uint8_t *octets, size_t len, uint8_t *out, size_t cap)
{
    if (len > used_len(cap))
        return LK_NO_ROOM;
    if (len != 0)
        memcpy(out, octets, len);
    return (ptrdiff_t)len;
}

static int is_valid(int verdict)
{
    return verdict == LK_CHECKSUM_VALID || verdict == LK_CHECKSUM_OMITTED;
}

/* ---- rebuilding ---- */

static size_t copy(const uint8_t *ptr, size_t len, uint8_t *out)
{
    memcpy(out, ptr, len);
    return len;
}

/* ICMP is the payload of another protocol here. */
static int has_valid_transport(const struct lk_frame *frame)
{
    return (frame->transport == LK_UDP || frame->transport == LK_TCP) && is_valid(frame->transport_checksum);
}

static void rebuild_flags(struct lk_tcp *tcp)
{
    unsigned old = tcp->flags, kept = old & (LK_SYN | LK_FIN | LK_RST);
    if (kept == 0)
        kept = old & LK_PSH;
    tcp->flags = (uint8_t)(kept | (old & LK_ACK));
    tcp->urgent_at = 0;
    if ((old & LK_ACK) == 0)
        tcp->ack_number = 0;
}

static size_t rebuild_tcp(const struct lk_frame *frame, const uint8_t *ptr, uint8_t *out)
{
    struct lk_tcp tcp = frame->tcp;
    struct lk_tcp_options options;
    rebuild_flags(&tcp);
    model_find_tcp_options(ptr + frame->transport_offset, tcp.header_len, &options);
    return put_tcp(&tcp, &options, tcp.flags & LK_ACK, &frame->src, &frame->dst, ptr + frame->payload_offset,
                   frame->payload_len, 1, out);
}

/* The payload of an IP header: `len` bytes at `at`. */
static size_t rebuild_transport(const struct lk_frame *frame, const uint8_t *ptr, size_t at, size_t len, uint8_t *out)
{
    if (!has_valid_transport(frame))
        return copy(ptr + at, len, out);
    if (frame->transport == LK_TCP)
        return rebuild_tcp(frame, ptr, out);
    return put_udp(&frame->src, &frame->dst, ptr + frame->payload_offset, frame->payload_len, 1, out);
}

/* The header has new lengths, so it is written after the payload. Its other fields are those of the table. */
static size_t rebuild_ip(const struct lk_frame *frame, const uint8_t *ptr, uint8_t *out)
{
    static uint8_t payload[MODEL_ROOM];
    const uint8_t *header = ptr + frame->network_offset;
    struct lk_ip ip = {0};
    size_t header_len, len;
    if (frame->network == LK_IPV4) {
        header_len = 4u * (header[0] & 15);
        len = get_word(header + 2) - header_len;
    } else {
        header_len = 40;
        len = get_word(header + 4);
    }
    ip.hop_limit = frame->ip.hop_limit;
    ip.dont_fragment = 1;
    len = rebuild_transport(frame, ptr, frame->network_offset + header_len, len, payload);
    header_len = put_ip(&ip, &frame->src.addr, &frame->dst.addr, frame->ip.protocol, len, 1, out);
    return header_len + copy(payload, len, out + header_len);
}

static int is_copied(const struct lk_frame *frame)
{
    if (frame->network == LK_IPV4)
        return frame->is_fragment || !is_valid(frame->ipv4_checksum);
    return frame->network == LK_NO_NETWORK;
}

ptrdiff_t model_rebuild(const uint8_t *ptr, size_t len, uint8_t *out, size_t cap)
{
    static uint8_t rebuilt[MODEL_ROOM];
    struct lk_frame frame;
    size_t at;
    len = used_len(len);
    if (len < 14)
        return LK_NO_HEADER;
    model_read_plain(ptr, len, &frame);
    at = put_ethernet(&frame.ethernet, frame.ethernet.type, rebuilt);
    if (is_copied(&frame))
        at += copy(ptr + 14, len - 14, rebuilt + at);
    else if (frame.network == LK_ARP)
        at += put_arp(&frame.arp, &frame.src.addr, &frame.dst.addr, rebuilt + at);
    else
        at += rebuild_ip(&frame, ptr, rebuilt + at);
    return finish(rebuilt, at, out, cap);
}

/* ---- a host ---- */

static int is_same(const struct lk_addr *a, const struct lk_addr *b)
{
    return a->version == b->version && memcmp(a->octets, b->octets, addr_len(a)) == 0;
}

static int is_unicast_hardware(const uint8_t *hardware)
{
    return (hardware[0] & 1) == 0;
}

static struct lk_interface interface_of(const struct lk_host *host)
{
    struct lk_interface own;
    memset(&own, 0, sizeof own);
    own.ipv4 = host->ipv4;
    own.ipv6 = host->ipv6;
    memcpy(own.hardware, host->hardware, 6);
    return own;
}

static size_t answer_arp(const struct lk_host *host, struct lk_frame *frame, uint8_t *out)
{
    struct lk_interface own = interface_of(host);
    int is_probe = is_in(&frame->src.addr, "0.0.0.0/32");
    if (frame->arp.operation != 1 || !is_same(&frame->dst.addr, &host->ipv4) || !is_host(&host->ipv4) ||
        !is_unicast_hardware(frame->arp.src_hardware) || !(is_probe || is_answered(&own, &frame->src.addr)))
        return 0;
    model_make_reply(frame);
    memcpy(frame->arp.src_hardware, host->hardware, 6);
    memcpy(frame->ethernet.src, host->hardware, 6);
    memcpy(frame->ethernet.dst, frame->arp.dst_hardware, 6);
    frame->arp.operation = 2;
    put_ethernet(&frame->ethernet, 0x0806, out);
    return 14 + put_arp(&frame->arp, &frame->src.addr, &frame->dst.addr, out + 14);
}

/* Writes the headers before an answer of `len` bytes that is in `payload`. */
static size_t put_answer(const struct lk_frame *reply, unsigned protocol, unsigned hop_limit, unsigned dscp,
                         const uint8_t *payload, size_t len, uint8_t *out)
{
    struct lk_ip ip = {0};
    size_t at = put_ethernet(&reply->ethernet, reply->src.addr.version == 4 ? 0x0800 : 0x86dd, out);
    ip.hop_limit = (uint8_t)hop_limit;
    ip.dscp = (uint8_t)dscp;
    ip.dont_fragment = 1;
    at += put_ip(&ip, &reply->src.addr, &reply->dst.addr, protocol, len, 1, out + at);
    return at + copy(payload, len, out + at);
}

static int is_open(const uint16_t *ports, size_t count, unsigned port)
{
    for (size_t i = 0; i < used_len(count); i++)
        if (ports[i] == port)
            return 1;
    return 0;
}

/* `ptr` is the frame without extension headers, and `asked` with them. */
static size_t answer_udp(const struct lk_host *host, struct lk_frame *frame, const uint8_t *ptr, const uint8_t *asked,
                         size_t asked_len, uint8_t *out)
{
    static uint8_t packet[MODEL_ROOM];
    struct lk_interface own = interface_of(host);
    size_t len;
    if (frame->dst.port != host->echo_port &&
        !is_open(host->open_udp_ports, host->open_udp_port_count, frame->dst.port))
        return put_icmp_error(&own, LK_PORT_CLOSED, 0, asked, asked_len, out);
    if (frame->dst.port != host->echo_port || frame->src.port < 1024 || frame->src.port <= host->echo_port)
        return 0;
    model_make_reply(frame);
    len = put_udp(&frame->src, &frame->dst, ptr + frame->payload_offset, frame->payload_len, 1, packet);
    return put_answer(frame, 17, 64, 0, packet, len, out);
}

/* RFC 9293, section 3.10.7.2, third: an open port gets SYN. */
static void accept_syn(const struct lk_host *host, const struct lk_tcp_options *syn, struct lk_tcp *tcp,
                       struct lk_tcp_options *options)
{
    tcp->ack_number = tcp->seq_number + 1;
    tcp->seq_number = host->seq_number;
    tcp->window_len = host->window_len;
    tcp->flags = LK_SYN | LK_ACK;
    options->has_mss = 1;
    options->mss = host->mss;
    options->has_window_scale = syn->has_window_scale;
    options->window_scale = host->window_scale > 14 ? 14 : host->window_scale;
    options->sack_permitted = syn->sack_permitted;
    options->has_timestamp = syn->has_timestamp;
    options->tsval = host->tsval;
    options->tsecr = syn->tsval;
}

/* RFC 9293, sections 3.10.7.1 and 3.10.7.2. */
static void reset(size_t payload_len, struct lk_tcp *tcp)
{
    uint32_t seg_len = (uint32_t)payload_len + (tcp->flags & LK_SYN ? 1 : 0) + (tcp->flags & LK_FIN ? 1 : 0);
    if (tcp->flags & LK_ACK) {
        tcp->seq_number = tcp->ack_number;
        tcp->ack_number = 0;
        tcp->flags = LK_RST;
    } else {
        tcp->ack_number = tcp->seq_number + seg_len;
        tcp->seq_number = 0;
        tcp->flags = LK_RST | LK_ACK;
    }
    tcp->window_len = 0;
}

static size_t answer_tcp(const struct lk_host *host, struct lk_frame *frame, const uint8_t *ptr, uint8_t *out)
{
    struct lk_tcp_options syn, options = {0};
    uint8_t segment[60];
    size_t len;
    int is_to_open = is_open(host->open_ports, host->open_port_count, frame->dst.port);
    model_find_tcp_options(ptr + frame->transport_offset, frame->tcp.header_len, &syn);
    if (frame->tcp.flags & LK_RST)
        return 0;
    if (is_to_open && (frame->tcp.flags & (LK_SYN | LK_ACK)) == 0)
        return 0;
    if (is_to_open && (frame->tcp.flags & LK_ACK) == 0)
        accept_syn(host, &syn, &frame->tcp, &options);
    else
        reset(frame->payload_len, &frame->tcp);
    frame->tcp.urgent_at = 0;
    model_make_reply(frame);
    len = put_tcp(&frame->tcp, &options, 1, &frame->src, &frame->dst, 0, 0, 1, segment);
    return put_answer(frame, 6, 64, 0, segment, len, out);
}

/* An echo request: type 8 over IPv4, 128 over IPv6, and code 0. The reply has type 0 or 129, the same data, and the same
 * DSCP (RFC 1812, section 4.3.2.5). */
static size_t answer_icmp(struct lk_frame *frame, const uint8_t *ptr, uint8_t *out)
{
    static uint8_t message[MODEL_ROOM];
    int is_ipv4 = frame->network == LK_IPV4;
    size_t len;
    if (frame->icmp.type != (is_ipv4 ? 8 : 128) || frame->icmp.code != 0)
        return 0;
    frame->icmp.type = is_ipv4 ? 0 : 129;
    model_make_reply(frame);
    len = put_icmp(&frame->icmp, &frame->src.addr, &frame->dst.addr, ptr + frame->payload_offset, frame->payload_len, 1,
                   message);
    return put_answer(frame, is_ipv4 ? 1 : 58, 64, frame->ip.dscp, message, len, out);
}

/* RFC 4861, section 7.2.4. The hardware address of a group is 33:33 and its last four bytes (RFC 2464, section 7). */
static size_t answer_solicitation(const struct lk_host *host, struct lk_frame *frame, const uint8_t *ptr,
                                  size_t frame_len, uint8_t *out)
{
    static const uint8_t all_nodes_hardware[6] = {0x33, 0x33, 0, 0, 0, 1};
    struct lk_interface own = interface_of(host);
    struct lk_addr group = {{0xff, 2, 0, 0, 0, 0, 0, 0, 0, 0, 0, 1, 0xff}, 6}, all_nodes = {{0xff, 2}, 6};
    struct lk_ndisc asked, told;
    uint8_t station[6] = {0x33, 0x33, 0xff}, message[32];
    int is_to_us = memcmp(frame->ethernet.dst, host->hardware, 6) == 0;
    int is_probe = is_in(&frame->src.addr, "::/128");
    memcpy(group.octets + 13, host->ipv6.octets + 13, 3);
    memcpy(station + 3, group.octets + 13, 3);
    all_nodes.octets[15] = 1;
    if (!model_find_ndisc(ptr, frame_len, &asked) || asked.is_advert || !is_same(&asked.target, &host->ipv6) ||
        !is_host(&host->ipv6) || !is_unicast_hardware(frame->ethernet.src))
        return 0;
    /* RFC 6085: what goes to the group may be sent to one of its hosts. */
    if (!(is_same(&frame->dst.addr, &host->ipv6) && is_to_us) &&
        !(is_same(&frame->dst.addr, &group) && (is_to_us || memcmp(frame->ethernet.dst, station, 6) == 0)))
        return 0;
    if (!is_probe && !is_answered(&own, &frame->src.addr))
        return 0;
    frame->dst.addr = is_probe ? all_nodes : frame->src.addr;
    frame->src.addr = host->ipv6;
    memcpy(station, is_probe ? all_nodes_hardware : asked.has_hardware ? asked.hardware : frame->ethernet.src, 6);
    memcpy(frame->ethernet.dst, station, 6);
    memcpy(frame->ethernet.src, host->hardware, 6);
    if (!is_probe && !is_unicast_hardware(frame->ethernet.dst))
        return 0;
    memset(&told, 0, sizeof told);
    told.target = host->ipv6;
    told.is_advert = told.has_hardware = told.overrides = 1;
    told.is_solicited = !is_probe;
    told.is_router = host->is_router;
    memcpy(told.hardware, host->hardware, 6);
    return put_answer(frame, 58, 255, 0, message, put_ndisc(&told, &frame->src.addr, &frame->dst.addr, message), out);
}

static size_t answer_headers(const struct lk_host *host, const struct lk_frame *frame, const uint8_t *ptr, uint8_t *out)
{
    struct lk_interface own = interface_of(host);
    return put_parameter_problem(&own, frame, ptr + 14, out);
}

static int is_for(const struct lk_host *host, const struct lk_frame *frame)
{
    struct lk_interface own = interface_of(host);
    return memcmp(frame->ethernet.dst, host->hardware, 6) == 0 && is_unicast_hardware(frame->ethernet.src) &&
           (is_same(&frame->dst.addr, &host->ipv4) || is_same(&frame->dst.addr, &host->ipv6)) &&
           is_host(&frame->dst.addr) && is_answered(&own, &frame->src.addr) && frame->ipv4_checksum != LK_CHECKSUM_INVALID &&
           frame->transport != LK_NO_TRANSPORT && is_valid(frame->transport_checksum);
}

/* Reads a frame without its IPv6 extension headers, if they are skipped, and returns it. */
static const uint8_t *read_past(const uint8_t *ptr, struct lk_frame *frame)
{
    static uint8_t shorter[MODEL_ROOM];
    size_t len;
    if (frame->network != LK_IPV6 || frame->transport != LK_NO_TRANSPORT)
        return ptr;
    len = skip_headers(ptr + 14, shorter + 14);
    if (len == 0)
        return ptr;
    memcpy(shorter, ptr, 14);
    model_read_plain(shorter, 14 + len, frame);
    return shorter;
}

ptrdiff_t model_answer(const struct lk_host *host, const uint8_t *asked, size_t asked_len, uint8_t *out, size_t cap)
{
    static uint8_t answer[MODEL_ROOM];
    const uint8_t *ptr;
    struct lk_frame frame;
    size_t answer_len = 0;
    if (host->ipv4.version != 4 || host->ipv6.version != 6)
        return LK_NO_VERSION;
    if (asked_len > LK_MAX_LEN)
        return LK_NO_HEADER;
    if (model_read_plain(asked, asked_len, &frame) != LK_READ)
        return 0;
    ptr = read_past(asked, &frame);
    if (frame.reason != LK_READ)
        return 0;
    if (frame.network == LK_ARP)
        answer_len = answer_arp(host, &frame, answer);
    else if (frame.network == LK_IPV6 && frame.icmp.type == 135)
        answer_len = answer_solicitation(host, &frame, asked, asked_len, answer);
    else if (frame.network == LK_IPV6 && frame.transport == LK_NO_TRANSPORT)
        answer_len = answer_headers(host, &frame, ptr, answer);
    else if (is_for(host, &frame) && frame.transport == LK_UDP)
        answer_len = answer_udp(host, &frame, ptr, asked, asked_len, answer);
    else if (is_for(host, &frame) && frame.transport == LK_ICMP)
        answer_len = answer_icmp(&frame, ptr, answer);
    else if (is_for(host, &frame))
        answer_len = answer_tcp(host, &frame, ptr, answer);
    return finish(answer, answer_len, out, cap);
}
