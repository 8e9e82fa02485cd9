/* Cases of writing. */
#include <string.h>
#include "judge.h"

static uint8_t payload[MODEL_ROOM], measured[MODEL_ROOM];

/* ---- values ---- */

/* One case in four has many wrong values, for the order of failures. */
static int has_many;

static int is_wrong(void)
{
    return one_in(has_many ? 3 : 48);
}

static struct lk_ip any_ip(unsigned version)
{
    struct lk_ip ip;
    fill(&ip, sizeof ip);
    ip.hop_limit = is_wrong() ? 0 : ip.hop_limit | 1;
    ip.dscp &= 63;
    ip.ecn &= 3;
    ip.ident = version == 4 ? ip.ident & 0xffff : 0;
    ip.flow_label &= version == 4 ? 0xffffffff : 0xfffff;
    ip.fragment_offset = version == 4 && one_in(6) ? ip.fragment_offset & 0xfff8 : 0;
    ip.more_fragments = version == 4 && one_in(6) ? ip.more_fragments : 0;
    if (one_in(4))
        ip.dont_fragment = (uint8_t)below(2);
    if (one_in(8)) { /* the limits */
        ip.dscp = 63;
        ip.ecn = 3;
        ip.ident = version == 4 ? 65535 : 0;
        ip.flow_label = 1048575;
    }
    if (!is_wrong())
        return ip;
    switch (below(6)) {
    case 0:
        ip.dscp = (uint8_t)(one_in(2) ? 64 : ip.dscp | 64 << below(2));
        break;
    case 1:
        ip.ecn = (uint8_t)(one_in(2) ? 4 : ip.ecn | 4 << below(6));
        break;
    case 2:
        ip.ident = one_in(2) ? 1 : 0x10000u << below(16);
        break;
    case 3:
        ip.flow_label = one_in(2) ? 0x100000 : ip.flow_label | 0x100000u << below(12);
        break;
    case 4:
        ip.fragment_offset = (uint16_t)any();
        break;
    default:
        ip.more_fragments = (uint8_t)(1 << below(8));
    }
    return ip;
}

static struct lk_tcp any_tcp(void)
{
    struct lk_tcp tcp;
    fill(&tcp, sizeof tcp);
    tcp.flags &= LK_PSH | LK_ACK | LK_URG | LK_ECE | LK_CWR;
    tcp.flags |= (uint8_t)(is_wrong() ? 1 + below(7) : 1u << below(4));
    return tcp;
}

static uint8_t any_has(void)
{
    return (uint8_t)(one_in(2) ? 0 : one_in(2) ? 1 : any());
}

static struct lk_tcp_options any_written_options(void)
{
    struct lk_tcp_options options;
    fill(&options, sizeof options);
    options.sack_range_count = (uint8_t)(is_wrong() ? one_in(2) ? any() : 3 + below(4) : below(3));
    options.sack_permitted = one_in(2) ? 0 : any_has();
    options.has_mss = any_has();
    options.has_window_scale = any_has();
    options.has_timestamp = any_has();
    return options;
}

static struct lk_frame any_headers(void)
{
    struct lk_frame headers;
    unsigned version = one_in(2) ? 4 : 6;
    has_many = one_in(4);
    fill(&headers, sizeof headers);
    any_hardware(headers.ethernet.src);
    any_hardware(headers.ethernet.dst);
    headers.src.addr = any_addr(is_wrong() && is_wrong() ? any_version() : version);
    headers.dst.addr = any_addr(is_wrong() ? any_version() : version);
    headers.src.port = (uint16_t)(is_wrong() ? 0 : any_port());
    headers.dst.port = (uint16_t)(is_wrong() ? 0 : any_port());
    headers.ip = any_ip(version);
    headers.tcp = any_tcp();
    return headers;
}

/* A payload length: mostly short, at times at its limit or never used. */
static size_t any_payload_len(size_t limit)
{
    if (is_wrong())
        return one_in(4) ? unused_len() : limit + below(3) - 1;
    return any_len(limit + 1);
}

static size_t limit_of(const struct lk_frame *headers, size_t header_len)
{
    return (headers->src.addr.version == 4 ? 65515 : 65535) - header_len;
}

/* A payload whose UDP checksum is computed as 0, one time in eight. */
static void fill_payload(const struct lk_endpoint *src, const struct lk_endpoint *dst, size_t len)
{
    static uint8_t packet[MODEL_ROOM];
    fill(payload, placed_len(len));
    if (len < 2 || placed_len(len) == 0 || !one_in(8))
        return;
    put_word(payload, 0);
    put_udp(src, dst, payload, len, 1, packet);
    put_word(payload, get_word(packet + 6));
}

/* ---- whole frames and packets ---- */

static void emit_udp_frame(const struct lk_frame *headers)
{
    size_t len = any_payload_len(limit_of(headers, 8)), cap;
    fill_payload(&headers->src, &headers->dst, len);
    cap = any_cap(model_emit_udp_frame(headers, payload, len, measured, sizeof measured));
    both_emit_udp_frame(headers, payload, len, any_out(cap), cap);
    cap = any_cap(model_emit_udp_packet(headers, payload, len, measured, sizeof measured));
    both_emit_udp_packet(headers, payload, len, any_out(cap), cap);
}

static void emit_tcp_frame(const struct lk_frame *headers)
{
    struct lk_tcp_options options = any_written_options();
    size_t len = any_payload_len(limit_of(headers, 20 + options_len(&options) % 44)), cap;
    fill(payload, placed_len(len));
    cap = any_cap(model_emit_tcp_frame(headers, &options, payload, len, measured, sizeof measured));
    both_emit_tcp_frame(headers, &options, payload, len, any_out(cap), cap);
    cap = any_cap(model_emit_tcp_packet(headers, &options, payload, len, measured, sizeof measured));
    both_emit_tcp_packet(headers, &options, payload, len, any_out(cap), cap);
}

static void emit_arp_frame(const struct lk_frame *headers)
{
    size_t cap = any_cap(42);
    both_emit_arp_frame(headers, any_out(cap), cap);
}

void emit_frame(void)
{
    struct lk_frame headers = any_headers();
    emit_udp_frame(&headers);
    emit_tcp_frame(&headers);
    emit_arp_frame(&headers);
}

static void wrap_udp_frame(const struct lk_frame *headers)
{
    size_t len = any_payload_len(limit_of(headers, 8));
    size_t cap = any_cap(model_emit_udp_frame(headers, payload, len, measured, sizeof measured));
    both_wrap_udp_frame(headers, len, any_out(cap), cap);
    cap = any_cap(model_emit_udp_packet(headers, payload, len, measured, sizeof measured));
    both_wrap_udp_packet(headers, len, any_out(cap), cap);
}

static void wrap_tcp_frame(const struct lk_frame *headers)
{
    struct lk_tcp_options options = any_written_options();
    size_t len = any_payload_len(limit_of(headers, 20 + options_len(&options) % 44));
    size_t cap = any_cap(model_emit_tcp_frame(headers, &options, payload, len, measured, sizeof measured));
    both_wrap_tcp_frame(headers, &options, len, any_out(cap), cap);
    cap = any_cap(model_emit_tcp_packet(headers, &options, payload, len, measured, sizeof measured));
    both_wrap_tcp_packet(headers, &options, len, any_out(cap), cap);
}

void wrap_frame(void)
{
    struct lk_frame headers = any_headers();
    wrap_udp_frame(&headers);
    wrap_tcp_frame(&headers);
}

/* ---- layers ---- */

static void emit_ethernet(const struct lk_frame *headers)
{
    size_t cap = any_cap(14);
    both_emit_ethernet(&headers->ethernet, any_out(cap), cap);
}

static void emit_arp(const struct lk_frame *headers)
{
    size_t cap = any_cap(28);
    both_emit_arp(&headers->arp, &headers->src.addr, &headers->dst.addr, any_out(cap), cap);
}

/* Any number but 0 means that a checksum is computed, also one whose lowest byte is 0. */
static int any_computed(void)
{
    static const int values[] = {1, 1, -1, 0x100, 0x10000, 2};
    return one_in(2) ? 0 : values[below(6)];
}

static void emit_ip(const struct lk_frame *headers)
{
    size_t payload_len = any_payload_len(limit_of(headers, 0)), cap = any_cap(headers->src.addr.version == 4 ? 20 : 40);
    both_emit_ip(&headers->ip, &headers->src.addr, &headers->dst.addr, payload_len, any_computed(), any_out(cap), cap);
}

static void emit_udp(const struct lk_frame *headers)
{
    size_t len = any_payload_len(65527), cap;
    int computed = any_computed();
    fill_payload(&headers->src, &headers->dst, len);
    cap = any_cap(model_emit_udp(&headers->src, &headers->dst, payload, len, computed, measured, sizeof measured));
    both_emit_udp(&headers->src, &headers->dst, payload, len, computed, any_out(cap), cap);
}

static void emit_tcp(const struct lk_frame *headers)
{
    struct lk_tcp_options options = any_written_options();
    size_t len = any_payload_len(65515 - options_len(&options) % 44), cap;
    int computed = any_computed();
    fill(payload, placed_len(len));
    cap = any_cap(model_emit_tcp(&headers->tcp, &options, &headers->src, &headers->dst, payload, len, computed, measured,
                                 sizeof measured));
    both_emit_tcp(&headers->tcp, &options, &headers->src, &headers->dst, payload, len, computed, any_out(cap), cap);
}

static void tcp_header_len(void)
{
    struct lk_tcp_options options = any_written_options();
    both_tcp_header_len(&options);
}

void emit_layer(void)
{
    struct lk_frame headers = any_headers();
    emit_ethernet(&headers);
    emit_arp(&headers);
    emit_ip(&headers);
    emit_udp(&headers);
    emit_tcp(&headers);
    tcp_header_len();
}

/* ---- replies ---- */

void reply_frame(void)
{
    struct lk_frame headers = any_headers();
    if (one_in(2)) {
        make_frame();
        model_read_frame(made.octets, made.len, &headers);
    }
    both_make_reply(&headers);
}
