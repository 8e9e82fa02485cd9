/* The model of NAT with a table. It keeps a plain list of mappings, and searches it one by one. */
#include <string.h>
#include "model.h"

/* What a packet says: its transport, its inside and remote endpoint, and the flags of a TCP segment. */
struct packet {
    int transport;
    struct lk_endpoint inside;
    struct lk_endpoint remote;
    int has_syn;
    int has_end; /* FIN or RST */
    int has_rst;
};

static struct packet packet_of(const struct lk_frame *frame, const struct lk_endpoint *inside,
                               const struct lk_endpoint *remote)
{
    struct packet packet = {frame->transport, *inside, *remote, 0, 0, 0};
    if (packet.transport == LK_TCP) {
        packet.has_syn = (frame->tcp.flags & LK_SYN) != 0;
        packet.has_end = (frame->tcp.flags & (LK_FIN | LK_RST)) != 0;
        packet.has_rst = (frame->tcp.flags & LK_RST) != 0;
    }
    return packet;
}

static int is_same(const struct lk_endpoint *a, const struct lk_endpoint *b)
{
    return a->port == b->port && memcmp(a->addr.octets, b->addr.octets, 4) == 0;
}

/* ---- the table ---- */

static int is_live(const struct model_mapping *mapping, uint64_t now)
{
    return now < mapping->expires;
}

/* The number of outside ports. */
static size_t port_count(const struct lk_nat *nat, size_t count)
{
    size_t ports = used_len(count) / LK_MAPPINGS(1);
    if (nat->first_port == 0)
        return 0;
    return ports < 65536u - nat->first_port ? ports : 65536u - nat->first_port;
}

static int is_outside_port(const struct lk_nat *nat, size_t count, unsigned port)
{
    return port >= nat->first_port && port < nat->first_port + port_count(nat, count);
}

static struct model_mapping *mapping_of_port(struct model_table *table, int transport, unsigned port, uint64_t now)
{
    for (size_t i = 0; i < table->count; i++)
        if (table->mappings[i].transport == transport && table->mappings[i].port == port &&
            is_live(&table->mappings[i], now))
            return &table->mappings[i];
    return 0;
}

static struct model_mapping *mapping_of_inside(struct model_table *table, int transport,
                                               const struct lk_endpoint *inside, uint64_t now)
{
    for (size_t i = 0; i < table->count; i++)
        if (table->mappings[i].transport == transport && is_same(&table->mappings[i].inside, inside) &&
            is_live(&table->mappings[i], now))
            return &table->mappings[i];
    return 0;
}

/* ---- ports ---- */

/* The port of a new mapping; 0: all are taken. `chosen` is what the library took, since the order of the ports follows
 * from a hash that the header does not name. */
static unsigned port_for(const struct lk_nat *nat, struct model_table *table, size_t count, const struct packet *packet,
                         uint64_t now, unsigned chosen)
{
    unsigned first = 0;
    if (is_outside_port(nat, count, packet->inside.port) &&
        !mapping_of_port(table, packet->transport, packet->inside.port, now))
        return packet->inside.port;
    for (size_t i = port_count(nat, count); i-- > 0;)
        if (!mapping_of_port(table, packet->transport, nat->first_port + (unsigned)i, now))
            first = nat->first_port + (unsigned)i;
    if (is_outside_port(nat, count, chosen) && !mapping_of_port(table, packet->transport, chosen, now))
        return chosen;
    return first;
}

/* ---- time-outs ---- */

static uint64_t later(uint64_t now, uint64_t timeout)
{
    return timeout > UINT64_MAX - now ? UINT64_MAX : now + timeout;
}

/* After a RST the connection may go on (RFC 6146, section 3.5.2.2), but not after a FIN. */
static enum model_phase phase_after_end(const struct model_mapping *mapping, const struct packet *packet)
{
    return packet->has_rst && mapping->phase != MODEL_CLOSING ? MODEL_OPENING : MODEL_CLOSING;
}

static void note_flags(struct model_mapping *mapping, const struct packet *packet)
{
    int is_shared = mapping->has_many_remotes;
    if (packet->has_end)
        mapping->phase = is_shared ? mapping->phase : phase_after_end(mapping, packet);
    else if (packet->has_syn)
        mapping->phase = is_shared && mapping->phase == MODEL_ESTABLISHED ? MODEL_ESTABLISHED : MODEL_OPENING;
    else if (is_shared || mapping->phase != MODEL_CLOSING)
        mapping->phase = MODEL_ESTABLISHED;
}

static uint64_t timeout_of(const struct lk_nat *nat, const struct model_mapping *mapping)
{
    if (mapping->transport == LK_UDP)
        return nat->udp_timeout;
    if (mapping->transport == LK_ICMP)
        return nat->icmp_timeout;
    return mapping->phase == MODEL_ESTABLISHED ? nat->tcp_timeout : nat->tcp_transitory_timeout;
}

static void note_outbound(const struct lk_nat *nat, struct model_mapping *mapping, const struct packet *packet,
                          uint64_t now)
{
    if (!is_same(&mapping->remote, &packet->remote))
        mapping->has_many_remotes = 1;
    if (packet->transport == LK_TCP)
        note_flags(mapping, packet);
    mapping->expires = later(now, timeout_of(nat, mapping));
}

/* Only the end of a connection counts, and it never makes a mapping live longer. */
static void note_inbound(const struct lk_nat *nat, struct model_mapping *mapping, const struct packet *packet,
                         uint64_t now)
{
    uint64_t end = later(now, nat->tcp_transitory_timeout);
    if (!packet->has_end || mapping->has_many_remotes || !is_same(&mapping->remote, &packet->remote))
        return;
    mapping->phase = phase_after_end(mapping, packet);
    if (end < mapping->expires)
        mapping->expires = end;
}

/* ---- ICMP errors (RFC 5508, section 4) ---- */

/* The packet that an error quotes: its transport, the place of its port on this side, and its end there. */
struct quoted {
    uint8_t *header;
    uint8_t *rest;
    size_t known; /* the bytes after its header */
    int side;
    int transport;
    uint8_t *port_at;
    struct lk_endpoint end;
};

/* At least the IPv4 header and 8 bytes; then no later fragment, and of ICMP an echo message whose identifier the host
 * on this side chose. The checksum of the header may be wrong: some routers lower the hop limit and leave it. */
static int find_quoted(uint8_t *ptr, size_t len, int side, struct quoted *quoted)
{
    size_t header_len = len == 0 ? 0 : 4u * (ptr[0] & 15);
    int has_port;
    if (len == 0 || ptr[0] >> 4 != 4 || header_len < 20 || header_len + 8 > len)
        return LK_BAD_TRANSPORT;
    quoted->header = ptr;
    quoted->rest = ptr + header_len;
    quoted->known = len - header_len;
    quoted->side = side;
    quoted->port_at = quoted->rest + (ptr[9] == 1 ? 4 : side == LK_SOURCE ? 0 : 2);
    quoted->transport = ptr[9] == 1 ? LK_ICMP : ptr[9] == 6 ? LK_TCP : LK_UDP;
    memset(&quoted->end, 0, sizeof quoted->end);
    quoted->end.addr.version = 4;
    memcpy(quoted->end.addr.octets, ptr + (side == LK_SOURCE ? 12 : 16), 4);
    quoted->end.port = (uint16_t)get_word(quoted->port_at);
    has_port = ptr[9] == 6 || ptr[9] == 17 || (ptr[9] == 1 && quoted->rest[0] == (side == LK_SOURCE ? 8 : 0));
    return has_port && (get_word(ptr + 6) & 0x1fff) == 0 ? LK_NOT_REJECTED : LK_NO_MAPPING;
}

static int error_rejection(uint8_t *octets, const struct lk_frame *frame, int side, struct quoted *quoted)
{
    unsigned type = frame->icmp.type;
    if (frame->ip.protocol != 1 || (type != 3 && type != 11 && type != 12))
        return LK_OTHER_PROTOCOL;
    if (frame->transport_checksum != LK_CHECKSUM_VALID)
        return LK_BAD_TRANSPORT;
    return find_quoted(octets + frame->payload_offset, frame->payload_len, side, quoted);
}

static void write_quoted(const struct quoted *quoted, const struct lk_endpoint *end)
{
    int is_udp = quoted->transport == LK_UDP;
    uint8_t *field = quoted->rest + (is_udp ? 6 : quoted->transport == LK_TCP ? 16 : 2);
    if (quoted->transport == LK_TCP && quoted->known < 18) {
        put_word(quoted->port_at, end->port);
    } else {
        if (quoted->transport != LK_ICMP)
            update_sum(field, is_udp, &quoted->end.addr, &end->addr);
        write_port(quoted->port_at, field, is_udp, end->port);
        if (quoted->transport == LK_ICMP && get_word(field) == 0)
            put_word(field, 0xffff); /* as the header says of ICMP */
    }
    memcpy(quoted->header + (quoted->side == LK_SOURCE ? 12 : 16), end->addr.octets, 4);
    update_sum(quoted->header + 10, 0, &quoted->end.addr, &end->addr);
}

/* Writes the quoted packet, and the address of the error itself on the other side. */
static void write_error(uint8_t *octets, const struct lk_frame *frame, const struct quoted *quoted,
                        const struct lk_endpoint *end)
{
    int is_in = quoted->side == LK_SOURCE;
    write_quoted(quoted, end);
    write_icmp_sum(octets + frame->transport_offset, 8 + frame->payload_len);
    memcpy(octets + 14 + (is_in ? 16 : 12), end->addr.octets, 4);
    update_sum(octets + 24, 0, is_in ? &frame->dst.addr : &frame->src.addr, &end->addr);
}

static int translate_error_out(const struct lk_nat *nat, struct model_table *table, uint64_t now, uint8_t *octets,
                               const struct lk_frame *frame)
{
    struct lk_endpoint outside = {{{0}, 4}, 0};
    struct model_mapping *mapping;
    struct quoted quoted;
    int rejection = error_rejection(octets, frame, LK_DESTINATION, &quoted);
    if (rejection != LK_NOT_REJECTED)
        return rejection;
    mapping = mapping_of_inside(table, quoted.transport, &quoted.end, now);
    if (!mapping)
        return LK_NO_MAPPING;
    memcpy(outside.addr.octets, nat->outside, 4);
    outside.port = (uint16_t)mapping->port;
    write_error(octets, frame, &quoted, &outside);
    return LK_NOT_REJECTED;
}

static int translate_error_in(const struct lk_nat *nat, struct model_table *table, size_t count, uint64_t now,
                              uint8_t *octets, const struct lk_frame *frame)
{
    struct model_mapping *mapping = 0;
    struct quoted quoted;
    int rejection = error_rejection(octets, frame, LK_SOURCE, &quoted);
    if (rejection != LK_NOT_REJECTED)
        return rejection;
    if (memcmp(frame->dst.addr.octets, nat->outside, 4) == 0 &&
        memcmp(quoted.end.addr.octets, nat->outside, 4) == 0 && is_outside_port(nat, count, quoted.end.port))
        mapping = mapping_of_port(table, quoted.transport, quoted.end.port, now);
    if (!mapping)
        return LK_NO_MAPPING;
    write_error(octets, frame, &quoted, &mapping->inside);
    return LK_NOT_REJECTED;
}

/* ---- the calls ---- */

/* A new mapping, instead of an expired one. */
static struct model_mapping *add_mapping(struct model_table *table, const struct packet *packet, unsigned port,
                                         uint64_t now)
{
    size_t i = 0;
    while (i < table->count && is_live(&table->mappings[i], now))
        i++;
    if (i == table->count)
        table->count++;
    memset(&table->mappings[i], 0, sizeof table->mappings[i]);
    table->mappings[i].transport = packet->transport;
    table->mappings[i].port = port;
    table->mappings[i].inside = packet->inside;
    table->mappings[i].remote = packet->remote;
    return &table->mappings[i];
}

int model_translate_out(const struct lk_nat *nat, struct model_table *table, size_t count, uint64_t now,
                        uint8_t *octets, size_t len, unsigned chosen)
{
    struct lk_frame frame;
    struct lk_endpoint outside = {{{0}, 4}, 0};
    struct model_mapping *mapping;
    struct packet packet;
    int rejection = nat_rejection(octets, used_len(len), &frame);
    if (rejection == LK_OTHER_PROTOCOL)
        return translate_error_out(nat, table, now, octets, &frame);
    if (rejection != LK_NOT_REJECTED)
        return rejection;
    if (frame.src.port == 0 && frame.transport != LK_ICMP)
        return LK_NAT_PORT_ZERO;
    if (frame.transport == LK_ICMP && frame.icmp.type != 8)
        return LK_NO_MAPPING;
    packet = packet_of(&frame, &frame.src, &frame.dst);
    mapping = mapping_of_inside(table, packet.transport, &packet.inside, now);
    outside.port = (uint16_t)(mapping ? mapping->port : port_for(nat, table, count, &packet, now, chosen));
    if (outside.port == 0)
        return LK_NO_FREE_PORT;
    if (!mapping)
        mapping = add_mapping(table, &packet, outside.port, now);
    note_outbound(nat, mapping, &packet, now);
    memcpy(outside.addr.octets, nat->outside, 4);
    write_end(octets, &frame, LK_SOURCE, &outside);
    return LK_NOT_REJECTED;
}

int model_translate_in(const struct lk_nat *nat, struct model_table *table, size_t count, uint64_t now,
                       uint8_t *octets, size_t len)
{
    struct lk_frame frame;
    struct model_mapping *mapping = 0;
    struct packet packet;
    int rejection = nat_rejection(octets, used_len(len), &frame);
    if (rejection == LK_OTHER_PROTOCOL)
        return translate_error_in(nat, table, count, now, octets, &frame);
    if (rejection != LK_NOT_REJECTED)
        return rejection;
    if (frame.transport == LK_ICMP && frame.icmp.type != 0)
        return LK_NO_MAPPING;
    if (memcmp(frame.dst.addr.octets, nat->outside, 4) == 0 && is_outside_port(nat, count, frame.dst.port))
        mapping = mapping_of_port(table, frame.transport, frame.dst.port, now);
    if (!mapping)
        return LK_NO_MAPPING;
    packet = packet_of(&frame, &mapping->inside, &frame.src);
    note_inbound(nat, mapping, &packet, now);
    write_end(octets, &frame, LK_DESTINATION, &mapping->inside);
    return LK_NOT_REJECTED;
}
