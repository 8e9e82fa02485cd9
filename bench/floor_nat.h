/* lk_translate_out and lk_translate_in by hand, with the same choice of ports. */

enum { NAT_UDP, NAT_TCP, NAT_ICMP, NAT_PROTOCOLS };
enum { OPENING, ESTABLISHED, CLOSING };
enum { LEAST_OF_ROW = 63, STEPS = 32 };

/* The mappings of a NAT. */
struct table {
    const struct lk_nat *nat;
    struct lk_mapping *mappings;
    size_t part; /* the mappings of a protocol */
    size_t ports;
    uint64_t now;
};

/* The packet of a frame: the ends in the order of memory, with ports or the identifier of an echo as numbers. */
struct flow {
    struct packet packet;
    uint32_t src, dst;
    uint16_t src_port, dst_port;
    uint8_t protocol; /* of the mappings */
    uint8_t flags;    /* of TCP */
    uint8_t is_request;
};

INLINE struct table table_of(const struct lk_nat *nat, struct lk_mapping *mappings, size_t count, uint64_t now)
{
    size_t part = reaches(count, 0) ? count / NAT_PROTOCOLS : 0, most = 65536 - (size_t)nat->first_port;
    return (struct table){nat, mappings, part, !nat->first_port ? 0 : part < most ? part : most, now};
}

/* The mapping of an outside port. NULL if it is none. */
INLINE struct lk_mapping *mapping_of(const struct table *table, int protocol, size_t port)
{
    size_t at = port - table->nat->first_port;
    return at < table->ports ? &table->mappings[(size_t)protocol * table->part + at] : NULL;
}

INLINE uint64_t rotated(uint64_t word, int by) { return word << by | word >> (64 - by); }

INLINE void mix(uint64_t v[4])
{
    v[0] += v[1];
    v[1] = rotated(v[1], 13) ^ v[0];
    v[0] = rotated(v[0], 32);
    v[2] += v[3];
    v[3] = rotated(v[3], 16) ^ v[2];
    v[0] += v[3];
    v[3] = rotated(v[3], 21) ^ v[0];
    v[2] += v[1];
    v[1] = rotated(v[1], 17) ^ v[2];
    v[2] = rotated(v[2], 32);
}

/* SipHash-1-3 of the key, address and port, with a key of zeros. */
INLINE uint64_t hash_of(const struct lk_nat *nat, uint32_t addr, uint16_t port)
{
    uint64_t v[4] = {0x736f6d6570736575, 0x646f72616e646f6d, 0x6c7967656e657261, 0x7465646279746573};
    const uint64_t words[3] = {nat->key[0], nat->key[1], addr | (uint64_t)port << 32 | (uint64_t)22 << 56};
    for (int i = 0; i < 3; i++) {
        v[3] ^= words[i];
        mix(v);
        v[0] ^= words[i];
    }
    v[2] ^= 0xff;
    mix(v);
    mix(v);
    mix(v);
    return v[0] ^ v[1] ^ v[2] ^ v[3];
}

INLINE int is_of(const struct lk_mapping *mapping, uint64_t now, uint32_t addr, uint16_t port)
{
    return mapping && mapping->inside_port == port && load_32(mapping->inside) == addr && now < mapping->expires;
}

/* The index of the port that is a step after that of this index. */
INLINE size_t next(size_t at, size_t step, size_t ports) { return at + step < ports ? at + step : at + step - ports; }

/* The rows of ports of an inside endpoint: where the first one begins, the step in a row, and how many ports it has. */
struct rows {
    size_t start, step, len;
};

INLINE struct rows rows_of(const struct table *table, uint32_t addr, uint16_t port)
{
    size_t ports = table->ports, widest = ports / LEAST_OF_ROW ? ports / LEAST_OF_ROW : 1;
    uint64_t hash = hash_of(table->nat, addr, port);
    size_t step = widest - (hash >> 32) % (widest / STEPS + 1);
    return (struct rows){ports ? hash % ports : 0, step, (ports + step - 1) / step};
}

/* Notes at the first port of an inside endpoint in which row it gets this mapping. */
static OUTLINE void note(const struct table *table, struct lk_mapping *part, const struct rows *rows, size_t at)
{
    size_t ahead = at < rows->start ? at + table->ports - rows->start : at - rows->start;
    uint16_t row = (uint16_t)(ahead % rows->step), *reach = &part[rows->start].reach;
    if (row > *reach)
        *reach = row;
}

/* The mapping of an inside endpoint. NULL: it has none. */
INLINE struct lk_mapping *find_kept(const struct table *table, int protocol, uint32_t addr, uint16_t port)
{
    struct lk_mapping *own = mapping_of(table, protocol, port);
    if (is_of(own, table->now, addr, port))
        return own;
    size_t ports = table->ports;
    struct rows rows = rows_of(table, addr, port);
    struct lk_mapping *part = &table->mappings[(size_t)protocol * table->part];
    size_t reach = ports ? part[rows.start].reach : 0;
    for (size_t row = 0, first = rows.start; row <= reach && row < rows.step; row++, first = next(first, 1, ports))
        for (size_t i = 0, at = first; i < rows.len; i++, at = next(at, rows.step, ports))
            if (is_of(&part[at], table->now, addr, port))
                return &part[at];
    return NULL;
}

/* A free mapping for an inside endpoint, noted. NULL: there is none. */
INLINE struct lk_mapping *find_free(const struct table *table, int protocol, uint32_t addr, uint16_t port)
{
    struct lk_mapping *own = mapping_of(table, protocol, port);
    if (own && own->expires <= table->now)
        return own;
    size_t ports = table->ports;
    struct rows rows = rows_of(table, addr, port);
    struct lk_mapping *part = &table->mappings[(size_t)protocol * table->part];
    for (size_t row = 0, first = rows.start; row < rows.step; row++, first = next(first, 1, ports))
        for (size_t i = 0, at = first; i < rows.len; i++, at = next(at, rows.step, ports))
            if (part[at].expires <= table->now) {
                note(table, part, &rows, at);
                return &part[at];
            }
    return NULL;
}

INLINE uint16_t port_of(const struct table *table, int protocol, const struct lk_mapping *mapping)
{
    return (uint16_t)((size_t)(mapping - table->mappings) - (size_t)protocol * table->part + table->nat->first_port);
}

INLINE uint64_t expiry(uint64_t now, uint64_t timeout) { return now + timeout < now ? UINT64_MAX : now + timeout; }

INLINE uint8_t next_state(uint8_t state, int is_shared, uint8_t flags)
{
    if (flags & LK_SYN)
        return is_shared && state == ESTABLISHED ? ESTABLISHED : OPENING;
    if (flags & (LK_FIN | LK_RST))
        return is_shared ? state : flags & LK_FIN || state == CLOSING ? CLOSING : OPENING;
    return !is_shared && state == CLOSING ? CLOSING : ESTABLISHED;
}

INLINE int is_shared(const struct lk_mapping *mapping, uint32_t addr, uint16_t port)
{
    return mapping->shared || load_32(mapping->remote) != addr || mapping->remote_port != port;
}

/* After the inside endpoint sent the packet. */
INLINE void keep_alive(struct lk_mapping *mapping, const struct table *table, const struct flow *flow)
{
    const struct lk_nat *nat = table->nat;
    mapping->shared = (uint8_t)is_shared(mapping, flow->dst, flow->dst_port);
    if (mapping->state > CLOSING)
        mapping->state = OPENING;
    if (flow->protocol == NAT_TCP)
        mapping->state = next_state(mapping->state, mapping->shared, flow->flags);
    uint64_t timeout = flow->protocol == NAT_UDP            ? nat->udp_timeout
                       : flow->protocol == NAT_ICMP         ? nat->icmp_timeout
                       : mapping->state == ESTABLISHED      ? nat->tcp_timeout
                                                            : nat->tcp_transitory_timeout;
    mapping->expires = expiry(table->now, timeout);
}

/* Returns an `lk_rejection`. */
INLINE int read_echo(struct flow *flow)
{
    const struct packet *packet = &flow->packet;
    int rejection = accept_echo(packet);
    if (rejection)
        return rejection;
    flow->protocol = NAT_ICMP;
    flow->src_port = flow->dst_port = swap_16(load_16(packet->payload + 4));
    flow->is_request = packet->payload[0] == ECHO_REQUEST;
    return LK_NOT_REJECTED;
}

/* Returns an `lk_rejection`, LK_OTHER_PROTOCOL also for an ICMP error. */
INLINE int read_flow(const uint8_t *frame, size_t len, struct flow *flow)
{
    struct packet *packet = &flow->packet;
    if (!is_ipv4_frame(frame, len))
        return LK_NOT_IP;
    int rejection = accept_ipv4(frame + ETHERNET_LEN, len - ETHERNET_LEN, packet);
    if (rejection)
        return rejection;
    if (packet->is_fragment)
        return LK_FRAGMENT;
    flow->src = load_32(packet->header + 12);
    flow->dst = load_32(packet->header + 16);
    flow->is_request = 0;
    if (packet->protocol == PROTOCOL_ICMP)
        return read_echo(flow);
    if (packet->protocol != PROTOCOL_UDP && packet->protocol != PROTOCOL_TCP)
        return LK_OTHER_PROTOCOL;
    flow->protocol = packet->protocol == PROTOCOL_UDP ? NAT_UDP : NAT_TCP;
    if (!(flow->protocol == NAT_UDP ? accepts_udp(packet) : accepts_tcp(packet)))
        return LK_BAD_TRANSPORT;
    flow->src_port = swap_16(load_16(packet->payload));
    flow->dst_port = swap_16(load_16(packet->payload + 2));
    flow->flags = flow->protocol == NAT_TCP ? packet->payload[13] : 0;
    return LK_NOT_REJECTED;
}

/* An error that is translated: what it quotes. */
struct quoted {
    uint8_t *ptr;
    uint8_t *after; /* its IPv4 header */
    size_t len;     /* after it */
    int protocol;
};

/* Returns an `lk_rejection`. `echo` is the type of an echo message that may be quoted. */
INLINE int read_error(uint8_t *frame, const struct packet *packet, uint8_t echo, struct quoted *quoted)
{
    const uint8_t *message = packet->payload;
    if (!packet->len || packet->protocol != PROTOCOL_ICMP || (message[0] != 3 && message[0] != 11 && message[0] != 12))
        return LK_OTHER_PROTOCOL;
    if (packet->len < ICMP_LEN + IPV4_LEN || !icmp_holds(packet))
        return LK_BAD_TRANSPORT;
    uint8_t *ptr = frame + (message - frame) + ICMP_LEN;
    size_t len = packet->len - ICMP_LEN, header_len = ptr[0] % 16 * 4;
    if (ptr[0] >> 4 != 4 || header_len < IPV4_LEN || len < header_len + 8)
        return LK_BAD_TRANSPORT;
    *quoted = (struct quoted){ptr, ptr + header_len, len - header_len, -1};
    if (load_16(ptr + 6) & swap_16(0x1fff))
        return LK_NO_MAPPING;
    if (ptr[9] == PROTOCOL_UDP)
        quoted->protocol = NAT_UDP;
    else if (ptr[9] == PROTOCOL_TCP)
        quoted->protocol = NAT_TCP;
    else if (ptr[9] == PROTOCOL_ICMP && *quoted->after == echo)
        quoted->protocol = NAT_ICMP;
    return quoted->protocol < 0 ? LK_NO_MAPPING : LK_NOT_REJECTED;
}

/* Writes the end of a quoted packet on this side: a port or an identifier, and an address. */
INLINE void write_quoted(const struct quoted *quoted, int side, uint32_t addr, uint16_t port)
{
    uint8_t *at = quoted->ptr + (side == LK_SOURCE ? 12 : 16), *after = quoted->after;
    uint8_t *end = after + (quoted->protocol == NAT_ICMP ? 4 : side == LK_SOURCE ? 0 : 2);
    uint64_t old = load_32(at), old_port = load_16(end), new_port = swap_16(port);
    if (quoted->protocol == NAT_UDP)
        update_udp_field(after + 6, old + old_port, addr + new_port);
    else if (quoted->protocol == NAT_ICMP)
        update_field(after + 2, old_port, new_port);
    else if (quoted->len >= 18)
        update_field(after + 16, old + old_port, addr + new_port);
    store_16(end, (uint16_t)new_port);
    update_field(quoted->ptr + 10, old, addr);
    store_32(at, addr);
}

/* Writes an end into what an error quotes, and its address into the opposite side of the packet with the error. */
INLINE void write_error_ends(uint8_t *frame, const struct packet *packet, const struct quoted *quoted, int side, uint32_t addr,
                             uint16_t port)
{
    uint8_t *message = frame + (packet->payload - frame), *at = frame + ETHERNET_LEN + (side == LK_SOURCE ? 16 : 12);
    write_quoted(quoted, side, addr, port);
    store_16(message + 2, 0);
    store_16(message + 2, (uint16_t)~fold(total(message, packet->len)));
    update_field(frame + ETHERNET_LEN + 10, load_32(at), addr);
    store_32(at, addr);
}

static OUTLINE int error_out(const struct table *table, uint8_t *frame, const struct packet *packet)
{
    struct quoted quoted;
    int rejection = read_error(frame, packet, ECHO_REPLY, &quoted);
    if (rejection)
        return rejection;
    uint16_t port = swap_16(load_16(quoted.after + (quoted.protocol == NAT_ICMP ? 4 : 2)));
    const struct lk_mapping *mapping = find_kept(table, quoted.protocol, load_32(quoted.ptr + 16), port);
    if (!mapping)
        return LK_NO_MAPPING;
    write_error_ends(frame, packet, &quoted, LK_DESTINATION, load_32(table->nat->outside),
                     port_of(table, quoted.protocol, mapping));
    return LK_NOT_REJECTED;
}

static OUTLINE int error_in(const struct table *table, uint8_t *frame, const struct packet *packet)
{
    struct quoted quoted;
    int rejection = read_error(frame, packet, ECHO_REQUEST, &quoted);
    uint32_t outside = load_32(table->nat->outside);
    if (rejection)
        return rejection;
    uint16_t port = swap_16(load_16(quoted.after + (quoted.protocol == NAT_ICMP ? 4 : 0)));
    const struct lk_mapping *mapping = mapping_of(table, quoted.protocol, port);
    if (load_32(packet->header + 16) != outside || load_32(quoted.ptr + 12) != outside || !mapping
        || mapping->expires <= table->now)
        return LK_NO_MAPPING;
    write_error_ends(frame, packet, &quoted, LK_SOURCE, load_32(mapping->inside), mapping->inside_port);
    return LK_NOT_REJECTED;
}

/* Writes the end of a packet on this side. */
INLINE void write_end(uint8_t *frame, const struct packet *packet, int side, uint32_t addr, uint16_t port)
{
    uint8_t *ptr = frame + ETHERNET_LEN, *at = ptr + (side == LK_SOURCE ? 12 : 16), *transport = ptr + (packet->payload - ptr);
    uint64_t old = load_32(at);
    update_field(ptr + 10, old, addr);
    store_32(at, addr);
    if (packet->protocol == PROTOCOL_ICMP) {
        write_ident(transport, packet->len, port);
        return;
    }
    uint8_t *end = transport + (side == LK_SOURCE ? 0 : 2);
    uint64_t before = old + load_16(end), after = (uint64_t)addr + swap_16(port);
    if (packet->protocol == PROTOCOL_UDP)
        update_udp_field(transport + 6, before, after);
    else
        update_field(transport + 16, before, after);
    store_16(end, swap_16(port));
}

int lk_translate_out(const struct lk_nat *nat, struct lk_mapping *mappings, size_t count, uint64_t now, uint8_t *frame,
                     size_t len)
{
    struct table table = table_of(nat, mappings, count, now);
    struct flow flow;
    int rejection = read_flow(frame, len, &flow);
    if (rejection == LK_OTHER_PROTOCOL)
        return error_out(&table, frame, &flow.packet);
    if (rejection)
        return rejection;
    if (flow.protocol == NAT_ICMP ? !flow.is_request : !flow.src_port)
        return flow.protocol == NAT_ICMP ? LK_NO_MAPPING : LK_NAT_PORT_ZERO;
    struct lk_mapping *mapping = find_kept(&table, flow.protocol, flow.src, flow.src_port);
    if (!mapping) {
        mapping = find_free(&table, flow.protocol, flow.src, flow.src_port);
        if (!mapping)
            return LK_NO_FREE_PORT;
        *mapping = (struct lk_mapping){.inside_port = flow.src_port, .remote_port = flow.dst_port, .reach = mapping->reach};
        store_32(mapping->inside, flow.src);
        store_32(mapping->remote, flow.dst);
    }
    keep_alive(mapping, &table, &flow);
    write_end(frame, &flow.packet, LK_SOURCE, load_32(nat->outside), port_of(&table, flow.protocol, mapping));
    return LK_NOT_REJECTED;
}

int lk_translate_in(const struct lk_nat *nat, struct lk_mapping *mappings, size_t count, uint64_t now, uint8_t *frame,
                    size_t len)
{
    struct table table = table_of(nat, mappings, count, now);
    struct flow flow;
    int rejection = read_flow(frame, len, &flow);
    if (rejection == LK_OTHER_PROTOCOL)
        return error_in(&table, frame, &flow.packet);
    if (rejection)
        return rejection;
    struct lk_mapping *mapping = mapping_of(&table, flow.protocol, flow.dst_port);
    if (flow.dst != load_32(nat->outside) || flow.is_request || !mapping || mapping->expires <= now)
        return LK_NO_MAPPING;
    if (flow.protocol == NAT_TCP && flow.flags & (LK_FIN | LK_RST) && !is_shared(mapping, flow.src, flow.src_port)) {
        uint64_t closes = expiry(now, nat->tcp_transitory_timeout);
        mapping->expires = mapping->expires < closes ? mapping->expires : closes;
        mapping->state = next_state(mapping->state, 0, flow.flags);
    }
    write_end(frame, &flow.packet, LK_DESTINATION, load_32(mapping->inside), mapping->inside_port);
    return LK_NOT_REJECTED;
}
