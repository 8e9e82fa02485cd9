/* lk_answer, lk_emit_icmp_error and lk_clamp_mss by hand: what is read by lk_read_frame is written by lk_emit_... */

enum { HOP_LIMIT = 64, IPV4_QUOTE = 548, IPV6_QUOTE = 1232 };

INLINE int is_unicast(const uint8_t *hardware) { return !(hardware[0] & 1); }

/* Whether one host may have this address. */
INLINE int is_of_host(const struct lk_addr *addr)
{
    const uint8_t *octets = addr->octets;
    if (addr->version == 4)
        return octets[0] != 0 && octets[0] != 127 && octets[0] < 224;
    if (octets[0] == 0xff)
        return 0;
    if (load_64(octets))
        return 1;
    uint64_t low = load_64(octets + 8);
    return (uint32_t)low != 0xffff0000 && low != 0 && low != (uint64_t)1 << 56;
}

INLINE int is_same_addr(const struct lk_addr *a, const struct lk_addr *b)
{
    return a->version == b->version && load_64(a->octets) == load_64(b->octets) && load_64(a->octets + 8) == load_64(b->octets + 8);
}

/* Whether it is the address of an interface, which one host may have. */
INLINE int is_own(const struct lk_addr *own, const struct lk_addr *addr) { return is_same_addr(own, addr) && is_of_host(own); }

INLINE int is_from_other(const struct lk_addr *own, const struct lk_addr *src) { return is_of_host(src) && !is_same_addr(own, src); }

/* Whether each checksum of a frame that was read is valid or left out, and nothing is between IP and transport. */
INLINE int is_valid(const struct lk_frame *frame)
{
    return frame->ipv4_checksum != LK_CHECKSUM_INVALID && frame->protocol == frame->ip.protocol
           && (frame->transport_checksum == LK_CHECKSUM_VALID || frame->transport_checksum == LK_CHECKSUM_OMITTED);
}

/* Makes the headers of a frame those of an answer with this DSCP. */
INLINE void turn(struct lk_frame *frame, const uint8_t *hardware, uint8_t dscp)
{
    struct lk_endpoint end = frame->src;
    frame->src = frame->dst;
    frame->dst = end;
    memcpy(frame->ethernet.dst, frame->ethernet.src, 6);
    memcpy(frame->ethernet.src, hardware, 6);
    frame->ip = (struct lk_ip){.hop_limit = HOP_LIMIT, .dont_fragment = 1, .dscp = dscp};
}

INLINE ptrdiff_t answer_arp(const struct lk_host *host, struct lk_frame *frame, uint8_t *out, size_t cap)
{
    const struct lk_addr *asker = &frame->src.addr;
    if (frame->arp.operation != 1 || !is_own(&host->ipv4, &frame->dst.addr) || !is_unicast(frame->arp.src_hardware)
        || (load_32(asker->octets) && !is_from_other(&host->ipv4, asker)))
        return 0;
    memcpy(frame->ethernet.dst, frame->arp.src_hardware, 6);
    memcpy(frame->ethernet.src, host->hardware, 6);
    memcpy(frame->arp.dst_hardware, frame->arp.src_hardware, 6);
    memcpy(frame->arp.src_hardware, host->hardware, 6);
    frame->arp.operation = 2;
    frame->dst.addr = *asker;
    frame->src.addr = host->ipv4;
    return lk_emit_arp_frame(frame, out, cap);
}

INLINE int has_port(const uint16_t *ports, size_t count, uint16_t port)
{
    for (size_t i = 0; i < count; i++)
        if (ports[i] == port)
            return 1;
    return 0;
}

/* What SYN and ACK offers for these options of a SYN. */
INLINE struct lk_tcp_options offer(const struct lk_host *host, const struct lk_tcp_options *asked)
{
    struct lk_tcp_options options = {.has_mss = 1, .mss = host->mss,
                                     .sack_permitted = asked->sack_permitted};
    if (asked->has_window_scale) {
        options.has_window_scale = 1;
        options.window_scale = host->window_scale < 14 ? host->window_scale : 14;
    }
    if (asked->has_timestamp) {
        options.has_timestamp = 1;
        options.tsval = host->tsval;
        options.tsecr = asked->tsval;
    }
    return options;
}

INLINE ptrdiff_t answer_tcp(const struct lk_host *host, const uint8_t *ptr, struct lk_frame *frame, uint8_t *out, size_t cap)
{
    const struct lk_tcp tcp = frame->tcp;
    struct lk_tcp_options options = {.tsval = 0};
    int is_open = has_port(host->open_ports, host->open_port_count, frame->dst.port);
    if (tcp.flags & LK_RST)
        return 0;
    turn(frame, host->hardware, 0);
    if (tcp.flags & LK_ACK) {
        frame->tcp = (struct lk_tcp){.seq_number = tcp.ack_number, .flags = LK_RST};
    } else if (!is_open) {
        uint32_t len = (uint32_t)frame->payload_len + (tcp.flags & (LK_SYN | LK_FIN) ? 1 : 0);
        frame->tcp = (struct lk_tcp){.ack_number = tcp.seq_number + len, .flags = LK_RST | LK_ACK};
    } else if (tcp.flags & LK_SYN) {
        struct lk_tcp_options asked;
        lk_find_tcp_options(ptr + frame->transport_offset, tcp.header_len, &asked);
        options = offer(host, &asked);
        frame->tcp = (struct lk_tcp){.seq_number = host->seq_number, .ack_number = tcp.seq_number + 1,
                                     .window_len = host->window_len, .flags = LK_SYN | LK_ACK};
    } else {
        return 0;
    }
    return write_tcp_frame(frame, &options, ptr, 0, out, cap);
}

INLINE int is_solicited(const struct lk_host *host, const struct lk_frame *frame)
{
    const uint8_t *own = host->ipv6.octets, *dst = frame->dst.addr.octets;
    static const uint8_t solicited_node[13] = {0xff, 2, [11] = 1, [12] = 0xff};
    int is_to_us = !memcmp(frame->ethernet.dst, host->hardware, 6);
    if (!is_unicast(frame->ethernet.src) || !is_of_host(&host->ipv6))
        return 0;
    if (!memcmp(dst, own, 16))
        return is_to_us;
    return !memcmp(dst, solicited_node, 13) && !memcmp(dst + 13, own + 13, 3)
           && (is_to_us || (load_16(frame->ethernet.dst) == 0x3333 && load_32(frame->ethernet.dst + 2) == load_32(dst + 12)));
}

static OUTLINE ptrdiff_t answer_solicitation(const struct lk_host *host, const uint8_t *ptr, size_t len,
                                             struct lk_frame *frame, uint8_t *out, size_t cap)
{
    struct lk_ndisc asked, advert = {.target = host->ipv6, .has_hardware = 1, .is_advert = 1, .is_router = host->is_router,
                                     .overrides = 1};
    if (!is_solicited(host, frame) || !lk_find_ndisc(ptr, len, &asked) || asked.is_advert
        || !is_same_addr(&asked.target, &host->ipv6))
        return 0;
    memcpy(advert.hardware, host->hardware, 6);
    memcpy(frame->ethernet.dst, asked.has_hardware ? asked.hardware : frame->ethernet.src, 6);
    frame->dst.addr = frame->src.addr;
    frame->src.addr = host->ipv6;
    memcpy(frame->ethernet.src, host->hardware, 6);
    if (!load_64(frame->dst.addr.octets) && !load_64(frame->dst.addr.octets + 8)) {
        memcpy(frame->dst.addr.octets, (const uint8_t[16]){0xff, 2, [15] = 1}, 16);
        memcpy(frame->ethernet.dst, (const uint8_t[6]){0x33, 0x33, [5] = 1}, 6);
        return lk_emit_ndisc_frame(frame, &advert, out, cap);
    }
    advert.is_solicited = 1;
    if (!is_from_other(&host->ipv6, &frame->dst.addr) || !is_unicast(frame->ethernet.dst))
        return 0;
    return lk_emit_ndisc_frame(frame, &advert, out, cap);
}

/* Mobility, HIP and Shim6 headers are stepped through too. */
INLINE int is_error_extension(uint8_t protocol)
{
    return is_extension(protocol) || protocol == 135 || protocol == 139 || protocol == 140;
}

/* Steps to the header after the IPv6 extension headers. Returns 0 if one does not end within the packet. */
INLINE int step_to_upper(struct packet *packet)
{
    while (is_error_extension(packet->protocol)) {
        const uint8_t *ptr = packet->payload;
        if (packet->len < 8)
            return 0;
        size_t len = extension_len(packet);
        if (packet->len < len)
            return 0;
        if (packet->protocol == PROTOCOL_IPV6_FRAGMENT && load_16(ptr + 2) & swap_16(0xfff8))
            packet->len = len;
        packet->protocol = ptr[0];
        packet->payload += len;
        packet->len -= len;
    }
    return 1;
}

/* Whether an error may be told of what the packet carries: of no ICMP error. */
INLINE int is_told_of(struct packet *packet)
{
    if (packet->is_ipv4 ? load_16(packet->header + 6) & swap_16(0x1fff) : !step_to_upper(packet))
        return 0;
    if (packet->protocol != (packet->is_ipv4 ? PROTOCOL_ICMP : PROTOCOL_ICMPV6))
        return 1;
    if (!packet->len)
        return 0;
    uint8_t type = packet->payload[0];
    return packet->is_ipv4 ? type == 0 || type == 8 || (type >= 13 && type <= 18) : type >= 128 && type != 137;
}

/* The IP packet of a frame. Returns 0 if its version, lengths or header checksum are wrong. */
INLINE int is_packet(const uint8_t *ptr, size_t len, struct packet *packet)
{
    if (!reaches(len, ETHERNET_LEN))
        return 0;
    if (load_16(ptr + 12) == swap_16(TYPE_IPV4))
        return read_ipv4(ptr + ETHERNET_LEN, len - ETHERNET_LEN, packet) == LK_READ && ipv4_holds(packet);
    return load_16(ptr + 12) == swap_16(TYPE_IPV6)
           && read_ipv6(ptr + ETHERNET_LEN, len - ETHERNET_LEN, packet) == LK_READ;
}

/* Writes an error with these fields from an interface, or returns 0 if there may be none. */
static OUTLINE ptrdiff_t write_error(const struct lk_interface *own, struct lk_icmp icmp, const uint8_t *ptr,
                                     struct packet packet, uint8_t *out, size_t cap)
{
    const struct lk_addr *addr = packet.is_ipv4 ? &own->ipv4 : &own->ipv6;
    struct lk_frame frame = {.ip = {.hop_limit = HOP_LIMIT, .dont_fragment = 1}, .icmp = icmp};
    struct lk_addr *src = &frame.src.addr, *dst = &frame.dst.addr;
    const uint8_t *header = packet.header;
    size_t len = (size_t)(packet.payload - header) + packet.len, most = packet.is_ipv4 ? IPV4_QUOTE : IPV6_QUOTE;
    src->version = dst->version = packet.is_ipv4 ? 4 : 6;
    memcpy(src->octets, header + (packet.is_ipv4 ? 12 : 8), packet.is_ipv4 ? 4 : 16);
    memcpy(dst->octets, header + (packet.is_ipv4 ? 16 : 24), packet.is_ipv4 ? 4 : 16);
    if (memcmp(ptr, own->hardware, 6) || !is_unicast(ptr + 6) || !is_from_other(addr, src) || !is_of_host(dst)
        || !is_of_host(addr) || !is_told_of(&packet))
        return 0;
    *dst = *src;
    *src = *addr;
    memcpy(frame.ethernet.dst, ptr + 6, 6);
    memcpy(frame.ethernet.src, own->hardware, 6);
    return lk_emit_icmp_frame(&frame, header, len < most ? len : most, out, cap);
}

INLINE ptrdiff_t answer_udp(const struct lk_host *host, const uint8_t *ptr, size_t len, struct lk_frame *frame, uint8_t *out,
                            size_t cap)
{
    if (frame->dst.port == host->echo_port) {
        if (frame->src.port < 1024 || frame->src.port <= host->echo_port)
            return 0;
        turn(frame, host->hardware, 0);
        return write_udp_frame(frame, ptr + frame->payload_offset, frame->payload_len, out, cap);
    }
    if (has_port(host->open_udp_ports, host->open_udp_port_count, frame->dst.port))
        return 0;
    struct lk_interface own = {host->ipv4, host->ipv6, {0}};
    struct packet packet = {.header = NULL};
    memcpy(own.hardware, host->hardware, 6);
    if (!is_packet(ptr, len, &packet))
        return 0;
    return write_error(&own, (struct lk_icmp){.type = packet.is_ipv4 ? 3 : 1, .code = packet.is_ipv4 ? 3 : 4}, ptr, packet, out,
                       cap);
}

INLINE ptrdiff_t answer_echo(const struct lk_host *host, const uint8_t *ptr, struct lk_frame *frame, uint8_t *out, size_t cap)
{
    int is_ipv4 = frame->network == LK_IPV4;
    if (frame->icmp.type != (is_ipv4 ? ECHO_REQUEST : 128) || frame->icmp.code)
        return 0;
    turn(frame, host->hardware, frame->ip.dscp);
    frame->icmp.type = is_ipv4 ? ECHO_REPLY : 129;
    return lk_emit_icmp_frame(frame, ptr + frame->payload_offset, frame->payload_len, out, cap);
}

ptrdiff_t lk_answer(const struct lk_host *host, const uint8_t *ptr, size_t len, uint8_t *out, size_t cap)
{
    struct lk_frame frame;
    if (host->ipv4.version != 4 || host->ipv6.version != 6)
        return LK_NO_VERSION;
    if (len > LK_MAX_LEN)
        return LK_NO_HEADER;
    if (lk_read_frame(ptr, len, &frame) != LK_READ)
        return 0;
    if (frame.network == LK_ARP)
        return answer_arp(host, &frame, out, cap);
    const struct lk_addr *own = frame.network == LK_IPV4 ? &host->ipv4 : &host->ipv6;
    if (!frame.transport || !is_valid(&frame))
        return 0;
    if (frame.transport == LK_ICMP && frame.network == LK_IPV6 && frame.icmp.type == SOLICIT)
        return answer_solicitation(host, ptr, len, &frame, out, cap);
    if (memcmp(frame.ethernet.dst, host->hardware, 6) || !is_unicast(frame.ethernet.src) || !is_own(own, &frame.dst.addr)
        || !is_from_other(own, &frame.src.addr))
        return 0;
    if (frame.transport == LK_UDP)
        return answer_udp(host, ptr, len, &frame, out, cap);
    if (frame.transport == LK_TCP)
        return answer_tcp(host, ptr, &frame, out, cap);
    return answer_echo(host, ptr, &frame, out, cap);
}

/* Whether the packet has the problem, as far as its bytes show it. */
INLINE int has_problem(const struct packet *packet, int problem, uint32_t mtu)
{
    const uint8_t *header = packet->header;
    size_t len = (size_t)(packet->payload - header) + packet->len;
    switch (problem) {
    case LK_HOP_LIMIT_EXPIRED:
        return header[packet->is_ipv4 ? 8 : 7] <= 1;
    case LK_PACKET_TOO_BIG:
        return mtu < len && (!packet->is_ipv4 || header[6] & 0x40);
    }
    return 1;
}

ptrdiff_t lk_emit_icmp_error(const struct lk_interface *own, int problem, uint32_t mtu, const uint8_t *frame, size_t len,
                             uint8_t *out, size_t cap)
{
    /* Type and code over IPv4 and over IPv6. */
    static const uint8_t codes[][4] = {[LK_HOP_LIMIT_EXPIRED] = {11, 0, 3, 0}, [LK_PACKET_TOO_BIG] = {3, 4, 2, 0},
                                       [LK_NO_ROUTE_TO_DESTINATION] = {3, 0, 1, 0},      [LK_NEIGHBOUR_MISSING] = {3, 1, 1, 3},
                                       [LK_PORT_CLOSED] = {3, 3, 1, 4},        [LK_PROHIBITED] = {3, 13, 1, 1},
                                       [LK_FRAGMENT_MISSING] = {11, 1, 3, 1}};
    struct packet packet = {.header = NULL};
    if (own->ipv4.version != 4 || own->ipv6.version != 6)
        return LK_NO_VERSION;
    if (len > LK_MAX_LEN)
        return LK_NO_HEADER;
    if (problem < LK_HOP_LIMIT_EXPIRED || problem > LK_FRAGMENT_MISSING || !is_packet(frame, len, &packet)
        || !has_problem(&packet, problem, mtu))
        return 0;
    const uint8_t *code = codes[problem] + (packet.is_ipv4 ? 0 : 2);
    struct lk_icmp icmp = {.type = code[0], .code = code[1]};
    if (problem == LK_PACKET_TOO_BIG)
        icmp.word = packet.is_ipv4 && mtu > 0xffff ? 0xffff : mtu;
    return write_error(own, icmp, frame, packet, out, cap);
}

/* The last maximum segment size of valid options. */
INLINE uint8_t *last_size(uint8_t *ptr, const uint8_t *end)
{
    uint8_t *found = NULL;
    for (size_t len; ptr != end && *ptr != OPTION_END; ptr += len) {
        len = *ptr == OPTION_NONE ? 1 : ptr[1];
        if (*ptr == OPTION_SIZE)
            found = ptr + 2;
    }
    return found;
}

int lk_clamp_mss(uint8_t *frame, size_t len, uint16_t mss)
{
    struct packet packet = {.header = NULL};
    size_t header_len = 0;
    if (!is_packet(frame, len, &packet) || packet.is_fragment || packet.protocol != PROTOCOL_TCP
        || read_tcp(&packet, &header_len, NULL) != LK_READ || !(packet.payload[13] & LK_SYN))
        return 0;
    uint8_t *segment = frame + (packet.payload - frame), *size = last_size(segment + TCP_LEN, segment + header_len);
    if (!size || swap_16(load_16(size)) <= mss)
        return 0;
    if (verdict(&packet, packet.len, 16) != LK_CHECKSUM_PARTIAL) {
        size_t is_odd = (size_t)(size - segment);
        uint64_t before = add_at(0, load_16(size), is_odd), after = add_at(0, swap_16(mss), is_odd);
        update_field(segment + 16, before, fold(after));
    }
    store_16(size, swap_16(mss));
    return 1;
}
