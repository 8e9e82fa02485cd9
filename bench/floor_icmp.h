/* The calls on ICMP messages, and on neighbour solicitations and advertisements, by hand. */

enum { NDISC_LEN = 24, LLADDR_LEN = 8, NDISC_HOP_LIMIT = 255 };
enum { SOLICIT = 135, ADVERT = 136 }; /* an option of the source is 1, of the target 2 */

/* Writes an ICMP header before a payload with this total. */
INLINE void write_icmp(const struct lk_icmp *icmp, const struct lk_addr *src, const struct lk_addr *dst, size_t len,
                       uint64_t of_payload, int computed, uint8_t *out)
{
    uint64_t header = icmp->type | (uint64_t)icmp->code << 8 | (uint64_t)swap_32(icmp->word) << 32;
    if (computed) {
        uint64_t sum = around(header, of_payload);
        if (src->version == 6)
            sum = around(sum, pseudo_total(ipv6_total(src->octets, dst->octets), PROTOCOL_ICMPV6, ICMP_LEN + len));
        header |= (uint64_t)(uint16_t)~fold(sum) << 16;
    }
    store_64(out, header);
}

ptrdiff_t lk_emit_icmp(const struct lk_icmp *header, const struct lk_addr *src, const struct lk_addr *dst,
                       const uint8_t *ptr, size_t len, int computed, uint8_t *out, size_t cap)
{
    if (!is_one_version(src, dst) || len > 65535 - ICMP_LEN || !reaches(cap, ICMP_LEN + len))
        return short_failure(src, dst, 1, len);
    uint64_t of_payload = computed ? total(ptr, len) : 0;
    memcpy(out + ICMP_LEN, ptr, len);
    write_icmp(header, src, dst, len, of_payload, computed, out);
    return (ptrdiff_t)(ICMP_LEN + len);
}

ptrdiff_t lk_emit_icmp_frame(const struct lk_frame *headers, const uint8_t *ptr, size_t len, uint8_t *out, size_t cap)
{
    const struct lk_addr *src = &headers->src.addr, *dst = &headers->dst.addr;
    size_t at = transport_at(headers, ICMP_LEN, len, cap);
    if (!at)
        return short_frame_failure(headers, 1, len);
    uint64_t of_payload = total(ptr, len);
    memcpy(out + at + ICMP_LEN, ptr, len);
    write_icmp(&headers->icmp, src, dst, len, of_payload, 1, out + at);
    write_front(headers, src->version == 4 ? PROTOCOL_ICMP : PROTOCOL_ICMPV6, ICMP_LEN + len, out);
    return (ptrdiff_t)(at + ICMP_LEN + len);
}

/* Whether all but its options are valid: lengths, hop limit, code, checksum and target. */
INLINE int is_ndisc(const struct packet *packet)
{
    const uint8_t *ptr = packet->payload;
    return packet->protocol == PROTOCOL_ICMPV6 && packet->header[7] == NDISC_HOP_LIMIT && packet->len >= NDISC_LEN
           && (ptr[0] == SOLICIT || ptr[0] == ADVERT) && !ptr[1] && ptr[8] != 0xff && icmp_holds(packet);
}

/* Stores the address of the first option of this kind. Returns 0 if an option is malformed. */
INLINE int read_lladdr(const uint8_t *ptr, size_t len, uint8_t kind, struct lk_ndisc *ndisc)
{
    for (size_t step; len; ptr += step, len -= step) {
        if (len < LLADDR_LEN)
            return 0;
        step = 8 * (size_t)ptr[1];
        if (!step || len < step)
            return 0;
        if (ptr[0] != kind || ndisc->has_hardware)
            continue;
        if (step != LLADDR_LEN)
            return 0;
        memcpy(ndisc->hardware, ptr + 2, 6);
        ndisc->has_hardware = 1;
    }
    return 1;
}

/* What a message must be between its addresses. */
INLINE int is_allowed(const uint8_t *src, const uint8_t *dst, const struct lk_ndisc *ndisc)
{
    static const uint8_t solicited_node[13] = {0xff, 2, [11] = 1, [12] = 0xff};
    if (ndisc->is_advert)
        return !ndisc->is_solicited || dst[0] != 0xff;
    return load_64(src) || load_64(src + 8)
           || (!ndisc->has_hardware && !memcmp(dst, solicited_node, sizeof solicited_node));
}

int lk_find_ndisc(const uint8_t *frame, size_t len, struct lk_ndisc *ndisc)
{
    struct packet packet;
    if (!reaches(len, ETHERNET_LEN) || load_16(frame + 12) != swap_16(TYPE_IPV6))
        return 0;
    if (read_ipv6(frame + ETHERNET_LEN, len - ETHERNET_LEN, &packet) != LK_READ || !is_ndisc(&packet))
        return 0;
    const uint8_t *ptr = packet.payload;
    struct lk_ndisc value = {.target = {.version = 6}, .is_advert = ptr[0] == ADVERT};
    memcpy(value.target.octets, ptr + 8, 16);
    if (value.is_advert) {
        value.is_router = ptr[4] >> 7;
        value.is_solicited = ptr[4] >> 6 & 1;
        value.overrides = ptr[4] >> 5 & 1;
    }
    if (!read_lladdr(ptr + NDISC_LEN, packet.len - NDISC_LEN, 1 + value.is_advert, &value)
        || !is_allowed(packet.header + 8, packet.header + 24, &value))
        return 0;
    *ndisc = value;
    return 1;
}

ptrdiff_t lk_emit_ndisc_frame(const struct lk_frame *headers, const struct lk_ndisc *ndisc, uint8_t *out, size_t cap)
{
    enum { AT = ETHERNET_LEN + IPV6_LEN };
    const struct lk_addr *src = &headers->src.addr, *dst = &headers->dst.addr;
    size_t len = ndisc->has_hardware ? NDISC_LEN + LLADDR_LEN : NDISC_LEN;
    int is_advert = ndisc->is_advert != 0;
    if (src->version != 6 || dst->version != 6 || ndisc->target.version != 6)
        return LK_NO_VERSION;
    if (ndisc->target.octets[0] == 0xff || !is_allowed(src->octets, dst->octets, ndisc))
        return LK_BAD_FIELD;
    if (!reaches(cap, AT + len))
        return LK_NO_ROOM;
    struct lk_icmp icmp = {.type = is_advert ? ADVERT : SOLICIT};
    if (is_advert)
        icmp.word = (ndisc->is_router ? 1u << 31 : 0) | (ndisc->is_solicited ? 1u << 30 : 0)
                    | (ndisc->overrides ? 1u << 29 : 0);
    uint8_t *body = out + AT + ICMP_LEN;
    memcpy(body, ndisc->target.octets, 16);
    if (ndisc->has_hardware) {
        store_16(body + 16, (uint16_t)(1 + is_advert) | 1 << 8);
        memcpy(body + 18, ndisc->hardware, 6);
    }
    write_icmp(&icmp, src, dst, len - ICMP_LEN, total(body, len - ICMP_LEN), 1, out + AT);
    write_link(headers, TYPE_IPV6, out);
    write_ipv6(&(struct lk_ip){.hop_limit = NDISC_HOP_LIMIT}, src->octets, dst->octets, PROTOCOL_ICMPV6, len,
               out + ETHERNET_LEN);
    return (ptrdiff_t)(AT + len);
}
