/* The edits of a packet in place by hand, with the checks and the guess that they make. */

enum { IPV4_SRC = 26, IPV4_DST = 30, IPV4_END = 34, IPV6_SRC = 22, IPV6_DST = 38, IPV6_END = 54 };

/* What a packet carries: something without a checksum over the addresses, a segment with a checksum, a later fragment, or
 * what is not parsed. */
enum carried { OTHER, SEGMENT, FRAGMENT, HIDDEN };

/* Where the fields of a frame are, from its first byte. */
struct places {
    size_t start; /* of what the IP packet carries */
    size_t end;
    size_t segment_end;
    size_t checksum; /* of the segment */
    enum carried carried;
    int is_ipv4;
    int is_whole; /* the segment is there as a whole */
    uint8_t protocol;
};

/* Whether a protocol hides the next one, or has a checksum that covers the addresses. */
INLINE int hides(uint8_t protocol, int is_ipv4)
{
    switch (protocol) {
    case PROTOCOL_AUTHENTICATION: case 33: case 89: case 112: case 136: case 139:
        return 1;
    case PROTOCOL_HOP_BY_HOP: case PROTOCOL_ROUTING: case PROTOCOL_IPV6_FRAGMENT: case PROTOCOL_OPTIONS: case 103: case 135:
        return !is_ipv4;
    }
    return 0;
}

INLINE void place_segment(const uint8_t *frame, size_t offset, struct places *places)
{
    places->carried = HIDDEN;
    places->checksum = places->start + offset;
    places->segment_end = places->end;
    if (places->end < places->checksum + 2)
        return;
    if (places->protocol == PROTOCOL_UDP) {
        size_t len = swap_16(load_16(frame + places->start + 4));
        if (len < UDP_LEN)
            return;
        if (places->start + len <= places->end)
            places->segment_end = places->start + len;
        else
            places->is_whole = 0;
    }
    places->carried = SEGMENT;
}

INLINE void place_carried(const uint8_t *frame, uint8_t protocol, int is_whole, struct places *places)
{
    places->protocol = protocol;
    places->is_whole = is_whole;
    if (protocol == PROTOCOL_TCP)
        place_segment(frame, 16, places);
    else if (protocol == PROTOCOL_UDP)
        place_segment(frame, 6, places);
    else if (protocol == (places->is_ipv4 ? PROTOCOL_ICMP : PROTOCOL_ICMPV6))
        place_segment(frame, 2, places);
    else
        places->carried = hides(protocol, places->is_ipv4) ? HIDDEN : OTHER;
}

INLINE int place_ipv4(const uint8_t *frame, size_t len, struct places *places)
{
    struct packet packet;
    if (read_ipv4(frame + ETHERNET_LEN, len - ETHERNET_LEN, &packet) != LK_READ)
        return 0;
    uint16_t fragment = swap_16(load_16(frame + 20));
    places->is_ipv4 = 1;
    places->start = (size_t)(packet.payload - frame);
    places->end = places->start + packet.len;
    if (fragment & 0x1fff)
        places->carried = FRAGMENT;
    else
        place_carried(frame, packet.protocol, !(fragment & 0x2000), places);
    return 1;
}

/* Steps through extension headers, up to one of a fragment. What follows is hidden after one that is rejected, and after
 * an authentication header. */
static OUTLINE void place_extended(const uint8_t *frame, struct packet *packet, struct places *places)
{
    uint16_t fragment = 0;
    int is_authenticated = 0;
    for (int is_first = 1; !fragment && is_extension(packet->protocol); is_first = 0) {
        const uint8_t *ptr = packet->payload;
        size_t len = packet->len < 8 ? 8 : extension_len(packet);
        places->carried = HIDDEN;
        if (extension_reason(packet, len, is_first) != LK_READ)
            return;
        if (packet->protocol == PROTOCOL_IPV6_FRAGMENT)
            fragment = swap_16(load_16(ptr + 2)) & 0xfff9;
        is_authenticated |= packet->protocol == PROTOCOL_AUTHENTICATION;
        packet->protocol = ptr[0];
        packet->payload += len;
        packet->len -= len;
        places->start += len;
    }
    if (is_authenticated)
        return;
    if (fragment & 0xfff8)
        places->carried = FRAGMENT;
    else
        place_carried(frame, packet->protocol, !fragment, places);
}

INLINE int place_ipv6(const uint8_t *frame, size_t len, struct places *places)
{
    struct packet packet;
    if (read_ipv6(frame + ETHERNET_LEN, len - ETHERNET_LEN, &packet) != LK_READ)
        return 0;
    places->is_ipv4 = 0;
    places->start = IPV6_END;
    places->end = IPV6_END + packet.len;
    if (is_extension(packet.protocol))
        place_extended(frame, &packet, places);
    else
        place_carried(frame, packet.protocol, 1, places);
    return 1;
}

/* Returns 0 if the frame has no IP packet. */
INLINE int place(const uint8_t *frame, size_t len, struct places *places)
{
    if (!reaches(len, ETHERNET_LEN))
        return 0;
    switch (swap_16(load_16(frame + 12))) {
    case TYPE_IPV4:
        return place_ipv4(frame, len, places);
    case TYPE_IPV6:
        return place_ipv6(frame, len, places);
    }
    return 0;
}

INLINE uint64_t pseudo_of(const uint8_t *frame, const struct places *places)
{
    uint64_t addresses = places->is_ipv4 ? ipv4_total(load_32(frame + IPV4_SRC), load_32(frame + IPV4_DST))
                                         : ipv6_total(frame + IPV6_SRC, frame + IPV6_DST);
    return pseudo_total(addresses, places->protocol, places->segment_end - places->start);
}

/* Of all that the checksum of the segment covers. */
INLINE uint64_t covered_total(const uint8_t *frame, const struct places *places)
{
    uint64_t sum = total_apart(frame + places->start, places->segment_end - places->start);
    return places->protocol == PROTOCOL_ICMP ? sum : around(sum, pseudo_of(frame, places));
}

INLINE int has_ports(const struct places *places)
{
    return places->carried == SEGMENT && (places->protocol == PROTOCOL_TCP || places->protocol == PROTOCOL_UDP);
}

/* Whether the checksum seems to be left to the device. */
INLINE int seems_left(const uint8_t *frame, const struct places *places)
{
    return places->is_whole && has_ports(places) && load_16(frame + places->checksum) == fold(pseudo_of(frame, places))
           && !holds(covered_total(frame, places));
}

/* The field of the segment's protocol. */
INLINE uint16_t updated_as(uint8_t protocol, uint16_t field, uint64_t before, uint64_t after)
{
    uint16_t next = updated(field, before, fold(after));
    if (protocol != PROTOCOL_UDP)
        return next;
    return field && !next ? 0xffff : field ? next : 0;
}

INLINE void update_header(uint8_t *frame, uint64_t before, uint64_t after)
{
    store_16(frame + 24, updated(load_16(frame + 24), before, fold(after)));
}

int lk_set_hop_limit(uint8_t *frame, size_t len, uint8_t hop_limit)
{
    struct places places = {.carried = OTHER};
    if (!place(frame, len, &places))
        return 0;
    if (places.is_ipv4)
        update_header(frame, frame[22], hop_limit);
    frame[places.is_ipv4 ? 22 : 21] = hop_limit;
    return 1;
}

int lk_set_dscp(uint8_t *frame, size_t len, uint8_t dscp)
{
    struct places places = {.carried = OTHER};
    if (dscp > 63 || !place(frame, len, &places))
        return 0;
    uint16_t before = load_16(frame + ETHERNET_LEN), word = swap_16(before);
    word = places.is_ipv4 ? (uint16_t)((word & 0xff03) | dscp << 2) : (uint16_t)((word & 0xf03f) | dscp << 6);
    if (places.is_ipv4)
        update_header(frame, before, swap_16(word));
    store_16(frame + ETHERNET_LEN, swap_16(word));
    return 1;
}

/* Before the addresses change. */
INLINE void update_for_addresses(uint8_t *frame, const struct places *places, uint64_t before, uint64_t after)
{
    uint8_t *field = frame + places->checksum;
    if (places->carried != SEGMENT || places->protocol == PROTOCOL_ICMP)
        return;
    if (seems_left(frame, places))
        store_16(field, (uint16_t)~updated((uint16_t)~load_16(field), before, fold(after)));
    else
        store_16(field, updated_as(places->protocol, load_16(field), before, after));
}

int lk_set_addr(uint8_t *frame, size_t len, int side, const struct lk_addr *addr)
{
    struct places places = {.carried = OTHER};
    if (!place(frame, len, &places) || places.carried == HIDDEN || addr->version != (places.is_ipv4 ? 4 : 6))
        return 0;
    if (places.is_ipv4) {
        uint8_t *at = frame + (side == LK_SOURCE ? IPV4_SRC : IPV4_DST);
        uint32_t before = load_32(at), after = load_32(addr->octets);
        update_header(frame, before, after);
        update_for_addresses(frame, &places, before, after);
        store_32(at, after);
    } else {
        uint8_t *at = frame + (side == LK_SOURCE ? IPV6_SRC : IPV6_DST);
        update_for_addresses(frame, &places, around(load_64(at), load_64(at + 8)),
                             around(load_64(addr->octets), load_64(addr->octets + 8)));
        memcpy(at, addr->octets, 16);
    }
    return 1;
}

int lk_set_port(uint8_t *frame, size_t len, int side, uint16_t port)
{
    struct places places = {.carried = OTHER};
    if (!place(frame, len, &places) || !has_ports(&places))
        return 0;
    uint8_t *at = frame + places.start + (side == LK_SOURCE ? 0 : 2), *field = frame + places.checksum;
    if (!seems_left(frame, &places))
        store_16(field, updated_as(places.protocol, load_16(field), load_16(at), swap_16(port)));
    store_16(at, swap_16(port));
    return 1;
}

INLINE int is_apart(size_t at, size_t end, size_t first, size_t last)
{
    return end <= first || last <= at || last <= first;
}

/* Whether these bytes are none that decide where others are, and no checksum. */
INLINE int can_be_set(const struct places *places, size_t at, size_t end)
{
    size_t start = places->start;
    if (!is_apart(at, end, 0, 15))
        return 0;
    if (places->is_ipv4 ? !is_apart(at, end, 16, 22) || !is_apart(at, end, 23, IPV4_SRC)
                        : !is_apart(at, end, 18, 21) || !is_apart(at, end, IPV6_END, start))
        return 0;
    switch (places->carried) {
    case FRAGMENT:
        return is_apart(at, end, places->is_ipv4 ? start : IPV6_END, places->end);
    case HIDDEN:
        return is_apart(at, end, places->is_ipv4 ? 23 : IPV6_SRC, places->end);
    case SEGMENT:
        if (places->protocol == PROTOCOL_UDP)
            return is_apart(at, end, start + 4, start + 8);
        return is_apart(at, end, places->checksum, places->checksum + 2)
               && (places->protocol != PROTOCOL_TCP || is_apart(at, end, start + 12, start + 13));
    case OTHER:
        break;
    }
    return 1;
}

/* An edit: `ptr` replaces what begins at `at`. */
struct edit {
    const uint8_t *ptr;
    size_t at;
    size_t end;
};

/* The part of an edit that is between `first` and `last`: its total before and after. Returns 0 if there is none. */
INLINE int totals_within(const uint8_t *frame, const struct edit *edit, size_t first, size_t last, uint64_t totals[2])
{
    size_t from = edit->at > first ? edit->at : first, to = edit->end < last ? edit->end : last;
    if (from >= to)
        return 0;
    totals[0] = add_at(0, total(frame + from, to - from), from);
    totals[1] = add_at(0, total(edit->ptr + (from - edit->at), to - from), from);
    return 1;
}

INLINE void update_for_bytes(uint8_t *frame, const struct places *places, const struct edit *edit)
{
    uint64_t totals[2];
    uint16_t field = load_16(frame + places->checksum);
    size_t first = places->is_ipv4 ? IPV4_SRC : IPV6_SRC, last = places->is_ipv4 ? IPV4_END : IPV6_END;
    if (seems_left(frame, places)) {
        if (totals_within(frame, edit, first, last, totals))
            field = (uint16_t)~updated((uint16_t)~field, totals[0], fold(totals[1]));
    } else {
        if (places->protocol != PROTOCOL_ICMP && totals_within(frame, edit, first, last, totals))
            field = updated_as(places->protocol, field, totals[0], totals[1]);
        if (totals_within(frame, edit, places->start, places->segment_end, totals))
            field = updated_as(places->protocol, field, totals[0], totals[1]);
    }
    store_16(frame + places->checksum, field);
}

int lk_set_bytes(uint8_t *frame, size_t len, size_t offset, const uint8_t *ptr, size_t count)
{
    struct places places = {.carried = OTHER};
    struct edit edit = {ptr, offset, offset + count};
    uint64_t totals[2];
    if (!reaches(len, 0) || offset > len || count > len - offset || !place(frame, len, &places)
        || !can_be_set(&places, offset, offset + count))
        return 0;
    if (places.is_ipv4 && totals_within(frame, &edit, ETHERNET_LEN, places.start, totals))
        update_header(frame, totals[0], totals[1]);
    if (places.carried == SEGMENT)
        update_for_bytes(frame, &places, &edit);
    memcpy(frame + offset, ptr, count);
    return 1;
}

int lk_fill_checksum(uint8_t *frame, size_t len)
{
    struct places places = {.carried = OTHER};
    if (!place(frame, len, &places) || places.carried != SEGMENT || !places.is_whole)
        return 0;
    store_16(frame + places.checksum, 0);
    uint16_t sum = fold(covered_total(frame, &places));
    store_16(frame + places.checksum, places.protocol == PROTOCOL_UDP && sum == 0xffff ? sum : (uint16_t)~sum);
    return 1;
}
