/* The model of the edits in place. */
#include <string.h>
#include "model.h"

enum carried { SEGMENT, OTHER, LATER_FRAGMENT, HIDDEN };

/* Where the parts of a packet are, from the first byte of its frame. */
struct parts {
    int is_ipv6;
    size_t addrs, addrs_end;
    size_t start, end;    /* of what the IP header carries, after IPv6 extension headers */
    unsigned protocol;
    enum carried carried;
    size_t sum;           /* the field of the transport checksum */
    size_t covered_end;   /* the end of what it covers in this frame */
    int is_whole;         /* 1: it covers nothing outside of this frame */
};

/* Whether a packet of this protocol is not looked into, but has a checksum that covers the addresses. */
static int hides_sum(unsigned protocol, int is_ipv6)
{
    static const uint8_t over_both[] = {33, 51, 89, 112, 136, 139}, over_ipv6[] = {0, 43, 44, 60, 103, 135};
    return memchr(over_both, (int)protocol, sizeof over_both) != 0 ||
           (is_ipv6 && memchr(over_ipv6, (int)protocol, sizeof over_ipv6) != 0);
}

/* Finds the transport checksum of a packet that is no later fragment. */
static void find_sum(const uint8_t *octets, struct parts *parts, int has_more)
{
    unsigned protocol = parts->protocol;
    size_t at = protocol == 6 ? 16 : protocol == 17 ? 6 : 2, len = parts->end - parts->start;
    parts->carried = HIDDEN;
    if (protocol != 6 && protocol != 17 && protocol != (parts->is_ipv6 ? 58 : 1)) {
        if (!hides_sum(protocol, parts->is_ipv6))
            parts->carried = OTHER;
        return;
    }
    if (len < at + 2 || (protocol == 17 && get_word(octets + parts->start + 4) < 8))
        return;
    parts->carried = SEGMENT;
    parts->sum = parts->start + at;
    parts->covered_end = parts->end;
    parts->is_whole = !has_more;
    if (protocol == 17) {
        size_t said = get_word(octets + parts->start + 4);
        if (said > len)
            parts->is_whole = 0;
        else
            parts->covered_end = parts->start + said;
    }
}

/* Steps through the extension headers of an IPv6 packet, up to the header of a fragment (RFC 8200, section 4), whose place
 * it stores. Returns 0 if one is rejected, or is an authentication header. */
static int step_through(const uint8_t *octets, struct parts *parts, unsigned *place)
{
    int is_known = 1;
    while (*place == 0 && is_extension(parts->protocol)) {
        const uint8_t *header = octets + parts->start;
        size_t left = parts->end - parts->start, header_len = left < 8 ? 8 : extension_len(parts->protocol, header);
        if (left < header_len || (parts->protocol == 43 && header[3] > 0) || (parts->protocol == 0 && parts->start > 54))
            return 0;
        is_known = is_known && parts->protocol != 51;
        if (parts->protocol == 44)
            *place = get_word(header + 2) & 0xfff9;
        parts->protocol = header[0];
        parts->start += header_len;
    }
    return is_known;
}

/* Whether lk_read_frame reads the IP header. */
static int find_parts(const uint8_t *octets, size_t len, struct parts *parts)
{
    struct lk_frame frame;
    unsigned place = 0; /* of a fragment: 8 bytes times offset, and the flag of more fragments */
    int is_hidden = 0;
    model_read_plain(octets, used_len(len), &frame);
    memset(parts, 0, sizeof *parts);
    if (frame.network != LK_IPV4 && frame.network != LK_IPV6)
        return 0;
    parts->is_ipv6 = frame.network == LK_IPV6;
    if (parts->is_ipv6) {
        parts->addrs = 22, parts->addrs_end = parts->start = 54;
        parts->end = 54u + get_word(octets + 18);
        parts->protocol = octets[20];
        is_hidden = !step_through(octets, parts, &place);
    } else {
        parts->addrs = 26, parts->addrs_end = 34;
        parts->start = 14u + 4u * (octets[14] & 15);
        parts->end = 14u + get_word(octets + 16);
        parts->protocol = octets[23];
        place = (get_word(octets + 20) & 0x1fff) << 3 | (octets[20] >> 5 & 1);
    }
    if (is_hidden)
        parts->carried = HIDDEN;
    else if (place > 7)
        parts->carried = LATER_FRAGMENT;
    else
        find_sum(octets, parts, place & 1);
    return 1;
}

static struct lk_addr addr_at(const uint8_t *octets, const struct parts *parts, int is_dst)
{
    struct lk_addr addr = {{0}, parts->is_ipv6 ? 6 : 4};
    size_t len = addr_len(&addr);
    memcpy(addr.octets, octets + parts->addrs + (is_dst ? len : 0), len);
    return addr;
}

/* The sum of all that the transport checksum covers, or of the pseudo-header. */
static uint16_t sum_of(const uint8_t *octets, const struct parts *parts, int is_pseudo)
{
    struct lk_addr src = addr_at(octets, parts, 0), dst = addr_at(octets, parts, 1);
    const uint8_t *ptr = octets + parts->start;
    size_t len = parts->covered_end - parts->start;
    if (parts->protocol == 1)
        return model_checksum(ptr, len);
    return pseudo_sum(&src, &dst, parts->protocol, ptr, len, is_pseudo ? 0 : len);
}

static int is_left_to_device(const uint8_t *octets, const struct parts *parts, int offload)
{
    if (offload == LK_COMPLETE || (parts->protocol != 6 && parts->protocol != 17))
        return 0;
    return offload == LK_OFFLOADED || (parts->is_whole && sum_of(octets, parts, 0) != 0xffff &&
                                       sum_of(octets, parts, 1) == get_word(octets + parts->sum));
}

/* Updates a field for those of the bytes from `at` to `end` that it covers: from `first` to `last`. */
static unsigned updated(unsigned field, int is_udp, size_t first, size_t last, size_t at, size_t end,
                        const uint8_t *before, const uint8_t *after)
{
    size_t from = at > first ? at : first, to = end < last ? end : last;
    if (from >= to)
        return field;
    before += from - at;
    after += from - at;
    return is_udp ? model_update_udp_checksum_bytes((uint16_t)field, from, before, to - from, after, to - from)
                  : model_update_checksum_bytes((uint16_t)field, from, before, to - from, after, to - from);
}

static unsigned updated_transport(const uint8_t *octets, const struct parts *parts, size_t at, size_t end,
                                  const uint8_t *before, const uint8_t *after, int offload)
{
    unsigned field = get_word(octets + parts->sum);
    int is_udp = parts->protocol == 17;
    if (is_left_to_device(octets, parts, offload))
        return 0xffff & ~updated(0xffff & ~field, 0, parts->addrs, parts->addrs_end, at, end, before, after);
    if (parts->protocol != 1)
        field = updated(field, is_udp, parts->addrs, parts->addrs_end, at, end, before, after);
    return updated(field, is_udp, parts->start, parts->covered_end, at, end, before, after);
}

/* Writes bytes, and updates both checksums. */
static void write_bytes(uint8_t *octets, const struct parts *parts, size_t at, const uint8_t *after, size_t len,
                        int offload)
{
    static uint8_t before[MODEL_ROOM];
    unsigned header = 0, transport = 0;
    memcpy(before, octets + at, len);
    if (!parts->is_ipv6)
        header = updated(get_word(octets + 24), 0, 14, parts->start, at, at + len, before, after);
    if (parts->carried == SEGMENT)
        transport = updated_transport(octets, parts, at, at + len, before, after, offload);
    memcpy(octets + at, after, len);
    if (!parts->is_ipv6)
        put_word(octets + 24, header);
    if (parts->carried == SEGMENT)
        put_word(octets + parts->sum, transport);
}

int model_set_hop_limit(uint8_t *octets, size_t len, uint8_t hop_limit)
{
    struct parts parts;
    if (!find_parts(octets, len, &parts))
        return 0;
    write_bytes(octets, &parts, parts.is_ipv6 ? 21 : 22, &hop_limit, 1, LK_GUESS);
    return 1;
}

int model_set_dscp(uint8_t *octets, size_t len, uint8_t dscp)
{
    struct parts parts;
    uint8_t word[2];
    if (!find_parts(octets, len, &parts) || dscp > 63)
        return 0;
    if (parts.is_ipv6)
        put_word(word, (get_word(octets + 14) & 0xf03f) | (unsigned)dscp << 6);
    else
        put_word(word, (get_word(octets + 14) & 0xff03) | (unsigned)dscp << 2);
    write_bytes(octets, &parts, 14, word, 2, LK_GUESS);
    return 1;
}

int model_set_addr_as(uint8_t *octets, size_t len, int side, const struct lk_addr *addr, int offload)
{
    struct parts parts;
    if (!find_parts(octets, len, &parts) || parts.carried == HIDDEN || addr->version != (parts.is_ipv6 ? 6 : 4))
        return 0;
    write_bytes(octets, &parts, parts.addrs + (side == LK_SOURCE ? 0 : addr_len(addr)), addr->octets, addr_len(addr),
                offload);
    return 1;
}

int model_set_addr(uint8_t *octets, size_t len, int side, const struct lk_addr *addr)
{
    return model_set_addr_as(octets, len, side, addr, LK_GUESS);
}

int model_set_port_as(uint8_t *octets, size_t len, int side, uint16_t port, int offload)
{
    struct parts parts;
    uint8_t word[2];
    if (!find_parts(octets, len, &parts) || parts.carried != SEGMENT || (parts.protocol != 6 && parts.protocol != 17))
        return 0;
    put_word(word, port);
    write_bytes(octets, &parts, parts.start + (side == LK_SOURCE ? 0 : 2), word, 2, offload);
    return 1;
}

int model_set_port(uint8_t *octets, size_t len, int side, uint16_t port)
{
    return model_set_port_as(octets, len, side, port, LK_GUESS);
}

/* Whether one byte of the frame may be replaced. */
static int is_free(const struct parts *parts, size_t at)
{
    size_t in = at - parts->start;
    if (at >= parts->end)
        return 1;
    if (at < parts->addrs)
        return parts->is_ipv6 ? (at >= 15 && at < 18) || at == 21 : at == 15 || at == 22;
    if (parts->carried == HIDDEN)
        return 0;
    if (at < parts->start)
        return !parts->is_ipv6 || at < parts->addrs_end;
    if (parts->carried == OTHER)
        return 1;
    if (parts->carried == LATER_FRAGMENT)
        return 0;
    if (at == parts->sum || at == parts->sum + 1)
        return 0;
    return parts->protocol == 6 ? in != 12 : parts->protocol == 17 ? in != 4 && in != 5 : 1;
}

int model_set_bytes_as(uint8_t *octets, size_t len, size_t offset, const uint8_t *ptr, size_t count, int offload)
{
    struct parts parts;
    size_t used = used_len(len);
    if (!find_parts(octets, len, &parts) || offset > used || count > used - offset)
        return 0;
    if (count == 0 && offset > 0 && !is_free(&parts, offset - 1) && !is_free(&parts, offset))
        return 0; /* Open: no bytes, between two that stay. */
    for (size_t i = 0; i < count; i++)
        if (!is_free(&parts, offset + i))
            return 0;
    write_bytes(octets, &parts, offset, ptr, count, offload);
    return 1;
}

int model_set_bytes(uint8_t *octets, size_t len, size_t offset, const uint8_t *ptr, size_t count)
{
    return model_set_bytes_as(octets, len, offset, ptr, count, LK_GUESS);
}

int model_fill_checksum(uint8_t *octets, size_t len)
{
    struct parts parts;
    unsigned sum;
    if (!find_parts(octets, len, &parts) || parts.carried != SEGMENT || !parts.is_whole)
        return 0;
    put_word(octets + parts.sum, 0);
    sum = 0xffff & ~sum_of(octets, &parts, 0);
    put_word(octets + parts.sum, parts.protocol == 17 && sum == 0 ? 0xffff : sum);
    return 1;
}
