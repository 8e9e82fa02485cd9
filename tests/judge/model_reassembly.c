/* The model of reassembly (RFC 791, section 3.2; RFC 8200, section 4.5; RFC 3168, section 5.3; RFC 6946). It keeps each
 * packet in a buffer, with a map of the bytes that were received. */
#include <string.h>
#include "model.h"

enum { KEPT_FOR = 60000, LONGEST = 65535, FRAGMENT_HEADER = 8, NOT_ECT = 0, CE = 3 };

/* A packet as a fragment. `header_len` has the fragment header of IPv6. */
struct fragment {
    const uint8_t *packet;
    struct lk_frame frame;
    size_t header_len, from, len;
};

static int is_ipv6(const struct fragment *it)
{
    return it->frame.network == LK_IPV6;
}

static const uint8_t *payload_of(const struct fragment *it)
{
    return it->packet + it->header_len;
}

/* Returns 0 if a frame has none. */
static int read_fragment(const uint8_t *octets, size_t len, struct fragment *it)
{
    size_t total_len;
    memset(it, 0, sizeof *it);
    it->packet = octets + 14;
    model_read_plain(octets, used_len(len), &it->frame);
    if (it->frame.network == LK_IPV4 && it->frame.ipv4_checksum == LK_CHECKSUM_VALID) {
        it->header_len = (it->packet[0] & 15) * 4u;
        total_len = get_word(it->packet + 2);
    } else if (is_ipv6(it) && it->frame.ip.protocol == 44 && get_word(it->packet + 4) >= FRAGMENT_HEADER) {
        it->header_len = 40 + FRAGMENT_HEADER;
        total_len = 40 + get_word(it->packet + 4);
    } else {
        return 0;
    }
    it->from = it->frame.ip.fragment_offset;
    it->len = total_len - it->header_len;
    return 1;
}

/* ---- the packet as a whole ---- */

static size_t whole_len(const uint8_t *first, size_t header_len, size_t payload_len)
{
    return (first[0] >> 4 == 6 ? 40 : header_len) + payload_len;
}

/* Whether a length field can say the length of this packet. Over IPv6 it does not count the header. */
static int is_too_long(const uint8_t *first, size_t header_len, size_t payload_len)
{
    return (first[0] >> 4 == 6 ? payload_len : header_len + payload_len) > LONGEST;
}

/* Writes a packet with the header of its first fragment. */
static ptrdiff_t put_whole(const uint8_t *link, const uint8_t *first, size_t header_len, const uint8_t *payload,
                           size_t payload_len, int has_ce, uint8_t *out, size_t cap)
{
    size_t len = whole_len(first, header_len, payload_len);
    uint8_t *header = out + 14;
    if (14 + len > used_len(cap))
        return LK_NO_ROOM;
    memcpy(out, link, 14);
    memcpy(header, first, len - payload_len);
    memcpy(header + len - payload_len, payload, payload_len);
    if (first[0] >> 4 == 6) {
        put_word(header + 4, (unsigned)payload_len);
        header[6] = first[40];
        header[1] |= (uint8_t)(has_ce ? CE << 4 : 0);
    } else {
        put_word(header + 2, (unsigned)len);
        put_word(header + 6, get_word(header + 6) & 0xc000);
        header[1] |= (uint8_t)(has_ce ? CE : 0);
        put_word(header + 10, 0);
        put_word(header + 10, 0xffff - model_checksum(header, header_len));
    }
    return (ptrdiff_t)(14 + len);
}

/* ---- the table ---- */

/* How many bytes of payload the memory of each packet keeps: 8 of 9, in blocks of 8. */
static size_t room_of(size_t count, size_t memory_len)
{
    size_t blocks = used_len(count) == 0 ? 0 : used_len(memory_len) / used_len(count) / 9;
    return 8 * (blocks < 8192 ? blocks : 8192);
}

static int is_same_addr(const struct lk_addr *a, const struct lk_addr *b)
{
    return memcmp(a->octets, b->octets, 16) == 0;
}

static int is_of(const struct model_partial *one, uint64_t now, const struct fragment *it)
{
    return now < one->expires && one->network == it->frame.network && one->ident == it->frame.ip.ident &&
           (is_ipv6(it) || one->protocol == it->frame.ip.protocol) && is_same_addr(&one->src, &it->frame.src.addr) &&
           is_same_addr(&one->dst, &it->frame.dst.addr);
}

/* The packet of a fragment, or the one that makes room for it. */
static size_t find(const struct model_table_of_partials *table, size_t count, uint64_t now, const struct fragment *it)
{
    size_t least = 0;
    for (size_t i = 0; i < count; i++)
        if (is_of(&table->at[i], now, it))
            return i;
    for (size_t i = 0; i < count; i++)
        if (table->at[i].expires < table->at[least].expires)
            least = i;
    return least;
}

static void begin(struct model_partial *one, uint64_t now, const uint8_t *link, const struct fragment *it)
{
    memset(one, 0, sizeof *one);
    one->expires = now > UINT64_MAX - KEPT_FOR ? UINT64_MAX : now + KEPT_FOR;
    one->network = it->frame.network;
    one->protocol = it->frame.ip.protocol;
    one->ident = it->frame.ip.ident;
    one->src = it->frame.src.addr;
    one->dst = it->frame.dst.addr;
    memcpy(one->link, link, 14);
}

static size_t count_received(const struct model_partial *one, size_t from, size_t len)
{
    size_t count = 0;
    for (size_t i = from; i < from + len; i++)
        count += one->is_received[i];
    return count;
}

/* Whether a fragment has bytes of others, but is not a copy of these. */
static int overlaps(const struct model_partial *one, const struct fragment *it)
{
    size_t count = count_received(one, it->from, it->len);
    return count != 0 && (count < it->len || memcmp(one->octets + it->from, payload_of(it), it->len) != 0);
}

/* Whether a fragment cannot be of one packet with those before it. */
static int contradicts(const struct model_partial *one, const struct fragment *it)
{
    size_t end = it->from + it->len, len = it->frame.ip.more_fragments ? one->len : end;
    int is_first = it->from == 0 && one->first_len == 0;
    int has_ce = one->has_ce || it->frame.ip.ecn == CE, has_not_ect = one->has_not_ect || it->frame.ip.ecn == NOT_ECT;
    if (one->len != 0 && (it->frame.ip.more_fragments ? end > one->len : end != one->len))
        return 1;
    if (!it->frame.ip.more_fragments && end < one->high)
        return 1;
    if (is_first ? is_too_long(it->packet, it->header_len, len) : is_too_long(one->first, one->header_len, len))
        return 1;
    return overlaps(one, it) || (has_ce && has_not_ect);
}

static void add(struct model_partial *one, const struct fragment *it)
{
    size_t end = it->from + it->len;
    memcpy(one->octets + it->from, payload_of(it), it->len);
    memset(one->is_received + it->from, 1, it->len);
    one->high = one->high < end ? end : one->high;
    one->len = it->frame.ip.more_fragments ? one->len : end;
    one->has_ce |= it->frame.ip.ecn == CE;
    one->has_not_ect |= it->frame.ip.ecn == NOT_ECT;
    if (it->from == 0 && one->first_len == 0) {
        one->header_len = it->header_len;
        one->first_len = it->header_len + it->len;
        memcpy(one->first, it->packet, one->first_len);
    }
}

ptrdiff_t model_reassemble(struct model_table_of_partials *table, size_t count, size_t memory_len, uint64_t now,
                           const uint8_t *octets, size_t len, uint8_t *out, size_t cap)
{
    struct fragment it;
    struct model_partial *one;
    ptrdiff_t written;
    table->place = MODEL_NO_PLACE;
    if (!read_fragment(octets, len, &it))
        return LK_NO_HEADER;
    if (it.from == 0 && !it.frame.ip.more_fragments)
        return put_whole(octets, it.packet, it.header_len, payload_of(&it), it.len, 0, out, cap);
    if (it.len == 0 || (it.frame.ip.more_fragments && it.len % 8 != 0))
        return LK_NO_HEADER;
    if (it.from + it.len > room_of(count, memory_len))
        return LK_PAYLOAD_TOO_LONG;
    table->place = find(table, used_len(count), now, &it);
    one = &table->at[table->place];
    if (!is_of(one, now, &it))
        begin(one, now, octets, &it);
    if (one->is_dropped || contradicts(one, &it)) {
        one->is_dropped = 1;
        return LK_DROPPED;
    }
    add(one, &it);
    if (one->len == 0 || count_received(one, 0, one->len) < one->len)
        return 0;
    written = put_whole(octets, one->first, one->header_len, one->octets, one->len, one->has_ce, out, cap);
    if (written > 0)
        one->expires = 0;
    return written;
}

size_t model_expire_reassembly(struct model_table_of_partials *table, size_t count, uint64_t now, uint8_t *out, size_t cap)
{
    for (size_t i = 0; i < used_len(count); i++) {
        struct model_partial *one = &table->at[i];
        if (one->expires == 0 || one->expires > now)
            continue;
        one->expires = 0;
        if (one->is_dropped || one->first_len == 0 || 14 + one->first_len > used_len(cap))
            continue;
        memcpy(out, one->link, 14);
        memcpy(out + 14, one->first, one->first_len);
        return 14 + one->first_len;
    }
    return 0;
}
