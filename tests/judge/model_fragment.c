/* The model of the call that fragments a packet (RFC 791, section 3.2; RFC 8200, section 4.5). */
#include <string.h>
#include "model.h"

/* Options without the highest bit in their kind are only in the first fragment. After a malformed one all stay. */
static void leave_out_options(uint8_t *options, size_t len)
{
    size_t at = 0;
    while (at < len && options[at] != 0) {
        size_t count = options[at] == 1 ? 1 : at + 1 < len ? options[at + 1] : 0;
        if (options[at] != 1 && (count < 2 || count > len - at))
            return;
        if (options[at] < 0x80)
            memset(options + at, 1, count);
        at += count;
    }
}

/* Where a fragment is in the payload, and how many bytes of it it has. There is none after the last. */
static int cut(size_t payload_len, size_t room, size_t number, size_t *from, size_t *count)
{
    *from = 0;
    for (size_t i = 0;; i++, *from += *count) {
        *count = payload_len - *from <= room ? payload_len - *from : room & ~(size_t)7;
        if (i == number)
            return 1;
        if (*from + *count == payload_len)
            return 0;
    }
}

/* Why the IPv4 packet of this frame is not cut, or 0. */
static ptrdiff_t ipv4_failure(const struct lk_frame *frame, const uint8_t *header, size_t mtu, int64_t ident)
{
    size_t header_len = (header[0] & 15) * 4u, total_len = get_word(header + 2);
    unsigned flags = get_word(header + 6);
    if (ident > 65535 || (total_len > mtu && mtu < header_len + 8))
        return LK_BAD_FIELD;
    if ((flags & 0x1fff) * 8 + total_len - header_len > 65535)
        return LK_PAYLOAD_TOO_LONG;
    if (ident != LK_FORWARDED && frame->is_fragment)
        return LK_NO_HEADER;
    return total_len > mtu && ident == LK_FORWARDED && (flags & 0x4000) ? LK_DONT_FRAGMENT : 0;
}

static ptrdiff_t fragment_ipv4(const struct lk_frame *frame, const uint8_t *octets, size_t mtu, int64_t ident,
                               size_t number, uint8_t *out, size_t cap)
{
    const uint8_t *header = octets + 14;
    size_t header_len = (header[0] & 15) * 4u, payload_len = get_word(header + 2) - header_len, from, count;
    unsigned flags;
    ptrdiff_t failure = ipv4_failure(frame, header, mtu, ident);
    if (failure != 0)
        return failure;
    if (!cut(payload_len, mtu - header_len, number, &from, &count))
        return 0;
    if (14 + header_len + count > used_len(cap))
        return LK_NO_ROOM;
    memcpy(out, octets, 14 + header_len);
    memcpy(out + 14 + header_len, header + header_len + from, count);
    if (number != 0)
        leave_out_options(out + 34, header_len - 20);
    flags = get_word(header + 6) + (unsigned)(from / 8);
    flags = from + count < payload_len ? flags | 0x2000 : flags;
    put_word(out + 16, (unsigned)(header_len + count));
    put_word(out + 18, ident == LK_FORWARDED ? get_word(header + 4) : (unsigned)ident);
    put_word(out + 20, ident == LK_FORWARDED ? flags : flags & ~0x4000u);
    put_word(out + 24, 0);
    put_word(out + 24, 0xffff - model_checksum(out + 14, header_len));
    return (ptrdiff_t)(14 + header_len + count);
}

/* Why an IPv6 packet that does not fit is not cut, or 0. */
static ptrdiff_t ipv6_failure(unsigned next, size_t mtu, int64_t ident)
{
    if (mtu < 56)
        return LK_BAD_FIELD;
    if (ident == LK_FORWARDED)
        return LK_DONT_FRAGMENT;
    return next == 0 || next == 43 || next == 44 || next == 60 ? LK_NO_HEADER : 0;
}

static ptrdiff_t fragment_ipv6(const uint8_t *octets, size_t mtu, int64_t ident, size_t number, uint8_t *out, size_t cap)
{
    const uint8_t *header = octets + 14;
    size_t payload_len = get_word(header + 4), from, count, is_cut = 40 + payload_len > mtu, at = is_cut ? 62 : 54;
    ptrdiff_t failure = is_cut ? ipv6_failure(header[6], mtu, ident) : 0;
    if (failure != 0)
        return failure;
    if (!cut(payload_len, mtu + 14 - at, number, &from, &count))
        return 0;
    if (at + count > used_len(cap))
        return LK_NO_ROOM;
    memcpy(out, octets, 54);
    memcpy(out + at, header + 40 + from, count);
    if (is_cut) {
        put_word(out + 18, (unsigned)(8 + count));
        out[20] = 44;
        out[54] = header[6];
        out[55] = 0;
        put_word(out + 56, (unsigned)from | (from + count < payload_len));
        put_word(out + 58, (unsigned)(ident >> 16));
        put_word(out + 60, (unsigned)(ident & 0xffff));
    }
    return (ptrdiff_t)(at + count);
}

ptrdiff_t model_fragment(const uint8_t *octets, size_t len, size_t mtu, int64_t ident, size_t number, uint8_t *out,
                         size_t cap)
{
    struct lk_frame frame;
    if (ident < LK_FORWARDED || ident > 0xffffffff)
        return LK_BAD_FIELD;
    model_read_plain(octets, used_len(len), &frame);
    if (frame.network == LK_IPV6)
        return fragment_ipv6(octets, mtu, ident, number, out, cap);
    if (frame.network != LK_IPV4 || frame.ipv4_checksum == LK_CHECKSUM_INVALID)
        return LK_NO_HEADER;
    return fragment_ipv4(&frame, octets, mtu, ident, number, out, cap);
}
