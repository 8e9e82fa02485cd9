/* Faults of fragmentation. */
#include <string.h>
#include "faults.h"
#include "ip_wire.h"

ptrdiff_t __real_lk_fragment(const uint8_t *frame, size_t len, size_t mtu, int64_t ident, size_t number, uint8_t *out,
                             size_t cap);

/* Fills in the checksum of the header, after a byte of it changed. */
static void sum(uint8_t *header)
{
    uint16_t checksum;
    header[10] = header[11] = 0;
    checksum = (uint16_t)~lk_checksum(header, (header[0] & 15) * 4u);
    header[10] = (uint8_t)(checksum >> 8);
    header[11] = (uint8_t)checksum;
}

/* Adds an atomic fragment header to an IPv6 packet that fits. */
static ptrdiff_t as_atomic(uint8_t *out, size_t len, size_t cap)
{
    const uint8_t header[] = {out[20], 0, 0, 0, 0, 0, 0, 1};
    unsigned payload_len = ((unsigned)out[18] << 8 | out[19]) + 8;
    if (len + 8 > cap || payload_len > 65535)
        return (ptrdiff_t)len;
    memmove(out + 62, out + 54, len - 54);
    memcpy(out + 54, header, 8);
    out[18] = (uint8_t)(payload_len >> 8);
    out[19] = (uint8_t)payload_len;
    out[20] = 44;
    return (ptrdiff_t)len + 8;
}

static ptrdiff_t without_dont_fragment(const uint8_t *frame, size_t len, size_t mtu, int64_t ident, size_t number,
                                       uint8_t *out, size_t cap)
{
    static uint8_t copy[0x20000];
    memcpy(copy, frame, len);
    copy[20] &= 0xbf;
    sum(copy + 14);
    return __real_lk_fragment(copy, len, mtu, ident, number, out, cap);
}

ptrdiff_t __wrap_lk_fragment(const uint8_t *frame, size_t len, size_t mtu, int64_t ident, size_t number, uint8_t *out,
                             size_t cap)
{
    ptrdiff_t result = __real_lk_fragment(frame, len, mtu, ident, number, out, cap);
    if (fault == IPV6_CUT_BY_A_ROUTER && result == LK_DONT_FRAGMENT && frame[12] == 0x86)
        return __real_lk_fragment(frame, len, mtu, 0, number, out, cap);
    if (fault == DONT_FRAGMENT_IGNORED && result == LK_DONT_FRAGMENT && frame[12] == 0x08)
        return without_dont_fragment(frame, len, mtu, ident, number, out, cap);
    if (result <= 34)
        return result;
    if (frame[12] == 0x86 && result > 54) {
        if (fault == MORE_AFTER_THE_LAST && out[20] == 44 && frame[20] != 44 && result > 62)
            out[57] |= 1;
        return fault == ATOMIC_FRAGMENT && out[20] == frame[20] ? as_atomic(out, (size_t)result, cap) : result;
    }
    if (fault == MORE_FRAGMENTS_LOST && (frame[20] & 0x20) && number > 0) {
        out[20] &= 0xdf;
        sum(out + 14);
    }
    if (fault == OPTIONS_IN_EACH_FRAGMENT && number > 0) {
        memcpy(out + 34, frame + 34, (frame[14] & 15) * 4u - 20);
        sum(out + 14);
    }
    return result;
}
