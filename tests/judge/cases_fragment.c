/* Cases of fragmentation. */
#include <string.h>
#include "judge.h"

/* Often little more than a header, or about the length of the packet. */
static size_t any_mtu(size_t header_len, size_t total_len)
{
    if (one_in(16))
        return one_in(2) ? unused_len() : below(80);
    return one_in(2) ? header_len + below(64) : one_in(2) ? total_len + below(16) - 8 : header_len + 8 + below(total_len + 1);
}

/* Random options, among them some that each fragment has. Returns their length. */
static size_t any_options(uint8_t *options)
{
    static const uint8_t kinds[] = {0, 1, 7, 68, 130, 131, 136, 137, 148};
    size_t len = 4 * below(11);
    fill(options, len);
    for (size_t at = 0; at < len; at += 1 + below(8)) {
        options[at] = kinds[below(sizeof kinds)];
        if (at + 1 < len && !one_in(8))
            options[at + 1] = (uint8_t)(2 + below(8));
    }
    return len;
}

/* Gives the IPv4 packet of the frame options and flags, and mostly a right checksum. */
static void change_header(void)
{
    uint8_t options[40], *header = made.octets + 14;
    size_t len, payload_len = made.end - 34;
    if (made.len < 34 || made.octets[12] != 0x08 || header[0] != 0x45 || made.end < 34 || made.end > made.len)
        return;
    len = any_options(options);
    if (payload_len + 20 + len > 65535)
        return;
    memmove(header + 20 + len, header + 20, payload_len);
    memcpy(header + 20, options, len);
    made.len = made.end = made.end + len;
    header[0] = (uint8_t)(0x45 + len / 4);
    put_word(header + 2, (unsigned)(20 + len + payload_len));
    put_word(header + 6, (unsigned)(one_in(2) ? 0 : one_in(2) ? any() & 0xffff : 0x2000 | below(0x2000)));
    put_word(header + 10, 0);
    put_word(header + 10, one_in(16) ? 1 : 0xffff - model_checksum(header, 20 + len));
}

/* Forwarded, of 16 bits, of 32 bits, or wrong. */
static int64_t any_ident(void)
{
    if (one_in(3))
        return LK_FORWARDED;
    return one_in(16) ? (int64_t)any() : one_in(16) ? (int64_t)below(4) - 2 + (one_in(2) ? 65536 : 4294967296) :
           one_in(3) ? (int64_t)(any() & 0xffffffff) : (int64_t)below(65536);
}

void fragment_frame(void)
{
    size_t len, header_len, total_len, mtu, n = 0;
    int64_t ident = any_ident();
    if (one_in(4))
        make_frame();
    else
        make_valid();
    change_header();
    len = one_in(64) ? unused_len() : made.len;
    header_len = made.len > 14 ? made.octets[14] >> 4 == 6 ? 48 : (made.octets[14] & 15) * 4u : 0;
    total_len = made.len > 14 ? made.len - 14 : 0;
    mtu = any_mtu(header_len, total_len);
    for (; n < 8; n++) {
        size_t number = one_in(16) ? any() : one_in(4) ? below(4) : n, cap = any_cap((ptrdiff_t)(14 + mtu % 2048));
        if (both_fragment(made.octets, len, mtu, ident, number, any_out(cap), cap) <= 0 && n > 0)
            return;
    }
}
