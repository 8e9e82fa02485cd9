/* Faults of reassembly. */
#include <string.h>
#include "faults.h"
#include "ip_wire.h"

#define PARAMETERS                                                                                                    \
    struct lk_reassembly *partials, size_t count, uint8_t *memory, size_t memory_len, uint64_t now, const uint8_t *frame, \
        size_t len, uint8_t *out, size_t cap
#define ARGUMENTS partials, count, memory, memory_len, now, frame, len, out, cap

ptrdiff_t __real_lk_reassemble(PARAMETERS);
size_t __real_lk_expire_reassembly(struct lk_reassembly *partials, size_t count, const uint8_t *memory, size_t memory_len, uint64_t now,
                        uint8_t *out, size_t cap);

enum { MOST = 16 };

static int is_ipv6(const uint8_t *frame)
{
    return frame[14] >> 4 == 6;
}

/* Whether an IPv4 packet or an IPv6 packet with a fragment header is a part of a packet. */
static int is_part(const uint8_t *frame)
{
    unsigned flags = is_ipv6(frame) ? (frame[56] << 8 | frame[57]) & 0xfff9u : (frame[20] << 8 | frame[21]) & 0x3fffu;
    return flags != 0;
}

static void sum(uint8_t *header)
{
    uint16_t checksum;
    header[10] = header[11] = 0;
    checksum = (uint16_t)~lk_checksum(header, (header[0] & 15) * 4u);
    header[10] = (uint8_t)(checksum >> 8);
    header[11] = (uint8_t)checksum;
}

/* The live packet of a fragment, or null. */
static struct lk_reassembly *packet_of(struct lk_reassembly *partials, size_t count, uint64_t now, const uint8_t *frame)
{
    int is_6 = is_ipv6(frame);
    size_t addr_len = is_6 ? 16 : 4;
    const uint8_t *addrs = frame + (is_6 ? 22 : 26), *id = frame + (is_6 ? 58 : 16), *ident = frame + 18;
    uint32_t number = is_6 ? (uint32_t)id[0] << 24 | (uint32_t)id[1] << 16 | (uint32_t)id[2] << 8 | id[3]
                           : (uint32_t)ident[0] << 8 | ident[1];
    for (struct lk_reassembly *one = partials; one < partials + count; one++)
        if (now < one->expires && one->version == (is_6 ? 6 : 4) && one->ident == number &&
            (is_6 || one->protocol == frame[23]) && memcmp(one->src, addrs, addr_len) == 0 &&
            memcmp(one->dst, addrs + addr_len, addr_len) == 0)
            return one;
    return 0;
}

/* Counts all blocks of a packet as received, and takes the fragment again. */
static ptrdiff_t hand_out(PARAMETERS)
{
    struct lk_reassembly *one = packet_of(partials, count, now, frame);
    size_t part = memory_len / count;
    if (one == 0 || one->len == 0 || one->header[0] == 0)
        return 0;
    memset(memory + (size_t)(one - partials) * part, 1, part / 9 < 8192 ? part / 9 : 8192);
    return __real_lk_reassemble(ARGUMENTS);
}

/* A copy of an earlier fragment changes nothing. */
static ptrdiff_t reject_copy(PARAMETERS)
{
    static uint8_t before[0x20000];
    struct lk_reassembly kept[MOST], *one;
    ptrdiff_t result;
    memcpy(kept, partials, count * sizeof *kept);
    memcpy(before, memory, memory_len);
    result = __real_lk_reassemble(ARGUMENTS);
    if (result != 0 || memcmp(kept, partials, count * sizeof *kept) != 0 || memcmp(before, memory, memory_len) != 0)
        return result;
    one = packet_of(partials, count, now, frame);
    if (one)
        one->dropped = 1;
    return LK_DROPPED;
}

/* ICMP counts as UDP, if there is a packet of UDP with this key. */
static ptrdiff_t ignore_protocol(PARAMETERS)
{
    static uint8_t copy[0x20000];
    struct lk_reassembly *one;
    if (len < 34 || len > sizeof copy || is_ipv6(frame) || frame[23] != 1 || !is_part(frame))
        return __real_lk_reassemble(ARGUMENTS);
    memcpy(copy, frame, len);
    copy[23] = 17;
    one = packet_of(partials, count, now, copy);
    if (one == 0 || lk_checksum(frame + 14, (frame[14] & 15) * 4u) != 0xffff)
        return __real_lk_reassemble(ARGUMENTS);
    sum(copy + 14);
    frame = copy;
    return __real_lk_reassemble(ARGUMENTS);
}

static int expires_at(const struct lk_reassembly *partials, size_t count, uint64_t now)
{
    for (size_t i = 0; i < count; i++)
        if (partials[i].expires == now && now != 0)
            return 1;
    return 0;
}

/* Frees the packet that expires last, if there is no other room for the fragment. */
static void evict_last(struct lk_reassembly *partials, size_t count, uint64_t now, const uint8_t *frame)
{
    struct lk_reassembly *last = partials;
    for (size_t i = 0; i < count; i++) {
        if (partials[i].expires <= now)
            return;
        last = partials[i].expires > last->expires ? &partials[i] : last;
    }
    if (is_part(frame) && packet_of(partials, count, now, frame) == 0)
        last->expires = 0;
}

/* A packet keeps the codepoint of its first fragment. */
static void lose_ce(const struct lk_reassembly *kept, const uint8_t *frame, uint8_t *out)
{
    if (!is_part(frame) || !kept->ce || !(kept->header[1] & (is_ipv6(out) ? 0x30 : 3)))
        return;
    out[15] = kept->header[1];
    if (!is_ipv6(out))
        sum(out + 14);
}

ptrdiff_t __wrap_lk_reassemble(PARAMETERS)
{
    struct lk_reassembly *one = 0, kept = {0};
    ptrdiff_t result;
    int is_usual = len >= 62 && len < 0x20000 && count > 0 && count <= MOST && memory_len <= 0x20000;
    if (!is_usual)
        return __real_lk_reassemble(ARGUMENTS);
    if (fault == COPY_REJECTED)
        return reject_copy(ARGUMENTS);
    if (fault == PROTOCOL_IGNORED)
        return ignore_protocol(ARGUMENTS);
    if (fault == LAST_TO_EXPIRE_EVICTED)
        evict_last(partials, count, now, frame);
    if (fault == FRAGMENTS_KEPT_TOO_LONG && expires_at(partials, count, now))
        now--;
    if (fault == FRAGMENTS_DROPPED_EARLY && expires_at(partials, count, now + 1))
        now++;
    one = packet_of(partials, count, now, frame);
    if (one)
        kept = *one;
    result = __real_lk_reassemble(ARGUMENTS);
    if (fault == OLD_MEMORY_HANDED_OUT && result == 0)
        return hand_out(ARGUMENTS);
    if (fault == DROPPED_PACKET_GOES_ON && result == LK_DROPPED && one)
        one->dropped = 0;
    if (fault == CE_LOST && result > 0)
        lose_ce(&kept, frame, out);
    return result;
}

size_t __wrap_lk_expire_reassembly(struct lk_reassembly *partials, size_t count, const uint8_t *memory, size_t memory_len, uint64_t now,
                        uint8_t *out, size_t cap)
{
    for (size_t i = 0; fault == ERROR_ABOUT_A_DROPPED_PACKET && count <= MOST && i < count; i++)
        partials[i].dropped = 0;
    return __real_lk_expire_reassembly(partials, count, memory, memory_len, now, out, cap);
}
