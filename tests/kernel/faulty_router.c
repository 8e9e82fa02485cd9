/* Faults for programs/router.c and nat.c, linked with --wrap for the five calls. The variable FAULT is the number of
 * one; with 0 there is none. */
#include "../../programs/routing/router.h"
#include <ip_wire.h>
#include <stddef.h>
#include <stdlib.h>
#include <string.h>

#define WRAPPED(result, name) result __real_##name; result __wrap_##name; result __wrap_##name

enum { HEADER = 14, HOP_LIMIT = HEADER + 8, CHECKSUM = HEADER + 10 };
enum fault {
    NONE,
    /* of the router */
    HOP_KEPT,
    SUM_KEPT,
    LINK_KEPT,
    PAYLOAD,
    SERVICE,
    EXPIRED_PASSES,
    /* of its ICMP errors */
    ERROR_ABOUT_ERROR,
    OTHER_QUOTE,
    OTHER_SOURCE,
    NO_LIMIT,
    OTHER_MTU,
    /* of the NAT */
    PORT,
    TRANSPORT_SUM,
    NO_UDP_SUM,
    INSIDE_PORT,
    ANY_MAPPING,
    QUOTE_KEPT,
    /* of fragments */
    IN_ORDER_ONLY,
    OVERLAPS_PASS
};

static int fault(void)
{
    const char *text = getenv("FAULT");
    return text ? atoi(text) : NONE;
}

static int is_ipv4(const uint8_t *frame, size_t len)
{
    return len >= HEADER + 20 && frame[12] == 8 && frame[13] == 0;
}

/* The port or the identifier of an echo. */
static uint16_t port_of(const struct lk_frame *f, const struct lk_endpoint *end)
{
    return f->transport == LK_ICMP ? (uint16_t)(f->icmp.word >> 16) : end->port;
}

/* Where the transport begins in a frame of IPv4. */
static uint8_t *transport(uint8_t *frame)
{
    return frame + HEADER + frame[HEADER] % 16 * 4;
}

static void set_word(uint8_t *frame, size_t at, uint8_t high, uint8_t low)
{
    uint16_t before = (uint16_t)(frame[at] << 8 | frame[at + 1]), after = (uint16_t)(high << 8 | low);
    uint16_t checksum = lk_update_checksum((uint16_t)(frame[CHECKSUM] << 8 | frame[CHECKSUM + 1]), before, after);
    frame[at] = high, frame[at + 1] = low;
    frame[CHECKSUM] = (uint8_t)(checksum >> 8), frame[CHECKSUM + 1] = (uint8_t)checksum;
}

WRAPPED(int, lk_forward(uint8_t *frame, size_t len, const uint8_t *src, const uint8_t *dst))
{
    uint8_t before[HEADER + 20] = {0};
    memcpy(before, frame, len < sizeof before ? len : sizeof before);
    int rejection = __real_lk_forward(frame, len, src, dst), is_v4 = is_ipv4(frame, len);
    if (rejection == LK_HOP_LIMIT_TOO_LOW && fault() == EXPIRED_PASSES && is_v4) {
        set_word(frame, HOP_LIMIT, 2, frame[HOP_LIMIT + 1]);
        return __real_lk_forward(frame, len, src, dst);
    }
    if (rejection != LK_NOT_REJECTED)
        return rejection;
    if (fault() == HOP_KEPT && is_v4)
        set_word(frame, HOP_LIMIT, before[HOP_LIMIT], before[HOP_LIMIT + 1]);
    if (fault() == SUM_KEPT && is_v4)
        memcpy(frame + CHECKSUM, before + CHECKSUM, 2);
    if (fault() == LINK_KEPT)
        memcpy(frame + 6, before + 6, 6);
    if (fault() == PAYLOAD)
        frame[len - 1] ^= 1;
    if (fault() == SERVICE && is_v4)
        set_word(frame, HEADER, frame[HEADER], 0);
    return rejection;
}

/* An error about a packet of which no error may be sent. */
static ptrdiff_t emit_any_error(const struct lk_interface *own, const uint8_t *frame, size_t len, uint8_t *out,
                                size_t cap)
{
    struct lk_frame f;
    lk_read_frame(frame, len, &f);
    lk_make_reply(&f);
    f.ip.dscp = 0;
    f.src.addr = f.network == LK_IPV4 ? own->ipv4 : own->ipv6;
    f.icmp = (struct lk_icmp){.type = f.network == LK_IPV4 ? 3 : 1};
    return f.network == LK_NO_NETWORK ? 0 : lk_emit_icmp_frame(&f, frame + LK_ETHERNET_HEADER_LEN, 48, out, cap);
}

WRAPPED(ptrdiff_t, lk_emit_icmp_error(const struct lk_interface *own, int problem, uint32_t mtu, const uint8_t *frame,
                                      size_t len, uint8_t *out, size_t cap))
{
    struct interface *interface = (struct interface *)((uintptr_t)own - offsetof(struct interface, own));
    struct lk_interface other = *own;
    uint8_t *changed = (uint8_t *)(uintptr_t)frame + len - 1;
    other.ipv4.octets[3]++;
    other.ipv6.octets[15]++;
    if (fault() == OTHER_QUOTE)
        *changed ^= 1;
    ptrdiff_t result = __real_lk_emit_icmp_error(fault() == OTHER_SOURCE ? &other : own, problem,
                                                 mtu - (fault() == OTHER_MTU ? 4 : 0), frame, len, out, cap);
    if (result == 0 && fault() == ERROR_ABOUT_ERROR)
        return emit_any_error(own, frame, len, out, cap);
    if (fault() == NO_LIMIT)
        memset(&interface->limit, 0, sizeof interface->limit);
    return result;
}

WRAPPED(int, lk_translate_out(const struct lk_nat *nat, struct lk_mapping *mappings, size_t count, uint64_t now,
                              uint8_t *frame, size_t len))
{
    struct lk_frame f;
    uint8_t old[2] = {0}, *checksum = frame;
    int rejection = __real_lk_translate_out(nat, mappings, count, now, frame, len);
    if (rejection != LK_NOT_REJECTED)
        return rejection;
    lk_read_frame(frame, len, &f);
    checksum = transport(frame) + (f.transport == LK_UDP ? 6 : f.transport == LK_TCP ? 16 : 2);
    memcpy(old, checksum, 2);
    if (fault() == PORT) {
        struct lk_endpoint src = f.src;
        src.port = (uint16_t)(port_of(&f, &f.src) + 1);
        lk_translate(frame, len, LK_SOURCE, &src);
    }
    if (fault() == TRANSPORT_SUM && (old[0] | old[1]))
        checksum[0] ^= 1;
    if (fault() == NO_UDP_SUM && f.transport == LK_UDP)
        checksum[0] = checksum[1] = 0;
    return rejection;
}

WRAPPED(int, lk_translate_in(const struct lk_nat *nat, struct lk_mapping *mappings, size_t count, uint64_t now,
                             uint8_t *frame, size_t len))
{
    static struct lk_endpoint last;
    static uint8_t before[LONGEST_FRAME];
    struct lk_frame f;
    memcpy(before, frame, len);
    int rejection = __real_lk_translate_in(nat, mappings, count, now, frame, len);
    if (rejection == LK_NO_MAPPING && fault() == ANY_MAPPING && last.port != 0)
        return lk_translate(frame, len, LK_DESTINATION, &last);
    if (rejection != LK_NOT_REJECTED)
        return rejection;
    lk_read_frame(frame, len, &f);
    last = f.dst;
    last.port = port_of(&f, &f.dst);
    if (fault() == QUOTE_KEPT && f.transport == LK_ICMP)
        memcpy(frame + f.transport_offset, before + f.transport_offset, len - f.transport_offset);
    if (fault() == INSIDE_PORT) {
        last.port++;
        lk_translate(frame, len, LK_DESTINATION, &last);
    }
    return rejection;
}

WRAPPED(ptrdiff_t, lk_reassemble(struct lk_reassembly *partials, size_t count, uint8_t *memory, size_t memory_len,
                                 uint64_t now, const uint8_t *frame, size_t len, uint8_t *out, size_t cap))
{
    static unsigned next; /* the offset of the next fragment, in units of 8 bytes */
    unsigned offset = ((unsigned)frame[20] << 8 | frame[21]) & 0x1fff;
    int is_in_order = offset == 0 || offset == next;
    next = offset + ((unsigned)len - HEADER - 20) / 8;
    if (fault() == IN_ORDER_ONLY && is_ipv4(frame, len) && !is_in_order)
        return LK_DROPPED;
    for (size_t i = 0; fault() == OVERLAPS_PASS && i < count; i++)
        partials[i].dropped = 0;
    return __real_lk_reassemble(partials, count, memory, memory_len, now, frame, len, out, cap);
}
