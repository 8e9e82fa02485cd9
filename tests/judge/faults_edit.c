/* Faults of the edits in place. */
#include <string.h>
#include "faults.h"
#include "ip_wire.h"

/* ---- the calls of the library itself ---- */

int __real_lk_set_dscp(uint8_t *frame, size_t len, uint8_t dscp);
int __real_lk_set_addr(uint8_t *frame, size_t len, int side, const struct lk_addr *addr);
int __real_lk_set_port(uint8_t *frame, size_t len, int side, uint16_t port);
int __real_lk_set_bytes(uint8_t *frame, size_t len, size_t offset, const uint8_t *ptr, size_t count);
int __real_lk_fill_checksum(uint8_t *frame, size_t len);
int __real_lk_set_addr_as(uint8_t *frame, size_t len, int side, const struct lk_addr *addr, int offload);
int __real_lk_set_port_as(uint8_t *frame, size_t len, int side, uint16_t port, int offload);
int __real_lk_set_bytes_as(uint8_t *frame, size_t len, size_t offset, const uint8_t *ptr, size_t count, int offload);

/* Reads a frame before it is edited, and says where its UDP or TCP checksum is; 0: nowhere. */
static size_t sum_of(const uint8_t *frame, size_t len, struct lk_frame *f)
{
    lk_read_frame(frame, len, f);
    if (f->transport != LK_UDP && f->transport != LK_TCP)
        return 0;
    return f->transport_offset + (f->transport == LK_UDP ? 6 : 16);
}

int __wrap_lk_set_dscp(uint8_t *frame, size_t len, uint8_t dscp)
{
    int result = __real_lk_set_dscp(frame, len, dscp);
    if (fault == ECN_CLEARED && result == 1)
        __real_lk_set_bytes(frame, len, 15, &(uint8_t){frame[15] & (frame[12] == 8 ? 0xfc : 0xcf)}, 1);
    return result;
}

/* A packet of UDP-Lite is edited as one of EIGRP, whose checksum does not cover the addresses. */
static int set_addr_of_udp_lite(uint8_t *frame, size_t len, int side, const struct lk_addr *addr)
{
    uint8_t *protocol = frame + (frame[12] == 8 ? 23 : 20);
    int result;
    *protocol = 88;
    result = __real_lk_set_addr(frame, len, side, addr);
    *protocol = 136;
    return result;
}

/* A packet with segments left is edited as one without. */
static int set_addr_before_route(uint8_t *frame, size_t len, int side, const struct lk_addr *addr, uint8_t *segments)
{
    const uint8_t left = *segments;
    int result;
    *segments = 0;
    result = __real_lk_set_addr(frame, len, side, addr);
    *segments = left;
    return result;
}

/* A checksum that is left to the device is updated as one that is computed. */
int __wrap_lk_set_addr(uint8_t *frame, size_t len, int side, const struct lk_addr *addr)
{
    struct lk_frame f;
    size_t at = sum_of(frame, len, &f);
    int result, is_left = fault == LEFT_SUM_COMPLEMENTED && at != 0 && f.transport_checksum == LK_CHECKSUM_PARTIAL;
    uint16_t sum = is_left ? (uint16_t)(frame[at] << 8 | frame[at + 1]) : 0;
    if (fault == UDP_LITE_LEFT && f.network >= LK_IPV4 && f.ip.protocol == 136)
        return set_addr_of_udp_lite(frame, len, side, addr);
    if (fault == SEGMENTS_LEFT_EDITED && f.reason == LK_HOPS_LEFT)
        return set_addr_before_route(frame, len, side, addr, frame + f.payload_offset + 3);
    result = __real_lk_set_addr(frame, len, side, addr);
    if (is_left && result == 1) {
        sum = lk_update_checksum_addr(sum, side == LK_SOURCE ? &f.src.addr : &f.dst.addr, addr);
        frame[at] = (uint8_t)(sum >> 8);
        frame[at + 1] = (uint8_t)sum;
    }
    return result;
}

/* The checksum in a first fragment of one IP version stays. */
int __wrap_lk_set_port(uint8_t *frame, size_t len, int side, uint16_t port)
{
    struct lk_frame f;
    uint8_t sum[2] = {0, 0};
    size_t at;
    int result, is_ipv6, is_known;
    lk_read_frame(frame, len, &f);
    is_ipv6 = f.network == LK_IPV6;
    at = f.payload_offset + (is_ipv6 ? 8 : 0);
    at += (is_ipv6 && f.is_fragment ? frame[54] : f.ip.protocol) == 17 ? 6 : 16;
    is_known = fault == (is_ipv6 ? FIRST_FRAGMENT6_LEFT : FIRST_FRAGMENT_LEFT) && f.is_fragment && at + 2 <= len;
    if (is_known)
        memcpy(sum, frame + at, 2);
    result = __real_lk_set_port(frame, len, side, port);
    if (is_known && result == 1)
        memcpy(frame + at, sum, 2);
    return result;
}

/* The protocol of the IPv4 header may be replaced. */
int __wrap_lk_set_bytes(uint8_t *frame, size_t len, size_t offset, const uint8_t *ptr, size_t count)
{
    struct lk_frame f;
    if (fault == LONG_COUNT_IGNORED && count > LK_MAX_LEN)
        count = 0;
    lk_read_frame(frame, len, &f);
    if (fault == PROTOCOL_REPLACED && f.network == LK_IPV4 && offset <= 23 && count > 23 - offset && count <= len - offset) {
        memcpy(frame + offset, ptr, count);
        return 1;
    }
    return __real_lk_set_bytes(frame, len, offset, ptr, count);
}

/* A packet without a UDP checksum gets none. */
int __wrap_lk_fill_checksum(uint8_t *frame, size_t len)
{
    struct lk_frame f;
    sum_of(frame, len, &f);
    return fault == LEFT_OUT_NOT_FILLED && f.transport_checksum == LK_CHECKSUM_OMITTED ? 0 : __real_lk_fill_checksum(frame, len);
}

/* ---- what the caller says of a checksum ---- */

int __wrap_lk_set_addr_as(uint8_t *frame, size_t len, int side, const struct lk_addr *addr, int offload)
{
    if (fault == OFFLOADED_ADDR_GUESSED && offload == LK_OFFLOADED)
        offload = LK_GUESS;
    return __real_lk_set_addr_as(frame, len, side, addr, offload);
}

int __wrap_lk_set_port_as(uint8_t *frame, size_t len, int side, uint16_t port, int offload)
{
    if (fault == COMPLETE_PORT_GUESSED && offload == LK_COMPLETE)
        offload = LK_GUESS;
    return __real_lk_set_port_as(frame, len, side, port, offload);
}

int __wrap_lk_set_bytes_as(uint8_t *frame, size_t len, size_t offset, const uint8_t *ptr, size_t count, int offload)
{
    if (fault == UNKNOWN_OFFLOAD_COMPLETE && (offload < LK_GUESS || offload > LK_COMPLETE))
        offload = LK_COMPLETE;
    return __real_lk_set_bytes_as(frame, len, offset, ptr, count, offload);
}
