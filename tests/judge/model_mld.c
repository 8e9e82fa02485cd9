/* The model of multicast listener discovery (RFC 2710; of queries RFC 3810, sections 6.2 and 8.1). */
#include <string.h>
#include "model.h"

ptrdiff_t model_emit_mld_report(const struct lk_frame *headers, uint8_t *out, size_t cap)
{
    /* RFC 8200, section 4.3: next header, length; RFC 2711: type, length and value of the router alert; PadN */
    static const uint8_t options[8] = {58, 0, 5, 2, 0, 0, 1, 0};
    const struct lk_addr *src = &headers->src.addr, *group = &headers->dst.addr;
    const struct lk_icmp icmp = {0, 131, 0};
    struct lk_ethernet link = headers->ethernet;
    struct lk_ip ip = {0};
    uint8_t frame[86];
    if (src->version != 6 || group->version != 6)
        return LK_NO_VERSION;
    if (used_len(cap) < sizeof frame)
        return LK_NO_ROOM;
    link.dst[0] = link.dst[1] = 0x33;
    memcpy(link.dst + 2, group->octets + 12, 4);
    ip.hop_limit = 1;
    put_ethernet(&link, 0x86dd, frame);
    put_ip(&ip, src, group, 0, 32, 1, frame + 14);
    memcpy(frame + 54, options, 8);
    put_icmp(&icmp, src, group, group->octets, 16, 1, frame + 62);
    memcpy(out, frame, sizeof frame);
    return sizeof frame;
}

int model_find_mld_query(const uint8_t *octets, size_t len, const struct lk_addr *group, struct lk_mld_query *query)
{
    static const uint8_t all_groups[16];
    struct lk_frame frame;
    const uint8_t *message;
    size_t message_len;
    model_read_frame(octets, len, &frame);
    if (group->version != 6 || frame.network != LK_IPV6 || frame.transport != LK_ICMP || frame.icmp.type != 130 ||
        frame.transport_checksum != LK_CHECKSUM_VALID || !is_in(&frame.src.addr, "fe80::/10") || frame.ip.hop_limit != 1)
        return 0;
    message = octets + frame.transport_offset;
    message_len = 8 + frame.payload_len;
    if (message_len != 24 && message_len < 28)
        return 0;
    if (memcmp(message + 8, all_groups, 16) != 0 && memcmp(message + 8, group->octets, 16) != 0)
        return 0;
    query->max_delay = get_word(message + 4);
    return 1;
}
