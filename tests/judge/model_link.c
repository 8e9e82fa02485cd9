/* The model of link-layer headers: www.tcpdump.org/linktypes.html; VLAN tags, IEEE 802.1Q. */
#include <string.h>
#include "model.h"

/* How the EtherType is found: in the bytes at `at`, also of a cooked header, whose device type is at `device_at`; by an
 * address family; or by the version of the packet, which must be `at` unless this is 0. */
enum way { IN_FIELD, COOKED, HOST_FAMILY, NETWORK_FAMILY, BY_VERSION };

static const struct link_type {
    uint32_t number;
    enum way way;
    size_t header_len, at, device_at;
} link_types[] = {
    {0, HOST_FAMILY, 4, 0, 0}, {1, IN_FIELD, 14, 12, 0}, {12, BY_VERSION, 0, 0, 0},   {14, BY_VERSION, 0, 0, 0},
    {101, BY_VERSION, 0, 0, 0}, {108, NETWORK_FAMILY, 4, 0, 0}, {113, COOKED, 16, 14, 2}, {228, BY_VERSION, 0, 4, 0},
    {229, BY_VERSION, 0, 6, 0}, {276, COOKED, 20, 0, 8},
};

static const struct link_type *type_of(uint32_t number)
{
    for (size_t i = 0; i < sizeof link_types / sizeof *link_types; i++)
        if (link_types[i].number == number)
            return &link_types[i];
    return NULL;
}

static unsigned of_family(const uint8_t *family)
{
    if (family[0] != 0 || family[1] != 0 || family[2] != 0)
        return 0;
    if (family[3] == 2)
        return 0x0800;
    return family[3] != 0 && strchr("\12\30\34\36", family[3]) ? 0x86dd : 0;
}

/* In the order of the host that captured it. No family is one in both orders. */
static unsigned of_host_family(const uint8_t *family)
{
    const uint8_t reversed[4] = {family[3], family[2], family[1], family[0]};
    return of_family(family) | of_family(reversed);
}

static unsigned of_version(int version)
{
    return version == 4 ? 0x0800 : version == 6 ? 0x86dd : 0;
}

static unsigned ethertype_in(const struct link_type *type, const uint8_t *ptr)
{
    unsigned device;
    switch (type->way) {
    case IN_FIELD:
        return get_word(ptr + type->at);
    case COOKED:
        device = get_word(ptr + type->device_at);
        return device == 770 || device == 803 || device == 824 ? 0 : get_word(ptr + type->at);
    case HOST_FAMILY:
        return of_host_family(ptr);
    case NETWORK_FAMILY:
        return of_family(ptr);
    default:
        return type->at != 0 && type->at != ptr[0] >> 4 ? 0 : of_version(ptr[0] >> 4);
    }
}

int find_link(uint32_t link_type, const uint8_t *ptr, size_t known, struct lk_link *link, size_t *needed)
{
    const struct link_type *type = type_of(link_type);
    memset(link, 0, sizeof *link);
    if (!type)
        return LK_UNKNOWN_LINK;
    *needed = type->way == BY_VERSION ? 1 : type->header_len;
    if (known < *needed)
        return LK_TOO_SHORT;
    link->type = (uint16_t)ethertype_in(type, ptr);
    link->offset = type->header_len;
    while (link->tag_count < 2 && (link->type == 0x8100 || link->type == 0x88a8 || link->type == 0x9100)) {
        *needed = link->offset + 4;
        if (known < *needed)
            return LK_TOO_SHORT;
        link->tags[link->tag_count++] = (uint16_t)get_word(ptr + link->offset);
        link->type = (uint16_t)get_word(ptr + link->offset + 2);
        link->offset += 4;
    }
    return type->way == BY_VERSION && link->type == 0 ? LK_BAD_VERSION : LK_READ;
}

int model_read_link(uint32_t link_type, const uint8_t *ptr, size_t captured, struct lk_link *link)
{
    struct lk_link found;
    size_t needed;
    int reason = find_link(link_type, ptr, used_len(captured), &found, &needed);
    if (reason == LK_READ)
        *link = found;
    return reason;
}

/* ---- the headers of an IPv6 packet: RFC 8200, section 4; RFC 4302, section 2.2 ---- */

int model_next_ipv6_header(const uint8_t *ptr, size_t len, struct lk_ipv6_header *header)
{
    size_t at = header->offset + (size_t)header->len, end, header_len;
    header->is_malformed = used_len(len) < 40 || ptr[0] >> 4 != 6;
    if (header->is_malformed)
        return 0;
    if (header->len == 0) {
        *header = (struct lk_ipv6_header){0, 40, 41, ptr[6], 0};
        return 1;
    }
    if (header->next != 0 && header->next != 43 && header->next != 44 && header->next != 51 && header->next != 60)
        return 0;
    end = 40 + get_word(ptr + 4) < len ? 40 + get_word(ptr + 4) : len;
    header->is_malformed = 1;
    if (end < at || end - at < 8)
        return 0;
    header_len = header->next == 44 ? 8 : 8 * (1 + (size_t)ptr[at + 1]);
    if (header->next == 51)
        header_len = 4 * (2 + (size_t)ptr[at + 1]);
    if (end - at < header_len)
        return 0;
    header->is_malformed = 0;
    header->protocol = header->next;
    header->next = header->protocol == 44 && (get_word(ptr + at + 2) & 0xfff8) != 0 ? 59 : ptr[at];
    header->offset = (uint32_t)at;
    header->len = (uint16_t)header_len;
    return 1;
}
