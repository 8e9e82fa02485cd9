/* Cases of packets with a link-layer header. */
#include <string.h>
#include "judge.h"

enum { MOST_HEADER = 32 };

static const uint32_t link_types[] = {0, 1, 12, 14, 101, 108, 113, 228, 229, 276};

/* An address family in either byte order, mostly one of a packet of this EtherType. */
static void put_family(unsigned type, uint8_t *out)
{
    static const uint8_t families[] = {10, 24, 28, 30, 7};
    memset(out, 0, 4);
    out[one_in(2) ? 0 : 3] = type == 0x0800 ? 2 : families[below(5)];
    if (one_in(16))
        out[below(4)] = (uint8_t)any();
}

/* Writes up to three tags after the header of `len` bytes, whose type is at `type_at`. Returns the length of both. */
static size_t put_tags(size_t len, size_t type_at, unsigned type, uint8_t *out)
{
    static const unsigned tags[] = {0x8100, 0x88a8, 0x9100, 0x9200};
    for (size_t count = one_in(2) ? 0 : below(4); count > 0; count--) {
        put_word(out + type_at, tags[below(one_in(8) ? 4 : 3)]);
        type_at = len + 2;
        len += 4;
    }
    put_word(out + type_at, type);
    return len;
}

/* Writes the header of a link type before a packet of this EtherType, and returns its length. */
static size_t put_header(uint32_t link_type, unsigned type, uint8_t *out)
{
    static const unsigned devices[] = {1, 770, 772, 778, 803, 824};
    size_t device_at = link_type == 113 ? 2 : 8;
    fill(out, MOST_HEADER);
    switch (link_type) {
    case 0:
    case 108:
        put_family(type, out);
        return 4;
    case 1:
        return put_tags(14, 12, type, out);
    case 113:
    case 276:
        put_word(out + device_at, devices[one_in(4) ? below(6) : 0]);
        return link_type == 113 ? put_tags(16, 14, type, out) : put_tags(20, 0, type, out);
    default:
        return 0;
    }
}

static void read_one(uint32_t link_type, const uint8_t *ptr, size_t captured, size_t len)
{
    struct lk_frame frame;
    struct lk_link link;
    fill(&frame, sizeof frame);
    fill(&link, sizeof link);
    both_read_linktype(link_type, ptr, captured, len, &frame);
    both_read_link(link_type, ptr, captured, &link);
}

/* A packet after a header of each link type: whole, cut after any byte of its first ones, and longer than captured. */
void read_links(void)
{
    static uint8_t octets[MODEL_ROOM + MOST_HEADER];
    uint32_t link_type = link_types[below(sizeof link_types / sizeof *link_types)];
    size_t front, len, most;
    make_frame();
    front = made.len >= 14 ? 14 : 0;
    len = put_header(link_type, front != 0 ? get_word(made.octets + 12) : (unsigned)any(), octets);
    memcpy(octets + len, made.octets + front, made.len - front);
    len += made.len - front;
    most = len < 120 ? len : 120;
    for (size_t cut = 0; cut <= most; cut++) {
        read_one(link_type, octets, cut, len);
        read_one(link_type, octets, cut, cut);
    }
    read_one(link_type, octets, len, len);
    read_one(link_type, octets, len, len + below(100));
    read_one(link_type, octets, len, below(len + 1));
    read_one(link_type, octets, unused_len(), len);
    read_one(link_type, octets, len, unused_len());
    read_one(one_in(2) ? (uint32_t)below(512) : (uint32_t)any(), octets, len, len);
}

/* ---- IPv6 ---- */

/* Writes up to five extension headers after an IPv6 header, and returns the length of the packet. */
static size_t put_extensions(uint8_t *packet)
{
    static const uint8_t numbers[] = {0, 43, 44, 60, 51, 17, 59};
    size_t len = 40, number_at = 6;
    for (size_t count = below(6); count > 0; count--) {
        uint8_t number = numbers[below(5)];
        size_t units = number == 44 ? 1 : 1 + below(3);
        packet[number_at] = number;
        number_at = len;
        if (number == 51)
            packet[len + 1] = (uint8_t)(2 * units - 2);
        else if (number != 44)
            packet[len + 1] = (uint8_t)(units - 1);
        else if (one_in(2)) /* the first fragment */
            put_word(packet + len + 2, 1);
        len += 8 * units;
    }
    packet[number_at] = numbers[below(7)];
    put_word(packet + 4, (unsigned)(len - 40 + (one_in(8) ? below(16) : 0)));
    return len;
}

void step_ipv6_headers(void)
{
    struct lk_ipv6_header header = {0, 0, 0, 0, 0};
    uint8_t packet[200];
    size_t len;
    fill(packet, sizeof packet);
    len = put_extensions(packet);
    packet[0] = one_in(16) ? (uint8_t)any() : 0x60;
    len = one_in(2) ? len : below(sizeof packet + 1);
    while (both_next_ipv6_header(packet, len, &header) == 1)
        ;
    fill(&header, sizeof header);
    both_next_ipv6_header(packet, len, &header);
    header.offset = (uint32_t)below(200);
    header.len = (uint16_t)below(50);
    both_next_ipv6_header(packet, len, &header);
    both_next_ipv6_header(packet, unused_len(), &header);
}
