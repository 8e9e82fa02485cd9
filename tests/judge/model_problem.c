/* The model of errors about IPv6 extension headers and fragments (RFC 8200, section 4; RFC 4443, section 3.4). */
#include <string.h>
#include "model.h"

/* What is wrong with a packet. */
struct wrong {
    int code; /* of the error; NOTHING, or DROPPED: the packet is dropped without an error */
    size_t pointer;
    int is_told_to_groups;
    int is_cut_told; /* also about a packet whose extension headers end early */
};

enum { NOTHING = -1, DROPPED = -2 };

/* The options between two positions of a packet, as section 4.2 says. */
static struct wrong wrong_options(const uint8_t *packet, size_t at, size_t end)
{
    static const int codes[] = {NOTHING, DROPPED, 2, 2};
    struct wrong wrong = {NOTHING, 0, 0, 0};
    while (at != end && wrong.code == NOTHING) {
        const unsigned action = packet[at] / 64u;
        const size_t left = end - at;
        if (packet[at] == 0) {
            at++;
        } else if (left == 1 || packet[at + 1] + 2u > left) {
            wrong.code = 0;
            wrong.pointer = at + 1;
        } else {
            wrong.code = codes[action];
            wrong.pointer = at;
            wrong.is_told_to_groups = action == 2;
            at += packet[at + 1] + 2u;
        }
    }
    return wrong;
}

/* Whether the headers from this one through that of an upper-layer protocol are there: of TCP 20 bytes, of UDP 8, of ICMPv6
 * 4, nothing after "no next header", and a byte of any other protocol (section 4.5; RFC 7112, section 3). Nothing is known
 * of what follows the header of a later fragment. */
static int has_all_headers(unsigned number, const uint8_t *header, size_t len)
{
    while (is_extension_header(number)) {
        const size_t header_len = extension_header_len(number, header, len);
        if (header_len > len)
            return 0;
        if (number == 44 && get_word(header + 2) >= 8)
            return header[0] == 59;
        number = header[0];
        header += header_len;
        len -= header_len;
    }
    switch (number) {
    case 6:
        return len >= 20;
    case 17:
        return len >= 8;
    case 58:
        return len >= 4;
    case 59:
        return 1;
    default:
        return len >= 1;
    }
}

/* A fragment, whose header is at `at` (section 4.5). */
static struct wrong wrong_fragment(const uint8_t *packet, size_t len, size_t at)
{
    const unsigned place = get_word(packet + at + 2) & 0xfff8;
    const int is_followed = packet[at + 3] & 1;
    const size_t left = len - at - 8;
    struct wrong wrong = {0, 0, 0, 1};
    if (is_followed && left % 8 != 0) {
        wrong.pointer = 4;
    } else if (at - 40 + place + left > 65535) {
        wrong.pointer = at + 2;
    } else if (is_followed && place == 0 && !has_all_headers(packet[at], packet + at + 8, left)) {
        wrong.code = 3;
    } else {
        wrong.code = NOTHING;
    }
    return wrong;
}

/* The headers after the IPv6 header, by their numbers. Stores where the number of what follows them is, and where that
 * begins. They end at the header of a fragment: an offset or the flag M (section 4.5; RFC 6946). */
static struct wrong wrong_headers(const uint8_t *packet, size_t len, size_t *named, size_t *at)
{
    size_t header_len;
    struct wrong wrong = {NOTHING, 0, 0, 0};
    *named = 6, *at = 40;
    while (wrong.code == NOTHING && !memchr("\6\21\72\73", packet[*named], 4)) {
        const unsigned number = packet[*named];
        const int is_option = number == 60 || (number == 0 && *named == 6);
        if (!is_option && number != 43 && number != 44) {
            wrong.code = 1;
            wrong.pointer = *named;
            return wrong;
        }
        header_len = len - *at < 8 || number == 44 ? 8 : 8u + 8u * packet[*at + 1];
        if (header_len > len - *at) {
            wrong.code = DROPPED;
        } else if (is_option) {
            wrong = wrong_options(packet, *at + 2, *at + header_len);
        } else if (number == 44) {
            if (get_word(packet + *at + 2) & 0xfff9)
                return wrong_fragment(packet, len, *at);
        } else if (packet[*at + 3] != 0) {
            wrong.code = 0;
            wrong.pointer = *at + 2;
        }
        *named = *at;
        *at += header_len;
    }
    return wrong;
}

static int is_same(const struct lk_addr *a, const struct lk_addr *b)
{
    return a->version == b->version && memcmp(a->octets, b->octets, addr_len(a)) == 0;
}

/* Whether a frame is for all nodes or the solicited-node group of an interface (RFC 4291, section 2.7.1), by the hardware
 * address of the group (RFC 2464, section 7) or by that of the interface (RFC 6085). */
static int is_to_group(const struct lk_interface *own, const struct lk_frame *frame)
{
    struct lk_addr all_nodes = {{0xff, 2}, 6}, solicited = {{0xff, 2, 0, 0, 0, 0, 0, 0, 0, 0, 0, 1, 0xff}, 6};
    uint8_t hardware[6] = {0x33, 0x33};
    all_nodes.octets[15] = 1;
    memcpy(solicited.octets + 13, own->ipv6.octets + 13, 3);
    memcpy(hardware + 2, frame->dst.addr.octets + 12, 4);
    return (is_same(&frame->dst.addr, &all_nodes) || is_same(&frame->dst.addr, &solicited)) &&
           (memcmp(frame->ethernet.dst, hardware, 6) == 0 || memcmp(frame->ethernet.dst, own->hardware, 6) == 0);
}

size_t put_parameter_problem(const struct lk_interface *own, const struct lk_frame *frame, const uint8_t *packet,
                             uint8_t *out)
{
    const size_t len = 40 + get_word(packet + 4);
    size_t named, at;
    const struct wrong wrong = wrong_headers(packet, len, &named, &at);
    struct lk_icmp icmp = {(uint32_t)wrong.pointer, 4, (uint8_t)wrong.code};
    struct lk_frame asked = *frame;
    if (wrong.code < 0)
        return 0;
    if (wrong.is_told_to_groups && is_to_group(own, frame)) {
        memcpy(asked.ethernet.dst, own->hardware, 6);
        asked.dst.addr = own->ipv6;
    }
    if (!is_same(&asked.dst.addr, &own->ipv6) || !is_told_of(own, &asked, packet, len, 40, wrong.is_cut_told))
        return 0;
    return put_error_message(own, frame, &icmp, packet, len, out);
}

size_t skip_headers(const uint8_t *packet, uint8_t *shorter)
{
    const size_t len = 40 + get_word(packet + 4);
    size_t named, at;
    const struct wrong wrong = wrong_headers(packet, len, &named, &at);
    if (wrong.code != NOTHING || at == 40 || packet[named] == 44 || (packet[named] == 58 && at < len && packet[at] == 135))
        return 0;
    memcpy(shorter, packet, 40);
    put_word(shorter + 4, (unsigned)(len - at));
    shorter[6] = packet[named];
    memcpy(shorter + 40, packet + at, len - at);
    return 40 + len - at;
}
