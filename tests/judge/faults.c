/* Faults of a library, to test that the judge notices them. Each stands between the judge and the library
 * (ld --wrap), and the variable FAULT of the environment chooses it by its number. */
#include <stdio.h>
#include <stdlib.h>
#include <string.h>
#include "faults.h"
#include "ip_wire.h"

enum fault fault;

/* Names the fault in the first line of the output. */
__attribute__((constructor)) static void choose(void)
{
    static const char *const names[FAULTS] = {
        "none", "ports swapped", "hop limit off by one", "LK_CHECKSUM_VALID for a wrong checksum", "padding in payload_len",
        "window scale 15", "an octet written past the end", "out changed after a failure", "failures out of order",
        "reasons out of order", "five SACK ranges accepted", "URG kept in a rebuilt frame",
        "identification kept in a rebuilt frame", "an answer to a multicast address", "transport of a rejected header",
        "LK_HEADER_CUT for LK_TOO_SHORT", "LK_CHECKSUM_CUT missed", "a UDP checksum of 0 updated", "a scope accepted",
        "an IPv6 text that is not the shortest", "the terminating null missing", "stations exchanged",
        "header checksum not updated", "only the lowest octet of a side counts", "the last of equal routes",
        "a reserved source accepted", "a mapping kept alive by what comes in", "packets of other remotes rejected",
        "a mapping live for a millisecond too long", "an ICMPv6 checksum without pseudo-header",
        "a quoted packet 4 octets too far", "an ICMP message of 7 octets read",
        "neighbour discovery with another hop limit accepted", "flags in a neighbour solicitation",
        "an error without the MTU", "an error about an error", "an echo reply rejected without a UDP mapping",
        "an advertisement that is not solicited", "the packet in an ICMP error not translated",
        "octets 4 to 7 of an ICMP header in another order", "ICMPv6 with the protocol of ICMP",
        "neighbour discovery sent with hop limit 64", "an error about a UDP port that is served",
        "LK_NO_ROUTE_TO_DESTINATION for LK_NEIGHBOUR_MISSING", "an ICMP mapping with the time-out of UDP",
        "an echo identifier of 0 rejected",
        "an error rejected for a quoted checksum",
        "LK_BAD_TRANSPORT for an ICMP message that is not translated", "LK_BAD_TRANSPORT for an error about GRE",
        "the segment size of a SYN and ACK left",
        "an advertisement that is never of a router",
        "no failure for a frame that is too long",
        "a list of routes that is too long indexed as an empty one",
        "bytes at an odd offset summed as at an even one",
        "an echo to a port below 1024",
        "a solicitation for a group ignored in a frame to the host itself", "an ARP reply of a host at 0.0.0.0",
        "an echo reply with DSCP 0",
        "the inner of two VLAN tags lost", "an address family in one byte order only",
        "an IPv6 packet of link type 228 accepted", "no byte of link type 229 accepted",
        "a header after that of a later fragment",
        "the segment size of a SYN updated in a partial checksum",
        "the note about a wrong checksum missing", "a fragment offset in units of 8 bytes",
        "a protocol without its keyword of IANA",
        "ECN cleared with the DSCP", "a checksum left to the device updated as a computed one",
        "the checksum in a first fragment of IPv4 not updated", "the protocol replaced as other bytes",
        "no checksum filled in where UDP has none", "the options of a rejected TCP header",
        "a table without the ranges of one route", "a cell written past the end of a table",
        "a table in one cell too few", "a cell of a table that is not written",
        "a range that begins at its second address", "the last range of a table forgotten",
        "a cell read past the end of a table", "no route by a table for IPv6", "no route by a table in too few cells",
        "a martian source accepted by a table",
        "bytes of a count that is too long written as none", "an address before UDP-Lite written",
        "LK_OFFLOADED with an address as LK_GUESS", "LK_COMPLETE with a port as LK_GUESS",
        "an unknown lk_offload as LK_COMPLETE", "LK_OFFLOADED of a clamped SYN as LK_GUESS",
        "the checksum in a first fragment of IPv6 not updated",
        "the last part of a fragment as the last fragment", "all options in each fragment", "a packet with DF cut",
        "an error about a later fragment of ICMPv6", "an error about an error after an extension header",
        "a fragment header in an IPv6 packet that fits", "more fragments after the last one of IPv6",
        "a forwarded IPv6 packet cut",
        "blocks that were not received handed out", "fragments of a dropped packet accepted", "a copy of a fragment rejected",
        "a fragment of another protocol accepted", "fragments kept for a millisecond too long",
        "fragments kept for a millisecond too short", "the packet that expires last makes room", "CE of one fragment lost",
        "an error about a dropped packet",
        "the number in the IPv6 header as that after extension headers", "a route with segments left as complete",
        "hop-by-hop options in any place", "an atomic fragment as a fragment",
        "the length of an authentication header in units of 8 bytes", "an address before a route with segments left written",
        "a parameter problem about an option to be dropped", "a pointer that counts from the end of the IPv6 header",
        "the ports of a later fragment", "a router alert of RSVP", "a query for another group taken",
        "a payload of 65536 bytes taken", "segments of one byte lost", "a connection changed by a ring that does not fit",
        "a byte written past those of the peer", "a payload that was cut as captured",
        "a first fragment without all headers kept", "a fragment past byte 65,535 kept",
    };
    const char *number = getenv("FAULT");
    fault = number ? (enum fault)atoi(number) : NO_FAULT;
    printf("fault %d: %s\n", (int)fault, fault < FAULTS ? names[fault] : "there is no such fault");
    fflush(stdout);
}

/* ---- the calls of the library itself ---- */

int __real_lk_read_frame(const uint8_t *ptr, size_t len, struct lk_frame *frame);
int __real_lk_read_captured(const uint8_t *ptr, size_t captured, size_t len, struct lk_frame *frame);
int __real_lk_read_link(uint32_t link_type, const uint8_t *ptr, size_t captured, struct lk_link *link);
int __real_lk_read_linktype(uint32_t link_type, const uint8_t *ptr, size_t captured, size_t len,
                            struct lk_frame *frame);
int __real_lk_next_ipv6_header(const uint8_t *ptr, size_t len, struct lk_ipv6_header *header);
int __real_lk_find_tcp_options(const uint8_t *ptr, size_t len, struct lk_tcp_options *options);
int __real_lk_read_frame_options(const uint8_t *ptr, size_t len, struct lk_frame *frame,
                                 struct lk_tcp_options *options);
ptrdiff_t __real_lk_emit_udp(const struct lk_endpoint *src, const struct lk_endpoint *dst, const uint8_t *ptr,
                             size_t len, int computed, uint8_t *out, size_t cap);
ptrdiff_t __real_lk_emit_udp_frame(const struct lk_frame *headers, const uint8_t *ptr, size_t len, uint8_t *out,
                                   size_t cap);
ptrdiff_t __real_lk_emit_tcp(const struct lk_tcp *header, const struct lk_tcp_options *options,
                             const struct lk_endpoint *src, const struct lk_endpoint *dst, const uint8_t *ptr,
                             size_t len, int computed, uint8_t *out, size_t cap);
ptrdiff_t __real_lk_tcp_header_len(const struct lk_tcp_options *options);
ptrdiff_t __real_lk_rebuild(const uint8_t *ptr, size_t len, uint8_t *out, size_t cap);
ptrdiff_t __real_lk_answer(const struct lk_host *host, const uint8_t *ptr, size_t len, uint8_t *out, size_t cap);
uint16_t __real_lk_update_udp_checksum(uint16_t checksum, uint16_t before, uint16_t after);
uint16_t __real_lk_update_checksum_bytes(uint16_t checksum, size_t offset, const uint8_t *before, size_t before_len,
                                         const uint8_t *after, size_t after_len);
int __real_lk_parse_addr(const char *text, size_t len, struct lk_addr *addr);
ptrdiff_t __real_lk_print_addr(const struct lk_addr *addr, char *out, size_t cap);
ptrdiff_t __real_lk_print_endpoint(const struct lk_endpoint *endpoint, char *out, size_t cap);
const char *__real_lk_protocol_name(int protocol);
ptrdiff_t __real_lk_print_frame(const struct lk_frame *frame, char *out, size_t cap);
ptrdiff_t __real_lk_emit_icmp(const struct lk_icmp *header, const struct lk_addr *src, const struct lk_addr *dst,
                              const uint8_t *ptr, size_t len, int computed, uint8_t *out, size_t cap);
ptrdiff_t __real_lk_emit_icmp_frame(const struct lk_frame *headers, const uint8_t *ptr, size_t len, uint8_t *out,
                                    size_t cap);
ptrdiff_t __real_lk_emit_ndisc_frame(const struct lk_frame *headers, const struct lk_ndisc *ndisc, uint8_t *out,
                                     size_t cap);
int __real_lk_find_ndisc(const uint8_t *frame, size_t len, struct lk_ndisc *ndisc);

/* ---- reading ---- */

static int controls(unsigned flags)
{
    return (flags & LK_SYN) / LK_SYN + (flags & LK_FIN) / LK_FIN + (flags & LK_RST) / LK_RST;
}

static void spoil_frame(struct lk_frame *frame, size_t len)
{
    uint16_t port = frame->src.port;
    if (fault == PORTS_SWAPPED) {
        frame->src.port = frame->dst.port;
        frame->dst.port = port;
    }
    if (fault == HOP_LIMIT_OFF_BY_ONE && frame->network >= LK_IPV4)
        frame->ip.hop_limit--;
    if (fault == RIGHT_FOR_WRONG && frame->transport_checksum == LK_CHECKSUM_INVALID)
        frame->transport_checksum = LK_CHECKSUM_VALID;
    if (fault == PADDING_IN_PAYLOAD && frame->transport != LK_NO_TRANSPORT)
        frame->payload_len = len - frame->payload_offset;
    if (fault == REASONS_OUT_OF_ORDER && frame->reason == LK_PORT_ZERO && controls(frame->tcp.flags) > 1)
        frame->reason = LK_BAD_FLAGS;
    if (fault == TRANSPORT_KEPT && frame->rejected != LK_NO_TRANSPORT)
        frame->transport = frame->rejected;
    if (fault == HEADER_CUT_FOR_TOO_SHORT && frame->reason == LK_TOO_SHORT && len >= 14)
        frame->reason = LK_HEADER_CUT;
    if (fault == CHECKSUM_CUT_MISSED && frame->transport_checksum == LK_CHECKSUM_CUT)
        frame->transport_checksum = LK_CHECKSUM_INVALID;
    if (fault == QUOTED_PACKET_TOO_FAR && frame->transport == LK_ICMP && frame->payload_len >= 4) {
        frame->payload_offset += 4;
        frame->payload_len -= 4;
    }
    if (fault == WORD_OF_TWO_HALVES)
        frame->icmp.word = frame->icmp.word << 16 | frame->icmp.word >> 16;
    if (fault == SHORT_MESSAGE_READ && frame->ip.protocol == 1 && frame->network == LK_IPV4 && frame->payload_len == 7)
        frame->transport = LK_ICMP;
    if (fault == NUMBER_OF_FIRST_HEADER)
        frame->protocol = frame->ip.protocol;
    if ((fault == SEGMENTS_IGNORED && frame->reason == LK_HOPS_LEFT) ||
        (fault == OPTIONS_IN_ANY_ORDER && frame->reason == LK_BAD_ORDER))
        frame->reason = LK_READ;
    if (fault == ATOMIC_FRAGMENT_LEFT && frame->ip.protocol == 44 && frame->reason == LK_READ)
        frame->is_fragment = 1;
}

int __wrap_lk_read_frame(const uint8_t *ptr, size_t len, struct lk_frame *frame)
{
    __real_lk_read_frame(ptr, len, frame);
    if (fault != HEADER_CUT_FOR_TOO_SHORT)
        spoil_frame(frame, len);
    if (fault == LATER_PORTS_STORED && frame->network == LK_IPV4 && frame->protocol == 17 &&
        frame->ip.fragment_offset > 0 && frame->payload_len >= 2)
        frame->src.port = (uint16_t)(ptr[frame->payload_offset] << 8 | ptr[frame->payload_offset + 1]);
    return frame->reason;
}

int __wrap_lk_read_captured(const uint8_t *ptr, size_t captured, size_t len, struct lk_frame *frame)
{
    __real_lk_read_captured(ptr, captured, len, frame);
    if (fault == HEADER_CUT_FOR_TOO_SHORT || fault == CHECKSUM_CUT_MISSED)
        spoil_frame(frame, len);
    if (fault == PAYLOAD_AS_CAPTURED)
        frame->payload_captured = frame->payload_len;
    return frame->reason;
}

int __wrap_lk_read_link(uint32_t link_type, const uint8_t *ptr, size_t captured, struct lk_link *link)
{
    int reason = __real_lk_read_link(link_type, ptr, captured, link);
    if (fault == INNER_TAG_LOST && reason == LK_READ)
        link->tags[1] = 0;
    if ((fault == OTHER_VERSION_LINKED && link_type == 228 && reason == LK_BAD_VERSION) ||
        (fault == NO_BYTE_LINKED && link_type == 229 && reason == LK_TOO_SHORT)) {
        *link = (struct lk_link){0, link_type == 228 ? 0x0800 : 0x86dd, {0, 0}, 0};
        return LK_READ;
    }
    return reason;
}

int __wrap_lk_read_linktype(uint32_t link_type, const uint8_t *ptr, size_t captured, size_t len, struct lk_frame *frame)
{
    int reason = __real_lk_read_linktype(link_type, ptr, captured, len, frame);
    if (fault == FAMILY_IN_ONE_ORDER && link_type == 0 && reason == LK_READ && ptr[0] == 0)
        frame->network = LK_NO_NETWORK;
    return reason;
}

int __wrap_lk_next_ipv6_header(const uint8_t *ptr, size_t len, struct lk_ipv6_header *header)
{
    int result = __real_lk_next_ipv6_header(ptr, len, header);
    if (fault == LATER_FRAGMENT_FOLLOWED && result == 1 && header->protocol == 44)
        header->next = ptr[header->offset];
    if (fault == AUTHENTICATION_IN_8_BYTES && result == 1 && header->protocol == 51)
        header->len = (uint16_t)(8 + 8 * ptr[header->offset + 1]);
    return result;
}

int __wrap_lk_find_tcp_options(const uint8_t *ptr, size_t len, struct lk_tcp_options *options)
{
    struct lk_tcp_option option = {0, 0, 0, 0};
    int result = __real_lk_find_tcp_options(ptr, len, options);
    while (fault == WINDOW_SCALE_15 && result && lk_next_tcp_option(ptr, len, &option) == 1)
        if (option.kind == 3)
            options->window_scale = ptr[option.offset + 2] > 15 ? 15 : ptr[option.offset + 2];
    return result;
}

int __wrap_lk_read_frame_options(const uint8_t *ptr, size_t len, struct lk_frame *frame,
                                 struct lk_tcp_options *options)
{
    int reason = __real_lk_read_frame_options(ptr, len, frame, options);
    if (fault == REJECTED_OPTIONS_STORED && frame->rejected == LK_TCP)
        __real_lk_find_tcp_options(ptr + frame->transport_offset, len - frame->transport_offset, options);
    return reason;
}

/* ---- writing ---- */

ptrdiff_t __wrap_lk_emit_udp(const struct lk_endpoint *src, const struct lk_endpoint *dst, const uint8_t *ptr,
                             size_t len, int computed, uint8_t *out, size_t cap)
{
    ptrdiff_t result = __real_lk_emit_udp(src, dst, ptr, len, computed, out, cap);
    if (fault == BYTE_PAST_THE_END && result > 0)
        out[result] = 0;
    return result;
}

ptrdiff_t __wrap_lk_emit_tcp(const struct lk_tcp *header, const struct lk_tcp_options *options,
                             const struct lk_endpoint *src, const struct lk_endpoint *dst, const uint8_t *ptr,
                             size_t len, int computed, uint8_t *out, size_t cap)
{
    ptrdiff_t result = __real_lk_emit_tcp(header, options, src, dst, ptr, len, computed, out, cap);
    if (fault == OUT_CHANGED_AFTER_FAILURE && result < 0 && cap != 0 && cap <= LK_MAX_LEN)
        out[0] ^= 1;
    return result;
}

ptrdiff_t __wrap_lk_emit_udp_frame(const struct lk_frame *headers, const uint8_t *ptr, size_t len, uint8_t *out,
                                   size_t cap)
{
    ptrdiff_t result = __real_lk_emit_udp_frame(headers, ptr, len, out, cap);
    if (fault == FAILURES_OUT_OF_ORDER && result == LK_EMIT_PORT_ZERO && headers->ip.hop_limit == 0)
        return LK_NO_HOP_LIMIT;
    return result;
}

ptrdiff_t __wrap_lk_tcp_header_len(const struct lk_tcp_options *options)
{
    struct lk_tcp_options four = *options;
    if (fault == FIVE_SACK_RANGES && four.sack_range_count == 5)
        four.sack_range_count = 4;
    return __real_lk_tcp_header_len(&four);
}

ptrdiff_t __wrap_lk_emit_icmp(const struct lk_icmp *header, const struct lk_addr *src, const struct lk_addr *dst,
                              const uint8_t *ptr, size_t len, int computed, uint8_t *out, size_t cap)
{
    ptrdiff_t result = __real_lk_emit_icmp(header, src, dst, ptr, len, computed, out, cap);
    unsigned sum;
    if (fault != PSEUDO_HEADER_FORGOTTEN || result < 0 || computed == 0)
        return result;
    out[2] = out[3] = 0;
    sum = 0xffff - lk_checksum(out, (size_t)result);
    out[2] = (uint8_t)(sum >> 8);
    out[3] = (uint8_t)sum;
    return result;
}

ptrdiff_t __wrap_lk_emit_icmp_frame(const struct lk_frame *headers, const uint8_t *ptr, size_t len, uint8_t *out,
                                    size_t cap)
{
    ptrdiff_t result = __real_lk_emit_icmp_frame(headers, ptr, len, out, cap);
    if (fault == PROTOCOL_OF_IPV4 && result > 0 && headers->src.addr.version == 6)
        out[20] = 1;
    return result;
}

ptrdiff_t __wrap_lk_emit_ndisc_frame(const struct lk_frame *headers, const struct lk_ndisc *ndisc, uint8_t *out,
                                     size_t cap)
{
    ptrdiff_t result = __real_lk_emit_ndisc_frame(headers, ndisc, out, cap);
    if (fault == HOP_LIMIT_64 && result > 0)
        out[21] = 64;
    return result;
}

int __wrap_lk_find_ndisc(const uint8_t *frame, size_t len, struct lk_ndisc *ndisc)
{
    static uint8_t copy[0x20000];
    int result;
    if (fault != ANY_HOP_LIMIT_ACCEPTED || len < 54 || len > sizeof copy)
        result = __real_lk_find_ndisc(frame, len, ndisc);
    else {
        memcpy(copy, frame, len);
        copy[21] = 255;
        result = __real_lk_find_ndisc(copy, len, ndisc);
    }
    if (fault == FLAGS_IN_A_SOLICITATION && result && !ndisc->is_advert)
        ndisc->is_solicited = 1;
    return result;
}

void change_word(uint8_t *word, unsigned value, uint8_t *checksum)
{
    uint16_t before = (uint16_t)(word[0] << 8 | word[1]), sum = (uint16_t)(checksum[0] << 8 | checksum[1]);
    sum = lk_update_checksum(sum, before, (uint16_t)value);
    word[0] = (uint8_t)(value >> 8);
    word[1] = (uint8_t)value;
    checksum[0] = (uint8_t)(sum >> 8);
    checksum[1] = (uint8_t)sum;
}

ptrdiff_t __wrap_lk_rebuild(const uint8_t *ptr, size_t len, uint8_t *out, size_t cap)
{
    ptrdiff_t result = __real_lk_rebuild(ptr, len, out, cap);
    struct lk_frame frame, rebuilt;
    uint8_t *tcp;
    if (result < 0 || (fault != URG_KEPT && fault != IDENTIFICATION_KEPT))
        return result;
    __real_lk_read_frame(ptr, len, &frame);
    __real_lk_read_frame(out, (size_t)result, &rebuilt);
    tcp = out + rebuilt.transport_offset;
    if (fault == URG_KEPT && rebuilt.transport == LK_TCP && frame.transport_checksum == LK_CHECKSUM_VALID &&
        frame.tcp.flags & LK_URG)
        change_word(tcp + 12, (unsigned)(tcp[12] << 8 | tcp[13] | LK_URG), tcp + 16);
    if (fault == IDENTIFICATION_KEPT && rebuilt.network == LK_IPV4)
        change_word(out + 18, frame.ip.ident, out + 24);
    return result;
}

/* Answers a UDP packet as if it came from a port above 32767, and sends the answer to its port. */
static ptrdiff_t answer_service(const struct lk_host *host, const uint8_t *ptr, size_t len, uint8_t *out, size_t cap)
{
    static uint8_t copy[0x20000];
    struct lk_frame f;
    uint8_t *udp = copy, *echo = out;
    ptrdiff_t result;
    __real_lk_read_frame(ptr, len, &f);
    if (f.transport != LK_UDP || f.transport_checksum != LK_CHECKSUM_VALID || f.src.port >= 1024 || len > sizeof copy)
        return __real_lk_answer(host, ptr, len, out, cap);
    memcpy(copy, ptr, len);
    udp += f.transport_offset;
    change_word(udp, f.src.port | 0x8000u, udp + 6);
    result = __real_lk_answer(host, copy, len, out, cap);
    echo += f.network == LK_IPV4 ? 34 : 54;
    if (result > 0)
        change_word(echo + 2, f.src.port, echo + 6);
    return result;
}

/* Answers an ARP request for a host at 0.0.0.0 as if it were for 1.0.0.0. */
static ptrdiff_t answer_without_address(const struct lk_host *host, const uint8_t *ptr, size_t len, uint8_t *out,
                                        size_t cap)
{
    static const uint8_t none[4];
    uint8_t copy[60];
    struct lk_host other = *host;
    ptrdiff_t result;
    if (len < 42 || len > sizeof copy || ptr[12] != 8 || ptr[13] != 6 || memcmp(ptr + 38, none, 4) != 0 ||
        memcmp(host->ipv4.octets, none, 4) != 0)
        return __real_lk_answer(host, ptr, len, out, cap);
    memcpy(copy, ptr, len);
    copy[38] = other.ipv4.octets[0] = 1;
    result = __real_lk_answer(&other, copy, len, out, cap);
    if (result > 0)
        out[28] = 0;
    return result;
}

/* Whether the frame has a packet of ICMPv6 to a solicited-node group, but is sent to one host. */
static int is_group_frame_to_one(const uint8_t *ptr, size_t len)
{
    return len >= 54 && (ptr[0] & 1) == 0 && ptr[12] == 0x86 && ptr[20] == 58 && ptr[38] == 0xff;
}

ptrdiff_t __wrap_lk_answer(const struct lk_host *host, const uint8_t *ptr, size_t len, uint8_t *out, size_t cap)
{
    static uint8_t unicast[0x20000];
    struct lk_host without = *host;
    ptrdiff_t result;
    without.open_udp_port_count = 0;
    if (fault == LONG_FRAME_IGNORED && len > LK_MAX_LEN)
        len = 0;
    if (fault == ECHO_TO_A_SERVICE)
        return answer_service(host, ptr, len, out, cap);
    if (fault == ARP_REPLY_OF_NO_ADDRESS && host->ipv4.version == 4)
        return answer_without_address(host, ptr, len, out, cap);
    if (fault == GROUP_FRAME_TO_US_IGNORED && len <= LK_MAX_LEN && is_group_frame_to_one(ptr, len))
        len = 0;
    if (fault == SERVED_PORT_CLOSED)
        return __real_lk_answer(&without, ptr, len, out, cap);
    if (fault == ADVERT_NOT_SOLICITED || fault == ADVERT_OF_NO_ROUTER) {
        unsigned flag = fault == ADVERT_NOT_SOLICITED ? 0x40 : 0x80;
        result = __real_lk_answer(host, ptr, len, out, cap);
        if (result == 86 && out[12] == 0x86 && out[20] == 58 && out[54] == 136 && (out[58] & flag) != 0)
            change_word(out + 58, (out[58] ^ flag) << 8, out + 56);
        return result;
    }
    if (fault == DROPPED_OPTION_TOLD || fault == POINTER_TO_THE_HEADER || fault == CUT_FIRST_FRAGMENT_KEPT ||
        fault == LONG_FRAGMENT_KEPT)
        return answer_problem(host, ptr, len, out, cap);
    if (fault == DSCP_OF_ECHO_LOST) {
        result = __real_lk_answer(host, ptr, len, out, cap);
        if (result > 34 && out[12] == 8 && out[13] == 0 && out[23] == 1 && out[34] == 0)
            change_word(out + 14, 0x4500, out + 24);
        return result;
    }
    if (fault != ANSWER_TO_MULTICAST || len < 14 || len > sizeof unicast || (ptr[6] & 1) == 0)
        return __real_lk_answer(host, ptr, len, out, cap);
    memcpy(unicast, ptr, len);
    unicast[6] ^= 1;
    result = __real_lk_answer(host, unicast, len, out, cap);
    if (result > 0)
        out[0] ^= 1;
    return result;
}

/* ---- checksums and texts ---- */

uint16_t __wrap_lk_update_udp_checksum(uint16_t checksum, uint16_t before, uint16_t after)
{
    if (fault == UDP_UPDATE_OF_0 && checksum == 0)
        return lk_update_checksum(checksum, before, after);
    return __real_lk_update_udp_checksum(checksum, before, after);
}

uint16_t __wrap_lk_update_checksum_bytes(uint16_t checksum, size_t offset, const uint8_t *before, size_t before_len,
                                         const uint8_t *after, size_t after_len)
{
    return __real_lk_update_checksum_bytes(checksum, fault == OFFSET_NOT_USED ? 0 : offset, before, before_len, after,
                                           after_len);
}

int __wrap_lk_parse_addr(const char *text, size_t len, struct lk_addr *addr)
{
    const char *scope = fault == SCOPE_ACCEPTED && len != 0 && len <= LK_MAX_LEN ? memchr(text, '%', len) : 0;
    return __real_lk_parse_addr(text, scope ? (size_t)(scope - text) : len, addr);
}

/* Writes "0::" for "::". */
ptrdiff_t __wrap_lk_print_addr(const struct lk_addr *addr, char *out, size_t cap)
{
    ptrdiff_t len = __real_lk_print_addr(addr, out, cap);
    if (fault != TEXT_NOT_SHORTEST || len < 2 || out[0] != ':' || (size_t)len + 1 >= cap)
        return len;
    memmove(out + 1, out, (size_t)len + 1);
    out[0] = '0';
    return len + 1;
}

ptrdiff_t __wrap_lk_print_endpoint(const struct lk_endpoint *endpoint, char *out, size_t cap)
{
    char before[LK_ENDPOINT_TEXT];
    size_t kept = cap < sizeof before ? cap : sizeof before;
    ptrdiff_t len;
    if (fault != NULL_MISSING || cap > LK_MAX_LEN)
        return __real_lk_print_endpoint(endpoint, out, cap);
    memcpy(before, out, kept);
    len = __real_lk_print_endpoint(endpoint, out, cap);
    if (len >= 0 && (size_t)len < kept)
        out[len] = before[len];
    return len;
}

ptrdiff_t __wrap_lk_print_frame(const struct lk_frame *frame, char *out, size_t cap)
{
    struct lk_frame other = *frame;
    if (fault == NOTE_MISSING && frame->transport_checksum == LK_CHECKSUM_INVALID)
        other.transport_checksum = LK_CHECKSUM_VALID;
    if (fault == OFFSET_IN_UNITS)
        other.ip.fragment_offset /= 8;
    return __real_lk_print_frame(&other, out, cap);
}

const char *__wrap_lk_protocol_name(int protocol)
{
    return fault == SHORT_NAME_OF_OSPF && protocol == 89 ? "OSPF" : __real_lk_protocol_name(protocol);
}
