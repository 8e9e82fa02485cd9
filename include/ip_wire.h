/* ip_wire: Ethernet II, ARP, IPv4, IPv6, ICMP, UDP and TCP packets for C and C++. `lk_` stands for Lerkvist.
 *
 *     parse frames, packets      lk_read_frame, lk_read_packet, lk_read_captured; lk_is_valid: they may be used
 *     parse captures, VLAN tags  lk_read_linktype, lk_read_link
 *     TCP options, IPv6 headers  lk_find_tcp_options, lk_next_tcp_option, lk_next_ipv6_header
 *     print and name             lk_print_frame, lk_protocol_name, lk_ethertype_name, lk_tcp_flag_name
 *     reply                      lk_make_reply, and then write a frame
 *     write a frame              lk_emit_udp_frame, lk_emit_tcp_frame, lk_emit_icmp_frame, lk_emit_arp_frame
 *     write an IP packet (TUN)   lk_emit_udp_packet, lk_emit_tcp_packet, lk_emit_icmp_packet
 *     write before a payload     lk_wrap_udp_frame, lk_wrap_tcp_frame, lk_wrap_udp_packet, lk_wrap_tcp_packet
 *     write one layer            lk_emit_ethernet, lk_emit_arp, lk_emit_ip, lk_emit_udp, lk_emit_tcp, lk_emit_icmp
 *     edit in place              lk_set_addr, lk_set_port, lk_set_dscp, lk_set_hop_limit, lk_set_bytes, lk_clamp_mss
 *     checksums                  lk_fill_checksum of a frame, lk_checksum of bytes, lk_update_checksum and its kin
 *     normalize                  lk_rebuild
 *     answer as a host           lk_answer: ARP, neighbour discovery, ping, UDP echo, closed ports
 *     neighbours and groups      lk_find_ndisc, lk_emit_ndisc_frame, lk_find_mld_query, lk_emit_mld_report
 *     TCP connections            lk_connection_init and the other calls lk_connection_..
 *     route                      lk_index_routes, lk_choose_route, lk_check_source, lk_forward, lk_emit_icmp_error
 *     translate (NAT)            lk_translate_out, lk_translate_in with a table; lk_translate without one
 *     fragments                  lk_fragment, lk_reassemble, lk_expire_reassembly
 *     addresses                  lk_parse_addr, lk_print_addr, lk_parse_prefix, lk_parse_endpoint, lk_contains
 *     TCP sequence numbers       lk_add_seq, lk_subtract_seq, lk_compare_seq
 *     why a call failed          lk_reason_name, lk_failure_name, lk_rejection_name
 *     version and processor      lk_version, lk_cpu_supported
 *
 * What calls return:
 *
 *     calls                                 if they work                      if not
 *     lk_read_..                            LK_READ, which is 0               another `lk_reason`
 *     lk_find_.., lk_parse_..               1                                 0: nothing is stored
 *     lk_next_..                            1                                 0: the end; `is_malformed` says which
 *     lk_set_.., lk_fill_.., lk_clamp_..    1                                 0: the frame is unchanged
 *     with `out` and `cap`                  a length; 0: nothing to write     a failure, which is negative
 *     lk_forward, lk_translate..            LK_NOT_REJECTED, which is 0       another `lk_rejection`
 *     lk_check_source..                     LK_NOT_REJECTED                   another `lk_rejection`
 *     lk_choose_route..                     the place of a route, from 0 on   -1
 *     lk_connection_.. with a ring          a number, from 0 on               -1: the ring does not fit
 *
 * The library needs an x86-64-v2 processor (SSE4.2 and POPCNT). Call lk_cpu_supported() first if the
 * program may run on an older one: every other call may stop there with an illegal instruction. The header needs C99,
 * GNU C90 or C++, because C90 has no `inline`.
 *
 * - No call allocates memory, keeps a pointer, has state, or accesses memory outside of its arguments.
 *   Calls may run in many threads at once, if none writes memory that another one uses.
 * - What a call writes must not overlap another argument.
 * - A pointer may be null only if its length or `cap` is 0.
 * - A call that writes to `out` returns the length of its result, which begins at `out[0]`, or a failure, which is
 *   negative. After a failure `out` is unchanged.
 * - A length above LK_MAX_LEN is a mistake. A payload of that length is too long, an output has no room, and any other
 *   input counts as empty. Where an empty input is allowed (lk_answer, lk_emit_icmp_error, lk_index_routes,
 *   lk_make_route_table, lk_set_bytes), one of that length is a failure. The counts of routes, nodes, cells, mappings and
 *   reassemblies are such lengths too.
 * - lk_is_.., lk_contains and lk_cpu_supported return 1 for yes and 0 for no.
 * - Fields that an initializer leaves out are 0. A 0 in `version`, in a field `has_..` or in a count means
 *   that there is no such value. A hop limit of 0 is a failure, and so is a port of 0 where receivers reject
 *   it: all but the source port of UDP. A 0 in any other field is written as 0.
 *
 * A call that does something begins with its verb: `parse` and `print` are for texts, `read`, `find` and `emit` for
 * headers. A call that only tells something is named after it, as lk_tcp_header_len. All calls of a TCP connection
 * begin with lk_connection_. */
#ifndef IP_WIRE_H
#define IP_WIRE_H

#include <stddef.h>
#include <stdint.h>

#ifdef __cplusplus
extern "C" {
#endif

#define LK_VERSION_MAJOR 0
#define LK_VERSION_MINOR 5
#define LK_VERSION_PATCH 0

/* Returns the version of the library that is linked: major * 65536 + minor * 256 + patch. */
uint32_t lk_version(void);

/* Whether the processor has what the library needs. This call runs on every x86-64 processor. */
int lk_cpu_supported(void);

/* ---- failures ---- */

/* The longest input or output of a call, in bytes: 2^40 - 1. */
#define LK_MAX_LEN (((size_t)1 << 40) - 1)

/* Why a call wrote nothing. If several failures apply to a call, it is the first of them in this order; of lk_fragment
 * and lk_reassemble the first in their tables.
 *
 * The sum of a failure and lengths is negative too, if these lengths are together at most LK_MAX_LEN. As a `size_t`
 * the failure and the sum are above LK_MAX_LEN, so no call uses them as a length. lk_failure_name needs the failure
 * itself. */
#define LK_FAILURE(number) (-(ptrdiff_t)(number) * ((ptrdiff_t)1 << 40))
#define LK_NO_VERSION LK_FAILURE(1)       /* an address has another version than the call can write */
#define LK_TWO_VERSIONS LK_FAILURE(2)     /* one address is IPv4, the other IPv6 */
#define LK_BAD_PREFIX LK_FAILURE(3)       /* a prefix length above 32 for IPv4, above 128 for IPv6 */
#define LK_EMIT_PORT_ZERO LK_FAILURE(4)   /* a port is 0 where receivers reject it: all but the source port of UDP */
#define LK_NO_HOP_LIMIT LK_FAILURE(5)     /* the hop limit is 0 */
#define LK_BAD_FIELD LK_FAILURE(6)        /* a field of `struct lk_ip` that this header has no place for; an
                                           * identification or MTU of lk_fragment; a message of lk_emit_ndisc_frame */
#define LK_TWO_CONTROLS LK_FAILURE(7)     /* more than one of SYN, FIN and RST */
#define LK_OPTIONS_TOO_LONG LK_FAILURE(8) /* TCP options of more than 40 bytes, or more than 4 SACK ranges */
#define LK_PAYLOAD_TOO_LONG LK_FAILURE(9) /* the payload is longer than the length field can say, or than the memory of
                                           * lk_reassemble */
#define LK_NO_HEADER LK_FAILURE(10)       /* no frame: a length above LK_MAX_LEN, for lk_rebuild below 14; for
                                           * lk_fragment without a valid IP header, for lk_reassemble without a
                                           * valid fragment */
#define LK_NO_ROOM LK_FAILURE(11)         /* the result is longer than `cap` */
#define LK_DONT_FRAGMENT LK_FAILURE(12)   /* lk_fragment: the packet is longer than the MTU, and has DF or is
                                           * a forwarded IPv6 packet */
#define LK_DROPPED LK_FAILURE(13)         /* lk_reassemble: the fragments of the packet contradict each other */

/* Returns the name of a failure, as "LK_NO_ROOM", or "no failure", also for the sum of a failure and a length. The text
 * is constant. */
const char *lk_failure_name(ptrdiff_t failure);

/* A buffer that is filled from front to back:
 *
 *     struct lk_out out = {buffer, sizeof buffer, 0, 0};
 *     lk_append(&out, lk_emit_ethernet(&link, out.ptr, out.cap));
 *     lk_append(&out, lk_emit_arp(&arp, &src, &dst, out.ptr, out.cap));
 *     if (out.failure) ...
 *
 * After a failure there is no room left, so that nothing more is written. */
struct lk_out {
    uint8_t *ptr;      /* where the next call writes */
    size_t cap;        /* the room from there on */
    size_t len;        /* the number of bytes that were written */
    ptrdiff_t failure; /* the first failure; 0: none */
};

/* Advances `out` past what a call wrote, or stores the call's failure. */
static inline void lk_append(struct lk_out *out, ptrdiff_t written)
{
    if (written < 0) {
        if (out->failure == 0)
            out->failure = written;
        out->cap = 0;
    } else {
        out->ptr += written;
        out->cap -= (size_t)written;
        out->len += (size_t)written;
    }
}

/* ---- addresses ---- */

/* An IPv4 or IPv6 address. The struct has no padding: two values are equal exactly if their bytes are. */
struct lk_addr {
    uint8_t octets[16]; /* in network byte order; of IPv4 the first 4, and the others are 0 */
    uint16_t version;   /* 4 or 6; 0: no address */
};

/* An address with a port. The struct has no padding. */
struct lk_endpoint {
    struct lk_addr addr;
    uint16_t port;
};

/* A prefix (CIDR block): the addresses that have the first `prefix_len` bits of `addr`. The struct has no padding. */
struct lk_prefix {
    struct lk_addr addr;
    uint16_t prefix_len; /* at most 32 for IPv4, 128 for IPv6 */
};

/* A text is `len` bytes. lk_parse_.. parses the whole text, stores the value and returns 1. It returns 0 and
 * stores nothing if the text does not parse.
 *
 * Hex digits may have either case. Leading zeros are accepted and are decimal. The scope of an IPv6
 * address (%eth0) is rejected. Dotted decimal is accepted only at the end of an IPv4-mapped address. If such an address
 * has a `::`, `ffff` must follow it directly.
 *
 *   part of a text               accepted                                  rejected
 *   number of dotted decimal     1 to 3 digits: 01.002.3.4                 0001.2.3.4, 256.1.1.1
 *   group of IPv6                1 to 4 digits: 0001::                     00001::
 *   `::` of IPv6                 one, of 1 to 8 groups: 1:2:3:4:5:6:7::    1:2:3:4::5:6:7:8, 1::2::3
 *   dotted decimal in IPv6       ::ffff:1.2.3.4, 0::ffff:1.2.3.4,          ::0:ffff:1.2.3.4, ::0ffff:1.2.3.4, ::1.2.3.4,
 *                                0:0:0:0:0:ffff:1.2.3.4                    64:ff9b::1.2.3.4, 1:2:3:4:5:6:1.2.3.4
 *   prefix length                1 or 2 digits, of IPv6 1 to 3: ::/000     1.2.3.4/024, ::/0000, 1.2.3.4/33, 1.2.3.4/
 *   port                         1 to 5 digits: 1.2.3.4:00080              1.2.3.4:000080, 1.2.3.4:65536, 1.2.3.4:
 *   brackets                     an IPv6 address with a port: [::1]:80     [::1], [1.2.3.4]:80
 *   group of Ethernet            1 or 2 digits: 1-2-3-4-5-6                001-2-3-4-5-6, 1:2-3:4:5:6
 *
 * lk_print_.. writes a text and returns its length, without a terminating null. It writes the null too if
 * `cap` is more than the length. A buffer of LK_.._TEXT bytes always has room for both. */
#define LK_ADDR_TEXT 40
#define LK_PREFIX_TEXT 44
#define LK_ENDPOINT_TEXT 48
#define LK_MAC_TEXT 18

/* Parses an address. IPv4: four numbers of 1 to 3 digits, joined by '.'. IPv6: RFC 4291, section 2.2. */
int lk_parse_addr(const char *text, size_t len, struct lk_addr *addr);

/* Prints an address. Fails with LK_NO_VERSION. IPv6 is printed by RFC 5952, with dotted decimal only in IPv4-mapped
 * addresses. */
ptrdiff_t lk_print_addr(const struct lk_addr *addr, char *out, size_t cap);

/* Parses a prefix: an address, '/' and the prefix length, of 1 or 2 digits for IPv4, of 1 to 3 for IPv6. The address keeps
 * all its bits: it is not cut to the prefix. */
int lk_parse_prefix(const char *text, size_t len, struct lk_prefix *prefix);

/* Prints a prefix, with all bits of its address. Fails with LK_NO_VERSION or LK_BAD_PREFIX. */
ptrdiff_t lk_print_prefix(const struct lk_prefix *prefix, char *out, size_t cap);

/* Whether the address has the prefix. No address has a prefix of the other version, or one that is too long. */
int lk_contains(const struct lk_prefix *prefix, const struct lk_addr *addr);

/* Parses an endpoint: an address, ':' and a port of 1 to 5 digits, with an IPv6 address in brackets; or an address by
 * itself, without brackets, which has port 0. */
int lk_parse_endpoint(const char *text, size_t len, struct lk_endpoint *endpoint);

/* Prints an endpoint, also with port 0: of a packet without ports print the address (lk_print_addr). Fails with
 * LK_NO_VERSION. */
ptrdiff_t lk_print_endpoint(const struct lk_endpoint *endpoint, char *out, size_t cap);

/* Parses an Ethernet (MAC) address, 6 bytes: six groups of 1 or 2 hex digits, all joined by '-' or all by ':'. */
int lk_parse_mac(const char *text, size_t len, uint8_t *octets);

/* Prints an Ethernet (MAC) address: six pairs of hex digits in lower case, joined by '-'. */
ptrdiff_t lk_print_mac(const uint8_t *octets, char *out, size_t cap);

/* Whether the address is a multicast address (224.0.0.0/4, ff00::/8). */
int lk_is_multicast(const struct lk_addr *addr);

/* Whether the address is neither multicast, nor unspecified (0.0.0.0, ::), nor 255.255.255.255. Without a version
 * it is no unicast address. */
int lk_is_unicast(const struct lk_addr *addr);

/* ---- headers: stored by lk_read_.., and written by the calls lk_emit_.. ---- */

/* Lengths of headers without options, and of an ARP packet, in bytes. */
enum lk_header_len {
    LK_UDP_HEADER_LEN = 8,
    LK_ICMP_HEADER_LEN = 8,
    LK_ETHERNET_HEADER_LEN = 14,
    LK_IPV4_HEADER_LEN = 20,
    LK_TCP_HEADER_LEN = 20,
    LK_ARP_LEN = 28,
    LK_IPV6_HEADER_LEN = 40
};

/* EtherTypes (IANA, IEEE 802 numbers). The last three are those of VLAN tags. */
enum lk_ethertype {
    LK_ETHERTYPE_IPV4 = 0x0800,
    LK_ETHERTYPE_ARP = 0x0806,
    LK_ETHERTYPE_IPV6 = 0x86dd,
    LK_ETHERTYPE_VLAN = 0x8100,
    LK_ETHERTYPE_SERVICE_VLAN = 0x88a8,
    LK_ETHERTYPE_QINQ = 0x9100
};

/* IP protocols (IANA, protocol numbers). */
enum lk_protocol {
    LK_PROTOCOL_HOP_BY_HOP = 0,
    LK_PROTOCOL_ICMP = 1,
    LK_PROTOCOL_IGMP = 2,
    LK_PROTOCOL_TCP = 6,
    LK_PROTOCOL_UDP = 17,
    LK_PROTOCOL_IPV6 = 41,
    LK_PROTOCOL_IPV6_ROUTE = 43,
    LK_PROTOCOL_IPV6_FRAGMENT = 44,
    LK_PROTOCOL_ESP = 50,
    LK_PROTOCOL_AH = 51,
    LK_PROTOCOL_ICMPV6 = 58,
    LK_PROTOCOL_IPV6_NO_NEXT = 59,
    LK_PROTOCOL_IPV6_OPTIONS = 60,
    LK_PROTOCOL_SCTP = 132
};

/* Operations of ARP (RFC 826). */
enum lk_arp_operation {
    LK_ARP_REQUEST = 1,
    LK_ARP_REPLY = 2
};

/* Types of ICMP messages over IPv4 (RFC 792). */
enum lk_icmp_type {
    LK_ICMP_ECHO_REPLY = 0,
    LK_ICMP_UNREACHABLE = 3,
    LK_ICMP_SOURCE_QUENCH = 4,
    LK_ICMP_REDIRECT = 5,
    LK_ICMP_ECHO_REQUEST = 8,
    LK_ICMP_TIME_EXCEEDED = 11,
    LK_ICMP_PARAMETER_PROBLEM = 12
};

/* Codes of an ICMP error of the type unreachable over IPv4 (RFC 792; RFC 1812, section 5.2.7.1). */
enum lk_icmp_code {
    LK_ICMP_CODE_NET = 0,
    LK_ICMP_CODE_HOST = 1,
    LK_ICMP_CODE_PROTOCOL = 2,
    LK_ICMP_CODE_PORT = 3,
    LK_ICMP_CODE_FRAGMENTATION_NEEDED = 4,
    LK_ICMP_CODE_PROHIBITED = 13
};

/* Types of ICMP messages over IPv6 (RFC 4443; RFC 2710; RFC 4861). Those of errors are below 128. */
enum lk_icmpv6_type {
    LK_ICMPV6_UNREACHABLE = 1,
    LK_ICMPV6_PACKET_TOO_BIG = 2,
    LK_ICMPV6_TIME_EXCEEDED = 3,
    LK_ICMPV6_PARAMETER_PROBLEM = 4,
    LK_ICMPV6_ECHO_REQUEST = 128,
    LK_ICMPV6_ECHO_REPLY = 129,
    LK_ICMPV6_MLD_QUERY = 130,
    LK_ICMPV6_MLD_REPORT = 131,
    LK_ICMPV6_ROUTER_SOLICITATION = 133,
    LK_ICMPV6_ROUTER_ADVERTISEMENT = 134,
    LK_ICMPV6_NEIGHBOUR_SOLICITATION = 135,
    LK_ICMPV6_NEIGHBOUR_ADVERTISEMENT = 136,
    LK_ICMPV6_REDIRECT = 137
};

/* Codes of an ICMP error of the type unreachable over IPv6 (RFC 4443, section 3.1). */
enum lk_icmpv6_code {
    LK_ICMPV6_CODE_NO_ROUTE = 0,
    LK_ICMPV6_CODE_PROHIBITED = 1,
    LK_ICMPV6_CODE_ADDRESS = 3,
    LK_ICMPV6_CODE_PORT = 4
};

struct lk_ethernet {
    uint8_t src[6];
    uint8_t dst[6];
    uint16_t type; /* an `lk_ethertype`; up to 1500 it is the length of an IEEE 802.3 frame */
};

/* An ARP packet for Ethernet and IPv4 (RFC 826), without its IPv4 addresses. */
struct lk_arp {
    uint16_t operation; /* an `lk_arp_operation` */
    uint8_t src_hardware[6];
    uint8_t dst_hardware[6];
};

/* An IPv4 or IPv6 header without its addresses and lengths. */
struct lk_ip {
    uint32_t ident;           /* IPv4: 16 bits; IPv6: of the fragment header */
    uint32_t flow_label;      /* IPv6: 20 bits */
    uint16_t fragment_offset; /* in bytes, a multiple of 8 */
    uint8_t protocol;         /* an `lk_protocol`; of IPv6 that of the header that follows directly */
    uint8_t hop_limit;        /* 64 is usual; 0 is read, and cannot be written */
    uint8_t dscp;             /* 6 bits; of IPv6 those of the traffic class */
    uint8_t ecn;              /* 2 bits */
    uint8_t more_fragments;
    uint8_t dont_fragment;    /* IPv4 */
};

/* The flags of a TCP header. */
enum lk_tcp_flag {
    LK_FIN = 1,
    LK_SYN = 2,
    LK_RST = 4,
    LK_PSH = 8,
    LK_ACK = 16,
    LK_URG = 32,
    LK_ECE = 64,
    LK_CWR = 128
};

/* A TCP header (RFC 9293) without its ports, checksum and options. */
struct lk_tcp {
    uint32_t seq_number; /* of the first payload byte, or of SYN */
    uint32_t ack_number; /* the next expected number, if LK_ACK is set */
    uint16_t window_len; /* in bytes, before scaling */
    uint16_t urgent_at;  /* the urgent pointer */
    uint8_t flags;       /* a sum of `lk_tcp_flag` */
    uint8_t header_len;  /* in bytes, 20 to 60; of a rejected header what it says, 0 to 60; not used by the calls
                          * lk_emit_.. */
};

/* A range of received data (RFC 2018), from `left` up to `right`, without `right`. */
struct lk_sack_range {
    uint32_t left;
    uint32_t right;
};

/* The options of a TCP header (RFC 9293, RFC 2018, RFC 7323). A value with a field `has_..` is present if
 * that field is not 0. */
struct lk_tcp_options {
    struct lk_sack_range sack_ranges[4]; /* the first `sack_range_count` count */
    uint32_t tsval;                      /* the timestamp */
    uint32_t tsecr;                      /* the timestamp that it answers */
    uint16_t mss;                        /* in bytes */
    uint8_t window_scale;                /* in bits; at most 14 is read */
    uint8_t sack_permitted;
    uint8_t sack_range_count;            /* at most 4 */
    uint8_t has_mss;
    uint8_t has_window_scale;
    uint8_t has_timestamp;
};

/* The header of an ICMP message (RFC 792; over IPv6 RFC 4443) without its checksum. After it come the data of an echo,
 * or the beginning of the packet that an error is about. */
struct lk_icmp {
    uint32_t word; /* bytes 4 to 7: of an echo, identifier * 65536 + sequence number; of errors, an MTU or a pointer */
    uint8_t type;  /* an `lk_icmp_type`, over IPv6 an `lk_icmpv6_type` */
    uint8_t code;  /* an `lk_icmp_code` or `lk_icmpv6_code` if the type is unreachable */
};

/* A neighbour solicitation or advertisement (RFC 4861, sections 4.3 and 4.4). */
struct lk_ndisc {
    struct lk_addr target; /* an IPv6 address */
    uint8_t hardware[6];   /* the link-layer address option: of the source in a solicitation, else of the target */
    uint8_t has_hardware;  /* 1: there is this option */
    uint8_t is_advert;     /* 1: an advertisement */
    uint8_t is_router;     /* the flags of an advertisement: R, */
    uint8_t is_solicited;  /* S */
    uint8_t overrides;     /* and O */
};

/* ---- reading ---- */

enum lk_network { LK_NO_NETWORK, LK_ARP, LK_IPV4, LK_IPV6 };
enum lk_transport { LK_NO_TRANSPORT, LK_UDP, LK_TCP, LK_ICMP }; /* LK_ICMP: also ICMPv6 */

/* Why a header was rejected. If several reasons apply to it, it is the first of them in this order. If several
 * headers of a frame are wrong, the outermost of them is rejected, and no later header is parsed. */
enum lk_reason {
    LK_READ,         /* no header was rejected */
    LK_TOO_SHORT,    /* fewer bytes than the shortest header */
    LK_BAD_VERSION,  /* another version than the EtherType or link type names; a packet of neither version */
    LK_BAD_LENGTH,   /* a length field that does not fit */
    LK_OTHER_ARP,    /* ARP for other addresses than Ethernet and IPv4, by their types or lengths */
    LK_PORT_ZERO,    /* UDP: destination port 0; TCP: a port 0 */
    LK_BAD_FLAGS,    /* TCP: more than one of SYN, FIN and RST */
    LK_BAD_OPTIONS,  /* TCP: a malformed option before the end mark */
    LK_HEADER_CUT,   /* the header was not captured as a whole */
    LK_UNKNOWN_LINK, /* lk_read_link does not know the link type */
    LK_HOPS_LEFT,    /* IPv6: a routing header with segments left (RFC 8200, section 4.4) */
    LK_BAD_ORDER     /* IPv6: hop-by-hop options that do not follow the IPv6 header directly (RFC 8200, section 4.1) */
};

/* The number of reasons: the length of an array with a place for each. */
#define LK_REASON_COUNT 12

/* Returns the name of a reason, as "LK_PORT_ZERO", or "no reason". The text is constant. */
const char *lk_reason_name(int reason);

/* What a checksum says. */
enum lk_verdict {
    LK_CHECKSUM_NOT_READ, /* no such header was parsed, or only a UDP header whose length field does not fit */
    LK_CHECKSUM_VALID,
    LK_CHECKSUM_INVALID,
    LK_CHECKSUM_OMITTED,  /* UDP over IPv4: the sender computed none */
    LK_CHECKSUM_PARTIAL,  /* only the pseudo-header is summed: it is left to the device (checksum offload), and
                           * lk_fill_checksum sums the rest; it is invalid for lk_rebuild, lk_answer and NAT */
    LK_CHECKSUM_CUT       /* not all bytes that it covers were captured */
};

/* A frame. The fields of a header that is not there are 0. */
struct lk_frame {
    size_t network_offset;   /* of the ARP or IP header, from the first byte of the frame or packet */
    size_t transport_offset; /* of the UDP, TCP or ICMP header, also of a rejected one that is stored */
    size_t payload_offset;   /* of the payload */
    size_t payload_len;      /* ends within the frame, before its padding */
    size_t payload_captured; /* bytes of the payload that are at `ptr`: `payload_len`, or fewer if the frame was captured
                              * in part */
    struct lk_endpoint src;  /* the sender; the port is 0 unless a UDP or TCP header is stored, or begins in a fragment */
    struct lk_endpoint dst;
    struct lk_ip ip;
    struct lk_tcp tcp;
    struct lk_ethernet ethernet;
    struct lk_arp arp;
    uint8_t reason;             /* an `lk_reason` */
    uint8_t network;            /* an `lk_network`: the header that was read */
    uint8_t transport;          /* an `lk_transport`: the header that was read */
    uint8_t rejected;           /* an `lk_transport`: the header that was rejected, but is stored */
    uint8_t is_fragment;        /* 1: a part of an IP packet, so only ports of its payload are stored */
    uint8_t ipv4_checksum;      /* an `lk_verdict` */
    uint8_t transport_checksum; /* an `lk_verdict` */
    uint8_t protocol;           /* an `lk_protocol`: that of the transport header or the payload, after IPv6 extension
                                 * headers */
    uint8_t unused[4];          /* 0 */
    struct lk_icmp icmp;
};

/* Parses an Ethernet frame, stores its values, and returns LK_READ or why a header was rejected. A wrong
 * checksum is no reason to reject: a caller that trusts the payload must drop frames that are not valid (lk_is_valid).
 *
 * - The payload follows the last parsed header. It ends at the length in this header or in
 *   one before it, so padding is no payload.
 * - At a rejected header the values of the headers before it are stored, and the payload begins at the
 *   rejected header. `network` and `transport` name only headers that were read.
 * - The fields of a rejected UDP or TCP header are stored too, unless it is too short: `rejected` names it. RFC
 *   9293 needs them for RST. For a UDP header that is rejected as LK_BAD_LENGTH the verdict is
 *   LK_CHECKSUM_NOT_READ, because it does not say which bytes are summed.
 * - After an unknown EtherType or protocol all bytes are payload. A length of IEEE 802.3 counts as an unknown EtherType:
 *   the payload has the padding too. IPv4 options are skipped.
 * - IPv6 extension headers are stepped through: hop-by-hop options (0), routing (43), fragment (44), authentication (51)
 *   and destination options (60). `protocol` is the number of what follows them, and `ip.protocol` that in the IPv6
 *   header. No authentication is verified. At a header that is rejected `protocol` is its own number.
 * - The checksum of UDP or TCP is compared with the destination in the header. If an IPv4 source route has hops left
 *   (RFC 791), that is the next hop: the right checksum gets LK_CHECKSUM_INVALID, because it covers the last address of
 *   the route, and one over the next hop gets LK_CHECKSUM_VALID.
 * - An ICMP message is a packet of protocol 1 over IPv4, or 58 over IPv6, with at least 8 bytes. Its payload begins
 *   after these 8 bytes: it is the data of an echo, or the packet that an error quotes. No type or code is rejected,
 *   and the checksum is LK_CHECKSUM_VALID or LK_CHECKSUM_INVALID. A shorter message has no transport: all of it is
 *   payload. A packet that is quoted is a beginning: lk_read_captured_packet reads it, with LK_MAX_LEN as `len`.
 * - The values of an IPv6 fragment header are stored. If it is that of a fragment, `is_fragment` is 1, `protocol` is 44,
 *   and the payload begins at it. That of an atomic fragment, which is a whole packet (RFC 6946), is stepped through.
 * - Of the first fragment of a UDP or TCP packet the ports are stored, if these 4 bytes are there: `is_fragment` is 1 and
 *   `ip.fragment_offset` is 0. `transport` is LK_NO_TRANSPORT, and the payload begins as in other fragments. Over IPv6 the
 *   number of the protocol is its first byte. Later fragments have the ports 0. So has a first fragment with an extension
 *   header after its fragment header.
 * - An extension header that does not end within the packet is rejected with LK_TOO_SHORT.
 *
 * A loop over many short frames that are not in the caches, each in a buffer of its own, is faster if it
 * prefetches the first 128 bytes of the frame 8 places ahead (EXAMPLES in ip_wire(3)). */
int lk_read_frame(const uint8_t *ptr, size_t len, struct lk_frame *frame);

/* The same for a packet that begins with its IPv4 or IPv6 header: of a TUN device, of a capture of raw packets
 * or cooked frames, or after VLAN tags. `ethernet` is 0. A packet of neither version is rejected with
 * LK_BAD_VERSION, however short it is, but for one without bytes (LK_TOO_SHORT). Calls that take a frame, as lk_answer,
 * need LK_ETHERNET_HEADER_LEN bytes before it: see lk_set_addr. */
int lk_read_packet(const uint8_t *ptr, size_t len, struct lk_frame *frame);

/* The same two for a frame or packet of `len` bytes of which only the first `captured` are at `ptr`, as in a
 * capture with a snapshot length. Lengths in headers are compared with `len`, and the headers that are there are
 * stored as if all was there. If `captured` is more than `len`, only the first `len` bytes count. If one of the two is
 * above LK_MAX_LEN, it counts as 0.
 *
 * - A header that was not captured as a whole is rejected with LK_HEADER_CUT, unless the frame is too short for it
 *   (LK_TOO_SHORT). The fields of the headers before it are stored, and none of its own. No field of it is tested, but
 *   the version by which a packet is read. A packet of which no byte was captured has no version: LK_TOO_SHORT only if
 *   `len` is 0.
 * - Of these headers, fields are tested before LK_HEADER_CUT, if so many bytes were captured:
 *
 *   header                  bytes  tested                       stored
 *   IPv4 with options       20     version and lengths          nothing of it
 *   IPv6 extension header   8      its length (LK_TOO_SHORT)    nothing of it
 *   TCP with options        20     lengths, ports and flags     its fields; `rejected` is LK_TCP
 *
 * - If a TCP, UDP or ICMP checksum covers bytes that were not captured, its verdict is LK_CHECKSUM_CUT. But a UDP
 *   checksum of 0 is LK_CHECKSUM_OMITTED, or LK_CHECKSUM_INVALID over IPv6.
 * - An ICMP message of which fewer than 8 bytes were captured has no transport, and no header is rejected. A first
 *   fragment of which the ports were not captured has the ports 0.
 * - `payload_len` is that of the whole frame: the payload may end past the captured bytes. The first `payload_captured`
 *   bytes of it are at `ptr`. */
int lk_read_captured(const uint8_t *ptr, size_t captured, size_t len, struct lk_frame *frame);
int lk_read_captured_packet(const uint8_t *ptr, size_t captured, size_t len, struct lk_frame *frame);

/* Whether a receiver may use a frame that was read: no header was rejected, and no checksum is LK_CHECKSUM_INVALID. A
 * checksum may still be left out, left to the device, or not captured. Whether the frame is for the receiver is not
 * tested. */
static inline int lk_is_valid(const struct lk_frame *frame)
{
    return frame->reason == LK_READ && frame->ipv4_checksum != LK_CHECKSUM_INVALID
           && frame->transport_checksum != LK_CHECKSUM_INVALID;
}

/* Link types of capture files (www.tcpdump.org/linktypes.html). */
enum lk_linktype {
    LK_LINKTYPE_NULL = 0,
    LK_LINKTYPE_ETHERNET = 1,
    LK_LINKTYPE_RAW = 101,
    LK_LINKTYPE_LOOP = 108,
    LK_LINKTYPE_LINUX_SLL = 113,
    LK_LINKTYPE_IPV4 = 228,
    LK_LINKTYPE_IPV6 = 229,
    LK_LINKTYPE_LINUX_SLL2 = 276
};

/* A link-layer header. */
struct lk_link {
    size_t offset;     /* where the packet begins: the length of the header and its VLAN tags, in bytes */
    uint16_t type;     /* the EtherType of the packet; 0: the header has none. Below 0x0600 it is another number: the length
                        * of an IEEE 802.3 frame, or 1, 4 and others in a cooked header */
    uint16_t tags[2];  /* the control information of each tag, the outer one first: its low 12 bits are the VLAN */
    uint8_t tag_count; /* at most 2; the others of `tags` are 0 */
};

/* Parses the link-layer header of a packet of which `captured` bytes are at `ptr`, stores it and returns LK_READ.
 * `link_type` is an `lk_linktype`, from a capture file or from `pcap_datalink` of libpcap:
 *
 *   link type    name        header
 *   0            NULL        an address family, in either byte order
 *   1            ETHERNET    an Ethernet header
 *   12, 14, 101  RAW         none: the IP version is in the first byte of the packet
 *   108          LOOP        an address family, in network byte order
 *   113          LINUX_SLL   the header of Linux cooked captures, 16 bytes
 *   228, 229     IPV4, IPV6  none: the packet must have this version
 *   276          LINUX_SLL2  the second version of LINUX_SLL, 20 bytes
 *
 * - `type` is LK_ETHERTYPE_IPV4 for the address family 2, LK_ETHERTYPE_IPV6 for 10, 24, 28 and 30, and 0 for others.
 *   Without a header it is that of the version in the first byte of the packet.
 * - Of a cooked header it is the protocol field. It is 0 if the packet comes from a device for frame relay, radiotap
 *   or netlink (ARPHRD 770, 803 and 824), whose protocol field has another meaning.
 * - Up to two VLAN tags are skipped, of the types LK_ETHERTYPE_VLAN, LK_ETHERTYPE_SERVICE_VLAN and LK_ETHERTYPE_QINQ
 *   (IEEE 802.1Q). Before a third tag `type` is one of these, and the packet begins at the control information of that
 *   tag.
 *
 * Returns LK_UNKNOWN_LINK; LK_TOO_SHORT if the header or a tag is not there as a whole, or without a header if no byte is
 * there; or LK_BAD_VERSION if a packet without a header has no version of its link type. Then nothing is stored. */
int lk_read_link(uint32_t link_type, const uint8_t *ptr, size_t captured, struct lk_link *link);

/* The same as lk_read_captured for a packet of any link type that lk_read_link knows. Offsets count from `ptr`.
 * `ethernet.type` is the `type` of lk_read_link, also for a packet without a header. The Ethernet addresses are 0 for
 * other link types than 1.
 *
 * A header is rejected together with its tags, and the payload begins at `ptr` then. The reasons are those of
 * lk_read_link, and LK_HEADER_CUT instead of LK_TOO_SHORT if `len` has room for the header. `ethernet` is 0 then.
 *
 *     uint32_t link_type = (uint32_t)pcap_datalink(capture);
 *     while (pcap_next_ex(capture, &header, &bytes) == 1)
 *         if (lk_read_linktype(link_type, bytes, header->caplen, header->len, &frame) == LK_READ)
 *             ... bytes + frame.payload_offset, frame.payload_captured ... */
int lk_read_linktype(uint32_t link_type, const uint8_t *ptr, size_t captured, size_t len, struct lk_frame *frame);

#define LK_FRAME_TEXT 276

/* Prints one line of text for a frame that was read, and returns its length, without a terminating null. The null is
 * written too if `cap` is more than the length. A buffer of LK_FRAME_TEXT bytes always has room for both. Fails with
 * LK_NO_ROOM.
 *
 *     IPv4 192.0.2.1:46563 > 192.0.2.2:5353 UDP len=4 (partial checksum correct)
 *     IPv6 [2001:db8::2]:80 > [2001:db8::1]:60784 TCP syn seq=287454020 ack=2147721870 win=64240 len=0
 *     IPv4 192.0.2.1 > 192.0.2.2 ICMP type=8 code=0 len=5
 *     IPv4 192.0.2.1 > 192.0.2.2 proto=17 fragment=1480+ len=1480
 *     ARP 192.0.2.1 > 192.0.2.2 op=1 hardware=02-00-00-00-00-01 len=0
 *     Ethernet 02-00-00-00-00-01 > 02-00-00-00-00-02 type=0x0800 len=19 (too short)
 *
 * The line begins by what was read:
 *
 *   `network`       link-layer header               the line begins with
 *   LK_ARP                                          ARP, and the IPv4 addresses
 *   LK_IPV4                                         IPv4, and the addresses
 *   LK_IPV6                                         IPv6, and the addresses
 *   LK_NO_NETWORK   of Ethernet                     Ethernet, its addresses and its type
 *   LK_NO_NETWORK   another of lk_read_linktype     Ethernet, addresses of zeros, and the type of lk_read_link
 *   LK_NO_NETWORK   none, as of lk_read_packet      Ethernet 00-00-00-00-00-00 > 00-00-00-00-00-00 type=0x0000
 *   LK_NO_NETWORK   unknown, or rejected            the same: a program prints the link type, which no field has
 *
 * - The sender is before the receiver. There are ports if a UDP or TCP header is stored, also a rejected one, and none of
 *   a fragment.
 * - A UDP or TCP header that is rejected, but is stored, is printed as one that was read. Another protocol, a fragment and
 *   a header that is not stored have `proto`, which is `protocol`.
 * - Of the TCP flags `syn`, `fin`, `rst`, `psh`, `ece` and `cwr` are printed. If ACK is set, `ack` follows `seq`; if URG
 *   is set, `urg`, the urgent pointer, follows `win`.
 * - `hardware` is that of the sender. `fragment` is the offset in bytes, with `+` if more fragments follow.
 * - `len` is `payload_len`. It counts from a rejected header on.
 * - Notes are in parentheses: (header checksum incorrect) for IPv4; then (checksum incorrect), (no checksum) for
 *   LK_CHECKSUM_OMITTED, (partial checksum correct) for LK_CHECKSUM_PARTIAL, or (checksum cut); then the reason why a
 *   header was rejected, as (bad length) for LK_BAD_LENGTH. */
ptrdiff_t lk_print_frame(const struct lk_frame *frame, char *out, size_t cap);

/* Return the name of an IP protocol, as "UDP" for 17, or of an EtherType, as "IPv6" for 0x86dd, or "unknown". The texts
 * are constant. 26 protocols have names: their keywords in IANA's registry of protocol numbers, as "OSPFIGP" for 89. */
const char *lk_protocol_name(int protocol);
const char *lk_ethertype_name(int type);

/* Returns the name of one flag of `lk_tcp_flag`, as "SYN", or "unknown". The text is constant. */
const char *lk_tcp_flag_name(int flag);

/* Where a header of an IPv6 packet is. */
struct lk_ipv6_header {
    uint32_t offset;      /* of its first byte in the packet */
    uint16_t len;         /* of the whole header, in bytes; 0: before the first header */
    uint8_t protocol;     /* its own number, an `lk_protocol`; LK_PROTOCOL_IPV6: the IPv6 header */
    uint8_t next;         /* the number of what follows it; LK_PROTOCOL_IPV6_NO_NEXT: nothing */
    uint8_t is_malformed; /* 1: lk_next_ipv6_header returned 0 because the next header is malformed */
};

/* Steps to the next header of an IPv6 packet: first to the IPv6 header, then to its extension headers (RFC 8200, section
 * 4; RFC 4302), which are hop-by-hop options (0), routing (43), fragment (44), authentication (51) and destination options
 * (60). `ptr` is the first byte of the packet. Begin with a struct of zeros.
 *
 * Returns 1, or 0 at the end; then only `is_malformed` is stored. `is_malformed` is 1 if the IPv6 header is not there
 * as a whole or has another version, or if the next header does not end within the packet and its `len` captured bytes.
 *
 * At the end the packet of protocol `next` begins at `offset + len`. After the header of a fragment that is not the first
 * `next` is LK_PROTOCOL_IPV6_NO_NEXT, because there the payload begins in the middle of the packet. Hop-by-hop options
 * that do not follow the IPv6 header directly are a header as the others, and so is a routing header with segments
 * left: lk_read_packet rejects both.
 *
 *     struct lk_ipv6_header header = {0, 0, 0, 0, 0};
 *     while (lk_next_ipv6_header(ptr, len, &header))
 *         ... ptr[header.offset] ...
 *     if (!header.is_malformed && header.next == LK_PROTOCOL_UDP)
 *         ... ptr[header.offset + header.len] ... */
int lk_next_ipv6_header(const uint8_t *ptr, size_t len, struct lk_ipv6_header *header);

/* Finds and stores the options of a TCP header. `ptr` is its first byte and `len` its length: in a frame that was read,
 * `frame + f.transport_offset` and `f.tcp.header_len`. Returns 1, or 0 if an option before the end mark is malformed, or
 * the header is shorter than 20 bytes or than it says; then nothing is stored. Of each kind the last option counts. An
 * option is malformed if it passes the header, or has another length than these:
 *
 *   kind     option                 length                stored
 *   0        end mark               1, without a length   nothing; what follows does not count
 *   1        no operation           1, without a length   nothing
 *   2        maximum segment size   4                     `mss`
 *   3        window scale           3                     `window_scale`; 14 for numbers above 14
 *   4        SACK permitted         2                     `sack_permitted`
 *   5        SACK                   10, 18, 26 or 34      `sack_ranges`, those of this option only
 *   8        timestamps             2 or more             `tsval` and `tsecr` if the length is 10, else nothing
 *   others                          2 or more             nothing */
int lk_find_tcp_options(const uint8_t *ptr, size_t len, struct lk_tcp_options *options);

/* Parses an Ethernet frame as lk_read_frame does, with the same result, and stores the options of its TCP header in
 * `options`. They are all zeros if no TCP header was read: the frame has none, is a fragment, or a header was rejected.
 * A frame with a malformed option is rejected with LK_BAD_OPTIONS. */
int lk_read_frame_options(const uint8_t *ptr, size_t len, struct lk_frame *frame, struct lk_tcp_options *options);

/* Where an option of a TCP header is. */
struct lk_tcp_option {
    uint8_t offset;       /* of its first byte in the header; 0: before the first option */
    uint8_t kind;         /* 0: the end mark, 1: padding; the data of the others begins after 2 bytes */
    uint8_t len;          /* of the whole option, in bytes */
    uint8_t is_malformed; /* 1: lk_next_tcp_option returned 0 because the next option is malformed */
};

/* Steps to the next option of a TCP header. `ptr` and `len` are as for lk_find_tcp_options. Begin with a struct of zeros.
 * Options of every kind are stored, in their order, with padding. Nothing follows the end mark.
 *
 * Returns 1, or 0 at the end; then only `is_malformed` is stored. `is_malformed` is 1 if the next option is malformed,
 * or if the header is shorter than 20 bytes or than it says.
 *
 *     struct lk_tcp_option option = {0, 0, 0, 0};
 *     while (lk_next_tcp_option(ptr, len, &option))
 *         ... ptr[option.offset] ... */
int lk_next_tcp_option(const uint8_t *ptr, size_t len, struct lk_tcp_option *option);

/* ---- writing ---- */

/* Turns a frame that was read into its reply, in place: Ethernet addresses, endpoints and ARP's hardware addresses
 * are exchanged. The IP header becomes that of a new packet: hop limit 64, ECN 0, identification 0 with DF, no flow
 * label, no fragment. These values are stored for ARP and IPv6 too, where `dont_fragment` is not used. All else stays,
 * DSCP and the fields of ARP, TCP and ICMP among it. */
void lk_make_reply(struct lk_frame *frame);

/* Writes a whole frame with a UDP packet: Ethernet header, IPv4 or IPv6 header, UDP header and the `len`
 * bytes at `ptr`. Uses `ethernet.src`, `ethernet.dst`, `src`, `dst` and `ip` of `headers`; EtherType,
 * protocol, lengths and checksums are filled in. Returns the length of the frame, or a failure:
 *
 * - LK_NO_VERSION and LK_TWO_VERSIONS,
 * - LK_EMIT_PORT_ZERO: the destination port is 0,
 * - LK_NO_HOP_LIMIT and LK_BAD_FIELD, as by lk_emit_ip, or if `ip` says that the packet is a fragment,
 * - LK_PAYLOAD_TOO_LONG: `len` is above 65507 over IPv4, above 65527 over IPv6,
 * - LK_NO_ROOM. */
ptrdiff_t lk_emit_udp_frame(const struct lk_frame *headers, const uint8_t *ptr, size_t len, uint8_t *out,
                            size_t cap);

/* The same with a TCP segment. Uses `tcp` of `headers` too. `options` of zeros are none. Fails also with
 * LK_EMIT_PORT_ZERO if the source port is 0, and with LK_TWO_CONTROLS and LK_OPTIONS_TOO_LONG. Header and payload have
 * at most 65515 bytes over IPv4, 65535 over IPv6. */
ptrdiff_t lk_emit_tcp_frame(const struct lk_frame *headers, const struct lk_tcp_options *options,
                            const uint8_t *ptr, size_t len, uint8_t *out, size_t cap);

/* Writes the headers of a frame with UDP or TCP before a payload that is in `out` already. Returns the length of the whole
 * frame, with the payload, or a failure.
 *
 * The payload has `len` bytes. It begins after LK_ETHERNET_HEADER_LEN bytes, then LK_IPV4_HEADER_LEN or LK_IPV6_HEADER_LEN,
 * then LK_UDP_HEADER_LEN or lk_tcp_header_len(options). The result is that of lk_emit_.._frame with the same payload. */
ptrdiff_t lk_wrap_udp_frame(const struct lk_frame *headers, size_t len, uint8_t *out, size_t cap);
ptrdiff_t lk_wrap_tcp_frame(const struct lk_frame *headers, const struct lk_tcp_options *options,
                            size_t len, uint8_t *out, size_t cap);

/* Writes a whole frame with an ICMP message, as lk_emit_udp_frame does with a UDP packet: the header `icmp` of `headers`
 * and the `len` bytes at `ptr`, at most 65507 over IPv4 and 65527 over IPv6. Uses `ethernet.src`, `ethernet.dst`,
 * `src.addr`, `dst.addr`, `ip` and `icmp`. The type is an `lk_icmp_type`, over IPv6 an `lk_icmpv6_type`, with other
 * numbers. The protocol is filled in: 1 over IPv4, 58 over IPv6. */
ptrdiff_t lk_emit_icmp_frame(const struct lk_frame *headers, const uint8_t *ptr, size_t len, uint8_t *out,
                             size_t cap);

/* Write an IP packet without Ethernet, for a TUN device, a raw socket or a tunnel: what the call that ends in `_frame`
 * writes after its Ethernet header. `ethernet` of `headers` is not used. Each returns the length of the packet, or a failure
 * for the same reasons. lk_read_packet parses the packet.
 *
 * For lk_wrap_udp_packet and lk_wrap_tcp_packet the payload begins after LK_IPV4_HEADER_LEN or LK_IPV6_HEADER_LEN bytes,
 * then LK_UDP_HEADER_LEN or lk_tcp_header_len(options). */
ptrdiff_t lk_emit_udp_packet(const struct lk_frame *headers, const uint8_t *ptr, size_t len, uint8_t *out, size_t cap);
ptrdiff_t lk_emit_tcp_packet(const struct lk_frame *headers, const struct lk_tcp_options *options, const uint8_t *ptr,
                             size_t len, uint8_t *out, size_t cap);
ptrdiff_t lk_emit_icmp_packet(const struct lk_frame *headers, const uint8_t *ptr, size_t len, uint8_t *out, size_t cap);
ptrdiff_t lk_wrap_udp_packet(const struct lk_frame *headers, size_t len, uint8_t *out, size_t cap);
ptrdiff_t lk_wrap_tcp_packet(const struct lk_frame *headers, const struct lk_tcp_options *options, size_t len,
                             uint8_t *out, size_t cap);

/* Returns the length of a TCP header with these options, 20 to 60, or LK_OPTIONS_TOO_LONG. */
ptrdiff_t lk_tcp_header_len(const struct lk_tcp_options *options);

/* Writes a whole frame, 42 bytes, with the ARP packet of `arp`, `src.addr` and `dst.addr`. Fails with LK_NO_VERSION
 * unless both are IPv4 addresses, and with LK_NO_ROOM. */
ptrdiff_t lk_emit_arp_frame(const struct lk_frame *headers, uint8_t *out, size_t cap);

/* The layers one by one. Each writes one header, or a header with its payload, at `out[0]`. The failures are those of
 * lk_emit_.._frame. If `computed` is 0, the checksum is 0. Else it is the complement of the sum:
 *
 *   checksum    of                                                         if it is 0
 *   IPv4        the header                                                 0
 *   UDP         pseudo-header, header and payload                          0xffff (RFC 768)
 *   TCP         pseudo-header, header and payload                          0
 *   ICMP        header and payload, over IPv6 with the pseudo-header       0 */

/* Writes an Ethernet header, 14 bytes. */
ptrdiff_t lk_emit_ethernet(const struct lk_ethernet *header, uint8_t *out, size_t cap);

/* Writes an ARP packet, 28 bytes. */
ptrdiff_t lk_emit_arp(const struct lk_arp *header, const struct lk_addr *src, const struct lk_addr *dst,
                      uint8_t *out, size_t cap);

/* Writes an IPv4 header of 20 bytes or an IPv6 header of 40 bytes, by the version of the addresses, for
 * a payload of `payload_len` bytes: at most 65515 for IPv4 and 65535 for IPv6. `protocol` is written as it is, while
 * lk_emit_.._frame writes that of its packet. Fails with LK_BAD_FIELD if
 *
 * - `dscp` is more than 63 or `ecn` more than 3,
 * - IPv4: `ident` is more than 65535, or `fragment_offset` is no multiple of 8,
 * - IPv6: `flow_label` is more than 1048575, or `ident`, `fragment_offset` or `more_fragments` is not 0,
 *   since no fragment header is written.
 *
 * `flow_label` is not used for IPv4, and `dont_fragment` is not used for IPv6. */
ptrdiff_t lk_emit_ip(const struct lk_ip *header, const struct lk_addr *src, const struct lk_addr *dst,
                     size_t payload_len, int computed, uint8_t *out, size_t cap);

/* Writes a UDP header and the `len` bytes at `ptr`, at most 65527. */
ptrdiff_t lk_emit_udp(const struct lk_endpoint *src, const struct lk_endpoint *dst, const uint8_t *ptr,
                      size_t len, int computed, uint8_t *out, size_t cap);

/* Writes a TCP header with its options and the `len` bytes at `ptr`, together at most 65535. `ack_number` and
 * `urgent_at` are written whatever the flags are. The options are written in this order:
 *
 *   kind   bytes                        written
 *   2      4                            if `has_mss` is not 0
 *   3      3                            if `has_window_scale` is not 0; `window_scale` whatever it is
 *   4      2                            if `sack_permitted` is not 0
 *   5      2 + 8 * `sack_range_count`   if `sack_range_count` is not 0 and `sack_permitted` is 0, whatever the flags are
 *   8      10                           if `has_timestamp` is not 0
 *   0      the rest                     zeros up to a multiple of 4; beside `sack_permitted` the header is as long as
 *                                       with the SACK ranges, which become zeros at its end */
ptrdiff_t lk_emit_tcp(const struct lk_tcp *header, const struct lk_tcp_options *options,
                      const struct lk_endpoint *src, const struct lk_endpoint *dst, const uint8_t *ptr,
                      size_t len, int computed, uint8_t *out, size_t cap);

/* Writes the header of an ICMP message and the `len` bytes at `ptr`, at most 65527. Between IPv6 addresses the checksum
 * covers a pseudo-header too. */
ptrdiff_t lk_emit_icmp(const struct lk_icmp *header, const struct lk_addr *src, const struct lk_addr *dst,
                       const uint8_t *ptr, size_t len, int computed, uint8_t *out, size_t cap);

/* ---- checksums and sequence numbers ---- */

/* Returns the Internet checksum (RFC 1071) before its complement: the one's complement sum of the 16-bit
 * big-endian words. An odd last byte is the high byte of a word. The sum is 0 only if every byte is 0. */
uint16_t lk_checksum(const uint8_t *ptr, size_t len);

/* Return the checksum field after a part of what it covers changed from `before` to `after` (RFC 1624): a 16-bit
 * word at an even offset, as a port, or an address of the pseudo-header or of the IPv4 header, which counts as the sum
 * of its words (lk_checksum). Call once for each changed part. For other parts there is lk_update_checksum_bytes.
 *
 *   call               field    result: `sum` is ~checksum + ~before + after in one's complement (RFC 1624, equation 3)
 *   of IPv4, TCP, ICMP any      ~sum: 0xffff only if its terms are 0; 0xffff becomes 0 if nothing changes
 *   of UDP             0        0: there is no checksum
 *   of UDP             others   ~sum, but 0xffff instead of 0 (RFC 768)
 *
 * An ICMP message whose other bytes are all 0, an echo reply over IPv4, verifies only with 0xffff: in ICMP write 0xffff
 * instead of 0.
 *
 * A field of LK_CHECKSUM_PARTIAL is the sum of the pseudo-header, and not its complement. After an address changed it is
 * `(uint16_t)~lk_update_checksum_addr((uint16_t)~field, &before, &after)`. Ports and payload are not in it. The calls
 * lk_set_.. know such a field. */
uint16_t lk_update_checksum(uint16_t checksum, uint16_t before, uint16_t after);
uint16_t lk_update_checksum_addr(uint16_t checksum, const struct lk_addr *before, const struct lk_addr *after);
uint16_t lk_update_udp_checksum(uint16_t checksum, uint16_t before, uint16_t after);
uint16_t lk_update_udp_checksum_addr(uint16_t checksum, const struct lk_addr *before, const struct lk_addr *after);

/* Return the checksum field after bytes that it covers were replaced, at any offset: those at `before` by those at
 * `after` (RFC 1624). `offset` is that of the first one in the IPv4, TCP, UDP or ICMP header and its payload. If it is
 * odd, this byte is the low one of a word (RFC 1071, section 2 B), as that of an MSS after one no-operation:
 *
 *     const uint8_t before[2] = {option[2], option[3]};
 *     option[2] = 1220 >> 8;
 *     option[3] = 1220 & 255;
 *     checksum = lk_update_checksum_bytes(checksum, (size_t)(option + 2 - tcp), before, 2, option + 2, 2);
 *
 * The lengths are equal or differ by an even number, unless nothing follows the bytes. Length fields that change too
 * have their own calls. The second call is for UDP, as lk_update_udp_checksum. */
uint16_t lk_update_checksum_bytes(uint16_t checksum, size_t offset, const uint8_t *before, size_t before_len,
                                  const uint8_t *after, size_t after_len);
uint16_t lk_update_udp_checksum_bytes(uint16_t checksum, size_t offset, const uint8_t *before, size_t before_len,
                                      const uint8_t *after, size_t after_len);

/* TCP sequence numbers, modulo 2^32 (RFC 9293, section 3.4). */

/* Returns the number `steps` after `seq`. */
uint32_t lk_add_seq(uint32_t seq, uint32_t steps);

/* Returns how far `a` is after `b`; below 0 if it is before `b`. At a distance of 2^31 it is -2^31. */
int32_t lk_subtract_seq(uint32_t a, uint32_t b);

/* Returns -1 if `a` is before `b`, 0 if they are equal, 1 if it is after. At a distance of 2^31 each is
 * before the other. */
int lk_compare_seq(uint32_t a, uint32_t b);

/* ---- rebuilding ---- */

/* Parses an Ethernet frame, emits each header again from its values, and returns the length of this
 * rebuilt frame, which is at most `len`: a `cap` of `len` always suffices. Fails with LK_NO_HEADER if `len` is
 * less than 14, and with LK_NO_ROOM.
 *
 * These fields change:
 *
 *   header    field                               change             consequence
 *   Ethernet  padding                             removed            a short frame is padded again before it is sent
 *   IPv4      IHL                                 becomes 5          no options follow
 *   IPv4      DSCP and ECN                        becomes 0          marks of priority and congestion are lost
 *   IPv4      total length and header checksum    computed
 *   IPv4      identification                      becomes 0          a later fragment could not be told from others
 *   IPv4      reserved flag                       becomes 0          it has no meaning (RFC 791)
 *   IPv4      DF                                  becomes 1          a router drops the packet if it is too long
 *   IPv4      options                             removed            a source route ends at its next address
 *   IPv6      traffic class and flow label        becomes 0          marks of priority, congestion and flow are lost
 *   IPv6      payload length                      computed
 *   IPv6      payload of a jumbogram              removed            only the header is left (RFC 2675)
 *   UDP       bytes after the length              removed            UDP options are lost
 *   UDP       checksum of 0                       computed           it does not protect the path up to here
 *   TCP       acknowledgement number without ACK  becomes 0          it has no meaning (RFC 9293, section 3.1)
 *   TCP       data offset and checksum            computed
 *   TCP       reserved bits                       becomes 0          one is AE: AccECN does not report congestion
 *   TCP       CWR and ECE                         becomes 0          ECN is not negotiated, congestion not reported
 *   TCP       URG and urgent pointer              becomes 0          urgent data is no longer marked
 *   TCP       PSH beside SYN, FIN or RST          becomes 0          FIN implies PSH (RFC 9293, section 3.10.7.4)
 *   TCP       options of other kinds              removed            MPTCP is not used; a TCP-AO segment is dropped
 *   TCP       timestamps of other than 10 bytes   removed            they have no meaning (RFC 7323, section 3.2)
 *   TCP       options but the last of each kind   removed            a receiver may use the first one instead
 *   TCP       no-operation options                removed            options may no longer be aligned
 *   TCP       bytes after the end mark            removed            they have no meaning (RFC 9293, section 3.1)
 *   TCP       order of options                    sorted by kind     it has no meaning
 *   TCP       window scale above 14               becomes 14         a receiver uses 14 too (RFC 7323, section 2.3)
 *   TCP       SACK ranges beside SACK permitted   replaced by zeros  no segment may have both (RFC 2018, section 2)
 *   TCP       SACK ranges without ACK             replaced by zeros  only an ACK has ranges (RFC 2018, section 4)
 *
 * All other fields are kept. Options of other kinds are those that `struct lk_tcp_options` has no field for. Zeros
 * are end marks: with those instead of SACK ranges the header keeps its length.
 *
 * Copied unchanged, with the padding after it, is
 *
 * - an ARP, IPv4 or IPv6 packet that does not parse, or has a wrong IPv4 header checksum,
 * - a fragment of an IPv4 packet,
 * - the payload of any other EtherType.
 *
 * Copied unchanged after a rebuilt IP header, without padding, is
 *
 * - a UDP or TCP packet that does not parse, or has a wrong checksum,
 * - the payload of any other protocol, such as an IPv6 extension header with what follows. */
ptrdiff_t lk_rebuild(const uint8_t *ptr, size_t len, uint8_t *out, size_t cap);

/* ---- neighbour discovery ---- */

/* Finds a neighbour solicitation or advertisement in an Ethernet frame, and stores it. Returns 1, or 0 if the frame carries
 * none that is valid (RFC 4861, sections 7.1.1 and 7.1.2); then nothing is stored:
 *
 * - The hop limit must be 255, the checksum right, and the code 0.
 * - The message must follow the IPv6 header directly: one after extension headers is ignored (RFC 6980, section 5, says so
 *   of fragment headers).
 * - The target must be no multicast address. Each option must have a length above 0 and end within the message.
 * - The first link-layer address option (source in a solicitation, target in an advertisement) must have 8 bytes.
 *   Later ones and options of other kinds are skipped.
 * - A solicitation from `::` must be for a solicited-node group, without the option.
 * - An advertisement for a multicast address must not be solicited. */
int lk_find_ndisc(const uint8_t *frame, size_t len, struct lk_ndisc *ndisc);

/* Writes a whole frame with a neighbour solicitation or advertisement, 78 bytes, or 86 with the option. Uses
 * `ethernet.src`, `ethernet.dst`, `src.addr` and `dst.addr` of `headers`. The hop limit is 255; traffic class and flow
 * label are 0. Fails with LK_NO_VERSION unless `src.addr`, `dst.addr` and `target` are IPv6 addresses, with LK_BAD_FIELD
 * if lk_find_ndisc would reject the message for its addresses or flags, and with LK_NO_ROOM. */
ptrdiff_t lk_emit_ndisc_frame(const struct lk_frame *headers, const struct lk_ndisc *ndisc, uint8_t *out, size_t cap);

/* ---- multicast listener discovery ---- */

/* Writes a whole frame, 86 bytes, with a report of version 1 (RFC 2710): a host says that it listens to a multicast group.
 * A switch with MLD snooping sends the frames for a group, as neighbour solicitations, only where it got reports. Send it
 * when an interface comes up, and after each query that lk_find_mld_query finds. Queriers of version 2 take it too (RFC
 * 3810, section 8.3).
 *
 * Uses `ethernet.src`, `src.addr` and `dst.addr` of `headers`. `dst.addr` is the group, and the frame goes to its Ethernet
 * address (RFC 2464, section 7). `src.addr` is a link-local address, or `::` if there is none (RFC 3590, section 4). The
 * hop limit is 1, and hop-by-hop options have the router alert (RFC 2711). Fails with LK_NO_VERSION unless both are IPv6
 * addresses, and with LK_NO_ROOM. That `dst.addr` is a multicast address is not checked. */
ptrdiff_t lk_emit_mld_report(const struct lk_frame *headers, uint8_t *out, size_t cap);

/* A query of multicast listener discovery. */
struct lk_mld_query {
    uint32_t max_delay; /* the maximum response delay, in milliseconds: up to 65535 */
};

/* Finds a query that asks for a multicast group in an Ethernet frame, and stores it: report the group after a random part
 * of `max_delay` (RFC 2710, section 4). Returns 1, or 0 if the frame has no valid query (section 5) of version 1 or 2 for
 * all groups or for this one; then nothing is stored:
 *
 * - The IPv6 source must be a link-local address, in fe80::/10, and the hop limit 1 (RFC 3810, section 6.2).
 * - The ICMPv6 message may follow extension headers. The router alert option is not required.
 * - The message must have 24 bytes, or 28 or more (RFC 3810, section 8.1), and a valid checksum.
 * - A delay of version 2 above 32767 has an exponent (RFC 3810, section 5.1.3). It is stored as that of version 1, which
 *   is not longer. */
int lk_find_mld_query(const uint8_t *frame, size_t len, const struct lk_addr *group, struct lk_mld_query *query);

/* ---- a host ---- */

/* A host with one interface and no connections. */
struct lk_host {
    const uint16_t *open_ports;     /* the open TCP ports */
    size_t open_port_count;         /* as many must be there: a count is not compared with LK_MAX_LEN */
    const uint16_t *open_udp_ports; /* the UDP ports that the caller serves: what they get is not answered, */
    size_t open_udp_port_count;     /* but at `echo_port`; as many must be there too */
    struct lk_addr ipv4;            /* an IPv4 address; 0.0.0.0, which is {{0}, 4}: none */
    struct lk_addr ipv6;            /* an IPv6 address; `::`, which is {{0}, 6}: none */
    uint8_t hardware[6];            /* an Ethernet address */
    uint16_t echo_port;             /* the UDP port that echoes, to higher ports from 1024 on; 0: none */
    /* what an open port sends */
    uint32_t seq_number;            /* hard to guess, another for each connection (RFC 9293, section 3.4.1) */
    uint32_t tsval;                 /* the timestamp */
    uint16_t window_len;            /* in bytes; not scaled, because it is sent with SYN */
    uint16_t mss;                   /* in bytes */
    uint8_t window_scale;           /* in bits; more than 14 is sent as 14 */
    /* what its neighbour advertisements say */
    uint8_t is_router;              /* not 0: it forwards packets; sets R (RFC 4861, section 7.2.4) */
};

/* Writes the answer of a host to an Ethernet frame. Returns its length, or 0 if the frame gets no answer. A `cap`
 * of `len` + 48 always suffices. Fails with LK_NO_VERSION if `ipv4` is no IPv4 address or `ipv6` no IPv6 address,
 * with LK_NO_HEADER if `len` is above LK_MAX_LEN, and with LK_NO_ROOM.
 *
 *   frame                                  answer
 *   an ARP request for `ipv4`              an ARP reply
 *   a neighbour solicitation for `ipv6`    a neighbour advertisement (RFC 4861, section 7.2.4)
 *   an echo request with code 0            an echo reply with the same data (RFC 1122, 3.2.2.6; RFC 4443, 4.2)
 *   a UDP packet to `echo_port`            the same payload, to its sender (RFC 862)
 *   a UDP packet to a closed port          an ICMP error, port unreachable (RFC 1122, 4.1.3.1; RFC 4443, 3.1)
 *   an IPv6 packet with a faulty header    an ICMP error, parameter problem (RFC 8200, section 4; RFC 4443, 3.4)
 *   a faulty IPv6 fragment                 the same (RFC 8200, section 4.5)
 *   SYN without ACK to an open TCP port    SYN and ACK (RFC 9293, section 3.10.7.2)
 *   ACK without RST to an open TCP port    RST
 *   any but RST to a closed TCP port       RST (section 3.10.7.1)
 *
 * - A frame gets an answer only if it is parsed as a whole and each checksum in it is valid. UDP over IPv4 may leave
 *   its checksum out.
 * - IPv6 extension headers without a fault are skipped (RFC 8200, section 4), also the fragment header of a whole packet
 *   (RFC 6946). The answer is that to the same packet without them, and has none. An ICMP error quotes them.
 * - Echo requests, UDP and TCP must be for `hardware` and one of the two addresses. They and solicitations must be
 *   from a unicast hardware address. The sender hardware address in ARP must be unicast, and the reply goes to it.
 * - No single host has an address in 0.0.0.0/8, 127.0.0.0/8, 224.0.0.0/4, 240.0.0.0/4, ::ffff:0:0/96 or ff00::/8, or
 *   `::` or `::1` (RFC 1122, section 3.2.1.3; RFC 4291, section 2). If `ipv4` or `ipv6` is one of them, nothing for it
 *   gets an answer: 0.0.0.0 is right for a host without IPv4.
 * - No frame from one of them gets an answer, nor from `ipv4` or `ipv6`. But an ARP probe from 0.0.0.0 gets one
 *   (RFC 5227, section 2.1.1), and a solicitation from `::`.
 * - A UDP packet for `echo_port` gets none if its source port is below 1024, or not above `echo_port`. So neither two
 *   hosts nor a host and a service (RFC 862 to 868) reply to each other forever. Choose an `echo_port` below the ports
 *   of its clients. It echoes also if it is one of `open_udp_ports`.
 * - SYN and ACK has `mss`. It has window scale, SACK permitted and timestamp if the SYN has them.
 * - No connection is kept: what follows the SYN gets RST, with window 0 and without options.
 * - The answer is a new IP packet, as that of lk_make_reply. An echo reply has the DSCP of the request (RFC 1812, section
 *   4.3.2.5), any other answer has DSCP 0.
 * - A solicitation must be valid for lk_find_ndisc, so it gets no answer after extension headers. It is sent to `ipv6`
 *   and `hardware`, or to the solicited-node group of `ipv6` and the hardware address of the group or `hardware` (RFC
 *   6085). The advertisement goes to the unicast hardware address in the option, or to the sender of the frame; for a
 *   solicitation from `::` to all nodes.
 * - ICMP errors are written as by lk_emit_icmp_error.
 * - A parameter problem is about the first fault of the extension headers of a packet for `ipv6`. Its pointer counts from
 *   the start of the IPv6 header:
 *
 *   fault                                          code  pointer to
 *   an option with the highest bits 10 or 11       2     its type (section 4.2)
 *   an option that ends after its header           0     its length
 *   an option with both faults                     0     its length
 *   a routing header with segments left            0     the routing type (section 4.4; RFC 5095, section 3)
 *   an unknown next header, as SCTP or AH (51)     1     its number
 *   hop-by-hop options after another header        1     the number 0
 *   a fragment whose bytes are no multiple of 8,   0     the payload length (section 4.5)
 *     if more fragments follow
 *   a fragment whose whole packet would have       0     its fragment offset (section 4.5)
 *     a payload above 65,535 bytes
 *   a first fragment without all headers           3     byte 0 (section 4.5; RFC 7112, section 5)
 *
 * - Pad1 and PadN are the only known options. Unknown ones with the highest bits 00 are skipped. One with the bits 01,
 *   and a header that does not end within the packet, get no answer.
 * - An option with the highest bits 10 gets an error also in a packet for a group (RFC 4443, section 2.4 e.3). The group
 *   is ff02::1 or the solicited-node group of `ipv6`. The frame is for `hardware` or the hardware address of the group.
 * - A first fragment has all headers if it has those up to the first that is no extension header, and of that one 20
 *   bytes of TCP, 8 of UDP, 4 of ICMPv6, none of 59 and 1 of any other.
 * - Errors about fragments are also sent if their extension headers end early. No error is sent about a fragment of an
 *   ICMPv6 error, or about a later one of ICMPv6, which may be part of one (RFC 4443, section 2.4 e.1).
 * - Known next headers are UDP, TCP, ICMPv6 and 59. Nothing else of what follows the header of a fragment is looked at:
 *   if a fragment gets no answer, call lk_reassemble. For a whole packet call lk_answer only if the program does not
 *   process the packet itself. */
ptrdiff_t lk_answer(const struct lk_host *host, const uint8_t *ptr, size_t len, uint8_t *out, size_t cap);

/* ---- ICMP errors ---- */

/* An interface of a host or router. */
struct lk_interface {
    struct lk_addr ipv4; /* an IPv4 address; 0.0.0.0, which is {{0}, 4}: none */
    struct lk_addr ipv6; /* an IPv6 address; `::`, which is {{0}, 6}: none */
    uint8_t hardware[6]; /* an Ethernet address */
};

/* Why a packet was dropped. */
enum lk_problem {
    LK_NO_PROBLEM,
    LK_HOP_LIMIT_EXPIRED,
    LK_PACKET_TOO_BIG,
    LK_NO_ROUTE_TO_DESTINATION,
    LK_NEIGHBOUR_MISSING, /* the next hop has no hardware address */
    LK_PORT_CLOSED,
    LK_PROHIBITED,        /* a filter rejects it */
    LK_FRAGMENT_MISSING   /* its packet was not complete in time (lk_expire_reassembly) */
};

/* Writes an Ethernet frame with an ICMP error about a frame that came in by an interface, to its sender. `frame` is as
 * it came in. Returns the length of the error, or 0 if the frame may get none. Fails with LK_NO_VERSION if `ipv4` is no
 * IPv4 address or `ipv6` no IPv6 address, with LK_NO_HEADER if `len` is above LK_MAX_LEN, and with LK_NO_ROOM. A `cap` of
 * 1294 always suffices.
 *
 *   problem                    IPv4    IPv6   tested; else the result is 0
 *   LK_HOP_LIMIT_EXPIRED       11, 0   3, 0   the hop limit is 0 or 1
 *   LK_PACKET_TOO_BIG          3, 4    2, 0   the packet is longer than `mtu`, and over IPv4 has DF
 *   LK_NO_ROUTE_TO_DESTINATION 3, 0    1, 0   nothing
 *   LK_NEIGHBOUR_MISSING       3, 1    1, 3   nothing
 *   LK_PORT_CLOSED             3, 3    1, 4   nothing, not even that it is UDP or TCP
 *   LK_PROHIBITED              3, 13   1, 1   nothing
 *   LK_FRAGMENT_MISSING        11, 1   3, 1   nothing: give the first fragment, from lk_expire_reassembly
 *   LK_NO_PROBLEM, any other                  the result is 0
 *
 *   part of the error          value
 *   Ethernet addresses         from `hardware` to the Ethernet source of `frame`
 *   IP addresses               from the address of the interface to the source of the packet
 *   IP header                  hop limit 64, over IPv4 DF; DSCP, ECN, identification and flow label are 0
 *   type and code              as above
 *   bytes 4 to 7               of LK_PACKET_TOO_BIG `mtu`, over IPv4 at most 65535; of others 0
 *   quoted packet              its first bytes: as many as fit into an error of 576 bytes over IPv4, 1280 over IPv6
 *                              (RFC 1812, section 4.3.2.3; RFC 4443, section 2.4 c), without padding
 *
 * `mtu` is the length of the longest packet that the next link takes. No error is sent in these cases (RFC 1122, section
 * 3.2.2; RFC 4443, section 2.4 e):
 *
 *   part of the frame                        no error
 *   Ethernet destination                     another than `hardware`
 *   Ethernet source                          a group: the lowest bit of its first byte is 1
 *   IP header                                none; a wrong version, length or IPv4 header checksum
 *   IP source                                LK_MARTIAN for lk_check_source, or one of the two addresses of the interface
 *   IP destination                           LK_MARTIAN for lk_check_source: also each multicast address, and broadcast
 *   address of the interface, same version   LK_MARTIAN for lk_check_source: also 0.0.0.0 and `::`
 *   IPv4 fragment offset                     above 0
 *   IPv4 type, of protocol 1                 another than 0, 8 and 13 to 18, queries and their replies; none, as the
 *                                            payload is empty
 *   IPv6 extension header: 0, 43, 44, 51,    does not end within the packet
 *     60, 135, 139 or 140
 *   IPv6 fragment offset above 0             next header 58 or an extension header: it may be part of an ICMP error
 *   ICMPv6 type, also after such headers     below 128, an error; 137, a redirect; none, as the payload is empty
 *
 * Other IPv6 fragments get an error, so their sender learns the MTU. Other types of ICMPv6 get one, even unknown ones (RFC
 * 4443, section 2.1).
 *
 * The caller limits the rate (RFC 1812, section 4.3.2.8; RFC 4443, section 2.4 f). */
ptrdiff_t lk_emit_icmp_error(const struct lk_interface *own, int problem, uint32_t mtu, const uint8_t *frame,
                             size_t len, uint8_t *out, size_t cap);

/* ---- one hop, NAT of one packet, and the MSS clamp ---- */

/* Why a frame is not forwarded, translated or accepted. If several reasons apply, it is the first in this order. */
enum lk_rejection {
    LK_NOT_REJECTED,
    LK_NO_IPV4,            /* lk_translate: the endpoint to be written has no IPv4 address */
    LK_NOT_IP,             /* no Ethernet header, or an EtherType other than IPv4 and IPv6; for NAT other than IPv4 */
    LK_BAD_HEADER,         /* the version of the IP header does not match the EtherType, or its lengths do not fit */
    LK_WRONG_CHECKSUM,     /* of the IPv4 header */
    LK_HOP_LIMIT_TOO_LOW,  /* the hop limit is 0 or 1 */
    LK_FRAGMENT,           /* NAT: the packet is a fragment */
    LK_OTHER_PROTOCOL,     /* NAT: the packet carries neither UDP nor TCP, nor an ICMP message that is translated, by
                            * its type and code */
    LK_BAD_TRANSPORT,      /* NAT: the UDP or TCP header is rejected (lk_reason), an ICMP message has fewer than 8
                            * bytes, or the checksum is wrong or left to the device; an ICMP error quotes less than an
                            * IPv4 header and 8 bytes */
    LK_NAT_PORT_ZERO,      /* NAT: the port to be written is 0, and a receiver would reject the packet;
                            * lk_translate_out: the source port is 0, so that no answer could come back */
    LK_NO_MAPPING,         /* lk_translate_in: no live mapping has this outside address and port; an echo request that
                            * comes in, or an echo reply that leaves; an ICMP error about another packet */
    LK_NO_FREE_PORT,       /* lk_translate_out: no outside port is free for this endpoint */
    LK_MARTIAN,            /* lk_check_source: no host may send from this address */
    LK_NO_ROUTE_TO_SOURCE, /* lk_check_source: there is no route back */
    LK_OTHER_INTERFACE     /* lk_check_source: the route back leads to another interface */
};

/* The number of rejections: the length of an array with a place for each. */
#define LK_REJECTION_COUNT 15

/* Returns the name of a rejection, as "LK_HOP_LIMIT_TOO_LOW", or "no rejection". The text is constant. */
const char *lk_rejection_name(int rejection);

/* Forwards the packet of an Ethernet frame by one hop, in place (RFC 1812, section 5.3.1; RFC 8200, section 3). Returns
 * LK_NOT_REJECTED, or LK_NOT_IP, LK_BAD_HEADER, LK_WRONG_CHECKSUM or LK_HOP_LIMIT_TOO_LOW; then the frame is unchanged.
 *
 * `src` and `dst` are the new Ethernet addresses, 6 bytes each. The hop limit becomes one less, and the checksum of an IPv4
 * header is updated (RFC 1624). All other bytes stay. IPv4 options are summed for the checksum, and not acted on. The
 * payload and padding are not looked at. */
int lk_forward(uint8_t *frame, size_t len, const uint8_t *src, const uint8_t *dst);

/* The end of a packet whose address and port are replaced. */
enum lk_side { LK_SOURCE, LK_DESTINATION };

/* Writes an IPv4 address and a port into the UDP or TCP packet of an Ethernet frame, in place (RFC 3022), and updates
 * the checksums, as lk_update_.. do. Returns LK_NOT_REJECTED, or a rejection from LK_NO_IPV4 to LK_NAT_PORT_ZERO, but not
 * LK_HOP_LIMIT_TOO_LOW; then the frame is unchanged.
 *
 * Any `side` but 0 is the destination. A UDP checksum of 0 stays 0. The source port of UDP may be 0 (RFC 768), so that it
 * gets no LK_NAT_PORT_ZERO. The identifier of an ICMP echo message counts as its port on either side, and may be 0. Its
 * checksum is computed anew. Other ICMP messages get LK_OTHER_PROTOCOL, whatever their length and checksum are. Type and
 * code count as 0 if they are missing. A checksum of LK_CHECKSUM_PARTIAL gets LK_BAD_TRANSPORT: call lk_fill_checksum
 * before. */
int lk_translate(uint8_t *frame, size_t len, int side, const struct lk_endpoint *end);

/* Whether the TCP or UDP checksum of a frame is left to the device that sends it (checksum offload). No frame says so,
 * but a virtio header (VIRTIO_NET_HDR_F_NEEDS_CSUM) and a packet socket (TP_STATUS_CSUMNOTREADY) do. LK_GUESS is wrong
 * for one in 65,536 frames whose checksum is left to the device: the call spoils it. LK_GUESS is also wrong for one in
 * 65,536 wrong checksums: the call may make them valid. Any other number is LK_GUESS. */
enum lk_offload {
    LK_GUESS,     /* unknown: it is, if the field is the sum of the pseudo-header, and is not valid as it is */
    LK_OFFLOADED, /* it is: the field is the sum of the pseudo-header */
    LK_COMPLETE   /* it is not */
};

/* Lowers the maximum segment size of a TCP SYN in an Ethernet frame to `mss`, in place, and updates the TCP
 * checksum (RFC 1624). A router does so with each frame that comes in or leaves by a link with a smaller MTU: to the MTU
 * less 40 over IPv4, and less 60 over IPv6.
 *
 * - Of several such options the last counts. A SYN without one stays as it is.
 * - A valid TCP checksum stays valid, and a wrong one stays wrong. A field that is left to the device is unchanged,
 *   because it does not cover the option. lk_clamp_mss guesses which it is (LK_GUESS).
 * - A frame stays as it is if lk_read_frame rejects a header, and if it is a fragment, has a wrong IPv4 header checksum,
 *   or has IPv6 extension headers before TCP.
 *
 * Returns 1 if the size was larger, else 0; then the frame is unchanged. */
int lk_clamp_mss(uint8_t *frame, size_t len, uint16_t mss);
int lk_clamp_mss_as(uint8_t *frame, size_t len, uint16_t mss, int offload);

/* ---- fragments ---- */

/* For lk_fragment: the packet is forwarded, and an IPv4 packet keeps its identification. */
#define LK_FORWARDED (-1)

/* Writes one of the fragments into which an IP packet is cut for a link with this MTU, in bytes (RFC 791, section
 * 3.2; RFC 8200, section 4.5). `frame` is an Ethernet frame, and so is each fragment, with the same Ethernet header.
 * `number` counts the fragments from 0. Returns 0 if there are no more, and otherwise the length of the frame:
 *
 *     ptrdiff_t n;
 *     for (size_t i = 0; (n = lk_fragment(frame, len, mtu, LK_FORWARDED, i, out, sizeof out)) > 0; i++)
 *         send(out, (size_t)n);
 *
 * A packet that fits is its only fragment. A router passes LK_FORWARDED as `ident`, and a sender an identification. No
 * other packet between these addresses, over IPv4 of the same protocol, may have the same one for two minutes (RFC 6864;
 * RFC 8200, section 4.5). Complete a checksum that is left to the device before the call (lk_fill_checksum).
 *
 *   part of a fragment                         value
 *   payload                                    in all but the last as many bytes as fit, a multiple of 8; no padding
 *   IPv4 identification                        of a router that of the packet, of a sender `ident`, also if it fits
 *   DF                                         of a router that of the packet, of a sender 0, also if it fits
 *   MF                                         1, in the last one that of the packet, which may be a fragment itself
 *   IPv4 options without the copied flag       after the first fragment no-operations (RFC 791, section 3.1), but not
 *                                              after an end mark or a malformed option
 *   lengths, offset, IPv4 header checksum      those of the fragment
 *   IPv6 fragment header                       8 bytes directly after the IPv6 header; none if the packet fits
 *   all others                                 as in the packet
 *
 * The first row that is true has the result:
 *
 *   call                                                                          result
 *   `ident` is below -1 or above 4294967295, with or without a packet             LK_BAD_FIELD
 *   no IPv4 or IPv6 header; a wrong version, length or IPv4 header checksum       LK_NO_HEADER
 *   IPv4: `ident` is above 65535, also if the packet fits                         LK_BAD_FIELD
 *   IPv4: the packet does not fit, and the MTU is less than its header + 8        LK_BAD_FIELD
 *   IPv4: the packet is a fragment that ends after byte 65535 of the payload      LK_PAYLOAD_TOO_LONG
 *   IPv4: a sender passes a fragment, also one that fits                          LK_NO_HEADER
 *   IPv4: a router passes a packet with DF that does not fit                      LK_DONT_FRAGMENT
 *   IPv6: the packet does not fit, and the MTU is less than 56                    LK_BAD_FIELD
 *   IPv6: a router passes a packet that does not fit                              LK_DONT_FRAGMENT
 *   IPv6: the packet does not fit, and after the IPv6 header comes another        LK_NO_HEADER
 *     header of number 0, 43, 44 or 60: not supported
 *   `number` is that of no fragment                                               0
 *   the fragment is longer than `cap`                                             LK_NO_ROOM
 *   all others                                                                    the length of the frame */
ptrdiff_t lk_fragment(const uint8_t *frame, size_t len, size_t mtu, int64_t ident, size_t number, uint8_t *out,
                      size_t cap);

/* A packet of which fragments were received. Only lk_reassemble and lk_expire_reassembly write it, but the caller may
 * free one with zeros. The fields from `expires` to `dst` may be read, and the others are private. */
struct lk_reassembly {
    uint64_t expires; /* its fragments are kept before this time, in milliseconds; 0: it is not in use */
    uint32_t ident;   /* the identification */
    uint8_t version;  /* 4 or 6 */
    uint8_t protocol; /* over IPv4 */
    uint8_t unused1[2];
    uint8_t src[16];  /* in network byte order; of IPv4 the first 4, and the others are 0 */
    uint8_t dst[16];
    size_t len;
    size_t high;
    uint8_t header[60];
    uint8_t not_ect;
    uint8_t ce;
    uint8_t unused2[2];
    uint8_t dropped;
    uint8_t link[14];
    uint8_t unused3;
};

/* The memory of a packet, in bytes, that suffices for the longest. Each 8 bytes of payload take 9. */
#define LK_REASSEMBLY_MEMORY 73728

/* Puts the IPv4 or IPv6 packet in an Ethernet frame together with its other fragments (RFC 791, section 3.2; RFC 8200,
 * section 4.5). Returns 0 if a part of the packet is missing, else the length of the frame with the whole packet:
 *
 *     enum { COUNT = 64 };
 *     static struct lk_reassembly reassemblies[COUNT];
 *     static uint8_t memory[COUNT * LK_REASSEMBLY_MEMORY];
 *
 *     n = lk_reassemble(reassemblies, COUNT, memory, sizeof memory, milliseconds(), frame, len, out, sizeof out);
 *     if (n > 0)
 *         take(out, (size_t)n);
 *
 * Fragments may come in any order, and more than once. A `cap` of 65589 always suffices.
 *
 * - `reassemblies` are zeros at first. Each has an equal part of `memory`, of memory_len / count bytes, which may have any
 *   contents at first. The caller passes the same `count` and `memory_len` as long as fragments are kept.
 * - `now` is a clock in milliseconds that never goes back. Fragments are kept for 60 seconds after the one of their
 *   packet that came first (RFC 1122, section 3.3.2; RFC 8200, section 4.5).
 * - Fragments belong to one packet if they agree in version, addresses and identification, over IPv4 also in protocol.
 * - The fragments of a packet are in one of the `reassemblies`:
 *
 *   packet                               its place
 *   kept, and not expired                that with its fragments
 *   another, while one is not in use     the first of those that are not in use: what has expired is in use until
 *                                        lk_expire_reassembly
 *   another                              the first of those with the least `expires`, also if it has not expired
 *
 * - A host calls lk_answer for each fragment before (`is_fragment` of `struct lk_frame`). One that gets an answer has a
 *   fault: send the answer, and discard the fragment (RFC 8200, section 4.5).
 * - Messages of neighbour discovery must not come in fragments (RFC 6980): drop a whole packet with one.
 *
 * The first row that is true has the result. The rows with a star leave `reassemblies` and `memory` unchanged:
 *
 *   frame                                                                         result
 *   no IPv4 or IPv6 header; a wrong version, length or IPv4 header checksum       LK_NO_HEADER *
 *   IPv6: no whole fragment header directly after the IPv6 header                 LK_NO_HEADER *
 *   a whole packet: offset 0, and no more fragments (IPv6: atomic, RFC 6946)      the packet, or LK_NO_ROOM *
 *   no payload                                                                    LK_NO_HEADER *
 *   more fragments follow, and the payload is no multiple of 8 bytes              LK_NO_HEADER *
 *   `count` is 0                                                                  LK_PAYLOAD_TOO_LONG *
 *   it ends after byte 65536 or 8 * (memory_len / count / 9) of the payload       LK_PAYLOAD_TOO_LONG *
 *   its packet was dropped and has not expired, or is dropped now                 LK_DROPPED
 *   another part of the packet is missing                                         0
 *   the packet is longer than `cap`: it is kept, and any of its fragments gives   LK_NO_ROOM
 *     it again
 *   all others                                                                    the packet
 *
 * A fragment drops its packet in these cases. Then the packet takes no fragment until it expires:
 *
 *   fragment                                                                      by
 *   some of its bytes came before, but not all, or some had another value         RFC 5722; RFC 8200, section 4.5
 *   it is the last one, and another one ends after it
 *   it ends after the last one, or is another last one with another end
 *   it has the codepoint CE and another one Not-ECT, or the other way round       RFC 3168, section 5.3
 *   the last one came, and the payload has more than 65535 bytes, over IPv4 with  RFC 791, section 3.1; RFC 8200,
 *     the header of the one with offset 0 if that came                              section 4.5
 *
 * The whole packet has these parts:
 *
 *   part                                       value
 *   Ethernet header                            that of `frame`
 *   IP header, with options, TTL, DSCP and DF  that of the fragment with offset 0, of copies that of the first
 *   ECN                                        CE if a fragment has CE (RFC 3168, section 5.3), else as the header
 *   MF, offset, lengths, IPv4 header checksum  those of a packet that is not fragmented
 *   IPv6 fragment header                       left out; its next header is in the IPv6 header
 *   padding                                    left out */
ptrdiff_t lk_reassemble(struct lk_reassembly *reassemblies, size_t count, uint8_t *memory, size_t memory_len,
                        uint64_t now, const uint8_t *frame, size_t len, uint8_t *out, size_t cap);

/* Frees packets whose time is over, up to one whose fragment with offset 0 was received. Writes the frame with this
 * fragment, and returns its length; 0: there is no such packet. An ICMP error tells its sender (RFC 792; RFC 4443,
 * section 3.3). Call it until it returns 0:
 *
 *     while ((n = lk_expire_reassembly(reassemblies, COUNT, memory, sizeof memory, now, out, sizeof out)) > 0)
 *         error_len = lk_emit_icmp_error(&own, LK_FRAGMENT_MISSING, 0, out, n, error, sizeof error);
 *
 * The frame has the Ethernet header of the fragment that came first. No frame is written for a packet that was dropped,
 * evicted by another one, or longer than `cap`. A `cap` of 65589 always suffices. */
size_t lk_expire_reassembly(struct lk_reassembly *reassemblies, size_t count, const uint8_t *memory, size_t memory_len,
                            uint64_t now, uint8_t *out, size_t cap);

/* ---- edits in place ---- */

/* Each call of this section writes one field of the packet in an Ethernet frame, in place, and updates the checksums that
 * cover it (RFC 1624): that of the IPv4 header, and that of TCP, UDP, ICMP or ICMPv6. No other byte changes.
 * Checksums of other protocols are not updated.
 *
 * - A valid checksum stays valid, and a wrong one stays wrong. UDP's 0 over IPv4 stays 0. The exception is an ICMP
 *   message whose other bytes are all 0 (lk_update_checksum).
 * - A TCP or UDP checksum that is left to the device stays so: an address changes it, as part of the pseudo-header, and
 *   nothing else does. lk_set_addr, lk_set_port and lk_set_bytes guess which it is (LK_GUESS). Callers that know it tell
 *   lk_set_addr_as, lk_set_port_as and lk_set_bytes_as.
 * - lk_read_frame must read the IP header. Of TCP, UDP or ICMP only the bytes up to the checksum field must be there,
 *   also in the first of several fragments. If a packet was captured in part, test it by lk_read_captured, and then pad it
 *   with zeros to its length: only lk_fill_checksum needs the bytes themselves, and a checksum over the zeros is wrong.
 * - IPv6 extension headers are stepped through, as lk_read_frame does, up to the header of a fragment. They are not
 *   changed. Not supported: a Home Address option (RFC 6275), whose address the checksum covers instead of the source.
 * - Of the Ethernet header only the EtherType is used. For a frame with VLAN tags give `frame + link.offset - 14`, where
 *   `link` is that of lk_read_link. lk_clamp_mss takes these too.
 * - A packet without an Ethernet header needs no copy if LK_ETHERNET_HEADER_LEN bytes of the same buffer are before it. So
 *   read a TUN device to `buffer + LK_ETHERNET_HEADER_LEN`, and write an Ethernet header to `buffer` by lk_emit_ethernet:
 *   lk_read_linktype stores its type, also for LK_LINKTYPE_RAW. In a Linux cooked capture (LK_LINKTYPE_LINUX_SLL) the last
 *   two bytes of the header are the EtherType already.
 * - The checksum of TCP or UDP is updated as one that covers the destination in the header. If an IPv4 source route has
 *   hops left, it covers the last address of the route: a new destination then makes a valid one wrong.
 * - Any `side` but LK_SOURCE is the destination.
 *
 * Returns 1, or 0 if the packet has no such field; then the frame is unchanged. */

/* Writes the TTL of IPv4, or the hop limit of IPv6. */
int lk_set_hop_limit(uint8_t *frame, size_t len, uint8_t hop_limit);

/* Writes the DSCP, 6 bits (RFC 2474). ECN stays. Returns 0 for numbers above 63. */
int lk_set_dscp(uint8_t *frame, size_t len, uint8_t dscp);

/* Writes an address. Returns 0 if the packet has another version, and if a checksum covers the addresses and is not
 * found:
 *
 * - TCP, UDP or ICMP is cut, or the length of UDP is below 8.
 * - There is an authentication header: an edit would make it invalid.
 * - lk_read_frame rejects an IPv6 extension header: it is cut, hop-by-hop options are not the first, or a routing header
 *   has segments left. Or another one follows the header of a fragment.
 * - It is DCCP (33), OSPF (89), VRRP (112), UDP-Lite (136) or HIP (139), or over IPv6 PIM (103) or Mobility (135).
 *
 * Of a fragment that is not the first, only the IP header is updated. */
int lk_set_addr(uint8_t *frame, size_t len, int side, const struct lk_addr *addr);
int lk_set_addr_as(uint8_t *frame, size_t len, int side, const struct lk_addr *addr, int offload);

/* Writes a port of TCP or UDP. Port 0 is written too. */
int lk_set_port(uint8_t *frame, size_t len, int side, uint16_t port);
int lk_set_port_as(uint8_t *frame, size_t len, int side, uint16_t port, int offload);

/* Writes the `count` bytes at `ptr` from byte `offset` of the frame on, as an option, an address, payload or padding.
 * Returns 0 if the frame does not have all of them, if they would replace one of these bytes, or if `count` is 0 and
 * `offset` is between two of these bytes:
 *
 * - the Ethernet header,
 * - the version, lengths, identification, flags, fragment offset, protocol and checksum of the IPv4 header,
 * - the version, payload length and next header of the IPv6 header, and its extension headers,
 * - the transport checksum, the data offset of TCP, and the length of UDP,
 * - the payload of a fragment that is not the first, whose checksum is in the first one,
 * - all from the addresses to the end of the packet, if a checksum covers the addresses and is not found (lk_set_addr). */
int lk_set_bytes(uint8_t *frame, size_t len, size_t offset, const uint8_t *ptr, size_t count);
int lk_set_bytes_as(uint8_t *frame, size_t len, size_t offset, const uint8_t *ptr, size_t count, int offload);

/* Computes the TCP, UDP, ICMP or ICMPv6 checksum anew, as a device does for LK_CHECKSUM_PARTIAL, also where UDP has none.
 * A wrong checksum becomes valid too: of a packet that was received, call it only for LK_CHECKSUM_PARTIAL. If an IPv4
 * source route has hops left, the result covers the next hop, and the last receiver rejects it. Returns 0 for fragments
 * other than atomic ones, and for UDP whose length does not fit. */
int lk_fill_checksum(uint8_t *frame, size_t len);

/* ---- routes ---- */

/* A route. The struct has no padding. */
struct lk_route {
    struct lk_prefix prefix; /* the destinations */
    struct lk_addr next_hop; /* the next router; version 0: the destinations are on the link */
    uint16_t interface;      /* a number that the caller chooses */
};

/* A node of an index. It is private: only lk_index_routes writes it. */
struct lk_route_node {
    uint64_t high;
    uint64_t low;
    uint32_t route;
    uint32_t above;
    uint8_t version;
    uint8_t prefix_len;
    uint8_t unused[2];
    uint32_t hint;
};

/* Writes the index of a list of routes, one node for each, and returns the number of routes. The index is valid as long
 * as the routes do not change. Fails with LK_NO_VERSION or LK_BAD_PREFIX if the prefix of a route is invalid, and with
 * LK_NO_ROOM if there are more routes than nodes, more than 2^32 - 1, or if a count is above LK_MAX_LEN. After a
 * failure the nodes are unchanged.
 *
 * A router checks the source of a frame, and forwards it by the route to its destination. Packets for the router
 * itself, multicast and link-local packets are not forwarded:
 *
 *     lk_read_frame(frame, len, &f);
 *     if (lk_check_source(routes, count, nodes, count, &f.src.addr, interface) != LK_NOT_REJECTED)
 *         return;
 *     if (!lk_is_unicast(&f.dst.addr) || is_own(&f.dst.addr) || is_link_local(&f))
 *         return;
 *     ptrdiff_t i = lk_choose_route(nodes, count, &f.dst.addr);
 *     if (i < 0)
 *         return;
 *     const uint8_t *next = hardware_of(&routes[i], &f.dst.addr), *own = own_hardware(routes[i].interface);
 *     if (lk_forward(frame, len, own, next) == LK_NOT_REJECTED)
 *         send_by(routes[i].interface, frame, len); */
ptrdiff_t lk_index_routes(const struct lk_route *routes, size_t count, struct lk_route_node *nodes, size_t node_count);

/* Finds the route with the longest prefix of an address. Returns its place in the list, or -1 if no route has the address.
 * Of equal prefixes the first route counts. `count` is the number of routes. An address without a version has no
 * route. */
ptrdiff_t lk_choose_route(const struct lk_route_node *nodes, size_t count, const struct lk_addr *addr);

/* The number of cells of the table of so many routes. */
#define LK_ROUTE_TABLE_LEN(count) (5 * ((size_t)(count) + 1))

/* Writes the table of an index of `count` routes, and returns the number of its cells, LK_ROUTE_TABLE_LEN(count). Fails
 * with LK_NO_ROOM if there are fewer cells, 2^26 routes or more, or if a count is above LK_MAX_LEN; then all cells are
 * unchanged. Cells after the table are unchanged too. The table is valid as long as the index is. Two tables of one index
 * have the same cells.
 *
 * Most searches for an IPv4 address read one cell of the table, and the others a few. So they are faster than by the
 * index, unless each waits for the one before: then a table of 100,000 routes saved no time. A table has 40 bytes for each
 * route, and the index 32. For IPv6 addresses the index is searched. */
ptrdiff_t lk_make_route_table(const struct lk_route_node *nodes, size_t count, uint64_t *cells, size_t cell_count);

/* Returns the same as lk_choose_route(nodes, count, addr). The first cells are the table of the index
 * (lk_make_route_table). If there are fewer than LK_ROUTE_TABLE_LEN(count), the index is searched. */
ptrdiff_t lk_choose_route_by_table(const struct lk_route_node *nodes, size_t count, const uint64_t *cells,
                                   size_t cell_count, const struct lk_addr *addr);

/* Whether a router may accept a packet from `src` that came in by `interface`. Returns LK_NOT_REJECTED, or one of
 * these:
 *
 * - LK_MARTIAN for 0.0.0.0/8, 127.0.0.0/8, 224.0.0.0/4, 240.0.0.0/4, `::`, `::1`, ::ffff:0:0/96, ff00::/8, and an
 *   address without a version (RFC 1122, section 3.2.1.3; RFC 1812, section 5.3.7; RFC 4291, section 2),
 * - LK_NO_ROUTE_TO_SOURCE or LK_OTHER_INTERFACE, by the route to `src` (strict reverse path forwarding, RFC 3704, section
 *   2.2).
 *
 * A link-local source (169.254.0.0/16, fe80::/10) is accepted or rejected by its route, as any other. What comes from it
 * may be for the router itself, but must not be forwarded (RFC 3927, section 2.7; RFC 4291, section 2.5.6). */
int lk_check_source(const struct lk_route *routes, size_t route_count, const struct lk_route_node *nodes, size_t count,
                    const struct lk_addr *src, uint16_t interface);

/* Returns the same as lk_check_source(routes, route_count, nodes, count, src, interface). The first cells are
 * the table of the index (lk_make_route_table). If there are fewer than LK_ROUTE_TABLE_LEN(count), the index is
 * searched. */
int lk_check_source_by_table(const struct lk_route *routes, size_t route_count, const struct lk_route_node *nodes,
                             size_t count, const uint64_t *cells, size_t cell_count, const struct lk_addr *src,
                             uint16_t interface);

/* ---- NAT ---- */

/* A NAT with one outside address. */
struct lk_nat {
    uint64_t key[2];                 /* random and secret: else endpoints can be chosen that compete for one port */
    uint64_t udp_timeout;            /* of a UDP mapping, in milliseconds: 300000 (RFC 4787, REQ-5) */
    uint64_t tcp_timeout;            /* of an established TCP connection: 7440000 (RFC 5382, REQ-5) */
    uint64_t tcp_transitory_timeout; /* of one that opens or closes: 240000 */
    uint64_t icmp_timeout;           /* of an ICMP mapping: 60000 (RFC 5508, REQ-2) */
    uint8_t outside[4];              /* the outside IPv4 address */
    uint16_t first_port;             /* the first outside port; 0: no port */
    uint16_t unused;
};

/* A mapping. It is private: only lk_translate_out, lk_translate_in and lk_shrink_reach write it, but the caller may free
 * one by `expires` 0, or all with zeros. */
struct lk_mapping {
    uint64_t expires;
    uint8_t inside[4];
    uint8_t remote[4];
    uint16_t inside_port;
    uint16_t remote_port;
    uint8_t state;
    uint8_t shared;
    uint16_t reach; /* stays when the mapping ends: where endpoints are searched for, see lk_translate_out */
};

/* The number of mappings for so many outside ports: each has one of UDP, one of TCP and one of ICMP. */
#define LK_MAPPINGS(ports) (3 * (size_t)(ports))

/* Translate the source of a packet that leaves, and the destination of a packet that comes in, in place, as
 * lk_translate does. `mappings` are LK_MAPPINGS(ports), zeros at first, for this many outside ports from `first_port`
 * on. There are `count / LK_MAPPINGS(1)` outside ports, but none above 65535: mappings of higher ports are not used.
 * The mapping of a port is mappings[protocol * ports + (port - first_port)]: `ports` is `count / LK_MAPPINGS(1)`, and
 * `protocol` is 0 for UDP, 1 for TCP and 2 for ICMP.
 * The identifier of an echo counts as its port. `now` is a clock in milliseconds that never goes back.
 *
 *     enum { FIRST_PORT = 1024, COUNT = LK_MAPPINGS(65536 - FIRST_PORT) };
 *     static struct lk_mapping mappings[COUNT];
 *     struct lk_nat nat = {{random64(), random64()}, 300000, 7440000, 240000, 60000, {203, 0, 113, 9}, FIRST_PORT, 0};
 *
 *     if (is_from_inside)
 *         rejection = lk_translate_out(&nat, mappings, COUNT, milliseconds(), frame, len);
 *     else
 *         rejection = lk_translate_in(&nat, mappings, COUNT, milliseconds(), frame, len);
 *     if (rejection == LK_NOT_REJECTED)
 *         ... forward the frame
 *
 * - Both return an `lk_rejection`. If it is not 0, the frame and the mappings are unchanged. LK_NO_IPV4 and
 *   LK_HOP_LIMIT_TOO_LOW are not among them.
 * - A mapping belongs to one inside endpoint, whatever the remote endpoints are (RFC 4787, REQ-1). What any remote
 *   endpoint sends to its outside port comes in (REQ-8).
 * - An endpoint without a live mapping gets a new one. Its port is its own port if free, else the first free one of its
 *   rows. A row is spread evenly over all outside ports, and the next one begins a port after it. A keyed hash of the
 *   endpoint chooses where the first row begins and its step. LK_NO_FREE_PORT: no port is free.
 *
 *   outside ports     ports of a row
 *   up to 125         all
 *   126 to 629        63 to 94
 *   630 to 6299       63 to 70
 *   6300 and more     63 to 66
 *
 * - A call reads one row for an endpoint that has a mapping, and at most two for a new one. If all ports of its first
 *   row are taken, it gets one of a later row. Later endpoints that hash to this port search as many rows: `reach` of
 *   the mapping there is their number. It shrinks only by lk_shrink_reach. If no port is free, the call reads all
 *   mappings of the protocol.
 * - One inside host can take every port. A program limits the mappings of each host, as `nat -m` of programs/ does.
 * - A mapping is live until its time-out has passed since the last packet of its inside endpoint. Packets that come in
 *   do not keep it alive (REQ-6).
 * - A TCP mapping has `tcp_transitory_timeout` after its inside endpoint sent SYN, FIN or RST, and `tcp_timeout` after
 *   it sent another segment. After FIN, also of the remote endpoint, such a segment restarts only
 *   `tcp_transitory_timeout`, until the inside endpoint sends SYN. FIN or RST that comes in restarts no time-out, but
 *   leaves at most `tcp_transitory_timeout`. From an endpoint to which nothing was sent, it changes nothing.
 * - Sequence numbers are not checked, so a RST may be forged. It ends a mapping only if the inside endpoint sends
 *   nothing for `tcp_transitory_timeout` after it (RFC 6146, section 3.5.2.2; RFC 7857, section 2.2).
 * - When the inside endpoint of a TCP mapping sends to a second remote endpoint, the mapping serves several. From this
 *   packet on FIN and RST that come in change nothing. SYN, FIN and RST that the inside endpoint sends restart the
 *   time-out that the mapping has, and another segment gives it `tcp_timeout`.
 * - A packet from inside to the outside address goes back in by lk_translate_out and then lk_translate_in on the same
 *   frame (hairpinning, RFC 4787, REQ-9). If the second call rejects it, drop it: its source is translated already.
 * - Echo requests go out, and echo replies come in (RFC 5508, section 3). The others get LK_NO_MAPPING.
 * - An ICMP error is translated with the packet that it quotes, of which at least the IPv4 header and 8 bytes must be
 *   there (RFC 5508, section 4). One that comes in quotes a packet of a live mapping, from its outside port; one that
 *   leaves quotes a packet to the inside endpoint of a live mapping. All checksums are updated; one in the quoted
 *   packet may be wrong, and stays wrong then. An error neither restarts a time-out nor ends a connection. Errors about
 *   other packets get LK_NO_MAPPING, also about later fragments, other protocols and other ICMP messages. */
int lk_translate_out(const struct lk_nat *nat, struct lk_mapping *mappings, size_t count, uint64_t now, uint8_t *frame,
                     size_t len);
int lk_translate_in(const struct lk_nat *nat, struct lk_mapping *mappings, size_t count, uint64_t now, uint8_t *frame,
                    size_t len);

/* Lowers each `reach` to the last row in which an endpoint whose first row begins there has a live mapping. All else stays,
 * and each endpoint keeps its outside port. Call it now and then, as once a minute: after many ports were in use, searches
 * for new endpoints get short again when the mappings have ended. It reads all mappings. If `count` is above LK_MAX_LEN,
 * nothing changes. */
void lk_shrink_reach(const struct lk_nat *nat, struct lk_mapping *mappings, size_t count, uint64_t now);

/* ---- TCP connections ---- */

/* One end of a TCP connection (RFC 9293), with its timers, congestion control (RFC 5681, RFC 6298, RFC 6582), selective
 * acknowledgements (RFC 2018), window scale and timestamps (RFC 7323). It is private: lk_connection_init makes it, and
 * only the calls lk_connection_.. write it. A copy of it is another connection. */
struct lk_connection {
    uint64_t memory[64];
};

/* A TCP segment without its ports. */
struct lk_segment {
    struct lk_tcp tcp;
    struct lk_tcp_options options;
    const uint8_t *payload;
    size_t payload_len;
};

/* Where a connection is (RFC 9293, section 3.3.2). */
enum lk_connection_state {
    LK_CLOSED,
    LK_LISTEN,
    LK_SYN_SENT,
    LK_SYN_RECEIVED,
    LK_ESTABLISHED,
    LK_FIN_WAIT_1,
    LK_FIN_WAIT_2,
    LK_CLOSE_WAIT,
    LK_CLOSING,
    LK_LAST_ACK,
    LK_TIME_WAIT
};

/* A connection sends from the ring `outgoing`, and receives into the ring `incoming`. Each has at least 1 byte and less than
 * 2^30. A connection always gets the same two rings. A call that gets a ring of another length returns -1 if the bytes of
 * the connection do not fit into it; then nothing changes. Which of two rings of a fitting length it gets is not tested.
 *
 * `now` is a clock in milliseconds that never goes back. A call that stores a segment in `out` returns 1: send it. It
 * returns 0 if there is none; then `out` is unchanged. The payload of a segment is in `outgoing`: it is valid until
 * another call for the connection. After each other call, and at the time of lk_connection_next_timeout, call
 * lk_connection_tick until it returns 0.
 *
 *     struct lk_segment in = {f.tcp, options, frame + f.payload_offset, f.payload_len}, out;
 *     if (lk_connection_step(&c, outgoing, OUTGOING, incoming, INCOMING, now, &in, random32(), &out) == 1)
 *         send_segment(&out);
 *     while (lk_connection_tick(&c, outgoing, OUTGOING, incoming, INCOMING, now, &out) == 1)
 *         send_segment(&out);
 *
 * Here send_segment writes a frame to the peer, whose addresses and ports are in `headers`:
 *
 *     headers.tcp = out->tcp;
 *     len = lk_emit_tcp_frame(&headers, &out->options, out->payload, out->payload_len, frame, sizeof frame); */

/* Makes a connection in LK_CLOSED, whatever `connection` was. `mss` is the largest segment that it takes and sends, in
 * bytes: the MTU without the IP and TCP header, 1460 for IPv4 over Ethernet and 1440 for IPv6; 0 is 536. Where the peer
 * is silent for `keep_alive_s` seconds, it is probed; 0 is 7200. If `no_delay` is not 0, small segments go at once, as
 * with TCP_NODELAY: Nagle's algorithm is off. */
void lk_connection_init(struct lk_connection *connection, uint16_t mss, uint32_t keep_alive_s, int no_delay);

/* Waits for the SYN of a peer: LK_CLOSED becomes LK_LISTEN. In another state nothing happens. The connection is that with
 * the peer whose SYN comes: a program has one connection for each peer. */
void lk_connection_listen(struct lk_connection *connection);

/* Opens the connection, from LK_CLOSED or LK_LISTEN, and stores its SYN. `iss` is its sequence number: hard to guess (RFC
 * 6528), as random bytes are. Returns 0 in another state. */
int lk_connection_connect(struct lk_connection *connection, const uint8_t *outgoing, size_t outgoing_len,
                          uint8_t *incoming, size_t incoming_len, uint64_t now, uint32_t iss,
                          struct lk_segment *out);

/* Takes a segment of the peer, and stores the segment that answers it at once. The caller has found the connection by
 * addresses and ports, and checked the checksum. `fresh` is a sequence number as `iss` is: that of the SYN that answers the
 * peer's SYN in LK_LISTEN. A connection in LK_CLOSED answers with RST. Returns -1 also if the payload has more than 65535
 * bytes. */
int lk_connection_step(struct lk_connection *connection, const uint8_t *outgoing, size_t outgoing_len,
                       uint8_t *incoming, size_t incoming_len, uint64_t now, const struct lk_segment *segment,
                       uint32_t fresh, struct lk_segment *out);

/* Stores the next segment that is to be sent at this time: new bytes, bytes or a SYN or FIN that go again, an
 * acknowledgement, or a probe. A connection whose peer was silent for too long ends, with a RST. */
int lk_connection_tick(struct lk_connection *connection, const uint8_t *outgoing, size_t outgoing_len,
                       uint8_t *incoming, size_t incoming_len, uint64_t now, struct lk_segment *out);

/* Closes the connection for writing: after the bytes that were written a FIN goes to the peer. What the peer sends can be
 * read as before. In LK_LISTEN and LK_SYN_SENT the connection ends at once (RFC 9293, section 3.10.4), without the bytes. */
void lk_connection_close(struct lk_connection *connection);

/* Gives the connection up: LK_CLOSED. Stores a RST for the peer, if there may be one. */
int lk_connection_abort(struct lk_connection *connection, struct lk_segment *out);

/* Writes bytes for the peer into the ring, as far as it has room. Returns how many: 0 in LK_CLOSED and LK_LISTEN, and after
 * lk_connection_close. */
ptrdiff_t lk_connection_write(struct lk_connection *connection, uint8_t *outgoing, size_t outgoing_len,
                              const uint8_t *ptr, size_t len);

/* Copies the next bytes of the peer to `out`, at most `cap`, and returns how many. If it is 0, and
 * lk_connection_at_eof is 1, the peer writes no more. */
ptrdiff_t lk_connection_read(struct lk_connection *connection, const uint8_t *incoming, size_t incoming_len,
                             uint8_t *out, size_t cap);

/* Returns when lk_connection_tick has something to do, if no other call comes before. UINT64_MAX: never. */
uint64_t lk_connection_next_timeout(const struct lk_connection *connection);

/* Returns an `lk_connection_state`. */
int lk_connection_state(const struct lk_connection *connection);

/* Whether the application has read all that the peer wrote, and the peer has closed. */
int lk_connection_at_eof(const struct lk_connection *connection);

/* Returns the bytes that were written and not yet acknowledged, plus 1 for a SYN and 1 for the FIN of lk_connection_close.
 * At least `outgoing_len` less the result can be written. The SYN counts before it is sent: after lk_connection_init and
 * lk_connection_listen the result is 1. If a connection ends before all is acknowledged, for example by
 * lk_connection_abort, the number stays. */
size_t lk_connection_unacked(const struct lk_connection *connection);

/* Lowers the size of segments after an ICMP error: it says that the segment with `seq_number`, which it quotes, was too big
 * (RFC 1191, RFC 8201). Returns 1, or 0 if no such segment is in flight; then nothing is changed (RFC 5927, section 4.1).
 * `mss` is the MTU of the error without the IP header and the 20 bytes of a TCP header. */
int lk_connection_too_big(struct lk_connection *connection, uint32_t seq_number, uint16_t mss);

/* ---- names of version 0.4 ---- */

/* Version 0.6 will not have them. LK_NO_OLD_NAMES leaves them out. CHANGELOG.md has a list of both names. */
#ifndef LK_NO_OLD_NAMES
#define lk_parse_ethernet lk_parse_mac
#define lk_print_ethernet lk_print_mac
#define lk_reply lk_make_reply
#define lk_parse_block lk_parse_prefix
#define lk_print_block lk_print_prefix
#define lk_read_tcp_options lk_find_tcp_options
#define lk_read_ndisc lk_find_ndisc
#define lk_expire lk_expire_reassembly
#define lk_block lk_prefix
#define lk_partial lk_reassembly
#define LK_ETHERNET_TEXT LK_MAC_TEXT
#define LK_BLOCK_TEXT LK_PREFIX_TEXT
#define LK_PARTIAL_MEMORY LK_REASSEMBLY_MEMORY
#define LK_NO_PORT LK_EMIT_PORT_ZERO
#define LK_ZERO_PORT LK_NAT_PORT_ZERO
#define LK_EXPIRED LK_HOP_LIMIT_TOO_LOW
#define LK_NO_ROUTE LK_NO_ROUTE_TO_SOURCE
#define LK_ROUTE_MISSING LK_NO_ROUTE_TO_DESTINATION
#define LK_NO_CHECKSUM LK_CHECKSUM_NOT_READ
#define LK_RIGHT LK_CHECKSUM_VALID
#define LK_WRONG LK_CHECKSUM_INVALID
#define LK_LEFT_OUT LK_CHECKSUM_OMITTED
#define LK_LEFT_TO_DEVICE LK_CHECKSUM_PARTIAL
#endif

#ifdef __cplusplus
}
#endif

#endif
