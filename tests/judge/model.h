/* A model of the C interface: for each call of include/ip_wire.h the same arguments and results, written only
 * from the comments of that header and from the RFCs. It is slow and simple, so that it can be checked by reading.
 * "Open" in a comment says that the header leaves a case open, and which answer the model takes. */
#ifndef MODEL_H
#define MODEL_H

#include "ip_wire.h"

/* Room for the longest frame of the model. */
#define MODEL_ROOM 0x20000

/* ---- model_base.c: fields, addresses, sums and sequence numbers ---- */

unsigned get_word(const uint8_t *ptr);
uint32_t get_long(const uint8_t *ptr);
void put_word(uint8_t *ptr, unsigned value);
void put_long(uint8_t *ptr, uint32_t value);

/* A length above LK_MAX_LEN is never used. */
size_t used_len(size_t len);

/* The number of bytes of an address: 4, 16 or 0. */
size_t addr_len(const struct lk_addr *addr);
int is_in(const struct lk_addr *addr, const char *block);

/* The one's complement sum of the pseudo-header of RFC 768, RFC 9293 and RFC 8200, followed by `len` bytes. */
uint16_t pseudo_sum(const struct lk_addr *src, const struct lk_addr *dst, unsigned protocol, const uint8_t *ptr,
                    size_t len, size_t summed);

/* The one's complement sum of an ICMP message, over IPv6 with its pseudo-header. */
uint16_t icmp_sum(const struct lk_addr *src, const struct lk_addr *dst, const uint8_t *ptr, size_t len);

const char *model_failure_name(ptrdiff_t failure);
const char *model_reason_name(int reason);
const char *model_rejection_name(int rejection);
const char *model_protocol_name(int protocol);
const char *model_ethertype_name(int type);
const char *model_tcp_flag_name(int flag);
int model_contains(const struct lk_prefix *block, const struct lk_addr *addr);
int model_is_multicast(const struct lk_addr *addr);
int model_is_unicast(const struct lk_addr *addr);
uint16_t model_checksum(const uint8_t *ptr, size_t len);
uint16_t model_update_checksum(uint16_t checksum, uint16_t before, uint16_t after);
uint16_t model_update_checksum_addr(uint16_t checksum, const struct lk_addr *before, const struct lk_addr *after);
uint16_t model_update_udp_checksum(uint16_t checksum, uint16_t before, uint16_t after);
uint16_t model_update_udp_checksum_addr(uint16_t checksum, const struct lk_addr *before, const struct lk_addr *after);
uint16_t model_update_checksum_bytes(uint16_t checksum, size_t offset, const uint8_t *before, size_t before_len,
                                     const uint8_t *after, size_t after_len);
uint16_t model_update_udp_checksum_bytes(uint16_t checksum, size_t offset, const uint8_t *before, size_t before_len,
                                         const uint8_t *after, size_t after_len);
uint32_t model_add_seq(uint32_t seq, uint32_t steps);
int32_t model_subtract_seq(uint32_t a, uint32_t b);
int model_compare_seq(uint32_t a, uint32_t b);

/* ---- model_text.c ---- */

int model_parse_addr(const char *text, size_t len, struct lk_addr *addr);
int model_parse_prefix(const char *text, size_t len, struct lk_prefix *block);
int model_parse_endpoint(const char *text, size_t len, struct lk_endpoint *endpoint);
int model_parse_mac(const char *text, size_t len, uint8_t *octets);
ptrdiff_t model_print_addr(const struct lk_addr *addr, char *out, size_t cap);
ptrdiff_t model_print_prefix(const struct lk_prefix *block, char *out, size_t cap);
ptrdiff_t model_print_endpoint(const struct lk_endpoint *endpoint, char *out, size_t cap);
ptrdiff_t model_print_mac(const uint8_t *octets, char *out, size_t cap);
ptrdiff_t model_print_frame(const struct lk_frame *frame, char *out, size_t cap);

/* ---- model_options.c ---- */

/* Whether an option of a TCP header is malformed before the end mark. */
int is_malformed(const uint8_t *header, size_t header_len);

/* The length of these options with padding, or above 40. */
size_t options_len(const struct lk_tcp_options *options);

/* Writes options, sorted by their kinds. There are zeros for SACK ranges beside SACK permitted, or if `has_ranges`
 * is 0. */
void put_options(const struct lk_tcp_options *options, int has_ranges, uint8_t *out);

int model_find_tcp_options(const uint8_t *ptr, size_t len, struct lk_tcp_options *options);
int model_next_tcp_option(const uint8_t *ptr, size_t len, struct lk_tcp_option *option);

/* ---- model_read.c ---- */

int model_read_frame(const uint8_t *ptr, size_t len, struct lk_frame *frame);
/* As the calls that change or answer a frame read it: IPv6 extension headers are payload. */
int model_read_plain(const uint8_t *ptr, size_t len, struct lk_frame *frame);
int model_read_frame_options(const uint8_t *ptr, size_t len, struct lk_frame *frame, struct lk_tcp_options *options);
int model_read_packet(const uint8_t *ptr, size_t len, struct lk_frame *frame);
int model_read_captured(const uint8_t *ptr, size_t captured, size_t len, struct lk_frame *frame);
int model_read_captured_packet(const uint8_t *ptr, size_t captured, size_t len, struct lk_frame *frame);
int model_read_linktype(uint32_t link_type, const uint8_t *ptr, size_t captured, size_t len, struct lk_frame *frame);

/* Whether this is the number of an IPv6 extension header; the length of one by its first 8 bytes. */
int is_extension(unsigned protocol);
size_t extension_len(unsigned protocol, const uint8_t *ptr);

/* ---- model_link.c ---- */

/* Finds a link-layer header in the `known` first bytes, and returns its reason. `needed` is how many bytes it needs at
 * least, but of an unknown link type. */
int find_link(uint32_t link_type, const uint8_t *ptr, size_t known, struct lk_link *link, size_t *needed);

int model_next_ipv6_header(const uint8_t *ptr, size_t len, struct lk_ipv6_header *header);
int model_read_link(uint32_t link_type, const uint8_t *ptr, size_t captured, struct lk_link *link);

/* ---- model_emit.c ---- */

/* Write a header, or a header with its payload, whatever the fields are. They return the length. */
size_t put_ethernet(const struct lk_ethernet *header, unsigned type, uint8_t *out);
size_t put_arp(const struct lk_arp *header, const struct lk_addr *src, const struct lk_addr *dst, uint8_t *out);
size_t put_ip(const struct lk_ip *header, const struct lk_addr *src, const struct lk_addr *dst, unsigned protocol,
              size_t payload_len, int computed, uint8_t *out);
size_t put_udp(const struct lk_endpoint *src, const struct lk_endpoint *dst, const uint8_t *ptr, size_t len,
               int computed, uint8_t *out);
size_t put_tcp(const struct lk_tcp *header, const struct lk_tcp_options *options, int has_ranges,
               const struct lk_endpoint *src, const struct lk_endpoint *dst, const uint8_t *ptr, size_t len,
               int computed, uint8_t *out);

size_t put_icmp(const struct lk_icmp *header, const struct lk_addr *src, const struct lk_addr *dst, const uint8_t *ptr,
                size_t len, int computed, uint8_t *out);

ptrdiff_t model_emit_udp_frame(const struct lk_frame *headers, const uint8_t *ptr, size_t len, uint8_t *out,
                               size_t cap);
ptrdiff_t model_emit_tcp_frame(const struct lk_frame *headers, const struct lk_tcp_options *options,
                               const uint8_t *ptr, size_t len, uint8_t *out, size_t cap);
ptrdiff_t model_emit_icmp_frame(const struct lk_frame *headers, const uint8_t *ptr, size_t len, uint8_t *out,
                                size_t cap);
ptrdiff_t model_wrap_udp_frame(const struct lk_frame *headers, size_t len, uint8_t *out, size_t cap);
ptrdiff_t model_wrap_tcp_frame(const struct lk_frame *headers, const struct lk_tcp_options *options, size_t len,
                               uint8_t *out, size_t cap);
ptrdiff_t model_emit_udp_packet(const struct lk_frame *headers, const uint8_t *ptr, size_t len, uint8_t *out,
                                size_t cap);
ptrdiff_t model_emit_tcp_packet(const struct lk_frame *headers, const struct lk_tcp_options *options,
                                const uint8_t *ptr, size_t len, uint8_t *out, size_t cap);
ptrdiff_t model_emit_icmp_packet(const struct lk_frame *headers, const uint8_t *ptr, size_t len, uint8_t *out,
                                 size_t cap);
ptrdiff_t model_wrap_udp_packet(const struct lk_frame *headers, size_t len, uint8_t *out, size_t cap);
ptrdiff_t model_wrap_tcp_packet(const struct lk_frame *headers, const struct lk_tcp_options *options, size_t len,
                                uint8_t *out, size_t cap);
ptrdiff_t model_tcp_header_len(const struct lk_tcp_options *options);
ptrdiff_t model_emit_arp_frame(const struct lk_frame *headers, uint8_t *out, size_t cap);
ptrdiff_t model_emit_ethernet(const struct lk_ethernet *header, uint8_t *out, size_t cap);
ptrdiff_t model_emit_arp(const struct lk_arp *header, const struct lk_addr *src, const struct lk_addr *dst,
                         uint8_t *out, size_t cap);
ptrdiff_t model_emit_ip(const struct lk_ip *header, const struct lk_addr *src, const struct lk_addr *dst,
                        size_t payload_len, int computed, uint8_t *out, size_t cap);
ptrdiff_t model_emit_udp(const struct lk_endpoint *src, const struct lk_endpoint *dst, const uint8_t *ptr,
                         size_t len, int computed, uint8_t *out, size_t cap);
ptrdiff_t model_emit_tcp(const struct lk_tcp *header, const struct lk_tcp_options *options,
                         const struct lk_endpoint *src, const struct lk_endpoint *dst, const uint8_t *ptr,
                         size_t len, int computed, uint8_t *out, size_t cap);

ptrdiff_t model_emit_icmp(const struct lk_icmp *header, const struct lk_addr *src, const struct lk_addr *dst,
                          const uint8_t *ptr, size_t len, int computed, uint8_t *out, size_t cap);

/* ---- model_icmp.c ---- */

int model_find_ndisc(const uint8_t *octets, size_t len, struct lk_ndisc *ndisc);
ptrdiff_t model_emit_ndisc_frame(const struct lk_frame *headers, const struct lk_ndisc *ndisc, uint8_t *out,
                                 size_t cap);
ptrdiff_t model_emit_icmp_error(const struct lk_interface *own, int problem, uint32_t mtu, const uint8_t *octets,
                                size_t len, uint8_t *out, size_t cap);

/* ---- model_mld.c ---- */

ptrdiff_t model_emit_mld_report(const struct lk_frame *headers, uint8_t *out, size_t cap);
int model_find_mld_query(const uint8_t *frame, size_t len, const struct lk_addr *group, struct lk_mld_query *query);

/* ---- model_icmp.c, for others ---- */

/* Writes the message of a value, and returns its length. */
size_t put_ndisc(const struct lk_ndisc *ndisc, const struct lk_addr *src, const struct lk_addr *dst, uint8_t *out);

/* Writes the frame with an error about another frame, and returns its length; 0 if there may be none. */
size_t put_icmp_error(const struct lk_interface *own, int problem, uint32_t mtu, const uint8_t *octets, size_t len,
                      uint8_t *out);

/* Whether this is the number of an extension header. */
int is_extension_header(unsigned protocol);

/* The length of an extension header of which `len` bytes are there. */
size_t extension_header_len(unsigned number, const uint8_t *header, size_t len);

/* Whether an ICMP error may be sent about a frame whose packet has `len` bytes, its header `header_len` of them. If
 * `is_cut_told`, also if its IPv6 extension headers end early. */
int is_told_of(const struct lk_interface *own, const struct lk_frame *frame, const uint8_t *packet, size_t len,
               size_t header_len, int is_cut_told);

/* Writes the frame with an ICMP error that quotes the packet of a frame. */
size_t put_error_message(const struct lk_interface *own, const struct lk_frame *frame, const struct lk_icmp *icmp,
                         const uint8_t *packet, size_t packet_len, uint8_t *out);

/* Writes the error about the extension headers of the IPv6 packet in a frame; 0: none. */
size_t put_parameter_problem(const struct lk_interface *own, const struct lk_frame *frame, const uint8_t *packet,
                             uint8_t *out);

/* Copies an IPv6 packet without its extension headers, if a host skips them; 0: it does not. */
size_t skip_headers(const uint8_t *packet, uint8_t *shorter);

/* Whether one host may have this address. */
int is_host(const struct lk_addr *addr);

/* Whether packets from this address get an answer of an interface. */
int is_answered(const struct lk_interface *own, const struct lk_addr *src);

/* ---- model_host.c ---- */

void model_make_reply(struct lk_frame *frame);
ptrdiff_t model_rebuild(const uint8_t *ptr, size_t len, uint8_t *out, size_t cap);
ptrdiff_t model_answer(const struct lk_host *host, const uint8_t *ptr, size_t len, uint8_t *out, size_t cap);

/* ---- model_route.c ---- */

/* Why NAT rejects a frame. The frame is parsed too. */
int nat_rejection(const uint8_t *octets, size_t len, struct lk_frame *frame);

/* Update a checksum for another address, and write a port with its checksum. */
void update_sum(uint8_t *field, int is_udp, const struct lk_addr *before, const struct lk_addr *after);
void write_port(uint8_t *port_at, uint8_t *field, int is_udp, unsigned port);

/* Computes the checksum of an ICMP message over IPv4 anew. */
void write_icmp_sum(uint8_t *message, size_t len);

/* Writes an IPv4 address and a port into a frame that NAT does not reject. */
void write_end(uint8_t *octets, const struct lk_frame *frame, int side, const struct lk_endpoint *end);

int model_forward(uint8_t *octets, size_t len, const uint8_t *src, const uint8_t *dst);
int model_translate(uint8_t *octets, size_t len, int side, const struct lk_endpoint *end);
int model_clamp_mss(uint8_t *octets, size_t len, uint16_t mss);
int model_clamp_mss_as(uint8_t *octets, size_t len, uint16_t mss, int offload);

/* The model has no index and no table: it searches the routes one by one. */
ptrdiff_t model_index_routes(const struct lk_route *routes, size_t count, size_t node_count);
ptrdiff_t model_choose_route(const struct lk_route *routes, size_t count, const struct lk_addr *addr);
int model_check_source(const struct lk_route *routes, size_t count, const struct lk_addr *src, unsigned interface);

/* From this number on, routes have no table. */
enum { MODEL_NO_TABLE = 1 << 26 };
ptrdiff_t model_make_route_table(size_t count, size_t cell_count);

/* ---- model_edit.c ---- */

int model_set_hop_limit(uint8_t *octets, size_t len, uint8_t hop_limit);
int model_set_dscp(uint8_t *octets, size_t len, uint8_t dscp);
int model_set_addr(uint8_t *octets, size_t len, int side, const struct lk_addr *addr);
int model_set_port(uint8_t *octets, size_t len, int side, uint16_t port);
int model_set_bytes(uint8_t *octets, size_t len, size_t offset, const uint8_t *ptr, size_t count);
int model_set_addr_as(uint8_t *octets, size_t len, int side, const struct lk_addr *addr, int offload);
int model_set_port_as(uint8_t *octets, size_t len, int side, uint16_t port, int offload);
int model_set_bytes_as(uint8_t *octets, size_t len, size_t offset, const uint8_t *ptr, size_t count, int offload);
int model_fill_checksum(uint8_t *octets, size_t len);

/* ---- model_fragment.c ---- */

ptrdiff_t model_fragment(const uint8_t *octets, size_t len, size_t mtu, int64_t ident, size_t number, uint8_t *out,
                         size_t cap);

/* ---- model_reassembly.c ---- */

enum { MODEL_PARTIALS = 8, MODEL_NO_PLACE = MODEL_PARTIALS };

/* A packet of which fragments were received. */
struct model_partial {
    uint64_t expires; /* 0: there is none */
    int network;
    unsigned protocol;
    uint32_t ident;
    struct lk_addr src, dst;
    int is_dropped, has_ce, has_not_ect;
    size_t len;        /* of the payload; 0: not known */
    size_t high;       /* the greatest end of a fragment */
    size_t header_len; /* of the first fragment, with its fragment header */
    size_t first_len;  /* of the first fragment; 0: it was not received */
    uint8_t link[14];  /* of the fragment that came first */
    uint8_t first[65536 + 40], octets[65536], is_received[65536];
};

struct model_table_of_partials {
    struct model_partial at[MODEL_PARTIALS];
    size_t place; /* of the packet that the last call changed; MODEL_NO_PLACE: of none */
};

ptrdiff_t model_reassemble(struct model_table_of_partials *table, size_t count, size_t memory_len, uint64_t now,
                           const uint8_t *octets, size_t len, uint8_t *out, size_t cap);
size_t model_expire_reassembly(struct model_table_of_partials *table, size_t count, uint64_t now, uint8_t *out, size_t cap);

/* ---- model_nat.c ---- */

enum model_phase { MODEL_OPENING, MODEL_ESTABLISHED, MODEL_CLOSING };

struct model_mapping {
    int transport; /* an `lk_transport`: an echo identifier counts as a port */
    unsigned port; /* the outside port */
    struct lk_endpoint inside;
    struct lk_endpoint remote;
    int has_many_remotes;
    enum model_phase phase;
    uint64_t expires;
};

/* A list of mappings, in any order. */
struct model_table {
    struct model_mapping mappings[512];
    size_t count;
};

/* `chosen` is the outside port that the library took, for a new mapping. */
int model_translate_out(const struct lk_nat *nat, struct model_table *table, size_t count, uint64_t now,
                        uint8_t *octets, size_t len, unsigned chosen);
int model_translate_in(const struct lk_nat *nat, struct model_table *table, size_t count, uint64_t now,
                       uint8_t *octets, size_t len);

#endif
