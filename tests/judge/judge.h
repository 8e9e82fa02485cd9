/* What the files of the judge share. */
#ifndef JUDGE_H
#define JUDGE_H

#include "model.h"

/* ---- support.c: random values, which follow from the seed and the number of the case ---- */

void begin_case(uint64_t seed, uint64_t number);
uint64_t any(void);
size_t below(size_t bound);
int one_in(size_t count);
void fill(void *ptr, size_t len);

/* A length that is mostly short, at times long, and seldom up to `most`. */
size_t any_len(size_t most);

/* A length that is never used. */
size_t unused_len(void);

/* How many bytes of a payload are placed: none of one that no packet can have. */
size_t placed_len(size_t len);

/* The room for a result of this length: often just enough, at times too little, none, or never used. */
size_t any_cap(ptrdiff_t len);

/* What a caller says of a checksum. */
int any_offload(void);

/* Any bytes, into which a call writes. */
uint8_t *any_out(size_t cap);

/* ---- support.c: calls that are compared ---- */

struct call {
    const char *name;
    unsigned long count;
    struct call *next;
};

#define CALL(function)                              \
    do {                                            \
        static struct call call = {#function, 0, 0}; \
        begin_call(&call);                          \
    } while (0)

void catch_crashes(void);
void begin_call(struct call *call);
void print_counts(void);

/* Copies an argument between guard pages, directly after the first or before the second one. A call may read what
 * is `given`, and change a `room`. */
void *given(const char *name, const void *data, size_t len);
void *room(const void *data, size_t len);

/* Reports the first difference and ends the program. `end_call` also tests that what was given is unchanged. */
void end_call(ptrdiff_t wanted, ptrdiff_t came);
void same_number(const char *name, ptrdiff_t wanted, ptrdiff_t came);
void same_bytes(const char *name, const void *wanted, const void *came, size_t len);
void same_text(const char *name, const char *wanted, const char *came);
void same_frame(const struct lk_frame *wanted, const struct lk_frame *came);
void same_options(const struct lk_tcp_options *wanted, const struct lk_tcp_options *came);

/* ---- calls.c, calls_mld.c, calls_reach.c, calls_reassembly.c: each call of the library beside its model ---- */

#define BOTH(call) extern __typeof__(lk_##call) both_##call
BOTH(emit_udp_frame); BOTH(emit_tcp_frame); BOTH(emit_icmp_frame); BOTH(emit_arp_frame); BOTH(emit_ndisc_frame);
BOTH(emit_udp_packet); BOTH(emit_tcp_packet); BOTH(emit_icmp_packet); BOTH(wrap_udp_packet); BOTH(wrap_tcp_packet);
BOTH(wrap_udp_frame); BOTH(wrap_tcp_frame); BOTH(emit_ethernet); BOTH(emit_arp); BOTH(emit_ip); BOTH(emit_udp);
BOTH(emit_tcp); BOTH(emit_icmp); BOTH(emit_icmp_error); BOTH(rebuild); BOTH(answer); BOTH(print_addr);
BOTH(print_prefix); BOTH(print_endpoint); BOTH(print_mac); BOTH(print_frame); BOTH(read_frame); BOTH(read_packet);
BOTH(read_captured); BOTH(read_captured_packet); BOTH(find_tcp_options); BOTH(read_frame_options);
BOTH(next_tcp_option); BOTH(next_ipv6_header); BOTH(read_link); BOTH(read_linktype); BOTH(find_ndisc);
BOTH(parse_addr); BOTH(parse_prefix); BOTH(parse_endpoint); BOTH(parse_mac); BOTH(make_reply); BOTH(tcp_header_len);
BOTH(contains); BOTH(is_multicast); BOTH(is_unicast); BOTH(checksum);
BOTH(update_checksum); BOTH(update_udp_checksum); BOTH(update_checksum_addr); BOTH(update_udp_checksum_addr);
BOTH(update_checksum_bytes); BOTH(update_udp_checksum_bytes);
BOTH(add_seq); BOTH(subtract_seq); BOTH(compare_seq); BOTH(failure_name); BOTH(reason_name);
BOTH(rejection_name); BOTH(forward); BOTH(translate); BOTH(clamp_mss); BOTH(index_routes); BOTH(choose_route);
BOTH(check_source); BOTH(make_route_table); BOTH(choose_route_by_table); BOTH(check_source_by_table);
BOTH(translate_out); BOTH(translate_in); BOTH(set_hop_limit); BOTH(set_dscp); BOTH(set_addr);
BOTH(set_port); BOTH(set_bytes); BOTH(fill_checksum); BOTH(protocol_name); BOTH(ethertype_name);
BOTH(tcp_flag_name); BOTH(clamp_mss_as); BOTH(set_addr_as); BOTH(set_port_as); BOTH(set_bytes_as); BOTH(fragment);
BOTH(reassemble); BOTH(expire_reassembly); BOTH(emit_mld_report); BOTH(find_mld_query); BOTH(shrink_reach);

/* The model of NAT has a table of its own: it is empty then. */
void forget_mappings(void);

/* The same for reassembly. */
void forget_partials(void);

/* ---- calls_connection.c ---- */

/* Two connections and the network between them. */
void connect_ends(void);

/* ---- values.c, frames.c: values and frames ---- */

void any_hardware(uint8_t *octets);
struct lk_addr any_addr(unsigned version);
unsigned any_version(void);
unsigned any_port(void);

/* A neighbour solicitation or advertisement. */
struct lk_ndisc any_ndisc(void);

/* A host to which this frame is sent, mostly. */
struct lk_host any_host_for(const struct lk_frame *frame);

/* A header of a TCP segment with any options, up to 60 bytes. Returns its length. */
size_t any_tcp_header(uint8_t *out);

/* The frame that was made last. */
struct made {
    uint8_t octets[MODEL_ROOM];
    size_t len;
    size_t transport; /* where its UDP, TCP or ICMP header is; 0: none */
    unsigned upper;   /* its number after IPv6 extension headers; 0: none are before it */
    size_t target;    /* where the target of neighbour discovery is; 0: none */
    size_t end;       /* where its packet ends */
};
extern struct made made;

/* Makes a frame of any kind, with right, wrong, partial or no checksums. */
void make_valid(void);

/* The same, and then changes fields before the checksums, and bits and the length after them. */
void make_frame(void);

/* ---- cases_read.c, cases_link.c, cases_write.c, cases_text.c, cases_sums.c, cases_route.c,
 * cases_nat.c, cases_icmp.c, cases_mld.c, cases_edit.c, cases_fragment.c, cases_reassembly.c ---- */

void read_whole(void);
void read_cut(void);
void read_options(void);
void read_links(void);
void step_ipv6_headers(void);
void rebuild_frame(void);
void answer_frame(void);
void emit_frame(void);
void wrap_frame(void);
void emit_layer(void);
void reply_frame(void);
void parse_text(void);
void print_text(void);
void print_frame(void);
void sum_bytes(void);
void classify_addr(void);
void name_number(void);
void forward_frame(void);
void choose_route(void);
void translate_frames(void);
void emit_icmp(void);
void find_ndisc(void);
void ask_groups(void);
void emit_error(void);
void edit_frame(void);
void fragment_frame(void);
void reassemble_frames(void);

/* ---- worked.c ---- */

/* Makes all calls whose results are known from outside. The folder has the lines `host` of tests/frames/written.py. */
void make_worked_calls(const char *folder);

/* ---- capture.c ---- */

/* Writes a capture of valid frames, and what lk_read_frame stores of each as tshark prints it. */
void write_capture(const char *capture, const char *rows, unsigned long count);

/* The same for the ICMP messages among recorded frames, lines of hex digits of the standard input. */
void write_recorded(const char *capture, const char *rows);

#endif
