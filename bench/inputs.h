/* What the calls are timed on: the calls of a library, a row of the table, and the inputs of the rows. */
#include <stdint.h>
#include <string.h>
#include "../include/ip_wire.h"

enum {
    MOST_BYTES = 1 << 16,
    MOST_PAYLOAD = 1460,
    ADDRESSES = 256,
    MOST_TEXT = 39, /* of an address */
};

/* The calls of a library: on packets, more on frames, of texts, and those that only ours has. The floor has the first two
 * kinds, the reference the first and the third. */
#define PACKET_CALLS(X)                                                                                     \
    X(checksum) X(read_frame) X(find_tcp_options) X(rebuild) X(emit_arp) X(emit_ip) X(emit_udp) X(emit_tcp) \
    X(emit_arp_frame) X(emit_udp_frame) X(emit_tcp_frame) X(contains)
#define FRAME_CALLS(X)                                                                               \
    X(forward) X(translate) X(emit_icmp) X(emit_icmp_frame) X(find_ndisc) X(emit_ndisc_frame)          \
    X(read_frame_options) X(wrap_udp_frame) X(wrap_tcp_frame) X(answer) X(emit_icmp_error)             \
    X(clamp_mss) X(translate_out) X(translate_in) X(read_link) X(read_linktype) X(print_frame)         \
    X(set_hop_limit) X(set_dscp) X(set_addr) X(set_port) X(set_bytes) X(fill_checksum)
#define TEXT_CALLS(X) X(parse_addr) X(parse_prefix) X(print_addr) X(print_prefix) X(print_endpoint)
#define OWN_CALLS(X)                                                                                   \
    X(index_routes) X(choose_route) X(check_source) X(parse_endpoint) X(parse_mac)                \
    X(print_mac) X(read_packet) X(read_captured) X(next_tcp_option) X(update_checksum)            \
    X(update_checksum_addr) X(update_udp_checksum) X(update_udp_checksum_addr)                         \
    X(update_checksum_bytes) X(update_udp_checksum_bytes) X(make_route_table)                          \
    X(choose_route_by_table) X(check_source_by_table) X(fragment) X(reassemble)                        \
    X(emit_udp_packet) X(emit_tcp_packet) X(emit_icmp_packet) X(wrap_udp_packet) X(wrap_tcp_packet)    \
    X(connection_step) X(connection_tick) X(connection_write) X(connection_read)
#define CALL(name) __typeof__(lk_##name) *name;

struct library {
    PACKET_CALLS(CALL)
    FRAME_CALLS(CALL)
    TEXT_CALLS(CALL)
    OWN_CALLS(CALL)
    __typeof__(lk_parse_addr) *ipv4_parsed_by_core; /* ours beside Rust's core::net */
    __typeof__(lk_parse_addr) *ipv6_parsed_by_core;
};

enum owners { IN_OURS, IN_FLOOR, IN_REFERENCE, IN_ALL };

/* A TCP header by its options. */
struct header {
    const char *name;
    struct lk_tcp tcp;
    struct lk_tcp_options options;
    int has_nops; /* two, before the timestamp: not what the libraries emit */
};

struct row;

/* Calls a function of a library so many times, and returns the sum of its answers. */
typedef uint64_t repeater(const struct library *, const struct row *, uint64_t times);

/* What is timed: a call, and its input. */
struct call {
    const char *name;
    void (*prepare)(const struct row *);
    repeater *repeat;
};

struct row {
    const char *name;
    void (*prepare)(const struct row *);
    repeater *repeat;
    size_t size; /* the bytes of a payload, of padding, to be summed or of a text; the number of routes or frames */
    const struct header *header;
    const char *text;
    enum owners owners; /* the libraries that have the call */
    int is_first;       /* of a block of rows */
    unsigned counted;   /* tests/counts/run counts the instructions of so many calls; 0: it does not count this row */
};

static uint8_t bytes[MOST_BYTES];
static size_t frame_len; /* of the frame in them, where there is one */
static uint8_t payload[MOST_PAYLOAD]; /* of a UDP packet, a TCP segment or an ICMP message */
static volatile uint64_t sink;

/* What the calls store. */
static struct {
    struct lk_frame frame;
    struct lk_link link;
    struct lk_tcp_options options;
    struct lk_ndisc ndisc;
    uint8_t bytes[ADDRESSES * MOST_TEXT];
} out;
#define OUT out.bytes, sizeof out.bytes

#define IPV4(last) {{192, 168, 1, last}, 4}
#define IPV6(first, second, last) {{first, second, [15] = last}, 6}
#define HEADERS(low, high, next)                                                                   \
    {                                                                                              \
        .ethernet = {{2, 0, 0, 0, 0, 1}, {2, 0, 0, 0, 0, 2}, 0},                                   \
        .arp = {2, {2, 0, 0, 0, 0, 1}, {2, 0, 0, 0, 0, 2}},                                        \
        .ip = {.hop_limit = 64, .protocol = next, .dont_fragment = 1},                             \
        .src = {low, 48896}, .dst = {high, 53},                                                    \
    }
#define ENDS(version) (version == 4 ? &ipv4_headers : &ipv6_headers)

/* The protocol is one for experiments (RFC 3692), which no library parses. */
static const struct lk_frame ipv4_headers = HEADERS(IPV4(1), IPV4(2), 253);
static const struct lk_frame ipv6_headers = HEADERS(IPV6(0xfe, 0x80, 1), IPV6(0xff, 0x02, 1), 253);

static void prepare_bytes(const struct row *row)
{
    (void)row;
    for (size_t i = 0; i < MOST_BYTES; i++)
        bytes[i] = (uint8_t)(i * 31 % 251);
    memcpy(payload, bytes, sizeof payload);
}

static void prepare_arp(const struct row *row)
{
    prepare_bytes(row);
    frame_len = (size_t)lk_emit_arp_frame(&ipv4_headers, bytes, sizeof bytes) + row->size;
}

/* An IP packet of another protocol. */
static void prepare_ip(const struct lk_frame *headers, uint16_t type, size_t size)
{
    struct lk_ethernet ethernet = headers->ethernet;
    ethernet.type = type;
    prepare_bytes(NULL);
    lk_emit_ethernet(&ethernet, bytes, 14);
    frame_len = 14 + size;
    frame_len += (size_t)lk_emit_ip(&headers->ip, &headers->src.addr, &headers->dst.addr, size, 1, bytes + 14, 40);
}

static void prepare_ipv4(const struct row *row) { prepare_ip(&ipv4_headers, 0x0800, row->size); }
static void prepare_ipv6(const struct row *row) { prepare_ip(&ipv6_headers, 0x86dd, row->size); }

static void prepare_udp(const struct lk_frame *headers, const struct row *row)
{
    prepare_bytes(row);
    frame_len = (size_t)lk_emit_udp_frame(headers, payload, row->size, bytes, sizeof bytes);
}

static void prepare_udp_ipv4(const struct row *row) { prepare_udp(&ipv4_headers, row); }
static void prepare_udp_ipv6(const struct row *row) { prepare_udp(&ipv6_headers, row); }

static struct lk_frame echo_headers; /* of the ICMP message in the frame */

static void prepare_echo(const struct lk_frame *headers, uint8_t type, size_t size)
{
    prepare_bytes(NULL);
    echo_headers = *headers;
    echo_headers.icmp = (struct lk_icmp){0x12340001, type, 0};
    frame_len = (size_t)lk_emit_icmp_frame(&echo_headers, payload, size, bytes, sizeof bytes);
}

static void prepare_echo_ipv4(const struct row *row) { prepare_echo(&ipv4_headers, 8, row->size); }
static void prepare_echo_ipv6(const struct row *row) { prepare_echo(&ipv6_headers, 128, row->size); }

static struct lk_frame tcp_headers; /* of the segment in the frame */

/* Puts two NOPs before the timestamp of a TCP header, instead of the two zeros after it. */
static void move_timestamp(uint8_t *header)
{
    uint8_t *options = header + 20, *checksum = header + 16;
    uint16_t updated = lk_update_checksum((uint16_t)(checksum[0] << 8 | checksum[1]), 0, 0x0101);
    memmove(options + 2, options, 10);
    memset(options, 1, 2);
    checksum[0] = (uint8_t)(updated >> 8);
    checksum[1] = (uint8_t)updated;
}

static void prepare_tcp(const struct lk_frame *headers, const struct row *row)
{
    const size_t transport_at = headers->src.addr.version == 4 ? 34 : 54;
    const struct lk_tcp_options *options = &row->header->options;
    prepare_bytes(row);
    tcp_headers = *headers;
    tcp_headers.tcp = row->header->tcp;
    frame_len = (size_t)lk_emit_tcp_frame(&tcp_headers, options, payload, row->size, bytes, sizeof bytes);
    if (row->header->has_nops)
        move_timestamp(bytes + transport_at);
}

static void prepare_tcp_ipv4(const struct row *row) { prepare_tcp(&ipv4_headers, row); }
static void prepare_tcp_ipv6(const struct row *row) { prepare_tcp(&ipv6_headers, row); }

/* Frames as of a link, of all kinds and lengths in no order, and which of them is read next. */
enum { COLD_FRAMES = 1 << 14, COLD_ROOM = 4096 };
static uint8_t room_of_frames[COLD_FRAMES][COLD_ROOM]; /* more than the caches hold */
static struct {
    const uint8_t *ptr;
    size_t len;
} frames[COLD_FRAMES];
static size_t frame_count, next_frame;

/* A quarter are of IPv6, and a fifth are of UDP. Half of the TCP segments have a timestamp. */
static size_t write_any_frame(uint32_t random, uint8_t *to)
{
    static const uint16_t sizes[] = {0, 0, 6, 48, 120, 512, 1400, MOST_PAYLOAD};
    struct lk_frame of = random % 4 ? ipv4_headers : ipv6_headers;
    struct lk_tcp_options options = {.has_timestamp = random >> 2 & 1};
    size_t len = sizes[random >> 3 & 7];
    of.tcp = (struct lk_tcp){.flags = LK_ACK, .window_len = 502};
    if (random / 64 % 5 == 0)
        return (size_t)lk_emit_udp_frame(&of, payload, len, to, COLD_ROOM);
    return (size_t)lk_emit_tcp_frame(&of, &options, payload, len, to, COLD_ROOM);
}

/* Each frame follows the one before, or is in a page of its own. */
static void prepare_frames(size_t count, int apart)
{
    uint32_t random = 1;
    uint8_t *to = room_of_frames[0];
    prepare_bytes(NULL);
    frame_count = count;
    for (size_t i = 0; i < count; i++) {
        random = random * 1664525 + 1013904223;
        if (apart)
            to = room_of_frames[i];
        frames[i].ptr = to;
        frames[i].len = write_any_frame(random >> 12, to);
        to += frames[i].len;
    }
}

static void prepare_mixed(const struct row *row) { prepare_frames(row->size, 0); }

static void prepare_cold(const struct row *row)
{
    (void)row;
    prepare_frames(COLD_FRAMES, 1);
}

/* Addresses of four kinds: eight groups of all lengths, zeros in one place and in two, and an IPv4
 * address in the last four bytes. */
static struct lk_addr addresses[ADDRESSES];

static void prepare_addresses(const struct row *row)
{
    static const uint16_t masks[] = {0xffff, 0xfff, 0xff, 0xf};
    static const uint8_t mapped[12] = {[10] = 0xff, [11] = 0xff};
    (void)row;
    uint32_t random = 1;
    for (size_t i = 0; i < ADDRESSES; i++) {
        uint8_t *address = addresses[i].octets;
        addresses[i].version = 6;
        for (size_t group = 0; group < 8; group++) {
            random = random * 1664525 + 1013904223;
            uint16_t value = (uint16_t)(random >> 16) & masks[random >> 14 & 3];
            address[2 * group] = (uint8_t)(value >> 8);
            address[2 * group + 1] = (uint8_t)value;
        }
        if (i % 4 == 1 || i % 4 == 2)
            memset(address + 2 * (i / 4 % 4), 0, 4 + 2 * (i / 16 % 3));
        if (i % 4 == 2)
            memset(address + 12, 0, 4);
        if (i % 4 == 3)
            memcpy(address, mapped, sizeof mapped);
    }
}

static char texts[ADDRESSES * MOST_TEXT]; /* of the addresses, without anything between them */
static size_t text_ends[ADDRESSES];

static void prepare_texts(const struct row *row)
{
    size_t end = 0;
    prepare_addresses(row);
    for (size_t i = 0; i < ADDRESSES; i++) {
        end += (size_t)lk_print_addr(&addresses[i], texts + end, sizeof texts - end);
        text_ends[i] = end;
    }
}

/* What a text is parsed as, to be printed: an address with a port, a block, or an Ethernet address. */
static struct lk_endpoint endpoint;
static struct lk_prefix block;
static uint8_t hardware[6];

static void prepare_text(const struct row *row)
{
    lk_parse_addr(row->text, row->size, &endpoint.addr);
    lk_parse_prefix(row->text, row->size, &block);
    lk_parse_mac(row->text, row->size, hardware);
    endpoint.port = 8080;
}

/* Calls a function of a library again and again, as a C program does: between two calls only the arguments are loaded. */
#define REPEAT(name, function, ...)                                                            \
    static uint64_t name(const struct library *library, const struct row *row, uint64_t times) \
    {                                                                                          \
        __typeof__(library->function) call = library->function;                                \
        uint64_t answers = 0;                                                                  \
        (void)row;                                                                             \
        for (uint64_t i = 0; i < times; i++)                                                   \
            answers += (uint64_t)call(__VA_ARGS__);                                            \
        return answers;                                                                        \
    }

#define COUNT(array) (sizeof(array) / sizeof(array)[0])

/* Rows that are timed one after the other, each with each size. */
struct block {
    const struct call *rows;
    size_t row_count;
    const size_t *sizes;
    size_t size_count;
    enum owners owners;
    unsigned counted;
};
#define BLOCK(rows, sizes, owners, counted) {rows, COUNT(rows), sizes, COUNT(sizes), owners, counted}

typedef void visitor(const struct row *);
