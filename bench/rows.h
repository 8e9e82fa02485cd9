/* The rows of the table. */
#include <stdio.h>
#include "rows_routing.h"
#include "rows_connection.h"

REPEAT(call_checksum, checksum, bytes, row->size)
REPEAT(call_read, read_frame, bytes, frame_len, &out.frame)
REPEAT(call_read_options, find_tcp_options, bytes + 34, 60, &out.options)
REPEAT(call_read_frame_options, read_frame_options, bytes, frame_len, &out.frame, &out.options)
REPEAT(call_rebuild, rebuild, bytes, frame_len, OUT)
REPEAT(call_emit_arp, emit_arp, &ipv4_headers.arp, &ipv4_headers.src.addr, &ipv4_headers.dst.addr, OUT)
REPEAT(call_emit_arp_frame, emit_arp_frame, &ipv4_headers, OUT)
REPEAT(call_emit_icmp_frame, emit_icmp_frame, &echo_headers, payload, row->size, OUT)
REPEAT(call_emit_tcp_frame, emit_tcp_frame, &tcp_headers, &row->header->options, payload, row->size, OUT)

/* Calls that write one header or packet, and a whole frame, over each version. */
#define EMIT_CALLS(version)                                                                                       \
    REPEAT(call_emit_ip##version, emit_ip, &ENDS(version)->ip, &ENDS(version)->src.addr,                          \
           &ENDS(version)->dst.addr, row->size, 1, OUT)                                                           \
    REPEAT(call_emit_udp##version, emit_udp, &ENDS(version)->src, &ENDS(version)->dst, payload, row->size, 1, OUT) \
    REPEAT(call_emit_tcp##version, emit_tcp, &row->header->tcp, &row->header->options, &ENDS(version)->src,       \
           &ENDS(version)->dst, payload, row->size, 1, OUT)                                                       \
    REPEAT(call_emit_icmp##version, emit_icmp, &echo_headers.icmp, &ENDS(version)->src.addr,                      \
           &ENDS(version)->dst.addr, payload, row->size, 1, OUT)                                                  \
    REPEAT(call_emit_udp_frame##version, emit_udp_frame, ENDS(version), payload, row->size, OUT)

EMIT_CALLS(4)
EMIT_CALLS(6)
REPEAT(call_emit_ip_unsummed, emit_ip, &ipv4_headers.ip, &ipv4_headers.src.addr, &ipv4_headers.dst.addr, row->size, 0,
       OUT)

/* Reads as many frames as the row says. */
static uint64_t call_read_frames(const struct library *library, const struct row *row, uint64_t times)
{
    __typeof__(library->read_frame) read = library->read_frame;
    uint64_t answers = 0;
    for (uint64_t i = 0; i < times * row->size; i++) {
        answers += (uint64_t)read(frames[next_frame].ptr, frames[next_frame].len, &out.frame);
        next_frame = (next_frame + 1) % frame_count;
    }
    return answers;
}

/* The same with the prefetches of man/ip_wire.3. */
static uint64_t call_read_frames_ahead(const struct library *library, const struct row *row, uint64_t times)
{
    __typeof__(library->read_frame) read = library->read_frame;
    uint64_t answers = 0;
    for (uint64_t i = 0; i < times * row->size; i++) {
        const uint8_t *later = frames[(next_frame + 8) % frame_count].ptr;
        __builtin_prefetch(later);
        __builtin_prefetch(later + 64);
        answers += (uint64_t)read(frames[next_frame].ptr, frames[next_frame].len, &out.frame);
        next_frame = (next_frame + 1) % frame_count;
    }
    return answers;
}

static const struct lk_prefix block_of_ipv4 = {IPV4(0), 24}, block_of_ipv6 = {IPV6(0xfe, 0x80, 1), 64};
REPEAT(call_contains_ipv4, contains, &block_of_ipv4, &ipv4_headers.dst.addr)
REPEAT(call_contains_ipv6, contains, &block_of_ipv6, &ipv6_headers.dst.addr)

/* Calls that only ours has. */
REPEAT(call_read_packet, read_packet, bytes + 14, frame_len - 14, &out.frame)
REPEAT(call_read_captured, read_captured, bytes, 64, frame_len, &out.frame)
REPEAT(call_read_link, read_link, 1, bytes, frame_len, &out.link)
REPEAT(call_read_linktype, read_linktype, 1, bytes, frame_len, frame_len, &out.frame)
REPEAT(call_wrap_udp_frame, wrap_udp_frame, &ipv4_headers, row->size, OUT)
REPEAT(call_wrap_tcp_frame, wrap_tcp_frame, &tcp_headers, &row->header->options, row->size, OUT)
REPEAT(call_emit_udp_packet, emit_udp_packet, &ipv4_headers, payload, row->size, OUT)
REPEAT(call_emit_tcp_packet, emit_tcp_packet, &tcp_headers, &row->header->options, payload, row->size, OUT)
REPEAT(call_emit_icmp_packet, emit_icmp_packet, &echo_headers, payload, row->size, OUT)
REPEAT(call_wrap_udp_packet, wrap_udp_packet, &ipv4_headers, row->size, OUT)
REPEAT(call_wrap_tcp_packet, wrap_tcp_packet, &tcp_headers, &row->header->options, row->size, OUT)
REPEAT(call_update, update_checksum, 0x1234, 0x5678, 0x9abc)
REPEAT(call_update_addr, update_checksum_addr, 0x1234, &ipv4_headers.src.addr, &ipv4_headers.dst.addr)
REPEAT(call_update_udp, update_udp_checksum, 0x1234, 0x5678, 0x9abc)
REPEAT(call_update_udp_addr, update_udp_checksum_addr, 0x1234, &ipv6_headers.src.addr, &ipv6_headers.dst.addr)
REPEAT(call_update_bytes, update_checksum_bytes, 0x1234, 23, bytes, 2, bytes + 2, 2)
REPEAT(call_update_udp_bytes, update_udp_checksum_bytes, 0x1234, 8, bytes, 16, bytes + 16, 16)

/* Steps through all options of a header. */
static uint64_t call_next_options(const struct library *library, const struct row *row, uint64_t times)
{
    __typeof__(library->next_tcp_option) next = library->next_tcp_option;
    uint64_t answers = 0;
    (void)row;
    for (uint64_t i = 0; i < times; i++) {
        struct lk_tcp_option option = {0, 0, 0, 0};
        while (next(bytes + 34, 60, &option))
            answers++;
    }
    return answers;
}

static uint64_t call_print_all(const struct library *library, const struct row *row, uint64_t times)
{
    __typeof__(library->print_addr) print = library->print_addr;
    size_t written = 0;
    for (uint64_t i = 0; i < times; i++) {
        written = 0;
        for (size_t j = 0; j < row->size; j++)
            written += (size_t)print(&addresses[j], (char *)out.bytes + written, sizeof out.bytes - written);
    }
    return written;
}

static uint64_t call_parse_all(const struct library *library, const struct row *row, uint64_t times)
{
    __typeof__(library->parse_addr) parse = library->parse_addr;
    uint64_t found = 0;
    for (uint64_t i = 0; i < times; i++)
        for (size_t j = 0, begin = 0; j < row->size; begin = text_ends[j++])
            found += (uint64_t)parse(texts + begin, text_ends[j] - begin, &endpoint.addr);
    return found;
}

/* Calls that parse the text of a row, and that print its value. */
#define PARSE(name, value) REPEAT(name, name, row->text, row->size, &value)
#define PRINT(name, value) REPEAT(name, name, &value, (char *)out.bytes, sizeof out.bytes)

PARSE(parse_addr, endpoint.addr)
PARSE(ipv4_parsed_by_core, endpoint.addr)
PARSE(ipv6_parsed_by_core, endpoint.addr)
PARSE(parse_prefix, block)
PARSE(parse_endpoint, endpoint)
PARSE(parse_mac, hardware[0])
PRINT(print_addr, endpoint.addr)
PRINT(print_prefix, block)
PRINT(print_endpoint, endpoint)
PRINT(print_mac, hardware[0])
REPEAT(call_print_frame, print_frame, &out.frame, (char *)OUT)

static const struct call checksum_rows[] = {{"checksum", prepare_bytes, call_checksum}};
static const size_t checksum_sizes[] = {20, 28, 40, 60, 64, 100, 128, 256, 512, 1500, 4096, 9000};
static const size_t long_sizes[] = {1 << 16}; /* a longer sum wraps in the reference */

static const struct call arp_rows[] = {
    {"read ARP", prepare_arp, call_read},
    {"emit ARP", prepare_arp, call_emit_arp},
    {"emit frame ARP", prepare_arp, call_emit_arp_frame},
    {"rebuild ARP", prepare_arp, call_rebuild},
};
static const size_t arp_sizes[] = {0, 18};

static const struct call ip_rows[] = {
    {"read IPv4", prepare_ipv4, call_read},
    {"read IPv6", prepare_ipv6, call_read},
    {"emit IPv4", prepare_ipv4, call_emit_ip4},
    {"emit IPv4, no checksum", prepare_ipv4, call_emit_ip_unsummed},
    {"emit IPv6", prepare_ipv6, call_emit_ip6},
    {"rebuild IPv4", prepare_ipv4, call_rebuild},
    {"rebuild IPv6", prepare_ipv6, call_rebuild},
};

static const struct call udp_rows[] = {
    {"read UDP/IPv4", prepare_udp_ipv4, call_read},
    {"read UDP/IPv6", prepare_udp_ipv6, call_read},
    {"emit UDP/IPv4", prepare_udp_ipv4, call_emit_udp4},
    {"emit UDP/IPv6", prepare_udp_ipv6, call_emit_udp6},
    {"emit frame UDP/IPv4", prepare_udp_ipv4, call_emit_udp_frame4},
    {"emit frame UDP/IPv6", prepare_udp_ipv6, call_emit_udp_frame6},
    {"rebuild UDP/IPv4", prepare_udp_ipv4, call_rebuild},
    {"rebuild UDP/IPv6", prepare_udp_ipv6, call_rebuild},
};

static const struct call icmp_rows[] = {
    {"read ICMP/IPv4", prepare_echo_ipv4, call_read},
    {"read ICMP/IPv6", prepare_echo_ipv6, call_read},
    {"emit ICMP/IPv4", prepare_echo_ipv4, call_emit_icmp4},
    {"emit ICMP/IPv6", prepare_echo_ipv6, call_emit_icmp6},
    {"emit frame ICMP/IPv4", prepare_echo_ipv4, call_emit_icmp_frame},
    {"emit frame ICMP/IPv6", prepare_echo_ipv6, call_emit_icmp_frame},
};

static const struct call tcp_rows[] = {
    {"read TCP/IPv4", prepare_tcp_ipv4, call_read},
    {"read TCP/IPv6", prepare_tcp_ipv6, call_read},
    {"rebuild TCP/IPv4", prepare_tcp_ipv4, call_rebuild},
    {"rebuild TCP/IPv6", prepare_tcp_ipv6, call_rebuild},
};
static const struct call tcp_emit_rows[] = {
    {"emit TCP/IPv4", prepare_tcp_ipv4, call_emit_tcp4},
    {"emit TCP/IPv6", prepare_tcp_ipv6, call_emit_tcp6},
    {"emit frame TCP/IPv4", prepare_tcp_ipv4, call_emit_tcp_frame},
    {"emit frame TCP/IPv6", prepare_tcp_ipv6, call_emit_tcp_frame},
};
static const struct call option_rows[] = {{"read options", prepare_tcp_ipv4, call_read_options}};
static const struct call frame_option_rows[] = {
    {"read frame, options IPv4", prepare_tcp_ipv4, call_read_frame_options},
    {"read frame, options IPv6", prepare_tcp_ipv6, call_read_frame_options},
};
static const struct call contains_rows[] = {
    {"block contains IPv4", prepare_bytes, call_contains_ipv4},
    {"block contains IPv6", prepare_bytes, call_contains_ipv6},
};
static const size_t sizes[] = {0, 64, MOST_PAYLOAD}, no_size[] = {0};

static const struct call mixed_rows[] = {{"read mixed frames", prepare_mixed, call_read_frames}};
static const struct call cold_rows[] = {
    {"read mixed frames, cold", prepare_cold, call_read_frames},
    {"read mixed frames, cold, prefetch", prepare_cold, call_read_frames_ahead},
};
static const size_t mixed_counts[] = {1024};

static const struct call address_rows[] = {
    {"print addresses", prepare_addresses, call_print_all},
    {"parse addresses", prepare_texts, call_parse_all},
};
static const size_t address_counts[] = {ADDRESSES};

/* A text, and how it is parsed and its value printed. */
struct text {
    const char *text;
    const char *name;
    repeater *parse;
    repeater *parse_by_core;
    repeater *print;
};

static const struct text address_texts[] = {
    {"1.2.3.4", "IPv4 short", parse_addr, ipv4_parsed_by_core, print_addr},
    {"192.168.100.200", "IPv4 long", parse_addr, ipv4_parsed_by_core, print_addr},
    {"::", "IPv6 ::", parse_addr, ipv6_parsed_by_core, print_addr},
    {"::1", "IPv6 ::1", parse_addr, ipv6_parsed_by_core, print_addr},
    {"2001:db8::1:0:0:1", "IPv6 elided", parse_addr, ipv6_parsed_by_core, print_addr},
    {"fe80::1011:1213:1415:1617", "IPv6 link-local", parse_addr, ipv6_parsed_by_core, print_addr},
    {"2001:db8:1234:5678:9abc:def0:1234:5678", "IPv6 full", parse_addr, ipv6_parsed_by_core, print_addr},
    {"2001:DB8:ABCD:EF01:2345:6789:ABCD:EF01", "IPv6 upper case", parse_addr, ipv6_parsed_by_core, print_addr},
    {"::ffff:192.168.1.1", "IPv6 mapped", parse_addr, ipv6_parsed_by_core, print_addr},
    {"192.168.1.10/24", "IPv4 block", parse_prefix, NULL, print_prefix},
    {"2001:db8:1234::/48", "IPv6 block", parse_prefix, NULL, print_prefix},
    {"192.168.1.10", "IPv4 endpoint", NULL, NULL, print_endpoint},
    {"2001:db8::1", "IPv6 endpoint", NULL, NULL, print_endpoint},
};

static const struct text own_texts[] = {
    {"192.168.1.10:8080", "endpoint IPv4", parse_endpoint, NULL, NULL},
    {"255.255.255.255:65535", "endpoint IPv4 long", parse_endpoint, NULL, NULL},
    {"192.168.100.200", "endpoint IPv4 without port", parse_endpoint, NULL, NULL},
    {"[2001:db8::1]:8080", "endpoint IPv6", parse_endpoint, NULL, NULL},
    {"2001:db8:1234:5678:9abc:def0:1234:5678", "endpoint IPv6 without port", parse_endpoint, NULL, NULL},
    {"www.lerkvist.exam", "endpoint, rejected", parse_endpoint, NULL, NULL},
    {"x192.168.1.10:80", "endpoint, rejected later", parse_endpoint, NULL, NULL},
    {"not an address", "address, rejected", parse_addr, NULL, NULL},
    {"02-00-00-00-00-01", "Ethernet", parse_mac, NULL, print_mac},
};

/* TCP headers by their options: none, those of a SYN, of data, of data as Linux sends it, with two NOPs before the
 * timestamp, and of a duplicate acknowledgement. */
static const struct header headers[] = {
    {.name = " bare", .tcp = {.flags = LK_ACK, .window_len = 502}},
    {.name = " SYN",
     .tcp = {.flags = LK_SYN, .window_len = 64240},
     .options = {.has_mss = 1, .mss = 1460, .has_window_scale = 1, .window_scale = 7,
                 .sack_permitted = 1, .has_timestamp = 1, .tsval = 0x12345678}},
    {.name = " data",
     .tcp = {.flags = LK_PSH | LK_ACK, .window_len = 502},
     .options = {.has_timestamp = 1, .tsval = 0x12345678, .tsecr = 0x23456789}},
    {.name = " data, NOPs",
     .tcp = {.flags = LK_PSH | LK_ACK, .window_len = 502},
     .options = {.has_timestamp = 1, .tsval = 0x12345678, .tsecr = 0x23456789},
     .has_nops = 1},
    {.name = " SACK",
     .tcp = {.flags = LK_ACK, .window_len = 502},
     .options = {.has_timestamp = 1, .tsval = 0x12345678, .tsecr = 0x23456789, .sack_range_count = 3,
                 .sack_ranges = {{1460, 2920}, {4380, 5840}, {7300, 8760}}}},
};

static const struct block packet_blocks[] = {
    BLOCK(checksum_rows, checksum_sizes, IN_ALL, 1), BLOCK(checksum_rows, long_sizes, IN_ALL, 0),
    BLOCK(arp_rows, arp_sizes, IN_ALL, 1),           BLOCK(ip_rows, sizes, IN_ALL, 1),
    BLOCK(udp_rows, sizes, IN_ALL, 1),               BLOCK(contains_rows, no_size, IN_ALL, 1),
    BLOCK(mixed_rows, mixed_counts, IN_ALL, 1),      BLOCK(cold_rows, mixed_counts, IN_ALL, 0),
    BLOCK(icmp_rows, sizes, IN_FLOOR, 1),
};
static const struct block tcp_blocks[] = {
    BLOCK(tcp_rows, sizes, IN_ALL, 1),
    BLOCK(option_rows, no_size, IN_ALL, 1),
    BLOCK(frame_option_rows, no_size, IN_FLOOR, 1),
    BLOCK(tcp_emit_rows, sizes, IN_ALL, 1),
};
static const struct block address_block = BLOCK(address_rows, address_counts, IN_REFERENCE, 1);

/* The frame whose line is printed */
static void store_frame(void) { lk_read_frame(bytes, frame_len, &out.frame); }

static void prepare_udp_line(const struct row *row)
{
    prepare_udp_ipv4(row);
    store_frame();
}

static void prepare_tcp_line(const struct row *row)
{
    prepare_tcp_ipv4(row);
    store_frame();
}

static const struct call own_rows[] = {
    {"read packet UDP/IPv4", prepare_udp_ipv4, call_read_packet},
    {"read captured UDP/IPv4", prepare_udp_ipv4, call_read_captured},
    {"read captured ICMP/IPv4", prepare_echo_ipv4, call_read_captured},
    {"emit packet UDP/IPv4", prepare_udp_ipv4, call_emit_udp_packet},
    {"emit packet ICMP/IPv4", prepare_echo_ipv4, call_emit_icmp_packet},
    {"wrap packet UDP/IPv4", prepare_udp_ipv4, call_wrap_udp_packet},
};
static const struct call link_rows[] = {
    {"read link Ethernet", prepare_udp_ipv4, call_read_link},
    {"read link type UDP/IPv4", prepare_udp_ipv4, call_read_linktype},
    {"wrap frame UDP/IPv4", prepare_udp_ipv4, call_wrap_udp_frame},
    {"print frame UDP/IPv4", prepare_udp_line, call_print_frame},
};
static const struct call own_tcp_rows[] = {
    {"next options", prepare_tcp_ipv4, call_next_options},
    {"emit packet TCP/IPv4", prepare_tcp_ipv4, call_emit_tcp_packet},
    {"wrap packet TCP/IPv4", prepare_tcp_ipv4, call_wrap_tcp_packet},
};
static const struct call line_rows[] = {
    {"wrap frame TCP/IPv4", prepare_tcp_ipv4, call_wrap_tcp_frame},
    {"print frame TCP/IPv4", prepare_tcp_line, call_print_frame},
};
static const struct call update_rows[] = {
    {"update checksum", prepare_bytes, call_update},
    {"update checksum, address", prepare_bytes, call_update_addr},
    {"update UDP checksum", prepare_bytes, call_update_udp},
    {"update UDP checksum, address", prepare_bytes, call_update_udp_addr},
    {"update checksum, 2 bytes", prepare_bytes, call_update_bytes},
    {"update UDP checksum, 16 bytes", prepare_bytes, call_update_udp_bytes},
};
static const size_t own_sizes[] = {64};
static const struct block own_block = BLOCK(own_rows, own_sizes, IN_OURS, 1);
static const struct block link_block = BLOCK(link_rows, own_sizes, IN_FLOOR, 1);
static const struct block own_tcp_block = BLOCK(own_tcp_rows, own_sizes, IN_OURS, 1);
static const struct block line_block = BLOCK(line_rows, own_sizes, IN_FLOOR, 1);
static const struct block update_block = BLOCK(update_rows, no_size, IN_OURS, 1);

/* Visits the rows of a block, each with each size and with a header where they are of TCP. */
static void visit_block(const struct block *block, const struct header *header, visitor *visit)
{
    for (size_t i = 0; i < block->row_count; i++)
        for (size_t j = 0; j < block->size_count; j++) {
            const struct call *call = &block->rows[i];
            char name[48];
            snprintf(name, sizeof name, "%s%s", call->name, header ? header->name : "");
            visit(&(struct row){name, call->prepare, call->repeat, .size = block->sizes[j], .header = header,
                                .owners = block->owners, .counted = block->counted, .is_first = i + j == 0});
        }
}

/* Visits a row of what is done with a text, if there is a call for it. */
static void visit_text(const char *what, const char *by, const struct text *text, repeater *repeat, struct row row,
                       visitor *visit)
{
    char name[48];
    if (!repeat)
        return;
    snprintf(name, sizeof name, "%s %s%s", what, text->name, by);
    row.name = name;
    row.prepare = prepare_text;
    row.repeat = repeat;
    row.text = text->text;
    row.size = strlen(text->text);
    visit(&row);
}

/* Visits what is done with each text. For us "by core::net" is the same call again, so that it is not counted. */
static void visit_texts(const struct text *all, size_t count, enum owners owners, visitor *visit)
{
    for (size_t i = 0; i < count; i++) {
        const struct text *text = &all[i];
        visit_text("parse", "", text, text->parse, (struct row){.owners = owners, .counted = 1, .is_first = !i}, visit);
        visit_text("parse", ", by core::net", text, text->parse_by_core, (struct row){.owners = owners}, visit);
        visit_text("print", "", text, text->print, (struct row){.owners = owners, .counted = 1}, visit);
    }
}

static void visit_rows(visitor *visit)
{
    for (size_t i = 0; i < COUNT(packet_blocks); i++)
        visit_block(&packet_blocks[i], NULL, visit);
    for (size_t i = 0; i < COUNT(headers); i++)
        for (size_t j = 0; j < COUNT(tcp_blocks); j++)
            if (!headers[i].has_nops || tcp_blocks[j].rows != tcp_emit_rows)
                visit_block(&tcp_blocks[j], &headers[i], visit);
    for (size_t i = 0; i < COUNT(routing_blocks); i++)
        visit_block(&routing_blocks[i], NULL, visit);
    for (size_t i = 0; i < COUNT(connection_blocks); i++)
        visit_block(&connection_blocks[i], NULL, visit);
    visit_block(&own_block, NULL, visit);
    visit_block(&link_block, NULL, visit);
    visit_block(&own_tcp_block, &headers[1], visit);
    visit_block(&line_block, &headers[1], visit);
    visit_block(&update_block, NULL, visit);
    visit_block(&address_block, NULL, visit);
    visit_texts(address_texts, COUNT(address_texts), IN_REFERENCE, visit);
    visit_texts(own_texts, COUNT(own_texts), IN_OURS, visit);
}
