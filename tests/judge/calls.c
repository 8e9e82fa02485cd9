/* Each call of the library beside its model. `both_NAME` has the arguments and the results of `lk_NAME`: it gives the
 * same arguments to both, those of the library between guard pages, and ends the program at a difference. Numbers are
 * given as bytes too, so that a report shows them. */
#include <string.h>
#include "judge.h"

#define GIVE(ptr) given(#ptr, ptr, sizeof *(ptr))
#define NUMBER(number) (given(#number, &number, sizeof number), number)

/* ---- calls that write bytes ---- */

static uint8_t before[MODEL_ROOM], wanted[MODEL_ROOM];
static uint8_t *placed;

/* Begins a result: the same bytes for the model and the library. */
static void *begin_out(const void *out, size_t cap)
{
    size_t len = used_len(cap);
    if (len != 0)
        memcpy(wanted, out, len);
    return placed = room(wanted, len);
}

/* The same for bytes that the call reads too: the report shows them as they were. */
static void *begin_change(const char *name, const void *octets, size_t cap)
{
    size_t len = used_len(cap);
    if (len != 0)
        memcpy(before, octets, len);
    given(name, before, len);
    return begin_out(octets, cap);
}

static void end_out(const char *name, void *out, size_t cap)
{
    size_t len = used_len(cap);
    same_bytes(name, wanted, placed, len);
    if (len != 0)
        memcpy(out, wanted, len);
}

/* The model writes to `wanted`. */
#define WRITER(call, parameters, model, library)  \
    ptrdiff_t both_##call parameters              \
    {                                             \
        ptrdiff_t came;                           \
        CALL(lk_##call);                          \
        came = lk_##call library;                 \
        end_call(model_##call model, came);       \
        end_out("out", out, cap);                 \
        return came;                              \
    }

#define PAYLOAD given("payload", ptr, placed_len(len)), NUMBER(len)
#define INPUT given("octets", ptr, used_len(len)), NUMBER(len)
#define OUT begin_out(out, cap), NUMBER(cap)

WRITER(emit_udp_frame, (const struct lk_frame *headers, const uint8_t *ptr, size_t len, uint8_t *out, size_t cap),
       (headers, ptr, len, wanted, cap), (GIVE(headers), PAYLOAD, OUT))
WRITER(emit_tcp_frame, (const struct lk_frame *headers, const struct lk_tcp_options *options, const uint8_t *ptr,
                        size_t len, uint8_t *out, size_t cap),
       (headers, options, ptr, len, wanted, cap), (GIVE(headers), GIVE(options), PAYLOAD, OUT))
WRITER(emit_icmp_frame, (const struct lk_frame *headers, const uint8_t *ptr, size_t len, uint8_t *out, size_t cap),
       (headers, ptr, len, wanted, cap), (GIVE(headers), PAYLOAD, OUT))
WRITER(emit_arp_frame, (const struct lk_frame *headers, uint8_t *out, size_t cap), (headers, wanted, cap),
       (GIVE(headers), OUT))
WRITER(emit_ndisc_frame, (const struct lk_frame *headers, const struct lk_ndisc *ndisc, uint8_t *out, size_t cap),
       (headers, ndisc, wanted, cap), (GIVE(headers), GIVE(ndisc), OUT))
WRITER(wrap_udp_frame, (const struct lk_frame *headers, size_t len, uint8_t *out, size_t cap),
       (headers, len, wanted, cap),
       (GIVE(headers), NUMBER(len), begin_change("out before", out, cap), NUMBER(cap)))
WRITER(wrap_tcp_frame, (const struct lk_frame *headers, const struct lk_tcp_options *options, size_t len,
                        uint8_t *out, size_t cap),
       (headers, options, len, wanted, cap),
       (GIVE(headers), GIVE(options), NUMBER(len), begin_change("out before", out, cap), NUMBER(cap)))
WRITER(emit_udp_packet, (const struct lk_frame *headers, const uint8_t *ptr, size_t len, uint8_t *out, size_t cap),
       (headers, ptr, len, wanted, cap), (GIVE(headers), PAYLOAD, OUT))
WRITER(emit_tcp_packet, (const struct lk_frame *headers, const struct lk_tcp_options *options, const uint8_t *ptr,
                         size_t len, uint8_t *out, size_t cap),
       (headers, options, ptr, len, wanted, cap), (GIVE(headers), GIVE(options), PAYLOAD, OUT))
WRITER(emit_icmp_packet, (const struct lk_frame *headers, const uint8_t *ptr, size_t len, uint8_t *out, size_t cap),
       (headers, ptr, len, wanted, cap), (GIVE(headers), PAYLOAD, OUT))
WRITER(wrap_udp_packet, (const struct lk_frame *headers, size_t len, uint8_t *out, size_t cap),
       (headers, len, wanted, cap),
       (GIVE(headers), NUMBER(len), begin_change("out before", out, cap), NUMBER(cap)))
WRITER(wrap_tcp_packet, (const struct lk_frame *headers, const struct lk_tcp_options *options, size_t len,
                         uint8_t *out, size_t cap),
       (headers, options, len, wanted, cap),
       (GIVE(headers), GIVE(options), NUMBER(len), begin_change("out before", out, cap), NUMBER(cap)))
WRITER(emit_ethernet, (const struct lk_ethernet *header, uint8_t *out, size_t cap), (header, wanted, cap),
       (GIVE(header), OUT))
WRITER(emit_arp, (const struct lk_arp *header, const struct lk_addr *src, const struct lk_addr *dst, uint8_t *out,
                  size_t cap),
       (header, src, dst, wanted, cap), (GIVE(header), GIVE(src), GIVE(dst), OUT))
WRITER(emit_ip, (const struct lk_ip *header, const struct lk_addr *src, const struct lk_addr *dst, size_t payload_len,
                 int computed, uint8_t *out, size_t cap),
       (header, src, dst, payload_len, computed, wanted, cap),
       (GIVE(header), GIVE(src), GIVE(dst), NUMBER(payload_len), NUMBER(computed), OUT))
WRITER(emit_udp, (const struct lk_endpoint *src, const struct lk_endpoint *dst, const uint8_t *ptr, size_t len,
                  int computed, uint8_t *out, size_t cap),
       (src, dst, ptr, len, computed, wanted, cap), (GIVE(src), GIVE(dst), PAYLOAD, NUMBER(computed), OUT))
WRITER(emit_tcp, (const struct lk_tcp *header, const struct lk_tcp_options *options, const struct lk_endpoint *src,
                  const struct lk_endpoint *dst, const uint8_t *ptr, size_t len, int computed, uint8_t *out,
                  size_t cap),
       (header, options, src, dst, ptr, len, computed, wanted, cap),
       (GIVE(header), GIVE(options), GIVE(src), GIVE(dst), PAYLOAD, NUMBER(computed), OUT))
WRITER(emit_icmp, (const struct lk_icmp *header, const struct lk_addr *src, const struct lk_addr *dst,
                   const uint8_t *ptr, size_t len, int computed, uint8_t *out, size_t cap),
       (header, src, dst, ptr, len, computed, wanted, cap),
       (GIVE(header), GIVE(src), GIVE(dst), PAYLOAD, NUMBER(computed), OUT))
WRITER(emit_icmp_error, (const struct lk_interface *own, int problem, uint32_t mtu, const uint8_t *frame, size_t len,
                         uint8_t *out, size_t cap),
       (own, problem, mtu, frame, len, wanted, cap),
       (GIVE(own), NUMBER(problem), NUMBER(mtu), given("frame", frame, used_len(len)), NUMBER(len), OUT))
WRITER(rebuild, (const uint8_t *ptr, size_t len, uint8_t *out, size_t cap), (ptr, len, wanted, cap), (INPUT, OUT))
WRITER(fragment, (const uint8_t *ptr, size_t len, size_t mtu, int64_t ident, size_t number, uint8_t *out, size_t cap),
       (ptr, len, mtu, ident, number, wanted, cap), (INPUT, NUMBER(mtu), NUMBER(ident), NUMBER(number), OUT))

/* The ports of the host are arguments too. */
static const struct lk_host *give_host(const struct lk_host *host)
{
    static struct lk_host copy;
    copy = *host;
    copy.open_ports = given("open ports", host->open_ports, 2 * used_len(host->open_port_count));
    copy.open_udp_ports = given("open UDP ports", host->open_udp_ports, 2 * used_len(host->open_udp_port_count));
    return given("host", &copy, sizeof copy);
}

WRITER(answer, (const struct lk_host *host, const uint8_t *ptr, size_t len, uint8_t *out, size_t cap),
       (host, ptr, len, wanted, cap), (give_host(host), INPUT, OUT))

WRITER(print_addr, (const struct lk_addr *addr, char *out, size_t cap), (addr, (char *)wanted, cap), (GIVE(addr), OUT))
WRITER(print_prefix, (const struct lk_prefix *block, char *out, size_t cap), (block, (char *)wanted, cap),
       (GIVE(block), OUT))
WRITER(print_endpoint, (const struct lk_endpoint *endpoint, char *out, size_t cap), (endpoint, (char *)wanted, cap),
       (GIVE(endpoint), OUT))
WRITER(print_mac, (const uint8_t *octets, char *out, size_t cap), (octets, (char *)wanted, cap),
       (given("octets", octets, 6), OUT))
WRITER(print_frame, (const struct lk_frame *frame, char *out, size_t cap), (frame, (char *)wanted, cap),
       (GIVE(frame), OUT))

/* ---- calls that store a value ---- */

#define SAME_VALUE(wanted, came) same_bytes("the value", wanted, came, sizeof *(wanted))

/* The model stores in `stored`. */
#define READER(call, same, type, value, parameters, model, library) \
    int both_##call parameters                                      \
    {                                                               \
        type stored = *(value), *room_of_it;                        \
        int came;                                                   \
        CALL(lk_##call);                                            \
        room_of_it = room(value, sizeof stored);                    \
        came = lk_##call library;                                   \
        end_call(model_##call model, came);                         \
        same(&stored, room_of_it);                                  \
        *(value) = stored;                                          \
        return came;                                                \
    }

#define CAPTURED given("captured octets", ptr, used_len(captured)), NUMBER(captured), NUMBER(len)
#define TEXT given("text", text, used_len(len)), NUMBER(len)

static void same_link(const struct lk_link *a, const struct lk_link *b)
{
    same_number("offset", (ptrdiff_t)a->offset, (ptrdiff_t)b->offset);
    same_bytes("type and tags", &a->type, &b->type, 7);
}

static void same_ndisc(const struct lk_ndisc *a, const struct lk_ndisc *b)
{
    same_bytes("target", a->target.octets, b->target.octets, 16);
    same_bytes("version", &a->target.version, &b->target.version, 2);
    same_bytes("hardware", a->hardware, b->hardware, 6);
    same_bytes("flags", &a->has_hardware, &b->has_hardware, 5);
}

READER(read_frame, same_frame, struct lk_frame, frame, (const uint8_t *ptr, size_t len, struct lk_frame *frame),
       (ptr, len, &stored), (INPUT, room_of_it))
READER(read_packet, same_frame, struct lk_frame, frame, (const uint8_t *ptr, size_t len, struct lk_frame *frame),
       (ptr, len, &stored), (INPUT, room_of_it))
READER(read_captured, same_frame, struct lk_frame, frame,
       (const uint8_t *ptr, size_t captured, size_t len, struct lk_frame *frame), (ptr, captured, len, &stored),
       (CAPTURED, room_of_it))
READER(read_captured_packet, same_frame, struct lk_frame, frame,
       (const uint8_t *ptr, size_t captured, size_t len, struct lk_frame *frame), (ptr, captured, len, &stored),
       (CAPTURED, room_of_it))
READER(read_linktype, same_frame, struct lk_frame, frame,
       (uint32_t link_type, const uint8_t *ptr, size_t captured, size_t len, struct lk_frame *frame),
       (link_type, ptr, captured, len, &stored), (NUMBER(link_type), CAPTURED, room_of_it))
READER(read_link, same_link, struct lk_link, link,
       (uint32_t link_type, const uint8_t *ptr, size_t captured, struct lk_link *link),
       (link_type, ptr, captured, &stored),
       (NUMBER(link_type), given("captured octets", ptr, used_len(captured)), NUMBER(captured), room_of_it))
READER(find_tcp_options, same_options, struct lk_tcp_options, options,
       (const uint8_t *ptr, size_t len, struct lk_tcp_options *options), (ptr, len, &stored), (INPUT, room_of_it))

int both_read_frame_options(const uint8_t *ptr, size_t len, struct lk_frame *frame, struct lk_tcp_options *options)
{
    struct lk_frame *room_of_frame;
    struct lk_tcp_options *room_of_options;
    int came;
    CALL(lk_read_frame_options);
    room_of_frame = room(frame, sizeof *frame);
    room_of_options = room(options, sizeof *options);
    came = lk_read_frame_options(INPUT, room_of_frame, room_of_options);
    end_call(model_read_frame_options(ptr, len, frame, options), came);
    same_frame(frame, room_of_frame);
    same_options(options, room_of_options);
    return came;
}

READER(next_tcp_option, SAME_VALUE, struct lk_tcp_option, option,
       (const uint8_t *ptr, size_t len, struct lk_tcp_option *option), (ptr, len, &stored),
       (INPUT, (given("option before", option, sizeof *option), room_of_it)))
READER(next_ipv6_header, SAME_VALUE, struct lk_ipv6_header, header,
       (const uint8_t *ptr, size_t len, struct lk_ipv6_header *header), (ptr, len, &stored),
       (INPUT, (given("header before", header, sizeof *header), room_of_it)))
READER(find_ndisc, same_ndisc, struct lk_ndisc, ndisc, (const uint8_t *ptr, size_t len, struct lk_ndisc *ndisc),
       (ptr, len, &stored), (INPUT, room_of_it))
READER(parse_addr, SAME_VALUE, struct lk_addr, addr, (const char *text, size_t len, struct lk_addr *addr),
       (text, len, &stored), (TEXT, room_of_it))
READER(parse_prefix, SAME_VALUE, struct lk_prefix, block, (const char *text, size_t len, struct lk_prefix *block),
       (text, len, &stored), (TEXT, room_of_it))
READER(parse_endpoint, SAME_VALUE, struct lk_endpoint, endpoint,
       (const char *text, size_t len, struct lk_endpoint *endpoint), (text, len, &stored), (TEXT, room_of_it))

int both_parse_mac(const char *text, size_t len, uint8_t *octets)
{
    int came;
    CALL(lk_parse_mac);
    came = lk_parse_mac(TEXT, begin_out(octets, 6));
    end_call(model_parse_mac(text, len, wanted), came);
    end_out("octets", octets, 6);
    return came;
}

void both_make_reply(struct lk_frame *frame)
{
    struct lk_frame stored = *frame, *came;
    CALL(lk_make_reply);
    GIVE(frame);
    came = room(frame, sizeof *frame);
    lk_make_reply(came);
    end_call(0, 0);
    model_make_reply(&stored);
    same_frame(&stored, came);
    *frame = stored;
}

/* ---- calls that return a number ---- */

#define NUMBERED(type, call, parameters, model, library) \
    type both_##call parameters                          \
    {                                                    \
        type came;                                       \
        CALL(lk_##call);                                 \
        came = lk_##call library;                        \
        end_call(model_##call model, came);              \
        return came;                                     \
    }

NUMBERED(ptrdiff_t, tcp_header_len, (const struct lk_tcp_options *options), (options), (GIVE(options)))
NUMBERED(int, contains, (const struct lk_prefix *block, const struct lk_addr *addr), (block, addr),
         (GIVE(block), GIVE(addr)))
NUMBERED(int, is_multicast, (const struct lk_addr *addr), (addr), (GIVE(addr)))
NUMBERED(int, is_unicast, (const struct lk_addr *addr), (addr), (GIVE(addr)))
NUMBERED(uint16_t, checksum, (const uint8_t *ptr, size_t len), (ptr, len), (INPUT))
NUMBERED(uint16_t, update_checksum, (uint16_t checksum, uint16_t old, uint16_t new), (checksum, old, new),
         (NUMBER(checksum), NUMBER(old), NUMBER(new)))
NUMBERED(uint16_t, update_udp_checksum, (uint16_t checksum, uint16_t old, uint16_t new), (checksum, old, new),
         (NUMBER(checksum), NUMBER(old), NUMBER(new)))
NUMBERED(uint16_t, update_checksum_addr, (uint16_t checksum, const struct lk_addr *old, const struct lk_addr *new),
         (checksum, old, new), (NUMBER(checksum), GIVE(old), GIVE(new)))
NUMBERED(uint16_t, update_udp_checksum_addr,
         (uint16_t checksum, const struct lk_addr *old, const struct lk_addr *new), (checksum, old, new),
         (NUMBER(checksum), GIVE(old), GIVE(new)))

#define REPLACED NUMBER(checksum), NUMBER(offset), given("before", old, used_len(old_len)), NUMBER(old_len), \
                 given("after", new, used_len(new_len)), NUMBER(new_len)

NUMBERED(uint16_t, update_checksum_bytes,
         (uint16_t checksum, size_t offset, const uint8_t *old, size_t old_len, const uint8_t *new, size_t new_len),
         (checksum, offset, old, old_len, new, new_len), (REPLACED))
NUMBERED(uint16_t, update_udp_checksum_bytes,
         (uint16_t checksum, size_t offset, const uint8_t *old, size_t old_len, const uint8_t *new, size_t new_len),
         (checksum, offset, old, old_len, new, new_len), (REPLACED))
NUMBERED(uint32_t, add_seq, (uint32_t seq, uint32_t steps), (seq, steps), (NUMBER(seq), NUMBER(steps)))
NUMBERED(int32_t, subtract_seq, (uint32_t a, uint32_t b), (a, b), (NUMBER(a), NUMBER(b)))
NUMBERED(int, compare_seq, (uint32_t a, uint32_t b), (a, b), (NUMBER(a), NUMBER(b)))

#define NAMED(call, type)                                       \
    const char *both_##call(type number)                        \
    {                                                           \
        const char *came;                                       \
        CALL(lk_##call);                                        \
        came = lk_##call(NUMBER(number));                       \
        same_text("the result", model_##call(number), came);    \
        return came;                                            \
    }

NAMED(failure_name, ptrdiff_t)
NAMED(reason_name, int)
NAMED(rejection_name, int)
NAMED(protocol_name, int)
NAMED(ethertype_name, int)
NAMED(tcp_flag_name, int)

/* ---- calls that change a frame ---- */

#define CHANGER(call, parameters, model, library) \
    int both_##call parameters                    \
    {                                             \
        int came;                                 \
        CALL(lk_##call);                          \
        came = lk_##call library;                 \
        end_call(model_##call model, came);       \
        end_out("frame", frame, len);             \
        return came;                              \
    }

#define FRAME begin_change("frame", frame, len), NUMBER(len)

CHANGER(forward, (uint8_t *frame, size_t len, const uint8_t *src, const uint8_t *dst), (wanted, len, src, dst),
        (FRAME, given("src", src, 6), given("dst", dst, 6)))
CHANGER(translate, (uint8_t *frame, size_t len, int side, const struct lk_endpoint *end), (wanted, len, side, end),
        (FRAME, NUMBER(side), GIVE(end)))
CHANGER(clamp_mss, (uint8_t *frame, size_t len, uint16_t mss), (wanted, len, mss),
        (FRAME, NUMBER(mss)))
CHANGER(set_hop_limit, (uint8_t *frame, size_t len, uint8_t hop_limit), (wanted, len, hop_limit),
        (FRAME, NUMBER(hop_limit)))
CHANGER(set_dscp, (uint8_t *frame, size_t len, uint8_t dscp), (wanted, len, dscp), (FRAME, NUMBER(dscp)))
CHANGER(set_addr, (uint8_t *frame, size_t len, int side, const struct lk_addr *addr), (wanted, len, side, addr),
        (FRAME, NUMBER(side), GIVE(addr)))
CHANGER(set_port, (uint8_t *frame, size_t len, int side, uint16_t port), (wanted, len, side, port),
        (FRAME, NUMBER(side), NUMBER(port)))
CHANGER(set_bytes, (uint8_t *frame, size_t len, size_t offset, const uint8_t *ptr, size_t count),
        (wanted, len, offset, ptr, count), (FRAME, NUMBER(offset), given("ptr", ptr, used_len(count)), NUMBER(count)))
CHANGER(clamp_mss_as, (uint8_t *frame, size_t len, uint16_t mss, int offload),
        (wanted, len, mss, offload), (FRAME, NUMBER(mss), NUMBER(offload)))
CHANGER(set_addr_as, (uint8_t *frame, size_t len, int side, const struct lk_addr *addr, int offload),
        (wanted, len, side, addr, offload), (FRAME, NUMBER(side), GIVE(addr), NUMBER(offload)))
CHANGER(set_port_as, (uint8_t *frame, size_t len, int side, uint16_t port, int offload),
        (wanted, len, side, port, offload), (FRAME, NUMBER(side), NUMBER(port), NUMBER(offload)))
CHANGER(set_bytes_as, (uint8_t *frame, size_t len, size_t offset, const uint8_t *ptr, size_t count, int offload),
        (wanted, len, offset, ptr, count, offload),
        (FRAME, NUMBER(offset), given("ptr", ptr, used_len(count)), NUMBER(count), NUMBER(offload)))
CHANGER(fill_checksum, (uint8_t *frame, size_t len), (wanted, len), (FRAME))

/* ---- routes: the model searches those that were indexed last ---- */

static const struct lk_route *indexed;

ptrdiff_t both_index_routes(const struct lk_route *routes, size_t count, struct lk_route_node *nodes, size_t node_count)
{
    struct lk_route_node *came;
    size_t len = used_len(node_count) * sizeof *nodes, routes_len = used_len(count) * sizeof *routes;
    ptrdiff_t result;
    indexed = routes;
    CALL(lk_index_routes);
    came = room(nodes, len);
    result = lk_index_routes(given("routes", routes, routes_len), NUMBER(count), came, NUMBER(node_count));
    end_call(model_index_routes(routes, count, node_count), result);
    if (result < 0)
        same_bytes("nodes", nodes, came, len);
    else if (len != 0)
        memcpy(nodes, came, len);
    return result;
}

ptrdiff_t both_choose_route(const struct lk_route_node *nodes, size_t count, const struct lk_addr *addr)
{
    size_t used = used_len(count);
    ptrdiff_t came;
    CALL(lk_choose_route);
    given("routes", indexed, used * sizeof *indexed);
    came = lk_choose_route(given("nodes", nodes, used * sizeof *nodes), NUMBER(count), GIVE(addr));
    end_call(model_choose_route(indexed, used, addr), came);
    return came;
}

int both_check_source(const struct lk_route *routes, size_t route_count, const struct lk_route_node *nodes,
                      size_t count, const struct lk_addr *src, uint16_t interface)
{
    size_t used = used_len(count), routes_len = used_len(route_count) * sizeof *routes;
    int came;
    CALL(lk_check_source);
    came = lk_check_source(given("routes", routes, routes_len), NUMBER(route_count),
                           given("nodes", nodes, used * sizeof *nodes), NUMBER(count), GIVE(src), NUMBER(interface));
    end_call(model_check_source(indexed, used, src, interface), came);
    return came;
}

/* Nodes and cells of a list that is too long are not accessed. Cells after the table stay as they are. What was in the
 * cells of the table before makes no difference. */
ptrdiff_t both_make_route_table(const struct lk_route_node *nodes, size_t count, uint64_t *cells, size_t cell_count)
{
    size_t used = count < MODEL_NO_TABLE ? count : 0, kept = 0;
    size_t len = count < MODEL_NO_TABLE ? used_len(cell_count) : 0;
    const struct lk_route_node *of_index;
    uint64_t *came;
    ptrdiff_t result;
    CALL(lk_make_route_table);
    came = room(cells, len * sizeof *cells);
    of_index = given("nodes", nodes, used * sizeof *nodes);
    result = lk_make_route_table(of_index, NUMBER(count), came, NUMBER(cell_count));
    end_call(model_make_route_table(count, cell_count), result);
    if (result > 0)
        kept = (size_t)result;
    if (len > kept)
        same_bytes("cells that no table takes", cells + kept, came + kept, (len - kept) * sizeof *cells);
    for (size_t i = 0; i < kept; i++) {
        uint64_t old = cells[i];
        cells[i] = came[i];
        came[i] = ~old;
    }
    if (kept != 0) {
        lk_make_route_table(of_index, count, came, cell_count);
        same_bytes("the same table over other cells", cells, came, kept * sizeof *cells);
    }
    return result;
}

#define INDEX given("nodes", nodes, used_len(count) * sizeof *nodes), NUMBER(count)
#define CELLS given("cells", cells, used_len(cell_count) * sizeof *cells), NUMBER(cell_count)

ptrdiff_t both_choose_route_by_table(const struct lk_route_node *nodes, size_t count, const uint64_t *cells,
                                     size_t cell_count, const struct lk_addr *addr)
{
    size_t used = used_len(count);
    ptrdiff_t came;
    CALL(lk_choose_route_by_table);
    given("routes", indexed, used * sizeof *indexed);
    came = lk_choose_route_by_table(INDEX, CELLS, GIVE(addr));
    end_call(model_choose_route(indexed, used, addr), came);
    return came;
}

int both_check_source_by_table(const struct lk_route *routes, size_t route_count, const struct lk_route_node *nodes,
                               size_t count, const uint64_t *cells, size_t cell_count, const struct lk_addr *src,
                               uint16_t interface)
{
    size_t routes_len = used_len(route_count) * sizeof *routes;
    int came;
    CALL(lk_check_source_by_table);
    came = lk_check_source_by_table(given("routes", routes, routes_len), NUMBER(route_count), INDEX, CELLS, GIVE(src),
                                    NUMBER(interface));
    end_call(model_check_source(indexed, used_len(count), src, interface), came);
    return came;
}

/* ---- NAT with a table: the model has its own ---- */

static struct model_table table;

void forget_mappings(void)
{
    memset(&table, 0, sizeof table);
}

/* The arguments of a call. The mappings and the frame may change. */
#define NAT_ARGUMENTS                                                                                     \
    GIVE(nat), placed_mappings = begin_mappings(mappings, count), NUMBER(count), NUMBER(now), FRAME

static struct lk_mapping *begin_mappings(const struct lk_mapping *mappings, size_t count)
{
    size_t len = used_len(count) * sizeof *mappings;
    given("mappings", mappings, len);
    return room(mappings, len);
}

static void end_mappings(int came, struct lk_mapping *mappings, const struct lk_mapping *changed, size_t count)
{
    size_t len = used_len(count) * sizeof *mappings;
    if (came != LK_NOT_REJECTED)
        same_bytes("mappings", mappings, changed, len);
    else if (len != 0)
        memcpy(mappings, changed, len);
}

/* The outside port that the library took. */
static unsigned chosen_port(size_t len)
{
    struct lk_frame frame;
    model_read_frame(placed, len, &frame);
    return frame.transport == LK_ICMP ? frame.icmp.word >> 16 : frame.src.port;
}

int both_translate_out(const struct lk_nat *nat, struct lk_mapping *mappings, size_t count, uint64_t now,
                       uint8_t *frame, size_t len)
{
    struct lk_mapping *placed_mappings;
    int came;
    CALL(lk_translate_out);
    came = lk_translate_out(NAT_ARGUMENTS);
    end_call(model_translate_out(nat, &table, count, now, wanted, len, came == 0 ? chosen_port(len) : 0), came);
    end_out("frame", frame, len);
    end_mappings(came, mappings, placed_mappings, count);
    return came;
}

int both_translate_in(const struct lk_nat *nat, struct lk_mapping *mappings, size_t count, uint64_t now,
                      uint8_t *frame, size_t len)
{
    struct lk_mapping *placed_mappings;
    int came;
    CALL(lk_translate_in);
    came = lk_translate_in(NAT_ARGUMENTS);
    end_call(model_translate_in(nat, &table, count, now, wanted, len), came);
    end_out("frame", frame, len);
    end_mappings(came, mappings, placed_mappings, count);
    return came;
}
