/* Cases of the edits in place. */
#include <string.h>
#include "judge.h"

static uint8_t frame[MODEL_ROOM];

static uint8_t *copy_made(void)
{
    return memcpy(frame, made.octets, made.len);
}

/* A right checksum is right after an edit too, and a wrong one is not. A wrong one may become that of the pseudo-header,
 * by chance. Headers that say where the others are do not change. */
static void keeps_verdict(int was_changed)
{
    struct lk_frame before, after;
    model_read_frame(made.octets, made.len, &before);
    model_read_frame(frame, made.len, &after);
    if (!was_changed || before.network == LK_NO_NETWORK)
        return;
    same_number("ipv4_checksum", before.ipv4_checksum, after.ipv4_checksum);
    if (before.transport_checksum == LK_CHECKSUM_VALID || before.transport_checksum == LK_CHECKSUM_OMITTED)
        same_number("transport_checksum", before.transport_checksum, after.transport_checksum);
    if (before.transport_checksum == LK_CHECKSUM_INVALID)
        same_number("a checksum that is right", 0, after.transport_checksum == LK_CHECKSUM_VALID);
    if (before.transport_checksum == LK_CHECKSUM_PARTIAL && after.transport_checksum != LK_CHECKSUM_VALID)
        same_number("transport_checksum", before.transport_checksum, after.transport_checksum);
}

/* A place in the frame, often near the beginning of a header. */
static size_t any_place(size_t len)
{
    size_t at = one_in(2) && made.transport != 0 ? made.transport + below(24) : 12 + below(56);
    return one_in(4) || at > len ? below(len + 2) : at;
}

static void set_bytes(size_t len)
{
    static uint8_t bytes[MODEL_ROOM];
    size_t at = one_in(64) ? unused_len() : any_place(made.len);
    size_t count = one_in(4) ? any_len(made.len) : below(6);
    fill(bytes, count);
    if (one_in(64))
        count = unused_len();
    keeps_verdict(both_set_bytes(copy_made(), len, at, bytes, count));
    both_set_bytes_as(copy_made(), len, at, bytes, count, any_offload());
}

/* Gives the packet the number of a protocol that is not looked into. */
static void hide_transport(void)
{
    static const uint8_t protocols[] = {33, 50, 51, 88, 89, 103, 112, 132, 135, 136, 139, 140};
    int is_ipv6 = made.octets[12] == 0x86;
    if (made.len > 34)
        made.octets[is_ipv6 ? 20 : 23] = protocols[below(sizeof protocols)];
}

static void edit_one(size_t len)
{
    static const int sides[] = {LK_SOURCE, LK_DESTINATION, LK_SOURCE, LK_DESTINATION, -1, 256, 0x10000};
    struct lk_addr addr = any_addr(one_in(16) ? any_version() : made.octets[12] == 0x86 ? 6 : 4);
    int side = sides[below(7)];
    uint16_t port = (uint16_t)any_port();
    keeps_verdict(both_set_hop_limit(copy_made(), len, (uint8_t)any()));
    keeps_verdict(both_set_dscp(copy_made(), len, (uint8_t)(one_in(8) ? any() : below(64))));
    keeps_verdict(both_set_addr(copy_made(), len, side, &addr));
    keeps_verdict(both_set_port(copy_made(), len, side, port));
    both_set_addr_as(copy_made(), len, side, &addr, any_offload());
    both_set_port_as(copy_made(), len, side, port, any_offload());
    set_bytes(len);
    both_fill_checksum(copy_made(), len);
}

void edit_frame(void)
{
    if (one_in(2))
        make_valid();
    else
        make_frame();
    if (one_in(4) && made.octets[12] == 0x08 && made.len > 34)
        made.octets[20] |= 0x20; /* more fragments, mostly after the first */
    if (one_in(8))
        hide_transport();
    edit_one(made.len);
    if (one_in(64))
        edit_one(unused_len());
}
