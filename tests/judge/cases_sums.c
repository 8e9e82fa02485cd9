/* Cases of addresses, checksums, sequence numbers and names. */
#include <string.h>
#include "judge.h"

/* ---- addresses ---- */

/* The address is often that of the block, but for one bit. */
void classify_addr(void)
{
    struct lk_addr addr = any_addr(any_version());
    struct lk_prefix block = {addr, (uint16_t)(one_in(16) ? any() : below(one_in(2) ? 34 : 130))};
    if (one_in(4))
        block.addr = any_addr(any_version());
    if (!one_in(4) && addr_len(&block.addr) != 0) {
        size_t bit = below(8 * addr_len(&block.addr));
        block.addr.octets[bit / 8] ^= (uint8_t)(0x80 >> bit % 8);
    }
    both_is_multicast(&addr);
    both_is_unicast(&addr);
    both_contains(&block, &addr);
}

/* ---- checksums ---- */

/* Often a word at a limit of one's complement. */
static uint16_t any_word(void)
{
    return (uint16_t)(one_in(4) ? 0 : one_in(4) ? 0xffff : any());
}

static void update_word(void)
{
    uint16_t checksum = any_word(), before = any_word(), after = any_word();
    both_update_checksum(checksum, before, after);
    both_update_udp_checksum(checksum, before, after);
}

static struct lk_addr any_summed_addr(unsigned version)
{
    struct lk_addr addr = any_addr(version);
    if (one_in(4))
        for (size_t i = 0; i < addr_len(&addr); i += 2)
            put_word(addr.octets + i, any_word());
    if (one_in(16))
        memset(addr.octets, one_in(2) ? 0 : 0xff, addr_len(&addr));
    return addr;
}

static void update_addr(void)
{
    unsigned version = one_in(2) ? 4 : 6;
    struct lk_addr before = any_summed_addr(version), after = any_summed_addr(one_in(16) ? any_version() : version);
    uint16_t checksum = any_word();
    both_update_checksum_addr(checksum, &before, &after);
    both_update_udp_checksum_addr(checksum, &before, &after);
}

/* The bytes of a message: random, zeros or ones. */
static void fill_message(uint8_t *message, size_t len)
{
    fill(message, len);
    if (one_in(4))
        memset(message, one_in(2) ? 0 : 0xff, len);
}

/* The checksum of a message must become that of the changed message. */
static void update_bytes(void)
{
    uint8_t message[64], changed[96];
    size_t len = below(sizeof message + 1), offset = below(len + 1), before_len = below(len - offset + 1);
    size_t rest = len - offset - before_len, after_len = rest == 0 ? below(32) : before_len % 2 + 2 * below(16);
    uint16_t checksum, updated, came, came_of_udp;
    fill_message(message, sizeof message);
    fill_message(changed, sizeof changed);
    memcpy(changed, message, offset);
    memcpy(changed + offset + after_len, message + offset + before_len, rest);
    checksum = (uint16_t)~model_checksum(message, len);
    updated = (uint16_t)~model_checksum(changed, offset + after_len + rest);
    came_of_udp = both_update_udp_checksum_bytes(checksum == 0 ? 0xffff : checksum, offset, message + offset, before_len,
                                                 changed + offset, after_len);
    if (updated != 0xffff)
        same_number("the checksum of UDP", updated == 0 ? 0xffff : updated, came_of_udp);
    came = both_update_checksum_bytes(checksum, offset, message + offset, before_len, changed + offset, after_len);
    if (updated != 0xffff)
        same_number("the checksum", updated, came);
}

/* Any field, any offset, and lengths that are too long. */
static void update_any_bytes(void)
{
    uint8_t before[32], after[32];
    size_t before_len = one_in(64) ? unused_len() : below(33), after_len = one_in(64) ? unused_len() : below(33);
    size_t offset = (size_t)any();
    uint16_t checksum = any_word();
    fill_message(before, sizeof before);
    fill_message(after, sizeof after);
    both_update_checksum_bytes(checksum, offset, before, before_len, after, after_len);
    both_update_udp_checksum_bytes(checksum, offset, before, before_len, after, after_len);
}

void sum_bytes(void)
{
    static uint8_t octets[MODEL_ROOM];
    size_t len = any_len(0x1ffff);
    fill(octets, len);
    if (one_in(4))
        memset(octets, one_in(2) ? 0 : 0xff, len);
    both_checksum(octets, len);
    if (one_in(64))
        both_checksum(octets, unused_len());
    update_word();
    update_addr();
    update_bytes();
    update_any_bytes();
}

/* ---- sequence numbers ---- */

static void compare_seq(uint32_t a, uint32_t b)
{
    both_add_seq(a, b);
    both_subtract_seq(a, b);
    both_compare_seq(a, b);
}

/* ---- names ---- */

static void tell_version(void)
{
    CALL(lk_version);
    end_call(LK_VERSION_MAJOR * 65536 + LK_VERSION_MINOR * 256 + LK_VERSION_PATCH, (ptrdiff_t)lk_version());
    CALL(lk_cpu_supported);
    end_call(__builtin_cpu_supports("sse4.2") && __builtin_cpu_supports("popcnt") ? 1 : 0, lk_cpu_supported());
}

/* Two headers, one after the other, where the room ends at the second one or before it. */
static void append_headers(void)
{
    struct lk_ethernet ethernet;
    uint8_t octets[40];
    size_t cap = below(sizeof octets);
    struct lk_out out = {octets, cap, 0, 0};
    fill(&ethernet, sizeof ethernet);
    CALL(lk_append);
    given("cap", &cap, sizeof cap);
    for (int i = 0; i < 3; i++)
        lk_append(&out, lk_emit_ethernet(&ethernet, out.ptr, out.cap));
    end_call(LK_NO_ROOM, out.failure);
    end_call((ptrdiff_t)(cap / 14 * 14), (ptrdiff_t)out.len);
    end_call((ptrdiff_t)out.len, out.ptr - octets);
    end_call(0, (ptrdiff_t)out.cap);
}

void name_number(void)
{
    static const uint32_t steps[] = {0, 1, 0x7fffffff, 0x80000000, 0x80000001, 0xffffffff};
    uint32_t seq = (uint32_t)any();
    compare_seq(seq, one_in(2) ? (uint32_t)any() : seq + steps[below(6)]);
    both_failure_name(LK_FAILURE((ptrdiff_t)below(14) - 1));
    both_failure_name(one_in(2) ? (ptrdiff_t)below(100) : (ptrdiff_t)any());
    both_reason_name((int)below(LK_REASON_COUNT + 2) - 1);
    both_reason_name((int)any());
    both_rejection_name((int)below(LK_REJECTION_COUNT + 2) - 1);
    both_rejection_name((int)any());
    both_protocol_name((int)(one_in(8) ? any() : below(256)));
    both_ethertype_name((int)(one_in(2) ? 0x0800 + below(0x50) : 0x8000 + below(0x1200)));
    both_tcp_flag_name((int)(one_in(2) ? below(257) : 1u << below(8)));
    tell_version();
    append_headers();
}
