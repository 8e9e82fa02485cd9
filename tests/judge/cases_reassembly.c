/* Cases of reassembly: fragments of a few packets, in any order, with time between them. */
#include <string.h>
#include "judge.h"

enum { HELD = 24, FRAME_ROOM = 14 + 60 + 65536 + 8, SHORT = 320, ANY_CAPABLE = 4 };

/* A packet to cut. */
struct packet {
    int is_ipv6;
    uint8_t header[60]; /* without a fragment header */
    size_t header_len;
    uint32_t ident;
    uint8_t protocol, ecn; /* ANY_CAPABLE: each fragment has another codepoint than Not-ECT */
    uint8_t payload[65540];
    size_t len;
};

/* Fragments that were not sent yet, or may be sent once more. */
static struct held {
    uint8_t octets[FRAME_ROOM];
    size_t len;
} held[HELD];
static size_t held_count;

static struct lk_reassembly partials[MODEL_PARTIALS];
static uint8_t memory[MODEL_ROOM];
static size_t count, memory_len;
static uint64_t now;

/* Mostly some memory for a few hundred bytes of each packet. */
static void begin_table(void)
{
    size_t per = 9 * (1 + below(60)) + below(9);
    forget_partials();
    held_count = 0;
    memset(partials, 0, sizeof partials);
    count = one_in(16) ? 0 : 1 + below(one_in(2) ? 2 : MODEL_PARTIALS - 2);
    memory_len = one_in(16) ? below(count * 200 + 1) : count * per + below(count + 1);
    if (one_in(12)) {
        count = 1;
        memory_len = LK_REASSEMBLY_MEMORY + below(20) - 10;
    }
    fill(memory, memory_len);
    now = one_in(8) ? UINT64_MAX - below(100000) : one_in(2) ? 1 + below(1000) : any() >> 8;
}

/* One of few packets, mostly: their addresses, identifications and protocols are often the same. */
static void any_packet(struct packet *packet)
{
    static const uint8_t protocols[] = {17, 17, 17, 6, 1};
    struct lk_addr src, dst;
    uint8_t *header = packet->header;
    packet->is_ipv6 = one_in(3);
    src = any_addr(packet->is_ipv6 ? 6 : 4);
    dst = any_addr(packet->is_ipv6 ? 6 : 4);
    packet->ident = one_in(8) ? (uint32_t)any() : (uint32_t)below(2) << (one_in(8) ? 16 : 0);
    packet->protocol = protocols[below(5)];
    packet->ecn = (uint8_t)(one_in(2) ? 0 : one_in(3) ? ANY_CAPABLE : below(4));
    packet->len = 1 + below(one_in(4) ? SHORT : 60);
    if (memory_len > 70000 && count == 1)
        packet->len = one_in(2) ? 65490 + below(50) : 1 + below(65536);
    fill(packet->payload, packet->len);
    fill(header, 60);
    if (packet->is_ipv6) {
        packet->header_len = 40;
        header[0] = 0x60 | (header[0] & 15);
        header[6] = 44;
        memcpy(header + 8, src.octets, 16);
        memcpy(header + 24, dst.octets, 16);
    } else {
        packet->header_len = 20 + (one_in(3) ? 4 * below(11) : 0);
        header[9] = packet->protocol;
        memcpy(header + 12, src.octets, 4);
        memcpy(header + 16, dst.octets, 4);
    }
}

/* Fills in the header of a fragment at byte `from`, which may be no multiple of 8 only by mistake. */
static void put_header(const struct packet *packet, size_t header_len, size_t from, size_t len, int more, uint8_t *header)
{
    unsigned ecn = packet->ecn == ANY_CAPABLE ? 1 + (unsigned)below(3) : packet->ecn;
    ecn = one_in(48) ? (unsigned)below(4) : ecn;
    memcpy(header, packet->header, header_len);
    if (one_in(4))
        header[packet->is_ipv6 ? 7 : 8] = (uint8_t)any();
    if (packet->is_ipv6) {
        uint8_t *fragment = header + 40;
        put_word(header + 4, (unsigned)(8 + len));
        header[1] = (uint8_t)((header[1] & 0xcf) | ecn << 4);
        fragment[0] = one_in(24) ? (uint8_t)any() : packet->protocol;
        fragment[1] = (uint8_t)(one_in(4) ? any() : 0);
        put_word(fragment + 2, (unsigned)((from & 0xfff8) | (one_in(8) ? below(4) * 2 : 0) | (size_t)more));
        put_long(fragment + 4, packet->ident);
        return;
    }
    header[0] = (uint8_t)(0x40 | header_len / 4);
    header[1] = (uint8_t)((header[1] & 0xfc) | ecn);
    put_word(header + 2, (unsigned)(header_len + len));
    put_word(header + 4, packet->ident);
    put_word(header + 6, (unsigned)(one_in(8) ? below(8) << 13 & 0xc000 : 0) | (more ? 0x2000u : 0) | (unsigned)(from / 8 & 0x1fff));
    put_word(header + 10, 0);
    put_word(header + 10, one_in(64) ? (unsigned)any() : 0xffffu - model_checksum(header, header_len));
}

/* Keeps a fragment of a packet. The last one of the longest packets may be past byte 65535. */
static void hold(const struct packet *packet, size_t from, size_t len, int more)
{
    struct held *one = &held[held_count < HELD ? held_count++ : below(HELD)];
    size_t options = packet->is_ipv6 ? 0 : packet->header_len - 20, header_len = packet->header_len, at;
    if (from != 0 && options != 0 && one_in(2))
        header_len -= 4 * below(options / 4 + 1);
    if ((packet->is_ipv6 ? 8 : header_len) + len > 65535)
        len = 65528 - header_len - (packet->is_ipv6 ? 8 : 0);
    any_hardware(one->octets);
    any_hardware(one->octets + 6);
    put_word(one->octets + 12, packet->is_ipv6 ? 0x86dd : 0x0800);
    put_header(packet, header_len, from, len, more, one->octets + 14);
    at = 14 + header_len + (packet->is_ipv6 ? 8 : 0);
    memcpy(one->octets + at, packet->payload + from, len);
    if (len > 0 && one_in(100))
        one->octets[at + below(len)] ^= (uint8_t)(1u << below(8));
    one->len = at + len;
    if (one_in(4))
        for (size_t padding = below(8); padding > 0; padding--)
            one->octets[one->len++] = (uint8_t)any();
}

/* Cuts a packet, mostly at multiples of 8 bytes. Some fragments begin before the end of the one before. */
static void cut_packet(void)
{
    static struct packet packet;
    size_t from = 0, most;
    any_packet(&packet);
    most = packet.len > SHORT ? 1 + packet.len / (1 + below(6)) : 8 + below(80);
    if (one_in(16))
        most = packet.len;
    while (from < packet.len) {
        size_t left = packet.len - from, len = 1 + below(most);
        len = len < left ? (len + 7) & ~(size_t)7 : left;
        if (len >= left)
            len = left;
        if (len < left && one_in(64))
            len -= below(8);
        hold(&packet, from, len, one_in(64) ? (int)below(2) : len < left);
        if (one_in(64) && from >= 8)
            hold(&packet, from - 8, one_in(2) ? 8 : len, 1);
        from += one_in(64) ? 0 : (len + 7) & ~(size_t)7;
        if (one_in(100))
            from += 8;
    }
}

/* Sends one of the held fragments, mostly the last or the first one, and mostly not again. */
static void send_fragment(void)
{
    size_t at = one_in(2) ? below(held_count) : one_in(2) ? 0 : held_count - 1, len, cap;
    struct held *one = &held[at];
    if (one_in(48))
        one->octets[below(one->len < 60 ? one->len : 60)] ^= (uint8_t)(1u << below(8));
    len = one_in(64) ? below(one->len + 1) : one->len;
    cap = one_in(8) ? any_cap(40 + (ptrdiff_t)below(SHORT)) : memory_len > 70000 ? 65589 : 14 + 60 + 60 * 8 + 8;
    both_reassemble(partials, count, memory, memory_len, now, one->octets, len, any_out(cap), cap);
    if (one_in(6))
        return;
    held_count--;
    if (at != held_count)
        *one = held[held_count];
}

static void pass_time(void)
{
    static const uint32_t steps[] = {1, 10, 1000, 30000, 59999, 60000, 60001};
    uint64_t step = one_in(4) ? steps[below(7)] : 0;
    now = step > UINT64_MAX - now ? UINT64_MAX : now + step;
}

static void expire_some(void)
{
    size_t tries = 1 + below(4), cap = one_in(4) ? any_cap(60 + (ptrdiff_t)below(SHORT)) : 65589;
    while (tries-- > 0 && both_expire_reassembly(partials, count, memory, memory_len, now, any_out(cap), cap) > 0)
        continue;
}

/* Any partials, and any memory: what comes is open, but nothing outside may be accessed. */
static void reassemble_by_anything(void)
{
    static struct lk_reassembly strange[MODEL_PARTIALS];
    size_t len = count * sizeof *strange, cap = any_cap(500);
    fill(strange, sizeof strange);
    for (size_t i = 0; i < count; i++) {
        strange[i] = one_in(2) ? partials[i] : strange[i];
        if (one_in(2))
            strange[i].len = below(one_in(2) ? 100 : 70000);
    }
    if (held_count == 0)
        cut_packet();
    CALL(lk_reassemble);
    given("partials", strange, len);
    end_call(1, lk_reassemble(room(strange, len), count, room(memory, memory_len), memory_len, now,
                              given("frame", held[0].octets, held[0].len), held[0].len, room(any_out(cap), used_len(cap)),
                              cap) <= 65589);
    CALL(lk_expire_reassembly);
    given("partials before", strange, len);
    end_call(1, lk_expire_reassembly(room(strange, len), count, given("memory", memory, memory_len), memory_len, now,
                          room(any_out(cap), used_len(cap)), cap) <= 65589);
}

void reassemble_frames(void)
{
    size_t steps = 8 + below(one_in(8) ? 120 : 40);
    begin_table();
    while (steps-- > 0) {
        if (held_count == 0 || (one_in(5) && held_count < HELD - 4))
            cut_packet();
        send_fragment();
        pass_time();
        if (one_in(12))
            expire_some();
    }
    make_frame();
    both_reassemble(partials, count, memory, memory_len, now, made.octets, one_in(8) ? unused_len() : made.len,
                    any_out(400), 400);
    if (one_in(32))
        both_reassemble(partials, unused_len(), memory, memory_len, now, made.octets, made.len, any_out(400), 400);
    if (one_in(32))
        both_expire_reassembly(partials, unused_len(), memory, memory_len, now, any_out(400), 400);
    if (one_in(16))
        reassemble_by_anything();
}
