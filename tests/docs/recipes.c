/* Calls the recipes of examples/recipes.c with frames that they are not made for: cut, damaged, to other hosts, from no
 * host. Each frame is in a buffer of its own length, so that the sanitizers end the program at an access outside of it.
 * A recipe that replies where it must not is printed, and the status is 1 then. */
#include <stdlib.h>
#define main recipes_main
#include "../../examples/recipes.c"
#undef main

enum { ROOM = 160 };

struct seed {
    uint8_t bytes[ROOM];
    size_t len;
};

/* A copy of `len` bytes with `more` bytes of room after them and `before` bytes before them. */
static uint8_t *copy_of(const uint8_t *bytes, size_t len, size_t before, size_t more)
{
    uint8_t *copy = malloc(before + len + more);
    if (copy == NULL && before + len + more > 0)
        exit(2);
    if (len > 0)
        memcpy(copy + before, bytes, len);
    return copy;
}

/* Calls each recipe that edits a frame or adds to it. */
static void edit(const uint8_t *bytes, size_t len)
{
    uint8_t *frame = copy_of(bytes, len, 0, 0);
    udp_checksum(frame, len);
    redirect(frame, len);
    redirect_virtio(frame, len, 0);
    redirect_virtio(frame, len, 1);
    hide_source(frame, len);
    replace(frame, len, "HELLO");
    free(frame);
    frame = copy_of(bytes, len, 0, 4);
    remove_tags(frame, add_tag(frame, len, 7));
    remove_tags(frame, len);
    free(frame);
    frame = copy_of(bytes, len, 14, 0);
    lower_hop_limit(frame, len);
    free(frame);
    if (len >= 14) {
        frame = copy_of(bytes, len, 0, 0);
        lower_hop_limit(frame, len - 14);
        free(frame);
    }
}

/* Calls each recipe that only reads a frame. */
static void inspect(const uint8_t *bytes, size_t len)
{
    const struct lk_addr own = addr_of("192.0.2.2"), other = addr_of("192.0.2.1");
    uint8_t *frame = copy_of(bytes, len, 0, 0), out[ROOM];
    print("read", frame, (ptrdiff_t)len);
    print_flags(frame, len);
    judge(frame, len);
    for (uint32_t type = 0; type < 300; type++)
        print_captured(type, frame, len, len + 10);
    for (size_t cap = 0; cap < ROOM; cap += 13)
        pong(&own, frame, len, out, cap);
    is_pong(&other, &own, 1, frame, len);
    if (len >= 14)
        is_pong(&other, &own, 1, frame + 14, len - 14);
    free(frame);
}

static void try_all(const uint8_t *bytes, size_t len)
{
    inspect(bytes, len);
    edit(bytes, len);
}

/* The frame cut to each length, and with each byte changed. */
static void damage(const struct seed *seed)
{
    static const uint8_t changes[] = {0x01, 0x80, 0xff};
    uint8_t bytes[ROOM];
    for (size_t len = 0; len <= seed->len; len++)
        try_all(seed->bytes, len);
    for (size_t at = 0; at < seed->len; at++)
        for (size_t i = 0; i < sizeof changes; i++) {
            memcpy(bytes, seed->bytes, seed->len);
            bytes[at] ^= changes[i];
            try_all(bytes, seed->len);
            lk_fill_checksum(bytes, seed->len);
            try_all(bytes, seed->len);
        }
}

/* A TCP header with each kind of option, of each length. */
static void damage_options(const struct seed *syn)
{
    uint8_t bytes[ROOM];
    for (unsigned kind = 0; kind < 256; kind++)
        for (unsigned len = 0; len < 8; len++) {
            memcpy(bytes, syn->bytes, syn->len);
            bytes[54] = (uint8_t)kind;
            bytes[55] = (uint8_t)len;
            lk_fill_checksum(bytes, syn->len);
            try_all(bytes, syn->len);
            print_options(bytes, &(struct lk_frame){.transport_offset = 34, .tcp = {.header_len = 24}});
        }
}

/* Whether a ping between these addresses gets a reply. */
static int is_answered(const char *src, const char *dst)
{
    const struct lk_addr own = addr_of("192.0.2.2");
    const struct lk_frame ping = {.src = {addr_of(src), 0}, .dst = {addr_of(dst), 0}, .ip = {.hop_limit = 64},
                                  .icmp = {1, 8, 0}};
    uint8_t frame[ROOM], out[ROOM];
    ptrdiff_t len = lk_emit_icmp_frame(&ping, (const uint8_t *)"ping", 4, frame, sizeof frame);
    return len > 0 && pong(&own, frame, (size_t)len, out, sizeof out) == len;
}

static int is_answered_wrongly(void)
{
    static const char *const sources[] = {"0.0.0.0", "224.0.0.1", "255.255.255.255"};
    static const char *const others[] = {"255.255.255.255", "224.0.0.1", "192.0.2.255", "192.0.2.3"};
    int faults = !is_answered("192.0.2.1", "192.0.2.2");
    for (size_t i = 0; i < sizeof sources / sizeof *sources; i++)
        faults += is_answered(sources[i], "192.0.2.2");
    for (size_t i = 0; i < sizeof others / sizeof *others; i++)
        faults += is_answered("192.0.2.1", others[i]);
    return faults;
}

/* Whether a ping over TUN takes its reply, and neither itself nor the reply to another one. */
static int is_ping_right(const char *from, const char *to, uint8_t reply)
{
    const struct lk_addr src = addr_of(from), dst = addr_of(to);
    uint8_t packet[ROOM];
    struct lk_frame f;
    ptrdiff_t len = ping(&src, &dst, 1, packet, sizeof packet);
    if (len < 0 || is_pong(&src, &dst, 1, packet, (size_t)len) || lk_read_packet(packet, (size_t)len, &f) != LK_READ)
        return 0;
    lk_make_reply(&f);
    f.icmp.type = reply;
    len = lk_emit_icmp_packet(&f, (const uint8_t *)"ping", 4, packet, sizeof packet);
    return is_pong(&src, &dst, 1, packet, (size_t)len) && !is_pong(&src, &dst, 2, packet, (size_t)len) &&
           !is_pong(&dst, &src, 1, packet, (size_t)len);
}

int main(void)
{
    struct seed udp, tagged, syn, echo = {{0}, 0};
    const struct lk_frame ping = {.src = {addr_of("192.0.2.1"), 0}, .dst = {addr_of("192.0.2.2"), 0},
                                  .ip = {.hop_limit = 64}, .icmp = {1, 8, 0}};
    memcpy(udp.bytes + 42, "hello", 5);
    udp.len = (size_t)write_around(5, udp.bytes, ROOM);
    tagged = udp;
    tagged.len = add_tag(tagged.bytes, add_tag(tagged.bytes, udp.len, 7), 8);
    syn.len = (size_t)write_syn(0, syn.bytes, ROOM);
    echo.len = (size_t)lk_emit_icmp_frame(&ping, (const uint8_t *)"ping", 4, echo.bytes, ROOM);
    damage(&udp);
    damage(&tagged);
    damage(&syn);
    damage(&echo);
    damage_options(&syn);
    if (is_answered_wrongly())
        return fprintf(stderr, "examples/recipes.c: pong replies to what it must not\n"), 1;
    if (!is_ping_right("192.0.2.1", "192.0.2.2", 0) || !is_ping_right("2001:db8::1", "2001:db8::2", 129))
        return fprintf(stderr, "examples/recipes.c: a ping over TUN takes a wrong reply\n"), 1;
    return recipes_main();
}
