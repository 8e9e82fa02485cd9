/* TCP connections between programs/sockets.h and lwIP, through a link that loses, repeats, reorders and damages
 * segments:
 *     lwip SEED COUNT
 * Either end opens, over IPv4 or IPv6. Both write at once, in their own way, and close. The link may take only short
 * packets from some time on. It then sends ICMP errors to our end. It may remove the options of SYNs, and it moves the
 * sequence numbers of lwIP, as firewalls do. Every byte must come, no byte may go past a window that was offered, and
 * both ends must close. lwIP has no SACK and no timestamps as Debian builds it. */
#define _GNU_SOURCE
#include "memory_link.h"
#include <lwip/priv/tcp_priv.h>

enum { OURS, LWIP, ENDS, PORT = 7, FIRST_PORT = 10000, MOST_TALKS = 48, NOISE = 1 << 20, WHOLE = 1 << 30 };
enum { PER_MILLE = 1000, REPEATED = 20, LATE = 20, DAMAGED_OF_LOST = 8, KEPT = 4, LATEST = 3600000 };

/* How an application writes and reads: every `pause` milliseconds, at most so many bytes. */
static const struct habit {
    size_t size;
    uint32_t pause;
    size_t read, write;
} habits[] = {
    {0, 0, WHOLE, WHOLE},          {1, 0, WHOLE, WHOLE},         {40000, 0, WHOLE, WHOLE}, {150000, 0, WHOLE, WHOLE},
    {600000, 0, WHOLE, WHOLE},     {3000, 5, 400, 17},           {60000, 30, 2000, 900},   {90000, 2500, 20000, WHOLE},
    {200000, 20, WHOLE, WHOLE},
};
/* Of a thousand segments so many are lost. The path takes packets up to such a length from some time on (0: always
 * all), and `told` is in the ICMP error. Old routers tell 0 (RFC 1191, section 5). */
static const uint32_t losses[] = {0, 10, 30, 100};
static const struct path {
    size_t ipv4, ipv6, told;
} paths[] = {{0, 0, 1}, {0, 0, 1}, {1400, 1400, 1}, {1006, 1280, 1}, {576, 1300, 0}, {400, 1280, 0}};
static const size_t mtus[] = {MTU, MTU, 1300, 576};

struct side {
    struct habit habit;
    const uint8_t *text;
    size_t written, got, unread; /* `unread`: of the window of lwIP */
    uint64_t awake;
    int closes_last, is_shut, has_end;
    int has_edge, scale; /* `scale`: that it offered, or -1 */
    uint32_t first, edge; /* the number of its first byte; the highest edge of the windows that it offered */
};

struct talk {
    struct side sides[ENDS];
    struct socket *socket;
    struct tcp_pcb *pcb;
    uint64_t begun, small_from;
    uint32_t loss, moved;
    struct path path;
    size_t mtu;
    int network, is_ours, number, strips_options;
    uint32_t kept_at;
    size_t kept_len; /* the link keeps a text of lwIP, and its number */
    uint8_t kept[MTU];
};

static struct sockets sockets;
static struct talk *talks[MOST_TALKS];
static uint8_t noise[2 * NOISE];
static unsigned long seed, sent, lost, too_big, joined;

static _Noreturn void fail(const struct talk *t, const char *what)
{
    printf("seed %lu, connection %d over IPv%d, opened by %s, loss %u, MTU %zu, path %zu: %s after %lu ms\n", seed,
           t->number, t->network == LK_IPV4 ? 4 : 6, t->is_ours ? "us" : "lwIP", t->loss, t->mtu, t->path.ipv4, what,
           (unsigned long)(virtual_now - t->begun));
    for (const struct side *side = t->sides; side < t->sides + ENDS; side++)
        printf("%s: of %zu bytes %zu written; %zu read; FIN sent %d, read %d\n", side == t->sides ? "we" : "lwIP",
               side->habit.size, side->written, side->got, side->is_shut, side->has_end);
    exit(1);
}

static struct talk *talk_of(const struct lk_endpoint *one, const struct lk_endpoint *other)
{
    int number = (one->port == PORT ? other->port : one->port) - FIRST_PORT;
    struct talk *t = number >= 0 ? talks[number % MOST_TALKS] : NULL;
    return t != NULL && t->number == number ? t : NULL;
}

/* ---- the applications ---- */

/* Bytes came to an end. */
static void got(struct talk *t, int end, const void *bytes, size_t len)
{
    struct side *side = &t->sides[end], *peer = &t->sides[!end];
    if (len > peer->written - side->got || memcmp(bytes, peer->text + side->got, len) != 0)
        fail(t, end == OURS ? "other bytes came to our end" : "other bytes came to lwIP");
    side->got += len;
}

static size_t least(size_t a, size_t b)
{
    return a < b ? a : b;
}

static int may_close(const struct side *side)
{
    return side->written == side->habit.size && !side->is_shut && (side->has_end || !side->closes_last);
}

static void act_ours(struct socket *s)
{
    static uint8_t bytes[1 << 12];
    struct talk *t = talk_of(&s->headers.src, &s->headers.dst);
    struct side *side = t != NULL ? &t->sides[OURS] : NULL;
    int state = lk_connection_state(&s->tcp);
    if (t != NULL && s->taken++ == 0) { /* it opens, maybe after a reset */
        side->written = side->got = side->awake = side->is_shut = side->has_end = 0;
        t->socket = s;
    }
    if (t == NULL || t->socket != s || (virtual_now < side->awake && state != LK_CLOSED))
        return;
    size_t left = state != LK_CLOSED ? side->habit.read : WHOLE, n; /* its place may be given to another one */
    for (; (n = read_bytes(s, bytes, least(left, sizeof bytes))) > 0; left -= n)
        got(t, OURS, bytes, n);
    side->has_end = lk_connection_at_eof(&s->tcp);
    size_t len = least(side->habit.write, side->habit.size - side->written);
    side->written += write_bytes(s, side->text + side->written, len);
    if (may_close(side) && state > LK_SYN_SENT) {
        lk_connection_close(&s->tcp);
        side->is_shut = 1;
    }
    side->awake = virtual_now + side->habit.pause;
}

/* lwIP aborts if its last byte probed a window. It waits forever where a part of a segment was acknowledged, cwnd is
 * too small for the next one, and nothing is on its way. */
static void help_lwip(struct tcp_pcb *pcb)
{
    if (pcb->unsent == NULL)
        pcb->persist_backoff = 0;
    else if (pcb->unacked == NULL && pcb->cwnd < pcb->snd_wnd)
        pcb->cwnd = pcb->snd_wnd;
}

static void act_lwip(struct talk *t)
{
    struct side *side = &t->sides[LWIP];
    if (t->pcb != NULL && t->pcb->state == TIME_WAIT)
        t->pcb = NULL; /* lwIP frees it */
    if (t->pcb == NULL)
        return;
    help_lwip(t->pcb);
    if (virtual_now < side->awake)
        return;
    size_t read = least(least(side->habit.read, side->unread), UINT16_MAX);
    size_t len = least(least(side->habit.write, side->habit.size - side->written), tcp_sndbuf(t->pcb));
    if (read > 0)
        tcp_recved(t->pcb, (u16_t)read);
    side->unread -= read;
    if (len > 0 && tcp_write(t->pcb, side->text + side->written, (u16_t)len, TCP_WRITE_FLAG_COPY) == ERR_OK)
        side->written += len;
    /* lwIP leaves FIN in both parts of a segment that it cuts, to probe a window with it. */
    if (may_close(side) && (t->sides[OURS].habit.pause == 0 || t->pcb->unsent == NULL))
        side->is_shut = tcp_shutdown(t->pcb, 0, 1) == ERR_OK;
    tcp_output(t->pcb);
    side->awake = virtual_now + side->habit.pause;
}

static err_t on_text(void *place, struct tcp_pcb *pcb, struct pbuf *p, err_t error)
{
    struct talk *t = place;
    (void)pcb, (void)error;
    t->sides[LWIP].has_end |= p == NULL;
    for (struct pbuf *part = p; part != NULL; part = part->next)
        got(t, LWIP, part->payload, part->len);
    t->sides[LWIP].unread += p != NULL ? p->tot_len : 0;
    if (p != NULL)
        pbuf_free(p);
    return ERR_OK;
}

/* Both ends have closed, and our end has maybe forgotten it: then it answers by RST. */
static void on_error(void *place, err_t error)
{
    struct talk *t = place;
    t->pcb = NULL;
    int is_forgotten = error == ERR_RST && t->sides[OURS].has_end && t->sides[LWIP].has_end;
    if (error != ERR_CLSD && !is_forgotten)
        fail(t, "lwIP gave the connection up");
}

static void attach(struct talk *t, struct tcp_pcb *pcb)
{
    t->pcb = pcb;
    tcp_arg(pcb, t);
    tcp_recv(pcb, on_text);
    tcp_err(pcb, on_error);
    if (below(2))
        tcp_nagle_disable(pcb);
}

static err_t on_accept(void *place, struct tcp_pcb *pcb, err_t error)
{
    struct talk *t = talks[(pcb->remote_port - FIRST_PORT) % MOST_TALKS];
    (void)place;
    if (error == ERR_OK)
        attach(t, pcb);
    return error;
}

/* ---- the link ---- */

static uint32_t word(const uint8_t *at)
{
    return (uint32_t)at[0] << 8 | at[1];
}

/* Replaces a word of a TCP header, and updates the checksum (RFC 1624). */
static void replace(uint8_t *tcp, size_t at, uint32_t value)
{
    enum { CHECKSUM = 16 };
    uint32_t sum = (~word(tcp + CHECKSUM) & 0xffff) + (~word(tcp + at) & 0xffff) + value;
    sum = (sum & 0xffff) + (sum >> 16);
    sum = ~((sum & 0xffff) + (sum >> 16));
    memcpy(tcp + at, (uint8_t[]){(uint8_t)(value >> 8), (uint8_t)value}, 2);
    memcpy(tcp + CHECKSUM, (uint8_t[]){(uint8_t)(sum >> 8), (uint8_t)sum}, 2);
}

/* Moves the sequence numbers of lwIP, and removes the options of the first SYN. */
static void edit(const struct talk *t, int from, const struct lk_tcp *header, uint8_t *tcp)
{
    uint32_t number = from == OURS ? header->ack_number : header->seq_number + t->moved;
    size_t at = from == OURS ? 8 : 4;
    if (from == LWIP || (header->flags & LK_ACK)) {
        replace(tcp, at, number >> 16);
        replace(tcp, at + 2, number & 0xffff);
    }
    int is_first = (header->flags & (LK_SYN | LK_ACK)) == LK_SYN;
    for (at = 20; t->strips_options && is_first && at < header->header_len; at += 2)
        replace(tcp, at, 0x0101);
}

/* No segment goes past a window that was offered, but for a probe of one byte. Our window has room, and does not
 * shrink before the peer's FIN but by scaling. The numbers are those of lwIP. */
static void watch(struct talk *t, int from, const struct lk_tcp *tcp, const struct lk_tcp_options *options, size_t len)
{
    struct side *side = &t->sides[from], *peer = &t->sides[!from];
    int is_syn = (tcp->flags & LK_SYN) != 0;
    if (is_syn) {
        side->has_edge = 0;
        side->first = tcp->seq_number + 1;
        side->scale = options->has_window_scale && !t->strips_options ? options->window_scale : -1;
    }
    int scale = !is_syn && side->scale >= 0 && peer->scale >= 0 ? side->scale : 0;
    uint32_t edge = tcp->ack_number + ((uint32_t)tcp->window_len << scale);
    if (from == OURS && len > 0 && lk_compare_seq(tcp->seq_number + (uint32_t)len, peer->edge + (len == 1)) > 0)
        fail(t, "our end sends past the window");
    if (!(tcp->flags & LK_ACK) || (tcp->flags & LK_RST))
        return;
    if (from == OURS && edge - peer->first > side->got + BUFFER + peer->is_shut)
        fail(t, "our window has no room");
    if (from == OURS && side->has_edge && !peer->is_shut && lk_compare_seq(edge + (1U << scale), side->edge) <= 0)
        fail(t, "our window shrinks");
    if (!side->has_edge || lk_compare_seq(edge, side->edge) > 0)
        side->edge = edge;
    side->has_edge = 1;
}

/* A router tells our end, or puts a packet that may be fragmented into fragments. Returns 0 if the packet is short
 * enough. */
static int is_too_long(struct talk *t, const struct lk_frame *in, const uint8_t *bytes, size_t len)
{
    static uint8_t out[MTU + ETHERNET];
    const struct lk_interface router = {.ipv4 = {.version = 4, .octets = {10, [3] = 254}},
                                        .ipv6 = {.version = 6, .octets = {0xfd, [15] = 254}},
                                        .hardware = {2, [5] = LWIP + 1}};
    size_t path = in->network == LK_IPV4 ? t->path.ipv4 : t->path.ipv6;
    ptrdiff_t n;
    if (path == 0 || virtual_now < t->small_from || len <= ETHERNET + path)
        return 0;
    if (in->network == LK_IPV4 && !in->ip.dont_fragment) {
        for (size_t i = 0; (n = lk_fragment(bytes, len, path, LK_FORWARDED, i, out, sizeof out)) > 0; i++)
            arrive_after(1, LWIP, MTU, out, (size_t)n);
        return 1;
    }
    uint32_t told = in->network == LK_IPV6 || t->path.told ? (uint32_t)path : 0;
    n = lk_emit_icmp_error(&router, LK_PACKET_TOO_BIG, told, bytes, len, out, sizeof out);
    if (n > 0 && below(PER_MILLE) >= t->loss)
        arrive_after(1, OURS, t->mtu, out, (size_t)n);
    too_big++;
    return 1;
}

/* A frame is lost, or comes, maybe twice, late or damaged. */
static void pass(struct talk *t, int from, uint8_t *bytes, size_t len, size_t header)
{
    int is_lost = below(PER_MILLE) < t->loss, is_damaged = is_lost && below(DAMAGED_OF_LOST) == 0;
    lost += (unsigned long)is_lost;
    if (is_lost && !is_damaged)
        return;
    bytes[header + below((uint32_t)(len - header))] ^= (uint8_t)(is_damaged << below(8));
    for (int count = below(PER_MILLE) < REPEATED ? 2 : 1; count > 0; count--)
        arrive_after(below(PER_MILLE) < LATE ? 5 + below(100) : 5, !from, t->mtu, bytes, len);
}

/* The link keeps a text of lwIP now and then. If the text before it is sent again, both go in one segment: lwIP always
 * sends the same segments again. Returns the length of the frame. */
static size_t join(struct talk *t, const struct lk_frame *in, const struct lk_tcp_options *options, uint8_t *frame,
                   size_t len)
{
    uint8_t text[2 * MTU];
    struct lk_frame headers = *in;
    size_t both = in->payload_len + t->kept_len;
    headers.tcp.seq_number += t->moved;
    memcpy(text, frame + in->payload_offset, in->payload_len);
    if (in->payload_len > 0 && t->kept_len > 0 && in->tcp.seq_number + (uint32_t)in->payload_len == t->kept_at) {
        memcpy(text + in->payload_len, t->kept, t->kept_len);
        t->kept_len = 0;
        ptrdiff_t n = lk_emit_tcp_frame(&headers, options, text, both, frame, ETHERNET + t->mtu);
        joined += n > 0;
        return n > 0 ? (size_t)n : len;
    }
    if (in->payload_len > 0 && below(KEPT) == 0) {
        memcpy(t->kept, text, in->payload_len);
        t->kept_len = in->payload_len;
        t->kept_at = in->tcp.seq_number;
    }
    return len;
}

static void on_link(int from, const uint8_t *bytes, size_t len)
{
    static uint8_t copy[MTU + ETHERNET];
    struct lk_frame in;
    struct lk_tcp_options options;
    lk_read_frame_options(bytes, len, &in, &options);
    struct talk *t = in.transport == LK_TCP ? talk_of(&in.src, &in.dst) : NULL;
    if (t == NULL) {
        arrive_after(1, !from, MTU, bytes, len);
        return;
    }
    in.tcp.ack_number -= from == OURS ? t->moved : 0;
    watch(t, from, &in.tcp, &options, in.payload_len);
    sent++;
    memcpy(copy, bytes, len);
    edit(t, from, &in.tcp, copy + in.transport_offset);
    if (from == LWIP)
        len = join(t, &in, &options, copy, len);
    if (from == LWIP || !is_too_long(t, &in, copy, len))
        pass(t, from, copy, len, in.transport_offset);
}

/* ---- the connections ---- */

static void choose(struct side *side)
{
    side->habit = habits[below(sizeof habits / sizeof *habits)];
    side->text = noise + below(NOISE);
    side->closes_last = below(3) == 0;
}

static void begin(int number)
{
    struct talk *t = calloc(1, sizeof *t);
    *t = (struct talk){.number = number, .begun = virtual_now, .small_from = virtual_now + below(1000)};
    talks[number % MOST_TALKS] = t;
    choose(&t->sides[OURS]);
    choose(&t->sides[LWIP]);
    t->sides[LWIP].closes_last &= !t->sides[OURS].closes_last;
    t->loss = losses[below(sizeof losses / sizeof *losses)];
    t->path = paths[below(sizeof paths / sizeof *paths)];
    t->network = below(2) ? LK_IPV4 : LK_IPV6;
    t->mtu = mtus[below(t->network == LK_IPV4 ? sizeof mtus / sizeof *mtus : 3)];
    t->moved = below(2) ? UINT32_MAX - below(100000) : 0;
    t->strips_options = below(5) == 0;
    t->is_ours = (int)below(2);
    const uint16_t port = (uint16_t)(FIRST_PORT + number);
    if (t->is_ours) {
        sockets.mtu = t->mtu;
        t->socket = connect_socket(OURS, LWIP, t->network, port, PORT);
        return;
    }
    ip_addr_t server = t->network == LK_IPV4 ? (ip_addr_t)IPADDR4_INIT_BYTES(10, 0, 0, OURS + 1)
                                             : (ip_addr_t)IPADDR6_INIT_HOST(0xfd000000, 0, 0, OURS + 1);
    attach(t, tcp_new_ip_type(IP_GET_TYPE(&server)));
    if (tcp_bind(t->pcb, IP_ANY_TYPE, port) != ERR_OK || tcp_connect(t->pcb, &server, PORT, NULL) != ERR_OK)
        fail(t, "lwIP does not open");
}

/* Whether both ends have closed, and read all. */
static int is_over(struct talk *t)
{
    const struct side *ours = &t->sides[OURS], *lwip = &t->sides[LWIP];
    if (virtual_now - t->begun > LATEST)
        fail(t, "it does not end");
    if (!lwip->is_shut || !lwip->has_end || !ours->is_shut || !ours->has_end || t->pcb != NULL)
        return 0;
    if (lk_connection_state(&t->socket->tcp) != LK_CLOSED)
        return 0;
    if (ours->got != lwip->habit.size || lwip->got != ours->habit.size)
        fail(t, "bytes are missing");
    return 1;
}

/* Lets the applications of a connection act. Returns when one of them wakes. */
static uint64_t wake(struct talk *t)
{
    uint64_t first = UINT64_MAX;
    if (t->socket != NULL && t->sides[OURS].habit.pause > 0 && t->sides[OURS].awake <= virtual_now) {
        act_ours(t->socket);
        send_due(&sockets, t->socket, virtual_now);
    }
    act_lwip(t);
    for (struct side *side = t->sides; side < t->sides + ENDS; side++)
        if (side->awake > virtual_now && side->awake < first)
            first = side->awake;
    return first;
}

/* Runs `count` connections, MOST_TALKS at a time, until lwIP has forgotten all. */
static void run(int count)
{
    int numbers[MOST_TALKS];
    for (int i = 0; i < MOST_TALKS; i++)
        numbers[i] = i;
    for (int ended = 0; ended < count || tcp_active_pcbs != NULL || tcp_tw_pcbs != NULL;) {
        uint64_t next = virtual_now + DELAYS;
        deliver();
        for (int i = 0; i < MOST_TALKS; i++) {
            if (talks[i] != NULL && is_over(talks[i])) {
                numbers[i] += MOST_TALKS;
                ended++;
                free(talks[i]);
                talks[i] = NULL;
            }
            if (talks[i] == NULL && numbers[i] < count)
                begin(numbers[i]);
            if (talks[i] != NULL)
                next = least(next, wake(talks[i]));
        }
        virtual_now += run_timers(next - virtual_now);
    }
}

int main(int argc, char **argv)
{
    if (argc != 3)
        return 2;
    seed = dice = strtoul(argv[1], NULL, 10);
    int count = atoi(argv[2]);
    for (size_t i = 0; i < NOISE; i++)
        noise[i] = noise[NOISE + i] = (uint8_t)below(256);
    lwip_init();
    start_host(OURS, &sockets);
    start_host(LWIP, NULL);
    sockets.port = PORT;
    sockets.serve = act_ours;
    struct tcp_pcb *listening = tcp_new_ip_type(IPADDR_TYPE_ANY);
    if (tcp_bind(listening, IP_ANY_TYPE, PORT) != ERR_OK)
        return 1;
    tcp_accept(tcp_listen(listening), on_accept);
    run(count);
    printf("%d connections with lwIP, rings of %d bytes: %lu segments, %lu lost, %lu too big, %lu joined; all "
           "bytes right, %lu s of virtual time\n",
           count, BUFFER, sent, lost, too_big, joined, (unsigned long)(virtual_now / 1000));
}
