/* The calls of TCP connections: two ends exchange bytes over a network that loses, repeats and reorders segments, and in
 * hostile cases changes them. They have no model: what the header says of a call is tested, and that all bytes arrive. */
#include <string.h>
#include "judge.h"

enum { RING = 0x11000, MOST_SIZE = 2000, FLYING = 24, LOSSY = 20000, STEPS = 100000, MOST_TEXT = 12000 };
enum event { CONNECT, STEP, TICK };

static struct end {
    struct lk_connection connection;
    uint8_t outgoing[RING], incoming[RING], text[RING];
    size_t outgoing_len, incoming_len, text_len, written, came; /* of `text`; of that of the other end */
    int is_closed, state;
    uint64_t due;
    size_t waiting;
    struct flying {
        struct lk_segment segment;
        uint8_t payload[MOST_SIZE];
    } flying[FLYING]; /* to this end */
    size_t count;
} ends[2];
static int is_hostile;
static uint64_t begun, now;

static struct end *other(const struct end *end)
{
    return end == ends ? ends + 1 : ends;
}

/* The calls that only look. */
static void look(struct end *end)
{
    int is_ended;
    CALL(lk_connection_at_eof);
    is_ended = lk_connection_at_eof(given("connection", &end->connection, sizeof end->connection));
    end_call(1, is_ended == 0 || is_ended == 1);
    CALL(lk_connection_next_timeout);
    end->due = lk_connection_next_timeout(given("connection", &end->connection, sizeof end->connection));
    end_call(0, 0);
    CALL(lk_connection_unacked);
    end->waiting = lk_connection_unacked(given("connection", &end->connection, sizeof end->connection));
    end_call(1, end->waiting <= end->outgoing_len + 2);
    CALL(lk_connection_state);
    end->state = lk_connection_state(given("connection", &end->connection, sizeof end->connection));
    end_call(1, end->state >= LK_CLOSED && end->state <= LK_TIME_WAIT);
}

/* A segment leaves: its payload is in the ring. */
static void leave(struct end *end, const struct lk_segment *out, const uint8_t *outgoing)
{
    struct end *to = other(end);
    struct flying *one = &to->flying[to->count < FLYING ? to->count++ : below(FLYING)];
    size_t at = (size_t)(out->payload - outgoing), len = out->payload_len;
    same_number("a payload in the ring", 1, len == 0 || (at < end->outgoing_len && len <= end->outgoing_len - at));
    same_number("a payload of at most a segment", 1, len <= MOST_SIZE);
    one->segment = *out;
    if (len != 0)
        memcpy(one->payload, out->payload, len);
}

/* One event, with rings of these lengths. After one with other rings than those of the connection, this is as before. */
static int meet(enum event event, struct end *end, size_t outgoing_len, size_t incoming_len, const struct lk_segment *in)
{
    size_t waiting, used = used_len(incoming_len), payload_len = in ? in->payload_len : 0;
    int is_usual = outgoing_len == end->outgoing_len && incoming_len == end->incoming_len, is_refused, came;
    struct lk_segment arrived, before, *out;
    struct lk_connection *connection;
    uint8_t *incoming;
    const uint8_t *outgoing;
    waiting = lk_connection_unacked(&end->connection);
    if (event == CONNECT) CALL(lk_connection_connect);
    else if (event == STEP) CALL(lk_connection_step);
    else CALL(lk_connection_tick);
    is_refused = payload_len > 65535 || used == 0 || used_len(outgoing_len) + 2 < waiting || used_len(outgoing_len) == 0;
    fill(&before, sizeof before);
    outgoing = given("outgoing", end->outgoing, used_len(outgoing_len));
    incoming = room(end->incoming, used);
    connection = room(&end->connection, sizeof *connection);
    out = room(&before, sizeof before);
    if (event == STEP) {
        arrived = *in;
        arrived.payload = given("payload", in->payload, placed_len(payload_len));
        came = lk_connection_step(connection, outgoing, outgoing_len, incoming, incoming_len, now,
                                  given("segment", &arrived, sizeof arrived), (uint32_t)any(), out);
    } else if (event == CONNECT) {
        came = lk_connection_connect(connection, outgoing, outgoing_len, incoming, incoming_len, now, (uint32_t)any(), out);
    } else {
        came = lk_connection_tick(connection, outgoing, outgoing_len, incoming, incoming_len, now, out);
    }
    end_call(1, is_refused ? came == -1 : came == 0 || came == 1 || (came == -1 && !is_usual));
    if (came != 1)
        same_bytes("out", &before, out, sizeof before);
    if (came == -1) {
        same_bytes("connection", &end->connection, connection, sizeof *connection);
        same_bytes("incoming", end->incoming, incoming, used);
    } else if (is_usual) {
        end->connection = *connection;
        memcpy(end->incoming, incoming, used);
        if (came == 1)
            leave(end, out, outgoing);
    }
    return came;
}

static size_t other_len(size_t len)
{
    size_t other = one_in(8) ? unused_len() : any_len(one_in(2) ? RING - 1 : len);
    return other == len ? other + 1 - 2 * (len == RING) : other;
}

/* One or both rings of other lengths. */
static void meet_others(struct end *end)
{
    size_t pick = below(3), outgoing_len = pick == 0 ? end->outgoing_len : other_len(end->outgoing_len);
    size_t incoming_len = pick == 1 ? end->incoming_len : other_len(end->incoming_len);
    meet(one_in(4) ? CONNECT : TICK, end, outgoing_len, incoming_len, 0);
}

/* Changes a segment. */
static void alter(struct lk_segment *segment)
{
    static const uint8_t zeros[65540];
    static const uint8_t steps[] = {1, 2, 48, 255};
    switch (below(6)) {
    case 0: fill(&segment->tcp, sizeof segment->tcp); break;
    case 1: fill(&segment->options, sizeof segment->options); break;
    case 2: segment->tcp.flags ^= (uint8_t)(1u << below(8)); break;
    case 3: segment->tcp.seq_number += steps[below(4)]; break;
    case 4: segment->tcp.ack_number -= steps[below(4)]; break;
    default:
        segment->payload = zeros;
        segment->payload_len = one_in(8) ? unused_len() : one_in(4) ? 65530 + below(9) : below(one_in(4) ? 65537 : 500);
    }
}

/* A segment arrives: mostly the first one, and mostly once; until some time has passed it may get lost. */
static void arrive(struct end *end)
{
    struct flying *one = &end->flying[one_in(4) ? below(end->count) : 0];
    struct lk_segment segment = one->segment;
    segment.payload = one->payload;
    if (is_hostile && one_in(8))
        alter(&segment);
    if (now - begun > LOSSY || !one_in(8))
        meet(STEP, end, end->outgoing_len, end->incoming_len, &segment);
    if (!one_in(8))
        memmove(one, one + 1, (size_t)(end->flying + --end->count - one) * sizeof *one);
}

static void write_some(struct end *end)
{
    size_t len = end->text_len - end->written, least;
    uint8_t *outgoing;
    ptrdiff_t came;
    CALL(lk_connection_write);
    len = one_in(4) ? below(len + 1) : len;
    least = end->waiting >= end->outgoing_len ? 0 : end->outgoing_len - end->waiting;
    least = end->state <= LK_LISTEN || end->is_closed ? 0 : len < least ? len : least;
    outgoing = room(end->outgoing, end->outgoing_len);
    struct lk_connection *connection = room(&end->connection, sizeof *connection);
    came = lk_connection_write(connection, outgoing, end->outgoing_len, given("ptr", end->text + end->written, len), len);
    end_call(1, came >= (ptrdiff_t)least && came <= (ptrdiff_t)len && !(came && (end->is_closed || end->state <= LK_LISTEN)));
    end->connection = *connection;
    memcpy(end->outgoing, outgoing, end->outgoing_len);
    end->written += (size_t)came;
}

static void read_some(struct end *end)
{
    size_t cap = one_in(32) ? RING : below(one_in(4) ? 3000 : 300);
    uint8_t *before = any_out(cap), *out;
    ptrdiff_t came;
    CALL(lk_connection_read);
    struct lk_connection *connection = room(&end->connection, sizeof *connection);
    out = room(before, cap);
    came = lk_connection_read(connection, given("incoming", end->incoming, end->incoming_len), end->incoming_len, out, cap);
    end_call(1, came >= 0 && came <= (ptrdiff_t)cap);
    same_bytes("out after the bytes", before + came, out + came, cap - (size_t)came);
    end->connection = *connection;
    if (is_hostile)
        return;
    same_number("no more than was written", 1, end->came + (size_t)came <= other(end)->written);
    same_bytes("the bytes of the peer", other(end)->text + end->came, out, (size_t)came);
    end->came += (size_t)came;
}

/* The calls that get no ring. To close in SYN-SENT or before gives the connection up (RFC 9293, section 3.10.4). */
static void end_some(struct end *end)
{
    struct lk_segment before, *out;
    struct lk_connection *connection;
    int came;
    fill(&before, sizeof before);
    if (!end->is_closed && end->written == end->text_len && (end->state > LK_SYN_SENT || is_hostile)) {
        CALL(lk_connection_close);
        lk_connection_close(connection = room(&end->connection, sizeof *connection));
        end->is_closed = 1;
    } else if (is_hostile && one_in(8)) {
        CALL(lk_connection_abort);
        out = room(&before, sizeof before);
        came = lk_connection_abort(connection = room(&end->connection, sizeof *connection), out);
        end_call(1, came == 0 || came == 1);
        if (came == 1)
            same_number("the payload of a RST", 0, (ptrdiff_t)out->payload_len);
        else
            same_bytes("out", &before, out, sizeof before);
    } else {
        uint32_t number = is_hostile && other(end)->count ? other(end)->flying->segment.tcp.seq_number : (uint32_t)any();
        CALL(lk_connection_too_big);
        came = lk_connection_too_big(connection = room(&end->connection, sizeof *connection), number, (uint16_t)any());
        end_call(1, came == 0 || came == 1);
        if (came == 0)
            same_bytes("connection", &end->connection, connection, sizeof *connection);
    }
    end->connection = *connection;
}

static void begin_end(struct end *end)
{
    size_t most = one_in(16) ? RING : one_in(4) ? 3000 : 200;
    end->outgoing_len = 1 + below(most);
    end->incoming_len = 1 + below(most);
    end->count = end->written = end->came = 0;
    end->is_closed = 0;
    fill(&end->connection, sizeof end->connection);
    fill(end->incoming, end->incoming_len);
    fill(end->outgoing, end->outgoing_len);
    CALL(lk_connection_init);
    struct lk_connection *connection = room(&end->connection, sizeof *connection);
    lk_connection_init(connection, (uint16_t)below(MOST_SIZE + 1), (uint32_t)(one_in(2) ? 0 : below(200)), one_in(2));
    end->connection = *connection;
    look(end);
    same_number("a SYN that waits", 1, (ptrdiff_t)end->waiting);
}

/* Reads, writes, closes, or a segment arrives. */
static void act(struct end *end)
{
    size_t ticks = 0;
    if (end->count != 0 && !one_in(3))
        arrive(end);
    else if (one_in(2))
        read_some(end);
    else if (one_in(2))
        write_some(end);
    else
        end_some(end);
    if (one_in(16))
        meet_others(end);
    while (meet(TICK, end, end->outgoing_len, end->incoming_len, 0) == 1)
        same_number("the segments at one time", 1, ticks++ < 2 * RING);
    look(end);
    same_number("due after lk_connection_tick", 1, end->due > now);
}

static void pass_time(void)
{
    uint64_t due = ends[0].due < ends[1].due ? ends[0].due : ends[1].due;
    if (ends[0].count + ends[1].count != 0 || !one_in(4))
        now += one_in(2) ? below(30) : 0;
    else if (due != UINT64_MAX && due > now)
        now = due;
}

static int is_over(const struct end *end)
{
    return (end->state == LK_CLOSED || end->state == LK_TIME_WAIT) && end->came == other(end)->text_len;
}

void connect_ends(void)
{
    is_hostile = one_in(2);
    begun = now = one_in(2) ? below(1000) : any() >> 8;
    begin_end(&ends[0]);
    begin_end(&ends[1]);
    for (int i = 0; i < 2; i++) {
        size_t ring = ends[i].outgoing_len < ends[!i].incoming_len ? ends[i].outgoing_len : ends[!i].incoming_len;
        ends[i].text_len = below(ring * 4 < MOST_TEXT ? ring * 4 + 1 : MOST_TEXT);
        fill(ends[i].text, ends[i].text_len);
    }
    CALL(lk_connection_listen);
    if (!one_in(8))
        lk_connection_listen(&ends[1].connection);
    else
        meet(CONNECT, &ends[1], ends[1].outgoing_len, ends[1].incoming_len, 0);
    meet(CONNECT, &ends[0], ends[0].outgoing_len, ends[0].incoming_len, 0);
    for (int i = 0; i < 2; i++) {
        look(&ends[i]);
        same_number("a SYN that waits, also in LK_LISTEN", 1, (ptrdiff_t)ends[i].waiting);
    }
    for (size_t steps = 0; steps < (is_hostile ? 400 : STEPS); steps++) {
        act(&ends[below(2)]);
        if (is_over(&ends[0]) && is_over(&ends[1]))
            return;
        pass_time();
    }
    same_number("an end, and all bytes", 1, is_hostile);
}
