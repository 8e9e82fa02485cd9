/* The rows of a TCP connection. */
enum { RING = 1 << 16, TIMESTAMP = 12, ACK_DELAY = 40, CLIENT_ISS = 1, SERVER_ISS = 2 };

/* One end of a connection, and its rings. */
struct connection_end {
    struct lk_connection connection;
    uint8_t outgoing[RING], incoming[RING];
};

/* What the calls of a row get: the client sends, the server receives. */
static struct connection_end client, server;
static struct lk_segment arriving, leaving;
static uint64_t connection_now;
static size_t text_len; /* of the row */

#define RINGS(end) (end).outgoing, RING, (end).incoming, RING, connection_now

/* The segment that left last arrives. */
static void arrive_at(struct connection_end *end)
{
    arriving = leaving;
    lk_connection_step(&end->connection, RINGS(*end), &arriving, SERVER_ISS, &leaving);
}

/* The next segment leaves, and is to arrive. */
static void leave_from(struct connection_end *end)
{
    lk_connection_tick(&end->connection, RINGS(*end), &leaving);
    arriving = leaving;
}

/* The connection is open, and idle. Each end has a timestamp in its segments. */
static void prepare_open(const struct row *row)
{
    const uint16_t mss = MOST_PAYLOAD + TIMESTAMP;
    prepare_bytes(row);
    text_len = row->size;
    connection_now = 1;
    lk_connection_init(&client.connection, mss, 0, 1);
    lk_connection_init(&server.connection, mss, 0, 1);
    lk_connection_listen(&server.connection);
    lk_connection_connect(&client.connection, RINGS(client), CLIENT_ISS, &leaving);
    arrive_at(&server);
    arrive_at(&client);
    arrive_at(&server);
}

/* The client has written the bytes of the row. */
static void prepare_written(const struct row *row)
{
    prepare_open(row);
    lk_connection_write(&client.connection, client.outgoing, RING, payload, row->size);
}

/* They are on their way. */
static void prepare_arrival(const struct row *row)
{
    prepare_written(row);
    leave_from(&client);
}

/* They have come. */
static void prepare_readable(const struct row *row)
{
    prepare_arrival(row);
    arrive_at(&server);
}

/* The acknowledgement of them is on its way. */
static void prepare_acknowledgement(const struct row *row)
{
    prepare_readable(row);
    lk_connection_read(&server.connection, server.incoming, RING, OUT);
    connection_now += ACK_DELAY;
    leave_from(&server);
}

/* It has come. */
static void prepare_rest(const struct row *row)
{
    prepare_acknowledgement(row);
    arrive_at(&client);
}

/* Each call gets the same connection: a copy, which is made anew before it. */
#define CONNECTION_CALLS(name, end, call, ...)                                                                      \
    static uint64_t name(const struct library *library, const struct row *row, uint64_t times)                      \
    {                                                                                                               \
        __typeof__(library->call) called = library->call;                                                           \
        uint64_t answers = 0;                                                                                       \
        (void)row;                                                                                                  \
        for (uint64_t i = 0; i < times; i++) {                                                                      \
            struct lk_connection copy = end.connection;                                                             \
            answers += (uint64_t)called(&copy, __VA_ARGS__);                                                        \
        }                                                                                                           \
        return answers;                                                                                             \
    }

CONNECTION_CALLS(call_write, client, connection_write, client.outgoing, RING, payload, text_len)
CONNECTION_CALLS(call_send, client, connection_tick, RINGS(client), &leaving)
CONNECTION_CALLS(call_take_text, server, connection_step, RINGS(server), &arriving, SERVER_ISS, &leaving)
CONNECTION_CALLS(call_read_text, server, connection_read, server.incoming, RING, OUT)
CONNECTION_CALLS(call_take_ack, client, connection_step, RINGS(client), &arriving, CLIENT_ISS, &leaving)

static const struct call connection_rows[] = {
    {"connection writes", prepare_open, call_write},
    {"connection sends", prepare_written, call_send},
    {"connection takes text", prepare_arrival, call_take_text},
    {"connection reads", prepare_readable, call_read_text},
    {"connection takes its ACK", prepare_acknowledgement, call_take_ack},
};
static const size_t connection_sizes[] = {64, MOST_PAYLOAD};
static const size_t no_text[] = {0};
static const struct call rest_rows[] = {{"connection sends nothing", prepare_rest, call_send}};
static const struct block connection_blocks[] = {
    BLOCK(connection_rows, connection_sizes, IN_OURS, 1),
    BLOCK(rest_rows, no_text, IN_OURS, 1),
};
