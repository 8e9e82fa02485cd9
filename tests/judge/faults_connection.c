/* Faults of TCP connections. */
#include "faults.h"
#include "ip_wire.h"

int __real_lk_connection_step(struct lk_connection *connection, const uint8_t *outgoing, size_t outgoing_len,
                              uint8_t *incoming, size_t incoming_len, uint64_t now, const struct lk_segment *segment,
                              uint32_t fresh, struct lk_segment *out);
int __real_lk_connection_tick(struct lk_connection *connection, const uint8_t *outgoing, size_t outgoing_len,
                              uint8_t *incoming, size_t incoming_len, uint64_t now, struct lk_segment *out);
ptrdiff_t __real_lk_connection_read(struct lk_connection *connection, const uint8_t *incoming, size_t incoming_len,
                                    uint8_t *out, size_t cap);

/* A payload that is too long is taken as one that is not, and segments with a text of one byte are lost. */
int __wrap_lk_connection_step(struct lk_connection *connection, const uint8_t *outgoing, size_t outgoing_len,
                              uint8_t *incoming, size_t incoming_len, uint64_t now, const struct lk_segment *segment,
                              uint32_t fresh, struct lk_segment *out)
{
    struct lk_segment short_segment = *segment;
    if (fault == LONG_SEGMENT_TAKEN && segment->payload_len == 65536)
        short_segment.payload_len = 65535;
    if (fault == SHORT_SEGMENT_LOST && segment->payload_len == 1)
        return 0;
    return __real_lk_connection_step(connection, outgoing, outgoing_len, incoming, incoming_len, now, &short_segment, fresh,
                                     out);
}

/* A ring that does not fit changes the connection. */
int __wrap_lk_connection_tick(struct lk_connection *connection, const uint8_t *outgoing, size_t outgoing_len,
                              uint8_t *incoming, size_t incoming_len, uint64_t now, struct lk_segment *out)
{
    int came = __real_lk_connection_tick(connection, outgoing, outgoing_len, incoming, incoming_len, now, out);
    if (fault == CHANGED_BY_ANOTHER_RING && came == -1)
        connection->memory[0]++;
    return came;
}

/* A byte past the bytes of the peer is written. */
ptrdiff_t __wrap_lk_connection_read(struct lk_connection *connection, const uint8_t *incoming, size_t incoming_len,
                                    uint8_t *out, size_t cap)
{
    ptrdiff_t came = __real_lk_connection_read(connection, incoming, incoming_len, out, cap);
    if (fault == READ_PAST_THE_END && came > 0 && (size_t)came < cap)
        out[came]++;
    return came;
}
