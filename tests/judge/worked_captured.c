/* Worked calls that read frames of which only the first bytes were captured: how many bytes of the payload are there. The
 * numbers are counted by hand. */
#include "worked.h"

/* UDP over IPv4: a header of 24 bytes from byte 14, UDP from byte 38, 3 bytes of payload, and 5 of padding. TCP over IPv4:
 * a header of 24 bytes from byte 34, and 3 bytes of payload. */
static const struct row {
    const struct octets *frame;
    size_t captured;
    uint8_t reason;
    size_t payload_offset, payload_len, payload_captured;
} rows[] = {
    {&udp4, 54, LK_READ, 46, 3, 3},
    {&udp4, 49, LK_READ, 46, 3, 3},
    {&udp4, 48, LK_READ, 46, 3, 2},
    {&udp4, 46, LK_READ, 46, 3, 0},
    {&udp4, 45, LK_HEADER_CUT, 38, 11, 7},
    {&udp4, 38, LK_HEADER_CUT, 38, 11, 0},
    {&udp4, 37, LK_HEADER_CUT, 14, 40, 23},
    {&udp4, 14, LK_HEADER_CUT, 14, 40, 0},
    {&udp4, 13, LK_HEADER_CUT, 0, 54, 13},
    {&udp4, 0, LK_HEADER_CUT, 0, 54, 0},
    {&tcp4, 57, LK_HEADER_CUT, 34, 27, 23},
    {&ethernet_too_short, 5, LK_TOO_SHORT, 0, 13, 5},
    {&unknown_type, 16, LK_READ, 14, 3, 2},
};

static int has_payload(const struct lk_frame *frame, const struct row *row, size_t front)
{
    return frame->payload_offset + front == row->payload_offset && frame->payload_len == row->payload_len &&
           frame->payload_captured == row->payload_captured;
}

void worked_captured(void)
{
    struct lk_frame frame;
    for (size_t i = 0; i < sizeof rows / sizeof *rows; i++) {
        const struct row *row = rows + i;
        const uint8_t *ptr = row->frame->at;
        size_t len = row->frame->len;
        CHECK_ROW(i, both_read_captured(ptr, row->captured, len, &frame) == row->reason && has_payload(&frame, row, 0));
        CHECK_ROW(i, both_read_linktype(1, ptr, row->captured, len, &frame) == row->reason && has_payload(&frame, row, 0));
        if (row->frame == &unknown_type || row->captured <= 14)
            continue;
        CHECK_ROW(i, both_read_captured_packet(ptr + 14, row->captured - 14, len - 14, &frame) == row->reason);
        CHECK_ROW(i, has_payload(&frame, row, 14));
    }
    /* Only the first bytes of a longer capture count: IPv4 is longer than them. An unknown link type has no header. */
    CHECK(both_read_captured(udp4.at, udp4.len, 48, &frame) == LK_BAD_LENGTH && frame.payload_captured == 34);
    CHECK(both_read_linktype(147, udp4.at, 20, udp4.len, &frame) == LK_UNKNOWN_LINK && frame.payload_captured == 20);
}
