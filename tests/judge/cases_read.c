/* Cases of reading, rebuilding and answering. */
#include <string.h>
#include "judge.h"

/* What is in a struct before the library stores a frame. */
static void fill_frame(struct lk_frame *frame)
{
    memset(frame, (int)any(), sizeof *frame);
}

/* ---- frames and packets ---- */

static int has_verdict(const struct lk_frame *frame, int verdict)
{
    return frame->ipv4_checksum == verdict || frame->transport_checksum == verdict;
}

static void read_one_frame(const uint8_t *ptr, size_t len)
{
    struct lk_frame frame;
    fill_frame(&frame);
    both_read_frame(ptr, len, &frame);
    CALL(lk_is_valid);
    given("frame", &frame, sizeof frame);
    end_call(frame.reason == 0 && !has_verdict(&frame, LK_CHECKSUM_INVALID), lk_is_valid(&frame));
}

static void read_one_with_options(const uint8_t *ptr, size_t len)
{
    struct lk_frame frame;
    struct lk_tcp_options options;
    fill_frame(&frame);
    fill(&options, sizeof options);
    both_read_frame_options(ptr, len, &frame, &options);
}

static void read_one_packet(const uint8_t *ptr, size_t len)
{
    struct lk_frame frame;
    fill_frame(&frame);
    both_read_packet(ptr, len, &frame);
}

static void read_one_captured(const uint8_t *ptr, size_t captured, size_t len)
{
    struct lk_frame frame;
    fill_frame(&frame);
    both_read_captured(ptr, captured, len, &frame);
}

static void read_one_captured_packet(const uint8_t *ptr, size_t captured, size_t len)
{
    struct lk_frame frame;
    fill_frame(&frame);
    both_read_captured_packet(ptr, captured, len, &frame);
}

void read_whole(void)
{
    size_t front, len;
    make_frame();
    front = made.len >= 14 && !one_in(16) ? 14 : 0;
    len = made.len - front;
    read_one_frame(made.octets, made.len);
    read_one_with_options(made.octets, made.len);
    read_one_packet(made.octets + front, len);
    if (one_in(64))
        read_one_frame(made.octets, unused_len());
    if (one_in(64))
        read_one_with_options(made.octets, unused_len());
    if (one_in(64))
        read_one_packet(made.octets, unused_len());
}

/* Each shorter length, and each captured length; of long frames those at the front. */
void read_cut(void)
{
    size_t front, len, most, unused = unused_len();
    make_frame();
    front = made.len >= 14 ? 14 : 0;
    len = made.len - front;
    most = made.len < 160 ? made.len : 160;
    for (size_t cut = 0; cut <= most; cut++) {
        read_one_frame(made.octets, cut);
        read_one_captured(made.octets, cut, made.len);
    }
    for (size_t cut = 0; cut <= most - front; cut++) {
        read_one_packet(made.octets + front, cut);
        read_one_captured_packet(made.octets + front, cut, len);
    }
    read_one_captured(made.octets, made.len, made.len + below(100));
    read_one_captured(made.octets, made.len, below(made.len + 1));
    read_one_captured(made.octets, unused, made.len);
    read_one_captured(made.octets, made.len, unused);
    read_one_captured_packet(made.octets + front, len, below(len + 1));
    read_one_captured_packet(made.octets, unused, made.len);
}

/* ---- TCP options ---- */

static void read_all_options(const uint8_t *ptr, size_t len)
{
    struct lk_tcp_options options;
    fill(&options, sizeof options);
    both_find_tcp_options(ptr, len, &options);
}

/* Any option before: what comes is open, but nothing outside may be accessed. */
static void read_after_any_option(const uint8_t *ptr, size_t len)
{
    struct lk_tcp_option before, *came;
    const uint8_t *header;
    int result;
    fill(&before, sizeof before);
    CALL(lk_next_tcp_option);
    header = given("header", ptr, len);
    given("option before", &before, sizeof before);
    came = room(&before, sizeof before);
    result = lk_next_tcp_option(header, len, came);
    end_call(1, (result == 0 || result == 1) && came->is_malformed <= (result == 0));
    before.is_malformed = came->is_malformed;
    if (result == 0)
        same_bytes("option", &before, came, sizeof before);
}

void read_options(void)
{
    struct lk_tcp_option option = {0, 0, 0, 0};
    uint8_t header[128];
    size_t len;
    fill(header, sizeof header);
    len = any_tcp_header(header);
    if (one_in(8))
        header[below(len)] = (uint8_t)any();
    if (one_in(8))
        len = below(sizeof header);
    read_all_options(header, len);
    while (both_next_tcp_option(header, len, &option) == 1)
        ;
    read_after_any_option(header, len);
    if (one_in(64)) {
        memset(&option, 0, sizeof option);
        read_all_options(header, unused_len());
        both_next_tcp_option(header, unused_len(), &option);
    }
}

/* ---- rebuilding and answering ---- */

static uint8_t measured[MODEL_ROOM];

static void rebuild_one(size_t len, size_t cap)
{
    both_rebuild(made.octets, len, any_out(cap), cap);
}

void rebuild_frame(void)
{
    ptrdiff_t len;
    size_t cap;
    make_frame();
    len = model_rebuild(made.octets, made.len, measured, made.len); /* this room always suffices */
    cap = any_cap(len < 0 ? (ptrdiff_t)made.len : len);
    rebuild_one(made.len, cap);
    same_number("no room, with as much as the frame has", 0, len == LK_NO_ROOM);
    if (one_in(64))
        rebuild_one(made.len, unused_len());
    if (one_in(64))
        rebuild_one(unused_len(), 40);
}

static void answer_one(const struct lk_host *host, size_t len, size_t cap)
{
    both_answer(host, made.octets, len, any_out(cap), cap);
}

void answer_frame(void)
{
    struct lk_frame frame;
    struct lk_host host;
    ptrdiff_t len;
    size_t cap;
    make_frame();
    model_read_frame(made.octets, made.len, &frame);
    host = any_host_for(&frame);
    len = model_answer(&host, made.octets, made.len, measured, sizeof measured);
    cap = any_cap(len);
    answer_one(&host, made.len, cap);
    if (one_in(64))
        answer_one(&host, made.len, unused_len());
    if (one_in(64))
        answer_one(&host, unused_len(), 60);
}
