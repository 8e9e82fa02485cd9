/* The model of TCP options: RFC 9293, section 3.1; RFC 2018; RFC 7323. */
#include <string.h>
#include "model.h"

enum { END = 0, PADDING = 1, MAX_SEG_SIZE = 2, WINDOW_SCALE = 3, SACK_PERMITTED = 4, SACK_RANGES = 5, TIMESTAMP = 8 };

/* Whether an option of this kind may have this length. Timestamps of another length are not malformed. */
static int fits_kind(unsigned kind, size_t len)
{
    switch (kind) {
    case MAX_SEG_SIZE:
        return len == 4;
    case WINDOW_SCALE:
        return len == 3;
    case SACK_PERMITTED:
        return len == 2;
    case SACK_RANGES:
        return len == 10 || len == 18 || len == 26 || len == 34;
    default:
        return len >= 2;
    }
}

/* The length of the option at `at`, where the options end at `end`; 0: it is malformed. */
static size_t option_len(const uint8_t *header, size_t at, size_t end)
{
    size_t len;
    if (header[at] == END || header[at] == PADDING)
        return 1;
    if (at + 1 >= end)
        return 0;
    len = header[at + 1];
    return fits_kind(header[at], len) && at + len <= end ? len : 0;
}

int is_malformed(const uint8_t *header, size_t header_len)
{
    for (size_t at = 20, len; at < header_len && header[at] != END; at += len) {
        len = option_len(header, at, header_len);
        if (len == 0)
            return 1;
    }
    return 0;
}

/* The length that the header says, or 0 if that is not there. */
static size_t said_len(const uint8_t *ptr, size_t len)
{
    size_t said;
    if (used_len(len) < 20)
        return 0;
    said = 4u * (ptr[12] >> 4);
    return said >= 20 && said <= len ? said : 0;
}

static void read_sack_ranges(const uint8_t *option, struct lk_tcp_options *options)
{
    memset(options->sack_ranges, 0, sizeof options->sack_ranges);
    options->sack_range_count = (uint8_t)((option[1] - 2) / 8);
    for (int i = 0; i < options->sack_range_count; i++) {
        options->sack_ranges[i].left = get_long(option + 2 + 8 * i);
        options->sack_ranges[i].right = get_long(option + 6 + 8 * i);
    }
}

static void read_option(const uint8_t *option, struct lk_tcp_options *options)
{
    switch (option[0]) {
    case MAX_SEG_SIZE:
        options->has_mss = 1;
        options->mss = (uint16_t)get_word(option + 2);
        break;
    case WINDOW_SCALE: /* RFC 7323, section 2.3: more than 14 is used as 14. */
        options->has_window_scale = 1;
        options->window_scale = option[2] > 14 ? 14 : option[2];
        break;
    case SACK_PERMITTED:
        options->sack_permitted = 1;
        break;
    case SACK_RANGES:
        read_sack_ranges(option, options);
        break;
    case TIMESTAMP:
        if (option[1] != 10)
            break;
        options->has_timestamp = 1;
        options->tsval = get_long(option + 2);
        options->tsecr = get_long(option + 6);
        break;
    }
}

int model_find_tcp_options(const uint8_t *ptr, size_t len, struct lk_tcp_options *options)
{
    size_t end = said_len(ptr, len);
    if (end == 0 || is_malformed(ptr, end))
        return 0;
    memset(options, 0, sizeof *options);
    for (size_t at = 20; at < end && ptr[at] != END; at += option_len(ptr, at, end))
        read_option(ptr + at, options);
    return 1;
}

int model_next_tcp_option(const uint8_t *ptr, size_t len, struct lk_tcp_option *option)
{
    size_t end = said_len(ptr, len), at = option->offset == 0 ? 20 : (size_t)option->offset + option->len, found;
    option->is_malformed = end == 0;
    if (end == 0 || at >= end || (option->offset != 0 && option->kind == END))
        return 0;
    found = option_len(ptr, at, end);
    option->is_malformed = found == 0;
    if (found == 0)
        return 0;
    option->offset = (uint8_t)at;
    option->kind = ptr[at];
    option->len = (uint8_t)found;
    return 1;
}

/* ---- writing ---- */

size_t options_len(const struct lk_tcp_options *options)
{
    size_t len = 0;
    if (options->has_mss)
        len += 4;
    if (options->has_window_scale)
        len += 3;
    if (options->sack_permitted)
        len += 2;
    if (options->sack_range_count != 0)
        len += 2 + 8u * options->sack_range_count;
    if (options->has_timestamp)
        len += 10;
    while (len % 4 != 0)
        len++;
    return len;
}

static uint8_t *put_sack_ranges(const struct lk_tcp_options *options, uint8_t *out)
{
    *out++ = SACK_RANGES;
    *out++ = (uint8_t)(2 + 8 * options->sack_range_count);
    for (int i = 0; i < options->sack_range_count; i++, out += 8) {
        put_long(out, options->sack_ranges[i].left);
        put_long(out + 4, options->sack_ranges[i].right);
    }
    return out;
}

void put_options(const struct lk_tcp_options *options, int has_ranges, uint8_t *out)
{
    memset(out, 0, options_len(options)); /* end marks */
    if (options->has_mss) {
        *out++ = MAX_SEG_SIZE;
        *out++ = 4;
        put_word(out, options->mss);
        out += 2;
    }
    if (options->has_window_scale) {
        *out++ = WINDOW_SCALE;
        *out++ = 3;
        *out++ = options->window_scale;
    }
    if (options->sack_permitted) {
        *out++ = SACK_PERMITTED;
        *out++ = 2;
    } else if (options->sack_range_count != 0 && has_ranges) {
        out = put_sack_ranges(options, out);
    }
    if (options->has_timestamp) {
        *out++ = TIMESTAMP;
        *out++ = 10;
        put_long(out, options->tsval);
        put_long(out + 4, options->tsecr);
    }
}
