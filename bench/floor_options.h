/* TCP options by hand. */

/* The length of an option that is right, from its kind on, or 0. */
INLINE size_t option_len(const uint8_t *ptr, const uint8_t *end)
{
    if (end - ptr < 2 || ptr[1] < 2 || end - ptr < ptr[1])
        return 0;
    size_t len = ptr[1];
    switch (ptr[0]) {
    case OPTION_SIZE:
        return len == 4 ? len : 0;
    case OPTION_SCALE:
        return len == 3 ? len : 0;
    case OPTION_PERMITTED:
        return len == 2 ? len : 0;
    case OPTION_RANGES:
        return len >= 10 && len <= 34 && len % 8 == 2 ? len : 0;
    }
    return len;
}

/* The usual options of data: two of no operation and a timestamp. */
INLINE int is_stamp_alone(const uint8_t *ptr, const uint8_t *end)
{
    return end - ptr == 12 && load_32(ptr) == 0x0a080101;
}

INLINE int has_options(const uint8_t *ptr, const uint8_t *end)
{
    if (is_stamp_alone(ptr, end))
        return 1;
    while (ptr != end && *ptr != OPTION_END) {
        size_t len = *ptr == OPTION_NONE ? 1 : option_len(ptr, end);
        if (!len)
            return 0;
        ptr += len;
    }
    return 1;
}

/* More than one of SYN, FIN and RST. */
INLINE int has_two_controls(uint8_t flags)
{
    return 0xe8 >> (flags & (LK_SYN | LK_FIN | LK_RST)) & 1;
}

INLINE void store_option(const uint8_t *ptr, size_t len, struct lk_tcp_options *options)
{
    switch (ptr[0]) {
    case OPTION_SIZE:
        options->has_mss = 1;
        options->mss = swap_16(load_16(ptr + 2));
        break;
    case OPTION_SCALE:
        options->has_window_scale = 1;
        options->window_scale = ptr[2] < 14 ? ptr[2] : 14;
        break;
    case OPTION_PERMITTED:
        options->sack_permitted = 1;
        break;
    case OPTION_RANGES:
        options->sack_range_count = (uint8_t)(len / 8);
        for (size_t i = 0; i < 4; i++)
            options->sack_ranges[i] = i < len / 8 ? (struct lk_sack_range){swap_32(load_32(ptr + 8 * i + 2)),
                                                                          swap_32(load_32(ptr + 8 * i + 6))}
                                                  : (struct lk_sack_range){0, 0};
        break;
    case OPTION_TIMESTAMP:
        if (len == 10) {
            options->has_timestamp = 1;
            options->tsval = swap_32(load_32(ptr + 2));
            options->tsecr = swap_32(load_32(ptr + 6));
        }
    }
}

/* With three vectors: for so few bytes compilers use an instruction that starts slowly. */
INLINE void clear_options(struct lk_tcp_options *options)
{
    typedef uint64_t pair __attribute__((vector_size(16), may_alias, aligned(4)));
    _Static_assert(sizeof *options == 48, "three vectors");
    pair *to = (pair *)options;
    to[0] = to[1] = to[2] = (pair){0};
}

/* Stores both numbers of a timestamp by one swap. */
INLINE void store_stamp(const uint8_t *ptr, struct lk_tcp_options *options)
{
    uint64_t both = __builtin_bswap64(load_64(ptr));
    both = both << 32 | both >> 32;
    memcpy(&options->tsval, &both, 8);
    options->has_timestamp = 1;
}

INLINE int read_options(const uint8_t *ptr, const uint8_t *end, struct lk_tcp_options *options)
{
    *options = (struct lk_tcp_options){.tsval = 0};
    if (is_stamp_alone(ptr, end)) {
        options->has_timestamp = 1;
        options->tsval = swap_32(load_32(ptr + 4));
        options->tsecr = swap_32(load_32(ptr + 8));
        return 1;
    }
    for (size_t len; ptr != end && *ptr != OPTION_END; ptr += len) {
        len = *ptr == OPTION_NONE ? 1 : option_len(ptr, end);
        if (!len)
            return 0;
        if (*ptr != OPTION_NONE)
            store_option(ptr, len, options);
    }
    return 1;
}

int lk_find_tcp_options(const uint8_t *ptr, size_t len, struct lk_tcp_options *options)
{
    if (!reaches(len, TCP_LEN))
        return 0;
    size_t header_len = ptr[12] / 16 * 4;
    if (header_len == TCP_LEN) {
        clear_options(options);
        return 1;
    }
    if (header_len < TCP_LEN || len < header_len)
        return 0;
    ptr += TCP_LEN;
    const uint8_t *end = ptr + header_len - TCP_LEN;
    if (is_stamp_alone(ptr, end)) {
        clear_options(options);
        store_stamp(ptr + 4, options);
        return 1;
    }
    if (!has_options(ptr, end))
        return 0;
    clear_options(options);
    /* The lengths of the options were tested. */
    for (size_t n; ptr != end && *ptr != OPTION_END; ptr += n) {
        n = *ptr == OPTION_NONE ? 1 : ptr[1];
        if (*ptr != OPTION_NONE)
            store_option(ptr, n, options);
    }
    return 1;
}
