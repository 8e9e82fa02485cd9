/* lk_read_link and lk_read_linktype by hand. A frame that was not captured as a whole is for lk_read_captured, which has no
 * baseline. */

/* A link type: the length of its header, and how its packets are told. */
struct link_kind {
    uint8_t len;
    uint8_t least; /* so many bytes must be there */
    uint8_t form;
};
enum { NULL_FORM = 1, ETHERNET_FORM, LOOP_FORM, RAW_FORM, SLL_FORM, IPV4_FORM, IPV6_FORM, SLL2_FORM };

/* Returns 0 for an unknown type. */
INLINE struct link_kind kind_of(uint32_t link_type)
{
    switch (link_type) {
    case 0:
        return (struct link_kind){4, 4, NULL_FORM};
    case 1:
        return (struct link_kind){14, 14, ETHERNET_FORM};
    case 12: case 14: case 101:
        return (struct link_kind){0, 1, RAW_FORM};
    case 108:
        return (struct link_kind){4, 4, LOOP_FORM};
    case 113:
        return (struct link_kind){16, 16, SLL_FORM};
    case 228:
        return (struct link_kind){0, 1, IPV4_FORM};
    case 229:
        return (struct link_kind){0, 1, IPV6_FORM};
    case 276:
        return (struct link_kind){20, 20, SLL2_FORM};
    }
    return (struct link_kind){0, 0, 0};
}

INLINE uint16_t family_type(uint32_t family)
{
    switch (family) {
    case 2:
        return TYPE_IPV4;
    case 10: case 24: case 28: case 30:
        return TYPE_IPV6;
    }
    return 0;
}

INLINE uint16_t cooked_type(uint16_t device, uint16_t protocol)
{
    return device == 770 || device == 803 || device == 824 ? 0 : protocol;
}

/* The type of the packet. Returns -1 for a packet without a header that has no version of its link type. */
INLINE int32_t type_of(uint8_t form, const uint8_t *ptr)
{
    uint16_t type;
    switch (form) {
    case NULL_FORM:
        type = family_type(swap_32(load_32(ptr)));
        return type ? type : family_type(load_32(ptr));
    case ETHERNET_FORM:
        return swap_16(load_16(ptr + 12));
    case LOOP_FORM:
        return family_type(swap_32(load_32(ptr)));
    case SLL_FORM:
        return cooked_type(swap_16(load_16(ptr + 2)), swap_16(load_16(ptr + 14)));
    case SLL2_FORM:
        return cooked_type(swap_16(load_16(ptr + 8)), swap_16(load_16(ptr)));
    }
    if (ptr[0] >> 4 == 4 && form != IPV6_FORM)
        return TYPE_IPV4;
    return ptr[0] >> 4 == 6 && form != IPV4_FORM ? TYPE_IPV6 : -1;
}

INLINE int is_tag(uint16_t type) { return type == 0x8100 || type == 0x88a8 || type == 0x9100; }

/* Returns an `lk_reason`, and for LK_TOO_SHORT how many bytes would do in `offset`. */
INLINE int parse_link(struct link_kind kind, const uint8_t *ptr, size_t captured, struct lk_link *link)
{
    struct lk_link found = {.offset = kind.least};
    int32_t type = -1;
    int reason = LK_READ;
    if (!kind.form)
        return LK_UNKNOWN_LINK;
    if (captured < kind.least)
        reason = LK_TOO_SHORT;
    else if ((type = type_of(kind.form, ptr)) < 0)
        return LK_BAD_VERSION;
    else
        found.offset = kind.len;
    found.type = (uint16_t)type;
    while (reason == LK_READ && found.tag_count < 2 && is_tag(found.type)) {
        if (captured - found.offset < 4) {
            reason = LK_TOO_SHORT;
        } else {
            found.tags[found.tag_count++] = swap_16(load_16(ptr + found.offset));
            found.type = swap_16(load_16(ptr + found.offset + 2));
        }
        found.offset += 4;
    }
    *link = found;
    return reason;
}

int lk_read_link(uint32_t link_type, const uint8_t *ptr, size_t captured, struct lk_link *link)
{
    struct lk_link found;
    int reason = parse_link(kind_of(link_type), ptr, reaches(captured, 0) ? captured : 0, &found);
    if (reason == LK_READ)
        *link = found;
    return reason;
}

/* `frame` is cleared, and the lengths are not too long. */
INLINE int read_linked(uint32_t link_type, const uint8_t *ptr, size_t captured, size_t len, struct lk_frame *frame)
{
    struct lk_link link = {0, 0, {0, 0}, 0};
    frame->payload_len = len;
    int reason = parse_link(kind_of(link_type), ptr, captured, &link);
    if (reason == LK_TOO_SHORT && len >= link.offset)
        reason = LK_HEADER_CUT;
    if (reason != LK_READ)
        return frame->reason = (uint8_t)reason;
    if (link_type == 1) {
        memcpy(frame->ethernet.dst, ptr, 6);
        memcpy(frame->ethernet.src, ptr + 6, 6);
    }
    frame->ethernet.type = link.type;
    follow(frame, link.offset, len - link.offset);
    ptr += link.offset;
    if (link.type == TYPE_ARP)
        return frame->reason = (uint8_t)store_arp(ptr, captured - link.offset, frame);
    return frame->reason = (uint8_t)store_ip(link.type, ptr, captured - link.offset, frame, NULL);
}

int lk_read_linktype(uint32_t link_type, const uint8_t *ptr, size_t captured, size_t len, struct lk_frame *frame)
{
    len = reaches(len, 0) ? len : 0;
    captured = reaches(captured, 0) ? captured : 0;
    if (len < captured)
        captured = len;
    clear(frame);
    int reason = read_linked(link_type, ptr, captured, len, frame);
    size_t there = captured - frame->payload_offset;
    frame->payload_captured = there < frame->payload_len ? there : frame->payload_len;
    return reason;
}
