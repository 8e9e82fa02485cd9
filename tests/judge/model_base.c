/* The model of addresses, sums, sequence numbers and names. */
#include <string.h>
#include "model.h"

unsigned get_word(const uint8_t *ptr)
{
    return (unsigned)ptr[0] << 8 | ptr[1];
}

uint32_t get_long(const uint8_t *ptr)
{
    return (uint32_t)get_word(ptr) << 16 | get_word(ptr + 2);
}

void put_word(uint8_t *ptr, unsigned value)
{
    ptr[0] = (uint8_t)(value >> 8);
    ptr[1] = (uint8_t)value;
}

void put_long(uint8_t *ptr, uint32_t value)
{
    put_word(ptr, value >> 16);
    put_word(ptr + 2, value & 0xffff);
}

size_t used_len(size_t len)
{
    return len > LK_MAX_LEN ? 0 : len;
}

size_t addr_len(const struct lk_addr *addr)
{
    return addr->version == 4 ? 4 : addr->version == 6 ? 16 : 0;
}

/* Over IPv4 only the message (RFC 792), over IPv6 with the pseudo-header (RFC 4443, section 2.3). */
uint16_t icmp_sum(const struct lk_addr *src, const struct lk_addr *dst, const uint8_t *ptr, size_t len)
{
    return src->version == 4 ? model_checksum(ptr, len) : pseudo_sum(src, dst, 58, ptr, len, len);
}

/* ---- names ---- */

const char *model_failure_name(ptrdiff_t failure)
{
    static const char *const names[] = {
        "LK_NO_VERSION", "LK_TWO_VERSIONS", "LK_BAD_PREFIX", "LK_EMIT_PORT_ZERO", "LK_NO_HOP_LIMIT", "LK_BAD_FIELD",
        "LK_TWO_CONTROLS", "LK_OPTIONS_TOO_LONG", "LK_PAYLOAD_TOO_LONG", "LK_NO_HEADER", "LK_NO_ROOM",
        "LK_DONT_FRAGMENT", "LK_DROPPED",
    };
    for (int number = 1; number <= 13; number++)
        if (failure == LK_FAILURE(number))
            return names[number - 1];
    return "no failure"; /* Open: a sum of a failure and lengths. */
}

const char *model_reason_name(int reason)
{
    static const char *const names[LK_REASON_COUNT] = {
        "LK_READ", "LK_TOO_SHORT", "LK_BAD_VERSION", "LK_BAD_LENGTH", "LK_OTHER_ARP", "LK_PORT_ZERO",
        "LK_BAD_FLAGS", "LK_BAD_OPTIONS", "LK_HEADER_CUT", "LK_UNKNOWN_LINK",
        "LK_HOPS_LEFT", "LK_BAD_ORDER",
    };
    return reason >= LK_READ && reason < LK_REASON_COUNT ? names[reason] : "no reason"; /* Open: LK_READ. */
}

const char *model_rejection_name(int rejection)
{
    static const char *const names[LK_REJECTION_COUNT] = {
        "LK_NOT_REJECTED", "LK_NO_IPV4", "LK_NOT_IP", "LK_BAD_HEADER", "LK_WRONG_CHECKSUM", "LK_HOP_LIMIT_TOO_LOW", "LK_FRAGMENT",
        "LK_OTHER_PROTOCOL", "LK_BAD_TRANSPORT", "LK_NAT_PORT_ZERO", "LK_NO_MAPPING", "LK_NO_FREE_PORT", "LK_MARTIAN",
        "LK_NO_ROUTE_TO_SOURCE", "LK_OTHER_INTERFACE",
    };
    /* Open: LK_NOT_REJECTED. */
    return rejection >= LK_NOT_REJECTED && rejection < LK_REJECTION_COUNT ? names[rejection] : "no rejection";
}

struct named {
    int number;
    const char *name;
};

static const char *name_in(const struct named *names, size_t count, int number)
{
    for (size_t i = 0; i < count; i++)
        if (names[i].number == number)
            return names[i].name;
    return "unknown";
}

/* Open: which numbers have names. */
const char *model_protocol_name(int protocol)
{
    static const struct named names[] = {
        {0, "HOPOPT"},      {1, "ICMP"},        {2, "IGMP"},     {4, "IPv4"},    {6, "TCP"},     {8, "EGP"},
        {17, "UDP"},        {33, "DCCP"},       {41, "IPv6"},    {46, "RSVP"},   {47, "GRE"},    {43, "IPv6-Route"},
        {44, "IPv6-Frag"},  {58, "IPv6-ICMP"},  {50, "ESP"},     {51, "AH"},     {88, "EIGRP"},  {59, "IPv6-NoNxt"},
        {60, "IPv6-Opts"},  {89, "OSPFIGP"},    {103, "PIM"},    {112, "VRRP"},  {115, "L2TP"},  {132, "SCTP"},
        {136, "UDPLite"},   {137, "MPLS-in-IP"},
    };
    return name_in(names, sizeof names / sizeof *names, protocol);
}

const char *model_ethertype_name(int type)
{
    static const struct named names[] = {
        {0x0800, "IPv4"},            {0x0806, "ARP"},           {0x86dd, "IPv6"},   {0x8035, "RARP"},
        {0x8100, "802.1Q"},          {0x88a8, "802.1ad"},       {0x9100, "QinQ"},   {0x8847, "MPLS"},
        {0x8848, "MPLS multicast"},  {0x8863, "PPPoE discovery"}, {0x88cc, "LLDP"}, {0x8864, "PPPoE session"},
        {0x888e, "EAPOL"},           {0x88e5, "MACsec"},        {0x88f7, "PTP"},    {0x0842, "Wake-on-LAN"},
        {0x8809, "slow protocols"},
    };
    return name_in(names, sizeof names / sizeof *names, type);
}

const char *model_tcp_flag_name(int flag)
{
    static const struct named names[] = {
        {1, "FIN"}, {2, "SYN"}, {4, "RST"}, {8, "PSH"}, {16, "ACK"}, {32, "URG"}, {64, "ECE"}, {128, "CWR"},
    };
    return name_in(names, sizeof names / sizeof *names, flag);
}

/* ---- addresses ---- */

static int get_bit(const uint8_t *octets, size_t bit)
{
    return octets[bit / 8] >> (7 - bit % 8) & 1;
}

int model_contains(const struct lk_prefix *block, const struct lk_addr *addr)
{
    size_t len = addr_len(addr);
    if (len == 0 || addr->version != block->addr.version || block->prefix_len > 8 * len)
        return 0;
    for (size_t bit = 0; bit < block->prefix_len; bit++)
        if (get_bit(addr->octets, bit) != get_bit(block->addr.octets, bit))
            return 0;
    return 1;
}

int is_in(const struct lk_addr *addr, const char *text)
{
    struct lk_prefix block;
    return model_parse_prefix(text, strlen(text), &block) && model_contains(&block, addr);
}

int model_is_multicast(const struct lk_addr *addr)
{
    return is_in(addr, "224.0.0.0/4") || is_in(addr, "ff00::/8");
}

int model_is_unicast(const struct lk_addr *addr)
{
    return addr_len(addr) != 0 && !model_is_multicast(addr) && !is_in(addr, "0.0.0.0/32") && !is_in(addr, "::/128") &&
           !is_in(addr, "255.255.255.255/32");
}

/* ---- checksums ---- */

/* One's complement addition: the carry is added again. */
static unsigned add_words(unsigned a, unsigned b)
{
    unsigned sum = a + b;
    return sum > 0xffff ? sum - 0xffff : sum;
}

uint16_t model_checksum(const uint8_t *ptr, size_t len)
{
    unsigned sum = 0;
    for (size_t i = 0; i < used_len(len); i++)
        sum = add_words(sum, i % 2 == 0 ? (unsigned)ptr[i] << 8 : ptr[i]);
    return (uint16_t)sum;
}

uint16_t pseudo_sum(const struct lk_addr *src, const struct lk_addr *dst, unsigned protocol, const uint8_t *ptr,
                    size_t len, size_t summed)
{
    static uint8_t copy[40 + MODEL_ROOM];
    size_t half = addr_len(src), at = 2 * half;
    memcpy(copy, src->octets, half);
    memcpy(copy + half, dst->octets, half);
    if (src->version == 6) {
        put_long(copy + at, (uint32_t)len);
        put_long(copy + at + 4, protocol);
        at += 8;
    } else {
        put_word(copy + at, protocol);
        put_word(copy + at + 2, (unsigned)len);
        at += 4;
    }
    if (summed != 0)
        memcpy(copy + at, ptr, summed);
    return model_checksum(copy, at + summed);
}

/* RFC 1624, equation 3: the complement of the sum of ~HC, ~m and m'. */
uint16_t model_update_checksum(uint16_t checksum, uint16_t before, uint16_t after)
{
    unsigned sum = ~checksum & 0xffff;
    sum = add_words(sum, ~before & 0xffff);
    sum = add_words(sum, after);
    return (uint16_t)~sum;
}

/* The sum of the words differs from one word after the other where the old sum is 0. Open: addresses of two versions,
 * or of none. */
uint16_t model_update_checksum_addr(uint16_t checksum, const struct lk_addr *before, const struct lk_addr *after)
{
    return model_update_checksum(checksum, model_checksum(before->octets, addr_len(before)),
                                 model_checksum(after->octets, addr_len(after)));
}

uint16_t model_update_udp_checksum(uint16_t checksum, uint16_t before, uint16_t after)
{
    uint16_t updated = model_update_checksum(checksum, before, after);
    return checksum == 0 ? 0 : updated == 0 ? 0xffff : updated;
}

uint16_t model_update_udp_checksum_addr(uint16_t checksum, const struct lk_addr *before, const struct lk_addr *after)
{
    uint16_t updated = model_update_checksum_addr(checksum, before, after);
    return checksum == 0 ? 0 : updated == 0 ? 0xffff : updated;
}

/* The sum of a message of zeros but for these bytes: at an odd offset one comes before them. */
static uint16_t sum_at(size_t offset, const uint8_t *ptr, size_t len)
{
    static uint8_t message[1 + MODEL_ROOM];
    size_t at = offset % 2, used = used_len(len);
    message[0] = 0;
    if (used != 0)
        memcpy(message + at, ptr, used);
    return model_checksum(message, at + used);
}

uint16_t model_update_checksum_bytes(uint16_t checksum, size_t offset, const uint8_t *before, size_t before_len,
                                     const uint8_t *after, size_t after_len)
{
    return model_update_checksum(checksum, sum_at(offset, before, before_len), sum_at(offset, after, after_len));
}

uint16_t model_update_udp_checksum_bytes(uint16_t checksum, size_t offset, const uint8_t *before, size_t before_len,
                                         const uint8_t *after, size_t after_len)
{
    return model_update_udp_checksum(checksum, sum_at(offset, before, before_len), sum_at(offset, after, after_len));
}

/* ---- sequence numbers ---- */

uint32_t model_add_seq(uint32_t seq, uint32_t steps)
{
    return (uint32_t)(((uint64_t)seq + steps) % ((uint64_t)1 << 32));
}

int32_t model_subtract_seq(uint32_t a, uint32_t b)
{
    int64_t distance = (int64_t)a - b;
    if (distance >= (int64_t)1 << 31)
        distance -= (int64_t)1 << 32;
    if (distance < -((int64_t)1 << 31))
        distance += (int64_t)1 << 32;
    return (int32_t)distance;
}

int model_compare_seq(uint32_t a, uint32_t b)
{
    int32_t distance = model_subtract_seq(a, b);
    return distance < 0 ? -1 : distance > 0;
}
