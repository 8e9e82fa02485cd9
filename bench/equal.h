/* Compares the floor with ours on damaged frames, in all calls that read or change one: what they return and write. */

/* The frames of the rows, whole. */
enum { MOST_SAMPLES = 1024, SAMPLE_ROOM = 1600, RESULT_ROOM = 4096 };
static struct {
    uint8_t bytes[SAMPLE_ROOM];
    size_t len;
} samples[MOST_SAMPLES];
static size_t sample_count;

static void keep_sample(const uint8_t *ptr, size_t len)
{
    if (!len || len > SAMPLE_ROOM || sample_count == MOST_SAMPLES)
        return;
    memcpy(samples[sample_count].bytes, ptr, len);
    samples[sample_count++].len = len;
}

/* Tables of routes have no frames. Of many frames of a row some are kept. */
static void keep_samples(const struct row *row)
{
    if (!row->counted || row->size > MOST_PAYLOAD)
        return;
    frame_len = frame_count = 0;
    row->prepare(row);
    keep_sample(bytes, frame_len);
    for (size_t i = 0; i < frame_count; i += frame_count / 16)
        keep_sample(frames[i].ptr, frames[i].len);
}

static uint64_t drawn = 88172645463325252;

/* A random number below `end`. */
static uint64_t draw(uint64_t end)
{
    drawn ^= drawn << 13;
    drawn ^= drawn >> 7;
    drawn ^= drawn << 17;
    return (drawn >> 11) % end;
}

/* The frame that is compared, which has room for more, and what is drawn for the calls. */
static struct {
    uint8_t bytes[SAMPLE_ROOM + 64];
    size_t len;
    uint64_t number;
    uint64_t now;
} subject;

/* Makes room for some bytes, which are random, before the byte `at`. */
static void insert(size_t at, size_t count)
{
    memmove(subject.bytes + at + count, subject.bytes + at, subject.len - at);
    subject.len += count;
    for (size_t i = 0; i < count; i++)
        subject.bytes[at + i] = (uint8_t)draw(256);
}

static size_t word_at(size_t at) { return (size_t)subject.bytes[at] << 8 | subject.bytes[at + 1]; }

static void write_word(size_t at, size_t word)
{
    subject.bytes[at] = (uint8_t)(word >> 8);
    subject.bytes[at + 1] = (uint8_t)word;
}

static int is_of_type(size_t type) { return subject.len >= 14 && word_at(12) == type; }

/* Inserts IPv4 options of no operation, an IPv6 extension header, or VLAN tags. */
static void lengthen(void)
{
    static const uint8_t extensions[] = {0, 43, 44, 51, 60, 135};
    if (subject.len < 54 || draw(8))
        return;
    if (is_of_type(0x0800) && draw(2)) {
        insert(34, 4);
        memset(subject.bytes + 34, 1, 4);
        subject.bytes[14]++;
        write_word(16, word_at(16) + 4);
    } else if (is_of_type(0x86dd) && draw(4)) {
        insert(54, 8);
        subject.bytes[54] = subject.bytes[20];
        subject.bytes[55] = 0;
        subject.bytes[57] = 0;
        if (draw(2))
            memset(subject.bytes + 56, 0, 2);
        subject.bytes[20] = extensions[draw(sizeof extensions)];
        write_word(18, word_at(18) + 8);
    } else {
        for (uint64_t count = 1 + draw(3); count; count--) {
            insert(12, 4);
            write_word(12, 0x8100);
        }
    }
}

/* Sets a word or a byte of a header to a value that calls look for: of protocols, types, flags, ports and addresses. */
static void set_value(void)
{
    static const uint16_t words[] = {0, 0xffff, 2, 10, 24, 770, 803, 824, 22, 53, 54, 1024, 1500, 0x0800, 0x0806, 0x86dd,
                                     0x8100, 0x88a8, 0x9100, 0x2000, 0x4000};
    static const uint8_t values[] = {0, 1, 2, 3, 4, 6, 8, 11, 12, 13, 16, 17, 18, 19, 20, 44, 58, 127, 128, 137, 224, 240, 255};
    static const uint8_t places[] = {20, 21, 22, 23, 26, 30, 34, 35, 46, 47, 51, 54, 55, 62, 67};
    if (subject.len < 68)
        return;
    if (draw(2))
        write_word(2 * draw(30), words[draw(COUNT(words))]);
    else
        subject.bytes[places[draw(COUNT(places))]] = values[draw(COUNT(values))];
}

/* Sets some values, changes some bytes, most of them of headers, and cuts some frames. */
static void damage(void)
{
    for (uint64_t count = draw(3); count; count--)
        set_value();
    for (uint64_t count = draw(3); count; count--) {
        size_t end = draw(3) && subject.len > 80 ? 80 : subject.len;
        if (end)
            subject.bytes[draw(end)] = (uint8_t)draw(256);
    }
    if (!draw(8))
        subject.len -= draw(2) ? draw(subject.len + 1) : draw(subject.len < 20 ? subject.len + 1 : 20);
}

/* Makes the checksums right. */
static void repair(void)
{
    size_t len = (size_t)subject.bytes[14] % 16 * 4;
    if (is_of_type(0x0800) && len >= 20 && subject.len >= 14 + len) {
        write_word(24, 0);
        write_word(24, (uint16_t)~lk_checksum(subject.bytes + 14, len));
    }
    lk_fill_checksum(subject.bytes, subject.len);
}

/* Leaves the checksum of a UDP or TCP packet out, or to the device: its field is the sum of the pseudo-header. */
static void leave_checksum(void)
{
    int is_ipv4 = is_of_type(0x0800);
    size_t at = is_ipv4 ? 34 : 54, addr_len = is_ipv4 ? 8 : 32, protocol;
    uint8_t pseudo[36] = {0};
    if ((!is_ipv4 && !is_of_type(0x86dd)) || subject.len < at + 20)
        return;
    protocol = subject.bytes[is_ipv4 ? 23 : 20];
    size_t len = protocol == UDP ? word_at(at + 4) : is_ipv4 ? word_at(16) - 20 : word_at(18);
    memcpy(pseudo, subject.bytes + at - addr_len, addr_len);
    pseudo[addr_len + 1] = (uint8_t)protocol;
    pseudo[addr_len + 2] = (uint8_t)(len >> 8);
    pseudo[addr_len + 3] = (uint8_t)len;
    write_word(at + (protocol == UDP ? 6 : 16), draw(2) ? 0 : lk_checksum(pseudo, addr_len + 4));
}

static void draw_subject(void)
{
    size_t i = draw(sample_count);
    subject.len = samples[i].len;
    memcpy(subject.bytes, samples[i].bytes, subject.len);
    lengthen();
    damage();
    if (draw(4))
        repair();
    if (!draw(8))
        leave_checksum();
    subject.number = drawn;
    subject.now += draw(256) ? draw(20) : draw(400000);
}

/* What a call returns and writes. The mappings of a NAT stay from call to call. */
struct result {
    int64_t answer;
    union {
        struct lk_frame frame;
        struct lk_link link;
        struct lk_ndisc ndisc;
        uint8_t bytes[RESULT_ROOM];
    };
    struct lk_tcp_options options;
    struct lk_mapping mappings[LK_MAPPINGS(OUTSIDE_PORTS)];
};

typedef void runner(const struct library *, struct result *);

#define NUMBER(shift) (subject.number >> (shift))
#define SIDE (NUMBER(3) & 1 ? LK_DESTINATION : LK_SOURCE)
#define FRAME subject.bytes, subject.len
#define ROOM result->bytes, NUMBER(7) % 16 ? RESULT_ROOM : NUMBER(11) % 128

/* A call that reads the frame, and one that changes a copy of it. */
#define READS(name, ...)                                                     \
    static void run_##name(const struct library *library, struct result *result) \
    {                                                                        \
        result->answer = library->name(__VA_ARGS__);                         \
    }
#define CHANGES(name, ...)                                                       \
    static void run_##name(const struct library *library, struct result *result) \
    {                                                                            \
        memcpy(result->bytes, FRAME);                                            \
        result->answer = library->name(__VA_ARGS__);                             \
    }
#define COPY result->bytes, subject.len

static const uint32_t link_types[] = {0, 1, 1, 1, 12, 101, 108, 113, 228, 229, 276, 5};
static const struct lk_addr new_addrs[] = {IPV4(7), IPV4(0), IPV6(0xfe, 0x80, 7), {{0}, 4}, {{255, 255, 255, 255}, 4}, {{0}, 0}};
#define NEW_ADDR &new_addrs[NUMBER(5) % COUNT(new_addrs)]
#define LINK_TYPE link_types[NUMBER(2) % COUNT(link_types)]

READS(read_frame, FRAME, &result->frame)
READS(read_frame_options, FRAME, &result->frame, &result->options)
READS(find_ndisc, FRAME, &result->ndisc)
READS(read_link, LINK_TYPE, FRAME, &result->link)
READS(read_linktype, LINK_TYPE, FRAME, subject.len, &result->frame)
READS(rebuild, FRAME, ROOM)
READS(emit_icmp_error, &host_interface, (int)(NUMBER(9) % 9), (uint32_t)(NUMBER(20) % 2000), FRAME, ROOM)
CHANGES(forward, COPY, ipv4_headers.ethernet.dst, ipv4_headers.ethernet.src)
CHANGES(translate, COPY, SIDE, &(struct lk_endpoint){*(NEW_ADDR), (uint16_t)(NUMBER(21) % 3 * 700)})
CHANGES(clamp_mss, COPY, (uint16_t)(NUMBER(13) % 1600))
CHANGES(set_hop_limit, COPY, (uint8_t)NUMBER(13))
CHANGES(set_dscp, COPY, NUMBER(13) % 70)
CHANGES(set_addr, COPY, SIDE, NEW_ADDR)
CHANGES(set_port, COPY, SIDE, (uint16_t)NUMBER(17))
CHANGES(set_bytes, COPY, NUMBER(18) % 90, bytes + NUMBER(30) % 256, NUMBER(40) % 2 ? NUMBER(41) % 5 : NUMBER(41) % 40)
CHANGES(fill_checksum, COPY)
CHANGES(translate_out, &nat, result->mappings, COUNT(result->mappings), subject.now, COPY)
CHANGES(translate_in, &nat, result->mappings, COUNT(result->mappings), subject.now, COPY)

/* The floor writes no parameter problem, so it is not given what may get one. */
static void run_answer(const struct library *library, struct result *result)
{
    struct lk_frame frame;
    lk_read_frame(FRAME, &frame);
    if (frame.network != LK_IPV6 || frame.ip.protocol == 6 || frame.ip.protocol == 17 || frame.ip.protocol == 58)
        result->answer = library->answer(&host, FRAME, ROOM);
}

/* Prints what ours reads, also with fields that no frame has. */
static void run_print_frame(const struct library *library, struct result *result)
{
    struct lk_frame frame;
    lk_read_frame(FRAME, &frame);
    if (!(NUMBER(14) % 4))
        ((uint8_t *)&frame)[NUMBER(16) % sizeof frame] = (uint8_t)NUMBER(24);
    result->answer = library->print_frame(&frame, (char *)ROOM);
}

#define RUN(name) {#name, run_##name},
static const struct {
    const char *name;
    runner *run;
} compared[] = {
    RUN(read_frame) RUN(read_frame_options) RUN(find_ndisc) RUN(read_link) RUN(read_linktype) RUN(rebuild) RUN(answer)
    RUN(emit_icmp_error) RUN(forward) RUN(translate) RUN(clamp_mss) RUN(set_hop_limit) RUN(set_dscp) RUN(set_addr) RUN(set_port)
    RUN(set_bytes) RUN(fill_checksum) RUN(translate_out) RUN(translate_in) RUN(print_frame)
};

/* A library may write anything there. */
static void clear_padding(struct lk_frame *frame)
{
    size_t tcp_end = offsetof(struct lk_frame, tcp) + offsetof(struct lk_tcp, header_len) + 1;
    size_t icmp_end = offsetof(struct lk_frame, icmp) + offsetof(struct lk_icmp, code) + 1;
    memset((char *)frame + tcp_end, 0, offsetof(struct lk_frame, ethernet) - tcp_end);
    memset((char *)frame + icmp_end, 0, sizeof *frame - icmp_end);
}

/* What a call leaves, in a result that is zeros but for its mappings. */
static void leave(runner *run, const struct library *library, struct result *result)
{
    memset(result, 0, offsetof(struct result, mappings));
    run(library, result);
    if (run == run_read_frame || run == run_read_frame_options || run == run_read_linktype)
        clear_padding(&result->frame);
}

static size_t compared_size(runner *run)
{
    return run == run_translate_out || run == run_translate_in ? sizeof(struct result) : offsetof(struct result, mappings);
}

static void print_difference(const char *name, const struct result *ours, const struct result *other)
{
    printf("%s: ours returns %lld, the floor %lld\n", name, (long long)ours->answer, (long long)other->answer);
    for (size_t i = 0; i < RESULT_ROOM; i++)
        if (ours->bytes[i] != other->bytes[i])
            printf(" byte %zu: %02x, %02x\n", i, ours->bytes[i], other->bytes[i]);
    printf(" %#llx:", (unsigned long long)subject.number);
    for (size_t i = 0; i < subject.len && i < 160; i++)
        printf("%s%02x", i % 40 ? "" : "\n  ", subject.bytes[i]);
    printf("\n");
}

/* Returns 1 if a call differs on some of so many frames. Says how many answers were not 0. */
static int compare_on_damaged(const struct library *ours, const struct library *floor, uint64_t count)
{
    static struct result left[2];
    uint64_t differ[COUNT(compared)] = {0}, answered[COUNT(compared)] = {0}, sum = 0;
    visit_rows(keep_samples);
    for (uint64_t i = 0; i < count; i++) {
        draw_subject();
        for (size_t j = 0; j < COUNT(compared); j++) {
            leave(compared[j].run, ours, &left[0]);
            leave(compared[j].run, floor, &left[1]);
            answered[j] += left[0].answer != 0;
            if (memcmp(&left[0], &left[1], compared_size(compared[j].run))) {
                if (differ[j]++ == 0)
                    print_difference(compared[j].name, &left[0], &left[1]);
                left[1] = left[0];
            }
        }
    }
    for (size_t j = 0; j < COUNT(compared); j++) {
        printf("%-20s %llu differ, %llu answers are not 0\n", compared[j].name, (unsigned long long)differ[j],
               (unsigned long long)answered[j]);
        sum += differ[j];
    }
    printf("%llu damaged frames of %zu, %llu differences\n", (unsigned long long)count, sample_count, (unsigned long long)sum);
    return sum != 0;
}
