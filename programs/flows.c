/* Prints the flows of a capture, those with most bytes first. Each is one line, as this:
 *
 *     TCP 192.0.2.1:40000 192.0.2.2:443 packets 3+2 bytes 306+440 time 0.050000 s rate 119.4 kbit/s
 *         rtt 20.000+0.500 ms syn 2,4,8,1,3+2,4,8,1,3 wrong 1
 *
 * The first end sent the first packet. Each sum has what the first end sent, and what the second sent. `bytes` counts the
 * bytes of the frames, captured or not. `rtt` is the shortest time until the second end echoed a timestamp of the first
 * (RFC 7323), and the other way round: a round trip takes their sum. `syn` has the kinds of the TCP options of SYN, in
 * order. `wrong` counts packets with a wrong checksum, without those whose checksum was left to the device.
 *
 * A time more than 2^32 seconds before or after 1970 counts as that far, so that all differences fit into 64 bits. */
#define _GNU_SOURCE
#include "process.h"
#include <ip_wire.h>
#include <inttypes.h>
#include <pcap/pcap.h>
#include <stdlib.h>
#include <sys/random.h>

enum { MOST_BLOCKS = 256, MOST_OPTIONS = 40 };
enum echo { NO_TIMESTAMP, WAITS, ECHOED };

/* What one endpoint sent. */
struct side {
    uint64_t packets, bytes;
    int64_t sent_at, rtt; /* in nanoseconds; `rtt` is -1 if no timestamp was echoed */
    uint32_t tsval;       /* the last one whose echo was waited for */
    uint8_t echo;         /* an `echo` */
    uint8_t option_count;
    uint8_t options[MOST_OPTIONS]; /* the kinds of those of SYN */
};

/* It has no padding, so its bytes are its value. */
struct key {
    struct lk_endpoint ends[2];
    uint16_t protocol;
};

struct flow {
    struct key key; /* of the first packet, from `ends[0]` to `ends[1]` */
    struct side sides[2];
    int64_t begin, end; /* in nanoseconds */
    uint64_t wrong;
};

/* An open hash table: a place is 0, or 1 plus the index of a flow. At most half of them are used. */
struct table {
    struct flow *flows;
    uint32_t *places;
    size_t size, used; /* `size` is a power of 2 */
};

static const char help[] =
    "usage: flows [-n COUNT] CAPTURE [BLOCK..]\n"
    "Prints the flows of a capture, those with most bytes first.\n"
    "  -n COUNT  prints only COUNT flows\n"
    "  CAPTURE   a file of Ethernet, raw or cooked packets; - is the standard input\n"
    "  BLOCK     a CIDR block, at most 256 of them: a flow with an address outside of all is marked\n"
    "            \"not allowed\", and the exit status is then 3\n"
    "  --help    prints this\n";
static struct lk_prefix blocks[MOST_BLOCKS];
static size_t block_count;
static uint64_t seed[2];
static size_t others, rejected[LK_REASON_COUNT + 1]; /* frames without a flow; the last are those of a later library */

static _Noreturn void give_up(const char *what, const char *why)
{
    fprintf(stderr, "flows: %s: %s\n", what, why);
    exit(1);
}

/* ---- the table ---- */

/* Multiplies by a random key, and folds the product. So nobody can choose endpoints that meet in the table. */
static size_t hash(const struct key *key)
{
    uint64_t words[6] = {0}, sum = seed[0];
    memcpy(words, key, sizeof *key);
    for (int i = 0; i < 6; i++) {
        __extension__ unsigned __int128 product = (unsigned __int128)(sum ^ words[i]) * seed[1];
        sum = (uint64_t)product ^ (uint64_t)(product >> 64);
    }
    return (size_t)sum;
}

/* The place of a key, or the empty place where it belongs. */
static uint32_t *find(const struct table *table, const struct key *key)
{
    size_t at = hash(key) & (table->size - 1);
    while (table->places[at] != 0 && memcmp(&table->flows[table->places[at] - 1].key, key, sizeof *key) != 0)
        at = (at + 1) & (table->size - 1);
    return &table->places[at];
}

static void resize(struct table *table, size_t size)
{
    free(table->places);
    table->size = size;
    table->places = calloc(size, sizeof *table->places);
    struct flow *flows = realloc(table->flows, size / 2 * sizeof *flows);
    if (table->places == NULL || flows == NULL || size > UINT32_MAX)
        give_up("table of flows", "out of memory");
    table->flows = flows;
    for (size_t i = 0; i < table->used; i++)
        *find(table, &table->flows[i].key) = (uint32_t)i + 1;
}

/* The flow of a packet. `side` says which end sent it. */
static struct flow *flow_of(struct table *table, const struct lk_frame *frame, int64_t now, int *side)
{
    struct key key = {{frame->src, frame->dst}, frame->protocol};
    struct key back = {{frame->dst, frame->src}, frame->protocol};
    if (2 * table->used >= table->size)
        resize(table, 2 * table->size);
    uint32_t *place = find(table, &key), *other = *place != 0 ? place : find(table, &back);
    *side = *place == 0 && *other != 0;
    if (*other != 0)
        return &table->flows[*other - 1];
    struct flow flow = {.key = key, .begin = now, .end = now};
    flow.sides[0].rtt = flow.sides[1].rtt = -1;
    table->flows[table->used] = flow;
    *place = (uint32_t)++table->used;
    return &table->flows[*place - 1];
}

/* ---- packets ---- */

/* A timestamp waits for its echo, and those after it do not. An echo of a later one ends that too. */
static void count_timestamp(struct side *sender, struct side *receiver, const struct lk_tcp_options *options,
                            int has_ack, int64_t now)
{
    if (has_ack && receiver->echo == WAITS && lk_compare_seq(options->tsecr, receiver->tsval) >= 0) {
        int64_t rtt = now - receiver->sent_at;
        if (options->tsecr == receiver->tsval && rtt >= 0 && (receiver->rtt < 0 || rtt < receiver->rtt))
            receiver->rtt = rtt;
        receiver->echo = ECHOED;
    }
    if (sender->echo == NO_TIMESTAMP || (sender->echo == ECHOED && lk_compare_seq(options->tsval, sender->tsval) > 0)) {
        sender->echo = WAITS;
        sender->tsval = options->tsval;
        sender->sent_at = now;
    }
}

static void count_tcp(struct side *sender, struct side *receiver, const uint8_t *header, const struct lk_tcp *tcp,
                      int64_t now)
{
    struct lk_tcp_option option = {0, 0, 0, 0};
    struct lk_tcp_options options;
    if (tcp->flags & LK_SYN && sender->option_count == 0)
        while (lk_next_tcp_option(header, tcp->header_len, &option))
            sender->options[sender->option_count++] = option.kind;
    if (lk_find_tcp_options(header, tcp->header_len, &options) && options.has_timestamp)
        count_timestamp(sender, receiver, &options, tcp->flags & LK_ACK, now);
}

static void count(struct table *table, const struct lk_frame *frame, const uint8_t *ptr, size_t len, int64_t now)
{
    int side;
    struct flow *flow = flow_of(table, frame, now, &side);
    struct side *sender = &flow->sides[side], *receiver = &flow->sides[!side];
    sender->packets++;
    sender->bytes += len;
    flow->begin = now < flow->begin ? now : flow->begin;
    flow->end = now > flow->end ? now : flow->end;
    flow->wrong += frame->ipv4_checksum == LK_CHECKSUM_INVALID || frame->transport_checksum == LK_CHECKSUM_INVALID;
    if (frame->transport == LK_TCP)
        count_tcp(sender, receiver, ptr + frame->transport_offset, &frame->tcp, now);
}

static int64_t within(int64_t value, int64_t most)
{
    return value > most ? most : value < -most ? -most : value;
}

/* In nanoseconds. Classic captures have up to 2^32 microseconds after a second. */
static int64_t time_of(const struct pcap_pkthdr *header)
{
    return within(header->ts.tv_sec, INT64_C(1) << 32) * 1000000000 + within(header->ts.tv_usec, INT64_C(1) << 42);
}

/* Returns whether the capture was read to its end. */
static int count_capture(pcap_t *capture, uint32_t link_type, struct table *table)
{
    struct pcap_pkthdr *header;
    const u_char *bytes;
    int next;
    while ((next = pcap_next_ex(capture, &header, &bytes)) == 1) {
        struct lk_frame frame;
        int64_t now = time_of(header);
        int reason = lk_read_linktype(link_type, bytes, header->caplen, header->len, &frame);
        int has_ports = reason == LK_READ || (reason == LK_HEADER_CUT && frame.rejected != LK_NO_TRANSPORT);
        if (!has_ports)
            rejected[reason < LK_REASON_COUNT ? reason : LK_REASON_COUNT]++;
        else if (frame.network == LK_IPV4 || frame.network == LK_IPV6)
            count(table, &frame, bytes, header->len, now);
        else
            others++;
    }
    return next != PCAP_ERROR;
}

/* ---- output ---- */

static int is_allowed(const struct lk_addr *addr)
{
    for (size_t i = 0; i < block_count; i++)
        if (lk_contains(&blocks[i], addr))
            return 1;
    return block_count == 0;
}

static uint64_t bytes_of(const struct flow *flow)
{
    return flow->sides[0].bytes + flow->sides[1].bytes;
}

static int by_bytes(const void *a, const void *b)
{
    const struct flow *x = a, *y = b;
    if (bytes_of(x) != bytes_of(y))
        return bytes_of(x) < bytes_of(y) ? 1 : -1;
    return memcmp(&x->key, &y->key, sizeof x->key);
}

static void print_times(const struct flow *flow)
{
    const struct side *sides = flow->sides;
    double seconds = (double)(flow->end - flow->begin) / 1e9;
    printf(" time %.6f s", seconds);
    if (seconds > 0)
        printf(" rate %.1f kbit/s", (double)bytes_of(flow) * 8 / seconds / 1000);
    if (sides[0].rtt >= 0 && sides[1].rtt >= 0)
        printf(" rtt %.3f+%.3f ms", (double)sides[0].rtt / 1e6, (double)sides[1].rtt / 1e6);
}

static void print_flow(const struct flow *flow, int allowed)
{
    const struct lk_endpoint *ends = flow->key.ends;
    const struct side *sides = flow->sides;
    int protocol = flow->key.protocol;
    printf(protocol == LK_PROTOCOL_TCP ? "TCP" : protocol == LK_PROTOCOL_UDP ? "UDP" : "protocol %d", protocol);
    for (int i = 0; i < 2; i++) {
        char text[LK_ENDPOINT_TEXT];
        if (ends[0].port != 0 || ends[1].port != 0)
            lk_print_endpoint(&ends[i], text, sizeof text);
        else
            lk_print_addr(&ends[i].addr, text, sizeof text);
        printf(" %s", text);
    }
    printf(" packets %" PRIu64 "+%" PRIu64 " bytes %" PRIu64 "+%" PRIu64, sides[0].packets, sides[1].packets,
           sides[0].bytes, sides[1].bytes);
    print_times(flow);
    if (sides[0].option_count + sides[1].option_count > 0)
        printf(" syn ");
    for (int k = 0; k < sides[0].option_count; k++)
        printf("%s%d", k > 0 ? "," : "", sides[0].options[k]);
    for (int k = 0; k < sides[1].option_count; k++)
        printf("%s%d", k > 0 ? "," : "+", sides[1].options[k]);
    if (flow->wrong > 0)
        printf(" wrong %" PRIu64, flow->wrong);
    puts(allowed ? "" : " not allowed");
}

/* Prints the flows, at most `most` of them, and returns how many of all are not allowed. */
static size_t print_flows(struct table *table, size_t most)
{
    size_t outside = 0;
    qsort(table->flows, table->used, sizeof *table->flows, by_bytes);
    for (size_t i = 0; i < table->used; i++) {
        const struct flow *flow = &table->flows[i];
        int allowed = is_allowed(&flow->key.ends[0].addr) && is_allowed(&flow->key.ends[1].addr);
        if (i < most)
            print_flow(flow, allowed);
        outside += !allowed;
    }
    return outside;
}

static void print_sums(const struct table *table)
{
    size_t all = 0;
    for (int i = 0; i <= LK_REASON_COUNT; i++)
        all += rejected[i];
    printf("flows %zu, other frames %zu, rejected frames %zu", table->used, others, all);
    for (int i = 0; i <= LK_REASON_COUNT; i++)
        if (rejected[i] > 0)
            printf(", %s %zu", lk_reason_name(i), rejected[i]);
    putchar('\n');
}

/* Returns how many flows are to be printed, and stores the blocks. The capture is argv[optind]. */
static size_t read_arguments(int argc, char **argv)
{
    size_t most = SIZE_MAX;
    char *end = "";
    opterr = 0;
    for (int letter; (letter = getopt(argc, argv, "n:")) != -1;) {
        if (letter != 'n')
            exit(print_help(help, 0));
        most = strtoul(optarg, &end, 10);
        if (*optarg < '0' || *optarg > '9' || *end != '\0')
            give_up(optarg, "not a count");
    }
    if (optind == argc || argc - optind - 1 > MOST_BLOCKS)
        exit(print_help(help, 0));
    for (int i = optind + 1; i < argc; i++)
        if (!lk_parse_prefix(argv[i], strlen(argv[i]), &blocks[block_count++]))
            give_up(argv[i], "not a CIDR block, as 192.0.2.0/24 or 2001:db8::/32");
    return most;
}

int main(int argc, char **argv)
{
    char error[PCAP_ERRBUF_SIZE];
    struct table table = {NULL, NULL, 0, 0};
    if (asks_for_help(argc, argv))
        return print_help(help, 1);
    if (!lk_cpu_supported())
        give_up("processor", "it has no SSE4.2 or no POPCNT");
    size_t most = read_arguments(argc, argv);
    const char *name = argv[optind];
    pcap_t *capture = pcap_open_offline_with_tstamp_precision(name, PCAP_TSTAMP_PRECISION_NANO, error);
    if (capture == NULL)
        give_up("capture", error);
    uint32_t link_type = (uint32_t)pcap_datalink(capture);
    struct lk_link unused;
    if (lk_read_link(link_type, NULL, 0, &unused) == LK_UNKNOWN_LINK)
        give_up(name, "neither Ethernet nor raw nor cooked packets");
    if (getentropy(seed, sizeof seed) != 0)
        give_up("random numbers", "there are none");
    resize(&table, 1024);
    int is_whole = count_capture(capture, link_type, &table);
    size_t outside = print_flows(&table, most);
    print_sums(&table);
    if (!is_whole)
        give_up(name, pcap_geterr(capture));
    if (fflush(stdout) != 0 || ferror(stdout))
        give_up("output", "it cannot be written");
    pcap_close(capture);
    free(table.flows);
    free(table.places);
    return outside > 0 ? 3 : 0;
}
