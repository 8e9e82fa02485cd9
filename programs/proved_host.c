/* The proved host on a TAP device (Linux). lk_answer writes each answer, so this program has no byte of
 * a packet: it reads frames, and sends what it gets for them. Packets in fragments are put together, and long answers
 * leave in fragments.
 *     proved_host DEVICE HARDWARE_ADDRESS IPV4_ADDRESS IPV6_ADDRESS [TCP_PORT..]
 * Makes the device, unless it exists, and prints "ready". It answers ARP, neighbour solicitations and ping for its
 * addresses, echoes what comes to port 7 by UDP, answers a SYN to one of the TCP ports, and rejects all else that
 * comes by UDP and TCP. SIGINT and SIGTERM end it. It ends with status 1 if the device is deleted. While the device is
 * down, it waits. addresses.h asks for a second whether another host has its addresses, before they are used, and gives it
 * a link-local one.
 *
 * Not supported: TCP connections (host.c has them). */
#define _GNU_SOURCE
#include "addresses.h"
#include "error_limit.h"
#include <stdlib.h>
#include <sys/random.h>

enum { MOST_PORTS = 16 };

static struct fragments fragments;
static struct addresses addresses;

static const char help[] =
    "usage: proved_host DEVICE HARDWARE_ADDRESS IPV4_ADDRESS IPV6_ADDRESS [TCP_PORT..]\n"
    "Is a host on a TAP device, which answers ARP, ping, UDP and the SYN of TCP.\n"
    "  DEVICE            the name of the TAP device; it is made unless it exists\n"
    "  HARDWARE_ADDRESS  the Ethernet address of the host, as 02-00-00-00-aa-07\n"
    "  IPV4_ADDRESS, IPV6_ADDRESS  its addresses, as 10.77.0.2 and fd77::2; 0.0.0.0 or :: if it has none\n"
    "  TCP_PORT          a port whose SYN it answers, at most 16 of them\n"
    "  --help            prints this\n"
    "SIGINT and SIGTERM end it.\n";

/* Reads the TCP ports. Returns 0 if one is none, with a message. */
static int read_ports(char **words, int count, uint16_t *ports)
{
    for (int i = 0; i < count; i++) {
        char *end;
        unsigned long port = strtoul(words[i], &end, 10);
        if (*words[i] < '0' || *words[i] > '9' || *end != 0 || port == 0 || port > 65535) {
            fprintf(stderr, "proved_host: %s: not a port from 1 to 65535\n", words[i]);
            return 0;
        }
        ports[i] = (uint16_t)port;
    }
    return 1;
}

/* Chooses what the next SYN says: a sequence number that nobody guesses, and the time. */
static int renew(struct lk_host *host)
{
    host->tsval = (uint32_t)milliseconds();
    return getrandom(&host->seq_number, sizeof host->seq_number, 0) == (ssize_t)sizeof host->seq_number;
}

/* Sends an answer, in fragments if it is too long. It is lost while the device is down. */
static void send_answer(int device, const uint8_t *answer, size_t len)
{
    static struct error_limit limit;
    if (may_send(&limit, milliseconds(), answer, len))
        write_packet(device, &fragments, answer, len);
}

/* Whether a fragment has a fault, about which an error is sent: it is discarded. */
static int is_faulty(int device, const struct lk_host *host, const struct lk_frame *in, const uint8_t *frame, size_t len)
{
    static uint8_t out[LONGEST_FRAME];
    ptrdiff_t error = in->is_fragment ? answer_frame(&addresses, host, frame, len, out, sizeof out) : 0;
    if (error > 0)
        send_answer(device, out, (size_t)error);
    return error > 0;
}

/* Returns the length of the frame to answer, at `*frame`: one that came in, or if it has a fragment the whole packet. 0:
 * there is none. */
static size_t whole_frame(int device, const struct lk_host *host, const uint8_t **frame, size_t len)
{
    struct lk_frame in;
    struct lk_host room;
    lk_read_frame(*frame, len, &in);
    hear_addresses(&addresses, milliseconds(), &in, *frame, len);
    if (!is_fragment_for(host_for(&addresses, host, &in, &room), &in))
        return len;
    if (is_faulty(device, host, &in, *frame, len))
        return 0;
    ptrdiff_t whole_len = reassemble(&fragments, milliseconds(), &in, *frame, len);
    *frame = fragments.whole;
    return whole_len > 0 ? (size_t)whole_len : 0;
}

/* Answers some frames. Returns 0 if the device has been deleted. */
static int answer_frames(int device, struct lk_host *host)
{
    static uint8_t in[LONGEST_FRAME], out[LONGEST_WHOLE];
    for (int count = 0; count < FRAMES_AT_ONCE; count++) {
        const uint8_t *frame = in;
        ssize_t len = read(device, in, sizeof in);
        if (len < 0)
            return is_there();
        size_t whole_len = whole_frame(device, host, &frame, (size_t)len);
        if (whole_len == 0 || !renew(host))
            continue;
        ptrdiff_t answer = answer_frame(&addresses, host, frame, whole_len, out, sizeof out);
        if (answer > 0)
            send_answer(device, out, (size_t)answer);
    }
    return 1;
}

/* Tells the senders of fragments that the others did not come. */
static void expire_fragments(int device, const struct lk_host *host)
{
    static uint8_t out[LONGEST_WHOLE];
    struct lk_interface interface = {.ipv4 = host->ipv4, .ipv6 = host->ipv6};
    memcpy(interface.hardware, host->hardware, 6);
    for (size_t len; (len = expire(&fragments, milliseconds())) > 0;) {
        ptrdiff_t error = lk_emit_icmp_error(&interface, LK_FRAGMENT_MISSING, 0, fragments.whole, len, out, sizeof out);
        if (error > 0)
            send_answer(device, out, (size_t)error);
    }
}

/* Returns the status of the program. */
static int serve(const char *name, int device, int signals, struct lk_host *host)
{
    struct output output = open_output(STDOUT_FILENO);
    struct pollfd files[2] = {{.fd = signals, .events = POLLIN}, {.fd = device, .events = POLLIN}};
    for (int is_ready = 0;;) {
        run_addresses(&addresses, milliseconds(), host);
        if (!is_ready && is_introduced(&addresses, milliseconds())) {
            print(&output, "ready\n");
            is_ready = 1;
        }
        poll(files, 2, sooner(until_expire(&fragments), until_addresses(&addresses, milliseconds())));
        expire_fragments(device, host);
        if (files[0].revents != 0)
            return 0;
        if ((files[1].revents & (POLLERR | POLLHUP | POLLNVAL)) || !answer_frames(device, host)) {
            print(&addresses.errors, "proved_host: %s: the device was deleted\n", name);
            return 1;
        }
    }
}

int main(int argc, char **argv)
{
    static const int no_others[] = {0};
    uint16_t ports[MOST_PORTS] = {0};
    struct lk_host host = {
        .open_ports = ports, .echo_port = 7, .window_len = 65535, .mss = 1440, .window_scale = 3};

    prepare();
    if (argc < 5 || argc > 5 + MOST_PORTS || asks_for_help(argc, argv))
        return print_help(help, asks_for_help(argc, argv));
    if (!lk_cpu_supported()) {
        fprintf(stderr, "proved_host: the processor has no SSE4.2 or no POPCNT\n");
        return 1;
    }
    if (!read_host("proved_host", argv + 2, &host) || !read_ports(argv + 5, argc - 5, ports))
        return 2;
    host.open_port_count = (size_t)argc - 5;
    int device = open_tap("proved_host", argv[1]);
    if (device < 0)
        return 1;
    if (!make_fragments(&fragments)) {
        perror("proved_host");
        return 1;
    }
    int signals = open_signals(no_others);
    if (signals < 0) {
        perror("proved_host: signalfd");
        return 1;
    }
    make_addresses(&addresses, "proved_host", argv[1], device, &host);
    return serve(argv[1], device, signals, &host);
}
