/* A host on a TAP device (Linux). It echoes what comes to port 7 by UDP and TCP over IPv4 and IPv6, and rejects every
 * other connection. sockets.h has its TCP connections. lk_answer answers the rest: the echo of UDP, ping, ARP, neighbour
 * solicitations, and what comes to other ports.
 *     host DEVICE HARDWARE_ADDRESS IPV4_ADDRESS IPV6_ADDRESS
 * Makes the device, unless it exists, and prints "ready". SIGINT and SIGTERM end it: then it prints counts. It
 * ends with status 1 if the device is deleted. While the device is down, it waits. addresses.h asks for a second whether
 * another host has its addresses, before they are used, and gives it a link-local one.
 *
 * Packets in fragments are put together. Long answers leave in fragments.
 *
 * Not supported: ICMP errors that come in, but for "packet too big". */
#define _GNU_SOURCE
#include "addresses.h"
#include "error_limit.h"
#include "process.h"
#include "sockets.h"

static const char help[] =
    "usage: host DEVICE HARDWARE_ADDRESS IPV4_ADDRESS IPV6_ADDRESS\n"
    "Is a host on a TAP device, which echoes what comes to port 7 by UDP and TCP.\n"
    "  DEVICE            the name of the TAP device; it is made unless it exists\n"
    "  HARDWARE_ADDRESS  the Ethernet address of the host, as 02-00-00-00-aa-07\n"
    "  IPV4_ADDRESS, IPV6_ADDRESS  its addresses, as 10.77.0.2 and fd77::2; 0.0.0.0 or :: if it has none\n"
    "  --help            prints this\n"
    "SIGINT and SIGTERM end it, and it prints counts.\n";

enum { ECHO_PORT = 7 };

static struct lk_host own = {.echo_port = ECHO_PORT};
static struct sockets sockets; /* no initializer: it would put the buffers, 32 MiB of zeros, into the program's file */
static struct error_limit limit;
static struct fragments fragments;
static struct addresses addresses;
static int device;
static uint8_t out[LONGEST_WHOLE];
static unsigned long frames_in, frames_out, rejected, wrong_checksums;

/* Sends the frame in `out`, if it could be written. A frame is lost while the device is down. */
static void send_out(ptrdiff_t len)
{
    if (len > 0)
        frames_out += write_packet(device, &fragments, out, (size_t)len);
}

/* Returns whether the frame has an answer. */
static int answer(const uint8_t *frame, size_t len)
{
    ptrdiff_t answer_len = answer_frame(&addresses, &own, frame, len, out, sizeof out);
    if (answer_len > 0 && may_send(&limit, milliseconds(), out, (size_t)answer_len))
        send_out(answer_len);
    return answer_len > 0;
}

/* Tells the senders of fragments that the others did not come. */
static void expire_fragments(void)
{
    struct lk_interface interface = {.ipv4 = own.ipv4, .ipv6 = own.ipv6};
    memcpy(interface.hardware, own.hardware, 6);
    for (size_t len; (len = expire(&fragments, milliseconds())) > 0;) {
        ptrdiff_t error = lk_emit_icmp_error(&interface, LK_FRAGMENT_MISSING, 0, fragments.whole, len, out, sizeof out);
        if (error > 0 && may_send(&limit, milliseconds(), out, (size_t)error))
            send_out(error);
    }
}

/* Writes back what was read, as far as there is room for it, and closes after the peer. */
static void echo(struct socket *s)
{
    static uint8_t bytes[BUFFER];
    size_t len;
    while ((len = read_bytes(s, bytes, room_of(s))) > 0)
        write_bytes(s, bytes, len);
    if (lk_connection_at_eof(&s->tcp))
        lk_connection_close(&s->tcp);
}

/* Also of a frame with a rejected header. A checksum that is left to the device is wrong here, as for lk_answer. */
static int has_wrong_checksum(const struct lk_frame *in)
{
    int verdict = in->transport_checksum;
    return in->ipv4_checksum == LK_CHECKSUM_INVALID || verdict == LK_CHECKSUM_INVALID || verdict == LK_CHECKSUM_PARTIAL;
}

/* `is_whole`: the frame was put together from fragments. */
static void on_frame(const uint8_t *frame, size_t len, int is_whole)
{
    struct lk_frame in;
    struct lk_tcp_options options;
    struct lk_host room;
    int reason = lk_read_frame_options(frame, len, &in, &options);
    const struct lk_host *host = host_for(&addresses, &own, &in, &room);
    if (!is_whole && is_fragment_for(host, &in)) {
        if (in.is_fragment && answer(frame, len))
            return; /* an error about a fault: the fragment is discarded */
        ptrdiff_t whole_len = reassemble(&fragments, milliseconds(), &in, frame, len);
        if (whole_len > 0)
            on_frame(fragments.whole, (size_t)whole_len, 1);
        return;
    }
    if (reason != LK_READ)
        rejected++;
    frames_out += hear_addresses(&addresses, milliseconds(), &in, frame, len);
    if (has_wrong_checksum(&in))
        wrong_checksums++;
    else if (is_too_big(&in) && is_for_us(host, &in))
        on_too_big(&sockets, &in, frame);
    else if (in.transport != LK_TCP || !is_for_us(host, &in) || !on_tcp(&sockets, &in, &options, frame))
        answer(frame, len);
}

/* Reads some frames, so that signals and timers have their turn. Returns 0 if the device has been deleted. */
static int read_frames(void)
{
    static uint8_t frame[LONGEST_FRAME];
    for (int count = 0; count < FRAMES_AT_ONCE; count++) {
        ssize_t len = read(device, frame, sizeof frame);
        if (len < 0)
            return is_there();
        frames_in++;
        on_frame(frame, (size_t)len, 0);
    }
    return 1;
}

/* Returns the status of the program. */
static int serve(const char *name, int signals, struct output *output)
{
    struct pollfd fds[2] = {{.fd = signals, .events = POLLIN}, {.fd = device, .events = POLLIN}};
    for (int is_ready = 0;;) {
        frames_out += run_addresses(&addresses, milliseconds(), &own);
        if (!is_ready && is_introduced(&addresses, milliseconds())) {
            print(output, "ready\n");
            is_ready = 1;
        }
        int other = sooner(until_expire(&fragments), until_addresses(&addresses, milliseconds()));
        poll(fds, 2, sooner(run_sockets(&sockets), other));
        expire_fragments();
        if (fds[0].revents != 0)
            return 0;
        if ((fds[1].revents & (POLLERR | POLLHUP | POLLNVAL)) || !read_frames()) {
            print(&addresses.errors, "host: %s: the device was deleted\n", name);
            return 1;
        }
    }
}

int main(int argc, char **argv)
{
    static const int no_others[] = {0};
    prepare();
    if (argc != 5 || asks_for_help(argc, argv))
        return print_help(help, asks_for_help(argc, argv));
    if (!lk_cpu_supported()) {
        fprintf(stderr, "host: the processor has no SSE4.2 or no POPCNT\n");
        return 1;
    }
    if (!read_host("host", argv + 2, &own))
        return 2;
    device = open_tap("host", argv[1]);
    if (device < 0)
        return 1;
    sockets.own = &own;
    sockets.port = ECHO_PORT;
    sockets.device = device;
    sockets.serve = echo;
    make_sockets(&sockets);
    sockets.mtu = mtu_of(device);
    if (sockets.mtu == 0 || !make_fragments(&fragments)) {
        perror("host");
        return 1;
    }
    struct output output = open_output(STDOUT_FILENO);
    int signals = open_signals(no_others);
    if (signals < 0) {
        perror("host: signalfd");
        return 1;
    }
    make_addresses(&addresses, "host", argv[1], device, &own);
    int status = serve(argv[1], signals, &output);
    print(&output, "frames read %lu, written %lu, rejected %lu, wrong checksums %lu\n", frames_in,
          frames_out + sockets.frames_out, rejected, wrong_checksums);
    return status;
}
