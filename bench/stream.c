/* The end of a TCP connection, on a TAP device: it sends the bytes of a file again and again, or expects them.
 *     stream send|receive DEVICE HARDWARE_ADDRESS IPV4_ADDRESS IPV6_ADDRESS FILE
 * Prints "ready". SIGTERM ends it: then it prints how many bytes were written or received. It ends with status 1 if other
 * bytes than those of the file were received. */
#define _GNU_SOURCE
#ifndef BUFFER
#define BUFFER (1 << 22)
#endif
#define SOCKETS 1
#include "../programs/sockets.h"

enum { PORT = 7, LONGEST = 1 << 20 };

static struct lk_host own;
static struct sockets sockets;
static char file[LONGEST];
static size_t file_len;
static uint64_t bytes; /* that were written or read */
static int sends;

static void write_all(struct socket *s)
{
    for (size_t at, n = 1; n > 0; bytes += n)
        at = bytes % file_len, n = write_bytes(s, file + at, file_len - at);
}

static void read_all(struct socket *s)
{
    static char part[LONGEST];
    for (size_t at, n = 1; n > 0; bytes += n) {
        at = bytes % file_len, n = read_bytes(s, part, file_len - at);
        if (memcmp(part, file + at, n) != 0) {
            fprintf(stderr, "stream: a wrong byte after %llu\n", (unsigned long long)bytes);
            _exit(1);
        }
    }
}

static void serve(struct socket *s)
{
    (sends ? write_all : read_all)(s);
}

static void read_frames(void)
{
    static uint8_t frame[LONGEST_FRAME];
    ssize_t len;
    for (int i = 0; i < FRAMES_AT_ONCE && (len = read(sockets.device, frame, sizeof frame)) > 0; i++) {
        struct lk_frame in;
        struct lk_tcp_options options;
        lk_read_frame_options(frame, (size_t)len, &in, &options);
        if (is_usable(&in) && is_for_us(&own, &in) && in.transport == LK_TCP)
            on_tcp(&sockets, &in, &options, frame);
    }
}

int main(int argc, char **argv)
{
    FILE *source = argc == 7 && read_host("stream", argv + 3, &own) ? fopen(argv[6], "rb") : NULL;
    file_len = source != NULL ? fread(file, 1, sizeof file, source) : 0;
    sockets.device = file_len > 0 ? open_tap("stream", argv[2]) : -1;
    if (sockets.device < 0)
        return 2;
    sends = strcmp(argv[1], "send") == 0;
    sockets.own = &own;
    sockets.port = PORT;
    sockets.serve = serve;
    make_sockets(&sockets);
    sockets.mtu = mtu_of(sockets.device);
    struct pollfd fds[2] = {{.fd = open_signals((const int[]){0}), .events = POLLIN}, {.fd = sockets.device, .events = POLLIN}};
    printf("ready\n");
    fflush(stdout);
    while (fds[0].revents == 0) {
        poll(fds, 2, run_sockets(&sockets));
        read_frames();
    }
    printf("%llu\n", (unsigned long long)bytes);
    return 0;
}
