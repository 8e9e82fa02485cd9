/* A firewall between two TAP devices (Linux). It forwards a frame only if every header in it parses and every checksum is
 * right, drops packets to the blocks that it is given, and normalizes what passes.
 *     firewall INSIDE OUTSIDE BLOCK..
 * docs/TUTORIAL_C.md explains it. */
#define _GNU_SOURCE
#include <fcntl.h>
#include <ip_wire.h>
#include <linux/if_tun.h>
#include <net/if.h>
#include <poll.h>
#include <stdio.h>
#include <string.h>
#include <sys/ioctl.h>
#include <unistd.h>

enum { MOST_BLOCKS = 64, LONGEST_FRAME = 65549, ERROR_LEN = 1294 };

static struct lk_prefix blocks[MOST_BLOCKS];
static size_t block_count;

static int open_tap(const char *name)
{
    struct ifreq request = {.ifr_flags = IFF_TAP | IFF_NO_PI};
    int device = open("/dev/net/tun", O_RDWR | O_NONBLOCK);
    snprintf(request.ifr_name, IFNAMSIZ, "%s", name);
    return device >= 0 && ioctl(device, TUNSETIFF, &request) == 0 ? device : -1;
}

static int is_blocked(const struct lk_addr *addr)
{
    for (size_t i = 0; i < block_count; i++)
        if (lk_contains(&blocks[i], addr))
            return 1;
    return 0;
}

/* Tells the sender that its packet was dropped, in the name of the receiver. */
static void reject(int device, const struct lk_frame *f, const uint8_t *frame, size_t len)
{
    uint8_t out[ERROR_LEN];
    struct lk_interface receiver = {.ipv4 = {{0}, 4}, .ipv6 = {{0}, 6}};
    *(f->network == LK_IPV4 ? &receiver.ipv4 : &receiver.ipv6) = f->dst.addr;
    memcpy(receiver.hardware, f->ethernet.dst, 6);
    ptrdiff_t n = lk_emit_icmp_error(&receiver, LK_PROHIBITED, 0, frame, len, out, sizeof out);
    if (n > 0 && write(device, out, (size_t)n) < 0)
        perror("firewall");
}

static void on_frame(int from, int to, const uint8_t *frame, size_t len)
{
    static uint8_t out[LONGEST_FRAME];
    char line[LK_FRAME_TEXT];
    struct lk_frame f;
    const char *verdict = "passed";
    lk_read_frame(frame, len, &f);
    if (!lk_is_valid(&f)) {
        verdict = "dropped";
    } else if (f.network != LK_ARP && is_blocked(&f.dst.addr)) {
        verdict = "rejected";
        reject(from, &f, frame, len);
    } else {
        ptrdiff_t n = lk_rebuild(frame, len, out, sizeof out);
        if (n < 0 || write(to, out, (size_t)n) != n)
            verdict = "lost";
    }
    lk_print_frame(&f, line, sizeof line);
    printf("%s: %s\n", verdict, line);
    fflush(stdout);
}

int main(int argc, char **argv)
{
    static uint8_t frame[LONGEST_FRAME];
    if (argc < 3 || argc > 3 + MOST_BLOCKS || !lk_cpu_supported())
        return fprintf(stderr, "usage: firewall INSIDE OUTSIDE BLOCK..\n"), 2;
    for (int i = 3; i < argc; i++)
        if (!lk_parse_prefix(argv[i], strlen(argv[i]), &blocks[block_count++]))
            return fprintf(stderr, "firewall: %s is not a block such as 10.0.0.0/8\n", argv[i]), 2;
    struct pollfd fds[2] = {{open_tap(argv[1]), POLLIN, 0}, {open_tap(argv[2]), POLLIN, 0}};
    if (fds[0].fd < 0 || fds[1].fd < 0)
        return perror("firewall"), 1;
    printf("ready\n");
    fflush(stdout);
    while (poll(fds, 2, -1) > 0)
        for (int i = 0; i < 2; i++) {
            ssize_t len;
            if (fds[i].revents & ~POLLIN)
                return 1;
            while ((len = read(fds[i].fd, frame, sizeof frame)) > 0)
                on_frame(fds[i].fd, fds[!i].fd, frame, (size_t)len);
        }
    return 1;
}
