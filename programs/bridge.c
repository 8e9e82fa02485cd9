/* Forwards Ethernet frames between two TAP devices, and rebuilds each frame on its way (Linux).
 *     bridge DEVICE DEVICE
 * Makes the devices, unless they exist, and prints "ready". SIGINT and SIGTERM end it: then it prints how
 * many frames it forwarded in each direction. It ends with status 1 if a device is deleted. A frame to a
 * device that is down is dropped. What rebuilding changes is in the table of ip_wire.h. */
#define _GNU_SOURCE
#include "process.h"
#include "tap.h"

static const char help[] =
    "usage: bridge DEVICE DEVICE\n"
    "Forwards Ethernet frames between two TAP devices, and rebuilds each frame.\n"
    "  DEVICE  the name of a TAP device; it is made unless it exists\n"
    "  --help  prints this\n"
    "SIGINT and SIGTERM end it, and it prints how many frames it forwarded.\n";

struct count {
    unsigned long forwarded, changed, dropped;
};

/* Forwards some frames, so that the other direction and signals have their turn. Returns 0 if the device `from` has
 * been deleted. */
static int forward(int from, int to, struct count *count)
{
    static uint8_t in[LONGEST_FRAME], out[LONGEST_FRAME];
    for (int left = FRAMES_AT_ONCE; left > 0; left--) {
        ssize_t len = read(from, in, sizeof in);
        if (len < 0)
            return is_there();
        ptrdiff_t rebuilt = lk_rebuild(in, (size_t)len, out, sizeof out);
        if (rebuilt < 0 || write(to, out, (size_t)rebuilt) != rebuilt) {
            count->dropped++;
            continue;
        }
        count->forwarded++;
        count->changed += rebuilt != len || memcmp(in, out, (size_t)len) != 0;
    }
    return 1;
}

/* Returns the status of the program. */
static int serve(struct pollfd *fds, struct count *there, struct count *back)
{
    struct output errors = open_output(STDERR_FILENO);
    for (;;) {
        poll(fds, 3, -1);
        if (fds[2].revents != 0)
            return 0;
        if (((fds[0].revents | fds[1].revents) & (POLLERR | POLLHUP | POLLNVAL))
            || !forward(fds[0].fd, fds[1].fd, there) || !forward(fds[1].fd, fds[0].fd, back)) {
            print(&errors, "bridge: a device was deleted\n");
            return 1;
        }
    }
}

static void print_count(struct output *out, const char *from, const char *to, const struct count *count)
{
    print(out, "%s to %s: forwarded %lu, changed %lu, dropped %lu\n", from, to, count->forwarded, count->changed,
          count->dropped);
}

int main(int argc, char **argv)
{
    static const int no_others[] = {0};
    struct count there = {0, 0, 0}, back = {0, 0, 0};

    prepare();
    if (argc != 3 || asks_for_help(argc, argv))
        return print_help(help, asks_for_help(argc, argv));
    if (!lk_cpu_supported()) {
        fprintf(stderr, "bridge: the processor has no SSE4.2 or no POPCNT\n");
        return 1;
    }
    struct pollfd fds[3] = {{.events = POLLIN}, {.events = POLLIN}, {.events = POLLIN}};
    for (int i = 0; i < 2; i++)
        if ((fds[i].fd = open_tap("bridge", argv[1 + i])) < 0)
            return 1;
    struct output out = open_output(STDOUT_FILENO);
    fds[2].fd = open_signals(no_others);
    if (fds[2].fd < 0) {
        perror("bridge: signalfd");
        return 1;
    }
    print(&out, "ready\n");
    int status = serve(fds, &there, &back);
    print_count(&out, argv[1], argv[2], &there);
    print_count(&out, argv[2], argv[1], &back);
    return status;
}
