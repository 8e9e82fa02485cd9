/* The start of a router, and its loop. */
#define _GNU_SOURCE
#include "router.h"

#include <errno.h>
#include <stdlib.h>

enum { BETWEEN_CHECKS = 1000 }; /* in milliseconds */

int start(struct router *router, const char *path, char **words, size_t count)
{
    signal(SIGHUP, SIG_IGN); /* until `serve` reads them */
    signal(SIGUSR1, SIG_IGN);
    router->out = open_output(STDOUT_FILENO);
    router->errors = open_output(STDERR_FILENO);
    router->path = path;
    router->now = milliseconds();
    if (!lk_cpu_supported()) {
        print(&router->errors, "%s: the processor has no SSE4.2 or no POPCNT\n", router->name);
        return 0;
    }
    if (count > MOST_INTERFACES) {
        print(&router->errors, "%s: more than %d interfaces\n", router->name, MOST_INTERFACES);
        return 0;
    }
    router->neighbours = make_neighbours();
    router->interfaces = calloc(count, sizeof *router->interfaces);
    if (router->neighbours == NULL || router->interfaces == NULL || !make_tables()) {
        print(&router->errors, "%s: out of memory\n", router->name);
        return 0;
    }
    for (; router->interface_count < count; router->interface_count++) {
        struct interface *interface = &router->interfaces[router->interface_count];
        if (!open_interface(router, words[router->interface_count], interface))
            return 0;
        interface->kernel_ipv4 = interface->kernel_ipv6 = router->kernel_answers && !interface->is_tap;
    }
    return read_config(router, 0);
}

static void print_interfaces(struct router *router)
{
    print(&router->out, "ready\n");
    for (const struct interface *one = router->interfaces; one < router->interfaces + router->interface_count; one++) {
        char hardware[LK_MAC_TEXT];
        lk_print_mac(one->own.hardware, hardware, sizeof hardware);
        print(&router->out, "%s: %s, MTU %zu\n", one->name, hardware, one->mtu);
    }
}

/* Returns 0 if the program is to end. */
static int take_signals(struct router *router, int signals)
{
    struct signalfd_siginfo signal;
    while (read(signals, &signal, sizeof signal) == sizeof signal) {
        if (signal.ssi_signo == SIGUSR1)
            print_counts(router);
        else if (signal.ssi_signo != SIGHUP)
            return 0;
        else if (read_config(router, 1)) {
            print(&router->errors, "%s: %s: read again\n", router->name, router->path);
            compare_with_kernel(router);
        }
    }
    return 1;
}

/* Forwards the frames that are there now, some of them at most, so that all interfaces have their turn. */
static void take_frames(struct router *router, uint16_t from)
{
    static struct packet packets[FRAMES_AT_ONCE];
    size_t count = receive(&router->interfaces[from], packets);
    for (size_t i = 0; i < count; i++)
        on_frame(router, from, &packets[i]);
    flush_all(router);
    send_released(router, packets);
}

static void check_interfaces(struct router *router, struct pollfd *files)
{
    for (size_t i = 0; i < router->interface_count; i++) {
        check_interface(router, &router->interfaces[i]);
        files[i] = (struct pollfd){.fd = router->interfaces[i].device, .events = POLLIN};
    }
    introduce(router);
}

int serve(struct router *router)
{
    static const int others[] = {SIGUSR1, SIGHUP, 0};
    size_t count = router->interface_count;
    struct pollfd *files = calloc(count + 1, sizeof *files);
    int signals = open_signals(others);
    if (files == NULL || signals < 0) {
        print(&router->errors, "%s: %s\n", router->name, strerror(errno));
        return 1;
    }
    print_interfaces(router);
    compare_with_kernel(router);
    files[count] = (struct pollfd){.fd = signals, .events = POLLIN};
    check_interfaces(router, files);
    for (int64_t next = milliseconds() + BETWEEN_CHECKS;;) {
        int is_failed = 0;
        poll(files, count + 1, router->now < next ? (int)(next - router->now) : 0);
        router->now = milliseconds();
        if (files[count].revents != 0 && !take_signals(router, signals))
            break;
        for (size_t i = 0; i < count; i++) {
            is_failed |= (files[i].revents & (POLLERR | POLLHUP | POLLNVAL)) != 0;
            if (files[i].revents != 0)
                take_frames(router, (uint16_t)i);
        }
        if (is_failed || router->now >= next) {
            check_interfaces(router, files);
            ask_again(router);
            expire_fragments(router);
            next = router->now + BETWEEN_CHECKS;
        }
    }
    print_counts(router);
    free(files);
    return 0;
}
