/* A router on TAP devices and on interfaces of the kernel (Linux). docs/ROUTER.md shows how to start it.
 *     router [-k] [-n] FILE INTERFACE..
 * Each INTERFACE is tap:NAME, a TAP device that it makes unless it exists, or packet:NAME, an interface of the kernel.
 * FILE has their addresses, and static routes and neighbours. -k: the kernel has the addresses too, and answers for
 * them. -n: take packets that come from elsewhere than the route back to their source leads.
 *
 * Prints "ready", and its counters at SIGUSR1. SIGHUP: it reads FILE again. SIGINT and SIGTERM end it. */
#define _GNU_SOURCE
#include "routing/router.h"

static const char help[] =
    "usage: router [-k] [-n] FILE INTERFACE..\n"
    "Forwards IPv4 and IPv6 packets between interfaces.\n"
    "  -k         leaves packets to the router itself to the kernel, which has its addresses\n"
    "  -n         takes packets from elsewhere than the route back to their source leads\n"
    "  FILE       has addresses, routes and neighbours: docs/ROUTER.md\n"
    "  INTERFACE  packet:NAME, an interface of the kernel, or tap:NAME, a TAP device\n"
    "  --help     prints this\n"
    "SIGUSR1 prints counters, SIGHUP reads FILE again, SIGINT and SIGTERM end it.\n";

int main(int argc, char **argv)
{
    static struct router router = {.name = "router"};
    prepare();
    opterr = 0;
    int is_help = asks_for_help(argc, argv);
    for (int letter; !is_help && (letter = getopt(argc, argv, "+kn")) != -1;) {
        if (letter != 'k' && letter != 'n')
            return print_help(help, 0);
        router.kernel_answers |= letter == 'k';
        router.takes_any_way |= letter == 'n';
    }
    if (is_help || argc - optind < 2)
        return print_help(help, is_help);
    if (!start(&router, argv[optind], argv + optind + 1, (size_t)(argc - optind - 1)))
        return 1;
    return serve(&router);
}
