/* Moves frames between two interfaces, and does nothing else: what a router costs beside its steps.
 *     copy INTERFACE INTERFACE
 * The interfaces are those of programs/router.c. Each frame gets the Ethernet address of no host. A signal ends it. */
#include "../programs/routing/router.h"

#include <poll.h>
#include <stdio.h>
#include <string.h>

static const uint8_t elsewhere[6] = {2, 0, 0, 0, 0xee, 0x0e};

static void move(struct router *router, struct interface *from, struct interface *to)
{
    static struct packet packets[FRAMES_AT_ONCE];
    size_t count = receive(from, packets);
    for (size_t i = 0; i < count; i++) {
        memcpy(packets[i].frame, elsewhere, sizeof elsewhere);
        send_later(to, &packets[i]);
    }
    flush_all(router);
}

int main(int argc, char **argv)
{
    static struct interface ends[2];
    struct router router = {.name = "copy", .errors = open_output(STDERR_FILENO), .interfaces = ends};
    if (argc != 3)
        return 1;
    for (; router.interface_count < 2; router.interface_count++)
        if (!open_interface(&router, argv[1 + router.interface_count], &ends[router.interface_count]))
            return 1;
    struct pollfd files[2] = {{.fd = ends[0].device, .events = POLLIN}, {.fd = ends[1].device, .events = POLLIN}};
    printf("ready\n");
    fflush(stdout);
    for (;;) {
        poll(files, 2, -1);
        move(&router, &ends[0], &ends[1]);
        move(&router, &ends[1], &ends[0]);
    }
}
