/* Sends one frame again and again, as fast as it can.
 *     blast INTERFACE SECONDS HEX
 * Prints how many frames were sent. */
#define _GNU_SOURCE
#include <arpa/inet.h>
#include <linux/if_packet.h>
#include <net/if.h>
#include <stdio.h>
#include <stdlib.h>
#include <string.h>
#include <sys/socket.h>
#include <sys/uio.h>
#include <time.h>

enum { AT_ONCE = 64, LONGEST = 2048 };

static double seconds(void)
{
    struct timespec now;
    clock_gettime(CLOCK_MONOTONIC, &now);
    return (double)now.tv_sec + (double)now.tv_nsec / 1e9;
}

int main(int argc, char **argv)
{
    static uint8_t frame[LONGEST];
    static struct mmsghdr messages[AT_ONCE];
    struct iovec part = {frame, 0};
    unsigned long sent = 0;
    if (argc != 4 || strlen(argv[3]) > 2 * LONGEST)
        return 2;
    for (unsigned octet; part.iov_len < strlen(argv[3]) / 2; part.iov_len++)
        frame[part.iov_len] = sscanf(argv[3] + 2 * part.iov_len, "%2x", &octet) == 1 ? (uint8_t)octet : 0;
    for (int i = 0; i < AT_ONCE; i++)
        messages[i].msg_hdr = (struct msghdr){.msg_iov = &part, .msg_iovlen = 1};
    struct sockaddr_ll place = {.sll_family = AF_PACKET, .sll_ifindex = (int)if_nametoindex(argv[1])};
    int file = socket(AF_PACKET, SOCK_RAW, 0);
    if (file < 0 || bind(file, (struct sockaddr *)&place, sizeof place) < 0) {
        perror(argv[1]);
        return 1;
    }
    for (double end = seconds() + atof(argv[2]); seconds() < end;) {
        int count = sendmmsg(file, messages, AT_ONCE, 0);
        sent += count > 0 ? (unsigned long)count : 0;
    }
    printf("%lu\n", sent);
    return 0;
}
