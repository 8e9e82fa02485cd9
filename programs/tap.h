/* What host.c, http.c, proved_host.c and bridge.c share: the TAP device and the addresses of a host. */
#ifndef TAP_H
#define TAP_H

#include "fragments.h"
#include <errno.h>
#include <fcntl.h>
#include <ip_wire.h>
#include <linux/if_tun.h>
#include <net/if.h>
#include <stdio.h>
#include <string.h>
#include <sys/ioctl.h>
#include <sys/socket.h>
#include <unistd.h>

/* The longest frame that a device has, in bytes, and how many are read before signals and timers have their turn. */
enum { LONGEST_FRAME = 65535 + 18, FRAMES_AT_ONCE = 64 };

/* Opens a TAP device, and makes it unless it exists. Returns -1 if that fails, with a message. */
static inline int open_tap(const char *program, const char *name)
{
    struct ifreq request = {.ifr_flags = IFF_TAP | IFF_NO_PI};
    int device = -1;
    if (*name == 0 || strlen(name) >= IFNAMSIZ) {
        errno = EINVAL;
    } else {
        strcpy(request.ifr_name, name);
        device = open("/dev/net/tun", O_RDWR | O_NONBLOCK | O_CLOEXEC);
    }
    if (device >= 0 && ioctl(device, TUNSETIFF, &request) == 0)
        return device;
    fprintf(stderr, "%s: %s: %s\n", program, name, strerror(errno));
    if (device >= 0)
        close(device);
    return -1;
}

/* The MTU of a device, in bytes, or 0 if it cannot be read. */
static inline size_t mtu_of(int device)
{
    static int any = -1;
    struct ifreq request = {.ifr_flags = 0};
    if (any < 0)
        any = socket(AF_INET, SOCK_DGRAM | SOCK_CLOEXEC, 0);
    int is_read = ioctl(device, TUNGETIFF, &request) == 0 && ioctl(any, SIOCGIFMTU, &request) == 0;
    return is_read ? (size_t)request.ifr_mtu : 0;
}

/* Writes a frame to a device. A packet that is longer than the MTU is written in fragments. Returns the number of frames
 * that the device took. */
static inline unsigned long write_packet(int device, struct fragments *fragments, const uint8_t *frame, size_t len)
{
    enum { FITS = LK_ETHERNET_HEADER_LEN + 576 };
    static uint8_t out[LONGEST_WHOLE];
    size_t mtu = len <= FITS ? 0 : mtu_of(device);
    unsigned long count = 0;
    ptrdiff_t n;
    if (mtu == 0 || len <= LK_ETHERNET_HEADER_LEN + mtu)
        return write(device, frame, len) == (ssize_t)len;
    const int64_t ident = next_ident(fragments, frame);
    for (size_t i = 0; (n = lk_fragment(frame, len, mtu, ident, i, out, sizeof out)) > 0; i++)
        count += write(device, out, (size_t)n) == n;
    return count;
}

/* The sooner one of two times for poll; -1: never. */
static inline int sooner(int a, int b)
{
    return a < 0 || (b >= 0 && b < a) ? b : a;
}

/* Whether a device is there after a read that failed: it has no frame, or is down. */
static inline int is_there(void)
{
    return errno == EAGAIN || errno == EINTR || errno == EIO;
}

/* 0.0.0.0 and :: mean that the host has no address of this version. */
static inline int parse_host_addr(const char *word, int version, struct lk_addr *addr)
{
    static const uint8_t zeros[sizeof addr->octets];
    return lk_parse_addr(word, strlen(word), addr) && addr->version == version
           && (lk_is_unicast(addr) || memcmp(addr->octets, zeros, sizeof zeros) == 0);
}

/* Reads the Ethernet, IPv4 and IPv6 address of a host. Returns 0 if one is none, with a message. */
static inline int read_host(const char *program, char **words, struct lk_host *host)
{
    static const char *const kinds[] = {"Ethernet", "IPv4", "IPv6"};
    int is_ethernet = lk_parse_mac(words[0], strlen(words[0]), host->hardware) && (host->hardware[0] & 1) == 0;
    int wrong = !is_ethernet                                  ? 0
                : !parse_host_addr(words[1], 4, &host->ipv4) ? 1
                : !parse_host_addr(words[2], 6, &host->ipv6) ? 2
                                                              : -1;
    if (wrong >= 0)
        fprintf(stderr, "%s: %s: not the %s address of a host\n", program, words[wrong], kinds[wrong]);
    return wrong < 0;
}

#endif
