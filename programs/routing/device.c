/* TAP devices and packet sockets. Both exchange frames with a virtio header, so that a frame with offloads
 * goes on as it came. */
#define _GNU_SOURCE
#include "router.h"

#include <arpa/inet.h>
#include <errno.h>
#include <linux/if_arp.h>
#include <linux/if_ether.h>
#include <linux/if_packet.h>
#include <linux/if_tun.h>
#include <sys/ioctl.h>
#include <sys/random.h>
#include <sys/socket.h>
#include <sys/uio.h>

enum { HEADER = sizeof(struct virtio_net_hdr), PARTS = 2, SOCKET_ROOM = 1 << 24 };

static int open_tap(struct interface *interface)
{
    struct ifreq request = {.ifr_flags = IFF_TAP | IFF_NO_PI | IFF_VNET_HDR};
    memcpy(request.ifr_name, interface->name, IFNAMSIZ);
    interface->device = open("/dev/net/tun", O_RDWR | O_NONBLOCK | O_CLOEXEC);
    if (interface->device < 0 || ioctl(interface->device, TUNSETIFF, &request) < 0)
        return 0;
    memcpy(interface->name, request.ifr_name, IFNAMSIZ);
    interface->index = if_nametoindex(interface->name);
    return 1;
}

static int open_socket(struct interface *interface)
{
    static const int on = 1, room = SOCKET_ROOM;
    struct packet_mreq groups = {.mr_type = PACKET_MR_ALLMULTI};
    struct sockaddr_ll place = {.sll_family = AF_PACKET, .sll_protocol = htons(ETH_P_ALL)};
    interface->index = if_nametoindex(interface->name);
    place.sll_ifindex = (int)interface->index;
    int device = interface->device = socket(AF_PACKET, SOCK_RAW | SOCK_NONBLOCK | SOCK_CLOEXEC, 0);
    if (device < 0 || interface->index == 0)
        return 0;
    /* Neighbour solicitations are sent to groups. */
    groups.mr_ifindex = (int)interface->index;
    setsockopt(device, SOL_PACKET, PACKET_ADD_MEMBERSHIP, &groups, sizeof groups);
    /* As much as the limit of the kernel allows, and all of it if the program may pass that limit. */
    setsockopt(device, SOL_SOCKET, SO_RCVBUF, &room, sizeof room);
    setsockopt(device, SOL_SOCKET, SO_RCVBUFFORCE, &room, sizeof room);
    /* What waits in the queue of a slow link counts too: else frames are lost before that queue is full. */
    setsockopt(device, SOL_SOCKET, SO_SNDBUF, &room, sizeof room);
    setsockopt(device, SOL_SOCKET, SO_SNDBUFFORCE, &room, sizeof room);
    return setsockopt(device, SOL_PACKET, PACKET_VNET_HDR, &on, sizeof on) == 0
           && setsockopt(device, SOL_PACKET, PACKET_AUXDATA, &on, sizeof on) == 0
           && setsockopt(device, SOL_PACKET, PACKET_IGNORE_OUTGOING, &on, sizeof on) == 0
           && bind(device, (struct sockaddr *)&place, sizeof place) == 0;
}

/* Whether a frame can be sent. A TAP device takes frames while it is up. An interface needs its cable too. `any` is a
 * socket, for its requests. */
static int is_up(const struct interface *interface, int any)
{
    struct pollfd room = {.fd = interface->device, .events = POLLOUT};
    struct ifreq request = {.ifr_flags = 0};
    memcpy(request.ifr_name, interface->name, IFNAMSIZ);
    if (interface->is_tap)
        return poll(&room, 1, 0) == 1 && (room.revents & POLLOUT);
    return ioctl(any, SIOCGIFFLAGS, &request) == 0 && (request.ifr_flags & IFF_RUNNING);
}

/* Reads whether the device is up, its MTU, and the Ethernet address of a socket's interface. A TAP device that was
 * moved to another network namespace keeps the MTU that it had. Returns what is wrong, or null. */
static const char *read_settings(struct interface *interface)
{
    struct ifreq request = {.ifr_flags = 0};
    const char *fault = NULL;
    int any = socket(AF_INET, SOCK_DGRAM | SOCK_CLOEXEC, 0);
    memcpy(request.ifr_name, interface->name, IFNAMSIZ);
    if (any >= 0 && ioctl(any, SIOCGIFMTU, &request) == 0)
        interface->mtu = (size_t)request.ifr_mtu;
    interface->is_up = is_up(interface, any);
    if (!interface->is_tap) {
        if (any < 0 || ioctl(any, SIOCGIFHWADDR, &request) < 0)
            fault = strerror(errno);
        else if (request.ifr_hwaddr.sa_family != ARPHRD_ETHER)
            fault = "not an Ethernet interface";
        else
            memcpy(interface->own.hardware, request.ifr_hwaddr.sa_data, 6);
    }
    close(any);
    return fault;
}

/* Returns what is wrong, or null. */
static const char *open_device(struct interface *interface)
{
    int is_open = (interface->is_tap ? open_tap : open_socket)(interface);
    const char *fault = is_open ? read_settings(interface) : strerror(errno);
    if (fault != NULL && interface->device >= 0) {
        close(interface->device);
        interface->device = -1;
    }
    return fault;
}

/* Reads the word of an interface. Returns what is wrong, or null. */
static const char *read_word(const char *word, struct interface *interface)
{
    const char *colon = strchr(word, ':');
    size_t kind_len = colon ? (size_t)(colon - word) : 0;
    *interface = (struct interface){.device = -1, .is_tap = kind_len == 3 && memcmp(word, "tap", 3) == 0};
    if ((!interface->is_tap && !(kind_len == 6 && memcmp(word, "packet", 6) == 0)) || strlen(colon + 1) >= IFNAMSIZ
        || colon[1] == 0)
        return "neither tap:NAME nor packet:NAME";
    strcpy(interface->name, colon + 1);
    return NULL;
}

int open_interface(struct router *router, const char *word, struct interface *interface)
{
    const char *fault = read_word(word, interface);
    /* A locally administered address, if the file does not name another one. */
    if (fault == NULL && getrandom(interface->own.hardware, 6, 0) != 6)
        fault = strerror(errno);
    interface->own.hardware[0] = 2;
    if (fault == NULL)
        fault = open_device(interface);
    for (size_t i = 0; i < router->interface_count && fault == NULL; i++)
        if (router->interfaces[i].index == interface->index)
            fault = "the same interface twice";
    if (fault != NULL)
        print(&router->errors, "%s: %s: %s\n", router->name, word, fault);
    return fault == NULL;
}

static int is_there(const struct interface *interface)
{
    struct ifreq request = {.ifr_flags = 0};
    char name[IFNAMSIZ];
    return interface->is_tap ? ioctl(interface->device, TUNGETIFF, &request) == 0
                             : if_indextoname(interface->index, name) != NULL;
}

void count_missed(struct interface *interface)
{
    struct tpacket_stats stats;
    socklen_t len = sizeof stats;
    if (!interface->is_tap && interface->device >= 0
        && getsockopt(interface->device, SOL_PACKET, PACKET_STATISTICS, &stats, &len) == 0)
        interface->missed += stats.tp_drops;
}

void check_interface(struct router *router, struct interface *interface)
{
    if (interface->device >= 0 && !is_there(interface)) {
        close(interface->device);
        interface->device = -1;
        interface->is_up = 0;
        print(&router->errors, "%s: %s: the device is gone\n", router->name, interface->name);
    } else if (interface->device >= 0) {
        read_settings(interface);
    } else if (if_nametoindex(interface->name) != 0 && open_device(interface) == NULL) {
        print(&router->errors, "%s: %s: the device is back\n", router->name, interface->name);
    }
}

/* What a device reads or writes: the virtio header and the frame. */
static void set_parts(struct iovec parts[PARTS], struct packet *packet, size_t len)
{
    parts[0] = (struct iovec){&packet->offload, HEADER};
    parts[1] = (struct iovec){packet->frame, len};
}

/* ---- receiving ---- */

static size_t receive_from_tap(struct interface *interface, struct packet *packets)
{
    size_t count = 0;
    for (; count < FRAMES_AT_ONCE; count++) {
        struct iovec parts[PARTS];
        set_parts(parts, &packets[count], sizeof packets->frame);
        ssize_t len = readv(interface->device, parts, PARTS);
        if (len < HEADER)
            break;
        packets[count].len = (size_t)len - HEADER;
        packets[count].is_tagged = 0;
    }
    return count;
}

static int has_tag(struct msghdr *message)
{
    for (struct cmsghdr *part = CMSG_FIRSTHDR(message); part != NULL; part = CMSG_NXTHDR(message, part)) {
        struct tpacket_auxdata aux;
        if (part->cmsg_level == SOL_PACKET && part->cmsg_type == PACKET_AUXDATA) {
            memcpy(&aux, CMSG_DATA(part), sizeof aux);
            return (aux.tp_status & TP_STATUS_VLAN_VALID) != 0;
        }
    }
    return 0;
}

static size_t receive_from_socket(struct interface *interface, struct packet *packets)
{
    static struct mmsghdr messages[FRAMES_AT_ONCE];
    static struct iovec parts[FRAMES_AT_ONCE][PARTS];
    static _Alignas(struct cmsghdr) char control[FRAMES_AT_ONCE][CMSG_SPACE(sizeof(struct tpacket_auxdata))];
    for (int i = 0; i < FRAMES_AT_ONCE; i++) {
        set_parts(parts[i], &packets[i], sizeof packets->frame);
        messages[i].msg_hdr = (struct msghdr){.msg_iov = parts[i], .msg_iovlen = PARTS, .msg_control = control[i],
                                              .msg_controllen = sizeof control[i]};
    }
    int received = recvmmsg(interface->device, messages, FRAMES_AT_ONCE, 0, NULL);
    size_t count = 0;
    for (; received > 0 && count < (size_t)received; count++) {
        packets[count].len = messages[count].msg_len > HEADER ? messages[count].msg_len - HEADER : 0;
        packets[count].is_tagged = has_tag(&messages[count].msg_hdr);
    }
    return count;
}

size_t receive(struct interface *interface, struct packet *packets)
{
    size_t count = (interface->is_tap ? receive_from_tap : receive_from_socket)(interface, packets);
    for (size_t i = 0; i < count; i++)
        packets[i].offload.flags &= VIRTIO_NET_HDR_F_NEEDS_CSUM;
    interface->received += count;
    return count;
}

/* ---- sending ---- */

size_t pad(uint8_t *frame, size_t len)
{
    if (len >= SHORTEST_FRAME)
        return len;
    memset(frame + len, 0, SHORTEST_FRAME - len);
    return SHORTEST_FRAME;
}

static void count_sent(struct interface *interface, int is_sent)
{
    if (is_sent)
        interface->sent++;
    else
        interface->lost++;
}

static void flush_socket(struct interface *interface)
{
    static struct mmsghdr messages[FRAMES_AT_ONCE];
    static struct iovec parts[FRAMES_AT_ONCE][PARTS];
    for (size_t i = 0; i < interface->queued; i++) {
        set_parts(parts[i], interface->queue[i], interface->queue[i]->len);
        messages[i].msg_hdr = (struct msghdr){.msg_iov = parts[i], .msg_iovlen = PARTS};
    }
    for (size_t done = 0; done < interface->queued;) {
        int sent = sendmmsg(interface->device, messages + done, (unsigned)(interface->queued - done), 0);
        interface->sent += sent > 0 ? (unsigned long)sent : 0;
        interface->lost += sent <= 0;
        done += sent > 0 ? (size_t)sent : 1;
    }
}

static void flush(struct interface *interface)
{
    if (!interface->is_tap)
        flush_socket(interface);
    for (size_t i = 0; interface->is_tap && i < interface->queued; i++) {
        struct iovec parts[PARTS];
        set_parts(parts, interface->queue[i], interface->queue[i]->len);
        count_sent(interface, writev(interface->device, parts, PARTS) > 0);
    }
    interface->queued = 0;
}

void send_later(struct interface *interface, struct packet *packet)
{
    if (interface->queued == FRAMES_AT_ONCE)
        flush(interface);
    interface->queue[interface->queued++] = packet;
}

void flush_all(struct router *router)
{
    for (size_t i = 0; i < router->interface_count; i++)
        if (router->interfaces[i].queued > 0)
            flush(&router->interfaces[i]);
}

void send_now(struct interface *interface, const struct virtio_net_hdr *offload, const uint8_t *frame, size_t len)
{
    struct iovec parts[PARTS] = {{(void *)(uintptr_t)offload, HEADER}, {(void *)(uintptr_t)frame, len}};
    count_sent(interface, writev(interface->device, parts, PARTS) > 0);
}

/* ---- checksums that are left to the device ---- */

/* Where the UDP or TCP checksum of a packet is, or null if the device has nothing to compute. */
static uint8_t *open_checksum(struct packet *packet)
{
    size_t place = (size_t)packet->offload.csum_start + packet->offload.csum_offset;
    int is_open = (packet->offload.flags & VIRTIO_NET_HDR_F_NEEDS_CSUM) && place + 2 <= packet->len;
    return is_open ? packet->frame + place : NULL;
}

static void store_word(uint8_t *place, uint16_t word)
{
    place[0] = (uint8_t)(word >> 8);
    place[1] = (uint8_t)word;
}

void complete_checksum(struct packet *packet)
{
    size_t start = packet->offload.csum_start;
    uint8_t *place = open_checksum(packet);
    if (place == NULL)
        return;
    uint16_t checksum = (uint16_t)~lk_checksum(packet->frame + start, packet->len - start);
    int is_udp = packet->offload.csum_offset == 6;
    store_word(place, is_udp && checksum == 0 ? 0xffff : checksum);
    if (packet->offload.gso_type == VIRTIO_NET_HDR_GSO_NONE)
        packet->offload = (struct virtio_net_hdr){.flags = 0};
}

void uncomplete_checksum(struct packet *packet)
{
    struct lk_frame f;
    uint8_t pseudo[36] = {0}, *place = open_checksum(packet);
    if (place == NULL)
        return;
    lk_read_captured(packet->frame, packet->offload.csum_start, packet->len, &f);
    memcpy(pseudo, f.src.addr.octets, 16);
    memcpy(pseudo + 16, f.dst.addr.octets, 16);
    store_word(pseudo + 32, f.protocol);
    store_word(pseudo + 34, (uint16_t)(packet->len - packet->offload.csum_start));
    store_word(place, lk_checksum(pseudo, sizeof pseudo));
}

/* A checksum that is left to the device stays. lk_clamp_mss leaves it too, but one in 65536 is valid by chance, and then
 * only the device's flag tells. */
void clamp(const struct interface *interface, struct packet *packet)
{
    size_t headers = packet->frame[LK_ETHERNET_HEADER_LEN] >> 4 == 4 ? 40 : 60; /* of IP and TCP, without options */
    uint8_t kept[2], *place = open_checksum(packet);
    if (!interface->clamps || interface->mtu < headers || interface->mtu - headers > 65535)
        return;
    if (place != NULL)
        memcpy(kept, place, 2);
    lk_clamp_mss(packet->frame, packet->len, (uint16_t)(interface->mtu - headers));
    if (place != NULL)
        memcpy(place, kept, 2);
}
